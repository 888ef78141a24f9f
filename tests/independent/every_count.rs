//! Every count of each range, azimuth and time field in a report of each layout, so that nmi, degrees and seconds are compared for all of
//! them. The expected floats are also held against document 01's meaning of exact: scaled to 1/1024 they give whole multiples of the count.

use crate::bits;
use crate::case::{Case, Tables};
use crate::exact;
use crate::layout::Layout;
use crate::line::{self, IDLE};
use crate::line_cases::valid_items;
use crate::report::{self, AZIMUTH, RANGE, START, TIME, WORD_BITS};
use crate::rng::Rng;
use crate::run::Named;

const MOST_WORDS: usize = 32_768;

/// One line of reports with the counts from one to another in the item.
fn line_of(layout: &Layout, item: u32, from: u64, to: u64) -> Case {
    let rng = &mut Rng::new(u64::from(item), u64::from(layout.number), from);
    let mut words = Vec::new();
    for count in from..=to {
        let mut items = valid_items(rng, layout);
        for given in items.iter_mut().filter(|given| given.0 == u64::from(item)) {
            given.1 = count;
        }
        let text = layout.write(&items).expect("valid values are written");
        words.extend(report::to_words(&report::with_parity(&text)));
        words.push(IDLE);
    }
    Case::Line { bytes: line::to_bytes(&words), form: 0, link: 0, step: 512, places: Vec::new() }
}

fn lines_of(layout: &Layout, item: u32, width: usize) -> Vec<Named> {
    let largest = bits::number(&"1".repeat(width));
    let per_line = (MOST_WORDS / (layout.bits / WORD_BITS + 1)) as u64;
    let mut lines = Vec::new();
    let mut from = 0;
    while from <= largest {
        let to = largest.min(from + per_line - 1);
        let name = format!("{}, item {}, counts {} to {}", layout.name, item, from, to);
        lines.push((name, line_of(layout, item, from, to)));
        from = to + 1;
    }
    lines
}

/// All lines, made as they are asked for.
pub fn cases() -> impl Iterator<Item = Named> {
    let tables = Tables::new();
    let counted = [RANGE, START, AZIMUTH, TIME];
    tables.reports.into_iter().flat_map(move |layout| {
        let items: Vec<(u32, usize)> = layout.item_pieces().map(|(number, _, piece)| (number, piece.width())).collect();
        let wanted = items.into_iter().filter(move |item| counted.contains(&item.0));
        wanted.flat_map(move |(number, width)| lines_of(&layout, number, width))
    })
}

/// The expected floats themselves, over every count.
pub fn check_exact() {
    for (words, ranges, azimuths) in [(4, 2_048, 4_096), (7, 32_768, 8_192)] {
        let (nmi, degrees) = if words == 4 { (128, 90) } else { (8, 45) };
        for count in 0..ranges {
            assert_eq!(exact::in_1024ths(exact::nmi(count, words)), Some(count * nmi));
        }
        for count in 0..azimuths {
            assert_eq!(exact::in_1024ths(exact::degrees(count, words)), Some(count * degrees));
        }
    }
    for count in 0..64 {
        assert_eq!(exact::in_1024ths(exact::seconds(count)), Some(count * 128));
    }
}
