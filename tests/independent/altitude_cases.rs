//! Cases for the forms of the altitude (Ticket 5 of document 02): the lines, writings and tables of the other files in two's complement or in
//! both forms; and more of each whose altitudes stand at the limits of the forms.
//!
//! A case is made from the seed and its number alone. Of writings the sort goes by the number, so that every seed reaches the quotas.

use crate::bits;
use crate::case::{Case, Tables, Write};
use crate::index::{Entry, FILE};
use crate::index_case::{Indexing, Step};
use crate::index_cases;
use crate::layout::Layout;
use crate::line::{self, IDLE};
use crate::line_cases::{case_of, line_in, random_bits, shuffled_bytes, valid_items, valid_text, write_in};
use crate::link_cases;
use crate::report::{self, ALTITUDE, CARRIED};
use crate::rng::Rng;

const LINE: u64 = 10;
const LINE_OF_ALTITUDES: u64 = 11;
const WRITE: u64 = 12;
const WRITE_OF_ALTITUDE: u64 = 13;
const TABLE: u64 = 14;
const TABLE_OF_ALTITUDES: u64 = 15;

// ---- forms

/// Numbers that a form may be from C. The first is document 01's form; all others are two's complement, whichever of their bits are zero.
pub const FORMS: [u32; 8] = [0, 1, 2, 255, 256, 65_536, 0x8000_0000, 0xFFFF_FFFF];

pub fn complement(rng: &mut Rng) -> u32 {
    match rng.below(8) {
        0 => 1 << rng.below(32),
        1 => (rng.next() as u32).max(1),
        _ => *rng.pick(&FORMS[1..]),
    }
}

pub fn either(rng: &mut Rng) -> u32 {
    if rng.once_in(2) {
        0
    } else {
        complement(rng)
    }
}

// ---- lines

/// Bits 79-90 at the ends of both forms: the greatest number, zero, minus zero, and those next to them.
const ENDS: &[&str] =
    &["000000000000", "000000000001", "011111111110", "011111111111", "100000000000", "100000000001", "110000000000", "111111111110", "111111111111"];

fn pattern(rng: &mut Rng) -> String {
    match rng.below(5) {
        0 | 1 => "100000000000".to_string(),
        2 => rng.pick(ENDS).to_string(),
        3 => bits::flipped("100000000000", rng.index(12) + 1),
        _ => random_bits(rng, 12),
    }
}

/// The layouts that have one of the items.
fn with_item<'a>(layouts: &'a [Layout], items: &[u32]) -> Vec<&'a Layout> {
    let has = |layout: &&Layout| layout.item_pieces().any(|(number, _, _)| items.contains(&number));
    layouts.iter().filter(has).collect()
}

/// A report with an altitude or with carried bits; at times one other bit is turned over before the parity is set, or one after it.
fn run(rng: &mut Rng, tables: &Tables) -> Vec<u16> {
    let layout = *rng.pick(&with_item(&tables.reports, &[ALTITUDE, CARRIED]));
    let mut text = valid_text(rng, layout);
    bits::paste(&mut text, &[(79, 90)], &pattern(rng));
    if rng.once_in(4) {
        text = bits::flipped(&text, rng.index(78) + 1);
    }
    let mut text = report::with_parity(&text);
    if rng.once_in(16) {
        text = bits::flipped(&text, rng.index(91) + 1);
    }
    report::to_words(&text)
}

/// A line as document 01's form has them, in two's complement, where any bits 79-90 are an altitude.
pub fn line(tables: &Tables, seed: u64, number: u64) -> Case {
    let rng = &mut Rng::new(seed, LINE, number);
    let form = complement(rng);
    line_in(rng, tables, number, form)
}

/// A short line of reports whose altitudes stand at limits, in either form.
pub fn line_of_altitudes(tables: &Tables, seed: u64, number: u64) -> Case {
    let rng = &mut Rng::new(seed, LINE_OF_ALTITUDES, number);
    let form = either(rng);
    let mut words = vec![IDLE; rng.index(3)];
    for _ in 0..rng.between(1, 6) {
        words.extend(run(rng, tables));
        words.extend(vec![IDLE; rng.between(1, 3) as usize]);
    }
    let link = link_cases::mostly(rng);
    case_of(rng, line::to_bytes(&words), form, link)
}

// ---- writing

/// An altitude at a limit or next to it, any other near one, or a far one, of which some differ from a near one in one high bit.
fn altitude(rng: &mut Rng, turn: u64) -> i64 {
    let near = *rng.pick(&[-2050, -2047, -2046, -3, -1, 0, 1, 5, 2046, 2047, 2049]);
    match turn % 8 {
        0 => -2048,
        1 => -2049,
        2 => 2048,
        3 => near,
        4 => rng.between(0, 4_095) as i64 - 2_048,
        5 => rng.between(0, 8_400) as i64 - 4_200,
        6 => near ^ (1 << rng.between(12, 63)),
        _ => rng.next() as i64,
    }
}

/// A writing as document 01's form has them, in two's complement; where several reports are written, the later ones in either form.
pub fn write(tables: &Tables, seed: u64, number: u64) -> Case {
    let rng = &mut Rng::new(seed, WRITE, number);
    let form = complement(rng);
    write_in(rng, tables, number, form, either)
}

/// One report with an altitude, in document 01's form and in two's complement by turns, mostly with room enough.
pub fn write_of_altitude(tables: &Tables, seed: u64, number: u64) -> Case {
    let rng = &mut Rng::new(seed, WRITE_OF_ALTITUDE, number);
    let form = if number % 2 == 0 { 0 } else { complement(rng) };
    let layout = *rng.pick(&with_item(tables.of(form), &[ALTITUDE]));
    let mut items = valid_items(rng, layout);
    for item in items.iter_mut().filter(|item| item.0 == u64::from(ALTITUDE)) {
        item.1 = altitude(rng, number / 2) as u64;
    }
    let items = shuffled_bytes(rng, &mut items, false);
    let place = rng.index(3);
    let room = if rng.once_in(8) { rng.index(8) } else { 8 + rng.index(2) };
    let writes = vec![Write { place: place as u64, form, kind: layout.number, items }];
    Case::Write { bytes: rng.bytes(2 * (place + room)), writes }
}

// ---- the index

/// A table as document 01's form has them, each call in either form.
pub fn table(tables: &Tables, seed: u64, number: u64) -> Case {
    let rng = &mut Rng::new(seed, TABLE, number);
    let mut indexing = index_cases::table_of(rng, tables, number);
    indexing.forms_and_links().for_each(|(form, _)| *form = either(rng));
    Case::Index(indexing)
}

/// A small table, and a line of ATCRBS reports with few file numbers whose altitudes stand at limits. Each is entered in either form.
pub fn table_of_altitudes(tables: &Tables, seed: u64, number: u64) -> Case {
    let rng = &mut Rng::new(seed, TABLE_OF_ALTITUDES, number);
    let layouts = with_item(&tables.reports, &[ALTITUDE]).into_iter().filter(|layout| layout.items().contains(&FILE));
    let layout = *rng.pick(&layouts.collect::<Vec<&Layout>>());
    let (mut words, mut steps) = (Vec::new(), Vec::new());
    for _ in 0..rng.between(1, 6) {
        let mut text = valid_text(rng, layout);
        bits::paste(&mut text, &[(66, 77)], &format!("{:012b}", rng.below(4)));
        bits::paste(&mut text, &[(79, 90)], &pattern(rng));
        words.push(IDLE);
        let (form, link) = (either(rng), link_cases::mostly(rng));
        steps.push(Step::Enter { line: 0, place: words.len() as u64, form, link, scan: rng.below(3) as u32 });
        words.extend(report::to_words(&report::with_parity(&text)));
    }
    rng.shuffle(&mut steps);
    steps.push(Step::Walk { line: 0, place: 0, form: either(rng), link: link_cases::link(rng), scan: 3 });
    steps.extend((1..=3).map(|number| Step::Find { number }));
    let used = rng.below(3) as u16;
    let mut table: Vec<Entry> = (1..=used).map(|number| Entry { number, kind: 114, scan: 9, place: 90 }).collect();
    table.extend(vec![Entry::default(); rng.index(5)]);
    Case::Index(Indexing::alone(table, vec![line::to_bytes(&words)], steps))
}
