//! Cases for link numbers (Ticket 7 of document 02): lines read with one number; places of a line looked at with several, of which some are no
//! link's; tables into which reports of several links are entered. And the numbers that the cases of the other files are read with.
//!
//! A case is made from the seed and its number alone. Some sorts of cases and some link numbers go by the number, so that every seed reaches the
//! quotas.

use crate::altitude_cases;
use crate::case::{Case, Tables};
use crate::index_cases::{self, seldom};
use crate::line::{self, Lent, IDLE, LAST_LINK};
use crate::line_cases::{case_of, damaged, noise, places, short, valid_text};
use crate::link_case::Linking;
use crate::report;
use crate::rng::Rng;

const LINE: u64 = 18;
const LINKS: u64 = 19;
const TABLE: u64 = 20;
const TABLE_OF_LINKS: u64 = 21;

const MOST_WORDS: usize = 32_768;

// ---- numbers

/// So many numbers are a link's; this is the least that is none.
pub const COUNT: u32 = LAST_LINK + 1;

/// Numbers that are no link's: the least, some at the ends of what a byte, two bytes and 31 bits hold, one that is a link's in its low byte, the
/// greatest.
pub const ABOVE: &[u64] = &[16, 17, 255, 256, 271, 65_535, 65_536, 1 << 31, 0xFFFF_FFFF];

/// The bits that no link's number has, by the exponents of their weights.
pub const HIGH_BITS: &[u64] = &[4, 5, 6, 7, 8, 9, 10, 11, 12, 13, 14, 15, 16, 17, 18, 19, 20, 21, 22, 23, 24, 25, 26, 27, 28, 29, 30, 31];

pub fn link(rng: &mut Rng) -> u32 {
    rng.below(u64::from(COUNT)) as u32
}

/// A number that is no link's: chosen, a link's but for one bit, a link's in its low bits, one of a byte, or any.
pub fn above(rng: &mut Rng) -> u32 {
    let (link, any) = (link(rng), rng.next() as u32);
    match rng.below(8) {
        0..=2 => *rng.pick(ABOVE) as u32,
        3 | 4 => link + (1 << rng.pick(HIGH_BITS)),
        5 => (any << rng.pick(&[8, 16, 24])).max(1 << 24) + link,
        6 => (any % 256).max(COUNT),
        _ => any.max(COUNT),
    }
}

/// A link's number, but once in sixteen times one that is none.
pub fn mostly(rng: &mut Rng) -> u32 {
    if rng.once_in(16) {
        above(rng)
    } else {
        link(rng)
    }
}

// ---- lines

/// A short line on one link, all of them by turns; or, a quarter of the time, with a number that is no link's.
pub fn line(tables: &Tables, seed: u64, number: u64) -> Case {
    let rng = &mut Rng::new(seed, LINE, number);
    let (form, turn) = (altitude_cases::either(rng), number / 4);
    let link = if number % 4 == 3 { above(rng) } else { turn as u32 % COUNT };
    let mut bytes = line::to_bytes(&short(rng, tables));
    if number % 20 == 9 {
        bytes.push(rng.below(256) as u8);
    }
    case_of(rng, bytes, form, link)
}

/// Two reports whose layouts go by the number, a run with a refusal that is seldom otherwise, and a damaged one or noise, in any order.
fn runs(rng: &mut Rng, tables: &Tables, number: u64) -> Vec<u16> {
    let layouts = [2 * number, 2 * number + 1].map(|turn| &tables.reports[turn as usize % tables.reports.len()]);
    let mut runs = layouts.map(|layout| report::to_words(&valid_text(rng, layout))).to_vec();
    runs.push(seldom(rng, tables));
    runs.push(if rng.once_in(3) { noise(rng, 7) } else { damaged(rng, tables) });
    rng.shuffle(&mut runs);
    let mut words = vec![IDLE; rng.index(2)];
    for run in runs {
        words.extend(run);
        words.extend(vec![IDLE; rng.between(1, 2) as usize]);
    }
    words
}

/// The bytes of a line: of runs; at times without a run, with a byte more, or with more words than a line has.
fn bytes_of(rng: &mut Rng, tables: &Tables, number: u64) -> Vec<u8> {
    let mut words = match number % 16 {
        0 => Vec::new(),
        1 => vec![IDLE; rng.index(4)],
        _ => runs(rng, tables, number),
    };
    let too_long = number % 48 == 5;
    if too_long {
        words.resize(MOST_WORDS + 1 + rng.index(20), *rng.pick(&[IDLE, 0, 868]));
    }
    let mut bytes = line::to_bytes(&words);
    if number % 16 == 3 || (too_long && rng.once_in(4)) {
        bytes.push(rng.below(256) as u8);
    }
    bytes
}

/// Each place that a walk asks, and others.
fn places_of(rng: &mut Rng, tables: &Tables, form: u32, bytes: &[u8]) -> Vec<u64> {
    let words = line::words(bytes);
    let line = Lent { form, layouts: tables.of(form), link: 0, length: bytes.len(), words: &words };
    let asked = line.walk().map(|(place, _)| place);
    asked.chain(places(rng, words.len()).into_iter().skip(1)).collect()
}

/// A line looked at with two or three links' numbers, each another, and with one or two that are none, in any order.
pub fn links(tables: &Tables, seed: u64, number: u64) -> Case {
    let rng = &mut Rng::new(seed, LINKS, number);
    let form = altitude_cases::either(rng);
    let bytes = bytes_of(rng, tables, number);
    let places = places_of(rng, tables, form, &bytes);
    let first = link(rng);
    let mut links = vec![first, (first + rng.between(1, 7) as u32) % COUNT];
    if rng.once_in(2) {
        links.push((first + rng.between(8, 15) as u32) % COUNT);
    }
    links.extend((0..rng.between(1, 2)).map(|_| above(rng)));
    rng.shuffle(&mut links);
    Case::Links(Linking { bytes, form, links, places })
}

// ---- the index

fn either(rng: &mut Rng) -> u32 {
    if rng.once_in(2) {
        link(rng)
    } else {
        above(rng)
    }
}

/// A table as those of the other files are; half of its calls with a number that is no link's, all in either form.
pub fn table(tables: &Tables, seed: u64, number: u64) -> Case {
    let rng = &mut Rng::new(seed, TABLE, number);
    let mut indexing = index_cases::table_of(rng, tables, number);
    for (form, link) in indexing.forms_and_links() {
        (*form, *link) = (altitude_cases::either(rng), either(rng));
    }
    Case::Index(indexing)
}

/// A small table, and reports with few file numbers, which are entered on any links, in either form.
pub fn table_of_links(tables: &Tables, seed: u64, number: u64) -> Case {
    let rng = &mut Rng::new(seed, TABLE_OF_LINKS, number);
    let mut indexing = index_cases::few_numbers(rng, tables);
    indexing.forms_and_links().for_each(|(form, _)| *form = altitude_cases::either(rng));
    Case::Index(indexing)
}
