//! Runs for the cases of manners: reports that break a rule; reports that meet all conditions of a rule but one; and runs that would break a
//! rule but are refused.

use crate::bits;
use crate::case::Tables;
use crate::layout::Layout;
use crate::line_cases::{odd_word, random_bits, valid_text};
use crate::manners::{Bits, MAP, RELAY, SUBSTITUTION, ZEROS};
use crate::report;
use crate::rng::Rng;

/// The layout of a report by its name, and bits that it is given.
type Recipe = (&'static str, &'static [Bits]);

/// Reports that break rules 1 to 4. The start and the stop of a Map are not told here.
const BREAKING: [&[Recipe]; 4] = [
    &[("ATCRBS-CD", &[(5, 5, "1")]), ("ATCRBS-MTD", &[(5, 5, "1")]), ("ATCRBS-RDAS", &[(5, 5, "1")])],
    &[
        ("DABS carried", &[(47, 47, "1")]),
        ("DABS-CD", &[(6, 6, "0"), (47, 47, "1")]),
        ("DABS-MTD", &[(6, 6, "0"), (47, 47, "1")]),
        ("DABS-RDAS", &[(6, 6, "0"), (47, 47, "1")]),
    ],
    &[("ATCRBS with altitude", &[(79, 90, "000000000000")])],
    &[("MAP", &[])],
];

/// Reports that meet all conditions of a rule but one.
const NEARLY: &[Recipe] = &[
    // rule 1 but for bit 5
    ("ATCRBS-CD", &[(5, 5, "0")]),
    ("ATCRBS-MTD", &[(5, 5, "0")]),
    ("ATCRBS-RDAS", &[(5, 5, "0")]),
    // rule 1 but for bit 4; not relayed, or with Mode C
    ("DABS-CD", &[(5, 5, "1"), (47, 47, "0")]),
    ("DABS-MTD", &[(5, 5, "1"), (6, 6, "1")]),
    ("DABS-RDAS", &[(5, 5, "1"), (47, 47, "0")]),
    // rule 1 but for bit 12, also with bits 88-90 as a substitution has them
    ("ATCRBS with altitude", &[(5, 5, "1")]),
    ("ATCRBS carried", &[(5, 5, "1"), (88, 90, "100")]),
    ("ATCRBS carried", &[(5, 5, "1"), (88, 90, "110")]),
    ("ATCRBS with altitude", &[(5, 5, "1"), (88, 90, "101")]),
    // rule 1 but for bits 88-90: search reports, in which bit 5 is spare
    ("MTD", &[(5, 5, "1")]),
    ("RDAS", &[(5, 5, "1")]),
    // rule 2 but for bit 6
    ("DABS with altitude", &[(47, 47, "1")]),
    ("DABS-CD", &[(6, 6, "1"), (47, 47, "1")]),
    ("DABS-MTD", &[(6, 6, "1"), (47, 47, "1")]),
    ("DABS-RDAS", &[(6, 6, "1"), (47, 47, "1")]),
    // rule 2 but for bit 47
    ("DABS carried", &[(47, 47, "0")]),
    ("DABS-CD", &[(6, 6, "0"), (47, 47, "0")]),
    ("DABS-MTD", &[(6, 6, "0"), (47, 47, "0")]),
    ("DABS-RDAS", &[(6, 6, "0"), (47, 47, "0")]),
    // rule 2 but for bit 4; in search reports bit 47 is of the time
    ("ATCRBS carried", &[(47, 47, "1")]),
    ("ATCRBS-CD", &[(5, 5, "0"), (6, 6, "0"), (47, 47, "1")]),
    ("ATCRBS-MTD", &[(5, 5, "0"), (6, 6, "0"), (47, 47, "1")]),
    ("ATCRBS-RDAS", &[(5, 5, "0"), (6, 6, "0"), (47, 47, "1")]),
    ("MTD", &[(47, 47, "1")]),
    ("RDAS", &[(47, 47, "1")]),
    // rule 3 but for bit 4
    ("DABS with altitude", &[(79, 90, "000000000000")]),
    // rule 3 but for bit 6
    ("ATCRBS carried", &[(79, 90, "000000000000")]),
    // rule 3 but for bit 12 and, so that it is accepted, bits 88-90
    ("ATCRBS-CD", &[(5, 5, "0"), (6, 6, "1"), (79, 87, "000000000")]),
    ("ATCRBS-MTD", &[(5, 5, "0"), (6, 6, "1"), (79, 87, "000000000")]),
    ("ATCRBS-RDAS", &[(5, 5, "0"), (6, 6, "1"), (79, 87, "000000000")]),
];

/// The reports of four words that are no Map.
const NO_MAPS: &[&str] = &["SEARCH", "STROBE", "STATUS", "RTQC"];

/// The bits of an altitude that is not all zeros by one bit. Bit 79 comes twice, far apart: one form refuses it, the other does not.
const ALTITUDE_BITS: &[usize] = &[79, 80, 81, 82, 83, 84, 85, 86, 87, 88, 89, 90, 79];

/// How many sorts of report nearly knows.
pub const NEARLY_SORTS: usize = NEARLY.len() + ALTITUDE_BITS.len() + NO_MAPS.len() + 3;

fn layout<'a>(tables: &'a Tables, name: &str) -> &'a Layout {
    tables.reports.iter().find(|layout| layout.name == name).expect("a layout's name")
}

/// A report of the recipe, its parity set.
fn text_of(rng: &mut Rng, tables: &Tables, (name, given): Recipe) -> String {
    let mut text = valid_text(rng, layout(tables, name));
    given.iter().for_each(|&(from, to, bits)| bits::paste(&mut text, &[(from, to)], bits));
    report::with_parity(&text)
}

// ---- starts and stops

/// Two numbers of eleven bits, the first one greater: by one, by one bit, from zero, from the greatest, in the high bits only.
fn falling(rng: &mut Rng) -> (u64, u64) {
    let (one, other) = (rng.between(1, 2_047), rng.below(2_048));
    match rng.below(8) {
        0 | 1 => (one, one - 1),
        2 => (one, 0),
        3 => (2_047, other.min(2_046)),
        4 => {
            let bit = 1 << rng.below(11);
            (other | bit, (other | bit) - bit)
        }
        5 => {
            let (high, low) = (rng.between(1, 7), rng.below(255));
            (256 * high + low, 256 * rng.below(high) + rng.between(low + 1, 255))
        }
        _ if one == other => (one, one - 1),
        _ => (one.max(other), one.min(other)),
    }
}

/// Bits 14-24 and 40-50, the range start and the range stop of a Map.
fn with_range(text: &str, start: u64, stop: u64) -> String {
    let mut text = text.to_string();
    for (span, value) in [((14, 24), start), ((40, 50), stop)] {
        bits::paste(&mut text, &[span], &bits::of_number(value, 11).expect("eleven bits"));
    }
    report::with_parity(&text)
}

/// A Map whose stop is equal to its start, one above it, or above it.
fn map_in_order(rng: &mut Rng, tables: &Tables, sort: usize) -> String {
    let text = valid_text(rng, layout(tables, "MAP"));
    let (high, low) = falling(rng);
    match sort {
        0 => with_range(&text, high, high),
        1 => with_range(&text, high - 1, high),
        _ => with_range(&text, low, high),
    }
}

// ---- reports

/// A report that breaks the rule.
pub fn breaking(rng: &mut Rng, tables: &Tables, rule: u32) -> String {
    let recipe = *rng.pick(BREAKING[rule as usize - 1]);
    let text = text_of(rng, tables, recipe);
    if rule != MAP {
        return text;
    }
    let (start, stop) = falling(rng);
    with_range(&text, start, stop)
}

/// A report that nearly breaks a rule, by the turn; or, where a spare bit would be set or the altitude is minus zero, a run that is refused.
pub fn nearly(rng: &mut Rng, tables: &Tables, turn: usize) -> String {
    let mut sort = turn % NEARLY_SORTS;
    if sort < NEARLY.len() {
        return text_of(rng, tables, NEARLY[sort]);
    }
    sort -= NEARLY.len();
    if sort < ALTITUDE_BITS.len() {
        let zeros = text_of(rng, tables, BREAKING[ZEROS as usize - 1][0]);
        return report::with_parity(&bits::flipped(&zeros, ALTITUDE_BITS[sort]));
    }
    sort -= ALTITUDE_BITS.len();
    if sort < NO_MAPS.len() {
        let text = valid_text(rng, layout(tables, NO_MAPS[sort]));
        let (high, low) = falling(rng);
        return with_range(&text, high, low);
    }
    map_in_order(rng, tables, sort - NO_MAPS.len())
}

// ---- refused runs

/// A refusal and the rule that the run would break: the rules that each refusal is possible with. Number 6 has more ways.
const REFUSED: &[(u32, u32)] = &[
    (3, 1),
    (3, 2),
    (3, 3),
    (3, 4),
    (4, 1),
    (4, 2),
    (4, 3),
    (4, 4),
    (5, 1),
    (5, 2),
    (5, 3),
    (5, 4),
    (6, 1),
    (6, 2),
    (6, 3),
    (6, 4),
    (6, 1),
    (6, 2),
    (6, 3),
    (6, 4),
    (7, 1),
    (7, 2),
    (7, 3),
    (8, 1),
    (8, 2),
    (8, 4),
];

/// How many sorts of run refused knows.
pub const REFUSED_SORTS: usize = REFUSED.len();

/// A run that would break a rule but is refused, by the turn.
pub fn refused(rng: &mut Rng, tables: &Tables, turn: usize) -> Vec<u16> {
    let (refusal, rule) = REFUSED[turn % REFUSED_SORTS];
    let text = breaking(rng, tables, rule);
    let mut words = report::to_words(&text);
    let at = rng.index(words.len());
    match refusal {
        3 => words[at] += 8_192 * rng.between(1, 7) as u16,
        4 => words[at] ^= 1,
        5 => words = report::to_words(&unknown(rng, &text, rule)),
        6 => return other_length(rng, tables, words, rule),
        7 => words = report::to_words(&unassigned(rng, &text, rule)),
        _ => words = report::to_words(&spare_set(rng, tables, &text)),
    }
    words
}

/// Bit 2 or bit 3 turned over; of a Map also one of bits 4-8.
fn unknown(rng: &mut Rng, text: &str, rule: u32) -> String {
    let last = if rule == MAP { 8 } else { 3 };
    report::with_parity(&bits::flipped(text, rng.between(2, last) as usize))
}

/// More words behind or in front, or the last word missing.
fn other_length(rng: &mut Rng, tables: &Tables, mut words: Vec<u16>, rule: u32) -> Vec<u16> {
    let more = match rng.below(3) {
        0 => report::to_words(&breaking(rng, tables, rule)),
        1 => (0..rng.between(1, 8)).map(|_| odd_word(rng)).collect(),
        _ => vec![odd_word(rng)],
    };
    match rng.below(8) {
        0 => words.truncate(words.len() - 1),
        1..=4 => words.extend(more),
        _ => words = [more, words].concat(),
    }
    words
}

/// Bit 12 one and bits 88-90 not assigned. In DABS, 010 and 001 are not assigned either; where rule 3 is broken, bits 79-90 stay zeros.
fn unassigned(rng: &mut Rng, text: &str, rule: u32) -> String {
    let patterns: &[&str] = match rule {
        SUBSTITUTION => &["000", "011", "111"],
        RELAY => &["000", "011", "111", "010", "001"],
        _ => &["000"],
    };
    let mut text = text.to_string();
    bits::paste(&mut text, &[(12, 12)], "1");
    bits::paste(&mut text, &[(88, 90)], *rng.pick(patterns));
    report::with_parity(&text)
}

/// One or more of the spare bits set.
fn spare_set(rng: &mut Rng, tables: &Tables, text: &str) -> String {
    let layout = tables.reports.iter().find(|layout| layout.bits == text.len() && layout.fits(text, text.len())).expect("a layout");
    let spares = layout.spares();
    let mut text = text.to_string();
    let one = *rng.pick(&spares);
    for spare in spares.into_iter().filter(|&spare| spare == one || rng.once_in(8)) {
        bits::paste(&mut text, &[(spare, spare)], "1");
    }
    report::with_parity(&text)
}

/// A run with some of its bits turned over, also those above the thirteenth; the parity is set again half of the time.
pub fn flipped(rng: &mut Rng, text: &str) -> Vec<u16> {
    let mut text = text.to_string();
    for _ in 0..rng.between(1, 3) {
        text = bits::flipped(&text, rng.index(text.len()) + 1);
    }
    if rng.once_in(2) {
        return report::to_words(&report::with_parity(&text));
    }
    let mut words = report::to_words(&text);
    if rng.once_in(4) {
        let at = rng.index(words.len());
        words[at] = bits::number(&format!("{}{}", random_bits(rng, 3), bits::of_word(words[at]))) as u16;
    }
    words
}
