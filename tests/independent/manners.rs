//! Manners: where a line breaks rules between fields, from Ticket 6 of document 02, sections 4.1.4, 4.2.2 and 4.2.7 and Table 4-2 of document
//! 004, and siamrung.h.
//!
//! A rule is told by bits of the report as text, in the document's bit numbers; no record is made of it. The line is split at its idle words,
//! and not walked. Whether a run is accepted is what report.rs says of its words alone.

use crate::bits;
use crate::layout::Layout;
use crate::line::{refusal_of_place, IDLE};
use crate::report::{self, Report, ALTITUDE, CARRIED, START};

/// What siamrung_manners_done takes out of an answer.
pub const LISTED: u32 = 128;
pub const TOO_LONG: u32 = 2;
pub const ODD: u32 = 14;
pub const TOO_SMALL: u32 = 52;

/// No line has more breaches: a Map and its idle word are five words, and the last Map needs no idle word.
pub const MOST: u64 = (32_768 + 1) / 5;
/// The bytes of a breach in a list.
pub const BREACH: u64 = 4;

/// The rules in the document's order.
pub const SUBSTITUTION: u32 = 1;
pub const RELAY: u32 = 2;
pub const ZEROS: u32 = 3;
pub const MAP: u32 = 4;

/// Bits from one of the document's numbers to another, and what they are.
pub type Bits = (usize, usize, &'static str);

/// A rule, the number of bits of the report, and the bits of a report that breaks it.
type Rule = (u32, usize, &'static [Bits]);

const RULES: &[Rule] = &[
    // 4.2.7: "For a radar substitution report .. the Mode 3/A bit (Bit 5) will not be set"; by CD, by MTD, by RDAS (4.2.3)
    (SUBSTITUTION, 91, &[(2, 4, "110"), (5, 5, "1"), (12, 12, "1"), (88, 90, "100")]),
    (SUBSTITUTION, 91, &[(2, 4, "110"), (5, 5, "1"), (12, 12, "1"), (88, 90, "110")]),
    (SUBSTITUTION, 91, &[(2, 4, "110"), (5, 5, "1"), (12, 12, "1"), (88, 90, "101")]),
    // 4.1.4: "Relayed data always has the Mode C bit set to one"; bit 47 is the relay mode (4.1.14)
    (RELAY, 91, &[(2, 4, "111"), (6, 6, "0"), (47, 47, "1")]),
    // 4.2.2: bit 6 is one if "the code bits are not all zeros"
    (ZEROS, 91, &[(2, 4, "110"), (6, 6, "1"), (12, 12, "0"), (79, 90, "000000000000")]),
    // Table 4-2: bits 14-24 are the range start and bits 40-50 the range stop; both have eleven bits, so that the text tells which is less
    (MAP, 52, &[(2, 8, "0000000")]),
];

/// Whether all these bits stand in the text.
pub fn holds(text: &str, wanted: &[Bits]) -> bool {
    wanted.iter().all(|&(from, to, bits)| bits::span(text, from, to) == bits)
}

/// The range start and the range stop of a Map, as text.
pub fn start_and_stop(text: &str) -> (&str, &str) {
    (bits::span(text, 14, 24), bits::span(text, 40, 50))
}

pub fn stop_below_start(text: &str) -> bool {
    let (start, stop) = start_and_stop(text);
    stop < start
}

/// The bits of a run. Of a word above 8191 only the last thirteen are taken.
pub fn text_of(run: &[u16]) -> String {
    run.iter().map(|word| bits::of_word(word % 8192)).collect()
}

/// The rule that the bits break; whether they are those of an accepted report is another matter.
pub fn broken(text: &str) -> Option<u32> {
    let fits = |rule: &&Rule| rule.1 == text.len() && holds(text, rule.2);
    let all = RULES.iter().filter(fits).map(|rule| rule.0);
    let rules: Vec<u32> = all.filter(|&rule| rule != MAP || stop_below_start(text)).collect();
    assert!(rules.len() <= 1, "bits {} break rules {:?}", text, rules);
    rules.first().copied()
}

/// The rule that a record breaks, as siamrung.h tells it by items; only to check the bits.
pub fn broken_by(report: &Report) -> Option<u32> {
    let is = |item: u32, value: i64| report.item(item) == Some(value);
    let (mode3a, mode_c, relay, stop) = (17, 18, 24, 12);
    match report.kind {
        111..=113 if is(mode3a, 1) => Some(SUBSTITUTION),
        106..=109 if is(relay, 1) && (report.item(CARRIED).is_some() || is(mode_c, 0)) => Some(RELAY),
        110 if is(ALTITUDE, 0) => Some(ZEROS),
        103 if report.item(stop) < report.item(START) => Some(MAP),
        _ => None,
    }
}

#[derive(Clone, Copy, PartialEq, Eq, Debug)]
pub struct Breach {
    pub place: u64,
    pub rule: u32,
}

/// The breaches of words, however many words they are.
pub fn of_words(layouts: &[Layout], words: &[u16]) -> Vec<Breach> {
    let mut breaches = Vec::new();
    let mut place = 0;
    for run in words.split(|&word| word == IDLE) {
        let rule = if run.is_empty() { None } else { broken(&text_of(run)) };
        if let Some(rule) = rule.filter(|_| report::read(layouts, run).is_ok()) {
            breaches.push(Breach { place, rule });
        }
        place += run.len() as u64 + 1;
    }
    breaches
}

/// The breaches of a line that is passed with that length, or refusal 2 or 14.
pub fn of_line(layouts: &[Layout], length: usize, words: &[u16]) -> Result<Vec<Breach>, u32> {
    match refusal_of_place(length, 0) {
        0 => Ok(of_words(layouts, words)),
        refusal => Err(refusal),
    }
}

/// What was done, and how many breaches the line has, for a list of that many bytes.
pub fn done(breaches: &Result<Vec<Breach>, u32>, length: u64) -> (u32, u64) {
    match breaches {
        Err(refusal) => (*refusal, 0),
        Ok(all) if BREACH * all.len() as u64 > length => (TOO_SMALL, all.len() as u64),
        Ok(all) => (LISTED, all.len() as u64),
    }
}

/// The number that the call answers.
pub fn answer((done, breaches): (u32, u64)) -> u32 {
    256 * breaches as u32 + done
}

/// The bytes of the breaches in a list: two for the place, two for the rule.
pub fn to_bytes(breaches: &[Breach]) -> Vec<u8> {
    breaches.iter().flat_map(|breach| [(breach.place as u16).to_be_bytes(), (breach.rule as u16).to_be_bytes()].concat()).collect()
}
