//! What a run met of manners: counts of what Ticket 6 of document 02 and siamrung.h say, and the quotas that a full run has to reach.
//!
//! Every count comes from the case and from this program's own answer, not from what a case was meant to be.

use crate::altitude_cases::FORMS;
use crate::bits;
use crate::case::Tables;
use crate::layout::Layout;
use crate::line::{Look, IDLE, MOST_BYTES};
use crate::manners::{self, Bits, Breach, BREACH, LISTED, MOST, ODD, RELAY, SUBSTITUTION, TOO_LONG, TOO_SMALL, ZEROS};
use crate::manners_case::{Checking, Lend, Lists, MOST_LIST};
use crate::report;
use crate::tally::{Row, Tally};
use std::collections::BTreeSet;

const RULES: &[u64] = &[1, 2, 3, 4];
const EITHER: &[u64] = &[0, 1];

const LINES: &[Row] = &[
    ("lines", &[], 20_000),
    ("words", &[], 0),
    ("lines without a word", &[], 1_000),
    ("lines of idle words alone", &[], 1_000),
    ("lines with a breach, idle words in front of all runs", &[], 1_000),
    ("lines with a breach, two idle words or more between two runs", &[], 1_000),
    ("lines with a breach, idle words behind all runs", &[], 1_000),
    ("lines with N breaches", &[0, 1, 2, 3, 4, 5], 1_000),
    ("lines with ten breaches or more", &[], 1_000),
    ("lines with 256 breaches or more", &[], 50),
    ("lines with 6553 breaches", &[], 20),
    ("lines with breaches of N rules", RULES, 1_000),
    ("lines with a breach, all runs accepted", &[], 1_000),
    ("lines with a breach, and a run refused with N", &[3, 4, 5, 6, 7, 8, 9], 1_000),
    ("lines with a breach, and a run that only two's complement accepts", &[], 1_000),
    ("lines without a breach, and refused runs", &[], 500),
    ("lines of 65,536 bytes with a breach", &[], 100),
];

const BREACHES: &[Row] = &[
    ("rule N broken", RULES, 1_000),
    ("rule 1 broken, kind N", &[111, 112, 113], 1_000),
    ("rule 1 broken, bit 6 is N", EITHER, 1_000),
    ("rule 1 broken, bit 47 is N", EITHER, 1_000),
    ("rule 2 broken, kind N", &[106, 107, 108, 109], 1_000),
    ("rule 2 broken, bit 5 is N", EITHER, 1_000),
    ("rule 2 broken, bit 12 is N", EITHER, 1_000),
    ("rule 3 broken, bit 5 is N", EITHER, 1_000),
    ("rule 3 broken, bit 47 is N", EITHER, 1_000),
    ("rule 4 broken, map variation N", &[0, 1, 2, 3], 1_000),
    ("rule 4 broken, the stop is one below the start", &[], 1_000),
    ("rule 4 broken, the stop is 0", &[], 1_000),
    ("rule 4 broken, the start is 2047", &[], 1_000),
    ("rule 4 broken, the start and the stop differ in one bit", &[], 1_000),
    ("rule 4 broken, the low eight bits of the stop are above those of the start", &[], 1_000),
    ("rule N broken in the first word of the line", RULES, 1_000),
    ("rule N broken up to the last word of the line", RULES, 1_000),
    ("rule N broken from place 256 on", RULES, 1_000),
    ("rule N broken from place 32,512 on", RULES, 100),
    ("rule N broken right behind a refused run", RULES, 1_000),
    ("rule N broken right before a refused run", RULES, 1_000),
    (THEN[0], RULES, 1_000),
    (THEN[1], RULES, 1_000),
    (THEN[2], RULES, 1_000),
    (THEN[3], RULES, 1_000),
];

const THEN: [&str; 4] = [
    "rule N broken, then rule 1 by the next breach",
    "rule N broken, then rule 2 by the next breach",
    "rule N broken, then rule 3 by the next breach",
    "rule N broken, then rule 4 by the next breach",
];

/// Reports that meet all conditions of a rule but one, by their kinds and bits.
type Near = (&'static str, &'static [u64], &'static [Bits]);

const NEAR: &[Near] = &[
    ("rule 1 but for bit 5, kind N", &[111, 112, 113], &[(5, 5, "0")]),
    ("rule 1 but for bit 4, kind N", &[107, 108, 109], &[(5, 5, "1")]),
    ("rule 1 but for bit 12, kind N", &[110], &[(5, 5, "1")]),
    ("rule 1 but for bit 12, kind N, bits 88-90 of CD", &[110], &[(5, 5, "1"), (88, 90, "100")]),
    ("rule 1 but for bit 12, kind N, bits 88-90 of MTD", &[110], &[(5, 5, "1"), (88, 90, "110")]),
    ("rule 1 but for bit 12, kind N, bits 88-90 of RDAS", &[110], &[(5, 5, "1"), (88, 90, "101")]),
    ("rule 2 but for bit 4, kind N", &[110, 111, 112, 113, 114, 115], &[(6, 6, "0"), (47, 47, "1")]),
    ("rule 2 but for bit 6, kind N", &[106, 107, 108, 109], &[(6, 6, "1"), (47, 47, "1")]),
    ("rule 2 but for bit 47, kind N", &[106, 107, 108, 109], &[(6, 6, "0"), (47, 47, "0")]),
    ("rule 3 but for bit 4, kind N", &[106], &[(6, 6, "1"), (79, 90, "000000000000")]),
    ("rule 3 but for bit 6, kind N", &[110], &[(6, 6, "0"), (79, 90, "000000000000")]),
    ("rule 3 but for bits 12 and 88-90, kind N", &[111, 112, 113], &[(6, 6, "1"), (79, 87, "000000000")]),
];

const OTHER_NEAR: &[Row] = &[
    ("rule 3 but for bit N alone", &[79, 80, 81, 82, 83, 84, 85, 86, 87, 88, 89, 90], 1_000),
    ("rule 4 but for the kind, kind N", &[101, 102, 104, 105], 1_000),
    ("rule 4 but for an equal stop", &[], 1_000),
    ("rule 4 but for a stop one above", &[], 1_000),
    ("rule 4 but for a stop above", &[], 1_000),
];

const REFUSED: &[Row] = &[
    ("refused with 3, rule N but for a wide word", RULES, 1_000),
    ("refused with 4, rule N but for the parity", RULES, 1_000),
    ("refused with 5, rule N but for a bit of the first word", RULES, 1_000),
    ("refused with 6, rule N broken by the first words", RULES, 1_000),
    ("refused with 6, rule N broken by the last words", RULES, 1_000),
    ("refused with 7, rule N but for bits 88-90", &[1, 2], 1_000),
    ("refused with 7, rule 3 but for bit 12 alone", &[], 1_000),
    ("refused with 8, rule N but for a spare bit", &[1, 2, 4], 1_000),
    ("refused with 8, rule 1 but for bits 88-90 alone, MTD", &[], 1_000),
    ("refused with 8, rule 1 but for bits 88-90 alone, RDAS", &[], 1_000),
    ("refused with 9, rule 3 but for bit 79 alone", &[], 1_000),
];

const LISTING: &[Row] = &[
    ("calls", &[], 0),
    ("listed, no breach", &[], 1_000),
    ("listed, no breach, NULL", &[], 1_000),
    ("listed, no breach, a list of 0 bytes among others", &[], 1_000),
    ("listed, no breach, a longer list", &[], 1_000),
    ("listed, one breach, just enough", &[], 1_000),
    ("listed, several breaches, just enough", &[], 1_000),
    ("listed, several breaches, just enough, bytes around the list", &[], 1_000),
    ("listed, breaches, N bytes more", &[1, 2, 3, 4], 1_000),
    ("listed, breaches, a list of 26,212 bytes", &[], 500),
    ("listed, breaches, a list said to be longer than it is", &[], 500),
    ("listed, N bytes on the line", &[0, 2, 65_534, 65_536], 200),
    ("listed, 6553 breaches", &[], 20),
    ("form N, breaches listed", &[0, 1, 2, 255, 256, 65_536, 0x8000_0000, 0xFFFF_FFFF], 1_000),
    ("form above 1, breaches listed", &[], 1_000),
    ("the same breaches listed in both forms", &[], 1_000),
    ("the same breaches listed in both forms, a run that only one accepts", &[], 1_000),
];

const REFUSING: &[Row] = &[
    ("52", &[], 1_000),
    ("52, one breach, a byte too small", &[], 1_000),
    ("52, several breaches, a byte too small", &[], 1_000),
    ("52, several breaches, N bytes too small", &[2, 3, 4], 200),
    ("52, several breaches, room for some", &[], 1_000),
    ("52, one breach, no byte", &[], 1_000),
    ("52, several breaches, no byte", &[], 1_000),
    ("52, NULL", &[], 1_000),
    ("52, a list of 0 bytes among others", &[], 1_000),
    ("52, bytes around the list", &[], 1_000),
    ("52, 6553 breaches, a byte too small", &[], 20),
    ("N", &[2, 14], 1_000),
    ("2, 65,537 bytes", &[], 1_000),
    ("2, 65,538 bytes", &[], 1_000),
    ("2, a length that is only said", &[], 500),
    ("14, one byte", &[], 500),
    ("14, 65,535 bytes", &[], 500),
    ("N, breaches on the line, a list too small for them", &[2, 14], 1_000),
    ("N, breaches on the line, a list large enough", &[2, 14], 1_000),
];

/// A case, and what this program says of it.
pub struct Met<'a> {
    pub case: &'a Checking,
    pub words: &'a [u16],
    pub looks: &'a [Look],
    pub lists: &'a Lists,
}

impl Met<'_> {
    fn runs(&self) -> Vec<Run<'_>> {
        self.looks.iter().filter(|look| look.is_run()).map(|look| Run::of(look, self.words)).collect()
    }

    /// The breaches; nothing for a refused line.
    fn breaches(&self) -> &[Breach] {
        self.lists[0].as_deref().unwrap_or(&[])
    }
}

struct Run<'a> {
    look: &'a Look,
    words: &'a [u16],
    text: String,
    rule: Option<u32>,
}

impl<'a> Run<'a> {
    fn of(look: &'a Look, line: &'a [u16]) -> Run<'a> {
        let words = &line[look.first as usize..look.after as usize];
        let text = manners::text_of(words);
        let rule = manners::broken(&text).filter(|_| look.report.is_some());
        Run { look, words, text, rule }
    }

    fn kind(&self) -> u64 {
        u64::from(self.look.kind)
    }

    fn number(&self, from: usize, to: usize) -> u64 {
        bits::number(bits::span(&self.text, from, to))
    }

    /// An ATCRBS report with Mode C whose altitude is not zero in that one bit; nothing where there are more such bits, or none.
    fn one_bit(&self) -> Option<u64> {
        let atcrbs = self.text.len() == 91 && manners::holds(&self.text, &[(2, 4, "110"), (6, 6, "1"), (12, 12, "0")]);
        let ones: Vec<u64> = (79..=90).filter(|&bit| atcrbs && self.number(bit, bit) == 1).map(|bit| bit as u64).collect();
        Some(ones).filter(|ones| ones.len() == 1).map(|ones| ones[0])
    }
}

#[derive(Default)]
pub struct MannersTotals {
    tally: Tally,
}

impl MannersTotals {
    pub fn line(&mut self, tables: &Tables, met: &Met) {
        let runs = met.runs();
        self.tally.add("lines");
        self.tally.add_many("words", met.words.len() as u64);
        self.shape(met, &runs);
        self.company(met, &runs);
        for run in &runs {
            match (run.rule, run.look.refusal) {
                (Some(rule), _) => self.broken(run, rule, met.words.len() as u64),
                (None, 0) => self.accepted(run),
                _ => self.refused(tables.of(met.case.form), run),
            }
        }
        let one_form_only = runs.iter().any(only_in_complement);
        self.both_forms(met, one_form_only);
        self.calls(tables, met);
    }

    // ---- lines

    fn shape(&mut self, met: &Met, runs: &[Run]) {
        let tally = &mut self.tally;
        tally.add_if(met.case.bytes.is_empty(), "lines without a word");
        if met.lists[0].is_err() {
            return;
        }
        let breaches = met.breaches();
        tally.add_if(!met.words.is_empty() && runs.is_empty(), "lines of idle words alone");
        if breaches.len() <= 5 {
            tally.add_of("lines with N breaches", breaches.len() as u64);
        }
        tally.add_if(breaches.len() >= 10, "lines with ten breaches or more");
        tally.add_if(breaches.len() >= 256, "lines with 256 breaches or more");
        tally.add_if(breaches.len() as u64 == MOST, "lines with 6553 breaches");
        if breaches.is_empty() {
            return tally.add_if(runs.iter().any(|run| run.look.refusal != 0), "lines without a breach, and refused runs");
        }
        let wide = |pair: &[Run]| pair[1].look.first - pair[0].look.after >= 2;
        tally.add_if(met.words.first() == Some(&IDLE), "lines with a breach, idle words in front of all runs");
        tally.add_if(runs.windows(2).any(wide), "lines with a breach, two idle words or more between two runs");
        tally.add_if(met.words.last() == Some(&IDLE), "lines with a breach, idle words behind all runs");
        tally.add_if(met.case.bytes.len() == MOST_BYTES, "lines of 65,536 bytes with a breach");
    }

    /// What stands beside breaches on their line.
    fn company(&mut self, met: &Met, runs: &[Run]) {
        let tally = &mut self.tally;
        let breaches = met.breaches();
        if breaches.is_empty() {
            return;
        }
        let rules: BTreeSet<u32> = breaches.iter().map(|breach| breach.rule).collect();
        let refusals: BTreeSet<u32> = runs.iter().map(|run| run.look.refusal).filter(|&refusal| refusal != 0).collect();
        tally.add_of("lines with breaches of N rules", rules.len() as u64);
        tally.add_if(refusals.is_empty(), "lines with a breach, all runs accepted");
        for refusal in refusals {
            tally.add_of("lines with a breach, and a run refused with N", u64::from(refusal));
        }
        tally.add_if(runs.iter().any(only_in_complement), "lines with a breach, and a run that only two's complement accepts");
        for pair in breaches.windows(2) {
            tally.add_of(THEN[pair[1].rule as usize - 1], u64::from(pair[0].rule));
        }
        for pair in runs.windows(2) {
            let (before, behind) = (&pair[0], &pair[1]);
            if let (Some(rule), 1..) = (behind.rule, before.look.refusal) {
                tally.add_of("rule N broken right behind a refused run", u64::from(rule));
            }
            if let (Some(rule), 1..) = (before.rule, behind.look.refusal) {
                tally.add_of("rule N broken right before a refused run", u64::from(rule));
            }
        }
    }

    // ---- runs

    fn broken(&mut self, run: &Run, rule: u32, words: u64) {
        let (tally, number) = (&mut self.tally, u64::from(rule));
        tally.add_of("rule N broken", number);
        match rule {
            SUBSTITUTION => {
                tally.add_of("rule 1 broken, kind N", run.kind());
                tally.add_of("rule 1 broken, bit 6 is N", run.number(6, 6));
                tally.add_of("rule 1 broken, bit 47 is N", run.number(47, 47));
            }
            RELAY => {
                tally.add_of("rule 2 broken, kind N", run.kind());
                tally.add_of("rule 2 broken, bit 5 is N", run.number(5, 5));
                tally.add_of("rule 2 broken, bit 12 is N", run.number(12, 12));
            }
            ZEROS => {
                tally.add_of("rule 3 broken, bit 5 is N", run.number(5, 5));
                tally.add_of("rule 3 broken, bit 47 is N", run.number(47, 47));
            }
            _ => self.broken_map(run),
        }
        let (tally, place) = (&mut self.tally, run.look.first);
        let ends = [
            (place == 0, "rule N broken in the first word of the line"),
            (run.look.after == words, "rule N broken up to the last word of the line"),
            (place >= 256, "rule N broken from place 256 on"),
            (place >= 32_512, "rule N broken from place 32,512 on"),
        ];
        ends.into_iter().filter(|end| end.0).for_each(|end| tally.add_of(end.1, number));
    }

    fn broken_map(&mut self, run: &Run) {
        let tally = &mut self.tally;
        let (start, stop) = (run.number(14, 24), run.number(40, 50));
        let (first, second) = manners::start_and_stop(&run.text);
        let unlike = first.chars().zip(second.chars()).filter(|(bit, other)| bit != other).count();
        tally.add_of("rule 4 broken, map variation N", run.number(9, 10));
        tally.add_if(start == stop + 1, "rule 4 broken, the stop is one below the start");
        tally.add_if(stop == 0, "rule 4 broken, the stop is 0");
        tally.add_if(start == 2_047, "rule 4 broken, the start is 2047");
        tally.add_if(unlike == 1, "rule 4 broken, the start and the stop differ in one bit");
        tally.add_if(stop % 256 > start % 256, "rule 4 broken, the low eight bits of the stop are above those of the start");
    }

    /// An accepted report that breaks no rule.
    fn accepted(&mut self, run: &Run) {
        let (tally, kind) = (&mut self.tally, run.kind());
        for (name, _, _) in NEAR.iter().filter(|near| near.1.contains(&kind) && manners::holds(&run.text, near.2)) {
            tally.add_of(name, kind);
        }
        if let Some(bit) = run.one_bit() {
            tally.add_of("rule 3 but for bit N alone", bit);
        }
        if run.text.len() == 91 {
            return;
        }
        let (start, stop) = (run.number(14, 24), run.number(40, 50));
        match (kind, stop < start) {
            (103, _) => tally.add(match stop - start {
                0 => "rule 4 but for an equal stop",
                1 => "rule 4 but for a stop one above",
                _ => "rule 4 but for a stop above",
            }),
            (_, true) => tally.add_of("rule 4 but for the kind, kind N", kind),
            _ => (),
        }
    }

    fn refused(&mut self, layouts: &[Layout], run: &Run) {
        let (tally, text) = (&mut self.tally, &run.text);
        let whole = matches!(text.len(), 52 | 91);
        let would = manners::broken(text).map(u64::from);
        match (run.look.refusal, would) {
            (3, Some(rule)) => tally.add_of("refused with 3, rule N but for a wide word", rule),
            (4, Some(rule)) => tally.add_of("refused with 4, rule N but for the parity", rule),
            (5, _) if whole => {
                if let Some(rule) = (2..=8).find_map(|bit| manners::broken(&bits::flipped(text, bit))) {
                    tally.add_of("refused with 5, rule N but for a bit of the first word", u64::from(rule));
                }
            }
            (6, _) => self.other_length(layouts, run),
            (7, Some(rule)) => tally.add_of("refused with 7, rule N but for bits 88-90", rule),
            (7, None) => {
                let mode3a = manners::holds(text, &[(4, 5, "01")]);
                let zeros = manners::holds(text, &[(4, 4, "0"), (6, 6, "1"), (79, 90, "000000000000")]);
                mode3a.then(|| tally.add_of("refused with 7, rule N but for bits 88-90", 1));
                tally.add_if(zeros, "refused with 7, rule 3 but for bit 12 alone");
            }
            (8, Some(rule)) => tally.add_of("refused with 8, rule N but for a spare bit", rule),
            (8, None) if text.len() == 91 && manners::holds(text, &[(4, 5, "01"), (12, 12, "1")]) => {
                tally.add_if(manners::holds(text, &[(88, 90, "010")]), "refused with 8, rule 1 but for bits 88-90 alone, MTD");
                tally.add_if(manners::holds(text, &[(88, 90, "001")]), "refused with 8, rule 1 but for bits 88-90 alone, RDAS");
            }
            (9, _) => tally.add_if(run.one_bit() == Some(79), "refused with 9, rule 3 but for bit 79 alone"),
            _ => (),
        }
    }

    /// A run of another length, of which the first or the last words alone are a breach.
    fn other_length(&mut self, layouts: &[Layout], run: &Run) {
        let breach = |words: &[u16]| manners::broken(&manners::text_of(words)).filter(|_| report::read(layouts, words).is_ok());
        for length in [4, 7].into_iter().filter(|&length| length < run.words.len()) {
            if let Some(rule) = breach(&run.words[..length]) {
                self.tally.add_of("refused with 6, rule N broken by the first words", u64::from(rule));
            }
            if let Some(rule) = breach(&run.words[run.words.len() - length..]) {
                self.tally.add_of("refused with 6, rule N broken by the last words", u64::from(rule));
            }
        }
    }

    // ---- calls

    /// Whether both forms were asked and listed the same breaches, one or more.
    fn both_forms(&mut self, met: &Met, one_form_only: bool) {
        let listed = |lend: &&Lend| manners::done(&met.lists[0], lend.length).0 == LISTED;
        let forms: BTreeSet<bool> = met.case.lends.iter().filter(listed).map(|lend| lend.form == 0).collect();
        let both = forms.len() == 2 && !met.breaches().is_empty();
        self.tally.add_if(both, "the same breaches listed in both forms");
        self.tally.add_if(both && one_form_only, "the same breaches listed in both forms, a run that only one accepts");
    }

    fn calls(&mut self, tables: &Tables, met: &Met) {
        // Of a refused line the breaches are counted all the same: the list may be too small for them or not.
        let on_line = if met.lists[0].is_err() { manners::of_words(&tables.reports, met.words).len() } else { 0 };
        for lend in &met.case.lends {
            self.tally.add("calls");
            match manners::done(&met.lists[0], lend.length) {
                (LISTED, count) => self.listed(met.case, lend, count),
                (TOO_SMALL, count) => self.too_small(lend, count),
                (refusal, _) => self.refused_line(met.case, lend, refusal, on_line as u64),
            }
        }
    }

    fn listed(&mut self, case: &Checking, lend: &Lend, count: u64) {
        let tally = &mut self.tally;
        let (alone, more) = (lend.front == 0 && lend.behind == 0, lend.length - BREACH * count);
        if matches!(case.length, 0 | 2 | 65_534 | 65_536) {
            tally.add_of("listed, N bytes on the line", case.length);
        }
        tally.add_if(count == MOST, "listed, 6553 breaches");
        if count == 0 {
            tally.add("listed, no breach");
            return tally.add(match (more, alone) {
                (0, true) => "listed, no breach, NULL",
                (0, false) => "listed, no breach, a list of 0 bytes among others",
                _ => "listed, no breach, a longer list",
            });
        }
        match more {
            0 if count == 1 => tally.add("listed, one breach, just enough"),
            0 => {
                tally.add("listed, several breaches, just enough");
                tally.add_if(!alone, "listed, several breaches, just enough, bytes around the list");
            }
            1..=4 => tally.add_of("listed, breaches, N bytes more", more),
            _ => (),
        }
        tally.add_if(lend.length == BREACH * MOST, "listed, breaches, a list of 26,212 bytes");
        tally.add_if(lend.length > MOST_LIST, "listed, breaches, a list said to be longer than it is");
        if FORMS.contains(&lend.form) {
            tally.add_of("form N, breaches listed", u64::from(lend.form));
        }
        tally.add_if(lend.form > 1, "form above 1, breaches listed");
    }

    fn too_small(&mut self, lend: &Lend, count: u64) {
        let tally = &mut self.tally;
        let (alone, fewer) = (lend.front == 0 && lend.behind == 0, BREACH * count - lend.length);
        tally.add("52");
        tally.add_if(count == 1 && fewer == 1, "52, one breach, a byte too small");
        tally.add_if(count > 1 && fewer == 1, "52, several breaches, a byte too small");
        if count > 1 && matches!(fewer, 2..=4) {
            tally.add_of("52, several breaches, N bytes too small", fewer);
        }
        tally.add_if(lend.length >= BREACH, "52, several breaches, room for some");
        tally.add_if(count == MOST && fewer == 1, "52, 6553 breaches, a byte too small");
        tally.add_if(!alone, "52, bytes around the list");
        if lend.length == 0 {
            tally.add(if count == 1 { "52, one breach, no byte" } else { "52, several breaches, no byte" });
            tally.add(if alone { "52, NULL" } else { "52, a list of 0 bytes among others" });
        }
    }

    /// With 2 or 14.
    fn refused_line(&mut self, case: &Checking, lend: &Lend, refusal: u32, on_line: u64) {
        let (tally, number) = (&mut self.tally, u64::from(refusal));
        tally.add_of("N", number);
        tally.add_if(refusal == TOO_LONG && case.length == 65_537, "2, 65,537 bytes");
        tally.add_if(refusal == TOO_LONG && case.length == 65_538, "2, 65,538 bytes");
        tally.add_if(refusal == TOO_LONG && case.length > case.bytes.len() as u64, "2, a length that is only said");
        tally.add_if(refusal == ODD && case.length == 1, "14, one byte");
        tally.add_if(refusal == ODD && case.length == 65_535, "14, 65,535 bytes");
        if on_line > 0 {
            let enough = lend.length >= BREACH * on_line;
            let names = ["N, breaches on the line, a list too small for them", "N, breaches on the line, a list large enough"];
            tally.add_of(names[usize::from(enough)], number);
        }
    }

    // ---- the quotas

    /// How many lines and how many calls there were.
    pub fn both(&self) -> (u64, u64) {
        (self.tally.counted("lines", 0), self.tally.counted("calls", 0))
    }

    /// Prints the counts, and answers what is below its quota.
    pub fn report(&self) -> Vec<String> {
        let near: Vec<Row> = NEAR.iter().map(|&(name, kinds, _)| (name, kinds, 1_000)).collect();
        self.tally.report("manners: ", &[LINES, BREACHES, &near, OTHER_NEAR, REFUSED, LISTING, REFUSING].concat(), &[])
    }
}

/// A run of DABS or ATCRBS with Mode C, without substitution, whose altitude is 100000000000; accepted in two's complement, refused else.
fn only_in_complement(run: &Run) -> bool {
    let altitude = run.text.len() == 91 && manners::holds(&run.text, &[(2, 3, "11"), (6, 6, "1"), (12, 12, "0"), (79, 90, "100000000000")]);
    altitude && matches!(run.look.refusal, 0 | 9)
}
