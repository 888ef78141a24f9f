//! What a run met of link numbers: counts of what Ticket 7 of document 02 says, and the quotas that a full run has to reach.
//!
//! Every count comes from the case and from this program's own answer, not from what a case was meant to be. Where answers were held to each
//! other, it comes from the answers that came.

use crate::altitude_totals::{KINDS, WITH_FILE};
use crate::index::{entry_of, Entry, BROKEN, ENTERED, FULL, LEFT, REPLACED};
use crate::index_totals::{only, Call};
use crate::line::{is_link, Lent, Look, END, NO_SUCH_LINK, REFUSED};
use crate::link_cases::{ABOVE, HIGH_BITS};
use crate::tally::{Row, Tally};
use std::collections::BTreeMap;

const LINKS: &[u64] = &[0, 1, 2, 3, 4, 5, 6, 7, 8, 9, 10, 11, 12, 13, 14, 15];
/// The refusals that 13 comes before.
const BEHIND: &[u64] = &[2, 14, 1, 3, 4, 5, 6, 7, 8, 9];
/// Such a number of low bits may hold a link's number, though all bits together do not.
const LOW_BITS: &[u64] = &[5, 8, 16, 24];

const READING: &[Row] = &[
    ("link N, a report", LINKS, 1_000),
    ("link N, a refused run", LINKS, 1_000),
    ("link N, a refused line or place", LINKS, 1_000),
    ("link N, the end", LINKS, 1_000),
    ("a link above 0, kind N", KINDS, 1_000),
    ("a link above 0, refusal N", BEHIND, 1_000),
    ("a link above 0, a report in form 0", &[], 1_000),
    ("a link above 0, a report in two's complement", &[], 1_000),
    ("lines read to the end on link N", LINKS, 500),
    ("lines read to the end on a link above 0, reports only", &[], 1_000),
    ("lines read to the end on a link above 0, reports and refused runs", &[], 1_000),
    ("lines read to the end on a link above 0, refused runs only", &[], 1_000),
    ("lines read to the end on a link above 0, no run", &[], 1_000),
];

const NO_LINK: &[Row] = &[
    ("13, else kind N", KINDS, 1_000),
    ("13, else refusal N", BEHIND, 1_000),
    ("13, else the end", &[], 1_000),
    ("13, form 0", &[], 1_000),
    ("13, two's complement", &[], 1_000),
    ("13, number N", ABOVE, 1_000),
    ("13, a link's number but for bit N", HIGH_BITS, 100),
    ("13, a link's number in the low N bits", LOW_BITS, 1_000),
    ("13, a line without a byte", &[], 1_000),
    ("13, place 0", &[], 1_000),
    ("13, a place inside the line", &[], 1_000),
    ("13, the place at the end of the line", &[], 1_000),
    ("13, a place beyond the line", &[], 1_000),
    ("13, the last place of 64 bits", &[], 1_000),
];

/// Of the answers that came.
const HELD: &[Row] = &[
    ("two links, the same report of kind N", KINDS, 1_000),
    ("two links, the same refusal N", BEHIND, 1_000),
    ("two links, both the end", &[], 1_000),
    ("link N, a report written again and read again", LINKS, 1_000),
    ("13 beside a link's report of kind N", KINDS, 1_000),
    ("13 beside a link's refusal N", BEHIND, 1_000),
    ("13 beside a link's end", &[], 1_000),
];

const INDEX: &[Row] = &[
    ("link N, entered", LINKS, 1_000),
    ("link N, replaced", LINKS, 1_000),
    ("link N, left", LINKS, 1_000),
    ("link N, 51", LINKS, 500),
    ("link N, 50", LINKS, 500),
    ("a link above 0, kind N entered or replaced", WITH_FILE, 1_000),
    ("replaced, the earlier report came on the same link", &[], 1_000),
    ("replaced, the earlier report came on another link", &[], 1_000),
    ("left for 13, kind N with a file number", WITH_FILE, 1_000),
    ("left for 13, a file number that has an entry", &[], 1_000),
    ("left for 13, a file number that has none, an entry unused", &[], 1_000),
    ("left for 13, a file number that has none, no entry unused", &[], 1_000),
    ("left for 13, left anyway", &[], 1_000),
    ("left for 13, number N", ABOVE, 500),
    ("50 before 13", &[], 1_000),
    ("50 before 13, a file number", &[], 1_000),
    ("50 before 13, left anyway", &[], 1_000),
    ("50 before 13, only more than 512 entries", &[], 500),
    ("50 before 13, only a used entry behind an unused one", &[], 500),
    ("50 before 13, only a number held twice", &[], 500),
];

#[derive(Default)]
pub struct LinkTotals {
    lines: Tally,
    index: Tally,
    reads: u64,
    enters: u64,
    /// met so far on the line that is walked
    reports: u64,
    refused: u64,
}

/// Adds what an answer is: a report of a kind, a refusal or the end.
fn add_outcome(tally: &mut Tally, [report, refusal, end]: [&'static str; 3], kind: u64, number: u64) {
    if kind == u64::from(END) {
        tally.add(end);
    } else if kind == u64::from(REFUSED) {
        tally.add_of(refusal, number);
    } else {
        tally.add_of(report, kind);
    }
}

impl LinkTotals {
    // ---- reading

    /// A walk over a line begins.
    pub fn line(&mut self) {
        (self.reports, self.refused) = (0, 0);
    }

    pub fn look(&mut self, line: &Lent, place: u64, look: &Look, walked: bool) {
        self.reads += 1;
        if look.refusal == NO_SUCH_LINK {
            return self.no_such_link(line, place);
        }
        let tally = &mut self.lines;
        let name = match (look.kind, look.is_run()) {
            (END, _) => "link N, the end",
            (REFUSED, true) => "link N, a refused run",
            (REFUSED, false) => "link N, a refused line or place",
            _ => "link N, a report",
        };
        tally.add_of(name, u64::from(look.link));
        if look.link > 0 {
            match (look.kind, look.refusal, line.form) {
                (END, _, _) => (),
                (REFUSED, refusal, _) => tally.add_of("a link above 0, refusal N", u64::from(refusal)),
                (kind, _, form) => {
                    tally.add_of("a link above 0, kind N", u64::from(kind));
                    tally.add(if form == 0 { "a link above 0, a report in form 0" } else { "a link above 0, a report in two's complement" });
                }
            }
        }
        if walked {
            self.walked(look);
        }
    }

    fn walked(&mut self, look: &Look) {
        self.reports += u64::from(look.report.is_some());
        self.refused += u64::from(look.refusal != 0);
        if look.kind != END {
            return;
        }
        self.lines.add_of("lines read to the end on link N", u64::from(look.link));
        if look.link > 0 {
            self.lines.add(match (self.reports, self.refused) {
                (0, 0) => "lines read to the end on a link above 0, no run",
                (_, 0) => "lines read to the end on a link above 0, reports only",
                (0, _) => "lines read to the end on a link above 0, refused runs only",
                _ => "lines read to the end on a link above 0, reports and refused runs",
            });
        }
    }

    /// Refusal 13, and what it comes before.
    fn no_such_link(&mut self, line: &Lent, place: u64) {
        let otherwise = line.look_on_link_0(place);
        let (tally, number) = (&mut self.lines, u64::from(line.link));
        let names = ["13, else kind N", "13, else refusal N", "13, else the end"];
        add_outcome(tally, names, u64::from(otherwise.kind), u64::from(otherwise.refusal));
        tally.add(if line.form == 0 { "13, form 0" } else { "13, two's complement" });
        if ABOVE.contains(&number) {
            tally.add_of("13, number N", number);
        }
        for &bit in HIGH_BITS.iter().filter(|&&bit| is_link(line.link ^ (1 << bit))) {
            tally.add_of("13, a link's number but for bit N", bit);
        }
        for &width in LOW_BITS.iter().filter(|&&width| is_link(line.link % (1 << width))) {
            tally.add_of("13, a link's number in the low N bits", width);
        }
        tally.add_if(line.length == 0, "13, a line without a byte");
        let words = line.words.len() as u64;
        tally.add(match place {
            0 => "13, place 0",
            _ if place == words => "13, the place at the end of the line",
            _ if place < words => "13, a place inside the line",
            _ => "13, a place beyond the line",
        });
        tally.add_if(place == u64::MAX, "13, the last place of 64 bits");
    }

    // ---- answers that came, held to each other

    /// The same on two links but for the link.
    pub fn two_links(&mut self, kind: u64, refusal: u64) {
        let names = ["two links, the same report of kind N", "two links, the same refusal N", "two links, both the end"];
        add_outcome(&mut self.lines, names, kind, refusal);
    }

    /// Refusal 13 for a number that is no link's, and this for one that is.
    pub fn beside(&mut self, kind: u64, refusal: u64) {
        let names = ["13 beside a link's report of kind N", "13 beside a link's refusal N", "13 beside a link's end"];
        add_outcome(&mut self.lines, names, kind, refusal);
    }

    /// A report was the same when it was written and read again.
    pub fn again(&mut self, link: u32) {
        self.lines.add_of("link N, a report written again and read again", u64::from(link));
    }

    // ---- the index

    /// A call, and the links on which the numbers entered so far came last.
    pub fn enter(&mut self, call: &Call, came_on: &mut BTreeMap<u16, u32>) {
        self.enters += 1;
        if call.look.refusal == NO_SUCH_LINK {
            return self.left(call);
        }
        let (tally, link) = (&mut self.index, call.look.link);
        let name = match call.done.0 {
            ENTERED => "link N, entered",
            REPLACED => "link N, replaced",
            LEFT => "link N, left",
            FULL => "link N, 51",
            _ => "link N, 50",
        };
        tally.add_of(name, u64::from(link));
        if let (ENTERED | REPLACED, Some(entry)) = (call.done.0, call.entry) {
            if link > 0 {
                tally.add_of("a link above 0, kind N entered or replaced", u64::from(call.look.kind));
            }
            match came_on.insert(entry.number, link) {
                Some(earlier) if earlier == link => tally.add("replaced, the earlier report came on the same link"),
                Some(_) => tally.add("replaced, the earlier report came on another link"),
                None => (),
            }
        }
    }

    /// Refusal 13 stands at the place: the table is left, or refused with 50.
    fn left(&mut self, call: &Call) {
        let otherwise = call.line.look_on_link_0(call.place);
        let entry = entry_of(&otherwise, 0);
        if call.done.0 == BROKEN {
            return self.broken(call, entry);
        }
        let (tally, number) = (&mut self.index, u64::from(call.line.link));
        if ABOVE.contains(&number) {
            tally.add_of("left for 13, number N", number);
        }
        let Some(entry) = entry else { return tally.add("left for 13, left anyway") };
        tally.add_of("left for 13, kind N with a file number", u64::from(otherwise.kind));
        let has_entry = call.table.iter().any(|other| other.number == entry.number);
        tally.add(match (has_entry, call.full()) {
            (true, _) => "left for 13, a file number that has an entry",
            (false, false) => "left for 13, a file number that has none, an entry unused",
            (false, true) => "left for 13, a file number that has none, no entry unused",
        });
    }

    fn broken(&mut self, call: &Call, entry: Option<Entry>) {
        let tally = &mut self.index;
        tally.add("50 before 13");
        tally.add(if entry.is_some() { "50 before 13, a file number" } else { "50 before 13, left anyway" });
        tally.add_if(*call.faults == only(true, false, false), "50 before 13, only more than 512 entries");
        tally.add_if(*call.faults == only(false, true, false), "50 before 13, only a used entry behind an unused one");
        tally.add_if(*call.faults == only(false, false, true), "50 before 13, only a number held twice");
    }

    // ---- the quotas

    /// How many places were looked at, and how many calls entered.
    pub fn both(&self) -> (u64, u64) {
        (self.reads, self.enters)
    }

    /// Prints the counts of lines, and answers what is below its quota.
    pub fn report_lines(&self) -> Vec<String> {
        self.lines.report("links: ", &[READING, NO_LINK, HELD].concat(), &[])
    }

    /// Prints the counts of the index, and answers what is below its quota.
    pub fn report_index(&self) -> Vec<String> {
        self.index.report("links: index, ", INDEX, &[])
    }
}
