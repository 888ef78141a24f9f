//! What a run met of the index: counts of what Ticket 3 of document 02 and its readings say, and the quotas that a full run has to reach.
//!
//! Every count comes from the case and from this program's own answer, not from what a case was meant to be.

use crate::index::{Done, Entry, Faults, BROKEN, ENTERED, FOUND, FULL, LEFT, REPLACED};
use crate::index_case::{Indexing, Step};
use crate::line::{Lent, Look, END, IDLE, NO_SUCH_LINK, REFUSED};
use crate::tally::{Row, Tally};
use std::collections::{BTreeMap, BTreeSet};

/// The kinds that have a file number: ATCRBS, its substitutions, MTD, RDAS; and those that have none.
const WITH_FILE: &[u64] = &[110, 111, 112, 113, 114, 115];
const WITHOUT_FILE: &[u64] = &[101, 102, 103, 104, 105, 106, 107, 108, 109];
const REFUSALS: &[u64] = &[13, 2, 14, 1, 3, 4, 5, 6, 7, 8, 9];
/// An entry from here on needs more than a byte to be counted.
const FAR: u64 = 256;

const ANSWERS: &[Row] = &[
    ("tables", &[], 20_000),
    ("calls that enter", &[], 0),
    ("entered", &[], 1_000),
    ("entered, kind N", WITH_FILE, 1_000),
    ("replaced", &[], 1_000),
    ("replaced, kind N", WITH_FILE, 1_000),
    ("left", &[], 1_000),
    ("left, kind N", WITHOUT_FILE, 1_000),
    ("left, kind N with file number 0", WITH_FILE, 1_000),
    ("left, refusal N", REFUSALS, 1_000),
    ("left, the end", &[], 1_000),
    ("left in a table of no entries", &[], 1_000),
    ("left in a full table", &[], 1_000),
    ("51", &[], 1_000),
    ("51, kind N", WITH_FILE, 1_000),
    ("51, a table of no entries", &[], 1_000),
    ("51, a table of one entry", &[], 1_000),
    ("51, a table of 512 entries", &[], 1_000),
];

const BROKEN_TABLES: &[Row] = &[
    ("50", &[], 1_000),
    ("50, only more than 512 entries", &[], 1_000),
    ("50, only more than 512 entries, one more", &[], 1_000),
    ("50, only a used entry behind an unused one", &[], 1_000),
    ("50, only a used entry behind an unused one, 256 entries or more behind it", &[], 1_000),
    ("50, only a used entry behind an unused one, the last entry", &[], 1_000),
    ("50, only a number held twice", &[], 1_000),
    ("50, only a number held twice, side by side", &[], 1_000),
    ("50, only a number held twice, not side by side", &[], 1_000),
    ("50, only a number held twice, 256 entries or more apart", &[], 1_000),
    ("50, only a number held twice, the report's own", &[], 1_000),
    ("50, only a number held twice, another than the report's", &[], 1_000),
    ("50, only a number held twice, above 4095", &[], 1_000),
    ("50, several parts of it", &[], 1_000),
    ("50, the report's number in an entry", &[], 1_000),
    ("50, an unused entry free", &[], 1_000),
    ("50, full and the report's number not in it", &[], 1_000),
    ("50, kind N", WITH_FILE, 1_000),
    ("50, left anyway: a kind without a file number", &[], 1_000),
    ("50, left anyway: file number 0", &[], 1_000),
    ("50, left anyway: a refused run", &[], 1_000),
    ("50, left anyway: a refused line or place", &[], 1_000),
    ("50, left anyway: a refused link number", &[], 1_000),
    ("50, left anyway: the end", &[], 1_000),
];

const ENTRIES: &[Row] = &[
    ("entered in the first entry", &[], 1_000),
    ("entered in the last entry", &[], 1_000),
    ("entered from entry 256 on", &[], 1_000),
    ("entered in an entry that holds other things", &[], 1_000),
    ("entered, and another entry's number differs in one of its low twelve bits", &[], 1_000),
    ("entered, and another entry's number differs in its high four bits only", &[], 1_000),
    ("entered, and another entry's number has the same low byte", &[], 1_000),
    ("entered, and another entry's number has the same high byte", &[], 1_000),
    ("51, and an entry's number differs in one of its low twelve bits", &[], 1_000),
    ("51, and an entry's number differs in its high four bits only", &[], 1_000),
    ("replaced in the first entry", &[], 1_000),
    ("replaced in an entry in the middle", &[], 1_000),
    ("replaced in the last used entry, unused ones behind", &[], 1_000),
    ("replaced in a full table", &[], 1_000),
    ("replaced from entry 256 on", &[], 1_000),
    ("replaced, with an earlier scan number", &[], 1_000),
    ("replaced, with the same scan number", &[], 1_000),
    ("replaced, with a later scan number", &[], 1_000),
    ("replaced, with an earlier place", &[], 1_000),
    ("replaced, with the same place", &[], 1_000),
    ("replaced, with a later place", &[], 1_000),
    ("replaced, with another kind", &[], 1_000),
    ("replaced, with the same kind", &[], 1_000),
    ("replaced, an entry of a kind that has no file number", &[], 1_000),
    ("entered or replaced, scan N", &[0, 4_294_967_295], 1_000),
    ("entered or replaced, from the run's first word", &[], 1_000),
    ("entered or replaced, behind idle words", &[], 1_000),
    ("entered or replaced, from inside a run", &[], 1_000),
    ("entered or replaced in a table of 512 entries", &[], 1_000),
    ("entered or replaced, a number above 4095 in the table", &[], 1_000),
    ("entered or replaced, other things in an unused entry that stays", &[], 1_000),
];

const FINDING: &[Row] = &[
    ("calls that find", &[], 0),
    ("found", &[], 1_000),
    ("found in the first entry", &[], 1_000),
    ("found in the last entry", &[], 1_000),
    ("found from entry 256 on", &[], 1_000),
    ("found, a number above 4095", &[], 1_000),
    ("missing", &[], 1_000),
    ("missing in a full table", &[], 1_000),
    ("missing in a table of no entries", &[], 1_000),
    ("missing, number 0", &[], 1_000),
    ("missing, number 0, with an unused entry", &[], 1_000),
    ("missing, above 65535", &[], 1_000),
    ("missing, above 65535, the low sixteen bits in an entry", &[], 1_000),
    ("missing, a multiple of 65536, with an unused entry", &[], 1_000),
    ("missing, and an entry's number differs in one of its sixteen bits", &[], 1_000),
    ("finding 50, only more than 512 entries", &[], 1_000),
    ("finding 50, only a used entry behind an unused one", &[], 1_000),
    ("finding 50, only a number held twice", &[], 1_000),
    ("finding 50, the number in an entry", &[], 1_000),
    ("finding 50, number 0 or above 65535", &[], 1_000),
];

const TABLES: &[Row] = &[
    ("tables lent as NULL", &[], 500),
    ("tables of no entries with others around", &[], 1_000),
    ("tables with entries in front and behind", &[], 1_000),
    ("tables without entries around", &[], 1_000),
    ("tables of 512 entries", &[], 1_000),
    ("sound tables with a number above 4095", &[], 1_000),
    ("sound tables with other things in an unused entry", &[], 1_000),
    ("sound tables with two numbers that differ in one bit", &[], 1_000),
    ("sound tables with two numbers that differ in their high four bits only", &[], 1_000),
    ("sound tables with two numbers of the same low byte", &[], 1_000),
    ("sound tables with two numbers of the same high byte", &[], 1_000),
    ("walks over a line", &[], 1_000),
    ("walks over a line of more than 1,000 words", &[], 10),
    ("outcomes in walks", &[], 0),
    ("tables worked out afresh", &[], 1_000),
    ("tables worked out afresh, from one line", &[], 1_000),
    ("tables worked out afresh, from several lines as several scans", &[], 1_000),
    ("tables worked out afresh, with unused entries left", &[], 1_000),
    ("tables worked out afresh, full, and no report refused", &[], 1_000),
    ("tables worked out afresh, full, and reports refused", &[], 1_000),
    ("tables worked out afresh, of no entries", &[], 1_000),
];

/// Counts of different numbers.
const FILES: Row = ("different file numbers entered", &[], 4_095);
const ENTERED_IN: Row = ("different entries entered in", &[], 512);
const REPLACED_IN: Row = ("different entries replaced in", &[], 512);
const FOUND_IN: Row = ("different entries found", &[], 512);
const DIFFERENT: &[Row] = &[FILES, ENTERED_IN, REPLACED_IN, FOUND_IN];

/// A call of siamrung_index_enter: the table before it, what stands at the place, what is entered of it, and the answer.
pub struct Call<'a> {
    pub table: &'a [Entry],
    pub faults: &'a Faults,
    pub line: &'a Lent<'a>,
    pub place: u64,
    pub look: &'a Look,
    pub entry: Option<Entry>,
    pub done: Done,
}

impl Call<'_> {
    fn kind(&self) -> u64 {
        u64::from(self.look.kind)
    }

    pub fn full(&self) -> bool {
        self.table.iter().all(Entry::used)
    }
}

/// How many bits of two numbers differ, in text: of all sixteen, and of the low twelve.
fn unlike(one: u16, other: u16) -> (usize, usize) {
    let differ = |width: usize| {
        let texts = (format!("{:016b}", one), format!("{:016b}", other));
        let pairs = texts.0.chars().rev().zip(texts.1.chars().rev()).take(width);
        pairs.filter(|(bit, other)| bit != other).count()
    };
    (differ(16), differ(12))
}

/// What a number and those of a table have in common.
#[derive(Default)]
struct Likeness {
    one_bit: bool,
    one_low_bit: bool,
    high_bits: bool,
    low_byte: bool,
    high_byte: bool,
}

/// Of large tables only some entries are compared, to keep the time down.
const COMPARED: usize = 24;

fn likeness(number: u16, table: &[Entry]) -> Likeness {
    let mut like = Likeness::default();
    for other in table.iter().take(COMPARED).filter(|entry| entry.used() && entry.number != number).map(|entry| entry.number) {
        let (all, low) = unlike(number, other);
        like.one_bit |= all == 1;
        like.one_low_bit |= all == 1 && low == 1;
        like.high_bits |= low == 0;
        like.low_byte |= number % 256 == other % 256;
        like.high_byte |= number / 256 == other / 256;
    }
    like
}

pub fn only(over: bool, behind: bool, twice: bool) -> Faults {
    Faults { over, behind, twice }
}

const SIDE_BY_SIDE: usize = 1;

/// The numbers held twice, and how far apart their entries are.
fn twice(table: &[Entry]) -> (BTreeSet<u16>, BTreeSet<usize>) {
    let mut last: BTreeMap<u16, usize> = BTreeMap::new();
    let (mut numbers, mut apart) = (BTreeSet::new(), BTreeSet::new());
    for (at, entry) in table.iter().enumerate().filter(|(_, entry)| entry.used()) {
        if let Some(before) = last.insert(entry.number, at) {
            numbers.insert(entry.number);
            apart.insert(at - before);
        }
    }
    (numbers, apart)
}

fn holds_other_things(entry: &Entry) -> bool {
    !entry.used() && *entry != Entry::default()
}

#[derive(Default)]
pub struct IndexTotals {
    tally: Tally,
}

impl IndexTotals {
    // ---- a table

    pub fn table(&mut self, case: &Indexing, faults: &Faults) {
        let table = case.table();
        let behind = case.entries.len() - case.front - table.len();
        self.tally.add("tables");
        self.tally.add_if(case.entries.is_empty(), "tables lent as NULL");
        self.tally.add_if(case.size == 0 && !case.entries.is_empty(), "tables of no entries with others around");
        self.tally.add_if(case.front > 0 && behind > 0, "tables with entries in front and behind");
        self.tally.add_if(case.front == 0 && behind == 0, "tables without entries around");
        self.tally.add_if(case.size == 512, "tables of 512 entries");
        if faults.any() {
            return;
        }
        self.tally.add_if(table.iter().any(|entry| entry.number > 4095), "sound tables with a number above 4095");
        self.tally.add_if(table.iter().any(holds_other_things), "sound tables with other things in an unused entry");
        let likes: Vec<Likeness> = table.iter().take(COMPARED).map(|entry| likeness(entry.number, table)).collect();
        self.tally.add_if(likes.iter().any(|like| like.one_bit), "sound tables with two numbers that differ in one bit");
        self.tally.add_if(likes.iter().any(|like| like.high_bits), "sound tables with two numbers that differ in their high four bits only");
        self.tally.add_if(likes.iter().any(|like| like.low_byte), "sound tables with two numbers of the same low byte");
        self.tally.add_if(likes.iter().any(|like| like.high_byte), "sound tables with two numbers of the same high byte");
    }

    // ---- entering

    pub fn enter(&mut self, call: &Call) {
        self.tally.add("calls that enter");
        match call.done.0 {
            BROKEN => self.broken(call),
            LEFT => self.left(call),
            FULL => self.refused(call),
            ENTERED => self.entered(call),
            _ => self.replaced(call),
        }
        if let (ENTERED | REPLACED, Some(entry)) = (call.done.0, call.entry) {
            self.written(call, &entry);
        }
    }

    fn left(&mut self, call: &Call) {
        self.tally.add("left");
        match call.look.kind {
            END => self.tally.add("left, the end"),
            REFUSED => self.tally.add_of("left, refusal N", u64::from(call.look.refusal)),
            110..=115 => self.tally.add_of("left, kind N with file number 0", call.kind()),
            _ => self.tally.add_of("left, kind N", call.kind()),
        }
        self.tally.add_if(call.table.is_empty(), "left in a table of no entries");
        self.tally.add_if(!call.table.is_empty() && call.full(), "left in a full table");
    }

    fn refused(&mut self, call: &Call) {
        self.tally.add("51");
        self.tally.add_of("51, kind N", call.kind());
        self.tally.add_if(call.table.is_empty(), "51, a table of no entries");
        self.tally.add_if(call.table.len() == 1, "51, a table of one entry");
        self.tally.add_if(call.table.len() == 512, "51, a table of 512 entries");
        let like = call.entry.map_or(Likeness::default(), |entry| likeness(entry.number, call.table));
        self.tally.add_if(like.one_low_bit, "51, and an entry's number differs in one of its low twelve bits");
        self.tally.add_if(like.high_bits, "51, and an entry's number differs in its high four bits only");
    }

    fn broken(&mut self, call: &Call) {
        self.tally.add("50");
        let faults = *call.faults;
        if faults == only(true, false, false) {
            self.tally.add("50, only more than 512 entries");
            self.tally.add_if(call.table.len() == 513, "50, only more than 512 entries, one more");
        } else if faults == only(false, true, false) {
            self.tally.add("50, only a used entry behind an unused one");
            let unused = call.table.iter().position(|entry| !entry.used()).unwrap_or(0);
            let used = call.table.iter().rposition(Entry::used).unwrap_or(0);
            let far = used as u64 - unused as u64 >= FAR;
            self.tally.add_if(far, "50, only a used entry behind an unused one, 256 entries or more behind it");
            self.tally.add_if(used + 1 == call.table.len(), "50, only a used entry behind an unused one, the last entry");
        } else if faults == only(false, false, true) {
            self.held_twice(call);
        } else {
            self.tally.add("50, several parts of it");
        }
        match (call.entry, call.look.kind) {
            (Some(entry), _) => self.broken_with_report(call, &entry),
            (None, END) => self.tally.add("50, left anyway: the end"),
            (None, REFUSED) if call.look.is_run() => self.tally.add("50, left anyway: a refused run"),
            (None, REFUSED) if call.look.refusal == NO_SUCH_LINK => self.tally.add("50, left anyway: a refused link number"),
            (None, REFUSED) => self.tally.add("50, left anyway: a refused line or place"),
            (None, 110..=115) => self.tally.add("50, left anyway: file number 0"),
            (None, _) => self.tally.add("50, left anyway: a kind without a file number"),
        }
    }

    fn held_twice(&mut self, call: &Call) {
        let (numbers, apart) = twice(call.table);
        self.tally.add("50, only a number held twice");
        let one = apart.len() == 1;
        self.tally.add_if(one && apart.contains(&SIDE_BY_SIDE), "50, only a number held twice, side by side");
        self.tally.add_if(!apart.contains(&SIDE_BY_SIDE), "50, only a number held twice, not side by side");
        let far = apart.iter().all(|&apart| apart as u64 >= FAR);
        self.tally.add_if(far, "50, only a number held twice, 256 entries or more apart");
        let high = numbers.iter().all(|&number| number > 4095);
        self.tally.add_if(high, "50, only a number held twice, above 4095");
        if let Some(entry) = call.entry {
            let own = numbers.contains(&entry.number);
            self.tally.add_if(own, "50, only a number held twice, the report's own");
            self.tally.add_if(!own, "50, only a number held twice, another than the report's");
        }
    }

    fn broken_with_report(&mut self, call: &Call, entry: &Entry) {
        let inside = call.table.iter().any(|other| other.number == entry.number);
        self.tally.add_of("50, kind N", call.kind());
        self.tally.add_if(inside, "50, the report's number in an entry");
        self.tally.add_if(!call.full(), "50, an unused entry free");
        self.tally.add_if(call.full() && !inside, "50, full and the report's number not in it");
    }

    fn entered(&mut self, call: &Call) {
        let at = call.done.1;
        self.tally.add("entered");
        self.tally.add_of("entered, kind N", call.kind());
        self.tally.add_if(at == 0, "entered in the first entry");
        self.tally.add_if(at as usize + 1 == call.table.len(), "entered in the last entry");
        self.tally.add_if(at >= FAR, "entered from entry 256 on");
        self.tally.add_if(holds_other_things(&call.table[at as usize]), "entered in an entry that holds other things");
        self.tally.differs(ENTERED_IN, at);
        let number = call.entry.map_or(0, |entry| entry.number);
        self.tally.differs(FILES, u64::from(number));
        let like = likeness(number, call.table);
        self.tally.add_if(like.one_low_bit, "entered, and another entry's number differs in one of its low twelve bits");
        self.tally.add_if(like.high_bits, "entered, and another entry's number differs in its high four bits only");
        self.tally.add_if(like.low_byte, "entered, and another entry's number has the same low byte");
        self.tally.add_if(like.high_byte, "entered, and another entry's number has the same high byte");
    }

    fn replaced(&mut self, call: &Call) {
        let at = call.done.1;
        let used = call.table.iter().filter(|entry| entry.used()).count() as u64;
        self.tally.add("replaced");
        self.tally.add_of("replaced, kind N", call.kind());
        self.tally.add_if(at == 0, "replaced in the first entry");
        self.tally.add_if(at > 0 && at + 1 < used, "replaced in an entry in the middle");
        self.tally.add_if(at + 1 == used && !call.full(), "replaced in the last used entry, unused ones behind");
        self.tally.add_if(call.full(), "replaced in a full table");
        self.tally.add_if(at >= FAR, "replaced from entry 256 on");
        self.tally.differs(REPLACED_IN, at);
        if let Some(new) = call.entry {
            self.replacement(&call.table[at as usize], &new);
        }
    }

    fn replacement(&mut self, old: &Entry, new: &Entry) {
        self.tally.add(match new.scan.cmp(&old.scan) {
            std::cmp::Ordering::Less => "replaced, with an earlier scan number",
            std::cmp::Ordering::Equal => "replaced, with the same scan number",
            std::cmp::Ordering::Greater => "replaced, with a later scan number",
        });
        self.tally.add(match new.place.cmp(&old.place) {
            std::cmp::Ordering::Less => "replaced, with an earlier place",
            std::cmp::Ordering::Equal => "replaced, with the same place",
            std::cmp::Ordering::Greater => "replaced, with a later place",
        });
        self.tally.add(if new.kind == old.kind { "replaced, with the same kind" } else { "replaced, with another kind" });
        self.tally.add_if(!WITH_FILE.contains(&u64::from(old.kind)), "replaced, an entry of a kind that has no file number");
    }

    /// Entered or replaced.
    fn written(&mut self, call: &Call, entry: &Entry) {
        let inside = call.place > 0 && call.line.words[call.place as usize - 1] != IDLE;
        if matches!(entry.scan, 0 | u32::MAX) {
            self.tally.add_of("entered or replaced, scan N", u64::from(entry.scan));
        }
        self.tally.add(match (entry.place > call.place, inside) {
            (true, _) => "entered or replaced, behind idle words",
            (false, true) => "entered or replaced, from inside a run",
            (false, false) => "entered or replaced, from the run's first word",
        });
        self.tally.add_if(call.table.len() == 512, "entered or replaced in a table of 512 entries");
        self.tally.add_if(call.table.iter().any(|entry| entry.number > 4095), "entered or replaced, a number above 4095 in the table");
        let stays = |(at, entry): (usize, &Entry)| holds_other_things(entry) && at as u64 != call.done.1;
        let other_things = call.table.iter().enumerate().any(stays);
        self.tally.add_if(other_things, "entered or replaced, other things in an unused entry that stays");
    }

    // ---- finding

    pub fn find(&mut self, table: &[Entry], number: u32, done: Done, faults: &Faults) {
        self.tally.add("calls that find");
        let inside = number != 0 && table.iter().any(|entry| u32::from(entry.number) == number);
        match done.0 {
            BROKEN => {
                self.tally.add_if(*faults == only(true, false, false), "finding 50, only more than 512 entries");
                self.tally.add_if(*faults == only(false, true, false), "finding 50, only a used entry behind an unused one");
                self.tally.add_if(*faults == only(false, false, true), "finding 50, only a number held twice");
                self.tally.add_if(inside, "finding 50, the number in an entry");
                self.tally.add_if(number == 0 || number > 65_535, "finding 50, number 0 or above 65535");
            }
            FOUND => {
                self.tally.add("found");
                self.tally.add_if(done.1 == 0, "found in the first entry");
                self.tally.add_if(done.1 as usize + 1 == table.len(), "found in the last entry");
                self.tally.add_if(done.1 >= FAR, "found from entry 256 on");
                self.tally.add_if(number > 4095, "found, a number above 4095");
                self.tally.differs(FOUND_IN, done.1);
            }
            _ => self.missing(table, number),
        }
    }

    fn missing(&mut self, table: &[Entry], number: u32) {
        let unused = table.iter().any(|entry| !entry.used());
        self.tally.add("missing");
        self.tally.add_if(!table.is_empty() && !unused, "missing in a full table");
        self.tally.add_if(table.is_empty(), "missing in a table of no entries");
        self.tally.add_if(number == 0, "missing, number 0");
        self.tally.add_if(number == 0 && unused, "missing, number 0, with an unused entry");
        if let Ok(number) = u16::try_from(number) {
            let one_bit = number != 0 && likeness(number, table).one_bit;
            return self.tally.add_if(one_bit, "missing, and an entry's number differs in one of its sixteen bits");
        }
        let low = (number % 65_536) as u16;
        self.tally.add("missing, above 65535");
        let inside = low != 0 && table.iter().any(|entry| entry.number == low);
        self.tally.add_if(inside, "missing, above 65535, the low sixteen bits in an entry");
        self.tally.add_if(low == 0 && unused, "missing, a multiple of 65536, with an unused entry");
    }

    // ---- walks

    pub fn walk(&mut self, words: usize, outcomes: u64) {
        self.tally.add("walks over a line");
        self.tally.add_if(words > 1_000, "walks over a line of more than 1,000 words");
        self.tally.add_many("outcomes in walks", outcomes);
    }

    /// A table that had no used entry at first, filled by whole lines, with that many used entries now.
    pub fn afresh(&mut self, case: &Indexing, used: usize, seen: &[Entry]) {
        let walks = case.steps.iter().filter(|step| matches!(step, Step::Walk { .. })).count();
        let alone = case.steps.iter().all(|step| !matches!(step, Step::Enter { .. }));
        if walks == 0 || !alone {
            return;
        }
        let scans: BTreeSet<u32> = seen.iter().map(|entry| entry.scan).collect();
        let numbers: BTreeSet<u16> = seen.iter().map(|entry| entry.number).collect();
        let full = used as u64 == case.size;
        self.tally.add("tables worked out afresh");
        self.tally.add_if(walks == 1, "tables worked out afresh, from one line");
        self.tally.add_if(scans.len() > 1, "tables worked out afresh, from several lines as several scans");
        self.tally.add_if(!full, "tables worked out afresh, with unused entries left");
        self.tally.add_if(full && used > 0 && numbers.len() == used, "tables worked out afresh, full, and no report refused");
        self.tally.add_if(full && used > 0 && numbers.len() > used, "tables worked out afresh, full, and reports refused");
        self.tally.add_if(case.size == 0, "tables worked out afresh, of no entries");
    }

    // ---- the quotas

    /// How many calls entered, and how many looked for a number.
    pub fn both(&self) -> (u64, u64) {
        (self.tally.counted("calls that enter", 0), self.tally.counted("calls that find", 0))
    }

    /// Prints the counts, and answers what is below its quota.
    pub fn report(&self) -> Vec<String> {
        self.tally.report("index: ", &[ANSWERS, BROKEN_TABLES, ENTRIES, FINDING, TABLES].concat(), DIFFERENT)
    }
}
