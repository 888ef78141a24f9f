//! The index: the last report of each file number in a lent table, from document 02 (Ticket 3), section 4.2.8 of document 004 and
//! siamrung.h.
//!
//! No table is searched. A table stands for reports that were seen: those of its used entries, in their order, then those of the calls. The
//! numbers are ranked by their first sighting. A number's rank is its entry, and its last report is what the entry holds. A rank that the
//! table has no entry for is refused, and stays so: no entry is ever given up.

use crate::line::Look;
use std::collections::{BTreeMap, BTreeSet};

pub const MOST_ENTRIES: u64 = 512;

/// What siamrung_index_done takes out of an answer.
pub const BROKEN: u32 = 50;
pub const FULL: u32 = 51;
pub const ENTERED: u32 = 123;
pub const REPLACED: u32 = 124;
pub const LEFT: u32 = 125;
pub const FOUND: u32 = 126;
pub const MISSING: u32 = 127;

/// The item that a report is entered by: its file number.
pub const FILE: u32 = 30;

#[derive(Clone, Copy, PartialEq, Eq, Debug, Default)]
pub struct Entry {
    pub number: u16,
    pub kind: u16,
    pub scan: u32,
    pub place: u64,
}

impl Entry {
    pub fn used(&self) -> bool {
        self.number != 0
    }

    /// The sixteen bytes that driver.c takes and gives.
    pub fn bytes(&self) -> Vec<u8> {
        let halves = [self.number.to_be_bytes(), self.kind.to_be_bytes()].concat();
        [&halves[..], &self.scan.to_be_bytes(), &self.place.to_be_bytes()].concat()
    }
}

/// What was done, and the entry where it was done; 0 where there is none.
pub type Done = (u32, u64);

/// The number that a call answers.
pub fn answer((done, entry): Done) -> u32 {
    256 * entry as u32 + done
}

/// The entry that a report makes; nothing for a report without a file number, for file number 0 and where there is no report.
pub fn entry_of(look: &Look, scan: u32) -> Option<Entry> {
    let report = look.report.as_ref()?;
    let number = report.item(FILE).filter(|&number| number != 0)?;
    Some(Entry { number: number as u16, kind: report.kind as u16, scan, place: look.first })
}

/// The three parts of refusal 50.
#[derive(Clone, Copy, PartialEq, Debug)]
pub struct Faults {
    /// more than 512 entries
    pub over: bool,
    /// a used entry behind an unused one
    pub behind: bool,
    /// a number held twice
    pub twice: bool,
}

impl Faults {
    /// Of a table that is passed with that size. The used entries stand first if there are as many of them as reach to the last one.
    pub fn of(table: &[Entry], size: u64) -> Faults {
        let numbers: Vec<u16> = table.iter().filter(|entry| entry.used()).map(|entry| entry.number).collect();
        let different: BTreeSet<u16> = numbers.iter().copied().collect();
        let reach = table.iter().rposition(Entry::used).map_or(0, |last| last + 1);
        Faults { over: size > MOST_ENTRIES, behind: reach > numbers.len(), twice: different.len() < numbers.len() }
    }

    pub fn any(&self) -> bool {
        self.over || self.behind || self.twice
    }
}

pub struct Index {
    /// the table as it was lent
    lent: Vec<Entry>,
    pub faults: Faults,
    /// the numbers seen, ranked by their first sighting
    ranks: BTreeMap<u16, usize>,
    last: BTreeMap<u16, Entry>,
}

impl Index {
    /// The index that the table holds. The size is the one passed; of a table over 512 not all entries need to be there.
    pub fn of(table: &[Entry], size: u64) -> Index {
        let mut index = Index { lent: table.to_vec(), faults: Faults::of(table, size), ranks: BTreeMap::new(), last: BTreeMap::new() };
        table.iter().filter(|entry| entry.used()).for_each(|entry| index.see(*entry));
        index
    }

    fn see(&mut self, entry: Entry) {
        let next = self.ranks.len();
        self.ranks.entry(entry.number).or_insert(next);
        self.last.insert(entry.number, entry);
    }

    /// The number's entry, if the table has it.
    fn entry(&self, number: u16) -> Option<u64> {
        self.ranks.get(&number).filter(|&&rank| rank < self.lent.len()).map(|&rank| rank as u64)
    }

    /// A report that would be entered, or nothing for every other outcome.
    pub fn enter(&mut self, seen: Option<Entry>) -> Done {
        if self.faults.any() {
            return (BROKEN, 0);
        }
        let seen = match seen {
            Some(seen) => seen,
            None => return (LEFT, 0),
        };
        let known = self.entry(seen.number);
        self.see(seen);
        match (known, self.entry(seen.number)) {
            (Some(entry), _) => (REPLACED, entry),
            (None, Some(entry)) => (ENTERED, entry),
            (None, None) => (FULL, 0),
        }
    }

    pub fn find(&self, number: u32) -> Done {
        if self.faults.any() {
            return (BROKEN, 0);
        }
        let known = u16::try_from(number).ok().and_then(|number| self.entry(number));
        known.map_or((MISSING, 0), |entry| (FOUND, entry))
    }

    /// The table now. An entry that no number has taken is as it was lent.
    pub fn table(&self) -> Vec<Entry> {
        let mut table = self.lent.clone();
        if !self.faults.any() {
            for (number, last) in &self.last {
                self.entry(*number).into_iter().for_each(|entry| table[entry as usize] = *last);
            }
        }
        table
    }
}

/// The used entries of a table of that size, worked out afresh from the reports seen in their order. Sorted by number, the reports give
/// each number's first sighting and its last report. These are sorted by first sighting, and those that find no room are left out.
pub fn afresh(size: u64, seen: &[Entry]) -> Vec<Entry> {
    let mut sorted: Vec<usize> = (0..seen.len()).collect();
    sorted.sort_by_key(|&at| (seen[at].number, at));
    let of_one_number = sorted.chunk_by(|&one, &other| seen[one].number == seen[other].number);
    let mut tracks: Vec<(usize, Entry)> = of_one_number.map(|all| (all[0], seen[all[all.len() - 1]])).collect();
    tracks.sort_by_key(|track| track.0);
    tracks.into_iter().map(|track| track.1).take(size as usize).collect()
}
