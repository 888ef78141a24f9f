//! The index once more, by plain loops over the table as document 02 (Ticket 3) tells them, only to check index.rs before it judges the
//! library: on every small table, and on random ones.

use crate::index::{self, Done, Entry, Index, BROKEN, ENTERED, FOUND, FULL, LEFT, MISSING, REPLACED};
use crate::rng::Rng;
use std::collections::BTreeSet;

fn broken(table: &[Entry]) -> bool {
    for at in 0..table.len() {
        for other in 0..at {
            let gap = table[other].number == 0;
            let same = table[other].number == table[at].number;
            if table[at].number != 0 && (gap || same) {
                return true;
            }
        }
    }
    table.len() > 512
}

fn position(table: &[Entry], number: u16) -> Option<usize> {
    (0..table.len()).find(|&at| table[at].number == number)
}

fn enter(table: &mut [Entry], seen: Option<Entry>) -> Done {
    if broken(table) {
        return (BROKEN, 0);
    }
    let Some(seen) = seen else { return (LEFT, 0) };
    let (done, at) = match (position(table, seen.number), position(table, 0)) {
        (Some(at), _) => (REPLACED, at),
        (None, Some(at)) => (ENTERED, at),
        (None, None) => return (FULL, 0),
    };
    table[at] = seen;
    (done, at as u64)
}

fn find(table: &[Entry], number: u32) -> Done {
    if broken(table) {
        return (BROKEN, 0);
    }
    let at = if number == 0 || number > 65_535 { None } else { position(table, number as u16) };
    at.map_or((MISSING, 0), |at| (FOUND, at as u64))
}

/// Both ways give the same answers and the same table over the reports. A table that began without a used entry is the one worked out
/// afresh.
fn agree(table: &[Entry], reports: &[Option<Entry>]) {
    let mut plain = table.to_vec();
    let mut index = Index::of(table, table.len() as u64);
    for &report in reports {
        assert_eq!(index.enter(report), enter(&mut plain, report), "{:?}, {:?}", table, reports);
        assert_eq!(index.table(), plain, "{:?}, {:?}", table, reports);
        let held = plain.iter().map(|entry| u32::from(entry.number));
        for number in held.chain([0, 1, 2, 65_536, 65_537]).collect::<BTreeSet<u32>>() {
            assert_eq!(index.find(number), find(&plain, number), "{:?}, number {}", plain, number);
        }
    }
    if !broken(table) && !table.iter().any(Entry::used) {
        let seen: Vec<Entry> = reports.iter().copied().flatten().collect();
        let used: Vec<Entry> = plain.into_iter().filter(Entry::used).collect();
        assert_eq!(index::afresh(table.len() as u64, &seen), used, "{:?}", reports);
    }
}

fn any_entry(rng: &mut Rng, numbers: u64) -> Entry {
    Entry { number: rng.below(numbers) as u16, kind: rng.below(3) as u16, scan: rng.below(3) as u32, place: rng.below(3) }
}

/// A table in words: its numbers.
pub fn of_numbers(numbers: &[u16]) -> Vec<Entry> {
    numbers.iter().map(|&number| Entry { number, kind: 110, scan: 7, place: 70 }).collect()
}

/// Every table of at most so many entries with numbers from 0 to a most.
pub fn every_table(entries: usize, most: u16) -> Vec<Vec<u16>> {
    let mut all = vec![Vec::new()];
    let mut from = 0;
    for _ in 0..entries {
        let to = all.len();
        for shorter in from..to {
            all.extend((0..=most).map(|number| [&all[shorter][..], &[number]].concat()).collect::<Vec<_>>());
        }
        from = to;
    }
    all
}

/// Stops the program where index.rs and the loops disagree.
pub fn check() {
    let report = |number: u16| Some(Entry { number, kind: 111, scan: 3, place: 30 });
    for numbers in every_table(4, 3) {
        for first in 1..=4 {
            agree(&of_numbers(&numbers), &[None, report(first), report(5), report(first)]);
        }
    }
    for size in [511, 512, 513] {
        agree(&vec![Entry::default(); size], &[None, report(1), report(2), report(1)]);
    }
    let rng = &mut Rng::new(0, 0, 1);
    for turn in 0..4_000 {
        let size = rng.index(7);
        let mut table: Vec<Entry> = (0..size).map(|_| any_entry(rng, 10)).collect();
        if turn % 2 == 0 {
            table.iter_mut().for_each(|entry| entry.number = 0);
        }
        let reports: Vec<Option<Entry>> = (0..12).map(|_| Some(any_entry(rng, 9)).filter(Entry::used)).collect();
        agree(&table, &reports);
    }
}
