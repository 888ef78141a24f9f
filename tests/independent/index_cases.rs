//! Cases for the index: tables that are sound and tables that are broken in each way, small ones and ones of 512 entries; every outcome of
//! a line handed to them; numbers looked for; whole lines walked as one scan or as several.
//!
//! A case is made from the seed and its number alone. The sort of case goes by the number, and so do some file numbers and entries, so that
//! every seed reaches the quotas.

use crate::case::{Case, Tables};
use crate::index::{self, Entry, FILE};
use crate::index_case::{Indexing, Step};
use crate::layout::Layout;
use crate::line::{self, Lent, IDLE};
use crate::line_cases::{damaged, minus_zero, noise, odd_word, unassigned_radar, valid_items};
use crate::link_cases;
use crate::report;
use crate::rng::Rng;
use std::collections::BTreeSet;

const INDEX: u64 = 9;
const MOST_FILE: u64 = 4_095;
const MOST_ENTRIES: usize = 512;
const MOST_WORDS: usize = 32_768;

// ---- numbers

/// File numbers of which some are like the first: they differ in one bit, or have the same low or high byte.
fn pool(rng: &mut Rng, more: u64) -> Vec<u16> {
    let first = rng.between(1, MOST_FILE) as u16;
    let mut pool = vec![first];
    for _ in 0..more {
        let like = *rng.pick(&pool);
        pool.push(match rng.below(5) {
            0 | 1 => like ^ (1 << rng.below(12)),
            2 => like % 256 + 256 * rng.below(16) as u16,
            3 => like - like % 256 + rng.below(256) as u16,
            _ => rng.between(1, MOST_FILE) as u16,
        });
    }
    pool.retain(|&number| number != 0);
    pool
}

/// A number for an entry: one of the pool, one that is like it, or any. Some are above 4095.
fn entry_number(rng: &mut Rng, pool: &[u16]) -> u16 {
    let like = *rng.pick(pool);
    match rng.below(10) {
        0..=3 => like,
        4..=6 => like.wrapping_add(4096 * rng.between(1, 15) as u16),
        7 => like ^ (1 << rng.below(16)),
        8 => rng.between(1, MOST_FILE) as u16,
        _ => rng.below(65_536) as u16,
    }
}

fn scan(rng: &mut Rng) -> u32 {
    match rng.below(10) {
        0 => 0,
        1 => u32::MAX,
        2 => rng.next() as u32,
        _ => rng.between(1, 4) as u32,
    }
}

/// A number to look for: often one that an entry has, or has but for some bits.
fn sought(rng: &mut Rng, pool: &[u16], table: &[Entry]) -> u32 {
    let held = if table.is_empty() { 0 } else { rng.pick(table).number };
    let near = u32::from(if rng.once_in(3) { *rng.pick(pool) } else { held });
    match rng.below(12) {
        0..=4 => near,
        5 => u32::from(*rng.pick(pool)),
        6 => 0,
        7 => near + 65_536 * rng.between(1, 65_535) as u32,
        8 => near + (65_536 << rng.below(16)),
        9 => 65_536 * rng.between(1, 65_535) as u32,
        10 => near ^ (1 << rng.below(16)),
        _ => {
            let any = rng.next() as u32;
            *rng.pick(&[1, 4095, 4096, 65_535, 65_536, 65_537, u32::MAX, any])
        }
    }
}

// ---- tables

fn entry(rng: &mut Rng, number: u16) -> Entry {
    let kind = if rng.once_in(3) { rng.between(110, 115) as u16 } else { *rng.pick(&[0, 101, 109, 116, 120, 366, u16::MAX]) };
    let place = if rng.once_in(3) { rng.next() } else { rng.below(40) };
    Entry { number, kind, scan: scan(rng), place }
}

/// An unused entry: all zeros, or with other things beside its number.
fn unused(rng: &mut Rng) -> Entry {
    if rng.once_in(2) {
        entry(rng, 0)
    } else {
        Entry::default()
    }
}

/// A table of that size with so many used entries, first and with different numbers.
fn sound(rng: &mut Rng, pool: &[u16], size: usize, used: usize) -> Vec<Entry> {
    sound_without(rng, pool, &[], size, used)
}

/// The same, and without some numbers.
fn sound_without(rng: &mut Rng, pool: &[u16], without: &[u16], size: usize, used: usize) -> Vec<Entry> {
    let mut numbers: BTreeSet<u16> = without.iter().copied().chain([0]).collect();
    let mut table = Vec::with_capacity(size + 3);
    while table.len() < used {
        let number = entry_number(rng, pool);
        if numbers.insert(number) {
            table.push(entry(rng, number));
        }
    }
    let all_zeros = rng.once_in(3);
    table.extend((used..size).map(|_| if all_zeros { Entry::default() } else { unused(rng) }));
    table
}

/// How many entries of a small table are used: often none, or all.
fn some_used(rng: &mut Rng, size: usize) -> usize {
    match rng.below(5) {
        0 => 0,
        1 | 2 => size,
        _ => rng.index(size + 1),
    }
}

/// A used entry becomes unused though one stands behind it; or an unused one becomes used. At least two entries are there.
fn break_order(rng: &mut Rng, table: &mut [Entry], number: u16) {
    let used = table.iter().filter(|entry| entry.used()).count();
    let last = table.len() - 1;
    if used >= 2 && rng.once_in(2) {
        let at = rng.index(used - 1);
        table[at].number = 0;
        if rng.once_in(3) {
            // all up to there
            table[..at].iter_mut().for_each(|entry| entry.number = 0);
        }
    } else {
        let at = if used < last && rng.once_in(2) { last } else { rng.between(1 + used.min(last - 1) as u64, last as u64) as usize };
        table[at - 1].number = 0;
        table[at].number = number;
    }
}

/// The number, or one that the table has, is held by two of the used entries, often by neighbours.
fn hold_twice(rng: &mut Rng, table: &mut [Entry], number: u16) {
    let used = table.iter().filter(|entry| entry.used()).count();
    if used < 2 {
        table[0] = entry(rng, number);
        table[1] = entry(rng, number);
        return;
    }
    let one = rng.index(used - 1);
    let other = if rng.once_in(2) { one + 1 } else { rng.between(one as u64 + 1, used as u64 - 1) as usize };
    if rng.once_in(2) {
        table[one].number = number;
    }
    table[other].number = table[one].number;
}

/// A small table that is broken, by the order of its entries, by a number held twice, or by both.
fn broken(rng: &mut Rng, pool: &[u16]) -> Vec<Entry> {
    let size = rng.between(2, 9) as usize;
    let used = if rng.once_in(3) { size } else { some_used(rng, size) };
    let mut table = sound(rng, pool, size, used);
    let number = if rng.once_in(4) { entry_number(rng, pool).max(1) } else { *rng.pick(pool) };
    match rng.below(10) {
        0..=3 => break_order(rng, &mut table, number),
        4..=8 => hold_twice(rng, &mut table, number),
        _ => {
            hold_twice(rng, &mut table, number);
            break_order(rng, &mut table, number);
        }
    }
    table
}

/// A large one: two entries of one number far apart, or unused entries far before a used one.
fn broken_large(rng: &mut Rng, pool: &[u16]) -> Vec<Entry> {
    let size = if rng.once_in(2) { 512 } else { rng.between(300, 512) as usize };
    let used = rng.between(290, size as u64) as usize;
    let mut table = sound(rng, pool, size, used);
    let apart = rng.between(256, used as u64 - 1) as usize;
    let at = rng.index(used - apart);
    if rng.once_in(2) {
        table[at + apart].number = table[at].number;
    } else if rng.once_in(2) {
        table[at].number = 0;
    } else {
        table[at..at + apart].iter_mut().for_each(|entry| entry.number = 0);
    }
    table
}

/// A table of more than 512 entries, mostly one more, mostly with nothing else wrong.
fn too_large(rng: &mut Rng, pool: &[u16]) -> Vec<Entry> {
    let size = if rng.below(4) > 0 { 513 } else { *rng.pick(&[514, 515, 600, 768, 1024]) };
    let used = *rng.pick(&[0, 0, 1, 5, 511, 512, 513]);
    let mut table = sound(rng, pool, size, used);
    if rng.once_in(6) {
        hold_twice(rng, &mut table, pool[0]);
    }
    if rng.once_in(6) {
        break_order(rng, &mut table, pool[0]);
    }
    table
}

// ---- lines

/// A report of any layout that has a file number, with that one; or of any layout that has none.
fn report_of(rng: &mut Rng, tables: &Tables, file: Option<u16>) -> Vec<u16> {
    let has_file = |layout: &&Layout| layout.item_pieces().any(|(number, _, _)| number == FILE);
    let layouts: Vec<&Layout> = tables.reports.iter().filter(|layout| has_file(layout) == file.is_some()).collect();
    let layout = *rng.pick(&layouts);
    let mut items = valid_items(rng, layout);
    for item in items.iter_mut().filter(|item| item.0 == u64::from(FILE)) {
        item.1 = u64::from(file.unwrap_or(0));
    }
    let text = layout.write(&items).expect("valid values are written");
    report::to_words(&report::with_parity(&text))
}

/// A line, and the places of what was put on it.
#[derive(Default)]
struct Made {
    words: Vec<u16>,
    starts: Vec<u64>,
}

impl Made {
    /// Puts the words behind idle words, at times behind none, or right behind other words.
    fn put(&mut self, rng: &mut Rng, words: &[u16]) {
        let gap = if rng.once_in(12) { 0 } else { rng.between(u64::from(!self.words.is_empty()), 3) };
        self.words.extend(vec![IDLE; gap as usize]);
        if rng.once_in(5) {
            self.words.extend((0..rng.between(1, 3)).map(|_| odd_word(rng)));
        }
        self.starts.push(self.words.len() as u64);
        self.words.extend(words);
    }

    fn bytes(&self) -> Vec<u8> {
        line::to_bytes(&self.words)
    }
}

/// A report with the damage that is the most seldom otherwise: refusal 7, refusal 9.
pub fn seldom(rng: &mut Rng, tables: &Tables) -> Vec<u16> {
    let text = if rng.below(3) > 0 { unassigned_radar(rng, tables) } else { minus_zero(rng, tables) };
    report::to_words(&text)
}

/// A line of at most so many reports and refused runs.
fn line_of(rng: &mut Rng, tables: &Tables, pool: &[u16], most: u64) -> Made {
    let mut made = Made::default();
    for _ in 0..rng.between(1, most) {
        let number = *rng.pick(pool);
        let words = match rng.below(16) {
            0..=6 => report_of(rng, tables, Some(number)),
            7 | 8 => report_of(rng, tables, Some(0)),
            9..=11 => report_of(rng, tables, None),
            12 | 13 => damaged(rng, tables),
            14 => seldom(rng, tables),
            _ => noise(rng, 9),
        };
        made.put(rng, &words);
    }
    if rng.once_in(2) {
        made.words.extend(vec![IDLE; rng.index(4)]);
    }
    made
}

/// A line of reports with those file numbers, all of which are read.
fn apart(rng: &mut Rng, tables: &Tables, numbers: &[u16]) -> Made {
    let mut made = Made::default();
    for &number in numbers {
        made.words.extend(vec![IDLE; rng.between(1, 3) as usize]);
        made.starts.push(made.words.len() as u64);
        made.words.extend(report_of(rng, tables, Some(number)));
    }
    made
}

/// The file numbers of the reports that a walk over the lines meets.
fn numbers_met(tables: &Tables, lines: &[Made]) -> BTreeSet<u16> {
    let mut numbers = BTreeSet::new();
    for made in lines {
        let line = Lent { form: 0, layouts: &tables.reports, link: 0, length: 2 * made.words.len(), words: &made.words };
        numbers.extend(line.walk().filter_map(|(_, look)| index::entry_of(&look, 0)).map(|entry| entry.number));
    }
    numbers
}

/// A place to enter from: of a report or run, in front of it, inside it, at the end, beyond it.
fn place(rng: &mut Rng, made: &Made) -> u64 {
    let words = made.words.len() as u64;
    let start = if made.starts.is_empty() { 0 } else { *rng.pick(&made.starts) };
    match rng.below(24) {
        0..=14 => start,
        15..=18 => start.saturating_sub(rng.between(1, 3)),
        19 => words.min(start + rng.between(1, 6)),
        20 => words,
        21 => rng.between(0, words),
        22 => words.saturating_sub(rng.between(0, 2)),
        _ => beyond(rng, words, start),
    }
}

/// A place beyond the line, at times one that is inside but for its high bits.
fn beyond(rng: &mut Rng, words: u64, start: u64) -> u64 {
    let any = rng.next() | 1 << 63;
    *rng.pick(&[words + 1, words + 2, words + 1_000, u64::MAX, 1 << 63, start + (1 << 32), start + (1 << 63), start + 65_536, any])
}

// ---- cases

/// An entry beside the table: unused, or with a number that is entered or looked for.
fn around(rng: &mut Rng, pool: &[u16]) -> Entry {
    let number = *rng.pick(pool);
    if rng.once_in(3) {
        unused(rng)
    } else {
        entry(rng, number)
    }
}

/// The table among other entries, or alone.
fn lend(rng: &mut Rng, pool: &[u16], table: Vec<Entry>, lines: &[Made], steps: Vec<Step>) -> Indexing {
    let lines: Vec<Vec<u8>> = lines.iter().map(Made::bytes).collect();
    lend_bytes(rng, pool, table, lines, steps)
}

fn lend_bytes(rng: &mut Rng, pool: &[u16], table: Vec<Entry>, lines: Vec<Vec<u8>>, steps: Vec<Step>) -> Indexing {
    let size = table.len() as u64;
    let (front, behind) = if rng.once_in(3) { (0, 0) } else { (rng.index(3), rng.index(3)) };
    let mut entries: Vec<Entry> = (0..front).map(|_| around(rng, pool)).collect();
    entries.extend(table);
    entries.extend((0..behind).map(|_| around(rng, pool)));
    Indexing { entries, front, size, lines, steps }
}

/// A call that enters, in document 01's form, with one of those link numbers.
fn entering(rng: &mut Rng, line: usize, place: u64, links: fn(&mut Rng) -> u32) -> Step {
    Step::Enter { line, place, form: 0, link: links(rng), scan: scan(rng) }
}

/// Calls that enter from the lines, and some that look for numbers between them.
fn calls(rng: &mut Rng, pool: &[u16], table: &[Entry], lines: &[Made], enters: u64, finds: u64) -> Vec<Step> {
    let mut steps: Vec<Step> = Vec::new();
    for _ in 0..enters {
        let line = rng.index(lines.len());
        let place = place(rng, &lines[line]);
        steps.push(entering(rng, line, place, link_cases::mostly));
    }
    for _ in 0..finds {
        let at = rng.index(steps.len() + 1);
        steps.insert(at, Step::Find { number: sought(rng, pool, table) });
    }
    steps
}

/// A small sound table, and calls on it.
fn small(rng: &mut Rng, tables: &Tables) -> Indexing {
    let more = rng.below(5);
    let pool = pool(rng, more);
    let size = *rng.pick(&[0, 0, 1, 1, 2, 3, 4, 5, 6, 8]);
    let used = some_used(rng, size);
    let table = sound(rng, &pool, size, used);
    let lines: Vec<Made> = (0..rng.between(1, 2)).map(|_| line_of(rng, tables, &pool, 5)).collect();
    let steps = calls(rng, &pool, &table, &lines, 8, 5);
    lend(rng, &pool, table, &lines, steps)
}

/// A table that every call refuses.
fn refusing(rng: &mut Rng, tables: &Tables, make: fn(&mut Rng, &[u16]) -> Vec<Entry>, enters: u64) -> Indexing {
    let more = rng.below(4);
    let pool = pool(rng, more);
    let table = make(rng, &pool);
    let lines = [line_of(rng, tables, &pool, 6)];
    let finds = rng.between(1, 3);
    let steps = calls(rng, &pool, &table, &lines, enters, finds);
    lend(rng, &pool, table, &lines, steps)
}

/// A table of up to 512 entries of which as many are used as the turn says, three quarters of the time 255 or more. Two numbers are
/// entered, found and replaced; a third finds no room if the table has no more entries.
fn large(rng: &mut Rng, tables: &Tables, turn: u64) -> Indexing {
    let used = if turn % 4 == 0 { turn / 2 % 256 } else { 255 + (turn - turn / 4) % 257 } as usize;
    let size = if rng.once_in(2) { MOST_ENTRIES } else { MOST_ENTRIES.min(used + 2) };
    let base = rng.between(1, MOST_FILE - 2) as u16;
    let pool = [base, base + 1, base + 2];
    let table = sound_without(rng, &pool, &pool, size, used);
    let made = apart(rng, tables, &pool);
    let enter = |rng: &mut Rng, which: usize| entering(rng, 0, made.starts[which], link_cases::link);
    let mut steps = vec![enter(rng, 0), Step::Find { number: u32::from(base) }, enter(rng, 0), enter(rng, 1), enter(rng, 1)];
    steps.extend([Step::Find { number: u32::from(base + 1) }, enter(rng, 2), Step::Find { number: sought(rng, &pool, &table) }]);
    if used > 0 {
        steps.push(Step::Find { number: u32::from(table[rng.index(used)].number) });
    }
    lend(rng, &pool, table, &[made], steps)
}

/// A full table of 512. The number in the entry that the turn says is replaced; others find no room.
fn full(rng: &mut Rng, tables: &Tables, turn: u64) -> Indexing {
    let base = rng.between(1, MOST_FILE - 3) as u16;
    let pool = [base, base + 1, base + 2, base + 3];
    let mut table = sound_without(rng, &pool, &pool, MOST_ENTRIES, MOST_ENTRIES);
    table[(turn / 2 * 5 % 512) as usize].number = base;
    let made = apart(rng, tables, &pool);
    let mut steps: Vec<Step> = made.starts.iter().map(|&place| entering(rng, 0, place, link_cases::link)).collect();
    steps.push(Step::Find { number: u32::from(*rng.pick(&pool)) });
    lend(rng, &pool, table, &[made], steps)
}

/// Six file numbers in turn, on a line that is walked: each is entered, for the table has room and other numbers only.
fn in_turn(rng: &mut Rng, tables: &Tables, turn: u64) -> Indexing {
    let pool: Vec<u16> = (0..6).map(|k| 1 + ((6 * turn + k) % MOST_FILE) as u16).collect();
    let used = rng.index(4);
    let mut table: Vec<Entry> = (1..=used as u16).map(|k| entry(rng, pool[0] + 4096 * k)).collect();
    table.extend((0..6 + rng.index(3)).map(|_| unused(rng)));
    let made = apart(rng, tables, &pool);
    let mut steps = vec![Step::Walk { line: 0, place: 0, form: 0, link: link_cases::link(rng), scan: scan(rng) }];
    steps.extend([Step::Find { number: u32::from(pool[5]) }, Step::Find { number: u32::from(pool[0]) }]);
    lend(rng, &pool, table, &[made], steps)
}

/// Lines walked one behind the other, each as a scan, mostly from a table without a used entry. The table has room for all numbers, just
/// room, or too little.
fn walked(rng: &mut Rng, tables: &Tables, numbers: u64, segments: u64) -> Indexing {
    let pool = pool(rng, numbers);
    let count = if rng.once_in(2) { 1 } else { rng.between(2, 4) };
    let lines: Vec<Made> = (0..count).map(|_| line_of(rng, tables, &pool, segments)).collect();
    let met = numbers_met(tables, &lines).len();
    let any = rng.index(met + 3);
    let size = MOST_ENTRIES.min(*rng.pick(&[met, met, met, met.saturating_sub(1), met / 2, met / 2, met + 1, met + 2, any, 1, 0]));
    let used = if rng.once_in(10) { some_used(rng, size) } else { 0 };
    let table = sound(rng, &pool, size, used);
    let first = scan(rng);
    let step = *rng.pick(&[1, 1, 0, u32::MAX]);
    let scan = |line: usize| first.wrapping_add(step.wrapping_mul(line as u32));
    let walk = |line: usize| Step::Walk { line, place: 0, form: 0, link: link_cases::link(rng), scan: scan(line) };
    let mut steps: Vec<Step> = (0..lines.len()).map(walk).collect();
    if rng.once_in(8) {
        let place = place(rng, &lines[0]);
        steps.push(Step::Walk { line: 0, place, form: 0, link: link_cases::mostly(rng), scan: first });
    }
    steps.extend((0..2).map(|_| Step::Find { number: u32::from(*rng.pick(&pool)) }));
    lend(rng, &pool, table, &lines, steps)
}

/// Six reports with few file numbers, each entered twice at most on any link, and then all in a walk; into a small table, mostly with room.
pub fn few_numbers(rng: &mut Rng, tables: &Tables) -> Indexing {
    let more = rng.between(1, 3);
    let pool = pool(rng, more);
    let numbers: Vec<u16> = (0..6).map(|_| *rng.pick(&pool)).collect();
    let made = apart(rng, tables, &numbers);
    let used = rng.index(2);
    let size = used + rng.index(5);
    let table = sound(rng, &pool, size, used);
    let mut steps: Vec<Step> = made.starts.iter().chain(&made.starts[..3]).map(|&place| entering(rng, 0, place, link_cases::mostly)).collect();
    rng.shuffle(&mut steps);
    steps.push(Step::Walk { line: 0, place: 0, form: 0, link: link_cases::link(rng), scan: scan(rng) });
    lend(rng, &pool, table, &[made], steps)
}

/// A line that is refused for its length, or just not, with reports on it; entered from anywhere.
fn refused_line(rng: &mut Rng, tables: &Tables, turn: u64) -> Indexing {
    let more = rng.below(3);
    let pool = pool(rng, more);
    let mut made = line_of(rng, tables, &pool, 4);
    let report = report_of(rng, tables, Some(pool[0]));
    let mut odd = turn % 2 == 1;
    if turn % 8 == 0 {
        made.put(rng, &report);
        made.words.resize(if turn % 64 == 0 { MOST_WORDS } else { MOST_WORDS + 1 + rng.index(100) }, *rng.pick(&[IDLE, 0, 868]));
        let from = made.words.len() - report.len();
        made.words[from - 1] = IDLE;
        made.words[from..].copy_from_slice(&report);
        made.starts.push(from as u64);
        odd = rng.once_in(4);
    }
    let size = rng.index(5);
    let used = some_used(rng, size);
    let table = if rng.once_in(3) { broken(rng, &pool) } else { sound(rng, &pool, size, used) };
    let mut steps = calls(rng, &pool, &table, std::slice::from_ref(&made), if turn % 8 == 0 { 20 } else { 8 }, 1);
    if turn % 2 == 0 {
        let (words, start) = (made.words.len() as u64, made.starts[0]);
        for _ in 0..4 {
            let place = beyond(rng, words, start);
            steps.push(entering(rng, 0, place, link_cases::link));
        }
    }
    let mut bytes = made.bytes();
    if odd {
        bytes.push(rng.below(256) as u8);
    }
    lend_bytes(rng, &pool, table, vec![bytes], steps)
}

/// The table with that number, and the calls on it, in document 01's form.
pub fn table(tables: &Tables, seed: u64, number: u64) -> Case {
    Case::Index(table_of(&mut Rng::new(seed, INDEX, number), tables, number))
}

/// A table whose sort goes by the number, and the calls on it, in document 01's form.
pub fn table_of(rng: &mut Rng, tables: &Tables, number: u64) -> Indexing {
    let turn = number / 16;
    match number % 16 {
        0 => in_turn(rng, tables, turn),
        1 if turn % 2 == 0 => full(rng, tables, turn),
        1..=4 => small(rng, tables),
        6..=8 => refusing(rng, tables, broken, 7),
        9 => refusing(rng, tables, broken_large, 5),
        10 => large(rng, tables, turn),
        11 => refusing(rng, tables, too_large, 4),
        12 if turn % 64 == 63 => walked(rng, tables, 700, 600),
        5 | 12..=14 => {
            let numbers = rng.between(1, 9);
            walked(rng, tables, numbers, 9)
        }
        _ => refused_line(rng, tables, turn),
    }
}
