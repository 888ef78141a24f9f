//! Cases for the index: how they are sent to driver.c, and what should come back.

use crate::answer::{hex, Answer};
use crate::case::{put_bytes, Tables};
use crate::index::{self, Done, Entry, Index};
use crate::index_totals::Call;
use crate::line::{self, Lent, Look, END};
use crate::totals::Totals;
use std::collections::BTreeMap;

/// One call, or the calls of a walk. A line is named by its place among the case's lines.
#[derive(Clone, Copy, Debug)]
pub enum Step {
    /// The report at the place is entered.
    Enter { line: usize, place: u64, form: u32, link: u32, scan: u32 },
    /// From the place on every outcome of the line is entered.
    Walk { line: usize, place: u64, form: u32, link: u32, scan: u32 },
    /// A number is looked for.
    Find { number: u32 },
}

/// A table is lent to one call after the other.
pub struct Indexing {
    /// guards in front, the table, guards behind
    pub entries: Vec<Entry>,
    pub front: usize,
    /// the number of entries that is passed
    pub size: u64,
    pub lines: Vec<Vec<u8>>,
    pub steps: Vec<Step>,
}

impl Indexing {
    /// A table with nothing around it.
    pub fn alone(table: Vec<Entry>, lines: Vec<Vec<u8>>, steps: Vec<Step>) -> Indexing {
        Indexing { size: table.len() as u64, front: 0, entries: table, lines, steps }
    }

    /// The table as lent. Where more entries are passed than are there, those that are there.
    pub fn table(&self) -> &[Entry] {
        &self.entries[self.front..self.entries.len().min(self.front.saturating_add(self.size as usize))]
    }

    /// The form and the link number of each call that reads a line.
    pub fn forms_and_links(&mut self) -> impl Iterator<Item = (&mut u32, &mut u32)> {
        self.steps.iter_mut().filter_map(|step| match step {
            Step::Enter { form, link, .. } | Step::Walk { form, link, .. } => Some((form, link)),
            Step::Find { .. } => None,
        })
    }

    pub fn put(&self, message: &mut Vec<u8>) {
        message.extend_from_slice(&(self.front as u32).to_be_bytes());
        message.extend_from_slice(&self.size.to_be_bytes());
        message.extend_from_slice(&(self.entries.len() as u32).to_be_bytes());
        self.entries.iter().for_each(|entry| message.extend(entry.bytes()));
        message.extend_from_slice(&(self.lines.len() as u32).to_be_bytes());
        self.lines.iter().for_each(|line| put_bytes(message, line));
        message.extend_from_slice(&(self.steps.len() as u32).to_be_bytes());
        for step in &self.steps {
            match *step {
                Step::Enter { line, place, form, link, scan } => put_entering(message, b'e', line, place, [form, link, scan]),
                Step::Walk { line, place, form, link, scan } => put_entering(message, b'w', line, place, [form, link, scan]),
                Step::Find { number } => {
                    message.push(b'f');
                    message.extend_from_slice(&number.to_be_bytes());
                }
            }
        }
    }

    pub fn expect(&self, tables: &Tables, answer: &mut Answer, totals: &mut Totals) {
        let now = self.run(tables, answer, totals);
        now.finish(self, totals);
        let bytes: Vec<u8> = now.entries.iter().flat_map(Entry::bytes).collect();
        answer.all("entries at the end, sixteen bytes each, guards too", &bytes);
    }

    /// What the calls answer, one behind the other, and the table at the end.
    pub fn worked_out(&self, tables: &Tables) -> (Vec<Done>, Vec<Entry>) {
        let now = self.run(tables, &mut Answer::new(false), &mut Totals::default());
        let table = now.entries[now.lent()].to_vec();
        (now.dones, table)
    }

    fn run(&self, tables: &Tables, answer: &mut Answer, totals: &mut Totals) -> Now {
        let lines: Vec<Vec<u16>> = self.lines.iter().map(|bytes| line::words(bytes)).collect();
        let lent = |at: usize, form: u32, link: u32| {
            let (layouts, length, words) = (tables.of(form), self.lines[at].len(), &lines[at][..]);
            Lent { form, layouts, link, length, words }
        };
        let mut now = Now::of(self);
        totals.index.table(self, &now.index.faults);
        for (turn, step) in self.steps.iter().enumerate() {
            let turn = turn as u64;
            match *step {
                Step::Enter { line, place, form, link, scan } => {
                    now.enter(answer, totals, turn, &Place { line: lent(line, form, link), place, scan });
                }
                Step::Walk { line, place, form, link, scan } => {
                    now.walk(answer, totals, turn, Place { line: lent(line, form, link), place, scan });
                }
                Step::Find { number } => {
                    let done = now.index.find(number);
                    now.dones.push(done);
                    totals.index.find(&now.entries[now.lent()], number, done, &now.index.faults);
                    expect_done(answer, "siamrung_index_find", turn, done);
                    answer.u32("entries changed by siamrung_index_find", turn, 0);
                }
            }
        }
        now
    }

    pub fn shown(&self) -> String {
        let entry = |entry: &Entry| match (entry.used(), *entry == Entry::default()) {
            (false, true) => " 0".to_string(),
            _ => format!(" {}:{}:{}:{}", entry.number, entry.kind, entry.scan, entry.place),
        };
        let entries: String = self.entries.iter().map(entry).collect();
        let table = format!("entries{}, {} passed from entry {} on", entries, self.size, self.front);
        let lines: Vec<String> = self.lines.iter().map(|line| format!("{} bytes {}", line.len(), hex(line))).collect();
        let lines = if lines.iter().map(String::len).sum::<usize>() > 20_000 { "long".to_string() } else { lines.join("; ") };
        format!("index, {}; lines {}; calls {:?}", table, lines, self.steps)
    }
}

/// Form, link number and scan number stand behind the place.
fn put_entering(message: &mut Vec<u8>, tag: u8, line: usize, place: u64, behind: [u32; 3]) {
    message.push(tag);
    message.extend_from_slice(&(line as u32).to_be_bytes());
    message.extend_from_slice(&place.to_be_bytes());
    behind.iter().for_each(|number| message.extend_from_slice(&number.to_be_bytes()));
}

/// What siamrung_index_enter is asked.
struct Place<'a> {
    line: Lent<'a>,
    place: u64,
    scan: u32,
}

/// The entries as they are between two calls.
struct Now {
    index: Index,
    entries: Vec<Entry>,
    front: usize,
    there: usize,
    /// all reports with a file number that were handed in
    seen: Vec<Entry>,
    /// the link on which each of their numbers came last
    links: BTreeMap<u16, u32>,
    /// what the calls answered
    dones: Vec<Done>,
}

impl Now {
    fn of(case: &Indexing) -> Now {
        let table = case.table();
        let index = Index::of(table, case.size);
        let (entries, front, there) = (case.entries.clone(), case.front, table.len());
        Now { index, entries, front, there, seen: Vec::new(), links: BTreeMap::new(), dones: Vec::new() }
    }

    /// The places of the table among the entries.
    fn lent(&self) -> std::ops::Range<usize> {
        self.front..self.front + self.there
    }

    /// One call; answers what stands at the place.
    fn enter(&mut self, answer: &mut Answer, totals: &mut Totals, turn: u64, at: &Place) -> Look {
        let look = at.line.look(at.place);
        let entry = index::entry_of(&look, at.scan);
        let done = self.index.enter(entry);
        let call = Call { table: &self.entries[self.lent()], faults: &self.index.faults, line: &at.line, place: at.place, look: &look, entry, done };
        totals.altitudes.enter(at.line.form, &look, done);
        totals.index.enter(&call);
        totals.links.enter(&call, &mut self.links);
        self.seen.extend(entry);
        self.dones.push(done);
        expect_done(answer, "siamrung_index_enter", turn, done);
        self.change(answer, turn, entry, done);
        look
    }

    /// An accepted report is the whole of its entry, and no other entry changes.
    fn change(&mut self, answer: &mut Answer, turn: u64, entry: Option<Entry>, (done, at): Done) {
        let written = entry.filter(|_| done == index::ENTERED || done == index::REPLACED);
        let place = self.front + at as usize;
        let changed = written.filter(|written| *written != self.entries[place]);
        answer.u32("entries changed by siamrung_index_enter", turn, u32::from(changed.is_some()));
        if let Some(changed) = changed {
            self.entries[place] = changed;
            answer.u32("entry changed by siamrung_index_enter", turn, place as u32);
            answer.all("bytes of the entry changed by siamrung_index_enter", &changed.bytes());
        }
    }

    /// Every outcome from the place on, up to the end or to a place that gives itself back.
    fn walk(&mut self, answer: &mut Answer, totals: &mut Totals, turn: u64, mut at: Place) {
        let mut outcomes = 0;
        loop {
            let look = self.enter(answer, totals, turn, &at);
            answer.u64("siamrung_after", at.place, turn, look.after);
            outcomes += 1;
            if look.kind == END || look.after == at.place {
                return totals.index.walk(at.line.words.len(), outcomes);
            }
            at.place = look.after;
        }
    }

    /// The table of the calls has to be the one that the index holds; and where no entry was used at first, the one worked out afresh.
    fn finish(&self, case: &Indexing, totals: &mut Totals) {
        let table = &self.entries[self.lent()];
        assert_eq!(self.index.table(), table, "{}", case.shown());
        if !self.index.faults.any() && !case.table().iter().any(Entry::used) {
            let used = table.iter().take_while(|entry| entry.used()).count();
            assert_eq!(index::afresh(case.size, &self.seen), table[..used], "{}", case.shown());
            assert_eq!(case.table()[used..], table[used..], "{}", case.shown());
            totals.index.afresh(case, used, &self.seen);
        }
    }
}

fn expect_done(answer: &mut Answer, call: &'static str, turn: u64, done: Done) {
    answer.u32(call, turn, index::answer(done));
    answer.u32("siamrung_index_done", turn, done.0);
    answer.u64("siamrung_index_entry", turn, 0, done.1);
}
