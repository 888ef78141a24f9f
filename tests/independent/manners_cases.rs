//! Cases for manners (Ticket 6 of document 02): lines on which rules are broken and nearly broken, beside refused runs and any others; empty
//! and idle lines, lines at the limits of their length and lines that are full of breaches; and for each of them lists that are just large
//! enough, a byte too small, larger, and empty, in both forms of the altitude.
//!
//! A case is made from the seed and its number alone. The sort of line goes by the number, and so do the runs that nearly break a rule or are
//! refused, so that every seed reaches the quotas.

use crate::altitude_cases::{complement, either};
use crate::case::{Case, Tables};
use crate::line::{self, IDLE};
use crate::line_cases::{self, damaged, noise, valid};
use crate::link_cases;
use crate::manners::{self, BREACH, MOST};
use crate::manners_case::{Checking, Lend};
use crate::manners_runs::{breaking, flipped, nearly, refused, NEARLY_SORTS, REFUSED_SORTS};
use crate::report;
use crate::rng::Rng;

const LINE: u64 = 16;
const ANY_LINE: u64 = 17;

const MOST_WORDS: usize = 32_768;
/// How many runs of a mixed line go by turns.
const IN_TURN: usize = 10;

// ---- runs

fn any_rule(rng: &mut Rng) -> u32 {
    rng.between(1, 4) as u32
}

fn any_breach(rng: &mut Rng, tables: &Tables) -> Vec<u16> {
    let rule = any_rule(rng);
    report::to_words(&breaking(rng, tables, rule))
}

/// One of all runs that nearly break a rule or would break one.
fn in_turn(rng: &mut Rng, tables: &Tables, turn: usize) -> Vec<u16> {
    let sort = turn % (NEARLY_SORTS + REFUSED_SORTS);
    if sort < NEARLY_SORTS {
        report::to_words(&nearly(rng, tables, sort))
    } else {
        refused(rng, tables, sort - NEARLY_SORTS)
    }
}

/// Any other run: a report, a damaged one, one that breaks a rule but for some bits, noise.
fn other(rng: &mut Rng, tables: &Tables) -> Vec<u16> {
    match rng.below(8) {
        0..=2 => valid(rng, tables),
        3 | 4 => damaged(rng, tables),
        5 | 6 => {
            let rule = any_rule(rng);
            let text = breaking(rng, tables, rule);
            flipped(rng, &text)
        }
        _ => noise(rng, 9),
    }
}

// ---- lines

/// The runs one behind the other, with idle words between them, in front and behind; or at times with none.
fn join(rng: &mut Rng, runs: &[Vec<u16>]) -> Vec<u16> {
    let ends = [rng.index(4), rng.index(4)].map(|idle| if rng.once_in(2) { 0 } else { idle });
    let mut words = vec![IDLE; ends[0]];
    for (at, run) in runs.iter().enumerate() {
        let gap = if at == 0 || rng.once_in(24) { 0 } else { rng.between(1, 3) };
        words.extend(vec![IDLE; gap as usize]);
        words.extend(run);
    }
    words.extend(vec![IDLE; ends[1]]);
    words
}

/// Breaches, the runs of the turn and some others.
fn mixed(rng: &mut Rng, tables: &Tables, turn: usize) -> Vec<u16> {
    let mut runs: Vec<Vec<u16>> = (0..IN_TURN).map(|k| in_turn(rng, tables, IN_TURN * turn + k)).collect();
    runs.extend((0..rng.index(11)).map(|_| any_breach(rng, tables)));
    runs.extend((0..rng.index(3)).map(|_| other(rng, tables)));
    rng.shuffle(&mut runs);
    let mut words = join(rng, &runs);
    if rng.once_in(8) {
        for _ in 0..rng.between(1, 4) {
            let at = rng.index(words.len());
            words[at] ^= 1 << rng.below(16);
        }
    }
    words
}

/// One breach, and at most two other runs.
fn short(rng: &mut Rng, tables: &Tables) -> Vec<u16> {
    let mut runs = vec![any_breach(rng, tables)];
    let any_turn = rng.index(1_000);
    match rng.below(4) {
        0 => (),
        1 => runs.push(in_turn(rng, tables, any_turn)),
        2 => runs.extend([other(rng, tables), valid(rng, tables)]),
        _ => runs.extend([refused(rng, tables, any_turn), in_turn(rng, tables, any_turn / 2)]),
    }
    rng.shuffle(&mut runs);
    join(rng, &runs)
}

/// Reports only, which begin and end with a breach of rules that go by the turn; no idle word is in front or behind.
fn from_end_to_end(rng: &mut Rng, tables: &Tables, turn: u64) -> Vec<u16> {
    let [first, last] = [turn % 4, turn / 4 % 4].map(|rule| report::to_words(&breaking(rng, tables, rule as u32 + 1)));
    let mut runs = vec![first];
    for _ in 0..rng.below(6) {
        runs.push(if rng.once_in(3) { any_breach(rng, tables) } else { valid(rng, tables) });
    }
    runs.push(last);
    runs.join(&IDLE)
}

/// Reports only, of which as many as wanted break a rule; the first and the last word are a report's half of the time.
fn sound(rng: &mut Rng, tables: &Tables, breaches: u64, others: u64) -> Vec<u16> {
    let mut runs: Vec<Vec<u16>> = (0..breaches).map(|_| any_breach(rng, tables)).collect();
    runs.extend((0..others).map(|_| valid(rng, tables)));
    rng.shuffle(&mut runs);
    let words = runs.join(&IDLE);
    if rng.once_in(2) {
        return words;
    }
    [vec![IDLE; rng.index(3)], words, vec![IDLE; rng.index(3)]].concat()
}

/// So many words, idle but for some breaches: at the start, at the end, between them.
fn sparse(rng: &mut Rng, tables: &Tables, words: usize) -> Vec<u16> {
    let mut line = vec![IDLE; words];
    let runs = rng.between(0, 3) as usize;
    for sort in 0..runs {
        let run = any_breach(rng, tables);
        let last = words - run.len();
        let from = [last, 0, rng.between(8, last as u64 - 8) as usize][sort];
        line[from..from + run.len()].copy_from_slice(&run);
    }
    line
}

/// As many breaches as a line can have, all of them Maps; or breaches of all rules up to the end of the line.
fn full(rng: &mut Rng, tables: &Tables, maps: bool) -> Vec<u16> {
    let mut line = Vec::with_capacity(MOST_WORDS + 8);
    while line.len() + 7 <= MOST_WORDS || (maps && line.len() + 4 <= MOST_WORDS) {
        let rule = if maps { manners::MAP } else { any_rule(rng) };
        line.extend(report::to_words(&breaking(rng, tables, rule)));
        line.push(IDLE);
    }
    line.resize(MOST_WORDS, IDLE);
    line
}

// ---- lists

fn around(rng: &mut Rng, form: u32, length: u64) -> Lend {
    let (front, behind) = if rng.once_in(2) { (0, 0) } else { (rng.below(6) as u32, rng.below(6) as u32) };
    Lend { form, front, behind, length }
}

/// Lists for a line that needs so many bytes: just enough in both forms, a byte fewer, more, none, any.
fn lends(rng: &mut Rng, form: u32, needed: u64) -> Vec<Lend> {
    let other = if form == 0 { complement(rng) } else { 0 };
    let more = needed + *rng.pick(&[1, 1, 1, 2, 3, 3, 3, 4, 4, 5, 8]);
    let fewer = needed - needed.min(*rng.pick(&[2, 3, 4, 4, 5, 8]));
    let any = rng.below(needed + 6);
    let mut lengths = vec![needed.saturating_sub(1), more, 0, any];
    if rng.once_in(2) {
        lengths.push(fewer);
    }
    if rng.once_in(12) {
        lengths.push(BREACH * MOST);
    }
    if rng.once_in(12) {
        lengths.push(*rng.pick(&[1 << 32, (1 << 32) + 3, 1 << 34, 1 << 62, 1 << 63, u64::MAX]));
    }
    let mut lends = vec![around(rng, form, needed), around(rng, other, needed)];
    for length in lengths {
        let form = either(rng);
        lends.push(around(rng, form, length));
    }
    rng.shuffle(&mut lends);
    lends
}

/// What the words need if all of them are looked at.
fn needed(tables: &Tables, words: &[u16]) -> u64 {
    BREACH * manners::of_words(&tables.reports, words).len() as u64
}

fn checking(rng: &mut Rng, tables: &Tables, bytes: Vec<u8>) -> Checking {
    let form = either(rng);
    let lends = lends(rng, form, needed(tables, &line::words(&bytes)));
    Checking { link: link_cases::link(rng), ..Checking::of(bytes, form, lends) }
}

// ---- cases

/// A line of 65,536 bytes, one or two more, one or two fewer, or more; or one that is only said to be longer.
fn limit(rng: &mut Rng, tables: &Tables, turn: u64) -> Checking {
    let (words, odd) = match turn % 5 {
        0 => (MOST_WORDS, false),
        1 => (MOST_WORDS + 1, false),
        2 => (MOST_WORDS, true),
        3 => (MOST_WORDS - 1, turn % 2 == 0),
        _ => (MOST_WORDS + 1 + rng.index(1_000), rng.once_in(2)),
    };
    let mut bytes = line::to_bytes(&sparse(rng, tables, words));
    if odd {
        bytes.push(rng.below(256) as u8);
    }
    let mut checking = checking(rng, tables, bytes);
    if turn % 10 == 4 {
        checking.length = *rng.pick(&[1 << 32, (1 << 32) + 1, (1 << 32) + 14, 1 << 48, 1 << 63, u64::MAX - 1, u64::MAX]);
    }
    checking
}

/// A short line and one byte more.
fn odd(rng: &mut Rng, tables: &Tables) -> Checking {
    let words = match rng.below(8) {
        0 => Vec::new(),
        1 => vec![IDLE; rng.index(4)],
        2 => any_breach(rng, tables),
        _ => short(rng, tables),
    };
    let mut bytes = line::to_bytes(&words);
    bytes.push(rng.below(256) as u8);
    checking(rng, tables, bytes)
}

fn line_of(rng: &mut Rng, tables: &Tables, number: u64) -> Vec<u16> {
    let turn = number / 16;
    match number % 16 {
        0 => Vec::new(),
        1 if turn % 32 == 0 => vec![IDLE; rng.between(1_000, MOST_WORDS as u64) as usize],
        1 => vec![IDLE; rng.between(1, 9) as usize],
        4 | 5 => short(rng, tables),
        6 if turn % 32 == 0 => {
            let breaches = rng.between(256, 400);
            sound(rng, tables, breaches, 20)
        }
        6 => {
            let breaches = rng.between(10, 60);
            sound(rng, tables, breaches, 5)
        }
        7 => from_end_to_end(rng, tables, turn),
        sort => mixed(rng, tables, (8 * turn + sort - 8) as usize),
    }
}

/// The line with that number.
pub fn line(tables: &Tables, seed: u64, number: u64) -> Case {
    let rng = &mut Rng::new(seed, LINE, number);
    if number % 500 == 499 {
        let words = full(rng, tables, number % 1_000 == 499);
        return Case::Manners(checking(rng, tables, line::to_bytes(&words)));
    }
    Case::Manners(match number % 16 {
        2 => limit(rng, tables, number / 16),
        3 => odd(rng, tables),
        _ => {
            let words = line_of(rng, tables, number);
            checking(rng, tables, line::to_bytes(&words))
        }
    })
}

/// A line as the lines of the other files are, with any damage.
pub fn any_line(tables: &Tables, seed: u64, number: u64) -> Case {
    let rng = &mut Rng::new(seed, ANY_LINE, number);
    match line_cases::line_in(rng, tables, number, 0) {
        Case::Line { bytes, .. } => Case::Manners(checking(rng, tables, bytes)),
        _ => panic!("a line"),
    }
}
