//! Chosen cases of manners (Ticket 6 of document 02), each once, with answers worked out by hand from documents 01, 02 and 004: runs that break
//! a rule beside their nearest neighbours, and each of their bits turned over; lines of two and of three of them; every length of a list around
//! the least; lines at the limits of their length; as many breaches as a line can have; every start of a Map, every altitude, every first word.

use crate::altitude_cases::FORMS;
use crate::bits;
use crate::case::{Case, Tables};
use crate::chosen;
use crate::line::{self, IDLE};
use crate::manners::{self, Breach, BREACH, MOST};
use crate::manners_case::{Checking, Lend};
use crate::report;
use crate::run::Named;

const MOST_WORDS: usize = 32_768;

/// A breach by hand: the place and the rule.
type Hand = (u64, u32);

/// The case of a line. Its breaches, or its refusal, have to be those worked out by hand, in both forms.
fn checked(tables: &Tables, name: String, checking: Checking, gets: Result<&[Hand], u32>) -> Named {
    let by_hand = gets.map(|all| all.iter().map(|&(place, rule)| Breach { place, rule }).collect::<Vec<Breach>>());
    for list in checking.lists(tables, &line::words(&checking.bytes)) {
        assert_eq!(list, by_hand, "{}", name);
    }
    (name, Case::Manners(checking))
}

/// Lists for a line that needs so many bytes: just enough in each form; in both, one fewer, one and three more, none; some among other bytes.
fn usual(needed: u64) -> Vec<Lend> {
    let mut lends: Vec<Lend> = FORMS.iter().map(|&form| Lend::alone(form, needed)).collect();
    for form in [0, 1] {
        let lengths = [needed.saturating_sub(1), needed + 1, needed + 3, 0];
        lends.extend(lengths.into_iter().map(|length| Lend::alone(form, length)));
        lends.push(Lend { form, front: 2, behind: 3, length: needed });
        lends.push(Lend { form, front: 3, behind: 0, length: needed.saturating_sub(1) });
    }
    lends
}

/// Fewer lists, for long lines.
fn few(needed: u64) -> Vec<Lend> {
    vec![Lend::alone(0, needed), Lend::alone(1, needed), Lend::alone(1, needed.saturating_sub(1)), Lend::alone(0, needed + 3)]
}

fn line_of(tables: &Tables, name: String, words: &[u16], gets: &[Hand]) -> Named {
    let needed = BREACH * gets.len() as u64;
    let lends = if words.len() > 1_000 { few(needed) } else { usual(needed) };
    checked(tables, name, Checking::of(line::to_bytes(words), 0, lends), Ok(gets))
}

// ---- runs

/// A run, its refusal in document 01's form (0 if it is accepted), and the rule that it breaks (0 if it breaks none).
type Row = (&'static [u16], u32, u32);

/// In the first word 2048 is bit 2, 1024 bit 3, 512 bit 4, 256 bit 5, 128 bit 6 and 2 bit 12. In the fourth word 32 is bit 47. In the seventh,
/// 4096 is bit 79 and 8, 4 and 2 are bits 88, 89 and 90. Of a Map the second word is four times the start and the fourth is four times the
/// stop. The last bit of each word is its parity.
const RUNS: &[Row] = &[
    // rule 1: ATCRBS by CD, MTD and RDAS with bit 5 one; the same with Mode C; the same relayed
    (&[3331, 1, 1, 1, 1, 1, 8], 0, 1),
    (&[3331, 1, 1, 1, 1, 1, 13], 0, 1),
    (&[3331, 1, 1, 1, 1, 1, 11], 0, 1),
    (&[3458, 1, 1, 1, 1, 1, 8], 0, 1),
    (&[3458, 1, 1, 1, 1, 1, 13], 0, 1),
    (&[3458, 1, 1, 1, 1, 1, 11], 0, 1),
    (&[3331, 1, 1, 32, 1, 1, 8], 0, 1),
    (&[3331, 1, 1, 32, 1, 1, 13], 0, 1),
    (&[3331, 1, 1, 32, 1, 1, 11], 0, 1),
    // but for bit 5
    (&[3074, 1, 1, 1, 1, 1, 8], 0, 0),
    (&[3074, 1, 1, 1, 1, 1, 13], 0, 0),
    (&[3074, 1, 1, 1, 1, 1, 11], 0, 0),
    // but for bit 4: DABS, not relayed
    (&[3842, 1, 1, 1, 1, 1, 8], 0, 0),
    (&[3842, 1, 1, 1, 1, 1, 13], 0, 0),
    (&[3842, 1, 1, 1, 1, 1, 11], 0, 0),
    // but for bit 12: bits 88-90 are carried, or are an altitude
    (&[3328, 1, 1, 1, 1, 1, 8], 0, 0),
    (&[3328, 1, 1, 1, 1, 1, 13], 0, 0),
    (&[3328, 1, 1, 1, 1, 1, 11], 0, 0),
    (&[3457, 1, 1, 1, 1, 1, 8], 0, 0),
    // but for bits 88-90: search reports, in which bit 5 is spare, with bit 5 zero and one; not assigned
    (&[3074, 1, 1, 1, 1, 1, 4], 0, 0),
    (&[3074, 1, 1, 1, 1, 1, 2], 0, 0),
    (&[3331, 1, 1, 1, 1, 1, 4], 8, 0),
    (&[3331, 1, 1, 1, 1, 1, 2], 8, 0),
    (&[3331, 1, 1, 1, 1, 1, 1], 7, 0),
    (&[3331, 1, 1, 1, 1, 1, 7], 7, 0),
    (&[3331, 1, 1, 1, 1, 1, 14], 7, 0),
    // refused with 3, 4, 5, 6 and 8
    (&[3331, 1, 1, 1, 1, 1, 8200], 3, 0),
    (&[3330, 1, 1, 1, 1, 1, 8], 4, 0),
    (&[1282, 1, 1, 1, 1, 1, 8], 5, 0),
    (&[2306, 1, 1, 1, 1, 1, 8], 5, 0),
    (&[3331, 1, 1, 1, 1, 8], 6, 0),
    (&[3331, 1, 1, 1, 1, 1, 8, 1], 6, 0),
    (&[3331, 1, 1, 1, 1, 1, 25], 8, 0),
    // rule 2: DABS with bit 47 one and bit 6 zero, alone and by CD, MTD and RDAS; any carried bits; bit 5 and bit 7 make no difference
    (&[3584, 1, 1, 32, 1, 1, 1], 0, 2),
    (&[3587, 1, 1, 32, 1, 1, 8], 0, 2),
    (&[3587, 1, 1, 32, 1, 1, 13], 0, 2),
    (&[3587, 1, 1, 32, 1, 1, 11], 0, 2),
    (&[3584, 1, 1, 32, 1, 1, 4096], 0, 2),
    (&[3584, 1, 1, 32, 1, 1, 8191], 0, 2),
    (&[3841, 1, 1, 32, 1, 1, 1], 0, 2),
    (&[3842, 1, 1, 32, 1, 1, 8], 0, 2),
    (&[3649, 1, 1, 32, 1, 1, 1], 0, 2),
    // but for bit 47; also with its neighbours, bits 44 and 48, one
    (&[3584, 1, 1, 1, 1, 1, 1], 0, 0),
    (&[3587, 1, 1, 1, 1, 1, 8], 0, 0),
    (&[3587, 1, 1, 1, 1, 1, 13], 0, 0),
    (&[3587, 1, 1, 1, 1, 1, 11], 0, 0),
    (&[3584, 1, 1, 16, 1, 1, 1], 0, 0),
    (&[3584, 1, 1, 256, 1, 1, 1], 0, 0),
    // but for bit 6
    (&[3713, 1, 1, 32, 1, 1, 1], 0, 0),
    (&[3713, 1, 1, 32, 1, 1, 2], 0, 0),
    (&[3714, 1, 1, 32, 1, 1, 8], 0, 0),
    (&[3714, 1, 1, 32, 1, 1, 13], 0, 0),
    (&[3714, 1, 1, 32, 1, 1, 11], 0, 0),
    // but for bit 4; in search reports bit 47 is of the time
    (&[3073, 1, 1, 32, 1, 1, 1], 0, 0),
    (&[3074, 1, 1, 32, 1, 1, 8], 0, 0),
    (&[3074, 1, 1, 32, 1, 1, 13], 0, 0),
    (&[3074, 1, 1, 32, 1, 1, 11], 0, 0),
    (&[3074, 1, 1, 32, 1, 1, 4], 0, 0),
    (&[3074, 1, 1, 32, 1, 1, 2], 0, 0),
    // refused with 3, 4, 5, 6, 7 and 8
    (&[3584, 1, 1, 32, 1, 1, 8193], 3, 0),
    (&[3584, 1, 1, 33, 1, 1, 1], 4, 0),
    (&[1537, 1, 1, 32, 1, 1, 1], 5, 0),
    (&[3584, 1, 1, 32, 1, 1], 6, 0),
    (&[3584, 1, 1, 32, 1, 1, 1, 1], 6, 0),
    (&[3587, 1, 1, 32, 1, 1, 1], 7, 0),
    (&[3587, 1, 1, 32, 1, 1, 4], 7, 0),
    (&[3587, 1, 1, 32, 1, 1, 2], 7, 0),
    (&[3587, 1, 1, 32, 1, 1, 7], 7, 0),
    (&[3587, 1, 1, 32, 1, 1, 14], 7, 0),
    (&[3584, 1, 1, 97, 1, 1, 1], 8, 0),
    (&[3584, 1, 1, 161, 1, 1, 1], 8, 0),
    (&[3587, 1, 1, 32, 1, 1, 25], 8, 0),
    // rule 3: ATCRBS with Mode C and bits 79-90 all zeros; the same with bit 5 one; the same relayed
    (&[3200, 1, 1, 1, 1, 1, 1], 0, 3),
    (&[3457, 1, 1, 1, 1, 1, 1], 0, 3),
    (&[3200, 1, 1, 32, 1, 1, 1], 0, 3),
    // but for one of bits 79-90; the first is minus zero in one form and -2048 in the other
    (&[3200, 1, 1, 1, 1, 1, 4096], 9, 0),
    (&[3200, 1, 1, 1, 1, 1, 2048], 0, 0),
    (&[3200, 1, 1, 1, 1, 1, 1024], 0, 0),
    (&[3200, 1, 1, 1, 1, 1, 512], 0, 0),
    (&[3200, 1, 1, 1, 1, 1, 256], 0, 0),
    (&[3200, 1, 1, 1, 1, 1, 128], 0, 0),
    (&[3200, 1, 1, 1, 1, 1, 64], 0, 0),
    (&[3200, 1, 1, 1, 1, 1, 32], 0, 0),
    (&[3200, 1, 1, 1, 1, 1, 16], 0, 0),
    (&[3200, 1, 1, 1, 1, 1, 8], 0, 0),
    (&[3200, 1, 1, 1, 1, 1, 4], 0, 0),
    (&[3200, 1, 1, 1, 1, 1, 2], 0, 0),
    // but for bit 6; but for bit 4, also relayed; but for bit 12, which leaves 000 or a substitution with Mode C
    (&[3073, 1, 1, 1, 1, 1, 1], 0, 0),
    (&[3713, 1, 1, 1, 1, 1, 1], 0, 0),
    (&[3203, 1, 1, 1, 1, 1, 1], 7, 0),
    (&[3203, 1, 1, 1, 1, 1, 8], 0, 0),
    (&[3203, 1, 1, 1, 1, 1, 13], 0, 0),
    (&[3203, 1, 1, 1, 1, 1, 11], 0, 0),
    (&[3203, 1, 1, 1, 1, 1, 4], 8, 0),
    // refused with 3, 4, 5 and 6
    (&[3200, 1, 1, 1, 1, 1, 8193], 3, 0),
    (&[3200, 1, 1, 1, 1, 1, 0], 4, 0),
    (&[1153, 1, 1, 1, 1, 1, 1], 5, 0),
    (&[3200, 1, 1, 1, 1, 1], 6, 0),
    (&[3200, 1, 1, 1, 1, 1, 1, 1], 6, 0),
    // rule 4: a Map with start 5 and stop 4; 1 and 0; 2047 and 2046; 2047 and 0; 256 and 255; 1024 and 1023
    (&[1, 21, 1, 16], 0, 4),
    (&[1, 4, 1, 1], 0, 4),
    (&[1, 8188, 1, 8185], 0, 4),
    (&[1, 8188, 1, 1], 0, 4),
    (&[1, 1024, 1, 1021], 0, 4),
    (&[1, 4096, 1, 4093], 0, 4),
    // the same the other way round, and equal
    (&[1, 16, 1, 21], 0, 0),
    (&[1, 1, 1, 4], 0, 0),
    (&[1, 8185, 1, 8188], 0, 0),
    (&[1, 1, 1, 8188], 0, 0),
    (&[1, 1021, 1, 1024], 0, 0),
    (&[1, 4093, 1, 4096], 0, 0),
    (&[1, 21, 1, 21], 0, 0),
    (&[1, 1, 1, 1], 0, 0),
    (&[1, 8188, 1, 8188], 0, 0),
    // each map variation, test, FAA and AF, an azimuth of ones
    (&[8, 21, 1, 16], 0, 4),
    (&[16, 21, 1, 16], 0, 4),
    (&[25, 21, 1, 16], 0, 4),
    (&[4096, 21, 1, 16], 0, 4),
    (&[7, 21, 1, 16], 0, 4),
    (&[1, 21, 8191, 16], 0, 4),
    // but for the kind: Search, Strobe, Status, RTQC
    (&[865, 21, 1, 16], 0, 0),
    (&[769, 21, 1, 16], 0, 0),
    (&[385, 21, 1, 16], 0, 0),
    (&[4672, 21, 1, 16], 0, 0),
    // refused with 3, 4, 5 (bit 8, bit 4, bit 3), 6 and 8 (bits 25 and 51)
    (&[8193, 21, 1, 16], 3, 0),
    (&[1, 20, 1, 16], 4, 0),
    (&[32, 21, 1, 16], 5, 0),
    (&[512, 21, 1, 16], 5, 0),
    (&[1024, 21, 1, 16], 5, 0),
    (&[1, 21, 1], 6, 0),
    (&[1, 21, 1, 16, 1], 6, 0),
    (&[1, 21, 1, 16, 1, 21, 1, 16], 6, 0),
    (&[1, 22, 1, 16], 8, 0),
    (&[1, 21, 1, 19], 8, 0),
];

/// Each run alone, between idle words, and all on one line.
fn runs(tables: &Tables) -> Vec<Named> {
    let mut cases = Vec::new();
    let (mut all, mut gets): (Vec<u16>, Vec<Hand>) = (Vec::new(), Vec::new());
    for &(run, refusal, rule) in RUNS {
        let seen = [0, 1].map(|form| line::look(tables.of(form), 2 * run.len(), run, 0).refusal);
        assert_eq!(seen, [refusal, if refusal == 9 { 0 } else { refusal }], "run {:?}", run);
        let breach = |place: usize| Some((place as u64, rule)).filter(|_| rule != 0);
        cases.push(line_of(tables, format!("run {:?}", run), run, breach(0).as_slice()));
        let between = [&[IDLE, IDLE], run, &[IDLE]].concat();
        cases.push(line_of(tables, format!("run {:?} between idle words", run), &between, breach(2).as_slice()));
        gets.extend(breach(all.len()));
        all.extend(run);
        all.push(IDLE);
    }
    cases.push(line_of(tables, "all runs".to_string(), &all, &gets));
    cases.push(line_of(tables, "document 01's runs".to_string(), &chosen::RUNS.join(&IDLE), &[]));
    cases
}

/// From one bit to another, and the rule that is broken when one of them is turned over.
type Turned = (usize, usize, u32);

/// The first of each sort above. A word's parity is set again.
const TURNED: &[(&[u16], &[Turned])] = &[
    (&[3331, 1, 1, 1, 1, 1, 8], &[(1, 1, 1), (2, 5, 0), (6, 11, 1), (12, 12, 0), (14, 81, 1), (82, 88, 0), (89, 90, 1)]),
    (&[3331, 1, 1, 1, 1, 1, 13], &[(1, 1, 1), (2, 5, 0), (6, 11, 1), (12, 12, 0), (14, 80, 1), (81, 88, 0), (89, 89, 1), (90, 90, 0)]),
    (&[3331, 1, 1, 1, 1, 1, 11], &[(1, 1, 1), (2, 5, 0), (6, 11, 1), (12, 12, 0), (14, 82, 1), (83, 89, 0), (90, 90, 1)]),
    (&[3584, 1, 1, 32, 1, 1, 1], &[(1, 1, 2), (2, 4, 0), (5, 5, 2), (6, 6, 0), (7, 11, 2), (12, 12, 0), (14, 44, 2), (45, 47, 0), (48, 90, 2)]),
    // without bit 12 bits 79-90 are carried, and the rule is broken all the same
    (&[3587, 1, 1, 32, 1, 1, 8], &[(1, 1, 2), (2, 4, 0), (5, 5, 2), (6, 6, 0), (7, 44, 2), (45, 47, 0), (48, 81, 2), (82, 88, 0), (89, 90, 2)]),
    (
        &[3587, 1, 1, 32, 1, 1, 13],
        &[(1, 1, 2), (2, 4, 0), (5, 5, 2), (6, 6, 0), (7, 44, 2), (45, 47, 0), (48, 80, 2), (81, 88, 0), (89, 89, 2), (90, 90, 0)],
    ),
    (&[3587, 1, 1, 32, 1, 1, 11], &[(1, 1, 2), (2, 4, 0), (5, 5, 2), (6, 6, 0), (7, 44, 2), (45, 47, 0), (48, 82, 2), (83, 89, 0), (90, 90, 2)]),
    (&[3200, 1, 1, 1, 1, 1, 1], &[(1, 1, 3), (2, 4, 0), (5, 5, 3), (6, 6, 0), (7, 11, 3), (12, 12, 0), (14, 77, 3), (79, 90, 0)]),
    // start 5 becomes 1 by bit 22 and 4 by bit 24; stop 4 becomes 0 by bit 48
    (&[1, 21, 1, 16], &[(1, 1, 4), (2, 8, 0), (9, 21, 4), (22, 22, 0), (23, 23, 4), (24, 25, 0), (27, 38, 4), (40, 47, 0), (48, 48, 4), (49, 51, 0)]),
];

/// Each bit turned over, with the parity set again; then without, which is refused.
fn turned(tables: &Tables) -> Vec<Named> {
    let mut cases = Vec::new();
    for &(run, rows) in TURNED {
        let text = manners::text_of(run);
        for bit in 1..=text.len() {
            let row = rows.iter().find(|row| (row.0..=row.1).contains(&bit));
            let other = bits::flipped(&text, bit);
            let words = report::to_words(&report::with_parity(&other));
            let rule = if bit % 13 == 0 { manners::broken(&text) } else { row.map(|row| row.2) };
            let gets: Vec<Hand> = rule.into_iter().filter(|&rule| rule != 0).map(|rule| (0, rule)).collect();
            let name = format!("run {:?}, bit {} turned over", run, bit);
            cases.push(line_of(tables, name.clone(), &words, &gets));
            cases.push(line_of(tables, format!("{} alone", name), &report::to_words(&other), &[]));
        }
    }
    cases
}

// ---- lines

/// Runs by name: rules 1 to 4 broken; their nearest neighbours; a refused run.
const NAMED: &[(&str, &[u16], u32)] = &[
    ("S", &[3331, 1, 1, 1, 1, 1, 8], 1),
    ("R", &[3584, 1, 1, 32, 1, 1, 1], 2),
    ("Z", &[3200, 1, 1, 1, 1, 1, 1], 3),
    ("M", &[1, 21, 1, 16], 4),
    ("s", &[3074, 1, 1, 1, 1, 1, 8], 0),
    ("r", &[3584, 1, 1, 1, 1, 1, 1], 0),
    ("z", &[3200, 1, 1, 1, 1, 1, 2], 0),
    ("m", &[1, 21, 1, 21], 0),
    ("x", &[0], 0),
];

/// The words of a line in text: I is an idle word, I*5 five of them, a letter a run, other numbers are words.
fn words_of(text: &str) -> Vec<u16> {
    let one = |word: &str| match NAMED.iter().find(|row| row.0 == word) {
        Some(row) => row.1.to_vec(),
        None if word == "I" => vec![IDLE],
        None => vec![word.parse().expect("a word")],
    };
    let words = |word: &str| match word.split_once('*') {
        Some((word, times)) => one(word).repeat(times.parse().expect("a number")),
        None => one(word),
    };
    text.split_whitespace().flat_map(words).collect()
}

/// A line, and its breaches.
const LINES: &[(&str, &[Hand])] = &[
    // no run
    ("", &[]),
    ("I", &[]),
    ("I*9", &[]),
    // one breach, with idle words around it
    ("S", &[(0, 1)]),
    ("I R", &[(1, 2)]),
    ("Z I", &[(0, 3)]),
    ("I*2 M I*2", &[(2, 4)]),
    ("I*300 S I*300", &[(300, 1)]),
    // all four in both orders, with one idle word between them and with more; none of four
    ("S I R I Z I M", &[(0, 1), (8, 2), (16, 3), (24, 4)]),
    ("M I Z I R I S", &[(0, 4), (5, 3), (13, 2), (21, 1)]),
    ("I S I*2 R I*3 Z I*4 M I*5", &[(1, 1), (10, 2), (20, 3), (31, 4)]),
    ("s I r I z I m", &[]),
    // some of several, the first and the last not
    ("m I M I m", &[(5, 4)]),
    ("s I S I z I Z I r I R I m", &[(8, 1), (24, 3), (40, 2)]),
    ("M I M I M I M", &[(0, 4), (5, 4), (10, 4), (15, 4)]),
    ("S I S I S", &[(0, 1), (8, 1), (16, 1)]),
    // without an idle word between them two are one run, which is refused
    ("M M", &[]),
    ("S S", &[]),
    ("S M", &[]),
    ("M I M M I M", &[(0, 4), (14, 4)]),
    ("1 M", &[]),
    ("M 1", &[]),
    ("1 I M", &[(2, 4)]),
    // beside refused runs: an even word, a wide word, a report with a word more
    ("x I M", &[(2, 4)]),
    ("M I x", &[(0, 4)]),
    ("M I 8192 I M", &[(0, 4), (7, 4)]),
    ("S I S 1 I S", &[(0, 1), (17, 1)]),
    ("65535 I*2 Z I 9215 I R", &[(3, 3), (13, 2)]),
    // an idle word for the third word of an ATCRBS report leaves a refused run and a Map
    ("3333 1281 1022 1 21 1 16", &[]),
    ("3333 1281 I 1 21 1 16", &[(3, 4)]),
    // document 01: the lister's example
    ("I 868 1281 2048 647 I I 3973 1281 256 7 5175 1414 4096", &[]),
    // a run that only two's complement accepts, between breaches
    ("Z I 3200 1 1 1 1 1 4096 I M", &[(0, 3), (16, 4)]),
    ("3713 1 1 32 1 1 4096 I R", &[(8, 2)]),
];

fn lines(tables: &Tables) -> Vec<Named> {
    LINES.iter().map(|&(text, gets)| line_of(tables, format!("line {:?}", text), &words_of(text), gets)).collect()
}

/// Each two and each three of the runs by name, an idle word between them.
fn every_three(tables: &Tables) -> Vec<Named> {
    let names: Vec<&str> = NAMED.iter().map(|row| row.0).collect();
    let mut texts: Vec<Vec<&str>> = Vec::new();
    for first in &names {
        for second in &names {
            texts.push(vec![first, second]);
            texts.extend(names.iter().map(|third| vec![*first, *second, *third]));
        }
    }
    let mut cases = Vec::new();
    for text in texts {
        let (mut place, mut gets): (u64, Vec<Hand>) = (0, Vec::new());
        for name in &text {
            let row = NAMED.iter().find(|row| row.0 == *name).expect("a name");
            gets.extend(Some((place, row.2)).filter(|_| row.2 != 0));
            place += row.1.len() as u64 + 1;
        }
        let text = text.join(" I ");
        cases.push(line_of(tables, format!("line {:?}", text), &words_of(&text), &gets));
    }
    cases
}

/// A breach at each place up to 300, and at places where a further bit of the number is needed; and behind it the end of the line.
fn every_place(tables: &Tables, long: bool) -> Vec<Named> {
    let near = |place: u64| place.saturating_sub(2)..=place + 2;
    let mut places: Vec<u64> = if long { (0..=300).collect() } else { near(256).collect() };
    places.extend([512, 1_024, 2_048, 4_096, 8_192, 16_384].into_iter().filter(|_| long).flat_map(near));
    let mut cases = Vec::new();
    for (run, rule, words) in [("M", 4, 4), ("Z", 3, 7)] {
        let last = MOST_WORDS as u64 - words;
        for place in places.iter().copied().chain(last - 2..=last) {
            let text = format!("I*{} {}", place, run);
            cases.push(line_of(tables, format!("line {:?}", text), &words_of(&text), &[(place, rule)]));
        }
    }
    cases
}

// ---- lists

/// Lines of none to five breaches with every length of a list from 0 to nine bytes more than enough, alone and among others, in each form.
fn every_length(tables: &Tables) -> Vec<Named> {
    let mut cases = Vec::new();
    for count in 0..=5 {
        let words = words_of(&["m", "I", "M", "I", "Z", "I", "S", "I", "R", "I", "M"][..2 * count + 1].join(" "));
        let gets = &[(5, 4), (10, 3), (18, 1), (26, 2), (34, 4)][..count];
        for form in FORMS {
            let mut lends = Vec::new();
            for length in 0..=BREACH * count as u64 + 9 {
                lends.push(Lend::alone(form, length));
                lends.push(Lend { form, front: 1, behind: 0, length });
                lends.push(Lend { form, front: 3, behind: 6, length });
            }
            let name = format!("{} breaches, lists of each length in form {}", count, form);
            cases.push(checked(tables, name, Checking::of(line::to_bytes(&words), form, lends), Ok(gets)));
        }
    }
    cases
}

const SAID: [u64; 9] = [26_221, 1 << 16, (1 << 32) - 1, 1 << 32, (1 << 32) + 1, 1 << 34, 1 << 62, 1 << 63, u64::MAX];

/// Lists that are only said to be longer than they are, and the greatest that a line may need.
fn said_lists(tables: &Tables) -> Vec<Named> {
    let mut cases = Vec::new();
    for (text, gets) in [("", &[][..]), ("I m", &[]), ("I M", &[(1, 4)]), ("M I S", &[(0, 4), (5, 1)])] {
        let lengths = [BREACH * MOST - 1, BREACH * MOST, BREACH * MOST + 8].into_iter().chain(SAID);
        let lends = lengths.flat_map(|length| [0, 1].map(|form| Lend::alone(form, length))).collect();
        let name = format!("line {:?} and lists that are long", text);
        cases.push(checked(tables, name, Checking::of(line::to_bytes(&words_of(text)), 0, lends), Ok(gets)));
    }
    cases
}

// ---- lengths of a line

/// A line in text, more bytes behind it, and its refusal or its breaches.
type Length = (&'static str, usize, Result<&'static [Hand], u32>);

const LENGTHS: &[Length] = &[
    // 14: one byte; idle words and a byte; a breach and a byte; its neighbours
    ("", 1, Err(14)),
    ("", 0, Ok(&[])),
    ("I", 1, Err(14)),
    ("M", 1, Err(14)),
    ("M", 0, Ok(&[(0, 4)])),
    ("M I", 1, Err(14)),
    ("S I R I Z I M", 1, Err(14)),
    // 65,534 to 65,538 bytes, idle; with a breach at both ends; 14 just below the limit; 2 before 14
    ("I*32767", 0, Ok(&[])),
    ("I*32767", 1, Err(14)),
    ("I*32768", 0, Ok(&[])),
    ("I*32768", 1, Err(2)),
    ("I*32769", 0, Err(2)),
    ("I*32769", 1, Err(2)),
    ("M I*32759 M", 0, Ok(&[(0, 4), (32_763, 4)])),
    ("M I*32759 M", 1, Err(14)),
    ("M I*32760 M", 0, Ok(&[(0, 4), (32_764, 4)])),
    ("M I*32760 M", 1, Err(2)),
    ("M I*32761 M", 0, Err(2)),
    ("M I*32761 M", 1, Err(2)),
    ("S I*32754 Z", 0, Ok(&[(0, 1), (32_761, 3)])),
    ("S I*32755 Z", 0, Err(2)),
    // much longer
    ("M I*65532", 0, Err(2)),
    ("M I*65532", 1, Err(2)),
    ("I*65536 M", 0, Err(2)),
    ("M I*131068", 0, Err(2)),
];

/// Each line with lists that are large enough, too small and empty: 2 and 14 come before 52.
fn lengths(tables: &Tables) -> Vec<Named> {
    let mut cases = Vec::new();
    for &(text, more, gets) in LENGTHS {
        for form in [0, 1] {
            let bytes = [line::to_bytes(&words_of(text)), vec![3; more]].concat();
            let lends = [0, 1, 3, 4, 7, 8, 9, 16].into_iter().flat_map(|length| {
                let around = Lend { form, front: 1, behind: 2, length };
                [Lend::alone(form, length), around]
            });
            let name = format!("line {:?} and {} bytes more", text, more);
            cases.push(checked(tables, name, Checking::of(bytes, form, lends.collect()), gets));
        }
    }
    cases
}

/// Lines that are only said to be longer than they are.
fn said_lengths(tables: &Tables) -> Vec<Named> {
    let mut cases = Vec::new();
    let lengths = [1 << 17, (1 << 32) - 1, 1 << 32, (1 << 32) + 1, (1 << 32) + 8, 1 << 48, 1 << 63, (1 << 63) + 8, u64::MAX - 1, u64::MAX];
    for length in lengths {
        let lends = vec![Lend::alone(0, 0), Lend::alone(1, 3), Lend::alone(0, 4), Lend { form: 1, front: 2, behind: 2, length: 8 }];
        let mut checking = Checking::of(line::to_bytes(&words_of("M I*32766")), 0, lends);
        checking.length = length;
        cases.push(checked(tables, format!("a line said to have {} bytes", length), checking, Err(2)));
    }
    cases
}

// ---- many breaches

/// A line full of one run with one idle word between, as many as there is room for behind so many idle words.
fn full_of(tables: &Tables, run: &str, front: usize, lends: Vec<Lend>) -> Named {
    let row = NAMED.iter().find(|row| row.0 == run).expect("a name");
    let count = (MOST_WORDS + 1 - front) / (row.1.len() + 1);
    let mut words = [vec![IDLE; front], vec![row.1; count].join(&IDLE)].concat();
    words.resize(MOST_WORDS, IDLE);
    let places = (0..count).map(|k| front + k * (row.1.len() + 1));
    let gets: Vec<Hand> = places.map(|place| (place as u64, row.2)).collect();
    let name = format!("a line full of {} behind {} idle words", run, front);
    checked(tables, name, Checking::of(line::to_bytes(&words), 0, lends), Ok(&gets))
}

/// The most breaches, which are Maps, from each place that leaves room for so many; one fewer; as many reports of seven words as there are.
fn full_lines(tables: &Tables, long: bool) -> Vec<Named> {
    assert_eq!((MOST, BREACH * MOST), (6_553, 26_212));
    let lends = |lengths: &[u64]| lengths.iter().flat_map(|&length| [0, 1].map(|form| Lend::alone(form, length))).collect::<Vec<Lend>>();
    if !long {
        return vec![full_of(tables, "M", 0, vec![Lend::alone(0, 26_212), Lend::alone(1, 26_211)])];
    }
    let most = lends(&[26_212, 26_211, 26_213, 26_215, 26_216, 26_208, 0, 4, 13_106, u64::MAX]);
    let mut cases: Vec<Named> = (0..=4).map(|front| full_of(tables, "M", front, most.clone())).collect();
    cases.push(full_of(tables, "M", 5, lends(&[26_208, 26_207, 26_212])));
    for run in ["S", "R", "Z"] {
        cases.push(full_of(tables, run, 0, lends(&[16_384, 16_383, 16_385, 0])));
        cases.push(full_of(tables, run, 1, lends(&[16_384, 16_383, 26_212])));
    }
    cases
}

// ---- every start, every altitude, every first word

/// A long line, and the breaches that it has by hand.
#[derive(Default)]
struct Long {
    words: Vec<u16>,
    gets: Vec<Hand>,
}

impl Long {
    fn put(&mut self, run: &[u16], rule: u32) {
        self.gets.extend(Some((self.words.len() as u64, rule)).filter(|_| rule != 0));
        self.words.extend(run);
        self.words.push(IDLE);
    }

    /// Whether a further run and its idle word would be too much.
    fn is_full(&self) -> bool {
        self.words.len() + 8 > MOST_WORDS
    }
}

/// Runs with their rules, on as many lines as they need.
fn on_long_lines(tables: &Tables, name: &str, runs: impl Iterator<Item = (Vec<u16>, u32)>) -> Vec<Named> {
    let mut lines = vec![Long::default()];
    for (run, rule) in runs {
        if lines[lines.len() - 1].is_full() {
            lines.push(Long::default());
        }
        let last = lines.len() - 1;
        lines[last].put(&run, rule);
    }
    let named = |(at, long): (usize, Long)| line_of(tables, format!("{}, line {}", name, at), &long.words, &long.gets);
    lines.into_iter().enumerate().map(named).collect()
}

/// A word of twelve bits and their parity.
fn word_of(number: u16) -> u16 {
    report::to_words(&report::with_parity(&format!("{:012b}0", number)))[0]
}

/// Every start of a Map with the stops next to it, at the ends, and with one bit turned over.
fn every_start(tables: &Tables) -> Vec<Named> {
    let mut maps = Vec::new();
    for start in 0..2_048u16 {
        let mut stops = vec![start.saturating_sub(1), start, (start + 1).min(2_047), 0, 2_047];
        stops.extend((0..11).map(|bit| start ^ (1 << bit)));
        maps.extend(stops.into_iter().map(|stop| (vec![1, word_of(2 * start), 1, word_of(2 * stop)], if stop < start { 4 } else { 0 })));
    }
    on_long_lines(tables, "every start", maps.into_iter())
}

/// Every pattern of bits 79-90 in ATCRBS with Mode C and without, and in DABS with Mode C: one is a breach.
fn every_altitude(tables: &Tables) -> Vec<Named> {
    let mut cases = Vec::new();
    for (first, rule) in [(3_200, 3), (3_073, 0), (3_713, 0)] {
        let run = |pattern: u16| (vec![first, 1, 1, 1, 1, 1, word_of(pattern)], if pattern == 0 { rule } else { 0 });
        cases.extend(on_long_lines(tables, &format!("first word {}, every altitude", first), (0..4_096).map(run)));
    }
    cases
}

/// The rule that seven words break whose first has these twelve bits, the others being zeros but for bit 47 and bits 88-90. By hand: the spare
/// bits 5 to 10 make a search report refused, so that those have no breach whatever they are.
fn rule_of_seven(first: u16, relayed: bool, radar: u16) -> u32 {
    let bit = |number: u32| first & (1 << (12 - number)) != 0;
    if !(bit(2) && bit(3)) {
        return 0;
    }
    let substitution = bit(12) && matches!(radar, 4..=6);
    match (bit(4), bit(12)) {
        (true, _) if relayed && !bit(6) && (!bit(12) || substitution) => 2,
        (false, true) if substitution && bit(5) => 1,
        (false, false) if bit(6) && radar == 0 => 3,
        _ => 0,
    }
}

/// Every first word of seven words, relayed and not, with each of bits 88-90; every first word of four, whose stop is below, at and above the
/// start.
fn every_first_word(tables: &Tables) -> Vec<Named> {
    let mut runs = Vec::new();
    for first in 0..4_096 {
        for radar in 0..8 {
            for relayed in [false, true] {
                let fourth = if relayed { 32 } else { 1 };
                runs.push((vec![word_of(first), 1, 1, fourth, 1, 1, word_of(radar)], rule_of_seven(first, relayed, radar)));
            }
        }
    }
    let mut cases = on_long_lines(tables, "every first word of seven", runs.into_iter());
    let is_map = |first: u16| matches!(first % 2_048, 0..=15);
    let fours = (0..4_096).flat_map(|first| [16, 21, 25].map(|stop| (vec![word_of(first), 21, 1, stop], first, stop)));
    let fours = fours.map(|(run, first, stop)| (run, if is_map(first) && stop == 16 { 4 } else { 0 }));
    cases.extend(on_long_lines(tables, "every first word of four", fours));
    cases
}

/// All cases, or those that do not take long.
pub fn cases(long: bool) -> impl Iterator<Item = Named> {
    let tables = Tables::new();
    let parts: [fn(&Tables) -> Vec<Named>; 7] = [runs, turned, lines, every_length, said_lists, lengths, said_lengths];
    let with_long: [fn(&Tables, bool) -> Vec<Named>; 2] = [every_place, full_lines];
    let long_parts: [fn(&Tables) -> Vec<Named>; 4] = [every_three, every_start, every_altitude, every_first_word];
    let mut cases: Vec<Named> = parts.into_iter().flat_map(|part| part(&tables)).collect();
    cases.extend(with_long.into_iter().flat_map(|part| part(&tables, long)));
    cases.extend(long_parts.into_iter().filter(|_| long).flat_map(|part| part(&tables)));
    cases.into_iter()
}
