//! Chosen cases of the forms of the altitude (Ticket 5 of document 02), each once, with answers worked out by hand from documents 01 and 02:
//! every pattern of bits 79-90 read and written back; every altitude from -4200 to 4200 and some far ones written; each number that a form may
//! be; every refusal beside an altitude, and runs that answer the same in both forms; places at the ends of a line; the index.

use crate::altitude_cases::FORMS;
use crate::case::{Case, Tables, Write};
use crate::chosen;
use crate::index::Done;
use crate::index_case::{Indexing, Step};
use crate::index_chosen::{bytes_of, checked, find, table_of};
use crate::line::{self, Look, IDLE};
use crate::line_cases::item_bytes;
use crate::report::{self, ALTITUDE};
use crate::run::Named;

/// Reports with Mode C and without substitution, but for the last word, which has the altitude: document 01's C2, and an ATCRBS report with
/// file number 1. Each with its kind.
const BASES: [(u32, [u16; 6]); 2] = [(106, [3973, 1281, 256, 7, 5175, 1414]), (110, [3200, 1, 1, 1, 1, 2])];

/// Document 01's form, and the new one.
const BOTH: [u32; 2] = [0, 1];

/// The last word with a pattern of bits 79-90, its parity set.
fn last(pattern: u16) -> u16 {
    report::to_words(&report::with_parity(&format!("{:012b}0", pattern)))[0]
}

fn with_last(base: &[u16; 6], last: u16) -> Vec<u16> {
    [&base[..], &[last]].concat()
}

fn look(tables: &Tables, form: u32, words: &[u16]) -> Look {
    line::look(tables.of(form), 2 * words.len(), words, 0)
}

fn line_of(words: &[u16], form: u32, places: &[u64]) -> Case {
    Case::Line { bytes: line::to_bytes(words), form, link: 0, step: 1, places: places.to_vec() }
}

// ---- every pattern

/// The altitude of a pattern of bits 79-90; nothing for refusal 9.
fn altitude_of(pattern: u16, form: u32) -> Option<i64> {
    let number = i64::from(pattern);
    match (pattern, form) {
        (0..=2047, _) => Some(number),
        (2048, 0) => None,
        (_, 0) => Some(2048 - number),
        _ => Some(number - 4096),
    }
}

/// Every pattern on one line, which has all its 32,768 words; items are asked of each.
fn every_pattern(tables: &Tables) -> Vec<Named> {
    let mut cases = Vec::new();
    for (kind, base) in BASES {
        for form in BOTH {
            let mut words = Vec::new();
            for pattern in 0..4096 {
                let run = with_last(&base, last(pattern));
                let seen = look(tables, form, &run);
                let altitude = seen.report.as_ref().and_then(|report| report.item(ALTITUDE));
                let wanted = altitude_of(pattern, form);
                assert_eq!(altitude, wanted, "pattern {}, form {}", pattern, form);
                assert_eq!((seen.kind, seen.refusal), if wanted.is_some() { (kind, 0) } else { (120, 9) }, "pattern {}, form {}", pattern, form);
                words.extend(run);
                words.push(IDLE);
            }
            cases.push((format!("kind {}, every pattern in form {}", kind, form), line_of(&words, form, &[0, 32_768])));
        }
    }
    cases
}

// ---- writing

/// The items of a base with another altitude.
fn items(tables: &Tables, base: &[u16; 6], altitude: i64) -> Vec<(u64, u64)> {
    let report = look(tables, 0, &with_last(base, 1)).report.expect("altitude 0 is read");
    let value = |number: u32, value: i64| if number == ALTITUDE { altitude } else { value };
    report.items.iter().map(|&(number, old)| (u64::from(number), value(number, old) as u64)).collect()
}

/// The writing of an altitude into nine words that are all ones, and the word that it has to leave; nothing for refusal 11.
fn written(tables: &Tables, (kind, base): &(u32, [u16; 6]), form: u32, altitude: i64, gets: Option<u16>) -> Named {
    let name = format!("kind {}, altitude {} in form {}", kind, altitude, form);
    let items = item_bytes(&items(tables, base, altitude));
    let bytes = vec![0xFF; 18];
    let mut now = bytes.clone();
    let answer = line::write(tables.of(form), &mut now, 0, *kind, &items);
    let left = gets.map(|last| [with_last(base, last), vec![IDLE, 0xFFFF]].concat());
    assert_eq!(answer, if left.is_some() { (0, 8) } else { (11, 0) }, "{}", name);
    assert_eq!(now, left.map_or(bytes.clone(), |words| line::to_bytes(&words)), "{}", name);
    (format!("writing {}", name), Case::Write { bytes, writes: vec![Write { place: 0, form, kind: *kind, items }] })
}

/// Every pattern that is read, written back.
fn written_back(tables: &Tables) -> Vec<Named> {
    let mut cases = Vec::new();
    for base in &BASES {
        for form in BOTH {
            for pattern in 0..4096 {
                if let Some(altitude) = altitude_of(pattern, form) {
                    cases.push(written(tables, base, form, altitude, Some(last(pattern))));
                }
            }
        }
    }
    cases
}

/// The pattern that an altitude is written as; nothing for refusal 11.
fn pattern_of(altitude: i64, form: u32) -> Option<u16> {
    match (altitude, form) {
        (0..=2047, _) => Some(altitude as u16),
        (-2047..=-1, 0) => Some((2048 - altitude) as u16),
        (-2048..=-1, 1..) => Some((4096 + altitude) as u16),
        _ => None,
    }
}

/// Far altitudes: at the ends of what sixteen, 32 and 64 bits hold, and such as are equal to -2048 to 2047 only in their low bits.
const FAR: &[i64] = &[
    8_192 + 5,
    8_192 - 300,
    -8_192 + 5,
    32_767,
    32_768,
    -32_767,
    -32_768,
    -32_769,
    65_535,
    65_536,
    65_536 + 5,
    65_536 - 1,
    65_536 - 300,
    65_536 - 2_048,
    -65_535,
    -65_536,
    -65_536 + 5,
    -65_536 - 2_047,
    (1 << 20) + 5,
    (1 << 31) - 1,
    1 << 31,
    (1 << 31) + 5,
    -(1 << 31),
    -(1 << 31) - 1,
    -(1 << 31) + 5,
    (1 << 32) - 1,
    1 << 32,
    (1 << 32) + 5,
    (1 << 32) - 300,
    (1 << 32) - 2_048,
    -(1 << 32) + 5,
    -(1 << 32) - 300,
    (1 << 48) + 5,
    1 << 62,
    -(1 << 62),
    i64::MAX,
    i64::MAX - 2_047,
    i64::MAX - 2_048,
    i64::MIN,
    i64::MIN + 1,
    i64::MIN + 5,
    i64::MIN + 2_047,
    i64::MIN + 2_048,
];

/// Every altitude from -4200 to 4200, of which neither form takes those beyond 2047 and those below -2048; and the far ones.
fn every_altitude(tables: &Tables) -> Vec<Named> {
    let mut cases = Vec::new();
    for base in &BASES {
        for form in BOTH {
            cases.extend((-4_200..=4_200).map(|altitude| written(tables, base, form, altitude, pattern_of(altitude, form).map(last))));
            cases.extend(FAR.iter().map(|&altitude| written(tables, base, form, altitude, None)));
        }
    }
    cases
}

/// An altitude, and the last words that it leaves in document 01's form and in the new one; 0 for refusal 11.
const LIMITS: &[(i64, u16, u16)] = &[
    (-2_049, 0, 0),
    (-2_048, 0, 4096),
    (-2_047, 8191, 4099),
    (-2_046, 8188, 4101),
    (-2_045, 8186, 4102),
    (-1_024, 6145, 6145),
    (-3, 4102, 8186),
    (-1, 4099, 8191),
    (0, 1, 1),
    (1, 2, 2),
    (2_047, 4094, 4094),
    (2_048, 0, 0),
];

/// The limits in each form; 11 with too little room, which comes before 10.
fn limits(tables: &Tables) -> Vec<Named> {
    let mut cases = Vec::new();
    for base in &BASES {
        for form in FORMS {
            for &(altitude, signed, complement) in LIMITS {
                let gets = if form == 0 { signed } else { complement };
                cases.push(written(tables, base, form, altitude, Some(gets).filter(|&gets| gets != 0)));
                let (bytes, items) = (vec![0xFF; 14], item_bytes(&items(tables, &base.1, altitude)));
                let answer = line::write(tables.of(form), &mut bytes.clone(), 0, base.0, &items);
                assert_eq!(answer, (if gets == 0 { 11 } else { 10 }, 0), "altitude {} in form {} without room", altitude, form);
                let writes = vec![Write { place: 0, form, kind: base.0, items }];
                cases.push((format!("kind {}, altitude {} in form {} without room", base.0, altitude, form), Case::Write { bytes, writes }));
            }
        }
    }
    cases
}

/// Reports in all forms into one line, one behind the other: each in its own form.
fn forms_in_turn(tables: &Tables) -> Named {
    let (kind, base) = BASES[0];
    let write = |(at, &form): (usize, &u32)| Write { place: 8 * at as u64, form, kind, items: item_bytes(&items(tables, &base, -3)) };
    ("writing in all forms in turn".to_string(), Case::Write { bytes: vec![0; 128], writes: FORMS.iter().enumerate().map(write).collect() })
}

// ---- runs

/// What a run gets: its kind, an item and the item's value; or a refusal and zeros.
type Gets = (u32, u32, i64);

/// Runs, what they get in document 01's form, and what in the new one.
const RUNS: &[(&[u16], Gets, Gets)] = &[
    // C2 and C3, and the other ends
    (&[3973, 1281, 256, 7, 5175, 1414, 4102], (106, 31, -3), (106, 31, -2045)),
    (&[3973, 1281, 256, 7, 5175, 1414, 4096], (9, 0, 0), (106, 31, -2048)),
    (&[3973, 1281, 256, 7, 5175, 1414, 4099], (106, 31, -1), (106, 31, -2047)),
    (&[3973, 1281, 256, 7, 5175, 1414, 8191], (106, 31, -2047), (106, 31, -1)),
    (&[3973, 1281, 256, 7, 5175, 1414, 8188], (106, 31, -2046), (106, 31, -2)),
    (&[3200, 1, 1, 1, 1, 2, 4096], (9, 0, 0), (110, 31, -2048)),
    (&[3200, 1, 1, 1, 1, 2, 4099], (110, 31, -1), (110, 31, -2047)),
    (&[3200, 1, 1, 1, 1, 2, 8191], (110, 31, -2047), (110, 31, -1)),
    // the same in both: zero, 1, 2047, and -1024, which is its own mirror
    (&[3973, 1281, 256, 7, 5175, 1414, 1], (106, 31, 0), (106, 31, 0)),
    (&[3973, 1281, 256, 7, 5175, 1414, 2], (106, 31, 1), (106, 31, 1)),
    (&[3973, 1281, 256, 7, 5175, 1414, 4094], (106, 31, 2047), (106, 31, 2047)),
    (&[3200, 1, 1, 1, 1, 2, 4094], (110, 31, 2047), (110, 31, 2047)),
    (&[3200, 1, 1, 1, 1, 2, 6145], (110, 31, -1024), (110, 31, -1024)),
    // 3 to 8 with minus zero, as before: a wide word, wrong parity of C2 and of C3, no form, a word less and a word more, bit 12 one, bits 45 and 46
    (&[3973, 1281, 256, 7, 5175, 1414, 12288], (3, 0, 0), (3, 0, 0)),
    (&[3973, 1281, 256, 7, 5175, 1414, 4103], (4, 0, 0), (4, 0, 0)),
    (&[3973, 1281, 256, 7, 5175, 1414, 4097], (4, 0, 0), (4, 0, 0)),
    (&[3973, 1280, 256, 7, 5175, 1414, 4096], (4, 0, 0), (4, 0, 0)),
    (&[1024, 1281, 256, 7, 5175, 1414, 4096], (5, 0, 0), (5, 0, 0)),
    (&[3973, 1281, 256, 7, 5175, 4096], (6, 0, 0), (6, 0, 0)),
    (&[3973, 1281, 256, 7, 5175, 1414, 4096, 1], (6, 0, 0), (6, 0, 0)),
    (&[3974, 1281, 256, 7, 5175, 1414, 4096], (7, 0, 0), (7, 0, 0)),
    (&[3203, 1, 1, 1, 1, 2, 4096], (7, 0, 0), (7, 0, 0)),
    (&[3973, 1281, 256, 134, 5175, 1414, 4096], (8, 0, 0), (8, 0, 0)),
    (&[3973, 1281, 256, 70, 5175, 1414, 4096], (8, 0, 0), (8, 0, 0)),
    (&[3973, 1281, 256, 134, 5175, 1414, 4102], (8, 0, 0), (8, 0, 0)),
    // in ATCRBS bits 45 and 46 are no spares
    (&[3200, 1, 1, 128, 1, 2, 4096], (9, 0, 0), (110, 31, -2048)),
    // carried bits 100000000000 and 100000000011
    (&[3844, 1281, 256, 7, 5175, 1414, 4096], (106, 32, 2048), (106, 32, 2048)),
    (&[3844, 1281, 256, 7, 5175, 1414, 4102], (106, 32, 2051), (106, 32, 2051)),
    (&[3073, 1, 1, 1, 1, 2, 4096], (110, 32, 2048), (110, 32, 2048)),
    // substitution with bit 79 one: run length 4, quality 2 and 8; with bit 6 one and, in ATCRBS, with bit 6 zero
    (&[3974, 1281, 256, 7, 5175, 1414, 4105], (107, 7, 4), (107, 7, 4)),
    (&[3974, 1281, 256, 7, 5175, 1414, 4108], (108, 33, 2), (108, 33, 2)),
    (&[3974, 1281, 256, 7, 5175, 1414, 4106], (109, 33, 8), (109, 33, 8)),
    (&[3203, 1, 1, 1, 1, 2, 4105], (111, 7, 4), (111, 7, 4)),
    (&[3074, 1, 1, 1, 1, 2, 4105], (111, 7, 4), (111, 7, 4)),
    (&[3074, 1, 1, 1, 1, 2, 4108], (112, 33, 2), (112, 33, 2)),
    (&[3074, 1, 1, 1, 1, 2, 4106], (113, 33, 8), (113, 33, 8)),
    // MTD and RDAS search with bit 79 one
    (&[3074, 1, 1, 1, 1, 2, 4101], (114, 33, 2), (114, 33, 2)),
    (&[3074, 1, 1, 1, 1, 2, 4099], (115, 33, 8), (115, 33, 8)),
    // four words
    (&[868, 1281, 2048, 647], (101, 4, 320), (101, 4, 320)),
    (&[769, 1, 1, 4096], (102, 7, 64), (102, 7, 64)),
    (&[1, 1, 1, 4096], (103, 12, 1024), (103, 12, 1024)),
    (&[385, 1, 1, 4096], (104, 15, 2048), (104, 15, 2048)),
    (&[4672, 1, 1, 4096], (105, 7, 64), (105, 7, 64)),
];

/// Each run alone, in each form, from each of its places and beyond; then all on one line.
fn runs(tables: &Tables) -> Vec<Named> {
    let mut cases = Vec::new();
    for form in FORMS {
        for &(run, signed, complement) in RUNS {
            let (what, item, value) = if form == 0 { signed } else { complement };
            let seen = look(tables, form, run);
            let got = seen.report.as_ref().and_then(|report| report.item(item)).unwrap_or(0);
            let what_it_is = if seen.refusal == 0 { seen.kind } else { seen.refusal };
            assert_eq!((what_it_is, got), (what, value), "run {:?} in form {}", run, form);
            let places: Vec<u64> = (0..=run.len() as u64 + 1).chain([u64::MAX]).collect();
            cases.push((format!("run {:?} in form {}", run, form), line_of(run, form, &places)));
        }
        let all: Vec<&[u16]> = RUNS.iter().map(|row| row.0).collect();
        cases.push((format!("all runs in form {}", form), line_of(&all.join(&IDLE), form, &[])));
    }
    cases
}

/// The runs of chosen.rs in the new form. Of their refusals only that of C3 is lost there.
fn earlier_runs(tables: &Tables) -> Vec<Named> {
    for run in chosen::RUNS {
        let (signed, complement) = (look(tables, 0, run).refusal, look(tables, 1, run).refusal);
        assert_eq!(complement, if signed == 9 { 0 } else { signed }, "run {:?}", run);
    }
    let mut cases: Vec<Named> = chosen::RUNS.iter().map(|run| (format!("run {:?} in form 1", run), line_of(run, 1, &[0]))).collect();
    cases.push(("all runs of document 01 in form 1".to_string(), line_of(&chosen::RUNS.join(&IDLE), 1, &[])));
    cases
}

/// A line of C2, C3, an ATCRBS report and a Search: place, kind, refusal and altitude in document 01's form and in the new one.
fn several(tables: &Tables) -> Vec<Named> {
    let runs: [&[u16]; 4] = [RUNS[0].0, RUNS[1].0, RUNS[7].0, &[868, 1281, 2048, 647]];
    let words = runs.join(&IDLE);
    let rows: [(u64, [(u32, u32, i64); 2]); 5] = [
        (0, [(106, 0, -3), (106, 0, -2045)]),
        (8, [(120, 9, 0), (106, 0, -2048)]),
        (16, [(110, 0, -2047), (110, 0, -1)]),
        (24, [(101, 0, 0), (101, 0, 0)]),
        (28, [(121, 0, 0), (121, 0, 0)]),
    ];
    for (place, gets) in rows {
        for form in BOTH {
            let seen = line::look(tables.of(form), 2 * words.len(), &words, place);
            let altitude = seen.report.as_ref().and_then(|report| report.item(ALTITUDE)).unwrap_or(0);
            assert_eq!((seen.kind, seen.refusal, altitude), gets[form as usize], "place {} in form {}", place, form);
        }
    }
    let places: Vec<u64> = (0..=29).collect();
    FORMS.iter().map(|&form| (format!("several runs in form {}", form), line_of(&words, form, &places))).collect()
}

/// No words; a byte; idle words; a word and a byte; more words than a line has. From places at its ends and beyond, in each form.
fn places(_: &Tables) -> Vec<Named> {
    let lines: [(&str, Vec<u8>); 5] = [
        ("no words", Vec::new()),
        ("a byte", vec![0]),
        ("idle words", line::to_bytes(&[IDLE, IDLE])),
        ("C3 and a byte", [line::to_bytes(RUNS[1].0), vec![0]].concat()),
        ("a word too many", vec![0; 65_538]),
    ];
    let mut cases = Vec::new();
    for form in FORMS {
        for (name, bytes) in &lines {
            let words = bytes.len() as u64 / 2;
            let places = vec![0, 1, words, words + 1, 1 << 32, 1 << 63, u64::MAX];
            cases.push((format!("{} in form {}", name, form), Case::Line { bytes: bytes.clone(), form, link: 0, step: 1, places }));
        }
    }
    cases
}

// ---- the index

/// The ATCRBS report with minus zero and file number 1; the same with file number 0; C3, which has none; one with altitude -1 or -2047.
const LINES: [&str; 4] =
    ["I 3200 1 1 1 1 2 4096", "3200 1 1 1 1 1 4096", "3973 1281 256 7 5175 1414 4096", "3200 1 1 1 1 2 4096 I 3200 1 1 1 1 4 4099"];

/// A table, and what entering the first line does in document 01's form and in the new one.
const TABLES: &[(&str, Done, Done)] = &[
    ("0", (125, 0), (123, 0)),
    ("_ 0", (125, 0), (123, 0)),
    ("2 0", (125, 0), (123, 1)),
    ("1", (125, 0), (124, 0)),
    ("2 1", (125, 0), (124, 1)),
    ("", (125, 0), (51, 0)),
    ("2", (125, 0), (51, 0)),
    ("0 1", (50, 0), (50, 0)),
    ("1 1", (50, 0), (50, 0)),
];

/// Each table in each form. The second and the third line are left in every form.
fn tables_in_forms(tables: &Tables) -> Vec<Named> {
    let lines: Vec<Vec<u8>> = LINES.iter().map(|text| bytes_of(text)).collect();
    let mut cases = Vec::new();
    for form in FORMS {
        for &(text, signed, complement) in TABLES {
            let gets = if form == 0 { signed } else { complement };
            let left = if gets.0 == 50 { (50, 0) } else { (125, 0) };
            let steps = vec![1, 2, 0].into_iter().map(|line| Step::Enter { line, place: 0, form, link: 0, scan: 5 }).collect();
            let indexing = Indexing::alone(table_of(text), lines.clone(), steps);
            cases.extend(checked(tables, &format!("table {} in form {}", text, form), indexing, &[left, left, gets]));
        }
    }
    cases
}

/// A line walked in document 01's form, in the new one, and in the first again: minus zero is entered in between only, and stays.
fn walked_in_forms(tables: &Tables) -> Vec<Named> {
    let mut cases = Vec::new();
    for form in FORMS {
        let walk = |form: u32, scan: u32| Step::Walk { line: 0, place: 0, form, link: 0, scan };
        let steps = vec![walk(0, 1), find(1), find(2), walk(form, 2), find(1), walk(0, 3), find(1), find(2)];
        let found = if form == 0 { (127, 0) } else { (126, 1) };
        let first = if form == 0 { (125, 0) } else { (123, 1) };
        let end = (125, 0);
        let dones = [(125, 0), (123, 0), end, (127, 0), (126, 0), first, (124, 0), end, found, (125, 0), (124, 0), end, found, (126, 0)];
        let indexing = Indexing::alone(table_of("0 0"), vec![bytes_of(LINES[3])], steps);
        let entry = if form == 0 { "0" } else { "1:110:2:0" };
        assert_eq!(indexing.worked_out(tables).1, table_of(&format!("2:110:3:8 {}", entry)), "form {}", form);
        cases.extend(checked(tables, &format!("walked in form {}", form), indexing, &dones));
    }
    cases
}

pub fn cases() -> impl Iterator<Item = Named> {
    let tables = Tables::new();
    let parts: [fn(&Tables) -> Vec<Named>; 10] =
        [every_pattern, written_back, every_altitude, limits, runs, earlier_runs, several, places, tables_in_forms, walked_in_forms];
    let in_turn = forms_in_turn(&tables);
    parts.into_iter().flat_map(move |part| part(&tables)).chain([in_turn])
}
