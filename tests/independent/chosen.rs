//! Chosen cases, each once: every number of sixteen bits as a run of one word; every layout and every type with all its values at their least
//! and at their most, read and written; each refusal beside its nearest neighbour; messages and relays cut to every count up to 200 bits.

use crate::bits;
use crate::case::{Case, Tables, Write};
use crate::field::{Field, Tail, LIST, RELAY, SENSOR};
use crate::field_cases::{self, Parts};
use crate::layout::{encode, Layout, Rule};
use crate::line::{self, IDLE};
use crate::line_cases::{item_bytes, largest};
use crate::report;
use crate::run::Named;

/// Which end of what a value may be; a height has three.
#[derive(Clone, Copy, PartialEq)]
enum End {
    Least,
    Most,
    MostNegative,
}

const ENDS: [(End, &str); 3] = [(End::Least, "least"), (End::Most, "most"), (End::MostNegative, "most, negative")];

/// The least or the largest value that the bits and the rule take.
fn value(width: usize, rule: Rule, end: End) -> u64 {
    let largest = largest(width, rule);
    let taken = |value: &u64| encode(*value, width, rule).is_some();
    let found = match end {
        End::Least => (0..=largest).find(taken),
        End::MostNegative if rule == Rule::Signed => Some(largest.wrapping_neg()),
        _ => (0..=largest).rev().find(taken),
    };
    found.expect("a value that is taken")
}

fn items(layout: &Layout, end: End) -> Vec<(u64, u64)> {
    layout.item_pieces().map(|(number, rule, piece)| (u64::from(number), value(piece.width(), rule, end))).collect()
}

// ---- lines

fn line_of(words: &[u16], step: u32) -> Case {
    Case::Line { bytes: line::to_bytes(words), form: 0, link: 0, step, places: vec![0, words.len() as u64] }
}

/// Every number of sixteen bits, an idle word behind each; the idle word itself is there too, and no run.
fn single_words() -> Vec<Named> {
    let line = |from: u32| (from..from + 16_384).flat_map(|word| [word as u16, IDLE]).collect::<Vec<u16>>();
    (0..4).map(|k| 16_384 * k).map(|from| (format!("runs of one word, from {}", from), line_of(&line(from), 512))).collect()
}

/// A layout's words at an end, alone on a line; written with just room enough, and with a word too little.
fn layout_at(tables: &Tables, layout: &Layout, (end, name): (End, &str)) -> Vec<Named> {
    let items = items(layout, end);
    let words = report::write(&tables.reports, layout.number, &items).expect("values at their ends are written");
    let mut cases = vec![(format!("{}, {}", layout.name, name), line_of(&words, 1))];
    for room in [words.len() + 1, words.len()] {
        let writes = vec![Write { place: 0, form: 0, kind: layout.number, items: item_bytes(&items) }];
        cases.push((format!("{}, {}, into {} words", layout.name, name, room), Case::Write { bytes: vec![0xFF; 2 * room], writes }));
    }
    cases
}

/// Runs: document 01's worked cases, and each refusal beside its nearest neighbour.
pub const RUNS: &[&[u16]] = &[
    // C1 to C9
    &[868, 1281, 2048, 647],
    &[3973, 1281, 256, 7, 5175, 1414, 4102],
    &[3973, 1281, 256, 7, 5175, 1414, 4096],
    &[3974, 1281, 256, 7, 5175, 1414, 4],
    &[3974, 1281, 256, 7, 5175, 1414, 8],
    &[868, 1281, 2048, 647, 868, 1281, 2048, 647],
    // a flipped bit that makes an idle word leaves a refused run and a Search report
    &[3333, 1281, 1022, 868, 1281, 2048, 647],
    &[3333, 1281, 1023, 868, 1281, 2048, 647],
    // 3 before 4, over the whole run, and far behind the seventh word
    &[0, 8192],
    &[8191],
    &[1, 1, 1, 1, 1, 1, 1, 9215],
    // 4 at each place, before 5 and 6
    &[1025],
    &[868, 1281, 2048, 646],
    &[868, 1280, 2049, 647],
    &[1],
    // 5 before 6: no pattern, and RTQC with bit 1 zero; its neighbour with bit 1 one
    &[1024, 1],
    &[2048, 1],
    &[577, 1, 1, 1],
    &[4672, 1, 1, 1],
    &[4672],
    &[16, 1, 1, 1],
    &[32, 1, 1, 1],
    // 6: one word fewer, one more, seven words of four
    &[868, 1281, 2048],
    &[868, 1281, 2048, 647, 1],
    &[868, 1281, 2048, 647, 1, 1, 1],
    &[3973, 1281, 256, 7, 5175, 1414],
    &[3973, 1281, 256, 7, 5175, 1414, 4102, 1],
    // 7 for each of 88-90 that is not assigned, with bit 4 one and zero
    &[3974, 1281, 256, 7, 5175, 1414, 2],
    &[3974, 1281, 256, 7, 5175, 1414, 1],
    &[3974, 1281, 256, 7, 5175, 1414, 7],
    &[3974, 1281, 256, 7, 5175, 1414, 14],
    &[3463, 1281, 256, 7, 5175, 1414, 1],
    &[3463, 1281, 256, 7, 5175, 1414, 7],
    &[3463, 1281, 256, 7, 5175, 1414, 14],
    // 8: bit 25, bit 51 of a Map, bit 45 of DABS, before 9; Status has none
    &[868, 1282, 2048, 647],
    &[1, 2, 1, 1],
    &[1, 1, 1, 2],
    &[1, 1, 1, 1],
    &[3973, 1281, 256, 134, 5175, 1414, 4102],
    &[3973, 1281, 256, 134, 5175, 1414, 4096],
    &[385, 2, 1, 2],
    // 9, and its neighbours: plus zero, and bit 6 zero
    &[3973, 1281, 256, 7, 5175, 1414, 1],
    &[3844, 1281, 256, 7, 5175, 1414, 4096],
];

/// Each run alone, and all on one line.
fn runs() -> Vec<Named> {
    let mut cases: Vec<Named> = RUNS.iter().map(|run| (format!("run {:?}", run), line_of(run, 1))).collect();
    cases.push(("all runs".to_string(), line_of(&RUNS.join(&IDLE), 1)));
    cases
}

// ---- fields

pub fn field_case(name: String, bytes: Vec<u8>, count: u64, from_sensor: bool) -> Named {
    (name, Case::Field { bytes, count, from_sensor: u32::from(from_sensor), ask: true, indices: vec![LIST as u64] })
}

/// A type's record at an end, with the list or the text that its counts tell.
fn parts_at(field: &Field, relayed: bool, end: End) -> Parts {
    let mut parts = Parts { kind: field.head.number, items: items(&field.head, end), list: vec![0; LIST], text: Vec::new() };
    let units = field.units(|number| parts.value(number));
    let least = end == End::Least;
    match field.tail {
        Tail::Nothing => (),
        Tail::Text => parts.text = vec![if least { 0 } else { 0xFF }; 10 * units],
        Tail::Blocks => parts.list[..units].fill(if least { 0 } else { -79 }),
        Tail::Entries => parts.list[..units].fill(if least { 0 } else { 0xFF_FFFF }),
    }
    if relayed {
        parts.items.push((u64::from(SENSOR), if least { 0 } else { 255 }));
    }
    parts
}

/// A type at an end, plain or relayed, read; written with just room enough, with a byte more and with a byte too little.
fn type_at(tables: &Tables, kind: (&Field, bool), (end, name): (End, &str)) -> Vec<Named> {
    let parts = parts_at(kind.0, kind.1, end);
    let text = field_cases::text_of(tables, &parts);
    let name = format!("{}{}, {}", kind.0.head.name, if kind.1 { ", relayed" } else { "" }, name);
    let bytes = bits::to_bytes(&text);
    let needed = bytes.len();
    let mut cases = vec![field_case(name.clone(), bytes, text.len() as u64, kind.0.from_sensor)];
    for room in needed - 1..=needed + 1 {
        cases.push((format!("{}, into {} bytes", name, room), written(room, &parts)));
    }
    cases
}

/// A type that is not relayed, at its least, inside a relay nevertheless.
fn wrongly_relayed(tables: &Tables, field: &Field) -> Named {
    let text = field_cases::text_of(tables, &parts_at(field, false, End::Least));
    let bytes = [vec![RELAY as u8, 7], bits::to_bytes(&text)].concat();
    field_case(format!("{}, relayed", field.head.name), bytes, 16 + text.len() as u64, true)
}

/// A writing into bytes that are all ones.
pub fn written(room: usize, parts: &Parts) -> Case {
    let (items, list) = (item_bytes(&parts.items), parts.list_bytes());
    Case::FieldWrite { bytes: vec![0xFF; room], kind: parts.kind, items, list, text: parts.text.clone() }
}

/// A field: its name, its bytes (AB*3 is AB three times), its count of bits, whether it comes from the sensor.
type Row = (&'static str, &'static str, u64, bool);

/// Each refusal beside its nearest neighbour, and document 01's C10 to C12.
const NEIGHBOURS: &[Row] = &[
    ("no bits", "", 0, false),
    ("7 bits", "20", 7, false),
    ("8 bits", "21", 8, false),
    ("2008 bits", "21 00*250", 2008, false),
    ("2009 bits", "21 00*251", 2009, false),
    ("a byte more", "2100000011 00*8", 96, false),
    ("a byte less", "2100000011000000000000", 96, false),
    ("a bit after the count", "83 00*10 01", 90, true),
    ("unknown type 20", "20", 8, false),
    ("unknown type 90", "90", 8, true),
    ("64", "64", 8, false),
    ("9C", "9C", 8, true),
    ("C1", "C1", 8, false),
    ("C2", "C2", 8, true),
    ("80", "80", 8, false),
    ("8F", "8F", 8, true),
    ("83 to the sensor", "83 00*11", 90, false),
    ("21 from the sensor", "210000001100000000000000", 96, true),
    ("31 to the sensor", "3100000010", 40, false),
    ("03 to the sensor", "0300", 16, false),
    ("03 of 16 bits", "0300", 16, true),
    ("03 of 23 bits", "030000", 23, true),
    ("03 of 24 bits", "030000", 24, true),
    ("03 of 03", "030003", 24, true),
    ("03 of 62, too short", "030062", 24, true),
    ("22 of Length 0", "2200000011 00*11", 128, false),
    ("22 of Length 0, 208 bits", "2200000011 00*21", 208, false),
    ("42 of Length 0", "42 00*14", 120, true),
    ("26 before 27", "210000009100000000000000", 95, false),
    ("24 spare", "2400000011", 40, false),
    ("24 number 0", "2400000000", 40, false),
    ("24 spare and number 0", "2400000001", 40, false),
    ("23 MSRC 2", "230000001120", 48, false),
    ("31 QUAL 4", "3100000018", 40, true),
    ("31 QUAL 5", "310000001A", 40, true),
    ("83 DEL 5", "830000000000000005000000", 90, true),
    ("83 DEL 6", "830000000000000006000000", 90, true),
    ("83 advisory 110", "830000000000000030000000", 90, true),
    ("83 advisory 111", "830000000000000038000000", 90, true),
    ("99 state 0", "9900", 16, false),
    ("65 SSTAT 0", "650000", 24, false),
    ("21 EXP 0", "210000001000000000000000", 96, false),
    ("C10", "9B011283", 32, false),
    ("C11", "9B011280", 32, false),
    ("9B hundreds 9", "9B0009", 24, false),
    ("9B hundreds A", "9B000A", 24, false),
    ("9B spare", "9B1000", 24, false),
    ("9B one block short", "9B0112", 24, false),
    ("C12", "21A1B2C35B00000000000000", 96, false),
];

pub fn bytes_of(text: &str) -> Vec<u8> {
    let mut bytes = Vec::new();
    for word in text.split_whitespace() {
        let (hex, times) = word.split_once('*').map_or((word, 1), |(hex, n)| (hex, n.parse().expect("a number")));
        for _ in 0..times {
            bytes.extend((0..hex.len()).step_by(2).map(|i| u8::from_str_radix(&hex[i..i + 2], 16).expect("two digits")));
        }
    }
    bytes
}

/// Fields with zeros behind, and whether they come from the sensor: a tactical message, the relay of a notice, an ELM and its relay.
const TO_CUT: &[(&str, bool)] =
    &[("2100000011 00*20", false), ("03073100000010 00*18", true), ("4200000000 00*20", true), ("03074200000000 00*18", true)];

/// The neighbours; and those fields cut to every count from 0 to 200.
fn neighbours() -> Vec<Named> {
    let row = |&(name, text, count, from): &Row| field_case(name.to_string(), bytes_of(text), count, from);
    let mut cases: Vec<Named> = NEIGHBOURS.iter().map(row).collect();
    for &(text, from) in TO_CUT {
        for count in 0..=200 {
            let bytes = bytes_of(text)[..(count + 7) / 8].to_vec();
            cases.push(field_case(format!("{} cut to {} bits", text, count), bytes, count as u64, from));
        }
    }
    cases
}

/// A writing: its name, the room, the type, its items, its list, its text.
type Attempt = (&'static str, usize, u32, &'static [(u64, u64)], &'static [i64], &'static str);

/// Records that the writer takes beside their nearest neighbours that it refuses.
const ATTEMPTS: &[Attempt] = &[
    ("24 number 0", 6, 0x24, &[(201, 1), (202, 0)], &[], ""),
    ("24 number 16", 6, 0x24, &[(201, 1), (202, 16)], &[], ""),
    ("24 with a text", 6, 0x24, &[(201, 1), (202, 15)], &[], "x"),
    ("24 number 15", 6, 0x24, &[(201, 1), (202, 15)], &[], ""),
    ("24 in four bytes", 4, 0x24, &[(201, 1), (202, 1)], &[], ""),
    ("24 in five bytes", 5, 0x24, &[(201, 1), (202, 1)], &[], ""),
    ("9B N 16", 4, 0x9B, &[(211, 16)], &[], ""),
    ("9B 80", 4, 0x9B, &[(211, 0)], &[80], ""),
    ("9B -80", 4, 0x9B, &[(211, 0)], &[-80], ""),
    ("9B past the count", 4, 0x9B, &[(211, 0)], &[-79, 1], ""),
    ("9B -79", 4, 0x9B, &[(211, 0)], &[-79], ""),
    ("42 of 19 bytes", 26, 0x42, &[(201, 1), (206, 1)], &[], "0123456789012345678"),
    ("42 of 20 bytes", 26, 0x42, &[(201, 1), (206, 1)], &[], "01234567890123456789"),
    ("03 of 24", 8, 0x24, &[(201, 1), (202, 1), (237, 7)], &[], ""),
    ("03 of 62", 8, 0x62, &[(210, 1), (237, 7)], &[], ""),
    ("03 sensor 256", 8, 0x31, &[(201, 1), (208, 1), (220, 0), (237, 256)], &[], ""),
    ("03 sensor 255", 8, 0x31, &[(201, 1), (208, 1), (220, 0), (237, 255)], &[], ""),
];

fn attempts() -> Vec<Named> {
    let case = |&(name, room, kind, items, list, text): &Attempt| {
        let mut parts = Parts { kind, items: items.to_vec(), list: list.to_vec(), text: text.as_bytes().to_vec() };
        parts.list.resize(LIST, 0);
        (format!("writing {}", name), written(room, &parts))
    };
    ATTEMPTS.iter().map(case).collect()
}

pub fn cases() -> impl Iterator<Item = Named> {
    let tables = Tables::new();
    let mut cases = single_words();
    for end in ENDS {
        cases.extend(tables.reports.iter().flat_map(|layout| layout_at(&tables, layout, end)));
    }
    cases.extend(runs());
    for end in &ENDS[..2] {
        cases.extend(field_cases::kinds(&tables).into_iter().flat_map(|kind| type_at(&tables, kind, *end)));
    }
    cases.extend(tables.fields.iter().filter(|field| !field.relayed()).map(|field| wrongly_relayed(&tables, field)));
    cases.extend(neighbours());
    cases.extend(attempts());
    cases.into_iter()
}
