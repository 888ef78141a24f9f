//! Chosen cases of ELMs of one segment (Ticket 2 of document 02), each once, with answers worked out by hand from documents 01 and 02: the
//! counts, bytes, spare bits and Lengths next to the right ones, each bit turned over, and records to write; and the same for type 22,
//! which keeps its minimum.

use crate::bits;
use crate::case::Tables;
use crate::chosen::{bytes_of, field_case, written};
use crate::field::{self, Given, LIST};
use crate::field_cases::Parts;
use crate::line_cases::item_bytes;
use crate::run::Named;

/// A field: its bytes (A5*3 is A5 three times), its count of bits, and what it gets from the sensor and to the sensor; 0 is accepted.
type Row = (&'static str, u64, u32, u32);

/// Type 42, whose right count is 120. Each row stands for its relay too, which has 16 bits more and answers the same.
const DOWNLINKS: &[Row] = &[
    ("4212345600 A5*10", 120, 0, 25),
    ("4200000000 00*10", 120, 0, 25),
    ("42FFFFFF00 FF*10", 120, 0, 25),
    // 26: other counts
    ("4212345600 A5*9 A4", 119, 26, 25),
    ("4212345600 A5*10 80", 121, 26, 25),
    ("4212345600 A5*9", 112, 26, 25),
    ("4212345600 A5*11", 128, 26, 25),
    ("4212345600 A5*12", 136, 26, 25),
    ("4212345600 A5*20", 200, 26, 25),
    ("4212345600", 40, 26, 25),
    ("4212345600", 39, 26, 25),
    // 26: other Lengths in as many bits; each in its own
    ("4212345601 A5*10", 120, 26, 25),
    ("421234560F A5*10", 120, 26, 25),
    ("4212345601 A5*20", 200, 0, 25),
    ("421234560F A5*160", 1320, 0, 25),
    // 27: spare bits 33 to 36; 26 before it
    ("4212345680 A5*10", 120, 27, 25),
    ("4212345640 A5*10", 120, 27, 25),
    ("4212345620 A5*10", 120, 27, 25),
    ("4212345610 A5*10", 120, 27, 25),
    ("42123456F0 A5*10", 120, 27, 25),
    ("4212345680 A5*9 A4", 119, 26, 25),
    ("4212345610 A5*10 80", 121, 26, 25),
    // 21: a byte too few and one too many; 22: a one after the count
    ("4212345600 A5*9", 120, 21, 21),
    ("4212345600 A5*11", 120, 21, 21),
    ("4212345600 A5*10", 119, 22, 22),
    ("4212345600 A5*10 81", 121, 22, 22),
];

/// Relays alone: the least and the greatest sensor and address, and counts that stand beside the right one of the bare field.
const RELAYED: &[Row] = &[
    ("03004200000000 00*10", 136, 0, 25),
    ("03FF42FFFFFF00 FF*10", 136, 0, 25),
    ("03074212345600 A5*8", 120, 26, 25),
    ("03074212345600 A5*7 A4", 119, 26, 25),
    ("03074212345600 A5*8 80", 121, 26, 25),
    ("03074212345600 A5*7", 112, 26, 25),
];

/// Type 22: Length 0 in its 128 bits is not in use.
const UPLINKS: &[Row] = &[
    ("221234561100 A5*10", 128, 25, 28),
    ("221234561101 A5*20", 208, 25, 0),
    // 26: other counts, and Length 1 in as many bits
    ("221234561100 A5*9 A4", 127, 25, 26),
    ("221234561100 A5*10 80", 129, 25, 26),
    ("221234561100 A5*9", 120, 25, 26),
    ("221234561100 A5*11", 136, 25, 26),
    ("221234561100 A5*12", 144, 25, 26),
    ("221234561100 A5*20", 208, 25, 26),
    ("221234561101 A5*10", 128, 25, 26),
    // 27: spare bits 41 to 44, before 28; 26 before 27
    ("221234561180 A5*10", 128, 25, 27),
    ("221234561140 A5*10", 128, 25, 27),
    ("221234561120 A5*10", 128, 25, 27),
    ("221234561110 A5*10", 128, 25, 27),
    ("221234561180 A5*9 A4", 127, 25, 26),
    // 21 and 22 as before
    ("221234561100 A5*9", 128, 21, 21),
    ("221234561100 A5*11", 128, 21, 21),
    ("221234561100 A5*10", 127, 22, 22),
    ("221234561100 A5*10 81", 129, 22, 22),
    // in a relay it is the other way's type
    ("0307221234561100 A5*10", 144, 25, 25),
];

/// The case of a field, whose answer has to be the one worked out by hand.
fn field(tables: &Tables, name: String, bytes: Vec<u8>, count: u64, (from_sensor, gets): (bool, u32)) -> Named {
    let read = field::read(&tables.fields, &bytes, count, from_sensor);
    assert_eq!(read.err().unwrap_or(0), gets, "{}, from the sensor {}", name, from_sensor);
    field_case(name, bytes, count, from_sensor)
}

fn fields(tables: &Tables) -> Vec<Named> {
    let mut rows: Vec<(String, u64, u32, u32)> = Vec::new();
    rows.extend([DOWNLINKS, RELAYED, UPLINKS].concat().iter().map(|row| (row.0.to_string(), row.1, row.2, row.3)));
    rows.extend(DOWNLINKS.iter().map(|row| (format!("0307{}", row.0), row.1 + 16, row.2, row.3)));
    let mut cases = Vec::new();
    for (text, count, from, to) in &rows {
        for way in [(true, *from), (false, *to)] {
            cases.push(field(tables, format!("{} in {} bits", text, count), bytes_of(text), *count, way));
        }
    }
    cases
}

/// From one bit to another, and what the field gets from the sensor when one of them is turned over.
type Turned = (usize, usize, u32);

/// A 42 of Length 0. With a bit of its type turned over it is C2, 02, 62, 52, 4A, 46, 40 or 43.
const TURNED: &[Turned] =
    &[(1, 1, 24), (2, 2, 25), (3, 3, 26), (4, 7, 23), (8, 8, 26), (9, 32, 0), (33, 36, 27), (37, 40, 26), (41, 120, 0)];

/// Its relay, which is then 83, 43, 23, 13, 0B, 07, 01 or 02; the field inside as before, but 62 is not relayed.
const TURNED_RELAYED: &[Turned] = &[
    (1, 2, 26),
    (3, 3, 25),
    (4, 7, 23),
    (8, 8, 25),
    (9, 16, 0),
    (17, 17, 24),
    (18, 18, 25),
    (19, 19, 29),
    (20, 23, 23),
    (24, 24, 26),
    (25, 48, 0),
    (49, 52, 27),
    (53, 56, 26),
    (57, 136, 0),
];

/// Each bit turned over.
fn turned(tables: &Tables) -> Vec<Named> {
    let mut cases = Vec::new();
    for (text, rows) in [("4212345600 A5*10", TURNED), ("03074212345600 A5*10", TURNED_RELAYED)] {
        let bits = bits::of_bytes(&bytes_of(text));
        for &(from, to, gets) in rows {
            for bit in from..=to {
                let bytes = bits::to_bytes(&bits::flipped(&bits, bit));
                cases.push(field(tables, format!("{}, bit {} turned over", text, bit), bytes, bits.len() as u64, (true, gets)));
            }
        }
    }
    cases
}

// ---- writing

type Items = &'static [(u64, u64)];

const ONE: Items = &[(201, 0x123456), (206, 0)];
const ONE_RELAYED: Items = &[(201, 0x123456), (206, 0), (237, 7)];
const TWO: Items = &[(201, 0x123456), (206, 1)];
const TWO_RELAYED: Items = &[(201, 0x123456), (206, 1), (237, 7)];
const ONE_UPLINK: Items = &[(201, 0x123456), (202, 1), (203, 0), (204, 1), (206, 0)];
const TWO_UPLINK: Items = &[(201, 0x123456), (202, 1), (203, 0), (204, 1), (206, 1)];

/// A writing: the room, the type, its items, its list, the bytes of its text, and what it gets: the refusal and the bits.
type Attempt = (usize, u32, Items, &'static [i64], usize, (u32, u64));

const ATTEMPTS: &[Attempt] = &[
    // texts of Length 0 and 1
    (40, 0x42, ONE, &[], 10, (0, 120)),
    (40, 0x42, ONE, &[], 9, (30, 0)),
    (40, 0x42, ONE, &[], 11, (30, 0)),
    (40, 0x42, ONE, &[], 20, (30, 0)),
    (40, 0x42, ONE, &[], 0, (30, 0)),
    (40, 0x42, TWO, &[], 20, (0, 200)),
    (40, 0x42, TWO, &[], 10, (30, 0)),
    (40, 0x42, ONE_RELAYED, &[], 10, (0, 136)),
    (40, 0x42, ONE_RELAYED, &[], 9, (30, 0)),
    (40, 0x42, ONE_RELAYED, &[], 11, (30, 0)),
    (40, 0x42, ONE_RELAYED, &[], 20, (30, 0)),
    (40, 0x42, ONE_RELAYED, &[], 0, (30, 0)),
    (40, 0x42, TWO_RELAYED, &[], 20, (0, 216)),
    (40, 0x42, TWO_RELAYED, &[], 10, (30, 0)),
    // values: the address, the sensor, Length
    (40, 0x42, &[(201, 0xFF_FFFF), (206, 0)], &[], 10, (0, 120)),
    (40, 0x42, &[(201, 0x100_0000), (206, 0)], &[], 10, (30, 0)),
    (40, 0x42, &[(201, 0xFF_FFFF), (206, 0), (237, 255)], &[], 10, (0, 136)),
    (40, 0x42, &[(201, 0x100_0000), (206, 0), (237, 255)], &[], 10, (30, 0)),
    (40, 0x42, &[(201, 0xFF_FFFF), (206, 0), (237, 256)], &[], 10, (30, 0)),
    (251, 0x42, &[(201, 1), (206, 15)], &[], 160, (0, 1320)),
    (251, 0x42, &[(201, 1), (206, 16)], &[], 170, (30, 0)),
    (251, 0x42, &[(201, 1), (206, 16)], &[], 10, (30, 0)),
    (251, 0x42, &[(201, 1), (206, 16), (237, 7)], &[], 170, (30, 0)),
    (251, 0x42, &[(201, 1), (206, 16), (237, 7)], &[], 10, (30, 0)),
    // a list entry that is not zero
    (40, 0x42, ONE, &[1], 10, (30, 0)),
    (40, 0x42, ONE, &[0, -1], 10, (30, 0)),
    (40, 0x42, ONE_RELAYED, &[1], 10, (30, 0)),
    // room: just enough, a byte too little, none; 30 before 31
    (15, 0x42, ONE, &[], 10, (0, 120)),
    (14, 0x42, ONE, &[], 10, (31, 0)),
    (0, 0x42, ONE, &[], 10, (31, 0)),
    (14, 0x42, ONE, &[], 9, (30, 0)),
    (17, 0x42, ONE_RELAYED, &[], 10, (0, 136)),
    (16, 0x42, ONE_RELAYED, &[], 10, (31, 0)),
    (15, 0x42, ONE_RELAYED, &[], 10, (31, 0)),
    (0, 0x42, ONE_RELAYED, &[], 10, (31, 0)),
    (16, 0x42, ONE_RELAYED, &[], 9, (30, 0)),
    // type 22 keeps its minimum
    (40, 0x22, ONE_UPLINK, &[], 10, (30, 0)),
    (40, 0x22, ONE_UPLINK, &[], 20, (30, 0)),
    (40, 0x22, ONE_UPLINK, &[], 0, (30, 0)),
    (15, 0x22, ONE_UPLINK, &[], 10, (30, 0)),
    (40, 0x22, TWO_UPLINK, &[], 20, (0, 208)),
    (40, 0x22, TWO_UPLINK, &[], 10, (30, 0)),
];

/// The writings, into bytes that are all ones.
fn attempts(tables: &Tables) -> Vec<Named> {
    let case = |&(room, kind, items, list, length, gets): &Attempt| {
        let text: Vec<u8> = b"0123456789".iter().copied().cycle().take(length).collect();
        let mut parts = Parts { kind, items: items.to_vec(), list: list.to_vec(), text };
        parts.list.resize(LIST, 0);
        let name = format!("writing {:02X} {:?} {:?} with {} bytes of text into {}", kind, items, list, length, room);
        let given = Given { kind, items: &item_bytes(items), list: &parts.list_bytes(), text: &parts.text };
        assert_eq!(field::write(&tables.fields, &mut vec![0xFF; room], &given), gets, "{}", name);
        (name, written(room, &parts))
    };
    ATTEMPTS.iter().map(case).collect()
}

pub fn cases() -> impl Iterator<Item = Named> {
    let tables = Tables::new();
    [fields, turned, attempts].into_iter().flat_map(move |part: fn(&Tables) -> Vec<Named>| part(&tables))
}
