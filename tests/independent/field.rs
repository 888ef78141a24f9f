//! The link data fields of document 01 ("Link data fields") and of section 5.3 of document 004: reading, writing and every refusal, in the
//! order of document 01. Types and items have the numbers of siamrung.h. Type 42 takes every Length, as Ticket 2 of document 02 says.

use crate::bits;
use crate::layout::{Layout, Names};
use crate::line;

pub const ITEMS: &Names = &[
    ("ADDRESS", 201),
    ("NUMBER", 202),
    ("PRIORITY", 203),
    ("EXP", 204),
    ("TEXT", 205),
    ("LENGTH", 206),
    ("MSRC", 207),
    ("REFERENCED", 208),
    ("REFERENCED_TYPE", 209),
    ("PATTERN", 210),
    ("N", 211),
    ("STATE", 212),
    ("SID", 213),
    ("SSTAT", 214),
    ("IP", 215),
    ("IS", 216),
    ("IU", 217),
    ("ICA", 218),
    ("IUA", 219),
    ("QUAL", 220),
    ("DI", 221),
    ("UM", 222),
    ("CA", 223),
    ("ACA", 224),
    ("ECA", 225),
    ("CODE", 226),
    ("ACID1", 227),
    ("ACID2", 228),
    ("CS1", 229),
    ("ADVISORY1", 230),
    ("DEL1", 231),
    ("CS2", 232),
    ("ADVISORY2", 233),
    ("DEL2", 234),
    ("V1", 235),
    ("V2", 236),
];
pub const LENGTH: u32 = 206;
pub const SENSOR: u32 = 237;
pub const RELAY: u32 = 0x03;
pub const TEST_RESPONSE: u32 = 0x62;
pub const LIST: usize = 30;

/// What follows the fixed part of a field; the items name its length.
#[derive(Clone, Copy, PartialEq)]
pub enum Tail {
    Nothing,
    /// 80 (LENGTH + 1) bits of text
    Text,
    /// N + 1 blocks of 8 bits
    Blocks,
    /// as many entries of 24 bits as the items add up to
    Entries,
}

pub struct Field {
    pub from_sensor: bool,
    pub tail: Tail,
    pub head: Layout,
}

const UPLINK: &str = "9-32 ADDRESS, 33-36 NUMBER used, 37 PRIORITY, 38-40 EXP used";
const ID_REQUEST: &str = "9-32 ADDRESS, 33-36 NUMBER used, 37-40 zero";
const CANCELLATION: &str = "9-32 ADDRESS, 33-36 NUMBER used, 37-40 REFERENCED used, 41-48 REFERENCED_TYPE";
const SENSOR_FAILURE: &str = "9-12 SID, 13-14 zero, 15-16 SSTAT used, 17-24 zero";
const ALERT: &str = "9-32 ACID1, 33-56 ACID2, 57-58 CS1, 59-69 ADVISORY1 advisory, 70-72 DEL1 delivery, \
                     73-74 CS2, 75-85 ADVISORY2 advisory, 86-88 DEL2 delivery, 89 V1, 90 V2";

type Row = (u32, &'static str, usize, Tail, &'static [&'static str]);

/// Type, name, bits of the fixed part, what follows, and the fixed part from bit 9 on.
const TO_SENSOR: &[Row] = &[
    (0x21, "tactical uplink", 96, Tail::Nothing, &[UPLINK, "41-96 TEXT"]),
    (0x22, "ELM uplink", 48, Tail::Text, &[UPLINK, "41-44 zero, 45-48 LENGTH used"]),
    (0x23, "downlink request", 48, Tail::Nothing, &[UPLINK, "41-44 MSRC one, 45-48 zero"]),
    (0x24, "ID request", 40, Tail::Nothing, &[ID_REQUEST]),
    (0x02, "capability request", 40, Tail::Nothing, &[ID_REQUEST]),
    (0x25, "cancellation", 48, Tail::Nothing, &[CANCELLATION]),
    (0x61, "test", 56, Tail::Nothing, &["9-56 PATTERN"]),
    (0x9B, "altimeter correction", 16, Tail::Blocks, &["9-12 zero, 13-16 N"]),
    (0x99, "ATC failure", 16, Tail::Nothing, &["9-10 STATE used, 11-16 zero"]),
    (0x65, "sensor failure", 24, Tail::Nothing, &[SENSOR_FAILURE]),
    (0x9A, "DABS control state", 16, Tail::Entries, &["9-11 IP, 12-14 IS, 15-16 IU"]),
    (0x96, "ATCRBS control state", 16, Tail::Entries, &["9-12 ICA, 13-16 IUA"]),
];
const FROM_SENSOR: &[Row] = &[
    (0x31, "rejection notice", 40, Tail::Nothing, &["9-32 ADDRESS, 33-36 REFERENCED used, 37-39 QUAL qualifier, 40 zero"]),
    (0x32, "delivery notice", 40, Tail::Nothing, &["9-32 ADDRESS, 33-36 REFERENCED used, 37 DI, 38-40 zero"]),
    (0x41, "tactical downlink", 88, Tail::Nothing, &["9-32 ADDRESS, 33-88 TEXT"]),
    (0x42, "ELM downlink", 40, Tail::Text, &["9-32 ADDRESS, 33-36 zero, 37-40 LENGTH"]),
    (0x43, "utility", 40, Tail::Nothing, &["9-32 ADDRESS, 33-34 zero, 35-40 UM"]),
    (0x44, "capability", 96, Tail::Nothing, &["9-32 ADDRESS, 33-35 CA, 36-41 ACA, 42-93 ECA, 94-96 zero"]),
    (0x45, "ID code", 48, Tail::Nothing, &["9-32 ADDRESS, 33-36 zero, 37-48 CODE"]),
    (0x62, "test response", 56, Tail::Nothing, &["9-56 PATTERN"]),
    (0x83, "controller alert", 90, Tail::Nothing, &[ALERT]),
];
const NOT_CARRIED: &[u32] = &[0x64, 0x9C, 0xC1, 0xC2];

/// The twenty-one layouts; the relay has none of its own.
pub fn fields() -> Vec<Field> {
    let make = |from_sensor: bool, row: &Row| {
        let text = format!("1-8 ={:08b}, {}", row.0, row.4.join(", "));
        Field { from_sensor, tail: row.3, head: Layout::new(row.0, row.1, row.2, 0, &text, ITEMS) }
    };
    let to = TO_SENSOR.iter().map(|row| make(false, row));
    to.chain(FROM_SENSOR.iter().map(|row| make(true, row))).collect()
}

impl Field {
    pub fn relayed(&self) -> bool {
        self.from_sensor && self.head.number != TEST_RESPONSE
    }

    /// How many units the tail has (segments, blocks or entries) with these values of the fixed part.
    pub fn units(&self, item: impl Fn(u32) -> u64) -> usize {
        let numbers = self.head.items();
        let sum: u64 = match self.tail {
            Tail::Nothing => 0,
            Tail::Text => item(LENGTH) + 1,
            Tail::Blocks => item(211) + 1,
            Tail::Entries => numbers.iter().map(|&number| item(number)).sum(),
        };
        sum as usize
    }

    pub fn unit_bits(&self) -> usize {
        match self.tail {
            Tail::Nothing => 0,
            Tail::Text => 80,
            Tail::Blocks => 8,
            Tail::Entries => 24,
        }
    }

    /// The plain number in an item's bits, whether in use or not; for the counts that tell a field's length.
    fn plain(&self, text: &str, wanted: u32) -> u64 {
        let mut pieces = self.head.item_pieces();
        let found = pieces.find(|(number, _, _)| *number == wanted);
        bits::number(&found.expect("an item of the field").2.cut(text))
    }
}

/// What an accepted field holds.
pub struct Record {
    pub kind: u32,
    pub inner: u32,
    pub items: Vec<(u32, i64)>,
    pub entries: Vec<i64>,
    /// place and length of an ELM's text, in bytes
    pub text: Option<(usize, usize)>,
}

/// The record of a field, or its refusal.
pub fn read(fields: &[Field], bytes: &[u8], count: u64, from_sensor: bool) -> Result<Record, u32> {
    if !(8..=2008).contains(&count) {
        return Err(20);
    }
    let count = count as usize;
    let needed = (count + 7) / 8;
    if bytes.len() != needed {
        return Err(21);
    }
    let all = bits::of_bytes(bytes);
    let (text, after) = all.split_at(count);
    if bits::ones(after) > 0 {
        return Err(22);
    }
    refuse_type(fields, text, from_sensor)?;
    if type_of(text) != RELAY {
        return open(fields, text);
    }
    if text.len() < 24 {
        return Err(26);
    }
    open_relay(fields, text)
}

fn type_of(text: &str) -> u32 {
    bits::number(bits::span(text, 1, 8)) as u32
}

/// Refusals 23, 24 and 25.
fn refuse_type(fields: &[Field], text: &str, from_sensor: bool) -> Result<(), u32> {
    let kind = type_of(text);
    let undefined = format!("{:02X}", kind).starts_with('8') && kind != 0x83;
    if undefined || NOT_CARRIED.contains(&kind) {
        return Err(24);
    }
    let way = match fields.iter().find(|field| field.head.number == kind) {
        Some(field) => field.from_sensor,
        None if kind == RELAY => true,
        None => return Err(23),
    };
    if way == from_sensor {
        Ok(())
    } else {
        Err(25)
    }
}

/// The field inside a relay, opened first; then the sensor is put before its items.
fn open_relay(fields: &[Field], text: &str) -> Result<Record, u32> {
    let inside = &text[16..];
    refuse_type(fields, inside, true)?;
    let kind = type_of(inside);
    if kind == RELAY || kind == TEST_RESPONSE {
        return Err(29);
    }
    let inner = open(fields, inside)?;
    let sensor = bits::number(bits::span(text, 9, 16)) as i64;
    let mut items = vec![(SENSOR, sensor)];
    items.extend(inner.items);
    let text = inner.text.map(|(place, length)| (place + 2, length));
    Ok(Record { kind: RELAY, inner: kind, items, entries: inner.entries, text })
}

/// Refusals 26, 27 and 28 of a field whose type is known and fits the way; else its record.
fn open(fields: &[Field], text: &str) -> Result<Record, u32> {
    let kind = type_of(text);
    let field = fields.iter().find(|field| field.head.number == kind).expect("a known type");
    let head_bits = field.head.bits;
    if text.len() < head_bits {
        return Err(26);
    }
    let (head, tail) = text.split_at(head_bits);
    let units = field.units(|number| field.plain(head, number));
    if tail.len() != units * field.unit_bits() {
        return Err(26);
    }
    if !field.head.spares_are_zero(head) {
        return Err(27);
    }
    let items = field.head.read(head).ok_or(28u32)?;
    let entries = entries(field.tail, tail).ok_or(28u32)?;
    let place = if field.tail == Tail::Text { Some((head_bits / 8, tail.len() / 8)) } else { None };
    Ok(Record { kind, inner: kind, items, entries, text: place })
}

/// The list entries; nothing where a block is not in use.
fn entries(tail: Tail, text: &str) -> Option<Vec<i64>> {
    let width = match tail {
        Tail::Blocks => 8,
        Tail::Entries => 24,
        _ => return Some(Vec::new()),
    };
    let entry = |index: usize| {
        let bits = &text[width * index..width * (index + 1)];
        if tail == Tail::Blocks {
            block(bits)
        } else {
            Some(bits::number(bits) as i64)
        }
    };
    (0..text.len() / width).map(entry).collect()
}

/// An altimeter block: a sign, three bits of thousands, four of hundreds.
fn block(text: &str) -> Option<i64> {
    let thousands = bits::number(bits::span(text, 2, 4)) as i64;
    let hundreds = bits::number(bits::span(text, 5, 8)) as i64;
    let magnitude = 10 * thousands + hundreds;
    match (bits::span(text, 1, 1), hundreds, magnitude) {
        (_, 10..=15, _) | ("1", _, 0) => None,
        ("1", _, _) => Some(-magnitude),
        _ => Some(magnitude),
    }
}

/// The block of a correction in hundreds of feet; nothing beyond -79 to 79.
fn block_text(value: i64) -> Option<String> {
    if !(-79..=79).contains(&value) {
        return None;
    }
    let sign = if value < 0 { 1 } else { 0 };
    Some(format!("{}{:03b}{:04b}", sign, value.abs() / 10, value.abs() % 10))
}

/// What a field is written from, as it comes through the C call.
pub struct Given<'a> {
    pub kind: u32,
    pub items: &'a [u8],
    pub list: &'a [u8],
    pub text: &'a [u8],
}

/// Writes the field; answers the refusal and the number of bits, or 0.
pub fn write(fields: &[Field], bytes: &mut [u8], given: &Given) -> (u32, u64) {
    let text = match compose(fields, given) {
        Some(text) => text,
        None => return (30, 0),
    };
    let new = bits::to_bytes(&text);
    if bytes.len() < new.len() {
        return (31, 0);
    }
    bytes[..new.len()].copy_from_slice(&new);
    (0, text.len() as u64)
}

/// The bits of the field; nothing where it would get 30.
fn compose(fields: &[Field], given: &Given) -> Option<String> {
    let mut items = line::items(given.items)?;
    let sensors: Vec<u64> = items.iter().filter(|item| item.0 == u64::from(SENSOR)).map(|item| item.1).collect();
    items.retain(|item| item.0 != u64::from(SENSOR));
    let field = fields.iter().find(|field| field.head.number == given.kind)?;
    let head = field.head.write(&items)?;
    let units = field.units(|number| field.plain(&head, number));
    let tail = compose_tail(field.tail, units, given)?;
    match sensors[..] {
        [] => Some(format!("{}{}", head, tail)),
        [sensor] if field.relayed() => {
            let sensor = bits::of_number(sensor, 8)?;
            Some(format!("{:08b}{}{}{}", RELAY, sensor, head, tail))
        }
        _ => None,
    }
}

/// The list and the text: that of the type goes in, and the other is empty.
fn compose_tail(tail: Tail, units: usize, given: &Given) -> Option<String> {
    if given.list.len() != 8 * LIST {
        return None;
    }
    let entry = |eight: &[u8]| i64::from_be_bytes([eight[0], eight[1], eight[2], eight[3], eight[4], eight[5], eight[6], eight[7]]);
    let list: Vec<i64> = given.list.chunks_exact(8).map(entry).collect();
    let listed = if tail == Tail::Blocks || tail == Tail::Entries { units } else { 0 };
    let texted = if tail == Tail::Text { 10 * units } else { 0 };
    if list[listed..].iter().any(|&entry| entry != 0) || given.text.len() != texted {
        return None;
    }
    let of_entry = |&value: &i64| if tail == Tail::Blocks { block_text(value) } else { bits::of_number(value as u64, 24) };
    let entries: Option<String> = list[..listed].iter().map(of_entry).collect();
    entries.map(|text| format!("{}{}", text, bits::of_bytes(given.text)))
}
