//! What a run met of ELMs of one segment: counts of what Ticket 2 of document 02 says, and the quotas that a full run has to reach.
//!
//! Every count comes from the case and from this program's own answer, not from what a case was meant to be.

use crate::bits;
use crate::field::{self, Field, Given, Record, LENGTH, SENSOR};
use crate::line;
use crate::line_cases::item_bytes;
use crate::totals::say;
use std::collections::BTreeMap;

const BARE: &str = "bare";
const RELAYED: &str = "relayed";
const BOTH: &[&str] = &[BARE, RELAYED];

/// A name, and how the field comes that it speaks of.
type Row = (&'static str, &'static [&'static str]);

const READING: &[Row] = &[
    ("42 of Length 0, read", BOTH),
    ("42 of Length 0, to the sensor, refusal 25", BOTH),
    ("42 of Length 0, another count, refusal 26", BOTH),
    ("42 of Length 0, another count and a spare bit, refusal 26", BOTH),
    ("42 of Length 0, a spare bit, refusal 27", BOTH),
    ("42 of Length 0 but for one bit of a type, refused", BOTH),
    ("42 of Length 0 but for one bit of Length, refusal 26", BOTH),
    ("22 of Length 0, 128 bits, refusal 28", &[BARE]),
    ("22 of Length 0, another count, refusal 26", &[BARE]),
];

const WRITING: &[Row] = &[
    ("42 of Length 0, written", BOTH),
    ("42 of Length 0, written before bytes that stay", BOTH),
    ("42 of Length 0, text not of 10 bytes, writing 30", BOTH),
    ("42 of Length 0, too little room, writing 31", BOTH),
    ("22 of Length 0, text of 10 bytes, writing 30", &[BARE]),
];

/// The quota of each.
const QUOTA: u64 = 1_000;

/// The fixed part of a 42 of Length 0: type, address, spare bits 33-36, Length 37-40. A point is a bit that may be either.
const HEAD_42: &str = "01000010........................00000000";
/// The same in a relay, whose type and sensor come first.
const RELAYED_42: &str = "00000011........01000010........................00000000";
/// The fixed part of a 22 of Length 0: type, address, number, P, EXP, spare bits 41-44, Length 45-48.
const HEAD_22: &str = "00100010................................00000000";
const SEGMENT: usize = 80;

/// The numbers of the bits that are not the head's; nothing where the text is shorter.
fn unlike(head: &str, text: &str) -> Option<Vec<usize>> {
    let start = text.get(..head.len())?;
    let pairs = head.chars().zip(start.chars()).zip(1..);
    Some(pairs.filter(|((wanted, bit), _)| *wanted != '.' && wanted != bit).map(|(_, number)| number).collect())
}

/// Whether the writer takes the record where there is room.
fn taken(fields: &[Field], given: &Given) -> bool {
    field::write(fields, &mut [0; 251], given).0 == 0
}

#[derive(Default)]
pub struct SegmentTotals {
    tally: BTreeMap<(&'static str, &'static str), u64>,
}

impl SegmentTotals {
    fn add(&mut self, name: &'static str, how: &'static str) {
        *self.tally.entry((name, how)).or_insert(0) += 1;
    }

    // ---- reading

    pub fn field(&mut self, bytes: &[u8], count: u64, from_sensor: bool, read: &Result<Record, u32>) {
        let refusal = read.as_ref().err().copied().unwrap_or(0);
        if matches!(refusal, 20 | 21 | 22) {
            return;
        }
        let all = bits::of_bytes(bytes);
        let text = &all[..count as usize];
        for (head, how) in [(HEAD_42, BARE), (RELAYED_42, RELAYED)] {
            self.downlink(head, how, text, from_sensor, refusal);
        }
        if !from_sensor {
            self.uplink(text, refusal);
        }
    }

    fn downlink(&mut self, head: &str, how: &'static str, text: &str, from_sensor: bool, refusal: u32) {
        let bits = match unlike(head, text) {
            Some(bits) => bits,
            None => return,
        };
        let right_count = text.len() == head.len() + SEGMENT;
        let only_spares = bits.iter().all(|bit| (4..8).contains(&(head.len() - bit)));
        let of_length = |bit: usize| head.len() - bit < 4;
        let name = match (from_sensor, right_count, refusal, &bits[..]) {
            (true, true, 0, []) => "42 of Length 0, read",
            (false, true, 25, []) => "42 of Length 0, to the sensor, refusal 25",
            (true, false, 26, []) => "42 of Length 0, another count, refusal 26",
            (true, false, 26, _) if only_spares => "42 of Length 0, another count and a spare bit, refusal 26",
            (true, true, 27, [_, ..]) if only_spares => "42 of Length 0, a spare bit, refusal 27",
            (true, true, 26, &[bit]) if of_length(bit) => "42 of Length 0 but for one bit of Length, refusal 26",
            (true, true, 1.., &[bit]) if !of_length(bit) && !only_spares => "42 of Length 0 but for one bit of a type, refused",
            _ => return,
        };
        self.add(name, how);
    }

    /// A field to the sensor. Its number and EXP have to be in use, so that 28 speaks of Length alone.
    fn uplink(&mut self, text: &str, refusal: u32) {
        if unlike(HEAD_22, text) != Some(Vec::new()) {
            return;
        }
        let used = bits::ones(bits::span(text, 33, 36)) > 0 && bits::ones(bits::span(text, 38, 40)) > 0;
        let right_count = text.len() == HEAD_22.len() + SEGMENT;
        match (right_count, refusal) {
            (true, 28) if used => self.add("22 of Length 0, 128 bits, refusal 28", BARE),
            (false, 26) => self.add("22 of Length 0, another count, refusal 26", BARE),
            _ => (),
        }
    }

    // ---- writing

    pub fn write(&mut self, fields: &[Field], room: usize, given: &Given, answer: (u32, u64)) {
        let items = line::items(given.items).unwrap_or_default();
        if !items.contains(&(u64::from(LENGTH), 0)) {
            return;
        }
        let relayed = items.iter().any(|item| item.0 == u64::from(SENSOR));
        match (given.kind, relayed) {
            (0x42, false) => self.write_downlink(fields, BARE, room, given, answer),
            (0x42, true) => self.write_downlink(fields, RELAYED, room, given, answer),
            (0x22, false) => self.write_uplink(fields, &items, given, answer.0),
            _ => (),
        }
    }

    fn write_downlink(&mut self, fields: &[Field], how: &'static str, room: usize, given: &Given, (refusal, bits): (u32, u64)) {
        let needed = if how == BARE { 15 } else { 17 };
        let with_ten = Given { kind: given.kind, items: given.items, list: given.list, text: &[0; 10] };
        match refusal {
            0 if bits == 8 * needed as u64 => {
                self.add("42 of Length 0, written", how);
                if room > needed {
                    self.add("42 of Length 0, written before bytes that stay", how);
                }
            }
            30 if given.text.len() != 10 && taken(fields, &with_ten) => self.add("42 of Length 0, text not of 10 bytes, writing 30", how),
            31 if room < needed => self.add("42 of Length 0, too little room, writing 31", how),
            _ => (),
        }
    }

    /// The same record with Length 1 and two segments has to be taken, so that 30 speaks of Length alone.
    fn write_uplink(&mut self, fields: &[Field], items: &[(u64, u64)], given: &Given, refusal: u32) {
        let longer: Vec<(u64, u64)> = items.iter().map(|&item| if item.0 == u64::from(LENGTH) { (item.0, 1) } else { item }).collect();
        let bytes = item_bytes(&longer);
        let with_twenty = Given { kind: given.kind, items: &bytes, list: given.list, text: &[0; 20] };
        if refusal == 30 && given.text.len() == 10 && taken(fields, &with_twenty) {
            self.add("22 of Length 0, text of 10 bytes, writing 30", BARE);
        }
    }

    // ---- the quotas

    /// Prints the counts, and answers what is below its quota.
    pub fn report(&self) -> Vec<String> {
        let mut short = Vec::new();
        for &(name, ways) in [READING, WRITING].concat().iter() {
            for &how in ways {
                let count = self.tally.get(&(name, how)).copied().unwrap_or(0);
                say(&mut short, format!("{}, {}", name, how), count, QUOTA);
            }
        }
        short
    }
}
