//! What a run met of the forms of the altitude: counts of what Ticket 5 of document 02 says, and the quotas that a full run has to reach.
//!
//! Every count comes from the case and from this program's own answer, not from what a case was meant to be.

use crate::altitude_cases::FORMS;
use crate::case::Write;
use crate::index::{Done, ENTERED, LEFT, REPLACED};
use crate::layout::Layout;
use crate::line::{self, Look};
use crate::report::{self, Report, ALTITUDE, CARRIED};
use crate::tally::{Row, Tally};

/// The least altitude in two's complement, whose bits are minus zero in document 01's form. A carried report may have the same bits.
const LEAST: i64 = -2048;
const SAME_BITS: i64 = 2048;

pub const KINDS: &[u64] = &[101, 102, 103, 104, 105, 106, 107, 108, 109, 110, 111, 112, 113, 114, 115];
/// The kinds that may have an altitude.
const WITH_ALTITUDE: &[u64] = &[106, 110];
/// The kinds that have a file number.
pub const WITH_FILE: &[u64] = &[110, 111, 112, 113, 114, 115];
/// The numbers of two's complement that are counted each for itself.
const NUMBERS: &[u64] = &[1, 2, 255, 256, 65_536, 0x8000_0000, 0xFFFF_FFFF];

const READING: &[Row] = &[
    ("form 0, altitude below zero read", &[], 1_000),
    ("form 0, altitude zero or above read", &[], 1_000),
    ("form 0, report without an altitude read", &[], 1_000),
    ("form 0, refusal 9", &[], 1_000),
    ("complement, altitude below zero read", &[], 1_000),
    ("complement, altitude zero or above read", &[], 1_000),
    ("complement, altitude -2048 read", &[], 1_000),
    ("complement, report without an altitude read", &[], 1_000),
    ("complement, carried bits 100000000000 read", &[], 1_000),
    ("complement, kind N read", KINDS, 1_000),
    ("complement, kind N read, altitude below zero", WITH_ALTITUDE, 1_000),
    ("complement, kind N read, altitude -2048", WITH_ALTITUDE, 1_000),
    ("complement, kind N read, carried bits", WITH_ALTITUDE, 1_000),
    ("complement, reading, refusal N", &[13, 2, 14, 1, 3, 4, 5, 6, 7, 8], 100),
    ("complement, the end", &[], 1_000),
    ("form N, altitude below zero read", NUMBERS, 1_000),
    ("form above 1, altitude below zero read", &[], 1_000),
];

const WRITING: &[Row] = &[
    ("form 0, altitude below zero written", &[], 1_000),
    ("form 0, altitude zero or above written", &[], 1_000),
    ("form 0, writing 11 for the altitude alone", &[], 1_000),
    ("form 0, writing 11 for the altitude alone, -2048", &[], 1_000),
    ("complement, altitude below zero written", &[], 1_000),
    ("complement, altitude zero or above written", &[], 1_000),
    ("complement, altitude -2048 written", &[], 1_000),
    ("complement, report without an altitude written", &[], 1_000),
    ("complement, writing 11 for the altitude alone, -2049 or less", &[], 1_000),
    ("complement, writing 11 for the altitude alone, -2049", &[], 1_000),
    ("complement, writing 11 for the altitude alone, 2048", &[], 1_000),
    ("complement, writing 11 for the altitude alone, 2048 or more", &[], 1_000),
    ("complement, writing 11 for the altitude alone, right in its low N bits", &[16, 32], 100),
    ("complement, writing, refusal N", &[2, 14, 1, 11, 10], 100),
    ("form N, altitude below zero written", NUMBERS, 100),
    ("form above 1, altitude below zero written", &[], 1_000),
];

const INDEX: &[Row] = &[
    ("form 0, calls that enter", &[], 1_000),
    ("form 0, left for refusal 9", &[], 1_000),
    ("complement, calls that enter", &[], 1_000),
    ("complement, kind N entered or replaced", WITH_FILE, 1_000),
    ("complement, altitude -2048 entered", &[], 1_000),
    ("complement, altitude -2048 replaced", &[], 1_000),
    ("complement, altitude -2048, file number 0 or a kind without one, left", &[], 1_000),
    ("complement, left, refusal N", &[13, 2, 14, 1, 3, 4, 5, 6, 7, 8], 100),
    ("complement, refused with N", &[50, 51], 1_000),
    ("form N, altitude -2048 entered or replaced", NUMBERS, 100),
    ("form above 1, altitude -2048 entered or replaced", &[], 1_000),
];

#[derive(Default)]
pub struct AltitudeTotals {
    lines: Tally,
    index: Tally,
    reads: u64,
    writes: u64,
    enters: u64,
}

/// The form itself, of those that are counted each for itself, and that it is above 1.
fn add_number(tally: &mut Tally, form: u32, [one, above]: [&'static str; 2]) {
    if FORMS.contains(&form) {
        tally.add_of(one, u64::from(form));
    }
    tally.add_if(form > 1, above);
}

/// The low bits as a number in two's complement.
fn low_bits(value: i64, width: usize) -> i64 {
    let whole = format!("{:064b}", value);
    let low = &whole[64 - width..];
    let sign = &low[..1];
    i64::from_str_radix(&low[1..], 2).expect("bits spell a number") - if sign == "1" { 1 << (width - 1) } else { 0 }
}

impl AltitudeTotals {
    // ---- reading

    pub fn look(&mut self, form: u32, look: &Look) {
        self.reads += 1;
        let tally = &mut self.lines;
        match (&look.report, form, look.refusal) {
            (Some(report), 0, _) => tally.add(match report.item(ALTITUDE) {
                Some(i64::MIN..=-1) => "form 0, altitude below zero read",
                Some(_) => "form 0, altitude zero or above read",
                None => "form 0, report without an altitude read",
            }),
            (Some(report), _, _) => self.read_in_complement(form, report),
            (None, 0, refusal) => tally.add_if(refusal == 9, "form 0, refusal 9"),
            (None, _, 0) => tally.add("complement, the end"),
            (None, _, 9) => panic!("9 is never given in two's complement"),
            (None, _, refusal) => tally.add_of("complement, reading, refusal N", u64::from(refusal)),
        }
    }

    fn read_in_complement(&mut self, form: u32, report: &Report) {
        let (tally, kind) = (&mut self.lines, u64::from(report.kind));
        tally.add_of("complement, kind N read", kind);
        match report.item(ALTITUDE) {
            Some(altitude) if altitude < 0 => {
                tally.add("complement, altitude below zero read");
                tally.add_of("complement, kind N read, altitude below zero", kind);
                if altitude == LEAST {
                    tally.add("complement, altitude -2048 read");
                    tally.add_of("complement, kind N read, altitude -2048", kind);
                }
                add_number(tally, form, ["form N, altitude below zero read", "form above 1, altitude below zero read"]);
            }
            Some(_) => tally.add("complement, altitude zero or above read"),
            None => tally.add("complement, report without an altitude read"),
        }
        if let Some(carried) = report.item(CARRIED) {
            tally.add_of("complement, kind N read, carried bits", kind);
            tally.add_if(carried == SAME_BITS, "complement, carried bits 100000000000 read");
        }
    }

    // ---- writing

    pub fn write(&mut self, layouts: &[Layout], write: &Write, refusal: u32) {
        self.writes += 1;
        let items = line::items(&write.items).unwrap_or_default();
        let altitude = items.iter().find(|item| item.0 == u64::from(ALTITUDE)).map(|item| item.1 as i64);
        if write.form != 0 && refusal != 0 {
            self.lines.add_of("complement, writing, refusal N", u64::from(refusal));
        }
        match (refusal, altitude) {
            (0, _) => self.written(write.form, altitude),
            (11, Some(altitude)) if taken_with_zero(layouts, write.kind, &items) => self.refused(write.form, altitude),
            _ => (),
        }
    }

    fn written(&mut self, form: u32, altitude: Option<i64>) {
        let tally = &mut self.lines;
        match (form, altitude) {
            (0, Some(i64::MIN..=-1)) => tally.add("form 0, altitude below zero written"),
            (0, Some(_)) => tally.add("form 0, altitude zero or above written"),
            (0, None) => (),
            (_, Some(altitude @ i64::MIN..=-1)) => {
                tally.add("complement, altitude below zero written");
                tally.add_if(altitude == LEAST, "complement, altitude -2048 written");
                add_number(tally, form, ["form N, altitude below zero written", "form above 1, altitude below zero written"]);
            }
            (_, Some(_)) => tally.add("complement, altitude zero or above written"),
            (_, None) => tally.add("complement, report without an altitude written"),
        }
    }

    /// With 11, for the altitude alone.
    fn refused(&mut self, form: u32, altitude: i64) {
        let tally = &mut self.lines;
        if form == 0 {
            tally.add("form 0, writing 11 for the altitude alone");
            return tally.add_if(altitude == LEAST, "form 0, writing 11 for the altitude alone, -2048");
        }
        tally.add(match altitude < 0 {
            true => "complement, writing 11 for the altitude alone, -2049 or less",
            false => "complement, writing 11 for the altitude alone, 2048 or more",
        });
        tally.add_if(altitude == -2049, "complement, writing 11 for the altitude alone, -2049");
        tally.add_if(altitude == 2048, "complement, writing 11 for the altitude alone, 2048");
        for width in [16, 32] {
            if (-2048..=2047).contains(&low_bits(altitude, width)) {
                tally.add_of("complement, writing 11 for the altitude alone, right in its low N bits", width as u64);
            }
        }
    }

    // ---- the index

    pub fn enter(&mut self, form: u32, look: &Look, (done, _): Done) {
        self.enters += 1;
        let tally = &mut self.index;
        if form == 0 {
            tally.add("form 0, calls that enter");
            return tally.add_if(done == LEFT && look.refusal == 9, "form 0, left for refusal 9");
        }
        tally.add("complement, calls that enter");
        let least = look.report.as_ref().is_some_and(|report| report.item(ALTITUDE) == Some(LEAST));
        match done {
            ENTERED | REPLACED => {
                tally.add_of("complement, kind N entered or replaced", u64::from(look.kind));
                tally.add_if(least && done == ENTERED, "complement, altitude -2048 entered");
                tally.add_if(least && done == REPLACED, "complement, altitude -2048 replaced");
                if least {
                    add_number(tally, form, ["form N, altitude -2048 entered or replaced", "form above 1, altitude -2048 entered or replaced"]);
                }
            }
            LEFT if look.refusal != 0 => tally.add_of("complement, left, refusal N", u64::from(look.refusal)),
            LEFT => tally.add_if(least, "complement, altitude -2048, file number 0 or a kind without one, left"),
            _ => tally.add_of("complement, refused with N", u64::from(done)),
        }
    }

    // ---- the quotas

    /// How many places were looked at, how many reports were to be written, and how many calls entered.
    pub fn all(&self) -> (u64, u64, u64) {
        (self.reads, self.writes, self.enters)
    }

    /// Prints the counts of lines, and answers what is below its quota.
    pub fn report_lines(&self) -> Vec<String> {
        self.lines.report("altitudes: ", &[READING, WRITING].concat(), &[])
    }

    /// Prints the counts of the index, and answers what is below its quota.
    pub fn report_index(&self) -> Vec<String> {
        self.index.report("altitudes: index, ", INDEX, &[])
    }
}

/// Whether the record with altitude 0 instead is taken, so that the refusal speaks of the altitude alone.
fn taken_with_zero(layouts: &[Layout], kind: u32, items: &[(u64, u64)]) -> bool {
    let with_zero: Vec<(u64, u64)> = items.iter().map(|&item| if item.0 == u64::from(ALTITUDE) { (item.0, 0) } else { item }).collect();
    report::write(layouts, kind, &with_zero).is_some()
}
