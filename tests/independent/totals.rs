//! What a run of the program met: counts, and the quotas that a full run has to reach.

use crate::altitude_totals::AltitudeTotals;
use crate::field::{Record, RELAY};
use crate::frame_totals::FrameTotals;
use crate::index_totals::IndexTotals;
use crate::line::{is_link, Lent, Look, MOST_BYTES};
use crate::link_totals::LinkTotals;
use crate::manners_totals::MannersTotals;
use crate::segment_totals::SegmentTotals;
use std::collections::BTreeMap;

pub const LINE_REFUSALS: &[u32] = &[13, 2, 14, 1, 3, 4, 5, 6, 7, 8, 9];
pub const WRITE_REFUSALS: &[u32] = &[2, 14, 1, 11, 10];
pub const FIELD_REFUSALS: &[u32] = &[20, 21, 22, 23, 24, 25, 29, 26, 27, 28];
pub const FIELD_WRITE_REFUSALS: &[u32] = &[30, 31];

type Tally = BTreeMap<u32, u64>;

#[derive(Default)]
pub struct Totals {
    pub lines: u64,
    pub over_thousand: u64,
    pub full: u64,
    pub words: u64,
    pub runs: u64,
    pub places: u64,
    pub fields: u64,
    pub writes: u64,
    pub field_writes: u64,
    pub frames: FrameTotals,
    pub index: IndexTotals,
    pub segments: SegmentTotals,
    pub altitudes: AltitudeTotals,
    pub manners: MannersTotals,
    pub links: LinkTotals,
    /// reports by place in the list of layouts
    layouts: Tally,
    types: Tally,
    relayed: Tally,
    refused: Tally,
    write_refused: Tally,
    field_refused: Tally,
    field_write_refused: Tally,
}

fn add(tally: &mut Tally, key: u32) {
    *tally.entry(key).or_insert(0) += 1;
}

fn counted(tally: &Tally, key: u32) -> u64 {
    tally.get(&key).copied().unwrap_or(0)
}

/// Prints a count, and notes it where it is below its quota.
pub fn say(short: &mut Vec<String>, name: String, count: u64, quota: u64) {
    println!("{}: {}", name, count);
    if count < quota {
        short.push(format!("{}: {} of {}", name, count, quota));
    }
}

impl Totals {
    /// A line to walk. Its words are counted only if its link number is accepted.
    pub fn line(&mut self, line: &Lent) {
        self.lines += 1;
        if line.length <= MOST_BYTES && is_link(line.link) {
            self.words += (line.length / 2) as u64;
            self.over_thousand += u64::from(line.length / 2 > 1000);
            self.full += u64::from(line.length == MOST_BYTES);
        }
        self.links.line();
    }

    pub fn look(&mut self, line: &Lent, place: u64, look: &Look, walked: bool) {
        self.altitudes.look(line.form, look);
        self.links.look(line, place, look, walked);
        self.runs += u64::from(walked && look.is_run());
        self.places += u64::from(!walked);
        if let Some(report) = &look.report {
            add(&mut self.layouts, report.layout as u32);
        }
        if look.refusal != 0 {
            add(&mut self.refused, look.refusal);
        }
    }

    pub fn write(&mut self, refusal: u32) {
        self.writes += 1;
        add(&mut self.write_refused, refusal);
    }

    pub fn field(&mut self, read: &Result<Record, u32>) {
        self.fields += 1;
        match read {
            Ok(record) => {
                add(&mut self.types, record.kind);
                if record.kind == RELAY {
                    add(&mut self.relayed, record.inner);
                }
            }
            Err(refusal) => add(&mut self.field_refused, *refusal),
        }
    }

    pub fn field_write(&mut self, refusal: u32) {
        self.field_writes += 1;
        add(&mut self.field_write_refused, refusal);
    }

    /// Prints the counts of lines and fields, and answers what is below its quota.
    pub fn report(&self, tables: &crate::case::Tables) -> Vec<String> {
        let mut short = Vec::new();
        let mut say = |name: String, count: u64, quota: u64| say(&mut short, name, count, quota);
        say("lines".to_string(), self.lines, 20_000);
        say("lines over 1,000 words".to_string(), self.over_thousand, 1_000);
        say("lines of 32,768 words".to_string(), self.full, 20);
        say("words".to_string(), self.words, 0);
        say("runs".to_string(), self.runs, 0);
        say("places beside the walk".to_string(), self.places, 0);
        for (index, layout) in tables.reports.iter().enumerate() {
            say(format!("reports {}", layout.name), counted(&self.layouts, index as u32), 1_000);
        }
        say("fields".to_string(), self.fields, 50_000);
        for field in &tables.fields {
            let name = format!("fields {:02X} {}", field.head.number, field.head.name);
            say(name, counted(&self.types, field.head.number), 1_000);
        }
        say("fields 03 relay".to_string(), counted(&self.types, RELAY), 1_000);
        for field in tables.fields.iter().filter(|field| field.relayed()) {
            let name = format!("relayed {:02X} {}", field.head.number, field.head.name);
            say(name, counted(&self.relayed, field.head.number), 100);
        }
        self.report_refusals(&mut say);
        short
    }

    fn report_refusals(&self, say: &mut impl FnMut(String, u64, u64)) {
        let groups: [(&str, &[u32], &Tally); 4] = [
            ("reading a line", LINE_REFUSALS, &self.refused),
            ("writing a report", WRITE_REFUSALS, &self.write_refused),
            ("reading a field", FIELD_REFUSALS, &self.field_refused),
            ("writing a field", FIELD_WRITE_REFUSALS, &self.field_write_refused),
        ];
        for (what, numbers, tally) in groups {
            for &number in numbers {
                say(format!("{}, refusal {}", what, number), counted(tally, number), 100);
            }
        }
        say("writes of reports".to_string(), self.writes, 0);
        say("reports written".to_string(), counted(&self.write_refused, 0), 1_000);
        say("writes of fields".to_string(), self.field_writes, 0);
        say("fields written".to_string(), counted(&self.field_write_refused, 0), 1_000);
    }
}
