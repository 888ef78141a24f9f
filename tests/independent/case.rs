//! A case: what is handed to the library through driver.c, how it is sent, and what should come back.
//!
//! The form of the messages is told in driver.c; the two files keep step.

use crate::answer::{hex, Answer};
use crate::field::{self, Field, Given};
use crate::frame_case::{Reading, Writing};
use crate::index_case::Indexing;
use crate::layout::Layout;
use crate::line::{self, Lent, Look};
use crate::link_case::Linking;
use crate::manners_case::Checking;
use crate::report;
use crate::totals::Totals;

/// The layouts of reports and fields.
pub struct Tables {
    /// with the altitude in document 01's form
    pub reports: Vec<Layout>,
    /// the same with the altitude in two's complement
    in_complement: Vec<Layout>,
    pub fields: Vec<Field>,
}

impl Tables {
    pub fn new() -> Tables {
        Tables { reports: report::layouts(report::SIGNED), in_complement: report::layouts(report::COMPLEMENT), fields: field::fields() }
    }

    /// The reports in the form that a number of C means: 0 is document 01's form, any other number is two's complement.
    pub fn of(&self, form: u32) -> &[Layout] {
        if form == 0 {
            &self.reports
        } else {
            &self.in_complement
        }
    }
}

pub struct Write {
    pub place: u64,
    pub form: u32,
    pub kind: u32,
    pub items: Vec<u8>,
}

impl Write {
    fn put(&self, message: &mut Vec<u8>) {
        message.extend_from_slice(&self.place.to_be_bytes());
        message.extend_from_slice(&self.form.to_be_bytes());
        message.extend_from_slice(&self.kind.to_be_bytes());
        put_bytes(message, &self.items);
    }
}

pub enum Case {
    /// A line is walked in a form, with a link number, and then looked at from the places. Items are asked of every step-th report.
    Line { bytes: Vec<u8>, form: u32, link: u32, step: u32, places: Vec<u64> },
    /// Places of a line are looked at with several link numbers.
    Links(Linking),
    /// Reports are written into a line one after the other.
    Write { bytes: Vec<u8>, writes: Vec<Write> },
    /// A field is read. Items are asked where it is accepted or ask is set; entries 0 to 31 and those at the indices.
    Field { bytes: Vec<u8>, count: u64, from_sensor: u32, ask: bool, indices: Vec<u64> },
    /// A field is written.
    FieldWrite { bytes: Vec<u8>, kind: u32, items: Vec<u8>, list: Vec<u8>, text: Vec<u8> },
    /// A stream of frames is read.
    Frames(Reading),
    /// Frames are written.
    FrameWrites(Writing),
    /// A table is lent to the calls of the index.
    Index(Indexing),
    /// The breaches of a line are listed.
    Manners(Checking),
}

const ITEMS: std::ops::RangeInclusive<u32> = 0..=40;
const FIELD_ITEMS: std::ops::RangeInclusive<u32> = 200..=240;
/// Also asked: numbers of no item that are equal to one in their low bits.
const NO_ITEMS: [u32; 4] = [68, 265, 457, 0x8000_0004];
const LAST_INDEX: u64 = 31;
/// Where there is no report, items are asked this many times more seldom.
const SELDOM: u64 = 8;

/// How many items are asked where any are.
pub fn items_asked() -> usize {
    ITEMS.chain(NO_ITEMS).count()
}

pub fn put_bytes(message: &mut Vec<u8>, bytes: &[u8]) {
    message.extend_from_slice(&(bytes.len() as u32).to_be_bytes());
    message.extend_from_slice(bytes);
}

/// What a buffer holds before a call.
pub fn pattern(length: u64) -> Vec<u8> {
    (0..length).map(|index| ((165 + 7 * index) % 256) as u8).collect()
}

pub fn put_numbers(message: &mut Vec<u8>, numbers: &[u64]) {
    message.extend_from_slice(&(numbers.len() as u32).to_be_bytes());
    for number in numbers {
        message.extend_from_slice(&number.to_be_bytes());
    }
}

impl Case {
    /// The message to the driver.
    pub fn message(&self) -> Vec<u8> {
        let mut message = vec![self.tag()];
        match self {
            Case::Line { bytes, form, link, step, places } => {
                put_bytes(&mut message, bytes);
                message.extend_from_slice(&form.to_be_bytes());
                message.extend_from_slice(&link.to_be_bytes());
                message.extend_from_slice(&step.to_be_bytes());
                put_numbers(&mut message, places);
            }
            Case::Links(linking) => linking.put(&mut message),
            Case::Write { bytes, writes } => {
                put_bytes(&mut message, bytes);
                message.extend_from_slice(&(writes.len() as u32).to_be_bytes());
                writes.iter().for_each(|write| write.put(&mut message));
            }
            Case::Field { bytes, count, from_sensor, ask, indices } => {
                put_bytes(&mut message, bytes);
                message.extend_from_slice(&count.to_be_bytes());
                message.extend_from_slice(&from_sensor.to_be_bytes());
                message.push(u8::from(*ask));
                put_numbers(&mut message, indices);
            }
            Case::FieldWrite { bytes, kind, items, list, text } => {
                put_bytes(&mut message, bytes);
                message.extend_from_slice(&kind.to_be_bytes());
                put_bytes(&mut message, items);
                put_bytes(&mut message, list);
                put_bytes(&mut message, text);
            }
            Case::Frames(reading) => reading.put(&mut message),
            Case::FrameWrites(writing) => writing.put(&mut message),
            Case::Index(indexing) => indexing.put(&mut message),
            Case::Manners(checking) => checking.put(&mut message),
        }
        message
    }

    fn tag(&self) -> u8 {
        match self {
            Case::Line { .. } => b'L',
            Case::Links(_) => b'P',
            Case::Write { .. } => b'W',
            Case::Field { .. } => b'F',
            Case::FieldWrite { .. } => b'G',
            Case::Frames(_) => b'S',
            Case::FrameWrites(_) => b'T',
            Case::Index(_) => b'I',
            Case::Manners(_) => b'M',
        }
    }

    /// What should come back; counts what is met on the way.
    pub fn expect(&self, tables: &Tables, totals: &mut Totals, naming: bool) -> Answer {
        let mut answer = Answer::new(naming);
        match self {
            Case::Line { bytes, form, link, step, places } => {
                let words = line::words(bytes);
                let line = Lent { form: *form, layouts: tables.of(*form), link: *link, length: bytes.len(), words: &words };
                expect_line(&mut answer, totals, &line, *step, places);
            }
            Case::Links(linking) => linking.expect(tables, &mut answer, totals),
            Case::Write { bytes, writes } => expect_writes(tables, &mut answer, totals, bytes, writes),
            Case::Field { bytes, count, from_sensor, ask, indices } => {
                let read = field::read(&tables.fields, bytes, *count, *from_sensor != 0);
                totals.field(&read);
                totals.segments.field(bytes, *count, *from_sensor != 0, &read);
                expect_field(&mut answer, bytes.len(), &read, *ask, indices);
            }
            Case::FieldWrite { bytes, kind, items, list, text } => {
                let given = Given { kind: *kind, items, list, text };
                expect_field_write(tables, &mut answer, totals, bytes, &given);
            }
            Case::Frames(reading) => reading.expect(&mut answer, &mut totals.frames),
            Case::FrameWrites(writing) => writing.expect(&mut answer, &mut totals.frames),
            Case::Index(indexing) => indexing.expect(tables, &mut answer, totals),
            Case::Manners(checking) => checking.expect(tables, &mut answer, totals),
        }
        answer.u8("bytes that are only read stay (1)", 0, 0, 1);
        answer
    }

    /// What has to hold between the answers that came, whatever this program expects.
    pub fn check(&self, came: &[u8], totals: &mut Totals) -> Result<(), String> {
        match self {
            Case::Links(linking) => linking.check(came, &mut totals.links),
            _ => Ok(()),
        }
    }

    /// The words of a line from a place on, as numbers, or the bits of a stream, since long ones in hexadecimal are hard to count through.
    pub fn near(&self, place: u64) -> String {
        match self {
            Case::Line { bytes, .. } => words_near(bytes, place),
            Case::Links(linking) => words_near(&linking.bytes, place),
            Case::Frames(reading) => reading.near(place),
            Case::Manners(checking) => words_near(&checking.bytes, place),
            _ => String::new(),
        }
    }

    /// The case in words, for a difference.
    pub fn shown(&self) -> String {
        match self {
            Case::Line { bytes, form, link, places, .. } => {
                format!("line in form {} on link {}, {} bytes {}; places {:?}", form, link, bytes.len(), hex(bytes), places)
            }
            Case::Links(linking) => linking.shown(),
            Case::Write { bytes, writes } => {
                let one = |write: &Write| {
                    let what = format!("kind {} items {}", write.kind, hex(&write.items));
                    format!("; at place {} in form {} {}", write.place, write.form, what)
                };
                let all: String = writes.iter().map(one).collect();
                format!("writing into {} bytes {}{}", bytes.len(), hex(bytes), all)
            }
            Case::Field { bytes, count, from_sensor, .. } => {
                format!("field, {} bytes {}, {} bits, from_sensor {}", bytes.len(), hex(bytes), count, from_sensor)
            }
            Case::FieldWrite { bytes, kind, items, list, text } => {
                let slices = format!("items {} list {} text {}", hex(items), hex(list), hex(text));
                format!("writing a field of type {:02X} into {} bytes {}: {}", kind, bytes.len(), hex(bytes), slices)
            }
            Case::Frames(reading) => reading.shown(),
            Case::FrameWrites(writing) => writing.shown(),
            Case::Index(indexing) => indexing.shown(),
            Case::Manners(checking) => checking.shown(),
        }
    }
}

fn words_near(bytes: &[u8], place: u64) -> String {
    let words = line::words(bytes);
    let from = words.len().min(place as usize);
    let to = words.len().min(from + 24);
    format!("\nwords from place {}: {:?}", from, &words[from..to])
}

/// The walk from place 0, stopped at the end of the line or where a place gives itself back; then the other places.
fn expect_line(answer: &mut Answer, totals: &mut Totals, line: &Lent, step: u32, places: &[u64]) {
    totals.line(line);
    for (turn, (place, look)) in line.walk().enumerate() {
        expect_look(answer, &look, place, turn as u64, u64::from(step));
        totals.look(line, place, &look, true);
    }
    for (turn, &place) in places.iter().enumerate() {
        let look = line.look(place);
        expect_look(answer, &look, place, turn as u64, 1);
        totals.look(line, place, &look, false);
    }
}

pub fn expect_look(answer: &mut Answer, look: &Look, place: u64, turn: u64, step: u64) {
    answer.u32("siamrung_kind", place, look.kind);
    answer.u32("siamrung_refusal", place, look.refusal);
    answer.u64("siamrung_first", place, 0, look.first);
    answer.u64("siamrung_after", place, 0, look.after);
    answer.u64("siamrung_named", place, 0, look.named);
    answer.u32("siamrung_link", place, look.link);
    let values = look.report.as_ref().and_then(|report| report.values());
    answer.u32("siamrung_has_values", place, u32::from(values.is_some()));
    let (nmi, degrees, seconds) = values.unwrap_or((0, 0, 0));
    answer.u64("siamrung_nmi", place, 0, nmi);
    answer.u64("siamrung_degrees", place, 0, degrees);
    answer.u64("siamrung_seconds", place, 0, seconds);
    let every = if look.report.is_some() { step } else { SELDOM * step };
    let asked = turn % every == 0;
    answer.u8("items asked", place, 0, u8::from(asked));
    if !asked {
        return;
    }
    for number in ITEMS.chain(NO_ITEMS) {
        let item = look.report.as_ref().and_then(|report| report.item(number));
        answer.u8("siamrung_has", place, u64::from(number), u8::from(item.is_some()));
        answer.u64("siamrung_item", place, u64::from(number), item.unwrap_or(0) as u64);
    }
}

fn expect_writes(tables: &Tables, answer: &mut Answer, totals: &mut Totals, bytes: &[u8], writes: &[Write]) {
    let mut now = bytes.to_vec();
    for write in writes {
        let layouts = tables.of(write.form);
        let (refusal, after) = line::write(layouts, &mut now, write.place, write.kind, &write.items);
        totals.write(refusal);
        totals.altitudes.write(layouts, write, refusal);
        answer.u32("siamrung_write_refusal before", write.place, refusal);
        answer.u64("siamrung_write", write.place, 0, after);
        answer.u32("siamrung_write_refusal after", write.place, refusal);
        answer.all("bytes after siamrung_write", &now);
    }
}

fn expect_field(answer: &mut Answer, length: usize, read: &Result<field::Record, u32>, ask: bool, indices: &[u64]) {
    let record = read.as_ref().ok();
    answer.u32("siamrung_field_refusal", 0, read.as_ref().err().copied().unwrap_or(0));
    answer.u32("siamrung_field_type", 0, record.map_or(0, |r| r.kind));
    answer.u32("siamrung_field_inner_type", 0, record.map_or(0, |r| r.inner));
    let entries: &[i64] = record.map_or(&[], |r| &r.entries);
    answer.u64("siamrung_field_entries", 0, 0, entries.len() as u64);
    let (place, text) = record.and_then(|r| r.text).unwrap_or((length, 0));
    answer.u64("siamrung_field_text_place", 0, 0, place as u64);
    answer.u64("siamrung_field_text_length", 0, 0, text as u64);
    let asked = ask || record.is_some();
    answer.u8("items asked", 0, 0, u8::from(asked));
    if !asked {
        return;
    }
    for number in FIELD_ITEMS.chain(NO_ITEMS) {
        let item = record.and_then(|r| r.items.iter().find(|item| item.0 == number));
        answer.u8("siamrung_field_has", 0, u64::from(number), u8::from(item.is_some()));
        answer.u64("siamrung_field_item", 0, u64::from(number), item.map_or(0, |item| item.1 as u64));
    }
    for index in (0..=LAST_INDEX).chain(indices.iter().copied()) {
        let entry = if index < entries.len() as u64 { entries[index as usize] } else { 0 };
        answer.u64("siamrung_field_entry", 0, index, entry as u64);
    }
}

fn expect_field_write(tables: &Tables, answer: &mut Answer, totals: &mut Totals, bytes: &[u8], given: &Given) {
    let mut now = bytes.to_vec();
    let (refusal, bits) = field::write(&tables.fields, &mut now, given);
    totals.field_write(refusal);
    totals.segments.write(&tables.fields, bytes.len(), given, (refusal, bits));
    answer.u32("siamrung_field_write_refusal before", 0, refusal);
    answer.u64("siamrung_field_write", 0, 0, bits);
    answer.u32("siamrung_field_write_refusal after", 0, refusal);
    answer.all("bytes after siamrung_field_write", &now);
}
