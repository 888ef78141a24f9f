//! What a run met of frames: counts of what Ticket 1 of document 02 and its readings say, and the quotas that a full run has to reach.
//!
//! Every count but those of damages comes from the answer and the bits themselves, not from what a case was meant to be.

use crate::bits;
use crate::frame::{self, Behind, Frame, Look, Stream, Write, CHECK, FEWEST, FLAG, FROM_SENSOR, TO_SENSOR};
use crate::line::END;
use crate::tally::{Row, Tally};

const READING: &[Row] = &[
    ("streams", &[], 20_000),
    ("streams that end inside a byte", &[], 1_000),
    ("streams with bits behind the count", &[], 1_000),
    ("places in streams", &[], 0),
    ("frames read", &[], 1_000),
    ("frames to the sensor", &[], 1_000),
    ("frames from the sensor", &[], 1_000),
    ("frames without a field", &[], 1_000),
    ("frames of N bits", &[33, 34, 35, 36, 37, 38, 39, 2040], 1_000),
    ("frames whose field is not whole bytes", &[], 1_000),
    ("frames whose field has the bits of a flag", &[], 1_000),
    ("frames with inserted zeros", &[], 1_000),
    ("frames with a zero inserted right before the closing flag", &[], 1_000),
    ("frames that begin at bit N of a byte", &[0, 1, 2, 3, 4, 5, 6, 7], 1_000),
    ("frames behind several flags", &[], 1_000),
    ("frames on a shared flag", &[], 1_000),
    ("ends at one flag", &[], 1_000),
    ("ends at several flags", &[], 1_000),
    ("field buffers a byte too small", &[], 1_000),
    ("field buffers more than a byte too small", &[], 1_000),
    ("field buffers just large enough", &[], 1_000),
    ("field buffers larger than the field", &[], 1_000),
    ("field buffers for a field of no bits", &[], 1_000),
    ("field buffers without a frame", &[], 1_000),
];

const CUT_41: &str = "reading 41, cut after N bits of a flag";
const CUT_45: &str = "reading 45, cut after N bits of a flag";
const REFUSALS: &[Row] = &[
    ("reading a frame, refusal N", &[44, 41, 45, 40, 43, 42], 1_000),
    ("reading 44, count over the lent bits", &[], 1_000),
    ("reading 44, count over the lent bits, and a flag at the place", &[], 1_000),
    ("reading 44, place at the count", &[], 1_000),
    ("reading 44, place beyond the count", &[], 1_000),
    ("reading 44, fewer than eight bits left", &[], 1_000),
    ("reading 44, a flag that ends behind the count", &[], 1_000),
    ("reading 44, no flag at a place inside", &[], 1_000),
    ("reading 41, six ones or more before the closing flag", &[], 1_000),
    ("reading 41, five ones right before the closing flag", &[], 1_000),
    ("reading 41, six ones or more and no closing flag", &[], 1_000),
    ("reading 41, five ones at the end and no closing flag", &[], 1_000),
    ("reading 41, flags that share a zero", &[], 1_000),
    ("reading 41, too short too", &[], 1_000),
    (CUT_41, &[6, 7], 1_000),
    (CUT_45, &[0, 1, 2, 3, 4, 5], 1_000),
    ("reading 45, too short too", &[], 1_000),
    ("reading 45, fewer than eight bits behind the last flag", &[], 1_000),
    ("reading 45, only zeros behind the last flag", &[], 1_000),
    ("reading 40, under 32 bits", &[], 1_000),
    ("reading 40, over 2040 bits", &[], 1_000),
    ("reading 40, with its check sequence", &[], 1_000),
    ("reading 40, without its check sequence", &[], 1_000),
    ("reading 40, neither address too", &[], 1_000),
    ("reading 43, neither address too", &[], 1_000),
    ("reading 43, one of the addresses", &[], 1_000),
    ("reading behind several flags, refusal N", &[41, 45, 40, 43, 42], 1_000),
    ("refusals on a shared flag", &[], 1_000),
];

/// What was done to a frame or a stream; counted as it is made.
pub const ONE_SENT: &str = "one sent bit turned over";
pub const TWO_SENT: &str = "two neighbouring sent bits turned over";
pub const SENT_ACCEPTED: &str = "one or two sent bits turned over, and a frame nevertheless";
pub const ONE_DATA: &str = "one bit turned over before zeros are inserted";
pub const TWO_DATA: &str = "two neighbouring bits turned over before zeros are inserted";
pub const DROPPED: &str = "a sent bit dropped";
pub const DOUBLED: &str = "a sent bit doubled";
pub const ONES: &str = "a run of five ones or more put in";
pub const OTHER_CHECK: &str = "a check sequence worked out otherwise";
pub const NOISE: &str = "any bits between flags";
pub const ANYWHERE: &str = "streams with damage anywhere, flags too";

const DAMAGES: &[Row] = &[
    (ONE_SENT, &[], 1_000),
    (TWO_SENT, &[], 1_000),
    (SENT_ACCEPTED, &[], 0),
    (ONE_DATA, &[], 1_000),
    (TWO_DATA, &[], 1_000),
    (DROPPED, &[], 1_000),
    (DOUBLED, &[], 1_000),
    (ONES, &[], 1_000),
    (OTHER_CHECK, &[], 1_000),
    (NOISE, &[], 1_000),
    (ANYWHERE, &[], 1_000),
];

const WRITING: &[Row] = &[
    ("writes of frames", &[], 10_000),
    ("frames written", &[], 1_000),
    ("frames written to the sensor", &[], 1_000),
    ("frames written from the sensor", &[], 1_000),
    ("frames written from the sensor, by a number above 1", &[], 1_000),
    ("frames written without a field", &[], 1_000),
    ("frames written with a field that is not whole bytes", &[], 1_000),
    ("frames written with other bits behind the field", &[], 1_000),
    ("frames written with inserted zeros", &[], 1_000),
    ("frames written with a zero inserted right before the closing flag", &[], 1_000),
    ("frames written into a stream that ends inside a byte", &[], 1_000),
    ("frames written from bit N of a byte on", &[0, 1, 2, 3, 4, 5, 6, 7], 1_000),
    ("frames written that end before bit N of a byte", &[0, 1, 2, 3, 4, 5, 6, 7], 1_000),
    ("frames written on from a closing flag", &[], 1_000),
    ("frames written with no bit of room left", &[], 1_000),
    ("frames written and read back", &[], 1_000),
    ("writing a frame, refusal N", &[44, 40, 46], 1_000),
    ("writing 44, count over the bytes to write into", &[], 1_000),
    ("writing 44, count over the field's bytes", &[], 1_000),
    ("writing 44, field too long too", &[], 1_000),
    ("writing 44, no room too", &[], 1_000),
    ("writing 40, no room too", &[], 1_000),
    ("writing 40, room enough", &[], 1_000),
    ("writing 46, one bit too few", &[], 1_000),
    ("writing 46, place at the count", &[], 1_000),
    ("writing 46, place beyond the count", &[], 1_000),
];

/// Counts of different numbers.
const CONTROLS_READ: Row = ("different controls read", &[], 256);
const FIELDS_READ: Row = ("different numbers of field bits read", &[], 2_009);
const CONTROLS_WRITTEN: Row = ("different controls written", &[], 256);
const FIELDS_WRITTEN: Row = ("different numbers of field bits written", &[], 2_009);
const DIFFERENT: &[Row] = &[CONTROLS_READ, FIELDS_READ, CONTROLS_WRITTEN, FIELDS_WRITTEN];

#[derive(Default)]
pub struct FrameTotals {
    tally: Tally,
    /// bits that one call goes through
    bits: u64,
}

impl FrameTotals {
    // ---- reading

    pub fn stream(&mut self, stream: &Stream, made: &[&'static str]) {
        self.tally.add("streams");
        self.tally.add_if(stream.count % 8 != 0, "streams that end inside a byte");
        self.tally.add_if(stream.count < stream.all.len() as u64, "streams with bits behind the count");
        made.iter().for_each(|name| self.tally.add(name));
    }

    /// An answer about a place; on_closing where it is the place that the answer before gave.
    pub fn look(&mut self, stream: &Stream, place: u64, look: &Look, on_closing: bool) {
        self.tally.add("places in streams");
        if look.refusal != 0 {
            self.tally.add_of("reading a frame, refusal N", u64::from(look.refusal));
        }
        let behind = match &look.behind {
            Some(behind) => behind,
            None => return self.no_flag(stream, place),
        };
        self.bits += (FLAG.len() * behind.flags + behind.sent.len()) as u64;
        let several = behind.flags > 1;
        if look.kind == END {
            return self.tally.add(if several { "ends at several flags" } else { "ends at one flag" });
        }
        match &look.frame {
            Some(frame) => self.frame(frame, behind.sent, look.place),
            None => self.refused(stream, look.refusal, behind),
        }
        match (several, on_closing, look.refusal) {
            (true, _, 0) => self.tally.add("frames behind several flags"),
            (true, _, refusal) => self.tally.add_of("reading behind several flags, refusal N", u64::from(refusal)),
            (false, true, 0) => self.tally.add("frames on a shared flag"),
            (false, true, _) => self.tally.add("refusals on a shared flag"),
            _ => (),
        }
    }

    fn frame(&mut self, frame: &Frame, sent: &str, closing: u64) {
        let bits = frame.field.len() as u64;
        let opening = closing - (sent.len() + FLAG.len()) as u64;
        self.tally.add("frames read");
        self.tally.add(if frame.from_sensor { "frames from the sensor" } else { "frames to the sensor" });
        self.tally.add_if(bits == 0, "frames without a field");
        self.tally.add_of("frames of N bits", bits + FEWEST as u64);
        self.tally.add_if(bits % 8 != 0, "frames whose field is not whole bytes");
        self.tally.add_if(frame.field.contains(FLAG), "frames whose field has the bits of a flag");
        self.tally.add_if(sent.contains("111110"), "frames with inserted zeros");
        self.tally.add_if(sent.ends_with("111110"), "frames with a zero inserted right before the closing flag");
        self.tally.add_of("frames that begin at bit N of a byte", opening % 8);
        self.tally.differs(CONTROLS_READ, u64::from(frame.control));
        self.tally.differs(FIELDS_READ, bits);
    }

    /// Refusal 44.
    fn no_flag(&mut self, stream: &Stream, place: u64) {
        let flag = stream.all.get(place as usize..).is_some_and(|rest| rest.starts_with(FLAG));
        if frame::over(stream.count, stream.length) {
            self.tally.add("reading 44, count over the lent bits");
            self.tally.add_if(flag, "reading 44, count over the lent bits, and a flag at the place");
        } else if place == stream.count {
            self.tally.add("reading 44, place at the count");
        } else if place > stream.count {
            self.tally.add("reading 44, place beyond the count");
        } else if stream.count - place < FLAG.len() as u64 {
            self.tally.add("reading 44, fewer than eight bits left");
            self.tally.add_if(flag, "reading 44, a flag that ends behind the count");
        } else {
            self.tally.add("reading 44, no flag at a place inside");
        }
    }

    /// Refusals other than 44.
    fn refused(&mut self, stream: &Stream, refusal: u32, behind: &Behind) {
        let sent = behind.sent;
        match refusal {
            41 => self.zero_missing(sent, behind.closed),
            45 => {
                self.tally.add_if(sent.len() < FEWEST, "reading 45, too short too");
                self.tally.add_if(sent.len() < FLAG.len(), "reading 45, fewer than eight bits behind the last flag");
                self.tally.add_if(bits::ones(sent) == 0, "reading 45, only zeros behind the last flag");
            }
            40 => self.wrong_length(sent),
            43 if has_address(sent) => self.tally.add("reading 43, one of the addresses"),
            43 => self.tally.add("reading 43, neither address too"),
            _ => (),
        }
        if !behind.closed {
            self.cut(stream, refusal, sent);
        }
    }

    fn zero_missing(&mut self, sent: &str, closed: bool) {
        self.tally.add(match (sent.contains("111111"), closed) {
            (true, true) => "reading 41, six ones or more before the closing flag",
            (false, true) => "reading 41, five ones right before the closing flag",
            (true, false) => "reading 41, six ones or more and no closing flag",
            (false, false) => "reading 41, five ones at the end and no closing flag",
        });
        self.tally.add_if(sent.starts_with("1111110") || (closed && sent == "111111"), "reading 41, flags that share a zero");
        self.tally.add_if(closed && sent.len() < FEWEST, "reading 41, too short too");
    }

    fn wrong_length(&mut self, sent: &str) {
        let text = frame::without_zeros(sent).expect("41 comes before 40");
        self.tally.add(if text.len() < FEWEST { "reading 40, under 32 bits" } else { "reading 40, over 2040 bits" });
        self.tally.add_if(text.len() >= FLAG.len() && !has_address(sent), "reading 40, neither address too");
        if text.len() >= CHECK {
            self.tally.add(if frame::is_right(&text) { "reading 40, with its check sequence" } else { "reading 40, without its check sequence" });
        }
    }

    /// No flag closes: how much of one stands before the count, where its other bits stand behind it.
    fn cut(&mut self, stream: &Stream, refusal: u32, sent: &str) {
        let count = stream.count as usize;
        for bits in 0..FLAG.len().min(sent.len() + 1) {
            let from = count - bits;
            let (due, name) = if bits < 6 { (45, CUT_45) } else { (41, CUT_41) };
            if refusal == due && stream.all[from..].starts_with(FLAG) {
                self.tally.add_of(name, bits as u64);
            }
        }
    }

    /// A buffer of that many bytes for the field.
    pub fn room(&mut self, look: &Look, needed: u64, room: u64) {
        self.tally.add(match &look.frame {
            None => "field buffers without a frame",
            Some(_) if needed == 0 => "field buffers for a field of no bits",
            Some(_) if room == needed => "field buffers just large enough",
            Some(_) if room > needed => "field buffers larger than the field",
            Some(_) if room + 1 == needed => "field buffers a byte too small",
            Some(_) => "field buffers more than a byte too small",
        });
    }

    // ---- writing

    /// A writing and its answer; on_closing where its place is that of the last written closing flag.
    pub fn write(&mut self, length: u64, write: &Write, (refusal, place): (u32, u64), on_closing: bool) {
        self.tally.add("writes of frames");
        let against = write.against(length);
        match refusal {
            0 => self.written(write, place + FLAG.len() as u64, on_closing),
            44 => {
                self.tally.add_if(against.count_over, "writing 44, count over the bytes to write into");
                self.tally.add_if(against.field_over, "writing 44, count over the field's bytes");
                self.tally.add_if(against.too_long, "writing 44, field too long too");
                self.tally.add_if(against.no_room(), "writing 44, no room too");
            }
            40 => self.tally.add(if against.no_room() { "writing 40, no room too" } else { "writing 40, room enough" }),
            _ => {
                self.tally.add_if(against.missing == 1, "writing 46, one bit too few");
                self.tally.add_if(write.place == write.count, "writing 46, place at the count");
                self.tally.add_if(write.place > write.count, "writing 46, place beyond the count");
            }
        }
        if refusal != 0 {
            self.tally.add_of("writing a frame, refusal N", u64::from(refusal));
        }
    }

    fn written(&mut self, write: &Write, end: u64, on_closing: bool) {
        let count = write.field_count;
        self.tally.add("frames written");
        self.tally.add(if write.from_sensor == 0 { "frames written to the sensor" } else { "frames written from the sensor" });
        self.tally.add_if(write.from_sensor > 1, "frames written from the sensor, by a number above 1");
        self.tally.add_if(count == 0, "frames written without a field");
        self.tally.add_if(count % 8 != 0, "frames written with a field that is not whole bytes");
        let others = &bits::of_bytes(&write.field)[count as usize..];
        self.tally.add_if(bits::ones(others) > 0, "frames written with other bits behind the field");
        let sent = write.text();
        let sent = &sent[FLAG.len()..sent.len() - FLAG.len()];
        self.tally.add_if(sent.contains("111110"), "frames written with inserted zeros");
        self.tally.add_if(sent.ends_with("111110"), "frames written with a zero inserted right before the closing flag");
        self.tally.add_if(write.count % 8 != 0, "frames written into a stream that ends inside a byte");
        self.tally.add_of("frames written from bit N of a byte on", write.place % 8);
        self.tally.add_of("frames written that end before bit N of a byte", end % 8);
        self.tally.add_if(on_closing, "frames written on from a closing flag");
        self.tally.add_if(end == write.count, "frames written with no bit of room left");
        self.tally.differs(CONTROLS_WRITTEN, u64::from(write.control));
        self.tally.differs(FIELDS_WRITTEN, count);
    }

    pub fn read_back(&mut self) {
        self.tally.add("frames written and read back");
    }

    // ---- the quotas

    /// How many places were looked at, and how many writings tried.
    pub fn both(&self) -> (u64, u64) {
        (self.tally.counted("places in streams", 0), self.tally.counted("writes of frames", 0))
    }

    /// Prints the counts, and answers what is below its quota.
    pub fn report(&self) -> Vec<String> {
        let short = self.tally.report("", &[READING, REFUSALS, DAMAGES, WRITING].concat(), DIFFERENT);
        println!("bytes of streams that each call of a look goes through: {}", self.bits / 8);
        short
    }
}

/// Whether the bits begin with one of the addresses. Neither is changed by inserted zeros.
fn has_address(sent: &str) -> bool {
    sent.starts_with(TO_SENSOR) || sent.starts_with(FROM_SENSOR)
}
