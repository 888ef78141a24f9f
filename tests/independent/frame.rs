//! Frames of the communications channel: reading, writing and every refusal, from document 02 (Ticket 1), sections 5.1 and 5.2 of document
//! 004 and siamrung.h.
//!
//! A stream is text. A flag is found by a search, zeros are inserted and taken out by a replacement, and the check sequence is what a long
//! division of the whole text leaves. A table by bytes works the check sequence out a second time, and both have to agree.

use crate::bits;
use crate::line::{END, REFUSED};

pub const FLAG: &str = "01111110";
pub const TO_SENSOR: &str = "11000000";
pub const FROM_SENSOR: &str = "10000000";
/// What siamrung_frame_kind answers for a frame.
pub const FRAME: u32 = 122;
/// How many bits stand between the flags, without inserted zeros.
pub const FEWEST: usize = 32;
pub const MOST: usize = 2040;
pub const MOST_FIELD: u64 = 2008;
/// The bits of a check sequence.
pub const CHECK: usize = 16;

// ---- the check sequence

/// x^16 + x^12 + x^5 + 1, the highest power first.
const DIVISOR: &str = "10001000000100001";
/// What the register holds behind a frame with a right check sequence.
const RIGHT: u16 = 0x1D0F;

pub fn turned(text: &str) -> String {
    text.chars().map(|bit| if bit == '0' { '1' } else { '0' }).collect()
}

/// What a division by the divisor on paper leaves: it is written under each first one that is left, and taken off without carry.
fn remainder(text: &str) -> String {
    let mut digits: Vec<bool> = text.chars().map(|bit| bit == '1').collect();
    let divisor: Vec<bool> = DIVISOR.chars().map(|bit| bit == '1').collect();
    let whole = digits.len() - CHECK;
    for from in 0..whole {
        if digits[from] {
            digits[from..].iter_mut().zip(&divisor).for_each(|(digit, by)| *digit = *digit != *by);
        }
    }
    digits[whole..].iter().map(|&digit| if digit { '1' } else { '0' }).collect()
}

/// The check sequence of a text. A register of ones at the start turns the first sixteen bits over.
pub fn check_sequence(text: &str) -> String {
    let dividend = format!("{}{}", text, "0".repeat(CHECK));
    let (first, rest) = dividend.split_at(CHECK);
    turned(&remainder(&format!("{}{}", turned(first), rest)))
}

pub fn with_check(text: &str) -> String {
    format!("{}{}", text, check_sequence(text))
}

/// What each byte times x^16 leaves, from what its half leaves.
const TABLE: [u16; 256] = table();

const fn table() -> [u16; 256] {
    let mut table = [0; 256];
    table[1] = 0x1021;
    let mut byte = 2;
    while byte < 256 {
        let half: u16 = table[byte / 2];
        let doubled = if half >= 0x8000 { (half - 0x8000) * 2 ^ table[1] } else { half * 2 };
        table[byte] = if byte % 2 == 1 { doubled ^ table[1] } else { doubled };
        byte += 1;
    }
    table
}

/// The register behind a text of at least sixteen bits. Zeros in front make whole bytes; they leave an empty register empty.
pub fn register(text: &str) -> u16 {
    let (first, rest) = text.split_at(CHECK);
    let zeros = "0".repeat((8 - text.len() % 8) % 8);
    let whole = format!("{}{}{}", zeros, turned(first), rest);
    bits::to_bytes(&whole).iter().fold(0, |register: u16, byte| {
        let [high, low] = register.to_be_bytes();
        u16::from_be_bytes([low, 0]) ^ TABLE[usize::from(high ^ byte)]
    })
}

/// Whether a text of at least sixteen bits ends with its check sequence.
pub fn is_right(text: &str) -> bool {
    let (before, check) = text.split_at(text.len() - CHECK);
    let right = check_sequence(before) == check;
    assert_eq!(right, register(text) == RIGHT, "division and table agree on {}", text);
    right
}

// ---- inserted zeros

pub fn with_zeros(text: &str) -> String {
    text.replace("11111", "111110")
}

/// Nothing where five ones have no zero behind them.
pub fn without_zeros(sent: &str) -> Option<String> {
    if sent.contains("111111") || sent.ends_with("11111") {
        None
    } else {
        Some(sent.replace("111110", "11111"))
    }
}

// ---- reading

/// A stream: all its bits, the number of bytes that is passed with them, and the count.
#[derive(Clone, Copy)]
pub struct Stream<'a> {
    pub all: &'a str,
    pub length: u64,
    pub count: u64,
}

impl<'a> Stream<'a> {
    /// A stream of whole bytes, all counted.
    pub fn whole(all: &'a str) -> Stream<'a> {
        Stream { all, length: (all.len() as u64 + 7) / 8, count: all.len() as u64 }
    }

    /// The bits from the place to the count; nothing where refusal 44 is due.
    fn from(&self, place: u64) -> Option<&'a str> {
        if over(self.count, self.length) {
            return None;
        }
        let counted = &self.all[..self.count as usize];
        counted.get(place as usize..).filter(|rest| rest.starts_with(FLAG))
    }
}

/// Whether there are more bits than so many bytes have.
pub fn over(count: u64, length: u64) -> bool {
    u128::from(count) > 8 * u128::from(length)
}

#[derive(Debug, PartialEq)]
pub struct Frame {
    pub from_sensor: bool,
    pub control: u8,
    pub field: String,
}

/// What follows the flags at a place.
pub struct Behind<'a> {
    /// how many flags there are, one behind the other
    pub flags: usize,
    /// the bits as sent, up to the closing flag or, without one, to the end
    pub sent: &'a str,
    pub closed: bool,
}

/// The answers of the calls about one place.
pub struct Look<'a> {
    pub kind: u32,
    pub refusal: u32,
    pub place: u64,
    pub frame: Option<Frame>,
    /// nothing where refusal 44 is given
    pub behind: Option<Behind<'a>>,
}

/// What stands at the place.
pub fn look<'a>(stream: &Stream<'a>, place: u64) -> Look<'a> {
    let rest = match stream.from(place) {
        Some(rest) => rest,
        None => return Look { kind: REFUSED, refusal: 44, place, frame: None, behind: None },
    };
    let bits = rest.trim_start_matches(FLAG);
    let (sent, closed) = bits.split_once(FLAG).map_or((bits, false), |(sent, _)| (sent, true));
    let behind = Some(Behind { flags: (rest.len() - bits.len()) / FLAG.len(), sent, closed });
    if bits.is_empty() {
        return Look { kind: END, refusal: 0, place: stream.count, frame: None, behind };
    }
    let closing = stream.count - (bits.len() - sent.len()) as u64;
    match open(sent, closed) {
        Ok(frame) => Look { kind: FRAME, refusal: 0, place: closing, frame: Some(frame), behind },
        Err(refusal @ (40 | 42 | 43)) => Look { kind: REFUSED, refusal, place: closing, frame: None, behind },
        Err(refusal) => Look { kind: REFUSED, refusal, place, frame: None, behind },
    }
}

/// The frame of the bits that were sent, or its refusal.
fn open(sent: &str, closed: bool) -> Result<Frame, u32> {
    let text = without_zeros(sent).ok_or(41u32)?;
    if !closed {
        return Err(45);
    }
    if !(FEWEST..=MOST).contains(&text.len()) {
        return Err(40);
    }
    if !is_right(&text) {
        return Err(43);
    }
    let from_sensor = match bits::span(&text, 1, 8) {
        TO_SENSOR => false,
        FROM_SENSOR => true,
        _ => return Err(42),
    };
    let control = bits::number(bits::span(&text, 9, 16)) as u8;
    Ok(Frame { from_sensor, control, field: text[16..text.len() - CHECK].to_string() })
}

// ---- writing

/// What a frame is written from, as it comes through the C call.
pub struct Write {
    pub count: u64,
    pub place: u64,
    pub from_sensor: u32,
    pub control: u8,
    pub field: Vec<u8>,
    /// the number of bytes that is passed with the field
    pub field_length: u64,
    pub field_count: u64,
}

/// The conditions of the refusals of a writing, each for itself.
pub struct Against {
    pub count_over: bool,
    pub field_over: bool,
    pub too_long: bool,
    /// how many bits of room are missing
    pub missing: u128,
}

impl Against {
    pub fn no_room(&self) -> bool {
        self.missing > 0
    }
}

impl Write {
    /// The frame that is asked for; nothing where its field is not there or is too long.
    fn frame(&self) -> Option<Frame> {
        if over(self.field_count, self.field_length) || self.field_count > MOST_FIELD {
            return None;
        }
        let field = bits::of_bytes(&self.field)[..self.field_count as usize].to_string();
        Some(Frame { from_sensor: self.from_sensor != 0, control: self.control, field })
    }

    /// The frame as sent; its field is there and not too long.
    pub fn text(&self) -> String {
        self.frame().expect("a frame that can be written").text()
    }

    /// The bits that the frame takes. A field that is not there or is too long is taken without inserted zeros.
    pub fn needed(&self) -> u128 {
        let least = 2 * FLAG.len() as u128 + FEWEST as u128 + u128::from(self.field_count);
        self.frame().map_or(least, |frame| frame.text().len() as u128)
    }

    pub fn against(&self, length: u64) -> Against {
        Against {
            count_over: over(self.count, length),
            field_over: over(self.field_count, self.field_length),
            too_long: self.field_count > MOST_FIELD,
            missing: (u128::from(self.place) + self.needed()).saturating_sub(u128::from(self.count)),
        }
    }
}

impl Frame {
    /// The frame as sent, with both flags.
    pub fn text(&self) -> String {
        let address = if self.from_sensor { FROM_SENSOR } else { TO_SENSOR };
        let text = with_check(&format!("{}{:08b}{}", address, self.control, self.field));
        format!("{}{}{}", FLAG, with_zeros(&text), FLAG)
    }
}

/// Writes the frame into the bytes; answers the refusal and the place of the closing flag, or the place given.
pub fn write(bytes: &mut Vec<u8>, length: u64, write: &Write) -> (u32, u64) {
    let against = write.against(length);
    if against.count_over || against.field_over {
        return (44, write.place);
    }
    let frame = match write.frame() {
        Some(frame) => frame,
        None => return (40, write.place),
    };
    if against.no_room() {
        return (46, write.place);
    }
    let text = frame.text();
    let after = write.place + text.len() as u64;
    let mut all = bits::of_bytes(bytes);
    all.replace_range(write.place as usize..after as usize, &text);
    *bytes = bits::to_bytes(&all);
    let stream = Stream { all: &all, length, count: write.count };
    assert_eq!(look(&stream, write.place).frame, Some(frame), "what is written is read");
    (0, after - FLAG.len() as u64)
}
