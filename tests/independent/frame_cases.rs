//! Cases for frames: streams of sound frames of every length, every damage that a refusal of document 02 (Ticket 1) names, damage on the
//! way, noise; and frames to write.
//!
//! A case is made from the seed and its number alone. The longest frames and every number of field bits go by the number.

use crate::bits;
use crate::case::Case;
use crate::frame::{self, Stream, Write, FEWEST, FLAG, FROM_SENSOR, MOST_FIELD, TO_SENSOR};
use crate::frame_case::{Reading, Writing};
use crate::frame_totals::{ANYWHERE, DOUBLED, DROPPED, NOISE, ONES, ONE_DATA, ONE_SENT, OTHER_CHECK, SENT_ACCEPTED, TWO_DATA, TWO_SENT};
use crate::line_cases::random_bits;
use crate::rng::Rng;

const FRAME: u64 = 5;
const FRAME_WRITE: u64 = 6;

/// What was done to the frames of a case.
type Made = Vec<&'static str>;

/// How many bits a short field has: often none, or so few that no reader of fields takes it.
fn few_bits(rng: &mut Rng) -> usize {
    let bits = match rng.below(8) {
        0 | 1 => 0,
        2..=4 => rng.between(1, 7),
        5 => 8 * rng.between(1, 10),
        _ => rng.between(8, 80),
    };
    bits as usize
}

/// A field of so many bits: any, or all alike, or mostly ones, or the bits of flags.
fn field(rng: &mut Rng, bits: usize) -> String {
    let mut text = match rng.below(8) {
        0 => "1".repeat(bits),
        1 => "0".repeat(bits),
        2 => format!("{}{}", random_bits(rng, bits.min(8)), FLAG.repeat(bits / 8)),
        3 => (0..bits).map(|_| if rng.once_in(8) { '0' } else { '1' }).collect(),
        _ => random_bits(rng, bits),
    };
    text.truncate(bits);
    text
}

/// An address, any control and a field of so many bits.
fn unchecked(rng: &mut Rng, bits: usize) -> String {
    let address = *rng.pick(&[TO_SENSOR, FROM_SENSOR]);
    format!("{}{:08b}{}", address, rng.below(256), field(rng, bits))
}

/// A sound frame, without flags and before zeros are inserted.
fn sound(rng: &mut Rng, bits: usize) -> String {
    frame::with_check(&unchecked(rng, bits))
}

/// A sound frame that ends in five ones, so that a zero is inserted right before the closing flag.
fn ending_in_ones(rng: &mut Rng) -> String {
    loop {
        let bits = few_bits(rng);
        let text = sound(rng, bits);
        if frame::with_zeros(&text).ends_with("111110") {
            return text;
        }
    }
}

// ---- damage

/// The text with so many neighbouring bits turned over, the first of them any.
fn turned_over(rng: &mut Rng, text: &str, width: usize) -> String {
    let from = rng.index(text.len() + 1 - width) + 1;
    let span = (from, from + width - 1);
    let mut changed = text.to_string();
    bits::paste(&mut changed, &[span], &frame::turned(bits::span(text, span.0, span.1)));
    changed
}

/// One or two neighbouring bits turned over on the way.
fn turned_sent(rng: &mut Rng, text: &str, width: usize, made: &mut Made) -> String {
    let sent = frame::with_zeros(text);
    let changed = turned_over(rng, &sent, width);
    made.push(if width == 1 { ONE_SENT } else { TWO_SENT });
    if accepted(&sent, &changed, width) {
        made.push(SENT_ACCEPTED);
    }
    changed
}

/// Whether a frame is read from bits of which one or two were turned over. A new flag can make another sound frame. So can two bits where
/// another number of zeros is then taken out. Else there is none:
/// - The divisor has the factor x + 1, so the number of ones is even in all sound frames, or odd in all. One bit turned over changes that,
///   and zeros make no difference to it.
/// - Two neighbouring bits, with the zeros that they move, lie within sixteen bits, so the remainder is another.
fn accepted(sent: &str, changed: &str, width: usize) -> bool {
    let text = format!("{}{}{}", FLAG, changed, FLAG);
    let look = frame::look(&Stream::whole(&text), 0);
    let same_flag = look.behind.as_ref().is_some_and(|behind| behind.sent == changed);
    let bits = |sent: &str| frame::without_zeros(sent).map(|text| text.len());
    let never = same_flag && (width == 1 || bits(sent) == bits(changed));
    assert!(!never || look.frame.is_none(), "{} for {} is a frame", changed, sent);
    look.frame.is_some()
}

/// One or two neighbouring bits turned over before zeros are inserted: never a frame.
fn turned_data(rng: &mut Rng, text: &str, width: usize, made: &mut Made) -> String {
    let changed = turned_over(rng, text, width);
    assert!(!frame::is_right(&changed), "{} for {} has its check sequence", changed, text);
    made.push(if width == 1 { ONE_DATA } else { TWO_DATA });
    frame::with_zeros(&changed)
}

fn dropped(rng: &mut Rng, text: &str) -> String {
    let at = rng.index(text.len());
    format!("{}{}", &text[..at], &text[at + 1..])
}

fn doubled(rng: &mut Rng, text: &str) -> String {
    let at = rng.index(text.len());
    format!("{}{}", &text[..at + 1], &text[at..])
}

/// A run of ones between the sent bits, or in place of some of them.
fn with_ones(rng: &mut Rng, text: &str, made: &mut Made) -> String {
    made.push(ONES);
    let mut sent = frame::with_zeros(text);
    let from = rng.index(sent.len());
    let to = if rng.once_in(2) { from } else { rng.between(from as u64, sent.len() as u64) as usize };
    let ones = *rng.pick(&[5, 6, 6, 7, 8, 15, 20]);
    sent.replace_range(from..to.min(from + ones), &"1".repeat(ones));
    sent
}

/// Five ones right before the closing flag, with no zero of their own.
fn without_last_zero(rng: &mut Rng) -> String {
    let mut sent = frame::with_zeros(&ending_in_ones(rng));
    sent.pop();
    sent
}

/// Neither address: a near one, one of bits turned round, or any.
fn other_address(rng: &mut Rng, text: &str) -> String {
    let any = random_bits(rng, 8);
    let address = *rng.pick(&["11000001", "10000001", "01000000", "00000011", "00000001", "00000000", "11111111", &any, &any]);
    format!("{}{}", address, &text[8..])
}

/// Fewer bits than a frame has, some with their check sequence.
fn short(rng: &mut Rng) -> String {
    let bits = rng.between(1, FEWEST as u64 - 1) as usize;
    let any = random_bits(rng, bits);
    let begun = if rng.once_in(2) { format!("{}{}", rng.pick(&[TO_SENSOR, FROM_SENSOR]), any) } else { any };
    if bits >= frame::CHECK && rng.once_in(2) {
        frame::with_check(&begun[..bits - frame::CHECK])
    } else {
        begun[..bits].to_string()
    }
}

/// Five ones or more, and few bits around them.
fn short_ones(rng: &mut Rng, made: &mut Made) -> String {
    made.push(ONES);
    let (before, behind) = (rng.index(9), rng.index(9));
    let ones = *rng.pick(&[5, 6, 7, 8, 9]);
    format!("{}{}{}", random_bits(rng, before), "1".repeat(ones), random_bits(rng, behind))
}

/// A check sequence as a misreading of the rules would give it, or any.
fn other_check(rng: &mut Rng, made: &mut Made) -> String {
    let bits = few_bits(rng);
    let text = unchecked(rng, bits);
    let right = frame::check_sequence(&text);
    let check = match rng.below(7) {
        0 => frame::turned(&right),
        1 => right.chars().rev().collect(),
        2 => format!("{}{}", &right[8..], &right[..8]),
        // a register of zeros at the start
        3 => frame::check_sequence(&format!("{}{}", frame::turned(&text[..16]), &text[16..])),
        // over the bits as sent
        4 => frame::check_sequence(&frame::with_zeros(&text)),
        // without the address
        5 => frame::check_sequence(&text[8..]),
        _ => random_bits(rng, frame::CHECK),
    };
    made.push(OTHER_CHECK);
    format!("{}{}", text, check)
}

fn noise(rng: &mut Rng, made: &mut Made) -> String {
    made.push(NOISE);
    let bits = rng.between(1, 80) as usize;
    let text = random_bits(rng, bits);
    if rng.once_in(2) {
        frame::with_zeros(&text)
    } else {
        text
    }
}

/// What is sent between two flags with one thing wrong, sometimes two, so that the order of the refusals shows.
fn damaged(rng: &mut Rng, made: &mut Made) -> String {
    let bits = few_bits(rng);
    let text = sound(rng, bits);
    match rng.below(16) {
        0 => turned_sent(rng, &text, 1, made),
        1 => turned_sent(rng, &text, 2, made),
        2 => turned_data(rng, &text, 1, made),
        3 => turned_data(rng, &text, 2, made),
        4 => {
            made.push(DROPPED);
            dropped(rng, &frame::with_zeros(&text))
        }
        5 => {
            made.push(DOUBLED);
            doubled(rng, &frame::with_zeros(&text))
        }
        6 => with_ones(rng, &text, made),
        7 => without_last_zero(rng),
        8 | 9 => frame::with_zeros(&frame::with_check(&other_address(rng, &text[..text.len() - frame::CHECK]))),
        10 => frame::with_zeros(&other_address(rng, &text)),
        11 | 12 => frame::with_zeros(&short(rng)),
        13 => short_ones(rng, made),
        14 => frame::with_zeros(&other_check(rng, made)),
        _ => noise(rng, made),
    }
}

// ---- streams

/// One flag or several.
fn flags(rng: &mut Rng) -> String {
    let many = if rng.below(5) < 3 { 1 } else { rng.between(2, 4) };
    FLAG.repeat(many as usize)
}

/// What stands behind a frame: mostly one flag, which the next one shares, or several; or two that share a zero.
fn flags_behind(rng: &mut Rng) -> String {
    if rng.once_in(16) {
        format!("{}{}", FLAG, &FLAG[1..])
    } else {
        flags(rng)
    }
}

/// What stands behind the last flag: mostly nothing.
fn tail(rng: &mut Rng) -> String {
    let bits = rng.between(1, 7) as usize;
    match rng.below(8) {
        0 => "0".repeat(bits),
        1 => "1".repeat(bits),
        2 => random_bits(rng, bits),
        3 => random_bits(rng, 6 * bits),
        _ => String::new(),
    }
}

/// A stream from what is sent between its flags. Its first flag begins at any bit of a byte.
fn joined(rng: &mut Rng, pieces: &[String]) -> (String, u64) {
    let before = if rng.once_in(4) { 0 } else { rng.index(16) };
    let mut text = random_bits(rng, before);
    text.push_str(&flags(rng));
    for piece in pieces {
        text.push_str(piece);
        text.push_str(&flags_behind(rng));
    }
    text.push_str(&tail(rng));
    (text, before as u64)
}

/// One to three bits of the whole stream turned over, dropped or doubled, those of flags too.
fn shaken(rng: &mut Rng, text: &str, made: &mut Made) -> String {
    made.push(ANYWHERE);
    let mut changed = text.to_string();
    for _ in 0..rng.between(1, 3) {
        changed = match rng.below(4) {
            0 => dropped(rng, &changed),
            1 => doubled(rng, &changed),
            _ => turned_over(rng, &changed, 1),
        };
    }
    changed
}

/// The places of all flags, those that share a zero too; place 0 where there is none.
fn flag_places(text: &str) -> Vec<u64> {
    let flags: Vec<u64> = (0..text.len()).filter(|&place| text[place..].starts_with(FLAG)).map(|place| place as u64).collect();
    if flags.is_empty() {
        vec![0]
    } else {
        flags
    }
}

/// The stream cut inside a flag or right before it, and the place of the flag in front of it; at times its own.
fn cut(rng: &mut Rng, flags: &[u64]) -> (u64, u64) {
    let flag = *rng.pick(flags);
    let count = flag + rng.below(8);
    let before = flags.iter().rev().find(|&&other| other + 8 <= flag);
    match before {
        Some(&place) if rng.below(4) > 0 => (count, place),
        _ => (count, flag),
    }
}

/// A count or a place that is out of the ordinary. The bits are those lent.
fn odd_look(rng: &mut Rng, count: u64, bits: u64, flag: u64) -> (u64, u64) {
    let any = rng.next();
    match rng.below(12) {
        0 => (count, count),
        1 => (count, count + 1),
        2 => (count, count + rng.below(100)),
        3 => (count, count.saturating_sub(rng.between(1, 7))),
        4 => (count, *rng.pick(&[u64::MAX, 1 << 63, u64::MAX - 7, any])),
        5 => (count, flag + rng.pick(&[1u64 << 32, 1 << 61, 1 << 63])),
        6 | 7 => (bits + 1, flag),
        8 => (bits + rng.between(1, 100), flag),
        9 => (*rng.pick(&[u64::MAX, 1 << 63, 1 << 32, u64::MAX - 7]), flag),
        10 => (bits + 1, rng.between(0, bits + 9)),
        _ => (bits, flag),
    }
}

/// Beside the walk: some flags, a place inside, counts that cut, and one out of the ordinary.
fn looks(rng: &mut Rng, text: &str, bits: u64, some: usize) -> Vec<(u64, u64)> {
    let count = text.len() as u64;
    let flags = flag_places(text);
    let mut looks: Vec<(u64, u64)> = (0..some).map(|_| (count, *rng.pick(&flags))).collect();
    looks.push((count, rng.between(0, count)));
    looks.extend((0..some.min(2)).map(|_| cut(rng, &flags)));
    let flag = *rng.pick(&flags);
    looks.push(odd_look(rng, count, bits, flag));
    looks
}

/// Bits behind the count: zeros or others to the end of the byte, more bytes, or flags.
fn lent(rng: &mut Rng, text: &str) -> Vec<u8> {
    let behind = match rng.below(4) {
        0 => String::new(),
        1 => random_bits(rng, (8 - text.len() % 8) % 8),
        2 => random_bits(rng, 30),
        _ => FLAG.repeat(2),
    };
    bits::to_bytes(&format!("{}{}", text, behind))
}

/// Sizes of field buffers around the size that a field needs.
fn rooms(rng: &mut Rng, field_bits: usize) -> Vec<u64> {
    let needed = (field_bits as u64 + 7) / 8;
    let more = needed + rng.below(20);
    let mut one = || *rng.pick(&[needed.saturating_sub(1), needed.saturating_sub(1), needed, needed, needed + 1, more, 0, 251]);
    let first = one();
    vec![first, one()]
}

/// A stream of those pieces, looked at from some of its flags beside the walk. The field bits are those of one of its frames.
fn case_of(rng: &mut Rng, pieces: &[String], some: usize, field_bits: usize, mut made: Made) -> Case {
    let (mut text, place) = joined(rng, pieces);
    if some > 1 && rng.once_in(8) {
        text = shaken(rng, &text, &mut made);
    }
    let bytes = lent(rng, &text);
    let looks = looks(rng, &text, 8 * bytes.len() as u64, some);
    let mut rooms = rooms(rng, field_bits);
    rooms.truncate(if rng.once_in(3) { 2 } else { 1 });
    Case::Frames(Reading { length: bytes.len() as u64, count: text.len() as u64, place, bytes, rooms, looks, made })
}

/// Up to five short frames, sound or damaged.
fn short_stream(rng: &mut Rng) -> Case {
    let (mut made, mut pieces) = (Made::new(), Vec::new());
    let mut field_bits = 0;
    for _ in 0..rng.index(6) {
        let bits = few_bits(rng);
        pieces.push(match rng.below(12) {
            0..=3 => {
                field_bits = bits;
                frame::with_zeros(&sound(rng, bits))
            }
            4 => frame::with_zeros(&ending_in_ones(rng)),
            _ => damaged(rng, &mut made),
        });
    }
    case_of(rng, &pieces, 3, field_bits, made)
}

/// The stream with that number. Every number of field bits comes in turn; 2041 bits and more between the flags are too many.
pub fn stream(seed: u64, number: u64) -> Case {
    let rng = &mut Rng::new(seed, FRAME, number);
    let most = MOST_FIELD as usize;
    let field_bits = match number % 16 {
        0 | 8 => (number / 8) as usize % (most + 1),
        4 => most,
        12 => most + *rng.pick(&[1, 1, 2, 8, 30]),
        _ => return short_stream(rng),
    };
    let piece = frame::with_zeros(&sound(rng, field_bits));
    case_of(rng, &[piece], 1, field_bits, Made::new())
}

// ---- writing

/// A frame to write, with other bits and bytes behind its field. The count is set later.
fn asked(rng: &mut Rng, place: u64, bits: usize) -> Write {
    let mut text = field(rng, bits);
    let behind = match rng.below(4) {
        0 => 0,
        1 => rng.index(40),
        _ => (8 - bits % 8) % 8,
    };
    text.push_str(&random_bits(rng, behind));
    let bytes = bits::to_bytes(&text);
    let from_sensor = if rng.once_in(2) { 0 } else { *rng.pick(&[1, 1, 2, 256, 1 << 31, u32::MAX]) };
    let control = rng.below(256) as u8;
    let write = Write { count: 0, place, from_sensor, control, field_length: bytes.len() as u64, field: bytes, field_count: bits as u64 };
    if bits < 100 && rng.once_in(6) {
        with_last_zero(write)
    } else {
        write
    }
}

/// The frame with the next control for which a zero is inserted right before the closing flag, if there is one.
fn with_last_zero(mut write: Write) -> Write {
    for _ in 0..=255 {
        if write.text().ends_with(&format!("111110{}", FLAG)) {
            break;
        }
        write.control = write.control.wrapping_add(1);
    }
    write
}

/// Frames from the place on, each on the closing flag of the one before; and where the last one ends.
fn chain(rng: &mut Rng, from: u64, fields: &[usize]) -> (Vec<Write>, u64) {
    let mut place = from;
    let mut writes = Vec::new();
    for &bits in fields {
        let write = asked(rng, place, bits);
        place += write.needed() as u64 - FLAG.len() as u64;
        writes.push(write);
    }
    (writes, place + FLAG.len() as u64)
}

/// The field's bytes and count with more than 2008 bits, all there.
fn lengthen(rng: &mut Rng, write: &mut Write) {
    let length = 252 + rng.index(8);
    write.field = rng.bytes(length);
    write.field_length = length as u64;
    write.field_count = if rng.once_in(2) { MOST_FIELD + 1 } else { rng.between(MOST_FIELD + 1, 8 * length as u64) };
}

/// A count over so many bits.
fn over(rng: &mut Rng, bits: u64) -> u64 {
    let near = bits + rng.between(1, 40);
    *rng.pick(&[bits + 1, bits + 1, near, 1 << 32, 1 << 63, u64::MAX])
}

/// One thing that a refusal of the writer names, or two. The bits are those lent.
fn spoil(rng: &mut Rng, write: &mut Write, bits: u64) {
    let field_bits = 8 * write.field.len() as u64;
    match rng.below(10) {
        0 => write.count = over(rng, bits),
        1 | 2 => write.field_count = over(rng, field_bits),
        3 => write.field_count = MOST_FIELD.max(field_bits) + rng.between(1, 9),
        4 | 5 => lengthen(rng, write),
        6 | 7 => write.place = write.count,
        8 => write.place = write.count + rng.between(1, 20),
        _ => write.place = *rng.pick(&[u64::MAX, u64::MAX - 48, 1 << 63, (1 << 61) + write.place, (1 << 32) + write.place]),
    }
    if rng.once_in(6) {
        write.count = over(rng, bits);
    }
}

/// Where the stream ends, if its last frame ends there.
fn count_around(rng: &mut Rng, end: u64) -> u64 {
    match rng.below(8) {
        0..=2 => end - 1,
        3 => end - rng.between(2, 40),
        4 => end + rng.below(60),
        _ => end,
    }
}

/// The bytes before a frame is written: all alike, or anything at all.
fn before(rng: &mut Rng, length: usize) -> Vec<u8> {
    match rng.below(6) {
        0 => vec![0; length],
        1 => vec![0xFF; length],
        2 => vec![0x7E; length],
        _ => rng.bytes(length),
    }
}

/// The writing with that number: one frame of each number of field bits in turn, one with too many, or some short ones.
pub fn write(seed: u64, number: u64) -> Case {
    let rng = &mut Rng::new(seed, FRAME_WRITE, number);
    let place = if rng.once_in(16) { 0 } else { rng.below(24) };
    let fields: Vec<usize> = match number % 8 {
        0 | 4 => vec![(number / 4 % (MOST_FIELD + 1)) as usize],
        1 => vec![MOST_FIELD as usize],
        _ => (0..rng.between(2, 5)).map(|_| few_bits(rng)).collect(),
    };
    let (mut writes, end) = chain(rng, place, &fields);
    let count = match number % 8 {
        0 | 4 => end + rng.below(20),
        1 => end + 80,
        _ => count_around(rng, end),
    };
    let length = (count as usize + 7) / 8 + *rng.pick(&[0, 0, 1, 9]);
    for write in &mut writes {
        write.count = count;
        match number % 8 {
            0 | 4 => (),
            1 => lengthen(rng, write),
            _ if rng.below(5) < 2 => spoil(rng, write, 8 * length as u64),
            _ => (),
        }
    }
    let rooms = rooms(rng, fields[fields.len() - 1]);
    Case::FrameWrites(Writing { bytes: before(rng, length), length: length as u64, count, place, rooms, writes })
}
