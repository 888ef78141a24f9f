//! Chosen cases of frames, each once: each refusal's smallest input beside its nearest neighbour; two known frames with every bit turned
//! over, at every count and from every place; every check sequence of one frame; every length at the limits; every room for a frame and
//! for a field; counts, places and lengths at the ends of what a number holds.

use crate::bits;
use crate::case::Case;
use crate::frame::{self, Frame, Stream, Write, CHECK, FLAG, FROM_SENSOR, MOST_FIELD, TO_SENSOR};
use crate::frame_case::{Reading, Writing};
use crate::run::Named;

/// Known frames without a field, as octets that are sent low bit first: to the sensor and from it.
pub const KNOWN: [[u8; 4]; 2] = [[0x03, 0x3F, 0x5B, 0xEC], [0x01, 0x73, 0x83, 0x57]];

/// A known frame as sent, without flags.
fn known(index: usize) -> String {
    frame::with_zeros(&bits::of_low_first(&KNOWN[index]))
}

/// The bits of a text in words: F is a flag, A and B are the known frames, 1*5 is a one five times, and other words are bits.
fn text_of(words: &str) -> String {
    let word = |word: &str| match word.split_once('*') {
        Some((bits, times)) => bits.repeat(times.parse().expect("a number")),
        None => match word {
            "F" => FLAG.to_string(),
            "A" => known(0),
            "B" => known(1),
            bits => bits.to_string(),
        },
    };
    words.split_whitespace().map(word).collect()
}

/// A stream of those bits, all counted, in as few bytes as they need; bits behind the count are zeros.
fn read(name: String, text: &str, looks: Vec<(u64, u64)>) -> Named {
    let bytes = bits::to_bytes(text);
    let (length, count) = (bytes.len() as u64, text.len() as u64);
    (name, Case::Frames(Reading { bytes, length, count, place: 0, rooms: vec![0, 1, 3], looks, made: Vec::new() }))
}

/// A stream in words, and what its first place gets: a refusal, 121 for the end, 122 for a frame.
type Row = (&'static str, u32);

/// The smallest streams that get each refusal, beside their nearest neighbours that do not.
const STREAMS: &[Row] = &[
    // 44, and the end
    ("", 44),
    ("0", 44),
    ("0111111", 44),
    ("F", 121),
    ("01111111", 44),
    ("00111111 0", 44),
    ("F F", 121),
    ("F F F F F F F F F", 121),
    ("01111110*3000", 121),
    // 45, and the end
    ("F 0", 45),
    ("F 1", 45),
    ("F F 0", 45),
    ("F F 0111111", 41),
    ("F 0*7", 45),
    ("F 0*2100", 45),
    ("F 01*1100", 45),
    ("F A", 45),
    ("F B 0", 45),
    // 41: five ones at the end, six ones; the closing flag cut after each of its bits
    ("F 1111", 45),
    ("F 11111", 41),
    ("F 111110", 45),
    ("F 111111", 41),
    ("F 1111111", 41),
    ("F 1*400", 41),
    ("F A 01", 45),
    ("F A 011", 45),
    ("F A 0111", 45),
    ("F A 01111", 45),
    ("F A 011111", 41),
    ("F A 0111111", 41),
    ("F A F", 122),
    ("F B F", 122),
    // 41: five ones right before the closing flag, with a zero of their own and without; 41 before 40
    ("F 1111 F", 40),
    ("F 11111 F", 41),
    ("F 111110 F", 40),
    ("F 111111 F", 41),
    ("F 0*30 11111 F", 41),
    ("F 0*30 111110 F", 43),
    ("F 0*2500 11111 F", 41),
    // flags that share a zero: at the start, between frames, at the end
    ("F 1111110", 41),
    ("F 1111110 A F", 41),
    ("F A F 1111110", 122),
    ("F A F 1111110 B F", 122),
    ("F 111111 F", 41),
    // 40 before 43 and 42
    ("F 0 F", 40),
    ("F 1 F", 40),
    ("F 0*31 F", 40),
    ("F 0*32 F", 43),
    ("F 0*2040 F", 43),
    ("F 0*2041 F", 40),
    // flags between, one and more; what stands behind the last is no flag
    ("F A F B F", 122),
    ("F F F A F F B F F F", 122),
    ("01111110*2000 A F", 122),
    ("F A F 0", 122),
    ("F A F 0000000", 122),
    ("F A F 11111111", 122),
    ("F A B F", 43),
];

fn streams() -> Vec<Named> {
    let case = |&(words, gets): &Row| {
        let text = text_of(words);
        let look = frame::look(&Stream::whole(&text), 0);
        assert_eq!(if look.refusal > 0 { look.refusal } else { look.kind }, gets, "{}", words);
        read(format!("stream {}", words), &text, vec![(text.len() as u64, 8)])
    };
    STREAMS.iter().map(case).collect()
}

/// Both known frames at every count and from every place, some beyond the count.
fn every_place() -> Vec<Named> {
    let text = text_of("F A F F B F");
    let bits = text.len() as u64;
    let looks = |count: u64| (0..=bits + 9).map(|place| (count, place)).collect::<Vec<_>>();
    (0..=bits + 9).map(|count| read(format!("known frames, count {}", count), &text, looks(count))).collect()
}

/// Both known frames with each bit turned over, flags included, and each two neighbouring ones; with each bit dropped, and doubled.
fn every_bit() -> Vec<Named> {
    let text = text_of("F A F B F");
    let mut cases = Vec::new();
    for at in 1..=text.len() {
        let one = bits::flipped(&text, at);
        let two = bits::flipped(&one, at % text.len() + 1);
        let (before, behind) = text.split_at(at);
        let doubled = format!("{}{}{}", before, &before[at - 1..], behind);
        let dropped = format!("{}{}", &before[..at - 1], behind);
        for (what, changed) in [("turned over", one), ("and the next turned over", two), ("doubled", doubled), ("dropped", dropped)] {
            cases.push(read(format!("known frames, bit {} {}", at, what), &changed, vec![(changed.len() as u64, 41)]));
        }
    }
    cases
}

/// Frames one behind the other, each on the closing flag of the one before.
fn sharing(texts: &[String]) -> String {
    let sent: Vec<String> = texts.iter().map(|text| frame::with_zeros(text)).collect();
    format!("{}{}{}", FLAG, sent.join(FLAG), FLAG)
}

/// Every address with its check sequence and without; every control to the sensor and from it.
fn every_byte() -> Vec<Named> {
    let of = |bytes: &[u8]| frame::with_check(&bits::of_bytes(bytes));
    let mut cases = Vec::new();
    let addresses: Vec<String> = (0..=255).map(|address| of(&[address, 0x5A, 0xC3])).collect();
    let wrong: Vec<String> = addresses.iter().map(|text| bits::flipped(text, 40)).collect();
    cases.push(("every address", addresses));
    cases.push(("every address, wrong check sequence", wrong));
    cases.push(("every control to the sensor", (0..=255).map(|control| of(&[0xC0, control])).collect()));
    cases.push(("every control from the sensor", (0..=255).map(|control| of(&[0x80, control])).collect()));
    cases.into_iter().map(|(name, all)| read(name.to_string(), &sharing(&all), Vec::new())).collect()
}

/// A frame with every check sequence there is: one of them is right.
fn every_check() -> Vec<Named> {
    let stream = |high: u8| {
        let all: Vec<String> = (0..=255).map(|low| bits::of_bytes(&[0xC0, 0x5A, high, low])).collect();
        read(format!("check sequences {:02X}00 to {:02X}FF", high, high), &sharing(&all), Vec::new())
    };
    (0..=255).map(stream).collect()
}

/// Every length between the flags around the limits, all zeros or all ones behind the address, with the check sequence and without.
fn every_length() -> Vec<Named> {
    let mut cases = Vec::new();
    for bits in (0..=48usize).chain(2030..=2050) {
        for (address, fill) in [(TO_SENSOR, "0"), (FROM_SENSOR, "1")] {
            let begun = format!("{}{}", address, fill.repeat(bits));
            let right = if bits < CHECK { begun[..bits].to_string() } else { frame::with_check(&begun[..bits - CHECK]) };
            let wrong = if bits == 0 { String::new() } else { bits::flipped(&right, bits) };
            for (what, text) in [("right", right), ("wrong", wrong)] {
                let name = format!("{} bits, filled with {}, {} check sequence", bits, fill, what);
                cases.push(read(name, &sharing(&[text]), Vec::new()));
            }
        }
    }
    cases
}

/// A field in buffers of every size up to two more than it needs; a long one in buffers of some sizes.
fn every_room() -> Vec<Named> {
    let mut cases = Vec::new();
    for bits in [0, 1, 7, 8, 9, 15, 16, 17, 40, 2000, 2001, 2007, 2008] {
        let needed = (bits as u64 + 7) / 8;
        let mut rooms: Vec<u64> = if needed < 9 { (0..needed).collect() } else { vec![0, 1, needed - 2, needed - 1] };
        rooms.extend([needed, needed + 1, needed + 2, 256, 1 << 61, 1 << 63, u64::MAX]);
        for fill in ["0", "1", "10110"] {
            let field = fill.repeat(bits)[..bits].to_string();
            let frame = Frame { from_sensor: true, control: 0xA5, field };
            let (name, mut case) = read(format!("field buffers for {} bits {}", bits, fill), &frame.text(), vec![(u64::MAX, 0)]);
            if let Case::Frames(reading) = &mut case {
                reading.rooms = rooms.clone();
            }
            cases.push((name, case));
        }
    }
    cases
}

/// Numbers around a number of bits, and at the ends of what a number holds.
fn numbers(bits: u64) -> Vec<u64> {
    let near = [0, 1, 7, 8, 9, bits.saturating_sub(8), bits.saturating_sub(1), bits, bits + 1, bits + 8];
    let far = [1 << 32, 1 << 61, 1 << 63, u64::MAX - 8, u64::MAX - 7, u64::MAX - 1, u64::MAX];
    [&near[..], &far[..]].concat()
}

fn pairs(first: &[u64], second: &[u64]) -> Vec<(u64, u64)> {
    first.iter().flat_map(|&one| second.iter().map(move |&other| (one, other))).collect()
}

/// Counts and places at the ends, over no bytes, a flag, and a frame.
fn ends_of_numbers() -> Vec<Named> {
    let case = |&words: &&str| {
        let text = text_of(words);
        let bits = 8 * bits::to_bytes(&text).len() as u64;
        let numbers = numbers(bits);
        read(format!("counts and places over {:?}", words), &text, pairs(&numbers, &numbers))
    };
    ["", "F", "F A F", "F A F F"].iter().map(case).collect()
}

/// Lengths that are only said to be so great; no bit is counted that is not there. Behind the bytes whose bits are counted stand others: a
/// library may read some at once.
const OTHERS: usize = 16;
const SAID: [u64; 7] = [1 << 32, 1 << 60, 1 << 61, (1 << 61) + 1, 1 << 63, u64::MAX - 1, u64::MAX];

fn said_lengths() -> Vec<Named> {
    let text = text_of("F A F");
    let mut bytes = bits::to_bytes(&text);
    let there = 8 * bytes.len() as u64;
    bytes.extend([0; OTHERS]);
    let case = |&length: &u64| {
        let counts: Vec<u64> = numbers(there).into_iter().filter(|&count| count <= there || frame::over(count, length)).collect();
        let looks = pairs(&counts, &[0, 41, u64::MAX]);
        let count = text.len() as u64;
        let reading = Reading { bytes: bytes.clone(), length, count, place: 0, rooms: vec![1], looks, made: Vec::new() };
        (format!("length said to be {}", length), Case::Frames(reading))
    };
    SAID.iter().map(case).collect()
}

/// What is turned over on the way can make another frame: one bit that makes a flag behind a check sequence, or two that make a zero more.
fn turned_over() -> Vec<Named> {
    let inner = bits::of_low_first(&KNOWN[0]);
    let field = format!("{}01101110{}", &inner[16..], "0".repeat(24));
    let first = Frame { from_sensor: false, control: 0xFC, field }.text();
    let second = Frame { from_sensor: true, control: 0x70, field: "1111".to_string() }.text();
    let zero = FLAG.len() + known(0).len() + 4;
    let changed = [bits::flipped(&first, zero), bits::flipped(&bits::flipped(&second, 25), 26)];
    for (before, after) in [(&first, &changed[0]), (&second, &changed[1])] {
        let frame = |text: &str| frame::look(&Stream::whole(text), 0).frame;
        assert!(frame(before).is_some() && frame(after).is_some() && frame(before) != frame(after), "another frame");
    }
    let cases = [("one bit", first), ("two bits", second)].into_iter().zip(changed);
    cases.flat_map(|((what, text), other)| [(what, text), (what, other)]).map(|(what, text)| read(what.into(), &text, Vec::new())).collect()
}

// ---- writing

/// A writing into bytes that are all alike, as many as the count needs.
fn written(name: String, byte: u8, writes: Vec<Write>) -> Named {
    let count = writes.iter().map(|write| write.count).max().unwrap_or(0);
    let length = (count as usize + 7) / 8;
    let place = writes[0].place;
    (name, Case::FrameWrites(Writing { bytes: vec![byte; length], length: length as u64, count, place, rooms: vec![251], writes }))
}

/// A frame with a field of those bits, which fill whole bytes with ones behind them.
fn asked(count: u64, place: u64, from_sensor: u32, control: u8, field: &str) -> Write {
    let field_count = field.len() as u64;
    let bytes = bits::to_bytes(&format!("{}{}", field, "1".repeat((8 - field.len() % 8) % 8)));
    Write { count, place, from_sensor, control, field_length: bytes.len() as u64, field: bytes, field_count }
}

/// Both known frames, and one whose check sequence ends in five ones, with every room from none to two bits more than they need.
fn every_room_written() -> Vec<Named> {
    let mut cases = Vec::new();
    let ending = (0..=255).find(|&control| asked(0, 0, 1, control, "").text().ends_with("11111001111110")).expect("such a control");
    for (from_sensor, control) in [(0, 0xFC), (1, 0xCE), (1, ending)] {
        let needed = asked(0, 0, from_sensor, control, "").text().len() as u64;
        for place in [0, 1, 7, 8, 13] {
            for room in 0..=needed + 2 {
                for byte in [0, 0xFF] {
                    let name = format!("control {:02X} written at {} in {} bits over {:02X}", control, place, room, byte);
                    cases.push(written(name, byte, vec![asked(place + room, place, from_sensor, control, "")]));
                }
            }
        }
    }
    cases
}

/// Fields of every number of bits around the limits, all zeros or all ones.
fn every_length_written() -> Vec<Named> {
    let mut cases = Vec::new();
    for bits in (0..=40).chain(1990..=2009) {
        for (from_sensor, fill, byte) in [(0, "0", 0xFF), (u32::MAX, "1", 0)] {
            let write = asked(2600, 3, from_sensor, 0x5A, &fill.repeat(bits));
            cases.push(written(format!("{} field bits {} written", bits, fill), byte, vec![write]));
        }
    }
    cases
}

/// Every control to the sensor and from it, each frame on the closing flag of the one before; every direction number of some.
fn every_control_written() -> Vec<Named> {
    let mut cases = Vec::new();
    for from_sensor in [0, 1, 2, 256, 1 << 31, u32::MAX] {
        let mut place = 5;
        let mut writes = Vec::new();
        for control in 0..=255 {
            let write = asked(12_000, place, from_sensor, control, "");
            place += (write.text().len() - FLAG.len()) as u64;
            writes.push(write);
        }
        writes.truncate(if from_sensor < 2 { 256 } else { 2 });
        cases.push(written(format!("every control written, from_sensor {}", from_sensor), 0xFF, writes));
    }
    cases
}

/// A writing in numbers, and its refusal: bytes of the stream, count, place, bytes of the field, count of the field.
type Attempt = ([u64; 5], u32);

/// The smallest writings that get each refusal, beside their nearest neighbours that do not; each before those behind it. A frame without a
/// field and without inserted zeros needs 48 bits, and here one of 2008 zeros needs 2056.
const ATTEMPTS: &[Attempt] = &[
    ([0, 0, 0, 0, 0], 46),
    ([0, 1, 0, 0, 0], 44),
    ([0, 0, 1, 0, 0], 46),
    ([0, 0, 0, 0, 1], 44),
    ([0, 0, 0, 1, 8], 46),
    ([0, 0, 0, 1, 9], 44),
    ([6, 48, 0, 0, 0], 0),
    ([6, 47, 0, 0, 0], 46),
    ([6, 48, 1, 0, 0], 46),
    ([6, 49, 0, 0, 0], 44),
    ([7, 49, 1, 0, 0], 0),
    ([7, 49, 1, 1, 1], 46),
    ([7, 50, 1, 1, 1], 0),
    ([257, 2056, 0, 251, 2008], 0),
    ([257, 2055, 0, 251, 2008], 46),
    ([257, 2056, 0, 250, 2008], 44),
    ([257, 2056, 0, 252, 2008], 0),
    ([258, 2064, 0, 251, 2009], 44),
    ([258, 2064, 0, 252, 2009], 40),
    ([0, 0, 0, 252, 2009], 40),
    ([0, 1, 0, 252, 2009], 44),
    ([0, 0, 0, 251, 2009], 44),
    ([6, 48, 49, 252, 2016], 40),
    ([6, 48, 48, 0, 0], 46),
    ([6, 48, 49, 0, 0], 46),
    ([6, 48, u64::MAX, 0, 0], 46),
    ([6, 48, u64::MAX - 47, 0, 0], 46),
    ([6, u64::MAX, 0, 0, 0], 44),
    ([6, u64::MAX, u64::MAX, 0, 0], 44),
    ([6, 48, 0, 0, u64::MAX], 44),
    ([6, 48, 0, 1, u64::MAX], 44),
    ([6, u64::MAX, u64::MAX, 1, u64::MAX], 44),
    ([0, u64::MAX, u64::MAX, 0, u64::MAX], 44),
    ([0, 0, u64::MAX, 0, 0], 46),
];

/// A writing with those numbers into ones, of a field of zeros.
fn attempt([length, count, place, field_length, field_count]: [u64; 5]) -> Writing {
    let field = vec![0; field_length as usize];
    // control 5 needs no inserted zero, neither without a field nor with those of ATTEMPTS
    let write = Write { count, place, from_sensor: 0, control: 5, field, field_length, field_count };
    Writing { bytes: vec![0xFF; length as usize], length, count: 8 * length, place: 0, rooms: vec![251], writes: vec![write] }
}

fn attempts() -> Vec<Named> {
    let case = |&(numbers, gets): &Attempt| {
        let writing = attempt(numbers);
        let (refusal, _) = frame::write(&mut writing.bytes.clone(), writing.length, &writing.writes[0]);
        assert_eq!(refusal, gets, "{:?}", numbers);
        (format!("writing {:?}", numbers), Case::FrameWrites(writing))
    };
    ATTEMPTS.iter().map(case).collect()
}

/// Counts, places and field counts at the ends; then lengths that are only said to be so great.
fn ends_of_numbers_written() -> Vec<Named> {
    let mut cases = Vec::new();
    for (count, place) in pairs(&numbers(48), &numbers(48)) {
        let fields = [0, 1, 8, 9, MOST_FIELD, MOST_FIELD + 1, 1 << 61, u64::MAX];
        let writing = |field: u64| Case::FrameWrites(attempt([6, count, place, 1, field]));
        cases.extend(fields.iter().map(|&field| (format!("writing count {} place {} field {}", count, place, field), writing(field))));
    }
    for said in SAID {
        let mut stream = attempt([6, 48, 0, 0, 0]);
        stream.length = said;
        stream.bytes.extend([0xFF; OTHERS]);
        cases.push((format!("writing into a length said to be {}", said), Case::FrameWrites(stream)));
        for field_count in [0, 1, 8] {
            let mut field = attempt([8, 64, 0, 1, field_count]);
            field.writes[0].field.extend([0; OTHERS]);
            field.writes[0].field_length = said;
            cases.push((format!("writing {} bits of a field length said to be {}", field_count, said), Case::FrameWrites(field)));
        }
    }
    cases
}

pub fn cases() -> impl Iterator<Item = Named> {
    let parts: [fn() -> Vec<Named>; 15] = [
        streams,
        every_place,
        every_bit,
        every_byte,
        every_check,
        every_length,
        every_room,
        ends_of_numbers,
        said_lengths,
        turned_over,
        every_room_written,
        every_length_written,
        every_control_written,
        attempts,
        ends_of_numbers_written,
    ];
    parts.into_iter().flat_map(|part| part())
}
