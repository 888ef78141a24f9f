// Makes the sample streams of examples/streams, and what examples/frames.c must print of them, from document 02's Tickets 1 and 2 and document 01's
// "Link data fields": `streams NAME` writes the bytes, `streams NAME printed` what is printed. Bits are text here, the check sequence is a long
// division, and the types that the samples have stand in a table of widths.
//   story    frames both ways, with shared flags and idle flags; flags at the end
//   damaged  these frames with a fault of each kind, begun and cut inside a frame, the last byte filled with zeros
//   elms     ELMs of one segment and of two, from the sensor, relayed and to the sensor; some are refused
use std::io::Write;

const FLAG: &str = "01111110";
const TO: &str = "11000000";
const FROM: &str = "10000000";

// ---- bits between two flags

// The check sequence: the first sixteen bits turned over and sixteen zeros behind, divided by x^16 + x^12 + x^5 + 1, and what is left turned over.
fn check(bits: &str) -> String {
    let mut left: Vec<bool> = bits.chars().enumerate().map(|(i, c)| (c == '1') != (i < 16)).chain([false; 16]).collect();
    for i in 0..bits.len() {
        if left[i] {
            for power in [16, 12, 5, 0] {
                left[i + 16 - power] ^= true;
            }
        }
    }
    left[bits.len()..].iter().map(|one| if *one { '0' } else { '1' }).collect()
}

fn checked(bits: String) -> String {
    let sequence = check(&bits);
    bits + &sequence
}

fn frame(address: &str, control: u8, field: &str) -> String {
    checked(format!("{address}{control:08b}{field}"))
}

// After each five ones stands a zero.
fn sent(frame: &str) -> String {
    frame.replace("11111", "111110")
}

// A known frame, as octets of which the low bit is sent first.
fn known(octets: [u8; 4]) -> String {
    let frame: String = octets.iter().map(|octet| format!("{:08b}", octet.reverse_bits())).collect();
    assert_eq!(frame, checked(frame[..16].into()), "the check sequence of a known frame");
    frame
}

// ---- link data fields

// A type, the way it travels, its parts with their bits (and whether they are printed in hexadecimal), and the bits of a list entry.
type Layout = (u8, &'static str, &'static [(&'static str, usize, bool)], usize);

const LAYOUTS: [Layout; 7] = [
    (0x21, TO, &[("address", 24, true), ("number", 4, false), ("priority", 1, false), ("exp", 3, false), ("text", 56, true)], 0),
    (0x22, TO, &[("address", 24, true), ("number", 4, false), ("priority", 1, false), ("exp", 3, false), ("spare", 4, false), ("length", 4, false)], 0),
    (0x9B, TO, &[("spare", 4, false), ("n", 4, false)], 8),
    (0x9A, TO, &[("ip", 3, false), ("is", 3, false), ("iu", 2, false)], 24),
    (0x32, FROM, &[("address", 24, true), ("referenced", 4, false), ("di", 1, false), ("spare", 3, false)], 0),
    (0x42, FROM, &[("address", 24, true), ("spare", 4, false), ("length", 4, false)], 0),
    (0x83, FROM, &[("acid1", 24, true), ("acid2", 24, true), ("cs1", 2, false), ("advisory1", 11, false), ("del1", 3, false), ("cs2", 2, false),
        ("advisory2", 11, false), ("del2", 3, false), ("v1", 1, false), ("v2", 1, false)], 0),
];

fn layout(code: u8) -> &'static Layout {
    LAYOUTS.iter().find(|l| l.0 == code).unwrap_or_else(|| panic!("no sample has type {code:02X}"))
}

fn field(code: u8, values: &[u64]) -> String {
    let parts = layout(code).2;
    assert_eq!(parts.len(), values.len());
    let bits: String = parts.iter().zip(values).map(|((_, width, _), value)| format!("{value:0width$b}")).collect();
    format!("{code:08b}{bits}")
}

fn number(bits: &str) -> u64 {
    u64::from_str_radix(bits, 2).unwrap()
}

// A list entry: an altimeter block is a sign, three bits of thousands and four of hundreds.
fn entry(bits: &str) -> String {
    match bits.len() {
        8 => format!(" {}", (10 * number(&bits[1..4]) + number(&bits[4..])) as i64 * if bits.starts_with('1') { -1 } else { 1 }),
        _ => format!(" {:06X}", number(bits)),
    }
}

// An ELM has one segment of 80 bits more than its Length, the last part, says.
fn elm_has_its_count(code: u8, bits: &str) -> bool {
    let text = match code {
        0x22 => 48,
        0x42 => 40,
        _ => return true,
    };
    bits.len() as u64 == text as u64 + 80 * (number(&bits[text - 4..text]) + 1)
}

fn items(code: u8, bits: &str) -> String {
    if !elm_has_its_count(code, bits) {
        return " field REFUSED 26: the field has not as many bits as its type".into();
    }
    let (_, _, parts, step) = layout(code);
    let (mut out, mut at) = (String::new(), 8);
    for (name, width, hexadecimal) in *parts {
        let value = number(&bits[at..at + width]);
        at += width;
        match (*name, *hexadecimal) {
            ("spare", _) if value != 0 => return " field REFUSED 27: a spare bit is one".into(),
            ("spare", _) => {}
            (_, true) => out += &format!(" {name} {value:0w$X}", w = width / 4),
            (_, false) => out += &format!(" {name} {value}"),
        }
    }
    let rest = &bits[at..];
    if code == 0x22 && rest.len() == 80 {
        return " field REFUSED 28: a value is not in use".into();
    }
    if *step > 0 {
        out += " entries";
        (0..rest.len() / step).for_each(|i| out += &entry(&rest[i * step..][..*step]));
    } else if !rest.is_empty() {
        out += &format!(" text of {} bytes", rest.len() / 8);
    }
    out
}

fn field_printed(address: &str, bits: &str) -> String {
    if bits.is_empty() {
        return " no field".into();
    }
    if bits.len() < 8 {
        return " field REFUSED 20: the field has fewer than 8 bits".into();
    }
    let code = number(&bits[..8]) as u8;
    if code == 0x03 {
        let inside = number(&bits[16..24]) as u8;
        return format!(" type 03 inner type {inside:02X} sensor {:02X}{}", number(&bits[8..16]), items(inside, &bits[16..]));
    }
    if layout(code).1 != address {
        return " field REFUSED 25: the type travels the other way".into();
    }
    match items(code, bits) {
        refused if refused.contains("REFUSED") => refused,
        accepted => format!(" type {code:02X}{accepted}"),
    }
}

// ---- the samples

// Frames, the last with so many ones in its text.
fn frames(ones: usize) -> Vec<String> {
    let altimeter = field(0x9B, &[0, 1]) + "00010010" + "10000011";
    let states = field(0x9A, &[1, 0, 2]) + &format!("{:024b}{:024b}{:024b}", 0xA1B2C3, 0x00FFFF, 0x7E7E7E);
    let message = field(0x42, &[0xA1B2C3, 0, 1]) + &"1".repeat(ones) + &"0".repeat(160 - ones);
    vec![
        known([0x03, 0x3F, 0x5B, 0xEC]),
        known([0x01, 0x73, 0x83, 0x57]),
        frame(TO, 0x13, &field(0x21, &[0xA1B2C3, 3, 0, 5, 0x44455343454E44])),
        frame(TO, 0x15, &altimeter),
        frame(FROM, 0x24, &field(0x83, &[0xA1B2C3, 0x00FFF1, 1, 1032, 2, 1, 17, 5, 1, 0])),
        frame(FROM, 0x26, &field(0x32, &[0xA1B2C3, 3, 1, 0])),
        frame(TO, 0x17, &states),
        frame(FROM, 0x28, &format!("0000001100000111{message}")),
    ]
}

// Flags and frames; a whole number of bytes.
fn story() -> String {
    let told = |ones: usize| {
        let sent: Vec<String> = frames(ones).iter().map(|f| sent(f)).collect();
        let parts = [FLAG, &sent[0], FLAG, &sent[1], FLAG, FLAG, FLAG, FLAG, &sent[2], FLAG, &sent[3], FLAG, FLAG, &sent[4], FLAG, &sent[5], FLAG,
            &sent[6], FLAG, FLAG, &sent[7], FLAG, FLAG, FLAG];
        parts.concat()
    };
    (0..).map(told).find(|stream| stream.len() % 8 == 0).unwrap()
}

fn flipped(bits: &str, at: usize) -> String {
    let other = if &bits[at..=at] == "0" { "1" } else { "0" };
    format!("{}{other}{}", &bits[..at], &bits[at + 1..])
}

fn damaged() -> String {
    let frames = frames(0);
    let sound: Vec<String> = frames.iter().map(|f| sent(f)).collect();
    let wrong_check = sent(&flipped(&frames[1], 10));
    let wrong_address = sent(&frame("11100000", 0x13, &frames[2][16..112]));
    let short = sent(&frames[0][..24]);
    let no_zero = sound[4].replacen("111110", "111111", 1);
    let other_way = sent(&frame(FROM, 0x13, &frames[2][16..112]));
    let three_bits = sent(&frame(TO, 0x19, "101"));
    let spare = sent(&frame(FROM, 0x26, &field(0x32, &[0xA1B2C3, 3, 1, 2])));
    let parts = [&sound[0][20..], FLAG, &sound[0], FLAG, &wrong_check, FLAG, &wrong_address, FLAG, &short, FLAG, FLAG, FLAG, &no_zero, FLAG,
        &sound[3], FLAG, &FLAG[1..], &sound[5], FLAG, &other_way, FLAG, &three_bits, FLAG, &spare, FLAG, &sound[6], FLAG, FLAG, &sound[7][..100]];
    let cut = parts.concat();
    let filling = "0".repeat((8 - cut.len() % 8) % 8);
    cut + &filling
}

// ELMs with a flag between each two. Their texts make the stream a whole number of bytes.
fn elms() -> String {
    let downlink = |spare: u64, length: u64, bytes: usize| field(0x42, &[0xA1B2C3, spare, length]) + &"01000001".repeat(bytes);
    let uplink = |length: u64, bytes: usize| field(0x22, &[0xA1B2C3, 4, 1, 2, 0, length]) + &"01000001".repeat(bytes);
    let relayed = format!("0000001100000111{}", downlink(0, 0, 10));
    let from = [downlink(0, 0, 10), relayed, downlink(0, 1, 20), downlink(0, 0, 20), downlink(8, 0, 10)];
    let to = [uplink(1, 20), uplink(0, 10)];
    let frames = from.iter().map(|field| frame(FROM, 0x30, field)).chain(to.iter().map(|field| frame(TO, 0x31, field)));
    let stream = frames.fold(FLAG.to_string(), |stream, frame| stream + &sent(&frame) + FLAG);
    assert_eq!(stream.len() % 8, 0);
    stream
}

// ---- what is printed

enum Found {
    Frame(String),
    Refused(u8, &'static str),
    End,
}

// What stands at a place, and the place to go on from.
fn look(stream: &str, place: usize) -> (Found, usize) {
    if !stream[place..].starts_with(FLAG) {
        return (Found::Refused(44, "no flag begins at the place"), place);
    }
    let mut from = place + 8;
    while stream[from..].starts_with(FLAG) {
        from += 8;
    }
    let rest = &stream[from..];
    if rest.is_empty() {
        return (Found::End, stream.len());
    }
    let closing = rest.find(FLAG);
    let between = &rest[..closing.unwrap_or(rest.len())];
    if between.contains("111111") || between.ends_with("11111") {
        return (Found::Refused(41, "five ones have no inserted zero after them"), place);
    }
    if closing.is_none() {
        return (Found::Refused(45, "there is no closing flag"), place);
    }
    (read(&between.replace("111110", "11111")), from + between.len())
}

fn read(bits: &str) -> Found {
    if !(32..=2040).contains(&bits.len()) {
        return Found::Refused(40, "the frame has fewer than 32 bits or more than 2040");
    }
    let (held, sequence) = bits.split_at(bits.len() - 16);
    if check(held) != sequence {
        return Found::Refused(43, "the frame check sequence is wrong");
    }
    if ![TO, FROM].contains(&&held[..8]) {
        return Found::Refused(42, "the address is neither of the two");
    }
    Found::Frame(held.into())
}

// The next flag behind the last of the flags at the place, or the end.
fn next_flag(stream: &str, place: usize) -> usize {
    let mut last = place;
    while stream[last..].starts_with(&FLAG.repeat(2)) {
        last += 8;
    }
    stream[last + 1..].find(FLAG).map_or(stream.len(), |more| last + 1 + more)
}

fn printed(stream: &str) -> String {
    let (mut out, mut place, mut frames, mut refused) = (String::new(), 0, 0, 0);
    let (mut in_frames, mut in_refused, mut passed, mut at_end) = (0, 0, 0, 0);
    while place < stream.len() {
        let (found, mut next) = look(stream, place);
        match found {
            Found::Frame(held) => {
                let way = if &held[..8] == TO { "TO" } else { "FROM" };
                let shown = field_printed(&held[..8], &held[16..]);
                out += &format!("{place} {way} control {:02X} {} bits:{shown}\n", number(&held[8..16]), held.len() - 16);
                frames += 1;
                in_frames += next - place;
            }
            Found::Refused(number, why) => {
                out += &format!("{place} REFUSED {number} next {next}: {why}\n");
                refused += 1;
                in_refused += next - place;
                if next == place {
                    next = next_flag(stream, place);
                    out += &format!("PASSED {place} {next}\n");
                    passed += next - place;
                }
            }
            Found::End => {
                out += &format!("END {next}\n");
                at_end = next - place;
            }
        }
        place = next;
    }
    let counted = format!("{in_frames} in frames, {in_refused} in refused frames, {passed} passed, {at_end} in flags at the end");
    out + &format!("{frames} frames, {refused} refused; {} bits: {counted}\n", stream.len())
}

fn main() {
    let words: Vec<String> = std::env::args().collect();
    let stream = match words[1].as_str() {
        "story" => story(),
        "damaged" => damaged(),
        "elms" => elms(),
        other => panic!("no such sample: {other}"),
    };
    let bytes: Vec<u8> = match words.get(2).map(String::as_str) {
        None => (0..stream.len() / 8).map(|i| number(&stream[8 * i..][..8]) as u8).collect(),
        Some("printed") => printed(&stream).into_bytes(),
        Some(other) => panic!("no such text: {other}"),
    };
    std::io::stdout().write_all(&bytes).unwrap();
}
