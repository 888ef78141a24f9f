//! Bits as text: a word, a report or a field is a string of the characters 0 and 1, bit 1 first, as document 004 numbers them.
//!
//! Nothing here shifts or masks: numbers become text and text becomes numbers by the language's own printing and parsing of binary
//! numbers. That is the point of this program: an error of a shift or a mask in the library has no twin here.

use std::borrow::Cow;

/// The 13 bits of a word; a number above 8191 gives more than 13 characters.
pub fn of_word(word: u16) -> String {
    format!("{:013b}", word)
}

/// The bits of bytes, the top bit of the first byte first.
pub fn of_bytes(bytes: &[u8]) -> String {
    let mut text = String::with_capacity(8 * bytes.len());
    for byte in bytes {
        text.push_str(&format!("{:08b}", byte));
    }
    text
}

/// The bits of octets that are sent low bit first.
pub fn of_low_first(octets: &[u8]) -> String {
    let turned: Vec<u8> = octets.iter().map(|octet| octet.reverse_bits()).collect();
    of_bytes(&turned)
}

/// The bytes of bits; the started byte is filled with zeros.
pub fn to_bytes(text: &str) -> Vec<u8> {
    let mut full = text.to_string();
    while full.len() % 8 != 0 {
        full.push('0');
    }
    let mut bytes = Vec::with_capacity(full.len() / 8);
    let mut from = 0;
    while from < full.len() {
        bytes.push(number(&full[from..from + 8]) as u8);
        from += 8;
    }
    bytes
}

/// The number that the bits spell; at most 64 bits, at least one.
pub fn number(text: &str) -> u64 {
    u64::from_str_radix(text, 2).expect("bits spell a number")
}

/// The number in that many bits; nothing where it needs more.
pub fn of_number(value: u64, width: usize) -> Option<String> {
    let text = format!("{:0width$b}", value, width = width);
    if text.len() == width {
        Some(text)
    } else {
        None
    }
}

/// How many of the bits are one.
pub fn ones(text: &str) -> usize {
    text.matches('1').count()
}

/// The bits from one of the document's numbers to another, both included.
pub fn span(text: &str, from: usize, to: usize) -> &str {
    &text[from - 1..to]
}

/// The spans one behind the other; nothing is copied where there is one only.
pub fn cut<'a>(text: &'a str, spans: &[(usize, usize)]) -> Cow<'a, str> {
    match spans {
        [(from, to)] => Cow::Borrowed(span(text, *from, *to)),
        _ => Cow::Owned(spans.iter().map(|&(from, to)| span(text, from, to)).collect()),
    }
}

/// Puts the bits where the spans say.
pub fn paste(text: &mut String, spans: &[(usize, usize)], bits: &str) {
    let mut rest = bits;
    for &(from, to) in spans {
        let (now, later) = rest.split_at(to - from + 1);
        text.replace_range(from - 1..to, now);
        rest = later;
    }
    assert!(rest.is_empty(), "spans and bits have one length");
}

/// The bits of the next number: the ones at the end become zeros, and the zero before them becomes a one; nothing where all are ones.
pub fn next(text: &str) -> Option<String> {
    let head = text.trim_end_matches('1');
    let zeros = "0".repeat(text.len() - head.len());
    head.strip_suffix('0').map(|start| format!("{}1{}", start, zeros))
}

/// The bits with all of them turned over.
pub fn all_flipped(text: &str) -> String {
    text.chars().map(|bit| if bit == '0' { '1' } else { '0' }).collect()
}

/// The bits with one of them turned over.
pub fn flipped(text: &str, bit: usize) -> String {
    let mut changed = text.to_string();
    let other = if span(text, bit, bit) == "0" { "1" } else { "0" };
    changed.replace_range(bit - 1..bit, other);
    changed
}
