//! The exact 64-bit floats of document 01: range, azimuth and time from their counts, built from sign, exponent and fraction as text.
//!
//! No float operation is used, so no rounding can hide here.

use crate::bits;

/// The bits of the float numerator / 2^halvings; numerator below 2^53.
pub fn quotient(numerator: u64, halvings: usize) -> u64 {
    if numerator == 0 {
        return 0;
    }
    let text = format!("{:b}", numerator);
    let exponent = 1023 + text.len() - 1 - halvings;
    let mut fraction = text[1..].to_string();
    while fraction.len() < 52 {
        fraction.push('0');
    }
    bits::number(&format!("0{:011b}{}", exponent, fraction))
}

/// Range in nmi: one count is 1/8 nmi in 4 words, 1/128 nmi in 7.
pub fn nmi(count: u64, words: usize) -> u64 {
    quotient(count, if words == 4 { 3 } else { 7 })
}

/// Azimuth in degrees: 4096 counts to the circle in 4 words, 8192 in 7; 360/4096 is 45/512.
pub fn degrees(count: u64, words: usize) -> u64 {
    quotient(count * 45, if words == 4 { 9 } else { 10 })
}

/// Time in seconds: one count is 1/8 s.
pub fn seconds(count: u64) -> u64 {
    quotient(count, 3)
}

/// The float's bits scaled to 1/1024, as document 01 says what exact means; nothing where that is no whole number.
pub fn in_1024ths(float: u64) -> Option<u64> {
    let text = format!("{:064b}", float);
    if text.starts_with('1') || float == 0 {
        return if float == 0 { Some(0) } else { None };
    }
    let exponent = bits::number(&text[1..12]) as i64 - 1023;
    let significand = format!("1{}", &text[12..]);
    let whole = exponent + 10 + 1;
    if !(1..=53).contains(&whole) {
        return None;
    }
    let (head, tail) = significand.split_at(whole as usize);
    if bits::ones(tail) > 0 {
        return None;
    }
    Some(bits::number(head))
}
