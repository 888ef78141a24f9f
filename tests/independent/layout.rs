//! A layout as document 01 writes it: spans of bits, each an item, a fixed pattern or spare. Reports and link data fields share this form.
//!
//! A layout is given as text, e.g. "2-4 =110, 14-25+27-29 RANGE, 45 zero, 33-36 NUMBER used", with the document's bit numbers, parity bits
//! counted. Each layout is checked to cover every bit of its message exactly once, so that a slip in a table is found at the start.

use crate::bits;
use std::borrow::Cow;

/// Which numbers of a field are in use, and how they are spelt.
#[derive(Clone, Copy, PartialEq)]
pub enum Rule {
    Any,
    /// zero is not in use
    Used,
    /// only 1 is in use
    One,
    /// 0 to 4
    Qualifier,
    /// 0 to 5
    Delivery,
    /// the last three bits are not 111
    Advisory,
    /// a sign (1 negative) and a magnitude; minus zero is not in use
    Signed,
    /// a number in two's complement
    Complement,
}

#[derive(Clone, PartialEq)]
pub enum Role {
    Item(u32, Rule),
    Fixed(String),
    Zero,
}

#[derive(Clone, PartialEq)]
pub struct Piece {
    pub spans: Vec<(usize, usize)>,
    pub role: Role,
}

#[derive(Clone)]
pub struct Layout {
    /// the header's number of the kind or the type
    pub number: u32,
    pub name: &'static str,
    pub bits: usize,
    pub pieces: Vec<Piece>,
}

pub type Names = [(&'static str, u32)];

fn rule(word: Option<&str>) -> Rule {
    match word {
        None => Rule::Any,
        Some("used") => Rule::Used,
        Some("one") => Rule::One,
        Some("qualifier") => Rule::Qualifier,
        Some("delivery") => Rule::Delivery,
        Some("advisory") => Rule::Advisory,
        Some("signed") => Rule::Signed,
        Some("complement") => Rule::Complement,
        Some(other) => panic!("no rule: {}", other),
    }
}

fn spans(text: &str) -> Vec<(usize, usize)> {
    let number = |t: &str| t.parse::<usize>().expect("a bit number");
    let one = |t: &str| match t.split_once('-') {
        Some((from, to)) => (number(from), number(to)),
        None => (number(t), number(t)),
    };
    text.split('+').map(one).collect()
}

fn piece(text: &str, names: &Names) -> Piece {
    let mut words = text.split_whitespace();
    let spans = spans(words.next().expect("spans"));
    let what = words.next().expect("a role");
    let role = if what == "zero" {
        Role::Zero
    } else if let Some(pattern) = what.strip_prefix('=') {
        Role::Fixed(pattern.to_string())
    } else {
        let found = names.iter().find(|(name, _)| *name == what);
        Role::Item(found.expect("an item's name").1, rule(words.next()))
    };
    Piece { spans, role }
}

impl Piece {
    pub fn width(&self) -> usize {
        self.spans.iter().map(|(from, to)| to - from + 1).sum()
    }

    pub fn cut<'a>(&self, text: &'a str) -> Cow<'a, str> {
        bits::cut(text, &self.spans)
    }

    fn last(&self) -> usize {
        self.spans[self.spans.len() - 1].1
    }
}

impl Layout {
    /// The layout that the text describes. Parity bits are named by the caller, since fields have none.
    pub fn new(number: u32, name: &'static str, bits: usize, parity: usize, text: &str, names: &Names) -> Layout {
        let pieces: Vec<Piece> = text.split(',').map(|t| piece(t.trim(), names)).collect();
        let layout = Layout { number, name, bits, pieces };
        layout.check_cover(parity);
        layout
    }

    fn check_cover(&self, parity: usize) {
        for bit in 1..=self.bits {
            let within = |&&(from, to): &&(usize, usize)| from <= bit && bit <= to;
            let times: usize = self.pieces.iter().map(|p| p.spans.iter().filter(within).count()).sum();
            let wanted = if parity > 0 && bit % parity == 0 { 0 } else { 1 };
            assert!(times == wanted, "layout {}: bit {} stands in {} pieces", self.name, bit, times);
        }
        for piece in &self.pieces {
            assert!(piece.last() <= self.bits, "layout {}: a bit beyond its end", self.name);
            if let Role::Fixed(pattern) = &piece.role {
                assert!(pattern.len() == piece.width(), "layout {}: a pattern's length", self.name);
            }
        }
    }

    /// The items, in the order of their numbers.
    pub fn items(&self) -> Vec<u32> {
        let mut numbers: Vec<u32> = self.item_pieces().map(|(number, _, _)| number).collect();
        numbers.sort_unstable();
        numbers
    }

    /// Number, rule and piece of each item, in the order of the layout.
    pub fn item_pieces(&self) -> impl Iterator<Item = (u32, Rule, &Piece)> {
        self.pieces.iter().filter_map(|piece| match piece.role {
            Role::Item(number, rule) => Some((number, rule, piece)),
            _ => None,
        })
    }

    /// Whether the fixed patterns up to a bit stand in the text.
    pub fn fits(&self, text: &str, last_bit: usize) -> bool {
        self.pieces.iter().all(|piece| match &piece.role {
            Role::Fixed(pattern) => piece.last() > last_bit || piece.cut(text) == *pattern,
            _ => true,
        })
    }

    /// Whether every spare bit is zero.
    pub fn spares_are_zero(&self, text: &str) -> bool {
        let spares = self.pieces.iter().filter(|piece| piece.role == Role::Zero);
        spares.into_iter().all(|piece| bits::ones(&piece.cut(text)) == 0)
    }

    /// The spare bits by number.
    pub fn spares(&self) -> Vec<usize> {
        let spares = self.pieces.iter().filter(|piece| piece.role == Role::Zero);
        spares.flat_map(|piece| piece.spans.iter().flat_map(|&(from, to)| from..=to)).collect()
    }

    /// The items' numbers and values; nothing where a value is not in use.
    pub fn read(&self, text: &str) -> Option<Vec<(u32, i64)>> {
        self.item_pieces().map(|(number, rule, piece)| Some((number, decode(&piece.cut(text), rule)?))).collect()
    }

    /// The text with these values; nothing where the items are not the layout's, each once, or a value does not go in.
    pub fn write(&self, items: &[(u64, u64)]) -> Option<String> {
        let mut given: Vec<u64> = items.iter().map(|item| item.0).collect();
        given.sort_unstable();
        let wanted: Vec<u64> = self.items().into_iter().map(u64::from).collect();
        if given != wanted {
            return None;
        }
        let mut text = "?".repeat(self.bits);
        for piece in &self.pieces {
            let bits = match &piece.role {
                Role::Zero => "0".repeat(piece.width()),
                Role::Fixed(pattern) => pattern.clone(),
                Role::Item(number, rule) => {
                    let value = items.iter().find(|item| item.0 == u64::from(*number))?.1;
                    encode(value, piece.width(), *rule)?
                }
            };
            bits::paste(&mut text, &piece.spans, &bits);
        }
        Some(text)
    }
}

/// The value that the bits of a field give; nothing where it is not in use.
pub fn decode(text: &str, rule: Rule) -> Option<i64> {
    let plain = bits::number(text) as i64;
    let in_use = match rule {
        Rule::Any => true,
        Rule::Used => plain != 0,
        Rule::One => plain == 1,
        Rule::Qualifier => plain <= 4,
        Rule::Delivery => plain <= 5,
        Rule::Advisory => !text.ends_with("111"),
        Rule::Signed => return decode_signed(text),
        Rule::Complement => return Some(decode_complement(text)),
    };
    if in_use {
        Some(plain)
    } else {
        None
    }
}

fn decode_signed(text: &str) -> Option<i64> {
    let magnitude = bits::number(&text[1..]) as i64;
    match (text.starts_with('1'), magnitude) {
        (true, 0) => None,
        (true, _) => Some(-magnitude),
        (false, _) => Some(magnitude),
    }
}

/// What each of twelve bits weighs in two's complement.
const WEIGHTS: [i64; 12] = [-2048, 1024, 512, 256, 128, 64, 32, 16, 8, 4, 2, 1];

/// The weights of the bits that are one, added up.
fn decode_complement(text: &str) -> i64 {
    assert_eq!(text.len(), WEIGHTS.len(), "a number in two's complement");
    let ones = text.chars().zip(WEIGHTS).filter(|(bit, _)| *bit == '1');
    ones.map(|(_, weight)| weight).sum()
}

/// The magnitude's bits; below zero they are all turned over, and the next number is taken. The first bit has to tell what is below zero.
fn encode_complement(value: i64, width: usize) -> Option<String> {
    let magnitude = bits::of_number(value.unsigned_abs(), width)?;
    let text = if value < 0 { bits::next(&bits::all_flipped(&magnitude))? } else { magnitude };
    Some(text).filter(|text| text.starts_with('1') == (value < 0))
}

/// The bits of a value as it was given, 64 bits in two's complement; nothing where it is too large or not in use.
pub fn encode(value: u64, width: usize, rule: Rule) -> Option<String> {
    if rule == Rule::Signed {
        let signed = value as i64;
        let magnitude = bits::of_number(signed.unsigned_abs(), width - 1)?;
        let sign = if signed < 0 { "1" } else { "0" };
        return Some(format!("{}{}", sign, magnitude));
    }
    if rule == Rule::Complement {
        return encode_complement(value as i64, width);
    }
    let text = bits::of_number(value, width)?;
    decode(&text, rule).map(|_| text)
}
