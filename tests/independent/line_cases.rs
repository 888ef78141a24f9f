//! Cases for lines: valid reports, every damage that a refusal of document 01 names, noise, and all lengths; and reports to write.
//!
//! A case is made from the seed and its number alone. Some classes go by the number, so that every seed reaches the quotas.

use crate::bits;
use crate::case::{Case, Tables, Write};
use crate::layout::{encode, Layout, Role, Rule};
use crate::line::{self, IDLE};
use crate::link_cases;
use crate::report::{self, WORD_BITS};
use crate::rng::Rng;

const MOST_WORDS: usize = 32_768;
/// A line of more words is long.
const LONG: usize = 600;
const LINE: u64 = 1;
const WRITE: u64 = 2;

/// A value that the field takes: often a limit, else any.
pub fn valid_value(rng: &mut Rng, width: usize, rule: Rule) -> u64 {
    loop {
        let value = any_value(rng, width, rule);
        if encode(value, width, rule).is_some() {
            return value;
        }
    }
}

fn any_value(rng: &mut Rng, width: usize, rule: Rule) -> u64 {
    let largest = largest(width, rule);
    let value = match rng.below(8) {
        0 => 0,
        1 => 1,
        2 => largest,
        3 => largest - 1,
        _ => rng.between(0, largest),
    };
    match rule {
        Rule::Signed if rng.once_in(2) => value.wrapping_neg(),
        // -1 to the least that there is
        Rule::Complement if rng.once_in(2) => (value + 1).wrapping_neg(),
        _ => value,
    }
}

/// The largest number of the bits, or of those behind the sign.
pub fn largest(width: usize, rule: Rule) -> u64 {
    let digits = if matches!(rule, Rule::Signed | Rule::Complement) { width - 1 } else { width };
    bits::number(&"1".repeat(digits))
}

/// Values for all items of a layout.
pub fn valid_items(rng: &mut Rng, layout: &Layout) -> Vec<(u64, u64)> {
    layout.item_pieces().map(|(number, rule, piece)| (u64::from(number), valid_value(rng, piece.width(), rule))).collect()
}

pub fn item_bytes(items: &[(u64, u64)]) -> Vec<u8> {
    items.iter().flat_map(|(number, value)| [number.to_be_bytes(), value.to_be_bytes()].concat()).collect()
}

pub fn valid_text(rng: &mut Rng, layout: &Layout) -> String {
    let text = layout.write(&valid_items(rng, layout)).expect("valid values are written");
    report::with_parity(&text)
}

pub fn valid(rng: &mut Rng, tables: &Tables) -> Vec<u16> {
    let layout = rng.pick(&tables.reports);
    report::to_words(&valid_text(rng, layout))
}

// ---- damage

/// A report with one thing wrong, sometimes two, so that the order of the refusals shows.
pub fn damaged(rng: &mut Rng, tables: &Tables) -> Vec<u16> {
    let layout = rng.pick(&tables.reports);
    let text = valid_text(rng, layout);
    let text = if rng.once_in(10) { text } else { damage_data(rng, tables, layout, &text) };
    let mut words = report::to_words(&text);
    if rng.once_in(3) {
        damage_words(rng, tables, &mut words);
    }
    words
}

/// Damage that parity does not show: the parity bits are set again.
fn damage_data(rng: &mut Rng, tables: &Tables, layout: &Layout, text: &str) -> String {
    let mut changed = text.to_string();
    match rng.below(8) {
        0 | 1 => {
            let spares = layout.spares();
            if spares.is_empty() {
                return text.to_string();
            }
            let spare = *rng.pick(&spares);
            changed = bits::flipped(text, spare);
        }
        2 => bits::paste(&mut changed, &[(2, 10)], &random_bits(rng, 9)),
        3 => return unassigned_radar(rng, tables),
        4 => return minus_zero(rng, tables),
        5 => changed = bits::flipped(text, rng.index(text.len()) + 1),
        6 => {
            for _ in 0..rng.between(1, 6) {
                changed = bits::flipped(&changed, rng.index(text.len()) + 1);
            }
        }
        _ => bits::paste(&mut changed, &[(1, 12)], &random_bits(rng, 12)),
    }
    report::with_parity(&changed)
}

pub fn random_bits(rng: &mut Rng, width: usize) -> String {
    (0..width).map(|_| if rng.once_in(2) { '1' } else { '0' }).collect()
}

/// Seven words with bit 12 one and any three bits at 88-90.
pub fn unassigned_radar(rng: &mut Rng, tables: &Tables) -> String {
    let seven: Vec<&Layout> = tables.reports.iter().filter(|layout| layout.bits == 7 * WORD_BITS).collect();
    let layout = *rng.pick(&seven);
    let mut text = valid_text(rng, layout);
    bits::paste(&mut text, &[(12, 12)], "1");
    bits::paste(&mut text, &[(88, 90)], &random_bits(rng, 3));
    report::with_parity(&text)
}

/// Altitude with sign 1 and magnitude 0; sometimes with a spare bit, which comes first.
pub fn minus_zero(rng: &mut Rng, tables: &Tables) -> String {
    let signed = |layout: &&Layout| layout.pieces.iter().any(|piece| matches!(piece.role, Role::Item(_, Rule::Signed)));
    let with_altitude: Vec<&Layout> = tables.reports.iter().filter(signed).collect();
    let layout = *rng.pick(&with_altitude);
    let mut text = valid_text(rng, layout);
    bits::paste(&mut text, &[(79, 90)], "100000000000");
    if rng.once_in(4) {
        bits::paste(&mut text, &[(45, 46)], &random_bits(rng, 2));
    }
    report::with_parity(&text)
}

/// Damage of the words: wide, even, too few, too many.
fn damage_words(rng: &mut Rng, tables: &Tables, words: &mut Vec<u16>) {
    let at = rng.index(words.len());
    match rng.below(7) {
        0 => words[at] = words[at].wrapping_add(8192 * rng.between(1, 7) as u16),
        1 | 2 => words[at] ^= *rng.pick(&[1u16, 2, 4, 8, 16, 32, 64, 128, 256, 512, 1024, 2048, 4096]),
        3 => {
            words.remove(at);
        }
        4 => words.insert(at, odd_word(rng)),
        5 => words.truncate(at.max(1)),
        _ => words.extend(valid(rng, tables)),
    }
}

/// A word of 13 bits with an odd number of ones.
pub fn odd_word(rng: &mut Rng) -> u16 {
    let data = random_bits(rng, WORD_BITS);
    report::to_words(&report::with_parity(&data))[0]
}

/// Words that are no report on purpose.
pub fn noise(rng: &mut Rng, most: usize) -> Vec<u16> {
    let length = rng.between(1, most as u64);
    let sort = rng.below(4);
    let near: &[u16] = &[1022, 1023, 1024, 9215, 0, 1, 8191, 8192, 65535, 577, 511, 2047];
    let word = |rng: &mut Rng| match sort {
        0 => rng.below(65_536) as u16,
        1 => rng.below(8_192) as u16,
        2 => odd_word(rng),
        _ => *rng.pick(near),
    };
    (0..length).map(|_| word(rng)).collect()
}

// ---- lines

fn segment(rng: &mut Rng, tables: &Tables, words: usize) -> Vec<u16> {
    match rng.below(20) {
        0..=10 => valid(rng, tables),
        11..=17 => damaged(rng, tables),
        18 => noise(rng, 12),
        _ => noise(rng, 2 + words / 16),
    }
}

/// About so many words: segments with none, one or more idle words between them.
fn fill(rng: &mut Rng, tables: &Tables, words: usize) -> Vec<u16> {
    let widest_gap = *rng.pick(&[1, 3, 30]);
    let mut line = Vec::with_capacity(words + 64);
    if rng.once_in(2) {
        line.extend(vec![IDLE; rng.between(1, widest_gap) as usize]);
    }
    while line.len() < words {
        line.extend(segment(rng, tables, words));
        let gap = if rng.once_in(16) { 0 } else { rng.between(1, widest_gap) };
        line.extend(vec![IDLE; gap as usize]);
    }
    line
}

/// Exactly so many words: cut, or ended with a report at the line's very end.
fn exactly(rng: &mut Rng, tables: &Tables, words: usize) -> Vec<u16> {
    let mut line = fill(rng, tables, words);
    line.truncate(words);
    let last = valid(rng, tables);
    if rng.once_in(3) && words > last.len() {
        let from = words - last.len();
        line[from - 1] = IDLE;
        line[from..].copy_from_slice(&last);
    }
    line
}

pub fn short(rng: &mut Rng, tables: &Tables) -> Vec<u16> {
    let words = match rng.below(8) {
        0 => rng.index(10),
        1 => rng.index(300),
        _ => rng.index(50),
    };
    if rng.once_in(3) {
        fill(rng, tables, words)
    } else {
        exactly(rng, tables, words)
    }
}

fn long(rng: &mut Rng, tables: &Tables) -> Vec<u16> {
    let words = match rng.below(40) {
        0..=29 => rng.between(1_001, 1_400),
        30..=38 => rng.between(1_400, 5_000),
        _ => rng.between(5_000, 32_768),
    };
    exactly(rng, tables, words as usize)
}

/// Every bit of every layout turned over, with the parity set again and without; nothing when all are done.
fn each_bit(rng: &mut Rng, tables: &Tables, number: usize) -> Option<Vec<u16>> {
    let mut left = number;
    for layout in &tables.reports {
        if left < layout.bits {
            let changed = bits::flipped(&valid_text(rng, layout), left + 1);
            let mut line = report::to_words(&report::with_parity(&changed));
            line.push(IDLE);
            line.extend(report::to_words(&changed));
            return Some(line);
        }
        left -= layout.bits;
    }
    None
}

/// How many lines each_bit gives.
fn bits_of_all(tables: &Tables) -> usize {
    tables.reports.iter().map(|layout| layout.bits).sum()
}

/// Every word of 13 bits once as the first of 4 words and once of 7, 128 to a line; nothing when all are done.
fn each_first_word(rng: &mut Rng, number: usize) -> Option<Vec<u16>> {
    let (block, length) = (number / 2, if number % 2 == 0 { 4 } else { 7 });
    if block >= 64 {
        return None;
    }
    let mut line = Vec::new();
    for first in 128 * block..128 * (block + 1) {
        line.push(first as u16);
        for _ in 1..length {
            line.push(if rng.once_in(3) { 1 } else { odd_word(rng) });
        }
        line.push(IDLE);
    }
    Some(line)
}

/// Beside the walk: places inside runs, at the end, beyond it.
pub fn places(rng: &mut Rng, words: usize) -> Vec<u64> {
    let words = words as u64;
    let mut places: Vec<u64> = (0..3).map(|_| rng.between(0, words)).collect();
    places.push(match rng.below(6) {
        0 => words,
        1 => words + 1,
        2 => u64::MAX,
        3 => 1 << 63,
        4 => words + rng.below(100_000),
        _ => rng.next(),
    });
    places
}

pub fn case_of(rng: &mut Rng, bytes: Vec<u8>, form: u32, link: u32) -> Case {
    let words = bytes.len() / 2;
    // On long lines items are asked of some reports only, to keep the number of calls down.
    let step = if words > LONG { 12 } else { 1 };
    Case::Line { form, link, step, places: places(rng, words), bytes }
}

/// The line with that number, read in document 01's form.
pub fn line(tables: &Tables, seed: u64, number: u64) -> Case {
    line_in(&mut Rng::new(seed, LINE, number), tables, number, 0)
}

/// A line whose sort goes by the number, read in a form, on any link. Of the short lines some are read with a number that is no link's.
pub fn line_in(rng: &mut Rng, tables: &Tables, number: u64, form: u32) -> Case {
    if number % 4 == 0 {
        let turn = (number / 4) as usize;
        let all = bits_of_all(tables);
        let made = if turn < all { each_bit(rng, tables, turn) } else { each_first_word(rng, turn - all) };
        if let Some(words) = made {
            let link = link_cases::link(rng);
            return case_of(rng, line::to_bytes(&words), form, link);
        }
    }
    let words = if number % 800 == 7 {
        exactly(rng, tables, MOST_WORDS)
    } else if number % 160 == 5 {
        let over = if rng.once_in(2) { 1 } else { rng.index(1_000) };
        vec![*rng.pick(&[IDLE, 868, 0]); MOST_WORDS + over]
    } else if number % 16 == 3 {
        long(rng, tables)
    } else {
        short(rng, tables)
    };
    let mut bytes = line::to_bytes(&words);
    if number % 50 == 9 || (number % 160 == 5 && rng.once_in(2)) {
        bytes.push(rng.below(256) as u8);
    }
    let link = if words.len() > LONG { link_cases::link(rng) } else { link_cases::mostly(rng) };
    case_of(rng, bytes, form, link)
}

// ---- writing

/// What is wrong with the items or the kind; the room is another matter.
fn spoil(rng: &mut Rng, layout: &Layout, kind: &mut u32, items: &mut Vec<(u64, u64)>) {
    let at = rng.index(items.len());
    match rng.below(9) {
        0 | 1 => spoil_value(rng, layout, items),
        2 => {
            items.remove(at);
        }
        3 => items.push(items[at]),
        4 => items.push((foreign(rng), rng.below(2))),
        5 => items[at].0 = foreign(rng),
        6 => *kind = *rng.pick(&[0, 1, 100, 116, 119, 120, 121, 122, 362, u32::MAX]),
        7 => *kind = rng.between(100, 122) as u32,
        _ => items[at].1 = *rng.pick(&[2, 255, 256, 65_536, 1 << 32, 1 << 63, u64::MAX]),
    }
}

/// One value just beyond its limit, or far beyond.
pub fn spoil_value(rng: &mut Rng, layout: &Layout, items: &mut [(u64, u64)]) {
    let at = rng.index(items.len());
    let mut pieces = layout.item_pieces();
    if let Some((_, rule, piece)) = pieces.find(|piece| u64::from(piece.0) == items[at].0) {
        let largest = largest(piece.width(), rule);
        let beyond = [largest + 1, (largest + 1).wrapping_neg(), 1 << 63, u64::MAX, largest + (1 << 32), 0];
        items[at].1 = *rng.pick(&beyond);
    }
}

/// How many ways spoil_in_turn knows.
pub const WAYS: usize = 14;

/// One item, by its place in the layout: a value at a limit or beyond, or the item missing, doubled or with a number that is equal only in
/// its low bits.
pub fn spoil_in_turn(layout: &Layout, items: &mut Vec<(u64, u64)>, at: usize, way: usize) {
    let (_, rule, piece) = layout.item_pieces().nth(at).expect("an item of the layout");
    let largest = largest(piece.width(), rule);
    let beyond = largest + 1;
    let values = [0, 1, 2, 7, largest, beyond, beyond.wrapping_neg(), largest.wrapping_neg(), u64::MAX, 1 << 63, largest + (1 << 32)];
    match way {
        0..=10 => items[at].1 = values[way],
        11 => {
            items.remove(at);
        }
        12 => items.push(items[at]),
        _ => items[at].0 += 1 << 32,
    }
}

/// A number of an item: of another kind, of a field, or of none; or one that is equal only in its low bits.
pub fn foreign(rng: &mut Rng) -> u64 {
    match rng.below(4) {
        0 => rng.below(42),
        1 => rng.between(200, 240),
        2 => rng.between(1, 36) + (1 << 32),
        _ => *rng.pick(&[0, 37, 256, 1 << 63, u64::MAX]),
    }
}

/// Items as bytes, in any order, sometimes with a length that is no multiple of sixteen.
pub fn shuffled_bytes(rng: &mut Rng, items: &mut [(u64, u64)], torn: bool) -> Vec<u8> {
    if rng.below(4) > 0 {
        rng.shuffle(items);
    }
    let mut bytes = item_bytes(items);
    if torn && !bytes.is_empty() {
        let whole = bytes.len();
        let any = rng.index(whole + 16);
        bytes.resize(*rng.pick(&[0, 1, whole - 1, whole + 1, whole - 8, whole + 8, whole + 16, any]), 0);
    }
    bytes
}

/// A report to write in a form, right or wrong, and the words that it takes with its idle word.
fn written(rng: &mut Rng, tables: &Tables, place: u64, form: u32) -> (Write, usize) {
    let layout = rng.pick(tables.of(form));
    let mut kind = layout.number;
    let mut items = valid_items(rng, layout);
    if rng.below(5) < 2 {
        spoil(rng, layout, &mut kind, &mut items);
    }
    let torn = rng.once_in(24);
    let items = shuffled_bytes(rng, &mut items, torn);
    (Write { place, form, kind, items }, layout.bits / WORD_BITS + 1)
}

/// The same with each item of each layout spoilt in each way, by turns.
fn written_in_turn(rng: &mut Rng, tables: &Tables, turn: usize, place: u64, form: u32) -> (Write, usize) {
    let choices: Vec<(&Layout, usize)> = tables.of(form).iter().flat_map(|layout| (0..layout.items().len()).map(move |at| (layout, at))).collect();
    let (layout, at) = choices[turn / WAYS % choices.len()];
    let mut items = valid_items(rng, layout);
    spoil_in_turn(layout, &mut items, at, turn % WAYS);
    let items = shuffled_bytes(rng, &mut items, false);
    (Write { place, form, kind: layout.number, items }, layout.bits / WORD_BITS + 1)
}

/// The length of the line, in words, around a report that takes so many from a place.
fn room(rng: &mut Rng, place: usize, needed: usize) -> usize {
    match rng.below(6) {
        0 => place + needed - 1,
        1 => place + rng.index(needed + 1),
        2 => place + needed + 1,
        3 => place + needed + rng.index(20),
        _ => place + needed,
    }
}

/// A place at the end of the line or beyond it.
fn beyond(rng: &mut Rng, words: u64) -> u64 {
    let any = rng.next();
    *rng.pick(&[words, words + 1, u64::MAX, 1 << 63, any])
}

/// The line before a report is written: idle, or anything at all.
fn before(rng: &mut Rng, words: usize) -> Vec<u8> {
    if rng.once_in(3) {
        line::to_bytes(&vec![IDLE; words])
    } else {
        rng.bytes(2 * words)
    }
}

/// The writing with that number, in document 01's form.
pub fn write(tables: &Tables, seed: u64, number: u64) -> Case {
    write_in(&mut Rng::new(seed, WRITE, number), tables, number, 0, |_| 0)
}

/// Gives the form of one report after the other.
pub type Forms = fn(&mut Rng) -> u32;

/// A writing whose sort goes by the number: mostly one report, in a form, sometimes several one behind the other, the later ones in other forms.
pub fn write_in(rng: &mut Rng, tables: &Tables, number: u64, form: u32, forms: Forms) -> Case {
    let place = if rng.once_in(3) { 0 } else { rng.index(12) };
    let (mut first, needed) = if number % 3 == 0 {
        written_in_turn(rng, tables, (number / 3) as usize, place as u64, form)
    } else {
        written(rng, tables, place as u64, form)
    };
    let mut words = room(rng, place, needed);
    let over = number % 75 == 57;
    let odd = number % 20 == 9 || (over && rng.once_in(2));
    if number % 75 == 7 {
        words = MOST_WORDS;
        first.place = (MOST_WORDS - needed + rng.index(3)) as u64 - 1;
    } else if over {
        words = MOST_WORDS + 1 + rng.index(50);
    }
    if number % 20 == 13 || ((over || odd) && rng.once_in(3)) {
        first.place = beyond(rng, words as u64);
    }
    let chained = first.place == place as u64 && rng.once_in(5);
    let mut bytes = before(rng, if chained { words + 30 } else { words });
    if odd {
        bytes.push(rng.below(256) as u8);
    }
    let mut writes = vec![first];
    if chained {
        chain(rng, tables, &bytes, &mut writes, forms);
    }
    Case::Write { bytes, writes }
}

/// More reports, each at the place that the one before answered.
fn chain(rng: &mut Rng, tables: &Tables, bytes: &[u8], writes: &mut Vec<Write>, forms: Forms) {
    let mut line = bytes.to_vec();
    for _ in 0..rng.between(1, 5) {
        let last = &writes[writes.len() - 1];
        let (_, place) = line::write(tables.of(last.form), &mut line, last.place, last.kind, &last.items);
        let form = forms(rng);
        writes.push(written(rng, tables, place, form).0);
    }
}
