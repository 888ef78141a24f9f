//! Cases for link data fields: every type and relay with values at their limits, every damage that a refusal of document 01 names, every
//! bit count; and fields to write. Then ELMs of one segment, and fields that are nearly so.

use crate::bits;
use crate::case::{Case, Tables};
use crate::field::{self, Field, Given, Tail, LENGTH, LIST, RELAY, SENSOR};
use crate::layout::Rule;
use crate::line_cases::{foreign, item_bytes, shuffled_bytes, spoil_in_turn, spoil_value, valid_items, WAYS};
use crate::rng::Rng;

const FIELD: u64 = 3;
const FIELD_WRITE: u64 = 4;
const SEGMENT: u64 = 7;
const SEGMENT_WRITE: u64 = 8;

/// What a field is written from.
pub struct Parts {
    pub kind: u32,
    pub items: Vec<(u64, u64)>,
    pub list: Vec<i64>,
    pub text: Vec<u8>,
}

impl Parts {
    pub fn value(&self, number: u32) -> u64 {
        self.items.iter().find(|item| item.0 == u64::from(number)).map_or(0, |item| item.1)
    }

    pub fn list_bytes(&self) -> Vec<u8> {
        self.list.iter().flat_map(|entry| entry.to_be_bytes()).collect()
    }
}

/// A record that the writer takes. The turn goes round the counts of lists and texts.
fn valid_parts(rng: &mut Rng, field: &Field, relayed: bool, turn: usize) -> Parts {
    let mut parts = Parts { kind: field.head.number, items: valid_items(rng, &field.head), list: vec![0; LIST], text: Vec::new() };
    if field.tail != Tail::Nothing {
        set_counts(field, &mut parts, turn);
    }
    fit_tail(rng, field, &mut parts);
    if relayed {
        parts.items.push((u64::from(SENSOR), *rng.pick(&[0, 1, 254, 255])));
    }
    parts
}

/// The counts that the bits of the turn spell in the last byte of the fixed part, if they are in use.
fn set_counts(field: &Field, parts: &mut Parts, turn: usize) {
    let mut text = field.head.write(&parts.items).expect("valid values are written");
    let last = (field.head.bits - 7, field.head.bits);
    let zeros = field.head.spares();
    let mut byte = format!("{:08b}", turn % 256);
    for bit in (last.0..=last.1).filter(|bit| zeros.contains(bit)) {
        byte.replace_range(bit - last.0..bit - last.0 + 1, "0");
    }
    bits::paste(&mut text, &[last], &byte);
    if let Some(items) = field.head.read(&text) {
        parts.items = items.iter().map(|&(number, value)| (u64::from(number), value as u64)).collect();
    }
}

/// The list or the text that the counts tell, as far as the list goes.
fn fit_tail(rng: &mut Rng, field: &Field, parts: &mut Parts) {
    let units = field.units(|number| parts.value(number).min(20)).min(LIST);
    match field.tail {
        Tail::Nothing => (),
        Tail::Text => parts.text = rng.bytes(10 * units),
        Tail::Blocks => parts.list[..units].iter_mut().for_each(|entry| *entry = correction(rng)),
        Tail::Entries => parts.list[..units].iter_mut().for_each(|entry| *entry = address(rng)),
    }
}

fn correction(rng: &mut Rng) -> i64 {
    match rng.below(6) {
        0 => -79,
        1 => 79,
        2 => *rng.pick(&[0, 1, -1, 9, -9, 10, -10]),
        _ => rng.below(159) as i64 - 79,
    }
}

fn address(rng: &mut Rng) -> i64 {
    match rng.below(6) {
        0 => 0,
        1 => 0xFF_FFFF,
        _ => rng.below(0x100_0000) as i64,
    }
}

/// The bits of a record that the writer takes.
pub fn text_of(tables: &Tables, parts: &Parts) -> String {
    let mut bytes = vec![0; 251];
    let (items, list) = (item_bytes(&parts.items), parts.list_bytes());
    let given = Given { kind: parts.kind, items: &items, list: &list, text: &parts.text };
    let (refusal, count) = field::write(&tables.fields, &mut bytes, &given);
    assert!(refusal == 0, "a valid record is written");
    bits::of_bytes(&bytes)[..count as usize].to_string()
}

/// A field as it is read: bits, which way, and what is wrong with the slice that carries it.
struct Carried {
    text: String,
    from_sensor: bool,
    /// bytes added (or taken away) at the end
    more_bytes: i64,
    /// the count, where it is not that of the text
    count: Option<u64>,
}

/// The layouts, and behind them the relay of each that may be relayed.
pub fn kinds(tables: &Tables) -> Vec<(&Field, bool)> {
    let plain = tables.fields.iter().map(|field| (field, false));
    let relayed = tables.fields.iter().filter(|field| field.relayed()).map(|field| (field, true));
    plain.chain(relayed).collect()
}

fn carried(rng: &mut Rng, tables: &Tables, kind: (&Field, bool)) -> Carried {
    let turn = rng.index(256);
    carried_in_turn(rng, tables, kind, turn)
}

fn carried_in_turn(rng: &mut Rng, tables: &Tables, kind: (&Field, bool), turn: usize) -> Carried {
    let parts = valid_parts(rng, kind.0, kind.1, turn);
    Carried { text: text_of(tables, &parts), from_sensor: kind.0.from_sensor, more_bytes: 0, count: None }
}

/// A valid field; the number goes round the twenty-two types, and in relays round the types inside.
fn valid(rng: &mut Rng, tables: &Tables, number: usize) -> Carried {
    let kinds = kinds(tables);
    let types = tables.fields.len();
    let turn = number % (types + 1);
    let relays = kinds.len() - types;
    let index = if turn < types { turn } else { types + number / (types + 1) % relays };
    carried_in_turn(rng, tables, kinds[index], number / (types + 1))
}

// ---- damage

/// Every bit of every fixed part turned over, and every bit before it in a relay.
fn each_bit(rng: &mut Rng, tables: &Tables, number: usize) -> Carried {
    let kinds = kinds(tables);
    let bits_of = |kind: &(&Field, bool)| kind.0.head.bits + if kind.1 { 16 } else { 0 };
    let all: usize = kinds.iter().map(bits_of).sum();
    let mut left = number % all;
    for kind in &kinds {
        if left < bits_of(kind) {
            let mut field = carried(rng, tables, *kind);
            field.text = bits::flipped(&field.text, left + 1);
            return field;
        }
        left -= bits_of(kind);
    }
    unreachable!("the number is below the sum");
}

/// A field of a known type cut or lengthened to that many bits.
fn each_count(rng: &mut Rng, tables: &Tables, number: usize) -> Carried {
    let kinds = kinds(tables);
    let kind = *rng.pick(&kinds);
    let mut field = carried(rng, tables, kind);
    resize(rng, &mut field.text, number % 2_101);
    field
}

fn resize(rng: &mut Rng, text: &mut String, count: usize) {
    text.truncate(count);
    let digits = if rng.once_in(2) { 1 } else { 2 };
    while text.len() < count {
        text.push(if rng.below(digits) == 1 { '1' } else { '0' });
    }
}

/// A few bits whose numbers are not all in use: an item with a rule, or the first altimeter block; and the Length of an ELM, which tells a
/// count.
struct Spot<'a> {
    kind: (&'a Field, bool),
    from: usize,
    to: usize,
}

fn spots(tables: &Tables) -> Vec<Spot<'_>> {
    let mut spots = Vec::new();
    for kind in kinds(tables) {
        for (_, rule, piece) in kind.0.head.item_pieces().filter(|piece| piece.1 != Rule::Any || piece.0 == LENGTH) {
            let (first, to) = piece.spans[0];
            let from = if rule == Rule::Advisory { to - 2 } else { first };
            spots.push(Spot { kind, from, to });
        }
        if kind.0.tail == Tail::Blocks {
            spots.push(Spot { kind, from: 17, to: 24 });
        }
    }
    spots
}

/// Every number in every such spot, by turns.
fn each_value(rng: &mut Rng, tables: &Tables, number: usize) -> Carried {
    let spots = spots(tables);
    let values = |spot: &Spot| 2usize.pow((spot.to + 1 - spot.from) as u32);
    let mut left = number % spots.iter().map(values).sum::<usize>();
    for spot in &spots {
        if left < values(spot) {
            return with_value(rng, tables, spot, left);
        }
        left -= values(spot);
    }
    unreachable!("the number is below the sum");
}

/// A field with that number in that spot. An ELM is given the text that its Length then tells, since 26 would come first.
fn with_value(rng: &mut Rng, tables: &Tables, spot: &Spot, value: usize) -> Carried {
    let mut field = carried(rng, tables, spot.kind);
    let head = spot.kind.0.head.bits;
    let before = if spot.kind.1 { 16 } else { 0 };
    let bits = bits::of_number(value as u64, spot.to + 1 - spot.from).expect("so many bits");
    if spot.kind.0.tail == Tail::Blocks {
        let shift = 8 * rng.index((field.text.len() - 16) / 8);
        bits::paste(&mut field.text, &[(spot.from + shift, spot.to + shift)], &bits);
        return field;
    }
    bits::paste(&mut field.text, &[(before + spot.from, before + spot.to)], &bits);
    if spot.kind.0.tail == Tail::Text && spot.to == head {
        resize(rng, &mut field.text, before + head + 80 * (value + 1));
    }
    field
}

fn rng_byte(rng: &mut Rng) -> u8 {
    rng.below(256) as u8
}

/// One of the spare bits, often with a value not in use beside it, since 27 comes first.
fn spare(rng: &mut Rng, tables: &Tables) -> Carried {
    let kinds = kinds(tables);
    let with_spares: Vec<_> = kinds.iter().filter(|kind| !kind.0.head.spares().is_empty()).collect();
    let kind = **rng.pick(&with_spares);
    let spots = spots(tables);
    let same = |spot: &&Spot| spot.kind.0.head.number == kind.0.head.number && spot.kind.1 == kind.1;
    let own: Vec<&Spot> = spots.iter().filter(same).collect();
    let mut field = if own.is_empty() || rng.once_in(2) {
        carried(rng, tables, kind)
    } else {
        let spot = *rng.pick(&own);
        let values = 2usize.pow((spot.to + 1 - spot.from) as u32);
        let value = *rng.pick(&[0, values / 2, values - 1]);
        with_value(rng, tables, spot, value)
    };
    let before = if kind.1 { 16 } else { 0 };
    let spares = kind.0.head.spares();
    field.text = bits::flipped(&field.text, before + *rng.pick(&spares));
    field
}

/// Another type: any of the 256, in the field or inside its relay.
fn other_type(rng: &mut Rng, tables: &Tables) -> Carried {
    let kinds = kinds(tables);
    let kind = *rng.pick(&kinds);
    let mut field = carried(rng, tables, kind);
    let known: &[u8] = &[0x03, 0x62, 0x64, 0x9C, 0xC1, 0xC2, 0x80, 0x83, 0x84, 0x8F, 0x61, 0x00, 0x21, 0x42];
    let new = if rng.once_in(3) { *rng.pick(known) } else { rng_byte(rng) };
    let from = if kind.1 && rng.below(4) > 0 { 17 } else { 1 };
    bits::paste(&mut field.text, &[(from, from + 7)], &format!("{:08b}", new));
    if rng.once_in(3) {
        field.from_sensor = !field.from_sensor;
    }
    field
}

/// A relay that holds what no relay may hold, or too little, or travels the wrong way.
fn odd_relay(rng: &mut Rng, tables: &Tables) -> Carried {
    let kinds = kinds(tables);
    let kind = *rng.pick(&kinds);
    let mut field = carried(rng, tables, kind);
    field.text = format!("{:08b}{:08b}{}", RELAY, rng_byte(rng), field.text);
    field.from_sensor = rng.below(5) > 0;
    if rng.once_in(3) {
        let count = rng.between(8, 40) as usize;
        resize(rng, &mut field.text, count);
    }
    field
}

/// A field that ends inside a byte, with one of the bits behind it set.
fn behind_count(rng: &mut Rng, tables: &Tables) -> Carried {
    let kinds = kinds(tables);
    let ending_inside: Vec<_> = kinds.iter().filter(|kind| kind.0.head.bits % 8 != 0).collect();
    let kind = **rng.pick(&ending_inside);
    let mut field = carried(rng, tables, kind);
    let count = field.text.len();
    field.count = Some(count as u64);
    resize(rng, &mut field.text, (count + 7) / 8 * 8);
    let bit = rng.between(count as u64 + 1, field.text.len() as u64) as usize;
    bits::paste(&mut field.text, &[(bit, bit)], "1");
    field
}

/// The slice around the field: bytes too many or too few, a bit behind the count, a count of any size.
fn odd_slice(rng: &mut Rng, field: &mut Carried) {
    match rng.below(8) {
        0 => field.more_bytes = *rng.pick(&[-1, 1]),
        1 => field.more_bytes = rng.below(300) as i64 - 150,
        2 => field.more_bytes = -(field.text.len() as i64),
        3 => field.count = Some((field.text.len() as u64).saturating_sub(rng.between(1, 8))),
        4 => field.count = Some(field.text.len() as u64 + rng.between(1, 16)),
        5 => field.count = Some(*rng.pick(&[0, 7, 8, 2008, 2009, 2016, u64::MAX, 1 << 63, (1 << 32) + 40])),
        6 => {
            let count = field.text.len() + rng.between(1, 20) as usize;
            resize(rng, &mut field.text, count);
        }
        _ => {
            let fewer = field.text.len().saturating_sub(rng.between(1, 90) as usize);
            field.text.truncate(fewer);
        }
    }
}

fn random(rng: &mut Rng) -> Carried {
    let length = if rng.once_in(2) { rng.index(20) } else { rng.index(270) };
    let text = bits::of_bytes(&rng.bytes(length));
    Carried { text, from_sensor: rng.once_in(2), more_bytes: 0, count: None }
}

fn damaged(rng: &mut Rng, tables: &Tables, number: usize) -> Carried {
    let turn = number / 8;
    let mut field = match number % 8 {
        0 => each_bit(rng, tables, turn),
        1 => each_count(rng, tables, turn),
        2 => each_value(rng, tables, turn),
        3 => spare(rng, tables),
        4 => other_type(rng, tables),
        5 => odd_relay(rng, tables),
        6 => random(rng),
        _ if turn % 4 == 0 => behind_count(rng, tables),
        _ => valid(rng, tables, turn),
    };
    if (number % 8 == 7 && turn % 4 != 0) || rng.once_in(12) {
        odd_slice(rng, &mut field);
    }
    if rng.once_in(16) {
        field.from_sensor = !field.from_sensor;
    }
    if rng.once_in(8) && field.count.is_none() {
        second(rng, &mut field.text);
    }
    field
}

/// A second damage, so that the order of the refusals shows.
fn second(rng: &mut Rng, text: &mut String) {
    let from = *rng.pick(&[9, 17, 33, 41, 49]);
    match rng.below(4) {
        0 if !text.is_empty() => *text = bits::flipped(text, rng.index(text.len()) + 1),
        1 if text.len() >= from + 7 => bits::paste(text, &[(from, from + 7)], "00000000"),
        2 if text.len() >= from + 7 => bits::paste(text, &[(from, from + 7)], "11111111"),
        _ => {
            let count = text.len() + 8 * rng.index(3);
            resize(rng, text, count.saturating_sub(8));
        }
    }
}

fn case_of(rng: &mut Rng, field: Carried) -> Case {
    let mut bytes = bits::to_bytes(&field.text);
    let length = (bytes.len() as i64 + field.more_bytes).max(0) as usize;
    bytes.resize(length, 0);
    let from_sensor = if field.from_sensor { *rng.pick(&[1, 1, 2, 256, u32::MAX]) } else { 0 };
    let count = field.count.unwrap_or(field.text.len() as u64);
    // Of a refused field items are asked at times only: they are all 0.
    let ask = rng.once_in(16);
    let indices = vec![*rng.pick(&[32, 255, 1 << 32, 1 << 63, u64::MAX])];
    Case::Field { bytes, count, from_sensor, ask, indices }
}

/// The field with that number: every other one is valid.
pub fn field(tables: &Tables, seed: u64, number: u64) -> Case {
    let rng = &mut Rng::new(seed, FIELD, number);
    let turn = (number / 2) as usize;
    let field = if number % 2 == 0 { valid(rng, tables, turn) } else { damaged(rng, tables, turn) };
    case_of(rng, field)
}

// ---- writing

/// One thing that makes a record unwritable, or leaves it writable at a limit.
fn spoil(rng: &mut Rng, field: &Field, parts: &mut Parts) {
    let at = rng.index(parts.items.len());
    match rng.below(12) {
        0 | 1 => spoil_value(rng, &field.head, &mut parts.items),
        2 => {
            parts.items.remove(at);
        }
        3 => parts.items.push(parts.items[at]),
        4 => parts.items.push((foreign(rng), rng.below(2))),
        5 => parts.items[at].0 = foreign(rng),
        6 => parts.kind = *rng.pick(&[0, 3, 0x62, 0x64, 0x80, 0x9C, 0xC1, 0x121, 0x100, u32::MAX]),
        7 => parts.kind = rng.below(256) as u32,
        8 => parts.items.push((u64::from(SENSOR), *rng.pick(&[0, 255, 256, u64::MAX]))),
        9 => parts.items[at].1 = rng.below(16),
        10 => spoil_list(rng, &mut parts.list),
        _ => spoil_text(rng, &mut parts.text),
    }
}

fn spoil_list(rng: &mut Rng, list: &mut [i64]) {
    let at = if rng.once_in(2) { rng.index(list.len()) } else { rng.index(5) };
    list[at] = *rng.pick(&[0, 1, -1, 79, 80, -79, -80, 0xFF_FFFF, 0x100_0000, i64::MIN, i64::MAX, 1 << 32, -0x100_0000]);
}

fn spoil_text(rng: &mut Rng, text: &mut Vec<u8>) {
    let length = match rng.below(4) {
        0 => text.len() + 10,
        1 => text.len() + 1,
        2 => text.len().saturating_sub(1),
        _ => rng.index(180),
    };
    text.resize(length, 0xA5);
}

/// Each item of each type, plain and relayed, by turns.
fn item_in_turn<'a>(kinds: &[(&'a Field, bool)], turn: usize) -> ((&'a Field, bool), usize) {
    let all: usize = kinds.iter().map(|kind| kind.0.head.items().len()).sum();
    let mut left = turn % all;
    for kind in kinds {
        let items = kind.0.head.items().len();
        if left < items {
            return (*kind, left);
        }
        left -= items;
    }
    unreachable!("the turn is below the sum");
}

/// The writing with that number.
pub fn write(tables: &Tables, seed: u64, number: u64) -> Case {
    let rng = &mut Rng::new(seed, FIELD_WRITE, number);
    let kinds = kinds(tables);
    let turn = (number / 4) as usize;
    let kind = if number % 4 == 0 { item_in_turn(&kinds, turn / WAYS).0 } else { kinds[number as usize % kinds.len()] };
    let mut parts = valid_parts(rng, kind.0, kind.1, number as usize / kinds.len());
    let needed = (text_of(tables, &parts).len() + 7) / 8;
    if number % 4 == 0 {
        spoil_in_turn(&kind.0.head, &mut parts.items, item_in_turn(&kinds, turn / WAYS).1, turn % WAYS);
        if rng.once_in(2) {
            fit_tail(rng, kind.0, &mut parts);
        }
    } else if rng.once_in(2) {
        spoil(rng, kind.0, &mut parts);
    }
    let length = match rng.below(6) {
        0 => needed - 1,
        1 => rng.index(needed + 1),
        2 => needed + rng.index(20),
        3 => 251,
        _ => needed,
    };
    let mut list = parts.list_bytes();
    if rng.once_in(30) {
        let other = *rng.pick(&[0, 8, 232, 239, 241, 248, 256]);
        list.resize(other, 0);
    }
    let torn = rng.once_in(30);
    let items = shuffled_bytes(rng, &mut parts.items, torn);
    Case::FieldWrite { bytes: rng.bytes(length), kind: parts.kind, items, list, text: parts.text }
}

// ---- ELMs of one segment

fn of_type(tables: &Tables, number: u32) -> &Field {
    tables.fields.iter().find(|field| field.head.number == number).expect("a type of the table")
}

/// Another count, which still tells Length: near, whole segments more, or any.
fn other_count(rng: &mut Rng, text: &mut String) {
    let right = text.len() as u64;
    let least = right - 80;
    let count = match rng.below(4) {
        0 => *rng.pick(&[right - 1, right + 1]),
        1 => *rng.pick(&[least, right - 8, right + 8, right + 16]),
        2 => right + 80 * rng.between(1, 15),
        _ => rng.between(least, 2008),
    };
    resize(rng, text, if count == right { right + 1 } else { count } as usize);
}

/// An ELM of that type with Length 0 and one segment, whether that is in use or not. Length is the last item of the fixed part.
fn with_length_0(rng: &mut Rng, tables: &Tables, number: u32, relayed: bool) -> Carried {
    let kind = of_type(tables, number);
    let mut field = carried(rng, tables, (kind, relayed));
    let head = kind.head.bits + if relayed { 16 } else { 0 };
    bits::paste(&mut field.text, &[(head - 3, head)], "0000");
    field.text.truncate(head + 80);
    field
}

/// The ELM of one segment with that number, bare and relayed by turns, or a field that is nearly one; the number goes round what can be
/// said of it.
pub fn segment(tables: &Tables, seed: u64, number: u64) -> Case {
    let rng = &mut Rng::new(seed, SEGMENT, number);
    let relayed = number % 2 == 1;
    let before = if relayed { 16 } else { 0 };
    let turn = (number / 16) as usize;
    let types: Vec<usize> = if relayed { (1..=8).chain(17..=24).collect() } else { (1..=8).collect() };
    let mut field = with_length_0(rng, tables, 0x42, relayed);
    match number / 2 % 8 {
        0 => (),
        1 => field.from_sensor = false,
        2 => other_count(rng, &mut field.text),
        3 => {
            field.text = bits::flipped(&field.text, before + 33 + turn % 4);
            other_count(rng, &mut field.text);
        }
        4 => field.text = bits::flipped(&field.text, before + 33 + turn % 4),
        5 => field.text = bits::flipped(&field.text, types[turn % types.len()]),
        6 => field.text = bits::flipped(&field.text, before + 37 + turn % 4),
        _ => {
            field = with_length_0(rng, tables, 0x22, false);
            if relayed {
                other_count(rng, &mut field.text);
            }
        }
    }
    case_of(rng, field)
}

/// The writing of an ELM of one segment with that number: as it should be, with another text, with too little room, or as a 22.
pub fn write_segment(tables: &Tables, seed: u64, number: u64) -> Case {
    let rng = &mut Rng::new(seed, SEGMENT_WRITE, number);
    let way = number / 2 % 4;
    let uplink = way == 3;
    let relayed = number % 2 == 1 && !uplink;
    let field = of_type(tables, if uplink { 0x22 } else { 0x42 });
    let mut parts = valid_parts(rng, field, relayed, 1);
    parts.items.retain(|item| item.0 != u64::from(LENGTH));
    parts.items.push((u64::from(LENGTH), 0));
    parts.text.truncate(10);
    let needed = if relayed { 17 } else { 15 };
    let larger = needed + rng.index(20);
    let mut length = *rng.pick(&[needed, needed + 1, larger, 251]);
    match way {
        1 => spoil_text(rng, &mut parts.text),
        2 => length = if rng.once_in(2) { needed - 1 } else { rng.index(needed) },
        _ => (),
    }
    // 30 comes before 31.
    if (way == 1 || uplink) && rng.once_in(4) {
        length = rng.index(needed);
    }
    let list = parts.list_bytes();
    let items = shuffled_bytes(rng, &mut parts.items, false);
    Case::FieldWrite { bytes: rng.bytes(length), kind: parts.kind, items, list, text: parts.text }
}
