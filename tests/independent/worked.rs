//! The worked cases of document 01 (C1 to C12, the lister's example, the flipped bit of "Three easy errors"), an ELM of one segment, both forms
//! of every altitude, link numbers, known frames, a small index and a line with breaches, run on this program itself: before it judges the
//! library it has to agree with the paper.

use crate::altitude_cases::FORMS;
use crate::bits;
use crate::case::Tables;
use crate::field::{self, Given};
use crate::frame::{self, Frame, Stream};
use crate::frame_chosen::KNOWN;
use crate::index::{self, Entry, Index};
use crate::index_plain;
use crate::layout::{decode, encode, Rule};
use crate::line;
use crate::line_cases::{item_bytes, valid_items};
use crate::manners::{self, Breach};
use crate::report;
use crate::rng::Rng;

const C2: [u16; 7] = [3973, 1281, 256, 7, 5175, 1414, 4102];

fn look(tables: &Tables, words: &[u16], place: u64) -> line::Look {
    line::look(&tables.reports, 2 * words.len(), words, place)
}

fn refusal(tables: &Tables, words: &[u16]) -> u32 {
    look(tables, words, 0).refusal
}

fn items(tables: &Tables, words: &[u16], numbers: &[u32]) -> Vec<i64> {
    let report = look(tables, words, 0).report.expect("a report");
    numbers.iter().map(|&number| report.item(number).expect("an item")).collect()
}

fn reports(tables: &Tables) {
    let c1 = [868, 1281, 2048, 647];
    assert_eq!(look(tables, &c1, 0).kind, 101);
    assert_eq!(items(tables, &c1, &[1, 2, 5, 7, 6]), [0, 1, 1024, 5, 3]);
    let values = look(tables, &c1, 0).report.and_then(|report| report.values());
    assert_eq!(values, Some((40f64.to_bits(), 90f64.to_bits(), 0.375f64.to_bits())));
    assert_eq!(look(tables, &C2, 0).kind, 106);
    assert_eq!(items(tables, &C2, &[16, 25, 4, 5, 6, 31]), [1, 0xA1B2C3, 40 * 128, 2048, 3, -3]);
    let ending = |first: u16, last: u16| [first, 1281, 256, 7, 5175, 1414, last];
    assert_eq!(refusal(tables, &ending(3973, 4096)), 9);
    assert_eq!(refusal(tables, &ending(3974, 4)), 7);
    assert_eq!(look(tables, &ending(3974, 8), 0).kind, 107);
    assert_eq!(refusal(tables, &[c1, c1].concat()), 6);
    let single: Vec<u32> = [0, 8192, 1024, 577].iter().map(|&word| refusal(tables, &[word])).collect();
    assert_eq!(single, [4, 3, 5, 5]);
}

fn runs(tables: &Tables) {
    let line = [1023, 868, 1281, 2048, 647, 1023, 1023, 3973, 1281, 256, 7, 5175, 1414, 4096];
    let (first, second, end) = (look(tables, &line, 0), look(tables, &line, 5), look(tables, &line, 14));
    assert_eq!((first.kind, first.first, first.after), (101, 1, 5));
    assert_eq!((second.refusal, second.first, second.after, second.named), (9, 7, 14, 7));
    assert_eq!((end.kind, end.first, end.after), (line::END, 14, 14));
    let whole = [3333, 1281, 1022, 868, 1281, 2048, 647];
    assert_eq!(look(tables, &whole, 0).kind, 110);
    let split = [3333, 1281, 1023, 868, 1281, 2048, 647];
    assert_eq!((refusal(tables, &split), look(tables, &split, 2).kind), (6, 101));
}

fn fields(tables: &Tables) {
    let read = |bytes: &[u8], count: u64| field::read(&tables.fields, bytes, count, false);
    let c10 = read(&[0x9B, 0x01, 0x12, 0x83], 32).unwrap_or_else(|refusal| panic!("C10 got {}", refusal));
    assert_eq!(c10.entries, [12, -3]);
    assert_eq!(read(&[0x9B, 0x01, 0x12, 0x80], 32).err(), Some(28));
    let c12 = read(&[0x21, 0xA1, 0xB2, 0xC3, 0x5B, 0, 0, 0, 0, 0, 0, 0], 96).unwrap_or_else(|refusal| panic!("C12 got {}", refusal));
    let wanted = [(201, 0xA1B2C3), (202, 5), (203, 1), (204, 3), (205, 0)];
    assert_eq!(c12.items, wanted);
}

/// An ELM of one segment, bare and relayed, is read and written (Ticket 2 of document 02).
fn segments(tables: &Tables) {
    let bare = [&[0x42, 0x12, 0x34, 0x56, 0x00][..], b"0123456789"].concat();
    let relayed = [&[0x03, 0x07][..], &bare].concat();
    let items = [(237, 7), (201, 0x123456), (206, 0)];
    let rows = [(&bare, 120, 0x42, &items[1..], 5), (&relayed, 136, 0x03, &items[..], 7)];
    for (bytes, count, kind, items, place) in rows {
        let read = field::read(&tables.fields, bytes, count, true).unwrap_or_else(|refusal| panic!("one segment got {}", refusal));
        assert_eq!((read.kind, read.inner, read.text), (kind, 0x42, Some((place, 10))));
        assert_eq!((&read.items[..], read.entries.len()), (items, 0));
        let given: Vec<(u64, u64)> = items.iter().map(|&(number, value)| (u64::from(number), value as u64)).collect();
        let given = Given { kind: 0x42, items: &item_bytes(&given), list: &[0; 240], text: b"0123456789" };
        let mut written = vec![0xFF; 20];
        assert_eq!(field::write(&tables.fields, &mut written, &given), (0, count));
        written.truncate(bytes.len());
        assert_eq!(&written, bytes);
    }
}

/// Of every layout, in both forms, some records written and read give the same items, and written again the same words.
fn both_ways(tables: &Tables) {
    let rng = &mut Rng::new(0, 0, 0);
    for layouts in [0, 1].map(|form| tables.of(form)) {
        for (index, layout) in layouts.iter().enumerate() {
            for _ in 0..40 {
                let items = valid_items(rng, layout);
                let words = report::write(layouts, layout.number, &items).expect("valid values are written");
                let read = line::look(layouts, 2 * words.len(), &words, 0).report.expect("what is written is read");
                let again = read.record();
                assert_eq!((read.layout, &again), (index, &items));
                assert_eq!(report::write(layouts, layout.number, &again), Some(words));
            }
        }
    }
}

/// The forms agree on every pattern of bits 79-90 whose first bit is zero. If it is one, an altitude v of document 01's form is -2048 - v in two's
/// complement, and minus zero is -2048 (Ticket 5 of document 02). Writing undoes reading in both.
fn patterns() {
    for number in 0..4096 {
        let text = format!("{:012b}", number);
        let (signed, complement) = (decode(&text, Rule::Signed), decode(&text, Rule::Complement).expect("every pattern is in use"));
        let wanted = match signed {
            None => -2048,
            Some(altitude) if text.starts_with('1') => -2048 - altitude,
            Some(altitude) => altitude,
        };
        assert_eq!((complement, signed.is_none()), (wanted, number == 2048), "{}", text);
        assert_eq!(complement.rem_euclid(4096), number, "{}", text);
        assert_eq!(encode(complement as u64, 12, Rule::Complement), Some(text.clone()));
        assert_eq!(signed.and_then(|altitude| encode(altitude as u64, 12, Rule::Signed)), signed.map(|_| text));
    }
}

/// An altitude is written exactly within its form's range, and reading undoes writing; far ones are not equal to one in their low bits.
fn altitudes() {
    let near = (-5_000..=5_000i64).chain((12..63).flat_map(|bit| (-2_050..=2_050).map(move |altitude| altitude + (1 << bit))));
    for altitude in near.chain([i64::MIN, i64::MIN + 1, i64::MIN + 2_048, i64::MAX - 2_048, i64::MAX]) {
        for (rule, least) in [(Rule::Signed, -2047), (Rule::Complement, -2048)] {
            let written = encode(altitude as u64, 12, rule);
            assert_eq!(written.is_some(), (least..=2047).contains(&altitude), "{}", altitude);
            assert!(written.iter().all(|text| text.len() == 12 && decode(text, rule) == Some(altitude)), "{}", altitude);
        }
    }
}

/// C2 and C3, in each number that a form may be, and a report whose bits 79-90 are carried.
fn forms(tables: &Tables) {
    let carried = [3844, 1281, 256, 7, 5175, 1414, 4096];
    let c3 = [3973, 1281, 256, 7, 5175, 1414, 4096];
    for form in FORMS {
        let item = |words: &[u16], number: u32| match line::look(tables.of(form), 14, words, 0) {
            line::Look { report: Some(report), .. } => report.item(number),
            refused => Some(i64::from(refused.refusal)),
        };
        let wanted = if form == 0 { [-3, 9, 2048] } else { [-2045, -2048, 2048] };
        assert_eq!([item(&C2, 31), item(&c3, 31), item(&carried, 32)], wanted.map(Some), "form {}", form);
        assert_eq!(item(&carried, 31), None);
    }
    let unlike = tables.of(0).iter().zip(tables.of(1)).filter(|(one, other)| one.pieces != other.pieces).map(|pair| pair.0.name);
    assert_eq!(unlike.collect::<Vec<_>>(), ["DABS with altitude", "ATCRBS with altitude"]);
}

/// C1 on links, and with numbers that are no link's; a line too long, a place beyond the line, the end (Ticket 7 of document 02).
fn links(tables: &Tables) {
    let c1 = [868, 1281, 2048, 647];
    let look = |link: u32, length: usize, place: u64| {
        let look = line::Lent { form: 0, layouts: &tables.reports, link, length, words: &c1 }.look(place);
        (look.kind, look.refusal, [look.first, look.after, look.named], look.link, look.report.is_some())
    };
    for link in 0..=15 {
        assert_eq!(look(link, 8, 0), (101, 0, [0, 4, 0], link, true));
        assert_eq!(look(link, 8, 1), (120, 5, [1, 4, 1], link, false));
        assert_eq!(look(link, 8, 4), (121, 0, [4, 4, 4], link, false));
        assert_eq!(look(link, 8, 5), (120, 1, [5, 5, 5], link, false));
        assert_eq!(look(link, 7, 0), (120, 14, [0, 0, 0], link, false));
        assert_eq!(look(link, 65_538, 3), (120, 2, [3, 3, 3], link, false));
    }
    for (link, length, place) in [(16, 8, 0), (17, 8, 4), (271, 8, 5), (1 << 31, 7, 1), (u32::MAX, 65_538, 3), (16, 0, u64::MAX)] {
        assert_eq!(look(link, length, place), (120, 13, [place; 3], 0, false));
    }
}

/// The known frames are read and written; a check sequence over nine octets; no one or two neighbouring bits may be turned over.
fn frames() {
    assert_eq!(frame::check_sequence(&bits::of_low_first(b"123456789")), bits::of_low_first(&[0x6E, 0x90]));
    for (octets, from_sensor) in KNOWN.iter().zip([false, true]) {
        let text = bits::of_low_first(octets);
        let known = Frame { from_sensor, control: octets[1].reverse_bits(), field: String::new() };
        let sent = known.text();
        assert_eq!(sent, format!("{}{}{}", frame::FLAG, frame::with_zeros(&text), frame::FLAG));
        assert_eq!(frame::look(&Stream::whole(&sent), 0).frame, Some(known));
        for bit in 1..text.len() {
            let one = bits::flipped(&text, bit);
            assert!(!frame::is_right(&one) && !frame::is_right(&bits::flipped(&one, bit + 1)));
        }
    }
}

/// Document 01's ATCRBS report has file number 1024, and the line of its lister's example has no report to enter (Ticket 3 of document 02).
fn index(tables: &Tables) {
    index_plain::check();
    let report = [3333, 1281, 1022, 868, 1281, 2048, 647];
    let entry = Entry { number: 1024, kind: 110, scan: 5, place: 0 };
    assert_eq!(index::entry_of(&look(tables, &report, 0), 5), Some(entry));
    let line = [1023, 868, 1281, 2048, 647, 1023, 1023, 3973, 1281, 256, 7, 5175, 1414, 4096];
    assert!([0, 5, 14].iter().all(|&place| index::entry_of(&look(tables, &line, place), 5).is_none()));
    let mut index = Index::of(&[Entry::default()], 1);
    let dones = [index.find(1024), index.enter(Some(entry)), index.find(1024), index.enter(None), index.enter(Some(entry))];
    assert_eq!(dones, [(127, 0), (123, 0), (126, 0), (125, 0), (124, 0)]);
    assert_eq!((index.enter(Some(Entry { number: 1, ..entry })), index.table()), ((51, 0), vec![entry]));
    assert_eq!([(123, 511), (50, 0)].map(index::answer), [123 + 256 * 511, 50]);
}

/// A line of all four breaches, and lists for it (Ticket 6 of document 02). In both forms, the bits and the items of a report break the same rule.
fn manners(tables: &Tables) {
    let runs: [&[u16]; 4] = [&[3331, 1, 1, 1, 1, 1, 8], &[3584, 1, 1, 32, 1, 1, 1], &[3200, 1, 1, 1, 1, 1, 1], &[1, 21, 1, 16]];
    let words = runs.join(&line::IDLE);
    let breaches = [(0, 1), (8, 2), (16, 3), (24, 4)].map(|(place, rule)| Breach { place, rule });
    let lists = [56, 57, 65_537, 65_538].map(|length| manners::of_line(&tables.reports, length, &words));
    assert_eq!(lists, [Ok(breaches.to_vec()), Err(14), Err(2), Err(2)]);
    assert_eq!(manners::to_bytes(&breaches), [0, 0, 0, 1, 0, 8, 0, 2, 0, 16, 0, 3, 0, 24, 0, 4]);
    let answers = [(0, 15), (0, 16), (1, 16), (2, 16)].map(|(list, length)| manners::answer(manners::done(&lists[list], length)));
    assert_eq!(answers, [4 * 256 + 52, 4 * 256 + 128, 14, 2]);
    let rng = &mut Rng::new(0, 0, 2);
    for layouts in [0, 1].map(|form| tables.of(form)) {
        for layout in layouts {
            for _ in 0..100 {
                let words = report::write(layouts, layout.number, &valid_items(rng, layout)).expect("valid values are written");
                let read = report::read(layouts, &words).unwrap_or_else(|refusal| panic!("{:?} got {:?}", words, refusal));
                assert_eq!(manners::broken(&manners::text_of(&words)), manners::broken_by(&read), "{:?}", words);
            }
        }
    }
}

/// Stops the program where it disagrees with document 01.
pub fn check(tables: &Tables) {
    assert_eq!((tables.reports.len(), tables.fields.len()), (17, 21));
    reports(tables);
    runs(tables);
    fields(tables);
    segments(tables);
    frames();
    index(tables);
    manners(tables);
    patterns();
    altitudes();
    forms(tables);
    links(tables);
    both_ways(tables);
}
