//! Chosen cases of the index, each once, with answers worked out by hand: each refusal's smallest table beside its nearest neighbour; every
//! outcome of a line on sound and broken tables; every small table; every bit of a number, every size around the limits, every entry, every
//! file number, every place of a line; scans, lines and places at the ends of what a number holds.

use crate::case::{Case, Tables};
use crate::index::{Done, Entry};
use crate::index_case::{Indexing, Step};
use crate::index_plain::{every_table, of_numbers};
use crate::line::{self, IDLE};
use crate::run::Named;

/// The kinds of report by their first and last word, as the formats of document 01 give them: all else is zero, so the words between are 1,
/// but the sixth has the file number (of DABS, half of the address). Those of four words have no last word here.
const KINDS: &[(u32, u16, u16)] = &[
    (101, 865, 0),
    (102, 769, 0),
    (103, 1, 0),
    (104, 385, 0),
    (105, 4672, 0),
    (106, 3584, 1),
    (107, 3587, 8),
    (108, 3587, 13),
    (109, 3587, 11),
    (110, 3073, 1),
    (111, 3074, 8),
    (112, 3074, 13),
    (113, 3074, 11),
    (114, 3074, 4),
    (115, 3074, 2),
];

/// The words of a report of that kind with that number in its sixth word.
fn report(kind: u32, number: u16) -> Vec<u16> {
    let &(_, first, last) = KINDS.iter().find(|row| row.0 == kind).expect("a kind");
    let even = format!("{:b}", number).matches('1').count() % 2 == 0;
    let sixth = 2 * number + u16::from(even);
    if last == 0 {
        vec![first, 1, 1, 1]
    } else {
        vec![first, 1, 1, 1, 1, sixth, last]
    }
}

/// The words of a line in text: I is an idle word, 110:7 a report of kind 110 with number 7, other numbers are words.
fn words_of(text: &str) -> Vec<u16> {
    let words = |word: &str| match word.split_once(':') {
        Some((kind, number)) => report(kind.parse().expect("a kind"), number.parse().expect("a number")),
        None if word == "I" => vec![IDLE],
        None => vec![word.parse().expect("a word")],
    };
    text.split_whitespace().flat_map(words).collect()
}

/// The entries of a table in text: 0 is an unused entry, _ one that holds other things, 7 a used one, 7:110:4:9 one with its kind, scan and
/// place, 0*5 an entry five times, 1..5 used ones from 1 to 5.
pub fn table_of(text: &str) -> Vec<Entry> {
    let number = |word: &str| word.parse::<u16>().expect("a number");
    let one = |word: &str| match word {
        "_" => Entry { number: 0, kind: 113, scan: 7, place: 77 },
        "0" => Entry::default(),
        _ => of_numbers(&[number(word)])[0],
    };
    let whole = |word: &str| {
        let parts: Vec<&str> = word.split(':').collect();
        let scan = parts[2].parse().expect("a scan");
        Entry { number: number(parts[0]), kind: number(parts[1]), scan, place: parts[3].parse().expect("a place") }
    };
    let entries = |word: &str| {
        if let Some((from, to)) = word.split_once("..") {
            of_numbers(&(number(from)..=number(to)).collect::<Vec<u16>>())
        } else if let Some((entry, times)) = word.split_once('*') {
            vec![one(entry); times.parse().expect("a number")]
        } else if word.contains(':') {
            vec![whole(word)]
        } else {
            vec![one(word)]
        }
    };
    text.split_whitespace().flat_map(entries).collect()
}

pub fn bytes_of(text: &str) -> Vec<u8> {
    line::to_bytes(&words_of(text))
}

const fn enter(line: usize, place: u64, scan: u32) -> Step {
    Step::Enter { line, place, form: 0, link: 0, scan }
}

const fn walk(line: usize, scan: u32) -> Step {
    Step::Walk { line, place: 0, form: 0, link: 0, scan }
}

pub const fn find(number: u32) -> Step {
    Step::Find { number }
}

/// The case, alone and with entries around it; its answers have to be those worked out by hand. The entries around the table are an unused
/// one in front, and behind it one with its first number and one with number 1.
pub fn checked(tables: &Tables, name: &str, indexing: Indexing, dones: &[Done]) -> Vec<Named> {
    let (worked_out, _) = indexing.worked_out(tables);
    assert_eq!(worked_out, dones, "{}", name);
    let first = indexing.entries.first().map_or(5, |entry| entry.number);
    let mut entries = vec![Entry::default()];
    entries.extend(&indexing.entries);
    entries.extend(of_numbers(&[first, 1]));
    let among = Indexing { entries, front: 1, size: indexing.size, lines: indexing.lines.clone(), steps: indexing.steps.clone() };
    vec![(name.to_string(), Case::Index(indexing)), (format!("{}, others around", name), Case::Index(among))]
}

// ---- what is at the place, and what is in the table

/// Outcomes that are entered, all with file number 1.
pub const WITH_NUMBER: &[&str] = &["110:1", "111:1", "112:1", "113:1", "114:1", "115:1", "I I 110:1", "3200 1 1 1 1 2 1", "110:1 I 8192"];

/// Outcomes that are not: other kinds, file number 0, refusals 3 to 9, the end.
pub const WITHOUT_NUMBER: &[&str] = &[
    "101:1",
    "102:1",
    "103:1",
    "104:1",
    "105:1",
    "106:1",
    "107:1",
    "108:1",
    "109:1",
    "110:0",
    "111:0",
    "112:0",
    "113:0",
    "114:0",
    "115:0",
    "I 101:1 I 110:1",
    // refusals 3, 4, 5, 6 (one word more, one less, a second report right behind), 7, 8, 9
    "3073 1 1 1 1 2 8192",
    "3073 1 1 1 1 2 0",
    "1024 1 1 1 1 2 1",
    "110:1 1",
    "3073 1 1 1 1 2",
    "110:1 110:1",
    "3074 1 1 1 1 2 1",
    "3074 1 1 1 1 2 25",
    "3200 1 1 1 1 2 4096",
    // the end
    "",
    "I",
    "I I I",
];

/// Sound tables, and what number 1 gets.
pub const SOUND: &[(&str, Done)] = &[
    ("", (51, 0)),
    ("0", (123, 0)),
    ("_", (123, 0)),
    ("1", (124, 0)),
    ("2", (51, 0)),
    ("4097", (51, 0)),
    ("0 0", (123, 0)),
    ("_ 0", (123, 0)),
    ("0 _", (123, 0)),
    ("1 0", (124, 0)),
    ("1 _", (124, 0)),
    ("2 0", (123, 1)),
    ("2 _", (123, 1)),
    ("4097 0", (123, 1)),
    ("1 2", (124, 0)),
    ("2 1", (124, 1)),
    ("2 3", (51, 0)),
    ("2 257", (51, 0)),
    ("4097 1", (124, 1)),
    ("65535 65534", (51, 0)),
    ("2 3 0", (123, 2)),
    ("3 1 2", (124, 1)),
    ("3 2 1", (124, 2)),
    ("3 1 0 0", (124, 1)),
    ("3 2 0 0", (123, 2)),
    ("1:0:0:0", (124, 0)),
    ("1:110:4294967295:18446744073709551615", (124, 0)),
    ("2:110:7:70 3:110:7:70", (51, 0)),
    ("0*511", (123, 0)),
    ("0*512", (123, 0)),
    ("_*512", (123, 0)),
    ("1 0*511", (124, 0)),
    ("2 0*511", (123, 1)),
    ("2..511 0 0", (123, 510)),
    ("2..512 0", (123, 511)),
    ("2..512 _", (123, 511)),
    ("2..512 1", (124, 511)),
    ("2..256 1 257..512", (124, 255)),
    ("2..257 1 258..512", (124, 256)),
    ("1..512", (124, 0)),
    ("2..513", (51, 0)),
    ("4097..4608", (51, 0)),
];

/// Broken tables: every call gets 50.
pub const BROKEN: &[&str] = &[
    // more than 512
    "0*513",
    "_*513",
    "1 0*512",
    "2 0*512",
    "1..513",
    "2..514",
    "1..512 0",
    "0*514",
    "0*1024",
    // a used entry behind an unused one
    "0 1",
    "0 2",
    "_ 1",
    "_ 2",
    "0 4097",
    "1 0 2",
    "2 0 1",
    "2 _ 3",
    "0 0 1",
    "0 1 0",
    "0 1 2",
    "2 3 0 4",
    "2 0 0 3",
    "2 0*7 3",
    "0*511 1",
    "0*511 65535",
    "0 2..512",
    "2..511 0 512",
    "2..256 0 257..512",
    // a number held twice
    "1 1",
    "2 2",
    "1 1 0",
    "2 2 0",
    "1 1 2",
    "1 2 1",
    "2 1 1",
    "2 3 2",
    "2 3 4 3 0",
    "2 3 4 4",
    "2 2 2",
    "4097 4097",
    "65535 65535",
    "1:110:7:70 1:111:8:80",
    "2..512 2",
    "2..512 512",
    "1..511 256",
    "1..510 1 0",
    // both, and all three
    "1 0 1",
    "0 1 1",
    "2 2 0 3",
    "2 2 0*512",
    "0*512 1",
    "2 0*511 2",
];

fn lines_of(texts: &[&str]) -> Vec<Vec<u8>> {
    texts.iter().map(|text| bytes_of(text)).collect()
}

/// Whether a table in text is large: those take long.
fn is_large(text: &str) -> bool {
    text.contains("..")
}

/// Each sound table with an outcome that is entered, after those that are not, which leave it; then numbers are looked for. Large tables
/// get one outcome that is entered and, if there is no time, few that are not.
fn sound_tables(tables: &Tables, long: bool) -> Vec<Named> {
    let mut cases = Vec::new();
    for &(text, gets) in SOUND {
        let left = if !long && is_large(text) { 4 } else { WITHOUT_NUMBER.len() };
        for with_number in WITH_NUMBER.iter().take(if long && !is_large(text) { WITH_NUMBER.len() } else { 1 }) {
            let mut steps: Vec<Step> = (0..left).map(|line| enter(line, 0, 3)).collect();
            let mut dones = vec![(125, 0); left];
            steps.extend([enter(left, 0, 3), find(1), find(0), find(65_537)]);
            dones.extend([gets, if gets.0 == 51 { (127, 0) } else { (126, gets.1) }, (127, 0), (127, 0)]);
            let lines = lines_of(&[&WITHOUT_NUMBER[..left], &[*with_number]].concat());
            let name = format!("table {}, then {}", text, with_number);
            cases.extend(checked(tables, &name, Indexing::alone(table_of(text), lines, steps), &dones));
        }
    }
    cases
}

/// Each broken table with each outcome, with places at the end and beyond it, and with numbers looked for.
fn broken_tables(tables: &Tables, long: bool) -> Vec<Named> {
    let mut cases = Vec::new();
    let lines = lines_of(&[WITH_NUMBER, WITHOUT_NUMBER].concat());
    for text in BROKEN {
        let mut steps: Vec<Step> = (0..lines.len()).map(|line| enter(line, 0, 3)).collect();
        steps.extend([enter(0, 7, 3), enter(0, 8, 3), enter(0, u64::MAX, 3)]);
        steps.extend([find(0), find(1), find(2), find(9), find(65_535), find(65_536), find(u32::MAX)]);
        if !long && is_large(text) {
            steps = steps.into_iter().step_by(6).collect();
        }
        let dones = vec![(50, 0); steps.len()];
        cases.extend(checked(tables, &format!("broken table {}", text), Indexing::alone(table_of(text), lines.clone(), steps), &dones));
    }
    cases
}

/// Every table of at most four entries with numbers from 0 to 4 (of at most three, if there is no time), and then each report with a number
/// from 1 to 5.
fn small_tables(_: &Tables, long: bool) -> Vec<Named> {
    let lines: Vec<Vec<u8>> = (0..=5).map(|number| line::to_bytes(&report(110 + u32::from(number), number))).collect();
    let mut cases = Vec::new();
    for numbers in every_table(if long { 4 } else { 3 }, 4) {
        for number in 1..=5 {
            let steps = vec![enter(0, 0, 1), find(1), enter(number, 0, 2), find(number as u32), find(0), enter(number % 5 + 1, 0, 0)];
            let indexing = Indexing::alone(of_numbers(&numbers), lines.clone(), steps);
            cases.push((format!("table {:?}, number {}", numbers, number), Case::Index(indexing)));
        }
    }
    cases
}

// ---- numbers

/// Two numbers that differ in one bit are different, and a number is itself: in entries, in a report, in what is looked for.
fn every_bit(tables: &Tables) -> Vec<Named> {
    let mut cases = Vec::new();
    for number in [0x5A5u16, 0xA5A, 0xFFF] {
        let lines = vec![bytes_of(&format!("110:{}", number)), bytes_of("110:0")];
        let wide = u32::from(number);
        let mut case = |name: String, table: &[u16], steps: &[Step], dones: &[Done]| {
            cases.extend(checked(tables, &name, Indexing::alone(of_numbers(table), lines.clone(), steps.to_vec()), dones))
        };
        for bit in 0..16 {
            let other = number ^ (1 << bit);
            let steps = [enter(1, 0, 3), enter(0, 0, 3), find(wide), find(u32::from(other))];
            let named = |what: &str| format!("number {}, {}, bit {}", number, what, bit);
            case(named("two entries"), &[number, other], &steps, &[(125, 0), (124, 0), (126, 0), (126, 1)]);
            case(named("two entries turned"), &[other, number], &steps, &[(125, 0), (124, 1), (126, 1), (126, 0)]);
            case(named("an entry and room"), &[other, 0], &steps, &[(125, 0), (123, 1), (126, 1), (126, 0)]);
            case(named("an entry"), &[other], &steps, &[(125, 0), (51, 0), (127, 0), (126, 0)]);
            case(named("twice"), &[other, other], &steps, &[(50, 0); 4]);
            let high = wide + (1 << (bit + 16));
            case(named("looked for"), &[number], &[find(high), find(wide)], &[(127, 0), (126, 0)]);
        }
    }
    cases
}

/// Every file number on a walked line, sixteen to a table. Number 0 is not entered, so the first table has an unused entry left.
fn every_number(tables: &Tables) -> Vec<Named> {
    let mut cases = Vec::new();
    for from in (0..4096u16).step_by(16) {
        let kind = |number: u16| 110 + u32::from(number % 6);
        let runs: Vec<Vec<u16>> = (from..from + 16).map(|number| report(kind(number), number)).collect();
        let mut dones: Vec<Done> = (u64::from(from == 0)..16).map(|at| (123, at - u64::from(from == 0))).collect();
        if from == 0 {
            dones.insert(0, (125, 0));
        }
        dones.extend([(125, 0), (126, if from == 0 { 14 } else { 15 })]);
        let lines = vec![line::to_bytes(&runs.join(&IDLE))];
        let steps = vec![walk(0, 1), find(u32::from(from) + 15)];
        let indexing = Indexing::alone(vec![Entry::default(); 16], lines, steps);
        cases.push(checked(tables, &format!("numbers from {}", from), indexing, &dones).remove(0));
    }
    cases
}

// ---- entries

/// A number of its own for each entry, in no order.
fn scattered(at: usize) -> u16 {
    1 + (at * 1237 % 4095) as u16
}

/// Every entry of a table of 512 found, and replaced from walked lines; then another number, which finds no room. Long.
fn every_entry(tables: &Tables) -> Vec<Named> {
    let numbers: Vec<u16> = (0..512).map(scattered).collect();
    let (mut steps, mut dones) = (Vec::new(), Vec::new());
    for (at, &number) in numbers.iter().enumerate() {
        steps.push(find(u32::from(number)));
        dones.push((126, at as u64));
    }
    let runs: Vec<Vec<u16>> = numbers.iter().rev().map(|&number| report(115, number)).collect();
    let other = report(110, scattered(512));
    steps.extend([walk(0, 0), enter(1, 0, 0), find(u32::from(scattered(512)))]);
    dones.extend((0..512).rev().map(|at| (124, at)));
    dones.extend([(125, 0), (51, 0), (127, 0)]);
    let lines = vec![line::to_bytes(&runs.join(&IDLE)), line::to_bytes(&other)];
    checked(tables, "every entry", Indexing::alone(of_numbers(&numbers), lines, steps), &dones)
}

/// The longest line there is, 4096 reports with every number from 0 to 4095, into a table of 512: numbers from 513 on find no room. Long.
fn longest_line(tables: &Tables) -> Vec<Named> {
    let words: Vec<u16> = (0..4096).flat_map(|number| [report(112, number), vec![IDLE]].concat()).collect();
    let mut dones: Vec<Done> = vec![(125, 0)];
    dones.extend((0..512).map(|at| (123, at)));
    dones.extend(vec![(51, 0); 4096 - 513]);
    dones.extend([(125, 0), (124, 0), (126, 511), (127, 0)]);
    let steps = vec![walk(0, 1), enter(0, 8, 0), find(512), find(513)];
    let indexing = Indexing::alone(vec![Entry::default(); 512], vec![line::to_bytes(&words)], steps);
    let (_, table) = indexing.worked_out(tables);
    assert_eq!((table[0], table[511]), (table_of("1:112:0:8")[0], table_of("512:112:1:4096")[0]));
    vec![checked(tables, "the longest line", indexing, &dones).remove(0)]
}

/// Each two entries of some that hold one number, and each two of which the first is unused and the second used, with used entries between
/// them or unused ones.
fn every_pair(tables: &Tables, long: bool) -> Vec<Named> {
    let line = vec![bytes_of("110:4000")];
    let mut cases = Vec::new();
    let some: &[usize] = if long { &[0, 1, 127, 128, 254, 255, 256, 257, 510, 511] } else { &[0, 255, 511] };
    for (size, some) in [(9, &[0, 1, 2, 3, 4, 5, 6, 7, 8][..]), (512, some)] {
        for &second in some {
            for &first in some.iter().filter(|&&first| first < second) {
                let mut table = of_numbers(&(0..size).map(scattered).collect::<Vec<u16>>());
                table[second].number = table[first].number;
                let steps = vec![enter(0, 0, 1), find(5)];
                let name = format!("entries {} and {} of {}", first, second, size);
                let indexing = Indexing::alone(table.clone(), line.clone(), steps.clone());
                cases.push(checked(tables, &format!("{} hold one number", name), indexing, &[(50, 0); 2]).remove(0));
                table[second].number = scattered(second);
                table[first].number = 0;
                table[second + 1..].iter_mut().for_each(|entry| entry.number = 0);
                let indexing = Indexing::alone(table.clone(), line.clone(), steps.clone());
                cases.push(checked(tables, &format!("{}, unused and used", name), indexing, &[(50, 0); 2]).remove(0));
                table[first..second].iter_mut().for_each(|entry| entry.number = 0);
                let indexing = Indexing::alone(table, line.clone(), steps);
                cases.push(checked(tables, &format!("{}, unused up to a used one", name), indexing, &[(50, 0); 2]).remove(0));
            }
        }
    }
    cases
}

/// Tables of every size up to 516 and of some more (few sizes, if there is no time): unused; used; used but for the last entry.
fn every_size(tables: &Tables, long: bool) -> Vec<Named> {
    let mut cases = Vec::new();
    let line = vec![bytes_of("110:4000")];
    let sizes = (0..=516).chain([1_000, 1_024, 2_048, 4_096, 65_535, 65_536, 65_537, 66_048]);
    for size in sizes.filter(|&size| long || matches!(size, 0..=4 | 256 | 510..=516)) {
        let gets = |at: usize| match size {
            0 => [(51, 0), (127, 0)],
            1..=512 => [(123, at as u64), (126, at as u64)],
            _ => [(50, 0); 2],
        };
        let used: Vec<u16> = (0..size.min(516)).map(scattered).collect();
        let mut case = |what: &str, table: Vec<Entry>, dones: &[Done]| {
            let indexing = Indexing::alone(table, line.clone(), vec![enter(0, 0, 1), find(4_000)]);
            cases.push(checked(tables, &format!("{} entries, {}", size, what), indexing, dones).remove(0));
        };
        case("unused", vec![Entry::default(); size], &gets(0));
        if size <= 516 && size > 0 {
            let mut table = of_numbers(&used);
            case("used", table.clone(), if size > 512 { &[(50, 0); 2] } else { &[(51, 0), (127, 0)] });
            table[size - 1] = Entry::default();
            case("used but for the last", table, &gets(size - 1));
        }
    }
    cases
}

/// Sizes that are only said: more entries are there than are needed to see that they are more than 512.
fn said_sizes(tables: &Tables) -> Vec<Named> {
    let mut cases = Vec::new();
    for size in [1 << 16, (1 << 32) - 1, 1 << 32, (1 << 32) + 1, (1 << 32) + 512, 1 << 48, (1 << 59) - 1] {
        for text in ["0*520", "1 0*519", "1..520"] {
            let steps = vec![enter(0, 0, 1), enter(0, 1, 1), find(1), find(0)];
            let mut indexing = Indexing::alone(table_of(text), vec![bytes_of("110:1")], steps);
            indexing.size = size;
            cases.push(checked(tables, &format!("table {}, said to have {} entries", text, size), indexing, &[(50, 0); 4]).remove(0));
        }
    }
    cases
}

// ---- lines, places, scans

/// A table, lines, calls, their answers, and the table at the end.
type History = (&'static str, &'static [&'static str], &'static [Step], &'static [Done], &'static str);

const HISTORIES: &[History] = &[
    // two lines as two scans, the second with an earlier scan number: 11 finds no room, and 7 and 5 keep their entries
    (
        "0*3",
        &["I 110:5 I 111:7 I 112:5", "113:9 I 114:11 I 115:7 I 110:0"],
        &[walk(0, 4), walk(1, 3), find(5), find(7), find(9), find(11), find(0), find(65_541)],
        &[
            (123, 0),
            (123, 1),
            (124, 0),
            (125, 0),
            (123, 2),
            (51, 0),
            (124, 1),
            (125, 0),
            (125, 0),
            (126, 0),
            (126, 1),
            (126, 2),
            (127, 0),
            (127, 0),
            (127, 0),
        ],
        "5:112:4:17 7:115:3:16 9:113:3:0",
    ),
    // the same line walked twice: the table stays but for the scan
    (
        "_ _ 0",
        &["110:5 I 110:6 I 110:5"],
        &[walk(0, 9), walk(0, 0)],
        &[(123, 0), (123, 1), (124, 0), (125, 0), (124, 0), (124, 1), (124, 0), (125, 0)],
        "5:110:0:16 6:110:0:8 0",
    ),
    // a report that was refused for want of room is not remembered: only what the table holds counts
    (
        "3",
        &["110:5", "110:3"],
        &[enter(0, 0, 1), enter(0, 0, 2), enter(1, 0, 3), enter(0, 0, 4)],
        &[(51, 0), (51, 0), (124, 0), (51, 0)],
        "3:110:3:0",
    ),
    // refused runs between reports, and a report right behind one word more
    (
        "0 0 0",
        &["110:5 1 I 110:6 I 8192 I 1 110:7"],
        &[walk(0, 1), enter(0, 19, 2), enter(0, 20, 2)],
        &[(125, 0), (123, 0), (125, 0), (125, 0), (125, 0), (125, 0), (123, 1)],
        "6:110:1:9 7:110:2:20 0",
    ),
    // later is later seen: an earlier place of the same scan replaces too
    ("0 0", &["110:5 I 111:5"], &[enter(0, 8, 4), enter(0, 0, 4)], &[(123, 0), (124, 0)], "5:110:4:0 0"),
    // number 0 leaves a full table and an empty one
    ("", &["110:0"], &[walk(0, 1), find(0)], &[(125, 0), (125, 0), (127, 0)], ""),
    ("", &["110:4095"], &[walk(0, 1), find(4095)], &[(51, 0), (125, 0), (127, 0)], ""),
    // a used entry's kind, scan and place are all replaced, whatever they were
    ("4095:65535:0:5", &["I I I 115:4095"], &[enter(0, 2, u32::MAX)], &[(124, 0)], "4095:115:4294967295:3"),
    ("4095:0:4294967295:18446744073709551615", &["115:4095"], &[enter(0, 0, 0)], &[(124, 0)], "4095:115:0:0"),
    // document 01: the ATCRBS report, and what a flipped bit leaves of it; the lister's example
    (
        "0",
        &["3333 1281 1022 868 1281 2048 647", "3333 1281 1023 868 1281 2048 647"],
        &[walk(1, 6), walk(0, 5), walk(1, 6), find(1024)],
        &[(125, 0), (125, 0), (125, 0), (123, 0), (125, 0), (125, 0), (125, 0), (125, 0), (126, 0)],
        "1024:110:5:0",
    ),
    ("0", &["I 868 1281 2048 647 I I 3973 1281 256 7 5175 1414 4096"], &[walk(0, 1)], &[(125, 0), (125, 0), (125, 0)], "0"),
];

fn histories(tables: &Tables) -> Vec<Named> {
    let mut cases = Vec::new();
    for &(text, lines, steps, dones, end) in HISTORIES {
        let lines: Vec<Vec<u8>> = lines.iter().map(|text| bytes_of(text)).collect();
        let indexing = Indexing::alone(table_of(text), lines, steps.to_vec());
        assert_eq!(indexing.worked_out(tables).1, table_of(end), "{} to {}", text, end);
        cases.extend(checked(tables, &format!("from {} to {}", text, end), indexing, dones));
    }
    cases
}

/// From a place to another, both included; what a call from there answers on a table of one unused entry, and the place of the report.
type Places = (u64, u64, Done, u64);

const LINES: &[(&str, &[Places])] = &[
    ("I 110:1 I I 111:2 I", &[(0, 1, (123, 0), 1), (2, 7, (125, 0), 0), (8, 10, (123, 0), 10), (11, 20, (125, 0), 0)]),
    ("1 110:5", &[(0, 0, (125, 0), 0), (1, 1, (123, 0), 1), (2, 20, (125, 0), 0)]),
    ("110:5", &[(0, 0, (123, 0), 0), (1, 20, (125, 0), 0)]),
    ("I I", &[(0, 20, (125, 0), 0)]),
    ("", &[(0, 20, (125, 0), 0)]),
];

const FAR: [u64; 8] = [65_536, 1 << 32, (1 << 32) + 1, 1 << 63, (1 << 63) + 1, u64::MAX - 7, u64::MAX - 1, u64::MAX];

/// Every place of some lines and some beyond; all of them again on the same bytes with one more, which make the line odd.
fn every_place(tables: &Tables) -> Vec<Named> {
    let mut cases = Vec::new();
    for &(text, rows) in LINES {
        let mut all: Vec<(u64, Done, u64)> = Vec::new();
        rows.iter().for_each(|&(from, to, gets, entered)| all.extend((from..=to).map(|place| (place, gets, entered))));
        all.extend(FAR.iter().map(|&place| (place, (125, 0), 0)));
        for (place, gets, entered) in all {
            let indexing = |bytes: Vec<u8>| Indexing::alone(table_of("0"), vec![bytes], vec![enter(0, place, 8)]);
            let named = |what: &str| format!("line {:?}{}, place {}", text, what, place);
            let whole = indexing(bytes_of(text));
            let entry = whole.worked_out(tables).1[0];
            assert_eq!((entry.place, entry.scan), if gets.0 == 123 { (entered, 8) } else { (0, 0) }, "{}", named(""));
            cases.extend(checked(tables, &named(""), whole, &[gets]));
            let odd = indexing([bytes_of(text), vec![0]].concat());
            cases.extend(checked(tables, &named(" and a byte"), odd, &[(125, 0)]));
        }
    }
    cases
}

/// A report at either end of a line of 32,768 words, and of one with a word or a byte more.
fn longest_lines(tables: &Tables) -> Vec<Named> {
    let mut cases = Vec::new();
    for (more, gets) in [(0, [(123, 0), (123, 1), (124, 1), (125, 0), (125, 0)]), (1, [(125, 0); 5]), (2, [(125, 0); 5])] {
        let mut bytes = bytes_of("110:5");
        bytes.extend(line::to_bytes(&vec![IDLE; 32_768 - 14]));
        bytes.extend(bytes_of("111:6"));
        bytes.extend(vec![0; more]);
        let last = 32_768 - 7;
        let steps = vec![enter(0, 0, 1), enter(0, 7, 1), enter(0, last, 1), enter(0, last + 1, 1), enter(0, last + 7, 1)];
        cases.extend(checked(tables, &format!("65,536 bytes and {} more", more), Indexing::alone(table_of("0 0"), vec![bytes], steps), &gets));
    }
    cases
}

/// Each two of some scan numbers, one after the other: the second is held.
fn every_scan(tables: &Tables) -> Vec<Named> {
    let scans = [0, 1, 2, 255, 256, 65_536, 1 << 31, u32::MAX - 1, u32::MAX];
    let mut cases = Vec::new();
    for first in scans {
        for second in scans {
            let steps = vec![enter(0, 0, first), enter(1, 0, second)];
            let indexing = Indexing::alone(table_of("0"), vec![bytes_of("114:5"), bytes_of("I 112:5")], steps);
            assert_eq!(indexing.worked_out(tables).1, table_of(&format!("5:112:{}:1", second)));
            cases.extend(checked(tables, &format!("scan {} and then {}", first, second), indexing, &[(123, 0), (124, 0)]));
        }
    }
    cases
}

/// All cases, or those that do not take long.
pub fn cases(long: bool) -> impl Iterator<Item = Named> {
    let tables = Tables::new();
    let with_long: [fn(&Tables, bool) -> Vec<Named>; 5] = [sound_tables, broken_tables, small_tables, every_pair, every_size];
    let parts: [fn(&Tables) -> Vec<Named>; 7] = [every_bit, every_number, said_sizes, histories, every_place, longest_lines, every_scan];
    let long_parts: [fn(&Tables) -> Vec<Named>; 2] = [every_entry, longest_line];
    let mut cases: Vec<Named> = with_long.into_iter().flat_map(|part| part(&tables, long)).collect();
    cases.extend(parts.into_iter().flat_map(|part| part(&tables)));
    cases.extend(long_parts.into_iter().filter(|_| long).flat_map(|part| part(&tables)));
    cases.into_iter()
}
