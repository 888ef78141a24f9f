//! Chosen cases of link numbers (Ticket 7 of document 02), each once, with answers worked out by hand from documents 01 and 02: the smallest input
//! that gets refusal 13 beside its nearest neighbour; every link and some greater numbers on the end, on every kind of report and on every other
//! refusal, in both forms, from places at the ends of a line; every number around the powers of two; whole lines; the index; manners.

use crate::case::{Case, Tables};
use crate::chosen;
use crate::index::{self, Done, ENTERED, FOUND, MISSING, REPLACED};
use crate::index_case::{Indexing, Step};
use crate::index_chosen::{bytes_of, checked, find, table_of, BROKEN, SOUND, WITHOUT_NUMBER, WITH_NUMBER};
use crate::line::{self, is_link, Lent, Look, END, IDLE, LAST_LINK, NO_SUCH_LINK, REFUSED};
use crate::link_case::Linking;
use crate::link_cases::{ABOVE, COUNT};
use crate::manners::BREACH;
use crate::manners_case::{Checking, Lend};
use crate::run::Named;

/// Document 01's form of the altitude, and the other.
const BOTH: [u32; 2] = [0, 1];

/// The least number that is no link's.
const FIRST_ABOVE: u32 = COUNT;

fn above() -> Vec<u32> {
    ABOVE.iter().map(|&number| number as u32).collect()
}

/// All links, and the numbers that are none.
fn numbers() -> Vec<u32> {
    (0..=LAST_LINK).chain(above()).collect()
}

fn line_of(bytes: &[u8], form: u32, link: u32, places: &[u64]) -> Case {
    Case::Line { bytes: bytes.to_vec(), form, link, step: 1, places: places.to_vec() }
}

// ---- a place

/// The answers that are numbers: kind, refusal, the three places, link.
type Numbers = (u32, u32, [u64; 3], u32);

fn numbers_of(look: &Look) -> Numbers {
    (look.kind, look.refusal, [look.first, look.after, look.named], look.link)
}

/// A line without a word: the least number that is no link's gets 13, and the one before it the end.
fn smallest(tables: &Tables) -> Vec<Named> {
    let rows: [(u32, Numbers); 2] = [(FIRST_ABOVE, (REFUSED, NO_SUCH_LINK, [0; 3], 0)), (LAST_LINK, (END, 0, [0; 3], LAST_LINK))];
    let mut cases = Vec::new();
    for (link, gets) in rows {
        let line = Lent { form: 0, layouts: &tables.reports, link, length: 0, words: &[] };
        assert_eq!(numbers_of(&line.look(0)), gets, "link {}", link);
        cases.push((format!("no word, link {}", link), line_of(&[], 0, link, &[0, 1, u64::MAX])));
    }
    cases
}

/// Lines in the text of index_chosen.rs, and what stands at their first place: the end, a kind, or a refusal.
const LINES: &[(&str, u32)] = &[
    ("", END),
    ("I", END),
    ("I I I", END),
    ("101:0", 101),
    ("102:0", 102),
    ("103:0", 103),
    ("104:0", 104),
    ("105:0", 105),
    ("106:1", 106),
    ("107:1", 107),
    ("108:1", 108),
    ("109:1", 109),
    ("110:1", 110),
    ("111:1", 111),
    ("112:1", 112),
    ("113:1", 113),
    ("114:1", 114),
    ("115:1", 115),
    ("I I 110:1 I 8192", 110),
    ("3973 1281 256 7 5175 1414 4102", 106),
    ("8192", 3),
    ("0 8192", 3),
    ("0", 4),
    ("3073 1 1 1 1 2 0", 4),
    ("1024", 5),
    ("577 1 1 1", 5),
    ("1", 6),
    ("110:1 110:1", 6),
    ("3074 1 1 1 1 2 1", 7),
    ("3074 1 1 1 1 2 25", 8),
    ("3200 1 1 1 1 2 4096", MINUS_ZERO),
    ("I 3200 1 1 1 1 2 4096", MINUS_ZERO),
];

/// Refusal 9, of document 01's form alone: in the other form the two runs with it are ATCRBS reports.
const MINUS_ZERO: u32 = 9;
const ATCRBS: u32 = 110;

/// A line with every number at its ends and beyond. Its first place gets what was worked out by hand, on every link; with any other number, each
/// place gets 13. Then the same line walked.
fn with_every_number(tables: &Tables, name: &str, bytes: &[u8], form: u32, gets: u32) -> Vec<Named> {
    let words = line::words(bytes);
    let end = words.len() as u64;
    let places = [0, 1, end, end + 1, u64::MAX];
    for link in numbers() {
        let line = Lent { form, layouts: tables.of(form), link, length: bytes.len(), words: &words };
        for place in places {
            let (look, on_link_0) = (line.look(place), line.look_on_link_0(place));
            let by_hand = if is_link(link) {
                (on_link_0.kind, on_link_0.refusal, [on_link_0.first, on_link_0.after, on_link_0.named], link)
            } else {
                (REFUSED, NO_SUCH_LINK, [place; 3], 0)
            };
            assert_eq!(numbers_of(&look), by_hand, "{}, form {}, link {}, place {}", name, form, link, place);
        }
        let first = line.look(0);
        let got = if first.refusal == 0 { first.kind } else { first.refusal };
        assert_eq!(got, if is_link(link) { gets } else { NO_SUCH_LINK }, "{}, form {}, link {}", name, form, link);
    }
    let linking = Linking { bytes: bytes.to_vec(), form, links: numbers(), places: places.to_vec() };
    let mut cases = vec![(format!("{} in form {} with every number", name, form), Case::Links(linking))];
    for link in [LAST_LINK, FIRST_ABOVE, u32::MAX] {
        cases.push((format!("{} in form {}, link {}", name, form, link), line_of(bytes, form, link, &places)));
    }
    cases
}

fn outcomes(tables: &Tables) -> Vec<Named> {
    let mut cases = Vec::new();
    for form in BOTH {
        for &(text, gets) in LINES {
            let gets = if form != 0 && gets == MINUS_ZERO { ATCRBS } else { gets };
            cases.extend(with_every_number(tables, &format!("line {:?}", text), &bytes_of(text), form, gets));
        }
    }
    cases
}

/// Lines that are refused with 2 and 14, with both, and just not; each begins with a report.
fn refused_lines(tables: &Tables) -> Vec<Named> {
    let of_length = |length: usize| {
        let mut bytes = bytes_of("110:1");
        bytes.extend(line::to_bytes(&vec![IDLE; length / 2 - bytes.len() / 2]));
        bytes.resize(length, 0);
        bytes
    };
    let rows = [(15, 14), (65_534, ATCRBS), (65_535, 14), (65_536, ATCRBS), (65_537, 2), (65_538, 2), (70_001, 2)];
    let mut cases = Vec::new();
    for form in BOTH {
        cases.extend(with_every_number(tables, "a byte", &[0], form, 14));
        for (length, gets) in rows {
            cases.extend(with_every_number(tables, &format!("{} bytes", length), &of_length(length), form, gets));
        }
    }
    cases
}

/// Every number to 300, and those around the powers of two; a link's number with one bit more is none. On a report, on a refused run, on the end.
fn every_number(_: &Tables) -> Vec<Named> {
    let around = |bit: u32| [(1 << bit) - 1, 1 << bit, (1 << bit) + 1, (1 << bit) + LAST_LINK, (1 << bit) + FIRST_ABOVE];
    let links: Vec<u32> = (0..=300).chain((8..32).flat_map(around)).collect();
    let case = |text: &str| Linking { bytes: bytes_of(text), form: 0, links: links.clone(), places: vec![0] };
    ["110:1", "8192", ""].iter().map(|text| (format!("line {:?}, numbers around powers of two", text), Case::Links(case(text)))).collect()
}

/// The runs of chosen.rs on one line, walked with every number.
fn whole_lines(_: &Tables) -> Vec<Named> {
    let bytes = line::to_bytes(&chosen::RUNS.join(&IDLE));
    numbers().into_iter().map(|link| (format!("all runs of document 01 on link {}", link), line_of(&bytes, 0, link, &[]))).collect()
}

// ---- the index

const LEFT: Done = (index::LEFT, 0);
const REFUSED_TABLE: Done = (index::BROKEN, 0);
const NOT_FOUND: Done = (MISSING, 0);

fn enter(line: usize, place: u64, link: u32) -> Step {
    Step::Enter { line, place, form: 0, link, scan: 5 }
}

/// Each sound table, and a report with file number 1: it is left for a number that is no link's, and then entered on the last link. Left again,
/// the number is as it was.
fn sound_tables(tables: &Tables) -> Vec<Named> {
    let mut cases = Vec::new();
    for &(text, gets) in SOUND {
        let steps = vec![enter(0, 0, FIRST_ABOVE), find(1), enter(0, 0, LAST_LINK), enter(0, 0, u32::MAX), find(1)];
        let (before, after) = match gets.0 {
            REPLACED => ((FOUND, gets.1), (FOUND, gets.1)),
            ENTERED => (NOT_FOUND, (FOUND, gets.1)),
            _ => (NOT_FOUND, NOT_FOUND),
        };
        let indexing = Indexing::alone(table_of(text), vec![bytes_of("110:1")], steps);
        cases.extend(checked(tables, &format!("table {}, on links", text), indexing, &[LEFT, before, gets, LEFT, after]));
    }
    cases
}

/// Each broken table: 50, on links and for other numbers.
fn broken_tables(tables: &Tables) -> Vec<Named> {
    let mut cases = Vec::new();
    for text in BROKEN {
        let steps: Vec<Step> = [0, LAST_LINK, FIRST_ABOVE, 271, u32::MAX].iter().map(|&link| enter(0, 0, link)).collect();
        let dones = vec![REFUSED_TABLE; steps.len()];
        let indexing = Indexing::alone(table_of(text), vec![bytes_of("110:1")], steps);
        cases.extend(checked(tables, &format!("broken table {}, on links", text), indexing, &dones));
    }
    cases
}

/// Every number with a table of one unused entry: entered with 0 to 15 and replaced then; left with any other number, and replaced by none.
fn entered_with_every_number(tables: &Tables) -> Vec<Named> {
    let mut cases = Vec::new();
    for link in numbers() {
        let steps = vec![enter(0, 0, link), enter(1, 0, link), find(1)];
        let dones = if is_link(link) { [(ENTERED, 0), (REPLACED, 0), (FOUND, 0)] } else { [LEFT, LEFT, NOT_FOUND] };
        let indexing = Indexing::alone(table_of("0"), vec![bytes_of("110:1"), bytes_of("I 115:1")], steps);
        let end = if is_link(link) { "1:115:5:1" } else { "0" };
        assert_eq!(indexing.worked_out(tables).1, table_of(end), "link {}", link);
        cases.extend(checked(tables, &format!("entered on link {}", link), indexing, &dones));
    }
    cases
}

/// Every outcome of a line, and lines and places that are refused: left for 13 by a sound table, refused with 50 by a broken one.
fn every_outcome(tables: &Tables) -> Vec<Named> {
    let mut lines: Vec<Vec<u8>> = [WITH_NUMBER, WITHOUT_NUMBER].concat().iter().map(|text| bytes_of(text)).collect();
    lines.push([bytes_of("110:1"), vec![0]].concat());
    lines.push([bytes_of("110:1"), vec![0; 65_536]].concat());
    let mut cases = Vec::new();
    for (text, gets) in [("0", LEFT), ("1", LEFT), ("2", LEFT), ("", LEFT), ("0 1", REFUSED_TABLE), ("0*513", REFUSED_TABLE)] {
        let mut steps: Vec<Step> = (0..lines.len()).map(|line| enter(line, 0, FIRST_ABOVE)).collect();
        steps.extend([1, 7, 8, u64::MAX].map(|place| enter(0, place, u32::MAX)));
        let dones = vec![gets; steps.len()];
        let indexing = Indexing::alone(table_of(text), lines.clone(), steps);
        assert_eq!(indexing.worked_out(tables).1, table_of(text));
        cases.extend(checked(tables, &format!("table {}, every outcome, no link", text), indexing, &dones));
    }
    cases
}

/// Two lines walked on two links: one sensor's numbers. A walk with a number that is no link's ends where it began.
fn walks(tables: &Tables) -> Vec<Named> {
    let walk = |line: usize, link: u32, scan: u32| Step::Walk { line, place: 0, form: 0, link, scan };
    let steps = vec![walk(0, 3, 1), walk(1, FIRST_ABOVE, 2), walk(1, 12, 3), walk(0, u32::MAX, 4), find(5), find(7)];
    let dones = [(ENTERED, 0), (ENTERED, 1), LEFT, LEFT, (REPLACED, 1), LEFT, LEFT, (FOUND, 0), (FOUND, 1)];
    let indexing = Indexing::alone(table_of("0 0"), vec![bytes_of("110:5 I 111:7"), bytes_of("I 114:7 I")], steps);
    assert_eq!(indexing.worked_out(tables).1, table_of("5:110:1:0 7:114:3:1"));
    checked(tables, "lines walked on links", indexing, &dones)
}

// ---- manners

/// The breach of a Map is listed whatever number the line is walked with: the call takes none.
fn manners(tables: &Tables) -> Vec<Named> {
    let words = [1, 21, 1, 16];
    let mut cases = Vec::new();
    for link in numbers() {
        let lends = BOTH.iter().flat_map(|&form| [Lend::alone(form, BREACH), Lend::alone(form, 0)]).collect();
        let checking = Checking { link, ..Checking::of(line::to_bytes(&words), 0, lends) };
        assert!(checking.lists(tables, &words).iter().all(|list| list.as_ref().is_ok_and(|breaches| breaches.len() == 1)));
        cases.push((format!("a breach, walked on link {}", link), Case::Manners(checking)));
    }
    cases
}

pub fn cases() -> impl Iterator<Item = Named> {
    let tables = Tables::new();
    let parts: [fn(&Tables) -> Vec<Named>; 11] = [
        smallest,
        outcomes,
        refused_lines,
        every_number,
        whole_lines,
        sound_tables,
        broken_tables,
        entered_with_every_number,
        every_outcome,
        walks,
        manners,
    ];
    parts.into_iter().flat_map(move |part| part(&tables))
}
