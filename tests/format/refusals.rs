// The refusals: names and numbers, the order in which each call tests them, the places that they name; and that the lister's help names each of a line.
use crate::definitions::{numbered, upper, File, Numbers};
use crate::page::{plain, table, Findings, Table, PAGE};
use crate::sources::{cases, words, FRAMES, HEADER, INDEX, MANNERS, NUMBERS, REFUSALS};
use std::collections::BTreeMap;
use std::fs::read_to_string;

// Which refusals of a line calls on bytes alone give, the writer alone, and reader and writer both: the others are the reader's. And which
// refusals of a field are its writer's; which of a frame are the writer's, its own or the reader's too; which of the index are not of finding; and
// which of a line stand before those of manners.
const OF_BYTES: [&str; 1] = ["OddByteCount"];
const OF_WRITING: [&str; 2] = ["ValueTooLarge", "NoRoom"];
const OF_BOTH: [&str; 2] = ["LineTooLong", "PlaceBeyondLine"];
const OF_WRITING_FIELDS: [&str; 2] = ["NotWritable", "NoRoom"];
const OF_WRITING_FRAMES: [&str; 3] = ["CountOrFlag", "WrongLength", "NoRoom"];
const NOT_OF_READING_FRAMES: [&str; 1] = ["NoRoom"];
const NOT_OF_FINDING: [&str; 1] = ["TableFull"];
const BEFORE_LISTING: [&str; 1] = ["LineTooLong"];

// The command that lists a recording; its help stands in it.
const LISTER: &str = "lister";

// What each call can answer, in the order of the cases of an enum, which is that of the papers' tables.
fn orders([line, field, frame, index, manners]: [&[(String, u32)]; 5]) -> BTreeMap<String, Vec<u32>> {
    let pick = |of: &[(String, u32)], asked: &dyn Fn(&str) -> bool| of.iter().filter(|case| asked(&case.0)).map(|case| case.1).collect::<Vec<u32>>();
    let reads = |case: &str| !OF_WRITING.contains(&case) && !OF_BYTES.contains(&case);
    let writes = |case: &str| OF_WRITING.contains(&case) || OF_BOTH.contains(&case);
    let of_bytes = |case: &str| OF_BYTES.contains(&case);
    let lists = |case: &str| BEFORE_LISTING.contains(&case);
    let then = |before: Vec<u32>| [before, pick(manners, &|_| true)].concat();
    BTreeMap::from([
        ("reading a line of words".to_string(), pick(line, &reads)),
        ("reading a line of bytes".to_string(), pick(line, &|case| reads(case) || of_bytes(case))),
        ("writing into a line of words".to_string(), pick(line, &writes)),
        ("writing into a line of bytes".to_string(), pick(line, &|case| writes(case) || of_bytes(case))),
        ("reading a link data field".to_string(), pick(field, &|case| !OF_WRITING_FIELDS.contains(&case))),
        ("writing a link data field".to_string(), pick(field, &|case| OF_WRITING_FIELDS.contains(&case))),
        ("reading a frame".to_string(), pick(frame, &|case| !NOT_OF_READING_FRAMES.contains(&case))),
        ("writing a frame".to_string(), pick(frame, &|case| OF_WRITING_FRAMES.contains(&case))),
        ("entering into the index".to_string(), pick(index, &|_| true)),
        ("finding in the index".to_string(), pick(index, &|case| !NOT_OF_FINDING.contains(&case))),
        ("listing the breaches of a line of words".to_string(), then(pick(line, &lists))),
        ("listing the breaches of a line of bytes".to_string(), then(pick(line, &|case| lists(case) || of_bytes(case)))),
    ])
}

pub fn refusals(page: &[Table], specs: &[File], header: &Numbers, found: &mut Findings) {
    let mut ordered = Vec::new();
    for (heading, head, prefix, cases) in [
        ("7. Refusals of lines", "line_number L.", "REFUSAL_", cases(REFUSALS, "LineRefusal")),
        ("9. Refusals of link data fields", "field_number F.", "FIELD_REFUSAL_", cases(REFUSALS, "FieldRefusal")),
        ("11. Refusals of frames", "frame_number R.", "FRAME_REFUSAL_", cases(FRAMES, "FrameRefusal")),
        ("12. The index", "index_number R.", "INDEX_REFUSAL_", cases(INDEX, "IndexRefusal")),
        ("13. Manners", "manners_number M.", "MANNERS_REFUSAL_", cases(MANNERS, "MannersRefusal")),
    ] {
        let table = table(page, heading, "given when");
        let here = table.numbers("name", "number");
        let defined: Numbers = numbered(specs.iter(), head).into_iter().collect();
        found.both_ways("refusal", &here, NUMBERS, &defined);
        let named = here.iter().map(|(name, number)| (upper(name), *number)).collect();
        let of_header = header.iter().filter_map(|(name, number)| Some((name.strip_prefix(prefix)?.to_string(), *number)));
        found.both_ways("refusal", &named, HEADER, &of_header.filter(|(name, _)| name != "NONE").collect());
        let rows: Vec<String> = table.rows.iter().map(|row| plain(table.cell(row, "name"))).collect();
        found.same(&format!("the order of the rows of '{heading}'"), &rows, REFUSALS, &cases);
        let number = |case: &String| *defined.get(case).unwrap_or_else(|| panic!("{NUMBERS} has no number for {case}"));
        ordered.push(cases.iter().map(|case| (case.clone(), number(case))).collect::<Vec<(String, u32)>>());
    }
    conditions(page, found);
    let there = orders([&ordered[0], &ordered[1], &ordered[2], &ordered[3], &ordered[4]]);
    let table = table(page, "The order of refusals", "order");
    let number = |one: &str| one.parse::<u32>().unwrap_or_else(|_| panic!("{PAGE}: '{one}' is no refusal's number"));
    let numbers = |cell: &str| cell.split(", ").map(number).collect::<Vec<u32>>();
    let here = found.once("the order of", table.rows.iter().map(|row| (table.cell(row, "call").to_string(), numbers(table.cell(row, "order")))));
    found.both_ways("the order of", &here, REFUSALS, &there);
    // the calls of C go by bytes, and the header says these orders in full
    let text = read_to_string(HEADER).unwrap().split_whitespace().filter(|word| *word != "*").collect::<Vec<&str>>().join(" ");
    let in_full = ["writing into a line of bytes", "reading a link data field", "writing a link data field", "reading a frame", "writing a frame"];
    for call in in_full.into_iter().chain(["listing the breaches of a line of bytes"]) {
        let said = there[call].iter().map(|number| number.to_string()).collect::<Vec<String>>().join(", ");
        found.that(text.contains(&format!("the first of {said} whose condition holds")), || format!("the order of {call}: {HEADER} does not say '{said}'"));
    }
    // of reading a line it says how the order begins
    let reading = &there["reading a line of bytes"];
    let begins = reading[..6].iter().map(|number| number.to_string()).collect::<Vec<String>>().join(", ");
    found.that(text.contains(&format!("({begins}, ..)")), || format!("the order of reading a line of bytes: {HEADER} does not say '({begins}, ..)'"));
    places(page, reading, found);
    helped(&ordered[0], found);
}

// What ./lister --help says of refusals names every refusal of a line: those of a run each in a row, the others behind the rows.
fn helped(line: &[(String, u32)], found: &mut Findings) {
    let file = read_to_string(LISTER).unwrap();
    let help = file.split_once("\nHELP\n").unwrap_or_else(|| panic!("{LISTER} has no help")).0;
    let (rows, others) = help.split_once("\nLONG is refusal").unwrap_or_else(|| panic!("{LISTER}: its help does not say what LONG is"));
    let row = |text: &str| text.strip_prefix("  ").and_then(|text| text.split(' ').next()).map(str::to_string);
    let said: Vec<String> = rows.lines().filter_map(row).chain(figures(others)).collect();
    for (name, number) in line {
        found.that(said.contains(&number.to_string()), || format!("refusal {name}: the help of {LISTER} does not say {number}"));
    }
}

// Words with a digit, as conditions have them: 8191, 88-90, 9C.
fn figures(text: &str) -> Vec<String> {
    let parts = text.split(|c: char| !c.is_ascii_alphanumeric() && c != '-').map(|word| word.trim_matches('-').to_string());
    parts.filter(|word| word.contains(|c: char| c.is_ascii_digit())).collect()
}

// Numbers.antt has document 01's sentence above each number: every figure in it stands in the page's condition too.
fn conditions(page: &[Table], found: &mut Findings) {
    let (mut sentence, mut compared) = (String::new(), 0);
    for line in read_to_string(NUMBERS).unwrap().lines() {
        if let Some(text) = line.strip_prefix("-- ") {
            sentence = sentence + " " + text;
            continue;
        }
        for (head, heading) in [("line_number L.", "Refusals of lines"), ("field_number F.", "Refusals of link data fields")] {
            let table = table(page, heading, "given when");
            let name = line.strip_prefix(head).and_then(|rest| rest.split(' ').next());
            if let Some(row) = name.and_then(|name| table.rows.iter().find(|row| plain(table.cell(row, "name")) == name)) {
                let said = figures(&plain(table.cell(row, "given when")));
                for figure in figures(&plain(&sentence)) {
                    compared += 1;
                    found.that(said.contains(&figure), || format!("refusal {}: its condition does not say {figure}; {NUMBERS} does", name.unwrap()));
                }
            }
        }
        sentence.clear();
    }
    assert!(compared > 0, "{NUMBERS} says no condition");
}

// The place that a refusal names stands on the page twice, beside its condition and among the reader's answers.
fn places(page: &[Table], reading: &[u32], found: &mut Findings) {
    let (answers, refusals) = (table(page, "The line", "answer"), table(page, "Refusals of lines", "names"));
    let what = "the place that the reader names with refusal";
    let mut pairs = Vec::new();
    for row in &answers.rows {
        let numbers = words(answers.cell(row, "answer")).into_iter().filter(|word| word.parse::<u32>().is_ok());
        pairs.extend(numbers.map(|number| (number.to_string(), answers.cell(row, "named").to_string())));
    }
    let here = found.once(what, pairs.into_iter());
    let read = refusals.rows.iter().filter(|row| reading.contains(&refusals.cell(row, "number").parse().unwrap()));
    let there = read.map(|row| (refusals.cell(row, "number").to_string(), refusals.cell(row, "names").to_string())).collect();
    found.both_ways(what, &here, "the page's table of refusals", &there);
}
