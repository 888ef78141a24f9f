// Holds docs/FORMAT.md to the definitions and to the C header, number by number and both ways: limits, weights, kinds, the bits of every layout of
// a report and of every type of link data field, frames, rules, refusals and the order in which each call tests them. Besides, the page must agree with
// itself: every data bit of a layout stands in it once, no two layouts fit the same words, and the examples say what their bits say.
// What a bit means, the page says in words: that is not compared. The lister's help must name every refusal of a line.
mod definitions;
#[path = "format/fields.rs"]
mod fields;
#[path = "format/frames.rs"]
mod frames;
#[path = "format/manners.rs"]
mod manners;
#[path = "format/page.rs"]
mod page;
#[path = "format/refusals.rs"]
mod refusals;
#[path = "format/reports.rs"]
mod reports;
#[path = "format/sources.rs"]
mod sources;
use definitions::{defines, files, numbered, File, Numbers};
use page::{plain, table, Findings, Table, PAGE};
use sources::{body, code, words, HEADER, LINE, WEIGHTS, WORD};
use std::fs::read_to_string;
use std::path::Path;

// Every file that the page names is there; one without a path stands in the folder of the definition named before it.
fn named_files(page: &str, found: &mut Findings) {
    let mut folder = String::new();
    for name in page.split('`').skip(1).step_by(2) {
        let path = if name.contains('/') { name.to_string() } else { format!("{folder}/{name}") };
        if name.contains('/') && name.ends_with(".antt") {
            folder = Path::new(name).parent().unwrap().to_str().unwrap().to_string();
        }
        if name.ends_with(".antt") || name.ends_with(".rs") || name.ends_with(".h") {
            found.that(Path::new(&path).is_file(), || format!("the page names {path}, which is no file"));
        }
    }
}

// The limits of words and lines.
fn limits(page: &[Table], found: &mut Findings) {
    let (word, line) = (code(WORD), code(LINE));
    let mut there = Numbers::new();
    for name in ["idle", "largest"] {
        let number = body(&word, name).and_then(|body| body.trim().parse().ok());
        there.insert(name.into(), number.unwrap_or_else(|| panic!("{WORD}: {name} is no number")));
    }
    for (name, constant) in [("most", "MOST: usize"), ("most_bytes", "MOST_BYTES: usize"), ("last_link", "LAST_LINK: u32")] {
        let text = line.split_once(&format!("pub const {constant} = ")).and_then(|(_, text)| text.split(';').next());
        there.insert(name.into(), text.and_then(|text| text.parse().ok()).unwrap_or_else(|| panic!("{LINE}: {constant} is no number")));
    }
    found.both_ways("limit", &table(page, "The line", "limit").numbers("limit", "number"), "a definition", &there);
    // the conditions of the refusals say them again
    let refusals = table(page, "Refusals of lines", "given when");
    for (refusal, name) in [("LineTooLong", "most"), ("LineTooLong", "most_bytes"), ("WordTooWide", "largest"), ("NoSuchLink", "last_link")] {
        let (said, limit) = (plain(refusals.at("name", refusal, "given when")), there[name].to_string());
        found.that(words(&said).contains(&&limit[..]), || format!("refusal {refusal}: its condition does not say {limit}"));
    }
}

// The weights: the number of each, what it says of one count, and the counts of the circle.
fn weights(page: &[Table], specs: &[File], found: &mut Findings) {
    let file = specs.iter().filter(|file| file.0 == "measures" && file.1 == "Weight.antt");
    let there: Numbers = numbered(file, "").into_iter().collect();
    let table = table(page, "Counts and their weights", "weight");
    let here = table.numbers("weight", "number");
    found.both_ways("weight", &here, WEIGHTS, &there);
    for row in &table.rows {
        let (name, one) = (plain(table.cell(row, "weight")), table.cell(row, "one count"));
        let (amount, unit) = one.split_once(' ').expect("an amount and a unit");
        let (over, under) = amount.split_once('/').unwrap_or((amount, "1"));
        let (over, under): (u32, u32) = (over.parse().unwrap(), under.parse().unwrap());
        let parts = if unit == "ACP" { 1 } else { 1024 };
        found.same(&format!("weight {name}, one count {one}"), over * parts / under, WEIGHTS, there.get(&name).copied().unwrap_or(0));
        if let Some((before, _)) = table.cell(row, "of").split_once(" to the circle") {
            let counts: u32 = before.rsplit(' ').next().unwrap().parse().unwrap();
            found.same(&format!("weight {name}: degrees of {counts} counts"), counts * over, "the circle", 360 * under);
        }
    }
}

fn main() {
    let page = read_to_string(PAGE).unwrap();
    let (tables, specs, header) = (page::tables(&page), files("specs", ".antt"), defines(&read_to_string(HEADER).unwrap()));
    let mut found = Findings::default();
    named_files(&page, &mut found);
    limits(&tables, &mut found);
    weights(&tables, &specs, &mut found);
    reports::reports(&tables, &specs, &header, &mut found);
    refusals::refusals(&tables, &specs, &header, &mut found);
    fields::link_fields(&tables, &specs, &header, &mut found);
    frames::frames(&tables, &specs, &mut found);
    manners::manners(&tables, &specs, &header, &mut found);
    for text in &found.wrong {
        eprintln!("tests: {PAGE}: {text}");
    }
    assert!(found.wrong.is_empty(), "{PAGE} disagrees in {} of {} comparisons", found.wrong.len(), found.held);
    println!("tests: {PAGE} agrees with the definitions, the header and itself in {} comparisons", found.held);
}
