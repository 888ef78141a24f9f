// The definitions and declarations that the page is held to: where they stand, and how they are taken apart.
use crate::page::Span;
use std::fs::read_to_string;

pub const HEADER: &str = "include/siamrung.h";
pub const WORD: &str = "crates/words/specs/Word.antt";
pub const LINE: &str = "crates/lines/src/lib.rt";
pub const FORMS: &str = "crates/reports/specs/Forms.antt";
pub const RECORDS: &str = "crates/reports/specs/Records.antt";
pub const ALTITUDE: &str = "crates/reports/specs/Altitude.antt";
pub const REPORTS: &str = "crates/reports/src/lib.rt";
pub const WEIGHTS: &str = "crates/measures/specs/Weight.antt";
pub const NUMBERS: &str = "crates/refusals/specs/Numbers.antt";
pub const REFUSALS: &str = "crates/refusals/src/lib.rt";
pub const TYPES: &str = "crates/fields/specs/Table.antt";
pub const PRINTED: &str = "crates/claims/specs/Printed.antt";
pub const FIELDS: &str = "crates/fields/src/lib.rt";
pub const FRAMES: &str = "crates/frames/src/lib.rt";
pub const FRAME: &str = "crates/frames/specs/Frame.antt";
pub const INDEX: &str = "crates/index/src/lib.rt";
pub const MANNERS: &str = "crates/manners/src/lib.rt";
pub const RULES: &str = "crates/manners/specs/Rules.antt";

// A file without the lines that are comments.
pub fn code(path: &str) -> String {
    let text = read_to_string(path).unwrap_or_else(|error| panic!("{path}: {error}"));
    let kept: Vec<&str> = text.lines().filter(|line| !line.trim_start().starts_with("--") && !line.trim_start().starts_with("//")).collect();
    kept.join("\n") + "\n"
}

pub fn words(text: &str) -> Vec<&str> {
    text.split(|c: char| c.is_whitespace() || "(){};,∷".contains(c)).filter(|word| !word.is_empty()).collect()
}

// What stands behind "NAME .. =", up to the next empty line.
pub fn body(text: &str, name: &str) -> Option<String> {
    let mut lines = text.lines().skip_while(|line| !(line.split(' ').next() == Some(name) && line.contains(" =")));
    let first = lines.next()?.split_once(" =").unwrap().1.to_string();
    Some(lines.take_while(|line| !line.trim().is_empty()).fold(first, |body, line| body + "\n" + line))
}

// What "bit ws a", "bits ws a b" and "bits_then ws a b c d" read, in their order.
pub fn reads(text: &str) -> Vec<Vec<Span>> {
    let words = words(text);
    let at = |i: usize| words.get(i).and_then(|word| word.parse::<u32>().ok()).unwrap_or_else(|| panic!("no bit number where one is read: {text}"));
    let mut found = Vec::new();
    for i in 0..words.len() {
        match (words[i], words.get(i + 1)) {
            ("bit", Some(&"ws")) => found.push(vec![(at(i + 2), at(i + 2))]),
            ("bits", Some(&"ws")) => found.push(vec![(at(i + 2), at(i + 3))]),
            ("bits_then", Some(&"ws")) => found.push(vec![(at(i + 2), at(i + 3)), (at(i + 4), at(i + 5))]),
            _ => (),
        }
    }
    found
}

// The members of a struct or of a case, with their types: behind HEAD, up to the brace that closes it.
pub fn members(text: &str, head: &str) -> Vec<(String, String)> {
    let inside = text.split_once(head).unwrap_or_else(|| panic!("there is no '{head}'")).1.split_once('}').unwrap().0;
    let members = inside.split(',').filter_map(|member| member.split_once(':'));
    members.map(|(name, of)| (name.trim().trim_start_matches("pub ").to_string(), of.trim().to_string())).collect()
}

// The cases of an enum, in their order.
pub fn cases(path: &str, name: &str) -> Vec<String> {
    let text = code(path);
    let behind = text.split_once(&format!("pub enum {name} {{\n")).unwrap_or_else(|| panic!("{path} has no enum {name}")).1;
    let inside = behind.split_once("\n}").unwrap().0;
    let case = |line: &str| line.strip_prefix("    ").filter(|line| line.starts_with(char::is_uppercase)).map(|line| words(line)[0].to_string());
    inside.lines().filter_map(case).collect()
}
