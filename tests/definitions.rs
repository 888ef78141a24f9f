// What tests/header.rs and tests/format.rs both read: the files of the crates, the numbers that their definitions give to names, and the
// numbers of the C header.
use std::collections::BTreeMap;
use std::fs::{read_dir, read_to_string};

// A file of the crates: its crate, its name, its text.
pub type File = (String, String, String);

// Every file of that folder of every crate that has one.
pub fn files(folder: &str, suffix: &str) -> Vec<File> {
    let mut found = Vec::new();
    let text = |name: std::ffi::OsString| name.into_string().unwrap();
    for krate in read_dir("crates").unwrap().map(|entry| entry.unwrap()) {
        for file in read_dir(krate.path().join(folder)).into_iter().flatten().map(|entry| entry.unwrap()) {
            if text(file.file_name()).ends_with(suffix) {
                found.push((text(krate.file_name()), text(file.file_name()), read_to_string(file.path()).unwrap()));
            }
        }
    }
    found.sort();
    found
}

// LineTooLong and aims_code as LINE_TOO_LONG and AIMS_CODE.
pub fn upper(name: &str) -> String {
    let mut out = String::new();
    for (i, c) in name.chars().enumerate() {
        if c.is_uppercase() && i > 0 {
            out.push('_');
        }
        out.push(c.to_ascii_uppercase());
    }
    out
}

// A number as the definitions and the header write it: decimal, or hexadecimal with 0x.
pub fn number(text: &str) -> Option<u32> {
    match text.strip_prefix("0x") {
        Some(digits) => u32::from_str_radix(digits, 16).ok(),
        None => text.parse().ok(),
    }
}

pub type Numbers = BTreeMap<String, u32>;

// The numbers of the lines "HEAD NAME = NUMBER", in their order; there is one at least.
pub fn numbered<'a>(from: impl Iterator<Item = &'a File>, head: &str) -> Vec<(String, u32)> {
    let mut found = Vec::new();
    for line in from.flat_map(|file| file.2.lines()) {
        if let Some((left, right)) = line.split_once(" = ") {
            if let (Some(name), Some(number)) = (left.strip_prefix(head), number(right)) {
                if !name.contains(' ') {
                    found.push((name.to_string(), number));
                }
            }
        }
    }
    assert!(!found.is_empty(), "no definition has a line '{head}NAME = NUMBER'");
    found
}

// The number of the lines "NAME = NUMBER": there is one at least, and all say the same.
pub fn single(specs: &[File], name: &str) -> u32 {
    let lines = specs.iter().flat_map(|file| file.2.lines()).filter_map(|line| line.split_once(" = "));
    let mut numbers: Vec<u32> = lines.filter(|(left, _)| *left == name).map(|(_, right)| number(right).unwrap()).collect();
    numbers.dedup();
    assert_eq!(numbers.len(), 1, "the numbers of '{name} = ' are {numbers:?}");
    numbers[0]
}

// The numbers of the kinds by the header's names: each report's, a frame's, and the two that are neither's. These stand in the crate of the
// lines' calls and in that of the frames', and are the same in both.
pub fn kinds(specs: &[File]) -> Vec<(String, u32)> {
    let mut found = numbered(specs.iter(), "kind_number K.");
    for (name, definition) in [("Refused", "refused_kind"), ("End", "end_kind"), ("Frame", "frame_kind")] {
        found.push((name.into(), single(specs, definition)));
    }
    found
}

// Every "#define SIAMRUNG_NAME NUMBER" of the header.
pub fn defines(header: &str) -> Numbers {
    let mut found = BTreeMap::new();
    for text in header.lines() {
        let words: Vec<&str> = text.split_whitespace().collect();
        if let ["#define", name, number] = words[..] {
            let name = name.strip_prefix("SIAMRUNG_").expect("a name without the prefix");
            assert!(found.insert(name.to_string(), self::number(number).unwrap()).is_none(), "{name} stands twice");
        }
    }
    found
}
