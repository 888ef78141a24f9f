// Holds include/siamrung.h to the crates, wherever in them something stands.
// Numbers: every form of the altitude, kind, type, refusal, item and rule of manners that specs/ numbers stands in the header with the same number,
// as do the version, the last link number and what a call of the index or of manners has done, and the header has no other. No two kinds, refusals
// and numbers of what was done are the same, no two items are, and no two rules.
// Structs: every `#[repr(C)]` struct stands in the header with the same fields, in order and by name and type, and the header has no other.
// Calls: every `extern "C"` function stands in the header with the same arguments, in order and by name and type, and the same answer, and the
// header has no other, but those that it defines itself.
mod definitions;
use definitions::{defines, files, kinds, number, numbered, single, upper, File, Numbers};
use std::collections::BTreeMap;
use std::fs::read_to_string;

// What stands by each name in the crates stands by it in the header, and the header has no other name.
fn compare<T: PartialEq + std::fmt::Debug>(what: &str, defined: &BTreeMap<String, T>, declared: &BTreeMap<String, T>) {
    for (name, there) in defined {
        let here = declared.get(name).unwrap_or_else(|| panic!("{what} {name} is not in the header"));
        assert_eq!(here, there, "the header's {what} {name} (left) is not the crates' (right)");
    }
    for name in declared.keys() {
        assert!(defined.contains_key(name), "{what} {name} is in no crate");
    }
    println!("tests: every {what} of include/siamrung.h is the crates': {}", declared.len());
}

// ---- numbers

// Adds numbers by the header's names; no name comes twice. Three definitions have a longer name than the header has for what they number.
fn add(to: &mut Numbers, from: Vec<(String, u32)>, prefix: &str) {
    for (name, number) in from {
        let name = match &name[..] {
            "false_target_flag" => "false_target",
            "ground_traffic" => "ground",
            "mode_c_of" => "mode_c",
            _ => &name,
        };
        let name = format!("{prefix}_{}", upper(name));
        assert!(to.insert(name.clone(), number).is_none(), "{name} is defined twice");
    }
}

// Adds the types of the lines "numbers_of (F.NAME ..) = eleven CODE ..", and the relay's, which is no record's first number.
fn add_types(to: &mut Numbers, specs: &[File]) {
    for line in specs.iter().flat_map(|file| file.2.lines()) {
        if let Some((left, right)) = line.strip_prefix("numbers_of (F.").and_then(|rest| rest.split_once(") = eleven ")) {
            let name = format!("TYPE_{}", upper(left.split(' ').next().unwrap()));
            let code = number(right.split(' ').next().unwrap()).unwrap();
            assert!(to.insert(name.clone(), code).is_none(), "{name} is defined twice");
        }
    }
    let relay = specs.iter().flat_map(|file| file.2.lines()).find_map(|line| line.strip_prefix("outer_of (Relay x f) = "));
    to.insert("TYPE_RELAY".into(), number(relay.expect("the relay's type")).unwrap());
}

// What a call of the index has done: the number of each line "entered_done = NUMBER" and so on.
fn done(specs: &[File]) -> Vec<(String, u32)> {
    ["Entered", "Replaced", "Left", "Found", "Missing"].map(|name| (name.into(), single(specs, &format!("{}_done", name.to_lowercase())))).into()
}

// No two of the names that are asked for have the same number.
fn differ(numbers: &Numbers, asked: impl Fn(&str) -> bool) {
    let mut by_number = BTreeMap::new();
    for (name, number) in numbers.iter().filter(|(name, _)| asked(name)) {
        if let Some(other) = by_number.insert(number, name) {
            panic!("{name} has the number of {other}");
        }
    }
}

fn numbers(header: &str) {
    let specs = files("specs", ".antt");
    // the items of a line and of a field stand in a file each, a field's in a crate for fields
    let items = |fields: bool| specs.iter().filter(move |file| file.1 == "Items.antt" && file.0.starts_with("field") == fields);
    let mut expected = BTreeMap::new();
    add(&mut expected, kinds(&specs), "KIND");
    add(&mut expected, numbered(specs.iter(), "form_number F."), "FORM");
    add(&mut expected, numbered(specs.iter(), "line_number L."), "REFUSAL");
    add(&mut expected, numbered(specs.iter(), "field_number F."), "FIELD_REFUSAL");
    add(&mut expected, numbered(specs.iter(), "frame_number R."), "FRAME_REFUSAL");
    add(&mut expected, numbered(specs.iter(), "index_number R."), "INDEX_REFUSAL");
    add(&mut expected, done(&specs), "INDEX");
    add(&mut expected, numbered(specs.iter(), "rule_number R."), "BREACH");
    add(&mut expected, numbered(specs.iter(), "manners_number M."), "MANNERS_REFUSAL");
    expected.insert("MANNERS_LISTED".into(), single(&specs, "listed_done"));
    expected.insert("MOST_BREACHES".into(), single(&specs, "most_breaches"));
    expected.insert("LAST_LINK".into(), single(&specs, "last_link"));
    expected.insert("VERSION".into(), single(&specs, "version"));
    add(&mut expected, numbered(items(false), ""), "ITEM");
    add(&mut expected, numbered(items(true), ""), "FIELD_ITEM");
    add_types(&mut expected, &specs);
    expected.insert("REFUSAL_NONE".into(), 0);
    let found = defines(header);
    compare("number", &expected, &found);
    differ(&found, |name| name.starts_with("KIND") || name.contains("REFUSAL") || name.starts_with("INDEX") || name == "MANNERS_LISTED");
    differ(&found, |name| name.starts_with("ITEM") || name.starts_with("FIELD_ITEM"));
    differ(&found, |name| name.starts_with("BREACH"));
}

// ---- the text of the header

fn spaced(text: &str) -> String {
    text.split_whitespace().collect::<Vec<&str>>().join(" ")
}

// What is neither a comment nor the preprocessor's.
fn code(header: &str) -> String {
    let mut code = String::new();
    for (i, part) in header.split("/*").enumerate() {
        code += if i == 0 { part } else { part.split_once("*/").expect("a comment that ends").1 };
    }
    let lines: Vec<&str> = code.lines().filter(|line| !line.starts_with('#')).collect();
    lines.join(" ").replace("extern \"C\" {", "")
}

// Takes every "START HEAD { BODY } TAIL" out of the code, where the tail ends as it is said; answers the heads, bodies and tails.
fn taken(code: &mut String, start: &str, end: &str) -> Vec<[String; 3]> {
    let mut found = Vec::new();
    while let Some(at) = code.find(start) {
        let rest = code.split_off(at);
        let (head, rest) = rest[start.len()..].split_once('{').expect("an opening brace");
        let (body, rest) = rest.split_once('}').expect("a closing brace");
        let (tail, rest) = rest.split_once(end).expect("what stands behind a closing brace");
        found.push([head, body, tail].map(spaced));
        code.push_str(rest);
    }
    found
}

// ---- types

// A type of the language as C's.
fn c_type(of: &str) -> &'static str {
    match of {
        "u8" => "uint8_t",
        "u16" => "uint16_t",
        "u32" => "uint32_t",
        "u64" => "uint64_t",
        "usize" => "size_t",
        "i32" => "int32_t",
        "i64" => "int64_t",
        "f64" => "double",
        _ => panic!("no type of C is known for {of}"),
    }
}

fn c_struct(name: &str) -> String {
    format!("siamrung_{}", upper(name).to_lowercase())
}

// The fields of a struct as C has them, in their order, by the struct's name in C.
type Structs = BTreeMap<String, Vec<String>>;

// Every `#[repr(C)] pub struct NAME { pub NAME: TYPE, .. }` of the crates; other attributes may stand before `pub`.
fn defined_structs() -> Structs {
    let mut structs = Structs::new();
    for (krate, file, text) in files("src", ".rt") {
        for part in text.split("#[repr(C)]").skip(1) {
            let mut rest = part.trim_start();
            while rest.starts_with("#[") {
                rest = rest.split_once('\n').map_or("", |(_, below)| below);
            }
            let rest = rest.strip_prefix("pub struct ").unwrap_or_else(|| panic!("{krate}/src/{file}: #[repr(C)] before no struct"));
            let (name, rest) = rest.split_once('{').unwrap();
            let (fields, _) = rest.split_once('}').unwrap();
            let fields = fields.split(',').map(str::trim).filter(|field| !field.is_empty());
            let pairs = fields.map(|field| field.strip_prefix("pub ").and_then(|field| field.split_once(": ")).expect("pub NAME: TYPE"));
            let fields = pairs.map(|(name, of)| format!("{} {name}", c_type(of))).collect();
            assert!(structs.insert(c_struct(name.trim()), fields).is_none(), "{name} stands twice");
        }
    }
    structs
}

// Takes every "typedef struct NAME { TYPE NAME; .. } NAME;" out of the header's code.
fn take_structs(code: &mut String) -> Structs {
    let mut structs = Structs::new();
    for [name, fields, tail] in taken(code, "typedef struct ", ";") {
        assert_eq!(name, tail, "a struct and its type have two names");
        let fields = fields.split(';').map(spaced).filter(|field| !field.is_empty()).collect();
        assert!(structs.insert(name.clone(), fields).is_none(), "{name} stands twice");
    }
    structs
}

// ---- calls

// A prototype as C has it, with one space between words, by the name of its function.
type Calls = BTreeMap<String, String>;

fn add_call(to: &mut Calls, answer: &str, name: &str, arguments: &[String]) {
    let arguments = if arguments.is_empty() { "void".into() } else { arguments.join(", ") };
    let prototype = format!("{answer} {name}({arguments})");
    assert!(to.insert(name.into(), prototype).is_none(), "{name} stands twice");
}

// An argument of the language as C's: a slice is a pointer and the number of its bytes, or of its structs. Two names are others in the header.
fn c_arguments(name: &str, of: &str) -> Vec<String> {
    let name = match name {
        "code" => "type",
        "told" => "items",
        _ => name,
    };
    let (shared, held) = match of.strip_suffix(']') {
        Some(slice) if slice.starts_with("&mut [") => ("", &slice["&mut [".len()..]),
        Some(slice) if slice.starts_with("&[") => ("const ", &slice["&[".len()..]),
        _ => return vec![format!("{} {name}", c_type(of))],
    };
    let (held, length) = match (held, name) {
        ("u8", "bytes") => ("uint8_t".into(), "length".into()),
        ("u8", _) => ("uint8_t".into(), format!("{name}_length")),
        (_, "table") => (c_struct(held), "entries".into()),
        _ => panic!("a slice of {held} has the name {name}"),
    };
    vec![format!("{shared}{held} *{name}"), format!("size_t {length}")]
}

// Every `pub extern "C" fn NAME(NAME: TYPE, ..) -> TYPE` of the crates; it is marked so that it keeps its name.
fn defined() -> Calls {
    let mut calls = Calls::new();
    for (krate, file, text) in files("src", ".rt") {
        let parts: Vec<&str> = text.split("pub extern \"C\" fn ").collect();
        for pair in parts.windows(2) {
            let (name, rest) = pair[1].split_once('(').unwrap();
            assert!(pair[0].trim_end().ends_with("#[unsafe(no_mangle)]"), "{name} of {krate}/src/{file} is not #[unsafe(no_mangle)]");
            let (arguments, rest) = rest.split_once(')').unwrap();
            let arguments: Vec<String> = arguments
                .split(',')
                .filter(|argument| !argument.trim().is_empty())
                .map(|argument| argument.split_once(':').unwrap())
                .flat_map(|(name, of)| c_arguments(name.trim(), &spaced(of)))
                .collect();
            let answer = rest.trim_start().strip_prefix("->").map_or("void", |rest| c_type(rest.split_whitespace().next().unwrap()));
            add_call(&mut calls, answer, name, &arguments);
        }
    }
    calls
}

// Every prototype of the header's code: what ends with a semicolon.
fn declared(code: &str) -> Calls {
    let mut calls = Calls::new();
    for prototype in code.split(';').filter(|text| !text.trim().is_empty()) {
        let (head, arguments) = prototype.split_once('(').expect("a prototype");
        let (answer, name) = head.trim().rsplit_once(' ').expect("an answer and a name");
        let arguments = arguments.trim_end().strip_suffix(')').expect("a prototype's end");
        let arguments: Vec<String> = if arguments == "void" { Vec::new() } else { arguments.split(',').map(spaced).collect() };
        add_call(&mut calls, answer, name, &arguments);
    }
    calls
}

// What the header defines itself: these take an answer of the index or of manners apart, or a list of breaches, and are no calls of the library.
const OWN: [&str; 6] = [
    "uint32_t siamrung_index_done(uint32_t answer)",
    "size_t siamrung_index_entry(uint32_t answer)",
    "uint32_t siamrung_manners_done(uint32_t answer)",
    "size_t siamrung_manners_breaches(uint32_t answer)",
    "size_t siamrung_breach_place(const uint8_t *list, size_t k)",
    "uint32_t siamrung_breach_rule(const uint8_t *list, size_t k)",
];

fn structs_and_calls(header: &str) {
    let mut code = code(header);
    compare("struct", &defined_structs(), &take_structs(&mut code));
    let own: Vec<String> = taken(&mut code, "static inline ", "").into_iter().map(|[head, ..]| head).collect();
    assert_eq!(own, OWN, "the header defines others itself");
    compare("prototype", &defined(), &declared(&code.replace('}', "")));
}

fn main() {
    let header = read_to_string("include/siamrung.h").unwrap();
    numbers(&header);
    structs_and_calls(&header);
}
