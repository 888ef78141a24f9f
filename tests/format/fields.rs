// The twenty-two types of link data fields: their parts by widths and by bit numbers, sizes, rules, examples.
use crate::definitions::{number, upper, File, Numbers};
use crate::page::{plain, shown, spans, table, value, values, width, Findings, Span, Table, PAGE};
use crate::sources::{body, code, members, words, FIELDS, HEADER, PRINTED, TYPES};
use std::collections::{BTreeMap, BTreeSet};

// So many bits, and a step for each of `more` and of the values of the counted parts.
#[derive(PartialEq, Debug)]
struct Size {
    base: u32,
    step: u32,
    more: u32,
    counted: Vec<String>,
}

struct Type {
    code: u32,
    way: &'static str,
    size: Size,
    parts: Vec<(Span, String)>,
    behind: String,
}

// "48 + 80 (`length` + 1)", with parts for their names.
fn size(text: &str, parts: &[(Span, String)]) -> Size {
    let mut size = Size { base: 0, step: 0, more: 0, counted: Vec::new() };
    if text.contains("inner") {
        size.base = words(text)[0].parse().expect("a size");
        return size;
    }
    let (base, rest) = text.split_once(" + ").unwrap_or((text, ""));
    size.base = base.parse().unwrap_or_else(|_| panic!("{PAGE}: '{text}' is no size"));
    if let Some((step, counted)) = rest.split_once(' ') {
        size.step = step.parse().unwrap_or_else(|_| panic!("{PAGE}: '{text}' is no size"));
        for term in words(&plain(counted)).into_iter().filter(|term| *term != "+") {
            match term.parse::<u32>() {
                Ok(number) => size.more += number,
                Err(_) => size.counted.push(parts.iter().find(|part| part.1 == term).map_or(format!("no part {term}"), |part| shown(&[part.0]))),
            }
        }
    }
    size
}

fn types(page: &[Table]) -> BTreeMap<String, Type> {
    let mut found = BTreeMap::new();
    for (heading, way) in [("To the sensor", "ToSensor"), ("From the sensor", "FromSensor")] {
        let table = table(page, heading, "parts");
        for row in &table.rows {
            let part = |text: &str| {
                let (bits, name) = text.trim().split_once(' ').unwrap_or((text.trim(), ""));
                (spans(bits)[0], plain(name))
            };
            let (name, parts) = (plain(table.cell(row, "name")), table.cell(row, "parts").split(',').map(part).collect::<Vec<(Span, String)>>());
            let code = u32::from_str_radix(table.cell(row, "type"), 16).unwrap_or_else(|_| panic!("{PAGE}: {name} has no hexadecimal type"));
            let size = size(table.cell(row, "size in bits"), &parts);
            let before = found.insert(name.clone(), Type { code, way, size, parts, behind: table.cell(row, "behind them").to_string() });
            assert!(before.is_none(), "{PAGE}: {name} has two rows");
        }
    }
    found
}

// A row of Table.antt: "known CODE WAY base step more first second third (RULE WIDTH ∷ ..)"; a counted part is "(Some 6)" or "none".
struct Known {
    way: String,
    size: Size,
    parts: Vec<(String, Span)>,
}

fn known() -> BTreeMap<u32, Known> {
    let mut found = BTreeMap::new();
    for line in code(TYPES).lines().filter(|line| line.contains("known 0x")) {
        let mut words = words(line.split_once("known ").unwrap().1);
        words.retain(|word| *word != "Some");
        let column = |i: usize| words[i].parse::<u32>().unwrap_or_else(|_| panic!("{TYPES}: '{}' is no number in {line}", words[i]));
        let (mut parts, mut at) = (Vec::new(), 9);
        for pair in words[8..].chunks(2).filter(|pair| pair.len() == 2) {
            let width: u32 = pair[1].parse().unwrap_or_else(|_| panic!("{TYPES}: '{}' is no width in {line}", pair[1]));
            parts.push((pair[0].to_string(), (at, at + width - 1)));
            at += width;
        }
        let counted = (5..8).filter(|i| words[*i] != "none").map(|i| shown(&[parts[column(i) as usize - 1].1])).collect();
        let size = Size { base: column(2), step: column(3), more: column(4), counted };
        let code = number(words[0]).expect("a type");
        assert!(found.insert(code, Known { way: words[1].to_string(), size, parts }).is_none(), "{TYPES}: two rows of {code:02X}");
    }
    assert!(!found.is_empty(), "{TYPES} has no row");
    found
}

// A row of Printed.antt: "to CODE SIZE (NAME (at a b) ..)", with "at a b" for the values in a size.
fn printed() -> BTreeMap<String, (u32, &'static str, Size, Vec<String>)> {
    let body = body(&code(PRINTED), "printed").unwrap_or_else(|| panic!("{PRINTED} has no definition printed"));
    let mut found = BTreeMap::new();
    for row in body.split('∷') {
        let words = words(row);
        let way = match words[0] {
            "to" => "ToSensor",
            "from" => "FromSensor",
            _ => continue,
        };
        let name = words.iter().position(|word| word.starts_with(char::is_uppercase)).unwrap_or_else(|| panic!("{PRINTED}: no record in {row}"));
        let (mut numbers, mut counted, mut parts) = (Vec::new(), Vec::new(), Vec::new());
        let mut i = 2;
        while i < words.len() {
            if words[i] == "at" {
                let bits = shown(&[(words[i + 1].parse().unwrap(), words[i + 2].parse().unwrap())]);
                if i < name { &mut counted } else { &mut parts }.push(bits);
                i += 2;
            } else if i < name {
                numbers.extend(words[i].parse::<u32>());
            }
            i += 1;
        }
        let nth = |i: usize| numbers.get(i).copied().unwrap_or(0);
        let size = Size { base: nth(0), step: nth(1), more: nth(2), counted };
        found.insert(words[name].to_string(), (number(words[1]).expect("a type"), way, size, parts));
    }
    assert!(!found.is_empty(), "{PRINTED} has no row");
    found
}

// What the page says of the values that a rule of Table.antt leaves out, and the least value that it leaves in.
fn rule_of(name: &str) -> (&'static str, u32) {
    match name {
        "any" => ("none", 0),
        "not_zero" => ("0", 1),
        "one" => ("all but 1", 1),
        "up_to4" => ("5 to 7", 0),
        "up_to5" => ("6 and 7", 0),
        "advisory" => ("those that end in 111", 0),
        _ => panic!("{TYPES} has a rule that the page has no words for: {name}"),
    }
}

// What a cell says of a type: all that it says, or of "0 in 22, none in 42" the words before that type.
fn of_type(cell: &str, code: u32) -> &str {
    let is_type = |text: &str| text.len() == 2 && u32::from_str_radix(text, 16).is_ok();
    let said: Option<Vec<(&str, &str)>> = cell.split(", ").map(|text| text.rsplit_once(" in ").filter(|said| is_type(said.1))).collect();
    match said {
        Some(said) => said.iter().find(|said| said.1 == format!("{code:02X}")).map_or("nothing", |said| said.0),
        None => cell,
    }
}

pub fn link_fields(page: &[Table], specs: &[File], header: &Numbers, found: &mut Findings) {
    let types = types(page);
    found.same("how many types", 22, "its tables of types", types.len());
    let hex = |code: u32| format!("{code:02X}");
    let of_header = header.iter().filter_map(|(name, code)| Some((name.strip_prefix("TYPE_")?.to_string(), hex(*code)))).collect();
    found.both_ways("type", &types.iter().map(|(name, of)| (upper(name), hex(of.code))).collect(), HEADER, &of_header);
    let (known, printed, declared) = (known(), printed(), code(FIELDS));
    let codes = |all: Vec<u32>| all.into_iter().map(|code| (hex(code), ())).collect::<BTreeMap<String, ()>>();
    found.both_ways("type", &codes(types.values().map(|of| of.code).collect()), TYPES, &codes(known.keys().copied().collect()));
    let but_relay = types.iter().filter(|(name, _)| *name != "Relay").map(|(name, _)| (name.clone(), ())).collect();
    found.both_ways("type", &but_relay, PRINTED, &printed.keys().map(|name| (name.clone(), ())).collect());

    let parts = table(page, "The parts", "part");
    let rows = parts.rows.iter().flat_map(|row| parts.cell(row, "part").split(", ").map(move |name| (plain(name), row)));
    let rows = found.once("part", rows);
    let part = |name: &str| rows.get(name).copied();
    let behind = table(page, "What stands behind the parts", "how many");
    found.once("behind the parts,", behind.rows.iter().map(|row| (behind.cell(row, "behind the parts").to_string(), ())));
    let mut used = BTreeSet::new();
    for (name, of) in &types {
        let what = format!("type {:02X} {name}", of.code);
        // every bit up to the last part once, in order
        let mut at = 9;
        for (span, _) in &of.parts {
            found.that(span.0 == at && span.1 >= at, || format!("{what}: the part {} does not begin at bit {at}", shown(&[*span])));
            at = span.1 + 1;
        }
        found.same(&format!("{what}: the last bit of its parts"), at - 1, "its size", of.size.base);
        // by widths and rules
        if let Some(known) = known.get(&of.code) {
            found.same(&format!("{what}: its way"), of.way, TYPES, &known.way[..]);
            found.same(&format!("{what}: its size"), &of.size, TYPES, &known.size);
            let here: Vec<String> = of.parts.iter().map(|part| shown(&[part.0])).collect();
            let there: Vec<String> = known.parts.iter().map(|part| shown(&[part.1])).collect();
            found.same(&format!("{what}: its parts"), here, TYPES, there);
            for ((span, name), (rule, _)) in of.parts.iter().zip(&known.parts) {
                let said = if name.is_empty() { "spare" } else { part(name).map_or("nothing", |row| of_type(parts.cell(row, "not in use"), of.code)) };
                let there = if rule == "spare" { "spare" } else { rule_of(rule).0 };
                found.same(&format!("{what}, bits {}: not in use", shown(&[*span])), said, TYPES, there);
            }
            let widest = |span: &str| (1 << width(spans(span)[0])) - 1;
            let least = |span: &str| known.parts.iter().find(|part| shown(&[part.1]) == span).map_or(0, |part| rule_of(&part.0).1);
            let sum = |each: &dyn Fn(&str) -> u32| known.size.more + known.size.counted.iter().map(|span| each(span)).sum::<u32>();
            if let Some(row) = behind.rows.iter().find(|row| behind.cell(row, "behind the parts") == of.behind) {
                let (step, some) = (known.size.step.to_string(), format!("{} to {}", sum(&least), sum(&widest)));
                found.same(&format!("{what}: bits of each behind the parts"), behind.cell(row, "bits of each"), TYPES, &step);
                found.same(&format!("{what}: how many behind the parts"), of_type(behind.cell(row, "how many"), of.code), TYPES, &some);
            } else {
                let none = if name == "Relay" { "a whole field" } else { "" };
                found.same(&format!("{what}: behind the parts"), &of.behind[..], TYPES, none);
                found.same(&format!("{what}: step"), 0, TYPES, known.size.step);
            }
        }
        // by names and bit numbers
        let named: Vec<(String, String)> = of.parts.iter().filter(|part| !part.1.is_empty()).map(|part| (part.1.clone(), shown(&[part.0]))).collect();
        let fields = members(&declared, &format!(" {name} {{")).into_iter().filter(|(_, of)| of == "u64").map(|(name, _)| name);
        let names: Vec<String> = named.iter().map(|part| part.0.clone()).collect();
        found.same(&format!("{what}: the names of its parts"), names, FIELDS, fields.collect());
        if let Some((code, way, size, bits)) = printed.get(name) {
            found.same(&format!("{what}: its type"), hex(of.code), PRINTED, hex(*code));
            found.same(&format!("{what}: its way"), of.way, PRINTED, *way);
            found.same(&format!("{what}: its size"), &of.size, PRINTED, size);
            found.same(&format!("{what}: its parts"), named.iter().map(|part| part.1.clone()).collect(), PRINTED, bits.clone());
        }
        for (span, name) in of.parts.iter().filter(|part| !part.1.is_empty()) {
            let row = part(name).unwrap_or_else(|| panic!("{PAGE}: '{name}' of {what} is not among the parts"));
            found.same(&format!("{what}, {name}: its bits"), &width(*span).to_string()[..], "the page's table of parts", parts.cell(row, "bits"));
            used.insert(name.clone());
        }
    }
    for name in rows.keys() {
        found.that(used.contains(name), || format!("part {name}: no type has it"));
    }
    for row in &behind.rows {
        let name = behind.cell(row, "behind the parts");
        found.that(types.values().any(|of| of.behind == name), || format!("behind the parts, {name}: no type has it"));
    }
    bounds(page, specs, found);
    not_carried(page, specs, &types, found);
    field_examples(page, &types, found);
}

// Row 20: the bounds of the count are numbers of the definitions of fields.
fn bounds(page: &[Table], specs: &[File], found: &mut Findings) {
    let said = table(page, "Refusals of link data fields", "given when").at("number", "20", "given when");
    let paths = specs.iter().filter(|file| file.0 == "fields").map(|file| format!("crates/fields/specs/{}", file.1));
    let there: Vec<String> = paths.map(|path| code(&path)).collect();
    for bound in words(said).into_iter().filter(|word| word.parse::<u32>().is_ok()) {
        let stands = there.iter().any(|text| words(text).contains(&bound));
        found.that(stands, || format!("refusal 20: its condition says {bound}, which no definition of crates/fields/specs does"));
    }
}

// Row 24: every type that the definitions of fields name is one of the table's or stands there; and those that stand there by themselves are named.
fn not_carried(page: &[Table], specs: &[File], types: &BTreeMap<String, Type>, found: &mut Findings) {
    let said = table(page, "Refusals of link data fields", "given when").at("number", "24", "given when");
    let said = said.split(':').next().unwrap().replace("80 to 8F", "");
    let carried = |code: &u32| types.values().any(|of| of.code == *code);
    let hex = |text: &str| u32::from_str_radix(text, 16).ok().filter(|_| text.len() == 2).filter(|code| !carried(code));
    let named = |file: &File| file.2.split("0x").skip(1).filter_map(|rest| hex(rest.get(..2)?)).collect::<Vec<u32>>();
    let there = specs.iter().filter(|file| file.0 == "fields").flat_map(named).map(|code| (format!("{code:02X}"), ())).collect();
    let here = words(&said).into_iter().filter_map(hex).map(|code| (format!("{code:02X}"), ())).collect();
    found.both_ways("a type that is not carried,", &here, "crates/fields/specs", &there);
}

fn field_examples(page: &[Table], types: &BTreeMap<String, Type>, found: &mut Findings) {
    let table = table(page, "Examples", "bytes");
    for row in &table.rows {
        let bytes: Vec<u64> = table.cell(row, "bytes").split(' ').map(|byte| u64::from_str_radix(byte, 16).expect("a byte")).collect();
        let bit = |at: u32| bytes[(at as usize - 1) / 8] >> (7 - (at - 1) % 8) & 1;
        let (name, count) = (plain(table.cell(row, "name")), table.cell(row, "count").parse::<u32>().expect("a count"));
        let of = types.get(&name).unwrap_or_else(|| panic!("{PAGE}: an example of no type: {name}"));
        let counted: i64 = of.size.counted.iter().map(|span| value(&spans(span), &bit)).sum();
        let size = of.size.base + of.size.step * (of.size.more + counted as u32);
        found.same(&format!("the example of {name}: its type"), of.code as i64, "its bytes", value(&[(1, 8)], &bit));
        found.same(&format!("the example of {name}: its count"), count, "the size of the type", size);
        found.same(&format!("the example of {name}: its bytes"), bytes.len() as u32, "the count", (count + 7) / 8);
        let there = of.parts.iter().filter(|part| !part.1.is_empty()).map(|part| (part.1.clone(), value(&[part.0], &bit))).collect();
        found.both_ways(&format!("the example of {name},"), &values(table.cell(row, "parts")), "its bytes", &there);
        // a block is a sign, thousands and hundreds; an entry of 24 bits is a number; a text has no entries
        let entry = |from: u32| match of.size.step {
            8 => (1 - 2 * bit(from) as i64) * (10 * value(&[(from + 1, from + 3)], &bit) + value(&[(from + 4, from + 7)], &bit)),
            step => value(&[(from, from + step - 1)], &bit),
        };
        let end = if of.behind == "text" { of.size.base } else { size };
        let starts = (of.size.base + 1..=end).step_by(of.size.step.max(1) as usize);
        let there: Vec<String> = starts.map(|from| entry(from).to_string()).collect();
        found.same(&format!("the example of {name}: its entries"), table.cell(row, "entries"), "its bytes", &there.join(", "));
    }
}
