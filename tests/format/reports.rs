// The seventeen layouts of reports: the bits that tell them, their fields, their kinds, their examples.
use crate::definitions::{kinds, numbered, upper, File, Numbers};
use crate::page::{bits, plain, shown, spans, table, value, values, width, Findings, Span, Table, PAGE};
use crate::sources::{body, code, members, reads, words, ALTITUDE, FORMS, HEADER, RECORDS, REPORTS};
use std::collections::{BTreeMap, BTreeSet};

struct Row {
    bits: Vec<Span>,
    name: String,
    weight: String,
}

struct Layout {
    name: String,
    kind: String,
    words: u32,
    told: Vec<(Span, String)>,
    rows: Vec<Row>,
    height: String,
}

impl Layout {
    fn told_at(&self, bit: u32) -> Option<u64> {
        let (span, pattern) = self.told.iter().find(|(span, _)| span.0 <= bit && bit <= span.1)?;
        pattern[(bit - span.0) as usize..].chars().next().map(|digit| (digit == '1') as u64)
    }

    fn fits(&self, bit: &dyn Fn(u32) -> u64) -> bool {
        self.told.iter().all(|(span, _)| bits(&[*span]).all(|at| self.told_at(at) == Some(bit(at))))
    }
}

// The weight that a row's meaning names.
fn weight(meaning: &str) -> String {
    meaning.split_once("weight `").map_or("", |(_, rest)| rest.split('`').next().unwrap()).to_string()
}

// The layouts with their own rows of the tables A to E, without those that tell the layout; every row is some layout's.
fn layouts(page: &[Table], found: &mut Findings) -> Vec<Layout> {
    let table = table(page, "The seventeen layouts", "its rows");
    let mut used = BTreeSet::new();
    let mut layouts = Vec::new();
    for row in &table.rows {
        let name = table.cell(row, "layout").to_string();
        let told = |text: &str| {
            let (span, pattern) = text.trim().split_once(' ').unwrap_or_else(|| panic!("{PAGE}, layout {name}: '{text}' tells nothing"));
            (spans(span)[0], plain(pattern))
        };
        let told: Vec<(Span, String)> = table.cell(row, "the bits that tell it").split(',').map(told).collect();
        for (span, pattern) in &told {
            found.same(&format!("layout {name}, bits {}: digits", shown(&[*span])), pattern.len() as u32, "the span", width(*span));
        }
        let tells = |bit: u32| told.iter().any(|(span, _)| span.0 <= bit && bit <= span.1);
        let (mut rows, mut height) = (Vec::new(), String::new());
        for cited in table.cell(row, "its rows").split(", ") {
            let (letter, label) = cited.split_once(' ').unwrap_or((cited, ""));
            let fields = page.iter().find(|table| table.heading.starts_with(&format!("{letter}: ")));
            let fields = fields.unwrap_or_else(|| panic!("{PAGE}, layout {name}: there is no table {letter}"));
            if fields.heading.contains("word 7") {
                height = label.to_lowercase();
            }
            let mut any = false;
            for (i, row) in fields.rows.iter().enumerate() {
                let all = !fields.has("in") && label.is_empty();
                if all || fields.has("in") && fields.cell(row, "in").split(", ").any(|one| one == label || one == "all") {
                    any = true;
                    let (bits, name) = (spans(fields.cell(row, "bits")), plain(fields.cell(row, "field")));
                    if name.is_empty() || !self::bits(&bits).all(tells) {
                        used.insert((letter, i));
                        rows.push(Row { bits, name, weight: weight(fields.cell(row, "meaning")) });
                    }
                }
            }
            found.that(any, || format!("layout {name}: '{cited}' is no row of a table"));
        }
        let words = table.cell(row, "words").parse().expect("a number of words");
        layouts.push(Layout { name, kind: table.cell(row, "kind").to_string(), words, told, rows, height });
    }
    for table in page.iter().filter(|table| table.has("field")) {
        let letter = table.heading.split(':').next().unwrap();
        for (i, row) in table.rows.iter().enumerate() {
            found.that(used.contains(&(letter, i)), || format!("table {letter}: no layout has the row {row:?}"));
        }
    }
    layouts
}

// Every data bit once, no parity bit, nothing beyond.
fn covered(layout: &Layout, found: &mut Findings) {
    let mut times = BTreeMap::new();
    for bit in layout.rows.iter().flat_map(|row| bits(&row.bits)).chain(layout.told.iter().flat_map(|(span, _)| span.0..=span.1)) {
        *times.entry(bit).or_insert(0) += 1;
    }
    let (name, last) = (&layout.name, 13 * layout.words);
    for bit in 1..=last {
        let (times, wanted) = (times.get(&bit).copied().unwrap_or(0), (bit % 13 != 0) as i32);
        found.that(times == wanted, || match (times, wanted) {
            (0, _) => format!("layout {name}: bit {bit} stands in no row"),
            (_, 0) => format!("layout {name}: bit {bit} is a parity bit, and stands in a row"),
            _ => format!("layout {name}: bit {bit} stands in {times} rows"),
        });
    }
    found.that(times.keys().all(|bit| (1..=last).contains(bit)), || format!("layout {name}: a row has a bit that is none of bits 1 to {last}"));
}

// A record of Records.antt: what is read for each of its fields, and whether word 7 stands in it by the form of the height.
#[derive(Default)]
struct Record {
    fields: BTreeMap<String, String>,
    height: bool,
}

fn records(text: &str) -> BTreeMap<String, Record> {
    let mut found: BTreeMap<String, Record> = BTreeMap::new();
    let mut inside: Option<String> = None;
    for line in text.lines() {
        if let Some(head) = line.strip_suffix(" = record {") {
            inside = head.split(' ').next().unwrap().strip_suffix("_of").map(str::to_string);
            found.extend(inside.clone().map(|name| (name, Record::default())));
        } else if line.starts_with('}') {
            inside = None;
        } else if let (Some(name), Some((field, from))) = (&inside, line.split_once(" = ")) {
            let record = found.get_mut(name).unwrap();
            match &reads(from)[..] {
                [] => record.height |= from == "h;",
                [one] => drop(record.fields.insert(field.trim().replace(&['«', '»'][..], ""), shown(one))),
                _ => panic!("{RECORDS}: {name}, {field} is read from several places"),
            }
        }
    }
    found
}

// The forms of the height: what is read for each, and the bit that is asked before it on its line.
fn heights(text: &str) -> BTreeMap<String, (Vec<String>, Vec<Vec<Span>>)> {
    let body = body(text, "height_of").unwrap_or_else(|| panic!("{RECORDS} has no height_of"));
    let line = |line: &str| {
        let (before, after) = line.split_once("H.")?;
        Some((words(after)[0].to_lowercase(), (reads(after).iter().map(|spans| shown(spans)).collect(), reads(before))))
    };
    body.lines().filter_map(line).collect()
}

// The fields of a form of the height and their types; a case of one value has its own name.
fn height_members(text: &str, height: &str) -> Vec<(String, String)> {
    let inside = text.split_once("pub enum Height {\n").expect("Height").1.split_once("\n}").unwrap().0;
    let line = inside.lines().map(str::trim).find(|line| words(line)[0].to_lowercase() == height);
    let line = line.unwrap_or_else(|| panic!("{REPORTS}: no height {height}"));
    match line.contains('{') {
        true => members(line, "{"),
        false => vec![(height.to_string(), words(line)[1].to_string())],
    }
}

// CoarseRange as coarse_range; what is no type of a weight has none.
fn weight_of(of: &str) -> String {
    let counted = of.starts_with(char::is_uppercase) && of != "Height";
    if counted { upper(of).to_lowercase() } else { String::new() }
}

// The fields of a layout: names, bits, weights. Answers the last bit that its definition reads.
fn fields(layout: &Layout, records: &BTreeMap<String, Record>, found: &mut Findings) -> u32 {
    let heights = heights(&code(RECORDS));
    let declared = code(REPORTS);
    let kind = layout.kind.split('-').next().unwrap().to_lowercase();
    let record = records.get(&kind).unwrap_or_else(|| panic!("{RECORDS} has no {kind}_of for the layout {}", layout.name));
    let mut there = record.fields.clone();
    let mut types = members(&declared, &format!("pub struct {}{} {{", kind[..1].to_uppercase(), &kind[1..]));
    if !layout.height.is_empty() {
        let (bits, _) = heights.get(&layout.height).unwrap_or_else(|| panic!("{RECORDS}: no height {}", layout.height));
        let more = height_members(&declared, &layout.height);
        assert!(bits.len() == more.len(), "{RECORDS} and {REPORTS}: the height {} has other fields", layout.height);
        there.extend(more.iter().map(|(name, _)| name.clone()).zip(bits.iter().cloned()));
        types.extend(more);
    }
    let named = || layout.rows.iter().filter(|row| !row.name.is_empty());
    let what = format!("layout {}, field", layout.name);
    let here = found.once(&what, named().map(|row| (row.name.clone(), shown(&row.bits))));
    found.both_ways(&what, &here, RECORDS, &there);
    for row in named() {
        let of = types.iter().find(|(name, _)| *name == row.name).map_or("", |(_, of)| of);
        found.same(&format!("layout {}, weight of {}", layout.name, row.name), row.weight.clone(), REPORTS, weight_of(of));
    }
    there.values().flat_map(|text| spans(text)).map(|span| span.1).max().unwrap_or(0)
}

// The pattern of a definition of Forms.antt, a binary numeral or a name that stands for one in the crate, and the bits that it is compared
// with, there or in a definition that it names.
fn pattern(specs: &[File], name: &str) -> (Vec<Span>, String) {
    let text = code(FORMS);
    let body = self::body(&text, name).unwrap_or_else(|| panic!("{FORMS} has no definition {name}"));
    let constant = |word: &str| {
        let word = word.rsplit('.').next().unwrap();
        let mut lines = specs.iter().filter(|file| file.0 == "reports").flat_map(|file| file.2.lines());
        let line = |line: &str| line.strip_prefix(word).and_then(|rest| rest.strip_prefix(" = 0b")).map(str::to_string);
        word.strip_prefix("0b").map(str::to_string).or_else(|| lines.find_map(line))
    };
    let digits = words(&body).into_iter().find_map(constant).unwrap_or_else(|| panic!("{FORMS}: {name} names no pattern"));
    let others = words(&body).into_iter().filter(|word| *word != name).filter_map(|word| self::body(&text, word));
    let mut all = reads(&body);
    all.extend(others.flat_map(|body| reads(&body)));
    let bits = all.into_iter().flatten().find(|span| width(*span) == digits.len() as u32);
    (vec![bits.unwrap_or_else(|| panic!("{FORMS}: {name} reads no {} bits", digits.len()))], digits)
}

// The one bit that a definition of Forms.antt reads.
fn bit_of(name: &str) -> Vec<Span> {
    let body = body(&code(FORMS), name).unwrap_or_else(|| panic!("{FORMS} has no definition {name}"));
    reads(&body).into_iter().find(|spans| spans[0].0 == spans[0].1).unwrap_or_else(|| panic!("{FORMS}: {name} reads no bit"))
}

// The bits that tell a layout of four words or of seven, by the definitions of the forms.
fn told(layout: &Layout, words: u32, specs: &[File]) -> BTreeMap<String, String> {
    let mut told = Vec::new();
    let mut one = |bits: Vec<Span>, digit: bool| told.push((bits, if digit { "1" } else { "0" }.to_string()));
    let mut patterns = Vec::new();
    if words == 4 {
        patterns.extend(["is_four".to_string(), format!("is_{}", layout.kind.to_lowercase())]);
        if layout.kind == "RTQC" {
            one(bit_of("is_rtqc"), true);
        }
    } else {
        let (first, second) = layout.kind.split_once('-').unwrap_or((&layout.kind, ""));
        one(bit_of("is_dabs"), first == "DABS");
        let radar = match (first, second) {
            ("DABS" | "ATCRBS", "") => None,
            ("DABS" | "ATCRBS", radar) => Some(radar.to_string()),
            (radar, _) => Some(format!("{radar} search")),
        };
        one(bit_of("radar_code"), radar.is_some());
        if radar.is_none() {
            let altitude = heights(&code(RECORDS)).remove("altitude").unwrap_or_else(|| panic!("{RECORDS}: no altitude")).1;
            one(altitude[0].clone(), layout.height == "altitude");
        }
        let name = |radar: String| format!("is_{}", radar.to_lowercase().replace(' ', "_"));
        patterns.push("is_seven".to_string());
        patterns.extend(radar.map(name));
    }
    told.extend(patterns.iter().map(|name| pattern(specs, name)));
    told.into_iter().map(|(bits, digits)| (shown(&bits), digits)).collect()
}

// Which layout words have: never two; and of seven words none exactly where row 7 of the refusals says so.
fn apart(layouts: &[Layout], page: &[Table], found: &mut Findings) {
    let said = table(page, "Refusals of lines", "given when").at("number", "7", "given when");
    let (always, dabs) = said.split_once("; or bit 4").unwrap_or_else(|| panic!("{PAGE}: refusal 7 says nothing of bit 4"));
    let codes = |text: &str| -> BTreeSet<u64> {
        let digits = |word: &&str| word.len() == 3 && word.chars().all(|c| "01".contains(c));
        words(text).into_iter().filter(digits).map(|word| u64::from_str_radix(word, 2).unwrap()).collect()
    };
    let (always, dabs) = (codes(always), codes(dabs));
    let wrong = (0..1u64 << 15).find_map(|tried| {
        let (first, last) = (tried >> 3, tried & 7);
        let bit = |at: u32| if at <= 12 { first >> (12 - at) & 1 } else { last >> (90 - at) & 1 };
        let fitting: Vec<&str> = layouts.iter().filter(|layout| layout.fits(&bit)).map(|layout| &layout.name[..]).collect();
        let unassigned = bit(12) == 1 && (always.contains(&last) || bit(4) == 1 && dabs.contains(&last));
        let wrong = fitting.len() > 1 || bit(2) == 1 && bit(3) == 1 && fitting.is_empty() != unassigned;
        wrong.then(|| format!("bits 1-12 {first:012b} and 88-90 {last:03b} fit the layouts {fitting:?}; refused with 7: {unassigned}"))
    });
    found.that(wrong.is_none(), || wrong.unwrap());
}

// The least and the greatest altitude of twelve bits, in each form: they stand in its row, in the condition of refusal 11, in the table of forms and
// in Altitude.antt.
fn altitude(layouts: &[Layout], page: &[Table], found: &mut Findings) {
    let row = layouts.iter().flat_map(|layout| &layout.rows).find(|row| row.name == "altitude").unwrap_or_else(|| panic!("{PAGE}: no altitude"));
    let half = 1 << (bits(&row.bits).count() - 1);
    let fields = page.iter().find(|table| table.heading.contains("word 7")).unwrap_or_else(|| panic!("{PAGE}: no table of word 7"));
    let refusals = table(page, "Refusals of lines", "given when");
    let forms = table(page, "The forms of the altitude", "altitudes");
    for (form, least) in [("SignMagnitude", half - 1), ("TwosComplement", half)] {
        let said = format!("-{least} to {}", half - 1);
        let (row, refusal) = (fields.at("field", "altitude", "meaning"), refusals.at("name", "ValueTooLarge", "given when"));
        for text in [row, refusal, forms.at("form", form, "altitudes")] {
            found.that(text.contains(&said), || format!("altitude: '{text}' does not say {said}"));
        }
        found.that(words(&code(ALTITUDE)).contains(&&least.to_string()[..]), || format!("altitude: {ALTITUDE} does not say {least}"));
    }
}

// The forms of the altitude have the definitions' numbers and the header's; each example is worked out here, from its bits.
fn forms(page: &[Table], specs: &[File], header: &Numbers, found: &mut Findings) {
    let table = table(page, "The forms of the altitude", "number in C");
    let first = |row: &[String]| table.cell(row, "number in C").split(',').next().unwrap().parse::<u32>().expect("a number");
    let here: Numbers = table.rows.iter().map(|row| (plain(table.cell(row, "form")), first(row))).collect();
    let there: Numbers = numbered(specs.iter(), "form_number F.").into_iter().collect();
    found.both_ways("form of the altitude", &here, ALTITUDE, &there);
    let upper_names = here.iter().map(|(name, number)| (format!("FORM_{}", upper(name)), *number)).collect();
    let in_header = header.iter().filter(|(name, _)| name.starts_with("FORM_")).map(|(name, number)| (name.clone(), *number)).collect();
    found.both_ways("form of the altitude", &upper_names, HEADER, &in_header);
    let examples = self::table(page, "The forms of the altitude", "bits 79-90");
    for row in &examples.rows {
        let bits = examples.cell(row, "bits 79-90");
        let rest = i64::from_str_radix(&bits[1..], 2).expect("twelve bits");
        let (signed, complement) = match (&bits[..1], rest) {
            ("0", _) => (rest.to_string(), rest),
            (_, 0) => ("refused, 9".to_string(), -2048),
            _ => ((-rest).to_string(), rest - 2048),
        };
        found.same(&format!("bits 79-90 {bits}, sign and magnitude"), examples.cell(row, "SignMagnitude"), "those bits", &signed);
        found.same(&format!("bits 79-90 {bits}, two's complement"), examples.cell(row, "TwosComplement"), "those bits", &complement.to_string());
    }
}

fn report_examples(layouts: &[Layout], page: &[Table], found: &mut Findings) {
    let table = table(page, "The seventeen layouts", "fields");
    for row in &table.rows {
        let numbers: Vec<u64> = table.cell(row, "words").split(' ').map(|word| word.parse().expect("a word")).collect();
        let bit = |at: u32| numbers[(at as usize - 1) / 13] >> (12 - (at - 1) % 13) & 1;
        let name = table.cell(row, "layout");
        let layout = layouts.iter().find(|layout| layout.name == name).unwrap_or_else(|| panic!("{PAGE}: an example of no layout: {name}"));
        let good = numbers.len() == layout.words as usize && numbers.iter().all(|word| *word < 8192 && word.count_ones() % 2 == 1);
        let spare = layout.rows.iter().filter(|row| row.name.is_empty()).all(|row| value(&row.bits, &bit) == 0);
        found.that(good && spare && layout.fits(&bit), || format!("the example of {name} has not that layout"));
        let signed = |row: &Row, value: i64| if row.name == "altitude" && value >= 2048 { 2048 - value } else { value };
        let fields = layout.rows.iter().filter(|row| !row.name.is_empty()).map(|row| (row.name.clone(), signed(row, value(&row.bits, &bit))));
        let there = fields.filter(|(_, value)| *value != 0).collect();
        found.both_ways(&format!("the example of {name},"), &values(table.cell(row, "fields")), "its words", &there);
    }
}

pub fn reports(page: &[Table], specs: &[File], header: &Numbers, found: &mut Findings) {
    let layouts = layouts(page, found);
    found.same("how many layouts", 17, "its table of layouts", layouts.len());
    let records = records(&code(RECORDS));
    // every record has its layouts, one for each form of the height
    let heights = heights(&code(RECORDS));
    let mut there = BTreeMap::new();
    for (name, record) in &records {
        let forms: Vec<String> = if record.height { heights.keys().cloned().collect() } else { vec![String::new()] };
        there.extend(forms.iter().map(|height| (format!("{name} {height}"), 1)));
    }
    let mut here = BTreeMap::new();
    for layout in &layouts {
        *here.entry(format!("{} {}", layout.kind.split('-').next().unwrap().to_lowercase(), layout.height)).or_insert(0) += 1;
    }
    found.both_ways("layouts of", &here, RECORDS, &there);
    for layout in &layouts {
        covered(layout, found);
        let last = fields(layout, &records, found);
        let words = if last > 4 * 13 { 7 } else { 4 };
        found.same(&format!("layout {}, words", layout.name), layout.words, RECORDS, words);
        let here = layout.told.iter().map(|(span, pattern)| (shown(&[*span]), pattern.clone())).collect();
        found.both_ways(&format!("layout {} is told by bits", layout.name), &here, FORMS, &told(layout, words, specs));
    }
    // every pattern of the definitions is on the page, and every one of the page in the definitions
    let digits = |text: &str| text.chars().take_while(|c| "01".contains(*c)).collect::<String>();
    let numerals = specs.iter().filter(|file| file.0 == "reports").flat_map(|file| file.2.split("0b").skip(1));
    let there = numerals.map(|text| (digits(text), ())).collect();
    let here = layouts.iter().flat_map(|layout| &layout.told).filter(|(span, _)| span.0 != span.1).map(|(_, digits)| (digits.clone(), ())).collect();
    found.both_ways("pattern", &here, "crates/reports/specs", &there);
    apart(&layouts, page, found);
    altitude(&layouts, page, found);
    forms(page, specs, header, found);
    report_examples(&layouts, page, found);

    // kinds: those of the layouts, of which two may have the same, and those of no report, which a frame's table has too
    let table = table(page, "The seventeen layouts", "its rows");
    let mut here = self::table(page, "Frames", "answer").numbers("answer", "number");
    for (answer, number) in self::table(page, "The seventeen layouts", "answer").numbers("answer", "number") {
        found.same(&format!("the number of {answer}"), here.get(&answer).copied().unwrap_or(0), "the page's table of frames", number);
        here.insert(answer, number);
    }
    for row in &table.rows {
        let (kind, number) = (table.cell(row, "kind").replace('-', "_"), table.cell(row, "number").parse().expect("a kind's number"));
        let before = here.insert(kind.clone(), number);
        found.that(before.is_none() || before == Some(number), || format!("kind {kind}: the page has two numbers for it"));
    }
    let of_header = header.iter().filter_map(|(name, number)| Some((name.strip_prefix("KIND_")?.to_string(), *number))).collect();
    found.both_ways("kind", &here, HEADER, &of_header);
    let defined = kinds(specs).into_iter().map(|(name, number)| (upper(&name), number)).collect();
    found.both_ways("kind", &here, "crates/*/specs", &defined);
}
