// The page: its tables, the bits and values that their cells name, and what is found when they are compared with something else.
use crate::definitions::Numbers;
use std::collections::BTreeMap;
use std::fmt::Debug;

pub const PAGE: &str = "docs/FORMAT.md";

// ---- what is found

#[derive(Default)]
pub struct Findings {
    pub held: usize,
    pub wrong: Vec<String>,
}

impl Findings {
    pub fn that(&mut self, holds: bool, otherwise: impl FnOnce() -> String) {
        self.held += 1;
        if !holds {
            self.wrong.push(otherwise());
        }
    }

    pub fn same<T: PartialEq + Debug>(&mut self, what: &str, page: T, place: &str, there: T) {
        let equal = page == there;
        self.that(equal, || format!("{what}: the page says {page:?}; {place}: {there:?}"));
    }

    pub fn both_ways<T: PartialEq + Debug>(&mut self, what: &str, page: &BTreeMap<String, T>, place: &str, there: &BTreeMap<String, T>) {
        for (name, value) in there {
            match page.get(name) {
                Some(other) => self.same(&format!("{what} {name}"), other, place, value),
                None => self.that(false, || format!("{what} {name}: it is missing on the page; it stands in {place}")),
            }
        }
        for name in page.keys().filter(|name| !there.contains_key(*name)) {
            self.that(false, || format!("{what} {name}: it stands on the page, and not in {place}"));
        }
    }

    // Pairs of the page as a map; no name comes twice.
    pub fn once<T>(&mut self, what: &str, pairs: impl Iterator<Item = (String, T)>) -> BTreeMap<String, T> {
        let mut found = BTreeMap::new();
        for (name, value) in pairs {
            self.that(!found.contains_key(&name), || format!("{what} {name}: it stands on the page twice"));
            found.insert(name, value);
        }
        found
    }
}

// ---- the page

pub struct Table {
    pub heading: String,
    columns: Vec<String>,
    pub rows: Vec<Vec<String>>,
}

impl Table {
    pub fn has(&self, column: &str) -> bool {
        self.columns.iter().any(|name| name == column)
    }

    pub fn cell<'a>(&self, row: &'a [String], column: &str) -> &'a str {
        let at = self.columns.iter().position(|name| name == column).unwrap_or_else(|| panic!("{PAGE}: '{}' has no column '{column}'", self.heading));
        &row[at]
    }

    // The cell of a column in the row that has that in another.
    pub fn at(&self, column: &str, key: &str, of: &str) -> &str {
        let row = self.rows.iter().find(|row| plain(self.cell(row, column)) == key);
        self.cell(row.unwrap_or_else(|| panic!("{PAGE}, '{}': no row has the {column} {key}", self.heading)), of)
    }

    // The numbers of a column by the names of another; a name comes once.
    pub fn numbers(&self, name: &str, number: &str) -> Numbers {
        let mut found = Numbers::new();
        for row in &self.rows {
            let (name, number) = (plain(self.cell(row, name)), plain(self.cell(row, number)));
            let number = number.parse().unwrap_or_else(|_| panic!("{PAGE}, '{}': '{number}' of {name} is no number", self.heading));
            assert!(found.insert(name.clone(), number).is_none(), "{PAGE}, '{}': {name} has two rows", self.heading);
        }
        found
    }
}

// Without the letters of code and the commas in large numbers.
pub fn plain(cell: &str) -> String {
    cell.replace(&['`', ','][..], "")
}

pub fn tables(page: &str) -> Vec<Table> {
    let mut found: Vec<Table> = Vec::new();
    let (mut heading, mut inside) = ("", false);
    for line in page.lines() {
        if let Some(text) = line.trim_start_matches('#').strip_prefix(' ').filter(|_| line.starts_with('#')) {
            heading = text;
        }
        let cells = line.strip_prefix('|').and_then(|line| line.strip_suffix('|'));
        let cells = cells.map(|line| line.split('|').map(|cell| cell.trim().to_string()).collect::<Vec<String>>());
        match cells {
            None => inside = false,
            Some(columns) if !inside => {
                inside = true;
                found.push(Table { heading: heading.to_string(), columns: columns.iter().map(|name| plain(name)).collect(), rows: Vec::new() });
            }
            Some(cells) if cells[0].starts_with("---") => (),
            Some(cells) => {
                let table = found.last_mut().unwrap();
                assert!(cells.len() == table.columns.len(), "{PAGE}: a row of another width than its table: {line}");
                table.rows.push(cells);
            }
        }
    }
    found
}

// The table under a heading that has such a column.
pub fn table<'a>(tables: &'a [Table], heading: &str, column: &str) -> &'a Table {
    let found = tables.iter().find(|table| table.heading.ends_with(heading) && table.has(column));
    found.unwrap_or_else(|| panic!("{PAGE} has no table with a column '{column}' under '{heading}'"))
}

// ---- bits

pub type Span = (u32, u32);

pub fn spans(text: &str) -> Vec<Span> {
    let bad = || panic!("{PAGE}: '{text}' is no list of bits");
    let bit = |text: &str| text.trim().parse::<u32>().unwrap_or_else(|_| bad());
    text.split(',').map(|one| one.split_once('-').map_or_else(|| (bit(one), bit(one)), |(a, b)| (bit(a), bit(b)))).collect()
}

pub fn shown(spans: &[Span]) -> String {
    let one = |&(a, b): &Span| if a == b { format!("{a}") } else { format!("{a}-{b}") };
    spans.iter().map(one).collect::<Vec<String>>().join(", ")
}

pub fn bits(spans: &[Span]) -> impl Iterator<Item = u32> + '_ {
    spans.iter().flat_map(|&(a, b)| a..=b)
}

pub fn width(span: Span) -> u32 {
    span.1 + 1 - span.0
}

// The number that the bits of spans make, each bit looked up.
pub fn value(spans: &[Span], bit: &dyn Fn(u32) -> u64) -> i64 {
    bits(spans).fold(0, |value, at| value * 2 + bit(at) as i64)
}

// "a `name` 5, `other` -3" as names and numbers.
pub fn values(cell: &str) -> BTreeMap<String, i64> {
    let pair = |text: &str| {
        let (name, value) = text.trim().rsplit_once(' ').unwrap_or_else(|| panic!("{PAGE}: '{text}' is no name and value"));
        (plain(name), value.parse().unwrap_or_else(|_| panic!("{PAGE}: '{text}' has no value")))
    };
    cell.split(',').map(pair).collect()
}
