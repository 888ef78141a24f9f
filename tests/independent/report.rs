//! The seventeen layouts of a report, and the reading and writing of one, from document 01 ("Formats and fields"), Ticket 5 of document 02 and
//! the tables 4-1 to 4-3 of document 004. Kinds and items have the numbers of siamrung.h.
//!
//! A run is read by comparing it with the fixed patterns of all layouts; nothing branches on single bits.

use crate::bits;
use crate::exact;
use crate::layout::{Layout, Names};

pub const ITEMS: &Names = &[
    ("TEST", 1),
    ("FAA", 2),
    ("AF", 3),
    ("RANGE", 4),
    ("AZIMUTH", 5),
    ("TIME", 6),
    ("RUN", 7),
    ("AIMS", 8),
    ("AIMS_CODE", 9),
    ("VARIATION", 10),
    ("START", 11),
    ("STOP", 12),
    ("SECOND", 13),
    ("THIRD", 14),
    ("FOURTH", 15),
    ("PRIMARY", 16),
    ("MODE3A", 17),
    ("MODE_C", 18),
    ("SPI", 19),
    ("REINFORCED", 20),
    ("CODE7700", 21),
    ("CODE7600", 22),
    ("ALERT", 23),
    ("RELAY", 24),
    ("ADDRESS", 25),
    ("CONFIDENCE", 26),
    ("TRANSITION", 27),
    ("FALSE_TARGET", 28),
    ("CODE", 29),
    ("FILE", 30),
    ("ALTITUDE", 31),
    ("CARRIED", 32),
    ("QUALITY", 33),
    ("DOPPLER1", 34),
    ("DOPPLER2", 35),
    ("GROUND", 36),
];
pub const RANGE: u32 = 4;
pub const AZIMUTH: u32 = 5;
pub const TIME: u32 = 6;
pub const START: u32 = 11;
pub const ALTITUDE: u32 = 31;
pub const CARRIED: u32 = 32;

const PLACED: &str = "25 zero, 27-38 AZIMUTH";
const SEARCH: &str = "1 TEST, 2-10 =001101100, 11 FAA, 12 AF, 14-24 RANGE, 40 AIMS, 41-42 AIMS_CODE, 43-45 RUN, 46-51 TIME";
const STROBE: &str = "1 TEST, 2-10 =001100000, 11 FAA, 12 AF, 14-24 RANGE, 40-46 RUN, 47-51 TIME";
const MAP: &str = "1 TEST, 2-8 =0000000, 9-10 VARIATION, 11 FAA, 12 AF, 14-24 START, 40-50 STOP, 51 zero";
const STATUS: &str = "1 TEST, 2-10 =000110000, 11 FAA, 12 AF, 14-25 SECOND, 27-38 THIRD, 40-51 FOURTH";
const RTQC: &str = "1-10 =1001001000, 11 FAA, 12 AF, 14-24 RANGE, 40-46 RUN, 47-51 TIME";

const SEVEN: &str = "1 TEST, 11 FAA, 14-25+27-29 RANGE, 30-38+40-43 AZIMUTH";
const BEACON: &str = "7 SPI, 8 REINFORCED, 9 CODE7700, 10 CODE7600, 47 RELAY, 48-51 TIME";
const DABS: &str = "2-4 =111, 5 PRIMARY, 44 ALERT, 45-46 zero, 53-64+66-77 ADDRESS";
const ATCRBS: &str = "2-4 =110, 5 MODE3A, 44 CONFIDENCE, 45 TRANSITION, 46 FALSE_TARGET, 53-64 CODE, 66-77 FILE";
/// The altitude in document 01's form, and in that of Ticket 5 of document 02.
pub const SIGNED: &str = "12 =0, 6 =1, 79-90 ALTITUDE signed";
pub const COMPLEMENT: &str = "12 =0, 6 =1, 79-90 ALTITUDE complement";
const NO_ALTITUDE: &str = "12 =0, 6 =0, 79-90 CARRIED";
const BY_CD: &str = "12 =1, 6 MODE_C, 79-81 RUN, 82-87 zero, 88-90 =100";
const BY_MTD: &str = "12 =1, 6 MODE_C, 79-80 QUALITY, 81-87 zero, 88-90 =110";
const BY_RDAS: &str = "12 =1, 6 MODE_C, 79-82 QUALITY, 83-87 zero, 88-90 =101";
const RADAR: &str = "2-4 =110, 5-10 zero, 12 =1, 44 AIMS, 45 zero, 46-51 TIME, 66-77 FILE, 85 FALSE_TARGET";
const MTD: &str = "53-58 DOPPLER1, 59-64 DOPPLER2, 79-80 QUALITY, 81-84 CONFIDENCE, 86 GROUND, 87 zero, 88-90 =010";
const RDAS: &str = "53-64 zero, 79-82 QUALITY, 83-84 zero, 86-87 zero, 88-90 =001";

pub const WORD_BITS: usize = 13;

/// The seventeen layouts, with the altitude in one of the two forms: SIGNED or COMPLEMENT.
pub fn layouts(altitude: &str) -> Vec<Layout> {
    let rows: &[(u32, &'static str, usize, &[&str])] = &[
        (101, "SEARCH", 4, &[SEARCH, PLACED]),
        (102, "STROBE", 4, &[STROBE, PLACED]),
        (103, "MAP", 4, &[MAP, PLACED]),
        (104, "STATUS", 4, &[STATUS]),
        (105, "RTQC", 4, &[RTQC, PLACED]),
        (106, "DABS with altitude", 7, &[SEVEN, BEACON, DABS, altitude]),
        (106, "DABS carried", 7, &[SEVEN, BEACON, DABS, NO_ALTITUDE]),
        (107, "DABS-CD", 7, &[SEVEN, BEACON, DABS, BY_CD]),
        (108, "DABS-MTD", 7, &[SEVEN, BEACON, DABS, BY_MTD]),
        (109, "DABS-RDAS", 7, &[SEVEN, BEACON, DABS, BY_RDAS]),
        (110, "ATCRBS with altitude", 7, &[SEVEN, BEACON, ATCRBS, altitude]),
        (110, "ATCRBS carried", 7, &[SEVEN, BEACON, ATCRBS, NO_ALTITUDE]),
        (111, "ATCRBS-CD", 7, &[SEVEN, BEACON, ATCRBS, BY_CD]),
        (112, "ATCRBS-MTD", 7, &[SEVEN, BEACON, ATCRBS, BY_MTD]),
        (113, "ATCRBS-RDAS", 7, &[SEVEN, BEACON, ATCRBS, BY_RDAS]),
        (114, "MTD", 7, &[SEVEN, RADAR, MTD]),
        (115, "RDAS", 7, &[SEVEN, RADAR, RDAS]),
    ];
    let make = |&(kind, name, words, parts): &(u32, &'static str, usize, &[&str])| {
        Layout::new(kind, name, WORD_BITS * words, WORD_BITS, &parts.join(", "), ITEMS)
    };
    rows.iter().map(make).collect()
}

#[derive(Clone)]
pub struct Report {
    /// place in the list of layouts
    pub layout: usize,
    pub kind: u32,
    pub words: usize,
    pub items: Vec<(u32, i64)>,
}

impl Report {
    pub fn item(&self, number: u32) -> Option<i64> {
        self.items.iter().find(|item| item.0 == number).map(|item| item.1)
    }

    /// The items as the writer takes them.
    pub fn record(&self) -> Vec<(u64, u64)> {
        self.items.iter().map(|&(number, value)| (u64::from(number), value as u64)).collect()
    }

    /// Range, azimuth and time as the bits of floats; nothing for Status. A Map's range is its start, and its time 0.
    pub fn values(&self) -> Option<(u64, u64, u64)> {
        let range = self.item(RANGE).or_else(|| self.item(START))?;
        let azimuth = self.item(AZIMUTH)?;
        let time = self.item(TIME).unwrap_or(0);
        let nmi = exact::nmi(range as u64, self.words);
        Some((nmi, exact::degrees(azimuth as u64, self.words), exact::seconds(time as u64)))
    }
}

/// A refusal: its number, and the word that it names, counted from the run's first.
pub type Refused = (u32, usize);

/// The report that a run of words is, or why it is none, in document 01's order.
pub fn read(layouts: &[Layout], run: &[u16]) -> Result<Report, Refused> {
    let words: Vec<String> = run.iter().map(|&word| bits::of_word(word)).collect();
    if let Some(wide) = words.iter().position(|word| word.len() > WORD_BITS) {
        return Err((3, wide));
    }
    if let Some(even) = words.iter().position(|word| bits::ones(word) % 2 == 0) {
        return Err((4, even));
    }
    let begun: Vec<usize> = (0..layouts.len()).filter(|&i| layouts[i].fits(&words[0], WORD_BITS)).collect();
    if begun.is_empty() {
        return Err((5, 0));
    }
    // The first word fixes the length: no two layouts of unlike length begin alike.
    if layouts[begun[0]].bits != WORD_BITS * words.len() {
        return Err((6, 0));
    }
    let text = words.concat();
    let fitting = begun.into_iter().find(|&i| layouts[i].fits(&text, text.len()));
    let layout = fitting.ok_or((7, 0))?;
    if !layouts[layout].spares_are_zero(&text) {
        return Err((8, 0));
    }
    let items = layouts[layout].read(&text).ok_or((9, 0))?;
    Ok(Report { layout, kind: layouts[layout].number, words: run.len(), items })
}

/// Sets the last bit of each word so that the number of ones is odd.
pub fn with_parity(text: &str) -> String {
    let mut whole = String::with_capacity(text.len());
    for word in 0..text.len() / WORD_BITS {
        let data = &text[WORD_BITS * word..WORD_BITS * word + WORD_BITS - 1];
        whole.push_str(data);
        whole.push(if bits::ones(data) % 2 == 0 { '1' } else { '0' });
    }
    whole
}

/// The words of a text with parity.
pub fn to_words(text: &str) -> Vec<u16> {
    (0..text.len() / WORD_BITS).map(|i| bits::number(&text[WORD_BITS * i..WORD_BITS * (i + 1)]) as u16).collect()
}

/// The words of the report of that kind with these items; nothing where they are no record of it.
pub fn write(layouts: &[Layout], kind: u32, items: &[(u64, u64)]) -> Option<Vec<u16>> {
    let of_kind = layouts.iter().filter(|layout| layout.number == kind);
    let mut texts = of_kind.filter_map(|layout| layout.write(items));
    texts.next().map(|text| to_words(&with_parity(&text)))
}
