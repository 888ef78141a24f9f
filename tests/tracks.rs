// Tracks: the sample scans, made from what their reports say, and what examples/track.c must say of any recordings. No table is kept here. All
// that stands on the recordings is gathered, and the last report of a number is looked for from the end.
use crate::document::*;
use crate::{measures, name_of, reason, refused_whole, runs, value, words, IDLE};

// ---- scans

// Reports as `read` says them; a value that is not said is 0. Of a damaged one, the fourth word has an even number of ones.
pub const SCAN1: [&str; 10] = [
    "ATCRBS file 17 range 5280 azimuth 683 time 2 mode3a 1 code 1748 altitude 90",
    "ATCRBS file 18 range 12800 azimuth 1820 time 3 mode3a 1 code 2730 altitude 310",
    "SEARCH range 96 azimuth 512 run 2 time 4",
    "DABS address 10952707 range 9216 azimuth 2500 time 1 primary 1 altitude 350",
    "ATCRBS file 19 range 3200 azimuth 3072 time 5 mode3a 1 code 640 altitude 45",
    "ATCRBS file 0 range 1000 azimuth 3500 time 2 mode3a 1 code 640 altitude 12",
    "MTD file 20 range 2048 azimuth 4096 time 9 doppler1 12 quality 2 confidence 7",
    "RDAS file 21 range 6400 azimuth 5000 time 7 quality 9",
    "ATCRBS file 22 range 700 azimuth 6000 time 1 mode3a 1 code 640 carried 0",
    "ATCRBS file 23 range 15360 azimuth 7168 time 0 mode3a 1 code 3967 altitude 370",
];
pub const SCAN2: [&str; 12] = [
    "STATUS second 4 third 512 fourth 1",
    "ATCRBS file 17 range 5318 azimuth 690 time 2 mode3a 1 code 1748 altitude 93",
    "damaged ATCRBS file 18 range 12720 azimuth 1818 time 3 mode3a 1 code 2730 altitude 310",
    "DABS address 10952707 range 9290 azimuth 2496 time 1 primary 1 altitude 350",
    "ATCRBS-CD file 19 range 3130 azimuth 3080 time 4 mode3a 1 code 640 run 3",
    "ATCRBS file 24 range 400 azimuth 3300 time 6 mode3a 1 code 1025 altitude -2",
    "ATCRBS file 0 range 1010 azimuth 3520 time 2 mode3a 1 code 640 altitude 12",
    "MTD file 20 range 2090 azimuth 4111 time 8 doppler1 13 quality 2 confidence 6",
    "RDAS file 21 range 6381 azimuth 5021 time 7 quality 9",
    "ATCRBS-MTD file 22 range 745 azimuth 6010 time 1 mode3a 1 code 640 quality 3",
    "ATCRBS-RDAS file 25 range 8000 azimuth 6900 time 3 mode3a 1 code 3072 quality 11",
    "ATCRBS file 24 range 402 azimuth 7777 time 6 mode3a 1 code 1025 altitude -1",
];

// The highest, the lowest, the one that both forms write alike, and bits that are no altitude.
pub const BELOW: [&str; 10] = [
    "ATCRBS file 17 range 5280 azimuth 683 time 2 mode3a 1 code 1748 altitude 12",
    "DABS address 10952707 range 9216 azimuth 2500 time 1 primary 1 altitude -3",
    "ATCRBS file 18 range 400 azimuth 1820 time 3 mode3a 1 code 2730 altitude -1",
    "SEARCH range 96 azimuth 512 run 2 time 4",
    "DABS address 10952708 range 640 azimuth 2600 time 1 altitude 0",
    "ATCRBS file 19 range 3200 azimuth 3072 time 5 mode3a 1 code 640 altitude 2047",
    "ATCRBS file 20 range 1000 azimuth 3500 time 2 mode3a 1 code 640 altitude -2048",
    "ATCRBS file 21 range 1010 azimuth 3520 time 2 mode3a 1 code 640 altitude -1024",
    "ATCRBS file 22 range 700 azimuth 6000 time 1 mode3a 1 code 640 carried 2048",
    "ATCRBS-CD file 18 range 390 azimuth 1830 time 4 mode3a 1 code 2730 run 3",
];

fn bits_of((name, stretches, shown): &Field, value: i64) -> String {
    let width: usize = stretches.iter().map(|(a, b)| b - a + 1).sum();
    // an altitude is a sign and a magnitude of eleven bits, or a number of twelve bits in two's complement
    let number = match shown {
        Altitude if value < 0 => 2048 - value,
        Complement if value < 0 => 4096 + value,
        _ => value,
    };
    let bits = format!("{number:0width$b}");
    assert_eq!(bits.len(), width, "{name} {value}");
    bits
}

// The words of the first form of that name that has all fields which are said.
pub fn words_said(forms: &[Form], said: &str) -> Vec<u16> {
    let has = |form: &Form, name: &str| form.fields.iter().any(|field| field.0 == name);
    let mut forms = forms.iter().filter(|form| form.name == name_of(said));
    let form = forms.find(|form| said.split(' ').skip(1).step_by(2).all(|name| has(form, name)));
    let form = form.unwrap_or_else(|| panic!("no form has what '{said}' says"));
    let bits: String = form.fields.iter().map(|field| bits_of(field, value(said, field.0).unwrap_or(0))).collect();
    let mut bits = bits.chars();
    words_of(form, || bits.next() == Some('1'))
}

// A line with these reports, and one to three idle words after each.
pub fn line<S: AsRef<str>>(forms: &[Form], reports: &[S]) -> Vec<u16> {
    let mut line = vec![IDLE; 2];
    for (k, said) in reports.iter().enumerate() {
        let sound = said.as_ref().trim_start_matches("damaged ");
        let mut words = words_said(forms, sound);
        if sound != said.as_ref() {
            words[3] ^= 1;
        }
        line.extend(words);
        line.extend(vec![IDLE; 1 + k % 3]);
    }
    line
}

// The first 512 numbers have an entry; of the others some come again, and of those that have one too.
pub fn crowd() -> Vec<u16> {
    let numbers = (1..=515).chain([3, 514, 512, 513, 1]);
    let reports: Vec<String> = numbers.enumerate().map(|(k, number)| format!("ATCRBS file {number} range {k} altitude {k}")).collect();
    line(all_forms(), &reports)
}

// ---- what track says

// What stands at a place of a scan.
struct Seen {
    scan: usize,
    place: usize,
    what: Read,
}

impl Seen {
    // The report's file number; 0 where there is none.
    fn number(&self) -> i64 {
        match &self.what {
            Read::Report(said) => value(said, "file").unwrap_or(0),
            Read::Refused(..) => 0,
        }
    }
}

fn seen(forms: &[Form], recordings: &[Vec<u8>]) -> Vec<Seen> {
    let mut all = Vec::new();
    for (bytes, scan) in recordings.iter().zip(1..) {
        let found = refused_whole(bytes).map_or_else(|| runs(forms, &words(bytes)), |number| vec![(0, Read::Refused(number, 0))]);
        all.extend(found.into_iter().map(|(place, what)| Seen { scan, place, what }));
    }
    all
}

// The numbers that have an entry: the first 512 that come, and never 0.
fn with_entry(all: &[Seen]) -> Vec<i64> {
    let mut numbers = Vec::new();
    for number in all.iter().map(Seen::number) {
        if number != 0 && !numbers.contains(&number) {
            numbers.push(number);
        }
    }
    numbers.truncate(512);
    numbers
}

// Standard output.
pub fn last(forms: &[Form], number: i64, recordings: &[Vec<u8>]) -> String {
    let all = seen(forms, recordings);
    let has_entry = with_entry(&all).contains(&number);
    match all.iter().rev().find(|seen| has_entry && seen.number() == number) {
        Some(Seen { scan, place, what: Read::Report(said) }) => {
            let height = value(said, "altitude").map_or(String::new(), |height| format!(" altitude {} ft", 100 * height));
            format!("{number} scan {scan} place {place} {}{}{height}\n", name_of(said), measures(said))
        }
        _ => format!("{number} is in no entry\n"),
    }
}

// Standard error.
pub fn refused(forms: &[Form], recordings: &[Vec<u8>]) -> String {
    let all = seen(forms, recordings);
    let entered = with_entry(&all);
    let mut out = String::new();
    for Seen { scan, place, what } in &all {
        let head = format!("track: scan {scan} place {place}");
        match what {
            Read::Refused(number, offset) => out += &format!("{head} REFUSED {number} at {}: {}\n", place + offset, reason(*number)),
            Read::Report(said) => {
                if let Some(number) = value(said, "file").filter(|number| *number != 0 && !entered.contains(number)) {
                    out += &format!("{head} number {number} NOT ENTERED 51: {}\n", reason(51));
                }
            }
        }
    }
    out
}
