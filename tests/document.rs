// Document 01 as data, for every test that reads or writes a report: a report is a string of ones and zeros, the tables of "Formats and
// fields" stand here as lists of bits, and the rows of "Line refusal numbers" are asked one after the other. Nothing of the proved library
// is used, and it uses nothing of this.
#![allow(dead_code)]

// A field: its name, the bits that hold it (as the document numbers them, parity bits counted), and how it is printed.
pub type Field = (&'static str, &'static [(usize, usize)], Shown);

#[derive(Clone, Copy, PartialEq)]
pub enum Shown {
    Number,
    Altitude,
    // in the form of document 02, Ticket 5: the first bit weighs -2048
    Complement,
}
pub use Shown::*;

// A form: the lister's name, its words, the bits that tell it, the bits that are zero, its fields.
pub struct Form {
    pub name: &'static str,
    pub words: usize,
    pub told: &'static [(usize, &'static str)],
    pub zero: &'static [(usize, usize)],
    pub fields: &'static [Field],
}

const RANGE4: Field = ("range", &[(14, 24)], Number);
const AZIMUTH4: Field = ("azimuth", &[(27, 38)], Number);
const RANGE7: Field = ("range", &[(14, 25), (27, 29)], Number);
const AZIMUTH7: Field = ("azimuth", &[(30, 38), (40, 43)], Number);
const TEST: Field = ("test", &[(1, 1)], Number);
const FAA: Field = ("faa", &[(11, 11)], Number);
const AF: Field = ("af", &[(12, 12)], Number);

const DABS: [Field; 13] = [
    TEST, ("primary", &[(5, 5)], Number), ("spi", &[(7, 7)], Number), ("reinforced", &[(8, 8)], Number), ("code7700", &[(9, 9)], Number),
    ("code7600", &[(10, 10)], Number), FAA, RANGE7, AZIMUTH7, ("alert", &[(44, 44)], Number), ("relay", &[(47, 47)], Number),
    ("time", &[(48, 51)], Number), ("address", &[(53, 64), (66, 77)], Number),
];
const ATCRBS: [Field; 16] = [
    TEST, ("mode3a", &[(5, 5)], Number), ("spi", &[(7, 7)], Number), ("reinforced", &[(8, 8)], Number), ("code7700", &[(9, 9)], Number),
    ("code7600", &[(10, 10)], Number), FAA, RANGE7, AZIMUTH7, ("confidence", &[(44, 44)], Number), ("transition", &[(45, 45)], Number),
    ("false_target", &[(46, 46)], Number), ("relay", &[(47, 47)], Number), ("time", &[(48, 51)], Number), ("code", &[(53, 64)], Number),
    ("file", &[(66, 77)], Number),
];
const MODE_C: Field = ("mode_c", &[(6, 6)], Number);

// Bits 79 to 90 of DABS and ATCRBS: what is added to the name, what tells it, its spare bits, its fields.
const HEIGHTS: [(&str, &[(usize, &str)], &[(usize, usize)], &[Field]); 5] = [
    ("", &[(12, "0"), (6, "1")], &[], &[("altitude", &[(79, 90)], Altitude)]),
    ("", &[(12, "0"), (6, "0")], &[], &[("carried", &[(79, 90)], Number)]),
    ("-CD", &[(12, "1"), (88, "100")], &[(82, 87)], &[MODE_C, ("run", &[(79, 81)], Number)]),
    ("-MTD", &[(12, "1"), (88, "110")], &[(81, 87)], &[MODE_C, ("quality", &[(79, 80)], Number)]),
    ("-RDAS", &[(12, "1"), (88, "101")], &[(83, 87)], &[MODE_C, ("quality", &[(79, 82)], Number)]),
];

fn leak<T: Clone>(parts: &[&[T]]) -> &'static [T] {
    Box::leak(parts.concat().into_boxed_slice())
}

fn forms() -> Vec<Form> {
    let mut all = vec![
        Form { name: "SEARCH", words: 4, told: &[(2, "00"), (4, "1101100")], zero: &[(25, 25)],
            fields: &[TEST, FAA, AF, RANGE4, AZIMUTH4, ("aims", &[(40, 40)], Number), ("code", &[(41, 42)], Number), ("run", &[(43, 45)], Number), ("time", &[(46, 51)], Number)] },
        Form { name: "STROBE", words: 4, told: &[(2, "00"), (4, "1100000")], zero: &[(25, 25)],
            fields: &[TEST, FAA, AF, RANGE4, AZIMUTH4, ("run", &[(40, 46)], Number), ("time", &[(47, 51)], Number)] },
        Form { name: "MAP", words: 4, told: &[(2, "00"), (4, "00000")], zero: &[(25, 25), (51, 51)],
            fields: &[TEST, ("variation", &[(9, 10)], Number), FAA, AF, ("start", &[(14, 24)], Number), AZIMUTH4, ("stop", &[(40, 50)], Number)] },
        Form { name: "STATUS", words: 4, told: &[(2, "00"), (4, "0110000")], zero: &[],
            fields: &[TEST, FAA, AF, ("second", &[(14, 25)], Number), ("third", &[(27, 38)], Number), ("fourth", &[(40, 51)], Number)] },
        Form { name: "RTQC", words: 4, told: &[(1, "1"), (2, "00"), (4, "1001000")], zero: &[(25, 25)],
            fields: &[FAA, AF, RANGE4, AZIMUTH4, ("run", &[(40, 46)], Number), ("time", &[(47, 51)], Number)] },
    ];
    for (name, bit4, own, zero) in [("DABS", "1", &DABS[..], &[(45, 46)][..]), ("ATCRBS", "0", &ATCRBS[..], &[][..])] {
        for (more, told, spare, fields) in HEIGHTS {
            all.push(Form {
                name: Box::leak(format!("{name}{more}").into_boxed_str()),
                words: 7,
                told: leak(&[&[(2, "11"), (4, bit4)], told]),
                zero: leak(&[zero, spare]),
                fields: leak(&[own, fields]),
            });
        }
    }
    all.push(Form { name: "MTD", words: 7, told: &[(2, "11"), (4, "0"), (12, "1"), (88, "010")], zero: &[(5, 10), (45, 45), (87, 87)],
        fields: &[TEST, FAA, RANGE7, AZIMUTH7, ("aims", &[(44, 44)], Number), ("time", &[(46, 51)], Number), ("doppler1", &[(53, 58)], Number),
            ("doppler2", &[(59, 64)], Number), ("file", &[(66, 77)], Number), ("quality", &[(79, 80)], Number), ("confidence", &[(81, 84)], Number),
            ("false_target", &[(85, 85)], Number), ("ground", &[(86, 86)], Number)] });
    all.push(Form { name: "RDAS", words: 7, told: &[(2, "11"), (4, "0"), (12, "1"), (88, "001")], zero: &[(5, 10), (45, 45), (53, 64), (83, 84), (86, 87)],
        fields: &[TEST, FAA, RANGE7, AZIMUTH7, ("aims", &[(44, 44)], Number), ("time", &[(46, 51)], Number), ("file", &[(66, 77)], Number),
            ("quality", &[(79, 82)], Number), ("false_target", &[(85, 85)], Number)] });
    all
}

// The forms, made once.
pub fn all_forms() -> &'static [Form] {
    thread_local! {
        static FORMS: &'static [Form] = Box::leak(forms().into_boxed_slice());
    }
    FORMS.with(|f| *f)
}

// The same with altitudes in two's complement.
pub fn complement_forms() -> &'static [Form] {
    thread_local! {
        static FORMS: &'static [Form] = Box::leak(forms().into_iter().map(complement).collect::<Vec<Form>>().into_boxed_slice());
    }
    FORMS.with(|f| *f)
}

fn complement(form: Form) -> Form {
    let turned = |field: &Field| (field.0, field.1, if field.2 == Altitude { Complement } else { field.2 });
    let fields: Vec<Field> = form.fields.iter().map(turned).collect();
    Form { fields: leak(&[&fields[..]]), ..form }
}

// ---- strings of bits

pub fn string(words: &[u16]) -> String {
    words.iter().map(|w| format!("{w:013b}")).collect()
}

pub fn part<'a>(bits: &'a str, (a, b): (usize, usize)) -> &'a str {
    bits.get(a - 1..b).unwrap_or("")
}

pub fn ones(bits: &str) -> usize {
    bits.chars().filter(|c| *c == '1').count()
}

fn fits(bits: &str, told: &[(usize, &str)]) -> bool {
    told.iter().all(|(at, pattern)| part(bits, (*at, at + pattern.len() - 1)) == *pattern)
}

pub fn number(bits: &str) -> i64 {
    i64::from_str_radix(bits, 2).unwrap()
}

// ---- document 01's "Line refusal numbers", 3 to 9

pub enum Read {
    Report(String),
    Refused(u8, usize),
}

pub fn read(forms: &[Form], run: &[u16]) -> Read {
    if let Some(at) = run.iter().position(|w| *w > 8191) {
        return Read::Refused(3, at);
    }
    if let Some(at) = run.iter().position(|w| ones(&format!("{w:b}")) % 2 == 0) {
        return Read::Refused(4, at);
    }
    let bits = string(run);
    // what the first word alone tells
    let first: Vec<&Form> = forms.iter().filter(|f| f.told.iter().filter(|(at, _)| *at < 5 && f.words == 4 || *at < 4).all(|t| fits(&bits, &[*t]))).collect();
    let words = match first.first() {
        Some(form) => form.words,
        None => return Read::Refused(5, 0),
    };
    if run.len() != words {
        return Read::Refused(6, 0);
    }
    let form = match forms.iter().find(|f| f.words == words && fits(&bits, f.told)) {
        Some(form) => form,
        None => return Read::Refused(7, 0),
    };
    if form.zero.iter().any(|z| ones(part(&bits, *z)) > 0) {
        return Read::Refused(8, 0);
    }
    let mut said = String::from(form.name);
    for (name, stretches, shown) in form.fields {
        let held: String = stretches.iter().map(|s| part(&bits, *s)).collect();
        let value = match shown {
            Number => number(&held),
            Altitude if held == "100000000000" => return Read::Refused(9, 0),
            Altitude if held.starts_with('1') => -number(&held[1..]),
            Altitude => number(&held[1..]),
            Complement => number(&held[1..]) - 2048 * number(&held[..1]),
        };
        said += &format!(" {name} {value}");
    }
    Read::Report(said)
}

// The words of a form whose fields hold the given bits, one after the other.
pub fn words_of(form: &Form, mut next: impl FnMut() -> bool) -> Vec<u16> {
    let mut bits = vec![b'0'; form.words * 13];
    for (at, pattern) in form.told {
        bits[at - 1..at - 1 + pattern.len()].copy_from_slice(pattern.as_bytes());
    }
    for (_, stretches, shown) in form.fields {
        for (a, b) in *stretches {
            for k in *a..=*b {
                bits[k - 1] = if next() { b'1' } else { b'0' };
            }
            if *shown == Altitude && &bits[a - 1..*b] == b"100000000000" {
                bits[a - 1] = b'0';
            }
        }
    }
    bits.chunks(13).map(|word| {
        let data = std::str::from_utf8(&word[..12]).unwrap();
        number(&format!("{data}{}", 1 - ones(data) % 2)) as u16
    }).collect()
}
