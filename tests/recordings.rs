// Makes the sample recordings of examples/recordings, those of chance from fixed seeds, and what C programs must print of them, by
// tests/document.rs: `recordings NAME` writes the bytes, `recordings NAME printed` what examples/recorder.c prints, `recordings NAME heights` what
// README.md's lines do. `recordings track NUMBER FILE..` and `recordings refused FILE..` print what examples/track.c must say (tests/tracks.rs).
// `recordings breaches FILE` and `recordings not-judged FILE` print what examples/manners.c must say (tests/manners.rs), on standard output and on
// standard error. With --twos-complement in front, altitudes are read in that form; with --link NUMBER next, the recorder is told that link.
//   story    a sensor that sends ATCRBS and Search reports, and then begins to send DABS reports in place of ATCRBS
//   morning  every form, with idle words between
//   damaged  the morning with bits turned over here and there
//   scan1    some tracks, reports that belong to no track, and reports that have no file number
//   scan2    the next scan: tracks that go on, that are lost, that are new, and a damaged report
//   below    a sensor that sends altitudes in two's complement, some of them below zero
//   manners  a sensor that breaks rules between fields, and reports that almost break them
//   crowd    more tracks than a table has entries; it is made for the test only
//   full     as many breaches of a rule as a line can have; it is made for the test only
mod document;
mod manners;
mod tracks;
use document::*;
use std::io::Write;

const IDLE: u16 = 1023;
const LAST_LINK: u32 = 15;

struct Random(u32);

impl Random {
    fn next(&mut self, below: u32) -> u32 {
        self.0 = self.0.wrapping_mul(1103515245).wrapping_add(12345);
        (self.0 >> 8) % below
    }
}

fn report(random: &mut Random, form: &Form) -> Vec<u16> {
    words_of(form, || random.next(2) == 1)
}

fn named<'a>(name: &str, nth: usize) -> &'a Form {
    all_forms().iter().filter(|f| f.name == name).nth(nth).unwrap()
}

fn random_line(name: &str) -> Vec<u16> {
    let mut random = Random(1980);
    let mut line = vec![IDLE; 3];
    for k in 0..60 {
        // of DABS and ATCRBS the first form has an altitude
        let form = match (name, k % 3) {
            ("story", 0) => named("SEARCH", 0),
            ("story", _) if k < 24 => named("ATCRBS", 0),
            ("story", _) => named("DABS", 0),
            _ => &all_forms()[random.next(all_forms().len() as u32) as usize],
        };
        line.extend(report(&mut random, form));
        line.extend(vec![IDLE; 1 + random.next(4) as usize]);
    }
    if name == "damaged" {
        for _ in 0..25 {
            let at = random.next(line.len() as u32) as usize;
            line[at] ^= 1 << random.next(14);
        }
    }
    line
}

fn recording(name: &str) -> Vec<u16> {
    match name {
        "scan1" => tracks::line(all_forms(), &tracks::SCAN1),
        "scan2" => tracks::line(all_forms(), &tracks::SCAN2),
        "below" => tracks::line(complement_forms(), &tracks::BELOW),
        "manners" => tracks::line(all_forms(), &manners::MANNERS),
        "crowd" => tracks::crowd(),
        "full" => manners::full(),
        _ => random_line(name),
    }
}

// Why a recording is refused as a whole.
fn refused_whole(bytes: &[u8]) -> Option<u8> {
    match bytes.len() {
        length if length > 65536 => Some(2),
        length if length % 2 == 1 => Some(14),
        _ => None,
    }
}

fn words(bytes: &[u8]) -> Vec<u16> {
    bytes.chunks_exact(2).map(|word| u16::from_be_bytes([word[0], word[1]])).collect()
}

// Each run of a line: its place, and what stands there.
fn runs(forms: &[Form], line: &[u16]) -> Vec<(usize, Read)> {
    let (mut found, mut at) = (Vec::new(), 0);
    for run in line.split(|w| *w == IDLE) {
        if !run.is_empty() {
            found.push((at, read(forms, run)));
        }
        at += run.len() + 1;
    }
    found
}

// The value of a field in what `read` says of a report.
fn value(said: &str, field: &str) -> Option<i64> {
    let words: Vec<&str> = said.split(' ').collect();
    words[1..].chunks(2).find(|pair| pair[0] == field).map(|pair| pair[1].parse().unwrap())
}

fn name_of(said: &str) -> &str {
    said.split(' ').next().unwrap()
}

// Range, azimuth and time in their units; a Status has none.
fn measures(said: &str) -> String {
    let four = ["SEARCH", "STROBE", "MAP", "STATUS", "RTQC"].contains(&name_of(said));
    value(said, "azimuth").map_or(String::new(), |azimuth| {
        let range = value(said, "range").or(value(said, "start")).unwrap() as f64;
        let circle = if four { 4096.0 } else { 8192.0 };
        let time = value(said, "time").unwrap_or(0) as f64;
        format!(" {:.4} nmi {:.4} deg {:.3} s", range / if four { 8.0 } else { 128.0 }, azimuth as f64 * 360.0 / circle, time / 8.0)
    })
}

fn print_report(said: &str, at: usize, out: &mut String) {
    let name = name_of(said);
    *out += &format!("{at} {name}{}", measures(said));
    // a Search report's own code is the AIMS code, which is another item
    for (field, shown, scale, unit) in [("altitude", "altitude", 100, " ft"), ("address", "address", 1, ""), ("code", "code", 1, ""), ("file", "file", 1, ""), ("run", "run length", 4, " ACP"), ("quality", "quality", 1, "")] {
        if let (Some(count), false) = (value(said, field), field == "code" && name == "SEARCH") {
            *out += &format!(" {shown} {}{unit}", count * scale);
        }
    }
    *out += "\n";
}

fn reason(number: u8) -> &'static str {
    match number {
        13 => "the link number is above 15",
        2 => "the recording has more than 65,536 bytes",
        14 => "the recording has an odd number of bytes",
        3 => "a word has more than thirteen bits",
        4 => "a word has an even number of ones",
        5 => "the first word is of no known form",
        6 => "the run has not as many words as its first word says",
        7 => "bits 88 to 90 are not assigned",
        8 => "a zero or spare bit is one",
        9 => "the altitude is minus zero",
        51 => "the table has no unused entry",
        _ => panic!("no reason is known for {number}"),
    }
}

// What examples/recorder.c prints in front of each outcome, if it is told a link.
fn link_text(link: Option<u32>) -> String {
    link.map_or(String::new(), |number| format!("link {number}: "))
}

// What it finds: each run with its place. Told a number that no link has, it finds one refusal, at the start, and no link.
fn printed(forms: &[Form], line: &[u16], link: Option<u32>) -> String {
    match link {
        Some(number) if number > LAST_LINK => printed_runs(vec![(0, Read::Refused(13, 0))], ""),
        _ => printed_runs(runs(forms, line), &link_text(link)),
    }
}

fn printed_runs(runs: Vec<(usize, Read)>, link: &str) -> String {
    let names = ["SEARCH", "STROBE", "MAP", "STATUS", "RTQC", "DABS", "DABS-CD", "DABS-MTD", "DABS-RDAS", "ATCRBS", "ATCRBS-CD", "ATCRBS-MTD", "ATCRBS-RDAS", "MTD", "RDAS"];
    let (mut out, mut counts, mut refused, mut heights) = (String::new(), [0; 15], 0, 0);
    for (at, run) in runs {
        out += link;
        match run {
            Read::Report(said) => {
                print_report(&said, at, &mut out);
                counts[names.iter().position(|n| name_of(&said) == *n).unwrap()] += 1;
                heights += value(&said, "altitude").iter().count();
            }
            Read::Refused(number, offset) => {
                refused += 1;
                out += &format!("{at} REFUSED {number} at {}: {}\n", at + offset, reason(number));
            }
        }
    }
    let reports: usize = counts.iter().sum();
    for (count, name) in counts.iter().zip(names).filter(|(count, _)| **count > 0) {
        out += &format!("{count} {name}\n");
    }
    out + &format!("{refused} refused\n{reports} reports, {heights} with altitude, {} without\n", reports - heights)
}

// Each refusal, and each height in feet.
fn heights(forms: &[Form], line: &[u16]) -> String {
    let mut out = String::new();
    for (at, run) in runs(forms, line) {
        match run {
            Read::Report(said) => {
                if let Some(height) = value(&said, "altitude") {
                    out += &format!("{at} {} ft\n", 100 * height);
                }
            }
            Read::Refused(number, _) => out += &format!("{at} refused {number}\n"),
        }
    }
    out
}

fn main() {
    let mut words: Vec<String> = std::env::args().collect();
    let option = words[1] == "--twos-complement";
    let forms = if option { complement_forms() } else { all_forms() };
    words.drain(1..1 + usize::from(option));
    let link: Option<u32> = (words[1] == "--link").then(|| words[2].parse().unwrap());
    words.drain(1..1 + 2 * link.iter().count());
    let files = |from: usize| words[from..].iter().map(|name| std::fs::read(name).unwrap()).collect::<Vec<Vec<u8>>>();
    let bytes = match (&words[1][..], words.get(2).map(String::as_str)) {
        ("track", Some(number)) => tracks::last(forms, number.parse().unwrap(), &files(3)).into_bytes(),
        ("refused", _) => tracks::refused(forms, &files(2)).into_bytes(),
        ("breaches", Some(name)) => manners::printed(forms, &std::fs::read(name).unwrap()).into_bytes(),
        ("not-judged", Some(name)) => manners::refused(forms, &std::fs::read(name).unwrap()).into_bytes(),
        (name, None) => recording(name).iter().flat_map(|w| w.to_be_bytes()).collect(),
        (name, Some("printed")) => printed(forms, &recording(name), link).into_bytes(),
        (name, Some("heights")) => heights(forms, &recording(name)).into_bytes(),
        (_, Some(other)) => panic!("no such text: {other}"),
    };
    std::io::stdout().write_all(&bytes).unwrap();
}
