// An independent lister, from document 01's "The line" and "The C host and the lister"; what a run alone is, it has from tests/document.rs.
//   lister make FOLDER SEED   writes recordings into FOLDER, and into FOLDER/expected what a lister must print of them, each behind its name
//   lister list               lists its standard input
mod document;
use document::*;
use std::io::{Read as _, Write};
use std::path::Path;

const IDLE: u16 = 1023;
const MOST_BYTES: usize = 65536;
const SHORT: usize = 2000; // recordings of some dozen words
const FULL: usize = 50; // recordings of 32,768 words

// ---- the lister

fn listing(bytes: &[u8]) -> String {
    if bytes.len() > MOST_BYTES {
        return String::from("LONG\n");
    }
    if bytes.len() % 2 == 1 {
        return String::from("ODD\n");
    }
    let line: Vec<u16> = bytes.chunks(2).map(|b| u16::from_be_bytes([b[0], b[1]])).collect();
    let mut said = String::new();
    let (mut idle, mut reported, mut refused) = (0, 0, 0);
    // between idle words, and before the first and behind the last, lie runs, some of no words
    let mut place = 0;
    for run in line.split(|w| *w == IDLE) {
        if !run.is_empty() {
            match read(all_forms(), run) {
                Read::Report(report) => {
                    reported += run.len();
                    said += &format!("{place} {} {}\n", report.split(' ').next().unwrap(), run.len());
                }
                Read::Refused(number, offset) => {
                    refused += run.len();
                    said += &format!("{place} REFUSED {number} {} {}\n", run.len(), place + offset);
                }
            }
        }
        place += run.len();
        if place < line.len() {
            idle += 1; // the idle word behind the run
            place += 1;
        }
    }
    said + &format!("IDLE {idle} REPORTED {reported} REFUSED {refused} TOTAL {}\n", line.len())
}

// ---- recordings

struct Random(u64);

impl Random {
    fn below(&mut self, n: usize) -> usize {
        self.0 ^= self.0 << 13;
        self.0 ^= self.0 >> 7;
        self.0 ^= self.0 << 17;
        (self.0 >> 16) as usize % n
    }
}

// What stands between two idle words: mostly a report, as it is or damaged; now and then noise.
fn run(random: &mut Random) -> Vec<u16> {
    let form = &all_forms()[random.below(all_forms().len())];
    let mut words = words_of(form, || random.below(2) == 1);
    let at = random.below(words.len());
    match random.below(14) {
        0 => words[at] ^= 1 << random.below(13), // seen by its parity, unless it becomes idle
        1 => words[at] ^= 1 << random.below(16),
        2 => words[at] ^= 3 << random.below(12), // two bits: parity does not see it
        3 => words.truncate(at),
        4 => words.insert(at, words[at]),
        5 => words = (0..=random.below(9)).map(|_| random.below(65536) as u16).collect(),
        6 => {
            // another last word with odd parity: bits 79 to 90 of seven words
            let data = random.below(4096) as u16;
            let last = words.len() - 1;
            words[last] = data * 2 + (1 - data.count_ones() as u16 % 2);
        }
        7 => *words.last_mut().unwrap() = 4096, // minus zero, where an altitude stands
        _ => (),
    }
    words
}

fn recording(random: &mut Random, words: usize) -> Vec<u8> {
    let mut line = vec![IDLE; random.below(3)];
    while line.len() < words {
        line.extend(run(random));
        // now and then no idle word at all
        line.extend(vec![IDLE; [1, 1, 1, 2, 3, 0, 1, 9][random.below(8)]]);
    }
    line.truncate(words);
    line.iter().flat_map(|w| w.to_be_bytes()).collect()
}

fn make(folder: &Path, seed: u64) {
    let mut random = Random(seed.wrapping_mul(2654435769).max(1));
    let mut all = vec![(String::from("empty"), Vec::new()), (String::from("one-byte"), vec![3])];
    for k in 0..SHORT {
        let words = random.below(60);
        let mut bytes = recording(&mut random, words);
        if random.below(20) == 0 {
            bytes.pop();
        }
        all.push((format!("short-{k:04}"), bytes));
    }
    for k in 0..FULL {
        all.push((format!("full-{k:02}"), recording(&mut random, MOST_BYTES / 2)));
    }
    for n in [65535, 65536, 65537, 65538, 200000] {
        let mut bytes = recording(&mut random, n / 2 + 1);
        bytes.truncate(n);
        all.push((format!("bytes-{n}"), bytes));
    }
    // the most lines that a recording can have, and one run that is the whole line
    all.push((String::from("most-runs"), [0u16, IDLE].repeat(MOST_BYTES / 4).iter().flat_map(|w| w.to_be_bytes()).collect()));
    all.push((String::from("one-run"), [0u8, 1].repeat(MOST_BYTES / 2)));
    let mut expected = std::fs::File::create(folder.join("expected")).unwrap();
    let mut names = std::fs::File::create(folder.join("names")).unwrap();
    for (name, bytes) in all {
        std::fs::write(folder.join(&name), &bytes).unwrap();
        writeln!(names, "{name}").unwrap();
        write!(expected, "{name}\n{}", listing(&bytes)).unwrap();
    }
}

fn main() {
    let words: Vec<String> = std::env::args().skip(1).collect();
    match words.iter().map(String::as_str).collect::<Vec<&str>>()[..] {
        ["make", folder, seed] => make(Path::new(folder), seed.parse().expect("a seed is a number")),
        ["list"] => {
            let mut bytes = Vec::new();
            std::io::stdin().read_to_end(&mut bytes).unwrap();
            print!("{}", listing(&bytes));
        }
        _ => panic!("usage: lister make FOLDER SEED | lister list"),
    }
}
