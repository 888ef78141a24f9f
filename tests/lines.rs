// Works out what crates/lines_test reads and must print, from document 01's "The line" and "Line refusal numbers"; what a run alone is, it
// has from tests/document.rs, what differs in the new form of the altitude from document 02, Ticket 5, and the link from Ticket 7. `lines stdin`
// writes the cases, `lines stdout` what must be printed of them. Besides chosen cases there are random ones, from a fixed seed.
mod document;
use std::io::Write;

const IDLE: u16 = 1023;
const MOST: usize = 32768;
const FAR: u16 = 65535; // stands for the largest place, and for the largest link number
const CUT: u16 = 65534; // stands for a link number whose last sixteen bits are those of link 15
const LAST_LINK: u16 = 15;

const C1: [u16; 4] = [868, 1281, 2048, 647];
const C2: [u16; 7] = [3973, 1281, 256, 7, 5175, 1414, 4102];
const ATCRBS: [u16; 7] = [3333, 1281, 1022, 868, 1281, 2048, 647];

// ---- a run: the number of its refusal and the offset of the word that it names, or nothing

fn refusal(run: &[u16], form: u16) -> Option<(u8, usize)> {
    let forms = if form == 0 { document::all_forms() } else { document::complement_forms() };
    match document::read(forms, run) {
        document::Read::Report(_) => None,
        document::Read::Refused(number, offset) => Some((number, offset)),
    }
}

// The words of a report that is read in one form and written in the other; nothing where the other has no such altitude (11). -v hundreds of feet are
// a sign and v, or 4096 - v.
fn rewritten(words: &[u16], form: u16, to: u16) -> Option<Vec<u16>> {
    let mut written = words.to_vec();
    let bits = document::string(words);
    let altitude = words.len() == 7 && &bits[5..6] == "1" && &bits[11..12] == "0";
    if altitude && &bits[78..79] == "1" && (form == 0) != (to == 0) {
        let v = if form == 0 { words[6] / 2 - 2048 } else { 4096 - words[6] / 2 };
        let data = if to != 0 { 4096 - v } else { 2048 + v };
        if data == 4096 {
            return None;
        }
        written[6] = 2 * data + (data.count_ones() as u16 + 1) % 2;
    }
    Some(written)
}

// ---- a case

struct Case {
    what: u16, // 0 read, 1 read one byte fewer, 2 write the report of the words, 3 write a report with a value too large
    n: usize,
    place: u16,
    form: u16,       // of the altitude, in reading
    to: u16,         // in writing
    link: u16,
    words: Vec<u16>, // repeated along the line
}

fn place_of(place: u16) -> u64 {
    if place == FAR { u64::MAX } else { place as u64 }
}

// One line of what is printed: what was found, its three places, and the link, which is 0 where there is no such link.
fn outcome(name: String, places: [u64; 3], link: u16) -> String {
    let answered = if link > LAST_LINK { 0 } else { link };
    format!("{} {} {} {} LINK {}\n", name, places[0], places[1], places[2], answered)
}

// A refusal of the link, the line or the place: the caller's place three times.
fn not_taken(number: u8, place: u16, link: u16) -> String {
    outcome(format!("REFUSED {}", number), [place_of(place); 3], link)
}

fn read(line: &[u16], place: u16, form: u16, link: u16, out: &mut String) {
    let shown = line.len() <= 64;
    let say = |text: String, out: &mut String| {
        if shown {
            out.push_str(&text)
        }
    };
    let from = place_of(place);
    let (mut calls, mut reports, mut reported, mut refusals, mut refused) = (1, 0, 0, 0, 0);
    let untaken = if link > LAST_LINK {
        13
    } else if line.len() > MOST {
        2
    } else if from > line.len() as u64 {
        1
    } else {
        0
    };
    if untaken != 0 {
        // printed of a long line too
        out.push_str(&not_taken(untaken, place, link));
        refusals = 1;
    } else {
        let mut at = from as usize;
        for run in line[at..].split(|w| *w == IDLE) {
            if !run.is_empty() {
                let after = at + run.len();
                calls += 1;
                match refusal(run, form) {
                    None => {
                        reports += 1;
                        reported += run.len();
                        say(outcome("REPORT".to_string(), [at, after, at].map(|p| p as u64), link), out);
                    }
                    Some((number, offset)) => {
                        refusals += 1;
                        refused += run.len();
                        say(outcome(format!("REFUSED {}", number), [at, after, at + offset].map(|p| p as u64), link), out);
                    }
                }
            }
            at += run.len() + 1;
        }
        say(outcome("END".to_string(), [line.len() as u64; 3], link), out);
    }
    out.push_str(&format!("CALLS {} REPORTS {} {} REFUSED {} {} DIFFER 0\n", calls, reports, reported, refusals, refused));
}

fn write(n: usize, place: u16, words: Option<&[u16]>, out: &mut String) {
    let at = place_of(place);
    let number = if n > MOST {
        2
    } else if at > n as u64 {
        1
    } else {
        match words {
            None => 11,
            Some(ws) if n - at as usize <= ws.len() => 10,
            _ => 0,
        }
    };
    if number != 0 {
        out.push_str(&format!("REFUSED {} {}\nCHANGED\n", number, at));
        return;
    }
    let mut written = words.unwrap().to_vec();
    written.push(IDLE);
    out.push_str(&format!("NEXT {}\nCHANGED", at as usize + written.len()));
    for (k, w) in written.iter().enumerate() {
        let i = at as usize + k;
        if i % 1000 != *w as usize {
            out.push_str(&format!(" {} {}", i, w));
        }
    }
    out.push('\n');
}

fn answer(case: &Case, out: &mut String) {
    let words = &case.words;
    match case.what {
        0 => {
            let line: Vec<u16> = (0..case.n).map(|i| words[i % words.len()]).collect();
            read(&line, case.place, case.form, case.link, out);
        }
        1 => {
            let number = if case.link > LAST_LINK {
                13
            } else if 2 * case.n - 1 > 2 * MOST {
                2
            } else {
                14
            };
            out.push_str(&not_taken(number, case.place, case.link));
        }
        2 if refusal(words, case.form).is_some() => out.push_str("NO REPORT\n"),
        2 => write(case.n, case.place, rewritten(words, case.form, case.to).as_deref(), out),
        _ => write(case.n, case.place, None, out),
    }
}

// ---- the cases

fn whole(words: &[u16]) -> Case {
    Case { what: 0, n: words.len(), place: 0, form: 0, to: 0, link: 0, words: words.to_vec() }
}

// Runs of each outcome.
fn runs() -> Vec<Vec<u16>> {
    vec![
        C1.to_vec(),
        C2.to_vec(),
        ATCRBS.to_vec(),
        vec![1, 1, 1, 1],
        vec![3974, 1281, 256, 7, 5175, 1414, 8],
        vec![8192],
        vec![868, 1281, 2048, 647 + 8192],
        vec![IDLE + 8192],
        vec![0, 8192],
        vec![0],
        vec![868, 1281, 2048, 646],
        vec![1024],
        vec![577],
        [C1, C1].concat(),
        vec![868, 1281, 2048],
        vec![3973, 1281, 256, 7],
        vec![3974, 1281, 256, 7, 5175, 1414, 4],
        vec![868, 1282, 2048, 647],
        vec![3973, 1281, 256, 7, 5175, 1414, 4096],
    ]
}

fn random(seed: &mut u64) -> usize {
    *seed = seed.wrapping_mul(6364136223846793005).wrapping_add(1442695040888963407);
    (*seed >> 33) as usize
}

// Runs and idle words one after the other, some words changed in one bit.
fn random_line(seed: &mut u64) -> Vec<u16> {
    let runs = runs();
    let mut line = vec![];
    while line.len() < 30 {
        match random(seed) % 3 {
            0 => line.extend(&runs[random(seed) % runs.len()]),
            _ => line.extend(vec![IDLE; random(seed) % 3]),
        }
    }
    for _ in 0..random(seed) % 3 {
        let i = random(seed) % line.len();
        line[i] ^= 1 << (random(seed) % 16);
    }
    line
}

fn cases() -> Vec<Case> {
    let mut all = vec![];
    for run in runs() {
        all.push(whole(&run));
        all.push(whole(&[&run[..], &[IDLE], &C1].concat()));
        all.push(whole(&[&C2[..], &[IDLE], &run, &[IDLE, IDLE], &C1].concat()));
        all.push(whole(&[&C1[..], &[IDLE], &run].concat()));
        all.push(whole(&[&[IDLE, IDLE], &run[..], &[IDLE]].concat()));
    }
    let sample = [IDLE, 868, 1281, 2048, 647, IDLE, IDLE, 3973, 1281, 256, 7, 5175, 1414, 4096];
    for place in [0, 1, 2, 5, 6, 9, 13, 14, 15, FAR] {
        all.push(Case { place, ..whole(&sample) });
    }
    let mut flipped = ATCRBS;
    flipped[2] = IDLE;
    all.push(whole(&flipped));
    for (n, place) in [(0, 0), (0, 1), (0, FAR), (5, 0), (5, 3), (5, 5), (5, 6)] {
        all.push(Case { what: 0, n, place, form: 0, to: 0, link: 0, words: vec![IDLE] });
    }
    let spaced = [&C1[..], &[IDLE]].concat();
    let seven = [&C2[..], &[IDLE]].concat();
    for (n, words) in [
        (MOST, vec![0]),
        (MOST, vec![868]),
        (MOST, vec![8192]),
        (MOST, vec![0, IDLE]),
        (MOST - 1, vec![0, IDLE]),
        (MOST, spaced.clone()),
        (MOST, seven),
        (MOST, vec![IDLE]),
        (MOST + 1, spaced),
        (MOST + 1, vec![IDLE]),
    ] {
        for place in [0, 3, 32767, 32768, 32769, FAR] {
            all.push(Case { what: 0, n, place, form: 0, to: 0, link: 0, words: words.clone() });
        }
    }
    for (n, place) in [(1, 0), (5, 2), (5, FAR), (MOST, 0), (MOST + 1, 0), (MOST + 1, FAR)] {
        all.push(Case { what: 1, n, place, form: 0, to: 0, link: 0, words: vec![] });
    }
    for words in [C1.to_vec(), C2.to_vec(), ATCRBS.to_vec()] {
        let k = words.len();
        for n in [k - 1, k, k + 1, k + 2, 30, MOST, MOST + 1] {
            for place in [0, 1, n.saturating_sub(k + 1), n.saturating_sub(k), n, n + 1] {
                all.push(Case { what: 2, n, place: place as u16, form: 0, to: 0, link: 0, words: words.clone() });
            }
            all.push(Case { what: 2, n, place: FAR, form: 0, to: 0, link: 0, words: words.clone() });
        }
    }
    for (n, place) in [(10, 0), (3, 0), (3, 3), (3, 4), (MOST, 0), (MOST + 1, 0), (MOST + 1, FAR)] {
        all.push(Case { what: 3, n, place, form: 0, to: 0, link: 0, words: vec![] });
    }
    let mut seed = 19801980;
    for _ in 0..100 {
        all.push(whole(&random_line(&mut seed)));
    }
    all.extend(new_form(&mut seed));
    all.extend(links(&mut seed));
    all
}

// The link: every number that a link has, and numbers that none has, of 8, 16 and 32 bits; with a report, each refusal, the end, and lines and places
// that are not taken.
fn links(seed: &mut u64) -> Vec<Case> {
    let mut all = vec![];
    let sample = [IDLE, 868, 1281, 2048, 647, IDLE, IDLE, 3973, 1281, 256, 7, 5175, 1414, 4096];
    for link in 0..=LAST_LINK {
        all.push(Case { link, ..whole(&sample) });
        all.push(Case { link, ..whole(&random_line(seed)) });
    }
    for (i, run) in runs().iter().enumerate() {
        for link in [i as u16 % (LAST_LINK + 1), LAST_LINK + 1] {
            all.push(Case { link, form: i as u16 % 2, ..whole(run) });
        }
    }
    for link in [7, LAST_LINK, LAST_LINK + 1, 17, 255, 256, 271, CUT, FAR] {
        for (n, place) in [(0, 0), (0, 1), (5, 0), (5, 5), (5, 6), (5, FAR), (MOST, 0), (MOST + 1, 3), (MOST + 1, FAR)] {
            all.push(Case { n, place, link, ..whole(&[868]) });
        }
        for (n, place) in [(5, 2), (MOST + 1, FAR)] {
            all.push(Case { what: 1, n, place, link, ..whole(&[]) });
        }
    }
    all
}

// The new form of the altitude: every run, the line of the lister's example, random lines, and reports read in one form and written in either.
fn new_form(seed: &mut u64) -> Vec<Case> {
    let anew = |case: Case| Case { form: 1, to: 1, ..case };
    let mut all: Vec<Case> = runs().iter().map(|run| anew(whole(run))).collect();
    let sample = [IDLE, 868, 1281, 2048, 647, IDLE, IDLE, 3973, 1281, 256, 7, 5175, 1414, 4096];
    for place in [0, 6, 9, 13, 14, 15, FAR] {
        all.push(anew(Case { place, ..whole(&sample) }));
    }
    for _ in 0..50 {
        all.push(anew(whole(&random_line(seed))));
    }
    for (n, place) in [(5, 2), (MOST + 1, FAR)] {
        all.push(Case { what: 1, n, place, form: 1, to: 1, link: 0, words: vec![] });
    }
    // bits 79-90: -3 and -2045, minus zero and -2048, the highest, -1024 in both, -2047 and -1
    let altitudes = [4102, 4096, 4094, 6145, 8191].map(|last| [&C2[..6], &[last]].concat());
    for words in [C1.to_vec(), ATCRBS.to_vec()].into_iter().chain(altitudes) {
        for (form, to) in [(0, 65535), (1, 0), (2, 256), (0, 0)] {
            for (n, place) in [(30, 0), (30, 22), (30, 23), (30, 31), (MOST, 3), (MOST + 1, 0)] {
                all.push(Case { what: 2, n, place, form, to, link: 0, words: words.clone() });
            }
        }
    }
    all.push(Case { what: 3, n: 10, place: 0, form: 1, to: 1, link: 0, words: vec![] });
    all
}

fn main() {
    let told = std::env::args().nth(1).unwrap_or_default();
    let mut out: Vec<u8> = vec![];
    for case in cases() {
        assert!(case.words.len() <= 64 && case.n <= MOST + 1, "a case does not fit");
        if told == "stdin" {
            let mut numbers = vec![case.what, case.n as u16, case.words.len() as u16, case.place, case.form, case.to, case.link];
            numbers.extend(&case.words);
            numbers.resize(71, 0);
            out.extend(numbers.iter().flat_map(|n| n.to_be_bytes()));
        } else {
            let mut text = String::new();
            answer(&case, &mut text);
            out.extend(text.bytes());
        }
    }
    std::io::stdout().write_all(&out).expect("standard output takes what is written");
}
