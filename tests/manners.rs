// Manners: the sample recording of a sensor that breaks rules between fields, and what examples/manners.c must say of any recording. `read` tells the
// kind of an accepted run and nothing more. The rules are asked of the run's bits, by document 004's numbers.
use crate::document::*;
use crate::tracks::words_said;
use crate::{name_of, reason, refused_whole, runs, words, IDLE};

// ---- recordings

// Reports as `read` says them; a value that is not said is 0. Behind each: the rule that it breaks, or why it breaks none.
pub const MANNERS: [&str; 20] = [
    "MAP start 96 azimuth 128 stop 240",                                           // none: the stop is above the start
    "ATCRBS file 17 range 5280 azimuth 683 time 2 mode3a 1 code 1748 altitude 90", // none: bit 5 is one, but without substitution
    "ATCRBS-CD file 18 range 12800 azimuth 1024 time 3 mode3a 1 code 2730 run 3",  // rule 1
    "ATCRBS-CD file 19 range 3200 azimuth 1365 time 5 mode_c 1 code 640 run 2",    // none: bit 5 is zero
    "DABS address 10952707 range 9216 azimuth 1707 time 1 relay 1 carried 1365",   // rule 2
    "DABS address 10952708 range 9290 azimuth 1750 time 1 relay 1 altitude 0",     // none: bit 6 is one; all zeros, but in DABS
    "DABS address 10952709 range 640 azimuth 1800 time 1 primary 1 carried 1365",  // none: bit 6 is zero, but it is not relayed
    "MAP start 240 azimuth 1024 stop 239",                                         // rule 4
    "MAP start 240 azimuth 1056 stop 240",                                         // none: stop and start are equal
    "ATCRBS file 20 range 1000 azimuth 2500 time 2 mode3a 1 code 640 altitude 0",  // rule 3
    "ATCRBS file 21 range 1010 azimuth 2600 time 2 mode3a 1 code 640 altitude 1",  // none: 100 feet
    "ATCRBS file 22 range 700 azimuth 3072 mode3a 1 relay 1 code 640 carried 0",   // none: bit 6 is zero; relayed, but in ATCRBS
    "DABS-CD address 10952710 range 400 azimuth 3300 time 1 relay 1 run 2",        // rule 2
    "DABS-MTD address 10952711 range 402 azimuth 3500 time 1 relay 1 quality 3",   // rule 2
    "DABS-RDAS address 10952712 range 3130 azimuth 4096 time 1 relay 1 quality 9", // rule 2
    "DABS-RDAS address 10952713 range 40 azimuth 4111 primary 1 relay 1 mode_c 1", // none: bit 6 is one; bit 5 too, but in DABS
    "damaged ATCRBS-MTD file 23 range 2048 azimuth 5000 mode3a 1 code 640",        // none: it is refused
    "ATCRBS-MTD file 23 range 2090 azimuth 5021 mode3a 1 code 640 quality 3",      // rule 1
    "damaged MAP start 512 azimuth 2600 stop 96",                                  // none: it is refused
    "ATCRBS-RDAS file 24 range 8000 azimuth 7168 mode3a 1 mode_c 1 quality 11",    // rule 1
];

// As many breaches as a line can have: Maps with one idle word behind each.
pub fn full() -> Vec<u16> {
    let maps = (0..6553).map(|k| words_said(all_forms(), &format!("MAP start {} stop {}", 1 + k % 2047, k % 2047)));
    let mut line: Vec<u16> = maps.flat_map(|map| [map, vec![IDLE]].concat()).collect();
    assert!(line.len() > 32768 - 5);
    line.resize(32768, IDLE);
    line
}

// ---- what manners says

// What is wrong, by the number of the rule, from 1 on.
const WRONG: [&str; 4] = [
    "an ATCRBS substitution report has bit 5, Mode 3/A, set (4.2.7)",
    "a relayed DABS report has bit 6, Mode C, zero (4.1.4)",
    "an ATCRBS report has bit 6, Mode C, set and bits 79-90 all zeros (4.2.2); at sea level it may be right",
    "a Map has its range stop below its range start (fields of Table 4-2)",
];

// The rule that the accepted run at a place breaks.
fn broken(name: &str, line: &[u16], at: usize) -> Option<usize> {
    let run: Vec<u16> = line[at..].iter().copied().take_while(|word| *word != IDLE).collect();
    let bits = string(&run);
    let is = |bit: usize, value: &str| part(&bits, (bit, bit)) == value;
    let count = |from: usize, to: usize| number(part(&bits, (from, to)));
    match name {
        "ATCRBS-CD" | "ATCRBS-MTD" | "ATCRBS-RDAS" if is(5, "1") => Some(1),
        "DABS" | "DABS-CD" | "DABS-MTD" | "DABS-RDAS" if is(47, "1") && is(6, "0") => Some(2),
        "ATCRBS" if is(6, "1") && is(12, "0") && count(79, 90) == 0 => Some(3),
        "MAP" if count(40, 50) < count(14, 24) => Some(4),
        _ => None,
    }
}

// Standard output.
pub fn printed(forms: &[Form], bytes: &[u8]) -> String {
    if refused_whole(bytes).is_some() {
        return String::new();
    }
    let (mut out, mut counts, mut reports, mut refused) = (String::new(), [0; 4], 0, 0);
    let line = words(bytes);
    for (at, what) in runs(forms, &line) {
        match what {
            Read::Report(said) => {
                reports += 1;
                if let Some(rule) = broken(name_of(&said), &line, at) {
                    counts[rule - 1] += 1;
                    out += &format!("{at} {} rule {rule}: {}\n", name_of(&said), WRONG[rule - 1]);
                }
            }
            Read::Refused(..) => refused += 1,
        }
    }
    for (k, wrong) in WRONG.iter().enumerate() {
        out += &format!("rule {} broken {} times: {wrong}\n", k + 1, counts[k]);
    }
    out + &format!("{reports} reports, {} breaches; {refused} refused and not judged\n", counts.iter().sum::<usize>())
}

// Standard error.
pub fn refused(forms: &[Form], bytes: &[u8]) -> String {
    if let Some(number) = refused_whole(bytes) {
        return format!("manners: NOT JUDGED {number}: {}\n", reason(number));
    }
    let mut out = String::new();
    for (at, what) in runs(forms, &words(bytes)) {
        if let Read::Refused(number, offset) = what {
            out += &format!("manners: place {at} REFUSED {number} at {}: {}\n", at + offset, reason(number));
        }
    }
    out
}
