// Frames: the limits, the patterns of flags and addresses, and the worked frames, whose check sequence is divided out here.
use crate::definitions::{numbered, File, Numbers};
use crate::page::{table, Findings, Table};
use crate::sources::{code, FRAME};

// Every pattern of ones and zeros in a text, eight digits each.
fn patterns(text: &str) -> Vec<String> {
    let runs = text.split(|c: char| c != '0' && c != '1');
    runs.filter(|run| run.len() == 8).map(|run| run.to_string()).collect()
}

fn octets(cell: &str) -> Vec<u8> {
    cell.split(' ').map(|octet| u8::from_str_radix(octet, 16).expect("an octet")).collect()
}

// The check sequence of the first octets as sent: the polynomial with ones added to its first sixteen bits, divided by the generator.
fn check(octets: &[u8]) -> u16 {
    let mut bits: Vec<bool> = octets.iter().flat_map(|octet| (0..8).rev().map(move |k| octet >> k & 1 == 1)).collect();
    let n = bits.len();
    bits.extend([false; 16]);
    for bit in bits.iter_mut().take(16) {
        *bit = !*bit;
    }
    for i in 0..n {
        if bits[i] {
            for power in [16, 12, 5, 0] {
                bits[i + 16 - power] ^= true;
            }
        }
    }
    !bits[n..].iter().fold(0, |number, bit| number * 2 + u16::from(*bit))
}

pub fn frames(page: &[Table], specs: &[File], found: &mut Findings) {
    let file = specs.iter().filter(|file| file.0 == "frames" && file.1 == "Frame.antt");
    let there: Numbers = numbered(file, "").into_iter().collect();
    found.both_ways("limit of a frame", &table(page, "Frames", "limit").numbers("limit", "number"), FRAME, &there);
    // the flag twice, then the addresses, to the sensor first: as the definitions have them
    let parts = table(page, "Frames", "holds");
    let mut here: Vec<String> = parts.rows.iter().flat_map(|row| patterns(parts.cell(row, "holds"))).collect();
    found.same("the closing flag", here.pop().unwrap(), "the opening flag", here[0].clone());
    found.same("the patterns of flag and addresses", here, FRAME, patterns(&code(FRAME).replace("0b", " ")));
    let worked = table(page, "Frames", "as sent");
    for row in &worked.rows {
        let sent = octets(worked.cell(row, "as sent"));
        let said = u16::from_be_bytes([sent[2], sent[3]]);
        found.same(&format!("the check sequence of {}", worked.cell(row, "frame")), said, "a division", check(&sent[..2]));
        let turned: Vec<u8> = octets(worked.cell(row, "low bit first")).iter().map(|octet| octet.reverse_bits()).collect();
        found.same(&format!("the octets of {}", worked.cell(row, "frame")), sent, "those with the low bit first", turned);
    }
}
