//! The line: what stands at a place, and the writing of a report, from document 01 ("The line", "Line refusal numbers"), Ticket 7 of document 02
//! and siamrung.h.

use crate::layout::Layout;
use crate::report::{self, Report};

pub const MOST_BYTES: usize = 65_536;
/// The idle word, 000 111 111 111 1.
pub const IDLE: u16 = 0b0_0011_1111_1111;
pub const REFUSED: u32 = 120;
pub const END: u32 = 121;
/// A greater link number is refused, with this refusal.
pub const LAST_LINK: u32 = 15;
pub const NO_SUCH_LINK: u32 = 13;

/// The answers of the calls about one place.
pub struct Look {
    pub kind: u32,
    pub refusal: u32,
    pub first: u64,
    pub after: u64,
    pub named: u64,
    pub link: u32,
    pub report: Option<Report>,
}

impl Look {
    /// A refusal of the link number, the line or the place itself: each place is the caller's.
    fn refused(refusal: u32, place: u64) -> Look {
        Look { kind: REFUSED, refusal, first: place, after: place, named: place, link: 0, report: None }
    }

    /// Whether a run stands there: a report, or one with a refusal of its own.
    pub fn is_run(&self) -> bool {
        self.kind != END && !matches!(self.refusal, NO_SUCH_LINK | 2 | 14 | 1)
    }
}

/// Two bytes a word, high byte first; a last odd byte is no word.
pub fn words(bytes: &[u8]) -> Vec<u16> {
    bytes.chunks_exact(2).map(|pair| u16::from_be_bytes([pair[0], pair[1]])).collect()
}

pub fn to_bytes(words: &[u16]) -> Vec<u8> {
    words.iter().flat_map(|word| word.to_be_bytes()).collect()
}

/// Refusals 2, 14 and 1, of the line and the place themselves.
pub fn refusal_of_place(length: usize, place: u64) -> u32 {
    if length > MOST_BYTES {
        2
    } else if length % 2 == 1 {
        14
    } else if place > (length / 2) as u64 {
        1
    } else {
        0
    }
}

pub fn is_link(link: u32) -> bool {
    link <= LAST_LINK
}

/// A line that is lent to a call, and what is passed with it. The words are those of the bytes, given beside them so that a walk makes them once.
#[derive(Clone, Copy)]
pub struct Lent<'a> {
    pub form: u32,
    /// those of the form
    pub layouts: &'a [Layout],
    pub link: u32,
    /// in bytes
    pub length: usize,
    pub words: &'a [u16],
}

impl Lent<'_> {
    /// What is answered about a place. If the number is no link's, nothing else counts; else the outcome has it, and it makes no difference.
    pub fn look(&self, place: u64) -> Look {
        if !is_link(self.link) {
            return Look::refused(NO_SUCH_LINK, place);
        }
        Look { link: self.link, ..self.look_on_link_0(place) }
    }

    pub fn look_on_link_0(&self, place: u64) -> Look {
        look(self.layouts, self.length, self.words, place)
    }

    /// What is met from place 0 on, each with the place that was asked, up to the end or to a place that gives itself back.
    pub fn walk(&self) -> impl Iterator<Item = (u64, Look)> + '_ {
        let mut next = Some(0);
        std::iter::from_fn(move || {
            let place = next?;
            let look = self.look(place);
            next = Some(look.after).filter(|&after| look.kind != END && after != place);
            Some((place, look))
        })
    }
}

/// What stands at the place, on link 0.
pub fn look(layouts: &[Layout], length: usize, words: &[u16], place: u64) -> Look {
    let refusal = refusal_of_place(length, place);
    if refusal != 0 {
        return Look::refused(refusal, place);
    }
    let rest = &words[place as usize..];
    let idle = rest.iter().take_while(|&&word| word == IDLE).count();
    let run: Vec<u16> = rest[idle..].iter().copied().take_while(|&word| word != IDLE).collect();
    let first = place + idle as u64;
    let after = first + run.len() as u64;
    if run.is_empty() {
        return Look { kind: END, refusal: 0, first, after, named: first, link: 0, report: None };
    }
    match report::read(layouts, &run) {
        Ok(report) => Look { kind: report.kind, refusal: 0, first, after, named: first, link: 0, report: Some(report) },
        Err((refusal, word)) => Look { kind: REFUSED, refusal, first, after, named: first + word as u64, link: 0, report: None },
    }
}

/// Number and value of each item; nothing where the length is no multiple of sixteen.
pub fn items(bytes: &[u8]) -> Option<Vec<(u64, u64)>> {
    if bytes.len() % 16 != 0 {
        return None;
    }
    let number = |eight: &[u8]| eight.iter().fold(0u64, |so_far, &byte| so_far * 256 + u64::from(byte));
    Some(bytes.chunks_exact(16).map(|item| (number(&item[..8]), number(&item[8..]))).collect())
}

/// Writes the report; answers the refusal and the place after it, or the place given.
pub fn write(layouts: &[Layout], bytes: &mut [u8], place: u64, kind: u32, item_bytes: &[u8]) -> (u32, u64) {
    let refusal = refusal_of_place(bytes.len(), place);
    if refusal != 0 {
        return (refusal, place);
    }
    let written = items(item_bytes).and_then(|items| report::write(layouts, kind, &items));
    let mut words = match written {
        Some(words) => words,
        None => return (11, place),
    };
    words.push(IDLE);
    let from = 2 * place as usize;
    let new = to_bytes(&words);
    if bytes.len() - from < new.len() {
        return (10, place);
    }
    bytes[from..from + new.len()].copy_from_slice(&new);
    (0, place + words.len() as u64)
}
