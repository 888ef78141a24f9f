//! Cases for manners: how they are sent to driver.c, and what should come back.

use crate::answer::{hex, Answer};
use crate::case::{pattern, put_bytes, Tables};
use crate::line::{self, Lent, Look};
use crate::manners::{self, Breach, LISTED, MOST};
use crate::manners_totals::Met;
use crate::totals::Totals;

/// A list that is lent to a call, and the form that is passed with it.
#[derive(Clone, Copy, Debug)]
pub struct Lend {
    pub form: u32,
    /// bytes in front of the list and behind it, which have to stay too
    pub front: u32,
    pub behind: u32,
    /// the length that is passed
    pub length: u64,
}

/// The breaches of a line are listed in one list after the other. The line is walked before and after.
pub struct Checking {
    pub bytes: Vec<u8>,
    /// the length that is passed with the line
    pub length: u64,
    /// the form and the link number of the walks
    pub form: u32,
    pub link: u32,
    pub lends: Vec<Lend>,
}

/// No line needs a longer list. Of a longer one only so many bytes are there.
pub const MOST_LIST: u64 = 4 * MOST + 8;

impl Lend {
    /// A list with nothing around it.
    pub fn alone(form: u32, length: u64) -> Lend {
        Lend { form, front: 0, behind: 0, length }
    }

    /// The bytes that are there before the call: around the list and in it.
    fn pattern(&self) -> Vec<u8> {
        pattern(u64::from(self.front) + self.length.min(MOST_LIST) + u64::from(self.behind))
    }

    /// The bytes after the call: only those of the breaches are others.
    fn after(&self, done: u32, breaches: &[Breach]) -> Vec<u8> {
        let mut bytes = self.pattern();
        if done == LISTED {
            let (from, written) = (self.front as usize, manners::to_bytes(breaches));
            bytes[from..from + written.len()].copy_from_slice(&written);
        }
        bytes
    }
}

/// The breaches in document 01's form, and in the other.
pub type Lists = [Result<Vec<Breach>, u32>; 2];

/// Which of the two a form is.
pub fn which(form: u32) -> usize {
    usize::from(form != 0)
}

impl Checking {
    /// A line with its own length, on link 0.
    pub fn of(bytes: Vec<u8>, form: u32, lends: Vec<Lend>) -> Checking {
        Checking { length: bytes.len() as u64, bytes, form, link: 0, lends }
    }

    pub fn put(&self, message: &mut Vec<u8>) {
        put_bytes(message, &self.bytes);
        message.extend_from_slice(&self.length.to_be_bytes());
        message.extend_from_slice(&self.form.to_be_bytes());
        message.extend_from_slice(&self.link.to_be_bytes());
        message.extend_from_slice(&(self.lends.len() as u32).to_be_bytes());
        for lend in &self.lends {
            message.extend_from_slice(&lend.form.to_be_bytes());
            message.extend_from_slice(&lend.front.to_be_bytes());
            message.extend_from_slice(&lend.length.to_be_bytes());
            message.extend_from_slice(&lend.behind.to_be_bytes());
        }
    }

    /// The breaches in both forms. No form makes a difference, as siamrung.h says.
    pub fn lists(&self, tables: &Tables, words: &[u16]) -> Lists {
        let lists = [0, 1].map(|form| manners::of_line(tables.of(form), self.length as usize, words));
        assert_eq!(lists[0], lists[1], "{}", self.shown());
        lists
    }

    /// The outcomes of a walk. The rules have to be broken by items as they are by bits.
    fn looks(&self, tables: &Tables, words: &[u16]) -> Vec<Look> {
        let line = Lent { form: self.form, layouts: tables.of(self.form), link: self.link, length: self.length as usize, words };
        let looks: Vec<Look> = line.walk().map(|(_, look)| look).collect();
        for look in &looks {
            if let Some(report) = &look.report {
                let bits = manners::text_of(&words[look.first as usize..look.after as usize]);
                assert_eq!(manners::broken_by(report), manners::broken(&bits), "{}", bits);
            }
        }
        looks
    }

    pub fn expect(&self, tables: &Tables, answer: &mut Answer, totals: &mut Totals) {
        let words = line::words(&self.bytes);
        let lists = self.lists(tables, &words);
        let looks = self.looks(tables, &words);
        expect_walk(answer, &looks, ["siamrung_kind before", "siamrung_first before", "siamrung_after before"]);
        for (turn, lend) in self.lends.iter().enumerate() {
            expect_call(answer, turn as u64, lend, &lists[which(lend.form)]);
        }
        expect_walk(answer, &looks, ["siamrung_kind after", "siamrung_first after", "siamrung_after after"]);
        totals.manners.line(tables, &Met { case: self, words: &words, looks: &looks, lists: &lists });
    }

    pub fn shown(&self) -> String {
        let bytes = if self.bytes.len() > 10_000 { "which are many".to_string() } else { hex(&self.bytes) };
        let line = format!("{} bytes {}, passed with the length {}", self.bytes.len(), bytes, self.length);
        format!("manners of a line, {}, walked in form {} on link {}; calls {:?}", line, self.form, self.link, self.lends)
    }
}

fn expect_walk(answer: &mut Answer, looks: &[Look], [kind, first, after]: [&'static str; 3]) {
    for look in looks {
        answer.u32(kind, look.first, look.kind);
        answer.u64(first, look.first, 0, look.first);
        answer.u64(after, look.first, 0, look.after);
    }
}

/// One call: its answer, the parts of the answer, the breaches taken out of the list, and all bytes of the list and around it.
fn expect_call(answer: &mut Answer, turn: u64, lend: &Lend, list: &Result<Vec<Breach>, u32>) {
    let (done, count) = manners::done(list, lend.length);
    let breaches: &[Breach] = list.as_deref().unwrap_or(&[]);
    answer.u32("siamrung_manners", turn, manners::answer((done, count)));
    answer.u32("siamrung_manners_done", turn, done);
    answer.u64("siamrung_manners_breaches", turn, 0, count);
    for (k, breach) in breaches.iter().enumerate().filter(|_| done == LISTED) {
        answer.u64("siamrung_breach_place", turn, k as u64, breach.place);
        answer.u32("siamrung_breach_rule", k as u64, breach.rule);
    }
    answer.all("bytes of the list and around it", &lend.after(done, breaches));
}
