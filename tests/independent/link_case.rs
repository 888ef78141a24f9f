//! Cases for link numbers (Ticket 7 of document 02): how they are sent to driver.c, what should come back, and what has to hold between the
//! answers that came, whatever this program makes of the words.

use crate::answer::{hex, Answer};
use crate::case::{expect_look, items_asked, pattern, put_bytes, put_numbers, Tables};
use crate::line::{self, is_link, Lent, END, IDLE, NO_SUCH_LINK, REFUSED};
use crate::line_cases::item_bytes;
use crate::link_totals::LinkTotals;
use crate::report::Report;
use crate::totals::Totals;

/// Each place of a line is looked at with one link number after the other.
pub struct Linking {
    pub bytes: Vec<u8>,
    pub form: u32,
    pub links: Vec<u32>,
    pub places: Vec<u64>,
}

impl Linking {
    pub fn put(&self, message: &mut Vec<u8>) {
        put_bytes(message, &self.bytes);
        message.extend_from_slice(&self.form.to_be_bytes());
        message.extend_from_slice(&(self.links.len() as u32).to_be_bytes());
        self.links.iter().for_each(|link| message.extend_from_slice(&link.to_be_bytes()));
        put_numbers(message, &self.places);
    }

    pub fn expect(&self, tables: &Tables, answer: &mut Answer, totals: &mut Totals) {
        let words = line::words(&self.bytes);
        for &place in &self.places {
            for &link in &self.links {
                let line = Lent { form: self.form, layouts: tables.of(self.form), link, length: self.bytes.len(), words: &words };
                let look = line.look(place);
                expect_look(answer, &look, place, 0, 1);
                totals.links.look(&line, place, &look, false);
                if let Some(report) = &look.report {
                    expect_again(answer, &line, report);
                }
            }
        }
    }

    /// The answers that came are held to each other, place by place.
    pub fn check(&self, came: &[u8], totals: &mut LinkTotals) -> Result<(), String> {
        let mut came = Came { rest: came };
        let words = line::words(&self.bytes);
        for &place in &self.places {
            let one = |&link: &u32| Outcome::take(&mut came).map(|outcome| (link, outcome));
            let outcomes: Vec<(u32, Outcome)> = self.links.iter().map(one).collect::<Result<_, String>>()?;
            check_place(&words, place, &outcomes, totals).map_err(|why| format!("what came for place {}: {}", place, why))?;
        }
        Ok(())
    }

    pub fn shown(&self) -> String {
        let bytes = if self.bytes.len() > 10_000 { "which are many".to_string() } else { hex(&self.bytes) };
        let line = format!("{} bytes {}", self.bytes.len(), bytes);
        format!("line in form {} on links {:?}, {}; places {:?}", self.form, self.links, line, self.places)
    }
}

/// The report, written into a line that it just fills with its idle word, and looked at there.
fn expect_again(answer: &mut Answer, line: &Lent, report: &Report) {
    let mut bytes = pattern(2 * (report.words as u64 + 1));
    let (_, after) = line::write(line.layouts, &mut bytes, 0, report.kind, &item_bytes(&report.record()));
    answer.u64("siamrung_write of what was read", 0, 0, after);
    answer.u32("length of the line written again", 0, bytes.len() as u32);
    answer.all("bytes of the line written again", &bytes);
    let again = Lent { length: bytes.len(), words: &line::words(&bytes), ..*line };
    expect_look(answer, &again.look(0), 0, 0, 1);
}

// ---- what came

/// The answers that came, taken one behind the other.
struct Came<'a> {
    rest: &'a [u8],
}

impl<'a> Came<'a> {
    fn take(&mut self, width: usize) -> Result<&'a [u8], String> {
        if width > self.rest.len() {
            return Err(format!("{} bytes of answers are missing", width - self.rest.len()));
        }
        let (taken, rest) = self.rest.split_at(width);
        self.rest = rest;
        Ok(taken)
    }

    fn number(&mut self, width: usize) -> Result<u64, String> {
        self.take(width).map(|bytes| bytes.iter().fold(0, |so_far, &byte| so_far * 256 + u64::from(byte)))
    }
}

/// The bytes of siamrung_has_values and of the three values; a byte that says whether items were asked stands behind them.
const VALUES: usize = 4 + 3 * 8;
/// The bytes of siamrung_has and siamrung_item.
const ITEM: usize = 1 + 8;

/// All answers about a place.
#[derive(Clone, Copy, PartialEq)]
struct Seen<'a> {
    kind: u64,
    refusal: u64,
    /// first, after, named
    places: [u64; 3],
    link: u64,
    values_and_items: &'a [u8],
}

impl<'a> Seen<'a> {
    fn take(came: &mut Came<'a>) -> Result<Seen<'a>, String> {
        let (kind, refusal) = (came.number(4)?, came.number(4)?);
        let places = [came.number(8)?, came.number(8)?, came.number(8)?];
        let link = came.number(4)?;
        Ok(Seen { kind, refusal, places, link, values_and_items: came.take(VALUES + 1 + ITEM * items_asked())? })
    }

    fn is_report(&self) -> bool {
        self.kind != u64::from(REFUSED) && self.kind != u64::from(END)
    }

    /// Refusal 13: the caller's place three times, link 0, no value and no item.
    fn is_no_such_link(&self, place: u64) -> bool {
        let nothing = self.values_and_items.iter().enumerate().all(|(at, &byte)| byte == u8::from(at == VALUES));
        let refused = (self.kind, self.refusal) == (u64::from(REFUSED), u64::from(NO_SUCH_LINK));
        refused && self.places == [place; 3] && self.link == 0 && nothing
    }

    fn is_same_but_for_link(&self, other: &Seen) -> bool {
        *self == Seen { link: self.link, ..*other }
    }
}

/// A report written again: what siamrung_write answered, the bytes, and all answers about them.
#[derive(Clone, Copy)]
struct Again<'a> {
    after: u64,
    bytes: &'a [u8],
    seen: Seen<'a>,
}

/// What came for one place and one link number.
struct Outcome<'a> {
    seen: Seen<'a>,
    again: Option<Again<'a>>,
}

impl<'a> Outcome<'a> {
    fn take(came: &mut Came<'a>) -> Result<Outcome<'a>, String> {
        let seen = Seen::take(came)?;
        let mut again = None;
        if seen.is_report() {
            let (after, length) = (came.number(8)?, came.number(4)?);
            again = Some(Again { after, bytes: came.take(length as usize)?, seen: Seen::take(came)? });
        }
        Ok(Outcome { seen, again })
    }

    /// Reading and writing undo each other: the words are those of the run and an idle word, and are the same report at place 0.
    fn goes_round(&self, words: &[u16]) -> bool {
        let Some(again) = self.again else { return true };
        let [first, after, _] = self.seen.places;
        let Some(run) = words.get(first as usize..after as usize) else { return false };
        let written = line::to_bytes(&[run, &[IDLE]].concat());
        let places = [0, run.len() as u64, 0];
        again.after == run.len() as u64 + 1 && again.bytes == written && again.seen == Seen { places, ..self.seen }
    }
}

/// A number above 15 gives refusal 13. Any other is the outcome's, a report on it goes round, and all else is the same on two links.
fn check_place(words: &[u16], place: u64, outcomes: &[(u32, Outcome)], totals: &mut LinkTotals) -> Result<(), String> {
    let first = outcomes.iter().find(|(link, _)| is_link(*link));
    for (link, outcome) in outcomes {
        let seen = &outcome.seen;
        if !is_link(*link) {
            if !seen.is_no_such_link(place) {
                return Err(format!("number {} does not give refusal 13 with this place, link 0 and nothing else", link));
            }
            first.iter().for_each(|(_, beside)| totals.beside(beside.seen.kind, beside.seen.refusal));
            continue;
        }
        if seen.link != u64::from(*link) {
            return Err(format!("the outcome on link {} has link {}", link, seen.link));
        }
        if !outcome.goes_round(words) {
            return Err(format!("the report on link {} is another one when it is written and read again", link));
        }
        outcome.again.iter().for_each(|_| totals.again(*link));
        if let Some((other, beside)) = first.filter(|(other, _)| other != link) {
            if !seen.is_same_but_for_link(&beside.seen) {
                return Err(format!("the outcomes on links {} and {} differ in more than the link", other, link));
            }
            totals.two_links(seen.kind, seen.refusal);
        }
    }
    Ok(())
}
