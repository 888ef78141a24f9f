//! An independent second implementation of the converter, compared with the library through its C calls.
//!
//! It was written from documents 01 and 02, document 004 (FAA-RD-80-14) and siamrung.h alone, and reads bits as text from tables in the
//! document's own bit numbers. It needs the driver (driver.c linked with the library), which it starts as a child process.
//!
//!   independent SEED LINES FIELDS FRAMES TABLES COMMAND..   compares LINES lines, FIELDS fields and FRAMES streams of frames, and half as
//!                                                           many writings of each; then half as many ELMs of one segment as fields, read
//!                                                           and written; then the calls of the index on TABLES tables; all these in
//!                                                           document 01's form of the altitude; then as many lines, writings of reports
//!                                                           and tables in both forms, and more whose altitudes stand at the limits; then
//!                                                           the breaches of LINES lines made for them, and of a quarter as many others;
//!                                                           then lines and tables on several links; from 20,000 lines and 50,000 fields
//!                                                           on (ELMs: 50,000 fields; both forms, breaches and links: 20,000 lines), from
//!                                                           20,000 streams on, and from 20,000 tables on, the quotas have to be met; 0
//!                                                           leaves a part out
//!   independent chosen COMMAND..                            compares nmi, degrees and seconds for every count of every field, and the
//!                                                           cases of chosen.rs, segment_chosen.rs, altitude_chosen.rs, frame_chosen.rs,
//!                                                           index_chosen.rs, manners_chosen.rs and link_chosen.rs
//!   independent chosen-frames COMMAND..                     compares the cases of frame_chosen.rs alone
//!   independent chosen-index COMMAND..                      compares the cases of index_chosen.rs alone, those that take long left out
//!   independent chosen-manners COMMAND..                    compares the cases of manners_chosen.rs alone, those that take long left out
//!   independent chosen-links COMMAND..                      compares the cases of link_chosen.rs alone
//!
//! A difference is printed with its case, and the program then ends with 1.

mod altitude_cases;
mod altitude_chosen;
mod altitude_totals;
mod answer;
mod bits;
mod case;
mod chosen;
mod every_count;
mod exact;
mod field;
mod field_cases;
mod frame;
mod frame_case;
mod frame_cases;
mod frame_chosen;
mod frame_totals;
mod index;
mod index_case;
mod index_cases;
mod index_chosen;
mod index_plain;
mod index_totals;
mod layout;
mod line;
mod line_cases;
mod link_case;
mod link_cases;
mod link_chosen;
mod link_totals;
mod manners;
mod manners_case;
mod manners_cases;
mod manners_chosen;
mod manners_runs;
mod manners_totals;
mod report;
mod rng;
mod run;
mod segment_chosen;
mod segment_totals;
mod tally;
mod totals;
mod worked;

use case::{Case, Tables};
use run::Named;
use std::process::exit;
use std::rc::Rc;

/// The cases of a run, in order.
fn cases(seed: u64, lines: u64, fields: u64) -> impl Iterator<Item = Named> {
    let tables = Tables::new();
    let total = lines + lines / 2 + fields + fields / 2;
    (0..total).map(move |index| {
        let (lines_end, writes_end, fields_end) = (lines, lines + lines / 2, lines + lines / 2 + fields);
        if index < lines_end {
            (format!("seed {}, line {}", seed, index), line_cases::line(&tables, seed, index))
        } else if index < writes_end {
            let number = index - lines_end;
            (format!("seed {}, writing {}", seed, number), line_cases::write(&tables, seed, number))
        } else if index < fields_end {
            let number = index - writes_end;
            (format!("seed {}, field {}", seed, number), field_cases::field(&tables, seed, number))
        } else {
            let number = index - fields_end;
            (format!("seed {}, field writing {}", seed, number), field_cases::write(&tables, seed, number))
        }
    })
}

/// The cases of ELMs of one segment, in order.
fn cases_of_segments(seed: u64, fields: u64) -> impl Iterator<Item = Named> {
    let tables = Tables::new();
    let (reads, writes) = (fields / 2, fields / 4);
    (0..reads + writes).map(move |index| {
        if index < reads {
            (format!("seed {}, one segment {}", seed, index), field_cases::segment(&tables, seed, index))
        } else {
            let number = index - reads;
            (format!("seed {}, one segment, writing {}", seed, number), field_cases::write_segment(&tables, seed, number))
        }
    })
}

/// The cases of frames, in order, behind the others.
fn cases_of_frames(seed: u64, frames: u64) -> impl Iterator<Item = Named> {
    let stream = move |number| (format!("seed {}, stream {}", seed, number), frame_cases::stream(seed, number));
    let write = move |number| (format!("seed {}, frame writing {}", seed, number), frame_cases::write(seed, number));
    (0..frames).map(stream).chain((0..frames / 2).map(write))
}

/// The cases of the index, in order, behind those of frames.
fn cases_of_index(seed: u64, count: u64) -> impl Iterator<Item = Named> {
    let tables = Tables::new();
    (0..count).map(move |number| (format!("seed {}, table {}", seed, number), index_cases::table(&tables, seed, number)))
}

/// A sort of cases: a name, how many there are, and what makes the one with a number.
type Sort = (&'static str, u64, fn(&Tables, u64, u64) -> Case);

/// The cases of several sorts, in order.
fn cases_of_sorts(seed: u64, sorts: Vec<Sort>) -> impl Iterator<Item = Named> {
    let tables = Rc::new(Tables::new());
    sorts.into_iter().flat_map(move |(name, count, make)| {
        let tables = Rc::clone(&tables);
        (0..count).map(move |number| (format!("seed {}, {} {}", seed, name, number), make(&tables, seed, number)))
    })
}

/// The cases of both forms, in order.
fn cases_of_forms(seed: u64, lines: u64, count: u64) -> impl Iterator<Item = Named> {
    let sorts: Vec<Sort> = vec![
        ("line in a form", lines, altitude_cases::line),
        ("line of altitudes", lines / 2, altitude_cases::line_of_altitudes),
        ("writing in a form", lines / 2, altitude_cases::write),
        ("writing of an altitude", lines, altitude_cases::write_of_altitude),
        ("table in both forms", count, altitude_cases::table),
        ("table of altitudes", count / 2, altitude_cases::table_of_altitudes),
    ];
    cases_of_sorts(seed, sorts)
}

/// The cases of breaches, in order.
fn cases_of_manners(seed: u64, lines: u64) -> impl Iterator<Item = Named> {
    let sorts: Vec<Sort> = vec![("line of breaches", lines, manners_cases::line), ("any line of breaches", lines / 4, manners_cases::any_line)];
    cases_of_sorts(seed, sorts)
}

/// The cases of links, in order.
fn cases_of_links(seed: u64, lines: u64, count: u64) -> impl Iterator<Item = Named> {
    let sorts: Vec<Sort> = vec![
        ("line on a link", lines, link_cases::line),
        ("line on several links", lines / 2, link_cases::links),
        ("table on several links", count / 2, link_cases::table),
        ("table of links", count / 2, link_cases::table_of_links),
    ];
    cases_of_sorts(seed, sorts)
}

fn compare(seed: u64, [lines, fields, frames, tables]: [u64; 4], command: &[String]) -> Result<(), String> {
    println!("seed {}", seed);
    let all = move || cases(seed, lines, fields).chain(cases_of_frames(seed, frames)).chain(cases_of_index(seed, tables));
    let totals = run::run(command, all)?;
    let mut short = Vec::new();
    if lines + fields > 0 {
        let below = totals.report(&Tables::new());
        short.extend(below.into_iter().filter(|_| lines >= 20_000 && fields >= 50_000));
    }
    if fields > 0 {
        // A run of their own: the quotas of all fields have to be met without these.
        let below = run::run(command, move || cases_of_segments(seed, fields))?.segments.report();
        short.extend(below.into_iter().filter(|_| fields >= 50_000));
    }
    if frames > 0 {
        let below = totals.frames.report();
        short.extend(below.into_iter().filter(|_| frames >= 20_000));
    }
    if tables > 0 {
        let below = totals.index.report();
        short.extend(below.into_iter().filter(|_| tables >= 20_000));
    }
    if lines + tables > 0 {
        short.extend(compare_forms(seed, [lines, tables], command)?);
    }
    if lines > 0 {
        short.extend(compare_manners(seed, lines, command)?);
    }
    if lines + tables > 0 {
        short.extend(compare_links(seed, [lines, tables], command)?);
    }
    if !short.is_empty() {
        return Err(format!("below the quota: {}", short.join("; ")));
    }
    println!("no difference");
    Ok(())
}

/// Prints the counts of lines, if there are any, and those of tables, if there are any. Answers what is below its quota.
fn below([lines, tables]: [u64; 2], of_lines: impl Fn() -> Vec<String>, of_tables: impl Fn() -> Vec<String>) -> Vec<String> {
    let of_lines = if lines > 0 { of_lines() } else { Vec::new() };
    let of_tables = if tables > 0 { of_tables() } else { Vec::new() };
    let of_lines = of_lines.into_iter().filter(|_| lines >= 20_000);
    of_lines.chain(of_tables.into_iter().filter(|_| tables >= 20_000)).collect()
}

/// Both forms, in a run of their own: the quotas of lines and tables have to be met in document 01's form alone. Answers what is below its quota.
fn compare_forms(seed: u64, [lines, tables]: [u64; 2], command: &[String]) -> Result<Vec<String>, String> {
    let altitudes = run::run(command, move || cases_of_forms(seed, lines, tables))?.altitudes;
    Ok(below([lines, tables], || altitudes.report_lines(), || altitudes.report_index()))
}

/// The breaches, in a run of their own: no other quota needs these lines. Answers what is below its quota.
fn compare_manners(seed: u64, lines: u64, command: &[String]) -> Result<Vec<String>, String> {
    let below = run::run(command, move || cases_of_manners(seed, lines))?.manners.report();
    Ok(below.into_iter().filter(|_| lines >= 20_000).collect())
}

/// The links, in a run of their own: no other quota needs these lines and tables. Answers what is below its quota.
fn compare_links(seed: u64, [lines, tables]: [u64; 2], command: &[String]) -> Result<Vec<String>, String> {
    let links = run::run(command, move || cases_of_links(seed, lines, tables))?.links;
    Ok(below([lines, tables], || links.report_lines(), || links.report_index()))
}

fn chosen(command: &[String]) -> Result<(), String> {
    every_count::check_exact();
    let totals = run::run(command, every_count::cases)?;
    println!("every count: {} reports in {} lines, no difference", totals.runs, totals.lines);
    let totals = run::run(command, || chosen::cases().chain(segment_chosen::cases()))?;
    let (reads, writes) = (totals.runs + totals.fields, totals.writes + totals.field_writes);
    println!("chosen cases: {} runs and fields read, {} written, no difference", reads, writes);
    chosen_altitudes(command)?;
    chosen_frames(command)?;
    chosen_index(command, true)?;
    chosen_manners(command, true)?;
    chosen_links(command)
}

fn chosen_altitudes(command: &[String]) -> Result<(), String> {
    let (reads, writes, enters) = run::run(command, altitude_chosen::cases)?.altitudes.all();
    println!("chosen cases of altitudes: {} places looked at, {} writings, {} calls that enter, no difference", reads, writes, enters);
    Ok(())
}

fn chosen_frames(command: &[String]) -> Result<(), String> {
    let totals = run::run(command, frame_chosen::cases)?;
    let (reads, writes) = totals.frames.both();
    println!("chosen cases of frames: {} places looked at, {} writings, no difference", reads, writes);
    Ok(())
}

fn chosen_index(command: &[String], long: bool) -> Result<(), String> {
    let totals = run::run(command, move || index_chosen::cases(long))?;
    let (enters, finds) = totals.index.both();
    println!("chosen cases of the index: {} calls that enter, {} that find, no difference", enters, finds);
    Ok(())
}

fn chosen_manners(command: &[String], long: bool) -> Result<(), String> {
    let (lines, calls) = run::run(command, move || manners_chosen::cases(long))?.manners.both();
    println!("chosen cases of manners: {} lines, {} calls, no difference", lines, calls);
    Ok(())
}

fn chosen_links(command: &[String]) -> Result<(), String> {
    let (reads, enters) = run::run(command, link_chosen::cases)?.links.both();
    println!("chosen cases of links: {} places looked at, {} calls that enter, no difference", reads, enters);
    Ok(())
}

fn start(arguments: &[String]) -> Result<(), String> {
    worked::check(&Tables::new());
    let usage = "usage: independent SEED LINES FIELDS FRAMES TABLES COMMAND.. | chosen[-frames | -index | -manners | -links] COMMAND..";
    match arguments.first().map(|first| first.as_str()) {
        Some("chosen") if arguments.len() >= 2 => return chosen(&arguments[1..]),
        Some("chosen-frames") if arguments.len() >= 2 => return chosen_frames(&arguments[1..]),
        Some("chosen-index") if arguments.len() >= 2 => return chosen_index(&arguments[1..], false),
        Some("chosen-manners") if arguments.len() >= 2 => return chosen_manners(&arguments[1..], false),
        Some("chosen-links") if arguments.len() >= 2 => return chosen_links(&arguments[1..]),
        _ if arguments.len() < 6 => return Err(usage.to_string()),
        _ => (),
    }
    let number = |index: usize| arguments[index].parse::<u64>().map_err(|_| usage.to_string());
    compare(number(0)?, [number(1)?, number(2)?, number(3)?, number(4)?], &arguments[5..])
}

fn main() {
    let arguments: Vec<String> = std::env::args().skip(1).collect();
    if let Err(why) = start(&arguments) {
        println!("{}", why);
        exit(1);
    }
}
