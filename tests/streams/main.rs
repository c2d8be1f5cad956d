//! Holds the ledger program against the second program, stream by stream.
//!
//! `streams LEDGER` tests the program at that path; `streams --year-file PATH` writes a year's records, and
//! `streams --year-file-as-days PATH` the same year with Days in place of its Hours.

mod calendar;
mod compare;
mod damaged;
mod days;
mod examples;
mod fixed;
mod holidays;
mod long;
mod minimums;
mod mistakes;
mod money;
mod owners;
mod pieces;
mod process;
mod random;
mod ranges;
mod ready;
#[path = "../second/reckoning.rs"]
mod reckoning;
mod records;
mod report;
mod sketch;
mod streams;
mod year;

use compare::{first_difference, judge, reckoned, Counts, Verdict};
use process::Delivery;
use report::{keep, Report};
use std::path::Path;
use std::process::ExitCode;
use year::Sent;

fn main() -> ExitCode {
    let arguments: Vec<String> = std::env::args().skip(1).collect();
    match &arguments[..] {
        [flag, path] if flag == "--year-file" => write_year(Path::new(path), Sent::AsHours),
        [flag, path] if flag == "--year-file-as-days" => write_year(Path::new(path), Sent::AsDays),
        [ledger] if !ledger.starts_with("--") => test(Path::new(ledger)),
        _ => {
            eprintln!("usage: streams LEDGER | streams --year-file PATH | streams --year-file-as-days PATH");
            ExitCode::from(2)
        }
    }
}

fn write_year(path: &Path, sent: Sent) -> ExitCode {
    match std::fs::write(path, year::whole(2010, sent)) {
        Ok(()) => ExitCode::SUCCESS,
        Err(error) => {
            eprintln!("{}: {error}", path.display());
            ExitCode::FAILURE
        }
    }
}

fn test(ledger: &Path) -> ExitCode {
    let mut report = Report::default();
    // As a full path, so that no other program of that name is run.
    match std::fs::canonicalize(ledger) {
        Ok(ledger) => test_all(&ledger, &mut report),
        Err(error) => report.note(&format!("the program {}", ledger.display()), Err(error.to_string())),
    }
    if report.close() {
        ExitCode::SUCCESS
    } else {
        ExitCode::FAILURE
    }
}

fn test_all(ledger: &Path, report: &mut Report) {
    let mut counts = Counts::default();
    test_examples(ledger, report);
    for family in streams::all() {
        let result = family.run(ledger, &mut counts);
        report.note(&family.title(), result);
    }
    minimums::check(&counts, report);
    let (holidays, result) = holidays::tell();
    report.note(&holidays, result);
    let (owners, result) = owners::tell();
    report.note(&owners, result);
    test_pieces(ledger, report);
    // A common year and a leap one: 225 records of set-up and posts, and 32 records for each hour or each day.
    test_year(ledger, 2010, Sent::AsHours, "E 280545 280545\n", report);
    test_year(ledger, 2011, Sent::AsHours, "E 281313 281313\n", report);
    test_year(ledger, 2010, Sent::AsDays, "E 11905 11905\n", report);
    test_year(ledger, 2011, Sent::AsDays, "E 11937 11937\n", report);
}

/// Both programs must print the lines that the papers give.
fn test_examples(ledger: &Path, report: &mut Report) {
    let examples = examples::all().into_iter();
    let examples = examples.map(|example| (example.name, records::stream(&example.records), example.expected));
    for (name, stream, expected) in examples.chain([days::refused()]) {
        let expected = expected.as_bytes();
        let result = match first_difference(&reckoned(&stream).0, expected) {
            Some(difference) => Err(format!("the second program, {difference}")),
            None => agreement(ledger, name, &stream, Delivery::Pipe, expected),
        };
        report.note(name, result);
    }
    report.note("the bytes of a Day", days::bytes());
}

fn test_pieces(ledger: &Path, report: &mut Report) {
    report.note("the second program in pieces", pieces::second_program_in_pieces());
    let families = pieces::SIZES.map(pieces::in_packets).into_iter().chain([pieces::held_open()]);
    for family in families {
        let result = family.run(ledger, &mut Counts::default());
        report.note(&family.title(), result);
    }
}

fn test_year(ledger: &Path, y: u16, sent: Sent, last_line: &str, report: &mut Report) {
    let records = match sent {
        Sent::AsHours => "Hours",
        Sent::AsDays => "Days",
    };
    let name = format!("whole year {y} as {records}, 32 units in 8 areas");
    let stream = year::whole(y, sent);
    let expected = reckoned(&stream).0;
    let result = if expected.ends_with(last_line.as_bytes()) {
        agreement(ledger, &name, &stream, Delivery::File, &expected)
    } else {
        Err("not all of its records are accepted".to_string())
    };
    report.note(&name, result);
}

fn agreement(ledger: &Path, name: &str, stream: &[u8], delivery: Delivery, expected: &[u8]) -> Result<(), String> {
    let difference = match judge(ledger, stream, delivery, expected) {
        Verdict::Agrees | Verdict::AgreesAsHoursToo => return Ok(()),
        Verdict::Differs(difference) => difference,
        Verdict::Hangs => "the program does not end".to_string(),
    };
    Err(format!("{difference}; {}", keep(name, stream)))
}
