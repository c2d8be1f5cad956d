//! Holds the ledger against what is expected of it.

use crate::days::as_hours;
use crate::process::{run, Delivery, Outcome};
use crate::reckoning::Ledger;
use std::path::Path;

/// How often each refusal and each branch of the second program occurred, in its order.
#[derive(Default)]
pub struct Counts(pub Vec<(&'static str, u64)>);

impl Counts {
    pub fn add(&mut self, more: &[(&'static str, u64)]) {
        for &(name, count) in more {
            match self.0.iter_mut().find(|(known, _)| *known == name) {
                Some((_, sum)) => *sum += count,
                None => self.0.push((name, count)),
            }
        }
    }
}

/// What the second program prints for a stream fed in pieces of the given size.
pub fn reckoned_in_pieces(stream: &[u8], size: usize) -> (Vec<u8>, Vec<(&'static str, u64)>) {
    let mut ledger = Ledger::new();
    let mut out = Vec::new();
    for piece in stream.chunks(size) {
        if !ledger.feed(piece, &mut out) {
            break;
        }
    }
    ledger.finish(&mut out);
    (out, ledger.counts())
}

pub fn reckoned(stream: &[u8]) -> (Vec<u8>, Vec<(&'static str, u64)>) {
    reckoned_in_pieces(stream, stream.len().max(1))
}

pub enum Verdict {
    Agrees,
    /// The stream has Days.
    AgreesAsHoursToo,
    Differs(String),
    /// The program did not end in time; more of the kind would take as long.
    Hangs,
}

/// On the stream, and where that agrees on the one with its Days as Hours, which the second program is held against too.
pub fn judge(ledger: &Path, stream: &[u8], delivery: Delivery, expected: &[u8]) -> Verdict {
    let (verdict, as_hours) = (judge_once(ledger, stream, delivery, expected), as_hours(stream, expected));
    let (Verdict::Agrees, Some((stream, expected))) = (&verdict, as_hours) else { return verdict };
    let verdict = match first_difference(&reckoned(&stream).0, &expected) {
        None => judge_once(ledger, &stream, delivery, &expected),
        Some(difference) => Verdict::Differs(format!("the second program, {difference}")),
    };
    match verdict {
        Verdict::Agrees => Verdict::AgreesAsHoursToo,
        Verdict::Differs(difference) => Verdict::Differs(format!("with its Days as Hours, {difference}")),
        verdict => verdict,
    }
}

fn judge_once(ledger: &Path, stream: &[u8], delivery: Delivery, expected: &[u8]) -> Verdict {
    match run(ledger, stream, delivery) {
        Ok(outcome) if outcome.hung => Verdict::Hangs,
        Ok(outcome) => match difference(&outcome, expected) {
            None => Verdict::Agrees,
            Some(difference) => Verdict::Differs(difference),
        },
        Err(error) => Verdict::Differs(format!("the program was not run: {error}")),
    }
}

fn difference(outcome: &Outcome, expected: &[u8]) -> Option<String> {
    if let Some(difference) = first_difference(&outcome.out, expected) {
        return Some(difference);
    }
    if !outcome.err.is_empty() {
        return Some(format!("standard error has {:?}", String::from_utf8_lossy(&outcome.err)));
    }
    match outcome.status {
        Some(0) => None,
        Some(status) => Some(format!("exit status {status}")),
        None => Some("ended by a signal".to_string()),
    }
}

/// The first line in which two outputs differ, in words.
pub fn first_difference(found: &[u8], expected: &[u8]) -> Option<String> {
    if found == expected {
        return None;
    }
    let (found, expected) = (lines(found), lines(expected));
    let at = (0..).find(|&at| found.get(at) != expected.get(at)).unwrap_or(0);
    let show = |line: Option<&&[u8]>| line.map_or("nothing".to_string(), |line| format!("{:?}", text(line)));
    Some(format!("line {}: found {}, expected {}", at + 1, show(found.get(at)), show(expected.get(at))))
}

/// Lines with their ends, so that a missing last line end differs too.
fn lines(output: &[u8]) -> Vec<&[u8]> {
    output.split_inclusive(|&byte| byte == b'\n').collect()
}

fn text(bytes: &[u8]) -> String {
    String::from_utf8_lossy(bytes).into_owned()
}
