//! All families of streams, and the run of one family on two threads.

use crate::compare::{judge, reckoned, Counts, Verdict};
use crate::process::Delivery;
use crate::random::Random;
use crate::report::keep;
use crate::sketch::{random_book, Shape};
use crate::{damaged, days, fixed, holidays, long, money, owners};
use std::path::Path;
use std::sync::atomic::{AtomicBool, AtomicUsize, Ordering};
use std::thread;

const THREADS: usize = 2;

type Maker = Box<dyn Fn(usize) -> Vec<u8> + Sync>;

/// Streams that are made by their index, so that a failure can be made again.
pub struct Family {
    pub name: &'static str,
    pub size: usize,
    delivery: Delivery,
    make: Maker,
}

impl Family {
    fn made(name: &'static str, size: usize, make: fn(usize) -> Vec<u8>) -> Family {
        Family { name, size, delivery: Delivery::Pipe, make: Box::new(make) }
    }

    pub fn listed(name: &'static str, streams: Vec<Vec<u8>>) -> Family {
        let size = streams.len();
        Family { name, size, delivery: Delivery::Pipe, make: Box::new(move |index| streams[index].clone()) }
    }

    pub fn delivered(self, delivery: Delivery) -> Family {
        Family { delivery, ..self }
    }
}

pub fn all() -> Vec<Family> {
    let straddles = long::straddles();
    let years = usize::from(crate::calendar::LAST_YEAR - crate::calendar::FIRST_YEAR) + 1;
    let straddling = Family {
        name: "records across the ends of read buffers",
        size: straddles.len(),
        delivery: Delivery::File,
        make: Box::new(move |index| {
            let (boundary, record, before) = straddles[index];
            long::straddle(boundary, record, before)
        }),
    };
    vec![
        Family::made("random books", 8_000, books),
        Family::made("books of many changes", 2_000, changing_books),
        Family::made("books without mistakes", 1_000, faultless_books),
        Family::made("service hours about fifty", 1_200, money::fifty),
        Family::made("shortfalls about their limit", 1_200, money::limits),
        Family::made("money short, even and left over", 2_400, money::balances),
        Family::made("figures as large as can be", 160, money::extremes),
        Family::made("ready sets and their owners", owners::BOOKS, owners::books),
        Family::made("Hours and Days", days::BOOKS, days::books),
        Family::listed("ends of ranges", fixed::ends()),
        Family::listed("rows of refusal", fixed::rows()),
        Family::made("dates of every year", years, fixed::dates),
        Family::made("every hour of every year", years, fixed::peaks).delivered(Delivery::File),
        Family::made("hours about the holidays of every year", years, holidays::about),
        Family::made("every date of every year, most as Days", years, days::every_date).delivered(Delivery::File),
        Family::listed("worked example, each bit flipped", damaged::bit_flips()),
        Family::listed("fuller book, each bit flipped", damaged::bit_flips_of_a_fuller_book()),
        Family::listed("worked example, each byte changed", damaged::other_bytes()),
        Family::listed("worked example, cut at each byte", damaged::cuts()),
        Family::listed("worked example, a byte put in", damaged::insertions()),
        Family::listed("worked example, records moved", damaged::moved_records()),
        Family::listed("worked example, all tags", damaged::tags()),
        Family::listed("worked example, lengths", damaged::lengths()),
        Family::made("spoiled books", 1_500, damaged::spoiled_books),
        Family::made("garbage", 900, damaged::garbage),
        Family::made("random frames", 600, damaged::frames),
        Family::made("long books", 180, long::long_books).delivered(Delivery::File),
        Family::made("long outputs", 12, long::long_outputs).delivered(Delivery::File),
        straddling,
    ]
}

fn books(index: usize) -> Vec<u8> {
    let mut random = Random::for_stream("random books", index);
    let shape = Shape {
        areas: random.pick(&[1, 1, 1, 2, 3]),
        parties: random.pick(&[1, 2, 3, 5, 8]),
        sets: random.pick(&[1, 2, 3, 4, 5]),
        commitments: random.pick(&[2, 4, 6, 8, 12]),
        rounds: random.pick(&[1, 2, 3, 4]),
        mistakes: random.pick(&[1, 3, 10]),
        days: random.pick(&[0, 0, 2, 8]),
        ..Shape::USUAL
    };
    random_book(random, &shape)
}

fn changing_books(index: usize) -> Vec<u8> {
    let mut random = Random::for_stream("books of many changes", index);
    let shape = Shape {
        areas: random.pick(&[1, 2, 4, 8]),
        parties: random.pick(&[3, 6, 16]),
        sets: random.pick(&[3, 8, 32]),
        commitments: random.pick(&[6, 12, 64]),
        rounds: 12,
        runs: 5,
        ..Shape::USUAL
    };
    random_book(random, &shape)
}

fn faultless_books(index: usize) -> Vec<u8> {
    random_book(Random::for_stream("books without mistakes", index), &Shape { mistakes: 0, ..Shape::USUAL })
}

#[derive(Default)]
struct Findings {
    counts: Counts,
    differing: usize,
    first: Option<(usize, String)>,
}

impl Findings {
    fn differs(&mut self, index: usize, difference: String) {
        self.differing += 1;
        if self.first.as_ref().map_or(true, |(lowest, _)| index < *lowest) {
            self.first = Some((index, difference));
        }
    }

    fn join(mut self, other: Findings) -> Findings {
        self.counts.add(&other.counts.0);
        let differing = self.differing + other.differing;
        if let Some((index, difference)) = other.first {
            self.differs(index, difference);
        }
        Findings { differing, ..self }
    }
}

impl Family {
    pub fn title(&self) -> String {
        format!("{:>5} {}", self.size, self.name)
    }

    /// Runs all streams; on failure says which stream differs first, and how.
    pub fn run(&self, ledger: &Path, counts: &mut Counts) -> Result<(), String> {
        let (next, hangs) = (AtomicUsize::new(0), AtomicBool::new(false));
        let findings = thread::scope(|scope| {
            let workers = [(); THREADS].map(|()| scope.spawn(|| self.work(ledger, &next, &hangs)));
            workers
                .into_iter()
                .fold(Findings::default(), |sum, worker| sum.join(worker.join().expect("a worker does not panic")))
        });
        counts.add(&findings.counts.0);
        match findings.first {
            None => Ok(()),
            Some((index, difference)) => {
                let kept = keep(&format!("{}-{index}", self.name), &(self.make)(index));
                let (count, size) = (findings.differing, self.size);
                Err(format!("{count} of {size} streams differ, first stream {index}, {difference}; {kept}"))
            }
        }
    }

    fn work(&self, ledger: &Path, next: &AtomicUsize, hangs: &AtomicBool) -> Findings {
        let mut findings = Findings::default();
        while !hangs.load(Ordering::Relaxed) {
            let index = next.fetch_add(1, Ordering::Relaxed);
            if index >= self.size {
                break;
            }
            let stream = (self.make)(index);
            let (expected, counts) = reckoned(&stream);
            findings.counts.add(&counts);
            match judge(ledger, &stream, self.delivery, &expected) {
                Verdict::Agrees => {}
                Verdict::AgreesAsHoursToo => findings.counts.add(&[("stream, agrees with its Days as Hours too", 1)]),
                Verdict::Differs(difference) => findings.differs(index, difference),
                Verdict::Hangs => {
                    hangs.store(true, Ordering::Relaxed);
                    findings.differs(index, "the program does not end; the rest was left out".to_string());
                }
            }
        }
        findings
    }
}
