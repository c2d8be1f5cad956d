//! Books of sets that are ready but not committed and of their owners (02, Item 2), all areas posted after each step.
//!
//! Figures are few and mostly round, so that excesses are often as large as the nets, and nets often 0.

use crate::calendar::{peak_slots, FIRST_YEAR, LAST_YEAR};
use crate::fixed::{hour, whole_year};
use crate::random::Random;
use crate::reckoning::Ledger;
use crate::records::{frame, past_listed, wrong_lengths, Format, Record, Record::*};

pub const BOOKS: usize = 500;

const STEPS: usize = 24;
const MOST_SETS: usize = 12;

pub fn books(index: usize) -> Vec<u8> {
    frames(index).concat()
}

/// The records of a book, whole and framed, even those that are refused.
fn frames(index: usize) -> Vec<Vec<u8>> {
    let mut book = Book::new(Random::for_stream("ready sets and their owners", index));
    book.begin();
    for _ in 0..STEPS {
        book.step();
        book.post_all();
    }
    book.frames
}

struct Set {
    unit: u8,
    area: u8,
    icap: u32,
    f: u32,
    g: u32,
    /// Of its commitments, which may be withdrawn.
    numbers: Vec<u8>,
    /// How many peak hours it has had.
    peaks: usize,
}

struct Book {
    random: Random,
    y: u16,
    areas: Vec<u8>,
    parties: Vec<u8>,
    /// Has the only obligation of each area, and no set.
    load: u8,
    /// Not entered yet.
    units: Vec<u8>,
    numbers: Vec<u8>,
    sets: Vec<Set>,
    frames: Vec<Vec<u8>>,
}

impl Book {
    fn new(mut random: Random) -> Book {
        let y = random.between(u32::from(FIRST_YEAR), u32::from(LAST_YEAR)) as u16;
        let (areas, mut parties) = (random.pick(&[1, 2, 2]), some(&mut random, 16, 4));
        Book {
            y,
            areas: some(&mut random, 8, areas),
            load: parties.pop().expect("four"),
            parties,
            units: some(&mut random, 32, 32),
            numbers: some(&mut random, 64, 64),
            sets: Vec::new(),
            frames: Vec::new(),
            random,
        }
    }

    fn put(&mut self, record: Record) {
        let mut bytes = Vec::new();
        record.write(&mut bytes);
        self.frames.push(bytes);
    }

    fn post_all(&mut self) {
        for area in self.areas.clone() {
            self.put(Post { area });
        }
    }

    /// In the first area a charge that is lowered, at a price at which it shows; then some more sets.
    fn begin(&mut self) {
        self.put(Year { y: self.y });
        for area in self.areas.clone() {
            let price = self.random.pick(&[50_000, 50_000, 9_000, 274]);
            self.put(Area { area, price });
            self.put(Load { area, party: self.load, obligation: 1 });
        }
        let (area, party) = (self.areas[0], self.party());
        let (short, ready) = (self.enter(area, true), self.enter(area, false));
        self.commit_in_full(short, party);
        self.post_all();
        self.own(ready, party);
        self.post_all();
        for _ in 0..self.random.between(2, 5) {
            self.add_set();
            self.post_all();
        }
    }

    fn step(&mut self) {
        let at = self.random.below(self.sets.len());
        match self.random.weighted(&[10, 4, 3, 2, 2, 4, 1, 2, 1, 3]) {
            0 => self.own_any(at),
            1 => self.withdraw(at),
            2 => self.commit(at),
            3 => self.move_commitment(at),
            4 => self.run(at),
            5 => self.add_set(),
            6 => self.balance(at),
            7 => self.own_too_early(),
            8 => self.change(),
            _ => self.refused_owner(at),
        }
    }

    /// More often one that has no commitment.
    fn own_any(&mut self, at: usize) {
        let never_committed = self.sets.iter().position(|set| set.numbers.is_empty());
        let at = if self.random.percent(50) { never_committed.unwrap_or(at) } else { at };
        let party = self.party();
        self.own(at, party);
    }

    fn party(&mut self) -> u8 {
        self.random.pick(&self.parties)
    }

    fn own(&mut self, at: usize, party: u8) {
        self.put(Owner { unit: self.sets[at].unit, party });
    }

    /// Falls short or has an excess, both by a few sizes while it has no hours. Answers its place.
    fn enter(&mut self, area: u8, short: bool) -> usize {
        let icap = self.random.pick(&[100_000, 100_000, 1_000_000, 123_457]);
        let size: u32 = self.random.pick(&[1_000, 2_000, 3_000, 5_000, 60_000]);
        let rate = (u64::from(size) * 100_000 / u64::from(icap)) as u32;
        let (f, g) = if short { (0, rate) } else { (rate, 0) };
        self.enter_unit(area, icap, f, g)
    }

    fn enter_unit(&mut self, area: u8, icap: u32, f: u32, g: u32) -> usize {
        let unit = self.units.pop().expect("fewer sets than units");
        let (e, class) = (self.random.pick(&[0, 0, 7_000, 60_000]), self.random.pick(&[0, 1, 2]));
        self.put(Unit { unit, area, icap, e, f, g, class });
        self.sets.push(Set { unit, area, icap, f, g, numbers: Vec::new(), peaks: 0 });
        self.sets.len() - 1
    }

    fn add_set(&mut self) {
        if self.sets.len() >= MOST_SETS {
            return;
        }
        let (area, short) = (self.random.pick(&self.areas), self.random.percent(60));
        let at = self.enter(area, short);
        if self.random.percent(if short { 85 } else { 20 }) {
            self.commit(at);
        }
        if self.random.percent(if short { 20 } else { 80 }) {
            let party = self.party();
            self.own(at, party);
        }
    }

    /// One of its own numbers again, or another one.
    fn commit(&mut self, at: usize) {
        let number = self.number_for(at);
        let (unit, icap, party) = (self.sets[at].unit, self.sets[at].icap, self.party());
        let record = match self.random.below(8) {
            // V is above 0, and T is 0 by its floor.
            0..=1 => Commitment { number, unit, party, first: 7, last: 7, watts: 1 },
            2..=3 => whole_year(self.y, number, unit, party, icap / 2),
            _ => whole_year(self.y, number, unit, party, icap),
        };
        self.put(record);
    }

    fn commit_in_full(&mut self, at: usize, party: u8) {
        let number = self.number_for(at);
        self.put(whole_year(self.y, number, self.sets[at].unit, party, self.sets[at].icap));
    }

    fn number_for(&mut self, at: usize) -> u8 {
        let own = self.sets[at].numbers.clone();
        if own.len() >= 3 || (!own.is_empty() && self.random.percent(70)) {
            return self.random.pick(&own);
        }
        let number = self.numbers.pop().expect("at most three for a set");
        self.sets[at].numbers.push(number);
        number
    }

    /// All its commitments.
    fn withdraw(&mut self, at: usize) {
        let unit = self.sets[at].unit;
        for number in self.sets[at].numbers.clone() {
            let party = self.party();
            self.put(whole_year(self.y, number, unit, party, 0));
        }
    }

    /// Its last number becomes one of another set.
    fn move_commitment(&mut self, at: usize) {
        let to = self.random.below(self.sets.len());
        if to == at || self.sets[to].numbers.len() >= 3 {
            return;
        }
        let Some(number) = self.sets[at].numbers.pop() else { return };
        let (unit, icap, party) = (self.sets[to].unit, self.sets[to].icap, self.party());
        self.put(whole_year(self.y, number, unit, party, icap));
        self.sets[to].numbers.push(number);
    }

    /// Its next peak hours, a few or more than fifty.
    fn run(&mut self, at: usize) {
        let count = if self.random.percent(8) { 51 } else { self.random.between(1, 3) as usize };
        let first = self.sets[at].peaks;
        self.sets[at].peaks += count;
        for &slot in peak_slots(self.y).iter().skip(first).take(count) {
            let kind = self.random.weighted(&[6, 2, 1, 6, 1, 1]) as u8;
            let derating = if kind == 1 { self.random.between(1, self.sets[at].icap - 1) } else { 0 };
            self.put(hour(self.y, self.sets[at].unit, slot, kind, derating));
        }
    }

    /// Its twin of the opposite S, and both committed in full by one party, whose net is then often 0.
    fn balance(&mut self, at: usize) {
        if self.sets.len() >= MOST_SETS {
            return;
        }
        let Set { area, icap, f, g, .. } = self.sets[at];
        let (twin, party) = (self.enter_unit(area, icap, g, f), self.party());
        self.commit_in_full(at, party);
        self.commit_in_full(twin, party);
    }

    /// Refused, then its unit is entered, and then it is accepted.
    fn own_too_early(&mut self) {
        if self.sets.len() >= MOST_SETS {
            return;
        }
        let (unit, party) = (self.units[self.units.len() - 1], self.party());
        self.put(Owner { unit, party });
        let (area, short) = (self.random.pick(&self.areas), self.random.percent(20));
        let at = self.enter(area, short);
        self.post_all();
        self.own(at, party);
    }

    /// A price; or a while without obligations.
    fn change(&mut self) {
        let (area, party) = (self.random.pick(&self.areas), self.load);
        if self.random.percent(50) {
            let price = self.random.pick(&[1, 274, 9_000, 50_000]);
            return self.put(Area { area, price });
        }
        self.put(Load { area, party, obligation: 0 });
        for _ in 0..3 {
            let at = self.random.below(self.sets.len());
            self.own_any(at);
            self.post_all();
        }
        self.put(Load { area, party, obligation: 1 });
    }

    fn refused_owner(&mut self, at: usize) {
        let (unit, party) = (self.sets[at].unit, self.party());
        let (missing, no_unit) = (self.random.pick(&self.units), self.random.pick(&[0, 33, 255]));
        let no_party = self.random.pick(&[0, 0, 17, 17, 255]);
        match self.random.below(7) {
            0..=1 => self.put(Owner { unit: no_unit, party }),
            2..=3 => self.put(Owner { unit, party: no_party }),
            4 => self.put(Owner { unit: missing, party: no_party }),
            5 => self.put(Owner { unit: missing, party }),
            _ => self.odd_length(unit, party),
        }
    }

    fn odd_length(&mut self, unit: u8, party: u8) {
        let tag = Format::named("Owner").tag;
        let length = self.random.pick(&wrong_lengths(tag));
        let mut value = vec![unit, party];
        value.resize(length, party);
        let mut bytes = Vec::new();
        frame(&mut bytes, tag, length as u16, &value);
        self.frames.push(bytes);
    }
}

/// `count` different numbers from 1 to `highest`.
fn some(random: &mut Random, highest: u8, count: usize) -> Vec<u8> {
    let mut all: Vec<u8> = (1..=highest).collect();
    (0..count).map(|_| all.swap_remove(random.below(all.len()))).collect()
}

/// What is in the books, in words, and whether in each of them lines hang on the Owners, by the second program.
pub fn tell() -> (String, Result<(), String>) {
    let (mut owners, mut posts, mut telling) = (0, 0, 0);
    let mut silent = Vec::new();
    for index in 0..BOOKS {
        let frames = frames(index);
        let (with, without) = (printed(&frames), printed(&without_owners(&frames)));
        let differing = |at: &usize| is(&frames[*at], "Post") && with[*at] != without[*at];
        let told = (0..frames.len()).filter(differing).count();
        owners += (0..frames.len()).filter(|&at| is(&frames[at], "Owner") && with[at].is_empty()).count();
        posts += frames.iter().filter(|frame| is(frame, "Post")).count();
        telling += told;
        if told == 0 {
            silent.push(index);
        }
    }
    let result = if silent.is_empty() { Ok(()) } else { Err(format!("no line hangs on an Owner in {silent:?}")) };
    (format!("owners: {BOOKS} books, {owners} Owners accepted, {posts} posts, {telling} with lines by Owners"), result)
}

fn is(frame: &[u8], name: &str) -> bool {
    frame[0] == Format::named(name).tag
}

/// In the place of each Owner a record that is refused.
fn without_owners(frames: &[Vec<u8>]) -> Vec<Vec<u8>> {
    let refused = vec![past_listed(), 0, 0];
    frames.iter().map(|frame| if is(frame, "Owner") { refused.clone() } else { frame.clone() }).collect()
}

/// What each record prints.
fn printed(frames: &[Vec<u8>]) -> Vec<Vec<u8>> {
    let mut ledger = Ledger::new();
    let print = |frame: &Vec<u8>| {
        let mut out = Vec::new();
        ledger.feed(frame, &mut out);
        out
    };
    frames.iter().map(print).collect()
}
