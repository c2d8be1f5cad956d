//! Random books: most of their records are accepted, and mistakes are sprinkled in.
//!
//! The sketch knows what it has entered only so far as to make good records likely; it settles nothing.

use crate::calendar::{date, days, peak_slots, slot_day, slot_ending, slots, Slot, FIRST_YEAR, LAST_YEAR};
use crate::fixed::day;
use crate::random::Random;
use crate::records::{Record, ALL_MARKS};

/// How large a random book is and how it goes wrong.
pub struct Shape {
    pub areas: usize,
    pub parties: usize,
    pub sets: usize,
    pub commitments: usize,
    pub rounds: usize,
    /// Chance in a hundred that a set has hours in a round.
    pub runs: usize,
    /// Chance in a hundred that a mistake follows a record.
    pub mistakes: usize,
    /// Hours follow each other without a gap, peak or not.
    pub every_hour: bool,
    /// Chance in a hundred that a Day stands where an hour would.
    pub days: usize,
}

impl Shape {
    pub const USUAL: Shape = Shape {
        areas: 2,
        parties: 4,
        sets: 4,
        commitments: 7,
        rounds: 3,
        runs: 70,
        mistakes: 3,
        every_hour: false,
        days: 2,
    };
}

pub struct Set {
    pub unit: u8,
    pub icap: u32,
    e: u32,
    /// The first hour that is later than the last one accepted.
    pub next: Slot,
    service: u32,
    kinds: [usize; 6],
}

pub struct Sketch {
    pub out: Vec<u8>,
    pub random: Random,
    pub y: u16,
    pub areas: Vec<u8>,
    parties: Vec<u8>,
    pub sets: Vec<Set>,
    numbers: Vec<u8>,
    mistakes: usize,
}

/// Weights of the kinds 0 to 5: from steady sets to failing, derated, idle and dead ones, and any kind alike.
const MANNERS: [[usize; 6]; 8] = [
    [40, 2, 1, 1, 1, 2],
    [40, 1, 0, 2, 0, 1],
    [20, 2, 1, 6, 1, 1],
    [10, 1, 1, 10, 1, 1],
    [5, 10, 1, 1, 1, 1],
    [2, 0, 0, 2, 6, 20],
    [0, 0, 0, 6, 1, 1],
    [1, 1, 1, 1, 1, 1],
];

pub fn random_book(random: Random, shape: &Shape) -> Vec<u8> {
    let mut sketch = Sketch::new(random, shape);
    sketch.set_up(shape);
    for _ in 0..shape.rounds {
        sketch.round(shape);
    }
    if sketch.random.percent(if shape.mistakes == 0 { 0 } else { 25 }) {
        sketch.broken_end();
    }
    sketch.out
}

impl Sketch {
    fn new(mut random: Random, shape: &Shape) -> Sketch {
        let y = match random.below(3) {
            0 => random.pick(&[FIRST_YEAR, 2008, 2010, 2011, 2098, LAST_YEAR]),
            _ => random.between(u32::from(FIRST_YEAR), u32::from(LAST_YEAR)) as u16,
        };
        let areas = some_of(&mut random, 8, shape.areas);
        let parties = some_of(&mut random, 16, shape.parties);
        let numbers = some_of(&mut random, 64, shape.commitments);
        Sketch { out: Vec::new(), random, y, areas, parties, sets: Vec::new(), numbers, mistakes: shape.mistakes }
    }

    fn put(&mut self, record: Record) {
        record.write(&mut self.out);
        if self.random.percent(self.mistakes) {
            self.mistake();
        }
    }

    // What a good record of each kind holds.

    fn area(&mut self, area: u8) -> Record {
        let price = match self.random.below(10) {
            0 => self.random.pick(&[0, 1, 49_999]),
            1..=3 => 50_000,
            4 => self.random.between(1, 200),
            _ => self.random.between(1, 50_000),
        };
        Record::Area { area, price }
    }

    /// Usually not above `usual`, but any rate is possible.
    fn rate(&mut self, usual: u32) -> u32 {
        match self.random.below(16) {
            0..=2 => 0,
            3 => self.random.pick(&[1, 50_000, 99_998, 99_999]),
            4..=7 => 1_000 * self.random.between(0, usual / 1_000),
            8..=14 => self.random.between(0, usual),
            _ => self.random.between(0, 99_999),
        }
    }

    pub fn unit(&mut self, unit: u8) -> Record {
        let icap = match self.random.below(12) {
            0 => self.random.pick(&[1, 2, 3, 7, 99, 4_999_999]),
            1 => 5_000_000,
            2..=4 => self.random.pick(&[100_000, 1_000_000, 2_500_000, 4_500_000]),
            5 => self.random.between(1, 1_000),
            _ => self.random.between(1, 5_000_000),
        };
        let area = self.random.pick(&self.areas);
        let class = self.random.pick(&[0, 0, 1, 2]);
        let (e, f, g) = (self.rate(30_000), self.rate(15_000), self.rate(30_000));
        Record::Unit { unit, area, icap, e, f, g, class }
    }

    /// For whole years and parts of them, and of about what the set at that place can give.
    fn commitment(&mut self, number: u8, at: usize) -> Record {
        let days = days(self.y);
        let (first, last) = match self.random.below(8) {
            0 => (0, 0),
            1 => (days - 1, days - 1),
            2..=3 => {
                let pair = [0; 2].map(|_| self.random.between(0, u32::from(days) - 1) as u16);
                (pair[0].min(pair[1]), pair[0].max(pair[1]))
            }
            _ => (0, days - 1),
        };
        let Set { unit, icap, e, .. } = self.sets[at];
        let unforced = (u64::from(icap) * u64::from(100_000 - e) / 100_000) as u32;
        let watts = match self.random.below(12) {
            0 => 0,
            1 => self.random.pick(&[1, 4_999_999, 5_000_000]),
            2..=4 => (unforced + self.random.between(0, 2)).saturating_sub(1).min(5_000_000),
            5..=7 => icap,
            8 => self.random.between(0, 5_000_000),
            _ => self.random.between(0, icap),
        };
        Record::Commitment { number, unit, party: self.random.pick(&self.parties), first, last, watts }
    }

    fn owner(&mut self) -> Record {
        let unit = match self.sets.len() {
            0 => self.random.between(1, 32) as u8,
            count => self.sets[self.random.below(count)].unit,
        };
        Record::Owner { unit, party: self.random.pick(&self.parties) }
    }

    /// There is at least one set.
    fn any_commitment(&mut self) -> Record {
        let (number, at) = (self.random.pick(&self.numbers), self.random.below(self.sets.len()));
        self.commitment(number, at)
    }

    fn load(&mut self, area: u8) -> Record {
        let obligation = match self.random.below(8) {
            0 => self.random.pick(&[1, 2, 99_999_999]),
            1 => 100_000_000,
            2 => 0,
            _ => self.random.between(1, 100_000_000),
        };
        Record::Load { area, party: self.random.between(1, 16) as u8, obligation }
    }

    pub fn hour_at(&mut self, at: usize, slot: Slot) -> Record {
        let set = &self.sets[at];
        let kind = match self.random.weighted(&set.kinds) as u8 {
            1 if set.icap == 1 => 0,
            kind => kind,
        };
        let derating = match (kind, self.random.below(6)) {
            (1, 0) => set.icap - 1,
            (1, 1) => 1,
            (1, _) => self.random.between(1, set.icap - 1),
            _ => 0,
        };
        let ((month, day), ending) = (date(self.y, slot_day(slot)), slot_ending(slot));
        Record::Hour { unit: set.unit, month, day, ending, kind, derating }
    }

    /// Marks by the manner of the set, all in service or out now and then.
    pub fn day_at(&mut self, at: usize, of_year: u16) -> Record {
        let weights = [self.sets[at].kinds[1..].iter().sum::<usize>() + 1, self.sets[at].kinds[0] + 1];
        let marks = match self.random.below(8) {
            0 => 0,
            1 => ALL_MARKS,
            2 => self.random.between(0, ALL_MARKS),
            _ => (0..24).fold(0, |marks, hour| marks | (self.random.weighted(&weights) as u32) << hour),
        };
        day(self.y, self.sets[at].unit, of_year, marks)
    }

    /// Any good record that the book as it is would probably accept; a Unit or Year in it is a second one.
    pub fn any(&mut self) -> Record {
        let area = self.random.pick(&self.areas);
        let at = self.random.below(self.sets.len().max(1));
        match self.random.below(19) {
            0 => Record::Year { y: self.y },
            1..=2 => self.area(area),
            3..=5 => self.unit(1),
            6 => self.load(area),
            7 => Record::Post { area },
            8 => self.owner(),
            9..=11 if !self.sets.is_empty() => self.any_commitment(),
            12..=16 if !self.sets.is_empty() => {
                let slot = self.sets[at].next.min(slots(self.y) - 1);
                self.hour_at(at, slot)
            }
            17..=18 if !self.sets.is_empty() => {
                let next = self.sets[at].next.div_ceil(24);
                self.day_at(at, next.min(days(self.y) - 1))
            }
            _ => self.load(area),
        }
    }

    // The course of a book.

    fn set_up(&mut self, shape: &Shape) {
        if self.random.percent(shape.mistakes) {
            self.before_the_year();
        }
        self.put(Record::Year { y: self.y });
        for area in self.areas.clone() {
            let record = self.area(area);
            self.put(record);
        }
        for unit in some_of(&mut self.random, 32, shape.sets) {
            self.enter_unit(unit);
        }
        // The last sets are not committed in some books.
        let idle = if self.random.percent(40) { self.sets.len() / 3 } else { 0 };
        let committed = self.sets.len() - idle;
        for (count, number) in self.numbers.clone().into_iter().enumerate() {
            let record = self.commitment(number, count % committed);
            self.put(record);
        }
        for _ in 0..self.random.below(self.sets.len() + 1) {
            let record = self.owner();
            self.put(record);
        }
        let bare = self.random.percent(20);
        for area in self.areas.clone() {
            if !bare || self.random.percent(30) {
                self.put_loads(area);
            }
        }
    }

    fn enter_unit(&mut self, unit: u8) {
        let record = self.unit(unit);
        self.put(record);
        if let Record::Unit { icap, e, .. } = record {
            let kinds = self.random.pick(&MANNERS);
            let peaks = peak_slots(self.y);
            let next = match self.random.below(3) {
                0 => peaks[self.random.below(peaks.len())],
                _ => peaks[0],
            };
            self.sets.push(Set { unit, icap, e, next, service: 0, kinds });
        }
    }

    fn put_loads(&mut self, area: u8) {
        for _ in 0..self.random.between(1, 4) {
            let record = self.load(area);
            self.put(record);
        }
    }

    fn round(&mut self, shape: &Shape) {
        for at in 0..self.sets.len() {
            if self.random.percent(shape.runs) {
                let length = self.run_length(shape);
                self.run(at, length, shape);
            }
        }
        for _ in 0..self.random.below(3) {
            self.change();
        }
        for area in self.areas.clone() {
            if self.random.percent(80) {
                self.put(Record::Post { area });
            }
            if self.random.percent(10) {
                self.without_obligations(area);
            }
        }
    }

    /// How many hours a set has in a round; none where it runs up to about fifty service hours.
    fn run_length(&mut self, shape: &Shape) -> Option<u32> {
        match self.random.below(8) {
            0..=4 if shape.every_hour => Some(self.random.between(100, 700)),
            _ if shape.every_hour => Some(24),
            0..=1 => Some(self.random.between(1, 10)),
            2..=5 => None,
            6 => Some(self.random.between(1, 60)),
            _ => Some(1),
        }
    }

    fn run(&mut self, at: usize, length: Option<u32>, shape: &Shape) {
        let aim = self.random.between(48, 52);
        for count in 0..length.unwrap_or(100) {
            let enough = length.is_none() && count > 0 && self.sets[at].service >= aim;
            let Some(slot) = self.next_slot(at, shape.every_hour).filter(|_| !enough) else { return };
            let of_year = slot.max(self.sets[at].next.next_multiple_of(24)) / 24;
            let is_day = of_year < days(self.y) && self.random.percent(shape.days);
            let record = if is_day { self.day_at(at, of_year) } else { self.hour_at(at, slot) };
            self.sets[at].next = if is_day { of_year * 24 + 24 } else { slot + 1 };
            self.sets[at].service += self.in_service(&record, of_year);
            self.put(record);
        }
    }

    /// How many hours of a record are in service: of an Hour any, of a Day the peak hours.
    fn in_service(&self, record: &Record, of_year: u16) -> u32 {
        match *record {
            Record::Hour { kind: 0..=2, .. } => 1,
            Record::Day { marks, .. } => {
                let peaks = peak_slots(self.y).iter().filter(|&&slot| slot_day(slot) == of_year);
                peaks.map(|&slot| marks >> (slot % 24) & 1).sum()
            }
            _ => 0,
        }
    }

    fn next_slot(&mut self, at: usize, every_hour: bool) -> Option<Slot> {
        let (next, peaks) = (self.sets[at].next, peak_slots(self.y));
        if every_hour || self.random.percent(3) {
            return (next < slots(self.y)).then_some(next);
        }
        peaks.get(peaks.partition_point(|&slot| slot < next)).copied()
    }

    fn change(&mut self) {
        let area = self.random.pick(&self.areas);
        let record = match self.random.below(6) {
            0..=2 if !self.sets.is_empty() => self.any_commitment(),
            3 if !self.sets.is_empty() => self.owner(),
            4 => self.area(area),
            _ => self.load(area),
        };
        self.put(record);
    }

    /// All obligations taken away, a post, and some given back.
    fn without_obligations(&mut self, area: u8) {
        for party in 1..=16 {
            self.put(Record::Load { area, party, obligation: 0 });
        }
        self.put(Record::Post { area });
        if self.random.percent(60) {
            self.put_loads(area);
            self.put(Record::Post { area });
        }
    }
}

/// `count` different numbers from 1 to `highest`, the two ends often among them.
fn some_of(random: &mut Random, highest: u8, count: usize) -> Vec<u8> {
    let mut all: Vec<u8> = (1..=highest).collect();
    let mut chosen = Vec::new();
    if random.percent(20) {
        chosen.push(all.remove(0));
    }
    if random.percent(20) {
        chosen.extend(all.pop());
    }
    while chosen.len() < count && !all.is_empty() {
        chosen.push(all.swap_remove(random.below(all.len())));
    }
    chosen.truncate(count.max(1));
    chosen
}
