//! A whole delivery year of 32 units in 8 areas, every record of it accepted.

use crate::calendar::{date, days, slot_day, slot_ending, slots};
use crate::fixed::{day, hour};
use crate::random::Random;
use crate::records::{stream, Record, Record::*};

const AREAS: u8 = 8;
const UNITS: u8 = 32;

/// How a set's hours are sent; a Day's marks are set where the set is in service, not derated.
#[derive(Clone, Copy)]
pub enum Sent {
    AsHours,
    AsDays,
}

/// The set-up, then each hour of all units, and posts of all areas at the end of each month.
pub fn whole(y: u16, sent: Sent) -> Vec<u8> {
    let mut random = Random::for_stream("whole year", usize::from(y));
    let mut records = set_up(y, &mut random);
    let mut fleet: Vec<Running> = units(&records).map(|(unit, icap)| Running::new(unit, icap)).collect();
    for slot in 0..slots(y) {
        for set in &mut fleet {
            set.step(&mut random);
            match sent {
                Sent::AsHours => records.push(hour(y, set.unit, slot, set.kind, set.derating)),
                Sent::AsDays => records.extend(set.day_at_its_end(y, slot)),
            }
        }
        if ends_month(y, slot) {
            records.extend((1..=AREAS).map(|area| Post { area }));
        }
    }
    stream(&records)
}

fn set_up(y: u16, random: &mut Random) -> Vec<Record> {
    let mut records = vec![Year { y }];
    records.extend((1..=AREAS).map(|area| Area { area, price: random.between(3_000, 25_000) }));
    for unit in 1..=UNITS {
        let area = (unit - 1) % AREAS + 1;
        let [e, f, g] = [0; 3].map(|_| random.between(1_000, 15_000));
        let icap = random.between(200_000, 5_000_000);
        records.push(Unit { unit, area, icap, e, f, g, class: random.pick(&[0, 0, 1, 2]) });
    }
    for number in 1..=2 * UNITS {
        let unit = (number - 1) % UNITS + 1;
        let (first, last) = random.pick(&[(0, days(y) - 1), (0, 213), (214, days(y) - 1)]);
        let (party, watts) = (random.between(1, 12) as u8, random.between(100_000, 4_000_000));
        records.push(Commitment { number, unit, party, first, last, watts });
    }
    for area in 1..=AREAS {
        for party in [area, area + 4, area + 8] {
            records.push(Load { area, party, obligation: random.between(1_000_000, 100_000_000) });
        }
    }
    records
}

fn units(records: &[Record]) -> impl Iterator<Item = (u8, u32)> + '_ {
    records.iter().filter_map(|record| match *record {
        Unit { unit, icap, .. } => Some((unit, icap)),
        _ => None,
    })
}

fn ends_month(y: u16, slot: u16) -> bool {
    let month = |slot| date(y, slot_day(slot)).0;
    slot_ending(slot) == 24 && (slot + 1 == slots(y) || month(slot) != month(slot + 1))
}

/// A unit stays for some hours as it is.
struct Running {
    unit: u8,
    icap: u32,
    kind: u8,
    derating: u32,
    /// Of the hours of the date so far.
    marks: u32,
}

impl Running {
    fn new(unit: u8, icap: u32) -> Running {
        Running { unit, icap, kind: 0, derating: 0, marks: 0 }
    }

    fn day_at_its_end(&mut self, y: u16, slot: u16) -> Option<Record> {
        self.marks |= u32::from(self.kind == 0) << (slot_ending(slot) - 1);
        (slot_ending(slot) == 24).then(|| day(y, self.unit, slot_day(slot), std::mem::take(&mut self.marks)))
    }

    fn step(&mut self, random: &mut Random) {
        if random.below(12) > 0 {
            return;
        }
        self.kind = random.weighted(&[60, 5, 3, 3, 3, 26]) as u8;
        self.derating = if self.kind == 1 { random.between(1, self.icap / 2) } else { 0 };
    }
}
