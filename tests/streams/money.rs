//! Random streams aimed at one part of the settlement: fifty service hours, limits, and money short,
//! even and left over.

use crate::calendar::{peak_slots, FIRST_YEAR, LAST_YEAR};
use crate::fixed::{hour, whole_year};
use crate::random::Random;
use crate::records::{stream, Record, Record::*};
use std::ops::RangeInclusive;

fn any_year(random: &mut Random) -> u16 {
    random.between(u32::from(FIRST_YEAR), u32::from(LAST_YEAR)) as u16
}

/// Services and outages up to about fifty hours of service, with a post at each hour near fifty.
pub fn fifty(index: usize) -> Vec<u8> {
    let mut random = Random::for_stream("fifty", index);
    let y = any_year(&mut random);
    let icap = random.pick(&[1_000_000, 5_000_000, 3_333_333, 77]);
    let [e, f, g] = [0; 3].map(|_| random.between(0, 30_000));
    let outages = random.pick(&[0, 1, 5, 20, 50]);
    let mut records = vec![
        Year { y },
        Area { area: 1, price: 50_000 },
        Unit { unit: 1, area: 1, icap, e, f, g, class: random.pick(&[0, 1, 2]) },
        whole_year(y, 1, 1, 1, random.between(icap / 2, icap)),
        Load { area: 1, party: 2, obligation: 1 },
    ];
    let mut service = 0;
    for &slot in &peak_slots(y)[random.below(250)..] {
        let kind = random.weighted(&[30, 20, 5, outages, 1, 1]) as u8;
        let derating = if kind == 1 { random.between(1, icap - 1) } else { 0 };
        records.push(hour(y, 1, slot, kind, derating));
        service += u32::from(kind <= 2);
        if service >= 48 {
            records.push(Post { area: 1 });
        }
        if service > 51 {
            break;
        }
    }
    stream(&records)
}

/// Shortfalls one watt under, at and over the limit of each class.
pub fn limits(index: usize) -> Vec<u8> {
    let mut random = Random::for_stream("limits", index);
    let y = any_year(&mut random);
    let mut records = vec![Year { y }, Area { area: 1, price: 50_000 }, Load { area: 1, party: 16, obligation: 1 }];
    for unit in 1..=random.between(1, 3) as u8 {
        let icap = random.pick(&[100_000, 99_999, 1_000_000, 5_000_000, 4_321_987]);
        let (e, class) = (random.between(0, 60_000), random.pick(&[0, 1, 2]));
        let limit = limit_of(icap, e, class);
        let aim = limit + random.pick(&[1, 1, 0, 2, 500, 1_000]) - 1;
        records.extend(falling_short(&mut random, y, unit, icap, e, class, aim));
        records.push(whole_year(y, unit, unit, random.between(1, 15) as u8, 5_000_000));
        records.push(Post { area: 1 });
    }
    stream(&records)
}

/// L of the paper, for the aim only.
fn limit_of(icap: u32, e: u32, class: u8) -> u32 {
    let unforced = u64::from(icap) * u64::from(100_000 - e) / 100_000;
    (unforced * (u64::from(class) + 2) / 4) as u32
}

/// A unit whose S, where T = I, is about `aim`: by its deratings in fifty hours, or by g where it has no hours.
fn falling_short(random: &mut Random, y: u16, unit: u8, icap: u32, e: u32, class: u8, aim: u32) -> Vec<Record> {
    if random.percent(50) {
        let g = (u64::from(aim) * 100_000 / u64::from(icap)) as u32 + random.between(0, 1);
        return vec![Unit { unit, area: 1, icap, e, f: 0, g: g.min(99_999), class }];
    }
    let f = random.pick(&[0, 1_000, 10_000]);
    let expected = (u64::from(icap) * u64::from(100_000 - f) / 100_000) as u32;
    let derating = (aim + icap - expected).clamp(1, icap - 1);
    let mut records = vec![Unit { unit, area: 1, icap, e, f, g: 99_999, class }];
    records.extend(peak_slots(y)[..50].iter().map(|&slot| hour(y, unit, slot, 1, derating)));
    records
}

/// Units with and without a twin of the opposite S, under several parties.
pub fn balances(index: usize) -> Vec<u8> {
    let mut random = Random::for_stream("balances", index);
    let y = any_year(&mut random);
    let price = random.pick(&[1, 30, 274, 9_000, 49_999, 50_000]);
    let mut records = vec![Year { y }, Area { area: 1, price }];
    let mut plan = Plan { y, unit: 0, number: 0, records: Vec::new() };
    let (pairs, singles) = random.pick(&[(1, 0), (2, 0), (3, 0), (4, 0), (1, 1), (2, 2), (0, 3), (0, 6)]);
    for pair in 0..pairs {
        let style = Style::draw(&mut random);
        // One party with both has a net of 0; the usual two parties have nets of the same size.
        let (short, over) = if random.percent(15) { (1, 1) } else { (2 + 2 * pair, 3 + 2 * pair) };
        plan.enter(style, short);
        plan.enter(style.twin(), over);
    }
    for _ in 0..singles {
        let party = random.between(1, 6) as u8;
        plan.enter(Style::draw(&mut random), party);
    }
    records.extend(plan.records);
    if random.percent(70) {
        for _ in 0..random.between(1, 4) {
            let obligation = random.pick(&[0, 1, 3, 1_000_000, 99_999_999, 100_000_000]);
            records.push(Load { area: 1, party: random.between(1, 16) as u8, obligation });
        }
    }
    records.push(Post { area: 1 });
    // A later change of price, obligation or commitment, and the difference posted.
    let (number, unit) = (random.between(1, 4) as u8, random.between(1, 2) as u8);
    records.push(match random.below(4) {
        0 => Area { area: 1, price: random.pick(&[0, price + 1, price / 2]).min(50_000) },
        1 => Load { area: 1, party: 16, obligation: random.pick(&[0, 7]) },
        2 => whole_year(y, number, unit, random.between(1, 6) as u8, 3_000_000),
        _ => whole_year(y, number, unit, 1, 0),
    });
    records.push(Post { area: 1 });
    records.push(Post { area: 1 });
    stream(&records)
}

/// What a unit without hours is made of; S is I × (g − f) / 100,000 but for the roundings.
#[derive(Clone, Copy)]
struct Style {
    icap: u32,
    f: u32,
    g: u32,
    /// Over how many parties the commitment is spread.
    spread: u8,
}

impl Style {
    fn draw(random: &mut Random) -> Style {
        let icap = random.pick(&[100_000, 1_000_000, 5_000_000, 4_999_999, 123_457, 11]);
        let (low, high) = (random.between(0, 40_000), random.pick(&[1, 2, 1_000, 10_000, 45_000]));
        let spread = random.pick(&[1, 1, 1, 2, 3, 7]);
        let (f, g) = if random.percent(50) { (low, low + high) } else { (low + high, low) };
        Style { icap, f, g, spread }
    }

    fn twin(self) -> Style {
        Style { f: self.g, g: self.f, ..self }
    }
}

struct Plan {
    y: u16,
    unit: u8,
    number: u8,
    records: Vec<Record>,
}

impl Plan {
    fn enter(&mut self, style: Style, party: u8) {
        let Style { icap, f, g, spread } = style;
        self.unit += 1;
        self.records.push(Unit { unit: self.unit, area: 1, icap, e: 0, f, g, class: 2 });
        for k in 0..spread {
            self.number = self.number % 64 + 1;
            let party = (party + 2 * k - 1) % 16 + 1;
            self.records.push(whole_year(self.y, self.number, self.unit, party, icap));
        }
    }
}

/// Figures as large as they can be: 32 units and 64 commitments, mostly in one area.
pub fn extremes(index: usize) -> Vec<u8> {
    let mut random = Random::for_stream("extremes", index);
    let y = random.pick(&[2007, 2011, 2099]);
    let random = &mut random;
    match index % 5 {
        // All money comes from one party and goes to another.
        0 => fleet(y, 1, 9..=9, |unit| (in_full(y, unit, false), random.pick(&[3, 3, 3, unit % 16 + 1]))),
        // The largest sum left over, split by the largest obligations.
        1 => fleet(y, 1, 1..=16, |unit| (in_full(y, unit, false), random.between(1, 16) as u8)),
        // The largest sum that is short of ceilings.
        2 => fleet(y, 1, 1..=16, |unit| {
            let excess = unit > 15;
            (in_full(y, unit, excess), random.between(1, 8) as u8 + if excess { 8 } else { 0 })
        }),
        3 => crowd(random, y),
        _ => {
            let areas = random.pick(&[1, 2, 8]);
            fleet(y, areas, 5..=12, |unit| {
                let area = (unit - 1) % areas + 1;
                (extreme_unit(random, y, unit, area), random.between(1, 16) as u8)
            })
        }
    }
}

/// A book of all units, each with the party that commits it twice over; then one commitment is withdrawn.
fn fleet(
    y: u16,
    areas: u8,
    loads: RangeInclusive<u8>,
    mut unit_and_party: impl FnMut(u8) -> (Vec<Record>, u8),
) -> Vec<u8> {
    let mut records = vec![Year { y }];
    records.extend((1..=areas).map(|area| Area { area, price: 50_000 }));
    for unit in 1..=32 {
        let (unit_records, party) = unit_and_party(unit);
        records.extend(unit_records);
        records.extend([unit, unit + 32].map(|number| whole_year(y, number, unit, party, 5_000_000)));
    }
    for area in 1..=areas {
        records.extend(loads.clone().map(|party| Load { area, party, obligation: 100_000_000 }));
    }
    records.extend((1..=areas).map(|area| Post { area }));
    records.push(whole_year(y, 1, 1, 1, 0));
    records.extend((1..=areas).map(|area| Post { area }));
    stream(&records)
}

/// One unit with sixty commitments of all parties and one with four.
fn crowd(random: &mut Random, y: u16) -> Vec<u8> {
    let mut records = vec![Year { y }, Area { area: 1, price: 50_000 }, Load { area: 1, party: 1, obligation: 1 }];
    let crowded_excess = random.percent(50);
    records.extend(in_full(y, 1, crowded_excess));
    records.extend(in_full(y, 2, !crowded_excess));
    for number in 1..=64 {
        let (unit, party) = (if number > 60 { 2 } else { 1 }, random.between(1, 16) as u8);
        records.push(whole_year(y, number, unit, party, 5_000_000 - random.pick(&[0, 0, 1])));
    }
    records.push(Post { area: 1 });
    stream(&records)
}

/// A unit whose S is all of its 5,000,000 W, or an excess of nearly as much.
fn in_full(y: u16, unit: u8, excess: bool) -> Vec<Record> {
    let (f, g) = if excess { (99_999, 0) } else { (0, 99_999) };
    let mut records = vec![Unit { unit, area: 1, icap: 5_000_000, e: 0, f, g, class: 2 }];
    if !excess {
        let peaks = peak_slots(y);
        records.extend(peaks[..50].iter().map(|&slot| hour(y, unit, slot, 1, 4_999_999)));
        records.push(hour(y, unit, peaks[50], 3, 0));
    }
    records
}

/// Rates at their ends, and peak hours of one kind up to all of the year after some of another.
fn extreme_unit(random: &mut Random, y: u16, unit: u8, area: u8) -> Vec<Record> {
    let (f, g) = random.pick(&[(0, 99_999), (0, 99_999), (99_999, 0), (0, 0)]);
    let (e, class) = (random.pick(&[0, 0, 99_999, 50_000]), random.pick(&[2, 2, 0]));
    let mut records = vec![Unit { unit, area, icap: 5_000_000, e, f, g, class }];
    let kinds = [0; 2].map(|_| random.pick(&[0, 1, 3, 3]));
    let count = random.pick(&[0, 49, 50, 300, peak_slots(y).len()]);
    for (at, &slot) in peak_slots(y)[..count].iter().enumerate() {
        let kind = kinds[usize::from(at >= 60)];
        records.push(hour(y, unit, slot, kind, if kind == 1 { 4_999_999 } else { 0 }));
    }
    records
}
