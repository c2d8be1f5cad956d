//! The fresh reckoning of the peak-hour availability book (paper 01, with section 10 in 002).
//!
//! Kept are the accepted records and, beside them, only what was posted so far. At each Post every
//! figure from SH to the dues is worked out anew from the records. Areas, units, parties and
//! commitment numbers count from 1 in a record and from 0 in the arrays here.

use std::io::Write;

// 01, Records: how many of each key there are.
const AREAS: usize = 8;
const UNITS: usize = 32;
const PARTIES: usize = 16;
const COMMITMENTS: usize = 64;

// 01, Records: the highest value of each range, and the whole of a rate.
const HIGHEST_PRICE: u32 = 50_000;
const HIGHEST_WATTS: u32 = 5_000_000;
const HIGHEST_RATE: u32 = 99_999;
const HIGHEST_OBLIGATION: u32 = 100_000_000;
const WHOLE: i128 = 100_000;

/// Head of a record (tag and length), and the longest value that is read at all (row 1).
const HEAD: usize = 3;
const LONGEST: usize = 32;

/// No delivery year has more days.
const MOST_DAYS: usize = 366;

/// The number of the row of refusal that fits.
type Refusal = u8;

/// One figure for each party, in party order.
type PerParty = [i128; PARTIES];

// ---------------------------------------------------------------------------------------------
// 01, Records, and 02, Items 2 and 3: the nine records as they are written
// ---------------------------------------------------------------------------------------------

enum Record {
    Year {
        y: u16,
    },
    Area {
        area: u8,
        price: u32,
    },
    Unit {
        unit: u8,
        area: u8,
        installed: u32,
        e: u32,
        f: u32,
        g: u32,
        class: u8,
    },
    Commitment {
        number: u8,
        unit: u8,
        party: u8,
        first: u16,
        last: u16,
        watts: u32,
    },
    Hour {
        unit: u8,
        month: u8,
        day: u8,
        hour: u8,
        kind: u8,
        derating: u32,
    },
    Load {
        area: u8,
        party: u8,
        obligation: u32,
    },
    Post {
        area: u8,
    },
    Owner {
        unit: u8,
        party: u8,
    },
    Day {
        unit: u8,
        month: u8,
        day: u8,
        marks: u32,
    },
}

/// 02, Items 2 and 3: the tags of an Owner and a Day, which is the last.
const OWNER: u8 = 0x08;
const DAY: u8 = 0x09;

/// The two-byte number at a place of the value, high byte first.
#[inline(always)]
fn two(value: &[u8], at: usize) -> u16 {
    u16::from_be_bytes([value[at], value[at + 1]])
}

/// The three-byte number at a place of the value, high byte first.
#[inline(always)]
fn three(value: &[u8], at: usize) -> u32 {
    u32::from_be_bytes([0, value[at], value[at + 1], value[at + 2]])
}

/// The four-byte number at a place of the value, high byte first.
#[inline(always)]
fn four(value: &[u8], at: usize) -> u32 {
    u32::from_be_bytes([value[at], value[at + 1], value[at + 2], value[at + 3]])
}

/// 01, Places of refusal: rows 2 and 3, tag not listed, length not that tag's.
#[inline(always)]
fn read(tag: u8, value: &[u8]) -> Result<Record, Refusal> {
    match (tag, value.len()) {
        (0x01, 2) => Ok(Record::Year { y: two(value, 0) }),
        (0x02, 5) => Ok(Record::Area {
            area: value[0],
            price: four(value, 1),
        }),
        (0x03, 19) => Ok(Record::Unit {
            unit: value[0],
            area: value[1],
            installed: four(value, 2),
            e: four(value, 6),
            f: four(value, 10),
            g: four(value, 14),
            class: value[18],
        }),
        (0x04, 11) => Ok(Record::Commitment {
            number: value[0],
            unit: value[1],
            party: value[2],
            first: two(value, 3),
            last: two(value, 5),
            watts: four(value, 7),
        }),
        (0x05, 9) => Ok(Record::Hour {
            unit: value[0],
            month: value[1],
            day: value[2],
            hour: value[3],
            kind: value[4],
            derating: four(value, 5),
        }),
        (0x06, 6) => Ok(Record::Load {
            area: value[0],
            party: value[1],
            obligation: four(value, 2),
        }),
        (0x07, 1) => Ok(Record::Post { area: value[0] }),
        (OWNER, 2) => Ok(Record::Owner {
            unit: value[0],
            party: value[1],
        }),
        (DAY, 6) => Ok(Record::Day {
            unit: value[0],
            month: value[1],
            day: value[2],
            marks: three(value, 3),
        }),
        (0x01..=DAY, _) => Err(3),
        _ => Err(2),
    }
}

// ---------------------------------------------------------------------------------------------
// 01, Standing facts: the accepted records as they are kept
// ---------------------------------------------------------------------------------------------

/// The year, with two tables that follow from it alone.
struct Year {
    days: u16,
    /// The day of the delivery year by month and day, `NO_DAY` for a date not in the calendar.
    day_of: [u16; 16 * 32],
    /// The peak hours as places in a unit's hours.
    peak: Vec<u16>,
}

struct Unit {
    area: usize,
    installed: u32,
    e: u32,
    f: u32,
    g: u32,
    class: u8,
    /// The accepted hours, in the place of day × 24 + hour ending − 1.
    hours: Vec<KeptHour>,
    /// The place after the last accepted hour.
    next: u16,
}

/// The kind above the 24 bits of the derating, which is below I. Where no hour is accepted stands
/// `NO_HOUR`, which has a kind of its own.
type KeptHour = u32;

const NO_HOUR: KeptHour = keep(6, 0);

const fn keep(kind: u8, derating: u32) -> KeptHour {
    (kind as u32) << 24 | derating
}

#[derive(Clone, Copy)]
struct Commitment {
    unit: usize,
    party: usize,
    first: u16,
    last: u16,
    watts: u32,
}

/// The standing facts, which owners join (02, Item 2).
struct Records {
    year: Option<Year>,
    prices: [Option<u32>; AREAS],
    units: [Option<Unit>; UNITS],
    commitments: [Option<Commitment>; COMMITMENTS],
    obligations: [[Option<u32>; PARTIES]; AREAS],
    /// The party that owns a unit.
    owners: [Option<usize>; UNITS],
}

// ---------------------------------------------------------------------------------------------
// 01, Hours, and 02, Item 1: the calendar and the peak hours
// ---------------------------------------------------------------------------------------------

const NO_DAY: u16 = u16::MAX;

const MONDAY: u32 = 0;
const FRIDAY: u32 = 4;
const SATURDAY: u32 = 5;
const SUNDAY: u32 = 6;

/// 02, Item 1: 19 June is added from this calendar year.
const JUNE_19_ADDED: u32 = 2021;

/// Calendar year, month and day.
type Date = (u32, u32, u32);

fn is_leap(year: u32) -> bool {
    year % 4 == 0 && (year % 100 != 0 || year % 400 == 0)
}

fn month_length(year: u32, month: u32) -> u32 {
    match month {
        4 | 6 | 9 | 11 => 30,
        2 => 28 + is_leap(year) as u32,
        _ => 31,
    }
}

fn day_before((year, month, day): Date) -> Date {
    match (month, day) {
        (1, 1) => (year - 1, 12, 31),
        (_, 1) => (year, month - 1, month_length(year, month - 1)),
        _ => (year, month, day - 1),
    }
}

fn day_after((year, month, day): Date) -> Date {
    match month {
        _ if day < month_length(year, month) => (year, month, day + 1),
        12 => (year + 1, 1, 1),
        _ => (year, month + 1, 1),
    }
}

/// 1 January 2007 was a Monday.
fn weekday((year, month, day): Date) -> u32 {
    let years: u32 = (2007..year).map(|y| 365 + is_leap(y) as u32).sum();
    let months: u32 = (1..month).map(|m| month_length(year, m)).sum();
    (years + months + day - 1) % 7
}

/// 02, Item 1, in place of 01's list: 1 January, third Monday of January, third Monday of February,
/// 4 July and 19 June.
fn holiday_falls_on(date: Date) -> bool {
    match date {
        (_, 1, 1) | (_, 7, 4) => true,
        (year, 6, 19) => year >= JUNE_19_ADDED,
        (_, 1 | 2, 15..=21) => weekday(date) == MONDAY,
        _ => false,
    }
}

/// Why a date has no peak hours in its season.
enum Free {
    Weekend,
    Holiday,
    KeptForSaturday,
    KeptForSunday,
}

/// 002 (b): a Saturday, Sunday or federal holiday. 02, Item 1: a holiday that falls on Saturday is
/// a holiday on the Friday before too, and one that falls on Sunday on the Monday after.
fn free(date: Date) -> Option<Free> {
    match weekday(date) {
        SATURDAY | SUNDAY => Some(Free::Weekend),
        _ if holiday_falls_on(date) => Some(Free::Holiday),
        FRIDAY if holiday_falls_on(day_after(date)) => Some(Free::KeptForSaturday),
        MONDAY if holiday_falls_on(day_before(date)) => Some(Free::KeptForSunday),
        _ => None,
    }
}

/// 002 (b): the hours ending that are peak hours on a date of this month that is not free.
fn season_hours(month: u32) -> &'static [u16] {
    match month {
        6..=8 => &[15, 16, 17, 18, 19],
        1 | 2 => &[8, 9, 19, 20],
        _ => &[],
    }
}

/// The hours ending of a date that are peak hours.
fn peak_hours(date: Date) -> &'static [u16] {
    let hours = season_hours(date.1);
    // Outside the seasons nothing hangs on the weekday.
    if hours.is_empty() || free(date).is_some() {
        return &[];
    }
    hours
}

/// The place of an hour among the hours of the delivery year.
fn place(day: u16, hour_ending: u16) -> u16 {
    day * 24 + hour_ending - 1
}

fn date_index(month: usize, day: usize) -> usize {
    month * 32 + day
}

impl Year {
    /// 01, Records: from 1 June y to 31 May y+1; months 6–12 lie in y, 1–5 in y+1.
    fn new(y: u32) -> Year {
        let mut year = Year {
            days: 0,
            day_of: [NO_DAY; 16 * 32],
            peak: Vec::new(),
        };
        for (calendar_year, months) in [(y, 6..=12), (y + 1, 1..=5)] {
            for month in months {
                for day in 1..=month_length(calendar_year, month) {
                    year.day_of[date_index(month as usize, day as usize)] = year.days;
                    for &hour in peak_hours((calendar_year, month, day)) {
                        year.peak.push(place(year.days, hour));
                    }
                    year.days += 1;
                }
            }
        }
        year
    }

    /// The day of the delivery year; none for a date not in the calendar.
    #[inline(always)]
    fn day(&self, month: u8, day: u8) -> Option<u16> {
        if month >= 16 || day >= 32 {
            return None;
        }
        let found = self.day_of[date_index(month as usize, day as usize)];
        (found != NO_DAY).then_some(found)
    }
}

// ---------------------------------------------------------------------------------------------
// 01, Places of refusal: rows 6 to 10, and the record joins the standing facts
// ---------------------------------------------------------------------------------------------

/// Row 6 for a number that must lie in 1..=highest: the place in the array.
#[inline(always)]
fn key(number: u8, highest: usize) -> Result<usize, Refusal> {
    let place = usize::from(number).wrapping_sub(1);
    if place < highest {
        Ok(place)
    } else {
        Err(6)
    }
}

/// A row: its number if it fits.
#[inline(always)]
fn row(number: Refusal, fits: bool) -> Result<(), Refusal> {
    if fits {
        Err(number)
    } else {
        Ok(())
    }
}

impl Records {
    fn new() -> Records {
        Records {
            year: None,
            prices: [None; AREAS],
            units: [const { None }; UNITS],
            commitments: [None; COMMITMENTS],
            obligations: [[None; PARTIES]; AREAS],
            owners: [None; UNITS],
        }
    }

    fn enter_year(&mut self, y: u16, tally: &mut Tally) -> Result<(), Refusal> {
        row(6, !(2007..=2099).contains(&y))?;
        let year = Year::new(u32::from(y));
        tally.year(u32::from(y), &year);
        self.year = Some(year);
        Ok(())
    }

    fn enter_area(&mut self, area: u8, price: u32, tally: &mut Tally) -> Result<(), Refusal> {
        let area = key(area, AREAS)?;
        row(6, price > HIGHEST_PRICE)?;
        tally.add_if(self.prices[area].is_some(), Branch::AreaReplaced);
        self.prices[area] = Some(price);
        Ok(())
    }

    fn enter_unit(
        &mut self,
        unit: u8,
        area: u8,
        installed: u32,
        [e, f, g]: [u32; 3],
        class: u8,
    ) -> Result<(), Refusal> {
        let unit = key(unit, UNITS)?;
        let area = key(area, AREAS)?;
        row(6, !(1..=HIGHEST_WATTS).contains(&installed))?;
        row(6, e > HIGHEST_RATE || f > HIGHEST_RATE || g > HIGHEST_RATE)?;
        row(6, class > 2)?;
        row(7, self.prices[area].is_none())?;
        row(8, self.units[unit].is_some())?;
        let hours = vec![NO_HOUR; MOST_DAYS * 24];
        self.units[unit] = Some(Unit {
            area,
            installed,
            e,
            f,
            g,
            class,
            hours,
            next: 0,
        });
        Ok(())
    }

    fn enter_commitment(
        &mut self,
        days: u16,
        (number, unit, party): (u8, u8, u8),
        (first, last): (u16, u16),
        watts: u32,
        tally: &mut Tally,
    ) -> Result<(), Refusal> {
        let number = key(number, COMMITMENTS)?;
        let unit = key(unit, UNITS)?;
        let party = key(party, PARTIES)?;
        row(6, first > last || last >= days)?;
        row(6, watts > HIGHEST_WATTS)?;
        row(7, self.units[unit].is_none())?;
        tally.add_if(
            self.commitments[number].is_some(),
            Branch::CommitmentReplaced,
        );
        tally.add_if(watts == 0, Branch::CommitmentOfNothing);
        self.commitments[number] = Some(Commitment {
            unit,
            party,
            first,
            last,
            watts,
        });
        Ok(())
    }

    fn enter_load(
        &mut self,
        area: u8,
        party: u8,
        obligation: u32,
        tally: &mut Tally,
    ) -> Result<(), Refusal> {
        let area = key(area, AREAS)?;
        let party = key(party, PARTIES)?;
        row(6, obligation > HIGHEST_OBLIGATION)?;
        row(7, self.prices[area].is_none())?;
        tally.add_if(
            self.obligations[area][party].is_some(),
            Branch::LoadReplaced,
        );
        self.obligations[area][party] = Some(obligation);
        Ok(())
    }

    /// 02, Item 2: a later one replaces; bad ranges give 6 and a missing unit 7.
    fn enter_owner(&mut self, unit: u8, party: u8, tally: &mut Tally) -> Result<(), Refusal> {
        let place = key(unit, UNITS)?;
        let party = key(party, PARTIES)?;
        let area = self.units[place].as_ref().ok_or(7)?.area;
        tally.owner(place, area, self.owners[place], party);
        self.owners[place] = Some(party);
        Ok(())
    }

    /// 02, Item 3: 24 Hours, hours ending 1 to 24 in turn, accepted if and only if all 24 would be;
    /// otherwise the first refusal among them.
    fn enter_day(
        &mut self,
        unit: u8,
        (month, day): (u8, u8),
        marks: u32,
        tally: &mut Tally,
    ) -> Result<(), Refusal> {
        let year = self.year.as_ref().ok_or(4)?;
        // Each is tried as it would be after those before it, and kept when all have been.
        let (mut places, mut next) = ([0; 24], None);
        for (hour, kept_at) in (1..=24).zip(&mut places) {
            let (date, kind) = ((month, day, hour), marked(marks, hour));
            let (_, place) = try_hour(year, &mut self.units, next, unit, date, kind, 0)?;
            (*kept_at, next) = (place, Some(place + 1));
        }
        let number = key(unit, UNITS)?;
        let unit = self.units[number].as_mut().ok_or(7)?;
        let before = unit.next;
        for (hour, place) in (1..=24).zip(places) {
            unit.keep_hour(place, marked(marks, hour), 0);
        }
        tally.day(number, (before, unit.next), (month, day), marks);
        Ok(())
    }
}

/// 02, Item 3: the kind of an hour ending by the marks, whose lowest bit is the hour ending 1: a set
/// bit means kind 0, a clear one kind 5.
fn marked(marks: u32, hour: u8) -> u8 {
    match marks >> (hour - 1) & 1 {
        1 => 0,
        _ => 5,
    }
}

impl Unit {
    #[inline(always)]
    fn keep_hour(&mut self, place: u16, kind: u8, derating: u32) {
        self.hours[usize::from(place)] = keep(kind, derating);
        self.next = place + 1;
    }
}

/// The Hour record: rows 6, 7, 9 and 10; then it is kept.
#[inline(always)]
fn enter_hour(
    year: &Year,
    units: &mut [Option<Unit>; UNITS],
    unit: u8,
    date: (u8, u8, u8),
    kind: u8,
    derating: u32,
) -> Result<(), Refusal> {
    let (unit, place) = try_hour(year, units, None, unit, date, kind, derating)?;
    unit.keep_hour(place, kind, derating);
    Ok(())
}

/// The Hour record against rows 6, 7, 9 and 10: its unit and its place. The place after the last
/// accepted hour is the unit's own unless another is given.
#[inline(always)]
fn try_hour<'a>(
    year: &Year,
    units: &'a mut [Option<Unit>; UNITS],
    next: Option<u16>,
    unit: u8,
    (month, day, hour): (u8, u8, u8),
    kind: u8,
    derating: u32,
) -> Result<(&'a mut Unit, u16), Refusal> {
    let unit = key(unit, UNITS)?;
    let day = year.day(month, day).ok_or(6)?;
    row(6, !(1..=24).contains(&hour) || kind > 5)?;
    row(6, (kind == 1) != (derating >= 1))?;
    let unit = units[unit].as_mut().ok_or(7)?;
    row(9, derating >= unit.installed)?; // Only kind 1: the others have 0, and I is above 0.
    let place = place(day, u16::from(hour));
    row(10, place < next.unwrap_or(unit.next))?;
    Ok((unit, place))
}

// ---------------------------------------------------------------------------------------------
// 01, From a set to its shortfall
// ---------------------------------------------------------------------------------------------

/// SH and FOH as counts and D as a sum over a unit's peak hours.
struct PeakHours {
    sh: i128,
    foh: i128,
    d: i128,
}

/// 01, Hours: by kind, in a peak hour.
fn count_peak_hours(year: &Year, hours: &[KeptHour]) -> PeakHours {
    let (mut sh, mut foh, mut d) = (0u64, 0u64, 0u64);
    for &place in &year.peak {
        let hour = hours[usize::from(place)];
        let (kind, derating) = (hour >> 24, u64::from(hour & 0xFF_FFFF));
        sh += u64::from(kind <= 2);
        foh += u64::from(kind == 3);
        d += u64::from(kind == 1) * derating;
    }
    PeakHours {
        sh: i128::from(sh),
        foh: i128::from(foh),
        d: i128::from(d),
    }
}

/// V by party: watts × (last − first + 1) of the unit's commitments.
fn parts_of_v(commitments: &[Option<Commitment>], unit: usize) -> PerParty {
    let mut parts = [0; PARTIES];
    for commitment in commitments.iter().flatten().filter(|c| c.unit == unit) {
        let length = i128::from(commitment.last) - i128::from(commitment.first) + 1;
        parts[commitment.party] += i128::from(commitment.watts) * length;
    }
    parts
}

/// V × 100,000 / ((100,000 − e) × days); T is the lower of this and I.
fn committed(v: i128, e: i128, days: i128) -> i128 {
    v * WHOLE / ((WHOLE - e) * days)
}

/// T × (100,000 − rate) / 100,000: X from f, G from g; U is the same of I and e.
fn after_outages(watts: i128, rate: i128) -> i128 {
    watts * (WHOLE - rate) / WHOLE
}

/// T × (SH × I − D) / (I × (SH + FOH)), one floor; none if SH + FOH = 0.
fn by_peak_hours(t: i128, installed: i128, hours: &PeakHours) -> Option<i128> {
    let PeakHours { sh, foh, d } = *hours;
    if sh + foh == 0 {
        return None;
    }
    Some(t * (sh * installed - d) / (installed * (sh + foh)))
}

/// P, with rule (f) of 002: fewer than fifty service hours take the higher of P and G.
fn peak_capacity(by_hours: Option<i128>, g: i128, sh: i128) -> i128 {
    match by_hours {
        None => g,
        Some(p) if sh < 50 => p.max(g),
        Some(p) => p,
    }
}

/// L = U × q / 4, with q = 2, 3, 4 for class 0, 1, 2.
fn limit(u: i128, class: u8) -> i128 {
    let q = i128::from(class) + 2;
    u * q / 4
}

/// A shortfall above L becomes L; an excess has no limit.
fn limited(s: i128, limit: i128) -> i128 {
    s.min(limit)
}

/// 01, Split: A ≥ 0 over weights of sum Z > 0; a signed amount by size, with its sign.
fn split(amount: i128, weights: &PerParty) -> PerParty {
    let size = amount.abs();
    let sum: i128 = weights.iter().sum();
    let mut shares = [0; PARTIES];
    let (mut running, mut before) = (0, 0);
    for (share, weight) in shares.iter_mut().zip(weights) {
        running += weight;
        let up_to_here = size * running / sum;
        *share = (up_to_here - before) * amount.signum();
        before = up_to_here;
    }
    shares
}

/// What is worked out for one unit.
struct UnitFigures {
    hours: PeakHours,
    parts: PerParty,
    v: i128,
    t: i128,
    t_by_installed: bool,
    /// P before rule (f); none if SH + FOH = 0.
    by_hours: Option<i128>,
    g: i128,
    /// S before the limit.
    s: i128,
    class: u8,
    limit: i128,
    limited: i128,
    shares: PerParty,
    owner: Option<usize>,
}

impl UnitFigures {
    /// 02, Item 2: the owner, if the set is ready but not committed.
    fn ready_owner(&self) -> Option<usize> {
        ready_owner(self.v, self.owner)
    }

    /// 02, Item 2: the size of S below zero; a shortfall counts for nothing here.
    fn excess(&self) -> i128 {
        (-self.s).max(0)
    }
}

/// 02, Item 2: with V above 0 the owner plays no part.
fn ready_owner(v: i128, owner: Option<usize>) -> Option<usize> {
    owner.filter(|_| v == 0)
}

fn unit_figures(year: &Year, unit: &Unit, parts: PerParty, owner: Option<usize>) -> UnitFigures {
    let installed = i128::from(unit.installed);
    let (e, f) = (i128::from(unit.e), i128::from(unit.f));
    let hours = count_peak_hours(year, &unit.hours);

    let v: i128 = parts.iter().sum();
    let by_v = committed(v, e, i128::from(year.days));
    let t = match ready_owner(v, owner) {
        Some(_) => installed,
        None => installed.min(by_v),
    };
    let x = after_outages(t, f);
    let g = after_outages(t, i128::from(unit.g));
    let by_hours = by_peak_hours(t, installed, &hours);
    let p = peak_capacity(by_hours, g, hours.sh);
    let s = x - p;
    let u = after_outages(installed, e);
    let limit = limit(u, unit.class);
    let limited = limited(s, limit);
    let shares = if v == 0 {
        [0; PARTIES]
    } else {
        split(limited, &parts)
    };

    let (t_by_installed, class) = (installed <= by_v, unit.class);
    UnitFigures {
        hours,
        parts,
        v,
        t,
        t_by_installed,
        by_hours,
        g,
        s,
        class,
        limit,
        limited,
        shares,
        owner,
    }
}

// ---------------------------------------------------------------------------------------------
// 01, Area money
// ---------------------------------------------------------------------------------------------

/// What is worked out for one area up to its credits.
struct Money {
    charges: PerParty,
    ceilings: PerParty,
    /// R, the sum of the charges.
    revenue: i128,
    /// The sum of the ceilings M.
    ceiling_sum: i128,
    credits: PerParty,
    /// What is left of R when each has its M.
    left: i128,
}

/// 01, Area money: a party's net N, the sum of its shares in the area; then 02, Item 2.
fn nets(records: &Records, year: &Year, area: usize, tally: &mut Tally) -> PerParty {
    let mut nets = [0; PARTIES];
    let mut excesses = [0; PARTIES];
    let mut takes = Takes::default();
    for (number, unit) in records.units.iter().enumerate() {
        let Some(unit) = unit.as_ref().filter(|unit| unit.area == area) else {
            continue;
        };
        let parts = parts_of_v(&records.commitments, number);
        let figures = unit_figures(year, unit, parts, records.owners[number]);
        for (net, share) in nets.iter_mut().zip(figures.shares) {
            *net += share;
        }
        if let Some(owner) = figures.ready_owner() {
            excesses[owner] += figures.excess();
        }
        takes.note(&figures);
        tally.unit(&figures);
        tally.owned(number, &figures, &records.commitments);
        tally.hours(number, unit);
        tally.days(year, number, unit);
    }
    let lowered = std::array::from_fn(|party| lowered(nets[party], excesses[party]));
    tally.nets(&lowered, &takes);
    tally.excesses(area, &nets, &excesses, &takes);
    lowered
}

/// 02, Item 2: an excess lowers a net above zero, and never below zero; another net stays as it is.
fn lowered(net: i128, excess: i128) -> i128 {
    if net > 0 {
        (net - excess).max(0)
    } else {
        net
    }
}

/// 01, Area money: charge C of N > 0, and ceiling M of −N > 0; 0 of any other net.
fn worth(net: i128, price: i128, days: i128) -> i128 {
    net.max(0) * price * days / 1_000_000
}

/// 01, Area money: charges, ceilings, R, and the credits, which are M or R split by M.
fn money(nets: &PerParty, price: i128, days: i128) -> Money {
    let charges = nets.map(|n| worth(n, price, days));
    let ceilings = nets.map(|n| worth(-n, price, days));
    let revenue: i128 = charges.iter().sum();
    let ceiling_sum: i128 = ceilings.iter().sum();
    let (credits, left) = if revenue < ceiling_sum {
        (split(revenue, &ceilings), 0)
    } else {
        (ceilings, revenue - ceiling_sum)
    };
    Money {
        charges,
        ceilings,
        revenue,
        ceiling_sum,
        credits,
        left,
    }
}

/// 01, Area money: what is left, split by obligation; row 11 if the obligations add up to 0.
fn load_shares(left: i128, obligations: &PerParty) -> Result<PerParty, Refusal> {
    if left == 0 {
        return Ok([0; PARTIES]);
    }
    row(11, obligations.iter().sum::<i128>() == 0)?;
    Ok(split(left, obligations))
}

/// 01, Area money: due = credit + load share − charge.
fn dues(money: &Money, load_shares: &PerParty) -> PerParty {
    std::array::from_fn(|p| money.credits[p] + load_shares[p] - money.charges[p])
}

// ---------------------------------------------------------------------------------------------
// 01, The ledger program: the stream of records
// ---------------------------------------------------------------------------------------------

/// What stands at the front of some bytes.
enum Front {
    /// A record whose value has this length.
    Whole(usize),
    /// The beginning of a record.
    Cut,
    /// A head with a length above 32.
    TooLong,
}

#[inline(always)]
fn front(bytes: &[u8]) -> Front {
    let &[_, high, low, ref value @ ..] = bytes else {
        return Front::Cut;
    };
    let length = usize::from(u16::from_be_bytes([high, low]));
    if length > LONGEST {
        Front::TooLong
    } else if value.len() < length {
        Front::Cut
    } else {
        Front::Whole(length)
    }
}

pub struct Ledger {
    records: Records,
    /// The sum of each party's earlier lines in each area.
    posted: [PerParty; AREAS],
    tried: u64,
    accepted: u64,
    /// The bytes of a record that is not whole yet.
    carry: [u8; HEAD + LONGEST],
    carried: usize,
    stopped: bool,
    tally: Tally,
}

impl Ledger {
    pub fn new() -> Ledger {
        Ledger {
            records: Records::new(),
            posted: [[0; PARTIES]; AREAS],
            tried: 0,
            accepted: 0,
            carry: [0; HEAD + LONGEST],
            carried: 0,
            stopped: false,
            tally: Tally::new(),
        }
    }

    /// Takes the next bytes of the input and appends what is printed to `out`. Bytes of a record
    /// that is not whole yet are carried over to the next call. False once the run has stopped
    /// after a refusal 1: nothing more is to be read.
    pub fn feed(&mut self, bytes: &[u8], out: &mut Vec<u8>) -> bool {
        let mut rest = bytes;
        while self.carried > 0 {
            let Some((&byte, after)) = rest.split_first() else {
                return true;
            };
            rest = after;
            self.carry[self.carried] = byte;
            self.carried += 1;
            let begun = self.carry;
            match front(&begun[..self.carried]) {
                Front::Cut => {}
                Front::TooLong => self.stop(out),
                Front::Whole(length) => {
                    self.carried = 0;
                    self.try_whole(begun[0], &begun[HEAD..HEAD + length], out);
                }
            }
        }
        while !self.stopped {
            match front(rest) {
                Front::Whole(length) => {
                    let (record, after) = rest.split_at(HEAD + length);
                    rest = after;
                    self.try_whole(record[0], &record[HEAD..], out);
                }
                Front::TooLong => self.stop(out),
                Front::Cut => {
                    self.carry[..rest.len()].copy_from_slice(rest);
                    self.carried = rest.len();
                    return true;
                }
            }
        }
        false
    }

    /// The end of the input: a record that is cut is tried and refused with 1; then comes `E n k`.
    pub fn finish(&mut self, out: &mut Vec<u8>) {
        if self.carried > 0 {
            let is_day = self.carry[0] == DAY;
            self.tally.add_if(is_day, Branch::DayCut);
            self.stop(out);
        }
        print(out, format_args!("E {} {}\n", self.tried, self.accepted));
    }

    /// How often each refusal and each branch of the money occurred, by name, in a fixed order.
    #[allow(dead_code)] // For tests; the program prints no counts.
    pub fn counts(&self) -> Vec<(&'static str, u64)> {
        BRANCH_NAMES.into_iter().zip(self.tally.counts).collect()
    }

    /// Row 1, after which nothing more is read.
    #[cold]
    fn stop(&mut self, out: &mut Vec<u8>) {
        self.tried += 1;
        self.refuse(1, out);
        self.carried = 0;
        self.stopped = true;
    }

    /// Tries a whole record against rows 2 to 11.
    #[inline(always)]
    fn try_whole(&mut self, tag: u8, value: &[u8], out: &mut Vec<u8>) {
        self.tried += 1;
        let tried = match read(tag, value) {
            Ok(Record::Hour {
                unit,
                month,
                day,
                hour,
                kind,
                derating,
            }) => match &self.records.year {
                None => Err(4),
                Some(year) => {
                    let units = &mut self.records.units;
                    enter_hour(year, units, unit, (month, day, hour), kind, derating)
                }
            },
            Ok(record) => self.try_other(record, out),
            Err(number) => Err(number),
        };
        match tried {
            Ok(()) => self.accepted += 1,
            Err(number) => self.refuse_whole(number, tag, value, out),
        }
    }

    /// Rows 4 to 11 for a record other than an Hour.
    #[inline(never)]
    fn try_other(&mut self, record: Record, out: &mut Vec<u8>) -> Result<(), Refusal> {
        let (records, tally) = (&mut self.records, &mut self.tally);
        let days = match (&records.year, &record) {
            (None, Record::Year { .. }) => 0,
            (None, _) => return Err(4),
            (Some(_), Record::Year { .. }) => return Err(5),
            (Some(year), _) => year.days,
        };
        match record {
            Record::Year { y } => records.enter_year(y, tally),
            Record::Area { area, price } => records.enter_area(area, price, tally),
            Record::Unit {
                unit,
                area,
                installed,
                e,
                f,
                g,
                class,
            } => records.enter_unit(unit, area, installed, [e, f, g], class),
            Record::Commitment {
                number,
                unit,
                party,
                first,
                last,
                watts,
            } => records.enter_commitment(days, (number, unit, party), (first, last), watts, tally),
            Record::Load {
                area,
                party,
                obligation,
            } => records.enter_load(area, party, obligation, tally),
            Record::Hour { .. } => unreachable!("taken by try_whole"),
            Record::Owner { unit, party } => records.enter_owner(unit, party, tally),
            Record::Day {
                unit,
                month,
                day,
                marks,
            } => records.enter_day(unit, (month, day), marks, tally),
            Record::Post { area } => self.post(area, out),
        }
    }

    /// 01, Area money: a Post gives each party its due less its earlier lines in the area.
    fn post(&mut self, area: u8, out: &mut Vec<u8>) -> Result<(), Refusal> {
        let (records, tally) = (&self.records, &mut self.tally);
        let year = records.year.as_ref().ok_or(4)?;
        let area = key(area, AREAS)?;
        let price = i128::from(records.prices[area].ok_or(7)?);

        let nets = nets(records, year, area, tally);
        let money = money(&nets, price, i128::from(year.days));
        tally.money(&nets, &money);
        let obligations = records.obligations[area].map(|watts| i128::from(watts.unwrap_or(0)));
        let load_shares = load_shares(money.left, &obligations)?;
        let dues = dues(&money, &load_shares);

        let mut lines = [0; PARTIES];
        for (party, line) in lines.iter_mut().enumerate() {
            *line = dues[party] - self.posted[area][party];
            self.posted[area][party] += *line;
            if *line != 0 {
                print(out, format_args!("P {} {} {}\n", area + 1, party + 1, line));
            }
        }
        tally.lines(area, &money, &lines);
        Ok(())
    }

    #[cold]
    #[inline(never)]
    fn refuse_whole(&mut self, number: Refusal, tag: u8, value: &[u8], out: &mut Vec<u8>) {
        match tag {
            OWNER => self.tally.owner_refused(number, value, &self.records.units),
            DAY => self.tally.day_refused(number, value, &self.records),
            _ => {}
        }
        self.refuse(number, out);
    }

    #[cold]
    fn refuse(&mut self, number: Refusal, out: &mut Vec<u8>) {
        self.tally.counts[usize::from(number) - 1] += 1;
        print(out, format_args!("R {} {}\n", self.tried, number));
    }
}

fn print(out: &mut Vec<u8>, line: std::fmt::Arguments) {
    out.write_fmt(line)
        .expect("bytes in memory take every line");
}

// ---------------------------------------------------------------------------------------------
// What occurred, for tests: nothing above depends on it
// ---------------------------------------------------------------------------------------------

/// The branches with their names; the refusals come first, so that row r is at r − 1.
macro_rules! branches {
    ($($branch:ident $name:literal,)*) => {
        #[allow(dead_code)] // The refusals are counted by number.
        #[derive(Clone, Copy)]
        enum Branch {
            $($branch,)*
        }
        const BRANCH_NAMES: [&str; [$($name),*].len()] = [$($name),*];
    };
}

branches! {
    Refusal1 "refusal 1",
    Refusal2 "refusal 2",
    Refusal3 "refusal 3",
    Refusal4 "refusal 4",
    Refusal5 "refusal 5",
    Refusal6 "refusal 6",
    Refusal7 "refusal 7",
    Refusal8 "refusal 8",
    Refusal9 "refusal 9",
    Refusal10 "refusal 10",
    Refusal11 "refusal 11",
    TByI "T by I",
    TByV "T by V",
    NoPeakHours "no peak hours, P is G",
    FewHoursPStays "SH below 50, P stays",
    FewHoursPIsG "SH below 50, P is G",
    EnoughHours "SH 50 or more",
    ServiceHours49 "SH is 49",
    ServiceHours50 "SH is 50",
    ShortfallBelow "shortfall below limit",
    ShortfallAt "shortfall at limit exactly",
    ShortfallLimited "shortfall limited",
    Excess "excess",
    SIsZero "S is 0",
    VIsZero "V is 0",
    SplitOverSeveral "split over several parties",
    NetCharge "net charge",
    NetCeiling "net ceiling",
    NetZero "net 0 of a party with shares",
    MoneyShort "money short",
    MoneyEven "money even",
    MoneyLeftSplit "money left over, split",
    NoMoney "no money",
    LinePositive "line positive",
    LineNegative "line negative",
    LineZero "line zero",
    PostAgain "post after a post of the same area",
    PostChanged "post with changed lines after a post",
    // Further branches of interest.
    AreaReplaced "area replaced",
    CommitmentReplaced "commitment replaced",
    CommitmentOfNothing "commitment of 0 W",
    LoadReplaced "load replaced",
    NoServiceHours "SH is 0, FOH is not",
    DeratedHours "D above 0",
    GDiscarded "SH 50 or more, G above P",
    LimitedClass0 "limited in class 0",
    LimitedClass1 "limited in class 1",
    LimitedClass2 "limited in class 2",
    ExcessBeyondLimit "excess beyond the size of the limit",
    ShareOfNothing "share 0 of S other than 0 for a part above 0",
    NetOfBothSigns "net of shares of both signs",
    NetsOfBothSigns "nets of both signs in one post",
    NetWithoutMoney "net other than 0 without money",
    NothingForCeilings "money short, R is 0",
    LeftBesideCeilings "money left over beside ceilings",
    HourKeptForSaturday "hour on a Friday kept for a Saturday",
    HourKeptForSunday "hour on a Monday kept for a Sunday",
    HourOfJune19 "hour on 19 June or its kept day from 2021",
    HourBeforeJune19 "peak hour on 19 June or its kept day before 2021",
    // 02, Item 2.
    ReadyExcess "ready set, excess",
    ReadyShortfall "ready set, shortfall",
    ReadyZero "ready set, S is 0",
    ReadyExcessBeyondLimit "ready set, excess beyond the size of the limit",
    ReadyHours "ready set with peak hours",
    ReadyWithdrawn "ready set with commitments of 0 W",
    OwnerOfCommitted "owner of a committed set",
    OwnerOfCommittedTIsZero "owner of a committed set whose T is 0",
    BecameReady "owned set committed at the post before, ready now",
    BecameCommitted "owned set ready at the post before, committed now",
    ExcessesAdded "ready excesses of several sets of one owner added, net above 0",
    ExcessBesideShortfall "ready excess of an owner with a ready shortfall, net above 0",
    ExcessLowers "ready excess lowers a net that stays above 0",
    ExcessIsNet "ready excess as large as the net",
    ExcessAboveNet "ready excess larger than the net, which stops at 0",
    ExcessAtZero "ready excess of an owner with a net of 0",
    ExcessBelowZero "ready excess of an owner with a net below 0",
    ExcessWithoutNet "ready excess of an owner without a part in the area",
    ExcessElsewhere "net above 0 of an owner with a ready excess in another area",
    OwnerReplaced "owner replaced by another",
    OwnerTheSame "owner entered again",
    TakenBack "line below 0 of an owner who was replaced after a post",
    OwnerRefused3 "Owner refused with 3",
    OwnerRefused4 "Owner refused with 4",
    OwnerOfUnit0 "Owner of unit 0",
    OwnerOfUnit33 "Owner of unit 33",
    OwnerParty0 "Owner with party 0",
    OwnerParty17 "Owner with party 17",
    OwnerRefused6Before7 "Owner refused with 6, its unit not entered",
    OwnerRefused7 "Owner refused with 7",
    OwnerAfterUnit "Owner entered after its unit, refused with 7 before it",
    // 02, Item 3.
    DayAllPeaks "Day of a peak day, all its peak hours marked",
    DaySomePeaks "Day of a peak day, some of its peak hours marked",
    DayNoPeaks "Day of a peak day, none of its peak hours marked",
    DayOnWeekend "Day of a weekend in a season",
    DayOnHoliday "Day of a holiday in a season, not on a weekend",
    DayOnKept "Day on which a holiday is kept in a season",
    DayOutside "Day outside the seasons",
    DayInWinter "Day of a peak day in winter",
    DayAllMarks "Day with all marks",
    DayNoMarks "Day without marks",
    DayFirst "Day of 1 June",
    DayLast "Day of 31 May",
    DayOfLeap "Day of 29 February",
    DayBeforeAll "Day of a unit without hours",
    DayAfterDay "Day after a Day",
    DayAfterHour "Day after an Hour",
    DayAtOnce "Day after the hour ending 24 of the day before",
    HourAfterDay "Hour after a Day, at a post",
    DayTo49 "SH 49 by a Day before the post",
    DayTo50 "SH 50 by a Day before the post",
    DayOver50 "SH from below 50 to above it by a Day before the post",
    DayCut "Day cut by the end",
    DayRefused3 "Day refused with 3",
    DayRefused4 "Day refused with 4",
    DayOfUnit0 "Day of unit 0",
    DayOfUnit33 "Day of unit 33",
    DayOfMonth0 "Day of month 0",
    DayOfMonth13 "Day of month 13",
    DayOfNoDay "Day of day 0 of a month",
    DayPastMonth "Day past the end of its month, up to 31",
    DayOfNoLeap "Day of 29 February in a common year",
    DayRefused6Before7 "Day refused with 6, its unit not entered",
    DayRefused7 "Day refused with 7",
    DayRefused10AtEnd "Day refused with 10, the last hour at the end of its date",
    DayRefused10Within "Day refused with 10, the last hour within its date",
    DayRefused10Later "Day refused with 10, the last hour after its date",
    HourAfterRefused "hours of a date accepted after its Day was refused with 10, at a post",
}

struct Tally {
    counts: [u64; BRANCH_NAMES.len()],
    y: u32,
    /// Accepted posts of each area.
    posts: [u64; AREAS],
    /// The places of hours that 02, Item 1 decides, in time order, and what each counts as.
    watched: Vec<(u16, Branch)>,
    /// How many of them have been looked at, of each unit.
    looked_at: [usize; UNITS],
    /// Of each unit with an owner at the post before, whether it was ready.
    was_ready: [Option<bool>; UNITS],
    /// Ready excesses by owner at the post before, of each area.
    excesses: [PerParty; AREAS],
    /// Owners whose net was lowered at the post before, of each area, and those of them replaced since.
    saved: [[bool; PARTIES]; AREAS],
    replaced: [[bool; PARTIES]; AREAS],
    /// Units of which an Owner was refused with 7.
    owner_too_early: [bool; UNITS],
    /// The place after the last Day of each unit; 0 without one.
    after_day: [u16; UNITS],
    /// The place after the last hour of each unit when a Day of its date was refused with 10; 0 without one.
    refused_within: [u16; UNITS],
}

/// Which parties have a part of V, a share above 0 and a share below 0 in the area; and how many ready
/// sets with an excess each owns, and whether one that falls short.
#[derive(Default)]
struct Takes {
    part: [bool; PARTIES],
    above: [bool; PARTIES],
    below: [bool; PARTIES],
    ready_over: [usize; PARTIES],
    ready_short: [bool; PARTIES],
}

impl Takes {
    fn note(&mut self, figures: &UnitFigures) {
        for party in 0..PARTIES {
            self.part[party] |= figures.parts[party] > 0;
            self.above[party] |= figures.shares[party] > 0;
            self.below[party] |= figures.shares[party] < 0;
        }
        if let Some(owner) = figures.ready_owner() {
            self.ready_over[owner] += usize::from(figures.s < 0);
            self.ready_short[owner] |= figures.s > 0;
        }
    }
}

impl Tally {
    fn new() -> Tally {
        Tally {
            counts: [0; BRANCH_NAMES.len()],
            y: 0,
            posts: [0; AREAS],
            watched: Vec::new(),
            looked_at: [0; UNITS],
            was_ready: [None; UNITS],
            excesses: [[0; PARTIES]; AREAS],
            saved: [[false; PARTIES]; AREAS],
            replaced: [[false; PARTIES]; AREAS],
            owner_too_early: [false; UNITS],
            after_day: [0; UNITS],
            refused_within: [0; UNITS],
        }
    }

    fn add(&mut self, branch: Branch) {
        self.counts[branch as usize] += 1;
    }

    fn add_if(&mut self, occurred: bool, branch: Branch) {
        self.counts[branch as usize] += u64::from(occurred);
    }

    /// For the year: the hours that would be peak hours if no holiday were kept there, and those that
    /// are peak hours because 19 June is no holiday yet. The kept 31 December is in no season.
    fn year(&mut self, y: u32, year: &Year) {
        self.y = y;
        let in_june = [18, 19, 20].map(|day| (y, 6, day));
        let others = [(y, 7, 3), (y, 7, 5), (y + 1, 1, 2)];
        for date in in_june.into_iter().chain(others) {
            let (_, month, day) = date;
            let free = free(date);
            let june_19 = match (month, day, weekday(date)) {
                (6, 18, FRIDAY) | (6, 19, MONDAY..=FRIDAY) | (6, 20, MONDAY) => match free {
                    Some(_) => Some(Branch::HourOfJune19),
                    None => Some(Branch::HourBeforeJune19),
                },
                _ => None,
            };
            let kept = match free {
                Some(Free::KeptForSaturday) => Some(Branch::HourKeptForSaturday),
                Some(Free::KeptForSunday) => Some(Branch::HourKeptForSunday),
                _ => None,
            };
            let in_year = year.day_of[date_index(month as usize, day as usize)];
            for &hour in season_hours(month) {
                for branch in june_19.into_iter().chain(kept) {
                    self.watched.push((place(in_year, hour), branch));
                }
            }
        }
    }

    /// For each unit of the posted area: its watched hours that have not been looked at yet, if they
    /// are of a kind that counts in a peak hour.
    fn hours(&mut self, number: usize, unit: &Unit) {
        let looked_at = &mut self.looked_at[number];
        while let Some(&(place, branch)) = self.watched.get(*looked_at) {
            if place >= unit.next {
                break;
            }
            let kind = unit.hours[usize::from(place)] >> 24;
            self.counts[branch as usize] += u64::from(kind <= 3);
            *looked_at += 1;
        }
    }

    /// For each unit of the posted area.
    fn unit(&mut self, figures: &UnitFigures) {
        let PeakHours { sh, foh, d } = figures.hours;
        self.add(match figures.by_hours {
            None => Branch::NoPeakHours,
            Some(_) if sh >= 50 => Branch::EnoughHours,
            Some(p) if p >= figures.g => Branch::FewHoursPStays,
            Some(_) => Branch::FewHoursPIsG,
        });
        self.add_if(sh == 49, Branch::ServiceHours49);
        self.add_if(sh == 50, Branch::ServiceHours50);
        self.add_if(sh == 0 && foh > 0, Branch::NoServiceHours);
        self.add_if(d > 0, Branch::DeratedHours);
        let g_above = figures.by_hours.is_some_and(|p| p < figures.g);
        self.add_if(sh >= 50 && g_above, Branch::GDiscarded);
        self.add_if(figures.v == 0, Branch::VIsZero);
        if figures.ready_owner().is_none() {
            self.not_ready(figures);
        }
    }

    /// For each unit of the posted area that is not ready.
    fn not_ready(&mut self, figures: &UnitFigures) {
        self.add(if figures.t_by_installed {
            Branch::TByI
        } else {
            Branch::TByV
        });
        let (s, limit) = (figures.s, figures.limit);
        self.add(match s {
            0 => Branch::SIsZero,
            _ if s < 0 => Branch::Excess,
            _ if s < limit => Branch::ShortfallBelow,
            _ if s == limit => Branch::ShortfallAt,
            _ => Branch::ShortfallLimited,
        });
        let limits = [
            Branch::LimitedClass0,
            Branch::LimitedClass1,
            Branch::LimitedClass2,
        ];
        self.add_if(s > 0 && s > limit, limits[usize::from(figures.class)]);
        self.add_if(-s > limit, Branch::ExcessBeyondLimit);

        let parties = figures.parts.iter().filter(|&&part| part > 0).count();
        self.add_if(
            figures.limited != 0 && parties > 1,
            Branch::SplitOverSeveral,
        );
        let none = |(&part, &share): (&i128, &i128)| part > 0 && share == 0;
        let some_none = figures.parts.iter().zip(&figures.shares).any(none);
        self.add_if(figures.limited != 0 && some_none, Branch::ShareOfNothing);
    }

    /// For an accepted Owner.
    fn owner(&mut self, unit: usize, area: usize, before: Option<usize>, party: usize) {
        if let Some(before) = before {
            self.add(if before == party {
                Branch::OwnerTheSame
            } else {
                Branch::OwnerReplaced
            });
            self.replaced[area][before] |= before != party && self.saved[area][before];
        }
        let too_early = std::mem::take(&mut self.owner_too_early[unit]);
        self.add_if(too_early, Branch::OwnerAfterUnit);
    }

    #[cold]
    fn owner_refused(&mut self, number: Refusal, value: &[u8], units: &[Option<Unit>; UNITS]) {
        self.add_if(number == 3, Branch::OwnerRefused3);
        self.add_if(number == 4, Branch::OwnerRefused4);
        let &[unit, party] = value else {
            return;
        };
        let place = key(unit, UNITS).ok();
        if number == 6 {
            self.add_if(unit == 0, Branch::OwnerOfUnit0);
            self.add_if(unit == 33, Branch::OwnerOfUnit33);
            self.add_if(party == 0, Branch::OwnerParty0);
            self.add_if(party == 17, Branch::OwnerParty17);
            let missing = place.is_some_and(|place| units[place].is_none());
            self.add_if(missing, Branch::OwnerRefused6Before7);
        }
        if let (7, Some(place)) = (number, place) {
            self.add(Branch::OwnerRefused7);
            self.owner_too_early[place] = true;
        }
    }

    /// For each unit of the posted area, with all commitments of the book.
    fn owned(&mut self, number: usize, figures: &UnitFigures, all: &[Option<Commitment>]) {
        let is_ready = figures.ready_owner().is_some();
        let now = figures.owner.map(|_| is_ready);
        let before = std::mem::replace(&mut self.was_ready[number], now);
        self.add_if(
            (before, now) == (Some(false), Some(true)),
            Branch::BecameReady,
        );
        self.add_if(
            (before, now) == (Some(true), Some(false)),
            Branch::BecameCommitted,
        );
        if is_ready {
            self.ready(figures);
            let mut commitments = all.iter().flatten();
            let withdrawn = commitments.any(|c| c.unit == number);
            self.add_if(withdrawn, Branch::ReadyWithdrawn);
        } else if now.is_some() {
            self.add(Branch::OwnerOfCommitted);
            self.add_if(figures.t == 0, Branch::OwnerOfCommittedTIsZero);
        }
    }

    fn ready(&mut self, figures: &UnitFigures) {
        self.add(match figures.s.signum() {
            -1 => Branch::ReadyExcess,
            1 => Branch::ReadyShortfall,
            _ => Branch::ReadyZero,
        });
        self.add_if(-figures.s > figures.limit, Branch::ReadyExcessBeyondLimit);
        self.add_if(figures.by_hours.is_some(), Branch::ReadyHours);
    }

    /// For each party, with its net before 02, Item 2.
    fn excesses(&mut self, area: usize, nets: &PerParty, excesses: &PerParty, takes: &Takes) {
        for (party, (&net, &excess)) in nets.iter().zip(excesses).enumerate() {
            self.saved[area][party] = net > 0 && excess > 0;
            if net > 0 {
                let others = (0..AREAS).filter(|&other| other != area);
                let elsewhere = others.map(|other| self.excesses[other][party]).max();
                self.add_if(elsewhere > Some(0), Branch::ExcessElsewhere);
            }
            if excess == 0 {
                continue;
            }
            let several = takes.ready_over[party] > 1;
            self.add_if(net > 0 && several, Branch::ExcessesAdded);
            let short_too = takes.ready_short[party];
            self.add_if(net > 0 && short_too, Branch::ExcessBesideShortfall);
            self.add(match net {
                ..=-1 => Branch::ExcessBelowZero,
                0 if takes.part[party] => Branch::ExcessAtZero,
                0 => Branch::ExcessWithoutNet,
                _ if excess < net => Branch::ExcessLowers,
                _ if excess == net => Branch::ExcessIsNet,
                _ => Branch::ExcessAboveNet,
            });
        }
        self.excesses[area] = *excesses;
    }

    /// For each party, and once for the post.
    fn nets(&mut self, nets: &PerParty, takes: &Takes) {
        for (party, &net) in nets.iter().enumerate() {
            self.add_if(net > 0, Branch::NetCharge);
            self.add_if(net < 0, Branch::NetCeiling);
            self.add_if(net == 0 && takes.part[party], Branch::NetZero);
            self.add_if(
                takes.above[party] && takes.below[party],
                Branch::NetOfBothSigns,
            );
        }
        let both = nets.iter().any(|&net| net > 0) && nets.iter().any(|&net| net < 0);
        self.add_if(both, Branch::NetsOfBothSigns);
    }

    /// Once for the post, refused with 11 or not; "left over, split" waits for the lines.
    fn money(&mut self, nets: &PerParty, money: &Money) {
        let Money {
            revenue,
            ceiling_sum,
            ..
        } = *money;
        self.add_if(revenue < ceiling_sum, Branch::MoneyShort);
        self.add_if(revenue == 0 && ceiling_sum > 0, Branch::NothingForCeilings);
        self.add_if(revenue == ceiling_sum && revenue > 0, Branch::MoneyEven);
        self.add_if(revenue == 0 && ceiling_sum == 0, Branch::NoMoney);
        for (party, &net) in nets.iter().enumerate() {
            let none = money.charges[party] == 0 && money.ceilings[party] == 0;
            self.add_if(net != 0 && none, Branch::NetWithoutMoney);
        }
    }

    /// For each line of an accepted post, and once for the post.
    fn lines(&mut self, area: usize, money: &Money, lines: &PerParty) {
        self.add_if(money.left > 0, Branch::MoneyLeftSplit);
        self.add_if(
            money.left > 0 && money.ceiling_sum > 0,
            Branch::LeftBesideCeilings,
        );
        for line in lines {
            self.add(match line.signum() {
                1 => Branch::LinePositive,
                -1 => Branch::LineNegative,
                _ => Branch::LineZero,
            });
        }
        let replaced = std::mem::take(&mut self.replaced[area]);
        for (line, replaced) in lines.iter().zip(replaced) {
            self.add_if(replaced && *line < 0, Branch::TakenBack);
        }
        let again = self.posts[area] > 0;
        self.add_if(again, Branch::PostAgain);
        let changed = lines.iter().any(|&line| line != 0);
        self.add_if(again && changed, Branch::PostChanged);
        self.posts[area] += 1;
    }
    /// For an accepted Day, with the place after the unit's last hour before it and after it.
    fn day(
        &mut self,
        number: usize,
        (before, after): (u16, u16),
        (month, of_month): (u8, u8),
        marks: u32,
    ) {
        let season = season_hours(u32::from(month));
        let is_marked = |hour: &&u16| marked(marks, **hour as u8) == 0;
        let marked_peaks = season.iter().filter(is_marked).count();
        let date = (
            self.y + u32::from(month < 6),
            u32::from(month),
            u32::from(of_month),
        );
        let free = (!season.is_empty()).then(|| free(date));
        self.add(match free {
            None => Branch::DayOutside,
            Some(Some(Free::Weekend)) => Branch::DayOnWeekend,
            Some(Some(Free::Holiday)) => Branch::DayOnHoliday,
            Some(Some(_)) => Branch::DayOnKept,
            Some(None) if marked_peaks == season.len() => Branch::DayAllPeaks,
            Some(None) if marked_peaks > 0 => Branch::DaySomePeaks,
            Some(None) => Branch::DayNoPeaks,
        });
        self.add_if(matches!(free, Some(None)) && month < 6, Branch::DayInWinter);
        self.add_if(marks == 0xFF_FFFF, Branch::DayAllMarks);
        self.add_if(marks == 0, Branch::DayNoMarks);
        self.add_if((month, of_month) == (6, 1), Branch::DayFirst);
        self.add_if((month, of_month) == (5, 31), Branch::DayLast);
        self.add_if((month, of_month) == (2, 29), Branch::DayOfLeap);
        self.add(match before {
            0 => Branch::DayBeforeAll,
            _ if before == self.after_day[number] => Branch::DayAfterDay,
            _ => Branch::DayAfterHour,
        });
        self.add_if(before > 0 && before + 24 == after, Branch::DayAtOnce);
        self.after_day[number] = after;
    }

    #[cold]
    fn day_refused(&mut self, number: Refusal, value: &[u8], records: &Records) {
        self.add_if(number == 3, Branch::DayRefused3);
        self.add_if(number == 4, Branch::DayRefused4);
        let (&[unit, month, day, ..], Some(year)) = (value, &records.year) else {
            return;
        };
        let entered = key(unit, UNITS)
            .ok()
            .map(|unit| (unit, &records.units[unit]));
        if number == 6 {
            self.add_if(unit == 0, Branch::DayOfUnit0);
            self.add_if(unit == 33, Branch::DayOfUnit33);
            self.add_if(month == 0, Branch::DayOfMonth0);
            self.add_if(month == 13, Branch::DayOfMonth13);
            self.add_if(day == 0, Branch::DayOfNoDay);
            let is_month = (1..=12).contains(&month);
            self.add_if(is_month && (29..=31).contains(&day), Branch::DayPastMonth);
            self.add_if((month, day) == (2, 29), Branch::DayOfNoLeap);
            let missing = matches!(entered, Some((_, None)));
            self.add_if(missing, Branch::DayRefused6Before7);
        }
        self.add_if(number == 7, Branch::DayRefused7);
        if let (10, Some((place, Some(unit))), Some(day)) = (number, entered, year.day(month, day))
        {
            let after = (day + 1) * 24;
            self.add(match unit.next {
                next if next < after => Branch::DayRefused10Within,
                next if next == after => Branch::DayRefused10AtEnd,
                _ => Branch::DayRefused10Later,
            });
            if unit.next < after {
                self.refused_within[place] = unit.next;
            }
        }
    }

    /// For each unit of the posted area: what its last Day before the post did, and what came after it.
    fn days(&mut self, year: &Year, number: usize, unit: &Unit) {
        let after_day = self.after_day[number];
        self.add_if(after_day > 0 && unit.next > after_day, Branch::HourAfterDay);
        if after_day > 0 && unit.next == after_day {
            let in_service = |&&place: &&u16| unit.hours[usize::from(place)] >> 24 <= 2;
            let before = |place: &&u16| **place < after_day - 24;
            let sh = year.peak.iter().filter(in_service).count();
            let sh_before = year.peak.iter().filter(before).filter(in_service).count();
            self.add_if(sh_before < 49 && sh == 49, Branch::DayTo49);
            self.add_if(sh_before < 50 && sh == 50, Branch::DayTo50);
            self.add_if(sh_before < 50 && sh > 50, Branch::DayOver50);
        }
        let within = std::mem::take(&mut self.refused_within[number]);
        if within > 0 {
            let rest = usize::from(within)..usize::from(within).next_multiple_of(24);
            let later = unit.hours[rest].iter().any(|&hour| hour != NO_HOUR);
            self.add_if(later, Branch::HourAfterRefused);
        }
    }
}
