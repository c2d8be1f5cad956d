//! The generator's own calendar, by which it aims at peak hours; no comparison rests on it.

use std::sync::OnceLock;

pub const FIRST_YEAR: u16 = 2007;
pub const LAST_YEAR: u16 = 2099;

pub fn is_leap(year: u16) -> bool {
    year % 4 == 0 && (year % 100 != 0 || year % 400 == 0)
}

pub fn month_length(year: u16, month: u8) -> u8 {
    match month {
        2 if is_leap(year) => 29,
        2 => 28,
        4 | 6 | 9 | 11 => 30,
        _ => 31,
    }
}

/// The days of delivery year `y`.
pub fn days(y: u16) -> u16 {
    if is_leap(y + 1) {
        366
    } else {
        365
    }
}

/// The calendar year in which a month of delivery year `y` lies.
pub fn calendar_year(y: u16, month: u8) -> u16 {
    if month >= 6 {
        y
    } else {
        y + 1
    }
}

/// The months of a delivery year in their order.
pub const MONTHS: [u8; 12] = [6, 7, 8, 9, 10, 11, 12, 1, 2, 3, 4, 5];

/// Month and day of the month of day `day` of delivery year `y`; day 0 is 1 June.
pub fn date(y: u16, day: u16) -> (u8, u8) {
    let mut left = day;
    for month in MONTHS {
        let length = u16::from(month_length(calendar_year(y, month), month));
        if left < length {
            return (month, left as u8 + 1);
        }
        left -= length;
    }
    panic!("day {day} is not in delivery year {y}")
}

/// The day of delivery year `y` on which a date falls; day 0 is 1 June.
fn day_of(y: u16, month: u8, day_of_month: u8) -> u16 {
    let before = MONTHS.into_iter().take_while(|&earlier| earlier != month);
    let length = |earlier| u16::from(month_length(calendar_year(y, earlier), earlier));
    before.map(length).sum::<u16>() + u16::from(day_of_month) - 1
}

/// 0 is Monday.
fn weekday(y: u16, day: u16) -> u32 {
    // 1 January 2007 was a Monday.
    let past_years: u32 = (2007..y).map(|year| if is_leap(year) { 366 } else { 365 }).sum();
    let to_june: u32 = (1..6).map(|month| u32::from(month_length(y, month))).sum();
    (past_years + to_june + u32::from(day)) % 7
}

/// A holiday and the weekday on which it is kept, as days of a delivery year.
#[derive(Clone, Copy)]
pub struct Holiday {
    pub day: u16,
    pub kept: u16,
}

impl Holiday {
    /// 02, Item 1: one that falls on a Saturday is kept on the Friday before, one on a Sunday on the Monday after.
    fn on(y: u16, day: u16) -> Holiday {
        let kept = match weekday(y, day) {
            5 => day - 1,
            6 => day + 1,
            _ => day,
        };
        Holiday { day, kept }
    }
}

/// 02, Item 1: the holidays of delivery year `y` in time order; the first, 19 June, is one from 2021 on only.
pub fn all_five(y: u16) -> [Holiday; 5] {
    let third_monday = |month| (day_of(y, month, 15)..).find(|&day| weekday(y, day) == 0).expect("a Monday");
    let days = [day_of(y, 6, 19), day_of(y, 7, 4), day_of(y, 1, 1), third_monday(1), third_monday(2)];
    days.map(|day| Holiday::on(y, day))
}

pub fn holidays(y: u16) -> Vec<Holiday> {
    let from = if y >= 2021 { 0 } else { 1 };
    all_five(y)[from..].to_vec()
}

/// The hours ending that are peak hours on the working days of a month.
pub fn season(month: u8) -> &'static [u8] {
    match month {
        6..=8 => &[15, 16, 17, 18, 19],
        1 | 2 => &[8, 9, 19, 20],
        _ => &[],
    }
}

fn is_peak(y: u16, holidays: &[Holiday], slot: Slot) -> bool {
    let (day, ending) = (slot_day(slot), slot_ending(slot));
    let in_season = season(date(y, day).0).contains(&ending);
    in_season && weekday(y, day) < 5 && holidays.iter().all(|holiday| holiday.day != day && holiday.kept != day)
}

/// An hour of a delivery year, counted from 0 at hour ending 1 of 1 June.
pub type Slot = u16;

pub fn slots(y: u16) -> Slot {
    days(y) * 24
}

pub fn slot_day(slot: Slot) -> u16 {
    slot / 24
}

pub fn slot_ending(slot: Slot) -> u8 {
    (slot % 24) as u8 + 1
}

/// The peak hours of delivery year `y` in time order.
pub fn peak_slots(y: u16) -> &'static [Slot] {
    const YEARS: usize = (LAST_YEAR - FIRST_YEAR) as usize + 1;
    static TABLE: [OnceLock<Vec<Slot>>; YEARS] = [const { OnceLock::new() }; YEARS];
    TABLE[usize::from(y - FIRST_YEAR)].get_or_init(|| {
        let holidays = holidays(y);
        (0..slots(y)).filter(|&slot| is_peak(y, &holidays, slot)).collect()
    })
}
