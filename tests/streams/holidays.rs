//! Hours about the holidays of every delivery year, where 02, Item 1 decides whether they are peak hours.

use crate::calendar::{
    all_five, date, holidays, peak_slots, season, slot_day, slot_ending, Slot, FIRST_YEAR, LAST_YEAR,
};
use crate::compare::reckoned;
use crate::fixed::{book_of_one, hour};
use crate::records::{stream, Record, Record::*};

/// A post; then a record that is refused, whose number tells to which post the lines before it belong.
const SHOWN: [Record; 2] = [Post { area: 1 }, Post { area: 2 }];

/// The hours of one delivery year, with a post after each that prints lines if and only if the hour is counted.
pub fn about(index: usize) -> Vec<u8> {
    stream(&shown_one_by_one(FIRST_YEAR + index as u16))
}

fn shown_one_by_one(y: u16) -> Vec<Record> {
    let mut records = beginning(y);
    for (slot, kind) in hours(y) {
        records.push(telling_hour(y, slot, kind));
        records.extend(SHOWN);
    }
    records
}

/// One hour in service and one out, so that one more of any of the kinds 0 to 3 moves P.
fn beginning(y: u16) -> Vec<Record> {
    let peaks = peak_slots(y);
    let mut records = book_of_one(y);
    records.extend([telling_hour(y, peaks[0], 0), telling_hour(y, peaks[1], 3)]);
    records.extend(SHOWN);
    records
}

fn telling_hour(y: u16, slot: Slot, kind: u8) -> Record {
    hour(y, 1, slot, kind, if kind == 1 { 3_141_593 } else { 0 })
}

/// With their kinds: the first and the last hour of the season, in December those of both seasons, on each of the five
/// holidays and on the two days before and after it, so on the day on which it is kept and the days beside that.
fn hours(y: u16) -> Vec<(Slot, u8)> {
    let days = all_five(y).into_iter().flat_map(|holiday| holiday.day - 2..=holiday.day + 2);
    let ends = |day| match season(date(y, day).0) {
        &[first, .., last] => vec![first, last],
        _ => vec![8, 15, 19, 20],
    };
    let slots = days.flat_map(|day| ends(day).into_iter().map(move |ending| day * 24 + Slot::from(ending) - 1));
    // In the next year each hour is of another kind.
    let kinds = [0, 3, 1, 2].into_iter().cycle().skip(usize::from(y % 4));
    slots.zip(kinds).collect()
}

/// What is in the streams, in words, and whether they tell by the second program what they are made to tell.
pub fn tell() -> (String, Result<(), String>) {
    let mut sums = Sums::default();
    let result =
        (FIRST_YEAR..=LAST_YEAR).try_for_each(|y| sums.add(y).map_err(|why| format!("delivery year {y}, {why}")));
    let Sums { years, kept, dates, hours, counted, on_kept } = sums;
    let days = format!("{years} delivery years, {kept} kept days, {dates} dates");
    (format!("holidays: {days}, {hours} hours, {counted} counted, {on_kept} on kept days"), result)
}

#[derive(Default)]
struct Sums {
    years: usize,
    kept: usize,
    dates: usize,
    hours: usize,
    counted: usize,
    on_kept: usize,
}

impl Sums {
    /// Each post must have lines if and only if its hour is a peak hour, and so none on a kept day; its lines must
    /// change when that peak hour is left out, and when one more of its kind is counted.
    fn add(&mut self, y: u16) -> Result<(), String> {
        let (hours, peaks, kept) = (hours(y), peak_slots(y), kept_days(y)?);
        let posts = lines_of_posts(&shown_one_by_one(y));
        if posts.len() != hours.len() + 1 {
            return Err("an hour is refused".to_string());
        }
        let records: Vec<Record> = hours.iter().map(|&(slot, kind)| telling_hour(y, slot, kind)).collect();
        let mut last_day = None;
        for (at, &(slot, kind)) in hours.iter().enumerate() {
            let (lines, day) = (&posts[at + 1], slot_day(slot));
            let (is_peak, is_kept) = (peaks.contains(&slot), kept.contains(&day));
            let lines_with = |last: &[Record]| {
                let altered = [&beginning(y)[..], &records[..at], &SHOWN, last, &SHOWN].concat();
                lines_of_posts(&altered).pop().expect("a last post")
            };
            let next_peak = peaks[peaks.partition_point(|&peak| peak <= slot)];
            let one_more = lines_with(&[records[at], telling_hour(y, next_peak, kind)]);
            let wrongs = [
                (is_peak && lines.is_empty(), "a peak hour that no line shows"),
                (!is_peak && !lines.is_empty(), "lines after an hour that is no peak hour"),
                (is_kept && !lines.is_empty(), "lines after an hour on a kept day"),
                (is_peak && lines_with(&[]) == *lines, "the same lines without the hour"),
                (one_more == *lines, "the same lines with one more hour"),
            ];
            if let Some((_, wrong)) = wrongs.into_iter().find(|&(is_so, _)| is_so) {
                return Err(format!("month and day {:?}, hour {}: {wrong}", date(y, day), slot_ending(slot)));
            }
            self.dates += usize::from(last_day.replace(day) != Some(day));
            self.hours += 1;
            self.counted += usize::from(is_peak);
            self.on_kept += usize::from(is_kept);
        }
        self.years += 1;
        self.kept += kept.len();
        Ok(())
    }
}

/// The days of a delivery year that are free because a holiday falls on a Saturday or a Sunday.
fn kept_days(y: u16) -> Result<Vec<u16>, String> {
    let moved = holidays(y).into_iter().filter(|holiday| holiday.kept != holiday.day);
    let days: Vec<u16> = moved.map(|holiday| holiday.kept).collect();
    let (dates, by_zeller) = (days.iter().map(|&day| date(y, day)).collect::<Vec<_>>(), kept_by_zeller(y));
    if dates == by_zeller {
        Ok(days)
    } else {
        Err(format!("kept days are {dates:?}, by Zeller {by_zeller:?}"))
    }
}

/// The same as months and days, from the weekdays of the three holidays that are dates.
fn kept_by_zeller(y: u16) -> Vec<(u8, u8)> {
    let june_19 = ((y, 6, 19), (6, 18), (6, 20));
    let july_4 = ((y, 7, 4), (7, 3), (7, 5));
    let january_1 = ((y + 1, 1, 1), (12, 31), (1, 2));
    let all = if y >= 2021 { vec![june_19, july_4, january_1] } else { vec![july_4, january_1] };
    all.into_iter()
        .filter_map(|(date, friday, monday)| match zeller(date) {
            0 => Some(friday),
            1 => Some(monday),
            _ => None,
        })
        .collect()
}

/// Zeller's congruence: 0 is Saturday, 1 is Sunday. January is month 13 of the year before.
fn zeller((year, month, day): (u16, u16, u16)) -> u16 {
    let (year, month) = if month < 3 { (year - 1, month + 12) } else { (year, month) };
    (day + 13 * (month + 1) / 5 + year + year / 4 - year / 100 + year / 400) % 7
}

/// What each post prints.
fn lines_of_posts(records: &[Record]) -> Vec<String> {
    let printed = String::from_utf8(reckoned(&stream(records)).0).expect("text");
    let lines: Vec<&str> = printed.lines().collect();
    let mut posts: Vec<String> = lines.split(|line| line.starts_with("R ")).map(|lines| lines.join(" ")).collect();
    // What comes after the last is the end.
    posts.pop();
    posts
}
