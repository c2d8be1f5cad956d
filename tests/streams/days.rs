//! One message a day (02, Item 3): examples worked by hand, books of Hours and Days, and any stream with each Day as the
//! 24 Hours that it stands for.
//!
//! The set of the examples has 1,000,000 W, T = I = X and G 10 W, so that S = 1,000,000 − P; with one hour out P is
//! 1,000,000 × SH / (SH + 1), and S by SH, from 0: 999,990; 500,000; 333,334; 250,000; 200,000; 166,667; 142,858. At
//! 50,000 cents per MW-day a watt costs 18.25 cents for 365 days and 18.3 for 366. 1 June 2010 was a Tuesday.

use crate::calendar::{days, peak_slots, slot_day, FIRST_YEAR};
use crate::examples::{hours, one_unit, Example, Y};
use crate::fixed::{book_of_one, day, hour, whole_year};
use crate::random::Random;
use crate::records::{frame, past_listed, stream, Format, Record, Record::*, ALL_MARKS, HEAD, LONGEST};
use crate::sketch::{random_book, Shape};

pub const BOOKS: usize = 1_500;

/// Sets in any share of Hours and Days.
pub fn books(index: usize) -> Vec<u8> {
    let mut random = Random::for_stream("Hours and Days", index);
    let shape = Shape {
        areas: random.pick(&[1, 1, 2]),
        sets: random.pick(&[1, 2, 4]),
        rounds: random.pick(&[2, 4, 8]),
        runs: 90,
        mistakes: random.pick(&[0, 3, 10]),
        every_hour: index % 8 == 0,
        days: random.pick(&[10, 50, 90, 100]),
        ..Shape::USUAL
    };
    random_book(random, &shape)
}

/// Every date of a year as a Day or, one in five, as 24 Hours, with a post after each that shows each peak hour.
pub fn every_date(index: usize) -> Vec<u8> {
    let y = FIRST_YEAR + index as u16;
    let mut random = Random::for_stream("every date", index);
    let mut records = book_of_one(y);
    for of_year in 0..days(y) {
        if of_year == 0 || random.percent(20) {
            let kinds = (0..24).map(|_| random.pick(&[0, 2, 3, 3, 4, 5]));
            records.extend(kinds.zip(of_year * 24..).map(|(kind, slot)| hour(y, 1, slot, kind, 0)));
        } else {
            let marks = random.between(0, ALL_MARKS);
            records.push(day(y, 1, of_year, marks));
        }
        records.push(POST);
    }
    stream(&records)
}

// Examples worked by hand.

/// The peak hours of a summer day, and all others.
const SUMMER: u32 = 0x07_c000;
const NOT_SUMMER: u32 = 0xf8_3fff;

const POST: Record = Post { area: 1 };

pub fn examples() -> Vec<Example> {
    let mut examples = vec![
        each_mark(
            "item 3: each mark of 6 July 2010 alone",
            (7, 6),
            "P 1 1 -5475000\nP 1 2 5475000\n\
             P 1 1 136875\nP 1 2 -136875\nP 1 1 146000\nP 1 2 -146000\nP 1 1 155125\nP 1 2 -155125\n\
             P 1 1 164250\nP 1 2 -164250\nP 1 1 173375\nP 1 2 -173375\nE 124 124\n",
        ),
        each_mark(
            "item 3: each mark of 18 January 2011 alone",
            (1, 18),
            "P 1 1 -5475000\nP 1 2 5475000\n\
             P 1 1 73000\nP 1 2 -73000\nP 1 1 82125\nP 1 2 -82125\n\
             P 1 1 173375\nP 1 2 -173375\nP 1 1 182500\nP 1 2 -182500\nE 124 124\n",
        ),
        days_alone(),
        hours_and_days(),
        part_of_the_date(),
        forced_hours(),
        another_unit(),
        ends_of_the_year(),
        leap_day(2011, "P 1 1 -18299817\nP 1 2 18299817\nP 1 1 14639817\nP 1 2 -14639817\nE 9 9\n"),
        leap_day(2010, "P 1 1 -18249817\nP 1 2 18249817\nR 8 6\nE 9 8\n"),
        leap_day(2099, "P 1 1 -18249817\nP 1 2 18249817\nR 8 6\nE 9 8\n"),
        no_dates(),
    ];
    examples.extend(fifty());
    examples.extend(holidays());
    examples
}

fn example(name: &'static str, more: &[Record], expected: &'static str) -> Example {
    Example { name, records: [&set_up(Y)[..], more].concat(), expected }
}

fn set_up(y: u16) -> Vec<Record> {
    let mut records = one_unit(y);
    records.pop();
    records
}

/// With the hour ending 15 of 1 June out and posted.
fn one_out(name: &'static str, y: u16, more: &[Record], expected: &'static str) -> Example {
    Example { name, records: [&set_up(y)[..], &[out(6, 1, 15), POST], more].concat(), expected }
}

fn at(month: u8, day: u8, marks: u32) -> Record {
    Day { unit: 1, month, day, marks }
}

fn out(month: u8, day: u8, ending: u8) -> Record {
    Hour { unit: 1, month, day, ending, kind: 3, derating: 0 }
}

fn running(month: u8, day: u8, ending: u8) -> Record {
    Hour { unit: 1, month, day, ending, kind: 0, derating: 0 }
}

/// By the hour ending, from 1.
const MARKS: [u32; 24] = [
    0x00_0001, 0x00_0002, 0x00_0004, 0x00_0008, 0x00_0010, 0x00_0020, 0x00_0040, 0x00_0080, // the last byte
    0x00_0100, 0x00_0200, 0x00_0400, 0x00_0800, 0x00_1000, 0x00_2000, 0x00_4000, 0x00_8000, // the middle byte
    0x01_0000, 0x02_0000, 0x04_0000, 0x08_0000, 0x10_0000, 0x20_0000, 0x40_0000, 0x80_0000, // the first byte
];

/// Set h of 1,000 × h watts, one of its peak hours out, has only hour h in service on the date: S = I, and in a peak hour
/// it falls by half of I, 500 × h watts or 9,125 × h cents. All of them are committed by party 1: 300,000 W, 5,475,000.
fn each_mark(name: &'static str, (month, day): (u8, u8), expected: &'static str) -> Example {
    let mut records = vec![Year { y: Y }, Area { area: 1, price: 50_000 }, Load { area: 1, party: 2, obligation: 1 }];
    for unit in 1..=24 {
        let icap = 1_000 * u32::from(unit);
        records.push(Unit { unit, area: 1, icap, e: 0, f: 0, g: 99_999, class: 2 });
        records.push(whole_year(Y, unit, unit, 1, icap));
        records.push(Hour { unit, month: 6, day: 1, ending: 15, kind: 3, derating: 0 });
    }
    records.push(POST);
    for (unit, marks) in (1..=24).zip(MARKS) {
        records.extend([Day { unit, month, day, marks }, POST]);
    }
    Example { name, records, expected }
}

/// Nothing counts until the hour ending 15 of 3 June, which makes S 0. After the hour out S is 500,000, and after the
/// five peak hours of Monday 7 June 142,858.
fn days_alone() -> Example {
    example(
        "item 3: Days alone, then an hour out and all marks",
        &[
            POST,
            at(6, 1, 0),
            POST,
            at(6, 2, NOT_SUMMER),
            POST,
            at(6, 3, 0x00_4000),
            POST,
            out(6, 4, 15),
            POST,
            at(6, 7, ALL_MARKS),
            POST,
        ],
        "P 1 1 -18249817\nP 1 2 18249817\nP 1 1 18249817\nP 1 2 -18249817\nP 1 1 -9125000\nP 1 2 9125000\n\
         P 1 1 6517842\nP 1 2 -6517842\nE 16 16\n",
    )
}

/// After the Day of 2 June (SH 5) its hour ending 24, its Day and the one before are refused; after the hour ending 1 of
/// 3 June its Day is. With the hours ending 15 of 3 June SH is 6 and with Friday 4 June, without that hour, 10.
fn hours_and_days() -> Example {
    one_out(
        "item 3: Hours and Days of one unit",
        Y,
        &[
            at(6, 2, SUMMER),
            running(6, 2, 24),
            at(6, 2, 0),
            at(6, 1, ALL_MARKS),
            POST,
            running(6, 3, 1),
            at(6, 3, ALL_MARKS),
            running(6, 3, 15),
            POST,
            at(6, 4, 0x07_8000),
            running(6, 4, 15),
            POST,
        ],
        "P 1 1 -18249817\nP 1 2 18249817\nR 9 10\nR 10 10\nR 11 10\nP 1 1 15208145\nP 1 2 -15208145\n\
         R 14 10\nP 1 1 434514\nP 1 2 -434514\nR 18 10\nP 1 1 948051\nP 1 2 -948051\nE 19 14\n",
    )
}

/// A Day of 1 June is refused after its hour ending 15, and so are the same date without marks and with its later hours
/// alone: none of their hours counts and the last hour stays, so that the hours ending 16 and 24 follow.
fn part_of_the_date() -> Example {
    one_out(
        "item 3: a Day after a part of its date",
        Y,
        &[
            at(6, 1, ALL_MARKS),
            at(6, 1, 0),
            at(6, 1, 0x07_8000),
            POST,
            running(6, 1, 16),
            POST,
            at(6, 1, ALL_MARKS),
            out(6, 1, 24),
            at(6, 1, ALL_MARKS),
            at(6, 2, ALL_MARKS),
            POST,
        ],
        "P 1 1 -18249817\nP 1 2 18249817\nR 8 10\nR 9 10\nR 10 10\nP 1 1 9124817\nP 1 2 -9124817\n\
         R 14 10\nR 16 10\nP 1 1 6517842\nP 1 2 -6517842\nE 18 13\n",
    )
}

/// One hour derated by 400,001 W: P is 599,999. With the five of a Day it is 5,599,999 / 6 = 933,333, with an hour out
/// after it 5,599,999 / 7 = 799,999, and with five more 10,599,999 / 12 = 883,333.
fn forced_hours() -> Example {
    let derated = Hour { unit: 1, month: 6, day: 1, ending: 19, kind: 1, derating: 400_001 };
    example(
        "item 3: Days beside derated hours and hours out",
        &[derated, POST, at(6, 2, SUMMER), POST, out(6, 3, 17), POST, at(6, 4, SUMMER), POST],
        "P 1 1 -7300018\nP 1 2 7300018\nP 1 1 6083346\nP 1 2 -6083346\nP 1 1 -2433346\nP 1 2 2433346\n\
         P 1 1 1520846\nP 1 2 -1520846\nE 13 13\n",
    )
}

/// The Day of another unit counts nothing for this one and does not move its last hour.
fn another_unit() -> Example {
    one_out(
        "item 3: Days of two units",
        Y,
        &[
            Day { unit: 2, month: 6, day: 2, marks: ALL_MARKS },
            Unit { unit: 2, area: 1, icap: 5, e: 0, f: 0, g: 0, class: 0 },
            Day { unit: 2, month: 6, day: 2, marks: ALL_MARKS },
            POST,
            at(6, 2, 0x04_0000),
            POST,
            Day { unit: 2, month: 6, day: 2, marks: ALL_MARKS },
        ],
        "P 1 1 -18249817\nP 1 2 18249817\nR 8 7\nP 1 1 9124817\nP 1 2 -9124817\nR 14 10\nE 14 12\n",
    )
}

/// The first Day of the year is that of a unit without hours, and none comes after the last, nor an hour.
fn ends_of_the_year() -> Example {
    example(
        "item 3: 1 June the first, 31 May the last",
        &[
            at(6, 1, SUMMER),
            running(6, 1, 1),
            running(6, 1, 24),
            out(6, 2, 15),
            POST,
            at(5, 31, ALL_MARKS),
            running(5, 31, 24),
            at(5, 31, ALL_MARKS),
            at(5, 30, ALL_MARKS),
            at(6, 1, ALL_MARKS),
            POST,
        ],
        "R 7 10\nR 8 10\nP 1 1 -3041672\nP 1 2 3041672\nR 12 10\nR 13 10\nR 14 10\nR 15 10\nE 16 10\n",
    )
}

/// Wednesday 29 February 2012 has four peak hours; in 2011 and 2100 there is no such date.
fn leap_day(y: u16, expected: &'static str) -> Example {
    let name = match y {
        2011 => "item 3: 29 February 2012",
        2010 => "item 3: no 29 February 2011",
        _ => "item 3: no 29 February 2100",
    };
    one_out(name, y, &[at(2, 29, ALL_MARKS), POST], expected)
}

/// After dates that are none, the last of a unit that is not entered, the hour ending 16 of 1 June still follows.
fn no_dates() -> Example {
    let none = [(0, 1), (13, 1), (255, 1), (6, 0), (5, 32), (5, 255), (6, 31), (9, 31), (11, 31), (2, 30), (4, 31)];
    let none = none.map(|(month, day)| at(month, day, ALL_MARKS));
    let missing = Day { unit: 2, month: 2, day: 30, marks: ALL_MARKS };
    one_out(
        "item 3: dates that are none",
        Y,
        &[&none[..], &[missing, running(6, 1, 16), POST]].concat(),
        "P 1 1 -18249817\nP 1 2 18249817\nR 8 6\nR 9 6\nR 10 6\nR 11 6\nR 12 6\nR 13 6\nR 14 6\nR 15 6\n\
         R 16 6\nR 17 6\nR 18 6\nR 19 6\nP 1 1 9124817\nP 1 2 -9124817\nE 21 9\n",
    )
}

/// Figure f by Days, in class 1: fifty hours out, and g 10,000, so that S is 100,000 below SH 50; at 50 it is 500,000, at
/// 51 495,050 and at 52 490,197. Nine whole days are 45.
fn fifty() -> [Example; 3] {
    let to = |name, marks: &[u32], expected| {
        let mut records = vec![
            Year { y: Y },
            Area { area: 1, price: 50_000 },
            Unit { unit: 1, area: 1, icap: 1_000_000, e: 10_000, f: 0, g: 10_000, class: 1 },
            whole_year(Y, 1, 1, 1, 1_000_000),
            Load { area: 1, party: 2, obligation: 1 },
        ];
        records.extend(hours(1, 50, 0));
        let mut peak_days: Vec<u16> = peak_slots(Y)[50..].iter().map(|&slot| slot_day(slot)).collect();
        peak_days.dedup();
        records.extend(peak_days[..9].iter().map(|&of_year| day(Y, 1, of_year, SUMMER)));
        for (&of_year, &marks) in peak_days[9..].iter().zip(marks) {
            records.extend([day(Y, 1, of_year, marks), POST]);
        }
        Example { name, records, expected }
    };
    [
        to(
            "item 3: SH 49, 50 and 51 by Days",
            &[0x03_c000, 0x04_0000, 0x01_0000],
            "P 1 1 -1825000\nP 1 2 1825000\nP 1 1 -7300000\nP 1 2 7300000\nP 1 1 90338\nP 1 2 -90338\nE 70 70\n",
        ),
        to(
            "item 3: SH 45, then 50 by one Day",
            &[0, ALL_MARKS],
            "P 1 1 -1825000\nP 1 2 1825000\nP 1 1 -7300000\nP 1 2 7300000\nE 68 68\n",
        ),
        to(
            "item 3: SH 47, then 52 by one Day",
            &[0x00_c000, ALL_MARKS],
            "P 1 1 -1825000\nP 1 2 1825000\nP 1 1 -7121095\nP 1 2 7121095\nE 68 68\n",
        ),
    ]
}

/// All marks on a peak day, on two days that are free and on a peak day again: SH is 5, then 10; in winter 4, then 8, and
/// from July to January 9.
fn holidays() -> [Example; 7] {
    let summer = "P 1 1 -18249817\nP 1 2 18249817\nP 1 1 15208145\nP 1 2 -15208145\nP 1 1 1382565\nP 1 2 -1382565\n\
                  E 15 15\n";
    let winter = "P 1 1 -18249817\nP 1 2 18249817\nP 1 1 14599817\nP 1 2 -14599817\nP 1 1 1622206\nP 1 2 -1622206\n\
                  E 15 15\n";
    let of_366 = "P 1 1 -18299817\nP 1 2 18299817\nP 1 1 15249811\nP 1 2 -15249811\nP 1 1 1220006\nP 1 2 -1220006\n\
                  E 15 15\n";
    let dates = [
        (2009, "item 3: 3 and 4 July 2009 no", [(7, 2), (7, 3), (7, 4), (7, 6)], summer),
        (2010, "item 3: 4 and 5 July 2010 no", [(7, 2), (7, 4), (7, 5), (7, 6)], summer),
        // Friday 19 June is no holiday yet. Sunday 5 July.
        (2020, "item 3: 19 June 2020, 3 July no", [(6, 19), (7, 3), (7, 5), (7, 6)], summer),
        (2021, "item 3: 18 and 19 June 2021 no", [(6, 17), (6, 18), (6, 19), (6, 21)], summer),
        (2022, "item 3: 19 and 20 June 2022 no", [(6, 17), (6, 19), (6, 20), (6, 21)], summer),
        // The third Mondays.
        (2010, "item 3: 17 January and 21 February 2011 no", [(1, 3), (1, 17), (2, 21), (2, 22)], winter),
        (2011, "item 3: 1 and 2 January 2012 no", [(7, 5), (1, 1), (1, 2), (1, 3)], of_366),
    ];
    dates.map(|(y, name, dates, expected)| {
        one_out(name, y, &dates.map(|(month, day)| [at(month, day, ALL_MARKS), POST]).concat(), expected)
    })
}

/// Days refused with each number, in bytes, with what they must print. Those up to the last are of 31 May, in hours after
/// which none would follow; each time an hour of 1 June does, and SH is 1 to 4.
pub fn refused() -> (&'static str, Vec<u8>, &'static str) {
    let last = at(5, 31, ALL_MARKS);
    let value = last.value();
    let tag = last.tag();
    let framed = |tag, value: &[u8]| {
        let mut out = Vec::new();
        frame(&mut out, tag, value.len() as u16, value);
        out
    };
    let refused_and_hour = |refused: Vec<Vec<u8>>, ending| [refused.concat(), stream(&[running(6, 1, ending), POST])];
    let set_up = set_up(Y);
    let set_up = [&[last], &set_up[..2], &[last], &set_up[2..], &[out(6, 1, 15), POST]].concat();
    let bytes = [
        vec![stream(&set_up)],
        refused_and_hour(vec![framed(past_listed(), &value)], 16).to_vec(),
        refused_and_hour(vec![framed(tag, &value[..5]), framed(tag, &[&value[..], &[0]].concat())], 17).to_vec(),
        refused_and_hour([0, 33, 255].map(|unit| framed(tag, &[&[unit], &value[1..]].concat())).to_vec(), 18).to_vec(),
        refused_and_hour(vec![stream(&[at(6, 1, ALL_MARKS)])], 19).to_vec(),
        // The last Day is cut.
        vec![stream(&[last])[..HEAD + 5].to_vec()],
    ];
    (
        "item 3: Days refused with 1, 2, 3, 4, 6, 7 and 10",
        bytes.concat().concat(),
        "R 1 4\nR 4 7\nP 1 1 -18249817\nP 1 2 18249817\nR 10 2\nP 1 1 9124817\nP 1 2 -9124817\n\
         R 13 3\nR 14 3\nP 1 1 3041655\nP 1 2 -3041655\nR 17 6\nR 18 6\nR 19 6\nP 1 1 1520845\nP 1 2 -1520845\n\
         R 22 10\nP 1 1 912500\nP 1 2 -912500\nR 25 1\nE 25 15\n",
    )
}

/// The bytes of 02, Item 3, and the hours that they stand for.
pub fn bytes() -> Result<(), String> {
    let found = stream(&[Day { unit: 3, month: 7, day: 5, marks: 0x12_3480 }]);
    if found != [0x09, 0, 6, 3, 7, 5, 0x12, 0x34, 0x80] {
        return Err(format!("a Day is written as {found:x?}"));
    }
    let running: Vec<u8> = hours_of(&found[HEAD..]).filter(|(_, kind)| *kind == 0).map(|(ending, _)| ending).collect();
    if running != [8, 11, 13, 14, 18, 21] {
        return Err(format!("12 34 80 are the hours {running:?}"));
    }
    Ok(())
}

// Any stream with its Days as Hours.

/// Hours ending 1 to 24 and their kinds; the lowest bit of the last byte is the hour ending 1.
fn hours_of(day: &[u8]) -> impl Iterator<Item = (u8, u8)> + '_ {
    (1..=24).map(|ending| {
        let (byte, bit) = (day[5 - usize::from(ending - 1) / 8], (ending - 1) % 8);
        (ending, if byte & 1 << bit == 0 { 5 } else { 0 })
    })
}

/// The stream with its 24 Hours in the place of each accepted Day and nothing in that of a refused one, and what must
/// then be printed: the same lines after the same records, the numbers of the records counted anew. None where no whole
/// Day is tried.
pub fn as_hours(stream: &[u8], printed: &[u8]) -> Option<(Vec<u8>, Vec<u8>)> {
    let printed = std::str::from_utf8(printed).expect("text");
    let lines: Vec<Vec<&str>> = printed.lines().map(|line| line.split(' ').collect()).collect();
    let mut refused = lines.iter().filter(|line| line[0] == "R").map(|line| number(line[1])).peekable();
    let [day_format, hour_format] = ["Day", "Hour"].map(Format::named);

    // The number that each record now has, none if it is left out.
    let (mut numbers, mut out, mut rest) = (Vec::new(), Vec::new(), stream);
    let (mut tried, mut accepted_days) = (0, 0);
    while let Some(value) = whole_value(rest) {
        let is_refused = refused.next_if_eq(&(numbers.len() + 1)).is_some();
        let is_day = rest[0] == day_format.tag && value.len() == day_format.length();
        accepted_days += usize::from(is_day && !is_refused);
        if !is_day {
            out.extend(&rest[..HEAD + value.len()]);
            tried += 1;
        } else if !is_refused {
            for (ending, kind) in hours_of(value) {
                let hour_value = [value[0], value[1], value[2], ending, kind, 0, 0, 0, 0];
                frame(&mut out, hour_format.tag, hour_value.len() as u16, &hour_value);
            }
            tried += 24;
        }
        numbers.push((!is_day || !is_refused).then_some(tried));
        rest = &rest[HEAD + value.len()..];
    }
    if !numbers.iter().zip(0..).any(|(number, before)| *number != Some(before + 1)) {
        return None;
    }
    if !rest.is_empty() {
        out.extend(rest);
        tried += 1;
        numbers.push(Some(tried));
    }

    let mut expected = String::new();
    for line in lines {
        match line[..] {
            ["R", n, refusal] => {
                let now = numbers[number(n) - 1];
                expected += &now.map_or(String::new(), |now| format!("R {now} {refusal}\n"));
            }
            ["E", _, accepted] => expected += &format!("E {tried} {}\n", number(accepted) + 23 * accepted_days),
            _ => expected += &(line.join(" ") + "\n"),
        }
    }
    Some((out, expected.into_bytes()))
}

fn number(word: &str) -> usize {
    word.parse().expect("a number")
}

/// The value of the record in front, if it is whole.
fn whole_value(bytes: &[u8]) -> Option<&[u8]> {
    let &[_, high, low, ref value @ ..] = bytes else { return None };
    let length = usize::from(u16::from_be_bytes([high, low]));
    value.get(..length).filter(|_| length <= LONGEST)
}
