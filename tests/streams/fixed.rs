//! Enumerated streams: ends of ranges, rows of refusal in pairs, dates and peak hours of every year.

use crate::calendar::{date, days, peak_slots, slot_day, slot_ending, slots, FIRST_YEAR, LAST_YEAR, MONTHS};
use crate::random::Random;
use crate::ranges::{fields, Field};
use crate::records::{frame, past_listed, stream, unlisted_tags, Record, Record::*, ALL_MARKS, LONGEST};

pub fn hour(y: u16, unit: u8, slot: u16, kind: u8, derating: u32) -> Record {
    let (month, day) = date(y, slot_day(slot));
    Hour { unit, month, day, ending: slot_ending(slot), kind, derating }
}

/// The Day record of day `of_year` of delivery year `y`.
pub fn day(y: u16, unit: u8, of_year: u16, marks: u32) -> Record {
    let (month, day) = date(y, of_year);
    Day { unit, month, day, marks }
}

/// A commitment for the whole delivery year.
pub fn whole_year(y: u16, number: u8, unit: u8, party: u8, watts: u32) -> Record {
    Commitment { number, unit, party, first: 0, last: days(y) - 1, watts }
}

/// A book with something of everything in it, and posts that print lines.
pub fn standing_book(y: u16) -> Vec<Record> {
    let mut records = vec![
        Year { y },
        Area { area: 1, price: 9_000 },
        Area { area: 2, price: 50_000 },
        Unit { unit: 1, area: 1, icap: 4_500_000, e: 30_000, f: 5_000, g: 15_000, class: 0 },
        Unit { unit: 2, area: 1, icap: 1_000_000, e: 0, f: 10_000, g: 0, class: 1 },
        Unit { unit: 3, area: 2, icap: 2_000_003, e: 7_001, f: 3_003, g: 9_009, class: 2 },
        whole_year(y, 1, 1, 5, 4_000_000),
        whole_year(y, 2, 2, 6, 1_000_000),
        Commitment { number: 3, unit: 3, party: 5, first: 30, last: 60, watts: 2_000_000 },
        Commitment { number: 4, unit: 3, party: 16, first: 61, last: 300, watts: 1_900_000 },
        // Ready: its excess lowers what party 16 is charged.
        Unit { unit: 6, area: 2, icap: 200_003, e: 70_000, f: 20_000, g: 3_000, class: 0 },
        Owner { unit: 6, party: 16 },
        Load { area: 1, party: 7, obligation: 600_000 },
        Load { area: 2, party: 1, obligation: 1 },
        Load { area: 2, party: 16, obligation: 2 },
    ];
    for (count, &slot) in peak_slots(y)[..3].iter().enumerate() {
        records.push(hour(y, 1, slot, 3, 0));
        records.push(hour(y, 3, slot, 1, 1_000_000 + count as u32));
    }
    // The next peak day, with two of its peak hours.
    records.push(day(y, 3, slot_day(peak_slots(y)[5]), 0x92_8c35));
    records.extend([Post { area: 1 }, Post { area: 2 }]);
    records
}

/// Records that show what the record before them did; many name what only that record may have entered.
fn showing(y: u16) -> Vec<Record> {
    let late = *peak_slots(y).last().expect("a year has peak hours");
    let mut records = vec![Post { area: 1 }, Post { area: 2 }, Load { area: 8, party: 16, obligation: 5 }];
    for unit in [1, 2, 3, 4, 32] {
        records.push(whole_year(y, 40 + unit % 24, unit, 9, 3_000_000));
        records.push(hour(y, unit, late - 1, 0, 0));
        records.push(hour(y, unit, late, 3, 0));
    }
    records.extend([1, 2, 3, 8].map(|area| Post { area }));
    records
}

fn shown(y: u16, before: &[Record], odd: &[u8]) -> Vec<u8> {
    [stream(before), odd.to_vec(), stream(&showing(y))].concat()
}

/// Each field of each record at the ends of its range and past them.
pub fn ends() -> Vec<Vec<u8>> {
    let mut streams = Vec::new();
    for y in [FIRST_YEAR, 2010, 2098, LAST_YEAR] {
        let book = standing_book(y);
        for record in good_records(y) {
            let is_year = matches!(record, Year { .. });
            for field in fields(&record, y) {
                for number in [field.inside(), field.outside()].concat() {
                    let before = if is_year { &[][..] } else { &book };
                    let after = if is_year { stream(&book[1..]) } else { Vec::new() };
                    let odd = [field.changed(&record, number), after].concat();
                    streams.push(shown(y, before, &odd));
                }
            }
        }
    }
    streams
}

/// One record of each kind, and of each kind of hour, that the standing book accepts (but for a second Year).
fn good_records(y: u16) -> Vec<Record> {
    let peaks = peak_slots(y);
    let mut records = vec![
        Year { y },
        Area { area: 1, price: 8_000 },
        Unit { unit: 4, area: 2, icap: 3_000_000, e: 4_000, f: 20_000, g: 1_000, class: 1 },
        Commitment { number: 1, unit: 1, party: 5, first: 10, last: 20, watts: 1_000_000 },
        Load { area: 1, party: 8, obligation: 1_000_000 },
        Post { area: 1 },
        Owner { unit: 6, party: 5 },
        day(y, 3, slot_day(peaks[peaks.len() / 2]), 0xa6_95a3),
    ];
    for kind in 0..=5 {
        let slot = peaks[peaks.len() / 2 + usize::from(kind)];
        records.push(hour(y, 1, slot, kind, if kind == 1 { 5 } else { 0 }));
    }
    records
}

/// Odd records, alone and with two rows of refusal fitting at once, at three stages of a book.
pub fn rows() -> Vec<Vec<u8>> {
    let mut streams = Vec::new();
    let (y, book) = (2010, standing_book(2010));
    for stage in [0, 1, book.len()] {
        let (before, rest) = (&book[..stage], stream(&book[stage..]));
        for odd in odd_records(y) {
            streams.push(shown(y, before, &odd));
            // The same again, and then the book goes on.
            streams.push(shown(y, before, &[&odd[..], &odd[..], &rest[..]].concat()));
        }
    }
    streams
}

fn odd_records(y: u16) -> Vec<Vec<u8>> {
    let mut odd: Vec<Vec<u8>> = odd_values(y).iter().map(|record| stream(&[*record])).collect();
    odd.extend(refused_later(y).iter().flat_map(|record| out_of_range(record, y)));
    let (unlisted, past) = (unlisted_tags(), past_listed());
    let (lowest, highest) = (unlisted[0], unlisted[unlisted.len() - 1]);
    for record in good_records(y) {
        let value = record.value();
        let [shorter, longer] = record.nearest_wrong_lengths();
        let mut framed = |tag: u8, value: &[u8]| {
            let mut out = Vec::new();
            frame(&mut out, tag, value.len() as u16, value);
            odd.push(out);
        };
        framed(record.tag(), &value);
        // Rows 2 and 3, with a value that would else be good, and with one that would be refused later.
        framed(past, &value);
        framed(lowest, &value);
        framed(record.tag(), &value[value.len() - shorter..]);
        framed(record.tag(), &[&value[..], &vec![0; longer - value.len()]].concat());
        framed(record.tag(), &[0xff; LONGEST]);
        framed(highest, &[0xff; LONGEST]);
        framed(record.tag(), &vec![0xff; value.len()]);
        framed(record.tag(), &vec![0; value.len()]);
        // Row 1 with a listed and an unlisted tag; the value is there in full.
        framed(record.tag(), &[1; LONGEST + 1]);
        framed(past, &[1; LONGEST + 1]);
    }
    odd
}

/// Records in range that rows 7 to 10 refuse in the standing book.
fn refused_later(y: u16) -> Vec<Record> {
    let (past, later) = (peak_slots(y)[1], peak_slots(y)[9]);
    vec![
        Unit { unit: 5, area: 3, icap: 9, e: 8, f: 7, g: 6, class: 1 },
        Unit { unit: 1, area: 1, icap: 9, e: 8, f: 7, g: 6, class: 1 },
        Commitment { number: 9, unit: 5, party: 8, first: 7, last: 9, watts: 6 },
        Load { area: 3, party: 5, obligation: 4 },
        Owner { unit: 5, party: 4 },
        hour(y, 5, later, 0, 0),
        hour(y, 5, later, 1, 1),
        hour(y, 1, later, 1, 4_500_000),
        hour(y, 1, past, 0, 0),
        hour(y, 1, past, 1, 4_500_000),
        day(y, 5, slot_day(later), ALL_MARKS),
        day(y, 1, slot_day(past), ALL_MARKS),
        day(y, 5, slot_day(past), 0),
    ]
}

/// The record with each field past each end of its range.
fn out_of_range(record: &Record, y: u16) -> Vec<Vec<u8>> {
    let past_ends = |field: Field| field.outside().into_iter().map(move |number| field.changed(record, number));
    fields(record, y).into_iter().flat_map(past_ends).collect()
}

/// Whole records that rows 5 to 10 refuse, often two at once.
fn odd_values(y: u16) -> Vec<Record> {
    let peaks = peak_slots(y);
    let (past, last, later) = (peaks[0], peaks[2], peaks[9]);
    let unit = |unit, area, icap| Unit { unit, area, icap, e: 0, f: 0, g: 0, class: 0 };
    let commitment = |number, unit| whole_year(y, number, unit, 1, 100);
    let strange_date = |kind, derating| Hour { unit: 1, month: 2, day: 30, ending: 15, kind, derating };
    let mut records = vec![
        Year { y: 2006 },
        Year { y: 2100 },
        Year { y: y + 1 },
        unit(1, 1, 1),
        unit(1, 3, 1),    // 7 and 8
        unit(1, 9, 1),    // 6 and 8
        unit(1, 1, 0),    // 6 and 8
        unit(5, 3, 1),    // 7
        unit(5, 3, 0),    // 6 and 7
        unit(5, 9, 0),    // 6 twice
        unit(33, 3, 1),   // 6 and 7
        commitment(0, 5), // 6 and 7
        commitment(9, 5),
        commitment(65, 1),
        Commitment { number: 9, unit: 5, party: 1, first: 5, last: 4, watts: 1 },
        Load { area: 3, party: 1, obligation: 1 },
        Load { area: 3, party: 17, obligation: 1 },
        Load { area: 3, party: 1, obligation: 100_000_001 },
        Post { area: 3 },
        Post { area: 0 },
        Owner { unit: 0, party: 5 },
        Owner { unit: 33, party: 17 }, // 6 twice
        Owner { unit: 6, party: 0 },   // withdraws nothing
        Owner { unit: 6, party: 17 },
        Owner { unit: 5, party: 5 },  // 7
        Owner { unit: 5, party: 0 },  // 6 and 7
        Owner { unit: 5, party: 17 }, // 6 and 7
        Day { unit: 0, month: 7, day: 1, marks: 1 },
        Day { unit: 33, month: 7, day: 1, marks: 1 },
        Day { unit: 1, month: 0, day: 1, marks: 1 },
        Day { unit: 1, month: 13, day: 1, marks: 1 },
        Day { unit: 1, month: 7, day: 0, marks: 1 },
        Day { unit: 1, month: 7, day: 32, marks: 1 },
        Day { unit: 1, month: 6, day: 31, marks: ALL_MARKS },
        Day { unit: 5, month: 2, day: 30, marks: 1 }, // 6 and 7
        Day { unit: 1, month: 6, day: 1, marks: 1 },  // 10, the last hour within its date
        strange_date(0, 0),
        strange_date(1, 4_500_000), // 6 and 9
    ];
    for slot in [past, last, last + 1, later] {
        for derating in [0, 1, 4_499_999, 4_500_000, 4_500_001, u32::MAX] {
            // 6, 9 and 10, alone and together.
            records.extend([0, 1, 3, 6].map(|kind| hour(y, 1, slot, kind, derating)));
            records.push(hour(y, 5, slot, 1, derating));
            records.push(hour(y, 33, slot, 1, derating));
        }
    }
    records
}

/// The days of the month 0 to 33 and 255 in every month, and in months that do not exist: an hour of each of one unit,
/// and the Day of each of another.
pub fn dates(index: usize) -> Vec<u8> {
    let y = FIRST_YEAR + index as u16;
    let mut records = book_of_one(y);
    records.push(Unit { unit: 2, area: 1, icap: 4_000_000, e: 0, f: 0, g: 0, class: 0 });
    for (order, month) in MONTHS.into_iter().chain([0, 13, 255]).enumerate() {
        for day in (0..=33).chain([255]) {
            let ending = [1, 24, 15, 8][(order + usize::from(day)) % 4];
            let kind = if day % 3 == 0 { 3 } else { 0 };
            records.push(Hour { unit: 1, month, day, ending, kind, derating: 0 });
            records.push(Day { unit: 2, month, day, marks: 0 });
        }
        records.push(Post { area: 1 });
    }
    stream(&records)
}

/// Every hour of a year, in service, derated or out, with a post after each day that shows each peak hour.
pub fn peaks(index: usize) -> Vec<u8> {
    let y = FIRST_YEAR + index as u16;
    let mut random = Random::for_stream("peaks", index);
    let mut records = book_of_one(y);
    for slot in 0..slots(y) {
        let kind = random.pick(&[0, 1, 1, 2, 3, 3, 4, 5]);
        let derating = if kind == 1 { random.between(1, 4_999_999) } else { 0 };
        records.push(hour(y, 1, slot, kind, derating));
        if slot_ending(slot) == 24 {
            records.push(Post { area: 1 });
        }
    }
    stream(&records)
}

/// One unit, committed in full, at a price of many cents for each watt; neither its limit nor rule (f) hides an hour.
pub fn book_of_one(y: u16) -> Vec<Record> {
    vec![
        Year { y },
        Area { area: 1, price: 50_000 },
        Unit { unit: 1, area: 1, icap: 5_000_000, e: 0, f: 0, g: 99_999, class: 2 },
        whole_year(y, 1, 1, 1, 5_000_000),
        Load { area: 1, party: 2, obligation: 1 },
    ]
}
