//! The ranges of the paper's table, so that a field can be put at its ends and past them.

use crate::calendar::{calendar_year, days, month_length};
use crate::records::{frame, FieldFormat, Record, ALL_MARKS};

/// Where a number stands in a record's value, and its range.
#[derive(Clone, Copy)]
pub struct Field {
    offset: usize,
    width: usize,
    low: u32,
    high: u32,
}

/// The fields of a record in delivery year `y`; where a range hangs on another field, that field is right.
pub fn fields(record: &Record, y: u16) -> Vec<Field> {
    let mut ruled = ruled_ranges(record, y).into_iter();
    let mut offset = 0;
    let mut fields = Vec::new();
    for &FieldFormat { width, range } in record.format().fields {
        let (low, high) = range.or_else(|| ruled.next()).expect("a range for each field");
        fields.push(Field { offset, width, low, high });
        offset += width;
    }
    assert!(ruled.next().is_none(), "a field for each range");
    fields
}

/// The ranges that hang on other fields or on the year, and of any number, in the order of their fields.
fn ruled_ranges(record: &Record, y: u16) -> Vec<(u32, u32)> {
    match *record {
        Record::Commitment { first, last, .. } => vec![(0, last.into()), (first.into(), u32::from(days(y)) - 1)],
        Record::Hour { month, kind, .. } => vec![
            (1, 12),
            (1, month_length(calendar_year(y, month), month).into()),
            if kind == 1 { (1, u32::MAX) } else { (0, 0) },
        ],
        Record::Day { month, .. } => {
            vec![(1, 12), (1, month_length(calendar_year(y, month), month).into()), (0, ALL_MARKS)]
        }
        _ => Vec::new(),
    }
}

impl Field {
    /// Both ends and their neighbours within the range.
    pub fn inside(&self) -> Vec<u32> {
        let (low, high) = (self.low, self.high);
        vec![low, low.saturating_add(1).min(high), high.saturating_sub(1).max(low), high]
    }

    /// One past each end, 0 and the highest number that the bytes hold, as far as these lie outside.
    pub fn outside(&self) -> Vec<u32> {
        let highest = (u64::MAX >> (64 - 8 * self.width)) as u32;
        let next = self.high.saturating_add(1).min(highest);
        let candidates = [0, self.low.saturating_sub(1), next, highest];
        candidates.into_iter().filter(|number| !(self.low..=self.high).contains(number)).collect()
    }

    /// The record with this field changed, framed.
    pub fn changed(&self, record: &Record, number: u32) -> Vec<u8> {
        let mut value = record.value();
        value[self.offset..self.offset + self.width].copy_from_slice(&number.to_be_bytes()[4 - self.width..]);
        let mut out = Vec::new();
        frame(&mut out, record.tag(), value.len() as u16, &value);
        out
    }
}
