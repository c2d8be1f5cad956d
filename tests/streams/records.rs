//! The records of the paper's table and of 02, Items 2 and 3, written as bytes.

use Record::*;

/// The bytes of tag and length.
pub const HEAD: usize = 3;

/// The longest value of a frame that is not broken.
pub const LONGEST: usize = 32;

/// A field's bytes, and its range where that hangs on nothing but the field.
pub struct FieldFormat {
    pub width: usize,
    pub range: Option<(u32, u32)>,
}

/// The fields of a value stand one behind the other.
pub struct Format {
    name: &'static str,
    pub tag: u8,
    pub fields: &'static [FieldFormat],
}

const fn field(width: usize, low: u32, high: u32) -> FieldFormat {
    FieldFormat { width, range: Some((low, high)) }
}

/// The range hangs on other fields or on the year, or any number will do.
const fn ruled(width: usize) -> FieldFormat {
    FieldFormat { width, range: None }
}

const AREA: FieldFormat = field(1, 1, 8);
const UNIT: FieldFormat = field(1, 1, 32);
const PARTY: FieldFormat = field(1, 1, 16);
const RATE: FieldFormat = field(4, 0, 99_999);

/// The paper's table, with 02, Items 2 and 3. `tests/host/format` reads it from this file.
pub const FORMATS: [Format; 9] = [
    Format { name: "Year", tag: 0x01, fields: &[field(2, 2007, 2099)] },
    Format { name: "Area", tag: 0x02, fields: &[AREA, field(4, 0, 50_000)] },
    Format { name: "Unit", tag: 0x03, fields: &[UNIT, AREA, field(4, 1, 5_000_000), RATE, RATE, RATE, field(1, 0, 2)] },
    Format {
        name: "Commitment",
        tag: 0x04,
        fields: &[field(1, 1, 64), UNIT, PARTY, ruled(2), ruled(2), field(4, 0, 5_000_000)],
    },
    Format { name: "Hour", tag: 0x05, fields: &[UNIT, ruled(1), ruled(1), field(1, 1, 24), field(1, 0, 5), ruled(4)] },
    Format { name: "Load", tag: 0x06, fields: &[AREA, PARTY, field(4, 0, 100_000_000)] },
    Format { name: "Post", tag: 0x07, fields: &[AREA] },
    Format { name: "Owner", tag: 0x08, fields: &[UNIT, PARTY] },
    Format { name: "Day", tag: 0x09, fields: &[UNIT, ruled(1), ruled(1), ruled(3)] },
];

impl Format {
    pub fn named(name: &str) -> &'static Format {
        FORMATS.iter().find(|format| format.name == name).expect("a name of the table")
    }

    pub fn length(&self) -> usize {
        self.fields.iter().map(|field| field.width).sum()
    }
}

/// The lengths that the table gives for a tag: none if it is not listed.
pub fn right_lengths(tag: u8) -> Vec<usize> {
    FORMATS.iter().filter(|format| format.tag == tag).map(Format::length).collect()
}

/// The lengths of whole frames that the table does not give for a tag, ascending.
pub fn wrong_lengths(tag: u8) -> Vec<usize> {
    let right = right_lengths(tag);
    (0..=LONGEST).filter(|length| !right.contains(length)).collect()
}

/// The tags that are not listed, ascending.
pub fn unlisted_tags() -> Vec<u8> {
    (0..=u8::MAX).filter(|&tag| right_lengths(tag).is_empty()).collect()
}

/// The first tag past all that are listed.
pub fn past_listed() -> u8 {
    FORMATS.iter().map(|format| format.tag + 1).max().expect("the table has rows")
}

/// The marks of a Day in service from its first hour to its last.
pub const ALL_MARKS: u32 = 0xff_ffff;

/// The fields of a record, in the order of the table; `icap` is I. Nothing is checked here.
#[derive(Clone, Copy, Debug, PartialEq)]
pub enum Record {
    Year { y: u16 },
    Area { area: u8, price: u32 },
    Unit { unit: u8, area: u8, icap: u32, e: u32, f: u32, g: u32, class: u8 },
    Commitment { number: u8, unit: u8, party: u8, first: u16, last: u16, watts: u32 },
    Hour { unit: u8, month: u8, day: u8, ending: u8, kind: u8, derating: u32 },
    Load { area: u8, party: u8, obligation: u32 },
    Post { area: u8 },
    Owner { unit: u8, party: u8 },
    Day { unit: u8, month: u8, day: u8, marks: u32 },
}

impl Record {
    /// Its name in the table, and the numbers of its fields in their order.
    fn parts(&self) -> (&'static str, Vec<u32>) {
        match *self {
            Year { y } => ("Year", vec![y.into()]),
            Area { area, price } => ("Area", vec![area.into(), price]),
            Unit { unit, area, icap, e, f, g, class } => {
                ("Unit", vec![unit.into(), area.into(), icap, e, f, g, class.into()])
            }
            Commitment { number, unit, party, first, last, watts } => {
                ("Commitment", vec![number.into(), unit.into(), party.into(), first.into(), last.into(), watts])
            }
            Hour { unit, month, day, ending, kind, derating } => {
                ("Hour", vec![unit.into(), month.into(), day.into(), ending.into(), kind.into(), derating])
            }
            Load { area, party, obligation } => ("Load", vec![area.into(), party.into(), obligation]),
            Post { area } => ("Post", vec![area.into()]),
            Owner { unit, party } => ("Owner", vec![unit.into(), party.into()]),
            Day { unit, month, day, marks } => ("Day", vec![unit.into(), month.into(), day.into(), marks]),
        }
    }

    pub fn format(&self) -> &'static Format {
        Format::named(self.parts().0)
    }

    pub fn tag(&self) -> u8 {
        self.format().tag
    }

    pub fn value(&self) -> Vec<u8> {
        let (name, numbers) = self.parts();
        let fields = Format::named(name).fields;
        assert_eq!(numbers.len(), fields.len(), "the fields of {name}");
        let mut value = Vec::new();
        for (number, field) in numbers.into_iter().zip(fields) {
            value.extend(&number.to_be_bytes()[4 - field.width..]);
        }
        value
    }

    /// The nearest wrong lengths below and above its own.
    pub fn nearest_wrong_lengths(&self) -> [usize; 2] {
        let wrong = wrong_lengths(self.tag());
        let above = wrong.partition_point(|&length| length < self.format().length());
        [wrong[above - 1], wrong[above]]
    }

    pub fn write(&self, out: &mut Vec<u8>) {
        let value = self.value();
        frame(out, self.tag(), value.len() as u16, &value);
    }
}

/// A frame whose length need not be that of its value nor that of its tag.
pub fn frame(out: &mut Vec<u8>, tag: u8, length: u16, value: &[u8]) {
    out.push(tag);
    out.extend(length.to_be_bytes());
    out.extend(value);
}

pub fn stream(records: &[Record]) -> Vec<u8> {
    let mut out = Vec::new();
    for record in records {
        record.write(&mut out);
    }
    out
}

/// The input of the paper's worked example.
pub const WORKED_EXAMPLE: [Record; 11] = [
    Year { y: 2010 },
    Area { area: 1, price: 9_000 },
    Unit { unit: 1, area: 1, icap: 4_500_000, e: 30_000, f: 5_000, g: 15_000, class: 0 },
    Unit { unit: 2, area: 1, icap: 1_000_000, e: 0, f: 10_000, g: 0, class: 0 },
    Commitment { number: 1, unit: 1, party: 5, first: 0, last: 364, watts: 4_000_000 },
    Commitment { number: 2, unit: 2, party: 6, first: 0, last: 364, watts: 1_000_000 },
    Load { area: 1, party: 5, obligation: 500_000 },
    Load { area: 1, party: 7, obligation: 600_000 },
    Post { area: 1 },
    Post { area: 1 },
    Post { area: 2 },
];
