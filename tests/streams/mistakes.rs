//! What goes wrong in a random book.

use crate::calendar::{slot_day, slots};
use crate::ranges::fields;
use crate::records::{frame, past_listed, wrong_lengths, Record};
use crate::sketch::Sketch;

impl Sketch {
    pub fn mistake(&mut self) {
        match self.random.below(11) {
            0..=2 => self.out_of_range(),
            3 => self.odd_frame(),
            4..=5 => self.not_entered(),
            6 => self.entered_again(),
            7 => self.heavy_derating(),
            8..=9 => self.not_later(),
            _ => self.two_mistakes(),
        }
    }

    /// A record that is good but for the Year, one out of range and an odd frame.
    pub fn before_the_year(&mut self) {
        let record = self.any();
        if !matches!(record, Record::Year { .. }) {
            record.write(&mut self.out);
        }
        self.out_of_range();
        self.odd_frame();
    }

    fn out_of_range(&mut self) {
        let record = self.any();
        let field = self.random.pick(&fields(&record, self.y));
        let outside = field.outside();
        if !outside.is_empty() {
            let number = self.random.pick(&outside);
            self.out.extend(field.changed(&record, number));
        }
    }

    /// An unlisted tag or a wrong length, with as many bytes as the length says.
    fn odd_frame(&mut self) {
        let highest = if self.random.percent(50) { past_listed() } else { u8::MAX };
        let tag = self.random.between(0, highest.into()) as u8;
        let length = self.random.pick(&wrong_lengths(tag));
        let value = self.random.bytes(length);
        frame(&mut self.out, tag, length as u16, &value);
    }

    /// A good record that names an area or a unit which is not entered.
    fn not_entered(&mut self) {
        let areas: Vec<u8> = (1..=8).filter(|area| !self.areas.contains(area)).collect();
        let units: Vec<u8> = (1..=32).filter(|&unit| self.sets.iter().all(|set| set.unit != unit)).collect();
        if areas.is_empty() || units.is_empty() {
            return;
        }
        let (area, strange) = (self.random.pick(&areas), self.random.pick(&units));
        let record = match self.any() {
            Record::Unit { unit, icap, e, f, g, class, .. } => Record::Unit { unit, area, icap, e, f, g, class },
            Record::Commitment { number, party, first, last, watts, .. } => {
                Record::Commitment { number, unit: strange, party, first, last, watts }
            }
            Record::Hour { month, day, ending, kind, derating, .. } => {
                Record::Hour { unit: strange, month, day, ending, kind, derating }
            }
            Record::Load { party, obligation, .. } => Record::Load { area, party, obligation },
            Record::Owner { party, .. } => Record::Owner { unit: strange, party },
            Record::Day { month, day, marks, .. } => Record::Day { unit: strange, month, day, marks },
            _ => Record::Post { area },
        };
        record.write(&mut self.out);
    }

    fn entered_again(&mut self) {
        let record = match self.sets.len() {
            0 => Record::Year { y: self.y },
            _ if self.random.percent(40) => Record::Year { y: self.random.pick(&[2007, 2010, 2099, 2100, self.y]) },
            count => {
                let unit = self.sets[self.random.below(count)].unit;
                self.unit(unit)
            }
        };
        record.write(&mut self.out);
    }

    fn heavy_derating(&mut self) {
        if self.sets.is_empty() {
            return;
        }
        let at = self.random.below(self.sets.len());
        let (next, icap) = (self.sets[at].next, self.sets[at].icap);
        let back = if self.random.percent(20) { next.min(1) } else { 0 };
        let slot = (next - back).min(slots(self.y) - 1);
        let heavy = self.random.pick(&[icap, icap, icap + 1, u32::MAX]);
        if let Record::Hour { unit, month, day, ending, .. } = self.hour_at(at, slot) {
            Record::Hour { unit, month, day, ending, kind: 1, derating: heavy }.write(&mut self.out);
        }
    }

    /// The last hour again, or one some hours, days or months before it; or the Day of that hour.
    fn not_later(&mut self) {
        if self.sets.is_empty() {
            return;
        }
        let at = self.random.below(self.sets.len());
        let next = self.sets[at].next;
        if next == 0 {
            return;
        }
        let back = self.random.pick(&[1, 1, 2, 5, 23, 24, 25, 24 * 31, 24 * 200]);
        let slot = next.saturating_sub(back);
        let record = if self.random.percent(25) { self.day_at(at, slot_day(slot)) } else { self.hour_at(at, slot) };
        record.write(&mut self.out);
    }

    /// A record out of range in two fields, or one field and the length.
    fn two_mistakes(&mut self) {
        let record = self.any();
        let mut value = record.value();
        for _ in 0..2 {
            let at = self.random.below(value.len());
            value[at] = self.random.pick(&[0, 9, 17, 33, 65, 255]);
        }
        if self.random.percent(20) {
            value.resize(record.nearest_wrong_lengths()[1], 0);
        }
        frame(&mut self.out, record.tag(), value.len() as u16, &value);
    }

    /// Ends in a cut record, or in a length above 32 with anything behind it.
    pub fn broken_end(&mut self) {
        let record = self.any();
        let mut last = Vec::new();
        match self.random.below(3) {
            0 => record.write(&mut last),
            1 => frame(&mut last, record.tag(), self.random.pick(&[33, 34, 256, 257, 65_535]), &record.value()),
            _ => frame(&mut last, self.random.byte(), self.random.between(1, 60) as u16, &[0]),
        }
        if self.random.percent(60) {
            last.truncate(self.random.below(last.len()));
        } else {
            let count = self.random.below(50);
            last.extend(self.random.bytes(count));
        }
        self.out.extend(last);
    }
}
