//! Streams longer than any likely read buffer.

use crate::calendar::{days, slots};
use crate::fixed::{day, hour, whole_year};
use crate::random::Random;
use crate::records::{frame, past_listed, stream, Format, Record, Record::*, FORMATS, HEAD, LONGEST, WORKED_EXAMPLE};
use crate::sketch::{random_book, Shape};

/// Random books of thousands and tens of thousands of records, with few mistakes.
pub fn long_books(index: usize) -> Vec<u8> {
    let random = Random::for_stream("long books", index);
    let mistakes = [0, 1, 5][index % 3];
    let rounds = [10, 14, 25][index / 3 % 3];
    let sets = [12, 20, 32][index / 9 % 3];
    let shape =
        Shape { areas: 6, parties: 10, sets, commitments: 50, rounds, mistakes, every_hour: true, ..Shape::USUAL };
    random_book(random, &shape)
}

/// Thousands of posts with all sixteen lines, or of refused records: more output than a pipe holds.
pub fn long_outputs(index: usize) -> Vec<u8> {
    let mut records = WORKED_EXAMPLE[..4].to_vec();
    records.extend((1..=16).map(|party| whole_year(2010, party, party % 2 + 1, party, 1_000_000)));
    records.extend((1..=16).map(|party| Load { area: 1, party, obligation: u32::from(party) }));
    for count in 0..4_000 + index as u32 {
        match index % 3 {
            0 => records.extend([Area { area: 1, price: 25_000 + count }, Post { area: 1 }]),
            1 => records.extend([Post { area: 2 }; 8]),
            _ => records.extend([Area { area: 1, price: count % 50 }, Post { area: 1 }, Post { area: 9 }]),
        }
    }
    stream(&records)
}

/// Places at which a read buffer may end.
const BOUNDARIES: [usize; 6] = [4_096, 8_192, 16_384, 32_768, 65_536, 131_072];

/// Each kind of record laid across each boundary at each of its bytes.
pub fn straddles() -> Vec<(usize, Record, usize)> {
    let mut places = Vec::new();
    for boundary in BOUNDARIES {
        for record in straddlers() {
            let size = HEAD + record.value().len();
            places.extend((0..=size).map(|before| (boundary, record, before)));
        }
    }
    places
}

/// One record of each kind; all but the Year are accepted.
pub fn straddlers() -> [Record; FORMATS.len()] {
    [
        Year { y: 2010 },
        Area { area: 1, price: 12_345 },
        Unit { unit: 3, area: 1, icap: 3_333_333, e: 1_111, f: 22_222, g: 3_333, class: 2 },
        Commitment { number: 2, unit: 2, party: 9, first: 3, last: 360, watts: 777_777 },
        hour(2010, 1, slots(2010) - 1, 0, 0),
        Load { area: 1, party: 12, obligation: 99_999 },
        Post { area: 1 },
        Owner { unit: 4, party: 5 },
        day(2010, 2, days(2010) - 1, 0x12_3456),
    ]
}

/// The record stands so that `before` of its bytes come before the boundary.
pub fn straddle(boundary: usize, record: Record, before: usize) -> Vec<u8> {
    let mut bytes = stream(&WORKED_EXAMPLE[..8]);
    // Ready once it has an owner, and then with an excess.
    Unit { unit: 4, area: 1, icap: 98_765, e: 0, f: 4_321, g: 0, class: 0 }.write(&mut bytes);
    let start = boundary - before;
    let mut slot = 0;
    let most = HEAD + LONGEST;
    let [hour_size, load_size] = ["Hour", "Load"].map(|name| HEAD + Format::named(name).length());
    // Hours and then loads up to the place, and frames of an unlisted tag for the rest.
    while start - bytes.len() >= most + hour_size && slot + 1 < slots(2010) {
        hour(2010, 1, slot, [0, 2, 3, 4][usize::from(slot % 4)], 0).write(&mut bytes);
        slot += 1;
    }
    while start - bytes.len() >= most + load_size {
        Load { area: 1, party: 7, obligation: bytes.len() as u32 }.write(&mut bytes);
    }
    let gap = start - bytes.len();
    let parts = if gap > most { vec![gap / 2, gap - gap / 2] } else { vec![gap] };
    for part in parts {
        let length = part - HEAD;
        frame(&mut bytes, past_listed(), length as u16, &vec![0xaa; length]);
    }
    assert_eq!(bytes.len(), start);
    record.write(&mut bytes);
    Commitment { number: 5, unit: 3, party: 3, first: 0, last: 364, watts: 3_000_000 }.write(&mut bytes);
    WORKED_EXAMPLE[8..].iter().for_each(|record| record.write(&mut bytes));
    bytes
}
