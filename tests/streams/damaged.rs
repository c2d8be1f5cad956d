//! Damaged streams: the worked example, with an owner and a Day, spoiled at every byte, wrong tags and lengths, and garbage.

use crate::fixed::standing_book;
use crate::random::Random;
use crate::records::{frame, past_listed, right_lengths, stream, Record, Record::*, LONGEST, WORKED_EXAMPLE};
use crate::sketch::{random_book, Shape};

/// The worked example with a ready set whose excess lowers what its owner is charged, an hour out and a Day, before the
/// posts.
fn example() -> Vec<Record> {
    let more = [
        Unit { unit: 3, area: 1, icap: 200_000, e: 0, f: 9_000, g: 0, class: 0 },
        Owner { unit: 3, party: 5 },
        Hour { unit: 2, month: 6, day: 1, ending: 15, kind: 3, derating: 0 },
        Day { unit: 2, month: 6, day: 2, marks: 0x82_9c41 },
    ];
    [&WORKED_EXAMPLE[..8], &more, &WORKED_EXAMPLE[8..]].concat()
}

pub fn bit_flips() -> Vec<Vec<u8>> {
    each_bit_flipped(&stream(&example()))
}

/// A book that has hours too.
pub fn bit_flips_of_a_fuller_book() -> Vec<Vec<u8>> {
    each_bit_flipped(&stream(&standing_book(2010)))
}

fn each_bit_flipped(bytes: &[u8]) -> Vec<Vec<u8>> {
    let places = (0..bytes.len()).flat_map(|at| (0..8).map(move |bit| (at, bit)));
    places.map(|(at, bit)| with_byte(bytes, at, bytes[at] ^ 1 << bit)).collect()
}

pub fn other_bytes() -> Vec<Vec<u8>> {
    at_each_byte(|example, at| {
        let byte = example[at];
        let others = [0, 1, 7, 32, 33, 0xff, byte.wrapping_add(1), byte.wrapping_sub(1)];
        others.into_iter().map(|other| with_byte(example, at, other)).collect()
    })
}

pub fn cuts() -> Vec<Vec<u8>> {
    let mut streams = at_each_byte(|example, at| {
        let removed = [&example[..at], &example[at + 1..]].concat();
        vec![example[..at].to_vec(), removed, example[at..].to_vec()]
    });
    streams.push(stream(&example()));
    streams
}

pub fn insertions() -> Vec<Vec<u8>> {
    let mut random = Random::for_stream("insertions", 0);
    at_each_byte(|example, at| {
        let strays = [0, 1, 7, 0xff, random.byte()];
        strays.into_iter().map(|stray| [&example[..at], &[stray], &example[at..]].concat()).collect()
    })
}

fn at_each_byte(mut spoil: impl FnMut(&[u8], usize) -> Vec<Vec<u8>>) -> Vec<Vec<u8>> {
    let example = stream(&example());
    (0..example.len()).flat_map(|at| spoil(&example, at)).collect()
}

fn with_byte(bytes: &[u8], at: usize, byte: u8) -> Vec<u8> {
    let mut changed = bytes.to_vec();
    changed[at] = byte;
    changed
}

/// Each record of the worked example left out, doubled, put first and put last.
pub fn moved_records() -> Vec<Vec<u8>> {
    let (mut streams, example) = (Vec::new(), example());
    for at in 0..example.len() {
        let mut others = example.clone();
        let record = others.remove(at);
        streams.push(stream(&others));
        for place in 0..=others.len() {
            let mut moved = others.clone();
            moved.insert(place, record);
            streams.push(stream(&moved));
            moved.insert(place, record);
            streams.push(stream(&moved));
        }
    }
    streams
}

/// All 256 tags at several records of the worked example.
pub fn tags() -> Vec<Vec<u8>> {
    let framed = |record: &Record, tag| {
        let value = record.value();
        let mut out = Vec::new();
        frame(&mut out, tag, value.len() as u16, &value);
        out
    };
    let places = [0, 1, 3, 5, 7, 9, 10, 11];
    places.into_iter().flat_map(|at| (0..=255).map(move |tag| replaced(at, |record| framed(record, tag)))).collect()
}

/// Lengths 0 to 40 and some large ones at each record, the value kept as it is or made of that length.
pub fn lengths() -> Vec<Vec<u8>> {
    let large = [63, 64, 127, 128, 255, 256, 257, 258, 261, 275, 288, 289, 512, 4_096, 32_767, 32_768, 65_535];
    let mut streams = Vec::new();
    for at in 0..example().len() {
        for length in (0..=40).chain(large) {
            let framed = |record: &Record, value: &[u8]| {
                let mut out = Vec::new();
                frame(&mut out, record.tag(), length, value);
                out
            };
            streams.push(replaced(at, |record| framed(record, &record.value())));
            streams.push(replaced(at, |record| {
                let mut value = record.value();
                value.resize(usize::from(length), 0);
                framed(record, &value)
            }));
        }
    }
    streams
}

/// The worked example with one record written otherwise.
fn replaced(at: usize, write: impl Fn(&Record) -> Vec<u8>) -> Vec<u8> {
    let example = example();
    let (before, after) = (stream(&example[..at]), stream(&example[at + 1..]));
    [before, write(&example[at]), after].concat()
}

fn small_book(random: Random) -> Vec<u8> {
    random_book(random, &Shape { areas: 2, parties: 3, sets: 3, commitments: 4, rounds: 2, ..Shape::USUAL })
}

/// Random books with a few bytes changed, removed, put in or doubled.
pub fn spoiled_books(index: usize) -> Vec<u8> {
    let mut random = Random::for_stream("spoiled books", index);
    let mut bytes = small_book(Random::for_stream("to be spoiled", index));
    for _ in 0..random.between(1, 4) {
        let at = random.below(bytes.len());
        match random.below(5) {
            0 => bytes[at] ^= 1 << random.below(8),
            1 => bytes[at] = random.byte(),
            2 => drop(bytes.remove(at)),
            3 => bytes.insert(at, random.byte()),
            _ => bytes.extend_from_within(at..),
        }
    }
    bytes
}

/// Pure garbage, and garbage after good records; most of it made of small numbers that look like frames.
pub fn garbage(index: usize) -> Vec<u8> {
    let mut random = Random::for_stream("garbage", index);
    let mut bytes = match index % 3 {
        0 => Vec::new(),
        1 => stream(&example()),
        _ => small_book(Random::for_stream("before garbage", index)),
    };
    let count = random.pick(&[1, 2, 3, 4, 20, 200, 2_000]);
    let highest = random.pick(&[1, past_listed().into(), LONGEST as u32 + 1, 255, 255]);
    bytes.extend((0..count).map(|_| random.between(0, highest) as u8));
    bytes
}

/// Whole frames of random tags, lengths and values: no frame is broken, few are good.
pub fn frames(index: usize) -> Vec<u8> {
    let mut random = Random::for_stream("frames", index);
    let mut bytes = if index % 2 == 0 { stream(&example()) } else { Vec::new() };
    for _ in 0..random.between(1, 200) {
        let tag = random.between(0, u32::from(past_listed()) + 1) as u8;
        let right = right_lengths(tag);
        let is_right = !right.is_empty() && random.percent(70);
        let length = if is_right { random.pick(&right) } else { random.below(LONGEST + 1) };
        let highest = random.pick(&[1, 8, 33, 255]);
        let value: Vec<u8> = (0..length).map(|_| random.between(0, highest) as u8).collect();
        frame(&mut bytes, tag, length as u16, &value);
    }
    bytes
}
