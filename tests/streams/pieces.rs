//! The same streams in reads of few bytes, and streams after whose broken record the input stays open.

use crate::process::Delivery;
use crate::random::Random;
use crate::records::{frame, past_listed, stream, Format, Record, LONGEST, WORKED_EXAMPLE};
use crate::sketch::{random_book, Shape};
use crate::streams::Family;
use crate::{compare, damaged, fixed, long};

/// How many bytes a read gets at most. A packet is at most 4,096 bytes long.
pub const SIZES: [usize; 4] = [1, 2, 7, 4_096];

/// In packet mode a read with less room than the packet loses its rest, so a ledger must offer 4,096 bytes.
pub fn in_packets(size: usize) -> Family {
    let name = match size {
        1 => "streams in reads of 1 byte",
        2 => "streams in reads of 2 bytes",
        7 => "streams in reads of 7 bytes",
        _ => "streams in reads of 4,096 bytes",
    };
    Family::listed(name, varied()).delivered(Delivery::Packets(size))
}

/// The second program too is fed in pieces; what it prints must not depend on them.
pub fn second_program_in_pieces() -> Result<(), String> {
    for (index, stream) in varied().iter().enumerate() {
        let whole = compare::reckoned(stream).0;
        for size in SIZES {
            let (pieces, _) = compare::reckoned_in_pieces(stream, size);
            if let Some(difference) = compare::first_difference(&pieces, &whole) {
                return Err(format!("stream {index} in pieces of {size}: {difference}"));
            }
        }
    }
    Ok(())
}

fn varied() -> Vec<Vec<u8>> {
    let example = stream(&WORKED_EXAMPLE);
    let mut streams = vec![Vec::new(), example.clone()];
    // Cut in the tag's place, in the length and in the value of the last record.
    streams.extend([1, 2, 3].map(|cut| example[..example.len() - cut].to_vec()));
    streams.extend(broken_records().map(|broken| [&example[..], &broken[..], &example[..]].concat()));
    // Longer than 64 KB; the second lays a unit across the end of a buffer of that size.
    streams.push(fixed::peaks(3));
    let unit = long::straddlers().into_iter().find(|record| matches!(record, Record::Unit { .. })).expect("a unit");
    streams.push(long::straddle(65_536, unit, 21));
    for index in 0..24 {
        let random = Random::for_stream("in pieces", index);
        streams.push(random_book(random, &Shape { mistakes: index, ..Shape::USUAL }));
    }
    streams.extend((0..6).map(damaged::spoiled_books));
    streams.extend((0..6).map(damaged::garbage));
    streams.extend((0..6).map(damaged::frames));
    streams
}

/// Heads with a length above 32, of listed and unlisted tags.
fn broken_records() -> [Vec<u8>; 3] {
    let (post, hour) = (Format::named("Post"), Format::named("Hour"));
    let heads = [(post.tag, LONGEST + 1), (hour.tag, 0x0100 + hour.length()), (past_listed(), 65_535)];
    heads.map(|(tag, length)| {
        let mut out = Vec::new();
        frame(&mut out, tag, length as u16, &[]);
        out
    })
}

/// After a length above 32 the ledger ends, though its input does not and more may come.
pub fn held_open() -> Family {
    let example = stream(&WORKED_EXAMPLE);
    let more = stream(&[Record::Post { area: 1 }; 30_000]);
    let mut streams = Vec::new();
    for broken in broken_records() {
        streams.push(broken.clone());
        streams.push([&example[..], &broken[..]].concat());
        streams.push([&example[..], &broken[..], &more[..]].concat());
    }
    Family::listed("streams that stop early, input held open", streams).delivered(Delivery::HeldOpen)
}
