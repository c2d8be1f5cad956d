//! Sets kept ready but not committed (02, Item 2), worked by hand from the papers.
//!
//! A set here has 100,000 W, e 0 and no hours, unless it is said: where T = I, X is 100,000 − f and P is G, 100,000 − g,
//! so that S is g − f in watts; L is 50,000. At 50,000 cents per MW-day a watt costs 18.25 cents for 365 days.
//! Party 1 falls short by 1,000 W, 18,250 cents; party 2 has the load and so receives what is left.

use crate::examples::{hours, Example, Y};
use crate::fixed::whole_year;
use crate::records::{Record, Record::*};

pub fn examples() -> [Example; 13] {
    [
        lowers_a_charge(),
        stops_at_zero(),
        as_large_as_the_net(),
        several_sets_and_areas(),
        shortfall_of_a_ready_set(),
        withdrawn_and_entered_again(),
        committed_set(),
        replaced(),
        nets_at_zero_and_below(),
        money_short(),
        without_obligations(),
        hours_and_no_limit(),
        refused(),
    ]
}

fn set(unit: u8, area: u8, f: u32, g: u32) -> Record {
    Unit { unit, area, icap: 100_000, e: 0, f, g, class: 0 }
}

fn in_full(unit: u8, party: u8) -> Record {
    whole_year(Y, unit, unit, party, 100_000)
}

fn beginning() -> Vec<Record> {
    vec![
        Year { y: Y },
        Area { area: 1, price: 50_000 },
        Load { area: 1, party: 2, obligation: 1 },
        set(1, 1, 0, 1_000),
        in_full(1, 1),
    ]
}

fn example(name: &'static str, more: &[Record], expected: &'static str) -> Example {
    Example { name, records: [&beginning()[..], more].concat(), expected }
}

const POST: Record = Post { area: 1 };

/// Without an owner set 2 is worth nothing. Then N = 1,000 − 401 = 599: C = 10,931.75, so 10,931, and 18,250 − 10,931 =
/// 7,319 go back. (401 W by themselves would be 7,318.)
fn lowers_a_charge() -> Example {
    example(
        "item 2: an excess lowers a charge",
        &[POST, set(2, 1, 401, 0), POST, Owner { unit: 2, party: 1 }, POST],
        "P 1 1 -18250\nP 1 2 18250\nP 1 1 7319\nP 1 2 -7319\nE 10 10\n",
    )
}

/// 1,000 − 1,400 stops at 0. At −400 W party 1 would have a ceiling of 7,300, which what party 3 pays would cover:
/// N = 1,000, C = 18,250.
fn stops_at_zero() -> Example {
    example(
        "item 2: an excess larger than the net",
        &[set(2, 1, 1_400, 0), Owner { unit: 2, party: 1 }, set(3, 1, 0, 1_000), in_full(3, 3), POST],
        "P 1 2 18250\nP 1 3 -18250\nE 10 10\n",
    )
}

/// 1,000 − 1,000 = 0; with 999 W one watt is left, C = 18.25.
fn as_large_as_the_net() -> Example {
    example(
        "item 2: an excess as large as the net, and a watt less",
        &[
            set(2, 1, 1_000, 0),
            set(3, 1, 999, 0),
            POST,
            Owner { unit: 2, party: 1 },
            POST,
            Owner { unit: 2, party: 4 },
            Owner { unit: 3, party: 1 },
            POST,
        ],
        "P 1 1 -18250\nP 1 2 18250\nP 1 1 18250\nP 1 2 -18250\nP 1 1 -18\nP 1 2 18\nE 13 13\n",
    )
}

/// In area 1 sets 2 and 3 have 300 + 200 W: N = 1,000 − 500 = 500, C = 9,125. Set 4 is in area 2 and has 5,000 W, where
/// its owner has no net and party 3 has N = 2,000; at 10,000 cents per MW-day C = 2,000 × 3.65 = 7,300. When party 3 owns
/// set 4 its N is 0 there, and area 1 is as it was.
fn several_sets_and_areas() -> Example {
    let owner = |unit, party| Owner { unit, party };
    example(
        "item 2: two sets of one owner, and one in another area",
        &[
            Area { area: 2, price: 10_000 },
            Load { area: 2, party: 2, obligation: 1 },
            set(2, 1, 300, 0),
            set(3, 1, 200, 0),
            set(4, 2, 5_000, 0),
            set(5, 2, 0, 2_000),
            in_full(5, 3),
            owner(2, 1),
            owner(3, 1),
            owner(4, 1),
            Post { area: 1 },
            Post { area: 2 },
            owner(4, 3),
            Post { area: 1 },
            Post { area: 2 },
        ],
        "P 1 1 -9125\nP 1 2 9125\nP 2 2 7300\nP 2 3 -7300\nP 2 2 -7300\nP 2 3 7300\nE 20 20\n",
    )
}

/// The 700 W by which set 2 falls short raise no net and take nothing from the excess of set 3: N = 1,000 − 300 = 700,
/// C = 12,775. Set 4 falls short by 60,000 W, more than L; its owner has no net and is charged nothing.
fn shortfall_of_a_ready_set() -> Example {
    example(
        "item 2: the shortfall of a ready set",
        &[
            set(2, 1, 0, 700),
            set(3, 1, 300, 0),
            set(4, 1, 0, 60_000),
            Owner { unit: 2, party: 1 },
            Owner { unit: 3, party: 1 },
            Owner { unit: 4, party: 3 },
            POST,
        ],
        "P 1 1 -12775\nP 1 2 12775\nE 12 12\n",
    )
}

/// Committed by party 3, set 2 gives party 3 N = −400, M = 7,300, and its owner nothing: 18,250 − 7,300 = 10,950 are
/// left. Withdrawn, it is its owner's: N = 1,000 − 400 = 600, C = 10,950, all of it left. So each change moves 7,300
/// between parties 1 and 3. The last one moves the commitment to set 1, whose T is its I already.
fn withdrawn_and_entered_again() -> Example {
    example(
        "item 2: commitment withdrawn, entered again and moved",
        &[
            set(2, 1, 400, 0),
            in_full(2, 3),
            Owner { unit: 2, party: 1 },
            POST,
            whole_year(Y, 2, 2, 3, 0),
            POST,
            in_full(2, 3),
            POST,
            whole_year(Y, 2, 1, 1, 100_000),
            POST,
        ],
        "P 1 1 -18250\nP 1 2 10950\nP 1 3 7300\n\
         P 1 1 7300\nP 1 3 -7300\n\
         P 1 1 -7300\nP 1 3 7300\n\
         P 1 1 7300\nP 1 3 -7300\nE 15 15\n",
    )
}

/// Half committed, T = 50,000: X = 49,500, G = 50,000, S = −500 for party 3, M = 9,125; N of party 1 stays 1,000, so
/// that 18,250 − 9,125 = 9,125 are left. With one watt on one day V = 1, T = floor(1 / 365) = 0 and S = 0, and the owner
/// still plays no part: all 18,250 are left. With V = 0 the excess is 1,000: N = 0.
fn committed_set() -> Example {
    example(
        "item 2: owner of a committed set",
        &[
            set(2, 1, 1_000, 0),
            whole_year(Y, 2, 2, 3, 50_000),
            Owner { unit: 2, party: 1 },
            POST,
            Commitment { number: 2, unit: 2, party: 3, first: 0, last: 0, watts: 1 },
            POST,
            Commitment { number: 2, unit: 2, party: 3, first: 0, last: 0, watts: 0 },
            POST,
        ],
        "P 1 1 -18250\nP 1 2 9125\nP 1 3 9125\nP 1 2 9125\nP 1 3 -9125\nP 1 1 18250\nP 1 2 -18250\nE 13 13\n",
    )
}

/// Party 3 falls short by 600 W. Owned by party 1, 400 W make N = 600 and 600, C = 10,950 each, 21,900 left; owned by
/// party 3, 1,000 and 200, C = 18,250 and 3,650, the same sum; owned by party 4, which has no net, 1,000 and 600,
/// C = 18,250 and 10,950, 29,200 left. Party 0 withdraws nothing. In the end it is party 3 again.
fn replaced() -> Example {
    example(
        "item 2: owner replaced after a post",
        &[
            set(3, 1, 0, 600),
            in_full(3, 3),
            set(2, 1, 400, 0),
            Owner { unit: 2, party: 1 },
            POST,
            Owner { unit: 2, party: 3 },
            POST,
            Owner { unit: 2, party: 4 },
            POST,
            Owner { unit: 2, party: 0 },
            POST,
            Owner { unit: 2, party: 3 },
            POST,
        ],
        "P 1 1 -10950\nP 1 2 21900\nP 1 3 -10950\n\
         P 1 1 -7300\nP 1 3 7300\n\
         P 1 2 7300\nP 1 3 -7300\n\
         R 15 6\n\
         P 1 2 -7300\nP 1 3 7300\nE 18 17\n",
    )
}

/// With set 2 committed too, N of party 1 is 1,000 − 1,000 = 0; N of party 3 is −500, M = 9,125; N of party 4 is 2,000,
/// C = 36,500, so that 27,375 are left. The 300 W that parties 1 and 3 have ready move neither: M would be 5,475 and
/// 14,600.
fn nets_at_zero_and_below() -> Example {
    example(
        "item 2: nets at zero and below",
        &[
            set(2, 1, 1_000, 0),
            in_full(2, 1),
            set(3, 1, 500, 0),
            in_full(3, 3),
            set(4, 1, 0, 2_000),
            in_full(4, 4),
            set(5, 1, 300, 0),
            Owner { unit: 5, party: 1 },
            set(6, 1, 300, 0),
            Owner { unit: 6, party: 3 },
            POST,
        ],
        "P 1 2 27375\nP 1 3 9125\nP 1 4 -36500\nE 16 16\n",
    )
}

/// M of party 3 is 900 × 18.25 = 16,425: of R = 18,250 there are 1,825 left. With 400 W ready R = 10,950 is below M,
/// which stays, and all of R goes to party 3: 5,475 less.
fn money_short() -> Example {
    example(
        "item 2: an excess that makes money short",
        &[set(3, 1, 900, 0), in_full(3, 3), set(2, 1, 400, 0), POST, Owner { unit: 2, party: 1 }, POST],
        "P 1 1 -18250\nP 1 2 1825\nP 1 3 16425\nP 1 1 7300\nP 1 2 -1825\nP 1 3 -5475\nE 11 11\n",
    )
}

/// Without a Load what party 1 pays is left over: 11. With 1,000 W ready nothing is left, and the post is accepted; with
/// another owner it is refused again.
fn without_obligations() -> Example {
    let mut records = beginning();
    records.retain(|record| !matches!(record, Load { .. }));
    records.extend([POST, set(2, 1, 1_000, 0), Owner { unit: 2, party: 1 }, POST, Owner { unit: 2, party: 2 }, POST]);
    Example { name: "item 2: nothing left over for want of a charge", records, expected: "R 5 11\nR 10 11\nE 10 8\n" }
}

/// Set 2 has I 1,000,000, which is its T whatever e is. X = 20 % of it, 200,000; with SH 50 and D 100,000
/// P = (50 × 1,000,000 − 100,000) / 50 = 998,000: S = −798,000. U = 600,000 and L = 300,000 do not limit an excess.
/// N = 5,000,000 × 20 % = 1,000,000 less 798,000 is 202,000: C = 3,686,500.
fn hours_and_no_limit() -> Example {
    let mut records = vec![
        Year { y: Y },
        Area { area: 1, price: 50_000 },
        Load { area: 1, party: 2, obligation: 1 },
        Unit { unit: 1, area: 1, icap: 5_000_000, e: 0, f: 0, g: 20_000, class: 2 },
        whole_year(Y, 1, 1, 1, 5_000_000),
        Unit { unit: 2, area: 1, icap: 1_000_000, e: 40_000, f: 80_000, g: 99_999, class: 0 },
        Owner { unit: 2, party: 1 },
    ];
    let mut hours = hours(2, 0, 50);
    if let Hour { kind, derating, .. } = &mut hours[40] {
        (*kind, *derating) = (1, 100_000);
    }
    records.extend(hours);
    records.push(POST);
    Example {
        name: "item 2: a ready set with hours, beyond L",
        records,
        expected: "P 1 1 -3686500\nP 1 2 3686500\nE 58 58\n",
    }
}

/// 4 before the year. Of a unit that is not entered 7, but 6 comes before it. What was refused left nothing, so that
/// N = 1,000 at first; after the unit the Owner is accepted, N = 1,000 − 400 = 600, and what is refused then replaces
/// nothing.
fn refused() -> Example {
    let owner = |unit, party| Owner { unit, party };
    let mut records = vec![owner(1, 1), Year { y: Y }];
    records.extend([owner(1, 1), owner(0, 1), owner(33, 1), owner(1, 0), owner(1, 17)]);
    records.extend(&beginning()[1..]);
    records.extend([owner(2, 1), set(2, 1, 400, 0), POST, owner(2, 1), POST]);
    records.extend([owner(2, 17), owner(2, 0), owner(3, 3), POST]);
    Example {
        name: "item 2: Owners refused, and entered after their unit",
        records,
        expected: "R 1 4\nR 3 7\nR 4 6\nR 5 6\nR 6 6\nR 7 6\nR 12 7\n\
                   P 1 1 -18250\nP 1 2 18250\nP 1 1 7300\nP 1 2 -7300\n\
                   R 17 6\nR 18 6\nR 19 7\nE 20 10\n",
    }
}
