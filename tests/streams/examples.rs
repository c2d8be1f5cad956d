//! The examples of document 001, the figures of the paper, the dates of 02, Item 1, the sets of 02, Item 2, and the Days
//! of 02, Item 3, with lines that come from them alone.

use crate::calendar::peak_slots;
use crate::fixed::{hour, whole_year};
use crate::records::{Record, Record::*, WORKED_EXAMPLE};
use crate::{days, ready};

pub struct Example {
    pub name: &'static str,
    pub records: Vec<Record>,
    pub expected: &'static str,
}

pub fn all() -> Vec<Example> {
    let mut examples = vec![
        example_1(),
        example_1_average(),
        example_1a(),
        example_2(),
        example_2_net(),
        figure_a(),
        figure_b(),
        figure_c(),
        figure_d(2011, "P 1 1 -18299817\nP 1 2 18299817\nP 1 1 18299817\nP 1 2 -18299817\nE 8 8\n"),
        figure_d(2010, "P 1 1 -18249817\nP 1 2 18249817\nR 7 6\nE 8 7\n"),
        figure_d(2099, "P 1 1 -18249817\nP 1 2 18249817\nR 7 6\nE 8 7\n"),
        figure_f(0, "P 1 1 -1825000\nP 1 2 1825000\nP 1 1 -6387500\nP 1 2 6387500\nE 107 107\n"),
        figure_f(1, "P 1 1 -1825000\nP 1 2 1825000\nP 1 1 -7300000\nP 1 2 7300000\nE 107 107\n"),
        figure_g(),
        figure_h(),
        figure_h_below_zero(),
        figure_i(),
        figure_j(),
        figure_j_without_loads(),
    ];
    examples.extend(dates_of_item_1());
    examples.extend(ready::examples());
    examples.extend(days::examples());
    examples
}

/// Delivery year 2010 has 365 days, as the document's years have.
pub const Y: u16 = 2010;

/// Peak hours of 2010, the first `out` in full forced outage and `service` more in service.
pub fn hours(unit: u8, out: usize, service: usize) -> Vec<Record> {
    let slots = &peak_slots(Y)[..out + service];
    slots.iter().enumerate().map(|(at, &slot)| hour(Y, unit, slot, if at < out { 3 } else { 0 }, 0)).collect()
}

/// Example #1 at a tenth; party E is 5. Party 7 has all the load and so receives what E pays.
///
/// Unit data: Daily ICAP 45 MW, Effective EFORd .3, Daily RPM Resource Commitments 40 MW (57.1 MW installed,
/// so Total Unit ICAP Commitment Amount 45 MW), EFORd-5 0.05, EFORp 0.15 (15 of 100 hours). g is 0, which
/// would end the shortfall if rule (f) were applied to 85 service hours.
/// Peak-Hour Period Capacity Shortfall 4.5 MW at $90/MW-day is $405/day; 365 days at a tenth: 14,782.50.
/// Net Peak Period Capacity Shortfall 0.5 MW after 4.0 MW of excess elsewhere: Charge $45/day, that is
/// 1,642.50, so that 13,140.00 go back at the second post.
fn example_1() -> Example {
    let mut records = vec![
        Year { y: Y },
        Area { area: 1, price: 9_000 },
        Unit { unit: 1, area: 1, icap: 4_500_000, e: 30_000, f: 5_000, g: 0, class: 0 },
        whole_year(Y, 1, 1, 5, 4_000_000),
        Load { area: 1, party: 7, obligation: 1 },
    ];
    records.extend(hours(1, 15, 85));
    records.push(Post { area: 1 });
    // Without hours and with g 0 this unit gives all of its 4 MW where 3.6 MW are expected.
    records.push(Unit { unit: 2, area: 1, icap: 4_000_000, e: 0, f: 10_000, g: 0, class: 0 });
    records.push(whole_year(Y, 2, 2, 5, 4_000_000));
    records.push(Post { area: 1 });
    Example {
        name: "example 1 at a tenth: 4.5 MW, then net 0.5 MW",
        records,
        expected: "P 1 5 -1478250\nP 1 7 1478250\nP 1 5 1314000\nP 1 7 -1314000\nE 109 109\n",
    }
}

/// Example #1, Unit Average Daily ICAP Commitment Amount 57.1 MW, at a hundredth in a set that can hold it.
///
/// T is 571,428 and EFORp less EFORd-5 a tenth of it: X 542,856, P 485,713, S 57,143, that is 5.71 MW of the
/// book; at $90/MW-day for 365 days 187,714.755 cents.
fn example_1_average() -> Example {
    let mut records = vec![
        Year { y: Y },
        Area { area: 1, price: 9_000 },
        Unit { unit: 1, area: 1, icap: 4_500_000, e: 30_000, f: 5_000, g: 0, class: 0 },
        whole_year(Y, 1, 1, 5, 400_000),
        Load { area: 1, party: 7, obligation: 1 },
    ];
    records.extend(hours(1, 15, 85));
    records.push(Post { area: 1 });
    Example {
        name: "example 1 at a hundredth: average commitment 57.1 MW",
        records,
        expected: "P 1 5 -187714\nP 1 7 187714\nE 106 106\n",
    }
}

/// Example #1A at a tenth, its commitments as they stand after replacement.
///
/// Daily RPM Resource Commitments: 31.5 MW 6/1-6/30, 23.9 MW 7/1-5/31. Unit Average Daily ICAP Commitment
/// Amount 35 MW: T 3,503,522. TCAP 33.3 MW: X 3,328,345. EFORp 0.35, PCAP 22.8 MW: P 2,277,289.
/// Shortfall 10.5 MW: S 1,051,056, at $90/MW-day for 365 days 3,452,718.96 cents.
/// Net after 11.5 MW of excess elsewhere: -1.0 MW, Charge $0/day, so that all goes back.
fn example_1a() -> Example {
    let mut records = vec![
        Year { y: Y },
        Area { area: 1, price: 9_000 },
        Unit { unit: 1, area: 1, icap: 4_500_000, e: 30_000, f: 5_000, g: 0, class: 0 },
        Commitment { number: 1, unit: 1, party: 5, first: 0, last: 29, watts: 3_150_000 },
        Commitment { number: 2, unit: 1, party: 5, first: 30, last: 364, watts: 2_390_000 },
        Load { area: 1, party: 7, obligation: 1 },
    ];
    records.extend(hours(1, 35, 65));
    records.push(Post { area: 1 });
    records.push(Unit { unit: 2, area: 1, icap: 5_000_000, e: 0, f: 23_000, g: 0, class: 0 });
    records.push(whole_year(Y, 3, 2, 5, 5_000_000));
    records.push(Post { area: 1 });
    Example {
        name: "example 1A at a tenth: 10.5 MW, then an excess",
        records,
        expected: "P 1 5 -3452718\nP 1 7 3452718\nP 1 5 3452718\nP 1 7 -3452718\nE 110 110\n",
    }
}

/// Example #2 at a hundredth; party H is 8 for 6/1-12/31 (214 days), I is 9 for 1/1-5/31 (151 days).
///
/// Daily ICAP 500 MW, Effective EFORd .02, commitments 495 MW (505.1 MW installed, so Total Unit ICAP
/// Commitment Amount 500 MW), EFORd-5 0.015 (TCAP 492.5 MW), EFORp 0.05 (PCAP 475 MW).
fn unit_of_example_2(price: u32) -> Vec<Record> {
    let mut records = vec![
        Year { y: Y },
        Area { area: 1, price },
        Unit { unit: 1, area: 1, icap: 5_000_000, e: 2_000, f: 1_500, g: 0, class: 0 },
        Commitment { number: 1, unit: 1, party: 8, first: 0, last: 213, watts: 4_950_000 },
        Commitment { number: 2, unit: 1, party: 9, first: 214, last: 364, watts: 4_950_000 },
        Load { area: 1, party: 1, obligation: 1 },
    ];
    records.extend(hours(1, 5, 95));
    records
}

/// At I's price of $60/MW-day. Shortfall 17.5 MW: S 175,000, for 365 days 383,250 cents, one of them lost in
/// two floors. H has 10.3 MW: 102,602, 224,698.38 cents. I has 7.2 MW: 72,398, 158,551.62 cents.
fn example_2() -> Example {
    let mut records = unit_of_example_2(6_000);
    records.push(Post { area: 1 });
    Example {
        name: "example 2 at a hundredth: 10.3 MW and 7.2 MW",
        records,
        expected: "P 1 1 383249\nP 1 8 -224698\nP 1 9 -158551\nE 107 107\n",
    }
}

/// At H's price of $50/MW-day. H's net is 5 MW after 5.3 MW of excess elsewhere (52,602 here): Charge $250/day,
/// that is 912.50 for 365 days at a hundredth. I has 72,398 as before: 132,126.35 cents.
fn example_2_net() -> Example {
    let mut records = unit_of_example_2(5_000);
    records.push(Unit { unit: 2, area: 1, icap: 105_204, e: 0, f: 50_000, g: 0, class: 0 });
    records.push(whole_year(Y, 3, 2, 8, 105_204));
    records.push(Post { area: 1 });
    Example {
        name: "example 2 at a hundredth: net 5 MW",
        records,
        expected: "P 1 1 223376\nP 1 8 -91250\nP 1 9 -132126\nE 109 109\n",
    }
}

/// One unit committed in full by party 1 at 50,000 cents per MW-day; party 2 has the load.
///
/// Without hours S is 999,990. The first hour in service ends that; an hour out after it makes S 500,000.
/// For 365 days a watt costs 18.25 cents, for 366 days 18.3.
pub fn one_unit(y: u16) -> Vec<Record> {
    vec![
        Year { y },
        Area { area: 1, price: 50_000 },
        Unit { unit: 1, area: 1, icap: 1_000_000, e: 0, f: 0, g: 99_999, class: 2 },
        whole_year(y, 1, 1, 1, 1_000_000),
        Load { area: 1, party: 2, obligation: 1 },
        Post { area: 1 },
    ]
}

/// Hours, each with a post after it, that shows whether the hour was counted.
fn with_posts(y: u16, hours: &[(u8, u8, u8, u8)]) -> Vec<Record> {
    let mut records = one_unit(y);
    for &(month, day, ending, kind) in hours {
        records.push(Hour { unit: 1, month, day, ending, kind, derating: 0 });
        records.push(Post { area: 1 });
    }
    records
}

/// Tuesday 5 July 2011: hour 14 no, 15 and 19 peak, 20 no.
fn figure_a() -> Example {
    Example {
        name: "figure a: 5 July 2011",
        records: with_posts(2011, &[(7, 5, 14, 0), (7, 5, 15, 0), (7, 5, 19, 3), (7, 5, 20, 3)]),
        expected: "P 1 1 -18299817\nP 1 2 18299817\nP 1 1 18299817\nP 1 2 -18299817\n\
                   P 1 1 -9150000\nP 1 2 9150000\nE 14 14\n",
    }
}

/// Monday 4 July 2011, hour 15: no.
fn figure_b() -> Example {
    Example {
        name: "figure b: 4 July 2011",
        records: with_posts(2011, &[(7, 4, 15, 0)]),
        expected: "P 1 1 -18299817\nP 1 2 18299817\nE 8 8\n",
    }
}

/// 17 January 2011, hour 8: no; 18 January: 8, 9, 19, 20 peak, 10 and 18 no.
///
/// S after each peak hour: 0; 500,000; 333,333 (P 666,666, so 333,334); 250,000.
fn figure_c() -> Example {
    let kinds = [(17, 8, 0), (18, 8, 0), (18, 9, 3), (18, 10, 3), (18, 18, 3), (18, 19, 0), (18, 20, 0)];
    Example {
        name: "figure c: 17 and 18 January 2011",
        records: with_posts(2010, &kinds.map(|(day, ending, kind)| (1, day, ending, kind))),
        expected: "P 1 1 -18249817\nP 1 2 18249817\nP 1 1 18249817\nP 1 2 -18249817\n\
                   P 1 1 -9125000\nP 1 2 9125000\n\
                   P 1 1 3041655\nP 1 2 -3041655\n\
                   P 1 1 1520845\nP 1 2 -1520845\nE 20 20\n",
    }
}

/// 29 February 2012, hour 19, peak; in 2011 and 2100 no such date.
fn figure_d(y: u16, expected: &'static str) -> Example {
    let name = match y {
        2011 => "figure d: 29 February 2012",
        2010 => "figure d: no 29 February 2011",
        _ => "figure d: no 29 February 2100",
    };
    Example { name, records: with_posts(y, &[(2, 29, 19, 0)]), expected }
}

/// T = I = 1,000,000, e 10,000, f 0, g 10,000, FOH 50, D 0: SH 49 gives S 100,000; SH 50 gives 500,000,
/// limited to 450,000 in class 0, unlimited in effect in class 1.
fn figure_f(class: u8, expected: &'static str) -> Example {
    let name = if class == 0 { "figure f: SH 49 and 50, class 0" } else { "figure f: SH 49 and 50, class 1" };
    let mut records = vec![
        Year { y: Y },
        Area { area: 1, price: 50_000 },
        Unit { unit: 1, area: 1, icap: 1_000_000, e: 10_000, f: 0, g: 10_000, class },
        whole_year(Y, 1, 1, 1, 1_000_000),
        Load { area: 1, party: 2, obligation: 1 },
    ];
    let mut hours = hours(1, 50, 50);
    let fiftieth = hours.pop();
    records.extend(hours);
    records.push(Post { area: 1 });
    records.extend(fiftieth);
    records.push(Post { area: 1 });
    Example { name, records, expected }
}

/// T = I = 1,000,000, SH 100, FOH 0, D 400,001: P 995,999; here f is 0, so S is 4,001: 73,018.25 cents.
fn figure_g() -> Example {
    let mut records = one_unit(Y);
    records.pop();
    let mut hours = hours(1, 0, 100);
    if let Hour { kind, derating, .. } = &mut hours[40] {
        (*kind, *derating) = (1, 400_001);
    }
    records.extend(hours);
    records.push(Post { area: 1 });
    Example { name: "figure g: D 400,001", records, expected: "P 1 1 -73018\nP 1 2 73018\nE 106 106\n" }
}

/// A unit of 100,000 W without hours, whose S is g less f in watts.
fn small_unit(unit: u8, f: u32, g: u32) -> Record {
    Unit { unit, area: 1, icap: 100_000, e: 0, f, g, class: 0 }
}

/// 10 over 1, 1, 1: 3, 3, 4; at 18.25 cents a watt 54, 54 and 73.
fn figure_h() -> Example {
    let mut records = vec![Year { y: Y }, Area { area: 1, price: 50_000 }, small_unit(1, 0, 10)];
    records.extend([1, 2, 3].map(|party| whole_year(Y, party, 1, party, 50_000)));
    records.push(Load { area: 1, party: 4, obligation: 1 });
    records.push(Post { area: 1 });
    Example {
        name: "figure h: 10 over 1, 1, 1",
        records,
        expected: "P 1 1 -54\nP 1 2 -54\nP 1 3 -73\nP 1 4 181\nE 8 8\n",
    }
}

/// -10: -3, -3, -4; party 4 falls short by 1,000 W and pays 18,250 cents, party 5 has the load.
fn figure_h_below_zero() -> Example {
    let mut records = vec![Year { y: Y }, Area { area: 1, price: 50_000 }];
    records.extend([small_unit(1, 10, 0), small_unit(2, 0, 1_000)]);
    records.extend([1, 2, 3].map(|party| whole_year(Y, party, 1, party, 50_000)));
    records.push(whole_year(Y, 4, 2, 4, 100_000));
    records.push(Load { area: 1, party: 5, obligation: 1 });
    records.push(Post { area: 1 });
    Example {
        name: "figure h: -10 over 1, 1, 1",
        records,
        expected: "P 1 1 54\nP 1 2 54\nP 1 3 73\nP 1 4 -18250\nP 1 5 18069\nE 10 10\n",
    }
}

/// R 100 over M 90 and 60: 60 and 40; at 274 cents per MW-day 1,000, 900 and 600 W for 365 days.
fn figure_i() -> Example {
    let mut records = vec![Year { y: Y }, Area { area: 1, price: 274 }];
    records.extend([small_unit(1, 0, 1_000), small_unit(2, 900, 0), small_unit(3, 600, 0)]);
    records.extend([1, 2, 3].map(|unit| whole_year(Y, unit, unit, unit, 100_000)));
    records.push(Post { area: 1 });
    Example { name: "figure i: 100 over 90 and 60", records, expected: "P 1 1 -100\nP 1 2 60\nP 1 3 40\nE 9 9\n" }
}

fn figure_j() -> Example {
    Example {
        name: "figure j: the paper's lines",
        records: WORKED_EXAMPLE.to_vec(),
        expected: "P 1 5 -955637\nP 1 6 328500\nP 1 7 627137\nR 11 7\nE 11 10\n",
    }
}

fn figure_j_without_loads() -> Example {
    let records = WORKED_EXAMPLE.iter().filter(|record| !matches!(record, Load { .. })).copied().collect();
    Example { name: "figure j without Loads", records, expected: "R 7 11\nR 8 11\nR 9 7\nE 9 6\n" }
}

/// 02, Item 1: two peak hours, two that are not because a holiday is kept on their day, and a peak hour.
///
/// S after each peak hour: 0; 500,000; 666,667 (P 333,333), for 365 days 12,166,672.75 cents and for 366 days
/// 12,200,006.1. The first of the two between them would make it 333,334.
fn dates_of_item_1() -> [Example; 6] {
    let dates = [
        // Saturday 4 July 2009.
        (2009, "item 1: 3 July 2009 no", [(7, 2, 15), (7, 2, 19), (7, 3, 15), (7, 3, 19), (7, 6, 15)]),
        // Sunday 4 July 2010. Saturday 1 January 2011 frees no Monday.
        (2010, "item 1: 5 July 2010 no, 3 January 2011", [(7, 2, 15), (7, 2, 19), (7, 5, 15), (7, 5, 19), (1, 3, 8)]),
        // Sunday 1 January 2012.
        (2011, "item 1: 2 January 2012 no", [(7, 5, 15), (7, 5, 19), (1, 2, 8), (1, 2, 20), (1, 3, 8)]),
        // Friday 19 June is no holiday yet. Saturday 4 July 2020.
        (2020, "item 1: 18 and 19 June 2020", [(6, 18, 15), (6, 19, 19), (7, 3, 15), (7, 3, 19), (7, 6, 15)]),
        // Saturday 19 June 2021.
        (2021, "item 1: 18 June 2021 no", [(6, 17, 15), (6, 17, 19), (6, 18, 15), (6, 18, 19), (6, 21, 15)]),
        // Sunday 19 June 2022.
        (2022, "item 1: 20 June 2022 no", [(6, 17, 15), (6, 17, 19), (6, 20, 15), (6, 20, 19), (6, 21, 15)]),
    ];
    let days_365 = "P 1 1 -18249817\nP 1 2 18249817\nP 1 1 18249817\nP 1 2 -18249817\n\
                    P 1 1 -9125000\nP 1 2 9125000\n\
                    P 1 1 -3041672\nP 1 2 3041672\nE 16 16\n";
    let days_366 = "P 1 1 -18299817\nP 1 2 18299817\nP 1 1 18299817\nP 1 2 -18299817\n\
                    P 1 1 -9150000\nP 1 2 9150000\n\
                    P 1 1 -3050006\nP 1 2 3050006\nE 16 16\n";
    dates.map(|(y, name, [first, second, third, fourth, fifth])| {
        let hours = [(first, 0), (second, 3), (third, 0), (fourth, 0), (fifth, 3)];
        let hours = hours.map(|((month, day, ending), kind)| (month, day, ending, kind));
        Example { name, records: with_posts(y, &hours), expected: if y == 2011 { days_366 } else { days_365 } }
    })
}
