//! The log beside the plain Rust implementation, over the same lists: logging into a full log, logging into an empty
//! one and clearing, and listing 64 records.

use crate::cases::{two, Work};
use crate::library::{siengulot_log_clear, siengulot_log_event, siengulot_log_list};
use siengulot_plain::board::ROW_BYTES;
use siengulot_plain::log::{clear, list, log_event, Event, Log};
use siengulot_plain::settings::RECORDS;

/// A log whose lists are its own.
struct Lists {
    numbers: [u64; RECORDS],
    bits: [u8; RECORDS * ROW_BYTES],
    counts: [usize; RECORDS],
    broken: [u8; RECORDS],
    free: [u8; RECORDS],
    broken_count: usize,
}

/// All in use, with read numbers from 1 on that go round from a place on.
fn full(first: usize) -> Box<Lists> {
    let mut lists = Box::new(Lists {
        numbers: [0; RECORDS],
        bits: [7; RECORDS * ROW_BYTES],
        counts: [80; RECORDS],
        broken: [0; RECORDS],
        free: [0; RECORDS],
        broken_count: 0,
    });
    for place in 0..RECORDS {
        lists.numbers[(first + place) % RECORDS] = 1 + place as u64;
    }
    lists
}

/// Events one after another into a full log, each of which takes the oldest record; every fourth is broken.
pub fn logging(calls: usize) -> Work {
    let row = [0x5a; ROW_BYTES];
    let broken = |i: usize| u8::from(i % 4 == 3);
    let (mut ours, mut theirs) = (full(0), full(0));
    // Read numbers go on from one run to the next.
    let (mut our_number, mut their_number) = (100, 100);
    two(
        calls,
        0,
        move |lent| {
            let mut taken = 0;
            for i in 0..calls {
                our_number += 1;
                let refused = unsafe {
                    siengulot_log_event(
                        our_number,
                        row.as_ptr(),
                        80,
                        broken(i),
                        ours.numbers.as_mut_ptr(),
                        ours.bits.as_mut_ptr(),
                        ours.counts.as_mut_ptr(),
                        ours.broken.as_mut_ptr(),
                        ours.free.as_mut_ptr(),
                        &mut ours.broken_count,
                        &mut taken,
                    )
                };
                assert_eq!(refused, 0);
                lent.told[0] += taken as i64;
                lent.told[1] += i64::from(ours.bits[taken * ROW_BYTES + i % ROW_BYTES]);
            }
        },
        move |lent| {
            for i in 0..calls {
                their_number += 1;
                let event = Event {
                    number: their_number,
                    bits: &row,
                    count: 80,
                    broken: broken(i),
                };
                let lists = &mut *theirs;
                let mut log = Log {
                    numbers: &mut lists.numbers,
                    bits: &mut lists.bits,
                    counts: &mut lists.counts,
                    broken: &mut lists.broken,
                    free: &mut lists.free,
                    broken_count: &mut lists.broken_count,
                };
                let taken = log_event(event, &mut log).expect("is logged");
                lent.told[0] += taken as i64;
                lent.told[1] += i64::from(lists.bits[taken * ROW_BYTES + i % ROW_BYTES]);
            }
        },
    )
}

/// Events one after another into an empty log, each cleared before the next comes.
pub fn logging_and_clearing(calls: usize) -> Work {
    let row = [0x5a; ROW_BYTES];
    let empty = || {
        let mut lists = full(0);
        lists.free = [1; RECORDS];
        lists
    };
    let (mut ours, mut theirs) = (empty(), empty());
    two(
        calls,
        0,
        move |lent| {
            let mut taken = 0;
            for i in 0..calls {
                let refused = unsafe {
                    siengulot_log_event(
                        i as u64,
                        row.as_ptr(),
                        80,
                        0,
                        ours.numbers.as_mut_ptr(),
                        ours.bits.as_mut_ptr(),
                        ours.counts.as_mut_ptr(),
                        ours.broken.as_mut_ptr(),
                        ours.free.as_mut_ptr(),
                        &mut ours.broken_count,
                        &mut taken,
                    )
                };
                assert_eq!(refused, 0);
                lent.told[0] += i64::from(ours.bits[taken * ROW_BYTES + i % ROW_BYTES]);
                let refused = unsafe {
                    siengulot_log_clear(
                        taken,
                        ours.numbers.as_mut_ptr(),
                        ours.bits.as_mut_ptr(),
                        ours.counts.as_mut_ptr(),
                        ours.broken.as_mut_ptr(),
                        ours.free.as_mut_ptr(),
                        &mut ours.broken_count,
                    )
                };
                assert_eq!(refused, 0);
                lent.told[1] += i64::from(ours.bits[taken * ROW_BYTES + i % ROW_BYTES]);
            }
        },
        move |lent| {
            for i in 0..calls {
                let event = Event {
                    number: i as u64,
                    bits: &row,
                    count: 80,
                    broken: 0,
                };
                let lists = &mut *theirs;
                let mut log = Log {
                    numbers: &mut lists.numbers,
                    bits: &mut lists.bits,
                    counts: &mut lists.counts,
                    broken: &mut lists.broken,
                    free: &mut lists.free,
                    broken_count: &mut lists.broken_count,
                };
                let taken = log_event(event, &mut log).expect("is logged");
                lent.told[0] += i64::from(log.bits[taken * ROW_BYTES + i % ROW_BYTES]);
                clear(taken, &mut log).expect("is cleared");
                lent.told[1] += i64::from(log.bits[taken * ROW_BYTES + i % ROW_BYTES]);
            }
        },
    )
}

/// Listing 64 records, so often.
fn listing(calls: usize, lists: impl Fn() -> Box<Lists>) -> Work {
    let (ours, theirs) = (lists(), lists());
    two(
        calls * RECORDS,
        0,
        move |lent| {
            let (mut places, mut count) = ([0; RECORDS], 0);
            for i in 0..calls {
                let refused = unsafe {
                    siengulot_log_list(
                        ours.numbers.as_ptr(),
                        ours.free.as_ptr(),
                        places.as_mut_ptr(),
                        places.len(),
                        &mut count,
                    )
                };
                assert_eq!(refused, 0);
                lent.told[0] += count as i64;
                lent.told[1] += places[i % RECORDS] as i64;
            }
        },
        move |lent| {
            let mut places = [0; RECORDS];
            for i in 0..calls {
                let count = list(&theirs.numbers, &theirs.free, &mut places).expect("is listed");
                lent.told[0] += count as i64;
                lent.told[1] += places[i % RECORDS] as i64;
            }
        },
    )
}

/// As logging leaves them with no clearing: in order, but for where the order goes round.
pub fn listing_in_turn(calls: usize) -> Work {
    listing(calls, || full(24))
}

/// In any order, as much clearing may leave them.
pub fn listing_in_any_order(calls: usize) -> Work {
    listing(calls, || {
        let mut lists = full(0);
        let mut seed = 9_u64;
        for number in &mut lists.numbers {
            seed = seed.wrapping_mul(6_364_136_223_846_793_005).wrapping_add(1);
            *number = seed >> 32;
        }
        lists
    })
}
