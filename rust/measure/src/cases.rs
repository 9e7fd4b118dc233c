//! The measured cases: for each the same input to the static library and to the plain implementation.

use crate::ends;
use crate::inputs::{self, A, B, K, LEAD, N, Q};
use crate::library::*;
use crate::logs;
use crate::numbers::{at, numbers_of, NUMBERS};
use crate::picking;
use crate::surveying;
use crate::words;
use siengulot_plain::board::{Event, Listener, Receiver, Report};
use siengulot_plain::{capture, counted, line, sender, settings, stored, timecode};

/// What an operation leaves: lent bytes, lent pads, and the numbers it tells. Both sides have to leave the same.
#[derive(PartialEq)]
pub struct Lent {
    pub out: Vec<u8>,
    pub pads: Vec<usize>,
    pub told: [i64; 4],
}

/// One side of a case, with its name.
pub type Side = (&'static str, Box<dyn FnMut(&mut Lent)>);

/// A case at one size: how many units it has, how many bytes are lent for the result, and its sides.
pub struct Work {
    pub units: usize,
    pub room: usize,
    pub sides: Vec<Side>,
}

/// A case: its name, what a unit is, the greatest ratio wished for, two sizes, and the work at a size.
pub struct Case {
    pub name: &'static str,
    pub unit: &'static str,
    pub wish: &'static str,
    pub sizes: [usize; 2],
    pub work: Box<dyn Fn(usize) -> Work>,
}

const SIZES: [usize; 2] = [100_000, 1_000_000];

fn case(
    name: &'static str,
    unit: &'static str,
    wish: &'static str,
    sizes: [usize; 2],
    work: impl Fn(usize) -> Work + 'static,
) -> Case {
    Case {
        name,
        unit,
        wish,
        sizes,
        work: Box::new(work),
    }
}

/// A work of two sides.
pub fn two(
    units: usize,
    room: usize,
    rattle: impl FnMut(&mut Lent) + 'static,
    rust: impl FnMut(&mut Lent) + 'static,
) -> Work {
    let sides: Vec<Side> = vec![("rattle", Box::new(rattle)), ("rust", Box::new(rust))];
    Work { units, room, sides }
}

/// Every measured case.
pub fn all() -> Vec<Case> {
    vec![
        case("judge", "call", "1.5", SIZES, judge),
        case("judge quiet", "call", "1.5", SIZES, judge_quiet),
        case("judge over ends", "call", "1.5", SIZES, ends::judge),
        case(
            "judge quiet over ends",
            "call",
            "1.5",
            SIZES,
            ends::judge_quiet,
        ),
        case(
            "pick, Rust tries all 511",
            "call",
            "0.2",
            [1_000, 10_000],
            picking::beside_all_tried,
        ),
        case(
            "pick, Rust divides too",
            "call",
            "1.2",
            SIZES,
            picking::beside_divisions,
        ),
        case(
            "pick over ends, Rust divides too",
            "call",
            "1.2",
            SIZES,
            ends::pick,
        ),
        case(
            "survey, Rust puts the margins in order",
            "board",
            "–",
            [400, 4_000],
            surveying::beside_order,
        ),
        case(
            "survey, Rust in one pass too",
            "board",
            "1.1",
            [400, 4_000],
            surveying::beside_one_pass,
        ),
        case(
            "survey's lines, 20 boards",
            "call",
            "–",
            [100, 1_000],
            surveying::lines,
        ),
        case("send, 5/13 cells", "cycle", "1.5", [100, 1_000], send),
        case("plan, 5/13 cells, n 80", "cycle", "1.5", [66, 660], plan),
        case("stored plan read", "row", "1.5", [100, 1_000], read_plan),
        case(
            "encode, Rust by the rule",
            "byte",
            "–",
            [100, 1_000],
            words::encode_beside_the_rule,
        ),
        case(
            "encode, Rust with the same table",
            "byte",
            "1.0",
            [100, 1_000],
            words::encode_beside_the_table,
        ),
        case(
            "encode, 16 bytes a call, Rust with the same table",
            "byte",
            "–",
            [1_000, 10_000],
            words::short_beside_the_table,
        ),
        case(
            "decode, Rust by the rule",
            "byte",
            "–",
            [100, 1_000],
            words::decode_beside_the_rule,
        ),
        case(
            "decode, Rust by whole words too",
            "byte",
            "1.0",
            [100, 1_000],
            words::decode_beside_whole_words,
        ),
        case(
            "log an event, no record free",
            "call",
            "1.2",
            [1_000, 10_000],
            logs::logging,
        ),
        case(
            "log an event, all records free, and clear it",
            "two calls",
            "1.2",
            [1_000, 10_000],
            logs::logging_and_clearing,
        ),
        case(
            "list 64 records, in turn",
            "record",
            "1.2",
            [100, 1_000],
            logs::listing_in_turn,
        ),
        case(
            "list 64 records, in any order",
            "record",
            "1.2",
            [100, 1_000],
            logs::listing_in_any_order,
        ),
        case("smooth, g 1", "cycle", "1.1", SIZES, |size| smooth(1, size)),
        case("smooth, g 8", "cycle", "1.1", SIZES, |size| smooth(8, size)),
        case("smooth, g 64", "cycle", "1.1", SIZES, |size| {
            smooth(64, size)
        }),
        case("warp, w 100 r 100", "cycle", "1.5", SIZES, |size| {
            warp(100, 100, 50, inputs::smoothed(size))
        }),
        case("warp, w 100 r 141", "cycle", "1.5", SIZES, |size| {
            warp(100, 141, 84, inputs::smoothed(size))
        }),
        case(
            "warp, w 100 r 10",
            "cycle",
            "1.5",
            [10_000, 100_000],
            |size| warp(100, 10, 50, inputs::smoothed(size)),
        ),
        case("warp, w 10 r 100", "cycle", "1.5", SIZES, |size| {
            warp(10, 100, 5, inputs::smoothed(size))
        }),
        case("warp, w 10 r 100, high", "cycle", "–", SIZES, |size| {
            warp(10, 100, 5, vec![1; size])
        }),
        case(
            "warp, w 1 r 65,535, high",
            "cycle",
            "1.5",
            [65_535, 655_350],
            |size| warp(1, 65_535, 0, vec![1; size]),
        ),
        case(
            "warp by lengths, w and r 95 to 105",
            "cycle",
            "1.2",
            SIZES,
            |size| warp_by_lengths([95, 105], [95, 105], inputs::smoothed(size)),
        ),
        case(
            "warp by lengths, w 95 to 105 r 134 to 148",
            "cycle",
            "1.2",
            SIZES,
            |size| warp_by_lengths([95, 105], [134, 148], inputs::smoothed(size)),
        ),
        case(
            "warp by lengths, w 95 to 105 r 9 to 11",
            "cycle",
            "1.2",
            [10_000, 90_000],
            |size| warp_by_lengths([95, 105], [9, 11], inputs::smoothed(size)),
        ),
        case(
            "warp by lengths, w 9 to 11 r 95 to 105",
            "cycle",
            "1.2",
            SIZES,
            |size| warp_by_lengths([9, 11], [95, 105], inputs::smoothed(size)),
        ),
        case(
            "warp by lengths, w 1 r 65,535, high",
            "cycle",
            "1.2",
            [65_535, 655_350],
            |size| warp_by_lengths([1, 1], [65_535, 65_535], vec![1; size]),
        ),
        case("settle", "read", "1.1", SIZES, settle),
        case("counted, 5/13 cells", "read", "1.5", [100, 1_000], |size| {
            count(K, size, inputs::message(A, B, size))
        }),
        case(
            "counted, 255/255 cells",
            "read",
            "1.5",
            [100, 1_000],
            |size| count(383, size, inputs::message(255, 255, size)),
        ),
        case("time code read, words", "bit", "1.0", SIZES, |size| {
            time_read(inputs::words(size))
        }),
        case("time code read, noise", "bit", "1.0", SIZES, |size| {
            time_read(inputs::noise(size))
        }),
        case("time code written", "call", "1.2", [1_000, 10_000], time_write),
        case("fresh", "call", "1.5", SIZES, fresh),
        case("well formed", "call", "1.2", SIZES, well_formed),
        case("step, rows", "read", "1.2", SIZES, step),
        case("listen, quiet", "read", "1.0", SIZES, |size| {
            listen(K, N, Q, vec![1; size])
        }),
        case("listen, quiet, low", "read", "1.0", SIZES, |size| {
            listen(K, N, Q, vec![0; size])
        }),
        case("listen, rows", "read", "1.0", SIZES, |size| {
            listen(K, N, Q, inputs::rows(size))
        }),
        case("listen, random", "read", "1.0", SIZES, |size| {
            listen(K, N, Q, inputs::random(size, 9))
        }),
        case(
            "listen, random, k 2 n 80 Q 8",
            "read",
            "1.0",
            SIZES,
            |size| listen(2, 80, 8, inputs::random(size, 9)),
        ),
        case(
            "listen, k 1 n 1 Q 3, a row every 4 reads",
            "read",
            "–",
            SIZES,
            |size| listen(1, 1, 3, inputs::repeated(&[1, 1, 1, 0], size)),
        ),
        case(
            "listen, k 1 n 1,024 Q 3, a row every 2,051 reads",
            "read",
            "–",
            SIZES,
            |size| listen(1, 1_024, 3, few_events(size)),
        ),
        case("capture check, rows", "byte", "1.5", SIZES, |size| {
            capture_check(inputs::rows(size))
        }),
        case("capture check, random", "byte", "1.5", SIZES, |size| {
            capture_check(inputs::random(size, 9))
        }),
        case("capture check, runs of 200", "byte", "1.5", SIZES, |size| {
            capture_check(runs_of_200(size))
        }),
        case("capture read, rows", "read", "1.5", SIZES, |size| {
            capture_read(inputs::rows(size))
        }),
        case("capture read, random", "read", "1.5", SIZES, |size| {
            capture_read(inputs::random(size, 9))
        }),
        case("capture write, rows", "read", "1.5", SIZES, |size| {
            capture_write(inputs::rows(size))
        }),
        case("capture write, random", "read", "1.5", SIZES, |size| {
            capture_write(inputs::random(size, 9))
        }),
    ]
}

/// Settings to judge, 64 of them, so that no call can be worked out beforehand.
fn many_settings() -> Vec<[usize; 8]> {
    let (a, b) = (A, B);
    (0..64)
        .map(|i| {
            [
                a + i % 3,
                b,
                1 + i % 4,
                K,
                100,
                60 + 2 * i,
                Q + i % 5,
                LEAD + i,
            ]
        })
        .collect()
}

fn judge(calls: usize) -> Work {
    let (ours, plain) = (many_settings(), many_settings());
    two(
        calls,
        0,
        move |lent| {
            let (mut margins, mut accepted) = ([0usize; 3], 0);
            for i in 0..calls {
                let [a, b, g, k, w, r, ..] = ours[i % 64];
                let refused = unsafe {
                    siengulot_judge(a, b, g, k, w, r, margins.as_mut_ptr(), &mut accepted)
                };
                assert_eq!(refused, 0);
                lent.told[0] += accepted as i64;
                lent.told[1] += margins[2] as i64;
            }
        },
        move |lent| {
            for i in 0..calls {
                let [a, b, g, k, w, r, ..] = plain[i % 64];
                let verdict = settings::judge(a, b, g, k, w as u64, r as u64);
                let verdict = verdict.expect("in range");
                lent.told[0] += verdict.accepted as i64;
                lent.told[1] += verdict.margins[2];
            }
        },
    )
}

fn judge_quiet(calls: usize) -> Work {
    let (ours, plain) = (many_settings(), many_settings());
    two(
        calls,
        0,
        move |lent| {
            let (mut margins, mut accepted) = ([0usize; 5], 0);
            for i in 0..calls {
                let [a, b, g, k, w, r, q, p1] = ours[i % 64];
                let refused = unsafe {
                    siengulot_judge_quiet(
                        a,
                        b,
                        g,
                        k,
                        w,
                        r,
                        q,
                        p1,
                        margins.as_mut_ptr(),
                        &mut accepted,
                    )
                };
                assert_eq!(refused, 0);
                lent.told[0] += accepted as i64;
                lent.told[1] += margins[4] as i64;
            }
        },
        move |lent| {
            for i in 0..calls {
                let [a, b, g, k, w, r, q, p1] = plain[i % 64];
                let verdict = settings::judge_quiet(a, b, g, k, w as u64, r as u64, q, p1);
                let verdict = verdict.expect("in range");
                lent.told[0] += verdict.accepted as i64;
                lent.told[1] += verdict.margins[4];
            }
        },
    )
}

fn send(bits: usize) -> Work {
    let ours = inputs::random(bits, 5);
    let plain = ours.clone();
    let cycles = LEAD + bits * (A + B);
    two(
        cycles,
        cycles,
        move |lent| {
            let (mut place, mut count) = (0, 0);
            let refused = unsafe {
                siengulot_send(
                    A,
                    B,
                    LEAD,
                    ours.as_ptr(),
                    ours.len(),
                    lent.out.as_mut_ptr(),
                    lent.out.len(),
                    &mut place,
                    &mut count,
                )
            };
            lent.told = [refused as i64, count as i64, place as i64, 0];
        },
        move |lent| {
            let sent = sender::message(A, B, LEAD, &plain, &mut lent.out);
            lent.told = [0, sent.expect("can be sent") as i64, 0, 0];
        },
    )
}

fn plan(rows: usize) -> Work {
    let bits = inputs::random(rows * N, 5);
    let leads = vec![LEAD; rows];
    let cycles = rows * (LEAD + N * (A + B));
    let plain = (leads.clone(), bits.clone());
    two(
        cycles,
        cycles,
        move |lent| {
            let (mut place, mut count) = (0, 0);
            let refused = unsafe {
                siengulot_plan(
                    A,
                    B,
                    N,
                    leads.as_ptr(),
                    leads.len(),
                    bits.as_ptr(),
                    bits.len(),
                    lent.out.as_mut_ptr(),
                    lent.out.len(),
                    &mut place,
                    &mut count,
                )
            };
            lent.told = [refused as i64, count as i64, place as i64, 0];
        },
        move |lent| {
            let sent = sender::plan(A, B, N, &plain.0, &plain.1, &mut lent.out);
            lent.told = [0, sent.expect("can be sent") as i64, 0, 0];
        },
    )
}

fn read_plan(rows: usize) -> Work {
    let leads: Vec<usize> = (0..rows).map(|i| LEAD + i % 7).collect();
    let trails: Vec<usize> = (0..rows).map(|i| i % 5).collect();
    let plain = (leads.clone(), trails.clone());
    two(
        rows,
        0,
        move |lent| {
            let (mut place, mut count, mut dropped) = (0, 0, 0);
            let refused = unsafe {
                siengulot_read_plan(
                    leads.as_ptr(),
                    leads.len(),
                    trails.as_ptr(),
                    trails.len(),
                    lent.pads.as_mut_ptr(),
                    lent.pads.len(),
                    &mut place,
                    &mut count,
                    &mut dropped,
                )
            };
            lent.told = [refused as i64, count as i64, place as i64, dropped as i64];
        },
        move |lent| {
            let read = stored::read_plan(&plain.0, &plain.1, &mut lent.pads).expect("can be read");
            lent.told = [0, read.rows as i64, 0, read.dropped as i64];
        },
    )
}

fn smooth(g: usize, cycles: usize) -> Work {
    let ours = inputs::wave(cycles);
    let plain = ours.clone();
    two(
        cycles,
        cycles,
        move |lent| {
            let (mut place, mut count) = (0, 0);
            let refused = unsafe {
                siengulot_smooth(
                    g,
                    ours.as_ptr(),
                    ours.len(),
                    lent.out.as_mut_ptr(),
                    lent.out.len(),
                    &mut place,
                    &mut count,
                )
            };
            lent.told = [refused as i64, count as i64, place as i64, 0];
        },
        move |lent| {
            let count = line::smooth(g, &plain, &mut lent.out);
            lent.told = [0, count.expect("can be smoothed") as i64, 0, 0];
        },
    )
}

fn warp(w: usize, r: usize, p: usize, wave: Vec<u8>) -> Work {
    let plain = wave.clone();
    let reads = (wave.len() * w - p) / r;
    two(
        wave.len(),
        reads,
        move |lent| {
            let (mut place, mut count) = (0, 0);
            let refused = unsafe {
                siengulot_warp(
                    w,
                    r,
                    p,
                    wave.as_ptr(),
                    wave.len(),
                    lent.out.as_mut_ptr(),
                    lent.out.len(),
                    &mut place,
                    &mut count,
                )
            };
            lent.told = [refused as i64, count as i64, place as i64, 0];
        },
        move |lent| {
            let count = line::warp(w as u64, r as u64, p as u64, &plain, &mut lent.out);
            lent.told = [0, count.expect("can be warped") as i64, 0, 0];
        },
    )
}

/// As many lengths of reads as it takes to reach the wave's end.
fn warp_by_lengths([w1, w2]: [usize; 2], [r1, r2]: [usize; 2], wave: Vec<u8>) -> Work {
    let cycles = inputs::lengths(wave.len(), w1, w2, 3);
    let end: usize = cycles.iter().sum();
    let mut reads = inputs::lengths(end / r1 + 1, r1, r2, 4);
    let mut time = 0;
    let in_time = |&&length: &&usize| {
        time += length;
        time <= end
    };
    let count = reads.iter().take_while(in_time).count();
    reads.truncate(count + 1);
    let plain = wave.clone();
    let lengths =
        |list: &[usize]| -> Vec<u64> { list.iter().map(|&length| length as u64).collect() };
    let (plain_cycles, plain_reads) = (lengths(&cycles), lengths(&reads));
    two(
        wave.len(),
        count,
        move |lent| {
            let (mut place, mut count) = (0, 0);
            let refused = unsafe {
                siengulot_warp_by_lengths(
                    w1,
                    w2,
                    r1,
                    r2,
                    0,
                    cycles.as_ptr(),
                    cycles.len(),
                    reads.as_ptr(),
                    reads.len(),
                    wave.as_ptr(),
                    wave.len(),
                    lent.out.as_mut_ptr(),
                    lent.out.len(),
                    &mut place,
                    &mut count,
                )
            };
            lent.told = [refused as i64, count as i64, place as i64, 0];
        },
        move |lent| {
            let count = line::warp_by_lengths(
                [w1 as u64, w2 as u64],
                [r1 as u64, r2 as u64],
                0,
                &plain_cycles,
                &plain_reads,
                &plain,
                &mut lent.out,
            );
            lent.told = [0, count.expect("can be warped") as i64, 0, 0];
        },
    )
}

fn settle(reads: usize) -> Work {
    let ours = inputs::unsettled(reads);
    let unknown = ours.iter().filter(|&&read| read == 2).count();
    let choices = inputs::random(unknown, 77);
    let plain = (ours.clone(), choices.clone());
    two(
        reads,
        reads,
        move |lent| {
            let (mut place, mut count) = (0, 0);
            let refused = unsafe {
                siengulot_settle(
                    ours.as_ptr(),
                    ours.len(),
                    choices.as_ptr(),
                    choices.len(),
                    lent.out.as_mut_ptr(),
                    lent.out.len(),
                    &mut place,
                    &mut count,
                )
            };
            lent.told = [refused as i64, count as i64, place as i64, 0];
        },
        move |lent| {
            let count = line::settle(&plain.0, &plain.1, &mut lent.out);
            lent.told = [0, count.expect("can be settled") as i64, 0, 0];
        },
    )
}

fn count(k: usize, n: usize, reads: Vec<u8>) -> Work {
    let plain = reads.clone();
    two(
        reads.len(),
        n,
        move |lent| {
            let (mut place, mut count) = (0, 0);
            let refused = unsafe {
                siengulot_counted(
                    k,
                    n,
                    1,
                    reads.as_ptr(),
                    reads.len(),
                    lent.out.as_mut_ptr(),
                    lent.out.len(),
                    &mut place,
                    &mut count,
                )
            };
            lent.told = [refused as i64, 0, place as i64, 0];
        },
        move |lent| {
            let current = counted::receive(n, 1, k, &plain, &mut lent.out);
            lent.told = [0, 0, current.expect("the bits are there") as i64, 0];
        },
    )
}

fn time_read(bits: Vec<u8>) -> Work {
    let plain = bits.clone();
    let room = timecode::TIME * (bits.len() / timecode::WORD);
    two(
        bits.len(),
        room,
        move |lent| {
            let (mut place, mut count) = (0, 0);
            let refused = unsafe {
                siengulot_time_read(
                    bits.as_ptr(),
                    bits.len(),
                    lent.out.as_mut_ptr(),
                    lent.out.len(),
                    &mut place,
                    &mut count,
                )
            };
            lent.told = [refused as i64, count as i64, place as i64, 0];
        },
        move |lent| {
            let count = timecode::read(&plain, &mut lent.out);
            lent.told = [0, count.expect("no word is bad") as i64, 0, 0];
        },
    )
}

/// The time of a call, over all times of a day.
fn time_of(i: usize) -> [usize; timecode::TIME] {
    [i / 90_000 % 24, i / 1_500 % 60, i / 25 % 60, i % 25]
}

fn time_write(calls: usize) -> Work {
    two(
        calls,
        timecode::WORD,
        move |lent| {
            for i in 0..calls {
                let [hours, minutes, seconds, frames] = time_of(7 * i);
                let (mut place, mut count) = (0, 0);
                let refused = unsafe {
                    siengulot_time_write(
                        hours,
                        minutes,
                        seconds,
                        frames,
                        lent.out.as_mut_ptr(),
                        lent.out.len(),
                        &mut place,
                        &mut count,
                    )
                };
                assert_eq!(refused, 0);
                lent.told[0] += i64::from(lent.out[i % timecode::WORD]);
            }
        },
        move |lent| {
            for i in 0..calls {
                timecode::write(time_of(7 * i), &mut lent.out).expect("a time in range");
                lent.told[0] += i64::from(lent.out[i % timecode::WORD]);
            }
        },
    )
}

fn fresh(calls: usize) -> Work {
    two(
        calls,
        128,
        move |lent| {
            let (mut numbers, mut bytes) = ([0; NUMBERS], [1; 128]);
            for i in 0..calls {
                let (k, n, q) = (1 + i % 64, N, Q);
                let refused =
                    unsafe { siengulot_fresh(k, n, q, numbers.as_mut_ptr(), bytes.as_mut_ptr()) };
                assert_eq!(refused, 0);
                lent.told[0] += (numbers[at::K] + usize::from(bytes[i % 128])) as i64;
            }
        },
        move |lent| {
            for i in 0..calls {
                let (k, n, q) = (1 + i % 64, N, Q);
                match Receiver::fresh(k, n, q) {
                    Ok(fresh) => {
                        lent.told[0] += (fresh.k + usize::from(fresh.bits[i % 128])) as i64
                    }
                    Err(_) => unreachable!("the settings are in range"),
                }
            }
        },
    )
}

/// States that a receiver goes through over two rows, in all four modes.
fn many_states() -> Vec<Receiver> {
    let mut receiver = Receiver::fresh(K, N, Q).expect("in range");
    let mut states = vec![];
    for (i, &read) in inputs::rows(2_000).iter().enumerate() {
        receiver.step(read).expect("a level");
        if i % 31 == 0 && states.len() < 64 {
            states.push(receiver.clone());
        }
    }
    states
}

fn well_formed(calls: usize) -> Work {
    let plain = many_states();
    let ours: Vec<_> = plain.iter().map(|s| (numbers_of(s), s.bits)).collect();
    assert_eq!(ours.len(), 64);
    two(
        calls,
        0,
        move |lent| {
            for i in 0..calls {
                let (numbers, bytes) = &ours[i % 64];
                lent.told[0] +=
                    unsafe { siengulot_well_formed(numbers.as_ptr(), bytes.as_ptr()) } as i64;
            }
        },
        move |lent| {
            for i in 0..calls {
                lent.told[0] += plain[i % 64].well_formed() as i64;
            }
        },
    )
}

fn step(reads: usize) -> Work {
    let ours = inputs::rows(reads);
    let plain = ours.clone();
    two(
        reads,
        128,
        move |lent| {
            let (mut numbers, mut bytes, mut row) = ([0; NUMBERS], [0; 128], [0; 128]);
            let (mut event, mut found, mut place) = (0, 0, 0);
            unsafe { siengulot_fresh(K, N, Q, numbers.as_mut_ptr(), bytes.as_mut_ptr()) };
            for &read in &ours {
                let refused = unsafe {
                    siengulot_step(
                        numbers.as_mut_ptr(),
                        bytes.as_mut_ptr(),
                        read,
                        row.as_mut_ptr(),
                        &mut event,
                        &mut found,
                        &mut place,
                    )
                };
                lent.told[0] |= refused as i64;
                if event == 1 {
                    lent.told[1] += 1;
                } else if event == 2 {
                    lent.told[2] += 1;
                    lent.told[3] += found as i64;
                }
            }
            lent.out.copy_from_slice(&row);
        },
        move |lent| {
            let mut receiver = Receiver::fresh(K, N, Q).expect("in range");
            for &read in &plain {
                match receiver.step(read) {
                    Ok(event) => heard(&event, lent),
                    Err(_) => unreachable!("every read is a level"),
                }
            }
        },
    )
}

/// Puts down an event of the plain implementation.
#[inline]
fn heard(event: &Option<Event>, lent: &mut Lent) {
    match event {
        None => {}
        Some(Event::Row(row)) => {
            lent.told[1] += 1;
            lent.out.copy_from_slice(row);
        }
        Some(Event::Broken(found)) => {
            lent.told[2] += 1;
            lent.told[3] += *found as i64;
        }
    }
}

/// Listening goes on after each event until the reads are used up. The plain implementation takes one read at a time,
/// and for comparison also a list of reads.
fn listen(k: usize, n: usize, q: usize, reads: Vec<u8>) -> Work {
    let (units, plain, listed) = (reads.len(), reads.clone(), reads.clone());
    let rattle = move |lent: &mut Lent| {
        let (mut numbers, mut bytes, mut row) = ([0; NUMBERS], [0; 128], [0; 128]);
        let (mut event, mut found, mut used, mut place) = (0, 0, 0, 0);
        unsafe { siengulot_fresh(k, n, q, numbers.as_mut_ptr(), bytes.as_mut_ptr()) };
        let mut rest = &reads[..];
        while !rest.is_empty() {
            let refused = unsafe {
                siengulot_listen(
                    numbers.as_mut_ptr(),
                    bytes.as_mut_ptr(),
                    rest.as_ptr(),
                    rest.len(),
                    row.as_mut_ptr(),
                    &mut event,
                    &mut found,
                    &mut used,
                    &mut place,
                )
            };
            lent.told[0] |= refused as i64;
            rest = &rest[used..];
            if event == 1 {
                lent.told[1] += 1;
            } else if event == 2 {
                lent.told[2] += 1;
                lent.told[3] += found as i64;
            }
        }
        lent.out.copy_from_slice(&row);
    };
    let rust = move |lent: &mut Lent| {
        let mut listener = Listener::new(k, n, q).expect("in range");
        for &read in &plain {
            match listener.read(read) {
                None => {}
                Some(Report::Row) => lent.told[1] += 1,
                Some(Report::Broken(found)) => {
                    lent.told[2] += 1;
                    lent.told[3] += found as i64;
                }
            }
        }
        lent.out.copy_from_slice(listener.row());
    };
    let list = move |lent: &mut Lent| {
        let mut receiver = Receiver::fresh(k, n, q).expect("in range");
        let mut rest = &listed[..];
        while !rest.is_empty() {
            match receiver.listen(rest) {
                Ok(taken) => {
                    rest = &rest[taken.taken..];
                    heard(&taken.event, lent);
                }
                Err(_) => unreachable!("every read is a level"),
            }
        }
    };
    let mut work = two(units, 128, rattle, rust);
    work.sides.push(("list", Box::new(list)));
    work
}

/// Rows of 1,024 bits, two reads each, after a quiet of three.
fn few_events(reads: usize) -> Vec<u8> {
    let mut row = vec![1; 3];
    row.extend(inputs::repeated(&[0, 0, 1, 1], 2_048));
    inputs::repeated(&row, reads)
}

/// Levels that change every 200 reads: runs that take two bytes.
fn runs_of_200(reads: usize) -> Vec<u8> {
    (0..reads).map(|i| (i / 200 % 2) as u8).collect()
}

/// The capture of reads.
fn captured(reads: &[u8]) -> Vec<u8> {
    let mut bytes = vec![0; reads.len() + 7];
    let length = capture::write(K, N, Q, reads, &mut bytes).expect("can be captured");
    bytes.truncate(length);
    bytes
}

fn told(refused: usize, summary: &[usize; 5]) -> [i64; 4] {
    assert_eq!(refused, 0);
    [summary[0], summary[1], summary[2], summary[3]].map(|number| number as i64)
}

fn plain_told(summary: capture::Summary) -> [i64; 4] {
    [summary.k, summary.n, summary.q, summary.reads].map(|number| number as i64)
}

fn capture_check(reads: Vec<u8>) -> Work {
    let ours = captured(&reads);
    let plain = ours.clone();
    two(
        ours.len(),
        0,
        move |lent| {
            let (mut summary, mut place) = ([0; 5], 0);
            let refused = unsafe {
                siengulot_capture_check(ours.as_ptr(), ours.len(), summary.as_mut_ptr(), &mut place)
            };
            lent.told = told(refused, &summary);
        },
        move |lent| {
            lent.told = plain_told(capture::check(&plain).expect("a capture"));
        },
    )
}

fn capture_read(reads: Vec<u8>) -> Work {
    let ours = captured(&reads);
    let plain = ours.clone();
    two(
        reads.len(),
        reads.len(),
        move |lent| {
            let (mut summary, mut place) = ([0; 5], 0);
            let refused = unsafe {
                siengulot_capture_read(
                    ours.as_ptr(),
                    ours.len(),
                    lent.out.as_mut_ptr(),
                    lent.out.len(),
                    summary.as_mut_ptr(),
                    &mut place,
                )
            };
            lent.told = told(refused, &summary);
        },
        move |lent| {
            let summary = capture::read(&plain, &mut lent.out).expect("a capture");
            lent.told = plain_told(summary);
        },
    )
}

fn capture_write(reads: Vec<u8>) -> Work {
    let plain = reads.clone();
    let room = captured(&reads).len();
    two(
        reads.len(),
        room,
        move |lent| {
            let (mut place, mut count) = (0, 0);
            let refused = unsafe {
                siengulot_capture_write(
                    K,
                    N,
                    Q,
                    reads.as_ptr(),
                    reads.len(),
                    lent.out.as_mut_ptr(),
                    lent.out.len(),
                    &mut place,
                    &mut count,
                )
            };
            lent.told = [refused as i64, count as i64, place as i64, 0];
        },
        move |lent| {
            let length = capture::write(K, N, Q, &plain, &mut lent.out).expect("can be written");
            lent.told = [0, length as i64, 0, 0];
        },
    )
}
