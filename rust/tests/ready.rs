//! When a row is ready: the read that delivers it lies within the settled code of the row's last cell, with a time unit to
//! spare on either side, whether the clocks are steady or wander; and both bounds are reached.

mod common;

use common::{feed, lent, packed, Rng};
use siengulot_plain::board::{Event, Receiver};
use siengulot_plain::settings::judge_quiet_ends;
use siengulot_plain::{line, sender};

/// Settings with all five margins over the ends zero or more, often just so, and the least lead that goes with them.
struct Fitted {
    a: usize,
    b: usize,
    g: usize,
    k: usize,
    w: [u64; 2],
    r: [u64; 2],
    q: usize,
    p1: usize,
}

fn fitted(rng: &mut Rng) -> Fitted {
    loop {
        let most = [3, 12, 100][rng.below(3)];
        let mut ends = || {
            let least = rng.within(1, most);
            [least, least + rng.below(2) * rng.below(1 + least / 3)]
        };
        let ([w1, w2], [r1, r2]) = (ends(), ends());
        let up = |dividend: usize, divisor: usize| (dividend + divisor - 1) / divisor;
        let spare = |rng: &mut Rng| rng.below(2) * rng.below(3);
        let g = rng.within(1, 4);
        let a = g + up(2 * r2, w1) + spare(rng);
        let k = 1 + up((a + g) * w2, r1) + spare(rng);
        let b = (g + up((k + 2) * r2, w1)).saturating_sub(a).max(1) + spare(rng);
        let q = 2 + up((a + b + g) * w2, r1) + spare(rng);
        let p1 = g + up((q + 1) * r2, w1);
        // Large settings say nothing new here and make the test slow.
        if a > 60 || b > 100 || k > 150 || q > 300 || p1 > 300 {
            continue;
        }
        let (w, r) = ([w1 as u64, w2 as u64], [r1 as u64, r2 as u64]);
        assert!(judge_quiet_ends(a, b, g, k, w, r, q, p1).unwrap().accepted);
        return Fitted {
            a,
            b,
            g,
            k,
            w,
            r,
            q,
            p1,
        };
    }
}

fn lengths(rng: &mut Rng, [least, most]: [u64; 2], count: usize) -> Vec<u64> {
    let kind = rng.below(4);
    let one = |rng: &mut Rng| match kind {
        0 => least,
        1 => most,
        _ => least + rng.below((most - least + 1) as usize) as u64,
    };
    (0..count).map(|_| one(rng)).collect()
}

/// When each cycle, or each read, starts, and when the last is over.
fn starts(from: u64, lengths: &[u64]) -> Vec<u64> {
    let mut times = vec![from];
    times.extend(lengths.iter().scan(from, |time, length| {
        *time += length;
        Some(*time)
    }));
    times
}

/// Sends rows of `n` bits over these lengths, on a straight pair or a crossed one, and says how far the read that
/// delivers a row keeps from the two bounds, for each row.
fn spare(
    s: &Fitted,
    n: usize,
    leads: &[usize],
    bits: &[u8],
    p: u64,
    cycles: &[u64],
    reads: &[u64],
    choices: &[u8],
    crossed: bool,
) -> Vec<(i64, i64)> {
    let cells = n * (s.a + s.b);
    let mut wave = lent(cycles.len());
    sender::plan(s.a, s.b, n, leads, bits, &mut wave).unwrap();
    if crossed {
        wave.iter_mut().for_each(|level| *level = 1 - *level);
    }
    let mut smoothed = lent(wave.len());
    line::smooth(s.g, &wave, &mut smoothed).unwrap();
    let mut warped = lent(reads.len());
    let count = line::warp_by_lengths(s.w, s.r, p, cycles, reads, &smoothed, &mut warped).unwrap();
    let mut settled = lent(count);
    line::settle(&warped[..count], choices, &mut settled).unwrap();
    let mut receiver = Receiver::fresh(s.k, n, s.q).unwrap();
    let events = feed(&mut receiver, &settled);

    let (cycle, read) = (starts(0, cycles), starts(p, reads));
    let rows: Vec<&[u8]> = bits.chunks(n).collect();
    assert_eq!(events.len(), rows.len());
    let mut end = 0;
    let mut kept = Vec::new();
    for (i, (place, event)) in events.into_iter().enumerate() {
        assert_eq!(event, Event::Row(packed(rows[i])));
        end += leads[i] + cells;
        let settles = cycle[end - s.b + s.g];
        kept.push((
            read[place] as i64 - settles as i64,
            cycle[end] as i64 - read[place + 1] as i64,
        ));
    }
    kept
}

#[test]
fn a_row_comes_within_its_last_settled_code() {
    let mut rng = Rng::new(51);
    let (mut after, mut before) = (i64::MAX, i64::MAX);
    for _ in 0..3_000 {
        let s = fitted(&mut rng);
        let (n, count) = (rng.within(1, 4), rng.within(1, 3));
        let leads: Vec<usize> = (0..count)
            .map(|_| s.p1 + rng.below(2) * rng.below(20))
            .collect();
        let bits = rng.bits(count * n);
        let length = leads.iter().sum::<usize>() + count * n * (s.a + s.b);
        let cycles = lengths(&mut rng, s.w, length);
        let p = rng.below(cycles[0] as usize) as u64;
        let end: u64 = cycles.iter().sum();
        let reads = lengths(&mut rng, s.r, (end / s.r[0]) as usize + 1);
        let many = [0, 2_000][rng.below(2)];
        let choices = rng.reads(many);
        let crossed = rng.below(2) == 1;
        for (start, end) in spare(&s, n, &leads, &bits, p, &cycles, &reads, &choices, crossed) {
            assert!(start >= 1 && end >= 1);
            after = after.min(start);
            before = before.min(end);
        }
    }
    // Nothing more can be promised: both are reached.
    assert_eq!((after, before), (1, 1));
}

#[test]
fn both_bounds_are_reached_in_one_run() {
    let s = Fitted {
        a: 4,
        b: 7,
        g: 2,
        k: 7,
        w: [2, 2],
        r: [2, 2],
        q: 15,
        p1: 18,
    };
    assert_eq!(
        judge_quiet_ends(s.a, s.b, s.g, s.k, s.w, s.r, s.q, s.p1)
            .unwrap()
            .margins,
        [0; 5]
    );
    let (cycles, reads) = ([2; 80], [2; 80]);
    let kept = spare(&s, 2, &[18, 18], &[1, 0, 0, 1], 1, &cycles, &reads, &[], false);
    // From 71 to 73, where the code has settled at 70 and the cell ends at 80; and from 157 to 159, where it ends at 160.
    assert_eq!(kept, [(1, 7), (7, 1)]);
}
