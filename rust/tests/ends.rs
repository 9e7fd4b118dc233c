//! The judges and the pick over the ends of two clocks: against the steady ones at each corner, and against messages over clocks that wander.

mod common;

use common::{holds, lent, refusal, Rng};
use siengulot_plain::settings::{judge_ends, judge_quiet, judge_quiet_ends, pick_ends};
use siengulot_plain::{counted, line, sender, Refusal};

/// The ends of a clock.
fn ends(rng: &mut Rng, most: usize) -> [u64; 2] {
    let least = rng.within(1, most);
    let apart = [0, 1, 3, most][rng.below(4)];
    [least as u64, (least + rng.below(apart + 1)) as u64]
}

#[test]
fn each_margin_is_the_least_of_the_four_corners() {
    let mut rng = Rng::new(111);
    for _ in 0..20_000 {
        let g = rng.within(1, 64);
        let (a, b) = (rng.within(g, 255), rng.within(1, 255));
        let (k, q, p1) = (
            rng.within(1, 511),
            rng.within(2, 8_191),
            rng.within(g, 65_535),
        );
        let most = [9, 150, 30_000][rng.below(3)];
        let (w, r) = (ends(&mut rng, most), ends(&mut rng, most));
        let corners = [[0, 0], [0, 1], [1, 0], [1, 1]]
            .map(|[i, j]| judge_quiet(a, b, g, k, w[i], r[j], q, p1).unwrap());
        let least = [0, 1, 2, 3, 4].map(|m| {
            let of_margin = corners.iter().map(|corner| corner.margins[m]);
            of_margin.min().unwrap()
        });
        let over = judge_quiet_ends(a, b, g, k, w, r, q, p1).unwrap();
        assert_eq!(over.margins, least);
        assert_eq!(over.accepted, corners.iter().all(|corner| corner.accepted));
    }
}

#[test]
fn shorter_than_the_settling_count_the_least_length_stays() {
    let mut rng = Rng::new(112);
    for _ in 0..20_000 {
        let g = rng.within(3, 64);
        let (a, p1) = (rng.within(1, g - 2), rng.below(g));
        let b = rng.within(1, g - a - 1);
        let (k, q) = (rng.within(1, 511), rng.within(2, 8_191));
        let (w, r) = (ends(&mut rng, 150), ends(&mut rng, 150));
        let over = judge_quiet_ends(a, b, g, k, w, r, q, p1).unwrap().margins;
        let least = judge_quiet(a, b, g, k, w[0], r[1], q, p1).unwrap().margins;
        let greatest = judge_quiet(a, b, g, k, w[1], r[0], q, p1).unwrap().margins;
        let expected = [least[0], greatest[1], least[2], greatest[3], least[4]];
        assert_eq!(over, expected);
        assert!(!judge_quiet_ends(a, b, g, k, w, r, q, p1).unwrap().accepted);
    }
}

#[test]
fn ends_out_of_range_or_order_are_refused() {
    let refused = Err(refusal(1, 0));
    let all = |w, r| -> [Result<(), Refusal>; 3] {
        [
            judge_ends(5, 13, 1, 10, w, r).map(|_| ()),
            judge_quiet_ends(5, 13, 1, 10, w, r, 21, 23).map(|_| ()),
            pick_ends(5, 13, 1, w, r).map(|_| ()),
        ]
    };
    let good = [100, 100];
    for bad in [
        [0, 100],
        [100, 65_536],
        [65_536, 65_536],
        [0, 0],
        [101, 100],
        [u64::MAX, 1],
    ] {
        assert_eq!(all(bad, good), [refused; 3]);
        assert_eq!(all(good, bad), [refused; 3]);
    }
    assert_eq!(all(good, [99, 101]), [Ok(()); 3]);
    // 1 comes before 9.
    assert_eq!(pick_ends(5, 13, 1, [2, 1], [9, 9]), Err(refusal(1, 0)));
    assert_eq!(pick_ends(5, 13, 1, [1, 2], [9, 9]), Err(refusal(9, 0)));
}

#[test]
fn no_other_count_is_better() {
    let mut rng = Rng::new(113);
    let (mut given, mut refused) = (0, 0);
    for _ in 0..4_000 {
        let most = [6, 30, 255][rng.below(3)];
        let (a, b) = (rng.within(1, most), rng.within(1, most));
        let most = [5, 40, 150, 30_000][rng.below(4)];
        let (w, r) = (ends(&mut rng, most), ends(&mut rng, most));
        let most = [1, 3, 64][rng.below(3)];
        let g = rng.within(1, most);
        let least = |k| {
            let verdict = judge_ends(a, b, g, k, w, r).expect("in range");
            verdict.margins.into_iter().min().expect("three margins")
        };
        match pick_ends(a, b, g, w, r) {
            Ok(best) => {
                assert!((1..=511).contains(&best) && least(best) >= 0);
                assert!((1..best).all(|k| least(k) < least(best)));
                assert!((best..=511).all(|k| least(k) <= least(best)));
                given += 1;
            }
            Err(why) => {
                assert_eq!(why, refusal(9, 0));
                assert!((1..=511).all(|k| least(k) < 0));
                refused += 1;
            }
        }
    }
    assert!(given > 500 && refused > 500, "{} {}", given, refused);
}

/// So many lengths from the least to the greatest, most of them at an end.
fn lengths(rng: &mut Rng, [least, most]: [u64; 2], count: usize) -> Vec<u64> {
    let length = |_| match rng.below(3) {
        0 => least,
        1 => most,
        _ => rng.within(least as usize, most as usize) as u64,
    };
    (0..count).map(length).collect()
}

#[test]
fn accepted_ends_return_every_message() {
    let mut rng = Rng::new(114);
    let up = |x: u64, by: u64| ((x + by - 1) / by) as usize;
    let (mut sent, mut apart) = (0, 0);
    while sent < 2_000 {
        let (w, r) = (ends(&mut rng, 30), ends(&mut rng, 30));
        let g = rng.within(1, 4);
        let a = g + up(2 * r[1], w[0]) + rng.below(2);
        let k = 1 + up((a + g) as u64 * w[1], r[0]) + rng.below(2);
        let b = (g + up((k + 2) as u64 * r[1], w[0])).saturating_sub(a) + rng.below(2);
        if a > 255 || !(1..=255).contains(&b) || k > 511 {
            continue;
        }
        assert!(judge_ends(a, b, g, k, w, r).unwrap().accepted);
        sent += 1;
        apart += usize::from(w[0] < w[1] && r[0] < r[1]);
        let n = rng.below(10);
        let bits = rng.bits(n);
        let (p1, after) = (rng.below(2) * rng.below(30), rng.below(2) * rng.below(30));
        let mut wave = lent(p1 + n * (a + b));
        sender::message(a, b, p1, &bits, &mut wave).unwrap();
        wave.extend(vec![1; after]);
        let mut smoothed = wave.clone();
        line::smooth(g, &wave, &mut smoothed).unwrap();
        let cycles = lengths(&mut rng, w, wave.len());
        let end: u64 = cycles.iter().sum();
        let reads = lengths(&mut rng, r, (end / r[0]) as usize + 1);
        let p = cycles
            .first()
            .map_or(0, |&first| rng.below(first as usize) as u64);
        let mut out = lent(reads.len());
        let count = line::warp_by_lengths(w, r, p, &cycles, &reads, &smoothed, &mut out).unwrap();
        let many = rng.below(200);
        let choices = rng.reads(many);
        let mut settled = lent(count);
        line::settle(&out[..count], &choices, &mut settled).unwrap();
        let mut found = lent(n + 2);
        assert!(counted::receive(n, 1, k, &settled, &mut found).is_ok());
        assert!(holds(&found, &bits));
    }
    assert!(apart > 500, "{}", apart);
}
