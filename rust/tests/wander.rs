//! Warp by lengths: against the rule read word by word, against warp where lengths are equal, and its refusals.

mod common;

use common::{holds, lent, refusal, warp_model, Rng};
use siengulot_plain::line;
use siengulot_plain::settings::MAX_LIST;

/// What each cycle or read lasts from and to.
fn spans(from: u64, lengths: &[u64]) -> Vec<(u64, u64)> {
    let mut time = from;
    let span = |&length: &u64| {
        let start = time;
        time += length;
        (start, time)
    };
    lengths.iter().map(span).collect()
}

/// Every cycle is asked of every read whether the two share more than a point of time.
fn model(p: u64, cycles: &[u64], reads: &[u64], wave: &[u8]) -> Vec<u8> {
    let both: Vec<_> = spans(0, cycles).into_iter().zip(wave).collect();
    let end = both.last().map_or(0, |((_, end), _)| *end);
    let in_time = spans(p, reads).into_iter().take_while(|read| read.1 <= end);
    let read = |(start, until): (u64, u64)| {
        let shares = |(from, to): (u64, u64)| from < until && start < to;
        let shared = both.iter().filter(|(cycle, _)| shares(*cycle));
        let mut levels: Vec<u8> = shared.map(|(_, level)| **level).collect();
        levels.dedup();
        match levels[..] {
            [level] => level,
            _ => 2,
        }
    };
    in_time.map(read).collect()
}

fn lengths(rng: &mut Rng, least: usize, most: usize, count: usize) -> Vec<u64> {
    (0..count).map(|_| rng.within(least, most) as u64).collect()
}

#[test]
fn a_read_is_what_shares_time_with_it() {
    let mut rng = Rng::new(11);
    for _ in 0..20_000 {
        let (w1, r1) = (rng.within(1, 9), rng.within(1, 9));
        let (w2, r2) = (w1 + rng.below(9), r1 + rng.below(9));
        let (cycles, reads) = (rng.below(20), rng.below(40));
        let cycles = lengths(&mut rng, w1, w2, cycles);
        let reads = lengths(&mut rng, r1, r2, reads);
        let levels = rng.below(24);
        let wave = match rng.below(2) {
            0 => rng.entries(levels, 2),
            _ => rng.runs(levels, 4),
        };
        let p = cycles
            .first()
            .map_or(123_456_789, |&first| rng.below(first as usize) as u64);
        let expected = model(p, &cycles, &reads, &wave);
        let bounds = ([w1 as u64, w2 as u64], [r1 as u64, r2 as u64]);
        let mut out = lent(expected.len() + 3);
        let count = line::warp_by_lengths(bounds.0, bounds.1, p, &cycles, &reads, &wave, &mut out);
        assert_eq!(count, Ok(expected.len()));
        assert!(
            holds(&out, &expected),
            "{} {:?} {:?} {:?}",
            p,
            cycles,
            reads,
            wave
        );
        if !expected.is_empty() {
            let mut short = lent(expected.len() - 1);
            let refused =
                line::warp_by_lengths(bounds.0, bounds.1, p, &cycles, &reads, &wave, &mut short);
            assert_eq!(refused, Err(refusal(4, 0)));
            assert!(holds(&short, &[]));
        }
    }
}

#[test]
fn equal_lengths_make_warp() {
    let mut rng = Rng::new(12);
    for _ in 0..5_000 {
        let (w, r) = (rng.within(1, 12) as u64, rng.within(1, 12) as u64);
        let p = rng.below(w as usize) as u64;
        let levels = rng.below(40);
        let wave = rng.entries(levels, 2);
        let expected = warp_model(w, r, p, &wave);
        let cycles = vec![w; wave.len() + rng.below(3)];
        let reads = vec![r; expected.len() + rng.below(3)];
        let mut out = lent(expected.len() + 1);
        let count = line::warp_by_lengths([w, w], [r, r], p, &cycles, &reads, &wave, &mut out);
        assert_eq!(count, Ok(expected.len()));
        assert!(holds(&out, &expected));
    }
}

/// Refuses so, and leaves what was lent.
fn refuses(
    number: u8,
    place: usize,
    (w, r, p): ([u64; 2], [u64; 2], u64),
    (cycles, reads, wave): (&[u64], &[u64], &[u8]),
) {
    let mut out = lent(1);
    let answer = line::warp_by_lengths(w, r, p, cycles, reads, wave, &mut out);
    assert_eq!(answer, Err(refusal(number, place)));
    assert!(holds(&out, &[]));
}

#[test]
fn bounds_and_lengths_are_judged_first() {
    let long = vec![3; MAX_LIST + 1];
    for (w, r) in [
        ([0, 5], [3, 5]),
        ([3, 65_536], [3, 5]),
        ([3, 5], [0, 5]),
        ([3, 5], [3, 65_536]),
        ([5, 3], [3, 5]),
        ([3, 5], [5, 3]),
    ] {
        refuses(1, 0, (w, r, 0), (&[], &[], &[]));
        refuses(1, 0, (w, r, 0), (&[3, 3], &[3], &long));
    }
    let fit = ([3, 5], [3, 5], 0);
    for bad in [0, 2, 6, 65_536, u64::MAX] {
        refuses(1, 0, fit, (&[3, bad], &[3], &[1, 1]));
        // Also where no level goes with it, and where the read would end late.
        refuses(1, 0, fit, (&[3, bad], &[3], &long));
        refuses(1, 0, fit, (&[3, 3], &[3, 3, bad], &[1]));
    }
    for p in [3, 4, u64::MAX] {
        refuses(1, 0, ([3, 5], [3, 5], p), (&[3, 5], &[3], &[]));
    }
    let any = line::warp_by_lengths([3, 5], [3, 5], u64::MAX, &[], &[3], &[1, 2], &mut []);
    assert_eq!(any, Ok(0));
}

#[test]
fn lists_are_judged_next() {
    let fit = ([1, 5], [1, 5], 0);
    let (many, levels) = (vec![1; MAX_LIST + 1], vec![3; MAX_LIST + 1]);
    refuses(3, 0, fit, (&[1], &[1], &levels));
    refuses(3, 0, fit, (&many, &[1], &[3]));
    refuses(3, 0, fit, (&[1], &many, &[3]));
    refuses(2, 0, fit, (&many[1..], &many[1..], &levels[1..]));
    refuses(2, 2, fit, (&[1], &[1], &[1, 2, 3, 4]));
    refuses(4, 0, fit, (&[1, 1], &[1, 1], &[1, 2]));
}

#[test]
fn the_longest_lists_are_taken() {
    let wave = vec![1; MAX_LIST];
    let (one, most) = (vec![1; MAX_LIST], vec![65_535; MAX_LIST]);
    for (cycles, reads, expected) in [(&one, &most, 16), (&most, &most, MAX_LIST)] {
        let mut out = lent(MAX_LIST);
        let count =
            line::warp_by_lengths([1, 65_535], [65_535; 2], 0, cycles, reads, &wave, &mut out);
        assert_eq!(count, Ok(expected));
        assert!(holds(&out, &vec![1; expected]));
    }
}
