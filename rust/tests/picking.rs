//! The picked sampling count: the one whose least margin is the greatest, held to the judge's margins.

mod common;

use common::{refusal, Rng};
use siengulot_plain::settings::{judge, pick};

fn least(a: usize, b: usize, g: usize, k: usize, w: u64, r: u64) -> i64 {
    let margins = judge(a, b, g, k, w, r).expect("settings in range").margins;
    margins.into_iter().min().expect("three margins")
}

/// The k that is given is better than each smaller one and no worse than each greater one; where none is given, none is accepted.
fn holds(a: usize, b: usize, g: usize, w: u64, r: u64) -> bool {
    match pick(a, b, g, w, r) {
        Ok(best) => {
            let most = least(a, b, g, best, w, r);
            assert!((1..=511).contains(&best) && most >= 0);
            assert!((1..best).all(|k| least(a, b, g, k, w, r) < most));
            assert!((best..=511).all(|k| least(a, b, g, k, w, r) <= most));
            true
        }
        Err(refused) => {
            assert_eq!(refused, refusal(9, 0));
            assert!((1..=511).all(|k| !judge(a, b, g, k, w, r).unwrap().accepted));
            false
        }
    }
}

#[test]
fn worked_cases() {
    assert_eq!(pick(5, 13, 1, 100, 142), Ok(7));
    assert_eq!(least(5, 13, 1, 7, 100, 142), 116);
    assert_eq!(pick(5, 13, 1, 100, 141), Ok(7));
    assert_eq!(least(5, 13, 1, 7, 100, 141), 118);
    assert_eq!(pick(255, 255, 1, 7, 5), Ok(511));
    assert_eq!(pick(2, 3, 1, 4, 1), Ok(13));
    assert_eq!(least(2, 3, 1, 13, 4, 1), least(2, 3, 1, 14, 4, 1));
    assert_eq!(pick(3, 5, 1, 5, 5), Ok(5));
    // All three margins lose w with each step of g, so the best k stays, until its M1 is below zero.
    for g in 1..=2 {
        assert_eq!(pick(5, 13, g, 100, 141), Ok(7));
        assert_eq!(least(5, 13, g, 7, 100, 141), 218 - 100 * g as i64);
    }
    assert_eq!(pick(5, 13, 3, 100, 141), Err(refusal(9, 0)));
    // P14's settings: M1 is 1,400 there, and so is the least of k 159 and of k 160.
    assert_eq!(pick(80, 160, 64, 100, 100), Ok(159));
    assert_eq!(least(80, 160, 64, 159, 100, 100), 1_400);
    assert_eq!(least(80, 160, 64, 160, 100, 100), 1_400);
    for (w, r) in [(1, 65_535), (65_535, 1)] {
        for (a, b) in [(5, 13), (255, 255)] {
            assert_eq!(pick(a, b, 1, w, r), Err(refusal(9, 0)));
        }
    }
}

#[test]
fn each_setting_out_of_range_is_refused() {
    for bad in [0, 256, usize::MAX] {
        assert_eq!(pick(bad, 13, 1, 100, 100), Err(refusal(1, 0)));
        assert_eq!(pick(5, bad, 1, 100, 100), Err(refusal(1, 0)));
    }
    for bad in [0, 65, usize::MAX] {
        assert_eq!(pick(5, 13, bad, 100, 100), Err(refusal(1, 0)));
    }
    for bad in [0, 65_536, u64::MAX] {
        assert_eq!(pick(5, 13, 1, bad, 100), Err(refusal(1, 0)));
        assert_eq!(pick(5, 13, 1, 100, bad), Err(refusal(1, 0)));
    }
    // 1 comes before 9.
    assert_eq!(pick(0, 13, 1, 1, 65_535), Err(refusal(1, 0)));
}

#[test]
fn no_other_is_better() {
    for a in [1, 2, 3, 128, 254, 255] {
        for b in [1, 2, 3, 128, 254, 255] {
            for w in [1, 2, 3, 100, 65_534, 65_535] {
                for r in [1, 2, 3, 100, 65_534, 65_535] {
                    for g in [1, 2, 64] {
                        holds(a, b, g, w, r);
                    }
                }
            }
        }
    }
    let mut rng = Rng::new(9);
    let (mut given, mut refused) = (0, 0);
    for _ in 0..4_000 {
        let most = [6, 30, 255][rng.below(3)];
        let (a, b) = (rng.within(1, most), rng.within(1, most));
        let most = [5, 40, 150, 65_535][rng.below(4)];
        let (w, r) = (rng.within(1, most) as u64, rng.within(1, most) as u64);
        let most = [1, 3, 64][rng.below(3)];
        let g = rng.within(1, most);
        if holds(a, b, g, w, r) {
            given += 1;
        } else {
            refused += 1;
        }
    }
    assert!(given > 800 && refused > 800, "{} {}", given, refused);
}
