//! What docs/FITTER.md tells: how to come from two clocks to settings that the judge accepts, and how its two boards fare.

mod common;

use common::Rng;
use siengulot_plain::{counted, line, sender, settings};

/// Settings in the order in which the page's judge takes them.
#[derive(Clone, Copy, Debug)]
struct Fit {
    a: usize,
    b: usize,
    g: usize,
    k: usize,
    w: usize,
    r: usize,
    q: usize,
    p1: usize,
}

impl Fit {
    fn judged(self) -> ([i64; 5], bool) {
        let Fit { a, b, g, k, .. } = self;
        let (w, r) = (self.w as u64, self.r as u64);
        let verdict = settings::judge_quiet(a, b, g, k, w, r, self.q, self.p1);
        let verdict = verdict.expect("settings in range");
        (verdict.margins, verdict.accepted)
    }

    /// The k that the picker gives, which looks at a, b, g, w and r alone.
    fn picked(self) -> usize {
        let picked = settings::pick(self.a, self.b, self.g, self.w as u64, self.r as u64);
        picked.expect("settings with a sampling count")
    }

    /// The judge's answer over ends, the least and the greatest length of each clock, in place of w and r.
    fn judged_over(self, ends: [[usize; 2]; 2]) -> ([i64; 5], bool) {
        let Fit {
            a, b, g, k, q, p1, ..
        } = self;
        let [w, r] = ends.map(|of| of.map(|end| end as u64));
        let verdict = settings::judge_quiet_ends(a, b, g, k, w, r, q, p1);
        let verdict = verdict.expect("settings in range");
        (verdict.margins, verdict.accepted)
    }

    /// The k that the picker gives over ends, if there is one.
    fn picked_over(self, ends: [[usize; 2]; 2]) -> Option<usize> {
        let [w, r] = ends.map(|of| of.map(|end| end as u64));
        settings::pick_ends(self.a, self.b, self.g, w, r).ok()
    }

    /// The page's bounds: for a, for k from below and from above, for Q and for p1.
    fn within_bounds(self) -> [bool; 5] {
        let Fit { a, b, g, w, r, .. } = self;
        [
            self.a >= g + up(2 * r, w),
            self.k >= 1 + up((a + g) * w, r),
            g <= a + b && self.k + 2 <= (a + b - g) * w / r,
            self.q >= 2 + up((a + b + g) * w, r),
            self.p1 >= g + up((self.q + 1) * r, w),
        ]
    }
}

/// A quotient rounded up.
fn up(x: usize, by: usize) -> usize {
    (x + by - 1) / by
}

/// Settings in range, most of them near the bounds.
fn near(rng: &mut Rng) -> Fit {
    let w = rng.within(1, 300);
    let r = rng.within(1, 300);
    let most = [1, 4, 64][rng.below(3)];
    let g = rng.within(1, most);
    let a = (up(2 * r, w) + g - 1 + rng.below(4)).clamp(1, 255);
    let b = rng.within(1, 255);
    let k = if rng.below(2) == 0 {
        up((a + g) * w, r) + rng.below(3)
    } else {
        ((a + b).saturating_sub(g) * w / r + rng.below(3)).saturating_sub(3)
    };
    let q = (up((a + b + g) * w, r) + 1 + rng.below(3)).clamp(2, 8191);
    let p1 = (up((q + 1) * r, w) + g - 1 + rng.below(3)).clamp(0, 65535);
    let k = k.clamp(1, 511);
    Fit {
        a,
        b,
        g,
        k,
        w,
        r,
        q,
        p1,
    }
}

#[test]
fn the_bounds_are_those_of_the_margins() {
    let mut rng = Rng::new(71);
    let mut met = [0; 5];
    let mut accepted = 0;
    for _ in 0..200_000 {
        let fit = near(&mut rng);
        let (margins, yes) = fit.judged();
        let bounds = fit.within_bounds();
        assert_eq!(margins.map(|margin| margin >= 0), bounds, "{:?}", fit);
        assert_eq!(yes, bounds == [true; 5], "{:?}", fit);
        for (count, bound) in met.iter_mut().zip(bounds) {
            *count += usize::from(bound);
        }
        accepted += usize::from(yes);
    }
    assert!(
        met.iter().all(|count| (20_000..180_000).contains(count)),
        "{:?}",
        met
    );
    assert!(accepted > 2_000, "{}", accepted);
}

/// The page's table from top to bottom, each number at its least.
fn least(g: usize, w: usize, r: usize) -> Fit {
    let a = g + up(2 * r, w);
    let k = 1 + up((a + g) * w, r);
    let b = up((k + 2) * r, w) + g - a;
    let q = 2 + up((a + b + g) * w, r);
    let p1 = g + up((q + 1) * r, w);
    Fit {
        a,
        b,
        g,
        k,
        w,
        r,
        q,
        p1,
    }
}

#[test]
fn the_order_of_the_table_leads_to_a_yes() {
    let mut rng = Rng::new(73);
    let mut fits = 0;
    for _ in 0..2_000 {
        let most = [1, 4, 64][rng.below(3)];
        let fit = least(rng.within(1, most), rng.within(1, 300), rng.within(1, 300));
        if fit.a > 255 || fit.b > 255 || fit.k > 510 || fit.q > 8191 || fit.p1 > 65535 {
            continue;
        }
        fits += 1;
        assert!(fit.judged().1, "{:?}", fit);
        let k = fit.picked();
        assert!(Fit { k, ..fit }.judged().1, "{:?}", fit);
        // One less of a, of Q or of p1 is a no, and so is one less of b whatever k is.
        let Fit { a, b, q, p1, .. } = fit;
        assert!(!Fit { a: a - 1, ..fit }.judged().1, "{:?}", fit);
        assert!(!Fit { q: q - 1, ..fit }.judged().1, "{:?}", fit);
        assert!(!Fit { p1: p1 - 1, ..fit }.judged().1, "{:?}", fit);
        let shorter = Fit { b: b - 1, ..fit };
        let bears = |k| Fit { k, ..shorter }.judged().1;
        assert!(!(1..=511).any(bears), "{:?}", fit);
    }
    assert!(fits > 1_000, "{}", fits);
}

#[test]
fn the_shortest_settings_of_the_first_board() {
    let fit = least(1, 100, 141);
    let Fit { a, b, k, q, p1, .. } = fit;
    assert_eq!([a, b, k, q, p1], [4, 7, 5, 11, 18]);
    assert_eq!(fit.judged(), ([18, 64, 13, 69, 8], true));
    assert_eq!(fit.picked(), 5);
    // Cells of 10 cycles are a no, however they are shared out and sampled.
    for a in 1..10 {
        for k in 1..=511 {
            let shorter = Fit {
                a,
                b: 10 - a,
                k,
                q: 8191,
                p1: 65535,
                ..fit
            };
            assert!(!shorter.judged().1, "{:?}", shorter);
        }
    }
    // The tolerance: 100 parts in a million of 10 and of 14.1 microseconds, in nanoseconds, rounded outward.
    let outward = |length: usize| [length - up(length, 10_000), length + up(length, 10_000)];
    let fine = [outward(10_000), outward(14_100)];
    assert_eq!(fine, [[9_999, 10_001], [14_098, 14_102]]);
    assert_eq!(fit.picked_over(fine), Some(5));
    let margins = [1_793, 6_387, 1_276, 6_870, 759];
    assert_eq!(fit.judged_over(fine), (margins, true));
    let coarse = [[99, 101], [140, 142]];
    assert_eq!(fit.picked_over(coarse), None);
    assert_eq!(fit.judged_over(coarse), ([13, 55, -4, 48, -21], false));
}

#[test]
fn the_same_board_on_a_long_cable() {
    // An edge of 23 microseconds takes three cycles of 10.
    let short = least(up(8, 10), 100, 141);
    let long = least(up(23, 10), 100, 141);
    let Fit { a, b, g, k, .. } = long;
    assert_eq!([a, b, g, k, long.q, long.p1], [6, 12, 3, 8, 17, 29]);
    assert_eq!(long.judged(), ([18, 87, 90, 15, 62], true));
    assert_eq!(long.picked(), 8);
    let misfit = Fit { g, ..short };
    assert_eq!(misfit.judged(), ([-182, -136, -187, -131, -192], false));
}

#[test]
fn a_yes_over_ends_is_a_yes_between_them() {
    let mut rng = Rng::new(72);
    let mut accepted = 0;
    for _ in 0..200_000 {
        let fit = near(&mut rng);
        let (w2, r1) = (
            fit.w + rng.below(9),
            fit.r.saturating_sub(rng.below(9)).max(1),
        );
        let (margins, yes) = fit.judged_over([[fit.w, w2], [r1, fit.r]]);
        let slow = Fit {
            w: w2,
            r: r1,
            ..fit
        };
        assert_eq!(yes, fit.judged().1 && slow.judged().1, "{:?}", fit);
        if yes {
            accepted += 1;
            let between = Fit {
                w: rng.within(fit.w, w2),
                r: rng.within(r1, fit.r),
                ..fit
            };
            let (others, yes) = between.judged();
            assert!(yes, "{:?} {:?}", fit, between);
            let no_less = margins.iter().zip(others).all(|(m, other)| *m <= other);
            assert!(no_less, "{:?} {:?}", fit, between);
        }
    }
    assert!(accepted > 500, "{}", accepted);
}

#[test]
fn the_bounds_over_ends_are_those_of_the_margins() {
    let mut rng = Rng::new(74);
    let mut fits = 0;
    for _ in 0..2_000 {
        let (g, w1, r1) = (rng.within(1, 4), rng.within(1, 300), rng.within(1, 300));
        let (w2, r2) = (w1 + rng.below(9), r1 + rng.below(9));
        let a = g + up(2 * r2, w1);
        let k = 1 + up((a + g) * w2, r1);
        let b = (up((k + 2) * r2, w1) + g).saturating_sub(a).max(1);
        let q = 2 + up((a + b + g) * w2, r1);
        let p1 = g + up((q + 1) * r2, w1);
        if a > 255 || b > 255 || k > 510 || q > 8191 || p1 > 65535 {
            continue;
        }
        fits += 1;
        let (w, r) = (w1, r1);
        let fit = Fit {
            a,
            b,
            g,
            k,
            w,
            r,
            q,
            p1,
        };
        let ends = [[w1, w2], [r1, r2]];
        assert!(fit.judged_over(ends).1, "{:?} {:?}", fit, ends);
        let k = fit.picked_over(ends).expect("settings with a count");
        assert!(Fit { k, ..fit }.judged_over(ends).1, "{:?} {:?}", fit, ends);
        for less in [
            Fit { a: a - 1, ..fit },
            Fit { q: q - 1, ..fit },
            Fit { p1: p1 - 1, ..fit },
        ] {
            assert!(!less.judged_over(ends).1, "{:?} {:?}", less, ends);
        }
    }
    assert!(fits > 1_000, "{}", fits);
}

#[test]
fn the_two_boards() {
    let first = Fit {
        a: 5,
        b: 13,
        g: 1,
        k: 10,
        w: 100,
        r: 141,
        q: 16,
        p1: 26,
    };
    let second = Fit { r: 142, ..first };
    assert_eq!(first.judged(), ([118, 669, 8, 74, 103], true));
    assert_eq!(second.judged(), ([116, 678, -4, 88, 86], false));
    let bear =
        |fit: Fit| -> Vec<usize> { (1..=511).filter(|&k| Fit { k, ..fit }.judged().1).collect() };
    assert_eq!(bear(first), [6, 7, 8, 9, 10]);
    assert_eq!(bear(second), [6, 7, 8, 9]);
    assert_eq!(first.picked(), 7);
    assert_eq!(
        Fit { k: 7, ..first }.judged(),
        ([118, 246, 431, 74, 103], true)
    );
    assert_eq!(second.picked(), 7);
    assert_eq!(
        Fit { k: 7, ..second }.judged(),
        ([116, 252, 422, 88, 86], true)
    );
    // The least quiet and lead: one less of either is a no.
    assert!(!Fit { q: 15, ..first }.judged().1);
    assert!(Fit { p1: 25, ..first }.judged().1);
    assert!(
        !Fit {
            p1: 25,
            k: 7,
            ..second
        }
        .judged()
        .1
    );
}

#[test]
fn a_message_that_the_second_board_loses() {
    // The wave of 18 cycles is followed by 10 high cycles.
    let mut wave = [1; 28];
    let sent = sender::message(5, 13, 0, &[0], &mut wave);
    assert_eq!(sent, Ok(18));
    let mut smoothed = [9; 28];
    line::smooth(1, &wave, &mut smoothed).unwrap();
    let mut reads = [9; 28];
    let count = line::warp(100, 142, 97, &smoothed, &mut reads).unwrap();
    let mut settled = [9; 28];
    line::settle(&reads[..count], &[1, 1], &mut settled).unwrap();
    let mut bits = [9; 1];
    counted::receive(1, 1, 10, &settled[..count], &mut bits).unwrap();
    assert_eq!(bits, [1]);
}
