//! The judges and the picker over the ends of two clocks.

use crate::cases::{two, Work};
use crate::inputs::{A, B, K, LEAD, Q};
use crate::library::{siengulot_judge_ends, siengulot_judge_quiet_ends, siengulot_pick_ends};
use siengulot_plain::settings;

/// Settings a, b, g, k, Q and p1 and the ends of two clocks, 64 of each, so that no call can be worked out beforehand. Each has a sampling count.
fn many_settings() -> Vec<([usize; 6], [usize; 4])> {
    (0..64)
        .map(|i| {
            let setting = [A + i % 3, B, 1 + i % 2, K, Q + i % 5, LEAD + i];
            let ends = [95 + i % 4, 100 + i % 7, 60 + i, 62 + i + i % 8];
            (setting, ends)
        })
        .collect()
}

/// The ends as the plain implementation takes them.
fn pairs([w1, w2, r1, r2]: [usize; 4]) -> ([u64; 2], [u64; 2]) {
    ([w1 as u64, w2 as u64], [r1 as u64, r2 as u64])
}

pub fn judge(calls: usize) -> Work {
    let (ours, plain) = (many_settings(), many_settings());
    two(
        calls,
        0,
        move |lent| {
            let (mut margins, mut accepted) = ([0usize; 3], 0);
            for i in 0..calls {
                let ([a, b, g, k, ..], [w1, w2, r1, r2]) = ours[i % 64];
                let (three, yes) = (margins.as_mut_ptr(), &mut accepted);
                let refused =
                    unsafe { siengulot_judge_ends(a, b, g, k, w1, w2, r1, r2, three, yes) };
                assert_eq!(refused, 0);
                lent.told[0] += accepted as i64;
                lent.told[1] += margins[2] as i64;
            }
        },
        move |lent| {
            for i in 0..calls {
                let ([a, b, g, k, ..], ends) = plain[i % 64];
                let (w, r) = pairs(ends);
                let verdict = settings::judge_ends(a, b, g, k, w, r).expect("in range");
                lent.told[0] += verdict.accepted as i64;
                lent.told[1] += verdict.margins[2];
            }
        },
    )
}

pub fn judge_quiet(calls: usize) -> Work {
    let (ours, plain) = (many_settings(), many_settings());
    two(
        calls,
        0,
        move |lent| {
            let (mut margins, mut accepted) = ([0usize; 5], 0);
            for i in 0..calls {
                let ([a, b, g, k, q, p1], [w1, w2, r1, r2]) = ours[i % 64];
                let (five, yes) = (margins.as_mut_ptr(), &mut accepted);
                let refused = unsafe {
                    siengulot_judge_quiet_ends(a, b, g, k, w1, w2, r1, r2, q, p1, five, yes)
                };
                assert_eq!(refused, 0);
                lent.told[0] += accepted as i64;
                lent.told[1] += margins[4] as i64;
            }
        },
        move |lent| {
            for i in 0..calls {
                let ([a, b, g, k, q, p1], ends) = plain[i % 64];
                let (w, r) = pairs(ends);
                let verdict = settings::judge_quiet_ends(a, b, g, k, w, r, q, p1);
                let verdict = verdict.expect("in range");
                lent.told[0] += verdict.accepted as i64;
                lent.told[1] += verdict.margins[4];
            }
        },
    )
}

pub fn pick(calls: usize) -> Work {
    let (ours, plain) = (many_settings(), many_settings());
    two(
        calls,
        0,
        move |lent| {
            let mut k = 0;
            for i in 0..calls {
                let ([a, b, g, ..], [w1, w2, r1, r2]) = ours[i % 64];
                let refused = unsafe { siengulot_pick_ends(a, b, g, w1, w2, r1, r2, &mut k) };
                assert_eq!(refused, 0);
                lent.told[0] += k as i64;
            }
        },
        move |lent| {
            for i in 0..calls {
                let ([a, b, g, ..], ends) = plain[i % 64];
                let (w, r) = pairs(ends);
                let k = divided(a, b, g, w, r).expect("settings with a sampling count");
                lent.told[0] += k as i64;
            }
        },
    )
}

/// The best sampling count by two divisions: M2 gains r1 with each step, and M3 loses r2.
#[inline(never)]
fn divided(a: usize, b: usize, g: usize, [w1, w2]: [u64; 2], [r1, r2]: [u64; 2]) -> Option<usize> {
    let subcell = 1..=settings::MAX_SUBCELL;
    let cycle = 1..=settings::MAX_CYCLE;
    let counts = subcell.contains(&a) && subcell.contains(&b) && (1..=settings::MAX_G).contains(&g);
    let in_range = [w1, w2, r1, r2].iter().all(|end| cycle.contains(end));
    if !(counts && in_range && w1 <= w2 && r1 <= r2) {
        return None;
    }
    let (code, over) = (b as u64 * w1, (a + g) as u64 * w2);
    let m1 = (a as i64 - g as i64) * w1 as i64 - 2 * r2 as i64;
    if m1 < 0 {
        return None;
    }
    let below_m1 = m1 as u64 + over;
    let below_m3 = below_m1 + code - r2;
    let to_m1 = (below_m1 - 1) / r1;
    let to_m3 = (below_m3 - 1) / (r1 + r2);
    let last = 1 + to_m1.min(to_m3).min(settings::MAX_K as u64 - 2);
    let least = |k: u64| {
        let m2 = ((k - 1) * r1) as i64 - over as i64;
        let m3 = m1 + code as i64 - (k * r2) as i64;
        m1.min(m2).min(m3)
    };
    let (here, there) = (least(last), least(last + 1));
    let (k, margin) = if here < there {
        (last + 1, there)
    } else {
        (last, here)
    };
    (margin >= 0).then(|| k as usize)
}
