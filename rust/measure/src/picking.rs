//! The picker beside plain Rust that tries every sampling count, and beside Rust that divides as the library does.

use crate::cases::{two, Work};
use crate::inputs::{A, B};
use crate::library::siengulot_pick;
use siengulot_plain::settings;

/// Settings to pick for, 64 of them, so that no call can be worked out beforehand. Each has a sampling count.
fn many_settings() -> Vec<[usize; 5]> {
    (0..64)
        .map(|i| [A + i % 3, B, 1 + i % 3, 100, 60 + 2 * i])
        .collect()
}

fn beside(
    calls: usize,
    plain: impl Fn(usize, usize, usize, u64, u64) -> Option<usize> + 'static,
) -> Work {
    let (ours, theirs) = (many_settings(), many_settings());
    two(
        calls,
        0,
        move |lent| {
            let mut k = 0;
            for i in 0..calls {
                let [a, b, g, w, r] = ours[i % 64];
                let refused = unsafe { siengulot_pick(a, b, g, w, r, &mut k) };
                assert_eq!(refused, 0);
                lent.told[0] += k as i64;
            }
        },
        move |lent| {
            for i in 0..calls {
                let [a, b, g, w, r] = theirs[i % 64];
                let k = plain(a, b, g, w as u64, r as u64).expect("settings with a sampling count");
                lent.told[0] += k as i64;
            }
        },
    )
}

pub fn beside_all_tried(calls: usize) -> Work {
    beside(calls, |a, b, g, w, r| settings::pick(a, b, g, w, r).ok())
}

pub fn beside_divisions(calls: usize) -> Work {
    beside(calls, divided)
}

/// The best sampling count by two divisions.
#[inline(never)]
fn divided(a: usize, b: usize, g: usize, w: u64, r: u64) -> Option<usize> {
    let subcell = 1..=settings::MAX_SUBCELL;
    let settling = 1..=settings::MAX_G;
    let cycle = 1..=settings::MAX_CYCLE;
    let counts = subcell.contains(&a) && subcell.contains(&b) && settling.contains(&g);
    if !(counts && cycle.contains(&w) && cycle.contains(&r)) {
        return None;
    }
    let (mark, code, edge) = (a as u64 * w, b as u64 * w, g as u64 * w);
    let m1 = mark as i64 - (edge + 2 * r) as i64;
    if m1 < 0 {
        return None;
    }
    let to_m1 = (2 * mark - 2 * r - 1) / r;
    let to_m3 = (2 * mark + code - 3 * r - 1) / (2 * r);
    let last = 1 + to_m1.min(to_m3).min(settings::MAX_K as u64 - 2);
    let (over, under) = ((mark + edge) as i64, (mark + code) as i64 - edge as i64);
    let least = |k: u64| {
        let m2 = ((k - 1) * r) as i64 - over;
        let m3 = under - ((k + 2) * r) as i64;
        m1.min(m2).min(m3)
    };
    let (here, there) = (least(last), least(last + 1));
    let (k, margin) = if here < there {
        (last + 1, there)
    } else {
        (last, here)
    };
    (margin >= 0).then(|| k as usize)
}
