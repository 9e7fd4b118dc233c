//! The survey of a region beside plain Rust that puts the margins in order, and beside Rust that goes through the boards
//! once, as the library does.

use crate::cases::{two, Lent, Work};
use crate::library::{siengulot_survey, siengulot_survey_lines};
use siengulot_plain::settings;
use siengulot_plain::survey::{survey, survey_lines, Survey};

/// The lists of so many boards, all in range.
fn region(boards: usize) -> [Vec<usize>; 6] {
    let list = |of: fn(usize) -> usize| (0..boards).map(of).collect();
    [
        list(|i| 3 + i * 7 % 11),
        list(|i| 9 + i * 5 % 13),
        list(|i| 1 + i * 3 % 4),
        list(|i| 5 + i * 11 % 17),
        list(|i| 90 + i * 29 % 31),
        list(|i| 60 + i * 37 % 97),
    ]
}

fn tell(lent: &mut Lent, told: Survey) {
    lent.told[0] = told.accepted as i64;
    for (number, (margin, place)) in lent.told[1..].iter_mut().zip(told.smallest) {
        *number = margin * 4_096 + place as i64;
    }
}

fn beside(boards: usize, plain: impl Fn([&[usize]; 6]) -> Option<Survey> + 'static) -> Work {
    let (lists, theirs) = (region(boards), region(boards));
    two(
        boards,
        0,
        move |lent| {
            let (mut margins, mut places) = ([0; 3], [0; 3]);
            let (mut accepted, mut place, mut count) = (0, 0, 0);
            let refused = unsafe {
                siengulot_survey(
                    lists[0].as_ptr(),
                    boards,
                    lists[1].as_ptr(),
                    boards,
                    lists[2].as_ptr(),
                    boards,
                    lists[3].as_ptr(),
                    boards,
                    lists[4].as_ptr(),
                    boards,
                    lists[5].as_ptr(),
                    boards,
                    margins.as_mut_ptr(),
                    places.as_mut_ptr(),
                    &mut accepted,
                    &mut place,
                    &mut count,
                )
            };
            assert_eq!((refused, count), (0, boards));
            let smallest = [0, 1, 2].map(|i| (margins[i] as i64, places[i]));
            tell(lent, Survey { accepted, smallest });
        },
        move |lent| {
            let lists = [0, 1, 2, 3, 4, 5].map(|list| theirs[list].as_slice());
            tell(lent, plain(lists).expect("a region with boards"));
        },
    )
}

pub fn beside_order(boards: usize) -> Work {
    beside(boards, |lists| survey(lists).ok().flatten())
}

pub fn beside_one_pass(boards: usize) -> Work {
    beside(boards, passed)
}

/// Regions of twenty boards, so that the text is most of the work.
pub fn lines(calls: usize) -> Work {
    const ROOM: usize = 128;
    let (lists, theirs, boards) = (region(20), region(20), 20);
    two(
        calls,
        ROOM,
        move |lent| {
            let (mut place, mut count) = (0, 0);
            for _ in 0..calls {
                let refused = unsafe {
                    siengulot_survey_lines(
                        lists[0].as_ptr(),
                        boards,
                        lists[1].as_ptr(),
                        boards,
                        lists[2].as_ptr(),
                        boards,
                        lists[3].as_ptr(),
                        boards,
                        lists[4].as_ptr(),
                        boards,
                        lists[5].as_ptr(),
                        boards,
                        lent.out.as_mut_ptr(),
                        ROOM,
                        &mut place,
                        &mut count,
                    )
                };
                assert_eq!(refused, 0);
                lent.told[0] += count as i64;
            }
        },
        move |lent| {
            let lists = [0, 1, 2, 3, 4, 5].map(|list| theirs[list].as_slice());
            for _ in 0..calls {
                let count = survey_lines(lists, &mut lent.out).expect("lines");
                lent.told[0] += count as i64;
            }
        },
    )
}

/// The survey in one pass, which keeps the smallest so far.
#[inline(never)]
fn passed([a, b, g, k, w, r]: [&[usize]; 6]) -> Option<Survey> {
    let boards = a.len();
    if [b, g, k, w, r].iter().any(|list| list.len() != boards) {
        return None;
    }
    let subcell = 1..=settings::MAX_SUBCELL;
    let settling = 1..=settings::MAX_G;
    let sampling = 1..=settings::MAX_K;
    let cycle = 1..=settings::MAX_CYCLE as usize;
    let mut accepted = 0;
    let mut smallest = [(i64::MAX, 0); 3];
    for i in 0..boards {
        let (a, b, g, k, w, r) = (a[i], b[i], g[i], k[i], w[i], r[i]);
        let counts = subcell.contains(&a) && subcell.contains(&b) && settling.contains(&g);
        if !(counts && sampling.contains(&k) && cycle.contains(&w) && cycle.contains(&r)) {
            return None;
        }
        let (a, b, g, k, w, r) = (a as i64, b as i64, g as i64, k as i64, w as i64, r as i64);
        let margins = [
            (a - g) * w - 2 * r,
            (k - 1) * r - (a + g) * w,
            (a + b - g) * w - (k + 2) * r,
        ];
        if margins.iter().all(|&margin| margin >= 0) {
            accepted += 1;
        }
        for (found, margin) in smallest.iter_mut().zip(margins) {
            if margin < found.0 {
                *found = (margin, i);
            }
        }
    }
    (0 < boards && boards <= 4_096).then(|| Survey { accepted, smallest })
}
