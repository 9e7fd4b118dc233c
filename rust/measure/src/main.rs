//! Runs every measured case, on the static library and on the plain implementation.
//!
//! `counts` says on standard error which run comes next and makes the meter's mark before and
//! after it, once for each side at both sizes. `times` prints for each side the best of many
//! runs at the smaller size, the sides taking turns. A word after that keeps to the cases whose
//! names begin with it.

mod cases;
mod ends;
mod inputs;
#[path = "../../differential/library.rs"]
mod library;
mod logs;
#[path = "../../differential/numbers.rs"]
mod numbers;
mod picking;
mod surveying;
mod words;

use cases::{Lent, Work};
use siengulot_plain::settings::MAX_ROWS;
use std::os::unix::process::parent_id;
use std::time::{Duration, Instant};

/// How many runs the best time is taken from. They are many and short, so that other work leaves some alone.
const RUNS: usize = 200;

/// A lent output whose every byte has been written, so that no run is the first to touch it, and as many pads as a plan
/// may have rows, likewise.
fn lent(work: &Work) -> Lent {
    let (mut out, mut pads) = (vec![7; work.room], vec![7; MAX_ROWS]);
    out.fill(0);
    pads.fill(0);
    let told = [0; 4];
    Lent { out, pads, told }
}

/// Stops if the sides have not left the same: a refused run would be a false figure.
fn compare(name: &str, left: &[Lent]) {
    for other in &left[1..] {
        assert!(*other == left[0], "{}: the sides differ", name);
    }
}

fn counts(case: &cases::Case) {
    for size in case.sizes {
        let mut work = (case.work)(size);
        let mut left = vec![];
        for i in 0..work.sides.len() {
            let mut lent = lent(&work);
            let (side, run) = &mut work.sides[i];
            eprintln!(
                "run|{}|{}|{}|{}|{}",
                case.name, case.unit, case.wish, side, work.units
            );
            let _mark = parent_id();
            run(&mut lent);
            let _mark = parent_id();
            left.push(lent);
        }
        compare(case.name, &left);
    }
}

fn times(case: &cases::Case) {
    let mut work = (case.work)(case.sizes[0]);
    let mut best = vec![Duration::MAX; work.sides.len()];
    for _ in 0..RUNS {
        let mut left = vec![];
        for (i, best) in best.iter_mut().enumerate() {
            let mut lent = lent(&work);
            let run = &mut work.sides[i].1;
            let start = Instant::now();
            run(&mut lent);
            *best = start.elapsed().min(*best);
            left.push(lent);
        }
        compare(case.name, &left);
    }
    for ((side, _), best) in work.sides.iter().zip(best) {
        let each = best.as_nanos() as f64 / work.units as f64;
        println!("time|{}|{}|{}|{:.3}", case.name, case.unit, side, each);
    }
}

fn main() {
    let words: Vec<String> = std::env::args().skip(1).collect();
    let wanted = words.get(1).map_or("", |word| word);
    let measure = match words.first().map(|word| word.as_str()) {
        Some("counts") => counts,
        Some("times") => times,
        _ => panic!("usage: siengulot-measure counts|times [CASE]"),
    };
    for case in cases::all() {
        if case.name.starts_with(wanted) {
            measure(&case);
        }
    }
}
