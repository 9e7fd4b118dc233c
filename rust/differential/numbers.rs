//! The numbers by which a receiver crosses.

use siengulot_plain::board::{Mode, Receiver};

/// Where each stands: `enum siengulot_number` of the header.
pub mod at {
    pub const K: usize = 0;
    pub const N: usize = 1;
    pub const Q: usize = 2;
    pub const MODE: usize = 3;
    pub const RUN: usize = 4;
    pub const RUN_LEVEL: usize = 5;
    pub const LEFT: usize = 6;
    pub const LEVEL: usize = 7;
    pub const FOUND: usize = 8;
}

/// How many there are.
pub const NUMBERS: usize = 9;

pub fn numbers_of(receiver: &Receiver) -> [usize; NUMBERS] {
    let mut numbers = [0; NUMBERS];
    numbers[at::K] = receiver.k;
    numbers[at::N] = receiver.n;
    numbers[at::Q] = receiver.q;
    numbers[at::MODE] = match receiver.mode {
        Mode::Hunting => 0,
        Mode::Ready => 1,
        Mode::Counting => 2,
        Mode::Waiting => 3,
    };
    numbers[at::RUN] = receiver.run;
    numbers[at::RUN_LEVEL] = receiver.run_level.into();
    numbers[at::LEFT] = receiver.left;
    numbers[at::LEVEL] = receiver.level.into();
    numbers[at::FOUND] = receiver.found;
    numbers
}
