//! What the operations are given. Everything is made from fixed seeds, so that a run can be repeated.

use siengulot_plain::{line, sender, timecode};

/// Cells and rows as in the worked cases: a 5, b 13, k 10, n 80, Q 21, and a lead of 23 cycles.
pub const A: usize = 5;
pub const B: usize = 13;
pub const K: usize = 10;
pub const N: usize = 80;
pub const Q: usize = 21;
pub const LEAD: usize = 23;

/// Random levels, bits or choices.
pub fn random(length: usize, seed: u64) -> Vec<u8> {
    let mut state = seed.wrapping_mul(0x9e37_79b9_7f4a_7c15) | 1;
    let mut next = || {
        state ^= state << 13;
        state ^= state >> 7;
        state ^= state << 17;
        (state >> 40) as u8 & 1
    };
    (0..length).map(|_| next()).collect()
}

/// Random bits with no mark of time code, which has twelve 1s one after another.
pub fn noise(length: usize) -> Vec<u8> {
    let mut bits = random(length, 7);
    bits.iter_mut().step_by(12).for_each(|bit| *bit = 0);
    bits
}

/// Words of time code one after another, a frame each, with user bits set, cut off at `length`.
pub fn words(length: usize) -> Vec<u8> {
    let mut bits = vec![0; (length + timecode::WORD - 1) / timecode::WORD * timecode::WORD];
    for (i, word) in bits.chunks_exact_mut(timecode::WORD).enumerate() {
        let time = [i / 90_000 % 24, i / 1_500 % 60, i / 25 % 60, i % 25];
        timecode::write(time, word).expect("a time in range");
        for group in 0..8 {
            word[8 * group + 4] = (i >> group & 1) as u8;
        }
    }
    bits.truncate(length);
    bits
}

/// The wave of as many rows as it takes, cut off at `cycles`.
pub fn wave(cycles: usize) -> Vec<u8> {
    let row = LEAD + N * (A + B);
    let mut wave = Vec::new();
    let mut seed = 1;
    while wave.len() < cycles {
        let mut one = vec![0; row];
        let bits = random(N, seed);
        sender::message(A, B, LEAD, &bits, &mut one).expect("a row can be sent");
        wave.extend(one);
        seed += 1;
    }
    wave.truncate(cycles);
    wave
}

/// That wave smoothed.
pub fn smoothed(cycles: usize) -> Vec<u8> {
    let mut out = vec![0; cycles];
    line::smooth(1, &wave(cycles), &mut out).expect("a wave can be smoothed");
    out
}

/// Reads of that wave with unknown ones among them, w and r 100 and p 50.
pub fn unsettled(reads: usize) -> Vec<u8> {
    let mut out = vec![0; reads];
    let count = line::warp(100, 100, 50, &smoothed(reads + 1), &mut out);
    assert_eq!(count, Ok(reads));
    out
}

/// Those reads settled by random choices: rows as a board reads them.
pub fn rows(reads: usize) -> Vec<u8> {
    let before = unsettled(reads);
    let mut out = vec![0; reads];
    line::settle(&before, &random(reads, 77), &mut out).expect("reads can be settled");
    out
}

/// The reads of a message of so many bits in cells of `a` and `b`.
pub fn message(a: usize, b: usize, bits: usize) -> Vec<u8> {
    let mut out = vec![0; bits * (a + b)];
    sender::message(a, b, 0, &random(bits, 5), &mut out).expect("a message can be sent");
    out
}

/// A list over and over, up to a length.
pub fn repeated(part: &[u8], length: usize) -> Vec<u8> {
    part.iter().copied().cycle().take(length).collect()
}

/// Random lengths from `least` to `most`.
pub fn lengths(count: usize, least: usize, most: usize, seed: u64) -> Vec<usize> {
    let mut state = seed.wrapping_mul(0x9e37_79b9_7f4a_7c15) | 1;
    let mut next = || {
        state ^= state << 13;
        state ^= state >> 7;
        state ^= state << 17;
        least + (state >> 20) as usize % (most - least + 1)
    };
    (0..count).map(|_| next()).collect()
}
