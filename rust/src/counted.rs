//! The rules of docs/RULES.md on "The counted receiver": a known number of bits out of a stream of reads.

use crate::refusal::{need_entries, need_output, need_setting, need_size, Refusal};
use crate::settings::{k_fits, MAX_BITS, MAX_LIST};
use std::fmt;

/// A refusal of the counted receiver, or of the reader of time code. With refusal 5 the first
/// `found` bytes of the output are the bits it came to, with refusal 10 the output begins
/// with `found` times; with any other refusal `found` is 0.
#[derive(Clone, Copy, Debug, PartialEq, Eq)]
pub struct Stopped {
    /// Number and place; the place of refusal 5 is the current read (C7).
    pub refusal: Refusal,
    /// How many bits, or times, were found before the fault.
    pub found: usize,
}

impl From<Refusal> for Stopped {
    fn from(refusal: Refusal) -> Self {
        Stopped { refusal, found: 0 }
    }
}

impl fmt::Display for Stopped {
    fn fmt(&self, f: &mut fmt::Formatter<'_>) -> fmt::Result {
        write!(f, "{} after {}", self.refusal, self.found)
    }
}

impl std::error::Error for Stopped {}

/// Finds `n` bits in `reads`, starting with `level` in force, and writes them to the front
/// of `out`. Gives the place of the current read.
///
/// Refuses with 1 for a setting or the level, 3 for too many reads, 2 for a read that is no
/// level, 4 for an output of fewer than `n` bytes, 5 if the reads run out.
pub fn receive(n: usize, level: u8, k: usize, reads: &[u8], out: &mut [u8]) -> Result<usize, Stopped> {
    need_setting(n <= MAX_BITS && level <= 1 && k_fits(k))?;
    need_size(reads.len(), MAX_LIST)?;
    need_entries(reads, 1)?;
    let out = need_output(out, n)?;
    let mut level = level;
    let mut rest = reads;
    let mut current = 0;
    for (found, bit) in out.iter_mut().enumerate() {
        // The mark is the first read off the level; the sample stands k after it, gives the
        // new level, and is where the search goes on.
        let sample = rest.iter().position(|&read| read != level).map(|at| at + k);
        match sample.filter(|&sample| sample < rest.len()) {
            Some(sample) => {
                let mark = level ^ 1;
                level = rest[sample];
                *bit = level ^ mark;
                rest = &rest[sample..];
                current += sample;
            }
            None => {
                let refusal = Refusal::ran_out(current);
                return Err(Stopped { refusal, found });
            }
        }
    }
    Ok(current)
}
