//! The rules of docs/RULES.md on "The line, three passes": smooth, warp, settle.

use crate::refusal::{need_entries, need_output, need_setting, need_size, Refusal};
use crate::settings::{cycle_fits, ends_fit, g_fits, MAX_LIST};

/// An unknown level.
const UNKNOWN: u8 = 2;

/// Pass 1: makes every cycle unknown at which the level changes, or at one of the g - 1 cycles
/// before it, and returns how many cycles there are. The line is high before the first.
///
/// Refuses with 1 for g, 3 for too long a wave, 2 for an entry that is no level, 4 for too short
/// an output.
pub fn smooth(g: usize, wave: &[u8], out: &mut [u8]) -> Result<usize, Refusal> {
    need_setting(g_fits(g))?;
    need_size(wave.len(), MAX_LIST)?;
    need_entries(wave, 1)?;
    let out = need_output(out, wave.len())?;
    let mut before = 1;
    let mut unsettled = 0; // how many cycles, from this one on, the last change makes unknown
    for (smoothed, &level) in out.iter_mut().zip(wave) {
        if level != before {
            unsettled = g;
        }
        *smoothed = if unsettled == 0 { level } else { UNKNOWN };
        unsettled = unsettled.saturating_sub(1);
        before = level;
    }
    Ok(wave.len())
}

/// Pass 2: reads the writer's cycles with the receiver's clock and returns the number of
/// reads.
///
/// Refuses with 1 for a setting, 3 for too many cycles or too many reads, 2 for an entry
/// that is neither a level nor unknown, 4 for too short an output.
pub fn warp(w: u64, r: u64, p: u64, cycles: &[u8], out: &mut [u8]) -> Result<usize, Refusal> {
    need_setting(cycle_fits(w) && cycle_fits(r) && p < w)?;
    need_size(cycles.len(), MAX_LIST)?;
    // The read-count law; at most 2^20 cycles of less than 2^16 units each.
    let reads = match cycles.len() as u64 {
        0 => 0,
        count => (count * w - p) / r,
    };
    if reads > MAX_LIST as u64 {
        return Err(Refusal::SIZE);
    }
    let reads = reads as usize;
    need_entries(cycles, UNKNOWN)?;
    let out = need_output(out, reads)?;

    let mut first = 0; // the first cycle that is left
    let mut cycle_end = w;
    let mut read_end = p;
    for read in out {
        read_end += r;
        let level = cycles[first];
        let mut seen = level;
        // One more cycle is looked at for each that ends strictly inside the read.
        while cycle_end < read_end {
            first += 1;
            cycle_end += w;
            if cycles[first] != level {
                seen = UNKNOWN;
            }
        }
        // A cycle that ends together with the read is dropped as well.
        if cycle_end == read_end {
            first += 1;
            cycle_end += w;
        }
        *read = seen;
    }
    Ok(reads)
}

/// Pass 2 by lengths: reads the writer's cycles, each of a length of its own from w1 to w2, with reads of a length of
/// their own from r1 to r2, and returns the number of reads.
///
/// The wave ends with the last cycle that has both a level and a length. There is a read as long as there is a length
/// for it and it ends by then.
///
/// Refuses with 1 for a bound out of range or out of order, a length out of its bounds, or a phase that is not below the
/// first cycle's length, 3 for too many cycles or lengths, 2 for an entry that is neither a level nor unknown, 4 for too
/// short an output.
pub fn warp_by_lengths(
    [w1, w2]: [u64; 2],
    [r1, r2]: [u64; 2],
    p: u64,
    cycles: &[u64],
    reads: &[u64],
    wave: &[u8],
    out: &mut [u8],
) -> Result<usize, Refusal> {
    need_setting(
        ends_fit([w1, w2])
            && ends_fit([r1, r2])
            && cycles.iter().all(|cycle| (w1..=w2).contains(cycle))
            && reads.iter().all(|read| (r1..=r2).contains(read))
            && cycles.first().map_or(true, |&first| p < first),
    )?;
    need_size(wave.len(), MAX_LIST)?;
    need_size(cycles.len(), MAX_LIST)?;
    need_size(reads.len(), MAX_LIST)?;
    need_entries(wave, UNKNOWN)?;

    // The shorter list ends the wave. At most 2^20 cycles of less than 2^16 units each.
    let both = wave.len().min(cycles.len());
    let (wave, cycles) = (&wave[..both], &cycles[..both]);
    let end: u64 = cycles.iter().sum();
    let count = if both == 0 {
        0
    } else {
        let mut time = p;
        let in_time = |&length: &u64| {
            time += length;
            time <= end
        };
        reads.iter().copied().take_while(in_time).count()
    };
    let out = need_output(out, count)?;

    // The first cycle that shares time with the next read, and when it starts.
    let mut first = 0;
    let mut start = 0;
    let mut until = p;
    for (read, length) in out.iter_mut().zip(reads) {
        until += length;
        let level = wave[first];
        let mut seen = level;
        let mut over = start + cycles[first];
        // The next cycle shares time with the read as well if it starts before the read ends.
        while over < until {
            first += 1;
            start = over;
            over += cycles[first];
            if wave[first] != level {
                seen = UNKNOWN;
            }
        }
        // A cycle that is over with the read only touches the next one.
        if over == until {
            first += 1;
            start = over;
        }
        *read = seen;
    }
    Ok(count)
}

/// Pass 3: gives each unknown read the next choice, or low once there is none, and returns
/// the number of reads.
///
/// Refuses with 3 for too long a list, 2 for a bad read, then for a bad choice, whether it
/// would be used or not, 4 for too short an output.
pub fn settle(reads: &[u8], choices: &[u8], out: &mut [u8]) -> Result<usize, Refusal> {
    need_size(reads.len(), MAX_LIST)?;
    need_size(choices.len(), MAX_LIST)?;
    need_entries(reads, UNKNOWN)?;
    need_entries(choices, 1)?;
    let out = need_output(out, reads.len())?;
    let mut choices = choices.iter();
    for (settled, &read) in out.iter_mut().zip(reads) {
        *settled = if read == UNKNOWN {
            choices.next().copied().unwrap_or(0)
        } else {
            read
        };
    }
    Ok(reads.len())
}
