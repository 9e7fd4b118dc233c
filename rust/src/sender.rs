//! The rules of docs/RULES.md on "Sending": from bits to the levels of the writer's cycles.

use crate::refusal::{need_entries, need_output, need_setting, need_size, Refusal};
use crate::settings::{pad_fits, row_bits_fit, subcell_fits, MAX_BITS, MAX_LIST, MAX_ROWS};

/// Writes the wave of one message and returns its length.
///
/// The message may be empty. No wave of a single message reaches the limit of a list.
///
/// Refuses with 1 for a setting, 3 for more bits than a message has, 2 for an entry that is
/// no bit, 4 for too short an output.
pub fn message(
    a: usize,
    b: usize,
    p1: usize,
    bits: &[u8],
    out: &mut [u8],
) -> Result<usize, Refusal> {
    need_setting(subcell_fits(a) && subcell_fits(b) && pad_fits(p1))?;
    need_size(bits.len(), MAX_BITS)?;
    need_entries(bits, 1)?;
    let length = p1 + bits.len() * (a + b);
    put_wave(a, b, p1, bits, need_output(out, length)?);
    Ok(length)
}

/// Writes the wave of a plan and returns its length.
///
/// Row i has the lead pad `leads[i]` and the i-th `n` entries of `bits`.
///
/// Refuses with 1 for a setting, a pad, no row or lists that do not fit one another, 3 for
/// too many rows or too long a wave, 2 for an entry that is no bit (at its place in the
/// whole list), 4 for too short an output.
pub fn plan(
    a: usize,
    b: usize,
    n: usize,
    leads: &[usize],
    bits: &[u8],
    out: &mut [u8],
) -> Result<usize, Refusal> {
    let rows = leads.len();
    need_setting(
        subcell_fits(a)
            && subcell_fits(b)
            && row_bits_fit(n)
            && rows > 0
            && rows.checked_mul(n) == Some(bits.len())
            && leads.iter().all(|&lead| pad_fits(lead)),
    )?;
    need_size(rows, MAX_ROWS)?;
    let cells = n * (a + b);
    let length = leads.iter().sum::<usize>() + rows * cells;
    need_size(length, MAX_LIST)?;
    need_entries(bits, 1)?;
    let mut rest = need_output(out, length)?;
    for (&lead, row) in leads.iter().zip(bits.chunks_exact(n)) {
        let (wave, after) = rest.split_at_mut(lead + cells);
        put_wave(a, b, lead, row, wave);
        rest = after;
    }
    Ok(length)
}

/// Fills `wave` with the lead pad and the cells.
fn put_wave(a: usize, b: usize, p1: usize, bits: &[u8], wave: &mut [u8]) {
    let (lead, cells) = wave.split_at_mut(p1);
    lead.fill(1);
    // Each cell opens with a change, and a 1 changes back within the cell. The line is high
    // when the first cell opens.
    let mut level = 1;
    for (cell, &bit) in cells.chunks_exact_mut(a + b).zip(bits) {
        let (mark, code) = cell.split_at_mut(a);
        level ^= 1;
        mark.fill(level);
        level ^= bit;
        code.fill(level);
    }
}
