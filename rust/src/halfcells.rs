//! The rules of docs/RULES.md on "Words of half cells": bytes for a shifter, sixteen half cells to a word, and back.

use crate::refusal::{need_size, Refusal};
use crate::settings::MAX_WORDS;

/// The cells of a word, each of two half cells.
const CELLS: usize = 8;

/// Writes the words of a message of bytes, one for each byte, and returns how many they are.
///
/// Refuses with 3 for more bytes than such a message has, 4 for too short an output.
pub fn encode(bytes: &[u8], out: &mut [u16]) -> Result<usize, Refusal> {
    need_size(bytes.len(), MAX_WORDS)?;
    let words = out.get_mut(..bytes.len()).ok_or(Refusal::OUTPUT)?;
    // Each cell opens with a change, and a 1 changes back within the cell. The line is high when the first cell opens.
    let mut level = 1;
    for (word, byte) in words.iter_mut().zip(bytes) {
        let mut halves = 0;
        for place in (0..CELLS).rev() {
            level ^= 1;
            halves = halves << 1 | level;
            level ^= u16::from(byte >> place & 1);
            halves = halves << 1 | level;
        }
        *word = halves;
    }
    Ok(bytes.len())
}

/// Writes the bytes of words, one for each word, and returns how many they are.
///
/// Refuses with 3 for more words than such a message has, 11 for a cell with no edge at its start (at its place among
/// all cells), 4 for too short an output.
pub fn decode(words: &[u16], out: &mut [u8]) -> Result<usize, Refusal> {
    need_size(words.len(), MAX_WORDS)?;
    let mut before = true;
    for (place, (mark, code)) in words.iter().flat_map(cells).enumerate() {
        if mark == before {
            return Err(Refusal::no_edge(place));
        }
        before = code;
    }
    let bytes = out.get_mut(..words.len()).ok_or(Refusal::OUTPUT)?;
    for (byte, word) in bytes.iter_mut().zip(words) {
        *byte = cells(word).fold(0, |bits, (mark, code)| bits << 1 | u8::from(mark != code));
    }
    Ok(words.len())
}

/// The two half cells of each cell of a word, the highest first.
fn cells(word: &u16) -> impl Iterator<Item = (bool, bool)> {
    let word = *word;
    let half = move |place: usize| word >> place & 1 == 1;
    (0..CELLS)
        .rev()
        .map(move |cell| (half(2 * cell + 1), half(2 * cell)))
}
