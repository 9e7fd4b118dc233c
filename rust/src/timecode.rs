//! The rules of docs/RULES.md on "Time code": words of 80 bits, from a clock's bits to times and back.

use crate::counted::Stopped;
use crate::refusal::{need_entries, need_output, need_setting, need_size, Refusal};
use crate::settings::MAX_LIST;

/// The bits of a word (T1).
pub const WORD: usize = 80;
/// The bytes of a time: hours, minutes, seconds, frames (T5).
pub const TIME: usize = 4;

/// The last 16 bits of a word (T2).
const MARK: [u8; 16] = [0, 0, 1, 1, 1, 1, 1, 1, 1, 1, 1, 1, 1, 1, 0, 1];
const MARK_AT: usize = WORD - MARK.len();

/// Where the units of a part of a time stand, where its tens stand, how many bits these have, and the most the part can
/// be (T4, T6), in the order of a time's bytes.
const PARTS: [(usize, usize, usize, usize); TIME] =
    [(48, 56, 2, 23), (32, 40, 3, 59), (16, 24, 3, 59), (0, 8, 2, 24)];

/// The places of the words (T3).
pub fn places(bits: &[u8]) -> Vec<usize> {
    let mut found = Vec::new();
    let mut at = 0;
    while at + WORD <= bits.len() {
        if bits[at + MARK_AT..at + WORD] == MARK {
            found.push(at);
            at += WORD;
        } else {
            at += 1;
        }
    }
    found
}

/// The number in some bits, the lowest first (T4).
fn number(bits: &[u8]) -> usize {
    bits.iter().rev().fold(0, |n, &bit| 2 * n + bit as usize)
}

/// The time in a word, unless the word is bad (T6).
fn time(word: &[u8]) -> Option<[u8; TIME]> {
    let mut time = [0; TIME];
    for (byte, (units, tens, count, most)) in time.iter_mut().zip(PARTS) {
        let digit = number(&word[units..units + 4]);
        let part = digit + 10 * number(&word[tens..tens + count]);
        if digit > 9 || part > most {
            return None;
        }
        *byte = part as u8;
    }
    Some(time)
}

/// Lists the times of the words in `bits` at the front of `out`, four bytes each, and gives
/// their number.
///
/// Refuses with 3 for too many bits, 2 for an entry that is no bit, 4 for an output of fewer
/// than four bytes for each word, 10 for a bad word, with the times before it listed.
pub fn read(bits: &[u8], out: &mut [u8]) -> Result<usize, Stopped> {
    need_size(bits.len(), MAX_LIST)?;
    need_entries(bits, 1)?;
    let places = places(bits);
    let out = need_output(out, TIME * places.len())?;
    for (found, (&place, bytes)) in places.iter().zip(out.chunks_exact_mut(TIME)).enumerate() {
        match time(&bits[place..place + WORD]) {
            Some(time) => bytes.copy_from_slice(&time),
            None => {
                let refusal = Refusal::bad_word(place);
                return Err(Stopped { refusal, found });
            }
        }
    }
    Ok(places.len())
}

/// Writes the word of a time, given as hours, minutes, seconds and frames, to the front of
/// `out`, with user bits and flags 0 (T10).
///
/// Refuses with 1 for a time out of range, 4 for an output of fewer than 80 bytes.
pub fn write(time: [usize; TIME], out: &mut [u8]) -> Result<(), Refusal> {
    need_setting(time.iter().zip(PARTS).all(|(&part, (_, _, _, most))| part <= most))?;
    let out = need_output(out, WORD)?;
    out.fill(0);
    for (part, (units, tens, count, _)) in time.into_iter().zip(PARTS) {
        for i in 0..4 {
            out[units + i] = (part % 10 >> i & 1) as u8;
        }
        for i in 0..count {
            out[tens + i] = (part / 10 >> i & 1) as u8;
        }
    }
    out[MARK_AT..].copy_from_slice(&MARK);
    Ok(())
}
