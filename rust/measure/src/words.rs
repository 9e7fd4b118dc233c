//! Words of half cells beside plain Rust that follows the rule, and beside Rust with the same table that reads whole words as the library does.

use crate::cases::{two, Work};
use crate::library::{siengulot_decode, siengulot_encode};
use siengulot_plain::halfcells;
use siengulot_plain::settings::MAX_WORDS;

/// Random bytes.
fn bytes(length: usize) -> Vec<u8> {
    let mut seed = 6_u64;
    let mut next = || {
        seed = seed.wrapping_mul(6_364_136_223_846_793_005).wrapping_add(1);
        (seed >> 56) as u8
    };
    (0..length).map(|_| next()).collect()
}

/// The words of as many bytes as there may be.
fn words() -> Vec<u16> {
    let mut words = vec![0; MAX_WORDS];
    halfcells::encode(&bytes(MAX_WORDS), &mut words).expect("can be encoded");
    words
}

/// Calls of so many bytes each.
fn encoding(
    calls: usize,
    length: usize,
    plain: impl Fn(&[u8], &mut [u16]) -> Option<usize> + 'static,
) -> Work {
    let (ours, theirs) = (bytes(length), bytes(length));
    two(
        calls * length,
        0,
        move |lent| {
            let (mut out, mut place, mut count) = ([0; MAX_WORDS], 0, 0);
            for i in 0..calls {
                let refused = unsafe {
                    siengulot_encode(
                        ours.as_ptr(),
                        ours.len(),
                        out.as_mut_ptr(),
                        out.len(),
                        &mut place,
                        &mut count,
                    )
                };
                assert_eq!(refused, 0);
                lent.told[0] += count as i64;
                lent.told[1] += i64::from(out[i % MAX_WORDS]);
            }
        },
        move |lent| {
            let mut out = [0; MAX_WORDS];
            for i in 0..calls {
                let count = plain(&theirs, &mut out).expect("can be encoded");
                lent.told[0] += count as i64;
                lent.told[1] += i64::from(out[i % MAX_WORDS]);
            }
        },
    )
}

fn decoding(calls: usize, plain: impl Fn(&[u16], &mut [u8]) -> Option<usize> + 'static) -> Work {
    let (ours, theirs) = (words(), words());
    two(
        calls * MAX_WORDS,
        0,
        move |lent| {
            let (mut out, mut place, mut count) = ([0; MAX_WORDS], 0, 0);
            for i in 0..calls {
                let refused = unsafe {
                    siengulot_decode(
                        ours.as_ptr(),
                        ours.len(),
                        out.as_mut_ptr(),
                        out.len(),
                        &mut place,
                        &mut count,
                    )
                };
                assert_eq!(refused, 0);
                lent.told[0] += count as i64;
                lent.told[1] += i64::from(out[i % MAX_WORDS]);
            }
        },
        move |lent| {
            let mut out = [0; MAX_WORDS];
            for i in 0..calls {
                let count = plain(&theirs, &mut out).expect("can be decoded");
                lent.told[0] += count as i64;
                lent.told[1] += i64::from(out[i % MAX_WORDS]);
            }
        },
    )
}

pub fn encode_beside_the_rule(calls: usize) -> Work {
    encoding(calls, MAX_WORDS, |bytes, out| {
        halfcells::encode(bytes, out).ok()
    })
}

pub fn encode_beside_the_table(calls: usize) -> Work {
    encoding(calls, MAX_WORDS, encode)
}

pub fn short_beside_the_table(calls: usize) -> Work {
    encoding(calls, 16, encode)
}

pub fn decode_beside_the_rule(calls: usize) -> Work {
    decoding(calls, |words, out| halfcells::decode(words, out).ok())
}

pub fn decode_beside_whole_words(calls: usize) -> Work {
    decoding(calls, decode)
}

/// The word of each byte for a line that enters high.
const TABLE: [u16; 256] = table();

const fn table() -> [u16; 256] {
    let mut words = [0; 256];
    let mut byte = 0;
    while byte < 256 {
        let (mut level, mut cell) = (1, 8);
        while cell > 0 {
            cell -= 1;
            let mark = level ^ 1;
            level = mark ^ (byte >> cell & 1) as u16;
            words[byte] = words[byte] << 2 | mark << 1 | level;
        }
        byte += 1;
    }
    words
}

/// With the same table.
#[inline(never)]
fn encode(bytes: &[u8], out: &mut [u16]) -> Option<usize> {
    if bytes.len() > MAX_WORDS {
        return None;
    }
    let words = out.get_mut(..bytes.len())?;
    let mut level = 1;
    for (word, &byte) in words.iter_mut().zip(bytes) {
        let high = TABLE[usize::from(byte)];
        *word = if level == 1 { high } else { !high };
        level = *word & 1;
    }
    Some(bytes.len())
}

/// The starts of a word's cells by a shift and an exclusive or, and its bits by another.
#[inline(never)]
fn decode(words: &[u16], out: &mut [u8]) -> Option<usize> {
    if words.len() > MAX_WORDS {
        return None;
    }
    let (mut before, mut missing) = (1, 0);
    for &word in words {
        missing |= !(word ^ (word >> 1 | before << 15)) & 0xaaaa;
        before = word & 1;
    }
    if missing != 0 {
        return None;
    }
    let bytes = out.get_mut(..words.len())?;
    for (byte, &word) in bytes.iter_mut().zip(words) {
        let ones = (word ^ word >> 1) & 0x5555;
        let pairs = (ones | ones >> 1) & 0x3333;
        let fours = (pairs | pairs >> 2) & 0x0f0f;
        *byte = (fours | fours >> 4) as u8;
    }
    Some(words.len())
}
