//! Words of half cells: the printed words, the wave that they are, both ways, and every refusal.

mod common;

use common::{holds, lent, refusal, Rng};
use siengulot_plain::halfcells::{decode, encode};
use siengulot_plain::sender;
use siengulot_plain::settings::MAX_WORDS;

fn words_of(bytes: &[u8]) -> Vec<u16> {
    let mut words = vec![0; bytes.len()];
    assert_eq!(encode(bytes, &mut words), Ok(bytes.len()));
    words
}

fn bytes_of(words: &[u16]) -> Vec<u8> {
    let mut bytes = vec![0; words.len()];
    assert_eq!(decode(words, &mut bytes), Ok(words.len()));
    bytes
}

#[test]
fn printed_words() {
    assert_eq!(words_of(&[0x00]), [0x3333]);
    assert_eq!(words_of(&[0xff]), [0x5555]);
    assert_eq!(words_of(&[0x80]), [0x4ccc]);
    // The first word ends low, so the second is the opposite.
    assert_eq!(words_of(&[0x80, 0x80]), [0x4ccc, 0xb333]);
    assert_eq!(words_of(&[]), []);
}

/// Each half cell held for a cycles is the wave that the sender gives for the bits, with b equal to a and no pads.
#[test]
fn held_words_are_the_wave() {
    let mut rng = Rng::new(6);
    for a in [1, 2, 7, 255] {
        for length in [0, 1, 2, 5, MAX_WORDS] {
            let bytes = rng.entries(length, 255);
            let held: Vec<u8> = words_of(&bytes)
                .iter()
                .flat_map(|word| (0..16).rev().map(move |place| (word >> place & 1) as u8))
                .flat_map(|level| vec![level; a])
                .collect();
            let bits: Vec<u8> = bytes
                .iter()
                .flat_map(|byte| (0..8).rev().map(move |place| byte >> place & 1))
                .collect();
            let mut wave = vec![9; held.len()];
            assert_eq!(sender::message(a, a, 0, &bits, &mut wave), Ok(held.len()));
            assert_eq!(held, wave);
        }
    }
}

#[test]
fn both_ways() {
    for first in 0..=255 {
        for second in 0..=255 {
            let bytes = [first, second];
            assert_eq!(bytes_of(&words_of(&bytes)), bytes);
        }
    }
    let mut rng = Rng::new(66);
    for length in 0..=MAX_WORDS {
        let bytes = rng.entries(length, 255);
        assert_eq!(bytes_of(&words_of(&bytes)), bytes);
    }
    // Of all words 256 are taken for a line that enters high and 256 for one that enters low, and they are those of the bytes.
    for lead in [0xff, 0x80] {
        let before = words_of(&[lead]);
        let taken = (0..=u16::MAX)
            .filter(|&word| {
                let words = [before[0], word];
                let mut bytes = [0; 2];
                match decode(&words, &mut bytes) {
                    Ok(_) => words_of(&bytes) == words,
                    Err(refused) => {
                        assert_eq!((refused.number, refused.place / 8), (11, 1));
                        false
                    }
                }
            })
            .count();
        assert_eq!(taken, 256);
    }
}

/// One half cell turned over takes away one edge, or two, and the first of them is named.
#[test]
fn a_cell_without_an_edge_is_named() {
    let mut rng = Rng::new(11);
    for _ in 0..2_000 {
        let length = rng.within(1, 9);
        let mut words = words_of(&rng.entries(length, 255));
        let half = rng.below(16 * length);
        words[half / 16] ^= 1 << (15 - half % 16);
        // A mark is compared with the code before it, and a code with the mark after it.
        let cell = if half % 2 == 0 {
            half / 2
        } else {
            half / 2 + 1
        };
        let mut out = lent(length);
        if cell == 8 * length {
            assert_eq!(decode(&words, &mut out), Ok(length));
        } else {
            assert_eq!(decode(&words, &mut out), Err(refusal(11, cell)));
            assert!(holds(&out, &[]));
        }
    }
}

#[test]
fn refusals_in_their_order() {
    let long = vec![0; MAX_WORDS + 1];
    let mut words = vec![7; 200];
    assert_eq!(encode(&long, &mut words), Err(refusal(3, 0)));
    assert_eq!(encode(&long, &mut words[..1]), Err(refusal(3, 0)));
    assert_eq!(encode(&long[1..], &mut words[..127]), Err(refusal(4, 0)));
    assert!(words.iter().all(|&word| word == 7));
    assert_eq!(encode(&long[1..], &mut words), Ok(128));
    assert!(words[128..].iter().all(|&word| word == 7));

    // More words than may be, the first of which has no edge: 3 comes before 11, and 11 before 4.
    let mut out = lent(200);
    assert_eq!(decode(&[0xffff; 129], &mut out), Err(refusal(3, 0)));
    assert_eq!(decode(&[0xffff; 128], &mut out[..1]), Err(refusal(11, 0)));
    let mut words = words_of(&long[1..]);
    assert_eq!(decode(&words, &mut out[..127]), Err(refusal(4, 0)));
    words[127] ^= 1 << 1;
    assert_eq!(decode(&words, &mut out[..127]), Err(refusal(11, 1_023)));
    assert!(holds(&out, &[]));
    words[127] ^= 1 << 1;
    assert_eq!(decode(&words, &mut out), Ok(128));
    assert!(holds(&out, &[0; 128]));
}
