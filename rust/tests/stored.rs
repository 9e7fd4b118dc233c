//! Stored plans: what they are read into, and what is refused.

mod common;

use common::{lent, refusal, Rng};
use siengulot_plain::settings::{MAX_PAD, MAX_ROWS};
use siengulot_plain::stored::{read_plan, Joined};
use siengulot_plain::{sender, Refusal};

/// What stands in a lent list of pads before it is lent.
const UNTOUCHED: usize = 77_777;

/// Asks for a refusal that leaves all of the output.
fn refuses(leads: &[usize], trails: &[usize], room: usize, expected: Refusal) {
    let mut out = vec![UNTOUCHED; room];
    assert_eq!(read_plan(leads, trails, &mut out), Err(expected));
    assert_eq!(out, vec![UNTOUCHED; room]);
}

#[test]
fn a_trail_pad_joins_the_next_lead_pad() {
    let mut out = [UNTOUCHED; 5];
    let read = read_plan(&[10, 20, 30], &[1, 2, 3], &mut out);
    let (rows, dropped) = (3, 3);
    assert_eq!(read, Ok(Joined { rows, dropped }));
    assert_eq!(out, [10, 21, 32, UNTOUCHED, UNTOUCHED]);
}

/// Row by row: the lead pad, the cells from high, the trail pad.
fn stored_wave(a: usize, b: usize, n: usize, rows: [&[usize]; 2], bits: &[u8]) -> Vec<u8> {
    let mut wave = Vec::new();
    for (i, row) in bits.chunks(n).enumerate() {
        wave.extend(vec![1; rows[0][i]]);
        let mut level = 1;
        for &bit in row {
            let mark = 1 - level;
            level = if bit == 1 { level } else { mark };
            wave.extend(vec![mark; a]);
            wave.extend(vec![level; b]);
        }
        wave.extend(vec![1; rows[1][i]]);
    }
    wave
}

#[test]
fn the_wave_is_the_same_but_for_the_dropped_cycles() {
    let mut rng = Rng::new(121);
    for _ in 0..500 {
        let (a, b, n) = (rng.within(1, 9), rng.within(1, 9), rng.within(1, 12));
        let rows = rng.within(1, 6);
        let leads: Vec<usize> = (0..rows).map(|_| rng.below(9)).collect();
        let trails: Vec<usize> = (0..rows).map(|_| rng.below(9)).collect();
        let bits = rng.bits(rows * n);
        let mut joined = vec![UNTOUCHED; rows];
        let read = read_plan(&leads, &trails, &mut joined).unwrap();
        assert_eq!(read.rows, rows);
        assert!(leads.iter().zip(&joined).all(|(before, now)| before <= now));

        let expected = stored_wave(a, b, n, [&leads, &trails], &bits);
        let mut wave = lent(expected.len());
        let length = sender::plan(a, b, n, &joined, &bits, &mut wave).unwrap();
        assert_eq!(length + read.dropped, expected.len());
        wave.truncate(length);
        wave.extend(vec![1; read.dropped]);
        assert_eq!(wave, expected);
    }
}

#[test]
fn refuses_in_order() {
    let one = refusal(1, 0);
    refuses(&[], &[], 4, one);
    refuses(&[1, 2], &[1], 4, one);
    refuses(&[1], &[1, 2], 4, one);
    refuses(&[MAX_PAD + 1, 1], &[0, 0], 4, one);
    // A pad out of range comes before a lead pad that becomes too long.
    refuses(&[1, MAX_PAD, 1], &[0, 1, MAX_PAD + 1], 4, one);
    refuses(&[1, MAX_PAD, 1], &[1, 0, usize::MAX], 4, one);
    // The row whose lead pad grows is named, and the first of several.
    refuses(&[1, MAX_PAD, MAX_PAD], &[1, 1, 1], 4, refusal(1, 1));
    refuses(&[MAX_PAD, 1, 1, MAX_PAD], &[0, 1, 1, 0], 4, refusal(1, 3));

    let mut many = vec![0; MAX_ROWS + 1];
    let none = many.clone();
    refuses(&many, &none, 0, refusal(3, 0));
    many[MAX_ROWS - 1] = MAX_PAD;
    many[MAX_ROWS] = 1;
    refuses(&none, &many[1..], 0, one);
    refuses(&many[1..], &many[..MAX_ROWS], 0, refusal(4, 0));
    many[MAX_ROWS] = MAX_PAD;
    refuses(&many, &many, 0, refusal(1, MAX_ROWS));
    refuses(&[1, 2], &[3, 4], 1, refusal(4, 0));
}

#[test]
fn the_longest_lead_pad_and_the_most_rows() {
    let mut out = [UNTOUCHED; 2];
    let read = read_plan(&[MAX_PAD, MAX_PAD - 1], &[1, MAX_PAD], &mut out);
    let (rows, dropped) = (2, MAX_PAD);
    assert_eq!(read, Ok(Joined { rows, dropped }));
    assert_eq!(out, [MAX_PAD, MAX_PAD]);

    let pads = vec![1; MAX_ROWS];
    let mut out = vec![UNTOUCHED; MAX_ROWS];
    let (rows, dropped) = (MAX_ROWS, 1);
    let read = read_plan(&pads, &pads, &mut out);
    assert_eq!(read, Ok(Joined { rows, dropped }));
    assert_eq!(out[0], 1);
    assert_eq!(out[1..], vec![2; MAX_ROWS - 1]);
}
