//! The least and the greatest sizes.

mod common;

use common::{counted_model, feed, holds, lent, packed, refusal, Rng};
use siengulot_plain::board::{Event, Heard, Mode, Receiver};
use siengulot_plain::capture::{self, Summary};
use siengulot_plain::settings::{judge, judge_quiet, MAX_CAPTURE, MAX_LIST};
use siengulot_plain::{counted, line, sender};

#[test]
fn margins_at_the_ends_of_the_ranges() {
    let verdict = judge_quiet(1, 1, 1, 1, 1, 1, 2, 0).unwrap();
    assert_eq!(verdict.margins, [-2, -2, -2, -3, -4]);
    assert!(!verdict.accepted);
    let verdict = judge_quiet(255, 255, 1, 511, 65_535, 65_535, 8_191, 65_535).unwrap();
    let w = 65_535;
    let expected = [252 * w, 254 * w, -4 * w, 7_678 * w, 57_342 * w];
    assert_eq!(verdict.margins, expected);
    assert!(!verdict.accepted);
    // The greatest M5 and the least.
    let verdict = judge_quiet(255, 255, 1, 511, 65_535, 1, 2, 65_535).unwrap();
    assert_eq!(verdict.margins[4], 65_534 * 65_535 - 3);
    let verdict = judge_quiet(1, 1, 64, 1, 65_535, 65_535, 8_191, 0).unwrap();
    assert_eq!(verdict.margins[4], -64 * 65_535 - 8_192 * 65_535);
}

#[test]
fn longest_message() {
    let mut rng = Rng::new(41);
    let bits = rng.bits(1_024);
    let mut out = lent(587_776);
    let sent = sender::message(255, 255, 65_535, &bits, &mut out);
    assert_eq!(sent, Ok(587_775));
    assert!(holds(&out, &out[..587_775]));
    let wave = &out[..587_775];
    assert!(wave[..65_535].iter().all(|&level| level == 1));
    let mut received = lent(1_025);
    // The last cell begins after the pad and 1,023 cells.
    let answer = counted::receive(1_024, 1, 300, wave, &mut received);
    assert_eq!(answer, Ok(65_535 + 1_023 * 510 + 300));
    assert!(holds(&received, &bits));
}

#[test]
fn accepted_settings_may_still_warp_too_far() {
    assert!(judge(2, 3, 1, 511, 170, 1).unwrap().accepted);
    let mut wave = lent(587_775);
    let length = sender::message(2, 3, 65_535, &[0; 1_024], &mut wave);
    let length = length.unwrap();
    assert_eq!(length, 70_655);
    let mut out = lent(0);
    let warped = line::warp(170, 1, 0, &wave[..length], &mut out);
    assert_eq!(warped, Err(refusal(3, 0)));
}

#[test]
fn longest_plan() {
    // 1,024 rows of 512 bits in cells of two cycles fill a list to the last place.
    let (mut leads, bits) = (vec![0; 1_024], vec![1; 1_024 * 512]);
    let mut out = lent(MAX_LIST + 1);
    let planned = sender::plan(1, 1, 512, &leads, &bits, &mut out);
    assert_eq!(planned, Ok(MAX_LIST));
    assert!(holds(&out, &[0, 1].repeat(MAX_LIST / 2)));
    let none = leads.clone();
    leads[1_023] = 1;
    let mut out = lent(16);
    let planned = sender::plan(1, 1, 512, &leads, &bits, &mut out);
    assert_eq!(planned, Err(refusal(3, 0)));
    assert!(holds(&out, &[]));
    // The most bits a plan can have, which always make too long a wave.
    let bits = vec![1; 1_024 * 1_024];
    let planned = sender::plan(1, 1, 1_024, &none, &bits, &mut []);
    assert_eq!(planned, Err(refusal(3, 0)));
}

#[test]
fn longest_lists_through_the_line() {
    let mut rng = Rng::new(42);
    let wave = rng.runs(MAX_LIST, 30);
    let mut smoothed = lent(MAX_LIST + 1);
    assert_eq!(line::smooth(1, &wave, &mut smoothed), Ok(MAX_LIST));
    assert!(holds(&smoothed, &smoothed[..MAX_LIST]));
    let smoothed = &smoothed[..MAX_LIST];
    // The same clock leaves everything as it is, and at the greatest cycles too.
    for length in [1, 65_535] {
        let mut warped = lent(MAX_LIST + 1);
        let count = line::warp(length, length, 0, smoothed, &mut warped);
        assert_eq!(count, Ok(MAX_LIST));
        assert!(holds(&warped, smoothed));
        let mut warped = lent(MAX_LIST);
        let count = line::warp(length, length, length - 1, smoothed, &mut warped);
        assert_eq!(count, Ok(MAX_LIST - usize::from(length > 1)));
    }
    // The widest difference between the clocks, both ways.
    let mut warped = lent(17);
    let count = line::warp(1, 65_535, 0, smoothed, &mut warped);
    assert_eq!(count, Ok(16));
    assert!(holds(&warped, &[2; 16]));
    let mut warped = lent(16 * 65_535 + 1);
    let count = line::warp(65_535, 1, 0, &smoothed[..16], &mut warped);
    assert_eq!(count, Ok(16 * 65_535));
    for (i, &level) in smoothed[..16].iter().enumerate() {
        let reads = &warped[i * 65_535..(i + 1) * 65_535];
        assert!(reads.iter().all(|&read| read == level));
    }
    let count = line::warp(65_535, 1, 0, &smoothed[..17], &mut warped);
    assert_eq!(count, Err(refusal(3, 0)));
    // Exactly as many reads as a list holds, and one more.
    let mut warped = lent(MAX_LIST);
    let half = &smoothed[..MAX_LIST / 2];
    assert_eq!(line::warp(4, 2, 1, half, &mut warped), Ok(MAX_LIST - 1));
    assert_eq!(line::warp(4, 2, 0, half, &mut warped), Ok(MAX_LIST));
    let more = &smoothed[..MAX_LIST / 2 + 1];
    assert_eq!(line::warp(4, 2, 3, more, &mut warped), Ok(MAX_LIST));
    let over = line::warp(4, 2, 2, more, &mut warped);
    assert_eq!(over, Err(refusal(3, 0)));

    let choices = rng.bits(MAX_LIST);
    let mut settled = lent(MAX_LIST + 1);
    let count = line::settle(&vec![2; MAX_LIST], &choices, &mut settled);
    assert_eq!(count, Ok(MAX_LIST));
    assert!(holds(&settled, &choices));
}

/// A quiet of `q` reads and then cells of one mark and `k` reads of the sample's level.
fn reads_of(k: usize, q: usize, bits: &[u8]) -> Vec<u8> {
    let mut reads = vec![1; q];
    let mut level = 1;
    for &bit in bits {
        let mark = level ^ 1;
        reads.push(mark);
        level = mark ^ bit;
        reads.resize(reads.len() + k, level);
    }
    reads
}

#[test]
fn greatest_receivers() {
    let mut rng = Rng::new(43);
    let bits = rng.bits(1_024);
    let reads = reads_of(511, 8_191, &bits);
    assert_eq!(reads.len(), 532_479);

    let mut receiver = Receiver::fresh(511, 1_024, 8_191).unwrap();
    let heard = Heard {
        taken: reads.len(),
        event: Some(Event::Row(packed(&bits))),
    };
    assert_eq!(receiver.listen(&reads), Ok(heard));
    assert_eq!(receiver.mode, Mode::Hunting);
    assert!(receiver.well_formed());

    // The last read but one leaves 1,023 bits, and a quiet breaks them off.
    let mut receiver = Receiver::fresh(511, 1_024, 8_191).unwrap();
    let mut broken = reads[..reads.len() - 1].to_vec();
    let heard = receiver.listen(&broken).unwrap();
    assert_eq!((heard.event, receiver.found), (None, 1_023));
    assert!(receiver.well_formed());
    broken.push(0);
    let mut receiver = Receiver::fresh(511, 1_023, 8_191).unwrap();
    let row = Event::Row(packed(&bits[..1_023]));
    assert_eq!(feed(&mut receiver, &broken), [(531_966, row)]);

    let mut out = lent(1_025);
    let answer = counted::receive(1_024, 1, 511, &reads, &mut out);
    let (_, samples) = counted_model(1_024, 1, 511, &reads);
    assert_eq!(answer, Ok(samples[1_023]));
    assert!(holds(&out, &bits));
    let mut out = lent(1_024);
    let short = &reads[..reads.len() - 1];
    let stopped = counted::receive(1_024, 1, 511, short, &mut out).unwrap_err();
    assert_eq!((stopped.refusal, stopped.found), (refusal(5, samples[1_022]), 1_023));
    assert!(holds(&out, &bits[..1_023]));
}

#[test]
fn longest_row_broken_off_at_its_last_bit() {
    let bits = [1; 1_024];
    let mut reads = reads_of(1, 8, &bits);
    reads.truncate(reads.len() - 2);
    reads.extend([1; 7]);
    let mut receiver = Receiver::fresh(1, 1_024, 8).unwrap();
    let heard = receiver.listen(&reads).unwrap();
    assert_eq!(heard.event, Some(Event::Broken(1_023)));
    assert_eq!(heard.taken, reads.len());
}

#[test]
fn listen_takes_the_longest_list() {
    let reads = vec![1; MAX_LIST + 1];
    let mut receiver = Receiver::fresh(511, 1_024, 8_191).unwrap();
    assert_eq!(receiver.listen(&reads), Err(refusal(3, 0)));
    let heard = receiver.listen(&reads[1..]).unwrap();
    assert_eq!((heard.taken, heard.event), (MAX_LIST, None));
    assert_eq!((receiver.mode, receiver.run), (Mode::Ready, 8_191));
}

#[test]
fn longest_capture() {
    for (first, byte) in [(0, 0), (1, 1)] {
        let reads: Vec<u8> = (0..MAX_LIST).map(|i| (i as u8 & 1) ^ first).collect();
        let mut bytes = lent(MAX_CAPTURE + 1);
        let written = capture::write(511, 1_024, 8_191, &reads, &mut bytes);
        assert_eq!(written, Ok(MAX_CAPTURE));
        assert!(holds(&bytes, &bytes[..MAX_CAPTURE]));
        let header = [0xff, 0x03, 0x80, 0x08, 0xff, 0x3f, byte, 1];
        assert_eq!(bytes[..8], header);
        let summary = Summary {
            k: 511,
            n: 1_024,
            q: 8_191,
            reads: MAX_LIST,
        };
        let mut out = lent(MAX_LIST + 1);
        let answer = capture::read(&bytes[..MAX_CAPTURE], &mut out);
        assert_eq!(answer, Ok(summary));
        assert!(holds(&out, &reads));
    }
}

#[test]
fn one_run_of_the_greatest_length() {
    let mut bytes = lent(8);
    let written = capture::write(1, 1, 2, &vec![0; MAX_LIST], &mut bytes);
    assert_eq!(written, Ok(7));
    assert!(holds(&bytes, &[1, 1, 2, 0, 0x80, 0x80, 0x40]));
}
