//! The worked numbers: P1 to P14, the failing run of source 002, and the named slips.

mod common;

use common::{holds, lent, refusal, through_the_line};
use siengulot_plain::capture::{self, write_number, Reader};
use siengulot_plain::counted::{self, Stopped};
use siengulot_plain::settings::{judge, judge_ends, judge_quiet, judge_quiet_ends, quiet_margins};
use siengulot_plain::stored::{self, Joined};
use siengulot_plain::{line, sender};

const P1: [u8; 13] = [1, 1, 0, 0, 1, 1, 1, 0, 0, 0, 0, 0, 1];
const P2: [u8; 13] = [1, 1, 2, 0, 2, 1, 1, 2, 0, 0, 0, 0, 2];
const P3: [u8; 12] = [1, 2, 2, 2, 2, 1, 2, 2, 0, 0, 0, 2];
const P4: [u8; 12] = [1, 1, 0, 0, 1, 1, 0, 0, 0, 0, 0, 0];

#[test]
fn p1_reads_a_stored_plan() {
    let mut leads = [0, 7];
    let read = stored::read_plan(&[2], &[1], &mut leads);
    let (rows, dropped) = (1, 1);
    assert_eq!(read, Ok(Joined { rows, dropped }));
    assert_eq!(leads, [2, 7]);

    let mut out = lent(15);
    assert_eq!(sender::message(2, 3, 2, &[1, 0], &mut out), Ok(12));
    assert!(holds(&out, &P1[..12]));
    let mut out = lent(15);
    let planned = sender::plan(2, 3, 2, &leads[..rows], &[1, 0], &mut out);
    assert_eq!(planned, Ok(12));
    assert!(holds(&out, &P1[..12]));
    assert_eq!(P1[12..], vec![1; dropped]);
}

#[test]
fn p2_smooths_p1() {
    let mut out = lent(15);
    assert_eq!(line::smooth(1, &P1, &mut out), Ok(13));
    assert!(holds(&out, &P2));
}

#[test]
fn p3_warps_p2() {
    let mut out = lent(15);
    assert_eq!(line::warp(4, 4, 1, &P2, &mut out), Ok(12));
    assert!(holds(&out, &P3));
    let mut out = lent(15);
    assert_eq!(line::warp(4, 4, 0, &P2, &mut out), Ok(13));
    assert!(holds(&out, &P2));
}

#[test]
fn p4_settles_p3() {
    let mut out = lent(15);
    assert_eq!(line::settle(&P3, &[1, 0, 0, 1], &mut out), Ok(12));
    assert!(holds(&out, &P4));
}

#[test]
fn p5_warps_over_unequal_cycles() {
    let mut out = lent(3);
    assert_eq!(line::warp(2, 3, 0, &[1, 2, 0, 0], &mut out), Ok(2));
    assert!(holds(&out, &[2, 2]));
    let mut out = lent(3);
    assert_eq!(line::warp(2, 4, 0, &[1, 2, 0, 0], &mut out), Ok(2));
    assert!(holds(&out, &[2, 0]));
}

#[test]
fn p6_warps_one_cycle() {
    for level in 0..=2 {
        let mut out = lent(2);
        assert_eq!(line::warp(3, 3, 0, &[level], &mut out), Ok(1));
        assert!(holds(&out, &[level]));
        let mut out = lent(2);
        assert_eq!(line::warp(3, 3, 1, &[level], &mut out), Ok(0));
        assert!(holds(&out, &[]));
    }
}

#[test]
fn p7_counts_p1() {
    let mut out = lent(4);
    assert_eq!(counted::receive(2, 1, 3, &P1, &mut out), Ok(10));
    assert!(holds(&out, &[1, 0]));
    let mut out = lent(4);
    let stopped = Stopped {
        refusal: refusal(5, 10),
        found: 2,
    };
    assert_eq!(counted::receive(3, 1, 3, &P1, &mut out), Err(stopped));
    assert!(holds(&out, &[1, 0]));
    let mut out = lent(4);
    assert_eq!(counted::receive(0, 1, 3, &P1, &mut out), Ok(0));
    assert!(holds(&out, &[]));
}

#[test]
fn p8_judges_eighteen_cycles() {
    let verdict = judge(5, 13, 1, 10, 100, 141).unwrap();
    assert_eq!((verdict.margins, verdict.accepted), ([118, 669, 8], true));
    let verdict = judge(5, 13, 1, 10, 100, 142).unwrap();
    assert_eq!((verdict.margins, verdict.accepted), ([116, 678, -4], false));
    let verdict = judge(5, 13, 1, 10, 100, 67).unwrap();
    assert_eq!((verdict.margins, verdict.accepted), ([266, 3, 896], true));
    let verdict = judge(5, 13, 1, 10, 100, 66).unwrap();
    assert_eq!((verdict.margins[1], verdict.accepted), (-6, false));
}

#[test]
fn p9_judges_margins_of_zero() {
    let verdict = judge(5, 13, 1, 10, 12, 17).unwrap();
    assert_eq!((verdict.margins[2], verdict.accepted), (0, true));
    let verdict = judge(5, 13, 1, 10, 3, 2).unwrap();
    assert_eq!((verdict.margins[1], verdict.accepted), (0, true));
}

#[test]
fn p10_judges_the_quiet() {
    assert_eq!(quiet_margins(5, 13, 1, 100, 100, 21, 23), Ok([0, 0]));
    assert_eq!(quiet_margins(5, 13, 1, 100, 100, 20, 23).unwrap()[0], -100);
    assert_eq!(quiet_margins(5, 13, 1, 100, 100, 21, 22).unwrap()[1], -100);

    let verdict = judge_quiet(5, 13, 1, 10, 100, 100, 21, 23).unwrap();
    assert_eq!(verdict.margins, [200, 300, 500, 0, 0]);
    assert!(verdict.accepted);
    let verdict = judge_quiet(5, 13, 1, 10, 100, 100, 20, 23).unwrap();
    assert_eq!(verdict.margins, [200, 300, 500, -100, 100]);
    assert!(!verdict.accepted);
    let verdict = judge_quiet(5, 13, 1, 10, 100, 100, 21, 22).unwrap();
    assert_eq!(verdict.margins, [200, 300, 500, 0, -100]);
    assert!(!verdict.accepted);
}

#[test]
fn p12_smooths_p1_for_longer() {
    let mut out = lent(15);
    assert_eq!(line::smooth(2, &P1, &mut out), Ok(13));
    assert!(holds(&out, &[1, 1, 2, 2, 2, 2, 1, 2, 2, 0, 0, 0, 2]));
    let mut out = lent(15);
    assert_eq!(line::smooth(64, &P1, &mut out), Ok(13));
    assert!(holds(&out, &[1, 1, 2, 2, 2, 2, 2, 2, 2, 2, 2, 2, 2]));
}

#[test]
fn p13_judges_longer_settling() {
    let verdict = judge(5, 13, 2, 10, 100, 100).unwrap();
    assert_eq!((verdict.margins, verdict.accepted), ([100, 200, 400], true));
    let verdict = judge(5, 13, 4, 10, 100, 100).unwrap();
    assert_eq!((verdict.margins, verdict.accepted), ([-100, 0, 200], false));
    let verdict = judge(5, 13, 64, 10, 100, 100).unwrap();
    let expected = [-6_100, -6_000, -5_800];
    assert_eq!((verdict.margins, verdict.accepted), (expected, false));
}

#[test]
fn p14_judges_the_quiet_for_longer_settling() {
    let verdict = judge_quiet(80, 160, 64, 160, 100, 100, 306, 371).unwrap();
    assert_eq!(verdict.margins, [1_400, 1_500, 1_400, 0, 0]);
    assert!(verdict.accepted);
}

#[test]
fn p16_judges_over_ends() {
    let (w, r) = ([9_999, 10_001], [14_098, 14_102]);
    let verdict = judge_quiet_ends(4, 7, 1, 5, w, r, 11, 18).unwrap();
    assert_eq!(verdict.margins, [1_793, 6_387, 1_276, 6_870, 759]);
    assert!(verdict.accepted);
    let verdict = judge_ends(5, 13, 64, 10, [90, 110], [80, 120]).unwrap();
    let expected = [-5_550, -6_870, -5_580];
    assert_eq!((verdict.margins, verdict.accepted), (expected, false));
}

#[test]
fn p11_writes_and_reads_numbers() {
    let cases: [(usize, &[u8]); 7] = [
        (0, &[0x00]),
        (127, &[0x7f]),
        (128, &[0x80, 0x01]),
        (16_383, &[0xff, 0x7f]),
        (16_384, &[0x80, 0x80, 0x01]),
        (1_048_576, &[0x80, 0x80, 0x40]),
        (2_097_151, &[0xff, 0xff, 0x7f]),
    ];
    for (value, bytes) in cases {
        let mut out = lent(4);
        assert_eq!(write_number(value, &mut out), Ok(bytes.len()));
        assert!(holds(&out, bytes));
        let mut reader = Reader::new(&out).unwrap();
        assert_eq!(reader.number(), Ok(value));
        assert_eq!(reader.place(), bytes.len());
    }
    let mut reader = Reader::new(&[0x80, 0x00]).unwrap();
    assert_eq!(reader.number(), Err(refusal(7, 0)));
    let one_too_many = [2, 2, 6, 1, 0x81, 0x80, 0x40];
    assert_eq!(capture::check(&one_too_many), Err(refusal(8, 4)));
    let just_fits = [2, 2, 6, 1, 0x80, 0x80, 0x40];
    assert_eq!(capture::check(&just_fits).unwrap().reads, 1_048_576);
}

/// Where the failing run's third sample stands.
const LAST_SAMPLE: usize = 55;

/// Source 002's failing run up to its settled reads.
fn failing_reads() -> Vec<u8> {
    let mut leads = [0];
    let read = stored::read_plan(&[10], &[10], &mut leads).unwrap();
    let mut wave = lent(82);
    let length = sender::plan(5, 13, 4, &leads, &[1, 0, 1, 1], &mut wave);
    assert_eq!(length, Ok(82));
    wave.extend(vec![1; read.dropped]);
    assert_eq!(wave.len(), 92);
    let reads = through_the_line(&wave, 1, 100, 143, 84, &[1, 1, 0, 0]);
    assert_eq!(reads.len(), 63);
    reads
}

#[test]
fn failing_run_with_three_bits() {
    assert!(!judge(5, 13, 1, 10, 100, 143).unwrap().accepted);
    let mut out = lent(5);
    let reads = failing_reads();
    assert_eq!(counted::receive(3, 1, 10, &reads, &mut out), Ok(LAST_SAMPLE));
    assert!(holds(&out, &[0, 1, 1]));
}

#[test]
fn failing_run_with_four_bits() {
    let mut out = lent(5);
    let stopped = Stopped {
        refusal: refusal(5, LAST_SAMPLE),
        found: 3,
    };
    let reads = failing_reads();
    assert_eq!(counted::receive(4, 1, 10, &reads, &mut out), Err(stopped));
    assert!(holds(&out, &[0, 1, 1]));
}

#[test]
fn sources_results_lie_inside_the_margins() {
    // Within 1/18 of unity with 5, 13 and 10; within 1/32 with 16, 16 and 23.
    for r in 17..=19 {
        assert!(judge(5, 13, 1, 10, 18, r).unwrap().accepted);
    }
    for r in 31..=33 {
        assert!(judge(16, 16, 1, 23, 32, r).unwrap().accepted);
    }
}

#[test]
fn named_slips_are_not_made() {
    // Five percent is not the test for eighteen cycles.
    assert!(judge(5, 13, 1, 10, 100, 141).unwrap().accepted);
    // A quiet longer than a cell (18 cycles here) is not yet enough.
    let verdict = judge_quiet(5, 13, 1, 10, 100, 100, 20, 65_535).unwrap();
    assert!(!verdict.accepted);
}
