//! Time code: words found, times read, refusals, and words written.

mod common;

use common::{holds, lent, refusal, Rng};
use siengulot_plain::counted::Stopped;
use siengulot_plain::settings::MAX_LIST;
use siengulot_plain::timecode::{read, write, TIME, WORD};

const MARK: [u8; 16] = [0, 0, 1, 1, 1, 1, 1, 1, 1, 1, 1, 1, 1, 1, 0, 1];

/// The word of a time, as the writer gives it.
fn word(time: [usize; TIME]) -> Vec<u8> {
    let mut word = vec![0; WORD];
    write(time, &mut word).unwrap();
    word
}

/// What is read of some bits: the answer, and all of an output of `room` bytes.
fn reading(bits: &[u8], room: usize) -> (Result<usize, Stopped>, Vec<u8>) {
    let mut out = lent(room);
    let answer = read(bits, &mut out);
    (answer, out)
}

fn stopped(number: u8, place: usize, found: usize) -> Result<usize, Stopped> {
    let refusal = refusal(number, place);
    Err(Stopped { refusal, found })
}

#[test]
fn last_and_first_time_of_a_day() {
    for (time, bytes) in [([23, 59, 59, 24], [23, 59, 59, 24]), ([0; 4], [0; 4])] {
        let (answer, out) = reading(&word(time), 6);
        assert_eq!(answer, Ok(1));
        assert!(holds(&out, &bytes));
    }
}

#[test]
fn written_word_bit_by_bit() {
    let mut expected = vec![0; 64];
    for place in [2, 9, 16, 19, 24, 26, 32, 35, 40, 42, 48, 49, 57] {
        expected[place] = 1;
    }
    expected.extend(MARK);
    assert_eq!(word([23, 59, 59, 24]), expected);
}

#[test]
fn each_digit_at_its_limit_and_one_past() {
    for (part, most) in [23, 59, 59, 24].into_iter().enumerate() {
        let mut time = [0; TIME];
        time[part] = most;
        assert_eq!(reading(&word(time), 4).0, Ok(1));
        time[part] = most + 1;
        let mut out = lent(WORD);
        assert_eq!(write(time, &mut out), Err(refusal(1, 0)));
        assert!(holds(&out, &[]));
    }
    // Units of 9 are a digit and of 10 are none, in each part.
    for units in [48, 32, 16, 0] {
        let mut bits = word([0; TIME]);
        bits[units] = 1;
        bits[units + 3] = 1;
        assert_eq!(reading(&bits, 4).0, Ok(1));
        bits[units] = 0;
        bits[units + 1] = 1;
        assert_eq!(reading(&bits, 4), (stopped(10, 0, 0), lent(4)));
    }
    // Tens one too many, with units of 0.
    for (tens, count, most) in [(56, 2, 2), (40, 3, 5), (24, 3, 5), (8, 2, 2)] {
        for ten in 0..1 << count {
            let mut bits = word([0; TIME]);
            for i in 0..count {
                bits[tens + i] = (ten >> i & 1) as u8;
            }
            let good = reading(&bits, 4).0 == Ok(1);
            assert_eq!(good, ten <= most);
        }
    }
}

#[test]
fn noise_before_and_between_and_a_cut_word() {
    let mut bits = vec![1; 37];
    bits.extend(word([1, 2, 3, 4]));
    bits.extend([0, 1, 0]);
    bits.extend(word([5, 6, 7, 8]));
    bits.extend(&word([9, 10, 11, 12])[..79]);
    let (answer, out) = reading(&bits, 9);
    assert_eq!(answer, Ok(2));
    assert!(holds(&out, &[1, 2, 3, 4, 5, 6, 7, 8]));
}

#[test]
fn bad_word_between_good_ones() {
    let mut bits = vec![0; 5];
    bits.extend(word([1, 2, 3, 4]));
    bits.extend(word([0, 0, 0, 20]));
    bits[5 + WORD] = 1;
    bits[5 + WORD + 2] = 1;
    bits.extend(word([5, 6, 7, 8]));
    let (answer, out) = reading(&bits, 14);
    assert_eq!(answer, stopped(10, 85, 1));
    assert!(holds(&out, &[1, 2, 3, 4]));
    // There has to be room for all three.
    let (answer, out) = reading(&bits, 11);
    assert_eq!(answer, stopped(4, 0, 0));
    assert!(holds(&out, &[]));
}

#[test]
fn refusals_in_order() {
    let mut long = vec![1; MAX_LIST + 1];
    long[5] = 2;
    assert_eq!(reading(&long, 0).0, stopped(3, 0, 0));
    long.pop();
    long.truncate(10);
    long.extend(word([0; TIME]));
    assert_eq!(reading(&long, 0).0, stopped(2, 5, 0));
    long[5] = 1;
    assert_eq!(reading(&long, 3).0, stopped(4, 0, 0));
    assert_eq!(reading(&long, 4).0, Ok(1));
    assert_eq!(reading(&[], 0).0, Ok(0));
    let mut out = lent(79);
    assert_eq!(write([24, 0, 0, 0], &mut out), Err(refusal(1, 0)));
    assert_eq!(write([23, 0, 0, 0], &mut out), Err(refusal(4, 0)));
    assert!(holds(&out, &[]));
}

#[test]
fn every_time_reads_back_whatever_stands_around_it() {
    let mut rng = Rng::new(31);
    let others = |i: usize| !matches!(i % 16, 0..=3 | 8..=10) || matches!(i, 10 | 58);
    for _ in 0..3_000 {
        let count = rng.within(1, 4);
        let (mut bits, mut times) = (Vec::new(), Vec::new());
        for _ in 0..count {
            let time = [rng.below(24), rng.below(60), rng.below(60), rng.below(25)];
            times.extend(time.map(|part| part as u8));
            let start = bits.len();
            bits.extend(word(time));
            // User bits and flags are not looked at, unless they make a mark of their own.
            for i in (0..64).filter(|&i| others(i)) {
                bits[start + i] = rng.below(2) as u8;
            }
        }
        let alone = (0..bits.len() - 79).all(|i| i % 80 == 0 || bits[i + 64..i + 80] != MARK);
        if alone {
            let (answer, out) = reading(&bits, TIME * count + 3);
            assert_eq!(answer, Ok(count));
            assert!(holds(&out, &times));
        }
    }
}
