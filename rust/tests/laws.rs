//! Laws on random input: the number of reads, what a read looks at, round trips of
//! captures, and what the counted receiver returns for accepted settings.

mod common;

use common::{
    count_model, counted_model, holds, lent, refusal, through_the_line, warp_model, Accepted, Rng,
};
use siengulot_plain::capture::{self, write_number, Reader, Summary};
use siengulot_plain::counted::{self, Stopped};
use siengulot_plain::settings::{judge, judge_quiet};
use siengulot_plain::{line, sender, Refusal};

#[test]
fn sent_waves_follow_the_cell_rule() {
    let mut rng = Rng::new(21);
    for _ in 0..500 {
        let (a, b, n) = (rng.within(1, 9), rng.within(1, 9), rng.within(1, 12));
        let rows = rng.within(1, 4);
        let leads: Vec<usize> = (0..rows).map(|_| rng.below(9)).collect();
        let bits = rng.bits(rows * n);
        let mut expected = Vec::new();
        for row in 0..rows {
            let mut wave = vec![1; leads[row]];
            let mut level = 1;
            for &bit in &bits[row * n..(row + 1) * n] {
                let opposite = 1 - level;
                wave.extend(vec![opposite; a]);
                level = if bit == 1 { level } else { opposite };
                wave.extend(vec![level; b]);
            }
            let mut out = lent(wave.len() + 3);
            let message = &bits[row * n..(row + 1) * n];
            let sent = sender::message(a, b, leads[row], message, &mut out);
            assert_eq!(sent, Ok(wave.len()));
            assert!(holds(&out, &wave));
            expected.extend(wave);
        }
        let mut out = lent(expected.len() + 3);
        let planned = sender::plan(a, b, n, &leads, &bits, &mut out);
        assert_eq!(planned, Ok(expected.len()));
        assert!(holds(&out, &expected));
    }
}

#[test]
fn smoothing_marks_the_changes() {
    let mut rng = Rng::new(22);
    let (mut known, mut unknown) = (0, 0);
    for _ in 0..2_000 {
        let most = [60, 400][rng.below(2)];
        let length = rng.below(most);
        let wave = if rng.below(2) == 0 {
            rng.reads(length)
        } else {
            rng.runs(length, 90)
        };
        let most = [1, 2, 9, 64][rng.below(4)];
        let g = rng.within(1, most);
        let changes = |i: usize| wave[i] != if i == 0 { 1 } else { wave[i - 1] };
        let expected: Vec<u8> = (0..length)
            .map(|i| {
                // At the cycle itself or at one of the g - 1 before it.
                if (0..g).any(|back| back <= i && changes(i - back)) {
                    2
                } else {
                    wave[i]
                }
            })
            .collect();
        let mut out = lent(length + 2);
        assert_eq!(line::smooth(g, &wave, &mut out), Ok(length));
        assert!(holds(&out, &expected));
        let settled = expected.iter().filter(|&&level| level < 2).count();
        known += settled;
        unknown += length - settled;
    }
    assert!(known > 20_000 && unknown > 20_000, "{} {}", known, unknown);
}

#[test]
fn warp_has_as_many_reads_as_the_law_says() {
    let mut rng = Rng::new(23);
    for _ in 0..4_000 {
        let most = [3, 12, 300, 65_535][rng.below(4)];
        let (w, r) = (rng.within(1, most), rng.within(1, most));
        let (w, r, p) = (w as u64, r as u64, rng.below(w) as u64);
        let length = rng.below(50);
        let cycles = rng.entries(length, 2);
        let count = count_model(length, w, r, p);
        if count > 5_000 {
            continue;
        }
        let mut out = lent(count + 2);
        assert_eq!(line::warp(w, r, p, &cycles, &mut out), Ok(count));
        assert!(out[..count].iter().all(|&read| read <= 2));
        assert!(holds(&out, &out[..count]));
        if count > 0 {
            let mut short = lent(count - 1);
            let refused = line::warp(w, r, p, &cycles, &mut short);
            assert_eq!(refused, Err(refusal(4, 0)));
            assert!(holds(&short, &[]));
        }
    }
}

#[test]
fn reads_look_at_the_cycles_they_share_time_with() {
    let mut rng = Rng::new(24);
    for _ in 0..3_000 {
        let most = [3, 8, 40][rng.below(3)];
        let (w, r) = (rng.within(1, most), rng.within(1, most));
        let (w, r, p) = (w as u64, r as u64, rng.below(w) as u64);
        let length = rng.below(40);
        let cycles = if rng.below(2) == 0 {
            rng.entries(length, 2)
        } else {
            let wave = rng.runs(length, 6);
            let mut smoothed = lent(length);
            line::smooth(rng.within(1, 3), &wave, &mut smoothed).unwrap();
            smoothed
        };
        let expected = warp_model(w, r, p, &cycles);
        let mut out = lent(expected.len() + 2);
        let warped = line::warp(w, r, p, &cycles, &mut out);
        assert_eq!(warped, Ok(expected.len()));
        assert!(holds(&out, &expected));
    }
}

#[test]
fn settling_uses_choices_for_unknown_reads_only() {
    let mut rng = Rng::new(25);
    for _ in 0..500 {
        let (length, many) = (rng.below(40), rng.below(20));
        let (reads, choices) = (rng.entries(length, 2), rng.bits(many));
        let mut expected = reads.clone();
        let unknown = expected.iter_mut().filter(|read| **read == 2);
        for (used, read) in unknown.enumerate() {
            *read = if used < many { choices[used] } else { 0 };
        }
        let mut out = lent(length + 2);
        assert_eq!(line::settle(&reads, &choices, &mut out), Ok(length));
        assert!(holds(&out, &expected));
    }
}

#[test]
fn counted_receiver_follows_its_rule() {
    let mut rng = Rng::new(26);
    let (mut whole, mut stopped) = (0, 0);
    for _ in 0..3_000 {
        let (n, k) = (rng.below(12), rng.within(1, 8));
        let (level, length) = (rng.below(2) as u8, rng.below(100));
        let reads = rng.reads(length);
        let (bits, samples) = counted_model(n, level, k, &reads);
        let current = samples.last().copied().unwrap_or(0);
        let mut out = lent(n + 2);
        let answer = counted::receive(n, level, k, &reads, &mut out);
        assert!(holds(&out, &bits));
        if bits.len() == n {
            assert_eq!(answer, Ok(current));
            whole += 1;
        } else {
            let found = bits.len();
            let refusal = refusal(5, current);
            assert_eq!(answer, Err(Stopped { refusal, found }));
            stopped += 1;
        }
    }
    assert!(whole > 300 && stopped > 300);
}

#[test]
fn counted_receiver_goes_on_where_it_stopped() {
    let mut rng = Rng::new(29);
    for _ in 0..3_000 {
        let (n, m, k) = (rng.below(8), rng.below(8), rng.within(1, 8));
        let (level, length) = (rng.below(2) as u8, rng.below(100));
        let reads = rng.reads(length);
        let (mut all, mut parts) = (lent(n + m), lent(n + m));
        let whole = found(n + m, counted::receive(n + m, level, k, &reads, &mut all));
        let (first, at) = found(n, counted::receive(n, level, k, &reads, &mut parts));
        let held = if first == 0 { level } else { reads[at] };
        let (second, more) = found(
            m,
            counted::receive(m, held, k, &reads[at..], &mut parts[first..first + m]),
        );
        assert_eq!(whole, (first + second, at + more));
        assert_eq!(all[..whole.0], parts[..whole.0]);
    }
}

/// How many bits were found, and the current read.
fn found(n: usize, answer: Result<usize, Stopped>) -> (usize, usize) {
    match answer {
        Ok(at) => (n, at),
        Err(stopped) => (stopped.found, stopped.refusal.place),
    }
}

#[test]
fn accepted_settings_return_every_message() {
    let mut rng = Rng::new(27);
    for _ in 0..2_000 {
        let Accepted {
            a, b, g, k, w, r, ..
        } = Accepted::random(&mut rng);
        assert!(judge(a, b, g, k, w, r).unwrap().accepted);
        let n = rng.below(10);
        let bits = rng.bits(n);
        // The wave may be followed by any number of high cycles.
        let (p1, after) = (rng.below(2) * rng.below(30), rng.below(2) * rng.below(30));
        let mut wave = lent(p1 + n * (a + b));
        sender::message(a, b, p1, &bits, &mut wave).unwrap();
        wave.extend(vec![1; after]);
        let many = rng.below(200);
        let choices = rng.reads(many);
        let p = rng.below(w as usize) as u64;
        let reads = through_the_line(&wave, g, w, r, p, &choices);
        let mut out = lent(n + 2);
        assert!(counted::receive(n, 1, k, &reads, &mut out).is_ok());
        assert!(holds(&out, &bits));
    }
}

#[test]
fn generated_settings_have_no_margin_below_zero() {
    let mut rng = Rng::new(28);
    let mut tight = [0; 5];
    for _ in 0..2_000 {
        let Accepted {
            a,
            b,
            g,
            k,
            w,
            r,
            q,
            p1,
        } = Accepted::random(&mut rng);
        let verdict = judge_quiet(a, b, g, k, w, r, q, p1).unwrap();
        assert!(verdict.accepted);
        for (tight, margin) in tight.iter_mut().zip(verdict.margins) {
            *tight += u32::from(margin == 0);
        }
    }
    assert!(tight.iter().all(|&count| count > 50), "{:?}", tight);
}

#[test]
fn numbers_come_back() {
    for value in (0..=20_000).chain((20_000..=2_097_151).step_by(997)) {
        let mut out = lent(4);
        let length = write_number(value, &mut out).unwrap();
        assert!(holds(&out, &out[..length]));
        let mut reader = Reader::new(&out[..length]).unwrap();
        assert_eq!(reader.number(), Ok(value));
        assert!(reader.at_end());
    }
}

#[test]
fn captures_come_back() {
    let mut rng = Rng::new(29);
    for round in 0..600 {
        let (k, n) = (rng.within(1, 511), rng.within(1, 1_024));
        let q = rng.within(2, 8_191);
        let length = match round % 3 {
            0 => rng.below(5),
            1 => rng.below(400),
            _ => rng.below(40_000),
        };
        let reads = if round % 12 == 2 {
            rng.runs(length, 20_000)
        } else {
            rng.reads(length)
        };
        let mut bytes = lent(length + 9);
        let written = capture::write(k, n, q, &reads, &mut bytes).unwrap();
        assert!(holds(&bytes, &bytes[..written]));
        let mut short = lent(written - 1);
        let refused = capture::write(k, n, q, &reads, &mut short);
        assert_eq!(refused, Err(refusal(4, 0)));
        assert!(holds(&short, &[]));

        let bytes = &bytes[..written];
        let summary = Summary {
            k,
            n,
            q,
            reads: length,
        };
        assert_eq!(capture::check(bytes), Ok(summary));
        let mut out = lent(length + 2);
        assert_eq!(capture::read(bytes, &mut out), Ok(summary));
        assert!(holds(&out, &reads));
        // And the bytes are the only ones for these reads.
        let mut again = lent(written);
        let rewritten = capture::write(k, n, q, &out[..length], &mut again);
        assert_eq!(rewritten, Ok(written));
        assert_eq!(again, bytes);
    }
}

/// A number byte by byte: its value and where the next one starts.
fn number_model(bytes: &[u8], place: usize) -> Result<(usize, usize), Refusal> {
    let mut value = 0;
    for i in 0..3 {
        let byte = match bytes.get(place + i) {
            Some(&byte) => usize::from(byte),
            None => return Err(refusal(6, place)),
        };
        value += (byte % 128) << (7 * i);
        if byte < 128 {
            let short = i == 0 || byte > 0;
            return if short {
                Ok((value, place + i + 1))
            } else {
                Err(refusal(7, place))
            };
        }
    }
    Err(refusal(7, place))
}

/// The check of a capture as one loop over all its numbers.
fn check_model(bytes: &[u8]) -> Result<Summary, Refusal> {
    let mut numbers: Vec<usize> = Vec::new();
    let (mut place, mut last, mut reads) = (0, 0, 0);
    while numbers.len() < 4 || place < bytes.len() {
        let (value, next) = number_model(bytes, place)?;
        let fits = match numbers.len() {
            0 => (1..=511).contains(&value),
            1 => (1..=1_024).contains(&value),
            2 => (2..=8_191).contains(&value),
            3 => value <= 1,
            _ => {
                reads += value;
                value > 0 && reads <= 1_048_576
            }
        };
        if !fits {
            return Err(refusal(8, place));
        }
        numbers.push(value);
        last = place;
        place = next;
    }
    if numbers.len() == 4 && numbers[3] == 0 {
        return Err(refusal(8, last));
    }
    let (k, n, q) = (numbers[0], numbers[1], numbers[2]);
    Ok(Summary { k, n, q, reads })
}

#[test]
fn random_bytes_are_refused_or_come_back() {
    let mut rng = Rng::new(30);
    let mut good = 0;
    for _ in 0..30_000 {
        let length = rng.below(12);
        let mut bytes = rng.entries(length, 255);
        for byte in &mut bytes {
            match rng.below(4) {
                0 => *byte &= 0x81,
                1 => *byte &= 0x07,
                2 => *byte &= 0x7f,
                _ => {}
            }
        }
        let checked = capture::check(&bytes);
        assert_eq!(checked, check_model(&bytes));
        let mut out = lent(MAX_OUT);
        match checked {
            Ok(summary) if summary.reads <= MAX_OUT => {
                good += 1;
                assert_eq!(capture::read(&bytes, &mut out), checked);
                let Summary { k, n, q, reads } = summary;
                let mut again = lent(length);
                let written = capture::write(k, n, q, &out[..reads], &mut again);
                assert_eq!(written, Ok(length));
                assert_eq!(again, bytes);
            }
            Ok(_) => {
                assert_eq!(capture::read(&bytes, &mut out), Err(refusal(4, 0)));
                assert!(holds(&out, &[]));
            }
            Err(refused) => {
                assert!((6..=8).contains(&refused.number) && refused.place <= length);
                assert_eq!(capture::read(&bytes, &mut out), Err(refused));
                assert!(holds(&out, &[]));
            }
        }
    }
    assert!(good > 200, "{}", good);
}

const MAX_OUT: usize = 600;
