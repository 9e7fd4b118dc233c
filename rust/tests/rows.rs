//! The rows program.

mod common;

use common::{lent, Rng, RowModel};
use siengulot_plain::board::Event;
use siengulot_plain::capture;
use siengulot_plain::rows::output;

const EXAMPLE: [u8; 11] = [2, 2, 6, 1, 6, 2, 1, 3, 6, 2, 6];

/// The output as the model of the row receiver and the whole list of reads give it.
fn model(input: &[u8]) -> String {
    if input.len() > 65_536 {
        return "refused 3 at 0\n".to_string();
    }
    let summary = match capture::check(input) {
        Ok(summary) => summary,
        Err(refused) => return format!("refused {} at {}\n", refused.number, refused.place),
    };
    let mut reads = lent(summary.reads);
    capture::read(input, &mut reads).unwrap();
    let mut text = "read event bits\n".to_string();
    let mut rows = 0;
    let mut model = RowModel::new(summary.k, summary.n, summary.q);
    for (place, &read) in reads.iter().enumerate() {
        let (next, event) = model.read(read);
        model = next;
        match event {
            None => {}
            Some(Event::Row(bits)) => {
                rows += 1;
                let digits: String = (0..summary.n)
                    .map(|i| {
                        if bits[i / 8] & 1 << (i % 8) == 0 {
                            '0'
                        } else {
                            '1'
                        }
                    })
                    .collect();
                text += &format!("{} row {}\n", place, digits);
            }
            Some(Event::Broken(found)) => text += &format!("{} broken {}\n", place, found),
        }
    }
    text + &format!("end {} rows {}\n", summary.reads, rows)
}

#[test]
fn example_byte_for_byte() {
    let expected = "read event bits\n11 row 10\n25 broken 1\nend 26 rows 1\n";
    assert_eq!(output(&EXAMPLE), expected.as_bytes());
}

#[test]
fn capture_of_no_reads() {
    let expected = b"read event bits\nend 0 rows 0\n";
    assert_eq!(output(&[2, 2, 6, 1]), expected);
}

#[test]
fn row_in_progress_at_the_end_is_not_told() {
    let expected = b"read event bits\nend 9 rows 0\n";
    assert_eq!(output(&[2, 2, 6, 1, 6, 2, 1]), expected);
}

#[test]
fn bad_captures_give_one_line() {
    let cases: [(&[u8], &str); 8] = [
        (&[], "refused 6 at 0\n"),
        (&[2, 2, 6], "refused 6 at 3\n"),
        (&[2, 2, 6, 1, 6, 0x80], "refused 6 at 5\n"),
        (&[2, 0x80, 0x00], "refused 7 at 1\n"),
        (&[2, 2, 6, 0], "refused 8 at 3\n"),
        (&[2, 2, 6, 1, 0], "refused 8 at 4\n"),
        (&[0], "refused 8 at 0\n"),
        // A fault after a whole row still comes first.
        (
            &[2, 2, 6, 1, 6, 2, 1, 3, 6, 2, 6, 0x81, 0x80, 0x40],
            "refused 8 at 11\n",
        ),
    ];
    for (input, expected) in cases {
        assert_eq!(output(input), expected.as_bytes());
    }
}

#[test]
fn input_limit_comes_before_any_other_fault() {
    let mut long = vec![1; 65_537];
    assert_eq!(output(&long), b"refused 3 at 0\n");
    long[0] = 0;
    assert_eq!(output(&long), b"refused 3 at 0\n");
    assert_eq!(output(&long[..65_536]), b"refused 8 at 0\n");
    assert_eq!(output(&vec![0; 2_000_000]), b"refused 3 at 0\n");
}

#[test]
fn busiest_captures() {
    // Least settings and short runs: an event in every few reads, at the input's limit.
    let kinds: [&[u8]; 4] = [&[2, 2], &[2, 1], &[3, 1, 1, 1], &[30, 2]];
    for n in [1, 2] {
        for runs in kinds {
            let mut input = vec![1, n, 2, 1];
            input.extend(runs.iter().cycle().take(65_532));
            let printed = output(&input);
            // A run brings one line at most, with a place below 1,048,576 and fewer than 10 bits.
            assert!(printed.len() <= 65_532 * 17 + 16 + 19);
            assert!(printed == model(&input).as_bytes());
        }
    }
    // Long rows.
    let mut input = vec![1, 0x80, 0x08, 0x80, 0x01, 1, 0x80, 0x01];
    input.extend([1; 65_528]);
    let printed = output(&input);
    assert!(printed == model(&input).as_bytes());
}

#[test]
fn longest_captures_by_reads() {
    for input in [
        &[1, 1, 2, 1, 0x80, 0x80, 0x40][..],
        &[1, 1, 2, 0, 0x80, 0x80, 0x40],
        &[0xff, 0x03, 0x80, 0x08, 0xff, 0x3f, 1, 0xff, 0xff, 0x3f, 1],
    ] {
        assert_eq!(output(input), b"read event bits\nend 1048576 rows 0\n");
    }
}

#[test]
fn prints_what_the_model_gives() {
    let mut rng = Rng::new(51);
    for _ in 0..800 {
        let (k, n, q) = (rng.within(1, 6), rng.within(1, 12), rng.within(2, 12));
        let length = rng.below(2_000);
        let longest = [3, 8, 20][rng.below(3)];
        let reads = rng.runs(length, longest);
        let mut bytes = lent(length + 7);
        let written = capture::write(k, n, q, &reads, &mut bytes).unwrap();
        bytes.truncate(written);
        match rng.below(6) {
            0 => {
                let place = rng.below(written);
                bytes[place] ^= 1 << rng.below(8);
            }
            1 => bytes.truncate(rng.below(written)),
            _ => {}
        }
        assert_eq!(output(&bytes), model(&bytes).as_bytes());
    }
}
