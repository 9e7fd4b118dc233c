//! Refusals of every operation: which number, which place, in which order, and that lent
//! outputs and states are left alone.

mod common;

use common::{holds, lent, packed, refusal};
use siengulot_plain::board::{Event, Heard, Receiver};
use siengulot_plain::capture::{self, write_number, Reader, Summary};
use siengulot_plain::counted::{self, Stopped};
use siengulot_plain::settings::{judge, judge_quiet, quiet_margins, MAX_CAPTURE, MAX_LIST};
use siengulot_plain::{line, sender, Refusal};

/// Lends `length` bytes, and asserts that the operation refuses and touches none of them.
fn refuses<T: std::fmt::Debug>(
    length: usize,
    number: u8,
    place: usize,
    operation: impl FnOnce(&mut [u8]) -> Result<T, Refusal>,
) {
    let mut out = lent(length);
    assert_eq!(operation(&mut out).unwrap_err(), refusal(number, place));
    assert!(holds(&out, &[]));
}

#[test]
fn judge_refuses_each_setting_out_of_range() {
    for bad in [0, 256, usize::MAX] {
        assert_eq!(judge(bad, 13, 1, 10, 100, 100), Err(refusal(1, 0)));
        assert_eq!(judge(5, bad, 1, 10, 100, 100), Err(refusal(1, 0)));
    }
    for bad in [0, 512, usize::MAX] {
        assert_eq!(judge(5, 13, 1, bad, 100, 100), Err(refusal(1, 0)));
    }
    for bad in [0, 65_536, u64::MAX] {
        assert_eq!(judge(5, 13, 1, 10, bad, 100), Err(refusal(1, 0)));
        assert_eq!(judge(5, 13, 1, 10, 100, bad), Err(refusal(1, 0)));
    }
    for bad in [0, 65, usize::MAX] {
        assert_eq!(judge(5, 13, bad, 10, 100, 100), Err(refusal(1, 0)));
    }
    for (a, b, g, k, w, r) in [(1, 1, 1, 1, 1, 1), (255, 255, 64, 511, 65_535, 65_535)] {
        assert!(judge(a, b, g, k, w, r).is_ok());
    }
}

#[test]
fn quiet_judge_refuses_each_setting_out_of_range() {
    for bad in [0, 256] {
        for (a, b) in [(bad, 13), (5, bad)] {
            let refused = judge_quiet(a, b, 1, 10, 100, 100, 21, 23);
            assert_eq!(refused, Err(refusal(1, 0)));
            let refused = quiet_margins(a, b, 1, 100, 100, 21, 23);
            assert_eq!(refused, Err(refusal(1, 0)));
        }
    }
    for bad in [0, 65] {
        let refused = judge_quiet(5, 13, bad, 10, 100, 100, 21, 23);
        assert_eq!(refused, Err(refusal(1, 0)));
        let refused = quiet_margins(5, 13, bad, 100, 100, 21, 23);
        assert_eq!(refused, Err(refusal(1, 0)));
    }
    for bad in [0, 512] {
        let refused = judge_quiet(5, 13, 1, bad, 100, 100, 21, 23);
        assert_eq!(refused, Err(refusal(1, 0)));
    }
    for bad in [0, 65_536] {
        for (w, r) in [(bad, 100), (100, bad)] {
            let refused = judge_quiet(5, 13, 1, 10, w, r, 21, 23);
            assert_eq!(refused, Err(refusal(1, 0)));
            let refused = quiet_margins(5, 13, 1, w, r, 21, 23);
            assert_eq!(refused, Err(refusal(1, 0)));
        }
    }
    for (q, p1) in [(1, 23), (0, 23), (8_192, 23), (21, 65_536)] {
        let refused = judge_quiet(5, 13, 1, 10, 100, 100, q, p1);
        assert_eq!(refused, Err(refusal(1, 0)));
        let refused = quiet_margins(5, 13, 1, 100, 100, q, p1);
        assert_eq!(refused, Err(refusal(1, 0)));
    }
    for (q, p1) in [(2, 0), (8_191, 65_535)] {
        assert!(judge_quiet(5, 13, 1, 10, 100, 100, q, p1).is_ok());
        assert!(quiet_margins(5, 13, 1, 100, 100, q, p1).is_ok());
    }
}

#[test]
fn message_refuses_settings() {
    let bits = [1, 0];
    for (a, b, p1) in [
        (0, 3, 2),
        (256, 3, 2),
        (2, 0, 2),
        (2, 256, 2),
        (2, 3, 65_536),
        (2, 3, usize::MAX),
    ] {
        refuses(20, 1, 0, |out| sender::message(a, b, p1, &bits, out));
    }
}

#[test]
fn message_refuses_in_order() {
    let mut long = vec![0; 1_025];
    long[7] = 2;
    refuses(0, 1, 0, |out| sender::message(0, 3, 2, &long, out));
    refuses(0, 3, 0, |out| sender::message(2, 3, 2, &long, out));
    refuses(0, 2, 7, |out| sender::message(2, 3, 2, &long[..1_024], out));
    refuses(20, 2, 1, |out| sender::message(2, 3, 2, &[0, 3, 2], out));
    refuses(11, 4, 0, |out| sender::message(2, 3, 2, &[1, 0], out));
    refuses(0, 4, 0, |out| sender::message(2, 3, 1, &[], out));
}

#[test]
fn message_may_be_empty() {
    let mut out = lent(4);
    assert_eq!(sender::message(2, 3, 3, &[], &mut out), Ok(3));
    assert!(holds(&out, &[1, 1, 1]));
    let mut out = lent(0);
    assert_eq!(sender::message(2, 3, 0, &[], &mut out), Ok(0));
}

#[test]
fn plan_refuses_settings_and_lists_that_do_not_fit() {
    let bits = [1, 0, 0, 1];
    for (a, b, n) in [
        (0, 3, 2),
        (256, 3, 2),
        (2, 0, 2),
        (2, 256, 2),
        (2, 3, 0),
        (2, 3, 1_025),
        (2, 3, 1),
        (2, 3, 3),
        (2, 3, usize::MAX),
    ] {
        refuses(99, 1, 0, |out| sender::plan(a, b, n, &[2, 2], &bits, out));
    }
    let lists: [(&[usize], &[u8]); 6] = [
        (&[], &[]),
        (&[], &bits),
        (&[2, 2], &bits[..3]),
        (&[2], &bits),
        (&[2, 65_536], &bits),
        (&[65_536, 2], &bits),
    ];
    for (leads, bits) in lists {
        refuses(99, 1, 0, |out| sender::plan(2, 3, 2, leads, bits, out));
    }
}

#[test]
fn plan_refuses_in_order() {
    let many = vec![0; 1_025];
    let bits = vec![2; 1_025];
    // 1 before 3, also for what stands after the rows that are too many.
    let mut pads = many.clone();
    pads[1_024] = 65_536;
    refuses(0, 1, 0, |out| sender::plan(1, 1, 1, &pads, &bits, out));
    refuses(0, 1, 0, |out| sender::plan(1, 1, 1, &many, &bits[1..], out));
    refuses(0, 1, 0, |out| sender::plan(1, 1, 1, &many[1..], &bits, out));
    // 3 before 2, for too many rows and for too long a wave.
    refuses(0, 3, 0, |out| sender::plan(1, 1, 1, &many, &bits, out));
    let wide = [65_535; 16];
    refuses(0, 3, 0, |out| {
        sender::plan(1, 1, 1, &wide, &bits[..16], out)
    });
    // 2 before 4, at the place in the flat list.
    let few = &many[..3];
    refuses(0, 2, 4, |out| {
        sender::plan(1, 1, 2, few, &[0, 1, 1, 0, 2, 9], out)
    });
    refuses(11, 4, 0, |out| {
        sender::plan(1, 1, 2, few, &[0, 1, 1, 0, 1, 1], out)
    });
}

#[test]
fn smooth_refuses_in_order() {
    let mut long = vec![1; MAX_LIST + 1];
    long[3] = 2;
    for g in [0, 65, usize::MAX] {
        refuses(0, 1, 0, |out| line::smooth(g, &long, out));
        refuses(9, 1, 0, |out| line::smooth(g, &[1, 0], out));
    }
    refuses(0, 3, 0, |out| line::smooth(64, &long, out));
    refuses(0, 2, 2, |out| line::smooth(1, &long[1..4], out));
    refuses(0, 2, 3, |out| line::smooth(1, &long[..9], out));
    refuses(9, 2, 1, |out| line::smooth(1, &[1, 255, 2], out));
    refuses(2, 4, 0, |out| line::smooth(1, &[1, 0, 1], out));
    assert_eq!(line::smooth(1, &[], &mut []), Ok(0));
}

#[test]
fn warp_refuses_settings() {
    for cycles in [&[1, 2, 0][..], &[]] {
        for (w, r, p) in [
            (0, 4, 0),
            (65_536, 4, 0),
            (4, 0, 0),
            (4, 65_536, 0),
            (4, 4, 4),
            (4, 4, 5),
            (4, 4, u64::MAX),
            (u64::MAX, u64::MAX, 0),
        ] {
            refuses(9, 1, 0, |out| line::warp(w, r, p, cycles, out));
        }
    }
}

#[test]
fn warp_refuses_in_order() {
    let mut long = vec![1; MAX_LIST + 1];
    long[0] = 3;
    refuses(0, 1, 0, |out| line::warp(4, 4, 4, &long, out));
    refuses(0, 3, 0, |out| line::warp(1, 65_535, 0, &long, out));
    // 17 cycles of 65,535 give more reads of one unit than a list holds, 16 do not.
    refuses(0, 3, 0, |out| line::warp(65_535, 1, 0, &long[..17], out));
    refuses(0, 2, 0, |out| line::warp(65_535, 1, 0, &long[..16], out));
    refuses(0, 4, 0, |out| line::warp(65_535, 1, 0, &long[1..17], out));
    refuses(0, 2, 2, |out| line::warp(4, 4, 0, &[0, 2, 4, 3], out));
    refuses(3, 4, 0, |out| line::warp(4, 4, 0, &[0, 2, 1, 1], out));
    assert_eq!(line::warp(4, 4, 3, &[], &mut []), Ok(0));
}

#[test]
fn settle_refuses_in_order() {
    let mut long = vec![1; MAX_LIST + 1];
    long[5] = 3;
    refuses(0, 3, 0, |out| line::settle(&long, &[2], out));
    refuses(0, 3, 0, |out| line::settle(&[3], &long, out));
    // The reads are searched before the choices, and every choice is searched.
    refuses(0, 2, 1, |out| line::settle(&[2, 3, 0], &[2], out));
    refuses(0, 2, 2, |out| line::settle(&[0, 1], &[0, 1, 2, 3], out));
    refuses(9, 2, 0, |out| line::settle(&[], &[2], out));
    refuses(1, 4, 0, |out| line::settle(&[2, 2], &[1], out));
    assert_eq!(line::settle(&[], &[1], &mut []), Ok(0));
}

/// As [`refuses`], for the counted receiver's answer.
fn counted_refuses(
    length: usize,
    number: u8,
    place: usize,
    operation: impl FnOnce(&mut [u8]) -> Result<usize, Stopped>,
) {
    refuses(length, number, place, |out| {
        operation(out).map_err(|stopped| {
            assert_eq!(stopped.found, 0);
            stopped.refusal
        })
    });
}

#[test]
fn counted_receiver_refuses_settings() {
    for n in [0, 2] {
        for (level, k) in [(2, 3), (255, 3), (1, 0), (1, 512), (1, usize::MAX)] {
            counted_refuses(9, 1, 0, |out| {
                counted::receive(n, level, k, &[1, 0, 1, 1, 0], out)
            });
        }
    }
    counted_refuses(2_000, 1, 0, |out| {
        counted::receive(1_025, 1, 3, &[1, 0], out)
    });
}

#[test]
fn counted_receiver_refuses_in_order() {
    let mut long = vec![1; MAX_LIST + 1];
    long[5] = 2;
    counted_refuses(0, 1, 0, |out| counted::receive(3, 2, 3, &long, out));
    counted_refuses(0, 3, 0, |out| counted::receive(3, 1, 3, &long, out));
    counted_refuses(0, 2, 4, |out| counted::receive(3, 1, 3, &long[1..], out));
    counted_refuses(0, 2, 5, |out| counted::receive(0, 1, 3, &long[..7], out));
    counted_refuses(2, 4, 0, |out| counted::receive(3, 1, 3, &[], out));
    counted_refuses(3, 5, 0, |out| counted::receive(3, 1, 3, &[], out));
    // No mark; a mark but no sample; the same one read later.
    counted_refuses(3, 5, 0, |out| counted::receive(1, 1, 2, &[1, 1, 1], out));
    counted_refuses(3, 5, 0, |out| counted::receive(1, 1, 2, &[1, 0, 1], out));
    let mut out = lent(3);
    assert_eq!(counted::receive(1, 1, 2, &[1, 0, 1, 1], &mut out), Ok(3));
    assert!(holds(&out, &[1]));
}

#[test]
fn fresh_receiver_refuses_settings() {
    for (k, n, q) in [
        (0, 2, 6),
        (512, 2, 6),
        (2, 0, 6),
        (2, 1_025, 6),
        (2, 2, 0),
        (2, 2, 1),
        (2, 2, 8_192),
        (usize::MAX, usize::MAX, usize::MAX),
    ] {
        let refused = Receiver::fresh(k, n, q);
        assert_eq!(refused, Err(refusal(1, 0)));
        let state = refused.unwrap_or(Receiver::REFUSED);
        assert!(!state.well_formed());
        let numbers = [state.k, state.n, state.q, state.run, state.left];
        assert_eq!(numbers, [0; 5]);
        assert_eq!((state.level, state.found, state.bits), (0, 0, [0; 128]));
    }
}

#[test]
fn step_refuses_in_order() {
    let mut bad = Receiver::fresh(2, 2, 6).unwrap();
    bad.left = 1;
    let before = bad.clone();
    for read in [0, 1, 2] {
        assert_eq!(bad.step(read), Err(refusal(1, 0)));
        assert_eq!(bad, before);
    }
    let mut good = Receiver::fresh(2, 2, 6).unwrap();
    let before = good.clone();
    for read in [2, 3, 255] {
        assert_eq!(good.step(read), Err(refusal(2, 0)));
        assert_eq!(good, before);
    }
}

#[test]
fn listen_refuses_in_order() {
    let mut long = vec![1; MAX_LIST + 1];
    long[5] = 2;
    let mut bad = Receiver::fresh(2, 2, 6).unwrap();
    bad.run = 6;
    let before = bad.clone();
    assert_eq!(bad.listen(&long), Err(refusal(1, 0)));
    assert_eq!(bad.listen(&[]), Err(refusal(1, 0)));
    assert_eq!(bad, before);

    let mut good = Receiver::fresh(2, 2, 6).unwrap();
    let before = good.clone();
    assert_eq!(good.listen(&long), Err(refusal(3, 0)));
    assert_eq!(good.listen(&long[1..]), Err(refusal(2, 4)));
    assert_eq!(good, before);
}

#[test]
fn listen_looks_no_further_than_the_event() {
    // Six high, a mark, its sample two later, and so on: the row 1 0 comes with read 11.
    let reads = [1, 1, 1, 1, 1, 1, 0, 0, 1, 0, 0, 0, 2];
    let mut receiver = Receiver::fresh(2, 2, 6).unwrap();
    let heard = Heard {
        taken: 12,
        event: Some(Event::Row(packed(&[1, 0]))),
    };
    assert_eq!(receiver.listen(&reads), Ok(heard));
    let three_low = Receiver {
        run: 3,
        run_level: 0,
        ..Receiver::fresh(2, 2, 6).unwrap()
    };
    assert_eq!(receiver, three_low);

    // One read fewer before the bad one: it is met, and nothing has been done.
    let mut receiver = Receiver::fresh(2, 2, 6).unwrap();
    let early = [1, 1, 1, 1, 1, 1, 0, 0, 1, 0, 0, 2, 0];
    assert_eq!(receiver.listen(&early), Err(refusal(2, 11)));
    assert_eq!(receiver, Receiver::fresh(2, 2, 6).unwrap());
}

#[test]
fn number_reader_refuses_and_stays() {
    let cases: [(&[u8], u8); 10] = [
        (&[], 6),
        (&[0x80], 6),
        (&[0xff], 6),
        (&[0x80, 0x80], 6),
        (&[0xff, 0x81], 6),
        (&[0x80, 0x00], 7),
        (&[0x85, 0x00, 0x01], 7),
        (&[0x80, 0x80, 0x00], 7),
        (&[0x80, 0x80, 0x80], 7),
        (&[0xff, 0xff, 0xff, 0x01], 7),
    ];
    for (bytes, number) in cases {
        let mut whole = vec![0x05, 0x81, 0x01];
        whole.extend_from_slice(bytes);
        let mut reader = Reader::new(&whole).unwrap();
        assert_eq!(reader.number(), Ok(5));
        assert_eq!(reader.number(), Ok(129));
        for _ in 0..2 {
            assert_eq!(reader.number(), Err(refusal(number, 3)));
            assert_eq!(reader.place(), 3);
            assert_eq!(reader.at_end(), bytes.is_empty());
        }
    }
    let long = vec![1; MAX_CAPTURE + 1];
    assert_eq!(Reader::new(&long).unwrap_err(), refusal(3, 0));
    assert!(Reader::new(&long[1..]).is_ok());
}

#[test]
fn number_before_a_zero_byte_is_complete() {
    let mut reader = Reader::new(&[0x81, 0x05, 0x00, 0x00]).unwrap();
    assert_eq!(reader.number(), Ok(641));
    assert_eq!(reader.number(), Ok(0));
    assert_eq!(reader.number(), Ok(0));
    assert!(reader.at_end());
}

#[test]
fn number_writer_refuses() {
    refuses(9, 1, 0, |out| write_number(2_097_152, out));
    refuses(0, 1, 0, |out| write_number(usize::MAX, out));
    for (value, length) in [(0, 1), (127, 1), (128, 2), (16_384, 3), (2_097_151, 3)] {
        refuses(length - 1, 4, 0, |out| write_number(value, out));
        let mut out = lent(length + 1);
        assert_eq!(write_number(value, &mut out), Ok(length));
        assert!(holds(&out, &out[..length]));
    }
}

#[test]
fn capture_faults_by_number_and_place() {
    let cases: [(&[u8], u8, usize); 40] = [
        // The end before or inside each of the first four numbers.
        (&[], 6, 0),
        (&[2], 6, 1),
        (&[2, 2], 6, 2),
        (&[2, 2, 6], 6, 3),
        (&[0x82], 6, 0),
        (&[2, 0x82], 6, 1),
        (&[2, 2, 0x86], 6, 2),
        (&[2, 2, 6, 0x81], 6, 3),
        (&[0x82, 0x01, 0x82, 0x01], 6, 4),
        // Not in shortest form, or too long.
        (&[0x82, 0x00], 7, 0),
        (&[2, 0x82, 0x80, 0x00], 7, 1),
        (&[2, 2, 0x86, 0x80, 0x80], 7, 2),
        (&[2, 2, 6, 0x81, 0x00], 7, 3),
        // Out of range for the place.
        (&[0], 8, 0),
        (&[0x80, 0x04], 8, 0),
        (&[2, 0], 8, 1),
        (&[2, 0x81, 0x08], 8, 1),
        (&[2, 2, 0], 8, 2),
        (&[2, 2, 1], 8, 2),
        (&[2, 2, 0x80, 0x40], 8, 2),
        (&[2, 2, 6, 2], 8, 3),
        (&[2, 2, 6, 0x80, 0x01], 8, 3),
        // From the left: an early fault is told before a later one of another kind.
        (&[0, 0x80, 0x00], 8, 0),
        (&[2, 0, 0x80], 8, 1),
        (&[0x80, 0x00, 0], 7, 0),
        // Level 0 and no run; with a number cut off, it is that number's fault.
        (&[2, 2, 6, 0], 8, 3),
        (&[2, 2, 0x86, 0x01, 0], 8, 4),
        (&[2, 2, 6, 0, 0x80], 6, 4),
        (&[2, 2, 6, 0, 0x80, 0x80], 6, 4),
        // Runs.
        (&[2, 2, 6, 0, 0], 8, 4),
        (&[2, 2, 6, 1, 0], 8, 4),
        (&[2, 2, 6, 1, 5, 0, 0x80], 8, 5),
        (&[2, 2, 6, 1, 5, 0x80], 6, 5),
        (&[2, 2, 6, 1, 5, 0x80, 0x00], 7, 5),
        (&[2, 2, 6, 1, 5, 0x80, 0x80, 0x80, 0], 7, 5),
        (&[2, 2, 6, 1, 0x81, 0x80, 0x40, 0x80], 8, 4),
        (&[2, 2, 6, 1, 0xff, 0xff, 0x7f], 8, 4),
        (&[2, 2, 6, 1, 0x80, 0x80, 0x40, 1], 8, 7),
        (&[2, 2, 6, 1, 0xff, 0xff, 0x3f, 1, 1, 0], 8, 8),
        (&[2, 2, 6, 1, 0xff, 0xff, 0x3f, 2], 8, 7),
    ];
    for (bytes, number, place) in cases {
        let refused = Err(refusal(number, place));
        assert_eq!(capture::check(bytes), refused, "{:x?}", bytes);
        // 4 comes last, so the output's length does not matter.
        for length in [0, 9] {
            refuses(length, number, place, |out| capture::read(bytes, out));
        }
    }
}

#[test]
fn capture_limits_come_first_and_output_last() {
    let long = vec![0; MAX_CAPTURE + 1];
    assert_eq!(capture::check(&long), Err(refusal(3, 0)));
    refuses(0, 3, 0, |out| capture::read(&long, out));
    assert_eq!(capture::check(&long[1..]), Err(refusal(8, 0)));

    let summary = Summary {
        k: 2,
        n: 2,
        q: 6,
        reads: 5,
    };
    let bytes = [2, 2, 6, 0, 2, 3];
    assert_eq!(capture::check(&bytes), Ok(summary));
    refuses(4, 4, 0, |out| capture::read(&bytes, out));
    let mut out = lent(7);
    assert_eq!(capture::read(&bytes, &mut out), Ok(summary));
    assert!(holds(&out, &[0, 0, 1, 1, 1]));
}

#[test]
fn capture_writer_refuses_in_order() {
    let mut long = vec![1; MAX_LIST + 1];
    long[5] = 2;
    for (k, n, q) in [
        (0, 2, 6),
        (512, 2, 6),
        (2, 0, 6),
        (2, 1_025, 6),
        (2, 2, 1),
        (2, 2, 8_192),
    ] {
        refuses(0, 1, 0, |out| capture::write(k, n, q, &long, out));
        refuses(9, 1, 0, |out| capture::write(k, n, q, &[], out));
    }
    refuses(0, 3, 0, |out| capture::write(2, 2, 6, &long, out));
    refuses(0, 2, 4, |out| capture::write(2, 2, 6, &long[1..], out));
    refuses(5, 4, 0, |out| capture::write(2, 2, 6, &[0, 0, 1], out));
    refuses(3, 4, 0, |out| capture::write(2, 2, 6, &[], out));
    let mut out = lent(8);
    assert_eq!(capture::write(2, 2, 6, &[0, 0, 1], &mut out), Ok(6));
    assert!(holds(&out, &[2, 2, 6, 0, 2, 1]));
    let mut out = lent(8);
    assert_eq!(capture::write(2, 2, 6, &[], &mut out), Ok(4));
    assert!(holds(&out, &[2, 2, 6, 1]));
}
