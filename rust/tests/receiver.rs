//! The row receiver: states that are well formed and states that are not, single steps
//! against a model, and listening against stepping.

mod common;

use common::{feed, packed, refusal, Rng, RowModel};
use siengulot_plain::board::{Event, Heard, Listener, Mode, Receiver, Report};

/// One well-formed state for each mode, with k 3, n 20, Q 6.
fn good_states() -> [Receiver; 4] {
    let hunting = Receiver {
        run: 4,
        ..Receiver::fresh(3, 20, 6).unwrap()
    };
    let ready = Receiver {
        mode: Mode::Ready,
        run: 6,
        ..hunting.clone()
    };
    let counting = Receiver {
        mode: Mode::Counting,
        run: 2,
        run_level: 0,
        left: 2,
        level: 0,
        found: 11,
        bits: packed(&[1; 11]),
        ..hunting.clone()
    };
    let waiting = Receiver {
        mode: Mode::Waiting,
        left: 0,
        ..counting.clone()
    };
    [hunting, ready, counting, waiting]
}

/// The state must be told from a well-formed one, refused, and left as it is.
fn is_ill_formed(state: Receiver) {
    assert!(!state.well_formed(), "{:?}", state);
    let mut lent = state.clone();
    for read in [0, 1, 2] {
        assert_eq!(lent.step(read), Err(refusal(1, 0)));
        assert_eq!(lent.listen(&[read]), Err(refusal(1, 0)));
    }
    assert_eq!(lent.listen(&[]), Err(refusal(1, 0)));
    assert_eq!(lent, state);
}

#[test]
fn good_states_are_well_formed() {
    for state in good_states() {
        assert!(state.well_formed(), "{:?}", state);
        for read in [0, 1] {
            let mut next = state.clone();
            next.step(read).unwrap();
            assert!(next.well_formed());
        }
    }
    for (k, n, q) in [(1, 1, 2), (511, 1_024, 8_191)] {
        assert!(Receiver::fresh(k, n, q).unwrap().well_formed());
    }
}

#[test]
fn settings_out_of_range_are_ill_formed() {
    for state in good_states() {
        for k in [512, usize::MAX] {
            is_ill_formed(Receiver { k, ..state.clone() });
        }
        for n in [0, 1_025, usize::MAX] {
            is_ill_formed(Receiver { n, ..state.clone() });
        }
    }
    let [hunting, ready, counting, waiting] = good_states();
    for state in [&hunting, &ready, &waiting] {
        is_ill_formed(Receiver {
            k: 0,
            ..state.clone()
        });
    }
    for state in [hunting, counting, waiting] {
        // Runs that suit the quiet count, so that nothing but its range is at fault.
        for (q, run) in [(1, 1), (8_192, 1), (usize::MAX, 1)] {
            is_ill_formed(Receiver {
                q,
                run,
                ..state.clone()
            });
        }
    }
    for q in [0, 1, 8_192] {
        is_ill_formed(Receiver {
            q,
            run: q,
            ..ready.clone()
        });
    }
}

#[test]
fn run_is_q_in_ready_and_less_elsewhere() {
    let [hunting, ready, counting, waiting] = good_states();
    assert!(Receiver {
        run: 0,
        ..hunting.clone()
    }
    .well_formed());
    for state in [&counting, &waiting] {
        for run_level in [0, 1] {
            is_ill_formed(Receiver {
                run: 0,
                run_level,
                ..state.clone()
            });
        }
    }
    for state in [hunting, counting, waiting] {
        for run in [6, 7, usize::MAX] {
            is_ill_formed(Receiver {
                run,
                ..state.clone()
            });
        }
        for run in 1..6 {
            assert!(Receiver {
                run,
                ..state.clone()
            }
            .well_formed());
        }
    }
    for run in [0, 5, 7, usize::MAX] {
        is_ill_formed(Receiver {
            run,
            ..ready.clone()
        });
    }
}

#[test]
fn left_is_kept_in_counting_only() {
    let [hunting, ready, counting, waiting] = good_states();
    for state in [hunting, ready, waiting] {
        for left in [1, 3, usize::MAX] {
            is_ill_formed(Receiver {
                left,
                ..state.clone()
            });
        }
    }
    for left in [0, 4, usize::MAX] {
        is_ill_formed(Receiver {
            left,
            ..counting.clone()
        });
    }
    for left in 1..=3 {
        assert!(Receiver {
            left,
            ..counting.clone()
        }
        .well_formed());
    }
}

#[test]
fn found_is_below_n_and_nothing_outside_a_row() {
    let [hunting, ready, counting, waiting] = good_states();
    for state in [hunting, ready] {
        for found in [1, 19, 20, usize::MAX] {
            is_ill_formed(Receiver {
                found,
                ..state.clone()
            });
        }
    }
    for state in [counting, waiting] {
        for found in [20, 21, 1_023, 1_024, usize::MAX] {
            is_ill_formed(Receiver {
                found,
                ..state.clone()
            });
        }
        for found in 11..20 {
            assert!(Receiver {
                found,
                ..state.clone()
            }
            .well_formed());
        }
    }
}

#[test]
fn unused_bit_places_are_clear() {
    for state in good_states() {
        for place in state.found..1_024 {
            let mut stray = state.clone();
            stray.bits[place / 8] |= 1 << (place % 8);
            is_ill_formed(stray);
        }
        // Used places may hold anything.
        for place in 0..state.found {
            let mut other = state.clone();
            other.bits[place / 8] ^= 1 << (place % 8);
            assert!(other.well_formed());
        }
    }
    // Every number of bits found, with the places on both sides of it.
    let long = Receiver {
        n: 1_024,
        ..good_states()[3].clone()
    };
    for found in 0..1_024 {
        let full = Receiver {
            found,
            bits: packed(&vec![1; found]),
            ..long.clone()
        };
        assert!(full.well_formed());
        for place in [found, (found + 8).min(1_023), 1_023] {
            let mut stray = full.clone();
            stray.bits[place / 8] |= 1 << (place % 8);
            assert!(!stray.well_formed());
        }
    }
}

#[test]
fn run_level_is_a_level_and_high_before_the_first_read() {
    for state in good_states() {
        for run_level in [2, 255] {
            let mut other = Receiver {
                run_level,
                ..state.clone()
            };
            if other.mode == Mode::Ready {
                other.level = run_level;
            }
            is_ill_formed(other);
        }
    }
    let [hunting, ready, counting, waiting] = good_states();
    for state in [&hunting, &counting, &waiting] {
        for run_level in [0, 1] {
            assert!(Receiver {
                run_level,
                ..state.clone()
            }
            .well_formed());
        }
    }
    assert!(Receiver {
        run_level: 0,
        level: 0,
        ..ready
    }
    .well_formed());
    is_ill_formed(Receiver {
        run: 0,
        run_level: 0,
        ..hunting
    });
}

#[test]
fn level_is_a_level_high_in_hunting_and_the_runs_in_ready() {
    for state in good_states() {
        for level in [2, 255] {
            is_ill_formed(Receiver {
                level,
                ..state.clone()
            });
        }
    }
    let [hunting, ready, counting, waiting] = good_states();
    for run_level in [0, 1] {
        is_ill_formed(Receiver {
            run_level,
            level: 0,
            ..hunting.clone()
        });
        is_ill_formed(Receiver {
            run_level,
            level: 1 - run_level,
            ..ready.clone()
        });
    }
    for state in [counting, waiting] {
        for level in [0, 1] {
            assert!(Receiver {
                level,
                ..state.clone()
            }
            .well_formed());
        }
    }
}

#[test]
fn fresh_state_is_as_told() {
    let receiver = Receiver::fresh(7, 9, 33).unwrap();
    let told = Receiver {
        k: 7,
        n: 9,
        q: 33,
        mode: Mode::Hunting,
        run: 0,
        run_level: 1,
        left: 0,
        level: 1,
        found: 0,
        bits: [0; 128],
    };
    assert_eq!(receiver, told);
}

#[test]
fn quiet_at_either_level_makes_ready_without_a_report() {
    for quiet in [0, 1] {
        let mut receiver = Receiver::fresh(2, 2, 6).unwrap();
        for run in 1..6 {
            assert_eq!(receiver.step(quiet), Ok(None));
            assert_eq!((receiver.mode, receiver.run), (Mode::Hunting, run));
            assert_eq!((receiver.run_level, receiver.level), (quiet, 1));
        }
        for _ in 0..3 {
            assert_eq!(receiver.step(quiet), Ok(None));
            assert_eq!((receiver.mode, receiver.run), (Mode::Ready, 6));
            assert_eq!((receiver.run_level, receiver.level), (quiet, quiet));
        }
        let mark = 1 - quiet;
        assert_eq!(receiver.step(mark), Ok(None));
        assert_eq!((receiver.mode, receiver.left), (Mode::Counting, 2));
        assert_eq!((receiver.run, receiver.run_level), (1, mark));
        assert_eq!(receiver.level, mark);
    }
}

#[test]
fn another_level_while_hunting_starts_the_run_again() {
    let mut receiver = Receiver::fresh(2, 2, 6).unwrap();
    for (reads, run, level) in [
        ([1, 1, 1, 1, 1], 5, 1),
        ([0, 1, 1, 1, 0], 1, 0),
        ([0, 0, 0, 0, 1], 1, 1),
    ] {
        assert!(feed(&mut receiver, &reads).is_empty());
        assert_eq!(receiver.mode, Mode::Hunting);
        assert_eq!((receiver.run, receiver.run_level), (run, level));
    }
}

#[test]
fn turned_over_reads_bring_the_same_events() {
    let mut rng = Rng::new(17);
    for _ in 0..600 {
        let (k, n, q) = (rng.within(1, 6), rng.within(1, 9), rng.within(2, 14));
        let mut straight = Receiver::fresh(k, n, q).unwrap();
        let mut crossed = straight.clone();
        for read in rng.reads(300) {
            assert_eq!(straight.step(read), crossed.step(1 - read));
        }
    }
}

#[test]
fn broken_while_counting_can_be_without_bits() {
    // A mark, then high reads: with k 9 the quiet comes before the sample.
    let mut receiver = Receiver::fresh(9, 2, 3).unwrap();
    let events = feed(&mut receiver, &[1, 1, 1, 0, 1, 1, 1, 1]);
    assert_eq!(events, [(6, Event::Broken(0))]);
    let ready = Receiver {
        mode: Mode::Ready,
        run: 3,
        ..Receiver::fresh(9, 2, 3).unwrap()
    };
    assert_eq!(receiver, ready);
}

#[test]
fn read_that_fills_the_quiet_is_not_a_sample() {
    // With k 3 and Q 3 the sample of this mark would be the third high read.
    for n in [1, 2] {
        let mut receiver = Receiver::fresh(3, n, 3).unwrap();
        let events = feed(&mut receiver, &[1, 1, 1, 0, 1, 1, 1]);
        assert_eq!(events, [(6, Event::Broken(0))]);
        assert_eq!(receiver.mode, Mode::Ready);
        assert_eq!(receiver.bits, [0; 128]);
    }
}

#[test]
fn broken_while_waiting_tells_the_bits_found() {
    let mut receiver = Receiver::fresh(1, 3, 4).unwrap();
    // Marks at 4, 6: bits 1 and 1, then quiet from the sample at 7 on.
    let events = feed(&mut receiver, &[1, 1, 1, 1, 0, 1, 0, 1, 1, 1, 1]);
    assert_eq!(events, [(10, Event::Broken(2))]);
}

#[test]
fn delivery_leaves_the_run_and_hunts() {
    let mut receiver = Receiver::fresh(2, 1, 5).unwrap();
    let events = feed(&mut receiver, &[1, 1, 1, 1, 1, 0, 1, 1]);
    assert_eq!(events, [(7, Event::Row(packed(&[1])))]);
    let hunting = Receiver {
        run: 2,
        ..Receiver::fresh(2, 1, 5).unwrap()
    };
    assert_eq!(receiver, hunting);
    // The two high reads count towards the next quiet.
    assert!(feed(&mut receiver, &[1, 1]).is_empty());
    assert_eq!(receiver.mode, Mode::Hunting);
    assert!(feed(&mut receiver, &[1]).is_empty());
    assert_eq!(receiver.mode, Mode::Ready);
}

#[test]
fn least_settings() {
    let mut receiver = Receiver::fresh(1, 1, 2).unwrap();
    let reads = [0, 1, 0, 1, 1, 0, 0, 1, 1, 1, 0, 1, 1, 0, 0, 0];
    let events = feed(&mut receiver, &reads);
    // With Q 2 a sample of the mark's own level is quiet, so only a bit 1 is ever found.
    let (row, broken) = (Event::Row(packed(&[1])), Event::Broken(0));
    let expected = [
        (6, broken.clone()),
        (8, broken.clone()),
        (11, row),
        (14, broken),
    ];
    assert_eq!(events, expected);

    // Two bits: the second equal read breaks at once.
    let mut receiver = Receiver::fresh(1, 2, 2).unwrap();
    let events = feed(&mut receiver, &[1, 1, 0, 1, 1, 0, 0, 1, 0, 1, 0]);
    let row = Event::Row(packed(&[1, 1]));
    let expected = [(4, Event::Broken(1)), (6, Event::Broken(0)), (10, row)];
    assert_eq!(events, expected);
}

#[test]
fn steps_as_the_model_does() {
    let mut rng = Rng::new(11);
    for _ in 0..600 {
        let longest = [1, 3, 9, 20][rng.below(4)];
        let (k, n, q) = (rng.within(1, 6), rng.within(1, longest), rng.within(2, 14));
        let reads = rng.reads(300);
        let mut receiver = Receiver::fresh(k, n, q).unwrap();
        let mut model = RowModel::new(k, n, q);
        assert_eq!(receiver, model.receiver());
        for &read in &reads {
            let (next, event) = model.read(read);
            assert_eq!(receiver.step(read), Ok(event));
            assert_eq!(receiver, next.receiver());
            assert!(receiver.well_formed());
            model = next;
        }
    }
}

/// A well-formed state of any kind, whether or not reads lead to it.
fn any_state(rng: &mut Rng) -> Receiver {
    let (k, n, q) = (rng.within(1, 9), rng.within(1, 40), rng.within(2, 12));
    let fresh = Receiver::fresh(k, n, q).unwrap();
    let found = rng.below(n);
    let run = rng.within(1, q - 1);
    let run_level = rng.below(2) as u8;
    let row = Receiver {
        run,
        run_level,
        level: rng.below(2) as u8,
        found,
        bits: packed(&rng.bits(found)),
        ..fresh.clone()
    };
    match rng.below(4) {
        0 if rng.below(4) == 0 => fresh,
        0 => Receiver {
            run,
            run_level,
            ..fresh
        },
        1 => Receiver {
            mode: Mode::Ready,
            run: q,
            run_level,
            level: run_level,
            ..fresh
        },
        2 => Receiver {
            mode: Mode::Counting,
            left: rng.within(1, k),
            ..row
        },
        _ => Receiver {
            mode: Mode::Waiting,
            ..row
        },
    }
}

#[test]
fn every_step_keeps_states_well_formed() {
    let mut rng = Rng::new(12);
    for _ in 0..20_000 {
        let mut receiver = any_state(&mut rng);
        assert!(receiver.well_formed());
        for _ in 0..3 {
            let before = receiver.clone();
            let event = receiver.step(rng.below(2) as u8).unwrap();
            assert!(receiver.well_formed(), "{:?} to {:?}", before, receiver);
            let settings = (before.k, before.n, before.q);
            assert_eq!((receiver.k, receiver.n, receiver.q), settings);
            if let Some(Event::Broken(found)) = event {
                assert_eq!(found, before.found);
            }
        }
    }
}

#[test]
fn listens_as_it_steps() {
    let mut rng = Rng::new(13);
    for _ in 0..3_000 {
        let mut stepped = any_state(&mut rng);
        let mut listened = stepped.clone();
        let length = rng.below(80);
        let mut reads = rng.reads(length);
        if rng.below(4) == 0 && length > 0 {
            reads[rng.below(length)] = 2;
        }
        let before = stepped.clone();
        let mut expected = Ok(Heard {
            taken: length,
            event: None,
        });
        for (place, &read) in reads.iter().enumerate() {
            match stepped.step(read) {
                Ok(None) => {}
                Ok(event) => {
                    let taken = place + 1;
                    expected = Ok(Heard { taken, event });
                    break;
                }
                Err(_) => {
                    expected = Err(refusal(2, place));
                    stepped = before;
                    break;
                }
            }
        }
        assert_eq!(listened.listen(&reads), expected);
        assert_eq!(listened, stepped);
    }
}

#[test]
fn listener_reports_what_steps_do() {
    let mut rng = Rng::new(33);
    for _ in 0..300 {
        let (k, n, q) = (rng.within(1, 9), rng.within(1, 20), rng.within(2, 12));
        let mut stepped = Receiver::fresh(k, n, q).unwrap();
        let mut listener = Listener::new(k, n, q).unwrap();
        let mut row = [0; 128];
        for read in rng.reads(400) {
            let report = match stepped.step(read).unwrap() {
                None => None,
                Some(Event::Row(bits)) => {
                    row = bits;
                    Some(Report::Row)
                }
                Some(Event::Broken(found)) => Some(Report::Broken(found)),
            };
            assert_eq!(listener.read(read), report);
            assert_eq!(*listener.row(), row);
        }
    }
    assert_eq!(Listener::new(0, 1, 2).err(), Some(refusal(1, 0)));
}
