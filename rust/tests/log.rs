//! The log: which record an event takes, what clearing and listing do, the refusals, and long sequences of calls beside
//! a list of events.

use siengulot_plain::log::{clear, list, log_event, Event, Log};
use siengulot_plain::Refusal;

const RECORDS: usize = 64;
const BYTES: usize = 128;

/// A log that owns its lists.
#[derive(Clone, Debug, PartialEq)]
struct Lists {
    numbers: Vec<u64>,
    bits: Vec<u8>,
    counts: Vec<usize>,
    broken: Vec<u8>,
    free: Vec<u8>,
    broken_count: usize,
}

impl Lists {
    fn empty() -> Lists {
        Lists {
            numbers: vec![0; RECORDS],
            bits: vec![0; RECORDS * BYTES],
            counts: vec![0; RECORDS],
            broken: vec![0; RECORDS],
            free: vec![1; RECORDS],
            broken_count: 0,
        }
    }

    fn log(&mut self) -> Log<'_> {
        Log {
            numbers: &mut self.numbers,
            bits: &mut self.bits,
            counts: &mut self.counts,
            broken: &mut self.broken,
            free: &mut self.free,
            broken_count: &mut self.broken_count,
        }
    }

    fn add(&mut self, number: u64) -> Result<usize, Refusal> {
        let bits = [number as u8; BYTES];
        log_event(
            Event {
                number,
                bits: &bits,
                count: number as usize % 1_025,
                broken: (number % 3 == 0).into(),
            },
            &mut self.log(),
        )
    }

    fn broken_records(&self) -> usize {
        (0..RECORDS)
            .filter(|&place| self.free[place] == 0 && self.broken[place] > 0)
            .count()
    }

    fn listed(&self) -> Vec<usize> {
        let mut places = [usize::MAX; RECORDS];
        let count = list(&self.numbers, &self.free, &mut places).expect("room");
        assert!(places[count..].iter().all(|&place| place == usize::MAX));
        places[..count].to_vec()
    }

    fn shown(&self) -> Vec<u64> {
        self.listed()
            .iter()
            .map(|&place| self.numbers[place])
            .collect()
    }
}

fn refusal(number: u8) -> Refusal {
    Refusal { number, place: 0 }
}

#[test]
fn events_fill_the_list_and_then_take_the_oldest() {
    let mut lists = Lists::empty();
    for number in 0..200 {
        assert_eq!(lists.add(number), Ok(number as usize % RECORDS));
        let first = number.saturating_sub(63);
        assert_eq!(lists.shown(), (first..=number).collect::<Vec<_>>());
    }
}

#[test]
fn a_cleared_record_is_the_next_to_be_taken() {
    let mut lists = Lists::empty();
    for number in 10..90 {
        lists.add(number).expect("room");
    }
    for place in [40, 7, 63] {
        assert_eq!(clear(place, &mut lists.log()), Ok(()));
        assert_eq!(lists.bits[place * BYTES..][..BYTES], [0; BYTES]);
        assert_eq!([lists.numbers[place], lists.counts[place] as u64], [0, 0]);
        assert_eq!([lists.broken[place], lists.free[place]], [0, 1]);
    }
    let before = lists.clone();
    assert_eq!(clear(7, &mut lists.log()), Ok(()));
    assert_eq!(lists, before);
    assert_eq!(lists.add(100), Ok(7));
    assert_eq!(lists.add(101), Ok(40));
    assert_eq!(lists.add(102), Ok(63));
    // The oldest left is number 26, which stood at place 16.
    assert_eq!(lists.add(103), Ok(16));
}

#[test]
fn a_broken_event_has_no_bits() {
    let mut lists = Lists::empty();
    lists.bits.fill(0xff);
    let event = Event {
        number: 5,
        bits: &[0xaa; BYTES],
        count: 1_024,
        broken: 200,
    };
    assert_eq!(log_event(event, &mut lists.log()), Ok(0));
    assert_eq!(lists.bits[..BYTES], [0; BYTES]);
    assert_eq!(lists.bits[BYTES..], [0xff; 63 * BYTES]);
    assert_eq!([lists.broken[0], lists.free[0]], [1, 0]);
    assert_eq!(lists.broken_count, 1);
}

#[test]
fn the_count_goes_down_and_up() {
    let mut lists = Lists::empty();
    // Every third event is broken: 0, 3 and so on to 63.
    for number in 0..64 {
        lists.add(number).expect("room");
    }
    assert_eq!(lists.broken_count, 22);
    // A broken one overwritten by a row, a row by a row, a row by a broken one.
    for (number, count) in [(64, 21), (65, 21), (66, 22)] {
        lists.add(number).expect("room");
        assert_eq!(lists.broken_count, count);
    }
    // A row cleared, a broken one cleared, and the same place again, which is free now.
    for (place, count) in [(4, 22), (6, 21), (6, 21)] {
        assert_eq!(clear(place, &mut lists.log()), Ok(()));
        assert_eq!(lists.broken_count, count);
    }
    // A free record is not broken, whatever its mark is.
    lists.broken[6] = 1;
    assert_eq!(clear(9, &mut lists.log()), Ok(()));
    assert_eq!(lists.broken_count, 20);
    assert_eq!(lists.add(67), Ok(4));
    assert_eq!(lists.add(70), Ok(6));
    assert_eq!(lists.broken_count, 20);
}

#[test]
fn a_count_that_is_not_true_is_refused() {
    let mut lists = Lists::empty();
    for number in 1..10 {
        lists.add(number).expect("room");
    }
    assert_eq!(lists.broken_count, 3);
    for count in [0, 2, 4, 64, 65, usize::MAX] {
        lists.broken_count = count;
        let before = lists.clone();
        assert_eq!(lists.add(20), Err(refusal(13)));
        // Before 12, after 1, and for a free record as for one in use.
        assert_eq!(lists.add(9), Err(refusal(13)));
        assert_eq!(clear(0, &mut lists.log()), Err(refusal(13)));
        assert_eq!(clear(63, &mut lists.log()), Err(refusal(13)));
        assert_eq!(clear(64, &mut lists.log()), Err(refusal(1)));
        assert_eq!(lists, before);
        // Listing does not ask.
        assert_eq!(lists.shown(), (1..10).collect::<Vec<_>>());
    }
}

#[test]
fn records_that_no_calls_make_are_taken_as_they_are() {
    let mut lists = Lists::empty();
    // Equal read numbers: the lowest place first.
    lists.numbers = (0..RECORDS as u64).map(|place| place / 8 % 2).collect();
    lists.free.fill(0);
    let even = (0..RECORDS).filter(|place| place / 8 % 2 == 0);
    let odd = (0..RECORDS).filter(|place| place / 8 % 2 == 1);
    assert_eq!(lists.listed(), even.chain(odd).collect::<Vec<_>>());
    assert_eq!(lists.add(2), Ok(0));
    assert_eq!(lists.add(3), Ok(1));
    // A free record's number is not looked at, and any mark but 0 is set.
    lists.numbers[9] = u64::MAX;
    lists.free[9] = 255;
    assert_eq!(lists.add(4), Ok(9));
    assert_eq!(lists.free[9], 0);
}

#[test]
fn what_is_refused() {
    let mut lists = Lists::empty();
    assert_eq!(lists.add(7), Ok(0));
    let before = lists.clone();
    assert_eq!(lists.add(7), Err(refusal(12)));
    assert_eq!(lists.add(0), Err(refusal(12)));
    let event = Event {
        number: 7,
        bits: &[0; BYTES],
        count: 1_025,
        broken: 0,
    };
    // A bad count comes before a bad read number.
    assert_eq!(log_event(event, &mut lists.log()), Err(refusal(1)));
    let event = Event {
        bits: &[0; BYTES - 1],
        count: 3,
        ..event
    };
    assert_eq!(log_event(event, &mut lists.log()), Err(refusal(1)));
    assert_eq!(clear(64, &mut lists.log()), Err(refusal(1)));
    assert_eq!(list(&lists.numbers, &lists.free, &mut []), Err(refusal(4)));
    assert_eq!(lists, before);
    for short in 0..5 {
        let mut lists = lists.clone();
        match short {
            0 => drop(lists.numbers.pop()),
            1 => drop(lists.bits.pop()),
            2 => lists.counts.push(0),
            3 => drop(lists.broken.pop()),
            _ => lists.free.push(1),
        }
        let before = lists.clone();
        assert_eq!(lists.add(8), Err(refusal(1)));
        assert_eq!(clear(0, &mut lists.log()), Err(refusal(1)));
        assert_eq!(lists, before);
    }
    assert_eq!(list(&[0; 63], &[0; 64], &mut [0; 64]), Err(refusal(1)));
    assert_eq!(list(&[0; 64], &[0; 65], &mut [0; 64]), Err(refusal(1)));
}

#[test]
fn any_sequence_of_calls_shows_what_is_kept() {
    let mut seed = 0x9e37_79b9_7f4a_7c15_u64;
    let mut next = |below: u64| {
        seed ^= seed << 13;
        seed ^= seed >> 7;
        seed ^= seed << 17;
        seed % below
    };
    for _ in 0..50 {
        let mut lists = Lists::empty();
        let mut kept: Vec<(usize, u64)> = Vec::new();
        let mut number = next(3);
        for _ in 0..400 {
            if next(4) == 0 {
                let place = next(70) as usize;
                if clear(place, &mut lists.log()).is_ok() {
                    kept.retain(|&(at, _)| at != place);
                }
            } else {
                number += next(4);
                if let Ok(place) = lists.add(number) {
                    if kept.len() == RECORDS {
                        kept.remove(0);
                    }
                    kept.push((place, number));
                }
            }
            assert_eq!(lists.broken_count, lists.broken_records());
            let places: Vec<_> = kept.iter().map(|&(place, _)| place).collect();
            assert_eq!(lists.listed(), places);
            for &(place, number) in &kept {
                assert_eq!(lists.numbers[place], number);
                let bits = if number % 3 == 0 { 0 } else { number as u8 };
                assert_eq!(lists.bits[place * BYTES..][..BYTES], [bits; BYTES]);
            }
        }
    }
}
