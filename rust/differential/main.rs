//! The static library against the plain Rust implementation: every operation on the same input, seeded. The rounds up to a least number are always
//! done, so that what they cover is the same on every machine; then come more, until all rounds are done or the time is up. It ends with status 1 at
//! the first difference, and with status 2 if something that can be met never was.
//!
//! With the name of an operation it tries that one alone, and not the whole link. So `.ci/differential`, which builds it and runs it, runs it against
//! copies of the plain implementation with faults in them, each of which it has to find in the fault's own operation.

mod bench;
mod inputs;
mod lent;
mod library;
mod numbers;

use bench::{Bench, Lists, Room, State};
use siengulot_plain::board::ROW_BYTES;
use siengulot_plain::halfcells;
use siengulot_plain::log::Event;
use siengulot_plain::settings::{MAX_BITS, MAX_CAPTURE, MAX_LIST, MAX_ROWS, RECORDS};
use siengulot_plain::survey::MAX_BOARDS;
use std::time::{Duration, Instant};

/// Rounds of every operation, some of them several times, that are done however long they take.
const LEAST_ROUNDS: u64 = 10_000;
/// No more are done than these.
const ROUNDS: u64 = 100_000;
/// No round beyond the least number begins later than this.
const TIME: Duration = Duration::from_secs(45);

/// What is easy to miss of a picked sampling count.
const COUNTS: [&str; 4] = [
    "the last k",
    "equals",
    "a least margin of 0",
    "a least margin of -1",
];

/// What each operation has to meet: the numbers it returns (of `well_formed`, 0 for no and 1 for yes), and cases that are easy to miss.
const MUST: [(&str, &[&str], &[&str]); 30] = [
    ("judge", &["0", "1"], &["yes", "no", "a margin of 0"]),
    ("judge_quiet", &["0", "1"], &["yes", "no", "a margin of 0"]),
    ("judge_ends", &["0", "1"], &["yes", "no", "a margin of 0"]),
    (
        "judge_quiet_ends",
        &["0", "1"],
        &["yes", "no", "a margin of 0"],
    ),
    ("pick", &["0", "1", "9"], &COUNTS),
    ("pick_ends", &["0", "1", "9"], &COUNTS),
    ("send", &["0", "1", "2", "3", "4"], &[]),
    ("plan", &["0", "1", "2", "3", "4"], &["3 by its wave"]),
    (
        "read_plan",
        &["0", "1", "3", "4"],
        &[
            "1 at a row",
            "a joined lead of 65,535",
            "a joined lead of 65,536",
        ],
    ),
    ("encode", &["0", "3", "4"], &[]),
    (
        "decode",
        &["0", "3", "4", "11"],
        &[
            "11 at the first cell",
            "11 at the first cell of a later word",
            "11 within a word",
        ],
    ),
    ("smooth", &["0", "1", "2", "3", "4"], &[]),
    ("warp", &["0", "1", "2", "3", "4"], &["3 by its reads"]),
    (
        "warp_by_lengths",
        &["0", "1", "2", "3", "4"],
        &[
            "fewer lengths than levels",
            "fewer levels than lengths",
            "no length and any p",
            "a read for each length",
            "a length for no read",
        ],
    ),
    ("settle", &["0", "2", "3", "4"], &["2 by a choice"]),
    (
        "counted",
        &["0", "1", "2", "3", "4", "5"],
        &["5 after bits"],
    ),
    ("fresh", &["0", "1"], &[]),
    (
        "well_formed",
        &["0", "1"],
        &[
            "no mode",
            "a run's level that is no byte",
            "a level that is no byte",
        ],
    ),
    (
        "step",
        &["0", "1", "2"],
        &[
            "nothing",
            "row",
            "broken",
            "a row of 1,024 bits",
            "a row broken after 1,023 bits",
            "no mode",
            "a run's level that is no byte",
            "a level that is no byte",
        ],
    ),
    (
        "listen",
        &["0", "1", "2", "3"],
        &[
            "nothing",
            "row",
            "broken",
            "a row of 1,024 bits",
            "a row broken after 1,023 bits",
            "no mode",
            "a run's level that is no byte",
            "a level that is no byte",
            "a bad read after an event",
        ],
    ),
    ("capture_check", &["0", "3", "6", "7", "8"], &[]),
    ("capture_read", &["0", "3", "4", "6", "7", "8"], &[]),
    ("capture_write", &["0", "1", "2", "3", "4"], &[]),
    (
        "time_read",
        &["0", "2", "3", "4", "10"],
        &["several words", "10 after words"],
    ),
    ("time_write", &["0", "1", "4"], &[]),
    (
        "log_event",
        &["0", "1", "12", "13"],
        &[
            "a free record",
            "the oldest",
            "the oldest of equals",
            "a broken row",
            "a broken row overwritten",
            "12 for an equal number",
            "13 before 12",
        ],
    ),
    (
        "log_clear",
        &["0", "1", "13"],
        &["in use", "broken", "free", "13 for a free record"],
    ),
    ("log_list", &["0", "4"], &["none in use", "all in use"]),
    (
        "survey",
        &["0", "1", "3"],
        &[
            "no boards",
            "1 at a board",
            "equals",
            "a margin of 0",
            "4,096 boards",
        ],
    ),
    (
        "survey_lines",
        &["0", "1", "3", "4"],
        &["no boards", "a margin below 0"],
    ),
];

fn main() {
    let started = Instant::now();
    let only = std::env::args().nth(1);
    if let Some(name) = &only {
        if !MUST.iter().any(|&(operation, ..)| operation == name) {
            println!("{} is no operation", name);
            std::process::exit(3);
        }
    }
    let mut bench = Bench::new(20_261_115, only);
    let mut rounds = 0;
    while rounds < LEAST_ROUNDS || (rounds < ROUNDS && started.elapsed() < TIME) {
        round(&mut bench);
        if rounds == 0 {
            pick_corners(&mut bench);
            ends_corners(&mut bench);
            each_word(&mut bench);
            time_corners(&mut bench);
            smooth_corners(&mut bench);
            length_corners(&mut bench);
            log_calls(&mut bench, &Lists::empty(), 500);
        }
        if rounds == 200 {
            longest_rows(&mut bench);
            greatest_counts(&mut bench);
            longest_waves(&mut bench);
            longest_captures(&mut bench);
            short_captures(&mut bench);
            longest_lists(&mut bench);
            vast(&mut bench);
            longest_regions(&mut bench);
        }
        if rounds % 100 == 0 && bench.tries_all() {
            hallway(&mut bench);
        }
        rounds += 1;
    }
    report(&bench, rounds, started.elapsed());
}

/// The ends of all ranges that picking takes, and the numbers beside them, each with each.
fn pick_corners(bench: &mut Bench) {
    for a in [0, 1, 2, 3, 128, 254, 255, 256] {
        for b in [0, 1, 2, 3, 128, 254, 255, 256] {
            for w in [0, 1, 2, 3, 100, 32_768, 65_534, 65_535, 65_536] {
                for r in [0, 1, 2, 3, 100, 32_768, 65_534, 65_535, 65_536] {
                    for g in [1, 2, 64] {
                        bench.pick([a, b, g, w, r]);
                    }
                }
            }
        }
    }
}

/// Each part of a time at its most, and above it as far as its digits go.
fn time_corners(bench: &mut Bench) {
    for (part, values) in [23..40, 59..80, 59..80, 24..40].into_iter().enumerate() {
        for value in values {
            let mut time = [23, 59, 59, 24];
            time[part] = value;
            bench.time_read(&inputs::time_word(time), FULL);
            bench.time_write(time, FULL);
        }
    }
}

/// Two numbers at and beside the ends of their range for each clock, in either order, each with each.
fn ends_corners(bench: &mut Bench) {
    let lengths = [0, 1, 2, 100, 65_535, 65_536];
    let pairs = || lengths.into_iter().flat_map(|x| lengths.map(|y| [x, y]));
    for [w1, w2] in pairs() {
        for [r1, r2] in pairs() {
            for [a, b, g, k, q, p1] in [[5, 13, 1, 10, 21, 23], [255, 255, 64, 511, 8_191, 65_535]]
            {
                bench.judge_ends([a, b, g, k, w1, w2, r1, r2]);
                bench.judge_quiet_ends([a, b, g, k, w1, w2, r1, r2, q, p1]);
                bench.pick_ends([a, b, g, w1, w2, r1, r2]);
            }
        }
    }
}

/// The word of each byte, entered high and entered low, and with each of its half cells turned over.
fn each_word(bench: &mut Bench) {
    for byte in 0..=255 {
        for bytes in [[0xff, byte], [0x80, byte]] {
            bench.encode(&bytes, FULL);
            let mut words = [0; 2];
            let encoded = halfcells::encode(&bytes, &mut words);
            assert!(encoded.is_ok(), "two bytes can be encoded");
            bench.decode(&words, FULL);
            for half in 0..16 {
                bench.decode(&[words[0], words[1] ^ 1 << half], FULL);
            }
        }
    }
}

/// Every settling count, on waves whose length, and whose changes, lie about the ends of the blocks in which a wave is smoothed.
fn smooth_corners(bench: &mut Bench) {
    for g in 0..=65 {
        for length in [g, 63, 64, 65, 64 + g, 1_087, 1_088, 1_089, 1_088 + g, 2_113] {
            let wave = bench.rng.entries(length, 1);
            bench.smooth(g, &wave, FULL);
            let mut wave = vec![1; length];
            for end in [0, 64, 1_088, 2_112] {
                let place = (end + bench.rng.below(2 * g + 1)).saturating_sub(g);
                if place < length {
                    wave[place] = 0;
                }
            }
            bench.smooth(g, &wave, FULL);
        }
    }
}

/// A length at an end of its bounds, and beside it, at each place of either list; the wave has a level for the first two cycles alone.
fn length_corners(bench: &mut Bench) {
    for [least, most] in [[1, 1], [3, 5], [1, 65_535], [65_535, 65_535]] {
        for length in [least - 1, least, most, most + 1] {
            for place in 0..3 {
                let good = [least; 3];
                let mut lengths = good;
                lengths[place] = length;
                let settings = [least, most, least, most, 0];
                bench.warp_by_lengths(settings, &lengths, &good, &[1, 0], FULL);
                bench.warp_by_lengths(settings, &good, &lengths, &[1, 0], FULL);
            }
        }
    }
}

/// Every operation on input of its own.
fn round(bench: &mut Bench) {
    let [a, b, g, k, w, r, q, p1] = bench.rng.judged();
    bench.judge([a, b, g, k, w, r]);
    bench.judge_quiet([a, b, g, k, w, r, q, p1]);
    let [a, b, g, k, w1, w2, r1, r2, q, p1] = bench.rng.judged_ends();
    bench.judge_ends([a, b, g, k, w1, w2, r1, r2]);
    bench.judge_quiet_ends([a, b, g, k, w1, w2, r1, r2, q, p1]);
    let clocks = bench.rng.clocks();
    bench.pick(clocks);
    let clocks = bench.rng.clocks_ends();
    bench.pick_ends(clocks);

    let settings = [bench.rng.subcell(), bench.rng.subcell(), bench.rng.pad()];
    let length = match bench.rng.below(40) {
        0 => MAX_BITS,
        1 => MAX_BITS + 1,
        _ => bench.rng.length(),
    };
    let bits = bench.rng.list(length, 1);
    let room = Room::random(&mut bench.rng);
    bench.send(settings, &bits, room);

    let n = bench.rng.row_bits();
    let settings = [bench.rng.subcell(), bench.rng.subcell(), n];
    let (leads, bits) = bench.rng.plan(n);
    let room = Room::random(&mut bench.rng);
    bench.plan(settings, &leads, &bits, room);

    let (leads, trails) = bench.rng.stored();
    let room = Room::random(&mut bench.rng);
    bench.read_plan(&leads, &trails, room);

    let length = bench.rng.words_length();
    let bytes = bench.rng.list(length, 254);
    let room = Room::random(&mut bench.rng);
    bench.encode(&bytes, room);
    let words = bench.rng.words();
    let room = Room::random(&mut bench.rng);
    bench.decode(&words, room);

    let length = bench.rng.length();
    let wave = bench.rng.list(length, 1);
    let room = Room::random(&mut bench.rng);
    let g = bench.rng.g();
    bench.smooth(g, &wave, room);

    let (w, r) = bench.rng.cycles();
    let p = bench.rng.phase(w);
    let length = bench.rng.length();
    let wave = bench.rng.list(length, 2);
    let room = Room::random(&mut bench.rng);
    bench.warp([w, r, p], &wave, room);

    let ([w1, w2], [r1, r2]) = (bench.rng.bounds(), bench.rng.bounds());
    let length = bench.rng.length();
    let wave = bench.rng.list(length, 2);
    let count = bench.rng.about(length);
    let cycles = bench.rng.lengths([w1, w2], count);
    let count = bench.rng.about(length) * bench.rng.pick(&[1, 1, 2, 9]);
    let reads = bench.rng.lengths([r1, r2], count);
    let p = match cycles.first() {
        Some(&first) => bench.rng.phase(first),
        None => bench.rng.out_of(0, 9),
    };
    let room = Room::random(&mut bench.rng);
    bench.warp_by_lengths([w1, w2, r1, r2, p], &cycles, &reads, &wave, room);

    let length = bench.rng.length();
    let reads = bench.rng.list(length, 2);
    let length = bench.rng.length();
    let choices = bench.rng.list(length, 1);
    let room = Room::random(&mut bench.rng);
    bench.settle(&reads, &choices, room);

    let settings = [
        bench.rng.k(),
        bench.rng.setting(0, 12, MAX_BITS),
        bench.rng.setting(0, 1, 1),
    ];
    let length = bench.rng.length();
    let reads = bench.rng.list(length, 1);
    let room = Room::random(&mut bench.rng);
    bench.counted(settings, &reads, room);

    let bits = bench.rng.time_code();
    let room = Room::random(&mut bench.rng);
    bench.time_read(&bits, room);
    let time = [
        bench.rng.setting(0, 23, 23),
        bench.rng.setting(0, 59, 59),
        bench.rng.setting(0, 59, 59),
        bench.rng.setting(0, 24, 24),
    ];
    let room = Room::random(&mut bench.rng);
    bench.time_write(time, room);

    let settings = [bench.rng.k(), bench.rng.row_bits(), bench.rng.quiet()];
    bench.fresh(settings);
    for _ in 0..2 {
        let (numbers, bits) = bench.rng.receiver();
        let state = State { numbers, bits };
        bench.well_formed(&state);
        let read = match bench.rng.below(12) {
            0 => bench.rng.next() as u8,
            1 => 2,
            _ => bench.rng.below(2) as u8,
        };
        bench.step(&state, read);
        let reads = bench.rng.reads_for(&state.numbers);
        bench.listen(&state, &reads);

        let bytes = bench.rng.capture();
        bench.capture_check(&bytes);
        let room = Room::random(&mut bench.rng);
        bench.capture_read(&bytes, room);
    }

    let settings = [bench.rng.k(), bench.rng.row_bits(), bench.rng.quiet()];
    let length = bench.rng.length();
    let reads = bench.rng.list(length, 1);
    let room = Room::random(&mut bench.rng);
    bench.capture_write(settings, &reads, room);

    let lists = bench.rng.log();
    log_calls(bench, &lists, 2);
}

/// Calls of the log, one after another.
fn log_calls(bench: &mut Bench, lists: &Lists, calls: usize) {
    let mut lists = lists.clone();
    bench.log_list(&lists, FULL);
    for _ in 0..calls {
        let greatest = lists.numbers.iter().max().copied().unwrap_or(0);
        let number = bench.rng.later_than(greatest) as u64;
        let mut bits = Vec::new();
        bench.rng.junk(&mut bits, ROW_BYTES);
        let count = bench.rng.setting(0, 80, MAX_BITS);
        let broken = bench.rng.mark();
        let event = Event {
            number,
            bits: &bits,
            count,
            broken,
        };
        lists = bench.log_event(&lists, event);
        let room = Room::random(&mut bench.rng);
        bench.log_list(&lists, room);
        if bench.rng.one_in(3) {
            let place = bench.rng.setting(0, RECORDS - 1, RECORDS - 1);
            lists = bench.log_clear(&lists, place);
        }
    }

    bench.turn_to_regions_or_back();
    let region = bench.rng.region();
    bench.survey(&region);
    let room = Room::random(&mut bench.rng);
    bench.survey_lines(&region, room);
    bench.turn_to_regions_or_back();
}

/// An output that just holds the result, and one that just does not.
const FULL: Room = Room::More(0);
const SHORT: Room = Room::Less(1);

/// Regions of as many boards as there may be, and of more, the last of them out of range.
fn longest_regions(bench: &mut Bench) {
    bench.turn_to_regions_or_back();
    for boards in [MAX_BOARDS, MAX_BOARDS + 1, MAX_BOARDS + 9] {
        let mut region = bench.rng.boards(boards);
        for room in [FULL, SHORT] {
            bench.survey(&region);
            bench.survey_lines(&region, room);
            region[3][boards - 1] = 512;
        }
    }
    bench.turn_to_regions_or_back();
}

/// As many reads as a list may have, and one more.
fn greatest_counts(bench: &mut Bench) {
    for (w, p, cycles) in [
        (32_768, 0, 32),
        (32_769, 32, 32),
        (32_769, 31, 32),
        (1, 0, MAX_LIST),
    ] {
        let wave = bench.rng.entries(cycles, 2);
        bench.warp([w, 1, p], &wave, FULL);
        bench.warp([w, 1, p], &wave, SHORT);
    }
    bench.warp([65_535, 1, 65_534], &vec![0; 17], FULL);
    bench.warp([65_535, 65_535, 65_534], &vec![2; MAX_LIST], FULL);
    bench.warp([65_535, 1, 65_534], &vec![0; MAX_LIST], FULL);
}

/// Messages and plans of as many bits, rows and cycles as there may be, and of one more.
fn longest_waves(bench: &mut Bench) {
    for length in [MAX_BITS, MAX_BITS + 1] {
        let bits = bench.rng.entries(length, 1);
        for room in [FULL, SHORT] {
            bench.send([255, 255, 65_535], &bits, room);
            bench.send([1, 1, 0], &bits, room);
        }
    }
    for (rows, n, pad) in [
        (MAX_ROWS, 512, 0),
        (MAX_ROWS, 511, 1),
        (MAX_ROWS, 511, 2),
        (MAX_ROWS, MAX_BITS, 0),
        (MAX_ROWS + 1, 1, 0),
        (16, 1, 65_535),
        (15, 1, 65_535),
    ] {
        let leads = vec![pad; rows];
        let bits = bench.rng.entries(rows * n, 1);
        for room in [FULL, SHORT] {
            bench.plan([1, 1, n], &leads, &bits, room);
        }
    }
    // The last of the most rows is the one whose lead becomes too long.
    for rows in [MAX_ROWS, MAX_ROWS + 1] {
        let (mut leads, mut trails) = (vec![1; rows], vec![2; rows]);
        for room in [FULL, SHORT] {
            bench.read_plan(&leads, &trails, room);
        }
        leads[rows - 1] = 65_535;
        bench.read_plan(&leads, &trails, FULL);
        trails[rows - 2] = 65_535;
        bench.read_plan(&leads, &trails, FULL);
    }
}

/// Captures of as many bytes and of as many reads as there may be, and of one more.
fn longest_captures(bench: &mut Bench) {
    let heading = [0xff, 0x03, 0x80, 0x08, 0xff, 0x3f];
    for level in [0, 1] {
        let mut bytes = heading.to_vec();
        bytes.push(level);
        bytes.resize(MAX_CAPTURE, 1);
        let last = bytes.len() - 1;
        for room in [FULL, SHORT] {
            bench.capture_check(&bytes);
            bench.capture_read(&bytes, room);
        }
        bytes[last] = 2;
        bench.capture_check(&bytes);
        bytes[last] = 0;
        bench.capture_check(&bytes);
        bytes[last] = 0x80;
        bench.capture_check(&bytes);
        bytes.push(1);
        bench.capture_check(&bytes);
        bench.capture_read(&bytes, FULL);
        for runs in [
            &[0x80, 0x80, 0x40][..],
            &[0x81, 0x80, 0x40],
            &[0xff, 0xff, 0x7f],
            &[0xff, 0xff, 0x3f, 1],
            &[0xff, 0xff, 0x3f, 2],
            &[1, 0xff, 0xff, 0x3f],
            &[2, 0xff, 0xff, 0x3f],
        ] {
            let mut bytes = heading.to_vec();
            bytes.push(level);
            bytes.extend_from_slice(runs);
            bench.capture_check(&bytes);
            bench.capture_read(&bytes, FULL);
            bench.capture_read(&bytes, SHORT);
        }
    }
}

/// Every capture of up to two bytes, and every ending of one byte or two after a heading.
fn short_captures(bench: &mut Bench) {
    for length in [0, 1, 2] {
        for number in 0..1_usize << (8 * length) {
            let ending = &number.to_le_bytes()[..length];
            bench.capture_check(ending);
            bench.capture_check(&[&[2, 2, 6][..], ending].concat());
            bench.capture_check(&[&[2, 2, 6, 0, 5][..], ending].concat());
        }
    }
}

/// Lists of as many entries as there may be, and of one more.
fn longest_lists(bench: &mut Bench) {
    for length in [MAX_LIST - 1, MAX_LIST, MAX_LIST + 1] {
        let levels = bench.rng.entries(length, 1);
        let reads = bench.rng.entries(length, 2);
        let mut bad = levels.clone();
        bad[length - 1] = 3;
        for room in [FULL, SHORT] {
            bench.smooth(1, &levels, room);
            bench.smooth(64, &levels, room);
            bench.smooth(1, &bad, room);
            bench.settle(&reads, &levels, room);
            bench.settle(&levels, &reads, room);
            bench.settle(&levels[..9], &bad, room);
            bench.warp([3, 3, 0], &reads, room);
            bench.warp([3, 3, 1], &reads, room);
            bench.warp([3, 4, 1], &bad, room);
            bench.counted([10, 1_024, 1], &levels, room);
            bench.counted([10, 1_024, 1], &bad, room);
            bench.time_read(&levels, room);
            bench.time_read(&bad, room);
            bench.capture_write([10, 16, 21], &levels, room);
            bench.capture_write([10, 16, 21], &bad, room);
        }
        // One read over all of the cycles, and over as many as it can take.
        bench.warp([1, 65_535, 0], &vec![1; length], FULL);
        bench.warp([1, 65_535, 0], &reads, FULL);
        let (one, most) = (vec![1; length], vec![65_535; length]);
        let [w1, w2, r1, r2] = [1, 65_535, 1, 65_535];
        bench.warp_by_lengths([w1, w2, r1, r2, 0], &one, &most[..20], &levels, FULL);
        bench.warp_by_lengths([w1, w2, r1, r2, 65_534], &most, &most, &reads, FULL);
        bench.warp_by_lengths([w1, w2, r1, r2, 0], &most, &one, &reads, SHORT);
        bench.warp_by_lengths([w1, w2, r1, r2, 0], &one, &[1], &[1, 0, 3], FULL);
        bench.warp_by_lengths([w1, w2, r1, r2, 0], &[1, 1], &one, &[1, 0], FULL);
        bench.warp_by_lengths([w1, w2, r1, r2, 0], &[1, 1], &[1], &bad, FULL);
        // Each read a run of its own: the longest capture.
        let turns: Vec<u8> = (0..length).map(|i| (i % 2) as u8).collect();
        bench.capture_write([511, 1_024, 8_191], &turns, FULL);
        for state in [[511, 1_024, 8_191], [1, 1, 2], [10, 16, 21]] {
            let mut state = bench.fresh(state);
            let mut taken = 0;
            for _ in 0..40 {
                let brought = bench.listen(&state, &levels[taken..]);
                taken += brought.used;
                state = brought.state;
            }
            bench.listen(&state, &vec![1; length]);
            bench.listen(&state, &bad);
        }
    }
}

/// Rows of as many bits as there may be, and rows broken off one bit before that, through step and listen. With k 1 a cell is two reads: a mark, and a
/// sample, which is not the mark's level for a 1. So no more than two equal reads come one after another, and Q is 3.
fn longest_rows(bench: &mut Bench) {
    let mut rows = vec![vec![1; MAX_BITS], bench.rng.entries(MAX_BITS, 1)];
    for alone in [0, 1, 511, 512, MAX_BITS - 2, MAX_BITS - 1] {
        let mut bits = vec![0; MAX_BITS];
        bits[alone] = 1;
        rows.push(bits);
    }
    for bits in rows {
        let mut reads = vec![1; 3];
        for (i, bit) in bits.iter().enumerate() {
            let level = reads[reads.len() - 1];
            // Where the level is low, quiet would begin with a mark.
            if i == MAX_BITS - 1 && level == 1 {
                heard_both_ways(bench, &[&reads[..], &[1; 3]].concat());
            }
            let mark = 1 - level;
            reads.extend([mark, mark ^ bit]);
        }
        let row = heard_both_ways(bench, &reads);
        if bench.tries_all() && row != Some(packed(&bits)) {
            println!("differs: the longest row sent and delivered, {:?}", bits);
            std::process::exit(1);
        }
    }
}

/// Gives reads to receivers of k 1, n 1,024 and Q 3, one by one and as lists. The answer is the row that was delivered.
fn heard_both_ways(bench: &mut Bench, reads: &[u8]) -> Option<[u8; 128]> {
    let fresh = bench.fresh([1, MAX_BITS, 3]);
    let mut row = None;
    let mut state = fresh;
    for &read in reads {
        let brought = bench.step(&state, read);
        state = brought.state;
        row = row.or(brought.row);
    }
    // As a whole, and with the last read in a call of its own.
    bench.listen(&fresh, reads);
    let (last, before) = reads.split_last().expect("reads");
    let state = bench.listen(&fresh, before).state;
    bench.listen(&state, &[*last]);
    row
}

/// Lists whose length does not fit 32 bits, though its low part does.
fn vast(bench: &mut Bench) {
    let vast = lent::vast();
    for list in [vast, &vast[..1 << 32]] {
        let room = Room::More(5);
        bench.send([2, 3, 2], list, room);
        bench.plan([2, 3, 2], &[1], list, room);
        bench.encode(list, room);
        bench.smooth(1, list, room);
        bench.warp([4, 4, 1], list, room);
        bench.warp_by_lengths([4, 4, 4, 4, 1], &[4], &[4], list, room);
        bench.settle(list, &[1], room);
        bench.settle(&[2], list, room);
        bench.counted([3, 2, 1], list, room);
        bench.time_read(list, room);
        bench.capture_check(list);
        bench.capture_read(list, room);
        bench.capture_write([2, 2, 6], list, room);
        let state = bench.fresh([2, 2, 6]);
        bench.listen(&state, list);
    }
}

/// A plan's rows on their way through the whole link, each operation on what the one before it gave.
fn hallway(bench: &mut Bench) {
    let [a, b, g, k, w, r, q, p1] = loop {
        let judged = bench.rng.judged();
        let [a, b, g, k, w, r, q, p1] = judged;
        let verdict = siengulot_plain::settings::judge_quiet(a, b, g, k, w as u64, r as u64, q, p1);
        let accepted = verdict.map_or(false, |verdict| verdict.accepted);
        if accepted && a + b < 300 && p1 < 900 && w / r < 20 {
            break judged;
        }
    };
    let (rows, n) = (bench.rng.within(1, 4), bench.rng.within(1, 20));
    let leads = vec![p1 + bench.rng.below(3); rows];
    let bits = bench.rng.entries(rows * n, 1);
    let room = Room::More(0);
    bench.plan([a, b, n], &leads, &bits, room);
    let mut wave = vec![0; MAX_LIST];
    let length = siengulot_plain::sender::plan(a, b, n, &leads, &bits, &mut wave)
        .expect("a plan of few rows");
    wave.truncate(length);
    bench.smooth(g, &wave, room);
    let mut smoothed = vec![0; length];
    siengulot_plain::line::smooth(g, &wave, &mut smoothed).expect("a wave");
    let p = bench.rng.below(w);
    bench.warp([w, r, p], &smoothed, room);
    let mut warped = vec![0; MAX_LIST];
    let count = siengulot_plain::line::warp(w as u64, r as u64, p as u64, &smoothed, &mut warped)
        .expect("a wave that is not long");
    warped.truncate(count);
    let choices = bench.rng.entries(count / 2, 1);
    bench.settle(&warped, &choices, room);
    let mut reads = vec![0; count];
    siengulot_plain::line::settle(&warped, &choices, &mut reads).expect("reads");
    bench.counted([k, n, 1], &reads, room);
    bench.capture_write([k, n, q], &reads, room);

    // Read by read, and in pieces of any length; the rows that come are the rows that were sent.
    let mut delivered = Vec::new();
    let mut state = bench.fresh([k, n, q]);
    for &read in &reads {
        let brought = bench.step(&state, read);
        state = brought.state;
        bench.well_formed(&state);
        delivered.extend(brought.row);
    }
    let mut heard = Vec::new();
    let mut state = bench.fresh([k, n, q]);
    let mut place = 0;
    while place < reads.len() {
        let until = (place + 1 + bench.rng.below(200)).min(reads.len());
        let brought = bench.listen(&state, &reads[place..until]);
        state = brought.state;
        place += brought.used;
        heard.extend(brought.row);
    }
    let sent: Vec<[u8; 128]> = bits.chunks_exact(n).map(packed).collect();
    if delivered != sent || heard != sent {
        println!(
            "differs: rows sent and delivered, {:?} n {}",
            [a, b, k, w, r, q, p1, p],
            n
        );
        std::process::exit(1);
    }
}

fn packed(bits: &[u8]) -> [u8; 128] {
    let mut bytes = [0; 128];
    for (i, &bit) in bits.iter().enumerate() {
        bytes[i / 8] |= bit << (i % 8);
    }
    bytes
}

/// Prints what was met, and ends the run if something was not.
fn report(bench: &Bench, rounds: u64, time: Duration) {
    let met = |operation, thing| bench.met.get(&(operation, thing)).copied().unwrap_or(0);
    let mut missing = Vec::new();
    for (operation, numbers, things) in MUST {
        if !bench.tries(operation) {
            continue;
        }
        let counted = |thing: &&&'static str| format!("{} {}", thing, met(operation, **thing));
        let line: Vec<String> = numbers
            .iter()
            .chain(things)
            .collect::<Vec<_>>()
            .iter()
            .map(counted)
            .collect();
        println!("{}: {}", operation, line.join(", "));
        for &thing in numbers.iter().chain(things) {
            if met(operation, thing) == 0 {
                missing.push(format!("{} never met {}", operation, thing));
            }
        }
    }
    for &(operation, thing) in bench.met.keys() {
        let known = MUST.iter().any(|&(name, numbers, things)| {
            name == operation && (numbers.contains(&thing) || things.contains(&thing))
        });
        if !known {
            missing.push(format!("{} met {}, which cannot be", operation, thing));
        }
    }
    println!(
        "{} cases in {} rounds, all the same, in {} s",
        bench.cases,
        rounds,
        time.as_secs()
    );
    if !missing.is_empty() {
        println!("but {}", missing.join("; "));
        std::process::exit(2);
    }
}
