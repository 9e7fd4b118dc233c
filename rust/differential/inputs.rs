//! Random input, valid and damaged: settings, lists, receivers, captures. A seed gives the same input everywhere.

use crate::bench::Lists;
use crate::numbers::{at, numbers_of, NUMBERS};
use siengulot_plain::board::{Mode, Receiver, ROW_BYTES};
use siengulot_plain::halfcells;
use siengulot_plain::settings::{
    judge, MAX_BITS, MAX_CYCLE, MAX_G, MAX_K, MAX_LIST, MAX_PAD, MAX_QUIET, MAX_ROWS, MAX_SUBCELL,
    MAX_WORDS, MIN_QUIET, RECORDS,
};

const CYCLE_MOST: usize = MAX_CYCLE as usize;

/// What ends a word of time code.
const MARK: [u8; 16] = [0, 0, 1, 1, 1, 1, 1, 1, 1, 1, 1, 1, 1, 1, 0, 1];

/// Puts hours, minutes, seconds and frames into the 64 bits before a mark, a digit's lowest bit first.
fn put_time(bits: &mut [u8], time: [usize; 4]) {
    for ((units, tens, count), part) in [(48, 56, 2), (32, 40, 3), (16, 24, 3), (0, 8, 2)].into_iter().zip(time) {
        for i in 0..4 {
            bits[units + i] = (part % 10 >> i & 1) as u8;
        }
        for i in 0..count {
            bits[tens + i] = (part / 10 >> i & 1) as u8;
        }
    }
}

/// A word of time code with these hours, minutes, seconds and frames, and all else 0.
pub fn time_word(time: [usize; 4]) -> Vec<u8> {
    let mut bits = vec![0; 64];
    put_time(&mut bits, time);
    bits.extend(MARK);
    bits
}

/// A xorshift generator.
pub struct Rng(u64);

impl Rng {
    pub fn new(seed: u64) -> Rng {
        let mut rng = Rng(seed.wrapping_mul(0x9e37_79b9_7f4a_7c15) | 1);
        for _ in 0..8 {
            rng.next();
        }
        rng
    }

    pub fn next(&mut self) -> u64 {
        self.0 ^= self.0 << 13;
        self.0 ^= self.0 >> 7;
        self.0 ^= self.0 << 17;
        self.0
    }

    /// From 0 to `bound` - 1.
    pub fn below(&mut self, bound: usize) -> usize {
        ((self.next() >> 16) % bound as u64) as usize
    }

    /// From `least` to `most`.
    pub fn within(&mut self, least: usize, most: usize) -> usize {
        least + self.below(most - least + 1)
    }

    pub fn one_in(&mut self, times: usize) -> bool {
        self.below(times) == 0
    }

    pub fn pick<T: Copy>(&mut self, of: &[T]) -> T {
        of[self.below(of.len())]
    }

    /// Makes `bytes` as long as `length` with random bytes.
    pub fn junk(&mut self, bytes: &mut Vec<u8>, length: usize) {
        while bytes.len() < length {
            let junk = self.next().to_le_bytes();
            let more = junk.len().min(length - bytes.len());
            bytes.extend_from_slice(&junk[..more]);
        }
    }

    /// A mark: often 0, else 1 or any byte.
    pub fn mark(&mut self) -> u8 {
        match self.below(4) {
            0 => 1,
            1 => self.next() as u8,
            _ => 0,
        }
    }

    /// A read number: mostly just above one, often the same, now and then below.
    pub fn later_than(&mut self, number: usize) -> usize {
        match self.below(9) {
            0 => number,
            1 => self.below(number.max(1)),
            _ => number + 1 + self.below(3),
        }
    }

    /// A log, such as calls make or not: read numbers that are near one another, some of them equal, and marks of all
    /// kinds. Now and then its count is not true.
    pub fn log(&mut self) -> Lists {
        let mut lists = Lists::empty();
        let first = self.pick(&[0, 1, 1 << 40, usize::MAX - 500]);
        let spread = self.pick(&[2, 40, 400]);
        let turned = self.below(RECORDS);
        let in_order = self.one_in(2);
        let full = self.one_in(2);
        lists.bits.clear();
        self.junk(&mut lists.bits, RECORDS * ROW_BYTES);
        for place in 0..RECORDS {
            lists.numbers[place] = if in_order {
                first + (place + turned) % RECORDS
            } else {
                first + self.below(spread)
            };
            lists.counts[place] = self.next() as usize;
            lists.broken[place] = self.mark();
            lists.free[place] = if full { 0 } else { self.mark() };
        }
        let count = (0..RECORDS)
            .filter(|&place| lists.is_broken(place))
            .count();
        lists.broken_count = match self.below(40) {
            0 => self.next() as usize,
            1 => self.below(RECORDS + 2),
            2 => count.wrapping_sub(1),
            3 => count + 1,
            4 => lists.broken.iter().filter(|&&mark| mark != 0).count(),
            _ => count,
        };
        lists
    }

    /// A number that is not from `least` to `most`: next to it, one whose low part is in range, or far off.
    pub fn out_of(&mut self, least: usize, most: usize) -> usize {
        loop {
            let inside = self.within(least, most);
            let number = match self.below(8) {
                0 => least.wrapping_sub(1),
                1 => most + 1,
                2 => 0,
                3 => inside + (1 << self.pick(&[8, 16, 32, 48, 63])),
                4 => inside | 1 << self.within(8, 63),
                5 => usize::MAX - self.below(3),
                6 => 1 << self.below(64),
                _ => self.next() as usize,
            };
            if number < least || most < number {
                return number;
            }
        }
    }

    /// A setting: mostly in range and up to `usual`, often at an end of its range, now and then out of it.
    pub fn setting(&mut self, least: usize, usual: usize, most: usize) -> usize {
        match self.below(50) {
            0 | 1 => self.out_of(least, most),
            2 => least,
            3 => most,
            4..=8 => self.within(least, most),
            _ => self.within(least, usual),
        }
    }

    /// A length: mostly short, often none or one.
    pub fn length(&mut self) -> usize {
        match self.below(16) {
            0 => 0,
            1 => 1,
            2..=4 => self.below(9),
            5..=11 => self.below(70),
            12..=14 => self.below(300),
            _ => self.below(1_500),
        }
    }

    /// Entries from 0 to `greatest`: one level, noise, or runs.
    pub fn entries(&mut self, length: usize, greatest: u8) -> Vec<u8> {
        let kinds = usize::from(greatest) + 1;
        match self.below(6) {
            0 => vec![self.below(kinds) as u8; length],
            1 | 2 => (0..length).map(|_| self.below(kinds) as u8).collect(),
            3 => self.runs(length, 3, kinds),
            4 => self.runs(length, 20, kinds),
            _ => self.runs(length, 90, kinds),
        }
    }

    fn runs(&mut self, length: usize, longest: usize, kinds: usize) -> Vec<u8> {
        let mut list = Vec::with_capacity(length);
        while list.len() < length {
            let run = self.within(1, longest).min(length - list.len());
            let entry = self.below(kinds) as u8;
            list.resize(list.len() + run, entry);
        }
        list
    }

    /// Now and then makes entries of a list such that are not of its kind.
    pub fn damage(&mut self, list: &mut [u8], greatest: u8) {
        if list.is_empty() || !self.one_in(5) {
            return;
        }
        for _ in 0..self.within(1, 3) {
            let place = match self.below(4) {
                0 => 0,
                1 => list.len() - 1,
                _ => self.below(list.len()),
            };
            list[place] = match self.below(4) {
                0 => greatest + 1,
                1 => 1 << self.within(2, 7),
                2 => 255,
                _ => self.within(usize::from(greatest) + 1, 255) as u8,
            };
        }
    }

    pub fn list(&mut self, length: usize, greatest: u8) -> Vec<u8> {
        let mut list = self.entries(length, greatest);
        self.damage(&mut list, greatest);
        list
    }

    /// How many bytes go out as words of half cells: often as many as may be, or one more.
    pub fn words_length(&mut self) -> usize {
        match self.below(12) {
            0 => MAX_WORDS,
            1 => MAX_WORDS + 1,
            2 => self.within(MAX_WORDS, 300),
            3..=6 => self.below(MAX_WORDS),
            _ => self.below(12),
        }
    }

    /// Words of half cells, often with some half cells turned over, and now and then of any half cells.
    pub fn words(&mut self) -> Vec<u16> {
        let length = self.words_length();
        if self.one_in(8) {
            return (0..length).map(|_| self.next() as u16).collect();
        }
        let mut words = vec![0; length];
        for part in words.chunks_mut(MAX_WORDS) {
            let bytes: Vec<u8> = part.iter().map(|_| self.next() as u8).collect();
            let encoded = halfcells::encode(&bytes, part);
            assert!(encoded.is_ok(), "up to 128 bytes can be encoded");
        }
        if length > 0 && self.one_in(2) {
            for _ in 0..self.within(1, 3) {
                let place = self.below(length);
                words[place] ^= 1 << self.below(16);
            }
        }
        words
    }

    pub fn subcell(&mut self) -> usize {
        self.setting(1, 8, MAX_SUBCELL)
    }

    pub fn g(&mut self) -> usize {
        self.setting(1, 8, MAX_G)
    }

    pub fn k(&mut self) -> usize {
        self.setting(1, 12, MAX_K)
    }

    pub fn row_bits(&mut self) -> usize {
        self.setting(1, 12, MAX_BITS)
    }

    pub fn quiet(&mut self) -> usize {
        self.setting(MIN_QUIET, 20, MAX_QUIET)
    }

    /// A pad; the greatest ones make long waves, and are rarer.
    pub fn pad(&mut self) -> usize {
        match self.below(40) {
            0 => self.out_of(0, MAX_PAD),
            1 => self.within(0, MAX_PAD),
            2 => MAX_PAD,
            _ => self.below(20),
        }
    }

    /// A writer and a read cycle.
    pub fn cycles(&mut self) -> (usize, usize) {
        match self.below(20) {
            0 => (self.out_of(1, CYCLE_MOST), self.within(1, CYCLE_MOST)),
            1 => (self.within(1, CYCLE_MOST), self.out_of(1, CYCLE_MOST)),
            2..=4 => (
                self.pick(&[1, 2, 3, 64, CYCLE_MOST]),
                self.pick(&[1, 2, 63, 64, 65, 129, CYCLE_MOST]),
            ),
            5..=7 => (self.within(1, CYCLE_MOST), self.within(1, CYCLE_MOST)),
            8..=11 => (100, self.within(60, 150)),
            12..=13 => (1, self.within(1, 400)),
            _ => (self.within(1, 12), self.within(1, 12)),
        }
    }

    /// A phase, which has to be below w.
    pub fn phase(&mut self, w: usize) -> usize {
        let most = w.max(1).min(CYCLE_MOST) - 1;
        match self.below(16) {
            0 => w,
            1 => self.out_of(0, most),
            2 | 3 => most,
            4..=7 => 0,
            _ => self.within(0, most),
        }
    }

    /// The least and the greatest length of a cycle, now and then out of range or out of order.
    pub fn bounds(&mut self) -> [usize; 2] {
        let low = self.within(1, 12);
        let high = low + self.below(12);
        match self.below(24) {
            0 => [self.out_of(1, CYCLE_MOST), high],
            1 => [low, self.out_of(1, CYCLE_MOST)],
            2 => [high + 1, low],
            3 | 4 => [1, CYCLE_MOST],
            5 | 6 => [self.within(1, CYCLE_MOST), CYCLE_MOST],
            7..=10 => [90, 110],
            11..=13 => [low, low],
            _ => [low, high],
        }
    }

    /// Lengths within bounds, and now and then some that are not.
    pub fn lengths(&mut self, [least, most]: [usize; 2], count: usize) -> Vec<usize> {
        let low = least.max(1).min(CYCLE_MOST);
        let high = most.max(low).min(CYCLE_MOST);
        let mut lengths: Vec<usize> = (0..count)
            .map(|_| match self.below(10) {
                0 => low,
                1 => high,
                _ => self.within(low, high),
            })
            .collect();
        if count > 0 && self.one_in(30) {
            let place = self.below(count);
            lengths[place] = self.out_of(low, high);
        }
        lengths
    }

    /// How many lengths there are for so many levels: mostly as many, else fewer, more, or any number.
    pub fn about(&mut self, levels: usize) -> usize {
        match self.below(8) {
            0 => 0,
            1 => levels / 2,
            2 => levels + self.below(9),
            3 => self.length(),
            _ => levels,
        }
    }

    /// Settings near those that are accepted, so that a margin of exactly 0 and the next one below it come often.
    pub fn judged(&mut self) -> [usize; 8] {
        if self.one_in(3) {
            return [
                self.subcell(),
                self.subcell(),
                self.g(),
                self.k(),
                self.setting(1, 150, CYCLE_MOST),
                self.setting(1, 150, CYCLE_MOST),
                self.quiet(),
                self.pad(),
            ];
        }
        let most = self.pick(&[4, 12, 150, CYCLE_MOST]);
        let (w, r) = (self.within(1, most), self.within(1, most));
        let [a, b, g, k, q, p1] = self.near([w, w, r, r]);
        [a, b, g, k, w, r, q, p1]
    }

    /// The same over the ends of two clocks.
    pub fn judged_ends(&mut self) -> [usize; 10] {
        if self.one_in(3) {
            return [
                self.subcell(),
                self.subcell(),
                self.g(),
                self.k(),
                self.setting(1, 150, CYCLE_MOST),
                self.setting(1, 150, CYCLE_MOST),
                self.setting(1, 150, CYCLE_MOST),
                self.setting(1, 150, CYCLE_MOST),
                self.quiet(),
                self.pad(),
            ];
        }
        let most = self.pick(&[4, 12, 150, CYCLE_MOST]);
        let ([w1, w2], [r1, r2]) = (self.ends(most), self.ends(most));
        let [a, b, g, k, q, p1] = self.near([w1, w2, r1, r2]);
        [a, b, g, k, w1, w2, r1, r2, q, p1]
    }

    /// The ends of a clock: equal, near each other, or far apart; now and then out of order.
    fn ends(&mut self, most: usize) -> [usize; 2] {
        let least = self.within(1, most);
        let apart = self.pick(&[0, 1, 2, most / 10, most]);
        let greatest = (least + self.below(apart + 1)).min(CYCLE_MOST);
        if self.one_in(40) {
            return [greatest, least];
        }
        [least, greatest]
    }

    /// Settings a, b, g, k, Q and p1 near those that are accepted for these ends.
    fn near(&mut self, [w1, w2, r1, r2]: [usize; 4]) -> [usize; 6] {
        let up = |dividend: usize, divisor: usize| (dividend + divisor - 1) / divisor;
        let off = |rng: &mut Rng| rng.pick(&[0, 0, 0, 1, 2, usize::MAX]);
        let g = match self.below(4) {
            0 => 1,
            1 => self.within(1, MAX_G),
            2 => self.pick(&[MAX_G - 1, MAX_G, MAX_G + 1]),
            _ => self.within(1, 6),
        };
        let a = (g + up(2 * r2, w1)).wrapping_add(off(self)).min(300);
        let k = (1 + up((a + g) * w2, r1)).wrapping_add(off(self)).min(600);
        let b = (g + up((k + 2) * r2, w1))
            .saturating_sub(a)
            .wrapping_add(off(self))
            .min(300);
        let q = (2 + up((a + b + g) * w2, r1))
            .wrapping_add(off(self))
            .min(9_000);
        let p1 = (g + up((q + 1) * r2, w1))
            .wrapping_add(off(self))
            .min(70_000);
        [a, b, g, k, q, p1]
    }

    /// Settings to pick a sampling count for, near those for which there is one and near those for which it is the last.
    pub fn clocks(&mut self) -> [usize; 5] {
        if self.one_in(4) {
            let a = self.within(200, MAX_SUBCELL);
            let r = self.within(1, 300);
            let g = self.within(1, MAX_G);
            return [a, self.within(1, MAX_SUBCELL), g, (r * 511 / a).max(1), r];
        }
        let [a, b, g, _, w, r, _, _] = self.judged();
        [a, b, g, w, r]
    }

    /// The same over the ends of two clocks.
    pub fn clocks_ends(&mut self) -> [usize; 7] {
        if self.one_in(4) {
            let [a, b, g, w, r] = self.clocks();
            let apart = self.within(0, 2);
            return [a, b, g, w, w.saturating_add(apart), r, r];
        }
        let [a, b, g, _, w1, w2, r1, r2, _, _] = self.judged_ends();
        [a, b, g, w1, w2, r1, r2]
    }

    /// How many rows a plan has.
    fn rows(&mut self) -> usize {
        match self.below(40) {
            0 => 0,
            1 => self.within(6, 60),
            2 => self.pick(&[MAX_ROWS - 1, MAX_ROWS, MAX_ROWS + 1]),
            _ => self.within(1, 5),
        }
    }

    /// A pad for each of so many rows.
    fn pads(&mut self, rows: usize) -> Vec<usize> {
        // Long pads now and then, by which the wave becomes as long as it may be or longer.
        let long = rows < 100 && self.one_in(60);
        (0..rows)
            .map(|_| match (long, rows < 100) {
                (true, _) => self.within(60_000, MAX_PAD),
                (_, true) => self.pad(),
                _ => self.below(3),
            })
            .collect()
    }

    /// The lists of a stored plan: leads and trails. Often a lead is joined to be as long as it may be, or longer by one.
    pub fn stored(&mut self) -> (Vec<usize>, Vec<usize>) {
        let rows = self.rows();
        let (mut leads, mut trails) = (self.pads(rows), self.pads(rows));
        if rows > 1 && self.one_in(3) {
            let row = self.within(1, rows - 1);
            trails[row - 1] = self.below(9);
            leads[row] = MAX_PAD - trails[row - 1] + self.below(2);
        }
        if self.one_in(20) {
            trails.push(self.below(9));
        } else if self.one_in(20) {
            trails.pop();
        }
        (leads, trails)
    }

    /// The lists of a region of so many boards, all in range: each board one of a few, so that margins are often equal.
    pub fn boards(&mut self, count: usize) -> [Vec<usize>; 6] {
        let few: Vec<[usize; 6]> = (0..1 + self.below(4))
            .map(|_| loop {
                let [a, b, g, k, w, r, ..] = self.judged();
                if judge(a, b, g, k, w as u64, r as u64).is_ok() {
                    break [a, b, g, k, w, r];
                }
            })
            .collect();
        let mut lists: [Vec<usize>; 6] = Default::default();
        for _ in 0..count {
            let board = self.pick(&few);
            for (list, setting) in lists.iter_mut().zip(board) {
                list.push(setting);
            }
        }
        lists
    }

    /// The lists of a region, now and then with a setting out of range or of unequal length.
    pub fn region(&mut self) -> [Vec<usize>; 6] {
        let count = self.pick(&[0, 1, 2, 3, 7, 20]);
        let mut lists = self.boards(count);
        if count > 0 && self.one_in(3) {
            for _ in 0..1 + self.below(2) {
                let (list, place) = (self.below(6), self.below(count));
                lists[list][place] = self.pick(&[0, 65, 256, 512, 65_536, usize::MAX]);
            }
        }
        if self.one_in(8) {
            let list = self.below(6);
            if lists[list].pop().is_none() || self.one_in(2) {
                lists[list].extend([1, 1]);
            }
        }
        lists
    }

    /// The lists of a plan: leads and bits.
    pub fn plan(&mut self, n: usize) -> (Vec<usize>, Vec<u8>) {
        let rows = self.rows();
        let leads = self.pads(rows);
        let fitting = n.saturating_mul(rows);
        let length = if fitting > 2 * MAX_LIST || self.one_in(20) {
            self.length()
        } else {
            fitting
        };
        let bits = self.list(length, 1);
        (leads, bits)
    }

    /// A receiver as it crosses: well formed, and then sometimes damaged.
    pub fn receiver(&mut self) -> ([usize; NUMBERS], [u8; ROW_BYTES]) {
        let k = self.usually(1, 9, MAX_K);
        let n = self.usually(1, 9, MAX_BITS);
        let q = self.usually(MIN_QUIET, 12, MAX_QUIET);
        let mode = self.pick(&[Mode::Hunting, Mode::Ready, Mode::Counting, Mode::Waiting]);
        let progress = matches!(mode, Mode::Counting | Mode::Waiting);
        let run = match (mode, self.below(3)) {
            (Mode::Ready, _) => q,
            (_, 0) => usize::from(progress),
            (_, 1) => q - 1,
            _ => self.within(1, q - 1),
        };
        let run_level = if run == 0 { 1 } else { self.below(2) as u8 };
        let left = match (mode, self.below(3)) {
            (Mode::Counting, 0) => 1,
            (Mode::Counting, 1) => k,
            (Mode::Counting, _) => self.within(1, k),
            _ => 0,
        };
        let level = match mode {
            Mode::Hunting => 1,
            Mode::Ready => run_level,
            Mode::Counting | Mode::Waiting => self.below(2) as u8,
        };
        let found = match (progress, self.below(3)) {
            (false, _) => 0,
            (_, 0) => n - 1,
            _ => self.below(n),
        };
        let mut bits = [0; ROW_BYTES];
        for i in 0..found {
            bits[i / 8] |= (self.below(2) as u8) << (i % 8);
        }
        let mut numbers = numbers_of(&Receiver {
            k,
            n,
            q,
            mode,
            run,
            run_level,
            left,
            level,
            found,
            bits,
        });
        if self.one_in(3) {
            self.damage_receiver(&mut numbers, &mut bits);
        }
        (numbers, bits)
    }

    fn usually(&mut self, least: usize, usual: usize, most: usize) -> usize {
        let up_to = if self.one_in(8) { most } else { usual };
        self.within(least, up_to)
    }

    fn damage_receiver(&mut self, numbers: &mut [usize; NUMBERS], bits: &mut [u8; ROW_BYTES]) {
        let (k, n, q) = (numbers[at::K], numbers[at::N], numbers[at::Q]);
        // Numbers at and just past the ends of what is well formed.
        let ends: [(usize, &[usize]); NUMBERS] = [
            (at::K, &[0, 1, MAX_K, MAX_K + 1]),
            (at::N, &[0, 1, MAX_BITS, MAX_BITS + 1]),
            (at::Q, &[MIN_QUIET - 1, MIN_QUIET, MAX_QUIET, MAX_QUIET + 1]),
            (at::MODE, &[0, 1, 2, 3, 4, 5, 256, 1 << 32, usize::MAX]),
            (at::RUN, &[0, q - 1, q, q + 1]),
            (at::RUN_LEVEL, &[0, 1, 2, 255, 256, 257, 1 << 32, usize::MAX]),
            (at::LEFT, &[0, 1, k, k + 1]),
            (at::LEVEL, &[0, 1, 2, 255, 256, 257, 1 << 32, usize::MAX]),
            (at::FOUND, &[0, 1, n - 1, n, n + 1]),
        ];
        for _ in 0..self.within(1, 2) {
            let (place, ends) = self.pick(&ends);
            match self.below(8) {
                0 => numbers[place] = numbers[place].wrapping_add(1),
                1 => numbers[place] = numbers[place].wrapping_sub(1),
                2 => numbers[place] ^= 1 << self.below(64),
                3..=5 => numbers[place] = self.pick(ends),
                6 => bits[self.below(ROW_BYTES)] ^= 1 << self.below(8),
                _ => {
                    let past = numbers[at::FOUND].min(1_023);
                    bits[past / 8] |= 1 << (past % 8);
                }
            }
        }
        if self.one_in(20) {
            numbers.fill_with(|| self.next() as usize);
        }
    }

    /// Reads such as bring events to a receiver of these numbers.
    pub fn reads_for(&mut self, numbers: &[usize; NUMBERS]) -> Vec<u8> {
        let (k, q) = (numbers[at::K], numbers[at::Q]);
        let length = self.length() * self.pick(&[1, 1, 4]);
        let near = self.pick(&[k, q, q.saturating_mul(3)]).max(1).min(400);
        let mut reads = match self.below(3) {
            0 => self.entries(length, 1),
            1 => self.runs(length, near, 2),
            _ => self.runs(length, (near / 2).max(1), 2),
        };
        self.damage(&mut reads, 1);
        reads
    }

    /// Bits of time code: words with any user bits and flags, mostly good, with noise before and between, which may have
    /// a mark of its own; now and then a word that is cut, a digit too great, or an entry that is no bit.
    pub fn time_code(&mut self) -> Vec<u8> {
        let mut bits = Vec::new();
        for _ in 0..self.below(5) {
            if self.one_in(3) {
                let length = self.below(100);
                bits.extend(self.entries(length, 1));
                if self.one_in(4) {
                    bits.extend(MARK);
                }
            }
            let start = bits.len();
            bits.extend(self.entries(64, 1));
            let time = [23, 59, 59, 24].map(|most| self.below(most + 1));
            put_time(&mut bits[start..], time);
            bits.extend(MARK);
            if self.one_in(8) {
                let place = start + self.below(80);
                bits[place] ^= 1;
            }
            if self.one_in(20) {
                let length = start + self.below(80);
                bits.truncate(length);
            }
        }
        if !bits.is_empty() && self.one_in(10) {
            self.damage(&mut bits, 1);
        }
        bits
    }

    /// The bytes of a capture, number by number, often with a fault somewhere.
    pub fn capture(&mut self) -> Vec<u8> {
        if self.one_in(12) {
            let mut bytes = Vec::new();
            let length = self.length();
            self.junk(&mut bytes, length);
            return bytes;
        }
        let mut bytes = Vec::new();
        let level = if self.one_in(40) {
            self.out_of(0, 1)
        } else {
            self.below(2)
        };
        for number in [self.k(), self.row_bits(), self.quiet(), level] {
            self.spell(number, &mut bytes);
        }
        let long = self.one_in(60);
        for _ in 0..self.pick(&[0, 1, 2, 7, 40]) {
            let run = match (long, self.below(120)) {
                (_, 0) => 0,
                (_, 1) => self.below(1 << 21),
                (true, _) => self.within(1, MAX_LIST / 2),
                (_, 2..=20) => self.within(1, 300),
                _ => self.within(1, 20),
            };
            self.spell(run, &mut bytes);
        }
        if self.one_in(8) && !bytes.is_empty() {
            match self.below(3) {
                0 => bytes.truncate(self.below(bytes.len())),
                1 => {
                    let place = self.below(bytes.len());
                    bytes[place] ^= 1 << self.below(8);
                }
                _ => bytes.push(self.next() as u8 | 0x80),
            }
        }
        bytes
    }

    /// A number in groups of seven bits, now and then in no proper form.
    fn spell(&mut self, number: usize, bytes: &mut Vec<u8>) {
        let mut rest = number % (1 << 21);
        while rest > 0x7f {
            bytes.push(rest as u8 | 0x80);
            rest >>= 7;
        }
        bytes.push(rest as u8);
        if self.one_in(150) {
            let last = bytes.len() - 1;
            bytes[last] |= 0x80;
            bytes.extend_from_slice(self.pick::<&[u8]>(&[
                &[0],
                &[0x80],
                &[0x80, 0],
                &[0x81, 0x80, 1],
                &[],
            ]));
        }
    }
}
