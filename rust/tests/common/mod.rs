//! What the tests share: a generator, lent outputs, and slow plain models of the rules.

#![allow(dead_code)]

use siengulot_plain::board::{Event, Mode, Receiver, ROW_BYTES};
use siengulot_plain::Refusal;

/// A xorshift generator; the same seed gives the same numbers.
pub struct Rng(u64);

impl Rng {
    pub fn new(seed: u64) -> Rng {
        let mut rng = Rng(seed.wrapping_mul(0x9e37_79b9_7f4a_7c15) | 1);
        for _ in 0..8 {
            rng.next();
        }
        rng
    }

    pub fn next(&mut self) -> u64 {
        self.0 ^= self.0 << 13;
        self.0 ^= self.0 >> 7;
        self.0 ^= self.0 << 17;
        self.0
    }

    /// From 0 to `bound` - 1.
    pub fn below(&mut self, bound: usize) -> usize {
        ((self.next() >> 16) % bound as u64) as usize
    }

    /// From `least` to `most`.
    pub fn within(&mut self, least: usize, most: usize) -> usize {
        least + self.below(most - least + 1)
    }

    pub fn entries(&mut self, length: usize, greatest: u8) -> Vec<u8> {
        (0..length)
            .map(|_| self.below(usize::from(greatest) + 1) as u8)
            .collect()
    }

    pub fn bits(&mut self, length: usize) -> Vec<u8> {
        self.entries(length, 1)
    }

    /// Reads of one of several kinds, from even noise to long runs.
    pub fn reads(&mut self, length: usize) -> Vec<u8> {
        match self.below(6) {
            0 => vec![0; length],
            1 => vec![1; length],
            2 => self.bits(length),
            3 => self.runs(length, 4),
            4 => self.runs(length, 40),
            _ => (0..length).map(|_| u8::from(self.below(8) > 0)).collect(),
        }
    }

    /// Alternating runs of up to `longest` reads.
    pub fn runs(&mut self, length: usize, longest: usize) -> Vec<u8> {
        let mut reads = Vec::with_capacity(length);
        let mut level = self.below(2) as u8;
        while reads.len() < length {
            let run = self.within(1, longest).min(length - reads.len());
            reads.resize(reads.len() + run, level);
            level ^= 1;
        }
        reads
    }
}

/// What stands in a lent output before it is lent.
pub const UNTOUCHED: u8 = 0xa5;

/// An output to lend.
pub fn lent(length: usize) -> Vec<u8> {
    vec![UNTOUCHED; length]
}

/// Whether `out` begins with `result` and is untouched after it.
pub fn holds(out: &[u8], result: &[u8]) -> bool {
    out.len() >= result.len()
        && out[..result.len()] == *result
        && out[result.len()..].iter().all(|&byte| byte == UNTOUCHED)
}

pub fn refusal(number: u8, place: usize) -> Refusal {
    Refusal { number, place }
}

/// Bits packed as the row receiver packs them.
pub fn packed(bits: &[u8]) -> [u8; ROW_BYTES] {
    let mut bytes = [0; ROW_BYTES];
    for (i, &bit) in bits.iter().enumerate() {
        bytes[i / 8] |= bit << (i % 8);
    }
    bytes
}

/// Feeds reads one by one and returns every event with the place of its read.
pub fn feed(receiver: &mut Receiver, reads: &[u8]) -> Vec<(usize, Event)> {
    let mut events = Vec::new();
    for (place, &read) in reads.iter().enumerate() {
        let event = receiver
            .step(read)
            .expect("a level for a well-formed state");
        events.extend(event.map(|event| (place, event)));
    }
    events
}

/// The counted rule written out: bits and the places of their samples, as many of `n` as
/// the reads give.
pub fn counted_model(n: usize, level: u8, k: usize, reads: &[u8]) -> (Vec<u8>, Vec<usize>) {
    let (mut bits, mut samples) = (Vec::new(), Vec::new());
    let (mut level, mut current) = (level, 0);
    while bits.len() < n {
        while current < reads.len() && reads[current] == level {
            current += 1;
        }
        if current + k >= reads.len() {
            break;
        }
        let mark = reads[current];
        current += k;
        level = reads[current];
        bits.push(u8::from(level != mark));
        samples.push(current);
    }
    (bits, samples)
}

/// The read-count law.
pub fn count_model(cycles: usize, w: u64, r: u64, p: u64) -> usize {
    if cycles == 0 {
        0
    } else {
        ((cycles as u64 * w - p) / r) as usize
    }
}

/// Warp told by times: a read is the level on which all the cycles agree that overlap it,
/// where to touch is not to overlap.
pub fn warp_model(w: u64, r: u64, p: u64, cycles: &[u8]) -> Vec<u8> {
    let count = count_model(cycles.len(), w, r, p) as u64;
    (0..count)
        .map(|j| {
            let (start, end) = (p + j * r, p + (j + 1) * r);
            let mut shared = (0u64..)
                .zip(cycles)
                .filter(|&(i, _)| i * w < end && (i + 1) * w > start)
                .map(|(_, &level)| level);
            let first = shared.next().expect("a read lies within the cycles");
            if shared.all(|level| level == first) {
                first
            } else {
                2
            }
        })
        .collect()
}

/// The row receiver with its modes as they are told: only what a mode needs is kept.
#[derive(Clone, Debug)]
pub struct RowModel {
    k: usize,
    n: usize,
    q: usize,
    /// The level of the latest reads, and how many they are, up to Q.
    run: (u8, usize),
    doing: Doing,
}

#[derive(Clone, Debug)]
enum Doing {
    Hunting,
    Ready {
        level: u8,
    },
    Counting {
        left: usize,
        mark: u8,
        bits: Vec<u8>,
    },
    Waiting {
        level: u8,
        bits: Vec<u8>,
    },
}

impl RowModel {
    pub fn new(k: usize, n: usize, q: usize) -> RowModel {
        RowModel {
            k,
            n,
            q,
            run: (1, 0),
            doing: Doing::Hunting,
        }
    }

    /// The next model and the event of this read.
    pub fn read(self, read: u8) -> (RowModel, Option<Event>) {
        let RowModel { k, n, q, run, .. } = self;
        let before = if read == run.0 { run.1 } else { 0 };
        let run = (read, (before + 1).min(q));
        let (doing, event) = if run.1 == q {
            let ready = Doing::Ready { level: read };
            match self.doing {
                Doing::Hunting | Doing::Ready { .. } => (ready, None),
                Doing::Counting { bits, .. } | Doing::Waiting { bits, .. } => {
                    (ready, Some(Event::Broken(bits.len())))
                }
            }
        } else {
            match self.doing {
                Doing::Ready { level } if read != level => {
                    let (left, mark, bits) = (k, read, Vec::new());
                    (Doing::Counting { left, mark, bits }, None)
                }
                Doing::Waiting { level, bits } if read != level => {
                    let (left, mark) = (k, read);
                    (Doing::Counting { left, mark, bits }, None)
                }
                Doing::Counting {
                    left: 1,
                    mark,
                    mut bits,
                } => {
                    bits.push(u8::from(read != mark));
                    if bits.len() == n {
                        (Doing::Hunting, Some(Event::Row(packed(&bits))))
                    } else {
                        (Doing::Waiting { level: read, bits }, None)
                    }
                }
                Doing::Counting { left, mark, bits } => {
                    let left = left - 1;
                    (Doing::Counting { left, mark, bits }, None)
                }
                same => (same, None),
            }
        };
        let next = RowModel {
            k,
            n,
            q,
            run,
            doing,
        };
        (next, event)
    }

    /// The state a receiver has that is where the model is.
    pub fn receiver(&self) -> Receiver {
        let (mode, left, level, bits): (_, _, _, &[u8]) = match &self.doing {
            Doing::Hunting => (Mode::Hunting, 0, 1, &[]),
            Doing::Ready { level } => (Mode::Ready, 0, *level, &[]),
            Doing::Counting { left, mark, bits } => (Mode::Counting, *left, *mark, bits),
            Doing::Waiting { level, bits } => (Mode::Waiting, 0, *level, bits),
        };
        Receiver {
            k: self.k,
            n: self.n,
            q: self.q,
            mode,
            run: self.run.1,
            run_level: self.run.0,
            left,
            level,
            found: bits.len(),
            bits: packed(bits),
        }
    }
}

/// Settings whose margins are all zero or more, often just so.
#[derive(Clone, Copy, Debug)]
pub struct Accepted {
    pub a: usize,
    pub b: usize,
    pub g: usize,
    pub k: usize,
    pub w: u64,
    pub r: u64,
    pub q: usize,
    /// The least lead pad that goes with them.
    pub p1: usize,
}

impl Accepted {
    pub fn random(rng: &mut Rng) -> Accepted {
        loop {
            let most = [4, 12, 100, 65_535][rng.below(4)];
            let (w, r) = (rng.within(1, most), rng.within(1, most));
            let up = |dividend: usize, divisor: usize| (dividend + divisor - 1) / divisor;
            let spare = |rng: &mut Rng| rng.below(2) * rng.below(4);
            let most = [1, 3, 12, 64][rng.below(4)];
            let g = rng.within(1, most);
            let a = g + up(2 * r, w) + spare(rng);
            let k = 1 + up((a + g) * w, r) + spare(rng);
            let b = (g + up((k + 2) * r, w)).saturating_sub(a).max(1) + spare(rng);
            let q = 2 + up((a + b + g) * w, r) + spare(rng);
            let p1 = g + up((q + 1) * r, w);
            // Large settings say nothing new here and make the test slow.
            if a > 100 || b > 150 || k > 200 || q > 400 || p1 > 400 {
                continue;
            }
            let (w, r) = (w as u64, r as u64);
            return Accepted {
                a,
                b,
                g,
                k,
                w,
                r,
                q,
                p1,
            };
        }
    }
}

/// The reads of a wave through all three passes.
pub fn through_the_line(
    wave: &[u8],
    g: usize,
    w: u64,
    r: u64,
    p: u64,
    choices: &[u8],
) -> Vec<u8> {
    use siengulot_plain::line::{settle, smooth, warp};
    let mut smoothed = lent(wave.len());
    smooth(g, wave, &mut smoothed).unwrap();
    let mut warped = lent(count_model(wave.len(), w, r, p));
    warp(w, r, p, &smoothed, &mut warped).unwrap();
    let mut settled = lent(warped.len());
    settle(&warped, choices, &mut settled).unwrap();
    settled
}
