//! The rules of docs/RULES.md on "The row receiver": a state machine that takes one read at a time.

use crate::refusal::{need_setting, need_size, Refusal};
use crate::settings::{k_fits, quiet_fits, row_bits_fit, MAX_LIST};
use std::mem;

/// Bytes that hold the bits of the longest row.
pub const ROW_BYTES: usize = 128;

/// What the receiver is doing.
#[derive(Clone, Copy, Debug, PartialEq, Eq)]
pub enum Mode {
    /// Not enough equal reads yet to tell where a row starts.
    Hunting,
    /// The quiet has been heard; the next read that breaks it opens a row.
    Ready,
    /// In a row, between a mark and its sample.
    Counting,
    /// In a row, between a sample and the next mark.
    Waiting,
}

/// A report of the row receiver.
#[derive(Clone, Debug, PartialEq, Eq)]
pub enum Event {
    /// A whole row. Bit i is in byte i / 8 at weight 2^(i mod 8); places after the row's
    /// last bit are 0.
    Row([u8; ROW_BYTES]),
    /// A row in progress was given up; this many of its bits had been found.
    Broken(usize),
}

/// What listening to a list of reads came to.
#[derive(Clone, Debug, PartialEq, Eq)]
pub struct Heard {
    /// How many reads were taken; if there is an event, the last of them gave it.
    pub taken: usize,
    /// The first event, if the reads gave one.
    pub event: Option<Event>,
}

/// The state of the row receiver.
#[derive(Clone, Debug, PartialEq, Eq)]
pub struct Receiver {
    /// Sampling count, in reads.
    pub k: usize,
    /// Bits of a row.
    pub n: usize,
    /// Quiet count, in reads.
    pub q: usize,
    /// What the receiver is doing.
    pub mode: Mode,
    /// Latest equal reads, counted no further than `q`.
    pub run: usize,
    /// Level of those reads.
    pub run_level: u8,
    /// Reads left until the sample; 0 unless counting.
    pub left: usize,
    /// Level of the mark when counting, of the last sample when waiting, of the quiet when ready, and 1 when hunting.
    pub level: u8,
    /// Bits found of the row in progress.
    pub found: usize,
    /// Those bits, packed as in [`Event::Row`].
    pub bits: [u8; ROW_BYTES],
}

impl Receiver {
    /// The state that stands for a refused [`fresh`](Receiver::fresh): hunting, and every
    /// number 0. It is not well formed.
    pub const REFUSED: Receiver = Receiver {
        k: 0,
        n: 0,
        q: 0,
        mode: Mode::Hunting,
        run: 0,
        run_level: 0,
        left: 0,
        level: 0,
        found: 0,
        bits: [0; ROW_BYTES],
    };

    /// A receiver that has read nothing; refusal 1 for a setting out of range.
    pub fn fresh(k: usize, n: usize, q: usize) -> Result<Receiver, Refusal> {
        need_setting(k_fits(k) && row_bits_fit(n) && quiet_fits(q))?;
        Ok(Receiver {
            k,
            n,
            q,
            run_level: 1,
            level: 1,
            ..Receiver::REFUSED
        })
    }

    /// Whether the state is well formed, clause by clause; every state may be asked.
    pub fn well_formed(&self) -> bool {
        let mode_fits = match self.mode {
            Mode::Hunting => self.idle() && self.level == 1 && self.run < self.q,
            Mode::Ready => self.idle() && self.level == self.run_level && self.run == self.q,
            Mode::Counting => (1..=self.k).contains(&self.left) && (1..self.q).contains(&self.run),
            Mode::Waiting => self.left == 0 && (1..self.q).contains(&self.run),
        };
        k_fits(self.k)
            && row_bits_fit(self.n)
            && quiet_fits(self.q)
            && mode_fits
            && (self.run_level == 1 || self.run_level == 0 && self.run > 0)
            && self.level <= 1
            && self.found < self.n
            && self.unused_places_clear()
    }

    /// Takes one read and says what it gave.
    ///
    /// Refusal 1 for a state that is not well formed, then 2 for a read that is no level;
    /// the state is then as it was.
    pub fn step(&mut self, read: u8) -> Result<Option<Event>, Refusal> {
        need_setting(self.well_formed())?;
        if read > 1 {
            return Err(Refusal::entry(0));
        }
        let mut machine = self.machine();
        let report = machine.advance(read, &mut self.bits);
        self.take(machine);
        Ok(report.map(|report| report.event(&mut self.bits)))
    }

    /// Takes reads up to and with the first that gives an event, or all of them.
    ///
    /// Refusal 1 for a state that is not well formed, 3 for too long a list, 2 for the first
    /// entry that is no level, unless an event comes before it. The state is then as it was.
    pub fn listen(&mut self, reads: &[u8]) -> Result<Heard, Refusal> {
        need_setting(self.well_formed())?;
        need_size(reads.len(), MAX_LIST)?;
        let mut machine = self.machine();
        let mut bits = self.bits;
        let mut heard = Heard {
            taken: reads.len(),
            event: None,
        };
        for (place, &read) in reads.iter().enumerate() {
            if read > 1 {
                return Err(Refusal::entry(place));
            }
            if let Some(report) = machine.advance(read, &mut bits) {
                heard.taken = place + 1;
                heard.event = Some(report.event(&mut bits));
                break;
            }
        }
        self.take(machine);
        self.bits = bits;
        Ok(heard)
    }

    /// The receiver's numbers without its bits.
    pub(crate) fn machine(&self) -> Machine {
        Machine {
            k: self.k,
            n: self.n,
            q: self.q,
            mode: self.mode,
            run: self.run,
            run_level: self.run_level,
            left: self.left,
            level: self.level,
            found: self.found,
        }
    }

    /// Takes over what reads have changed in `machine`.
    fn take(&mut self, machine: Machine) {
        self.mode = machine.mode;
        self.run = machine.run;
        self.run_level = machine.run_level;
        self.left = machine.left;
        self.level = machine.level;
        self.found = machine.found;
    }

    /// What "well formed" asks of hunting and ready alike.
    fn idle(&self) -> bool {
        self.left == 0 && self.found == 0
    }

    /// Whether all bit places from `found` on are 0; `found` is below the greatest n.
    fn unused_places_clear(&self) -> bool {
        // In words of 128 places: the one with the first unused place, and those after it.
        let (word, after) = self.bits[self.found / 128 * 16..].split_at(16);
        let first = little_endian(word) >> (self.found % 128);
        let words = after.chunks_exact(16).map(little_endian);
        words.fold(first, |all, word| all | word) == 0
    }
}

/// A receiver whose state nobody else can change, so that no read has to judge it.
#[derive(Clone, Debug)]
pub struct Listener {
    machine: Machine,
    bits: [u8; ROW_BYTES],
    row: [u8; ROW_BYTES],
}

impl Listener {
    /// A receiver that has read nothing; refusal 1 for a setting out of range.
    pub fn new(k: usize, n: usize, q: usize) -> Result<Listener, Refusal> {
        let fresh = Receiver::fresh(k, n, q)?;
        Ok(Listener {
            machine: fresh.machine(),
            bits: fresh.bits,
            row: fresh.bits,
        })
    }

    /// Takes one read, 0 or 1, and says what it gave.
    #[inline]
    pub fn read(&mut self, read: u8) -> Option<Report> {
        let report = self.machine.advance(read, &mut self.bits)?;
        let bits = mem::replace(&mut self.bits, [0; ROW_BYTES]);
        if report == Report::Row {
            self.row = bits;
        }
        Some(report)
    }

    /// The row delivered last, packed as in [`Event::Row`]; zeros before the first.
    pub fn row(&self) -> &[u8; ROW_BYTES] {
        &self.row
    }
}

/// An [`Event`] whose row stands elsewhere.
#[derive(Clone, Copy, Debug, PartialEq, Eq)]
pub enum Report {
    /// A whole row.
    Row,
    /// A row in progress was given up; this many of its bits had been found.
    Broken(usize),
}

impl Report {
    /// The event, with the row's bits taken out of `bits`; the next row starts without any.
    fn event(self, bits: &mut [u8; ROW_BYTES]) -> Event {
        let row = mem::replace(bits, [0; ROW_BYTES]);
        match self {
            Report::Row => Event::Row(row),
            Report::Broken(found) => Event::Broken(found),
        }
    }
}

/// A [`Receiver`] without its bits, so that a loop over reads can keep it in registers. The
/// rule for each read is here.
#[derive(Clone, Copy, Debug)]
pub(crate) struct Machine {
    k: usize,
    n: usize,
    q: usize,
    mode: Mode,
    run: usize,
    run_level: u8,
    left: usize,
    level: u8,
    found: usize,
}

impl Machine {
    /// One read that is 0 or 1, for a machine and bits that are well formed together. They
    /// stay so without a report; after one the bits are the row's, and the caller clears them.
    #[inline]
    pub(crate) fn advance(&mut self, read: u8, bits: &mut [u8; ROW_BYTES]) -> Option<Report> {
        if read != self.run_level {
            self.run_level = read;
            self.run = 1;
        } else if self.run < self.q {
            self.run += 1;
        }
        if self.run == self.q {
            return self.quiet();
        }
        match self.mode {
            Mode::Hunting => {}
            // A read of the run's level would have kept the run at Q, so this one differs.
            Mode::Ready => self.mark(read),
            Mode::Counting => {
                self.left -= 1;
                if self.left == 0 {
                    return self.sample(read, bits);
                }
            }
            Mode::Waiting => {
                if read != self.level {
                    self.mark(read);
                }
            }
        }
        None
    }

    /// The run has its full length: a row in progress is broken off.
    #[inline]
    fn quiet(&mut self) -> Option<Report> {
        let (mode, found) = (self.mode, self.found);
        self.forget(Mode::Ready, self.run_level);
        if mode == Mode::Hunting || mode == Mode::Ready {
            return None;
        }
        Some(Report::Broken(found))
    }

    #[inline]
    fn mark(&mut self, read: u8) {
        self.mode = Mode::Counting;
        self.left = self.k;
        self.level = read;
    }

    /// The sample's read: one more bit, 1 if it is not the mark's level.
    #[inline]
    fn sample(&mut self, read: u8, bits: &mut [u8; ROW_BYTES]) -> Option<Report> {
        bits[self.found / 8] |= (read ^ self.level) << (self.found % 8);
        self.found += 1;
        if self.found == self.n {
            self.forget(Mode::Hunting, 1);
            return Some(Report::Row);
        }
        self.mode = Mode::Waiting;
        self.level = read;
        None
    }

    /// Leaves the row in progress for `mode`, keeping `level`; the run goes on.
    #[inline]
    fn forget(&mut self, mode: Mode, level: u8) {
        self.mode = mode;
        self.left = 0;
        self.level = level;
        self.found = 0;
    }
}

/// Sixteen bytes as one word, the first byte lowest.
fn little_endian(bytes: &[u8]) -> u128 {
    let mut word = [0; 16];
    word.copy_from_slice(bytes);
    u128::from_le_bytes(word)
}
