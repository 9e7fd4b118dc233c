//! The rules of docs/RULES.md on "Capture file": settings and reads as run lengths.

use crate::refusal::{need_entries, need_output, need_setting, need_size, Refusal};
use crate::settings::{
    k_fits, quiet_fits, row_bits_fit, MAX_BITS, MAX_CAPTURE, MAX_K, MAX_LIST, MAX_QUIET, MIN_QUIET,
};

/// Greatest number that three groups of seven bits hold.
pub const MAX_NUMBER: usize = 0x1f_ffff;

/// What a capture says apart from its reads.
#[derive(Clone, Copy, Debug, PartialEq, Eq)]
pub struct Summary {
    /// Sampling count.
    pub k: usize,
    /// Bits of a row.
    pub n: usize,
    /// Quiet count.
    pub q: usize,
    /// How many reads the runs add up to.
    pub reads: usize,
}

/// Reads the numbers of a capture one after another.
#[derive(Clone, Debug)]
pub struct Reader<'a> {
    bytes: &'a [u8],
    place: usize,
}

impl<'a> Reader<'a> {
    /// A reader at the first byte; refusal 3 if there are more bytes than a capture has.
    pub fn new(bytes: &'a [u8]) -> Result<Reader<'a>, Refusal> {
        need_size(bytes.len(), MAX_CAPTURE)?;
        Ok(Reader { bytes, place: 0 })
    }

    /// Place of the next byte.
    pub fn place(&self) -> usize {
        self.place
    }

    /// Whether no byte is left.
    pub fn at_end(&self) -> bool {
        self.place == self.bytes.len()
    }

    /// The next number, or refusal 6 or 7 at its first byte, which is then still the next.
    pub fn number(&mut self) -> Result<usize, Refusal> {
        let (value, length) = match self.bytes[self.place..] {
            [low @ 0..=0x7f, ..] => (group(low), 1),
            // A last group of zero could have been left out.
            [_, 0, ..] => return Err(Refusal::form(self.place)),
            [low, mid @ 0..=0x7f, ..] => (group(low) | group(mid) << 7, 2),
            [_, _, 0 | 0x80..=0xff, ..] => return Err(Refusal::form(self.place)),
            [low, mid, high, ..] => (group(low) | group(mid) << 7 | group(high) << 14, 3),
            [] | [_] | [_, _] => return Err(Refusal::cut(self.place)),
        };
        self.place += length;
        Ok(value)
    }

    /// The next number if it is from `least` to `most`, else refusal 8 at its first byte.
    fn number_within(&mut self, least: usize, most: usize) -> Result<usize, Refusal> {
        let place = self.place;
        let value = self.number()?;
        if (least..=most).contains(&value) {
            Ok(value)
        } else {
            Err(Refusal::range(place))
        }
    }
}

/// The seven bits a byte carries.
fn group(byte: u8) -> usize {
    usize::from(byte & 0x7f)
}

/// Writes one number in shortest form and returns its length in bytes.
///
/// Refusal 1 if three bytes cannot hold it, 4 if `out` is too short.
pub fn write_number(value: usize, out: &mut [u8]) -> Result<usize, Refusal> {
    need_setting(value <= MAX_NUMBER)?;
    let out = need_output(out, number_length(value))?;
    Ok(put_number(value, out))
}

/// Bytes of a number's shortest form.
fn number_length(value: usize) -> usize {
    match value {
        0..=0x7f => 1,
        0x80..=0x3fff => 2,
        _ => 3,
    }
}

/// Writes a number to the front of `out`, which has the room, and returns its length.
fn put_number(value: usize, out: &mut [u8]) -> usize {
    let mut rest = value;
    let mut length = 0;
    while rest > 0x7f {
        out[length] = rest as u8 | 0x80;
        rest >>= 7;
        length += 1;
    }
    out[length] = rest as u8;
    length + 1
}

/// A capture without fault: what it says, and its runs from the first.
pub(crate) struct Checked<'a> {
    pub(crate) summary: Summary,
    pub(crate) runs: Runs<'a>,
}

/// The runs of a checked capture, as level and length.
pub(crate) struct Runs<'a> {
    level: u8,
    reader: Reader<'a>,
}

impl Iterator for Runs<'_> {
    type Item = (u8, usize);

    fn next(&mut self) -> Option<(u8, usize)> {
        // Every number has been read once, so only the end of the bytes is left to refuse.
        let length = self.reader.number().ok()?;
        let level = self.level;
        self.level ^= 1;
        Some((level, length))
    }
}

/// Goes through a whole capture, number by number from the left.
pub(crate) fn checked(bytes: &[u8]) -> Result<Checked<'_>, Refusal> {
    let mut reader = Reader::new(bytes)?;
    let k = reader.number_within(1, MAX_K)?;
    let n = reader.number_within(1, MAX_BITS)?;
    let q = reader.number_within(MIN_QUIET, MAX_QUIET)?;
    let level_place = reader.place();
    let level = reader.number_within(0, 1)? as u8;
    if level == 0 && reader.at_end() {
        return Err(Refusal::range(level_place));
    }
    let runs = Runs {
        level,
        reader: reader.clone(),
    };
    let mut reads = 0;
    while !reader.at_end() {
        // Neither an empty run nor one that takes the total past the limit.
        reads += reader.number_within(1, MAX_LIST - reads)?;
    }
    let summary = Summary { k, n, q, reads };
    Ok(Checked { summary, runs })
}

/// Checks a capture and says what it holds.
///
/// Refuses with 3 for too many bytes, then with 6, 7 or 8 at the first number at fault.
pub fn check(bytes: &[u8]) -> Result<Summary, Refusal> {
    Ok(checked(bytes)?.summary)
}

/// Checks a capture and writes its reads to the front of `out`.
///
/// Refuses as [`check`] does, and last with 4 for too short an output.
pub fn read(bytes: &[u8], out: &mut [u8]) -> Result<Summary, Refusal> {
    let Checked { summary, runs } = checked(bytes)?;
    let mut rest = need_output(out, summary.reads)?;
    for (level, length) in runs {
        let (run, after) = rest.split_at_mut(length);
        run.fill(level);
        rest = after;
    }
    Ok(summary)
}

/// Writes the capture of `reads` and returns its length in bytes.
///
/// Refuses with 1 for a setting, 3 for too many reads, 2 for a read that is no level, 4 for
/// too short an output.
pub fn write(k: usize, n: usize, q: usize, reads: &[u8], out: &mut [u8]) -> Result<usize, Refusal> {
    need_setting(k_fits(k) && row_bits_fit(n) && quiet_fits(q))?;
    need_size(reads.len(), MAX_LIST)?;
    need_entries(reads, 1)?;
    let level = usize::from(reads.first().copied().unwrap_or(1));
    let header = [k, n, q, level];
    let numbers = || header.iter().copied().chain(run_lengths(reads));
    let length: usize = numbers().map(number_length).sum();
    let out = need_output(out, length)?;
    let mut place = 0;
    for number in numbers() {
        place += put_number(number, &mut out[place..]);
    }
    Ok(length)
}

/// Lengths of the runs of equal reads, in order.
fn run_lengths(reads: &[u8]) -> impl Iterator<Item = usize> + '_ {
    let mut rest = reads;
    std::iter::from_fn(move || {
        let level = *rest.first()?;
        let length = rest
            .iter()
            .position(|&read| read != level)
            .unwrap_or(rest.len());
        rest = &rest[length..];
        Some(length)
    })
}
