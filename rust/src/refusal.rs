//! The rules of docs/RULES.md on "Refusal numbers": the refusals, and the checks that lead to 1 to 4.

use std::fmt;

/// Why an operation refused: the number from the rules' table and the place of the fault.
#[derive(Clone, Copy, Debug, PartialEq, Eq, Hash)]
pub struct Refusal {
    /// 1 to 13, as in the table of refusal numbers.
    pub number: u8,
    /// Place of the bad entry, row or board, or of the bad number's first byte; 0 where none is kept.
    pub place: usize,
}

impl Refusal {
    /// A setting, a level in force, a plan's lists or a receiver state is unfit.
    pub(crate) const SETTING: Refusal = Refusal::new(1, 0);
    /// A list, or a list that would come out, is over its limit.
    pub(crate) const SIZE: Refusal = Refusal::new(3, 0);
    /// The lent output cannot hold the result.
    pub(crate) const OUTPUT: Refusal = Refusal::new(4, 0);
    /// No sampling count has three margins of zero or more.
    pub(crate) const NO_COUNT: Refusal = Refusal::new(9, 0);
    /// A read number is not above all in use.
    pub(crate) const NOT_LATER: Refusal = Refusal::new(12, 0);
    /// A log's stored count is not that of its broken records.
    pub(crate) const MISCOUNTED: Refusal = Refusal::new(13, 0);

    pub(crate) const fn new(number: u8, place: usize) -> Refusal {
        Refusal { number, place }
    }

    /// A row of a stored plan gets too long a lead pad.
    pub(crate) const fn row(place: usize) -> Refusal {
        Refusal::new(1, place)
    }

    /// A board of a region has a setting out of range.
    pub(crate) const fn board(place: usize) -> Refusal {
        Refusal::new(1, place)
    }

    /// An entry is not of the kind taken.
    pub(crate) const fn entry(place: usize) -> Refusal {
        Refusal::new(2, place)
    }

    /// The counted receiver found no further mark or sample; the place is its current read.
    pub(crate) const fn ran_out(place: usize) -> Refusal {
        Refusal::new(5, place)
    }

    /// A word of time code holds no time.
    pub(crate) const fn bad_word(place: usize) -> Refusal {
        Refusal::new(10, place)
    }

    /// The bytes end before or inside a number.
    pub(crate) const fn cut(place: usize) -> Refusal {
        Refusal::new(6, place)
    }

    /// A number is too long or not in shortest form.
    pub(crate) const fn form(place: usize) -> Refusal {
        Refusal::new(7, place)
    }

    /// A cell has no edge at its start.
    pub(crate) const fn no_edge(place: usize) -> Refusal {
        Refusal::new(11, place)
    }

    /// A number does not fit its place in a capture.
    pub(crate) const fn range(place: usize) -> Refusal {
        Refusal::new(8, place)
    }
}

impl fmt::Display for Refusal {
    fn fmt(&self, f: &mut fmt::Formatter<'_>) -> fmt::Result {
        write!(f, "refused {} at {}", self.number, self.place)
    }
}

impl std::error::Error for Refusal {}

/// Refusal 1 unless `fit`.
pub(crate) fn need_setting(fit: bool) -> Result<(), Refusal> {
    if fit {
        Ok(())
    } else {
        Err(Refusal::SETTING)
    }
}

/// Refusal 3 if `length` is over `limit`.
pub(crate) fn need_size(length: usize, limit: usize) -> Result<(), Refusal> {
    if length <= limit {
        Ok(())
    } else {
        Err(Refusal::SIZE)
    }
}

/// Refusal 2 at the first entry above `greatest`.
pub(crate) fn need_entries(list: &[u8], greatest: u8) -> Result<(), Refusal> {
    // The good case is one pass that never stops early, which the compiler can vectorise.
    if list.iter().fold(0, |most, &entry| entry.max(most)) <= greatest {
        return Ok(());
    }
    match list.iter().position(|&entry| entry > greatest) {
        Some(place) => Err(Refusal::entry(place)),
        None => Ok(()),
    }
}

/// The front of a lent output that takes a result of `length` entries; refusal 4 if it is
/// too short for that.
pub(crate) fn need_output<T>(out: &mut [T], length: usize) -> Result<&mut [T], Refusal> {
    out.get_mut(..length).ok_or(Refusal::OUTPUT)
}
