//! The rules of docs/RULES.md on stored plans, in "Sending": from a plan whose rows have trail
//! pads to one whose rows have none.

use crate::refusal::{need_output, need_setting, need_size, Refusal};
use crate::settings::{pad_fits, MAX_ROWS};

/// What is told of a stored plan that was read.
#[derive(Clone, Copy, Debug, PartialEq, Eq)]
pub struct Joined {
    /// How many rows it has, each with a lead pad in the output.
    pub rows: usize,
    /// How many cycles were dropped, since no row follows them.
    pub dropped: usize,
}

/// Reads a stored plan: writes for each row its lead pad together with the trail pad of the
/// row before.
///
/// Refuses with 1 for no row, lists of different length or a pad out of range, then with 1
/// at its place for the first row whose lead pad becomes too long, 3 for too many rows, 4
/// for too short an output.
pub fn read_plan(leads: &[usize], trails: &[usize], out: &mut [usize]) -> Result<Joined, Refusal> {
    let rows = leads.len();
    need_setting(
        rows > 0 && trails.len() == rows && leads.iter().chain(trails).all(|&pad| pad_fits(pad)),
    )?;
    let joined = || {
        let before = std::iter::once(&0).chain(trails);
        leads.iter().zip(before).map(|(lead, before)| before + lead)
    };
    if let Some(row) = joined().position(|lead| !pad_fits(lead)) {
        return Err(Refusal::row(row));
    }
    need_size(rows, MAX_ROWS)?;
    for (place, lead) in need_output(out, rows)?.iter_mut().zip(joined()) {
        *place = lead;
    }
    let dropped = trails[rows - 1];
    Ok(Joined { rows, dropped })
}
