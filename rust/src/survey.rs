//! The rules of docs/RULES.md on "The survey of a region": counts the boards that the judge accepts, and finds for M1,
//! M2 and M3 the board that is worst off, as numbers and as text.

use crate::refusal::{need_output, need_setting, need_size, Refusal};
use crate::settings::judge;

/// Most boards of a region.
pub const MAX_BOARDS: usize = 4_096;

/// What is told of a region that has a board.
#[derive(Clone, Copy, Debug, PartialEq, Eq)]
pub struct Survey {
    /// How many boards are accepted.
    pub accepted: usize,
    /// The smallest of M1, M2 and M3, each with the first place that has it.
    pub smallest: [(i64, usize); 3],
}

/// The survey of a region, whose lists are a, b, g, k, w and r with an entry each for every board. A region with no
/// boards has nothing that is smallest.
///
/// Refuses with 1 for lists of unequal length, with 1 at its place for the first board that has a setting out of range,
/// and with 3 for more than 4,096 boards.
pub fn survey(lists: [&[usize]; 6]) -> Result<Option<Survey>, Refusal> {
    let boards = lists[0].len();
    need_setting(lists.iter().all(|list| list.len() == boards))?;
    let mut verdicts = Vec::with_capacity(boards);
    for place in 0..boards {
        let [a, b, g, k, w, r] = lists.map(|list| list[place]);
        let verdict = judge(a, b, g, k, w as u64, r as u64);
        verdicts.push(verdict.map_err(|_| Refusal::board(place))?);
    }
    need_size(boards, MAX_BOARDS)?;
    if boards == 0 {
        return Ok(None);
    }
    // All margins of a kind in order, of equals the one of the first board first.
    let first = |margin: usize| {
        let mut order: Vec<(i64, usize)> = (0..boards)
            .map(|place| (verdicts[place].margins[margin], place))
            .collect();
        order.sort_unstable();
        order[0]
    };
    Ok(Some(Survey {
        accepted: verdicts.iter().filter(|verdict| verdict.accepted).count(),
        smallest: [first(0), first(1), first(2)],
    }))
}

/// The lines of the survey at the front of a lent output, and how many bytes they have.
///
/// Refuses as [`survey`] does, and then with 4 for too short an output.
pub fn survey_lines(lists: [&[usize]; 6], out: &mut [u8]) -> Result<usize, Refusal> {
    let found = survey(lists)?;
    let mut lines = format!("accepted {}\n", found.map_or(0, |found| found.accepted));
    for margin in 0..3 {
        let name = margin + 1;
        lines += &match found {
            Some(found) => {
                let (value, place) = found.smallest[margin];
                format!("M{} {} at {}\n", name, value, place)
            }
            None => format!("M{} - at -\n", name),
        };
    }
    need_output(out, lines.len())?.copy_from_slice(lines.as_bytes());
    Ok(lines.len())
}
