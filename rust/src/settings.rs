//! The rules of docs/RULES.md on "Numbers and their ranges" and "Margins": the limits of every number, and
//! whether settings are accepted.

use crate::refusal::{need_setting, Refusal};

/// Greatest mark or code subcell, in writer cycles; the least is 1.
pub const MAX_SUBCELL: usize = 255;
/// Greatest settling count, in writer cycles; the least is 1.
pub const MAX_G: usize = 64;
/// Greatest sampling count, in read cycles; the least is 1.
pub const MAX_K: usize = 511;
/// Greatest length of a writer or read cycle, in time units; the least is 1.
pub const MAX_CYCLE: u64 = 65_535;
/// Greatest pad, in writer cycles.
pub const MAX_PAD: usize = 65_535;
/// Greatest number of bits in a message or row.
pub const MAX_BITS: usize = 1_024;
/// Least quiet count, in reads.
pub const MIN_QUIET: usize = 2;
/// Greatest quiet count, in reads.
pub const MAX_QUIET: usize = 8_191;
/// Most rows of a plan.
pub const MAX_ROWS: usize = 1_024;
/// Most cycles, reads or choices in a list.
pub const MAX_LIST: usize = 1_048_576;
/// Most bytes of a capture.
pub const MAX_CAPTURE: usize = 1_048_583;
/// Most bytes of a message that goes out as words of half cells, and most such words.
pub const MAX_WORDS: usize = 128;
/// The records of a log.
pub const RECORDS: usize = 64;
/// Most bytes the rows program takes.
pub const MAX_INPUT: usize = 65_536;

/// The margins of judged settings, and whether all of them are zero or more.
///
/// `Verdict<3>` holds M1 to M3, `Verdict<5>` holds M1 to M5.
#[derive(Clone, Copy, Debug, PartialEq, Eq)]
pub struct Verdict<const M: usize> {
    /// The margins in order, M1 first.
    pub margins: [i64; M],
    /// Yes or no.
    pub accepted: bool,
}

impl<const M: usize> Verdict<M> {
    fn of(margins: [i64; M]) -> Self {
        Verdict {
            margins,
            accepted: margins.iter().all(|&margin| margin >= 0),
        }
    }
}

pub(crate) fn subcell_fits(cycles: usize) -> bool {
    (1..=MAX_SUBCELL).contains(&cycles)
}

pub(crate) fn g_fits(g: usize) -> bool {
    (1..=MAX_G).contains(&g)
}

pub(crate) fn k_fits(k: usize) -> bool {
    (1..=MAX_K).contains(&k)
}

pub(crate) fn cycle_fits(length: u64) -> bool {
    (1..=MAX_CYCLE).contains(&length)
}

/// The least and the greatest length of a clock's cycles: both in range, and in order.
pub(crate) fn ends_fit([least, most]: [u64; 2]) -> bool {
    cycle_fits(least) && cycle_fits(most) && least <= most
}

pub(crate) fn pad_fits(pad: usize) -> bool {
    pad <= MAX_PAD
}

/// The range of n where a row is meant, and not a message.
pub(crate) fn row_bits_fit(n: usize) -> bool {
    (1..=MAX_BITS).contains(&n)
}

pub(crate) fn quiet_fits(q: usize) -> bool {
    (MIN_QUIET..=MAX_QUIET).contains(&q)
}

/// "Margins" of steady clocks: M1, M2 and M3, and whether the settings are accepted. A "no" comes with its margins too.
///
/// Refuses with 1 for a setting out of range.
pub fn judge(
    a: usize,
    b: usize,
    g: usize,
    k: usize,
    w: u64,
    r: u64,
) -> Result<Verdict<3>, Refusal> {
    judge_ends(a, b, g, k, [w, w], [r, r])
}

/// "Margins": M1, M2 and M3 over the ends of two clocks, the least and the greatest length of a writer cycle and of a
/// read, and whether the settings are accepted.
///
/// Refuses with 1 for a setting out of range.
pub fn judge_ends(
    a: usize,
    b: usize,
    g: usize,
    k: usize,
    w: [u64; 2],
    r: [u64; 2],
) -> Result<Verdict<3>, Refusal> {
    need_setting(
        subcell_fits(a) && subcell_fits(b) && g_fits(g) && k_fits(k) && ends_fit(w) && ends_fit(r),
    )?;
    Ok(Verdict::of(three(a, b, g, k, w, r)))
}

/// M1, M2 and M3 of settings in range.
fn three(a: usize, b: usize, g: usize, k: usize, w: [u64; 2], r: [u64; 2]) -> [i64; 3] {
    let (a, b, g, k) = (a as i64, b as i64, g as i64, k as i64);
    let ([w1, w2], [r1, r2]) = (w.map(|w| w as i64), r.map(|r| r as i64));
    [
        (a - g) * w1 - 2 * r2,
        (k - 1) * r1 - (a + g) * w2,
        (a + b - g) * w1 - (k + 2) * r2,
    ]
}

/// The sampling count of steady clocks, from 1 to 511, whose least margin among M1, M2 and M3 is the greatest; of
/// equals, the smallest.
///
/// Refuses with 1 for a setting out of range, and with 9 if no sampling count has three margins
/// of zero or more.
pub fn pick(a: usize, b: usize, g: usize, w: u64, r: u64) -> Result<usize, Refusal> {
    pick_ends(a, b, g, [w, w], [r, r])
}

/// The same over the ends of two clocks. Each sampling count is tried.
///
/// Refuses as [`pick`] does.
pub fn pick_ends(a: usize, b: usize, g: usize, w: [u64; 2], r: [u64; 2]) -> Result<usize, Refusal> {
    need_setting(subcell_fits(a) && subcell_fits(b) && g_fits(g) && ends_fit(w) && ends_fit(r))?;
    let mut best = (0, i64::MIN);
    for k in 1..=MAX_K {
        let [m1, m2, m3] = three(a, b, g, k, w, r);
        let least = m1.min(m2).min(m3);
        if least > best.1 {
            best = (k, least);
        }
    }
    if best.1 < 0 {
        return Err(Refusal::NO_COUNT);
    }
    Ok(best.0)
}

/// "Margins" of steady clocks: M4 and M5 alone, which do not depend on the sampling count.
///
/// Refuses with 1 for a setting out of range.
pub fn quiet_margins(
    a: usize,
    b: usize,
    g: usize,
    w: u64,
    r: u64,
    q: usize,
    p1: usize,
) -> Result<[i64; 2], Refusal> {
    need_setting(
        subcell_fits(a)
            && subcell_fits(b)
            && g_fits(g)
            && cycle_fits(w)
            && cycle_fits(r)
            && quiet_fits(q)
            && pad_fits(p1),
    )?;
    Ok(last_two(a, b, g, [w, w], [r, r], q, p1))
}

/// M4 and M5 of settings in range.
fn last_two(
    a: usize,
    b: usize,
    g: usize,
    w: [u64; 2],
    r: [u64; 2],
    q: usize,
    p1: usize,
) -> [i64; 2] {
    let (a, b, g, q, p1) = (a as i64, b as i64, g as i64, q as i64, p1 as i64);
    let ([w1, w2], [r1, r2]) = (w.map(|w| w as i64), r.map(|r| r as i64));
    [
        (q - 2) * r1 - (a + b + g) * w2,
        (p1 - g) * w1 - (q + 1) * r2,
    ]
}

/// "Margins" of steady clocks: all five, and whether the quiet settings are accepted.
///
/// Refuses with 1 for a setting out of range.
pub fn judge_quiet(
    a: usize,
    b: usize,
    g: usize,
    k: usize,
    w: u64,
    r: u64,
    q: usize,
    p1: usize,
) -> Result<Verdict<5>, Refusal> {
    judge_quiet_ends(a, b, g, k, [w, w], [r, r], q, p1)
}

/// "Margins": all five over the ends of two clocks, and whether the quiet settings are accepted.
///
/// Refuses with 1 for a setting out of range.
pub fn judge_quiet_ends(
    a: usize,
    b: usize,
    g: usize,
    k: usize,
    w: [u64; 2],
    r: [u64; 2],
    q: usize,
    p1: usize,
) -> Result<Verdict<5>, Refusal> {
    let [m1, m2, m3] = judge_ends(a, b, g, k, w, r)?.margins;
    need_setting(quiet_fits(q) && pad_fits(p1))?;
    let [m4, m5] = last_two(a, b, g, w, r, q, p1);
    Ok(Verdict::of([m1, m2, m3, m4, m5]))
}
