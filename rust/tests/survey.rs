//! The survey of a region, held to the judge's margins by comparing every board with every other.

mod common;

use common::{refusal, Rng};
use siengulot_plain::settings::{judge, judge_ends};
use siengulot_plain::survey::{survey, survey_lines, Survey, MAX_BOARDS};

/// A region of so many boards: a list for each setting.
type Region = [Vec<usize>; 6];

fn region(boards: &[[usize; 6]]) -> Region {
    [0, 1, 2, 3, 4, 5].map(|setting| boards.iter().map(|board| board[setting]).collect())
}

fn lists(region: &Region) -> [&[usize]; 6] {
    [0, 1, 2, 3, 4, 5].map(|setting| region[setting].as_slice())
}

fn lines(region: &Region) -> Result<String, (u8, usize)> {
    let mut out = [7; 200];
    match survey_lines(lists(region), &mut out) {
        Ok(length) => {
            assert!(out[length..].iter().all(|&byte| byte == 7));
            Ok(String::from_utf8(out[..length].to_vec()).expect("text"))
        }
        Err(refused) => {
            assert_eq!(out, [7; 200]);
            Err((refused.number, refused.place))
        }
    }
}

/// P8's settings at one length of a read.
fn p8(r: usize) -> [usize; 6] {
    [5, 13, 1, 10, 100, r]
}

#[test]
fn worked_cases() {
    let four = region(&[p8(141), p8(142), p8(67), p8(142)]);
    let told = Survey {
        accepted: 2,
        smallest: [(116, 1), (3, 2), (-4, 1)],
    };
    assert_eq!(survey(lists(&four)), Ok(Some(told)));
    let printed = "accepted 2\nM1 116 at 1\nM2 3 at 2\nM3 -4 at 1\n";
    assert_eq!(lines(&four).as_deref(), Ok(printed));
    assert_eq!(survey(lists(&region(&[]))), Ok(None));
    let printed = "accepted 0\nM1 - at -\nM2 - at -\nM3 - at -\n";
    assert_eq!(lines(&region(&[])).as_deref(), Ok(printed));
    // Of equals the first.
    let equals = region(&[p8(141), p8(142), p8(142), p8(141)]);
    let printed = "accepted 2\nM1 116 at 1\nM2 669 at 0\nM3 -4 at 1\n";
    assert_eq!(lines(&equals).as_deref(), Ok(printed));
}

/// The least margins that settings in range have, at places of four digits.
#[test]
fn longest_lines() {
    let mut boards = vec![p8(100); MAX_BOARDS - 2];
    boards.push([1, 1, 64, 511, 65_535, 65_535]);
    boards.push([255, 1, 64, 1, 65_535, 65_535]);
    let printed =
        "accepted 4094\nM1 -4259775 at 4094\nM2 -20905665 at 4095\nM3 -37682625 at 4094\n";
    assert_eq!(lines(&region(&boards)).as_deref(), Ok(printed));
    assert_eq!(printed.len(), 76);
}

/// What docs/FITTER.md says of a board whose clocks have ends: it is accepted if both of its lines are, and only then.
#[test]
fn two_lines_for_the_ends() {
    let mut rng = Rng::new(15);
    let mut seen = [0; 2];
    for _ in 0..20_000 {
        let [a, b, g, k] =
            [(1, 9), (1, 20), (1, 3), (1, 16)].map(|(least, most)| rng.within(least, most));
        let [w1, r1] = [(90, 110), (60, 150)].map(|(least, most)| rng.within(least, most));
        let [w2, r2] = [w1 + rng.below(9), r1 + rng.below(9)];
        let ends = judge_ends(a, b, g, k, [w1 as u64, w2 as u64], [r1 as u64, r2 as u64]);
        let accepted = ends.unwrap().accepted;
        let both = region(&[[a, b, g, k, w1, r2], [a, b, g, k, w2, r1]]);
        let told = survey(lists(&both)).unwrap().unwrap();
        assert_eq!(told.accepted == 2, accepted);
        seen[usize::from(accepted)] += 1;
    }
    assert!(seen.iter().all(|&times| times > 100), "{:?}", seen);
}

#[test]
fn refusals_and_their_order() {
    let good = p8(141);
    for setting in 0..6 {
        for bad in [0, 65_536, usize::MAX] {
            let mut boards = [good; 3];
            boards[1][setting] = bad;
            boards[2][setting] = bad;
            assert_eq!(lines(&region(&boards)), Err((1, 1)));
        }
        // Lists of unequal length come first, with place 0.
        for more in [false, true] {
            let mut unequal = region(&[good, [0; 6]]);
            if more {
                unequal[setting].push(1);
            } else {
                unequal[setting].pop();
            }
            assert_eq!(survey(lists(&unequal)), Err(refusal(1, 0)));
        }
    }
    // A bad board after the 4,096th comes before 3, and 3 before 4.
    let mut many = vec![good; MAX_BOARDS];
    assert!(survey(lists(&region(&many))).is_ok());
    many.push(good);
    assert_eq!(survey(lists(&region(&many))), Err(refusal(3, 0)));
    assert_eq!(
        survey_lines(lists(&region(&many)), &mut []),
        Err(refusal(3, 0))
    );
    many.push([5, 13, 1, 512, 100, 141]);
    many.push([0; 6]);
    let place = MAX_BOARDS + 1;
    assert_eq!(survey(lists(&region(&many))), Err(refusal(1, place)));
    // The output is just long enough, and one byte too short.
    let one = region(&[good]);
    let length = lines(&one).expect("lines").len();
    let mut out = vec![0; length - 1];
    assert_eq!(survey_lines(lists(&one), &mut out), Err(refusal(4, 0)));
    out.push(0);
    assert_eq!(survey_lines(lists(&one), &mut out), Ok(length));
}

#[test]
fn every_board_with_every_other() {
    let mut rng = Rng::new(14);
    for _ in 0..400 {
        let count = 1 + rng.below(12);
        let boards: Vec<[usize; 6]> = (0..count)
            .map(|_| [255, 255, 3, 20, 5, 5].map(|most| 1 + rng.below(most)))
            .collect();
        let margins: Vec<[i64; 3]> = boards
            .iter()
            .map(|&[a, b, g, k, w, r]| judge(a, b, g, k, w as u64, r as u64).unwrap().margins)
            .collect();
        let told = survey(lists(&region(&boards))).unwrap().unwrap();
        let accepted = margins.iter().filter(|m| m.iter().all(|&m| m >= 0)).count();
        assert_eq!(told.accepted, accepted);
        for (margin, &(value, place)) in told.smallest.iter().enumerate() {
            assert_eq!(margins[place][margin], value);
            assert!(margins.iter().all(|m| value <= m[margin]));
            assert!(margins[..place].iter().all(|m| value < m[margin]));
        }
    }
}
