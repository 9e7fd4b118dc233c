//! Prints, from the plain implementation, what the program `line_cases` has to print for the cases on standard
//! input, so that the stored expected output does not come from the code under test.

mod common;

use common::{made, refused, Case};
use siengulot_plain::{counted, halfcells, line, sender, settings, stored, timecode, Refusal};

/// Whether settings are accepted, and their margins.
fn judged<const M: usize>(answer: Result<settings::Verdict<M>, Refusal>) -> (String, usize) {
    let told = match answer {
        Ok(verdict) => {
            let margins = verdict.margins.iter().map(|margin| format!(" {}", margin));
            let said = if verdict.accepted { " yes" } else { " no" };
            said.to_string() + &margins.collect::<String>()
        }
        Err(refusal) => refused(refusal),
    };
    (told, 0)
}

fn counted(answer: Result<usize, counted::Stopped>, n: usize) -> (String, usize) {
    match answer {
        Ok(current) => (format!(" {} at {}", n, current), n),
        Err(stopped) => stopped_after(stopped, 5, 1),
    }
}

fn times(answer: Result<usize, counted::Stopped>) -> (String, usize) {
    match answer {
        Ok(found) => (format!(" {}", found), timecode::TIME * found),
        Err(stopped) => stopped_after(stopped, 10, timecode::TIME),
    }
}

/// A refusal, of which one number tells as well how much was found, so many entries each.
fn stopped_after(stopped: counted::Stopped, number: u8, entries: usize) -> (String, usize) {
    let told = refused(stopped.refusal);
    if stopped.refusal.number == number {
        let told = format!("{} after {}", told, stopped.found);
        (told, entries * stopped.found)
    } else {
        (told, 0)
    }
}

/// What reading a stored plan gave, and what is left in the lead pads that were lent.
fn joined(leads: &[usize], trails: &[usize], room: usize) -> (String, usize) {
    let mut out = vec![9; room];
    let told = match stored::read_plan(leads, trails, &mut out) {
        Ok(read) => format!(" {} dropped {}", read.rows, read.dropped),
        Err(refusal) => refused(refusal),
    };
    let left: String = out.iter().map(|lead| format!(" {}", lead)).collect();
    (told + " |" + &left, 0)
}

/// The words that entries are, two each, the higher byte first.
fn words_of(entries: &[u8]) -> Vec<u16> {
    let word = |entries: &[u8]| u16::from_be_bytes([entries[0], entries[1]]);
    entries.chunks_exact(2).map(word).collect()
}

/// Runs the operation that a case names: what it gave, and how many entries it has written.
fn operate(case: &Case, one: &[u8], two: &[u8], out: &mut [u8]) -> (String, usize) {
    match case.operation() {
        "judge" => {
            let [a, b, g, k, w, r] = case.numbers(["a", "b", "g", "k", "w", "r"]);
            judged(settings::judge(a, b, g, k, w as u64, r as u64))
        }
        "judge_quiet" => {
            let [a, b, g, k, w, r, q, p1] = case.numbers(["a", "b", "g", "k", "w", "r", "Q", "lead"]);
            judged(settings::judge_quiet(a, b, g, k, w as u64, r as u64, q, p1))
        }
        "judge_ends" => {
            let names = ["a", "b", "g", "k", "w", "to", "r", "to"];
            let [a, b, g, k, w1, w2, r1, r2] = case.numbers(names);
            let (w, r) = ([w1 as u64, w2 as u64], [r1 as u64, r2 as u64]);
            judged(settings::judge_ends(a, b, g, k, w, r))
        }
        "judge_quiet_ends" => {
            let names = ["a", "b", "g", "k", "w", "to", "r", "to", "Q", "lead"];
            let [a, b, g, k, w1, w2, r1, r2, q, p1] = case.numbers(names);
            let (w, r) = ([w1 as u64, w2 as u64], [r1 as u64, r2 as u64]);
            judged(settings::judge_quiet_ends(a, b, g, k, w, r, q, p1))
        }
        "send" => {
            let [a, b, p1] = case.numbers(["a", "b", "lead"]);
            made(sender::message(a, b, p1, one, out))
        }
        "send_plan" => {
            let [a, b, n] = case.numbers(["a", "b", "n"]);
            made(sender::plan(a, b, n, &case.number_list(1), one, out))
        }
        "read_plan" => {
            let [room] = case.numbers(["room"]);
            joined(&case.number_list(0), &case.number_list(1), room)
        }
        "smooth" => {
            let [g] = case.numbers(["g"]);
            made(line::smooth(g, one, out))
        }
        "warp" => {
            let [w, r, p] = case.numbers(["w", "r", "p"]);
            made(line::warp(w as u64, r as u64, p as u64, one, out))
        }
        "warp_by_lengths" => {
            let [w1, w2, r1, r2, p] = case.numbers(["w", "to", "r", "to", "p"]);
            let lengths = |place| -> Vec<u64> {
                let list = case.number_list(place).into_iter();
                list.map(|length| length as u64).collect()
            };
            made(line::warp_by_lengths(
                [w1 as u64, w2 as u64],
                [r1 as u64, r2 as u64],
                p as u64,
                &lengths(1),
                &lengths(2),
                one,
                out,
            ))
        }
        "settle" => {
            let [] = case.numbers([]);
            made(line::settle(one, two, out))
        }
        "count_bits" => {
            let [k, n, level] = case.numbers(["k", "n", "level"]);
            counted(counted::receive(n, level as u8, k, one, out), n)
        }
        "encode" => {
            let [] = case.numbers([]);
            let mut words = words_of(out);
            let encoded = halfcells::encode(one, &mut words);
            for (entries, word) in out.chunks_exact_mut(2).zip(words) {
                entries.copy_from_slice(&word.to_be_bytes());
            }
            let (told, written) = made(encoded);
            (told, 2 * written)
        }
        "decode" => {
            let [] = case.numbers([]);
            made(halfcells::decode(&words_of(one), out))
        }
        "read_times" => {
            let [] = case.numbers([]);
            times(timecode::read(one, out))
        }
        "write_time" => {
            let [h, m, s, f] = case.numbers(["h", "m", "s", "f"]);
            made(timecode::write([h, m, s, f], out).map(|()| timecode::WORD))
        }
        other => panic!("no operation {}", other),
    }
}

fn main() {
    let mut out = Vec::new();
    let mut two = Vec::new();
    for case in common::cases() {
        // The pads of a plan are numbers that are no bytes, and so are lengths.
        let one = match case.operation() {
            "read_plan" => Vec::new(),
            _ => case.list(0, &out),
        };
        match (case.operation(), case.text(1)) {
            ("send_plan" | "read_plan" | "warp_by_lengths", _) => two.clear(),
            (_, "kept") => {}
            _ => two = case.list(1, &out),
        }
        let mut lent = case.lent();
        let (told, made) = operate(&case, &one, &two, &mut lent);
        case.print(&told, &lent);
        out = lent[..made].to_vec();
    }
}
