//! Prints, from the plain implementation, what the program `board_cases` has to print for the cases on standard
//! input, so that the stored expected output does not come from the code under test.

mod common;

use common::{made, refused, Case};
use siengulot_plain::board::{Event, Mode, Receiver, ROW_BYTES};
use siengulot_plain::log::{self, Log};
use siengulot_plain::settings::RECORDS;
use siengulot_plain::{capture, Refusal};

/// The nine numbers of a state, and its bytes that are not 0, each with its place.
fn shown(state: &Receiver) -> String {
    let mode = match state.mode {
        Mode::Hunting => 0,
        Mode::Ready => 1,
        Mode::Counting => 2,
        Mode::Waiting => 3,
    };
    let (run_level, level) = (state.run_level.into(), state.level.into());
    let last = [mode, state.run, run_level, state.left, level, state.found];
    let mut told = format!(" state {} {} {}", state.k, state.n, state.q);
    for number in last {
        told += &format!(" {}", number);
    }
    for (place, byte) in state
        .bits
        .iter()
        .enumerate()
        .filter(|&(_, &byte)| byte != 0)
    {
        told += &format!(" byte {} {}", place, byte);
    }
    told
}

/// The event that the read at a place brought.
fn reported(place: usize, event: Option<Event>, n: usize) -> String {
    match event {
        None => String::new(),
        Some(Event::Row(row)) => {
            let bits = (0..n).map(|i| (row[i / 8] >> (i % 8) & 1).to_string());
            format!(" {} row {}", place, bits.collect::<String>())
        }
        Some(Event::Broken(found)) => format!(" {} broken {}", place, found),
    }
}

fn checked(answer: Result<capture::Summary, Refusal>) -> (String, usize) {
    match answer {
        Ok(s) => (format!(" {} {} {} {}", s.k, s.n, s.q, s.reads), s.reads),
        Err(refusal) => (refused(refusal), 0),
    }
}

fn fresh(k: usize, n: usize, q: usize) -> String {
    match Receiver::fresh(k, n, q) {
        Ok(receiver) => shown(&receiver),
        Err(refusal) => refused(refusal) + &shown(&Receiver::REFUSED),
    }
}

fn by_steps(mut receiver: Receiver, reads: &[u8]) -> String {
    let mut told = String::new();
    for (place, &read) in reads.iter().enumerate() {
        told += &reported(place, receiver.step(read).unwrap(), receiver.n);
    }
    told + &shown(&receiver)
}

fn by_lists(mut receiver: Receiver, reads: &[u8]) -> String {
    let mut told = String::new();
    let mut at = 0;
    while at < reads.len() {
        let heard = receiver.listen(&reads[at..]).unwrap();
        at += heard.taken;
        told += &reported(at - 1, heard.event, receiver.n);
    }
    told + &shown(&receiver)
}

/// A capture's reads through a fresh receiver, one by one, and then as lists.
fn hear(bytes: &[u8]) -> String {
    let mut reads = vec![9; 20000];
    let summary = capture::read(bytes, &mut reads).unwrap();
    let reads = &reads[..summary.reads];
    let receiver = Receiver::fresh(summary.k, summary.n, summary.q).unwrap();
    by_steps(receiver.clone(), reads) + " by lists" + &by_lists(receiver, reads)
}

fn step(mut state: Receiver, read: u8) -> String {
    let told = match state.step(read) {
        Ok(event) => reported(0, event, state.n),
        Err(refusal) => refused(refusal),
    };
    format!(" step{}{}", told, shown(&state))
}

fn listen(mut state: Receiver, reads: &[u8]) -> String {
    let (told, used) = match state.listen(reads) {
        Ok(heard) => {
            let place = heard.taken.max(1) - 1;
            (reported(place, heard.event, state.n), heard.taken)
        }
        Err(refusal) => (refused(refusal), 0),
    };
    format!(" listen{} used {}{}", told, used, shown(&state))
}

/// A state in this mode takes the first read, if there is one, and listens to all.
fn tried(mode: Mode, case: &Case, reads: &[u8]) -> String {
    let names = ["k", "n", "Q", "run", "runlevel", "left", "level", "found"];
    let [k, n, q, run, run_level, left, level, found] = case.numbers(names);
    let mut bits = [0; ROW_BYTES];
    for (byte, said) in bits.iter_mut().zip(case.number_list(1)) {
        *byte = u8::try_from(said).unwrap();
    }
    let state = Receiver {
        k,
        n,
        q,
        mode,
        run,
        run_level: u8::try_from(run_level).unwrap(),
        left,
        level: u8::try_from(level).unwrap(),
        found,
        bits,
    };
    let mut told = match state.well_formed() {
        true => " well formed".to_string(),
        false => " ill formed".to_string(),
    };
    if let Some(&read) = reads.first() {
        told += &step(state.clone(), read);
    }
    told + &listen(state, reads)
}

/// The lists of a log, before and after a call.
struct Lists {
    numbers: Vec<u64>,
    bits: Vec<u8>,
    counts: Vec<usize>,
    broken: Vec<u8>,
    free: Vec<u8>,
    broken_count: usize,
}

impl Lists {
    /// So many records, with these read numbers, of which 0 stands for a free record, and a count.
    fn of(mut numbers: Vec<usize>, records: usize, broken_count: usize) -> Lists {
        numbers.resize(records, 0);
        Lists {
            numbers: numbers.iter().map(|&number| number as u64).collect(),
            bits: vec![5; RECORDS * ROW_BYTES],
            counts: vec![7; RECORDS],
            broken: vec![2; RECORDS],
            free: numbers.iter().map(|&number| u8::from(number == 0)).collect(),
            broken_count,
        }
    }

    fn log(&mut self) -> Log<'_> {
        Log {
            numbers: &mut self.numbers,
            bits: &mut self.bits,
            counts: &mut self.counts,
            broken: &mut self.broken,
            free: &mut self.free,
            broken_count: &mut self.broken_count,
        }
    }

    fn record(&self, place: usize) -> String {
        format!(
            " number {} count {} broken {} free {} byte {} stored {}",
            self.numbers[place],
            self.counts[place],
            self.broken[place],
            self.free[place],
            self.bits[place * ROW_BYTES],
            self.broken_count
        )
    }
}

fn log_event(case: &Case, bits: &[u8]) -> String {
    let [number, count, broken, records, stored] =
        case.numbers(["number", "count", "broken", "records", "stored"]);
    let event = log::Event {
        number: number as u64,
        bits,
        count,
        broken: u8::try_from(broken).unwrap(),
    };
    let mut lists = Lists::of(case.number_list(1), records, stored);
    match log::log_event(event, &mut lists.log()) {
        Ok(place) => format!(" at {}{}", place, lists.record(place)),
        Err(refusal) => refused(refusal),
    }
}

fn log_clear(case: &Case) -> String {
    let [place, records, stored] = case.numbers(["place", "records", "stored"]);
    let mut lists = Lists::of(case.number_list(0), records, stored);
    match log::clear(place, &mut lists.log()) {
        Ok(()) => lists.record(place),
        Err(refusal) => refused(refusal),
    }
}

fn log_list(case: &Case) -> String {
    let [room, records] = case.numbers(["room", "records"]);
    let lists = Lists::of(case.number_list(0), records, 0);
    let mut places = vec![99; room];
    let (mut told, _) = made(log::list(&lists.numbers, &lists.free, &mut places));
    told += " places";
    for place in places {
        told += &format!(" {}", place);
    }
    told
}

/// Runs the operation that a case names: what it gave, and how many entries it has written.
fn operate(case: &Case, list: &[u8], out: &mut [u8]) -> (String, usize) {
    match case.operation() {
        "check" => (checked(capture::check(list)).0, 0),
        "read_capture" => checked(capture::read(list, out)),
        "write_capture" => {
            let [k, n, q] = case.numbers(["k", "n", "Q"]);
            made(capture::write(k, n, q, list, out))
        }
        "fresh" => {
            let [k, n, q] = case.numbers(["k", "n", "Q"]);
            (fresh(k, n, q), 0)
        }
        "hear" => (hear(list), 0),
        "hunting" => (tried(Mode::Hunting, case, list), 0),
        "ready" => (tried(Mode::Ready, case, list), 0),
        "counting" => (tried(Mode::Counting, case, list), 0),
        "waiting" => (tried(Mode::Waiting, case, list), 0),
        "log_event" => (log_event(case, list), 0),
        "log_clear" => (log_clear(case), 0),
        "log_list" => (log_list(case), 0),
        other => panic!("no operation {}", other),
    }
}

fn main() {
    let mut out = Vec::new();
    for case in common::cases() {
        let list = case.list(0, &out);
        let mut lent = case.lent();
        let (told, made) = operate(&case, &list, &mut lent);
        case.print(&told, &lent);
        out = lent[..made].to_vec();
    }
}
