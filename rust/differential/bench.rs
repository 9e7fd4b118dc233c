//! Every operation called both ways on the same input: by the static library, and by the plain Rust implementation, whose answer is written into a
//! copy of what is lent. Afterwards the two have to be equal, each byte and number, the guards included.

use crate::inputs::Rng;
use crate::lent::{Bytes, Edge, Lent, Numbers};
use crate::library::*;
use crate::numbers::{at, numbers_of, NUMBERS};
use siengulot_plain::board::{Event, Mode, Receiver, ROW_BYTES};
use siengulot_plain::capture::{self, Reader, Summary};
use siengulot_plain::log::{self, Event as Shown, Log};
use siengulot_plain::settings::RECORDS;
use siengulot_plain::settings::{self, Verdict};
use siengulot_plain::{counted, halfcells, line, sender, stored, survey, timecode, Refusal};
use std::collections::BTreeMap;

/// The longest result there is, and some more: a capture's bytes.
const LONGEST: usize = 1_048_583 + 64;

/// How much output is lent.
#[derive(Clone, Copy)]
pub enum Room {
    /// So many bytes less than the result has, or none.
    Less(usize),
    /// So many more.
    More(usize),
}

impl Room {
    pub fn random(rng: &mut Rng) -> Room {
        match rng.below(8) {
            0 => Room::Less(1),
            1 => Room::Less(1 + rng.below(40)),
            2 | 3 => Room::More(0),
            _ => Room::More(rng.below(90)),
        }
    }

    fn of(self, result: usize) -> usize {
        match self {
            Room::Less(less) => result.saturating_sub(less),
            Room::More(more) => result + more,
        }
    }
}

/// A receiver as it is lent.
#[derive(Clone, Copy)]
pub struct State {
    pub numbers: [usize; NUMBERS],
    pub bits: [u8; ROW_BYTES],
}

impl State {
    /// The receiver that the numbers make, if they make one.
    fn receiver(&self) -> Option<Receiver> {
        let modes = [Mode::Hunting, Mode::Ready, Mode::Counting, Mode::Waiting];
        Some(Receiver {
            k: self.numbers[at::K],
            n: self.numbers[at::N],
            q: self.numbers[at::Q],
            mode: *modes.get(self.numbers[at::MODE])?,
            run: self.numbers[at::RUN],
            run_level: u8::try_from(self.numbers[at::RUN_LEVEL]).ok()?,
            left: self.numbers[at::LEFT],
            level: u8::try_from(self.numbers[at::LEVEL]).ok()?,
            found: self.numbers[at::FOUND],
            bits: self.bits,
        })
    }

    fn of(receiver: &Receiver) -> State {
        State {
            numbers: numbers_of(receiver),
            bits: receiver.bits,
        }
    }
}

/// A log as it is lent.
#[derive(Clone)]
pub struct Lists {
    pub numbers: [usize; RECORDS],
    pub bits: Vec<u8>,
    pub counts: [usize; RECORDS],
    pub broken: [u8; RECORDS],
    pub free: [u8; RECORDS],
    pub broken_count: usize,
}

impl Lists {
    pub fn empty() -> Lists {
        Lists {
            numbers: [0; RECORDS],
            bits: vec![0; RECORDS * ROW_BYTES],
            counts: [0; RECORDS],
            broken: [0; RECORDS],
            free: [1; RECORDS],
            broken_count: 0,
        }
    }

    pub fn is_broken(&self, place: usize) -> bool {
        self.broken[place] != 0 && self.free[place] == 0
    }

    /// Does something with the log that the lists are.
    fn with<T>(&mut self, does: impl FnOnce(&mut Log) -> T) -> T {
        let mut numbers = self.numbers.map(|number| number as u64);
        let answer = does(&mut Log {
            numbers: &mut numbers,
            bits: &mut self.bits,
            counts: &mut self.counts,
            broken: &mut self.broken,
            free: &mut self.free,
            broken_count: &mut self.broken_count,
        });
        self.numbers = numbers.map(|number| number as usize);
        answer
    }
}

/// Where a log is lent.
struct LogAt {
    numbers: Numbers,
    bits: Bytes,
    counts: Numbers,
    broken: Bytes,
    free: Bytes,
    broken_count: Numbers,
}

impl LogAt {
    fn lend(lent: &mut Lent, lists: &Lists, rng: &mut Rng) -> LogAt {
        let at = LogAt {
            numbers: lent.numbers("numbers", RECORDS, rng),
            bits: lent.room("bits", RECORDS * ROW_BYTES, rng),
            counts: lent.numbers("counts", RECORDS, rng),
            broken: lent.room("broken", RECORDS, rng),
            free: lent.room("free", RECORDS, rng),
            broken_count: lent.number("broken count", rng),
        };
        at.write(lent, lists);
        at
    }

    fn write(&self, lent: &mut Lent, lists: &Lists) {
        lent.set(self.numbers, &lists.numbers);
        lent.write(self.bits, &lists.bits);
        lent.set(self.counts, &lists.counts);
        lent.write(self.broken, &lists.broken);
        lent.write(self.free, &lists.free);
        lent.set(self.broken_count, &[lists.broken_count]);
    }
}

/// What reads brought, with the receiver after them.
pub struct Brought {
    pub state: State,
    number: usize,
    event: usize,
    found: usize,
    pub used: usize,
    pub row: Option<[u8; ROW_BYTES]>,
}

/// The events by the numbers that they cross as.
const EVENTS: [&str; 3] = ["nothing", "row", "broken"];

/// The refusal of numbers that make no receiver.
const NO_RECEIVER: Refusal = Refusal {
    number: 1,
    place: 0,
};

/// Where a receiver and what reads bring are lent.
struct At {
    numbers: Numbers,
    bits: Bytes,
    row: Bytes,
    event: Numbers,
    found: Numbers,
    place: Numbers,
}

impl At {
    /// Writes what the plain side answered, an event and how many reads that took, and the receiver as that left it. Numbers that make no receiver
    /// are left.
    fn tell(
        &self,
        expected: &mut Lent,
        state: &State,
        receiver: Option<Receiver>,
        answer: Result<(Option<Event>, usize), Refusal>,
    ) -> Brought {
        let state = receiver.map_or(*state, |receiver| State::of(&receiver));
        let (number, place, happened, used) = match answer {
            Ok((happened, used)) => (0, 0, happened, used),
            Err(refusal) => (usize::from(refusal.number), refusal.place, None, 0),
        };
        let (event, found, row) = match happened {
            None => (0, 0, None),
            Some(Event::Row(row)) => (1, 0, Some(row)),
            Some(Event::Broken(found)) => (2, found, None),
        };
        expected.set(self.numbers, &state.numbers);
        expected.write(self.bits, &state.bits);
        expected.set(self.event, &[event]);
        expected.set(self.found, &[found]);
        expected.set(self.place, &[place]);
        if let Some(row) = &row {
            expected.write(self.row, row);
        }
        Brought {
            state,
            number,
            event,
            found,
            used,
            row,
        }
    }
}

pub struct Bench {
    pub rng: Rng,
    pub cases: u64,
    /// How often each operation met each thing that is worth counting.
    pub met: BTreeMap<(&'static str, &'static str), u64>,
    /// The operation that is tried alone, if one is; of the others the plain side answers only.
    /// Regions have random numbers of their own, so that what the others are tried on stays as it was.
    regions: Rng,
    only: Option<String>,
    edges: [Edge; 6],
    scratch: Vec<u8>,
}

const REFUSALS: [&str; 14] = [
    "0", "1", "2", "3", "4", "5", "6", "7", "8", "9", "10", "11", "12", "13",
];

impl Bench {
    pub fn new(seed: u64, only: Option<String>) -> Bench {
        Bench {
            rng: Rng::new(seed),
            regions: Rng::new(seed + 1),
            cases: 0,
            met: BTreeMap::new(),
            only,
            edges: [0; 6].map(|_| Edge::new()),
            scratch: vec![0; LONGEST],
        }
    }

    /// Whether all operations are tried.
    pub fn tries_all(&self) -> bool {
        self.only.is_none()
    }

    pub fn tries(&self, operation: &str) -> bool {
        self.only.as_deref().map_or(true, |only| only == operation)
    }

    fn meets(&mut self, operation: &'static str, thing: &'static str) {
        *self.met.entry((operation, thing)).or_insert(0) += 1;
    }

    /// Ends the run unless both sides gave the same.
    fn compare(
        &mut self,
        operation: &'static str,
        (got, lent): (usize, &Lent),
        (number, expected): (usize, &Lent),
        input: impl Fn() -> String,
    ) {
        self.cases += 1;
        let difference = if got != number {
            Some(format!("it gives {}, expected {}", got, number))
        } else if !self.edges.iter().all(Edge::kept) {
            Some("a list that is only read was written to".to_string())
        } else {
            lent.difference(expected)
        };
        if let Some(difference) = difference {
            println!(
                "differs: {}, case {}, {}: {}",
                operation,
                self.cases,
                input(),
                difference
            );
            std::process::exit(1);
        }
        self.meets(operation, REFUSALS[got]);
    }

    pub fn judge(&mut self, [a, b, g, k, w, r]: [usize; 6]) {
        if !self.tries("judge") {
            return;
        }
        let mut lent = Lent::new();
        let margins = lent.numbers("margins", 3, &mut self.rng);
        let accepted = lent.number("accepted", &mut self.rng);
        let mut expected = lent.clone();
        let answer = settings::judge(a, b, g, k, w as u64, r as u64);
        let number = self.judged("judge", &mut expected, margins, accepted, answer);
        let got = unsafe {
            siengulot_judge(
                a,
                b,
                g,
                k,
                w,
                r,
                lent.pointer(margins),
                lent.pointer(accepted),
            )
        };
        self.compare("judge", (got, &lent), (number, &expected), || {
            format!("{:?}", [a, b, g, k, w, r])
        });
    }

    pub fn judge_quiet(&mut self, [a, b, g, k, w, r, q, p1]: [usize; 8]) {
        if !self.tries("judge_quiet") {
            return;
        }
        let mut lent = Lent::new();
        let margins = lent.numbers("margins", 5, &mut self.rng);
        let accepted = lent.number("accepted", &mut self.rng);
        let mut expected = lent.clone();
        let answer = settings::judge_quiet(a, b, g, k, w as u64, r as u64, q, p1);
        let number = self.judged("judge_quiet", &mut expected, margins, accepted, answer);
        let got = unsafe {
            siengulot_judge_quiet(
                a,
                b,
                g,
                k,
                w,
                r,
                q,
                p1,
                lent.pointer(margins),
                lent.pointer(accepted),
            )
        };
        self.compare("judge_quiet", (got, &lent), (number, &expected), || {
            format!("{:?}", [a, b, g, k, w, r, q, p1])
        });
    }

    pub fn judge_ends(&mut self, [a, b, g, k, w1, w2, r1, r2]: [usize; 8]) {
        if !self.tries("judge_ends") {
            return;
        }
        let mut lent = Lent::new();
        let margins = lent.numbers("margins", 3, &mut self.rng);
        let accepted = lent.number("accepted", &mut self.rng);
        let mut expected = lent.clone();
        let (w, r) = ([w1 as u64, w2 as u64], [r1 as u64, r2 as u64]);
        let answer = settings::judge_ends(a, b, g, k, w, r);
        let number = self.judged("judge_ends", &mut expected, margins, accepted, answer);
        let got = unsafe {
            siengulot_judge_ends(
                a,
                b,
                g,
                k,
                w1,
                w2,
                r1,
                r2,
                lent.pointer(margins),
                lent.pointer(accepted),
            )
        };
        self.compare("judge_ends", (got, &lent), (number, &expected), || {
            format!("{:?}", [a, b, g, k, w1, w2, r1, r2])
        });
    }

    pub fn judge_quiet_ends(&mut self, [a, b, g, k, w1, w2, r1, r2, q, p1]: [usize; 10]) {
        if !self.tries("judge_quiet_ends") {
            return;
        }
        let mut lent = Lent::new();
        let margins = lent.numbers("margins", 5, &mut self.rng);
        let accepted = lent.number("accepted", &mut self.rng);
        let mut expected = lent.clone();
        let (w, r) = ([w1 as u64, w2 as u64], [r1 as u64, r2 as u64]);
        let answer = settings::judge_quiet_ends(a, b, g, k, w, r, q, p1);
        let number = self.judged("judge_quiet_ends", &mut expected, margins, accepted, answer);
        let got = unsafe {
            siengulot_judge_quiet_ends(
                a,
                b,
                g,
                k,
                w1,
                w2,
                r1,
                r2,
                q,
                p1,
                lent.pointer(margins),
                lent.pointer(accepted),
            )
        };
        self.compare(
            "judge_quiet_ends",
            (got, &lent),
            (number, &expected),
            || format!("{:?}", [a, b, g, k, w1, w2, r1, r2, q, p1]),
        );
    }

    fn judged<const M: usize>(
        &mut self,
        operation: &'static str,
        expected: &mut Lent,
        margins: Numbers,
        accepted: Numbers,
        answer: Result<Verdict<M>, Refusal>,
    ) -> usize {
        match answer {
            Ok(verdict) => {
                expected.set(margins, &verdict.margins.map(|margin| margin as usize));
                expected.set(accepted, &[usize::from(verdict.accepted)]);
                self.meets(operation, if verdict.accepted { "yes" } else { "no" });
                if verdict.margins.iter().min() == Some(&0) {
                    self.meets(operation, "a margin of 0");
                }
                0
            }
            Err(refusal) => {
                expected.set(accepted, &[0]);
                usize::from(refusal.number)
            }
        }
    }

    pub fn pick(&mut self, [a, b, g, w, r]: [usize; 5]) {
        if !self.tries("pick") {
            return;
        }
        let (mut lent, k) = self.lent_count();
        let answer = settings::pick(a, b, g, w as u64, r as u64);
        let (number, expected) = picked(&lent, k, answer);
        let got = unsafe { siengulot_pick(a, b, g, w, r, lent.pointer(k)) };
        self.compare("pick", (got, &lent), (number, &expected), || {
            format!("{:?}", [a, b, g, w, r])
        });
        self.meets_counts("pick", answer, |k| {
            settings::judge(a, b, g, k, w as u64, r as u64)
        });
    }

    pub fn pick_ends(&mut self, [a, b, g, w1, w2, r1, r2]: [usize; 7]) {
        if !self.tries("pick_ends") {
            return;
        }
        let (mut lent, k) = self.lent_count();
        let (w, r) = ([w1 as u64, w2 as u64], [r1 as u64, r2 as u64]);
        let answer = settings::pick_ends(a, b, g, w, r);
        let (number, expected) = picked(&lent, k, answer);
        let got = unsafe { siengulot_pick_ends(a, b, g, w1, w2, r1, r2, lent.pointer(k)) };
        self.compare("pick_ends", (got, &lent), (number, &expected), || {
            format!("{:?}", [a, b, g, w1, w2, r1, r2])
        });
        self.meets_counts("pick_ends", answer, |k| {
            settings::judge_ends(a, b, g, k, w, r)
        });
    }

    fn lent_count(&mut self) -> (Lent, Numbers) {
        let mut lent = Lent::new();
        let k = lent.number("k", &mut self.rng);
        (lent, k)
    }

    /// Notes what is easy to miss of a picked sampling count: the ends of the range and of the margins, and equals.
    fn meets_counts(
        &mut self,
        operation: &'static str,
        answer: Result<usize, Refusal>,
        judge: impl Fn(usize) -> Result<Verdict<3>, Refusal>,
    ) {
        let least = |k| match judge(k) {
            Ok(verdict) => *verdict.margins.iter().min().expect("three margins"),
            Err(_) => i64::MIN,
        };
        match answer {
            Ok(best) => {
                if best == settings::MAX_K {
                    self.meets(operation, "the last k");
                }
                if least(best) == least(best + 1) {
                    self.meets(operation, "equals");
                }
                if least(best) == 0 {
                    self.meets(operation, "a least margin of 0");
                }
            }
            Err(refusal) if refusal.number == 9 => {
                if (1..=settings::MAX_K).any(|k| least(k) == -1) {
                    self.meets(operation, "a least margin of -1");
                }
            }
            Err(_) => {}
        }
    }

    pub fn send(&mut self, [a, b, p1]: [usize; 3], bits: &[u8], room: Room) {
        if !self.tries("send") {
            return;
        }
        let result = sender::message(a, b, p1, bits, &mut self.scratch);
        let room = room.of(result.unwrap_or(0));
        let (mut lent, out, [place, count]) = self.lend(room);
        let mut expected = lent.clone();
        let answer = sender::message(a, b, p1, bits, expected.part(out));
        let number = told(&mut expected, place, count, answer);
        let list = self.edges[0].lend(bits, &mut self.rng);
        let got = unsafe {
            siengulot_send(
                a,
                b,
                p1,
                list,
                bits.len(),
                lent.bytes_pointer(out),
                room,
                lent.pointer(place),
                lent.pointer(count),
            )
        };
        self.compare("send", (got, &lent), (number, &expected), || {
            format!("{:?} {:?} room {}", [a, b, p1], shown(bits), room)
        });
    }

    pub fn plan(&mut self, [a, b, n]: [usize; 3], leads: &[usize], bits: &[u8], room: Room) {
        if !self.tries("plan") {
            return;
        }
        let result = sender::plan(a, b, n, leads, bits, &mut self.scratch);
        let room = room.of(result.unwrap_or(0));
        let (mut lent, out, [place, count]) = self.lend(room);
        let mut expected = lent.clone();
        let answer = sender::plan(a, b, n, leads, bits, expected.part(out));
        let number = told(&mut expected, place, count, answer);
        let list = self.edges[0].lend(bits, &mut self.rng);
        let lead_list = self.edges[1].lend(leads, &mut self.rng);
        let got = unsafe {
            siengulot_plan(
                a,
                b,
                n,
                lead_list,
                leads.len(),
                list,
                bits.len(),
                lent.bytes_pointer(out),
                room,
                lent.pointer(place),
                lent.pointer(count),
            )
        };
        self.compare("plan", (got, &lent), (number, &expected), || {
            format!(
                "{:?} {:?} {:?} room {}",
                [a, b, n],
                leads,
                shown(bits),
                room
            )
        });
        if got == 3 && leads.len() <= 1_024 {
            self.meets("plan", "3 by its wave");
        }
    }

    pub fn read_plan(&mut self, leads: &[usize], trails: &[usize], room: Room) {
        if !self.tries("read_plan") {
            return;
        }
        let mut joined = vec![0; leads.len()];
        let result = stored::read_plan(leads, trails, &mut joined);
        let room = room.of(result.map_or(0, |read| read.rows));
        let mut lent = Lent::new();
        let out = lent.numbers("out", room, &mut self.rng);
        let place = lent.number("place", &mut self.rng);
        let count = lent.number("count", &mut self.rng);
        let dropped = lent.number("dropped", &mut self.rng);
        let mut expected = lent.clone();
        let answer = stored::read_plan(leads, trails, expected.list(out));
        let number = told(&mut expected, place, count, answer.map(|read| read.rows));
        expected.set(dropped, &[answer.map_or(0, |read| read.dropped)]);
        let lead_list = self.edges[0].lend(leads, &mut self.rng);
        let trail_list = self.edges[1].lend(trails, &mut self.rng);
        let got = unsafe {
            siengulot_read_plan(
                lead_list,
                leads.len(),
                trail_list,
                trails.len(),
                lent.pointer(out),
                room,
                lent.pointer(place),
                lent.pointer(count),
                lent.pointer(dropped),
            )
        };
        self.compare("read_plan", (got, &lent), (number, &expected), || {
            format!("{:?} {:?} room {}", leads, trails, room)
        });
        let full = |(now, was): (&usize, &usize)| was < now && *now == settings::MAX_PAD;
        match result {
            Ok(_) => {
                if joined.iter().zip(leads).any(full) {
                    self.meets("read_plan", "a joined lead of 65,535");
                }
            }
            Err(refusal) if refusal.number == 1 && refusal.place > 0 => {
                self.meets("read_plan", "1 at a row");
                if leads[refusal.place] + trails[refusal.place - 1] == settings::MAX_PAD + 1 {
                    self.meets("read_plan", "a joined lead of 65,536");
                }
            }
            Err(_) => {}
        }
    }

    /// Takes the other random numbers: those for regions, or those for everything else.
    pub fn turn_to_regions_or_back(&mut self) {
        std::mem::swap(&mut self.rng, &mut self.regions);
    }

    /// Lends the lists of a region.
    fn lend_region(&mut self, lists: [&[usize]; 6]) -> [*const usize; 6] {
        let mut at = [std::ptr::null(); 6];
        for ((at, list), edge) in at.iter_mut().zip(lists).zip(&mut self.edges) {
            *at = edge.lend(list, &mut self.rng);
        }
        at
    }

    pub fn survey(&mut self, region: &[Vec<usize>; 6]) {
        if !self.tries("survey") {
            return;
        }
        let lists = [0, 1, 2, 3, 4, 5].map(|list| region[list].as_slice());
        let mut lent = Lent::new();
        let margins = lent.numbers("margins", 3, &mut self.rng);
        let places = lent.numbers("places", 3, &mut self.rng);
        let accepted = lent.number("accepted", &mut self.rng);
        let place = lent.number("place", &mut self.rng);
        let count = lent.number("count", &mut self.rng);
        let mut expected = lent.clone();
        let answer = survey::survey(lists);
        let boards = answer.map(|found| found.map_or(0, |_| lists[0].len()));
        let number = told(&mut expected, place, count, boards);
        let found = answer.ok().flatten();
        expected.set(accepted, &[found.map_or(0, |found| found.accepted)]);
        if let Some(found) = found {
            expected.set(margins, &found.smallest.map(|(margin, _)| margin as usize));
            expected.set(places, &found.smallest.map(|(_, place)| place));
        }
        let at = self.lend_region(lists);
        let got = unsafe {
            siengulot_survey(
                at[0],
                lists[0].len(),
                at[1],
                lists[1].len(),
                at[2],
                lists[2].len(),
                at[3],
                lists[3].len(),
                at[4],
                lists[4].len(),
                at[5],
                lists[5].len(),
                lent.pointer(margins),
                lent.pointer(places),
                lent.pointer(accepted),
                lent.pointer(place),
                lent.pointer(count),
            )
        };
        self.compare("survey", (got, &lent), (number, &expected), || {
            format!("{:?}", lists)
        });
        match answer {
            Ok(None) => self.meets("survey", "no boards"),
            Err(refusal) if refusal.number == 1 && refusal.place > 0 => {
                self.meets("survey", "1 at a board")
            }
            Err(_) => {}
            Ok(Some(found)) => {
                let [(m1, first), ..] = found.smallest;
                let m1_of = |i: usize| {
                    let [a, b, g, k, w, r] = lists.map(|list| list[i]);
                    settings::judge(a, b, g, k, w as u64, r as u64)
                        .map(|verdict| verdict.margins[0])
                };
                if (first + 1..lists[0].len()).any(|i| m1_of(i) == Ok(m1)) {
                    self.meets("survey", "equals");
                }
                if found.smallest.iter().any(|&(margin, _)| margin == 0) {
                    self.meets("survey", "a margin of 0");
                }
                if lists[0].len() == survey::MAX_BOARDS {
                    self.meets("survey", "4,096 boards");
                }
            }
        }
    }

    pub fn survey_lines(&mut self, region: &[Vec<usize>; 6], room: Room) {
        if !self.tries("survey_lines") {
            return;
        }
        let lists = [0, 1, 2, 3, 4, 5].map(|list| region[list].as_slice());
        let result = survey::survey_lines(lists, &mut self.scratch);
        let room = room.of(result.unwrap_or(0));
        let (mut lent, out, [place, count]) = self.lend(room);
        let mut expected = lent.clone();
        let answer = survey::survey_lines(lists, expected.part(out));
        let number = told(&mut expected, place, count, answer);
        let at = self.lend_region(lists);
        let got = unsafe {
            siengulot_survey_lines(
                at[0],
                lists[0].len(),
                at[1],
                lists[1].len(),
                at[2],
                lists[2].len(),
                at[3],
                lists[3].len(),
                at[4],
                lists[4].len(),
                at[5],
                lists[5].len(),
                lent.bytes_pointer(out),
                room,
                lent.pointer(place),
                lent.pointer(count),
            )
        };
        self.compare("survey_lines", (got, &lent), (number, &expected), || {
            format!("{:?} room {}", lists, room)
        });
        if answer.is_ok() {
            match survey::survey(lists) {
                Ok(Some(found)) if found.smallest.iter().any(|&(margin, _)| margin < 0) => {
                    self.meets("survey_lines", "a margin below 0")
                }
                Ok(None) => self.meets("survey_lines", "no boards"),
                _ => {}
            }
        }
    }

    pub fn smooth(&mut self, g: usize, wave: &[u8], room: Room) {
        if !self.tries("smooth") {
            return;
        }
        let result = line::smooth(g, wave, &mut self.scratch);
        let room = room.of(result.unwrap_or(0));
        let (mut lent, out, [place, count]) = self.lend(room);
        let mut expected = lent.clone();
        let answer = line::smooth(g, wave, expected.part(out));
        let number = told(&mut expected, place, count, answer);
        let list = self.edges[0].lend(wave, &mut self.rng);
        let got = unsafe {
            siengulot_smooth(
                g,
                list,
                wave.len(),
                lent.bytes_pointer(out),
                room,
                lent.pointer(place),
                lent.pointer(count),
            )
        };
        self.compare("smooth", (got, &lent), (number, &expected), || {
            format!("g {} {:?} room {}", g, shown(wave), room)
        });
    }

    pub fn warp(&mut self, [w, r, p]: [usize; 3], wave: &[u8], room: Room) {
        if !self.tries("warp") {
            return;
        }
        let times = [w as u64, r as u64, p as u64];
        let result = line::warp(times[0], times[1], times[2], wave, &mut self.scratch);
        let room = room.of(result.unwrap_or(0));
        let (mut lent, out, [place, count]) = self.lend(room);
        let mut expected = lent.clone();
        let answer = line::warp(times[0], times[1], times[2], wave, expected.part(out));
        let number = told(&mut expected, place, count, answer);
        let list = self.edges[0].lend(wave, &mut self.rng);
        let got = unsafe {
            siengulot_warp(
                w,
                r,
                p,
                list,
                wave.len(),
                lent.bytes_pointer(out),
                room,
                lent.pointer(place),
                lent.pointer(count),
            )
        };
        self.compare("warp", (got, &lent), (number, &expected), || {
            format!("{:?} {:?} room {}", [w, r, p], shown(wave), room)
        });
        if got == 3 && wave.len() <= 1_048_576 {
            self.meets("warp", "3 by its reads");
        }
    }

    pub fn warp_by_lengths(
        &mut self,
        [w1, w2, r1, r2, p]: [usize; 5],
        cycles: &[usize],
        reads: &[usize],
        wave: &[u8],
        room: Room,
    ) {
        if !self.tries("warp_by_lengths") {
            return;
        }
        let wide = |list: &[usize]| -> Vec<u64> { list.iter().map(|&x| x as u64).collect() };
        let (written, read) = (wide(cycles), wide(reads));
        let plain = |out: &mut [u8]| {
            let (w, r) = ([w1 as u64, w2 as u64], [r1 as u64, r2 as u64]);
            line::warp_by_lengths(w, r, p as u64, &written, &read, wave, out)
        };
        let result = plain(&mut self.scratch);
        let room = room.of(result.unwrap_or(0));
        let (mut lent, out, [place, count]) = self.lend(room);
        let mut expected = lent.clone();
        let answer = plain(expected.part(out));
        let number = told(&mut expected, place, count, answer);
        let list = self.edges[0].lend(wave, &mut self.rng);
        let cycle_list = self.edges[1].lend(cycles, &mut self.rng);
        let read_list = self.edges[2].lend(reads, &mut self.rng);
        let got = unsafe {
            siengulot_warp_by_lengths(
                w1,
                w2,
                r1,
                r2,
                p,
                cycle_list,
                cycles.len(),
                read_list,
                reads.len(),
                list,
                wave.len(),
                lent.bytes_pointer(out),
                room,
                lent.pointer(place),
                lent.pointer(count),
            )
        };
        self.compare("warp_by_lengths", (got, &lent), (number, &expected), || {
            format!(
                "{:?} {:?} {:?} {:?} room {}",
                [w1, w2, r1, r2, p],
                cycles,
                reads,
                shown(wave),
                room
            )
        });
        if got == 0 {
            let things = [
                ("fewer lengths than levels", cycles.len() < wave.len()),
                ("fewer levels than lengths", wave.len() < cycles.len()),
                ("no length and any p", cycles.is_empty() && p > 65_535),
                ("a read for each length", Ok(reads.len()) == answer),
                (
                    "a length for no read",
                    answer.map_or(false, |count| 0 < count && count < reads.len()),
                ),
            ];
            for (thing, met) in things {
                if met {
                    self.meets("warp_by_lengths", thing);
                }
            }
        }
    }

    pub fn settle(&mut self, reads: &[u8], choices: &[u8], room: Room) {
        if !self.tries("settle") {
            return;
        }
        let result = line::settle(reads, choices, &mut self.scratch);
        let room = room.of(result.unwrap_or(0));
        let (mut lent, out, [place, count]) = self.lend(room);
        let mut expected = lent.clone();
        let answer = line::settle(reads, choices, expected.part(out));
        let number = told(&mut expected, place, count, answer);
        let list = self.edges[0].lend(reads, &mut self.rng);
        let choice_list = self.edges[1].lend(choices, &mut self.rng);
        let got = unsafe {
            siengulot_settle(
                list,
                reads.len(),
                choice_list,
                choices.len(),
                lent.bytes_pointer(out),
                room,
                lent.pointer(place),
                lent.pointer(count),
            )
        };
        self.compare("settle", (got, &lent), (number, &expected), || {
            format!("{:?} by {:?} room {}", shown(reads), shown(choices), room)
        });
        if got == 2 && reads.iter().all(|&read| read <= 2) {
            self.meets("settle", "2 by a choice");
        }
    }

    pub fn counted(&mut self, [k, n, level]: [usize; 3], reads: &[u8], room: Room) {
        if !self.tries("counted") {
            return;
        }
        let room = room.of(n.min(2_000));
        let (mut lent, out, [place, count]) = self.lend(room);
        let mut expected = lent.clone();
        // A level that no byte can say is as much out of range as the greatest byte.
        let short = u8::try_from(level).unwrap_or(u8::MAX);
        let (number, found) = match counted::receive(n, short, k, reads, expected.part(out)) {
            Ok(current) => {
                expected.set(place, &[current]);
                expected.set(count, &[n]);
                (0, n)
            }
            Err(stopped) => {
                expected.set(place, &[stopped.refusal.place]);
                expected.set(count, &[stopped.found]);
                (usize::from(stopped.refusal.number), stopped.found)
            }
        };
        let list = self.edges[0].lend(reads, &mut self.rng);
        let got = unsafe {
            siengulot_counted(
                k,
                n,
                level,
                list,
                reads.len(),
                lent.bytes_pointer(out),
                room,
                lent.pointer(place),
                lent.pointer(count),
            )
        };
        self.compare("counted", (got, &lent), (number, &expected), || {
            format!("{:?} {:?} room {}", [k, n, level], shown(reads), room)
        });
        if got == 5 && found > 0 {
            self.meets("counted", "5 after bits");
        }
    }

    pub fn encode(&mut self, bytes: &[u8], room: Room) {
        if !self.tries("encode") {
            return;
        }
        let room = room.of(bytes.len().min(2_000));
        let mut lent = Lent::new();
        let out = lent.words("out", room, &mut self.rng);
        let place = lent.number("place", &mut self.rng);
        let count = lent.number("count", &mut self.rng);
        let mut expected = lent.clone();
        let answer = halfcells::encode(bytes, expected.words_part(out));
        let number = told(&mut expected, place, count, answer);
        let list = self.edges[0].lend(bytes, &mut self.rng);
        let got = unsafe {
            siengulot_encode(
                list,
                bytes.len(),
                lent.words_part(out).as_mut_ptr(),
                room,
                lent.pointer(place),
                lent.pointer(count),
            )
        };
        self.compare("encode", (got, &lent), (number, &expected), || {
            format!("{:?} room {}", shown(bytes), room)
        });
    }

    pub fn decode(&mut self, words: &[u16], room: Room) {
        if !self.tries("decode") {
            return;
        }
        let room = room.of(words.len());
        let (mut lent, out, [place, count]) = self.lend(room);
        let mut expected = lent.clone();
        let answer = halfcells::decode(words, expected.part(out));
        let at = answer.map_or_else(|refused| refused.place, |_| 0);
        let number = told(&mut expected, place, count, answer);
        let list = self.edges[0].lend(words, &mut self.rng);
        let got = unsafe {
            siengulot_decode(
                list,
                words.len(),
                lent.bytes_pointer(out),
                room,
                lent.pointer(place),
                lent.pointer(count),
            )
        };
        self.compare("decode", (got, &lent), (number, &expected), || {
            format!("{:04x?} room {}", words, room)
        });
        if got == 11 {
            let kind = match (at, at % 8) {
                (0, _) => "11 at the first cell",
                (_, 0) => "11 at the first cell of a later word",
                _ => "11 within a word",
            };
            self.meets("decode", kind);
        }
    }

    pub fn time_read(&mut self, bits: &[u8], room: Room) {
        if !self.tries("time_read") {
            return;
        }
        // Refusal 4 counts every word, so the result's length is that of all words.
        let words = timecode::places(bits).len();
        let room = room.of(timecode::TIME * words);
        let (mut lent, out, [place, count]) = self.lend(room);
        let mut expected = lent.clone();
        let (number, found) = match timecode::read(bits, expected.part(out)) {
            Ok(found) => (told(&mut expected, place, count, Ok(found)), found),
            Err(stopped) => {
                expected.set(place, &[stopped.refusal.place]);
                expected.set(count, &[stopped.found]);
                (usize::from(stopped.refusal.number), stopped.found)
            }
        };
        let list = self.edges[0].lend(bits, &mut self.rng);
        let got = unsafe {
            siengulot_time_read(
                list,
                bits.len(),
                lent.bytes_pointer(out),
                room,
                lent.pointer(place),
                lent.pointer(count),
            )
        };
        self.compare("time_read", (got, &lent), (number, &expected), || {
            format!("{:?} room {}", shown(bits), room)
        });
        if got == 0 && found > 1 {
            self.meets("time_read", "several words");
        }
        if got == 10 && found > 0 {
            self.meets("time_read", "10 after words");
        }
    }

    pub fn time_write(&mut self, time: [usize; timecode::TIME], room: Room) {
        if !self.tries("time_write") {
            return;
        }
        let room = room.of(timecode::WORD);
        let (mut lent, out, [place, count]) = self.lend(room);
        let mut expected = lent.clone();
        let answer = timecode::write(time, expected.part(out)).map(|()| timecode::WORD);
        let number = told(&mut expected, place, count, answer);
        let [hours, minutes, seconds, frames] = time;
        let got = unsafe {
            siengulot_time_write(
                hours,
                minutes,
                seconds,
                frames,
                lent.bytes_pointer(out),
                room,
                lent.pointer(place),
                lent.pointer(count),
            )
        };
        self.compare("time_write", (got, &lent), (number, &expected), || {
            format!("{:?} room {}", time, room)
        });
    }

    /// Logs an event, and gives the log as it is then.
    pub fn log_event(&mut self, lists: &Lists, event: Shown) -> Lists {
        let mut after = lists.clone();
        let answer = after.with(|log| log::log_event(event, log));
        if !self.tries("log_event") {
            return after;
        }
        let mut lent = Lent::new();
        let at = LogAt::lend(&mut lent, lists, &mut self.rng);
        let taken = lent.number("taken", &mut self.rng);
        let mut expected = lent.clone();
        at.write(&mut expected, &after);
        expected.set(taken, &[answer.unwrap_or(0)]);
        let number = answer.map_or_else(|refused| usize::from(refused.number), |_| 0);
        let row = self.edges[0].lend(event.bits, &mut self.rng);
        let got = unsafe {
            siengulot_log_event(
                event.number,
                row,
                event.count,
                event.broken,
                lent.pointer(at.numbers).cast(),
                lent.bytes_pointer(at.bits),
                lent.pointer(at.counts),
                lent.bytes_pointer(at.broken),
                lent.bytes_pointer(at.free),
                lent.pointer(at.broken_count),
                lent.pointer(taken),
            )
        };
        self.compare("log_event", (got, &lent), (number, &expected), || {
            format!(
                "{:?} {:?} {:?} {:?} {}",
                event, lists.numbers, lists.broken, lists.free, lists.broken_count
            )
        });
        if let Ok(place) = answer {
            let later = &lists.numbers[place + 1..];
            let kind = if lists.free[place] != 0 {
                "a free record"
            } else if later.contains(&lists.numbers[place]) {
                "the oldest of equals"
            } else {
                "the oldest"
            };
            self.meets("log_event", kind);
            if event.broken != 0 {
                self.meets("log_event", "a broken row");
            }
            if lists.is_broken(place) {
                self.meets("log_event", "a broken row overwritten");
            }
        }
        let in_use = (0..RECORDS).filter(|&place| lists.free[place] == 0);
        let greatest = in_use.map(|place| lists.numbers[place] as u64).max();
        if number == 12 && greatest == Some(event.number) {
            self.meets("log_event", "12 for an equal number");
        }
        if number == 13 && greatest >= Some(event.number) {
            self.meets("log_event", "13 before 12");
        }
        after
    }

    /// Clears a record, and gives the log as it is then.
    pub fn log_clear(&mut self, lists: &Lists, place: usize) -> Lists {
        let mut after = lists.clone();
        let answer = after.with(|log| log::clear(place, log));
        if !self.tries("log_clear") {
            return after;
        }
        let mut lent = Lent::new();
        let at = LogAt::lend(&mut lent, lists, &mut self.rng);
        let mut expected = lent.clone();
        at.write(&mut expected, &after);
        let number = answer.map_or_else(|refused| usize::from(refused.number), |_| 0);
        let got = unsafe {
            siengulot_log_clear(
                place,
                lent.pointer(at.numbers).cast(),
                lent.bytes_pointer(at.bits),
                lent.pointer(at.counts),
                lent.bytes_pointer(at.broken),
                lent.bytes_pointer(at.free),
                lent.pointer(at.broken_count),
            )
        };
        self.compare("log_clear", (got, &lent), (number, &expected), || {
            format!(
                "{} {:?} {:?} {}",
                place, lists.broken, lists.free, lists.broken_count
            )
        });
        if answer.is_ok() {
            let kind = if lists.is_broken(place) {
                "broken"
            } else if lists.free[place] == 0 {
                "in use"
            } else {
                "free"
            };
            self.meets("log_clear", kind);
        }
        if number == 13 && lists.free[place] != 0 {
            self.meets("log_clear", "13 for a free record");
        }
        after
    }

    pub fn log_list(&mut self, lists: &Lists, room: Room) {
        if !self.tries("log_list") {
            return;
        }
        let numbers = lists.numbers.map(|number| number as u64);
        let room = room.of(lists.free.iter().filter(|&&mark| mark == 0).count());
        let mut lent = Lent::new();
        let places = lent.numbers("places", room, &mut self.rng);
        let count = lent.number("count", &mut self.rng);
        let mut expected = lent.clone();
        let answer = log::list(&numbers, &lists.free, expected.list(places));
        expected.set(count, &[answer.unwrap_or(0)]);
        let number = answer.map_or_else(|refused| usize::from(refused.number), |_| 0);
        let numbers_lent = self.edges[0].lend(&numbers, &mut self.rng);
        let free_lent = self.edges[1].lend(&lists.free, &mut self.rng);
        let got = unsafe {
            siengulot_log_list(
                numbers_lent,
                free_lent,
                lent.pointer(places),
                room,
                lent.pointer(count),
            )
        };
        self.compare("log_list", (got, &lent), (number, &expected), || {
            format!("{:?} {:?} room {}", lists.numbers, lists.free, room)
        });
        match answer {
            Ok(0) => self.meets("log_list", "none in use"),
            Ok(RECORDS) => self.meets("log_list", "all in use"),
            _ => (),
        }
    }

    pub fn fresh(&mut self, [k, n, q]: [usize; 3]) -> State {
        let mut lent = Lent::new();
        let numbers = lent.numbers("numbers", NUMBERS, &mut self.rng);
        let bits = lent.room("bits", ROW_BYTES, &mut self.rng);
        let mut expected = lent.clone();
        let (number, receiver) = match Receiver::fresh(k, n, q) {
            Ok(receiver) => (0, receiver),
            Err(refusal) => (usize::from(refusal.number), Receiver::REFUSED),
        };
        let state = State::of(&receiver);
        if !self.tries("fresh") {
            return state;
        }
        expected.set(numbers, &state.numbers);
        expected.write(bits, &state.bits);
        let got =
            unsafe { siengulot_fresh(k, n, q, lent.pointer(numbers), lent.bytes_pointer(bits)) };
        self.compare("fresh", (got, &lent), (number, &expected), || {
            format!("{:?}", [k, n, q])
        });
        state
    }

    pub fn well_formed(&mut self, state: &State) {
        if !self.tries("well_formed") {
            return;
        }
        let mut lent = Lent::new();
        let numbers = lent.numbers("numbers", NUMBERS, &mut self.rng);
        let bits = lent.bytes("bits", &state.bits, &mut self.rng);
        lent.set(numbers, &state.numbers);
        let expected = lent.clone();
        let answer = state.receiver().map_or(false, |it| it.well_formed());
        let got = unsafe { siengulot_well_formed(lent.pointer(numbers), lent.bytes_pointer(bits)) };
        self.compare(
            "well_formed",
            (got, &lent),
            (usize::from(answer), &expected),
            || format!("{:?} {:?}", state.numbers, state.bits),
        );
        self.count_state("well_formed", state);
    }

    /// What a state has that only C can lend.
    fn count_state(&mut self, operation: &'static str, state: &State) {
        if state.numbers[at::MODE] > 3 {
            self.meets(operation, "no mode");
        }
        if state.numbers[at::LEVEL] > 255 {
            self.meets(operation, "a level that is no byte");
        }
        if state.numbers[at::RUN_LEVEL] > 255 {
            self.meets(operation, "a run's level that is no byte");
        }
    }

    pub fn step(&mut self, state: &State, read: u8) -> Brought {
        let (mut lent, at) = self.lend_receiver(state);
        let mut expected = lent.clone();
        let mut receiver = state.receiver();
        let answer = match &mut receiver {
            Some(receiver) => receiver.step(read).map(|event| (event, 1)),
            None => Err(NO_RECEIVER),
        };
        let brought = at.tell(&mut expected, state, receiver, answer);
        if !self.tries("step") {
            return brought;
        }
        let got = unsafe {
            siengulot_step(
                lent.pointer(at.numbers),
                lent.bytes_pointer(at.bits),
                read,
                lent.bytes_pointer(at.row),
                lent.pointer(at.event),
                lent.pointer(at.found),
                lent.pointer(at.place),
            )
        };
        self.compare("step", (got, &lent), (brought.number, &expected), || {
            format!("{:?} {:?} read {}", state.numbers, state.bits, read)
        });
        self.count_event("step", &brought);
        self.count_state("step", state);
        brought
    }

    pub fn listen(&mut self, state: &State, reads: &[u8]) -> Brought {
        let (mut lent, at) = self.lend_receiver(state);
        let used = lent.number("used", &mut self.rng);
        let mut expected = lent.clone();
        let mut receiver = state.receiver();
        let answer = match &mut receiver {
            Some(receiver) => receiver.listen(reads).map(|it| (it.event, it.taken)),
            None => Err(NO_RECEIVER),
        };
        let brought = at.tell(&mut expected, state, receiver, answer);
        if !self.tries("listen") {
            return brought;
        }
        expected.set(used, &[brought.used]);
        let list = self.edges[0].lend(reads, &mut self.rng);
        let got = unsafe {
            siengulot_listen(
                lent.pointer(at.numbers),
                lent.bytes_pointer(at.bits),
                list,
                reads.len(),
                lent.bytes_pointer(at.row),
                lent.pointer(at.event),
                lent.pointer(at.found),
                lent.pointer(used),
                lent.pointer(at.place),
            )
        };
        self.compare("listen", (got, &lent), (brought.number, &expected), || {
            format!("{:?} {:?} {:?}", state.numbers, state.bits, shown(reads))
        });
        self.count_event("listen", &brought);
        self.count_state("listen", state);
        if got == 0 && reads[brought.used..].iter().any(|&read| read > 1) {
            self.meets("listen", "a bad read after an event");
        }
        brought
    }

    fn count_event(&mut self, operation: &'static str, brought: &Brought) {
        self.meets(operation, EVENTS[brought.event]);
        if brought.row.is_some() && brought.state.numbers[at::N] == 1_024 {
            self.meets(operation, "a row of 1,024 bits");
        }
        if brought.found == 1_023 {
            self.meets(operation, "a row broken after 1,023 bits");
        }
    }

    /// A receiver, room for a row, and the numbers of an event.
    fn lend_receiver(&mut self, state: &State) -> (Lent, At) {
        let rng = &mut self.rng;
        let mut lent = Lent::new();
        let at = At {
            numbers: lent.numbers("numbers", NUMBERS, rng),
            bits: lent.bytes("bits", &state.bits, rng),
            row: lent.room("row", ROW_BYTES, rng),
            event: lent.number("event", rng),
            found: lent.number("found", rng),
            place: lent.number("place", rng),
        };
        lent.set(at.numbers, &state.numbers);
        (lent, at)
    }

    pub fn capture_check(&mut self, bytes: &[u8]) {
        if !self.tries("capture_check") {
            return;
        }
        let mut lent = Lent::new();
        let summary = lent.numbers("summary", 5, &mut self.rng);
        let place = lent.number("place", &mut self.rng);
        let mut expected = lent.clone();
        let answer = capture::check(bytes);
        let number = summed(&mut expected, summary, place, bytes, answer);
        let list = self.edges[0].lend(bytes, &mut self.rng);
        let got = unsafe {
            siengulot_capture_check(
                list,
                bytes.len(),
                lent.pointer(summary),
                lent.pointer(place),
            )
        };
        self.compare("capture_check", (got, &lent), (number, &expected), || {
            format!("{:?}", shown(bytes))
        });
    }

    pub fn capture_read(&mut self, bytes: &[u8], room: Room) {
        if !self.tries("capture_read") {
            return;
        }
        let result = capture::check(bytes).map(|summary| summary.reads);
        let room = room.of(result.unwrap_or(0));
        let mut lent = Lent::new();
        let out = lent.room("out", room, &mut self.rng);
        let summary = lent.numbers("summary", 5, &mut self.rng);
        let place = lent.number("place", &mut self.rng);
        let mut expected = lent.clone();
        let answer = capture::read(bytes, expected.part(out));
        let number = summed(&mut expected, summary, place, bytes, answer);
        let list = self.edges[0].lend(bytes, &mut self.rng);
        let got = unsafe {
            siengulot_capture_read(
                list,
                bytes.len(),
                lent.bytes_pointer(out),
                room,
                lent.pointer(summary),
                lent.pointer(place),
            )
        };
        self.compare("capture_read", (got, &lent), (number, &expected), || {
            format!("{:?} room {}", shown(bytes), room)
        });
    }

    pub fn capture_write(&mut self, [k, n, q]: [usize; 3], reads: &[u8], room: Room) {
        if !self.tries("capture_write") {
            return;
        }
        let result = capture::write(k, n, q, reads, &mut self.scratch);
        let room = room.of(result.unwrap_or(0));
        let (mut lent, out, [place, count]) = self.lend(room);
        let mut expected = lent.clone();
        let answer = capture::write(k, n, q, reads, expected.part(out));
        let number = told(&mut expected, place, count, answer);
        let list = self.edges[0].lend(reads, &mut self.rng);
        let got = unsafe {
            siengulot_capture_write(
                k,
                n,
                q,
                list,
                reads.len(),
                lent.bytes_pointer(out),
                room,
                lent.pointer(place),
                lent.pointer(count),
            )
        };
        self.compare("capture_write", (got, &lent), (number, &expected), || {
            format!("{:?} {:?} room {}", [k, n, q], shown(reads), room)
        });
    }

    /// An output of this many bytes, a place and a count.
    fn lend(&mut self, room: usize) -> (Lent, Bytes, [Numbers; 2]) {
        let mut lent = Lent::new();
        let out = lent.room("out", room, &mut self.rng);
        let place = lent.number("place", &mut self.rng);
        let count = lent.number("count", &mut self.rng);
        (lent, out, [place, count])
    }
}

/// The number that a picker has to return, and what it has to leave of what is lent to it.
fn picked(lent: &Lent, k: Numbers, answer: Result<usize, Refusal>) -> (usize, Lent) {
    let mut expected = lent.clone();
    expected.set(k, &[answer.unwrap_or(0)]);
    let number = answer
        .err()
        .map_or(0, |refusal| usize::from(refusal.number));
    (number, expected)
}

/// Writes the place and the count of an answer, and gives its number.
fn told(
    expected: &mut Lent,
    place: Numbers,
    count: Numbers,
    answer: Result<usize, Refusal>,
) -> usize {
    let (number, at, length) = match answer {
        Ok(length) => (0, 0, length),
        Err(refusal) => (usize::from(refusal.number), refusal.place, 0),
    };
    expected.set(place, &[at]);
    expected.set(count, &[length]);
    number
}

/// Writes the summary of a capture, or the place of its refusal. How many runs there are is counted by the plain reader of numbers.
fn summed(
    expected: &mut Lent,
    summary: Numbers,
    place: Numbers,
    bytes: &[u8],
    answer: Result<Summary, Refusal>,
) -> usize {
    match answer {
        Ok(Summary { k, n, q, reads }) => {
            let mut reader = Reader::new(bytes).expect("a capture that was read before");
            let mut numbers = 0;
            while !reader.at_end() {
                reader.number().expect("a number that was read before");
                numbers += 1;
            }
            expected.set(summary, &[k, n, q, reads, numbers - 4]);
            expected.set(place, &[0]);
            0
        }
        Err(refusal) => {
            expected.set(place, &[refusal.place]);
            usize::from(refusal.number)
        }
    }
}

/// As much of a list as is worth printing.
fn shown(list: &[u8]) -> (usize, &[u8]) {
    (list.len(), &list[..list.len().min(2_000)])
}
