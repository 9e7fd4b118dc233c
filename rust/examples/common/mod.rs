//! Case files: what `line_cases` and `board_cases` read, a case a line.
//!
//! ```text
//! NAME: OPERATION NUMBERS | LIST | LIST > ROOM
//! ```
//!
//! A number stands after its name, as in `k 10`; numbers come in the order in which the operation takes them. A
//! list has its entries: `1x15` is fifteen times 1, and `1 0 0 .. 2048` goes over 1 0 0 again and again until
//! there are 2,048. The list `out` is what the case before has written; entries may follow the word, as in
//! `out 1x10`. ROOM is how many entries the lent output has, which are all 9 before. A line that is empty or
//! begins with # is no case.
//!
//! What is not written so stops the program.

use siengulot_plain::Refusal;
use std::io::Read;

/// A case, taken apart.
pub struct Case {
    line: String,
    operation: String,
    numbers: Vec<String>,
    lists: Vec<String>,
    room: usize,
}

/// The cases on standard input.
pub fn cases() -> Vec<Case> {
    let mut text = String::new();
    std::io::stdin()
        .read_to_string(&mut text)
        .expect("standard input cannot be read");
    let lines = text.lines();
    lines
        .filter(|line| !line.is_empty() && !line.starts_with('#'))
        .map(Case::of)
        .collect()
}

impl Case {
    fn of(line: &str) -> Case {
        let (_, said) = line
            .split_once(": ")
            .unwrap_or_else(|| panic!("no name: {}", line));
        let (said, room) = match said.split_once('>') {
            Some((said, room)) => (said, number(line, room.trim())),
            None => (said, 0),
        };
        let mut parts = said.split('|').map(str::trim);
        let mut words = parts.next().unwrap_or("").split(' ').map(str::to_string);
        Case {
            line: line.to_string(),
            operation: words.next().unwrap_or_default(),
            numbers: words.collect(),
            lists: parts.map(str::to_string).collect(),
            room,
        }
    }

    /// The name of its operation.
    pub fn operation(&self) -> &str {
        &self.operation
    }

    /// Its numbers, which have these names, in this order.
    pub fn numbers<const N: usize>(&self, names: [&str; N]) -> [usize; N] {
        let said: Vec<&str> = self.numbers.iter().step_by(2).map(String::as_str).collect();
        assert_eq!(said, names, "the numbers of {}", self.line);
        let mut numbers = [0; N];
        for (value, said) in numbers.iter_mut().zip(self.numbers.chunks(2)) {
            *value = number(&self.line, &said[1]);
        }
        numbers
    }

    /// Its list at a place, counted from 0, as it is written; nothing where it has none.
    pub fn text(&self, place: usize) -> &str {
        self.lists.get(place).map_or("", String::as_str)
    }

    /// Its list of numbers at a place.
    pub fn number_list(&self, place: usize) -> Vec<usize> {
        list(&self.line, self.text(place))
    }

    /// Its list at a place, where `out` is what the case before has written.
    pub fn list(&self, place: usize, out: &[u8]) -> Vec<u8> {
        let (mut bytes, text) = match self.text(place).strip_prefix("out") {
            Some(after) => (out.to_vec(), after),
            None => (Vec::new(), self.text(place)),
        };
        let entries = list(&self.line, text).into_iter();
        bytes.extend(entries.map(|entry| u8::try_from(entry).expect(&self.line)));
        bytes
    }

    /// A lent output with the room that it says.
    pub fn lent(&self) -> Vec<u8> {
        vec![9; self.room]
    }

    /// Prints the case, what it gave, and what is left in its lent output.
    pub fn print(&self, told: &str, lent: &[u8]) {
        let left = match lent.len() {
            0 => String::new(),
            1..=32 => format!(" |{}", entries(lent)),
            _ => format!(" |{}", summary(lent)),
        };
        println!("{} ->{}{}", self.line, told, left);
    }
}

fn number(line: &str, said: &str) -> usize {
    said.parse()
        .unwrap_or_else(|_| panic!("{} is no number: {}", said, line))
}

fn list(line: &str, text: &str) -> Vec<usize> {
    let (text, most) = match text.split_once("..") {
        Some((text, most)) => (text, Some(number(line, most.trim()))),
        None => (text, None),
    };
    let mut entries = Vec::new();
    for entry in text.split_whitespace() {
        let (entry, times) = entry.split_once('x').unwrap_or((entry, "1"));
        let times = number(line, times);
        entries.resize(entries.len() + times, number(line, entry));
    }
    match most {
        Some(most) => entries.iter().copied().cycle().take(most).collect(),
        None => entries,
    }
}

fn entries(list: &[u8]) -> String {
    list.iter().map(|entry| format!(" {}", entry)).collect()
}

fn summary(list: &[u8]) -> String {
    let count = |level: u8| list.iter().filter(|&&entry| entry == level).count();
    let step = |sum: u64, &entry: &u8| (sum * 31 + u64::from(entry)) % 65521;
    let digest = list.iter().fold(0, step);
    let (low, high, unknown) = (count(0), count(1), count(2));
    format!(
        " low {} high {} unknown {} digest {}",
        low, high, unknown, digest
    )
}

/// A refusal, as the cases print it.
pub fn refused(refusal: Refusal) -> String {
    format!(" refused {} at {}", refusal.number, refusal.place)
}

/// What an operation gave that writes a list: how many entries, and the same as it is printed.
pub fn made(answer: Result<usize, Refusal>) -> (String, usize) {
    match answer {
        Ok(count) => (format!(" {}", count), count),
        Err(refusal) => (refused(refusal), 0),
    }
}
