//! Memory that is lent to one call. What may be written lies between guards of junk, and all of it is compared afterwards; lists that are only
//! read often lie against memory that may not be touched at all.

use crate::inputs::Rng;

/// Junk before each part, and after the last.
const GUARD: usize = 32;
/// Parts of bytes begin anywhere, so that no alignment is taken for granted.
const SHIFT: usize = 16;

/// Bytes of a call that may be written.
#[derive(Clone, Copy)]
pub struct Bytes {
    at: usize,
    length: usize,
}

/// Numbers of a call that may be written.
#[derive(Clone, Copy)]
pub struct Numbers {
    at: usize,
    length: usize,
}

/// Words of 16 bits of a call that may be written. They lie among the numbers.
#[derive(Clone, Copy)]
pub struct Words {
    within: Numbers,
    shift: usize,
    length: usize,
}

/// All that a call may write.
#[derive(Clone)]
pub struct Lent {
    bytes: Vec<u8>,
    numbers: Vec<usize>,
    parts: Vec<(&'static str, Bytes)>,
    counts: Vec<(&'static str, Numbers)>,
}

impl Lent {
    pub fn new() -> Lent {
        Lent {
            bytes: Vec::new(),
            numbers: Vec::new(),
            parts: Vec::new(),
            counts: Vec::new(),
        }
    }

    /// Room for `length` bytes, holding junk.
    pub fn room(&mut self, name: &'static str, length: usize, rng: &mut Rng) -> Bytes {
        let front = GUARD + rng.below(SHIFT);
        let at = self.bytes.len().max(GUARD) - GUARD + front;
        rng.junk(&mut self.bytes, at + length + GUARD);
        let part = Bytes { at, length };
        self.parts.push((name, part));
        part
    }

    /// Bytes that hold something.
    pub fn bytes(&mut self, name: &'static str, held: &[u8], rng: &mut Rng) -> Bytes {
        let part = self.room(name, held.len(), rng);
        self.write(part, held);
        part
    }

    /// Numbers that hold junk.
    pub fn numbers(&mut self, name: &'static str, length: usize, rng: &mut Rng) -> Numbers {
        let at = self.numbers.len() + 2;
        self.numbers
            .resize_with(at + length + 2, || rng.next() as usize);
        let part = Numbers { at, length };
        self.counts.push((name, part));
        part
    }

    /// Words that hold junk. They begin at any word of a number.
    pub fn words(&mut self, name: &'static str, length: usize, rng: &mut Rng) -> Words {
        let shift = rng.below(4);
        Words {
            within: self.numbers(name, (shift + length + 3) / 4, rng),
            shift,
            length,
        }
    }

    /// The words of a part.
    pub fn words_part(&mut self, part: Words) -> &mut [u16] {
        let numbers = &mut self.numbers[part.within.at..part.within.at + part.within.length];
        assert!(part.shift + part.length <= 4 * numbers.len());
        // SAFETY: the numbers are aligned for words, have four each, and are borrowed as long as the words are.
        unsafe {
            let words = numbers.as_mut_ptr().cast::<u16>().add(part.shift);
            std::slice::from_raw_parts_mut(words, part.length)
        }
    }

    /// One number that holds junk.
    pub fn number(&mut self, name: &'static str, rng: &mut Rng) -> Numbers {
        self.numbers(name, 1, rng)
    }

    /// The bytes of a part.
    pub fn part(&mut self, part: Bytes) -> &mut [u8] {
        &mut self.bytes[part.at..part.at + part.length]
    }

    pub fn write(&mut self, part: Bytes, held: &[u8]) {
        self.part(part).copy_from_slice(held);
    }

    /// The numbers of a part.
    pub fn list(&mut self, part: Numbers) -> &mut [usize] {
        &mut self.numbers[part.at..part.at + part.length]
    }

    pub fn set(&mut self, part: Numbers, held: &[usize]) {
        self.list(part).copy_from_slice(held);
    }

    pub fn bytes_pointer(&mut self, part: Bytes) -> *mut u8 {
        self.bytes[part.at..].as_mut_ptr()
    }

    pub fn pointer(&mut self, part: Numbers) -> *mut usize {
        self.numbers[part.at..].as_mut_ptr()
    }

    /// Where the two differ first, in words.
    pub fn difference(&self, expected: &Lent) -> Option<String> {
        if let Some(i) = (0..self.numbers.len()).find(|&i| self.numbers[i] != expected.numbers[i]) {
            let of = self
                .counts
                .iter()
                .find(|(_, part)| (part.at..part.at + part.length).contains(&i));
            let place = match of {
                Some((name, part)) => format!("{}[{}]", name, i - part.at),
                None => format!("the guard at number {}", i),
            };
            return Some(format!(
                "{} is {}, expected {}",
                place, self.numbers[i], expected.numbers[i]
            ));
        }
        if self.bytes == expected.bytes {
            return None;
        }
        let i = (0..self.bytes.len()).find(|&i| self.bytes[i] != expected.bytes[i])?;
        let of = self
            .parts
            .iter()
            .find(|(_, part)| (part.at..part.at + part.length).contains(&i));
        let place = match of {
            Some((name, part)) => format!("byte {} of {}", i - part.at, name),
            None => format!("the guard at byte {}", i),
        };
        Some(format!(
            "{} is {}, expected {}",
            place, self.bytes[i], expected.bytes[i]
        ))
    }
}

extern "C" {
    fn mmap(at: *mut u8, length: usize, access: i32, kind: i32, file: i32, from: i64) -> *mut u8;
    fn mprotect(at: *mut u8, length: usize, access: i32) -> i32;
}

const NO_ACCESS: i32 = 0;
const READ: i32 = 1;
const READ_WRITE: i32 = 3;
/// Private, anonymous, and no memory set aside before it is used.
const FRESH: i32 = 0x4022;

fn map(length: usize, access: i32) -> *mut u8 {
    // SAFETY: a new mapping, which touches none that is there.
    let at = unsafe { mmap(std::ptr::null_mut(), length, access, FRESH, -1, 0) };
    assert!(at as isize != -1, "no memory could be mapped");
    at
}

/// A page, whatever the machine's own are.
const PAGE: usize = 65_536;

/// A page that can be used, between two that cannot.
pub struct Edge {
    page: *mut u8,
    /// Where in the page a list was lent last, and what it held.
    shift: usize,
    held: Vec<u8>,
}

impl Edge {
    pub fn new() -> Edge {
        let at = map(3 * PAGE, NO_ACCESS);
        // SAFETY: the middle of the mapping just made.
        let page = unsafe { at.add(PAGE) };
        let opened = unsafe { mprotect(page, PAGE, READ_WRITE) };
        assert!(opened == 0, "no memory could be opened");
        Edge {
            page,
            shift: 0,
            held: Vec::new(),
        }
    }

    /// Lends a list: where it fits, at the page's very front or end, so that a byte read beside it stops the run; else where it is.
    pub fn lend<T: Copy>(&mut self, list: &[T], rng: &mut Rng) -> *const T {
        let size = std::mem::size_of_val(list);
        if size > PAGE {
            return list.as_ptr();
        }
        self.shift = if rng.below(2) == 0 { 0 } else { PAGE - size };
        // SAFETY: `size` bytes from `shift` on lie in the page, and both its ends are aligned for numbers.
        unsafe {
            let at = self.page.add(self.shift);
            std::ptr::copy_nonoverlapping(list.as_ptr().cast(), at, size);
            self.held.clear();
            self.held
                .extend_from_slice(std::slice::from_raw_parts(at, size));
            at.cast()
        }
    }

    /// Whether the list that was lent last is as it was.
    pub fn kept(&self) -> bool {
        // SAFETY: so many bytes were written there.
        let now = unsafe { std::slice::from_raw_parts(self.page.add(self.shift), self.held.len()) };
        now == self.held
    }
}

/// A list of zeros that is longer than 32 bits can count. It may be read, and takes no memory as long as it isn't.
pub fn vast() -> &'static [u8] {
    let length = (1 << 32) + 3;
    let at = map(length, READ);
    // SAFETY: `length` bytes that stay mapped, and never change.
    unsafe { std::slice::from_raw_parts(at, length) }
}
