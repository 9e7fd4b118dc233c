//! Software for a biphase mark link: judging settings, surveying regions, sending, a model of the line,
//! two receivers, the capture file, time code, what the rows program prints, and the log of a bay.
//!
//! The rules are those of docs/RULES.md. Every module follows one of its sections, named at the top
//! of the module, and the comments name the rule they carry out. Levels and bits are bytes, 0 or 1, and 2 is an unknown
//! read. Counts (cycles, reads, bits, rows) are `usize`, times and cycle lengths are `u64`,
//! margins are `i64`.
//!
//! An operation that refuses leaves every lent byte alone, with the exceptions of
//! refusals 5 and 10, and an operation that succeeds writes nothing after its result. Faults are
//! looked for in the order 1, 3, 2, 11, 4, then 5 or 10; the reader of captures, which goes through its
//! numbers from the left, has an order of its own.

#![forbid(unsafe_code)]
#![warn(missing_docs)]

pub mod board;
pub mod capture;
pub mod counted;
pub mod halfcells;
pub mod line;
pub mod log;
mod refusal;
pub mod rows;
pub mod sender;
pub mod settings;
pub mod stored;
pub mod survey;
pub mod timecode;

pub use refusal::Refusal;
