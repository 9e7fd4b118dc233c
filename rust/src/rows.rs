//! The rules of docs/RULES.md on "Rows program": from the bytes of a capture to what the program prints.

use crate::board::{Listener, Report};
use crate::capture::{self, Checked};
use crate::refusal::{need_size, Refusal};
use crate::settings::MAX_INPUT;
use std::io::Write;

/// The fixed first line.
const HEADING: &[u8] = b"read event bits\n";

/// Everything the program writes to standard output for the capture in `input`: a heading,
/// the events and a last line, or a single line if the input is refused.
pub fn output(input: &[u8]) -> Vec<u8> {
    let mut out = Vec::new();
    if let Err(refusal) = print(input, &mut out) {
        // Refused before anything was printed.
        line(&mut out, format_args!("{}", refusal));
    }
    out
}

fn print(input: &[u8], out: &mut Vec<u8>) -> Result<(), Refusal> {
    need_size(input.len(), MAX_INPUT)?;
    let Checked { summary, runs } = capture::checked(input)?;
    let mut listener = Listener::new(summary.k, summary.n, summary.q)?;
    out.extend_from_slice(HEADING);
    let mut place = 0;
    let mut rows = 0;
    for (level, length) in runs {
        for _ in 0..length {
            match listener.read(level) {
                None => {}
                Some(Report::Row) => {
                    let row = listener.row();
                    rows += 1;
                    text(out, format_args!("{} row ", place));
                    out.extend((0..summary.n).map(|i| b'0' + (row[i / 8] >> (i % 8) & 1)));
                    out.push(b'\n');
                }
                Some(Report::Broken(found)) => {
                    line(out, format_args!("{} broken {}", place, found));
                }
            }
            place += 1;
        }
    }
    line(out, format_args!("end {} rows {}", place, rows));
    Ok(())
}

fn text(out: &mut Vec<u8>, words: std::fmt::Arguments<'_>) {
    out.write_fmt(words)
        .expect("writing to a vector does not fail");
}

fn line(out: &mut Vec<u8>, words: std::fmt::Arguments<'_>) {
    text(out, words);
    out.push(b'\n');
}
