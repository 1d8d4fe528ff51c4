//! The program `opinions` as a function from input bytes to output bytes: the opinion
//! on each of many tables.

use crate::table::{opinion_on, Row, ROW_LIMIT};
use crate::text::{print_opinion, print_unreadable, read_line, Command};

/// How many bytes of input are read.
pub const INPUT_LIMIT: usize = 262_144;

/// A table as it stands in the input: its rows, and the numbers of its lines that are
/// none. With such a line it is spoiled.
#[derive(Clone, Debug, Default, PartialEq, Eq)]
pub struct Part {
    pub rows: Vec<Row>,
    pub unreadable: Vec<u64>,
}

impl Part {
    /// A row from the seventeenth on is unreadable, as is every line that is no row.
    fn add(&mut self, line: &[u8], number: u64) {
        match read_line(line) {
            Some(Command::Row(row)) if self.rows.len() < ROW_LIMIT => self.rows.push(row),
            _ => self.unreadable.push(number),
        }
    }

    pub fn is_spoiled(&self) -> bool {
        !self.unreadable.is_empty()
    }

    fn print(&self, output: &mut Vec<u8>) {
        if self.is_spoiled() {
            for number in &self.unreadable {
                print_unreadable(output, 0, *number);
            }
        } else {
            print_opinion(output, &opinion_on(&self.rows));
        }
        output.push(b'\n');
    }
}

/// The tables of the part of the input that is read. An empty line ends one; the end of
/// the input does if it has lines.
pub fn parts(input: &[u8]) -> Vec<Part> {
    let read = &input[..input.len().min(INPUT_LIMIT)];
    let lines = read.split_inclusive(|byte| *byte == b'\n');
    let mut parts = Vec::new();
    let mut open: Option<Part> = None;
    for (line, number) in lines.zip(1..) {
        if line == b"\n" {
            parts.push(open.take().unwrap_or_default());
        } else {
            open.get_or_insert_default().add(line, number);
        }
    }
    parts.extend(open);
    parts
}

/// The output for an input.
pub fn run(input: &[u8]) -> Vec<u8> {
    let mut output = Vec::new();
    for part in parts(input) {
        part.print(&mut output);
    }
    output
}
