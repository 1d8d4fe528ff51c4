//! The program `parts` as a function from input bytes to output bytes: the parts of the
//! explanation whose text the input is.

use std::io::{self, Write};

use crate::explanation::Explanation;
use crate::explanation_reader::read;

/// How many bytes of input are read; no text is as long.
pub const INPUT_LIMIT: usize = 4_096;

/// The output for an input.
pub fn run(input: &[u8]) -> Vec<u8> {
    let mut output = Vec::new();
    match read(&input[..input.len().min(INPUT_LIMIT)]) {
        Some(explanation) => print(&mut output, &explanation).expect("writing to memory"),
        None => output.extend(b"?\n"),
    }
    output
}

fn print(output: &mut Vec<u8>, explanation: &Explanation) -> io::Result<()> {
    for job in &explanation.jobs {
        let flag = u8::from(job.is_candidate);
        writeln!(
            output,
            "J\t{}\t{}\t{}\t{flag}",
            job.row, job.due, job.budget
        )?;
    }
    if let Some(deadline) = explanation.brittle {
        writeln!(output, "B\t{deadline}")?;
    }
    let flag = u8::from(explanation.word.is_some());
    let word = explanation.word.unwrap_or(0);
    writeln!(output, "C\t{}\t{flag}\t{word}", explanation.chosen)?;
    let cause = explanation.cause as u8;
    writeln!(output, "S\t{}\t{cause}", explanation.span)
}
