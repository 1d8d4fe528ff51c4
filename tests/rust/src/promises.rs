//! What change request 12 promises of a trial and of what `shuffle` prints of it. It is
//! looked for in the lines themselves, and not in the way by which they were made.

use std::iter::{once, repeat_n, successors};

use crate::table::{demand, opinion_on, HORIZON};
use crate::text::{leading_rows, read_line, Command};
use crate::trials::{next, read_seed};

const LINES: usize = 500;
const LEAST_DEMAND: u64 = 500_000;
/// Of the letters A, W, G and R there are so many lines each.
const LEAST_OF_A_LETTER: usize = 20;

fn lines(text: &[u8]) -> impl Iterator<Item = &[u8]> {
    text.split_inclusive(|byte| *byte == b'\n')
}

/// The first of these promises that is not kept, in words.
fn first_broken(promises: &[(bool, &str)]) -> Option<String> {
    let broken = promises.iter().find(|(is_kept, _)| !is_kept);
    broken.map(|(_, promise)| format!("a promise is broken: {promise}"))
}

/// What is wrong with this output of `load`, if anything.
pub fn trial_objection(input: &[u8], output: &[u8]) -> Option<String> {
    let Some(seed) = read_seed(input) else {
        let promise = "of what is no seed nothing is printed";
        return first_broken(&[(output.is_empty(), promise)]);
    };
    let rows = leading_rows(output);
    let is_admitted = opinion_on(&rows).is_ok();
    let read: Vec<Command> = lines(output).filter_map(read_line).collect();
    let words = read.iter().filter_map(|line| match line {
        Command::Word(word) => Some(*word),
        _ => None,
    });
    let numbers = successors(Some(next(seed)), |number| Some(next(*number)));
    let count = |letter: u8| lines(output).filter(|line| line[0] == letter).count();
    let letters = [b'A', b'W', b'G', b'R'].map(count);
    first_broken(&[
        (lines(output).count() == LINES, "500 lines"),
        (read.len() == LINES, "each line can be read"),
        (count(b'T') == rows.len(), "no T line after the table"),
        (is_admitted, "the table is admitted"),
        (
            is_admitted && demand(&rows, HORIZON) >= LEAST_DEMAND,
            "its demand at 1,000,000 is at least 500,000",
        ),
        (
            letters.iter().all(|count| *count >= LEAST_OF_A_LETTER),
            "20 lines each of A, W, G and R",
        ),
        (count(b'F') == 0, "no line F"),
        (
            words.clone().eq(numbers.take(words.count())),
            "each word is the next number",
        ),
    ])
}

/// What is wrong with this output of `shuffle` for a trial, if anything: it has a line for
/// the table, for each row and for each A, G and R, in order, and the number in each is 0.
pub fn answer_objection(trial: &[u8], output: &[u8]) -> Option<String> {
    let rows = leading_rows(trial).len();
    let calls = lines(trial).map(|line| line[0]);
    let calls = calls.filter(|letter| b"AGR".contains(letter));
    let letters = once(b'M').chain(repeat_n(b'B', rows)).chain(calls);
    let accepted = letters.map(|letter| [vec![letter], b"0".to_vec()]);
    let answers = lines(output).map(|line| {
        let mut fields = line.split(|byte| *byte == b'\t').skip(1);
        [fields.next(), fields.next()].map(|field| field.unwrap_or_default().to_vec())
    });
    first_broken(&[(answers.eq(accepted), "shuffle refuses none of the lines")])
}
