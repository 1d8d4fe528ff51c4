//! What §14 promises of an output of `planner`, looked for in the lines themselves.

use crate::planner::{Event, Transcript};
use crate::text::{Command, INPUT_LIMIT};

/// A buffer of so many bytes holds the text for an input of a length.
pub fn room_for(length: usize) -> usize {
    31_004 + 64 * length.min(INPUT_LIMIT)
}

/// The lines of a letter: of each the clock, and the fields after its number.
fn lines_of(output: &[u8], letter: &str) -> Vec<Vec<i64>> {
    let text = String::from_utf8_lossy(output);
    let lines = text
        .lines()
        .map(|line| line.split('\t').collect::<Vec<_>>());
    let such = lines.filter(|fields| fields.get(1) == Some(&letter));
    such.map(|fields| {
        let numbers = fields.iter().filter_map(|field| field.parse().ok());
        numbers.collect()
    })
    .collect()
}

/// The clock and the bound of each line `E` or `P`.
fn bounds(output: &[u8], letter: &str) -> Vec<(i64, i64)> {
    let lines = lines_of(output, letter).into_iter();
    lines
        .filter(|numbers| numbers.len() == 6)
        .map(|numbers| (numbers[0], numbers[4]))
        .collect()
}

/// How many jobs arrive in an input.
fn arrivals(input: &[u8]) -> usize {
    let events = Transcript::of(input).events;
    let arrived = events.iter().filter(
        |event| matches!(event, Event::Called(Command::Arrive(_), answer, _) if answer.number == 0),
    );
    arrived.count()
}

/// What is wrong with this output for an input, if anything.
pub fn objection(input: &[u8], output: &[u8]) -> Option<String> {
    let [ended, waiting] = ["E", "P"].map(|letter| bounds(output, letter));
    let promises = [
        (!output.is_empty(), "no text is empty"),
        (
            output.len() <= room_for(input.len()),
            "the text fits its buffer",
        ),
        (
            ended.iter().all(|(end, bound)| end <= bound),
            "no job ends after its bound",
        ),
        (
            waiting.iter().all(|(clock, bound)| clock < bound),
            "no waiting job has reached its bound",
        ),
        (
            ended.len() + waiting.len() == arrivals(input),
            "each job has one line",
        ),
    ];
    let broken = promises.iter().find(|(is_kept, _)| !is_kept);
    broken.map(|(_, promise)| format!("a promise is broken: {promise}"))
}
