//! Random inputs for `explained`: those for `shuffle`, and more of what an explanation
//! has a phrase for; and what they reach, for the comparison, which counts it.

use std::fmt;

use crate::calls::candidates;
use crate::comparison::Reached;
use crate::damage::damage_once;
use crate::driver::Driver;
use crate::explained::run_told;
use crate::explanations::{ExplanationTally, Told};
use crate::inputs::{
    self, far_clock, full_run, kind, long_run, mixed_draws, random_input, short_draws,
    short_limits, Kind,
};
use crate::rng::Rng;
use crate::runs::{extend, Style};
use crate::sixteen::{random_table, CLASSES};
use crate::table::Row;
use crate::tables::{
    admitted, light_rows, part_brittle_rows, roomy_rows, small_rows, staggered_rows, RowMaker,
};
use crate::tally::{too_rare, Among};
use crate::text::{Command, Machine};
use crate::words::more_words;

pub const KINDS: &[Kind] = &[
    kind("of-shuffle", 400, any_input),
    kind("sixteen", 180, sixteen_waiting),
    kind("spending", 120, spending_run),
    kind("draws", 100, short_draws),
    kind("brittle", 100, short_limits),
    kind("mixed-draws", 100, mixed_draws),
    kind("tight", 60, full_run),
    kind("damaged", 120, damaged_input),
    kind("long-runs", 8, long_run),
    kind("far-clock", 4, far_clock),
];

/// An input as `shuffle` is compared on.
fn any_input(rng: &mut Rng) -> Vec<u8> {
    random_input(inputs::KINDS, rng).1
}

/// A table of 16 rows: of any kind, half of them loose.
fn sixteen_rows(rng: &mut Rng) -> Vec<Row> {
    let [loose, mixed, tight, ..] = &CLASSES;
    match rng.below(8) {
        0 => random_table(rng, tight),
        1..3 => random_table(rng, mixed),
        3..5 => random_table(rng, loose),
        5 => full_house(rng, part_brittle_rows),
        _ => full_house(rng, roomy_rows),
    }
}

/// As many rows as there can be, of a sort that may have fewer.
fn full_house(rng: &mut Rng, make: RowMaker) -> Vec<Row> {
    loop {
        let rows = admitted(rng, make);
        if rows.len() == crate::table::ROW_LIMIT {
            return rows;
        }
    }
}

/// All of 16 rows arrive on one tick, in any order, with choices between, which the next
/// arrival drops; then choices while most of them wait.
fn sixteen_waiting(rng: &mut Rng) -> Vec<u8> {
    let rows = sixteen_rows(rng);
    let mut driver = Driver::new(&rows);
    let mut order: Vec<u32> = (0..rows.len() as u32).collect();
    for place in 0..order.len() {
        order.swap(place, rng.below(rows.len()));
    }
    for row in order {
        driver.push(Command::Arrive(row));
        if rng.chance(1, 3) {
            choose_with_words(&mut driver, rng);
        }
    }
    for _ in 0..rng.between(2, 8) {
        choose_with_words(&mut driver, rng);
        // A short step, so that the job still waits at the next choice.
        let most = rng.pick(&[1, 1, 3]);
        let ticks = choice_left(&driver).min(most);
        driver.push(Command::Advance(ticks));
        let ready = rng.below(rows.len()) as u32;
        driver.push(Command::Arrive(ready));
    }
    let style = Style::drawing(rng);
    extend(&mut driver, rng, style, 10);
    driver.text
}

/// The ticks left of the choice in force, and 1 if there is none.
fn choice_left(driver: &Driver) -> u32 {
    let choice = driver.machine.session.choice;
    choice.map_or(1, |choice| choice.left as u32)
}

/// A choice after words for it: none, one that lets the last candidate run, or some of
/// which a few are passed over.
fn choose_with_words(driver: &mut Driver, rng: &mut Rng) {
    let Machine { session, words } = &driver.machine;
    let is_open = session.choice.is_none() && words.len() <= 40;
    let words = match rng.below(4) {
        0..3 if !is_open => Vec::new(),
        0 => vec![candidates(session).len() as u32 - 1],
        1..3 => more_words(rng, session, words),
        _ => Vec::new(),
    };
    for word in words.into_iter().take(8) {
        driver.push(Command::Word(word));
    }
    driver.push(Command::Choose);
}

/// A run in which the last candidate, often idle, gets all the time that it may have, so
/// that budgets are spent.
fn spending_run(rng: &mut Rng) -> Vec<u8> {
    let makers: [RowMaker; 4] = [light_rows, small_rows, staggered_rows, roomy_rows];
    let make = rng.pick(&makers);
    let rows = admitted(rng, make);
    let mut driver = Driver::new(&rows);
    for _ in 0..rng.between(4, 40) {
        if rng.chance(1, 2) {
            driver.push(Command::Arrive(rng.below(rows.len()) as u32));
            continue;
        }
        let last = candidates(&driver.machine.session).len() as u32 - 1;
        if last > 0 && rng.chance(7, 8) {
            driver.push(Command::Word(last));
        }
        driver.push(Command::Choose);
        let left = driver
            .machine
            .session
            .choice
            .map_or(1, |choice| choice.left);
        driver.push(Command::Advance(left as u32));
    }
    driver.text
}

/// An input with explanations, damaged mostly behind its table.
fn damaged_input(rng: &mut Rng) -> Vec<u8> {
    let makers = [short_draws, short_limits, spending_run, sixteen_waiting];
    let text = rng.pick(&makers)(rng);
    let calls = text.split_inclusive(|byte| *byte == b'\n');
    let table: usize = calls
        .take_while(|line| line.starts_with(b"T"))
        .map(<[u8]>::len)
        .sum();
    let kept = rng.pick(&[0, table, table, table]);
    let mut rest = text[kept..].to_vec();
    for _ in 0..rng.pick(&[1, 1, 1, 2, 3]) {
        damage_once(rng, &mut rest);
    }
    [&text[..kept], &rest].concat()
}

/// What inputs for `explained` reach.
#[derive(Default)]
pub struct ExplainedTally {
    /// How many inputs do what `INPUTS` says.
    inputs: [u64; INPUTS.len()],
    explanations: ExplanationTally,
}

/// What the counted inputs do, and of how many one must.
const INPUTS: [(&str, u64); 5] = [
    ("have an explanation", 2),
    ("have a line that can't be read", 15),
    ("have one after an explanation", 25),
    ("have a refused table", 40),
    ("have more than 65,536 bytes of output", 400),
];

impl Reached for ExplainedTally {
    fn add(&mut self, input: &[u8]) -> Vec<u8> {
        let mut is_explained = false;
        let output = run_told(input, |machine, explained| {
            is_explained = true;
            let Machine { session, words } = machine;
            let told = Told::new(session, words, &explained.explanation);
            self.explanations.add(&told);
        });
        let last = output.split_inclusive(|byte| *byte == b'\n').next_back();
        let has_letter = |letter: &[u8]| {
            let mut fields = last.unwrap_or_default().split(|byte| *byte == b'\t');
            fields.nth(1) == Some(letter)
        };
        let is_unreadable = has_letter(b"?");
        let has = [
            is_explained,
            is_unreadable,
            is_explained && is_unreadable,
            has_letter(b"M"),
            output.len() > 65_536,
        ];
        for (count, has) in self.inputs.iter_mut().zip(has) {
            *count += u64::from(has);
        }
        output
    }

    fn merge(&mut self, other: ExplainedTally) {
        for (sum, count) in self.inputs.iter_mut().zip(other.inputs) {
            *sum += count;
        }
        self.explanations.merge(&other.explanations);
    }

    fn gaps(&self, inputs: u64) -> Vec<String> {
        let counts = self.inputs.iter().zip(&INPUTS);
        let counts: Vec<(u64, u64, &str)> = counts
            .map(|(count, (what, one_in))| (*count, *one_in, *what))
            .collect();
        let mut gaps = too_rare(inputs, &counts);
        gaps.extend(self.explanations.gaps(Among::Inputs(inputs)));
        gaps
    }
}

impl fmt::Display for ExplainedTally {
    fn fmt(&self, formatter: &mut fmt::Formatter) -> fmt::Result {
        let inputs = self.inputs.iter().zip(&INPUTS);
        let inputs = inputs.map(|(count, (what, _))| format!("{count} {what}"));
        write!(
            formatter,
            "{}; {}",
            inputs.collect::<Vec<_>>().join(", "),
            self.explanations
        )
    }
}
