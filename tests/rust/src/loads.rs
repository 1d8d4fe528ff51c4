//! Compares the program `load` with the model on many seeds and on inputs that are none,
//! and the program `shuffle` on the trials that it prints; and counts what they reach.

use std::fmt;

use crate::comparison::{Comparison, Reached, Stage, DEFAULT_SEED};
use crate::events::{self, Events, EVENTS};
use crate::options::Options;
use crate::promises::{answer_objection, trial_objection};
use crate::rng::Rng;
use crate::seeds::{damaged_inputs, fixed_seeds, line, mutated_line, random_seed, WRONG_READERS};
use crate::tally::{add_all, too_rare};
use crate::text;
use crate::trials::{load, read_seed, table, trial, INPUT_LIMIT};
use crate::wrong_ways::WRONG;

/// From this many seeds on, nothing may be too rare.
const FULL_COUNT: u64 = 2_000;
/// For four seeds there is an input that is mostly none, up to so many.
const MOST_DAMAGED: u64 = 600;

const KINDS: [&str; 4] = ["fixed seeds", "random seeds", "damaged", "mutated"];

/// Compares the programs of the command line.
pub fn compare() {
    let options = Options::read(&["--program", "--shuffle", "--runner", "--count", "--seed"]);
    let seeds = options.number("--count", FULL_COUNT);
    let seed = options.number("--seed", DEFAULT_SEED);
    let fixed = fixed_seeds();
    let damaged = damaged_inputs();
    let input = |case: u64| {
        let rng = &mut Rng::for_case(seed, case);
        match case.checked_sub(seeds) {
            None => match fixed.get(case as usize) {
                Some(seed) => (0, line(*seed)),
                None => (1, line(random_seed(rng))),
            },
            Some(place) => match damaged.get(place as usize) {
                Some(input) => (2, input.clone()),
                None => (3, mutated_line(rng)),
            },
        }
    };
    let comparison = Comparison {
        stages: &[
            Stage::new(&options, "--program", load).with(trial_objection),
            Stage::new(&options, "--shuffle", text::run).with(answer_objection),
        ],
        limit: INPUT_LIMIT,
        kinds: &KINDS,
        input: &input,
        cases: seeds + (seeds / 4).min(MOST_DAMAGED),
        seed,
    };
    comparison.conclude::<LoadTally>(seeds >= FULL_COUNT);
}

/// The least rows of a trial, and how many numbers of rows there are.
const LEAST_ROWS: usize = 5;
const ROWS: usize = 8;
/// Of all trials, one in so many must have each of these numbers of rows.
const ROWS_ONE_IN: u64 = 16;

/// What the inputs reach.
#[derive(Default)]
pub struct LoadTally {
    /// Trials by their number of rows.
    rows: [u64; ROWS],
    /// In how many of them each sort of event happens.
    events: [u64; EVENTS],
    /// How many would be others by each wrong way.
    wrong: [u64; WRONG.len()],
    /// Inputs that are no seed.
    others: u64,
    /// How many inputs each wrong reader would read otherwise.
    misread: [u64; WRONG_READERS.len()],
}

/// A count, of how many one must be counted, and what is.
type Counted = (u64, u64, String);

fn listed(counts: &[Counted]) -> String {
    let counts = counts.iter();
    let counts = counts.map(|(count, _, what)| format!("{count} {what}"));
    counts.collect::<Vec<_>>().join(", ")
}

fn gaps_in(of: u64, counts: &[Counted]) -> Vec<String> {
    let counts = counts.iter();
    let gaps = counts.flat_map(|(count, one_in, what)| too_rare(of, &[(*count, *one_in, what)]));
    gaps.collect()
}

impl LoadTally {
    fn trials(&self) -> u64 {
        self.rows.iter().sum()
    }

    fn add_trial(&mut self, seed: u32, trial: &[u8]) {
        self.rows[table(seed).len() - LEAST_ROWS] += 1;
        let happens = Events::of(trial).counts.map(|count| u64::from(count > 0));
        add_all(&mut self.events, happens);
        for (sum, wrong) in self.wrong.iter_mut().zip(&WRONG) {
            *sum += u64::from(wrong.differs(seed));
        }
    }

    /// What the trials are counted by.
    fn of_trials(&self) -> Vec<Counted> {
        let rows = (LEAST_ROWS..).zip(self.rows);
        let rows = rows.map(|(rows, count)| (count, ROWS_ONE_IN, format!("have {rows} rows")));
        let events = self.events.iter().zip(events::sorts());
        let events = events.map(|(count, (name, one_in))| (*count, one_in, format!("have {name}")));
        let wrong = self.wrong.iter().zip(&WRONG);
        let wrong =
            wrong.map(|(count, wrong)| (*count, wrong.one_in, format!("differ by {}", wrong.name)));
        rows.chain(events).chain(wrong).collect()
    }

    /// What the inputs that are no seed are counted by.
    fn of_others(&self) -> Vec<Counted> {
        let misread = self.misread.iter().zip(&WRONG_READERS);
        let misread = misread.map(|(count, reader)| {
            let what = format!("are read by one that {}", reader.name);
            (*count, reader.one_in, what)
        });
        misread.collect()
    }
}

impl Reached for LoadTally {
    fn add(&mut self, input: &[u8]) -> Vec<u8> {
        let seed = read_seed(input);
        for (sum, reader) in self.misread.iter_mut().zip(&WRONG_READERS) {
            *sum += u64::from((reader.read)(input) != seed);
        }
        let Some(seed) = seed else {
            self.others += 1;
            return Vec::new();
        };
        let trial = trial(seed);
        self.add_trial(seed, &trial);
        trial
    }

    fn merge(&mut self, other: LoadTally) {
        add_all(&mut self.rows, other.rows);
        add_all(&mut self.events, other.events);
        add_all(&mut self.wrong, other.wrong);
        self.others += other.others;
        add_all(&mut self.misread, other.misread);
    }

    fn gaps(&self, _: u64) -> Vec<String> {
        let mut gaps = gaps_in(self.trials(), &self.of_trials());
        gaps.extend(gaps_in(self.others, &self.of_others()));
        gaps
    }
}

impl fmt::Display for LoadTally {
    fn fmt(&self, formatter: &mut fmt::Formatter) -> fmt::Result {
        write!(
            formatter,
            "of {} trials {}; of {} inputs that are no seed {}",
            self.trials(),
            listed(&self.of_trials()),
            self.others,
            listed(&self.of_others())
        )
    }
}
