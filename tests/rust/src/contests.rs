//! Compares the program `contest` with the model on every small table and on random
//! inputs, byte for byte.

use crate::comparison::{Comparison, Reached, Stage, DEFAULT_SEED};
use crate::contest::{run, run_by, Judge, Line, INPUT_LIMIT, RIGHT, SEARCHED_TICKS};
use crate::contest_inputs::KINDS;
use crate::contest_promises::objection;
use crate::contest_tables::{other_orders, small_rows, unordered_tables};
use crate::contest_tally::{AnswerTally, ContestTally, TableTally};
use crate::game::RULES;
use crate::inputs::random_input;
use crate::nodes::count;
use crate::options::{fail, Options};
use crate::rng::Rng;
use crate::table::Row;

/// From this many random inputs on, nothing may be too rare.
const FULL_COUNT: u64 = 3_000;
/// Every table with T up to this one is compared.
const LONGEST: u32 = 5;

/// Compares the program of the command line. With `--tables none` the small tables are left
/// out. With `--calls` no random input is taken whose search makes more calls, for a runner
/// that is slow.
pub fn compare() {
    let known = [
        "--program",
        "--runner",
        "--count",
        "--seed",
        "--tables",
        "--calls",
    ];
    let options = Options::read(&known);
    let seed = options.number("--seed", DEFAULT_SEED);
    match options.text("--tables").unwrap_or("every") {
        "every" => compare_tables(&options, seed),
        "none" => (),
        _ => fail("--tables: expected every or none"),
    }
    let count = options.number("--count", FULL_COUNT);
    let most_calls = options.number("--calls", u64::MAX);
    compare_random(&[stage(&options)], seed, count, most_calls);
}

fn stage(options: &Options) -> Stage {
    Stage::new(options, "--program", run).with(objection)
}

/// Every small table with every question. What is asked of the outputs besides, and the wrong
/// readings, do not depend on the order of the rows.
fn compare_tables(options: &Options, seed: u64) {
    let rows = small_rows(LONGEST);
    let plain = Stage::new(options, "--program", run);
    let tables = unordered_tables(&rows);
    compare_all::<TableTally>(&[stage(options)], seed, "small tables", &tables);
    let tables = other_orders(&rows);
    compare_all::<AnswerTally>(&[plain], seed, "their rows in other orders", &tables);
}

fn compare_all<R: Reached>(stages: &[Stage], seed: u64, kind: &'static str, tables: &[Vec<Row>]) {
    let comparison = Comparison {
        stages,
        limit: INPUT_LIMIT,
        kinds: &[kind],
        input: &|case| (0, with_every_question(&tables[case as usize])),
        cases: tables.len() as u64,
        seed,
    };
    comparison.conclude::<R>(true);
}

fn compare_random(stages: &[Stage], seed: u64, count: u64, most_calls: u64) {
    let comparison = Comparison {
        stages,
        limit: INPUT_LIMIT,
        kinds: &KINDS.iter().map(|kind| kind.name).collect::<Vec<_>>(),
        input: &|case| {
            let rng = &mut Rng::for_case(seed, case);
            loop {
                let (kind, input) = random_input(KINDS, rng);
                if most_calls == u64::MAX || calls(&input) <= most_calls {
                    return (kind, input);
                }
            }
        },
        cases: count,
        seed,
    };
    comparison.conclude::<ContestTally>(count >= FULL_COUNT);
}

/// How many calls a plain search makes for the questions of an input.
pub fn calls(input: &[u8]) -> u64 {
    let asked = run_by(&RIGHT, &mut Judge::new(RULES), input).asked;
    let answered = asked.iter().filter(|asked| asked.is_answered());
    answered
        .map(|asked| count(&asked.rows, asked.n).1.sum())
        .sum()
}

/// A table with a question for each number of ticks that the search takes.
pub fn with_every_question(rows: &[Row]) -> Vec<u8> {
    let rows = rows.iter().copied().map(Line::Row);
    let questions = (1..=SEARCHED_TICKS as u32).map(Line::Question);
    let mut text = Vec::new();
    rows.chain(questions).for_each(|line| line.write(&mut text));
    text
}
