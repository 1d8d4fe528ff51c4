//! Compares the program `planner` with the model on random inputs, byte for byte.

use shuffle_model::comparison::{Comparison, Stage, DEFAULT_SEED};
use shuffle_model::inputs::random_input;
use shuffle_model::options::Options;
use shuffle_model::planner::run;
use shuffle_model::planner_inputs::KINDS;
use shuffle_model::planner_promises::objection;
use shuffle_model::planner_tally::PlannerTally;
use shuffle_model::rng::Rng;
use shuffle_model::text::INPUT_LIMIT;

/// From this many inputs on, nothing may be too rare.
const FULL_COUNT: u64 = 2_500;

fn main() {
    let options = Options::read(&["--program", "--runner", "--count", "--seed"]);
    let cases = options.number("--count", FULL_COUNT);
    let seed = options.number("--seed", DEFAULT_SEED);
    let comparison = Comparison {
        stages: &[Stage::new(&options, "--program", run).with(objection)],
        limit: INPUT_LIMIT,
        kinds: &KINDS.iter().map(|kind| kind.name).collect::<Vec<_>>(),
        input: &|case| random_input(KINDS, &mut Rng::for_case(seed, case)),
        cases,
        seed,
    };
    comparison.conclude::<PlannerTally>(cases >= FULL_COUNT);
}
