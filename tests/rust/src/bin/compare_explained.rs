//! Compares the program `explained` with the model on random inputs, byte for byte.

use shuffle_model::comparison::{compare, Subject};
use shuffle_model::explained::run;
use shuffle_model::explained_inputs::{ExplainedTally, KINDS};
use shuffle_model::text::INPUT_LIMIT;

fn main() {
    compare::<ExplainedTally>(&Subject {
        model: run,
        limit: INPUT_LIMIT,
        kinds: KINDS,
        full_count: 4_000,
    });
}
