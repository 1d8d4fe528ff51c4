//! Compares the program `opinions` with the model on random inputs, byte for byte.

use shuffle_model::comparison::{compare, Subject};
use shuffle_model::desks::KINDS;
use shuffle_model::opinions::{run, INPUT_LIMIT};
use shuffle_model::parts::PartTally;

fn main() {
    compare::<PartTally>(&Subject {
        model: run,
        limit: INPUT_LIMIT,
        kinds: KINDS,
        full_count: 4_000,
    });
}
