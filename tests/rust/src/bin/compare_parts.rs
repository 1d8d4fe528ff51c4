//! Compares the program `parts` with the model on random texts, byte for byte.

use shuffle_model::comparison::{compare, Subject};
use shuffle_model::printed_parts::{run, INPUT_LIMIT};
use shuffle_model::texts::{TextTally, KINDS};

fn main() {
    compare::<TextTally>(&Subject {
        model: run,
        limit: INPUT_LIMIT,
        kinds: KINDS,
        full_count: 3_000,
    });
}
