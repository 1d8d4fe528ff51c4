//! Compares the program `contest` with the model, byte for byte, on every small table and
//! on random inputs.

use shuffle_model::contests::compare;

fn main() {
    compare();
}
