//! Compares the program `load` with the model, byte for byte, on seeds and on inputs that
//! are none, and the program `shuffle` on the trials that it prints.

use shuffle_model::loads::compare;

fn main() {
    compare();
}
