//! Prints the meter's logarithms: g(1), g(2) and so on, one to a line.

use shuffle_model::meter::{logarithm, STRETCH_LIMIT};

fn main() {
    for n in 1..=STRETCH_LIMIT {
        println!("{}", logarithm(n));
    }
}
