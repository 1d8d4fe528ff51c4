//! The model of `load` as a program: standard input to standard output.

use std::io;

use shuffle_model::process::serve;
use shuffle_model::trials::{load, INPUT_LIMIT};

fn main() -> io::Result<()> {
    serve(INPUT_LIMIT, load)
}
