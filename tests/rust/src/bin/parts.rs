//! The model of `parts` as a program: standard input to standard output.

use std::io;

use shuffle_model::printed_parts::{run, INPUT_LIMIT};
use shuffle_model::process::serve;

fn main() -> io::Result<()> {
    serve(INPUT_LIMIT, run)
}
