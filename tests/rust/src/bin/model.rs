//! The model of `shuffle` as a program: standard input to standard output.

use std::io;

use shuffle_model::process::serve;
use shuffle_model::text::{run, INPUT_LIMIT};

fn main() -> io::Result<()> {
    serve(INPUT_LIMIT, run)
}
