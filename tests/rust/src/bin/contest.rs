//! The model of `contest` as a program: standard input to standard output.

use std::io;

use shuffle_model::contest::{run, INPUT_LIMIT};
use shuffle_model::process::serve;

fn main() -> io::Result<()> {
    serve(INPUT_LIMIT, run)
}
