//! The model of `explained` as a program: standard input to standard output.

use std::io;

use shuffle_model::explained::run;
use shuffle_model::process::serve;
use shuffle_model::text::INPUT_LIMIT;

fn main() -> io::Result<()> {
    serve(INPUT_LIMIT, run)
}
