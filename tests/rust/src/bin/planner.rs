//! The model of `planner` as a program: standard input to standard output.

use std::io;

use shuffle_model::planner::run;
use shuffle_model::process::serve;
use shuffle_model::text::INPUT_LIMIT;

fn main() -> io::Result<()> {
    serve(INPUT_LIMIT, run)
}
