//! Instructions of one call, by callgrind.

use std::collections::HashMap;
use std::env::current_exe;
use std::fs;
use std::hint::black_box;
use std::path::Path;
use std::process::Command;

use shuffle_model::options::fail;

/// Calls of each side in a counted run, but for the meter and overloaded tables.
pub const COUNTED: u64 = 100;

/// Makes the calls that are counted, each on a copy of a state of its own.
pub fn repeat<S: Clone, R>(state: &S, times: u64, call: impl Fn(&mut S) -> R) {
    for _ in 0..times {
        let mut copy = state.clone();
        black_box(call(black_box(&mut copy)));
    }
}

/// The instructions within each function of a run of this program with these
/// arguments, its callees included.
pub fn functions(folder: &Path, arguments: &[&str]) -> HashMap<String, u64> {
    let out = folder.join("callgrind.out");
    let this = current_exe().unwrap_or_else(|error| fail(&error.to_string()));
    let file = format!("--callgrind-out-file={}", out.display());
    let mut valgrind = Command::new("valgrind");
    valgrind.args(["-q", "--tool=callgrind", &file]);
    output_of(valgrind.arg(this).args(arguments));
    let mut annotate = Command::new("callgrind_annotate");
    let text = output_of(
        annotate
            .args(["--inclusive=yes", "--threshold=100"])
            .arg(&out),
    );
    let _ = fs::remove_file(&out);
    text.lines().filter_map(function).collect()
}

/// The instructions of one of so many calls; `side` is the name of the measured
/// function.
pub fn of_one_call(functions: &HashMap<String, u64>, side: &str, calls: u64) -> f64 {
    let total = functions.get(side).copied();
    total.unwrap_or_else(|| panic!("{side} was not counted")) as f64 / calls as f64
}

/// A line such as `1,234 (56.78%)  ???:name [file]`.
fn function(line: &str) -> Option<(String, u64)> {
    let mut fields = line.split_whitespace();
    let count = fields.next()?.replace(',', "").parse().ok()?;
    let place = fields.find(|field| field.contains(':'))?;
    let name = place.rsplit(':').next()?;
    Some((name.to_string(), count))
}

fn output_of(command: &mut Command) -> String {
    let output = command
        .output()
        .unwrap_or_else(|error| fail(&format!("{command:?}: {error}")));
    if !output.status.success() {
        fail(&format!("{command:?} failed"));
    }
    String::from_utf8_lossy(&output.stdout).into_owned()
}
