//! Writes stored cases: `cases DIR` makes DIR/stdin and DIR/stdout, with cases for
//! `shuffle`, and `cases --opinions DIR` makes them with one input for `opinions`.
//!
//! Of `shuffle`, in `stdin` each case is a line with its length in bytes, then the
//! bytes. In `stdout` each case is the model's output, then a line `--`.

use std::fs;
use std::io;
use std::path::Path;

use shuffle_model::arrivals::Arrivals;
use shuffle_model::damage::DAMAGES;
use shuffle_model::draws::Draws;
use shuffle_model::driver::table_text;
use shuffle_model::gifts::Gifts;
use shuffle_model::inputs::{
    full_run, light_run, odd_number_input, overloaded_table, short_counts, short_draws,
    short_gifts, short_limits, short_run, short_ties, small_run, ODD_LINES, ODD_NUMBERS, SPECIALS,
};
use shuffle_model::mixed::Mixed;
use shuffle_model::opinions;
use shuffle_model::options::fail;
use shuffle_model::overloaded::late_overload_rows;
use shuffle_model::overloads::OverloadTally;
use shuffle_model::plans::stored;
use shuffle_model::rng::Rng;
use shuffle_model::specification::{
    arrivals, draws, gifts, listing, mixed, plain, ties, EXAMPLES, OVERLOADS,
};
use shuffle_model::table::{opinion_on, Row};
use shuffle_model::tally::Among;
use shuffle_model::text::{leading_rows, run, run_watched};
use shuffle_model::ties::Ties;

const SEED: u64 = 15;
const CASES: usize = 488;
const LONGEST_CASE: usize = 3_999;
const LONGEST_RANDOM_CASE: usize = 500;
/// Random tables that are overloaded, or nearly, and the longest of them.
const OVERLOADED_CASES: usize = 60;
const LONGEST_OVERLOAD: usize = 120;
const LONGEST_STDIN: usize = 60_000;
/// The same of the input for `opinions`.
const LONGEST_DESK: usize = 16_384;
/// So many cases must show that arrival decides a tie against the row number.
const LEAST_TIES: usize = 60;
/// So many cases must show in an answer that a finish gave to a later job.
const LEAST_GIFTS: usize = 30;
/// So many cases must show in an answer that a word is passed over.
const LEAST_DRAWS: usize = 40;
/// So many cases must show in an answer that a brittle job to come keeps another one
/// from running.
const LEAST_LIMITS: usize = 25;
/// So many cases must show in an answer that a job did not arrive with V, and so many that
/// it has to count a waiting job that is due when it is.
const LEAST_ARRIVALS: usize = 60;
const LEAST_EQUAL: usize = 10;

fn main() -> io::Result<()> {
    let arguments: Vec<String> = std::env::args().skip(1).collect();
    let arguments: Vec<&str> = arguments.iter().map(String::as_str).collect();
    let (directory, (stdin, stdout)) = match arguments[..] {
        [directory] => (directory, shuffle_cases()),
        ["--opinions", directory] => (directory, opinion_cases()),
        _ => fail("usage: cases [--opinions] DIR"),
    };
    fs::write(Path::new(directory).join("stdin"), stdin)?;
    fs::write(Path::new(directory).join("stdout"), stdout)
}

/// The input for `opinions`, and what is printed of it.
fn opinion_cases() -> (Vec<u8>, Vec<u8>) {
    let (stdin, stdout) = stored();
    assert!(stdin.len() < LONGEST_DESK, "{} bytes", stdin.len());
    assert_eq!(opinions::run(&stdin), stdout, "the model prints otherwise");
    (stdin, stdout)
}

fn shuffle_cases() -> (Vec<u8>, Vec<u8>) {
    let cases = all_cases();
    let ties = cases.iter().filter(|case| shows_a_tie(case)).count();
    assert!(ties >= LEAST_TIES, "{ties} cases show a tie");
    let gifts = cases.iter().filter(|case| shows_a_gift(case)).count();
    assert!(gifts >= LEAST_GIFTS, "{gifts} cases show a gift");
    let draws = cases.iter().filter(|case| shows_a_draw(case)).count();
    assert!(draws >= LEAST_DRAWS, "{draws} cases show a draw");
    let limits = cases.iter().filter(|case| shows_a_limit(case)).count();
    assert!(limits >= LEAST_LIMITS, "{limits} cases show a limit");
    check_budgets(&cases);
    let gaps = overload_gaps(&cases);
    assert!(gaps.is_empty(), "{gaps:?}");
    let (stdin, stdout) = store(&cases);
    assert!(stdin.len() < LONGEST_STDIN, "{} bytes", stdin.len());
    (stdin, stdout)
}

/// Enough of the cases must show with which budgets jobs arrive.
fn check_budgets(cases: &[Vec<u8>]) {
    let shown: Vec<&str> = cases.iter().flat_map(|case| refuted_by(case)).collect();
    let count = |rule: &str| shown.iter().filter(|shown| **shown == rule).count();
    let others = count("V on arrival");
    assert!(others >= LEAST_ARRIVALS, "{others} cases show a budget");
    let equal = count("waiting jobs due earlier");
    assert!(
        equal >= LEAST_EQUAL,
        "{equal} cases count an equal deadline"
    );
}

fn store(cases: &[Vec<u8>]) -> (Vec<u8>, Vec<u8>) {
    let mut stdin = Vec::new();
    let mut stdout = Vec::new();
    for case in cases {
        stdin.extend(format!("{}\n", case.len()).bytes());
        stdin.extend(case);
        stdout.extend(run(case));
        stdout.extend(b"--\n");
    }
    (stdin, stdout)
}

/// The fixed cases first, then random runs up to the number of cases.
fn all_cases() -> Vec<Vec<u8>> {
    let mut rng = Rng::new(SEED);
    let mut cases = fixed_cases();
    cases.extend(overloaded_cases(&mut rng, OVERLOADED_CASES));
    cases.extend(damaged_cases(&mut rng, 3));
    cases.retain(|case| case.len() <= LONGEST_CASE);
    while cases.len() < CASES {
        let make = match rng.below(28) {
            0 => light_run,
            1 | 2 => small_run,
            3 => full_run,
            4 => short_run,
            5..15 => short_ties,
            15..19 => short_gifts,
            19..22 => short_draws,
            22..24 => short_counts,
            _ => short_limits,
        };
        let case = make(&mut rng);
        if case.len() <= LONGEST_RANDOM_CASE {
            cases.push(case);
        }
    }
    cases
}

fn fixed_cases() -> Vec<Vec<u8>> {
    let listing = [listing().0.into_bytes()].into_iter();
    let tables = EXAMPLES.iter().chain(OVERLOADS);
    let tables = tables.map(|example| table_text(&example.rows()));
    let texts = SPECIALS.iter().chain(REFUSALS);
    let texts = texts.map(|text| plain(text).into_bytes());
    let many_rows = [16, 17, 18].map(|count| table_text(&vec![Row::from([1, 20, 20]); count]));
    // Each odd number once, and each odd line with a number too great by one.
    let each_number = ODD_LINES.iter().cycle().zip(ODD_NUMBERS);
    let each_line = ODD_LINES.iter().map(|line| (line, &"4294967296"));
    let odd = each_number.chain(each_line);
    let odd = odd.map(|(line, number)| odd_number_input(line, number));
    let moments = [ties(), gifts(), draws(), mixed(), arrivals()];
    let moments = moments.into_iter().flatten();
    let moments = moments.map(|(input, _)| input.into_bytes());
    let fixed = listing.chain(tables).chain(texts).chain(many_rows);
    fixed.chain(odd).chain(moments).collect()
}

/// One input for each refusal of the four calls, and what is accepted next.
const REFUSALS: &[&str] = &[
    "T 2 10 10/A 1/A 16/A 4294967295/A 0/",
    "T 2 10 10/A 0/G/R 2/A 0/G/R 7/A 0/R 1/A 0/",
    "T 2 10 10/G/G/A 0/G/G/R 1/G/",
    "T 2 10 10/R 1/R 0/F/G/R 1/",
    "T 2 10 10/A 0/G/R 0/R 3/R 1/R 2/R 4294967295/R 1/R 1/",
    "T 2 10 10/G/F/A 0/F/G/F/F/",
];

fn shows_a_tie(case: &[u8]) -> bool {
    let mut ties = Ties::default();
    run_watched(case, |machine, command| ties.watch(machine, command));
    ties.shown
}

fn shows_a_gift(case: &[u8]) -> bool {
    let mut gifts = Gifts::default();
    let output = run_watched(case, |machine, command| gifts.watch(machine, command));
    gifts.compare(case, &output);
    gifts.shown
}

fn shows_a_draw(case: &[u8]) -> bool {
    let mut draws = Draws::default();
    let output = run_watched(case, |machine, command| draws.watch(machine, command));
    draws.compare(case, &output);
    draws.shown
}

fn shows_a_limit(case: &[u8]) -> bool {
    let mut mixed = Mixed::default();
    run_watched(case, |machine, command| mixed.watch(machine, command));
    mixed.has("depend on a brittle job to come")
}

/// The wrong budgets on arrival by which an answer would be another one.
fn refuted_by(case: &[u8]) -> Vec<&'static str> {
    let mut arrivals = Arrivals::default();
    let output = run_watched(case, |machine, command| arrivals.watch(machine, command));
    arrivals.compare(case, &output);
    arrivals.shown()
}

/// Which sorts of overloaded tables are rarer among the cases than they must be among
/// the inputs of a comparison.
fn overload_gaps(cases: &[Vec<u8>]) -> Vec<String> {
    let mut overloads = OverloadTally::default();
    for case in cases {
        overloads.add(&leading_rows(case));
    }
    overloads.gaps(Among::Inputs(cases.len() as u64))
}

/// Overloaded tables in few bytes; a few of them are overloaded late, or past the
/// horizon and not before.
fn overloaded_cases(rng: &mut Rng, count: usize) -> Vec<Vec<u8>> {
    let mut cases = Vec::new();
    while cases.len() < count {
        let text = match rng.below(8) {
            0 => table_text(&late_overload_rows(rng)),
            _ => overloaded_table(rng),
        };
        if text.len() <= LONGEST_OVERLOAD && is_refused(&text) {
            cases.push(text);
        }
    }
    cases
}

fn is_refused(case: &[u8]) -> bool {
    opinion_on(&leading_rows(case)).is_err()
}

/// Each kind of damage to some short runs.
fn damaged_cases(rng: &mut Rng, each: usize) -> Vec<Vec<u8>> {
    let mut cases = Vec::new();
    for damage in DAMAGES {
        for _ in 0..each {
            let mut text = short_run(rng);
            (damage.apply)(rng, &mut text);
            cases.push(text);
        }
    }
    cases
}
