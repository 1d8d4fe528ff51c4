//! Times a program against the model: `shuffle` on the heaviest inputs; or `opinions`, with
//! `--set opinions`, on files of 16-row tables; or `load`, with `--set load`, on seeds; or
//! `contest`, with `--set contest`, on questions; or `planner`, with `--set planner`, on the
//! inputs of `shuffle`. It keeps the inputs in a folder for other measurements.

use std::fs;
use std::io::{self, Write};
use std::path::Path;
use std::process::{self, Stdio};
use std::time::Instant;

use shuffle_model::calls::{candidates, lengths, limit, WORDS};
use shuffle_model::comparison::Model;
use shuffle_model::contest;
use shuffle_model::driver::{table_text, Driver};
use shuffle_model::opinions;
use shuffle_model::options::{fail, Options};
use shuffle_model::planner;
use shuffle_model::seeds::line;
use shuffle_model::session::IDLE;
use shuffle_model::sixteen::{tables, CLASSES};
use shuffle_model::table::{Kind, Row};
use shuffle_model::text::{leading_rows, run, Command, INPUT_LIMIT};
use shuffle_model::trials::load;

fn main() {
    let options = Options::read(&["--program", "--model", "--inputs", "--runs", "--set"]);
    let folder = Path::new(options.required("--inputs"));
    let (model, inputs): (Model, _) = match options.text("--set").unwrap_or("shuffle") {
        "shuffle" => (run, inputs()),
        "opinions" => (opinions::run, desks()),
        "load" => (load, seeds()),
        "contest" => (contest::run, questions()),
        "planner" => (planner::run, inputs()),
        set => fail(&format!("--set: {set} is no set of inputs")),
    };
    let bench = Bench {
        programs: ["--program", "--model"].map(|name| options.required(name)),
        model,
        runs: options.number("--runs", 21),
    };
    println!("| Input | Lines | Program ms | Model ms | Ratio | Ratio without start |");
    println!("|---|---:|---:|---:|---:|---:|");
    let start = bench.median_times(&[]);
    print_row("empty: the cost of a start", 0, start, None);
    for (name, input) in inputs {
        keep(folder, name, &input);
        let lines = input.iter().filter(|byte| **byte == b'\n').count();
        print_row(name, lines, bench.median_times(&input), Some(start));
    }
}

/// An input and its name.
type Named = (&'static str, Vec<u8>);

struct Bench<'a> {
    /// The program and the model's.
    programs: [&'a str; 2],
    model: Model,
    runs: usize,
}

fn print_row(name: &str, lines: usize, times: [f64; 2], start: Option<[f64; 2]>) {
    let [program, model] = times;
    let without_start = start.map_or("".to_string(), |[program_start, model_start]| {
        format!("{:.2}", (program - program_start) / (model - model_start))
    });
    println!(
        "| {name} | {lines} | {program:.2} | {model:.2} | {:.2} | {without_start} |",
        program / model
    );
}

impl Bench<'_> {
    /// The median wall time of each program in ms, the two run alternately.
    fn median_times(&self, input: &[u8]) -> [f64; 2] {
        let expected = (self.model)(input);
        let mut times = [Vec::new(), Vec::new()];
        for _ in 0..self.runs {
            for (program, times) in self.programs.iter().zip(&mut times) {
                let start = Instant::now();
                let output = output_of(program, input)
                    .unwrap_or_else(|error| fail(&format!("{program} does not run: {error}")));
                times.push(start.elapsed().as_secs_f64() * 1_000.0);
                if output != expected {
                    fail(&format!("{program}: the output is not the model's"));
                }
            }
        }
        times.map(|mut times| {
            times.sort_by(f64::total_cmp);
            times[times.len() / 2]
        })
    }
}

/// Runs a program without further threads, whose wake-ups would blur the time.
fn output_of(program: &str, input: &[u8]) -> io::Result<Vec<u8>> {
    let mut child = process::Command::new(program)
        .stdin(Stdio::piped())
        .stdout(Stdio::piped())
        .spawn()?;
    // All input is read before anything is written, so this cannot wait for the output.
    let mut stdin = child.stdin.take().expect("it was asked for");
    stdin.write_all(input)?;
    drop(stdin);
    Ok(child.wait_with_output()?.stdout)
}

/// Keeps an input under its name.
fn keep(folder: &Path, name: &str, input: &[u8]) {
    let file = folder.join(name.replace(',', "").replace(' ', "-") + ".txt");
    fs::write(&file, input)
        .unwrap_or_else(|error| fail(&format!("{} is not written: {error}", file.display())));
}

/// Every line but those of T and W must be answered, none as unreadable.
fn check(name: &str, input: &[u8]) {
    let output = String::from_utf8(run(input)).expect("the model prints text");
    let text = String::from_utf8_lossy(input);
    let rows = leading_rows(input).len();
    let silent = text.lines().filter(|line| line.starts_with('W')).count() + rows;
    let expected = 1 + rows + text.lines().count() - silent;
    assert_eq!(output.lines().count(), expected, "{name}");
    assert!(!output.contains('?'), "{name}");
}

/// An input that a step fills with lines, cut after the last whole line.
fn build(rows: &[Row], kind: Kind, step: fn(&mut Driver)) -> Vec<u8> {
    let mut driver = Driver::new(rows);
    assert_eq!(driver.machine.session.kind, kind);
    while driver.text.len() <= INPUT_LIMIT {
        step(&mut driver);
    }
    let mut text = driver.text;
    text.truncate(INPUT_LIMIT);
    let whole_lines = text.iter().rposition(|byte| *byte == b'\n');
    text.truncate(whole_lines.map_or(0, |newline| newline + 1));
    text
}

/// The questions that take the plain search longest, and shorter ones.
fn questions() -> Vec<Named> {
    let asked = |rows: &[[u32; 3]], n: u32| {
        let rows: Vec<Row> = rows.iter().copied().map(Row::from).collect();
        [table_text(&rows), format!("N\t{n}\n").into_bytes()].concat()
    };
    vec![
        ("held, 2 rows", asked(&[[1, 3, 3], [2, 5, 4]], 12)),
        (
            "forced, 3 rows, N 9",
            asked(&[[1, 3, 3], [2, 5, 4], [3, 9, 9]], 9),
        ),
        (
            "the worst held",
            asked(&[[1, 5, 5], [1, 3, 3], [1, 2, 2]], 12),
        ),
        ("the worst forced", asked(&[[12, 12, 12]; 3], 12)),
    ]
}

/// 1,000 tables of 16 rows, of each class.
fn desks() -> Vec<Named> {
    let desks = CLASSES
        .iter()
        .map(|class| (class.name, desk(&tables(class, 1_000))));
    desks.collect()
}

fn desk(tables: &[Vec<Row>]) -> Vec<u8> {
    let tables: Vec<Vec<u8>> = tables.iter().map(|rows| table_text(rows)).collect();
    let text = tables.join(&b'\n');
    assert!(text.len() <= opinions::INPUT_LIMIT);
    text
}

/// A seed with the least rows, one with some and one with the most.
fn seeds() -> Vec<Named> {
    let seeds = [
        ("seed of 5 rows", 1_000_000),
        ("seed of 8 rows", 123_456_787),
        ("seed of 12 rows", u32::MAX),
    ];
    seeds.map(|(name, seed)| (name, line(seed))).to_vec()
}

fn inputs() -> Vec<Named> {
    let inputs = shuffle_inputs();
    for (name, input) in &inputs {
        check(name, input);
    }
    inputs
}

fn shuffle_inputs() -> Vec<Named> {
    // Different deadlines, so that each inversion is charged to many jobs.
    let loose: Vec<Row> = (0..16)
        .map(|row| Row::from([20, 3_000 + 50 * row, 3_000 + 50 * row]))
        .collect();
    let mut mixed: Vec<Row> = (0..16)
        .map(|row| Row::from([1, 40 + row, 40 + row]))
        .collect();
    mixed[0].deadline = 10;
    // V is 20 − 8 − 15 = −3 and 30 − 15 − 2 × 8 = −1.
    let mut tight = [Row::from([1, 30, 30]); 16];
    tight[0] = Row::from([8, 20, 20]);
    // The busy length is 360,600.
    let long_busy = [2, 3, 8, 25, 601, 361_201].map(|period| Row::from([1, period, period]));
    let single = [Row::from([1, 1, 1])];
    let even = [Row::from([1, 32, 32]); 16];
    vec![
        (
            "16 rows loose, short spans",
            build(&loose, Kind::Loose, short_span),
        ),
        (
            "16 rows loose, words passed over",
            build(&loose, Kind::Loose, short_span_after_others),
        ),
        ("16 rows tight", build(&tight, Kind::Tight, whole_span)),
        ("16 rows mixed", build(&mixed, Kind::Mixed, short_turn)),
        (
            "6 rows tight, long busy length",
            build(&long_busy, Kind::Tight, whole_span),
        ),
        ("one row", build(&single, Kind::Loose, whole_span)),
        (
            "choose and finish",
            build(&even, Kind::Loose, choose_and_finish),
        ),
        ("refused choices", build(&single, Kind::Loose, only_choose)),
        (
            "words and choices",
            build(&even, Kind::Loose, word_and_choose),
        ),
    ]
}

/// Lets every row arrive that may.
fn arrivals(driver: &mut Driver) {
    for row in 0..driver.machine.session.rows.len() {
        let session = &driver.machine.session;
        if session.slots[row].next <= session.clock {
            driver.push(Command::Arrive(row as u32));
        }
    }
}

/// Advances by the whole span, or under idle up to the next arrival; every
/// row that may arrive must have done so.
fn advance(driver: &mut Driver) {
    let session = &driver.machine.session;
    let choice = session.choice.expect("a choice was made");
    let ticks = if choice.row == IDLE {
        choice.left.min(session.next_arrival() - session.clock)
    } else {
        choice.left
    };
    driver.push(Command::Advance(ticks as u32));
}

/// Words that take the last candidate for one tick, while budgets last.
fn short_span(driver: &mut Driver) {
    span_of_idle(driver, 0);
}

/// The same, with others before each of the two words that are passed over.
fn short_span_after_others(driver: &mut Driver) {
    span_of_idle(driver, 4);
}

fn span_of_idle(driver: &mut Driver, passed: usize) {
    arrivals(driver);
    let session = &driver.machine.session;
    let waiting = session.waiting().count() as u32;
    // None if nothing waits, and 0 if idle is no candidate.
    if let Some(lengths @ 1..) = lengths(session, IDLE) {
        for (count, word) in [(waiting + 1, waiting), (lengths, 0)] {
            let passed = if limit(count) < WORDS { passed } else { 0 };
            for _ in 0..passed {
                driver.push(Command::Word(u32::MAX));
            }
            driver.push(Command::Word(word));
        }
    }
    driver.push(Command::Choose);
    advance(driver);
}

/// Words that take the last candidate for one tick, where there are several.
fn short_turn(driver: &mut Driver) {
    arrivals(driver);
    let session = &driver.machine.session;
    if let last @ 1.. = candidates(session).len() - 1 {
        driver.push(Command::Word(last as u32));
        driver.push(Command::Word(0));
    }
    driver.push(Command::Choose);
    advance(driver);
}

fn whole_span(driver: &mut Driver) {
    arrivals(driver);
    driver.push(Command::Choose);
    advance(driver);
}

fn choose_and_finish(driver: &mut Driver) {
    arrivals(driver);
    driver.push(Command::Choose);
    if driver.machine.session.waiting().next().is_some() {
        driver.push(Command::Finish);
    } else {
        advance(driver);
    }
}

fn only_choose(driver: &mut Driver) {
    driver.push(Command::Choose);
}

/// Keeps many words waiting, so that dropping the first ones costs most.
fn word_and_choose(driver: &mut Driver) {
    while driver.machine.words.len() < 1_000 {
        driver.push(Command::Word(0));
    }
    whole_span(driver);
}
