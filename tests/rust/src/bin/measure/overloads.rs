//! The opinion on tables that are refused with 3, which names the first overload:
//! the library beside the model, which walks the deadlines up from the first, and
//! beside the model with a scan in place of that walk.

use std::hint::black_box;
use std::iter::repeat_with;
use std::path::Path;

use shuffle_model::overloaded::{late_overload_rows, overloaded_rows};
use shuffle_model::record::Request;
use shuffle_model::rng::Rng;
use shuffle_model::shuffle::{number, Reply, Session as Record};
use shuffle_model::table::{opinion_on, words_of, Row};
use shuffle_model::tables::RowMaker;

use crate::count::{functions, of_one_call, repeat};
use crate::heading;
use crate::sides::{library_checked, model_refusal, scan_refusal};
use crate::time::{medians, side, Side, BATCH};

/// What a counted run is asked for.
pub const CALL: &str = "overload";
/// Batches of each side for a table of its own, and for one of many.
const BATCHES: usize = 25;
const BATCHES_OF_MANY: usize = 5;
/// A call that takes so many ns is a batch of its own: reading the clock weighs
/// nothing beside it.
const LONG: f64 = 10_000.0;
/// So many calls of each side are counted for a table, since some take long.
const ONCE: u64 = 1;
/// The names of the functions that are counted, in the order of the figures.
const COUNTED: [&str; 3] = ["library_checked", "model_refusal", "scan_refusal"];

/// What a line of figures is about: one table, or many random ones.
struct Line {
    name: String,
    tables: Vec<Vec<Row>>,
}

/// The figures of one opinion: the library's, the model's, the scan's.
type Figures = [f64; 3];

/// Tables of few rows, or with an overload behind a long clear stretch, or with steps
/// so short that the library sieves.
fn known_tables() -> Vec<(Option<&'static str>, Vec<[u32; 3]>)> {
    let fifteen = (1..=15).map(|row| [6, 90, 6 * row]);
    let late = [1, 1_000_000, 999_990];
    #[rustfmt::skip]
    let similar = vec![
        [1, 21, 21], [1, 11, 5], [1, 16, 16], [1, 14, 7], [1, 9, 7], [1, 21, 6], [1, 30, 30], [1, 21, 15],
        [1, 22, 22], [1, 12, 8], [1, 13, 13], [1, 17, 2], [1, 14, 11], [1, 22, 10], [1, 21, 10], [1, 17, 10],
    ];
    vec![
        (None, vec![[1, 2, 2], [2, 3, 3]]),
        (None, vec![[9, 9, 9], [9, 9, 9]]),
        (None, vec![[1, 2, 2], [1, 3, 3], [1, 6, 6], late]),
        (
            Some("15 rows (6,90,6 × i), i = 1 to 15, and (1,1000000,999990)"),
            fifteen.chain([late]).collect(),
        ),
        (None, similar),
    ]
}

/// Random tables: what they are called, how many they are, and what makes them.
const MIXES: [(&str, usize, RowMaker); 2] = [
    ("2,000 random tables", 2_000, overloaded_rows),
    (
        "100 random tables, mostly overloaded late",
        100,
        late_overload_rows,
    ),
];

fn known_line((name, rows): (Option<&str>, Vec<[u32; 3]>)) -> Line {
    let written = || {
        let rows = rows
            .iter()
            .map(|[run, period, deadline]| format!("({run},{period},{deadline})"));
        rows.collect::<Vec<_>>().join(" ")
    };
    Line {
        name: name.map_or_else(written, str::to_string),
        tables: vec![rows.into_iter().map(Row::from).collect()],
    }
}

/// A mix has the same tables in each run.
fn mixed_line((name, count, make): (&str, usize, RowMaker)) -> Line {
    let mut rng = Rng::new(1);
    let tables = repeat_with(|| make(&mut rng));
    let is_overloaded =
        |rows: &Vec<Row>| opinion_on(rows).is_err_and(|refusal| refusal.number == 3);
    Line {
        name: name.to_string(),
        tables: tables.filter(is_overloaded).take(count).collect(),
    }
}

/// Only the tables of this line are made: a counted run is slow at that.
fn line(place: usize) -> Line {
    let mut known = known_tables();
    if place < known.len() {
        known_line(known.swap_remove(place))
    } else {
        mixed_line(MIXES[place - known.len()])
    }
}

fn lines() -> Vec<Line> {
    let count = known_tables().len() + MIXES.len();
    (0..count).map(line).collect()
}

/// All sides must name the same overload: that makes them comparable.
pub fn check() {
    for rows in lines().iter().flat_map(|line| &line.tables) {
        let reply = answer(rows);
        assert_eq!(reply.number, number::OVERLOAD, "{rows:?}");
        let words = words_of(rows);
        assert_eq!(reply, model_refusal(&words), "{rows:?}");
        assert_eq!(reply, scan_refusal(&words), "{rows:?}");
    }
}

fn answer(rows: &[Row]) -> Reply {
    let request = Request::Opinion(words_of(rows));
    let mut record = Record::NONE;
    library_checked(&mut record, &request)
}

pub fn make_counted_calls(place: usize) {
    for rows in line(place).tables {
        let words = words_of(&rows);
        let request = Request::Opinion(words.clone());
        // Not counted: what the model first allocates takes longer than what follows.
        black_box(opinion_on(&rows)).expect_err("the tables are refused");
        repeat(&Record::NONE, ONCE, |record| {
            library_checked(record, &request)
        });
        repeat(&(), ONCE, |()| model_refusal(&words));
        repeat(&(), ONCE, |()| scan_refusal(&words));
    }
}

pub fn print(scratch: &Path) {
    heading("The first overload of a table");
    println!("Opinions that are refusal 3. The model walks the deadlines up from the first; the scan is the model with every tick tried, from 1.");
    println!();
    let lines = lines();
    print_head("µs");
    for line in &lines {
        print_times(line);
    }
    println!();
    print_head("instructions");
    for (place, line) in lines.iter().enumerate() {
        let counts = counts(scratch, place, line.tables.len());
        print_figures(line, "mean", counts, 0);
    }
}

fn print_head(unit: &str) {
    println!("| Table | First overload | Demand | Library, {unit} | Model, {unit} | Scan, {unit} | Model by library | Scan by library |");
    println!("|---|---:|---:|---:|---:|---:|---:|---:|");
}

/// Of many tables no answer is shown, but what the figures are of them.
fn print_figures(line: &Line, of_many: &str, figures: Figures, decimals: usize) {
    let start = match &line.tables[..] {
        [rows] => {
            let Reply { first, second, .. } = answer(rows);
            format!("{} | {first} | {second}", line.name)
        }
        _ => format!("{}: {of_many} | |", line.name),
    };
    let [library, model, scan] = figures;
    println!(
        "| {start} | {library:.decimals$} | {model:.decimals$} | {scan:.decimals$} | {:.2} | {:.2} |",
        model / library,
        scan / library
    );
}

fn print_times(line: &Line) {
    if let [rows] = &line.tables[..] {
        print_figures(line, "", times(rows, BATCHES), 2);
        return;
    }
    let times = line.tables.iter().map(|rows| times(rows, BATCHES_OF_MANY));
    let times: Vec<Figures> = times.collect();
    let of_side = |side: usize| times.iter().map(move |figures| figures[side]);
    let mean = [0, 1, 2].map(|side| of_side(side).sum::<f64>() / times.len() as f64);
    print_figures(line, "mean", mean, 2);
    let greatest = [0, 1, 2].map(|side| of_side(side).fold(0.0, f64::max));
    print_figures(line, "greatest", greatest, 2);
}

/// The times of one opinion in µs.
fn times(rows: &[Row], batches: usize) -> Figures {
    let words = &words_of(rows);
    let request = &Request::Opinion(words.clone());
    let sides = [
        sized(&Record::NONE, |record| library_checked(record, request)),
        sized(&(), |()| model_refusal(words)),
        sized(&(), |()| scan_refusal(words)),
    ];
    medians(batches, sides).map(|ns| ns / 1e3)
}

/// A side with batches of a size that fits the time of its call.
fn sized<'a, S: Clone, R>(state: &'a S, call: impl Fn(&mut S) -> R + Copy + 'a) -> Side<'a> {
    let time = side(state, 1, call)();
    side(state, if time < LONG { BATCH } else { 1 }, call)
}

/// The instructions of one opinion, of many tables the mean.
fn counts(scratch: &Path, place: usize, tables: usize) -> Figures {
    let arguments = ["--call", CALL, "--question", &place.to_string()];
    let counts = functions(scratch, &arguments);
    COUNTED.map(|side| of_one_call(&counts, side, ONCE * tables as u64))
}
