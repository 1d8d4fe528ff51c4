//! Measures the calls of the library, with the check of soundness and without,
//! beside the model, and prints the tables of docs/PERFORMANCE.md.

mod arrivals;
mod cases;
mod count;
mod differing;
mod entropy;
mod explanations;
mod host;
mod meters;
mod opinions;
mod overloads;
mod sides;
mod time;

use std::collections::HashMap;
use std::path::Path;

use cases::{busy, table, takes_table, Case, Shape, CALLS, CHOICES, SHAPES};
use count::{functions, of_one_call, repeat, COUNTED};
use shuffle_model::calls::candidates;
use shuffle_model::gifts::{shares, Share};
use shuffle_model::options::Options;
use shuffle_model::record::view;
use shuffle_model::session::Session;
use shuffle_model::shuffle::Reply;
use sides::{library_checked, library_core, model_checked, model_core, scan_checked};
use time::{medians, side, BATCH, BATCHES};

const ROWS: [u32; 3] = [1, 4, 16];
const GROWTH: [u32; 5] = [1, 2, 4, 8, 16];
const TICK_NS: f64 = 1_000_000.0;

fn main() {
    let options = Options::read(&["--scratch", "--shape", "--rows", "--call", "--question"]);
    if let Some(call) = options.text("--call") {
        let shape = SHAPES[options.number("--shape", 0usize)].0;
        let rows = options.number("--rows", 1);
        match call {
            arrivals::CALL => arrivals::make_counted_calls(shape, rows),
            explanations::CALL => explanations::make_counted_calls(shape, rows),
            meters::CALL => meters::make_counted_calls(options.number("--question", 0)),
            opinions::CALL => opinions::make_counted_calls(options.number("--question", 0)),
            overloads::CALL => overloads::make_counted_calls(options.number("--question", 0)),
            _ => make_counted_calls(shape, rows, call),
        }
        return;
    }
    let scratch = Path::new(options.required("--scratch"));
    let passing = passing_tables();
    check_everything(&passing);
    let times = time_all(&tables(&ROWS), &CALLS);
    print_summary(&times);
    print_times("Time of a call, in ns", &times);
    let choices = time_all(&passing, &CHOICES);
    print_times("Time of a choice that passes words over, in ns", &choices);
    arrivals::print_times();
    print_scan();
    let counts = count_all(scratch, &tables(&GROWTH), &CALLS);
    print_counts("Instructions of a call", &counts, &tables(&ROWS), &CALLS);
    let choices = count_all(scratch, &passing, &CHOICES);
    let title = "Instructions of a choice that passes words over";
    print_counts(title, &choices, &passing, &CHOICES);
    arrivals::print_counts(scratch);
    print_growth(&counts);
    explanations::print(scratch);
    meters::print(scratch);
    opinions::print(scratch);
    overloads::print(scratch);
    differing::print();
    entropy::print();
}

/// A table: its shape, the name of that, and its number of rows.
type Named = (Shape, &'static str, u32);

/// The tables on which the choices pass words over.
fn passing_tables() -> Vec<Named> {
    let mut tables = tables(&[4, 16]);
    tables.retain(|(shape, _, _)| *shape == Shape::Loose);
    tables
}

/// The tables with these numbers of rows.
fn tables(rows: &[u32]) -> Vec<Named> {
    let all = SHAPES.iter();
    all.flat_map(|(shape, name)| rows.iter().map(|count| (*shape, *name, *count)))
        .filter(|(shape, _, count)| table(*shape, *count).is_some())
        .collect()
}

/// A call, and the session that its record holds.
fn case(shape: Shape, count: u32, call: &str) -> (Case, Session) {
    let rows = table(shape, count).expect("there is such a table");
    let case = Case::new(&rows, call);
    assert!(case.kind_is(shape), "{shape:?} {count}");
    let session = view(&case.record).expect("the record holds a session");
    (case, session)
}

/// What must hold for the figures to mean what they say.
fn check_everything(passing: &[Named]) {
    check_all(&tables(&ROWS), &CALLS);
    check_all(passing, &CHOICES);
    check_mixed();
    for (shape, _, count) in tables(&ROWS) {
        arrivals::check(shape, count);
        explanations::check(shape, count);
    }
    meters::check();
    opinions::check();
    overloads::check();
    differing::check();
}

fn check_all(tables: &[Named], calls: &[&str]) {
    for (shape, name, count) in tables {
        for call in calls {
            check(*shape, name, *count, call);
        }
    }
}

/// All sides must give the same answer: that makes them comparable.
fn check(shape: Shape, name: &str, count: u32, call: &str) {
    let (case, session) = case(shape, count, call);
    let request = &case.request;
    let mut replies: Vec<Reply> = [library_checked, library_core]
        .iter()
        .map(|side| side(&mut case.record.clone(), request))
        .collect();
    let models = [model_checked, model_core, scan_checked];
    replies.extend(
        models
            .iter()
            .map(|side| side(&mut session.clone(), request)),
    );
    assert!(replies[0].is_accepted(), "{name} {count} {call}");
    assert!(
        replies.iter().all(|reply| *reply == replies[0]),
        "{name} {count} {call}: {replies:?}"
    );
}

/// On a mixed table words must decide between all rows, and a finish of the head must
/// give to all others that are not brittle, and pass over those that are.
fn check_mixed() {
    let mut tables = tables(&GROWTH);
    tables.retain(|(shape, _, _)| *shape == Shape::Mixed);
    for (shape, _, count) in tables {
        let (_, session) = case(shape, count, "choose");
        assert_eq!(candidates(&session).len(), count as usize, "{count}");
        let (_, session) = case(shape, count, "finish head");
        let shares = shares(&session);
        let half = count as usize / 2;
        let gains = shares.iter().filter(|(_, share)| share.is_gain());
        assert_eq!(gains.count(), half - 1, "{shares:?}");
        let brittle = shares.iter().filter(|(_, share)| *share == Share::Brittle);
        assert_eq!(brittle.count(), half, "{shares:?}");
    }
}

fn heading(text: &str) {
    println!();
    println!("### {text}");
    println!();
}

/// A line's part on the cores; opinion and start have none.
fn core_part(call: &str, library: f64, model: f64) -> String {
    if takes_table(call) {
        return "| | |".to_string();
    }
    format!("{library:.0} | {model:.0} | {:.2} |", library / model)
}

/// The times of one call in ns: the library's, then the model's.
struct Timed {
    shape: Shape,
    name: &'static str,
    rows: u32,
    call: &'static str,
    checked: [f64; 2],
    core: [f64; 2],
}

fn ratio([library, model]: [f64; 2]) -> f64 {
    library / model
}

fn time_all(tables: &[Named], calls: &[&'static str]) -> Vec<Timed> {
    let mut all = Vec::new();
    for (shape, name, rows) in tables.iter().copied() {
        for call in calls.iter().copied() {
            let (case, session) = case(shape, rows, call);
            let (record, request) = (&case.record, &case.request);
            let [library, model, library_core, model_core] = medians(
                BATCHES,
                [
                    side(record, BATCH, |record| library_checked(record, request)),
                    side(&session, BATCH, |session| model_checked(session, request)),
                    side(record, BATCH, |record| library_core(record, request)),
                    side(&session, BATCH, |session| model_core(session, request)),
                ],
            );
            all.push(Timed {
                shape,
                name,
                rows,
                call,
                checked: [library, model],
                core: [library_core, model_core],
            });
        }
    }
    all
}

fn print_times(title: &str, all: &[Timed]) {
    heading(title);
    println!("| Table | Rows | Call | Checked | Model | Ratio | Core | Model | Ratio | Checked, of a 1 ms tick |");
    println!("|---|---:|---|---:|---:|---:|---:|---:|---:|---:|");
    for timed in all {
        let [library, model] = timed.checked;
        println!(
            "| {} | {} | {} | {library:.0} | {model:.0} | {:.2} | {} {:.3} % |",
            timed.name,
            timed.rows,
            timed.call,
            ratio(timed.checked),
            core_part(timed.call, timed.core[0], timed.core[1]),
            100.0 * library / TICK_NS
        );
    }
}

/// Calls whose figures lie close together.
type Group = (&'static str, fn(&Timed) -> bool);

const CHECKED: [Group; 8] = [
    ("checked, loose, 1 and 4 rows", |timed| {
        timed.shape == Shape::Loose && timed.rows < 16
    }),
    ("checked, loose, 16 rows", |timed| {
        timed.shape == Shape::Loose && timed.rows == 16
    }),
    ("checked, tight, short, 4 rows", |timed| {
        timed.shape == Shape::Short && timed.rows < 16
    }),
    ("checked, tight, short, 16 rows", |timed| {
        timed.shape == Shape::Short && timed.rows == 16
    }),
    ("checked, tight, long, 4 rows", |timed| {
        timed.shape == Shape::Long && timed.rows < 16
    }),
    ("checked, tight, long, 16 rows", |timed| {
        timed.shape == Shape::Long && timed.rows == 16
    }),
    ("checked, mixed, 4 rows", |timed| {
        timed.shape == Shape::Mixed && timed.rows < 16
    }),
    ("checked, mixed, 16 rows", |timed| {
        timed.shape == Shape::Mixed && timed.rows == 16
    }),
];

const CORES: [Group; 2] = [
    ("core of choose", |timed| timed.call == "choose"),
    ("cores of arrive, advance and finish", |timed| {
        timed.call != "choose" && !takes_table(timed.call)
    }),
];

/// The least and the greatest figures of each group.
fn print_summary(all: &[Timed]) {
    heading("The times in short: least to greatest");
    println!("| Calls | ns | Ratio | Of a 1 ms tick |");
    println!("|---|---:|---:|---:|");
    for (name, is_in) in CHECKED {
        let group = all.iter().filter(|timed| is_in(timed));
        print_range(name, &group.map(|timed| timed.checked).collect::<Vec<_>>());
    }
    for (name, is_in) in CORES {
        let group = all.iter().filter(|timed| is_in(timed));
        print_range(name, &group.map(|timed| timed.core).collect::<Vec<_>>());
    }
}

fn print_range(name: &str, times: &[[f64; 2]]) {
    let range = |value: fn([f64; 2]) -> f64| {
        let values = times.iter().map(|pair| value(*pair));
        let least = values.clone().fold(f64::INFINITY, f64::min);
        (least, values.fold(0.0, f64::max))
    };
    let (least, most) = range(|[library, _]| library);
    let (low, high) = range(ratio);
    println!(
        "| {name} | {least:.0} to {most:.0} | {low:.2} to {high:.2} | {:.3} to {:.3} % |",
        100.0 * least / TICK_NS,
        100.0 * most / TICK_NS
    );
}

fn print_scan() {
    heading("Checked calls beside a model that scans ticks");
    println!(
        "| Table | Rows | Busy length | Call | Library µs | Scanning model µs | Times as fast |"
    );
    println!("|---|---:|---:|---|---:|---:|---:|");
    for (shape, name, count) in tables(&ROWS) {
        if shape != Shape::Long {
            continue;
        }
        let busy = busy(shape, count);
        for call in CALLS {
            let (case, session) = case(shape, count, call);
            let request = &case.request;
            let [library, scan] = medians(
                5,
                [
                    side(&case.record, BATCH, |record| {
                        library_checked(record, request)
                    }),
                    side(&session, 1, |session| scan_checked(session, request)),
                ],
            );
            println!(
                "| {name} | {count} | {busy} | {call} | {:.2} | {:.0} | {:.0} |",
                library / 1_000.0,
                scan / 1_000.0,
                scan / library
            );
        }
    }
}

/// Instructions within the functions of a counted run, by table, rows and call.
type Counts = HashMap<(&'static str, u32, &'static str), HashMap<String, u64>>;

fn make_counted_calls(shape: Shape, count: u32, call: &str) {
    let (case, session) = case(shape, count, call);
    let (record, request) = (&case.record, &case.request);
    repeat(record, COUNTED, |record| library_checked(record, request));
    repeat(record, COUNTED, |record| library_core(record, request));
    repeat(&session, COUNTED, |session| model_checked(session, request));
    repeat(&session, COUNTED, |session| model_core(session, request));
}

fn count_all(scratch: &Path, tables: &[Named], calls: &[&'static str]) -> Counts {
    let mut counts = Counts::new();
    for (shape, name, count) in tables.iter().copied() {
        for call in calls.iter().copied() {
            let shape = (shape as usize).to_string();
            let rows = count.to_string();
            let arguments = ["--shape", &shape, "--rows", &rows, "--call", call];
            counts.insert((name, count, call), functions(scratch, &arguments));
        }
    }
    counts
}

/// The instructions of one call of a side.
fn instructions(
    counts: &Counts,
    name: &'static str,
    rows: u32,
    call: &'static str,
    side: &str,
) -> f64 {
    of_one_call(&counts[&(name, rows, call)], side, COUNTED)
}

fn print_counts(title: &str, counts: &Counts, tables: &[Named], calls: &[&'static str]) {
    heading(title);
    println!("| Table | Rows | Call | Checked | Model | Ratio | Core | Model | Ratio |");
    println!("|---|---:|---|---:|---:|---:|---:|---:|---:|");
    for (_, name, count) in tables.iter().copied() {
        for call in calls.iter().copied() {
            let of = |side| instructions(counts, name, count, call, side);
            let (library, model) = (of("library_checked"), of("model_checked"));
            println!(
                "| {name} | {count} | {call} | {library:.0} | {model:.0} | {:.2} | {}",
                library / model,
                core_part(call, of("library_core"), of("model_core"))
            );
        }
    }
}

fn print_growth(counts: &Counts) {
    heading("How the instructions of a call grow with the rows");
    println!("| Table | Call | Form | 1 row | 2 rows | 4 rows | 8 rows | 16 rows |");
    println!("|---|---|---|---:|---:|---:|---:|---:|");
    for (shape, name) in SHAPES {
        for call in CALLS {
            for (form, side) in [("checked", "library_checked"), ("core", "library_core")] {
                if takes_table(call) && form == "core" {
                    continue;
                }
                let cells = GROWTH.map(|rows| match table(shape, rows) {
                    Some(_) => format!("{:.0} |", instructions(counts, name, rows, call, side)),
                    None => "|".to_string(),
                });
                println!("| {name} | {call} | {form} | {}", cells.join(" "));
            }
        }
    }
}
