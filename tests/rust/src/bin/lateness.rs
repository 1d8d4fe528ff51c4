//! Walks over random runs of loose, mixed and tight tables, compares each job with its bound
//! after each call, and prints how near jobs come to it, as tables for the documents. Of each
//! kind so many jobs are over as `--jobs` says. Status 1 if a bound is broken.

use std::process::exit;

use shuffle_model::busy::Pace;
use shuffle_model::comparison::DEFAULT_SEED;
use shuffle_model::lateness::{walk, Ends, Seen, CLASS_NAMES};
use shuffle_model::options::Options;
use shuffle_model::rng::Rng;
use shuffle_model::table::Kind;

const KINDS: [(Kind, &str); 3] = [
    (Kind::Loose, "loose"),
    (Kind::Mixed, "mixed"),
    (Kind::Tight, "tight"),
];
const PACES: [(Pace, &str); 2] = [
    (Pace::AtOnce, "as soon as they may"),
    (Pace::Gaps, "after random gaps"),
];

fn main() {
    let options = Options::read(&["--jobs", "--seed"]);
    let jobs = options.number("--jobs", 100_000u64);
    let seed = options.number("--seed", DEFAULT_SEED);
    let parts = KINDS.map(|(kind, _)| {
        PACES.map(|(pace, _)| {
            let rng = &mut Rng::for_case(seed, kind as u64 * 2 + pace as u64);
            walk(rng, kind, pace, jobs.div_ceil(2)).unwrap_or_else(|broken| {
                println!("{broken}");
                exit(1)
            })
        })
    });
    print_by_arrivals(&parts);
    print_by_inversions(&parts);
    print_sums(&parts);
}

fn print_row(cells: &[String]) {
    println!("| {} |", cells.join(" | "));
}

/// The head of a table whose first columns are these, followed by the classes and more.
fn print_head(first: &[&str], last: &[&str]) {
    let all = [first, &CLASS_NAMES, last].concat();
    print_row(&all.iter().map(|name| name.to_string()).collect::<Vec<_>>());
    let lines = (0..all.len()).map(|place| if place < 2 { "---" } else { "---:" });
    println!("|{}|", lines.collect::<Vec<_>>().join("|"));
}

/// Jobs, classes, and what else is printed of jobs that are over.
fn cells(names: [&str; 2], ends: &Ends, last: &[String]) -> Vec<String> {
    let names = names.map(String::from);
    let counts = [&[ends.jobs][..], &ends.classes].concat();
    let counts: Vec<String> = counts.iter().map(u64::to_string).collect();
    [&names[..], &counts, last].concat()
}

fn mean(ends: &Ends) -> String {
    match ends.jobs {
        0 => "–".to_string(),
        jobs => format!("{:.1}", ends.ahead as f64 / jobs as f64),
    }
}

fn print_by_arrivals(parts: &[[Seen; 2]; 3]) {
    println!("Jobs that are over, by bound − end, in ticks.\n");
    let last = ["Mean", "Bound by the deadline"];
    print_head(&["Tables", "Jobs arrive", "Jobs over"], &last);
    for (kind, seen) in KINDS.iter().zip(parts) {
        for (pace, seen) in PACES.iter().zip(seen) {
            let all = seen.all();
            let last = [mean(&all), all.by_deadline.to_string()];
            print_row(&cells([kind.1, pace.1], &all, &last));
        }
    }
}

fn print_by_inversions(parts: &[[Seen; 2]; 3]) {
    println!("\nThe same jobs, by whether they have inversion ticks.\n");
    let last = ["Mean", "Bound by the deadline", "Most inversion ticks"];
    print_head(&["Tables", "Inversion ticks", "Jobs over"], &last);
    for (kind, [at_once, gaps]) in KINDS.iter().zip(parts) {
        let mut seen = *at_once;
        seen.merge(gaps);
        for (name, ends) in ["none", "some"].into_iter().zip(&seen.ends) {
            let most = ends.most_inversions.to_string();
            let last = [mean(ends), ends.by_deadline.to_string(), most];
            print_row(&cells([kind.1, name], ends, &last));
        }
    }
}

fn print_sums(parts: &[[Seen; 2]; 3]) {
    let mut all = Seen::default();
    parts.iter().flatten().for_each(|seen| all.merge(seen));
    println!(
        "\nIn {} sessions {} jobs are over, none after its bound. {} end at their bound, {} of them in \
         tables of more than one row. {} times the bound of a waiting job was compared with the clock, \
         which was always below it.",
        all.sessions,
        all.all().jobs,
        all.all().classes[0],
        all.all().at_bound_among,
        all.waits
    );
}
