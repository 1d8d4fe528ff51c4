//! How mixed schedules are: the meter of shuffled hyperperiods.

use std::iter::repeat_with;

use shuffle_model::meter::Question;
use shuffle_model::rng::Rng;
use shuffle_model::table::{Kind, Row};
use shuffle_model::tables::admitted_as;

use crate::differing::{coming, Load, LOADS};
use crate::heading;
use crate::host::run;
use crate::sides::library_meter;

const TABLES: usize = 100;
/// K and L: every T divides L, so that a stretch is one hyperperiod or several.
const STRETCHES: usize = 255;
const TICKS: usize = 64;
/// The lengths of intervals, each with its threshold.
const WINDOWS: [(usize, usize); 2] = [(1, 0), (8, 1)];

/// Two to eight rows whose periods divide a stretch.
fn harmonic_rows(rng: &mut Rng) -> Vec<Row> {
    let count = rng.between(2, 8);
    repeat_with(|| {
        let period = rng.pick(&[8, 16, 32, 64]);
        let run = rng.between(1, (period / count).max(1));
        let deadline = rng.between(run.max(period / 2), period);
        Row::from([run, period, deadline])
    })
    .take(count as usize)
    .collect()
}

/// The meter of a table's shuffled schedule.
fn metered(rows: &[Row], load: Load, case: u64, (window, threshold): (usize, usize)) -> u64 {
    let mut rng = Rng::for_case(3, case);
    let end = (STRETCHES * TICKS) as u64;
    let jobs = coming(rows, load, end, &mut rng);
    let mut question = Question {
        rows: run(rows, &jobs, end, Some(rng)).schedule,
        stretches: STRETCHES,
        ticks: TICKS,
        window,
        threshold,
    };
    let reply = library_meter(&mut question);
    assert!(reply.is_accepted(), "{rows:?}");
    reply.first
}

pub fn print() {
    heading("How mixed shuffled schedules are");
    println!("The meter of {STRETCHES} stretches of {TICKS} ticks. {TABLES} random tables each, of 2 to 8 rows with T 8, 16, 32 or 64; it is at most {} × {TICKS} × 63 = {}. No job was late.", STRETCHES, STRETCHES * TICKS * 63);
    println!();
    println!("| Tables | Jobs come | Interval | Threshold | Least | Median | Mean | Greatest |");
    println!("|---|---|---:|---:|---:|---:|---:|---:|");
    for (kind, name) in [(Kind::Loose, "loose"), (Kind::Mixed, "mixed")] {
        let mut rng = Rng::new(1);
        let tables: Vec<_> = repeat_with(|| admitted_as(&mut rng, harmonic_rows, kind))
            .take(TABLES)
            .collect();
        for (load, when) in LOADS {
            for (window, threshold) in WINDOWS {
                let cases = (0..).zip(&tables);
                let meters =
                    cases.map(|(case, rows)| metered(rows, load, case, (window, threshold)));
                println!(
                    "| {name} | {when} | {window} | {threshold} | {}",
                    figures(meters.collect())
                );
            }
        }
    }
}

fn figures(mut meters: Vec<u64>) -> String {
    meters.sort_unstable();
    let mean = meters.iter().sum::<u64>() / meters.len() as u64;
    let [least, median, greatest] = [0, meters.len() / 2, meters.len() - 1].map(|at| meters[at]);
    format!("{least} | {median} | {mean} | {greatest} |")
}
