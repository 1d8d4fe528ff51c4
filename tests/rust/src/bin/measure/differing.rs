//! What a mixed table hides: in which share of the ticks another row runs than without
//! words.

use std::iter::repeat_with;

use shuffle_model::rng::Rng;
use shuffle_model::session::IDLE;
use shuffle_model::table::{Kind, Row};
use shuffle_model::tables::{admitted_as, light_rows, part_brittle_rows, RowMaker};

use crate::cases::{table, Shape};
use crate::heading;
use crate::host::{run, Coming};

const TABLES: usize = 100;
const TICKS: u64 = 100_000;
/// The longest T, so that every row has some jobs in these ticks. Else what a table does
/// when all rows start together would weigh most.
const LONGEST: u32 = 10_000;

/// When jobs come, and how long they run.
#[derive(Clone, Copy, Debug, PartialEq, Eq)]
pub enum Load {
    /// As early as their row allows, for C ticks.
    Early,
    /// Up to T ticks after that, for 1 to C ticks.
    Random,
}

pub const LOADS: [(Load, &str); 2] = [
    (Load::Early, "as early as they may, for C ticks"),
    (Load::Random, "0 to T ticks later, for 1 to C ticks"),
];

/// The jobs to come up to a tick, by tick, and of one tick by row.
pub fn coming(rows: &[Row], load: Load, end: u64, rng: &mut Rng) -> Vec<Coming> {
    let mut jobs = Vec::new();
    for (row, own) in rows.iter().enumerate() {
        let mut earliest = 0;
        loop {
            let (delay, need) = match load {
                Load::Early => (0, own.run),
                Load::Random => (rng.between(0, own.period), rng.between(1, own.run)),
            };
            let tick = earliest + u64::from(delay);
            if tick >= end {
                break;
            }
            let need = u64::from(need);
            jobs.push(Coming { tick, row, need });
            earliest = tick + u64::from(own.period);
        }
    }
    jobs.sort_by_key(|job| job.tick);
    jobs
}

/// What is seen of a table, each as a share.
struct Seen {
    /// Of the ticks: another row runs than without words.
    differing: f64,
    /// Of the ticks: without words a job runs.
    busy: f64,
    /// Of the choices while a job waits: they have more than one candidate.
    open: f64,
}

fn share(part: u64, of: u64) -> f64 {
    part as f64 / of.max(1) as f64
}

/// Runs a table with random words and without, with the same jobs.
fn seen(rows: &[Row], load: Load, case: u64) -> Seen {
    let mut rng = Rng::for_case(2, case);
    let jobs = coming(rows, load, TICKS, &mut rng);
    let shuffled = run(rows, &jobs, TICKS, Some(rng));
    let plain = run(rows, &jobs, TICKS, None).schedule;
    let pairs = shuffled.schedule.iter().zip(&plain);
    let differing = pairs.filter(|(row, plain)| row != plain).count();
    let busy = plain.iter().filter(|row| u32::from(**row) != IDLE).count();
    Seen {
        differing: share(differing as u64, TICKS),
        busy: share(busy as u64, TICKS),
        open: share(shuffled.open, shuffled.choices),
    }
}

/// In a tight session no word may change what runs.
pub fn check() {
    for shape in [Shape::Short, Shape::Long] {
        for (load, _) in LOADS {
            let rows = table(shape, 4).expect("there is such a table");
            let Seen {
                differing, open, ..
            } = seen(&rows, load, 0);
            assert_eq!([differing, open], [0.0; 2], "{shape:?} {load:?}");
        }
    }
}

/// Random tables of a kind, the same in each run.
fn tables(make: RowMaker, kind: Kind) -> impl Iterator<Item = Vec<Row>> {
    let mut rng = Rng::new(1);
    let tables = repeat_with(move || admitted_as(&mut rng, make, kind));
    tables.filter(|rows| rows.iter().all(|row| row.period <= LONGEST))
}

/// The tables that are run, each hundred with a name. Each loose one has as many rows as
/// a mixed one of the same maker.
fn named_tables() -> [(&'static str, Vec<Vec<Row>>); 3] {
    let brittle = tables(part_brittle_rows, Kind::Mixed);
    let light: Vec<_> = tables(light_rows, Kind::Mixed).take(TABLES).collect();
    let mut all_loose = tables(light_rows, Kind::Loose);
    let loose = light
        .iter()
        .filter_map(|mixed| all_loose.find(|rows| rows.len() == mixed.len()));
    let loose = loose.collect();
    [
        ("mixed, `part_brittle_rows`", brittle.take(TABLES).collect()),
        ("mixed, `light_rows`", light),
        ("loose, `light_rows`", loose),
    ]
}

pub fn print() {
    heading("What a mixed table hides");
    println!("In which share of 100,000 ticks another row runs than without words; idle counts as a row. {TABLES} random tables each, by the named makers of `tests/rust/src/tables.rs`, each T at most 10,000; each loose one has as many rows as a mixed one of its maker. Both runs have the same jobs, and no job was late. Busy ticks: in these a job runs without words. Open choices: with more than one candidate, of all those that are made while a job waits.");
    println!();
    println!("| Tables | Jobs come | Least | Median | Mean | Greatest | Tables with 0 | Busy ticks, mean | Open choices, mean |");
    println!("|---|---|---:|---:|---:|---:|---:|---:|---:|");
    for (name, tables) in named_tables() {
        for (load, when) in LOADS {
            let cases = (0..).zip(&tables);
            let all: Vec<Seen> = cases.map(|(case, rows)| seen(rows, load, case)).collect();
            println!("| {name} | {when} | {}", figures(&all));
        }
    }
}

fn figures(all: &[Seen]) -> String {
    let mean = |of: fn(&Seen) -> f64| all.iter().map(of).sum::<f64>() / all.len() as f64;
    let mut shares: Vec<f64> = all.iter().map(|seen| seen.differing).collect();
    shares.sort_by(f64::total_cmp);
    let zero = shares.iter().filter(|share| **share == 0.0).count();
    let percent = |share: f64| format!("{:.2} %", 100.0 * share);
    let cells = [
        percent(shares[0]),
        percent(shares[shares.len() / 2]),
        percent(mean(|seen| seen.differing)),
        percent(shares[shares.len() - 1]),
        zero.to_string(),
        percent(mean(|seen| seen.busy)),
        percent(mean(|seen| seen.open)),
    ];
    format!("{} |", cells.join(" | "))
}
