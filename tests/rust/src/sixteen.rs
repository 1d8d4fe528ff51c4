//! Random tables of 16 rows, as a planning desk has them: for measurements, and for
//! explanations of many jobs.

use std::iter::repeat_with;

use crate::rng::Rng;
use crate::table::{opinion_on, Kind, Opinion, Refusal, Row, ROW_LIMIT};

/// Periods that go well together.
const PERIODS: [u32; 12] = [
    100, 125, 200, 250, 400, 500, 1_000, 2_000, 2_500, 4_000, 5_000, 10_000,
];

/// Sixteen rows that fill a part of all time, which lies between these two. Their periods
/// are neighbours, and half of them are due before their period is over.
fn plant(rng: &mut Rng, [least, most]: [f64; 2]) -> Vec<Row> {
    let count = rng.between(1, 6) as usize;
    let first = rng.below(PERIODS.len() - count + 1);
    let periods = &PERIODS[first..first + count];
    let load = least + (most - least) * rng.fraction();
    let parts: Vec<f64> = (0..ROW_LIMIT).map(|_| 0.05 + rng.fraction()).collect();
    let whole: f64 = parts.iter().sum();
    let row = |part: f64| {
        let period = rng.pick(periods);
        let run = (load * part / whole * f64::from(period)).round() as u32;
        let run = run.clamp(1, period);
        let deadline = match rng.below(2) {
            0 => rng.between(period * 7 / 10, period).max(run),
            _ => period,
        };
        Row::from([run, period, deadline])
    };
    parts.into_iter().map(row).collect()
}

/// A class of tables: its name, which part of all time they fill, and which opinions on
/// them are wanted.
pub struct Class {
    pub name: &'static str,
    load: [f64; 2],
    is_wanted: fn(&Result<Opinion, Refusal>) -> bool,
}

fn has_kind(opinion: &Result<Opinion, Refusal>, kind: Kind) -> bool {
    let opinion = opinion.as_ref();
    opinion.is_ok_and(|opinion| opinion.kind == kind)
}

fn is_overload(opinion: &Result<Opinion, Refusal>) -> bool {
    let refusal = opinion.as_ref().err();
    refusal.is_some_and(|refusal| refusal.number == 3)
}

pub const CLASSES: [Class; 5] = [
    Class {
        name: "loose",
        load: [0.1, 0.5],
        is_wanted: |opinion| has_kind(opinion, Kind::Loose),
    },
    Class {
        name: "mixed",
        load: [0.3, 0.9],
        is_wanted: |opinion| has_kind(opinion, Kind::Mixed),
    },
    Class {
        name: "tight",
        load: [0.8, 1.0],
        is_wanted: |opinion| has_kind(opinion, Kind::Tight),
    },
    Class {
        name: "overloaded",
        load: [0.8, 1.2],
        is_wanted: is_overload,
    },
    Class {
        name: "as they come",
        load: [0.2, 1.1],
        is_wanted: |_| true,
    },
];

/// A random table of a class.
pub fn random_table(rng: &mut Rng, class: &Class) -> Vec<Row> {
    loop {
        let rows = plant(rng, class.load);
        if (class.is_wanted)(&opinion_on(&rows)) {
            return rows;
        }
    }
}

/// So many tables of a class, the same ones each time.
pub fn tables(class: &Class, count: usize) -> Vec<Vec<Row>> {
    let mut rng = Rng::new(8);
    let all = repeat_with(|| random_table(&mut rng, class));
    all.take(count).collect()
}

/// How many tables are loose, tight, mixed, and refused.
pub fn outcomes(tables: &[Vec<Row>]) -> [usize; 4] {
    let mut counts = [0; 4];
    for rows in tables {
        let kind = opinion_on(rows).map(|opinion| opinion.kind as usize);
        counts[kind.map_or(3, |kind| kind - 1)] += 1;
    }
    counts
}
