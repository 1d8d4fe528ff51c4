//! Random tables that are overloaded, at one tick or at many, early or late; and
//! the way of a planner, who shortens runs until a table is not refused any more.

use crate::hard::full_to;
use crate::rng::Rng;
use crate::table::{opinion_on, Row, HORIZON, ROW_LIMIT};
use crate::tables::{full_rows, small_rows, urgent_rows, RowMaker};

const LONGEST: u32 = HORIZON as u32;
/// Most runs that are shortened to bring a table to the edge.
const CUTS: usize = 30;

/// Rows that are due at a few ticks, often several at one, with runs that take about
/// as long as there is up to each. So demand is below a tick, equal to it and above
/// it in any order.
fn crowded_rows(rng: &mut Rng) -> Vec<Row> {
    let ticks = rng.between(1, 5);
    let most_rows = rng.pick(&[1, 2, 3]);
    let gap = rng.pick(&[3, 8, 40, 2_000]);
    let shortest_period = rng.pick(&[1, 50, LONGEST / 2]);
    let (mut tick, mut demand) = (0, 0);
    let mut rows = Vec::new();
    for _ in 0..ticks {
        tick += rng.between(1, gap);
        let about = (tick + rng.between(0, 4)).saturating_sub(2);
        for left in (0..rng.between(1, most_rows)).rev() {
            let share = about.saturating_sub(demand);
            let run = if left == 0 {
                share
            } else {
                rng.between(0, share)
            };
            let run = run.clamp(1, tick);
            let period = rng.of_any_size(tick.max(shortest_period), LONGEST);
            demand += run;
            rows.insert(rng.below(rows.len() + 1), Row::from([run, period, tick]));
        }
    }
    rows
}

/// Few short rows with D = T that are overloaded, but barely: mostly only after some
/// jobs of each.
fn repeating_rows(rng: &mut Rng) -> Vec<Row> {
    let mut rows = small_rows(rng);
    for row in &mut rows {
        row.deadline = row.period;
        row.run += rng.between(0, row.period - row.run);
    }
    if is_overloaded(&rows) {
        barely(rng, rows)
    } else {
        rows
    }
}

/// Rows that fill the processor, and a tick or two more.
fn overfull_rows(rng: &mut Rng) -> Vec<Row> {
    let mut rows = full_rows(rng);
    for _ in 0..rng.between(1, 2) {
        let changed = rng.below(rows.len());
        let row = &mut rows[changed];
        row.run = (row.run + 1).min(row.deadline);
    }
    rows
}

/// A few rows, or up to sixteen, whose first jobs are all due at one tick.
fn equal_rows(rng: &mut Rng) -> Vec<Row> {
    let most_rows = rng.pick(&[3, ROW_LIMIT as u32]);
    let count = rng.between(2, most_rows);
    let deadline = rng.between(1, 3 * count);
    let longest_run = rng.between(1, deadline);
    let rows = (0..count).map(|_| {
        let run = rng.between(1, longest_run);
        Row::from([run, rng.of_any_size(deadline, LONGEST), deadline])
    });
    rows.collect()
}

/// Rows that fill a little more than all time, so that the first overload is late.
fn late_rows(rng: &mut Rng) -> Vec<Row> {
    let target = 1.0 + 10f64.powf(-1.0 - 5.0 * rng.fraction());
    full_to(rng, target)
}

/// A short row and a long one whose first job is due at the horizon, or a few ticks
/// before it, with no tick too much, with one, or with two. With none the first
/// overload is past the horizon, if there is one.
fn last_moment_rows(rng: &mut Rng) -> Vec<Row> {
    let short = rng.between(2, 40);
    let short_run = rng.between(1, short - 1);
    let due = LONGEST - rng.pick(&[0, 0, 1, 2, 15]);
    let rest = due - due / short * short_run;
    let run = rest + rng.pick(&[0, 0, 1, 2]);
    let period = rng.between(due, LONGEST);
    let mut rows = vec![
        Row::from([short_run, short, short]),
        Row::from([run, period, due]),
    ];
    if rng.chance(1, 2) {
        rows.swap(0, 1);
    }
    rows
}

/// A table that is overloaded late, if at all.
pub fn late_overload_rows(rng: &mut Rng) -> Vec<Row> {
    let makers: [RowMaker; 3] = [late_rows, last_moment_rows, last_moment_rows];
    rng.pick(&makers)(rng)
}

/// Whether rows are refused with 3.
fn is_overloaded(rows: &[Row]) -> bool {
    opinion_on(rows).is_err_and(|refusal| refusal.number == 3)
}

/// Tables of one maker until one is overloaded.
fn overloaded(rng: &mut Rng, make: RowMaker) -> Vec<Row> {
    loop {
        let rows = make(rng);
        if is_overloaded(&rows) {
            return rows;
        }
    }
}

/// An overloaded table whose first overload is not late.
pub fn overloaded_rows(rng: &mut Rng) -> Vec<Row> {
    let makers: [RowMaker; 10] = [
        crowded_rows,
        crowded_rows,
        crowded_rows,
        equal_rows,
        equal_rows,
        repeating_rows,
        repeating_rows,
        overfull_rows,
        small_rows,
        urgent_rows,
    ];
    let make = rng.pick(&makers);
    let rows = overloaded(rng, make);
    if rng.chance(1, 3) {
        barely(rng, rows)
    } else {
        rows
    }
}

/// Shortens some run by a tick, or by more; false if every run is 1.
pub fn shorten(rng: &mut Rng, rows: &mut [Row]) -> bool {
    let longer: Vec<usize> = (0..rows.len()).filter(|row| rows[*row].run > 1).collect();
    if longer.is_empty() {
        return false;
    }
    let row = &mut rows[rng.pick(&longer)];
    row.run -= match rng.below(2) {
        0 => 1,
        _ => rng.between(1, row.run - 1),
    };
    true
}

/// Shortens runs for as long as the table stays overloaded.
fn barely(rng: &mut Rng, mut rows: Vec<Row>) -> Vec<Row> {
    for _ in 0..CUTS {
        let mut shorter = rows.clone();
        if shorten(rng, &mut shorter) && is_overloaded(&shorter) {
            rows = shorter;
        }
    }
    rows
}
