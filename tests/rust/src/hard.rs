//! Random tables that take long to decide: the rows fill nearly all time, so
//! that the busy length is long and demand is close to the tick for long.

use crate::rng::Rng;
use crate::table::{Row, HORIZON, ROW_LIMIT};

const LONGEST: u32 = HORIZON as u32;
/// Numbers with many divisors.
const COMMON_MULTIPLES: [u32; 12] = [
    12, 24, 60, 120, 360, 840, 2_520, 5_040, 27_720, 55_440, 360_360, 720_720,
];
/// How close a table is brought to the utilisation asked for.
const CLOSE: f64 = 1e-7;
/// Most attempts to bring it there, for a new table and for a mutant.
const ATTEMPTS: u32 = 1_000;
const MUTANT_ATTEMPTS: u32 = 200;

/// The sum of C/T, with the rounding of the numbers: some 1e-15.
pub fn utilisation(rows: &[Row]) -> f64 {
    let shares = rows
        .iter()
        .map(|row| f64::from(row.run) / f64::from(row.period));
    shares.sum()
}

/// A row that keeps the row rule, with these numbers as far as it allows.
fn lawful(run: i64, period: i64, deadline: i64) -> Row {
    let period = period.clamp(1, i64::from(LONGEST));
    let run = run.clamp(1, period);
    let deadline = deadline.clamp(run, period);
    Row::from([run, period, deadline].map(|number| number as u32))
}

/// A number from -`most` to `most`.
fn shift(rng: &mut Rng, most: u32) -> i64 {
    i64::from(rng.between(0, 2 * most)) - i64::from(most)
}

/// A number of rows, often the greatest, which costs most.
fn random_count(rng: &mut Rng) -> u32 {
    let most = ROW_LIMIT as u32;
    if rng.chance(1, 2) {
        most
    } else {
        rng.between(2, most)
    }
}

/// Rows whose utilisation is exactly 1: each period divides a common number.
pub fn full_to_one(rng: &mut Rng) -> Vec<Row> {
    let whole = rng.pick(&COMMON_MULTIPLES);
    let periods = some_divisors(rng, whole);
    let count = random_count(rng);
    // Time in parts of the common number.
    let mut left = whole;
    let mut rows = Vec::new();
    for _ in 1..count {
        let period = rng.pick(&periods);
        let unit = whole / period;
        let most = (left - 1) / unit;
        if most > 0 {
            let run = rng.between(1, (2 * whole / count / unit).clamp(1, most));
            left -= run * unit;
            rows.push(lawful(run.into(), period.into(), period.into()));
        }
    }
    // The last row takes what is left, in lowest terms.
    let common = common_divisor(left, whole);
    let [run, period] = [left, whole].map(|number| i64::from(number / common));
    rows.push(lawful(run, period, period));
    shorten_deadlines(rng, &mut rows);
    rows
}

/// The greatest number that divides both.
fn common_divisor(a: u32, b: u32) -> u32 {
    if b == 0 {
        a
    } else {
        common_divisor(b, a % b)
    }
}

/// A few neighbours among the divisors of a number, 1 left out.
fn some_divisors(rng: &mut Rng, whole: u32) -> Vec<u32> {
    let small = (1..).take_while(|divisor| divisor * divisor <= whole);
    let small = small.filter(|divisor| whole.is_multiple_of(*divisor));
    let mut divisors: Vec<u32> = small.flat_map(|small| [small, whole / small]).collect();
    divisors.sort_unstable();
    divisors.remove(0);
    let first = rng.below(divisors.len());
    let count = rng.between(1, 16) as usize;
    divisors.into_iter().skip(first).take(count).collect()
}

/// Rows whose utilisation comes close to a number, mostly from below.
pub fn full_to(rng: &mut Rng, target: f64) -> Vec<Row> {
    let parts = random_parts(rng);
    let whole: f64 = parts.iter().map(|(_, part)| part).sum();
    let mut rows: Vec<Row> = parts
        .into_iter()
        .map(|(period, part)| {
            let run = part / whole * target * f64::from(period);
            lawful(run as i64, period.into(), period.into())
        })
        .collect();
    fill(rng, &mut rows, target, ATTEMPTS);
    shorten_deadlines(rng, &mut rows);
    rows
}

/// A period for each row, and the row's part of the work.
fn random_parts(rng: &mut Rng) -> Vec<(u32, f64)> {
    let count = random_count(rng);
    let style = rng.below(6);
    let base = rng.of_any_size(count, LONGEST / 2);
    let whole = rng.pick(&COMMON_MULTIPLES);
    let divisors = some_divisors(rng, whole);
    let long_rows = rng.between(1, 4).min(count - 1);
    let skew = rng.pick(&[1, 1, 4]);
    let part = |rng: &mut Rng, row| {
        let part = 0.05 + rng.fraction().powi(skew);
        let period = match style {
            0 => rng.between(base, 2 * base),
            1 => rng.between(base, base + base / 10 + 1),
            2 => rng.of_any_size(2, LONGEST),
            3 => rng.pick(&divisors),
            // Short rows take all but a little.
            4 if row < long_rows => {
                let little = part * 10f64.powf(-1.0 - 4.0 * rng.fraction());
                return (rng.of_any_size(1_000, LONGEST), little);
            }
            4 => rng.between(2, 60),
            // So short that C is 1 nearly everywhere.
            _ => rng.between(count * 2 / 3 + 1, count * 3 / 2),
        };
        (period, part)
    };
    (0..count).map(|row| part(rng, row)).collect()
}

/// Changes C, and T by a little, until the utilisation is close to a number,
/// better below it than above.
fn fill(rng: &mut Rng, rows: &mut [Row], target: f64, attempts: u32) {
    let distance = |rows: &[Row]| match target - utilisation(rows) {
        gap if gap < 0.0 => 1.0 - gap,
        gap => gap,
    };
    for _ in 0..attempts {
        let before = distance(rows);
        if before < CLOSE {
            return;
        }
        let changed = [rng.below(rows.len()), rng.below(rows.len())];
        let old = changed.map(|row| rows[row]);
        if rng.chance(1, 4) {
            let gap = target - utilisation(rows);
            take_up(&mut rows[changed[0]], gap);
        } else {
            for row in changed {
                let [run, period, deadline] = rows[row].numbers().map(i64::from);
                let more = shift(rng, 3);
                rows[row] = lawful(run, period + more, deadline + more);
            }
        }
        if distance(rows) > before {
            rows[changed[0]] = old[0];
            rows[changed[1]] = old[1];
        }
    }
}

/// Changes C of a row so that its share of time grows by `gap`, or a little
/// less.
fn take_up(row: &mut Row, gap: f64) {
    let more = (gap * f64::from(row.period)).floor() as i64;
    let [run, period, deadline] = row.numbers().map(i64::from);
    *row = lawful(run + more, period, deadline);
}

/// Sets D: to T, near it, anywhere, far below, or below T in a few rows.
fn shorten_deadlines(rng: &mut Rng, rows: &mut [Row]) {
    let style = rng.below(5);
    for row in rows {
        let slack = row.period - row.run;
        let cut = match style {
            0 => 0,
            1 => rng.between(0, slack / 20),
            2 => rng.between(0, slack),
            3 => rng.between(slack - slack / 4, slack),
            _ if rng.chance(1, 4) => rng.between(0, slack),
            _ => 0,
        };
        row.deadline = row.period - cut;
    }
}

/// The rows with each D half the way to T; none if each D is T.
pub fn with_longer_deadlines(rows: &[Row]) -> Option<Vec<Row>> {
    let mut longer = rows.to_vec();
    for row in &mut longer {
        row.deadline += (row.period - row.deadline).div_ceil(2);
    }
    (longer != rows).then_some(longer)
}

/// The rows with a little more to do: a run longer, a deadline earlier, or a long row
/// that is due late. Where the rows filled all time, that is mostly too much, and the
/// first overload lies behind a long stretch without one.
pub fn with_more_work(rng: &mut Rng, rows: &[Row]) -> Vec<Row> {
    let mut more = rows.to_vec();
    let changed = rng.below(rows.len());
    let row = rows[changed];
    let [run, period, deadline] = row.numbers().map(i64::from);
    match rng.below(4) {
        0 => more[changed] = lawful(run + 1, period, deadline),
        1 => {
            let cut = rng.between(1, 1 + (row.deadline - row.run) / 4);
            more[changed] = lawful(run, period, deadline - i64::from(cut));
        }
        _ if rows.len() < ROW_LIMIT => more.push(late_row(rng, 0.0)),
        // There is no place for one more row, so it does the work of another one too.
        _ => more[changed] = late_row(rng, f64::from(row.run) / f64::from(row.period)),
    }
    more
}

/// A long row that is due late, and takes a little more than a share of all time.
fn late_row(rng: &mut Rng, share: f64) -> Row {
    let period = rng.between(LONGEST / 2, LONGEST);
    let early = rng.of_any_size(1, period / 2) - 1;
    let run = (share * f64::from(period)).floor() as i64 + i64::from(rng.between(1, 3));
    lawful(run, period.into(), (period - early).into())
}

/// The rows with one to three changes, mostly with the utilisation brought
/// back, or closer to the most that it may be.
pub fn mutant(rng: &mut Rng, rows: &[Row], most: f64) -> Vec<Row> {
    let mut changed = rows.to_vec();
    for _ in 0..rng.between(1, 3) {
        change(rng, &mut changed);
    }
    let before = utilisation(rows);
    match rng.below(4) {
        0 => {}
        1 => {
            let row = rng.below(changed.len());
            let gap = before - utilisation(&changed);
            take_up(&mut changed[row], gap);
        }
        _ => {
            let target = before + (most - before).max(0.0) * rng.fraction();
            fill(rng, &mut changed, target, MUTANT_ATTEMPTS);
        }
    }
    changed
}

/// Changes a number of a row, or adds a row.
fn change(rng: &mut Rng, rows: &mut Vec<Row>) {
    let changed = rng.below(rows.len());
    let row = rows[changed];
    let [run, period, deadline] = row.numbers().map(i64::from);
    rows[changed] = match rng.below(9) {
        0 => lawful(run + shift(rng, 2), period, deadline),
        1 => lawful(run, period + shift(rng, 4), deadline),
        2 => lawful(run, period, deadline + shift(rng, 3)),
        3 => lawful(run, period, rng.between(row.run, row.period).into()),
        4 => lawful(run, period, period),
        5 => {
            let cut = rng.between(0, (row.deadline - row.run) / 10);
            lawful(run, period, deadline - i64::from(cut))
        }
        6 => {
            let scale = 0.8 + 0.4 * rng.fraction();
            let [run, period, deadline] = row.numbers().map(|n| (f64::from(n) * scale) as i64);
            lawful(run, period, deadline)
        }
        7 => {
            let period = period + shift(rng, 4);
            lawful(run, period, period)
        }
        _ => {
            if rows.len() < ROW_LIMIT {
                rows.push(lawful(1, period, period));
            }
            row
        }
    };
}
