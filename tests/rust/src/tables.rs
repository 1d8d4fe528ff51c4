//! Random task tables of every kind.

use crate::rng::Rng;
use crate::table::{opinion_on, Kind, Row, HORIZON, ROW_LIMIT};

/// Makes a table at random.
pub type RowMaker = fn(&mut Rng) -> Vec<Row>;

const LONGEST: u32 = HORIZON as u32;

fn row(run: u32, period: u32, deadline: u32) -> Row {
    Row {
        run,
        period,
        deadline,
    }
}

/// A relative deadline from `run` to `period`, often the period itself.
fn random_deadline(rng: &mut Rng, run: u32, period: u32) -> u32 {
    match rng.below(4) {
        0 => rng.between(run, period),
        1 => rng.between(period - (period - run) / 4, period),
        _ => period,
    }
}

/// Rows that leave the processor idle for at least about half the time.
pub fn light_rows(rng: &mut Rng) -> Vec<Row> {
    let count = rng.between(1, ROW_LIMIT as u32);
    let longest = rng.pick(&[100, 1_000, 100_000, LONGEST]);
    (0..count)
        .map(|_| {
            let period = rng.between(longest / 4, longest);
            let run = rng.between(1, (period / (2 * count)).max(1));
            let deadline = random_deadline(rng, run, period);
            row(run, period, deadline)
        })
        .collect()
}

/// Rows of large budgets, always loose, so that all of them and idle are often
/// candidates, and lengths of spans are of every size.
pub fn roomy_rows(rng: &mut Rng) -> Vec<Row> {
    let count = rng.between(1, ROW_LIMIT as u32);
    let longest = rng.pick(&[200, 10_000, LONGEST]);
    (0..count)
        .map(|_| {
            let period = rng.between(longest / 2, longest);
            let run = rng.between(1, (period / (8 * count)).max(1));
            let deadline = rng.between(period - period / 4, period);
            row(run, period, deadline)
        })
        .collect()
}

/// Few rows of small numbers, so that deadlines and arrivals often coincide.
pub fn small_rows(rng: &mut Rng) -> Vec<Row> {
    let count = rng.between(1, 5);
    let longest = rng.between(4, 30);
    (0..count)
        .map(|_| {
            let period = rng.between(longest / 3, longest).max(1);
            let run = rng.between(1, (period / count).max(1));
            let deadline = random_deadline(rng, run, period);
            row(run, period, deadline)
        })
        .collect()
}

/// Rows whose utilisation is 1, or off it by one tick of one row.
pub fn full_rows(rng: &mut Rng) -> Vec<Row> {
    let periods = [4, 5, 6, 8, 10, 12, 15, 20, 24, 30, 40, 60, 120];
    // 120 is a multiple of every period, so it counts in whole parts.
    let mut parts_left = 120;
    let mut rows = Vec::new();
    while parts_left > 0 && rows.len() < ROW_LIMIT {
        let period = rng.pick(&periods);
        let most = parts_left * period / 120;
        if most > 0 {
            let run = rng.between(1, most);
            parts_left -= run * 120 / period;
            let deadline = if rng.chance(1, 8) {
                rng.between(run, period)
            } else {
                period
            };
            rows.push(row(run, period, deadline));
        }
    }
    if rng.chance(1, 3) {
        let changed = rng.below(rows.len());
        rows[changed].run = match rng.below(2) {
            0 => (rows[changed].run - 1).max(1),
            _ => (rows[changed].run + 1).min(rows[changed].deadline),
        };
    }
    rows
}

/// Rows of different deadlines, close enough together that a job can still
/// wait when one of another row arrives with its deadline. Most tables have the
/// longest deadline last, so that the later row arrives first.
pub fn staggered_rows(rng: &mut Rng) -> Vec<Row> {
    let most_rows = rng.pick(&[3, 6, ROW_LIMIT as u32]);
    let count = rng.between(2, most_rows);
    let longest = rng.pick(&[4 * count, 10 * count, 1_000, 100_000, LONGEST]);
    let shortest = rng.pick(&[longest / 4, longest / 2, longest - longest / 16 - 2]);
    // A share of all the time, up to all of it.
    let load = rng.pick(&[1, 4, 8]);
    let mut rows: Vec<Row> = (0..count)
        .map(|_| {
            let deadline = rng.between(shortest, longest);
            let run = rng.between(1, (deadline * load / (8 * count)).max(1));
            let period = match rng.below(3) {
                0 => rng.between(deadline, LONGEST.min(4 * longest)),
                1 => rng.between(deadline, longest),
                _ => deadline,
            };
            row(run, period, deadline)
        })
        .collect();
    if rng.chance(2, 3) {
        rows.sort_by_key(|row| row.deadline);
    }
    rows
}

/// Rows of which some are brittle and mostly not all, always admitted: all can run once
/// within the shortest period. Brittle ones are due before that. Of the others some are
/// due as soon as may be, and some about when a brittle job can be that arrives one
/// period after them.
pub fn part_brittle_rows(rng: &mut Rng) -> Vec<Row> {
    let fewest = rng.pick(&[2, 2, ROW_LIMIT as u32]);
    let count = rng.between(fewest, ROW_LIMIT as u32) as usize;
    let brittle = match rng.below(4) {
        0 => 1,
        1 => count - 1,
        _ => 1 + rng.below(count - 1),
    };
    let longest = rng.pick(&[1, 3, 12, 200, 10_000]);
    let runs: Vec<u32> = (0..count).map(|_| rng.between(1, longest)).collect();
    let all: u32 = runs.iter().sum();
    let most_periods = rng.pick(&[2, 8, 40]);
    let longest_period = LONGEST.min(most_periods * all);
    let mut rows: Vec<Row> = Vec::new();
    let mut demand = 0;
    for run in &runs[..brittle] {
        demand += run;
        let deadline = rng.between(demand, all - 1);
        rows.push(row(*run, rng.between(all, longest_period), deadline));
    }
    for run in &runs[brittle..] {
        let Row {
            period, deadline, ..
        } = rng.pick(&rows[..brittle]);
        let deadline = match rng.below(4) {
            0 => rng.between(all, longest_period),
            1 => rng.between(all, 2 * all),
            2 => all + rng.between(0, 3),
            _ => period + deadline + rng.between(0, 4) - 2,
        };
        let deadline = deadline.clamp(all, LONGEST);
        let longest = rng.pick(&[deadline, LONGEST.min(2 * deadline), LONGEST]);
        rows.push(row(*run, rng.between(deadline, longest), deadline));
    }
    for place in 0..count {
        rows.swap(place, rng.below(count));
    }
    rows
}

/// A few rows, of which one or two are due just before all could have run once, and are
/// brittle, and the others just after. So a brittle job that comes a few ticks after
/// others is due when they are.
pub fn close_rows(rng: &mut Rng) -> Vec<Row> {
    let brittle = rng.between(1, 2);
    let others = rng.between(2, 5);
    let longest = rng.pick(&[4, 12, 100]);
    let runs = (0..brittle + others).map(|_| rng.between(2, longest));
    let runs: Vec<u32> = runs.collect();
    let all: u32 = runs.iter().sum();
    let most = rng.pick(&[2, 2, 6]);
    let mut rows = Vec::new();
    for (place, run) in (0..).zip(runs) {
        let deadline = if place < brittle {
            all - rng.between(1, 2)
        } else {
            all + rng.between(1, most)
        };
        let period = deadline + rng.between(most, 2 * all);
        rows.insert(rng.below(rows.len() + 1), row(run, period, deadline));
    }
    rows
}

/// A few rows, of which one is due when all could have run once, or a little later, and
/// the others but one just before it: it counts them if they may come at once, but a few
/// ticks later they are due after it. The one left is due as soon as it can be; without
/// it some tables are loose.
pub fn counting_rows(rng: &mut Rng) -> Vec<Row> {
    let has_first = rng.chance(2, 3);
    let count = rng.between(2, 5) + u32::from(has_first);
    let longest = rng.pick(&[4, 12, 100]);
    let runs: Vec<u32> = (0..count).map(|_| rng.between(1, longest)).collect();
    let all: u32 = runs.iter().sum();
    let last = all + rng.between(0, 3);
    let mut rows = Vec::new();
    for (place, run) in runs.iter().enumerate() {
        let deadline = match place {
            0 => last,
            1 if has_first => run + rng.between(0, 3),
            _ => last - rng.between(0, runs[0].min(4)),
        };
        let period = deadline.max(last) + rng.between(1, 2 * all);
        rows.insert(rng.below(rows.len() + 1), row(*run, period, deadline));
    }
    rows
}

/// One short row and one long one that together fill the processor: the busy
/// length comes near the horizon or passes it.
pub fn long_busy_rows(rng: &mut Rng) -> Vec<Row> {
    let short = rng.between(2, 9);
    let short_run = rng.between(1, short - 1);
    let shortest_long = rng.pick(&[300_000, LONGEST - 1, LONGEST]);
    let long = rng.between(shortest_long, LONGEST);
    let rest = u64::from(long) * u64::from(short - short_run) / u64::from(short);
    let long_run = (rest as u32 + rng.between(0, 2)).saturating_sub(1).max(1);
    let mut rows = vec![row(short_run, short, short), row(long_run, long, long)];
    if rng.chance(1, 3) {
        rows.swap(0, 1);
    }
    rows
}

/// Rows with short deadlines, often refused although the utilisation is low.
pub fn urgent_rows(rng: &mut Rng) -> Vec<Row> {
    let count = rng.between(2, 6);
    (0..count)
        .map(|_| {
            let period = rng.between(10, 60);
            let run = rng.between(1, 4);
            row(run, period, rng.between(run, 10))
        })
        .collect()
}

/// A table in which at least one row breaks the row rule.
pub fn unlawful_rows(rng: &mut Rng) -> Vec<Row> {
    let mut rows = small_rows(rng);
    for _ in 0..rng.between(1, 2) {
        let broken = rng.below(rows.len());
        rows[broken] = rng.pick(&[
            row(0, 5, 5),
            row(0, 0, 0),
            row(6, 5, 5),
            row(3, 5, 2),
            row(2, 5, 6),
            row(1, 0, 1),
            row(1, LONGEST + 1, 5),
            row(1, LONGEST + 1, LONGEST + 1),
            row(1, LONGEST, LONGEST + 1),
            row(u32::MAX, u32::MAX, u32::MAX),
            row(1, u32::MAX, 1),
        ]);
    }
    rows
}

/// A table of any kind but those with a long busy length.
pub fn any_rows(rng: &mut Rng) -> Vec<Row> {
    let makers: [RowMaker; 5] = [
        light_rows,
        small_rows,
        full_rows,
        urgent_rows,
        unlawful_rows,
    ];
    rng.pick(&makers)(rng)
}

/// Tables of one maker until one is admitted as this kind.
pub fn admitted_as(rng: &mut Rng, make: RowMaker, kind: Kind) -> Vec<Row> {
    loop {
        let rows = admitted(rng, make);
        if opinion_on(&rows).is_ok_and(|opinion| opinion.kind == kind) {
            return rows;
        }
    }
}

/// Tables of one maker until one is admitted.
pub fn admitted(rng: &mut Rng, make: RowMaker) -> Vec<Row> {
    loop {
        let rows = make(rng);
        if opinion_on(&rows).is_ok() {
            return rows;
        }
    }
}
