//! Overloaded tables and the tick that refusal 3 names, the least one: for the
//! tools, which count how often a wrong rule would name another one.

use std::fmt;

use crate::table::{
    busy_length, demand, first_overload, growth, opinion_on, Refusal, Row, HORIZON,
};
use crate::tally::Among;

/// Where a wrong rule would go on for long, it is followed for so many steps. If
/// it has not gone astray by then, it counts as right.
const STEPS: usize = 2_000;
/// A first overload after so many ticks is late.
const LATE: u64 = 100_000;

/// A tick and its demand.
type Reached = (u64, u64);

/// A table that is refused with 3.
#[derive(Clone, Copy, Debug)]
pub struct Overload<'a> {
    rows: &'a [Row],
    busy: Option<u64>,
    /// What the refusal names.
    first: Reached,
}

impl Overload<'_> {
    /// The last tick compared.
    fn limit(&self) -> u64 {
        self.busy.unwrap_or(HORIZON)
    }

    fn at(&self, tick: u64) -> Reached {
        (tick, demand(self.rows, tick))
    }

    /// The next ticks after the first overload at which demand grows.
    fn later(&self) -> impl Iterator<Item = Reached> + '_ {
        growth(self.rows)
            .skip_while(|(tick, _)| *tick <= self.first.0)
            .take_while(|(tick, _)| *tick <= self.limit())
            .take(STEPS)
    }

    fn deadlines(&self) -> impl Iterator<Item = u64> + '_ {
        self.rows.iter().map(|row| u64::from(row.deadline))
    }

    /// Whether some tick between the first and the last overload, at which demand
    /// grows, is not overloaded: a wrong rule that goes back from the last one for as
    /// long as it meets overloads does not come to the first.
    fn has_pause(&self) -> bool {
        let last = wrong_last(self);
        let mut between = self.later().take_while(|reached| Some(*reached) <= last);
        between.any(|reached| !exceeds(&reached))
    }

    /// Whether a wrong rule names something else, or does not refuse with 3.
    fn is_told_from(&self, wrong: fn(&Overload) -> Option<Reached>) -> bool {
        wrong(self) != Some(self.first)
    }
}

fn exceeds((tick, demand): &Reached) -> bool {
    demand > tick
}

/// NOT the product's rule: the last overloaded tick.
fn wrong_last(table: &Overload) -> Option<Reached> {
    let mut tick = table.limit();
    loop {
        let (_, demand) = table.at(tick);
        if demand > tick {
            return Some((tick, demand));
        }
        // An earlier tick has no greater demand, so that one from this demand up
        // to here is not overloaded.
        tick = demand.min(tick - 1);
    }
}

/// NOT the product's rule: the tick that the demand exceeds by most.
fn wrong_greatest(table: &Overload) -> Option<Reached> {
    let greatest = table
        .later()
        .filter(exceeds)
        .fold(table.first, |greatest, next| {
            let [most, more] = [greatest, next].map(|(tick, demand)| demand - tick);
            if more > most {
                next
            } else {
                greatest
            }
        });
    Some(greatest)
}

/// NOT the product's rule: row by row in table order, the first overloaded tick at
/// which a job of the row is due.
fn wrong_by_rows(table: &Overload) -> Option<Reached> {
    let (first, _) = table.first;
    table.rows.iter().find_map(|row| {
        let [deadline, period] = [row.deadline, row.period].map(u64::from);
        // No tick before the first is overloaded.
        let jobs = first.saturating_sub(deadline).div_ceil(period);
        (jobs..)
            .take(STEPS)
            .map(|job| deadline + job * period)
            .take_while(|tick| *tick <= table.limit())
            .map(|tick| table.at(tick))
            .find(exceeds)
    })
}

/// NOT the product's rule: a search that halves the range, as if every tick after
/// an overloaded one were overloaded too.
fn wrong_by_halves(table: &Overload) -> Option<Reached> {
    let (mut high, _) = wrong_last(table)?;
    let mut low = 1;
    while low < high {
        let middle = (low + high) / 2;
        if exceeds(&table.at(middle)) {
            high = middle;
        } else {
            low = middle + 1;
        }
    }
    Some(table.at(high))
}

/// NOT the product's rule: a demand that is equal to its tick is too much.
fn wrong_equal_too(table: &Overload) -> Option<Reached> {
    growth(table.rows).find(|(tick, demand)| demand >= tick)
}

/// NOT the product's rule: of the rows due at the tick, only those up to the one by
/// which the demand exceeds it are counted.
fn wrong_part_of_the_demand(table: &Overload) -> Option<Reached> {
    let (tick, _) = table.first;
    let (_, mut demand) = table.at(tick - 1);
    let due = table.rows.iter().filter(|row| {
        let since = tick.checked_sub(row.deadline.into());
        since.is_some_and(|since| since.is_multiple_of(row.period.into()))
    });
    for row in due {
        demand += u64::from(row.run);
        if demand > tick {
            break;
        }
    }
    Some((tick, demand))
}

/// A sort of overloaded tables: what they do, of how many inputs of the program and
/// of how many calls of the library there must be one, and which tables are.
struct Sort {
    name: &'static str,
    one_in: [u64; 2],
    has: fn(&Overload) -> bool,
}

const fn sort(name: &'static str, one_in: [u64; 2], has: fn(&Overload) -> bool) -> Sort {
    Sort { name, one_in, has }
}

/// What tells the rule from one that names another tick or another demand.
const NAMING: [Sort; 7] = [
    sort("have a later overload", [25, 250], |table| {
        table.is_told_from(wrong_last)
    }),
    sort("have a pause before their last one", [60, 600], |table| {
        table.has_pause()
    }),
    sort("have a greater one later", [40, 400], |table| {
        table.is_told_from(wrong_greatest)
    }),
    sort(
        "have a row in front due at a later one",
        [80, 800],
        |table| table.is_told_from(wrong_by_rows),
    ),
    sort(
        "lead a search by halves to a later one",
        [60, 600],
        |table| table.is_told_from(wrong_by_halves),
    ),
    sort(
        "have a demand equal to an earlier tick",
        [40, 400],
        |table| table.is_told_from(wrong_equal_too),
    ),
    sort(
        "exceed it before the last row due there",
        [100, 800],
        |table| table.is_told_from(wrong_part_of_the_demand),
    ),
];

/// What tells it from one that looks at too little: only at first jobs, only up to
/// the longest D, not at the shortest, not at the last tick, not without a busy
/// length, not with one, not for long.
const RANGE: [Sort; 7] = [
    sort("have their first at no row's D", [80, 1_000], |table| {
        table.deadlines().all(|tick| tick != table.first.0)
    }),
    sort("have it after every D", [100, 1_000], |table| {
        table.deadlines().all(|tick| tick < table.first.0)
    }),
    sort("have it at the shortest D", [60, 500], |table| {
        table.deadlines().min() == Some(table.first.0)
    }),
    sort("have it at the horizon", [800, 25_000], |table| {
        table.first.0 == HORIZON
    }),
    sort("have it after 100,000 ticks", [250, 10_000], |table| {
        table.first.0 > LATE
    }),
    sort("have no busy length", [40, 500], |table| {
        table.busy.is_none()
    }),
    sort("have a busy length", [30, 300], |table| {
        table.busy.is_some()
    }),
];

const SORTS: usize = NAMING.len() + RANGE.len();

fn sorts() -> impl Iterator<Item = &'static Sort> {
    NAMING.iter().chain(&RANGE)
}

/// Of so many inputs, and of so many calls, one must be a table refused with 4 that
/// is overloaded, but not up to the horizon.
const BEYOND: [u64; 2] = [1_000, 50_000];

/// How many tables refused with 3 are of each sort.
#[derive(Clone, Copy, Debug, Default)]
pub struct OverloadTally {
    overloads: u64,
    counts: [u64; SORTS],
    /// Tables refused with 4 that are overloaded within as many ticks again.
    beyond: u64,
}

impl OverloadTally {
    /// Counts a table on which an opinion is asked for.
    pub fn add(&mut self, rows: &[Row]) {
        match opinion_on(rows) {
            Err(Refusal {
                number: 3,
                values: [tick, demand],
            }) => self.add_overload(&Overload {
                rows,
                busy: busy_length(rows),
                first: (tick, demand),
            }),
            Err(Refusal { number: 4, .. }) => {
                let is_beyond = first_overload(rows, 2 * HORIZON).is_some();
                self.beyond += u64::from(is_beyond);
            }
            _ => {}
        }
    }

    fn add_overload(&mut self, table: &Overload) {
        self.overloads += 1;
        for (count, sort) in self.counts.iter_mut().zip(sorts()) {
            *count += u64::from((sort.has)(table));
        }
    }

    pub fn merge(&mut self, other: OverloadTally) {
        self.overloads += other.overloads;
        for (sum, count) in self.counts.iter_mut().zip(other.counts) {
            *sum += count;
        }
        self.beyond += other.beyond;
    }

    /// Which sorts are too rare for a comparison that means something.
    pub fn gaps(&self, among: Among) -> Vec<String> {
        let sorts = self.counts.into_iter().zip(sorts());
        let gaps = sorts.filter_map(|(count, sort)| {
            among.gap(
                count,
                sort.one_in,
                &format!("overloaded tables {}", sort.name),
            )
        });
        let beyond = "tables refused with 4 are overloaded past the horizon";
        gaps.chain(among.gap(self.beyond, BEYOND, beyond)).collect()
    }
}

impl fmt::Display for OverloadTally {
    fn fmt(&self, formatter: &mut fmt::Formatter) -> fmt::Result {
        let sorts = self.counts.iter().zip(sorts());
        let sorts = sorts.map(|(count, sort)| format!("{count} {}", sort.name));
        write!(
            formatter,
            "of {} tables refused with 3 {}; {} refused with 4 are overloaded past the horizon",
            self.overloads,
            sorts.collect::<Vec<_>>().join(", "),
            self.beyond
        )
    }
}
