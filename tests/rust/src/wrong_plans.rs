//! Wrong readings of how late a job can be, of how much a tick matters, of what must go and of
//! the program `planner`: for the comparison, which counts the inputs on which each would print
//! another output.

use crate::ledger::{is_inversion, Entry, Ledger, Step};
use crate::planner::{bound, cut, jobs_by, plan_watched, Job, Placed, Transcript, Way, RIGHT};
use crate::table::{demand, Row};
use crate::text::Command;

/// NOT the product's way: what is otherwise, and of how many inputs one must show it. None if
/// no input can show it.
pub struct Wrong {
    pub name: &'static str,
    pub one_in: Option<u64>,
    change: fn(&mut Way),
}

impl Wrong {
    /// The output by this reading for an input, whose right transcript is given.
    pub fn run(&self, transcript: &Transcript, input: &[u8]) -> Vec<u8> {
        let mut way = RIGHT;
        (self.change)(&mut way);
        if way.limit == RIGHT.limit && way.goes_on == RIGHT.goes_on {
            return plan_watched(&way, transcript, |_, _| ()).output;
        }
        let other = Transcript::read(input, way.limit, way.goes_on);
        plan_watched(&way, &other, |_, _| ()).output
    }
}

const fn wrong(name: &'static str, one_in: u64, change: fn(&mut Way)) -> Wrong {
    Wrong {
        name,
        one_in: Some(one_in),
        change,
    }
}

/// Another way whose outputs are the same.
const fn same(name: &'static str, change: fn(&mut Way)) -> Wrong {
    Wrong {
        name,
        one_in: None,
        change,
    }
}

/// The ticks of a step, if they count.
fn if_so(step: &Step, counts: bool) -> u64 {
    match counts {
        true => step.ticks,
        false => 0,
    }
}

/// The place of the latest entry of each row, over or not.
fn latest_of_rows(ledger: &Ledger) -> Vec<usize> {
    let rows = 0..ledger.rows.len() as u32;
    rows.filter_map(|row| ledger.latest(row)).collect()
}

/// The waiting entry that comes first by deadline, arrival and row.
fn head(ledger: &Ledger) -> Option<&Entry> {
    let waiting = ledger.waiting();
    waiting.min_by_key(|entry| (entry.due, entry.arrival, entry.row))
}

/// The places of the waiting entries, by something of theirs.
fn waiting_by(ledger: &Ledger, key: fn(&Entry) -> (u64, usize)) -> Vec<usize> {
    let mut places = ledger.waiting.clone();
    places.sort_by_key(|place| key(&ledger.entries[*place]));
    places
}

fn excess(rows: &[Row], t: u64) -> u64 {
    demand(rows, t) - t
}

/// A cut of so much, if it leaves C at 1 or more.
fn if_long_enough(row: &Row, cut: u64) -> u64 {
    match cut < u64::from(row.run) {
        true => cut,
        false => 0,
    }
}

/// The wrong readings.
pub const WRONG: [Wrong; 60] = [
    wrong("ticks of an equal deadline counted", 10, |way| {
        way.counting.gain = |_, entry, step| {
            let is_tie = |running: &Entry| running.due == entry.due && running.row != entry.row;
            let counts = is_inversion(entry, step) || step.running.is_some_and(is_tie);
            if_so(step, counts)
        }
    }),
    same("ticks counted after a job's end", |way| {
        way.counting.open = latest_of_rows
    }),
    wrong("ticks after a job's end counted for the next", 4, |way| {
        way.counting.open = latest_of_rows;
        way.counting.first = |last| last.map_or(0, |last| last.inversions)
    }),
    wrong("counts not reset for a new job of the row", 8, |way| {
        way.counting.first = |last| last.map_or(0, |last| last.inversions)
    }),
    wrong("idle not counted", 8, |way| {
        way.counting.gain =
            |_, entry, step| if_so(step, step.running.is_some() && is_inversion(entry, step))
    }),
    wrong("later jobs not counted", 8, |way| {
        way.counting.gain = |_, _, step| if_so(step, step.running.is_none())
    }),
    wrong("a job's own run counted", 3, |way| {
        way.counting.gain = |_, entry, step| {
            let is_own = |running: &Entry| running.row == entry.row;
            let counts = is_inversion(entry, step) || step.running.is_some_and(is_own);
            if_so(step, counts)
        }
    }),
    wrong("ticks of earlier jobs counted too", 4, |way| {
        way.counting.gain = |_, entry, step| {
            if_so(
                step,
                step.running.is_none_or(|running| running.row != entry.row),
            )
        }
    }),
    wrong("a deadline compared by arrival", 6, |way| {
        way.counting.gain = |_, entry, step| {
            let is_later = |running: &Entry| running.arrival > entry.arrival;
            if_so(step, step.running.is_none_or(is_later))
        }
    }),
    wrong("a deadline compared by D", 10, |way| {
        way.counting.gain = |ledger, entry, step| {
            let relative = |entry: &Entry| ledger.rows[entry.row].deadline;
            let is_later = |running: &Entry| relative(running) > relative(entry);
            if_so(step, step.running.is_none_or(is_later))
        }
    }),
    wrong("the count of the head alone", 8, |way| {
        way.counting.gain = |ledger, entry, step| {
            if_so(
                step,
                is_inversion(entry, step) && head(ledger) == Some(entry),
            )
        }
    }),
    wrong("one tick for each advance", 6, |way| {
        way.counting.gain = |_, entry, step| u64::from(is_inversion(entry, step))
    }),
    wrong("the advance that ends a later job not counted", 12, |way| {
        way.counting.gain = |ledger, entry, step| {
            let ends = |running: &Entry| {
                running.run + step.ticks >= u64::from(ledger.rows[running.row].run)
            };
            if_so(
                step,
                is_inversion(entry, step) && !step.running.is_some_and(ends),
            )
        }
    }),
    wrong("an advance refused with 9 counted", 12, |way| {
        way.counting.counts_refused = true
    }),
    wrong("the ticks left of a dropped choice counted", 12, |way| {
        way.counting.counts_dropped = true
    }),
    wrong("D in place of D − V", 3, |way| {
        way.bound = |job| bound(&Job { v: 0, ..*job })
    }),
    wrong("a negative V taken as 0", 8, |way| {
        way.bound = |job| {
            bound(&Job {
                v: job.v.max(0),
                ..*job
            })
        }
    }),
    wrong("the arrival's budget in place of V", 3, |way| {
        way.bound = |job| {
            bound(&Job {
                v: job.granted,
                ..*job
            })
        }
    }),
    wrong("a bound without the inversion ticks", 6, |way| {
        way.bound = |job| bound(job) - job.entry.inversions as i64
    }),
    wrong("C in place of D − V", 3, |way| {
        way.bound = |job| {
            bound(&Job {
                v: job.row.spare(),
                ..*job
            })
        }
    }),
    wrong("a bound from the arrival on", 4, |way| {
        way.bound = |job| bound(job) - job.entry.arrival as i64
    }),
    wrong("a bound never after the deadline", 4, |way| {
        way.bound = |job| bound(job).min(job.entry.due as i64)
    }),
    wrong("a cost rounded down", 3, |way| {
        way.cost = |rows, i, j| match i == j {
            true => 1,
            false => u64::from(rows[i].deadline / rows[j].period),
        }
    }),
    wrong("a cost of 2 for the row itself", 3, |way| {
        way.cost = |rows, i, j| if i == j { 2 } else { (RIGHT.cost)(rows, i, j) }
    }),
    wrong("a cost of 0 for the row itself", 3, |way| {
        way.cost = |rows, i, j| if i == j { 0 } else { (RIGHT.cost)(rows, i, j) }
    }),
    same("a cost rounded up for the row itself too", |way| {
        way.cost = |rows, i, j| u64::from(rows[i].deadline.div_ceil(rows[j].period))
    }),
    wrong("i and j swapped in a cost", 4, |way| {
        way.cost = |rows, i, j| (RIGHT.cost)(rows, j, i)
    }),
    wrong("T in place of D in a cost", 4, |way| {
        way.cost = |rows, i, j| match i == j {
            true => 1,
            false => u64::from(rows[i].period.div_ceil(rows[j].period)),
        }
    }),
    wrong("a cost times C", 3, |way| {
        way.cost = |rows, i, j| match i == j {
            true => 1,
            false => (RIGHT.cost)(rows, i, j) * u64::from(rows[j].run),
        }
    }),
    wrong("a cost one job too high", 8, |way| {
        way.cost = |rows, i, j| match i == j {
            true => 1,
            false => u64::from(rows[i].deadline / rows[j].period) + 1,
        }
    }),
    wrong("lines S for C = D too", 30, |way| {
        way.has_cost = |_, _, _| true
    }),
    wrong("no lines S of a row whose own C is D", 50, |way| {
        way.has_cost = |rows, i, _| rows[i].run < rows[i].deadline
    }),
    wrong("lines S where C is below T", 40, |way| {
        way.has_cost = |rows, _, j| rows[j].run < rows[j].period
    }),
    wrong("no line S of a row for itself", 3, |way| {
        way.has_cost = |rows, i, j| i != j && (RIGHT.has_cost)(rows, i, j)
    }),
    wrong("lines S by j first", 3, |way| way.is_by_column = true),
    wrong("a cut of C or more", 20, |way| {
        way.cut = |rows, t, i| match jobs_by(&rows[i], t) {
            0 => 0,
            jobs => excess(rows, t).div_ceil(jobs),
        }
    }),
    wrong("a cut of C", 25, |way| {
        way.cut = |rows, t, i| match jobs_by(&rows[i], t) {
            0 => 0,
            jobs => {
                let least = excess(rows, t).div_ceil(jobs);
                if least <= u64::from(rows[i].run) {
                    least
                } else {
                    0
                }
            }
        }
    }),
    wrong("a cut of C − 1 where more must go", 60, |way| {
        way.cut = |rows, t, i| match jobs_by(&rows[i], t) {
            0 => 0,
            jobs => excess(rows, t)
                .div_ceil(jobs)
                .min(u64::from(rows[i].run) - 1),
        }
    }),
    wrong("a cut rounded down", 25, |way| {
        way.cut = |rows, t, i| match jobs_by(&rows[i], t) {
            0 => 0,
            jobs => if_long_enough(&rows[i], excess(rows, t) / jobs),
        }
    }),
    wrong("a cut not divided by the jobs", 40, |way| {
        way.cut = |rows, t, i| match jobs_by(&rows[i], t) {
            0 => 0,
            _ => if_long_enough(&rows[i], excess(rows, t)),
        }
    }),
    wrong("a cut of a row that is not due", 50, |way| {
        way.cut = |rows, t, i| match jobs_by(&rows[i], t) {
            0 => if_long_enough(&rows[i], excess(rows, t)),
            _ => cut(rows, t, i),
        }
    }),
    wrong("a cut to below t", 15, |way| {
        way.cut = |rows, t, i| match jobs_by(&rows[i], t) {
            0 => 0,
            jobs => if_long_enough(&rows[i], (excess(rows, t) + 1).div_ceil(jobs)),
        }
    }),
    wrong("a cut of the whole demand", 12, |way| {
        way.cut = |rows, t, i| match jobs_by(&rows[i], t) {
            0 => 0,
            jobs => if_long_enough(&rows[i], demand(rows, t).div_ceil(jobs)),
        }
    }),
    wrong("a cut by the jobs that arrive before t", 40, |way| {
        way.cut = |rows, t, i| {
            let jobs = t.div_ceil(u64::from(rows[i].period));
            if_long_enough(&rows[i], excess(rows, t).div_ceil(jobs))
        }
    }),
    wrong("a cut by one job less", 60, |way| {
        way.cut = |rows, t, i| match jobs_by(&rows[i], t) {
            0 | 1 => cut(rows, t, i),
            jobs => if_long_enough(&rows[i], excess(rows, t).div_ceil(jobs - 1)),
        }
    }),
    wrong("lines L on refusal 4", 200, |way| {
        way.has_cuts = |number| number == 3 || number == 4
    }),
    wrong("no lines L", 10, |way| way.has_cuts = |_| false),
    wrong("no lines P after ?", 15, |way| way.placed = Placed::Nowhere),
    wrong("lines P before ?", 15, |way| way.placed = Placed::Before),
    wrong("a line P for jobs that are over too", 4, |way| {
        way.waiting = latest_of_rows
    }),
    wrong("lines P by deadline", 12, |way| {
        way.waiting = |ledger| waiting_by(ledger, |entry| (entry.due, entry.row))
    }),
    wrong("lines P by arrival", 20, |way| {
        way.waiting = |ledger| waiting_by(ledger, |entry| (entry.arrival, entry.row))
    }),
    wrong("no lines P", 4, |way| way.waiting = |_| Vec::new()),
    wrong("the clock of E before the advance", 3, |way| {
        way.end_clock = |before, _| before
    }),
    wrong("finished jobs not printed", 5, |way| {
        way.ended = |_, command, _, place| place.filter(|_| command != Command::Finish)
    }),
    wrong("a line E for a refused finish", 20, |way| {
        way.ended = |ledger, command, answer, place| match command {
            Command::Finish if answer.number != 0 => ledger.latest(ledger.chosen),
            _ => place,
        }
    }),
    wrong("a line E for each advance of a job", 5, |way| {
        way.ended = |ledger, command, answer, place| match command {
            Command::Advance(_) if answer.number == 0 => ledger.latest(ledger.chosen),
            _ => place,
        }
    }),
    wrong("lines read after ?", 15, |way| way.goes_on = true),
    wrong("no limit of bytes", 300, |way| way.limit = usize::MAX),
    wrong("a limit of 65,535 bytes", 600, |way| way.limit -= 1),
];
