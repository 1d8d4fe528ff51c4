//! Arrivals and the budgets that they are given: for the tools, which count how often
//! they reach one that a wrong rule would give another budget, and how often an answer
//! shows it.

use std::fmt;

use crate::session::{Job, Session};
use crate::table::{self, Kind, Row};
use crate::tally::Among;
use crate::text::{run_with, Command, Machine, Outcome};

/// A job of a row that is not brittle, about to arrive.
#[derive(Clone, Copy, Debug)]
pub struct Arriving<'a> {
    session: &'a Session,
    row: usize,
    due: u64,
}

impl<'a> Arriving<'a> {
    /// The job of this row, unless it may not arrive or the row is brittle. The session
    /// must be sound.
    pub fn new(session: &'a Session, row: u64) -> Option<Self> {
        let row = usize::try_from(row).ok()?;
        let deadline = session.rows.get(row)?.deadline;
        let is_ready = session.slots[row].next <= session.clock;
        let due = session.clock + u64::from(deadline);
        (is_ready && !session.is_brittle(row)).then_some(Arriving { session, row, due })
    }

    /// The budget that it is given.
    fn budget(&self) -> i64 {
        self.session.slack(self.row)
    }

    fn v(&self) -> i64 {
        table::budget(&self.session.rows, self.row)
    }

    fn others(&self) -> impl Iterator<Item = usize> + '_ {
        (0..self.session.rows.len()).filter(|other| *other != self.row)
    }

    fn any_row(&self, such: impl Fn(usize) -> bool) -> bool {
        self.others().any(such)
    }

    /// Whether a job of another row waits that is such.
    fn any_job(&self, such: impl Fn(&Job, &Row) -> bool) -> bool {
        self.any_row(|row| {
            let job = self.session.slots[row].job;
            job.is_some_and(|job| such(&job, &self.session.rows[row]))
        })
    }

    /// Whether another row whose jobs to come count may first come at such a tick.
    fn any_counted(&self, such: impl Fn(u64) -> bool) -> bool {
        self.any_row(|row| self.coming(row) > 0 && such(self.session.slots[row].next))
    }

    /// How many deadlines of jobs to come count of a row.
    fn coming(&self, row: usize) -> u64 {
        self.session.coming_deadlines(row, self.due)
    }

    /// Whether a job to come of another row can be due just then.
    fn can_be_due(&self, due: u64) -> bool {
        self.any_row(|row| {
            let period = u64::from(self.session.rows[row].period);
            let after_first = due.checked_sub(self.session.next_deadline(row));
            after_first.is_some_and(|ticks| ticks % period == 0)
        })
    }

    /// D − C less what a rule takes off for each other row.
    fn less(&self, work: impl Fn(usize) -> i64) -> i64 {
        let own = &self.session.rows[self.row];
        own.spare() - self.others().map(work).sum::<i64>()
    }

    /// The same with another rule for waiting jobs, for jobs to come as it is.
    fn less_waiting(&self, work: impl Fn(usize) -> i64) -> i64 {
        self.less(|row| work(row) + self.session.coming_work(row, self.due))
    }

    /// The same with another rule for how many jobs to come count.
    fn less_coming(&self, count: impl Fn(usize) -> u64) -> i64 {
        self.less(|row| {
            let run = i64::from(self.session.rows[row].run);
            self.session.waiting_work(row, self.due) + run * count(row) as i64
        })
    }

    /// How many jobs of a row count that come from this tick on.
    fn coming_from(&self, row: usize, first: u64) -> u64 {
        let Row {
            period, deadline, ..
        } = self.session.rows[row];
        let ticks = self.due.checked_sub(first + u64::from(deadline));
        ticks.map_or(0, |ticks| ticks / u64::from(period) + 1)
    }
}

/// A sort of such arrivals: what they do, of how many inputs of the program and of how
/// many calls of the library there must be one, and which arrivals are.
struct Sort {
    name: &'static str,
    one_in: [u64; 2],
    has: fn(&Arriving) -> bool,
}

const fn sort(name: &'static str, one_in: [u64; 2], has: fn(&Arriving) -> bool) -> Sort {
    Sort { name, one_in, has }
}

const SORTS: [Sort; 15] = [
    sort("have more than V", [1, 50], |arriving| {
        arriving.budget() > arriving.v()
    }),
    sort("have V", [1, 250], |arriving| {
        arriving.budget() == arriving.v()
    }),
    sort("count a waiting job", [1, 80], |arriving| {
        arriving.any_job(|job, _| job.due <= arriving.due)
    }),
    sort("count one that has run", [4, 500], |arriving| {
        arriving.any_job(|job, row| job.due <= arriving.due && job.left < u64::from(row.run))
    }),
    sort("count one due at their deadline", [2, 500], |arriving| {
        arriving.any_job(|job, _| job.due == arriving.due)
    }),
    sort("leave out one due a tick later", [6, 1_000], |arriving| {
        arriving.any_job(|job, _| job.due == arriving.due + 1)
    }),
    sort("leave out one due later", [1, 120], |arriving| {
        arriving.any_job(|job, _| job.due > arriving.due)
    }),
    sort(
        "count a row from the clock that could come before",
        [1, 150],
        |arriving| arriving.any_counted(|next| next < arriving.session.clock),
    ),
    sort("count a row from after the clock", [2, 250], |arriving| {
        arriving.any_counted(|next| next > arriving.session.clock)
    }),
    sort(
        "count several jobs to come of a row",
        [2, 300],
        |arriving| arriving.any_row(|row| arriving.coming(row) >= 2),
    ),
    sort("count no job to come of a row", [1, 60], |arriving| {
        arriving.any_row(|row| arriving.coming(row) == 0)
    }),
    sort(
        "count one to come for their deadline",
        [2, 350],
        |arriving| arriving.can_be_due(arriving.due),
    ),
    sort("leave out one to come a tick later", [3, 600], |arriving| {
        arriving.can_be_due(arriving.due + 1)
    }),
    sort("are of a mixed session", [1, 120], |arriving| {
        arriving.session.kind == Kind::Mixed
    }),
    sort("count a brittle row there", [1, 150], |arriving| {
        arriving.any_row(|row| arriving.session.is_brittle(row) && arriving.coming(row) > 0)
    }),
];

/// NOT the product's rule: another budget for such an arrival; of how many inputs one
/// must show that it is wrong in an answer, and of how many calls it must be wrong in one.
struct Wrong {
    name: &'static str,
    one_in: [u64; 2],
    budget: fn(&Arriving) -> i64,
}

const fn wrong(name: &'static str, one_in: [u64; 2], budget: fn(&Arriving) -> i64) -> Wrong {
    Wrong {
        name,
        one_in,
        budget,
    }
}

const WRONG: [Wrong; 12] = [
    wrong("V on arrival", [6, 60], |arriving| arriving.v()),
    wrong("D − C", [8, 60], |arriving| arriving.less(|_| 0)),
    wrong("jobs to come alone", [12, 80], |arriving| {
        arriving.less_waiting(|_| 0)
    }),
    wrong("waiting jobs alone", [8, 80], |arriving| {
        arriving.less_coming(|_| 0)
    }),
    wrong("waiting jobs due earlier", [40, 500], |arriving| {
        arriving.less_waiting(|row| arriving.session.waiting_work(row, arriving.due - 1))
    }),
    wrong("all waiting jobs", [12, 120], |arriving| {
        arriving.less_waiting(|row| arriving.session.waiting_work(row, u64::MAX))
    }),
    wrong("C of waiting jobs", [45, 500], |arriving| {
        arriving.less_waiting(|row| {
            let job = arriving.session.slots[row].job;
            let counts = job.is_some_and(|job| job.due <= arriving.due);
            i64::from(counts) * i64::from(arriving.session.rows[row].run)
        })
    }),
    wrong("jobs to come due earlier", [40, 350], |arriving| {
        arriving.less_coming(|row| arriving.session.coming_deadlines(row, arriving.due - 1))
    }),
    wrong("jobs to come from the clock on", [9, 80], |arriving| {
        arriving.less_coming(|row| arriving.coming_from(row, arriving.session.clock))
    }),
    wrong("jobs to come from before it", [12, 150], |arriving| {
        let slots = &arriving.session.slots;
        arriving.less_coming(|row| arriving.coming_from(row, slots[row].next))
    }),
    wrong("one job to come of a row", [100, 300], |arriving| {
        arriving.less_coming(|row| arriving.coming(row).min(1))
    }),
    wrong("rows that are not brittle", [80, 120], |arriving| {
        let Arriving { session, due, .. } = *arriving;
        arriving.less(|row| match session.is_brittle(row) {
            true => 0,
            false => session.waiting_work(row, due) + session.coming_work(row, due),
        })
    }),
];

/// NOT the product's rule: performs a command, but an arrival is given a wrong budget.
fn wrong_execute(machine: &mut Machine, command: Command, wrong: &Wrong) -> Outcome {
    let budget = match command {
        Command::Arrive(row) => Arriving::new(&machine.session, u64::from(row))
            .map(|arriving| (arriving.row, (wrong.budget)(&arriving).max(0))),
        _ => None,
    };
    let outcome = machine.execute(command);
    if let Some((row, budget)) = budget {
        let job = machine.session.slots[row].job;
        machine.session.slots[row].job = job.map(|job| Job { budget, ..job });
    }
    outcome
}

/// How many such arrivals are of each sort, and how many would be given another budget
/// by each wrong rule.
#[derive(Clone, Copy, Debug, Default)]
pub struct ArrivalCounts {
    arrivals: u64,
    sorts: [u64; SORTS.len()],
    wrong: [u64; WRONG.len()],
}

impl ArrivalCounts {
    /// Counts a job that is about to arrive, if it is such.
    pub fn add(&mut self, session: &Session, row: u64) {
        let Some(arriving) = Arriving::new(session, row) else {
            return;
        };
        self.arrivals += 1;
        for (count, sort) in self.sorts.iter_mut().zip(&SORTS) {
            *count += u64::from((sort.has)(&arriving));
        }
        let budget = arriving.budget();
        for (count, wrong) in self.wrong.iter_mut().zip(&WRONG) {
            *count += u64::from((wrong.budget)(&arriving).max(0) != budget);
        }
    }

    fn merge(&mut self, other: &ArrivalCounts) {
        self.arrivals += other.arrivals;
        let sums = self.sorts.iter_mut().chain(&mut self.wrong);
        for (sum, count) in sums.zip(other.sorts.iter().chain(&other.wrong)) {
            *sum += count;
        }
    }

    fn sort_gaps(&self, among: Among) -> Vec<String> {
        let sorts = self.sorts.into_iter().zip(&SORTS);
        let gaps = sorts.filter_map(|(count, sort)| {
            among.gap(count, sort.one_in, &format!("arrivals {}", sort.name))
        });
        gaps.collect()
    }

    /// Which sorts are too rare among so many calls of the library, and which wrong
    /// rules give the right budget too often.
    pub fn gaps(&self, calls: u64) -> Vec<String> {
        let among = Among::Calls(calls);
        let wrong = self.wrong.into_iter().zip(&WRONG);
        let wrong = wrong.filter_map(|(count, wrong)| {
            let what = format!("arrivals have another budget by {}", wrong.name);
            among.gap(count, wrong.one_in, &what)
        });
        let mut gaps = self.sort_gaps(among);
        gaps.extend(wrong);
        gaps
    }

    /// The names of the sorts of which there is an arrival.
    pub fn reached(&self) -> Vec<&'static str> {
        let sorts = self.sorts.iter().zip(&SORTS);
        let reached = sorts.filter(|(count, _)| **count > 0);
        reached.map(|(_, sort)| sort.name).collect()
    }

    /// The names of the wrong rules by which some budget would be another one.
    pub fn refuted(&self) -> Vec<&'static str> {
        let wrong = self.wrong.iter().zip(&WRONG);
        let refuted = wrong.filter(|(count, _)| **count > 0);
        refuted.map(|(_, wrong)| wrong.name).collect()
    }
}

impl fmt::Display for ArrivalCounts {
    fn fmt(&self, formatter: &mut fmt::Formatter) -> fmt::Result {
        let sorts = self.sorts.iter().zip(&SORTS);
        let sorts = sorts.map(|(count, sort)| format!("{count} {}", sort.name));
        let wrong = self.wrong.iter().zip(&WRONG);
        let wrong = wrong.map(|(count, wrong)| format!("{count} by {}", wrong.name));
        write!(
            formatter,
            "of {} arrivals of rows that are not brittle {}; another budget would have {}",
            self.arrivals,
            sorts.collect::<Vec<_>>().join(", "),
            wrong.collect::<Vec<_>>().join(", ")
        )
    }
}

/// What an input reached.
#[derive(Clone, Copy, Debug, Default)]
pub struct Arrivals {
    pub counts: ArrivalCounts,
    /// By which wrong rules some answer would be another one.
    shown: [bool; WRONG.len()],
}

impl Arrivals {
    /// Looks at a command that the machine is about to perform.
    pub fn watch(&mut self, machine: &Machine, command: Command) {
        if let Command::Arrive(row) = command {
            self.counts.add(&machine.session, u64::from(row));
        }
    }

    /// Looks at the output of the whole input, once all of it was watched.
    pub fn compare(&mut self, input: &[u8], output: &[u8]) {
        let counts = self.counts.wrong.iter().zip(&WRONG);
        for (shown, (count, wrong)) in self.shown.iter_mut().zip(counts) {
            let execute = |machine: &mut Machine, command| wrong_execute(machine, command, wrong);
            *shown = *count > 0 && run_with(input, execute) != output;
        }
    }

    /// The names of the wrong rules by which some answer would be another one.
    pub fn shown(&self) -> Vec<&'static str> {
        let wrong = self.shown.iter().zip(&WRONG);
        let shown = wrong.filter(|(shown, _)| **shown);
        shown.map(|(_, wrong)| wrong.name).collect()
    }

    /// Whether some answer would be another one with V on arrival.
    pub fn is_shown(&self) -> bool {
        self.shown[0]
    }
}

/// How many of all inputs reached what.
#[derive(Clone, Copy, Debug, Default)]
pub struct ArrivalTally {
    inputs: u64,
    counts: ArrivalCounts,
    shown: [u64; WRONG.len()],
}

impl ArrivalTally {
    pub fn add(&mut self, arrivals: &Arrivals) {
        self.inputs += 1;
        self.counts.merge(&arrivals.counts);
        for (sum, shown) in self.shown.iter_mut().zip(arrivals.shown) {
            *sum += u64::from(shown);
        }
    }

    pub fn merge(&mut self, other: ArrivalTally) {
        self.inputs += other.inputs;
        self.counts.merge(&other.counts);
        for (sum, shown) in self.shown.iter_mut().zip(other.shown) {
            *sum += shown;
        }
    }

    /// Which of the counts are too low for a comparison that means something.
    pub fn gaps(&self) -> Vec<String> {
        let among = Among::Inputs(self.inputs);
        let shown = self.shown.into_iter().zip(&WRONG);
        let shown = shown.filter_map(|(count, wrong)| {
            let what = format!("inputs have another answer by {}", wrong.name);
            among.gap(count, wrong.one_in, &what)
        });
        let mut gaps = self.counts.sort_gaps(among);
        gaps.extend(shown);
        gaps
    }
}

impl fmt::Display for ArrivalTally {
    fn fmt(&self, formatter: &mut fmt::Formatter) -> fmt::Result {
        let shown = self.shown.iter().zip(&WRONG);
        let shown = shown.map(|(count, wrong)| format!("{count} by {}", wrong.name));
        write!(
            formatter,
            "{}; another answer would have of the inputs {}",
            self.counts,
            shown.collect::<Vec<_>>().join(", ")
        )
    }
}
