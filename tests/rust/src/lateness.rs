//! How late jobs end, and how near they come to their bounds (§14.1), over many random runs.

use crate::busy::{busy_command, busy_rows, Manner, Pace};
use crate::driver::Driver;
use crate::ledger::{Entry, Ledger, COUNTING};
use crate::planner::{bound, Job};
use crate::rng::Rng;
use crate::table::{budgets, Kind};
use crate::tally::add_all;
use crate::text::Outcome;

/// Lines of a run.
const LINES: usize = 600;
/// How far an end is before the bound: the greatest of each class but the last.
pub const CLASSES: [i64; 4] = [0, 3, 9, 31];
/// What the classes are called.
pub const CLASS_NAMES: [&str; 5] = ["0", "1 to 3", "4 to 9", "10 to 31", "32 or more"];

/// What is counted of jobs that are over.
#[derive(Clone, Copy, Debug, Default)]
pub struct Ends {
    pub jobs: u64,
    /// By how far the end is before the bound.
    pub classes: [u64; CLASS_NAMES.len()],
    /// Those of the first class whose table has more rows than one: alone, a job that runs its
    /// C always ends at its bound.
    pub at_bound_among: u64,
    /// The sum of bound − end.
    pub ahead: i64,
    /// Jobs whose bound is at or before their deadline.
    pub by_deadline: u64,
    pub most_inversions: u64,
}

impl Ends {
    fn add(&mut self, entry: &Entry, bound: i64, is_alone: bool) {
        let end = entry.end.expect("the job is over");
        let ahead = bound - end as i64;
        let class = CLASSES.iter().position(|most| ahead <= *most);
        self.jobs += 1;
        self.classes[class.unwrap_or(CLASSES.len())] += 1;
        self.at_bound_among += u64::from(ahead == 0 && !is_alone);
        self.ahead += ahead;
        self.by_deadline += u64::from(bound <= entry.due as i64);
        self.most_inversions = self.most_inversions.max(entry.inversions);
    }

    pub fn merge(&mut self, other: &Ends) {
        self.jobs += other.jobs;
        add_all(&mut self.classes, other.classes);
        self.at_bound_among += other.at_bound_among;
        self.ahead += other.ahead;
        self.by_deadline += other.by_deadline;
        self.most_inversions = self.most_inversions.max(other.most_inversions);
    }
}

/// What a walk saw.
#[derive(Clone, Copy, Debug, Default)]
pub struct Seen {
    pub sessions: u64,
    /// Jobs over, without an inversion tick and with some.
    pub ends: [Ends; 2],
    /// How often the bound of a waiting job was compared with the clock.
    pub waits: u64,
}

impl Seen {
    pub fn all(&self) -> Ends {
        let [mut all, with] = self.ends;
        all.merge(&with);
        all
    }

    pub fn merge(&mut self, other: &Seen) {
        self.sessions += other.sessions;
        for (ends, other) in self.ends.iter_mut().zip(&other.ends) {
            ends.merge(other);
        }
        self.waits += other.waits;
    }
}

/// A run with its ledger.
struct Run {
    driver: Driver,
    ledger: Ledger,
    budgets: Vec<i64>,
}

impl Run {
    fn new(rng: &mut Rng, kind: Kind) -> Self {
        let rows = busy_rows(rng, kind);
        Run {
            driver: Driver::new(&rows),
            ledger: Ledger::new(&rows),
            budgets: budgets(&rows),
        }
    }

    fn bound(&self, entry: &Entry) -> i64 {
        bound(&Job {
            entry,
            row: self.ledger.rows[entry.row],
            v: self.budgets[entry.row],
            granted: 0,
        })
    }

    /// Makes one line more. Gives the job that it ends, if any.
    fn go_on(&mut self, rng: &mut Rng, manner: Manner) -> Option<Entry> {
        let command = busy_command(&self.driver.machine, rng, manner);
        let Outcome::Answered(_, answer) = self.driver.push(command) else {
            return None;
        };
        let place = self.ledger.enter(&COUNTING, command, &answer)?;
        Some(self.ledger.entries[place])
    }

    /// Looks at what a line left.
    fn look(&self, ended: Option<Entry>, seen: &mut Seen) -> Result<(), String> {
        let clock = self.ledger.clock as i64;
        for entry in self.ledger.waiting() {
            seen.waits += 1;
            if clock >= self.bound(entry) {
                return Err(self.broken(entry));
            }
        }
        let Some(entry) = ended else {
            return Ok(());
        };
        let bound = self.bound(&entry);
        if clock > bound {
            return Err(self.broken(&entry));
        }
        let is_alone = self.ledger.rows.len() == 1;
        seen.ends[usize::from(entry.inversions > 0)].add(&entry, bound, is_alone);
        Ok(())
    }

    fn broken(&self, entry: &Entry) -> String {
        let (clock, bound) = (self.ledger.clock, self.bound(entry));
        let text = self.driver.text.escape_ascii();
        format!("a bound is broken: clock {clock}, bound {bound}, {entry:?}, input \"{text}\"")
    }
}

/// Makes runs on tables of a kind until so many jobs are over. Each bound is compared after
/// each call; an error if one is broken.
pub fn walk(rng: &mut Rng, kind: Kind, pace: Pace, jobs: u64) -> Result<Seen, String> {
    let mut seen = Seen::default();
    while seen.all().jobs < jobs {
        let mut run = Run::new(rng, kind);
        let manner = Manner::random(rng, pace);
        seen.sessions += 1;
        for _ in 0..LINES {
            let ended = run.go_on(rng, manner);
            run.look(ended, &mut seen)?;
        }
    }
    Ok(seen)
}
