//! Calls in a run of `planner` that matter for what it prints, for the comparison, which counts
//! the inputs that have them.

use crate::calls::Answer;
use crate::ledger::{is_inversion, Entry, Ledger, Step};
use crate::session::IDLE;
use crate::text::Command;

/// A sort of calls or inputs: its name, of how many inputs one must have it, and which are of
/// it.
pub struct Sort<F> {
    pub name: &'static str,
    pub one_in: u64,
    pub has: F,
}

type CallSort = Sort<fn(&Moment) -> bool>;

const fn call(name: &'static str, one_in: u64, has: fn(&Moment) -> bool) -> CallSort {
    Sort { name, one_in, has }
}

/// A call that is about to be entered in the ledger.
pub struct Moment<'a> {
    pub ledger: &'a Ledger,
    pub command: Command,
    pub answer: Answer,
    /// V of each row.
    pub budgets: &'a [i64],
}

impl Moment<'_> {
    /// Whether it is refused with this number while a job waits.
    fn is_refused(&self, number: u32) -> bool {
        self.answer.number == number && !self.ledger.waiting.is_empty()
    }

    /// The ticks of an accepted advance, and what runs in them.
    fn step(&self) -> Option<Step<'_>> {
        match self.command {
            Command::Advance(ticks) if self.answer.number == 0 => Some(Step {
                running: self.ledger.running(),
                ticks: u64::from(ticks),
            }),
            _ => None,
        }
    }

    fn is_step(&self, such: impl Fn(&Step) -> bool) -> bool {
        self.step().is_some_and(|step| such(&step))
    }

    /// Whether a job runs and another waits that is such beside it.
    fn runs_beside(&self, such: fn(&Entry, &Entry) -> bool) -> bool {
        self.is_step(|step| {
            step.running.is_some_and(|running| {
                let mut others = self
                    .ledger
                    .waiting()
                    .filter(|other| other.row != running.row);
                others.any(|other| such(running, other))
            })
        })
    }

    /// How many of the waiting jobs count the ticks of this advance.
    fn counted(&self) -> usize {
        self.step().map_or(0, |step| {
            let waiting = self.ledger.waiting();
            waiting.filter(|entry| is_inversion(entry, &step)).count()
        })
    }

    fn is_idle_step(&self) -> bool {
        self.is_step(|step| step.running.is_none())
    }

    /// Whether a job is finished with ticks unused, and a later one gains them.
    fn gives(&self) -> bool {
        let unused = self.answer.values[1];
        let is_finish = self.command == Command::Finish && self.answer.number == 0 && unused > 0;
        is_finish
            && self.ledger.running().is_some_and(|running| {
                let mut later = self.ledger.waiting().filter(|each| each.due > running.due);
                later.any(|each| self.budgets[each.row] >= 0)
            })
    }

    fn arrives(&self) -> bool {
        matches!(self.command, Command::Arrive(_)) && self.answer.number == 0
    }

    /// The entry before the one that arrives, of its row.
    fn last_of_row(&self) -> Option<&Entry> {
        let Command::Arrive(row) = self.command else {
            return None;
        };
        let place = self.ledger.latest(row).filter(|_| self.arrives())?;
        Some(&self.ledger.entries[place])
    }

    fn advances(&self) -> bool {
        matches!(self.command, Command::Advance(_))
    }
}

/// The sorts of calls.
pub const MOMENTS: [CallSort; 24] = [
    call("6 while a job waits", 8, |moment| moment.is_refused(6)),
    call("7 while a job waits", 12, |moment| moment.is_refused(7)),
    call("8 while a job waits", 15, |moment| moment.is_refused(8)),
    call("9 to an advance while a job waits", 8, |moment| {
        moment.is_refused(9) && moment.advances()
    }),
    call("9 to a finish while a job waits", 15, |moment| {
        moment.is_refused(9) && !moment.advances()
    }),
    call("10 while a job waits", 10, |moment| moment.is_refused(10)),
    call("11 while a job waits", 50, |moment| moment.is_refused(11)),
    call(
        "9 to an advance after an arrival dropped the choice",
        30,
        |moment| {
            // The chosen job still waits, though its choice is not in force.
            moment.is_refused(9)
                && moment.advances()
                && moment
                    .ledger
                    .running()
                    .is_some_and(|entry| entry.end.is_none())
        },
    ),
    call("idle ticks counted", 8, |moment| {
        moment.is_idle_step() && moment.counted() > 0
    }),
    call("idle ticks while nothing waits", 4, |moment| {
        moment.is_idle_step() && moment.ledger.waiting.is_empty()
    }),
    call("ticks of a later deadline counted", 8, |moment| {
        !moment.is_idle_step() && moment.counted() > 0
    }),
    call("ticks counted by two jobs and more", 8, |moment| {
        moment.counted() > 1
    }),
    call("ticks of an equal deadline, not counted", 10, |moment| {
        moment.runs_beside(|running, other| running.due == other.due)
    }),
    call(
        "ticks of an equal deadline, counted by a third job",
        50,
        |moment| {
            moment.counted() > 0 && moment.runs_beside(|running, other| running.due == other.due)
        },
    ),
    call("ticks of an earlier deadline, not counted", 4, |moment| {
        moment.runs_beside(|running, other| running.due < other.due)
    }),
    call(
        "ticks that one job counts and another does not",
        20,
        |moment| {
            moment.counted() > 0 && moment.runs_beside(|running, other| running.due < other.due)
        },
    ),
    call(
        "ticks of a later deadline that arrived earlier",
        40,
        |moment| {
            let beside = |running: &Entry, other: &Entry| {
                running.due > other.due && running.arrival < other.arrival
            };
            moment.runs_beside(beside)
        },
    ),
    call("a later job ending while an earlier waits", 12, |moment| {
        let [_, over] = moment.answer.values;
        moment.is_step(|_| over == 1) && moment.counted() > 0
    }),
    call("an advance that leaves ticks", 3, |moment| {
        moment.is_step(|_| moment.answer.values[0] > 0)
    }),
    call("a finish that gives unused ticks", 10, |moment| {
        moment.gives()
    }),
    call("an arrival in the midst of a choice", 4, |moment| {
        moment.arrives() && moment.ledger.left > 0
    }),
    call(
        "an arrival in the midst of idle while a job waits",
        15,
        |moment| {
            let Moment { ledger, .. } = moment;
            moment.arrives()
                && ledger.left > 0
                && ledger.chosen == IDLE
                && !ledger.waiting.is_empty()
        },
    ),
    call(
        "an arrival after a job of the row that counted ticks",
        8,
        |moment| moment.last_of_row().is_some_and(|last| last.inversions > 0),
    ),
    call("a clock above 2^32", 1_500, |moment| {
        moment.ledger.clock > 1 << 32 && moment.advances()
    }),
];
