//! Mixed tables and sessions: for the tools, which count how often they reach a choice
//! or a finish that a wrong rule would answer otherwise, and how often an answer shows
//! it.

use std::fmt;

use crate::calls::{candidates, candidates_where, pick};
use crate::gifts::{shares, wrong_execute_without_gifts, Share};
use crate::session::{Choice, Session, IDLE};
use crate::table::{brittle_rows, budget, opinion_on, Kind, Opinion, Row, ROW_LIMIT};
use crate::tally::{too_rare, Among};
use crate::text::{leading_rows, run_with, Command, Machine, Outcome};

/// Of all admitted tables, one in so many must be mixed, and tight.
const MIXED: u64 = 4;
const TIGHT: u64 = 15;
/// Of all admitted tables, one in so many must be mixed with a V of 0, and with as many
/// rows as there can be.
const ZERO: u64 = 40;
const MOST_ROWS: u64 = 40;
/// So many admitted tables must have each number of brittle rows that a mixed one can
/// have.
const EACH: u64 = 20;

/// What is admitted, by kind and by the number of brittle rows.
#[derive(Clone, Copy, Debug, Default)]
pub struct TableTally {
    admitted: u64,
    tight: u64,
    mixed: u64,
    /// Mixed ones in which some V is 0.
    zero: u64,
    /// Mixed ones of 16 rows.
    most_rows: u64,
    /// Mixed ones by the number of brittle rows less 1.
    brittle: [u64; ROW_LIMIT - 1],
}

impl TableTally {
    /// Counts a table, unless it is refused.
    pub fn add(&mut self, rows: &[Row]) {
        let Ok(Opinion { kind, budgets }) = opinion_on(rows) else {
            return;
        };
        self.admitted += 1;
        self.tight += u64::from(kind == Kind::Tight);
        if kind == Kind::Mixed {
            self.mixed += 1;
            self.zero += u64::from(budgets.contains(&0));
            self.most_rows += u64::from(rows.len() == ROW_LIMIT);
            let brittle = budgets.iter().filter(|v| **v < 0).count();
            self.brittle[brittle - 1] += 1;
        }
    }

    pub fn merge(&mut self, other: TableTally) {
        self.admitted += other.admitted;
        self.tight += other.tight;
        self.mixed += other.mixed;
        self.zero += other.zero;
        self.most_rows += other.most_rows;
        for (sum, count) in self.brittle.iter_mut().zip(other.brittle) {
            *sum += count;
        }
    }

    /// Which of the counts are too low for a comparison that means something.
    pub fn gaps(&self) -> Vec<String> {
        let counts = [
            (self.mixed, MIXED, "start a mixed table"),
            (self.tight, TIGHT, "start a tight table"),
            (self.zero, ZERO, "start a mixed table with a V of 0"),
            (self.most_rows, MOST_ROWS, "start a mixed table of 16 rows"),
        ];
        let few = (1..).zip(self.brittle).filter(|(_, count)| *count < EACH);
        let few = few.map(|(rows, count)| {
            format!("{count} mixed tables have {rows} brittle rows (fewer than {EACH})")
        });
        let rare = too_rare(self.admitted, &counts);
        rare.into_iter().chain(few).collect()
    }
}

impl fmt::Display for TableTally {
    fn fmt(&self, formatter: &mut fmt::Formatter) -> fmt::Result {
        let brittle = self.brittle.map(|count| count.to_string());
        write!(
            formatter,
            "of {} admitted tables {} are tight and {} mixed, {} of them with a V of 0 and {} of 16 \
            rows; 1 to 15 of their rows are brittle in {}",
            self.admitted,
            self.tight,
            self.mixed,
            self.zero,
            self.most_rows,
            brittle.join(" ")
        )
    }
}

/// An accepted choice in a mixed session in which a job waits.
#[derive(Clone, Debug)]
pub struct MixedChoice<'a> {
    session: &'a Session,
    words: &'a [u32],
    /// The earliest deadline that a brittle job to come can have.
    limit: u64,
    candidates: Vec<u32>,
    chosen: Choice,
}

impl<'a> MixedChoice<'a> {
    /// The choice with these words, unless the session is of another kind or nothing
    /// waits. The session must be sound. A choice in force is not looked at.
    pub fn new(session: &'a Session, words: &'a [u32]) -> Option<Self> {
        let is_mixed = session.kind == Kind::Mixed && session.waiting().next().is_some();
        let limit = session.brittle_deadline().filter(|_| is_mixed)?;
        let candidates = candidates(session);
        let (chosen, _) = pick(session, &candidates, words);
        Some(MixedChoice {
            session,
            words,
            limit,
            candidates,
            chosen,
        })
    }

    fn head(&self) -> u32 {
        self.candidates[0]
    }

    fn due(&self, row: u32) -> Option<u64> {
        self.session.job(row).map(|job| job.due)
    }

    fn is_brittle(&self, row: u32) -> bool {
        self.session.is_brittle(row as usize)
    }

    /// The candidates behind the head.
    fn others(&self) -> &[u32] {
        &self.candidates[1..]
    }

    /// The candidates if any other than the head only had to be such.
    fn candidates_by(&self, may_precede: impl Fn(u32) -> bool) -> Vec<u32> {
        candidates_where(self.session, self.session.in_order(), may_precede)
    }

    /// The rows that are kept out only since they are due after the limit.
    fn kept_out(&self) -> Vec<u32> {
        let mut rows = self.candidates_by(|row| row != IDLE);
        rows.retain(|row| !self.candidates.contains(row));
        rows
    }

    fn keeps_out(&self, such: impl Fn(u32) -> bool) -> bool {
        self.kept_out().into_iter().any(such)
    }

    /// Whether these candidates would lead to another row or span.
    fn differs(&self, candidates: &[u32]) -> bool {
        pick(self.session, candidates, self.words).0 != self.chosen
    }

    /// Whether another limit would.
    fn differs_by(&self, limit: Option<u64>) -> bool {
        let is_in_time = |due: u64| limit.is_none_or(|limit| due <= limit);
        self.differs(&self.candidates_by(|row| self.due(row).is_some_and(is_in_time)))
    }

    /// Whether the limit would be another one, and the answer too, if a row's part in
    /// it went by this rule.
    fn differs_with(&self, part: impl Fn(usize) -> Option<u64>) -> bool {
        let rows = 0..self.session.rows.len();
        self.differs_by(rows.filter_map(part).min())
    }

    /// As this, but for brittle rows alone.
    fn differs_with_brittle(&self, part: impl Fn(usize) -> Option<u64>) -> bool {
        self.differs_with(|row| part(row).filter(|_| self.session.is_brittle(row)))
    }

    fn deadline(&self, row: usize) -> u64 {
        u64::from(self.session.rows[row].deadline)
    }

    /// What the brittle row in this place, from the first or from the last, would let
    /// be alone.
    fn differs_by_one(&self, mut rows: impl Iterator<Item = usize>) -> bool {
        let row = rows.find(|row| self.session.is_brittle(*row));
        self.differs_by(row.map(|row| self.session.next_deadline(row)))
    }
}

/// A sort of such choices: what they do, of how many inputs of the program and of how
/// many calls of the library there must be one, and which choices are.
struct ChoiceSort {
    name: &'static str,
    one_in: [u64; 2],
    has: fn(&MixedChoice) -> bool,
}

const fn sort(name: &'static str, one_in: [u64; 2], has: fn(&MixedChoice) -> bool) -> ChoiceSort {
    ChoiceSort { name, one_in, has }
}

/// What they do.
const CHOICES: [ChoiceSort; 11] = [
    sort(
        "keep a job out for a brittle one to come",
        [2, 250],
        |choice| choice.keeps_out(|_| true),
    ),
    sort("leave the head alone so", [2, 500], |choice| {
        choice.others().is_empty() && choice.keeps_out(|_| true)
    }),
    sort("have other candidates all the same", [8, 500], |choice| {
        !choice.others().is_empty() && choice.keeps_out(|_| true)
    }),
    sort("take a candidate other than the head", [4, 400], |choice| {
        choice.chosen.row != choice.head()
    }),
    sort("have a candidate due at the limit", [40, 2_500], |choice| {
        let mut others = choice.others().iter();
        others.any(|row| choice.due(*row) == Some(choice.limit))
    }),
    sort("keep out one due a tick later", [25, 2_500], |choice| {
        choice.keeps_out(|row| choice.due(row) == Some(choice.limit + 1))
    }),
    sort(
        "keep out one of the head's deadline",
        [20, 4_000],
        |choice| choice.keeps_out(|row| choice.due(row) == choice.due(choice.head())),
    ),
    sort("leave idle out, though all can wait", [1, 100], |choice| {
        choice.session.waiting().all(|job| job.budget >= 1)
    }),
    sort(
        "have several who can wait, but not idle",
        [2, 400],
        |choice| {
            choice.candidates.len() >= 2 && choice.session.waiting().all(|job| job.budget >= 1)
        },
    ),
    sort(
        "have a brittle candidate behind the head",
        [20, 1_000],
        |choice| choice.others().iter().any(|row| choice.is_brittle(*row)),
    ),
    sort("have a brittle head before others", [2, 100], |choice| {
        choice.is_brittle(choice.head()) && choice.session.waiting().count() >= 2
    }),
];

/// What their answer depends on: by another rule it would be another one.
const DEPENDING: [ChoiceSort; 10] = [
    sort("depend on a brittle job to come", [3, 500], |choice| {
        choice.differs_by(None)
    }),
    sort("depend on brittle rows alone", [25, 2_500], |choice| {
        choice.differs_with(|row| Some(choice.session.next_deadline(row)))
    }),
    sort("depend on the clock", [60, 5_000], |choice| {
        let Session { slots, .. } = choice.session;
        choice.differs_with_brittle(|row| Some(slots[row].next + choice.deadline(row)))
    }),
    sort("depend on the earliest next arrival", [5, 800], |choice| {
        let clock = choice.session.clock;
        choice.differs_with_brittle(|row| Some(clock + choice.deadline(row)))
    }),
    sort("depend on D", [8, 800], |choice| {
        let Session { clock, slots, .. } = choice.session;
        choice.differs_with_brittle(|row| Some(*clock.max(&slots[row].next)))
    }),
    sort(
        "depend on a deadline that is equal",
        [40, 5_000],
        |choice| choice.differs_by(Some(choice.limit - 1)),
    ),
    sort("depend on a tick", [40, 5_000], |choice| {
        choice.differs_by(Some(choice.limit + 1))
    }),
    sort("depend on idle", [3, 250], |choice| {
        let is_in_time = |due: u64| due <= choice.limit;
        choice.differs(&choice.candidates_by(|row| choice.due(row).is_none_or(is_in_time)))
    }),
    sort(
        "depend on more than the first brittle row",
        [25, 2_500],
        |choice| choice.differs_by_one(0..choice.session.rows.len()),
    ),
    sort("depend on more than the last", [25, 2_500], |choice| {
        choice.differs_by_one((0..choice.session.rows.len()).rev())
    }),
];

const CHOICE_SORTS: usize = CHOICES.len() + DEPENDING.len();

fn choice_sorts() -> impl Iterator<Item = &'static ChoiceSort> {
    CHOICES.iter().chain(&DEPENDING)
}

/// A sort of accepted finishes in mixed sessions, in the same way.
struct FinishSort {
    name: &'static str,
    one_in: [u64; 2],
    has: fn(&Session, &[(u32, Share)]) -> bool,
}

fn gives(shares: &[(u32, Share)]) -> bool {
    shares.iter().any(|(_, share)| share.is_gain())
}

fn leaves_out(shares: &[(u32, Share)]) -> bool {
    shares.iter().any(|(_, share)| *share == Share::Brittle)
}

const FINISHES: [FinishSort; 5] = [
    FinishSort {
        name: "give to some job",
        one_in: [2, 300],
        has: |_, shares| gives(shares),
    },
    FinishSort {
        name: "give nothing to a brittle one",
        one_in: [5, 500],
        has: |_, shares| leaves_out(shares),
    },
    FinishSort {
        name: "do both",
        one_in: [10, 500],
        has: |_, shares| gives(shares) && leaves_out(shares),
    },
    FinishSort {
        name: "give time of a brittle job",
        one_in: [4, 500],
        has: |session, shares| {
            let finished = session.choice.map_or(IDLE, |choice| choice.row);
            session.is_brittle(finished as usize) && gives(shares)
        },
    },
    FinishSort {
        name: "give to a row of V 0",
        one_in: [50, 5_000],
        has: |session, shares| {
            let mut gaining = shares.iter().filter(|(_, share)| share.is_gain());
            gaining.any(|(row, _)| budget(&session.rows, *row as usize) == 0)
        },
    },
];

/// How many accepted choices and finishes of mixed sessions are of each sort.
#[derive(Clone, Copy, Debug)]
pub struct MixedCalls {
    choices: u64,
    choice_counts: [u64; CHOICE_SORTS],
    finishes: u64,
    finish_counts: [u64; FINISHES.len()],
}

impl Default for MixedCalls {
    fn default() -> Self {
        MixedCalls {
            choices: 0,
            choice_counts: [0; CHOICE_SORTS],
            finishes: 0,
            finish_counts: [0; FINISHES.len()],
        }
    }
}

impl MixedCalls {
    /// Counts a choice with these words that this session accepts.
    pub fn add_choice(&mut self, session: &Session, words: &[u32]) {
        let Some(choice) = MixedChoice::new(session, words) else {
            return;
        };
        self.choices += 1;
        for (count, sort) in self.choice_counts.iter_mut().zip(choice_sorts()) {
            *count += u64::from((sort.has)(&choice));
        }
    }

    /// Counts a finish that this session accepts.
    pub fn add_finish(&mut self, session: &Session) {
        if session.kind != Kind::Mixed {
            return;
        }
        self.finishes += 1;
        let shares = shares(session);
        for (count, sort) in self.finish_counts.iter_mut().zip(&FINISHES) {
            *count += u64::from((sort.has)(session, &shares));
        }
    }

    fn merge(&mut self, other: &MixedCalls) {
        self.choices += other.choices;
        self.finishes += other.finishes;
        let sums = self.choice_counts.iter_mut().chain(&mut self.finish_counts);
        for (sum, count) in sums.zip(other.choice_counts.iter().chain(&other.finish_counts)) {
            *sum += count;
        }
    }

    /// Which sorts are too rare for a comparison that means something.
    pub fn gaps(&self, among: Among) -> Vec<String> {
        let choices = self.choice_counts.into_iter().zip(choice_sorts());
        let choices = choices.filter_map(|(count, sort)| {
            among.gap(count, sort.one_in, &format!("mixed choices {}", sort.name))
        });
        let finishes = self.finish_counts.into_iter().zip(&FINISHES);
        let finishes = finishes.filter_map(|(count, sort)| {
            among.gap(count, sort.one_in, &format!("mixed finishes {}", sort.name))
        });
        choices.chain(finishes).collect()
    }
}

impl fmt::Display for MixedCalls {
    fn fmt(&self, formatter: &mut fmt::Formatter) -> fmt::Result {
        let choices = self.choice_counts.iter().zip(choice_sorts());
        let choices = choices.map(|(count, sort)| format!("{count} {}", sort.name));
        let finishes = self.finish_counts.iter().zip(&FINISHES);
        let finishes = finishes.map(|(count, sort)| format!("{count} {}", sort.name));
        write!(
            formatter,
            "of {} choices of mixed sessions with a waiting job {}; of {} finishes of mixed sessions {}",
            self.choices,
            choices.collect::<Vec<_>>().join(", "),
            self.finishes,
            finishes.collect::<Vec<_>>().join(", ")
        )
    }
}

/// NOT the product's rule: performs a command, and then sets the budgets of brittle
/// rows.
fn wrong_execute_with(
    machine: &mut Machine,
    command: Command,
    set: fn(&Session, &mut Session, usize),
) -> Outcome {
    let before = machine.session.clone();
    let outcome = machine.execute(command);
    for row in brittle_rows(&before.rows) {
        set(&before, &mut machine.session, row);
    }
    outcome
}

/// NOT the product's rule: a job of a brittle row arrives with a budget, of one tick.
fn wrong_execute_with_arrival_budgets(machine: &mut Machine, command: Command) -> Outcome {
    wrong_execute_with(machine, command, |before, after, row| {
        let is_new = before.slots[row].next != after.slots[row].next;
        if let Some(job) = after.slots[row].job.as_mut().filter(|_| is_new) {
            job.budget = 1;
        }
    })
}

/// NOT the product's rule: a finish gives to jobs of brittle rows too.
fn wrong_execute_with_gifts_to_all(machine: &mut Machine, command: Command) -> Outcome {
    if command != Command::Finish {
        return machine.execute(command);
    }
    wrong_execute_with(machine, command, |before, after, row| {
        let limit = before.rows[row].spare();
        let finished = before.choice.and_then(|choice| before.job(choice.row));
        let job = after.slots[row].job.as_mut();
        if let (Some(finished), Some(job)) = (finished, job) {
            if job.due > finished.due {
                job.budget = (job.budget + finished.left as i64).min(limit);
            }
        }
    })
}

/// Performs a command by some rule.
type Execute = fn(&mut Machine, Command) -> Outcome;

/// What inputs of a mixed table show in an answer, of how many inputs there must be
/// one, and the wrong rule by which the answer would be another one.
const SHOWN: [(&str, u64, Execute); 3] = [
    (
        "that finishes give",
        100,
        wrong_execute_without_gifts as Execute,
    ),
    (
        "that a brittle row gains nothing",
        70,
        wrong_execute_with_gifts_to_all,
    ),
    (
        "that it arrives with no budget",
        20,
        wrong_execute_with_arrival_budgets,
    ),
];

/// What an input reached.
#[derive(Clone, Copy, Debug, Default)]
pub struct Mixed {
    calls: MixedCalls,
    pub shown: [bool; SHOWN.len()],
}

impl Mixed {
    /// Looks at a command that the machine is about to perform.
    pub fn watch(&mut self, machine: &Machine, command: Command) {
        let Machine { session, words } = machine;
        match command {
            Command::Choose if session.choice.is_none() => self.calls.add_choice(session, words),
            Command::Finish if session.choice.is_some_and(|choice| choice.row != IDLE) => {
                self.calls.add_finish(session)
            }
            _ => {}
        }
    }

    /// Looks at the output of the whole input, once all of it was watched.
    pub fn compare(&mut self, input: &[u8], output: &[u8]) {
        if self.calls.choices > 0 {
            self.shown = SHOWN.map(|(_, _, execute)| run_with(input, execute) != output);
        }
    }

    /// Whether some choice is of this sort.
    pub fn has(&self, name: &str) -> bool {
        let mut counts = self.calls.choice_counts.iter().zip(choice_sorts());
        counts.any(|(count, sort)| *count > 0 && sort.name == name)
    }
}

/// How many of all inputs reached what.
#[derive(Clone, Copy, Debug, Default)]
pub struct MixedTally {
    inputs: u64,
    tables: TableTally,
    calls: MixedCalls,
    shown: [u64; SHOWN.len()],
}

impl MixedTally {
    pub fn add(&mut self, input: &[u8], mixed: &Mixed) {
        self.inputs += 1;
        self.tables.add(&leading_rows(input));
        self.calls.merge(&mixed.calls);
        for (sum, shown) in self.shown.iter_mut().zip(mixed.shown) {
            *sum += u64::from(shown);
        }
    }

    pub fn merge(&mut self, other: MixedTally) {
        self.inputs += other.inputs;
        self.tables.merge(other.tables);
        self.calls.merge(&other.calls);
        for (sum, shown) in self.shown.iter_mut().zip(other.shown) {
            *sum += shown;
        }
    }

    /// Which of the counts are too low for a comparison that means something.
    pub fn gaps(&self) -> Vec<String> {
        let shown = self.shown.into_iter().zip(SHOWN);
        let shown = shown.filter_map(|(count, (name, one_in, _))| {
            let what = format!("inputs of a mixed table show {name}");
            Among::Inputs(self.inputs).gap(count, [one_in, 1], &what)
        });
        let mut gaps = self.tables.gaps();
        gaps.extend(self.calls.gaps(Among::Inputs(self.inputs)));
        gaps.extend(shown);
        gaps
    }
}

impl fmt::Display for MixedTally {
    fn fmt(&self, formatter: &mut fmt::Formatter) -> fmt::Result {
        let shown = self.shown.iter().zip(SHOWN);
        let shown = shown.map(|(count, (name, _, _))| format!("{count} {name}"));
        write!(
            formatter,
            "{}; {}; of the inputs of a mixed table an answer shows in {}",
            self.tables,
            self.calls,
            shown.collect::<Vec<_>>().join(", in ")
        )
    }
}

/// A session of any content, as a record may hold it. It is mixed, or its rows are.
struct Held<'a> {
    session: &'a Session,
    /// What its rows are admitted as.
    kind: Kind,
    is_sound: bool,
}

impl Held<'_> {
    /// Whether it is sound, and some waiting job such.
    fn has_job(&self, such: fn(&Session, usize, i64) -> bool) -> bool {
        let mut slots = self.session.slots.iter().enumerate();
        self.is_sound
            && slots.any(|(row, slot)| {
                slot.job
                    .is_some_and(|job| such(self.session, row, job.budget))
            })
    }

    /// Whether it is sound, and a job waits behind or before such a choice in force.
    fn has_choice(&self, such: fn(&Session, Choice) -> bool) -> bool {
        let choice = self.session.choice;
        self.is_sound
            && self.session.waiting().next().is_some()
            && choice.is_some_and(|choice| such(self.session, choice))
    }

    /// Whether it is unsound, and sound with this kind.
    fn lacks_kind(&self, kind: Kind) -> bool {
        let other = Session {
            kind,
            ..self.session.clone()
        };
        !self.is_sound && kind != self.session.kind && other.is_sound()
    }

    /// Whether it is unsound only since a brittle job, or one that is not, has a budget
    /// of one tick more than its limit.
    fn exceeds_by_one(&self, is_brittle: bool) -> bool {
        let is_mixed = [self.kind, self.session.kind] == [Kind::Mixed; 2];
        let mut rows = 0..self.session.slots.len();
        is_mixed
            && !self.is_sound
            && rows.any(|row| {
                let limit = self.session.budget_limit(row);
                let mut other = self.session.clone();
                let job = other.slots[row].job.as_mut();
                let is_above = job.is_some_and(|job| {
                    job.budget -= 1;
                    job.budget == limit
                });
                is_above && self.session.is_brittle(row) == is_brittle && other.is_sound()
            })
    }
}

/// A sort of such sessions: what they are, and of how many calls there must be one on
/// a record that holds one.
struct HeldSort {
    name: &'static str,
    one_in: u64,
    has: fn(&Held) -> bool,
}

const fn held(name: &'static str, one_in: u64, has: fn(&Held) -> bool) -> HeldSort {
    HeldSort { name, one_in, has }
}

const HELD: [HeldSort; 11] = [
    held("are sound and mixed", 20, |held| held.is_sound),
    held("have a waiting brittle job", 20, |held| {
        held.has_job(|session, row, _| session.is_brittle(row))
    }),
    held("have a budget at its limit above V", 100, |held| {
        held.has_job(|session, row, left| {
            left == session.budget_limit(row) && left > budget(&session.rows, row).max(0)
        })
    }),
    held("have idle in force though a job waits", 500, |held| {
        held.has_choice(|_, choice| choice.row == IDLE)
    }),
    held("have a job in force that is due too late", 600, |held| {
        held.has_choice(|session, choice| {
            let due = session.job(choice.row).map(|job| job.due);
            due > session.brittle_deadline() && session.in_order()[0] != choice.row
        })
    }),
    held("have a job in force that is due in time", 500, |held| {
        held.has_choice(|session, choice| {
            let due = session.job(choice.row).map(|job| job.due);
            due.is_some()
                && due <= session.brittle_deadline()
                && session.in_order()[0] != choice.row
        })
    }),
    held("are unsound by 1 tick of a brittle budget", 2_000, |held| {
        held.exceeds_by_one(true)
    }),
    held("are unsound by 1 tick of another one", 2_000, |held| {
        held.exceeds_by_one(false)
    }),
    held("are unsound, called loose", 2_000, |held| {
        held.session.kind == Kind::Loose && held.lacks_kind(Kind::Mixed)
    }),
    held("are unsound, called tight", 2_000, |held| {
        held.session.kind == Kind::Tight && held.lacks_kind(Kind::Mixed)
    }),
    held("are called mixed, but loose or tight", 2_000, |held| {
        held.lacks_kind(Kind::Loose) || held.lacks_kind(Kind::Tight)
    }),
];

/// How many calls are on records of each sort.
#[derive(Clone, Copy, Debug, Default)]
pub struct HeldTally {
    counts: [u64; HELD.len()],
}

impl HeldTally {
    /// Counts a call on a record that holds this session.
    pub fn add(&mut self, session: &Session, is_sound: bool) {
        let Ok(Opinion { kind, .. }) = opinion_on(&session.rows) else {
            return;
        };
        if kind != Kind::Mixed && session.kind != Kind::Mixed {
            return;
        }
        let held = Held {
            session,
            kind,
            is_sound,
        };
        for (count, sort) in self.counts.iter_mut().zip(&HELD) {
            *count += u64::from((sort.has)(&held));
        }
    }

    /// Which sorts are too rare among so many calls.
    pub fn gaps(&self, calls: u64) -> Vec<String> {
        let counts = self.counts.into_iter().zip(&HELD);
        let gaps = counts.filter_map(|(count, sort)| {
            let what = format!("calls are on records that {}", sort.name);
            Among::Calls(calls).gap(count, [1, sort.one_in], &what)
        });
        gaps.collect()
    }
}

impl fmt::Display for HeldTally {
    fn fmt(&self, formatter: &mut fmt::Formatter) -> fmt::Result {
        let counts = self.counts.iter().zip(&HELD);
        let counts = counts.map(|(count, sort)| format!("{count} {}", sort.name));
        write!(
            formatter,
            "of the records of all calls {}",
            counts.collect::<Vec<_>>().join(", ")
        )
    }
}
