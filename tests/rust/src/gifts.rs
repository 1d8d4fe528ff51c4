//! Finishes and what they give to other jobs: for the tools, which count how
//! often they reach one that gives, and how often an answer shows it.

use std::cmp::Ordering;
use std::collections::HashSet;
use std::fmt;

use crate::session::{Job, Session};
use crate::table::Kind;
use crate::tally::too_rare;
use crate::text::{run_with, Command, Machine, Outcome};

/// Of all inputs, one in so many must have a finish that gives.
const GIVING: u64 = 8;
/// Of all inputs, one in so many must have a job that gains more than once.
const SEVERAL: u64 = 15;
/// Of all inputs, one in so many must show a gain in an answer.
const SHOWING: u64 = 15;
/// Of all inputs, one in so many must have a finish at which a waiting job of
/// equal deadline gains nothing.
const EQUAL: u64 = 20;
/// Of all inputs, one in so many must have a finish of a tight session at which
/// a waiting job of later deadline gains nothing.
const TIGHT: u64 = 20;
/// Of all inputs, one in so many must have a finish of a mixed session at which a
/// waiting job of later deadline gains nothing, since its row is brittle.
const BRITTLE: u64 = 20;

/// What a finish gives to another waiting job, and why not more.
#[derive(Clone, Copy, Debug, PartialEq, Eq)]
pub enum Share {
    /// All of the unused ticks.
    Whole,
    /// As many as its D − C leaves room for: some, but not all.
    Part,
    /// None, since its budget is D − C already.
    Full,
    /// None, since its deadline is earlier than that of the finished job.
    Earlier,
    /// None, since the two have one deadline.
    Equal,
    /// None, since the session is tight; its deadline is later.
    Tight,
    /// None, since the session is mixed and its row brittle; its deadline is later.
    Brittle,
}

impl Share {
    pub fn is_gain(self) -> bool {
        matches!(self, Share::Whole | Share::Part)
    }
}

/// The rows of the other waiting jobs, each with its share of a finish that
/// came now; none if it were refused.
pub fn shares(session: &Session) -> Vec<(u32, Share)> {
    let Some(choice) = session.choice else {
        return Vec::new();
    };
    let Some(finished) = session.job(choice.row) else {
        return Vec::new();
    };
    (0..session.slots.len() as u32)
        .filter(|row| *row != choice.row)
        .filter_map(|row| Some((row, share_of(session, finished, row)?)))
        .collect()
}

fn share_of(session: &Session, finished: &Job, row: u32) -> Option<Share> {
    let job = session.job(row)?;
    let room = session.budget_limit(row as usize) - job.budget;
    Some(match job.due.cmp(&finished.due) {
        Ordering::Less => Share::Earlier,
        Ordering::Equal => Share::Equal,
        Ordering::Greater if session.kind == Kind::Tight => Share::Tight,
        Ordering::Greater if session.is_brittle(row as usize) => Share::Brittle,
        Ordering::Greater if room == 0 => Share::Full,
        Ordering::Greater if room < finished.left as i64 => Share::Part,
        Ordering::Greater => Share::Whole,
    })
}

/// NOT the product's rule: performs a command, but a finish gives nothing.
pub fn wrong_execute_without_gifts(machine: &mut Machine, command: Command) -> Outcome {
    if command != Command::Finish {
        return machine.execute(command);
    }
    let before = machine.session.slots.clone();
    let outcome = machine.execute(command);
    for (slot, before) in machine.session.slots.iter_mut().zip(before) {
        if let (Some(job), Some(before)) = (&mut slot.job, before.job) {
            job.budget = before.budget;
        }
    }
    outcome
}

/// What an input reached.
#[derive(Clone, Debug, Default)]
pub struct Gifts {
    /// Some finish gave something.
    pub given: bool,
    /// Some job gained at more than one finish.
    pub several: bool,
    /// Some answer would be another one if finishes gave nothing.
    pub shown: bool,
    /// At some finish a job of equal deadline gained nothing.
    pub equal: bool,
    /// At some finish of a tight session a later job gained nothing.
    pub tight: bool,
    /// At some finish of a mixed session a later job of a brittle row gained nothing.
    pub brittle: bool,
    /// The jobs that gained so far, each by its row and deadline.
    gaining: HashSet<(u32, u64)>,
}

impl Gifts {
    /// Looks at a command that the machine is about to perform.
    pub fn watch(&mut self, machine: &Machine, command: Command) {
        if command != Command::Finish {
            return;
        }
        let session = &machine.session;
        for (row, share) in shares(session) {
            self.equal |= share == Share::Equal;
            self.tight |= share == Share::Tight;
            self.brittle |= share == Share::Brittle;
            if let Some(job) = session.job(row).filter(|_| share.is_gain()) {
                self.given = true;
                self.several |= !self.gaining.insert((row, job.due));
            }
        }
    }

    /// Looks at the output of the whole input, once all of it was watched.
    pub fn compare(&mut self, input: &[u8], output: &[u8]) {
        self.shown = self.given && run_with(input, wrong_execute_without_gifts) != output;
    }
}

/// How many of all inputs reached what.
#[derive(Clone, Copy, Debug, Default)]
pub struct GiftTally {
    inputs: u64,
    given: u64,
    several: u64,
    shown: u64,
    equal: u64,
    tight: u64,
    brittle: u64,
}

impl GiftTally {
    pub fn add(&mut self, gifts: &Gifts) {
        self.inputs += 1;
        self.given += u64::from(gifts.given);
        self.several += u64::from(gifts.several);
        self.shown += u64::from(gifts.shown);
        self.equal += u64::from(gifts.equal);
        self.tight += u64::from(gifts.tight);
        self.brittle += u64::from(gifts.brittle);
    }

    pub fn merge(&mut self, other: GiftTally) {
        self.inputs += other.inputs;
        self.given += other.given;
        self.several += other.several;
        self.shown += other.shown;
        self.equal += other.equal;
        self.tight += other.tight;
        self.brittle += other.brittle;
    }

    /// Which of the counts are too low for a comparison that means something.
    pub fn gaps(&self) -> Vec<String> {
        let counts = [
            (self.given, GIVING, "have a finish that gives"),
            (self.several, SEVERAL, "have a job that gains twice"),
            (self.shown, SHOWING, "show a gain in an answer"),
            (self.equal, EQUAL, "finish beside an equal deadline"),
            (self.tight, TIGHT, "finish before a later job when tight"),
            (self.brittle, BRITTLE, "finish before a later brittle job"),
        ];
        too_rare(self.inputs, &counts)
    }
}

impl fmt::Display for GiftTally {
    fn fmt(&self, formatter: &mut fmt::Formatter) -> fmt::Result {
        write!(
            formatter,
            "a finish gives to a later job in {} inputs, in {} of them more than once to one job, \
            and {} show it in an answer; a job gains nothing in {} inputs since its deadline is \
            equal, in {} since the session is tight, in {} since its row is brittle",
            self.given, self.several, self.shown, self.equal, self.tight, self.brittle
        )
    }
}

/// A sort of accepted finishes: what they do, the shares of which each has at
/// least one, and of how many calls one must be of this sort.
struct Sort {
    name: &'static str,
    shares: &'static [Share],
    one_in: u64,
}

const fn sort(name: &'static str, shares: &'static [Share], one_in: u64) -> Sort {
    Sort {
        name,
        shares,
        one_in,
    }
}

const SORTS: [Sort; 7] = [
    sort("give to some job", &[Share::Whole, Share::Part], 400),
    sort("give a part up to the limit", &[Share::Part], 10_000),
    sort("give nothing at the limit", &[Share::Full], 2_500),
    sort("give nothing to an earlier job", &[Share::Earlier], 1_500),
    sort("give nothing to an equal deadline", &[Share::Equal], 400),
    sort("give nothing since it is tight", &[Share::Tight], 2_000),
    sort("give nothing to a brittle row", &[Share::Brittle], 400),
];

/// How many accepted finishes are of each sort.
#[derive(Clone, Copy, Debug, Default)]
pub struct FinishTally {
    finishes: u64,
    counts: [u64; SORTS.len()],
}

impl FinishTally {
    /// Counts a finish that this session accepts.
    pub fn add(&mut self, session: &Session) {
        self.finishes += 1;
        let shares = shares(session);
        for (count, sort) in self.counts.iter_mut().zip(&SORTS) {
            let mut shares = shares.iter();
            *count += u64::from(shares.any(|(_, share)| sort.shares.contains(share)));
        }
    }

    /// Which sorts are too rare among so many calls.
    pub fn gaps(&self, calls: u64) -> Vec<String> {
        let counts = self.counts.into_iter().zip(&SORTS);
        counts
            .filter(|(count, sort)| count * sort.one_in < calls)
            .map(|(count, Sort { name, one_in, .. })| {
                format!("{count} finishes {name} (fewer than one in {one_in} calls)")
            })
            .collect()
    }
}

impl fmt::Display for FinishTally {
    fn fmt(&self, formatter: &mut fmt::Formatter) -> fmt::Result {
        write!(formatter, "of {} accepted finishes", self.finishes)?;
        for (place, (count, Sort { name, .. })) in self.counts.iter().zip(&SORTS).enumerate() {
            let comma = if place == 0 { "" } else { "," };
            write!(formatter, "{comma} {count} {name}")?;
        }
        Ok(())
    }
}
