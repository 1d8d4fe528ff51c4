//! Choices on which arrival decides between equal deadlines against the row
//! number: for the tools, which count how often they reach one, and how often
//! the answer shows it.

use std::fmt;

use crate::calls::{candidates, candidates_among, pick};
use crate::session::Session;
use crate::tally::too_rare;
use crate::text::{Command, Machine};

/// Of all inputs, one in so many must reach such a choice.
const REACHING: u64 = 10;
/// Of all inputs, one in so many must show it in an answer.
const SHOWING: u64 = 20;

/// The waiting rows that share a deadline with another one, of which the later
/// row arrived strictly earlier.
pub fn tied_rows(session: &Session) -> Vec<u32> {
    let waiting = session.in_order();
    let is_tied = |row: &u32| {
        let mut others = waiting.iter();
        others.any(|other| is_against_row_number(session, *row, *other))
    };
    waiting.iter().copied().filter(is_tied).collect()
}

/// Whether two waiting rows have one deadline and the later row arrived first.
fn is_against_row_number(session: &Session, one: u32, other: u32) -> bool {
    let [low, high] = [one.min(other), one.max(other)];
    let due = |row| session.job(row).map(|job| job.due);
    due(low) == due(high) && session.arrival(high) < session.arrival(low)
}

/// NOT the product's order: by deadline and row number alone.
fn wrong_order_without_arrivals(session: &Session) -> Vec<u32> {
    let mut waiting = session.in_order();
    waiting.sort_unstable_by_key(|row| (session.job(*row).map(|job| job.due), *row));
    waiting
}

/// Whether the order that leaves arrivals out would give another row or span
/// for a choice with these words.
pub fn is_shown(session: &Session, words: &[u32]) -> bool {
    let wrong = candidates_among(session, wrong_order_without_arrivals(session));
    let [(choice, _), (wrong_choice, _)] =
        [candidates(session), wrong].map(|candidates| pick(session, &candidates, words));
    choice != wrong_choice
}

/// What an input reached.
#[derive(Clone, Copy, Debug, Default, PartialEq, Eq)]
pub struct Ties {
    /// An accepted choice with such a tie.
    pub reached: bool,
    /// One of these whose answer shows it.
    pub shown: bool,
}

impl Ties {
    /// Looks at a command that the machine is about to perform.
    pub fn watch(&mut self, machine: &Machine, command: Command) {
        let Machine { session, words } = machine;
        let is_accepted = command == Command::Choose && session.choice.is_none();
        if is_accepted && !tied_rows(session).is_empty() {
            self.reached = true;
            self.shown |= is_shown(session, words);
        }
    }
}

/// How many of all inputs reached what.
#[derive(Clone, Copy, Debug, Default)]
pub struct TieTally {
    inputs: u64,
    reached: u64,
    shown: u64,
}

impl TieTally {
    pub fn add(&mut self, ties: Ties) {
        self.inputs += 1;
        self.reached += u64::from(ties.reached);
        self.shown += u64::from(ties.shown);
    }

    pub fn merge(&mut self, other: TieTally) {
        self.inputs += other.inputs;
        self.reached += other.reached;
        self.shown += other.shown;
    }

    /// Which of the counts are too low for a comparison that means something.
    pub fn gaps(&self) -> Vec<String> {
        let counts = [
            (self.reached, REACHING, "have a tie that arrival decides"),
            (self.shown, SHOWING, "show such a tie in an answer"),
        ];
        too_rare(self.inputs, &counts)
    }
}

impl fmt::Display for TieTally {
    fn fmt(&self, formatter: &mut fmt::Formatter) -> fmt::Result {
        write!(
            formatter,
            "arrival decides a tie against the row number in {} inputs, \
            and {} of them show it in an answer",
            self.reached, self.shown
        )
    }
}

/// Accepted choices with such a tie.
#[derive(Clone, Copy, Debug, Default)]
pub struct TiedChoices {
    reached: u64,
    /// Those in which a tied job arrived before tick 0.
    below_zero: u64,
    /// Those that deadline and row number alone would answer otherwise.
    shown: u64,
}

impl TiedChoices {
    /// Counts a choice with these words that this session accepts.
    pub fn add(&mut self, session: &Session, words: &[u32]) {
        let rows = tied_rows(session);
        let arrivals = rows.iter().filter_map(|row| session.arrival(*row));
        let is_below_zero = arrivals.min().is_some_and(|first| first < 0);
        self.reached += u64::from(!rows.is_empty());
        self.below_zero += u64::from(is_below_zero);
        self.shown += u64::from(!rows.is_empty() && is_shown(session, words));
    }

    /// What was never reached.
    pub fn gaps(&self) -> Vec<String> {
        let counts = [
            (self.reached, "a tie that arrival decides"),
            (self.below_zero, "one with an arrival below 0"),
            (self.shown, "one that the answer shows"),
        ];
        let gaps = counts.into_iter().filter(|(count, _)| *count == 0);
        gaps.map(|(_, name)| format!("{name} was never reached"))
            .collect()
    }
}

impl fmt::Display for TiedChoices {
    fn fmt(&self, formatter: &mut fmt::Formatter) -> fmt::Result {
        write!(
            formatter,
            "arrival decides a tie against the row number in {} choices, {} of them with an \
            arrival below 0, and {} show it in the answer",
            self.reached, self.below_zero, self.shown
        )
    }
}
