//! Counts the calls of a plain depth-first search of the game, which keeps nothing of the
//! states that it has seen.
//!
//! Arrivals decide row by row, from the last to the first, and try a release before none.
//! The scheduler tries the job of the earliest deadline first (of equal ones the one of
//! the lowest row), then the other jobs by row, then to idle. Each side stops at the first
//! move that wins for it.

use crate::game::{State, MOST_ROWS, RULES};
use crate::table::Row;

/// Calls by what is decided.
#[derive(Clone, Copy, Debug, Default, PartialEq, Eq)]
pub struct Nodes {
    /// One for each row and tick, and one more where each row of a tick is decided.
    pub arrivals: u64,
    /// One for each tick of the scheduler.
    pub scheduler: u64,
    /// One for each of its moves that is tried.
    pub moves: u64,
}

impl Nodes {
    pub fn sum(&self) -> u64 {
        self.arrivals + self.scheduler + self.moves
    }
}

/// The search over a table of up to three rows.
pub struct Counting<'a> {
    rows: &'a [Row],
    pub nodes: Nodes,
}

/// Whether arrivals can force it within n ticks, and the calls that it takes to say so.
pub fn count(rows: &[Row], n: u64) -> (bool, Nodes) {
    let mut counting = Counting {
        rows,
        nodes: Nodes::default(),
    };
    let forced = n > 0 && counting.arrive(&State::default(), rows.len(), n);
    (forced, counting.nodes)
}

impl Counting<'_> {
    /// Arrivals decide about the rows below `undecided`, then the scheduler plays.
    fn arrive(&mut self, state: &State, undecided: usize, n: u64) -> bool {
        self.nodes.arrivals += 1;
        let Some(row) = undecided.checked_sub(1) else {
            return self.schedule(state, n);
        };
        let is_ready = state.slots[row].next <= state.clock;
        if is_ready && self.arrive(&state.released(&RULES, self.rows, 1 << row), row, n) {
            return true;
        }
        self.arrive(state, row, n)
    }

    /// Whether every move of the scheduler loses.
    fn schedule(&mut self, state: &State, n: u64) -> bool {
        self.nodes.scheduler += 1;
        let waiting = || (0..MOST_ROWS).filter(|row| state.slots[*row].waits());
        let first = waiting().min_by_key(|row| state.slots[*row].due);
        let others = waiting().filter(|row| Some(*row) != first).map(Some);
        let idle = first.is_some().then_some(None);
        let mut moves = [first].into_iter().chain(others).chain(idle);
        moves.all(|play| self.play(state.played(play), n))
    }

    /// Whether arrivals win after a move.
    fn play(&mut self, state: State, n: u64) -> bool {
        self.nodes.moves += 1;
        let risen = state.risen();
        risen.is_won(&RULES) || (n > 1 && self.arrive(&risen, self.rows.len(), n - 1))
    }
}
