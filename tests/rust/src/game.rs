//! The game of arrivals against the scheduler (§13.1), played out in every way: every set
//! of releases and every play, without a look at the demand.

use std::collections::HashMap;
use std::hash::{BuildHasherDefault, Hasher};

use crate::table::Row;

/// Most rows that are played out.
pub const MOST_ROWS: usize = 3;
/// Most ticks that are played out with a memory.
pub const MOST_TICKS: u64 = 12;

/// What the game knows of a row.
#[derive(Clone, Copy, Debug, Default, PartialEq, Eq)]
pub struct Slot {
    /// Its earliest next release.
    pub next: u64,
    /// The deadline of its last job.
    pub due: u64,
    /// How many ticks that job still has to run.
    pub left: u64,
}

impl Slot {
    pub fn waits(&self) -> bool {
        self.left > 0
    }
}

/// A state of the game; slots beyond the rows of the table stay empty.
#[derive(Clone, Copy, Debug, Default, PartialEq, Eq)]
pub struct State {
    pub clock: u64,
    pub slots: [Slot; MOST_ROWS],
}

/// A set of rows, one bit for each.
pub type Set = u8;

/// A play of the scheduler: the row whose job has the tick, or none.
pub type Play = Option<usize>;

/// The rules of the game: what may be misread of them. The comparison counts the inputs
/// that wrong ones would answer otherwise.
#[derive(Clone, Copy)]
pub struct Rules {
    /// From a release to the row's next one at the earliest.
    pub apart: fn(Row) -> u64,
    /// How many ticks a released job has to run.
    pub run: fn(Row) -> u64,
    /// Which sets arrivals may release, of the rows that are ready.
    pub may_release: fn(Set, Ready) -> bool,
    /// Which plays the scheduler may make, besides that the job waits.
    pub may_play: fn(&State, Play) -> bool,
    /// Whether a waiting job makes arrivals win at this clock.
    pub is_lost: fn(&Slot, u64) -> bool,
    /// Whether the scheduler sees the releases of a tick before it plays.
    pub sees: bool,
    /// How many ticks are played where N are asked for.
    pub ticks: fn(u64) -> u64,
}

/// The rows that may have a release, and how many rows there are.
#[derive(Clone, Copy)]
pub struct Ready {
    pub set: Set,
    pub rows: usize,
}

/// The rules of the specification.
pub const RULES: Rules = Rules {
    apart: |row| u64::from(row.period),
    run: |row| u64::from(row.run),
    may_release: |_, _| true,
    may_play: |_, _| true,
    is_lost: |job, clock| job.due <= clock,
    sees: true,
    ticks: |n| n,
};

impl State {
    /// The state after a release of these rows.
    pub fn released(mut self, rules: &Rules, rows: &[Row], set: Set) -> State {
        for (place, row) in rows.iter().enumerate() {
            if set >> place & 1 == 1 {
                self.slots[place] = Slot {
                    next: self.clock + (rules.apart)(*row),
                    due: self.clock + u64::from(row.deadline),
                    left: (rules.run)(*row),
                };
            }
        }
        self
    }

    /// The state after a play, before the clock rises.
    pub fn played(mut self, play: Play) -> State {
        if let Some(row) = play {
            self.slots[row].left -= 1;
        }
        self
    }

    pub fn risen(mut self) -> State {
        self.clock += 1;
        self
    }

    /// Whether arrivals have won.
    pub fn is_won(&self, rules: &Rules) -> bool {
        let mut waiting = self.slots.iter().filter(|slot| slot.waits());
        waiting.any(|slot| (rules.is_lost)(slot, self.clock))
    }

    /// The rows that may have a release now.
    fn ready(&self, rows: usize) -> Ready {
        let places = (0..rows).filter(|place| self.slots[*place].next <= self.clock);
        Ready {
            set: places.fold(0, |set, place| set | 1 << place),
            rows,
        }
    }
}

/// The plays of the scheduler in a state.
pub fn plays(rules: Rules, state: State) -> impl Iterator<Item = Play> {
    let waiting = (0..MOST_ROWS).filter(move |row| state.slots[*row].waits());
    let all = waiting.map(Some).chain([None]);
    all.filter(move |play| (rules.may_play)(&state, *play))
}

/// The sets that arrivals may release in a state of a table with so many rows.
pub fn releases(rules: Rules, state: State, rows: usize) -> impl Iterator<Item = Set> {
    let ready = state.ready(rows);
    let subsets = (0..1 << rows).filter(move |set| set & !ready.set == 0);
    subsets.filter(move |set| (rules.may_release)(*set, ready))
}

/// Answers by the key of a state.
type Known = HashMap<u64, bool, BuildHasherDefault<Mixer>>;

/// The game over a table.
pub struct Game {
    rules: Rules,
    rows: Vec<Row>,
    known: Option<Known>,
}

impl Game {
    /// The game with a memory of the states that it has seen.
    pub fn new(rules: Rules, rows: &[Row]) -> Self {
        Game {
            known: Some(Known::default()),
            ..Game::without_memory(rules, rows)
        }
    }

    pub fn without_memory(rules: Rules, rows: &[Row]) -> Self {
        assert!(rows.len() <= MOST_ROWS, "{} rows", rows.len());
        Game {
            rules,
            rows: rows.to_vec(),
            known: None,
        }
    }

    pub fn rows(&self) -> &[Row] {
        &self.rows
    }

    /// Whether arrivals can force a job unfinished at its deadline within n ticks from the
    /// beginning.
    pub fn forces(&mut self, n: u64) -> bool {
        self.forces_from(&State::default(), (self.rules.ticks)(n))
    }

    /// The same from any state.
    pub fn forces_from(&mut self, state: &State, n: u64) -> bool {
        if n == 0 {
            return false;
        }
        let Some(known) = &self.known else {
            return self.tries(state, n);
        };
        let key = key(state, self.rows.len(), n);
        if let Some(answer) = known.get(&key) {
            return *answer;
        }
        let answer = self.tries(state, n);
        if let Some(known) = &mut self.known {
            known.insert(key, answer);
        }
        answer
    }

    fn tries(&mut self, state: &State, n: u64) -> bool {
        if self.rules.sees {
            self.releases_then_plays(state, n)
        } else {
            self.plays_then_releases(state, n)
        }
    }

    /// Whether some release wins against every play.
    fn releases_then_plays(&mut self, state: &State, n: u64) -> bool {
        let rules = self.rules;
        releases(rules, *state, self.rows.len()).any(|set| {
            let released = state.released(&rules, &self.rows, set);
            plays(rules, released).all(|play| self.wins(released.played(play), n))
        })
    }

    /// NOT the product's rule: whether against every play, which sees no release of this
    /// tick, some release wins.
    fn plays_then_releases(&mut self, state: &State, n: u64) -> bool {
        let rules = self.rules;
        plays(rules, *state).all(|play| {
            let played = state.played(play);
            releases(rules, played, self.rows.len())
                .any(|set| self.wins(played.released(&rules, &self.rows, set), n))
        })
    }

    /// Whether arrivals win from a state whose tick is over but for the clock.
    fn wins(&mut self, played: State, n: u64) -> bool {
        let risen = played.risen();
        risen.is_won(&self.rules) || self.forces_from(&risen, n - 1)
    }
}

/// What of a state counts within n ticks. Only times from now on count, and one beyond n
/// ticks is as good as any other: such a row has no release any more, such a deadline does
/// not come, and a job with more to run than ticks are left is not finished.
fn key(state: &State, rows: usize, n: u64) -> u64 {
    assert!(n <= MOST_TICKS, "{n} ticks");
    let from_now = |time: u64| time.saturating_sub(state.clock);
    let of_slot = |slot: &Slot| {
        // The deadline of a job that is over does not count.
        let due = if slot.waits() { from_now(slot.due) } else { 0 };
        [from_now(slot.next), due, slot.left]
    };
    let numbers = state.slots[..rows].iter().flat_map(of_slot);
    numbers.fold(n, |key, number| key * 16 + number.min(n + 1))
}

/// A hash of one number; the keys are few, and made here.
#[derive(Default)]
struct Mixer(u64);

impl Hasher for Mixer {
    fn finish(&self) -> u64 {
        self.0
    }

    fn write(&mut self, _: &[u8]) {
        unreachable!("keys are numbers of 64 bits")
    }

    fn write_u64(&mut self, number: u64) {
        let mixed = (number ^ number >> 29).wrapping_mul(0x9e37_79b9_7f4a_7c15);
        self.0 = mixed ^ mixed >> 32;
    }
}

/// Whether arrivals can force a job of these rows unfinished at its deadline within n
/// ticks, by the rules of the specification.
pub fn forces(rows: &[Row], n: u64) -> bool {
    Game::new(RULES, rows).forces(n)
}

/// A release: the tick and the row.
#[derive(Clone, Copy, Debug, PartialEq, Eq, PartialOrd, Ord)]
pub struct Release {
    pub tick: u64,
    pub row: usize,
}

/// Whether these releases, whatever is played, are legal and leave a job unfinished at its
/// deadline within n ticks. Every play is tried.
pub fn line_wins(rows: &[Row], line: &[Release], n: u64) -> bool {
    let mut game = Line {
        rows,
        line,
        seen: HashMap::new(),
    };
    let in_time = line.iter().all(|release| release.tick < n);
    in_time && game.wins_from(&State::default(), n)
}

/// The game with a fixed line of releases.
struct Line<'a> {
    rows: &'a [Row],
    line: &'a [Release],
    /// By the clock and the ticks that each job still has to run; the line decides the
    /// other parts of a state.
    seen: HashMap<[u64; MOST_ROWS + 1], bool>,
}

impl Line<'_> {
    fn wins_from(&mut self, state: &State, n: u64) -> bool {
        if n == 0 {
            return false;
        }
        let [first, second, third] = state.slots.map(|slot| slot.left);
        let key = [state.clock, first, second, third];
        if let Some(answer) = self.seen.get(&key) {
            return *answer;
        }
        let answer = self.wins_after_release(state, n);
        self.seen.insert(key, answer);
        answer
    }

    fn wins_after_release(&mut self, state: &State, n: u64) -> bool {
        let Some(released) = self.released(state) else {
            return false;
        };
        plays(RULES, released).all(|play| {
            let risen = released.played(play).risen();
            risen.is_won(&RULES) || self.wins_from(&risen, n - 1)
        })
    }

    /// The state after the line's releases of this tick; none if one is not legal.
    fn released(&self, state: &State) -> Option<State> {
        let now = self.line.iter().filter(|each| each.tick == state.clock);
        let mut set = 0;
        for release in now {
            let ready = state.ready(self.rows.len()).set & !set;
            if ready >> release.row & 1 == 0 {
                return None;
            }
            set |= 1 << release.row;
        }
        Some(state.released(&RULES, self.rows, set))
    }
}
