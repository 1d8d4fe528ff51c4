//! The ledger (§6.1), in which each entry has its inversion ticks (§14.1). It is fed the calls
//! with their answers and looks into no session.

use crate::calls::Answer;
use crate::session::IDLE;
use crate::table::Row;
use crate::text::Command;

/// A job.
#[derive(Clone, Copy, Debug, PartialEq, Eq)]
pub struct Entry {
    pub row: usize,
    pub arrival: u64,
    /// Its deadline, arrival + D.
    pub due: u64,
    pub run: u64,
    pub end: Option<u64>,
    /// The ticks in which a job of strictly later deadline, or idle, ran while it waited.
    pub inversions: u64,
}

/// An advance that is about to be entered: the entry that runs, none if that is idle, and
/// for how many ticks.
#[derive(Clone, Copy, Debug)]
pub struct Step<'a> {
    pub running: Option<&'a Entry>,
    pub ticks: u64,
}

/// How the inversion ticks are counted, and what may be misread of it.
#[derive(Clone, Copy)]
pub struct Counting {
    /// The count of a new entry, from the entry before it of its row.
    pub first: fn(Option<&Entry>) -> u64,
    /// The places of the entries that a step may add to.
    pub open: fn(&Ledger) -> Vec<usize>,
    /// What a step adds to an entry.
    pub gain: fn(&Ledger, &Entry, &Step) -> u64,
    /// Whether an advance counts that is refused because no choice is in force.
    pub counts_refused: bool,
    /// Whether the ticks left of a choice count that an arrival drops.
    pub counts_dropped: bool,
}

/// The counting of the specification.
pub const COUNTING: Counting = Counting {
    first: |_| 0,
    open: |ledger| ledger.waiting.clone(),
    gain: |_, entry, step| match is_inversion(entry, step) {
        true => step.ticks,
        false => 0,
    },
    counts_refused: false,
    counts_dropped: false,
};

/// Whether idle runs, or a job of strictly later deadline than the entry's own.
pub fn is_inversion(entry: &Entry, step: &Step) -> bool {
    step.running.is_none_or(|running| running.due > entry.due)
}

/// What happened in a list of calls.
#[derive(Clone, Debug)]
pub struct Ledger {
    pub rows: Vec<Row>,
    pub clock: u64,
    /// The chosen row, 16 for idle and at first.
    pub chosen: u32,
    /// The ticks left of the choice, by the answers. No right count depends on them.
    pub left: u64,
    pub entries: Vec<Entry>,
    /// The places of the entries that have no end.
    pub waiting: Vec<usize>,
    /// The place of the latest entry of each row.
    latest: Vec<Option<usize>>,
}

impl Ledger {
    pub fn new(rows: &[Row]) -> Self {
        Ledger {
            rows: rows.to_vec(),
            clock: 0,
            chosen: IDLE,
            left: 0,
            entries: Vec::new(),
            waiting: Vec::new(),
            latest: vec![None; rows.len()],
        }
    }

    /// The place of the latest entry of a row; none if it has no entry, and for idle.
    pub fn latest(&self, row: u32) -> Option<usize> {
        *self.latest.get(row as usize)?
    }

    /// The entry that runs in an advance; none for idle.
    pub fn running(&self) -> Option<&Entry> {
        self.latest(self.chosen).map(|place| &self.entries[place])
    }

    /// The entries that have no end.
    pub fn waiting(&self) -> impl Iterator<Item = &Entry> {
        self.waiting.iter().map(|place| &self.entries[*place])
    }

    /// The places of the entries that have no end, row by row.
    pub fn waiting_by_row(&self) -> Vec<usize> {
        let mut places = self.waiting.clone();
        places.sort_by_key(|place| self.entries[*place].row);
        places
    }

    /// Enters a call with its answer. Gives the place of the entry that it ends, if any.
    pub fn enter(
        &mut self,
        counting: &Counting,
        command: Command,
        answer: &Answer,
    ) -> Option<usize> {
        let [first, second] = answer.values;
        match command {
            Command::Advance(ticks) if answer.number == 9 && counting.counts_refused => {
                self.count(counting, u64::from(ticks));
                None
            }
            _ if answer.number != 0 => None,
            Command::Arrive(row) => {
                self.arrive(counting, row as usize);
                None
            }
            Command::Choose => {
                self.chosen = first as u32;
                self.left = second;
                None
            }
            Command::Advance(ticks) => {
                self.left = first;
                self.advance(counting, u64::from(ticks))
            }
            Command::Finish => {
                self.left = 0;
                let place = self.latest(self.chosen)?;
                self.end(place);
                Some(place)
            }
            Command::Row(_) | Command::Word(_) => None,
        }
    }

    fn arrive(&mut self, counting: &Counting, row: usize) {
        if counting.counts_dropped && self.left > 0 {
            self.count(counting, self.left);
        }
        self.left = 0;
        let last = self.latest[row].map(|place| &self.entries[place]);
        let place = self.entries.len();
        let entry = Entry {
            row,
            arrival: self.clock,
            due: self.clock + u64::from(self.rows[row].deadline),
            run: 0,
            end: None,
            inversions: (counting.first)(last),
        };
        self.entries.push(entry);
        self.waiting.push(place);
        self.latest[row] = Some(place);
    }

    /// The counts go by the entries and the chosen row before the advance.
    fn advance(&mut self, counting: &Counting, ticks: u64) -> Option<usize> {
        self.count(counting, ticks);
        self.clock += ticks;
        let place = self.latest(self.chosen)?;
        let entry = &mut self.entries[place];
        entry.run += ticks;
        if entry.run < u64::from(self.rows[entry.row].run) {
            return None;
        }
        self.end(place);
        Some(place)
    }

    fn end(&mut self, place: usize) {
        self.entries[place].end = Some(self.clock);
        self.waiting.retain(|waiting| *waiting != place);
    }

    fn count(&mut self, counting: &Counting, ticks: u64) {
        let step = Step {
            running: self.running(),
            ticks,
        };
        let gains: Vec<(usize, u64)> = (counting.open)(self)
            .into_iter()
            .map(|place| (place, (counting.gain)(self, &self.entries[place], &step)))
            .collect();
        for (place, gain) in gains {
            self.entries[place].inversions += gain;
        }
    }
}
