//! The program `planner` as a function from input bytes to output bytes (§14.4), with the cost
//! of a tick (§14.2), what must go of an overloaded table (§14.3) and the bound of a job
//! (§14.1).

use std::io::Write;

use crate::calls::Answer;
use crate::contest::lines;
use crate::ledger::{Counting, Entry, Ledger, COUNTING};
use crate::session::Session;
use crate::table::{demand, opinion_on, Opinion, Refusal, Row};
use crate::text::{
    leading_rows, print, print_opinion, print_unreadable, read_line, Command, Machine, Outcome,
    INPUT_LIMIT,
};

/// How much one tick more in C of row j lowers V of row i.
pub fn cost(rows: &[Row], i: usize, j: usize) -> u64 {
    if i == j {
        return 1;
    }
    u64::from(rows[i].deadline.div_ceil(rows[j].period))
}

/// How many jobs of a row the demand at t counts.
pub fn jobs_by(row: &Row, t: u64) -> u64 {
    match t.checked_sub(u64::from(row.deadline)) {
        None => 0,
        Some(rest) => rest / u64::from(row.period) + 1,
    }
}

/// What C of row i alone must lose, at least, for the demand at t to be t or less, where it
/// is above; 0 if that can't be.
pub fn cut(rows: &[Row], t: u64, i: usize) -> u64 {
    let excess = demand(rows, t) - t;
    let jobs = jobs_by(&rows[i], t);
    if jobs == 0 {
        return 0;
    }
    let least = excess.div_ceil(jobs);
    match least < u64::from(rows[i].run) {
        true => least,
        false => 0,
    }
}

/// A job with what its bound depends on.
pub struct Job<'a> {
    pub entry: &'a Entry,
    pub row: Row,
    pub v: i64,
    /// The budget with which it arrived. The bound does not depend on it.
    pub granted: i64,
}

/// The bound of a job: arrival + D − V + its inversion ticks.
pub fn bound(job: &Job) -> i64 {
    let Entry {
        arrival,
        inversions,
        ..
    } = job.entry;
    *arrival as i64 + i64::from(job.row.deadline) - job.v + *inversions as i64
}

/// What is read of an input after the table.
#[derive(Clone, Copy, Debug)]
pub enum Event {
    /// A call with its answer, and the budget of the job that it lets arrive, if it does.
    Called(Command, Answer, i64),
    /// An unreadable line, by its number.
    Unreadable(u64),
}

/// What an input says, and how its calls are answered.
#[derive(Clone, Debug)]
pub struct Transcript {
    pub rows: Vec<Row>,
    pub opinion: Result<Opinion, Refusal>,
    pub events: Vec<Event>,
}

impl Transcript {
    /// Reads the input up to a limit of bytes; the right way does not go on after an
    /// unreadable line.
    pub fn read(input: &[u8], limit: usize, goes_on: bool) -> Self {
        let rows = leading_rows(input);
        let opinion = opinion_on(&rows);
        let mut events = Vec::new();
        if let Ok(opinion) = &opinion {
            let mut machine = Machine::new(Session::fresh(rows.clone(), opinion));
            for (line, number) in lines(input, limit).zip(1..).skip(rows.len()) {
                let event = event(&mut machine, line, number);
                events.extend(event);
                if matches!(event, Some(Event::Unreadable(_))) && !goes_on {
                    break;
                }
            }
        }
        Transcript {
            rows,
            opinion,
            events,
        }
    }

    /// The transcript by the specification.
    pub fn of(input: &[u8]) -> Self {
        Transcript::read(input, RIGHT.limit, RIGHT.goes_on)
    }
}

/// What a line leads to; nothing if it queues a word.
fn event(machine: &mut Machine, line: &[u8], number: u64) -> Option<Event> {
    let Some(command) = read_line(line) else {
        return Some(Event::Unreadable(number));
    };
    match machine.execute(command) {
        Outcome::Silent => None,
        Outcome::Unreadable => Some(Event::Unreadable(number)),
        Outcome::Answered(_, answer) => {
            let arrived = match command {
                Command::Arrive(row) => machine.session.job(row),
                _ => None,
            };
            let granted = arrived.map_or(0, |job| job.budget);
            Some(Event::Called(command, answer, granted))
        }
    }
}

/// Where the lines `P` stand if there is a line `?`.
#[derive(Clone, Copy, Debug, PartialEq, Eq)]
pub enum Placed {
    Behind,
    Before,
    Nowhere,
}

/// The program: what may be misread of it. The comparison counts the inputs on which a wrong
/// way would print another output.
#[derive(Clone, Copy)]
pub struct Way {
    /// How many bytes are read, and whether reading goes on after an unreadable line.
    pub limit: usize,
    pub goes_on: bool,
    pub cost: fn(&[Row], usize, usize) -> u64,
    /// Whether there is a line `S` for these rows i and j.
    pub has_cost: fn(&[Row], usize, usize) -> bool,
    /// Whether lines `S` come by j first.
    pub is_by_column: bool,
    /// Whether lines `L` follow a refusal of this number.
    pub has_cuts: fn(u32) -> bool,
    pub cut: fn(&[Row], u64, usize) -> u64,
    pub counting: Counting,
    pub bound: fn(&Job) -> i64,
    /// The place of the job whose line `E` a call prints; given are the ledger after the
    /// call and the place of the job that it ended.
    pub ended: fn(&Ledger, Command, &Answer, Option<usize>) -> Option<usize>,
    /// The clock of a line `E`, from those before and after the call.
    pub end_clock: fn(u64, u64) -> u64,
    /// The places of the jobs that have a line `P`.
    pub waiting: fn(&Ledger) -> Vec<usize>,
    pub placed: Placed,
}

/// The way of the specification.
pub const RIGHT: Way = Way {
    limit: INPUT_LIMIT,
    goes_on: false,
    cost,
    has_cost: |rows, _, j| rows[j].run < rows[j].deadline,
    is_by_column: false,
    has_cuts: |number| number == 3,
    cut,
    counting: COUNTING,
    bound,
    ended: |_, _, _, place| place,
    end_clock: |_, after| after,
    waiting: Ledger::waiting_by_row,
    placed: Placed::Behind,
};

/// Writes the output of a table that is admitted, from its calls on.
struct Printer<'a> {
    way: &'a Way,
    budgets: &'a [i64],
    ledger: Ledger,
    /// The budget with which each entry arrived.
    granted: Vec<i64>,
    output: Vec<u8>,
}

impl Printer<'_> {
    fn costs(&mut self) {
        let rows = &self.ledger.rows;
        let all = 0..rows.len();
        let pairs = all
            .clone()
            .flat_map(|one| all.clone().map(move |other| (one, other)));
        for (one, other) in pairs {
            let (i, j) = match self.way.is_by_column {
                true => (other, one),
                false => (one, other),
            };
            if (self.way.has_cost)(rows, i, j) {
                let cost = (self.way.cost)(rows, i, j);
                writeln!(self.output, "0\tS\t0\t{i}\t{j}\t{cost}").expect("writing to memory");
            }
        }
    }

    fn call(&mut self, command: Command, answer: &Answer, granted: i64) {
        let before = self.ledger.clock;
        let ended = self.ledger.enter(&self.way.counting, command, answer);
        if self.granted.len() < self.ledger.entries.len() {
            self.granted.push(granted);
        }
        if let Some(place) = (self.way.ended)(&self.ledger, command, answer, ended) {
            let clock = (self.way.end_clock)(before, self.ledger.clock);
            self.job(clock, 'E', place);
        }
    }

    /// The line `E` or `P` of a job.
    fn job(&mut self, clock: u64, letter: char, place: usize) {
        let entry = &self.ledger.entries[place];
        let bound = (self.way.bound)(&Job {
            entry,
            row: self.ledger.rows[entry.row],
            v: self.budgets[entry.row],
            granted: self.granted[place],
        });
        let Entry {
            row,
            arrival,
            inversions,
            ..
        } = entry;
        writeln!(
            self.output,
            "{clock}\t{letter}\t0\t{row}\t{arrival}\t{bound}\t{inversions}"
        )
        .expect("writing to memory");
    }

    fn waiting(&mut self) {
        let clock = self.ledger.clock;
        for place in (self.way.waiting)(&self.ledger) {
            self.job(clock, 'P', place);
        }
    }

    fn unreadable(&mut self, number: u64) {
        if self.way.placed == Placed::Before {
            self.waiting();
        }
        print_unreadable(&mut self.output, self.ledger.clock, number);
    }

    /// The lines after those of the opinion. `watch` sees the ledger before each event.
    fn events(&mut self, events: &[Event], mut watch: impl FnMut(&Ledger, &Event)) {
        let mut is_spoiled = false;
        for event in events {
            watch(&self.ledger, event);
            match event {
                Event::Called(command, answer, granted) => self.call(*command, answer, *granted),
                Event::Unreadable(number) => {
                    is_spoiled = true;
                    self.unreadable(*number);
                }
            }
        }
        if !is_spoiled || self.way.placed == Placed::Behind {
            self.waiting();
        }
    }
}

/// The lines `L` of a refused table. With a refusal other than 3 they are a wrong way's, and
/// nothing has to go.
fn print_cuts(way: &Way, rows: &[Row], refusal: &Refusal, output: &mut Vec<u8>) {
    for row in 0..rows.len() {
        let cut = match refusal.number {
            3 => (way.cut)(rows, refusal.values[0], row),
            _ => 0,
        };
        print(output, 0, 'L', 0, row, cut);
    }
}

/// What a run leads to: its output, and its ledger at the end. A refused table has an empty
/// ledger.
pub struct Planned {
    pub output: Vec<u8>,
    pub ledger: Ledger,
}

/// The output for a transcript, by a way; `watch` sees each event, and the ledger before it.
pub fn plan_watched(
    way: &Way,
    transcript: &Transcript,
    watch: impl FnMut(&Ledger, &Event),
) -> Planned {
    let Transcript {
        rows,
        opinion,
        events,
    } = transcript;
    let mut output = Vec::new();
    print_opinion(&mut output, opinion);
    let ledger = Ledger::new(rows);
    match opinion {
        Err(refusal) => {
            if (way.has_cuts)(refusal.number) {
                print_cuts(way, rows, refusal, &mut output);
            }
            Planned { output, ledger }
        }
        Ok(opinion) => {
            let mut printer = Printer {
                way,
                budgets: &opinion.budgets,
                ledger,
                granted: Vec::new(),
                output,
            };
            printer.costs();
            printer.events(events, watch);
            Planned {
                output: printer.output,
                ledger: printer.ledger,
            }
        }
    }
}

/// The output for an input.
pub fn run(input: &[u8]) -> Vec<u8> {
    plan_watched(&RIGHT, &Transcript::of(input), |_, _| ()).output
}
