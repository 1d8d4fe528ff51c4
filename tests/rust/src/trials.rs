//! A repeatable heavy load, as docs/WORKLOAD.md has it: from a seed to its trial, which is
//! 500 lines for `shuffle`; and the program `load` as a function from input bytes to
//! output bytes.

use std::iter::{from_fn, successors};

use crate::session::{start_rows, Choice, Session};
use crate::table::Row;
use crate::text::{read_number, Command, Machine};

/// How many bytes of input are read. A seed has ten digits at most, and its newline makes
/// eleven bytes; so the twelfth is one too many, whatever it is and whatever follows.
pub const INPUT_LIMIT: usize = 12;

/// The way from a seed to its trial: what may be misread of it. The comparison counts the
/// seeds of which a wrong one would make another trial.
#[derive(Clone, Copy)]
pub struct Way {
    /// The number after another.
    pub next: fn(u32) -> u32,
    /// How many of the seed and the numbers after it come before the first word.
    pub skipped: usize,
    /// The table of a seed.
    pub table: fn(u32) -> Vec<Row>,
    /// How many lines there are in all.
    pub lines: usize,
    /// Which of the rows that may arrive now does.
    pub arriving: fn(&[u32]) -> Option<u32>,
    /// How many ticks of the choice in force a step takes.
    pub ticks: fn(&Session, Choice) -> u64,
    /// Whether a choice comes next, where none is in force and no row may arrive.
    pub chooses: fn(&State) -> bool,
}

/// The way of the document.
pub const RIGHT: Way = Way {
    next,
    skipped: 1,
    table,
    lines: 500,
    arriving: |rows| rows.first().copied(),
    ticks: |session, choice| choice.left.min(session.next_arrival() - session.clock),
    chooses: |state| state.queued > 0,
};

pub const FACTOR: u64 = 1_664_525;
pub const INCREMENT: u64 = 1_013_904_223;
pub const MODULUS: u64 = 4_294_967_296;

/// The number after another.
pub fn next(number: u32) -> u32 {
    ((FACTOR * u64::from(number) + INCREMENT) % MODULUS) as u32
}

/// The words of a trial: the numbers of its seed, without end.
pub fn words(way: &Way, seed: u32) -> impl Iterator<Item = u32> {
    let next = way.next;
    successors(Some(seed), move |number| Some(next(*number))).skip(way.skipped)
}

/// The octal digits of a seed, the lowest first, and zeros after the highest, without end.
pub fn digits(seed: u32) -> impl Iterator<Item = u32> {
    successors(Some(seed), |rest| Some(rest / 8)).map(|rest| rest % 8)
}

/// The table of a seed.
pub fn table(seed: u32) -> Vec<Row> {
    table_of(digits(seed))
}

/// The table of digits without end: the first says how many rows there are, and each of
/// the others makes one.
pub fn table_of(mut digits: impl Iterator<Item = u32>) -> Vec<Row> {
    let count = 5 + digits.next().expect("digits have no end");
    let rows = (0..count).zip(digits);
    rows.map(|(place, digit)| row(count, place, digit))
        .collect()
}

fn row(count: u32, place: u32, digit: u32) -> Row {
    let deadline = 4 * (count + place) + digit / 2 % 2;
    Row {
        run: 3 + digit % 2,
        period: deadline + 2 * (digit / 4),
        deadline,
    }
}

/// What the lines so far have led to.
#[derive(Clone, Debug)]
pub struct State {
    pub machine: Machine,
    /// How many words were queued since the last choice.
    pub queued: usize,
}

impl State {
    fn new(session: Session) -> Self {
        State {
            machine: Machine::new(session),
            queued: 0,
        }
    }

    /// The next line, unless it is a word.
    fn next_line(&self, way: &Way) -> Option<Command> {
        let session = &self.machine.session;
        if let Some(row) = (way.arriving)(&session.ready_rows()) {
            return Some(Command::Arrive(row));
        }
        if let Some(choice) = session.choice {
            let ticks = (way.ticks)(session, choice);
            return Some(Command::Advance(ticks as u32));
        }
        (way.chooses)(self).then_some(Command::Choose)
    }

    fn perform(&mut self, line: Command) {
        self.machine.execute(line);
        match line {
            Command::Word(_) => self.queued += 1,
            Command::Choose => self.queued = 0,
            _ => {}
        }
    }
}

/// The lines after a table, without end; each is made from what those before it have led
/// to. There is none if the table is refused, which only that of a wrong way is.
fn calls<'a>(
    way: &'a Way,
    rows: &[Row],
    mut words: impl Iterator<Item = u32> + 'a,
) -> impl Iterator<Item = Command> + 'a {
    let mut state = start_rows(rows).ok().map(State::new);
    from_fn(move || {
        let state = state.as_mut()?;
        let line = state.next_line(way);
        let line = line.or_else(|| words.next().map(Command::Word))?;
        state.perform(line);
        Some(line)
    })
}

/// The lines of a trial that has this table and these words.
pub fn lines_with<'a>(
    way: &'a Way,
    rows: Vec<Row>,
    words: impl Iterator<Item = u32> + 'a,
) -> impl Iterator<Item = Command> + 'a {
    let calls = calls(way, &rows, words);
    let all = rows.into_iter().map(Command::Row).chain(calls);
    all.take(way.lines)
}

/// The lines of a seed's trial.
pub fn lines(way: &Way, seed: u32) -> impl Iterator<Item = Command> + '_ {
    lines_with(way, (way.table)(seed), words(way, seed))
}

/// The text of these lines.
pub fn text_of(lines: impl Iterator<Item = Command>) -> Vec<u8> {
    let mut text = Vec::new();
    lines.for_each(|line| line.write(&mut text));
    text
}

/// The trial of a seed.
pub fn trial(seed: u32) -> Vec<u8> {
    text_of(lines(&RIGHT, seed))
}

/// The seed that an input is: one line, a number and nothing else.
pub fn read_seed(input: &[u8]) -> Option<u32> {
    read_number(input.strip_suffix(b"\n")?)
}

/// What `load` prints for an input.
pub fn load(input: &[u8]) -> Vec<u8> {
    read_seed(input).map(trial).unwrap_or_default()
}
