//! The search of the game (§13.2), the line of releases (§13.3) and the program `contest`
//! as a function from input bytes to output bytes (§13.4).

use crate::game::{Game, Release, Rules, MOST_ROWS, MOST_TICKS, RULES};
use crate::table::{demand, rows_of, Row, ROW_LIMIT};
use crate::text::{self, print, print_unreadable, read_number, Command};

/// How many bytes of input are read.
pub const INPUT_LIMIT: usize = 1_024;
/// Most rows and most ticks that the search takes.
pub const SEARCHED_ROWS: usize = MOST_ROWS;
pub const SEARCHED_TICKS: u64 = MOST_TICKS;
/// Most lines `N` of an input.
pub const QUESTION_LIMIT: usize = 12;

/// What the search says.
#[derive(Clone, Copy, Debug, PartialEq, Eq)]
pub enum Verdict {
    Forced,
    Held,
    Refused,
}

/// The number and the two values of an answer.
pub type Numbers = (u32, [u64; 2]);

impl Verdict {
    pub fn numbers(self) -> Numbers {
        match self {
            Verdict::Forced => (0, [1, 0]),
            Verdict::Held => (0, [0, 0]),
            Verdict::Refused => (16, [0, 0]),
        }
    }
}

/// A reason to refuse the search.
#[derive(Clone, Copy, Debug, PartialEq, Eq)]
pub enum Reason {
    NoRow,
    RowTooMany,
    Rule,
    NoTick,
    TickTooMany,
}

/// Every reason to refuse these rows and ticks.
pub fn reasons(rows: &[Row], n: u64) -> Vec<Reason> {
    let all = [
        (Reason::NoRow, rows.is_empty()),
        (Reason::RowTooMany, rows.len() > SEARCHED_ROWS),
        (Reason::Rule, !rows.iter().all(Row::is_lawful)),
        (Reason::NoTick, n == 0),
        (Reason::TickTooMany, n > SEARCHED_TICKS),
    ];
    let holds = all.into_iter().filter(|(_, holds)| *holds);
    holds.map(|(reason, _)| reason).collect()
}

/// The answer of the search on any slice and any N.
pub fn search(words: &[u32], n: u64) -> Verdict {
    let rows = rows_of(words);
    if !words.len().is_multiple_of(3) || !reasons(&rows, n).is_empty() {
        return Verdict::Refused;
    }
    verdict(Game::new(RULES, &rows).forces(n))
}

fn verdict(forced: bool) -> Verdict {
    match forced {
        true => Verdict::Forced,
        false => Verdict::Held,
    }
}

/// The least t from 1 to n with demand(t) > t; each t is tried. The demand at 0 is 0.
pub fn least_overload(rows: &[Row], n: u64) -> Option<u64> {
    (1..=n).find(|t| demand(rows, *t) > *t)
}

/// The line to t: of each row the releases at 0, T, 2 × T, .. that are due by t. They come
/// by tick, and in one tick by row.
pub fn line_to(rows: &[Row], t: u64) -> Vec<Release> {
    let ticks = 0..t;
    let all = ticks.flat_map(|tick| (0..rows.len()).map(move |row| Release { tick, row }));
    all.filter(|release| {
        let row = rows[release.row];
        let is_in_turn = release.tick.is_multiple_of(u64::from(row.period));
        is_in_turn && due(rows, *release) <= t
    })
    .collect()
}

/// The deadline of a released job.
pub fn due(rows: &[Row], release: Release) -> u64 {
    release.tick + u64::from(rows[release.row].deadline)
}

/// A readable line.
#[derive(Clone, Copy, Debug, PartialEq, Eq)]
pub enum Line {
    Row(Row),
    Question(u32),
}

impl Line {
    /// Appends the line.
    pub fn write(self, text: &mut Vec<u8>) {
        match self {
            Line::Row(row) => Command::Row(row).write(text),
            Line::Question(n) => text.extend(format!("N\t{n}\n").bytes()),
        }
    }
}

/// Reads a line with its newline; bytes without one are unreadable.
pub fn read_line(line: &[u8]) -> Option<Line> {
    if let Some(Command::Row(row)) = text::read_line(line) {
        return Some(Line::Row(row));
    }
    let field = line.strip_prefix(b"N\t")?.strip_suffix(b"\n")?;
    read_number(field).map(Line::Question)
}

/// The program: what may be misread of it. The comparison counts the inputs on which a
/// wrong way would print another output.
#[derive(Clone, Copy)]
pub struct Way {
    /// How many bytes are read.
    pub limit: usize,
    pub read: fn(&[u8]) -> Option<Line>,
    /// Whether a line is passed over.
    pub skips: fn(&[u8]) -> bool,
    /// Most lines `T` and most lines `N`.
    pub rows: usize,
    pub questions: usize,
    /// Whether a row may follow a question.
    pub grows: bool,
    /// Whether a question is about the rows after it too.
    pub looks_ahead: bool,
    pub is_refused: fn(&[Row], u64) -> bool,
    /// The number and values of a refusal.
    pub refusal: fn(&[Row], u64) -> Numbers,
    /// The line of releases where arrivals win within n ticks.
    pub line: fn(&[Row], u64) -> Vec<Release>,
    /// The clock and the two values of a line `A`.
    pub shown: fn(&[Row], Release) -> [u64; 3],
    /// Whether output goes on after an unreadable line.
    pub goes_on: bool,
    /// The number of an unreadable line, of which so many lines stand before.
    pub place: fn(u64) -> u64,
    /// Whether 16 is printed, where so many questions were asked and this is whether each
    /// line was readable.
    pub asks_nothing: fn(usize, bool) -> bool,
}

/// The way of the specification.
pub const RIGHT: Way = Way {
    limit: INPUT_LIMIT,
    read: read_line,
    skips: |_| false,
    rows: ROW_LIMIT,
    questions: QUESTION_LIMIT,
    grows: true,
    looks_ahead: false,
    is_refused: |rows, n| !reasons(rows, n).is_empty(),
    refusal: |_, _| Verdict::Refused.numbers(),
    line: winning_line,
    shown: |rows, release| [release.tick, release.row as u64, due(rows, release)],
    goes_on: false,
    place: |before| before + 1,
    asks_nothing: |questions, is_readable| questions == 0 && is_readable,
};

/// The line to the least t with demand(t) > t. If arrivals win within n ticks there is such
/// a t up to n; where a wrong game finds that they win, there may be none, and no line.
pub fn winning_line(rows: &[Row], n: u64) -> Vec<Release> {
    let t = least_overload(rows, n);
    t.map(|t| line_to(rows, t)).unwrap_or_default()
}

/// Says who wins, by some rules, and keeps what it has said, since several ways ask it
/// the same.
pub struct Judge {
    rules: Rules,
    games: Vec<Game>,
}

impl Judge {
    pub fn new(rules: Rules) -> Self {
        Judge {
            rules,
            games: Vec::new(),
        }
    }

    /// Whether arrivals win within n ticks. A question that only a wrong way answers is not
    /// played out: any answer to it differs from the refusal.
    fn forces(&mut self, rows: &[Row], n: u64) -> bool {
        if !reasons(rows, n).is_empty() {
            return false;
        }
        let known = self.games.iter().position(|game| game.rows() == rows);
        let place = known.unwrap_or(self.games.len());
        if known.is_none() {
            self.games.push(Game::new(self.rules, rows));
        }
        self.games[place].forces(n)
    }
}

/// A question that was asked, and its answer.
#[derive(Clone, Debug)]
pub struct Asked {
    pub rows: Vec<Row>,
    pub n: u64,
    pub verdict: Verdict,
    /// The line of releases, if arrivals win.
    pub line: Vec<Release>,
}

impl Asked {
    pub fn is_answered(&self) -> bool {
        self.verdict != Verdict::Refused
    }
}

/// What an input led to.
#[derive(Clone, Debug, Default)]
pub struct Run {
    /// The questions of its lines `N`.
    pub asked: Vec<Asked>,
    /// The rows of its lines `T`.
    pub rows: Vec<Row>,
    /// How many lines stand before the unreadable one, if there is one.
    pub unreadable: Option<usize>,
    pub output: Vec<u8>,
}

/// Reads the lines in turn.
struct Reader<'a> {
    way: &'a Way,
    judge: &'a mut Judge,
    /// The rows of the whole input, for a way that looks ahead.
    all_rows: Vec<Row>,
    run: Run,
}

impl Reader<'_> {
    /// Whether a line can be read here; then it is performed.
    fn perform(&mut self, line: &[u8]) -> bool {
        match (self.way.read)(line) {
            Some(Line::Row(row)) => self.add(row),
            Some(Line::Question(n)) => self.ask(u64::from(n)),
            None => false,
        }
    }

    fn add(&mut self, row: Row) -> bool {
        let is_in_time = self.way.grows || self.run.asked.is_empty();
        let fits = self.run.rows.len() < self.way.rows;
        if fits && is_in_time {
            self.run.rows.push(row);
        }
        fits && is_in_time
    }

    fn ask(&mut self, n: u64) -> bool {
        if self.run.asked.len() == self.way.questions {
            return false;
        }
        let rows = match self.way.looks_ahead {
            true => &self.all_rows,
            false => &self.run.rows,
        };
        let asked = self.answer(rows.clone(), n);
        self.run.asked.push(asked);
        true
    }

    /// Answers a question, and prints the answer.
    fn answer(&mut self, rows: Vec<Row>, n: u64) -> Asked {
        let verdict = match (self.way.is_refused)(&rows, n) {
            true => Verdict::Refused,
            false => verdict(self.judge.forces(&rows, n)),
        };
        let line = match verdict {
            Verdict::Forced => (self.way.line)(&rows, n),
            _ => Vec::new(),
        };
        let asked = Asked {
            rows,
            n,
            verdict,
            line,
        };
        self.print(&asked);
        asked
    }

    fn print(&mut self, asked: &Asked) {
        let Asked {
            rows, n, verdict, ..
        } = asked;
        let (number, [first, second]) = match verdict {
            Verdict::Refused => (self.way.refusal)(rows, *n),
            _ => verdict.numbers(),
        };
        let output = &mut self.run.output;
        print(output, 0, 'N', number, first, second);
        for release in &asked.line {
            let [clock, first, second] = (self.way.shown)(rows, *release);
            print(output, clock, 'A', 0, first, second);
        }
    }

    /// Prints the line `?` of an unreadable line, before which there are so many.
    fn stumble(&mut self, before: usize) {
        self.run.unreadable.get_or_insert(before);
        let number = (self.way.place)(before as u64);
        print_unreadable(&mut self.run.output, 0, number);
    }
}

/// The lines of the part of the input that is read, each with its newline.
pub fn lines(input: &[u8], limit: usize) -> impl Iterator<Item = &[u8]> {
    input[..input.len().min(limit)].split_inclusive(|byte| *byte == b'\n')
}

fn rows_in(way: &Way, input: &[u8]) -> Vec<Row> {
    let read = lines(input, way.limit).map(way.read);
    let rows = read.filter_map(|line| match line {
        Some(Line::Row(row)) => Some(row),
        _ => None,
    });
    rows.take(way.rows).collect()
}

/// What an input leads to, by a way and what a judge says.
pub fn run_by(way: &Way, judge: &mut Judge, input: &[u8]) -> Run {
    let mut reader = Reader {
        way,
        judge,
        all_rows: rows_in(way, input),
        run: Run::default(),
    };
    for (before, line) in lines(input, way.limit).enumerate() {
        if (way.skips)(line) || reader.perform(line) {
            continue;
        }
        reader.stumble(before);
        if !way.goes_on {
            break;
        }
    }
    let is_readable = reader.run.unreadable.is_none();
    if (way.asks_nothing)(reader.run.asked.len(), is_readable) {
        let rows = reader.run.rows.clone();
        reader.answer(rows, 0);
    }
    reader.run
}

/// The output for an input.
pub fn run(input: &[u8]) -> Vec<u8> {
    run_by(&RIGHT, &mut Judge::new(RULES), input).output
}
