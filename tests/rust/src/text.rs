//! The program as a function from input bytes to output bytes.

use std::io::Write;

use crate::calls::{perform_on_sound, Answer, Call};
use crate::session::Session;
use crate::table::{opinion_on, Opinion, Refusal, Row, ROW_LIMIT};

/// How many bytes of input are read.
pub const INPUT_LIMIT: usize = 65_536;
/// How many words may wait.
pub const WORD_LIMIT: usize = 1_024;

/// A readable line.
#[derive(Clone, Copy, Debug, PartialEq, Eq)]
pub enum Command {
    Row(Row),
    Word(u32),
    Arrive(u32),
    Choose,
    Advance(u32),
    Finish,
}

impl Command {
    /// Appends the line of this command.
    pub fn write(self, text: &mut Vec<u8>) {
        match self {
            Command::Row(row) => {
                let [run, period, deadline] = row.numbers();
                writeln!(text, "T\t{run}\t{period}\t{deadline}")
            }
            Command::Word(word) => writeln!(text, "W\t{word}"),
            Command::Arrive(row) => writeln!(text, "A\t{row}"),
            Command::Choose => writeln!(text, "G"),
            Command::Advance(ticks) => writeln!(text, "R\t{ticks}"),
            Command::Finish => writeln!(text, "F"),
        }
        .expect("writing to memory");
    }
}

/// A decimal u32 without leading zeros.
pub fn read_number(field: &[u8]) -> Option<u32> {
    let has_leading_zero = field.len() > 1 && field[0] == b'0';
    if field.is_empty() || has_leading_zero || !field.iter().all(u8::is_ascii_digit) {
        return None;
    }
    field.iter().try_fold(0u32, |number, digit| {
        number.checked_mul(10)?.checked_add(u32::from(digit - b'0'))
    })
}

/// Reads a line with its newline; bytes without one are unreadable.
pub fn read_line(line: &[u8]) -> Option<Command> {
    let line = line.strip_suffix(b"\n")?;
    let (letter, rest) = line.split_first()?;
    // A tab stands before each field, so the piece before the first is empty.
    let mut fields = rest.split(|byte| *byte == b'\t');
    if !fields.next()?.is_empty() {
        return None;
    }
    let mut number = || read_number(fields.next()?);
    let command = match letter {
        b'T' => Command::Row(Row::from([number()?, number()?, number()?])),
        b'W' => Command::Word(number()?),
        b'A' => Command::Arrive(number()?),
        b'G' => Command::Choose,
        b'R' => Command::Advance(number()?),
        b'F' => Command::Finish,
        _ => return None,
    };
    fields.next().is_none().then_some(command)
}

/// The lines of the part of the input that is read, each with its newline.
fn lines(input: &[u8]) -> impl Iterator<Item = &[u8]> {
    input[..input.len().min(INPUT_LIMIT)].split_inclusive(|byte| *byte == b'\n')
}

/// The rows of the accepted T lines, which open the input.
pub fn leading_rows(input: &[u8]) -> Vec<Row> {
    lines(input)
        .map_while(|line| match read_line(line) {
            Some(Command::Row(row)) => Some(row),
            _ => None,
        })
        .take(ROW_LIMIT)
        .collect()
}

/// What a line leads to.
#[derive(Clone, Copy, Debug, PartialEq, Eq)]
pub enum Outcome {
    Silent,
    Answered(char, Answer),
    Unreadable,
}

/// The state of the program once its table is started.
#[derive(Clone, Debug)]
pub struct Machine {
    pub session: Session,
    pub words: Vec<u32>,
}

impl Machine {
    /// The state at the start of a session.
    pub fn new(session: Session) -> Self {
        Machine {
            session,
            words: Vec::new(),
        }
    }

    pub fn execute(&mut self, command: Command) -> Outcome {
        let (letter, call) = match command {
            Command::Row(_) => return Outcome::Unreadable,
            Command::Word(word) => return self.queue(word),
            Command::Arrive(row) => ('A', Call::Arrive(row)),
            Command::Choose => ('G', Call::Choose(&self.words)),
            Command::Advance(ticks) => ('R', Call::Advance(ticks)),
            Command::Finish => ('F', Call::Finish),
        };
        // The session began from an admitted table, so it is sound.
        let answer = perform_on_sound(&mut self.session, call);
        self.words.drain(..answer.words_used);
        Outcome::Answered(letter, answer)
    }

    fn queue(&mut self, word: u32) -> Outcome {
        if self.words.len() == WORD_LIMIT {
            return Outcome::Unreadable;
        }
        self.words.push(word);
        Outcome::Silent
    }
}

/// The output for an input.
pub fn run(input: &[u8]) -> Vec<u8> {
    run_with(input, Machine::execute)
}

/// The output for an input; `watch` sees each command after the table, and the
/// machine before it.
pub fn run_watched(input: &[u8], mut watch: impl FnMut(&Machine, Command)) -> Vec<u8> {
    run_with(input, |machine, command| {
        watch(machine, command);
        machine.execute(command)
    })
}

/// The output for an input, each command after the table performed by
/// `execute`.
pub fn run_with(input: &[u8], execute: impl FnMut(&mut Machine, Command) -> Outcome) -> Vec<u8> {
    let mut output = Vec::new();
    let rows = leading_rows(input);
    let opinion = opinion_on(&rows);
    print_opinion(&mut output, &opinion);
    if let Ok(opinion) = opinion {
        let rest = lines(input).zip(1..).skip(rows.len());
        let machine = Machine::new(Session::fresh(rows, &opinion));
        run_calls(&mut output, machine, rest, execute);
    }
    output
}

/// The lines `M` and `B`.
pub fn print_opinion(output: &mut Vec<u8>, opinion: &Result<Opinion, Refusal>) {
    match opinion {
        Err(Refusal { number, values }) => {
            let [first, second] = values;
            print(output, 0, 'M', *number, first, second);
        }
        Ok(Opinion { kind, budgets }) => {
            print(output, 0, 'M', 0, *kind as u32, budgets.len());
            for (row, v) in budgets.iter().enumerate() {
                print(output, 0, 'B', 0, row, v);
            }
        }
    }
}

/// Runs numbered lines until the first unreadable one.
fn run_calls<'a>(
    output: &mut Vec<u8>,
    mut machine: Machine,
    lines: impl Iterator<Item = (&'a [u8], u64)>,
    mut execute: impl FnMut(&mut Machine, Command) -> Outcome,
) {
    for (line, line_number) in lines {
        let outcome = read_line(line).map_or(Outcome::Unreadable, |command| {
            execute(&mut machine, command)
        });
        let clock = machine.session.clock;
        match outcome {
            Outcome::Silent => {}
            Outcome::Answered(letter, answer) => {
                let [first, second] = answer.values;
                print(output, clock, letter, answer.number, first, second);
            }
            Outcome::Unreadable => {
                print_unreadable(output, clock, line_number);
                return;
            }
        }
    }
}

/// The line `?` of an unreadable line.
pub fn print_unreadable(output: &mut Vec<u8>, clock: u64, line_number: u64) {
    print(output, clock, '?', 13, line_number, 0);
}

pub fn print(
    output: &mut Vec<u8>,
    clock: u64,
    letter: char,
    number: u32,
    first: impl std::fmt::Display,
    second: impl std::fmt::Display,
) {
    writeln!(output, "{clock}\t{letter}\t{number}\t{first}\t{second}").expect("writing to memory");
}
