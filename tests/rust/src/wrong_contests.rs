//! Wrong readings of the game, the search and the program `contest`: for the comparison,
//! which counts the inputs on which each would print another output.

use std::cmp::Reverse;

use crate::contest::{
    due, least_overload, line_to, read_line, reasons, run_by, winning_line, Judge, Line, Reason,
    Way, RIGHT,
};
use crate::game::{Release, Rules, State, RULES};
use crate::table::{Row, HORIZON};

/// How a wrong reading is made of the right one.
enum Change {
    Game(fn(&mut Rules)),
    Program(fn(&mut Way)),
}

/// NOT the product's way: what is otherwise, and of how many inputs one must show it. None
/// if no input can show it: by the theorem (§13.3), or since readable lines are 716 bytes
/// at most, 16 rows of 35 and 12 questions of 13, and what follows them can't be read,
/// wherever it is cut.
pub struct Wrong {
    pub name: &'static str,
    pub one_in: Option<u64>,
    change: Change,
}

const fn game(name: &'static str, one_in: u64, change: fn(&mut Rules)) -> Wrong {
    Wrong {
        name,
        one_in: Some(one_in),
        change: Change::Game(change),
    }
}

/// Another game whose answers are the same, by the theorem.
const fn equal(name: &'static str, change: fn(&mut Rules)) -> Wrong {
    Wrong {
        name,
        one_in: None,
        change: Change::Game(change),
    }
}

const fn program(name: &'static str, one_in: u64, change: fn(&mut Way)) -> Wrong {
    Wrong {
        name,
        one_in: Some(one_in),
        change: Change::Program(change),
    }
}

/// Another program whose outputs are the same.
const fn same(name: &'static str, change: fn(&mut Way)) -> Wrong {
    Wrong {
        name,
        one_in: None,
        change: Change::Program(change),
    }
}

impl Wrong {
    /// The output for an input by this reading. The judge must know the right rules.
    pub fn run(&self, right: &mut Judge, input: &[u8]) -> Vec<u8> {
        match self.change {
            Change::Game(_) => run_by(&RIGHT, &mut Judge::new(self.rules()), input).output,
            Change::Program(change) => {
                let mut way = RIGHT;
                change(&mut way);
                run_by(&way, right, input).output
            }
        }
    }

    /// The rules of its game.
    pub fn rules(&self) -> Rules {
        let mut rules = RULES;
        if let Change::Game(change) = self.change {
            change(&mut rules);
        }
        rules
    }

    pub fn is_game(&self) -> bool {
        matches!(self.change, Change::Game(_))
    }
}

/// The wrong readings.
pub const WRONG: [Wrong; 55] = [
    game("a release T − 1 after the last", 80, |rules| {
        rules.apart = |row| u64::from(row.period) - 1
    }),
    game("a release T + 1 after the last", 60, |rules| {
        rules.apart = |row| u64::from(row.period) + 1
    }),
    game("idling the only play", 5, |rules| {
        rules.may_play = |_, play| play.is_none()
    }),
    game("a deadline a tick late", 10, |rules| {
        rules.is_lost = |job, clock| job.due < clock
    }),
    game("a job that counts once it can't be finished", 60, |rules| {
        rules.is_lost = |job, clock| clock + job.left > job.due
    }),
    game("a run of C − 1", 20, |rules| {
        rules.run = |row| u64::from(row.run).saturating_sub(1).max(1)
    }),
    game("a run of C + 1", 10, |rules| {
        rules.run = |row| u64::from(row.run) + 1
    }),
    game("N a tick short", 20, |rules| rules.ticks = |n| n - 1),
    game("row 0 never released", 10, |rules| {
        rules.may_release = |set, _| set & 1 == 0
    }),
    game("the last row never released", 10, |rules| {
        rules.may_release = |set, ready| set >> (ready.rows - 1) == 0
    }),
    game("one release in a tick", 16, |rules| {
        rules.may_release = |set, _| set.count_ones() <= 1
    }),
    game("one release of each row in all", 60, |rules| {
        rules.apart = |_| u64::from(u32::MAX)
    }),
    game("a play before the releases", 12, |rules| rules.sees = false),
    game("the latest deadline first", 12, |rules| {
        rules.may_play = |state, play| play == latest(state)
    }),
    game("the lowest row first", 20, |rules| {
        rules.may_play = |state, play| play == waiting(state).next()
    }),
    equal("idling forbidden while a job waits", |rules| {
        rules.may_play = |state, play| play.is_some() || waiting(state).next().is_none()
    }),
    equal("the earliest deadline first", |rules| {
        rules.may_play = |state, play| play == earliest(state)
    }),
    equal("releases as early as they may come", |rules| {
        rules.may_release = |set, ready| set == ready.set
    }),
    program("the rows in a refusal's values", 8, |way| {
        way.refusal = |rows, _| (16, [rows.len() as u64, 0])
    }),
    program("N in a refusal's values", 8, |way| {
        way.refusal = |_, n| (16, [n, 0])
    }),
    program("13 in place of 16", 8, |way| {
        way.refusal = |_, _| (13, [0, 0])
    }),
    program("no limit of rows", 40, |way| {
        way.is_refused = |rows, n| is_refused_but_for(Reason::RowTooMany, rows, n)
    }),
    program("a limit of 4 rows", 80, |way| {
        way.is_refused = |rows, n| {
            (RIGHT.is_refused)(rows, n)
                && (rows.len() != 4 || is_refused_but_for(Reason::RowTooMany, rows, n))
        }
    }),
    program("a limit of 2 rows", 10, |way| {
        way.is_refused = |rows, n| rows.len() == 3 || (RIGHT.is_refused)(rows, n)
    }),
    program("0 rows accepted", 120, |way| {
        way.is_refused = |rows, n| is_refused_but_for(Reason::NoRow, rows, n)
    }),
    program("a limit of 13 ticks", 80, |way| {
        way.is_refused = |rows, n| (RIGHT.is_refused)(rows, if n == 13 { 12 } else { n })
    }),
    program("a limit of 11 ticks", 15, |way| {
        way.is_refused = |rows, n| n == 12 || (RIGHT.is_refused)(rows, n)
    }),
    program("N 0 accepted", 100, |way| {
        way.is_refused = |rows, n| is_refused_but_for(Reason::NoTick, rows, n)
    }),
    program("T above 1,000,000 accepted", 150, |way| {
        way.is_refused = |rows, n| {
            let lowered = changed(rows, |row| {
                if u64::from(row.period) > HORIZON {
                    row.period = row.deadline;
                }
            });
            (RIGHT.is_refused)(&lowered, n)
        }
    }),
    program("D above T accepted", 150, |way| {
        way.is_refused =
            |rows, n| (RIGHT.is_refused)(&changed(rows, |row| row.period = row.deadline), n)
    }),
    program("C above D accepted", 200, |way| {
        way.is_refused = |rows, n| {
            (RIGHT.is_refused)(&changed(rows, |row| row.run = row.run.min(row.deadline)), n)
        }
    }),
    program("the line to N", 12, |way| way.line = line_to),
    program("the line of all released before t", 16, |way| {
        way.line = |rows, n| {
            let at_once = changed(rows, |row| row.deadline = 1);
            let t = least_overload(rows, n);
            t.map(|t| line_to(&at_once, t)).unwrap_or_default()
        }
    }),
    program("the line row by row", 20, |way| {
        way.line = |rows, n| {
            let mut line = winning_line(rows, n);
            line.sort_by_key(|release| release.row);
            line
        }
    }),
    program("the last row first in a tick", 8, |way| {
        way.line = |rows, n| {
            let mut line = winning_line(rows, n);
            line.sort_by_key(|release| (release.tick, Reverse(release.row)));
            line
        }
    }),
    program("the line by deadline", 16, |way| {
        way.line = |rows, n| {
            let mut line = winning_line(rows, n);
            line.sort_by_key(|release| due(rows, *release));
            line
        }
    }),
    program("a job's deadline left out", 8, |way| {
        way.shown = |_, Release { tick, row }| [tick, row as u64, 0]
    }),
    program("D in place of a job's deadline", 16, |way| {
        way.shown = |rows, Release { tick, row }| [tick, row as u64, u64::from(rows[row].deadline)]
    }),
    program("clock 0 for each job", 16, |way| {
        way.shown = |rows, release| [0, release.row as u64, due(rows, release)]
    }),
    program("13 questions", 100, |way| way.questions += 1),
    program("17 rows", 120, |way| way.rows += 1),
    program("a row after a question unreadable", 20, |way| {
        way.grows = false
    }),
    program("a question about all rows", 20, |way| {
        way.looks_ahead = true
    }),
    program("output after an unreadable line", 12, |way| {
        way.goes_on = true
    }),
    program("lines counted from 0", 8, |way| way.place = |before| before),
    program("nothing printed where nothing is asked", 60, |way| {
        way.asks_nothing = |_, _| false
    }),
    program("16 after an unreadable line too", 40, |way| {
        way.asks_nothing = |questions, _| questions == 0
    }),
    program("715 bytes", 150, |way| way.limit = 715),
    program("716 bytes", 200, |way| way.limit = 716),
    same("717 bytes", |way| way.limit = 717),
    same("no limit of bytes", |way| way.limit = usize::MAX),
    program("a last line without its newline", 250, |way| {
        way.read = |line| {
            let bare = line.strip_suffix(b"\n").unwrap_or(line);
            read_line(&[bare, b"\n"].concat())
        }
    }),
    program("a carriage return before a newline", 250, |way| {
        way.read = |line| match line.strip_suffix(b"\r\n") {
            Some(bare) => read_line(&[bare, b"\n"].concat()),
            None => read_line(line),
        }
    }),
    program("an empty line skipped", 300, |way| {
        way.skips = |line| line == b"\n"
    }),
    program("C, D, T", 6, |way| {
        way.read = |line| match read_line(line)? {
            Line::Row(row) => {
                let [run, deadline, period] = row.numbers();
                Some(Line::Row(Row::from([run, period, deadline])))
            }
            line => Some(line),
        }
    }),
];

/// Whether a question is refused for another reason than this.
fn is_refused_but_for(allowed: Reason, rows: &[Row], n: u64) -> bool {
    reasons(rows, n).iter().any(|reason| *reason != allowed)
}

/// The rows, each changed.
fn changed(rows: &[Row], change: fn(&mut Row)) -> Vec<Row> {
    let mut rows = rows.to_vec();
    rows.iter_mut().for_each(change);
    rows
}

/// The rows whose jobs wait.
fn waiting(state: &State) -> impl Iterator<Item = usize> + '_ {
    let slots = state.slots.iter().enumerate();
    let waiting = slots.filter(|(_, slot)| slot.waits());
    waiting.map(|(row, _)| row)
}

fn earliest(state: &State) -> Option<usize> {
    waiting(state).min_by_key(|row| state.slots[*row].due)
}

fn latest(state: &State) -> Option<usize> {
    waiting(state).max_by_key(|row| state.slots[*row].due)
}
