//! Tables of modest numbers of each kind, and runs on them in which some job nearly always
//! waits: for inputs of `planner`, and for the walk that looks at how late jobs are.

use crate::rng::Rng;
use crate::session::{Choice, Session, IDLE};
use crate::table::{Kind, Row};
use crate::tables::{admitted_as, close_rows, full_rows, small_rows, RowMaker};
use crate::text::{Command, Machine};

/// Rows whose T lie between a third of some length and that length, and which take a share of
/// all time, up to all of it.
fn modest_rows(rng: &mut Rng) -> Vec<Row> {
    let count = rng.pick(&[1, 2, 3, 4, 6, 8, 12, 16]);
    let scale = rng.pick(&[3, 6, 12]);
    let longest = rng.between(8, 20).max(scale * count);
    let load = rng.between(2, 8);
    let rows = (0..count).map(|_| {
        let period = rng.between(longest.div_ceil(3), longest);
        let run = rng.between(1, (period * load / (6 * count)).clamp(1, period));
        let deadline = match rng.below(3) {
            0 => rng.between(run, period),
            1 => rng.between(period - (period - run) / 4, period),
            _ => period,
        };
        Row::from([run, period, deadline])
    });
    rows.collect()
}

/// Short rows and one long one, which is due several of their periods later.
fn uneven_rows(rng: &mut Rng) -> Vec<Row> {
    let mut rows = Vec::new();
    let count = rng.between(1, 4);
    for _ in 0..count {
        let period = rng.between(2 * count, 6 * count + 4);
        let run = rng.between(1, (period / (2 * count)).max(1));
        rows.push(Row::from([run, period, rng.between(run, period)]));
    }
    let deadline = rng.between(20, 120);
    let long = Row::from([rng.between(1, deadline / 3), 140, deadline]);
    rows.insert(rng.below(rows.len() + 1), long);
    rows
}

/// Rows of one period, so that they can always arrive together, and the last that is due waits
/// for all of them.
fn level_rows(rng: &mut Rng) -> Vec<Row> {
    let count = rng.between(2, 8);
    let runs: Vec<u32> = (0..count).map(|_| rng.between(1, 6)).collect();
    let all: u32 = runs.iter().sum();
    let period = all + rng.between(0, 2 * all);
    let rows = runs.into_iter().map(|run| {
        let deadline = rng.between(all, period);
        Row::from([run, period, deadline])
    });
    rows.collect()
}

/// A table that is admitted as this kind. Few have one row: its job, if it runs its C, always
/// ends at its bound.
pub fn busy_rows(rng: &mut Rng, kind: Kind) -> Vec<Row> {
    let makers: [RowMaker; 4] = match kind {
        Kind::Loose => [modest_rows, level_rows, uneven_rows, small_rows],
        Kind::Mixed => [modest_rows, uneven_rows, small_rows, close_rows],
        Kind::Tight => [modest_rows, uneven_rows, small_rows, full_rows],
    };
    let make = rng.pick(&makers);
    loop {
        let rows = admitted_as(rng, make, kind);
        if rows.len() > 1 || rng.chance(1, 20) {
            return rows;
        }
    }
}

/// When jobs arrive.
#[derive(Clone, Copy, Debug, PartialEq, Eq)]
pub enum Pace {
    /// Each as soon as it may.
    AtOnce,
    /// After a random while.
    Gaps,
}

/// How a run is made up.
#[derive(Clone, Copy, Debug)]
pub struct Manner {
    pub pace: Pace,
    /// Out of 8 choices, how many have words.
    pub words: usize,
    /// Out of 16 steps of a job, how many finish it.
    pub finishes: usize,
    /// Out of 4 advances, how many are of a part of the span.
    pub parts: usize,
}

impl Manner {
    pub fn random(rng: &mut Rng, pace: Pace) -> Self {
        Manner {
            pace,
            words: rng.pick(&[0, 4, 8, 8]),
            finishes: rng.pick(&[0, 0, 1, 4]),
            parts: rng.pick(&[0, 1, 3]),
        }
    }
}

/// The next line of a run.
pub fn busy_command(machine: &Machine, rng: &mut Rng, manner: Manner) -> Command {
    let Machine { session, words } = machine;
    let ready = session.ready_rows();
    let arrives = manner.pace == Pace::AtOnce || rng.chance(1, 6);
    if !ready.is_empty() && arrives {
        return Command::Arrive(rng.pick(&ready));
    }
    match session.choice {
        // Two words decide a choice, but for those that are passed over.
        None if words.len() < 2 && rng.chance(manner.words, 8) => Command::Word(word(rng)),
        None => Command::Choose,
        Some(choice) if choice.row != IDLE && rng.chance(manner.finishes, 16) => Command::Finish,
        Some(choice) => Command::Advance(ticks(session, rng, manner, choice)),
    }
}

/// A word, often a small one, so that it is known what it picks.
fn word(rng: &mut Rng) -> u32 {
    match rng.chance(1, 4) {
        true => rng.draw() as u32,
        false => rng.between(0, 40),
    }
}

/// Ticks from 1 to those left of the choice. They end where a row may arrive, so that none
/// can arrive late, and where none waits, before long.
fn ticks(session: &Session, rng: &mut Rng, manner: Manner, choice: Choice) -> u32 {
    let until = session.slots.iter().map(|slot| slot.next);
    let until = until.filter(|next| *next > session.clock);
    let next = until.map(|next| next - session.clock).min();
    let most = match manner.pace {
        Pace::AtOnce => choice.left.min(next.unwrap_or(1)),
        Pace::Gaps => choice.left.min(40),
    };
    match rng.chance(manner.parts, 4) {
        true => rng.between(1, most as u32),
        false => most as u32,
    }
}
