//! The four calls: arrive, choose, advance, finish; and arrivals of a whole list
//! in one call.

use crate::session::{Choice, Job, Session, Slot, CLOCK_END, IDLE};
use crate::table::HORIZON;

/// A call with its arguments.
#[derive(Clone, Copy, Debug, PartialEq, Eq)]
pub enum Call<'a> {
    Arrive(u32),
    Choose(&'a [u32]),
    Advance(u32),
    Finish,
}

/// An answer: its number (0 if accepted), two values, and how many words the
/// call used.
#[derive(Clone, Copy, Debug, PartialEq, Eq)]
pub struct Answer {
    pub number: u32,
    pub values: [u64; 2],
    pub words_used: usize,
}

impl Answer {
    pub(crate) fn accepted(first: u64, second: u64) -> Self {
        Answer::refused(0, first, second)
    }

    pub(crate) fn refused(number: u32, first: u64, second: u64) -> Self {
        Answer {
            number,
            values: [first, second],
            words_used: 0,
        }
    }
}

/// A record of a list of arrivals: a row, and the place for its answer.
#[derive(Clone, Copy, Debug, PartialEq, Eq)]
pub struct Arrival {
    /// Of 64 bits, as in the list that a host lends.
    pub row: u64,
    pub answer: Answer,
}

impl Arrival {
    /// A record whose answer is not there yet.
    pub fn of(row: u64) -> Self {
        Arrival {
            row,
            answer: Answer::accepted(0, 0),
        }
    }

    pub fn is_accepted(&self) -> bool {
        self.answer.number == 0
    }
}

/// Makes a call on a session of any content.
pub fn perform(session: &mut Session, call: Call) -> Answer {
    if session.is_sound() {
        perform_on_sound(session, call)
    } else {
        Answer::refused(5, 0, 0)
    }
}

/// Makes a call on a session that the caller knows to be sound.
pub fn perform_on_sound(session: &mut Session, call: Call) -> Answer {
    match call {
        Call::Arrive(row) => arrive(session, u64::from(row)),
        Call::Choose(words) => choose(session, words),
        Call::Advance(ticks) => advance(session, u64::from(ticks)),
        Call::Finish => finish(session),
    }
}

/// Lets a job of each record's row arrive, in list order, and fills in the
/// answers, in a session of any content.
pub fn arrive_all(session: &mut Session, list: &mut [Arrival]) {
    // It holds for the whole list: an arrival leaves a sound session sound, and
    // a refusal leaves every session as it is.
    let is_sound = session.is_sound();
    for arrival in list {
        arrival.answer = if is_sound {
            arrive(session, arrival.row)
        } else {
            Answer::refused(5, 0, 0)
        };
    }
}

fn arrive(session: &mut Session, row: u64) -> Answer {
    let index = usize::try_from(row).unwrap_or(usize::MAX);
    let Some(task) = session.rows.get(index) else {
        return Answer::refused(6, row, 0);
    };
    let next = session.slots[index].next;
    if session.clock < next {
        return Answer::refused(7, row, next);
    }
    let due = session.clock + u64::from(task.deadline);
    session.slots[index] = Slot {
        next: session.clock + u64::from(task.period),
        job: Some(Job {
            due,
            left: u64::from(task.run),
            budget: session.arrival_budget(index),
        }),
    };
    session.choice = None;
    Answer::accepted(row, due)
}

/// The rows that may be chosen, in order, idle last; never empty.
pub fn candidates(session: &Session) -> Vec<u32> {
    candidates_among(session, session.in_order())
}

/// The candidates among all waiting rows, which stand in this order.
pub fn candidates_among(session: &Session, waiting: Vec<u32>) -> Vec<u32> {
    let brittle = session.brittle_deadline();
    candidates_where(session, waiting, |row| is_due_by(session, row, brittle))
}

/// The same, but for the rule by which a job, or idle, may run before the head although
/// brittle jobs are to come.
pub fn candidates_where(
    session: &Session,
    waiting: Vec<u32>,
    may_precede: impl Fn(u32) -> bool,
) -> Vec<u32> {
    let mut candidates: Vec<u32> = waiting.into_iter().chain([IDLE]).collect();
    let head = candidates[0];
    // With nothing waiting the head is idle, which has no budget to spend.
    let head_can_wait = session.job(head).is_some_and(|job| job.budget >= 1);
    candidates.retain(|row| {
        let all_can_wait = head_can_wait && session.earlier(*row).all(|job| job.budget >= 1);
        *row == head || all_can_wait && may_precede(*row)
    });
    candidates
}

/// Whether a row's job is due no later than the next job of any brittle row can be.
/// Idle, which is never due, is not where there are such rows.
fn is_due_by(session: &Session, row: u32, brittle: Option<u64>) -> bool {
    brittle.is_none_or(|brittle| session.job(row).is_some_and(|job| job.due <= brittle))
}

fn choose(session: &mut Session, words: &[u32]) -> Answer {
    if let Some(choice) = session.choice {
        return Answer::refused(8, choice.left, 0);
    }
    let (choice, words_used) = pick(session, &candidates(session), words);
    session.choice = Some(choice);
    Answer {
        words_used,
        ..Answer::accepted(u64::from(choice.row), choice.left)
    }
}

/// How many words there are.
pub const WORDS: u64 = 1 << 32;

/// The greatest multiple of `count` up to 2^32.
pub fn limit(count: u32) -> u64 {
    WORDS - WORDS % u64::from(count)
}

/// A number below `count`, by the first word below the limit, and the words behind
/// that one. Without such a word no number is drawn, and none of the words is left.
pub fn draw(count: u32, words: &[u32]) -> (Option<u32>, &[u32]) {
    let limit = limit(count);
    match words.iter().position(|word| u64::from(*word) < limit) {
        Some(place) => (Some(words[place] % count), &words[place + 1..]),
        None => (None, &[]),
    }
}

/// How many lengths the span of a candidate can have: the lesser of its remaining
/// ticks and the least budget of the jobs of strictly earlier deadline. None
/// without such a job, since the span is then its remaining ticks.
pub fn lengths(session: &Session, row: u32) -> Option<u32> {
    let least_budget = session.earlier(row).map(|job| job.budget as u64).min()?;
    Some(remaining(session, row).min(least_budget) as u32)
}

/// The remaining ticks of a candidate. Idle has none, and gets the horizon where
/// nothing waits; every budget, at most D − C, is below that.
pub(crate) fn remaining(session: &Session, row: u32) -> u64 {
    session.job(row).map_or(HORIZON, |job| job.left)
}

/// What the words pick among the candidates, and how many of them it takes.
pub fn pick(session: &Session, candidates: &[u32], words: &[u32]) -> (Choice, usize) {
    let (number, rest) = match candidates.len() {
        1 => (None, words),
        count => draw(count as u32, words),
    };
    let row = candidates[number.unwrap_or(0) as usize];
    let (left, rest) = match lengths(session, row) {
        None => (remaining(session, row), rest),
        Some(count) => {
            let (number, rest) = draw(count, rest);
            let left = number.map_or(count, |number| number + 1);
            (u64::from(left), rest)
        }
    };
    (Choice { row, left }, words.len() - rest.len())
}

fn advance(session: &mut Session, ticks: u64) -> Answer {
    let Some(choice) = session.choice else {
        return Answer::refused(9, 0, 0);
    };
    if ticks == 0 || ticks > choice.left {
        return Answer::refused(10, choice.left, 0);
    }
    if session.clock + ticks > CLOCK_END {
        return Answer::refused(12, CLOCK_END, 0);
    }
    session.clock += ticks;
    let due = session.job(choice.row).map(|job| job.due);
    for job in session
        .slots
        .iter_mut()
        .filter_map(|slot| slot.job.as_mut())
    {
        if due.is_none_or(|due| job.due < due) {
            job.budget -= ticks as i64;
        }
    }
    let left = choice.left - ticks;
    session.choice = (left > 0).then_some(Choice { left, ..choice });
    let over = choice.row != IDLE && run_job(&mut session.slots[choice.row as usize], ticks);
    Answer::accepted(left, u64::from(over))
}

/// Runs the job of a slot, and says whether it is over.
fn run_job(slot: &mut Slot, ticks: u64) -> bool {
    slot.job = slot
        .job
        .map(|job| Job {
            left: job.left - ticks,
            ..job
        })
        .filter(|job| job.left > 0);
    slot.job.is_none()
}

fn finish(session: &mut Session) -> Answer {
    let Some(choice) = session.choice else {
        return Answer::refused(9, 0, 0);
    };
    let Some(job) = session.job(choice.row) else {
        return Answer::refused(11, 0, 0);
    };
    let (due, unused) = (job.due, job.left);
    session.slots[choice.row as usize].job = None;
    session.choice = None;
    give(session, due, unused);
    Answer::accepted(u64::from(choice.row), unused)
}

/// Each waiting job of strictly later deadline gains the unused ticks as
/// budget, never above its limit. That of a brittle row is 0, so it gains nothing.
fn give(session: &mut Session, due: u64, unused: u64) {
    for row in 0..session.slots.len() {
        let limit = session.budget_limit(row);
        if let Some(job) = &mut session.slots[row].job {
            if job.due > due {
                job.budget = (job.budget + unused as i64).min(limit);
            }
        }
    }
}
