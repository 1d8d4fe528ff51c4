//! What a choice decides, told by its parts: the waiting jobs, the brittle deadline, the
//! chosen row, the word that decided, the span and what set it.

use crate::calls::{candidates_among, draw, lengths, remaining, Answer};
use crate::session::{Session, IDLE};
use crate::table::Kind;

/// A waiting job. The numbers have 64 bits, as a reader of a text must take them all.
#[derive(Clone, Copy, Debug, PartialEq, Eq)]
pub struct JobPart {
    pub row: u64,
    pub due: u64,
    pub budget: u64,
    pub is_candidate: bool,
}

/// What set the span.
#[derive(Clone, Copy, Debug, PartialEq, Eq)]
pub enum Cause {
    Remaining = 1,
    Word = 2,
    LackOfWord = 3,
    NothingWaits = 4,
}

/// The parts of an explanation.
#[derive(Clone, Debug, PartialEq, Eq)]
pub struct Explanation {
    /// The waiting jobs, in order.
    pub jobs: Vec<JobPart>,
    /// The brittle deadline, of a mixed session alone.
    pub brittle: Option<u64>,
    /// The chosen row, or 16 for idle.
    pub chosen: u64,
    /// The word that decided between the candidates.
    pub word: Option<u64>,
    pub span: u64,
    pub cause: Cause,
}

/// The chosen row of an explanation in which nothing runs.
pub const IDLE_PART: u64 = IDLE as u64;

/// An explanation, and how many words a choice with the same words uses.
#[derive(Clone, Debug, PartialEq, Eq)]
pub struct Explained {
    pub explanation: Explanation,
    pub words_used: usize,
}

/// Explains the choice that these words lead to, in a session of any content; or the
/// refusal of that choice.
pub fn explain(session: &Session, words: &[u32]) -> Result<Explained, Answer> {
    if session.is_sound() {
        explain_sound(session, words)
    } else {
        Err(Answer::refused(5, 0, 0))
    }
}

/// The same in a session that the caller knows to be sound.
pub fn explain_sound(session: &Session, words: &[u32]) -> Result<Explained, Answer> {
    if let Some(choice) = session.choice {
        return Err(Answer::refused(8, choice.left, 0));
    }
    let order = session.in_order();
    let candidates = candidates_among(session, order.clone());
    let pick = pick(&candidates, words);
    let span = span(session, pick.row, pick.rest);
    let explanation = Explanation {
        jobs: jobs(session, &order, &candidates),
        brittle: mixed_brittle_deadline(session),
        chosen: u64::from(pick.row),
        word: pick.word.map(u64::from),
        span: span.ticks,
        cause: span.cause,
    };
    Ok(Explained {
        explanation,
        words_used: words.len() - span.rest.len(),
    })
}

/// The waiting jobs, whose rows stand in this order.
fn jobs(session: &Session, order: &[u32], candidates: &[u32]) -> Vec<JobPart> {
    let jobs = order.iter().filter_map(|row| {
        let job = session.job(*row)?;
        Some(JobPart {
            row: u64::from(*row),
            due: job.due,
            budget: job.budget as u64,
            is_candidate: candidates.contains(row),
        })
    });
    jobs.collect()
}

/// A tight session has brittle rows too, but its head alone is a candidate anyhow, so an
/// explanation does not name their deadline.
fn mixed_brittle_deadline(session: &Session) -> Option<u64> {
    match session.kind {
        Kind::Mixed => session.brittle_deadline(),
        Kind::Loose | Kind::Tight => None,
    }
}

/// The candidate that is chosen, the word that decided for it, and the words that are
/// left.
struct Pick<'a> {
    row: u32,
    word: Option<u32>,
    rest: &'a [u32],
}

fn pick<'a>(candidates: &[u32], words: &'a [u32]) -> Pick<'a> {
    let (number, rest) = match candidates.len() {
        // The only candidate takes no word.
        1 => (None, words),
        count => draw(count as u32, words),
    };
    // The words before the one that decides are passed over.
    let used = words.len() - rest.len();
    Pick {
        row: candidates[number.unwrap_or(0) as usize],
        word: number.map(|_| words[used - 1]),
        rest,
    }
}

/// The ticks of a choice, what set them, and the words that are left.
struct Span<'a> {
    ticks: u64,
    cause: Cause,
    rest: &'a [u32],
}

fn span<'a>(session: &Session, row: u32, words: &'a [u32]) -> Span<'a> {
    let Some(count) = lengths(session, row) else {
        // No job is due strictly earlier. Under idle every waiting job would be.
        let cause = match row {
            IDLE => Cause::NothingWaits,
            _ => Cause::Remaining,
        };
        return Span {
            ticks: remaining(session, row),
            cause,
            rest: words,
        };
    };
    let (number, rest) = draw(count, words);
    let (ticks, cause) = match number {
        Some(number) => (number + 1, Cause::Word),
        None => (count, Cause::LackOfWord),
    };
    Span {
        ticks: u64::from(ticks),
        cause,
        rest,
    }
}
