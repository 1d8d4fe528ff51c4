//! The model's view of a record of the library, and what each call must make
//! of the record.

use crate::calls::{arrive_all, perform, Answer, Arrival, Call};
use crate::explanation_text::explain_into;
use crate::meter::Question;
use crate::session::{Choice, Job, Session, Slot};
use crate::shuffle::{self, Judgement, Reply, Session as Record};
use crate::table::{opinion, rows_of, Kind, Opinion, Refusal, ROW_LIMIT};

/// A call of the library that gives one answer, with its arguments.
#[derive(Clone, Debug)]
pub enum Request {
    /// Of the opinion only the number and the two values are the answer here.
    Opinion(Vec<u32>),
    Start(Vec<u32>),
    Arrive(u64),
    Choose(Vec<u32>),
    Advance(u64),
    Finish,
}

impl Request {
    /// Makes the call.
    pub fn perform(&self, record: &mut Record) -> Reply {
        match self {
            Request::Opinion(words) => reply_to(&shuffle::opinion(words)),
            Request::Start(words) => record.restart(words),
            Request::Arrive(row) => record.arrive(*row),
            Request::Choose(words) => record.choose(words),
            Request::Advance(ticks) => record.advance(*ticks),
            Request::Finish => record.finish(),
        }
    }
}

/// The session that a record holds, unless its numbers are those of none. A
/// session of the model may still be unsound.
pub fn view(record: &Record) -> Option<Session> {
    let kind = match record.kind {
        1 => Kind::Loose,
        2 => Kind::Tight,
        3 => Kind::Mixed,
        _ => return None,
    };
    let count = usize::try_from(record.count).ok();
    let count = count.filter(|count| *count <= ROW_LIMIT)?;
    let slots = record.jobs[..count].iter().map(view_slot);
    Some(Session {
        clock: record.clock,
        rows: rows_of(&record.words[..3 * count]),
        kind,
        slots: slots.collect::<Option<_>>()?,
        choice: match record.span {
            0 => None,
            left => Some(Choice {
                row: u32::try_from(record.chosen).ok()?,
                left,
            }),
        },
    })
}

fn view_slot(job: &shuffle::Job) -> Option<Slot> {
    let waiting = match job.left {
        0 => None,
        left => Some(Job {
            due: job.due,
            left,
            budget: i64::try_from(job.budget).ok()?,
        }),
    };
    Some(Slot {
        next: job.next,
        job: waiting,
    })
}

/// Whether the specification calls the record sound.
pub fn is_sound(record: &Record) -> bool {
    view(record).is_some_and(|session| session.is_sound())
}

/// The answer that a call must give, and the record that it must leave.
pub fn expected(record: &Record, request: &Request) -> (Reply, Record) {
    match request {
        Request::Opinion(words) => (reply_to(&judgement_of(&opinion(words))), *record),
        Request::Start(words) => expected_start(record, &opinion(words), words),
        // The model's numbers are of 32 bits. Any greater row is not in the
        // table, as the greatest of 32 bits is not.
        Request::Arrive(row) => {
            let (mut reply, after) = expected_call(record, Call::Arrive(narrow(*row)));
            if reply.number == 6 {
                reply.first = *row;
            }
            (reply, after)
        }
        Request::Choose(words) => expected_call(record, Call::Choose(words)),
        // Any greater number is above the ticks left of a sound session.
        Request::Advance(ticks) => expected_call(record, Call::Advance(narrow(*ticks))),
        Request::Finish => expected_call(record, Call::Finish),
    }
}

fn narrow(number: u64) -> u32 {
    u32::try_from(number).unwrap_or(u32::MAX)
}

/// The answer to a start and the record that it must leave, by the opinion on its words:
/// a refused one leaves the record as it was.
pub fn expected_start(
    record: &Record,
    opinion: &Result<Opinion, Refusal>,
    words: &[u32],
) -> (Reply, Record) {
    let reply = reply_to(&judgement_of(opinion));
    if opinion.is_err() {
        return (reply, *record);
    }
    let mut fresh = Record {
        kind: reply.first,
        count: reply.second,
        ..Record::NONE
    };
    fresh.words[..words.len()].copy_from_slice(words);
    (reply, fresh)
}

/// The number and the two values of an opinion.
fn reply_to(judgement: &Judgement) -> Reply {
    Reply {
        number: judgement.number,
        used: 0,
        first: judgement.first,
        second: judgement.second,
    }
}

/// The model's opinion as the library gives it.
pub fn judgement_of(opinion: &Result<Opinion, Refusal>) -> Judgement {
    let mut budgets = [0; ROW_LIMIT];
    let (number, [first, second]) = match opinion {
        Err(refusal) => (refusal.number, refusal.values),
        Ok(opinion) => {
            let count = opinion.budgets.len();
            budgets[..count].copy_from_slice(&opinion.budgets);
            (0, [opinion.kind as u64, count as u64])
        }
    };
    Judgement {
        number: u64::from(number),
        first,
        second,
        budgets,
    }
}

/// The answer to a call on a record that holds no session.
const UNSOUND: Reply = Reply {
    number: 5,
    used: 0,
    first: 0,
    second: 0,
};

/// The model's answer as the library gives it.
pub fn reply_of(answer: Answer) -> Reply {
    let [first, second] = answer.values;
    reply(answer.number, answer.words_used, first, second)
}

fn reply(number: u32, used: usize, first: u64, second: u64) -> Reply {
    Reply {
        number: u64::from(number),
        used: used as u64,
        first,
        second,
    }
}

fn expected_call(record: &Record, call: Call) -> (Reply, Record) {
    let Some(mut session) = view(record) else {
        return (UNSOUND, *record);
    };
    let answer = perform(&mut session, call);
    let mut after = *record;
    if answer.number == 0 {
        store(&mut after, &session);
    }
    (reply_of(answer), after)
}

/// The list that a batch must leave, with the answers, and the record that it
/// must leave. The answers' places may hold anything before.
pub fn expected_batch(
    record: &Record,
    list: &[shuffle::Arrival],
) -> (Vec<shuffle::Arrival>, Record) {
    let rows = list.iter().map(|arrival| arrival.row);
    let Some(mut session) = view(record) else {
        return (rows.map(|row| answered(row, UNSOUND)).collect(), *record);
    };
    let mut arrivals: Vec<Arrival> = rows.map(Arrival::of).collect();
    arrive_all(&mut session, &mut arrivals);
    let mut after = *record;
    // Without an arrival nothing changes, not even what no call looks at.
    if arrivals.iter().any(Arrival::is_accepted) {
        store(&mut after, &session);
    }
    let list = arrivals
        .iter()
        .map(|arrival| answered(arrival.row, reply_of(arrival.answer)));
    (list.collect(), after)
}

/// A record of a list with its answer.
pub fn answered(row: u64, reply: Reply) -> shuffle::Arrival {
    shuffle::Arrival {
        row,
        number: reply.number,
        first: reply.first,
        second: reply.second,
    }
}

/// Writes what calls may change of a session into its record: clock, jobs and
/// choice. Where no job waited before or after, only the earliest next arrival
/// is set.
pub fn store(record: &mut Record, session: &Session) {
    record.clock = session.clock;
    for (job, slot) in record.jobs.iter_mut().zip(&session.slots) {
        let next = slot.next;
        *job = match slot.job {
            Some(Job { due, left, budget }) => shuffle::Job {
                next,
                due,
                left,
                budget: budget as u64,
            },
            None if job.left == 0 => shuffle::Job { next, ..*job },
            None => shuffle::Job {
                next,
                ..shuffle::Job::default()
            },
        };
    }
    let choice = session.choice.map(|choice| (choice.row, choice.left));
    let (row, left) = choice.unwrap_or_default();
    record.chosen = u64::from(row);
    record.span = left;
}

/// The library's answer to a question, about these rows instead of its own.
pub fn ask_library(question: &Question, rows: &[u8]) -> Reply {
    let Question {
        stretches,
        ticks,
        window,
        threshold,
        ..
    } = *question;
    shuffle::meter(rows, stretches, ticks, window, threshold as u64)
}

// SAFETY: this is the library's signature. The record is passed as a raw pointer and not as
// a reference, so that the compiler takes none of its bytes as unchanged by the call, and a
// comparison with what it was before means something. The words, and the buffer, are pointer
// and length of one slice.
unsafe extern "C" {
    fn shuffle_explain(
        session: *const Record,
        words: *const u32,
        n: usize,
        buffer: *mut u8,
        size: usize,
    ) -> Reply;
}

/// The library's explanation of a choice with these words, its text in the buffer.
pub fn explain_by_library(record: &mut Record, words: &[u32], buffer: &mut [u8]) -> Reply {
    // SAFETY: each slice is passed whole. Nothing overlaps: record and buffer are borrowed for
    // change.
    unsafe {
        shuffle_explain(
            record,
            words.as_ptr(),
            words.len(),
            buffer.as_mut_ptr(),
            buffer.len(),
        )
    }
}

/// The answer to that call; the buffer becomes what the call must leave of it. The record
/// stays.
pub fn expected_explanation(record: &Record, words: &[u32], buffer: &mut [u8]) -> Reply {
    let session = view(record);
    session.map_or(UNSOUND, |session| {
        reply_of(explain_into(&session, words, buffer))
    })
}
