//! The measured sides: the library, the model, and a model that scans ticks,
//! each call with the check of soundness and without it. The names of the
//! functions here are what the counts go by.

use std::hint::black_box;

use shuffle_model::calls::{self, arrive_all, perform, perform_on_sound, Call};
use shuffle_model::explanation_text::explain_into;
use shuffle_model::meter::{meter, Question};
use shuffle_model::record::{answered, ask_library, explain_by_library, reply_of, Request};
use shuffle_model::session::{start, Session};
use shuffle_model::shuffle::{self, Arrival, Reply, Session as Record};
use shuffle_model::table::{
    kind_by_scan, opinion, opinion_by, overloads_by_scan, rows_of, Kind, Opinion, Refusal,
};

use crate::arrivals::Lent;
use crate::explanations::Asked;

// SAFETY: these are the library's signatures (tests/cores). The record must be
// sound; pointer and length must be of one slice.
unsafe extern "C" {
    fn core_arrive(session: &mut Record, row: u64) -> Reply;
    fn core_choose(session: &mut Record, words: *const u32, n: usize) -> Reply;
    fn core_advance(session: &mut Record, ticks: u64) -> Reply;
    fn core_finish(session: &mut Record) -> Reply;
}

/// A call of the library on any record.
#[no_mangle]
#[inline(never)]
pub fn library_checked(record: &mut Record, request: &Request) -> Reply {
    request.perform(record)
}

/// A call of the library on a record that is known to be sound. Opinion and start have
/// no such form.
#[no_mangle]
#[inline(never)]
pub fn library_core(record: &mut Record, request: &Request) -> Reply {
    // SAFETY: the cases' records are sound, and each slice is passed whole.
    unsafe {
        match request {
            Request::Opinion(_) | Request::Start(_) => request.perform(record),
            Request::Arrive(row) => core_arrive(record, *row),
            Request::Choose(words) => core_choose(record, words.as_ptr(), words.len()),
            Request::Advance(ticks) => core_advance(record, *ticks),
            Request::Finish => core_finish(record),
        }
    }
}

fn call_of(request: &Request) -> Option<Call<'_>> {
    match request {
        Request::Opinion(_) | Request::Start(_) => None,
        Request::Arrive(row) => Some(Call::Arrive(*row as u32)),
        Request::Choose(words) => Some(Call::Choose(words)),
        Request::Advance(ticks) => Some(Call::Advance(*ticks as u32)),
        Request::Finish => Some(Call::Finish),
    }
}

fn admitted(kind: Kind, count: usize) -> Reply {
    Reply {
        number: 0,
        used: 0,
        first: kind as u64,
        second: count as u64,
    }
}

#[no_mangle]
#[inline(never)]
pub fn model_checked(session: &mut Session, request: &Request) -> Reply {
    match call_of(request) {
        Some(call) => reply_of(perform(session, call)),
        None => model_table(session, request),
    }
}

#[no_mangle]
#[inline(never)]
pub fn model_core(session: &mut Session, request: &Request) -> Reply {
    match call_of(request) {
        Some(call) => reply_of(perform_on_sound(session, call)),
        None => model_table(session, request),
    }
}

fn model_table(session: &mut Session, request: &Request) -> Reply {
    match request {
        Request::Opinion(words) => {
            let opinion = opinion(words).expect("the tables are admitted");
            admitted(opinion.kind, opinion.budgets.len())
        }
        Request::Start(words) => {
            *session = start(words).expect("the tables are admitted");
            admitted(session.kind, session.rows.len())
        }
        _ => unreachable!("every other request is a call"),
    }
}

/// The model with the definitions of busy length and overload tried tick by
/// tick.
#[no_mangle]
#[inline(never)]
pub fn scan_checked(session: &mut Session, request: &Request) -> Reply {
    match (request, call_of(request)) {
        (_, Some(call)) => {
            let kind = kind_by_scan(&session.rows);
            assert!(kind == Some(session.kind) && session.fits_its_table());
            reply_of(perform_on_sound(session, call))
        }
        (Request::Opinion(words) | Request::Start(words), None) => {
            let kind = kind_by_scan(&rows_of(words)).expect("the tables are admitted");
            admitted(kind, words.len() / 3)
        }
        _ => unreachable!("every other request is a call"),
    }
}

/// One call of the library for the whole list.
#[no_mangle]
#[inline(never)]
pub fn library_arrive_all(lent: &mut Lent<Record, Arrival>) {
    lent.session.arrive_all(&mut lent.list);
}

/// A call of the library for each record of the list, with its answer kept.
#[no_mangle]
#[inline(never)]
pub fn library_arrive_each(lent: &mut Lent<Record, Arrival>) {
    for arrival in &mut lent.list {
        *arrival = answered(arrival.row, lent.session.arrive(arrival.row));
    }
}

/// One call of the model for the whole list.
#[no_mangle]
#[inline(never)]
pub fn model_arrive_all(lent: &mut Lent<Session, calls::Arrival>) {
    arrive_all(&mut lent.session, &mut lent.list);
}

/// An explanation of the library, with its text.
#[no_mangle]
#[inline(never)]
pub fn library_explain(asked: &mut Asked<Record>, words: &[u32]) -> Reply {
    explain_by_library(&mut asked.session, words, &mut asked.buffer)
}

/// An explanation of the model, with its text.
#[no_mangle]
#[inline(never)]
pub fn model_explain(asked: &mut Asked<Session>, words: &[u32]) -> Reply {
    reply_of(explain_into(&asked.session, words, &mut asked.buffer))
}

/// One call of the library's meter.
#[no_mangle]
#[inline(never)]
pub fn library_meter(question: &mut Question) -> Reply {
    ask_library(question, &question.rows)
}

/// The model's meter, as the tests have it.
#[no_mangle]
#[inline(never)]
pub fn model_meter(question: &mut Question) -> Reply {
    reply_of(meter(question))
}

/// The answer to a table that is not admitted.
fn refused(opinion: Result<Opinion, Refusal>) -> Reply {
    let Refusal { number, values } = opinion.expect_err("the tables are refused");
    let [first, second] = values;
    Reply {
        number: u64::from(number),
        used: 0,
        first,
        second,
    }
}

/// The model's opinion on a table that it refuses.
#[no_mangle]
#[inline(never)]
pub fn model_refusal(words: &[u32]) -> Reply {
    refused(opinion(words))
}

/// The same, but for the search for an overload: it tries every tick from 1.
#[no_mangle]
#[inline(never)]
pub fn scan_refusal(words: &[u32]) -> Reply {
    refused(opinion_by(words, |rows, limit| {
        overloads_by_scan(rows, limit).next()
    }))
}

/// The library's opinion on each of many tables.
#[no_mangle]
#[inline(never)]
pub fn library_opinions(tables: &[Vec<u32>]) {
    for words in tables {
        black_box(shuffle::opinion(words));
    }
}

/// The model's opinion on each of them.
#[no_mangle]
#[inline(never)]
pub fn model_opinions(tables: &[Vec<u32>]) {
    for words in tables {
        let _ = black_box(opinion(words));
    }
}
