//! Random records of the library: of random bytes, sound, and next to sound; and
//! random lists of arrivals.

use std::array::from_fn;

use crate::record::{store, view};
use crate::rng::Rng;
use crate::session::CLOCK_END;
use crate::sessions::{random_table, sound_session};
use crate::shuffle::{self, Arrival, Session as Record};
use crate::table::{budget, opinion_on, rows_of, Row, HORIZON, ROW_LIMIT};

/// A record of random bytes, or of random numbers of every size; often with a
/// kind and a number of rows that can be.
pub fn random_record(rng: &mut Rng) -> Record {
    let is_sized = rng.chance(1, 2);
    let mut number = || rng.draw() >> if is_sized { rng.below(64) } else { 0 };
    let mut record = Record {
        clock: number(),
        kind: number(),
        count: number(),
        words: from_fn(|_| number() as u32),
        jobs: from_fn(|_| shuffle::Job {
            next: number(),
            due: number(),
            left: number(),
            budget: number(),
        }),
        chosen: number(),
        span: number(),
    };
    if rng.chance(3, 4) {
        record.kind = u64::from(rng.between(1, 3));
        record.count = u64::from(rng.between(1, 16));
    }
    if rng.chance(1, 2) {
        record.kind = set_rows(&mut record, &random_table(rng));
    }
    record
}

/// Puts admitted rows into a record, and gives their kind.
fn set_rows(record: &mut Record, rows: &[Row]) -> u64 {
    record.count = rows.len() as u64;
    for (words, row) in record.words.chunks_exact_mut(3).zip(rows) {
        words.copy_from_slice(&row.numbers());
    }
    opinion_on(rows).expect("an admitted table").kind as u64
}

/// A record with a sound session. Half of them hold random numbers where no call
/// may look.
pub fn sound_record(rng: &mut Rng) -> Record {
    let session = sound_session(rng);
    let is_dirty = rng.chance(1, 2);
    let mut record = if is_dirty {
        random_record(rng)
    } else {
        Record::NONE
    };
    record.kind = set_rows(&mut record, &session.rows);
    for job in &mut record.jobs[..session.rows.len()] {
        job.left = 0;
    }
    store(&mut record, &session);
    if is_dirty && record.span == 0 {
        record.chosen = rng.draw() >> rng.below(64);
    }
    record
}

/// A row of the record's table, or a number next to a limit.
pub fn random_row(rng: &mut Rng, record: &Record) -> u64 {
    match rng.below(4) {
        0 => rng.around(&[0, record.count, 16, 1 << 32]),
        _ => rng.draw() % record.count.max(1),
    }
}

/// Most records of a random list.
const LIST_LIMIT: usize = 40;

/// A random list of arrivals for a record, with numbers of every size in the
/// places for the answers.
pub fn random_list(rng: &mut Rng, record: &Record) -> Vec<Arrival> {
    let rows = match rng.below(8) {
        0 => Vec::new(),
        1..4 => shift_change(rng, record),
        4..6 => {
            let mut rows = random_rows(rng, record);
            rows.retain(|row| !is_ready(record, *row));
            rows
        }
        _ => random_rows(rng, record),
    };
    let mut number = || rng.draw() >> rng.below(64);
    rows.into_iter()
        .map(|row| Arrival {
            row,
            number: number(),
            first: number(),
            second: number(),
        })
        .collect()
}

/// All rows that may arrive, in random order, and mostly others among them.
fn shift_change(rng: &mut Rng, record: &Record) -> Vec<u64> {
    let ready = (0..ROW_LIMIT as u64).filter(|row| is_ready(record, *row));
    let others = rng.pick(&[0, 1, 3, LIST_LIMIT - ROW_LIMIT]);
    let others: Vec<u64> = (0..others).map(|_| random_row(rng, record)).collect();
    let mut rows = Vec::new();
    for row in ready.chain(others) {
        rows.insert(rng.below(rows.len() + 1), row);
    }
    rows
}

/// Rows of any sort, often repeated: one, as many as a table can have, fewer, or
/// more.
fn random_rows(rng: &mut Rng, record: &Record) -> Vec<u64> {
    let length = match rng.below(4) {
        0 => 1,
        1 => 2 + rng.below(ROW_LIMIT - 2),
        2 => ROW_LIMIT,
        _ => ROW_LIMIT + 1 + rng.below(LIST_LIMIT - ROW_LIMIT),
    };
    (0..length).map(|_| random_row(rng, record)).collect()
}

/// Lets no job wait in a record, and every row be ready to arrive. If it was
/// sound, it still is: idle takes over a choice in force.
pub fn make_ready(record: &mut Record) {
    for job in &mut record.jobs {
        job.left = 0;
        job.next = job.next.min(record.clock);
    }
    if record.span > 0 {
        record.chosen = shuffle::IDLE;
    }
}

/// Whether a row is in the record's table and may arrive now.
fn is_ready(record: &Record, row: u64) -> bool {
    let mut jobs = record.jobs.iter().zip(0..record.count);
    let job = jobs.find(|(_, place)| *place == row);
    job.is_some_and(|(job, _)| job.next <= record.clock)
}

/// Sets one field of a sound record to a number next to a limit of its clause
/// of soundness.
pub fn displace(rng: &mut Rng, record: &mut Record) {
    let row = rng.below(record.count as usize);
    let job = record.jobs[row];
    let Record {
        clock,
        kind,
        count,
        chosen,
        span,
        ..
    } = *record;
    match rng.below(14) {
        0 => {
            let arrival = job.next.wrapping_sub(u64::from(record.words[3 * row + 1]));
            record.clock = rng.around(&[0, clock, CLOCK_END, job.due, arrival]);
        }
        1 => record.kind = rng.around(&[0, 1, 2, 3, (1 << 32) + kind]),
        2 => record.count = rng.around(&[0, 1, count, 16, 17, (1 << 32) + count]),
        3 => record.chosen = rng.around(&[0, row as u64, count, 16, (1 << 32) + chosen]),
        4 => record.span = rng.around(&[0, span, job.left, job.budget, HORIZON, 1 << 32]),
        5 => displace_word(rng, record, row),
        6..8 => fill_budget(rng, record),
        _ => displace_job(rng, record, row),
    }
}

/// Sets the budget of a waiting job to its limit, or to one tick more.
fn fill_budget(rng: &mut Rng, record: &mut Record) {
    let Some(session) = view(record) else {
        return;
    };
    let waiting = (0..session.slots.len()).filter(|row| session.slots[*row].job.is_some());
    let waiting: Vec<usize> = waiting.collect();
    if !waiting.is_empty() {
        let row = rng.pick(&waiting);
        let limit = session.budget_limit(row) as u64;
        record.jobs[row].budget = limit + u64::from(rng.between(0, 1));
    }
}

/// V of a row of a sound record, and 0 if V is negative.
fn positive_v(record: &Record, row: usize) -> u64 {
    let words = &record.words[..3 * record.count as usize];
    budget(&rows_of(words), row).max(0) as u64
}

/// Changes a number of a row's job; or an arrival and its deadline both, so
/// that they stay as far apart as before.
fn displace_job(rng: &mut Rng, record: &mut Record, row: usize) {
    let v = positive_v(record, row);
    let [run, period, deadline] = from_fn(|place| u64::from(record.words[3 * row + place]));
    let Record { clock, span, .. } = *record;
    let latest = clock + period;
    let job = &mut record.jobs[row];
    match rng.below(6) {
        0 => job.next = rng.around(&[0, job.next, latest, job.due]),
        1 => job.due = rng.around(&[0, job.due, job.next, clock, 1 << 54, 1 << 63]),
        2 => job.left = rng.around(&[0, 1, run, span, 1 << 32]),
        3 => {
            let limits = [0, v, deadline - run, span, 1 << 63, 1 << 32];
            job.budget = rng.around(&limits);
        }
        _ => {
            job.next = rng.around(&[0, latest, latest - deadline, 1 << 54, 1 << 63]);
            job.due = job.next.wrapping_sub(period).wrapping_add(deadline);
        }
    }
}

/// Changes a word of a row, often so that its V becomes 0 or −1, or its D − C the
/// budget of its job or one less. Half the time the job's deadline follows, so
/// that it still fits T and D.
fn displace_word(rng: &mut Rng, record: &mut Record, row: usize) {
    let v = positive_v(record, row);
    let job = &mut record.jobs[row];
    let budget = if job.left == 0 { 0 } else { job.budget };
    let words = &mut record.words[3 * row..3 * row + 3];
    let [run, period, deadline] = [words[0], words[1], words[2]].map(u64::from);
    let (place, limits) = match rng.below(3) {
        0 => (0, vec![0, run, run + v, deadline - budget, deadline]),
        1 => (1, vec![0, period, deadline, HORIZON]),
        _ => (2, vec![0, run, deadline - v, run + budget, period]),
    };
    words[place] = rng.around(&limits) as u32;
    if rng.chance(1, 2) {
        let [period, deadline] = [words[1], words[2]].map(u64::from);
        job.due = job.next.wrapping_sub(period).wrapping_add(deadline);
    }
}
