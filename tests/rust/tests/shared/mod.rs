//! Sessions and questions that several tests begin with.

#![allow(dead_code)] // no test uses all of it

use shuffle_model::calls::{perform, Answer, Call};
use shuffle_model::meter::Question;
use shuffle_model::session::{start, Choice, Job, Session, Slot};

/// C, T, D of four rows. With every D below every T, V of a row is its D less
/// the C of all rows, 14: V is 6, 16, 26, 36. D − C is 16, 27, 38, 45. A job that
/// arrives while each other row waits or may come at once has D less its own C and
/// those of the rows before it: 16, 23, 31, 36. When all of them have arrived on one
/// tick there are 5 candidates, and 3 lengths for row 1, 2 for row 2, 5 for row 3, 16
/// for idle.
pub const FOUR: [[u32; 3]; 4] = [[4, 100, 20], [3, 100, 30], [2, 100, 40], [5, 100, 50]];

pub fn fresh(rows: &[[u32; 3]]) -> Session {
    start(&rows.concat()).unwrap()
}

/// A session of these rows at tick 0 at which a job of each has just arrived.
pub fn arrived(rows: &[[u32; 3]]) -> Session {
    let mut session = fresh(rows);
    for row in 0..rows.len() as u32 {
        assert_eq!(perform(&mut session, Call::Arrive(row)).number, 0);
    }
    session
}

pub fn job(due: u64, left: u64, budget: i64) -> Option<Job> {
    Some(Job { due, left, budget })
}

/// A sound session: for each row its numbers and its waiting job, if any.
pub fn waiting(clock: u64, rows: &[([u32; 3], Option<Job>)]) -> Session {
    let numbers: Vec<[u32; 3]> = rows.iter().map(|(row, _)| *row).collect();
    let mut session = fresh(&numbers);
    session.clock = clock;
    for (slot, (row, job)) in session.slots.iter_mut().zip(rows) {
        let [_, period, deadline] = row.map(u64::from);
        if let Some(waiting) = job {
            *slot = Slot {
                next: waiting.due + period - deadline,
                job: *job,
            };
        }
    }
    assert!(session.is_sound(), "{session:?}");
    session
}

/// Makes a call that must be accepted and leave a sound session.
pub fn accept(session: &mut Session, call: Call) -> Answer {
    let answer = perform(session, call);
    assert_eq!(answer.number, 0, "{call:?}");
    assert!(session.is_sound(), "{session:?}");
    answer
}

/// Finishes the job of a row, of which so many ticks are left in the choice.
pub fn finish(session: &mut Session, row: u32, left: u64) -> [u64; 2] {
    session.choice = Some(Choice { row, left });
    accept(session, Call::Finish).values
}

/// The budget of each row's job, none if no job of the row waits.
pub fn budgets(session: &Session) -> Vec<Option<i64>> {
    let slots = session.slots.iter();
    slots.map(|slot| slot.job.map(|job| job.budget)).collect()
}

/// The question about these stretches, which are of one length.
pub fn question(stretches: &[&[u8]], window: usize, threshold: usize) -> Question {
    let ticks = stretches[0].len();
    assert!(stretches.iter().all(|stretch| stretch.len() == ticks));
    Question {
        rows: stretches.concat(),
        stretches: stretches.len(),
        ticks,
        window,
        threshold,
    }
}

/// A question of K, L, m and so many rows, all 0.
pub fn zeros([stretches, ticks, window, length]: [usize; 4]) -> Question {
    Question {
        rows: vec![0; length],
        stretches,
        ticks,
        window,
        threshold: 0,
    }
}
