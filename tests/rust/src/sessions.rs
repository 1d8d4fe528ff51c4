//! Random sound sessions of any shape, not only of those that calls lead to.

use crate::rng::Rng;
use crate::session::{start_rows, Choice, Job, Session, Slot, CLOCK_END, IDLE};
use crate::table::{budget, Kind, Row, HORIZON};
use crate::tables::{
    admitted, close_rows, counting_rows, full_rows, light_rows, part_brittle_rows, roomy_rows,
    small_rows, staggered_rows, urgent_rows, RowMaker,
};

/// An admitted table whose soundness the model decides quickly.
pub fn random_table(rng: &mut Rng) -> Vec<Row> {
    let makers: [RowMaker; 13] = [
        close_rows,
        counting_rows,
        part_brittle_rows,
        part_brittle_rows,
        light_rows,
        roomy_rows,
        roomy_rows,
        small_rows,
        small_rows,
        full_rows,
        full_rows,
        urgent_rows,
        staggered_rows,
    ];
    let make = rng.pick(&makers);
    admitted(rng, make)
}

pub fn sound_session(rng: &mut Rng) -> Session {
    let mut session = start_rows(&random_table(rng)).expect("an admitted table");
    session.clock = match rng.below(5) {
        0 => edge(rng, 0, 20),
        1 => edge(rng, 0, HORIZON),
        2 => CLOCK_END - edge(rng, 0, 20),
        3 => CLOCK_END - edge(rng, 0, HORIZON),
        _ => edge(rng, 0, CLOCK_END),
    };
    for row in 0..session.rows.len() {
        session.slots[row] = sound_slot(rng, &session, row);
    }
    if rng.chance(1, 2) {
        tie(rng, &mut session);
    }
    if rng.chance(1, 4) {
        let_all_wait(rng, &mut session);
    }
    if session.kind == Kind::Mixed && rng.chance(2, 3) {
        let_brittle_jobs_come(rng, &mut session);
    }
    if rng.chance(1, 6) {
        meet_an_arrival(rng, &mut session);
    }
    if rng.chance(1, 2) {
        let choice = sound_choice(rng, &session);
        session.choice = Some(choice);
        if rng.chance(1, 2) {
            fill_later_budgets(rng, &mut session, choice);
        }
    }
    assert!(session.is_sound(), "{session:?}");
    session
}

/// A number from `low` to `high`, often one of the two.
fn edge(rng: &mut Rng, low: u64, high: u64) -> u64 {
    match rng.below(4) {
        0 => low,
        1 => high,
        _ => low + rng.draw() % (high - low + 1),
    }
}

fn sound_slot(rng: &mut Rng, session: &Session, row: usize) -> Slot {
    let Row {
        period, deadline, ..
    } = session.rows[row];
    let clock = session.clock;
    if rng.chance(1, 3) {
        let next = edge(rng, 0, clock + u64::from(period));
        return Slot { next, job: None };
    }
    let due = clock + edge(rng, 1, u64::from(deadline));
    waiting_slot(rng, session, row, due)
}

/// A row whose job waits for a deadline from clock + 1 to clock + D.
fn waiting_slot(rng: &mut Rng, session: &Session, row: usize, due: u64) -> Slot {
    let Row {
        run,
        period,
        deadline,
    } = session.rows[row];
    Slot {
        next: due + u64::from(period - deadline),
        job: Some(Job {
            due,
            left: edge(rng, 1, u64::from(run)),
            budget: sound_budget(rng, session, row) as i64,
        }),
    }
}

/// Any budget that a job of a row can have; often 0, V, or the most that it can be.
fn sound_budget(rng: &mut Rng, session: &Session, row: usize) -> u64 {
    let v = budget(&session.rows, row).max(0) as u64;
    let limit = session.budget_limit(row) as u64;
    match rng.below(3) {
        0 => edge(rng, 0, v),
        1 => edge(rng, v, limit),
        _ => edge(rng, 0, limit),
    }
}

/// Lets jobs of some rows wait for one deadline. How early each arrived is then
/// up to its D: at a small clock, before tick 0.
fn tie(rng: &mut Rng, session: &mut Session) {
    let part = rng.between(1, 4) as usize;
    let rows = (0..session.rows.len()).filter(|_| rng.chance(part, 4));
    let rows: Vec<usize> = rows.collect();
    let deadlines = rows.iter().map(|row| session.rows[*row].deadline);
    let shortest = deadlines.min().unwrap_or(1);
    let due = session.clock + edge(rng, 1, u64::from(shortest));
    for row in rows {
        session.slots[row] = waiting_slot(rng, session, row, due);
    }
}

/// Lets a job of each row wait, with a budget of at least 1 where that can be: then
/// all of them and idle are candidates.
fn let_all_wait(rng: &mut Rng, session: &mut Session) {
    for row in 0..session.rows.len() {
        let deadline = u64::from(session.rows[row].deadline);
        let due = session.clock + edge(rng, 1, deadline);
        let waiting = session.slots[row].job;
        let due = waiting.map_or(due, |job| job.due);
        session.slots[row] = waiting_slot(rng, session, row, due);
        let limit = session.budget_limit(row);
        if let Some(job) = &mut session.slots[row].job {
            job.budget = job.budget.max(1).min(limit);
        }
    }
}

/// Lets no job of a brittle row wait, and the next one of each be due about when some
/// waiting job is, or later, or earlier.
fn let_brittle_jobs_come(rng: &mut Rng, session: &mut Session) {
    for row in 0..session.rows.len() {
        if !session.is_brittle(row) {
            continue;
        }
        let Row {
            period, deadline, ..
        } = session.rows[row];
        session.slots[row].job = None;
        let latest = session.clock + u64::from(period);
        let due: Vec<u64> = session.waiting().map(|job| job.due).collect();
        let next = if due.is_empty() || rng.chance(1, 2) {
            edge(rng, session.clock, latest)
        } else {
            let due = rng.pick(&due) + u64::from(rng.between(0, 2));
            due.saturating_sub(u64::from(deadline) + 1)
        };
        session.slots[row].next = next.min(latest);
    }
}

/// Lets some row be ready to arrive, and others have a job, waiting or to come, that is
/// due when that of this row would be, or a tick earlier or later.
fn meet_an_arrival(rng: &mut Rng, session: &mut Session) {
    let row = rng.below(session.rows.len());
    let clock = session.clock;
    session.slots[row] = Slot {
        next: edge(rng, 0, clock),
        job: None,
    };
    for other in (0..session.rows.len()).filter(|other| *other != row) {
        let due = clock + u64::from(session.rows[row].deadline + rng.between(0, 2)) - 1;
        let [_, period, deadline] = session.rows[other].numbers().map(u64::from);
        match rng.below(4) {
            0 if clock < due && due <= clock + deadline => {
                session.slots[other] = waiting_slot(rng, session, other, due);
            }
            1 if clock + deadline <= due => {
                let ahead = (due - deadline - clock) % period;
                session.slots[other] = Slot {
                    next: clock + ahead,
                    job: None,
                };
            }
            _ => {}
        }
    }
}

/// A choice that fits the jobs of a session. There always is one: the head, or
/// idle if no job waits.
fn sound_choice(rng: &mut Rng, session: &Session) -> Choice {
    let longest = |row: u32| {
        let remaining = session.job(row).map_or(HORIZON, |job| job.left);
        let budgets = session.earlier(row).map(|job| job.budget as u64);
        budgets.fold(remaining, u64::min)
    };
    let waiting = (0..IDLE).filter(|row| session.job(*row).is_some());
    let rows = waiting.chain([IDLE]).filter(|row| longest(*row) > 0);
    let row = rng.pick(&rows.collect::<Vec<u32>>());
    Choice {
        row,
        left: edge(rng, 1, longest(row)),
    }
}

/// Brings budgets of later jobs so close to their limits that these cut off
/// what a finish of the chosen job gives, or leave room for just one tick more.
fn fill_later_budgets(rng: &mut Rng, session: &mut Session, choice: Choice) {
    let Some(chosen) = session.job(choice.row).copied() else {
        return;
    };
    for row in 0..session.slots.len() {
        let limit = session.budget_limit(row) as u64;
        if let Some(job) = &mut session.slots[row].job {
            if job.due > chosen.due && rng.chance(1, 2) {
                let room = edge(rng, 0, chosen.left + 1);
                job.budget = limit.saturating_sub(room) as i64;
            }
        }
    }
}
