//! Equal deadlines go by who came first, in sessions of any sound content.

use shuffle_model::calls::{candidates, perform, Call};
use shuffle_model::session::{start, Job, Session, Slot, CLOCK_END, IDLE};
use shuffle_model::table::{Kind, Row, HORIZON};

/// A sound session in which a job of each row waits for one deadline, with the
/// given budget.
fn tied(clock: u64, due: u64, jobs: &[([u32; 3], i64)]) -> Session {
    let numbers: Vec<u32> = jobs.iter().flat_map(|(row, _)| *row).collect();
    let mut session = start(&numbers).unwrap();
    session.clock = clock;
    for (slot, (row, budget)) in session.slots.iter_mut().zip(jobs) {
        *slot = waiting_slot(Row::from(*row), due, *budget);
    }
    assert!(session.is_sound(), "{session:?}");
    session
}

fn waiting_slot(row: Row, due: u64, budget: i64) -> Slot {
    Slot {
        next: due + u64::from(row.period) - u64::from(row.deadline),
        job: Some(Job {
            due,
            left: u64::from(row.run),
            budget,
        }),
    }
}

/// As `tied`, with C 1, T 100 and the given D, and budget 1.
fn tied_rows(clock: u64, due: u64, deadlines: &[u32]) -> Session {
    let jobs: Vec<_> = deadlines.iter().map(|d| ([1, 100, *d], 1)).collect();
    tied(clock, due, &jobs)
}

fn arrivals(session: &Session) -> Vec<i128> {
    (0..IDLE).filter_map(|row| session.arrival(row)).collect()
}

/// The row that a choice with these words gives.
fn chosen(session: &Session, words: &[u32]) -> u64 {
    let answer = perform(&mut session.clone(), Call::Choose(words));
    assert_eq!(answer.number, 0);
    answer.values[0]
}

/// Checks the arrivals, the order, the candidates and every picked number.
fn check_order(session: &Session, expected_arrivals: &[i128], order: &[u32]) {
    assert_eq!(arrivals(session), expected_arrivals, "{session:?}");
    assert_eq!(session.in_order(), order, "{session:?}");
    let with_idle = [order, &[IDLE]].concat();
    assert_eq!(candidates(session), with_idle, "{session:?}");
    assert_eq!(chosen(session, &[]), u64::from(order[0]));
    for (word, row) in (0..).zip(with_idle) {
        assert_eq!(chosen(session, &[word]), u64::from(row), "{word}");
    }
}

#[test]
fn arrival_decides_between_equal_deadlines() {
    let session = tied_rows(15, 20, &[10, 20, 15]);
    check_order(&session, &[10, 0, 5], &[1, 2, 0]);
    let session = tied_rows(15, 20, &[20, 10, 15]);
    check_order(&session, &[0, 10, 5], &[0, 2, 1]);
}

#[test]
fn row_number_decides_between_equal_arrivals() {
    let session = tied_rows(15, 20, &[10, 20, 10, 20]);
    check_order(&session, &[10, 0, 10, 0], &[1, 3, 0, 2]);
}

#[test]
fn deadline_comes_before_arrival() {
    let mut session = tied_rows(15, 21, &[10, 20, 15]);
    session.slots[0] = waiting_slot(session.rows[0], 20, 1);
    check_order(&session, &[10, 1, 6], &[0, 1, 2]);
}

#[test]
fn arrivals_below_zero_stand_first() {
    // Neither cut off at 0 nor wrapped.
    let session = tied_rows(2, 8, &[7, 8, 10, 20]);
    check_order(&session, &[1, 0, -2, -12], &[3, 2, 1, 0]);
    let session = tied_rows(2, 8, &[10, 7, 20, 8]);
    check_order(&session, &[-2, 1, -12, 0], &[2, 0, 3, 1]);
    let session = tied_rows(0, 1, &[99, 100, 99]);
    check_order(&session, &[-98, -99, -98], &[1, 0, 2]);
}

#[test]
fn arrivals_are_exact_at_both_ends_of_the_clock() {
    let longest = HORIZON as u32;
    let rows = [longest - 1, longest].map(|d| ([1, longest, d], 1));
    let session = tied(0, 1, &rows);
    assert_eq!(session.slots[1].next, 1);
    check_order(&session, &[-999_998, -999_999], &[1, 0]);
    let session = tied(CLOCK_END, CLOCK_END + 1, &rows);
    let first = i128::from(CLOCK_END) + 1 - 1_000_000;
    check_order(&session, &[first + 1, first], &[1, 0]);
    let session = tied(CLOCK_END, CLOCK_END + HORIZON - 1, &rows);
    let last = i128::from(CLOCK_END);
    check_order(&session, &[last, last - 1], &[1, 0]);
}

#[test]
fn only_waiting_jobs_have_an_arrival() {
    // Row 1 would be the head, if it still waited.
    for next in [0, 100, 115] {
        let mut session = tied_rows(15, 20, &[10, 20, 15]);
        session.slots[1] = Slot { next, job: None };
        assert!(session.is_sound());
        assert_eq!([1, 3, IDLE].map(|row| session.arrival(row)), [None; 3]);
        check_order(&session, &[10, 5], &[2, 0]);
    }
}

#[test]
fn budget_of_the_first_to_come_decides_whether_it_can_wait() {
    let rows = [[1, 100, 10], [1, 100, 20], [1, 100, 30]];
    let session = |budgets: [i64; 3]| {
        let jobs: Vec<_> = rows.into_iter().zip(budgets).collect();
        let mut session = tied(15, 20, &jobs);
        session.slots[2] = waiting_slot(Row::from(rows[2]), 30, budgets[2]);
        session
    };
    assert_eq!(candidates(&session([7, 0, 7])), [1]);
    // The other one's budget bars later jobs alone.
    assert_eq!(candidates(&session([0, 7, 7])), [1, 0]);
    assert_eq!(candidates(&session([1, 1, 0])), [1, 0, 2]);
    assert_eq!(candidates(&session([1, 1, 1])), [1, 0, 2, IDLE]);
}

#[test]
fn a_spent_budget_does_not_bar_one_of_equal_deadline_that_came_later() {
    // Row 1 came first, then row 2, which has spent its budget, then row 0.
    let mut session = tied_rows(15, 20, &[10, 20, 15]);
    session.slots[2] = waiting_slot(session.rows[2], 20, 0);
    assert_eq!(candidates(&session), [1, 2, 0]);
    assert_eq!(chosen(&session, &[2]), 0);
}

#[test]
fn equal_deadlines_neither_limit_nor_charge_each_other() {
    // Row 1 came first, with a budget of 1 left.
    let mut session = tied(10, 20, &[([4, 50, 10], 2), ([4, 50, 20], 1)]);
    let answer = perform(&mut session, Call::Choose(&[1, 0]));
    assert_eq!((answer.values, answer.words_used), ([0, 4], 1));
    assert!(session.is_sound());
    assert_eq!(perform(&mut session, Call::Advance(3)).number, 0);
    let budgets =
        |session: &Session| -> Vec<i64> { session.waiting().map(|job| job.budget).collect() };
    assert_eq!(budgets(&session), [2, 1]);
    assert!(session.is_sound());
    // The other way round; idle charges both.
    session.choice = None;
    let answer = perform(&mut session, Call::Choose(&[0, 0]));
    assert_eq!((answer.values, answer.words_used), ([1, 4], 1));
    assert_eq!(perform(&mut session, Call::Advance(1)).number, 0);
    assert_eq!(budgets(&session), [2, 1]);
    session.choice = None;
    let answer = perform(&mut session, Call::Choose(&[2, 5]));
    assert_eq!((answer.values, answer.words_used), ([16, 1], 2));
    assert_eq!(perform(&mut session, Call::Advance(1)).number, 0);
    assert_eq!(budgets(&session), [1, 0]);
}

#[test]
fn a_tight_session_runs_the_first_to_come() {
    // At 2 and at the start, where both arrivals lie below 0.
    for (clock, due, expected) in [(2, 6, [2, 0]), (0, 3, [-1, -3])] {
        let session = tied(clock, due, &[([2, 4, 4], 0), ([3, 6, 6], 0)]);
        assert_eq!(session.kind, Kind::Tight);
        assert_eq!(arrivals(&session), expected);
        assert_eq!(candidates(&session), [1]);
        let mut after = session.clone();
        let answer = perform(&mut after, Call::Choose(&[1, 1]));
        assert_eq!((answer.values, answer.words_used), ([1, 3], 0));
    }
}
