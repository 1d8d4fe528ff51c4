//! Unused time goes to the jobs behind: what a finish gives to whom, and which
//! budgets a sound session can hold. All numbers are worked out by hand.

mod shared;

use shared::{accept, arrived, budgets, finish, fresh, job, waiting, FOUR};
use shuffle_model::calls::{candidates, perform, Call};
use shuffle_model::session::{Choice, Job, Session, Slot, CLOCK_END, IDLE};
use shuffle_model::table::{budget, Kind, Row};

#[test]
fn later_jobs_gain_and_earlier_ones_do_not() {
    let mut session = arrived(&FOUR);
    assert_eq!(
        budgets(&session),
        [Some(16), Some(23), Some(31), Some(36)],
        "D less C of each and of those before it"
    );
    // Word 1 of 5 candidates is row 1. It runs for one tick, which row 0 pays.
    accept(&mut session, Call::Choose(&[1, 2]));
    accept(&mut session, Call::Advance(1));
    assert_eq!(budgets(&session)[0], Some(15));
    // 2 of its 3 ticks are unused: 31 + 2 and 36 + 2, each gains all of them.
    assert_eq!(accept(&mut session, Call::Finish).values, [1, 2]);
    assert_eq!(budgets(&session), [Some(15), None, Some(33), Some(38)]);
    assert_eq!(session.choice, None);
    assert_eq!(session.clock, 1);
}

#[test]
fn the_last_in_order_gives_to_nobody() {
    // Row 3 is for 50, the others are for 20, 30 and 40 and keep what they have.
    let mut session = arrived(&FOUR);
    assert_eq!(finish(&mut session, 3, 5), [3, 5]);
    assert_eq!(budgets(&session), [Some(16), Some(23), Some(31), None]);
}

#[test]
fn a_lone_job_is_over_without_a_gain() {
    // No other job waits, so its 2 ticks go to nobody.
    let mut session = fresh(&FOUR);
    accept(&mut session, Call::Arrive(2));
    assert_eq!(finish(&mut session, 2, 1), [2, 2]);
    assert_eq!(budgets(&session), [None; 4]);
}

#[test]
fn an_equal_deadline_is_not_later() {
    // All for 20 but row 3: row 0 arrived at 10, row 1 at 0, row 2 at 10.
    let start = waiting(
        12,
        &[
            ([2, 100, 10], job(20, 2, 1)),
            ([2, 100, 20], job(20, 2, 2)),
            ([2, 100, 10], job(20, 2, 3)),
            ([2, 100, 30], job(21, 2, 4)),
        ],
    );
    // Before or behind in order, by arrival or by row: only row 3 gains.
    for row in 0..3 {
        let mut session = start.clone();
        finish(&mut session, row, 2);
        let mut expected = [Some(1), Some(2), Some(3), Some(6)];
        expected[row as usize] = None;
        assert_eq!(budgets(&session), expected, "row {row}");
    }
}

#[test]
fn later_means_by_deadline_and_not_by_arrival_or_row() {
    // Row 1 arrived at 0 for 20, row 0 at 12 for 22, row 2 at 15 for 19. One tick
    // is unused, and each has a budget of 1 before.
    let start = waiting(
        15,
        &[
            ([1, 100, 10], job(22, 1, 1)),
            ([1, 100, 20], job(20, 1, 1)),
            ([1, 100, 4], job(19, 1, 1)),
        ],
    );
    for (row, expected) in [
        (0, [None, Some(1), Some(1)]),
        (1, [Some(2), None, Some(1)]),
        (2, [Some(2), Some(2), None]),
    ] {
        let mut session = start.clone();
        finish(&mut session, row, 1);
        assert_eq!(budgets(&session), expected, "row {row}");
    }
}

#[test]
fn the_gain_is_the_remaining_ticks_and_not_the_span() {
    // Row 1 has run for one tick, so that 2 remain; row 0 paid for it.
    for left in [1, 2] {
        let mut session = arrived(&FOUR);
        accept(&mut session, Call::Choose(&[1, 0]));
        accept(&mut session, Call::Advance(1));
        assert_eq!(finish(&mut session, 1, left), [1, 2]);
        assert_eq!(budgets(&session), [Some(15), None, Some(33), Some(38)]);
    }
}

#[test]
fn a_job_that_runs_to_its_end_gives_nothing() {
    // Row 0 is the head and runs for all of its 4 ticks: the others keep what they have.
    let mut session = arrived(&FOUR);
    accept(&mut session, Call::Choose(&[]));
    let answer = accept(&mut session, Call::Advance(4));
    assert_eq!(answer.values, [0, 1]);
    assert_eq!(budgets(&session), [None, Some(23), Some(31), Some(36)]);
}

#[test]
fn a_refused_finish_gives_nothing() {
    // No choice is in force; and word 4 of 5 candidates is idle.
    let start = arrived(&FOUR);
    let mut idle = start.clone();
    accept(&mut idle, Call::Choose(&[4, 5]));
    for (before, number) in [(start, 9), (idle, 11)] {
        let mut session = before.clone();
        assert_eq!(perform(&mut session, Call::Finish).number, number);
        assert_eq!(session, before);
    }
}

#[test]
fn a_job_that_arrives_after_the_finish_gains_nothing() {
    // Row 0 gives 4 to row 3, before row 2 is there.
    let mut session = fresh(&FOUR);
    accept(&mut session, Call::Arrive(0));
    accept(&mut session, Call::Arrive(3));
    finish(&mut session, 0, 4);
    accept(&mut session, Call::Arrive(2));
    // 36 + 4; and 38 less the 3 ticks of row 1, which may still come for 30, while row 0
    // may not come again before 100.
    assert_eq!(budgets(&session), [None, None, Some(35), Some(40)]);
}

#[test]
fn the_next_job_of_a_row_does_not_keep_the_gain() {
    // Row 1 has 23 and gains 4.
    let mut session = arrived(&FOUR);
    finish(&mut session, 0, 4);
    assert_eq!(budgets(&session)[1], Some(27));
    // Rows 1 to 3 run to their ends, then idle up to 100.
    for _ in 1..4 {
        let ticks = accept(&mut session, Call::Choose(&[])).values[1];
        accept(&mut session, Call::Advance(ticks as u32));
    }
    accept(&mut session, Call::Choose(&[]));
    accept(&mut session, Call::Advance(90));
    assert_eq!(session.clock, 100);
    // Row 0 may come at 100 too, for 120, before 130.
    accept(&mut session, Call::Arrive(1));
    assert_eq!(budgets(&session), [None, Some(23), None, None]);
}

#[test]
fn finishes_add_up_and_all_of_them_reach_the_limit_exactly() {
    let mut session = arrived(&FOUR);
    // 4 ticks of row 0, then 3 of row 1, then 2 of row 2.
    finish(&mut session, 0, 4);
    assert_eq!(budgets(&session), [None, Some(27), Some(35), Some(40)]);
    finish(&mut session, 1, 3);
    assert_eq!(budgets(&session), [None, None, Some(38), Some(43)]);
    finish(&mut session, 2, 2);
    // 36 + 4 + 3 + 2 is D − C of row 3: all that was kept back for the others. So are
    // 23 + 4 and 31 + 4 + 3.
    assert_eq!(budgets(&session), [None, None, None, Some(45)]);
    let answer = accept(&mut session, Call::Choose(&[1]));
    assert_eq!(answer.values, [u64::from(IDLE), 45]);
    // After 45 ticks of idle its 5 ticks end at its deadline.
    accept(&mut session, Call::Advance(45));
    assert_eq!(budgets(&session)[3], Some(0));
    accept(&mut session, Call::Choose(&[1]));
    let answer = accept(&mut session, Call::Advance(5));
    assert_eq!((answer.values, session.clock), ([0, 1], 50));
}

#[test]
fn a_row_that_comes_again_gives_again() {
    // Row 1 has 20 − 3 − 2 × 4 = 9, for row 0 at 9 and at 19. Row 0 gives it 4.
    let mut session = arrived(&[[4, 10, 9], [3, 20, 20]]);
    finish(&mut session, 0, 4);
    assert_eq!(budgets(&session), [None, Some(13)]);
    // Idle for 9 ticks leaves 4. Then row 1 runs for one tick, which is free.
    accept(&mut session, Call::Choose(&[1, 8]));
    accept(&mut session, Call::Advance(9));
    accept(&mut session, Call::Choose(&[]));
    accept(&mut session, Call::Advance(1));
    assert_eq!(budgets(&session), [None, Some(4)]);
    // The next job of row 0 is for 19, still before 20: 4 + 4.
    accept(&mut session, Call::Arrive(0));
    finish(&mut session, 0, 4);
    assert_eq!(budgets(&session), [None, Some(8)]);
}

/// Row 0 is for 20 with all of its 4 ticks remaining. Rows 1 and 2 are later, and
/// have so much room below their D − C, 27 and 38.
fn with_room(rooms: [i64; 2]) -> Session {
    waiting(
        0,
        &[
            ([4, 100, 20], job(20, 4, 6)),
            ([3, 100, 30], job(30, 3, 27 - rooms[0])),
            ([2, 100, 40], job(40, 1, 38 - rooms[1])),
        ],
    )
}

#[test]
fn the_limit_is_d_less_c() {
    // 4 ticks are offered: 5 and 4 have room for all, 3 and 1 for a part.
    for (room, budget) in [(5, 26), (4, 27), (3, 27), (1, 27), (0, 27)] {
        let mut session = with_room([room, 9]);
        assert_eq!(finish(&mut session, 0, 4), [0, 4]);
        assert_eq!(budgets(&session), [None, Some(budget), Some(33)], "{room}");
    }
}

#[test]
fn each_job_has_its_own_limit() {
    // What one has no room for does not go to the other. Row 2 has 1 of its 2
    // ticks remaining, and its limit is still D − C.
    let mut session = with_room([1, 2]);
    finish(&mut session, 0, 1);
    assert_eq!(budgets(&session), [None, Some(27), Some(38)]);
    let mut session = with_room([0, 27]);
    finish(&mut session, 0, 1);
    assert_eq!(budgets(&session), [None, Some(27), Some(15)]);
}

#[test]
fn the_limit_may_lie_below_that_of_the_finished_job() {
    // Row 0 arrived at 0 for 40, row 1 at 35 for 42. D − C is 35 and 5, and V
    // of row 1 is 7 − 2 − 5 = 0: it may gain all of the 5 ticks, but no more.
    for (before, after) in [(0, 5), (2, 5), (5, 5)] {
        let mut session = waiting(
            35,
            &[
                ([5, 100, 40], job(40, 5, 0)),
                ([2, 100, 7], job(42, 2, before)),
            ],
        );
        finish(&mut session, 0, 5);
        assert_eq!(budgets(&session), [None, Some(after)]);
    }
}

#[test]
fn a_tight_session_gives_nothing() {
    // V is 4 − 2 − 3 = −1 and 6 − 3 − 2 × 2 = −1. D − C of row 1 is 3.
    let mut session = arrived(&[[2, 4, 4], [3, 6, 6]]);
    assert_eq!(session.kind, Kind::Tight);
    assert_eq!(finish(&mut session, 0, 2), [0, 2]);
    assert_eq!(budgets(&session), [None, Some(0)]);
    // So the head is still the only candidate.
    assert_eq!(candidates(&session), [1]);
    let answer = accept(&mut session, Call::Choose(&[1, 1]));
    assert_eq!((answer.values, answer.words_used), ([1, 3], 0));
}

#[test]
fn a_mixed_session_gives_to_rows_of_v_0_and_above() {
    // V is 4 − 3 − 3 − 1 = −3, 10 − 3 − 2 × 3 − 1 = 0 and 30 − 1 − 6 × 3 − 3 = 8.
    let rows = [[3, 5, 4], [3, 50, 10], [1, 50, 30]];
    let session = fresh(&rows);
    let v: Vec<i64> = (0..3).map(|row| budget(&session.rows, row)).collect();
    assert_eq!((session.kind, v), (Kind::Mixed, vec![-3, 0, 8]));
    // Row 1, for 10, has 7 less two jobs of row 0, for 4 and 9; row 2, for 30, has 29
    // less six of row 0 and one of row 1.
    let mut session = arrived(&rows);
    assert_eq!(budgets(&session), [Some(0), Some(1), Some(8)]);
    finish(&mut session, 0, 3);
    assert_eq!(budgets(&session), [None, Some(4), Some(11)]);
}

#[test]
fn a_gain_makes_more_candidates() {
    // Row 1 arrived at 32 for 41 with V = 9 − 5 − 4 = 0, and row 0 has 3 of its 4
    // ticks left and no budget.
    let mut session = waiting(
        32,
        &[([4, 100, 40], job(40, 3, 0)), ([5, 100, 9], job(41, 5, 0))],
    );
    assert_eq!(candidates(&session), [0]);
    let mut without_gain = session.clone();
    without_gain.slots[0].job = None;
    assert_eq!(candidates(&without_gain), [1]);
    finish(&mut session, 0, 3);
    assert_eq!(candidates(&session), [1, IDLE]);
    let answer = accept(&mut session, Call::Choose(&[1]));
    assert_eq!(answer.values, [u64::from(IDLE), 3]);
}

#[test]
fn deadlines_compare_at_the_end_of_the_clock() {
    // Around 2^53, and so around a multiple of 2^32.
    let rows = [[2, 100, 10], [2, 100, 10], [2, 100, 10]];
    let due = [CLOCK_END - 1, CLOCK_END, CLOCK_END + 1];
    let jobs: Vec<_> = rows
        .into_iter()
        .zip(due)
        .map(|(row, due)| (row, job(due, 2, 4)))
        .collect();
    let mut session = waiting(CLOCK_END - 5, &jobs);
    finish(&mut session, 1, 2);
    assert_eq!(budgets(&session), [Some(4), None, Some(6)]);
    let jobs: Vec<_> = rows
        .into_iter()
        .zip([10, 9, 8])
        .map(|(row, ahead)| (row, job(CLOCK_END + ahead, 2, 4)))
        .collect();
    let mut session = waiting(CLOCK_END, &jobs);
    finish(&mut session, 1, 2);
    assert_eq!(budgets(&session), [Some(6), None, Some(4)]);
}

/// At 0 with one waiting job, of row 0, for D, with this budget.
fn holding(rows: &[[u32; 3]], budget: i64) -> Session {
    let mut session = fresh(rows);
    let Row { run, period, .. } = session.rows[0];
    let due = u64::from(session.rows[0].deadline);
    let left = u64::from(run);
    session.slots[0] = Slot {
        next: u64::from(period),
        job: Some(Job { due, left, budget }),
    };
    session
}

/// Checks which budgets of row 0 are sound.
fn check_budgets(rows: &[[u32; 3]], sound: &[i64], unsound: &[i64]) {
    for budget in sound {
        assert!(holding(rows, *budget).is_sound(), "{rows:?} {budget}");
    }
    for budget in [unsound, &[-1, i64::MIN, i64::MAX]].concat() {
        let before = holding(rows, budget);
        assert!(!before.is_sound(), "{rows:?} {budget}");
        let mut session = before.clone();
        let answer = perform(&mut session, Call::Choose(&[]));
        assert_eq!((answer.number, &session), (5, &before));
    }
}

#[test]
fn a_budget_is_sound_up_to_d_less_c() {
    // V 6 and D − C 16.
    check_budgets(&FOUR, &[0, 5, 6, 7, 15, 16], &[17, 20]);
    // V 0 and D − C 3.
    check_budgets(&[[2, 9, 5], [3, 9, 9]], &[0, 1, 3], &[4, 5]);
    // Alone, V is D − C; and where D is C it is 0.
    check_budgets(&[[2, 9, 5]], &[0, 3], &[4, 5]);
    check_budgets(&[[5, 9, 5]], &[0], &[1, 5]);
}

#[test]
fn a_budget_of_a_tight_session_is_zero() {
    // D − C of row 0 is 2 and 3.
    check_budgets(&[[2, 4, 4], [3, 6, 6]], &[0], &[1, 2]);
    check_budgets(&[[3, 6, 6], [2, 4, 4]], &[0], &[1, 3]);
}

#[test]
fn a_budget_of_a_mixed_session_is_zero_if_its_row_is_brittle() {
    // V of row 0 is −1 and −3, and its D − C 1 and 1.
    check_budgets(&[[1, 2, 2], [2, 4, 4]], &[0], &[1, 2]);
    check_budgets(&[[3, 5, 4], [3, 50, 10], [1, 50, 30]], &[0], &[1, 2]);
    // V is 1, 0 and 8, and D − C 7, 7 and 29.
    check_budgets(&[[3, 50, 10], [3, 5, 4]], &[0, 1, 2, 7], &[8, 10]);
    check_budgets(&[[3, 50, 10], [3, 5, 4], [1, 50, 30]], &[0, 1, 7], &[8, 10]);
    check_budgets(&[[1, 50, 30], [3, 5, 4], [3, 50, 10]], &[0, 8, 29], &[30]);
}

#[test]
fn the_longest_budget_fits_a_span() {
    // V 999,998, and D − C 999,999, which is below the longest span.
    let rows = [[1, 1_000_000, 1_000_000]; 2];
    check_budgets(&rows, &[0, 999_998, 999_999], &[1_000_000, 1_000_001]);
    let mut session = arrived(&rows);
    for slot in &mut session.slots {
        slot.job = slot.job.map(|job| Job {
            budget: 999_999,
            ..job
        });
    }
    let answer = accept(&mut session, Call::Choose(&[2]));
    assert_eq!(answer.values, [u64::from(IDLE), 999_999]);
    accept(&mut session, Call::Advance(999_999));
    assert_eq!(budgets(&session), [Some(0), Some(0)]);
}

#[test]
fn a_choice_may_last_as_long_as_a_budget_above_v() {
    // Row 0 has V 6 and D − C 16; the budgets of the others are 23 and more.
    let is_sound = |left, budget| {
        let mut session = arrived(&FOUR);
        session.slots[0].job = session.slots[0].job.map(|job| Job { budget, ..job });
        session.choice = Some(Choice { row: IDLE, left });
        session.is_sound()
    };
    for budget in [6, 7, 15] {
        assert!(is_sound(budget as u64, budget), "{budget}");
        assert!(!is_sound(budget as u64 + 1, budget), "{budget}");
    }
    assert!(is_sound(16, 16));
    assert!(!is_sound(16, 17));
}
