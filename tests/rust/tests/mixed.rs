//! Tables that are part loose: their kind, their budgets, what may run before the
//! head, and what a finish gives. All numbers are worked out by hand.

mod shared;

use shared::{accept, arrived, budgets, finish, fresh, job, waiting};
use shuffle_model::calls::{candidates, perform, Call};
use shuffle_model::rng::Rng;
use shuffle_model::session::{Choice, Job, Session, Slot, CLOCK_END, IDLE};
use shuffle_model::table::{brittle_rows, budget, busy_length, kind_by_scan, opinion, Kind, Row};
use shuffle_model::tables::long_busy_rows;

/// Row 0 is brittle. V is 12 − 10 − 4 − 30 = −32, 50 − 4 − 10 − 30 = 6 and
/// 112 − 30 − 2 × 10 − 2 × 4 = 54. D − C is 2, 46 and 82. Once a job of row 0 has
/// arrived at 0, the next one is due at 100 + 12 or later. If all arrive at 0, row 1 has
/// 46 − 10 = 36, since row 2 is due later, and row 2 has 82 − 2 × 10 − 4 = 58, since
/// the second job of row 1 is.
const THREE: [[u32; 3]; 3] = [[10, 100, 12], [4, 100, 50], [30, 200, 112]];

/// Row 0 is brittle: V is 19 less the sum of all C, 21, so −2; and then 1, 1, 29. If all
/// arrive on one tick, rows 1 and 2 have a tick more, since row 3 is due later.
const CLOSE: [[u32; 3]; 4] = [[10, 100, 19], [5, 100, 22], [5, 100, 22], [1, 100, 50]];

fn kind_of(rows: &[[u32; 3]]) -> Kind {
    let kind = fresh(rows).kind;
    let rows: Vec<Row> = rows.iter().copied().map(Row::from).collect();
    assert_eq!(kind_by_scan(&rows), Some(kind));
    kind
}

fn v_of(rows: &[[u32; 3]]) -> Vec<i64> {
    let rows: Vec<Row> = rows.iter().copied().map(Row::from).collect();
    (0..rows.len()).map(|row| budget(&rows, row)).collect()
}

#[test]
fn some_but_not_all_rows_of_a_mixed_table_are_brittle() {
    for (rows, v, kind, brittle) in [
        (&THREE[..], &[-32, 6, 54][..], Kind::Mixed, &[0][..]),
        (&CLOSE, &[-2, 1, 1, 29], Kind::Mixed, &[0]),
        // A V of 0 is not negative: with it alone the table is mixed.
        (&[[1, 2, 2], [2, 4, 4]], &[-1, 0], Kind::Mixed, &[0]),
        (&[[2, 4, 4], [1, 2, 2]], &[0, -1], Kind::Mixed, &[1]),
        // With a tick less of time both are negative; with a tick less to do, none.
        (&[[2, 4, 4], [3, 7, 7]], &[-1, 0], Kind::Mixed, &[0]),
        (&[[2, 4, 4], [3, 6, 6]], &[-1, -1], Kind::Tight, &[0, 1]),
        (&[[2, 4, 4], [2, 6, 6]], &[0, 0], Kind::Loose, &[]),
    ] {
        assert_eq!((v_of(rows), kind_of(rows)), (v.to_vec(), kind), "{rows:?}");
        assert_eq!(brittle_rows(&fresh(rows).rows), brittle, "{rows:?}");
    }
}

#[test]
fn the_tables_of_the_specification_are_mixed_or_tight() {
    let second = [[4, 10, 10], [1, 20, 20], [1, 5, 5], [2, 12, 12]];
    assert_eq!(kind_of(&second), Kind::Mixed);
    assert_eq!(brittle_rows(&fresh(&second).rows), [2, 3]);
    let third = [[1, 5, 5], [3, 8, 8], [2, 9, 9], [4, 20, 20]];
    assert_eq!(kind_of(&third), Kind::Tight);
    let long = [[1, 2, 2], [500_000, 1_000_000, 1_000_000]];
    assert_eq!(kind_of(&long), Kind::Mixed);
}

#[test]
fn an_overloaded_table_is_refused_though_some_v_is_not_negative() {
    // V of row 2 is 40 − 13 = 27. At 5 the demand is 6.
    let refusal = opinion(&[3, 50, 5, 3, 50, 5, 7, 50, 40]).unwrap_err();
    assert_eq!((refusal.number, refusal.values), (3, [5, 6]));
}

#[test]
fn every_row_is_brittle_where_there_is_no_busy_length() {
    // A row of another V asks, with all others, for no more than D within D ticks.
    let mut rng = Rng::new(31);
    let mut refused = 0;
    for _ in 0..200 {
        let rows = long_busy_rows(&mut rng);
        if busy_length(&rows).is_none() {
            refused += 1;
            assert_eq!(brittle_rows(&rows).len(), rows.len(), "{rows:?}");
        }
    }
    assert!(refused > 20, "{refused}");
}

#[test]
fn brittle_rows_arrive_with_0_and_others_with_what_is_left() {
    let session = arrived(&THREE);
    assert_eq!(budgets(&session), [Some(0), Some(36), Some(58)]);
    assert!(session.is_sound());
    assert_eq!(
        budgets(&arrived(&CLOSE)),
        [Some(0), Some(2), Some(2), Some(29)]
    );
    // V of 0, and −1.
    assert_eq!(
        budgets(&arrived(&[[2, 4, 4], [1, 2, 2]])),
        [Some(0), Some(0)]
    );
}

/// At the clock, with jobs of rows 1 and 2 for these deadlines. No job of row 0
/// waits, and the next one may arrive from `next` on.
fn between(clock: u64, next: u64, due: [u64; 2]) -> Session {
    let mut session = waiting(
        clock,
        &[
            (THREE[0], None),
            (THREE[1], job(due[0], 4, 6)),
            (THREE[2], job(due[1], 30, 54)),
        ],
    );
    session.slots[0].next = next;
    assert!(session.is_sound());
    session
}

#[test]
fn others_are_due_no_later_than_a_brittle_job_to_come() {
    // Row 0 may arrive at 30, so for 42.
    for (due, expected) in [
        (41, &[1, 2][..]),
        (42, &[1, 2]),
        (43, &[1]),
        (44, &[1]),
        (112, &[1]),
    ] {
        assert_eq!(candidates(&between(20, 30, [40, due])), expected, "{due}");
    }
}

#[test]
fn a_brittle_job_to_come_arrives_no_earlier_than_now() {
    // At 30 it is due at 42 or later, whenever it might have arrived before.
    for next in [0, 1, 29, 30] {
        assert_eq!(candidates(&between(30, next, [40, 42])), [1, 2], "{next}");
        assert_eq!(candidates(&between(30, next, [40, 43])), [1], "{next}");
        assert_eq!(candidates(&between(31, next, [40, 43])), [1, 2], "{next}");
    }
    // And no earlier than it may.
    for (next, due) in [(31, 43), (32, 44), (100, 112)] {
        let [last, over] = [due, due + 1];
        assert_eq!(candidates(&between(30, next, [40, last])), [1, 2], "{next}");
        assert_eq!(candidates(&between(30, next, [40, over])), [1], "{next}");
    }
}

#[test]
fn the_head_may_be_due_later() {
    // At 0 a job of row 0 could come for 12, before both.
    assert_eq!(candidates(&between(0, 0, [50, 112])), [1]);
    // One of the head's deadline is later than 12 too.
    assert_eq!(candidates(&between(0, 0, [50, 50])), [2]);
    assert_eq!(candidates(&between(38, 0, [50, 50])), [2, 1]);
    assert_eq!(candidates(&between(37, 0, [50, 50])), [2]);
}

#[test]
fn the_earliest_of_all_brittle_rows_decides() {
    // Sum of C is 22. V of rows 0 and 1 is 12 − 22 and 14 − 22, of row 2 40 − 22,
    // and of row 3 80 − 6 − 5 − 2 × 5 − 6 = 53.
    let rows = [[5, 100, 12], [5, 60, 14], [6, 100, 40], [6, 200, 80]];
    assert_eq!(v_of(&rows), [-10, -8, 18, 53]);
    let session = |next: [u64; 2], due| {
        let mut session = waiting(
            20,
            &[
                (rows[0], None),
                (rows[1], None),
                (rows[2], job(50, 6, 18)),
                (rows[3], job(due, 6, 53)),
            ],
        );
        (session.slots[0].next, session.slots[1].next) = (next[0], next[1]);
        assert!(session.is_sound());
        candidates(&session)
    };
    // 112 and 74; then 74 and 94; then both 80.
    for (next, due) in [([100, 60], 74), ([62, 80], 74), ([68, 66], 80)] {
        assert_eq!(session(next, due), [2, 3], "{next:?}");
        assert_eq!(session(next, due + 1), [2], "{next:?}");
    }
}

#[test]
fn rows_that_are_not_brittle_keep_nobody_out() {
    // Rows 1 and 3 of CLOSE may come for 22 + 30 and for 50 + 30, before 81.
    let rows = [[10, 100, 19], [5, 100, 22], [5, 100, 52], [1, 100, 60]];
    // V is 19 − 21, 22 − 21, 52 − 21 and 60 − 21.
    assert_eq!(v_of(&rows), [-2, 1, 31, 39]);
    let mut session = waiting(
        30,
        &[
            (rows[0], None),
            (rows[1], None),
            (rows[2], job(60, 5, 31)),
            (rows[3], job(81, 1, 39)),
        ],
    );
    session.slots[0].next = 100;
    assert_eq!(candidates(&session), [2, 3]);
}

#[test]
fn what_counts_is_the_next_job_and_not_the_one_that_waits() {
    // Rows 1 and 2 came at 0 for 22. A job of row 0 came at 4 for 23, so that the next
    // one is due at 104 + 19 or later. The jobs before it have a budget of 1.
    let at_four = |last: u64| {
        waiting(
            4,
            &[
                (CLOSE[0], job(23, 10, 0)),
                (CLOSE[1], job(22, 1, 1)),
                (CLOSE[2], job(22, 5, 1)),
                (CLOSE[3], job(last, 1, 29)),
            ],
        )
    };
    // It may run before the head, but nothing due after it: its budget is 0.
    assert_eq!(candidates(&at_four(50)), [1, 2, 0]);
    // What has its deadline may: it came at −27.
    assert_eq!(candidates(&at_four(23)), [1, 2, 3, 0]);
    // Spent budgets bar it as any other job.
    let mut session = at_four(50);
    session.slots[2].job = job(22, 5, 0);
    assert_eq!(candidates(&session), [1, 2]);
    // As the head it is the only candidate.
    session.slots[1].job = None;
    session.slots[2].job = None;
    assert_eq!(candidates(&session), [0]);
    // Over, it leaves row 3, which is due at 50, the head.
    session.slots[0].job = None;
    assert_eq!(candidates(&session), [3]);
}

#[test]
fn a_choice_before_the_head_is_drawn_as_ever() {
    // Row 0 runs for 10 ticks, then rows 1 and 2 are candidates.
    let mut session = arrived(&THREE);
    let answer = accept(&mut session, Call::Choose(&[1, 1]));
    assert_eq!((answer.values, answer.words_used), ([0, 10], 0));
    accept(&mut session, Call::Advance(10));
    // Of its budget row 1 has 6 left.
    session.slots[1].job = job(50, 4, 6);
    assert_eq!(candidates(&session), [1, 2]);
    for (words, values, used) in [
        (&[][..], [1, 4], 0),
        (&[2], [1, 4], 1),
        (&[1], [2, 6], 1),
        // 1 + 8 mod 6 of the 6 ticks of budget of row 1.
        (&[3, 8, 5], [2, 3], 2),
    ] {
        let mut session = session.clone();
        let answer = accept(&mut session, Call::Choose(words));
        assert_eq!((answer.values, answer.words_used), (values, used));
    }
    // Row 1 pays for it.
    accept(&mut session, Call::Choose(&[1, 3]));
    accept(&mut session, Call::Advance(4));
    assert_eq!(budgets(&session), [None, Some(2), Some(58)]);
    // 2 ticks more, and it cannot wait any longer.
    accept(&mut session, Call::Choose(&[1]));
    accept(&mut session, Call::Advance(2));
    assert_eq!(candidates(&session), [1]);
}

#[test]
fn a_choice_goes_on_whatever_brittle_job_may_come() {
    // At 80 row 0 may come at 100. Row 2, due at 112, runs for 30 ticks before row 1,
    // which came at 70 for 120, and so past 100.
    let mut session = waiting(
        80,
        &[
            (THREE[0], None),
            (THREE[1], job(120, 4, 6)),
            (THREE[2], job(112, 30, 54)),
        ],
    );
    session.slots[0].next = 100;
    assert_eq!(candidates(&session), [2]);
    let answer = accept(&mut session, Call::Choose(&[]));
    assert_eq!(answer.values, [2, 30]);
    accept(&mut session, Call::Advance(25));
    // It comes at 105 for 117: row 2 stays the head, and row 0 could wait no tick.
    accept(&mut session, Call::Arrive(0));
    assert_eq!(session.choice, None);
    assert_eq!(candidates(&session), [2, 0]);
    let answer = accept(&mut session, Call::Choose(&[1, 9]));
    assert_eq!((answer.values, answer.words_used), ([0, 10], 2));
}

#[test]
fn idle_is_no_candidate_while_a_job_waits() {
    // All budgets are at least 1, and no brittle job waits or can come soon.
    let mut session = between(20, 100, [40, 112]);
    assert_eq!(candidates(&session), [1, 2]);
    session.slots[2].job = None;
    assert_eq!(candidates(&session), [1]);
    let answer = accept(&mut session.clone(), Call::Choose(&[1, 1]));
    assert_eq!((answer.values, answer.words_used), ([1, 4], 0));
    // With nothing waiting it is the only one.
    session.slots[1].job = None;
    assert_eq!(candidates(&session), [IDLE]);
    let answer = accept(&mut session, Call::Choose(&[1, 1]));
    assert_eq!(
        (answer.values, answer.words_used),
        ([u64::from(IDLE), 1_000_000], 0)
    );
}

#[test]
fn unused_time_goes_to_rows_that_are_not_brittle() {
    // The brittle head gives 10 to both. Row 1 has 6 left of its budget.
    let mut session = arrived(&THREE);
    session.slots[1].job = job(50, 4, 6);
    assert_eq!(finish(&mut session, 0, 10), [0, 10]);
    assert_eq!(budgets(&session), [None, Some(16), Some(68)]);
    // Row 2 runs before row 1 for as long as that can wait now.
    let answer = accept(&mut session, Call::Choose(&[1]));
    assert_eq!(answer.values, [2, 16]);
}

#[test]
fn a_brittle_row_gains_nothing() {
    // Row 1 is for 22, row 0 for 23, row 3 for 50.
    let mut session = waiting(
        4,
        &[
            (CLOSE[0], job(23, 10, 0)),
            (CLOSE[1], job(22, 3, 1)),
            (CLOSE[2], None),
            (CLOSE[3], job(50, 1, 29)),
        ],
    );
    assert_eq!(finish(&mut session, 1, 1), [1, 3]);
    assert_eq!(budgets(&session), [Some(0), None, None, Some(32)]);
    assert_eq!(candidates(&session), [0]);
    // The brittle job gives in turn: 32 + 10.
    assert_eq!(finish(&mut session, 0, 10), [0, 10]);
    assert_eq!(budgets(&session), [None, None, None, Some(42)]);
}

#[test]
fn a_gain_ends_at_d_less_c() {
    // D − C of row 1 is 46.
    for (before, after) in [(35, 45), (36, 46), (37, 46), (46, 46)] {
        let mut session = arrived(&THREE);
        session.slots[1].job = job(50, 4, before);
        finish(&mut session, 0, 1);
        assert_eq!(budgets(&session)[1], Some(after), "{before}");
    }
}

#[test]
fn a_row_of_v_0_gains_and_can_wait_then() {
    // V of row 1 is 44 − 4 − 10 − 30 = 0, and it has nothing left of its budget.
    let rows = [[10, 100, 12], [4, 100, 44], [30, 200, 112]];
    assert_eq!(v_of(&rows), [-32, 0, 54]);
    let mut session = arrived(&rows);
    session.slots[1].job = job(44, 4, 0);
    let mut without = session.clone();
    accept(&mut without, Call::Choose(&[]));
    accept(&mut without, Call::Advance(10));
    assert_eq!(candidates(&without), [1]);
    finish(&mut session, 0, 10);
    assert_eq!(budgets(&session), [None, Some(10), Some(68)]);
    assert_eq!(candidates(&session), [1, 2]);
    assert_eq!(accept(&mut session, Call::Choose(&[1])).values, [2, 10]);
}

fn with(mut session: Session, change: impl Fn(&mut Session)) -> Session {
    change(&mut session);
    session
}

fn with_budget(session: Session, row: usize, budget: i64) -> Session {
    with(session, |session| {
        let job = session.slots[row].job;
        session.slots[row].job = job.map(|job| Job { budget, ..job });
    })
}

#[test]
fn a_sound_session_has_these_budgets() {
    let start = arrived(&THREE);
    for budget in [1, 2, -1, i64::MIN, i64::MAX] {
        assert!(!with_budget(start.clone(), 0, budget).is_sound());
    }
    for (row, v, limit) in [(1, 6, 46), (2, 54, 82)] {
        for budget in [0, 1, v, v + 1, limit - 1, limit] {
            assert!(with_budget(start.clone(), row, budget).is_sound());
        }
        for budget in [-1, limit + 1, i64::MAX] {
            let before = with_budget(start.clone(), row, budget);
            let mut session = before.clone();
            assert_eq!(perform(&mut session, Call::Finish).number, 5);
            assert_eq!(session, before);
        }
    }
    // A budget of a row without a job is not looked at, since there is none.
    assert!(fresh(&THREE).is_sound());
}

#[test]
fn a_sound_session_names_its_kind() {
    let tight = [[2, 4, 4], [3, 6, 6]];
    let loose = [[2, 4, 4], [2, 6, 6]];
    for (rows, right) in [
        (&THREE[..], Kind::Mixed),
        (&tight, Kind::Tight),
        (&loose, Kind::Loose),
    ] {
        for kind in [Kind::Loose, Kind::Tight, Kind::Mixed] {
            let session = with(fresh(rows), |session| session.kind = kind);
            assert_eq!(session.is_sound(), kind == right, "{rows:?} {kind:?}");
        }
    }
}

fn choosing(session: &Session, row: u32, left: u64) -> Session {
    with(session.clone(), |session| {
        session.choice = Some(Choice { row, left });
    })
}

#[test]
fn a_choice_in_force_keeps_to_the_budgets_alone() {
    // At 0 row 0 may come for 12. No choice would give idle or row 2, but a session
    // with either in force is sound up to the least budget before it.
    let session = between(0, 0, [50, 112]);
    assert_eq!(candidates(&session), [1]);
    for (row, longest) in [(1, 4), (2, 6), (IDLE, 6)] {
        assert!(choosing(&session, row, 1).is_sound(), "{row}");
        assert!(choosing(&session, row, longest).is_sound(), "{row}");
        assert!(!choosing(&session, row, longest + 1).is_sound(), "{row}");
    }
    // Its calls are those of any choice.
    let mut idle = choosing(&session, IDLE, 6);
    assert_eq!(perform(&mut idle, Call::Choose(&[])).number, 8);
    assert_eq!(perform(&mut idle, Call::Finish).number, 11);
    assert_eq!(accept(&mut idle, Call::Advance(5)).values, [1, 0]);
    assert_eq!(budgets(&idle), [None, Some(1), Some(49)]);
    let mut far = choosing(&session, 2, 6);
    assert_eq!(accept(&mut far, Call::Advance(6)).values, [0, 0]);
    assert_eq!(budgets(&far), [None, Some(0), Some(54)]);
    // While a brittle job waits, nothing after it can be in force.
    let session = arrived(&THREE);
    assert!(choosing(&session, 0, 10).is_sound());
    for row in [1, 2, IDLE] {
        assert!(!choosing(&session, row, 1).is_sound(), "{row}");
    }
}

#[test]
fn deadlines_compare_at_the_end_of_the_clock() {
    // At 2^53 row 0 may come at once, or 100 ticks later at most.
    for (next, ahead) in [
        (0, 12),
        (CLOCK_END, 12),
        (CLOCK_END + 1, 13),
        (CLOCK_END + 100, 112),
    ] {
        let session = |due| {
            between(
                CLOCK_END,
                next,
                [CLOCK_END + 1, CLOCK_END + due].map(|due| due.min(CLOCK_END + 112)),
            )
        };
        assert_eq!(candidates(&session(ahead)), [1, 2], "{next}");
        if ahead < 112 {
            assert_eq!(candidates(&session(ahead + 1)), [1], "{next}");
        }
    }
    let unsound = with(between(CLOCK_END, 0, [CLOCK_END + 1; 2]), |session| {
        session.slots[0] = Slot {
            next: u64::MAX,
            job: None,
        };
    });
    assert!(!unsound.is_sound());
}

#[test]
fn the_second_table_of_the_specification_is_shuffled() {
    // V 1, 3, −3 and −2. At 0 rows 2 and 3 come, and run to 3. They may come again at
    // 5 for 10, and at 12 for 24.
    let mut session = fresh(&[[4, 10, 10], [1, 20, 20], [1, 5, 5], [2, 12, 12]]);
    for row in [2, 3] {
        accept(&mut session, Call::Arrive(row));
        accept(&mut session, Call::Choose(&[]));
        let ticks = session.choice.unwrap().left as u32;
        accept(&mut session, Call::Advance(ticks));
    }
    assert_eq!(session.clock, 3);
    // Row 0 is for 13, row 1 for 23: later than 10. Row 0 has 6 less a tick of row 2. Row
    // 1 has 19 less two jobs of row 0, for 13 and 23, and three of row 2, for 10, 15, 20.
    accept(&mut session, Call::Arrive(0));
    accept(&mut session, Call::Arrive(1));
    assert_eq!(budgets(&session), [Some(5), Some(8), None, None]);
    assert_eq!(candidates(&session), [0]);
}
