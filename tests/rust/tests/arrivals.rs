//! Budgets taken on arrival: what the other rows ask for up to the deadline of a new
//! job. All numbers are worked out by hand.

mod shared;

use shared::{accept, arrived, budgets, fresh, job, waiting, FOUR};
use shuffle_model::calls::{arrive_all, perform, Arrival, Call};
use shuffle_model::driver::Driver;
use shuffle_model::rng::Rng;
use shuffle_model::runs::{random_command, Style};
use shuffle_model::session::{Session, Slot, CLOCK_END};
use shuffle_model::sessions::{random_table, sound_session};
use shuffle_model::table::{budget, Kind};
use shuffle_model::tables::{admitted, close_rows, small_rows, staggered_rows, RowMaker};

/// The budget of a job of this row that arrives now.
fn arriving(session: &Session, row: u32) -> i64 {
    let mut session = session.clone();
    accept(&mut session, Call::Arrive(row));
    session.job(row).expect("the job waits").budget
}

#[test]
fn the_listing_idles_for_six_ticks() {
    // Row 0 does not wait for row 1, which is due later: 8, and 12 − 2.
    let mut session = arrived(&[[2, 10, 10], [3, 20, 15]]);
    assert_eq!(budgets(&session), [Some(8), Some(10)]);
    assert_eq!(accept(&mut session, Call::Choose(&[4, 9])).values, [1, 1]);
    assert_eq!(accept(&mut session, Call::Advance(1)).values, [0, 0]);
    assert_eq!(budgets(&session), [Some(7), Some(10)]);
    // 1 + 5 mod 7.
    assert_eq!(accept(&mut session, Call::Choose(&[2, 5])).values, [16, 6]);
    assert_eq!(accept(&mut session, Call::Advance(2)).values, [4, 0]);
    let answer = perform(&mut session, Call::Choose(&[3]));
    assert_eq!((answer.number, answer.values), (8, [4, 0]));
    assert_eq!(accept(&mut session, Call::Advance(1)).values, [3, 0]);
    let answer = perform(&mut session, Call::Finish);
    assert_eq!((answer.number, answer.values), (11, [0, 0]));
    let answer = perform(&mut session, Call::Arrive(0));
    assert_eq!((answer.number, answer.values), (7, [0, 10]));
}

#[test]
fn a_waiting_job_counts_if_it_is_due_no_later() {
    // Row 0 arrives at 40 for 60, with D − C 16. Row 1 may come again in time in no case.
    let with = |due, left| {
        waiting(
            40,
            &[([4, 100, 20], None), ([3, 100, 30], job(due, left, 0))],
        )
    };
    for (due, expected) in [(41, 14), (59, 14), (60, 14), (61, 16), (70, 16)] {
        assert_eq!(arriving(&with(due, 2), 0), expected, "{due}");
    }
    // The ticks that remain count, and not C.
    for (left, expected) in [(1, 15), (2, 14), (3, 13)] {
        assert_eq!(arriving(&with(60, left), 0), expected, "{left}");
    }
}

#[test]
fn the_budget_of_a_waiting_job_does_not_count() {
    // Nor what was given to it: only its 3 ticks do.
    for left in [0, 6, 27] {
        let rows = [([4, 100, 40], None), ([3, 100, 30], job(30, 3, left))];
        assert_eq!(arriving(&waiting(0, &rows), 0), 36 - 3);
    }
}

/// At 40, with no job waiting. Row 0 arrives for 60, with D − C 19; row 1, of C 2, may
/// come from `next` on.
fn coming(period: u32, deadline: u32, next: u64) -> Session {
    let mut session = fresh(&[[1, 100, 20], [2, period, deadline]]);
    session.clock = 40;
    session.slots[1].next = next;
    assert!(session.is_sound() && session.kind == Kind::Loose);
    session
}

#[test]
fn a_job_to_come_counts_if_it_can_be_due_no_later() {
    // It arrives at 40 for 60, and a tick later for 61; or for 61 at once.
    assert_eq!(arriving(&coming(50, 20, 40), 0), 17);
    assert_eq!(arriving(&coming(50, 20, 41), 0), 19);
    assert_eq!(arriving(&coming(50, 21, 40), 0), 19);
    assert_eq!(arriving(&coming(50, 19, 41), 0), 17);
    assert_eq!(arriving(&coming(50, 19, 42), 0), 19);
}

#[test]
fn a_row_that_could_have_come_before_counts_from_the_clock() {
    // For 45 and 53. From 37 on it would be 42, 50 and 58; from 39 on 44, 52 and 60.
    for next in [0, 1, 8, 37, 38, 39, 40] {
        assert_eq!(arriving(&coming(8, 5, next), 0), 19 - 2 * 2, "{next}");
    }
}

#[test]
fn a_row_that_may_not_come_yet_counts_from_where_it_may() {
    // From 41 on for 46 and 54; from 47 on for 52 and 60; from 48 on for 53 alone, and
    // then for 61.
    for next in [41, 44, 47] {
        assert_eq!(arriving(&coming(8, 5, next), 0), 19 - 2 * 2, "{next}");
    }
    assert_eq!(arriving(&coming(8, 5, 48), 0), 19 - 2);
    // With a T of 15 from 50 on for 55 alone, and from 55 on for 60.
    assert_eq!(arriving(&coming(15, 5, 50), 0), 19 - 2);
    assert_eq!(arriving(&coming(15, 5, 55), 0), 19 - 2);
}

#[test]
fn every_deadline_up_to_the_new_one_counts() {
    // From 40 on for 44, 49, 54 and 59; from 41 on for 60 last; from 42 on for 56 last.
    assert_eq!(arriving(&coming(5, 4, 40), 0), 19 - 4 * 2);
    assert_eq!(arriving(&coming(5, 4, 41), 0), 19 - 4 * 2);
    assert_eq!(arriving(&coming(5, 4, 42), 0), 19 - 3 * 2);
    // From 40 on for 43 to 58, from 42 on for 45 to 60, from 43 on for 46 to 58.
    assert_eq!(arriving(&coming(3, 3, 40), 0), 19 - 6 * 2);
    assert_eq!(arriving(&coming(3, 3, 42), 0), 19 - 6 * 2);
    assert_eq!(arriving(&coming(3, 3, 43), 0), 19 - 5 * 2);
}

#[test]
fn a_row_can_count_with_a_waiting_job_and_those_to_come() {
    // Row 1 waits for 43 with a tick left, so that it came at 38 and may come again at
    // 46, for 51 and 59.
    let rows = [([1, 100, 20], None), ([2, 8, 5], job(43, 1, 0))];
    assert_eq!(arriving(&waiting(40, &rows), 0), 19 - 1 - 2 * 2);
    // For 45 it may come again at 48, for 53 and not for 61.
    let rows = [([1, 100, 20], None), ([2, 8, 5], job(45, 2, 0))];
    assert_eq!(arriving(&waiting(40, &rows), 0), 19 - 2 - 2);
}

#[test]
fn all_other_rows_add_up() {
    // Row 0 arrives at 7 for 57, with D − C 45. Row 1 waits for 37 with 2 ticks, row 2 may
    // come at once for 47, row 3 waits for 57 with all of its 5.
    let mut session = waiting(
        7,
        &[
            ([5, 100, 50], None),
            (FOUR[1], job(37, 2, 9)),
            (FOUR[2], None),
            (FOUR[3], job(57, 5, 0)),
        ],
    );
    assert_eq!(arriving(&session, 0), 45 - 2 - 2 - 5);
    // Not before 18, for 58.
    session.slots[2].next = 18;
    assert_eq!(arriving(&session, 0), 45 - 2 - 5);
}

#[test]
fn its_own_row_counts_for_nothing() {
    // Alone a job always has D − C.
    let mut session = fresh(&[[3, 10, 10]]);
    for clock in [0, 10, 11, 25] {
        session.clock = clock;
        assert_eq!(arriving(&session, 0), 7, "{clock}");
        session.slots[0].next = clock;
        assert_eq!(arriving(&session, 0), 7, "{clock}");
    }
    let longest = fresh(&[[1, 1_000_000, 1_000_000]]);
    assert_eq!(arriving(&longest, 0), 999_999);
    let fullest = fresh(&[[1_000_000, 1_000_000, 1_000_000]]);
    assert_eq!(arriving(&fullest, 0), 0);
}

#[test]
fn the_budget_is_v_where_every_job_that_v_counts_is_due_in_time() {
    // V is 3, 8 and 0. Row 1, due at 20, lets two jobs of row 0 and four of row 2 go
    // first. Row 0, due at 10, does not wait for row 1, nor row 2 for either.
    let rows = [[1, 10, 10], [2, 20, 20], [2, 5, 5]];
    assert_eq!(budgets(&arrived(&rows)), [Some(5), Some(8), Some(3)]);
    assert_eq!(
        budgets(&arrived(&[[1, 16, 16]; 16])),
        [Some(0); 16],
        "of 16 rows of equal D each has to wait for all others"
    );
}

#[test]
fn the_session_before_the_call_is_meant() {
    // At 3 row 0 has one tick left, and stays chosen until row 3 arrives.
    let mut session = fresh(&FOUR);
    accept(&mut session, Call::Arrive(0));
    accept(&mut session, Call::Choose(&[]));
    accept(&mut session, Call::Advance(3));
    accept(&mut session, Call::Arrive(3));
    // 45 less 1 of row 0, and 3 and 2 of rows 1 and 2, which may come.
    assert_eq!(budgets(&session)[3], Some(39));
}

#[test]
fn other_jobs_keep_their_budgets() {
    let mut session = arrived(&FOUR);
    session.slots[2] = Slot::default();
    let before = budgets(&session);
    accept(&mut session, Call::Arrive(2));
    for row in [0, 1, 3] {
        assert_eq!(budgets(&session)[row], before[row]);
    }
}

/// Row 0 is brittle: V is 12 − 44 = −32, 50 − 44 = 6 and 112 − 30 − 20 − 8 = 54.
const THREE: [[u32; 3]; 3] = [[10, 100, 12], [4, 100, 50], [30, 200, 112]];

#[test]
fn a_job_of_a_brittle_row_has_no_budget() {
    // D − C is 2, and nothing else is due so soon.
    let session = fresh(&THREE);
    assert_eq!(session.kind, Kind::Mixed);
    assert_eq!(session.slack(0), 2);
    assert_eq!(arriving(&session, 0), 0);
}

#[test]
fn brittle_rows_count_for_the_others() {
    // Row 1 arrives at 20 for 70, and row 0 may come at once, for 32, and not again; or
    // at 58, for 70, or at 59, for 71.
    let mut session = fresh(&THREE);
    session.clock = 20;
    for (next, expected) in [(0, 36), (20, 36), (58, 36), (59, 46), (120, 46)] {
        session.slots[0].next = next;
        assert_eq!(arriving(&session, 1), expected, "{next}");
    }
    // A waiting one counts too, with 7 ticks.
    let rows = [
        (THREE[0], job(32, 7, 0)),
        (THREE[1], None),
        (THREE[2], None),
    ];
    assert_eq!(arriving(&waiting(20, &rows), 1), 39);
}

#[test]
fn a_mixed_session_counts_all_rows() {
    // Row 2 arrives at 20 for 132, with D − C 82. Row 0 waits for 25 with 3 ticks and may
    // come again at 113, for 125. Row 1 waits for 60 and may come again at 110, for 160.
    let rows = [
        (THREE[0], job(25, 3, 0)),
        (THREE[1], job(60, 4, 0)),
        (THREE[2], None),
    ];
    assert_eq!(arriving(&waiting(20, &rows), 2), 82 - 3 - 10 - 4);
}

#[test]
fn a_row_of_v_0_that_is_not_brittle_has_a_budget() {
    // V of row 1 is 44 − 44. It is due before row 2 can be.
    let rows = [[10, 100, 12], [4, 100, 44], [30, 200, 112]];
    let session = fresh(&rows);
    assert_eq!(budget(&session.rows, 1), 0);
    assert_eq!(arriving(&session, 1), 30);
    // With V −1 it is brittle, and has none.
    let rows = [[10, 100, 12], [4, 100, 43], [30, 200, 112]];
    let session = fresh(&rows);
    assert_eq!(budget(&session.rows, 1), -1);
    assert_eq!((session.kind, arriving(&session, 1)), (Kind::Mixed, 0));
}

#[test]
fn a_tight_session_gives_no_budget() {
    // V is −1 and −1, though row 0 alone has 2 ticks to spare.
    let session = fresh(&[[2, 4, 4], [3, 6, 6]]);
    assert_eq!((session.kind, session.slack(0)), (Kind::Tight, 2));
    assert_eq!(arriving(&session, 0), 0);
    assert_eq!(arriving(&session, 1), 0);
}

#[test]
fn deadlines_compare_at_the_end_of_the_clock() {
    // Row 0 arrives at 2^53 for 20 ticks later; row 1 waits until then, or a tick longer.
    for (ahead, expected) in [(20, 13), (21, 16)] {
        let due = CLOCK_END + ahead;
        let rows = [([4, 100, 20], None), ([3, 100, 30], job(due, 3, 0))];
        assert_eq!(arriving(&waiting(CLOCK_END, &rows), 0), expected);
    }
    // The longest T, and a row that comes on every tick but one of two.
    let mut session = fresh(&[[1, 1_000_000, 1_000_000], [1, 2, 2]]);
    session.clock = CLOCK_END;
    assert_eq!(arriving(&session, 0), 499_999);
    session.slots[1].next = CLOCK_END + 2;
    assert_eq!(arriving(&session, 0), 500_000);
}

/// Hands in a list of rows, all of which must be accepted.
fn arrive_together(session: &mut Session, rows: &[u64]) {
    let mut list: Vec<Arrival> = rows.iter().copied().map(Arrival::of).collect();
    arrive_all(session, &mut list);
    assert!(list.iter().all(Arrival::is_accepted), "{rows:?}");
}

#[test]
fn each_record_of_a_list_sees_what_those_before_it_left() {
    // Row 1 arrives at 20 for 70, with row 0 to come, and so would row 0 alone.
    let mut session = fresh(&THREE);
    session.clock = 20;
    arrive_together(&mut session, &[1, 0, 2]);
    // Row 0 and its next job at 120, for 132, and row 1.
    assert_eq!(
        budgets(&session),
        [Some(0), Some(36), Some(82 - 2 * 10 - 4)]
    );
}

/// Lets the rows that may come arrive as a list in this order, and in the other.
fn arrive_in_both_orders(session: &Session) -> [Session; 2] {
    let rows = 0..session.rows.len();
    let ready = rows.filter(|row| session.slots[*row].next <= session.clock);
    let mut ready: Vec<u64> = ready.map(|row| row as u64).collect();
    [(); 2].map(|()| {
        let mut session = session.clone();
        arrive_together(&mut session, &ready);
        ready.reverse();
        session
    })
}

#[test]
fn the_order_of_arrivals_on_one_tick_does_not_matter() {
    // A row that may come at once asks for as much as one that has just come.
    let mut rng = Rng::new(41);
    for _ in 0..5_000 {
        let [one, other] = arrive_in_both_orders(&sound_session(&mut rng));
        assert!(one.is_sound(), "{one:?}");
        assert_eq!(one, other);
    }
}

/// What a row asks for up to a deadline, by walking every tick from the clock on, at each
/// of which a job comes if it may.
fn walked(session: &Session, row: usize, due: u64) -> i64 {
    let [run, period, deadline] = session.rows[row].numbers();
    let waiting = session.slots[row].job;
    let mut work = match waiting {
        Some(job) if job.due <= due => i64::try_from(job.left).unwrap(),
        _ => 0,
    };
    let mut next = session.slots[row].next;
    for tick in session.clock..=due {
        if tick >= next {
            next = tick + u64::from(period);
            if tick + u64::from(deadline) <= due {
                work += i64::from(run);
            }
        }
    }
    work
}

/// The longest D of which every tick is walked.
const LONGEST_WALK: u32 = 3_000;

#[test]
fn the_budget_is_what_a_walk_over_every_tick_gives() {
    let mut rng = Rng::new(42);
    let mut checked = [0; 3];
    while checked.iter().sum::<u32>() < 20_000 {
        let session = sound_session(&mut rng);
        for row in 0..session.rows.len() {
            let own = session.rows[row];
            if session.slots[row].next > session.clock || own.deadline > LONGEST_WALK {
                continue;
            }
            let due = session.clock + u64::from(own.deadline);
            let others = (0..session.rows.len()).filter(|other| *other != row);
            let asked: i64 = others.map(|other| walked(&session, other, due)).sum();
            let left = i64::from(own.deadline) - i64::from(own.run) - asked;
            let is_brittle = budget(&session.rows, row) < 0;
            let expected = if is_brittle { 0 } else { left };
            assert_eq!(arriving(&session, row as u32), expected, "{session:?}");
            checked[session.kind as usize - 1] += 1;
        }
    }
    assert!(checked.iter().all(|count| *count > 300), "{checked:?}");
}

/// Checks every row that is not brittle: on arrival it would have at least V, and at most
/// D − C. Gives how many rows there are.
fn check_limits(session: &Session) -> usize {
    let rows = (0..session.rows.len()).filter(|row| !session.is_brittle(*row));
    let checked = rows.map(|row| {
        let slack = session.slack(row);
        let v = budget(&session.rows, row);
        let limits = v..=session.rows[row].spare();
        assert!(v >= 0 && limits.contains(&slack), "{slack} {session:?}");
        assert_eq!(session.arrival_budget(row), slack);
    });
    checked.count()
}

#[test]
fn no_budget_of_a_sound_session_is_below_v() {
    let mut rng = Rng::new(43);
    let checked = (0..100_000).map(|_| check_limits(&sound_session(&mut rng)));
    let checked: usize = checked.sum();
    assert!(checked > 300_000, "{checked}");
}

/// Checks each session of a run from a start.
fn check_run(rng: &mut Rng, make: RowMaker, style: fn(&mut Rng) -> Style) -> usize {
    let mut driver = Driver::new(&admitted(rng, make));
    let style = style(rng);
    let mut checked = 0;
    for _ in 0..200 {
        checked += check_limits(&driver.machine.session);
        let command = random_command(&driver.machine, rng, style);
        driver.push(command);
    }
    checked
}

#[test]
fn no_budget_of_a_run_is_below_v() {
    let mut rng = Rng::new(44);
    let makers: [RowMaker; 4] = [random_table, small_rows, staggered_rows, close_rows];
    let styles: [fn(&mut Rng) -> Style; 4] = [
        Style::random,
        Style::meeting,
        Style::giving,
        Style::limiting,
    ];
    let mut checked = 0;
    for _ in 0..100 {
        for make in makers {
            for style in styles {
                checked += check_run(&mut rng, make, style);
            }
        }
    }
    assert!(checked > 500_000, "{checked}");
}
