//! The tables, moments and listing that the specification prints.

use shuffle_model::calls::candidates;
use shuffle_model::driver::table_text;
use shuffle_model::session::{start, Job, Session, Slot, IDLE};
use shuffle_model::specification::{arrivals, draws, gifts, listing, mixed, plain, ties, EXAMPLES};
use shuffle_model::table::{busy_length, demand, opinion, overloads_by_scan, Refusal, Row};
use shuffle_model::text::run;

fn rows(numbers: &[[u32; 3]]) -> Vec<Row> {
    numbers.iter().copied().map(Row::from).collect()
}

#[test]
fn listing_is_reproduced() {
    let (input, output) = listing();
    assert_eq!(String::from_utf8(run(input.as_bytes())).unwrap(), output);
}

fn check_outputs(moments: Vec<(String, String)>) {
    for (input, output) in moments {
        let actual = String::from_utf8(run(input.as_bytes())).unwrap();
        assert_eq!(actual, output, "{input}");
    }
}

#[test]
fn equal_deadlines_go_by_who_came_first() {
    check_outputs(ties());
}

#[test]
fn unused_time_goes_to_the_jobs_behind() {
    check_outputs(gifts());
}

#[test]
fn every_candidate_is_equally_likely() {
    check_outputs(draws());
}

#[test]
fn tables_are_part_loose() {
    check_outputs(mixed());
}

#[test]
fn budgets_are_taken_on_arrival() {
    check_outputs(arrivals());
}

#[test]
fn tables_are_judged_as_printed() {
    for example in EXAMPLES {
        let output = run(&table_text(&example.rows()));
        assert_eq!(String::from_utf8(output).unwrap(), plain(example.output));
    }
}

#[test]
fn busy_lengths_are_as_printed() {
    let second = rows(&[[4, 10, 10], [1, 20, 20], [1, 5, 5], [2, 12, 12]]);
    let third = rows(&[[1, 5, 5], [3, 8, 8], [2, 9, 9], [4, 20, 20]]);
    let at_horizon = rows(&[[1, 2, 2], [500_000, 1_000_000, 1_000_000]]);
    let beyond = rows(&[[1, 2, 2], [500_000, 999_999, 999_999]]);
    assert_eq!(busy_length(&second), Some(9));
    assert_eq!(busy_length(&third), Some(80));
    assert_eq!(busy_length(&at_horizon), Some(1_000_000));
    assert_eq!(busy_length(&beyond), None);
}

#[test]
fn overload_begins_at_six() {
    let overloaded = rows(&[[1, 2, 2], [2, 3, 3]]);
    assert_eq!(demand(&overloaded, 6), 7);
    assert_eq!(overloads_by_scan(&overloaded, 6).next(), Some((6, 7)));
}

#[test]
fn length_of_the_slice_comes_first() {
    for length in [0, 1, 2, 4, 47, 49, 51, 300] {
        let refusal = Refusal {
            number: 1,
            values: [length as u64, 0],
        };
        assert_eq!(opinion(&vec![0; length]), Err(refusal));
    }
    assert_eq!(opinion(&[0; 48]).map_err(|refusal| refusal.number), Err(2));
}

#[test]
fn first_unlawful_row_is_named() {
    let refusal = Refusal {
        number: 2,
        values: [1, 0],
    };
    // The lawful row alone with itself would be overloaded.
    assert_eq!(opinion(&[2, 3, 2, 3, 5, 2, 0, 0, 0, 2, 3, 2]), Err(refusal));
}

/// A sound session with jobs of the given deadlines and budgets, all waiting;
/// all arrived on tick 0.
fn waiting(jobs: &[(u32, i64)]) -> Session {
    let numbers: Vec<u32> = jobs.iter().flat_map(|(due, _)| [1, 100, *due]).collect();
    let mut session = start(&numbers).unwrap();
    for (slot, (due, budget)) in session.slots.iter_mut().zip(jobs) {
        let job = Job {
            due: u64::from(*due),
            left: 1,
            budget: *budget,
        };
        *slot = Slot {
            next: 100,
            job: Some(job),
        };
    }
    assert!(session.is_sound());
    session
}

#[test]
fn spent_budget_at_an_equal_deadline_bars_later_jobs() {
    let session = waiting(&[(10, 3), (10, 0), (20, 4)]);
    assert_eq!([0, 1].map(|row| session.arrival(row)), [Some(0); 2]);
    assert_eq!(candidates(&session), [0, 1]);
}

#[test]
fn candidates_stand_in_order() {
    assert_eq!(
        candidates(&waiting(&[(20, 3), (10, 2), (10, 1)])),
        [1, 2, 0, IDLE]
    );
    assert_eq!(
        candidates(&waiting(&[(20, 0), (10, 2), (10, 1)])),
        [1, 2, 0]
    );
    assert_eq!(candidates(&waiting(&[(20, 3), (10, 0), (10, 1)])), [1]);
    assert_eq!(candidates(&start(&[1, 1, 1]).unwrap()), [IDLE]);
}
