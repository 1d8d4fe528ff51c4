//! A whole shift change in one call: a list of rows arrives in list order. All
//! numbers are worked out by hand.

mod shared;

use shared::{fresh, FOUR};
use shuffle_model::calls::{arrive_all, candidates, perform, Answer, Arrival, Call};
use shuffle_model::rng::Rng;
use shuffle_model::session::{Choice, Job, Session, Slot, CLOCK_END, IDLE};
use shuffle_model::sessions::sound_session;
use shuffle_model::table::Kind;

/// An answer: its number and two values.
type Numbers = (u32, [u64; 2]);

/// Hands in a list of these rows, and gives the answers.
fn batch(session: &mut Session, rows: &[u64]) -> Vec<Numbers> {
    let mut list: Vec<Arrival> = rows.iter().copied().map(Arrival::of).collect();
    arrive_all(session, &mut list);
    let handed_back: Vec<u64> = list.iter().map(|arrival| arrival.row).collect();
    assert_eq!(handed_back, rows, "no row is written");
    list.iter().map(|arrival| numbers(arrival.answer)).collect()
}

/// An answer of a call that takes no words.
fn numbers(answer: Answer) -> Numbers {
    assert_eq!(answer.words_used, 0);
    (answer.number, answer.values)
}

fn slot(next: u64, due: u64, left: u64, budget: i64) -> Slot {
    let job = Job { due, left, budget };
    Slot {
        next,
        job: Some(job),
    }
}

/// At 5, with rows 1 and 3 waiting since 0 and a choice in force.
fn midway(choice: Choice) -> Session {
    let mut session = fresh(&FOUR);
    session.clock = 5;
    session.slots[1] = slot(100, 30, 3, 11);
    session.slots[3] = slot(100, 50, 5, 31);
    session.choice = Some(choice);
    assert!(session.is_sound());
    session
}

/// The choices that `midway` can hold: each waiting row, and idle.
const CHOICES: [Choice; 3] = [
    Choice { row: 1, left: 3 },
    Choice { row: 3, left: 2 },
    Choice {
        row: IDLE,
        left: 11,
    },
];

#[test]
fn all_rows_arrive_in_list_order() {
    let mut session = fresh(&FOUR);
    session.clock = 7;
    let answers = batch(&mut session, &[2, 0, 3, 1]);
    assert_eq!(
        answers,
        [(0, [2, 47]), (0, [0, 27]), (0, [3, 57]), (0, [1, 37])]
    );
    let expected = Session {
        clock: 7,
        slots: vec![
            slot(107, 27, 4, 16),
            slot(107, 37, 3, 23),
            slot(107, 47, 2, 31),
            slot(107, 57, 5, 36),
        ],
        ..fresh(&FOUR)
    };
    assert_eq!(session, expected);
    assert!(session.is_sound());
}

#[test]
fn the_listing_starts_with_a_batch_as_with_two_arrivals() {
    let mut session = fresh(&[[2, 10, 10], [3, 20, 15]]);
    let answers = batch(&mut session, &[0, 1]);
    assert_eq!(answers, [(0, [0, 10]), (0, [1, 15])]);
    assert_eq!(
        perform(&mut session, Call::Choose(&[4, 9])).values,
        [1, 1],
        "as in the listing"
    );
}

#[test]
fn a_tight_session_gives_no_budget() {
    let mut session = fresh(&[[2, 4, 4], [3, 6, 6]]);
    assert_eq!(session.kind, Kind::Tight);
    let answers = batch(&mut session, &[1, 0, 1]);
    assert_eq!(answers, [(0, [1, 6]), (0, [0, 4]), (7, [1, 6])]);
    assert_eq!(session.slots, [slot(4, 4, 2, 0), slot(6, 6, 3, 0)]);
}

#[test]
fn a_mixed_session_gives_budget_to_rows_that_are_not_brittle() {
    // V is 4 − 3 − 3 = −2 and 10 − 3 − 2 × 3 = 1.
    let mut session = fresh(&[[3, 5, 4], [3, 50, 10]]);
    assert_eq!(session.kind, Kind::Mixed);
    let answers = batch(&mut session, &[1, 0, 1]);
    assert_eq!(answers, [(0, [1, 10]), (0, [0, 4]), (7, [1, 50])]);
    assert_eq!(session.slots, [slot(5, 4, 3, 0), slot(50, 10, 3, 1)]);
}

#[test]
fn the_place_in_the_list_does_not_decide_between_equal_deadlines() {
    // They arrive on one tick, so the row number decides.
    for rows in [[0, 1], [1, 0]] {
        let mut session = fresh(&[[2, 10, 10], [2, 10, 10]]);
        batch(&mut session, &rows);
        assert_eq!(candidates(&session), [0, 1, IDLE]);
    }
}

#[test]
fn an_unknown_row_does_not_stop_those_after_it() {
    let mut session = fresh(&FOUR);
    let answers = batch(&mut session, &[4, 1, 15, 16, 17, 0]);
    assert_eq!(
        answers,
        [
            (6, [4, 0]),
            (0, [1, 30]),
            (6, [15, 0]),
            (6, [16, 0]),
            (6, [17, 0]),
            (0, [0, 20]),
        ]
    );
    let none = Slot::default();
    let expected = [slot(100, 20, 4, 16), slot(100, 30, 3, 23), none, none];
    assert_eq!(session.slots, expected);
}

#[test]
fn a_row_that_comes_too_early_does_not_stop_those_after_it() {
    // Rows 1 and 3 arrived at 0, so that 100 is their earliest next arrival.
    let mut session = midway(CHOICES[0]);
    let answers = batch(&mut session, &[1, 0, 3, 2]);
    assert_eq!(
        answers,
        [(7, [1, 100]), (0, [0, 25]), (7, [3, 100]), (0, [2, 45])]
    );
    let expected = [
        slot(105, 25, 4, 16),
        slot(100, 30, 3, 11),
        slot(105, 45, 2, 31),
        slot(100, 50, 5, 31),
    ];
    assert_eq!(session.slots, expected);
}

#[test]
fn a_row_may_arrive_from_its_earliest_next_arrival_on() {
    for (clock, expected) in [
        (99, (7, [2, 100])),
        (100, (0, [2, 140])),
        (101, (0, [2, 141])),
    ] {
        let mut session = fresh(&FOUR);
        session.clock = clock;
        session.slots[2].next = 100;
        assert_eq!(batch(&mut session, &[2]), [expected], "{clock}");
    }
}

#[test]
fn a_repeated_row_is_too_early_by_its_own_arrival() {
    let mut session = fresh(&FOUR);
    session.clock = 7;
    // The earliest next arrival is the clock + T, and not the 0 from before.
    let answers = batch(&mut session, &[0, 0, 1, 0, 1]);
    assert_eq!(
        answers,
        [
            (0, [0, 27]),
            (7, [0, 107]),
            (0, [1, 37]),
            (7, [0, 107]),
            (7, [1, 107]),
        ]
    );
    let none = Slot::default();
    let expected = [slot(107, 27, 4, 16), slot(107, 37, 3, 23), none, none];
    assert_eq!(session.slots, expected);
}

#[test]
fn an_empty_list_changes_nothing() {
    for choice in CHOICES {
        let before = midway(choice);
        let mut session = before.clone();
        assert_eq!(batch(&mut session, &[]), []);
        assert_eq!(session, before, "the choice is still in force");
    }
    let mut session = fresh(&FOUR);
    assert_eq!(batch(&mut session, &[]), []);
    assert_eq!(session, fresh(&FOUR));
}

#[test]
fn refused_records_alone_leave_the_choice_in_force() {
    // A refused arrive leaves the same session behind, and its choice with it.
    for choice in CHOICES {
        let before = midway(choice);
        let mut session = before.clone();
        let answers = batch(&mut session, &[1, 4, 3, 1]);
        assert_eq!(
            answers,
            [(7, [1, 100]), (6, [4, 0]), (7, [3, 100]), (7, [1, 100])]
        );
        assert_eq!(session, before);
    }
}

#[test]
fn one_arrival_drops_the_choice_in_force() {
    for choice in CHOICES {
        for rows in [&[0][..], &[0, 1], &[1, 0], &[4, 3, 0, 0, 4]] {
            let mut session = midway(choice);
            let answers = batch(&mut session, rows);
            let accepted = answers.iter().filter(|(number, _)| *number == 0);
            assert_eq!(accepted.count(), 1);
            assert_eq!(session.choice, None, "{rows:?}");
            assert!(session.is_sound());
        }
    }
}

#[test]
fn an_unsound_session_answers_5_in_every_record() {
    let changes: [fn(&mut Session); 5] = [
        |session| session.clock = CLOCK_END + 1,
        |session| session.kind = Kind::Tight,
        |session| session.slots[1].next += 1,
        |session| session.rows[3].run = 0,
        |session| session.choice = Some(Choice { row: 0, left: 1 }),
    ];
    for change in changes {
        let mut before = midway(CHOICES[0]);
        change(&mut before);
        for rows in [&[][..], &[0], &[0, 1, 0], &[4, 16, u64::MAX, 2], &[0; 40]] {
            let mut session = before.clone();
            let answers = batch(&mut session, rows);
            assert_eq!(answers, vec![(5, [0, 0]); rows.len()]);
            assert_eq!(session, before);
        }
    }
}

#[test]
fn a_row_can_be_any_number_of_64_bits() {
    // Cut to 32 bits, most of them would be rows of the table.
    let unknown = [1 << 32, (1 << 32) + 3, 3 << 40, 1 << 63, u64::MAX];
    for row in unknown {
        let mut session = fresh(&FOUR);
        let answers = batch(&mut session, &[row, 3, row]);
        assert_eq!(answers, [(6, [row, 0]), (0, [3, 50]), (6, [row, 0])]);
        assert_eq!(session.slots[..3], [Slot::default(); 3]);
    }
}

#[test]
fn a_list_can_be_longer_than_a_table() {
    // 16 rows of V 16 − 16 = 0. Each comes twice, then 8 that are not there.
    let mut session = fresh(&[[1, 16, 16]; 16]);
    let rows: Vec<u64> = (0..16).rev().chain(0..24).collect();
    let answers = batch(&mut session, &rows);
    let arrived = (0..16).rev().map(|row| (0, [row, 16]));
    let again = (0..16).map(|row| (7, [row, 16]));
    let unknown = (16..24).map(|row| (6, [row, 0]));
    let expected: Vec<Numbers> = arrived.chain(again).chain(unknown).collect();
    assert_eq!((answers.len(), answers), (40, expected));
    assert_eq!(session.slots, [slot(16, 16, 1, 0); 16]);
}

#[test]
fn a_batch_comes_at_the_end_of_the_clock_too() {
    // 2^53 + 20 and so on: an arrival has no limit of its own.
    let mut session = fresh(&FOUR);
    session.clock = CLOCK_END;
    let answers = batch(&mut session, &[0, 3, 0]);
    assert_eq!(
        answers,
        [
            (0, [0, 9_007_199_254_741_012]),
            (0, [3, 9_007_199_254_741_042]),
            (7, [0, 9_007_199_254_741_092]),
        ]
    );
    assert!(session.is_sound());
}

#[test]
fn what_an_answer_place_held_before_has_no_influence() {
    let contents = [
        Answer {
            number: 7,
            values: [0, 107],
            words_used: 0,
        },
        Answer {
            number: u32::MAX,
            values: [u64::MAX; 2],
            words_used: usize::MAX,
        },
    ];
    let unsound = Session {
        clock: CLOCK_END + 1,
        ..fresh(&FOUR)
    };
    for before in [midway(CHOICES[2]), unsound] {
        let rows = [0, 0, 1, 9, 2];
        let mut expected = before.clone();
        let answers = batch(&mut expected, &rows);
        for answer in contents {
            let mut session = before.clone();
            let mut list = rows.map(|row| Arrival { row, answer });
            arrive_all(&mut session, &mut list);
            assert_eq!(list.map(|arrival| numbers(arrival.answer)), answers[..]);
            assert_eq!(session, expected);
        }
    }
}

/// The answers to arrivals one by one.
fn one_by_one(session: &mut Session, rows: &[u64]) -> Vec<Numbers> {
    let rows = rows.iter().map(|row| *row as u32);
    rows.map(|row| numbers(perform(session, Call::Arrive(row))))
        .collect()
}

#[test]
fn a_batch_equals_arrivals_one_by_one() {
    let mut rng = Rng::new(3);
    let mut seen = [0; 8];
    for _ in 0..20_000 {
        let mut session = sound_session(&mut rng);
        if rng.chance(1, 8) {
            session.clock = rng.draw();
        }
        let rows: Vec<u64> = (0..rng.below(24)).map(|_| rng.below(18) as u64).collect();
        let mut single = session.clone();
        let was_sound = session.is_sound();
        let answers = batch(&mut session, &rows);
        assert_eq!(answers, one_by_one(&mut single, &rows));
        assert_eq!(session, single);
        assert_eq!(session.is_sound(), was_sound);
        for (number, _) in answers {
            seen[number as usize] += 1;
        }
    }
    for (number, count) in seen.iter().enumerate() {
        let is_possible = number == 0 || number >= 5;
        assert_eq!(*count > 1_000, is_possible, "{number}: {count}");
    }
}

#[test]
fn a_batch_equals_any_parts_of_it() {
    // The parts get the session that the part before left.
    let mut rng = Rng::new(4);
    for _ in 0..2_000 {
        let before = sound_session(&mut rng);
        let rows: Vec<u64> = (0..rng.below(24)).map(|_| rng.below(18) as u64).collect();
        let mut whole = before.clone();
        let answers = batch(&mut whole, &rows);
        let mut parts = before;
        let (first, rest) = rows.split_at(rng.below(rows.len() + 1));
        let mut of_parts = batch(&mut parts, first);
        of_parts.extend(batch(&mut parts, rest));
        assert_eq!((answers, whole), (of_parts, parts));
    }
}
