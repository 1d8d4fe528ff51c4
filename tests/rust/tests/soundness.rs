//! Soundness of sessions of any content, clause by clause.

use shuffle_model::calls::{perform, Call};
use shuffle_model::rng::Rng;
use shuffle_model::session::{start, Choice, Job, Session, Slot, CLOCK_END, IDLE};
use shuffle_model::table::{Kind, Row, HORIZON};

/// At 5: row 0 arrived at 2, row 1 at 4 and is chosen. V is 5 and 8, and D − C
/// is 8 and 12.
fn loose() -> Session {
    let mut session = start(&[2, 10, 10, 3, 20, 15]).unwrap();
    session.clock = 5;
    session.slots = vec![slot(12, 12, 2, 4), slot(24, 19, 3, 8)];
    session.choice = Some(Choice { row: 1, left: 2 });
    session
}

fn slot(next: u64, due: u64, left: u64, budget: i64) -> Slot {
    let job = Job { due, left, budget };
    Slot {
        next,
        job: Some(job),
    }
}

/// At 5: both rows arrived at 5 and the head is chosen.
fn tight() -> Session {
    let mut session = start(&[2, 4, 4, 3, 6, 6]).unwrap();
    assert_eq!(session.kind, Kind::Tight);
    session.clock = 5;
    session.slots = vec![slot(9, 9, 2, 0), slot(11, 11, 3, 0)];
    session.choice = Some(Choice { row: 0, left: 1 });
    session
}

/// The same moment at another clock.
fn shifted(mut session: Session, clock: u64) -> Session {
    let shift = clock - session.clock;
    session.clock = clock;
    for slot in &mut session.slots {
        slot.next += shift;
        slot.job = slot.job.map(|job| Job {
            due: job.due + shift,
            ..job
        });
    }
    session
}

fn with(mut session: Session, change: impl Fn(&mut Session)) -> Session {
    change(&mut session);
    session
}

fn changed_job(row: usize, change: impl Fn(&mut Job)) -> Session {
    with(loose(), |session| {
        change(session.slots[row].job.as_mut().unwrap());
    })
}

fn choosing(session: Session, row: u32, left: u64) -> Session {
    with(session, |session| {
        session.choice = Some(Choice { row, left });
    })
}

fn without_jobs() -> Session {
    with(loose(), |session| {
        session.choice = None;
        session.slots.iter_mut().for_each(|slot| slot.job = None);
    })
}

fn assert_all(sound: bool, sessions: Vec<Session>) {
    for session in sessions {
        assert_eq!(session.is_sound(), sound, "{session:?}");
    }
}

#[test]
fn bases_are_sound() {
    assert_all(true, vec![loose(), tight(), without_jobs()]);
}

#[test]
fn rows_must_be_admitted_as_the_kind() {
    let lawless = with(without_jobs(), |session| session.rows[0].run = 0);
    let overloaded = with(without_jobs(), |session| {
        session.rows = vec![Row::from([1, 2, 2]), Row::from([2, 3, 3])];
    });
    let other_kind = with(without_jobs(), |session| session.kind = Kind::Tight);
    let tight_as_loose = with(tight(), |session| session.kind = Kind::Loose);
    let resized = |count: usize| {
        with(without_jobs(), |session| {
            session.rows = vec![Row::from([1, 100, 100]); count];
            session.slots = vec![Slot::default(); count];
        })
    };
    let missing_slot = with(without_jobs(), |session| session.slots.truncate(1));
    let cases = vec![
        lawless,
        overloaded,
        other_kind,
        tight_as_loose,
        missing_slot,
    ];
    assert_all(false, cases);
    assert_all(false, vec![resized(0), resized(17)]);
    assert_all(true, vec![resized(1), resized(16)]);
}

#[test]
fn clock_ends_at_two_to_the_53rd() {
    assert_all(true, vec![shifted(loose(), CLOCK_END)]);
    assert_all(false, vec![shifted(loose(), CLOCK_END + 1)]);
    assert_all(
        false,
        vec![with(without_jobs(), |session| session.clock = u64::MAX)],
    );
}

#[test]
fn next_arrival_lies_within_a_period() {
    let next = |next| with(without_jobs(), move |session| session.slots[0].next = next);
    assert_all(true, vec![next(0), next(15)]);
    assert_all(false, vec![next(16), next(u64::MAX)]);
    // With a waiting job whose deadline fits the next arrival.
    let waiting = |next| {
        with(loose(), move |session| {
            session.slots[1] = slot(next, next - 5, 3, 8)
        })
    };
    assert_all(true, vec![waiting(25)]);
    assert_all(false, vec![waiting(26)]);
}

#[test]
fn remaining_ticks_lie_from_one_to_the_longest_run() {
    let left = |left| changed_job(0, move |job| job.left = left);
    assert_all(true, vec![left(1), left(2)]);
    assert_all(false, vec![left(0), left(3), left(u64::MAX)]);
}

#[test]
fn deadline_belongs_to_the_next_arrival() {
    let due = |due| changed_job(1, move |job| job.due = due);
    assert_all(true, vec![due(19)]);
    assert_all(false, vec![due(18), due(20), due(u64::MAX)]);
    // Over the integers: 0 − 20 + 15 is no deadline, whatever wraps to it.
    let below_zero = with(loose(), |session| {
        session.slots[1] = slot(0, 0u64.wrapping_sub(5), 3, 8);
    });
    assert_all(false, vec![below_zero]);
}

#[test]
fn deadline_lies_ahead() {
    let due = |due| {
        with(loose(), move |session| {
            session.slots[0] = slot(due, due, 2, 4)
        })
    };
    assert_all(true, vec![due(6)]);
    assert_all(false, vec![due(5), due(4)]);
}

#[test]
fn budget_lies_from_zero_to_d_less_c() {
    let budget = |budget| changed_job(1, move |job| job.budget = budget);
    assert_all(true, vec![budget(0), budget(8), budget(9), budget(12)]);
    assert_all(
        false,
        vec![budget(-1), budget(13), budget(i64::MIN), budget(i64::MAX)],
    );
    let spendable = with(tight(), |session| session.slots[1] = slot(11, 11, 3, 1));
    assert_all(false, vec![spendable]);
}

#[test]
fn choice_names_a_waiting_row_or_idle() {
    assert_all(
        true,
        vec![choosing(loose(), 0, 1), choosing(loose(), IDLE, 1)],
    );
    assert_all(
        false,
        vec![choosing(loose(), 2, 1), choosing(loose(), 15, 1)],
    );
    assert_all(
        false,
        vec![choosing(loose(), 17, 1), choosing(loose(), u32::MAX, 1)],
    );
    assert_all(false, vec![choosing(without_jobs(), 0, 1)]);
}

#[test]
fn choice_has_ticks_left_up_to_a_million() {
    assert_all(true, vec![choosing(without_jobs(), IDLE, HORIZON)]);
    assert_all(false, vec![choosing(without_jobs(), IDLE, HORIZON + 1)]);
    assert_all(
        false,
        vec![choosing(without_jobs(), IDLE, 0), choosing(loose(), 0, 0)],
    );
    assert_all(false, vec![choosing(without_jobs(), IDLE, u64::MAX)]);
}

#[test]
fn choice_keeps_to_the_remaining_ticks() {
    assert_all(true, vec![choosing(loose(), 0, 2), choosing(loose(), 1, 3)]);
    assert_all(
        false,
        vec![choosing(loose(), 0, 3), choosing(loose(), 1, 4)],
    );
}

#[test]
fn choice_keeps_to_the_budgets_of_earlier_jobs() {
    let spent = |row: usize, budget| changed_job(row, move |job| job.budget = budget);
    // Row 0 is earlier than row 1; under idle both are.
    assert_all(
        true,
        vec![choosing(spent(0, 2), 1, 2), choosing(spent(1, 0), 0, 2)],
    );
    assert_all(false, vec![choosing(spent(0, 1), 1, 2)]);
    assert_all(true, vec![choosing(spent(1, 2), IDLE, 2)]);
    assert_all(
        false,
        vec![
            choosing(spent(1, 1), IDLE, 2),
            choosing(spent(0, 1), IDLE, 2),
        ],
    );
    assert_all(
        false,
        vec![choosing(tight(), 1, 1), choosing(tight(), IDLE, 1)],
    );
    // A job of equal deadline is not earlier: row 0 arrived at 2 for 12.
    let equal = with(spent(0, 0), |session| session.slots[1] = slot(17, 12, 3, 8));
    assert_all(true, vec![choosing(equal, 1, 3)]);
    // Nor is one that also arrived earlier: row 1 at −3.
    let equal = with(loose(), |session| session.slots[1] = slot(17, 12, 3, 0));
    assert_all(true, vec![choosing(equal, 0, 2)]);
}

#[test]
fn unsound_sessions_are_refused_before_all_else() {
    let unsound = with(loose(), |session| session.slots[0].next += 1);
    for call in [
        Call::Arrive(99),
        Call::Choose(&[1]),
        Call::Advance(0),
        Call::Finish,
    ] {
        let mut session = unsound.clone();
        let answer = perform(&mut session, call);
        assert_eq!(
            (answer.number, answer.values, answer.words_used),
            (5, [0, 0], 0)
        );
        assert_eq!(session, unsound);
    }
}

/// One field of the session put to a value at or beyond some limit.
fn disturb(session: &mut Session, rng: &mut Rng) {
    let row = rng.below(session.slots.len());
    let near = session.clock.wrapping_add(u64::from(rng.between(0, 24)));
    let value = rng.pick(&[0, 1, 2, 8, 12, near, CLOCK_END, 1 << 63, u64::MAX]);
    let slot = &mut session.slots[row];
    match (rng.below(7), &mut slot.job, &mut session.choice) {
        (0, _, _) => session.clock = value,
        (1, Some(job), _) => job.due = value,
        (2, Some(job), _) => job.left = value,
        (3, Some(job), _) => job.budget = value as i64,
        (4, _, Some(choice)) => choice.left = value,
        (5, _, Some(choice)) => choice.row = value as u32,
        _ => slot.next = value,
    }
}

#[test]
fn any_content_gets_an_answer_and_refusals_change_nothing() {
    let mut rng = Rng::new(4);
    let mut seen = [0; 13];
    for _ in 0..100_000 {
        let mut session = [loose(), tight(), shifted(loose(), CLOCK_END - 1)][rng.below(3)].clone();
        for _ in 0..rng.below(3) {
            disturb(&mut session, &mut rng);
        }
        if rng.chance(1, 3) {
            session.choice = None;
        }
        let words = [rng.draw() as u32, rng.draw() as u32];
        let call = match rng.below(4) {
            0 => Call::Arrive(rng.between(0, 2)),
            1 => Call::Choose(&words[..rng.below(3)]),
            2 => Call::Advance(rng.between(0, 3)),
            _ => Call::Finish,
        };
        let before = session.clone();
        let answer = perform(&mut session, call);
        seen[answer.number as usize] += 1;
        assert_eq!(answer.number == 5, !before.is_sound(), "{before:?}");
        if answer.number != 0 {
            assert_eq!((&session, answer.words_used), (&before, 0));
        }
    }
    for (number, count) in seen.iter().enumerate() {
        assert_eq!(*count > 0, number == 0 || number >= 5, "answer {number}");
    }
}
