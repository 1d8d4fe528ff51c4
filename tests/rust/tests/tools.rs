//! The parts that the comparing tools rest on.

use shuffle_model::arrivals::{ArrivalCounts, ArrivalTally, Arrivals};
use shuffle_model::batches::{Batch, BatchTally};
use shuffle_model::calls::{candidates, limit, perform, Call};
use shuffle_model::draws::{DrawTally, Drawn, DrawnChoices, Draws};
use shuffle_model::gifts::{shares, FinishTally, GiftTally, Gifts, Share};
use shuffle_model::hard::{full_to, full_to_one, mutant, utilisation, with_longer_deadlines};
use shuffle_model::inputs::{random_input, KINDS};
use shuffle_model::mixed::{HeldTally, Mixed, MixedCalls, MixedTally, TableTally};
use shuffle_model::overloaded::{late_overload_rows, overloaded_rows};
use shuffle_model::overloads::OverloadTally;
use shuffle_model::rng::Rng;
use shuffle_model::session::{start, Choice, Job, Session, IDLE};
use shuffle_model::sessions::sound_session;
use shuffle_model::shrink::shrink;
use shuffle_model::specification::{arrivals, draws, gifts, listing, mixed, plain, ties};
use shuffle_model::table::{budget, Kind, Row, ROW_LIMIT};
use shuffle_model::tally::{Among, Tally};
use shuffle_model::text::{run, run_watched, INPUT_LIMIT};
use shuffle_model::ties::{TieTally, TiedChoices, Ties};
use shuffle_model::words::{more_words, next_word};

#[test]
fn shrinking_finds_the_shortest_input() {
    let (input, _) = listing();
    let has_choice_before_finish = |text: &[u8]| {
        let choice = text.iter().position(|byte| *byte == b'G');
        let finish = text.iter().rposition(|byte| *byte == b'F');
        choice
            .zip(finish)
            .is_some_and(|(choice, finish)| choice < finish)
    };
    assert_eq!(
        shrink(input.as_bytes(), INPUT_LIMIT, has_choice_before_finish),
        b"GF"
    );
}

#[test]
fn shrinking_lowers_numbers() {
    let is_above_six = |text: &[u8]| {
        let text = std::str::from_utf8(text).unwrap();
        text.parse::<u64>().is_ok_and(|number| number > 6)
    };
    assert_eq!(shrink(b"4294967295", INPUT_LIMIT, is_above_six), b"7");
}

#[test]
fn equal_seeds_give_equal_inputs() {
    let input = |seed, case| random_input(KINDS, &mut Rng::for_case(seed, case));
    assert_eq!(input(1, 2), input(1, 2));
    assert_ne!(input(1, 2), input(1, 3));
    assert_ne!(input(1, 2), input(2, 2));
}

#[test]
fn gaps_name_what_is_missing_and_what_is_impossible() {
    let mut tally = Tally::default();
    tally.add(listing().1.as_bytes());
    assert_eq!(tally.lines(), 13);
    assert_eq!(
        tally.to_string(),
        "M 0:1; B 0:2; A 0:2 7:1; G 0:2 8:1; R 0:3; F 11:1; ?"
    );
    let gaps = tally.gaps();
    assert!(gaps.contains(&"M 4 was never reached".to_string()));
    assert!(!gaps.contains(&"A 7 was never reached".to_string()));
    tally.add(b"0\tR\t12\t9007199254740992\t0\n");
    assert!(tally.gaps().contains(&"R 12 was not expected".to_string()));
}

/// Which ties an input in the form of the listing reaches.
fn watched(input: &str) -> Ties {
    let mut ties = Ties::default();
    run_watched(plain(input).as_bytes(), |machine, command| {
        ties.watch(machine, command)
    });
    ties
}

const NONE: Ties = Ties {
    reached: false,
    shown: false,
};
const HIDDEN: Ties = Ties {
    reached: true,
    shown: false,
};
const SHOWN: Ties = Ties {
    reached: true,
    shown: true,
};

#[test]
fn ties_count_where_arrival_decides_against_the_row_number() {
    // Row 1 arrives at 0, row 0 at 10, both for 20.
    let met = "T 1 10 10/T 1 20 20/A 1/W 1/W 9/G/R 10/A 0/";
    let go_on = |end: &str| watched(&format!("{met}{end}"));
    assert_eq!(go_on(""), NONE);
    assert_eq!(go_on("R 1/A 1/F/x/G/"), NONE);
    for end in ["G/", "W 0/G/", "W 1/G/", "R 0/W 4/G/R 1/"] {
        assert_eq!(go_on(end), SHOWN, "{end}");
    }
    // Idle is the last candidate in either order.
    assert_eq!(go_on("W 2/W 3/G/"), HIDDEN);
    assert_eq!(go_on("W 2/W 3/G/R 4/G/"), SHOWN);
    // Only the first to come waits, or row 0 came first, or both at once.
    assert_eq!(watched("T 1 10 10/T 1 20 20/A 1/G/R 1/G/R 9/A 0/G/"), NONE);
    assert_eq!(
        watched("T 1 20 20/T 1 10 10/A 0/W 1/W 9/G/R 10/A 1/G/"),
        NONE
    );
    assert_eq!(watched("T 2 10 10/T 2 10 10/A 1/A 0/G/"), NONE);
    // One tick later the deadlines are 20 and 21.
    assert_eq!(
        watched("T 1 10 10/T 1 20 20/A 1/W 1/W 10/G/R 11/A 0/G/"),
        NONE
    );
    // With one candidate the words do not hide it.
    for end in ["G/", "W 0/G/", "W 1/G/"] {
        let tight = watched(&format!("T 2 4 4/T 3 6 6/A 1/G/R 2/A 0/{end}"));
        assert_eq!(tight, SHOWN, "{end}");
    }
}

#[test]
fn watching_changes_no_output() {
    let moments = [ties(), gifts(), draws(), mixed(), arrivals()];
    for (input, output) in moments.into_iter().flatten() {
        assert_eq!(run(input.as_bytes()), output.as_bytes());
        let (mut ties, mut gifts) = (Ties::default(), Gifts::default());
        let mut draws = Draws::default();
        let (mut mixed, mut arrivals) = (Mixed::default(), Arrivals::default());
        let watched = run_watched(input.as_bytes(), |machine, command| {
            ties.watch(machine, command);
            gifts.watch(machine, command);
            draws.watch(machine, command);
            mixed.watch(machine, command);
            arrivals.watch(machine, command);
        });
        assert_eq!(watched, output.as_bytes());
    }
}

#[test]
fn too_few_ties_are_named() {
    let tally = |none, hidden, shown| {
        let mut tally = TieTally::default();
        for (ties, count) in [(NONE, none), (HIDDEN, hidden), (SHOWN, shown)] {
            let mut half = TieTally::default();
            (0..count).for_each(|_| half.add(ties));
            tally.merge(half);
        }
        tally
    };
    assert!(tally(180, 10, 10).gaps().is_empty());
    assert!(tally(0, 0, 1).gaps().is_empty());
    assert_eq!(
        tally(181, 9, 10).gaps(),
        ["19 of 200 inputs have a tie that arrival decides (fewer than one in 10)"]
    );
    assert_eq!(
        tally(180, 11, 9).gaps(),
        ["9 of 200 inputs show such a tie in an answer (fewer than one in 20)"]
    );
    assert_eq!(tally(200, 0, 0).gaps().len(), 2);
    assert_eq!(
        tally(3, 2, 1).to_string(),
        "arrival decides a tie against the row number in 3 inputs, \
        and 1 of them show it in an answer"
    );
}

#[test]
fn choices_of_sound_sessions_reach_every_sort_of_tie() {
    let mut rng = Rng::new(8);
    let mut ties = TiedChoices::default();
    assert_eq!(ties.gaps().len(), 3);
    for _ in 0..2_000 {
        let session = sound_session(&mut rng);
        if session.choice.is_none() {
            ties.add(&session, &[rng.draw() as u32]);
        }
    }
    assert!(ties.gaps().is_empty(), "{ties}");
}

/// Which gifts an input in the form of the listing reaches: given, several,
/// shown; and what is not given: to an equal deadline, in a tight session, to a
/// brittle row.
fn gifts_of(input: &str) -> ([bool; 3], [bool; 3]) {
    let mut gifts = Gifts::default();
    let input = plain(input).into_bytes();
    let output = run_watched(&input, |machine, command| gifts.watch(machine, command));
    gifts.compare(&input, &output);
    (
        [gifts.given, gifts.several, gifts.shown],
        [gifts.equal, gifts.tight, gifts.brittle],
    )
}

#[test]
fn gifts_count_where_a_finish_gives() {
    // Row 0 gives 4 ticks to row 1, which has 23.
    let chosen = "T 4 100 20/T 3 100 30/A 0/A 1/G/";
    let go_on = |end: &str| gifts_of(&format!("{chosen}{end}"));
    for end in ["", "R 4/G/F/", "R 1/G/W 1/", "R 5/A 0/x/F/"] {
        assert_eq!(go_on(end), ([false; 3], [false; 3]), "{end}");
    }
    // The head and its span are the same without the gift; so are spans from a
    // word below 23.
    for end in ["F/", "F/G/", "R 3/F/W 2/G/R 3/G/", "F/W 1/W 22/G/"] {
        assert_eq!(go_on(end), ([true, false, false], [false; 3]), "{end}");
    }
    for end in ["F/W 1/G/", "F/W 1/W 23/G/", "R 3/F/A 0/F/R 0/W 1/G/"] {
        assert_eq!(go_on(end), ([true, false, true], [false; 3]), "{end}");
    }
}

#[test]
fn gifts_count_where_one_job_gains_more_than_once() {
    let chosen = "T 4 100 20/T 3 100 30/T 2 100 40/A 0/A 1/A 2/G/F/G/";
    let go_on = |end: &str| gifts_of(&format!("{chosen}{end}")).0;
    assert_eq!(go_on("R 3/"), [true, false, false]);
    assert_eq!(go_on("F/"), [true, true, false]);
    assert_eq!(go_on("F/W 1/G/"), [true, true, true]);
    // Two jobs of row 1, each of which gains once.
    let twice = "T 4 50 20/T 3 50 30/A 0/A 1/G/F/G/R 3/G/R 47/A 0/A 1/G/F/";
    assert_eq!(gifts_of(twice).0, [true, false, false]);
}

#[test]
fn gifts_count_what_is_not_given() {
    // Both for 20.
    let equal = "T 2 10 10/T 2 20 20/A 1/W 1/W 9/G/R 10/A 0/G/F/W 1/G/";
    assert_eq!(gifts_of(equal), ([false; 3], [true, false, false]));
    let tight = "T 2 4 4/T 3 6 6/A 0/A 1/G/F/W 1/G/";
    assert_eq!(gifts_of(tight), ([false; 3], [false, true, false]));
    // V is −1, 2, 2. Row 1 is due at 22, row 0, which comes at 4, at 23.
    let brittle = "T 10 100 19/T 5 100 22/T 5 100 22/A 1/G/R 4/A 0/G/F/";
    assert_eq!(gifts_of(brittle), ([false; 3], [false, false, true]));
    // The later of the two gives nothing to the earlier.
    let earlier = "T 2 100 10/T 3 100 20/A 0/A 1/W 1/G/F/W 1/G/";
    assert_eq!(gifts_of(earlier), ([false; 3], [false; 3]));
}

#[test]
fn too_few_gifts_are_named() {
    let tally = |inputs: &[(u64, Gifts)]| {
        let mut tally = GiftTally::default();
        for (count, gifts) in inputs {
            let mut part = GiftTally::default();
            (0..*count).for_each(|_| part.add(gifts));
            tally.merge(part);
        }
        tally
    };
    let mut all = Gifts::default();
    assert_eq!(tally(&[(1, all.clone())]).gaps().len(), 6);
    (all.given, all.several, all.shown) = (true, true, true);
    (all.equal, all.tight, all.brittle) = (true, true, true);
    assert!(tally(&[(7, Gifts::default()), (1, all.clone())])
        .gaps()
        .is_empty());
    assert_eq!(
        tally(&[(8, Gifts::default()), (1, all.clone())]).gaps(),
        ["1 of 9 inputs have a finish that gives (fewer than one in 8)"]
    );
    assert_eq!(
        tally(&[(2, Gifts::default()), (1, all)]).to_string(),
        "a finish gives to a later job in 1 inputs, in 1 of them more than once to one job, \
        and 1 show it in an answer; a job gains nothing in 1 inputs since its deadline is \
        equal, in 1 since the session is tight, in 1 since its row is brittle"
    );
}

#[test]
fn shares_are_what_a_finish_gives() {
    let mut rng = Rng::new(6);
    let mut tally = FinishTally::default();
    let calls = 20_000;
    for _ in 0..calls {
        let before = sound_session(&mut rng);
        let mut after = before.clone();
        let answer = perform(&mut after, Call::Finish);
        let shares = shares(&before);
        if answer.number != 0 {
            assert!(shares.is_empty(), "{before:?}");
            continue;
        }
        tally.add(&before);
        let unused = answer.values[1] as i64;
        assert_eq!(shares.len(), after.waiting().count());
        for (row, share) in shares {
            let [old, new] = [&before, &after].map(|session| session.job(row).unwrap().budget);
            let limit = before.budget_limit(row as usize);
            let is_right = match share {
                Share::Whole => new == old + unused,
                Share::Part => old < new && new < old + unused && new == limit,
                Share::Full => old == new && new == limit,
                Share::Earlier | Share::Equal | Share::Tight | Share::Brittle => old == new,
            };
            assert!(is_right, "{row} {share:?} {before:?}");
        }
    }
    assert!(tally.gaps(calls).is_empty(), "{tally}");
}

#[test]
fn too_few_finishes_of_a_sort_are_named() {
    let tally = FinishTally::default();
    assert_eq!(tally.gaps(0).len(), 0);
    let gaps = tally.gaps(1);
    assert_eq!(gaps.len(), 7);
    assert_eq!(
        gaps[1],
        "0 finishes give a part up to the limit (fewer than one in 10000 calls)"
    );
    assert!(tally
        .to_string()
        .starts_with("of 0 accepted finishes 0 give to some job, 0 give a part"));
}

/// The sorts of batches.
const BATCHES: [&str; 13] = [
    "are empty",
    "have 1 record",
    "have 2 to 15",
    "have 16",
    "have more",
    "let 2 rows or more arrive",
    "let 16 arrive",
    "accept a record after a refused one",
    "repeat a row that arrived",
    "drop a choice in force",
    "are empty and leave a choice in force",
    "are all refused and leave one",
    "answer 5 in 2 records or more",
];

/// The sorts that a batch is of, by their places above.
fn sorts_of(session: Option<&Session>, records: &[(u64, u64)]) -> Vec<usize> {
    let mut tally = BatchTally::default();
    tally.add(&Batch { session, records });
    let gaps = tally.gaps(1);
    let is_missing = |sort: usize| {
        let start = format!("0 batches {} (", BATCHES[sort]);
        gaps.iter().any(|gap| gap.starts_with(&start))
    };
    let sorts = 0..BATCHES.len();
    sorts.filter(|sort| !is_missing(*sort)).collect()
}

#[test]
fn batches_count_by_what_they_do() {
    let session = start(&[2, 10, 10, 3, 20, 15]).unwrap();
    let choice = Some(Choice { row: IDLE, left: 9 });
    let choosing = Session {
        choice,
        ..session.clone()
    };
    let [free, chosen] = [&session, &choosing].map(Some);
    let sixteen: Vec<(u64, u64)> = (0..16).map(|row| (row, 0)).collect();
    assert_eq!(sorts_of(free, &[]), [0]);
    assert_eq!(sorts_of(chosen, &[]), [0, 10]);
    assert_eq!(sorts_of(None, &[]), [0]);
    assert_eq!(sorts_of(free, &[(0, 0)]), [1]);
    assert_eq!(sorts_of(chosen, &[(0, 0)]), [1, 9]);
    assert_eq!(sorts_of(chosen, &[(9, 6)]), [1, 11]);
    assert_eq!(sorts_of(None, &[(0, 5)]), [1]);
    assert_eq!(sorts_of(None, &[(0, 5), (1, 5)]), [2, 12]);
    assert_eq!(sorts_of(free, &[(0, 0), (9, 6)]), [2]);
    assert_eq!(sorts_of(free, &[(9, 6), (0, 0)]), [2, 7]);
    assert_eq!(sorts_of(free, &[(1, 0), (9, 6), (0, 0)]), [2, 5, 7]);
    assert_eq!(sorts_of(free, &[(1, 0), (9, 6), (1, 7)]), [2, 8]);
    assert_eq!(sorts_of(free, &[(1, 7), (9, 6), (1, 7)]), [2]);
    assert_eq!(sorts_of(chosen, &[(0, 7); 16]), [3, 11]);
    assert_eq!(sorts_of(free, &[(0, 7); 17]), [4]);
    assert_eq!(sorts_of(free, &sixteen), [3, 5, 6]);
}

#[test]
fn too_few_batches_of_a_sort_are_named() {
    let mut tally = BatchTally::default();
    assert!(tally.gaps(0).is_empty());
    let gaps = tally.gaps(1);
    assert_eq!(gaps.len(), BATCHES.len() + 4);
    assert_eq!(
        gaps[9],
        "0 batches drop a choice in force (fewer than one in 400 calls)"
    );
    assert_eq!(
        gaps[BATCHES.len()],
        "0 records of batches are answered 0 (fewer than one in 70 calls)"
    );
    let records = [(0, 0), (0, 7), (9, 6), (8, 6)];
    tally.add(&Batch {
        session: None,
        records: &records,
    });
    let text = tally.to_string();
    assert!(text.starts_with("of 1 batches 0 are empty, 0 have 1 record, 1 have 2 to 15, "));
    assert!(text.ends_with("; their records are answered 0:1 5:0 6:2 7:1"));
}

/// The sorts of choices by their draws.
const DRAWS: [&str; 14] = [
    "pass a word over in the pick",
    "pass a word over in the span",
    "pass words over in both",
    "pass over several in one draw",
    "pass over 20 or more in one draw",
    "run out of words in the pick",
    "run out of words in the span",
    "take the word below the limit in the pick",
    "take the word below the limit in the span",
    "pass over the word at the limit in the pick",
    "pass over the word at the limit in the span",
    "take the greatest word of all",
    "use a word for the only length",
    "leave words after they passed some over",
];

/// A fresh session of these rows at which a job of each has arrived.
fn arrived(rows: &[[u32; 3]]) -> Session {
    let mut session = start(&rows.concat()).unwrap();
    for row in 0..rows.len() as u32 {
        assert_eq!(perform(&mut session, Call::Arrive(row)).number, 0);
    }
    session
}

/// The sorts that a choice is of, by their places above.
fn draw_sorts(session: &Session, words: &[u32]) -> Vec<usize> {
    let mut choices = DrawnChoices::default();
    choices.add(&Drawn::new(session, words));
    let gaps = choices.gaps(Among::Calls(1));
    let is_missing = |sort: usize| {
        let start = format!("0 choices {} (", DRAWS[sort]);
        gaps.iter().any(|gap| gap.starts_with(&start))
    };
    let sorts = 0..DRAWS.len();
    sorts.filter(|sort| !is_missing(*sort)).collect()
}

#[test]
fn choices_count_by_their_draws() {
    // Between 5 candidates, and 3 lengths of row 1, 2 of row 2, 14 of idle.
    let rows = [[4, 100, 18], [3, 100, 30], [2, 100, 40], [5, 100, 50]];
    let session = arrived(&rows);
    let sorts = |words: &[u32]| draw_sorts(&session, words);
    let last = u32::MAX;
    let none: [usize; 0] = [];
    for words in [&[][..], &[0], &[1], &[1, 1], &[1, 1, last], &[last - 2]] {
        assert_eq!(sorts(words), none, "{words:?}");
    }
    assert_eq!(sorts(&[last]), [0, 5, 9]);
    assert_eq!(sorts(&[last, 1]), [0, 9]);
    assert_eq!(sorts(&[last, 1, 1]), [0, 9]);
    assert_eq!(sorts(&[last, last, 1, 1, 7]), [0, 3, 9, 13]);
    assert_eq!(sorts(&[last; 20]), [0, 3, 4, 5, 9]);
    assert_eq!(sorts(&[1, last]), [1, 6, 10]);
    assert_eq!(sorts(&[1, last, 1]), [1, 10]);
    assert_eq!(sorts(&[last, 1, last, 1]), [0, 1, 2, 9, 10]);
    assert_eq!(sorts(&[last - 1]), [7]);
    assert_eq!(sorts(&[4, last - 4]), [8]);
    assert_eq!(sorts(&[4, last - 3, 1, 1]), [1, 10, 13]);
    assert_eq!(sorts(&[4, last - 2, 1]), [1]);
    assert_eq!(sorts(&[2, last]), [8, 11]);
    // One length of row 1; and one candidate.
    let short = arrived(&[[1, 100, 20], [1, 100, 30]]);
    assert_eq!(draw_sorts(&short, &[1]), none);
    assert_eq!(draw_sorts(&short, &[1, 7]), [12]);
    assert_eq!(draw_sorts(&short, &[1, last]), [8, 11, 12]);
    let tight = arrived(&[[2, 4, 4], [3, 6, 6]]);
    assert_eq!(draw_sorts(&tight, &[last, last]), none);
}

#[test]
fn too_few_draws_are_named() {
    let tally = DrawTally::default();
    assert_eq!(tally.gaps().len(), 16 + 1, "of no inputs none is too rare");
    let mut tally = DrawTally::default();
    tally.add(&Draws::default());
    let gaps = tally.gaps();
    assert_eq!(gaps.len(), 2 + DRAWS.len() + 16 + 1);
    let expected = [
        (0, "0 of 1 inputs pass a word over (fewer than one in 8)"),
        (
            4,
            "0 choices pass words over in both (fewer than one in 20 inputs)",
        ),
        (16, "no pick between 2 came near its limit"),
        (31, "no pick between 17 came near its limit"),
        (
            32,
            "words were passed over between 0 numbers of lengths (fewer than 1000)",
        ),
    ];
    for (place, gap) in expected {
        assert_eq!(gaps[place], gap);
    }
    let gaps = DrawnChoices::default().gaps(Among::Calls(1));
    assert_eq!(
        gaps[2],
        "0 choices pass words over in both (fewer than one in 2000 calls)"
    );
}

/// Whether an input passes a word over, and whether it shows it.
fn draws_of(input: &str) -> (bool, bool) {
    let mut draws = Draws::default();
    let input = plain(input).into_bytes();
    let output = run_watched(&input, |machine, command| draws.watch(machine, command));
    draws.compare(&input, &output);
    (draws.passed, draws.shown)
}

#[test]
fn draws_count_where_a_word_is_passed_over() {
    // Five candidates, and 14 lengths of idle.
    let start = "T 4 100 18/T 3 100 30/T 2 100 40/T 5 100 50/A 0/A 1/A 2/A 3/";
    let go_on = |end: &str| draws_of(&format!("{start}{end}"));
    for end in [
        "",
        "G/",
        "W 4294967295/",
        "W 4294967294/W 4294967291/G/",
        "W 0/W 4294967295/G/",
    ] {
        assert_eq!(go_on(end), (false, false), "{end}");
    }
    // 4294967295 is 5 × 858993459 and so the head by its remainder; 4294967292 is
    // a multiple of 14, and so the first length.
    for end in ["W 4294967295/G/", "W 4/W 4294967292/W 0/G/"] {
        assert_eq!(go_on(end), (true, false), "{end}");
    }
    for end in [
        "W 4294967295/W 1/G/",
        "W 4294967295/W 4294967295/G/R 4/G/",
        "W 4/W 4294967292/G/",
        "W 4/W 4294967292/W 1/G/",
    ] {
        assert_eq!(go_on(end), (true, true), "{end}");
    }
    // A refused choice passes no word over.
    assert_eq!(go_on("G/W 4294967295/G/"), (false, false));
}

#[test]
fn words_lie_on_both_sides_of_the_limit() {
    // 7 candidates: the last 4 words are passed over.
    let session = arrived(&[[1, 100, 100]; 6]);
    let mut rng = Rng::new(10);
    let limit = limit(7);
    let mut seen = [0; 6];
    for _ in 0..1_000 {
        let word = u64::from(next_word(&mut rng, &session, &[]).unwrap());
        let places = [limit - 2, limit - 1, limit, limit + 1, limit + 2, limit + 3];
        for (seen, place) in seen.iter_mut().zip(places) {
            *seen += u32::from(word == place);
        }
    }
    assert!(seen.iter().all(|seen| *seen > 10), "{seen:?}");
    // Behind words that do not decide, those of a span that is open, and none where
    // nothing is drawn.
    let single = arrived(&[[1, 1_000_000, 1_000_000]]);
    let near = |words: &[u32]| next_word(&mut Rng::new(1), &single, words);
    assert_eq!(near(&[1, u32::MAX]), near(&[1]));
    assert_ne!(near(&[]), near(&[1]));
    let tight = arrived(&[[2, 4, 4], [3, 6, 6]]);
    assert_eq!(next_word(&mut rng, &tight, &[]), None);
}

#[test]
fn more_words_decide_a_choice_or_run_out() {
    let mut rng = Rng::new(11);
    let mut longest = 0;
    for _ in 0..2_000 {
        let session = sound_session(&mut rng);
        let queue: Vec<u32> = (0..rng.below(2)).map(|_| rng.draw() as u32).collect();
        let words = more_words(&mut rng, &session, &queue);
        let all = [queue, words].concat();
        let drawn = Drawn::new(&session, &all);
        if drawn.pick.is_some() {
            longest = longest.max(all.len() - drawn.rest.len());
            assert!(drawn.rest.len() <= 2, "{session:?} {all:?}");
        }
    }
    assert!(longest > 300, "{longest}");
}

#[test]
fn sound_sessions_have_every_number_of_candidates() {
    let mut rng = Rng::new(12);
    let mut seen = [0; ROW_LIMIT + 2];
    for _ in 0..10_000 {
        seen[candidates(&sound_session(&mut rng)).len()] += 1;
    }
    assert!(seen[1..].iter().all(|seen| *seen > 10), "{seen:?}");
}

#[test]
fn sound_sessions_hold_every_budget_up_to_its_limit() {
    let mut rng = Rng::new(7);
    // Of loose sessions, where these are different: 0, below V, V, above V, D − C
    // and one less.
    let mut seen = [0; 6];
    for _ in 0..2_000 {
        let session = sound_session(&mut rng);
        for row in 0..session.rows.len() {
            let v = budget(&session.rows, row);
            let limit = session.rows[row].spare();
            let Some(job) = session.slots[row].job.filter(|_| 1 < v && v + 2 < limit) else {
                continue;
            };
            let left = job.budget;
            let places = [
                left == 0,
                0 < left && left < v,
                left == v,
                v < left && left < limit,
                left == limit,
                left == limit - 1,
            ];
            for (seen, is_there) in seen.iter_mut().zip(places) {
                *seen += u32::from(is_there);
            }
        }
    }
    assert!(seen.iter().all(|seen| *seen > 30), "{seen:?}");
}

#[test]
fn hard_tables_are_lawful_and_nearly_full() {
    let is_lawful =
        |rows: &[Row]| (1..=ROW_LIMIT).contains(&rows.len()) && rows.iter().all(Row::is_lawful);
    let mut rng = Rng::new(1);
    let mut near = 0;
    for _ in 0..500 {
        let full = full_to_one(&mut rng);
        assert!(is_lawful(&full), "{full:?}");
        assert!((utilisation(&full) - 1.0).abs() < 1e-12, "{full:?}");
        let mut rows = full_to(&mut rng, 0.999);
        near += u32::from((utilisation(&rows) - 0.999).abs() < 1e-4);
        for _ in 0..20 {
            assert!(is_lawful(&rows), "{rows:?}");
            rows = mutant(&mut rng, &rows, 0.999);
        }
        let longer = with_longer_deadlines(&rows).unwrap_or(rows);
        assert!(is_lawful(&longer), "{longer:?}");
    }
    assert!(near > 400, "{near} of 500 come near");
}

/// The sorts of overloaded tables.
const OVERLOADS: [&str; 14] = [
    "have a later overload",
    "have a pause before their last one",
    "have a greater one later",
    "have a row in front due at a later one",
    "lead a search by halves to a later one",
    "have a demand equal to an earlier tick",
    "exceed it before the last row due there",
    "have their first at no row's D",
    "have it after every D",
    "have it at the shortest D",
    "have it at the horizon",
    "have it after 100,000 ticks",
    "have no busy length",
    "have a busy length",
];

/// The sorts that a table is of, by their places above.
fn overload_sorts(rows: &[[u32; 3]]) -> Vec<usize> {
    let rows: Vec<Row> = rows.iter().copied().map(Row::from).collect();
    let mut tally = OverloadTally::default();
    tally.add(&rows);
    let gaps = tally.gaps(Among::Inputs(1));
    let is_missing = |sort: usize| {
        let start = format!("0 overloaded tables {} (", OVERLOADS[sort]);
        gaps.iter().any(|gap| gap.starts_with(&start))
    };
    let sorts = 0..OVERLOADS.len();
    sorts.filter(|sort| !is_missing(*sort)).collect()
}

#[test]
fn overloaded_tables_count_by_what_tells_them() {
    let none: [usize; 0] = [];
    assert_eq!(overload_sorts(&[]), none);
    assert_eq!(overload_sorts(&[[3, 5, 2]]), none);
    assert_eq!(overload_sorts(&[[1, 2, 2], [2, 4, 4]]), none);
    // 4 at 3, then 14 at 12 and 13. Halves go by 7, 10, 12 and 11. At 2 it is 2.
    let [short, middle, long] = [[2, 100, 2], [2, 100, 3], [10, 100, 12]];
    assert_eq!(overload_sorts(&[short, middle, long]), [0, 2, 4, 5, 13]);
    assert_eq!(overload_sorts(&[long, middle, short]), [0, 2, 3, 4, 5, 13]);
    // 7 at 4 to 6, and 5 without the last row.
    let equal = [[3, 9, 4], [2, 9, 4], [2, 9, 4]];
    assert_eq!(overload_sorts(&equal), [0, 6, 9, 13]);
    // 8 at 7, when row 0 is due again, and at no other tick. At 2 it is 2.
    assert_eq!(overload_sorts(&[[2, 5, 2], [4, 20, 6]]), [5, 7, 8, 13]);
    // 7 at 6, but 8 at 8; 14 at 12. Halves come to 16, 8, 12, 10 and 9. At 3 it is 3.
    let many = [[1, 2, 2], [2, 3, 3]];
    assert_eq!(overload_sorts(&many), [0, 1, 2, 4, 5, 7, 8, 12]);
    // One too many at the horizon alone, and at every tick before as many as there are.
    let last = [[1, 1, 1], [1, 1_000_000, 1_000_000]];
    assert_eq!(overload_sorts(&last), [5, 10, 11, 12]);
}

#[test]
fn tables_overloaded_past_the_horizon_count_where_they_are_refused() {
    let beyond = |run| {
        let mut tally = OverloadTally::default();
        tally.add(&[[1, 2, 2], [run, 999_999, 999_999]].map(Row::from));
        tally.to_string()
    };
    // 3, 4 and admitted.
    let end = "refused with 4 are overloaded past the horizon";
    for (run, count) in [(500_001, 0), (500_000, 1), (499_999, 0)] {
        assert!(beyond(run).ends_with(&format!("; {count} {end}")), "{run}");
    }
}

#[test]
fn too_few_overloads_are_named() {
    let mut tally = OverloadTally::default();
    assert!(tally.gaps(Among::Inputs(0)).is_empty());
    let gaps = tally.gaps(Among::Inputs(1));
    assert_eq!(gaps.len(), OVERLOADS.len() + 1);
    assert_eq!(
        gaps[1],
        "0 overloaded tables have a pause before their last one (fewer than one in 60 inputs)"
    );
    assert_eq!(
        tally.gaps(Among::Calls(1))[OVERLOADS.len()],
        "0 tables refused with 4 are overloaded past the horizon (fewer than one in 50000 calls)"
    );
    let mut half = OverloadTally::default();
    half.add(&[[2, 5, 2], [4, 20, 6]].map(Row::from));
    tally.merge(half);
    tally.merge(half);
    let text = tally.to_string();
    let start = "of 2 tables refused with 3 0 have a later overload, 0 have a pause";
    assert!(text.starts_with(start), "{text}");
    assert!(text.contains(", 2 have it after every D, "), "{text}");
}

#[test]
fn overloaded_tables_reach_every_sort() {
    let mut rng = Rng::new(13);
    let mut tally = OverloadTally::default();
    for _ in 0..1_000 {
        tally.add(&overloaded_rows(&mut rng));
    }
    for _ in 0..100 {
        tally.add(&late_overload_rows(&mut rng));
    }
    assert!(tally.gaps(Among::Inputs(8_000)).is_empty(), "{tally}");
}

#[test]
fn tables_count_by_kind_and_brittle_rows() {
    let mut tally = TableTally::default();
    for rows in [
        // Loose, tight, mixed with a V of 0, mixed with V 6 and 54; overloaded.
        &[[2, 10, 10], [3, 20, 15]][..],
        &[[2, 4, 4], [3, 6, 6]],
        &[[1, 2, 2], [2, 4, 4]],
        &[[10, 100, 12], [4, 100, 50], [30, 200, 112]],
        &[[5, 100, 12], [5, 60, 14], [6, 100, 40], [6, 200, 74]],
        &[[1, 2, 2], [2, 3, 3]],
    ] {
        let rows: Vec<Row> = rows.iter().copied().map(Row::from).collect();
        let mut one = TableTally::default();
        one.add(&rows);
        tally.merge(one);
    }
    assert_eq!(
        tally.to_string(),
        "of 5 admitted tables 1 are tight and 3 mixed, 1 of them with a V of 0 and 0 of 16 rows; \
        1 to 15 of their rows are brittle in 2 1 0 0 0 0 0 0 0 0 0 0 0 0 0"
    );
    let gaps = tally.gaps();
    assert_eq!(gaps.len(), 1 + 15);
    assert_eq!(
        gaps[0],
        "0 of 5 inputs start a mixed table of 16 rows (fewer than one in 40)"
    );
    assert_eq!(
        gaps[15],
        "0 mixed tables have 15 brittle rows (fewer than 20)"
    );
}

/// What is said of mixed choices and finishes, without the counts of those that there
/// are none of.
fn said_of(calls: &MixedCalls) -> Vec<String> {
    let text = calls.to_string();
    let parts = text.split(['|', ',', ';']);
    let last = parts.map(|part| part.rsplit("sessions ").next().unwrap().trim());
    let last = last.map(|part| part.strip_prefix("with a waiting job ").unwrap_or(part));
    last.filter(|part| part.starts_with(|first| ('1'..='9').contains(&first)))
        .map(|part| part.split_once(' ').unwrap().1.to_string())
        .collect()
}

/// The sorts that a choice is of.
fn mixed_sorts(session: &Session, words: &[u32]) -> Vec<String> {
    let mut calls = MixedCalls::default();
    calls.add_choice(session, words);
    said_of(&calls)
}

/// At the clock, with jobs of rows 1 and 2 for these deadlines and none of row 0, which
/// is brittle and may come at `next`, so for 12 ticks later. V is −32, 6 and 54.
fn brittle_to_come(clock: u64, next: u64, due: [u64; 2]) -> Session {
    let rows = [[10, 100, 12], [4, 100, 50], [30, 200, 112]];
    let mut session = start(&rows.concat()).unwrap();
    session.clock = clock;
    session.slots[0].next = next;
    for (row, (due, [left, budget])) in (1..).zip(due.into_iter().zip([[4, 6], [30, 54]])) {
        let [_, period, deadline] = rows[row].map(u64::from);
        session.slots[row].next = due + period - deadline;
        session.slots[row].job = Some(Job {
            due,
            left,
            budget: budget as i64,
        });
    }
    assert!(session.is_sound(), "{session:?}");
    session
}

const KEEP: &str = "keep a job out for a brittle one to come";
const ALONE: &str = "leave the head alone so";
const OTHER: &str = "take a candidate other than the head";
const DUE: &str = "have a candidate due at the limit";
const LATER: &str = "keep out one due a tick later";
const IDLE_OUT: &str = "leave idle out";
const WAIT: &str = "though all can wait";
const SEVERAL: &str = "have several who can wait";
const COME: &str = "depend on a brittle job to come";
const CLOCK: &str = "depend on the clock";
const NEXT: &str = "depend on the earliest next arrival";
const ON_D: &str = "depend on D";
const EQUAL: &str = "depend on a deadline that is equal";
const TICK: &str = "depend on a tick";
const ON_IDLE: &str = "depend on idle";

#[test]
fn mixed_choices_count_by_what_decides() {
    // The limit is 42, by the next arrival. With word 1 it is row 2 if it may be, and
    // idle if that may be instead. WAIT is what follows the comma of IDLE_OUT.
    let sorts = |clock, next, due, words: &[u32]| {
        let sorts = mixed_sorts(&brittle_to_come(clock, next, [31, due]), words);
        sorts
            .into_iter()
            .filter(|sort| sort != WAIT)
            .collect::<Vec<_>>()
    };
    let kept = [KEEP, ALONE];
    assert_eq!(
        sorts(20, 30, 43, &[1]),
        [&kept[..], &[LATER, IDLE_OUT, COME, TICK, ON_IDLE]].concat()
    );
    assert_eq!(
        sorts(20, 30, 44, &[1]),
        [&kept[..], &[IDLE_OUT, COME, ON_IDLE]].concat()
    );
    // Without a word the head runs by any rule.
    assert_eq!(sorts(20, 30, 44, &[]), [&kept[..], &[IDLE_OUT]].concat());
    // By the clock alone, so from 33 on, and without D, from 31 on, row 2 would be kept
    // out.
    assert_eq!(
        sorts(20, 30, 42, &[1]),
        [OTHER, DUE, IDLE_OUT, SEVERAL, NEXT, ON_D, EQUAL]
    );
    assert_eq!(
        sorts(20, 30, 33, &[1]),
        [OTHER, IDLE_OUT, SEVERAL, NEXT, ON_D]
    );
    assert_eq!(sorts(20, 30, 32, &[1]), [OTHER, IDLE_OUT, SEVERAL, ON_D]);
    // At 30 it is 42 by the clock, and 32 or 41 by the next arrival.
    for next in [20, 29] {
        assert_eq!(
            sorts(30, next, 42, &[1]),
            [OTHER, DUE, IDLE_OUT, SEVERAL, CLOCK, ON_D, EQUAL],
            "{next}"
        );
    }
    // With word 2 it would be idle.
    assert!(sorts(30, 30, 42, &[2]).contains(&ON_IDLE.to_string()));
    // Nothing waits, and another kind.
    let mut empty = brittle_to_come(20, 30, [40, 42]);
    empty.slots[1].job = None;
    empty.slots[2].job = None;
    assert!(mixed_sorts(&empty, &[1]).is_empty());
    assert!(mixed_sorts(&arrived(&[[2, 10, 10], [3, 20, 15]]), &[1]).is_empty());
    assert!(mixed_sorts(&arrived(&[[2, 4, 4], [3, 6, 6]]), &[1]).is_empty());
}

#[test]
fn mixed_choices_count_by_their_brittle_jobs() {
    // All three wait: row 0 is the head.
    let session = arrived(&[[10, 100, 12], [4, 100, 50], [30, 200, 112]]);
    assert_eq!(
        mixed_sorts(&session, &[1]),
        ["have a brittle head before others"]
    );
    // Two brittle rows may come for 112 and 74, and row 3 is due at 74, or later.
    let second = |last: u32, swap: bool| {
        let mut rows = [[5, 100, 12], [5, 60, 14], [6, 100, 40], [6, 200, last]];
        if swap {
            rows.swap(0, 1);
        }
        let mut session = arrived(&rows);
        session.slots[0].job = None;
        session.slots[1].job = None;
        let sorts = mixed_sorts(&session, &[1]);
        let sorts = sorts.iter();
        let on = sorts.filter_map(|sort| sort.strip_prefix("depend on more than the "));
        on.map(str::to_string).collect::<Vec<_>>()
    };
    assert!(second(74, false).is_empty());
    assert_eq!(second(75, false), ["first brittle row"]);
    assert_eq!(second(75, true), ["last"]);
    assert_eq!(second(112, true), ["last"]);
    assert!(second(113, true).is_empty());
}

#[test]
fn mixed_finishes_count_by_what_they_give() {
    let sorts = |rows: &[[u32; 3]], clock: u64, arrivals: &[u32], row: u32| {
        let mut session = start(&rows.concat()).unwrap();
        perform(&mut session, Call::Arrive(row));
        session.clock = clock;
        for row in arrivals {
            assert_eq!(perform(&mut session, Call::Arrive(*row)).number, 0);
        }
        session.choice = Some(Choice { row, left: 1 });
        let mut calls = MixedCalls::default();
        calls.add_finish(&session);
        said_of(&calls)
    };
    let three = [[10, 100, 12], [4, 100, 44], [30, 200, 112]];
    let [gives, brittle] = ["give to some job", "give time of a brittle job"];
    // Row 2 has V 54, row 1 V 0.
    assert_eq!(sorts(&three, 0, &[2], 0), [gives, brittle]);
    let zero = "give to a row of V 0";
    assert_eq!(sorts(&three, 0, &[1], 0), [gives, brittle, zero]);
    assert_eq!(sorts(&three, 0, &[2], 1), [gives]);
    assert!(sorts(&three, 0, &[1], 2).is_empty());
    // Row 1 is due at 22, and row 0 comes at 4 for 23, row 3 for 54.
    let close = [[10, 100, 19], [5, 100, 22], [5, 100, 22], [1, 100, 50]];
    let nothing = "give nothing to a brittle one";
    assert_eq!(sorts(&close, 4, &[0], 1), [nothing]);
    assert_eq!(sorts(&close, 4, &[0, 3], 1), [gives, nothing, "do both"]);
    assert!(sorts(&[[2, 10, 10], [3, 20, 15]], 0, &[1], 0).is_empty());
}

#[test]
fn inputs_of_mixed_tables_count_by_what_they_show() {
    let shown = |input: &str| {
        let mut mixed = Mixed::default();
        let input = plain(input).into_bytes();
        let output = run_watched(&input, |machine, command| mixed.watch(machine, command));
        mixed.compare(&input, &output);
        mixed.shown
    };
    let start = "T 10 100 12/T 4 100 50/T 30 200 112/A 0/A 1/A 2/";
    let go_on = |end: &str| shown(&format!("{start}{end}"));
    // Row 1 can wait for all of row 2 without the gift. With a budget of 1 row 0 would
    // not be alone at the first choice.
    assert_eq!(go_on("G/F/W 1/G/"), [false, false, false]);
    assert_eq!(go_on("W 1/W 1/G/"), [false, false, true]);
    // Row 1 arrives with nothing, and row 2 runs for the tick that it gains.
    let gift = "T 10 40 10/T 1 40 23/T 12 40 22/A 0/A 1/G/R 9/F/A 2/";
    assert_eq!(shown(&format!("{gift}W 1/G/")), [true, false, false]);
    assert_eq!(shown(&format!("{gift}G/")), [false, false, false]);
    // Row 0 comes behind row 1, which leaves it nothing. Row 3 would run before it.
    let close = "T 10 100 19/T 5 100 22/T 5 100 22/T 1 100 50/A 1/A 3/G/R 4/A 0/G/F/W 1/G/";
    assert!(shown(close)[1]);
    // Loose and tight tables show nothing of this.
    let loose = "T 4 100 20/T 3 100 30/A 0/A 1/G/F/W 1/G/";
    assert_eq!(shown(loose), [false; 3]);
    assert_eq!(shown("T 2 4 4/T 3 6 6/A 0/A 1/W 1/G/F/W 1/G/"), [false; 3]);
}

#[test]
fn too_little_of_mixed_sessions_is_named() {
    let mut tally = MixedTally::default();
    assert_eq!(tally.gaps().len(), 15, "the numbers of brittle rows");
    tally.add(b"", &Mixed::default());
    let gaps = tally.gaps();
    assert_eq!(gaps.len(), 15 + 21 + 5 + 3);
    assert_eq!(
        gaps[15],
        "0 mixed choices keep a job out for a brittle one to come (fewer than one in 2 inputs)"
    );
    assert_eq!(
        gaps[15 + 21],
        "0 mixed finishes give to some job (fewer than one in 2 inputs)"
    );
    assert_eq!(
        gaps[15 + 21 + 5],
        "0 inputs of a mixed table show that finishes give (fewer than one in 100 inputs)"
    );
    let gaps = HeldTally::default().gaps(1);
    assert_eq!(gaps.len(), 11);
    assert_eq!(
        gaps[6],
        "0 calls are on records that are unsound by 1 tick of a brittle budget \
        (fewer than one in 2000 calls)"
    );
}

/// The sorts of records that this session is of.
fn held_sorts(session: &Session) -> Vec<String> {
    let mut tally = HeldTally::default();
    tally.add(session, session.is_sound());
    let text = tally.to_string();
    let text = text.strip_prefix("of the records of all calls ").unwrap();
    // A comma that belongs to a sort has no number behind it.
    let text = text.replace("unsound, called", "unsound and called");
    let text = text.replace("mixed, but", "mixed though");
    let sorts = text.split(", ").filter_map(|sort| sort.strip_prefix("1 "));
    sorts.map(str::to_string).collect()
}

#[test]
fn records_count_by_what_they_hold() {
    let sound = "are sound and mixed";
    let base = brittle_to_come(20, 30, [40, 43]);
    assert_eq!(held_sorts(&base), [sound]);
    let choosing = |row, left| {
        let choice = Some(Choice { row, left });
        held_sorts(&Session {
            choice,
            ..base.clone()
        })
    };
    assert_eq!(choosing(1, 4), [sound]);
    assert_eq!(
        choosing(IDLE, 6),
        [sound, "have idle in force though a job waits"]
    );
    assert!(choosing(IDLE, 7).is_empty());
    assert_eq!(
        choosing(2, 6),
        [sound, "have a job in force that is due too late"]
    );
    let mut in_time = brittle_to_come(20, 30, [40, 42]);
    in_time.choice = Some(Choice { row: 2, left: 6 });
    assert_eq!(
        held_sorts(&in_time),
        [sound, "have a job in force that is due in time"]
    );
    // D − C of row 1 is 46, and that of row 0 does not matter.
    let with_budget = |row: usize, budget| {
        let mut session = arrived(&[[10, 100, 12], [4, 100, 50], [30, 200, 112]]);
        session.slots[row].job.as_mut().unwrap().budget = budget;
        held_sorts(&session)
    };
    let waits = "have a waiting brittle job";
    assert_eq!(with_budget(0, 0), [sound, waits]);
    assert_eq!(
        with_budget(0, 1),
        ["are unsound by 1 tick of a brittle budget"]
    );
    assert!(with_budget(0, 2).is_empty());
    let limit = "have a budget at its limit above V";
    assert_eq!(with_budget(1, 46), [sound, waits, limit]);
    assert_eq!(with_budget(1, 47), ["are unsound by 1 tick of another one"]);
    assert!(with_budget(1, 48).is_empty());
    let called = |mut session: Session, kind| {
        session.kind = kind;
        held_sorts(&session)
    };
    assert_eq!(
        called(brittle_to_come(20, 30, [40, 43]), Kind::Loose),
        ["are unsound and called loose"]
    );
    let fresh = |rows: &[[u32; 3]]| start(&rows.concat()).unwrap();
    let mixed = fresh(&[[1, 2, 2], [2, 4, 4]]);
    assert_eq!(called(mixed, Kind::Tight), ["are unsound and called tight"]);
    let other = "are called mixed though loose or tight";
    for rows in [[[2, 4, 4], [3, 6, 6]], [[2, 10, 10], [3, 20, 15]]] {
        assert_eq!(called(fresh(&rows), Kind::Mixed), [other]);
        assert!(held_sorts(&fresh(&rows)).is_empty());
    }
}

#[test]
fn sound_sessions_reach_every_mixed_choice() {
    let mut rng = Rng::new(14);
    let mut calls = MixedCalls::default();
    for _ in 0..20_000 {
        let session = sound_session(&mut rng);
        calls.add_choice(&session, &[rng.draw() as u32, rng.draw() as u32]);
        if session.choice.is_some_and(|choice| choice.row != IDLE) {
            calls.add_finish(&session);
        }
    }
    assert!(calls.gaps(Among::Calls(20_000)).is_empty(), "{calls}");
}

/// The sorts that the next arrival of a row is of, and the wrong rules by which it would
/// have another budget.
fn arrival_sorts(session: &Session, row: u64) -> [Vec<&'static str>; 2] {
    assert!(session.is_sound(), "{session:?}");
    let mut counts = ArrivalCounts::default();
    counts.add(session, row);
    [counts.reached(), counts.refuted()]
}

/// At 40, where row 0 may arrive for 60, with D − C 19. A job of row 1 waits for `due`, if
/// that is not 0, and the next one may come at `next`. V of row 0 is 13.
fn before_arrival(due: u64, left: u64, next: u64) -> Session {
    let mut session = start(&[1, 100, 20, 2, 8, 5]).unwrap();
    session.clock = 40;
    let job = Job {
        due,
        left,
        budget: 0,
    };
    session.slots[1].job = Some(job).filter(|_| due > 0);
    session.slots[1].next = next;
    session
}

const MORE: &str = "have more than V";
const CLOCK_ON: &str = "count a row from the clock that could come before";
const AFTER: &str = "count a row from after the clock";
const TWO: &str = "count several jobs to come of a row";
const JUST: &str = "count one to come for their deadline";
const LATER_ONE: &str = "leave out one to come a tick later";
const RULES: [&str; 4] = [
    "V on arrival",
    "D − C",
    "waiting jobs alone",
    "one job to come of a row",
];

#[test]
fn arrivals_count_by_the_jobs_to_come() {
    let sorts = |next| arrival_sorts(&before_arrival(0, 0, next), 0);
    // For 45 and 53, and a tick after 60.
    assert_eq!(sorts(40)[0], [MORE, TWO, LATER_ONE]);
    assert_eq!(sorts(40)[1], RULES);
    // From 39 on it would also be for 60.
    assert_eq!(sorts(39)[0], [MORE, CLOCK_ON, TWO, LATER_ONE]);
    assert_eq!(
        sorts(39)[1],
        [
            RULES[0],
            RULES[1],
            RULES[2],
            "jobs to come from before it",
            RULES[3]
        ]
    );
    // For 46 and 54; for 52 and 60; for 53 alone.
    assert_eq!(sorts(41)[0], [MORE, AFTER, TWO]);
    assert_eq!(sorts(47)[0], [MORE, AFTER, TWO, JUST]);
    assert!(sorts(47)[1].contains(&"jobs to come due earlier"));
    assert_eq!(sorts(48)[0], [MORE, AFTER, LATER_ONE]);
    assert_eq!(
        sorts(48)[1],
        [
            RULES[0],
            RULES[1],
            RULES[2],
            "jobs to come from the clock on"
        ]
    );
}

#[test]
fn arrivals_count_by_the_waiting_jobs() {
    // It waits for 43 with a tick left, and may come again for 51 and 59.
    let [sorts, wrong] = arrival_sorts(&before_arrival(43, 1, 46), 0);
    let waits = ["count a waiting job", "count one that has run"];
    assert_eq!(sorts, [MORE, waits[0], waits[1], AFTER, TWO]);
    for rule in ["jobs to come alone", "C of waiting jobs"] {
        assert!(wrong.contains(&rule), "{wrong:?}");
    }
    // With two ticks left.
    let [sorts, wrong] = arrival_sorts(&before_arrival(43, 2, 46), 0);
    assert_eq!(sorts, ["have V", waits[0], AFTER, TWO]);
    assert!(!wrong.contains(&"V on arrival"));
    // Row 1, for 45, while row 0, which has D 20, waits until then, or for longer.
    let second = |due| {
        let mut session = before_arrival(0, 0, 40);
        session.slots[0].next = due + 80;
        session.slots[0].job = Some(Job {
            due,
            left: 1,
            budget: 0,
        });
        arrival_sorts(&session, 1)
    };
    let none = "count no job to come of a row";
    let [sorts, wrong] = second(45);
    let just = "count one due at their deadline";
    assert_eq!(sorts, ["have V", waits[0], just, none]);
    assert!(wrong.contains(&"waiting jobs due earlier"));
    let [sorts, wrong] = second(46);
    let later = ["leave out one due a tick later", "leave out one due later"];
    assert_eq!(sorts, [MORE, later[0], later[1], none]);
    assert_eq!(wrong, ["V on arrival", "all waiting jobs"]);
    assert_eq!(second(47)[0], [MORE, later[1], none]);
}

#[test]
fn arrivals_count_where_a_row_is_brittle() {
    let rows = [[10, 100, 12], [4, 100, 50], [30, 200, 112]];
    let session = start(&rows.concat()).unwrap();
    let [sorts, wrong] = arrival_sorts(&session, 1);
    assert!(sorts.ends_with(&["are of a mixed session", "count a brittle row there"]));
    assert!(wrong.contains(&"rows that are not brittle"));
    // Of a brittle row, too early, of no row.
    let mut early = session.clone();
    early.slots[1].next = 1;
    for (session, row) in [
        (&session, 0),
        (&early, 1),
        (&session, 3),
        (&session, u64::MAX),
    ] {
        let [sorts, wrong] = arrival_sorts(session, row);
        assert!(sorts.is_empty() && wrong.is_empty(), "{row}");
    }
}

/// The wrong rules by which an answer to an input in the form of the listing would be
/// another one.
fn shown_by(input: &str) -> Vec<&'static str> {
    let mut arrivals = Arrivals::default();
    let input = plain(input).into_bytes();
    let output = run_watched(&input, |machine, command| arrivals.watch(machine, command));
    arrivals.compare(&input, &output);
    assert_eq!(
        arrivals.is_shown(),
        arrivals.shown().contains(&"V on arrival")
    );
    arrivals.shown()
}

#[test]
fn inputs_count_by_the_budgets_that_they_show() {
    let start = "T 1 100 20/T 2 8 5/A 0/";
    assert!(shown_by(start).is_empty());
    assert!(shown_by(&format!("{start}G/R 1/")).is_empty());
    // Idle for 15 ticks, since two jobs of row 1 count.
    assert_eq!(shown_by(&format!("{start}W 1/G/")), RULES);
    // A word below all of these lengths shows nothing.
    assert!(shown_by(&format!("{start}W 1/W 3/G/")).is_empty());
    // The listing.
    let [v, whole, ..] = RULES;
    let (listing, _) = listing();
    let lines = listing.replace('\n', "/").replace('\t', " ");
    assert!(shown_by(&lines).contains(&v));
    // Row 1 waits until row 0 is due.
    let met = "T 4 100 20/T 3 100 40/A 1/W 1/W 19/G/R 20/A 0/G/R 3/W 1/G/";
    let shown = shown_by(met);
    for rule in [whole, "jobs to come alone", "waiting jobs due earlier"] {
        assert!(shown.contains(&rule), "{shown:?}");
    }
    assert!(!shown.contains(&v));
}

#[test]
fn too_few_arrivals_are_named() {
    let mut tally = ArrivalTally::default();
    assert!(tally.gaps().is_empty());
    let mut half = ArrivalTally::default();
    half.add(&Arrivals::default());
    tally.merge(half);
    let gaps = tally.gaps();
    assert_eq!(gaps.len(), 15 + 12);
    assert_eq!(
        gaps[0],
        "0 arrivals have more than V (fewer than one in 1 inputs)"
    );
    assert_eq!(
        gaps[15],
        "0 inputs have another answer by V on arrival (fewer than one in 6 inputs)"
    );
    let counts = ArrivalCounts::default();
    assert!(counts.gaps(0).is_empty());
    let gaps = counts.gaps(1);
    assert_eq!(gaps.len(), 15 + 12);
    assert_eq!(
        gaps[15],
        "0 arrivals have another budget by V on arrival (fewer than one in 60 calls)"
    );
    let text = tally.to_string();
    let start = "of 0 arrivals of rows that are not brittle 0 have more than V, 0 have V, ";
    assert!(text.starts_with(start), "{text}");
}

#[test]
fn sound_sessions_reach_every_sort_of_arrival() {
    let mut rng = Rng::new(15);
    let mut counts = ArrivalCounts::default();
    for _ in 0..20_000 {
        let session = sound_session(&mut rng);
        counts.add(&session, rng.below(session.rows.len()) as u64);
    }
    assert!(counts.gaps(20_000).is_empty(), "{counts}");
}
