//! Arrivals against the scheduler: the game, the search, the line of releases and what
//! `contest` prints.

use shuffle_model::comparison::Reached;
use shuffle_model::contest::{
    due, least_overload, line_to, read_line, reasons, run, run_by, search, winning_line, Judge,
    Line, Reason, Verdict, INPUT_LIMIT, QUESTION_LIMIT, RIGHT,
};
use shuffle_model::contest_inputs::{KINDS, SPECIALS};
use shuffle_model::contest_promises::objection;
use shuffle_model::contest_tables::{ordered_tables, small_rows, small_tables, unordered_tables};
use shuffle_model::contest_tally::{ContestTally, TableTally};
use shuffle_model::contests::{calls, with_every_question};
use shuffle_model::game::{forces, line_wins, plays, releases, Game, Release, Slot, State, RULES};
use shuffle_model::inputs::random_input;
use shuffle_model::nodes::count;
use shuffle_model::rng::Rng;
use shuffle_model::specification::{plain, printed_example};
use shuffle_model::table::{demand, Row};
use shuffle_model::wrong_contests::{Wrong, WRONG};

fn rows(numbers: &[[u32; 3]]) -> Vec<Row> {
    numbers.iter().copied().map(Row::from).collect()
}

/// The output, with `/` for a line end and a space for a tab.
fn output(input: &str) -> String {
    let output = run(plain(input).as_bytes());
    let text = String::from_utf8(output).unwrap();
    text.replace('\t', " ").replace('\n', "/")
}

fn wrong(name: &str) -> &'static Wrong {
    let mut all = WRONG.iter();
    all.find(|wrong| wrong.name == name).unwrap()
}

#[test]
fn a_release_sets_the_job_its_deadline_and_the_next_release() {
    let rows = rows(&[[2, 5, 3], [1, 4, 4]]);
    let state = State {
        clock: 7,
        ..State::default()
    };
    let released = state.released(&RULES, &rows, 0b01);
    let slot = Slot {
        next: 12,
        due: 10,
        left: 2,
    };
    assert_eq!(released.slots, [slot, Slot::default(), Slot::default()]);
    assert_eq!(released.clock, 7);
}

#[test]
fn any_set_of_ready_rows_may_be_released() {
    let mut state = State::default();
    assert_eq!(
        releases(RULES, state, 2).collect::<Vec<_>>(),
        [0b00, 0b01, 0b10, 0b11]
    );
    state.slots[0].next = 1;
    assert_eq!(releases(RULES, state, 2).collect::<Vec<_>>(), [0b00, 0b10]);
    state.clock = 1;
    assert_eq!(releases(RULES, state, 2).count(), 4);
}

#[test]
fn any_waiting_job_or_none_has_the_tick() {
    let mut state = State::default();
    assert_eq!(plays(RULES, state).collect::<Vec<_>>(), [None]);
    state.slots[0].left = 1;
    state.slots[2].left = 3;
    assert_eq!(
        plays(RULES, state).collect::<Vec<_>>(),
        [Some(0), Some(2), None]
    );
    assert_eq!(state.played(Some(2)).slots[2].left, 2);
    assert_eq!(state.played(None), state);
}

#[test]
fn a_job_is_unfinished_when_the_clock_reaches_its_deadline() {
    let mut state = State::default();
    state.slots[1] = Slot {
        next: 4,
        due: 4,
        left: 1,
    };
    state.clock = 3;
    assert!(!state.is_won(&RULES));
    assert!(state.risen().is_won(&RULES));
    assert!(!state.played(Some(1)).risen().is_won(&RULES));
}

#[test]
fn hand_made_games() {
    // Whether arrivals win within n ticks.
    let cases: &[(&[[u32; 3]], u64, bool)] = &[
        (&[[1, 1, 1]], 12, false),
        (&[[12, 12, 12]], 12, false),
        (&[[1, 1, 1], [1, 1, 1]], 1, true),
        (&[[2, 9, 2], [1, 9, 2]], 1, false),
        (&[[2, 9, 2], [1, 9, 2]], 2, true),
        // Both are due at 4 and run 5; two ticks before that it is clear, and does not count.
        (&[[3, 9, 4], [2, 9, 4]], 3, false),
        (&[[3, 9, 4], [2, 9, 4]], 4, true),
        (&[[2, 9, 4], [2, 9, 4]], 12, false),
        // The specification's example.
        (&[[1, 2, 2], [2, 3, 3]], 5, false),
        (&[[1, 2, 2], [2, 3, 3]], 6, true),
        (&[[1, 2, 2], [2, 3, 3], [3, 9, 4]], 3, false),
        (&[[1, 2, 2], [2, 3, 3], [3, 9, 4]], 4, true),
        // The twelfth tick decides.
        (&[[1, 1, 1], [1, 12, 12]], 11, false),
        (&[[1, 1, 1], [1, 12, 12]], 12, true),
        (&[[1, 1, 1], [1, 13, 13]], 12, false),
        (&[[1, 2, 2], [1, 3, 3], [1, 6, 6]], 12, false),
        (&[[12, 12, 12]; 3], 11, false),
        (&[[12, 12, 12]; 3], 12, true),
    ];
    for (table, n, forced) in cases {
        assert_eq!(forces(&rows(table), *n), *forced, "{table:?} {n}");
    }
    assert!(!forces(&rows(&[[1, 1, 1], [1, 1, 1]]), 0));
    assert!(!forces(&[], 12));
}

#[test]
fn from_a_later_state_a_job_counts_that_is_due_by_then() {
    let rows = rows(&[[3, 20, 9]]);
    let mut game = Game::new(RULES, &rows);
    let mut state = State {
        clock: 30,
        ..State::default()
    };
    state.slots[0] = Slot {
        next: 45,
        due: 34,
        left: 5,
    };
    assert!(!game.forces_from(&state, 3));
    assert!(game.forces_from(&state, 4));
    state.slots[0].left = 4;
    assert!(!game.forces_from(&state, 12));
}

#[test]
fn small_games_without_memory_and_by_the_demand_are_the_same() {
    for rows in ordered_tables(&small_rows(3)) {
        let mut game = Game::new(RULES, &rows);
        for n in 0..=8 {
            let by_demand = (0..=n).any(|t| demand(&rows, t) > t);
            assert_eq!(game.forces(n), by_demand, "{rows:?} {n}");
        }
        let mut plain = Game::without_memory(RULES, &rows);
        let most = if rows.len() == 3 { 6 } else { 8 };
        for n in 0..=most {
            assert_eq!(plain.forces(n), game.forces(n), "{rows:?} {n}");
        }
    }
    for rows in unordered_tables(&small_rows(3)) {
        let forced = Game::without_memory(RULES, &rows).forces(8);
        assert_eq!(forced, forces(&rows, 8), "{rows:?}");
        assert_eq!(count(&rows, 8).0, forced, "{rows:?}");
    }
}

#[test]
fn larger_rows_without_memory_are_the_same() {
    let mut rng = Rng::new(13);
    for _ in 0..2_000 {
        let table: Vec<Row> = (0..rng.between(1, 3))
            .map(|_| {
                let period = rng.pick(&[2, 3, 5, 7, 9, 1_000_000]);
                let deadline = rng.between(1, period.min(8));
                Row::from([rng.between(1, deadline), period, deadline])
            })
            .collect();
        let mut game = Game::new(RULES, &table);
        let mut plain = Game::without_memory(RULES, &table);
        for n in [5, 2, 6] {
            assert_eq!(game.forces(n), plain.forces(n), "{table:?} {n}");
        }
        for n in 1..=12 {
            let by_demand = least_overload(&table, n).is_some();
            assert_eq!(game.forces(n), by_demand, "{table:?} {n}");
        }
    }
}

#[test]
fn the_line_to_a_tick_has_the_jobs_that_the_demand_counts() {
    let table = rows(&[[1, 2, 2], [2, 3, 3]]);
    let line = line_to(&table, 6);
    let ticks: Vec<_> = line.iter().map(|each| (each.tick, each.row)).collect();
    assert_eq!(ticks, [(0, 0), (0, 1), (2, 0), (3, 1), (4, 0)]);
    for rows in small_tables(5) {
        for t in 0..=12 {
            let line = line_to(&rows, t);
            assert!(line.is_sorted(), "{rows:?} {t}");
            assert!(line.iter().all(|each| due(&rows, *each) <= t));
            let runs = line.iter().map(|each| u64::from(rows[each.row].run));
            assert_eq!(runs.sum::<u64>(), demand(&rows, t), "{rows:?} {t}");
        }
    }
}

#[test]
fn the_line_wins_exactly_from_its_tick_on() {
    for rows in small_tables(5) {
        let Some(t) = least_overload(&rows, 12) else {
            continue;
        };
        let line = winning_line(&rows, 12);
        assert!(line_wins(&rows, &line, t), "{rows:?}");
        assert!(!line_wins(&rows, &line, t - 1), "{rows:?}");
        for n in t..=12 {
            let others = (t..=n).filter(|t| demand(&rows, *t) > *t);
            for t in others {
                assert!(line_wins(&rows, &line_to(&rows, t), n), "{rows:?} {t}");
            }
        }
    }
}

#[test]
fn a_line_that_does_not_win_is_found_out() {
    let table = rows(&[[1, 2, 2], [2, 3, 3]]);
    let line = line_to(&table, 6);
    assert!(line_wins(&table, &line, 6));
    for left_out in 0..line.len() {
        let mut fewer = line.clone();
        fewer.remove(left_out);
        assert!(!line_wins(&table, &fewer, 6), "{left_out}");
    }
    // A release a tick too early, and one twice.
    let mut early = line.clone();
    early[2].tick = 1;
    assert!(!line_wins(&table, &early, 6));
    let twice = [&line[..1], &line[..]].concat();
    assert!(!line_wins(&table, &twice, 6));
    let too_late = Release { tick: 6, row: 0 };
    assert!(!line_wins(&table, &[&line[..], &[too_late]].concat(), 6));
}

#[test]
fn any_slice_and_any_number_is_answered() {
    let forced = [1, 1, 1, 1, 1, 1];
    assert_eq!(search(&forced, 1), Verdict::Forced);
    assert_eq!(search(&forced[..3], 12), Verdict::Held);
    for n in [0, 13, 14, 1 << 32, (1 << 32) + 1, u64::MAX] {
        assert_eq!(search(&forced, n), Verdict::Refused, "{n}");
    }
    for length in [0, 1, 2, 4, 5] {
        assert_eq!(search(&forced[..length], 1), Verdict::Refused, "{length}");
    }
    let ones = [1; 60];
    assert_eq!(search(&ones[..9], 1), Verdict::Forced);
    for length in [7, 8, 10, 11, 12, 13, 48, 51, 60] {
        assert_eq!(search(&ones[..length], 1), Verdict::Refused, "{length}");
    }
    for row in [
        [0, 1, 1],
        [2, 2, 1],
        [1, 1, 2],
        [1, 1_000_001, 1],
        [0, 0, 0],
        [u32::MAX; 3],
    ] {
        assert_eq!(search(&row, 1), Verdict::Refused, "{row:?}");
        let last = [&[1, 1, 1], &row[..]].concat();
        assert_eq!(search(&last, 1), Verdict::Refused, "{row:?}");
    }
    assert_eq!(search(&[1, 1_000_000, 1_000_000], 1), Verdict::Held);
    assert_eq!(search(&[1_000_000; 3], 12), Verdict::Held);
}

#[test]
fn answers_have_their_numbers() {
    assert_eq!(Verdict::Forced.numbers(), (0, [1, 0]));
    assert_eq!(Verdict::Held.numbers(), (0, [0, 0]));
    assert_eq!(Verdict::Refused.numbers(), (16, [0, 0]));
}

#[test]
fn every_reason_of_a_refusal_is_named() {
    let row = Row::from([1, 1, 1]);
    let unlawful = Row::from([2, 1, 1]);
    assert_eq!(reasons(&[row], 12), []);
    assert_eq!(reasons(&[row; 3], 1), []);
    assert_eq!(reasons(&[], 1), [Reason::NoRow]);
    assert_eq!(reasons(&[row; 4], 1), [Reason::RowTooMany]);
    assert_eq!(reasons(&[row, unlawful], 1), [Reason::Rule]);
    assert_eq!(reasons(&[row], 0), [Reason::NoTick]);
    assert_eq!(reasons(&[row], 13), [Reason::TickTooMany]);
    let all = [Reason::RowTooMany, Reason::Rule, Reason::TickTooMany];
    assert_eq!(reasons(&[unlawful; 4], 13), all);
}

/// The example of §13.4: its input, and its output, the first five fields on the right.
fn example() -> (String, String) {
    let [mut input, mut output] = [String::new(), String::new()];
    for (left, fields) in printed_example("§13.4") {
        if !left.is_empty() {
            input += &format!("{left}/");
        }
        if !fields.is_empty() {
            output += &format!("{}/", fields[..5].join(" "));
        }
    }
    (input, output)
}

#[test]
fn the_example_of_the_document_is_reproduced() {
    let (input, printed) = example();
    assert_eq!(input, "T 1 2 2/T 2 3 3/N 5/N 6/T 3 9 4/N 4/N 13/");
    assert_eq!(printed.matches('/').count(), 13);
    assert_eq!(output(&input), printed);
}

#[test]
fn lines_need_letter_fields_and_newline() {
    let row = Row::from([1, 3, 2]);
    assert_eq!(read_line(b"T\t1\t3\t2\n"), Some(Line::Row(row)));
    assert_eq!(read_line(b"N\t0\n"), Some(Line::Question(0)));
    let greatest = Some(Line::Question(u32::MAX));
    assert_eq!(read_line(b"N\t4294967295\n"), greatest);
    for line in [
        "",
        "N",
        "N 1",
        "N/",
        "N /",
        "N1/",
        "N  1/",
        "N 1 /",
        "N 1 1/",
        "n 1/",
        "N 01/",
        "N +1/",
        "N -1/",
        "N 4294967296/",
        "N 1\r/",
        " N 1/",
        "NN 1/",
        "T 1 3/",
        "T 1 3 2 1/",
        "t 1 3 2/",
        "G/",
        "W 1/",
        "A 0/",
        "R 1/",
        "F/",
        "/",
        "\r/",
    ] {
        assert_eq!(read_line(plain(line).as_bytes()), None, "{line}");
    }
}

#[test]
fn an_input_that_asks_nothing_is_refused() {
    for input in ["", "T 1 1 1/", "T 1 1 1/T 1 1 1/", "T 0 0 0/"] {
        assert_eq!(output(input), "0 N 16 0 0/", "{input}");
    }
    let sixteen = "T 1 1 1/".repeat(16);
    assert_eq!(output(&sixteen), "0 N 16 0 0/");
}

#[test]
fn an_unreadable_line_ends_the_output() {
    for (input, printed) in [
        ("/", "0 ? 13 1 0/"),
        ("x", "0 ? 13 1 0/"),
        ("N 1", "0 ? 13 1 0/"),
        ("T 1 1 1", "0 ? 13 1 0/"),
        ("T 1 1 1/N 1/G/N 1/", "0 N 0 0 0/0 ? 13 3 0/"),
        ("T 1 1 1/N 1/N 1", "0 N 0 0 0/0 ? 13 3 0/"),
        ("T 1 1 1/N 13//N 1/", "0 N 16 0 0/0 ? 13 3 0/"),
        ("T 1 1 1\r/N 1/", "0 ? 13 1 0/"),
    ] {
        assert_eq!(output(input), printed, "{input}");
    }
}

#[test]
fn rows_and_questions_have_their_limits() {
    let rows = "T 1 1 1/".repeat(17);
    assert_eq!(output(&rows), "0 ? 13 17 0/");
    let asked = format!("T 1 1 1/{}", "N 1/".repeat(QUESTION_LIMIT));
    assert_eq!(output(&asked), "0 N 0 0 0/".repeat(12));
    let one_more = format!("{asked}N 1/");
    let printed = format!("{}0 ? 13 14 0/", "0 N 0 0 0/".repeat(12));
    assert_eq!(output(&one_more), printed);
    // A row is still read after the last question.
    assert_eq!(output(&format!("{asked}T 1 1 1/")), "0 N 0 0 0/".repeat(12));
}

#[test]
fn a_question_is_about_the_rows_so_far() {
    assert_eq!(
        output("N 1/T 1 1 1/N 1/T 1 1 1/N 1/"),
        "0 N 16 0 0/0 N 0 0 0/0 N 0 1 0/0 A 0 0 1/0 A 0 1 1/"
    );
    let four = output("T 1 1 1/T 1 1 1/T 1 1 1/N 1/T 1 1 1/N 1/");
    assert_eq!(four, "0 N 0 1 0/0 A 0 0 1/0 A 0 1 1/0 A 0 2 1/0 N 16 0 0/");
}

#[test]
fn bytes_beyond_the_limit_are_unread() {
    let text = [b"T\t1\t1\t1\nN\t1\n".to_vec(), vec![b'0'; 2_000]].concat();
    assert_eq!(run(&text), run(&text[..INPUT_LIMIT]));
    assert_eq!(run(&text), plain("0 N 0 0 0/0 ? 13 3 0/").into_bytes());
}

#[test]
fn promises_hold_of_the_model_and_not_of_other_outputs() {
    let input = plain("T 1 2 2/T 2 3 3/N 5/N 6/");
    let right = plain("0 N 0 0 0/0 N 0 1 0/0 A 0 0 2/0 A 0 1 3/2 A 0 0 4/3 A 0 1 6/4 A 0 0 6/");
    assert_eq!(right.as_bytes(), run(input.as_bytes()));
    assert_eq!(objection(input.as_bytes(), right.as_bytes()), None);
    for other in [
        "0 N 0 1 0/0 N 0 1 0/0 A 0 0 2/0 A 0 1 3/2 A 0 0 4/3 A 0 1 6/4 A 0 0 6/",
        "0 N 0 0 0/0 N 0 0 0/",
        "0 N 16 0 0/0 N 0 0 0/",
        "0 N 0 0 0/0 N 0 1 0/",
        "0 N 0 0 0/0 N 0 1 0/0 A 0 0 2/0 A 0 1 3/2 A 0 0 4/3 A 0 1 6/",
        "0 N 0 0 0/0 N 0 1 0/0 A 0 0 2/0 A 0 1 3/1 A 0 0 3/3 A 0 1 6/4 A 0 0 6/",
        "0 N 0 0 0/0 N 0 1 0/0 A 0 0 0/0 A 0 1 3/2 A 0 0 4/3 A 0 1 6/4 A 0 0 6/",
        "0 N 0 0 0/0 A 0 0 2/0 N 0 1 0/0 A 0 1 3/2 A 0 0 4/3 A 0 1 6/4 A 0 0 6/",
    ] {
        let other = plain(other).into_bytes();
        assert!(objection(input.as_bytes(), &other).is_some(), "{other:?}");
    }
}

#[test]
fn each_wrong_reading_shows_on_a_case_made_for_it() {
    for (name, input) in [
        ("a release T − 1 after the last", "T 1 2 1/T 1 9 2/N 2/"),
        ("a deadline a tick late", "T 1 1 1/T 1 1 1/N 1/"),
        (
            "a job that counts once it can't be finished",
            "T 2 9 2/T 2 9 2/N 1/",
        ),
        ("a run of C − 1", "T 2 9 2/T 1 9 2/N 2/"),
        ("N a tick short", "T 1 2 2/T 2 3 3/N 6/"),
        ("one release in a tick", "T 1 9 1/T 1 9 1/N 9/"),
        ("a play before the releases", "T 1 1 1/N 1/"),
        ("a limit of 4 rows", "T 1 9 9/T 1 9 9/T 1 9 9/T 1 9 9/N 1/"),
        ("a limit of 13 ticks", "T 1 9 9/N 13/"),
        ("N 0 accepted", "T 1 9 9/N 0/"),
        ("N 0 accepted", "T 1 9 9/"),
        ("the line to N", "T 1 1 1/T 1 1 1/N 2/"),
        ("nothing printed where nothing is asked", ""),
        ("output after an unreadable line", "x/T 1 1 1/N 1/"),
    ] {
        let input = plain(input).into_bytes();
        let other = wrong(name).run(&mut Judge::new(RULES), &input);
        assert_ne!(other, run(&input), "{name}");
    }
}

#[test]
fn readings_that_are_equal_by_the_theorem_never_show_on_small_tables() {
    let equal: Vec<&Wrong> = WRONG
        .iter()
        .filter(|wrong| wrong.one_in.is_none())
        .collect();
    let games = equal.iter().filter(|wrong| wrong.is_game());
    assert_eq!(games.count(), 3);
    for rows in ordered_tables(&small_rows(3)) {
        let input = with_every_question(&rows);
        let right = run(&input);
        for wrong in &equal {
            let other = wrong.run(&mut Judge::new(RULES), &input);
            assert_eq!(other, right, "{} {rows:?}", wrong.name);
        }
    }
}

#[test]
fn there_are_as_many_small_tables_as_there_should_be() {
    let rows = small_rows(5);
    assert_eq!(rows.len(), 35);
    assert!(rows.iter().all(Row::is_lawful));
    assert_eq!(ordered_tables(&rows).len(), 44_135);
    assert_eq!(unordered_tables(&rows).len(), 8_435);
    assert_eq!(small_rows(3).len(), 10);
}

#[test]
fn counted_calls_are_those_of_the_plain_search() {
    // One row, one tick: the row is decided, then nothing more, for a release and for none;
    // each has one play that holds.
    let (forced, nodes) = count(&rows(&[[1, 1, 1]]), 1);
    assert!(!forced);
    assert_eq!([nodes.arrivals, nodes.scheduler, nodes.moves], [3, 2, 2]);
    assert_eq!(calls(&plain("T 1 1 1/N 1/N 13/").into_bytes()), 7);
    // Three jobs wait all the time, so there are four moves in each tick.
    let (forced, nodes) = count(&rows(&[[4, 4, 4]; 3]), 4);
    assert!(forced);
    assert_eq!(nodes.scheduler, 1 + 4 + 16 + 64);
    assert_eq!(nodes.moves, 4 * nodes.scheduler);
    assert_eq!(nodes.arrivals, 4 * nodes.scheduler);
}

#[test]
fn tallies_name_what_is_missing() {
    let mut tally = TableTally::default();
    tally.add(&with_every_question(&rows(&[[1, 1, 1]])));
    assert!(!tally.gaps(1).is_empty());
    let mut tally = ContestTally::default();
    for text in SPECIALS {
        let input = plain(text).into_bytes();
        assert_eq!(tally.add(&input), run(&input), "{text}");
    }
    let gaps = tally.gaps(SPECIALS.len() as u64).join("; ");
    assert!(gaps.contains("refused for 16 rows alone"), "{gaps}");
    assert!(!gaps.contains("show nothing printed"), "{gaps}");
}

#[test]
fn random_inputs_keep_the_promises() {
    for case in 0..300 {
        let (_, input) = random_input(KINDS, &mut Rng::for_case(13, case));
        let run = run_by(&RIGHT, &mut Judge::new(RULES), &input);
        assert_eq!(objection(&input, &run.output), None, "case {case}");
        // No text is empty, and `lesson::LONGEST` holds each.
        assert!((1..=38_185).contains(&run.output.len()), "case {case}");
    }
}
