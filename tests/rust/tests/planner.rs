//! How late a job can be, how much a tick matters, what must go, and what `planner` prints.

use shuffle_model::busy::{busy_command, busy_rows, Manner, Pace};
use shuffle_model::comparison::Reached;
use shuffle_model::driver::Driver;
use shuffle_model::inputs::random_input;
use shuffle_model::lateness::walk;
use shuffle_model::ledger::{Ledger, COUNTING};
use shuffle_model::overloaded::overloaded_rows;
use shuffle_model::planner::{
    bound, cost, cut, jobs_by, plan_watched, run, Job, Transcript, RIGHT,
};
use shuffle_model::planner_inputs::{KINDS, SPECIALS};
use shuffle_model::planner_promises::{objection, room_for};
use shuffle_model::planner_tally::PlannerTally;
use shuffle_model::rng::Rng;
use shuffle_model::specification::{plain, printed_example};
use shuffle_model::table::{budget, budgets, demand, opinion_on, Kind, Row};
use shuffle_model::tables::{any_rows, light_rows, small_rows, staggered_rows, RowMaker};
use shuffle_model::text::{self, Outcome};
use shuffle_model::wrong_plans::{Wrong, WRONG};

fn rows(numbers: &[[u32; 3]]) -> Vec<Row> {
    numbers.iter().copied().map(Row::from).collect()
}

/// The output, with `/` for a line end and a space for a tab.
fn output(input: &str) -> String {
    let output = run(plain(input).as_bytes());
    let text = String::from_utf8(output).unwrap();
    text.replace('\t', " ").replace('\n', "/")
}

/// The same, without the lines on the table.
fn of_calls(input: &str) -> String {
    let output = output(input);
    let lines = output.split_inclusive('/');
    lines
        .filter(|line| !["0 M", "0 B", "0 S"].contains(&&line[..3]))
        .collect()
}

/// What is printed on the table alone.
fn of_table(numbers: &[[u32; 3]]) -> String {
    let lines = numbers.iter().map(|[c, t, d]| format!("T {c} {t} {d}/"));
    output(&lines.collect::<String>())
}

fn ledger(input: &str) -> Ledger {
    let transcript = Transcript::of(plain(input).as_bytes());
    plan_watched(&RIGHT, &transcript, |_, _| ()).ledger
}

/// The inversion ticks of each entry.
fn counts(input: &str) -> Vec<u64> {
    let ledger = ledger(input);
    ledger
        .entries
        .iter()
        .map(|entry| entry.inversions)
        .collect()
}

fn wrong(name: &str) -> &'static Wrong {
    let mut all = WRONG.iter();
    all.find(|wrong| wrong.name == name).unwrap()
}

/// How many fields a line of this letter has.
fn fields_of(letter: &str) -> Option<usize> {
    match letter {
        "M" | "B" | "L" | "?" => Some(5),
        "S" => Some(6),
        "E" | "P" => Some(7),
        _ => None,
    }
}

/// The example of §14.4: its input, and its output, the fields of a line on the right if they
/// are no remark.
fn example() -> (String, String) {
    let [mut input, mut output] = [String::new(), String::new()];
    for (left, fields) in printed_example("§14.4") {
        if !left.is_empty() && !left.starts_with('(') {
            input += &format!("{left}/");
        }
        let is_line = fields
            .first()
            .is_some_and(|clock| clock.parse::<u64>().is_ok());
        if let Some(count) = fields.get(1).and_then(|letter| fields_of(letter)) {
            if is_line {
                output += &format!("{}/", fields[..count].join(" "));
            }
        }
    }
    (input, output)
}

#[test]
fn the_example_of_the_document_is_reproduced() {
    let (input, printed) = example();
    let expected = "T 2 10 10/T 3 20 15/A 0/A 1/W 4/W 9/G/R 1/W 2/W 5/G/R 6/W 0/G/R 2/";
    assert_eq!(input, expected);
    assert_eq!(printed.matches('/').count(), 9);
    assert_eq!(output(&input), printed);
}

#[test]
fn a_table_that_is_admitted_has_its_costs() {
    assert_eq!(
        of_table(&[[2, 10, 10], [3, 20, 15]]),
        "0 M 0 1 2/0 B 0 0 5/0 B 0 1 8/0 S 0 0 0 1/0 S 0 0 1 1/0 S 0 1 0 2/0 S 0 1 1 1/"
    );
    // A row whose C is D has no tick more; others still have a cost for it.
    assert_eq!(of_table(&[[1, 1, 1]]), "0 M 0 1 1/0 B 0 0 0/");
    assert_eq!(
        of_table(&[[2, 20, 2], [3, 40, 40]]),
        "0 M 0 3 2/0 B 0 0 -3/0 B 0 1 33/0 S 0 0 1 1/0 S 0 1 1 1/"
    );
    let printed = of_table(&[[4, 10, 10], [1, 20, 20], [1, 5, 5], [2, 12, 12]]);
    assert_eq!(printed.matches(" S ").count(), 16);
    assert!(printed.contains("0 S 0 1 2 4/"), "{printed}");
    assert!(printed.contains("0 S 0 3 2 3/"), "{printed}");
}

#[test]
fn a_table_that_is_refused_with_3_has_its_cuts() {
    // The demand at 6 is 7: three jobs of row 0, two of row 1; C of row 0 is too short.
    assert_eq!(
        of_table(&[[1, 2, 2], [2, 3, 3]]),
        "0 M 3 6 7/0 L 0 0 0/0 L 0 1 1/"
    );
    // A row that is not due by then is no help.
    assert_eq!(
        of_table(&[[1, 2, 2], [2, 3, 3], [9, 20, 20]]),
        "0 M 3 6 7/0 L 0 0 0/0 L 0 1 1/0 L 0 2 0/"
    );
    // The demand at 20 is 26, of one job of row 0 and two of row 1.
    assert_eq!(
        of_table(&[[12, 20, 20], [7, 10, 10]]),
        "0 M 3 20 26/0 L 0 0 6/0 L 0 1 3/"
    );
    assert_eq!(
        of_table(&[[5, 9, 9], [5, 9, 9]]),
        "0 M 3 9 10/0 L 0 0 1/0 L 0 1 1/"
    );
    assert_eq!(
        of_table(&[[9, 9, 9], [1, 9, 9]]),
        "0 M 3 9 10/0 L 0 0 1/0 L 0 1 0/"
    );
    assert_eq!(
        of_table(&[[1, 1, 1], [1, 1, 1]]),
        "0 M 3 1 2/0 L 0 0 0/0 L 0 1 0/"
    );
    // What follows the table is not read.
    assert_eq!(
        output("T 5 9 9/T 5 9 9/x/"),
        "0 M 3 9 10/0 L 0 0 1/0 L 0 1 1/"
    );
}

#[test]
fn any_other_refusal_ends_the_output() {
    assert_eq!(output(""), "0 M 1 0 0/");
    assert_eq!(output("A 0/"), "0 M 1 0 0/");
    assert_eq!(output("T 3 5 2/A 0/"), "0 M 2 0 0/");
    assert_eq!(
        of_table(&[[1, 2, 2], [500_000, 999_999, 999_999]]),
        "0 M 4 1000000 0/"
    );
}

#[test]
fn what_counts_is_idle_and_strictly_later_deadlines() {
    let table = "T 2 10 10/T 3 20 15/";
    // Row 1, due at 15, runs one tick before row 0, due at 10; then idle.
    let first = format!("{table}A 0/A 1/W 4/W 9/G/R 1/");
    assert_eq!(counts(&first), [1, 0]);
    assert_eq!(counts(&format!("{first}W 2/W 5/G/R 4/")), [5, 4]);
    assert_eq!(counts(&format!("{first}W 2/W 5/G/R 4/R 2/")), [7, 6]);
    // The head's run counts for none.
    assert_eq!(counts(&format!("{table}A 0/A 1/W 0/G/R 1/")), [0, 0]);
    // Refused calls count for none.
    assert_eq!(
        counts(&format!("{first}R 1/R 7/F/G/R 900/A 0/A 5/")),
        [1, 0]
    );
}

#[test]
fn an_equal_deadline_does_not_count() {
    // Row 1 arrived at 0, row 0 at 5; both are due at 15.
    let tied = "T 2 10 10/T 3 20 15/A 1/W 1/W 4/G/R 5/A 0/";
    assert_eq!(counts(tied), [5, 0]);
    assert_eq!(counts(&format!("{tied}W 0/G/R 3/")), [5, 0]);
    assert_eq!(counts(&format!("{tied}W 1/G/R 2/")), [5, 0]);
    // Idle counts for both.
    assert_eq!(counts(&format!("{tied}W 2/W 0/G/R 1/")), [6, 1]);
}

#[test]
fn nothing_counts_after_the_end_and_a_new_job_begins_at_0() {
    let over = "T 2 10 10/A 0/W 1/W 0/G/R 1/G/R 2/";
    assert_eq!(counts(over), [1]);
    assert_eq!(counts(&format!("{over}G/R 7/")), [1]);
    assert_eq!(counts(&format!("{over}G/R 7/A 0/W 1/W 2/G/R 2/")), [1, 2]);
}

#[test]
fn a_dropped_choice_counts_no_more() {
    let dropped = "T 2 10 10/T 3 20 15/A 0/W 1/W 4/G/R 2/A 1/";
    assert_eq!(counts(dropped), [2, 0]);
    assert_eq!(counts(&format!("{dropped}R 1/")), [2, 0]);
}

#[test]
fn jobs_have_a_line_at_their_end_or_after_the_last_line() {
    let table = "T 2 10 10/T 3 20 15/";
    let wait = format!("{table}A 1/A 0/");
    // Row by row, and not by arrival.
    assert_eq!(of_calls(&wait), "0 P 0 0 0 5 0/0 P 0 1 0 7 0/");
    let ends = format!("{wait}G/R 1/R 1/G/R 2/F/");
    assert_eq!(of_calls(&ends), "2 E 0 0 0 5 0/4 E 0 1 0 7 0/");
    // A finish that is refused prints nothing, nor does any other refused call.
    let refused = format!("{ends}F/R 1/A 7/A 0/G/F/G/R 0/");
    assert_eq!(of_calls(&refused), of_calls(&ends));
    // Idle ends no job.
    let idle = format!("{table}A 0/W 1/W 0/G/R 1/");
    assert_eq!(of_calls(&idle), "1 P 0 0 0 6 1/");
}

#[test]
fn the_bound_goes_by_v_also_where_it_is_negative() {
    let table = "T 4 10 10/T 1 20 20/T 1 5 5/T 2 12 12/";
    let calls = "A 2/A 0/G/R 1/G/R 4/";
    // V of row 2 is −3, of row 0 1.
    assert_eq!(
        of_calls(&format!("{table}{calls}")),
        "1 E 0 2 0 8 0/5 E 0 0 0 9 0/"
    );
}

#[test]
fn an_unreadable_line_comes_before_the_waiting_jobs() {
    let wait = "T 2 10 10/T 3 20 15/A 0/A 1/W 4/W 9/G/R 1/";
    let waiting = "1 P 0 0 0 6 1/1 P 0 1 0 7 0/";
    for last in ["x/", "/", "T 1 9 9/", "G", "G\r/", "A 0 0/", "R 1"] {
        let expected = format!("1 ? 13 9 0/{waiting}");
        assert_eq!(of_calls(&format!("{wait}{last}")), expected, "{last}");
    }
    // No line after it is read.
    let more = format!("{wait}x/G/R 1/F/");
    assert_eq!(of_calls(&more), format!("1 ? 13 9 0/{waiting}"));
    assert_eq!(of_calls("T 1 4 4/x/"), "0 ? 13 2 0/");
    let seventeen = "T 1 99 99/".repeat(17);
    assert_eq!(of_calls(&seventeen), "0 ? 13 17 0/");
    let words = format!("T 1 4 4/A 0/{}A 0/", "W 7/".repeat(1_025));
    assert_eq!(of_calls(&words), "0 ? 13 1027 0/0 P 0 0 0 1 0/");
}

#[test]
fn bytes_beyond_the_limit_are_unread() {
    let mut text = plain("T 1 4 4/A 0/").into_bytes();
    text.extend(b"G\n".repeat(40_000));
    assert_eq!(run(&text), run(&text[..65_536]));
    let read = String::from_utf8(run(&text)).unwrap();
    assert!(read.ends_with(&plain("0 P 0 0 0 1 0/")), "{read}");
    assert!(!read.contains('?'), "{read}");
    text.insert(12, b'x');
    assert_eq!(run(&text), run(&text[..65_536]));
}

#[test]
fn the_lines_on_the_table_and_the_unreadable_line_are_those_of_shuffle() {
    let such = |line: &&str| {
        let letter = line.split('\t').nth(1).unwrap();
        ["M", "B", "?"].contains(&letter)
    };
    for case in 0..1_000 {
        let (_, input) = random_input(KINDS, &mut Rng::for_case(21, case));
        let [planned, shuffled] =
            [run(&input), text::run(&input)].map(|bytes| String::from_utf8(bytes).unwrap());
        assert!(planned
            .lines()
            .filter(such)
            .eq(shuffled.lines().filter(such)));
    }
}

/// Tables of rows that keep their rule, some of them refused.
fn lawful_rows(rng: &mut Rng) -> Vec<Row> {
    let makers: [RowMaker; 5] = [
        light_rows,
        small_rows,
        staggered_rows,
        any_rows,
        overloaded_rows,
    ];
    loop {
        let make = rng.pick(&makers);
        let rows = make(rng);
        if rows.iter().all(Row::is_lawful) {
            return rows;
        }
    }
}

#[test]
fn one_tick_more_lowers_v_by_its_cost() {
    let mut rng = Rng::new(14);
    let mut pairs = 0;
    for _ in 0..4_000 {
        let rows = lawful_rows(&mut rng);
        let before = budgets(&rows);
        for j in 0..rows.len() {
            let mut longer = rows.clone();
            longer[j].run += 1;
            // A row whose C is D can have no tick more.
            assert_eq!(longer[j].is_lawful(), rows[j].run < rows[j].deadline);
            if !longer[j].is_lawful() {
                continue;
            }
            for (i, v) in before.iter().enumerate() {
                let cost = cost(&rows, i, j) as i64;
                assert_eq!(budget(&longer, i), v - cost, "{rows:?} {i} {j}");
                pairs += 1;
            }
        }
    }
    assert!(pairs > 100_000, "{pairs}");
}

#[test]
fn d_less_v_is_what_the_job_and_the_other_rows_may_take() {
    let mut rng = Rng::new(15);
    for _ in 0..2_000 {
        let rows = lawful_rows(&mut rng);
        for (i, row) in rows.iter().enumerate() {
            let others = (0..rows.len()).filter(|j| *j != i);
            let interference: i64 = others
                .map(|j| i64::from(rows[j].run) * cost(&rows, i, j) as i64)
                .sum();
            let taken = i64::from(row.run) + interference;
            assert_eq!(i64::from(row.deadline) - budget(&rows, i), taken);
        }
    }
}

#[test]
fn jobs_by_a_tick_are_those_of_the_demand() {
    let mut rng = Rng::new(16);
    for _ in 0..2_000 {
        let rows = small_rows(&mut rng);
        let t = u64::from(rng.between(0, 80));
        let sum: u64 = rows
            .iter()
            .map(|row| u64::from(row.run) * jobs_by(row, t))
            .sum();
        assert_eq!(sum, demand(&rows, t));
    }
}

/// The rows with C of row i less by k.
fn shorter(rows: &[Row], i: usize, k: u64) -> Vec<Row> {
    let mut rows = rows.to_vec();
    rows[i].run -= k as u32;
    rows
}

#[test]
fn a_cut_is_the_least_that_helps() {
    let mut rng = Rng::new(17);
    let mut sorts = [0; 4];
    for _ in 0..6_000 {
        let rows = overloaded_rows(&mut rng);
        let t = opinion_on(&rows).unwrap_err().values[0];
        for (i, row) in rows.iter().enumerate() {
            let helps = |k: &u64| demand(&shorter(&rows, i, *k), t) <= t;
            // C stays 1 or more. The demand never rises where C falls, so the last one says
            // whether any helps.
            let most = u64::from(row.run) - 1;
            let least = match helps(&most) {
                true => (1..=most).find(helps).unwrap(),
                false => 0,
            };
            assert_eq!(cut(&rows, t, i), least, "{rows:?} {i}");
            sorts[match (least, jobs_by(row, t)) {
                (0, 0) => 0,
                (0, _) => 1,
                (1, _) => 2,
                _ => 3,
            }] += 1;
        }
    }
    assert!(sorts.iter().all(|count| *count > 500), "{sorts:?}");
}

#[test]
fn with_the_cut_made_the_next_overload_is_later() {
    let mut rng = Rng::new(18);
    let [mut admitted, mut later] = [0, 0];
    for _ in 0..3_000 {
        let rows = overloaded_rows(&mut rng);
        let t = opinion_on(&rows).unwrap_err().values[0];
        for i in 0..rows.len() {
            let cut = cut(&rows, t, i);
            if cut == 0 {
                continue;
            }
            let rest = shorter(&rows, i, cut);
            assert!(rest[i].is_lawful());
            match opinion_on(&rest) {
                Err(refusal) if refusal.number == 3 => {
                    assert!(refusal.values[0] > t, "{rows:?} {i}");
                    later += 1;
                }
                _ => admitted += 1,
            }
        }
    }
    assert!(admitted > 100 && later > 100, "{admitted} {later}");
}

#[test]
fn random_inputs_keep_the_promises() {
    for case in 0..500 {
        let (_, input) = random_input(KINDS, &mut Rng::for_case(14, case));
        assert_eq!(objection(&input, &run(&input)), None, "case {case}");
    }
}

#[test]
fn promises_are_not_kept_by_other_outputs() {
    let input = plain("T 2 10 10/T 3 20 15/A 0/A 1/G/R 2/");
    let right = output("T 2 10 10/T 3 20 15/A 0/A 1/G/R 2/");
    assert!(right.ends_with("2 E 0 0 0 5 0/2 P 0 1 0 7 0/"), "{right}");
    assert_eq!(objection(input.as_bytes(), plain(&right).as_bytes()), None);
    for (from, to) in [
        ("2 E 0 0 0 5 0/", "6 E 0 0 0 5 0/"),
        ("2 P 0 1 0 7 0/", "7 P 0 1 0 7 0/"),
        ("2 P 0 1 0 7 0/", ""),
        ("2 E 0 0 0 5 0/", "2 E 0 0 0 5 0/2 E 0 0 0 5 0/"),
    ] {
        let other = plain(&right.replace(from, to)).into_bytes();
        assert!(objection(input.as_bytes(), &other).is_some(), "{to}");
    }
    assert!(objection(input.as_bytes(), b"").is_some());
    let long = vec![b'\n'; room_for(input.len()) + 1];
    assert!(objection(input.as_bytes(), &long).is_some());
}

#[test]
fn the_ledger_has_the_clock_and_the_jobs_of_the_session() {
    let mut rng = Rng::new(19);
    for case in 0..300 {
        let kind = rng.pick(&[Kind::Loose, Kind::Mixed, Kind::Tight]);
        let pace = rng.pick(&[Pace::AtOnce, Pace::Gaps]);
        let manner = Manner::random(&mut rng, pace);
        let mut driver = Driver::new(&busy_rows(&mut rng, kind));
        let mut ledger = Ledger::new(&driver.machine.session.rows);
        for _ in 0..200 {
            let command = busy_command(&driver.machine, &mut rng, manner);
            if let Outcome::Answered(_, answer) = driver.push(command) {
                ledger.enter(&COUNTING, command, &answer);
            }
            let session = &driver.machine.session;
            assert_eq!(ledger.clock, session.clock, "case {case}");
            let jobs: Vec<(u64, u64)> = session.waiting().map(|job| (job.due, job.left)).collect();
            let places = ledger.waiting_by_row().into_iter();
            let entries = places.map(|place| {
                let entry = ledger.entries[place];
                (entry.due, u64::from(ledger.rows[entry.row].run) - entry.run)
            });
            assert_eq!(entries.collect::<Vec<_>>(), jobs, "case {case}");
        }
    }
}

#[test]
fn a_job_of_negative_v_has_no_inversion_tick() {
    // Its budget is 0, so no later job and no idle is a candidate while it waits.
    let mut brittle = 0;
    for case in 0..1_500 {
        let (_, input) = random_input(KINDS, &mut Rng::for_case(20, case));
        let transcript = Transcript::of(&input);
        let Ok(opinion) = &transcript.opinion else {
            continue;
        };
        let ledger = plan_watched(&RIGHT, &transcript, |_, _| ()).ledger;
        for entry in &ledger.entries {
            if opinion.budgets[entry.row] < 0 {
                assert_eq!(entry.inversions, 0, "case {case}");
                brittle += 1;
            }
        }
    }
    assert!(brittle > 1_000, "{brittle}");
}

#[test]
fn each_job_has_its_bound() {
    let ledger = ledger("T 2 10 10/T 3 20 15/A 0/A 1/W 4/W 9/G/R 1/");
    let job = |place: usize, v| Job {
        entry: &ledger.entries[place],
        row: ledger.rows[place],
        v,
        granted: 0,
    };
    assert_eq!(bound(&job(0, 5)), 6);
    assert_eq!(bound(&job(1, 8)), 7);
    assert_eq!(bound(&job(1, -8)), 23);
    assert_eq!(rows(&[[2, 10, 10], [3, 20, 15]]), ledger.rows);
}

#[test]
fn walks_find_each_job_within_its_bound() {
    for kind in [Kind::Loose, Kind::Mixed, Kind::Tight] {
        for pace in [Pace::AtOnce, Pace::Gaps] {
            let seen = walk(&mut Rng::new(22), kind, pace, 2_000).unwrap();
            let all = seen.all();
            assert!(all.jobs >= 2_000 && seen.waits > all.jobs);
            assert_eq!(all.classes.iter().sum::<u64>(), all.jobs);
            // Without an inversion tick the bound is V before the deadline.
            let [without, with] = seen.ends;
            let is_loose = kind == Kind::Loose;
            assert_eq!(without.by_deadline == without.jobs, is_loose, "{kind:?}");
            assert_eq!(with.jobs == 0, kind == Kind::Tight, "{kind:?}");
            // A bound of negative V is after the deadline, and so after the end.
            assert_eq!(all.classes[0] == 0, kind == Kind::Tight, "{kind:?}");
            assert!(all.at_bound_among <= all.classes[0]);
        }
    }
}

#[test]
fn each_wrong_reading_shows_on_a_case_made_for_it() {
    let table = "T 2 10 10/T 3 20 15/";
    let tied = "T 2 10 10/T 3 20 15/A 1/W 1/W 4/G/R 5/A 0/W 1/G/R 1/";
    let inverted = format!("{table}A 0/A 1/W 4/W 9/G/R 1/");
    for (name, input) in [
        ("ticks of an equal deadline counted", tied.to_string()),
        ("idle not counted", format!("{table}A 0/W 1/G/R 1/")),
        ("later jobs not counted", inverted.clone()),
        ("a job's own run counted", format!("{table}A 0/G/R 1/")),
        ("D in place of D − V", inverted.clone()),
        ("a bound without the inversion ticks", inverted.clone()),
        ("the arrival's budget in place of V", format!("{table}A 0/")),
        ("a deadline compared by arrival", inverted.clone()),
        (
            "a negative V taken as 0",
            "T 1 5 5/T 3 8 8/T 2 9 9/T 4 20 20/A 0/".to_string(),
        ),
        ("i and j swapped in a cost", table.to_string()),
        ("a cost rounded down", table.to_string()),
        ("lines S for C = D too", "T 1 1 1/".to_string()),
        ("a cut of C or more", "T 1 2 2/T 2 3 3/".to_string()),
        (
            "a cut of a row that is not due",
            "T 1 2 2/T 2 3 3/T 9 20 20/".to_string(),
        ),
        (
            "lines L on refusal 4",
            "T 1 2 2/T 500000 999999 999999/".to_string(),
        ),
        ("no lines P after ?", format!("{inverted}x/")),
        ("lines P before ?", format!("{inverted}x/")),
        (
            "a line P for jobs that are over too",
            format!("{table}A 0/G/F/"),
        ),
        (
            "the clock of E before the advance",
            format!("{table}A 0/G/R 2/"),
        ),
        ("finished jobs not printed", format!("{table}A 0/G/F/")),
        (
            "a line E for a refused finish",
            format!("{table}A 0/G/F/F/"),
        ),
        ("lines read after ?", format!("{table}x/A 0/")),
        (
            "the ticks left of a dropped choice counted",
            format!("{table}A 0/W 1/G/A 1/"),
        ),
        (
            "an advance refused with 9 counted",
            format!("{table}A 0/W 1/W 0/G/A 1/R 1/"),
        ),
    ] {
        let input = plain(&input).into_bytes();
        let other = wrong(name).run(&Transcript::of(&input), &input);
        assert_ne!(other, run(&input), "{name}");
    }
}

#[test]
fn tallies_name_what_is_missing() {
    let mut tally = PlannerTally::default();
    for text in SPECIALS {
        let input = plain(text).into_bytes();
        assert_eq!(tally.add(&input), run(&input), "{text}");
    }
    let gaps = tally.gaps(SPECIALS.len() as u64).join("; ");
    assert!(gaps.contains("stop at a seventeenth row"), "{gaps}");
    assert!(!gaps.contains("are refused with 4"), "{gaps}");
    let mut all = PlannerTally::default();
    all.merge(tally);
    assert_eq!(all.gaps(SPECIALS.len() as u64).join("; "), gaps);
}
