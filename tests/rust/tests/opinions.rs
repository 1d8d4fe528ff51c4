//! The format of `opinions`, rule by rule, and the pair of an opinion and a start.

use shuffle_model::comparison::Reached;
use shuffle_model::desks::KINDS;
use shuffle_model::inputs::random_input;
use shuffle_model::opinions::{parts, run, Part, INPUT_LIMIT};
use shuffle_model::parts::PartTally;
use shuffle_model::plans::stored;
use shuffle_model::rng::Rng;
use shuffle_model::session::{start, start_rows, Slot};
use shuffle_model::specification::{plain, EXAMPLES, OVERLOADS};
use shuffle_model::starts::StartTally;
use shuffle_model::table::{opinion, opinion_on, words_of, Kind, Opinion, Refusal, Row, HORIZON};
use shuffle_model::text;

/// The output in the form of the listing: a gap for a tab, `/` for a line end.
fn output(input: &str) -> String {
    let output = run(plain(input).as_bytes());
    let text = String::from_utf8(output).unwrap();
    text.replace('\t', " ").replace('\n', "/")
}

/// What is printed of a table without a line, of one that is loose, with V = 3, and of
/// one that is spoiled by this line.
const NO_LINE: &str = "0 M 1 0 0//";
const GOOD: &str = "0 M 0 1 1/0 B 0 0 3//";

fn spoiled(line: usize) -> String {
    format!("0 ? 13 {line} 0//")
}

#[test]
fn the_example_is_reproduced() {
    assert_eq!(
        output("T 2 10 10/T 3 20 15//T 1 2 2/T 2 3/A 0//T 1 2 2/T 2 3 3/"),
        "0 M 0 1 2/0 B 0 0 5/0 B 0 1 8//0 ? 13 5 0/0 ? 13 6 0//0 M 3 6 7//"
    );
}

#[test]
fn an_empty_input_has_no_table() {
    assert_eq!(output(""), "");
    assert_eq!(parts(b""), []);
}

#[test]
fn an_empty_line_ends_a_table_and_so_does_the_end_of_the_input() {
    assert_eq!(output("T 1 4 4/"), GOOD);
    assert_eq!(output("T 1 4 4//"), GOOD);
    assert_eq!(output("T 1 4 4//T 1 4 4/"), GOOD.repeat(2));
    assert_eq!(output("T 1 4 4//T 1 4 4//"), GOOD.repeat(2));
    // Without an empty line they are one table: V is 4 − 1 − 1.
    assert_eq!(
        output("T 1 4 4/T 1 4 4/"),
        "0 M 0 1 2/0 B 0 0 2/0 B 0 1 2//"
    );
}

#[test]
fn each_further_empty_line_ends_a_table_without_a_line() {
    assert_eq!(output("/"), NO_LINE);
    assert_eq!(output("//"), NO_LINE.repeat(2));
    assert_eq!(output("///"), NO_LINE.repeat(3));
    assert_eq!(output("/T 1 4 4/"), format!("{NO_LINE}{GOOD}"));
    assert_eq!(output("//T 1 4 4/"), format!("{NO_LINE}{NO_LINE}{GOOD}"));
    assert_eq!(output("T 1 4 4///"), format!("{GOOD}{NO_LINE}"));
    assert_eq!(output("T 1 4 4////"), format!("{GOOD}{NO_LINE}{NO_LINE}"));
    assert_eq!(
        output("T 1 4 4///T 1 4 4/"),
        format!("{GOOD}{NO_LINE}{GOOD}")
    );
    assert_eq!(output("x///"), format!("{}{NO_LINE}", spoiled(1)));
}

#[test]
fn many_tables_are_answered_in_order() {
    for (input, answer) in [
        ("T 1 4 4//", GOOD),
        ("/", NO_LINE),
        ("T 1 2 2/T 2 3 3//", "0 M 3 6 7//"),
    ] {
        for count in [1, 2, 17, 1_000] {
            assert_eq!(output(&input.repeat(count)), answer.repeat(count));
        }
    }
    let tables = "T 1 1 1//T 3 5 2//T 1 2 2/T 2 4 4//";
    let answers = "0 M 0 1 1/0 B 0 0 0//0 M 2 0 0//0 M 0 3 2/0 B 0 0 -1/0 B 0 1 0//";
    assert_eq!(output(&tables.repeat(50)), answers.repeat(50));
}

#[test]
fn tables_of_each_kind_and_refusal() {
    // The words of document 01, with V: 20 − 4 − 1 × 4 − 3 × 3 − 2 × 3 = −3.
    for (table, answer) in [
        (
            "T 1 10 10/T 2 20 20/T 2 5 5/",
            "0 M 0 1 3/0 B 0 0 3/0 B 0 1 8/0 B 0 2 0//",
        ),
        (
            "T 1 5 5/T 3 8 8/T 2 9 9/T 4 20 20/",
            "0 M 0 2 4/0 B 0 0 -5/0 B 0 1 -3/0 B 0 2 -5/0 B 0 3 -3//",
        ),
        (
            "T 4 10 10/T 1 20 20/T 1 5 5/T 2 12 12/",
            "0 M 0 3 4/0 B 0 0 1/0 B 0 1 3/0 B 0 2 -3/0 B 0 3 -2//",
        ),
        ("", NO_LINE),
        ("T 1 1 1/T 3 5 2/T 0 0 0/", "0 M 2 1 0//"),
        ("T 1 2 2/T 2 3 3/", "0 M 3 6 7//"),
        ("T 1 2 2/T 500000 999999 999999/", "0 M 4 1000000 0//"),
    ] {
        assert_eq!(output(&format!("{table}/")), answer);
    }
}

#[test]
fn what_is_printed_of_a_table_is_what_shuffle_prints() {
    for example in EXAMPLES.iter().chain(OVERLOADS) {
        let mut lines = shuffle_model::driver::table_text(&example.rows());
        let mut answer = text::run(&lines);
        lines.push(b'\n');
        answer.push(b'\n');
        assert_eq!(run(&lines), answer);
        assert_eq!(answer, plain(&format!("{}/", example.output)).as_bytes());
    }
}

#[test]
fn each_unreadable_line_is_named() {
    assert_eq!(output("x/"), spoiled(1));
    assert_eq!(output("x/x/"), "0 ? 13 1 0/0 ? 13 2 0//");
    assert_eq!(
        output("T 1 4 4/x/T 1 4 4/y/T 1 4 4/"),
        "0 ? 13 2 0/0 ? 13 4 0//"
    );
}

#[test]
fn other_letters_are_unreadable() {
    for line in ["W 4", "A 0", "G", "R 1", "F"] {
        assert_eq!(output(&format!("{line}/")), spoiled(1), "{line}");
        assert_eq!(output(&format!("T 1 4 4/{line}/")), spoiled(2), "{line}");
        // A row after it is still a row.
        assert_eq!(output(&format!("{line}/T 1 4 4/")), spoiled(1), "{line}");
    }
}

#[test]
fn lines_that_are_none_for_shuffle_are_unreadable() {
    for line in [
        "T",
        "T ",
        "T 1",
        "T 1 4",
        "T 1 4 ",
        "T 1 4 4 ",
        "T 1 4 4 4",
        "T  1 4 4",
        " T 1 4 4",
        "T 01 4 4",
        "T 1 4 4294967296",
        "T -1 4 4",
        "T +1 4 4",
        "T1 4 4",
        "TT 1 4 4",
        "t 1 4 4",
        "M 0 1 2",
        "? 13 1 0",
        " ",
        "#",
        "\0",
    ] {
        assert_eq!(output(&format!("{line}/")), spoiled(1), "{line:?}");
        let between = format!("T 1 4 4//{line}//T 1 4 4/");
        assert_eq!(
            output(&between),
            format!("{GOOD}{}{GOOD}", spoiled(3)),
            "{line:?}"
        );
    }
    for line in [&b"T 1 4 4\n"[..], b"T\t1\t4\t4 \n", b" \n", b"\xff\n"] {
        assert_eq!(run(line), plain(&spoiled(1)).as_bytes());
    }
}

#[test]
fn a_carriage_return_is_no_part_of_a_line_end() {
    assert_eq!(output("T 1 4 4\r/"), spoiled(1));
    // A line of a carriage return is not empty, and ends no table.
    assert_eq!(output("\r/"), spoiled(1));
    assert_eq!(output("T 1 4 4/\r/T 1 4 4/"), spoiled(2));
    assert_eq!(
        output("T 1 4 4\r/\r/T 1 4 4\r/"),
        "0 ? 13 1 0/0 ? 13 2 0/0 ? 13 3 0//"
    );
    assert_eq!(output("T 1 4 4//\r//"), format!("{GOOD}{}", spoiled(3)));
}

#[test]
fn a_row_that_breaks_its_rule_is_readable() {
    for row in [
        "T 0 4 4",
        "T 5 4 4",
        "T 3 5 2",
        "T 1 4 5",
        "T 0 0 0",
        "T 1 1000001 1",
        "T 4294967295 4294967295 4294967295",
    ] {
        assert_eq!(output(&format!("{row}/")), "0 M 2 0 0//", "{row}");
        assert_eq!(output(&format!("T 1 4 4/{row}/")), "0 M 2 1 0//", "{row}");
        // In a spoiled table nothing is said of it.
        assert_eq!(output(&format!("{row}/x/")), spoiled(2), "{row}");
    }
}

#[test]
fn a_table_has_sixteen_rows_at_most() {
    let rows = |count| "T 1 99 99/".repeat(count);
    // V is 99 less 16 runs of 1.
    let budgets: String = (0..16).map(|row| format!("0 B 0 {row} 83/")).collect();
    assert_eq!(output(&rows(16)), format!("0 M 0 1 16/{budgets}/"));
    assert_eq!(output(&rows(17)), spoiled(17));
    assert_eq!(output(&rows(18)), "0 ? 13 17 0/0 ? 13 18 0//");
    let many: String = (17..=40).map(|line| format!("0 ? 13 {line} 0/")).collect();
    assert_eq!(output(&rows(40)), format!("{many}/"));
    // The next table has sixteen of its own.
    assert_eq!(
        output(&format!("{}/{}/T 1 4 4/", rows(17), rows(16))),
        format!("{}0 M 0 1 16/{budgets}/{GOOD}", spoiled(17))
    );
}

#[test]
fn only_rows_count_towards_the_sixteen() {
    let rows = |count| "T 1 99 99/".repeat(count);
    for line in ["x", "G", "T 1 99"] {
        // Sixteen rows and another line, in the middle and before them.
        assert_eq!(
            output(&format!("{}{line}/{}", rows(8), rows(8))),
            spoiled(9)
        );
        assert_eq!(output(&format!("{line}/{}", rows(16))), spoiled(1));
        assert_eq!(
            output(&format!("{}{line}/{}", rows(8), rows(9))),
            "0 ? 13 9 0/0 ? 13 18 0//"
        );
    }
    // A row that breaks its rule is one of them.
    assert_eq!(output(&format!("T 0 0 0/{}", rows(16))), spoiled(17));
    assert_eq!(output(&format!("{}T 0 0 0/", rows(15))), "0 M 2 15 0//");
}

#[test]
fn a_spoiled_table_changes_nothing_about_others() {
    assert_eq!(
        output("T 1 4 4//x//T 1 4 4/"),
        format!("{GOOD}{}{GOOD}", spoiled(3))
    );
    assert_eq!(
        output("x//T 1 4 4//x//T 1 4 4//x/"),
        format!("{}{GOOD}{}{GOOD}{}", spoiled(1), spoiled(5), spoiled(9))
    );
    assert_eq!(
        output("x//x//x/"),
        format!("{}{}{}", spoiled(1), spoiled(3), spoiled(5))
    );
    // Rows of a spoiled table are none of the next one.
    assert_eq!(
        output("T 1 1 1/G//T 1 1 1/"),
        format!("{}0 M 0 1 1/0 B 0 0 0//", spoiled(2))
    );
}

#[test]
fn lines_count_through_the_whole_input_with_empty_ones() {
    assert_eq!(output("/x/"), format!("{NO_LINE}{}", spoiled(2)));
    assert_eq!(
        output("///x/"),
        format!("{}{}", NO_LINE.repeat(3), spoiled(4))
    );
    assert_eq!(
        output("T 1 4 4//T 1 4 4//T 1 4 4//T 1 4 4/x/"),
        format!("{}{}", GOOD.repeat(3), spoiled(8))
    );
    let far = format!("{}x/", "T 1 4 4//".repeat(10_000));
    assert_eq!(
        output(&far),
        format!("{}{}", GOOD.repeat(10_000), spoiled(20_001))
    );
}

#[test]
fn bytes_after_the_last_newline_are_an_unreadable_line() {
    assert_eq!(output("T 1 4 4"), spoiled(1));
    assert_eq!(output("x"), spoiled(1));
    assert_eq!(output("\r"), spoiled(1));
    // In the last table, or a table of their own.
    assert_eq!(output("T 1 4 4/T 1 9 9"), spoiled(2));
    assert_eq!(output("T 1 4 4//T 1 9 9"), format!("{GOOD}{}", spoiled(3)));
    assert_eq!(output("/x"), format!("{NO_LINE}{}", spoiled(2)));
    assert_eq!(output("x/T 1 9 9"), "0 ? 13 1 0/0 ? 13 2 0//");
}

#[test]
fn a_spoiled_last_table_is_not_left_out() {
    assert_eq!(
        output("T 1 4 4//T 1 4 4/x/"),
        format!("{GOOD}{}", spoiled(4))
    );
    assert_eq!(
        output("T 1 4 4//T 1 4 4/x//"),
        format!("{GOOD}{}", spoiled(4))
    );
}

/// Tables of ten bytes up to so many bytes, and `rest` after them.
fn filled(length: usize, rest: &str) -> String {
    assert_eq!(length % 10, 0);
    format!("{}{rest}", "T 1 44 4//".repeat(length / 10))
}

/// What is printed of these tables.
fn filled_answer(length: usize) -> String {
    GOOD.repeat(length / 10)
}

#[test]
fn input_is_read_up_to_its_limit() {
    // 26,214 tables of ten bytes, and four bytes more.
    let most = INPUT_LIMIT - INPUT_LIMIT % 10;
    assert_eq!(INPUT_LIMIT - most, 4);
    let all = filled_answer(most);
    let lines = 2 * (most / 10);
    // The limit is in a row, which is no line then, whatever it is.
    assert_eq!(
        output(&filled(most, "T 1 44 4//")),
        format!("{all}{}", spoiled(lines + 1))
    );
    // At the end of a row that is not ended there.
    let row = "T 1 4 4";
    let before = filled(most - 10, "/".repeat(7).as_str());
    assert_eq!(before.len() + row.len(), INPUT_LIMIT);
    let answers = format!("{}{}", filled_answer(most - 10), NO_LINE.repeat(7));
    assert_eq!(
        output(&format!("{before}{row}//")),
        format!("{answers}{}", spoiled(lines - 2 + 8))
    );
    // One byte earlier its newline is read, and the empty line after it is not.
    let before = filled(most - 10, "/".repeat(6).as_str());
    let answers = format!("{}{}", filled_answer(most - 10), NO_LINE.repeat(6));
    for rest in ["", "/", "//", "x/", "T 1 9 9/"] {
        assert_eq!(
            output(&format!("{before}{row}/{rest}")),
            format!("{answers}{GOOD}"),
            "{rest}"
        );
    }
}

#[test]
fn where_reading_ends_after_an_empty_line_no_table_follows() {
    let most = INPUT_LIMIT - INPUT_LIMIT % 10;
    let exact = filled(most, "////");
    assert_eq!(exact.len(), INPUT_LIMIT);
    let answers = format!("{}{}", filled_answer(most), NO_LINE.repeat(4));
    for rest in ["", "/", "x", "T 1 4 4/", "T 1 4 4//"] {
        assert_eq!(output(&format!("{exact}{rest}")), answers, "{rest}");
    }
    // As many tables as an input can have.
    let newlines = "/".repeat(INPUT_LIMIT + 1);
    assert_eq!(output(&newlines), NO_LINE.repeat(INPUT_LIMIT));
}

#[test]
fn parts_hold_rows_and_unreadable_lines() {
    let row = Row::from([1, 4, 4]);
    let part = |rows: &[Row], unreadable: &[u64]| Part {
        rows: rows.to_vec(),
        unreadable: unreadable.to_vec(),
    };
    assert_eq!(
        parts(plain("T 1 4 4//x/T 1 4 4/T 1 4 4//G").as_bytes()),
        [part(&[row], &[]), part(&[row, row], &[3]), part(&[], &[7])]
    );
}

#[test]
fn the_stored_input_is_answered_by_hand() {
    let (input, answers) = stored();
    assert_eq!(run(&input), answers);
    let tables = parts(&input);
    assert!(tables.len() > 40);
    assert_eq!(tables[0], Part::default());
    assert!(tables.last().is_some_and(Part::is_spoiled));
    assert!(!input.ends_with(b"\n"));
    assert!(input.windows(3).any(|bytes| bytes == b"\n\n\n"));
}

#[test]
fn an_opinion_is_kind_and_v_of_each_row() {
    let opinion_of = |kind, budgets: &[i64]| {
        Ok(Opinion {
            kind,
            budgets: budgets.to_vec(),
        })
    };
    assert_eq!(
        opinion(&[2, 10, 10, 3, 20, 15]),
        opinion_of(Kind::Loose, &[5, 8])
    );
    // 4 − 2 − 3, and 6 − 3 − 2 × 2.
    assert_eq!(
        opinion(&[2, 4, 4, 3, 6, 6]),
        opinion_of(Kind::Tight, &[-1, -1])
    );
    // 2 − 1 − 2, and 4 − 2 − 2 × 1.
    assert_eq!(
        opinion(&[1, 2, 2, 2, 4, 4]),
        opinion_of(Kind::Mixed, &[-1, 0])
    );
    // Each of the two rows asks for all the time there is.
    let rows = [Row::from([1, 1, 1]), Row::from([1_000_000; 3])];
    assert_eq!(
        opinion_on(&rows),
        Err(Refusal {
            number: 3,
            values: [HORIZON, 2 * HORIZON],
        })
    );
}

#[test]
fn a_start_gives_the_fresh_session() {
    for example in EXAMPLES.iter().chain(OVERLOADS) {
        let rows = example.rows();
        let words = words_of(&rows);
        let Ok(session) = start(&words) else {
            continue;
        };
        assert_eq!(session.rows, rows);
        assert_eq!(session.clock, 0);
        assert_eq!(session.slots, vec![Slot::default(); rows.len()]);
        assert_eq!(session.choice, None);
        assert_eq!(
            opinion(&words).map(|opinion| opinion.kind),
            Ok(session.kind)
        );
        assert!(session.is_sound());
        assert_eq!(start_rows(&rows), Ok(session));
    }
}

#[test]
fn a_start_is_refused_as_the_opinion_is() {
    let mut tables: Vec<Vec<u32>> = vec![vec![], vec![1], vec![1, 4, 4, 1], vec![1; 49]];
    tables.push(vec![1; 51]);
    for example in EXAMPLES.iter().chain(OVERLOADS) {
        tables.push(words_of(&example.rows()));
    }
    let mut refused = [0; 5];
    for words in tables {
        let opinion = opinion(&words);
        assert_eq!(start(&words).err(), opinion.as_ref().err().copied());
        refused[opinion.map_or_else(|refusal| refusal.number as usize, |_| 0)] += 1;
    }
    assert!(refused.iter().all(|count| *count > 0), "{refused:?}");
}

/// The counts of inputs, as the comparison prints them.
fn counted(inputs: &[&str]) -> String {
    let mut tally = PartTally::default();
    for input in inputs {
        assert_eq!(
            tally.add(plain(input).as_bytes()),
            run(plain(input).as_bytes())
        );
    }
    tally.to_string()
}

fn assert_counts(inputs: &[&str], counts: &[&str]) {
    let counted = counted(inputs);
    for count in counts {
        assert!(counted.contains(count), "{count}: {counted}");
    }
}

#[test]
fn the_comparison_counts_tables() {
    let tables = "T 1 4 4//T 2 4 4/T 3 6 6//T 1 2 2/T 2 4 4///T 0 0 0//T 1 1 1/T 1 1 1//";
    assert_counts(
        &[tables, tables],
        &[
            "12 tables: 2 loose (in 2 inputs), 2 tight (in 2 inputs), 2 mixed (in 2 inputs)",
            "2 refused with 1, without a line (in 2",
            "2 refused with 2 (in 2",
            "2 refused with 3 (in 2",
            "0 refused with 4 (in 0",
            "4 with a negative V (in 2",
            "0 spoiled (in 0",
        ],
    );
    assert_counts(
        &["T 1 2 2/T 500000 999999 999999/"],
        &["1 tables: ", "1 refused with 4 (in 1"],
    );
    assert_counts(
        &["x/T 1 4 4/G//T 1 4 4//T 1 4//T"],
        &[
            "4 tables: 1 loose (in 1",
            "3 spoiled (in 1 inputs), 1 spoiled by several lines",
            "1 spoiled with a good one next",
            "1 spoiled by a line for shuffle",
            "1 with a row after another line",
        ],
    );
    let rows = |count| "T 1 99 99/".repeat(count);
    assert_counts(
        &[&format!("{}/{}/{}G/", rows(17), rows(16), rows(16))],
        &[
            "1 of 16 rows and not spoiled",
            "1 with a seventeenth row",
            "2 spoiled (in 1",
        ],
    );
}

#[test]
fn the_comparison_counts_inputs() {
    let long = "/".repeat(INPUT_LIMIT - 8);
    let cut = |rest: &str| format!("{long}{rest}");
    assert_counts(
        &[
            "",
            "/T 1 4 4/",
            "x//",
            "T 1 4 4///",
            "//",
            "T 1 4 4//x",
            &cut("T 1 4 4/T"),
            &cut("T 1 44 4/"),
            &cut("////////x"),
        ],
        &[
            "of the inputs 1 have no table, 5 begin with an empty line, 2 end a table with the input",
            "3 end in two empty lines, 2 have bytes after the last newline",
            "2 have an unreadable line after an empty one",
            "1 are cut within a line, 1 are cut after a row, 1 are cut after an empty line",
        ],
    );
}

#[test]
fn the_comparison_names_what_is_too_rare() {
    let mut tally = PartTally::default();
    tally.add(b"");
    let gaps = tally.gaps(1);
    assert_eq!(
        gaps[0],
        "too rare: 0 of 1 inputs have a table loose (fewer than one in 3)"
    );
    // Every sort but that of an input without a table.
    assert_eq!(gaps.len(), 15 + 9 - 1);
}

#[test]
fn generated_inputs_reach_every_rule() {
    let mut tally = PartTally::default();
    for case in 0..4_000 {
        let (_, input) = random_input(KINDS, &mut Rng::for_case(3, case));
        tally.add(&input);
    }
    let gaps = tally.gaps(4_000);
    assert!(gaps.is_empty(), "{gaps:?}");
}

#[test]
fn starts_count_by_opinion_and_record() {
    let mut tally = StartTally::default();
    for words in [
        &[2, 10, 10, 3, 20, 15][..],
        &[2, 4, 4, 3, 6, 6],
        &[1, 2, 2, 2, 4, 4],
        &[1],
        &[3, 5, 2],
        &[1, 2, 2, 2, 3, 3],
        &[1, 2, 2, 500_000, 999_999, 999_999],
    ] {
        for was_sound in [true, false] {
            tally.add(&opinion(words), was_sound);
        }
    }
    assert_eq!(
        tally.to_string(),
        "of 14 starts, each with an opinion, 2 loose, 2 tight, 2 mixed, 2 refused with 1, 2 refused \
        with 2, 2 refused with 3, 2 refused with 4, 4 of a V below 0 in an admitted table, 0 of 16 \
        admitted rows, 4 refused over a sound record, which stays sound, 4 refused over another \
        record, 3 accepted over a sound record"
    );
    assert_eq!(
        tally.gaps(1),
        ["too rare: 0 starts are of 16 admitted rows (fewer than one in 1500 calls)"]
    );
}
