//! Reading of numbers and lines, and the limits of the text.

use shuffle_model::specification::plain;
use shuffle_model::table::Row;
use shuffle_model::text::{read_line, read_number, run, Command, INPUT_LIMIT, WORD_LIMIT};

/// The output in the form of the specification's listing.
fn output(input: &str) -> String {
    let output = run(plain(input).as_bytes());
    let text = String::from_utf8(output).unwrap();
    text.replace('\t', " ").replace('\n', "/")
}

/// The last line of the output for an input, with `/` at its end.
fn last_line(input: &str) -> String {
    let output = output(input);
    output.split_inclusive('/').next_back().unwrap().to_string()
}

#[test]
fn numbers_are_decimal_u32() {
    assert_eq!(read_number(b"0"), Some(0));
    assert_eq!(read_number(b"10"), Some(10));
    assert_eq!(read_number(b"4294967295"), Some(u32::MAX));
    for text in [
        "",
        "00",
        "01",
        "+1",
        "-1",
        " 1",
        "1 ",
        "1a",
        "4294967296",
        "4294967300",
        "42949672950",
        "99999999999999999999999",
        "18446744073709551617",
    ] {
        assert_eq!(read_number(text.as_bytes()), None, "{text}");
    }
}

#[test]
fn lines_need_letter_fields_and_newline() {
    assert_eq!(
        read_line(b"T\t1\t3\t2\n"),
        Some(Command::Row(Row::from([1, 3, 2])))
    );
    assert_eq!(read_line(b"W\t7\n"), Some(Command::Word(7)));
    assert_eq!(read_line(b"A\t0\n"), Some(Command::Arrive(0)));
    assert_eq!(read_line(b"G\n"), Some(Command::Choose));
    assert_eq!(read_line(b"R\t5\n"), Some(Command::Advance(5)));
    assert_eq!(read_line(b"F\n"), Some(Command::Finish));
    for line in [
        "\n",
        "G",
        "G\t\n",
        "G\t1\n",
        "G \n",
        "G\r\n",
        "g\n",
        "GG\n",
        "\tG\n",
        "A\n",
        "A\t\n",
        "A\t1\t\n",
        "A\t1\t2\n",
        "A\t\t1\n",
        "A 1\n",
        "A1\n",
        "A\t1\r\n",
        "T\t1\t2\n",
        "T\t1\t2\t2\t2\n",
        "M\t0\n",
        "\0\n",
    ] {
        assert_eq!(read_line(line.as_bytes()), None, "{line:?}");
    }
}

#[test]
fn the_opinion_comes_before_the_first_other_line() {
    assert_eq!(output(""), "0 M 1 0 0/");
    assert_eq!(output("/"), "0 M 1 0 0/");
    assert_eq!(output("T 1 4 4"), "0 M 1 0 0/");
    assert_eq!(output("T 1 4 4/"), "0 M 0 1 1/0 B 0 0 3/");
    assert_eq!(output("T 1 4 4/x/G/"), "0 M 0 1 1/0 B 0 0 3/0 ? 13 2 0/");
    assert_eq!(output("T 1 4 4/G"), "0 M 0 1 1/0 B 0 0 3/0 ? 13 2 0/");
    assert_eq!(output("T 0 4 4/x/"), "0 M 2 0 0/");
}

#[test]
fn unreadable_line_shows_clock_and_number() {
    assert_eq!(last_line("T 1 4 4/G/R 7/W 1/T 1 4 4/G/"), "7 ? 13 5 0/");
}

#[test]
fn seventeenth_row_is_unreadable() {
    let rows = |count| "T 1 99 99/".repeat(count);
    assert_eq!(last_line(&rows(16)), "0 B 0 15 83/");
    assert_eq!(last_line(&rows(17)), "0 ? 13 17 0/");
}

#[test]
fn waiting_words_are_limited() {
    let start = "T 2 10 10/T 3 20 15/A 0/A 1/";
    let words = |count| "W 0/".repeat(count);
    let full = format!("{start}{}", words(WORD_LIMIT));
    assert_eq!(last_line(&format!("{full}G/")), "0 G 0 0 2/");
    assert_eq!(last_line(&format!("{full}W 0/G/")), "0 ? 13 1029 0/");
    // The choice takes one word, so one more may wait.
    assert_eq!(last_line(&format!("{full}G/W 0/R 2/")), "2 R 0 0 1/");
    assert_eq!(
        last_line(&format!("{full}G/W 0/W 0/R 2/")),
        "0 ? 13 1031 0/"
    );
}

#[test]
fn input_is_read_up_to_its_limit() {
    let start = "T 1 4 4/";
    let choices = (INPUT_LIMIT - start.len()) / 2;
    let exact = format!("{start}{}", "G/".repeat(choices));
    assert_eq!(exact.len(), INPUT_LIMIT);
    assert_eq!(last_line(&exact), "0 G 8 1000000 0/");
    assert_eq!(last_line(&format!("{exact}x/")), "0 G 8 1000000 0/");
    // One byte more at the start, and the last line loses its newline.
    let longer = format!("T 1 40 4/{}", "G/".repeat(choices));
    assert_eq!(last_line(&longer), format!("0 ? 13 {} 0/", choices + 1));
}
