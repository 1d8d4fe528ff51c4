//! What a choice decides, told in English: the parts, the text byte by byte, the reader,
//! and what the program `explained` prints. The texts are those of docs/EXPLANATIONS.md.

mod shared;

use shared::{arrived, fresh, job, waiting, FOUR};
use shuffle_model::calls::{perform, Answer, Call};
use shuffle_model::explained::{run, run_told};
use shuffle_model::explained_inputs::KINDS;
use shuffle_model::explanation::{explain, Cause, Explained, Explanation, JobPart};
use shuffle_model::explanation_reader::read;
use shuffle_model::explanation_text::{compose, explain_into, text_of, BUFFER_LEAST};
use shuffle_model::explanations::{ExplanationCalls, ExplanationTally, Told};
use shuffle_model::inputs::random_input;
use shuffle_model::printed_parts;
use shuffle_model::rng::Rng;
use shuffle_model::session::{Choice, Session, IDLE};
use shuffle_model::sessions::sound_session;
use shuffle_model::specification::{listing, plain};
use shuffle_model::table::Kind;
use shuffle_model::tally::Among;
use shuffle_model::text;
use shuffle_model::texts::{longest_explanation, random_explanation, session_explanation};
use shuffle_model::words::more_words;

/// The greatest word, which a draw between three passes over.
const LAST: u32 = 4_294_967_295;
/// What a lent buffer holds before a call.
const PATTERN: u8 = 0xa5;

/// The text of an accepted choice with these words.
fn told(session: &Session, words: &[u32]) -> String {
    let explained = explain(session, words).expect("a choice could be made");
    String::from_utf8(text_of(&explained.explanation)).expect("a text is ASCII")
}

/// Lines, each ended by a newline.
fn lines(lines: &[&str]) -> String {
    lines.iter().map(|line| format!("{line}\n")).collect()
}

/// The two jobs of the listing.
fn listing_session() -> Session {
    arrived(&[[2, 10, 10], [3, 20, 15]])
}

/// The same where row 0 has 5 left of its budget of 8, so that idle has 5 lengths.
fn spent_session() -> Session {
    waiting(
        0,
        &[([2, 10, 10], job(10, 2, 5)), ([3, 20, 15], job(15, 3, 10))],
    )
}

#[test]
fn the_choices_of_the_listing_are_told() {
    let first = lines(&[
        "Waiting jobs: 2.",
        "Row 0, due at 10, budget 8: candidate.",
        "Row 1, due at 15, budget 10: candidate.",
        "Chosen: row 1, by word 4.",
        "Span 1: set by a word.",
    ]);
    let second = lines(&[
        "Waiting jobs: 2.",
        "Row 0, due at 10, budget 7: candidate.",
        "Row 1, due at 15, budget 10: candidate.",
        "Chosen: idle, by word 2.",
        "Span 6: set by a word.",
    ]);
    let mut session = listing_session();
    assert_eq!(told(&session, &[4, 9]), first);
    perform(&mut session, Call::Choose(&[4, 9]));
    perform(&mut session, Call::Advance(1));
    assert_eq!(told(&session, &[2, 5]), second);
    perform(&mut session, Call::Choose(&[2, 5]));
    perform(&mut session, Call::Advance(2));
    // The third is refused, since 4 ticks are left of the second.
    let refused = explain(&session, &[3]).expect_err("a choice is in force");
    assert_eq!((refused.number, refused.values), (8, [4, 0]));

    // The program prints them after their lines `G`.
    let (input, output) = listing();
    let expected: String = output
        .split_inclusive('\n')
        .map(|line| match line {
            "0\tG\t0\t1\t1\n" => format!("{line}{first}"),
            "1\tG\t0\t16\t6\n" => format!("{line}{second}"),
            _ => line.to_string(),
        })
        .collect();
    assert_eq!(expected.len(), output.len() + first.len() + second.len());
    assert_eq!(run(input.as_bytes()), expected.into_bytes());
}

/// A moment of a mixed session that is made up.
fn mixed_example() -> (Explanation, String) {
    let job = |row, due, budget, is_candidate| JobPart {
        row,
        due,
        budget,
        is_candidate,
    };
    let parts = Explanation {
        jobs: vec![
            job(1, 31, 4, true),
            job(2, 38, 0, true),
            job(0, 45, 9, false),
        ],
        brittle: Some(52),
        chosen: 1,
        word: None,
        span: 3,
        cause: Cause::Remaining,
    };
    let text = lines(&[
        "Waiting jobs: 3.",
        "Row 1, due at 31, budget 4: candidate.",
        "Row 2, due at 38, budget 0 (holds later jobs back): candidate.",
        "Row 0, due at 45, budget 9: not a candidate.",
        "Brittle deadline 52: of the candidates only the first may be due later.",
        "Chosen: row 1, no word decided.",
        "Span 3: its remaining ticks.",
    ]);
    (parts, text)
}

#[test]
fn the_mixed_example_is_told_and_read() {
    let (parts, text) = mixed_example();
    assert_eq!(text_of(&parts), text.as_bytes());
    assert_eq!(read(text.as_bytes()), Some(parts));
}

#[test]
fn where_nothing_waits_it_is_said() {
    let nothing =
        "Waiting jobs: 0.\nChosen: idle, no word decided.\nSpan 1000000: nothing waits.\n";
    let loose = fresh(&[[2, 10, 10], [3, 20, 15]]);
    assert_eq!(told(&loose, &[]), nothing);
    // No word is looked at, so none decides.
    assert_eq!(told(&loose, &[4, 9]), nothing);
    assert_eq!(explain(&loose, &[4, 9]).map(|told| told.words_used), Ok(0));
    let tight = fresh(&[[1, 5, 5], [3, 8, 8], [2, 9, 9], [4, 20, 20]]);
    assert_eq!(tight.kind, Kind::Tight);
    assert_eq!(told(&tight, &[]), nothing);
    // A mixed session names its brittle deadline, here 0 + 5, all the same.
    let mixed = fresh(&[[4, 10, 10], [1, 20, 20], [1, 5, 5], [2, 12, 12]]);
    let expected = lines(&[
        "Waiting jobs: 0.",
        "Brittle deadline 5: of the candidates only the first may be due later.",
        "Chosen: idle, no word decided.",
        "Span 1000000: nothing waits.",
    ]);
    assert_eq!(told(&mixed, &[7]), expected);
}

#[test]
fn a_tight_session_has_the_head_alone_and_no_brittle_deadline() {
    let session = arrived(&[[1, 5, 5], [3, 8, 8], [2, 9, 9], [4, 20, 20]]);
    let expected = lines(&[
        "Waiting jobs: 4.",
        "Row 0, due at 5, budget 0 (holds later jobs back): candidate.",
        "Row 1, due at 8, budget 0 (holds later jobs back): not a candidate.",
        "Row 2, due at 9, budget 0 (holds later jobs back): not a candidate.",
        "Row 3, due at 20, budget 0 (holds later jobs back): not a candidate.",
        "Chosen: row 0, no word decided.",
        "Span 1: its remaining ticks.",
    ]);
    assert_eq!(told(&session, &[1, 2, 3]), expected);
    assert_eq!(
        explain(&session, &[1, 2, 3]).map(|told| told.words_used),
        Ok(0)
    );
}

#[test]
fn the_brittle_deadline_holds_jobs_back() {
    // At 3 the next job of row 2 can arrive at 7. Row 0 has 6 less two ticks of row 2. Row 1
    // has 19 less 2 and 2 of those that wait, 4 of row 0 for 20, and 3 of row 2 up to 22.
    let input = plain("T 4 10 10/T 1 20 20/T 1 5 5/T 2 12 12/A 0/A 3/G/R 2/A 2/G/R 1/W 1/G/A 1/G/");
    let output = String::from_utf8(run(input.as_bytes())).unwrap();
    let first = lines(&[
        "0\tG\t0\t0\t4",
        "Waiting jobs: 2.",
        "Row 0, due at 10, budget 4: candidate.",
        "Row 3, due at 12, budget 0 (holds later jobs back): not a candidate.",
        "Brittle deadline 5: of the candidates only the first may be due later.",
        "Chosen: row 0, no word decided.",
        "Span 4: its remaining ticks.",
        "2\tR\t0\t2\t0",
    ]);
    assert!(output.contains(&first), "{output}");
    let third = lines(&[
        "3\tG\t0\t3\t2",
        "Waiting jobs: 2.",
        "Row 0, due at 10, budget 4: candidate.",
        "Row 3, due at 12, budget 0 (holds later jobs back): candidate.",
        "Brittle deadline 12: of the candidates only the first may be due later.",
        "Chosen: row 3, by word 1.",
        "Span 2: the most allowed, for lack of a word.",
        "3\tA\t0\t1\t23",
    ]);
    assert!(output.contains(&third), "{output}");
    let last = lines(&[
        "3\tG\t0\t0\t2",
        "Waiting jobs: 3.",
        "Row 0, due at 10, budget 4: candidate.",
        "Row 3, due at 12, budget 0 (holds later jobs back): candidate.",
        "Row 1, due at 23, budget 8: not a candidate.",
        "Brittle deadline 12: of the candidates only the first may be due later.",
        "Chosen: row 0, no word decided.",
        "Span 2: its remaining ticks.",
    ]);
    assert!(output.ends_with(&last), "{output}");
}

#[test]
fn equal_deadlines_stand_by_arrival_and_take_no_word_for_the_span() {
    // Rows 0 and 1 arrived on one tick; the spent budget of row 1 holds row 2 back.
    let session = waiting(
        0,
        &[
            ([1, 10, 10], job(10, 1, 3)),
            ([1, 10, 10], job(10, 1, 0)),
            ([1, 20, 20], job(20, 1, 4)),
        ],
    );
    let expected = lines(&[
        "Waiting jobs: 3.",
        "Row 0, due at 10, budget 3: candidate.",
        "Row 1, due at 10, budget 0 (holds later jobs back): candidate.",
        "Row 2, due at 20, budget 4: not a candidate.",
        "Chosen: row 1, by word 1.",
        "Span 1: its remaining ticks.",
    ]);
    assert_eq!(told(&session, &[1, 7]), expected);
    assert_eq!(
        explain(&session, &[1, 7]).map(|told| told.words_used),
        Ok(1)
    );
    // Row 1 arrived before row 0, so it stands first.
    let session = waiting(
        10,
        &[([1, 10, 10], job(20, 1, 8)), ([1, 20, 20], job(20, 1, 7))],
    );
    let expected = lines(&[
        "Waiting jobs: 2.",
        "Row 1, due at 20, budget 7: candidate.",
        "Row 0, due at 20, budget 8: candidate.",
        "Chosen: row 1, no word decided.",
        "Span 1: its remaining ticks.",
    ]);
    assert_eq!(told(&session, &[]), expected);
}

/// Chosen row, deciding word, span, cause, and the words used.
type Decided = (u64, Option<u64>, u64, Cause, usize);

fn decided(session: &Session, words: &[u32]) -> Decided {
    let Explained {
        explanation,
        words_used,
    } = explain(session, words).expect("a choice could be made");
    let Explanation {
        chosen,
        word,
        span,
        cause,
        ..
    } = explanation;
    (chosen, word, span, cause, words_used)
}

#[test]
fn a_word_that_is_passed_over_never_decides() {
    let session = spent_session();
    let cases: [(&[u32], Decided); 12] = [
        (&[], (0, None, 2, Cause::Remaining, 0)),
        (&[LAST], (0, None, 2, Cause::Remaining, 1)),
        (&[LAST, LAST], (0, None, 2, Cause::Remaining, 2)),
        (&[0], (0, Some(0), 2, Cause::Remaining, 1)),
        (&[0, 1], (0, Some(0), 2, Cause::Remaining, 1)),
        (&[4], (1, Some(4), 3, Cause::LackOfWord, 1)),
        (&[4, LAST], (1, Some(4), 3, Cause::LackOfWord, 2)),
        (&[4, LAST, 9], (1, Some(4), 1, Cause::Word, 3)),
        (&[LAST, 4, 9, 7], (1, Some(4), 1, Cause::Word, 3)),
        (&[LAST, 5, LAST], (16, Some(5), 5, Cause::LackOfWord, 3)),
        (&[LAST - 1, 5], (16, Some(4_294_967_294), 1, Cause::Word, 2)),
        (&[LAST, LAST, 2, LAST, 8], (16, Some(2), 4, Cause::Word, 5)),
    ];
    for (words, expected) in cases {
        assert_eq!(decided(&session, words), expected, "{words:?}");
    }
}

#[test]
fn one_length_is_set_by_any_word() {
    // Row 1 has one tick to run.
    let session = arrived(&[[1, 100, 20], [1, 100, 30]]);
    assert_eq!(
        decided(&session, &[1, LAST]),
        (1, Some(1), 1, Cause::Word, 2)
    );
    assert_eq!(
        decided(&session, &[1]),
        (1, Some(1), 1, Cause::LackOfWord, 1)
    );
}

#[test]
fn an_explanation_is_of_what_a_choice_gives() {
    let mut rng = Rng::new(20);
    for _ in 0..20_000 {
        let mut session = sound_session(&mut rng);
        session.choice = None;
        let words = more_words(&mut rng, &session, &[]);
        let before = session.clone();
        let Explained {
            explanation,
            words_used,
        } = explain(&session, &words).expect("a choice could be made");
        assert_eq!(session, before);
        let answer = perform(&mut session, Call::Choose(&words));
        let expected = Answer {
            number: 0,
            values: [explanation.chosen, explanation.span],
            words_used,
        };
        assert_eq!(answer, expected, "{before:?} {words:?}");
        check_parts(&before, &words, &explanation);
    }
}

/// What each part says, by the words of the document alone.
fn check_parts(session: &Session, words: &[u32], parts: &Explanation) {
    let rows: Vec<u64> = parts.jobs.iter().map(|job| job.row).collect();
    let order: Vec<u64> = session.in_order().into_iter().map(u64::from).collect();
    assert_eq!(rows, order);
    for (place, part) in parts.jobs.iter().enumerate() {
        let job = session.job(part.row as u32).expect("it waits");
        assert_eq!((part.due, part.budget as i64), (job.due, job.budget));
        let earlier = parts.jobs.iter().filter(|other| other.due < part.due);
        let is_free = earlier.clone().all(|other| other.budget > 0) && parts.jobs[0].budget > 0;
        let is_in_time = parts.brittle.is_none_or(|limit| part.due <= limit);
        assert_eq!(part.is_candidate, place == 0 || is_free && is_in_time);
    }
    let is_mixed = session.kind == Kind::Mixed;
    assert_eq!(
        parts.brittle,
        session.brittle_deadline().filter(|_| is_mixed)
    );
    let chosen = parts.jobs.iter().find(|job| job.row == parts.chosen);
    assert!(chosen.is_none_or(|job| job.is_candidate));
    assert_eq!(chosen.is_none(), parts.chosen == u64::from(IDLE));
    let is_bound = parts
        .jobs
        .iter()
        .any(|other| chosen.is_none_or(|job| other.due < job.due));
    match parts.cause {
        Cause::NothingWaits => assert!(parts.jobs.is_empty() && parts.span == 1_000_000),
        Cause::Remaining => {
            assert!(!is_bound && !parts.jobs.is_empty());
            let left = session.job(parts.chosen as u32).map(|job| job.left);
            assert_eq!(left, Some(parts.span));
        }
        Cause::Word | Cause::LackOfWord => assert!(is_bound && parts.word.is_some()),
    }
    if let Some(word) = parts.word {
        let candidates = parts.jobs.iter().filter(|job| job.is_candidate);
        let all_can_wait = parts.jobs.iter().all(|job| job.budget > 0);
        let has_idle = session.kind == Kind::Loose && all_can_wait;
        let count = candidates.clone().count() as u64 + u64::from(has_idle);
        let limit = (1 << 32) / count * count;
        let first = words.iter().find(|word| u64::from(**word) < limit);
        assert_eq!(first.copied().map(u64::from), Some(word));
        let number = (word % count) as usize;
        let row = candidates.clone().nth(number).map_or(16, |job| job.row);
        assert_eq!(row, parts.chosen);
    }
}

fn refused(number: u32, first: u64) -> Answer {
    Answer {
        number,
        values: [first, 0],
        words_used: 0,
    }
}

#[test]
fn an_explanation_is_refused_as_a_choice_is_and_then_for_a_short_buffer() {
    let open = listing_session();
    let mut in_force = open.clone();
    perform(&mut in_force, Call::Choose(&[4, 3]));
    assert_eq!(in_force.choice, Some(Choice { row: 1, left: 1 }));
    let mut unsound = in_force.clone();
    unsound.kind = Kind::Tight;
    for size in [0, 1, 300, 2_047] {
        let mut buffer = vec![PATTERN; size];
        let cases = [
            (&unsound, refused(5, 0)),
            (&in_force, refused(8, 1)),
            (&open, refused(15, size as u64)),
        ];
        for (session, expected) in cases {
            assert_eq!(explain_into(session, &[4, 9], &mut buffer), expected);
            assert_eq!(buffer, vec![PATTERN; size]);
        }
    }
    for size in [2_048, 2_049, 3_000, 70_000] {
        let mut buffer = vec![PATTERN; size];
        assert_eq!(explain_into(&unsound, &[], &mut buffer), refused(5, 0));
        assert_eq!(explain_into(&in_force, &[], &mut buffer), refused(8, 1));
        assert_eq!(buffer, vec![PATTERN; size]);
    }
    assert_eq!(explain(&unsound, &[]), Err(refused(5, 0)));
    assert_eq!(explain(&in_force, &[]), Err(refused(8, 1)));
}

#[test]
fn a_text_is_written_to_the_start_of_the_buffer_alone() {
    let session = listing_session();
    let text = told(&session, &[LAST, 4, 9, 1]).into_bytes();
    for size in [BUFFER_LEAST, BUFFER_LEAST + 1, 3_000] {
        let mut buffer = vec![PATTERN; size];
        let answer = explain_into(&session, &[LAST, 4, 9, 1], &mut buffer);
        let expected = Answer {
            number: 0,
            values: [text.len() as u64, 0],
            words_used: 3,
        };
        assert_eq!(answer, expected);
        let (written, rest) = buffer.split_at(text.len());
        assert_eq!(written, text);
        assert!(rest.iter().all(|byte| *byte == PATTERN));
    }
}

#[test]
fn the_longest_text_has_the_lengths_of_the_document() {
    let parts = longest_explanation();
    let text = text_of(&parts);
    let lengths: Vec<usize> = text
        .split_inclusive(|byte| *byte == b'\n')
        .map(<[u8]>::len)
        .collect();
    // The document counts the number of jobs with 20 digits too; it has 2.
    assert_eq!(lengths[0], 36 - 18);
    assert!(lengths[1..17].iter().all(|length| *length == 106));
    assert_eq!(lengths[17..], [90, 64, 65]);
    assert_eq!(text.len(), 1_951 - 18);
    let mut unspent = parts.clone();
    unspent.jobs[0].budget = u64::MAX;
    assert_eq!(text_of(&unspent).len(), 1_951 - 18 - 106 + 101);
    let mut buffer = vec![PATTERN; BUFFER_LEAST];
    assert_eq!(compose(&parts, &mut buffer), text.len());
    let mut rng = Rng::new(3);
    for _ in 0..10_000 {
        assert!(text_of(&random_explanation(&mut rng)).len() <= text.len());
    }
}

#[test]
fn texts_are_read_back() {
    let mut rng = Rng::new(5);
    for _ in 0..20_000 {
        for parts in [random_explanation(&mut rng), session_explanation(&mut rng)] {
            let text = text_of(&parts);
            assert_eq!(
                read(&text).as_ref(),
                Some(&parts),
                "{}",
                text.escape_ascii()
            );
        }
    }
    let longest = longest_explanation();
    assert_eq!(read(&text_of(&longest)), Some(longest));
}

/// Whatever is read has the text that was read: no two texts give the same parts, and
/// nothing else is let through.
fn check_exact(text: &[u8]) {
    if let Some(parts) = read(text) {
        assert_eq!(text_of(&parts), text, "{}", text.escape_ascii());
        assert!(parts.jobs.len() <= 16);
    }
}

#[test]
fn every_byte_of_a_text_counts() {
    let (_, text) = mixed_example();
    let idle = "Waiting jobs: 10.\n".to_string()
        + &"Row 10, due at 900, budget 0 (holds later jobs back): not a candidate.\n".repeat(10)
        + "Chosen: idle, by word 77.\nSpan 12: the most allowed, for lack of a word.\n";
    for text in [text.into_bytes(), idle.into_bytes()] {
        assert!(read(&text).is_some());
        for place in 0..text.len() {
            assert_eq!(read(&text[..place]), None);
            assert_eq!(read(&text[place + 1..]), None);
            let mut less = text.clone();
            less.remove(place);
            check_exact(&less);
            for byte in 0..=255 {
                let mut changed = text.clone();
                changed[place] = byte;
                check_exact(&changed);
                let is_number = text[place].is_ascii_digit() && byte.is_ascii_digit();
                if byte != text[place] && !is_number {
                    assert_eq!(read(&changed), None, "{}", changed.escape_ascii());
                }
                changed[place] = text[place];
                changed.insert(place, byte);
                check_exact(&changed);
            }
        }
        for byte in 0..=255 {
            assert_eq!(read(&[&text[..], &[byte]].concat()), None);
        }
    }
}

#[test]
fn damaged_texts_are_read_exactly() {
    let mut rng = Rng::new(11);
    let mut counts = [0; 2];
    for _ in 0..40_000 {
        let (_, text) = random_input(shuffle_model::texts::KINDS, &mut rng);
        check_exact(&text);
        counts[usize::from(read(&text).is_some())] += 1;
    }
    assert!(counts.iter().all(|count| *count > 10_000), "{counts:?}");
}

/// A text of one job in which a piece is exchanged.
fn with(piece: &str, other: &str) -> Vec<u8> {
    let text = lines(&[
        "Waiting jobs: 1.",
        "Row 3, due at 20, budget 7: candidate.",
        "Brittle deadline 30: of the candidates only the first may be due later.",
        "Chosen: row 3, by word 9.",
        "Span 5: set by a word.",
    ]);
    assert_eq!(text.matches(piece).count(), 1, "{piece}");
    text.replace(piece, other).into_bytes()
}

#[test]
fn numbers_of_a_text_have_64_bits_and_no_leading_zeros() {
    let pieces = [
        ("jobs: 1.", "jobs: #."),
        ("Row 3,", "Row #,"),
        ("at 20,", "at #,"),
        ("budget 7:", "budget #:"),
        ("deadline 30:", "deadline #:"),
        ("row 3,", "row #,"),
        ("word 9.", "word #."),
        ("Span 5:", "Span #:"),
    ];
    for (piece, other) in pieces {
        let of = |number: &str| read(&with(piece, &other.replace('#', number)));
        for number in [
            "",
            "00",
            "01",
            "000000000000000000001",
            "+1",
            "-1",
            " 1",
            "1 ",
            "0x1",
            "1,000",
            "1.0",
            "18446744073709551616",
            "18446744073709551617",
            "20000000000000000000",
            "99999999999999999999",
            "184467440737095516150",
        ] {
            assert_eq!(of(number), None, "{piece} {number}");
        }
        // Another number of jobs does not fit the lines.
        if piece.starts_with("jobs") {
            continue;
        }
        for number in [
            "1",
            "9",
            "10",
            "4294967296",
            "9007199254740992",
            "18446744073709551615",
        ] {
            assert!(of(number).is_some(), "{piece} {number}");
        }
        assert_eq!(of("0").is_some(), !piece.starts_with("budget"), "{piece}");
    }
    let spent = with("budget 7:", "budget 0 (holds later jobs back):");
    assert_eq!(read(&spent).map(|parts| parts.jobs[0].budget), Some(0));
    for bracket in [
        "budget 7 (holds later jobs back):",
        "budget 00 (holds later jobs back):",
    ] {
        assert_eq!(read(&with("budget 7:", bracket)), None, "{bracket}");
    }
}

#[test]
fn idle_is_never_told_as_a_row() {
    assert_eq!(read(&with("row 3,", "row 16,")), None);
    assert_eq!(
        read(&with("row 3,", "idle,")).map(|parts| parts.chosen),
        Some(16)
    );
    assert_eq!(
        read(&with("row 3,", "row 17,")).map(|parts| parts.chosen),
        Some(17)
    );
    // The row of a waiting job may be any number.
    assert_eq!(
        read(&with("Row 3,", "Row 16,")).map(|parts| parts.jobs[0].row),
        Some(16)
    );
}

#[test]
fn a_text_has_16_jobs_at_most_and_all_of_its_lines() {
    let line = "Row 3, due at 20, budget 7: candidate.\n";
    let text = |count: &str, jobs: usize| {
        let rest = "Chosen: row 3, no word decided.\nSpan 5: its remaining ticks.\n";
        let text = format!("Waiting jobs: {count}.\n{}{rest}", line.repeat(jobs));
        read(text.as_bytes()).map(|parts| parts.jobs.len())
    };
    for jobs in 0..=16 {
        assert_eq!(text(&jobs.to_string(), jobs), Some(jobs));
        assert_eq!(text(&jobs.to_string(), jobs + 1), None);
        assert_eq!(text(&(jobs + 1).to_string(), jobs), None);
        assert_eq!(text(&format!("0{jobs}"), jobs), None);
    }
    assert_eq!(text("17", 17), None);
    assert_eq!(text("17", 16), None);
    assert_eq!(text("18446744073709551616", 0), None);
    assert_eq!(read(b""), None);
}

#[test]
fn the_program_prints_what_shuffle_prints_and_texts() {
    let mut explanations = 0;
    for case in 0..400 {
        let (_, input) = random_input(KINDS, &mut Rng::for_case(1, case));
        let mut expected = Vec::new();
        let output = run_told(&input, |machine, told| {
            assert_eq!(explain(&machine.session, &machine.words).as_ref(), Ok(told));
            expected.push(told.explanation.clone());
        });
        // Lines of `shuffle` begin with a digit, and those of a text with a letter.
        let lines = output.split_inclusive(|byte| *byte == b'\n');
        let (answers, texts): (Vec<&[u8]>, Vec<&[u8]>) =
            lines.partition(|line| line[0].is_ascii_digit());
        assert_eq!(answers.concat(), text::run(&input));
        // Each text begins with the line that counts the jobs.
        let mut read_back = Vec::new();
        for line in texts {
            if line.starts_with(b"W") {
                read_back.push(Vec::new());
            }
            read_back.last_mut().expect("a text begins").extend(line);
        }
        let read_back: Option<Vec<Explanation>> = read_back.iter().map(|text| read(text)).collect();
        explanations += expected.len();
        assert_eq!(read_back, Some(expected));
    }
    assert!(explanations > 4_000, "{explanations}");
}

#[test]
fn a_refused_choice_is_not_explained() {
    let output = run(plain("T 2 10 10/A 0/G/G/F/F/X/").as_bytes());
    let expected = [
        plain("0 M 0 1 1/0 B 0 0 8/0 A 0 0 10/0 G 0 0 2/"),
        lines(&[
            "Waiting jobs: 1.",
            "Row 0, due at 10, budget 8: candidate.",
            "Chosen: row 0, no word decided.",
            "Span 2: its remaining ticks.",
        ]),
        plain("0 G 8 2 0/0 F 0 0 2/0 F 9 0 0/0 ? 13 7 0/"),
    ];
    assert_eq!(String::from_utf8(output).unwrap(), expected.concat());
    // A refused table, and a table alone, have no choice.
    for input in ["T 3 5 2/G/", "", "T 1 4 4/"] {
        let input = plain(input).into_bytes();
        assert_eq!(run(&input), text::run(&input));
    }
}

/// What `parts` prints, with `/` for a line end and a space for a tab.
fn parts(text: &[u8]) -> String {
    let output = String::from_utf8(printed_parts::run(text)).unwrap();
    output.replace('\t', " ").replace('\n', "/")
}

#[test]
fn parts_are_printed_line_by_line() {
    let (_, text) = mixed_example();
    assert_eq!(
        parts(text.as_bytes()),
        "J 1 31 4 1/J 2 38 0 1/J 0 45 9 0/B 52/C 1 0 0/S 3 1/"
    );
    let session = arrived(&FOUR);
    let all = "J 0 20 16 1/J 1 30 23 1/J 2 40 31 1/J 3 50 36 1/";
    for (words, expected) in [
        (&[1, 1][..], "C 1 1 1/S 2 2/"),
        (&[4], "C 16 1 4/S 16 3/"),
        (&[0], "C 0 1 0/S 4 1/"),
        (&[], "C 0 0 0/S 4 1/"),
    ] {
        let text = told(&session, words);
        assert_eq!(parts(text.as_bytes()), format!("{all}{expected}"));
    }
    assert_eq!(
        parts(told(&fresh(&FOUR), &[]).as_bytes()),
        "C 16 0 0/S 1000000 4/"
    );
    assert_eq!(parts(b""), "?/");
    assert_eq!(parts(b"?\n"), "?/");
}

#[test]
fn parts_reads_4096_bytes_and_takes_all_of_them() {
    let (_, text) = mixed_example();
    for fill in [b'\n', b' ', 0] {
        for size in [text.len() + 1, 4_095, 4_096, 4_097, 9_000] {
            let mut longer = text.clone().into_bytes();
            longer.resize(size, fill);
            assert_eq!(parts(&longer), "?/");
        }
    }
}

/// The sorts that the explanation of a choice is of.
fn sorts(session: &Session, words: &[u32]) -> Vec<&'static str> {
    let explained = explain(session, words).expect("a choice could be made");
    let mut tally = ExplanationTally::default();
    tally.add(&Told::new(session, words, &explained.explanation));
    tally.reached()
}

#[test]
fn explanations_count_by_what_they_tell() {
    let session = listing_session();
    assert_eq!(
        sorts(&session, &[]),
        [
            "loose, by remaining ticks",
            "of several candidates without a word",
            "of a budget above V"
        ]
    );
    assert_eq!(
        sorts(&spent_session(), &[LAST, 5, LAST]),
        [
            "loose, for lack of a word",
            "with a word that decided",
            "with words passed over before the one that decided",
            "with words passed over for the span",
            "of idle by a word",
            "of idle for lack of a word",
            "of a budget above V"
        ]
    );
    assert_eq!(
        sorts(&fresh(&FOUR), &[1]),
        ["loose, nothing waits"],
        "no job is the only candidate where nothing waits"
    );
    // The brittle deadline, 0 + 5, alone holds row 1 back.
    let mut mixed = fresh(&[[4, 10, 10], [1, 20, 20], [1, 5, 5], [2, 12, 12]]);
    perform(&mut mixed, Call::Arrive(0));
    perform(&mut mixed, Call::Arrive(1));
    assert_eq!(
        sorts(&mixed, &[1]),
        [
            "mixed, by remaining ticks",
            "of the only candidate",
            "of jobs that the brittle deadline alone holds back",
            "of a budget above V"
        ]
    );
    // Row 3, due at 12, is held back by it alone too; its spent budget holds row 1 back as
    // well.
    perform(&mut mixed, Call::Arrive(3));
    assert!(sorts(&mixed, &[1]).contains(&"of jobs that the brittle deadline alone holds back"));
    let sixteen = arrived(&[[1, 100, 100]; 16]);
    let all = sorts(&sixteen, &[3]);
    for sort in [
        "of 16 waiting jobs",
        "of 16 candidates",
        "of equal deadlines",
    ] {
        assert!(all.contains(&sort), "{all:?}");
    }
}

#[test]
fn too_few_explanations_are_named() {
    let mut tally = ExplanationTally::default();
    assert!(tally.gaps(Among::Inputs(0)).is_empty());
    let gaps = tally.gaps(Among::Inputs(1));
    assert_eq!(gaps.len(), 28);
    assert_eq!(
        gaps[0],
        "too rare: 0 explanations are loose, by remaining ticks (fewer than one in 1 inputs)"
    );
    let session = listing_session();
    let explained = explain(&session, &[4]).expect("a choice could be made");
    let mut half = ExplanationTally::default();
    half.add(&Told::new(&session, &[4], &explained.explanation));
    tally.merge(&half);
    tally.merge(&half);
    let text = tally.to_string();
    let start =
        "of 2 explanations 0 loose, by remaining ticks, 0 loose, by a word, 2 loose, for lack";
    assert!(text.starts_with(start), "{text}");

    let mut calls = ExplanationCalls::default();
    assert_eq!(calls.gaps(1).len(), 28 + 6);
    calls.add_refused(5, true);
    calls.add_refused(15, true);
    calls.add_refused(8, false);
    calls.add_accepted(&Told::new(&session, &[4], &explained.explanation));
    assert_eq!(calls.calls(), 4);
    let text = calls.to_string();
    let start =
        "of 4 calls for an explanation 1 are refused with 5, 1 of them with a short buffer, \
        1 are refused with 8, 0 of them with a short buffer, 1 are refused with 15, 1 of them";
    assert!(text.starts_with(start), "{text}");
}
