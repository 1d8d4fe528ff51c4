//! Every candidate equally likely: which words a draw passes over, which it uses,
//! and what is run when none is left. All numbers are worked out by hand.

mod shared;

use shared::{arrived, fresh, job, waiting, FOUR};
use shuffle_model::calls::{candidates, draw, limit, perform, Answer, Call};
use shuffle_model::rng::Rng;
use shuffle_model::session::{Choice, Job, Session, CLOCK_END, IDLE};
use shuffle_model::specification::{listing, plain};
use shuffle_model::table::Kind;
use shuffle_model::text::{run, WORD_LIMIT};

/// The greatest word, 2^32 − 1.
const LAST: u32 = 4_294_967_295;
/// Idle in an answer.
const IDLE_SHOWN: u64 = IDLE as u64;

/// An accepted choice: its two values, and how many words it uses.
fn choose(session: &Session, words: &[u32]) -> ([u64; 2], usize) {
    let mut session = session.clone();
    let answer = perform(&mut session, Call::Choose(words));
    assert_eq!(answer.number, 0, "{words:?}");
    assert!(session.is_sound(), "{session:?}");
    let [row, left] = answer.values;
    let row = row as u32;
    assert_eq!(session.choice, Some(Choice { row, left }));
    (answer.values, answer.words_used)
}

/// The number that a draw gives, and how many words it uses.
fn drawn(count: u32, words: &[u32]) -> (Option<u32>, usize) {
    let (number, rest) = draw(count, words);
    (number, words.len() - rest.len())
}

/// Numbers to draw between, each with the greatest multiple up to 2^32.
const LIMITS: [(u32, u64); 21] = [
    (1, 4_294_967_296),
    (2, 4_294_967_296),
    (3, 4_294_967_295),
    (4, 4_294_967_296),
    (5, 4_294_967_295),
    (6, 4_294_967_292),
    (7, 4_294_967_292),
    (8, 4_294_967_296),
    (9, 4_294_967_292),
    (10, 4_294_967_290),
    (11, 4_294_967_292),
    (12, 4_294_967_292),
    (13, 4_294_967_287),
    (14, 4_294_967_292),
    (15, 4_294_967_295),
    (16, 4_294_967_296),
    (17, 4_294_967_295),
    (100, 4_294_967_200),
    (65_537, 4_294_967_295),
    (999_999, 4_293_995_706),
    (1_000_000, 4_294_000_000),
];

/// The words from a limit on; none if it is 2^32.
fn words_from(limit: u64) -> impl Iterator<Item = u32> {
    (limit..4_294_967_296).map(|word| word as u32)
}

#[test]
fn limits_are_the_greatest_multiples() {
    for (count, expected) in LIMITS {
        assert_eq!(limit(count), expected, "{count}");
        assert!(expected.is_multiple_of(u64::from(count)));
        assert!(expected + u64::from(count) > 4_294_967_296);
    }
}

#[test]
fn a_draw_passes_over_the_words_from_the_limit_on() {
    for (count, limit) in LIMITS {
        let below = (limit - 1) as u32;
        assert_eq!(drawn(count, &[0]), (Some(0), 1));
        assert_eq!(drawn(count, &[count - 1]), (Some(count - 1), 1));
        // The limit is a multiple, so the word below it has the last number.
        assert_eq!(drawn(count, &[below]), (Some(count - 1), 1), "{count}");
        assert_eq!(drawn(count, &[below - (count - 1)]), (Some(0), 1));
        for word in words_from(limit) {
            assert_eq!(drawn(count, &[word]), (None, 1), "{count} {word}");
            assert_eq!(drawn(count, &[word, 0]), (Some(0), 2), "{count} {word}");
        }
    }
}

#[test]
fn powers_of_two_pass_over_nothing() {
    for power in 0..20 {
        let count = 1 << power;
        assert_eq!(limit(count), 4_294_967_296);
        assert_eq!(drawn(count, &[LAST, 0]), (Some(count - 1), 1));
        assert_eq!(drawn(count, &[LAST - count + 1, 9]), (Some(0), 1));
    }
}

#[test]
fn a_draw_uses_the_words_up_to_the_one_that_decides() {
    // Between 7 the last 4 words are passed over.
    let over = [4_294_967_292, 4_294_967_293, 4_294_967_294, LAST];
    for passed in 0..=4 {
        let mut words = over[..passed].to_vec();
        assert_eq!(drawn(7, &words), (None, passed));
        // 4,294,967,291 is 7 × 613,566,755 + 6.
        words.extend([4_294_967_291, 2, LAST]);
        assert_eq!(drawn(7, &words), (Some(6), passed + 1));
        words[passed] = 9;
        assert_eq!(drawn(7, &words), (Some(2), passed + 1));
    }
    assert_eq!(drawn(7, &[]), (None, 0));
}

/// For each number below `count`, how many of all words a draw takes for it: in
/// the blocks below the last two by their number, in the rest one by one.
fn words_for_each(count: u32) -> Vec<u64> {
    let size = u64::from(count);
    let blocks = ((1u64 << 32) / size).saturating_sub(2);
    let mut words = vec![blocks; count as usize];
    for word in blocks * size..1 << 32 {
        if let (Some(number), _) = draw(count, &[word as u32]) {
            words[number as usize] += 1;
        }
    }
    words
}

#[test]
fn each_number_has_equally_many_words() {
    for (count, limit) in LIMITS {
        let each = limit / u64::from(count);
        let words = words_for_each(count);
        assert!(words.iter().all(|words| *words == each), "{count}");
    }
    // Below the last two blocks a draw takes every word, with its remainder.
    let mut rng = Rng::new(9);
    for _ in 0..100_000 {
        let count = rng.of_any_size(1, 1_000_000);
        let word = rng.between(0, LAST - 2 * count);
        assert_eq!(drawn(count, &[word]), (Some(word % count), 1));
    }
}

/// A session with so many candidates: rows of C 1 with one deadline, and idle. V
/// is 100 less the number of rows.
fn equal_rows(candidate_count: u32) -> Session {
    let session = arrived(&vec![[1, 100, 100]; candidate_count as usize - 1]);
    assert_eq!(candidates(&session).len() as u32, candidate_count);
    session
}

#[test]
fn a_pick_between_2_to_17_goes_by_its_own_limit() {
    for (count, limit) in LIMITS.into_iter().skip(1).take(16) {
        let session = equal_rows(count);
        let v = 101 - u64::from(count);
        let below = (limit - 1) as u32;
        // The last of them is idle, which draws from the next word.
        assert_eq!(choose(&session, &[below]), ([IDLE_SHOWN, v], 1), "{count}");
        assert_eq!(choose(&session, &[below, 3]), ([IDLE_SHOWN, 4], 2));
        assert_eq!(
            choose(&session, &[below - 1, 3]),
            ([u64::from(count) - 2, 1], 1)
        );
        let is_power_of_two = matches!(count, 2 | 4 | 8 | 16);
        assert_eq!(words_from(limit).next().is_none(), is_power_of_two);
        for word in words_from(limit) {
            // The head for its one tick, or what the next word says.
            assert_eq!(choose(&session, &[word]), ([0, 1], 1), "{count} {word}");
            assert_eq!(choose(&session, &[word, 1]).1, 2);
            let answer = choose(&session, &[word, count - 1, 3]);
            assert_eq!(answer, ([IDLE_SHOWN, 4], 3), "{count} {word}");
        }
    }
}

#[test]
fn a_pick_passes_over_several_words_in_a_row() {
    let session = arrived(&FOUR);
    for passed in 0..=40 {
        let mut words = vec![LAST; passed];
        assert_eq!(choose(&session, &words), ([0, 4], passed), "the head");
        // 1 of 5 is row 1, and 1 of its 3 lengths is 2.
        words.extend([1, 1, 1]);
        assert_eq!(choose(&session, &words), ([1, 2], passed + 2));
    }
}

#[test]
fn a_head_that_is_drawn_has_its_remaining_ticks() {
    // No word is left for a span, nor needed.
    let session = arrived(&FOUR);
    assert_eq!(choose(&session, &[LAST, LAST, 5, 1]), ([0, 4], 3));
    assert_eq!(choose(&session, &[LAST, 0, LAST]), ([0, 4], 2));
    // 4,294,967,290 is 5 × 858,993,458.
    assert_eq!(choose(&session, &[4_294_967_290]), ([0, 4], 1));
}

#[test]
fn a_head_that_lacks_words_has_its_remaining_ticks() {
    // Row 0 has run for one of its 4 ticks.
    let mut session = arrived(&FOUR);
    perform(&mut session, Call::Choose(&[]));
    perform(&mut session, Call::Advance(1));
    session.choice = None;
    for passed in [0, 1, 2, 100] {
        assert_eq!(choose(&session, &vec![LAST; passed]), ([0, 3], passed));
    }
}

#[test]
fn the_head_is_run_for_lack_of_words_and_not_row_0() {
    // Row 1 has the earlier deadline. The one in row 0 would have a span of 1.
    let session = arrived(&[[1, 100, 30], [5, 100, 20]]);
    assert_eq!(candidates(&session), [1, 0, IDLE]);
    assert_eq!(choose(&session, &[LAST, LAST]), ([1, 5], 2));
}

/// The rows of `FOUR` at 10, after 10 ticks of idle: row 0 has 6 left of its budget of
/// 16, so that there are 6 lengths for idle.
fn ten_later() -> Session {
    let mut session = arrived(&FOUR);
    assert_eq!(
        perform(&mut session, Call::Choose(&[4, 9])).values,
        [IDLE_SHOWN, 10]
    );
    perform(&mut session, Call::Advance(10));
    session
}

#[test]
fn a_span_goes_by_the_limit_of_its_lengths() {
    let session = ten_later();
    // 6 lengths under idle. 4,294,967,291 is 6 × 715,827,881 + 5.
    let idle = |words: &[u32]| choose(&session, &[&[4], words].concat());
    assert_eq!(idle(&[4_294_967_290, 0]), ([IDLE_SHOWN, 5], 2));
    assert_eq!(idle(&[4_294_967_291, 0]), ([IDLE_SHOWN, 6], 2));
    for word in [4_294_967_292, 4_294_967_293, 4_294_967_294, LAST] {
        assert_eq!(idle(&[word]), ([IDLE_SHOWN, 6], 2));
        assert_eq!(idle(&[word, 0]), ([IDLE_SHOWN, 1], 3));
        assert_eq!(idle(&[word, LAST, word, 9, 1]), ([IDLE_SHOWN, 4], 5));
    }
    // 3 lengths of row 1, 2 of row 2, 5 of row 3.
    for (row, length) in [(1, 3), (2, 2), (3, 5)] {
        let below = (limit(length as u32) - 1) as u32;
        assert_eq!(
            choose(&session, &[row, below, 0]),
            ([row.into(), length], 2)
        );
    }
    assert_eq!(choose(&session, &[1, LAST, 0]), ([1, 1], 3));
    assert_eq!(choose(&session, &[2, LAST, 0]), ([2, 2], 2));
    assert_eq!(choose(&session, &[3, LAST, 0]), ([3, 1], 3));
}

#[test]
fn a_span_of_most_lengths_passes_over_most_words() {
    // Idle before a lone job of V 999,999: 971,590 words are passed over.
    let session = arrived(&[[1, 1_000_000, 1_000_000]]);
    let idle = |words: &[u32]| choose(&session, &[&[1], words].concat());
    assert_eq!(idle(&[4_293_995_704, 0]), ([IDLE_SHOWN, 999_998], 2));
    assert_eq!(idle(&[4_293_995_705, 0]), ([IDLE_SHOWN, 999_999], 2));
    assert_eq!(idle(&[4_293_995_706, 0]), ([IDLE_SHOWN, 1], 3));
    assert_eq!(idle(&[4_293_995_706]), ([IDLE_SHOWN, 999_999], 2));
    assert_eq!(idle(&[4_294_000_000, LAST, 41]), ([IDLE_SHOWN, 42], 4));
}

#[test]
fn a_span_that_lacks_words_is_the_longest() {
    let session = ten_later();
    for passed in [0, 1, 2, 100] {
        let words = |first| [&[first], &vec![LAST; passed][..]].concat();
        assert_eq!(choose(&session, &words(1)), ([1, 3], passed + 1));
        assert_eq!(choose(&session, &words(3)), ([3, 5], passed + 1));
        assert_eq!(choose(&session, &words(4)), ([IDLE_SHOWN, 6], passed + 1));
    }
}

#[test]
fn the_span_draws_from_what_the_pick_left() {
    let session = ten_later();
    // Row 3 has 5 lengths, as there are 5 candidates.
    assert_eq!(choose(&session, &[LAST, 3, 1]), ([3, 2], 3));
    assert_eq!(choose(&session, &[LAST, 3, LAST, 1]), ([3, 2], 4));
    assert_eq!(
        choose(&session, &[LAST, LAST, 3, LAST, LAST, LAST, 1, 7]),
        ([3, 2], 7)
    );
    assert_eq!(choose(&session, &[LAST, LAST, 3]), ([3, 5], 3));
    assert_eq!(choose(&session, &[LAST, LAST, 3, LAST]), ([3, 5], 4));
    // 4,294,967,292 decides between 5: it is 5 × 858,993,458 + 2, row 2. Neither it
    // nor a greater word decides between 6 lengths.
    assert_eq!(choose(&session, &[4_294_967_292, 1]), ([2, 2], 2));
    assert_eq!(
        choose(&session, &[4_294_967_294, 4_294_967_292, 4_294_967_294, 1]),
        ([IDLE_SHOWN, 2], 4)
    );
    // Between 7 candidates it does not decide; between the 3 lengths of row 1
    // 4,294,967,294 does.
    let mut rows = vec![[1, 100, 20], [3, 100, 30]];
    rows.extend([[1, 100, 40]; 4]);
    let session = arrived(&rows);
    let words = [4_294_967_292, 4_294_967_294, 1, 4_294_967_294, 1];
    assert_eq!(choose(&session, &words), ([1, 3], 4));
}

#[test]
fn one_length_uses_any_word() {
    // Row 1 has one tick; and in the other table row 0 has a budget of 1.
    let short = arrived(&[[1, 100, 20], [1, 100, 30]]);
    let spent = waiting(
        0,
        &[
            ([9, 100, 20], job(20, 9, 1)),
            ([10, 100, 30], job(30, 10, 11)),
        ],
    );
    for session in [short, spent] {
        for word in [0, 1, 2, 4_294_967_294, LAST] {
            assert_eq!(choose(&session, &[1, word, LAST]), ([1, 1], 2));
            assert_eq!(choose(&session, &[LAST, 1, word, LAST]), ([1, 1], 3));
        }
        assert_eq!(choose(&session, &[1]), ([1, 1], 1));
    }
}

#[test]
fn one_candidate_uses_no_word() {
    let mut head = arrived(&FOUR);
    head.slots[0].job = Some(Job {
        due: 20,
        left: 4,
        budget: 0,
    });
    let tight = arrived(&[[2, 4, 4], [3, 6, 6]]);
    assert_eq!(tight.kind, Kind::Tight);
    for words in [&[][..], &[1], &[LAST], &[LAST, LAST, 1], &[LAST; 100]] {
        assert_eq!(choose(&head, words), ([0, 4], 0));
        assert_eq!(choose(&tight, words), ([0, 2], 0));
        assert_eq!(choose(&fresh(&FOUR), words), ([IDLE_SHOWN, 1_000_000], 0));
    }
}

#[test]
fn a_refused_choice_uses_no_word() {
    let mut chosen = arrived(&FOUR);
    chosen.choice = Some(Choice { row: 1, left: 2 });
    let mut unsound = arrived(&FOUR);
    unsound.clock = CLOCK_END + 1;
    for (session, number, values) in [(chosen, 8, [2, 0]), (unsound, 5, [0, 0])] {
        for words in [&[LAST; 3][..], &[1, 1], &[]] {
            let mut after = session.clone();
            let refused = Answer {
                number,
                values,
                words_used: 0,
            };
            assert_eq!(perform(&mut after, Call::Choose(words)), refused);
            assert_eq!(after, session);
        }
    }
}

#[test]
fn a_very_long_list_is_gone_through_once() {
    let count = 1_000_000;
    let session = ten_later();
    let mut words = vec![LAST; count];
    assert_eq!(choose(&session, &words), ([0, 4], count));
    words[0] = 4;
    assert_eq!(choose(&session, &words), ([IDLE_SHOWN, 6], count));
    words[0] = LAST;
    words[count / 2] = 3;
    assert_eq!(choose(&session, &words), ([3, 5], count));
    words[count - 1] = 1;
    assert_eq!(choose(&session, &words), ([3, 2], count));
}

/// The last line of the output, in the form of the listing, after the rows of
/// `FOUR` have arrived.
fn last_line(lines: &str) -> String {
    let rows = FOUR.map(|[run, period, deadline]| format!("T {run} {period} {deadline}/"));
    let input = format!("{}A 0/A 1/A 2/A 3/{lines}", rows.concat());
    let output = String::from_utf8(run(plain(&input).as_bytes())).unwrap();
    let last = output.lines().next_back().unwrap();
    last.replace('\t', " ")
}

#[test]
fn the_program_drops_all_words_used() {
    let over = "W 4294967295/";
    // The third word is row 1, the fourth the second of its 3 lengths.
    let pick = format!("{over}{over}W 1/W 1/");
    assert_eq!(last_line(&format!("{pick}G/")), "0 G 0 1 2");
    // The next choice takes the next words: idle, and the third of 14 lengths,
    // since 2 ticks of row 1 leave row 0 a budget of 14.
    let left = format!("{pick}{over}W 4/W 2/G/R 2/G/");
    assert_eq!(last_line(&left), "2 G 0 16 3");
    // Row 0 runs to its end for lack of words, and none is left for row 1.
    let none = format!("{over}{over}{over}G/R 4/");
    assert_eq!(last_line(&format!("{none}G/")), "4 G 0 1 3");
    assert_eq!(last_line(&format!("{none}W 1/W 0/G/")), "4 G 0 2 1");
    // The span of row 1 lacks words, so that the next one decides between 4.
    let none = format!("W 1/{over}{over}{over}G/R 3/");
    assert_eq!(last_line(&format!("{none}W 1/G/")), "3 G 0 2 2");
}

#[test]
fn passed_over_words_make_room_in_the_queue() {
    let full = "W 4294967295/".repeat(WORD_LIMIT);
    assert_eq!(last_line(&format!("{full}G/")), "0 G 0 0 4");
    assert_eq!(last_line(&format!("{full}W 0/G/")), "0 ? 13 1033 0");
    // After the choice as many may wait again. Once row 0 is over the first is
    // idle, the last of 4 candidates, and no other decides between its 23 lengths.
    assert_eq!(last_line(&format!("{full}G/{full}R 4/")), "4 R 0 0 1");
    assert_eq!(last_line(&format!("{full}G/{full}W 0/")), "0 ? 13 2058 0");
    assert_eq!(last_line(&format!("{full}G/{full}R 4/G/")), "4 G 0 16 23");
}

#[test]
fn the_listing_stays_true() {
    let (input, output) = listing();
    assert_eq!(run(input.as_bytes()), output.as_bytes());
    // Each pick is between 3 candidates, the first span between 3 lengths and the
    // second between 7: a word that is passed over before them changes nothing. Nor does
    // one before the last word, which the refused choice leaves.
    let longer = ["W\t4\n", "W\t9\n", "W\t2\n", "W\t5\n", "W\t3\n"]
        .iter()
        .fold(input.clone(), |text, line| {
            text.replacen(line, &format!("W\t4294967295\n{line}"), 1)
        });
    assert_eq!(longer.len(), input.len() + 5 * 13);
    assert_eq!(run(longer.as_bytes()), output.as_bytes());
    // 4,294,967,291 is the last word that decides between 7.
    let changed = input.replacen("W\t5\n", "W\t4294967291\nW\t5\n", 1);
    assert_ne!(run(changed.as_bytes()), output.as_bytes());
}
