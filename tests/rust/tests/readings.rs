//! What the tool that compares the meter asks, and how it counts its questions. All
//! numbers are worked out by hand.

mod shared;

use shared::{question, zeros};
use shuffle_model::meter::Question;
use shuffle_model::questions::{kept_question, next_question};
use shuffle_model::readings::{has_equal_stretches, Reading, ReadingTally};
use shuffle_model::rng::Rng;

fn tally(questions: &[Question]) -> ReadingTally {
    let mut tally = ReadingTally::default();
    for question in questions {
        tally.add(&Reading::new(question));
    }
    tally
}

/// The sorts that a question is of.
fn sorts_of(question: Question) -> Vec<String> {
    let text = tally(&[question]).to_string();
    let sorts = text.strip_prefix("of 1 questions ").unwrap();
    let (sorts, _) = sorts.split_once("; ").unwrap();
    let sorts = sorts.split(", ").filter_map(|sort| sort.strip_prefix("1 "));
    sorts.map(str::to_string).collect()
}

/// What a question about these stretches depends on.
fn depends(stretches: &[&[u8]], window: usize, threshold: usize) -> Vec<String> {
    let sorts = sorts_of(question(stretches, window, threshold)).into_iter();
    sorts
        .filter_map(|sort| sort.strip_prefix("depend on ").map(str::to_string))
        .collect()
}

const AROUND: &str = "the way around the end";
const WHOSE: &str = "whose end it is";
const THRESHOLD: &str = "the threshold itself";
const BEYOND: &str = "what is beyond it";
const BITS: &str = "its bits from 2^32 on";
const ITSELF: &str = "a stretch counting itself";
const ORDER: &str = "which number is K";
const ROWS: &str = "the rows above 16";

#[test]
fn questions_count_by_what_they_depend_on() {
    // Tick 0 differs, which the interval from tick 3 has. With two stretches each is
    // the next of the other. As four of two ticks, 1 5, 6 7, 2 5, 6 7, they would
    // give 2 × (16 + 8 + 16 + 8).
    let around: [&[u8]; 2] = [&[1, 5, 6, 7], &[2, 5, 6, 7]];
    assert_eq!(depends(&around, 2, 0), [AROUND, BEYOND, ITSELF, ORDER]);
    // It is 40, and 56 by the next stretch; 48 as 1 5 1 and 5 2 6.
    let whose: [&[u8]; 3] = [&[1, 5], &[1, 5], &[2, 6]];
    assert_eq!(depends(&whose, 2, 0), [WHOSE, ITSELF, ORDER]);
    // The first and the last differ in 2 ticks, the middle one in 1 from each. From
    // tick 2 to the end all differ in 1 at most.
    let chain: [&[u8]; 3] = [&[0, 0, 0], &[0, 0, 1], &[0, 1, 1]];
    assert_eq!(depends(&chain, 3, 1), [AROUND, THRESHOLD, BEYOND, ITSELF]);
    // As one stretch of two ticks they would give 0.
    let idle: [&[u8]; 2] = [&[16], &[255]];
    assert_eq!(depends(&idle, 1, 0), [BEYOND, ORDER, ROWS]);
    assert_eq!(depends(&idle, 1, 1), [THRESHOLD, ITSELF]);
    assert_eq!(depends(&idle, 1, 1 << 32), [BITS, ITSELF]);
    assert_eq!(depends(&idle, 1, usize::MAX), [ITSELF]);
    assert_eq!(depends(&[&[7], &[7]], 1, 0), [ITSELF]);
}

/// What a question about these stretches is besides.
fn others(stretches: &[&[u8]], window: usize, threshold: usize) -> Vec<String> {
    let mut sorts = sorts_of(question(stretches, window, threshold));
    sorts.retain(|sort| !sort.starts_with("depend on "));
    assert_eq!(sorts.remove(0), "are accepted");
    sorts
}

const ZERO: &str = "have the threshold 0";
const BELOW: &str = "have the threshold m − 1";
const GREAT: &str = "have m or a greater threshold";
const ONE_TICK: &str = "have stretches of 1 tick";
const BETWEEN: &str = "have a c between 1 and K";
const ALONE: &str = "have c 1 for several stretches";
const EQUAL: &str = "have equal stretches";
const ALIKE: &str = "have different ones that are all alike";
const ONE: &str = "have 1 stretch";
const SHORTEST: &str = "have intervals of 1 of several ticks";
const LONGEST: &str = "have intervals of all of several ticks";

#[test]
fn questions_count_by_what_they_are() {
    let [a, b]: [&[u8]; 2] = [&[16], &[255]];
    assert_eq!(others(&[a, b], 1, 0), [ALONE, ONE_TICK, ZERO, BELOW]);
    assert_eq!(others(&[a, b], 1, 1), [ALIKE, ONE_TICK, GREAT]);
    assert_eq!(others(&[a, a], 1, 0), [EQUAL, ONE_TICK, ZERO, BELOW]);
    assert_eq!(others(&[a, b, a], 1, 0), [BETWEEN, ONE_TICK, ZERO, BELOW]);
    let long: &[u8] = &[1, 2, 3];
    assert_eq!(others(&[long], 1, 0), [ONE, SHORTEST, ZERO, BELOW]);
    assert_eq!(others(&[long], 2, 0), [ONE, ZERO]);
    assert_eq!(others(&[long], 3, 2), [ONE, LONGEST, BELOW]);
    assert_eq!(others(&[long, long], 3, 1), [EQUAL, LONGEST]);
    let most = sorts_of(zeros([255, 64, 2, 16_320]));
    assert!(most.contains(&"have 255 stretches".to_string()));
    assert!(most.contains(&"have 255 stretches of 64 ticks".to_string()));
    let full = sorts_of(zeros([128, 128, 2, 16_384]));
    assert!(full.contains(&"have 16,384 ticks in all".to_string()));
}

#[test]
fn refused_questions_count_by_their_reason() {
    let product = 6_148_914_691_236_517_206;
    for (numbers, sort) in [
        ([0, 5, 1, 0], "have no stretch"),
        ([256, 2, 2, 512], "have 256 stretches"),
        ([3, 5, 0, 15], "have m 0"),
        ([3, 5, 6, 15], "have m one above L"),
        ([5, 3_277, 1, 16_385], "have 16,385 ticks in all"),
        ([3, 5, 1, 14], "lack one row"),
        ([3, 5, 1, 16], "have one row too many"),
        ([3, 0, 1, 0], "have stretches of 0 ticks"),
        // 2^64 + 2.
        (
            [3, product, 1, 2],
            "have as many rows as the lowest bits of K × L",
        ),
    ] {
        assert_eq!(sorts_of(zeros(numbers)), [sort], "{numbers:?}");
    }
    // For two reasons, or next to a limit, but not at it.
    for numbers in [
        [0, 5, 0, 0],
        [257, 2, 1, 514],
        [3, 5, 7, 15],
        [3, 5, 0, 14],
        [3, 5, 1, 13],
        [2, 8_193, 1, 16_386],
        [3, product, 1, 3],
    ] {
        assert!(sorts_of(zeros(numbers)).is_empty(), "{numbers:?}");
    }
}

#[test]
fn too_few_questions_of_a_sort_are_named() {
    assert_eq!(tally(&[]).gaps().len(), 255, "of no questions none is rare");
    // c is 1 and 2, K is 3.
    let three = question(&[&[7], &[8], &[7]], 1, 0);
    let gaps = tally(&[three]).gaps();
    assert_eq!(
        gaps[0],
        "0 of 1 inputs depend on the way around the end (fewer than one in 10)"
    );
    let undecided: Vec<&String> = gaps.iter().filter(|gap| gap.starts_with("g(")).collect();
    assert_eq!(undecided.len(), 252);
    assert_eq!(undecided[0], "g(4) decided no answer");
    // Whatever the logarithms, equal stretches give 0.
    let equal = question(&[&[7], &[7]], 1, 0);
    let text = tally(&[equal]).to_string();
    assert!(
        text.ends_with("; 0 of the 255 logarithms decide an answer, each at least 0 times"),
        "{text}"
    );
}

#[test]
fn the_first_questions_need_every_logarithm() {
    let mut rng = Rng::new(1);
    let questions: Vec<Question> = (0..254)
        .map(|asked| next_question(&mut rng, asked))
        .collect();
    let gaps = tally(&questions).gaps();
    assert!(!gaps.iter().any(|gap| gap.starts_with("g(")), "{gaps:?}");
}

#[test]
fn random_questions_keep_the_rule_unless_they_are_damaged() {
    let mut rng = Rng::new(2);
    for _ in 0..2_000 {
        let question = kept_question(&mut rng);
        assert!(question.broken().is_empty(), "{question:?}");
    }
    let broken = (1_000..3_000).filter(|asked| {
        let question = next_question(&mut rng, *asked);
        !question.broken().is_empty()
    });
    let broken = broken.count();
    assert!((300..700).contains(&broken), "{broken} of 2000");
}

#[test]
fn stretches_are_equal_or_not() {
    let stretch: &[u8] = &[1, 2];
    assert!(has_equal_stretches(&question(&[stretch], 1, 0)));
    assert!(has_equal_stretches(&question(&[stretch; 3], 1, 0)));
    let last = [stretch, stretch, &[1, 3]];
    assert!(!has_equal_stretches(&question(&last, 1, 0)));
}
