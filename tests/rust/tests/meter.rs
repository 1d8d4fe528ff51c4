//! How mixed a schedule is: the meter, its logarithms and what it turns down. All
//! numbers are worked out by hand.

mod shared;

use std::cmp::Ordering;
use std::iter::repeat_n;

use shared::{question, zeros};
use shuffle_model::calls::Answer;
use shuffle_model::meter::{counts, interval, logarithm, meter, Question};
use shuffle_model::rng::Rng;

/// The meter of a question that is accepted.
fn reading(question: &Question) -> u64 {
    let answer = meter(question);
    assert_eq!((answer.number, answer.words_used), (0, 0), "{question:?}");
    assert_eq!(answer.values[1], 0);
    answer.values[0]
}

/// The meter of stretches, with m and the threshold.
fn read(stretches: &[&[u8]], window: usize, threshold: usize) -> u64 {
    reading(&question(stretches, window, threshold))
}

/// c of every stretch, one list for each tick.
fn counts_by_tick(question: &Question) -> Vec<Vec<usize>> {
    let counts = counts(question, interval);
    let ticks = counts.chunks(question.stretches);
    ticks.map(<[usize]>::to_vec).collect()
}

/// g of 1 and on. 3^8 is 6,561, between 2^12 and 2^13; 5^8 is 390,625, from 2^18
/// on; 6^8 is 2^8 × 6,561; 7^8 is 5,764,801, from 2^22 on; 9^8 is 6,561², which is
/// 43,046,721, from 2^25 on.
const FIRST: [u64; 9] = [0, 8, 12, 16, 18, 20, 22, 24, 25];

#[test]
fn logarithms_are_those_worked_out() {
    for (n, g) in (1..).zip(FIRST) {
        assert_eq!(logarithm(n), g, "{n}");
    }
    // Each doubling adds 8.
    for n in 1..128 {
        assert_eq!(logarithm(2 * n), logarithm(n) + 8, "{n}");
    }
    // 181² is 32,761, below 2^15, and 182² is 33,124, above.
    assert_eq!([181, 182].map(logarithm), [59, 60]);
    // 127/128 and 255/256, each to the eighth, are above 1/2.
    assert_eq!([127, 128, 129, 255].map(logarithm), [55, 56, 56, 63]);
}

#[test]
fn every_logarithm_keeps_the_rule() {
    for n in 1..=255u128 {
        let power = 1u128 << logarithm(n as usize);
        let eighth = n * n * n * n * n * n * n * n;
        assert!(power <= eighth && eighth < 2 * power, "{n}");
    }
}

#[test]
fn one_tick_is_equal_or_not() {
    assert_eq!(read(&[&[7], &[7]], 1, 0), 0);
    // Each is alone: 2 × (8 − 0).
    assert_eq!(read(&[&[7], &[8]], 1, 0), 16);
    assert_eq!(read(&[&[7], &[8]], 1, 1), 0);
    // Two are equal, and the third is alone: 2 × (12 − 8) + (12 − 0).
    assert_eq!(read(&[&[7], &[8], &[7]], 1, 0), 20);
}

#[test]
fn a_stretch_counts_itself() {
    let alone = question(&[&[3, 1, 4, 1, 5]], 2, 0);
    assert_eq!(counts_by_tick(&alone), vec![[1]; 5]);
    assert_eq!(reading(&alone), 0);
    // None is like another: 3 × 2 × 12.
    let different = question(&[&[1, 2], &[2, 3], &[3, 1]], 1, 0);
    assert_eq!(counts_by_tick(&different), vec![[1; 3]; 2]);
    assert_eq!(reading(&different), 72);
}

#[test]
fn an_interval_goes_around_the_end() {
    // They differ in tick 0 alone. Of the intervals of 2, the one from tick 3 has
    // it too.
    let [one, other] = [[1, 5, 6, 7], [2, 5, 6, 7]];
    let pairs = question(&[&one, &other], 2, 0);
    assert_eq!(counts_by_tick(&pairs), [[1; 2], [2; 2], [2; 2], [1; 2]]);
    // m of the 4 intervals have it, in both stretches, each for 8.
    for window in 1..=4 {
        assert_eq!(read(&[&one, &other], window, 0), 16 * window as u64);
        assert_eq!(read(&[&one, &other], window, 1), 0);
    }
    // The same for each other tick.
    let last = question(&[&[5, 6, 7, 1], &[5, 6, 7, 2]], 2, 0);
    assert_eq!(counts_by_tick(&last), [[2; 2], [2; 2], [1; 2], [1; 2]]);
    assert_eq!(reading(&last), 32);
}

#[test]
fn it_goes_around_the_end_of_its_own_stretch() {
    // From tick 1 the intervals are 5 1, 5 1 and 6 2. By the next stretch they
    // would be 5 1, 5 2 and 6 1, none like another.
    let question = question(&[&[1, 5], &[1, 5], &[2, 6]], 2, 0);
    assert_eq!(counts_by_tick(&question), [[2, 2, 1]; 2]);
    assert_eq!(reading(&question), 2 * (4 + 4 + 12));
}

#[test]
fn the_threshold_itself_is_near_enough() {
    // The first and the last differ in 2 ticks, the middle one in 1 from each. An
    // interval of 3 has the whole stretch, so that every tick has the same c.
    let stretches: [&[u8]; 3] = [&[0, 0, 0], &[0, 0, 1], &[0, 1, 1]];
    let expected = [([1, 1, 1], 3 * 36), ([2, 3, 2], 3 * 8), ([3, 3, 3], 0)];
    for (threshold, (c, sum)) in expected.into_iter().enumerate() {
        let question = question(&stretches, 3, threshold);
        assert_eq!(counts_by_tick(&question), [c; 3], "{threshold}");
        assert_eq!(reading(&question), sum, "{threshold}");
    }
}

#[test]
fn four_stretches_by_hand() {
    // The ticks that differ: A and B in 3; A and C in 1, 3, 4; B and C in 1, 4; D
    // from all in all. Of the intervals of 3 from ticks 0 to 4, A and B differ in
    // 0 1 1 1 0 ticks, A and C in 1 2 2 2 2, B and C in 1 1 1 1 2.
    let [a, b, c, d]: [&[u8]; 4] = [
        &[0, 0, 1, 1, 2],
        &[0, 0, 1, 2, 2],
        &[0, 1, 1, 2, 0],
        &[3, 3, 3, 3, 3],
    ];
    let one_differs = question(&[a, b, c, d], 3, 1);
    let middle = [2, 3, 2, 1];
    assert_eq!(
        counts_by_tick(&one_differs),
        [[3, 3, 3, 1], middle, middle, middle, [2, 2, 1, 1]]
    );
    // 16 less 0, 8, 12: 4 + 4 + 4 + 16, three times 8 + 4 + 8 + 16, and 8 + 8 + 16 + 16.
    assert_eq!(reading(&one_differs), 28 + 3 * 36 + 48);
    // A and B are equal from ticks 0 and 4; nothing else is.
    assert_eq!(read(&[a, b, c, d], 3, 0), 48 + 3 * 64 + 48);
    // All but D are alike.
    assert_eq!(read(&[a, b, c, d], 3, 2), 5 * (4 + 4 + 4 + 16));
    assert_eq!(read(&[a, b, c, d], 3, 3), 0);
}

#[test]
fn intervals_are_compared_from_the_same_tick() {
    // The same rows one tick later are other rows.
    assert_eq!(read(&[&[0, 1, 2], &[1, 2, 0]], 2, 0), 2 * 3 * 8);
    assert_eq!(read(&[&[0, 1, 2], &[1, 2, 0]], 2, 1), 2 * 3 * 8);
}

#[test]
fn every_byte_is_a_row_number() {
    for one in 0..=255 {
        for other in 0..=255 {
            let expected = if one == other { 0 } else { 16 };
            assert_eq!(read(&[&[one], &[other]], 1, 0), expected);
        }
    }
    // Idle is 16, and 255 stands for no row of a table. They differ in tick 1, which
    // two intervals have.
    assert_eq!(read(&[&[16, 16, 255], &[16, 255, 255]], 2, 0), 32);
    assert_eq!(read(&[&[16, 16, 255], &[16, 17, 255]], 2, 0), 32);
}

#[test]
fn equal_stretches_give_0() {
    let stretch: [u8; 7] = [16, 3, 255, 3, 0, 0, 9];
    for count in 1..=255 {
        for (window, threshold) in [(1, 0), (3, 1), (7, 0), (7, usize::MAX)] {
            assert_eq!(read(&vec![&stretch[..]; count], window, threshold), 0);
        }
    }
}

/// A question about stretches of which no two have a row in common at any tick.
fn most_mixed(stretches: usize, ticks: usize, window: usize) -> Question {
    let rows = (0..stretches).flat_map(|stretch| repeat_n(stretch as u8, ticks));
    Question {
        rows: rows.collect(),
        stretches,
        ticks,
        window,
        threshold: window - 1,
    }
}

#[test]
fn the_most_mixed_give_the_greatest_sum() {
    for (n, g) in (1..).zip(FIRST) {
        assert_eq!(reading(&most_mixed(n, 5, 3)), n as u64 * 5 * g);
    }
    assert_eq!(reading(&most_mixed(255, 64, 64)), 1_028_160);
    assert_eq!(reading(&most_mixed(128, 128, 1)), 917_504);
    assert_eq!(reading(&most_mixed(2, 8_192, 100)), 131_072);
    assert_eq!(reading(&most_mixed(1, 16_384, 16_384)), 0);
}

#[test]
fn every_threshold_is_allowed() {
    let question = most_mixed(4, 6, 5);
    let with = |threshold| Question {
        threshold,
        ..question.clone()
    };
    for threshold in 0..5 {
        assert_eq!(reading(&with(threshold)), 4 * 6 * 16);
    }
    for threshold in [5, 6, 7, 1 << 32, 1 << 63, usize::MAX - 1, usize::MAX] {
        assert_eq!(reading(&with(threshold)), 0);
    }
}

/// Whether K, L, m and the length are accepted. All rows are equal, so that the
/// meter is 0.
fn is_accepted(question: [usize; 4]) -> bool {
    let answer = meter(&zeros(question));
    let expected = |number| Answer {
        number,
        values: [0, 0],
        words_used: 0,
    };
    assert!([expected(0), expected(14)].contains(&answer), "{answer:?}");
    answer.number == 0
}

#[test]
fn stretches_are_from_1_to_255() {
    for ticks in [1, 2, 63, 64] {
        for (stretches, is_good) in [(0, false), (1, true), (255, true), (256, false)] {
            let all = stretches * ticks;
            assert_eq!(is_accepted([stretches, ticks, 1, all]), is_good);
        }
    }
    // 256 × 64 is 16,384. Numbers whose last bits are those of 1.
    for stretches in [257, 65_537, (1 << 32) + 1, (1 << 63) + 1, usize::MAX] {
        assert!(!is_accepted([stretches, 1, 1, 1]));
    }
    assert!(!is_accepted([257, 1, 1, 257]));
}

#[test]
fn intervals_have_1_to_l_ticks() {
    for ticks in [1, 2, 16, 5_000] {
        let all = 3 * ticks;
        for window in [1, ticks / 2 + 1, ticks] {
            assert!(is_accepted([3, ticks, window, all]), "{window}");
        }
        for window in [0, ticks + 1, ticks + 2, all + 1, ticks + (1 << 32)] {
            assert!(!is_accepted([3, ticks, window, all]), "{window}");
        }
        assert!(!is_accepted([3, ticks, usize::MAX, all]));
    }
}

#[test]
fn stretches_have_ticks() {
    for stretches in [0, 1, 255, 256] {
        for window in [0, 1, usize::MAX] {
            for length in [0, 1, stretches] {
                assert!(!is_accepted([stretches, 0, window, length]));
            }
        }
    }
}

#[test]
fn all_stretches_have_at_most_16_384_ticks() {
    for power in 0..8 {
        let (stretches, ticks) = (1 << power, 16_384 >> power);
        assert!(is_accepted([stretches, ticks, 1, 16_384]));
        let more = stretches * (ticks + 1);
        assert!(!is_accepted([stretches, ticks + 1, 1, more]));
    }
    // 16,385 is 5 × 29 × 113.
    for stretches in [1, 5, 29, 113, 145] {
        let ticks = 16_385 / stretches;
        assert_eq!(stretches * ticks, 16_385);
        assert!(!is_accepted([stretches, ticks, 1, 16_385]));
        assert!(!is_accepted([stretches, ticks, 1, 16_384]));
        assert!(is_accepted([stretches, ticks - 1, 1, 16_385 - stretches]));
    }
    assert!(is_accepted([255, 64, 1, 16_320]));
    assert!(!is_accepted([255, 65, 1, 16_575]));
}

#[test]
fn there_are_as_many_rows_as_ticks() {
    for (stretches, ticks) in [(1, 1), (1, 9), (9, 1), (7, 11), (128, 128)] {
        let all = stretches * ticks;
        assert!(is_accepted([stretches, ticks, 1, all]));
        let others = [
            0,
            1,
            all - 1,
            all + 1,
            all + ticks,
            all + stretches,
            2 * all,
        ];
        for length in others.into_iter().filter(|length| *length != all) {
            assert!(!is_accepted([stretches, ticks, 1, length]), "{length}");
        }
    }
}

#[test]
fn no_product_is_too_great() {
    let half = 1usize << 63;
    // 3 × 6,148,914,691,236,517,206 is 2^64 + 2; 255 × 72,340,172,838,076,674 is
    // 2^64 + 254; 2 × (2^63 + 3) is 2^64 + 6; (2^64 − 1)² is 2^64 × (2^64 − 2) + 1.
    for (stretches, ticks, lowest_bits) in [
        (3, 6_148_914_691_236_517_206, 2),
        (255, 72_340_172_838_076_674, 254),
        (2, half + 3, 6),
        (2, half, 0),
        (128, 1 << 57, 0),
        (half, 2, 0),
        (half + 3, 2, 6),
        (1 << 32, 1 << 32, 0),
        (usize::MAX, usize::MAX, 1),
    ] {
        assert_eq!(stretches.wrapping_mul(ticks), lowest_bits);
        for window in [0, 1, ticks, usize::MAX] {
            for length in [lowest_bits, 1, 16_384] {
                assert!(!is_accepted([stretches, ticks, window, length]));
            }
        }
    }
    assert!(!is_accepted([1, usize::MAX, 1, 0]));
    assert!(!is_accepted([255, usize::MAX, usize::MAX, 255]));
}

/// A question of up to 5 stretches of up to 6 ticks, with two or three rows.
fn small_question(rng: &mut Rng) -> Question {
    let [stretches, ticks] = [5, 6].map(|most| 1 + rng.below(most));
    let most_rows = 2 + rng.below(2);
    let rows = (0..stretches * ticks).map(|_| rng.below(most_rows) as u8);
    let rows = rows.collect();
    let window = 1 + rng.below(ticks);
    Question {
        rows,
        stretches,
        ticks,
        window,
        threshold: rng.below(window + 1),
    }
}

/// c of a stretch at a tick, by the remainder of each tick.
fn count_by_remainder(question: &Question, tick: usize, stretch: usize) -> usize {
    let row = |stretch: usize, step: usize| {
        question.rows[stretch * question.ticks + (tick + step) % question.ticks]
    };
    let differs = |other: usize| {
        let steps = 0..question.window;
        steps
            .filter(|step| row(stretch, *step) != row(other, *step))
            .count()
    };
    let others = 0..question.stretches;
    others
        .filter(|other| differs(*other) <= question.threshold)
        .count()
}

#[test]
fn counts_are_those_by_the_remainder_of_each_tick() {
    let mut rng = Rng::new(1);
    for _ in 0..2_000 {
        let question = small_question(&mut rng);
        let by_remainder = (0..question.ticks).map(|tick| {
            let stretches = 0..question.stretches;
            let counts = stretches.map(|stretch| count_by_remainder(&question, tick, stretch));
            counts.collect::<Vec<_>>()
        });
        let by_remainder: Vec<Vec<usize>> = by_remainder.collect();
        assert_eq!(counts_by_tick(&question), by_remainder, "{question:?}");
    }
}

#[test]
fn what_leaves_the_meter_as_it_is() {
    let mut rng = Rng::new(2);
    for _ in 0..2_000 {
        let question = small_question(&mut rng);
        let ticks = question.ticks;
        let with = |rows: Vec<u8>| Question {
            rows,
            ..question.clone()
        };
        let expected = reading(&question);
        // Every stretch begins a few ticks later.
        let mut rows = question.rows.clone();
        let later = rng.below(ticks);
        let stretches = rows.chunks_exact_mut(ticks);
        stretches.for_each(|stretch| stretch.rotate_left(later));
        assert_eq!(reading(&with(rows)), expected, "{later} {question:?}");
        // Other stretches come first.
        let mut rows = question.rows.clone();
        rows.rotate_left(ticks * rng.below(question.stretches));
        assert_eq!(reading(&with(rows)), expected, "{question:?}");
        // The rows have other numbers.
        let rows = question.rows.iter().map(|row| 255 - 100 * row);
        assert_eq!(reading(&with(rows.collect())), expected);
        // One more tick may differ: never more mixed.
        let looser = Question {
            threshold: question.threshold + 1,
            ..question.clone()
        };
        assert!(reading(&looser) <= expected, "{question:?}");
    }
}

/// A product of any size, its lowest 32 bits first.
#[derive(PartialEq, Eq)]
struct Product(Vec<u32>);

impl Product {
    fn of(factors: impl Iterator<Item = usize>) -> Self {
        let mut words = vec![1];
        for factor in factors {
            let mut carry = 0;
            for word in &mut words {
                carry += u64::from(*word) * factor as u64;
                *word = carry as u32;
                carry >>= 32;
            }
            words.extend((carry > 0).then_some(carry as u32));
        }
        Product(words)
    }
}

impl Ord for Product {
    fn cmp(&self, other: &Self) -> Ordering {
        let by_length = self.0.len().cmp(&other.0.len());
        by_length.then_with(|| self.0.iter().rev().cmp(other.0.iter().rev()))
    }
}

impl PartialOrd for Product {
    fn partial_cmp(&self, other: &Self) -> Option<Ordering> {
        Some(self.cmp(other))
    }
}

#[test]
fn products_are_compared_by_size() {
    let power = |base, exponent| Product::of(repeat_n(base, exponent));
    assert!(power(3, 12) == power(9, 6));
    assert!(power(2, 100) == power(16, 25));
    // 3^12 is 531,441 and 2^19 is 524,288; and so for their powers.
    for times in 1..20 {
        assert!(power(2, 19 * times) < power(3, 12 * times));
        assert!(power(3, 12 * times) < power(2, 20 * times));
    }
    assert!(power(2, 31) < power(2, 32) && power(2, 32) < power(2, 33));
}

/// Whether a number is within K × L of the exact sum of eight times the logarithm of
/// K/c: two to its power times all c to the eighth, beside K to the eighth for
/// each of them.
fn is_near(question: &Question, sum: u64) -> bool {
    let counts = counts(question, interval);
    let all = counts.len();
    let eighths = |numbers: &[usize]| -> Vec<usize> {
        let each = numbers.iter();
        each.flat_map(|number| repeat_n(*number, 8)).collect()
    };
    let least = eighths(&counts);
    let most = eighths(&vec![question.stretches; all]);
    let product = |factors: &[usize], twos: usize| {
        Product::of(factors.iter().copied().chain(repeat_n(2, twos)))
    };
    let sum = sum as usize;
    product(&least, sum) <= product(&most, all) && product(&most, 0) <= product(&least, sum + all)
}

#[test]
fn the_meter_is_near_the_exact_sum() {
    let mut rng = Rng::new(3);
    for _ in 0..1_000 {
        let question = small_question(&mut rng);
        let sum = reading(&question);
        assert!(is_near(&question, sum), "{question:?}");
        // As much again beyond both sides is too far.
        let all = question.rows.len() as u64;
        assert!(!is_near(&question, sum + 2 * all + 1), "{question:?}");
        if let Some(less) = sum.checked_sub(2 * all + 1) {
            assert!(!is_near(&question, less), "{question:?}");
        }
    }
    for question in [most_mixed(181, 2, 1), most_mixed(255, 3, 2)] {
        assert!(is_near(&question, reading(&question)));
    }
}
