//! Random questions to the meter: about schedules whose stretches are alike enough
//! for c to take many values, and of numbers that break its rule.

use std::array::from_fn;
use std::mem::swap;

use crate::meter::{differing, interval, Question, STRETCH_LIMIT, TICK_LIMIT};
use crate::rng::Rng;

/// Of the questions, one in so many is damaged.
const DAMAGED: usize = 4;
/// Most ticks that a question makes the model compare, but for one in `HEAVY`.
const WORK: usize = 1 << 21;
/// Of the questions, one in so many has intervals of any length, whatever that
/// takes.
const HEAVY: usize = 32;

/// The question after so many others: first one for each K from 2 on, then random
/// ones.
pub fn next_question(rng: &mut Rng, asked: u64) -> Question {
    let stretches = asked + 2;
    if stretches <= STRETCH_LIMIT as u64 {
        return one_unlike(stretches as usize);
    }
    let mut question = kept_question(rng);
    if rng.chance(1, DAMAGED) {
        rng.pick(&DAMAGES)(rng, &mut question);
    }
    question
}

/// About stretches of one tick, of which one is unlike the others: c is 1 and K − 1.
/// So each logarithm decides an answer.
fn one_unlike(stretches: usize) -> Question {
    let mut rows = vec![0; stretches];
    rows[stretches / 2] = 1;
    Question {
        rows,
        stretches,
        ticks: 1,
        window: 1,
        threshold: 0,
    }
}

/// A question that keeps the rule.
pub fn kept_question(rng: &mut Rng) -> Question {
    let (stretches, ticks) = random_size(rng);
    let mut question = Question {
        rows: random_rows(rng, stretches, ticks),
        stretches,
        ticks,
        window: random_window(rng, stretches, ticks),
        threshold: 0,
    };
    question.threshold = random_threshold(rng, &question);
    question
}

/// A number of any size from 1 to `most`.
fn up_to(rng: &mut Rng, most: usize) -> usize {
    rng.of_any_size(1, most as u32) as usize
}

/// K and L: small ones most of the time, since comparing takes K² × L steps.
fn random_size(rng: &mut Rng) -> (usize, usize) {
    match rng.below(50) {
        0 => {
            let power = up_to(rng, 8) - 1;
            (1 << power, TICK_LIMIT >> power)
        }
        1 => {
            let stretches = up_to(rng, 24);
            (stretches, up_to(rng, TICK_LIMIT / stretches))
        }
        2 => (1, up_to(rng, 100)),
        3 if rng.chance(1, 8) => (STRETCH_LIMIT, TICK_LIMIT / STRETCH_LIMIT),
        3 => (STRETCH_LIMIT, up_to(rng, 4)),
        4..6 => (100 + rng.below(156), up_to(rng, 4)),
        6..10 => (up_to(rng, 64), up_to(rng, 64)),
        _ => (2 + rng.below(9), 1 + rng.below(20)),
    }
}

fn random_window(rng: &mut Rng, stretches: usize, ticks: usize) -> usize {
    let window = match rng.below(6) {
        0 => 1,
        1 => ticks,
        2 => up_to(rng, ticks),
        _ => 1 + rng.below(ticks),
    };
    if rng.chance(1, HEAVY) {
        return window;
    }
    window.min(1 + WORK / (stretches * stretches * ticks))
}

/// A threshold at or next to the difference of two of the intervals, next to m, or
/// so great that its lowest bits mislead.
fn random_threshold(rng: &mut Rng, question: &Question) -> usize {
    let window = question.window;
    match rng.below(16) {
        0 => 0,
        1 => window - 1,
        2 => rng.pick(&[window, window + 1, 1 << 63, usize::MAX]),
        3 => rng.below(window + 1) + high_bit(rng),
        _ => {
            let pairs: [usize; 3] = from_fn(|_| random_difference(rng, question));
            let greater = pairs[0].max(pairs[1]).max(pairs[2]);
            rng.pick(&[pairs[0], greater, greater])
                .saturating_sub(rng.below(2))
        }
    }
}

/// In how many ticks two of the intervals differ.
fn random_difference(rng: &mut Rng, question: &Question) -> usize {
    let tick = rng.below(question.ticks);
    let [one, other] = from_fn(|_| interval(question, rng.below(question.stretches), tick));
    differing(&one, &other)
}

/// A bit that is lost where a number is kept in too few of them.
fn high_bit(rng: &mut Rng) -> usize {
    1 << rng.pick(&[8, 16, 31, 32, 63])
}

/// How the stretches of a schedule are alike.
#[derive(Clone, Copy, Debug)]
enum Likeness {
    /// All are equal.
    Equal,
    /// Each is the first one with changes; one in so many ticks.
    Changed(usize),
    /// Each is the last one with one tick changed.
    Chain,
    /// Each is a copy of an earlier one; one in so many is new.
    Copies(usize),
    /// Each is the first one, but begins at another tick.
    Rotated,
    /// Each is the first one, but for its first or its last tick.
    Ends,
    /// Not at all.
    Fresh,
}

fn random_likeness(rng: &mut Rng) -> Likeness {
    match rng.below(16) {
        0 => Likeness::Equal,
        1..6 => Likeness::Changed(rng.pick(&[2, 4, 8, 16, 32])),
        6..9 => Likeness::Chain,
        9..12 => Likeness::Copies(rng.pick(&[2, 8, 64])),
        12 => Likeness::Rotated,
        13 => Likeness::Ends,
        _ => Likeness::Fresh,
    }
}

/// The rows of so many stretches that are alike in one way.
fn random_rows(rng: &mut Rng, stretches: usize, ticks: usize) -> Vec<u8> {
    let likeness = random_likeness(rng);
    let numbers = random_numbers(rng);
    alike_rows(rng, likeness, &numbers, [stretches, ticks])
}

/// The rows of so many stretches that go by four row numbers: each is the first one
/// with changes, in about one of so many ticks.
pub fn changed_rows(rng: &mut Rng, stretches: usize, ticks: usize, one_in: usize) -> Vec<u8> {
    let likeness = Likeness::Changed(one_in);
    alike_rows(rng, likeness, &[0, 1, 2, 3], [stretches, ticks])
}

fn alike_rows(
    rng: &mut Rng,
    likeness: Likeness,
    numbers: &[u8],
    [stretches, ticks]: [usize; 2],
) -> Vec<u8> {
    let mut rows: Vec<u8> = (0..ticks).map(|_| rng.pick(numbers)).collect();
    for _ in 1..stretches {
        let stretch = next_stretch(rng, likeness, numbers, &rows, ticks);
        rows.extend(stretch);
    }
    rows
}

/// A stretch that is like those before it.
fn next_stretch(
    rng: &mut Rng,
    likeness: Likeness,
    numbers: &[u8],
    before: &[u8],
    ticks: usize,
) -> Vec<u8> {
    let first = &before[..ticks];
    let mut stretch = match likeness {
        Likeness::Chain => before[before.len() - ticks..].to_vec(),
        Likeness::Copies(_) => {
            let earlier = rng.below(before.len() / ticks);
            before[earlier * ticks..][..ticks].to_vec()
        }
        _ => first.to_vec(),
    };
    let changed: Vec<usize> = match likeness {
        Likeness::Changed(one_in) => (0..ticks).filter(|_| rng.chance(1, one_in)).collect(),
        Likeness::Chain => vec![rng.below(ticks)],
        Likeness::Ends => vec![rng.pick(&[0, ticks - 1])],
        Likeness::Copies(one_in) if rng.chance(1, one_in) => (0..ticks).collect(),
        Likeness::Fresh => (0..ticks).collect(),
        _ => Vec::new(),
    };
    for tick in changed {
        stretch[tick] = rng.pick(numbers);
    }
    if let Likeness::Rotated = likeness {
        stretch.rotate_left(rng.below(ticks));
    }
    stretch
}

/// The row numbers of a schedule: mostly few, so that many ticks are equal.
fn random_numbers(rng: &mut Rng) -> Vec<u8> {
    let byte = rng.draw() as u8;
    match rng.below(8) {
        0 => (0..=255).collect(),
        1 => (0..=16).collect(),
        2 => vec![16, 255],
        // They differ in one bit.
        3 => vec![byte, byte ^ (1 << rng.below(8))],
        4 => (0..4).map(|_| rng.draw() as u8).collect(),
        _ => (0..2 + rng.below(3) as u8).collect(),
    }
}

/// Ways to break the rule. Some of them leave a question that keeps it now and then.
const DAMAGES: [fn(&mut Rng, &mut Question); 11] = [
    // No stretch, about 256 of them, and none with a tick.
    |_, question| resize(question, 0, question.ticks),
    |rng, question| resize(question, 255 + rng.below(3), up_to(rng, 64)),
    |_, question| resize(question, question.stretches, 0),
    // A wrong length of intervals.
    |rng, question| {
        let above = question.ticks + 1;
        question.window = rng.pick(&[0, 0, above, above, above + 1, usize::MAX]);
    },
    // 16,385 ticks, which is 5 × 29 × 113, and as few too many as K allows.
    |rng, question| {
        let stretches = rng.pick(&[1, 5, 29, 113, 145]);
        resize(question, stretches, (TICK_LIMIT + 1) / stretches);
    },
    |rng, question| {
        let ticks = TICK_LIMIT / question.stretches + rng.below(3);
        resize(question, question.stretches, ticks);
    },
    change_length,
    // K and L exchanged.
    |_, question| {
        swap(&mut question.stretches, &mut question.ticks);
        question.window = question.window.min(question.ticks);
    },
    overflow,
    // A number that is right but for a high bit, and numbers next to any limit.
    |rng, question| {
        let bit = high_bit(rng);
        *some_number(rng, question) += bit;
    },
    |rng, question| {
        let limits = [0, 1, 255, 16_384, 1 << 32, 1 << 63];
        for _ in 0..2 {
            *some_number(rng, question) = rng.around(&limits) as usize;
        }
    },
];

/// Sets K and L. There are as many rows as they say, and intervals as long as may be.
fn resize(question: &mut Question, stretches: usize, ticks: usize) {
    question.stretches = stretches;
    question.ticks = ticks;
    question.rows.resize(stretches * ticks, 0);
    question.window = question.window.min(ticks).max(1);
}

/// One of K, L and m.
fn some_number<'a>(rng: &mut Rng, question: &'a mut Question) -> &'a mut usize {
    match rng.below(3) {
        0 => &mut question.stretches,
        1 => &mut question.ticks,
        _ => &mut question.window,
    }
}

fn change_length(rng: &mut Rng, question: &mut Question) {
    let length = question.rows.len();
    let other = match rng.below(6) {
        0 | 1 => length - 1,
        2 | 3 => length + 1,
        4 => length + question.ticks,
        _ => rng.below(2 * length + 1),
    };
    question.rows.resize(other, 0);
}

/// Makes K × L greater than any word, and the number of rows what is left of it
/// without the bits beyond a word.
fn overflow(rng: &mut Rng, question: &mut Question) {
    let stretches = 2 + rng.below(STRETCH_LIMIT - 1);
    let beyond = 1 + rng.below(stretches - 1) as u128;
    let product = (beyond << usize::BITS) + rng.below(1_000) as u128;
    question.stretches = stretches;
    // Rounded up, so that the product stays as great.
    question.ticks = product.div_ceil(stretches as u128) as usize;
    let left = stretches.wrapping_mul(question.ticks);
    question.rows.resize(left, 0);
}
