//! How mixed a schedule is: the meter, which compares every interval tick by tick.

use std::iter::{successors, zip};

use crate::calls::Answer;

/// Most stretches.
pub const STRETCH_LIMIT: usize = 255;
/// Most ticks of all stretches together.
pub const TICK_LIMIT: usize = 16_384;

/// What the meter is asked.
#[derive(Clone, Debug, PartialEq, Eq)]
pub struct Question {
    /// A row number per tick, one stretch after another.
    pub rows: Vec<u8>,
    /// K.
    pub stretches: usize,
    /// L, the ticks of one stretch.
    pub ticks: usize,
    /// m, the length of an interval.
    pub window: usize,
    /// In so many ticks intervals may differ and still count as alike.
    pub threshold: usize,
}

/// The parts of the rule that a question must keep.
#[derive(Clone, Copy, Debug, PartialEq, Eq)]
pub enum Clause {
    /// K is from 1 to 255.
    Stretches,
    /// m is from 1 to L. There is no such m if L is 0.
    Window,
    /// K × L is at most 16,384.
    Ticks,
    /// There are K × L rows.
    Length,
}

impl Question {
    /// The clauses that it breaks.
    pub fn broken(&self) -> Vec<Clause> {
        // Wide enough for the product of any two words.
        let all = self.stretches as u128 * self.ticks as u128;
        let stretches = 1..=STRETCH_LIMIT;
        let windows = 1..=self.ticks;
        let clauses = [
            (Clause::Stretches, stretches.contains(&self.stretches)),
            (Clause::Window, windows.contains(&self.window)),
            (Clause::Ticks, all <= TICK_LIMIT as u128),
            (Clause::Length, self.rows.len() as u128 == all),
        ];
        let broken = clauses.into_iter().filter(|(_, is_kept)| !is_kept);
        broken.map(|(clause, _)| clause).collect()
    }
}

/// The meter: how mixed the schedule is, or refusal 14.
pub fn meter(question: &Question) -> Answer {
    if !question.broken().is_empty() {
        return Answer::refused(14, 0, 0);
    }
    let counts = counts(question, interval);
    Answer::accepted(add_up(question.stretches, &counts), 0)
}

/// The ticks of an interval: up to the end of its stretch, and those around it.
pub type Interval<'a> = [&'a [u8]; 2];

/// The interval of a stretch from a tick on and around the end.
pub fn interval(question: &Question, stretch: usize, tick: usize) -> Interval<'_> {
    let ticks = question.ticks;
    let own = &question.rows[stretch * ticks..][..ticks];
    let end = tick + question.window;
    [
        &own[tick..end.min(ticks)],
        &own[..end.saturating_sub(ticks)],
    ]
}

/// In how many ticks two intervals differ. It is counted in 32 bits, of which the
/// processor adds several at a time.
pub fn differing(one: &Interval, other: &Interval) -> usize {
    let parts = zip(one, other).map(|(one, other)| {
        let ticks = zip(*one, *other);
        ticks
            .map(|(row, other_row)| u32::from(row != other_row))
            .sum::<u32>()
    });
    parts.sum::<u32>() as usize
}

/// c of each stretch, for one tick after another: how many of all stretches, itself
/// among them, have an interval that differs in at most the threshold.
pub fn counts<'a>(
    question: &'a Question,
    interval: fn(&'a Question, usize, usize) -> Interval<'a>,
) -> Vec<usize> {
    let mut counts = Vec::with_capacity(question.rows.len());
    let mut intervals: Vec<Interval> = Vec::with_capacity(question.stretches);
    for tick in 0..question.ticks {
        let stretches = 0..question.stretches;
        intervals.clear();
        intervals.extend(stretches.map(|stretch| interval(question, stretch, tick)));
        counts.extend(intervals.iter().map(|one| {
            let alike = |other: &&Interval| differing(one, other) <= question.threshold;
            intervals.iter().filter(alike).count()
        }));
    }
    counts
}

/// The sum of g(K) − g(c) over these c.
pub fn add_up(stretches: usize, counts: &[usize]) -> u64 {
    let logarithms: Vec<u64> = (1..=stretches).map(logarithm).collect();
    let g = |n: usize| logarithms[n - 1];
    counts.iter().map(|count| g(stretches) - g(*count)).sum()
}

/// g(n): eight times the base-2 logarithm of n, rounded down. The library finds it by
/// counting leading zeros, as `ilog2` does. Here it is sought by its rule: n to the
/// eighth is at least 2 to the power g(n) and below twice that power. n is not 0 and
/// at most 255.
pub fn logarithm(n: usize) -> u64 {
    let eighth = (n as u128).pow(8);
    let mut powers = successors(Some(1u128), |power| power.checked_mul(2));
    let g = powers.position(|power| power <= eighth && eighth < 2 * power);
    g.expect("n is not 0") as u64
}
