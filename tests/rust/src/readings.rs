//! Questions to the meter with their answers: for the tools, which count how often
//! they ask one that a wrong rule would answer otherwise.

use std::collections::BTreeSet;
use std::fmt;
use std::mem::swap;

use crate::calls::Answer;
use crate::meter::{
    add_up, counts, interval, meter, Clause, Interval, Question, STRETCH_LIMIT, TICK_LIMIT,
};
use crate::tally::too_rare;

/// Wrong rules are tried on accepted questions that compare up to so many ticks,
/// since each takes as long as the model.
const TRIED: usize = 1 << 17;

/// NOT the product's rule: an interval stops at the end of its stretch.
fn wrong_interval_that_stops(question: &Question, stretch: usize, tick: usize) -> Interval<'_> {
    let [up_to_end, _] = interval(question, stretch, tick);
    [up_to_end, &[]]
}

/// NOT the product's rule: an interval goes on in the next stretch.
fn wrong_interval_that_goes_on(question: &Question, stretch: usize, tick: usize) -> Interval<'_> {
    let [up_to_end, around] = interval(question, stretch, tick);
    let next = (stretch + 1) % question.stretches;
    let rows = &question.rows[next * question.ticks..];
    [up_to_end, &rows[..around.len()]]
}

/// A question with its answer.
#[derive(Clone, Debug)]
pub struct Reading<'a> {
    question: &'a Question,
    pub answer: Answer,
    broken: Vec<Clause>,
    /// Every c of an accepted question.
    counts: Vec<usize>,
}

impl<'a> Reading<'a> {
    pub fn new(question: &'a Question) -> Self {
        let broken = question.broken();
        let counts = broken.is_empty().then(|| counts(question, interval));
        Reading {
            question,
            answer: meter(question),
            broken,
            counts: counts.unwrap_or_default(),
        }
    }

    /// Whether it is accepted and such.
    fn is_accepted(&self, such: fn(&Question) -> bool) -> bool {
        self.broken.is_empty() && such(self.question)
    }

    /// Whether it is refused for this clause alone, and such.
    fn breaks_only(&self, clause: Clause, such: fn(&Question) -> bool) -> bool {
        self.broken == [clause] && such(self.question)
    }

    /// Whether wrong rules are tried on it.
    fn is_tried(&self) -> bool {
        self.is_accepted(|question| {
            question.stretches * question.rows.len() * question.window <= TRIED
        })
    }

    /// Whether these c would lead to another sum.
    fn differs(&self, counts: &[usize]) -> bool {
        add_up(self.question.stretches, counts) != self.answer.values[0]
    }

    /// Whether these intervals would.
    fn differs_by(&self, interval: fn(&Question, usize, usize) -> Interval<'_>) -> bool {
        self.is_tried() && self.differs(&counts(self.question, interval))
    }

    /// Whether a question that is changed so would be accepted with another sum.
    fn differs_with(&self, change: fn(&mut Question)) -> bool {
        if !self.is_tried() {
            return false;
        }
        let mut other = self.question.clone();
        change(&mut other);
        let other = meter(&other);
        other.number == 0 && other != self.answer
    }

    /// Whether the sum would be another one if a stretch did not count itself. A g(0)
    /// is taken as 0.
    fn differs_without_itself(&self) -> bool {
        let others = self.counts.iter().map(|count| (count - 1).max(1));
        self.is_tried() && self.differs(&others.collect::<Vec<_>>())
    }

    /// Whether it is accepted and every c is such.
    fn all_counts(&self, such: fn(usize, &Question) -> bool) -> bool {
        let mut counts = self.counts.iter();
        self.broken.is_empty() && counts.all(|count| such(*count, self.question))
    }

    /// The n of which g(n) decides the answer: K and every c. If all c are K, none
    /// does.
    fn logarithms(&self) -> BTreeSet<usize> {
        let counts = self.counts.iter().copied();
        let mut numbers: BTreeSet<usize> = counts.collect();
        numbers.insert(self.question.stretches);
        if !self.broken.is_empty() || numbers.len() == 1 {
            numbers.clear();
        }
        numbers
    }
}

/// Whether all stretches of an accepted question are equal.
pub fn has_equal_stretches(question: &Question) -> bool {
    let mut stretches = question.rows.chunks_exact(question.ticks);
    let first = stretches.next();
    stretches.all(|stretch| Some(stretch) == first)
}

/// A sort of questions: what they do, of how many one must be of this sort, and
/// which are.
struct Sort {
    name: &'static str,
    one_in: u64,
    has: fn(&Reading) -> bool,
}

const fn sort(name: &'static str, one_in: u64, has: fn(&Reading) -> bool) -> Sort {
    Sort { name, one_in, has }
}

/// What the answer depends on: by another rule it would be another one.
const DEPENDING: [Sort; 8] = [
    sort("depend on the way around the end", 10, |reading| {
        reading.differs_by(wrong_interval_that_stops)
    }),
    sort("depend on whose end it is", 15, |reading| {
        reading.differs_by(wrong_interval_that_goes_on)
    }),
    sort("depend on the threshold itself", 10, |reading| {
        reading.question.threshold > 0 && reading.differs_with(|other| other.threshold -= 1)
    }),
    sort("depend on what is beyond it", 6, |reading| {
        reading.differs_with(|other| other.threshold = other.threshold.saturating_add(1))
    }),
    sort("depend on its bits from 2^32 on", 150, |reading| {
        reading.differs_with(|other| other.threshold = other.threshold as u32 as usize)
    }),
    sort("depend on a stretch counting itself", 3, |reading| {
        reading.differs_without_itself()
    }),
    sort("depend on which number is K", 4, |reading| {
        reading.differs_with(|other| {
            swap(&mut other.stretches, &mut other.ticks);
            other.window = other.window.min(other.ticks);
        })
    }),
    sort("depend on the rows above 16", 12, |reading| {
        reading.differs_with(|other| other.rows.iter_mut().for_each(|row| *row = 16.min(*row)))
    }),
];

const ACCEPTED: [Sort; 15] = [
    sort("are accepted", 2, |reading| reading.is_accepted(|_| true)),
    sort("have a c between 1 and K", 5, |reading| {
        let between = 2..reading.question.stretches;
        reading.counts.iter().any(|count| between.contains(count))
    }),
    sort("have c 1 for several stretches", 80, |reading| {
        reading.all_counts(|count, question| count == 1 && question.stretches > 1)
    }),
    sort("have equal stretches", 12, |reading| {
        reading.is_accepted(|question| question.stretches > 1 && has_equal_stretches(question))
    }),
    sort("have different ones that are all alike", 12, |reading| {
        reading.is_accepted(|question| !has_equal_stretches(question))
            && reading.answer.values[0] == 0
    }),
    sort("have 1 stretch", 60, |reading| {
        reading.is_accepted(|question| question.stretches == 1)
    }),
    sort("have 255 stretches", 80, |reading| {
        reading.is_accepted(|question| question.stretches == STRETCH_LIMIT)
    }),
    sort("have 255 stretches of 64 ticks", 1_000, |reading| {
        reading.is_accepted(|question| [question.stretches, question.ticks] == [255, 64])
    }),
    sort("have stretches of 1 tick", 30, |reading| {
        reading.is_accepted(|question| question.ticks == 1)
    }),
    sort("have 16,384 ticks in all", 100, |reading| {
        reading.is_accepted(|question| question.rows.len() == TICK_LIMIT)
    }),
    sort("have intervals of 1 of several ticks", 10, |reading| {
        reading.is_accepted(|question| question.window == 1 && question.ticks > 1)
    }),
    sort("have intervals of all of several ticks", 12, |reading| {
        reading.is_accepted(|question| question.window == question.ticks && question.ticks > 1)
    }),
    sort("have the threshold 0", 5, |reading| {
        reading.is_accepted(|question| question.threshold == 0)
    }),
    sort("have the threshold m − 1", 8, |reading| {
        reading.is_accepted(|question| question.threshold == question.window - 1)
    }),
    sort("have m or a greater threshold", 15, |reading| {
        reading.is_accepted(|question| question.threshold >= question.window)
    }),
];

/// What is refused; for one reason alone, but for the last two.
const REFUSED: [Sort; 9] = [
    sort("have no stretch", 100, |reading| {
        reading.breaks_only(Clause::Stretches, |question| question.stretches == 0)
    }),
    sort("have 256 stretches", 300, |reading| {
        reading.breaks_only(Clause::Stretches, |question| question.stretches == 256)
    }),
    sort("have m 0", 300, |reading| {
        reading.breaks_only(Clause::Window, |question| {
            question.window == 0 && question.ticks > 0
        })
    }),
    sort("have m one above L", 300, |reading| {
        reading.breaks_only(Clause::Window, |question| {
            question.window == question.ticks + 1 && question.ticks > 0
        })
    }),
    sort("have 16,385 ticks in all", 100, |reading| {
        reading.breaks_only(Clause::Ticks, |question| {
            question.rows.len() == TICK_LIMIT + 1
        })
    }),
    sort("lack one row", 300, |reading| {
        reading.breaks_only(Clause::Length, |question| {
            question.rows.len() + 1 == question.stretches * question.ticks
        })
    }),
    sort("have one row too many", 300, |reading| {
        reading.breaks_only(Clause::Length, |question| {
            question.rows.len() == question.stretches * question.ticks + 1
        })
    }),
    sort("have stretches of 0 ticks", 100, |reading| {
        reading.question.ticks == 0
    }),
    sort(
        "have as many rows as the lowest bits of K × L",
        100,
        |reading| {
            let Question {
                rows,
                stretches,
                ticks,
                ..
            } = reading.question;
            reading.broken == [Clause::Ticks, Clause::Length]
                && rows.len() == stretches.wrapping_mul(*ticks)
        },
    ),
];

const SORTS: usize = DEPENDING.len() + ACCEPTED.len() + REFUSED.len();

fn sorts() -> impl Iterator<Item = &'static Sort> {
    DEPENDING.iter().chain(&ACCEPTED).chain(&REFUSED)
}

/// How many questions are of each sort.
#[derive(Clone, Debug)]
pub struct ReadingTally {
    questions: u64,
    counts: [u64; SORTS],
    /// Those whose answer g(n) decides, by n less 1.
    logarithms: [u64; STRETCH_LIMIT],
}

impl Default for ReadingTally {
    fn default() -> Self {
        ReadingTally {
            questions: 0,
            counts: [0; SORTS],
            logarithms: [0; STRETCH_LIMIT],
        }
    }
}

impl ReadingTally {
    pub fn add(&mut self, reading: &Reading) {
        self.questions += 1;
        for (count, sort) in self.counts.iter_mut().zip(sorts()) {
            *count += u64::from((sort.has)(reading));
        }
        for n in reading.logarithms() {
            self.logarithms[n - 1] += 1;
        }
    }

    /// Which sorts are too rare, and which logarithms did not decide.
    pub fn gaps(&self) -> Vec<String> {
        let counts = self.counts.iter().zip(sorts());
        let counts: Vec<_> = counts
            .map(|(count, sort)| (*count, sort.one_in, sort.name))
            .collect();
        let logarithms = (1..).zip(self.logarithms).filter(|(_, count)| *count == 0);
        let logarithms = logarithms.map(|(n, _)| format!("g({n}) decided no answer"));
        too_rare(self.questions, &counts)
            .into_iter()
            .chain(logarithms)
            .collect()
    }
}

impl fmt::Display for ReadingTally {
    fn fmt(&self, formatter: &mut fmt::Formatter) -> fmt::Result {
        let sorts = self.counts.iter().zip(sorts());
        let sorts = sorts.map(|(count, sort)| format!("{count} {}", sort.name));
        let decide = self.logarithms.iter().filter(|count| **count > 0);
        write!(
            formatter,
            "of {} questions {}; {} of the {STRETCH_LIMIT} logarithms decide an answer, each at least {} times",
            self.questions,
            sorts.collect::<Vec<_>>().join(", "),
            decide.count(),
            self.logarithms.iter().min().unwrap_or(&0)
        )
    }
}
