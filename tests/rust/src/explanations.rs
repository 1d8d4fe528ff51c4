//! What explanations tell, for the tools, which count it.

use std::fmt;

use crate::draws::{Draw, Drawn};
use crate::explanation::{Cause, Explanation, JobPart, IDLE_PART};
use crate::session::Session;
use crate::table::{budgets, Kind, ROW_LIMIT};
use crate::tally::Among;

/// An explanation, and what it is of.
pub struct Told<'a> {
    kind: Kind,
    explanation: &'a Explanation,
    drawn: Drawn<'a>,
    /// Whether a job has a budget above V, and its row is not brittle.
    has_more_than_v: bool,
}

impl<'a> Told<'a> {
    /// The explanation of this sound session with these words.
    pub fn new(session: &Session, words: &'a [u32], explanation: &'a Explanation) -> Self {
        Told {
            kind: session.kind,
            explanation,
            drawn: Drawn::new(session, words),
            has_more_than_v: has_more_than_v(session),
        }
    }

    fn is(&self, kind: Kind, cause: Cause) -> bool {
        self.kind == kind && self.explanation.cause == cause
    }

    fn jobs(&self) -> &[JobPart] {
        &self.explanation.jobs
    }

    fn has_job(&self, such: impl Fn(&JobPart) -> bool) -> bool {
        self.jobs().iter().any(such)
    }

    fn chosen_idle(&self) -> bool {
        self.explanation.chosen == IDLE_PART
    }

    fn candidates(&self) -> usize {
        let candidates = self.jobs().iter().filter(|job| job.is_candidate);
        candidates.count()
    }

    /// Whether no budget holds this job back.
    fn is_free(&self, job: &JobPart) -> bool {
        let head_can_wait = self.jobs().first().is_some_and(|head| head.budget > 0);
        let mut earlier = self.jobs().iter().filter(|other| other.due < job.due);
        head_can_wait && earlier.all(|other| other.budget > 0)
    }

    /// Whether the brittle deadline alone holds a job back.
    fn is_held_by_brittle(&self) -> bool {
        let is_late = |job: &JobPart| self.explanation.brittle.is_some_and(|due| due < job.due);
        self.has_job(|job| !job.is_candidate && is_late(job) && self.is_free(job))
    }

    /// Whether a candidate behind the first is due with the brittle deadline.
    fn is_at_brittle(&self) -> bool {
        let mut others = self.jobs().iter().skip(1);
        others.any(|job| job.is_candidate && Some(job.due) == self.explanation.brittle)
    }

    fn has_tie(&self) -> bool {
        let mut pairs = self.jobs().windows(2);
        pairs.any(|pair| pair[0].due == pair[1].due)
    }

    fn passes_in_pick(&self) -> bool {
        self.drawn.pick.as_ref().is_some_and(Draw::passes)
    }

    fn passes_in_span(&self) -> bool {
        self.drawn.span.as_ref().is_some_and(Draw::passes)
    }
}

fn has_more_than_v(session: &Session) -> bool {
    let mut slots = session.slots.iter().zip(budgets(&session.rows));
    slots.any(|(slot, v)| slot.job.is_some_and(|job| v >= 0 && job.budget > v))
}

/// A sort of explanations: its name, of how many inputs of the program and of how many
/// calls of the library there must be one, and which explanations are such.
struct Sort {
    name: &'static str,
    one_in: [u64; 2],
    has: fn(&Told) -> bool,
}

const fn sort(name: &'static str, one_in: [u64; 2], has: fn(&Told) -> bool) -> Sort {
    Sort { name, one_in, has }
}

const SORTS: [Sort; 28] = [
    sort("loose, by remaining ticks", [1, 200], |told| {
        told.is(Kind::Loose, Cause::Remaining)
    }),
    sort("loose, by a word", [2, 400], |told| {
        told.is(Kind::Loose, Cause::Word)
    }),
    sort("loose, for lack of a word", [2, 1_500], |told| {
        told.is(Kind::Loose, Cause::LackOfWord)
    }),
    sort("loose, nothing waits", [2, 1_200], |told| {
        told.is(Kind::Loose, Cause::NothingWaits)
    }),
    sort("tight, by remaining ticks", [3, 1_500], |told| {
        told.is(Kind::Tight, Cause::Remaining)
    }),
    sort("tight, nothing waits", [12, 10_000], |told| {
        told.is(Kind::Tight, Cause::NothingWaits)
    }),
    sort("mixed, by remaining ticks", [1, 120], |told| {
        told.is(Kind::Mixed, Cause::Remaining)
    }),
    sort("mixed, by a word", [12, 1_500], |told| {
        told.is(Kind::Mixed, Cause::Word)
    }),
    sort("mixed, for lack of a word", [40, 6_000], |told| {
        told.is(Kind::Mixed, Cause::LackOfWord)
    }),
    sort("mixed, nothing waits", [2, 1_000], |told| {
        told.is(Kind::Mixed, Cause::NothingWaits)
    }),
    sort("with a word that decided", [1, 120], |told| {
        told.explanation.word.is_some()
    }),
    sort("of the only candidate", [1, 120], |told| {
        told.candidates() == 1 && told.drawn.pick.is_none()
    }),
    sort("of several candidates without a word", [1, 500], |told| {
        told.drawn.pick.is_some() && told.explanation.word.is_none()
    }),
    sort(
        "of several candidates with no word but passed over ones",
        [10, 4_000],
        |told| told.passes_in_pick() && told.explanation.word.is_none(),
    ),
    sort(
        "with words passed over before the one that decided",
        [6, 800],
        |told| told.passes_in_pick() && told.explanation.word.is_some(),
    ),
    sort("with words passed over for the span", [4, 1_500], |told| {
        told.passes_in_span()
    }),
    sort("of idle by a word", [2, 700], |told| {
        told.chosen_idle() && told.explanation.word.is_some()
    }),
    sort("of idle for lack of a word", [10, 3_000], |told| {
        told.chosen_idle() && told.explanation.cause == Cause::LackOfWord
    }),
    sort("of 16 waiting jobs", [8, 3_000], |told| {
        told.jobs().len() == ROW_LIMIT
    }),
    sort("of 16 candidates", [16, 6_000], |told| {
        told.candidates() == ROW_LIMIT
    }),
    sort(
        "of jobs that the brittle deadline alone holds back",
        [4, 700],
        |told| told.is_held_by_brittle(),
    ),
    sort(
        "of a candidate due with the brittle deadline",
        [30, 4_000],
        |told| told.is_at_brittle(),
    ),
    sort(
        "with a spent budget that holds others back",
        [3, 700],
        |told| {
            told.kind == Kind::Loose
                && told.has_job(|job| job.budget == 0)
                && told.has_job(|job| !job.is_candidate)
        },
    ),
    sort(
        "with a spent budget of one that is held back itself",
        [50, 1_600],
        |told| told.kind == Kind::Loose && told.has_job(|job| job.budget == 0 && !job.is_candidate),
    ),
    sort(
        "with a spent budget behind a head that is not",
        [8, 320],
        |told| {
            let spent = told.has_job(|job| job.budget == 0 && job.is_candidate);
            spent && told.jobs()[0].budget > 0
        },
    ),
    sort("of a budget above V", [1, 100], |told| told.has_more_than_v),
    sort("of equal deadlines", [1, 130], |told| told.has_tie()),
    sort("of a deadline of 10 digits or more", [40, 160], |told| {
        told.has_job(|job| job.due >= 1_000_000_000)
    }),
];

/// How many explanations are of each sort.
#[derive(Clone, Copy, Debug, Default)]
pub struct ExplanationTally {
    explanations: u64,
    counts: [u64; SORTS.len()],
}

impl ExplanationTally {
    pub fn add(&mut self, told: &Told) {
        self.explanations += 1;
        for (count, sort) in self.counts.iter_mut().zip(&SORTS) {
            *count += u64::from((sort.has)(told));
        }
    }

    pub fn merge(&mut self, other: &ExplanationTally) {
        self.explanations += other.explanations;
        for (sum, count) in self.counts.iter_mut().zip(other.counts) {
            *sum += count;
        }
    }

    /// The sorts of which there is an explanation.
    pub fn reached(&self) -> Vec<&'static str> {
        let counts = self.counts.iter().zip(&SORTS);
        let reached = counts.filter(|(count, _)| **count > 0);
        reached.map(|(_, sort)| sort.name).collect()
    }

    /// Which sorts are too rare.
    pub fn gaps(&self, among: Among) -> Vec<String> {
        let counts = self.counts.into_iter().zip(&SORTS);
        let gaps = counts.filter_map(|(count, sort)| {
            let what = format!("explanations are {}", sort.name);
            among.gap(count, sort.one_in, &what)
        });
        gaps.map(|gap| format!("too rare: {gap}")).collect()
    }
}

impl fmt::Display for ExplanationTally {
    fn fmt(&self, formatter: &mut fmt::Formatter) -> fmt::Result {
        let counts = self.counts.iter().zip(&SORTS);
        let counts = counts.map(|(count, sort)| format!("{count} {}", sort.name));
        write!(
            formatter,
            "of {} explanations {}",
            self.explanations,
            counts.collect::<Vec<_>>().join(", ")
        )
    }
}

/// The refusals of an explanation.
const REFUSALS: [u64; 3] = [5, 8, 15];
/// Of so many calls one must be refused with each of them, and of so many one with each
/// that comes before 15 though the buffer is too short.
const REFUSED_ONE_IN: [u64; 3] = [200, 500, 100];
const BEFORE_15_ONE_IN: u64 = 2_000;

/// How many explanations of the library are accepted, by sort, and how many refused.
#[derive(Clone, Copy, Debug, Default)]
pub struct ExplanationCalls {
    accepted: ExplanationTally,
    refused: [u64; REFUSALS.len()],
    /// Those with a buffer that is too short.
    short: [u64; REFUSALS.len()],
}

impl ExplanationCalls {
    pub fn add_accepted(&mut self, told: &Told) {
        self.accepted.add(told);
    }

    pub fn add_refused(&mut self, number: u64, is_short: bool) {
        let place = REFUSALS.iter().position(|refusal| *refusal == number);
        let place = place.expect("an explanation has no other refusal");
        self.refused[place] += 1;
        self.short[place] += u64::from(is_short);
    }

    /// How many calls there were.
    pub fn calls(&self) -> u64 {
        self.accepted.explanations + self.refused.iter().sum::<u64>()
    }

    /// Which sorts are too rare among so many calls of the library.
    pub fn gaps(&self, calls: u64) -> Vec<String> {
        let among = Among::Calls(calls);
        let mut gaps = self.accepted.gaps(among);
        for (place, number) in REFUSALS.into_iter().enumerate() {
            let what = format!("explanations are refused with {number}");
            let one_in = [1, REFUSED_ONE_IN[place]];
            gaps.extend(among.gap(self.refused[place], one_in, &what));
            let what = format!("{what}, with a short buffer");
            gaps.extend(among.gap(self.short[place], [1, BEFORE_15_ONE_IN], &what));
        }
        gaps
    }
}

impl fmt::Display for ExplanationCalls {
    fn fmt(&self, formatter: &mut fmt::Formatter) -> fmt::Result {
        let refused = REFUSALS.iter().zip(self.refused).zip(self.short);
        let refused = refused.map(|((number, count), short)| {
            format!("{count} are refused with {number}, {short} of them with a short buffer")
        });
        write!(
            formatter,
            "of {} calls for an explanation {}; {}",
            self.calls(),
            refused.collect::<Vec<_>>().join(", "),
            self.accepted
        )
    }
}
