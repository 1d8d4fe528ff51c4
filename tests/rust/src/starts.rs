//! Opinions and starts, for the tool that makes them on records of any content: how
//! often each sort is reached.

use std::fmt;

use crate::table::{Kind, Opinion, Refusal};
use crate::tally::Among;

/// A start of a table, on a record that was sound or was not.
struct Start<'a> {
    opinion: &'a Result<Opinion, Refusal>,
    was_sound: bool,
}

impl Start<'_> {
    fn is_kind(&self, kind: Kind) -> bool {
        let opinion = self.opinion.as_ref();
        opinion.is_ok_and(|opinion| opinion.kind == kind)
    }

    fn is_refused_with(&self, number: u32) -> bool {
        let refusal = self.opinion.as_ref().err();
        refusal.is_some_and(|refusal| refusal.number == number)
    }

    fn is_refused(&self) -> bool {
        self.opinion.is_err()
    }
}

/// A sort of starts: which they are, and of how many calls there must be one.
struct Sort {
    name: &'static str,
    one_in: u64,
    has: fn(&Start) -> bool,
}

const fn sort(name: &'static str, one_in: u64, has: fn(&Start) -> bool) -> Sort {
    Sort { name, one_in, has }
}

const SORTS: [Sort; 12] = [
    sort("loose", 500, |start| start.is_kind(Kind::Loose)),
    sort("tight", 3_000, |start| start.is_kind(Kind::Tight)),
    sort("mixed", 400, |start| start.is_kind(Kind::Mixed)),
    sort("refused with 1", 2_000, |start| start.is_refused_with(1)),
    sort("refused with 2", 2_000, |start| start.is_refused_with(2)),
    sort("refused with 3", 200, |start| start.is_refused_with(3)),
    sort("refused with 4", 20_000, |start| start.is_refused_with(4)),
    sort("of a V below 0 in an admitted table", 400, |start| {
        let opinion = start.opinion.as_ref();
        opinion.is_ok_and(|opinion| opinion.budgets.iter().any(|v| *v < 0))
    }),
    sort("of 16 admitted rows", 1_500, |start| {
        let opinion = start.opinion.as_ref();
        opinion.is_ok_and(|opinion| opinion.budgets.len() == 16)
    }),
    sort(
        "refused over a sound record, which stays sound",
        500,
        |start| start.is_refused() && start.was_sound,
    ),
    sort("refused over another record", 500, |start| {
        start.is_refused() && !start.was_sound
    }),
    sort("accepted over a sound record", 1_000, |start| {
        !start.is_refused() && start.was_sound
    }),
];

/// How many starts are of each sort; each comes with an opinion on the same table.
#[derive(Clone, Copy, Debug, Default)]
pub struct StartTally {
    starts: u64,
    counts: [u64; SORTS.len()],
}

impl StartTally {
    /// Counts a start on a record, by the opinion on its table.
    pub fn add(&mut self, opinion: &Result<Opinion, Refusal>, was_sound: bool) {
        let start = Start { opinion, was_sound };
        self.starts += 1;
        for (count, sort) in self.counts.iter_mut().zip(&SORTS) {
            *count += u64::from((sort.has)(&start));
        }
    }

    /// Which sorts are too rare among so many calls.
    pub fn gaps(&self, calls: u64) -> Vec<String> {
        let counts = self.counts.into_iter().zip(&SORTS);
        let gaps = counts.filter_map(|(count, sort)| {
            let what = format!("starts are {}", sort.name);
            Among::Calls(calls).gap(count, [1, sort.one_in], &what)
        });
        gaps.map(|gap| format!("too rare: {gap}")).collect()
    }
}

impl fmt::Display for StartTally {
    fn fmt(&self, formatter: &mut fmt::Formatter) -> fmt::Result {
        let counts = self.counts.iter().zip(&SORTS);
        let counts = counts.map(|(count, sort)| format!("{count} {}", sort.name));
        write!(
            formatter,
            "of {} starts, each with an opinion, {}",
            self.starts,
            counts.collect::<Vec<_>>().join(", ")
        )
    }
}
