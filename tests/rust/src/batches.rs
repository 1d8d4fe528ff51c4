//! Batches, which let a list of rows arrive in one call: for the tools, which
//! count how often they reach one that a wrong rule would answer otherwise.

use std::fmt;

use crate::session::Session;

/// A batch after its call.
#[derive(Clone, Copy, Debug)]
pub struct Batch<'a> {
    /// The session before the call, unless it was unsound.
    pub session: Option<&'a Session>,
    /// The row of each record, and the number of its answer.
    pub records: &'a [(u64, u64)],
}

impl Batch<'_> {
    fn length(&self) -> usize {
        self.records.len()
    }

    fn arrivals(&self) -> usize {
        let records = self.records.iter();
        records.filter(|(_, number)| *number == 0).count()
    }

    fn has_choice(&self) -> bool {
        self.session.is_some_and(|session| session.choice.is_some())
    }

    /// Whether a record is accepted after one that is refused.
    fn goes_on(&self) -> bool {
        let mut rest = self.records.iter().skip_while(|(_, number)| *number == 0);
        rest.any(|(_, number)| *number == 0)
    }

    /// Whether a row comes again after it has arrived.
    fn repeats(&self) -> bool {
        let mut rest = self.records;
        while let Some(((row, number), later)) = rest.split_first() {
            if *number == 0 && later.iter().any(|(again, _)| again == row) {
                return true;
            }
            rest = later;
        }
        false
    }
}

/// A sort of batches: what they do, of how many calls one must be of this sort,
/// and which batches are.
struct Sort {
    name: &'static str,
    one_in: u64,
    has: fn(&Batch) -> bool,
}

const fn sort(name: &'static str, one_in: u64, has: fn(&Batch) -> bool) -> Sort {
    Sort { name, one_in, has }
}

const SORTS: [Sort; 13] = [
    sort("are empty", 150, |batch| batch.length() == 0),
    sort("have 1 record", 150, |batch| batch.length() == 1),
    sort("have 2 to 15", 80, |batch| {
        (2..16).contains(&batch.length())
    }),
    sort("have 16", 300, |batch| batch.length() == 16),
    sort("have more", 150, |batch| batch.length() > 16),
    sort("let 2 rows or more arrive", 300, |batch| {
        batch.arrivals() >= 2
    }),
    sort("let 16 arrive", 50_000, |batch| batch.arrivals() == 16),
    sort("accept a record after a refused one", 400, |batch| {
        batch.goes_on()
    }),
    sort("repeat a row that arrived", 300, |batch| batch.repeats()),
    sort("drop a choice in force", 400, |batch| {
        batch.has_choice() && batch.arrivals() > 0
    }),
    sort("are empty and leave a choice in force", 500, |batch| {
        batch.has_choice() && batch.length() == 0
    }),
    sort("are all refused and leave one", 150, |batch| {
        batch.has_choice() && batch.length() > 0 && batch.arrivals() == 0
    }),
    sort("answer 5 in 2 records or more", 100, |batch| {
        batch.session.is_none() && batch.length() >= 2
    }),
];

/// The numbers of the answers to records, each with of how many calls there must
/// be one.
const NUMBERS: [(u64, u64); 4] = [(0, 70), (5, 6), (6, 30), (7, 8)];

/// How many batches are of each sort, and how many records have which answer.
#[derive(Clone, Copy, Debug, Default)]
pub struct BatchTally {
    batches: u64,
    counts: [u64; SORTS.len()],
    records: [u64; NUMBERS.len()],
}

impl BatchTally {
    pub fn add(&mut self, batch: &Batch) {
        self.batches += 1;
        for (count, sort) in self.counts.iter_mut().zip(&SORTS) {
            *count += u64::from((sort.has)(batch));
        }
        for (count, (number, _)) in self.records.iter_mut().zip(NUMBERS) {
            let answers = batch.records.iter().map(|(_, answer)| *answer);
            *count += answers.filter(|answer| *answer == number).count() as u64;
        }
    }

    /// Which sorts and answers are too rare among so many calls.
    pub fn gaps(&self, calls: u64) -> Vec<String> {
        let sorts = self.counts.iter().zip(&SORTS);
        let sorts =
            sorts.map(|(count, sort)| (count, sort.one_in, format!("batches {}", sort.name)));
        let records = self.records.iter().zip(NUMBERS);
        let records = records.map(|(count, (number, one_in))| {
            (
                count,
                one_in,
                format!("records of batches are answered {number}"),
            )
        });
        sorts
            .chain(records)
            .filter(|(count, one_in, _)| *count * one_in < calls)
            .map(|(count, one_in, what)| {
                format!("{count} {what} (fewer than one in {one_in} calls)")
            })
            .collect()
    }
}

impl fmt::Display for BatchTally {
    fn fmt(&self, formatter: &mut fmt::Formatter) -> fmt::Result {
        let sorts = self.counts.iter().zip(&SORTS);
        let sorts = sorts.map(|(count, sort)| format!("{count} {}", sort.name));
        let records = self.records.iter().zip(NUMBERS);
        let records = records.map(|(count, (number, _))| format!(" {number}:{count}"));
        write!(
            formatter,
            "of {} batches {}; their records are answered{}",
            self.batches,
            sorts.collect::<Vec<_>>().join(", "),
            records.collect::<String>()
        )
    }
}
