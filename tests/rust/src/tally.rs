//! Counts which answers a set of outputs reached.

use std::collections::BTreeMap;
use std::fmt;

/// Each letter with the answer numbers that the program can give on it.
///
/// 5 never comes: the program's session stays sound. 12 never comes: a line
/// takes at least two bytes and a span is at most 1,000,000 ticks, so 65,536
/// bytes move the clock by at most 32,768,000,000 ticks, far below 2^53.
const REACHABLE: &[(char, &[u32])] = &[
    ('M', &[0, 1, 2, 3, 4]),
    ('B', &[0]),
    ('A', &[0, 6, 7]),
    ('G', &[0, 8]),
    ('R', &[0, 9, 10]),
    ('F', &[0, 9, 11]),
    ('?', &[13]),
];

#[derive(Default)]
pub struct Tally {
    counts: BTreeMap<(char, u32), u64>,
}

impl Tally {
    /// Counts the lines of an output of the model.
    pub fn add(&mut self, output: &[u8]) {
        for line in output
            .split(|byte| *byte == b'\n')
            .filter(|line| !line.is_empty())
        {
            let line = String::from_utf8_lossy(line);
            let mut fields = line.split('\t').skip(1);
            let letter = fields.next().and_then(|field| field.chars().next());
            let number = fields.next().and_then(|field| field.parse().ok());
            let answer = letter.zip(number).expect("a line of the model's form");
            *self.counts.entry(answer).or_default() += 1;
        }
    }

    pub fn merge(&mut self, other: Tally) {
        for (answer, count) in other.counts {
            *self.counts.entry(answer).or_default() += count;
        }
    }

    pub fn lines(&self) -> u64 {
        self.counts.values().sum()
    }

    /// What differs between the answers reached and the reachable ones.
    pub fn gaps(&self) -> Vec<String> {
        let reachable: Vec<(char, u32)> = REACHABLE
            .iter()
            .flat_map(|(letter, numbers)| numbers.iter().map(|number| (*letter, *number)))
            .collect();
        let missing = reachable
            .iter()
            .filter(|answer| !self.counts.contains_key(answer))
            .map(|(letter, number)| format!("{letter} {number} was never reached"));
        let unexpected = self
            .counts
            .keys()
            .filter(|answer| !reachable.contains(answer))
            .map(|(letter, number)| format!("{letter} {number} was not expected"));
        missing.chain(unexpected).collect()
    }
}

impl fmt::Display for Tally {
    fn fmt(&self, formatter: &mut fmt::Formatter) -> fmt::Result {
        let by_letter = REACHABLE.iter().map(|(letter, _)| {
            let counts = self
                .counts
                .iter()
                .filter(|((counted, _), _)| counted == letter)
                .map(|((_, number), count)| format!(" {number}:{count}"));
            format!("{letter}{}", counts.collect::<String>())
        });
        formatter.write_str(&by_letter.collect::<Vec<_>>().join("; "))
    }
}

/// Adds counts to sums, place by place.
pub fn add_all<const N: usize>(sums: &mut [u64; N], counts: [u64; N]) {
    for (sum, count) in sums.iter_mut().zip(counts) {
        *sum += count;
    }
}

/// One in so many: there must be one, if only one.
pub const ONCE: u64 = 1 << 32;

/// Which of these counts are below one in so many of all inputs, in words. Each
/// has that number and what the counted inputs do.
pub fn too_rare(inputs: u64, counts: &[(u64, u64, &str)]) -> Vec<String> {
    let rare = counts
        .iter()
        .filter(|(count, one_in, _)| count * one_in < inputs);
    rare.map(|(count, one_in, what)| {
        format!("{count} of {inputs} inputs {what} (fewer than one in {one_in})")
    })
    .collect()
}

/// What is counted among: inputs of the program, or calls of the library.
#[derive(Clone, Copy, Debug)]
pub enum Among {
    Inputs(u64),
    Calls(u64),
}

impl Among {
    /// The gap, in words, if a count is too low: of so many inputs or so many calls
    /// there must be one.
    pub fn gap(self, count: u64, [inputs, calls]: [u64; 2], what: &str) -> Option<String> {
        let (of, one_in, name) = match self {
            Among::Inputs(of) => (of, inputs, "inputs"),
            Among::Calls(of) => (of, calls, "calls"),
        };
        let gap = || format!("{count} {what} (fewer than one in {one_in} {name})");
        (count * one_in < of).then(gap)
    }
}
