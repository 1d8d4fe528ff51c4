//! Draws and the limit from which on they pass words over: for the tools, which
//! count how often a choice has a draw that a wrong rule would answer otherwise,
//! and how often an answer shows it.

use std::collections::HashSet;
use std::fmt;

use crate::calls::{candidates, draw, lengths, limit};
use crate::session::Session;
use crate::table::ROW_LIMIT;
use crate::tally::{too_rare, Among};
use crate::text::{run_with, Command, Machine, Outcome};

/// A draw of a choice.
#[derive(Clone, Copy, Debug)]
pub struct Draw<'a> {
    /// It is between so many candidates or lengths.
    pub count: u32,
    /// The words that it uses.
    pub used: &'a [u32],
    /// None if no word decides.
    pub number: Option<u32>,
}

impl<'a> Draw<'a> {
    /// The draw from these words, and the words behind those that it uses.
    fn new(count: u32, words: &'a [u32]) -> (Self, &'a [u32]) {
        let (number, rest) = draw(count, words);
        let used = &words[..words.len() - rest.len()];
        let draw = Draw {
            count,
            used,
            number,
        };
        (draw, rest)
    }

    /// The words that it passes over, and the one that decides.
    fn split(&self) -> (&'a [u32], Option<u32>) {
        match (self.number, self.used) {
            (Some(_), [passed @ .., word]) => (passed, Some(*word)),
            _ => (self.used, None),
        }
    }

    pub(crate) fn passes(&self) -> bool {
        !self.split().0.is_empty()
    }

    /// Whether it passes over the word at the limit.
    fn passes_limit(&self) -> bool {
        let mut passed = self.split().0.iter();
        passed.any(|word| u64::from(*word) == limit(self.count))
    }

    /// Whether the word right below the limit decides.
    fn takes_last(&self) -> bool {
        let (_, word) = self.split();
        word.is_some_and(|word| u64::from(word) + 1 == limit(self.count))
    }

    /// Whether there are words, but none that decides.
    fn runs_out(&self) -> bool {
        self.number.is_none() && !self.used.is_empty()
    }

    /// Whether a word lies at the limit or next to it.
    fn is_near(&self) -> bool {
        let mut used = self.used.iter().map(|word| u64::from(*word));
        used.any(|word| word.abs_diff(limit(self.count)) <= 1)
    }
}

/// The draws of a choice.
#[derive(Clone, Copy, Debug)]
pub struct Drawn<'a> {
    /// Between candidates, if there are several.
    pub pick: Option<Draw<'a>>,
    /// Between lengths, if a job of strictly earlier deadline waits.
    pub span: Option<Draw<'a>>,
    /// The words that they leave.
    pub rest: &'a [u32],
}

impl<'a> Drawn<'a> {
    /// The draws of a choice with these words; the session must be sound. A choice
    /// in force is not looked at.
    pub fn new(session: &Session, words: &'a [u32]) -> Self {
        let candidates = candidates(session);
        let several = Some(candidates.len() as u32).filter(|count| *count >= 2);
        let pick = several.map(|count| Draw::new(count, words));
        let rest = pick.map_or(words, |(_, rest)| rest);
        let pick = pick.map(|(pick, _)| pick);
        let number = pick.and_then(|pick| pick.number).unwrap_or(0);
        let lengths = lengths(session, candidates[number as usize]);
        let span = lengths.map(|count| Draw::new(count, rest));
        Drawn {
            pick,
            span: span.map(|(span, _)| span),
            rest: span.map_or(rest, |(_, rest)| rest),
        }
    }

    /// What the first draw is between that no word decides.
    pub fn open(&self) -> Option<u32> {
        let mut draws = self.pick.into_iter().chain(self.span);
        let open = draws.find(|draw| draw.number.is_none());
        open.map(|draw| draw.count)
    }

    fn in_pick(&self, has: fn(&Draw<'a>) -> bool) -> bool {
        self.pick.as_ref().is_some_and(has)
    }

    fn in_span(&self, has: fn(&Draw<'a>) -> bool) -> bool {
        self.span.as_ref().is_some_and(has)
    }

    fn in_any(&self, has: fn(&Draw<'a>) -> bool) -> bool {
        self.in_pick(has) || self.in_span(has)
    }
}

/// A sort of accepted choices: what they do, of how many inputs of the program and
/// of how many calls of the library there must be one, and which choices are.
struct Sort {
    name: &'static str,
    one_in: [u64; 2],
    has: fn(&Drawn) -> bool,
}

const fn sort(name: &'static str, one_in: [u64; 2], has: fn(&Drawn) -> bool) -> Sort {
    Sort { name, one_in, has }
}

const SORTS: [Sort; 14] = [
    sort("pass a word over in the pick", [2, 500], |drawn| {
        drawn.in_pick(Draw::passes)
    }),
    sort("pass a word over in the span", [2, 500], |drawn| {
        drawn.in_span(Draw::passes)
    }),
    sort("pass words over in both", [20, 2_000], |drawn| {
        drawn.in_pick(Draw::passes) && drawn.in_span(Draw::passes)
    }),
    sort("pass over several in one draw", [4, 500], |drawn| {
        drawn.in_any(|draw| draw.split().0.len() >= 2)
    }),
    sort("pass over 20 or more in one draw", [400, 1_500], |drawn| {
        drawn.in_any(|draw| draw.split().0.len() >= 20)
    }),
    sort("run out of words in the pick", [8, 2_500], |drawn| {
        drawn.in_pick(Draw::runs_out)
    }),
    sort("run out of words in the span", [10, 3_000], |drawn| {
        drawn.in_span(Draw::runs_out)
    }),
    sort(
        "take the word below the limit in the pick",
        [2, 500],
        |drawn| drawn.in_pick(Draw::takes_last),
    ),
    sort(
        "take the word below the limit in the span",
        [8, 1_000],
        |drawn| drawn.in_span(Draw::takes_last),
    ),
    sort(
        "pass over the word at the limit in the pick",
        [4, 600],
        |drawn| drawn.in_pick(Draw::passes_limit),
    ),
    sort(
        "pass over the word at the limit in the span",
        [20, 1_200],
        |drawn| drawn.in_span(Draw::passes_limit),
    ),
    sort("take the greatest word of all", [3, 600], |drawn| {
        drawn.in_any(|draw| draw.split().1 == Some(u32::MAX))
    }),
    sort("use a word for the only length", [5, 500], |drawn| {
        drawn.in_span(|span| span.count == 1 && !span.used.is_empty())
    }),
    sort(
        "leave words after they passed some over",
        [4, 500],
        |drawn| drawn.in_any(Draw::passes) && !drawn.rest.is_empty(),
    ),
];

/// The most candidates: all rows, and idle.
const MOST_CANDIDATES: usize = ROW_LIMIT + 1;
/// Between so many different numbers of lengths a word must have been passed over.
const SPANS: usize = 1_000;

/// How many accepted choices are of each sort.
#[derive(Clone, Debug, Default)]
pub struct DrawnChoices {
    choices: u64,
    counts: [u64; SORTS.len()],
    /// Those with a word at the limit of the pick or next to it, by the number of
    /// candidates less 2.
    near: [u64; MOST_CANDIDATES - 1],
    /// The numbers of lengths between which a word was passed over.
    spans: HashSet<u32>,
}

impl DrawnChoices {
    /// Counts an accepted choice with these draws.
    pub fn add(&mut self, drawn: &Drawn) {
        self.choices += 1;
        for (count, sort) in self.counts.iter_mut().zip(&SORTS) {
            *count += u64::from((sort.has)(drawn));
        }
        if let Some(pick) = drawn.pick.filter(Draw::is_near) {
            self.near[pick.count as usize - 2] += 1;
        }
        let passing = drawn.span.filter(Draw::passes);
        self.spans.extend(passing.map(|span| span.count));
    }

    fn merge(&mut self, other: &DrawnChoices) {
        self.choices += other.choices;
        let sums = self.counts.iter_mut().chain(&mut self.near);
        for (sum, count) in sums.zip(other.counts.iter().chain(&other.near)) {
            *sum += count;
        }
        self.spans.extend(&other.spans);
    }

    /// Which sorts are too rare, and what was not drawn between.
    pub fn gaps(&self, among: Among) -> Vec<String> {
        let sorts = self.counts.into_iter().zip(&SORTS);
        let rare = sorts.filter_map(|(count, sort)| {
            among.gap(count, sort.one_in, &format!("choices {}", sort.name))
        });
        let picks = (2..).zip(self.near).filter(|(_, near)| *near == 0);
        let missing =
            picks.map(|(count, _)| format!("no pick between {count} came near its limit"));
        let spans = self.spans.len();
        let few = (spans < SPANS).then(|| {
            format!(
                "words were passed over between {spans} numbers of lengths (fewer than {SPANS})"
            )
        });
        rare.chain(missing).chain(few).collect()
    }
}

impl fmt::Display for DrawnChoices {
    fn fmt(&self, formatter: &mut fmt::Formatter) -> fmt::Result {
        let sorts = self.counts.iter().zip(&SORTS);
        let sorts = sorts.map(|(count, sort)| format!("{count} {}", sort.name));
        write!(
            formatter,
            "of {} accepted choices {}; {} of the {} numbers of candidates had a word at the limit or \
            next to it, each at least {} times; {} different numbers of lengths passed a word over",
            self.choices,
            sorts.collect::<Vec<_>>().join(", "),
            self.near.iter().filter(|near| **near > 0).count(),
            self.near.len(),
            self.near.iter().min().unwrap_or(&0),
            self.spans.len()
        )
    }
}

/// Of all inputs, one in so many must have a choice that passes a word over.
const PASSING: u64 = 8;
/// Of all inputs, one in so many must show it in an answer.
const SHOWING: u64 = 10;

/// NOT the product's rule: performs a command, but a choice takes the remainder of
/// any word.
fn wrong_execute_without_limits(machine: &mut Machine, command: Command) -> Outcome {
    let Machine { session, words } = machine;
    if command == Command::Choose && session.choice.is_none() {
        let pick = Drawn::new(session, words).pick.map(|pick| pick.count);
        if let (Some(count), Some(word)) = (pick, words.first_mut()) {
            *word %= count;
        }
        let span = Drawn::new(session, words).span.map(|span| span.count);
        if let (Some(count), Some(word)) = (span, words.get_mut(1)) {
            *word %= count;
        }
    }
    machine.execute(command)
}

/// What an input reached.
#[derive(Clone, Debug, Default)]
pub struct Draws {
    choices: DrawnChoices,
    /// Some choice passed a word over.
    pub passed: bool,
    /// Some answer would be another one if no word were passed over.
    pub shown: bool,
}

impl Draws {
    /// Looks at a command that the machine is about to perform.
    pub fn watch(&mut self, machine: &Machine, command: Command) {
        let Machine { session, words } = machine;
        if command == Command::Choose && session.choice.is_none() {
            let drawn = Drawn::new(session, words);
            self.choices.add(&drawn);
            self.passed |= drawn.in_any(Draw::passes);
        }
    }

    /// Looks at the output of the whole input, once all of it was watched.
    pub fn compare(&mut self, input: &[u8], output: &[u8]) {
        self.shown = self.passed && run_with(input, wrong_execute_without_limits) != output;
    }
}

/// How many of all inputs reached what.
#[derive(Clone, Debug, Default)]
pub struct DrawTally {
    inputs: u64,
    passing: u64,
    shown: u64,
    choices: DrawnChoices,
}

impl DrawTally {
    pub fn add(&mut self, draws: &Draws) {
        self.inputs += 1;
        self.passing += u64::from(draws.passed);
        self.shown += u64::from(draws.shown);
        self.choices.merge(&draws.choices);
    }

    pub fn merge(&mut self, other: DrawTally) {
        self.inputs += other.inputs;
        self.passing += other.passing;
        self.shown += other.shown;
        self.choices.merge(&other.choices);
    }

    /// Which of the counts are too low for a comparison that means something.
    pub fn gaps(&self) -> Vec<String> {
        let counts = [
            (self.passing, PASSING, "pass a word over"),
            (
                self.shown,
                SHOWING,
                "show in an answer that one is passed over",
            ),
        ];
        let mut gaps = too_rare(self.inputs, &counts);
        gaps.extend(self.choices.gaps(Among::Inputs(self.inputs)));
        gaps
    }
}

impl fmt::Display for DrawTally {
    fn fmt(&self, formatter: &mut fmt::Formatter) -> fmt::Result {
        write!(
            formatter,
            "a word is passed over in {} inputs, and {} of them show it in an answer; {}",
            self.passing, self.shown, self.choices
        )
    }
}
