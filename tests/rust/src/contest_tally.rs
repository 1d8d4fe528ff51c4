//! What inputs for `contest` reach, for the comparison, which counts it.

use std::fmt;
use std::ops::RangeInclusive;

use crate::comparison::Reached;
use crate::contest::{
    least_overload, lines, read_line, reasons, run_by, Asked, Judge, Line, Reason, Run, Verdict,
    INPUT_LIMIT, RIGHT, SEARCHED_TICKS,
};
use crate::game::RULES;
use crate::table::Row;
use crate::tally::{add_all, too_rare};
use crate::text;
use crate::wrong_contests::{Wrong, WRONG};

/// A sort of questions or inputs: its name, of how many inputs one must have it, and which
/// are of it.
struct Sort<T> {
    name: &'static str,
    one_in: u64,
    has: fn(&T) -> bool,
}

const fn sort<T>(name: &'static str, one_in: u64, has: fn(&T) -> bool) -> Sort<T> {
    Sort { name, one_in, has }
}

/// Whether a question is refused for this reason alone.
fn refused_only(asked: &Asked, reason: Reason) -> bool {
    reasons(&asked.rows, asked.n) == [reason]
}

/// Whether it is refused for a row's rule alone, and there is a row such.
fn breaks_rule(asked: &Asked, such: fn(&Row) -> bool) -> bool {
    refused_only(asked, Reason::Rule) && asked.rows.iter().any(such)
}

/// Whether arrivals win by a line of releases of some length.
fn wins_by(asked: &Asked, lengths: RangeInclusive<usize>) -> bool {
    asked.verdict == Verdict::Forced && lengths.contains(&asked.line.len())
}

const QUESTIONS: [Sort<Asked>; 27] = [
    sort("forced", 6, |asked| asked.verdict == Verdict::Forced),
    sort("held", 3, |asked| asked.verdict == Verdict::Held),
    sort("refused for no row alone", 150, |asked| {
        refused_only(asked, Reason::NoRow)
    }),
    sort("refused for too many rows alone", 40, |asked| {
        refused_only(asked, Reason::RowTooMany)
    }),
    sort("refused for a fourth row alone", 60, |asked| {
        refused_only(asked, Reason::RowTooMany) && asked.rows.len() == 4
    }),
    sort("refused for 16 rows alone", 1_000, |asked| {
        refused_only(asked, Reason::RowTooMany) && asked.rows.len() == 16
    }),
    sort("refused for a row's rule alone", 60, |asked| {
        refused_only(asked, Reason::Rule)
    }),
    sort("refused for C 0", 400, |asked| {
        breaks_rule(asked, |row| row.run == 0)
    }),
    sort("refused for C above D", 400, |asked| {
        breaks_rule(asked, |row| row.run > row.deadline)
    }),
    sort("refused for D above T", 400, |asked| {
        breaks_rule(asked, |row| row.deadline > row.period)
    }),
    sort("refused for T 1,000,001", 800, |asked| {
        breaks_rule(asked, |row| row.period == 1_000_001)
    }),
    sort("refused for N 0 alone", 250, |asked| {
        refused_only(asked, Reason::NoTick)
    }),
    sort("refused for N 13 alone", 100, |asked| {
        refused_only(asked, Reason::TickTooMany) && asked.n == 13
    }),
    sort("refused for a greater N alone", 100, |asked| {
        refused_only(asked, Reason::TickTooMany) && asked.n > 13
    }),
    sort("refused for two reasons", 40, |asked| {
        reasons(&asked.rows, asked.n).len() == 2
    }),
    sort("answered with 1 row", 20, |asked| {
        asked.is_answered() && asked.rows.len() == 1
    }),
    sort("answered with 2 rows", 10, |asked| {
        asked.is_answered() && asked.rows.len() == 2
    }),
    sort("answered with 3 rows", 8, |asked| {
        asked.is_answered() && asked.rows.len() == 3
    }),
    sort("answered with T above 12", 40, |asked| {
        asked.is_answered() && asked.rows.iter().any(|row| row.period > 12)
    }),
    sort("answered with T 1,000,000 or close", 400, |asked| {
        asked.is_answered() && asked.rows.iter().any(|row| row.period > 900_000)
    }),
    sort("forced with N the least t", 16, |asked| {
        asked.verdict == Verdict::Forced && asked.least() == Some(asked.n)
    }),
    sort("forced with N above it", 10, |asked| {
        asked.verdict == Verdict::Forced && asked.least() < Some(asked.n)
    }),
    sort("forced by 2 releases", 20, |asked| wins_by(asked, 2..=2)),
    sort("forced by 3 or 4", 20, |asked| wins_by(asked, 3..=4)),
    sort("forced by 5 to 8", 50, |asked| wins_by(asked, 5..=8)),
    sort("forced by 9 to 12", 400, |asked| wins_by(asked, 9..=12)),
    sort("forced by 13 or 14", 2_000, |asked| wins_by(asked, 13..=14)),
];

impl Asked {
    /// The least t with demand(t) > t up to N; the rows must be lawful.
    fn least(&self) -> Option<u64> {
        least_overload(&self.rows, self.n)
    }
}

/// An input and what it led to.
struct Input {
    all: Vec<u8>,
    run: Run,
}

impl Input {
    fn is_cut(&self) -> bool {
        self.all.len() > INPUT_LIMIT
    }

    /// The first line that is unreadable.
    fn unreadable(&self) -> Option<&[u8]> {
        lines(&self.all, INPUT_LIMIT).nth(self.run.unreadable?)
    }

    /// Whether there is one, and it is such.
    fn stumbles_on(&self, such: fn(&[u8]) -> bool) -> bool {
        self.unreadable().is_some_and(such)
    }

    /// Whether there is one, with its newline, that has this letter, and after it such a
    /// number of fields.
    fn stumbles_on_fields(&self, letter: u8, such: fn(usize) -> bool) -> bool {
        let Some(line) = self.unreadable().and_then(|line| line.strip_suffix(b"\n")) else {
            return false;
        };
        let mut fields = line.split(|byte| *byte == b'\t');
        fields.next() == Some(&[letter]) && such(fields.count())
    }
}

fn is_readable(line: &[u8], such: fn(Line) -> bool) -> bool {
    read_line(line).is_some_and(such)
}

const INPUTS: [Sort<Input>; 19] = [
    sort("ask nothing", 60, |input| {
        input.run.asked.is_empty() && input.run.unreadable.is_none()
    }),
    sort("are empty", 1_000, |input| input.all.is_empty()),
    sort("have 12 questions", 50, |input| input.run.asked.len() == 12),
    sort("have 16 rows", 200, |input| input.run.rows.len() == 16),
    sort("have a row after a question", 20, |input| {
        let first = input.run.asked.first();
        first.is_some_and(|first| first.rows.len() < input.run.rows.len())
    }),
    sort("have no answer before the unreadable line", 40, |input| {
        input.run.asked.is_empty() && input.run.unreadable.is_some()
    }),
    sort("end at an empty line", 300, |input| {
        input.stumbles_on(|line| line == b"\n")
    }),
    sort("end at a carriage return", 200, |input| {
        input.stumbles_on(|line| line.ends_with(b"\r\n"))
    }),
    sort("end at bytes after the last newline", 60, |input| {
        input.stumbles_on(|line| !line.ends_with(b"\n")) && !input.is_cut()
    }),
    sort("end at a line for shuffle", 250, |input| {
        input.stumbles_on(|line| text::read_line(line).is_some() && read_line(line).is_none())
    }),
    sort("end at a seventeenth row", 200, |input| {
        input.stumbles_on(|line| is_readable(line, |line| matches!(line, Line::Row(_))))
    }),
    sort("end at a thirteenth question", 200, |input| {
        input.stumbles_on(|line| is_readable(line, |line| matches!(line, Line::Question(_))))
    }),
    sort("end at a row with a field too few", 400, |input| {
        input.stumbles_on_fields(b'T', |fields| fields < 3)
    }),
    sort("end at a row with a field too many", 400, |input| {
        input.stumbles_on_fields(b'T', |fields| fields > 3)
    }),
    sort(
        "end at a row with a field that is no number",
        200,
        |input| {
            input.stumbles_on_fields(b'T', |fields| fields == 3)
                && input.stumbles_on(|line| read_line(line).is_none())
        },
    ),
    sort("end at a question without a field", 2_000, |input| {
        input.stumbles_on_fields(b'N', |fields| fields == 0)
    }),
    sort("end at a question with a field too many", 400, |input| {
        input.stumbles_on_fields(b'N', |fields| fields > 1)
    }),
    sort(
        "end at a question with a field that is no number",
        200,
        |input| {
            input.stumbles_on_fields(b'N', |fields| fields == 1)
                && input.stumbles_on(|line| read_line(line).is_none())
        },
    ),
    sort("are cut within a line", 400, |input| {
        input.is_cut() && input.stumbles_on(|line| !line.ends_with(b"\n"))
    }),
];

/// One in so many inputs must have an answered question of each N.
const EACH_N_ONE_IN: u64 = 40;

/// What the inputs reach.
pub struct ContestTally {
    asked: u64,
    questions: [u64; QUESTIONS.len()],
    /// Inputs that have a question of the sort.
    inputs_with: [u64; QUESTIONS.len()],
    /// Inputs that have an answered question for each N from 1 on.
    by_ticks: [u64; SEARCHED_TICKS as usize],
    sorts: [u64; INPUTS.len()],
    /// How many inputs show each wrong reading.
    wrong: [u64; WRONG.len()],
}

impl Default for ContestTally {
    fn default() -> Self {
        ContestTally {
            asked: 0,
            questions: [0; QUESTIONS.len()],
            inputs_with: [0; QUESTIONS.len()],
            by_ticks: [0; SEARCHED_TICKS as usize],
            sorts: [0; INPUTS.len()],
            wrong: [0; WRONG.len()],
        }
    }
}

/// A count, of how many one must be counted, and what is.
type Counted = (u64, u64, String);

impl ContestTally {
    fn add_questions(&mut self, asked: &[Asked]) {
        self.asked += asked.len() as u64;
        let counted = self.questions.iter_mut().zip(&mut self.inputs_with);
        for ((count, inputs), sort) in counted.zip(&QUESTIONS) {
            let such = asked.iter().filter(|asked| (sort.has)(asked)).count() as u64;
            *count += such;
            *inputs += u64::from(such > 0);
        }
        for (count, n) in self.by_ticks.iter_mut().zip(1..) {
            let mut asked = asked.iter();
            *count += u64::from(asked.any(|asked| asked.is_answered() && asked.n == n));
        }
    }

    fn add_wrong(&mut self, judge: &mut Judge, input: &Input) {
        for (count, wrong) in self.wrong.iter_mut().zip(&WRONG) {
            *count += u64::from(wrong.run(judge, &input.all) != input.run.output);
        }
    }

    /// The sorts of questions, by the inputs that have one.
    fn of_questions(&self) -> Vec<Counted> {
        let counts = self.inputs_with.iter().zip(&QUESTIONS);
        let sorts = counts.map(|(count, sort)| {
            let what = format!("have a question {}", sort.name);
            (*count, sort.one_in, what)
        });
        let by_ticks = self.by_ticks.iter().zip(1..);
        let by_ticks = by_ticks.map(|(count, n)| {
            let what = format!("have an answered question for N {n}");
            (*count, EACH_N_ONE_IN, what)
        });
        sorts.chain(by_ticks).collect()
    }

    fn of_inputs(&self) -> Vec<Counted> {
        let counts = self.sorts.iter().zip(&INPUTS);
        counts
            .map(|(count, sort)| (*count, sort.one_in, sort.name.to_string()))
            .collect()
    }

    /// The wrong readings of some sort that must show.
    fn of_wrong(&self, such: fn(&Wrong) -> bool) -> Vec<Counted> {
        let counts = self.wrong.iter().zip(&WRONG);
        let counts = counts.filter(|(_, wrong)| such(wrong));
        let must = counts.filter_map(|(count, wrong)| {
            let what = format!("show {}", wrong.name);
            Some((*count, wrong.one_in?, what))
        });
        must.collect()
    }

    /// The other readings, whose outputs are the same: how many inputs show them after all.
    fn of_equal(&self, such: fn(&Wrong) -> bool) -> Vec<(u64, &'static str)> {
        let counts = self.wrong.iter().zip(&WRONG);
        let equal = counts.filter(|(_, wrong)| wrong.one_in.is_none() && such(wrong));
        equal.map(|(count, wrong)| (*count, wrong.name)).collect()
    }

    fn equal_gaps(&self) -> Vec<String> {
        let equal = self.of_equal(|_| true).into_iter();
        let shown = equal.filter(|(count, _)| *count > 0);
        shown
            .map(|(count, name)| format!("{count} inputs show {name}, which none should"))
            .collect()
    }
}

impl Reached for ContestTally {
    fn add(&mut self, input: &[u8]) -> Vec<u8> {
        let judge = &mut Judge::new(RULES);
        let input = Input {
            all: input.to_vec(),
            run: run_by(&RIGHT, judge, input),
        };
        self.add_questions(&input.run.asked);
        for (count, sort) in self.sorts.iter_mut().zip(&INPUTS) {
            *count += u64::from((sort.has)(&input));
        }
        self.add_wrong(judge, &input);
        input.run.output
    }

    fn merge(&mut self, other: ContestTally) {
        self.asked += other.asked;
        add_all(&mut self.questions, other.questions);
        add_all(&mut self.inputs_with, other.inputs_with);
        add_all(&mut self.by_ticks, other.by_ticks);
        add_all(&mut self.sorts, other.sorts);
        add_all(&mut self.wrong, other.wrong);
    }

    fn gaps(&self, inputs: u64) -> Vec<String> {
        let wrong = self.of_wrong(|_| true);
        let counted = [self.of_questions(), self.of_inputs(), wrong].concat();
        let mut gaps = gaps_in(inputs, &counted);
        gaps.extend(self.equal_gaps());
        gaps
    }
}

fn gaps_in(inputs: u64, counts: &[Counted]) -> Vec<String> {
    let counts = counts.iter();
    let gaps =
        counts.flat_map(|(count, one_in, what)| too_rare(inputs, &[(*count, *one_in, what)]));
    gaps.collect()
}

fn listed(counts: &[Counted]) -> String {
    let counts = counts.iter();
    let counts = counts.map(|(count, _, what)| format!("{count} {what}"));
    counts.collect::<Vec<_>>().join(", ")
}

/// The readings that never show, with how many inputs show them.
fn never(equal: &[(u64, &str)]) -> String {
    let equal = equal.iter();
    let equal = equal.map(|(count, name)| format!("{count} show {name}"));
    format!("as it must be, {}", equal.collect::<Vec<_>>().join(", "))
}

impl fmt::Display for ContestTally {
    fn fmt(&self, formatter: &mut fmt::Formatter) -> fmt::Result {
        let questions = self.questions.iter().zip(&self.inputs_with).zip(&QUESTIONS);
        let questions = questions
            .map(|((count, inputs), sort)| format!("{count} {} (in {inputs} inputs)", sort.name));
        let by_ticks = self.by_ticks.iter().zip(1..);
        let by_ticks = by_ticks.map(|(count, n)| format!("{n}:{count}"));
        write!(
            formatter,
            "{} questions: {}; inputs with an answered question by N {}; of the inputs {}; wrong \
             readings: {}; {}",
            self.asked,
            questions.collect::<Vec<_>>().join(", "),
            by_ticks.collect::<Vec<_>>().join(" "),
            listed(&self.of_inputs()),
            listed(&self.of_wrong(|_| true)),
            never(&self.of_equal(|_| true))
        )
    }
}

/// What the games on small tables come to.
#[derive(Default)]
pub struct AnswerTally {
    asked: u64,
    /// Tables in which arrivals win within 12 ticks, by the least N.
    by_least: [u64; SEARCHED_TICKS as usize],
    held: u64,
}

impl Reached for AnswerTally {
    fn add(&mut self, input: &[u8]) -> Vec<u8> {
        let run = run_by(&RIGHT, &mut Judge::new(RULES), input);
        self.asked += run.asked.len() as u64;
        let is_forced = |asked: &&Asked| asked.verdict == Verdict::Forced;
        match run.asked.iter().find(is_forced) {
            Some(first) => self.by_least[first.n as usize - 1] += 1,
            None => self.held += 1,
        }
        run.output
    }

    fn merge(&mut self, other: AnswerTally) {
        self.asked += other.asked;
        add_all(&mut self.by_least, other.by_least);
        self.held += other.held;
    }

    fn gaps(&self, inputs: u64) -> Vec<String> {
        let forced = self.by_least.iter().sum();
        let counts = [(self.held, 40, "are held"), (forced, 2, "are forced")];
        too_rare(inputs, &counts)
    }
}

impl fmt::Display for AnswerTally {
    fn fmt(&self, formatter: &mut fmt::Formatter) -> fmt::Result {
        let by_least = self.by_least.iter().zip(1..);
        let by_least = by_least.map(|(count, n)| format!("{n}:{count}"));
        write!(
            formatter,
            "{} questions; {} tables are held for 12 ticks, and forced are, by the least N, {}",
            self.asked,
            self.held,
            by_least.collect::<Vec<_>>().join(" ")
        )
    }
}

/// The same, and in how many of the tables a wrong reading of the game would show.
#[derive(Default)]
pub struct TableTally {
    answers: AnswerTally,
    all: ContestTally,
}

impl TableTally {
    /// What depends on the game alone.
    fn of_game(&self) -> Vec<Counted> {
        self.all.of_wrong(Wrong::is_game)
    }
}

impl Reached for TableTally {
    fn add(&mut self, input: &[u8]) -> Vec<u8> {
        self.all.add(input);
        self.answers.add(input)
    }

    fn merge(&mut self, other: TableTally) {
        self.answers.merge(other.answers);
        self.all.merge(other.all);
    }

    fn gaps(&self, inputs: u64) -> Vec<String> {
        let mut gaps = gaps_in(inputs, &self.of_game());
        gaps.extend(self.answers.gaps(inputs));
        gaps.extend(self.all.equal_gaps());
        gaps
    }
}

impl fmt::Display for TableTally {
    fn fmt(&self, formatter: &mut fmt::Formatter) -> fmt::Result {
        write!(
            formatter,
            "{}; wrong readings: {}; {}",
            self.answers,
            listed(&self.of_game()),
            never(&self.all.of_equal(Wrong::is_game))
        )
    }
}
