//! What inputs for `planner` reach, for the comparison, which counts it.

use std::fmt;

use crate::comparison::Reached;
use crate::contest::lines;
use crate::ledger::{Entry, Ledger};
use crate::planner::{bound, cost, cut, jobs_by, plan_watched, Event, Job, Transcript, RIGHT};
use crate::planner_moments::{Moment, Sort, MOMENTS};
use crate::table::{demand, Kind, Row, ROW_LIMIT};
use crate::tally::{add_all, too_rare};
use crate::text::{read_line, Command, INPUT_LIMIT};
use crate::wrong_plans::WRONG;

/// A sort of inputs.
type InputSort = Sort<fn(&Input) -> bool>;

const fn sort(name: &'static str, one_in: u64, has: fn(&Input) -> bool) -> InputSort {
    Sort { name, one_in, has }
}

/// An input, and what it led to.
struct Input {
    all: Vec<u8>,
    transcript: Transcript,
    ledger: Ledger,
    lines_s: usize,
}

impl Input {
    fn rows(&self) -> &[Row] {
        &self.transcript.rows
    }

    fn is_admitted(&self) -> bool {
        self.transcript.opinion.is_ok()
    }

    fn is_kind(&self, kind: Kind) -> bool {
        let opinion = self.transcript.opinion.as_ref();
        opinion.is_ok_and(|opinion| opinion.kind == kind)
    }

    fn is_refused(&self, number: u32) -> bool {
        let opinion = self.transcript.opinion.as_ref();
        opinion.is_err_and(|refusal| refusal.number == number)
    }

    /// Whether the table is overloaded, and some row is such at the first overload.
    fn has_cut(&self, such: fn(&Cut) -> bool) -> bool {
        self.cuts().iter().any(such)
    }

    /// What must go of each row of an overloaded table.
    fn cuts(&self) -> Vec<Cut> {
        let Err(refusal) = &self.transcript.opinion else {
            return Vec::new();
        };
        if refusal.number != 3 {
            return Vec::new();
        }
        let (rows, t) = (self.rows(), refusal.values[0]);
        let cuts = (0..rows.len()).map(|i| Cut {
            run: u64::from(rows[i].run),
            jobs: jobs_by(&rows[i], t),
            excess: demand(rows, t) - t,
            cut: cut(rows, t, i),
        });
        cuts.collect()
    }

    /// Whether the table is admitted, and of two rows one costs the other such a number.
    fn has_cost(&self, such: fn(&Row, &Row, u64) -> bool) -> bool {
        let rows = self.rows();
        let all = 0..rows.len();
        let mut pairs = all.clone().flat_map(|i| all.clone().map(move |j| (i, j)));
        self.is_admitted()
            && pairs.any(|(i, j)| i != j && such(&rows[i], &rows[j], cost(rows, i, j)))
    }

    /// Whether some job is such; given are its bound and, if it is over, its end.
    fn has_job(&self, such: fn(&Entry, i64) -> bool) -> bool {
        let Ok(opinion) = &self.transcript.opinion else {
            return false;
        };
        let mut entries = self.ledger.entries.iter();
        entries.any(|entry| {
            let job = Job {
                entry,
                row: self.rows()[entry.row],
                v: opinion.budgets[entry.row],
                granted: 0,
            };
            such(entry, bound(&job))
        })
    }

    /// Whether some job of a row is such; given are the row and its V.
    fn has_job_of(&self, such: fn(&Entry, &Row, i64) -> bool) -> bool {
        let Ok(opinion) = &self.transcript.opinion else {
            return false;
        };
        let mut entries = self.ledger.entries.iter();
        entries.any(|entry| such(entry, &self.rows()[entry.row], opinion.budgets[entry.row]))
    }

    /// The number of the line that is unreadable, if there is one.
    fn unreadable(&self) -> Option<u64> {
        match self.transcript.events.last() {
            Some(Event::Unreadable(number)) => Some(*number),
            _ => None,
        }
    }

    /// Whether there is an unreadable line such, with a job waiting.
    fn stops_at(&self, such: fn(&[u8]) -> bool) -> bool {
        let line = self.unreadable();
        let line = line.and_then(|number| lines(&self.all, INPUT_LIMIT).nth(number as usize - 1));
        !self.ledger.waiting.is_empty() && line.is_some_and(such)
    }

    fn is_cut(&self) -> bool {
        self.all.len() > INPUT_LIMIT
    }
}

/// What must go of a row.
struct Cut {
    run: u64,
    jobs: u64,
    excess: u64,
    cut: u64,
}

fn is_line_with_newline(line: &[u8]) -> bool {
    line.ends_with(b"\n") && !line.ends_with(b"\r\n")
}

const INPUTS: [InputSort; 49] = [
    sort("are loose", 4, |input| input.is_kind(Kind::Loose)),
    sort("are mixed", 10, |input| input.is_kind(Kind::Mixed)),
    sort("are tight", 20, |input| input.is_kind(Kind::Tight)),
    sort("are refused with 1", 100, |input| input.is_refused(1)),
    sort("are refused with 2", 60, |input| input.is_refused(2)),
    sort("are refused with 3", 10, |input| input.is_refused(3)),
    sort("are refused with 4", 200, |input| input.is_refused(4)),
    sort("have a cut 0, no job due by t", 30, |input| {
        input.has_cut(|each| each.jobs == 0)
    }),
    sort("have a cut 0, C too short", 20, |input| {
        input.has_cut(|each| each.jobs > 0 && each.cut == 0)
    }),
    sort("have a cut 0, C too short by one", 25, |input| {
        input.has_cut(|each| each.jobs > 0 && each.excess.div_ceil(each.jobs) == each.run)
    }),
    sort("have a cut 1", 20, |input| {
        input.has_cut(|each| each.cut == 1)
    }),
    sort("have a cut above 1", 25, |input| {
        input.has_cut(|each| each.cut > 1)
    }),
    sort("have a cut to C 1", 40, |input| {
        input.has_cut(|each| each.cut > 0 && each.cut + 1 == each.run)
    }),
    sort("have a cut that is rounded up", 30, |input| {
        input.has_cut(|each| each.cut > 0 && each.excess % each.jobs > 0)
    }),
    sort("have a cut above 1 of several jobs", 80, |input| {
        input.has_cut(|each| each.cut > 1 && each.jobs > 1)
    }),
    sort("have cuts of 0 alone", 60, |input| {
        let cuts = input.cuts();
        !cuts.is_empty() && cuts.iter().all(|each| each.cut == 0)
    }),
    sort("have a row with C = D among others", 50, |input| {
        let mut rows = input.rows().iter();
        input.is_admitted() && input.rows().len() > 1 && rows.any(|row| row.spare() == 0)
    }),
    sort("have one row, with C = D", 100, |input| {
        input.is_admitted() && input.lines_s == 0
    }),
    sort("have a cost 1 of another row", 3, |input| {
        input.has_cost(|_, _, cost| cost == 1)
    }),
    sort("have a cost 2 to 9", 4, |input| {
        input.has_cost(|_, _, cost| (2..10).contains(&cost))
    }),
    sort("have a cost above 9", 40, |input| {
        input.has_cost(|_, _, cost| cost > 9)
    }),
    sort("have a cost above 1 that is not rounded", 20, |input| {
        input.has_cost(|i, j, cost| cost > 1 && i.deadline % j.period == 0)
    }),
    sort("have 256 lines S", 60, |input| {
        input.lines_s == ROW_LIMIT * ROW_LIMIT
    }),
    sort("have no call", 100, |input| {
        input.is_admitted() && input.transcript.events.is_empty()
    }),
    sort("have a job that ends by an advance", 3, |input| {
        input.has_job_of(|entry, row, _| entry.end.is_some() && entry.run == u64::from(row.run))
    }),
    sort("have a job that ends by a finish", 5, |input| {
        input.has_job_of(|entry, row, _| entry.end.is_some() && entry.run < u64::from(row.run))
    }),
    sort(
        "have a job that ends by a finish without a run",
        6,
        |input| input.has_job_of(|entry, _, _| entry.end.is_some() && entry.run == 0),
    ),
    sort(
        "have a job that ends where it can't be later",
        25,
        |input| input.has_job(|entry, bound| entry.end.is_some_and(|end| end as i64 == bound)),
    ),
    sort("have a job that ends after D − V", 10, |input| {
        input.has_job(|entry, bound| {
            let late = bound - entry.inversions as i64;
            entry.end.is_some_and(|end| end as i64 > late)
        })
    }),
    sort("have a bound before the deadline", 4, |input| {
        input.has_job(|entry, bound| bound < entry.due as i64)
    }),
    sort("have a bound at the deadline", 10, |input| {
        input.has_job(|entry, bound| bound == entry.due as i64)
    }),
    sort("have a bound after the deadline", 4, |input| {
        input.has_job(|entry, bound| bound > entry.due as i64)
    }),
    sort("have a job that ends, of negative V", 8, |input| {
        input.has_job_of(|entry, _, v| entry.end.is_some() && v < 0)
    }),
    sort("have more inversion ticks than V", 8, |input| {
        input.has_job_of(|entry, _, v| v >= 0 && entry.inversions as i64 > v)
    }),
    sort("have a job without an inversion tick", 3, |input| {
        input.has_job_of(|entry, _, _| entry.end.is_some() && entry.inversions == 0)
    }),
    sort(
        "have a job that waits at the end of the input",
        5,
        |input| !input.ledger.waiting.is_empty() && input.unreadable().is_none(),
    ),
    sort("have five and more that wait at the end", 30, |input| {
        input.ledger.waiting.len() >= 5
    }),
    sort("have none that waits after the last call", 10, |input| {
        !input.ledger.entries.is_empty() && input.ledger.waiting.is_empty()
    }),
    sort(
        "stop at a line that is no line, a job waiting",
        50,
        |input| input.stops_at(|line| is_line_with_newline(line) && read_line(line).is_none()),
    ),
    sort("stop at a late row, a job waiting", 80, |input| {
        input.stops_at(|line| matches!(read_line(line), Some(Command::Row(_))))
    }),
    sort("stop at a 1,025th word, a job waiting", 1_500, |input| {
        input.stops_at(|line| matches!(read_line(line), Some(Command::Word(_))))
    }),
    sort(
        "stop at bytes without a newline, a job waiting",
        100,
        |input| !input.is_cut() && input.stops_at(|line| !line.ends_with(b"\n")),
    ),
    sort(
        "stop where reading ends, within a line, a job waiting",
        500,
        |input| input.is_cut() && input.stops_at(|line| !line.ends_with(b"\n")),
    ),
    sort("stop at a carriage return, a job waiting", 100, |input| {
        input.stops_at(|line| line.ends_with(b"\r\n"))
    }),
    sort("stop at a seventeenth row", 200, |input| {
        input.rows().len() == ROW_LIMIT && input.unreadable() == Some(ROW_LIMIT as u64 + 1)
    }),
    sort("stop with three and more waiting", 50, |input| {
        input.unreadable().is_some() && input.ledger.waiting.len() >= 3
    }),
    sort("stop with none waiting", 25, |input| {
        input.unreadable().is_some() && input.ledger.waiting.is_empty()
    }),
    sort("are longer than 65,536 bytes", 250, Input::is_cut),
    sort("are empty", 1_500, |input| input.all.is_empty()),
];

/// What the inputs reach.
pub struct PlannerTally {
    lines: u64,
    jobs: u64,
    moments: [u64; MOMENTS.len()],
    /// Inputs that have a call of the sort.
    inputs_with: [u64; MOMENTS.len()],
    sorts: [u64; INPUTS.len()],
    /// How many inputs show each wrong reading.
    wrong: [u64; WRONG.len()],
}

impl Default for PlannerTally {
    fn default() -> Self {
        PlannerTally {
            lines: 0,
            jobs: 0,
            moments: [0; MOMENTS.len()],
            inputs_with: [0; MOMENTS.len()],
            sorts: [0; INPUTS.len()],
            wrong: [0; WRONG.len()],
        }
    }
}

impl PlannerTally {
    /// Runs the transcript, and counts its calls. Gives the output and the ledger.
    fn add_calls(&mut self, transcript: &Transcript) -> (Vec<u8>, Ledger) {
        let mut counts = [0; MOMENTS.len()];
        let budgets = transcript.opinion.as_ref();
        let budgets = budgets.map_or(&[][..], |opinion| &opinion.budgets);
        let planned = plan_watched(&RIGHT, transcript, |ledger, event| {
            if let Event::Called(command, answer, _) = *event {
                let moment = Moment {
                    ledger,
                    command,
                    answer,
                    budgets,
                };
                for (count, sort) in counts.iter_mut().zip(&MOMENTS) {
                    *count += u64::from((sort.has)(&moment));
                }
            }
        });
        add_all(&mut self.inputs_with, counts.map(|count| count.min(1)));
        add_all(&mut self.moments, counts);
        (planned.output, planned.ledger)
    }

    fn add_wrong(&mut self, input: &Input, output: &[u8]) {
        for (count, wrong) in self.wrong.iter_mut().zip(&WRONG) {
            let other = wrong.run(&input.transcript, &input.all);
            *count += u64::from(other != output);
        }
    }

    /// The readings whose outputs are the same: how many inputs show them after all.
    fn of_equal(&self) -> Vec<(u64, &'static str)> {
        let counts = self.wrong.iter().zip(&WRONG);
        let equal = counts.filter(|(_, wrong)| wrong.one_in.is_none());
        equal.map(|(count, wrong)| (*count, wrong.name)).collect()
    }

    /// Each count, of how many inputs one must be counted, and what is.
    fn counted(&self) -> Vec<(u64, u64, String)> {
        let moments = self.inputs_with.iter().zip(&MOMENTS);
        let moments =
            moments.map(|(count, sort)| (*count, sort.one_in, format!("have {}", sort.name)));
        let sorts = self.sorts.iter().zip(&INPUTS);
        let sorts = sorts.map(|(count, sort)| (*count, sort.one_in, sort.name.to_string()));
        let wrong = self.wrong.iter().zip(&WRONG);
        let wrong = wrong.filter_map(|(count, wrong)| {
            Some((*count, wrong.one_in?, format!("show {}", wrong.name)))
        });
        moments.chain(sorts).chain(wrong).collect()
    }
}

impl Reached for PlannerTally {
    fn add(&mut self, input: &[u8]) -> Vec<u8> {
        let transcript = Transcript::of(input);
        let (output, ledger) = self.add_calls(&transcript);
        let printed = output.split(|byte| *byte == b'\n');
        let input = Input {
            all: input.to_vec(),
            transcript,
            ledger,
            lines_s: printed.filter(|line| line.starts_with(b"0\tS")).count(),
        };
        self.lines += output.iter().filter(|byte| **byte == b'\n').count() as u64;
        self.jobs += input.ledger.entries.len() as u64;
        for (count, sort) in self.sorts.iter_mut().zip(&INPUTS) {
            *count += u64::from((sort.has)(&input));
        }
        self.add_wrong(&input, &output);
        output
    }

    fn merge(&mut self, other: PlannerTally) {
        self.lines += other.lines;
        self.jobs += other.jobs;
        add_all(&mut self.moments, other.moments);
        add_all(&mut self.inputs_with, other.inputs_with);
        add_all(&mut self.sorts, other.sorts);
        add_all(&mut self.wrong, other.wrong);
    }

    fn gaps(&self, inputs: u64) -> Vec<String> {
        let counted = self.counted();
        let rare = counted
            .iter()
            .flat_map(|(count, one_in, what)| too_rare(inputs, &[(*count, *one_in, what)]));
        let equal = self.of_equal().into_iter().filter(|(count, _)| *count > 0);
        let shown =
            equal.map(|(count, name)| format!("{count} inputs show {name}, which none should"));
        rare.chain(shown).collect()
    }
}

impl fmt::Display for PlannerTally {
    fn fmt(&self, formatter: &mut fmt::Formatter) -> fmt::Result {
        let moments = self.moments.iter().zip(&self.inputs_with).zip(&MOMENTS);
        let moments = moments
            .map(|((count, inputs), sort)| format!("{count} {} (in {inputs} inputs)", sort.name));
        let sorts = self.sorts.iter().zip(&INPUTS);
        let sorts = sorts.map(|(count, sort)| format!("{count} {}", sort.name));
        let wrong = self.wrong.iter().zip(&WRONG);
        let wrong = wrong.filter(|(_, wrong)| wrong.one_in.is_some());
        let wrong = wrong.map(|(count, wrong)| format!("{count} show {}", wrong.name));
        let equal = self.of_equal().into_iter();
        let equal = equal.map(|(count, name)| format!("{count} show {name}"));
        write!(
            formatter,
            "{} output lines, {} jobs; calls: {}; of the inputs {}; wrong readings: {}; as it \
             must be, {}",
            self.lines,
            self.jobs,
            moments.collect::<Vec<_>>().join(", "),
            sorts.collect::<Vec<_>>().join(", "),
            wrong.collect::<Vec<_>>().join(", "),
            equal.collect::<Vec<_>>().join(", ")
        )
    }
}
