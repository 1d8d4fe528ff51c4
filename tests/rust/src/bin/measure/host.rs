//! A host that runs a table through the library for some ticks, and sees to it that no
//! job is late.

use std::iter::repeat_n;

use shuffle_model::rng::Rng;
use shuffle_model::shuffle::Session as Record;
use shuffle_model::table::{words_of, Row};

/// A job to come: on which tick, of which row, and how many ticks it needs, C at most.
pub struct Coming {
    pub tick: u64,
    pub row: usize,
    pub need: u64,
}

/// What came of a run.
#[derive(Default)]
pub struct Run {
    /// The row of each tick, 16 for idle.
    pub schedule: Vec<u8>,
    /// The choices that were made while a job waited.
    pub choices: u64,
    /// Those of them with more than one candidate. Without words none is counted.
    pub open: u64,
}

/// What the host itself knows of the job of a row; it trusts the library for none of it.
#[derive(Clone, Copy, Default)]
struct Task {
    due: u64,
    /// 0: no job waits.
    need: u64,
    ran: u64,
}

struct Host<'a> {
    rows: &'a [Row],
    record: Record,
    tasks: Vec<Task>,
    /// The jobs that are still to come, by tick.
    coming: &'a [Coming],
    end: u64,
    words: Option<Rng>,
    run: Run,
}

/// Runs a table up to a tick, with four random words to a choice or none.
pub fn run(rows: &[Row], coming: &[Coming], end: u64, words: Option<Rng>) -> Run {
    let (reply, record) = Record::start(&words_of(rows));
    assert!(reply.is_accepted(), "{rows:?}");
    let mut host = Host {
        rows,
        record,
        tasks: vec![Task::default(); rows.len()],
        coming,
        end,
        words,
        run: Run::default(),
    };
    while host.clock() < end {
        host.step();
    }
    for task in &host.tasks {
        assert!(task.need == 0 || end < task.due, "late: {rows:?}");
    }
    host.run
}

impl Host<'_> {
    fn clock(&self) -> u64 {
        self.run.schedule.len() as u64
    }

    /// The arrivals of this tick, a choice if none is in force, and then the ticks up to
    /// the next moment at which something happens.
    ///
    /// A job that is done on the last tick of its span, before C ticks, still waits for
    /// the library. It is finished when it is chosen again, before any tick passes.
    fn step(&mut self) {
        self.arrivals();
        if self.record.span == 0 {
            self.choose();
        }
        let chosen = self.record.chosen as usize;
        match self.tasks.get(chosen) {
            Some(task) if task.ran == task.need => self.finish(chosen),
            _ => self.advance(chosen),
        }
    }

    fn arrivals(&mut self) {
        let clock = self.clock();
        while let Some((job, later)) = self.coming.split_first() {
            if job.tick > clock {
                return;
            }
            self.coming = later;
            let reply = self.record.arrive(job.row as u64);
            assert!(reply.is_accepted(), "{reply:?}");
            let task = &mut self.tasks[job.row];
            assert_eq!(task.need, 0, "late: {:?}", self.rows);
            *task = Task {
                due: clock + u64::from(self.rows[job.row].deadline),
                need: job.need,
                ran: 0,
            };
        }
    }

    fn choose(&mut self) {
        let words = self.words.as_mut().map(|rng| {
            let [a, b] = [rng.draw(), rng.draw()];
            [a as u32, (a >> 32) as u32, b as u32, (b >> 32) as u32]
        });
        let words = words.as_ref().map_or(&[][..], |words| words);
        let reply = self.record.choose(words);
        assert!(reply.is_accepted(), "{reply:?}");
        if self.tasks.iter().any(|task| task.need > 0) {
            self.run.choices += 1;
            // A choice takes a word exactly if it has more than one candidate.
            self.run.open += u64::from(reply.used > 0);
        }
    }

    fn advance(&mut self, chosen: usize) {
        let ticks = self.step_length(chosen);
        let reply = self.record.advance(ticks);
        assert!(reply.is_accepted(), "{reply:?}");
        let rows = repeat_n(chosen as u8, ticks as usize);
        self.run.schedule.extend(rows);
        if let Some(task) = self.tasks.get_mut(chosen) {
            task.ran += ticks;
            if reply.second == 1 {
                self.end_job(chosen);
            }
        }
    }

    /// Ticks up to the next moment at which the host has to act.
    fn step_length(&self, chosen: usize) -> u64 {
        let next = self.coming.first().map_or(self.end, |job| job.tick);
        let most = self.record.span.min(next - self.clock());
        let task = self.tasks.get(chosen);
        task.map_or(most, |task| most.min(task.need - task.ran))
    }

    /// The chosen job has done its work before C ticks.
    fn finish(&mut self, chosen: usize) {
        let reply = self.record.finish();
        assert!(reply.is_accepted(), "{reply:?}");
        self.end_job(chosen);
    }

    fn end_job(&mut self, row: usize) {
        let clock = self.clock();
        let task = &mut self.tasks[row];
        assert!(task.ran == task.need, "{:?}", self.rows);
        assert!(clock <= task.due, "late: {:?}", self.rows);
        *task = Task::default();
    }
}
