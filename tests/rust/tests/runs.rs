//! Random lists of calls against the specification's ledger.

use shuffle_model::arrivals::ArrivalCounts;
use shuffle_model::draws::Draws;
use shuffle_model::driver::Driver;
use shuffle_model::gifts::Gifts;
use shuffle_model::mixed::Mixed;
use shuffle_model::rng::Rng;
use shuffle_model::runs::{random_command, Style};
use shuffle_model::session::{Session, IDLE};
use shuffle_model::table::{budget, Row};
use shuffle_model::tables::{
    admitted, counting_rows, full_rows, light_rows, part_brittle_rows, roomy_rows, small_rows,
    staggered_rows, RowMaker,
};
use shuffle_model::text::{Command, Outcome};
use shuffle_model::ties::Ties;

struct Entry {
    row: usize,
    arrival: u64,
    run: u64,
    end: Option<u64>,
}

/// Fed with calls and answers; looks into no session.
struct Ledger {
    rows: Vec<Row>,
    clock: u64,
    chosen: u32,
    entries: Vec<Entry>,
}

impl Ledger {
    fn new(rows: &[Row]) -> Self {
        Ledger {
            rows: rows.to_vec(),
            clock: 0,
            chosen: IDLE,
            entries: Vec::new(),
        }
    }

    fn latest(&mut self) -> Option<&mut Entry> {
        let chosen = self.chosen as usize;
        self.entries
            .iter_mut()
            .rev()
            .find(|entry| entry.row == chosen)
    }

    /// Enters an accepted call and its two values.
    fn enter(&mut self, command: Command, values: [u64; 2]) {
        match command {
            Command::Arrive(row) => self.entries.push(Entry {
                row: row as usize,
                arrival: self.clock,
                run: 0,
                end: None,
            }),
            Command::Choose => self.chosen = values[0] as u32,
            Command::Advance(ticks) => self.advance(u64::from(ticks)),
            Command::Finish => {
                let clock = self.clock;
                self.latest().expect("a finished job has an entry").end = Some(clock);
            }
            Command::Row(_) | Command::Word(_) => unreachable!("no call"),
        }
    }

    fn advance(&mut self, ticks: u64) {
        self.clock += ticks;
        let clock = self.clock;
        let longest_run = self.rows.get(self.chosen as usize).map(|row| row.run);
        if let (Some(entry), Some(longest_run)) = (self.latest(), longest_run) {
            entry.run += ticks;
            if entry.run >= u64::from(longest_run) {
                entry.end = Some(clock);
            }
        }
    }

    /// The rows of the jobs that are not over: by deadline, then by arrival,
    /// then by row number.
    fn order(&self) -> Vec<u32> {
        let waiting = self.entries.iter().filter(|entry| entry.end.is_none());
        let mut places: Vec<_> = waiting
            .map(|entry| {
                let due = entry.arrival + u64::from(self.rows[entry.row].deadline);
                (due, entry.arrival, entry.row as u32)
            })
            .collect();
        places.sort_unstable();
        places.into_iter().map(|(_, _, row)| row).collect()
    }

    fn no_job_is_late(&self) -> bool {
        self.entries.iter().all(|entry| {
            let due = entry.arrival + u64::from(self.rows[entry.row].deadline);
            match entry.end {
                Some(end) => end <= due,
                None => self.clock < due,
            }
        })
    }
}

/// After an accepted finish: each job of later deadline whose row is not brittle has
/// gained all of the unused ticks, since the limit of its budget cuts nothing in
/// a run that began with a start; and no other job has gained any.
fn check_gains(before: &Session, after: &Session, [row, unused]: [u64; 2]) {
    let finished = before.job(row as u32).expect("a finished job waited");
    let slots = before.slots.iter().zip(&after.slots);
    for (row, (old, new)) in slots.enumerate() {
        if let (Some(old), Some(new)) = (old.job, new.job) {
            let gains = budget(&before.rows, row) >= 0 && old.due > finished.due;
            let gain = if gains { unused as i64 } else { 0 };
            assert_eq!(new.budget, old.budget + gain, "{before:?}");
        }
    }
}

/// After an accepted arrival: its job has no budget if its row is brittle, and otherwise
/// at least V.
fn check_arrival(before: &Session, after: &Session, row: u32) {
    let v = budget(&before.rows, row as usize);
    let job = after.job(row).expect("a job that arrived waits");
    let expected = if v < 0 { 0 } else { before.slack(row as usize) };
    assert!(expected >= v.max(0), "{before:?}");
    assert_eq!(job.budget, expected, "{before:?}");
}

fn check_accepted(command: Command, before: &Session, after: &Session, values: [u64; 2]) {
    match command {
        Command::Arrive(row) => check_arrival(before, after, row),
        Command::Finish => check_gains(before, after, values),
        _ => {}
    }
}

/// What a run reached.
#[derive(Default)]
struct Reached {
    ties: Ties,
    gifts: Gifts,
    draws: Draws,
    mixed: Mixed,
    arrivals: ArrivalCounts,
    /// A job waits that has spent its budget, though its row is not brittle.
    is_spent: bool,
}

fn has_spent_job(session: &Session) -> bool {
    let mut rows = 0..session.rows.len();
    rows.any(|row| {
        let job = session.slots[row].job;
        job.is_some_and(|job| job.budget == 0) && !session.is_brittle(row)
    })
}

/// Runs random calls and checks ledger and session after each.
fn check_run(rng: &mut Rng, rows: &[Row], style: Style, steps: usize) -> Reached {
    let mut driver = Driver::new(rows);
    let mut ledger = Ledger::new(rows);
    let mut reached = Reached::default();
    for _ in 0..steps {
        let command = random_command(&driver.machine, rng, style);
        reached.ties.watch(&driver.machine, command);
        reached.gifts.watch(&driver.machine, command);
        reached.draws.watch(&driver.machine, command);
        reached.mixed.watch(&driver.machine, command);
        if let Command::Arrive(row) = command {
            let session = &driver.machine.session;
            reached.arrivals.add(session, u64::from(row));
        }
        let before = driver.machine.session.clone();
        if let Outcome::Answered(_, answer) = driver.push(command) {
            if answer.number == 0 {
                ledger.enter(command, answer.values);
                check_accepted(command, &before, &driver.machine.session, answer.values);
            } else {
                assert_eq!(driver.machine.session, before, "{command:?}");
            }
        }
        let text = String::from_utf8_lossy(&driver.text);
        assert_eq!(driver.machine.session.clock, ledger.clock, "{text}");
        assert!(driver.machine.session.is_sound(), "{text}");
        assert_eq!(driver.machine.session.in_order(), ledger.order(), "{text}");
        assert!(ledger.no_job_is_late(), "{text}");
        reached.is_spent |= has_spent_job(&driver.machine.session);
    }
    reached
}

/// Checks runs, and gives what each of them reached.
fn check_runs(make: RowMaker, style: fn(&mut Rng) -> Style, runs: usize) -> Vec<Reached> {
    let mut rng = Rng::new(5);
    let check = |_| {
        let rows = admitted(&mut rng, make);
        let style = style(&mut rng);
        check_run(&mut rng, &rows, style, 200)
    };
    (0..runs).map(check).collect()
}

#[test]
fn no_job_is_late_on_small_tables() {
    check_runs(small_rows, Style::random, 1_000);
}

#[test]
fn no_job_is_late_at_full_load() {
    check_runs(full_rows, Style::random, 300);
}

#[test]
fn no_job_is_late_on_light_tables() {
    check_runs(light_rows, Style::random, 100);
}

#[test]
fn no_job_is_late_where_deadlines_meet() {
    let runs = check_runs(staggered_rows, Style::meeting, 500);
    let shown = runs.iter().filter(|run| run.ties.shown).count();
    assert!(shown > 300, "{shown} of 500 show a tie");
}

#[test]
fn no_job_is_late_where_finishes_give() {
    for make in [light_rows as RowMaker, small_rows, staggered_rows] {
        let runs = check_runs(make, Style::giving, 200);
        let several = runs.iter().filter(|run| run.gifts.several).count();
        assert!(several > 20, "{several} of 200 give to a job twice");
    }
}

#[test]
fn no_job_is_late_where_words_are_passed_over() {
    let runs = check_runs(roomy_rows, Style::drawing, 300);
    let passed = runs.iter().filter(|run| run.draws.passed).count();
    assert!(passed > 200, "{passed} of 300 pass a word over");
}

#[test]
fn no_job_is_late_where_some_rows_are_brittle() {
    let styles: [fn(&mut Rng) -> Style; 5] = [
        Style::limiting,
        Style::random,
        Style::giving,
        Style::drawing,
        Style::meeting,
    ];
    for style in styles {
        let runs = check_runs(part_brittle_rows, style, 300);
        let taken = runs
            .iter()
            .filter(|run| run.mixed.has("take a candidate other than the head"));
        let taken = taken.count();
        assert!(taken > 40, "{taken} of 300 run another than the head");
    }
}

#[test]
fn no_job_is_late_where_jobs_come_later_than_others_counted_on() {
    let runs = check_runs(counting_rows, Style::counting, 1_000);
    let later = runs.iter().filter(|run| {
        run.arrivals
            .refuted()
            .contains(&"jobs to come from the clock on")
    });
    let later = later.count();
    assert!(later > 500, "{later} of 1000 count from after the clock");
    let spent = runs.iter().filter(|run| run.is_spent).count();
    assert!(spent > 300, "{spent} of 1000 spend a budget");
}

#[test]
fn a_late_job_is_noticed() {
    let mut ledger = Ledger::new(&[Row::from([2, 5, 4])]);
    ledger.enter(Command::Arrive(0), [0, 4]);
    ledger.advance(3);
    assert!(ledger.no_job_is_late());
    ledger.advance(1);
    assert!(!ledger.no_job_is_late());
    ledger.enter(Command::Choose, [0, 2]);
    ledger.enter(Command::Finish, [0, 2]);
    assert!(ledger.no_job_is_late());
    ledger.entries[0].end = Some(5);
    assert!(!ledger.no_job_is_late());
}
