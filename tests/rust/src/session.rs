//! The session record and when it is sound.

use crate::table::{budget, opinion, opinion_on, rows_of, Kind, Opinion, Refusal, Row, HORIZON};

/// The last tick the clock may show.
pub const CLOCK_END: u64 = 1 << 53;
/// The row number that stands for idle.
pub const IDLE: u32 = 16;

/// A waiting job: absolute deadline, remaining ticks, inversion budget left.
#[derive(Clone, Copy, Debug, PartialEq, Eq)]
pub struct Job {
    pub due: u64,
    pub left: u64,
    pub budget: i64,
}

/// What changes for one row: its earliest next arrival and its waiting job.
#[derive(Clone, Copy, Debug, Default, PartialEq, Eq)]
pub struct Slot {
    pub next: u64,
    pub job: Option<Job>,
}

/// The choice in force: a row or `IDLE`, and its ticks left.
#[derive(Clone, Copy, Debug, PartialEq, Eq)]
pub struct Choice {
    pub row: u32,
    pub left: u64,
}

/// A session; slot i belongs to row i.
#[derive(Clone, Debug, PartialEq, Eq)]
pub struct Session {
    pub clock: u64,
    pub rows: Vec<Row>,
    pub kind: Kind,
    pub slots: Vec<Slot>,
    pub choice: Option<Choice>,
}

/// Starts the table of a slice that holds three numbers to a row: its fresh session, or
/// the refusal of the opinion on it.
pub fn start(words: &[u32]) -> Result<Session, Refusal> {
    let opinion = opinion(words)?;
    Ok(Session::fresh(rows_of(words), &opinion))
}

/// Starts the table of these rows, as if they were handed in as a slice.
pub fn start_rows(rows: &[Row]) -> Result<Session, Refusal> {
    let opinion = opinion_on(rows)?;
    Ok(Session::fresh(rows.to_vec(), &opinion))
}

impl Session {
    /// The fresh session of rows with the opinion on them.
    pub fn fresh(rows: Vec<Row>, opinion: &Opinion) -> Self {
        Session {
            clock: 0,
            slots: vec![Slot::default(); rows.len()],
            rows,
            kind: opinion.kind,
            choice: None,
        }
    }

    /// Whether the V of a row is negative, in a session whose kind is right.
    pub fn is_brittle(&self, row: usize) -> bool {
        match self.kind {
            Kind::Loose => false,
            Kind::Tight => true,
            Kind::Mixed => budget(&self.rows, row) < 0,
        }
    }

    /// The budget with which a job of this row arrives now; finishes may add to it.
    pub fn arrival_budget(&self, row: usize) -> i64 {
        if self.is_brittle(row) {
            return 0;
        }
        self.slack(row).max(0)
    }

    /// D − C of a job of this row that arrives now, less what each other row can ask for
    /// up to its deadline. Never below V in a sound session: the jobs of another row are
    /// due after the clock and T apart, so that they ask for no more than V takes off.
    pub fn slack(&self, row: usize) -> i64 {
        let due = self.clock + u64::from(self.rows[row].deadline);
        let others = (0..self.rows.len()).filter(|other| *other != row);
        let asked =
            others.map(|other| self.waiting_work(other, due) + self.coming_work(other, due));
        self.rows[row].spare() - asked.sum::<i64>()
    }

    /// The remaining ticks of a row's waiting job, if it is due no later than this.
    pub fn waiting_work(&self, row: usize, due: u64) -> i64 {
        let job = self.slots[row].job.filter(|job| job.due <= due);
        job.map_or(0, |job| job.left as i64)
    }

    /// C for each deadline no later than this one that the jobs of a row still to come
    /// can have.
    pub fn coming_work(&self, row: usize, due: u64) -> i64 {
        i64::from(self.rows[row].run) * self.coming_deadlines(row, due) as i64
    }

    /// How many deadlines no later than this one the jobs of a row still to come can
    /// have: the first of them arrives now, or once it may, the others T apart.
    pub fn coming_deadlines(&self, row: usize, due: u64) -> u64 {
        let first = self.next_deadline(row);
        if due < first {
            return 0;
        }
        (due - first) / u64::from(self.rows[row].period) + 1
    }

    /// The most that the budget of a job of this row can be.
    pub fn budget_limit(&self, row: usize) -> i64 {
        if self.is_brittle(row) {
            return 0;
        }
        self.rows[row].spare()
    }

    /// The earliest deadline that the next job of any brittle row can have: it arrives
    /// now, or once it may. None without such a row.
    pub fn brittle_deadline(&self) -> Option<u64> {
        let brittle = (0..self.rows.len()).filter(|row| self.is_brittle(*row));
        brittle.map(|row| self.next_deadline(row)).min()
    }

    /// The rows that may arrive now.
    pub fn ready_rows(&self) -> Vec<u32> {
        (0..self.slots.len() as u32)
            .filter(|row| self.slots[*row as usize].next <= self.clock)
            .collect()
    }

    /// The least of all rows' earliest next arrivals.
    pub fn next_arrival(&self) -> u64 {
        let nexts = self.slots.iter().map(|slot| slot.next);
        nexts.min().expect("a table has rows")
    }

    /// The earliest deadline that the next job of a row can have.
    pub fn next_deadline(&self, row: usize) -> u64 {
        self.clock.max(self.slots[row].next) + u64::from(self.rows[row].deadline)
    }

    /// The waiting job of a row; idle has none.
    pub fn job(&self, row: u32) -> Option<&Job> {
        self.slots.get(row as usize)?.job.as_ref()
    }

    /// All waiting jobs, by row number.
    pub fn waiting(&self) -> impl Iterator<Item = &Job> {
        self.slots.iter().filter_map(|slot| slot.job.as_ref())
    }

    /// Waiting jobs of strictly earlier deadline than that of this row; under
    /// idle every waiting job counts as earlier.
    pub fn earlier(&self, row: u32) -> impl Iterator<Item = &Job> {
        let due = self.job(row).map(|job| job.due);
        self.waiting()
            .filter(move |job| due.is_none_or(|due| job.due < due))
    }

    /// When the waiting job of a row arrived: its deadline − D. Signed, since a
    /// sound session may hold a job that came before tick 0.
    pub fn arrival(&self, row: u32) -> Option<i128> {
        let relative = self.rows.get(row as usize)?.deadline;
        let due = self.job(row)?.due;
        Some(i128::from(due) - i128::from(relative))
    }

    /// The rows of all waiting jobs in order: by deadline, then by arrival,
    /// then by row number.
    pub fn in_order(&self) -> Vec<u32> {
        let mut places: Vec<(u64, i128, u32)> = (0..self.slots.len() as u32)
            .filter_map(|row| Some((self.job(row)?.due, self.arrival(row)?, row)))
            .collect();
        places.sort_unstable();
        places.into_iter().map(|(_, _, row)| row).collect()
    }

    /// Soundness as the specification states it, for a session of any content.
    pub fn is_sound(&self) -> bool {
        self.kind_is_right() && self.fits_its_table()
    }

    /// Soundness but for the kind, of a session whose kind is right.
    pub fn fits_its_table(&self) -> bool {
        self.clock <= CLOCK_END
            && self.slots.len() == self.rows.len()
            && (0..self.rows.len()).all(|row| self.slot_is_sound(row))
            && self.choice.is_none_or(|choice| self.allows(choice))
    }

    fn kind_is_right(&self) -> bool {
        opinion_on(&self.rows).is_ok_and(|opinion| opinion.kind == self.kind)
    }

    /// Compared over i128, so that no value of the record can wrap.
    fn slot_is_sound(&self, row: usize) -> bool {
        let slot = &self.slots[row];
        let Row {
            run,
            period,
            deadline,
        } = self.rows[row];
        let next = i128::from(slot.next);
        let due = next - i128::from(period) + i128::from(deadline);
        next <= i128::from(self.clock) + i128::from(period)
            && slot.job.is_none_or(|job| {
                (1..=u64::from(run)).contains(&job.left)
                    && i128::from(job.due) == due
                    && self.clock < job.due
                    && (0..=self.budget_limit(row)).contains(&job.budget)
            })
    }

    /// Whether a choice fits the waiting jobs.
    fn allows(&self, choice: Choice) -> bool {
        let left = choice.left;
        let fits_row = match self.job(choice.row) {
            Some(job) => left <= job.left,
            None => choice.row == IDLE,
        };
        fits_row
            && (1..=HORIZON).contains(&left)
            && self
                .earlier(choice.row)
                .all(|job| i128::from(left) <= i128::from(job.budget))
    }
}
