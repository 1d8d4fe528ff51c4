//! Task tables: rows, inversion budgets, demand bound, busy length, and the opinion
//! on a table.

use std::iter::from_fn;

/// Most rows in a table.
pub const ROW_LIMIT: usize = 16;
/// Longest period, and the last tick at which demand is compared.
pub const HORIZON: u64 = 1_000_000;

/// One task: longest run (C), period (T) and relative deadline (D).
#[derive(Clone, Copy, Debug, PartialEq, Eq)]
pub struct Row {
    pub run: u32,
    pub period: u32,
    pub deadline: u32,
}

impl Row {
    /// 1 ≤ C ≤ D ≤ T ≤ 1,000,000.
    pub fn is_lawful(&self) -> bool {
        1 <= self.run
            && self.run <= self.deadline
            && self.deadline <= self.period
            && u64::from(self.period) <= HORIZON
    }

    /// D − C; signed, since the row may be unlawful.
    pub fn spare(&self) -> i64 {
        i64::from(self.deadline) - i64::from(self.run)
    }

    /// The row as it stands in a slice: C, T, D.
    pub fn numbers(&self) -> [u32; 3] {
        [self.run, self.period, self.deadline]
    }
}

impl From<[u32; 3]> for Row {
    fn from([run, period, deadline]: [u32; 3]) -> Self {
        Row {
            run,
            period,
            deadline,
        }
    }
}

/// What a table is admitted as; the number is the one shown in answers.
#[derive(Clone, Copy, Debug, PartialEq, Eq)]
pub enum Kind {
    Loose = 1,
    Tight = 2,
    Mixed = 3,
}

/// The refusal of a table: its number and two values.
#[derive(Clone, Copy, Debug, PartialEq, Eq)]
pub struct Refusal {
    pub number: u32,
    pub values: [u64; 2],
}

impl Refusal {
    fn new(number: u32, first: u64, second: u64) -> Self {
        Refusal {
            number,
            values: [first, second],
        }
    }
}

/// The opinion on a table that is admitted: its kind, and V of each row.
#[derive(Clone, Debug, PartialEq, Eq)]
pub struct Opinion {
    pub kind: Kind,
    pub budgets: Vec<i64>,
}

/// The rows of a slice, three numbers to a row.
pub fn rows_of(words: &[u32]) -> Vec<Row> {
    let rows = words.chunks_exact(3);
    rows.map(|row| Row::from([row[0], row[1], row[2]]))
        .collect()
}

/// The slice of rows, three numbers to a row.
pub fn words_of(rows: &[Row]) -> Vec<u32> {
    rows.iter().flat_map(Row::numbers).collect()
}

/// A search for the least tick up to a limit whose demand exceeds it; it gives
/// that demand too.
pub type Search = fn(&[Row], u64) -> Option<(u64, u64)>;

/// The opinion on a slice that holds three numbers to a row. It makes no session.
pub fn opinion(words: &[u32]) -> Result<Opinion, Refusal> {
    opinion_by(words, first_overload)
}

/// The opinion with another search for the overload that refusal 3 names.
pub fn opinion_by(words: &[u32], search: Search) -> Result<Opinion, Refusal> {
    check_length(words.len())?;
    judge(&rows_of(words), search)
}

/// The opinion on rows, as if they were handed in as a slice.
pub fn opinion_on(rows: &[Row]) -> Result<Opinion, Refusal> {
    check_length(3 * rows.len())?;
    judge(rows, first_overload)
}

/// Refusal 1, unless a slice of this length holds 1 to 16 rows.
fn check_length(length: usize) -> Result<(), Refusal> {
    if length == 0 || length > 3 * ROW_LIMIT || !length.is_multiple_of(3) {
        return Err(Refusal::new(1, length as u64, 0));
    }
    Ok(())
}

/// The opinion on 1 to 16 rows.
fn judge(rows: &[Row], search: Search) -> Result<Opinion, Refusal> {
    if let Some(unlawful) = rows.iter().position(|row| !row.is_lawful()) {
        return Err(Refusal::new(2, unlawful as u64, 0));
    }
    let budgets = budgets(rows);
    let kind = kind_of(&budgets);
    if kind != Kind::Loose {
        check_demand(rows, search)?;
    }
    Ok(Opinion { kind, budgets })
}

/// Refusal 3 or 4, unless the demand never exceeds the tick up to the busy length.
fn check_demand(rows: &[Row], search: Search) -> Result<(), Refusal> {
    let busy = busy_length(rows);
    if let Some((tick, demand)) = search(rows, busy.unwrap_or(HORIZON)) {
        return Err(Refusal::new(3, tick, demand));
    }
    match busy {
        Some(_) => Ok(()),
        None => Err(Refusal::new(4, HORIZON, 0)),
    }
}

/// The kind that these V lead to if the table is admitted: loose if none is negative,
/// tight if each is.
fn kind_of(budgets: &[i64]) -> Kind {
    match budgets.iter().filter(|v| **v < 0).count() {
        0 => Kind::Loose,
        brittle if brittle == budgets.len() => Kind::Tight,
        _ => Kind::Mixed,
    }
}

/// The kind that lawful rows have if they are admitted.
pub fn kind_by_budgets(rows: &[Row]) -> Kind {
    kind_of(&budgets(rows))
}

/// The rows of negative V; all rows must be lawful.
pub fn brittle_rows(rows: &[Row]) -> Vec<usize> {
    let all = 0..rows.len();
    all.filter(|row| budget(rows, *row) < 0).collect()
}

/// V of each row; all rows must be lawful.
pub fn budgets(rows: &[Row]) -> Vec<i64> {
    (0..rows.len()).map(|row| budget(rows, row)).collect()
}

/// The inversion budget V of a row; all rows must be lawful.
pub fn budget(rows: &[Row], row: usize) -> i64 {
    let own = rows[row];
    let interference: i64 = rows
        .iter()
        .enumerate()
        .filter(|(other, _)| *other != row)
        .map(|(_, other)| i64::from(other.run) * i64::from(own.deadline.div_ceil(other.period)))
        .sum();
    i64::from(own.deadline) - i64::from(own.run) - interference
}

/// The demand bound at a tick; all rows must be lawful.
pub fn demand(rows: &[Row], tick: u64) -> u64 {
    rows.iter()
        .filter(|row| u64::from(row.deadline) <= tick)
        .map(|row| {
            let later_jobs = (tick - u64::from(row.deadline)) / u64::from(row.period);
            u64::from(row.run) * (later_jobs + 1)
        })
        .sum()
}

/// What all rows ask for within `length` ticks of arriving together.
fn request(rows: &[Row], length: u64) -> u64 {
    rows.iter()
        .map(|row| u64::from(row.run) * length.div_ceil(u64::from(row.period)))
        .sum()
}

/// The busy length, unless there is none up to the horizon.
///
/// `request` never falls as its argument grows, so the iteration from 1 cannot
/// step over the least fixed point.
pub fn busy_length(rows: &[Row]) -> Option<u64> {
    let mut length = 1;
    while length <= HORIZON {
        let next = request(rows, length);
        if next == length {
            return Some(length);
        }
        length = next;
    }
    None
}

/// The busy length by its definition: the least r from 1 on that fits.
pub fn busy_length_by_scan(rows: &[Row]) -> Option<u64> {
    (1..=HORIZON).find(|length| request(rows, *length) == *length)
}

/// The last tick at which demand is compared.
pub fn compared_range(rows: &[Row]) -> u64 {
    busy_length(rows).unwrap_or(HORIZON)
}

/// The ticks at which demand grows, in order, each with its demand.
pub fn growth(rows: &[Row]) -> impl Iterator<Item = (u64, u64)> + '_ {
    let mut due: Vec<u64> = rows.iter().map(|row| u64::from(row.deadline)).collect();
    let mut demand = 0;
    from_fn(move || {
        let tick = *due.iter().min()?;
        for (row, due) in rows.iter().zip(&mut due) {
            if *due == tick {
                demand += u64::from(row.run);
                *due += u64::from(row.period);
            }
        }
        Some((tick, demand))
    })
}

/// The least tick up to `limit` whose demand exceeds it, and that demand.
///
/// Only the ticks at which demand grows are visited: between them the tick
/// grows and the demand does not.
pub fn first_overload(rows: &[Row], limit: u64) -> Option<(u64, u64)> {
    growth(rows)
        .take_while(|(tick, _)| *tick <= limit)
        .find(|(tick, demand)| demand > tick)
}

/// Every tick up to `limit` whose demand exceeds it, by trying each tick.
pub fn overloads_by_scan(rows: &[Row], limit: u64) -> impl Iterator<Item = (u64, u64)> + '_ {
    (1..=limit)
        .map(|tick| (tick, demand(rows, tick)))
        .filter(|(tick, demand)| demand > tick)
}

/// The kind of lawful rows by the definitions, each tick tried; none if the
/// table is refused.
pub fn kind_by_scan(rows: &[Row]) -> Option<Kind> {
    let kind = kind_by_budgets(rows);
    if kind == Kind::Loose {
        return Some(kind);
    }
    let length = busy_length_by_scan(rows)?;
    let overload = overloads_by_scan(rows, length).next();
    overload.is_none().then_some(kind)
}
