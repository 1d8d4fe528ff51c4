//! Random inputs for `planner`: those for `shuffle`, and more of what it prints.

use crate::busy::{busy_command, busy_rows, Manner, Pace};
use crate::damage::damage_once;
use crate::driver::{table_text, Driver};
use crate::inputs::{
    self, byte_limit, far_clock, kind, late_overload, long_busy_table, long_run, loose_gifts,
    loose_ties, noise, odd_number, overloaded_table, random_input, row_limit, short_run,
    word_limit, Kind,
};
use crate::rng::Rng;
use crate::session::IDLE;
use crate::sessions::random_table;
use crate::specification::plain;
use crate::table::{self, opinion_on, Row};
use crate::tables::unlawful_rows;
use crate::text::{Command, INPUT_LIMIT};

pub const KINDS: &[Kind] = &[
    kind("of-shuffle", 300, any_input),
    kind("busy", 260, loose_run),
    kind("busy-mixed", 140, mixed_run),
    kind("busy-tight", 100, tight_run),
    kind("ties", 120, loose_ties),
    kind("gifts", 100, loose_gifts),
    kind("full-row", 80, full_row_run),
    kind("overloads", 220, overloaded_table),
    kind("cuts", 160, cut_table),
    kind("late-overloads", 30, late_overload),
    kind("long-busy", 60, long_busy_table),
    kind("spoiled", 240, spoiled_run),
    kind("damaged", 140, damaged_run),
    kind("unlawful", 40, unlawful_table),
    kind("bare", 40, bare_table),
    kind("numbers", 30, odd_number),
    kind("noise", 20, noise),
    kind("special", 60, special),
    kind("row-limit", 60, row_limit),
    kind("word-limit", 50, word_limit),
    kind("byte-limit", 24, byte_limit),
    kind("empty", 8, |_| Vec::new()),
    kind("long-runs", 6, long_run),
    kind("long-busy-runs", 8, long_busy_run),
    kind("far-clock", 6, far_clock),
];

/// An input as `shuffle` is compared on.
fn any_input(rng: &mut Rng) -> Vec<u8> {
    random_input(inputs::KINDS, rng).1
}

/// Goes on with a run for some lines, and now and then makes a call that is refused.
fn go_on(driver: &mut Driver, rng: &mut Rng, lines: usize) {
    let pace = rng.pick(&[Pace::AtOnce, Pace::Gaps]);
    let manner = Manner::random(rng, pace);
    let refused = rng.pick(&[0, 1, 3]);
    for _ in 0..lines {
        let command = match rng.chance(refused, 16) {
            true => refused_command(driver, rng),
            false => busy_command(&driver.machine, rng, manner),
        };
        driver.push(command);
    }
}

/// A table with a row that breaks its rule, and often calls after it.
fn unlawful_table(rng: &mut Rng) -> Vec<u8> {
    let mut text = table_text(&unlawful_rows(rng));
    text.extend(plain(rng.pick(&["", "A 0/G/", "x/"])).bytes());
    text
}

/// A table alone.
fn bare_table(rng: &mut Rng) -> Vec<u8> {
    table_text(&random_table(rng))
}

/// A call that is most likely refused.
fn refused_command(driver: &Driver, rng: &mut Rng) -> Command {
    let session = &driver.machine.session;
    let rows = session.rows.len() as u32;
    let left = session.choice.map_or(0, |choice| choice.left as u32);
    let idles = session.choice.is_some_and(|choice| choice.row == IDLE);
    if idles && rng.chance(1, 2) {
        return Command::Finish;
    }
    let early = rng.between(0, rows - 1);
    rng.pick(&[
        Command::Arrive(rows),
        Command::Arrive(IDLE),
        Command::Arrive(early),
        Command::Choose,
        Command::Advance(0),
        Command::Advance(left + 1),
        Command::Advance(1),
        Command::Finish,
    ])
}

fn busy_run(rng: &mut Rng, kind: table::Kind, most_lines: u32) -> Driver {
    let mut driver = Driver::new(&busy_rows(rng, kind));
    let lines = rng.between(4, most_lines) as usize;
    go_on(&mut driver, rng, lines);
    driver
}

fn loose_run(rng: &mut Rng) -> Vec<u8> {
    busy_run(rng, table::Kind::Loose, 160).text
}

fn mixed_run(rng: &mut Rng) -> Vec<u8> {
    busy_run(rng, table::Kind::Mixed, 160).text
}

fn tight_run(rng: &mut Rng) -> Vec<u8> {
    busy_run(rng, table::Kind::Tight, 120).text
}

/// A run on a table of some kind, mostly a loose one.
fn some_run(rng: &mut Rng, most_lines: u32) -> Driver {
    use table::Kind::{Loose, Mixed, Tight};
    let kind = rng.pick(&[Loose, Loose, Mixed, Tight]);
    busy_run(rng, kind, most_lines)
}

/// A run as long as what is read, or longer.
fn long_busy_run(rng: &mut Rng) -> Vec<u8> {
    let mut driver = some_run(rng, 4);
    let length = INPUT_LIMIT + rng.below(2_000) - 1_000;
    while driver.text.len() < length {
        go_on(&mut driver, rng, 200);
    }
    driver.text
}

/// A run on a table in which the C of one row is its D. Two such rows can't be admitted: by
/// the later deadline they would ask for both.
fn full_row_run(rng: &mut Rng) -> Vec<u8> {
    loop {
        let run = rng.between(1, 6);
        let longer = run + rng.between(1, 30);
        let period = rng.pick(&[run, longer, 60]);
        let mut rows = vec![Row::from([run, period, run])];
        for _ in 0..rng.pick(&[0, 0, 1, 1, 2, 4]) {
            let deadline = rng.between(run + 1, 80);
            let long = rng.between(1, (deadline / 4).max(1));
            let row = Row::from([long, deadline + rng.between(0, 20), deadline]);
            rows.insert(rng.below(rows.len() + 1), row);
        }
        if opinion_on(&rows).is_ok() {
            let mut driver = Driver::new(&rows);
            let lines = rng.below(60);
            go_on(&mut driver, rng, lines);
            return driver.text;
        }
    }
}

/// Rows that are due about some tick t, some of them several times by then, with runs that are
/// together a little more than t; and others that are due later.
fn many_due(rng: &mut Rng, t: u32) -> Vec<Row> {
    let count = rng.between(2, 6);
    let mut rows = Vec::new();
    for _ in 0..count {
        let jobs = rng.pick(&[1, 1, 2, 3, 5]).min(t / 2);
        let period = t / jobs;
        let deadline = period - rng.between(0, period / 4);
        let run = rng.between(1, (2 * period / count).clamp(1, deadline));
        rows.push(Row::from([run, period, deadline]));
    }
    for _ in 0..rng.below(3) {
        let deadline = rng.between(t, 3 * t);
        let row = Row::from([rng.between(1, t), 3 * t, deadline]);
        rows.insert(rng.below(rows.len() + 1), row);
    }
    rows
}

/// A row with several long jobs by t, and one that is due at t and takes some ticks more than
/// are left.
fn two_due(rng: &mut Rng, t: u32) -> Vec<Row> {
    let jobs = rng.between(2, 4);
    let period = t / jobs;
    let run = rng.between(period / 2, period);
    let often = Row::from([run, period, period]);
    let left = t - jobs * run;
    let once = Row::from([(left + rng.between(1, 3 * jobs)).min(t), 2 * t, t]);
    match rng.chance(1, 2) {
        true => vec![often, once],
        false => vec![once, often],
    }
}

/// A table of which cuts of every sort are asked for.
fn cut_table(rng: &mut Rng) -> Vec<u8> {
    let t = rng.between(12, 60);
    let rows = match rng.chance(2, 3) {
        true => many_due(rng, t),
        false => two_due(rng, t),
    };
    let mut text = table_text(&rows);
    text.extend(plain(rng.pick(&["", "", "A 0/G/R 1/", "x/"])).bytes());
    text
}

/// Rows, which come too late after another line.
const LATE_ROWS: &[&str] = &["T 1 1000000 1000000/", "T 1 9 9/", "T 0 0 0/"];

/// Lines that would be readable but for the carriage return.
const RETURNS: &[&str] = &[
    "A 0\r/",
    "G\r/",
    "R 1\r/",
    "F\r/",
    "W 7\r/",
    "T 1 9 9\r/",
    "\r/",
];

/// Lines that can't be read at all.
const UNREADABLE: &[&str] = &[
    "T 1 9/",
    "/",
    "a 0/",
    "g/",
    "r 1/",
    "f/",
    "A/",
    "A 0 0/",
    "A 00/",
    "G 1/",
    "R/",
    "R -1/",
    "R 4294967296/",
    "F 0/",
    "W/",
    "W 4294967296/",
    "N 5/",
    "M 0/",
    "E 0/",
    "P 0/",
    "? 13 1 0/",
    "0 E 0 0 0 10 0/",
    " G/",
    "G /",
    "\0/",
    "# a note/",
];

/// Bytes without a newline.
const LEFTOVERS: &[&str] = &[
    "G", "F", "R 1", "A 0", "W 7", "T 1 9 9", "x", "\r", " ", "T 1",
];

/// A run that meets a line that can't be read, mostly with more lines behind it; or bytes
/// without a newline at its end. Often all rows arrive that may, just before that.
fn spoiled_run(rng: &mut Rng) -> Vec<u8> {
    let mut driver = some_run(rng, 60);
    if rng.chance(1, 2) {
        for row in driver.machine.session.ready_rows() {
            driver.push(Command::Arrive(row));
        }
    }
    let sorts = [LATE_ROWS, RETURNS, UNREADABLE, LEFTOVERS];
    let sort = rng.pick(&sorts);
    let line = plain(rng.pick(sort));
    driver.text.extend(line.bytes());
    let lines = match line.ends_with('\n') {
        true => rng.pick(&[0, 1, 12, 12, 30]),
        false => 0,
    };
    go_on(&mut driver, rng, lines);
    driver.text
}

fn damaged_run(rng: &mut Rng) -> Vec<u8> {
    let mut text = match rng.below(3) {
        0 => short_run(rng),
        1 => some_run(rng, 20).text,
        _ => some_run(rng, 80).text,
    };
    for _ in 0..rng.pick(&[1, 1, 1, 2, 3]) {
        damage_once(rng, &mut text);
    }
    text
}

/// Short inputs for single rules, with `/` for a line end and a space for a tab.
pub const SPECIALS: &[&str] = &[
    "",
    "/",
    "x",
    "G/",
    "T 1 1 1",
    "T 1 1 1/",
    "T 1 1 1/A 0/",
    "T 1 1 1/A 0/G/",
    "T 1 1 1/A 0/G/R 1/",
    "T 1 1 1/A 0/G/F/A 0/",
    "T 1 1 1/A 0/x/",
    "T 1 1 1/A 0",
    "T 1 4 4/A 0/T 1 4 4/A 0/",
    "T 1 4 4/A 0/W 1/W 2/G/R 3/G/R 1/",
    "T 1 4 4/A 0/W 1/W 0/G/F/G/F/F/",
    "T 1 4 4/G/R 7/A 0/G/R 1/R 1/",
    "T 3 5 2/",
    "T 3 5 2/A 0/",
    "T 0 0 0/x/",
    "T 1 2 2/T 2 3 3/",
    "T 1 2 2/T 2 3 3/A 0/",
    "T 1 2 2/T 2 3 3/T 3 9 9/",
    "T 1 2 2/T 500000 999999 999999/",
    "T 1 2 2/T 500000 999999 999999/A 0/",
    "T 1 2 2/T 500000 1000000 1000000/A 1/A 0/G/R 1/G/R 1/",
    "T 1 1 1/T 1 1 1/",
    "T 1 1 1/T 1 1000000 1000000/",
    "T 2 2 2/T 2 2 2/T 1 9 9/",
    "T 5 9 9/T 5 9 9/",
    "T 9 9 9/T 1 9 9/",
    "T 1000000 1000000 1000000/A 0/G/R 999999/R 1/",
    "T 1 1000000 1000000/T 1 1 1/",
    "T 2 10 10/T 3 20 15/A 0/A 1/W 4/W 9/G/R 1/W 2/W 5/G/R 6/W 0/G/R 2/",
    "T 2 10 10/T 3 20 15/A 0/A 1/W 4/W 9/G/R 1/W 2/W 5/G/R 6/W 0/G/R 2/G/F/G/R 1/A 0/",
    "T 2 10 5/T 2 20 10/A 1/W 1/W 4/G/R 5/A 0/G/R 2/G/R 2/",
    "T 4 10 10/T 1 20 20/T 1 5 5/T 2 12 12/A 0/A 1/A 2/A 3/G/R 1/G/R 2/G/R 4/G/F/",
    "T 1 5 5/T 3 8 8/T 2 9 9/T 4 20 20/A 0/A 1/A 2/A 3/G/R 1/G/R 3/G/R 2/A 0/G/R 1/G/R 1/",
];

fn special(rng: &mut Rng) -> Vec<u8> {
    plain(rng.pick(SPECIALS)).into_bytes()
}
