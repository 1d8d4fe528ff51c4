//! Random inputs for the comparison, in kinds that together reach every rule.

use crate::damage::damage_once;
use crate::driver::{table_text, Driver};
use crate::overloaded::{late_overload_rows, overloaded_rows};
use crate::rng::Rng;
use crate::runs::{extend, Style};
use crate::specification::plain;
use crate::table::{self, opinion_on, Row, HORIZON, ROW_LIMIT};
use crate::tables::{
    admitted, admitted_as, any_rows, close_rows, counting_rows, full_rows, light_rows,
    long_busy_rows, part_brittle_rows, roomy_rows, small_rows, staggered_rows, RowMaker,
};
use crate::text::{Command, Machine, INPUT_LIMIT, WORD_LIMIT};
use crate::words::more_words;

/// A kind of input: its name, its share of all inputs, its maker.
pub struct Kind {
    pub name: &'static str,
    weight: usize,
    make: fn(&mut Rng) -> Vec<u8>,
}

pub const fn kind(name: &'static str, weight: usize, make: fn(&mut Rng) -> Vec<u8>) -> Kind {
    Kind { name, weight, make }
}

pub const KINDS: &[Kind] = &[
    kind("tables", 220, any_table),
    kind("long-busy", 12, long_busy_table),
    kind("overloads", 300, overloaded_table),
    kind("late-overloads", 72, late_overload),
    kind("runs", 240, light_run),
    kind("collisions", 200, small_run),
    kind("full-load", 100, full_run),
    kind("ties", 300, loose_ties),
    kind("tight-ties", 140, tight_ties),
    kind("gifts", 300, loose_gifts),
    kind("tight-gifts", 240, tight_gifts),
    kind("draws", 620, long_draws),
    kind("counts", 80, loose_counts),
    kind("mixed-runs", 80, mixed_run),
    kind("mixed-limits", 480, long_limits),
    kind("mixed-ties", 80, mixed_ties),
    kind("mixed-gifts", 250, mixed_gifts),
    kind("mixed-draws", 180, mixed_draws),
    kind("mixed-counts", 240, mixed_counts),
    kind("word-lists", 30, word_lists),
    kind("damaged", 150, damaged_run),
    kind("numbers", 60, odd_number),
    kind("noise", 30, noise),
    kind("special", 20, special),
    kind("row-limit", 10, row_limit),
    kind("word-limit", 8, word_limit),
    kind("byte-limit", 8, byte_limit),
    kind("long-runs", 6, long_run),
    kind("far-clock", 4, far_clock),
];

/// A random input of some kind, and the place of that kind.
pub fn random_input(kinds: &[Kind], rng: &mut Rng) -> (usize, Vec<u8>) {
    let all_weights: usize = kinds.iter().map(|kind| kind.weight).sum();
    let mut ticket = rng.below(all_weights);
    for (index, kind) in kinds.iter().enumerate() {
        match ticket.checked_sub(kind.weight) {
            Some(rest) => ticket = rest,
            None => return (index, (kind.make)(rng)),
        }
    }
    unreachable!("a ticket lies below the sum of all weights")
}

/// A table of any kind with a few calls after it.
fn any_table(rng: &mut Rng) -> Vec<u8> {
    let rows = any_rows(rng);
    let steps = rng.below(8);
    table_with_calls(rng, &rows, steps)
}

pub(crate) fn long_busy_table(rng: &mut Rng) -> Vec<u8> {
    let rows = long_busy_rows(rng);
    table_with_calls(rng, &rows, 20)
}

/// An overloaded table with nothing after it, or with a line that must go unanswered:
/// a call, an unreadable one, or a row without its newline, which is no row.
pub fn overloaded_table(rng: &mut Rng) -> Vec<u8> {
    let mut text = table_text(&overloaded_rows(rng));
    let end = rng.pick(&["", "", "G/", "A 0/G/R 1/", "W 7/", "x/", "T 1 9 9", "/"]);
    text.extend(plain(end).bytes());
    text
}

/// A table that is overloaded late, if at all.
pub(crate) fn late_overload(rng: &mut Rng) -> Vec<u8> {
    let rows = late_overload_rows(rng);
    table_with_calls(rng, &rows, 4)
}

/// Random calls after a table; a refused table is followed by one call, which
/// must go unanswered.
fn table_with_calls(rng: &mut Rng, rows: &[Row], steps: usize) -> Vec<u8> {
    if opinion_on(rows).is_ok() {
        return run_on(rng, rows, steps);
    }
    let mut text = table_text(rows);
    Command::Choose.write(&mut text);
    text
}

fn run_on(rng: &mut Rng, rows: &[Row], steps: usize) -> Vec<u8> {
    let mut driver = Driver::new(rows);
    let style = Style::random(rng);
    extend(&mut driver, rng, style, steps);
    driver.text
}

fn run_on_admitted(rng: &mut Rng, make: RowMaker, most_steps: usize) -> Vec<u8> {
    let rows = admitted(rng, make);
    let steps = rng.below(most_steps + 1);
    run_on(rng, &rows, steps)
}

pub fn light_run(rng: &mut Rng) -> Vec<u8> {
    run_on_admitted(rng, light_rows, 80)
}

pub fn small_run(rng: &mut Rng) -> Vec<u8> {
    run_on_admitted(rng, small_rows, 120)
}

pub fn full_run(rng: &mut Rng) -> Vec<u8> {
    run_on_admitted(rng, full_rows, 80)
}

/// A run timed so that deadlines meet.
fn timed_run(rng: &mut Rng, rows: &[Row], most_steps: u32) -> Vec<u8> {
    let mut driver = Driver::new(rows);
    let style = Style::meeting(rng);
    let steps = rng.between(20, most_steps) as usize;
    extend(&mut driver, rng, style, steps);
    driver.text
}

pub(crate) fn loose_ties(rng: &mut Rng) -> Vec<u8> {
    let rows = admitted_as(rng, staggered_rows, table::Kind::Loose);
    timed_run(rng, &rows, 120)
}

fn tight_ties(rng: &mut Rng) -> Vec<u8> {
    let rows = admitted_as(rng, staggered_rows, table::Kind::Tight);
    timed_run(rng, &rows, 120)
}

/// A table some of whose rows, but not all, are brittle: often one that is made for
/// it, else a small or a full one.
fn mixed_rows(rng: &mut Rng) -> Vec<Row> {
    let makers: [RowMaker; 6] = [
        part_brittle_rows,
        part_brittle_rows,
        part_brittle_rows,
        close_rows,
        small_rows,
        full_rows,
    ];
    let make = rng.pick(&makers);
    admitted_as(rng, make, table::Kind::Mixed)
}

fn mixed_run(rng: &mut Rng) -> Vec<u8> {
    run_on_admitted(rng, mixed_rows, 100)
}

fn mixed_ties(rng: &mut Rng) -> Vec<u8> {
    let makers: [RowMaker; 2] = [mixed_rows, staggered_rows];
    let make = rng.pick(&makers);
    let rows = admitted_as(rng, make, table::Kind::Mixed);
    timed_run(rng, &rows, 120)
}

/// A run in which brittle jobs to come often decide what may run.
fn limited_run(rng: &mut Rng, most_steps: u32) -> Vec<u8> {
    let makers: [RowMaker; 2] = [mixed_rows, close_rows];
    let make = rng.pick(&makers);
    let mut driver = Driver::new(&admitted_as(rng, make, table::Kind::Mixed));
    let style = Style::limiting(rng);
    let steps = rng.between(20, most_steps) as usize;
    extend(&mut driver, rng, style, steps);
    driver.text
}

fn long_limits(rng: &mut Rng) -> Vec<u8> {
    limited_run(rng, 160)
}

/// A short run in which brittle jobs to come often decide what may run.
pub fn short_limits(rng: &mut Rng) -> Vec<u8> {
    limited_run(rng, 60)
}

/// A short run of any kind of table in which deadlines meet.
pub fn short_ties(rng: &mut Rng) -> Vec<u8> {
    let rows = admitted(rng, staggered_rows);
    timed_run(rng, &rows, 60)
}

/// A run in which finishes leave time to the jobs behind. At least three rows,
/// so that one waiting job can gain more than once.
fn giving_run(rng: &mut Rng, kind: table::Kind, most_steps: u32) -> Vec<u8> {
    let makers: [RowMaker; 3] = match kind {
        table::Kind::Loose => [light_rows, small_rows, staggered_rows],
        table::Kind::Tight => [full_rows, small_rows, staggered_rows],
        table::Kind::Mixed => [mixed_rows, mixed_rows, staggered_rows],
    };
    let make = rng.pick(&makers);
    let mut rows = Vec::new();
    while rows.len() < 3 {
        rows = admitted_as(rng, make, kind);
    }
    let mut driver = Driver::new(&rows);
    let style = Style::giving(rng);
    let steps = rng.between(20, most_steps) as usize;
    extend(&mut driver, rng, style, steps);
    driver.text
}

pub(crate) fn loose_gifts(rng: &mut Rng) -> Vec<u8> {
    giving_run(rng, table::Kind::Loose, 120)
}

/// The same where finishes give nothing.
fn tight_gifts(rng: &mut Rng) -> Vec<u8> {
    giving_run(rng, table::Kind::Tight, 120)
}

/// The same where finishes give to some rows alone.
fn mixed_gifts(rng: &mut Rng) -> Vec<u8> {
    giving_run(rng, table::Kind::Mixed, 120)
}

/// A short run in which finishes give.
pub fn short_gifts(rng: &mut Rng) -> Vec<u8> {
    giving_run(rng, table::Kind::Loose, 60)
}

/// A run in which jobs come later than others counted on, and are due after them.
fn counting_run(rng: &mut Rng, rows: &[Row], most_steps: u32) -> Vec<u8> {
    let mut driver = Driver::new(rows);
    let style = Style::counting(rng);
    let steps = rng.between(20, most_steps) as usize;
    extend(&mut driver, rng, style, steps);
    driver.text
}

fn loose_counts(rng: &mut Rng) -> Vec<u8> {
    let makers: [RowMaker; 3] = [counting_rows, counting_rows, staggered_rows];
    let make = rng.pick(&makers);
    let rows = admitted_as(rng, make, table::Kind::Loose);
    counting_run(rng, &rows, 120)
}

fn mixed_counts(rng: &mut Rng) -> Vec<u8> {
    let makers: [RowMaker; 4] = [counting_rows, counting_rows, counting_rows, mixed_rows];
    let make = rng.pick(&makers);
    let rows = admitted_as(rng, make, table::Kind::Mixed);
    counting_run(rng, &rows, 120)
}

/// A short run of any kind of table in which jobs come later than others counted on.
pub fn short_counts(rng: &mut Rng) -> Vec<u8> {
    let rows = admitted(rng, counting_rows);
    counting_run(rng, &rows, 50)
}

/// A run in which words lie near the limits of draws.
fn drawing_run(rng: &mut Rng, make: RowMaker, most_steps: u32) -> Vec<u8> {
    let mut driver = Driver::new(&make(rng));
    let style = Style::drawing(rng);
    let steps = rng.between(20, most_steps) as usize;
    extend(&mut driver, rng, style, steps);
    driver.text
}

fn long_draws(rng: &mut Rng) -> Vec<u8> {
    drawing_run(rng, roomy_rows, 200)
}

pub(crate) fn mixed_draws(rng: &mut Rng) -> Vec<u8> {
    drawing_run(rng, mixed_rows, 100)
}

/// A short run in which words lie near the limits of draws.
pub fn short_draws(rng: &mut Rng) -> Vec<u8> {
    drawing_run(rng, roomy_rows, 40)
}

/// Choices between which many words are queued, most of them to be passed over.
fn word_lists(rng: &mut Rng) -> Vec<u8> {
    let mut driver = Driver::new(&roomy_rows(rng));
    let style = Style::drawing(rng);
    for _ in 0..rng.between(1, 12) {
        extend(&mut driver, rng, style, 20);
        let Machine { session, words } = &driver.machine;
        for word in more_words(rng, session, words) {
            driver.push(Command::Word(word));
        }
        driver.push(Command::Choose);
    }
    driver.text
}

pub(crate) fn long_run(rng: &mut Rng) -> Vec<u8> {
    let makers: [RowMaker; 5] = [
        light_rows,
        small_rows,
        full_rows,
        staggered_rows,
        part_brittle_rows,
    ];
    let make = rng.pick(&makers);
    run_on_admitted(rng, make, 12_000)
}

/// Idles to just below 2^32, so that clock and deadlines pass it.
pub(crate) fn far_clock(rng: &mut Rng) -> Vec<u8> {
    let makers: [RowMaker; 3] = [small_rows, staggered_rows, part_brittle_rows];
    let make = rng.pick(&makers);
    let mut driver = Driver::new(&admitted(rng, make));
    let start = (1 << 32) - u64::from(rng.between(0, 40));
    while driver.machine.session.clock < start {
        let ticks = (start - driver.machine.session.clock).min(HORIZON);
        driver.push(Command::Choose);
        driver.push(Command::Advance(ticks as u32));
    }
    let styles: [fn(&mut Rng) -> Style; 3] = [Style::meeting, Style::giving, Style::limiting];
    let style = rng.pick(&styles)(rng);
    extend(&mut driver, rng, style, 300);
    driver.text
}

/// A short run of few rows, so that damage often meets each part of it.
pub fn short_run(rng: &mut Rng) -> Vec<u8> {
    run_on_admitted(rng, small_rows, 12)
}

fn damaged_run(rng: &mut Rng) -> Vec<u8> {
    let mut text = match rng.below(5) {
        0 => light_run(rng),
        1 => small_run(rng),
        2 => short_ties(rng),
        _ => short_run(rng),
    };
    for _ in 0..rng.pick(&[1, 1, 1, 2, 3]) {
        damage_once(rng, &mut text);
    }
    text
}

/// Numbers at the limits of u32 and of what counts as a number.
pub const ODD_NUMBERS: &[&str] = &[
    "0",
    "4294967295",
    "4294967296",
    "4294967300",
    "42949672950",
    "99999999999999999999999",
    "18446744073709551616",
    "18446744073709551617",
    "00",
    "01",
    "007",
    "04294967295",
    "+1",
    "-1",
    "-0",
    "1.0",
    "1e3",
    "0x1",
    "1_000",
    " 1",
    "1 ",
    "",
];

/// Lines in which one number is to be replaced, marked by `#`.
pub const ODD_LINES: &[&str] = &[
    "T # 9 9", "T 1 # 9", "T 1 9 #", "W #", "A #", "R #", "A 0 #",
];

/// An input with a number of unusual form in a line of each shape.
pub(crate) fn odd_number(rng: &mut Rng) -> Vec<u8> {
    let number = rng.pick(ODD_NUMBERS);
    let line = rng.pick(ODD_LINES);
    odd_number_input(line, number)
}

/// The line with the number put in, among lines that make it readable.
pub fn odd_number_input(line: &str, number: &str) -> Vec<u8> {
    let text = if line.starts_with('T') {
        format!("T 2 10 10/{line}/A 0/G/")
    } else {
        format!("T 2 10 10/T 3 20 15/A 0/A 1/W 1/G/{line}/G/R 1/")
    };
    plain(&text).replace('#', number).into_bytes()
}

/// Bytes with no or little structure.
pub(crate) fn noise(rng: &mut Rng) -> Vec<u8> {
    let length = rng.below(60);
    if rng.chance(1, 3) {
        return (0..length).map(|_| rng.draw() as u8).collect();
    }
    let start = if rng.chance(1, 2) {
        "T 1 4 4/T 1 9 9/"
    } else {
        ""
    };
    let letters = (0..length).map(|_| rng.pick(b"TWAGRF\t\t\t\n\n\n0123"));
    plain(start).bytes().chain(letters).collect()
}

/// Short inputs for single rules of the text, with `/` for a line end and a
/// space for a tab.
pub const SPECIALS: &[&str] = &[
    "",
    "/",
    "//",
    "///",
    "T",
    "T/",
    "G",
    "G/",
    "W 1/",
    "X/",
    "T 1 1 1",
    "T 1 1 1/",
    "T 1 1 1/G",
    "T 1 1 1//",
    "T 1 1 1//G/",
    "T 1 1 1/T 1 1 1",
    "T 1 1 1/G/T 1 9 9/",
    "T 1 4 4/W 1/T 1 9 9/",
    "T 1 4 4/A 9/T 1 9 9/G/",
    "T 1 4 4/X/T 1 9 9/G/",
    "T 3 5 2/X/",
    "T 3 5 2/T 1 4 4",
    "T 1 4 4/T 3 5 2/T 0 0 0/",
    "T 1 4/",
    "T 1 4 4 4/",
    "T 1 4 4/A/",
    "T 1 4 4/A 0 0/",
    "T 1 4 4/G 0/",
    "T 1 4 4/F 0/",
    "T 1 4 4/R/",
    "T 1 4 4/W/",
    "T 1 4 4/GG/",
    "T 1 4 4/ G/",
    "T 1 4 4/A0/",
    "T 1 4 4/M 0/",
    "T 1 4 4/? 13/",
    "T 1 1000000 1000000/A 0/G/R 1/G/R 999999/A 0/G/",
    "T 1 1000001 1000000/",
    "T 1 1000001 1000001/",
    "T 1000000 1000000 1000000/A 0/W 1/W 1/G/R 1000000/A 0/",
    "T 1 1000000 1/A 0/G/R 1/A 0/G/R 1000000/A 0/",
    "T 1 4 4/G/R 1000000/G/R 1000001/R 1000000/",
    "T 1 2 2/T 1 2 2/A 0/A 1/G/R 1/G/R 1/A 1/A 0/G/F/F/G/F/F/",
];

fn special(rng: &mut Rng) -> Vec<u8> {
    plain(rng.pick(SPECIALS)).into_bytes()
}

/// Tables of 15 to 18 rows, now and then with one row unlawful.
pub(crate) fn row_limit(rng: &mut Rng) -> Vec<u8> {
    let count = rng.pick(&[ROW_LIMIT - 1, ROW_LIMIT, ROW_LIMIT + 1, ROW_LIMIT + 2]);
    let period = rng.between(16, HORIZON as u32);
    let mut rows = vec![Row::from([1, period, period]); count];
    if rng.chance(1, 4) {
        rows[rng.below(count)].run = 0;
    }
    if count <= ROW_LIMIT {
        return table_with_calls(rng, &rows, 60);
    }
    let mut text = table_text(&rows);
    text.extend(plain("A 15/A 16/G/").bytes());
    text
}

/// Waiting words one below, at and above their limit, with choices between.
pub(crate) fn word_limit(rng: &mut Rng) -> Vec<u8> {
    let mut driver = Driver::new(&[Row::from([20, 900, 900]), Row::from([30, 999, 950])]);
    driver.push(Command::Arrive(0));
    driver.push(Command::Arrive(1));
    let passed = rng.pick(&[0, 0, 4, 7, 8]);
    let count = rng.pick(&[10, WORD_LIMIT - 1, WORD_LIMIT]);
    queue_up_to(&mut driver, rng, count, passed);
    for _ in 0..rng.below(4) {
        driver.push(Command::Choose);
        driver.push(Command::Advance(1));
        queue_up_to(&mut driver, rng, count, passed);
    }
    let count = rng.pick(&[WORD_LIMIT - 1, WORD_LIMIT, WORD_LIMIT + 1]);
    queue_up_to(&mut driver, rng, count, passed);
    let style = Style::random(rng);
    extend(&mut driver, rng, style, 10);
    driver.text
}

/// Queues the words missing to `count`, even where the last is unreadable. Out of 8
/// `passed` are such that a draw between three candidates passes them over.
fn queue_up_to(driver: &mut Driver, rng: &mut Rng, count: usize, passed: usize) {
    for _ in driver.machine.words.len()..count {
        let word = if rng.chance(passed, 8) {
            u32::MAX
        } else {
            rng.between(0, 9)
        };
        driver.push(Command::Word(word));
    }
}

/// Inputs that end, or have a line end, about where reading ends.
pub(crate) fn byte_limit(rng: &mut Rng) -> Vec<u8> {
    let rows = admitted(rng, small_rows);
    let mut driver = Driver::new(&rows);
    let style = Style::random(rng);
    while driver.text.len() < INPUT_LIMIT - 200 {
        extend(&mut driver, rng, style, 1);
    }
    let line_end = INPUT_LIMIT + rng.pick(&[0, 1, 2, 5, 9]) - rng.pick(&[0, 0, 1, 2]);
    pad(&mut driver, rng, line_end);
    let length = rng.pick(&[
        line_end,
        INPUT_LIMIT - 1,
        INPUT_LIMIT,
        INPUT_LIMIT + 1,
        INPUT_LIMIT + 5_000,
        200_000,
    ]);
    while driver.text.len() < length {
        extend(&mut driver, rng, style, 1);
    }
    driver.text.truncate(length);
    driver.text
}

/// Appends arrivals until the input has exactly `length` bytes; at least 18
/// bytes must be missing.
fn pad(driver: &mut Driver, rng: &mut Rng, length: usize) {
    loop {
        // A line of k digits takes k + 3 bytes, so 4 to 13 bytes make a line.
        let missing = length - driver.text.len();
        let bytes = match missing {
            0 => return,
            4..=13 => missing,
            14..=17 => missing - 8,
            _ => rng.between(4, 10) as usize,
        };
        driver.push(Command::Arrive(10u32.pow(bytes as u32 - 4)));
    }
}
