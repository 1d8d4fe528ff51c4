//! How mixed is the schedule of a plant? This host runs a table for as many hyperperiods as the
//! meter takes, once shuffled and once with no random words, which is plain earliest-deadline-first,
//! and prints in how many ticks the two differ, and the meter of both for several interval lengths.
//!
//!     rustc --edition 2021 -L native=crates/host/out -l static=host examples/hosts/mixed.rs
//!
//! Arguments: C, T and D of each row; four rows if none are given. Every job arrives as early as its
//! row allows, from tick 0 on, and runs for C ticks, so that all hyperperiods bring the same jobs and
//! differ by the shuffling alone. Status 1 if the table is refused, two hyperperiods are more than
//! the meter takes, or a call is refused. mixed.c is the same host in C and prints the same.

// A host need not use all of the binding.
#[allow(dead_code)]
#[path = "../../bindings/rust/shuffle.rs"]
mod shuffle;

use std::process::exit;

use shuffle::{meter, opinion, Arrival, Session, METER_STRETCHES, METER_TICKS, ROWS};

/// C, T, D of each row: the table of plant.rs.
const PLANT: [u32; 12] = [2, 20, 20, 3, 30, 25, 8, 60, 50, 5, 100, 100];

struct Table {
    words: Vec<u32>,
    /// The hyperperiod: the least common multiple of all T.
    ticks: usize,
    /// As many of them as the meter takes.
    stretches: usize,
}

/// SplitMix64; a real host draws its words from a source that nobody can guess.
fn draw(random: &mut u64) -> u64 {
    *random = random.wrapping_add(0x9e37_79b9_7f4a_7c15);
    let mut z = *random;
    z = (z ^ (z >> 30)).wrapping_mul(0xbf58_476d_1ce4_e5b9);
    z = (z ^ (z >> 27)).wrapping_mul(0x94d0_49bb_1331_11eb);
    z ^ (z >> 31)
}

fn divisor(a: usize, b: usize) -> usize {
    if b == 0 {
        a
    } else {
        divisor(b, a % b)
    }
}

/// The table of these words; the other way: why there is none.
fn read_table(words: Vec<u32>) -> Result<Table, &'static str> {
    if !opinion(&words).is_admitted() {
        return Err("the table is refused");
    }
    let mut ticks = 1;
    for row in words.chunks(3) {
        if ticks <= METER_TICKS {
            ticks = ticks / divisor(ticks, row[1] as usize) * row[1] as usize;
        }
    }
    let stretches = (METER_TICKS / ticks).min(METER_STRETCHES);
    if stretches < 2 {
        return Err("two hyperperiods are more than the meter takes");
    }
    Ok(Table {
        words,
        ticks,
        stretches,
    })
}

/// The rows whose job arrives at a tick, all in one call.
fn arrive(session: &mut Session, table: &Table, clock: usize) -> bool {
    let mut list = [Arrival::of(0); ROWS];
    let mut n = 0;
    for (row, words) in table.words.chunks(3).enumerate() {
        if clock % words[1] as usize == 0 {
            list[n].row = row as u64;
            n += 1;
        }
    }
    session.arrive_all(&mut list[..n]);
    list[..n].iter().all(|arrival| arrival.is_accepted())
}

/// Runs all stretches tick by tick, with four random words to a choice or none: the row of each
/// tick, or nothing if a call was refused.
fn run(table: &Table, words_given: usize) -> Option<Vec<u8>> {
    let (_, mut session) = Session::start(&table.words);
    let mut random = 2026;
    let mut rows = Vec::new();
    for clock in 0..table.stretches * table.ticks {
        if !arrive(&mut session, table, clock) {
            return None;
        }
        if session.span == 0 {
            let a = draw(&mut random);
            let b = draw(&mut random);
            let words = [a as u32, (a >> 32) as u32, b as u32, (b >> 32) as u32];
            if !session.choose(&words[..words_given]).is_accepted() {
                return None;
            }
        }
        rows.push(session.chosen as u8);
        if !session.advance(1).is_accepted() {
            return None;
        }
    }
    Some(rows)
}

/// In how many ticks the two schedules have different rows.
fn print_differing(shuffled: &[u8], unshuffled: &[u8]) {
    let n = shuffled.len();
    let pairs = shuffled.iter().zip(unshuffled);
    let differing = pairs.filter(|(a, b)| a != b).count();
    let percent = 100.0 * differing as f64 / n as f64;
    println!("in {differing} of {n} ticks ({percent:.2} %) another row runs than without words");
}

/// The meter of a schedule, and the schedule entropy in bits that it stands for: eighths, over
/// stretches and window.
fn print_meter(table: &Table, rows: &[u8], window: usize, width: usize) {
    let threshold = window as u64 / 8;
    let sum = meter(rows, table.stretches, table.ticks, window, threshold).first;
    let bits = sum as f64 / (8.0 * (table.stretches * window) as f64);
    print!("  {sum:width$}  {bits:8.2}");
}

/// The most that the meter can show: for each tick 8 log2 of the stretches, rounded down, the
/// highest bit of the power.
fn most(table: &Table) -> usize {
    let eighths = (table.stretches as u64).pow(8).ilog2();
    table.stretches * table.ticks * eighths as usize
}

fn stop(why: &str) -> ! {
    eprintln!("{why}");
    exit(1)
}

fn main() {
    let given: Vec<u32> = std::env::args()
        .skip(1)
        .map(|word| word.parse().unwrap_or(0))
        .collect();
    let words = if given.is_empty() {
        PLANT.to_vec()
    } else {
        given
    };
    let table = read_table(words).unwrap_or_else(|why| stop(why));
    let (Some(shuffled), Some(unshuffled)) = (run(&table, 4), run(&table, 0)) else {
        stop("a call was refused");
    };
    println!(
        "{} hyperperiods of {} ticks: the meter shows 0 to {}",
        table.stretches,
        table.ticks,
        most(&table)
    );
    print_differing(&shuffled, &unshuffled);
    println!("\ninterval  threshold   shuffled      bits  unshuffled      bits");
    let shorter = [1, 8, 32, 128].into_iter();
    for window in shorter.filter(|w| *w < table.ticks).chain([table.ticks]) {
        print!("{window:8}  {:9}", window / 8);
        print_meter(&table, &shuffled, window, 9);
        print_meter(&table, &unshuffled, window, 10);
        println!();
    }
}
