//! Ways from a seed to a trial that go wrong in one part: for the comparison, which counts
//! the seeds of which they would make another trial.

use std::iter::{once, repeat};
use std::mem::swap;

use crate::session::IDLE;
use crate::table::Row;
use crate::tally::ONCE;
use crate::trials::{digits, lines, next, table, table_of, Way, FACTOR, INCREMENT, MODULUS, RIGHT};

/// NOT the product's way: what is otherwise, of how many seeds one must have another trial
/// by it, and the change that makes it of the right one.
pub struct Wrong {
    pub name: &'static str,
    pub one_in: u64,
    change: fn(&mut Way),
}

const fn wrong(name: &'static str, one_in: u64, change: fn(&mut Way)) -> Wrong {
    Wrong {
        name,
        one_in,
        change,
    }
}

impl Wrong {
    /// Whether the trial of a seed would be another one. Only the lines up to the first
    /// that differs are made.
    pub fn differs(&self, seed: u32) -> bool {
        let mut way = RIGHT;
        (self.change)(&mut way);
        let differs = lines(&way, seed).ne(lines(&RIGHT, seed));
        differs
    }
}

pub const WRONG: [Wrong; 22] = [
    wrong("the seed as first word", 1, |way| way.skipped = 0),
    wrong("the second number as first word", 1, |way| way.skipped = 2),
    wrong("no increment", 1, |way| {
        way.next = |number| (FACTOR * u64::from(number) % MODULUS) as u32
    }),
    wrong("modulus 2^31", 2, |way| {
        way.next = |number| ((FACTOR * u64::from(number) + INCREMENT) % (MODULUS / 2)) as u32
    }),
    wrong("modulus 2^32 − 1", 2, |way| {
        way.next = |number| ((FACTOR * u64::from(number) + INCREMENT) % (MODULUS - 1)) as u32
    }),
    wrong("a product cut at the greatest number", 2, |way| {
        way.next = |number| {
            let product = number.saturating_mul(FACTOR as u32);
            product.wrapping_add(INCREMENT as u32)
        }
    }),
    wrong("499 lines", 1, |way| way.lines -= 1),
    wrong("501 lines", 1, |way| way.lines += 1),
    wrong("the highest row first", 1, |way| {
        way.arriving = |rows| rows.last().copied()
    }),
    wrong("steps past an arrival", 2, |way| {
        way.ticks = |_, choice| choice.left
    }),
    wrong("steps of a job past an arrival", 2, |way| {
        way.ticks = |session, choice| match choice.row {
            IDLE => (RIGHT.ticks)(session, choice),
            _ => choice.left,
        }
    }),
    wrong("two words before each choice", 1, |way| {
        way.chooses = |state| state.queued > 1
    }),
    wrong("no word while one is queued", 2, |way| {
        way.chooses = |state| !state.machine.words.is_empty()
    }),
    wrong("the table of the first number", 2, |way| {
        way.table = |seed| table(next(seed))
    }),
    wrong("digits from the highest on", 2, |way| {
        way.table = |seed| {
            let digits = format!("{seed:o}").into_bytes();
            let digits = digits.into_iter().map(|digit| u32::from(digit - b'0'));
            table_of(digits.chain(repeat(0)))
        }
    }),
    wrong("rows from the lowest digit on", 2, |way| {
        way.table = |seed| table_of(digits(seed).take(1).chain(digits(seed)))
    }),
    wrong("the bits of a digit the other way round", 2, |way| {
        way.table = |seed| {
            let turned = |digit| digit % 2 * 4 + digit / 2 % 2 * 2 + digit / 4;
            let rows = digits(seed).skip(1).map(turned);
            table_of(digits(seed).take(1).chain(rows))
        }
    }),
    wrong("D before T", 2, |way| {
        way.table = |seed| changed(seed, |row| swap(&mut row.period, &mut row.deadline))
    }),
    wrong("T always D", 2, |way| {
        way.table = |seed| changed(seed, |row| row.period = row.deadline)
    }),
    wrong("C always 3", 2, |way| {
        way.table = |seed| changed(seed, |row| row.run = 3)
    }),
    wrong("5 rows always", 2, |way| {
        way.table = |seed| table_of(once(0).chain(digits(seed).skip(1)))
    }),
    wrong("nothing of the seed 0", ONCE, |way| {
        way.table = |seed| match seed {
            0 => Vec::new(),
            _ => table(seed),
        }
    }),
];

/// The table of a seed with each row changed.
fn changed(seed: u32, change: fn(&mut Row)) -> Vec<Row> {
    let mut rows = table(seed);
    rows.iter_mut().for_each(change);
    rows
}
