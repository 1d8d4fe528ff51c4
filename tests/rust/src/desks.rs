//! Random inputs for `opinions`, in kinds that together reach every rule of its format.

use crate::damage::damage_once;
use crate::driver::table_text;
use crate::inputs::{kind, Kind, ODD_NUMBERS};
use crate::opinions::INPUT_LIMIT;
use crate::overloaded::{late_overload_rows, overloaded_rows};
use crate::rng::Rng;
use crate::specification::plain;
use crate::table::{self, Row, HORIZON, ROW_LIMIT};
use crate::tables::{
    admitted_as, any_rows, close_rows, full_rows, light_rows, long_busy_rows, part_brittle_rows,
    roomy_rows, small_rows, staggered_rows, unlawful_rows, RowMaker,
};

pub const KINDS: &[Kind] = &[
    kind("tables", 60, one_table),
    kind("files", 200, file),
    kind("long-files", 10, long_file),
    kind("late", 80, late_file),
    kind("spoiled", 200, spoiled_file),
    kind("damaged", 200, damaged_file),
    kind("empty-lines", 120, file_with_empty_lines),
    kind("row-limit", 80, row_limit),
    kind("leftover", 60, leftover),
    kind("numbers", 60, odd_number),
    kind("noise", 60, noise),
    kind("special", 60, special),
    kind("byte-limit", 40, byte_limit),
    kind("empty-lines-only", 4, only_empty_lines),
];

/// A table of any kind, or refused for any reason, which the model judges quickly.
fn rows(rng: &mut Rng) -> Vec<Row> {
    let makers: [RowMaker; 11] = [
        any_rows,
        light_rows,
        roomy_rows,
        small_rows,
        tight_rows,
        tight_rows,
        staggered_rows,
        part_brittle_rows,
        close_rows,
        overloaded_rows,
        unlawful_rows,
    ];
    rng.pick(&makers)(rng)
}

fn tight_rows(rng: &mut Rng) -> Vec<Row> {
    let makers: [RowMaker; 2] = [full_rows, small_rows];
    let make = rng.pick(&makers);
    admitted_as(rng, make, table::Kind::Tight)
}

/// The lines of such a table; sometimes it has none.
fn table(rng: &mut Rng) -> Vec<u8> {
    match rng.below(12) {
        0 => Vec::new(),
        _ => table_text(&rows(rng)),
    }
}

/// Tables with an empty line after each, but sometimes not after the last, or two.
fn file_of(rng: &mut Rng, tables: &[Vec<u8>]) -> Vec<u8> {
    let mut text = Vec::new();
    for table in tables {
        text.extend(table);
        text.push(b'\n');
    }
    match rng.below(8) {
        0..3 => drop(text.pop()),
        3 => text.push(b'\n'),
        _ => {}
    }
    text
}

fn tables(rng: &mut Rng, most: usize) -> Vec<Vec<u8>> {
    (0..rng.below(most + 1)).map(|_| table(rng)).collect()
}

fn one_table(rng: &mut Rng) -> Vec<u8> {
    let tables = [table(rng)];
    file_of(rng, &tables)
}

fn file(rng: &mut Rng) -> Vec<u8> {
    let tables = tables(rng, 12);
    file_of(rng, &tables)
}

fn long_file(rng: &mut Rng) -> Vec<u8> {
    let tables = tables(rng, 300);
    file_of(rng, &tables)
}

/// Among others a table that is overloaded late, or whose busy length is long or none.
fn late_file(rng: &mut Rng) -> Vec<u8> {
    let makers: [RowMaker; 2] = [late_overload_rows, long_busy_rows];
    let late = table_text(&rng.pick(&makers)(rng));
    let mut tables = tables(rng, 4);
    tables.insert(rng.below(tables.len() + 1), late);
    file_of(rng, &tables)
}

/// Lines that no table has. The first ones are lines for `shuffle`.
const UNREADABLE: &[&[u8]] = &[
    b"W\t7\n",
    b"A\t0\n",
    b"G\n",
    b"R\t1\n",
    b"F\n",
    b"T\t1\t4\n",
    b"T\t1\t4\t4\t4\n",
    b"T\t1\t4\t04\n",
    b"T\t1\t4\t4294967296\n",
    b"T\t1\t4\t\n",
    b"T\t1\t4\t4\t\n",
    b"T 1 4 4\n",
    b"t\t1\t4\t4\n",
    b"T\t1\t4\t4\r\n",
    b"\r\n",
    b"\t\n",
    b" \n",
    b"\0\n",
    b"T\n",
    b"M\t0\t1\t2\n",
    b"?\t13\t1\t0\n",
    b"# a note\n",
];

/// The places in a text at which a line begins, and its end.
fn line_starts(text: &[u8]) -> Vec<usize> {
    let after = (1..=text.len()).filter(|place| text[place - 1] == b'\n');
    [0].into_iter().chain(after).collect()
}

fn insert_line(rng: &mut Rng, text: &mut Vec<u8>, line: &[u8]) {
    let place = rng.pick(&line_starts(text));
    text.splice(place..place, line.iter().copied());
}

/// Some unreadable lines among those of a table.
fn spoil(rng: &mut Rng, table: &mut Vec<u8>) {
    for _ in 0..rng.pick(&[1, 1, 1, 2, 3, 6]) {
        let line = rng.pick(UNREADABLE);
        insert_line(rng, table, line);
    }
}

/// Tables of which some are spoiled.
fn spoiled_file(rng: &mut Rng) -> Vec<u8> {
    let mut tables = tables(rng, 8);
    tables.push(table(rng));
    let part = rng.pick(&[1, 2, 4]);
    for table in &mut tables {
        if rng.chance(part, 4) {
            spoil(rng, table);
        }
    }
    file_of(rng, &tables)
}

fn damaged_file(rng: &mut Rng) -> Vec<u8> {
    let tables = tables(rng, 5);
    let mut text = file_of(rng, &tables);
    for _ in 0..rng.pick(&[1, 1, 1, 2, 3, 8]) {
        damage_once(rng, &mut text);
    }
    text
}

/// Empty lines at the beginning, at the end and at any line between.
fn file_with_empty_lines(rng: &mut Rng) -> Vec<u8> {
    let mut tables = tables(rng, 5);
    for table in &mut tables {
        if rng.chance(1, 4) {
            spoil(rng, table);
        }
    }
    let mut text = file_of(rng, &tables);
    for _ in 0..rng.between(1, 4) {
        insert_line(rng, &mut text, b"\n");
    }
    let [before, after] = [(); 2].map(|()| rng.pick(&[0, 0, 1, 2, 3]));
    [vec![b'\n'; before], text, vec![b'\n'; after]].concat()
}

/// A table of about as many rows as there can be, or of far more; now and then with a
/// row that breaks its rule, or with unreadable lines.
fn long_table(rng: &mut Rng) -> Vec<u8> {
    let count = rng.pick(&[15, 16, 16, 16, 17, 17, 18, 33, 100]);
    let period = rng.between(ROW_LIMIT as u32, HORIZON as u32);
    let longest = rng.pick(&[1, 1, 2, period / 16]);
    let row = |rng: &mut Rng| Row::from([rng.between(1, longest.max(1)), period, period]);
    let mut rows: Vec<Row> = (0..count).map(|_| row(rng)).collect();
    if rng.chance(1, 6) {
        rows[rng.below(count)].run = 0;
    }
    let mut text = table_text(&rows);
    if rng.chance(1, 5) {
        spoil(rng, &mut text);
    }
    text
}

fn row_limit(rng: &mut Rng) -> Vec<u8> {
    let mut tables = tables(rng, 3);
    for _ in 0..rng.between(1, 2) {
        let table = long_table(rng);
        tables.insert(rng.below(tables.len() + 1), table);
    }
    file_of(rng, &tables)
}

/// Bytes after the last newline, often those of a row.
fn leftover(rng: &mut Rng) -> Vec<u8> {
    let mut text = file(rng);
    let line = match rng.below(3) {
        0 => rng.pick(UNREADABLE).to_vec(),
        1 => b"T\t1\t4\t4\n".to_vec(),
        _ => table_text(&small_rows(rng)[..1]),
    };
    let length = rng.pick(&[1, line.len() - 1]);
    text.extend(&line[..length]);
    text
}

/// A number of unusual form in a row among others.
fn odd_number(rng: &mut Rng) -> Vec<u8> {
    let line = rng.pick(&["T # 9 9/", "T 1 # 9/", "T 1 9 #/"]);
    let number = rng.pick(ODD_NUMBERS);
    let mut tables = tables(rng, 2);
    let mut text = plain("T 2 10 10/").into_bytes();
    let odd = plain(line).replace('#', number).into_bytes();
    insert_line(rng, &mut text, &odd);
    tables.insert(rng.below(tables.len() + 1), text);
    file_of(rng, &tables)
}

/// Bytes with no or little structure.
fn noise(rng: &mut Rng) -> Vec<u8> {
    let length = rng.below(80);
    if rng.chance(1, 4) {
        return (0..length).map(|_| rng.draw() as u8).collect();
    }
    let pieces: [&[u8]; 9] = [
        b"T\t1\t4\t4\n",
        b"T\t1\t9\t9\n",
        b"T",
        b"\t",
        b"\n",
        b"\n",
        b"\n\n",
        b"G\n",
        b"7",
    ];
    (0..length)
        .flat_map(|_| rng.pick(&pieces))
        .copied()
        .collect()
}

/// Short inputs for single rules of the format, with `/` for a line end and a space for
/// a tab.
pub const SPECIALS: &[&str] = &[
    "",
    "/",
    "//",
    "///",
    "////",
    "x",
    "x/",
    "T",
    "T/",
    "T 1 1 1",
    "T 1 1 1/",
    "T 1 1 1//",
    "T 1 1 1///",
    "/T 1 1 1/",
    "//T 1 1 1//",
    "T 1 1 1//T 1 1 1",
    "T 1 1 1//T 1 1 1/",
    "T 1 1 1///T 1 1 1/",
    "T 1 1 1/x//T 1 1 1/",
    "x//T 1 1 1/",
    "x/x//x/",
    "G//G",
    "T 1 4 4/W 1/T 1 9 9//",
    "W 1/T 1 4 4//T 1 4 4/",
    "T 3 5 2//T 3 5 2/x/",
    "T 0 0 0//T 1 1000001 1//T 1 1000000 1//",
    "T 1 2 2/T 2 3 3//T 1 1 1//",
    "T 1 2 2/T 500000 999999 999999//T 1 2 2/T 500000 1000000 1000000//",
    "\r/\r/",
    "T 1 4 4\r/\r/T 1 4 4/",
];

fn special(rng: &mut Rng) -> Vec<u8> {
    plain(rng.pick(SPECIALS)).into_bytes()
}

/// Up to the limit and beyond, as many tables as an input can have.
fn only_empty_lines(rng: &mut Rng) -> Vec<u8> {
    let most = INPUT_LIMIT + 10;
    let mut text = vec![b'\n'; rng.pick(&[100, 1_000, most])];
    for _ in 0..rng.below(3) {
        insert_line(rng, &mut text, b"T\t1\t1\t1\n");
    }
    text
}

/// Inputs that end, or have a line end, or an empty line, about where reading ends.
fn byte_limit(rng: &mut Rng) -> Vec<u8> {
    let mut text = Vec::new();
    fill(rng, &mut text, INPUT_LIMIT - 1_000);
    let line_end = INPUT_LIMIT + rng.pick(&[0, 0, 0, 0, 1, 2, 5, 9]) - rng.pick(&[0, 0, 0, 1, 2]);
    let is_empty_line = rng.chance(1, 2);
    pad(rng, &mut text, line_end - usize::from(is_empty_line));
    if is_empty_line {
        text.push(b'\n');
    }
    let length = rng.pick(&[
        line_end,
        INPUT_LIMIT - 1,
        INPUT_LIMIT,
        INPUT_LIMIT + 1,
        INPUT_LIMIT + 100,
        INPUT_LIMIT + 5_000,
        400_000,
    ]);
    fill(rng, &mut text, length);
    text.truncate(length);
    text
}

/// Appends tables up to about this length, the same few again and again, now and then
/// with a new one. Some are spoiled.
fn fill(rng: &mut Rng, text: &mut Vec<u8>, length: usize) {
    let mut some = vec![table_text(&small_rows(rng))];
    while text.len() < length {
        if rng.chance(1, 100) || some.len() < 20 {
            let mut new = table(rng);
            if rng.chance(1, 10) {
                spoil(rng, &mut new);
            }
            some.push(new);
        }
        text.extend(&some[rng.below(some.len())]);
        text.push(b'\n');
    }
}

/// Appends rows, and empty lines, until the input has exactly `length` bytes; at least 8
/// bytes must be missing.
fn pad(rng: &mut Rng, text: &mut Vec<u8>, length: usize) {
    // With numbers of 1 to 10 digits a row takes 8 to 35 bytes.
    loop {
        let missing = length - text.len();
        let bytes = match missing {
            0 => return,
            8..=35 => missing,
            _ => rng.between(8, 20) as usize,
        };
        if missing > 60 && rng.chance(1, 4) {
            text.push(b'\n');
        } else {
            text.extend(row_of(bytes));
        }
    }
}

/// A row in so many bytes: one digit to a number, and the others shared out in front.
fn row_of(bytes: usize) -> Vec<u8> {
    let more = bytes - 8;
    let digits = [
        more.min(9),
        (more - more.min(9)).min(9),
        more - more.min(18),
    ];
    let [run, period, deadline] = digits.map(|zeros| 10u32.pow(zeros as u32));
    table_text(&[Row::from([run, period, deadline])])
}
