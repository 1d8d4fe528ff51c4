//! Random inputs for `contest`, in kinds that together reach every rule of its format.

use crate::contest::{Line, INPUT_LIMIT, QUESTION_LIMIT, SEARCHED_ROWS, SEARCHED_TICKS};
use crate::damage::damage_once;
use crate::inputs::{kind, Kind, ODD_NUMBERS};
use crate::rng::Rng;
use crate::specification::plain;
use crate::table::{Row, HORIZON, ROW_LIMIT};

pub const KINDS: &[Kind] = &[
    kind("growing", 300, growing),
    kind("three-rows", 200, three_rows),
    kind("close", 240, close),
    kind("slow", 20, slow),
    kind("large", 120, large),
    kind("limits", 160, limits),
    kind("unlawful", 160, unlawful),
    kind("many-rows", 60, many_rows),
    kind("many-questions", 60, many_questions),
    kind("silent", 40, silent),
    kind("spoiled", 160, spoiled),
    kind("damaged", 240, damaged),
    kind("leftover", 60, leftover),
    kind("numbers", 80, odd_number),
    kind("noise", 60, noise),
    kind("special", 80, special),
    kind("byte-limit", 80, byte_limit),
];

/// A text of readable lines.
#[derive(Default)]
struct Text {
    bytes: Vec<u8>,
    rows: Vec<Row>,
    questions: usize,
}

impl Text {
    fn add(&mut self, row: Row) {
        self.rows.push(row);
        Line::Row(row).write(&mut self.bytes);
    }

    fn ask(&mut self, n: u32) {
        self.questions += 1;
        Line::Question(n).write(&mut self.bytes);
    }

    /// Some questions that the search answers, if it takes the rows.
    fn ask_some(&mut self, rng: &mut Rng, most: usize) {
        for _ in 0..rng.below(most + 1) {
            if self.questions < QUESTION_LIMIT {
                let n = ticks(rng);
                self.ask(n);
            }
        }
    }
}

/// A number of ticks that the search takes.
fn ticks(rng: &mut Rng) -> u32 {
    rng.between(1, SEARCHED_TICKS as u32)
}

/// A row that keeps its rule, with T up to a longest one.
fn row(rng: &mut Rng, longest: u32) -> Row {
    let period = rng.between(1, longest);
    let deadline = match rng.chance(1, 2) {
        true => period,
        false => rng.between(1, period),
    };
    let run = match rng.chance(1, 2) {
        true => rng.between(1, deadline.div_ceil(2)),
        false => rng.between(1, deadline),
    };
    Row::from([run, period, deadline])
}

fn longest(rng: &mut Rng) -> u32 {
    rng.pick(&[2, 3, 4, 6, 8, 10, 12, 13, 13, 20])
}

/// Rows and questions by turns.
fn growing(rng: &mut Rng) -> Vec<u8> {
    let mut text = Text::default();
    let longest = longest(rng);
    for _ in 0..rng.pick(&[1, 2, 2, 3, 3, 4]) {
        let row = row(rng, longest);
        text.add(row);
        text.ask_some(rng, 3);
    }
    if text.questions == 0 || rng.chance(1, 2) {
        let n = ticks(rng);
        text.ask(n);
    }
    text.bytes
}

/// Three rows, then questions.
fn three_rows(rng: &mut Rng) -> Vec<u8> {
    let mut text = Text::default();
    let longest = longest(rng);
    for _ in 0..SEARCHED_ROWS {
        let row = row(rng, longest);
        text.add(row);
    }
    text.ask_some(rng, 2);
    let n = ticks(rng);
    text.ask(n);
    text.bytes
}

/// Rows that ask for about as much as there is by one of the last ticks, so that arrivals
/// win late or not at all; all questions from a tick on.
fn close(rng: &mut Rng) -> Vec<u8> {
    let mut text = Text::default();
    let first = row(rng, 6);
    text.add(first);
    let rows = rng.pick(&[2, 2, 2, 3]);
    while text.rows.len() < rows {
        let deadline = rng.between(2, 12);
        let left = deadline.saturating_sub(first.run * (deadline / first.period));
        let run = (left + rng.between(0, 1)).clamp(1, deadline);
        let run = if rows == 3 { run.div_ceil(2) } else { run };
        let period = deadline + rng.between(0, 3);
        text.add(Row::from([run, period, deadline]));
    }
    for n in rng.between(2, 8)..=SEARCHED_TICKS as u32 {
        text.ask(n);
    }
    text.bytes
}

/// Three rows that the search takes long for: with many plays, since the jobs are long and
/// due late, or with many releases, since the jobs are short and come often.
fn slow(rng: &mut Rng) -> Vec<u8> {
    let mut text = Text::default();
    let is_long = rng.chance(2, 3);
    for _ in 0..SEARCHED_ROWS {
        let row = match is_long {
            true => {
                let deadline = rng.between(9, 13);
                let period = deadline + rng.between(0, 1);
                [rng.between(2, deadline), period, deadline]
            }
            false => {
                let period = rng.between(2, 5);
                [1, period, rng.between(2, period)]
            }
        };
        text.add(Row::from(row));
    }
    text.ask(rng.between(10, SEARCHED_TICKS as u32));
    text.bytes
}

/// Rows with T up to 1,000,000, among smaller ones.
fn large(rng: &mut Rng) -> Vec<u8> {
    let mut text = Text::default();
    for _ in 0..rng.between(1, 3) {
        let small = row(rng, 12);
        let any = rng.of_any_size(1, HORIZON as u32);
        let period = rng.pick(&[any, any, any, HORIZON as u32]);
        let deadline = match rng.below(3) {
            0 => period,
            1 => rng.of_any_size(1, period),
            _ => small.deadline.min(period),
        };
        let run = rng.of_any_size(1, deadline);
        text.add(match rng.chance(1, 3) {
            true => small,
            false => Row::from([run, period, deadline]),
        });
        text.ask_some(rng, 2);
    }
    let n = ticks(rng);
    text.ask(n);
    text.bytes
}

/// Rows and N about the limits of the search and beyond.
fn limits(rng: &mut Rng) -> Vec<u8> {
    let mut text = Text::default();
    let longest = longest(rng);
    for _ in 0..rng.pick(&[0, 1, 2, 3, 4, 5]) {
        let row = row(rng, longest);
        text.add(row);
    }
    for _ in 0..rng.between(1, 4) {
        let odd = rng.between(13, 1_000_000);
        let odd = rng.pick(&[0, 0, 13, 13, 14, 24, 268, odd, u32::MAX, u32::MAX - 1]);
        let usual = ticks(rng);
        text.ask(if rng.chance(2, 3) { odd } else { usual });
    }
    text.bytes
}

/// A row that breaks its rule, often in one part alone.
fn unlawful_row(rng: &mut Rng) -> Row {
    let Row {
        run,
        period,
        deadline,
    } = row(rng, 12);
    let above = HORIZON as u32 + rng.pick(&[1, 1, 2, 1_000_000]);
    Row::from(match rng.below(6) {
        0 => [0, period, deadline],
        1 => [deadline + rng.between(1, 3), period, deadline],
        2 => [run, period, period + rng.between(1, 3)],
        3 => [run, above, deadline],
        4 => [run, u32::MAX, deadline],
        _ => rng.pick(&[[0, 0, 0], [1, 0, 0], [1, 0, 1], [1, 1, 0], [u32::MAX; 3]]),
    })
}

/// Among rows one that breaks its rule.
fn unlawful(rng: &mut Rng) -> Vec<u8> {
    let mut text = Text::default();
    let rows = rng.between(1, 4);
    let broken = rng.between(1, rows);
    for place in 1..=rows {
        let row = match place == broken {
            true => unlawful_row(rng),
            false => row(rng, 12),
        };
        text.add(row);
        text.ask_some(rng, 1);
    }
    let n = ticks(rng);
    text.ask(n);
    text.bytes
}

/// About as many rows as there can be.
fn many_rows(rng: &mut Rng) -> Vec<u8> {
    let mut text = Text::default();
    for _ in 0..rng.pick(&[5, 15, 16, 16, 17, 17, 18, 30]) {
        let row = row(rng, 12);
        text.add(row);
        if rng.chance(1, 8) {
            text.ask_some(rng, 1);
        }
    }
    text.ask_some(rng, 2);
    text.bytes
}

/// About as many questions as there can be.
fn many_questions(rng: &mut Rng) -> Vec<u8> {
    let mut text = Text::default();
    let questions = rng.pick(&[11, 12, 12, 13, 13, 14, 40]);
    let last = rng.between(1, 3);
    for place in 0..questions {
        if place == 0 || (rng.chance(1, 6) && text.rows.len() < last as usize) {
            let row = row(rng, 12);
            text.add(row);
        }
        let n = ticks(rng);
        text.ask(rng.pick(&[0, 13, n, n, n, n, n]));
    }
    text.bytes
}

/// No question, and often no row.
fn silent(rng: &mut Rng) -> Vec<u8> {
    let mut text = Text::default();
    for _ in 0..rng.pick(&[0, 1, 2, 3, 4, 16, 17]) {
        let row = row(rng, 12);
        text.add(row);
    }
    text.bytes
}

/// Lines that cannot be read. The first ones are lines for `shuffle`.
const UNREADABLE: &[&str] = &[
    "W 7/",
    "A 0/",
    "G/",
    "R 1/",
    "F/",
    "T 1 4/",
    "T 1 4 4 4/",
    "T 1 4 04/",
    "T 1 4 4294967296/",
    "T 1 4 /",
    "T/",
    "t 1 4 4/",
    "T 1 4 4\r/",
    "N/",
    "N /",
    "N 1 1/",
    "N 1 /",
    "N  1/",
    "N1/",
    "n 1/",
    "N 01/",
    "N 00/",
    "N -1/",
    "N 4294967296/",
    "N 18446744073709551617/",
    "N 1\r/",
    "NN 1/",
    " N 1/",
    "/",
    "\r/",
    " /",
    "\0/",
    "0 N 0 0 0/",
    "? 13 1 0/",
    "# a note/",
];

/// A text with questions, of some kind.
fn some(rng: &mut Rng) -> Vec<u8> {
    let makers = [growing, growing, three_rows, limits, silent];
    rng.pick(&makers)(rng)
}

/// Puts a line before a random one, or at the end.
fn insert_line(rng: &mut Rng, text: &mut Vec<u8>, line: &[u8]) {
    let after = (1..=text.len()).filter(|place| text[place - 1] == b'\n');
    let starts: Vec<usize> = [0].into_iter().chain(after).collect();
    let place = rng.pick(&starts);
    text.splice(place..place, line.iter().copied());
}

/// Unreadable lines among readable ones.
fn spoiled(rng: &mut Rng) -> Vec<u8> {
    let mut text = some(rng);
    for _ in 0..rng.pick(&[1, 1, 1, 2]) {
        let line = plain(rng.pick(UNREADABLE));
        insert_line(rng, &mut text, line.as_bytes());
    }
    text
}

fn damaged(rng: &mut Rng) -> Vec<u8> {
    let mut text = some(rng);
    for _ in 0..rng.pick(&[1, 1, 1, 2, 3, 8]) {
        damage_once(rng, &mut text);
    }
    text
}

/// Bytes after the last newline, often those of a line.
fn leftover(rng: &mut Rng) -> Vec<u8> {
    let mut text = some(rng);
    let line = plain(rng.pick(&["N 1", "N 5", "T 1 4 4", "T 1 4", "N", "x", "G", "\r", " "]));
    text.extend(line.bytes());
    text
}

/// A number of unusual form in a line among others.
fn odd_number(rng: &mut Rng) -> Vec<u8> {
    let line = rng.pick(&["T # 9 9/", "T 1 # 9/", "T 1 9 #/", "N #/", "N #/", "N 1 #/"]);
    let number = rng.pick(ODD_NUMBERS);
    let before = rng.pick(&["", "T 2 10 10/", "T 2 3 3/T 1 2 2/N 6/"]);
    let after = rng.pick(&["", "N 1/", "N 9/T 1 3 3/N 4/"]);
    let text = [before, line, after].concat();
    plain(&text).replace('#', number).into_bytes()
}

/// Bytes with no or little structure.
fn noise(rng: &mut Rng) -> Vec<u8> {
    let length = rng.below(60);
    if rng.chance(1, 4) {
        return (0..length).map(|_| rng.draw() as u8).collect();
    }
    let pieces = [
        "T 1 4 4/", "T 2 3 2/", "N 1/", "N 4/", "N 8/", "N", "T", " ", "/", "7",
    ];
    let text: String = (0..rng.below(20)).map(|_| rng.pick(&pieces)).collect();
    plain(&text).into_bytes()
}

/// Short inputs for single rules, with `/` for a line end and a space for a tab.
pub const SPECIALS: &[&str] = &[
    "",
    "/",
    "//",
    "x",
    "x/",
    "N",
    "N/",
    "N 0/",
    "N 1/",
    "N 12/",
    "N 13/",
    "N 1",
    "T 1 1 1",
    "T 1 1 1/",
    "T 1 1 1/N 1",
    "T 1 1 1/N 1/",
    "T 1 1 1/N 12/",
    "T 1 1 1/N 13/",
    "T 1 1 1/N 0/",
    "T 1 1 1/N 4294967295/",
    "T 1 1 1/T 1 1 1/N 1/",
    "T 1 1 1/T 1 1 1/T 1 1 1/N 1/N 12/",
    "T 1 1 1/T 1 12 12/N 11/N 12/",
    "T 1 1 1/T 1 12 12/T 1 12 12/N 11/N 12/",
    "T 1 1 1/T 1 13 13/N 12/N 13/",
    "T 1 2 2/T 2 3 3/N 5/N 6/T 3 9 4/N 4/N 13/",
    "T 1 2 2/T 1 3 3/T 1 6 6/N 9/",
    "T 1 2 2/T 1 3 3/T 1 7 6/N 6/",
    "T 2 4 3/T 2 4 4/N 3/N 4/N 7/",
    "T 12 12 12/T 1 12 12/N 11/N 12/",
    "T 1 2 1/T 1 2 1/N 1/",
    "T 2 2 2/T 1 1000000 2/N 2/",
    "T 1 1000000 1000000/N 12/",
    "T 1 1000001 1/N 1/",
    "T 1 1000000 1/N 1/",
    "T 0 1 1/N 1/",
    "T 2 2 1/N 1/",
    "T 1 1 2/N 1/",
    "T 1 1 1/T 1 1 1/T 1 1 1/T 1 1 1/N 1/",
    "T 0 0 0/",
    "T 0 0 0/N 0/",
    "N 1/T 1 1 1/",
    "N 1/T 1 1 1/N 1/T 1 1 1/N 1/",
    "\r/",
    "T 1 1 1/N 1\r/",
    "T 1 1 1\r/N 1/",
    "T 1 1 1/G/N 1/",
    "T 1 1 1/A 0/",
    "T 1 1 1/N 1//N 1/",
];

fn special(rng: &mut Rng) -> Vec<u8> {
    plain(rng.pick(SPECIALS)).into_bytes()
}

/// The longest readable lines, and beyond them bytes up to about where reading ends. The
/// bytes are those of one line, which can't be read, or of more.
fn byte_limit(rng: &mut Rng) -> Vec<u8> {
    let mut text = Vec::new();
    for _ in 0..rng.pick(&[ROW_LIMIT, ROW_LIMIT, 3]) {
        Line::Row(Row::from([u32::MAX - rng.between(0, 9); 3])).write(&mut text);
    }
    for _ in 0..rng.pick(&[QUESTION_LIMIT, QUESTION_LIMIT, 0]) {
        Line::Question(u32::MAX - rng.between(0, 9)).write(&mut text);
    }
    if rng.chance(1, 3) {
        return text;
    }
    let length = INPUT_LIMIT + rng.pick(&[0, 0, 1, 2, 5, 4_000]) - rng.pick(&[0, 0, 1, 2]);
    match rng.chance(1, 2) {
        true => text.push(rng.pick(b"NTx")),
        false => text.extend(b"N\t1\nN\t"),
    }
    text.resize(length, rng.pick(b"019x\t"));
    let end = rng.below(3) + INPUT_LIMIT - 2;
    if rng.chance(1, 2) && end < text.len() {
        text[end] = b'\n';
    }
    text
}
