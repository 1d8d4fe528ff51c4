//! What inputs for `opinions` reach, for the comparison, which counts it.

use std::fmt;

use crate::comparison::Reached;
use crate::opinions::{parts, run, Part, INPUT_LIMIT};
use crate::table::ROW_LIMIT;
use crate::tally::{add_all, too_rare};
use crate::text::{read_line, Command};

/// A table of an input.
struct Seen<'a> {
    part: &'a Part,
    /// Its lines, each with its newline.
    lines: &'a [&'a [u8]],
    /// What the model prints of it.
    answer: &'a [u8],
    next: Option<&'a Part>,
}

impl Seen<'_> {
    /// Whether its line `M` begins so, after the clock; a gap stands for a tab.
    fn is_answered(&self, start: &str) -> bool {
        let start = format!("0 M {start} ").replace(' ', "\t");
        self.answer.starts_with(start.as_bytes())
    }

    fn has_negative_v(&self) -> bool {
        self.answer.contains(&b'-')
    }

    fn is_row(line: &[u8]) -> bool {
        matches!(read_line(line), Some(Command::Row(_)))
    }

    fn has_too_many_rows(&self) -> bool {
        let rows = self.lines.iter().filter(|line| Self::is_row(line));
        rows.count() > ROW_LIMIT
    }

    /// Whether some line is one for `shuffle`, though no row.
    fn has_call(&self) -> bool {
        let mut lines = self.lines.iter();
        lines.any(|line| read_line(line).is_some() && !Self::is_row(line))
    }

    fn has_row_after_another_line(&self) -> bool {
        let mut others = self.lines.iter().skip_while(|line| Self::is_row(line));
        others.any(|line| Self::is_row(line))
    }
}

/// An input, as far as it is read, and its tables.
struct Input<'a> {
    all: &'a [u8],
    read: &'a [u8],
    parts: &'a [Part],
}

impl Input<'_> {
    fn is_cut(&self) -> bool {
        self.all.len() > self.read.len()
    }

    fn ends_a_line(&self) -> bool {
        self.read.ends_with(b"\n")
    }

    fn ends_in_empty_line(&self) -> bool {
        self.read == b"\n" || self.read.ends_with(b"\n\n")
    }
}

/// A sort of tables: its name, of how many inputs one must have such a table, and which
/// tables are such.
struct TableSort {
    name: &'static str,
    one_in: u64,
    has: fn(&Seen) -> bool,
}

const fn table(name: &'static str, one_in: u64, has: fn(&Seen) -> bool) -> TableSort {
    TableSort { name, one_in, has }
}

/// A sort of inputs: what they do, of how many one must be such, and which are.
struct InputSort {
    name: &'static str,
    one_in: u64,
    has: fn(&Input) -> bool,
}

const fn input(name: &'static str, one_in: u64, has: fn(&Input) -> bool) -> InputSort {
    InputSort { name, one_in, has }
}

/// The sorts of tables.
const TABLES: [TableSort; 15] = [
    table("loose", 3, |seen| seen.is_answered("0 1")),
    table("tight", 8, |seen| seen.is_answered("0 2")),
    table("mixed", 4, |seen| seen.is_answered("0 3")),
    table("refused with 1, without a line", 4, |seen| {
        seen.is_answered("1 0") && seen.lines.is_empty()
    }),
    table("refused with 2", 8, |seen| seen.is_answered("2")),
    table("refused with 3", 8, |seen| seen.is_answered("3")),
    table("refused with 4", 160, |seen| seen.is_answered("4")),
    table("of 16 rows and not spoiled", 10, |seen| {
        seen.part.rows.len() == ROW_LIMIT && !seen.part.is_spoiled()
    }),
    table("with a negative V", 4, |seen| seen.has_negative_v()),
    table("spoiled", 3, |seen| seen.part.is_spoiled()),
    table("spoiled by several lines", 6, |seen| {
        seen.part.unreadable.len() > 1
    }),
    table("spoiled with a good one next", 5, |seen| {
        seen.part.is_spoiled() && seen.next.is_some_and(|next| !next.is_spoiled())
    }),
    table("spoiled by a line for shuffle", 8, |seen| seen.has_call()),
    table("with a row after another line", 6, |seen| {
        seen.has_row_after_another_line()
    }),
    table("with a seventeenth row", 30, |seen| {
        seen.has_too_many_rows()
    }),
];

/// The sorts of inputs.
const INPUTS: [InputSort; 9] = [
    input("have no table", 60, |input| input.parts.is_empty()),
    input("begin with an empty line", 12, |input| {
        input.read.starts_with(b"\n")
    }),
    input("end a table with the input", 6, |input| {
        input.ends_a_line() && !input.ends_in_empty_line()
    }),
    input("end in two empty lines", 12, |input| {
        input.read == b"\n\n" || input.read.ends_with(b"\n\n\n")
    }),
    input("have bytes after the last newline", 10, |input| {
        !input.read.is_empty() && !input.ends_a_line()
    }),
    input("have an unreadable line after an empty one", 5, |input| {
        let mut later = input.parts.iter().skip(1);
        later.any(Part::is_spoiled)
    }),
    input("are cut within a line", 160, |input| {
        input.is_cut() && !input.ends_a_line()
    }),
    input("are cut after a row", 500, |input| {
        input.is_cut() && input.ends_a_line() && !input.ends_in_empty_line()
    }),
    input("are cut after an empty line", 500, |input| {
        input.is_cut() && input.ends_in_empty_line()
    }),
];

/// How many tables and inputs are of each sort.
#[derive(Clone, Copy, Debug, Default)]
pub struct PartTally {
    all_tables: u64,
    tables: [u64; TABLES.len()],
    /// Inputs that have a table of the sort.
    inputs_with: [u64; TABLES.len()],
    inputs: [u64; INPUTS.len()],
}

impl PartTally {
    fn add_tables(&mut self, read: &[u8], parts: &[Part], output: &[u8]) {
        let lines: Vec<&[u8]> = read.split_inclusive(|byte| *byte == b'\n').collect();
        let mut groups = lines.split(|line| *line == b"\n");
        let answers: Vec<&[u8]> = output.split_inclusive(|byte| *byte == b'\n').collect();
        let mut answers = answers.split(|line| *line == b"\n");
        let mut has = [false; TABLES.len()];
        for (place, part) in parts.iter().enumerate() {
            let seen = Seen {
                part,
                lines: groups.next().expect("each table has its lines"),
                answer: &answers.next().expect("each has its answer").concat(),
                next: parts.get(place + 1),
            };
            for ((count, has), sort) in self.tables.iter_mut().zip(&mut has).zip(&TABLES) {
                let is_such = (sort.has)(&seen);
                *count += u64::from(is_such);
                *has |= is_such;
            }
        }
        self.all_tables += parts.len() as u64;
        for (count, has) in self.inputs_with.iter_mut().zip(has) {
            *count += u64::from(has);
        }
    }
}

impl Reached for PartTally {
    fn add(&mut self, input: &[u8]) -> Vec<u8> {
        let output = run(input);
        let parts = &parts(input);
        let read = &input[..input.len().min(INPUT_LIMIT)];
        self.add_tables(read, parts, &output);
        let input = Input {
            all: input,
            read,
            parts,
        };
        for (count, sort) in self.inputs.iter_mut().zip(&INPUTS) {
            *count += u64::from((sort.has)(&input));
        }
        output
    }

    fn merge(&mut self, other: PartTally) {
        self.all_tables += other.all_tables;
        add_all(&mut self.tables, other.tables);
        add_all(&mut self.inputs_with, other.inputs_with);
        add_all(&mut self.inputs, other.inputs);
    }

    fn gaps(&self, inputs: u64) -> Vec<String> {
        let tables = self.inputs_with.iter().zip(&TABLES);
        let tables =
            tables.map(|(count, sort)| (count, sort.one_in, format!("have a table {}", sort.name)));
        let files = self.inputs.iter().zip(&INPUTS);
        let files = files.map(|(count, sort)| (count, sort.one_in, sort.name.to_string()));
        let gaps = tables
            .chain(files)
            .flat_map(|(count, one_in, what)| too_rare(inputs, &[(*count, one_in, &what)]));
        gaps.map(|gap| format!("too rare: {gap}")).collect()
    }
}

impl fmt::Display for PartTally {
    fn fmt(&self, formatter: &mut fmt::Formatter) -> fmt::Result {
        let counts = self.tables.iter().zip(&self.inputs_with).zip(&TABLES);
        let tables = counts
            .map(|((count, inputs), sort)| format!("{count} {} (in {inputs} inputs)", sort.name));
        let inputs = self.inputs.iter().zip(&INPUTS);
        let inputs = inputs.map(|(count, sort)| format!("{count} {}", sort.name));
        write!(
            formatter,
            "{} tables: {}; of the inputs {}",
            self.all_tables,
            tables.collect::<Vec<_>>().join(", "),
            inputs.collect::<Vec<_>>().join(", ")
        )
    }
}
