//! Tables chosen by hand for every rule of the format of `opinions`, each with what is
//! printed of it; together they are one input for it, which is stored.

use crate::driver::table_text;
use crate::specification::{plain, EXAMPLES, OVERLOADS};

/// What is printed of a table.
enum Printed {
    /// `M` and `B`, in the form of the listing.
    Opinion(String),
    /// `?` for each of these lines of the table, which count from 1.
    Unreadable(&'static [usize]),
}

/// The lines of a table, and what is printed of it.
struct Plan {
    lines: Vec<u8>,
    printed: Printed,
}

/// Lines in the form of the listing, with `_` for a space.
fn written(lines: &str) -> Vec<u8> {
    plain(lines).replace('_', " ").into_bytes()
}

fn judged(lines: &str, opinion: &str) -> Plan {
    Plan {
        lines: written(lines),
        printed: Printed::Opinion(opinion.to_string()),
    }
}

fn spoiled(lines: &str, unreadable: &'static [usize]) -> Plan {
    Plan {
        lines: written(lines),
        printed: Printed::Unreadable(unreadable),
    }
}

/// The tables that the specification prints, and overloaded ones.
fn known_tables() -> Vec<Plan> {
    let examples = EXAMPLES.iter().chain(OVERLOADS);
    let plans = examples.map(|example| Plan {
        lines: table_text(&example.rows()),
        printed: Printed::Opinion(example.output.to_string()),
    });
    plans.collect()
}

/// Tables at the limits of what is a row, and of what a row may hold.
fn limits() -> Vec<Plan> {
    // V is 99 less 16 runs of 1.
    let budgets = (0..16).map(|row| format!("0 B 0 {row} 83/"));
    let sixteen = "T 1 99 99/".repeat(16);
    let budgets = format!("0 M 0 1 16/{}", budgets.collect::<String>());
    let half = "T 1 99 99/".repeat(8);
    vec![
        no_line(),
        judged("T 2 10 10/T 3 20 15/", "0 M 0 1 2/0 B 0 0 5/0 B 0 1 8/"),
        judged(&sixteen, &budgets),
        spoiled(&format!("{sixteen}T 1 99 99/"), &[17]),
        spoiled(&format!("{sixteen}T 1 99 99/T 1 99 99/"), &[17, 18]),
        spoiled(&format!("{sixteen}T 0 0 0/"), &[17]),
        // The seventeenth line is no row, and the eighteenth is the seventeenth row.
        spoiled(&format!("{sixteen}x/T 1 99 99/"), &[17, 18]),
        // Seventeen lines begin with T, but one of them is no row.
        spoiled(&format!("{half}T 1 99/{half}"), &[9]),
        judged(&format!("{half}T 0 99 99/"), "0 M 2 8 0/"),
        judged("T 1 4 4/T 5 4 4/T 0 0 0/", "0 M 2 1 0/"),
        judged("T 1 4 4294967295/", "0 M 2 0 0/"),
        judged("T 1 1000001 1/", "0 M 2 0 0/"),
        judged("T 1 1000000 1000000/", "0 M 0 1 1/0 B 0 0 999999/"),
    ]
}

/// Tables with lines that are no rows.
fn spoiled_tables() -> Vec<Plan> {
    vec![
        spoiled("T 1 2 2/T 2 3/A 0/", &[2, 3]),
        spoiled(
            "T 1 4 4/W 7/T 1 9 9/A 1/G/R 1/F/T 2 20 20/",
            &[2, 4, 5, 6, 7],
        ),
        spoiled("W 4/", &[1]),
        spoiled("A 0/", &[1]),
        spoiled("G/", &[1]),
        spoiled("R 1/", &[1]),
        spoiled("F/", &[1]),
        // Each row is lawful, and two are an overload; but it is spoiled.
        spoiled("x/T 1 1 1/T 1 1 1/", &[1]),
        spoiled("T 3 5 2/x/", &[2]),
        spoiled("T 1 4 4\r/", &[1]),
        spoiled("T 1 4 4/\r/T 1 9 9/", &[2]),
        spoiled("\r/\r/", &[1, 2]),
        spoiled("T_1_4_4/", &[1]),
        spoiled("_/", &[1]),
        spoiled(" /", &[1]),
        spoiled("T 1 4 4_/T 1 4 4 /T 1 4 /", &[1, 2, 3]),
        spoiled("T  1 4 4/ T 1 4 4/", &[1, 2]),
        spoiled(
            "T 01 4 4/T 1 4 4294967296/T +1 4 4/T -1 4 4/",
            &[1, 2, 3, 4],
        ),
        spoiled("T/T 1/T 1 4/T 1 4 4 4/", &[1, 2, 3, 4]),
        spoiled("t 1 4 4/TT 1 4 4/", &[1, 2]),
        spoiled("M 0 1 2/B 0 0 5/? 13 1 0/", &[1, 2, 3]),
        spoiled("T 1 4 4/#_a_note/T 1 9 9/", &[2]),
    ]
}

fn no_line() -> Plan {
    judged("", "0 M 1 0 0/")
}

/// The last table: the input ends with it, and without a newline.
fn last() -> Plan {
    spoiled("T 1 9 9/T 1 4 4", &[2])
}

/// The tables in an order in which spoiled ones stand between others.
fn plans() -> Vec<Plan> {
    let mut spoiled = spoiled_tables().into_iter();
    let mut plans = Vec::new();
    for plan in limits().into_iter().chain(known_tables()) {
        plans.push(plan);
        plans.extend(spoiled.next());
    }
    plans.extend(spoiled);
    plans.extend([no_line(), no_line(), last()]);
    plans
}

/// The input of all these tables, and its output.
pub fn stored() -> (Vec<u8>, Vec<u8>) {
    let (mut input, mut output) = (Vec::new(), String::new());
    for Plan { lines, printed } in plans() {
        // The empty line that ends the table before.
        if !output.is_empty() {
            input.push(b'\n');
        }
        let before = input.iter().filter(|byte| **byte == b'\n').count();
        output += &match printed {
            Printed::Opinion(lines) => lines,
            Printed::Unreadable(lines) => {
                let lines = lines
                    .iter()
                    .map(|line| format!("0 ? 13 {} 0/", before + line));
                lines.collect()
            }
        };
        output += "/";
        input.extend(lines);
    }
    (input, plain(&output).into_bytes())
}
