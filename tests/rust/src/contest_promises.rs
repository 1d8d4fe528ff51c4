//! What is shown of `contest` (§13.3), asked of every output: the answers go by the demand,
//! and each printed line of releases wins whatever is played.

use crate::contest::{due, least_overload, reasons, run_by, Asked, Judge, RIGHT};
use crate::game::{line_wins, Release, RULES};

/// The fields of a line of output: clock, letter, number and two values.
type Fields<'a> = (u64, &'a str, [u64; 3]);

/// What is wrong with an output for an input, even if it is the model's.
pub fn objection(input: &[u8], output: &[u8]) -> Option<String> {
    let asked = run_by(&RIGHT, &mut Judge::new(RULES), input).asked;
    let Some(lines) = read(output) else {
        return Some("the output is not of its form".to_string());
    };
    let mut answers = lines.split(|(_, letter, _)| *letter == "N");
    let before = answers.next().unwrap_or_default();
    let answers = lines
        .iter()
        .filter(|(_, letter, _)| *letter == "N")
        .zip(answers);
    if before.iter().any(|(_, letter, _)| *letter == "A") {
        return Some("a job stands before any answer".to_string());
    }
    asked
        .iter()
        .zip(answers)
        .find_map(|(asked, (answer, jobs))| objection_to(asked, answer, jobs))
}

/// The lines of an output; none if one is not of its form.
fn read(output: &[u8]) -> Option<Vec<Fields<'_>>> {
    let text = std::str::from_utf8(output).ok()?;
    text.lines().map(fields).collect()
}

fn fields(line: &str) -> Option<Fields<'_>> {
    let fields: Vec<&str> = line.split('\t').collect();
    let &[clock, letter, number, first, second] = fields.as_slice() else {
        return None;
    };
    let numbers = [
        number.parse().ok()?,
        first.parse().ok()?,
        second.parse().ok()?,
    ];
    Some((clock.parse().ok()?, letter, numbers))
}

/// What is wrong with the answer to a question and the lines after it.
fn objection_to(asked: &Asked, answer: &Fields, after: &[Fields]) -> Option<String> {
    let Asked { rows, n, .. } = asked;
    let (_, _, [number, first, _]) = *answer;
    let is_refused = !reasons(rows, *n).is_empty();
    if (number == 16) != is_refused {
        return Some(format!(
            "{number} answers a question that is refused: {is_refused}"
        ));
    }
    let is_overloaded = !is_refused && least_overload(rows, *n).is_some();
    if (first == 1) != is_overloaded {
        return Some(format!(
            "the answer for {n} ticks is not that of the demand"
        ));
    }
    let jobs = after.iter().filter(|(_, letter, _)| *letter == "A");
    let line: Vec<(Release, u64)> = jobs
        .map(|(tick, _, [_, row, deadline])| {
            let row = *row as usize;
            (Release { tick: *tick, row }, *deadline)
        })
        .collect();
    line_objection(asked, is_overloaded, &line)
}

/// What is wrong with a printed line of releases and their deadlines.
fn line_objection(asked: &Asked, wins: bool, line: &[(Release, u64)]) -> Option<String> {
    let Asked { rows, n, .. } = asked;
    if !wins {
        return (!line.is_empty()).then(|| "releases follow where arrivals do not win".to_string());
    }
    if line.iter().any(|(release, _)| release.row >= rows.len()) {
        return Some("a release of a row that is not there".to_string());
    }
    let is_due = |(release, deadline): &(Release, u64)| due(rows, *release) == *deadline;
    if !line.iter().all(is_due) {
        return Some("a deadline that is not D after its release".to_string());
    }
    let releases: Vec<Release> = line.iter().map(|(release, _)| *release).collect();
    let wins = line_wins(rows, &releases, *n);
    (!wins).then(|| format!("the releases do not win within {n} ticks whatever is played"))
}
