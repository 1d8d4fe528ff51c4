//! What is measured: the tables, and each call on a record that is ready for it.

use shuffle_model::record::Request;
use shuffle_model::shuffle::Session as Record;
use shuffle_model::table::{busy_length, words_of, Kind, Row};

/// The kinds of tables, by what the check of soundness has to do.
#[derive(Clone, Copy, Debug, PartialEq, Eq)]
pub enum Shape {
    Loose,
    /// Tight, with a busy length of 378 ticks.
    Short,
    /// Tight, with a busy length of 999,180 ticks and more.
    Long,
    /// Mixed, with a busy length of 840 ticks.
    Mixed,
}

pub const SHAPES: [(Shape, &str); 4] = [
    (Shape::Loose, "loose"),
    (Shape::Short, "tight, short"),
    (Shape::Long, "tight, long"),
    (Shape::Mixed, "mixed"),
];

pub const CALLS: [&str; 7] = [
    "opinion",
    "start",
    "arrive",
    "choose",
    "advance",
    "finish",
    "finish head",
];

/// Whether a call takes a table and no session, so that it has nothing to check.
pub fn takes_table(call: &str) -> bool {
    matches!(call, "opinion" | "start")
}

/// Choices from lists of words, of which some or all are passed over.
pub const CHOICES: [&str; 3] = [
    "choose, 2 words",
    "choose, 4 words, 2 passed over",
    "choose, 1,000 words passed over",
];

/// The words of a choice. With 4 and with 16 loose rows the greatest word is passed
/// over, both between the candidates and between the 20 lengths of the last row.
fn words_for(call: &str, last: u32) -> Vec<u32> {
    match call {
        "choose, 4 words, 2 passed over" => vec![u32::MAX, last, u32::MAX, 7],
        "choose, 1,000 words passed over" => vec![u32::MAX; 1_000],
        _ => vec![last, 7],
    }
}

/// The table of a shape with so many rows; a table of one row is loose.
pub fn table(shape: Shape, count: u32) -> Option<Vec<Row>> {
    let others = 1..count;
    match shape {
        // Different deadlines, so that an inversion is charged to many jobs.
        Shape::Loose => Some(
            (0..count)
                .map(|row| Row::from([20, 3_000 + 50 * row, 3_000 + 50 * row]))
                .collect(),
        ),
        _ if count < 2 => None,
        // V is 140 − 56 − 105 = −21 and 210 − 105 − 2 × 56 = −7.
        Shape::Short => Some(
            [Row::from([56, 140, 140])]
                .into_iter()
                .chain(others.map(|_| Row::from([105 / (count - 1), 210, 210])))
                .collect(),
        ),
        Shape::Mixed => Some((0..count).map(|row| mixed_row(row, count / 2)).collect()),
        // The utilisation of the first row is close to 1, so that request(r)
        // is only a little above r, and the plain iteration is slow.
        Shape::Long => Some(
            [Row::from([41, 42, 42])]
                .into_iter()
                .chain(others.map(|row| {
                    let period = 1_000_000 - row;
                    Row::from([23_800 / (count - 1), period, period])
                }))
                .collect(),
        ),
    }
}

/// A row of the mixed table, in which every second row is brittle and due last: V is
/// 1,200 − 280 − 2 × 560 = −200. That of the others is 1,000 − 840 and more.
fn mixed_row(row: u32, half: u32) -> Row {
    match row % 2 {
        0 => Row::from([560 / half, 1_150, 1_000 + 10 * row]),
        _ => Row::from([280 / half, 1_200, 1_200]),
    }
}

/// The busy length of a shape's table.
pub fn busy(shape: Shape, count: u32) -> u64 {
    table(shape, count)
        .and_then(|rows| busy_length(&rows))
        .expect("the table has a busy length")
}

/// A call, and a record on which it is accepted: every row has a job, but for
/// arrive, which brings the last one. For choose no choice is in force; in a loose and
/// in a mixed session every row is a candidate. For advance and finish the last
/// candidate among the jobs is chosen, so that this finish gives nothing; for "finish
/// head" the head is, so that it gives to all others that are not brittle.
pub struct Case {
    pub request: Request,
    pub record: Record,
}

impl Case {
    pub fn new(rows: &[Row], call: &str) -> Case {
        let words = words_of(rows);
        let last = rows.len() as u64 - 1;
        let (reply, mut record) = Record::start(&words);
        assert!(reply.is_accepted(), "{rows:?}");
        let waiting = if call == "arrive" { last } else { last + 1 };
        for row in 0..waiting {
            assert!(record.arrive(row).is_accepted());
        }
        let draws = words_for(call, last as u32);
        let request = match call {
            "opinion" => Request::Opinion(words),
            "start" => Request::Start(words),
            "arrive" => Request::Arrive(last),
            "choose" => Request::Choose(draws),
            _ if CHOICES.contains(&call) => {
                let mut copy = record;
                assert_eq!(copy.choose(&draws).used, draws.len() as u64, "{call}");
                Request::Choose(draws)
            }
            "advance" | "finish" | "finish head" => {
                let is_head = call == "finish head";
                let draws = if is_head { &[] } else { &draws[..] };
                assert!(record.choose(draws).is_accepted());
                if call == "advance" {
                    Request::Advance(1)
                } else {
                    Request::Finish
                }
            }
            _ => panic!("{call} is no call"),
        };
        Case { request, record }
    }

    /// Whether the kind of the record's table is that of a shape.
    pub fn kind_is(&self, shape: Shape) -> bool {
        let kind = match shape {
            Shape::Loose => Kind::Loose,
            Shape::Short | Shape::Long => Kind::Tight,
            Shape::Mixed => Kind::Mixed,
        };
        self.record.kind == kind as u64
    }
}
