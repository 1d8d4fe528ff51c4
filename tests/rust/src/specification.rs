//! The specification's own examples, as it prints them or by hand, moments at which equal deadlines go by who
//! came first (change request 01), moments at which unused time goes to the jobs
//! behind (change request 02), moments at which words are passed over (change
//! request 04), tables of which the first overload is named (change request 06),
//! moments of mixed tables (change request 07), and moments that show with which budget
//! a job arrived.

use std::fs;

use crate::table::Row;

/// The listing's input, with `/` for a line end and a space for a tab.
const LISTING_INPUT: &str =
    "T 2 10 10/T 3 20 15/A 0/A 1/W 4/W 9/G/R 1/W 2/W 5/G/R 2/W 3/G/R 1/F/A 0/";

/// The listing's output in the same form.
const LISTING_OUTPUT: &str = "0 M 0 1 2/0 B 0 0 5/0 B 0 1 8/0 A 0 0 10/0 A 0 1 15/0 G 0 1 1/\
    1 R 0 0 0/1 G 0 16 6/3 R 0 4 0/3 G 8 4 0/4 R 0 3 0/4 F 11 0 0/4 A 7 0 10/";

/// Text written with `/` for a line end and a space for a tab.
pub fn plain(text: &str) -> String {
    text.replace('/', "\n").replace(' ', "\t")
}

/// The example of a section as the document prints it, line by line: what stands on the left,
/// up to its fourteenth place, and the fields on the right.
pub fn printed_example(section: &str) -> Vec<(String, Vec<String>)> {
    let path = concat!(env!("CARGO_MANIFEST_DIR"), "/../../docs/SPECIFICATION.md");
    let document = fs::read_to_string(path).expect("the document is there");
    let section = document.split(&format!("### {section}")).nth(1);
    let example = section.and_then(|text| text.split("**Example**").nth(1));
    let lines = example.expect("the section has an example").lines();
    let listing = lines.skip_while(|line| !line.starts_with("    "));
    listing
        .take_while(|line| line.starts_with("    "))
        .map(|line| {
            let (left, right) = line[4..].split_at(line[4..].len().min(14));
            let fields = right.split_whitespace().map(str::to_string);
            (left.trim().to_string(), fields.collect())
        })
        .collect()
}

/// The listing: input and output.
pub fn listing() -> (String, String) {
    (plain(LISTING_INPUT), plain(LISTING_OUTPUT))
}

/// A table to check and the output for its T lines alone.
pub struct Example {
    pub rows: &'static [[u32; 3]],
    pub output: &'static str,
}

impl Example {
    pub fn rows(&self) -> Vec<Row> {
        self.rows.iter().copied().map(Row::from).collect()
    }
}

/// The tables to check, in the order of the specification.
pub const EXAMPLES: &[Example] = &[
    Example {
        rows: &[[1, 10, 10], [2, 20, 20], [2, 5, 5]],
        output: "0 M 0 1 3/0 B 0 0 3/0 B 0 1 8/0 B 0 2 0/",
    },
    Example {
        rows: &[[4, 10, 10], [1, 20, 20], [1, 5, 5], [2, 12, 12]],
        output: "0 M 0 3 4/0 B 0 0 1/0 B 0 1 3/0 B 0 2 -3/0 B 0 3 -2/",
    },
    Example {
        rows: &[[1, 5, 5], [3, 8, 8], [2, 9, 9], [4, 20, 20]],
        output: "0 M 0 2 4/0 B 0 0 -5/0 B 0 1 -3/0 B 0 2 -5/0 B 0 3 -3/",
    },
    Example {
        rows: &[[1, 1, 1]],
        output: "0 M 0 1 1/0 B 0 0 0/",
    },
    Example {
        rows: &[[1, 2, 2], [2, 3, 3]],
        output: "0 M 3 6 7/",
    },
    Example {
        rows: &[[3, 5, 2]],
        output: "0 M 2 0 0/",
    },
    Example {
        rows: &[],
        output: "0 M 1 0 0/",
    },
    Example {
        rows: &[[1, 2, 2], [500_000, 1_000_000, 1_000_000]],
        output: "0 M 0 3 2/0 B 0 0 -499999/0 B 0 1 0/",
    },
    Example {
        rows: &[[1, 2, 2], [500_000, 999_999, 999_999]],
        output: "0 M 4 1000000 0/",
    },
    Example {
        rows: &[[1, 16, 16]; 16],
        output: "0 M 0 1 16/0 B 0 0 0/0 B 0 1 0/0 B 0 2 0/0 B 0 3 0/0 B 0 4 0/0 B 0 5 0/\
            0 B 0 6 0/0 B 0 7 0/0 B 0 8 0/0 B 0 9 0/0 B 0 10 0/0 B 0 11 0/0 B 0 12 0/\
            0 B 0 13 0/0 B 0 14 0/0 B 0 15 0/",
    },
];

/// Overloaded tables, and some next to them. The demand at a tick is written as a sum
/// over the rows that are due up to it.
pub const OVERLOADS: &[Example] = &[
    // At 2 it is 2, at 3 it is 2 + 2. At 12 it is 2 + 2 + 10, two above the tick; from
    // 4 to 11 no tick is overloaded.
    Example {
        rows: &[[2, 100, 2], [2, 100, 3], [10, 100, 12]],
        output: "0 M 3 3 4/",
    },
    Example {
        rows: &[[10, 100, 12], [2, 100, 3], [2, 100, 2]],
        output: "0 M 3 3 4/",
    },
    // 3 + 2 exceeds 4, and 2 more are due there.
    Example {
        rows: &[[3, 9, 4], [2, 9, 4], [2, 9, 4]],
        output: "0 M 3 4 7/",
    },
    // At 2 it is 2 and at 4 it is 2 + 2, both as long as there is; at 5 it is 6.
    Example {
        rows: &[[2, 10, 2], [2, 10, 4], [2, 10, 5]],
        output: "0 M 3 5 6/",
    },
    // The shortest D, and the least tick that can be overloaded.
    Example {
        rows: &[[2, 9, 2], [1, 9, 2]],
        output: "0 M 3 2 3/",
    },
    Example {
        rows: &[[1, 1, 1], [1, 1, 1]],
        output: "0 M 3 1 2/",
    },
    // At 6 it is 2 + 4, at 7 with the second job of row 0 it is 4 + 4, and then never
    // again too much: the busy length is 8.
    Example {
        rows: &[[2, 5, 2], [4, 20, 6]],
        output: "0 M 3 7 8/",
    },
    // Sixteen rows of 2 are due at 31; with one tick more they are loose.
    Example {
        rows: &[[2, 100, 31]; 16],
        output: "0 M 3 31 32/",
    },
    // Each tick takes 1/2 + 1/3 + 1/5 = 31/30. At 28 it is 14 + 9 + 5, as at most
    // ticks before as long as there is; at 30 it is 15 + 10 + 6.
    Example {
        rows: &[[1, 2, 2], [1, 3, 3], [1, 5, 5]],
        output: "0 M 3 30 31/",
    },
    // The long row is due at the horizon: 1,000,000 + 1, and 500,000 + 500,001.
    Example {
        rows: &[[1, 1, 1], [1, 1_000_000, 1_000_000]],
        output: "0 M 3 1000000 1000001/",
    },
    Example {
        rows: &[[500_001, 1_000_000, 1_000_000], [1, 2, 2]],
        output: "0 M 3 1000000 1000001/",
    },
    // Here a tick before it: 499,999 + 500,001. With one tick less the first overload
    // is past the horizon, and with two there is none.
    Example {
        rows: &[[1, 2, 2], [500_001, 999_999, 999_999]],
        output: "0 M 3 999999 1000000/",
    },
    Example {
        rows: &[[1, 2, 2], [500_000, 999_999, 999_999]],
        output: "0 M 4 1000000 0/",
    },
    Example {
        rows: &[[1, 2, 2], [499_999, 999_999, 999_999]],
        output: "0 M 0 3 2/0 B 0 0 -499998/0 B 0 1 0/",
    },
    // A run that is shortened: at 6 it is 4 + 3, then 3 + 3 and at 9 it is 3 + 3 + 4,
    // then 2 + 3 and at 9 it is 9.
    Example {
        rows: &[[4, 20, 4], [3, 20, 6], [4, 20, 9]],
        output: "0 M 3 6 7/",
    },
    Example {
        rows: &[[3, 20, 4], [3, 20, 6], [4, 20, 9]],
        output: "0 M 3 9 10/",
    },
    Example {
        rows: &[[2, 20, 4], [3, 20, 6], [4, 20, 9]],
        output: "0 M 0 3 3/0 B 0 0 -5/0 B 0 1 -3/0 B 0 2 0/",
    },
];

/// A start, its output, and ways to go on, each with what it adds to the output;
/// in the form of the listing.
struct Moment {
    input: &'static str,
    output: &'static str,
    ends: &'static [[&'static str; 2]],
}

/// Each start with each of its ways to go on: input and output.
fn whole(moments: &[Moment]) -> Vec<(String, String)> {
    let ends = moments
        .iter()
        .flat_map(|moment| moment.ends.iter().map(move |end| (moment, end)));
    ends.map(|(moment, [input, output])| {
        let input = format!("{}{input}", moment.input);
        let output = format!("{}{output}", moment.output);
        (plain(&input), plain(&output))
    })
    .collect()
}

/// The inputs in which deadlines are equal, each with its output.
pub fn ties() -> Vec<(String, String)> {
    whole(TIES)
}

/// The inputs in which jobs finish early, each with its output.
pub fn gifts() -> Vec<(String, String)> {
    whole(GIFTS)
}

/// The inputs in which words are passed over, or nearly, each with its output.
pub fn draws() -> Vec<(String, String)> {
    whole(DRAWS)
}

/// The inputs of mixed tables, and of some next to them, each with its output.
pub fn mixed() -> Vec<(String, String)> {
    whole(MIXED)
}

/// The inputs that show with which budget a job arrived, each with its output.
pub fn arrivals() -> Vec<(String, String)> {
    whole(ARRIVALS)
}

const TIES: &[Moment] = &[
    // Row 1 arrives at 0, row 0 at 10, both for 20: row 1 is the head.
    Moment {
        input: "T 1 10 10/T 1 20 20/A 1/W 1/W 9/G/R 10/A 0/",
        output: "0 M 0 1 2/0 B 0 0 8/0 B 0 1 17/0 A 0 1 20/0 G 0 16 10/10 R 0 0 0/10 A 0 0 20/",
        ends: &[
            ["G/", "10 G 0 1 1/"],
            ["W 0/G/", "10 G 0 1 1/"],
            ["W 1/G/", "10 G 0 0 1/"],
            ["W 2/W 3/G/", "10 G 0 16 4/"],
            [
                "W 4/G/R 1/G/R 1/G/",
                "10 G 0 0 1/11 R 0 0 1/11 G 0 1 1/12 R 0 0 1/12 G 0 16 1000000/",
            ],
        ],
    },
    // The same with the rows exchanged: here the row number agrees.
    Moment {
        input: "T 1 20 20/T 1 10 10/A 0/W 1/W 9/G/R 10/A 1/",
        output: "0 M 0 1 2/0 B 0 0 17/0 B 0 1 8/0 A 0 0 20/0 G 0 16 10/10 R 0 0 0/10 A 0 1 20/",
        ends: &[["G/", "10 G 0 0 1/"], ["W 1/G/", "10 G 0 1 1/"]],
    },
    // On the same tick the row number decides, whichever call came first.
    Moment {
        input: "T 2 10 10/T 2 10 10/A 1/A 0/",
        output: "0 M 0 1 2/0 B 0 0 6/0 B 0 1 6/0 A 0 1 10/0 A 0 0 10/",
        ends: &[["G/", "0 G 0 0 2/"], ["W 1/G/", "0 G 0 1 2/"]],
    },
    // Row 2 arrives at 0, row 0 at 10, row 1 at 20, all for 30.
    Moment {
        input: "T 1 20 20/T 1 10 10/T 1 30 30/A 2/W 1/W 9/G/R 10/A 0/W 2/W 9/G/R 10/A 1/",
        output: "0 M 0 1 3/0 B 0 0 16/0 B 0 1 7/0 B 0 2 24/0 A 0 2 30/0 G 0 16 10/10 R 0 0 0/\
            10 A 0 0 30/10 G 0 16 10/20 R 0 0 0/20 A 0 1 30/",
        ends: &[
            ["W 0/G/", "20 G 0 2 1/"],
            ["W 1/G/", "20 G 0 0 1/"],
            ["W 2/G/", "20 G 0 1 1/"],
            ["W 3/W 9/G/", "20 G 0 16 5/"],
            [
                "G/R 1/G/R 1/G/R 1/",
                "20 G 0 2 1/21 R 0 0 1/21 G 0 0 1/22 R 0 0 1/22 G 0 1 1/23 R 0 0 1/",
            ],
        ],
    },
    // A job of an earlier deadline comes before both.
    Moment {
        input: "T 1 10 10/T 1 20 20/T 1 100 9/A 1/W 1/W 9/G/R 10/A 0/A 2/",
        output: "0 M 0 1 3/0 B 0 0 7/0 B 0 1 16/0 B 0 2 6/0 A 0 1 20/0 G 0 16 10/10 R 0 0 0/\
            10 A 0 0 20/10 A 0 2 19/",
        ends: &[
            ["G/", "10 G 0 2 1/"],
            ["W 1/W 0/G/", "10 G 0 1 1/"],
            ["W 2/W 0/G/", "10 G 0 0 1/"],
        ],
    },
    // The first to come has spent its budget, so it is the only candidate.
    Moment {
        input: "T 1 10 10/T 8 20 20/A 1/W 1/W 9/G/R 10/A 0/",
        output: "0 M 0 1 2/0 B 0 0 1/0 B 0 1 10/0 A 0 1 20/0 G 0 16 10/10 R 0 0 0/10 A 0 0 20/",
        ends: &[["W 1/G/R 8/G/", "10 G 0 1 8/18 R 0 0 1/18 G 0 16 1/"]],
    },
    // Whichever of the two runs, the other's budget of 2 neither limits its
    // span of 4 nor is charged for it.
    Moment {
        input: "T 4 50 10/T 4 50 20/A 1/W 1/W 9/G/R 10/A 0/",
        output: "0 M 0 1 2/0 B 0 0 2/0 B 0 1 12/0 A 0 1 20/0 G 0 16 10/10 R 0 0 0/10 A 0 0 20/",
        ends: &[
            ["W 1/W 1/G/R 4/G/", "10 G 0 0 4/14 R 0 0 1/14 G 0 16 2/"],
            ["W 0/W 1/G/R 4/G/", "10 G 0 1 4/14 R 0 0 1/14 G 0 16 2/"],
        ],
    },
    // Tight: row 1 has run for two ticks when row 0 arrives for its deadline.
    Moment {
        input: "T 2 4 4/T 3 6 6/A 1/G/R 2/A 0/",
        output: "0 M 0 2 2/0 B 0 0 -1/0 B 0 1 -1/0 A 0 1 6/0 G 0 1 3/2 R 0 1 0/2 A 0 0 6/",
        ends: &[
            ["G/", "2 G 0 1 1/"],
            ["W 1/W 1/G/R 1/G/", "2 G 0 1 1/3 R 0 0 1/3 G 0 0 2/"],
        ],
    },
];

const GIFTS: &[Moment] = &[
    // Row 1 has 30 − 3 − 4 = 23. Row 0 gives what it leaves of its 4 ticks.
    Moment {
        input: "T 4 100 20/T 3 100 30/A 0/A 1/G/",
        output: "0 M 0 1 2/0 B 0 0 13/0 B 0 1 23/0 A 0 0 20/0 A 0 1 30/0 G 0 0 4/",
        ends: &[
            ["F/W 1/G/", "0 F 0 0 4/0 G 0 16 27/"],
            ["R 1/F/W 1/G/", "1 R 0 3 0/1 F 0 0 3/1 G 0 16 26/"],
            ["R 3/F/W 1/W 23/G/", "3 R 0 1 0/3 F 0 0 1/3 G 0 16 24/"],
            ["R 4/W 1/G/", "4 R 0 0 1/4 G 0 16 23/"],
        ],
    },
    // Row 1 has the later deadline and gives nothing: row 0 keeps its D − C of 8.
    Moment {
        input: "T 2 100 10/T 3 100 20/A 0/A 1/W 1/G/F/",
        output: "0 M 0 1 2/0 B 0 0 5/0 B 0 1 15/0 A 0 0 10/0 A 0 1 20/0 G 0 1 3/0 F 0 1 3/",
        ends: &[["W 1/G/", "0 G 0 16 8/"]],
    },
    // Both are for 20 at 10, with budgets of 6 and 4: neither gives to the other.
    Moment {
        input: "T 2 10 10/T 2 20 20/A 1/W 1/W 9/G/R 10/A 0/",
        output: "0 M 0 1 2/0 B 0 0 6/0 B 0 1 14/0 A 0 1 20/0 G 0 16 10/10 R 0 0 0/10 A 0 0 20/",
        ends: &[
            ["W 0/G/F/W 1/G/", "10 G 0 1 2/10 F 0 1 2/10 G 0 16 6/"],
            ["W 1/G/F/W 1/G/", "10 G 0 0 2/10 F 0 0 2/10 G 0 16 4/"],
        ],
    },
    // Row 3 arrives with 50 − 14 = 36. Others that finish at once give it 4, 3
    // and 2, in any order, and it then has D − C, 45.
    Moment {
        input: "T 4 100 20/T 3 100 30/T 2 100 40/T 5 100 50/A 0/A 1/A 2/A 3/",
        output: "0 M 0 1 4/0 B 0 0 6/0 B 0 1 16/0 B 0 2 26/0 B 0 3 36/\
            0 A 0 0 20/0 A 0 1 30/0 A 0 2 40/0 A 0 3 50/",
        ends: &[
            [
                "G/F/G/F/G/F/W 1/G/",
                "0 G 0 0 4/0 F 0 0 4/0 G 0 1 3/0 F 0 1 3/0 G 0 2 2/0 F 0 2 2/0 G 0 16 45/",
            ],
            [
                "W 2/W 1/G/F/W 1/W 2/G/F/G/F/W 1/G/",
                "0 G 0 2 2/0 F 0 2 2/0 G 0 1 3/0 F 0 1 3/0 G 0 0 4/0 F 0 0 4/0 G 0 16 45/",
            ],
            // Row 1 runs a tick ahead of row 0, which has 15 then and limits idle.
            [
                "W 1/W 2/G/R 1/F/W 3/G/",
                "0 G 0 1 3/1 R 0 2 0/1 F 0 1 2/1 G 0 16 15/",
            ],
        ],
    },
    // After 40 ticks of idle row 0 has 5 left of its 45, row 1 14 of its 54, row 2 as many.
    // Row 2 runs ahead of row 1, which has 14 + 5 once row 0 has finished.
    Moment {
        input: "T 5 100 50/T 1 100 60/T 40 100 100/A 0/A 1/A 2/W 3/W 39/G/R 40/G/",
        output: "0 M 0 1 3/0 B 0 0 4/0 B 0 1 14/0 B 0 2 54/\
            0 A 0 0 50/0 A 0 1 60/0 A 0 2 100/0 G 0 16 40/40 R 0 0 0/40 G 0 0 5/",
        ends: &[
            ["F/W 1/G/", "40 F 0 0 5/40 G 0 2 19/"],
            ["F/W 2/W 18/G/", "40 F 0 0 5/40 G 0 16 19/"],
            ["F/W 2/W 19/G/", "40 F 0 0 5/40 G 0 16 1/"],
        ],
    },
    // Row 0 waits for 108 when row 1 arrives for 109, with a budget of 9 − 5 − 4 = 0. The 3
    // ticks of row 0 let idle go before row 1.
    Moment {
        input: "T 4 100 40/T 5 100 9/A 1/G/R 5/G/R 63/A 0/W 1/W 31/G/R 32/A 1/G/R 1/",
        output: "0 M 0 1 2/0 B 0 0 31/0 B 0 1 0/0 A 0 1 9/0 G 0 1 5/5 R 0 0 1/\
            5 G 0 16 1000000/68 R 0 999937 0/68 A 0 0 108/68 G 0 16 32/100 R 0 0 0/\
            100 A 0 1 109/100 G 0 0 4/101 R 0 3 0/",
        ends: &[
            ["F/W 1/G/", "101 F 0 0 3/101 G 0 16 3/"],
            ["R 3/W 1/G/", "104 R 0 0 1/104 G 0 1 5/"],
            [
                "R 2/F/W 1/G/R 1/G/",
                "103 R 0 1 0/103 F 0 0 1/103 G 0 16 1/104 R 0 0 0/104 G 0 1 5/",
            ],
        ],
    },
    // The job that gained is over. The next one of its row has 23 again, since row 0 may
    // come at 100 too.
    Moment {
        input: "T 4 100 20/T 3 100 30/A 0/A 1/G/F/G/R 3/G/R 97/A 1/",
        output: "0 M 0 1 2/0 B 0 0 13/0 B 0 1 23/0 A 0 0 20/0 A 0 1 30/0 G 0 0 4/0 F 0 0 4/\
            0 G 0 1 3/3 R 0 0 1/3 G 0 16 1000000/100 R 0 999903 0/100 A 0 1 130/",
        ends: &[["W 1/G/", "100 G 0 16 23/"]],
    },
    // Tight: nothing is given, and the head stays the only candidate.
    Moment {
        input: "T 2 4 4/T 3 6 6/A 0/A 1/W 1/G/F/",
        output: "0 M 0 2 2/0 B 0 0 -1/0 B 0 1 -1/0 A 0 0 4/0 A 0 1 6/0 G 0 0 2/0 F 0 0 2/",
        ends: &[["G/", "0 G 0 1 3/"]],
    },
];

const DRAWS: &[Moment] = &[
    // Five candidates: 4294967295 is passed over. So it is for the 3 lengths of
    // row 1 and the 5 of row 3; for the 14 of idle all from 4294967292 on are.
    Moment {
        input: "T 4 100 18/T 3 100 30/T 2 100 40/T 5 100 50/A 0/A 1/A 2/A 3/",
        output: "0 M 0 1 4/0 B 0 0 4/0 B 0 1 16/0 B 0 2 26/0 B 0 3 36/\
            0 A 0 0 18/0 A 0 1 30/0 A 0 2 40/0 A 0 3 50/",
        ends: &[
            ["W 4294967294/W 1/G/", "0 G 0 16 2/"],
            ["W 4294967295/W 1/W 1/G/", "0 G 0 1 2/"],
            ["W 4294967295/G/", "0 G 0 0 4/"],
            // All are used, so that the next choice has no word.
            [
                "W 4294967295/W 4294967295/G/F/G/",
                "0 G 0 0 4/0 F 0 0 4/0 G 0 1 3/",
            ],
            [
                "W 1/W 4294967295/G/R 3/W 1/G/",
                "0 G 0 1 3/3 R 0 0 1/3 G 0 2 2/",
            ],
            ["W 4/W 4294967291/W 0/G/", "0 G 0 16 14/"],
            ["W 4/W 4294967292/W 0/G/", "0 G 0 16 1/"],
            [
                "W 4/W 4294967292/W 4294967295/W 4294967293/G/",
                "0 G 0 16 14/",
            ],
            // The first choice uses five words. Row 0 then has 11 left of its budget.
            [
                "W 4294967295/W 3/W 4294967295/W 4294967295/W 2/W 4294967295/W 1/W 1/G/R 3/G/",
                "0 G 0 3 3/3 R 0 0 0/3 G 0 1 2/",
            ],
            // A refused choice uses none. Between four no word is passed over.
            [
                "W 1/W 2/G/W 4294967295/W 1/G/R 3/G/",
                "0 G 0 1 3/0 G 8 3 0/3 R 0 0 1/3 G 0 16 2/",
            ],
        ],
    },
    // 17 candidates, and 83 lengths of idle: 51,746,593 times that is 4294967219.
    Moment {
        input: "T 1 99 99/T 1 99 99/T 1 99 99/T 1 99 99/T 1 99 99/T 1 99 99/T 1 99 99/T 1 99 99/\
            T 1 99 99/T 1 99 99/T 1 99 99/T 1 99 99/T 1 99 99/T 1 99 99/T 1 99 99/T 1 99 99/\
            A 0/A 1/A 2/A 3/A 4/A 5/A 6/A 7/A 8/A 9/A 10/A 11/A 12/A 13/A 14/A 15/",
        output: "0 M 0 1 16/0 B 0 0 83/0 B 0 1 83/0 B 0 2 83/0 B 0 3 83/0 B 0 4 83/0 B 0 5 83/\
            0 B 0 6 83/0 B 0 7 83/0 B 0 8 83/0 B 0 9 83/0 B 0 10 83/0 B 0 11 83/0 B 0 12 83/\
            0 B 0 13 83/0 B 0 14 83/0 B 0 15 83/0 A 0 0 99/0 A 0 1 99/0 A 0 2 99/0 A 0 3 99/\
            0 A 0 4 99/0 A 0 5 99/0 A 0 6 99/0 A 0 7 99/0 A 0 8 99/0 A 0 9 99/0 A 0 10 99/\
            0 A 0 11 99/0 A 0 12 99/0 A 0 13 99/0 A 0 14 99/0 A 0 15 99/",
        ends: &[
            ["W 4294967293/W 9/G/", "0 G 0 15 1/"],
            [
                "W 4294967295/W 4294967294/W 4294967219/W 84/G/",
                "0 G 0 16 2/",
            ],
        ],
    },
    // Idle has 999,999 lengths: 4,294 times that is 4293995706.
    Moment {
        input: "T 1 1000000 1000000/A 0/W 1/",
        output: "0 M 0 1 1/0 B 0 0 999999/0 A 0 0 1000000/",
        ends: &[
            ["W 4293995705/W 0/G/", "0 G 0 16 999999/"],
            ["W 4293995706/W 0/G/", "0 G 0 16 1/"],
            ["W 4294967295/W 4294000000/W 41/G/", "0 G 0 16 42/"],
            ["W 4294967295/G/", "0 G 0 16 999999/"],
        ],
    },
    // Row 1 has one length, for which any word is used.
    Moment {
        input: "T 1 100 20/T 1 100 30/A 0/A 1/W 1/W 4294967295/W 1/W 5/G/R 1/",
        output: "0 M 0 1 2/0 B 0 0 18/0 B 0 1 28/0 A 0 0 20/0 A 0 1 30/0 G 0 1 1/1 R 0 0 1/",
        ends: &[["G/", "1 G 0 16 6/"]],
    },
    // While nothing waits idle is the only candidate, and no word is looked at.
    Moment {
        input: "T 4 100 20/T 3 100 30/W 1/W 4294967295/W 1/G/R 5/A 0/A 1/",
        output: "0 M 0 1 2/0 B 0 0 13/0 B 0 1 23/0 G 0 16 1000000/5 R 0 999995 0/\
            5 A 0 0 25/5 A 0 1 35/",
        ends: &[["G/", "5 G 0 1 2/"]],
    },
];

const MIXED: &[Moment] = &[
    // V of row 0 is 12 − 44 = −32, of row 1 50 − 44 = 6, of row 2 112 − 30 − 20 − 8 = 54.
    // The next job of row 0 is due at 100 + 12 or later, just when row 2 is. Row 1 has 36,
    // since row 2 is due later.
    Moment {
        input: "T 10 100 12/T 4 100 50/T 30 200 112/A 0/A 1/A 2/W 1/",
        output: "0 M 0 3 3/0 B 0 0 -32/0 B 0 1 6/0 B 0 2 54/0 A 0 0 12/0 A 0 1 50/0 A 0 2 112/",
        ends: &[
            // Row 0 has no budget. Then there are two candidates, and no idle.
            ["G/R 10/G/", "0 G 0 0 10/10 R 0 0 1/10 G 0 2 30/"],
            ["G/R 10/W 2/G/", "0 G 0 0 10/10 R 0 0 1/10 G 0 2 3/"],
            [
                "G/R 10/W 8/G/R 9/W 3/W 20/G/R 21/W 1/G/",
                "0 G 0 0 10/10 R 0 0 1/10 G 0 2 9/19 R 0 0 0/19 G 0 2 21/40 R 0 0 1/40 G 0 1 4/",
            ],
            // What row 0 leaves goes to row 1, which could wait for all of row 2 before.
            ["G/F/G/", "0 G 0 0 10/0 F 0 0 10/0 G 0 2 30/"],
            ["G/R 4/F/G/", "0 G 0 0 10/4 R 0 6 0/4 F 0 0 6/4 G 0 2 30/"],
            // Row 1 alone runs without a word, and then idle does.
            [
                "G/F/W 0/W 5/G/F/G/R 4/G/",
                "0 G 0 0 10/0 F 0 0 10/0 G 0 2 1/0 F 0 2 30/0 G 0 1 4/4 R 0 0 1/\
                    4 G 0 16 1000000/",
            ],
        ],
    },
    // The same, with row 2 due one tick after that.
    Moment {
        input: "T 10 100 12/T 4 100 50/T 30 200 113/A 0/A 1/A 2/W 1/G/R 10/",
        output: "0 M 0 3 3/0 B 0 0 -32/0 B 0 1 6/0 B 0 2 55/0 A 0 0 12/0 A 0 1 50/0 A 0 2 113/\
            0 G 0 0 10/10 R 0 0 1/",
        ends: &[
            // The word is left for the first choice between two: none here.
            ["G/R 4/G/", "10 G 0 1 4/14 R 0 0 1/14 G 0 2 30/"],
        ],
    },
    // No job of row 0 has come, so one may come at once: for 12, before both.
    Moment {
        input: "T 10 100 12/T 4 100 50/T 30 200 112/A 1/A 2/W 1/",
        output: "0 M 0 3 3/0 B 0 0 -32/0 B 0 1 6/0 B 0 2 54/0 A 0 1 50/0 A 0 2 112/",
        ends: &[
            ["G/", "0 G 0 1 4/"],
            ["G/F/G/", "0 G 0 1 4/0 F 0 1 4/0 G 0 2 30/"],
            [
                "G/R 4/G/R 6/A 0/G/",
                "0 G 0 1 4/4 R 0 0 1/4 G 0 2 30/10 R 0 24 0/10 A 0 0 22/10 G 0 0 10/",
            ],
        ],
    },
    // V of row 0 is 19 − 21 = −2, and 1, 1, 29. Rows 1 and 2 are due at 22, with 22 − 20 of
    // budget. A job of row 0 that comes at 3 is due then too, and one that comes at 2 is not.
    Moment {
        input: "T 10 100 19/T 5 100 22/T 5 100 22/T 1 100 50/A 1/A 2/W 1/G/",
        output: "0 M 0 3 4/0 B 0 0 -2/0 B 0 1 1/0 B 0 2 1/0 B 0 3 29/0 A 0 1 22/0 A 0 2 22/\
            0 G 0 1 5/",
        ends: &[
            ["R 2/A 3/G/", "2 R 0 3 0/2 A 0 3 52/2 G 0 1 3/"],
            ["R 3/A 3/G/", "3 R 0 2 0/3 A 0 3 53/3 G 0 2 5/"],
            ["R 4/A 3/G/", "4 R 0 1 0/4 A 0 3 54/4 G 0 2 5/"],
            // It does come at 4, for 23. The next one is due at 123 or later, so that it
            // may run before the two, for two ticks, but row 3 not before it.
            [
                "R 4/A 3/A 0/G/",
                "4 R 0 1 0/4 A 0 3 54/4 A 0 0 23/4 G 0 2 5/",
            ],
            [
                "R 4/A 3/A 0/G/R 5/W 1/W 7/G/R 2/W 1/G/",
                "4 R 0 1 0/4 A 0 3 54/4 A 0 0 23/4 G 0 2 5/9 R 0 0 1/9 G 0 0 2/11 R 0 0 0/\
                    11 G 0 1 1/",
            ],
            // Rows 1 and 2 leave 1 and 5 to row 3, and nothing to row 0.
            [
                "R 4/A 3/A 0/G/F/G/F/W 1/G/R 10/G/",
                "4 R 0 1 0/4 A 0 3 54/4 A 0 0 23/4 G 0 2 5/4 F 0 2 5/4 G 0 1 1/4 F 0 1 1/\
                    4 G 0 0 10/\
                    14 R 0 0 1/14 G 0 3 1/",
            ],
        ],
    },
    // Two brittle rows, which may come again at 100 for 112 and at 60 for 74.
    Moment {
        input: "T 5 100 12/T 5 60 14/T 6 100 40/T 6 200 74/A 0/A 1/A 2/A 3/G/R 5/G/R 5/W 1/",
        output: "0 M 0 3 4/0 B 0 0 -10/0 B 0 1 -8/0 B 0 2 18/0 B 0 3 47/0 A 0 0 12/0 A 0 1 14/\
            0 A 0 2 40/0 A 0 3 74/0 G 0 0 5/5 R 0 0 1/5 G 0 1 5/10 R 0 0 1/",
        ends: &[["G/", "10 G 0 3 6/"]],
    },
    Moment {
        input: "T 5 100 12/T 5 60 14/T 6 100 40/T 6 200 75/A 0/A 1/A 2/A 3/G/R 5/G/R 5/W 1/",
        output: "0 M 0 3 4/0 B 0 0 -10/0 B 0 1 -8/0 B 0 2 18/0 B 0 3 48/0 A 0 0 12/0 A 0 1 14/\
            0 A 0 2 40/0 A 0 3 75/0 G 0 0 5/5 R 0 0 1/5 G 0 1 5/10 R 0 0 1/",
        ends: &[["G/", "10 G 0 2 6/"]],
    },
    Moment {
        input: "T 6 200 75/T 5 60 14/T 5 100 12/T 6 100 40/A 0/A 1/A 2/A 3/G/R 5/G/R 5/W 1/",
        output: "0 M 0 3 4/0 B 0 0 48/0 B 0 1 -8/0 B 0 2 -10/0 B 0 3 18/0 A 0 0 75/0 A 0 1 14/\
            0 A 0 2 12/0 A 0 3 40/0 G 0 2 5/5 R 0 0 1/5 G 0 1 5/10 R 0 0 1/",
        ends: &[["G/", "10 G 0 3 6/"]],
    },
    // A job of row 3 could come for 70, before row 2, but row 3 is not brittle.
    Moment {
        input: "T 10 100 12/T 4 100 50/T 30 200 112/T 1 100 60/A 0/A 1/A 2/W 1/G/R 10/",
        output: "0 M 0 3 4/0 B 0 0 -33/0 B 0 1 5/0 B 0 2 52/0 B 0 3 15/0 A 0 0 12/0 A 0 1 50/\
            0 A 0 2 112/0 G 0 0 10/10 R 0 0 1/",
        ends: &[
            ["G/", "10 G 0 2 30/"],
            // It does come, for 70, and stands between the two.
            ["A 3/G/", "10 A 0 3 70/10 G 0 3 1/"],
            // Word 1 is used for it, 8 for its only length, then 1 and 3 for row 2.
            [
                "A 3/W 8/W 1/W 3/G/R 1/G/",
                "10 A 0 3 70/10 G 0 3 1/11 R 0 0 1/11 G 0 2 4/",
            ],
        ],
    },
    // V of row 1 is 23 − 23 = 0. It arrives with nothing, since row 2 could come at once
    // for 22. Row 2 comes later, for after 23, but row 1 cannot wait unless row 0 has left
    // it some time.
    Moment {
        input: "T 10 40 10/T 1 40 23/T 12 40 22/A 0/A 1/W 1/G/",
        output: "0 M 0 3 3/0 B 0 0 -13/0 B 0 1 0/0 B 0 2 -1/0 A 0 0 10/0 A 0 1 23/0 G 0 0 10/",
        ends: &[
            ["R 2/F/A 2/G/", "2 R 0 8 0/2 F 0 0 8/2 A 0 2 24/2 G 0 2 8/"],
            [
                "R 9/F/A 2/G/R 1/W 1/G/",
                "9 R 0 1 0/9 F 0 0 1/9 A 0 2 31/9 G 0 2 1/10 R 0 0 0/10 G 0 1 1/",
            ],
            ["R 10/A 2/G/", "10 R 0 0 1/10 A 0 2 32/10 G 0 1 1/"],
        ],
    },
    // While a job waits idle is no candidate, and with one candidate no word is used.
    Moment {
        input: "T 10 100 12/T 4 100 50/T 30 200 112/A 0/G/R 10/A 1/W 1/W 2/G/R 4/G/R 6/A 2/G/",
        output: "0 M 0 3 3/0 B 0 0 -32/0 B 0 1 6/0 B 0 2 54/0 A 0 0 12/0 G 0 0 10/10 R 0 0 1/\
            10 A 0 1 60/10 G 0 1 4/14 R 0 0 1/14 G 0 16 1000000/20 R 0 999994 0/20 A 0 2 132/\
                20 G 0 2 30/",
        ends: &[["F/R 1/", "20 F 0 2 30/20 R 9 0 0/"]],
    },
    // A V of 0 alone makes a table mixed. Row 1 has one tick then, but idle stays out.
    Moment {
        input: "T 1 2 2/T 2 4 4/A 0/A 1/W 1/G/F/",
        output: "0 M 0 3 2/0 B 0 0 -1/0 B 0 1 0/0 A 0 0 2/0 A 0 1 4/0 G 0 0 1/0 F 0 0 1/",
        ends: &[["G/", "0 G 0 1 2/"]],
    },
    // Next to mixed: all negative, and none.
    Moment {
        input: "T 2 4 4/T 3 7 7/A 1/A 0/W 1/",
        output: "0 M 0 3 2/0 B 0 0 -1/0 B 0 1 0/0 A 0 1 7/0 A 0 0 4/",
        ends: &[["G/R 2/G/", "0 G 0 0 2/2 R 0 0 1/2 G 0 1 3/"]],
    },
    Moment {
        input: "T 2 4 4/T 3 6 6/A 1/A 0/W 1/",
        output: "0 M 0 2 2/0 B 0 0 -1/0 B 0 1 -1/0 A 0 1 6/0 A 0 0 4/",
        ends: &[["G/R 2/G/", "0 G 0 0 2/2 R 0 0 1/2 G 0 1 3/"]],
    },
    Moment {
        input: "T 2 4 4/T 1 6 6/A 1/A 0/W 1/",
        output: "0 M 0 1 2/0 B 0 0 1/0 B 0 1 1/0 A 0 1 6/0 A 0 0 4/",
        ends: &[["G/", "0 G 0 1 1/"]],
    },
];

const ARRIVALS: &[Moment] = &[
    // V is 3, 8 and 0. Row 2, which is due first, does not wait for the others.
    Moment {
        input: "T 1 10 10/T 2 20 20/T 2 5 5/",
        output: "0 M 0 1 3/0 B 0 0 3/0 B 0 1 8/0 B 0 2 0/",
        ends: &[
            ["A 2/W 1/G/", "0 A 0 2 5/0 G 0 16 3/"],
            // Row 0 waits for two jobs of row 2, and row 1 for two and four.
            ["A 0/W 1/G/", "0 A 0 0 10/0 G 0 16 5/"],
            ["A 1/W 1/G/", "0 A 0 1 20/0 G 0 16 8/"],
        ],
    },
    // Row 1 waits for 40. Row 0 comes at 20 for 40 too, so that the 3 ticks of row 1 count,
    // whether it runs or finishes early; D − C is 16.
    Moment {
        input: "T 4 100 20/T 3 100 40/A 1/W 1/W 19/G/R 20/A 0/G/",
        output: "0 M 0 1 2/0 B 0 0 13/0 B 0 1 33/0 A 0 1 40/0 G 0 16 20/20 R 0 0 0/\
            20 A 0 0 40/20 G 0 1 3/",
        ends: &[
            ["R 3/W 1/G/", "23 R 0 0 1/23 G 0 16 13/"],
            ["F/W 1/G/", "20 F 0 1 3/20 G 0 16 13/"],
        ],
    },
    // It comes at 19 for 39, and they do not.
    Moment {
        input: "T 4 100 20/T 3 100 40/A 1/W 1/W 18/G/R 19/A 0/",
        output: "0 M 0 1 2/0 B 0 0 13/0 B 0 1 33/0 A 0 1 40/0 G 0 16 19/19 R 0 0 0/19 A 0 0 39/",
        ends: &[["W 1/G/F/W 1/G/", "19 G 0 1 3/19 F 0 1 3/19 G 0 16 16/"]],
    },
    // At 2 row 1 has one tick left, and that one counts.
    Moment {
        input: "T 4 100 20/T 3 100 10/A 1/G/R 2/A 0/G/R 1/W 1/G/",
        output: "0 M 0 1 2/0 B 0 0 13/0 B 0 1 3/0 A 0 1 10/0 G 0 1 3/2 R 0 1 0/2 A 0 0 22/\
            2 G 0 1 1/3 R 0 0 1/3 G 0 16 15/",
        ends: &[["R 15/W 1/G/", "18 R 0 0 0/18 G 0 0 4/"]],
    },
    // Row 1 may come at once for 20, and no later than row 0 is due; or for 21.
    Moment {
        input: "T 1 100 20/T 2 50 20/A 0/W 1/G/",
        output: "0 M 0 1 2/0 B 0 0 17/0 B 0 1 17/0 A 0 0 20/0 G 0 16 17/",
        ends: &[["", ""]],
    },
    Moment {
        input: "T 1 100 20/T 2 50 21/A 0/W 1/G/",
        output: "0 M 0 1 2/0 B 0 0 17/0 B 0 1 18/0 A 0 0 20/0 G 0 16 19/",
        ends: &[["", ""]],
    },
    // V is 19 − 3 × 2 and 3 − 1.
    Moment {
        input: "T 1 100 20/T 2 8 5/",
        output: "0 M 0 1 2/0 B 0 0 13/0 B 0 1 2/",
        ends: &[
            // Row 1 may come for 5 and 13.
            ["A 0/W 1/G/", "0 A 0 0 20/0 G 0 16 15/"],
            // It has come and is over, and may come again at 8, for 13.
            [
                "A 1/G/F/A 0/W 1/G/",
                "0 A 0 1 5/0 G 0 1 2/0 F 0 1 2/0 A 0 0 20/0 G 0 16 17/",
            ],
            // It has a tick left, and may come again for 13 and 21.
            [
                "A 1/G/R 1/A 0/G/R 1/W 1/G/",
                "0 A 0 1 5/0 G 0 1 2/1 R 0 1 0/1 A 0 0 21/1 G 0 1 1/2 R 0 0 1/2 G 0 16 14/",
            ],
            // It could have come at 8, and may come at 9, for 14 and 22, but not for 29.
            [
                "A 1/G/R 2/G/R 7/A 0/W 1/G/",
                "0 A 0 1 5/0 G 0 1 2/2 R 0 0 1/2 G 0 16 1000000/9 R 0 999993 0/9 A 0 0 29/\
                    9 G 0 16 15/",
            ],
        ],
    },
    // Row 0 is brittle, and row 1 has 22 − 10. Row 2 cannot be due by 23, and V of row 1 is
    // 0 for its sake alone.
    Moment {
        input: "T 10 40 10/T 1 40 23/T 12 40 24/A 0/A 1/G/R 10/A 2/W 1/",
        output: "0 M 0 3 3/0 B 0 0 -13/0 B 0 1 0/0 B 0 2 1/0 A 0 0 10/0 A 0 1 23/0 G 0 0 10/\
            10 R 0 0 1/10 A 0 2 34/",
        ends: &[
            ["G/", "10 G 0 2 12/"],
            ["W 11/G/", "10 G 0 2 12/"],
            ["W 12/G/", "10 G 0 2 1/"],
        ],
    },
    // All of a tight table have none.
    Moment {
        input: "T 2 4 4/T 3 6 6/A 0/A 1/W 1/",
        output: "0 M 0 2 2/0 B 0 0 -1/0 B 0 1 -1/0 A 0 0 4/0 A 0 1 6/",
        ends: &[["G/", "0 G 0 0 2/"]],
    },
];
