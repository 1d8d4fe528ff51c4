//! Counts the calls of a plain search of the game within 12 ticks, for docs/PERFORMANCE.md:
//! which tables take the most, and how long.

use std::time::Instant;

use shuffle_model::contest_tables::{period_triples, small_tables};
use shuffle_model::nodes::{count, Nodes};
use shuffle_model::options::Options;
use shuffle_model::table::Row;

/// How many tables are named of each sort.
const WORST: usize = 5;

/// A table and what its search takes.
struct Counted {
    rows: Vec<Row>,
    forced: bool,
    nodes: Nodes,
    milliseconds: f64,
}

fn main() {
    let options = Options::read(&["--ticks", "--period", "--periods"]);
    let ticks = options.number("--ticks", 12);
    let period = options.number("--period", 6);
    let longest = options.number("--periods", 13);
    let each = |tables: Vec<Vec<Row>>| -> Vec<Counted> {
        let counted = tables.into_iter().map(|rows| {
            let start = Instant::now();
            let (forced, nodes) = count(&rows, ticks);
            Counted {
                rows,
                forced,
                nodes,
                milliseconds: start.elapsed().as_secs_f64() * 1_000.0,
            }
        });
        counted.collect()
    };
    let title = format!("tables of 1 to 3 rows with T up to {period}, sorted rows");
    print_worst(&title, each(small_tables(period)));
    let title = format!("three rows of C 1 and D = T up to {longest}, in every order");
    print_worst(&title, each(period_triples(longest)));
    let long = vec![vec![Row::from([12, 12, 12]); 3]];
    print_worst("(12, 12, 12) three times", each(long));
}

fn print_worst(title: &str, mut counted: Vec<Counted>) {
    let sum: u64 = counted.iter().map(|each| each.nodes.sum()).sum();
    println!("{title}: {} tables, {sum} calls in all", counted.len());
    counted.sort_by_key(|each| std::cmp::Reverse(each.nodes.sum()));
    for (name, forced) in [("held", false), ("forced", true)] {
        let such = counted.iter().filter(|each| each.forced == forced);
        for each in such.take(WORST) {
            println!("  {name} {}", line(each));
        }
    }
}

fn line(counted: &Counted) -> String {
    let rows = counted.rows.iter().map(|row| {
        let [run, period, deadline] = row.numbers();
        format!("{run} {period} {deadline}")
    });
    let Nodes {
        arrivals,
        scheduler,
        moves,
    } = counted.nodes;
    format!(
        "{}: {} calls: {arrivals} of arrivals, {scheduler} of the scheduler, {moves} moves; {:.0} ms",
        rows.collect::<Vec<_>>().join(" / "),
        counted.nodes.sum(),
        counted.milliseconds
    )
}
