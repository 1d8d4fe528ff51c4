//! Every small table, for the comparison of `contest` and for counts of its search.

use crate::game::MOST_ROWS;
use crate::table::Row;

/// Every row with 1 ≤ C ≤ D ≤ T up to a longest T.
pub fn small_rows(longest: u32) -> Vec<Row> {
    let periods = 1..=longest;
    let pairs = periods.flat_map(|period| (1..=period).map(move |deadline| (period, deadline)));
    pairs
        .flat_map(|(period, deadline)| {
            (1..=deadline).map(move |run| Row::from([run, period, deadline]))
        })
        .collect()
}

/// Every table of 1 to 3 of these rows, in any order of rows.
pub fn ordered_tables(rows: &[Row]) -> Vec<Vec<Row>> {
    tables(rows, |_| 0)
}

/// Every table of 1 to 3 of these rows, once, its rows in the order of the list.
pub fn unordered_tables(rows: &[Row]) -> Vec<Vec<Row>> {
    tables(rows, |last| last)
}

/// The tables whose rows are in no order of the list, so that with those of
/// `unordered_tables` they are all.
pub fn other_orders(rows: &[Row]) -> Vec<Vec<Row>> {
    let place = |row: &Row| rows.iter().position(|listed| listed == row);
    let tables = ordered_tables(rows).into_iter();
    tables
        .filter(|table| !table.is_sorted_by_key(place))
        .collect()
}

/// The tables whose rows follow one another from `from` of the last one's place on.
fn tables(rows: &[Row], from: fn(usize) -> usize) -> Vec<Vec<Row>> {
    let mut all = Vec::new();
    let mut longest: Vec<Vec<usize>> = vec![Vec::new()];
    for _ in 0..MOST_ROWS {
        let longer = longest.iter().flat_map(|places| {
            let first = places.last().map_or(0, |last| from(*last));
            (first..rows.len()).map(move |place| [&places[..], &[place]].concat())
        });
        longest = longer.collect();
        all.extend(longest.iter().map(|places| pick(rows, places)));
    }
    all
}

fn pick(rows: &[Row], places: &[usize]) -> Vec<Row> {
    places.iter().map(|place| rows[*place]).collect()
}

/// Every table of 1 to 3 rows with T up to a longest one, once.
pub fn small_tables(longest: u32) -> Vec<Vec<Row>> {
    unordered_tables(&small_rows(longest))
}

/// Every three periods up to a longest one, in every order, as rows of C 1 and D = T.
pub fn period_triples(longest: u32) -> Vec<Vec<Row>> {
    let rows: Vec<Row> = (1..=longest)
        .map(|period| Row::from([1, period, period]))
        .collect();
    let tables = ordered_tables(&rows).into_iter();
    tables.filter(|rows| rows.len() == MOST_ROWS).collect()
}
