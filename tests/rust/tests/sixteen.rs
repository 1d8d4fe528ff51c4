//! The tables of the measurements.

use shuffle_model::sixteen::{outcomes, tables, CLASSES};
use shuffle_model::table::{opinion_on, Kind, ROW_LIMIT};

#[test]
fn tables_are_of_their_class_and_of_sixteen_rows() {
    for class in &CLASSES {
        let tables = tables(class, 1_000);
        assert_eq!(tables.len(), 1_000);
        for rows in &tables {
            assert_eq!(rows.len(), ROW_LIMIT);
            let opinion = opinion_on(rows);
            let kind = opinion.map(|opinion| opinion.kind);
            match class.name {
                "loose" => assert_eq!(kind, Ok(Kind::Loose)),
                "mixed" => assert_eq!(kind, Ok(Kind::Mixed)),
                "tight" => assert_eq!(kind, Ok(Kind::Tight)),
                "overloaded" => assert_eq!(kind.unwrap_err().number, 3),
                _ => {}
            }
        }
    }
}

#[test]
fn as_they_come_there_is_something_of_all() {
    let mix = tables(CLASSES.last().unwrap(), 1_000);
    assert!(outcomes(&mix).iter().all(|count| *count >= 10));
}
