//! What a planning desk does: the opinion on 1,000 tables of 16 rows, the library beside
//! the model.

use std::path::Path;

use shuffle_model::record::judgement_of;
use shuffle_model::shuffle;
use shuffle_model::sixteen::{outcomes, tables, Class, CLASSES};
use shuffle_model::table::{opinion, words_of};

use crate::count::{functions, of_one_call, repeat};
use crate::heading;
use crate::sides::{library_opinions, model_opinions};
use crate::time::{medians, side};

/// What a counted run is asked for.
pub const CALL: &str = "opinions";
const TABLES: usize = 1_000;
/// How often each side goes through all tables, the two in turn.
const REPETITIONS: usize = 31;

/// The words of the tables of a class.
fn words(class: &Class) -> Vec<Vec<u32>> {
    let tables = tables(class, TABLES);
    tables.iter().map(|rows| words_of(rows)).collect()
}

/// Both sides must have the same opinion on each table.
pub fn check() {
    for words in CLASSES.iter().flat_map(words) {
        let expected = judgement_of(&opinion(&words));
        assert_eq!(shuffle::opinion(&words), expected, "{words:?}");
    }
}

pub fn make_counted_calls(place: usize) {
    let words = words(&CLASSES[place]);
    repeat(&(), 1, |()| library_opinions(&words));
    repeat(&(), 1, |()| model_opinions(&words));
}

pub fn print(scratch: &Path) {
    heading("The opinion on 1,000 tables of 16 rows");
    let mix = CLASSES.last().expect("there are classes");
    let [loose, tight, mixed, refused] = outcomes(&tables(mix, TABLES));
    println!("Of the tables {}, {loose} are loose, {tight} tight, {mixed} mixed and {refused} refused. The figures are of one table.", mix.name);
    println!();
    println!("| Tables | Library, ns | Model, ns | Ratio | Library, instructions | Model, instructions | Ratio |");
    println!("|---|---:|---:|---:|---:|---:|---:|");
    for (place, class) in CLASSES.iter().enumerate() {
        let [library, model] = times(class);
        let [counted, model_counted] = counts(scratch, place);
        println!(
            "| {} | {library:.0} | {model:.0} | {:.2} | {counted:.0} | {model_counted:.0} | {:.2} |",
            class.name,
            library / model,
            counted / model_counted
        );
    }
}

/// The times of one table in ns.
fn times(class: &Class) -> [f64; 2] {
    let words = &words(class);
    let sides = [
        side(&(), 1, |()| library_opinions(words)),
        side(&(), 1, |()| model_opinions(words)),
    ];
    medians(REPETITIONS, sides).map(|ns| ns / TABLES as f64)
}

fn counts(scratch: &Path, place: usize) -> [f64; 2] {
    let arguments = ["--call", CALL, "--question", &place.to_string()];
    let counts = functions(scratch, &arguments);
    ["library_opinions", "model_opinions"].map(|side| of_one_call(&counts, side, TABLES as u64))
}
