//! The meter of great schedules: the library beside the model, which compares every
//! interval tick by tick.

use std::path::Path;

use shuffle_model::meter::Question;
use shuffle_model::questions::changed_rows;
use shuffle_model::rng::Rng;

use crate::count::{functions, of_one_call, repeat};
use crate::heading;
use crate::sides::{library_meter, model_meter};
use crate::time::{medians, side};

/// What a counted run is asked for.
pub const CALL: &str = "meter";
/// K and L.
const SIZES: [(usize, usize); 3] = [(255, 64), (128, 128), (1, 16_384)];
/// In one of so many ticks a stretch is changed: then two stretches differ in about
/// a quarter of their ticks.
const CHANGED: usize = 5;
/// Calls of each side that are timed.
const TIMED: usize = 7;
/// So many calls of each side are counted, since they take long.
const ONCE: u64 = 1;

/// What is asked, of each size with three lengths of intervals.
fn questions() -> Vec<Question> {
    let mut questions = Vec::new();
    for (stretches, ticks) in SIZES {
        let rows = changed_rows(&mut Rng::new(1), stretches, ticks, CHANGED);
        questions.extend([1, ticks / 4, ticks].map(|window| Question {
            rows: rows.clone(),
            stretches,
            ticks,
            window,
            threshold: window / 4,
        }));
    }
    questions
}

/// Both sides must give the same answer: that makes them comparable.
pub fn check() {
    for mut question in questions() {
        let library = library_meter(&mut question);
        assert!(library.is_accepted(), "{question:?}");
        assert_eq!(library, model_meter(&mut question), "{question:?}");
    }
}

pub fn make_counted_calls(place: usize) {
    let question = &questions()[place];
    repeat(question, ONCE, library_meter);
    repeat(question, ONCE, model_meter);
}

pub fn print(scratch: &Path) {
    heading("The meter of the greatest schedules");
    println!("Two stretches differ in about a quarter of their ticks. The model compares every interval tick by tick.");
    println!();
    println!("| Stretches | Ticks | Interval | Threshold | Library ms | Model ms | Times as fast | Library, instructions | Model, instructions | Times as few |");
    println!("|---:|---:|---:|---:|---:|---:|---:|---:|---:|---:|");
    for (place, question) in questions().iter().enumerate() {
        let [library, model] = times(question);
        let [library_count, model_count] = counts(scratch, place);
        println!(
            "| {} | {} | {} | {} | {library:.3} | {model:.2} | {:.1} | {library_count:.0} | {model_count:.0} | {:.1} |",
            question.stretches,
            question.ticks,
            question.window,
            question.threshold,
            model / library,
            model_count / library_count
        );
    }
}

/// The times of one call in ms: the library's, then the model's.
fn times(question: &Question) -> [f64; 2] {
    let sides = [
        side(question, 1, library_meter),
        side(question, 1, model_meter),
    ];
    medians(TIMED, sides).map(|ns| ns / 1e6)
}

/// The instructions of one call, in the same order.
fn counts(scratch: &Path, place: usize) -> [f64; 2] {
    let arguments = ["--call", CALL, "--question", &place.to_string()];
    let counts = functions(scratch, &arguments);
    ["library_meter", "model_meter"].map(|side| of_one_call(&counts, side, ONCE))
}
