//! The explanation of a choice, with its text: the library beside the model.

use std::path::Path;

use shuffle_model::explanation_text::BUFFER_LEAST;
use shuffle_model::record::{view, Request};
use shuffle_model::session::Session;
use shuffle_model::shuffle::Session as Record;

use crate::cases::Shape;
use crate::count::{functions, of_one_call, repeat, COUNTED};
use crate::sides::{library_explain, model_explain};
use crate::time::{medians, side, BATCH, BATCHES};
use crate::{case, heading, tables, ROWS};

/// What a counted run is asked for.
pub const CALL: &str = "explain";
/// Calls of a timed batch: a quarter as many, since each record has a buffer beside it in
/// the first-level cache.
const SIZE: usize = BATCH / 4;

/// A session, and a buffer for the text.
#[derive(Clone)]
pub struct Asked<S> {
    pub session: S,
    pub buffer: Vec<u8>,
}

/// The same for the library and for the model, and the words of the choice.
struct Sides {
    library: Asked<Record>,
    model: Asked<Session>,
    words: Vec<u32>,
}

/// The explanation of the choice that is measured too: every row has a job, and two words
/// are queued.
fn sides(shape: Shape, count: u32) -> Sides {
    let (case, session) = case(shape, count, "choose");
    let Request::Choose(words) = case.request else {
        unreachable!("the case is a choice");
    };
    let buffer = vec![0; BUFFER_LEAST];
    Sides {
        library: Asked {
            session: case.record,
            buffer: buffer.clone(),
        },
        model: Asked { session, buffer },
        words,
    }
}

/// Both sides must give the same answer and text: that makes them comparable.
pub fn check(shape: Shape, count: u32) {
    let Sides {
        mut library,
        mut model,
        words,
    } = sides(shape, count);
    let before = library.session;
    let reply = library_explain(&mut library, &words);
    assert!(reply.is_accepted(), "{shape:?} {count}");
    assert_eq!(
        reply,
        model_explain(&mut model, &words),
        "{shape:?} {count}"
    );
    assert_eq!(library.buffer, model.buffer, "{shape:?} {count}");
    assert_eq!(library.session, before, "{shape:?} {count}");
    assert_eq!(view(&before), Some(model.session), "{shape:?} {count}");
}

pub fn make_counted_calls(shape: Shape, count: u32) {
    let Sides {
        library,
        model,
        words,
    } = &sides(shape, count);
    repeat(library, COUNTED, |asked| library_explain(asked, words));
    repeat(model, COUNTED, |asked| model_explain(asked, words));
}

pub fn print(scratch: &Path) {
    heading("An explanation with its text, where a job of each row waits");
    println!("With the check of soundness.");
    println!();
    println!("| Table | Rows | Bytes of text | Library, ns | Model, ns | Ratio | Library, instructions | Model, instructions | Ratio |");
    println!("|---|---:|---:|---:|---:|---:|---:|---:|---:|");
    for (shape, name, rows) in tables(&ROWS) {
        let [library, model] = times(shape, rows);
        let [counted, model_counted] = counts(scratch, shape, rows);
        println!(
            "| {name} | {rows} | {} | {library:.0} | {model:.0} | {:.2} | {counted:.0} | {model_counted:.0} | {:.2} |",
            text_length(shape, rows),
            library / model,
            counted / model_counted
        );
    }
}

fn text_length(shape: Shape, count: u32) -> u64 {
    let Sides {
        mut library, words, ..
    } = sides(shape, count);
    library_explain(&mut library, &words).first
}

/// The times of one call in ns: the library's, then the model's.
fn times(shape: Shape, count: u32) -> [f64; 2] {
    let Sides {
        library,
        model,
        words,
    } = &sides(shape, count);
    let sides = [
        side(library, SIZE, |asked| library_explain(asked, words)),
        side(model, SIZE, |asked| model_explain(asked, words)),
    ];
    medians(BATCHES, sides)
}

/// The instructions of one call, in the same order.
fn counts(scratch: &Path, shape: Shape, count: u32) -> [f64; 2] {
    let [shape, count] = [shape as u32, count].map(|number| number.to_string());
    let arguments = ["--shape", &shape, "--rows", &count, "--call", CALL];
    let counts = functions(scratch, &arguments);
    ["library_explain", "model_explain"].map(|side| of_one_call(&counts, side, COUNTED))
}
