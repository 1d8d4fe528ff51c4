//! All rows arrive on one tick: one call for the whole list, beside a call for
//! each row and beside the model.

use std::path::Path;

use shuffle_model::calls;
use shuffle_model::record::view;
use shuffle_model::session::Session;
use shuffle_model::shuffle::{Arrival, Session as Record};
use shuffle_model::table::words_of;

use crate::cases::{table, Shape};
use crate::count::{functions, of_one_call, repeat, COUNTED};
use crate::sides::{library_arrive_all, library_arrive_each, model_arrive_all};
use crate::time::{medians, side, BATCH, BATCHES};
use crate::{heading, tables, ROWS};

/// What a counted run is asked for.
pub const CALL: &str = "arrive all";
/// Calls of a timed batch: half as many, since each record has a list beside it
/// in the first-level cache.
const SIZE: usize = BATCH / 2;

/// A fresh session, and a list of all its rows.
#[derive(Clone)]
pub struct Lent<S, A> {
    pub session: S,
    pub list: Vec<A>,
}

/// The same for the library and for the model.
struct Sides {
    library: Lent<Record, Arrival>,
    model: Lent<Session, calls::Arrival>,
}

fn sides(shape: Shape, count: u32) -> Sides {
    let rows = table(shape, count).expect("there is such a table");
    let (reply, record) = Record::start(&words_of(&rows));
    assert!(reply.is_accepted(), "{rows:?}");
    let rows = 0..u64::from(count);
    Sides {
        library: Lent {
            session: record,
            list: rows.clone().map(Arrival::of).collect(),
        },
        model: Lent {
            session: view(&record).expect("the record holds a session"),
            list: rows.map(calls::Arrival::of).collect(),
        },
    }
}

/// All sides must let every row arrive, and leave the same session: that makes
/// them comparable.
pub fn check(shape: Shape, count: u32) {
    let Sides { library, mut model } = sides(shape, count);
    let (mut all, mut each) = (library.clone(), library);
    library_arrive_all(&mut all);
    library_arrive_each(&mut each);
    model_arrive_all(&mut model);
    assert!(all.list.iter().all(Arrival::is_accepted), "{:?}", all.list);
    assert_eq!((&all.list, all.session), (&each.list, each.session));
    assert_eq!(view(&all.session), Some(model.session));
    for (library, model) in all.list.iter().zip(&model.list) {
        let answer = model.answer;
        assert_eq!([library.first, library.second], answer.values);
        assert_eq!(library.number, u64::from(answer.number));
    }
}

/// The figures of a table: one call, a call for each row, one call of the model.
type Figures = (&'static str, u32, [f64; 3]);

pub fn print_times() {
    let times = tables(&ROWS).into_iter().map(|(shape, name, rows)| {
        let Sides { library, model } = &sides(shape, rows);
        let sides = [
            side(library, SIZE, library_arrive_all),
            side(library, SIZE, library_arrive_each),
            side(model, SIZE, model_arrive_all),
        ];
        (name, rows, medians(BATCHES, sides))
    });
    print("Time when all rows arrive on one tick, in ns", times);
}

pub fn make_counted_calls(shape: Shape, count: u32) {
    let Sides { library, model } = &sides(shape, count);
    repeat(library, COUNTED, library_arrive_all);
    repeat(library, COUNTED, library_arrive_each);
    repeat(model, COUNTED, model_arrive_all);
}

pub fn print_counts(scratch: &Path) {
    let counts = tables(&ROWS).into_iter().map(|(shape, name, rows)| {
        let [shape, count] = [shape as u32, rows].map(|number| number.to_string());
        let arguments = ["--shape", &shape, "--rows", &count, "--call", CALL];
        let counts = functions(scratch, &arguments);
        let sides = [
            "library_arrive_all",
            "library_arrive_each",
            "model_arrive_all",
        ];
        (
            name,
            rows,
            sides.map(|side| of_one_call(&counts, side, COUNTED)),
        )
    });
    print("Instructions when all rows arrive on one tick", counts);
}

fn print(title: &str, figures: impl Iterator<Item = Figures>) {
    heading(title);
    println!("| Table | Rows | One call | A call for each row | Ratio | Model, one call | Ratio |");
    println!("|---|---:|---:|---:|---:|---:|---:|");
    for (name, rows, [all, each, model]) in figures {
        println!(
            "| {name} | {rows} | {all:.0} | {each:.0} | {:.2} | {model:.0} | {:.2} |",
            all / each,
            all / model
        );
    }
}
