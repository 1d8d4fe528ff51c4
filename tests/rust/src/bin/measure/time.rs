//! Times of one call.

use std::hint::black_box;
use std::time::Instant;

/// Calls of one batch; their records fit into the first-level cache.
pub const BATCH: usize = 24;
/// Batches of each side.
pub const BATCHES: usize = 400;

/// One side: it makes a batch of calls and gives the time of one, in ns.
pub type Side<'a> = Box<dyn FnMut() -> f64 + 'a>;

/// A side that makes each call of a batch on a copy of a state of its own.
/// Copying is not timed.
pub fn side<'a, S: Clone, R>(
    state: &'a S,
    size: usize,
    call: impl Fn(&mut S) -> R + 'a,
) -> Side<'a> {
    Box::new(move || {
        let mut copies = vec![state.clone(); size];
        let start = Instant::now();
        for copy in &mut copies {
            black_box(call(black_box(copy)));
        }
        start.elapsed().as_nanos() as f64 / size as f64
    })
}

/// The median of each side, batch by batch in turn, so that a change of the
/// machine's speed affects all sides alike.
pub fn medians<const N: usize>(batches: usize, mut sides: [Side; N]) -> [f64; N] {
    let mut times = [(); N].map(|()| Vec::with_capacity(batches));
    for _ in 0..batches {
        for (side, times) in sides.iter_mut().zip(&mut times) {
            times.push(side());
        }
    }
    times.map(|mut times| {
        times.sort_by(f64::total_cmp);
        times[times.len() / 2]
    })
}
