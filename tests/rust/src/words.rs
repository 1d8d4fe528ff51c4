//! Random words near the limit from which on a draw passes them over.

use crate::calls::{limit, WORDS};
use crate::draws::Drawn;
use crate::rng::Rng;
use crate::session::Session;

/// A word that a draw between `count` passes over, often next to the limit; none if
/// every word decides.
fn passed_word(rng: &mut Rng, count: u32) -> Option<u32> {
    let limit = limit(count);
    let last = WORDS.checked_sub(limit + 1)?;
    let place = match rng.below(4) {
        0 => 0,
        1 => 1,
        2 => last,
        _ => rng.draw() % (last + 1),
    };
    Some((limit + place.min(last)) as u32)
}

/// A word that decides a draw between `count`, often next to the limit.
fn deciding_word(rng: &mut Rng, count: u32) -> u32 {
    let limit = limit(count);
    let below = match rng.below(4) {
        0 => 1,
        1 => 2,
        2 => 1 + rng.draw() % u64::from(count),
        _ => 1 + rng.draw() % limit,
    };
    (limit - below) as u32
}

/// A word behind these, near the limit of the draw that they leave open, or else of
/// the pick; none if nothing is drawn. The session must be sound.
pub fn next_word(rng: &mut Rng, session: &Session, words: &[u32]) -> Option<u32> {
    let drawn = Drawn::new(session, words);
    let count = drawn.open().or(drawn.pick.map(|pick| pick.count))?;
    let passed = passed_word(rng, count).filter(|_| rng.chance(1, 2));
    Some(passed.unwrap_or_else(|| deciding_word(rng, count)))
}

/// Words behind these, for a choice of a sound session: for each draw that is open
/// some that are passed over, now and then hundreds, and mostly one that decides;
/// then some that no draw looks at.
pub fn more_words(rng: &mut Rng, session: &Session, words: &[u32]) -> Vec<u32> {
    let most = rng.pick(&[0, 1, 2, 3, 40, 400]);
    let mut all = words.to_vec();
    while let Some(count) = Drawn::new(session, &all).open() {
        for _ in 0..rng.below(most + 1) {
            all.extend(passed_word(rng, count));
        }
        if rng.chance(1, 6) {
            return all.split_off(words.len());
        }
        all.push(deciding_word(rng, count));
    }
    all.extend((0..rng.below(3)).map(|_| rng.draw() as u32));
    all.split_off(words.len())
}
