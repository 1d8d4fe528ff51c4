//! Shortens an input as long as it keeps a property.

use std::time::{Duration, Instant};

/// Shortening ends after this much time.
const MOST_TIME: Duration = Duration::from_secs(60);
/// Longer inputs are shortened by lines alone.
const MOST_SINGLE_BYTES: usize = 2_000;

struct Shrinker<F> {
    best: Vec<u8>,
    keeps: F,
    end: Instant,
}

/// The shortest input found that still has the property `keeps`; a program reads no more
/// than `limit` bytes.
pub fn shrink(input: &[u8], limit: usize, keeps: impl FnMut(&[u8]) -> bool) -> Vec<u8> {
    let mut shrinker = Shrinker {
        best: input.to_vec(),
        keeps,
        end: Instant::now() + MOST_TIME,
    };
    // Otherwise each line dropped would bring unread bytes into reach.
    if input.len() > limit {
        shrinker.accept(input[..limit].to_vec());
    }
    shrinker.cut_tail();
    loop {
        let before = shrinker.best.clone();
        shrinker.drop_pieces(lines);
        if shrinker.best.len() <= MOST_SINGLE_BYTES {
            shrinker.drop_pieces(|text| text.chunks(1).collect());
        }
        shrinker.lower_numbers();
        if shrinker.best == before {
            return before;
        }
    }
}

impl<F: FnMut(&[u8]) -> bool> Shrinker<F> {
    /// Takes over a shorter or simpler input if it keeps the property.
    fn accept(&mut self, candidate: Vec<u8>) -> bool {
        let accepted = (self.keeps)(&candidate);
        if accepted {
            self.best = candidate;
        }
        accepted
    }

    fn has_time(&self) -> bool {
        Instant::now() < self.end
    }

    /// Drops lines at the end, which is quick and leaves what came before.
    fn cut_tail(&mut self) {
        let mut size = lines(&self.best).len();
        while size > 0 {
            size /= 2;
            let kept = lines(&self.best).len() - size;
            let candidate = lines(&self.best)[..kept].concat();
            self.accept(candidate);
        }
    }

    /// Drops runs of pieces: halves, then quarters, down to single ones.
    fn drop_pieces(&mut self, split: fn(&[u8]) -> Vec<&[u8]>) {
        let mut size = split(&self.best).len().div_ceil(2);
        while size > 0 {
            let mut start = 0;
            while self.has_time() {
                let pieces = split(&self.best);
                if start >= pieces.len() {
                    break;
                }
                let end = (start + size).min(pieces.len());
                let candidate = [&pieces[..start], &pieces[end..]].concat().concat();
                if !self.accept(candidate) {
                    start += size;
                }
            }
            size /= 2;
        }
    }

    /// Puts smaller numbers in place of the numbers of the input.
    fn lower_numbers(&mut self) {
        let mut place = 0;
        while let Some((start, end, number)) = next_number(&self.best, place) {
            if !self.has_time() {
                return;
            }
            for lower in [0, 1, 2, number / 2, number.saturating_sub(1)] {
                let digits = lower.to_string().into_bytes();
                let candidate = [&self.best[..start], &digits, &self.best[end..]].concat();
                if lower < number && self.accept(candidate) {
                    break;
                }
            }
            place = next_number(&self.best, start).map_or(end, |(_, end, _)| end);
        }
    }
}

fn lines(text: &[u8]) -> Vec<&[u8]> {
    text.split_inclusive(|byte| *byte == b'\n').collect()
}

/// The first number from `place` on: where it starts and ends, and its value.
fn next_number(text: &[u8], place: usize) -> Option<(usize, usize, u64)> {
    let start = place + text[place..].iter().position(u8::is_ascii_digit)?;
    let length = text[start..]
        .iter()
        .take_while(|byte| byte.is_ascii_digit());
    let end = start + length.count();
    let digits = std::str::from_utf8(&text[start..end]).ok()?;
    Some((start, end, digits.parse().unwrap_or(u64::MAX)))
}
