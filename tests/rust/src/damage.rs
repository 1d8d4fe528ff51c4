//! Ways to damage an input.

use crate::rng::Rng;

/// One way to damage an input, with its name.
pub struct Damage {
    pub name: &'static str,
    pub apply: fn(&mut Rng, &mut Vec<u8>),
}

const fn damage(name: &'static str, apply: fn(&mut Rng, &mut Vec<u8>)) -> Damage {
    Damage { name, apply }
}

pub const DAMAGES: &[Damage] = &[
    damage("bit flipped", |rng, text| {
        change(rng, text, |rng, byte| byte ^ (1 << rng.below(8)))
    }),
    damage("byte replaced", |rng, text| {
        change(rng, text, |rng, _| {
            rng.pick(b"TWAGRFM?B0123456789\t\n \r-+.,\0")
        })
    }),
    damage("byte removed", |rng, text| {
        let place = rng.below(text.len());
        text.remove(place);
    }),
    damage("digit inserted", |rng, text| {
        let digit = rng.pick(b"0123456789");
        insert_at_random(rng, text, &[digit])
    }),
    damage("byte inserted", |rng, text| {
        let byte = rng.draw() as u8;
        insert_at_random(rng, text, &[byte])
    }),
    damage("tab doubled", |rng, text| {
        insert_before(rng, text, b'\t', b"\t")
    }),
    damage("tab before newline", |rng, text| {
        insert_before(rng, text, b'\n', b"\t")
    }),
    damage("space before newline", |rng, text| {
        insert_before(rng, text, b'\n', b" ")
    }),
    damage("carriage return", |rng, text| {
        insert_before(rng, text, b'\n', b"\r")
    }),
    damage("empty line", |rng, text| {
        insert_before(rng, text, b'\n', b"\n")
    }),
    damage("field too many", |rng, text| {
        insert_before(rng, text, b'\n', b"\t1")
    }),
    damage("leading zero", |rng, text| {
        insert_after(rng, text, b'\t', b"0")
    }),
    damage("space before number", |rng, text| {
        insert_after(rng, text, b'\t', b" ")
    }),
    damage("space for tab", |rng, text| {
        replace(rng, text, |byte| byte == b'\t', |_| b' ')
    }),
    damage("lower case", |rng, text| {
        replace(
            rng,
            text,
            |byte| byte.is_ascii_uppercase(),
            |byte| byte.to_ascii_lowercase(),
        )
    }),
    damage("NUL", |rng, text| insert_at_random(rng, text, b"\0")),
    damage("byte from 128 on", |rng, text| {
        let byte = rng.between(128, 255) as u8;
        insert_at_random(rng, text, &[byte])
    }),
    damage("no final newline", |_, text| {
        text.pop();
    }),
    damage("cut short", |rng, text| {
        text.truncate(rng.below(text.len()))
    }),
    damage("lines swapped", |rng, text| {
        edit_lines(rng, text, |lines, one, other| lines.swap(one, other))
    }),
    damage("line moved", |rng, text| {
        edit_lines(rng, text, |lines, one, other| {
            let line = lines.remove(one);
            lines.insert(other, line);
        })
    }),
    damage("line doubled", |rng, text| {
        edit_lines(rng, text, |lines, one, _| lines.insert(one, lines[one]))
    }),
    damage("line removed", |rng, text| {
        edit_lines(rng, text, |lines, one, _| {
            lines.remove(one);
        })
    }),
];

/// Damages an input in one random way; an empty input stays as it is.
pub fn damage_once(rng: &mut Rng, text: &mut Vec<u8>) {
    let damage = &DAMAGES[rng.below(DAMAGES.len())];
    if !text.is_empty() {
        (damage.apply)(rng, text);
    }
}

fn change(rng: &mut Rng, text: &mut [u8], to: fn(&mut Rng, u8) -> u8) {
    let place = rng.below(text.len());
    text[place] = to(rng, text[place]);
}

fn insert_at_random(rng: &mut Rng, text: &mut Vec<u8>, bytes: &[u8]) {
    let place = rng.below(text.len() + 1);
    text.splice(place..place, bytes.iter().copied());
}

/// A random place whose byte fits, if there is one.
fn find(rng: &mut Rng, text: &[u8], fits: impl Fn(u8) -> bool) -> Option<usize> {
    let places: Vec<usize> = (0..text.len()).filter(|place| fits(text[*place])).collect();
    (!places.is_empty()).then(|| rng.pick(&places))
}

fn insert_before(rng: &mut Rng, text: &mut Vec<u8>, marker: u8, bytes: &[u8]) {
    if let Some(place) = find(rng, text, |byte| byte == marker) {
        text.splice(place..place, bytes.iter().copied());
    }
}

fn insert_after(rng: &mut Rng, text: &mut Vec<u8>, marker: u8, bytes: &[u8]) {
    if let Some(place) = find(rng, text, |byte| byte == marker) {
        text.splice(place + 1..place + 1, bytes.iter().copied());
    }
}

fn replace(rng: &mut Rng, text: &mut [u8], fits: fn(u8) -> bool, to: fn(u8) -> u8) {
    if let Some(place) = find(rng, text, fits) {
        text[place] = to(text[place]);
    }
}

/// Edits the list of lines, given two random places in it.
pub(crate) fn edit_lines(
    rng: &mut Rng,
    text: &mut Vec<u8>,
    edit: fn(&mut Vec<&[u8]>, usize, usize),
) {
    let mut lines: Vec<&[u8]> = text.split_inclusive(|byte| *byte == b'\n').collect();
    let one = rng.below(lines.len());
    let other = rng.below(lines.len());
    edit(&mut lines, one, other);
    *text = lines.concat();
}
