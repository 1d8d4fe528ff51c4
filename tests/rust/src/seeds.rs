//! Inputs for `load`: seeds at which a wrong way can be told from the right one, and inputs
//! that are no seed; and wrong ways to read them.

use std::iter::repeat_n;

use crate::damage::damage_once;
use crate::inputs::ODD_NUMBERS;
use crate::rng::Rng;
use crate::tally::ONCE;
use crate::text::read_number;
use crate::trials::{FACTOR, INCREMENT};

/// The line of a seed.
pub fn line(seed: u32) -> Vec<u8> {
    format!("{seed}\n").into_bytes()
}

/// The number before another.
pub fn before(number: u32) -> u32 {
    let product = number.wrapping_sub(INCREMENT as u32);
    product.wrapping_mul(inverse(FACTOR as u32))
}

/// By what an odd number has to be multiplied for 1, in 32 bits. An odd number is its own
/// inverse in the lowest three bits, and each round makes twice as many bits right.
fn inverse(odd: u32) -> u32 {
    let better = |inverse: u32| {
        let rest = 2u32.wrapping_sub(odd.wrapping_mul(inverse));
        inverse.wrapping_mul(rest)
    };
    (0..4).fold(odd, |inverse, _| better(inverse))
}

/// The seed that has a number at this place, counted from 1.
fn with_number(number: u32, place: usize) -> u32 {
    (0..place).fold(number, |number, _| before(number))
}

/// Seeds that are always tried, each once.
pub fn fixed_seeds() -> Vec<u32> {
    let first = [
        0,
        1,
        2,
        7,
        8,
        u32::MAX,
        u32::MAX - 1,
        1 << 31,
        (1 << 31) - 1,
    ];
    let example = [1_000_000];
    let powers = (0..32).map(|bit| 1u32 << bit);
    let powers = powers.flat_map(|power| [power - 1, power, power.wrapping_add(1)]);
    let numbers = [0, 1, 1 << 31, u32::MAX];
    let numbers = numbers.map(|number| [1, 2].map(|place| with_number(number, place)));
    let mut seeds: Vec<u32> = first.into_iter().chain(example).collect();
    seeds.extend(powers.chain(alike()).chain(numbers.concat()));
    let mut each = Vec::new();
    for seed in seeds {
        if !each.contains(&seed) {
            each.push(seed);
        }
    }
    each
}

/// For each number of rows the seeds whose other digits are all the same. The highest
/// digit has two bits.
fn alike() -> impl Iterator<Item = u32> {
    let ones = 0o11_111_111_110u32;
    (0..8).flat_map(move |rows| (0..8).map(move |digit| ones.wrapping_mul(digit) + rows))
}

/// A seed of any size. In one of eight the greatest word comes early enough that a draw
/// may pass it over.
pub fn random_seed(rng: &mut Rng) -> u32 {
    match rng.below(8) {
        0 => with_number(u32::MAX, rng.between(1, 120) as usize),
        1..4 => rng.of_any_size(1, u32::MAX),
        _ => rng.draw() as u32,
    }
}

/// Short inputs that are no seed.
const SHORT: &[&[u8]] = &[
    b"",
    b"\n",
    b"\n\n",
    b"0",
    b"7",
    b"4294967295",
    b"7\n\n",
    b"7\n\n\n",
    b"\n7\n",
    b"7\n7\n",
    b"7\n8\n",
    b"7\n8",
    b"7\n0",
    b"7\n ",
    b"7\r\n",
    b"7\r",
    b"7\n\r",
    b"7\r\n\r\n",
    b"\r\n",
    b"\r7\n",
    b" 7\n",
    b"7 \n",
    b"7 8\n",
    b"\t7\n",
    b"7\t\n",
    b"7\t8\n",
    b"\x0b7\n",
    b"7\x0c\n",
    b"+7\n",
    b"+0\n",
    b"-7\n",
    b"-0\n",
    b"--7\n",
    b"07\n",
    b"007\n",
    b"000\n",
    b"0000000007\n",
    b"00000000007\n",
    b"04294967295\n",
    b"4294967297\n",
    b"4294967303\n",
    b"5000000000\n",
    b"9999999999\n",
    b"10000000000\n",
    b"42949672960\n",
    b"18446744073709551615\n",
    b"18446744073709551623\n",
    b"340282366920938463463374607431768211463\n",
    b"7.\n",
    b"7.0\n",
    b"7e0\n",
    b"0x7\n",
    b"0o7\n",
    b"7h\n",
    b"7a\n",
    b"a7\n",
    b"a\n",
    b"seven\n",
    b"\"7\"\n",
    b"7/\n",
    b"7:\n",
    b"/\n",
    b":\n",
    b"W\t7\n",
    b"T\t1\t9\t9\n",
    b"\0",
    b"\0\n",
    b"7\0",
    b"7\0\n",
    b"\x007\n",
    b"7\n\0",
    b"\xef\xbb\xbf7\n",
    b"\xd9\xa7\n",
    b"\xef\xbc\x97\n",
    b"\xb7\n",
    b"7\x85\n",
    b"7\xa0\n",
    b"7\x1a\n",
    b"7\n\x1a",
    b"\xff\n",
];

/// Lengths at which a program may stop reading, and far above them.
const LENGTHS: [usize; 9] = [12, 16, 20, 32, 64, 256, 4_096, 65_536, 100_000];

/// Inputs of such lengths, and a byte longer, that begin with the line of a seed, or with
/// digits.
fn long() -> Vec<Vec<u8>> {
    let heads: [&[u8]; 3] = [b"7\n", b"4294967295\n", b"4"];
    let lengths = LENGTHS.map(|length| [length, length + 1]).concat();
    let mut inputs = Vec::new();
    for (place, length) in lengths.into_iter().enumerate() {
        for head in heads {
            // One byte after the other, so that each comes with several lengths.
            let byte = b"\n07 \0x"[place % 6];
            let tail = repeat_n(byte, length - head.len());
            inputs.push(head.iter().copied().chain(tail).collect());
        }
    }
    inputs
}

/// Inputs for the rules of reading that are always tried; nearly all are no seed.
pub fn damaged_inputs() -> Vec<Vec<u8>> {
    let short = SHORT.iter().map(|input| input.to_vec());
    let odd = ODD_NUMBERS
        .iter()
        .map(|text| format!("{text}\n").into_bytes());
    short.chain(odd).chain(long()).collect()
}

/// The line of a seed, damaged at random; it may be one again.
pub fn mutated_line(rng: &mut Rng) -> Vec<u8> {
    let mut text = line(random_seed(rng));
    for _ in 0..rng.pick(&[1, 1, 1, 2, 3]) {
        damage_once(rng, &mut text);
    }
    text
}

/// NOT the product's rule: what another reader does, of how many inputs that are no seed it
/// must take one for a seed, and the seed that it reads.
pub struct WrongReader {
    pub name: &'static str,
    pub one_in: u64,
    pub read: fn(&[u8]) -> Option<u32>,
}

const fn reader(name: &'static str, one_in: u64, read: fn(&[u8]) -> Option<u32>) -> WrongReader {
    WrongReader { name, one_in, read }
}

pub const WRONG_READERS: [WrongReader; 14] = [
    reader("needs no newline", 30, |input| {
        read_number(input.strip_suffix(b"\n").unwrap_or(input))
    }),
    reader("takes the first line alone", 12, |input| {
        let end = input.iter().position(|byte| *byte == b'\n')?;
        read_number(&input[..end])
    }),
    reader("drops empty lines at the end", 40, |input| {
        let end = input.iter().rposition(|byte| *byte != b'\n')?;
        read_number(&input[..=end]).filter(|_| end + 1 < input.len())
    }),
    reader("drops a carriage return", 50, |input| {
        let line = input.strip_suffix(b"\n")?;
        read_number(line.strip_suffix(b"\r").unwrap_or(line))
    }),
    reader("drops blanks", 12, |input| {
        read_number(input.strip_suffix(b"\n")?.trim_ascii())
    }),
    reader("takes a plus sign", ONCE, |input| {
        let line = input.strip_suffix(b"\n")?;
        read_number(line.strip_prefix(b"+").unwrap_or(line))
    }),
    reader("takes leading zeros", 80, |input| {
        let digits = input.strip_suffix(b"\n")?;
        let zeros = digits.iter().take_while(|digit| **digit == b'0').count();
        read_number(&digits[zeros.min(digits.len().saturating_sub(1))..])
    }),
    reader("takes the lowest 32 bits", 40, |input| {
        digits_of(input)?.iter().try_fold(0u32, |number, digit| {
            let product = number.wrapping_mul(10);
            Some(product.wrapping_add(u32::from(digit - b'0')))
        })
    }),
    reader(
        "takes the greatest seed for a greater number",
        40,
        |input| {
            let digits = digits_of(input)?;
            Some(read_number(digits).unwrap_or(u32::MAX))
        },
    ),
    reader("takes the digits in front", 4, |input| {
        let digits = input.iter().take_while(|byte| byte.is_ascii_digit());
        read_number(&input[..digits.count()])
    }),
    reader("takes an empty line for 0", ONCE, |input| match input {
        b"\n" => Some(0),
        _ => read_number(input.strip_suffix(b"\n")?),
    }),
    reader("stops at a zero byte", 20, |input| {
        let text = input.split(|byte| *byte == 0).next()?;
        read_number(text.strip_suffix(b"\n").unwrap_or(text))
    }),
    reader("reads eleven bytes", 40, |input| {
        read_number(input[..input.len().min(11)].strip_suffix(b"\n")?)
    }),
    reader("drops the highest bit of a byte", ONCE, |input| {
        let bits: Vec<u8> = input.iter().map(|byte| byte % 128).collect();
        read_number(bits.strip_suffix(b"\n")?)
    }),
];

/// The digits of a line that has nothing else, and no 0 in front.
fn digits_of(input: &[u8]) -> Option<&[u8]> {
    let digits = input.strip_suffix(b"\n")?;
    let has_leading_zero = digits.len() > 1 && digits[0] == b'0';
    let is_number = !digits.is_empty() && digits.iter().all(u8::is_ascii_digit);
    (is_number && !has_leading_zero).then_some(digits)
}
