//! Random texts for `parts`: of explanations, also of such that no session gives, and
//! damaged ones; and what they reach, for the comparison, which counts it.

use std::fmt;

use crate::comparison::Reached;
use crate::damage::{edit_lines, DAMAGES};
use crate::explanation::{explain_sound, Cause, Explanation, JobPart, IDLE_PART};
use crate::explanation_reader::read;
use crate::explanation_text::text_of;
use crate::inputs::{kind, Kind};
use crate::printed_parts::{run, INPUT_LIMIT};
use crate::rng::Rng;
use crate::sessions::sound_session;
use crate::table::ROW_LIMIT;
use crate::tally::too_rare;
use crate::words::more_words;

pub const KINDS: &[Kind] = &[
    kind("of-sessions", 200, session_text),
    kind("of-any-parts", 500, any_text),
    kind("byte-changed", 180, |rng| damaged(rng, change_byte)),
    kind("byte-left-out", 120, |rng| damaged(rng, leave_byte_out)),
    kind("byte-put-in", 120, |rng| damaged(rng, put_byte_in)),
    kind("byte-doubled", 100, |rng| damaged(rng, double_byte)),
    kind("lines-exchanged", 100, |rng| damaged(rng, exchange_lines)),
    kind("line-left-out", 100, |rng| damaged(rng, leave_line_out)),
    kind("line-doubled", 100, |rng| damaged(rng, double_line)),
    kind("number-changed", 200, |rng| damaged(rng, change_number)),
    kind("phrase-changed", 200, |rng| damaged(rng, change_phrase)),
    kind("bracket-changed", 60, wrong_bracket),
    kind("idle-as-row", 30, idle_as_row),
    kind("count-changed", 100, |rng| damaged(rng, change_count)),
    kind("17-jobs", 60, seventeen_jobs),
    kind("cut", 120, |rng| damaged(rng, cut)),
    kind("bytes-after", 80, |rng| damaged(rng, append)),
    kind("several", 80, damaged_often),
    kind("random-bytes", 40, random_bytes),
    kind("empty", 10, |_| Vec::new()),
];

/// Numbers whose text is next to a limit: a digit more, 32 bits, 53 bits, 64 bits.
const EXTREMES: [u64; 16] = [
    0,
    1,
    9,
    10,
    99,
    100,
    16,
    17,
    u32::MAX as u64,
    1 << 32,
    1 << 53,
    9_999_999_999_999_999_999,
    10_000_000_000_000_000_000,
    1 << 63,
    u64::MAX - 1,
    u64::MAX,
];

/// A number of any size, often next to a limit.
fn number(rng: &mut Rng) -> u64 {
    match rng.below(4) {
        0 => rng.pick(&EXTREMES),
        1 => u64::from(rng.between(0, 20)),
        _ => rng.draw() >> rng.below(64),
    }
}

fn optional_number(rng: &mut Rng) -> Option<u64> {
    rng.chance(1, 2).then(|| number(rng))
}

/// A row of a table mostly, or any number, idle among them.
fn row(rng: &mut Rng) -> u64 {
    match rng.below(4) {
        0 => number(rng),
        1 => IDLE_PART,
        _ => rng.below(ROW_LIMIT) as u64,
    }
}

fn job(rng: &mut Rng) -> JobPart {
    JobPart {
        row: row(rng),
        due: number(rng),
        budget: match rng.below(3) {
            0 => 0,
            _ => number(rng),
        },
        is_candidate: rng.chance(1, 2),
    }
}

const CAUSES: [Cause; 4] = [
    Cause::Remaining,
    Cause::Word,
    Cause::LackOfWord,
    Cause::NothingWaits,
];

/// Parts of which each is possible, though a session may give no such explanation.
pub fn random_explanation(rng: &mut Rng) -> Explanation {
    let count = match rng.below(4) {
        0 => rng.pick(&[0, 1, 9, 10, ROW_LIMIT, ROW_LIMIT]),
        1 => rng.below(4),
        _ => rng.below(ROW_LIMIT + 1),
    };
    Explanation {
        jobs: (0..count).map(|_| job(rng)).collect(),
        brittle: optional_number(rng),
        chosen: row(rng),
        word: optional_number(rng),
        span: number(rng),
        cause: rng.pick(&CAUSES),
    }
}

/// The longest text of all: each number has 20 digits but for the budgets, which are 0.
pub fn longest_explanation() -> Explanation {
    let job = JobPart {
        row: u64::MAX,
        due: u64::MAX,
        budget: 0,
        is_candidate: false,
    };
    Explanation {
        jobs: vec![job; ROW_LIMIT],
        brittle: Some(u64::MAX),
        chosen: u64::MAX,
        word: Some(u64::MAX),
        span: u64::MAX,
        cause: Cause::LackOfWord,
    }
}

/// The explanation of a sound session.
pub fn session_explanation(rng: &mut Rng) -> Explanation {
    let mut session = sound_session(rng);
    session.choice = None;
    let words = more_words(rng, &session, &[]);
    let explained = explain_sound(&session, &words);
    explained.expect("no choice is in force").explanation
}

fn session_text(rng: &mut Rng) -> Vec<u8> {
    text_of(&session_explanation(rng))
}

fn any_text(rng: &mut Rng) -> Vec<u8> {
    match rng.below(40) {
        0 => text_of(&longest_explanation()),
        _ => text_of(&random_explanation(rng)),
    }
}

/// A text that is damaged in this way; mostly one of few jobs, so that each line of it is
/// met.
fn damaged(rng: &mut Rng, damage: fn(&mut Rng, &mut Vec<u8>)) -> Vec<u8> {
    let mut explanation = match rng.below(3) {
        0 => session_explanation(rng),
        _ => random_explanation(rng),
    };
    if rng.chance(2, 3) {
        explanation.jobs.truncate(rng.below(4));
    }
    let mut text = text_of(&explanation);
    damage(rng, &mut text);
    text
}

fn damaged_often(rng: &mut Rng) -> Vec<u8> {
    let damages = [
        change_byte,
        double_byte,
        exchange_lines,
        change_number,
        change_phrase,
        change_count,
        any_damage,
    ];
    let damage = rng.pick(&damages);
    let mut text = damaged(rng, damage);
    for _ in 0..rng.between(1, 3) {
        if !text.is_empty() {
            rng.pick(&damages)(rng, &mut text);
        }
    }
    text
}

/// A way in which the inputs of `shuffle` are damaged.
fn any_damage(rng: &mut Rng, text: &mut Vec<u8>) {
    (DAMAGES[rng.below(DAMAGES.len())].apply)(rng, text);
}

/// Another byte in place of one: of any value, or of those that stand in texts.
fn change_byte(rng: &mut Rng, text: &mut Vec<u8>) {
    let place = rng.below(text.len());
    let byte = match rng.below(4) {
        0 => text[place] ^ (1 << rng.below(8)),
        1 => text[place].wrapping_add(rng.pick(&[1, u8::MAX])),
        2 => rng.draw() as u8,
        _ => rng.pick(text),
    };
    text.splice(place..=place, [byte]);
}

fn leave_byte_out(rng: &mut Rng, text: &mut Vec<u8>) {
    text.remove(rng.below(text.len()));
}

fn put_byte_in(rng: &mut Rng, text: &mut Vec<u8>) {
    let byte = match rng.below(3) {
        0 => rng.draw() as u8,
        1 => rng.pick(b"0123456789"),
        _ => rng.pick(b" \n\r\t.,:()\0"),
    };
    text.insert(rng.below(text.len() + 1), byte);
}

fn double_byte(rng: &mut Rng, text: &mut Vec<u8>) {
    let place = rng.below(text.len());
    text.insert(place, text[place]);
}

fn exchange_lines(rng: &mut Rng, text: &mut Vec<u8>) {
    edit_lines(rng, text, |lines, one, other| lines.swap(one, other));
}

fn leave_line_out(rng: &mut Rng, text: &mut Vec<u8>) {
    edit_lines(rng, text, |lines, one, _| {
        lines.remove(one);
    });
}

fn double_line(rng: &mut Rng, text: &mut Vec<u8>) {
    edit_lines(rng, text, |lines, one, _| lines.insert(one, lines[one]));
}

/// The places of the numbers of a text.
fn numbers(text: &[u8]) -> Vec<std::ops::Range<usize>> {
    let mut all = Vec::new();
    let mut start = None;
    for (place, byte) in text.iter().chain(b" ").enumerate() {
        match (byte.is_ascii_digit(), start) {
            (true, None) => start = Some(place),
            (false, Some(first)) => {
                all.push(first..place);
                start = None;
            }
            _ => {}
        }
    }
    all
}

/// Another text in place of a number: with zeros in front, too great, of another form, or
/// a number that may stand there.
fn change_number(rng: &mut Rng, text: &mut Vec<u8>) {
    let numbers = numbers(text);
    if numbers.is_empty() {
        return;
    }
    let place = numbers[rng.below(numbers.len())].clone();
    let old = String::from_utf8_lossy(&text[place.clone()]).into_owned();
    let new = match rng.below(8) {
        0 => format!("0{old}"),
        1 => format!("000000000000000000000{old}"),
        2 => rng.pick(&TOO_GREAT).to_string(),
        3 => format!("{old}{}", rng.draw()),
        4 => rng.pick(&ODD).to_string(),
        5 => (IDLE_PART + u64::from(rng.between(0, 1))).to_string(),
        _ => number(rng).to_string(),
    };
    text.splice(place, new.into_bytes());
}

/// 2^64 and numbers above it, with the same low bits as others among them.
const TOO_GREAT: [&str; 8] = [
    "18446744073709551616",
    "18446744073709551617",
    "18446744073709551625",
    "18446744073709551632",
    "20000000000000000000",
    "99999999999999999999",
    "184467440737095516150",
    "340282366920938463463374607431768211456",
];

/// What is no number, or not its text.
const ODD: [&str; 10] = [
    "", "00", "-0", "+1", "-1", " 1", "1 ", "1.0", "0x10", "1,000",
];

/// Phrases that stand in texts, or look as if they could.
const PHRASES: [&str; 30] = [
    "Waiting jobs: ",
    "Waiting Jobs: ",
    "Row ",
    "row ",
    ", due at ",
    ", due ",
    ", budget ",
    BRACKET,
    " (holds later jobs back) ",
    "(holds later jobs back)",
    ": candidate.\n",
    ": not a candidate.\n",
    ": no candidate.\n",
    "Brittle deadline ",
    ": of the candidates only the first may be due later.\n",
    "Chosen: ",
    "Chosen: row ",
    "Chosen: row 16",
    "Chosen: idle",
    "idle",
    ", by word ",
    ", no word decided.\n",
    ", no word decided",
    "Span ",
    ": its remaining ticks.\n",
    ": set by a word.\n",
    ": the most allowed, for lack of a word.\n",
    ": nothing waits.\n",
    ".\n",
    "\n",
];

/// Where the phrase stands in a text, if it does.
fn find(text: &[u8], phrase: &str) -> Option<std::ops::Range<usize>> {
    let mut windows = text.windows(phrase.len());
    let start = windows.position(|window| window == phrase.as_bytes())?;
    Some(start..start + phrase.len())
}

/// Another phrase, or none, in place of one; or a phrase before it.
fn change_phrase(rng: &mut Rng, text: &mut Vec<u8>) {
    let standing: Vec<_> = PHRASES
        .iter()
        .filter_map(|phrase| find(text, phrase))
        .collect();
    if standing.is_empty() {
        return;
    }
    let mut place = standing[rng.below(standing.len())].clone();
    let phrase = match rng.below(4) {
        0 => "",
        _ => rng.pick(&PHRASES),
    };
    if rng.chance(1, 4) {
        place.end = place.start;
    }
    text.splice(place, phrase.bytes());
}

const BRACKET: &str = " (holds later jobs back)";

/// A number that no other part of a random text is.
const MARK: u64 = 123_456_789_123_456_789;

/// A text in which a budget of 0 has no bracket, or another has one.
fn wrong_bracket(rng: &mut Rng) -> Vec<u8> {
    let mut explanation = random_explanation(rng);
    explanation.jobs.truncate(ROW_LIMIT - 1);
    let budget = rng.pick(&[0, MARK]);
    let place = rng.below(explanation.jobs.len() + 1);
    explanation
        .jobs
        .insert(place, JobPart { budget, ..job(rng) });
    let mut text = text_of(&explanation);
    if let Some(range) = find(&text, &MARK.to_string()) {
        text.splice(range.end..range.end, BRACKET.bytes());
    } else if let Some(range) = find(&text, BRACKET) {
        text.drain(range);
    }
    text
}

/// A text that says that row 16 is chosen, which is idle.
fn idle_as_row(rng: &mut Rng) -> Vec<u8> {
    let mut explanation = random_explanation(rng);
    explanation.chosen = IDLE_PART + 1;
    let mut text = text_of(&explanation);
    if let Some(range) = find(&text, "Chosen: row 17") {
        text.splice(range, *b"Chosen: row 16");
    }
    text
}

/// Another number of jobs, often one more or one less.
fn change_count(rng: &mut Rng, text: &mut Vec<u8>) {
    let Some(place) = numbers(text).into_iter().next() else {
        return;
    };
    let old = String::from_utf8_lossy(&text[place.clone()]).into_owned();
    let old: u64 = old.parse().unwrap_or(0);
    let count = rng.around(&[old, old, 16, 1 << 32, u64::MAX]);
    text.splice(place, count.to_string().into_bytes());
}

/// A text of one job more than there can be, right in all else.
fn seventeen_jobs(rng: &mut Rng) -> Vec<u8> {
    let mut explanation = random_explanation(rng);
    let count = ROW_LIMIT + rng.pick(&[1, 1, 1, 2, 10]);
    explanation.jobs = (0..count).map(|_| job(rng)).collect();
    text_of(&explanation)
}

fn cut(rng: &mut Rng, text: &mut Vec<u8>) {
    match rng.below(4) {
        0 => drop(text.drain(..rng.below(text.len()))),
        _ => text.truncate(rng.below(text.len())),
    }
}

/// Bytes behind a text, up to more than is read: of any sort, or another text.
fn append(rng: &mut Rng, text: &mut Vec<u8>) {
    match rng.below(6) {
        0 => text.push(b'\n'),
        1 => text.push(rng.draw() as u8),
        2 => text.extend(any_text(rng)),
        3 => text.extend(text.clone()),
        4 => text.resize(rng.pick(&[2_048, INPUT_LIMIT, INPUT_LIMIT + 1]), b'\n'),
        _ => text.resize(rng.pick(&[INPUT_LIMIT, INPUT_LIMIT + 1, 9_000]), 0),
    }
}

fn random_bytes(rng: &mut Rng) -> Vec<u8> {
    let length = rng.pick(&[1, 10, 100, 1_000, 4_095, 4_096, 5_000]);
    if rng.chance(1, 2) {
        return (0..length).map(|_| rng.draw() as u8).collect();
    }
    let phrases = (0..length / 10 + 1).map(|_| match rng.below(3) {
        0 => number(rng).to_string(),
        _ => rng.pick(&PHRASES).to_string(),
    });
    phrases.collect::<String>().into_bytes()
}

/// A sort of texts that are read: its name, of how many inputs one must be such, and
/// which are.
struct Sort {
    name: &'static str,
    one_in: u64,
    has: fn(&Explanation) -> bool,
}

const fn sort(name: &'static str, one_in: u64, has: fn(&Explanation) -> bool) -> Sort {
    Sort { name, one_in, has }
}

const SORTS: [Sort; 15] = [
    sort("without a job", 40, |parts| parts.jobs.is_empty()),
    sort("of 16 jobs", 60, |parts| parts.jobs.len() == ROW_LIMIT),
    sort("of 10 to 15 jobs", 40, |parts| {
        (10..ROW_LIMIT).contains(&parts.jobs.len())
    }),
    sort("with a budget of 0", 10, |parts| {
        parts.jobs.iter().any(|job| job.budget == 0)
    }),
    sort("with a brittle deadline", 10, |parts| {
        parts.brittle.is_some()
    }),
    sort("without one", 10, |parts| parts.brittle.is_none()),
    sort("of idle", 20, |parts| parts.chosen == IDLE_PART),
    sort("of idle by a word", 60, |parts| {
        parts.chosen == IDLE_PART && parts.word.is_some()
    }),
    sort("of a row by a word", 10, |parts| {
        parts.chosen != IDLE_PART && parts.word.is_some()
    }),
    sort("by remaining ticks", 20, |parts| {
        parts.cause == Cause::Remaining
    }),
    sort("by a word", 20, |parts| parts.cause == Cause::Word),
    sort("for lack of a word", 20, |parts| {
        parts.cause == Cause::LackOfWord
    }),
    sort("where nothing waits", 30, |parts| {
        parts.cause == Cause::NothingWaits
    }),
    sort("with the greatest number", 40, |parts| {
        has_number(parts, u64::MAX)
    }),
    sort("with 2^32, 2^53 or 2^63", 20, |parts| {
        [1 << 32, 1 << 53, 1 << 63]
            .into_iter()
            .any(|number| has_number(parts, number))
    }),
];

fn has_number(parts: &Explanation, number: u64) -> bool {
    let jobs = parts.jobs.iter();
    let mut in_jobs = jobs.flat_map(|job| [job.row, job.due, job.budget]);
    let others = [
        Some(parts.chosen),
        Some(parts.span),
        parts.brittle,
        parts.word,
    ];
    in_jobs.any(|other| other == number) || others.contains(&Some(number))
}

/// How many texts are read, and of which sort; and how many bytes are none.
#[derive(Default)]
pub struct TextTally {
    texts: u64,
    counts: [u64; SORTS.len()],
    refused: u64,
    longest: usize,
}

impl Reached for TextTally {
    fn add(&mut self, input: &[u8]) -> Vec<u8> {
        let read = read(&input[..input.len().min(INPUT_LIMIT)]);
        self.refused += u64::from(read.is_none());
        if let Some(parts) = read {
            self.texts += 1;
            self.longest = self.longest.max(input.len());
            for (count, sort) in self.counts.iter_mut().zip(&SORTS) {
                *count += u64::from((sort.has)(&parts));
            }
        }
        run(input)
    }

    fn merge(&mut self, other: TextTally) {
        self.texts += other.texts;
        self.refused += other.refused;
        self.longest = self.longest.max(other.longest);
        for (sum, count) in self.counts.iter_mut().zip(other.counts) {
            *sum += count;
        }
    }

    fn gaps(&self, inputs: u64) -> Vec<String> {
        let sorts = self.counts.iter().zip(&SORTS);
        let sorts = sorts.map(|(count, sort)| {
            let what = format!("are texts {}", sort.name);
            (*count, sort.one_in, what)
        });
        let all = [
            (self.texts, 4, "are texts".to_string()),
            (self.refused, 3, "are none".to_string()),
        ];
        let gaps = all
            .into_iter()
            .chain(sorts)
            .flat_map(|(count, one_in, what)| too_rare(inputs, &[(count, one_in, &what)]));
        gaps.collect()
    }
}

impl fmt::Display for TextTally {
    fn fmt(&self, formatter: &mut fmt::Formatter) -> fmt::Result {
        let counts = self.counts.iter().zip(&SORTS);
        let counts = counts.map(|(count, sort)| format!("{count} {}", sort.name));
        write!(
            formatter,
            "{} are no text, {} are one, the longest of {} bytes: {}",
            self.refused,
            self.texts,
            self.longest,
            counts.collect::<Vec<_>>().join(", ")
        )
    }
}
