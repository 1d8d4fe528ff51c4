//! Compares the library's meter with the model on random questions: the whole
//! answer, and that the lent rows are only read.

use std::process::exit;
use std::time::Instant;

use shuffle_model::meter::{logarithm, Question};
use shuffle_model::options::Options;
use shuffle_model::questions::next_question;
use shuffle_model::readings::{has_equal_stretches, Reading, ReadingTally};
use shuffle_model::record::{ask_library, reply_of};
use shuffle_model::rng::Rng;
use shuffle_model::shuffle::Reply;

const DEFAULT_QUESTIONS: u64 = 20_000;
const DEFAULT_SEED: u64 = 20_250_301;
/// From this many questions on, each sort must have been reached often enough.
const FULL_QUESTIONS: u64 = 10_000;

fn main() {
    let options = Options::read(&["--questions", "--seed"]);
    let questions = options.number("--questions", DEFAULT_QUESTIONS);
    let mut rng = Rng::new(options.number("--seed", DEFAULT_SEED));
    let start = Instant::now();
    let mut tally = ReadingTally::default();
    let mut wrong = 0;
    let mut least: Option<Disagreement> = None;
    for asked in 0..questions {
        let question = next_question(&mut rng, asked);
        let reading = Reading::new(&question);
        tally.add(&reading);
        let expected = reply_of(reading.answer);
        if let Some(found) = disagreement(&mut rng, question, expected) {
            wrong += 1;
            least = least.filter(|least| least.length() <= found.length());
            least = least.or(Some(found));
        }
    }
    let seconds = start.elapsed().as_secs_f64();
    if let Some(least) = least {
        println!("DISAGREEMENT on {wrong} of {questions} questions; the one with the fewest rows:");
        println!("{least:?}");
        exit(1);
    }
    println!("all agree: {tally}; {seconds:.1} s");
    let gaps = tally.gaps();
    if questions >= FULL_QUESTIONS && !gaps.is_empty() {
        println!("FAILED: {}", gaps.join(", "));
        exit(1);
    }
}

/// A question that the library answers otherwise than the model, or in a way that
/// cannot be.
#[derive(Debug)]
#[allow(dead_code)] // all of it is printed
struct Disagreement {
    question: Question,
    library: Reply,
    model: Reply,
    rows_are_changed: bool,
}

impl Disagreement {
    fn length(&self) -> usize {
        self.question.rows.len()
    }
}

fn disagreement(rng: &mut Rng, question: Question, model: Reply) -> Option<Disagreement> {
    let (library, rows_are_changed) = ask(rng, &question);
    let agrees = library == model && is_possible(&question, library) && !rows_are_changed;
    (!agrees).then_some(Disagreement {
        question,
        library,
        model,
        rows_are_changed,
    })
}

/// The library's answer, and whether it changed what it was lent. The rows lie
/// between other bytes, which are not lent, and begin at any place of a word.
fn ask(rng: &mut Rng, question: &Question) -> (Reply, bool) {
    let mut others = || -> Vec<u8> { (0..rng.below(16)).map(|_| rng.draw() as u8).collect() };
    let (before, after) = (others(), others());
    let all = [&before, &question.rows, &after]
        .map(Vec::as_slice)
        .concat();
    let lent = all.clone();
    let rows = &lent[before.len()..][..question.rows.len()];
    let reply = ask_library(question, rows);
    (reply, lent != all)
}

/// Whether a sum can be an answer: 0 for equal stretches, and at most g(K) for each
/// tick.
fn is_possible(question: &Question, reply: Reply) -> bool {
    if !reply.is_accepted() {
        return true;
    }
    let most = question.rows.len() as u64 * logarithm(question.stretches);
    reply.first <= most && (reply.first == 0 || !has_equal_stretches(question))
}
