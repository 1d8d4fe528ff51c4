//! Prints what trials are like, as tables for the documents: of the seeds from 0 on, or of
//! random ones, with `--seed` and any number; 1,000 of them, or as many as `--count` says.

use std::iter::repeat_n;

use shuffle_model::events::Events;
use shuffle_model::meter::{meter, Question};
use shuffle_model::options::Options;
use shuffle_model::rng::Rng;
use shuffle_model::table::{demand, Row, HORIZON};
use shuffle_model::text::{run_watched, Command};
use shuffle_model::trials::{lines_with, table, text_of, trial, words, Way, RIGHT};

/// K and L of the meter: of a table so many schedules are compared, each as far. No trial
/// that was seen is shorter.
const SCHEDULES: usize = 16;
const TICKS: usize = 300;
/// The lengths of intervals, each with its threshold.
const WINDOWS: [(usize, usize); 2] = [(1, 0), (8, 1)];

/// Without words: a choice comes at once, and the head is chosen.
const HEAD_ALWAYS: Way = Way {
    chooses: |_| true,
    ..RIGHT
};

fn main() {
    let options = Options::read(&["--count", "--seed"]);
    let count = options.number("--count", 1_000u32);
    let (whose, seeds): (String, Vec<u32>) = match options.text("--seed") {
        None => (
            format!("the seeds 0 to {}", count - 1),
            (0..count).collect(),
        ),
        Some(_) => {
            let mut rng = Rng::new(options.number("--seed", 0));
            let seeds = (0..count).map(|_| rng.draw() as u32);
            (format!("{count} random seeds"), seeds.collect())
        }
    };
    let trials: Vec<Trial> = seeds.into_iter().map(Trial::new).collect();
    println!("Trials of {whose}. Of each number: least, mean, greatest.");
    print_table(&trials, &TEXTS, range);
    println!("\nWhat the choices of a trial take, in the mean, and how many words they use.");
    print_table(&trials, &CHOICES, mean);
    println!(
        "\nHow mixed the schedules of a table are, in the mean: the meter of {SCHEDULES} stretches of \
        {TICKS} ticks, which are the first ticks of {SCHEDULES} schedules. One is the trial's own, the \
        others have the numbers of other seeds as words; or the head is run always, without a word. It \
        is at most {SCHEDULES} × {TICKS} × 32 = {}. Other ticks: in how many of these {TICKS} ticks a \
        trial runs another row than without words, or idle.",
        SCHEDULES * TICKS * 32
    );
    print_table(&trials, &METERS, mean);
}

/// What is seen of a trial.
struct Trial {
    text: Vec<u8>,
    rows: Vec<Row>,
    events: Events,
    clock: u64,
    /// With words and without, for each of the windows.
    meters: [[u64; 2]; WINDOWS.len()],
    /// The ticks in which another row runs than without words.
    others: u64,
}

impl Trial {
    fn new(seed: u32) -> Self {
        let rows = table(seed);
        let text = trial(seed);
        let mut rng = Rng::new(u64::from(seed));
        let own = schedule(&text);
        let mut mixed = own[..TICKS].to_vec();
        for _ in 1..SCHEDULES {
            mixed.extend(schedule_with(&RIGHT, &rows, rng.draw() as u32));
        }
        let head = schedule_with(&HEAD_ALWAYS, &rows, seed);
        let others = own.iter().zip(&head).filter(|(row, head)| row != head);
        Trial {
            events: Events::of(&text),
            clock: own.len() as u64,
            meters: WINDOWS.map(|window| {
                let heads = head.repeat(SCHEDULES);
                [reading(mixed.clone(), window), reading(heads, window)]
            }),
            others: others.count() as u64,
            text,
            rows,
        }
    }

    fn lines(&self, letter: u8) -> u64 {
        let lines = self.text.split(|byte| *byte == b'\n');
        lines.filter(|line| line.first() == Some(&letter)).count() as u64
    }
}

/// The row of each tick of a trial, 16 for idle.
fn schedule(text: &[u8]) -> Vec<u8> {
    let mut rows = Vec::new();
    run_watched(text, |machine, line| {
        if let (Command::Advance(ticks), Some(choice)) = (line, machine.session.choice) {
            rows.extend(repeat_n(choice.row as u8, ticks as usize));
        }
    });
    rows
}

/// The first ticks of a schedule of this table, with the numbers of a seed as words.
fn schedule_with(way: &Way, rows: &[Row], seed: u32) -> Vec<u8> {
    let lines = lines_with(way, rows.to_vec(), words(way, seed));
    let mut schedule = schedule(&text_of(lines));
    assert!(schedule.len() >= TICKS, "{rows:?}");
    schedule.truncate(TICKS);
    schedule
}

fn reading(rows: Vec<u8>, (window, threshold): (usize, usize)) -> u64 {
    let answer = meter(&Question {
        rows,
        stretches: SCHEDULES,
        ticks: TICKS,
        window,
        threshold,
    });
    assert_eq!(answer.number, 0);
    answer.values[0]
}

/// A column: its name, and its number for a trial.
type Column = (&'static str, fn(&Trial) -> u64);

const TEXTS: [Column; 7] = [
    ("Demand at 1,000,000", |trial| demand(&trial.rows, HORIZON)),
    ("A", |trial| trial.lines(b'A')),
    ("W", |trial| trial.lines(b'W')),
    ("G", |trial| trial.lines(b'G')),
    ("R", |trial| trial.lines(b'R')),
    ("Clock at the end", |trial| trial.clock),
    ("Bytes", |trial| trial.text.len() as u64),
];

const CHOICES: [Column; 8] = [
    ("Later job", |trial| trial.events.count("a later job")),
    ("Idle over waiting jobs", |trial| {
        trial.events.count("idle while a job waits")
    }),
    ("Head by a word", |trial| {
        trial.events.count("the head by a word")
    }),
    ("Head, only candidate or no word", |trial| {
        let without = ["the only candidate", "the head for lack of a word"];
        without.map(|name| trial.events.count(name)).iter().sum()
    }),
    ("Nothing waiting", |trial| {
        trial.events.count("nothing waiting")
    }),
    ("0 words", |trial| trial.events.count("no word used")),
    ("1 word", |trial| trial.events.count("one word used")),
    ("2 words or more", |trial| {
        trial.events.count("several words used")
    }),
];

const METERS: [Column; 5] = [
    ("m = 1, threshold 0", |trial| trial.meters[0][0]),
    ("Head always", |trial| trial.meters[0][1]),
    ("m = 8, threshold 1", |trial| trial.meters[1][0]),
    ("Head always", |trial| trial.meters[1][1]),
    ("Other ticks", |trial| trial.others),
];

fn mean(numbers: &[u64]) -> String {
    let mean = numbers.iter().sum::<u64>() as f64 / numbers.len() as f64;
    if mean < 1_000.0 {
        format!("{mean:.1}")
    } else {
        format!("{mean:.0}")
    }
}

/// The least, the mean and the greatest number.
fn range(numbers: &[u64]) -> String {
    let [least, greatest] = [numbers.iter().min(), numbers.iter().max()];
    let [least, greatest] = [least, greatest].map(|number| number.expect("there is a trial"));
    let mean = numbers.iter().sum::<u64>() / numbers.len() as u64;
    format!("{least}, {mean}, {greatest}")
}

/// A line for each number of rows and one for all.
fn print_table(trials: &[Trial], columns: &[Column], cell: fn(&[u64]) -> String) {
    let names: Vec<&str> = columns.iter().map(|(name, _)| *name).collect();
    println!("\n| Rows | Trials | {} |", names.join(" | "));
    println!("|---|---:|{}", "---:|".repeat(columns.len()));
    for count in 5..=12 {
        let some = trials.iter().filter(|trial| trial.rows.len() == count);
        print_line(&count.to_string(), &some.collect::<Vec<_>>(), columns, cell);
    }
    print_line("all", &trials.iter().collect::<Vec<_>>(), columns, cell);
}

fn print_line(name: &str, trials: &[&Trial], columns: &[Column], cell: fn(&[u64]) -> String) {
    if trials.is_empty() {
        return;
    }
    let cells = columns.iter().map(|(_, number)| {
        let numbers: Vec<u64> = trials.iter().map(|trial| number(trial)).collect();
        cell(&numbers)
    });
    let cells: Vec<String> = cells.collect();
    println!("| {name} | {} | {} |", trials.len(), cells.join(" | "));
}
