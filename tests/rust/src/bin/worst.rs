//! Searches for tables on which a checked call takes long. Each such call
//! first checks the record, and that decides the table anew; so the time of
//! the check is what counts. And for tables on which the opinion takes long before
//! it is refusal 3: that names the first overload, which a check does not.

use std::fmt;
use std::hint::black_box;
use std::process::exit;
use std::time::{Duration, Instant};

use shuffle_model::hard::{
    full_to, full_to_one, mutant, utilisation, with_longer_deadlines, with_more_work,
};
use shuffle_model::options::Options;
use shuffle_model::record::{expected_start, judgement_of};
use shuffle_model::rng::Rng;
use shuffle_model::shuffle::{self, number, Judgement, Session as Record};
use shuffle_model::table::{busy_length, kind_by_budgets, opinion, words_of, Row};

const DEFAULT_SEED: u64 = 20_250_301;
/// The tables reported of each class.
const REPORTED: usize = 3;
/// The tables kept of each class: more, since some are there by chance, until
/// their times are read again.
const KEPT: usize = 12;
/// Readings of a time that counts; the least is taken, since other processes
/// only ever lengthen it.
const READINGS: usize = 5;
/// A time within this of another is not cheaper.
const NOISE: f64 = 0.97;
/// A climb ends after so many changes without a gain.
const MISSES: u32 = 60;
/// After so many the time of the table that it is at is read again.
const READ_AGAIN: u32 = 20;
const LONGEST_CLIMB: Duration = Duration::from_secs(10);
const PROGRESS: Duration = Duration::from_secs(30);
/// The times in us that tables are counted at.
const LINES: [f64; 6] = [10.0, 30.0, 100.0, 300.0, 1_000.0, 2_000.0];
/// The utilisation up to which a table is roomy; the tail is for rounding.
const ROOMY: f64 = 0.999 + 1e-12;
/// The limit of roomy tables in us.
const ROOMY_LIMIT: f64 = 100.0;
/// The limit of an opinion that is refusal 3, in us: about twice the longest
/// that was found (tests/worst).
const OVERLOADED_LIMIT: f64 = 3_500.0;
/// So many times a full table is given more work, to start at what takes longest.
const OVERLOADS: usize = 16;

#[derive(Clone, Copy, Debug, PartialEq, Eq)]
enum Class {
    Roomy,
    Full,
    Refused,
    /// Refused with 3. Such a table is also one of the refused, for its check.
    Overloaded,
}

const CLASSES: [(Class, &str); 4] = [
    (Class::Roomy, "admitted, utilisation up to 0.999"),
    (Class::Full, "admitted, utilisation above 0.999"),
    (Class::Refused, "refused, in a record that a host made up"),
    (Class::Overloaded, "opinion that is refusal 3"),
];

impl Class {
    /// Whether the time of the opinion is what the class is about.
    fn is_about_opinion(self) -> bool {
        self == Class::Overloaded
    }

    fn is_admitted(self) -> bool {
        matches!(self, Class::Roomy | Class::Full)
    }

    /// The limit of its times in us, where `limit` is that of a check.
    fn limit(self, limit: f64) -> f64 {
        match self {
            Class::Roomy => ROOMY_LIMIT,
            Class::Full | Class::Refused => limit,
            Class::Overloaded => OVERLOADED_LIMIT,
        }
    }
}

fn main() {
    let options = Options::read(&["--seconds", "--seed", "--limit"]);
    let time = Duration::from_secs(options.number("--seconds", 60));
    let limit = options.number("--limit", 2_000.0);
    let mut search = Search::new(options.number("--seed", DEFAULT_SEED), time);
    let mut shown = Instant::now();
    while !search.is_over() {
        search.climb();
        if shown.elapsed() >= PROGRESS {
            println!("{}", search.progress());
            shown = Instant::now();
        }
    }
    let mut failures = Vec::new();
    for ((class, name), findings) in CLASSES.into_iter().zip(&mut search.findings) {
        findings.read_again(0.0);
        findings.kept.truncate(REPORTED);
        println!("{name}: {findings}");
        let failure = findings.failure(class.limit(limit));
        failures.extend(failure.map(|failure| format!("FAILED: {name}: {failure}")));
    }
    for failure in &failures {
        println!("{failure}");
    }
    exit(i32::from(!failures.is_empty()));
}

/// A table and how long it takes, in us.
#[derive(Clone)]
struct Trial {
    rows: Vec<Row>,
    class: Class,
    record: Record,
    check: f64,
    opinion: f64,
    /// The climb that found it.
    climb: u64,
}

/// What was found of a class.
#[derive(Default)]
struct Findings {
    tried: u64,
    /// How many tables reach each of the lines. A table that is not kept is
    /// often read once only, so some of these were slow by chance.
    above: [u64; LINES.len()],
    /// The tables that take longest, longest first, each of another climb.
    kept: Vec<Trial>,
    /// The table with the longest opinion, where the class is about checks.
    opinion: Option<Trial>,
    /// The time spent on climbs in this class.
    spent: Duration,
}

impl Findings {
    fn highest(&self) -> f64 {
        self.kept.first().map_or(0.0, Trial::time)
    }

    /// What a time must pass to be kept.
    fn bar(&self) -> f64 {
        self.kept.get(KEPT - 1).map_or(0.0, Trial::time)
    }

    fn opinion_bar(&self) -> f64 {
        let opinion = self.opinion.as_ref();
        opinion.map_or(0.0, |trial| trial.opinion)
    }

    fn add(&mut self, trial: &Trial) {
        self.tried += 1;
        for (above, line) in self.above.iter_mut().zip(LINES) {
            *above += u64::from(trial.time() >= line);
        }
        if !trial.class.is_about_opinion() && trial.opinion > self.opinion_bar() {
            self.opinion = Some(trial.clone());
        }
        if trial.time() > self.bar() {
            self.kept.push(trial.clone());
            self.sort();
            // Tables of one climb are much alike.
            let mut climbs = Vec::new();
            self.kept.retain(|trial| {
                let is_first = !climbs.contains(&trial.climb);
                climbs.push(trial.climb);
                is_first
            });
            self.kept.truncate(KEPT);
        }
    }

    fn sort(&mut self) {
        self.kept.sort_by(|a, b| b.time().total_cmp(&a.time()));
    }

    /// Reads the times of what is kept again, those below the bar once only: a
    /// machine that others use is slow for longer than a few readings take.
    fn read_again(&mut self, bar: f64) {
        for trial in &mut self.kept {
            trial.read(bar);
        }
        if let Some(trial) = &mut self.opinion {
            trial.read_opinion(bar);
        }
        self.sort();
    }

    /// What is wrong with the tables kept.
    fn failure(&self, limit: f64) -> Option<String> {
        let mut kept = self.kept.iter().chain(&self.opinion);
        if !kept.all(Trial::is_right) {
            return Some("the model has another opinion on a table".to_string());
        }
        let time = self.highest();
        (time >= limit).then(|| format!("{time:.1} us, and the limit is {limit} us"))
    }
}

impl fmt::Display for Findings {
    fn fmt(&self, f: &mut fmt::Formatter) -> fmt::Result {
        write!(f, "{} tables tried; at or above", self.tried)?;
        for (line, above) in LINES.iter().zip(self.above) {
            write!(f, " {line} us: {above},")?;
        }
        write!(f, " the worst:")?;
        for trial in &self.kept {
            let what = if trial.class.is_about_opinion() {
                "opinion"
            } else {
                "check"
            };
            write!(f, "\n  {what} {:.1} us: {trial}", trial.time())?;
        }
        if let Some(trial) = &self.opinion {
            write!(f, "\n  opinion {:.1} us: {trial}", trial.opinion)?;
        }
        Ok(())
    }
}

impl Trial {
    /// The table with one reading of its opinion and none of the check. What an
    /// overloaded table counts as depends on the class that is sought.
    fn new(rows: Vec<Row>, climb: u64, sought: Class) -> Self {
        let words = words_of(&rows);
        let start = Instant::now();
        let judgement = shuffle::opinion(&words);
        let opinion = us(start.elapsed());
        let class = match judgement.number {
            number::ACCEPTED if utilisation(&rows) <= ROOMY => Class::Roomy,
            number::ACCEPTED => Class::Full,
            number::OVERLOAD if sought == Class::Overloaded => Class::Overloaded,
            _ => Class::Refused,
        };
        let record = match class {
            Class::Refused => made_up(&rows),
            _ => Record::start(&words).1,
        };
        Trial {
            rows,
            class,
            record,
            check: f64::INFINITY,
            opinion,
            climb,
        }
    }

    /// The time that its class is about.
    fn time(&self) -> f64 {
        if self.class.is_about_opinion() {
            self.opinion
        } else {
            self.check
        }
    }

    fn read(&mut self, bar: f64) {
        if self.class.is_about_opinion() {
            self.read_opinion(bar);
        } else {
            self.read_check(bar);
        }
    }

    /// Whether opinion and start of the library are the model's.
    fn is_right(&self) -> bool {
        let words = words_of(&self.rows);
        let judgement = shuffle::opinion(&words);
        let opinion = opinion(&words);
        judgement == judgement_of(&opinion)
            && Record::start(&words) == expected_start(&Record::NONE, &opinion, &words)
            && judgement.is_admitted() == self.class.is_admitted()
    }

    fn read_check(&mut self, bar: f64) {
        let time = least_time(bar, || self.record.is_sound() == self.class.is_admitted());
        let time = time.unwrap_or_else(|| panic!("soundness is not as the opinion: {self}"));
        self.check = self.check.min(time);
    }

    fn read_opinion(&mut self, bar: f64) {
        let words = words_of(&self.rows);
        let time = least_time(bar, || {
            shuffle::opinion(&words).is_admitted() == self.class.is_admitted()
        });
        let time = time.unwrap_or_else(|| panic!("the opinion changes: {self}"));
        self.opinion = self.opinion.min(time);
    }
}

/// The record of a refused table, as a host could make it up (§5.1): of the
/// kind for which the whole table is decided.
fn made_up(rows: &[Row]) -> Record {
    let mut record = Record {
        kind: kind_by_budgets(rows) as u64,
        count: rows.len() as u64,
        ..Record::NONE
    };
    let words = words_of(rows);
    record.words[..words.len()].copy_from_slice(&words);
    record
}

impl fmt::Display for Trial {
    fn fmt(&self, f: &mut fmt::Formatter) -> fmt::Result {
        write!(f, "utilisation {:.9}, ", utilisation(&self.rows))?;
        match busy_length(&self.rows) {
            Some(length) => write!(f, "busy length {length}, ")?,
            None => write!(f, "no busy length, ")?,
        }
        if self.class == Class::Overloaded {
            let Judgement { first, second, .. } = shuffle::opinion(&words_of(&self.rows));
            write!(f, "demand {second} at tick {first}, ")?;
        }
        write!(f, "{} rows", self.rows.len())?;
        for row in &self.rows {
            let [run, period, deadline] = row.numbers();
            write!(f, " ({run},{period},{deadline})")?;
        }
        Ok(())
    }
}

fn us(time: Duration) -> f64 {
    time.as_nanos() as f64 / 1_000.0
}

/// The least time of a few calls in us, unless one gives false. A time below
/// the bar is not read again: it is too low already.
fn least_time(bar: f64, call: impl Fn() -> bool) -> Option<f64> {
    let mut least = f64::INFINITY;
    for _ in 0..READINGS {
        let start = Instant::now();
        let is_right = black_box(call());
        least = least.min(us(start.elapsed()));
        if !is_right {
            return None;
        }
        if least < bar {
            break;
        }
    }
    Some(least)
}

struct Search {
    rng: Rng,
    start: Instant,
    time: Duration,
    climbs: u64,
    findings: [Findings; CLASSES.len()],
}

impl Search {
    fn new(seed: u64, time: Duration) -> Self {
        Search {
            rng: Rng::new(seed),
            start: Instant::now(),
            time,
            climbs: 0,
            findings: Default::default(),
        }
    }

    fn is_over(&self) -> bool {
        self.start.elapsed() >= self.time
    }

    fn progress(&self) -> String {
        let classes = self.findings.iter().map(|findings| {
            let (time, tried) = (findings.highest(), findings.tried);
            format!("{time:.1} us of {tried} tables")
        });
        let classes: Vec<String> = classes.collect();
        let seconds = self.start.elapsed().as_secs();
        format!("{seconds} s, worst of each class: {}", classes.join("; "))
    }

    /// One climb in the class that has had the least time.
    fn climb(&mut self) {
        let start = Instant::now();
        let classes = CLASSES.map(|(class, _)| class);
        let class = classes
            .into_iter()
            .min_by_key(|class| self.findings[*class as usize].spent)
            .expect("there are classes");
        if let Some(first) = self.first(class) {
            self.climb_from(first);
        }
        self.findings[class as usize].spent += start.elapsed();
    }

    /// A table of a class to start at: one of those kept, rather of the worst, or
    /// a new one.
    fn first(&mut self, class: Class) -> Option<Trial> {
        let findings = &mut self.findings[class as usize];
        if self.rng.chance(1, 3) && !findings.kept.is_empty() {
            findings.read_again(f64::INFINITY);
            let last = self.rng.below(findings.kept.len());
            return Some(findings.kept[self.rng.below(last + 1)].clone());
        }
        self.climbs += 1;
        if class == Class::Overloaded && self.rng.chance(2, 3) {
            self.overloaded(self.climbs)
        } else {
            self.at_the_edge(class, self.climbs)
        }
    }

    /// Short deadlines are mostly refused. The first table that is admitted and
    /// the last that is refused are next to the edge, where demand is closest to
    /// the tick.
    fn at_the_edge(&mut self, class: Class, climb: u64) -> Option<Trial> {
        let mut rows = Some(random_rows(&mut self.rng, class));
        let mut first = None;
        while let Some(next) = rows {
            let trial = self.try_rows(next, climb, f64::INFINITY, class);
            let is_wanted = trial.class == class;
            rows = with_longer_deadlines(&trial.rows);
            if is_wanted {
                first = Some(trial);
            }
            if is_wanted == class.is_admitted() || self.is_over() {
                break;
            }
        }
        first
    }

    /// A full table, sometimes the one with the longest opinion, with a little
    /// more to do: of some such tables the one that takes longest.
    fn overloaded(&mut self, climb: u64) -> Option<Trial> {
        let slowest = self.findings[Class::Full as usize].opinion.clone();
        let full = match slowest {
            Some(full) if self.rng.chance(1, 4) => full,
            _ => self.first(Class::Full)?,
        };
        let mut longest: Option<Trial> = None;
        for _ in 0..OVERLOADS {
            let rows = with_more_work(&mut self.rng, &full.rows);
            let trial = self.try_rows(rows, climb, f64::INFINITY, Class::Overloaded);
            let most = longest.as_ref().map_or(0.0, Trial::time);
            if trial.class == Class::Overloaded && trial.time() > most {
                longest = Some(trial);
            }
        }
        longest
    }

    /// Changes a table and goes on with what is of the same class and not
    /// cheaper.
    fn climb_from(&mut self, mut at: Trial) {
        let start = Instant::now();
        let longest = LONGEST_CLIMB.min(self.time / 24);
        let most = match at.class {
            Class::Roomy => 0.999,
            Class::Full => 1.0,
            Class::Refused | Class::Overloaded => 1.0 + 1e-6,
        };
        at.read(0.0);
        let mut top = at.time();
        let mut misses = 0;
        while misses < MISSES && start.elapsed() < longest && !self.is_over() {
            let rows = mutant(&mut self.rng, &at.rows, most);
            let trial = self.try_rows(rows, at.climb, NOISE * top, at.class);
            misses += 1;
            if trial.class == at.class && trial.time() >= NOISE * top {
                if trial.time() > top / NOISE {
                    misses = 0;
                }
                top = top.max(trial.time());
                at = trial;
            }
            // What was read while the machine was slow must not stay on top.
            if misses % READ_AGAIN == READ_AGAIN - 1 {
                at.read(0.0);
                top = at.time();
            }
        }
    }

    /// Takes the times of a table; those below the bar do not matter.
    fn try_rows(&mut self, rows: Vec<Row>, climb: u64, bar: f64, sought: Class) -> Trial {
        let mut trial = Trial::new(rows, climb, sought);
        let findings = &mut self.findings[trial.class as usize];
        let opinion_bar = findings.opinion_bar();
        if !trial.class.is_about_opinion() && trial.opinion >= opinion_bar {
            trial.read_opinion(opinion_bar);
        }
        trial.read(findings.bar().min(bar));
        findings.add(&trial);
        trial
    }
}

/// Rows that may be of a class.
fn random_rows(rng: &mut Rng, class: Class) -> Vec<Row> {
    let part = rng.fraction();
    let target = match (class, rng.below(8)) {
        (Class::Roomy, 0) => 0.9 + 0.099 * part,
        (Class::Roomy, _) | (Class::Refused | Class::Overloaded, 0) => 0.999,
        (Class::Refused | Class::Overloaded, 1) => 1.0 + 1e-6 * part,
        (_, 2..4) => return full_to_one(rng),
        (_, 4..6) => 1.0 - 10f64.powf(-3.0 - 4.0 * part),
        _ => 1.0 - 1e-6 * part,
    };
    full_to(rng, target)
}
