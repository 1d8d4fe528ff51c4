//! Compares programs with the models of them on many inputs, byte for byte.

use std::fmt::Display;
use std::process::exit;
use std::sync::atomic::{AtomicBool, AtomicU64, Ordering};
use std::thread;
use std::time::Instant;

use crate::inputs::{random_input, Kind};
use crate::options::{fail, Options};
use crate::process::{Finished, Program};
use crate::rng::Rng;
use crate::shrink::shrink;

const THREADS: usize = 2;
pub const DEFAULT_SEED: u64 = 20_250_301;
/// An input up to this length is printed as it is, and not shortened.
const SHORT: usize = 16;

/// A program as a function from input bytes to output bytes.
pub type Model = fn(&[u8]) -> Vec<u8>;

/// What a program is compared on, and with what.
pub struct Subject {
    pub model: Model,
    /// How many bytes of an input are read.
    pub limit: usize,
    pub kinds: &'static [Kind],
    /// From this many inputs on, nothing may be too rare. As many are compared if the
    /// command line names no other number.
    pub full_count: u64,
}

/// What inputs and answers reached.
pub trait Reached: Default + Display + Send {
    /// Counts an input, and gives the model's output for it.
    fn add(&mut self, input: &[u8]) -> Vec<u8>;

    fn merge(&mut self, other: Self);

    /// What is too rare among so many inputs for a comparison that means something.
    fn gaps(&self, inputs: u64) -> Vec<String>;
}

/// Compares the program of the command line on random inputs.
pub fn compare<R: Reached>(subject: &Subject) {
    let options = Options::read(&["--program", "--runner", "--count", "--seed"]);
    let cases = options.number("--count", subject.full_count);
    let seed = options.number("--seed", DEFAULT_SEED);
    let comparison = Comparison {
        stages: &[Stage::new(&options, "--program", subject.model)],
        limit: subject.limit,
        kinds: &subject
            .kinds
            .iter()
            .map(|kind| kind.name)
            .collect::<Vec<_>>(),
        input: &|case| random_input(subject.kinds, &mut Rng::for_case(seed, case)),
        cases,
        seed,
    };
    comparison.conclude::<R>(cases >= subject.full_count);
}

/// A program and the model of it.
pub struct Stage {
    name: String,
    program: Program,
    model: Model,
    objection: Objection,
}

/// What is wrong with an output for an input, even if it is the model's.
pub type Objection = fn(&[u8], &[u8]) -> Option<String>;

impl Stage {
    /// The program whose path is the value of an option.
    pub fn new(options: &Options, name: &str, model: Model) -> Self {
        let path = options.required(name);
        let runner = options.text("--runner").unwrap_or_default();
        Stage {
            name: path.to_string(),
            program: Program::new(path, runner),
            model,
            objection: |_, _| None,
        }
    }

    /// The same, with more to ask of its outputs.
    pub fn with(self, objection: Objection) -> Self {
        Stage { objection, ..self }
    }

    fn run(&self, input: &[u8]) -> Finished {
        self.program
            .run(input)
            .unwrap_or_else(|error| fail(&format!("{} does not run: {error}", self.name)))
    }

    /// What is wrong with the program on this input, if anything.
    fn fault(&self, input: &[u8], expected: &[u8]) -> Option<Fault> {
        let finished = self.run(input);
        let reason = self.reason(input, &finished, expected)?;
        Some(Fault {
            reason: format!("{}: {reason}", self.name),
            input: input.to_vec(),
            finished,
            expected: expected.to_vec(),
        })
    }

    fn reason(&self, input: &[u8], finished: &Finished, expected: &[u8]) -> Option<String> {
        let Some(status) = finished.status else {
            return Some("it hangs".to_string());
        };
        if !status.success() {
            Some(format!("it ends with {status}"))
        } else if !finished.stderr.is_empty() {
            Some("it writes to standard error".to_string())
        } else if finished.stdout != expected {
            Some("the outputs differ".to_string())
        } else {
            (self.objection)(input, &finished.stdout)
        }
    }
}

/// What a program did wrong, and on which input of its own.
struct Fault {
    reason: String,
    input: Vec<u8>,
    finished: Finished,
    expected: Vec<u8>,
}

impl Fault {
    fn print(&self) {
        let Finished { stdout, stderr, .. } = &self.finished;
        print_bytes("program", stdout);
        print_bytes("model", &self.expected);
        print_bytes("stderr", stderr);
        let equal_bytes = stdout.iter().zip(&self.expected);
        let equal_bytes = equal_bytes.take_while(|(actual, expected)| actual == expected);
        let equal_lines = equal_bytes.filter(|(byte, _)| **byte == b'\n').count();
        println!(
            "{} bytes of input, {equal_lines} equal lines of output",
            self.input.len()
        );
    }
}

fn print_bytes(name: &str, bytes: &[u8]) {
    println!("{name:7} \"{}\"", bytes.escape_ascii());
}

/// What is compared, and on what.
pub struct Comparison<'a> {
    /// The first program reads the input, and each further one what the one before it
    /// printed, if that is anything.
    pub stages: &'a [Stage],
    /// How many bytes of an input are read.
    pub limit: usize,
    /// The names of the kinds of inputs.
    pub kinds: &'a [&'static str],
    /// The input of a numbered case, and the place of its kind.
    pub input: &'a (dyn Fn(u64) -> (usize, Vec<u8>) + Sync),
    pub cases: u64,
    /// What the inputs are drawn by.
    pub seed: u64,
}

/// What the threads share; cases are handed out in order.
#[derive(Default)]
struct Shared {
    next_case: AtomicU64,
    stop: AtomicBool,
}

impl Comparison<'_> {
    /// Makes the comparison and says what came of it. A disagreement ends the process, and
    /// so do inputs that reach too little, if there are enough of them.
    pub fn conclude<R: Reached>(&self, are_enough: bool) {
        let start = Instant::now();
        let report: Report<R> = self.run();
        if let Some(case) = report.disagreement {
            self.print_disagreement(case);
            exit(1);
        }
        let seconds = start.elapsed().as_secs_f64();
        println!("{}; {seconds:.1} s", report.summary(self.kinds));
        let gaps = report.reached.gaps(self.cases);
        if are_enough && !gaps.is_empty() {
            println!("FAILED: {}", gaps.join(", "));
            exit(1);
        }
    }

    fn run<R: Reached>(&self) -> Report<R> {
        let shared = &Shared::default();
        thread::scope(|scope| {
            let threads: Vec<_> = (0..THREADS)
                .map(|_| scope.spawn(move || self.run_some(shared)))
                .collect();
            let mut report = Report::new(self.kinds.len());
            for thread in threads {
                report.merge(thread.join().expect("a comparing thread ends"));
            }
            report
        })
    }

    /// Takes cases until none is left or some thread found a disagreement.
    fn run_some<R: Reached>(&self, shared: &Shared) -> Report<R> {
        let mut report: Report<R> = Report::new(self.kinds.len());
        while !shared.stop.load(Ordering::Relaxed) {
            let case = shared.next_case.fetch_add(1, Ordering::Relaxed);
            if case >= self.cases {
                break;
            }
            let (kind, input) = (self.input)(case);
            report.inputs[kind] += 1;
            let expected = report.reached.add(&input);
            if self.fault(&input, expected).is_some() {
                report.disagreement = Some(case);
                shared.stop.store(true, Ordering::Relaxed);
            }
        }
        report
    }

    /// What is wrong with the first program that goes wrong on this input, of which the
    /// model of the first one makes this.
    fn fault(&self, input: &[u8], expected: Vec<u8>) -> Option<Fault> {
        let (first, others) = self.stages.split_first()?;
        let mut fault = first.fault(input, &expected);
        let mut printed = expected;
        for stage in others {
            if fault.is_some() || printed.is_empty() {
                break;
            }
            let expected = (stage.model)(&printed);
            fault = stage.fault(&printed, &expected);
            printed = expected;
        }
        fault
    }

    /// The same, of any input.
    fn fault_on(&self, input: &[u8]) -> Option<Fault> {
        self.fault(input, (self.stages[0].model)(input))
    }

    fn print_disagreement(&self, case: u64) {
        let (kind, mut input) = (self.input)(case);
        if input.len() > SHORT {
            input = shrink(&input, self.limit, |text| self.fault_on(text).is_some());
        }
        let fault = self.fault_on(&input);
        let reason = fault.as_ref().map(|fault| fault.reason.as_str());
        let reason = reason.unwrap_or("it differs now and then");
        let (seed, kind) = (self.seed, self.kinds[kind]);
        println!("DISAGREEMENT: seed {seed}, case {case} ({kind}): {reason}");
        print_bytes("input", &input);
        if let Some(fault) = fault {
            if fault.input != input {
                print_bytes("read", &fault.input);
            }
            fault.print();
        }
    }
}

struct Report<R> {
    /// Inputs by kind.
    inputs: Vec<u64>,
    reached: R,
    disagreement: Option<u64>,
}

impl<R: Reached> Report<R> {
    fn new(kinds: usize) -> Self {
        Report {
            inputs: vec![0; kinds],
            reached: R::default(),
            disagreement: None,
        }
    }

    fn merge(&mut self, other: Report<R>) {
        for (sum, inputs) in self.inputs.iter_mut().zip(other.inputs) {
            *sum += inputs;
        }
        self.reached.merge(other.reached);
        // The lowest case, so that equal seeds show equal disagreements.
        let found = self.disagreement.into_iter().chain(other.disagreement);
        self.disagreement = found.min();
    }

    fn summary(&self, kinds: &[&str]) -> String {
        let by_kind = kinds.iter().zip(&self.inputs);
        let by_kind = by_kind.map(|(kind, inputs)| format!("{kind} {inputs}"));
        format!(
            "{} inputs agree ({}); {}",
            self.inputs.iter().sum::<u64>(),
            by_kind.collect::<Vec<_>>().join(", "),
            self.reached
        )
    }
}
