//! Compares the library with the model, call by call, on records of any
//! content: the answer, soundness and every byte of the record; of a start also the
//! whole opinion on its table; of a batch, which lets a list of rows arrive in one call, the
//! whole list; and of an explanation every byte of the buffer. The meter, which has no
//! record, is compared by `meters`.

use std::process::exit;
use std::time::Instant;

use shuffle_model::arrivals::ArrivalCounts;
use shuffle_model::batches::{Batch, BatchTally};
use shuffle_model::calls::{perform_on_sound, Call};
use shuffle_model::draws::{Drawn, DrawnChoices};
use shuffle_model::explanation::explain_sound;
use shuffle_model::explanation_text::BUFFER_LEAST;
use shuffle_model::explanations::{ExplanationCalls, Told};
use shuffle_model::gifts::FinishTally;
use shuffle_model::mixed::{HeldTally, MixedCalls};
use shuffle_model::options::Options;
use shuffle_model::overloaded::{late_overload_rows, overloaded_rows, shorten};
use shuffle_model::overloads::OverloadTally;
use shuffle_model::record::{
    answered, expected, expected_batch, expected_explanation, expected_start, explain_by_library,
    is_sound, judgement_of, view, Request,
};
use shuffle_model::records::{
    displace, make_ready, random_list, random_record, random_row, sound_record,
};
use shuffle_model::rng::Rng;
use shuffle_model::runs::{random_command, Style};
use shuffle_model::session::{Session, CLOCK_END};
use shuffle_model::sessions::random_table;
use shuffle_model::shuffle::{self, number, Arrival, Reply, Session as Record};
use shuffle_model::starts::StartTally;
use shuffle_model::table::{opinion, rows_of, words_of};
use shuffle_model::tables::{
    any_rows, full_rows, long_busy_rows, part_brittle_rows, roomy_rows, unlawful_rows, RowMaker,
};
use shuffle_model::tally::Among;
use shuffle_model::text::{Command, Machine};
use shuffle_model::ties::TiedChoices;
use shuffle_model::words::more_words;

const DEFAULT_CALLS: u64 = 1_000_000;
const DEFAULT_SEED: u64 = 20_250_301;
/// The answer numbers of the calls on records: 0 to 12.
const NUMBERS: usize = 13;
/// From this many calls on, each sort of tie must have been reached, and each
/// sort of finish, of batch, of arrival, of draw, of overload, of start, of explanation, and
/// of what has to do with brittle rows often enough.
const FULL_CALLS: u64 = 1_000_000;
/// Most calls of a history.
const STEPS: u32 = 400;
/// Most starts of a planner.
const PLANS: u32 = 30;
/// Of the steps of a history, one in so many is a start of another table.
const START_STEP: usize = 60;
/// Of the steps of a history, one in so many is a batch.
const BATCH_STEP: usize = 10;
/// Of the choices of a history, one in so many gets a list of words near the limits
/// of its draws; and so many of its explanations.
const LIST_STEP: usize = 4;
/// Of the steps of a history at which a choice could be made, one in so many is an
/// explanation; and of the other steps.
const EXPLAIN_STEP: usize = 5;
const REFUSED_EXPLAIN_STEP: usize = 60;
/// The sizes of buffers for an explanation; below 2,048 it is refused.
const SIZES: [usize; 10] = [0, 1, 2047, 2048, 2048, 2048, 2049, 2049, 3000, 3000];
/// Bytes before and behind a buffer, which no call may change.
const MARGIN: usize = 64;

/// Where the record of a call comes from.
#[derive(Clone, Copy, Debug)]
enum Source {
    Bytes,
    Near,
    History,
}

const SOURCES: [(Source, &str); 3] = [
    (Source::Bytes, "random bytes"),
    (Source::Near, "next to sound"),
    (Source::History, "histories"),
];

fn main() {
    let options = Options::read(&["--calls", "--seed"]);
    let calls = options.number("--calls", DEFAULT_CALLS);
    let start = Instant::now();
    let mut test = Test {
        rng: Rng::new(options.number("--seed", DEFAULT_SEED)),
        counts: [[0; NUMBERS]; SOURCES.len()],
        batch_counts: [0; SOURCES.len()],
        explain_counts: [0; SOURCES.len()],
        sound: 0,
        ties: TiedChoices::default(),
        finishes: FinishTally::default(),
        batches: BatchTally::default(),
        arrivals: ArrivalCounts::default(),
        draws: DrawnChoices::default(),
        overloads: OverloadTally::default(),
        mixed: MixedCalls::default(),
        held: HeldTally::default(),
        starts: StartTally::default(),
        explanations: ExplanationCalls::default(),
        one_by_one: 0,
    };
    test.no_session();
    test.long_lists();
    while test.calls() < calls {
        test.round();
    }
    let seconds = start.elapsed().as_secs_f64();
    println!("{}; {seconds:.1} s", test.summary());
    let missing = test.missing();
    if !missing.is_empty() {
        println!("FAILED: never reached: {missing:?}");
        exit(1);
    }
    let gaps = test.gaps();
    if calls >= FULL_CALLS && !gaps.is_empty() {
        println!("FAILED: {}", gaps.join(", "));
        exit(1);
    }
}

struct Test {
    rng: Rng,
    /// Calls of one answer, by source and answer number.
    counts: [[u64; NUMBERS]; SOURCES.len()],
    /// Batches by source.
    batch_counts: [u64; SOURCES.len()],
    /// Explanations by source.
    explain_counts: [u64; SOURCES.len()],
    /// Calls on sound records.
    sound: u64,
    ties: TiedChoices,
    finishes: FinishTally,
    batches: BatchTally,
    arrivals: ArrivalCounts,
    draws: DrawnChoices,
    overloads: OverloadTally,
    mixed: MixedCalls,
    held: HeldTally,
    starts: StartTally,
    explanations: ExplanationCalls,
    /// Batches whose rows also arrived one by one, on a copy.
    one_by_one: u64,
}

impl Test {
    fn calls(&self) -> u64 {
        let sources = SOURCES.iter();
        sources.map(|(source, _)| self.calls_of(*source)).sum()
    }

    fn calls_of(&self, source: Source) -> u64 {
        let counts = self.counts[source as usize].iter().sum::<u64>();
        counts + self.batch_counts[source as usize] + self.explain_counts[source as usize]
    }

    fn count_of(&self, number: usize) -> u64 {
        self.counts.iter().map(|counts| counts[number]).sum()
    }

    fn missing(&self) -> Vec<usize> {
        let numbers = 0..NUMBERS;
        numbers
            .filter(|number| self.count_of(*number) == 0)
            .collect()
    }

    /// What is too rare among all calls.
    fn gaps(&self) -> Vec<String> {
        let calls = self.calls();
        let among = Among::Calls(calls);
        let mut gaps = self.ties.gaps();
        gaps.extend(self.finishes.gaps(calls));
        gaps.extend(self.batches.gaps(calls));
        gaps.extend(self.arrivals.gaps(calls));
        gaps.extend(self.draws.gaps(among));
        gaps.extend(self.overloads.gaps(among));
        gaps.extend(self.mixed.gaps(among));
        gaps.extend(self.held.gaps(calls));
        gaps.extend(self.starts.gaps(calls));
        gaps.extend(self.explanations.gaps(calls));
        gaps
    }

    /// Some calls on records of the source that has the fewest calls so far.
    fn round(&mut self) {
        let sources = SOURCES.map(|(source, _)| source);
        let fewest = sources
            .into_iter()
            .min_by_key(|source| self.calls_of(*source));
        match fewest.expect("there are sources") {
            Source::Bytes => {
                let record = random_record(&mut self.rng);
                self.each_call(Source::Bytes, &record);
            }
            Source::Near => {
                let mut record = sound_record(&mut self.rng);
                if self.rng.chance(3, 4) {
                    displace(&mut self.rng, &mut record);
                }
                self.each_call(Source::Near, &record);
                if self.rng.chance(1, 2) {
                    self.explain_open_record();
                }
            }
            Source::History => match self.rng.below(8) {
                0 => self.planner(),
                1 => self.late_overload(),
                _ => self.history(),
            },
        }
    }

    /// Each of the four calls on its own copy of a record, often a batch, and now
    /// and then a start over it, or an explanation.
    fn each_call(&mut self, source: Source, record: &Record) {
        let mut requests = four_calls(&mut self.rng, record);
        if self.rng.chance(1, 8) {
            requests.push(Request::Start(random_words(&mut self.rng)));
        }
        for request in requests {
            let mut copy = *record;
            self.check(source, &mut copy, &request);
        }
        if self.rng.chance(1, 2) {
            let mut copy = *record;
            if self.rng.chance(1, 4) {
                make_ready(&mut copy);
            }
            self.batch(source, &mut copy);
        }
        if self.rng.chance(1, 8) {
            let words = words_for_choice(&mut self.rng, record);
            self.explain(source, record, &words);
        }
    }

    /// An explanation of a record in which no choice is in force, and which is sound but
    /// for a part of them. Of some records it takes the one in which most jobs wait.
    fn explain_open_record(&mut self) {
        let records = self.rng.pick(&[1, 1, 1, 6]);
        let records = (0..records).map(|_| sound_record(&mut self.rng));
        let most = records.max_by_key(waiting_jobs);
        let mut record = most.expect("there is a record");
        record.span = 0;
        if self.rng.chance(1, 8) {
            displace(&mut self.rng, &mut record);
        }
        let words = words_for_choice(&mut self.rng, &record);
        self.explain(Source::Near, &record, &words);
    }

    /// A list of calls on one record, each getting what the last one left.
    fn history(&mut self) {
        let (mut record, steps) = if self.rng.chance(1, 4) {
            (sound_record(&mut self.rng), STEPS)
        } else {
            self.start()
        };
        let styles: [fn(&mut Rng) -> Style; 4] = [
            Style::random,
            Style::giving,
            Style::drawing,
            Style::counting,
        ];
        let style = self.rng.pick(&styles)(&mut self.rng);
        let mut queue = Vec::new();
        for _ in 0..self.rng.between(1, steps) {
            if !self.step(&mut record, style, &mut queue) {
                break;
            }
        }
        self.each_call(Source::History, &record);
    }

    /// A planner, who shortens runs until a table is not refused any more. Half the
    /// time a session goes on meanwhile.
    fn planner(&mut self) {
        let makers: [fn(&mut Rng) -> Record; 2] = [random_record, sound_record];
        let mut record = self.rng.pick(&makers)(&mut self.rng);
        let mut rows = overloaded_rows(&mut self.rng);
        for _ in 0..PLANS {
            let request = Request::Start(words_of(&rows));
            let reply = self.check(Source::History, &mut record, &request);
            if reply.is_accepted() || !shorten(&mut self.rng, &mut rows) {
                return;
            }
        }
    }

    /// A start alone, of a table that takes the model long.
    fn late_overload(&mut self) {
        let mut record = random_record(&mut self.rng);
        let words = words_of(&late_overload_rows(&mut self.rng));
        self.check(Source::History, &mut record, &Request::Start(words));
    }

    /// The record that a refused start by value gives: every call on it answers 5, and a
    /// refused start leaves it as it is.
    fn no_session(&mut self) {
        let calls = four_calls(&mut self.rng, &Record::NONE).into_iter();
        let calls = calls.map(|call| (call, number::UNSOUND));
        let starts = [
            (Request::Start(vec![3, 5, 2]), number::BAD_ROW),
            (Request::Start(Vec::new()), number::BAD_LENGTH),
        ];
        for (request, number) in calls.chain(starts) {
            let mut record = Record::NONE;
            let reply = self.check(Source::Bytes, &mut record, &request);
            assert_eq!((reply.number, record), (number, Record::NONE));
        }
        self.explain(Source::Bytes, &Record::NONE, &[1, 2]);
    }

    /// A million words for a choice between three: every one is passed over, or
    /// every one but the last.
    fn long_lists(&mut self) {
        let mut record = random_record(&mut self.rng);
        let table = Request::Start(vec![2, 10, 10, 3, 20, 15]);
        for request in [table, Request::Arrive(0), Request::Arrive(1)] {
            self.check(Source::History, &mut record, &request);
        }
        let mut words = vec![u32::MAX; 1_000_000];
        for last in [u32::MAX, 1] {
            *words.last_mut().expect("there are words") = last;
            let mut copy = record;
            let reply = self.check(Source::History, &mut copy, &Request::Choose(words.clone()));
            assert_eq!(reply.used, 1_000_000);
            self.explain(Source::History, &record, &words);
        }
    }

    /// The record that a start leaves, and how many steps may follow: few if the busy
    /// length is long, since the model is slow then.
    fn start(&mut self) -> (Record, u32) {
        let rng = &mut self.rng;
        let mut record = random_record(rng);
        let (words, steps) = match rng.below(32) {
            0..3 => (words_of(&long_busy_rows(rng)), 4),
            3..10 => (random_words(rng), STEPS),
            _ => (words_of(&random_table(rng)), STEPS),
        };
        self.check(Source::History, &mut record, &Request::Start(words));
        (record, steps)
    }

    /// A call of a history; false if the record is not sound any more.
    fn step(&mut self, record: &mut Record, style: Style, queue: &mut Vec<u32>) -> bool {
        let Some(session) = view(record).filter(|session| session.is_sound()) else {
            return false;
        };
        if self.rng.chance(1, BATCH_STEP) {
            self.batch(Source::History, record);
            return true;
        }
        if self.rng.chance(1, START_STEP) {
            let words = self.other_words();
            self.check(Source::History, record, &Request::Start(words));
            return true;
        }
        let explain_step = match session.choice {
            None => EXPLAIN_STEP,
            Some(_) => REFUSED_EXPLAIN_STEP,
        };
        if self.rng.chance(1, explain_step) {
            let mut words = queue.clone();
            if self.rng.chance(1, LIST_STEP) {
                words.extend(more_words(&mut self.rng, &session, queue));
            }
            self.explain(Source::History, record, &words);
            return true;
        }
        let words = std::mem::take(queue);
        let machine = Machine { session, words };
        let command = random_command(&machine, &mut self.rng, style);
        *queue = machine.words;
        if command == Command::Choose && self.rng.chance(1, LIST_STEP) {
            let words = more_words(&mut self.rng, &machine.session, queue);
            queue.extend(words);
        }
        // Now and then a number of more than 32 bits.
        let wide = u64::from(self.rng.chance(1, 64)) << 32;
        let request = match command {
            Command::Word(word) => {
                queue.push(word);
                return true;
            }
            Command::Arrive(row) => Request::Arrive(wide + u64::from(row)),
            Command::Choose => Request::Choose(queue.clone()),
            Command::Advance(ticks) => Request::Advance(wide + u64::from(ticks)),
            Command::Finish => Request::Finish,
            Command::Row(_) => unreachable!("a run has no rows"),
        };
        let reply = self.check(Source::History, record, &request);
        queue.drain(..reply.used as usize);
        true
    }

    /// The words of a table to start within a history, mostly an overloaded one, so that
    /// the history goes on.
    fn other_words(&mut self) -> Vec<u32> {
        match self.rng.below(4) {
            0 => random_words(&mut self.rng),
            _ => words_of(&overloaded_rows(&mut self.rng)),
        }
    }

    /// Makes a call and compares all that it leads to; a disagreement ends the
    /// process.
    fn check(&mut self, source: Source, record: &mut Record, request: &Request) -> Reply {
        let before = *record;
        let was_sound = is_sound(&before);
        let (expected, after) = expected(&before, request);
        let reply = request.perform(record);
        let agrees = reply == expected && records_agree((&before, was_sound), record, &after);
        if !agrees {
            self.print_before(source, &before);
            print_replies(request, reply, expected);
            print_after([("library", record), ("model", &after)]);
            exit(1);
        }
        self.counts[source as usize][reply.number as usize] += 1;
        self.sound += u64::from(was_sound);
        if let Some(session) = view(&before) {
            self.held.add(&session, was_sound);
        }
        match request {
            Request::Start(words) => self.check_opinion(words, was_sound),
            _ if reply.is_accepted() => self.count(&before, request),
            _ => {}
        }
        reply
    }

    /// Asks for the opinion on a table that was started, and starts it by value, on no
    /// record; a disagreement ends the process.
    fn check_opinion(&mut self, words: &[u32], was_sound: bool) {
        let opinion = opinion(words);
        let judgements = [shuffle::opinion(words), judgement_of(&opinion)];
        let starts = [
            Record::start(words),
            expected_start(&Record::NONE, &opinion, words),
        ];
        if judgements[0] != judgements[1] || starts[0] != starts[1] {
            println!("DISAGREEMENT, after {} calls", self.calls());
            println!("words   {words:?}");
            for (place, name) in ["library", "model"].into_iter().enumerate() {
                println!("{name}: {:?}", judgements[place]);
                println!("{name} starts {:?}", starts[place]);
            }
            exit(1);
        }
        if opinion.as_ref().is_err_and(|refusal| refusal.number >= 3) {
            self.overloads.add(&rows_of(words));
        }
        self.starts.add(&opinion, was_sound);
    }

    /// Counts an accepted call.
    fn count(&mut self, before: &Record, request: &Request) {
        match (request, view(before)) {
            (Request::Choose(words), Some(session)) => {
                self.ties.add(&session, words);
                self.draws.add(&Drawn::new(&session, words));
                self.mixed.add_choice(&session, words);
            }
            (Request::Finish, Some(session)) => {
                self.finishes.add(&session);
                self.mixed.add_finish(&session);
            }
            (Request::Arrive(row), Some(session)) => self.arrivals.add(&session, *row),
            _ => {}
        }
    }

    /// Makes a batch with a random list. Now and then the library lets the same
    /// rows arrive one by one as well, on a copy.
    fn batch(&mut self, source: Source, record: &mut Record) {
        let before = *record;
        let list = random_list(&mut self.rng, record);
        let answers = self.check_batch(source, record, &list);
        if !self.rng.chance(1, 4) {
            return;
        }
        let mut copy = before;
        let singles: Vec<Arrival> = list
            .iter()
            .map(|arrival| answered(arrival.row, copy.arrive(arrival.row)))
            .collect();
        if answers != singles || *record != copy {
            self.print_before(source, &before);
            let lists = [("batch", &answers), ("one by one", &singles)];
            print_lists(&list, lists.map(|(name, list)| (name, surrounded(list))));
            print_after([("batch", record), ("one by one", &copy)]);
            exit(1);
        }
        self.one_by_one += 1;
    }

    /// Makes a batch and compares all that it leads to; a disagreement ends the
    /// process. Gives the list with its answers.
    fn check_batch(
        &mut self,
        source: Source,
        record: &mut Record,
        list: &[Arrival],
    ) -> Vec<Arrival> {
        let before = *record;
        let was_sound = is_sound(&before);
        let (expected, after) = expected_batch(&before, list);
        let mut lent = surrounded(list);
        record.arrive_all(&mut lent[1..=list.len()]);
        let agrees =
            lent == surrounded(&expected) && records_agree((&before, was_sound), record, &after);
        if !agrees {
            self.print_before(source, &before);
            print_lists(list, [("library", lent), ("model", surrounded(&expected))]);
            print_after([("library", record), ("model", &after)]);
            exit(1);
        }
        self.batch_counts[source as usize] += 1;
        self.sound += u64::from(was_sound);
        let session = view(&before).filter(|_| was_sound);
        let answers = expected.iter().map(|answer| (answer.row, answer.number));
        self.batches.add(&Batch {
            session: session.as_ref(),
            records: &answers.collect::<Vec<_>>(),
        });
        if let Some(session) = session {
            self.count_arrivals(session, &expected);
        }
        expected
    }

    /// Counts the accepted arrivals of a batch, each on what those before it left.
    fn count_arrivals(&mut self, mut session: Session, list: &[Arrival]) {
        for arrival in list.iter().filter(|arrival| arrival.is_accepted()) {
            self.arrivals.add(&session, arrival.row);
            perform_on_sound(&mut session, Call::Arrive(arrival.row as u32));
        }
    }

    /// Asks for an explanation, in a buffer of some size, and compares the answer, every
    /// byte of the buffer and around it, and the record, which must stay; a disagreement
    /// ends the process.
    fn explain(&mut self, source: Source, record: &Record, words: &[u32]) {
        let size = self.rng.pick(&SIZES);
        let lent = MARGIN..MARGIN + size;
        let mut library = pattern(&mut self.rng, size + 2 * MARGIN);
        let mut model = library.clone();
        let mut after = *record;
        let reply = explain_by_library(&mut after, words, &mut library[lent.clone()]);
        let expected = expected_explanation(record, words, &mut model[lent]);
        if reply != expected || library != model || after != *record {
            self.print_before(source, record);
            println!("call    an explanation in {size} bytes, with words {words:?}");
            for (name, reply, buffer) in [("library", reply, library), ("model", expected, model)] {
                println!("{name}: {reply:?}");
                println!("{name} writes \"{}\"", buffer.escape_ascii());
            }
            println!("library leaves {after:?}");
            exit(1);
        }
        self.explain_counts[source as usize] += 1;
        let was_sound = reply.number != number::UNSOUND;
        self.sound += u64::from(was_sound);
        if let Some(session) = view(record) {
            self.held.add(&session, was_sound);
        }
        self.count_explanation(record, words, reply.number, size);
    }

    fn count_explanation(&mut self, record: &Record, words: &[u32], number: u64, size: usize) {
        if number != number::ACCEPTED {
            self.explanations.add_refused(number, size < BUFFER_LEAST);
            return;
        }
        let session = view(record).expect("an accepted call has a session");
        let explained = explain_sound(&session, words).expect("it is accepted");
        let told = Told::new(&session, words, &explained.explanation);
        self.explanations.add_accepted(&told);
    }

    fn print_before(&self, source: Source, before: &Record) {
        let calls = self.calls();
        println!("DISAGREEMENT on a record of {source:?}, after {calls} calls");
        println!("record  {before:?}");
        print_soundness(before);
    }

    fn summary(&self) -> String {
        let sources = SOURCES.map(|(source, name)| format!("{name} {}", self.calls_of(source)));
        let answers = (0..NUMBERS).map(|number| format!("{number}:{}", self.count_of(number)));
        format!(
            "{} calls agree ({}; {} on sound records); answers {}; {}; {}; {}; {}; {}; {}; {}; {}; {}; {}; the rows of {} of \
            the batches also arrived one by one",
            self.calls(),
            sources.join(", "),
            self.sound,
            answers.collect::<Vec<_>>().join(" "),
            self.ties,
            self.finishes,
            self.draws,
            self.overloads,
            self.mixed,
            self.held,
            self.starts,
            self.explanations,
            self.arrivals,
            self.batches,
            self.one_by_one
        )
    }
}

/// The four calls with arguments that are next to the limits of this record.
fn four_calls(rng: &mut Rng, record: &Record) -> Vec<Request> {
    let Record { clock, span, .. } = *record;
    let row = random_row(rng, record);
    let ticks = match rng.below(4) {
        0 => rng.draw() % span.max(1),
        _ => rng.around(&[0, 1, span, CLOCK_END.wrapping_sub(clock), 1 << 32]),
    };
    vec![
        Request::Choose(words_for_choice(rng, record)),
        Request::Arrive(row),
        Request::Advance(ticks),
        Request::Finish,
    ]
}

/// A few words of every size, or if the record holds a sound session, words near the
/// limits of its draws.
fn words_for_choice(rng: &mut Rng, record: &Record) -> Vec<u32> {
    let is_near = rng.chance(1, 2);
    match view(record).filter(|session| is_near && session.is_sound()) {
        Some(session) => more_words(rng, &session, &[]),
        None => {
            let words = (0..rng.below(4)).map(|_| rng.draw() as u32 >> rng.below(32));
            words.collect()
        }
    }
}

/// How many jobs wait in a sound record.
fn waiting_jobs(record: &Record) -> usize {
    let jobs = &record.jobs[..record.count as usize];
    jobs.iter().filter(|job| job.left > 0).count()
}

/// Bytes of which each differs from its neighbours, so that one that is moved shows too.
fn pattern(rng: &mut Rng, size: usize) -> Vec<u8> {
    let first = rng.draw() as u8;
    let bytes = (0..size).map(|place| first.wrapping_add((place * 37) as u8));
    bytes.collect()
}

/// The words of a table, admitted or refused, now and then of a wrong length.
fn random_words(rng: &mut Rng) -> Vec<u32> {
    let makers: [RowMaker; 7] = [
        any_rows,
        overloaded_rows,
        overloaded_rows,
        part_brittle_rows,
        roomy_rows,
        full_rows,
        unlawful_rows,
    ];
    let mut words = words_of(&rng.pick(&makers)(rng));
    match rng.below(16) {
        0 => words.resize(rng.below(60), 1),
        1 => words.truncate(rng.below(4)),
        _ => {}
    }
    words
}

/// Whether library and model leave the same record, and agree on soundness; the
/// record before comes with what the model says of it.
fn records_agree((before, was_sound): (&Record, bool), library: &Record, model: &Record) -> bool {
    library == model && before.is_sound() == was_sound && library.is_sound() == is_sound(model)
}

/// A list between two records that are not part of it. Their row may arrive in
/// many sessions, so that a batch that goes too far changes the session too.
fn surrounded(list: &[Arrival]) -> Vec<Arrival> {
    let other = Arrival {
        row: 0,
        number: 99,
        first: 99,
        second: 99,
    };
    [&[other], list, &[other]].concat()
}

fn print_replies(request: &Request, library: Reply, model: Reply) {
    println!("call    {request:?}");
    println!("library: {library:?}");
    println!("model: {model:?}");
}

/// Prints each record of a batch as it was lent, and as each side leaves it; and
/// the two around them, which are not lent.
fn print_lists(list: &[Arrival], after: [(&str, Vec<Arrival>); 2]) {
    println!("call    a batch of places 1 to {}", list.len());
    for (place, before) in surrounded(list).iter().enumerate() {
        println!("place {place}: {before:?}");
        for (name, list) in &after {
            println!("    {name}: {:?}", list[place]);
        }
    }
}

fn print_after(after: [(&str, &Record); 2]) {
    for (name, record) in after {
        println!("{name} leaves {record:?}");
        print_soundness(record);
    }
}

fn print_soundness(record: &Record) {
    println!(
        "sound   library {}, model {}",
        record.is_sound(),
        is_sound(record)
    );
}
