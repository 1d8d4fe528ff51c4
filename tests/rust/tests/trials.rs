//! Seeds and their trials: the way from numbers to lines, what is promised of each trial,
//! and what `load` prints.

use std::iter::successors;

use shuffle_model::comparison::Reached;
use shuffle_model::events::Events;
use shuffle_model::loads::LoadTally;
use shuffle_model::promises::{answer_objection, trial_objection};
use shuffle_model::rng::Rng;
use shuffle_model::seeds::{
    before, damaged_inputs, fixed_seeds, line, mutated_line, random_seed, WRONG_READERS,
};
use shuffle_model::session::{Choice, IDLE};
use shuffle_model::specification::{listing, plain};
use shuffle_model::table::{Kind, Row};
use shuffle_model::text::{leading_rows, run, run_watched, Command, Machine};
use shuffle_model::trials::{digits, load, next, read_seed, table, trial, INPUT_LIMIT};
use shuffle_model::wrong_ways::WRONG;

/// The document's example: the trial of the seed 1000000 begins and ends so. At the last
/// choice of the beginning nothing waits, and row 1 may arrive a tick later.
const BEGIN: &str = "T 3 20 20/T 4 24 24/T 4 28 28/T 3 34 32/T 3 39 37/A 0/A 1/A 2/A 3/A 4/\
    W 3386560671/G/R 3/W 187819378/G/R 3/W 394593833/G/R 4/W 145070452/G/R 4/W 2756703811/G/R 3/\
    W 2099783366/G/R 3/A 0/W 1614925677/G/R 3/W 2584799720/G/R 1/A 1/";
const END: &str = "W 2295381873/G/R 3/";

/// The text of a trial.
fn text(seed: u32) -> String {
    String::from_utf8(trial(seed)).unwrap()
}

/// Some hundred seeds: those that are always tried, and random ones.
fn seeds() -> Vec<u32> {
    let mut rng = Rng::new(12);
    let random = (0..400).map(|_| random_seed(&mut rng));
    fixed_seeds().into_iter().chain(random).collect()
}

#[test]
fn the_example_of_the_document_is_reproduced() {
    assert_eq!(
        digits(1_000_000).take(8).collect::<Vec<_>>(),
        [0, 0, 1, 1, 4, 6, 3, 0]
    );
    let text = text(1_000_000);
    assert!(text.starts_with(&plain(BEGIN)), "{text}");
    assert!(text.ends_with(&plain(END)), "{text}");
    let mut last_step = None;
    run_watched(plain(BEGIN).as_bytes(), |machine, line| {
        if matches!(line, Command::Advance(_)) {
            last_step = Some(machine.session.clone());
        }
    });
    let session = last_step.unwrap();
    let left = 1_000_000;
    assert_eq!(session.choice, Some(Choice { row: IDLE, left }));
    assert_eq!(session.slots[1].next, session.clock + 1);
}

#[test]
fn numbers_are_those_worked_out() {
    // The first numbers after 0, as Numerical Recipes prints them.
    let known = [
        0x3c6e_f35f,
        0x4750_2932,
        0xd1cc_f6e9,
        0xaaf9_5334,
        0x6252_e503,
        0x9f2e_c686,
        0x57fe_6c2d,
        0xa3d9_5fa8,
    ];
    let numbers = successors(Some(next(0)), |number| Some(next(*number)));
    assert_eq!(numbers.take(8).collect::<Vec<u32>>(), known);
    // 1,013,904,223 − 1,664,525.
    assert_eq!(next(u32::MAX), 1_012_239_698);
}

#[test]
fn tables_come_from_octal_digits() {
    // In octal 37777777777: 12 rows, of which the last two have no digit.
    let rows = table(u32::MAX);
    assert_eq!(rows.len(), 12);
    assert_eq!(rows[0], Row::from([4, 51, 49]));
    assert_eq!(rows[8], Row::from([4, 83, 81]));
    assert_eq!(rows[9], Row::from([4, 85, 85]));
    assert_eq!(rows[10..], [[3, 88, 88], [3, 92, 92]].map(Row::from));
    // Digit 0, and the digits 1, 2, 4 for one bit each.
    let rows = table(0o4210);
    assert_eq!(rows.len(), 5);
    assert_eq!(
        rows[..4],
        [[4, 20, 20], [3, 25, 25], [3, 30, 28], [3, 32, 32]].map(Row::from)
    );
    for count in 5..=12 {
        assert_eq!(table(count - 5).len(), count as usize);
    }
}

/// Whether a line is the one that the rules lead to, where a word was queued since the last
/// choice or not.
fn is_right(machine: &Machine, line: Command, queued: bool) -> bool {
    let session = &machine.session;
    let nexts: Vec<u64> = session.slots.iter().map(|slot| slot.next).collect();
    let may_arrive = |row: usize| nexts[row] <= session.clock;
    if let Command::Arrive(row) = line {
        let row = row as usize;
        return may_arrive(row) && !(0..row).any(may_arrive);
    }
    let none_arrives = !(0..nexts.len()).any(may_arrive);
    none_arrives
        && match (line, session.choice) {
            (Command::Advance(ticks), Some(choice)) => {
                let end = session.clock + u64::from(ticks);
                let limit = session.clock + choice.left;
                let next = *nexts.iter().min().unwrap();
                end == limit && limit <= next || end == next && next <= limit
            }
            (Command::Choose, None) => queued,
            (Command::Word(_), None) => !queued,
            _ => false,
        }
}

#[test]
fn each_line_is_the_one_that_the_rules_lead_to() {
    for seed in seeds() {
        let mut queued = false;
        let mut lines = table(seed).len();
        run_watched(&trial(seed), |machine, line| {
            assert!(is_right(machine, line, queued), "{seed}: {line:?}");
            match line {
                Command::Word(_) => queued = true,
                Command::Choose => queued = false,
                _ => {}
            }
            lines += 1;
        });
        assert_eq!(lines, 500, "{seed}");
    }
}

#[test]
fn every_promise_is_kept() {
    for seed in seeds() {
        let trial = trial(seed);
        assert_eq!(trial_objection(&line(seed), &trial), None, "{seed}");
        assert_eq!(answer_objection(&trial, &run(&trial)), None, "{seed}");
        assert_eq!(leading_rows(&trial), table(seed));
    }
}

/// What is said of the trial of the seed 7 once a piece of it is replaced.
fn said_after(piece: &str, by: &str) -> String {
    let [piece, by] = [piece, by].map(plain);
    let changed = text(7).replacen(&piece, &by, 1);
    assert_ne!(changed, text(7));
    trial_objection(b"7\n", changed.as_bytes()).unwrap()
}

#[test]
fn broken_promises_are_noticed() {
    let text = text(7);
    assert!(text.starts_with(&plain("T 3 48 48/T 3 52 52/")));
    for (piece, by, promise) in [
        ("A 0/", "", "500 lines"),
        ("A 0/", "A 00/", "each line can be read"),
        ("A 1/", "T 3 48 48/", "no T line after the table"),
        ("T 3 48 48/", "T 48 48 48/", "the table is admitted"),
        ("T 3 48 48/", "T 3 48 49/", "the table is admitted"),
        (
            "T 3 48 48/",
            "T 1 1000000 48/",
            "its demand at 1,000,000 is at least 500,000",
        ),
        ("A 0/", "F/", "no line F"),
        (
            "W 1025555898/",
            "W 1025555897/",
            "each word is the next number",
        ),
    ] {
        assert_eq!(
            said_after(piece, by),
            format!("a promise is broken: {promise}")
        );
    }
    // As many lines, but none of them a step.
    let few = text.replace("\nR", "\nA").into_bytes();
    let said = trial_objection(b"7\n", &few).unwrap();
    assert!(said.ends_with("20 lines each of A, W, G and R"), "{said}");
    // The trial of another seed.
    assert!(trial_objection(b"4294967295\n", text.as_bytes()).is_some());
    assert_eq!(
        trial_objection(b"7", text.as_bytes()).unwrap(),
        "a promise is broken: of what is no seed nothing is printed"
    );
    assert_eq!(trial_objection(b"7", b""), None);
}

#[test]
fn refused_lines_are_noticed() {
    let trial = trial(7);
    let output = String::from_utf8(run(&trial)).unwrap();
    assert_eq!(answer_objection(&trial, output.as_bytes()), None);
    let refused = output.replacen("\tG\t0", "\tG\t8", 1);
    let (shorter, _) = output.trim_end().rsplit_once('\n').unwrap();
    let longer = format!("{output}9\tR\t0\t0\t0\n");
    for wrong in [&refused, shorter, &longer, ""] {
        assert!(answer_objection(&trial, wrong.as_bytes()).is_some());
    }
}

#[test]
fn every_table_is_loose() {
    for seed in seeds() {
        let mut kinds = Vec::new();
        run_watched(&trial(seed), |machine, _| kinds.push(machine.session.kind));
        assert!(kinds.iter().all(|kind| *kind == Kind::Loose), "{seed}");
    }
}

#[test]
fn load_prints_the_trial_of_a_line() {
    for seed in [0, 1, 10, 1_000_000, u32::MAX] {
        assert_eq!(load(&line(seed)), trial(seed));
        assert!(line(seed).len() < INPUT_LIMIT);
    }
}

#[test]
fn load_prints_nothing_for_anything_else() {
    for input in [
        "",
        "\n",
        "7",
        "7\n\n",
        "7\n8\n",
        "7\n8",
        "7\r\n",
        " 7\n",
        "7 \n",
        "\t7\n",
        "+7\n",
        "-7\n",
        "-0\n",
        "07\n",
        "00\n",
        "4294967296\n",
        "42949672950\n",
        "99999999999999999999\n",
        "7a\n",
        "a\n",
        "7\0\n",
        "7\n\0",
        "0x7\n",
        "7.0\n",
        "W\t7\n",
    ] {
        assert_eq!(load(input.as_bytes()), b"", "{input:?}");
    }
}

#[test]
fn twelve_bytes_decide() {
    let mut rng = Rng::new(5);
    let mutated = (0..2_000).map(|_| mutated_line(&mut rng));
    for input in damaged_inputs().into_iter().chain(mutated) {
        let first = &input[..input.len().min(INPUT_LIMIT)];
        assert_eq!(read_seed(&input), read_seed(first), "{input:?}");
    }
    let longest = b"4294967295\n";
    assert_eq!(longest.len() + 1, INPUT_LIMIT);
    assert_eq!(read_seed(longest), Some(u32::MAX));
}

#[test]
fn the_number_before_leads_to_the_number() {
    let mut rng = Rng::new(4);
    for _ in 0..1_000 {
        let number = rng.draw() as u32;
        assert_eq!(next(before(number)), number);
        assert_eq!(before(next(number)), number);
    }
}

#[test]
fn fixed_seeds_are_there_once() {
    let seeds = fixed_seeds();
    for (place, seed) in seeds.iter().enumerate() {
        assert!(!seeds[..place].contains(seed), "{seed}");
    }
    for bit in 0..32 {
        let power = 1u32 << bit;
        for seed in [power - 1, power, power.wrapping_add(1)] {
            assert!(seeds.contains(&seed), "{seed}");
        }
    }
    for number in [0, 1, 2_147_483_648, 4_294_967_295] {
        assert!(seeds.iter().any(|seed| next(*seed) == number), "{number}");
        assert!(
            seeds.iter().any(|seed| next(next(*seed)) == number),
            "{number}"
        );
    }
    for rows in 5..=12 {
        assert!(
            seeds.iter().any(|seed| table(*seed).len() == rows),
            "{rows}"
        );
    }
    // The least work: each row of 5 has C 3 and the longest T.
    assert!(seeds.iter().any(|seed| {
        let rows = table(*seed);
        let longest =
            |row: &Row| row.run == 3 && row.deadline % 4 == 1 && row.deadline < row.period;
        rows.len() == 5 && rows.iter().all(longest)
    }));
}

/// The names of the events of a text in the form of the listing.
fn events_of(text: &str) -> Vec<&'static str> {
    let events = Events::of(plain(text).as_bytes());
    let counts = shuffle_model::events::sorts().zip(events.counts);
    let counts = counts.filter(|(_, count)| *count > 0);
    counts.map(|((name, _), _)| name).collect()
}

/// Two rows, of which row 0 is the head and both may be chosen, and so may idle.
const TWO: &str = "T 2 10 10/T 3 20 15/A 0/A 1/";

#[test]
fn events_count_by_what_a_choice_does() {
    for (words, names) in [
        ("", vec!["the head for lack of a word", "no word used"]),
        ("W 0/", vec!["the head by a word", "one word used"]),
        (
            "W 1/",
            vec!["a later job", "a span for lack of a word", "one word used"],
        ),
        (
            "W 1/W 0/",
            vec![
                "a later job",
                "a span by a word",
                "several words used",
                "several words queued",
            ],
        ),
        (
            "W 2/",
            vec![
                "idle while a job waits",
                "a span for lack of a word",
                "one word used",
            ],
        ),
        (
            "W 4294967295/",
            vec![
                "the head for lack of a word",
                "a word passed over",
                "one word used",
            ],
        ),
        (
            "W 0/W 7/",
            vec![
                "the head by a word",
                "one word used",
                "several words queued",
            ],
        ),
    ] {
        assert_eq!(events_of(&format!("{TWO}{words}G/")), names, "{words}");
    }
    // A budget of 0 leaves one candidate, and without a job nothing waits.
    assert_eq!(
        events_of("T 1 1 1/A 0/W 1/G/"),
        ["the only candidate", "no word used"]
    );
    assert_eq!(
        events_of("T 1 1 1/W 1/G/"),
        ["nothing waiting", "no word used"]
    );
    // A choice that is refused is none.
    assert_eq!(
        events_of(&format!("{TWO}W 0/G/G/")),
        events_of(&format!("{TWO}W 0/G/"))
    );
}

#[test]
fn events_count_by_arrivals_and_steps() {
    assert!(events_of(TWO).is_empty());
    // Idle is in force for 1,000,000 ticks when row 1 arrives, and row 0 comes after it.
    let later = events_of("T 1 4 4/T 1 4 4/G/R 4/A 1/A 0/");
    assert_eq!(
        later,
        [
            "nothing waiting",
            "no word used",
            "a choice dropped by an arrival",
            "two rows arriving on a later tick",
            "a step that leaves ticks"
        ]
    );
    let equal = events_of("T 1 9 9/T 1 9 9/A 0/A 1/W 0/G/");
    assert!(equal.contains(&"equal deadlines"));
    let whole = events_of("T 1 4 4/A 0/G/R 1/");
    assert!(!whole.contains(&"a step that leaves ticks"));
}

#[test]
fn events_count_each_time() {
    let (input, _) = listing();
    let events = Events::of(input.as_bytes());
    assert_eq!(events.count("a later job"), 1);
    assert_eq!(events.count("several words used"), 2);
    assert_eq!(events.count("idle while a job waits"), 1);
    assert_eq!(events.count("a step that leaves ticks"), 2);
}

/// The names of the wrong ways by which the trial of a seed would be another one.
fn told_from(seed: u32) -> Vec<&'static str> {
    let wrong = WRONG.iter().filter(|wrong| wrong.differs(seed));
    wrong.map(|wrong| wrong.name).collect()
}

#[test]
fn wrong_ways_differ_where_their_part_matters() {
    let tables = [
        "digits from the highest on",
        "rows from the lowest digit on",
        "the bits of a digit the other way round",
        "D before T",
        "T always D",
        "C always 3",
        "5 rows always",
    ];
    let seen = |seed| -> Vec<&str> {
        let told = told_from(seed);
        tables
            .into_iter()
            .filter(|name| told.contains(name))
            .collect()
    };
    // With the digit 0 alone no digit can be misread.
    assert!(seen(0).is_empty());
    assert!(told_from(0).contains(&"nothing of the seed 0"));
    // Six rows: only their number, and the first digit taken for a row, can be.
    assert_eq!(seen(1), ["rows from the lowest digit on", "5 rows always"]);
    assert!(!told_from(1).contains(&"nothing of the seed 0"));
    // In octal 70: the digits of row 0 are the same both ways round.
    assert_eq!(
        seen(0o70),
        [
            "digits from the highest on",
            "rows from the lowest digit on",
            "D before T",
            "T always D",
            "C always 3"
        ]
    );
    assert_eq!(
        seen(0o20),
        [
            "digits from the highest on",
            "rows from the lowest digit on"
        ]
    );
    // All others differ on every seed.
    let others = WRONG.len() - tables.len() - 1;
    for seed in [0, 1, 0o20, 0o70, 1_000_000, u32::MAX] {
        let told = told_from(seed).into_iter();
        let told = told.filter(|name| !tables.contains(name) && *name != "nothing of the seed 0");
        assert_eq!(told.count(), others, "{seed}");
    }
}

#[test]
fn wrong_readers_read_seeds_right_and_something_else_wrong() {
    let inputs = damaged_inputs();
    for reader in &WRONG_READERS {
        for seed in fixed_seeds() {
            assert_eq!((reader.read)(&line(seed)), Some(seed), "{}", reader.name);
        }
        let mut wrong = inputs.iter();
        let is_wrong = |input: &Vec<u8>| (reader.read)(input) != read_seed(input);
        assert!(wrong.any(is_wrong), "{}", reader.name);
    }
}

#[test]
fn what_is_too_rare_is_named() {
    let mut tally = LoadTally::default();
    for seed in (0..64).map(|place| place * 8) {
        assert_eq!(tally.add(&line(seed)), trial(seed));
    }
    assert_eq!(tally.add(b"7"), b"");
    let gaps = tally.gaps(65).join(", ");
    for what in [
        "0 of 64 inputs have 6 rows (fewer than one in 16)",
        "0 of 64 inputs differ by 5 rows always (fewer than one in 2)",
        "0 of 1 inputs are read by one that takes a plus sign",
    ] {
        assert!(gaps.contains(what), "{gaps}");
    }
    for what in ["have 5 rows", "seed 0", "a later job", "needs no newline"] {
        assert!(!gaps.contains(what), "{gaps}");
    }
    let mut two = LoadTally::default();
    two.add(&line(1));
    two.merge(tally);
    let said = two.to_string();
    assert!(
        said.starts_with("of 65 trials 64 have 5 rows, 1 have 6 rows"),
        "{said}"
    );
    assert!(said.contains("of 1 inputs that are no seed 1 are read by one that needs no newline"));
}

#[test]
fn seeds_and_damaged_lines_reach_everything() {
    let mut tally = LoadTally::default();
    let mut rng = Rng::new(3);
    for seed in seeds() {
        tally.add(&line(seed));
    }
    for input in damaged_inputs() {
        tally.add(&input);
    }
    for _ in 0..300 {
        tally.add(&mutated_line(&mut rng));
    }
    assert_eq!(tally.gaps(0), Vec::<String>::new());
}
