//! Compares the program `shuffle` with the model on random inputs, byte for byte.

use std::fmt;

use shuffle_model::arrivals::{ArrivalTally, Arrivals};
use shuffle_model::comparison::{compare, Reached, Subject};
use shuffle_model::draws::{DrawTally, Draws};
use shuffle_model::gifts::{GiftTally, Gifts};
use shuffle_model::inputs::KINDS;
use shuffle_model::mixed::{Mixed, MixedTally};
use shuffle_model::overloads::OverloadTally;
use shuffle_model::tally::{Among, Tally};
use shuffle_model::text::{leading_rows, run, run_watched, INPUT_LIMIT};
use shuffle_model::ties::{TieTally, Ties};

/// From this many inputs on, every reachable answer must have been reached, and
/// ties that arrival decides, finishes that give, draws that pass words over, tables
/// of which a wrong rule would name another overload, mixed tables with all that brittle
/// rows decide, and arrivals with all that their budgets depend on must be many enough.
const FULL_COUNT: u64 = 20_000;

fn main() {
    compare::<Answers>(&Subject {
        model: run,
        limit: INPUT_LIMIT,
        kinds: KINDS,
        full_count: FULL_COUNT,
    });
}

#[derive(Default)]
struct Answers {
    all: Tally,
    ties: TieTally,
    gifts: GiftTally,
    draws: DrawTally,
    overloads: OverloadTally,
    mixed: MixedTally,
    arrivals: ArrivalTally,
}

impl Reached for Answers {
    fn add(&mut self, input: &[u8]) -> Vec<u8> {
        let mut ties = Ties::default();
        let mut gifts = Gifts::default();
        let mut draws = Draws::default();
        let mut mixed = Mixed::default();
        let mut arrivals = Arrivals::default();
        let expected = run_watched(input, |machine, command| {
            ties.watch(machine, command);
            gifts.watch(machine, command);
            draws.watch(machine, command);
            mixed.watch(machine, command);
            arrivals.watch(machine, command);
        });
        gifts.compare(input, &expected);
        draws.compare(input, &expected);
        mixed.compare(input, &expected);
        arrivals.compare(input, &expected);
        self.all.add(&expected);
        self.ties.add(ties);
        self.gifts.add(&gifts);
        self.draws.add(&draws);
        self.overloads.add(&leading_rows(input));
        self.mixed.add(input, &mixed);
        self.arrivals.add(&arrivals);
        expected
    }

    fn merge(&mut self, other: Answers) {
        self.all.merge(other.all);
        self.ties.merge(other.ties);
        self.gifts.merge(other.gifts);
        self.draws.merge(other.draws);
        self.overloads.merge(other.overloads);
        self.mixed.merge(other.mixed);
        self.arrivals.merge(other.arrivals);
    }

    fn gaps(&self, inputs: u64) -> Vec<String> {
        let mut gaps = self.all.gaps();
        gaps.extend(self.ties.gaps());
        gaps.extend(self.gifts.gaps());
        gaps.extend(self.draws.gaps());
        gaps.extend(self.overloads.gaps(Among::Inputs(inputs)));
        gaps.extend(self.mixed.gaps());
        gaps.extend(self.arrivals.gaps());
        gaps
    }
}

impl fmt::Display for Answers {
    fn fmt(&self, formatter: &mut fmt::Formatter) -> fmt::Result {
        write!(
            formatter,
            "{} output lines; answers {}; {}; {}; {}; {}; {}; {}",
            self.all.lines(),
            self.all,
            self.ties,
            self.gifts,
            self.draws,
            self.overloads,
            self.mixed,
            self.arrivals
        )
    }
}
