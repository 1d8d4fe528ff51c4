//! What happens in a trial: for the comparison, which counts the trials in which it does,
//! and for the figures of the documents.

use crate::draws::{Draw, Drawn};
use crate::explanation::{explain_sound, Cause, Explained, IDLE_PART};
use crate::session::Session;
use crate::text::{run_watched, Command, Machine};

/// A choice that is about to be made.
struct Choosing<'a> {
    explained: Explained,
    drawn: Drawn<'a>,
}

impl<'a> Choosing<'a> {
    fn new(machine: &'a Machine) -> Option<Self> {
        let Machine { session, words } = machine;
        Some(Choosing {
            explained: explain_sound(session, words).ok()?,
            drawn: Drawn::new(session, words),
        })
    }

    fn nothing_waits(&self) -> bool {
        self.is_due_to(Cause::NothingWaits)
    }

    /// Whether this sets the span.
    fn is_due_to(&self, cause: Cause) -> bool {
        self.explained.explanation.cause == cause
    }

    fn takes_idle(&self) -> bool {
        self.explained.explanation.chosen == IDLE_PART
    }

    fn takes_head(&self) -> bool {
        let head = self.explained.explanation.jobs.first();
        head.is_some_and(|job| job.row == self.explained.explanation.chosen)
    }

    fn is_by_word(&self) -> bool {
        self.explained.explanation.word.is_some()
    }

    fn has_several_candidates(&self) -> bool {
        self.drawn.pick.is_some()
    }

    fn words_used(&self) -> usize {
        self.explained.words_used
    }

    fn words_queued(&self) -> usize {
        self.words_used() + self.drawn.rest.len()
    }

    fn passes(&self) -> bool {
        let mut draws = self.drawn.pick.iter().chain(&self.drawn.span);
        draws.any(Draw::passes)
    }

    fn has_tie(&self) -> bool {
        let mut pairs = self.explained.explanation.jobs.windows(2);
        pairs.any(|pair| pair[0].due == pair[1].due)
    }
}

/// A line that is about to be performed.
struct Moment<'a> {
    session: &'a Session,
    line: Command,
    choice: Option<Choosing<'a>>,
    /// The tick of the last arrival.
    last_arrival: Option<u64>,
}

impl<'a> Moment<'a> {
    fn chooses(&self, such: fn(&Choosing<'a>) -> bool) -> bool {
        self.choice.as_ref().is_some_and(such)
    }

    fn arrives(&self) -> bool {
        matches!(self.line, Command::Arrive(_))
    }

    /// Whether a step leaves ticks of the choice in force.
    fn leaves_ticks(&self) -> bool {
        match (self.line, self.session.choice) {
            (Command::Advance(ticks), Some(choice)) => u64::from(ticks) < choice.left,
            _ => false,
        }
    }
}

/// Something that happens: its name, of how many trials it must happen in one, and whether
/// it does at a line.
struct Sort {
    name: &'static str,
    one_in: u64,
    has: fn(&Moment) -> bool,
}

const fn sort(name: &'static str, one_in: u64, has: fn(&Moment) -> bool) -> Sort {
    Sort { name, one_in, has }
}

const SORTS: [Sort; 17] = [
    sort("the head by a word", 2, |moment| {
        moment.chooses(|choice| choice.takes_head() && choice.is_by_word())
    }),
    sort("a later job", 2, |moment| {
        moment.chooses(|choice| !choice.takes_head() && !choice.takes_idle())
    }),
    sort("idle while a job waits", 2, |moment| {
        moment.chooses(|choice| choice.takes_idle() && !choice.nothing_waits())
    }),
    sort("the only candidate", 2, |moment| {
        moment.chooses(|choice| choice.takes_head() && !choice.has_several_candidates())
    }),
    sort("the head for lack of a word", 40, |moment| {
        moment.chooses(|choice| choice.has_several_candidates() && !choice.is_by_word())
    }),
    sort("nothing waiting", 2, |moment| {
        moment.chooses(Choosing::nothing_waits)
    }),
    sort("a span by a word", 2, |moment| {
        moment.chooses(|choice| choice.is_due_to(Cause::Word))
    }),
    sort("a span for lack of a word", 2, |moment| {
        moment.chooses(|choice| choice.is_due_to(Cause::LackOfWord))
    }),
    sort("a word passed over", 30, |moment| {
        moment.chooses(Choosing::passes)
    }),
    sort("no word used", 2, |moment| {
        moment.chooses(|choice| choice.words_used() == 0)
    }),
    sort("one word used", 2, |moment| {
        moment.chooses(|choice| choice.words_used() == 1)
    }),
    sort("several words used", 2, |moment| {
        moment.chooses(|choice| choice.words_used() > 1)
    }),
    sort("several words queued", 2, |moment| {
        moment.chooses(|choice| choice.words_queued() > 1)
    }),
    sort("equal deadlines", 2, |moment| {
        moment.chooses(Choosing::has_tie)
    }),
    sort("a choice dropped by an arrival", 2, |moment| {
        moment.arrives() && moment.session.choice.is_some()
    }),
    // In each trial all rows arrive on tick 0.
    sort("two rows arriving on a later tick", 2, |moment| {
        let clock = moment.session.clock;
        moment.arrives() && clock > 0 && moment.last_arrival == Some(clock)
    }),
    sort("a step that leaves ticks", 2, |moment| {
        moment.leaves_ticks()
    }),
];

/// How many sorts of events there are.
pub const EVENTS: usize = SORTS.len();

/// The sorts of events: the name of each, and of how many trials it must happen in one.
pub fn sorts() -> impl Iterator<Item = (&'static str, u64)> {
    SORTS.iter().map(|sort| (sort.name, sort.one_in))
}

/// How often each sort of event happens in a trial.
#[derive(Clone, Debug, Default)]
pub struct Events {
    pub counts: [u64; EVENTS],
    last_arrival: Option<u64>,
}

impl Events {
    pub fn of(trial: &[u8]) -> Self {
        let mut events = Events::default();
        run_watched(trial, |machine, line| events.watch(machine, line));
        events
    }

    /// Looks at a line that the machine is about to perform.
    pub fn watch(&mut self, machine: &Machine, line: Command) {
        let is_choice = line == Command::Choose;
        let moment = Moment {
            session: &machine.session,
            line,
            choice: is_choice.then(|| Choosing::new(machine)).flatten(),
            last_arrival: self.last_arrival,
        };
        for (count, sort) in self.counts.iter_mut().zip(&SORTS) {
            *count += u64::from((sort.has)(&moment));
        }
        if moment.arrives() {
            self.last_arrival = Some(machine.session.clock);
        }
    }

    /// How often the sort of this name happens.
    pub fn count(&self, name: &str) -> u64 {
        let mut counts = self.counts.iter().zip(&SORTS);
        let found = counts.find(|(_, sort)| sort.name == name);
        *found.expect("there is such a sort").0
    }
}
