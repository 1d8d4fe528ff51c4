// The shuffled earliest-deadline scheduler: a safe binding to the library.
//
// One file to use as a module (`mod shuffle;`, `#[path = ..]` or `include!`), with or without the
// standard library; Rust 1.82 or later. Link with `-L native=<folder> -l static=host`. What the
// calls mean is in docs/SPECIFICATION.md, section 5. The library keeps nothing, has no global state
// and allocates nothing; calls on different sessions may run on different threads.

use core::mem::{offset_of, size_of};

/// The row number that stands for idle.
pub const IDLE: u64 = 16;
/// Most rows in a table.
pub const ROWS: usize = 16;
/// The longest T, and the longest span of a choice, in ticks.
pub const HORIZON: u64 = 1_000_000;
/// The last tick that the clock may show.
pub const CLOCK_END: u64 = 1 << 53;
/// Most stretches that the meter takes.
pub const METER_STRETCHES: usize = 255;
/// Most ticks of all stretches together.
pub const METER_TICKS: usize = 16_384;
/// The least buffer for a text; no text has more than 1,951 bytes.
pub const TEXT: usize = 2_048;
/// The kind of a table in which no V is negative.
pub const LOOSE: u64 = 1;
/// The kind of a table in which each V is negative; in a session of it every budget is 0.
pub const TIGHT: u64 = 2;
/// The kind of a table in which some V are negative. A row whose V is negative is brittle: the
/// budget of its jobs is 0.
pub const MIXED: u64 = 3;

/// The numbers of an answer; a value that is not named is 0. If several refusals hold, the lowest
/// number is given.
pub mod number {
    /// Accepted. Opinion and start: kind, number of rows. Arrive: row, deadline. Choose: row or 16
    /// for idle, span. Advance: ticks left, 1 if the job is over. Finish: row, unused ticks. Meter:
    /// how mixed the schedule is. Explain: the length of the text.
    pub const ACCEPTED: u64 = 0;
    /// Opinion and start: the length is 0, above 48 or no multiple of 3. Values: length.
    pub const BAD_LENGTH: u64 = 1;
    /// Opinion and start: a row breaks 1 ≤ C ≤ D ≤ T ≤ 1,000,000. Values: the first such row.
    pub const BAD_ROW: u64 = 2;
    /// Opinion and start: the demand exceeds the time. Values: the first overload, which is the least
    /// t with demand above t, and the demand at t. It is the first deadline that can be missed when
    /// all rows start together.
    pub const OVERLOAD: u64 = 3;
    /// Opinion and start: no overload found, but no busy length up to the horizon. Values: 1,000,000.
    pub const UNSETTLED: u64 = 4;
    /// Any call on a session: it is not sound.
    pub const UNSOUND: u64 = 5;
    /// Arrive: the row is not in the table. Values: row.
    pub const NO_ROW: u64 = 6;
    /// Arrive: too early. Values: row, earliest next arrival.
    pub const TOO_EARLY: u64 = 7;
    /// Choose or explain: a choice is in force. Values: its ticks left.
    pub const IN_FORCE: u64 = 8;
    /// Advance or finish: no choice is in force.
    pub const NO_CHOICE: u64 = 9;
    /// Advance: the ticks are 0 or above the ticks left. Values: ticks left.
    pub const BAD_STEP: u64 = 10;
    /// Finish: idle is running.
    pub const IDLING: u64 = 11;
    /// Advance: the clock would pass its end. Values: 2^53.
    pub const CLOCK_ENDS: u64 = 12;
    /// The meter: stretches, ticks, window or the number of rows breaks its rule.
    pub const BAD_SHAPE: u64 = 14;
    /// Explain: the buffer has fewer than 2,048 bytes. Values: its length.
    pub const SHORT_BUFFER: u64 = 15;
}

/// What is held for a row. A job waits from its arrival until it is over, running or not.
#[repr(C)]
#[derive(Clone, Copy, Debug, Default, PartialEq, Eq)]
pub struct Job {
    /// The earliest next arrival.
    pub next: u64,
    /// The waiting job's deadline.
    pub due: u64,
    /// Its remaining ticks; 0 if no job of the row waits.
    pub left: u64,
    /// Its budget left: how long later jobs and idle may still run before it; at most D − C, 0 if
    /// the row is brittle.
    pub budget: u64,
}

/// The record of a session. Every content is allowed: on a session that is not sound every call
/// answers 5 and leaves it as it is.
///
/// Not looked at by the calls: words and jobs past the last row, due and budget of a row whose left
/// is 0, and chosen if span is 0. In a session that the library made these are 0.
#[repr(C)]
#[derive(Clone, Copy, Debug, PartialEq, Eq)]
pub struct Session {
    /// Ticks since the start.
    pub clock: u64,
    /// `LOOSE`, `TIGHT` or `MIXED`.
    pub kind: u64,
    /// The number of rows.
    pub count: u64,
    /// Three to a row: C (longest run), T (least time between arrivals), D (time from arrival to
    /// deadline).
    pub words: [u32; 3 * ROWS],
    /// Of row i in place i.
    pub jobs: [Job; ROWS],
    /// The choice in force: a row, or `IDLE`.
    pub chosen: u64,
    /// Its ticks left; 0 if no choice is in force.
    pub span: u64,
}

/// An answer: its number, how many words a choice used or would use, and two values (see `number`).
#[repr(C)]
#[derive(Clone, Copy, Debug, PartialEq, Eq)]
pub struct Reply {
    /// One of the numbers in `number`.
    pub number: u64,
    /// From 0 to all words for a choice and for its explanation, 0 for all else.
    pub used: u64,
    /// The first value.
    pub first: u64,
    /// The second value.
    pub second: u64,
}

/// A row whose job arrives, and the place for the answer: its number and two values (see `number`).
#[repr(C)]
#[derive(Clone, Copy, Debug, Default, PartialEq, Eq)]
pub struct Arrival {
    /// The row. It is never written.
    pub row: u64,
    /// One of the numbers in `number`.
    pub number: u64,
    /// The first value.
    pub first: u64,
    /// The second value.
    pub second: u64,
}

/// The opinion on a table: its number and two values (see `number`), and V of each row.
#[repr(C)]
#[derive(Clone, Copy, Debug, PartialEq, Eq)]
pub struct Judgement {
    /// 0 if the table is admitted, else the refusal, from 1 to 4.
    pub number: u64,
    /// The first value.
    pub first: u64,
    /// The second value.
    pub second: u64,
    /// V of row i in place i: no job of the row arrives with a smaller budget; if V is negative, the
    /// budget is 0. 0 past the last row, and in every place if the table is refused.
    pub budgets: [i64; ROWS],
}

// The library reads and writes these places. No byte of a record is padding.
const _: () = {
    assert!(size_of::<Job>() == 32);
    assert!(offset_of!(Job, next) == 0);
    assert!(offset_of!(Job, due) == 8);
    assert!(offset_of!(Job, left) == 16);
    assert!(offset_of!(Job, budget) == 24);
    assert!(size_of::<Session>() == 744);
    assert!(offset_of!(Session, clock) == 0);
    assert!(offset_of!(Session, kind) == 8);
    assert!(offset_of!(Session, count) == 16);
    assert!(offset_of!(Session, words) == 24);
    assert!(offset_of!(Session, jobs) == 216);
    assert!(offset_of!(Session, chosen) == 728);
    assert!(offset_of!(Session, span) == 736);
    assert!(size_of::<Reply>() == 32);
    assert!(offset_of!(Reply, number) == 0);
    assert!(offset_of!(Reply, used) == 8);
    assert!(offset_of!(Reply, first) == 16);
    assert!(offset_of!(Reply, second) == 24);
    assert!(size_of::<Arrival>() == 32);
    assert!(offset_of!(Arrival, row) == 0);
    assert!(offset_of!(Arrival, number) == 8);
    assert!(offset_of!(Arrival, first) == 16);
    assert!(offset_of!(Arrival, second) == 24);
    assert!(size_of::<Judgement>() == 152);
    assert!(offset_of!(Judgement, number) == 0);
    assert!(offset_of!(Judgement, first) == 8);
    assert!(offset_of!(Judgement, second) == 16);
    assert!(offset_of!(Judgement, budgets) == 24);
    assert!(size_of::<usize>() == 8);
};

// SAFETY: these are the library's signatures. A function that takes no raw pointer is safe: a
// reference is never null, is aligned, and is not shared while it may be changed.
unsafe extern "C" {
    fn shuffle_opinion(words: *const u32, n: usize) -> Judgement;
    fn shuffle_start(session: &mut Session, words: *const u32, n: usize) -> Reply;
    safe fn shuffle_arrive(session: &mut Session, row: u64) -> Reply;
    fn shuffle_arrive_all(session: &mut Session, list: *mut Arrival, n: usize);
    fn shuffle_choose(session: &mut Session, words: *const u32, n: usize) -> Reply;
    safe fn shuffle_advance(session: &mut Session, n: u64) -> Reply;
    safe fn shuffle_finish(session: &mut Session) -> Reply;
    safe fn shuffle_is_sound(session: &Session) -> u32;
    fn shuffle_explain(
        session: &Session,
        words: *const u32,
        n: usize,
        buffer: *mut u8,
        size: usize,
    ) -> Reply;
    fn shuffle_meter(
        rows: *const u8,
        n: usize,
        stretches: usize,
        ticks: usize,
        window: usize,
        threshold: u64,
    ) -> Reply;
}

impl Reply {
    /// Whether the call was accepted.
    pub fn is_accepted(&self) -> bool {
        self.number == number::ACCEPTED
    }
}

impl Judgement {
    /// Whether the table is admitted, so that a start of it is accepted.
    pub fn is_admitted(&self) -> bool {
        self.number == number::ACCEPTED
    }
}

impl Arrival {
    /// A record for a row, whose answer is not there yet.
    pub const fn of(row: u64) -> Arrival {
        Arrival {
            row,
            number: 0,
            first: 0,
            second: 0,
        }
    }

    /// Whether the row's job was accepted.
    pub fn is_accepted(&self) -> bool {
        self.number == number::ACCEPTED
    }
}

impl Session {
    /// No session: it has no rows, so every call on it answers 5.
    pub const NONE: Session = Session {
        clock: 0,
        kind: 0,
        count: 0,
        words: [0; 3 * ROWS],
        jobs: [Job {
            next: 0,
            due: 0,
            left: 0,
            budget: 0,
        }; ROWS],
        chosen: 0,
        span: 0,
    };

    /// Starts a table, three words to a row: C, T, D. Gives its fresh session, or `NONE` with the
    /// refusal of its opinion, from 1 to 4.
    pub fn start(words: &[u32]) -> (Reply, Session) {
        let mut session = Session::NONE;
        let reply = session.restart(words);
        (reply, session)
    }

    /// Starts a table in place of whatever this session held. If it is refused, this session stays
    /// as it was, and goes on if it was sound.
    pub fn restart(&mut self, words: &[u32]) -> Reply {
        // SAFETY: pointer and length of one slice, never null, also for an empty one; the slice
        // cannot overlap the record, which is borrowed for change.
        unsafe { shuffle_start(self, words.as_ptr(), words.len()) }
    }

    /// A job of the row arrives now. Its budget is D − C, less what the other rows can need by its
    /// deadline, by waiting jobs and by those still to come; 0 if the row is brittle. A choice in
    /// force is dropped. Refusals: 5, 6, 7.
    pub fn arrive(&mut self, row: u64) -> Reply {
        shuffle_arrive(self, row)
    }

    /// A job of each record's row arrives now, in list order, as by `arrive` one after another; each
    /// record gets its answer, whatever its place held. A refused record does not stop those after
    /// it. Refusals, in the records: 5, 6, 7.
    pub fn arrive_all(&mut self, list: &mut [Arrival]) {
        // SAFETY: as for `restart`; the slice is borrowed for change, so nothing else reads it.
        unsafe { shuffle_arrive_all(self, list.as_mut_ptr(), list.len()) }
    }

    /// Chooses what runs next, by random words, each candidate and each length of the span equally
    /// likely. One word for the candidate and one for the span do, unless one is passed over, which
    /// happens to fewer than one in 4,000; the next is taken then. So hand in a few more than two,
    /// as four, and no word twice: the first `used` of them are used. Without words the earliest
    /// deadline runs; of equal deadlines the job that arrived first, and of those of one tick the
    /// lowest row. It runs too if no word is left to decide, and a span is then as long as it may
    /// be. In a mixed session no job but the first in order is a candidate that is due later than the
    /// next job of some brittle row can be, nor is idle while a job waits. If no job waits: idle, for
    /// 1,000,000 ticks. Refusals: 5, 8.
    pub fn choose(&mut self, words: &[u32]) -> Reply {
        // SAFETY: as for `restart`.
        unsafe { shuffle_choose(self, words.as_ptr(), words.len()) }
    }

    /// The choice in force ran for these ticks. Answers its ticks left; at 0 the choice has ended,
    /// and choose is next. Refusals: 5, 9, 10, 12.
    pub fn advance(&mut self, ticks: u64) -> Reply {
        shuffle_advance(self, ticks)
    }

    /// The chosen job has finished early, and the choice ends. The waiting jobs of strictly later
    /// deadline, but for those of brittle rows, gain its unused ticks as budget, each up to its
    /// D − C. A job that is done on the very last tick of its span, before C ticks, has no choice in
    /// force, so this answers 9: finish it as soon as it is chosen again, before any tick passes.
    /// Refusals: 5, 9, 11.
    pub fn finish(&mut self) -> Reply {
        shuffle_finish(self)
    }

    /// Says in English what `choose` would answer on these words, and why: docs/EXPLANATIONS.md has
    /// every phrase. The text is written to the start of the buffer, which has at least `TEXT` bytes;
    /// the bytes past it stay as they were. First value: its length. `used` is how many words
    /// `choose` would use. Nothing else changes. Refusals: 5, 8, 15, and then nothing is written.
    pub fn explain(&self, words: &[u32], buffer: &mut [u8]) -> Reply {
        // SAFETY: pointer and length of two slices, never null, also for empty ones; the buffer is
        // borrowed for change, so it overlaps neither the words nor the record.
        unsafe {
            shuffle_explain(
                self,
                words.as_ptr(),
                words.len(),
                buffer.as_mut_ptr(),
                buffer.len(),
            )
        }
    }

    /// Whether the session is sound, so that no call on it answers 5.
    pub fn is_sound(&self) -> bool {
        shuffle_is_sound(self) == 1
    }
}

/// The opinion on a table, three words to a row: C, T, D. No session is made.
pub fn opinion(words: &[u32]) -> Judgement {
    // SAFETY: pointer and length of one slice, never null, also for an empty one.
    unsafe { shuffle_opinion(words.as_ptr(), words.len()) }
}

/// How mixed a schedule is: the schedule entropy, in eighths of a bit, rounded. The rows are
/// `stretches` stretches of `ticks` ticks one after another, a row number per tick, 16 for idle or
/// any other byte. Two stretches are alike at a tick if their intervals of `window` ticks from there
/// on, around the end of each stretch, differ in at most `threshold` ticks. First value: the sum,
/// over each tick of each stretch, of g(stretches) − g(c), where c stretches, itself among them, are
/// like it there and g(x) is 8 log2 x rounded down. 0: equal stretches. At most, if each is unlike
/// every other at each tick: g(stretches) for each row.
///
/// Refusal: 14, unless 1 ≤ stretches ≤ 255, 1 ≤ window ≤ ticks and the number of rows is
/// stretches × ticks, 16,384 at most. Every threshold is accepted.
pub fn meter(rows: &[u8], stretches: usize, ticks: usize, window: usize, threshold: u64) -> Reply {
    // SAFETY: as for `opinion`.
    unsafe {
        shuffle_meter(
            rows.as_ptr(),
            rows.len(),
            stretches,
            ticks,
            window,
            threshold,
        )
    }
}
