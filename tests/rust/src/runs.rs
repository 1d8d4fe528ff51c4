//! Random lists of calls on an admitted table.

use crate::calls::{candidates, perform_on_sound, Call};
use crate::driver::Driver;
use crate::rng::Rng;
use crate::session::{Choice, Session, IDLE};
use crate::table::HORIZON;
use crate::text::{Command, Machine};
use crate::words::next_word;

/// How a run is made up.
#[derive(Clone, Copy, Debug)]
pub struct Style {
    /// Out of 8 steps at which some row may arrive, how many let it arrive.
    pub arrivals: usize,
    /// Out of 16 steps, how many make a call that is most likely refused.
    pub refused: usize,
    /// Out of 16 steps, how many queue a word.
    pub words: usize,
    /// Out of 8 of the other steps, how many are timed so that deadlines meet.
    pub meetings: usize,
    /// Out of 8 of the steps that are still left, how many are made so that a
    /// finish has later jobs to give to, and a choice comes after it.
    pub gifts: usize,
    /// Out of 8 of the steps that are left then, how many are made so that words
    /// lie near the limits of the draws to come.
    pub draws: usize,
    /// Out of 8 of the steps that are left then, how many are made so that brittle jobs
    /// to come decide what may run before the head.
    pub brittle: usize,
    /// Out of 8 of the steps that are left then, how many are made so that a job that
    /// another counted on its arrival comes later, and is due after it.
    pub counted: usize,
    /// Out of 8 steps at which a chosen job may go on, how many finish it.
    pub finishes: usize,
}

impl Style {
    pub fn random(rng: &mut Rng) -> Self {
        Style {
            arrivals: rng.pick(&[1, 4, 8]),
            refused: rng.pick(&[0, 1, 5]),
            words: rng.pick(&[0, 2, 6]),
            meetings: rng.pick(&[0, 0, 0, 4]),
            gifts: 0,
            draws: 0,
            brittle: 0,
            counted: 0,
            finishes: rng.pick(&[1, 1, 4]),
        }
    }

    /// A style in which most steps are timed so that deadlines meet.
    pub fn meeting(rng: &mut Rng) -> Self {
        Style {
            meetings: rng.pick(&[6, 7, 8]),
            ..Style::random(rng)
        }
    }

    /// A style in which finishes with later jobs waiting are common, and choices
    /// after them.
    pub fn giving(rng: &mut Rng) -> Self {
        Style {
            meetings: 0,
            gifts: rng.pick(&[6, 7, 8]),
            ..Style::random(rng)
        }
    }

    /// A style in which most words lie near the limits of draws.
    pub fn drawing(rng: &mut Rng) -> Self {
        Style {
            words: rng.pick(&[0, 0, 2]),
            meetings: 0,
            draws: rng.pick(&[6, 7, 8]),
            ..Style::random(rng)
        }
    }

    /// A style in which brittle jobs to come often decide what may run.
    pub fn limiting(rng: &mut Rng) -> Self {
        Style {
            meetings: 0,
            brittle: rng.pick(&[6, 7, 8]),
            ..Style::random(rng)
        }
    }

    /// A style in which jobs often come later than others counted on.
    pub fn counting(rng: &mut Rng) -> Self {
        Style {
            meetings: 0,
            counted: rng.pick(&[6, 7, 8]),
            ..Style::random(rng)
        }
    }
}

/// Extends an input by random calls.
pub fn extend(driver: &mut Driver, rng: &mut Rng, style: Style, steps: usize) {
    for _ in 0..steps {
        let command = random_command(&driver.machine, rng, style);
        driver.push(command);
    }
}

pub fn random_command(machine: &Machine, rng: &mut Rng, style: Style) -> Command {
    // Words that no choice uses must not reach the limit by chance.
    if machine.words.len() < 32 && rng.chance(style.words, 16) {
        Command::Word(random_word(machine, rng))
    } else if rng.chance(style.refused, 16) {
        doubtful_call(&machine.session, rng)
    } else if rng.chance(style.meetings, 8) {
        timed_command(machine, rng, style)
    } else if rng.chance(style.gifts, 8) {
        giving_command(machine, rng)
    } else if rng.chance(style.draws, 8) {
        drawing_command(machine, rng, style)
    } else if rng.chance(style.brittle, 8) {
        limiting_command(machine, rng, style)
    } else if rng.chance(style.counted, 8) {
        counting_command(machine, rng, style)
    } else {
        accepted_call(&machine.session, rng, style)
    }
}

/// A word of any size, now and then near the limit of a draw to come.
fn random_word(machine: &Machine, rng: &mut Rng) -> u32 {
    let Machine { session, words } = machine;
    let near = rng.chance(1, 8).then(|| next_word(rng, session, words));
    near.flatten().unwrap_or_else(|| match rng.below(4) {
        0 => rng.pick(&[0, 1, u32::MAX, u32::MAX - 1, 1 << 31]),
        1 => rng.draw() as u32,
        _ => rng.between(0, 20),
    })
}

fn accepted_call(session: &Session, rng: &mut Rng, style: Style) -> Command {
    let meeting = meeting_rows(session);
    if !meeting.is_empty() && rng.chance(1, 2) {
        return Command::Arrive(rng.pick(&meeting));
    }
    let ready = session.ready_rows();
    if !ready.is_empty() && rng.chance(style.arrivals, 8) {
        return Command::Arrive(rng.pick(&ready));
    }
    run_or_choose(session, rng, style)
}

/// Goes on with the choice in force, or makes one.
fn run_or_choose(session: &Session, rng: &mut Rng, style: Style) -> Command {
    match session.choice {
        None => Command::Choose,
        Some(choice) if choice.row != IDLE && rng.chance(style.finishes, 8) => Command::Finish,
        Some(choice) => Command::Advance(accepted_ticks(session, rng, choice.left)),
    }
}

/// The rows whose job, if it arrived now, would share its deadline with
/// another.
fn meeting_rows(session: &Session) -> Vec<u32> {
    let due = |row: u32| session.clock + u64::from(session.rows[row as usize].deadline);
    let mut rows = session.ready_rows();
    rows.retain(|row| session.waiting().any(|job| job.due == due(*row)));
    rows
}

/// A command on the way to a moment at which deadlines meet, or at it.
fn timed_command(machine: &Machine, rng: &mut Rng, style: Style) -> Command {
    let session = &machine.session;
    let meeting = meeting_rows(session);
    if !meeting.is_empty() {
        return Command::Arrive(rng.pick(&meeting));
    }
    match (next_meeting(session), session.choice) {
        (Some(_), None) => patient_command(machine, rng),
        (Some(ticks), Some(choice)) => Command::Advance(choice.left.min(ticks) as u32),
        // So that jobs of one deadline also wait until their budgets are spent.
        (None, None) if deadlines_have_met(session) => patient_command(machine, rng),
        (None, _) => first_arrival(session, rng, style),
    }
}

/// Lets a job arrive whose deadline another can meet later; where there is
/// none, any that may.
fn first_arrival(session: &Session, rng: &mut Rng, style: Style) -> Command {
    let ready = session.ready_rows();
    let mut first = ready.clone();
    first.retain(|row| can_be_met(session, *row));
    if !first.is_empty() {
        Command::Arrive(rng.pick(&first))
    } else if !ready.is_empty() {
        Command::Arrive(rng.pick(&ready))
    } else {
        run_or_choose(session, rng, style)
    }
}

/// Whether a job that arrived now could still be waiting when another arrives
/// with its deadline: its budget lasts, or it does not run out.
fn can_be_met(session: &Session, row: u32) -> bool {
    let budget = session.arrival_budget(row as usize) as u64;
    let longest_wait = budget.max(u64::from(session.rows[row as usize].run) - 1);
    let mut later = session.clone();
    perform_on_sound(&mut later, Call::Arrive(row));
    next_meeting(&later).is_some_and(|ticks| ticks <= longest_wait)
}

/// A choice, mostly after a word that lets the last candidate run, so that the
/// jobs before it still wait later. Once deadlines have met any word will do.
fn patient_command(machine: &Machine, rng: &mut Rng) -> Command {
    let Machine { session, words } = machine;
    let last = candidates(session).len() as u32 - 1;
    if last == 0 || !words.is_empty() || rng.chance(1, 8) {
        Command::Choose
    } else if deadlines_have_met(session) && rng.chance(1, 2) {
        Command::Word(random_word(machine, rng))
    } else {
        Command::Word(last)
    }
}

/// A command on the way to a finish while later jobs wait, or to a choice after
/// it: mostly of the last candidate, whose span is often the least budget.
fn giving_command(machine: &Machine, rng: &mut Rng) -> Command {
    let Machine { session, words } = machine;
    let ready = session.ready_rows();
    match session.choice {
        Some(choice) if later_job_waits(session, choice) && rng.chance(3, 4) => Command::Finish,
        Some(choice) => Command::Advance(accepted_ticks(session, rng, choice.left)),
        None if !ready.is_empty() && rng.chance(3, 4) => Command::Arrive(rng.pick(&ready)),
        None if !words.is_empty() => Command::Choose,
        None => match rng.below(4) {
            0 => Command::Choose,
            1 => Command::Word(random_word(machine, rng)),
            _ => Command::Word(candidates(session).len() as u32 - 1),
        },
    }
}

/// A command on the way to a choice whose words lie near the limits of its draws,
/// with many candidates.
fn drawing_command(machine: &Machine, rng: &mut Rng, style: Style) -> Command {
    let Machine { session, words } = machine;
    let ready = session.ready_rows();
    if !ready.is_empty() && rng.chance(3, 4) {
        return Command::Arrive(rng.pick(&ready));
    }
    let has_room = session.choice.is_none() && words.len() < 32;
    let word = has_room.then(|| next_word(rng, session, words)).flatten();
    match word {
        Some(word) if rng.chance(3, 4) => Command::Word(word),
        _ => run_or_choose(session, rng, style),
    }
}

/// A command on the way to a choice, with a word for it, at which it matters when a
/// brittle job to come can be due. A row that is not brittle is kept back, so that its
/// arrival can drop the choice in force at such a moment.
fn limiting_command(machine: &Machine, rng: &mut Rng, style: Style) -> Command {
    let Machine { session, words } = machine;
    let ready = session.ready_rows();
    let mut others = ready.clone();
    others.retain(|row| !session.is_brittle(*row as usize));
    let kept_back = usize::from(session.waiting().count() >= 2);
    let is_moment = session.choice.is_some() && is_at_limit(session);
    if is_moment && !others.is_empty() {
        return Command::Arrive(rng.pick(&others));
    }
    if others.len() > kept_back && rng.chance(style.arrivals, 8) {
        return Command::Arrive(rng.pick(&others));
    }
    if !ready.is_empty() && rng.chance(1, 8) {
        return Command::Arrive(rng.pick(&ready));
    }
    match session.choice {
        None if words.is_empty() => Command::Word(rng.between(0, 40)),
        Some(choice) if choice.row == IDLE || rng.chance(7, 8) => {
            let moments = limit_ticks(session, choice.left);
            if moments.is_empty() {
                Command::Advance(accepted_ticks(session, rng, choice.left))
            } else {
                Command::Advance(rng.pick(&moments) as u32)
            }
        }
        _ => run_or_choose(session, rng, style),
    }
}

/// A command on the way to a choice between a job and one that it counted on its
/// arrival, but that has come later and is due after it. If no job waits the row of the
/// longest D arrives first, and otherwise now and then that of the shortest.
fn counting_command(machine: &Machine, rng: &mut Rng, style: Style) -> Command {
    let Machine { session, words } = machine;
    let late = late_rows(session);
    if !late.is_empty() && rng.chance(3, 4) {
        return Command::Arrive(rng.pick(&late));
    }
    let is_free = session.waiting().next().is_none();
    let mut ready = session.ready_rows();
    ready.sort_by_key(|row| session.rows[*row as usize].deadline);
    if let [shortest, .., longest] = ready[..] {
        if rng.chance(if is_free { 7 } else { 3 }, 8) {
            return Command::Arrive(if is_free { longest } else { shortest });
        }
    }
    match session.choice {
        None if !words.is_empty() => Command::Choose,
        None if rng.chance(1, 4) => Command::Word(random_word(machine, rng)),
        None => Command::Word(candidates(session).len() as u32 - 1),
        Some(choice) if later_job_waits(session, choice) && rng.chance(1, 2) => Command::Finish,
        Some(choice) => {
            let moments = late_ticks(session, choice.left);
            if moments.is_empty() || rng.chance(1, 8) {
                run_or_choose(session, rng, style)
            } else {
                Command::Advance(rng.pick(&moments) as u32)
            }
        }
    }
}

/// The waiting jobs and the rows that each of them counted on its arrival, with the first
/// tick at which a job of that row is due after it.
fn late_moments(session: &Session) -> Vec<(u32, u64)> {
    let mut moments = Vec::new();
    for first in 0..session.rows.len() as u32 {
        let (Some(job), Some(arrival)) = (session.job(first), session.arrival(first)) else {
            continue;
        };
        for (row, slot) in (0..).zip(&session.slots) {
            let deadline = u64::from(session.rows[row as usize].deadline);
            let earliest = i128::from(slot.next).max(arrival) + i128::from(deadline);
            if row != first && slot.job.is_none() && earliest <= i128::from(job.due) {
                moments.push((row, job.due + 1 - deadline));
            }
        }
    }
    moments
}

/// The rows that may arrive now, of which another job counted an earlier arrival.
fn late_rows(session: &Session) -> Vec<u32> {
    let ready = session.ready_rows();
    let moments = late_moments(session).into_iter();
    let late = moments.filter(|(row, moment)| ready.contains(row) && *moment <= session.clock);
    late.map(|(row, _)| row).collect()
}

/// Ticks below `left` after which one more row is such.
fn late_ticks(session: &Session, left: u64) -> Vec<u64> {
    let moments = late_moments(session).into_iter();
    let ticks = moments.filter_map(|(_, moment)| moment.checked_sub(session.clock));
    ticks.filter(|ticks| (1..left).contains(ticks)).collect()
}

/// The deadlines of the waiting jobs but for the head.
fn later_deadlines(session: &Session) -> Vec<u64> {
    let rows = session.in_order().into_iter().skip(1);
    rows.filter_map(|row| session.job(row).map(|job| job.due))
        .collect()
}

/// Whether a job behind the head is due when a brittle one to come can be, or a tick
/// later.
fn is_at_limit(session: &Session) -> bool {
    let limit = session.brittle_deadline();
    let mut deadlines = later_deadlines(session).into_iter();
    limit.is_some_and(|limit| deadlines.any(|due| due == limit || due == limit + 1))
}

/// Ticks below `left` after which a job behind the head is due when a brittle one can
/// be that arrives then, or a tick later.
fn limit_ticks(session: &Session, left: u64) -> Vec<u64> {
    let brittle = (0..session.rows.len()).filter(|row| session.is_brittle(*row));
    let due = later_deadlines(session);
    let ticks = brittle.flat_map(|row| {
        let now = session.clock + u64::from(session.rows[row].deadline);
        due.iter()
            .flat_map(move |due| [due.checked_sub(now), due.checked_sub(now + 1)])
    });
    let ticks = ticks.flatten();
    ticks.filter(|ticks| (1..left).contains(ticks)).collect()
}

/// Whether a job waits for a later deadline than the chosen one.
fn later_job_waits(session: &Session, choice: Choice) -> bool {
    let chosen = session.job(choice.row);
    chosen.is_some_and(|chosen| session.waiting().any(|job| job.due > chosen.due))
}

fn deadlines_have_met(session: &Session) -> bool {
    let mut due: Vec<u64> = session.waiting().map(|job| job.due).collect();
    due.sort_unstable();
    due.windows(2).any(|pair| pair[0] == pair[1])
}

/// Ticks from 1 to `left`, often up to a moment at which jobs can meet.
fn accepted_ticks(session: &Session, rng: &mut Rng, left: u64) -> u32 {
    let moments = meeting_ticks(session, left);
    let ticks = if !moments.is_empty() && rng.chance(3, 4) {
        rng.pick(&moments)
    } else if rng.chance(1, 2) {
        left
    } else {
        left.min(20)
    };
    if rng.chance(1, 4) {
        rng.between(1, ticks as u32)
    } else {
        ticks as u32
    }
}

/// Ticks below `left` after which a row may arrive for the first time, or may
/// arrive with the deadline of a waiting job.
fn meeting_ticks(session: &Session, left: u64) -> Vec<u64> {
    let nexts = session.slots.iter().map(|slot| slot.next);
    nexts
        .chain(meetings(session))
        .filter_map(|moment| moment.checked_sub(session.clock))
        .filter(|ticks| (1..left).contains(ticks))
        .collect()
}

/// The moments at which a row may arrive with the deadline of a waiting job;
/// some may be past.
fn meetings(session: &Session) -> Vec<u64> {
    let mut moments = Vec::new();
    for (row, slot) in session.rows.iter().zip(&session.slots) {
        let arrivals = session
            .waiting()
            .filter_map(|job| job.due.checked_sub(u64::from(row.deadline)));
        moments.extend(arrivals.filter(|arrival| *arrival >= slot.next));
    }
    moments
}

/// Ticks to the next of these moments that is ahead.
fn next_meeting(session: &Session) -> Option<u64> {
    let ahead = meetings(session)
        .into_iter()
        .filter(|moment| *moment > session.clock);
    ahead.map(|moment| moment - session.clock).min()
}

/// A call that is refused more often than not.
fn doubtful_call(session: &Session, rng: &mut Rng) -> Command {
    let count = session.rows.len() as u32;
    let left = session.choice.map_or(0, |choice| choice.left as u32);
    match rng.below(8) {
        0 => Command::Arrive(rng.pick(&[count, IDLE, IDLE + 1, u32::MAX])),
        1 => Command::Arrive(rng.between(0, count - 1)),
        2 => Command::Advance(0),
        3 => Command::Advance(left + 1),
        4 => Command::Advance(rng.pick(&[HORIZON as u32, HORIZON as u32 + 1, u32::MAX])),
        5 => Command::Finish,
        _ => Command::Choose,
    }
}
