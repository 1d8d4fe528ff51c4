//! A host in Rust: it drives a plant of four tasks for some simulated minutes and prints the
//! schedule. A tick is a millisecond. Before each shift the tasks pause, and at the shift change all
//! of them start on one tick.
//!
//!     rustc --edition 2021 -L native=crates/host/out -l static=host examples/hosts/plant.rs
//!
//! Argument: the ticks to simulate, 180,000 if none is given. Status 1 if a job was late or
//! something was refused that should not be. plant.c is the same host in C and prints the same.

// A host need not use all of the binding.
#[allow(dead_code)]
#[path = "../../bindings/rust/shuffle.rs"]
mod shuffle;

use std::process::exit;

use shuffle::{number, Arrival, Reply, Session, IDLE};

const TASKS: usize = 4;
const SHIFT: u64 = 60_000;
const PAUSE: u64 = 200;
const STRIP: usize = 300;
const STRIP_LINE: usize = 100;

/// C, T, D of each row.
const TABLE: [[u32; 3]; TASKS] = [[2, 20, 20], [3, 30, 25], [8, 60, 50], [5, 100, 100]];

/// The plant with a slower radio, which is overloaded.
const SLOWER: [[u32; 3]; TASKS] = [[2, 20, 20], [3, 30, 25], [8, 60, 50], [70, 100, 100]];

const NAMES: [&str; TASKS + 1] = ["valve", "motor", "camera", "radio", "idle"];

/// What the host itself knows of a task; it trusts the library for none of it.
#[derive(Clone, Copy, Default)]
struct Task {
    /// The tick of its next arrival.
    arrival: u64,
    /// The tick at which the last arrival is reported a second time, or 0.
    bounce: u64,
    /// The deadline of its job.
    due: u64,
    /// The ticks that the job needs, C at most; 0 if no job waits.
    need: u64,
    /// The ticks that it got.
    ran: u64,
}

struct Plant {
    session: Session,
    tasks: [Task; TASKS],
    clock: u64,
    chosen: u64,
    /// Ticks left of the choice; 0 if none is in force.
    span: u64,
    random: u64,
    jobs: u64,
    early: u64,
    late: u64,
    calls: u64,
    most: u64,
    refused: u64,
    faults: u64,
    strip: [[u8; STRIP]; TASKS + 1],
}

impl Plant {
    fn start() -> Self {
        let (reply, session) = Session::start(TABLE.as_flattened());
        let mut plant = Plant {
            session,
            tasks: [Task::default(); TASKS],
            clock: 0,
            chosen: 0,
            span: 0,
            random: 2026,
            jobs: 0,
            early: 0,
            late: 0,
            calls: 0,
            most: 0,
            refused: 0,
            faults: 0,
            strip: [[b' '; STRIP]; TASKS + 1],
        };
        plant.count(reply, number::ACCEPTED);
        plant
    }

    /// SplitMix64; a real host draws its words from a source that nobody can guess.
    fn draw(&mut self) -> u64 {
        self.random = self.random.wrapping_add(0x9e37_79b9_7f4a_7c15);
        let mut z = self.random;
        z = (z ^ (z >> 30)).wrapping_mul(0xbf58_476d_1ce4_e5b9);
        z = (z ^ (z >> 27)).wrapping_mul(0x94d0_49bb_1331_11eb);
        z ^ (z >> 31)
    }

    /// Any other answer than the expected one is a fault.
    fn expect(&mut self, answer: [u64; 3], expected: u64) {
        let [number, first, second] = answer;
        self.refused += u64::from(number != number::ACCEPTED);
        if number != expected {
            self.faults += 1;
            let clock = self.clock;
            eprintln!("tick {clock}: answer {number} ({first}, {second})");
        }
    }

    /// Counts a call.
    fn count(&mut self, reply: Reply, expected: u64) {
        self.calls += 1;
        self.expect([reply.number, reply.first, reply.second], expected);
    }

    /// A job has arrived: it often needs all of C, and the next one comes T later or more.
    fn arrived(&mut self, row: usize) {
        let [c, least_gap, d] = TABLE[row].map(u64::from);
        self.span = 0;
        self.jobs += 1;
        self.late += u64::from(self.tasks[row].need != 0);
        let clock = self.clock;
        let mut task = Task {
            due: clock + d,
            arrival: clock + least_gap,
            ..Task::default()
        };
        let is_short = self.draw() % 4 == 0;
        task.need = if is_short { 1 + self.draw() % c } else { c };
        if self.draw() % 16 == 0 {
            task.bounce = clock + 1 + self.draw() % (least_gap - 1);
        }
        if self.draw() % 3 == 0 {
            task.arrival += self.draw() % least_gap;
        }
        task.arrival = start_of(task.arrival);
        self.tasks[row] = task;
        if let Some(place) = self.strip[row].get_mut(clock as usize) {
            *place = b'|';
        }
    }

    /// At a shift change the slower radio is tried. Its table is refused, and the session goes on as
    /// it was.
    fn change_shift(&mut self) {
        let reply = self.session.restart(SLOWER.as_flattened());
        self.count(reply, number::OVERLOAD);
    }

    /// All arrivals of this tick in one call, at a shift change those of all tasks. One that is
    /// reported a second time is too early, and refused; the others of the list are handled all the
    /// same.
    fn arrivals(&mut self) {
        let clock = self.clock;
        let tasks = (0..).zip(&self.tasks);
        let mut list: Vec<Arrival> = tasks
            .filter(|(_, task)| task.arrival == clock || task.bounce == clock)
            .map(|(row, _)| Arrival::of(row))
            .collect();
        if list.is_empty() {
            return;
        }
        if list.len() == TASKS {
            self.change_shift();
        }
        self.session.arrive_all(&mut list);
        self.calls += 1;
        self.most = self.most.max(list.len() as u64);
        for record in list {
            let row = record.row as usize;
            let answer = [record.number, record.first, record.second];
            if self.tasks[row].arrival == clock {
                self.expect(answer, number::ACCEPTED);
                self.arrived(row);
            } else {
                self.expect(answer, number::TOO_EARLY);
                self.tasks[row].bounce = 0;
            }
        }
    }

    fn choose(&mut self) {
        // Two words do, unless some are passed over.
        let (a, b) = (self.draw(), self.draw());
        let words = [a as u32, (a >> 32) as u32, b as u32, (b >> 32) as u32];
        let reply = self.session.choose(&words);
        self.count(reply, number::ACCEPTED);
        self.chosen = reply.first;
        self.span = reply.second;
    }

    /// The job of the chosen task is over.
    fn end_job(&mut self) {
        let task = &mut self.tasks[self.chosen as usize];
        self.late += u64::from(task.due < self.clock);
        self.faults += u64::from(task.ran != task.need);
        task.need = 0;
    }

    /// Ticks up to the next moment at which the host has to act.
    fn step_length(&self, end: u64) -> u64 {
        let mut ticks = self.span.min(end - self.clock);
        for (row, task) in (0..).zip(&self.tasks) {
            ticks = ticks.min(task.arrival - self.clock);
            if task.bounce > self.clock {
                ticks = ticks.min(task.bounce - self.clock);
            }
            if row == self.chosen {
                ticks = ticks.min(task.need - task.ran);
            }
        }
        ticks
    }

    /// Marks the next ticks in the strip.
    fn mark(&mut self, ticks: u64) {
        for tick in self.clock as usize..STRIP.min((self.clock + ticks) as usize) {
            for (row, task) in self.tasks.iter().enumerate() {
                let place = &mut self.strip[row][tick];
                if row as u64 == self.chosen {
                    *place = if *place == b'|' { b'@' } else { b'#' };
                } else if task.need != 0 && *place == b' ' {
                    *place = b'.';
                }
            }
            if self.chosen == IDLE {
                self.strip[TASKS][tick] = b'#';
            }
        }
    }

    fn advance(&mut self, ticks: u64) {
        self.mark(ticks);
        let reply = self.session.advance(ticks);
        self.count(reply, number::ACCEPTED);
        self.clock += ticks;
        self.span = reply.first;
        if let Some(task) = self.tasks.get_mut(self.chosen as usize) {
            task.ran += ticks;
            if reply.second == 1 {
                self.end_job();
            }
        }
    }

    /// The chosen job has done its work before C ticks.
    fn finish(&mut self) {
        let reply = self.session.finish();
        self.count(reply, number::ACCEPTED);
        self.span = 0;
        self.early += 1;
        self.end_job();
    }

    /// One turn of the host's loop: the arrivals of this tick, a choice if none is in force, and
    /// then the ticks up to the next moment at which something happens.
    ///
    /// A job that is done on the very last tick of its span, before C ticks, has no choice in force
    /// any more, so that finish would be refused with 9. For the library it still waits. It is
    /// finished here, before any tick passes, when it is chosen again: ran is need already.
    fn step(&mut self, end: u64) {
        self.arrivals();
        if self.span == 0 {
            self.choose();
        }
        let task = self.tasks.get(self.chosen as usize);
        if task.is_some_and(|task| task.ran == task.need) {
            self.finish();
        } else {
            self.advance(self.step_length(end));
        }
    }

    fn print_strip(&self, end: u64) {
        let shown = STRIP.min(end as usize);
        println!("| arrives, . waits, # runs, @ arrives and runs\n");
        for from in (0..shown).step_by(STRIP_LINE) {
            let to = shown.min(from + STRIP_LINE);
            print!("{:<8}", "tick");
            for tick in (from..to).step_by(10) {
                print!("{tick:<10}");
            }
            println!();
            for (name, strip) in NAMES.iter().zip(&self.strip) {
                println!("{name:<8}{}", String::from_utf8_lossy(&strip[from..to]));
            }
            println!();
        }
    }

    fn print_summary(&self) {
        let waiting = self.tasks.iter().filter(|task| task.need != 0).count();
        println!(
            "ticks {}; jobs {}, finished early {}, waiting at the end {waiting}, late {}",
            self.clock, self.jobs, self.early, self.late
        );
        println!(
            "calls {}, up to {} arrivals in one; refused {}, answered otherwise than expected {}",
            self.calls, self.most, self.refused, self.faults
        );
    }
}

/// A task that would start in the pause before a shift starts with the shift.
fn start_of(tick: u64) -> u64 {
    let change = (tick / SHIFT + 1) * SHIFT;
    if change - tick < PAUSE {
        change
    } else {
        tick
    }
}

fn main() {
    let argument = std::env::args().nth(1);
    let end = argument.map_or(180_000, |text| text.parse().expect("a number of ticks"));
    let mut plant = Plant::start();
    // After a fault nothing more can be relied on.
    while plant.clock < end && plant.faults == 0 {
        plant.step(end);
    }
    // Jobs that still wait at their deadline are late too.
    let is_late = |task: &&Task| task.need != 0 && task.due <= plant.clock;
    plant.late += plant.tasks.iter().filter(is_late).count() as u64;
    plant.print_strip(end);
    plant.print_summary();
    exit(i32::from(plant.late != 0 || plant.faults != 0));
}
