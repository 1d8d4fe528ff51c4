//! Runs a program as a child process, input and output by pipe; and makes a program of a
//! function from bytes to bytes.

use std::io::{self, ErrorKind, Read, Write};
use std::process::{Child, Command, ExitStatus, Stdio};
use std::sync::mpsc;
use std::thread;
use std::time::{Duration, Instant};

/// Reads standard input up to a limit, and writes what the function makes of it to
/// standard output. A reader that leaves early is no error.
pub fn serve(limit: usize, run: fn(&[u8]) -> Vec<u8>) -> io::Result<()> {
    let mut input = Vec::new();
    io::stdin().take(limit as u64).read_to_end(&mut input)?;
    match io::stdout().write_all(&run(&input)) {
        Err(error) if error.kind() == ErrorKind::BrokenPipe => Ok(()),
        written => written,
    }
}

/// A program that takes longer hangs.
const TIME_LIMIT: Duration = Duration::from_secs(20);
/// Above any right output; a program that never stops printing ends here. Most comes of
/// `explained`, where six bytes of input, a choice and an advance, can give a text of 16
/// jobs, some 1,400 bytes: in all some 15,000,000.
const OUTPUT_LIMIT: u64 = 1 << 25;

/// A program with the arguments before it, such as those of a checker.
pub struct Program {
    arguments: Vec<String>,
}

pub struct Finished {
    pub stdout: Vec<u8>,
    pub stderr: Vec<u8>,
    /// `None` after a hang.
    pub status: Option<ExitStatus>,
}

impl Program {
    /// `runner` is put before the path, split at white space.
    pub fn new(path: &str, runner: &str) -> Self {
        let arguments = runner.split_whitespace().chain([path]);
        Program {
            arguments: arguments.map(String::from).collect(),
        }
    }

    pub fn run(&self, input: &[u8]) -> io::Result<Finished> {
        let deadline = Instant::now() + TIME_LIMIT;
        let mut child = Command::new(&self.arguments[0])
            .args(&self.arguments[1..])
            .stdin(Stdio::piped())
            .stdout(Stdio::piped())
            .stderr(Stdio::piped())
            .spawn()?;
        let mut stdin = child.stdin.take().expect("a pipe was asked for");
        let stdout = child.stdout.take().expect("a pipe was asked for");
        let stderr = child.stderr.take().expect("a pipe was asked for");
        thread::scope(|scope| {
            // The program may stop reading before the end of the input.
            scope.spawn(move || stdin.write_all(input).ok());
            let stderr = scope.spawn(move || read_all(stderr));
            let (sender, receiver) = mpsc::channel();
            scope.spawn(move || sender.send(read_all(stdout)));
            let stdout_in_time = receiver.recv_timeout(TIME_LIMIT).ok();
            let status = wait(&mut child, deadline)?;
            let stdout = stdout_in_time.or_else(|| receiver.recv().ok());
            Ok(Finished {
                stdout: stdout.unwrap_or_default(),
                stderr: stderr.join().unwrap_or_default(),
                status,
            })
        })
    }
}

fn read_all(source: impl Read) -> Vec<u8> {
    let mut bytes = Vec::new();
    // What was read before an error still counts as output.
    let _ = source.take(OUTPUT_LIMIT).read_to_end(&mut bytes);
    bytes
}

/// Waits for the end of a child; one that is not over in time is killed.
fn wait(child: &mut Child, deadline: Instant) -> io::Result<Option<ExitStatus>> {
    loop {
        if let Some(status) = child.try_wait()? {
            return Ok(Some(status));
        }
        if Instant::now() >= deadline {
            child.kill()?;
            child.wait()?;
            return Ok(None);
        }
        thread::sleep(Duration::from_micros(20));
    }
}
