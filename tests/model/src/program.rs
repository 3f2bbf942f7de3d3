//! Runs a program from outside: the input on its standard input, the answer from
//! its standard output.

use std::io::{self, Read, Write};
use std::process::{Child, Command, ExitStatus, Stdio};
use std::sync::mpsc;
use std::thread;
use std::time::{Duration, Instant};

/// Far longer than any session or run of calls takes, under an emulator too.
const LIMIT: Duration = Duration::from_secs(20);
/// More output than any right answer has.
const MOST_OUTPUT: u64 = 64 << 20;

/// The words of a command, and the time that it may take.
pub struct Program {
    pub words: Vec<String>,
    pub limit: Duration,
}

impl Program {
    /// The command behind `--` among this program's arguments.
    pub fn of_arguments() -> Result<Program, String> {
        let words: Vec<String> = std::env::args()
            .skip_while(|word| word != "--")
            .skip(1)
            .collect();
        if words.is_empty() {
            return Err("usage: -- PROGRAM ARGUMENT..".to_string());
        }
        let limit = LIMIT;
        Ok(Program { words, limit })
    }

    /// The whole output for `input`, or why there is none that counts.
    pub fn answer(&self, input: &[u8]) -> Result<Vec<u8>, String> {
        let mut child = Command::new(&self.words[0])
            .args(&self.words[1..])
            .stdin(Stdio::piped())
            .stdout(Stdio::piped())
            .stderr(Stdio::null())
            .spawn()
            .map_err(|error| format!("{} does not start: {error}", self.words[0]))?;
        let (status, output) =
            exchange(&mut child, input, self.limit).map_err(|error| error.to_string())?;
        match status {
            None => Err(format!("it took over {:?} and was ended", self.limit)),
            Some(status) if !status.success() => Err(format!("it ended with {status}")),
            Some(_) => Ok(output),
        }
    }
}

/// Writes and reads at the same time, since a pipe holds a small part only. The
/// status is that of `end`.
fn exchange(
    child: &mut Child,
    input: &[u8],
    limit: Duration,
) -> io::Result<(Option<ExitStatus>, Vec<u8>)> {
    let until = Instant::now() + limit;
    let mut stdin = child.stdin.take().expect("piped");
    let stdout = child.stdout.take().expect("piped");
    let (sender, receiver) = mpsc::channel();
    thread::scope(|scope| {
        // A program may leave input unread, so a pipe that it closed is no fault.
        scope.spawn(move || stdin.write_all(input));
        scope.spawn(move || {
            let mut output = Vec::new();
            let read = stdout.take(MOST_OUTPUT).read_to_end(&mut output);
            // Nobody waits for it any more where the time is over.
            let _ = sender.send(read.map(|_| output));
        });
        let output = receiver.recv_timeout(limit).unwrap_or(Ok(Vec::new()));
        Ok((end(child, until)?, output?))
    })
}

/// The status that the program ended with; none where it had to be ended.
fn end(child: &mut Child, until: Instant) -> io::Result<Option<ExitStatus>> {
    while Instant::now() < until {
        if let Some(status) = child.try_wait()? {
            return Ok(Some(status));
        }
        thread::sleep(Duration::from_micros(50));
    }
    child.kill()?;
    child.wait()?;
    Ok(None)
}
