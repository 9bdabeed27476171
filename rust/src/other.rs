//! Another program at work: its whole output for one input, or a talk with it
//! line by line.

use crate::lines::raw_lines;
use crate::program::StationProgram;
use crate::station::Mode;
use std::io::{self, Read, Write};
use std::process::{Child, ChildStdin, ChildStdout, Command, Stdio};
use std::sync::mpsc::{channel, Receiver, Sender};
use std::time::{Duration, Instant};

/// The output of another program. What ends it badly is put after its output,
/// so that it shows as a difference. A plain exit number is not judged: the
/// paper says nothing about it, save that 101 is what a panic leaves.
pub fn run_other(path: &str, input: &[u8], patience: Duration) -> Vec<u8> {
    let run = || {
        let other = Other::start(path)?;
        other.put_in(input);
        other.rest(patience)
    };
    run().unwrap_or_else(could_not_run)
}

fn could_not_run(error: io::Error) -> Vec<u8> {
    format!("(could not run: {error})\n").into_bytes()
}

/// A line that did not get its answer, and only this, before the next one was
/// there. The end of the input is such a line, empty and without answer.
#[derive(Clone, Debug)]
pub struct Fault {
    pub number: usize,
    pub line: Vec<u8>,
    pub expected: Vec<u8>,
    pub got: Vec<u8>,
}

/// Gives a station program one line of the session after the other, each when
/// the answer to the last has come; gives the first fault.
pub fn talk(path: &str, session: &[u8], patience: Duration) -> Option<Fault> {
    let mut other = match Other::start(path) {
        Ok(other) => other,
        Err(error) => return fault(1, b"", Vec::new(), could_not_run(error)),
    };
    let mut program = StationProgram::new(Mode::Definitions);
    let lines = raw_lines(session);
    for (place, line) in lines.iter().enumerate() {
        let expected = program.answer(line);
        let got = other.answer(line, expected.len(), patience);
        if got != expected {
            other.stop();
            return fault(place + 1, line, expected, got);
        }
    }
    let rest = other.rest(patience).unwrap_or_else(could_not_run);
    if rest.is_empty() {
        None
    } else {
        fault(lines.len() + 1, b"", Vec::new(), rest)
    }
}

fn fault(number: usize, line: &[u8], expected: Vec<u8>, got: Vec<u8>) -> Option<Fault> {
    Some(Fault { number, line: line.to_vec(), expected, got })
}

/// A program that was started. Threads of their own write to it and read from
/// it, so that neither a full pipe nor a silent program holds the caller up.
struct Other {
    child: Child,
    input: Option<Sender<Vec<u8>>>,
    output: Receiver<Vec<u8>>,
}

impl Other {
    fn start(path: &str) -> io::Result<Other> {
        let mut child = Command::new(path)
            .stdin(Stdio::piped())
            .stdout(Stdio::piped())
            .stderr(Stdio::null())
            .spawn()?;
        let (input, to_write) = channel();
        let (was_read, output) = channel();
        if let Some(pipe) = child.stdin.take() {
            std::thread::spawn(move || write_all(pipe, &to_write));
        }
        if let Some(pipe) = child.stdout.take() {
            std::thread::spawn(move || read_all(pipe, &was_read));
        }
        Ok(Other { child, input: Some(input), output })
    }

    /// A program that reads no more gets no more; its output shows it.
    fn put_in(&self, bytes: &[u8]) {
        if let Some(input) = &self.input {
            input.send(bytes.to_vec()).unwrap_or_default();
        }
    }

    /// What the program puts out for a line: as many bytes as are wanted, or
    /// what came in time. Behind a line without LF the input is at its end.
    fn answer(&mut self, line: &[u8], wanted: usize, patience: Duration) -> Vec<u8> {
        self.put_in(line);
        if !line.ends_with(b"\n") {
            self.input = None;
        }
        self.read(wanted, Instant::now() + patience)
    }

    fn read(&self, wanted: usize, until: Instant) -> Vec<u8> {
        let mut output = Vec::new();
        while output.len() < wanted {
            let left = until.saturating_duration_since(Instant::now());
            match self.output.recv_timeout(left) {
                Ok(part) => output.extend(part),
                Err(_) => break,
            }
        }
        output
    }

    /// Ends the input; gives the rest of the output and words for a bad end.
    fn rest(mut self, patience: Duration) -> io::Result<Vec<u8>> {
        let until = Instant::now() + patience;
        self.input = None;
        let mut output = self.read(usize::MAX, until);
        output.extend(self.end(until)?.as_bytes());
        Ok(output)
    }

    /// Waits for the end; gives words for a bad one.
    fn end(&mut self, until: Instant) -> io::Result<&'static str> {
        let mut pause = Duration::from_micros(100);
        loop {
            if let Some(status) = self.child.try_wait()? {
                return Ok(match status.code() {
                    None => "(ended by a signal)\n",
                    Some(101) => "(ended by a panic)\n",
                    Some(_) => "",
                });
            }
            if Instant::now() > until {
                self.child.kill()?;
                self.child.wait()?;
                return Ok("(did not end)\n");
            }
            std::thread::sleep(pause);
            pause = (pause * 2).min(Duration::from_millis(5));
        }
    }

    /// Ends a program of which nothing more is wanted, however it ends.
    fn stop(mut self) {
        self.end(Instant::now()).unwrap_or_default();
    }
}

fn write_all(mut pipe: ChildStdin, to_write: &Receiver<Vec<u8>>) {
    for bytes in to_write {
        // A program may stop reading early; a broken pipe is no fault here.
        if pipe.write_all(&bytes).is_err() {
            return;
        }
    }
}

fn read_all(mut pipe: ChildStdout, was_read: &Sender<Vec<u8>>) {
    let mut space = vec![0; 1 << 16];
    while let Ok(length) = pipe.read(&mut space) {
        if length == 0 || was_read.send(space[..length].to_vec()).is_err() {
            return;
        }
    }
}
