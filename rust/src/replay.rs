//! Many sessions and forms in one input. A line that begins with `--` starts
//! the next: a form where the third character is `f`, else a session. It is
//! put out as it stands, ahead of what its session or form gets.

use crate::gen::{form, session};
use crate::lines::raw_lines;
use crate::program::run_resave;
use crate::station::Mode;
use crate::tally::Tally;

/// No line of a generated part is longer: the file is to be read by people.
const LONGEST_LINE: usize = 1200;

/// One session or form, with the line that starts it.
struct Part<'a> {
    title: &'a [u8],
    input: Vec<u8>,
}

impl Part<'_> {
    fn is_form(&self) -> bool {
        self.title.get(2) == Some(&b'f')
    }
}

fn is_title(line: &[u8]) -> bool {
    line.starts_with(b"--")
}

/// What comes ahead of the first title is a session without one.
fn parts(input: &[u8]) -> Vec<Part<'_>> {
    let mut parts = vec![Part { title: b"", input: Vec::new() }];
    for line in raw_lines(input) {
        if is_title(line) {
            parts.push(Part { title: line, input: Vec::new() });
        } else if let Some(part) = parts.last_mut() {
            part.input.extend(line);
        }
    }
    parts
}

/// The whole output, and how often each refusal and result occurred in it.
pub fn run_replay(input: &[u8]) -> (Vec<u8>, Tally) {
    let mut tally = Tally::default();
    let mut output = Vec::new();
    for part in parts(input) {
        output.extend(part.title);
        if part.is_form() {
            let printed = run_resave(&part.input);
            tally.form(&printed);
            output.extend(printed);
        } else {
            output.extend(tally.session(&part.input, Mode::Definitions));
        }
    }
    (output, tally)
}

/// A generated part can stand in such an input if it ends with LF, has no
/// title in it, and no line that nobody would read.
fn can_stand(input: &[u8]) -> bool {
    let lines = raw_lines(input);
    input.ends_with(b"\n") && lines.iter().all(|line| !is_title(line) && line.len() <= LONGEST_LINE)
}

pub fn sessions(first: u64, count: u64, lines: usize) -> Vec<u8> {
    titled("station", first, count, |seed| session(seed, lines))
}

pub fn forms(first: u64, count: u64) -> Vec<u8> {
    titled("form", first, count, form)
}

fn titled(sort: &str, first: u64, count: u64, make: impl Fn(u64) -> Vec<u8>) -> Vec<u8> {
    let mut output = Vec::new();
    for seed in first..first.saturating_add(count) {
        let input = make(seed);
        if can_stand(&input) {
            output.extend(format!("--{sort} of seed {seed}\n").into_bytes());
            output.extend(input);
        }
    }
    output
}
