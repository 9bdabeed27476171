//! Compares the two modes with each other and, where they are named, other
//! programs with this library, over generated sessions and forms; and talks
//! with a station program line by line.

use second::gen::{form, session};
use second::other::{run_other, talk, Fault};
use second::program::{run_resave, run_station};
use second::shrink::shrink;
use second::station::Mode;
use second::tally::Tally;
use std::process::ExitCode;
use std::time::{Duration, Instant};

const USAGE: &str = "second_compare [--station PATH] [--resave PATH] [--first SEED] \
[--sessions K] [--lines L] [--forms M] [--talk T]
(--talk needs --station)";

/// A program that runs longer than this on one input is taken to hang.
const PATIENCE: Duration = Duration::from_secs(60);

/// The same while an input is shrunk, which may take thousands of runs.
const SHRINKING_PATIENCE: Duration = Duration::from_secs(2);

/// No longer is an input shrunk; the shortest found by then is shown.
const SHRINKING_TIME: Duration = Duration::from_secs(120);

/// A line of a talk without answer after this time is taken to get none.
const ANSWER_PATIENCE: Duration = Duration::from_secs(5);

/// The sessions of talks are of about so many lines.
const TALK_LINES: usize = 40;

struct Options {
    station: Option<String>,
    resave: Option<String>,
    first: u64,
    sessions: u64,
    lines: usize,
    forms: u64,
    talks: u64,
}

impl Options {
    fn seeds(&self, count: u64) -> std::ops::Range<u64> {
        self.first..self.first.saturating_add(count)
    }
}

fn main() -> ExitCode {
    let Some(options) = options(std::env::args().skip(1)) else {
        eprintln!("{USAGE}");
        return ExitCode::from(2);
    };
    let mut tally = Tally::default();
    let agree = sessions_agree(&options, &mut tally)
        && forms_agree(&options, &mut tally)
        && talks_agree(&options);
    if !agree {
        return ExitCode::FAILURE;
    }
    let Options { sessions, forms, talks, .. } = options;
    let counts = tally.text();
    println!("no difference in {sessions} sessions, {forms} forms and {talks} talks; {counts}");
    ExitCode::SUCCESS
}

fn options(mut arguments: impl Iterator<Item = String>) -> Option<Options> {
    let mut options = Options {
        station: None,
        resave: None,
        first: 1,
        sessions: 0,
        lines: 400,
        forms: 0,
        talks: 0,
    };
    while let Some(name) = arguments.next() {
        let value = arguments.next()?;
        match name.as_str() {
            "--station" => options.station = Some(value),
            "--resave" => options.resave = Some(value),
            "--first" => options.first = value.parse().ok()?,
            "--sessions" => options.sessions = value.parse().ok()?,
            "--lines" => options.lines = value.parse().ok()?,
            "--forms" => options.forms = value.parse().ok()?,
            "--talk" => options.talks = value.parse().ok()?,
            _ => return None,
        }
    }
    (options.talks == 0 || options.station.is_some()).then_some(options)
}

fn sessions_agree(options: &Options, tally: &mut Tally) -> bool {
    let definitions = |input: &[u8]| run_station(input, Mode::Definitions);
    let rows = |input: &[u8]| run_station(input, Mode::Rows);
    for seed in options.seeds(options.sessions) {
        let input = session(seed, options.lines);
        let expected = tally.session(&input, Mode::Definitions);
        if rows(&input) != expected {
            show("session", seed, &input, "mode definitions", &definitions, "mode rows", &rows);
            return false;
        }
        if let Some(path) = &options.station {
            if run_other(path, &input, PATIENCE) != expected {
                let other = |input: &[u8]| run_other(path, input, SHRINKING_PATIENCE);
                show("session", seed, &input, "mode definitions", &definitions, path, &other);
                return false;
            }
        }
    }
    true
}

fn forms_agree(options: &Options, tally: &mut Tally) -> bool {
    for seed in options.seeds(options.forms) {
        let input = form(seed);
        let expected = run_resave(&input);
        tally.form(&expected);
        if same_or_refused(&input) != expected {
            let (run, same) = (&run_resave, &same_or_refused);
            show("form", seed, &input, "this resave", run, "the form itself", same);
            return false;
        }
        if let Some(path) = &options.resave {
            if run_other(path, &input, PATIENCE) != expected {
                let other = |input: &[u8]| run_other(path, input, SHRINKING_PATIENCE);
                show("form", seed, &input, "this resave", &run_resave, path, &other);
                return false;
            }
        }
    }
    true
}

/// What is printed of a form is the form itself, unless it is refused.
fn same_or_refused(input: &[u8]) -> Vec<u8> {
    let printed = run_resave(input);
    if printed.starts_with(b"ff") {
        printed
    } else {
        input.to_vec()
    }
}

/// The other station answers each line before the next one comes.
fn talks_agree(options: &Options) -> bool {
    let Some(path) = &options.station else { return true };
    for seed in options.seeds(options.talks) {
        if let Some(fault) = talk(path, &session(seed, TALK_LINES), ANSWER_PATIENCE) {
            show_fault(seed, &fault, path);
            return false;
        }
    }
    true
}

fn show_fault(seed: u64, fault: &Fault, path: &str) {
    println!("difference in the talk of seed {seed}, session of {TALK_LINES} lines");
    println!("line {} did not get its answer, and only this, ahead of the next:", fault.number);
    print_lines(if fault.line.is_empty() { b"(end of the input)\n" } else { &fault.line });
    println!("output of mode definitions:");
    print_lines(&fault.expected);
    println!("output of {path} within {} s:", ANSWER_PATIENCE.as_secs());
    print_lines(&fault.got);
}

type Run<'a> = &'a dyn Fn(&[u8]) -> Vec<u8>;

/// Prints where a difference is, shrinks the input and prints what differs.
fn show(sort: &str, seed: u64, input: &[u8], name: &str, run: Run, other: &str, other_run: Run) {
    println!("difference in the {sort} of seed {seed}");
    let start = Instant::now();
    let in_time = || start.elapsed() < SHRINKING_TIME;
    let shortest = shrink(input, &mut |input| in_time() && run(input) != other_run(input));
    println!("shortest input found, bytes other than text escaped:");
    print_lines(&shortest);
    println!("output of {name}:");
    print_lines(&run(&shortest));
    println!("output of {other}:");
    print_lines(&other_run(&shortest));
}

fn print_lines(bytes: &[u8]) {
    for line in bytes.split_inclusive(|byte| *byte == b'\n') {
        let text = line.strip_suffix(b"\n").unwrap_or(line);
        let shown = &text[..text.len().min(2000)];
        let cut = if shown.len() < text.len() { " (cut here)" } else { "" };
        let end = if text.len() == line.len() { " (no LF)" } else { "" };
        println!("  {}{cut}{end}", shown.escape_ascii());
    }
}
