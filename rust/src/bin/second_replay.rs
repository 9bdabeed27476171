//! What the programs put out for many sessions and forms in one input; or such
//! an input, from seeds.

use second::replay::{forms, run_replay, sessions};
use std::io::{self, Read, Write};
use std::process::ExitCode;

const USAGE: &str = "second_replay < INPUT
second_replay tally < INPUT
second_replay sessions FIRST COUNT LINES
second_replay forms FIRST COUNT";

fn main() -> io::Result<ExitCode> {
    let arguments: Vec<String> = std::env::args().skip(1).collect();
    let words: Vec<&str> = arguments.iter().map(String::as_str).collect();
    let Some(output) = output(&words)? else {
        eprintln!("{USAGE}");
        return Ok(ExitCode::from(2));
    };
    let mut out = io::stdout().lock();
    out.write_all(&output)?;
    out.flush()?;
    Ok(ExitCode::SUCCESS)
}

fn output(words: &[&str]) -> io::Result<Option<Vec<u8>>> {
    let numbers: Vec<u64> = words.iter().skip(1).filter_map(|word| word.parse().ok()).collect();
    Ok(match (words, numbers.as_slice()) {
        ([], _) => Some(run_replay(&input()?).0),
        (["tally"], _) => Some(format!("{}\n", run_replay(&input()?).1.text()).into_bytes()),
        (["sessions", _, _, _], [first, count, lines]) => {
            Some(sessions(*first, *count, *lines as usize))
        }
        (["forms", _, _], [first, count]) => Some(forms(*first, *count)),
        _ => None,
    })
}

fn input() -> io::Result<Vec<u8>> {
    let mut input = Vec::new();
    io::stdin().lock().read_to_end(&mut input)?;
    Ok(input)
}
