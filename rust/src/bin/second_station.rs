//! The station program: lines in, answers out. `--rows` answers from rows.

use second::program::StationProgram;
use second::station::Mode;
use std::io::{self, BufRead, BufReader, Write};

fn main() -> io::Result<()> {
    let rows = std::env::args().skip(1).any(|argument| argument == "--rows");
    let mut program = StationProgram::new(if rows { Mode::Rows } else { Mode::Definitions });
    let mut input = BufReader::new(io::stdin().lock());
    let mut output = io::stdout().lock();
    let mut raw = Vec::new();
    while input.read_until(b'\n', &mut raw)? > 0 {
        output.write_all(&program.answer(&raw))?;
        raw.clear();
    }
    output.flush()
}
