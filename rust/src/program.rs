//! The two programs, without their standard input and output.

use crate::lines::{
    encode, frame_length, raw_lines, read_frame, read_issue, read_opening, read_question,
    read_settle, write_frame, Line,
};
use crate::refusal::Refusal;
use crate::saved::{saved_lines, Load};
use crate::station::{Mode, Reply, Station};
use crate::table::{Table, MOST_ROWS, MOST_STATIONS};

/// The station program.
#[derive(Clone, Debug)]
pub struct StationProgram {
    mode: Mode,
    station: Option<Station>,
}

enum Outcome {
    /// An answer line: `00` and these bytes.
    Result(Vec<u8>),
    /// Saved lines only.
    Lines(Vec<Vec<u8>>),
}

impl StationProgram {
    pub fn new(mode: Mode) -> StationProgram {
        StationProgram { mode, station: None }
    }

    /// A program whose opening has been accepted already, or a load's end.
    pub fn with_station(station: Station) -> StationProgram {
        StationProgram { mode: Mode::Rows, station: Some(station) }
    }

    pub fn station(&self) -> Option<&Station> {
        self.station.as_ref()
    }

    /// The output for one line of input, with its LF if it has one.
    pub fn answer(&mut self, raw: &[u8]) -> Vec<u8> {
        match self.outcome(Line::from_raw(raw)) {
            Ok(Outcome::Result(result)) => answer_line(0x00, &result),
            Ok(Outcome::Lines(lines)) => text_of(&lines),
            Err(refusal) => refusal_line(refusal),
        }
    }

    fn outcome(&mut self, line: Line) -> Result<Outcome, Refusal> {
        if line.type_byte() == Some(0x10) {
            return self.open(line);
        }
        let station = self.station.as_mut().ok_or(Refusal::NoTable)?;
        station.check_table()?;
        let bytes = line.decode()?;
        match line.type_byte() {
            Some(0x20) => accept(station, &bytes),
            Some(0x21) => issue(station, &bytes),
            Some(0x30) => settle(station, &bytes),
            Some(0x40) => ask(station, &bytes),
            Some(0x60) if bytes.len() == 1 => station.save().map(Outcome::Lines),
            _ => Err(Refusal::Shape),
        }
    }

    /// Opening passes 1, 13; a second opening gets 13.
    fn open(&mut self, line: Line) -> Result<Outcome, Refusal> {
        let opening = read_opening(&line.decode()?)?;
        if self.station.is_some() {
            return Err(Refusal::Opening);
        }
        self.station = Some(Station::open(&opening, self.mode)?);
        Ok(Outcome::Result(Vec::new()))
    }
}

fn accept(station: &mut Station, bytes: &[u8]) -> Result<Outcome, Refusal> {
    let frame = read_frame(bytes, station.table().header.n)?;
    station.accept(&frame)?;
    Ok(Outcome::Result(Vec::new()))
}

fn issue(station: &mut Station, bytes: &[u8]) -> Result<Outcome, Refusal> {
    let frame = station.issue(&read_issue(bytes)?, frame_length(MOST_STATIONS))?;
    Ok(Outcome::Result(write_frame(&frame)))
}

fn settle(station: &mut Station, bytes: &[u8]) -> Result<Outcome, Refusal> {
    let steps = station.settle(read_settle(bytes)?)?;
    Ok(Outcome::Result(steps.to_be_bytes().to_vec()))
}

/// The list space holds as many values as a table has rows, so 11 does not
/// occur here.
fn ask(station: &Station, bytes: &[u8]) -> Result<Outcome, Refusal> {
    let (object, question, value) = read_question(bytes)?;
    let reply = station.ask(object, question, value, MOST_ROWS)?;
    Ok(Outcome::Result(reply_bytes(&reply)))
}

fn reply_bytes(reply: &Reply) -> Vec<u8> {
    match reply {
        Reply::Total(total) => total.to_be_bytes().to_vec(),
        Reply::YesNo(yes) => vec![u8::from(*yes)],
        Reply::Count(count) => count.to_be_bytes().to_vec(),
        Reply::List(values) => {
            let mut bytes = (values.len() as u16).to_be_bytes().to_vec();
            bytes.extend(values.iter().flat_map(|value| value.to_be_bytes()));
            bytes
        }
    }
}

fn answer_line(first: u8, rest: &[u8]) -> Vec<u8> {
    let mut bytes = vec![first];
    bytes.extend(rest);
    text_of(&[bytes])
}

fn refusal_line(refusal: Refusal) -> Vec<u8> {
    answer_line(0xff, &[refusal.number()])
}

fn text_of(lines: &[Vec<u8>]) -> Vec<u8> {
    let mut text = Vec::new();
    for line in lines {
        text.extend(encode(line));
        text.push(b'\n');
    }
    text
}

/// A whole session of the station program.
pub fn run_station(input: &[u8], mode: Mode) -> Vec<u8> {
    let mut program = StationProgram::new(mode);
    raw_lines(input).into_iter().flat_map(|raw| program.answer(raw)).collect()
}

/// The second program: one saved form in, the same form or one `ff` line out.
pub fn run_resave(input: &[u8]) -> Vec<u8> {
    match load_form(input) {
        Ok(table) => text_of(&saved_lines(&table)),
        Err(refusal) => refusal_line(refusal),
    }
}

/// Loads a form, each line judged as it comes.
pub fn load_form(input: &[u8]) -> Result<Table, Refusal> {
    let mut lines = raw_lines(input).into_iter().map(Line::from_raw);
    let opening = lines.next().ok_or(Refusal::Saved)?;
    if is_saved_line(&opening) {
        return Err(Refusal::Saved);
    }
    let mut load = Load::begin(opening)?;
    for line in lines {
        load.line(line)?;
    }
    load.finish()
}

/// A line of type `50` to `5f`; before any load is under way it gets 15.
fn is_saved_line(line: &Line) -> bool {
    line.type_byte().is_some_and(|byte| (0x50..=0x5f).contains(&byte))
}
