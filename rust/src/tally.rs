//! How often each refusal and each result occurred.

use crate::kinds::KINDS;
use crate::lines::{raw_lines, Line};
use crate::program::StationProgram;
use crate::station::Mode;
use std::collections::{BTreeMap, BTreeSet};

#[derive(Clone, Debug, Default)]
pub struct Tally {
    counts: BTreeMap<String, usize>,
    /// Lines of the session at hand that were refused for want of room.
    refused_for_room: BTreeSet<Vec<u8>>,
}

impl Tally {
    fn count(&mut self, what: String) {
        *self.counts.entry(what).or_insert(0) += 1;
    }

    pub fn of(&self, what: &str) -> usize {
        self.counts.get(what).copied().unwrap_or(0)
    }

    /// Goes through one session and gives the station program's whole output.
    pub fn session(&mut self, input: &[u8], mode: Mode) -> Vec<u8> {
        let mut program = StationProgram::new(mode);
        let mut output = Vec::new();
        self.refused_for_room.clear();
        for raw in raw_lines(input) {
            let answer = program.answer(raw);
            self.answer(&program, raw, &answer);
            self.room(raw, &answer);
            output.extend(answer);
        }
        output
    }

    fn answer(&mut self, program: &StationProgram, raw: &[u8], answer: &[u8]) {
        if let Some(number) = refusal_number(answer) {
            return self.count(format!("refusal {number:02}"));
        }
        let line = Line::from_raw(raw);
        let bytes = line.decode().unwrap_or_default();
        let Some(station) = program.station() else { return };
        match line.type_byte() {
            Some(0x10) => self.count("result opening".into()),
            Some(0x20) => self.accepted("frame", station.table().header.kinds[bytes[3] as usize]),
            Some(0x21) => self.accepted("issue", station.table().header.kinds[bytes[1] as usize]),
            Some(0x30) if answer == b"000000\n" => self.count("result settle, no step".into()),
            Some(0x30) => self.count("result settle, some steps".into()),
            Some(0x40) => self.reply(bytes[2], answer),
            _ => self.count("result saved form".into()),
        }
    }

    /// A line refused for want of room and accepted when offered again.
    fn room(&mut self, raw: &[u8], answer: &[u8]) {
        if answer == b"ff08\n" {
            self.refused_for_room.insert(raw.to_vec());
        } else if answer.starts_with(b"00") && self.refused_for_room.remove(raw) {
            let what = if raw.starts_with(b"20") { "frame" } else { "issue" };
            self.count(format!("accepted {what} after refusal 08"));
        }
    }

    fn accepted(&mut self, what: &str, kind: crate::kinds::Kind) {
        self.count(format!("accepted {what} in kind {}", kind.byte()));
    }

    fn reply(&mut self, question: u8, answer: &[u8]) {
        let name = ["total", "flag", "list", "count", "holds"][usize::from(question) - 1];
        let nothing = answer[2..answer.len() - 1].iter().all(|digit| *digit == b'0');
        let sort = if nothing { "zero, no or empty" } else { "other" };
        self.count(format!("result {name}, {sort}"));
    }

    pub fn form(&mut self, output: &[u8]) {
        match refusal_number(output) {
            Some(number) => self.count(format!("form refusal {number:02}")),
            None => self.count("form printed again".into()),
        }
    }

    /// Refusals, results and accepted operations, one after the other.
    pub fn text(&self) -> String {
        let part = |(what, count): (&String, &usize)| format!("{what}: {count}");
        self.counts.iter().map(part).collect::<Vec<_>>().join("; ")
    }

    /// Whether operations of all nine kinds were accepted from others.
    pub fn has_all_kinds(&self) -> bool {
        KINDS.iter().all(|kind| self.of(&format!("accepted frame in kind {}", kind.byte())) > 0)
    }
}

fn refusal_number(answer: &[u8]) -> Option<u8> {
    let digits = answer.strip_prefix(b"ff")?;
    u8::from_str_radix(std::str::from_utf8(digits.get(..2)?).ok()?, 16).ok()
}
