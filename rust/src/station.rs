//! One station: the calls on its table, each with its refusals in the order
//! they are tried.

use crate::definitions::{Accepted, History, Operation};
use crate::kinds::{Code, Kind, Question};
use crate::lines::{frame_length, Frame, OpeningLine, Request};
use crate::refusal::Refusal;
use crate::rows;
use crate::rules::{header_in_range, table_rules};
use crate::saved;
use crate::table::{Header, Row, Table};
use crate::vector::{Tag, Vector};

#[derive(Clone, Copy, Debug, PartialEq, Eq)]
pub enum Mode {
    Definitions,
    Rows,
}

#[derive(Clone, Debug)]
pub struct Station {
    mode: Mode,
    table: Table,
    /// All accepted operations, in the order accepted. Empty in mode rows.
    accepted: Vec<Accepted>,
}

#[derive(Clone, Debug, PartialEq, Eq)]
pub enum Reply {
    Total(i64),
    YesNo(bool),
    List(Vec<u32>),
    Count(u16),
}

/// The header of an opening line, or 13.
pub fn header_of(opening: &OpeningLine) -> Result<Header, Refusal> {
    let kinds: Option<Vec<Kind>> = opening.kinds.iter().map(|k| Kind::from_byte(*k)).collect();
    let header = Header {
        n: usize::from(opening.n),
        own: usize::from(opening.own),
        capacity: usize::from(opening.capacity),
        kinds: kinds.ok_or(Refusal::Opening)?,
    };
    if header_in_range(&header) {
        Ok(header)
    } else {
        Err(Refusal::Opening)
    }
}

impl Station {
    /// Opening: 13 (1 is given where the line is read).
    pub fn open(opening: &OpeningLine, mode: Mode) -> Result<Station, Refusal> {
        let table = Table::opened(header_of(opening)?);
        Ok(Station { mode, table, accepted: Vec::new() })
    }

    /// A station on a loaded table. The operations behind its rows are not
    /// known, so it can answer from rows only.
    pub fn from_table(table: Table) -> Station {
        Station { mode: Mode::Rows, table, accepted: Vec::new() }
    }

    pub fn table(&self) -> &Table {
        &self.table
    }

    pub fn accepted(&self) -> &[Accepted] {
        &self.accepted
    }

    /// 14, tried first in every call.
    pub fn check_table(&self) -> Result<(), Refusal> {
        if table_rules(&self.table) {
            Ok(())
        } else {
            Err(Refusal::NoTable)
        }
    }

    /// A frame passes 14, 1 to 7, 8 (1 is given where the line is read).
    pub fn accept(&mut self, frame: &Frame) -> Result<(), Refusal> {
        self.check_table()?;
        let sender = self.sender_of(frame)?;
        let operation = self.operation_of(&frame.request)?;
        let tag = Tag { sender, vector: frame.vector.clone() };
        self.check_not_repeated(&tag)?;
        self.check_not_early(&tag)?;
        self.check_not_falling(&tag)?;
        let rows = self.rows_with(&operation, &tag)?;
        self.table.last[sender] = tag.vector.clone();
        self.take_in(operation, tag, rows);
        Ok(())
    }

    /// A local operation passes 14, 1, 3, 4, 9, 8, 10. Gives the frame for the
    /// other stations.
    pub fn issue(&mut self, request: &Request, frame_space: usize) -> Result<Frame, Refusal> {
        self.check_table()?;
        let operation = self.operation_of(request)?;
        let own = self.table.header.own;
        let vector = self.table.clock.raised(own).ok_or(Refusal::LastNumber)?;
        let tag = Tag { sender: own, vector: vector.clone() };
        let rows = self.rows_with(&operation, &tag)?;
        if frame_space < frame_length(self.table.header.n) {
            return Err(Refusal::Space);
        }
        self.take_in(operation, tag, rows);
        Ok(Frame { sender: own as u8, request: request.clone(), vector })
    }

    /// Takes steps until the limit or until no stable unsettled row is left.
    /// Gives the number of steps.
    pub fn settle(&mut self, limit: u16) -> Result<u16, Refusal> {
        self.check_table()?;
        let mut steps = 0;
        while steps < limit && rows::settling_step(&mut self.table) {
            steps += 1;
        }
        Ok(steps)
    }

    /// A question passes 14, 1, 3, 12, 11.
    pub fn ask(
        &self,
        object: u8,
        question: u8,
        value: u32,
        list_space: usize,
    ) -> Result<Reply, Refusal> {
        self.check_table()?;
        let question = Question::from_fields(question, value).ok_or(Refusal::Shape)?;
        let object = self.declared(object)?;
        if !question.fits(self.table.header.kinds[object]) {
            return Err(Refusal::Misfit);
        }
        self.reply(object, question, list_space)
    }

    /// Saving: the lines of the saved form, as bytes.
    pub fn save(&self) -> Result<Vec<Vec<u8>>, Refusal> {
        self.check_table()?;
        Ok(saved::saved_lines(&self.table))
    }

    // ---- refusals 2 to 8 ----

    fn sender_of(&self, frame: &Frame) -> Result<usize, Refusal> {
        let sender = usize::from(frame.sender);
        if sender < self.table.header.n && sender != self.table.header.own {
            Ok(sender)
        } else {
            Err(Refusal::Sender)
        }
    }

    fn declared(&self, object: u8) -> Result<usize, Refusal> {
        let object = usize::from(object);
        if object < self.table.header.kinds.len() {
            Ok(object)
        } else {
            Err(Refusal::Object)
        }
    }

    /// 3, then 4.
    fn operation_of(&self, request: &Request) -> Result<Operation, Refusal> {
        let object = self.declared(request.object)?;
        let kind = self.table.header.kinds[object];
        let code = Code::from_byte(request.code).ok_or(Refusal::Operation)?;
        if kind.has_code(code) && kind.allows_value(code, request.value) {
            Ok(Operation { object, code, value: request.value })
        } else {
            Err(Refusal::Operation)
        }
    }

    fn check_not_repeated(&self, tag: &Tag) -> Result<(), Refusal> {
        if tag.number() > self.table.clock.entry(tag.sender) {
            Ok(())
        } else {
            Err(Refusal::Repeated)
        }
    }

    /// Number at most D[sender] + 1, every other entry at most D.
    fn check_not_early(&self, tag: &Tag) -> Result<(), Refusal> {
        // Past 5 the number is above D[sender], so D[sender] is not at its top.
        let next = self.table.clock.raised(tag.sender).ok_or(Refusal::Early)?;
        if tag.vector.at_or_below(&next) {
            Ok(())
        } else {
            Err(Refusal::Early)
        }
    }

    fn check_not_falling(&self, tag: &Tag) -> Result<(), Refusal> {
        if self.table.last[tag.sender].at_or_below(&tag.vector) {
            Ok(())
        } else {
            Err(Refusal::Falling)
        }
    }

    /// The rows after the arrival, or 8.
    fn rows_with(&self, operation: &Operation, tag: &Tag) -> Result<Vec<Row>, Refusal> {
        let rows = rows::rows_after_arrival(&self.table, operation, tag);
        if rows.len() <= self.table.header.capacity {
            Ok(rows)
        } else {
            Err(Refusal::Capacity)
        }
    }

    // ---- after acceptance ----

    fn take_in(&mut self, operation: Operation, tag: Tag, rows: Vec<Row>) {
        let kind = self.table.header.kinds[operation.object];
        self.table.totals[operation.object] += rows::total_change(kind, &operation);
        self.table.rows = rows;
        advance(&mut self.table.clock, &tag);
        if self.mode == Mode::Definitions {
            self.accepted.push(Accepted { operation, tag });
        }
    }

    // ---- answers ----

    fn reply(&self, object: usize, question: Question, space: usize) -> Result<Reply, Refusal> {
        Ok(match question {
            Question::Total => Reply::Total(self.total(object)),
            Question::Flag => Reply::YesNo(self.holds(object, 0)),
            Question::Holds(value) => Reply::YesNo(self.holds(object, value)),
            // There are never more values in than rows, and never more than
            // 512 rows, so the count fits.
            Question::Count => Reply::Count(self.list(object).len() as u16),
            Question::List => {
                let list = self.list(object);
                if list.len() > space {
                    return Err(Refusal::ListSpace { needed: list.len() });
                }
                Reply::List(list)
            }
        })
    }

    fn history(&self, object: usize) -> History<'_> {
        History::of(&self.accepted, object, self.table.header.kinds[object])
    }

    fn total(&self, object: usize) -> i64 {
        match self.mode {
            Mode::Definitions => self.history(object).total(),
            Mode::Rows => self.table.totals[object],
        }
    }

    fn holds(&self, object: usize, value: u32) -> bool {
        match self.mode {
            Mode::Definitions => self.history(object).holds(value),
            Mode::Rows => rows::holds(&self.table, object, value),
        }
    }

    fn list(&self, object: usize) -> Vec<u32> {
        match self.mode {
            Mode::Definitions => self.history(object).list(),
            Mode::Rows => rows::list(&self.table, object),
        }
    }
}

/// The clock lent is advanced where it stands: the sender's entry only.
fn advance(clock: &mut Vector, tag: &Tag) {
    clock.0[tag.sender] = tag.number();
}
