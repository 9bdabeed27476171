//! The saved form: written and read a line at a time.

use crate::kinds::Code;
use crate::lines::{expect_type, push_vector, read_opening, Line, Reader};
use crate::refusal::Refusal;
use crate::rules::{last_vector_rule, row_rules, rows_within_capacity, table_rules, total_rule};
use crate::station::header_of;
use crate::table::{Header, Row, Table};
use crate::vector::{Tag, Vector};

// ---- writing ----

/// The lines of the saved form, as bytes, in order.
pub fn saved_lines(table: &Table) -> Vec<Vec<u8>> {
    let mut lines = vec![opening_line(&table.header), clock_line(&table.clock)];
    lines.extend(table.header.others().map(|k| last_line(k, &table.last[k])));
    lines.extend(table.header.counters().map(|object| total_line(object, table.totals[object])));
    lines.extend(table.rows.iter().map(|row| row_line(row, table.header.n)));
    lines.push(closing_line(table.rows.len()));
    lines
}

pub fn opening_line(header: &Header) -> Vec<u8> {
    let mut bytes = vec![0x10, header.n as u8, header.own as u8];
    bytes.extend((header.capacity as u16).to_be_bytes());
    bytes.push(header.kinds.len() as u8);
    bytes.extend(header.kinds.iter().map(|kind| kind.byte()));
    bytes
}

fn clock_line(clock: &Vector) -> Vec<u8> {
    let mut bytes = vec![0x50];
    push_vector(&mut bytes, clock);
    bytes
}

fn last_line(k: usize, last: &Vector) -> Vec<u8> {
    let mut bytes = vec![0x51, k as u8];
    push_vector(&mut bytes, last);
    bytes
}

fn total_line(object: usize, total: i64) -> Vec<u8> {
    let mut bytes = vec![0x52, object as u8];
    bytes.extend(total.to_be_bytes());
    bytes
}

/// A settled row has sender and vector 0.
fn row_line(row: &Row, n: usize) -> Vec<u8> {
    let no_tag = Tag { sender: 0, vector: Vector::zero(n) };
    let tag = row.tag.as_ref().unwrap_or(&no_tag);
    let settled = u8::from(row.is_settled());
    let mut bytes = vec![0x53, row.object as u8, row.code.byte(), settled, tag.sender as u8];
    bytes.extend(row.value.to_be_bytes());
    push_vector(&mut bytes, &tag.vector);
    bytes
}

fn closing_line(count: usize) -> Vec<u8> {
    let mut bytes = vec![0x5f];
    bytes.extend((count as u16).to_be_bytes());
    bytes
}

// ---- reading ----

/// Which line has to come next.
#[derive(Clone, Debug)]
enum Awaited {
    Clock,
    Last(usize),
    Total(usize),
    RowOrClosing,
    /// The closing line has come: the space holds a table now.
    Nothing,
}

/// A load under way. It is no table until its closing line.
#[derive(Clone, Debug)]
pub struct Load {
    table: Table,
    awaited: Awaited,
}

impl Load {
    /// A load begins with its opening line, which gets 1 or 13 if it is wrong.
    pub fn begin(opening: Line) -> Result<Load, Refusal> {
        let header = header_of(&read_opening(&opening.decode()?)?)?;
        Ok(Load { table: Table::opened(header), awaited: Awaited::Clock })
    }

    /// The next line of the form. In a load every wrong line gets 15.
    pub fn line(&mut self, line: Line) -> Result<(), Refusal> {
        self.judged(line).map_err(|_| Refusal::Saved)
    }

    /// The loaded table. 15 if the form ended before its closing line.
    pub fn finish(self) -> Result<Table, Refusal> {
        match self.awaited {
            Awaited::Nothing => Ok(self.table),
            _ => Err(Refusal::Saved),
        }
    }

    fn judged(&mut self, line: Line) -> Result<(), Refusal> {
        let bytes = line.decode()?;
        match self.awaited {
            Awaited::Clock => self.clock(&bytes),
            Awaited::Last(k) => self.last(k, &bytes),
            Awaited::Total(object) => self.total(object, &bytes),
            Awaited::RowOrClosing if line.type_byte() == Some(0x5f) => self.closing(&bytes),
            Awaited::RowOrClosing => self.row(&bytes),
            Awaited::Nothing => Err(Refusal::Saved),
        }
    }

    fn clock(&mut self, bytes: &[u8]) -> Result<(), Refusal> {
        let mut reader = Reader::new(bytes);
        expect_type(&mut reader, 0x50)?;
        self.table.clock = reader.vector(self.table.header.n)?;
        reader.end()?;
        self.awaited = self.after_last(None);
        Ok(())
    }

    fn last(&mut self, k: usize, bytes: &[u8]) -> Result<(), Refusal> {
        let mut reader = Reader::new(bytes);
        expect_type(&mut reader, 0x51)?;
        expect(usize::from(reader.byte()?) == k)?;
        self.table.last[k] = reader.vector(self.table.header.n)?;
        reader.end()?;
        expect(last_vector_rule(&self.table, k))?;
        self.awaited = self.after_last(Some(k));
        Ok(())
    }

    fn total(&mut self, object: usize, bytes: &[u8]) -> Result<(), Refusal> {
        let mut reader = Reader::new(bytes);
        expect_type(&mut reader, 0x52)?;
        expect(usize::from(reader.byte()?) == object)?;
        self.table.totals[object] = reader.eight_signed()?;
        reader.end()?;
        expect(total_rule(&self.table, object))?;
        self.awaited = self.after_total(Some(object));
        Ok(())
    }

    fn row(&mut self, bytes: &[u8]) -> Result<(), Refusal> {
        let row = read_row(bytes, self.table.header.n)?;
        self.table.rows.push(row);
        expect(rows_within_capacity(&self.table))?;
        expect(row_rules(&self.table, self.table.rows.len() - 1))
    }

    fn closing(&mut self, bytes: &[u8]) -> Result<(), Refusal> {
        let mut reader = Reader::new(bytes);
        expect_type(&mut reader, 0x5f)?;
        let count = usize::from(reader.two()?);
        reader.end()?;
        expect(count == self.table.rows.len())?;
        // Each line has been judged; taken together they are judged once more.
        expect(table_rules(&self.table))?;
        self.awaited = Awaited::Nothing;
        Ok(())
    }

    /// What is awaited after L of this station, or after D.
    fn after_last(&self, done: Option<usize>) -> Awaited {
        let mut others = self.table.header.others();
        let next = others.find(|k| done.is_none_or(|done| *k > done));
        next.map_or_else(|| self.after_total(None), Awaited::Last)
    }

    /// What is awaited after the total of this object, or after the last L.
    fn after_total(&self, done: Option<usize>) -> Awaited {
        let mut counters = self.table.header.counters();
        let next = counters.find(|object| done.is_none_or(|done| *object > done));
        next.map_or(Awaited::RowOrClosing, Awaited::Total)
    }
}

fn expect(holds: bool) -> Result<(), Refusal> {
    if holds {
        Ok(())
    } else {
        Err(Refusal::Saved)
    }
}

fn read_row(bytes: &[u8], n: usize) -> Result<Row, Refusal> {
    let mut reader = Reader::new(bytes);
    expect_type(&mut reader, 0x53)?;
    let object = usize::from(reader.byte()?);
    let code = Code::from_byte(reader.byte()?).ok_or(Refusal::Saved)?;
    let settled = reader.byte()?;
    let sender = usize::from(reader.byte()?);
    let value = reader.four()?;
    let vector = reader.vector(n)?;
    reader.end()?;
    let tag = tag_of(settled, Tag { sender, vector })?;
    Ok(Row { object, value, code, tag })
}

/// A settled row has sender and vector 0; an unsettled one has a sender of the
/// group (judged here, as the row's number cannot be found without it).
fn tag_of(settled: u8, tag: Tag) -> Result<Option<Tag>, Refusal> {
    let n = tag.vector.0.len();
    match settled {
        1 => expect(tag.sender == 0 && tag.vector == Vector::zero(n)).map(|()| None),
        0 => expect(tag.sender < n).map(|()| Some(tag)),
        _ => Err(Refusal::Saved),
    }
}
