//! The table: header, clock, last vectors, totals and rows.

use crate::kinds::{Code, Kind};
use crate::vector::{Tag, Vector};

pub const MOST_STATIONS: usize = 16;
pub const MOST_OBJECTS: usize = 32;
pub const MOST_ROWS: usize = 512;

/// What is fixed at opening.
#[derive(Clone, Debug, PartialEq, Eq)]
pub struct Header {
    pub n: usize,
    pub own: usize,
    pub capacity: usize,
    pub kinds: Vec<Kind>,
}

impl Header {
    /// The stations other than the own one, ascending.
    pub fn others(&self) -> impl Iterator<Item = usize> + '_ {
        (0..self.n).filter(move |station| *station != self.own)
    }

    /// The objects that are counters, ascending.
    pub fn counters(&self) -> impl Iterator<Item = usize> + '_ {
        (0..self.kinds.len()).filter(move |object| self.kinds[*object].is_counter())
    }
}

/// A row: object, value, code, and its tag (unsettled) or none (settled).
#[derive(Clone, Debug, PartialEq, Eq)]
pub struct Row {
    pub object: usize,
    pub value: u32,
    pub code: Code,
    pub tag: Option<Tag>,
}

impl Row {
    pub fn is_settled(&self) -> bool {
        self.tag.is_none()
    }

    pub fn is_of(&self, object: usize, value: u32) -> bool {
        self.object == object && self.value == value
    }

    /// The order of rows: object, value, code, settled before unsettled,
    /// sender, number. A settled row has sender and number 0.
    pub fn key(&self) -> (usize, u32, Code, bool, usize, u32) {
        let sender = self.tag.as_ref().map_or(0, |tag| tag.sender);
        let number = self.tag.as_ref().map_or(0, |tag| tag.number());
        (self.object, self.value, self.code, !self.is_settled(), sender, number)
    }
}

#[derive(Clone, Debug, PartialEq, Eq)]
pub struct Table {
    pub header: Header,
    /// D: for each sender, the last number accepted.
    pub clock: Vector,
    /// L: for each other station, the vector of the last frame accepted from
    /// it. The own one stays 0.
    pub last: Vec<Vector>,
    /// One for each object; 0 and unused where the object is no counter.
    pub totals: Vec<i64>,
    pub rows: Vec<Row>,
}

impl Table {
    pub fn opened(header: Header) -> Table {
        Table {
            clock: Vector::zero(header.n),
            last: vec![Vector::zero(header.n); header.n],
            totals: vec![0; header.kinds.len()],
            rows: Vec::new(),
            header,
        }
    }

    /// Low: entry by entry the least of L[k] over the other stations.
    /// With N = 1 there is no other station, and Low is D.
    pub fn low(&self) -> Vector {
        self.header
            .others()
            .map(|k| self.last[k].clone())
            .reduce(|low, last| low.least(&last))
            .unwrap_or_else(|| self.clock.clone())
    }

    /// 1,000,000 times the sum of D.
    pub fn total_bound(&self) -> i64 {
        self.clock.sum() * 1_000_000
    }

    pub fn unsettled_count(&self) -> usize {
        self.rows.iter().filter(|row| !row.is_settled()).count()
    }
}

/// Puts a row at its place in row order.
pub fn insert_row(rows: &mut Vec<Row>, row: Row) {
    let place = rows.iter().take_while(|other| other.key() < row.key()).count();
    rows.insert(place, row);
}
