//! Vectors, tags and their order.

/// A vector of N unsigned 32-bit entries, one for each station of the group.
#[derive(Clone, Debug, PartialEq, Eq)]
pub struct Vector(pub Vec<u32>);

impl Vector {
    pub fn zero(n: usize) -> Vector {
        Vector(vec![0; n])
    }

    pub fn entry(&self, station: usize) -> u32 {
        self.0[station]
    }

    /// Entry by entry at most the other.
    pub fn at_or_below(&self, other: &Vector) -> bool {
        self.0.iter().zip(&other.0).all(|(a, b)| a <= b)
    }

    /// Every entry at most the other's and the vectors differ. The whole
    /// vector is compared, never the sender's entry alone: frames may skip
    /// entries, so a sender's entry does not tell what the sender knew.
    pub fn before(&self, other: &Vector) -> bool {
        self.at_or_below(other) && self != other
    }

    pub fn concurrent(&self, other: &Vector) -> bool {
        self != other && !self.before(other) && !other.before(self)
    }

    /// Entry by entry the least of both.
    pub fn least(&self, other: &Vector) -> Vector {
        Vector(self.0.iter().zip(&other.0).map(|(a, b)| *a.min(b)).collect())
    }

    /// Entry by entry the greatest of both.
    pub fn greatest(&self, other: &Vector) -> Vector {
        Vector(self.0.iter().zip(&other.0).map(|(a, b)| *a.max(b)).collect())
    }

    /// This vector with the entry of one station one higher.
    /// `None` when that entry is at its top.
    pub fn raised(&self, station: usize) -> Option<Vector> {
        let mut raised = self.clone();
        raised.0[station] = raised.0[station].checked_add(1)?;
        Some(raised)
    }

    pub fn sum(&self) -> i64 {
        self.0.iter().map(|entry| i64::from(*entry)).sum()
    }
}

/// An operation's tag: its sender and its vector.
#[derive(Clone, Debug, PartialEq, Eq)]
pub struct Tag {
    pub sender: usize,
    pub vector: Vector,
}

impl Tag {
    /// The operation's number: the vector's entry at its sender.
    pub fn number(&self) -> u32 {
        self.vector.entry(self.sender)
    }
}
