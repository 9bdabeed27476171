//! The refusal numbers.

#[derive(Clone, Copy, Debug, PartialEq, Eq)]
pub enum Refusal {
    /// 1: wrong length or type, another N, not a proper line, unknown question,
    /// a value given to a question that takes none.
    Shape,
    /// 2: sender not in the group, or own station.
    Sender,
    /// 3: object not declared.
    Object,
    /// 4: code, value or amount not allowed for the kind.
    Operation,
    /// 5: number at most D[sender].
    Repeated,
    /// 6: too early.
    Early,
    /// 7: some entry below L[sender].
    Falling,
    /// 8: too many rows after the arrival.
    Capacity,
    /// 9: the own number is at its top.
    LastNumber,
    /// 10: frame space or line space too short.
    Space,
    /// 11: list space too short; the needed count is returned.
    ListSpace { needed: usize },
    /// 12: question not fitted to the kind.
    Misfit,
    /// 13: opening out of range, or a second opening.
    Opening,
    /// 14: no table.
    NoTable,
    /// 15: a wrong line, count or end in a load.
    Saved,
}

impl Refusal {
    pub fn number(self) -> u8 {
        match self {
            Refusal::Shape => 1,
            Refusal::Sender => 2,
            Refusal::Object => 3,
            Refusal::Operation => 4,
            Refusal::Repeated => 5,
            Refusal::Early => 6,
            Refusal::Falling => 7,
            Refusal::Capacity => 8,
            Refusal::LastNumber => 9,
            Refusal::Space => 10,
            Refusal::ListSpace { .. } => 11,
            Refusal::Misfit => 12,
            Refusal::Opening => 13,
            Refusal::NoTable => 14,
            Refusal::Saved => 15,
        }
    }
}
