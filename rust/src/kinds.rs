//! The nine kinds of object, their codes and what fits them.

#[derive(Clone, Copy, Debug, PartialEq, Eq)]
pub enum Kind {
    GrowCounter,
    UpDownCounter,
    GrowSet,
    TwoPhaseSet,
    EnableWinsFlag,
    DisableWinsFlag,
    MultiValueRegister,
    AddWinsSet,
    RemoveWinsSet,
}

pub const KINDS: [Kind; 9] = [
    Kind::GrowCounter,
    Kind::UpDownCounter,
    Kind::GrowSet,
    Kind::TwoPhaseSet,
    Kind::EnableWinsFlag,
    Kind::DisableWinsFlag,
    Kind::MultiValueRegister,
    Kind::AddWinsSet,
    Kind::RemoveWinsSet,
];

/// The least code stands for add, write, enable and increase; the next for
/// remove, disable and decrease; the last for clear.
#[derive(Clone, Copy, Debug, PartialEq, Eq, PartialOrd, Ord)]
pub enum Code {
    Add,
    Remove,
    Clear,
}

pub const LARGEST_AMOUNT: u32 = 1_000_000;

impl Code {
    pub fn from_byte(byte: u8) -> Option<Code> {
        match byte {
            1 => Some(Code::Add),
            2 => Some(Code::Remove),
            3 => Some(Code::Clear),
            _ => None,
        }
    }

    pub fn byte(self) -> u8 {
        match self {
            Code::Add => 1,
            Code::Remove => 2,
            Code::Clear => 3,
        }
    }
}

impl Kind {
    pub fn from_byte(byte: u8) -> Option<Kind> {
        let place = usize::from(byte).checked_sub(1)?;
        KINDS.get(place).copied()
    }

    pub fn byte(self) -> u8 {
        match self {
            Kind::GrowCounter => 1,
            Kind::UpDownCounter => 2,
            Kind::GrowSet => 3,
            Kind::TwoPhaseSet => 4,
            Kind::EnableWinsFlag => 5,
            Kind::DisableWinsFlag => 6,
            Kind::MultiValueRegister => 7,
            Kind::AddWinsSet => 8,
            Kind::RemoveWinsSet => 9,
        }
    }

    pub fn is_counter(self) -> bool {
        matches!(self, Kind::GrowCounter | Kind::UpDownCounter)
    }

    pub fn is_flag(self) -> bool {
        matches!(self, Kind::EnableWinsFlag | Kind::DisableWinsFlag)
    }

    /// Kinds 3, 4, 7, 8 and 9: those with values that are in or not.
    pub fn has_values(self) -> bool {
        !self.is_counter() && !self.is_flag()
    }

    /// The codes column of the table of kinds.
    pub fn has_code(self, code: Code) -> bool {
        match code {
            Code::Add => true,
            Code::Remove => matches!(
                self,
                Kind::UpDownCounter
                    | Kind::TwoPhaseSet
                    | Kind::EnableWinsFlag
                    | Kind::DisableWinsFlag
                    | Kind::AddWinsSet
                    | Kind::RemoveWinsSet
            ),
            Code::Clear => {
                matches!(self, Kind::MultiValueRegister | Kind::AddWinsSet | Kind::RemoveWinsSet)
            }
        }
    }

    /// Amounts are 1 to 1,000,000; flags and clears carry value 0; any other
    /// value goes.
    pub fn allows_value(self, code: Code, value: u32) -> bool {
        if self.is_counter() {
            (1..=LARGEST_AMOUNT).contains(&value)
        } else if self.is_flag() || code == Code::Clear {
            value == 0
        } else {
            true
        }
    }

    /// Codes that a row of this kind may carry: those whose arrival gets a row.
    pub fn stores_code(self, code: Code) -> bool {
        match self {
            Kind::GrowCounter | Kind::UpDownCounter => false,
            Kind::GrowSet | Kind::EnableWinsFlag | Kind::MultiValueRegister | Kind::AddWinsSet => {
                code == Code::Add
            }
            Kind::TwoPhaseSet | Kind::DisableWinsFlag | Kind::RemoveWinsSet => {
                code == Code::Add || code == Code::Remove
            }
        }
    }

    /// Kinds 3 and 4 hold settled rows only.
    pub fn stores_unsettled(self) -> bool {
        !matches!(self, Kind::GrowSet | Kind::TwoPhaseSet)
    }

    /// Kinds 4, 6 and 9: a remove row speaks against the value.
    pub fn remove_row_bars(self) -> bool {
        matches!(self, Kind::TwoPhaseSet | Kind::DisableWinsFlag | Kind::RemoveWinsSet)
    }
}

#[derive(Clone, Copy, Debug, PartialEq, Eq)]
pub enum Question {
    Total,
    Flag,
    List,
    Count,
    Holds(u32),
}

impl Question {
    /// `None` for an unknown question, or a value given to a question that
    /// takes none.
    pub fn from_fields(question: u8, value: u32) -> Option<Question> {
        match (question, value) {
            (1, 0) => Some(Question::Total),
            (2, 0) => Some(Question::Flag),
            (3, 0) => Some(Question::List),
            (4, 0) => Some(Question::Count),
            (5, _) => Some(Question::Holds(value)),
            _ => None,
        }
    }

    pub fn fits(self, kind: Kind) -> bool {
        match self {
            Question::Total => kind.is_counter(),
            Question::Flag => kind.is_flag(),
            Question::List | Question::Count | Question::Holds(_) => kind.has_values(),
        }
    }
}
