//! The definitions of the nine kinds, evaluated over all accepted operations.

use crate::kinds::{Code, Kind};
use crate::vector::Tag;

/// What an operation does, without its tag.
#[derive(Clone, Debug, PartialEq, Eq)]
pub struct Operation {
    pub object: usize,
    pub code: Code,
    pub value: u32,
}

/// An accepted operation.
#[derive(Clone, Debug, PartialEq, Eq)]
pub struct Accepted {
    pub operation: Operation,
    pub tag: Tag,
}

impl Accepted {
    fn is(&self, code: Code, value: u32) -> bool {
        self.operation.code == code && self.operation.value == value
    }
}

/// The accepted operations of one object.
pub struct History<'a> {
    kind: Kind,
    operations: Vec<&'a Accepted>,
}

impl<'a> History<'a> {
    pub fn of(accepted: &'a [Accepted], object: usize, kind: Kind) -> History<'a> {
        let operations = accepted.iter().filter(|a| a.operation.object == object).collect();
        History { kind, operations }
    }

    /// Kind 1: the sum of amounts. Kind 2: the sum of increases less the sum
    /// of decreases.
    pub fn total(&self) -> i64 {
        let sum = |code: Code| -> i64 {
            let of_code = self.operations.iter().filter(|a| a.operation.code == code);
            of_code.map(|a| i64::from(a.operation.value)).sum()
        };
        sum(Code::Add) - sum(Code::Remove)
    }

    /// Whether the value is in (for a flag, with value 0, whether it is on).
    pub fn holds(&self, value: u32) -> bool {
        match self.kind {
            Kind::GrowCounter | Kind::UpDownCounter => false,
            Kind::GrowSet => self.some(Code::Add, value),
            Kind::TwoPhaseSet => self.some(Code::Add, value) && !self.some(Code::Remove, value),
            Kind::EnableWinsFlag => {
                self.some_add_without_later(value, &|later| later.operation.code == Code::Remove)
            }
            Kind::MultiValueRegister => self.some_add_without_later(value, &|later| {
                matches!(later.operation.code, Code::Add | Code::Clear)
            }),
            Kind::AddWinsSet => self.some_add_without_later(value, &|later| {
                later.is(Code::Remove, value) || later.operation.code == Code::Clear
            }),
            Kind::DisableWinsFlag | Kind::RemoveWinsSet => {
                self.some_stands(Code::Add, value) && !self.some_stands(Code::Remove, value)
            }
        }
    }

    /// The different values that are in, ascending.
    pub fn list(&self) -> Vec<u32> {
        let mut values: Vec<u32> = self.operations.iter().map(|a| a.operation.value).collect();
        values.sort_unstable();
        values.dedup();
        values.retain(|value| self.holds(*value));
        values
    }

    fn some(&self, code: Code, value: u32) -> bool {
        self.operations.iter().any(|a| a.is(code, value))
    }

    /// Some add (write, enable) of the value has no later operation of the
    /// sort that speaks against it.
    fn some_add_without_later(&self, value: u32, against: &dyn Fn(&Accepted) -> bool) -> bool {
        let mut adds = self.operations.iter().filter(|a| a.is(Code::Add, value));
        adds.any(|add| !self.operations.iter().any(|b| against(b) && later(add, b)))
    }

    fn some_stands(&self, code: Code, value: u32) -> bool {
        self.operations.iter().any(|a| a.is(code, value) && self.stands(a))
    }

    /// No operation of the same object on the same value, and no clear of that
    /// object, is later.
    fn stands(&self, a: &Accepted) -> bool {
        let concerns = |b: &Accepted| {
            b.operation.value == a.operation.value || b.operation.code == Code::Clear
        };
        !self.operations.iter().any(|b| concerns(b) && later(a, b))
    }
}

/// "Later" means the first is before the second.
fn later(first: &Accepted, second: &Accepted) -> bool {
    first.tag.vector.before(&second.tag.vector)
}
