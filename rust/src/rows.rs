//! Rows: arriving, settling, and the answers that rows give.

use crate::definitions::Operation;
use crate::kinds::{Code, Kind};
use crate::table::{insert_row, Row, Table};
use crate::vector::{Tag, Vector};

// ---- arrival ----

/// The rows after the arrival of this operation. The table itself stays, as
/// the arrival may still be refused for want of room.
pub fn rows_after_arrival(table: &Table, operation: &Operation, tag: &Tag) -> Vec<Row> {
    match table.header.kinds[operation.object] {
        Kind::GrowCounter | Kind::UpDownCounter => table.rows.clone(),
        Kind::GrowSet => grow_set_arrival(&table.rows, operation),
        Kind::TwoPhaseSet => two_phase_arrival(&table.rows, operation),
        kind => tagged_arrival(&table.rows, kind, operation, tag),
    }
}

/// Kind 3 keeps one settled row per value.
fn grow_set_arrival(rows: &[Row], operation: &Operation) -> Vec<Row> {
    let mut left = rows.to_vec();
    if !left.iter().any(|row| row.is_of(operation.object, operation.value)) {
        insert_row(&mut left, row_of(operation, None));
    }
    left
}

/// Kind 4 keeps one settled add row, or one settled remove row that bars the
/// value for ever: an add changes nothing where any row of the value is; a
/// remove takes the place of whatever row is there.
fn two_phase_arrival(rows: &[Row], operation: &Operation) -> Vec<Row> {
    let there = |row: &Row| row.is_of(operation.object, operation.value);
    if operation.code == Code::Add && rows.iter().any(there) {
        return rows.to_vec();
    }
    let mut left: Vec<Row> = rows.iter().filter(|row| !there(row)).cloned().collect();
    insert_row(&mut left, row_of(operation, None));
    left
}

/// Kinds 5 to 9: rows that the arrival makes void go, then it may get a row.
fn tagged_arrival(rows: &[Row], kind: Kind, operation: &Operation, tag: &Tag) -> Vec<Row> {
    let goes = |row: &Row| concerns(kind, operation, row) && row_is_before(row, &tag.vector);
    let mut left: Vec<Row> = rows.iter().filter(|row| !goes(row)).cloned().collect();
    if gets_row(kind, operation.code) {
        insert_row(&mut left, row_of(operation, Some(tag.clone())));
    }
    left
}

/// Rows that go if they are before the arrival: for a clear and in kind 7 all
/// rows of the object, else those of the same value.
fn concerns(kind: Kind, operation: &Operation, row: &Row) -> bool {
    let whole_object = operation.code == Code::Clear || kind == Kind::MultiValueRegister;
    row.object == operation.object && (whole_object || row.value == operation.value)
}

/// A settled row is before every later arrival.
fn row_is_before(row: &Row, arrival: &Vector) -> bool {
    row.tag.as_ref().is_none_or(|tag| tag.vector.before(arrival))
}

/// A clear gets no row in any kind, a remove or disable none in kinds 5 and 8.
fn gets_row(kind: Kind, code: Code) -> bool {
    match code {
        Code::Add => true,
        Code::Remove => !matches!(kind, Kind::EnableWinsFlag | Kind::AddWinsSet),
        Code::Clear => false,
    }
}

fn row_of(operation: &Operation, tag: Option<Tag>) -> Row {
    Row { object: operation.object, value: operation.value, code: operation.code, tag }
}

/// The totals' part of an arrival: kinds 1 and 2 change the total only.
pub fn total_change(kind: Kind, operation: &Operation) -> i64 {
    match (kind.is_counter(), operation.code) {
        (true, Code::Add) => i64::from(operation.value),
        (true, Code::Remove) => -i64::from(operation.value),
        _ => 0,
    }
}

// ---- settling ----

/// Takes one settling step: the first unsettled row, in row order, that is
/// stable. False when there is none.
pub fn settling_step(table: &mut Table) -> bool {
    let low = table.low();
    let Some(place) = table.rows.iter().position(|row| is_stable_unsettled(row, &low)) else {
        return false;
    };
    let row = table.rows.remove(place);
    match table.header.kinds[row.object] {
        Kind::DisableWinsFlag | Kind::RemoveWinsSet => settle_in_6_and_9(&mut table.rows, row),
        _ => settle_in_5_7_and_8(&mut table.rows, row),
    }
    true
}

/// Stable: the whole vector at or below Low.
fn is_stable_unsettled(row: &Row, low: &Vector) -> bool {
    row.tag.as_ref().is_some_and(|tag| tag.vector.at_or_below(low))
}

/// `row` has been taken out of `rows`, so what is left are "the others".
fn settle_in_5_7_and_8(rows: &mut Vec<Row>, row: Row) {
    if !rows.iter().any(|other| other.is_of(row.object, row.value)) {
        become_settled(rows, row);
    }
}

fn settle_in_6_and_9(rows: &mut Vec<Row>, row: Row) {
    match row.code {
        Code::Add => settle_add(rows, row),
        _ => settle_remove(rows, row),
    }
}

/// An add is dropped if another row of that value exists, else it becomes
/// settled; and if it was the only add of that value, a settled remove of
/// that value is dropped as well.
fn settle_add(rows: &mut Vec<Row>, row: Row) {
    let others = codes_of_value(rows, &row);
    if !others.contains(&Code::Add) {
        let settled_remove = |other: &Row| {
            other.is_of(row.object, row.value) && other.code == Code::Remove && other.is_settled()
        };
        rows.retain(|other| !settled_remove(other));
    }
    if others.is_empty() {
        become_settled(rows, row);
    }
}

/// A remove becomes settled if the other rows of that value are one or more
/// adds and nothing else; otherwise it is dropped.
fn settle_remove(rows: &mut Vec<Row>, row: Row) {
    let others = codes_of_value(rows, &row);
    if !others.is_empty() && others.iter().all(|code| *code == Code::Add) {
        become_settled(rows, row);
    }
}

fn codes_of_value(rows: &[Row], row: &Row) -> Vec<Code> {
    let same = rows.iter().filter(|other| other.is_of(row.object, row.value));
    same.map(|other| other.code).collect()
}

fn become_settled(rows: &mut Vec<Row>, row: Row) {
    insert_row(rows, Row { tag: None, ..row });
}

// ---- answers from rows ----

/// In (or on) if an add row is there and, in kinds 4, 6 and 9, no remove row
/// of that value.
pub fn holds(table: &Table, object: usize, value: u32) -> bool {
    let kind = table.header.kinds[object];
    let has =
        |code: Code| table.rows.iter().any(|row| row.is_of(object, value) && row.code == code);
    has(Code::Add) && !(kind.remove_row_bars() && has(Code::Remove))
}

/// The different values that are in, ascending.
pub fn list(table: &Table, object: usize) -> Vec<u32> {
    let of_object = table.rows.iter().filter(|row| row.object == object);
    let mut values: Vec<u32> = of_object.map(|row| row.value).collect();
    values.sort_unstable();
    values.dedup();
    values.retain(|value| holds(table, object, *value));
    values
}
