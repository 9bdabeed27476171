//! The table rules, one by one. Loading judges each line by the same rules.

use crate::kinds::Kind;
use crate::table::{Header, Row, Table, MOST_OBJECTS, MOST_ROWS, MOST_STATIONS};

/// Whether this is a table by the table rules.
///
/// Kept by the types here and so not listed: the kinds are 1 to 9; there are
/// no entries beyond N and no rows beyond the row count that could be other
/// than 0; a settled row has no tag.
pub fn table_rules(table: &Table) -> bool {
    header_in_range(&table.header)
        && sizes_are_the_headers(table)
        && table.header.others().all(|k| last_vector_rule(table, k))
        && own_last_vector_is_zero(table)
        && (0..table.totals.len()).all(|object| total_rule(table, object))
        && rows_within_capacity(table)
        && (0..table.rows.len()).all(|place| row_rules(table, place))
}

/// Opening's ranges.
pub fn header_in_range(header: &Header) -> bool {
    (1..=MOST_STATIONS).contains(&header.n)
        && header.own < header.n
        && (1..=MOST_ROWS).contains(&header.capacity)
        && (1..=MOST_OBJECTS).contains(&header.kinds.len())
}

fn sizes_are_the_headers(table: &Table) -> bool {
    let n = table.header.n;
    table.clock.0.len() == n
        && table.last.len() == n
        && table.last.iter().all(|last| last.0.len() == n)
        && table.totals.len() == table.header.kinds.len()
        && table.rows.iter().all(|row| row.tag.as_ref().is_none_or(|tag| tag.vector.0.len() == n))
}

/// L[k] at or below D, with L[k][k] = D[k].
pub fn last_vector_rule(table: &Table, k: usize) -> bool {
    table.last[k].at_or_below(&table.clock) && table.last[k].entry(k) == table.clock.entry(k)
}

fn own_last_vector_is_zero(table: &Table) -> bool {
    table.last[table.header.own].0.iter().all(|entry| *entry == 0)
}

/// Within 1,000,000 times the sum of D on either side of zero, and not
/// negative in kind 1. An object that is no counter has no total.
pub fn total_rule(table: &Table, object: usize) -> bool {
    let bound = table.total_bound();
    let least = match table.header.kinds[object] {
        Kind::GrowCounter => 0,
        Kind::UpDownCounter => -bound,
        _ => return table.totals[object] == 0,
    };
    (least..=bound).contains(&table.totals[object])
}

pub fn rows_within_capacity(table: &Table) -> bool {
    table.rows.len() <= table.header.capacity
}

/// The rules for the row at this place, its neighbour before it included.
pub fn row_rules(table: &Table, place: usize) -> bool {
    let row = &table.rows[place];
    object_declared(table, row)
        && code_storable(table, row)
        && value_of_flag_is_zero(table, row)
        && tag_rule(table, row)
        && (place == 0 || follows(table, &table.rows[place - 1], row))
}

fn object_declared(table: &Table, row: &Row) -> bool {
    row.object < table.header.kinds.len()
}

fn code_storable(table: &Table, row: &Row) -> bool {
    let kind = table.header.kinds[row.object];
    kind.stores_code(row.code) && (row.is_settled() || kind.stores_unsettled())
}

fn value_of_flag_is_zero(table: &Table, row: &Row) -> bool {
    !table.header.kinds[row.object].is_flag() || row.value == 0
}

/// An unsettled row's sender in the group, its vector at or below D and its
/// number at least 1.
fn tag_rule(table: &Table, row: &Row) -> bool {
    match &row.tag {
        None => true,
        Some(tag) => {
            tag.sender < table.header.n && tag.vector.at_or_below(&table.clock) && tag.number() >= 1
        }
    }
}

/// Strict order, and in kind 4 one row a value.
fn follows(table: &Table, earlier: &Row, row: &Row) -> bool {
    let doubled =
        table.header.kinds[row.object] == Kind::TwoPhaseSet && earlier.is_of(row.object, row.value);
    earlier.key() < row.key() && !doubled
}
