//! The generator of saved forms, sound or damaged.

use crate::gen::table_of_session;
use crate::kinds::{Code, Kind};
use crate::lines::encode;
use crate::material::{opening_out_of_range, opening_out_of_shape, random_header, spoiled_text};
use crate::rng::Rng;
use crate::saved::{opening_line, saved_lines};
use crate::table::{insert_row, Header, Row, Table};
use crate::vector::{Tag, Vector};

/// One saved form: of a simulated station or of a made-up table, in most
/// cases damaged in one way.
pub fn form(seed: u64) -> Vec<u8> {
    let mut rng = Rng::new(seed ^ 0xf0f0_0000_0000);
    let table = if rng.percent(40) {
        let lines = rng.within(1, 150);
        table_of_session(seed, lines).unwrap_or_else(|| made_up_table(&mut rng))
    } else {
        made_up_table(&mut rng)
    };
    if rng.percent(22) {
        text_of_bytes(&saved_lines(&table))
    } else {
        damaged(&table, &mut rng)
    }
}

fn text_of_bytes(lines: &[Vec<u8>]) -> Vec<u8> {
    join(&lines.iter().map(|line| encode(line)).collect::<Vec<_>>())
}

fn join(texts: &[Vec<u8>]) -> Vec<u8> {
    let mut form = Vec::new();
    for text in texts {
        form.extend(text);
        form.push(b'\n');
    }
    form
}

// ---- a made-up table that keeps the table rules ----

/// Also such tables as no history reaches: the rules alone decide.
fn made_up_table(rng: &mut Rng) -> Table {
    let mut table = Table::opened(random_header(rng));
    table.clock = made_up_clock(table.header.n, rng);
    make_up_last_vectors(&mut table, rng);
    make_up_totals(&mut table, rng);
    make_up_rows(&mut table, rng);
    table
}

fn made_up_clock(n: usize, rng: &mut Rng) -> Vector {
    let entry = |rng: &mut Rng| {
        let any = rng.number() as u32;
        let small = rng.below(6) as u32;
        rng.pick(&[0, 1, small, small, small, small, any, u32::MAX])
    };
    Vector((0..n).map(|_| entry(rng)).collect())
}

/// An entry from 0 to `most`, often one of the ends.
fn up_to(most: u32, rng: &mut Rng) -> u32 {
    let any = rng.below(most as usize + 1) as u32;
    rng.pick(&[0, most, most, any])
}

fn vector_at_or_below(clock: &Vector, rng: &mut Rng) -> Vector {
    Vector(clock.0.iter().map(|entry| up_to(*entry, rng)).collect())
}

fn make_up_last_vectors(table: &mut Table, rng: &mut Rng) {
    for k in table.header.others().collect::<Vec<_>>() {
        table.last[k] = vector_at_or_below(&table.clock, rng);
        table.last[k].0[k] = table.clock.entry(k);
    }
}

fn make_up_totals(table: &mut Table, rng: &mut Rng) {
    let bound = table.total_bound();
    for object in table.header.counters().collect::<Vec<_>>() {
        let some = (rng.number() % (bound as u64 + 1)) as i64;
        let total = rng.pick(&[0, bound, some]);
        let negative = table.header.kinds[object] == Kind::UpDownCounter && rng.percent(50);
        table.totals[object] = if negative { -total } else { total };
    }
}

fn make_up_rows(table: &mut Table, rng: &mut Rng) {
    let most = if rng.percent(5) { 512 } else { 25 };
    let wished = rng.below(table.header.capacity.min(most) + 1);
    for _ in 0..wished {
        if let Some(row) = made_up_row(table, rng) {
            if has_place(table, &row) {
                insert_row(&mut table.rows, row);
            }
        }
    }
}

fn has_place(table: &Table, row: &Row) -> bool {
    let one_a_value = table.header.kinds[row.object] == Kind::TwoPhaseSet;
    !table.rows.iter().any(|other| {
        other.key() == row.key() || (one_a_value && other.is_of(row.object, row.value))
    })
}

fn made_up_row(table: &Table, rng: &mut Rng) -> Option<Row> {
    let object = rng.below(table.header.kinds.len());
    let kind = table.header.kinds[object];
    let code = rng.pick(&[Code::Add, Code::Add, Code::Remove]);
    if !kind.stores_code(code) {
        return None;
    }
    let any = rng.number() as u32;
    let value = if kind.is_flag() { 0 } else { rng.pick(&[0, 1, 7, 9, 256, u32::MAX, any]) };
    let tag = if !kind.stores_unsettled() || rng.percent(35) {
        None
    } else {
        Some(made_up_tag(table, rng)?)
    };
    Some(Row { object, value, code, tag })
}

fn made_up_tag(table: &Table, rng: &mut Rng) -> Option<Tag> {
    let sender = rng.below(table.header.n);
    let most = table.clock.entry(sender);
    if most == 0 {
        return None;
    }
    let mut vector = vector_at_or_below(&table.clock, rng);
    vector.0[sender] = up_to(most, rng).max(1);
    Some(Tag { sender, vector })
}

// ---- damage ----

/// Damage to the table that the form then shows, to one field of one line, or
/// to the lines as text.
fn damaged(table: &Table, rng: &mut Rng) -> Vec<u8> {
    match rng.below(10) {
        0..=3 => text_of_bytes(&saved_lines(&damaged_table(table.clone(), rng))),
        4..=6 => changed_field(table, rng),
        _ => damaged_text(table, rng),
    }
}

/// Breaks one table rule (where the table has what is needed for it).
fn damaged_table(mut table: Table, rng: &mut Rng) -> Table {
    match rng.below(15) {
        0 => swap_rows(&mut table, rng),
        1 => spoil_row_vector(&mut table, rng),
        2 => number_zero(&mut table, rng),
        3 => total_out_of_bound(&mut table, rng),
        4 => last_above_clock(&mut table, rng),
        5 => last_not_at_clock(&mut table, rng),
        6 => add_row(&mut table, rng, &|kind| kind.is_flag(), Code::Add, 1),
        7 => add_row(&mut table, rng, &|kind| kind.is_counter(), Code::Add, 1),
        8 => add_row(&mut table, rng, &|kind| !kind.stores_code(Code::Remove), Code::Remove, 7),
        9 => add_row(&mut table, rng, &|kind| !kind.is_flag(), Code::Clear, 0),
        10 => double_value_in_two_phase(&mut table, rng),
        11 => unsettled_in_settled_kind(&mut table, rng),
        12 => table.header.capacity = table.rows.len().saturating_sub(1).max(1),
        13 => same_number_twice(&mut table, rng),
        _ => lower_clock(&mut table, rng),
    }
    table
}

fn swap_rows(table: &mut Table, rng: &mut Rng) {
    if table.rows.len() >= 2 {
        let place = rng.below(table.rows.len() - 1);
        table.rows.swap(place, place + 1);
    }
}

/// The tag of some unsettled row. Where none is, none is changed.
fn some_tag<'a>(table: &'a mut Table, rng: &mut Rng) -> Option<&'a mut Tag> {
    let count = table.unsettled_count();
    let place = rng.below(count);
    table.rows.iter_mut().filter_map(|row| row.tag.as_mut()).nth(place)
}

fn spoil_row_vector(table: &mut Table, rng: &mut Rng) {
    let station = rng.below(table.header.n);
    let above = table.clock.entry(station).saturating_add(1);
    if let Some(tag) = some_tag(table, rng) {
        tag.vector.0[station] = above;
    }
}

fn number_zero(table: &mut Table, rng: &mut Rng) {
    if let Some(tag) = some_tag(table, rng) {
        tag.vector.0[tag.sender] = 0;
    }
}

fn total_out_of_bound(table: &mut Table, rng: &mut Rng) {
    let counters: Vec<usize> = table.header.counters().collect();
    if !counters.is_empty() {
        let bound = table.total_bound();
        let object = rng.pick(&counters);
        table.totals[object] = rng.pick(&[bound + 1, -bound - 1, -1, i64::MAX, i64::MIN, -bound]);
    }
}

fn some_other(table: &Table, rng: &mut Rng) -> Option<usize> {
    let others: Vec<usize> = table.header.others().collect();
    (!others.is_empty()).then(|| rng.pick(&others))
}

fn last_above_clock(table: &mut Table, rng: &mut Rng) {
    if let Some(k) = some_other(table, rng) {
        let station = rng.below(table.header.n);
        table.last[k].0[station] = table.clock.entry(station).saturating_add(1);
    }
}

fn last_not_at_clock(table: &mut Table, rng: &mut Rng) {
    if let Some(k) = some_other(table, rng) {
        let lower = table.clock.entry(k).saturating_sub(1);
        table.last[k].0[k] = rng.pick(&[lower, 0]);
    }
}

/// Adds a row to an object of such a kind, settled or not.
fn add_row(table: &mut Table, rng: &mut Rng, fits: &dyn Fn(Kind) -> bool, code: Code, value: u32) {
    let objects = objects_of(&table.header, fits);
    if !objects.is_empty() && table.rows.len() < table.header.capacity {
        let tag = if rng.percent(50) { None } else { made_up_tag(table, rng) };
        let object = rng.pick(&objects);
        insert_row(&mut table.rows, Row { object, value, code, tag });
    }
}

fn objects_of(header: &Header, fits: &dyn Fn(Kind) -> bool) -> Vec<usize> {
    (0..header.kinds.len()).filter(|object| fits(header.kinds[*object])).collect()
}

fn double_value_in_two_phase(table: &mut Table, rng: &mut Rng) {
    let objects = objects_of(&table.header, &|kind| kind == Kind::TwoPhaseSet);
    if !objects.is_empty() {
        let object = rng.pick(&objects);
        table.rows.retain(|row| !row.is_of(object, 7));
        table.header.capacity = table.header.capacity.max(table.rows.len() + 2).min(512);
        for code in [Code::Add, Code::Remove] {
            insert_row(&mut table.rows, Row { object, value: 7, code, tag: None });
        }
    }
}

fn unsettled_in_settled_kind(table: &mut Table, rng: &mut Rng) {
    let objects = objects_of(&table.header, &|kind| !kind.stores_unsettled());
    if let (Some(tag), false) = (made_up_tag(table, rng), objects.is_empty()) {
        let object = rng.pick(&objects);
        table.rows.retain(|row| !row.is_of(object, 7));
        insert_row(&mut table.rows, Row { object, value: 7, code: Code::Add, tag: Some(tag) });
        table.header.capacity = table.header.capacity.max(table.rows.len()).min(512);
    }
}

/// A row doubled with another vector but the same sender and number: not in
/// strict order, though the lines differ.
fn same_number_twice(table: &mut Table, rng: &mut Rng) {
    let unsettled: Vec<Row> = table.rows.iter().filter(|row| !row.is_settled()).cloned().collect();
    if unsettled.is_empty() || table.rows.len() >= table.header.capacity {
        return;
    }
    let mut row = rng.pick(&unsettled);
    if let Some(tag) = row.tag.as_mut() {
        let number = tag.number();
        tag.vector = vector_at_or_below(&table.clock, rng);
        tag.vector.0[tag.sender] = number;
    }
    insert_row(&mut table.rows, row);
}

fn lower_clock(table: &mut Table, rng: &mut Rng) {
    let station = rng.below(table.header.n);
    table.clock.0[station] = table.clock.entry(station).saturating_sub(1);
}

// ---- one changed field ----

/// The lengths of the fields of a saved line.
fn field_lengths(line: &[u8], n: usize) -> Vec<usize> {
    let mut lengths = match line[0] {
        0x10 => vec![1, 1, 1, 2, 1],
        0x50 => vec![1],
        0x51 => vec![1, 1],
        0x52 => vec![1, 1, 8],
        0x53 => vec![1, 1, 1, 1, 1, 4],
        _ => vec![1, 2],
    };
    match line[0] {
        0x10 => lengths.extend(vec![1; line.len() - 6]),
        0x50 | 0x51 | 0x53 => lengths.extend(vec![4; n]),
        _ => {}
    }
    lengths
}

fn changed_field(table: &Table, rng: &mut Rng) -> Vec<u8> {
    let mut lines = saved_lines(table);
    let place = line_of_some_type(&lines, rng);
    let lengths = field_lengths(&lines[place], table.header.n);
    let field = rng.below(lengths.len());
    let start: usize = lengths[..field].iter().sum();
    change(&mut lines[place][start..start + lengths[field]], rng);
    text_of_bytes(&lines)
}

/// Each type of line as often as the others, however many lines it has.
fn line_of_some_type(lines: &[Vec<u8>], rng: &mut Rng) -> usize {
    let mut types: Vec<u8> = lines.iter().map(|line| line[0]).collect();
    types.dedup();
    let wanted = rng.pick(&types);
    let places: Vec<usize> = (0..lines.len()).filter(|p| lines[*p][0] == wanted).collect();
    rng.pick(&places)
}

/// One more, one less, all 0, all ff, or any.
fn change(field: &mut [u8], rng: &mut Rng) {
    let end = field.len() - 1;
    match rng.below(6) {
        0 => field[end] = field[end].wrapping_add(1),
        1 => field[end] = field[end].wrapping_sub(1),
        2 => field.fill(0),
        3 => field.fill(0xff),
        4 => field[0] ^= 0x80,
        _ => field.iter_mut().for_each(|byte| *byte = rng.below(12) as u8),
    }
}

// ---- damage to the text ----

fn damaged_text(table: &Table, rng: &mut Rng) -> Vec<u8> {
    let lines = saved_lines(table);
    let mut texts: Vec<Vec<u8>> = lines.iter().map(|line| encode(line)).collect();
    let place = rng.below(texts.len());
    match rng.below(24) {
        0 => texts.swap(place, rng.below(place + 1)),
        1 => texts.swap(place, place.saturating_sub(1)),
        2 => texts.insert(place, texts[place].clone()),
        3 => drop(texts.remove(place)),
        4 => texts.truncate(place),
        5 => drop(texts.pop()),
        6 | 7 => texts[place] = spoiled_text(texts[place].clone(), rng),
        8 => texts.insert(place, some_line(table, rng)),
        9 => texts.push(some_line(table, rng)),
        10 => texts.insert(place, encode(&opening_line(&table.header))),
        11 => texts[0] = encode(&opening_out_of_range(opening_line(&table.header), rng)),
        12 => texts[0] = opening_out_of_shape(opening_line(&table.header), rng),
        13 => drop(texts.remove(0)),
        14 => texts[0] = some_line(table, rng),
        15 => texts.extend(texts.clone()),
        16 => return cut(join(&texts), rng),
        17 => return without_end(join(&texts), rng),
        18 => return one_byte_changed(join(&texts), rng),
        19..=21 => return a_byte_more_or_less(lines, rng),
        22 => texts[0] = line_of_no_saved_type(rng),
        _ => return odd_input(join(&texts), rng),
    }
    join(&texts)
}

/// At the end of a line of some type.
fn a_byte_more_or_less(mut lines: Vec<Vec<u8>>, rng: &mut Rng) -> Vec<u8> {
    let place = line_of_some_type(&lines, rng);
    if rng.percent(50) {
        lines[place].push(rng.pick(&[0, 1, 0xff]));
    } else {
        lines[place].pop();
    }
    text_of_bytes(&lines)
}

/// Of a type between those of the rows and of the closing line.
fn line_of_no_saved_type(rng: &mut Rng) -> Vec<u8> {
    let mut bytes = vec![rng.within(0x54, 0x5e) as u8];
    bytes.extend(vec![0; rng.below(4)]);
    encode(&bytes)
}

/// A line of another sort, or one that belongs elsewhere.
fn some_line(table: &Table, rng: &mut Rng) -> Vec<u8> {
    let own_last = {
        let mut bytes = vec![0x51, table.header.own as u8];
        bytes.extend(vec![0; 4 * table.header.n]);
        encode(&bytes)
    };
    let total_of_any = {
        let mut bytes = vec![0x52, rng.below(table.header.kinds.len() + 1) as u8];
        bytes.extend([0; 8]);
        encode(&bytes)
    };
    let choices: [&[u8]; 14] = [
        b"",
        b"60",
        b"5f0000",
        b"5f",
        b"54",
        b"5a00",
        b"00",
        b"ff0f",
        b"3000ff",
        b"21000100000007",
        b"40000300000000",
        b"#",
        &own_last,
        &total_of_any,
    ];
    rng.pick(&choices).to_vec()
}

fn cut(mut form: Vec<u8>, rng: &mut Rng) -> Vec<u8> {
    form.truncate(rng.below(form.len()));
    form
}

fn without_end(mut form: Vec<u8>, rng: &mut Rng) -> Vec<u8> {
    match rng.below(3) {
        0 => form.extend(b"60"),
        1 => form.push(b' '),
        _ => drop(form.pop()),
    }
    form
}

fn one_byte_changed(mut form: Vec<u8>, rng: &mut Rng) -> Vec<u8> {
    let place = rng.below(form.len());
    form[place] = rng.pick(b"0123456789abcdefF \n\r\0\xff");
    form
}

fn odd_input(form: Vec<u8>, rng: &mut Rng) -> Vec<u8> {
    match rng.below(5) {
        0 => Vec::new(),
        1 => b"\n".to_vec(),
        2 => (0..rng.below(300)).map(|_| rng.below(256) as u8).collect(),
        3 => form.iter().flat_map(|byte| [*byte].repeat(1 + usize::from(*byte == b'\n'))).collect(),
        _ => String::from_utf8_lossy(&form).replace('\n', "\r\n").into_bytes(),
    }
}
