//! Shrinking an input as long as a difference remains.

use crate::lines::{encode, raw_lines, read_frame, write_frame, Line};
use crate::program::StationProgram;
use crate::station::Mode;
use crate::vector::Tag;

/// At most so many inputs are tried: each try may start a program.
const MOST_TRIES: usize = 4000;

/// Lines longer than this are cut where the difference remains: longer than a
/// frame of the largest group.
const LONG: usize = 200;

/// The shortest input found for which `differs` still holds: parts of the
/// lines are left out, halves first, single lines last; then single operations
/// (or rows of a form) are left out as if they had never been; then long lines
/// are cut.
pub fn shrink(input: &[u8], differs: &mut dyn FnMut(&[u8]) -> bool) -> Vec<u8> {
    let mut lines: Vec<Vec<u8>> = raw_lines(input).iter().map(|raw| raw.to_vec()).collect();
    let mut tries = 0;
    let mut still = |lines: &[Vec<u8>]| {
        tries += 1;
        tries <= MOST_TRIES && differs(&lines.concat())
    };
    leave_out_parts(&mut lines, &mut still);
    while leave_out_operations(&mut lines, &mut still) || leave_out_rows(&mut lines, &mut still) {
        leave_out_parts(&mut lines, &mut still);
    }
    cut_long_lines(&mut lines, &mut still);
    lines.concat()
}

fn leave_out_parts(lines: &mut Vec<Vec<u8>>, still: &mut dyn FnMut(&[Vec<u8>]) -> bool) {
    let mut part = lines.len().div_ceil(2).max(1);
    loop {
        let fell = leave_out(lines, part, still);
        if part == 1 && !fell {
            return;
        }
        part = if part == 1 { 1 } else { part.div_ceil(2) };
    }
}

/// Leaves out every part of that many lines that is not needed.
fn leave_out(
    lines: &mut Vec<Vec<u8>>,
    part: usize,
    still: &mut dyn FnMut(&[Vec<u8>]) -> bool,
) -> bool {
    let mut fell = false;
    // From the end: later lines are less often needed by others.
    let mut end = lines.len();
    while end > 0 {
        let start = end.saturating_sub(part);
        let mut fewer = lines.clone();
        fewer.drain(start..end);
        if still(&fewer) {
            *lines = fewer;
            fell = true;
        }
        end = start.min(lines.len());
    }
    fell
}

fn cut_long_lines(lines: &mut Vec<Vec<u8>>, still: &mut dyn FnMut(&[Vec<u8>]) -> bool) {
    for place in 0..lines.len() {
        while lines[place].len() > LONG {
            let mut shorter = lines.clone();
            let length = shorter[place].len();
            shorter[place].drain(length / 2..length - 1);
            if !still(&shorter) {
                break;
            }
            *lines = shorter;
        }
    }
}

// ---- leaving out operations ----

/// Leaves out every accepted operation that is not needed. Later frames name
/// it in their vectors, so their entries are lowered with it.
fn leave_out_operations(
    lines: &mut Vec<Vec<u8>>,
    still: &mut dyn FnMut(&[Vec<u8>]) -> bool,
) -> bool {
    let mut fell = false;
    for place in (0..lines.len()).rev() {
        if let Some(tag) = tags_of(lines)[place].clone() {
            let fewer = without_operation(lines, place, &tag);
            if still(&fewer) {
                *lines = fewer;
                fell = true;
            }
        }
    }
    fell
}

/// For each line the tag of the operation that it brought in, if any.
fn tags_of(lines: &[Vec<u8>]) -> Vec<Option<Tag>> {
    let mut program = StationProgram::new(Mode::Definitions);
    let mut count = 0;
    let mut tags = Vec::new();
    for raw in lines {
        program.answer(raw);
        let accepted = program.station().map_or(&[][..], |station| station.accepted());
        tags.push(accepted.get(count).map(|accepted| accepted.tag.clone()));
        count = accepted.len();
    }
    tags
}

fn without_operation(lines: &[Vec<u8>], place: usize, tag: &Tag) -> Vec<Vec<u8>> {
    let mut fewer = lines.to_vec();
    fewer.remove(place);
    for raw in &mut fewer {
        lower_entry(raw, tag);
    }
    fewer
}

/// In a frame of the same group, lowers the entry that counts the operation.
fn lower_entry(raw: &mut Vec<u8>, tag: &Tag) {
    let Ok(bytes) = Line::from_raw(raw).decode() else { return };
    let Ok(mut frame) = read_frame(&bytes, tag.vector.0.len()) else { return };
    if frame.vector.entry(tag.sender) >= tag.number() {
        frame.vector.0[tag.sender] -= 1;
        *raw = encode(&write_frame(&frame));
        raw.push(b'\n');
    }
}

// ---- leaving out rows of a form ----

/// Leaves out every row line that is not needed, and lowers the closing count.
fn leave_out_rows(lines: &mut Vec<Vec<u8>>, still: &mut dyn FnMut(&[Vec<u8>]) -> bool) -> bool {
    let mut fell = false;
    for place in (0..lines.len()).rev() {
        if lines[place].starts_with(b"53") {
            let fewer = without_row(lines, place);
            if still(&fewer) {
                *lines = fewer;
                fell = true;
            }
        }
    }
    fell
}

fn without_row(lines: &[Vec<u8>], place: usize) -> Vec<Vec<u8>> {
    let mut fewer = lines.to_vec();
    fewer.remove(place);
    for raw in &mut fewer {
        lower_count(raw);
    }
    fewer
}

fn lower_count(raw: &mut Vec<u8>) {
    let Ok(bytes) = Line::from_raw(raw).decode() else { return };
    if let [0x5f, high, low] = bytes[..] {
        let count = u16::from_be_bytes([high, low]).saturating_sub(1).to_be_bytes();
        *raw = encode(&[0x5f, count[0], count[1]]);
        raw.push(b'\n');
    }
}
