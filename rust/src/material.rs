//! What sessions and forms are made of: headers, values, lines as bytes, and
//! ways to spoil them.

use crate::kinds::{Kind, KINDS};
use crate::lines::{encode, Request};
use crate::rng::Rng;
use crate::table::Header;

// ---- headers and values ----

pub fn random_header(rng: &mut Rng) -> Header {
    if rng.percent(20) {
        return narrow_header(rng);
    }
    let any = rng.within(1, 16);
    let n = rng.pick(&[1, 2, 2, 2, 2, 3, 3, 3, 3, 4, 4, 5, any, 16]);
    let own = rng.below(n);
    let some = rng.within(1, 512);
    let small = rng.within(2, 12);
    let capacity = rng.pick(&[1, small, small, small, 20, 40, 512, 512, some]);
    Header { n, own, capacity, kinds: random_kinds(rng) }
}

/// One object and a counter in a group of three to five: many operations meet
/// on few values while the counter carries the clocks on, so that some of
/// several concurrent rows are stable and some are not.
fn narrow_header(rng: &mut Rng) -> Header {
    let n = rng.within(3, 5);
    let kind = rng.pick(&KINDS[4..]);
    let often_9 = rng.pick(&[kind, Kind::RemoveWinsSet, Kind::DisableWinsFlag]);
    let kinds = vec![often_9, Kind::GrowCounter];
    Header { n, own: rng.below(n), capacity: rng.pick(&[5, 8, 40]), kinds }
}

fn random_kinds(rng: &mut Rng) -> Vec<Kind> {
    match rng.below(4) {
        0 | 1 => {
            let mut kinds = KINDS.to_vec();
            rng.shuffle(&mut kinds);
            kinds
        }
        2 => (0..rng.within(1, 3)).map(|_| rng.pick(&KINDS)).collect(),
        _ => (0..rng.within(4, 32)).map(|_| rng.pick(&KINDS)).collect(),
    }
}

/// Few different values, so that they meet; now and then many.
pub fn value_pool(rng: &mut Rng) -> Vec<u32> {
    if rng.percent(6) {
        return (0..200).map(|_| rng.number() as u32).collect();
    }
    let any = rng.number() as u32;
    let mut values = vec![7, 0, 1, u32::MAX, 0x8000_0000, 256, any];
    rng.shuffle(&mut values);
    values.truncate(rng.within(1, 5));
    values
}

// ---- lines as bytes ----

pub fn issue_bytes(request: &Request) -> Vec<u8> {
    let mut bytes = vec![0x21, request.object, request.code];
    bytes.extend(request.value.to_be_bytes());
    bytes
}

pub fn settle_bytes(limit: u16) -> Vec<u8> {
    let mut bytes = vec![0x30];
    bytes.extend(limit.to_be_bytes());
    bytes
}

pub fn question_bytes(object: u8, question: u8, value: u32) -> Vec<u8> {
    let mut bytes = vec![0x40, object, question];
    bytes.extend(value.to_be_bytes());
    bytes
}

// ---- wrong openings and spoiled text, also used for forms ----

/// In shape, but one field out of its range (13).
pub fn opening_out_of_range(mut bytes: Vec<u8>, rng: &mut Rng) -> Vec<u8> {
    match rng.below(7) {
        0 => bytes[1] = rng.pick(&[0, 17, 255]),
        1 => bytes[2] = bytes[1].saturating_add(rng.below(2) as u8),
        2 => bytes[3..5].fill(0),
        3 => bytes[3..5].copy_from_slice(&rng.pick(&[513u16, 514, 1024, 65535]).to_be_bytes()),
        4 => {
            bytes.truncate(6);
            bytes[5] = 0;
        }
        5 => {
            let count = rng.pick(&[33, 34, 255]);
            bytes.truncate(6);
            bytes[5] = count;
            bytes.extend((0..count).map(|_| 1));
        }
        _ => {
            let place = 6 + rng.below(bytes.len() - 6);
            bytes[place] = rng.pick(&[0, 10, 255]);
        }
    }
    bytes
}

/// An opening that is no proper line, or of a wrong length (1).
pub fn opening_out_of_shape(mut bytes: Vec<u8>, rng: &mut Rng) -> Vec<u8> {
    match rng.below(5) {
        0 => bytes.push(1),
        1 => {
            bytes.pop();
        }
        2 => bytes.truncate(rng.within(1, 5)),
        3 => bytes[5] = bytes[5].wrapping_add(1),
        _ => return spoiled_text(encode(&bytes), rng),
    }
    encode(&bytes)
}

/// Makes a line of text something that is no line of lower-case hexadecimal
/// digits in pairs (or, seldom, another proper line).
pub fn spoiled_text(mut text: Vec<u8>, rng: &mut Rng) -> Vec<u8> {
    let place = rng.below(text.len() + 1);
    match rng.below(16) {
        0 => text.make_ascii_uppercase(),
        1 => drop(text.pop()),
        2 => text.insert(place, rng.pick(b"0123456789abcdef")),
        3 => text.insert(place, b' '),
        4 => text.push(b' '),
        5 => text.push(b'\r'),
        6 => text.insert(place, 0),
        7 => text.insert(place, rng.within(128, 255) as u8),
        8 => replace_some(&mut text, rng),
        9 => text.splice(0..0, *b"0x").for_each(drop),
        10 => text.clear(),
        11 => text.insert(0, rng.pick(b" \t\r\0")),
        12 => text = (0..rng.within(1, 40)).map(|_| rng.below(256) as u8).collect(),
        13 => text.splice(place..place, "é".bytes()).for_each(drop),
        14 => lengthen(&mut text, rng),
        _ => spoil_case(&mut text),
    }
    text
}

/// A character near the digits in the table of characters.
fn replace_some(text: &mut [u8], rng: &mut Rng) {
    let place = rng.below(text.len());
    if let Some(character) = text.get_mut(place) {
        *character = rng.pick(b"/:@AFG`gxzZ. -+");
    }
}

/// A lower-case letter made upper-case, so that it surely is no digit here.
fn spoil_case(text: &mut [u8]) {
    if let Some(letter) = text.iter_mut().find(|character| character.is_ascii_lowercase()) {
        letter.make_ascii_uppercase();
    }
}

/// Too long by a little or by much; very seldom a megabyte.
fn lengthen(text: &mut Vec<u8>, rng: &mut Rng) {
    let length = match rng.below(1000) {
        0..=4 => 1 << 20,
        5..=60 => 10_000,
        61..=500 => rng.within(100, 3000),
        _ => rng.within(2, 100),
    };
    let filler = rng.pick(b"000f2");
    text.resize(text.len() + length, filler);
}
