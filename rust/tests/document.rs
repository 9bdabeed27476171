//! The document's session, byte for byte, and its histories P1 to P11.

use second::kinds::Code;
use second::lines::{Frame, Line, OpeningLine, Request};
use second::program::{load_form, run_station};
use second::station::{Mode, Reply, Station};
use second::vector::Vector;

const SESSION: &str = "\
10020000040108
21000100000007
2002010001000000070000000000000001
40000400000000
2002010002000000070000000000000002
40000300000000
30000a
2002010002000000070000000000000002
60
";

const OUTPUT: &str = "\
00
002002000001000000070000000100000000
00
000001
00
00000100000007
000000
ff05
10020000040108
500000000100000002
51010000000000000002
5300010000000000070000000100000000
5f0001
";

#[test]
fn whole_session() {
    for mode in [Mode::Definitions, Mode::Rows] {
        let output = run_station(SESSION.as_bytes(), mode);
        assert_eq!(String::from_utf8_lossy(&output), OUTPUT);
    }
}

/// One operation of a history: code, value, sender, vector of two entries.
type Step = (Code, u32, u8, [u32; 2]);

use Code::{Add, Clear, Remove};

fn frame(step: &Step, n: usize) -> Frame {
    let (code, value, sender, entries) = step;
    let mut vector = entries.to_vec();
    vector.resize(n, 0);
    let request = Request { object: 0, code: code.byte(), value: *value };
    Frame { sender: *sender, request, vector: Vector(vector) }
}

fn opened(n: u8, own: u8, kind: u8, mode: Mode) -> Station {
    let opening = OpeningLine { n, own, capacity: 8, kinds: vec![kind] };
    Station::open(&opening, mode).expect("opening in range")
}

/// Gives the step to the station, as an own operation where it is one. False
/// when it cannot come yet.
fn gives(station: &mut Station, step: &Step) -> bool {
    let header = &station.table().header;
    let frame = frame(step, header.n);
    if usize::from(frame.sender) != header.own {
        return station.accept(&frame).is_ok();
    }
    let mut after = station.clone();
    match after.issue(&frame.request, 1000) {
        Ok(issued) if issued.vector == frame.vector => {
            *station = after;
            true
        }
        _ => false,
    }
}

/// Every station that takes in the whole history, in every order in which it
/// can come, settled between or not.
fn every_way(station: Station, left: &[Step], ends: &mut Vec<Station>) {
    if left.is_empty() {
        ends.push(station);
        return;
    }
    for place in 0..left.len() {
        for settles in [false, true] {
            let mut next = station.clone();
            if gives(&mut next, &left[place]) {
                if settles {
                    next.settle(65535).expect("a table");
                }
                let mut rest = left.to_vec();
                rest.remove(place);
                every_way(next, &rest, ends);
            }
        }
    }
}

fn ends_of(kind: u8, history: &[Step]) -> Vec<Station> {
    let mut ends = Vec::new();
    for mode in [Mode::Definitions, Mode::Rows] {
        for (n, own) in [(2, 0), (2, 1), (3, 2)] {
            every_way(opened(n, own, kind, mode), history, &mut ends);
        }
    }
    assert!(ends.len() >= 6, "each group of stations takes the history in some order");
    ends
}

fn every_reply(kind: u8, history: &[Step], question: u8, value: u32, wanted: Reply) {
    for station in ends_of(kind, history) {
        assert_eq!(station.ask(0, question, value, 512), Ok(wanted.clone()));
    }
}

fn holds_seven(kind: u8, history: &[Step], wanted: bool) {
    every_reply(kind, history, 5, 7, Reply::YesNo(wanted));
}

#[test]
fn p1_add_and_concurrent_remove_in_kind_8() {
    holds_seven(8, &[(Add, 7, 0, [1, 0]), (Remove, 7, 1, [0, 1])], true);
}

#[test]
fn p2_the_same_in_kind_9() {
    holds_seven(9, &[(Add, 7, 0, [1, 0]), (Remove, 7, 1, [0, 1])], false);
}

#[test]
fn p3_add_and_later_remove_in_kind_8() {
    holds_seven(8, &[(Add, 7, 0, [1, 0]), (Remove, 7, 1, [1, 1])], false);
}

#[test]
fn p4_two_adds_count_once() {
    let history = [(Add, 7, 0, [1, 0]), (Add, 7, 1, [0, 1])];
    every_reply(8, &history, 4, 0, Reply::Count(1));
}

#[test]
fn p5_concurrent_writes() {
    let history = [(Add, 4, 0, [1, 0]), (Add, 9, 1, [0, 1])];
    every_reply(7, &history, 3, 0, Reply::List(vec![4, 9]));
}

#[test]
fn p6_a_later_write() {
    let history = [(Add, 4, 0, [1, 0]), (Add, 9, 1, [0, 1]), (Add, 5, 1, [1, 2])];
    every_reply(7, &history, 3, 0, Reply::List(vec![5]));
}

#[test]
fn p7_removes_no_longer_standing() {
    let history =
        [(Remove, 7, 0, [1, 0]), (Add, 7, 0, [2, 0]), (Remove, 7, 1, [0, 1]), (Add, 7, 1, [0, 2])];
    holds_seven(9, &history, true);
}

#[test]
fn p8_a_remove_cleared() {
    let history = [(Remove, 7, 0, [1, 0]), (Clear, 0, 0, [2, 0]), (Add, 7, 1, [0, 1])];
    holds_seven(9, &history, true);
}

#[test]
fn p9_removed_for_ever() {
    let history = [(Add, 7, 0, [1, 0]), (Remove, 7, 0, [2, 0]), (Add, 7, 0, [3, 0])];
    holds_seven(4, &history, false);
}

#[test]
fn p10_flags() {
    let history = [(Add, 0, 0, [1, 0]), (Remove, 0, 1, [0, 1])];
    every_reply(5, &history, 2, 0, Reply::YesNo(true));
    every_reply(6, &history, 2, 0, Reply::YesNo(false));
}

#[test]
fn p11_low_and_stable() {
    // D[0] is 5, as L[2] names it; rows at [4,3,2] and at [4,4,2].
    let form = "\
10030000080108
50000000050000000600000007
5101000000040000000600000002
5102000000050000000300000007
530001000000000007000000040000000300000002
530001000000000008000000040000000400000002
5f0002
";
    let table = load_form(form.as_bytes()).expect("a sound form");
    assert_eq!(table.low(), Vector(vec![4, 3, 2]));
    let mut station = Station::from_table(table);
    assert_eq!(station.settle(65535), Ok(1));
    let settled: Vec<bool> = station.table().rows.iter().map(|row| row.is_settled()).collect();
    assert_eq!(settled, [true, false]);
}

/// Shortcut 2: a stable remove of kind 9 is kept while a concurrent add is
/// unsettled, and goes with the last such add.
#[test]
fn a_settled_remove_outlives_no_add() {
    let mut station = opened(3, 2, 9, Mode::Rows);
    let give = |station: &mut Station, code: Code, sender: u8, entries: [u32; 3]| {
        let request = Request { object: 0, code: code.byte(), value: 7 };
        station.accept(&Frame { sender, request, vector: Vector(entries.to_vec()) }).unwrap();
    };
    give(&mut station, Remove, 0, [1, 0, 0]);
    give(&mut station, Add, 1, [0, 1, 0]);
    give(&mut station, Remove, 0, [2, 0, 0]);
    assert_eq!(station.settle(9), Ok(0));
    // An operation on another value lets station 1 name [2,..].
    let other = Request { object: 0, code: 1, value: 8 };
    let vector = Vector(vec![2, 2, 0]);
    station.accept(&Frame { sender: 1, request: other, vector }).unwrap();
    assert_eq!(station.settle(9), Ok(1));
    let codes: Vec<(Code, bool)> =
        station.table().rows.iter().map(|row| (row.code, row.is_settled())).collect();
    assert_eq!(codes, [(Add, false), (Remove, true), (Add, false)]);
    assert_eq!(station.ask(0, 5, 7, 0), Ok(Reply::YesNo(false)));
    let other = Request { object: 0, code: 1, value: 9 };
    let vector = Vector(vec![3, 2, 0]);
    station.accept(&Frame { sender: 0, request: other, vector }).unwrap();
    assert_eq!(station.settle(1), Ok(1));
    assert_eq!(station.ask(0, 5, 7, 0), Ok(Reply::YesNo(false)));
    assert!(station.table().rows.iter().all(|row| row.value != 7));
}

#[test]
fn upper_case_is_no_digit() {
    assert!(Line::from_raw(b"0A\n").decode().is_err());
    assert!(Line::from_raw(b"0a").decode().is_err());
    assert_eq!(Line::from_raw(b"0a\n").decode(), Ok(vec![10]));
}
