//! Each refusal number, and the order in which they are tried.

use second::lines::{frame_length, Line, OpeningLine, Request};
use second::program::{load_form, run_resave, run_station};
use second::refusal::Refusal;
use second::station::{Mode, Reply, Station};

/// The last answer of a session in both modes.
fn last_answer(lines: &[&str]) -> String {
    let input = lines.join("\n") + "\n";
    last_answer_raw(input.as_bytes())
}

fn last_answer_raw(input: &[u8]) -> String {
    let output = run_station(input, Mode::Definitions);
    assert_eq!(output, run_station(input, Mode::Rows));
    let text = String::from_utf8(output).expect("digits");
    text.lines().last().unwrap_or("").to_string()
}

/// Two stations, own 0, room for 2 rows; object 0 a counter (kind 2), object 1
/// an add-wins set, object 2 a disable-wins flag.
const OPEN: &str = "100200000203020806";
const ADD: &str = "2002010101000000070000000000000001";

#[test]
fn refusal_1_shape() {
    let wrong = [
        "",
        "6",
        "6000",
        "6 0",
        "60\r",
        "61",
        "00",
        "50",
        "5000000000",
        "53",
        "5f0000",
        "30",
        "3000",
        "300000ff",
        "30000A",
        "300g00",
        "2101010000000",
        "21010100000007ff",
        "2003010101000000070000000000000001",
        "2001010101000000070000000000000001",
        "20020101010000000700000000000000010000",
        "200301010100000007000000000000000100000000",
        "40000000000000",
        "40000600000000",
        "40000100000001",
        "40ff0600000000",
        "40ff0100000001",
        "10020000",
        "1002000002030208",
        "10020000020302080600",
        "10020000020302080G",
    ];
    for line in wrong {
        assert_eq!(last_answer(&[OPEN, line]), "ff01", "{line:?}");
    }
    assert_eq!(last_answer_raw(b"100200000203020806\n60"), "ff01");
    assert_eq!(last_answer_raw(b"100200000203020806\n\x80\n"), "ff01");
    assert_eq!(last_answer_raw(b"100200000203020806"), "ff01");
}

#[test]
fn refusal_2_sender() {
    assert_eq!(last_answer(&[OPEN, "2002000101000000070000000100000000"]), "ff02");
    assert_eq!(last_answer(&[OPEN, "2002020101000000070000000000000001"]), "ff02");
    // Tried before the object.
    assert_eq!(last_answer(&[OPEN, "2002ffff01000000070000000000000001"]), "ff02");
}

#[test]
fn refusal_3_object() {
    assert_eq!(last_answer(&[OPEN, "2002010301000000070000000000000001"]), "ff03");
    assert_eq!(last_answer(&[OPEN, "21030100000007"]), "ff03");
    assert_eq!(last_answer(&[OPEN, "40030100000000"]), "ff03");
}

#[test]
fn refusal_4_operation() {
    for issue in [
        "21000300000001", // no clear in a counter
        "21000100000000", // amount 0
        "210001000f4241", // amount 1,000,001
        "21010000000007", // code 0
        "21010400000007",
        "21010300000007", // a clear carries 0
        "21020100000001", // a flag carries 0
        "21020300000000",
    ] {
        assert_eq!(last_answer(&[OPEN, issue]), "ff04", "{issue}");
    }
    // Tried before the number.
    assert_eq!(last_answer(&[OPEN, "2002010104000000070000000000000000"]), "ff04");
    assert!(last_answer(&[OPEN, "210001000f4240"]).starts_with("0020"));
}

#[test]
fn refusal_5_repeated() {
    assert_eq!(last_answer(&[OPEN, ADD, ADD]), "ff05");
    assert_eq!(last_answer(&[OPEN, "2002010101000000070000000000000000"]), "ff05");
    // Tried before too early.
    assert_eq!(last_answer(&[OPEN, "2002010101000000070000000900000000"]), "ff05");
}

#[test]
fn refusal_6_early() {
    assert_eq!(last_answer(&[OPEN, "2002010101000000070000000000000002"]), "ff06");
    assert_eq!(last_answer(&[OPEN, "2002010101000000070000000100000001"]), "ff06");
}

#[test]
fn refusal_7_falling() {
    let knows = "2002010101000000070000000100000001";
    let falls = "2002010101000000070000000000000002";
    assert_eq!(last_answer(&[OPEN, "21000100000001", knows, falls]), "ff07");
}

#[test]
fn refusal_8_capacity_and_freed_room() {
    let first = "21010100000001";
    let second = "21010100000002";
    assert_eq!(last_answer(&[OPEN, first, second, ADD]), "ff08");
    assert_eq!(last_answer(&[OPEN, first, second, ADD, "21010200000001", ADD]), "00");
    assert_eq!(last_answer(&[OPEN, first, second, ADD, "21010300000000", ADD]), "00");
    // A row in place of one that goes needs no room; neither does a counter.
    assert!(last_answer(&[OPEN, first, second, first]).starts_with("0020"));
    assert!(last_answer(&[OPEN, first, second, "21000100000001"]).starts_with("0020"));
    // Settling drops one of two rows of a value.
    let adds = "2002010101000000010000000000000001";
    let knows = "2002010001000000010000000100000002";
    let third = "2002010101000000090000000100000003";
    assert_eq!(last_answer(&[OPEN, first, adds, knows, third]), "ff08");
    assert_eq!(last_answer(&[OPEN, first, adds, knows, third, "300001", third]), "00");
}

/// The own number at its top is reached by loading only.
#[test]
fn refusal_9_last_number() {
    let form = "10010000010108\n50ffffffff\n5f0000\n";
    let mut station = Station::from_table(load_form(form.as_bytes()).expect("sound"));
    let request = Request { object: 0, code: 1, value: 7 };
    assert_eq!(station.issue(&request, 100).err(), Some(Refusal::LastNumber));
}

#[test]
fn refusals_10_and_11_space() {
    let opening = OpeningLine { n: 2, own: 0, capacity: 4, kinds: vec![8] };
    let mut station = Station::open(&opening, Mode::Definitions).expect("in range");
    let request = Request { object: 0, code: 1, value: 7 };
    let short = frame_length(2) - 1;
    assert_eq!(station.issue(&request, short).err(), Some(Refusal::Space));
    assert!(station.table().rows.is_empty());
    assert!(station.issue(&request, short + 1).is_ok());
    assert_eq!(station.ask(0, 3, 0, 0), Err(Refusal::ListSpace { needed: 1 }));
    assert_eq!(station.ask(0, 3, 0, 1), Ok(Reply::List(vec![7])));
}

#[test]
fn refusal_12_misfit() {
    for question in ["40000200000000", "40000300000000", "40010100000000", "40010200000000"] {
        assert_eq!(last_answer(&[OPEN, question]), "ff0c");
    }
    for question in ["40020100000000", "40020300000000", "40020400000000", "40020500000000"] {
        assert_eq!(last_answer(&[OPEN, question]), "ff0c");
    }
    assert_eq!(last_answer(&[OPEN, "40000500000007"]), "ff0c");
}

#[test]
fn refusal_13_opening() {
    for opening in [
        "10000000020108",
        "10110000020108",
        "10020200020108",
        "10020000000108",
        "10020002010108",
        "100200000200",
        "10020000020100",
        "1002000002010a",
    ] {
        assert_eq!(last_answer(&[opening]), "ff0d", "{opening}");
    }
    let many = format!("100200000221{}", "01".repeat(33));
    assert_eq!(last_answer(&[&many]), "ff0d");
    assert_eq!(last_answer(&[OPEN, OPEN]), "ff0d");
    assert_eq!(last_answer(&["10000000020108", OPEN]), "00");
}

#[test]
fn refusal_14_no_table() {
    for line in ["60", "", "zz", "30000a", "1", "5f0000", "40000000000000"] {
        assert_eq!(last_answer(&[line]), "ff0e", "{line:?}");
    }
    assert_eq!(last_answer_raw(b"60"), "ff0e");
    assert_eq!(last_answer(&["1002"]), "ff01");
    assert_eq!(last_answer(&["10zz"]), "ff01");
    assert_eq!(run_station(b"", Mode::Rows), b"");
}

const FORM: [&str; 6] = [
    "100200000403010408",
    "500000000100000002",
    "51010000000000000002",
    "52000000000000000005",
    "5302010000000000070000000100000000",
    "5f0001",
];

fn resaved(lines: &[&str]) -> String {
    let input = lines.join("\n") + "\n";
    String::from_utf8(run_resave(input.as_bytes())).expect("digits")
}

#[test]
fn refusal_15_saved() {
    assert_eq!(resaved(&FORM), FORM.join("\n") + "\n");
    assert_eq!(run_resave(b""), b"ff0f\n");
    for place in 1..FORM.len() {
        assert_eq!(resaved(&FORM[..place]), "ff0f\n", "cut before {place}");
        assert_eq!(resaved(&FORM[place..]), "ff0f\n", "begun at {place}");
        let mut doubled = FORM.to_vec();
        doubled.insert(place, FORM[place]);
        assert_eq!(resaved(&doubled), "ff0f\n", "doubled {place}");
        let mut swapped = FORM.to_vec();
        swapped.swap(place - 1, place);
        assert_eq!(resaved(&swapped), "ff0f\n", "swapped {place}");
    }
    let mut second_opening = FORM.to_vec();
    second_opening.insert(1, "10");
    assert_eq!(resaved(&second_opening), "ff0f\n");
}

#[test]
fn refusal_15_each_field() {
    let with = |place: usize, line: &str| {
        let mut lines: Vec<&str> = FORM.to_vec();
        lines[place] = line;
        resaved(&lines)
    };
    for (place, line) in [
        (1, "5000000001"),
        (1, "50000000010000000G"),
        (2, "51000000000000000002"),
        (2, "51010000000200000002"),
        (2, "51010000000000000001"),
        (3, "520000000000002dc6c1"),
        (3, "5200ffffffffffffffff"),
        (3, "52010000000000000005"),
        (4, "5303010000000000070000000100000000"),
        (4, "5302020000000000070000000100000000"),
        (4, "5302010200000000070000000100000000"),
        (4, "5302010002000000070000000100000000"),
        (4, "5302010000000000070000000200000000"),
        (4, "5302010000000000070000000000000001"),
        (4, "5302010100000000070000000100000000"),
        (4, "5302010101000000070000000000000000"),
        (4, "5301010000000000070000000100000000"),
        (4, "5300010000000000070000000100000000"),
        (5, "5f0000"),
        (5, "5f0002"),
        (5, "5f01"),
        (5, "5f000100"),
    ] {
        assert_eq!(with(place, line), "ff0f\n", "{line}");
    }
    let bound = with(3, "520000000000002dc6c0");
    assert!(bound.starts_with("10"), "the bound itself is in: {bound}");
}

#[test]
fn a_form_that_begins_wrong() {
    assert_eq!(resaved(&["10020000"]), "ff01\n");
    assert_eq!(resaved(&["10000000040108"]), "ff0d\n");
    assert_eq!(resaved(&["60"]), "ff01\n");
    assert_eq!(resaved(&["zz"]), "ff01\n");
    assert_eq!(resaved(&["500000000100000002"]), "ff0f\n");
    assert_eq!(run_resave(b"10020000040108"), b"ff01\n");
}

#[test]
fn after_the_closing_line() {
    let form = FORM.join("\n") + "\n";
    for more in ["\n", "60\n", "6", " ", "5f0001\n"] {
        assert_eq!(run_resave((form.clone() + more).as_bytes()), b"ff0f\n", "{more:?}");
    }
    assert_eq!(run_resave(form.trim_end().as_bytes()), b"ff0f\n");
}

#[test]
fn kind_4_holds_one_row_a_value() {
    let rows = ["5300010100000000070000000000", "5300020100000000070000000000"];
    let row = |place: usize| rows[place][..26].to_string();
    let two = format!("10010000040104\n5000000000\n{}\n{}\n5f0002\n", row(0), row(1));
    assert_eq!(run_resave(two.as_bytes()), b"ff0f\n");
    let one = format!("10010000040104\n5000000000\n{}\n5f0001\n", row(1));
    assert_eq!(run_resave(one.as_bytes()), one.as_bytes());
}

#[test]
fn a_line_may_be_a_megabyte_long() {
    let mut input = b"100200000203020806\n".to_vec();
    input.resize(1 << 20, b'0');
    assert_eq!(last_answer_raw(&input), "ff01");
    input.push(b'\n');
    assert_eq!(last_answer_raw(&input), "ff01");
    assert!(Line::from_raw(&input).decode().is_err());
}
