//! The two modes agree; stations that accepted the same operations agree;
//! what a table wrote gives that table back and continues its history.

use second::gen::{form, session};
use second::group::Group;
use second::kinds::KINDS;
use second::lines::{raw_lines, Frame, Line, OpeningLine, Request};
use second::other::talk;
use second::program::{load_form, run_resave, run_station, StationProgram};
use second::rng::Rng;
use second::rules::table_rules;
use second::shrink::shrink;
use second::station::{Mode, Reply, Station};
use second::tally::Tally;
use std::collections::BTreeSet;
use std::time::Duration;

#[test]
fn modes_agree() {
    let mut tally = Tally::default();
    for seed in 0..400 {
        let input = session(seed, 400);
        assert_eq!(tally.session(&input, Mode::Definitions), run_station(&input, Mode::Rows));
    }
    assert!(tally.has_all_kinds());
    for number in [1, 2, 3, 4, 5, 6, 7, 8, 12, 13, 14] {
        let count = tally.of(&format!("refusal {number:02}"));
        assert!(count >= 50, "refusal {number} occurred {count} times");
    }
}

#[test]
fn the_generator_is_deterministic() {
    assert_eq!(session(5, 200), session(5, 200));
    assert_eq!(form(5), form(5));
    assert_ne!(session(5, 200), session(6, 200));
}

#[test]
fn every_line_leaves_a_table_and_settling_counts_its_fall() {
    for seed in 1000..1200 {
        let mut program = StationProgram::new(Mode::Definitions);
        for raw in raw_lines(&session(seed, 200)) {
            let before = program.station().map(|s| s.table().unsettled_count());
            let answer = program.answer(raw);
            let Some(station) = program.station() else { continue };
            assert!(table_rules(station.table()), "seed {seed}");
            if raw.starts_with(b"30") && answer.starts_with(b"00") {
                let fall = before.unwrap_or(0) - station.table().unsettled_count();
                assert_eq!(answer, format!("00{fall:04x}\n").into_bytes(), "seed {seed}");
            }
        }
    }
}

/// A refused line leaves the table as it was.
#[test]
fn a_refusal_changes_nothing() {
    for seed in 2000..2100 {
        let mut program = StationProgram::new(Mode::Definitions);
        for raw in raw_lines(&session(seed, 200)) {
            let before = program.station().map(|s| s.table().clone());
            if program.answer(raw).starts_with(b"ff") {
                assert_eq!(before, program.station().map(|s| s.table().clone()), "seed {seed}");
            }
        }
    }
}

#[test]
fn a_loaded_table_continues_its_history() {
    for seed in 3000..3200 {
        let input = session(seed, 200);
        let lines = raw_lines(&input);
        let break_at = seed as usize % lines.len();
        let mut kept = StationProgram::new(Mode::Definitions);
        for raw in &lines[..break_at] {
            kept.answer(raw);
        }
        let Some(table) = kept.station().map(|s| s.table().clone()) else { continue };
        let saved = kept.answer(b"60\n");
        let loaded = load_form(&saved).expect("a saved form is sound");
        assert_eq!(loaded, table);
        let mut continued = StationProgram::with_station(Station::from_table(loaded));
        for raw in &lines[break_at..] {
            assert_eq!(kept.answer(raw), continued.answer(raw), "seed {seed}");
        }
    }
}

#[test]
fn forms_come_back_or_are_refused() {
    let mut tally = Tally::default();
    for seed in 0..3000 {
        let input = form(seed);
        let output = run_resave(&input);
        tally.form(&output);
        if !output.starts_with(b"ff") {
            assert_eq!(output, input, "seed {seed}");
            assert!(table_rules(&load_form(&input).expect("printed again")));
        }
    }
    assert!(tally.of("form printed again") > 500);
    for number in ["01", "13", "15"] {
        assert!(tally.of(&format!("form refusal {number}")) > 30, "{number}");
    }
}

// ---- agreement of stations ----

/// Two real stations in a group whose other members are simulated.
struct Pair {
    rng: Rng,
    n: usize,
    group: Group,
    stations: Vec<Station>,
}

const VALUES: [u32; 3] = [0, 7, u32::MAX];

impl Pair {
    fn new(seed: u64) -> Pair {
        let mut rng = Rng::new(seed);
        let n = rng.within(2, 5);
        let skipping = rng.pick(&[0, 20, 60]);
        let kinds: Vec<u8> = KINDS.iter().map(|kind| kind.byte()).collect();
        let open = |own: u8, mode: Mode| {
            let opening = OpeningLine { n: n as u8, own, capacity: 512, kinds: kinds.clone() };
            Station::open(&opening, mode).expect("in range")
        };
        let stations = vec![open(0, Mode::Rows), open(1, Mode::Definitions)];
        Pair { rng, n, group: Group::new(n, skipping), stations }
    }

    fn request(&mut self) -> Request {
        let object = self.rng.below(9) as u8;
        let value = self.rng.pick(&VALUES);
        let (code, value) = match object + 1 {
            1 => (1, 5),
            2 => (self.rng.within(1, 2) as u8, 3),
            3 => (1, value),
            5 | 6 => (self.rng.within(1, 2) as u8, 0),
            7 => self.rng.pick(&[(1, value), (1, value), (3, 0)]),
            4 => (self.rng.within(1, 2) as u8, value),
            _ => self.rng.pick(&[(1, value), (1, value), (2, value), (2, value), (3, 0)]),
        };
        Request { object, code, value }
    }

    fn issue(&mut self, own: usize, request: Request) {
        let frame = self.stations[own].issue(&request, 100).expect("there is room");
        self.group.enter(frame);
    }

    /// One frame that can come now reaches the station. False if there is none.
    fn receive(&mut self, own: usize) -> bool {
        let clock = self.stations[own].table().clock.clone();
        let mut senders = self.group.ripe_senders(&clock);
        senders.retain(|sender| *sender != own);
        if senders.is_empty() {
            return false;
        }
        let sender = self.rng.pick(&senders);
        let frame: Frame = self.group.next_for(&clock, sender).expect("ripe").clone();
        self.stations[own].accept(&frame).expect("ripe and room enough");
        true
    }

    fn step(&mut self) {
        let member = self.rng.below(self.n);
        let issues = self.rng.percent(35);
        let request = self.request();
        match (member, issues) {
            (0 | 1, true) => self.issue(member, request),
            (0 | 1, false) => drop(self.receive(member)),
            (_, true) => self.group.peer_issues(member, request, &mut self.rng),
            (_, false) => self.group.peer_receives(member, &mut self.rng),
        }
        // The first station settles often, the other seldom.
        if self.rng.percent(30) {
            self.stations[0].settle(3).expect("a table");
        }
        if self.rng.percent(1) {
            self.stations[1].settle(65535).expect("a table");
        }
    }

    fn deliver_all(&mut self) {
        for own in 0..2 {
            while self.receive(own) {}
        }
        for peer in 2..self.n {
            self.group.peer_receives_all(peer, &mut self.rng);
        }
    }

    /// Each member issues an increase, which names all there was before it.
    fn last_round(&mut self) {
        self.group.name_all_known();
        let request = Request { object: 0, code: 1, value: 1 };
        for own in 0..2 {
            self.issue(own, request.clone());
        }
        for peer in 2..self.n {
            self.group.peer_issues(peer, request.clone(), &mut self.rng);
        }
        self.deliver_all();
    }
}

fn answers(station: &Station) -> Vec<Result<Reply, u8>> {
    let mut all = Vec::new();
    for object in 0..9 {
        for question in 1..=4 {
            all.push(station.ask(object, question, 0, 512).map_err(|r| r.number()));
        }
        for value in VALUES {
            all.push(station.ask(object, 5, value, 512).map_err(|r| r.number()));
        }
    }
    all
}

#[test]
fn stations_with_the_same_operations_agree() {
    for seed in 0..400 {
        let mut pair = Pair::new(seed);
        for _ in 0..250 {
            pair.step();
        }
        pair.deliver_all();
        assert_eq!(pair.stations[0].table().clock, pair.stations[1].table().clock);
        assert_eq!(answers(&pair.stations[0]), answers(&pair.stations[1]), "seed {seed}");
        pair.last_round();
        let before = answers(&pair.stations[0]);
        for station in &mut pair.stations {
            station.settle(65535).expect("a table");
            assert_eq!(station.table().unsettled_count(), 0, "seed {seed}");
        }
        assert_eq!(answers(&pair.stations[0]), before, "seed {seed}");
        assert_eq!(answers(&pair.stations[1]), before, "seed {seed}");
        let (first, second) = (pair.stations[0].table(), pair.stations[1].table());
        assert_eq!(first.rows, second.rows, "seed {seed}");
        assert_eq!(first.totals, second.totals, "seed {seed}");
    }
}

// ---- shrinking ----

#[test]
fn shrinking_keeps_what_is_needed() {
    let input: Vec<u8> = (0..100).flat_map(|i| format!("line {i}\n").into_bytes()).collect();
    let mut needs = |text: &[u8]| {
        let text = String::from_utf8_lossy(text);
        text.contains("line 17\n") && text.contains("line 80\n")
    };
    assert_eq!(shrink(&input, &mut needs), b"line 17\nline 80\n");
}

#[test]
fn shrinking_leaves_out_operations_and_rows() {
    // The third operation names the first two in its vector; it is needed, they
    // are not.
    let input = b"10020000040108\n\
        2002010001000000010000000000000001\n\
        2002010001000000020000000000000002\n\
        2002010001000000070000000000000003\n\
        40000500000007\n";
    let mut holds = |text: &[u8]| run_station(text, Mode::Rows).ends_with(b"0001\n");
    let shortest = b"10020000040108\n\
        2002010001000000070000000000000001\n\
        40000500000007\n";
    assert_eq!(shrink(input, &mut holds), shortest);

    let form = b"10010000040103\n5000000000\n\
        53000101000000000100000000\n53000101000000000200000000\n5f0002\n";
    let mut has_two =
        |text: &[u8]| String::from_utf8_lossy(&run_resave(text)).contains("0000000200000000");
    let shortest = b"10010000040103\n5000000000\n53000101000000000200000000\n5f0001\n";
    assert_eq!(shrink(form, &mut has_two), shortest);
}

/// The type of a saved line and its length against the right one.
fn type_and_excess(line: &[u8], n: usize) -> (u8, isize) {
    let length = match line[0] {
        0x50 => 1 + 4 * n,
        0x51 => 2 + 4 * n,
        0x52 => 10,
        0x53 => 9 + 4 * n,
        _ => 3,
    };
    (line[0], line.len() as isize - length as isize)
}

#[test]
fn forms_have_lines_of_each_type_a_byte_too_long_and_too_short() {
    let mut seen = BTreeSet::new();
    for seed in 0..5000 {
        let form = form(seed);
        let lines = raw_lines(&form).into_iter().map(|raw| Line::from_raw(raw).decode());
        let Ok(lines) = lines.collect::<Result<Vec<_>, _>>() else { continue };
        let Some([0x10, n, ..]) = lines.first().map(Vec::as_slice) else { continue };
        let saved = lines[1..].iter().filter(|line| !line.is_empty());
        seen.extend(saved.map(|line| type_and_excess(line, usize::from(*n))));
    }
    for type_byte in [0x50, 0x51, 0x52, 0x53, 0x5f] {
        assert!(seen.contains(&(type_byte, 1)), "no {type_byte:02x} line is too long");
        assert!(seen.contains(&(type_byte, -1)), "no {type_byte:02x} line is too short");
    }
}

#[test]
fn forms_begin_with_lines_of_each_type_from_54_to_5e() {
    let first =
        |seed| raw_lines(&form(seed)).first().and_then(|raw| Line::from_raw(raw).type_byte());
    let seen: BTreeSet<u8> = (0..20_000).filter_map(first).collect();
    assert!((0x54..=0x5e).all(|type_byte| seen.contains(&type_byte)));
}

#[test]
fn a_talk_tells_a_program_that_answers_at_once_from_one_that_waits_for_the_end() {
    let station = env!("CARGO_BIN_EXE_second_station");
    for seed in 0..20 {
        let fault = talk(station, &session(seed, 40), Duration::from_secs(5));
        assert!(fault.is_none(), "{fault:?}");
    }
    let waiting = env!("CARGO_BIN_EXE_second_resave");
    let fault = talk(waiting, b"10010000010101\n60\n", Duration::from_millis(200));
    assert!(fault.is_some_and(|fault| fault.number == 1 && fault.got.is_empty()));
}
