//! The generator of sessions: the input of one station program.
//!
//! It runs a station of its own beside it, so that it can aim at states. In
//! most sessions the frames come from a simulated group; in the others they
//! are made up freely between L and D, which reaches every frame that a table
//! may accept.

use crate::group::Group;
use crate::kinds::Kind;
use crate::lines::{encode, read_frame, write_frame, Frame, Line, Request};
use crate::material::{
    issue_bytes, opening_out_of_range, opening_out_of_shape, question_bytes, random_header,
    settle_bytes, spoiled_text, value_pool,
};
use crate::program::StationProgram;
use crate::rng::Rng;
use crate::saved::opening_line;
use crate::station::Mode;
use crate::table::{Header, Table};
use crate::vector::Vector;

pub use crate::forms::form;

/// The input of one session of about that many lines.
pub fn session(seed: u64, lines: usize) -> Vec<u8> {
    let mut maker = Maker::new(seed);
    maker.before_opening();
    if !maker.rng.percent(1) {
        maker.opening();
    }
    while maker.count < lines {
        maker.step();
    }
    maker.ending();
    maker.out
}

/// The table of a station after a short session, for a saved form.
pub fn table_of_session(seed: u64, lines: usize) -> Option<Table> {
    let mut maker = Maker::new(seed);
    maker.opening();
    while maker.count < lines {
        maker.step();
    }
    maker.program.station().map(|station| station.table().clone())
}

struct Maker {
    rng: Rng,
    out: Vec<u8>,
    count: usize,
    /// The station beside it.
    program: StationProgram,
    header: Header,
    group: Group,
    /// Frames are made up freely, without a group.
    free: bool,
    /// Own operations are mostly increases: any other is later than all rows
    /// there and takes them away, and rows are to stay concurrent.
    quiet: bool,
    /// How many steps the peers take between two lines.
    pace: usize,
    values: Vec<u32>,
    /// Frames accepted so far, to be repeated.
    accepted: Vec<Vec<u8>>,
    /// The line refused last for want of room, to be offered again.
    refused_for_room: Option<Vec<u8>>,
}

impl Maker {
    fn new(seed: u64) -> Maker {
        let mut rng = Rng::new(seed);
        let header = random_header(&mut rng);
        let skipping = rng.pick(&[0, 0, 10, 30, 70]);
        Maker {
            out: Vec::new(),
            count: 0,
            program: StationProgram::new(Mode::Rows),
            group: Group::new(header.n, skipping),
            free: rng.percent(35),
            quiet: rng.percent(40),
            pace: rng.pick(&[0, 1, 2, 4, 8]),
            values: value_pool(&mut rng),
            accepted: Vec::new(),
            refused_for_room: None,
            header,
            rng,
        }
    }

    // ---- putting lines out ----

    /// Puts out a line (without its LF) and gives the answer to it.
    fn put(&mut self, text: &[u8]) -> Vec<u8> {
        let mut raw = text.to_vec();
        raw.push(b'\n');
        let answer = self.program.answer(&raw);
        self.out.extend(&raw);
        self.count += 1;
        self.remember(text, &answer);
        answer
    }

    fn put_bytes(&mut self, bytes: &[u8]) -> Vec<u8> {
        self.put(&encode(bytes))
    }

    /// Puts out a line only if it is refused: a line meant to be wrong may be
    /// right by chance, and would then carry the group out of step.
    fn put_if_refused(&mut self, text: &[u8]) {
        let mut raw = text.to_vec();
        raw.push(b'\n');
        let parts = raw.iter().filter(|byte| **byte == b'\n').count();
        if parts == 1 && self.program.clone().answer(&raw).starts_with(b"ff") {
            // Nor may it be offered again when there is room.
            let for_room = self.refused_for_room.take();
            self.put(text);
            self.refused_for_room = for_room;
        }
    }

    fn remember(&mut self, text: &[u8], answer: &[u8]) {
        if answer == b"ff08\n" {
            self.refused_for_room = Some(text.to_vec());
        } else if self.refused_for_room.as_deref() == Some(text) {
            self.refused_for_room = None;
        }
        if text.starts_with(b"20") && answer == b"00\n" {
            self.accepted.push(text.to_vec());
        }
        if text.starts_with(b"21") && answer.starts_with(b"0020") {
            self.enter_own(answer);
        }
    }

    /// An own operation goes to the group.
    fn enter_own(&mut self, answer: &[u8]) {
        let frame = Line::from_raw(&answer[2..]).decode();
        if let Some(frame) = frame.ok().and_then(|bytes| read_frame(&bytes, self.header.n).ok()) {
            self.group.enter(frame);
        }
    }

    // ---- the parts of a session ----

    fn before_opening(&mut self) {
        if self.rng.percent(25) {
            for _ in 0..self.rng.within(1, 4) {
                match self.rng.below(3) {
                    0 => self.good_line_misplaced(),
                    1 => self.malformed(),
                    _ => self.bad_opening(),
                }
            }
        }
    }

    fn opening(&mut self) {
        let bytes = opening_line(&self.header);
        self.put_bytes(&bytes);
    }

    fn step(&mut self) {
        self.peers_step();
        if self.program.station().is_none() {
            // A session without opening: nothing but refusals.
            return match self.rng.below(3) {
                0 => self.good_line_misplaced(),
                1 => self.bad_opening(),
                _ => self.malformed(),
            };
        }
        match self.rng.below(100) {
            0..=33 => self.frame(),
            34..=49 => self.own_operation(),
            50..=60 => self.settle(),
            61..=79 => self.question(),
            80..=82 => self.early_frame(),
            83..=84 => self.repeated_frame(),
            85..=86 => self.falling_frame(),
            87..=90 => self.bad_field_frame(),
            91..=92 => self.bad_own_operation(),
            93 => self.bad_question(),
            94..=96 => self.malformed(),
            97 => self.second_opening(),
            98 => self.burst(),
            _ => self.save(),
        }
        if self.refused_for_room.is_some() && self.rng.percent(50) {
            self.make_room();
        }
    }

    fn ending(&mut self) {
        if self.program.station().is_some() {
            self.every_question();
            self.put(b"3000ff");
            self.every_question();
            self.put(b"60");
        }
        if self.rng.percent(15) {
            self.last_line_without_end();
        }
    }

    fn last_line_without_end(&mut self) {
        match self.rng.below(4) {
            0 => self.out.extend(b"60"),
            1 => self.out.extend(b"4"),
            2 => self.out.extend(&encode(&opening_line(&self.header))),
            _ => {
                self.out.pop();
            }
        }
    }

    // ---- the group ----

    fn peers_step(&mut self) {
        if self.free || self.header.n == 1 {
            return;
        }
        for _ in 0..self.rng.below(self.pace + 2) {
            let others: Vec<usize> = self.header.others().collect();
            let peer = self.rng.pick(&others);
            let waiting = self.group.issued_by(peer) - self.clock().entry(peer) as usize;
            if self.rng.percent(30) && waiting < 6 {
                let request = self.request();
                self.group.peer_issues(peer, request, &mut self.rng);
            } else {
                self.group.peer_receives(peer, &mut self.rng);
            }
        }
    }

    fn clock(&self) -> Vector {
        match self.program.station() {
            Some(station) => station.table().clock.clone(),
            None => Vector::zero(self.header.n),
        }
    }

    /// L of this station, all 0 before the opening.
    fn last(&self, k: usize) -> Vector {
        match self.program.station() {
            Some(station) => station.table().last[k].clone(),
            None => Vector::zero(self.header.n),
        }
    }

    // ---- operations ----

    /// An operation that its kind allows.
    fn request(&mut self) -> Request {
        let object = self.object_for_operation();
        let kind = self.header.kinds[object];
        let code = self.code_for(kind);
        let value = self.value_for(kind, code);
        Request { object: object as u8, code, value }
    }

    /// In small tables rows of kinds 3 and 4 would soon fill it for ever.
    fn object_for_operation(&mut self) -> usize {
        let object = self.rng.below(self.header.kinds.len());
        let keeps = matches!(self.header.kinds[object], Kind::GrowSet | Kind::TwoPhaseSet);
        if keeps && self.header.capacity < 10 && self.rng.percent(80) {
            self.rng.below(self.header.kinds.len())
        } else {
            object
        }
    }

    fn code_for(&mut self, kind: Kind) -> u8 {
        let wished = self.rng.pick(&[1u8, 1, 1, 1, 1, 2, 2, 2, 2, 3]);
        match kind.byte() {
            1 | 3 => 1,
            2 | 4 | 5 | 6 => wished.min(2),
            7 if wished == 2 => 1,
            _ => wished,
        }
    }

    fn value_for(&mut self, kind: Kind, code: u8) -> u32 {
        if kind.is_counter() {
            let some = self.rng.within(1, 1_000_000) as u32;
            self.rng.pick(&[1, 2, 1_000_000, 999_999, some])
        } else if kind.is_flag() || code == 3 {
            0
        } else {
            self.rng.pick(&self.values.clone())
        }
    }

    fn own_operation(&mut self) {
        let mut request = self.request();
        let counter = self.header.counters().next();
        if let (true, Some(object)) = (self.quiet && self.rng.percent(85), counter) {
            request = Request { object: object as u8, code: 1, value: 1 };
        }
        self.put_bytes(&issue_bytes(&request));
    }

    /// A frame that the station can take now (or refuse for want of room).
    fn frame(&mut self) {
        if self.free {
            return self.free_frame();
        }
        let mut senders = self.group.ripe_senders(&self.clock());
        senders.retain(|sender| *sender != self.header.own);
        if senders.is_empty() {
            return self.own_operation();
        }
        let sender = self.rng.pick(&senders);
        if let Some(frame) = self.group.next_for(&self.clock(), sender).cloned() {
            self.put_bytes(&write_frame(&frame));
        }
    }

    /// Any vector between L[sender] and D, with the next number.
    fn free_frame(&mut self) {
        match self.next_frame_between() {
            Some(frame) => {
                self.put_bytes(&write_frame(&frame));
            }
            None => self.own_operation(),
        }
    }

    fn next_frame_between(&mut self) -> Option<Frame> {
        let others: Vec<usize> = self.header.others().collect();
        if others.is_empty() {
            return None;
        }
        let sender = self.rng.pick(&others);
        let clock = self.clock();
        let last = self.last(sender);
        let mut vector = clock.raised(sender)?;
        let full = self.rng.percent(if self.quiet { 15 } else { 40 });
        for station in (0..self.header.n).filter(|station| *station != sender) {
            if !full && self.rng.percent(60) {
                let (least, most) = (last.entry(station) as usize, clock.entry(station) as usize);
                vector.0[station] = self.rng.within(least, most) as u32;
            }
        }
        Some(Frame { sender: sender as u8, request: self.request(), vector })
    }

    // ---- bursts ----

    /// Many stations act on one value without knowing of each other; then
    /// these operations become stable one after the other, in any order, and
    /// the station settles and is asked between.
    fn burst(&mut self) {
        let counter = self.header.counters().next();
        let tagged: Vec<usize> =
            (0..self.header.kinds.len()).filter(|o| self.header.kinds[*o].byte() >= 5).collect();
        let (true, Some(counter)) = (self.free && !tagged.is_empty(), counter) else {
            return self.save();
        };
        let object = self.rng.pick(&tagged);
        let mut met = self.meeting(object);
        self.rng.shuffle(&mut met);
        for vector in met {
            if self.rng.percent(90) {
                self.acknowledge(&vector, counter);
                self.settle();
                let question = self.fitting_question(object).min(3);
                self.put_bytes(&question_bytes(object as u8, question, 0));
            }
        }
    }

    /// The vectors of operations on one value, none before another.
    fn meeting(&mut self, object: usize) -> Vec<Vector> {
        let kind = self.header.kinds[object];
        let value = self.value_for(kind, 1);
        let mut met = Vec::new();
        for sender in self.header.others().collect::<Vec<_>>() {
            let code = self.code_for(kind);
            let value = if code == 3 { 0 } else { value };
            let request = Request { object: object as u8, code, value };
            if let Some(vector) = self.last(sender).raised(sender) {
                let frame = Frame { sender: sender as u8, request, vector: vector.clone() };
                self.put_bytes(&write_frame(&frame));
                met.push(vector);
            }
        }
        met
    }

    /// Every other station sends an increase that names this vector too.
    fn acknowledge(&mut self, vector: &Vector, counter: usize) {
        for sender in self.header.others().collect::<Vec<_>>() {
            let request = Request { object: counter as u8, code: 1, value: 1 };
            let named = self.last(sender).greatest(vector);
            if let Some(vector) = named.raised(sender) {
                let frame = Frame { sender: sender as u8, request, vector };
                self.put_bytes(&write_frame(&frame));
            }
        }
    }

    // ---- settling, questions, saving ----

    fn settle(&mut self) {
        let some = self.rng.within(0, 65535) as u16;
        let limit = self.rng.pick(&[0, 1, 1, 2, 3, 5, 10, 256, 65535, 65535, some]);
        self.put_bytes(&settle_bytes(limit));
    }

    fn question(&mut self) {
        let object = self.rng.below(self.header.kinds.len());
        let question = if self.rng.percent(75) {
            self.fitting_question(object)
        } else {
            self.rng.within(1, 5) as u8
        };
        let value = if question == 5 { self.rng.pick(&self.values.clone()) } else { 0 };
        self.put_bytes(&question_bytes(object as u8, question, value));
    }

    fn fitting_question(&mut self, object: usize) -> u8 {
        let kind = self.header.kinds[object];
        if kind.is_counter() {
            1
        } else if kind.is_flag() {
            2
        } else {
            self.rng.within(3, 5) as u8
        }
    }

    fn every_question(&mut self) {
        for object in 0..self.header.kinds.len() {
            let kind = self.header.kinds[object];
            if kind.is_counter() {
                self.put_bytes(&question_bytes(object as u8, 1, 0));
            } else if kind.is_flag() {
                self.put_bytes(&question_bytes(object as u8, 2, 0));
            } else {
                self.put_bytes(&question_bytes(object as u8, 3, 0));
            }
        }
    }

    fn save(&mut self) {
        self.put(b"60");
    }

    // ---- room ----

    /// Settles, removes or clears, and offers the refused line again.
    fn make_room(&mut self) {
        match self.rng.below(4) {
            0 => {
                self.put(b"30ffff");
            }
            1 => self.own_remove(2),
            2 => self.own_remove(3),
            _ => self.frame(),
        }
        if let Some(text) = self.refused_for_room.clone() {
            self.put(&text);
        }
    }

    /// An own remove or clear on a value that has a row.
    fn own_remove(&mut self, code: u8) {
        let Some(station) = self.program.station() else { return };
        let rows = &station.table().rows;
        if rows.is_empty() {
            return;
        }
        let row = &rows[self.rng.below(rows.len())];
        let value = if code == 3 { 0 } else { row.value };
        let request = Request { object: row.object as u8, code, value };
        self.put_bytes(&issue_bytes(&request));
    }

    // ---- wrong frames ----

    /// A frame of the group that comes too early, or one made so.
    fn early_frame(&mut self) {
        match self.early_of_group() {
            Some(frame) => self.put_if_refused(&encode(&write_frame(&frame))),
            None => self.made_early_frame(),
        }
    }

    fn early_of_group(&mut self) -> Option<Frame> {
        let others: Vec<usize> = self.header.others().collect();
        if self.free || others.is_empty() {
            return None;
        }
        let sender = self.rng.pick(&others);
        let ahead = self.rng.within(1, 3) as u32;
        self.group.frame(sender, self.clock().entry(sender) + ahead).cloned()
    }

    fn made_early_frame(&mut self) {
        let Some(mut frame) = self.next_frame_between() else { return };
        let station = self.rng.below(self.header.n);
        let ahead = self.rng.pick(&[1, 2, u32::MAX]);
        let entry = frame.vector.0[station].max(self.clock().entry(station));
        frame.vector.0[station] = entry.saturating_add(ahead);
        self.put_if_refused(&encode(&write_frame(&frame)));
    }

    fn repeated_frame(&mut self) {
        if self.accepted.is_empty() || self.rng.percent(10) {
            return self.frame_with_low_number();
        }
        let text = self.rng.pick(&self.accepted.clone());
        self.put_if_refused(&text);
    }

    /// Number 0, or another number up to D, with any other entries.
    fn frame_with_low_number(&mut self) {
        let Some(mut frame) = self.next_frame_between() else { return };
        let sender = usize::from(frame.sender);
        let most = self.clock().entry(sender) as usize;
        frame.vector.0[sender] = self.rng.below(most + 1) as u32;
        self.put_if_refused(&encode(&write_frame(&frame)));
    }

    fn falling_frame(&mut self) {
        let Some(mut frame) = self.next_frame_between() else { return };
        let sender = usize::from(frame.sender);
        let last = self.last(sender);
        let high = |station: &usize| *station != sender && last.entry(*station) > 0;
        let stations: Vec<usize> = (0..self.header.n).filter(high).collect();
        if stations.is_empty() {
            return;
        }
        let station = self.rng.pick(&stations);
        frame.vector.0[station] = self.rng.below(last.entry(station) as usize) as u32;
        self.put_if_refused(&encode(&write_frame(&frame)));
    }

    /// A frame right but for its sender, object, code or value.
    fn bad_field_frame(&mut self) {
        let mut frame = match self.next_frame_between() {
            Some(frame) => frame,
            None => self.frame_of_nobody(),
        };
        match self.rng.below(3) {
            0 => frame.sender = self.bad_sender(),
            1 => self.spoil(&mut frame.request),
            _ => self.several_faults(&mut frame),
        }
        self.put_if_refused(&encode(&write_frame(&frame)));
    }

    /// Several faults at once show the order in which they are tried.
    fn several_faults(&mut self, frame: &mut Frame) {
        if self.rng.percent(20) {
            frame.sender = self.bad_sender();
        }
        if self.rng.percent(50) {
            self.spoil(&mut frame.request);
        }
        let clock = self.clock();
        for station in 0..self.header.n {
            if self.rng.percent(40) {
                let known = clock.entry(station);
                let entries = [0, known.saturating_sub(1), known, known + 1, known + 2, u32::MAX];
                frame.vector.0[station] = self.rng.pick(&entries);
            }
        }
    }

    /// With N = 1 no frame has a sender that may be accepted.
    fn frame_of_nobody(&mut self) -> Frame {
        let vector = Vector(vec![self.rng.below(3) as u32; self.header.n]);
        Frame { sender: 0, request: self.request(), vector }
    }

    fn bad_sender(&mut self) -> u8 {
        let n = self.header.n as u8;
        let own = self.header.own as u8;
        self.rng.pick(&[own, own, n, n + 1, 255])
    }

    fn spoil(&mut self, request: &mut Request) {
        let count = self.header.kinds.len() as u8;
        match self.rng.below(4) {
            0 => request.object = self.rng.pick(&[count, count + 1, 32, 255]),
            1 => request.code = self.rng.pick(&[0, 2, 3, 4, 255]),
            2 => request.value = self.rng.pick(&[0, 1, 7, 1_000_001, u32::MAX]),
            _ => {
                request.code = 3;
                request.value = self.rng.pick(&[1, 7]);
            }
        }
    }

    fn bad_own_operation(&mut self) {
        let mut request = self.request();
        self.spoil(&mut request);
        self.put_if_refused(&encode(&issue_bytes(&request)));
    }

    /// Unknown question, a value where none is taken, or object not declared.
    fn bad_question(&mut self) {
        let count = self.header.kinds.len();
        let mut object = self.rng.below(count) as u8;
        let mut question = self.rng.within(1, 5) as u8;
        let mut value = 0;
        match self.rng.below(4) {
            0 => question = self.rng.pick(&[0, 6, 255]),
            1 => value = self.rng.pick(&[1, 7, u32::MAX, 1 << 24]),
            2 => object = self.rng.pick(&[count as u8, 32, 255]),
            _ => {
                object = count as u8;
                question = self.rng.pick(&[0, 1, 6]);
                value = self.rng.pick(&[0, 1]);
            }
        }
        self.put_if_refused(&encode(&question_bytes(object, question, value)));
    }

    // ---- openings ----

    fn second_opening(&mut self) {
        if self.rng.percent(30) {
            return self.bad_opening();
        }
        let other = random_header(&mut self.rng);
        let header = self.rng.pick(&[other, self.header.clone()]);
        self.put_if_refused(&encode(&opening_line(&header)));
    }

    fn bad_opening(&mut self) {
        let bytes = opening_line(&random_header(&mut self.rng));
        let text = if self.rng.percent(65) {
            encode(&opening_out_of_range(bytes, &mut self.rng))
        } else {
            opening_out_of_shape(bytes, &mut self.rng)
        };
        self.put_if_refused(&text);
    }

    // ---- lines out of shape or place ----

    /// A line that would be right in an opened station.
    fn good_line(&mut self) -> Vec<u8> {
        match self.rng.below(6) {
            0 => issue_bytes(&self.request()),
            1 => settle_bytes(self.rng.below(65536) as u16),
            2 => question_bytes(self.rng.below(self.header.kinds.len()) as u8, 3, 0),
            3 => vec![0x60],
            4 => opening_line(&self.header),
            _ => {
                let frame = self.next_frame_between();
                frame.map_or(vec![0x60], |frame| write_frame(&frame))
            }
        }
    }

    fn good_line_misplaced(&mut self) {
        let line = self.good_line();
        self.put_if_refused(&encode(&line));
    }

    fn malformed(&mut self) {
        let line = self.good_line();
        let text = match self.rng.below(10) {
            0 => self.line_of_other_type(),
            1 => self.other_group_size(line),
            2 => self.other_length(line),
            _ => spoiled_text(encode(&line), &mut self.rng),
        };
        self.put_if_refused(&text);
    }

    fn line_of_other_type(&mut self) -> Vec<u8> {
        let any = self.rng.below(256) as u8;
        let saved = self.rng.within(0x50, 0x5f) as u8;
        let types = [0x00, 0x11, 0x22, 0x31, 0x41, 0x61, 0xff, 0x5f, 0x50, saved, saved, any];
        let mut bytes = self.good_line();
        bytes[0] = self.rng.pick(&types);
        encode(&bytes)
    }

    /// A frame whose N is not the table's, in its own length or in the other.
    fn other_group_size(&mut self, line: Vec<u8>) -> Vec<u8> {
        let Some(mut frame) = self.next_frame_between() else { return encode(&line) };
        if self.rng.percent(50) {
            frame.vector.0.push(0);
            return encode(&write_frame(&frame));
        }
        let mut bytes = write_frame(&frame);
        bytes[1] = self.rng.pick(&[0, 1, 3, 16, 17, 255]);
        encode(&bytes)
    }

    fn other_length(&mut self, mut line: Vec<u8>) -> Vec<u8> {
        match self.rng.below(4) {
            0 => line.push(0),
            1 => {
                line.pop();
            }
            2 => line.extend([0; 4]),
            _ => line.truncate(self.rng.below(3)),
        }
        encode(&line)
    }
}
