//! A simulated group: what each sender has issued, and simulated peers that
//! issue concurrently and deliver to each other out of step.

use crate::lines::{Frame, Request};
use crate::rng::Rng;
use crate::vector::Vector;

/// A simulated peer knows only clocks; it has no table.
#[derive(Clone, Debug)]
struct Peer {
    /// For each sender, how many of its operations have reached this peer.
    known: Vector,
    /// The vector of its last frame. Its next one may not fall below it.
    sent: Vector,
}

#[derive(Clone, Debug)]
pub struct Group {
    /// For each sender, its frames in order: number 1 first.
    log: Vec<Vec<Frame>>,
    peers: Vec<Peer>,
    /// How often, in percent, a peer names less than it knows in an entry.
    skipping: usize,
}

impl Group {
    pub fn new(n: usize, skipping: usize) -> Group {
        let peer = Peer { known: Vector::zero(n), sent: Vector::zero(n) };
        Group { log: vec![Vec::new(); n], peers: vec![peer; n], skipping }
    }

    /// From now on peers name all they know.
    pub fn name_all_known(&mut self) {
        self.skipping = 0;
    }

    /// Enters a frame that a real station issued.
    pub fn enter(&mut self, frame: Frame) {
        self.log[usize::from(frame.sender)].push(frame);
    }

    pub fn issued_by(&self, sender: usize) -> usize {
        self.log[sender].len()
    }

    /// The frame of this sender with this number.
    pub fn frame(&self, sender: usize, number: u32) -> Option<&Frame> {
        self.log[sender].get(number.checked_sub(1)? as usize)
    }

    /// The next frame of this sender for a station with this clock.
    pub fn next_for(&self, clock: &Vector, sender: usize) -> Option<&Frame> {
        self.frame(sender, clock.entry(sender).checked_add(1)?)
    }

    /// The next frame of this sender, if such a station can take it now.
    pub fn ripe_for(&self, clock: &Vector, sender: usize) -> Option<&Frame> {
        let next = clock.raised(sender)?;
        self.next_for(clock, sender).filter(|frame| frame.vector.at_or_below(&next))
    }

    /// The senders whose next frame such a station can take now.
    pub fn ripe_senders(&self, clock: &Vector) -> Vec<usize> {
        (0..self.log.len()).filter(|sender| self.ripe_for(clock, *sender).is_some()).collect()
    }

    /// A peer issues an operation, with what it knows or with entries skipped.
    pub fn peer_issues(&mut self, peer: usize, request: Request, rng: &mut Rng) {
        let Some(known) = self.peers[peer].known.raised(peer) else { return };
        let mut vector = known.clone();
        for station in (0..self.log.len()).filter(|station| *station != peer) {
            if rng.percent(self.skipping) {
                let floor = self.peers[peer].sent.entry(station) as usize;
                vector.0[station] = rng.within(floor, known.entry(station) as usize) as u32;
            }
        }
        self.peers[peer] = Peer { known, sent: vector.clone() };
        self.enter(Frame { sender: peer as u8, request, vector });
    }

    /// One frame, of any sender that has a ripe one, reaches this peer.
    pub fn peer_receives(&mut self, peer: usize, rng: &mut Rng) {
        let mut senders = self.ripe_senders(&self.peers[peer].known);
        senders.retain(|sender| *sender != peer);
        if !senders.is_empty() {
            let sender = rng.pick(&senders);
            self.peers[peer].known.0[sender] += 1;
        }
    }

    /// Every issued frame reaches this peer.
    pub fn peer_receives_all(&mut self, peer: usize, rng: &mut Rng) {
        let missing: usize = (0..self.log.len())
            .map(|sender| self.log[sender].len() - self.peers[peer].known.entry(sender) as usize)
            .sum();
        for _ in 0..missing {
            self.peer_receives(peer, rng);
        }
    }
}
