//! The radio between two records: sealed frames get lost, come again, late or damaged.

use crate::any;
use second::frame::MAX_BODY;
use second::sample::{Random, SHORTEST_SEALED};
use std::collections::VecDeque;

/// A radio that shuffles brings a frame up to so many places from its own.
const PLACES: usize = 20;

#[derive(Default)]
pub struct Air {
    shuffles: bool,
    /// Goes on with each frame sent, and now and then where none came.
    clock: usize,
    /// Sealed frames on their way, each with the time at which it comes, in this order.
    waiting: VecDeque<(usize, Vec<u8>)>,
    /// Those that were on their way before.
    past: Vec<Vec<u8>>,
}

impl Air {
    pub fn new(shuffles: bool) -> Self {
        Air { shuffles, ..Air::default() }
    }

    pub fn send(&mut self, random: &mut Random, frame: &[u8]) {
        self.clock += 1;
        let time = self.clock + if self.shuffles { random.below(PLACES + 1) } else { 0 };
        let place = self.waiting.partition_point(|&(other, _)| other <= time);
        self.waiting.insert(place, (time, frame.to_vec()));
    }

    /// Sends a frame once more, before all others.
    pub fn again(&mut self, frame: &[u8]) {
        self.waiting.push_front((0, frame.to_vec()));
    }

    /// One that was on its way before, and where frames are shuffled mostly one of the last.
    fn past_one(&self, random: &mut Random) -> Option<Vec<u8>> {
        let from = if self.shuffles && !random.one_in(4) { self.past.len().saturating_sub(PLACES) } else { 0 };
        let place = from + random.below((self.past.len() - from).max(1));
        self.past.get(place).cloned()
    }

    /// The sealed frame to deliver next: in order or not, or again, or after one that was lost.
    pub fn delivery(&mut self, random: &mut Random) -> Option<Vec<u8>> {
        if random.one_in(12) {
            self.waiting.pop_front();
        }
        let comes = self.waiting.front().is_some_and(|&(time, _)| time <= self.clock);
        if random.one_in(if comes { 6 } else { 2 }) {
            return self.past_one(random);
        }
        if !comes {
            self.clock += usize::from(random.one_in(4));
            return None;
        }
        let place = if !self.shuffles && random.one_in(4) { random.below(self.waiting.len()) } else { 0 };
        let (_, frame) = self.waiting.remove(place)?;
        self.past.push(frame.clone());
        Some(frame)
    }

    /// Damage to a sealed frame; the whole one may come after it.
    pub fn damage(&mut self, random: &mut Random, frame: &mut Vec<u8>) {
        if random.one_in(2) {
            self.again(frame);
        }
        any::resize(random, frame, &[0, 1, 15, 16, 17, 18, 16 + MAX_BODY, 17 + MAX_BODY]);
        while frame.len() >= SHORTEST_SEALED && !random.one_in(3) {
            random.damage(frame);
        }
    }
}
