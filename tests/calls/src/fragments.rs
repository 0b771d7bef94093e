//! Lists of splitting and joining calls from a seed. The messages that a list splits are opened and go to its joiner: fragments get lost,
//! come again, late, damaged or among another message's. Most calls take the record that the call before handed back. The others take another
//! one, sound or not, and what they hand back is dropped.

use crate::any;
use crate::call::{Call, Calls, Left, Record};
use second::fragment::{Joiner, MAX_FRAGMENTS, MAX_MESSAGE, MAX_SIZE, MIN_SIZE, MORE_FRAG};
use second::frame::{header_length, Receiver, Sender, ADDED, MAX_BODY, MAX_NUMBER};
use second::sample::Random;
use second::window::SIZES;
use std::collections::VecDeque;

/// No message joins those that wait where there are so many fragments.
const ENOUGH: usize = 16;

/// An opened fragment with its number.
type Fragment = (Vec<u8>, u64);

pub struct Fragments {
    random: Random,
    sender: Sender,
    joiner: Box<Joiner>,
    /// Fragments on their way to the joiner.
    waiting: VecDeque<Fragment>,
    /// Those that were on their way before.
    past: Vec<Fragment>,
    /// Whether the record that the last call hands back goes into the next one.
    keeps: bool,
}

/// A joiner that this fragment continues, if there is one. It holds as much as the fragment has.
pub fn continued(frame: &[u8], number: u64) -> Option<Joiner> {
    let fragment = (frame.get(22)? & 0x0f).checked_sub(1)?;
    let (mut first, mut joiner) = (frame.to_vec(), Joiner::default());
    first[1] |= MORE_FRAG;
    first[22] &= 0xf0;
    joiner.join(&first, number.checked_sub(1)?, &mut []).ok()?;
    Some(Joiner { fragment, ..joiner })
}

/// The octets after the header.
pub fn body(frame: &[u8]) -> usize {
    if frame.len() < 2 {
        return 0;
    }
    frame.len().saturating_sub(header_length(frame))
}

impl Calls for Fragments {
    fn next_call(&mut self) -> Call {
        if self.random.below(16) < 7 {
            self.split()
        } else {
            self.join()
        }
    }

    fn took(&mut self, call: &Call, left: &Left) {
        match (call, &left.record) {
            (Call::Split { sender, frame, size, .. }, Record::Sender(after)) => {
                if self.keeps {
                    self.sender = after.clone();
                }
                if left.told[0] == 0 && self.waiting.len() < ENOUGH {
                    self.send(sender, left.room[..left.told[3] as usize].chunks(header_length(frame) + size + ADDED));
                }
            }
            (Call::Join { frame, number, .. }, Record::Joiner(after)) if self.keeps => {
                self.joiner = after.clone();
                // A message that found no room is finished again.
                if left.told[0] == 6 {
                    self.waiting.push_front((frame.clone(), *number));
                }
            }
            _ => {}
        }
    }
}

impl Fragments {
    /// In one list in three numbers soon come to their end.
    pub fn new(seed: u64) -> Self {
        let mut random = Random(!seed);
        let (key, key_id, address) = (random.array(), (seed % 4) as u8, random.array());
        let last_number = match seed % 3 {
            0 => 0,
            1 => MAX_NUMBER - random.draw() % 100,
            _ => random.draw() >> 16 >> random.below(40),
        };
        let sender = Sender { key, key_id, address, last_number };
        Fragments { random, sender, joiner: Box::default(), waiting: VecDeque::new(), past: Vec::new(), keeps: true }
    }

    /// Opens the fragments of a message and puts them on their way: one message in six among those that wait, the others after them.
    fn send<'a>(&mut self, sender: &Sender, sealed: impl Iterator<Item = &'a [u8]>) {
        let (_, mut receiver) = Receiver::fresh(sender.key, sender.key_id, sender.address, self.random.pick(&SIZES));
        let mut place = if self.random.one_in(6) { 0 } else { self.waiting.len() };
        for text in sealed {
            let mut frame = vec![0; text.len() - ADDED];
            let number = receiver.open(text, &mut frame).expect("a fragment that opens").number;
            place = self.waiting.len().min(place + self.random.below(3));
            self.waiting.insert(place, (frame, number));
            place += 1;
        }
    }

    /// One that was on its way before.
    fn past_one(&mut self) -> Option<Fragment> {
        let place = self.random.below(self.past.len().max(1));
        self.past.get(place).cloned()
    }

    /// The fragment to join next: mostly in order; or late, or again, or after one that was lost.
    fn delivery(&mut self) -> Option<Fragment> {
        if self.random.one_in(40) {
            self.waiting.pop_front();
        }
        if self.random.one_in(if self.waiting.is_empty() { 2 } else { 40 }) {
            return self.past_one();
        }
        let place = if self.random.one_in(40) { self.random.below(self.waiting.len().max(1)) } else { 0 };
        let fragment = self.waiting.remove(place)?;
        self.past.push(fragment.clone());
        Some(fragment)
    }

    /// A size to cut at: mostly a small one, so that few octets make many fragments.
    fn size(&mut self) -> usize {
        let random = &mut self.random;
        match random.below(16) {
            0 => random.pick(&[0, 1, 2, MIN_SIZE - 2, MIN_SIZE - 1, MIN_SIZE + 1, MAX_SIZE - 1, MAX_SIZE + 1, MAX_SIZE + 2, usize::MAX - 1]),
            1 => random.draw() as usize >> random.below(64),
            2 => random.pick(&[MIN_SIZE, 142, 144, 146, MAX_SIZE - 2, MAX_SIZE]),
            3 => MIN_SIZE + 2 * random.below((MAX_SIZE - MIN_SIZE) / 2 + 1),
            _ => MIN_SIZE + 2 * random.below(10),
        }
    }

    /// The length of a message for this size: of few fragments or any number up to one too many, the last one often whole.
    fn message(&mut self, size: usize) -> usize {
        let random = &mut self.random;
        match random.below(24) {
            0 => random.pick(&[0, 1, MAX_MESSAGE, MAX_MESSAGE + 1]),
            1 => random.below(MAX_MESSAGE + 10),
            which => {
                let size = size.clamp(MIN_SIZE, MAX_SIZE);
                let fragments = 1 + random.below(if which.is_multiple_of(2) { 4 } else { MAX_FRAGMENTS + 1 });
                let missing = if random.one_in(3) { 0 } else { random.below(size) };
                // One octet more than 16 fragments hold needs 17 just as well.
                (fragments * size - missing).min(MAX_FRAGMENTS * size + 1).min(MAX_MESSAGE)
            }
        }
    }

    fn split(&mut self) -> Call {
        let size = self.size();
        let mut frame = self.random.plain(self.sender.address);
        frame.truncate(header_length(&frame));
        let message = self.message(size);
        frame.extend(self.random.octets(message));
        // So that messages have a sequence number in common.
        if self.random.one_in(2) {
            (frame[22], frame[23]) = (frame[22] & 0x1f, 0);
        }
        while frame.len() >= 24 && self.random.one_in(5) {
            self.random.spoil(&mut frame);
        }
        any::octets(&mut self.random, &mut frame);
        let fragments = body(&frame).div_ceil(size.max(1)).min(MAX_FRAGMENTS + 1);
        let mut sender = self.sender.clone();
        self.keeps = !self.random.one_in(3);
        if !self.keeps {
            sender = any::sender(&mut self.random, sender);
            // Just enough numbers, one more or one too few.
            if self.random.one_in(3) {
                sender.last_number = MAX_NUMBER + 1 - fragments as u64 - self.random.draw() % 3;
            }
        }
        let room = any::room(&mut self.random, body(&frame) + fragments * (frame.len() - body(&frame) + ADDED));
        Call::Split { sender, frame, size, room }
    }

    fn join(&mut self) -> Call {
        self.keeps = !self.random.one_in(3);
        let next = if self.keeps { self.delivery() } else { self.waiting.front().cloned().or_else(|| self.past_one()) };
        let (Some((mut frame, mut number)), mut joiner) = (next, self.joiner.clone()) else {
            return self.split();
        };
        if !self.keeps {
            match self.random.below(8) {
                0 => self.another_joiner(&mut joiner),
                1 => number = self.another_number(number),
                2 => self.damage(&mut frame),
                _ => self.nearly_continued(&mut joiner, &mut frame, &mut number),
            }
        } else if self.random.one_in(12) {
            // The whole one comes after it.
            self.waiting.push_front((frame.clone(), number));
            self.damage(&mut frame);
        }
        any::octets(&mut self.random, &mut frame);
        let before = if frame.get(22).is_some_and(|octet| octet & 0x0f > 0) { joiner.length.min(MAX_MESSAGE) } else { 0 };
        let room = any::room(&mut self.random, before + body(&frame));
        Call::Join { joiner, frame, number, room }
    }

    fn another_number(&mut self, number: u64) -> u64 {
        match self.random.below(4) {
            0 => number + 1,
            1 => number.saturating_sub(1),
            _ => any::number(&mut self.random),
        }
    }

    fn damage(&mut self, frame: &mut Vec<u8>) {
        if self.random.one_in(4) {
            let length = self.random.pick(&[0, 1, MAX_SIZE, MAX_SIZE, MAX_SIZE + 1, MAX_BODY]);
            return frame.resize(header_length(frame) + length, 0x5a);
        }
        self.random.spoil(frame);
        while frame.len() >= 24 && self.random.one_in(3) {
            self.random.spoil(frame);
        }
    }

    /// One field changed, to a limit or past it.
    fn another_joiner(&mut self, joiner: &mut Joiner) {
        let random = &mut self.random;
        match random.below(8) {
            0 => joiner.length = random.pick(&[0, 1, MAX_MESSAGE, MAX_MESSAGE + 1, usize::MAX]),
            1 => joiner.address = random.array(),
            2 => joiner.priority = random.pick(&[0, 15, 16, 255]),
            3 => joiner.sequence = random.pick(&[0, 4_095, 4_096, 65_535]),
            4 => joiner.fragment = random.pick(&[0, 14, 15, 16, 255]),
            5 => joiner.held = random.array(),
            _ => joiner.number = any::number(random),
        }
    }

    /// A joiner that the fragment continues, or that differs from it in one thing.
    fn nearly_continued(&mut self, joiner: &mut Joiner, frame: &mut [u8], number: &mut u64) {
        let random = &mut self.random;
        if frame[22] & 0x0f == 0 {
            frame[22] |= 1 + random.below(15) as u8;
        }
        if random.one_in(3) {
            frame[1] ^= MORE_FRAG;
        }
        *joiner = continued(frame, *number).expect("a fragment that was opened");
        let most = MAX_MESSAGE - joiner.length;
        joiner.held = random.array();
        joiner.length = 1 + random.below(most);
        match random.below(12) {
            0 => joiner.address[random.below(6)] ^= 1 << random.below(8),
            1 => joiner.priority ^= 1 << random.below(4),
            2 => joiner.sequence ^= 1 << random.below(12),
            3 => joiner.fragment ^= 1 << random.below(4),
            4 => joiner.number ^= 1 << random.below(48),
            5 => (joiner.number, *number) = (MAX_NUMBER, 0),
            6 => joiner.length = 0,
            7 => joiner.length = most,
            8 => joiner.length = MAX_MESSAGE.min(most + 1 + random.below(20)),
            9 | 10 => frame[22] &= 0xf0,
            _ => {}
        }
    }
}
