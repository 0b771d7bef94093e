//! Lists of sealing and opening calls from a seed. A list makes a sender and a receiver with one key and address; the frames that it seals
//! get lost, come again, late or damaged. In half of the lists they have one priority, or none, and come shuffled, a burst of them from the
//! start on. Most calls take the record that the call before handed back. The others take one that differs from it in some field, and what
//! they hand back is dropped.

use crate::air::Air;
use crate::any;
use crate::call::{Call, Calls, Left, Record};
use second::frame::{has_ht, header_length, Receiver, Sender, ADDED, MAX_BODY, MAX_NUMBER, ORDER};
use second::sample::Random;
use second::window::SIZES;

/// The frames of a burst.
const BURST: u64 = 64;

pub struct List {
    seed: u64,
    random: Random,
    made: usize,
    sender: Sender,
    receiver: Box<Receiver>,
    /// Between the two.
    air: Air,
    /// That of all frames that have one, where they come shuffled.
    priority: Option<u8>,
    /// Whether the record that the last call hands back goes into the next one.
    keeps: bool,
}

impl Calls for List {
    fn next_call(&mut self) -> Call {
        self.made += 1;
        match self.made {
            1 => return Call::FreshSender { key: self.sender.key, key_id: self.sender.key_id, address: self.sender.address },
            2 => {
                let Receiver { key, key_id, peer, window_size: size, .. } = *self.receiver;
                return Call::FreshReceiver { key, key_id, peer, size };
            }
            3 => {
                self.go_ahead();
                self.burst();
            }
            _ => {}
        }
        match self.random.below(16) {
            0 => self.fresh(),
            1..7 => self.seal(),
            _ => self.open(),
        }
    }

    fn took(&mut self, _: &Call, left: &Left) {
        if !self.keeps {
            return;
        }
        match left.record.clone() {
            Record::Joiner(_) | Record::Table(_) => {}
            Record::Receiver(receiver) => self.receiver = receiver,
            Record::Sender(sender) => {
                self.sender = sender;
                if left.told[3] > 0 {
                    self.air.send(&mut self.random, &left.room[..left.told[3] as usize]);
                }
            }
        }
    }
}

impl List {
    pub fn new(seed: u64) -> Self {
        let mut random = Random(seed);
        let (key, key_id, address) = (random.array(), (seed % 4) as u8, random.array());
        let sender = Sender { key, key_id, address, ..Sender::default() };
        let receiver = Receiver { key, key_id, peer: address, window_size: random.pick(&SIZES), ..Receiver::default() };
        let priority = random.one_in(2).then(|| random.below(16) as u8);
        List { seed, random, made: 0, sender, receiver: Box::new(receiver), air: Air::new(priority.is_some()), priority, keeps: true }
    }

    /// One list in three goes on from the fresh records. In the others numbers, or counts, soon come to their end.
    fn go_ahead(&mut self) {
        match self.seed % 3 {
            0 => {}
            1 => self.sender.last_number = MAX_NUMBER - self.random.draw() % 40 - self.burst_length(),
            _ => {
                self.sender.last_number = self.random.draw() >> 16 >> self.random.below(40);
                // PN5, which b15 set on the way makes the key octet, may be a right one.
                if self.random.one_in(2) {
                    self.sender.last_number = u64::from(self.key_octet()) << 40 | self.random.draw() >> 24;
                }
                any::counts_near_their_end(&mut self.random, &mut self.receiver);
            }
        }
    }

    fn burst_length(&self) -> u64 {
        self.priority.map_or(0, |_| BURST)
    }

    /// Seals the frames that are on their way from the start.
    fn burst(&mut self) {
        for _ in 0..self.burst_length() {
            let frame = self.plain();
            let mut sealed = vec![0; frame.len() + ADDED];
            self.sender.seal(&frame, &mut sealed).expect("a frame that sealing takes");
            self.air.send(&mut self.random, &sealed);
        }
    }

    /// A frame that sealing takes.
    fn plain(&mut self) -> Vec<u8> {
        let mut frame = self.random.plain(self.sender.address);
        if let Some(priority) = self.priority {
            any::set_priority(&mut frame, priority);
        }
        frame
    }

    fn key_octet(&self) -> u8 {
        0x20 | self.receiver.key_id << 6
    }

    /// A fresh record, half of them with a key ID over 3, and some receivers with a wrong size.
    fn fresh(&mut self) -> Call {
        self.keeps = false;
        let (key, address) = (self.random.array(), self.random.array());
        let key_id = self.random.draw() as u8 & self.random.pick(&[0x03, 0x07, 0xff]);
        if self.random.one_in(2) {
            Call::FreshSender { key, key_id, address }
        } else {
            let size = if self.random.one_in(3) { any::wrong_size(&mut self.random) } else { self.random.pick(&SIZES) };
            Call::FreshReceiver { key, key_id, peer: address, size }
        }
    }

    fn seal(&mut self) -> Call {
        let mut frame = self.plain();
        any::resize(&mut self.random, &mut frame, &[0, 1, MAX_BODY, MAX_BODY + 1]);
        while frame.len() >= 24 && self.random.one_in(4) {
            self.random.spoil(&mut frame);
        }
        any::octets(&mut self.random, &mut frame);
        let mut sender = self.sender.clone();
        self.keeps = !self.random.one_in(3);
        if !self.keeps {
            sender = any::sender(&mut self.random, sender);
        }
        let room = any::room(&mut self.random, frame.len() + ADDED);
        Call::Seal { sender, frame, room }
    }

    fn open(&mut self) -> Call {
        if self.random.one_in(4) {
            return self.open_near();
        }
        let Some(mut frame) = self.air.delivery(&mut self.random) else {
            return self.seal();
        };
        match self.random.below(6) {
            0 | 1 => self.air.damage(&mut self.random, &mut frame),
            2 => self.turn_b15(&mut frame),
            _ => {}
        }
        any::octets(&mut self.random, &mut frame);
        let mut receiver = self.receiver.clone();
        self.keeps = !self.random.one_in(3);
        if !self.keeps {
            receiver = self.another_receiver();
        }
        let room = any::room(&mut self.random, frame.len().saturating_sub(ADDED));
        Call::Open { receiver, frame, room }
    }

    /// A frame with any number, and a window near it.
    fn open_near(&mut self) -> Call {
        self.keeps = false;
        let (plain, mut receiver) = (self.random.plain(self.receiver.peer), self.receiver.clone());
        let frame = any::near(&mut self.random, &mut receiver, &plain);
        let room = self.random.octets(plain.len());
        Call::Open { receiver, frame, room }
    }

    /// Turns b15 over in a sealed frame; the whole one comes after it. HT Control's last octet, which b15 cleared makes the key octet, may
    /// be a right one.
    fn turn_b15(&mut self, frame: &mut [u8]) {
        self.air.again(frame);
        let header = header_length(frame);
        if has_ht(frame) && self.random.one_in(2) {
            frame[header - 1] = self.key_octet();
        }
        frame[1] ^= ORDER;
    }

    /// The list's receiver with one field changed.
    fn another_receiver(&mut self) -> Box<Receiver> {
        let (mut receiver, random) = (self.receiver.clone(), &mut self.random);
        let size = receiver.window_size;
        match random.below(12) {
            0 => receiver.key[random.below(16)] ^= 1 << random.below(8),
            1 => receiver.key_id = any::key_id(random),
            2 => receiver.peer[random.below(6)] ^= 1 << random.below(8),
            3 => receiver.window_size = random.pick(&SIZES),
            4 => receiver.window_size = any::wrong_size(random),
            5 | 6 => receiver.windows[random.below(16)] = any::any_window(random),
            7 | 8 => receiver.windows[random.below(16)] = any::unsound_window(random, size),
            9 => receiver.windows = receiver.windows.map(|window| any::window(random, window.greatest, size)),
            _ => any::counts_near_their_end(random, &mut receiver),
        }
        receiver
    }
}
