//! Lists of calls on tables from a seed. A list has two tables that face each other, a box's and its cameras': what one adds or removes the
//! other mostly does next, and what one seals is on its way to the other. Where they have few entries all frames have one priority, or none,
//! and come shuffled, a burst of them once both have an entry. Most calls take the table that the last call on it handed back. The others take
//! one that differs from it, sound or not, and what they hand back is dropped.

use crate::air::Air;
use crate::any;
use crate::call::{Call, Calls, Left, Record};
use second::frame::{header_length, Receiver, ADDED, MAX_BODY, MAX_NUMBER, PROTECTED};
use second::sample::{Random, SHORTEST_SEALED};
use second::table::{Entry, Pairing, Table, Triple, ENTRIES};
use second::window::SIZES;

type Address = [u8; 6];

/// Frames to tables that mostly have so many entries in use, or fewer, come shuffled.
const FEW: usize = 4;
/// The frames of a burst, each way.
const BURST: usize = 32;

/// Where A1 and A2 begin in a frame.
const A1: usize = 4;
const A2: usize = 10;

#[derive(Default)]
struct End {
    table: Box<Table>,
    /// The addresses that it has as its own.
    addresses: Vec<Address>,
    /// What is on its way to it.
    air: Air,
}

/// What the other end does next.
enum Change {
    Add(Pairing),
    Remove(Triple),
}

pub struct Tables {
    random: Random,
    made: usize,
    ends: [End; 2],
    /// Entries that a table has in use most of the time.
    most: usize,
    /// That of all frames that have one, where they come shuffled.
    priority: Option<u8>,
    /// The end that the last call was made at.
    at: usize,
    next: Option<Change>,
    /// Whether the last call did what the other end had done.
    follows: bool,
    /// Whether the table that the last call hands back goes into the next one.
    keeps: bool,
}

fn address_at(frame: &[u8], at: usize) -> Option<Address> {
    frame.get(at..at + 6)?.try_into().ok()
}

/// What sealing looks for, where the frame has both addresses.
pub fn asked_to_seal(frame: &[u8], key_id: u8) -> Option<Triple> {
    Some(Triple { own: address_at(frame, A2)?, peer: address_at(frame, A1)?, key_id })
}

/// What opening looks for, where the frame has all that says it.
pub fn asked_to_open(frame: &[u8]) -> Option<Triple> {
    let (own, peer) = (address_at(frame, A1)?, address_at(frame, A2)?);
    Some(Triple { own, peer, key_id: frame.get(header_length(frame) + 3)? >> 6 })
}

pub fn place_of(table: &Table, triple: Triple) -> Option<usize> {
    table.entries.iter().position(|entry| entry.used && entry.triple() == triple)
}

pub fn turned(triple: Triple) -> Triple {
    Triple { own: triple.peer, peer: triple.own, ..triple }
}

/// So many addresses, which differ from the first in one bit each.
fn addresses(random: &mut Random, count: usize) -> Vec<Address> {
    let first: Address = random.array();
    let mut all = vec![first; count];
    for (octet, address) in (0..6).cycle().zip(&mut all[1..]) {
        address[octet] ^= 1 << random.below(8);
    }
    all
}

impl Calls for Tables {
    fn next_call(&mut self) -> Call {
        self.made += 1;
        if self.made <= 2 {
            self.at = self.made - 1;
            return Call::NewTable;
        }
        self.follows = self.next.is_some();
        if let Some(change) = self.next.take() {
            (self.at, self.keeps) = (1 - self.at, true);
            let table = self.end().table.clone();
            return match change {
                Change::Add(pairing) => Call::TableAdd { table, pairing },
                Change::Remove(triple) => Call::TableRemove { table, triple },
            };
        }
        self.at = self.random.below(2);
        let in_use = self.in_use().len();
        // A table of one entry is left empty for a while.
        if in_use < self.most && self.random.below(16) < if self.most == 1 { 3 } else { 12 } {
            return self.add(self.most > 1);
        }
        // So that the frames of a burst come before their entry goes.
        if in_use > 0 && self.priority.is_some() && !self.random.one_in(4) {
            return self.open();
        }
        match self.random.below(if in_use > self.most { 36 } else { 32 }) {
            0..3 => self.add(false),
            3..12 => self.seal(),
            12..28 => self.open(),
            _ => self.remove(),
        }
    }

    fn took(&mut self, call: &Call, left: &Left) {
        let (Record::Table(after), true) = (&left.record, self.keeps) else {
            return;
        };
        self.ends[self.at].table = after.clone();
        match call {
            _ if left.told[0] > 0 => {}
            Call::NewTable => self.begin(),
            Call::TableSeal { .. } => self.ends[1 - self.at].air.send(&mut self.random, &left.room[..left.told[3] as usize]),
            Call::TableAdd { pairing, .. } => {
                self.go_ahead(pairing.triple);
                if self.follows && self.priority.is_some() {
                    self.burst(self.at, pairing.triple);
                    self.burst(1 - self.at, turned(pairing.triple));
                }
                if !self.follows && !self.random.one_in(16) {
                    let ((may_send, may_receive), size) = (self.flags(), self.random.pick(&SIZES));
                    self.next = Some(Change::Add(Pairing { triple: turned(pairing.triple), key: pairing.key, may_send, may_receive, size }));
                }
            }
            Call::TableRemove { triple, .. } if !self.follows && !self.random.one_in(4) => self.next = Some(Change::Remove(turned(*triple))),
            _ => {}
        }
    }
}

impl Tables {
    /// By the seed, the tables of a list mostly have 0 or 1 entries in use, 15, 16, or any number.
    pub fn new(seed: u64) -> Self {
        let mut random = Random(seed << 32);
        let most = [1, ENTRIES - 1, ENTRIES, 2 + random.below(ENTRIES - 3)][(seed % 4) as usize];
        let priority = (most <= FEW).then(|| random.below(16) as u8);
        let end = |count: usize| End { addresses: addresses(&mut random, count), air: Air::new(priority.is_some()), ..End::default() };
        let ends = [2, 7].map(end);
        Tables { random, made: 0, ends, most, priority, at: 0, next: None, follows: false, keeps: true }
    }

    fn end(&self) -> &End {
        &self.ends[self.at]
    }

    /// The places in use.
    fn in_use(&self) -> Vec<usize> {
        (0..ENTRIES).filter(|&place| self.end().table.entries[place].used).collect()
    }

    /// A place, mostly one in use, and often the last of these.
    fn place(&mut self) -> usize {
        let in_use = self.in_use();
        match (in_use.last(), self.random.below(12)) {
            (None, _) | (_, 0) => self.random.below(ENTRIES),
            (Some(&last), 1 | 2) => last,
            _ => self.random.pick(&in_use),
        }
    }

    fn entry(&mut self) -> &Entry {
        let place = self.place();
        &self.end().table.entries[place]
    }

    /// A triple that this end may have, and now and then one of the other end.
    fn triple(&mut self) -> Triple {
        let own = self.random.pick(&self.ends[self.at].addresses);
        let peer = self.random.pick(&self.ends[1 - self.at].addresses);
        let triple = Triple { own, peer, key_id: self.random.below(4) as u8 };
        if self.random.one_in(16) { turned(triple) } else { triple }
    }

    /// A key that is new, also if only by one bit.
    fn key(&mut self) -> [u8; 16] {
        let mut key = self.random.array();
        if self.random.one_in(3) {
            key = self.entry().receiver.key;
            any::flip(&mut self.random, &mut key);
        }
        key
    }

    fn flags(&mut self) -> (bool, bool) {
        (!self.random.one_in(8), !self.random.one_in(8))
    }

    /// Any entry, free, of a triple that this end may have.
    fn free_entry(&mut self) -> Entry {
        let (Triple { own, peer, key_id }, key, (may_send, may_receive)) = (self.triple(), self.key(), self.flags());
        let random = &mut self.random;
        let key_id = if random.one_in(4) { any::key_id(random) } else { key_id };
        let window_size = if random.one_in(4) { any::wrong_size(random) } else { random.pick(&SIZES) };
        let last_number = any::number(random);
        let mut receiver = Receiver { key, key_id, peer, window_size, ..Receiver::default() };
        (0..2).for_each(|_| receiver.windows[random.below(16)] = any::any_window(random));
        any::counts_near_their_end(random, &mut receiver);
        Entry { used: false, may_send, may_receive, own, last_number, receiver }
    }

    /// Half of the fresh tables soon have their count at its end, and half hold something in their free entries.
    fn begin(&mut self) {
        if self.random.one_in(2) {
            self.ends[self.at].table.format_errors = u32::MAX - self.random.below(4) as u32;
        }
        if self.random.one_in(2) {
            self.ends[self.at].table.entries = std::array::from_fn(|_| self.free_entry());
        }
    }

    /// Half of the new entries go on from there. In the others numbers, or counts, soon come to their end.
    fn go_ahead(&mut self, triple: Triple) {
        let table = &mut self.ends[self.at].table;
        let place = place_of(table, triple).expect("the entry that was added");
        let (random, entry) = (&mut self.random, &mut table.entries[place]);
        match random.below(6) {
            0..3 => {}
            3 => entry.last_number = MAX_NUMBER - random.draw() % 3,
            _ => {
                entry.last_number = random.draw() >> 16 >> random.below(40);
                any::counts_near_their_end(random, &mut entry.receiver);
            }
        }
    }

    /// Seals frames at one end, by its entry of this triple.
    fn burst(&mut self, at: usize, triple: Triple) {
        for _ in 0..BURST {
            let frame = self.plain(triple);
            let mut sealed = vec![0; frame.len() + ADDED];
            if self.ends[at].table.seal(triple.key_id, &frame, &mut sealed).is_ok() {
                self.ends[1 - at].air.send(&mut self.random, &sealed);
            }
        }
    }

    /// A frame that sealing takes where there is an entry of this triple.
    fn plain(&mut self, Triple { own, peer, .. }: Triple) -> Vec<u8> {
        let mut frame = self.random.plain(own);
        if let Some(priority) = self.priority {
            any::set_priority(&mut frame, priority);
        }
        frame[A1..A2].copy_from_slice(&peer);
        frame
    }

    /// The table for a call about the entry at this place: the one that the last call handed back, or one time in so many another.
    fn table(&mut self, place: usize, chances: usize) -> Box<Table> {
        let mut table = self.end().table.clone();
        self.keeps = !self.random.one_in(chances);
        while !self.keeps {
            self.alter(&mut table, place);
            if !self.random.one_in(4) {
                break;
            }
        }
        table
    }

    /// Alters a table, mostly at this place: a field to a limit or past it, a flag, a part that another entry then has too, or what is free.
    fn alter(&mut self, table: &mut Table, place: usize) {
        let (free, other) = (self.free_entry(), table.entries[self.place()].clone());
        let random = &mut self.random;
        let place = if random.one_in(2) { place } else { random.below(ENTRIES) };
        let entry = &mut table.entries[place];
        let size = entry.receiver.window_size;
        match random.below(46) {
            0 => entry.receiver.key_id = any::key_id(random),
            1..3 => entry.receiver.key_id = any::key_id_over_3(random),
            3..5 => entry.last_number = any::number(random),
            5..7 => entry.last_number = any::beyond(random),
            7..9 => entry.receiver.windows[random.below(16)] = any::any_window(random),
            9 => entry.receiver.window_size = random.pick(&SIZES),
            10..13 => entry.receiver.window_size = any::wrong_size(random),
            13 => any::counts_near_their_end(random, &mut entry.receiver),
            14..17 => table.format_errors = u32::MAX - random.below(2) as u32,
            17 => entry.used ^= true,
            18 => entry.may_send ^= true,
            19 => entry.may_receive ^= true,
            20 => any::flip(random, &mut entry.own),
            21 => any::flip(random, &mut entry.receiver.peer),
            22 => any::flip(random, &mut entry.receiver.key),
            23..25 => entry.receiver.key = other.receiver.key,
            25..27 => (entry.own, entry.receiver.peer, entry.receiver.key_id) = (other.own, other.receiver.peer, other.receiver.key_id),
            27 | 28 => *entry = free,
            29 => *entry = Entry { used: false, ..other },
            30..44 => entry.receiver.windows[random.below(16)] = any::unsound_window(random, size),
            _ => table.entries.swap(place, random.below(ENTRIES)),
        }
    }

    /// Adds an entry, a new one in most cases, or with a triple or a key that is there.
    fn add(&mut self, new: bool) -> Call {
        let (mut triple, mut key, (may_send, may_receive)) = (self.triple(), self.key(), self.flags());
        let (place, mut size) = (self.place(), self.random.pick(&SIZES));
        let (entry, other) = (self.end().table.entries[place].clone(), self.entry().clone());
        match self.random.below(if new { 64 } else { 16 }) {
            0..4 => triple = entry.triple(),
            4..7 => key = entry.receiver.key,
            7 => (triple, key) = (entry.triple(), entry.receiver.key),
            8 => (triple, key) = (entry.triple(), other.receiver.key),
            9 => triple.key_id = any::key_id_over_3(&mut self.random),
            10 | 11 => size = any::wrong_size(&mut self.random),
            12 => (key, size) = (entry.receiver.key, any::wrong_size(&mut self.random)),
            _ => {}
        }
        let table = self.table(place, if new { 6 } else { 3 });
        Call::TableAdd { table, pairing: Pairing { triple, key, may_send, may_receive, size } }
    }

    fn remove(&mut self) -> Call {
        let place = self.place();
        let mut triple = self.end().table.entries[place].triple();
        match self.random.below(12) {
            0 => triple = self.triple(),
            1 => triple.key_id ^= any::key_id(&mut self.random),
            2 => any::flip(&mut self.random, &mut triple.own),
            3 => any::flip(&mut self.random, &mut triple.peer),
            4 => triple = turned(triple),
            _ => {}
        }
        Call::TableRemove { table: self.table(place, 2), triple }
    }

    fn seal(&mut self) -> Call {
        let place = self.place();
        let triple = self.end().table.entries[place].triple();
        let (mut frame, mut key_id) = (self.plain(triple), triple.key_id);
        any::resize(&mut self.random, &mut frame, &[0, 1, MAX_BODY, MAX_BODY + 1]);
        match self.random.below(20) {
            0 => key_id ^= any::key_id(&mut self.random),
            1 => self.readdress(&mut frame, A2, A1),
            _ => {}
        }
        while frame.len() >= 24 && self.random.one_in(8) {
            self.random.spoil(&mut frame);
        }
        any::octets(&mut self.random, &mut frame);
        let table = self.table(place, 4);
        let room = any::room(&mut self.random, frame.len() + ADDED);
        Call::TableSeal { table, key_id, frame, room }
    }

    fn open(&mut self) -> Call {
        if self.random.one_in(2) {
            if let Some(call) = self.open_near() {
                return call;
            }
        }
        let frame = self.ends[self.at].air.delivery(&mut self.random);
        let Some(mut frame) = frame.or_else(|| self.random.one_in(8).then(|| self.stray())) else {
            self.at = 1 - self.at;
            return self.seal();
        };
        match self.random.below(16) {
            0..3 => self.ends[self.at].air.damage(&mut self.random, &mut frame),
            3 => self.random.spoil(&mut frame),
            4 => {
                self.ends[self.at].air.again(&frame);
                self.readdress(&mut frame, A1, A2);
            }
            _ => {}
        }
        any::octets(&mut self.random, &mut frame);
        let place = asked_to_open(&frame).and_then(|triple| place_of(&self.end().table, triple)).unwrap_or_else(|| self.place());
        let table = self.table(place, 3);
        let room = any::room(&mut self.random, frame.len().saturating_sub(ADDED));
        Call::TableOpen { table, frame, room }
    }

    /// A frame with any number for an entry in use, and in that a window near it.
    fn open_near(&mut self) -> Option<Call> {
        let (place, mut table) = (self.place(), self.end().table.clone());
        let entry = Some(&mut table.entries[place]).filter(|entry| entry.used)?;
        self.keeps = false;
        let mut plain = self.random.plain(entry.receiver.peer);
        plain[A1..A2].copy_from_slice(&entry.own);
        let frame = any::near(&mut self.random, &mut entry.receiver, &plain);
        let room = self.random.octets(plain.len());
        Some(Call::TableOpen { table, frame, room })
    }

    /// A frame that looks like a sealed one for a triple that this end may have.
    fn stray(&mut self) -> Vec<u8> {
        let Triple { own, peer, key_id } = self.triple();
        let mut frame = self.random.plain(peer);
        frame[1] |= PROTECTED;
        frame[A1..A2].copy_from_slice(&own);
        frame.extend(self.random.octets(ADDED));
        let key_octet = header_length(&frame) + 3;
        frame[key_octet] = 0x20 | key_id << 6;
        frame
    }

    /// A frame for or from another: a bit of an address or of the key ID turned over, the addresses changed about, or those of another entry.
    fn readdress(&mut self, frame: &mut [u8], own_at: usize, peer_at: usize) {
        let Triple { own, peer, .. } = self.entry().triple();
        let key_octet = header_length(frame) + 3;
        match self.random.below(6) {
            0 => any::flip(&mut self.random, &mut frame[own_at..own_at + 6]),
            1 => any::flip(&mut self.random, &mut frame[peer_at..peer_at + 6]),
            2 => {
                let (address_1, address_2) = frame[A1..A2 + 6].split_at_mut(6);
                address_1.swap_with_slice(address_2);
            }
            3 if frame.len() >= SHORTEST_SEALED => frame[key_octet] ^= 0x40 << self.random.below(2),
            _ => {
                frame[own_at..own_at + 6].copy_from_slice(&own);
                frame[peer_at..peer_at + 6].copy_from_slice(&peer);
            }
        }
    }
}
