//! A call on either program, and what it leaves.

use crate::program;
use proved::Told;
use second::fragment::Joiner;
use second::frame::{Answer, Done, Receiver, Sender};
use second::table::{Entry, Pairing, Table, Triple};
use second::window::Window;
use std::fmt;

/// In the numbers of a record before it is made afresh.
const STALE: u64 = 0xa5a5_a5a5_a5a5_a5a5;

pub enum Call {
    FreshSender { key: [u8; 16], key_id: u8, address: [u8; 6] },
    FreshReceiver { key: [u8; 16], key_id: u8, peer: [u8; 6], size: u8 },
    Seal { sender: Sender, frame: Vec<u8>, room: Vec<u8> },
    Open { receiver: Box<Receiver>, frame: Vec<u8>, room: Vec<u8> },
    Split { sender: Sender, frame: Vec<u8>, size: usize, room: Vec<u8> },
    Join { joiner: Box<Joiner>, frame: Vec<u8>, number: u64, room: Vec<u8> },
    NewTable,
    TableSeal { table: Box<Table>, key_id: u8, frame: Vec<u8>, room: Vec<u8> },
    TableOpen { table: Box<Table>, frame: Vec<u8>, room: Vec<u8> },
    TableAdd { table: Box<Table>, pairing: Pairing },
    TableRemove { table: Box<Table>, triple: Triple },
}

/// A list of calls.
pub trait Calls {
    fn next_call(&mut self) -> Call;

    /// Takes what the call left.
    fn took(&mut self, call: &Call, left: &Left);
}

/// The answer, the record handed back and the room as it is afterwards.
#[derive(PartialEq)]
pub struct Left {
    pub told: Told,
    pub record: Record,
    pub room: Vec<u8>,
}

#[derive(Clone, PartialEq, Eq)]
pub enum Record {
    Sender(Sender),
    Receiver(Box<Receiver>),
    Joiner(Box<Joiner>),
    Table(Box<Table>),
}

/// What a receiver holds before it is made afresh.
fn stale_receiver() -> Receiver {
    Receiver { windows: std::array::from_fn(|_| proved::window(STALE, STALE as u16)), opened: STALE as u32, ..Receiver::default() }
}

/// What a table holds before: no zero anywhere.
fn stale_table() -> Box<Table> {
    let (key, own) = ([STALE as u8; 16], [STALE as u8; 6]);
    let counts = Receiver { format_errors: 1, replays: 2, decrypt_errors: 3, ..stale_receiver() };
    let receiver = Receiver { key, key_id: STALE as u8, peer: own, window_size: STALE as u8, ..counts };
    let entry = Entry { used: true, may_send: true, may_receive: true, own, last_number: STALE, receiver };
    Box::new(Table { entries: std::array::from_fn(|_| entry.clone()), format_errors: STALE as u32 })
}

impl Call {
    pub fn name(&self) -> &'static str {
        match self {
            Call::FreshSender { .. } => "fresh sender",
            Call::FreshReceiver { .. } => "fresh receiver",
            Call::Seal { .. } => "seal",
            Call::Open { .. } => "open",
            Call::Split { .. } => "split",
            Call::Join { .. } => "join",
            Call::NewTable => "new table",
            Call::TableSeal { .. } => "table seal",
            Call::TableOpen { .. } => "table open",
            Call::TableAdd { .. } => "table add",
            Call::TableRemove { .. } => "table remove",
        }
    }

    /// The table that it is made on.
    pub fn table(&self) -> Option<&Table> {
        match self {
            Call::TableSeal { table, .. } | Call::TableOpen { table, .. } => Some(table),
            Call::TableAdd { table, .. } | Call::TableRemove { table, .. } => Some(table),
            _ => None,
        }
    }

    /// What the proved code leaves.
    pub fn by_proved(&self) -> Left {
        match self {
            Call::FreshSender { key, key_id, address } => {
                let mut sender = Sender { key: *key, key_id: *key_id, address: *address, last_number: STALE };
                let told = proved::fresh_sender(&mut sender);
                Left { told, record: Record::Sender(sender), room: Vec::new() }
            }
            Call::FreshReceiver { key, key_id, peer, size } => {
                let stale = Receiver { key: *key, key_id: *key_id, peer: *peer, window_size: *size, ..stale_receiver() };
                let mut receiver = proved::Record::from(&stale);
                let told = proved::fresh_receiver(&mut receiver);
                Left { told, record: Record::Receiver(Box::new(Receiver::from(&receiver))), room: Vec::new() }
            }
            Call::Seal { sender, frame, room } => {
                let (mut sender, mut room) = (sender.clone(), room.clone());
                let told = proved::seal(&mut sender, frame, &mut room);
                Left { told, record: Record::Sender(sender), room }
            }
            Call::Open { receiver, frame, room } => {
                let (mut receiver, mut room) = (proved::Record::from(receiver.as_ref()), room.clone());
                let told = proved::open(&mut receiver, frame, &mut room);
                Left { told, record: Record::Receiver(Box::new(Receiver::from(&receiver))), room }
            }
            Call::Split { sender, frame, size, room } => {
                let (mut sender, mut room) = (sender.clone(), room.clone());
                let told = proved::split(&mut sender, frame, *size, &mut room);
                Left { told, record: Record::Sender(sender), room }
            }
            Call::Join { joiner, frame, number, room } => {
                let (mut joiner, mut room) = (joiner.clone(), room.clone());
                let told = proved::join(&mut joiner, frame, *number, &mut room);
                Left { told, record: Record::Joiner(joiner), room }
            }
            Call::NewTable => {
                let mut table = stale_table();
                let told = program::new_table(&mut table);
                Left { told, record: Record::Table(table), room: Vec::new() }
            }
            Call::TableSeal { table, key_id, frame, room } => {
                let (mut table, mut room) = (table.clone(), room.clone());
                let told = program::table_seal(&mut table, *key_id, frame, &mut room);
                Left { told, record: Record::Table(table), room }
            }
            Call::TableOpen { table, frame, room } => {
                let (mut table, mut room) = (table.clone(), room.clone());
                let told = program::table_open(&mut table, frame, &mut room);
                Left { told, record: Record::Table(table), room }
            }
            Call::TableAdd { table, pairing } => {
                let mut table = table.clone();
                let told = program::table_add(&mut table, pairing);
                Left { told, record: Record::Table(table), room: Vec::new() }
            }
            Call::TableRemove { table, triple } => {
                let mut table = table.clone();
                let told = program::table_remove(&mut table, triple);
                Left { told, record: Record::Table(table), room: Vec::new() }
            }
        }
    }

    /// What `second` leaves.
    pub fn by_second(&self) -> Left {
        match self {
            Call::FreshSender { key, key_id, address } => {
                let (answer, sender) = Sender::fresh(*key, *key_id, *address);
                Left { told: told(answer), record: Record::Sender(sender), room: Vec::new() }
            }
            Call::FreshReceiver { key, key_id, peer, size } => {
                let (answer, receiver) = Receiver::fresh(*key, *key_id, *peer, *size);
                Left { told: told(answer), record: Record::Receiver(Box::new(receiver)), room: Vec::new() }
            }
            Call::Seal { sender, frame, room } => {
                let (mut sender, mut room) = (sender.clone(), room.clone());
                let answer = sender.seal(frame, &mut room);
                Left { told: told(answer), record: Record::Sender(sender), room }
            }
            Call::Open { receiver, frame, room } => {
                let (mut receiver, mut room) = (receiver.clone(), room.clone());
                let answer = receiver.open(frame, &mut room);
                Left { told: told(answer), record: Record::Receiver(receiver), room }
            }
            Call::Split { sender, frame, size, room } => {
                let (mut sender, mut room) = (sender.clone(), room.clone());
                let answer = sender.split(frame, *size, &mut room);
                Left { told: told(answer), record: Record::Sender(sender), room }
            }
            Call::Join { joiner, frame, number, room } => {
                let (mut joiner, mut room) = (joiner.clone(), room.clone());
                let answer = joiner.join(frame, *number, &mut room);
                Left { told: told(answer), record: Record::Joiner(joiner), room }
            }
            Call::NewTable => Left { told: told(Ok(Done::default())), record: Record::Table(Box::default()), room: Vec::new() },
            Call::TableSeal { table, key_id, frame, room } => {
                let (mut table, mut room) = (table.clone(), room.clone());
                let answer = table.seal(*key_id, frame, &mut room);
                Left { told: told(answer), record: Record::Table(table), room }
            }
            Call::TableOpen { table, frame, room } => {
                let (mut table, mut room) = (table.clone(), room.clone());
                let answer = table.open(frame, &mut room);
                Left { told: told(answer), record: Record::Table(table), room }
            }
            Call::TableAdd { table, pairing } => {
                let mut table = table.clone();
                let answer = table.add(pairing);
                Left { told: told(answer), record: Record::Table(table), room: Vec::new() }
            }
            Call::TableRemove { table, triple } => {
                let mut table = table.clone();
                let answer = table.remove(*triple);
                Left { told: told(answer), record: Record::Table(table), room: Vec::new() }
            }
        }
    }
}

fn told(answer: Answer) -> Told {
    match answer {
        Ok(done) => [0, done.number, done.priority.into(), done.written as u64],
        Err(refusal) => [refusal as u64, 0, 0, 0],
    }
}

fn hex(octets: &[u8]) -> String {
    octets.iter().map(|octet| format!("{octet:02x}")).collect()
}

fn triple_words(triple: &Triple) -> String {
    format!("own {} peer {} key ID {}", hex(&triple.own), hex(&triple.peer), triple.key_id)
}

fn window_words(window: &Window) -> String {
    format!("{:x} {:04x}", window.greatest, proved::bits(window))
}

impl fmt::Display for Record {
    fn fmt(&self, f: &mut fmt::Formatter) -> fmt::Result {
        match self {
            Record::Sender(s) => write!(f, "key {} key ID {} address {} last {:x}", hex(&s.key), s.key_id, hex(&s.address), s.last_number),
            Record::Receiver(r) => {
                write!(f, "key {} key ID {} peer {} size {} ", hex(&r.key), r.key_id, hex(&r.peer), r.window_size)?;
                write!(f, "windows [{}] counts {:x?}", r.windows.each_ref().map(window_words).join(", "), r.counts())
            }
            Record::Joiner(j) => {
                write!(f, "address {} priority {} sequence {:x} fragment {} ", hex(&j.address), j.priority, j.sequence, j.fragment)?;
                write!(f, "last {:x} length {} held {}", j.number, j.length, hex(&j.held))
            }
            // Entries that are free and all zeros are left out.
            Record::Table(t) => {
                write!(f, "format errors {:x}", t.format_errors)?;
                t.entries.iter().enumerate().filter(|(_, entry)| **entry != Entry::default()).try_for_each(|(place, e)| {
                    write!(f, "\n  entry {place}: used {} may send {} may receive {} ", e.used, e.may_send, e.may_receive)?;
                    write!(f, "own {} last {:x} {}", hex(&e.own), e.last_number, Record::Receiver(Box::new(e.receiver.clone())))
                })
            }
        }
    }
}

impl fmt::Display for Call {
    fn fmt(&self, f: &mut fmt::Formatter) -> fmt::Result {
        write!(f, "{}: ", self.name())?;
        let (record, frame, room) = match self {
            Call::FreshSender { key, key_id, address } => return write!(f, "key {} key ID {key_id} address {}", hex(key), hex(address)),
            Call::FreshReceiver { key, key_id, peer, size } => return write!(f, "key {} key ID {key_id} peer {} size {size}", hex(key), hex(peer)),
            Call::Seal { sender, frame, room } => (Record::Sender(sender.clone()), frame, room),
            Call::Open { receiver, frame, room } => (Record::Receiver(receiver.clone()), frame, room),
            Call::Split { sender, frame, size, room } => {
                write!(f, "size {size} ")?;
                (Record::Sender(sender.clone()), frame, room)
            }
            Call::Join { joiner, frame, number, room } => {
                write!(f, "number {number:x} ")?;
                (Record::Joiner(joiner.clone()), frame, room)
            }
            Call::NewTable => return Ok(()),
            Call::TableSeal { table, key_id, frame, room } => {
                write!(f, "key ID {key_id} ")?;
                (Record::Table(table.clone()), frame, room)
            }
            Call::TableOpen { table, frame, room } => (Record::Table(table.clone()), frame, room),
            Call::TableAdd { table, pairing } => {
                let Pairing { triple, key, may_send, may_receive, size } = pairing;
                write!(f, "{} key {} may send {may_send} may receive {may_receive} size {size} ", triple_words(triple), hex(key))?;
                return write!(f, "{}", Record::Table(table.clone()));
            }
            Call::TableRemove { table, triple } => return write!(f, "{} {}", triple_words(triple), Record::Table(table.clone())),
        };
        write!(f, "{record}\n  frame {}\n  room {}", hex(frame), hex(room))
    }
}

impl fmt::Display for Left {
    fn fmt(&self, f: &mut fmt::Formatter) -> fmt::Result {
        write!(f, "{:x?}, {}\n  room {}", self.told, self.record, hex(&self.room))
    }
}
