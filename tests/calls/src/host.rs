//! The calls that a C host makes, on a record in a buffer, beside the calls beneath them: the same answer's number, the record written back in its
//! layout, and every octet of the room; and buffers that hold no record.

use crate::call::{Call, Left, Record};
use proved::host::{self, RECEIVER_OCTETS, SENDER_OCTETS};
use proved::Told;
use second::frame::{Receiver, Sender, ADDED};
use second::sample::Random;

/// What a call on a buffer leaves.
#[derive(Debug, PartialEq)]
struct Hosted {
    answer: u32,
    buffer: Vec<u8>,
    room: Vec<u8>,
}

fn buffer_of(record: &Record) -> Option<Vec<u8>> {
    match record {
        Record::Sender(sender) => host::sender_buffer(sender),
        Record::Receiver(receiver) => host::receiver_buffer(&proved::Record::from(receiver.as_ref())),
        _ => None,
    }
}

fn sealed(buffer: &[u8], frame: &[u8], room: &[u8]) -> Hosted {
    let (mut buffer, mut room) = (buffer.to_vec(), room.to_vec());
    Hosted { answer: host::seal(&mut buffer, frame, &mut room), buffer, room }
}

fn opened(buffer: &[u8], frame: &[u8], room: &[u8]) -> Hosted {
    let (mut buffer, mut room) = (buffer.to_vec(), room.to_vec());
    Hosted { answer: host::open(&mut buffer, frame, &mut room), buffer, room }
}

fn made_sender(buffer: &[u8], key: &[u8], key_id: u8, address: &[u8; 6]) -> Hosted {
    let mut buffer = buffer.to_vec();
    Hosted { answer: host::fresh_sender(&mut buffer, key, key_id, address), buffer, room: Vec::new() }
}

fn made_receiver(buffer: &[u8], key: &[u8], key_id: u8, peer: &[u8; 6], size: u8) -> Hosted {
    let mut buffer = buffer.to_vec();
    Hosted { answer: host::fresh_receiver(&mut buffer, key, key_id, peer, size), buffer, room: Vec::new() }
}

/// What a call that makes a record leaves of a buffer: a refusal keeps it.
fn making(stale: Vec<u8>, left: &Left) -> Option<Hosted> {
    let buffer = if left.told[0] == 0 { buffer_of(&left.record)? } else { stale };
    Some(Hosted { answer: left.told[0] as u32, buffer, room: Vec::new() })
}

/// What the call beneath leaves, with the record in its layout.
fn beneath(told: Told, record: &Record, room: Vec<u8>) -> Option<Hosted> {
    Some(Hosted { answer: told[0] as u32, buffer: buffer_of(record)?, room })
}

/// Makes a call on a buffer that was made on a record and left this. Gives whether the layout has room for the record, or the two that differ.
pub fn same(call: &Call, left: &Left) -> Result<bool, String> {
    let stale = |octets: usize| vec![left.told[1] as u8 ^ 0xa5; octets];
    let (ours, due) = match call {
        Call::FreshSender { key, key_id, address } => {
            let stale = stale(SENDER_OCTETS);
            (Some(made_sender(&stale, key, *key_id, address)), making(stale, left))
        }
        Call::FreshReceiver { key, key_id, peer, size } => {
            let stale = stale(RECEIVER_OCTETS);
            (Some(made_receiver(&stale, key, *key_id, peer, *size)), making(stale, left))
        }
        Call::Seal { sender, frame, room } => {
            let buffer = host::sender_buffer(sender);
            (buffer.map(|buffer| sealed(&buffer, frame, room)), beneath(left.told, &left.record, left.room.clone()))
        }
        Call::Open { receiver, frame, room } => {
            let buffer = host::receiver_buffer(&proved::Record::from(receiver.as_ref()));
            (buffer.map(|buffer| opened(&buffer, frame, room)), beneath(left.told, &left.record, left.room.clone()))
        }
        _ => return Ok(false),
    };
    if ours != due {
        return Err(format!("through a buffer: {ours:x?}\nbeneath: {due:x?}"));
    }
    Ok(ours.is_some())
}

/// A call with an answer of 1 that changes nothing.
fn refused(buffer: &[u8], room: &[u8]) -> Hosted {
    Hosted { answer: 1, buffer: buffer.to_vec(), room: room.to_vec() }
}

/// Buffers of other lengths, up to twice a record's, for each call; and keys of other lengths.
fn wrong_lengths(random: &mut Random, sender: &[u8], receiver: &[u8], frames: &[Vec<u8>; 2]) -> usize {
    let (key, address) = (random.octets(16), random.array());
    let mut calls = 0;
    for octets in 0..=2 * RECEIVER_OCTETS {
        let room = random.octets(100);
        for record in [sender, receiver] {
            let buffer: Vec<u8> = record.iter().copied().cycle().take(octets).collect();
            if octets != SENDER_OCTETS || record[0] != b'S' {
                assert_eq!(sealed(&buffer, &frames[0], &room), refused(&buffer, &room));
                calls += 1;
            }
            if octets != RECEIVER_OCTETS || record[0] != b'R' {
                assert_eq!(opened(&buffer, &frames[1], &room), refused(&buffer, &room));
                calls += 1;
            }
            if octets != SENDER_OCTETS {
                assert_eq!(made_sender(&buffer, &key, 0, &address), refused(&buffer, &[]));
                calls += 1;
            }
            if octets != RECEIVER_OCTETS {
                assert_eq!(made_receiver(&buffer, &key, 0, &address, 16), refused(&buffer, &[]));
                calls += 1;
            }
        }
        let key = random.octets(octets);
        if octets != 16 {
            assert_eq!(made_sender(sender, &key, 0, &address), refused(sender, &[]));
            assert_eq!(made_receiver(receiver, &key, 0, &address, 16), refused(receiver, &[]));
            calls += 2;
        }
    }
    calls
}

/// Each octet of a buffer set to each other value. Gives the calls, and how many of the values had no meaning.
fn other_octets(buffer: &[u8], call: impl Fn(&[u8]) -> Hosted, due: impl Fn(&[u8]) -> Option<Hosted>) -> (usize, usize) {
    let (mut calls, mut meaningless) = (0, 0);
    for place in 0..buffer.len() {
        for value in (0..=255).filter(|&value| value != buffer[place]) {
            let mut other = buffer.to_vec();
            other[place] = value;
            let ours = call(&other);
            match due(&other) {
                Some(due) => assert_eq!(ours, due, "place {place}, value {value}"),
                None => {
                    meaningless += 1;
                    assert_eq!((ours.answer, &ours.buffer), (1, &other), "place {place}, value {value}");
                }
            }
            calls += 1;
        }
    }
    (calls, meaningless)
}

/// The example of docs/LAYOUT.md, written and read.
fn example() {
    let (key, address, number) = (std::array::from_fn(|i| 0x40 + i as u8), [2, 0, 0, 0, 0, 1], 0x0102_0304_0506);
    let sender = Sender { key, key_id: 2, address, last_number: number };
    let mut due = vec![0x53, 1, 2, 2, 0, 0, 0, 0, 1];
    due.extend(0x40..0x50);
    due.extend([6, 5, 4, 3, 2, 1]);
    assert_eq!(host::sender_buffer(&sender).as_ref(), Some(&due));
    assert_eq!(host::sender_in(&due), Some(sender));

    let (mut replay, mut seen) = ([0; 16], [0; 16]);
    (replay[6], seen[6]) = (number, 0x8003);
    let receiver = proved::Record { key, key_id: 2, peer: address, size: 16, replay, seen, counts: [1, 2, 3, 0x104] };
    let mut due = vec![0; RECEIVER_OCTETS];
    due[..10].copy_from_slice(&[0x52, 1, 2, 16, 2, 0, 0, 0, 0, 1]);
    due[10..26].copy_from_slice(&key);
    (due[26], due[30], due[34], due[38], due[39]) = (1, 2, 3, 4, 1);
    due[78..84].copy_from_slice(&[6, 5, 4, 3, 2, 1]);
    due[150..152].copy_from_slice(&[3, 0x80]);
    assert_eq!(host::receiver_buffer(&receiver).as_ref(), Some(&due));
    assert_eq!(host::receiver_in(&due).and_then(|receiver| host::receiver_buffer(&receiver)), Some(due));
}

/// Buffers that differ from a good one in their length or in one octet. Gives the calls made.
pub fn buffers(seed: u64) -> usize {
    example();
    let mut random = Random(seed);
    let (key, address) = (random.array(), random.array());
    let mut sender = Sender::fresh(key, 2, address).1;
    sender.last_number = random.draw() >> 17;
    let mut receiver = Receiver::fresh(key, 2, address, 16).1;
    let plain = random.plain(address);
    let mut air = vec![0; plain.len() + ADDED];
    let before = host::sender_buffer(&sender).expect("a sender that fits");
    for _ in 0..3 {
        assert!(sender.seal(&plain, &mut air).is_ok());
        assert!(receiver.open(&air, &mut vec![0; plain.len()]).is_ok());
    }
    let held = host::receiver_buffer(&proved::Record::from(&receiver)).expect("a receiver that fits");
    assert!(sender.seal(&plain, &mut air).is_ok());
    let room = random.octets(plain.len() + ADDED);

    let lengths = wrong_lengths(&mut random, &before, &held, &[plain.clone(), air.clone()]);
    let (seals, no_senders) = other_octets(&before, |buffer| sealed(buffer, &plain, &room), |buffer| {
        let (mut sender, mut room) = (host::sender_in(buffer)?, room.clone());
        let told = proved::seal(&mut sender, &plain, &mut room);
        beneath(told, &Record::Sender(sender), room)
    });
    let (opens, no_receivers) = other_octets(&held, |buffer| opened(buffer, &air, &room), |buffer| {
        let (mut receiver, mut room) = (host::receiver_in(buffer)?, room.clone());
        let told = proved::open(&mut receiver, &air, &mut room);
        Some(Hosted { answer: told[0] as u32, buffer: host::receiver_buffer(&receiver)?, room })
    });
    // All other kinds and numbers of layout, the key IDs over 3, and the sizes but 1, which is the octet's other value with a meaning.
    assert_eq!((no_senders, no_receivers), (255 + 255 + 252, 255 + 255 + 252 + 254));
    lengths + seals + opens
}
