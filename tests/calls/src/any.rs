//! Rooms, numbers and records of any kind, at the limits of their ranges and beyond.

use second::frame::{header_length, qos_place, Receiver, Sender, ADDED, MAX_BODY, MAX_HEADER, MAX_NUMBER};
use second::sample::{set_number, Random};
use second::window::{Window, SIZES};

/// Room that is enough for so many octets, or not, with any octets in it.
pub fn room(random: &mut Random, needed: usize) -> Vec<u8> {
    let length = match random.below(16) {
        0 => needed.saturating_sub(1),
        1 => random.below(needed + 1),
        2 => 0,
        3 => needed + 1,
        4..7 => needed + random.below(40),
        7 => needed + 3_000,
        _ => needed,
    };
    random.octets(length)
}

/// Turns one bit over.
pub fn flip(random: &mut Random, octets: &mut [u8]) {
    octets[random.below(octets.len())] ^= 1 << random.below(8);
}

/// One frame in eight gets one of these lengths after its header.
pub fn resize(random: &mut Random, frame: &mut Vec<u8>, lengths: &[usize]) {
    if random.one_in(8) {
        let filling = random.draw() as u8;
        frame.resize(header_length(frame) + random.pick(lengths), filling);
    }
}

/// One frame in 32 becomes any octets.
pub fn octets(random: &mut Random, frame: &mut Vec<u8>) {
    if random.one_in(32) {
        *frame = random.octets_below(MAX_HEADER + MAX_BODY + 2 * ADDED);
    }
}

/// A packet number near the limits of its range, on both sides of them, or any other.
pub fn number(random: &mut Random) -> u64 {
    match random.below(4) {
        0 => random.draw() % 3,
        1 => MAX_NUMBER - 2 + random.draw() % 5,
        2 => random.draw() >> random.below(64),
        _ => random.draw() >> 16,
    }
}

/// One that is no packet number.
pub fn beyond(random: &mut Random) -> u64 {
    random.pick(&[MAX_NUMBER + 1, MAX_NUMBER + 2, 1 << 63, u64::MAX])
}

pub fn key_id(random: &mut Random) -> u8 {
    random.draw() as u8 & random.pick(&[0x03, 0x03, 0x07, 0xff])
}

pub fn key_id_over_3(random: &mut Random) -> u8 {
    random.pick(&[4, 4, 5, 7, 8, 64, 128, 255])
}

/// A size that no window has.
pub fn wrong_size(random: &mut Random) -> u8 {
    let size = random.draw() as u8;
    random.pick(&[0, 2, 15, 17, 255, if SIZES.contains(&size) { 0 } else { size }])
}

/// Where the priority stands in a frame that has one.
fn priority_place(frame: &[u8]) -> Option<usize> {
    (frame[0] & 0x80 != 0).then(|| qos_place(frame))
}

/// Of a frame with a whole header.
pub fn priority(frame: &[u8]) -> usize {
    priority_place(frame).map_or(0, |place| usize::from(frame[place] & 0x0f))
}

/// Gives a frame this priority, if it has one.
pub fn set_priority(frame: &mut [u8], priority: u8) {
    if let Some(place) = priority_place(frame) {
        frame[place] = frame[place] & 0xf0 | priority;
    }
}

/// The bits of a window's numbers that are above 0.
fn above_0(greatest: u64) -> u16 {
    u16::MAX.checked_shr(16 - greatest.min(16) as u32).unwrap_or_default()
}

/// The bits of a sound window with this greatest number and any others.
fn sound_bits(random: &mut Random, greatest: u64, size: u8) -> u16 {
    let others = if size == 1 { 0 } else { random.draw() as u16 };
    (others | 1) & above_0(greatest)
}

/// A sound window with this greatest number and any others.
pub fn window(random: &mut Random, greatest: u64, size: u8) -> Window {
    proved::window(greatest, sound_bits(random, greatest, size))
}

/// A window with any numbers, sound or not.
pub fn any_window(random: &mut Random) -> Window {
    proved::window(number(random), random.draw() as u16 & random.draw() as u16)
}

/// A window with one fault: it holds 0 or less, lacks its greatest, has one that is no packet number, or at size 1 holds another.
pub fn unsound_window(random: &mut Random, size: u8) -> Window {
    let (greatest, low, beyond) = ((random.draw() >> 16 >> random.below(48)).max(2), random.draw() % 16, beyond(random));
    match random.below(if size == 1 { 4 } else { 3 }) {
        0 => proved::window(low, sound_bits(random, low, size) | 1 << (low + random.draw() % (16 - low))),
        1 => proved::window(greatest, sound_bits(random, greatest, size) & !1),
        2 => window(random, beyond, size),
        _ => proved::window(greatest, 1 | 2 << (random.draw() % (greatest.min(16) - 1))),
    }
}

/// A plain frame sealed for a receiver, under any number, and in the receiver a window near it, mostly a sound one. The number may become 0
/// then, or the code a wrong one.
pub fn near(random: &mut Random, receiver: &mut Receiver, plain: &[u8]) -> Vec<u8> {
    let number = match random.below(3) {
        0 => 1 + random.draw() % 20,
        1 => MAX_NUMBER - random.draw() % 32,
        _ => 1 + (random.draw() >> 17 >> random.below(40)),
    };
    let mut sender = Sender { key: receiver.key, key_id: receiver.key_id, address: receiver.peer, last_number: number - 1 };
    let mut frame = vec![0; plain.len() + ADDED];
    sender.seal(plain, &mut frame).expect("a frame that sealing takes");
    let (ccmp_header, last, late) = (header_length(plain), frame.len() - 1, random.draw() % 18);
    let greatest = match random.below(16) {
        0..4 => {
            set_number(&mut frame[ccmp_header..], 0);
            late
        }
        4 => {
            frame[last] ^= 1;
            number + random.pick(&[1, 15])
        }
        5 | 6 => number.saturating_sub(random.pick(&[1, 2, 14, 15, 16, 17])),
        _ => number + late,
    };
    let greatest = greatest.min(MAX_NUMBER);
    let bits = if random.one_in(10) { random.draw() as u16 } else { sound_bits(random, greatest, receiver.window_size) };
    receiver.windows[priority(plain)] = proved::window(greatest, bits);
    frame
}

pub fn counts_near_their_end(random: &mut Random, receiver: &mut Receiver) {
    for count in [&mut receiver.format_errors, &mut receiver.replays, &mut receiver.decrypt_errors, &mut receiver.opened] {
        *count = u32::MAX - random.below(3) as u32;
    }
}

/// This sender with one field changed.
pub fn sender(random: &mut Random, mut sender: Sender) -> Sender {
    match random.below(8) {
        0 => sender.key[random.below(16)] ^= 1 << random.below(8),
        1 => sender.key_id = key_id(random),
        2 => sender.address[random.below(6)] ^= 1 << random.below(8),
        _ => sender.last_number = number(random),
    }
    sender
}
