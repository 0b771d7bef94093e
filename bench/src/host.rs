//! The calls that a C host makes, on a record in a buffer, and the layout of these by docs/LAYOUT.md.

use crate::exported::{bench_buffer_open, bench_buffer_seal};
use crate::Record;
use second::frame::{Sender, MAX_NUMBER};

pub const SENDER_OCTETS: usize = 31;
pub const RECEIVER_OCTETS: usize = 170;

/// As include/kondrivai.h has them.
pub mod exported {
    extern "C" {
        pub fn kondrivai_fresh_sender(record: *mut u8, record_len: usize, key: *const u8, key_len: usize, key_id: u8, address: &[u8; 6]) -> u32;
        pub fn kondrivai_fresh_receiver(
            record: *mut u8, record_len: usize, key: *const u8, key_len: usize, key_id: u8, peer: &[u8; 6], window: u8,
        ) -> u32;
        pub fn kondrivai_seal(record: *mut u8, record_len: usize, frame: *const u8, frame_len: usize, out: *mut u8, out_len: usize) -> u32;
        pub fn kondrivai_open(record: *mut u8, record_len: usize, frame: *const u8, frame_len: usize, out: *mut u8, out_len: usize) -> u32;
    }
}

// In each call below the declarations above are those of crates/kondrivai, and its functions are proved for every input.

pub fn fresh_sender(record: &mut [u8], key: &[u8], key_id: u8, address: &[u8; 6]) -> u32 {
    unsafe { exported::kondrivai_fresh_sender(record.as_mut_ptr(), record.len(), key.as_ptr(), key.len(), key_id, address) }
}

pub fn fresh_receiver(record: &mut [u8], key: &[u8], key_id: u8, peer: &[u8; 6], window: u8) -> u32 {
    unsafe { exported::kondrivai_fresh_receiver(record.as_mut_ptr(), record.len(), key.as_ptr(), key.len(), key_id, peer, window) }
}

pub fn seal(record: &mut [u8], frame: &[u8], out: &mut [u8]) -> u32 {
    unsafe { exported::kondrivai_seal(record.as_mut_ptr(), record.len(), frame.as_ptr(), frame.len(), out.as_mut_ptr(), out.len()) }
}

pub fn open(record: &mut [u8], frame: &[u8], out: &mut [u8]) -> u32 {
    unsafe { exported::kondrivai_open(record.as_mut_ptr(), record.len(), frame.as_ptr(), frame.len(), out.as_mut_ptr(), out.len()) }
}

/// `seal` as it is compiled beside the call beneath it.
pub fn seal_beside(record: &mut [u8], frame: &[u8], out: &mut [u8]) -> u32 {
    unsafe { bench_buffer_seal(record.as_mut_ptr(), record.len(), frame.as_ptr(), frame.len(), out.as_mut_ptr(), out.len()) }
}

/// `open` likewise.
pub fn open_beside(record: &mut [u8], frame: &[u8], out: &mut [u8]) -> u32 {
    unsafe { bench_buffer_open(record.as_mut_ptr(), record.len(), frame.as_ptr(), frame.len(), out.as_mut_ptr(), out.len()) }
}

/// A sender's buffer, if the layout has room for its number.
pub fn sender_buffer(s: &Sender) -> Option<Vec<u8>> {
    let number = s.last_number.to_le_bytes();
    (s.last_number <= MAX_NUMBER).then(|| [&[b'S', 1, s.key_id][..], &s.address, &s.key, &number[..6]].concat())
}

/// A receiver's likewise.
pub fn receiver_buffer(r: &Record) -> Option<Vec<u8>> {
    let counts = r.counts.map(u32::to_le_bytes).concat();
    let numbers: Vec<u8> = r.replay.iter().flat_map(|number| number.to_le_bytes().into_iter().take(6)).collect();
    let bits = r.seen.map(u16::to_le_bytes).concat();
    let fits = r.replay.iter().all(|&number| number <= MAX_NUMBER);
    fits.then(|| [&[b'R', 1, r.key_id, r.size][..], &r.peer, &r.key, &counts, &numbers, &bits].concat())
}

fn number(octets: &[u8]) -> u64 {
    octets.iter().rev().fold(0, |number, &octet| number << 8 | u64::from(octet))
}

fn array<const N: usize>(octets: &[u8]) -> [u8; N] {
    octets.try_into().expect("so many octets")
}

/// The sender in a buffer, if it holds one.
pub fn sender_in(b: &[u8]) -> Option<Sender> {
    let holds = b.len() == SENDER_OCTETS && b[0] == b'S' && b[1] == 1 && b[2] <= 3;
    holds.then(|| Sender { key: array(&b[9..25]), key_id: b[2], address: array(&b[3..9]), last_number: number(&b[25..31]) })
}

/// The receiver in a buffer, if it holds one.
pub fn receiver_in(b: &[u8]) -> Option<Record> {
    let holds = b.len() == RECEIVER_OCTETS && b[0] == b'R' && b[1] == 1 && b[2] <= 3 && matches!(b[3], 1 | 16);
    holds.then(|| Record {
        key: array(&b[10..26]),
        key_id: b[2],
        peer: array(&b[4..10]),
        size: b[3],
        replay: std::array::from_fn(|p| number(&b[42 + 6 * p..48 + 6 * p])),
        seen: std::array::from_fn(|p| number(&b[138 + 2 * p..140 + 2 * p]) as u16),
        counts: std::array::from_fn(|i| number(&b[26 + 4 * i..30 + 4 * i]) as u32),
    })
}
