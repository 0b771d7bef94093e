//! The proved code for Rust: what `crates/bench` exports, and in `host` what `crates/kondrivai` does.

use second::fragment::Joiner;
use second::frame::{Receiver, Sender};
use second::window::Window;

pub mod host;

/// A slice passes as a pointer and a length.
pub mod exported {
    extern "C" {
        pub fn bench_aes_fill(t: &mut [u64; 256]);
        pub fn bench_aes_expand(t: &[u64; 256], key: &[u8; 16], w: &mut [u8; 176]);
        pub fn bench_aes_encrypt(t: &[u64; 256], w: &[u8; 176], block: &mut [u8; 16]);
        pub fn bench_ccm_seal(
            key: &[u8; 16], nonce: &[u8; 13], aad: *const u8, aad_len: usize, body: *const u8, body_len: usize, out: *mut u8, out_len: usize,
        ) -> u64;
        pub fn bench_ccm_open(
            key: &[u8; 16], nonce: &[u8; 13], aad: *const u8, aad_len: usize, text: *const u8, text_len: usize, out: *mut u8, out_len: usize,
        ) -> u64;
        pub fn bench_fresh_sender(key: &mut [u8; 16], key_id: &mut u8, address: &mut [u8; 6], last: &mut u64, answer: &mut [u64; 4]);
        pub fn bench_fresh_receiver(
            key: &mut [u8; 16], key_id: &mut u8, peer: &mut [u8; 6], size: &mut u8, replay: &mut [u64; 16], seen: &mut [u16; 16],
            counts: &mut [u32; 4], answer: &mut [u64; 4],
        );
        pub fn bench_ccmp_seal(
            key: &mut [u8; 16], key_id: &mut u8, address: &mut [u8; 6], last: &mut u64, answer: &mut [u64; 4], frame: *const u8, frame_len: usize,
            out: *mut u8, out_len: usize,
        );
        pub fn bench_ccmp_open(
            key: &mut [u8; 16], key_id: &mut u8, peer: &mut [u8; 6], size: &mut u8, replay: &mut [u64; 16], seen: &mut [u16; 16],
            counts: &mut [u32; 4], answer: &mut [u64; 4], frame: *const u8, frame_len: usize, out: *mut u8, out_len: usize,
        );
        pub fn bench_buffer_seal(record: *mut u8, record_len: usize, frame: *const u8, frame_len: usize, out: *mut u8, out_len: usize) -> u32;
        pub fn bench_buffer_open(record: *mut u8, record_len: usize, frame: *const u8, frame_len: usize, out: *mut u8, out_len: usize) -> u32;
        pub fn bench_split(
            key: &mut [u8; 16], key_id: &mut u8, address: &mut [u8; 6], last: &mut u64, answer: &mut [u64; 4], size: usize, frame: *const u8,
            frame_len: usize, out: *mut u8, out_len: usize,
        );
        pub fn bench_join(
            held: &mut [u8; 2_304], length: &mut usize, address: &mut [u8; 6], priority: &mut u8, sequence: &mut u16, fragment: &mut u8,
            last: &mut u64, answer: &mut [u64; 4], frame: *const u8, frame_len: usize, number: u64, out: *mut u8, out_len: usize,
        );
        pub fn bench_table_add(own: &[u8; 6], peer: &[u8; 6], key_id: u8, key: &[u8; 16], answer: &mut [u64; 4]);
        pub fn bench_table_seal(
            own: &[u8; 6], peer: &[u8; 6], key_id: u8, key: &[u8; 16], answer: &mut [u64; 4], frame: *const u8, frame_len: usize, out: *mut u8,
            out_len: usize,
        );
        pub fn bench_table_open(
            own: &[u8; 6], peer: &[u8; 6], key_id: u8, key: &[u8; 16], answer: &mut [u64; 4], frame: *const u8, frame_len: usize, out: *mut u8,
            out_len: usize,
        );
    }
}

// In each call below the declarations above are those of crates/bench, and its functions are proved for every input.

/// The table of products that the other calls of AES are lent.
#[inline]
pub fn table() -> [u64; 256] {
    let mut t = [0; 256];
    unsafe { exported::bench_aes_fill(&mut t) };
    t
}

#[inline]
pub fn expand(t: &[u64; 256], key: &[u8; 16]) -> [u8; 176] {
    let mut w = [0; 176];
    unsafe { exported::bench_aes_expand(t, key, &mut w) };
    w
}

#[inline]
pub fn encrypt(t: &[u64; 256], w: &[u8; 176], block: &[u8; 16]) -> [u8; 16] {
    let mut out = *block;
    unsafe { exported::bench_aes_encrypt(t, w, &mut out) };
    out
}

fn written(number: u64) -> Option<usize> {
    (number != u64::MAX).then_some(number as usize)
}

pub fn ccm_seal(key: &[u8; 16], nonce: &[u8; 13], aad: &[u8], body: &[u8], out: &mut [u8]) -> Option<usize> {
    written(unsafe { exported::bench_ccm_seal(key, nonce, aad.as_ptr(), aad.len(), body.as_ptr(), body.len(), out.as_mut_ptr(), out.len()) })
}

pub fn ccm_open(key: &[u8; 16], nonce: &[u8; 13], aad: &[u8], text: &[u8], out: &mut [u8]) -> Option<usize> {
    written(unsafe { exported::bench_ccm_open(key, nonce, aad.as_ptr(), aad.len(), text.as_ptr(), text.len(), out.as_mut_ptr(), out.len()) })
}

/// The answer's number, and the packet number, the priority and the octets written, which are 0 after a refusal.
pub type Told = [u64; 4];

// What the fields of an answer hold before a call.
const UNTOLD: Told = [u64::MAX; 4];

/// A receiver, field by field. Bit i of `seen[p]` stands for the number `replay[p]` less i.
#[derive(Clone)]
pub struct Record {
    pub key: [u8; 16],
    pub key_id: u8,
    pub peer: [u8; 6],
    pub size: u8,
    pub replay: [u64; 16],
    pub seen: [u16; 16],
    pub counts: [u32; 4],
}

/// The window with this greatest number and these bits.
pub fn window(greatest: u64, bits: u16) -> Window {
    let set = (0..16).rev().filter(|bit| bits >> bit & 1 != 0);
    Window { greatest, opened: set.map(|bit| i128::from(greatest) - bit).collect() }
}

/// The bits of a window, which holds no number above its greatest nor one 16 or more below.
pub fn bits(window: &Window) -> u16 {
    window.opened.iter().fold(0, |bits, number| bits | 1 << (i128::from(window.greatest) - number))
}

impl From<&Receiver> for Record {
    fn from(r: &Receiver) -> Self {
        let (replay, seen) = (r.windows.each_ref().map(|window| window.greatest), r.windows.each_ref().map(bits));
        Record { key: r.key, key_id: r.key_id, peer: r.peer, size: r.window_size, replay, seen, counts: r.counts() }
    }
}

impl From<&Record> for Receiver {
    fn from(r: &Record) -> Self {
        let windows = std::array::from_fn(|priority| window(r.replay[priority], r.seen[priority]));
        let [format_errors, replays, decrypt_errors, opened] = r.counts;
        Receiver { key: r.key, key_id: r.key_id, peer: r.peer, window_size: r.size, windows, format_errors, replays, decrypt_errors, opened }
    }
}

/// Makes a sender with the key, key ID and address that are in `s`.
pub fn fresh_sender(s: &mut Sender) -> Told {
    let mut told = UNTOLD;
    unsafe { exported::bench_fresh_sender(&mut s.key, &mut s.key_id, &mut s.address, &mut s.last_number, &mut told) };
    told
}

/// Makes a receiver with the key, key ID, address and size that are in `r`.
pub fn fresh_receiver(r: &mut Record) -> Told {
    let mut told = UNTOLD;
    unsafe {
        exported::bench_fresh_receiver(&mut r.key, &mut r.key_id, &mut r.peer, &mut r.size, &mut r.replay, &mut r.seen, &mut r.counts, &mut told)
    };
    told
}

pub fn seal(s: &mut Sender, frame: &[u8], out: &mut [u8]) -> Told {
    let (mut told, into) = (UNTOLD, out.as_mut_ptr());
    unsafe {
        exported::bench_ccmp_seal(
            &mut s.key, &mut s.key_id, &mut s.address, &mut s.last_number, &mut told, frame.as_ptr(), frame.len(), into, out.len(),
        )
    };
    told
}

pub fn open(r: &mut Record, frame: &[u8], out: &mut [u8]) -> Told {
    let (mut told, into) = (UNTOLD, out.as_mut_ptr());
    unsafe {
        exported::bench_ccmp_open(
            &mut r.key, &mut r.key_id, &mut r.peer, &mut r.size, &mut r.replay, &mut r.seen, &mut r.counts, &mut told, frame.as_ptr(),
            frame.len(), into, out.len(),
        )
    };
    told
}

pub fn split(s: &mut Sender, frame: &[u8], size: usize, out: &mut [u8]) -> Told {
    let (mut told, into) = (UNTOLD, out.as_mut_ptr());
    unsafe {
        exported::bench_split(
            &mut s.key, &mut s.key_id, &mut s.address, &mut s.last_number, &mut told, size, frame.as_ptr(), frame.len(), into, out.len(),
        )
    };
    told
}

pub fn join(j: &mut Joiner, frame: &[u8], number: u64, out: &mut [u8]) -> Told {
    let (mut told, into) = (UNTOLD, out.as_mut_ptr());
    unsafe {
        exported::bench_join(
            &mut j.held, &mut j.length, &mut j.address, &mut j.priority, &mut j.sequence, &mut j.fragment, &mut j.number, &mut told,
            frame.as_ptr(), frame.len(), number, into, out.len(),
        )
    };
    told
}
