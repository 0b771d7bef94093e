//! Writes one frame book for comparing two programs on it: frames to seal and to open, good, late, repeated, damaged and strangers' ones,
//! and malformed lines. The same arguments give the same octets everywhere.
//!
//!   generate SEED LINES        a SEED of 15 modulo 16 gives a bad line 1
#![forbid(unsafe_code)]

use second::book::LONGEST;
use second::frame::{qos_place, Sender, ADDED, MAX_BODY, MAX_HEADER, MAX_NUMBER, PROTECTED};
use second::sample::{Random, SHORTEST_SEALED};
use std::collections::VecDeque;
use std::io::{self, Write};

const ROOM: usize = MAX_HEADER + MAX_BODY + ADDED;
/// Octets that are no digits: the neighbours of the digits, capitals, and what some readers of text take for an end.
const NOT_DIGITS: [u8; 22] = *b"/:`g@GAFO- \t\0\r\x08\x0b\x0c\x1a\x7f\x80\x85\xff";

fn digits(octets: &[u8]) -> Vec<u8> {
    let digit = |value: u8| b"0123456789abcdef"[usize::from(value)];
    octets.iter().flat_map(|octet| [digit(octet >> 4), digit(octet & 0x0f)]).collect()
}

fn line(word: &[u8], frame: &[u8]) -> Vec<u8> {
    [word, b"\t", &digits(frame)].concat()
}

struct Generator {
    random: Random,
    key: [u8; 16],
    key_id: u8,
    own: [u8; 6],
    /// The peer's sender. Where the peer has the book's own address it goes along with the book's sender.
    sender: Sender,
    /// Sealed frames on their way to the book.
    waiting: VecDeque<Vec<u8>>,
    /// Some of those that were on their way before, delivered or lost.
    past: Vec<Vec<u8>>,
}

impl Generator {
    fn new(seed: u64) -> Self {
        let mut random = Random(seed);
        let (key, key_id, own, other) = (random.array(), (seed % 4) as u8, random.array(), random.array());
        let peer = if seed / 4 % 3 == 1 { own } else { other };
        let (_, mut sender) = Sender::fresh(key, key_id, peer);
        if own != peer && random.one_in(2) {
            sender.last_number = random.draw() >> 17;
        }
        Generator { random, key, key_id, own, sender, waiting: VecDeque::new(), past: Vec::new() }
    }

    fn peer_is_own(&self) -> bool {
        self.sender.address == self.own
    }

    fn first_line(&self) -> Vec<u8> {
        let key_id = [b'0' + self.key_id];
        [&b"key"[..], &digits(&self.key), &key_id, &digits(&self.own), &digits(&self.sender.address)].join(&b'\t')
    }

    fn bad_first_line(&mut self, kind: u64) -> Vec<u8> {
        let good = self.first_line();
        let mut fields: Vec<Vec<u8>> = good.split(|&octet| octet == b'\t').map(<[u8]>::to_vec).collect();
        let field = 1 + self.random.pick(&[0, 2, 3]);
        match kind % 16 {
            0 => fields[0] = self.random.pick(&[&b"kez"[..], b"KEY", b"ke", b"keys", b"seal", b"open", b""]).to_vec(),
            1 => fields[2] = vec![b'4' + self.random.below(6) as u8],
            2 => fields[2] = self.random.pick(&[&b"a"[..], b"f", b"/", b":", b"", b"00", b"03", b"-1", b" 0"]).to_vec(),
            3 => _ = fields[field].pop(),
            4 => fields[field].truncate(10),
            5 => fields[field].push(b'0'),
            6 => fields[field].extend(b"00"),
            7 => fields[field][0] = self.random.pick(&NOT_DIGITS),
            8 => fields[1][31] = b'F',
            9 => _ = fields.remove(field),
            10 => fields.push(Vec::new()),
            11 => fields.insert(field, Vec::new()),
            12 => fields[4].push(b'\r'),
            13 => fields[0].insert(0, b' '),
            14 => fields[4].extend(vec![b'0'; LONGEST]),
            _ => fields.clear(),
        }
        fields.join(&b'\t')
    }

    /// Seals by the peer's sender; what is sealed waits for its delivery.
    fn send(&mut self, frame: &[u8]) {
        let mut sealed = vec![0; ROOM];
        if let Ok(done) = self.sender.seal(frame, &mut sealed) {
            sealed.truncate(done.written);
            self.waiting.push_back(sealed);
        }
    }

    /// Seals some frames of the peer's. Those of priorities 14 and 15 have numbers from the end of the range.
    fn send_some(&mut self) {
        for _ in 0..6 {
            let frame = self.random.plain(self.sender.address);
            let last_number = self.sender.last_number;
            let at_the_end = frame[0] & 0x80 != 0 && frame[qos_place(&frame)] & 0x0f >= 14;
            if at_the_end {
                self.sender.last_number = MAX_NUMBER - 1 - self.random.draw() % 12;
            }
            self.send(&frame);
            if at_the_end {
                self.sender.last_number = last_number;
            }
        }
    }

    /// The sealed frame to deliver next: in order or not, again, or after one that was lost.
    fn delivery(&mut self) -> Option<Vec<u8>> {
        if self.waiting.len() < 3 && !self.peer_is_own() {
            self.send_some();
        }
        if self.waiting.is_empty() || self.random.one_in(6) && !self.past.is_empty() {
            let again = self.random.below(self.past.len().max(1));
            return self.past.get(again).cloned();
        }
        let place = if self.random.one_in(4) { self.random.below(self.waiting.len()) } else { 0 };
        let frame = self.waiting.remove(place)?;
        if self.past.len() < 32 {
            self.past.push(frame.clone());
        } else {
            self.past[self.random.below(32)] = frame.clone();
        }
        (!self.random.one_in(12)).then_some(frame)
    }

    fn seal_line(&mut self) -> Vec<u8> {
        let mut frame = self.random.plain(self.own);
        while frame.len() >= 24 && self.random.one_in(3) {
            self.random.spoil(&mut frame);
        }
        if self.peer_is_own() {
            self.send(&frame);
        }
        line(b"seal", &frame)
    }

    /// A frame that is good but for its address, with the peer's next number.
    fn stranger(&mut self) -> Vec<u8> {
        let mut sender = self.sender.clone();
        sender.address[self.random.below(6)] ^= 1 << self.random.below(8);
        let (frame, mut sealed) = (self.random.plain(sender.address), vec![0; ROOM]);
        let written = sender.seal(&frame, &mut sealed).map_or(0, |done| done.written);
        sealed.truncate(written);
        sealed
    }

    fn open_line(&mut self) -> Vec<u8> {
        if self.random.one_in(24) {
            return line(b"open", &self.stranger());
        }
        let Some(mut frame) = self.delivery() else {
            return self.seal_line();
        };
        if self.random.one_in(2) {
            let whole = frame.clone();
            self.random.damage(&mut frame);
            while frame.len() >= SHORTEST_SEALED && self.random.one_in(3) {
                self.random.damage(&mut frame);
            }
            // The whole frame may come after the damaged one, which must not have used up its number.
            if self.random.one_in(2) {
                self.waiting.push_front(whole);
            }
        }
        line(b"open", &frame)
    }

    /// A line near the greatest length or far over it. It may be well formed but for that, or its tail after `LONGEST` octets or one more may be.
    fn long_line(&mut self) -> Vec<u8> {
        let length = LONGEST - 1 + self.random.pick(&[0, 0, 0, 1, 2, 2, 2, 3, 4, 10_000, 10_001, 70_000]);
        let mut frame = self.random.plain(self.own);
        frame.resize(length / 2, 0xa5);
        let mut long = line(b"seal", &frame);
        if self.random.one_in(2) {
            frame[1] |= PROTECTED;
            frame[10..16].copy_from_slice(&self.sender.address);
            long = line(b"open", &frame);
        }
        long.truncate(length);
        if self.random.one_in(3) {
            long.resize(self.random.pick(&[LONGEST, LONGEST + 1]), b'0');
            let frame = self.random.plain(self.own);
            long.extend(line(b"seal", &frame));
        }
        long
    }

    /// A good line made bad.
    fn malformed_line(&mut self) -> Vec<u8> {
        let frame = self.random.plain(self.own);
        let mut bad = line(self.random.pick(&[b"seal", b"open"]), &frame);
        let digit = 5 + self.random.below(bad.len() - 5);
        match self.random.below(14) {
            0 => bad.clear(),
            1 => _ = bad.pop(),
            2 => bad.push(b'0'),
            3 => bad[digit] = self.random.pick(&NOT_DIGITS),
            4 => bad.insert(digit, self.random.pick(&NOT_DIGITS)),
            5 => bad.push(self.random.pick(&NOT_DIGITS)),
            6 => bad.insert(self.random.below(6), self.random.pick(&NOT_DIGITS)),
            7 => _ = bad.remove(self.random.below(5)),
            8 => bad[5..].make_ascii_uppercase(),
            9 => bad.truncate(self.random.below(5)),
            10 => {
                let words: [&[u8]; 12] = [b"s", b"sea", b"seals", b"SEAL", b"Seal", b"ope", b"opens", b"OPEN", b"key", b"send", b"sealopen", b""];
                bad = line(self.random.pick(&words), &frame);
            }
            11 => bad = self.first_line(),
            12 => bad = self.random.octets_below(80),
            _ => return self.long_line(),
        }
        bad.iter_mut().filter(|octet| **octet == b'\n').for_each(|octet| *octet = b'\r');
        bad
    }

    fn later_line(&mut self) -> Vec<u8> {
        match self.random.below(16) {
            0..4 => self.malformed_line(),
            4..9 => self.seal_line(),
            _ => self.open_line(),
        }
    }

    fn book(&mut self, seed: u64, lines: usize) -> Vec<u8> {
        let mut book = if seed % 16 == 15 { self.bad_first_line(seed / 16) } else { self.first_line() };
        for _ in 1..lines {
            book.push(b'\n');
            book.extend(self.later_line());
        }
        if !self.random.one_in(4) {
            book.push(b'\n');
        }
        book
    }
}

fn main() -> io::Result<()> {
    let numbers: Vec<u64> = std::env::args().skip(1).map_while(|argument| argument.parse().ok()).collect();
    let [seed, lines] = numbers[..] else {
        eprintln!("generate SEED LINES");
        std::process::exit(2);
    };
    io::stdout().write_all(&Generator::new(seed).book(seed, lines as usize))
}
