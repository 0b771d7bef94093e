//! Frames from a seed, for comparing two programs on them: good ones of every header shape, and damaged ones. The same seed gives the
//! same frames everywhere.

use crate::frame::{header_length, qos_place, ADDED, MAX_BODY, MAX_HEADER, MAX_NUMBER, ORDER, PROTECTED};
use std::ops::Range;

/// A Frame Control for each header shape.
pub const CONTROLS: [[u8; 2]; 6] = [[0x08, 0x00], [0x88, 0x00], [0x08, 0x03], [0x88, 0x03], [0x88, 0x80], [0x88, 0x83]];
/// A sealed frame of this length has all its regions, whatever its Frame Control says.
pub const SHORTEST_SEALED: usize = MAX_HEADER + 1 + ADDED;

/// SplitMix64.
pub struct Random(pub u64);

impl Random {
    pub fn draw(&mut self) -> u64 {
        self.0 = self.0.wrapping_add(0x9e37_79b9_7f4a_7c15);
        let mut z = self.0;
        z = (z ^ z >> 30).wrapping_mul(0xbf58_476d_1ce4_e5b9);
        z = (z ^ z >> 27).wrapping_mul(0x94d0_49bb_1331_11eb);
        z ^ z >> 31
    }

    pub fn below(&mut self, bound: usize) -> usize {
        (self.draw() % bound as u64) as usize
    }

    pub fn one_in(&mut self, chances: usize) -> bool {
        self.below(chances) == 0
    }

    pub fn pick<T: Copy>(&mut self, from: &[T]) -> T {
        from[self.below(from.len())]
    }

    pub fn octets(&mut self, count: usize) -> Vec<u8> {
        (0..count).map(|_| self.draw() as u8).collect()
    }

    pub fn octets_below(&mut self, bound: usize) -> Vec<u8> {
        let count = self.below(bound);
        self.octets(count)
    }

    pub fn array<const N: usize>(&mut self) -> [u8; N] {
        std::array::from_fn(|_| self.draw() as u8)
    }

    /// A frame that sealing takes if it is from the right address, of any header shape and with any bits that are free.
    pub fn plain(&mut self, address: [u8; 6]) -> Vec<u8> {
        let mut frame = self.octets(24);
        frame[0] = frame[0] & 0xb0 | 0x08;
        frame[1] &= !PROTECTED;
        frame[10..16].copy_from_slice(&address);
        let body = match self.below(40) {
            0 => MAX_BODY,
            1 => MAX_BODY - 1,
            2 => 1 + self.below(MAX_BODY),
            3 => 1,
            _ => 1 + self.below(50),
        };
        frame.extend(self.octets(header_length(&frame) - 24 + body));
        frame
    }

    fn flip(&mut self, frame: &mut [u8], places: Range<usize>) {
        if !places.is_empty() {
            frame[places.start + self.below(places.len())] ^= 1 << self.below(8);
        }
    }

    /// Damage that any frame may have.
    pub fn spoil(&mut self, frame: &mut Vec<u8>) {
        let header = header_length(frame);
        match self.below(8) {
            0 => frame[0] ^= self.pick(&[0x01, 0x02, 0x04, 0x08, 0x0c, 0x40]),
            1 => frame[1] ^= PROTECTED,
            2 => self.flip(frame, 10..16),
            3 => frame.truncate(self.below(41)),
            4 => frame.truncate(self.pick(&[23, 24, header - 1, header, header + 1])),
            5 => frame.resize(header + MAX_BODY + self.pick(&[0, 1, 16, 17]), 0x5a),
            6 => *frame = self.octets_below(41),
            _ => {
                let at = self.below(frame.len());
                frame[at] = self.draw() as u8;
            }
        }
    }

    /// Damage to a sealed frame, in any of its regions.
    pub fn damage(&mut self, frame: &mut Vec<u8>) {
        let (header, end) = (header_length(frame), frame.len());
        let text = header + 8;
        match self.below(16) {
            0 => frame[header + 3] ^= 0x40 * (1 + self.below(3) as u8),
            1 => frame[header + 3] ^= 0x20,
            2 => {
                frame[header + 2] = self.draw() as u8;
                frame[header + 3] ^= self.below(0x20) as u8;
            }
            3 => set_number(&mut frame[header..], 0),
            4 => set_number(&mut frame[header..], MAX_NUMBER - self.draw() % 3),
            5 => frame.truncate(header + ADDED + self.below(3)),
            6 | 7 => self.spoil(frame),
            8 => frame[1] ^= ORDER,
            _ => {
                let (at, after) = (qos_place(frame), header.min(qos_place(frame) + 2));
                let (address_4, qos, ht) = (24..at, at..after, after..header);
                let regions = [0..2, 2..4, 4..10, 10..16, 16..22, 22..24, address_4, qos, ht, header..text, text..end - 8, end - 8..end];
                let which = self.below(regions.len());
                self.flip(frame, regions[which].clone());
            }
        }
    }
}

/// Puts a packet number into a CCMP header.
pub fn set_number(ccmp_header: &mut [u8], number: u64) {
    for (octet, at) in number.to_le_bytes().into_iter().zip([0, 1, 4, 5, 6, 7]) {
        ccmp_header[at] = octet;
    }
}
