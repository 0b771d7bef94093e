//! The frame rules: a sender that seals plain 802.11 data frames and a receiver that opens them.

use crate::ccm::Ccm;
use crate::window::{Window, SIZES};

/// The greatest packet number.
pub const MAX_NUMBER: u64 = (1 << 48) - 1;
/// The greatest body of a plain frame.
pub const MAX_BODY: usize = 7_935;
/// A body up to this is opened by way of a smaller array, which is cleared sooner.
const SHORT_BODY: usize = 1_536;
/// The greatest header: A4, QoS Control and HT Control.
pub const MAX_HEADER: usize = 36;

const MIN_HEADER: usize = 24;
/// The most octets of authenticated data: with A4 and QoS Control.
const MAX_DATA: usize = 30;
const CCMP_HEADER: usize = 8;
const MIC: usize = 8;
/// What sealing adds to a frame.
pub const ADDED: usize = CCMP_HEADER + MIC;

/// Bit b14, in the second octet of Frame Control.
pub const PROTECTED: u8 = 0x40;
/// Bit b15, in the same octet.
pub const ORDER: u8 = 0x80;
/// In the key octet of the CCMP header.
pub(crate) const EXT_IV: u8 = 0x20;

#[derive(Clone, Debug, Default, PartialEq, Eq)]
pub struct Sender {
    pub key: [u8; 16],
    pub key_id: u8,
    pub address: [u8; 6],
    pub last_number: u64,
}

#[derive(Clone, Debug, Default, PartialEq, Eq)]
pub struct Receiver {
    pub key: [u8; 16],
    pub key_id: u8,
    pub peer: [u8; 6],
    pub window_size: u8,
    /// One for each priority.
    pub windows: [Window; 16],
    pub format_errors: u32,
    pub replays: u32,
    pub decrypt_errors: u32,
    pub opened: u32,
}

#[derive(Clone, Copy, Debug, Default, PartialEq, Eq)]
pub struct Done {
    pub number: u64,
    pub priority: u8,
    pub written: usize,
}

/// Why a call is refused; each has its answer number.
#[derive(Clone, Copy, Debug, PartialEq, Eq)]
pub enum Refusal {
    Record = 1,
    Short = 2,
    Kind = 3,
    Mark = 4,
    Body = 5,
    Room = 6,
    Address = 7,
    Extended = 8,
    KeyId = 9,
    Replay = 10,
    Integrity = 11,
    Spent = 12,
    Cut = 13,
    Dropped = 14,
    Absent = 15,
    Full = 16,
    Taken = 17,
}

pub type Answer = Result<Done, Refusal>;

pub(crate) fn require(holds: bool, otherwise: Refusal) -> Result<(), Refusal> {
    holds.then_some(()).ok_or(otherwise)
}

fn has_fourth_address(frame: &[u8]) -> bool {
    frame[1] & 0x03 == 0x03
}

fn has_qos(frame: &[u8]) -> bool {
    frame[0] & 0x80 != 0
}

/// Only with QoS Control does b15 say that HT Control follows it.
pub fn has_ht(frame: &[u8]) -> bool {
    has_qos(frame) && frame[1] & ORDER != 0
}

/// Where the addresses and Sequence Control end and QoS Control stands, if there is one, by Frame Control, the first two octets.
pub fn qos_place(frame: &[u8]) -> usize {
    MIN_HEADER + if has_fourth_address(frame) { 6 } else { 0 }
}

/// The header's length by Frame Control.
pub fn header_length(frame: &[u8]) -> usize {
    qos_place(frame) + if has_qos(frame) { 2 } else { 0 } + if has_ht(frame) { 4 } else { 0 }
}

/// A whole header.
pub(crate) struct Header<'a>(pub(crate) &'a [u8]);

impl<'a> Header<'a> {
    /// The header and what follows it: tests 2, 3, 4 and 2 again.
    pub(crate) fn split(frame: &'a [u8], protected: bool) -> Result<(Self, &'a [u8]), Refusal> {
        require(frame.len() >= MIN_HEADER, Refusal::Short)?;
        // Version 0, type 2 and not "no data".
        require(frame[0] & 0x4f == 0x08, Refusal::Kind)?;
        require((frame[1] & PROTECTED != 0) == protected, Refusal::Mark)?;
        let (header, rest) = frame.split_at_checked(header_length(frame)).ok_or(Refusal::Short)?;
        Ok((Header(header), rest))
    }

    /// A2, the address of the frame's sender.
    pub(crate) fn transmitter(&self) -> &[u8] {
        &self.0[10..16]
    }

    /// The low four bits of QoS Control, and 0 without it.
    pub(crate) fn priority(&self) -> u8 {
        if has_qos(self.0) {
            self.0[qos_place(self.0)] & 0x0f
        } else {
            0
        }
    }

    fn nonce(&self, number: u64) -> [u8; 13] {
        let mut nonce = [0; 13];
        nonce[0] = self.priority();
        nonce[1..7].copy_from_slice(self.transmitter());
        nonce[7..].copy_from_slice(&number.to_be_bytes()[2..]);
        nonce
    }

    /// In the front of the array, with its length: the header without Duration, HT Control and the bits that may change on the way.
    fn authenticated_data(&self) -> ([u8; MAX_DATA], usize) {
        let (header, qos) = (self.0, qos_place(self.0));
        let mut data = [0; MAX_DATA];
        data[0] = header[0] & 0x8f;
        data[1] = header[1] & 0xc7 | PROTECTED;
        data[2..20].copy_from_slice(&header[4..22]);
        data[20] = header[22] & 0x0f;
        data[22..qos - 2].copy_from_slice(&header[24..qos]);
        if !has_qos(header) {
            return (data, qos - 2);
        }
        data[1] &= !ORDER;
        data[qos - 2] = self.priority();
        (data, qos)
    }
}

fn ccmp_header(number: u64, key_id: u8) -> [u8; CCMP_HEADER] {
    let [pn0, pn1, pn2, pn3, pn4, pn5, ..] = number.to_le_bytes();
    [pn0, pn1, 0, EXT_IV | key_id << 6, pn2, pn3, pn4, pn5]
}

/// The packet number in a CCMP header.
pub fn number_in(ccmp_header: &[u8]) -> u64 {
    let octet = |at: usize| u64::from(ccmp_header[at]);
    octet(0) | octet(1) << 8 | octet(4) << 16 | octet(5) << 24 | octet(6) << 32 | octet(7) << 40
}

impl Sender {
    pub fn fresh(key: [u8; 16], key_id: u8, address: [u8; 6]) -> (Answer, Self) {
        if key_id > 3 {
            return (Err(Refusal::Record), Self::default());
        }
        (Ok(Done::default()), Sender { key, key_id, address, last_number: 0 })
    }

    pub(crate) fn is_sound(&self) -> bool {
        self.key_id <= 3 && self.last_number <= MAX_NUMBER
    }

    /// Writes the sealed frame to the front of `out`.
    pub fn seal(&mut self, frame: &[u8], out: &mut [u8]) -> Answer {
        require(self.is_sound(), Refusal::Record)?;
        let (header, body) = Header::split(frame, false)?;
        require((1..=MAX_BODY).contains(&body.len()), Refusal::Body)?;
        let written = frame.len() + ADDED;
        require(out.len() >= written, Refusal::Room)?;
        require(header.transmitter() == self.address, Refusal::Address)?;
        require(self.last_number < MAX_NUMBER, Refusal::Spent)?;

        let number = self.last_number + 1;
        let (front, text) = out.split_at_mut(header.0.len() + CCMP_HEADER);
        front[..header.0.len()].copy_from_slice(header.0);
        front[1] |= PROTECTED;
        front[header.0.len()..].copy_from_slice(&ccmp_header(number, self.key_id));
        let (data, length) = header.authenticated_data();
        Ccm::new(&self.key).seal(&header.nonce(number), &data[..length], body, text).expect("lengths that CCM takes");
        self.last_number = number;
        Ok(Done { number, priority: header.priority(), written })
    }
}

impl Receiver {
    pub fn fresh(key: [u8; 16], key_id: u8, peer: [u8; 6], window_size: u8) -> (Answer, Self) {
        if key_id > 3 || !SIZES.contains(&window_size) {
            return (Err(Refusal::Record), Self::default());
        }
        (Ok(Done::default()), Receiver { key, key_id, peer, window_size, ..Self::default() })
    }

    /// Format errors, replays, decrypt errors, opened.
    pub fn counts(&self) -> [u32; 4] {
        [self.format_errors, self.replays, self.decrypt_errors, self.opened]
    }

    pub(crate) fn is_sound(&self) -> bool {
        self.key_id <= 3 && SIZES.contains(&self.window_size) && self.windows.iter().all(|window| window.is_sound(self.window_size))
    }

    /// Writes the plain frame to the front of `out`.
    pub fn open(&mut self, frame: &[u8], out: &mut [u8]) -> Answer {
        let answer = self.opened(frame, out);
        self.record(answer);
        answer
    }

    fn opened(&self, frame: &[u8], out: &mut [u8]) -> Answer {
        require(self.is_sound(), Refusal::Record)?;
        let (header, rest) = Header::split(frame, true)?;
        require((1 + ADDED..=MAX_BODY + ADDED).contains(&rest.len()), Refusal::Body)?;
        let written = frame.len() - ADDED;
        require(out.len() >= written, Refusal::Room)?;
        require(header.transmitter() == self.peer, Refusal::Address)?;
        let (ccmp_header, text) = rest.split_at(CCMP_HEADER);
        let (key_octet, number, priority) = (ccmp_header[3], number_in(ccmp_header), header.priority());
        require(key_octet & EXT_IV != 0, Refusal::Extended)?;
        require(key_octet >> 6 == self.key_id, Refusal::KeyId)?;
        require(self.windows[usize::from(priority)].takes(number, self.window_size), Refusal::Replay)?;

        // Apart from `out`, which a refusal leaves as it was: CCM clears the room that it was lent where the MIC is wrong.
        let (mut short, mut long);
        let body: &mut [u8] = if text.len() <= SHORT_BODY + MIC {
            short = [0; SHORT_BODY];
            &mut short
        } else {
            long = [0; MAX_BODY];
            &mut long
        };
        let (data, length) = header.authenticated_data();
        let body_length = Ccm::new(&self.key).open(&header.nonce(number), &data[..length], text, body).ok_or(Refusal::Integrity)?;
        let (front, room) = out.split_at_mut(header.0.len());
        front.copy_from_slice(header.0);
        front[1] &= !PROTECTED;
        room[..body_length].copy_from_slice(&body[..body_length]);
        Ok(Done { number, priority, written })
    }

    /// Moves the window and the counts by an answer.
    fn record(&mut self, answer: Answer) {
        let count = match answer {
            Ok(done) => {
                self.windows[usize::from(done.priority)].hold(done.number, self.window_size);
                &mut self.opened
            }
            Err(Refusal::Record | Refusal::Room) => return,
            Err(Refusal::Replay) => &mut self.replays,
            Err(Refusal::Integrity) => &mut self.decrypt_errors,
            Err(_) => &mut self.format_errors,
        };
        *count = count.wrapping_add(1);
    }
}

#[cfg(test)]
mod tests {
    use super::*;
    use crate::sample::CONTROLS;

    const KEY: [u8; 16] = [7; 16];
    const ADDRESS: [u8; 6] = [2, 0, 0, 0, 0, 1];
    const ROOM: usize = MAX_HEADER + MAX_BODY + ADDED + 1;

    fn sender() -> Sender {
        Sender::fresh(KEY, 2, ADDRESS).1
    }

    fn receiver() -> Receiver {
        receiver_of_size(1)
    }

    fn receiver_of_size(size: u8) -> Receiver {
        Receiver::fresh(KEY, 2, ADDRESS, size).1
    }

    /// Of this Frame Control, from ADDRESS, the other header octets 1 upward, and a body of zeros.
    fn plain(control: [u8; 2], body: usize) -> Vec<u8> {
        let mut frame: Vec<u8> = (0..header_length(&control) as u8).collect();
        frame[..2].copy_from_slice(&control);
        frame[10..16].copy_from_slice(&ADDRESS);
        frame.resize(frame.len() + body, 0);
        frame
    }

    fn sealed(sender: &mut Sender, frame: &[u8]) -> Vec<u8> {
        let mut out = vec![0; frame.len() + ADDED];
        assert_eq!(sender.seal(frame, &mut out).map(|done| done.written), Ok(out.len()));
        out
    }

    /// A sealed frame of priority 8 with this number, which may be 0, and then its code is wrong.
    fn numbered(number: u64) -> Vec<u8> {
        let mut frame = plain([0x88, 0], 5);
        frame[24] = 8;
        let mut text = sealed(&mut Sender { last_number: number.saturating_sub(1), ..sender() }, &frame);
        text[26..34].copy_from_slice(&ccmp_header(number, 2));
        text
    }

    fn greatest(receiver: &Receiver) -> [u64; 16] {
        receiver.windows.each_ref().map(|window| window.greatest)
    }

    fn refused(control: [u8; 2]) -> Option<Refusal> {
        sender().seal(&plain(control, 1), &mut [0; ROOM]).err()
    }

    fn octets(digits: &str) -> Vec<u8> {
        digits.split_whitespace().map(|pair| u8::from_str_radix(pair, 16).unwrap()).collect()
    }

    #[test]
    fn headers() {
        for (control, length, authenticated, data_length) in [
            ([0x08, 0x00], 24, [0x08, 0x40], 22),
            ([0x88, 0x03], 32, [0x88, 0x43], 30),
            ([0x38, 0x3a], 24, [0x08, 0x42], 22),
            ([0x08, 0x80], 24, [0x08, 0xc0], 22),
            ([0x08, 0x83], 30, [0x08, 0xc3], 28),
            ([0x88, 0x80], 30, [0x88, 0x40], 24),
            ([0x88, 0x83], 36, [0x88, 0x43], 30),
        ] {
            let frame = plain(control, 0);
            let (data, octets) = Header(&frame).authenticated_data();
            assert_eq!((frame.len(), &data[..2], octets), (length, &authenticated[..], data_length));
        }
        assert_eq!([refused([0x48, 0x00]), refused([0xb0, 0x00])], [Some(Refusal::Kind); 2]);
        assert_eq!([refused([0x38, 0x3a]), refused([0x08, 0x40]), refused([0x09, 0x40])], [None, Some(Refusal::Mark), Some(Refusal::Kind)]);
    }

    #[test]
    fn muted_fields() {
        for (control, qos) in [([0x88, 0x00], 24), ([0x88, 0x03], 30), ([0x88, 0x80], 24), ([0x88, 0x83], 30)] {
            let mut frame = plain(control, 0);
            frame[22..24].copy_from_slice(&[0x35, 0xa1]);
            frame[qos..qos + 2].copy_from_slice(&[0xf6, 0x12]);
            let header = Header(&frame);
            let (data, length) = header.authenticated_data();
            assert_eq!((&data[20..22], &data[22..qos - 2], &data[qos - 2..length]), (&[0x05, 0][..], &frame[24..qos], &[0x06, 0][..]));
            assert_eq!(header.priority(), 6);
            assert_eq!(header.nonce(0x010203040506).to_vec(), octets("06 02 00 00 00 00 01 01 02 03 04 05 06"));
        }
    }

    #[test]
    fn packet_number() {
        let header = ccmp_header(0x010203040506, 2);
        assert_eq!(header.to_vec(), octets("06 05 00 a0 04 03 02 01"));
        assert_eq!(number_in(&header), 0x010203040506);
    }

    // IEEE 802.11's example of CCMP.
    #[test]
    fn standard_vector() {
        let key: [u8; 16] = octets("c9 7c 1f 67 ce 37 11 85 51 4a 8a 19 f2 bd d5 2f").try_into().unwrap();
        let address = [0x50, 0x30, 0xf1, 0x84, 0x44, 0x08];
        let header = "c3 2c 0f d2 e1 28 a5 7c 50 30 f1 84 44 08 ab ae a5 b8 fc ba 80 33";
        let frame = octets(&format!("08 08 {header} f8 ba 1a 55 d0 2f 85 ae 96 7b b6 2f b6 cd a8 eb 7e 78 a0 50"));
        let text = "f3 d0 a2 fe 9a 3d bf 23 42 a6 43 e4 32 46 e8 0c 3c 04 d0 19 78 45 ce 0b 16 f9 76 23";
        let expected = octets(&format!("08 48 {header} 0c e7 00 20 76 97 03 b5 {text}"));
        let mut sender = Sender { key, key_id: 0, address, last_number: 0xb503_9776_e70b };
        assert_eq!(sealed(&mut sender, &frame), expected);
        let mut out = [0; 44];
        let done = Done { number: 0xb503_9776_e70c, priority: 0, written: 44 };
        assert_eq!(Receiver::fresh(key, 0, address, 1).1.open(&expected, &mut out), Ok(done));
        assert_eq!(out[..], frame);
    }

    #[test]
    fn body_limits() {
        for control in CONTROLS {
            for (body, refusal) in [(0, Some(Refusal::Body)), (1, None), (7_934, None), (7_935, None), (7_936, Some(Refusal::Body))] {
                assert_eq!(sender().seal(&plain(control, body), &mut [0; ROOM]).err(), refusal);
            }
            for (rest, refusal) in [(16, Refusal::Body), (17, Refusal::Extended), (7_951, Refusal::Extended), (7_952, Refusal::Body)] {
                let frame = plain([control[0], control[1] | PROTECTED], rest);
                assert_eq!(receiver().open(&frame, &mut [0; ROOM]), Err(refusal));
            }
        }
    }

    #[test]
    fn short_frames() {
        for (control, header) in [([0x88, 0x03], 32), ([0x88, 0x80], 30), ([0x88, 0x83], 36)] {
            let frame = plain(control, 1);
            let mut answers = (0..=header + 1).map(|length| sender().seal(&frame[..length], &mut [0; ROOM]).err());
            assert!(answers.by_ref().take(header).all(|answer| answer == Some(Refusal::Short)));
            assert_eq!(answers.collect::<Vec<_>>(), [Some(Refusal::Body), None]);
            let frame = plain([control[0], control[1] | PROTECTED], 0);
            let answers = [header - 1, header].map(|length| receiver().open(&frame[..length], &mut [0; ROOM]));
            assert_eq!(answers, [Err(Refusal::Short), Err(Refusal::Body)]);
        }
    }

    #[test]
    fn greatest_sealed_frame() {
        let lengths = CONTROLS.map(|control| sealed(&mut sender(), &plain(control, MAX_BODY)).len());
        assert_eq!(lengths, [7_975, 7_977, 7_981, 7_983, 7_981, 7_987]);
    }

    #[test]
    fn ht_control_is_free() {
        for (with, without) in [([0x88, 0x80], [0x88, 0x00]), ([0x88, 0x83], [0x88, 0x03])] {
            let (ht, header) = (header_length(&without), header_length(&with));
            let mut frame = plain(with, 40);
            let mut text = sealed(&mut sender(), &frame);
            let shorter = [&without[..], &frame[2..ht], &frame[header..]].concat();
            assert_eq!(text[header..], sealed(&mut sender(), &shorter)[ht..]);
            for octet in frame[ht..header].iter_mut().chain(&mut text[ht..header]) {
                *octet ^= 0xff;
            }
            let mut out = vec![0; frame.len()];
            assert!(receiver().open(&text, &mut out).is_ok());
            assert_eq!(out, frame);
        }
    }

    // Taken for the key octet then: PN5 where b15 is set, and HT Control's last octet where it is cleared.
    #[test]
    fn b15_turned_over() {
        let answer = |control: [u8; 2], body: usize, key_octet: u8, counter: u64| {
            let (mut sender, mut receiver) = (sender(), receiver());
            let mut frame = plain(control, body);
            if has_ht(&frame) {
                frame[header_length(&control) - 1] = key_octet;
            } else {
                sender.last_number = u64::from(key_octet) << 40;
            }
            let mut frame = sealed(&mut sender, &frame);
            frame[1] ^= ORDER;
            receiver.windows = [(); 16].map(|()| Window::at(counter));
            receiver.open(&frame, &mut [0; ROOM])
        };
        for control in [[0x88, 0x00], [0x88, 0x03], [0x88, 0x80], [0x88, 0x83]] {
            let limit = if has_ht(&control) { MAX_BODY - 3 } else { 4 };
            assert_eq!(answer(control, limit, 0xa0, 0), Err(Refusal::Body));
            assert_eq!(answer(control, 5, 0x80, 0), Err(Refusal::Extended));
            assert_eq!(answer(control, 5, 0xe0, 0), Err(Refusal::KeyId));
            assert_eq!(answer(control, 5, 0xa0, MAX_NUMBER), Err(Refusal::Replay));
            assert_eq!(answer(control, 5, 0xa0, 0), Err(Refusal::Integrity));
        }
        for body in 1..=MAX_BODY {
            for control in [[0x88, 0x00], [0x88, 0x80]] {
                assert!(matches!(answer(control, body, 0xa0, 0), Err(Refusal::Body | Refusal::Integrity)));
            }
        }
    }

    #[test]
    fn room_and_order() {
        let mut sender = sender();
        let mut stranger = plain([0x08, 0], 1);
        stranger[15] = 9;
        assert_eq!(sender.seal(&plain([0x08, 0], 1), &mut [0; 40]), Err(Refusal::Room));
        assert_eq!(sender.seal(&stranger, &mut [0; 40]), Err(Refusal::Room));
        assert_eq!(sender.seal(&plain([0x08, 0], 1), &mut [0; 41]), Ok(Done { number: 1, priority: 0, written: 41 }));
        sender.last_number = MAX_NUMBER - 1;
        assert_eq!(sender.seal(&plain([0x08, 0], 1), &mut [0; 41]).map(|done| done.number), Ok(MAX_NUMBER));
        assert_eq!(sender.seal(&stranger, &mut [0; 41]), Err(Refusal::Address));
        assert_eq!(sender.seal(&plain([0x08, 0], 1), &mut [0; 41]), Err(Refusal::Spent));
        sender.last_number += 1;
        assert_eq!(sender.seal(&[], &mut []), Err(Refusal::Record));
    }

    #[test]
    fn replays() {
        let (mut sender, mut receiver) = (sender(), receiver());
        let mut frame = plain([0x88, 0], 5);
        (receiver.windows[8], sender.last_number) = (Window::at(7), 6);
        frame[24] = 8;
        let (seven, eight) = (sealed(&mut sender, &frame), sealed(&mut sender, &frame));
        let mut zero = seven.clone();
        zero[26] = 0;
        let answers = [&seven, &eight, &eight, &seven, &zero].map(|frame| receiver.open(frame, &mut [0; 31]).err());
        assert_eq!(answers, [Some(Refusal::Replay), None, Some(Refusal::Replay), Some(Refusal::Replay), Some(Refusal::Replay)]);
        zero[24] = 0;
        assert_eq!(receiver.open(&zero, &mut [0; 31]), Err(Refusal::Replay));
        assert_eq!((receiver.replays, receiver.opened, greatest(&receiver).iter().sum()), (5, 1, 8));
    }

    /// The answers to frames with these numbers, in priority 8.
    fn answers<const N: usize>(receiver: &mut Receiver, numbers: [u64; N]) -> [Option<Refusal>; N] {
        numbers.map(|number| receiver.open(&numbered(number), &mut [0; 31]).err())
    }

    // g - n of 0, 1, 14, 15 and 16, and again.
    #[test]
    fn late_by_so_much() {
        for greatest in [17, 1_000, MAX_NUMBER] {
            let numbers = [0, 1, 14, 15, 16].map(|below| greatest - below);
            for (size, late) in [(1, Some(Refusal::Replay)), (16, None)] {
                let mut receiver = receiver_of_size(size);
                receiver.windows[8] = Window::at(greatest);
                assert_eq!(answers(&mut receiver, numbers), [Some(Refusal::Replay), late, late, late, Some(Refusal::Replay)]);
                let before = receiver.windows.clone();
                assert_eq!(answers(&mut receiver, numbers), [Some(Refusal::Replay); 5]);
                assert_eq!((self::greatest(&receiver)[8], &receiver.windows), (greatest, &before));
                assert_eq!([receiver.opened, receiver.replays], if size == 1 { [0, 10] } else { [3, 7] });
            }
        }
    }

    #[test]
    fn jumps() {
        for to in [1, 15, 16, 17, MAX_NUMBER - 40].map(|jump| 40 + jump) {
            let mut receiver = receiver_of_size(16);
            receiver.windows[8] = Window { greatest: 40, opened: vec![38, 40] };
            assert_eq!(answers(&mut receiver, [to, to, 38, 40]), [None, Some(Refusal::Replay), Some(Refusal::Replay), Some(Refusal::Replay)]);
            // What lies between is taken once where it is not too far below.
            let near = |number: u64| (to - number >= 16).then_some(Refusal::Replay);
            assert_eq!(answers(&mut receiver, [39, 39, 37, 37]), [near(39), Some(Refusal::Replay), near(37), Some(Refusal::Replay)]);
            assert_eq!(answers(&mut receiver, [to - 16, to - 11, to]), [Some(Refusal::Replay), None, Some(Refusal::Replay)]);
            assert_eq!(greatest(&receiver)[8], to);
        }
    }

    // The greatest number from 0 to 16, so that 0 is within the window or just below it.
    #[test]
    fn number_0() {
        for (greatest, size) in (0..=16).flat_map(|greatest| SIZES.map(|size| (greatest, size))) {
            let mut receiver = receiver_of_size(size);
            receiver.windows[8] = Window::at(greatest);
            let before = receiver.windows.clone();
            assert_eq!(answers(&mut receiver, [0, 0]), [Some(Refusal::Replay); 2]);
            assert_eq!((receiver.windows, receiver.replays), (before, 2));
        }
    }

    // A forged frame that would be taken late, or move the greatest number, keeps nothing from the whole one.
    #[test]
    fn forged_in_the_window() {
        let mut receiver = receiver_of_size(16);
        receiver.windows[8] = Window::at(40);
        for number in [26, 39, 41, 55, MAX_NUMBER] {
            let mut forged = numbered(number);
            *forged.last_mut().unwrap() ^= 1;
            let before = receiver.windows.clone();
            assert_eq!(receiver.open(&forged, &mut [0; 31]), Err(Refusal::Integrity));
            assert_eq!(receiver.open(&numbered(number), &mut [0; 30]), Err(Refusal::Room));
            assert_eq!(receiver.windows, before);
            assert_eq!(answers(&mut receiver, [number, number]), [None, Some(Refusal::Replay)]);
        }
        assert_eq!(receiver.counts(), [0, 5, 5, 5]);
    }

    #[test]
    fn a_window_for_each_priority() {
        let mut receiver = receiver_of_size(16);
        let mut frame = plain([0x88, 0], 5);
        let (mut expected, priorities) = (Receiver::default().windows, [0, 7, 8, 15]);
        priorities.iter().for_each(|&priority| expected[priority] = Window { greatest: 20, opened: vec![10, 20] });
        for (number, priority) in [20, 10, 20, 10].into_iter().flat_map(|number| priorities.map(|priority| (number, priority))) {
            frame[24] = priority as u8;
            let text = sealed(&mut Sender { last_number: number - 1, ..sender() }, &frame);
            let again = receiver.windows == expected;
            assert_eq!(receiver.open(&text, &mut [0; 31]).err(), again.then_some(Refusal::Replay));
        }
        assert_eq!((receiver.counts(), receiver.windows), ([0, 8, 0, 8], expected));
    }

    #[test]
    fn refusals_write_nothing_and_count() {
        let (mut receiver, mut out) = (receiver(), [0xaa; 40]);
        let good = sealed(&mut sender(), &plain([0x88, 0x03], 3));
        let changed = |at: usize, bits: u8| {
            let mut frame = good.clone();
            frame[at] ^= bits;
            frame
        };
        for (frame, refusal) in [
            (changed(0, 0x01), Refusal::Kind),
            (changed(1, PROTECTED), Refusal::Mark),
            (changed(10, 0x80), Refusal::Address),
            (changed(35, EXT_IV), Refusal::Extended),
            (changed(35, 0x40), Refusal::KeyId),
            (changed(33, 0x01), Refusal::Integrity),
            (changed(50, 0x80), Refusal::Integrity),
        ] {
            assert_eq!(receiver.open(&frame, &mut out), Err(refusal));
        }
        assert_eq!(receiver.open(&good, &mut out[..34]), Err(Refusal::Room));
        assert_eq!((out, receiver.windows.clone()), ([0xaa; 40], Receiver::default().windows));
        receiver.opened = u32::MAX;
        // Octet 2 of the CCMP header, the low bits of the key octet, and Duration are free.
        let mut frame = changed(34, 0xff);
        frame[35] ^= 0x1f;
        frame[2] ^= 0xff;
        assert_eq!(receiver.open(&frame, &mut out), Ok(Done { number: 1, priority: 14, written: 35 }));
        assert_eq!((&out[2..3], &out[32..]), (&[0xfd][..], &[0, 0, 0, 0xaa, 0xaa, 0xaa, 0xaa, 0xaa][..]));
        assert_eq!((receiver.format_errors, receiver.replays, receiver.decrypt_errors, receiver.opened), (5, 0, 2, 0));
    }

    #[test]
    fn fresh_records() {
        assert_eq!(Sender::fresh(KEY, 4, ADDRESS), (Err(Refusal::Record), Sender::default()));
        for (key_id, size) in [(4, 1), (4, 16), (255, 16), (2, 0), (2, 2), (2, 15), (2, 17), (2, 255), (4, 0)] {
            assert_eq!(Receiver::fresh(KEY, key_id, ADDRESS, size), (Err(Refusal::Record), Receiver::default()));
        }
        for size in SIZES {
            let fresh = Receiver { key: KEY, key_id: 2, peer: ADDRESS, window_size: size, ..Receiver::default() };
            assert_eq!(Receiver::fresh(KEY, 2, ADDRESS, size), (Ok(Done::default()), fresh));
        }
    }

    /// The answer to a frame that is good for a sound one. One that isn't sound answers 1 to any frame and stays as it was.
    fn refused_by(mut receiver: Receiver) -> Option<Refusal> {
        let before = receiver.clone();
        let refusal = receiver.open(&numbered(100), &mut [0; 31]).err();
        if refusal == Some(Refusal::Record) {
            assert_eq!((receiver.open(&[], &mut []).err(), receiver), (refusal, before));
        }
        refusal
    }

    #[test]
    fn receivers_that_are_not_sound() {
        assert_eq!([refused_by(Receiver::default()), refused_by(Receiver { key_id: 4, ..receiver() })], [Some(Refusal::Record); 2]);
        for size in [0, 2, 15, 17, 255] {
            assert_eq!(refused_by(Receiver { window_size: size, ..receiver() }), Some(Refusal::Record));
        }
        // The windows that size 16 takes, and whether size 1 does too.
        let sound = [(0, &[][..], true), (90, &[90], true), (90, &[75, 90], false), (90, &[89, 90], false), (16, &[1, 16], false)];
        // 0 or less, the greatest missing, and a greatest that is no packet number.
        let zero_or_less: [(u64, &[i128]); 5] = [(0, &[0]), (0, &[-15]), (15, &[0, 15]), (1, &[-14, 1]), (3, &[-1])];
        let missing: [(u64, &[i128]); 4] = [(1, &[]), (90, &[]), (90, &[89]), (90, &[75, 89])];
        let beyond: [(u64, &[i128]); 3] = [(1 << 48, &[1 << 48]), (1 << 48, &[]), (u64::MAX, &[u64::MAX as i128])];
        for (priority, size) in (0..16).flat_map(|priority| SIZES.map(|size| (priority, size))) {
            let with = |greatest: u64, opened: &[i128]| {
                let mut receiver = receiver_of_size(size);
                receiver.windows[priority] = Window { greatest, opened: opened.to_vec() };
                refused_by(receiver)
            };
            for (greatest, opened, at_size_1) in sound {
                assert_eq!(with(greatest, opened), (size == 1 && !at_size_1).then_some(Refusal::Record));
            }
            for &(greatest, opened) in zero_or_less.iter().chain(&missing).chain(&beyond) {
                assert_eq!(with(greatest, opened), Some(Refusal::Record));
            }
        }
    }
}
