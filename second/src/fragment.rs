//! Messages in fragments: a splitter that cuts what follows a plain frame's header and seals the pieces, and a joiner that puts opened
//! fragments together again.

use crate::frame::{require, Answer, Done, Header, Refusal, Sender, ADDED, MAX_HEADER, MAX_NUMBER};

/// The greatest message.
pub const MAX_MESSAGE: usize = 2_304;
/// The most fragments of a message.
pub const MAX_FRAGMENTS: usize = 16;
/// The least and the greatest size to cut at, always an even one. No fragment has more than the greatest.
pub const MIN_SIZE: usize = 16;
pub const MAX_SIZE: usize = 2_296;
/// Bit b10, in the second octet of Frame Control.
pub const MORE_FRAG: u8 = 0x04;

/// An unfinished message, or nothing and all zeros.
#[derive(Clone, Debug, PartialEq, Eq)]
pub struct Joiner {
    /// The message so far, in the front.
    pub held: [u8; MAX_MESSAGE],
    pub length: usize,
    /// A2 of the last fragment, and then its priority, sequence number, fragment number and packet number.
    pub address: [u8; 6],
    pub priority: u8,
    pub sequence: u16,
    pub fragment: u8,
    pub number: u64,
}

impl Default for Joiner {
    fn default() -> Self {
        Joiner { held: [0; MAX_MESSAGE], length: 0, address: [0; 6], priority: 0, sequence: 0, fragment: 0, number: 0 }
    }
}

impl Header<'_> {
    fn has_more_fragments(&self) -> bool {
        self.0[1] & MORE_FRAG != 0
    }

    /// The low four bits of Sequence Control.
    fn fragment_number(&self) -> u8 {
        self.0[22] & 0x0f
    }

    /// The other twelve.
    fn sequence_number(&self) -> u16 {
        u16::from_le_bytes([self.0[22], self.0[23]]) >> 4
    }

    /// Writes the plain fragment with this piece to the front of `out` and gives its length. All else in the header stays.
    fn fragment(&self, number: u8, is_last: bool, piece: &[u8], out: &mut [u8]) -> usize {
        let (header, length) = (self.0.len(), self.0.len() + piece.len());
        out[..header].copy_from_slice(self.0);
        out[1] = if is_last { out[1] & !MORE_FRAG } else { out[1] | MORE_FRAG };
        out[22] = out[22] & 0xf0 | number;
        out[header..length].copy_from_slice(piece);
        length
    }
}

impl Sender {
    /// Cuts what follows the frame's header at every `size` octets and writes the sealed fragments to the front of `out`, one after another.
    /// The answer names the first one's number.
    pub fn split(&mut self, frame: &[u8], size: usize, out: &mut [u8]) -> Answer {
        require(self.is_sound(), Refusal::Record)?;
        let (header, message) = Header::split(frame, false)?;
        require(size.is_multiple_of(2) && (MIN_SIZE..=MAX_SIZE).contains(&size), Refusal::Cut)?;
        require((1..=MAX_MESSAGE).contains(&message.len()), Refusal::Cut)?;
        let fragments = message.len().div_ceil(size);
        require(fragments <= MAX_FRAGMENTS, Refusal::Cut)?;
        let around = header.0.len() + ADDED;
        let written = message.len() + fragments * around;
        require(out.len() >= written, Refusal::Room)?;
        require(header.transmitter() == self.address, Refusal::Address)?;
        require(MAX_NUMBER - self.last_number >= fragments as u64, Refusal::Spent)?;

        let number = self.last_number + 1;
        let mut plain = [0; MAX_HEADER + MAX_SIZE];
        let rooms = out[..written].chunks_mut(size + around);
        for ((at, piece), room) in (0..).zip(message.chunks(size)).zip(rooms) {
            let length = header.fragment(at, usize::from(at) + 1 == fragments, piece, &mut plain);
            self.seal(&plain[..length], room).expect("a fragment that sealing takes");
        }
        Ok(Done { number, priority: header.priority(), written })
    }
}

impl Joiner {
    /// No field is wider than in the frame.
    fn is_sound(&self) -> bool {
        let of_the_frame = self.priority <= 0x0f && self.sequence <= 0x0fff && self.fragment <= 0x0f && self.number <= MAX_NUMBER;
        self.length <= MAX_MESSAGE && of_the_frame
    }

    /// Whether the fragment is the next one of the message held. None comes after fragment 15.
    fn is_continued_by(&self, header: &Header, number: u64) -> bool {
        let one_message = header.transmitter() == self.address && header.priority() == self.priority && header.sequence_number() == self.sequence;
        self.length > 0 && one_message && header.fragment_number() == self.fragment + 1 && number == self.number + 1
    }

    /// Holds one more fragment.
    fn hold(&mut self, header: &Header, body: &[u8], number: u64) {
        if header.fragment_number() == 0 {
            *self = Joiner::default();
        }
        self.held[self.length..][..body.len()].copy_from_slice(body);
        self.length += body.len();
        self.address.copy_from_slice(header.transmitter());
        self.priority = header.priority();
        self.sequence = header.sequence_number();
        self.fragment = header.fragment_number();
        self.number = number;
    }

    /// Takes an opened frame and the number that opening named. A finished message is written to the front of `out`, alone.
    pub fn join(&mut self, frame: &[u8], number: u64, out: &mut [u8]) -> Answer {
        require(self.is_sound() && number <= MAX_NUMBER, Refusal::Record)?;
        let (header, body) = Header::split(frame, false)?;
        require((1..=MAX_SIZE).contains(&body.len()), Refusal::Body)?;
        let starts = header.fragment_number() == 0;
        let before = if starts { 0 } else { self.length };
        let length = before + body.len();
        if !starts && !self.is_continued_by(&header, number) || length > MAX_MESSAGE {
            *self = Joiner::default();
            return Err(Refusal::Dropped);
        }
        let priority = header.priority();
        if header.has_more_fragments() {
            self.hold(&header, body, number);
            return Ok(Done { number, priority, written: 0 });
        }
        let (front, back) = out.get_mut(..length).ok_or(Refusal::Room)?.split_at_mut(before);
        front.copy_from_slice(&self.held[..before]);
        back.copy_from_slice(body);
        *self = Joiner::default();
        Ok(Done { number, priority, written: length })
    }
}

#[cfg(test)]
mod tests {
    use super::*;
    use crate::frame::{header_length, Receiver, ORDER, PROTECTED};
    use crate::sample::{Random, CONTROLS};

    const KEY: [u8; 16] = [7; 16];
    const ADDRESS: [u8; 6] = [2, 0, 0, 0, 0, 1];
    const QOS: [u8; 2] = [0x88, 0x00];
    /// Enough for 16 fragments of the greatest message.
    const ROOM: usize = MAX_MESSAGE + MAX_FRAGMENTS * (MAX_HEADER + ADDED);

    fn sender() -> Sender {
        Sender::fresh(KEY, 2, ADDRESS).1
    }

    /// Of this Frame Control, from ADDRESS, the other header octets 1 upward, and then these. Its priority is 8 or 14 where it has one,
    /// its sequence number 0x171 and its fragment number 6.
    fn plain(control: [u8; 2], rest: &[u8]) -> Vec<u8> {
        let mut frame: Vec<u8> = (0..header_length(&control) as u8).collect();
        frame[..2].copy_from_slice(&control);
        frame[10..16].copy_from_slice(&ADDRESS);
        [frame, rest.to_vec()].concat()
    }

    /// A message in which no two fragments are alike.
    fn message(length: usize) -> Vec<u8> {
        (0..length).map(|i| (i * 7 + i / 256) as u8).collect()
    }

    /// The refusal, if there is one, to a message of this length cut at this size, by a sender with this last number.
    fn split_refused(length: usize, size: usize, last_number: u64) -> Option<Refusal> {
        let mut sender = Sender { last_number, ..sender() };
        sender.split(&plain(QOS, &message(length)), size, &mut [0; ROOM]).err()
    }

    /// The fragments of a message, each opened and with its number.
    fn fragments(sender: &mut Sender, frame: &[u8], size: usize) -> Vec<(Vec<u8>, u64)> {
        let mut out = [0; ROOM];
        let done = sender.split(frame, size, &mut out).unwrap();
        let mut receiver = Receiver::fresh(KEY, 2, ADDRESS, 1).1;
        let opened = out[..done.written].chunks(header_length(frame) + size + ADDED).map(|sealed| {
            let mut plain = vec![0; sealed.len() - ADDED];
            let done = receiver.open(sealed, &mut plain).unwrap();
            (plain, done.number)
        });
        opened.collect()
    }

    /// A plain fragment of priority 8 with this fragment number.
    fn fragment(number: u8, more: bool, body: &[u8]) -> Vec<u8> {
        let mut frame = plain([0x88, if more { MORE_FRAG } else { 0 }], body);
        frame[22] = 0x10 | number;
        frame
    }

    /// A joiner that holds this as fragments 0 to 4, the last of them under number 100.
    fn holding(held: &[u8]) -> Joiner {
        let mut all = [0; MAX_MESSAGE];
        all[..held.len()].copy_from_slice(held);
        Joiner { held: all, length: held.len(), address: ADDRESS, priority: 8, sequence: 0x171, fragment: 4, number: 100 }
    }

    fn done(number: u64, written: usize) -> Answer {
        Ok(Done { number, priority: 8, written })
    }

    #[test]
    fn sizes() {
        for size in [0, 1, 2, 14, 15, 17, 2_293, 2_295, 2_297, 2_298, 4_592, usize::MAX - 1, usize::MAX] {
            assert_eq!([split_refused(1, size, 0), split_refused(16, size, 0)], [Some(Refusal::Cut); 2]);
        }
        for size in [16, 18, 144, 2_294, 2_296] {
            assert_eq!([split_refused(1, size, 0), split_refused(16, size, 0)], [None; 2]);
        }
    }

    #[test]
    fn messages() {
        for size in [144, 2_294, 2_296] {
            assert_eq!([0, 2_305].map(|length| split_refused(length, size, 0)), [Some(Refusal::Cut); 2]);
            assert_eq!([1, 2_296, 2_297, 2_304].map(|length| split_refused(length, size, 0)), [None; 4]);
        }
    }

    #[test]
    fn sixteen_fragments_and_no_more() {
        for (length, size) in [(256, 16), (288, 18), (2_272, 142)] {
            assert_eq!([split_refused(length, size, 0), split_refused(length + 1, size, 0)], [None, Some(Refusal::Cut)]);
        }
        assert_eq!([split_refused(2_304, 142, 0), split_refused(2_304, 144, 0)], [Some(Refusal::Cut), None]);
    }

    #[test]
    fn numbers_left() {
        for (length, fragments) in [(1, 1), (16, 1), (17, 2), (32, 2), (33, 3), (241, 16), (256, 16)] {
            for (missing, refusal) in [(0, None), (1, Some(Refusal::Spent))] {
                assert_eq!(split_refused(length, 16, MAX_NUMBER - fragments + missing), refusal);
            }
            assert_eq!(split_refused(length, 16, MAX_NUMBER), Some(Refusal::Spent));
        }
    }

    // Whatever MoreFrag and the fragment number were, a fragment differs from the given frame in these two alone.
    #[test]
    fn fragments_are_sealed_frames() {
        let controls = CONTROLS.into_iter().flat_map(|[first, second]| [[first, second], [first | 0x30, second | 0x38 | MORE_FRAG]]);
        for control in controls {
            for (length, size, count) in [(1, 16, 1), (16, 16, 1), (17, 16, 2), (32, 16, 2), (256, 16, 16), (2_304, 144, 16), (2_304, 2_296, 2)] {
                let (mut one_by_one, mut at_once) = (Sender { last_number: 40, ..sender() }, Sender { last_number: 40, ..sender() });
                let (frame, mut expected) = (plain(control, &message(length)), Vec::new());
                for (at, piece) in frame[header_length(&control)..].chunks(size).enumerate() {
                    let mut fragment = [&frame[..header_length(&control)], piece].concat();
                    fragment[1] = if at + 1 < count { control[1] | MORE_FRAG } else { control[1] & !MORE_FRAG };
                    fragment[22] = 0x10 + at as u8;
                    let mut sealed = vec![0; fragment.len() + ADDED];
                    assert!(one_by_one.seal(&fragment, &mut sealed).is_ok());
                    expected.extend(sealed);
                }
                let (mut out, priority) = (vec![0xaa; expected.len() + 3], Header(&frame).priority());
                assert_eq!(at_once.split(&frame, size, &mut out), Ok(Done { number: 41, priority, written: expected.len() }));
                assert_eq!(out, [&expected[..], &[0xaa; 3]].concat());
                assert_eq!((at_once.last_number, &at_once), (40 + count as u64, &one_by_one));
            }
        }
    }

    #[test]
    fn splitting_in_order_of_its_tests() {
        let mut sender = Sender { last_number: MAX_NUMBER - 1, ..sender() };
        let before = sender.clone();
        let mut frame = plain([0x88, 0x83], &message(20));
        let mut refused = |frame: &[u8], size: usize, room: usize| {
            let mut out = vec![0xaa; room];
            let refusal = sender.split(frame, size, &mut out).err();
            assert_eq!((out, &sender), (vec![0xaa; room], &before));
            refusal
        };
        let needed = 20 + 2 * (36 + ADDED);
        assert_eq!(refused(&frame, 16, needed), Some(Refusal::Spent));
        frame[15] ^= 1;
        assert_eq!(refused(&frame, 16, needed), Some(Refusal::Address));
        assert_eq!(refused(&frame, 16, needed - 1), Some(Refusal::Room));
        assert_eq!([refused(&frame, 17, 0), refused(&frame[..36], 16, 0)], [Some(Refusal::Cut); 2]);
        for (length, size) in [(257, 16), (2_304, 142), (2_305, 144)] {
            assert_eq!(refused(&plain([0x88, 0x83], &message(length)), size, 0), Some(Refusal::Cut));
        }
        assert_eq!(refused(&frame[..35], 17, 0), Some(Refusal::Short));
        frame[1] |= PROTECTED;
        assert_eq!(refused(&frame[..35], 17, 0), Some(Refusal::Mark));
        frame[0] ^= 0x40;
        assert_eq!(refused(&frame[..35], 17, 0), Some(Refusal::Kind));
        assert_eq!(refused(&frame[..23], 17, 0), Some(Refusal::Short));
        for unsound in [Sender { key_id: 4, ..before.clone() }, Sender { last_number: MAX_NUMBER + 1, ..before.clone() }] {
            assert_eq!(unsound.clone().split(&[], 17, &mut []), Err(Refusal::Record));
        }
    }

    #[test]
    fn room_for_all_fragments() {
        let (frame, needed) = (plain(QOS, &message(40)), 40 + 3 * (26 + ADDED));
        let mut sender = sender();
        assert_eq!(sender.split(&frame, 16, &mut vec![0; needed - 1]), Err(Refusal::Room));
        assert_eq!(sender.split(&frame, 16, &mut vec![0; needed]), done(1, needed));
        assert_eq!(sender.split(&frame, 16, &mut vec![0; needed + 1]), done(4, needed));
        assert_eq!(sender.last_number, 6);
    }

    #[test]
    fn one_fragment_is_a_message() {
        let (mut joiner, mut out) = (Joiner::default(), [0xaa; 5]);
        assert_eq!(joiner.join(&fragment(0, false, b"abc"), 0, &mut out), done(0, 3));
        assert_eq!((&out, joiner), (b"abc\xaa\xaa", Joiner::default()));
        let (mut joiner, body, mut out) = (Joiner::default(), message(MAX_SIZE), [0; MAX_SIZE]);
        assert_eq!(joiner.join(&fragment(0, false, &body), MAX_NUMBER, &mut out), done(MAX_NUMBER, MAX_SIZE));
        assert_eq!(out[..], body);
    }

    #[test]
    fn what_a_joiner_holds() {
        let mut joiner = Joiner { held: [0x55; MAX_MESSAGE], ..holding(b"old") };
        assert_eq!(joiner.join(&fragment(0, true, b"abc"), 7, &mut []), done(7, 0));
        assert_eq!(joiner, Joiner { fragment: 0, number: 7, ..holding(b"abc") });
        // What stands after the message plays no part and stays.
        joiner.held[3..].fill(0x55);
        assert_eq!(joiner.join(&fragment(1, true, b"defg"), 8, &mut []), done(8, 0));
        let mut expected = Joiner { fragment: 1, number: 8, ..holding(b"abcdefg") };
        expected.held[7..].fill(0x55);
        assert_eq!(joiner, expected);
        let mut out = [0xaa; 9];
        assert_eq!(joiner.join(&fragment(2, false, b"h"), 9, &mut out), done(9, 8));
        assert_eq!((&out, joiner), (b"abcdefgh\xaa", Joiner::default()));
    }

    #[test]
    fn joiners_of_any_octets() {
        let whole = fragment(0, false, b"abc");
        let good = [
            Joiner { length: MAX_MESSAGE, ..Joiner::default() },
            Joiner { priority: 15, ..Joiner::default() },
            Joiner { sequence: 4_095, ..Joiner::default() },
            Joiner { fragment: 15, ..Joiner::default() },
            Joiner { number: MAX_NUMBER, ..Joiner::default() },
        ];
        for joiner in good {
            assert_eq!(joiner.clone().join(&whole, 9, &mut [0; 3]), done(9, 3));
        }
        let unsound = [
            Joiner { length: MAX_MESSAGE + 1, ..Joiner::default() },
            Joiner { length: usize::MAX, ..Joiner::default() },
            Joiner { priority: 16, ..Joiner::default() },
            Joiner { sequence: 4_096, ..Joiner::default() },
            Joiner { fragment: 16, ..Joiner::default() },
            Joiner { number: MAX_NUMBER + 1, ..Joiner::default() },
        ];
        for before in unsound {
            let mut joiner = before.clone();
            assert_eq!([joiner.join(&whole, 9, &mut [0; 3]), joiner.join(&[], 9, &mut [])], [Err(Refusal::Record); 2]);
            assert_eq!(joiner, before);
        }
        let mut joiner = holding(b"abc");
        assert_eq!([joiner.join(&whole, MAX_NUMBER + 1, &mut [0; 3]), joiner.join(&[], u64::MAX, &mut [])], [Err(Refusal::Record); 2]);
        assert_eq!(joiner, holding(b"abc"));
    }

    #[test]
    fn joining_in_order_of_its_tests() {
        let (mut joiner, mut out) = (holding(b"abc"), [0xaa; 8]);
        let mut refused = |frame: &[u8]| {
            // No number that continues the message: all these tests come before.
            let refusal = joiner.join(frame, 99, &mut out).err();
            assert_eq!((&joiner, out), (&holding(b"abc"), [0xaa; 8]));
            refusal
        };
        let mut frame = fragment(5, true, &message(MAX_SIZE + 1));
        assert_eq!([refused(&frame), refused(&frame[..26])], [Some(Refusal::Body); 2]);
        assert_eq!(refused(&frame[..25]), Some(Refusal::Short));
        frame[1] |= ORDER;
        assert_eq!([refused(&frame[..30]), refused(&frame[..29])], [Some(Refusal::Body), Some(Refusal::Short)]);
        frame[1] |= PROTECTED;
        assert_eq!([refused(&frame), refused(&frame[..25])], [Some(Refusal::Mark); 2]);
        frame[0] ^= 0x04;
        assert_eq!([refused(&frame), refused(&frame[..24])], [Some(Refusal::Kind); 2]);
        assert_eq!([refused(&frame[..23]), refused(&[])], [Some(Refusal::Short); 2]);
    }

    #[test]
    fn what_continues() {
        let frame = fragment(5, true, b"de");
        let answer = |joiner: Joiner, frame: &[u8], number: u64| {
            let mut after = joiner;
            let answer = after.join(frame, number, &mut []);
            assert_eq!(after == Joiner::default(), answer.is_err());
            answer
        };
        assert_eq!(answer(holding(b"abc"), &frame, 101), done(101, 0));
        let others = [
            Joiner { address: [2, 0, 0, 0, 0, 2], ..holding(b"abc") },
            Joiner { address: [3, 0, 0, 0, 0, 1], ..holding(b"abc") },
            Joiner { priority: 9, ..holding(b"abc") },
            Joiner { sequence: 0x170, ..holding(b"abc") },
            Joiner { sequence: 0x971, ..holding(b"abc") },
            Joiner { fragment: 3, ..holding(b"abc") },
            Joiner { fragment: 5, ..holding(b"abc") },
            Joiner { number: 99, ..holding(b"abc") },
            Joiner { number: 101, ..holding(b"abc") },
            holding(b""),
            Joiner::default(),
        ];
        for joiner in others {
            assert_eq!(answer(joiner, &frame, 101), Err(Refusal::Dropped));
        }
        // No fragment comes after the sixteenth, and no number after the last.
        let last = Joiner { fragment: 15, ..holding(b"abc") };
        let answers = [15, 1].map(|number| answer(last.clone(), &fragment(number, true, b"de"), 101));
        assert_eq!(answers, [Err(Refusal::Dropped); 2]);
        assert_eq!(answer(last, &fragment(0, true, b"de"), 101), done(101, 0));
        let spent = Joiner { number: MAX_NUMBER, ..holding(b"abc") };
        assert_eq!([0, MAX_NUMBER].map(|number| answer(spent.clone(), &frame, number)), [Err(Refusal::Dropped); 2]);
        // All else in the header is free: here there is no QoS Control, and A1, A3 and the direction are others.
        let mut free = plain([0x08, MORE_FRAG | 0x01], b"de");
        (free[4], free[16], free[22]) = (0xff, 0xff, 0x15);
        let mut without = Joiner { priority: 0, ..holding(b"abc") };
        assert_eq!(without.join(&free, 101, &mut []), Ok(Done { number: 101, priority: 0, written: 0 }));
    }

    #[test]
    fn totals() {
        for more in [false, true] {
            let (mut out, frame) = (vec![0xaa; MAX_MESSAGE + 1], fragment(5, more, &message(8)));
            let mut joiner = holding(&message(MAX_MESSAGE - 8));
            assert_eq!(joiner.join(&frame, 101, &mut out), done(101, if more { 0 } else { MAX_MESSAGE }));
            assert_eq!((joiner.length, out[MAX_MESSAGE]), (if more { MAX_MESSAGE } else { 0 }, 0xaa));
            // Over the limit, and before room is asked for.
            for room in [0, MAX_MESSAGE + 1] {
                let (mut joiner, mut out) = (holding(&message(MAX_MESSAGE - 7)), vec![0xaa; room]);
                assert_eq!(joiner.join(&frame, 101, &mut out), Err(Refusal::Dropped));
                assert_eq!((joiner, out), (Joiner::default(), vec![0xaa; room]));
            }
        }
    }

    #[test]
    fn finished_without_room() {
        for (frame, needed) in [(fragment(5, false, b"de"), 5), (fragment(0, false, b"de"), 2)] {
            for room in 0..needed {
                let (mut joiner, mut out) = (holding(b"abc"), vec![0xaa; room]);
                assert_eq!(joiner.join(&frame, 101, &mut out), Err(Refusal::Room));
                assert_eq!((joiner, out), (holding(b"abc"), vec![0xaa; room]));
            }
            assert_eq!(holding(b"abc").join(&frame, 101, &mut vec![0; needed]), done(101, needed));
        }
        assert_eq!(Joiner::default().join(&fragment(0, true, b"de"), 101, &mut []), done(101, 0));
    }

    #[test]
    fn joined_in_order() {
        for (length, size) in [(1, 16), (16, 16), (17, 16), (256, 16), (2_304, 144), (2_304, 2_296), (2_304, 2_294)] {
            for control in CONTROLS {
                let mut joiner = Joiner::default();
                let (mut out, mut written) = (vec![0; length], 0);
                for (frame, number) in fragments(&mut sender(), &plain(control, &message(length)), size) {
                    assert_eq!(written, 0);
                    let done = joiner.join(&frame, number, &mut out).unwrap();
                    assert_eq!((done.number, done.priority), (number, Header(&frame).priority()));
                    written = done.written;
                }
                assert_eq!((out, written, joiner), (message(length), length, Joiner::default()));
            }
        }
    }

    // Two messages of one sender, with one sequence number or two, in any order: only whole ones come out.
    #[test]
    fn joined_among_another_messages() {
        let mut random = Random(1);
        let mut finished = [0; 2];
        for round in 0..2_000 {
            let mut sender = sender();
            let messages = [0, 1].map(|_| {
                let length = 17 + random.below(40);
                random.octets(length)
            });
            let mut waiting = Vec::new();
            for message in &messages {
                let mut frame = plain(QOS, message);
                frame[23] += (round % 2) as u8 * waiting.len().min(1) as u8;
                waiting.extend(fragments(&mut sender, &frame, 16));
            }
            let (mut joiner, mut out) = (Joiner::default(), [0; MAX_MESSAGE]);
            let mut at = 0;
            while !waiting.is_empty() {
                at = if random.one_in(3) { random.below(waiting.len()) } else { at.min(waiting.len() - 1) };
                let (frame, number) = waiting.remove(at);
                if let Ok(Done { written: written @ 1.., .. }) = joiner.join(&frame, number, &mut out) {
                    let which = messages.iter().position(|message| out[..written] == message[..]);
                    finished[which.expect("one of the two messages")] += 1;
                }
            }
        }
        assert!(finished.iter().all(|&times| times > 200), "{finished:?}");
    }
}
