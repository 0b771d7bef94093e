//! Many cameras: a table of 16 entries, each a sender and a receiver in one, for one pair of addresses and one key ID, under a key of its
//! own.

use crate::frame::{require, Answer, Done, Header, Receiver, Refusal, Sender, ADDED, EXT_IV, MAX_BODY};
use crate::window::SIZES;

/// The entries of a table, in use or free.
pub const ENTRIES: usize = 16;

/// What an entry is found by.
#[derive(Clone, Copy, Debug, Default, PartialEq, Eq)]
pub struct Triple {
    pub own: [u8; 6],
    pub peer: [u8; 6],
    pub key_id: u8,
}

/// What adding is given.
#[derive(Clone, Debug, Default, PartialEq, Eq)]
pub struct Pairing {
    pub triple: Triple,
    pub key: [u8; 16],
    pub may_send: bool,
    pub may_receive: bool,
    /// Of the windows.
    pub size: u8,
}

#[derive(Clone, Debug, Default, PartialEq, Eq)]
pub struct Entry {
    pub used: bool,
    pub may_send: bool,
    pub may_receive: bool,
    pub own: [u8; 6],
    /// The last number used in sealing.
    pub last_number: u64,
    /// Its key and key ID are also those that the entry seals with.
    pub receiver: Receiver,
}

/// A fresh one has no entry in use and is all zeros.
#[derive(Clone, Debug, Default, PartialEq, Eq)]
pub struct Table {
    pub entries: [Entry; ENTRIES],
    /// Format errors found before an entry is.
    pub format_errors: u32,
}

impl Header<'_> {
    fn address(&self, at: usize) -> [u8; 6] {
        std::array::from_fn(|octet| self.0[at + octet])
    }

    fn address_1(&self) -> [u8; 6] {
        self.address(4)
    }

    fn address_2(&self) -> [u8; 6] {
        self.address(10)
    }
}

impl Entry {
    pub fn triple(&self) -> Triple {
        Triple { own: self.own, peer: self.receiver.peer, key_id: self.receiver.key_id }
    }

    fn sender(&self) -> Sender {
        Sender { key: self.receiver.key, key_id: self.receiver.key_id, address: self.own, last_number: self.last_number }
    }

    fn is_sound(&self) -> bool {
        self.sender().is_sound() && self.receiver.is_sound()
    }
}

/// The triple that opening looks for: tests 2 to 6, and then 8.
fn asked_to_open(frame: &[u8], room: usize) -> Result<Triple, Refusal> {
    let (header, rest) = Header::split(frame, true)?;
    require((1 + ADDED..=MAX_BODY + ADDED).contains(&rest.len()), Refusal::Body)?;
    require(room >= frame.len() - ADDED, Refusal::Room)?;
    let key_octet = rest[3];
    require(key_octet & EXT_IV != 0, Refusal::Extended)?;
    Ok(Triple { own: header.address_1(), peer: header.address_2(), key_id: key_octet >> 6 })
}

impl Table {
    fn in_use(&self) -> impl Iterator<Item = &Entry> + Clone {
        self.entries.iter().filter(|entry| entry.used)
    }

    /// Each entry in use is sound, and no later one has its triple or its key.
    fn is_sound(&self) -> bool {
        let mut later = self.in_use();
        while let Some(entry) = later.next() {
            let clashes = |other: &Entry| other.triple() == entry.triple() || other.receiver.key == entry.receiver.key;
            if !entry.is_sound() || later.clone().any(clashes) {
                return false;
            }
        }
        true
    }

    fn find(&mut self, triple: Triple) -> Option<&mut Entry> {
        self.entries.iter_mut().find(|entry| entry.used && entry.triple() == triple)
    }

    /// Seals by the entry for A2, A1 and this key ID, and writes the sealed frame to the front of `out`.
    pub fn seal(&mut self, key_id: u8, frame: &[u8], out: &mut [u8]) -> Answer {
        require(self.is_sound(), Refusal::Record)?;
        let (header, body) = Header::split(frame, false)?;
        require((1..=MAX_BODY).contains(&body.len()), Refusal::Body)?;
        require(out.len() >= frame.len() + ADDED, Refusal::Room)?;
        let asked = Triple { own: header.address_2(), peer: header.address_1(), key_id };
        let entry = self.find(asked).filter(|entry| entry.may_send).ok_or(Refusal::Absent)?;
        let mut sender = entry.sender();
        let answer = sender.seal(frame, out);
        entry.last_number = sender.last_number;
        answer
    }

    /// Opens by the entry for A1, A2 and the frame's key ID, and writes the plain frame to the front of `out`.
    pub fn open(&mut self, frame: &[u8], out: &mut [u8]) -> Answer {
        require(self.is_sound(), Refusal::Record)?;
        let asked = match asked_to_open(frame, out.len()) {
            Ok(asked) => asked,
            Err(refusal) => {
                if refusal != Refusal::Room {
                    self.format_errors = self.format_errors.wrapping_add(1);
                }
                return Err(refusal);
            }
        };
        let entry = self.find(asked).filter(|entry| entry.may_receive).ok_or(Refusal::Absent)?;
        entry.receiver.open(frame, out)
    }

    /// Makes an entry fresh: the one of this triple, or else the first that is free.
    pub fn add(&mut self, pairing: &Pairing) -> Answer {
        let Pairing { triple, key, may_send, may_receive, size } = *pairing;
        require(self.is_sound() && triple.key_id <= 3 && SIZES.contains(&size), Refusal::Record)?;
        require(self.in_use().all(|entry| entry.receiver.key != key), Refusal::Taken)?;
        let present = self.entries.iter().position(|entry| entry.used && entry.triple() == triple);
        let place = present.or_else(|| self.entries.iter().position(|entry| !entry.used)).ok_or(Refusal::Full)?;
        let (_, receiver) = Receiver::fresh(key, triple.key_id, triple.peer, size);
        self.entries[place] = Entry { used: true, may_send, may_receive, own: triple.own, last_number: 0, receiver };
        Ok(Done::default())
    }

    /// Frees the entry of this triple.
    pub fn remove(&mut self, triple: Triple) -> Answer {
        require(self.is_sound(), Refusal::Record)?;
        *self.find(triple).ok_or(Refusal::Absent)? = Entry::default();
        Ok(Done::default())
    }
}

#[cfg(test)]
mod tests {
    use super::*;
    use crate::frame::{header_length, MAX_HEADER, MAX_NUMBER, PROTECTED};
    use crate::sample::{Random, CONTROLS};
    use crate::window::Window;

    const BOX: [u8; 6] = [2, 0, 0, 0, 0, 1];
    const QOS: [u8; 2] = [0x88, 0x00];
    const ROOM: usize = MAX_HEADER + MAX_BODY + ADDED + 1;
    /// Adding or removing done.
    const CHANGED: Answer = Ok(Done { number: 0, priority: 0, written: 0 });

    /// A key that no camera has.
    const NEW_KEY: [u8; 16] = [0x99; 16];

    fn camera(which: u8) -> [u8; 6] {
        [2, 0, 0, 0, 1, which]
    }

    /// The box with a camera, both flags on, of size 1 for even ones and 16 for odd ones. The key of camera 0 is a free entry's.
    fn pairing(which: u8) -> Pairing {
        let triple = Triple { own: BOX, peer: camera(which), key_id: which % 4 };
        Pairing { triple, key: [which; 16], may_send: true, may_receive: true, size: SIZES[usize::from(which % 2)] }
    }

    /// The box's table with so many cameras, in their order.
    fn table(cameras: u8) -> Table {
        let mut table = Table::default();
        for which in 0..cameras {
            assert_eq!(table.add(&pairing(which)), CHANGED);
        }
        table
    }

    /// The table with one entry changed.
    fn with(mut table: Table, place: usize, change: impl Fn(&mut Entry)) -> Table {
        change(&mut table.entries[place]);
        table
    }

    fn sender(which: u8) -> Sender {
        Sender::fresh([which; 16], which % 4, camera(which)).1
    }

    /// Of this Frame Control, the other header octets 1 upward, and three octets of body. Its priority is 8 or 14 where it has one.
    fn plain(control: [u8; 2], to: [u8; 6], from: [u8; 6]) -> Vec<u8> {
        let mut frame: Vec<u8> = (0..header_length(&control) as u8).collect();
        frame[..2].copy_from_slice(&control);
        frame[4..10].copy_from_slice(&to);
        frame[10..16].copy_from_slice(&from);
        [&frame[..], b"abc"].concat()
    }

    fn sealed(sender: &mut Sender, frame: &[u8]) -> Vec<u8> {
        let mut out = vec![0; frame.len() + ADDED];
        assert!(sender.seal(frame, &mut out).is_ok());
        out
    }

    /// A camera's next frame to the box.
    fn sent(sender: &mut Sender) -> Vec<u8> {
        sealed(sender, &plain(QOS, BOX, sender.address))
    }

    fn done(number: u64, written: usize) -> Answer {
        Ok(Done { number, priority: 8, written })
    }

    type TableCall<'a> = &'a dyn Fn(&mut Table, &mut [u8]) -> Answer;

    /// The answers to sealing for a camera, to opening its first frame, to adding it under a new key and to removing it. A refusal leaves
    /// the table and the room as they were.
    fn answers(before: &Table, which: u8) -> [Option<Refusal>; 4] {
        let (frame, sealed) = (plain(QOS, camera(which), BOX), sent(&mut sender(which)));
        let calls: [TableCall; 4] = [
            &|table, out| table.seal(which % 4, &frame, out),
            &|table, out| table.open(&sealed, out),
            &|table, _| table.add(&Pairing { key: NEW_KEY, ..pairing(which) }),
            &|table, _| table.remove(pairing(which).triple),
        ];
        calls.map(|call| {
            let (mut table, mut out) = (before.clone(), [0xaa; ROOM]);
            let refusal = call(&mut table, &mut out).err();
            assert!(refusal.is_none() || (&table, out) == (before, [0xaa; ROOM]));
            refusal
        })
    }

    const ABSENT: [Option<Refusal>; 4] = [Some(Refusal::Absent), Some(Refusal::Absent), None, Some(Refusal::Absent)];

    #[test]
    fn fresh_table() {
        let mut table = Table::default();
        assert_eq!(answers(&table, 0), ABSENT);
        assert_eq!(table.add(&pairing(0)), CHANGED);
        assert_eq!(answers(&table, 0), [None; 4]);
        assert_eq!(answers(&table, 1), ABSENT);
        assert_eq!(table.remove(pairing(0).triple), CHANGED);
        assert_eq!(table, Table::default());
    }

    #[test]
    fn added_entries() {
        let mut table = table(2);
        assert_eq!(table.add(&Pairing { may_send: false, ..pairing(6) }), CHANGED);
        let receiver = Receiver { key: [6; 16], key_id: 2, peer: camera(6), window_size: 1, ..Receiver::default() };
        assert_eq!(table.entries[2], Entry { used: true, may_send: false, may_receive: true, own: BOX, last_number: 0, receiver });
        assert_eq!((&table.entries[..2], &table.entries[3..]), (&self::table(2).entries[..2], &Table::default().entries[3..]));
        assert_eq!(table.entries[1].receiver.window_size, 16);
    }

    // As a key ID over 3 is, before 17 and 16.
    #[test]
    fn sizes_refused() {
        let mut table = table(16);
        let before = table.clone();
        for size in [0, 2, 15, 17, 255] {
            for key in [NEW_KEY, [3; 16]] {
                assert_eq!(table.add(&Pairing { key, size, ..pairing(16) }), Err(Refusal::Record));
                assert_eq!(table.add(&Pairing { key, size, ..pairing(1) }), Err(Refusal::Record));
            }
            assert_eq!(Table::default().add(&Pairing { size, ..pairing(1) }), Err(Refusal::Record));
        }
        assert_eq!(table, before);
    }

    #[test]
    fn full_table() {
        let mut table = table(16);
        let before = table.clone();
        assert!((0..16).all(|which| answers(&table, which) == [None; 4]));
        assert_eq!(answers(&table, 16), [Some(Refusal::Absent), Some(Refusal::Absent), Some(Refusal::Full), Some(Refusal::Absent)]);
        // 17 before 16, and 1 before both.
        assert_eq!(table.add(&Pairing { key: [3; 16], ..pairing(16) }), Err(Refusal::Taken));
        let over = Triple { key_id: 4, ..pairing(16).triple };
        assert_eq!(table.add(&Pairing { triple: over, key: [3; 16], ..pairing(16) }), Err(Refusal::Record));
        assert_eq!(table, before);
    }

    #[test]
    fn removed_places_are_taken_first() {
        let mut table = Table { format_errors: 7, ..table(16) };
        for which in [9, 3, 12] {
            let before = table.clone();
            assert_eq!(table.remove(pairing(which).triple), CHANGED);
            assert_eq!(table, with(before, which.into(), |entry| *entry = Entry::default()));
        }
        for (which, place) in [(20, 3), (9, 9), (21, 12)] {
            assert_eq!(table.add(&pairing(which)), CHANGED);
            assert_eq!(table.entries[place].triple(), pairing(which).triple);
        }
        assert_eq!(table.add(&pairing(22)), Err(Refusal::Full));
        // A hole is taken before the places that never were in use.
        let mut table = self::table(5);
        assert_eq!([table.remove(pairing(1).triple), table.add(&pairing(20))], [CHANGED; 2]);
        assert_eq!((table.entries[1].triple(), &table.entries[5]), (pairing(20).triple, &Entry::default()));
    }

    #[test]
    fn a_present_triple_restarts() {
        for cameras in [5, 16] {
            let mut table = table(cameras);
            table.format_errors = 7;
            let old = sent(&mut sender(2));
            assert_eq!(table.open(&old, &mut [0; ROOM]), done(1, 29));
            assert_eq!(table.seal(2, &plain(QOS, camera(2), BOX), &mut [0; ROOM]), done(1, 45));
            let entry = &mut table.entries[2].receiver;
            (entry.format_errors, entry.replays, entry.decrypt_errors) = (3, 4, 5);
            let before = table.clone();
            // Its own key again is no new key, and another entry's is not one either.
            for key in [2, 0, cameras - 1] {
                assert_eq!(table.add(&Pairing { key: [key; 16], ..pairing(2) }), Err(Refusal::Taken));
                assert_eq!(table, before);
            }
            assert_eq!(table.add(&Pairing { key: NEW_KEY, may_receive: false, size: 16, ..pairing(2) }), CHANGED);
            let fresh = |entry: &mut Entry| {
                let receiver = Receiver { key: NEW_KEY, key_id: 2, peer: camera(2), window_size: 16, ..Receiver::default() };
                *entry = Entry { used: true, may_send: true, may_receive: false, own: BOX, last_number: 0, receiver };
            };
            assert_eq!(table, with(before, 2, fresh));
            table.entries[2].may_receive = true;
            assert_eq!(table.open(&old, &mut [0; ROOM]), Err(Refusal::Integrity));
            // The old key is free again.
            assert_eq!(table.add(&pairing(2)), CHANGED);
        }
    }

    #[test]
    fn one_key_under_two_triples() {
        let mut table = table(3);
        for triple in [pairing(8).triple, Triple { key_id: 3, ..pairing(1).triple }, Triple { own: camera(9), ..pairing(1).triple }] {
            assert_eq!(table.add(&Pairing { triple, ..pairing(1) }), Err(Refusal::Taken));
        }
        assert_eq!(table.remove(pairing(1).triple), CHANGED);
        assert_eq!(table.add(&Pairing { key: [1; 16], ..pairing(8) }), CHANGED);
        // One octet makes another key.
        for octet in 0..16 {
            let mut near = pairing(9);
            near.key = [1; 16];
            near.key[octet] = 0x81;
            assert_eq!(table.add(&near), CHANGED);
            assert_eq!(answers(&table, 0), [None; 4]);
            assert_eq!(table.remove(near.triple), CHANGED);
        }
    }

    // The triple has to be the same in all its parts.
    #[test]
    fn nearly_the_triple() {
        let mut table = table(4);
        let wanted = pairing(1).triple;
        let mut near = vec![Triple { own: wanted.peer, peer: wanted.own, ..wanted }];
        near.extend([0, 2, 3].map(|key_id| Triple { key_id, ..wanted }));
        for octet in 0..6 {
            let (mut own, mut peer) = (wanted.own, wanted.peer);
            (own[octet], peer[octet]) = (own[octet] ^ 0x80, peer[octet] ^ 0x80);
            near.extend([Triple { own, ..wanted }, Triple { peer, ..wanted }]);
        }
        let right = sent(&mut sender(1));
        for triple in near {
            let before = table.clone();
            assert_eq!(table.remove(triple), Err(Refusal::Absent));
            assert_eq!(table.seal(triple.key_id, &plain(QOS, triple.peer, triple.own), &mut [0; ROOM]), Err(Refusal::Absent));
            let mut frame = right.clone();
            frame[4..10].copy_from_slice(&triple.own);
            frame[10..16].copy_from_slice(&triple.peer);
            frame[29] = EXT_IV | triple.key_id << 6;
            assert_eq!(table.open(&frame, &mut [0; ROOM]), Err(Refusal::Absent));
            assert_eq!(table, before);
            // Beside the entry it is a new one.
            assert_eq!([table.add(&Pairing { triple, key: NEW_KEY, ..pairing(1) }), table.remove(triple)], [CHANGED; 2]);
            assert_eq!(table, before);
        }
        assert_eq!(table.open(&right, &mut [0; ROOM]), done(1, 29));
    }

    #[test]
    fn key_id_over_3() {
        let mut table = table(16);
        let before = table.clone();
        for key_id in [4, 5, 64, 128, 255] {
            let triple = Triple { key_id, ..pairing(1).triple };
            assert_eq!(table.seal(key_id, &plain(QOS, camera(1), BOX), &mut [0; ROOM]), Err(Refusal::Absent));
            assert_eq!(table.remove(triple), Err(Refusal::Absent));
            assert_eq!(table.add(&Pairing { triple, key: NEW_KEY, ..pairing(1) }), Err(Refusal::Record));
            assert_eq!(Table::default().add(&Pairing { triple, ..pairing(1) }), Err(Refusal::Record));
        }
        assert_eq!(table, before);
    }

    #[test]
    fn flags() {
        for (may_send, may_receive) in [(false, false), (false, true), (true, false), (true, true)] {
            let mut table = table(3);
            assert_eq!(table.add(&Pairing { key: [7; 16], may_send, may_receive, ..pairing(7) }), CHANGED);
            let absent = |flag: bool| (!flag).then_some(Refusal::Absent);
            assert_eq!(answers(&table, 7), [absent(may_send), absent(may_receive), None, None]);
        }
        // The code is not looked at, and the other direction goes on.
        let mut table = with(table(3), 1, |entry| entry.may_receive = false);
        let mut forged = sent(&mut sender(1));
        forged[40] ^= 1;
        assert_eq!(table.open(&forged, &mut [0; ROOM]), Err(Refusal::Absent));
        assert_eq!(table.seal(1, &plain(QOS, camera(1), BOX), &mut [0; ROOM]), done(1, 45));
        let mut table = with(table, 1, |entry| (entry.may_send, entry.last_number) = (false, MAX_NUMBER));
        assert_eq!(table.seal(1, &plain(QOS, camera(1), BOX), &mut [0; ROOM]), Err(Refusal::Absent));
    }

    // With the entry's key, number and key ID, whatever else the table holds.
    #[test]
    fn an_entry_seals_and_opens_as_its_records() {
        for control in CONTROLS {
            let mut table = with(table(16), 6, |entry| entry.last_number = 40);
            let mut alone = Sender { address: BOX, last_number: 40, ..sender(6) };
            let frame = plain(control, camera(6), BOX);
            let mut out = vec![0xaa; frame.len() + ADDED + 2];
            let answer = table.seal(2, &frame, &mut out);
            let expected = sealed(&mut alone, &frame);
            assert_eq!(answer.map(|done| (done.number, done.written)), Ok((41, expected.len())));
            assert_eq!(out, [&expected[..], &[0xaa; 2]].concat());
            assert_eq!(table, with(self::table(16), 6, |entry| entry.last_number = 41));

            let (mut camera, frame) = (sender(6), plain(control, BOX, camera(6)));
            camera.last_number = 70;
            let (text, mut out) = (sealed(&mut camera, &frame), vec![0xaa; frame.len() + 2]);
            let mut receiver = table.entries[6].receiver.clone();
            assert_eq!(table.open(&text, &mut out), receiver.open(&text, &mut vec![0; frame.len()]));
            assert_eq!(out, [&frame[..], &[0xaa; 2]].concat());
            assert_eq!((receiver.opened, table.format_errors), (1, 0));
            assert_eq!(table, with(self::table(16), 6, |entry| (entry.last_number, entry.receiver) = (41, receiver.clone())));
        }
    }

    #[test]
    fn two_cameras_in_turn() {
        let (mut table, mut first, mut other) = (table(16), sender(4), sender(12));
        let frames = [sent(&mut first), sent(&mut other), sent(&mut first), sent(&mut first), sent(&mut other)];
        let mut open = |which: usize| table.open(&frames[which], &mut [0; ROOM]).map(|done| done.number);
        assert_eq!([3, 1, 4].map(&mut open), [Ok(3), Ok(1), Ok(2)]);
        assert_eq!([0, 1, 2, 3, 4].map(open), [Err(Refusal::Replay); 5]);
        assert_eq!([4, 12].map(|place: usize| table.entries[place].receiver.counts()), [[0, 3, 0, 1], [0, 2, 0, 2]]);
        assert_eq!([4, 12].map(|place: usize| table.entries[place].receiver.windows[8].greatest), [3, 2]);
        let mut seal = |which: u8| table.seal(0, &plain(QOS, camera(which), BOX), &mut [0; ROOM]).map(|done| done.number);
        assert_eq!([4, 12, 4, 4, 12].map(&mut seal), [Ok(1), Ok(1), Ok(2), Ok(3), Ok(2)]);
        // A camera's frame with the other's address is no frame of either.
        let mut forged = sent(&mut first);
        forged[10..16].copy_from_slice(&camera(12));
        assert_eq!(table.open(&forged, &mut [0; ROOM]), Err(Refusal::Integrity));
        assert_eq!([4, 12].map(|place: usize| table.entries[place].receiver.decrypt_errors), [0, 1]);
    }

    // Camera 5's entry takes late frames and camera 4's does not. What one has opened is nothing to the other.
    #[test]
    fn late_frames() {
        let mut table = table(16);
        let frames = [4, 5].map(|which| {
            let mut camera = sender(which);
            [(); 17].map(|()| sent(&mut camera))
        });
        let mut opened = |camera: usize, numbers: &[usize]| {
            let open = |&number: &usize| table.open(&frames[camera][number - 1], &mut [0; ROOM]).is_ok();
            numbers.iter().map(open).collect::<Vec<_>>()
        };
        assert_eq!(opened(0, &[16, 1, 15, 16, 17, 16, 2]), [true, false, false, false, true, false, false]);
        assert_eq!(opened(1, &[16, 1, 15, 16, 17, 16, 2]), [true, true, true, false, true, false, true]);
        assert_eq!([opened(0, &[1, 2, 3]), opened(1, &[1, 2, 3])], [[false; 3], [false, false, true]]);
        let mut forged = frames[1][8].clone();
        forged[40] ^= 1;
        let before = table.entries[5].receiver.windows.clone();
        assert_eq!(table.open(&forged, &mut [0; ROOM]), Err(Refusal::Integrity));
        assert_eq!((&table.entries[5].receiver.windows, &before[8].opened[..]), (&before, &[2, 3, 15, 16, 17][..]));
        assert_eq!(table.open(&frames[1][8], &mut [0; ROOM]), done(9, 29));
        assert_eq!(table.entries[4].receiver.windows[8], Window::at(17));
        assert_eq!([4, 5].map(|place: usize| table.entries[place].receiver.counts()), [[0, 8, 0, 2], [0, 4, 1, 7]]);
        // Restarted, it takes them all again from its new key's camera, and one by one at its new size.
        assert_eq!(table.add(&Pairing { key: NEW_KEY, size: 1, ..pairing(5) }), CHANGED);
        assert_eq!(table.entries[5].receiver.windows, Receiver::default().windows);
        let mut camera = Sender { key: NEW_KEY, ..sender(5) };
        let answers = [sent(&mut camera), sent(&mut camera)].map(|frame| table.open(&frame, &mut [0; ROOM]));
        assert_eq!(answers, [done(1, 29), done(2, 29)]);
    }

    // Numbers and counters are the entry's, not the camera's.
    #[test]
    fn one_camera_under_two_key_ids() {
        let (mut table, mut first) = (table(2), sender(1));
        let mut other = Sender { key: NEW_KEY, key_id: 3, ..sender(1) };
        let triple = Triple { key_id: 3, ..pairing(1).triple };
        assert_eq!(table.add(&Pairing { triple, key: NEW_KEY, ..pairing(1) }), CHANGED);
        first.last_number = 5;
        let frames = [sent(&mut first), sent(&mut other), sent(&mut first), sent(&mut other)];
        let answers = frames.each_ref().map(|frame| table.open(frame, &mut [0; ROOM]));
        assert_eq!(answers, [done(6, 29), done(1, 29), done(7, 29), done(2, 29)]);
        let frame = plain(QOS, camera(1), BOX);
        let answers = [1, 3, 3, 1].map(|key_id| table.seal(key_id, &frame, &mut [0; ROOM]));
        assert_eq!(answers, [done(1, 45), done(1, 45), done(2, 45), done(2, 45)]);
    }

    // Camera 1 and the box are on both sides, each with an entry to the other.
    #[test]
    fn both_directions_in_one_table() {
        let mut table = table(3);
        let turned = Triple { own: camera(1), peer: BOX, key_id: 1 };
        assert_eq!(table.add(&Pairing { triple: turned, key: NEW_KEY, ..pairing(1) }), CHANGED);
        let (mut out, mut back) = ([0; 45], [0; 29]);
        assert_eq!(table.seal(1, &plain(QOS, BOX, camera(1)), &mut out), done(1, 45));
        assert_eq!(table.open(&out, &mut back), Err(Refusal::Integrity));
        assert_eq!([table.entries[1].last_number, table.entries[3].last_number], [0, 1]);
        assert_eq!([table.entries[1].receiver.decrypt_errors, table.entries[3].receiver.decrypt_errors], [1, 0]);
    }

    #[test]
    fn tables_that_are_not_sound() {
        for (cameras, place) in [(1, 0), (2, 1), (16, 0), (16, 15)] {
            let table = table(cameras);
            let changes: [&dyn Fn(&mut Entry); 16] = [
                &|entry| entry.receiver.key_id = 4,
                &|entry| entry.receiver.key_id = 255,
                &|entry| entry.last_number = MAX_NUMBER + 1,
                &|entry| entry.last_number = u64::MAX,
                &|entry| entry.receiver.windows[0] = Window::at(MAX_NUMBER + 1),
                &|entry| entry.receiver.windows[15] = Window::at(u64::MAX),
                &|entry| entry.receiver.window_size = 0,
                &|entry| entry.receiver.window_size = 2,
                &|entry| entry.receiver.window_size = 15,
                &|entry| entry.receiver.window_size = 17,
                &|entry| entry.receiver.window_size = 255,
                &|entry| entry.receiver.windows[0].opened = vec![0],
                &|entry| entry.receiver.windows[15] = Window { greatest: 3, opened: vec![-1, 3] },
                &|entry| entry.receiver.windows[8].greatest = 9,
                &|entry| entry.receiver.windows[7] = Window { greatest: 9, opened: vec![8] },
                &|entry| (entry.receiver.window_size, entry.receiver.windows[15]) = (1, Window { greatest: 9, opened: vec![8, 9] }),
            ];
            for change in changes {
                let unsound = with(table.clone(), place, change);
                for which in [0, cameras - 1, 20] {
                    assert_eq!(answers(&unsound, which), [Some(Refusal::Record); 4]);
                }
                assert_eq!(unsound.clone().open(&[], &mut []), Err(Refusal::Record));
                assert_eq!(unsound.clone().add(&Pairing { key: [0; 16], ..pairing(20) }), Err(Refusal::Record));
            }
        }
        // Flags off change nothing of it.
        let off = with(table(2), 1, |entry| *entry = Entry { may_send: false, may_receive: false, last_number: MAX_NUMBER + 1, ..entry.clone() });
        assert_eq!(answers(&off, 0), [Some(Refusal::Record); 4]);
        let mut limits = with(table(2), 1, |entry| {
            (entry.last_number, entry.receiver.windows) = (MAX_NUMBER, std::array::from_fn(|_| Window::at(MAX_NUMBER)));
        });
        assert_eq!(answers(&limits, 0), [None; 4]);
        assert_eq!(limits.seal(1, &plain(QOS, camera(1), BOX), &mut [0; ROOM]), Err(Refusal::Spent));
        assert_eq!(limits.open(&sent(&mut sender(1)), &mut [0; ROOM]), Err(Refusal::Replay));
    }

    #[test]
    fn two_entries_alike() {
        for (one, other) in (0..16).flat_map(|other| (0..other).map(move |one| (one, other))) {
            let Entry { own, receiver, .. } = table(16).entries[one].clone();
            let one_key = with(table(16), other, |entry| entry.receiver.key = receiver.key);
            let one_triple = with(table(16), other, |entry| {
                (entry.own, entry.receiver.peer, entry.receiver.key_id) = (own, receiver.peer, receiver.key_id);
            });
            for unsound in [one_key, one_triple] {
                assert_eq!(answers(&unsound, 0), [Some(Refusal::Record); 4]);
                // Once one of the two is free, all is well.
                for place in [one, other] {
                    assert!(with(unsound.clone(), place, |entry| entry.used = false).is_sound());
                }
            }
        }
        // Two parts of camera 0's triple, or the triple turned about.
        let nearly: [&dyn Fn(&mut Entry); 4] = [
            &|entry| entry.receiver.peer = camera(0),
            &|entry| entry.receiver.key_id = 0,
            &|entry| (entry.own, entry.receiver.peer, entry.receiver.key_id) = (camera(9), camera(0), 0),
            &|entry| (entry.own, entry.receiver.peer, entry.receiver.key_id) = (camera(0), BOX, 0),
        ];
        assert!(nearly.iter().all(|change| with(table(2), 1, change).is_sound()));
    }

    #[test]
    fn free_entries_play_no_part() {
        let windows = std::array::from_fn(|_| Window { greatest: u64::MAX, opened: vec![-1] });
        let unsound = Receiver { key: [0; 16], key_id: 255, window_size: 255, windows, ..Receiver::default() };
        let garbage = [
            Entry { used: false, ..table(1).entries[0].clone() },
            Entry { used: false, ..table(16).entries[14].clone() },
            Entry { may_send: true, may_receive: true, last_number: u64::MAX, receiver: unsound, ..Entry::default() },
            Entry { may_send: true, may_receive: true, own: BOX, receiver: Receiver { key: NEW_KEY, ..Receiver::default() }, ..Entry::default() },
        ];
        // All entries but three hold it.
        for (entry, first) in garbage.iter().flat_map(|entry| [0, 1, 2, 13].map(|first| (entry, first))) {
            let mut table = Table { entries: std::array::from_fn(|_| entry.clone()), format_errors: 0 };
            table.entries[first..first + 3].clone_from_slice(&self::table(3).entries[..3]);
            assert!((0..3).all(|which| answers(&table, which) == [None; 4]));
            assert_eq!(answers(&table, 14), ABSENT);
            let before = table.clone();
            assert_eq!(table.add(&Pairing { key: [0x77; 16], ..pairing(1) }), CHANGED);
            assert_eq!(table, with(before, first + 1, |entry| entry.receiver.key = [0x77; 16]));
            let taken = if first == 0 { 3 } else { 0 };
            for free in [entry, &Entry::default()] {
                let before = with(table.clone(), taken, |entry| *entry = free.clone());
                let mut table = before.clone();
                assert_eq!(table.add(&pairing(14)), CHANGED);
                assert_eq!(table, with(before, taken, |entry| *entry = self::table(15).entries[14].clone()));
            }
        }
    }

    #[test]
    fn body_limits() {
        let mut table = table(16);
        for control in CONTROLS {
            let header = header_length(&control);
            let mut frame = plain(control, camera(5), BOX);
            for (body, refusal) in [(0, Some(Refusal::Body)), (1, None), (7_935, None), (7_936, Some(Refusal::Body))] {
                frame.resize(header + body, 0);
                assert_eq!(table.seal(1, &frame, &mut [0; ROOM]).err(), refusal);
            }
            let mut frame = plain([control[0], control[1] | PROTECTED], BOX, camera(5));
            frame.resize(header, 0);
            frame.extend([0, 0, 0, EXT_IV | 1 << 6]);
            for (rest, refusal) in [(16, Refusal::Body), (17, Refusal::Replay), (7_951, Refusal::Replay), (7_952, Refusal::Body)] {
                frame.resize(header + rest, 0);
                assert_eq!(table.open(&frame, &mut [0; ROOM]), Err(refusal));
            }
        }
    }

    #[test]
    fn sealing_in_order_of_its_tests() {
        let table = with(table(16), 5, |entry| entry.last_number = MAX_NUMBER);
        let refused = |table: &Table, frame: &[u8], room: usize| {
            let (mut after, mut out) = (table.clone(), vec![0xaa; room]);
            let refusal = after.seal(1, frame, &mut out).err();
            assert_eq!((&after, out), (table, vec![0xaa; room]));
            refusal
        };
        let mut frame = plain([0x88, 0x83], camera(5), BOX);
        assert_eq!(refused(&table, &frame, 55), Some(Refusal::Spent));
        frame[9] ^= 0x40;
        assert_eq!(refused(&table, &frame, 55), Some(Refusal::Absent));
        assert_eq!([refused(&table, &frame, 54), refused(&table, &frame, 0)], [Some(Refusal::Room); 2]);
        frame.resize(36 + MAX_BODY + 1, 0);
        assert_eq!([refused(&table, &frame, 0), refused(&table, &frame[..36], 0)], [Some(Refusal::Body); 2]);
        assert_eq!([refused(&table, &frame[..35], 0), refused(&table, &frame[..24], 0)], [Some(Refusal::Short); 2]);
        frame[1] |= PROTECTED;
        assert_eq!(refused(&table, &frame[..35], 0), Some(Refusal::Mark));
        frame[0] ^= 0x40;
        assert_eq!(refused(&table, &frame[..35], 0), Some(Refusal::Kind));
        assert_eq!(refused(&table, &frame[..23], 0), Some(Refusal::Short));
        assert_eq!(refused(&with(table, 7, |entry| entry.receiver.key_id = 4), &frame[..23], 0), Some(Refusal::Record));
    }

    #[test]
    fn opening_in_order_of_its_tests() {
        let table = with(table(16), 5, |entry| entry.receiver.windows[14] = Window::at(1));
        // The refusal, and what it adds to the table's count and to the entry's.
        let refused = |table: &Table, frame: &[u8], room: usize| {
            let (mut after, mut out) = (table.clone(), vec![0xaa; room]);
            let refusal = after.open(frame, &mut out).err();
            let ([_, replays, decrypt_errors, opened], added) = (after.entries[5].receiver.counts(), after.format_errors);
            after.format_errors = 0;
            (after.entries[5].receiver.replays, after.entries[5].receiver.decrypt_errors) = (0, 0);
            assert_eq!((&after, out, opened), (table, vec![0xaa; room], 0));
            (refusal, added, [replays, decrypt_errors])
        };
        let mut camera = Sender { last_number: 1, ..sender(5) };
        let mut frame = sealed(&mut camera, &plain([0x88, 0x83], BOX, self::camera(5)));
        frame[50] ^= 0x01;
        assert_eq!(refused(&table, &frame, 39), (Some(Refusal::Integrity), 0, [0, 1]));
        frame[36] = 1;
        assert_eq!(refused(&table, &frame, 39), (Some(Refusal::Replay), 0, [1, 0]));
        for at in [4, 10, 39] {
            let mut frame = frame.clone();
            frame[at] ^= 0x80;
            assert_eq!(refused(&table, &frame, 39), (Some(Refusal::Absent), 0, [0, 0]));
        }
        frame[4] ^= 0x80;
        frame[39] ^= EXT_IV;
        assert_eq!(refused(&table, &frame, 39), (Some(Refusal::Extended), 1, [0, 0]));
        assert_eq!(refused(&table, &frame, 38), (Some(Refusal::Room), 0, [0, 0]));
        frame.resize(36 + ADDED + MAX_BODY + 1, 0);
        assert_eq!(refused(&table, &frame, 0), (Some(Refusal::Body), 1, [0, 0]));
        assert_eq!(refused(&table, &frame[..36 + ADDED], 0), (Some(Refusal::Body), 1, [0, 0]));
        assert_eq!(refused(&table, &frame[..35], 0), (Some(Refusal::Short), 1, [0, 0]));
        frame[1] ^= PROTECTED;
        assert_eq!(refused(&table, &frame[..35], 0), (Some(Refusal::Mark), 1, [0, 0]));
        frame[0] ^= 0x04;
        assert_eq!(refused(&table, &frame[..35], 0), (Some(Refusal::Kind), 1, [0, 0]));
        assert_eq!(refused(&table, &frame[..23], 0), (Some(Refusal::Short), 1, [0, 0]));
        assert_eq!(refused(&with(table, 7, |entry| entry.receiver.key_id = 4), &frame[..23], 0), (Some(Refusal::Record), 0, [0, 0]));
    }

    #[test]
    fn counts_go_back_to_0() {
        let mut table = table(3);
        table.format_errors = u32::MAX;
        let counts = |receiver: &mut Receiver| (receiver.replays, receiver.decrypt_errors, receiver.opened) = (u32::MAX, u32::MAX, u32::MAX);
        table.entries.iter_mut().for_each(|entry| counts(&mut entry.receiver));
        let frame = sent(&mut sender(1));
        let mut forged = frame.clone();
        forged[40] ^= 1;
        let answers = [&[][..], &forged, &frame, &frame].map(|frame| table.open(frame, &mut [0; ROOM]).err());
        assert_eq!(answers, [Some(Refusal::Short), Some(Refusal::Integrity), None, Some(Refusal::Replay)]);
        assert_eq!((table.format_errors, table.entries[1].receiver.counts()), (0, [0; 4]));
        assert_eq!([0, 2].map(|place: usize| table.entries[place].receiver.counts()), [[0, u32::MAX, u32::MAX, u32::MAX]; 2]);
        table.format_errors = u32::MAX >> 1;
        assert_eq!((table.open(&[], &mut []), table.format_errors), (Err(Refusal::Short), 1 << 31));
    }

    // Document 01's sum, with the table's count in it: the openings answered neither 1 nor 6 nor 15, while no entry is removed or restarted.
    #[test]
    fn counts_add_up() {
        let mut random = Random(1);
        let (mut table, mut seen, mut counted) = (table(4), [0; 18], 0);
        let mut cameras = [0, 1, 2, 3, 4].map(sender);
        table.entries[3].may_receive = false;
        for _ in 0..5_000 {
            let camera = &mut cameras[random.below(5)];
            let mut frame = random.plain(camera.address);
            frame[4..10].copy_from_slice(&BOX);
            let mut text = sealed(camera, &frame);
            if random.one_in(2) {
                random.damage(&mut text);
            }
            let room = frame.len() - usize::from(random.one_in(8));
            let answer = table.open(&text, &mut vec![0; room]).map_or_else(|refusal| refusal as usize, |_| 0);
            seen[answer] += 1;
            counted += u32::from(![1, 6, 15].contains(&answer));
            let entries: u32 = table.entries.iter().flat_map(|entry| entry.receiver.counts()).sum();
            assert_eq!(table.format_errors + entries, counted);
        }
        assert!([0, 2, 3, 4, 5, 6, 8, 10, 11, 15].iter().all(|&answer| seen[answer] > 10), "{seen:?}");
    }
}
