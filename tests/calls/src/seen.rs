//! What a run has shown so far, and what a whole one has to show.

use crate::any;
use crate::call::{Call, Left, Record};
use crate::fragments::{body, continued};
use crate::tables::{asked_to_open, asked_to_seal, place_of, turned};
use second::fragment::{Joiner, MAX_MESSAGE, MORE_FRAG};
use second::frame::{has_ht, header_length, number_in, Receiver, Sender, MAX_NUMBER, ORDER};
use second::table::{Entry, Pairing, Table, Triple};
use second::window::{Window, SIZES};
use std::collections::{BTreeMap, BTreeSet};

const PRIORITIES: &[u64] = &[0, 1, 2, 3, 4, 5, 6, 7, 8, 9, 10, 11, 12, 13, 14, 15];
const PLACES: &[u64] = PRIORITIES;

/// How many entries of a table can be in use.
const IN_USE: &[u64] = &[0, 1, 2, 3, 4, 5, 6, 7, 8, 9, 10, 11, 12, 13, 14, 15, 16];

/// What can be wrong with an entry: 0 its key ID, 1 its last number, 2 a window's greatest number, 3 its triple or 4 its key, which another in
/// use has, 5 its size. And with a window: it holds 0 or less 6 at size 1, 7 at size 16; it lacks its greatest 8 at size 1, 9 at size 16; or
/// 10 at size 1 it holds another too.
const FAULTS: &[u64] = &[0, 1, 2, 3, 4, 5, 6, 7, 8, 9, 10];
/// Those of a receiver.
const RECEIVER_FAULTS: &[u64] = &[0, 2, 5, 6, 7, 8, 9, 10];

const WRONG_SIZES: &[u64] = &[0, 2, 15, 17, 255];

/// How far below the greatest number one is taken at size 16.
const LATE: &[u64] = &[1, 2, 3, 4, 5, 6, 7, 8, 9, 10, 11, 12, 13, 14, 15];
/// How far below it one is refused because it was opened, at size 16, or because it is 0, at both sizes.
const IN_REACH: &[u64] = PRIORITIES;
const TOO_LATE: &[u64] = &[16, 17];
const TOO_LATE_AT_1: &[u64] = &[1, 2, 3, 4, 5, 6, 7, 8, 9, 10, 11, 12, 13, 14, 15, 16, 17];
/// How far above it: from 16 on nothing stays of what was opened.
const ABOVE: &[u64] = &[1, 2, 14, 15, 16, 17];
/// The greatest of these.
const NEAR: u64 = 17;

/// What a whole run has to show.
pub const DUE: &[(&str, &[u64])] = &[
    ("fresh sender, answer", &[0, 1]),
    ("fresh receiver, answer", &[0, 1]),
    ("fresh receiver, size", &[1, 16]),
    ("fresh receiver, size refused", WRONG_SIZES),
    ("seal, answer", &[0, 1, 2, 3, 4, 5, 6, 7, 12]),
    ("open, answer", &[0, 1, 2, 3, 4, 5, 6, 7, 8, 9, 10, 11]),
    ("split, answer", &[0, 1, 2, 3, 4, 6, 7, 12, 13]),
    ("join, answer", &[0, 1, 2, 3, 4, 5, 6, 14]),
    ("seal, priority", PRIORITIES),
    ("open, priority", PRIORITIES),
    ("split, priority", PRIORITIES),
    ("join, priority", PRIORITIES),
    ("seal, header without HT Control", &[24, 26, 30, 32]),
    ("open, header without HT Control", &[24, 26, 30, 32]),
    ("split, header without HT Control", &[24, 26, 30, 32]),
    ("join, header without HT Control", &[24, 26, 30, 32]),
    ("seal, header with HT Control", &[30, 36]),
    ("open, header with HT Control", &[30, 36]),
    ("split, header with HT Control", &[30, 36]),
    ("join, header with HT Control", &[30, 36]),
    ("seal, octets after the header, taken", &[1, 7_935]),
    ("open, octets after the header, taken", &[17, 7_951]),
    ("join, octets after the header, taken", &[1, 2_296]),
    ("seal, octets after the header, answer 5", &[0, 7_936]),
    ("open, octets after the header, answer 5", &[16, 7_952]),
    ("join, octets after the header, answer 5", &[0, 2_297, 7_935]),
    ("open, answer to b15 turned over", &[5, 8, 9, 10, 11]),
    // By no other fault.
    ("open, answer 1 by", RECEIVER_FAULTS),
    ("open at size 1, above the greatest by", ABOVE),
    ("open at size 1, opened before, late by", &[0]),
    ("open at size 1, too late by", TOO_LATE_AT_1),
    ("open at size 1, number 0, greatest", IN_REACH),
    ("open at size 16, above the greatest by", ABOVE),
    ("open at size 16, taken late by", LATE),
    ("open at size 16, opened before, late by", IN_REACH),
    ("open at size 16, wrong code, late by", &[1, 15]),
    ("open at size 16, too late by", TOO_LATE),
    ("open at size 16, number 0, greatest", IN_REACH),
    ("count moved", &[0, 1, 2, 3]),
    ("count gone back to 0", &[0, 1, 2, 3]),
    ("split, fragments", &[1, 2, 3, 4, 5, 6, 7, 8, 9, 10, 11, 12, 13, 14, 15, 16]),
    ("split, numbers missing", &[0, 1]),
    ("join, first of many, answer", &[0]),
    ("join, first of many over an unfinished message, answer", &[0]),
    ("join, one of many, answer", &[0]),
    ("join, last of many, answer", &[0, 6]),
    ("join, only one, answer", &[0, 6]),
    ("join, only one over an unfinished message, answer", &[0, 6]),
    // Each of these by itself.
    ("join, other A2, answer", &[14]),
    ("join, other priority, answer", &[14]),
    ("join, other sequence number, answer", &[14]),
    ("join, other fragment number, answer", &[14]),
    ("join, other packet number, answer", &[14]),
    ("join, nothing held, answer", &[14]),
    ("join, over 2,304 octets, answer", &[14]),
    ("new table, answer", &[0]),
    ("table seal, answer", &[0, 1, 2, 3, 4, 5, 6, 12, 15]),
    ("table open, answer", &[0, 1, 2, 3, 4, 5, 6, 8, 10, 11, 15]),
    ("table add, answer", &[0, 1, 16, 17]),
    ("table remove, answer", &[0, 1, 15]),
    ("table seal, entries in use", IN_USE),
    ("table open, entries in use", IN_USE),
    ("table add, entries in use", IN_USE),
    ("table remove, entries in use", IN_USE),
    ("table seal, done with entries in use", &[1, 15, 16]),
    ("table open, done with entries in use", &[1, 15, 16]),
    ("table add, done with entries in use", &[0, 1, 15, 16]),
    ("table remove, done with entries in use", &[1, 15, 16]),
    ("table seal, priority", PRIORITIES),
    ("table open, priority", PRIORITIES),
    ("table seal, header without HT Control", &[24, 26, 30, 32]),
    ("table open, header without HT Control", &[24, 26, 30, 32]),
    ("table seal, header with HT Control", &[30, 36]),
    ("table open, header with HT Control", &[30, 36]),
    ("table seal, octets after the header, taken", &[1, 7_935]),
    ("table open, octets after the header, taken", &[17, 7_951]),
    ("table seal, octets after the header, answer 5", &[0, 7_936]),
    ("table open, octets after the header, answer 5", &[16, 7_952]),
    ("table seal, done at place", PLACES),
    ("table open, done at place", PLACES),
    ("table remove, done at place", PLACES),
    ("table add, new at place", PLACES),
    ("table add, restarted at place", PLACES),
    ("table add, new, free places before one in use", &[0, 1, 2]),
    ("table add, new where a free entry was not all zeros, answer", &[0]),
    ("table add, key of a free entry, answer", &[0]),
    ("table add, key ID over 3 to a sound table, answer", &[1]),
    ("table add, size", &[1, 16]),
    ("table add, size refused by a sound table", WRONG_SIZES),
    // What it would answer but for the size.
    ("table add, size refused before answer", &[16, 17]),
    // 0 the entry's own key again, or another entry's for a triple that is 1 present, 2 new, 3 new with no entry free.
    ("table add, answer 17 by", &[0, 1, 2, 3]),
    // By no other fault.
    ("table seal, answer 1 by", FAULTS),
    ("table open, answer 1 by", FAULTS),
    ("table add, answer 1 by", FAULTS),
    ("table remove, answer 1 by", FAULTS),
    ("table seal, done beside a free entry's fault", FAULTS),
    ("table open, done beside a free entry's fault", FAULTS),
    ("table add, done beside a free entry's fault", FAULTS),
    ("table remove, done beside a free entry's fault", FAULTS),
    // An entry has the rest of the triple, but not 0 the own address, 1 the peer's, 2 the key ID or 3 a key ID over 3; or it has all of it,
    // but 4 the addresses changed about, 5 it is free or 6 its flag is off.
    ("table seal, answer 15 by", &[0, 1, 2, 3, 4, 5, 6]),
    ("table open, answer 15 by", &[0, 1, 2, 4, 5, 6]),
    ("table remove, answer 15 by", &[0, 1, 2, 3, 4, 5]),
    ("table open at size 1, above the greatest by", ABOVE),
    ("table open at size 1, opened before, late by", &[0]),
    ("table open at size 1, too late by", TOO_LATE_AT_1),
    ("table open at size 1, number 0, greatest", IN_REACH),
    ("table open at size 16, above the greatest by", ABOVE),
    ("table open at size 16, taken late by", LATE),
    ("table open at size 16, opened before, late by", IN_REACH),
    ("table open at size 16, wrong code, late by", &[1, 15]),
    ("table open at size 16, too late by", TOO_LATE),
    ("table open at size 16, number 0, greatest", IN_REACH),
    ("table open, answer that moved the table's count", &[2, 3, 4, 5, 8]),
    ("table open, table's count gone back to 0", &[0]),
    ("table open, entry's count moved", &[1, 2, 3]),
    ("table open, entry's count gone back to 0", &[1, 2, 3]),
];

/// How often each thing was seen.
#[derive(Default)]
pub struct Seen(BTreeMap<(String, u64), usize>);

impl Seen {
    fn add(&mut self, what: String, number: u64) {
        *self.0.entry((what, number)).or_default() += 1;
    }

    pub fn call(&mut self, call: &Call, left: &Left) {
        self.add(format!("{}, answer", call.name()), left.told[0]);
        if let Some(table) = call.table() {
            self.table(call.name(), table, left);
        }
        match call {
            Call::FreshSender { .. } | Call::NewTable => {}
            Call::FreshReceiver { key_id, size, .. } => {
                if *key_id <= 3 {
                    let what = if left.told[0] == 0 { "fresh receiver, size" } else { "fresh receiver, size refused" };
                    self.add(what.into(), u64::from(*size));
                }
            }
            Call::Seal { frame, .. } => self.done(call, frame, left),
            Call::Open { receiver, frame, .. } => {
                self.done(call, frame, left);
                self.open(receiver, frame, left);
                self.late(call.name(), receiver, frame, left);
            }
            Call::Split { sender, frame, size, .. } => {
                self.done(call, frame, left);
                self.split(sender, frame, *size, left);
            }
            Call::Join { joiner, frame, number, .. } => {
                self.done(call, frame, left);
                self.join(joiner, frame, *number, left);
            }
            Call::TableSeal { table, key_id, frame, .. } => {
                self.done(call, frame, left);
                self.search(call.name(), table, asked_to_seal(frame, *key_id), left);
            }
            Call::TableOpen { table, frame, .. } => {
                self.done(call, frame, left);
                self.search(call.name(), table, asked_to_open(frame), left);
                self.table_counts(table, left);
                if let Some(place) = asked_to_open(frame).and_then(|triple| place_of(table, triple)) {
                    self.late(call.name(), &table.entries[place].receiver, frame, left);
                }
            }
            Call::TableAdd { table, pairing } => self.table_add(table, pairing, left),
            Call::TableRemove { table, triple } => self.search(call.name(), table, Some(*triple), left),
        }
    }

    fn done(&mut self, call: &Call, frame: &[u8], left: &Left) {
        let after_header = format!("{}, octets after the header", call.name());
        if left.told[0] == 0 {
            self.add(format!("{}, priority", call.name()), left.told[2]);
            let ht = if has_ht(frame) { "with" } else { "without" };
            self.add(format!("{}, header {ht} HT Control", call.name()), header_length(frame) as u64);
            self.add(format!("{after_header}, taken"), body(frame) as u64);
        }
        if left.told[0] == 5 {
            self.add(format!("{after_header}, answer 5"), body(frame) as u64);
        }
    }

    fn open(&mut self, receiver: &Receiver, frame: &[u8], left: &Left) {
        if left.told[0] > 0 && opens_turned_back(receiver, frame) {
            self.add(String::from("open, answer to b15 turned over"), left.told[0]);
        }
        if let (1, [fault]) = (left.told[0], &receiver_faults(receiver)[..]) {
            self.add(String::from("open, answer 1 by"), *fault);
        }
        let Record::Receiver(after) = &left.record else {
            return;
        };
        self.counts("", receiver, after);
    }

    /// How a number that came to the test of replays stands to its window.
    fn late(&mut self, name: &str, receiver: &Receiver, frame: &[u8], left: &Left) {
        let answer @ (0 | 10 | 11) = left.told[0] else {
            return;
        };
        let (number, Window { greatest, opened }) = (number_in(&frame[header_length(frame)..]), &receiver.windows[any::priority(frame)]);
        let late = greatest.wrapping_sub(number);
        let (how, by) = match answer {
            0 if number > *greatest => ("above the greatest by", number - greatest),
            0 => ("taken late by", late),
            10 if number == 0 => ("number 0, greatest", *greatest),
            10 if opened.contains(&number.into()) => ("opened before, late by", late),
            10 => ("too late by", late),
            _ => ("wrong code, late by", late),
        };
        if by <= NEAR {
            self.add(format!("{name} at size {}, {how}", receiver.window_size), by);
        }
    }

    fn counts(&mut self, whose: &str, before: &Receiver, after: &Receiver) {
        for (which, (before, now)) in (0..).zip(before.counts().into_iter().zip(after.counts())) {
            if now != before {
                self.add(format!("{whose}{}", if now == 0 { "count gone back to 0" } else { "count moved" }), which);
            }
        }
    }

    fn split(&mut self, sender: &Sender, frame: &[u8], size: usize, left: &Left) {
        let fragments = || body(frame).div_ceil(size) as u64;
        let numbers = MAX_NUMBER.wrapping_sub(sender.last_number);
        match left.told[0] {
            0 => {
                self.add(String::from("split, fragments"), fragments());
                if numbers == fragments() {
                    self.add(String::from("split, numbers missing"), 0);
                }
            }
            12 => self.add(String::from("split, numbers missing"), fragments() - numbers),
            _ => {}
        }
    }

    fn join(&mut self, joiner: &Joiner, frame: &[u8], number: u64, left: &Left) {
        let kind = match left.told[0] {
            0 | 6 => {
                let over = if joiner.length > 0 { " over an unfinished message" } else { "" };
                match (frame[22] & 0x0f > 0, frame[1] & MORE_FRAG > 0) {
                    (false, true) => format!("first of many{over}"),
                    (true, true) => String::from("one of many"),
                    (true, false) => String::from("last of many"),
                    (false, false) => format!("only one{over}"),
                }
            }
            14 => match reasons(joiner, frame, number)[..] {
                [reason] => String::from(reason),
                _ => return,
            },
            _ => return,
        };
        self.add(format!("join, {kind}, answer"), left.told[0]);
    }

    /// Of any call on a table.
    fn table(&mut self, name: &str, table: &Table, left: &Left) {
        let entries = in_use(table);
        self.add(format!("{name}, entries in use"), entries.len() as u64);
        match left.told[0] {
            0 => {
                self.add(format!("{name}, done with entries in use"), entries.len() as u64);
                let free = table.entries.iter().filter(|entry| !entry.used);
                let faults: BTreeSet<u64> = free.flat_map(|entry| faults(entry, &entries)).collect();
                faults.into_iter().for_each(|fault| self.add(format!("{name}, done beside a free entry's fault"), fault));
            }
            1 => {
                if let [fault] = faults_in_use(table)[..] {
                    self.add(format!("{name}, answer 1 by"), fault);
                }
            }
            _ => {}
        }
    }

    fn search(&mut self, name: &str, table: &Table, asked: Option<Triple>, left: &Left) {
        let Some(asked) = asked else {
            return;
        };
        match (left.told[0], place_of(table, asked)) {
            (0, Some(place)) => self.add(format!("{name}, done at place"), place as u64),
            (15, _) => misses(table, asked).into_iter().for_each(|miss| self.add(format!("{name}, answer 15 by"), miss)),
            _ => {}
        }
    }

    fn table_counts(&mut self, table: &Table, left: &Left) {
        let Record::Table(after) = &left.record else {
            return;
        };
        if after.format_errors != table.format_errors {
            self.add(String::from("table open, answer that moved the table's count"), left.told[0]);
            if after.format_errors == 0 {
                self.add(String::from("table open, table's count gone back to 0"), 0);
            }
        }
        for (before, now) in table.entries.iter().zip(&after.entries) {
            self.counts("table open, entry's ", &before.receiver, &now.receiver);
        }
    }

    fn table_add(&mut self, table: &Table, pairing: &Pairing, left: &Left) {
        let present = place_of(table, pairing.triple);
        match left.told[0] {
            0 => self.added(table, pairing, present, left),
            1 if faults_in_use(table).is_empty() => {
                if SIZES.contains(&pairing.size) {
                    self.add(String::from("table add, key ID over 3 to a sound table, answer"), 1);
                } else if pairing.triple.key_id <= 3 {
                    self.size_refused(table, pairing);
                }
            }
            17 => {
                let holder = table.entries.iter().position(|entry| entry.used && entry.receiver.key == pairing.key);
                let reason = match present {
                    Some(_) if present == holder => 0,
                    Some(_) => 1,
                    None if table.entries.iter().any(|entry| !entry.used) => 2,
                    None => 3,
                };
                self.add(String::from("table add, answer 17 by"), reason);
            }
            _ => {}
        }
    }

    fn size_refused(&mut self, table: &Table, pairing: &Pairing) {
        self.add(String::from("table add, size refused by a sound table"), pairing.size.into());
        if let Err(refusal) = table.clone().add(&Pairing { size: 1, ..pairing.clone() }) {
            self.add(String::from("table add, size refused before answer"), refusal as u64);
        }
    }

    fn added(&mut self, table: &Table, pairing: &Pairing, present: Option<usize>, left: &Left) {
        self.add(String::from("table add, size"), pairing.size.into());
        if table.entries.iter().any(|entry| !entry.used && entry.receiver.key == pairing.key) {
            self.add(String::from("table add, key of a free entry, answer"), 0);
        }
        match (present, &left.record) {
            (Some(place), _) => self.add(String::from("table add, restarted at place"), place as u64),
            (None, Record::Table(after)) => {
                let place = place_of(after, pairing.triple).expect("the entry that was added");
                self.add(String::from("table add, new at place"), place as u64);
                if table.entries[place] != Entry::default() {
                    self.add(String::from("table add, new where a free entry was not all zeros, answer"), 0);
                }
                let last = table.entries.iter().rposition(|entry| entry.used).unwrap_or_default();
                let free = table.entries[..last].iter().filter(|entry| !entry.used).count();
                self.add(String::from("table add, new, free places before one in use"), free as u64);
            }
            _ => {}
        }
    }

    pub fn times(&self, what: &str, number: u64) -> usize {
        self.0.get(&(what.into(), number)).copied().unwrap_or_default()
    }

    /// The calls on tables with 0, 1, 15 or 16 entries in use.
    pub fn at_limits(&self) -> usize {
        let calls = ["table seal", "table open", "table add", "table remove"];
        calls.iter().flat_map(|call| [0, 1, 15, 16].map(|in_use| self.times(&format!("{call}, entries in use"), in_use))).sum()
    }
}

/// Whether it is a QoS frame that opens, room given, with b15 turned over.
fn opens_turned_back(receiver: &Receiver, frame: &[u8]) -> bool {
    let [first @ 0x80..=0xff, second, rest @ ..] = frame else {
        return false;
    };
    let turned_back = [&[*first, second ^ ORDER], rest].concat();
    receiver.clone().open(&turned_back, &mut vec![0; frame.len()]).is_ok()
}

/// Why a fragment after the first one is refused with 14.
fn reasons(joiner: &Joiner, frame: &[u8], number: u64) -> Vec<&'static str> {
    let Some(wanted) = continued(frame, number) else {
        return Vec::new();
    };
    let all = [
        ("other A2", joiner.address != wanted.address),
        ("other priority", joiner.priority != wanted.priority),
        ("other sequence number", joiner.sequence != wanted.sequence),
        ("other fragment number", joiner.fragment != wanted.fragment),
        ("other packet number", joiner.number != wanted.number),
        ("nothing held", joiner.length == 0),
        ("over 2,304 octets", joiner.length + body(frame) > MAX_MESSAGE),
    ];
    all.into_iter().filter_map(|(reason, holds)| holds.then_some(reason)).collect()
}

/// What is wrong with a receiver.
fn receiver_faults(receiver: &Receiver) -> Vec<u64> {
    let (size, windows) = (receiver.window_size, &receiver.windows);
    let zero_or_less = windows.iter().any(|window| window.opened.iter().any(|&number| number <= 0));
    let lacks_greatest = windows.iter().any(|window| window.greatest > 0 && !window.opened.contains(&window.greatest.into()));
    let another = |window: &Window| window.opened.iter().any(|&number| number > 0 && number != window.greatest.into());
    let all = [
        (0, receiver.key_id > 3),
        (2, windows.iter().any(|window| window.greatest > MAX_NUMBER)),
        (5, !SIZES.contains(&size)),
        (6, size == 1 && zero_or_less),
        (7, size == 16 && zero_or_less),
        (8, size == 1 && lacks_greatest),
        (9, size == 16 && lacks_greatest),
        (10, size == 1 && windows.iter().any(another)),
    ];
    all.into_iter().filter_map(|(fault, holds)| holds.then_some(fault)).collect()
}

fn in_use(table: &Table) -> Vec<&Entry> {
    table.entries.iter().filter(|entry| entry.used).collect()
}

/// What is wrong with an entry beside these others.
fn faults(entry: &Entry, others: &[&Entry]) -> Vec<u64> {
    let all = [
        (1, entry.last_number > MAX_NUMBER),
        (3, others.iter().any(|other| other.triple() == entry.triple())),
        (4, others.iter().any(|other| other.receiver.key == entry.receiver.key)),
    ];
    let holding = all.into_iter().filter_map(|(fault, holds)| holds.then_some(fault));
    holding.chain(receiver_faults(&entry.receiver)).collect()
}

/// What is wrong with a table.
fn faults_in_use(table: &Table) -> Vec<u64> {
    let entries = in_use(table);
    let all: BTreeSet<u64> = (0..entries.len()).flat_map(|at| faults(entries[at], &entries[at + 1..])).collect();
    all.into_iter().collect()
}

/// Why no entry is found for this triple, or none that has its flag on.
fn misses(table: &Table, asked: Triple) -> BTreeSet<u64> {
    let miss = |entry: &Entry| {
        let has = entry.triple();
        match (entry.used, has.own == asked.own, has.peer == asked.peer, has.key_id == asked.key_id) {
            (true, false, true, true) => Some(0),
            (true, true, false, true) => Some(1),
            (true, true, true, false) => Some(if asked.key_id > 3 { 3 } else { 2 }),
            (true, ..) if turned(has) == asked => Some(4),
            (false, true, true, true) => Some(5),
            (true, true, true, true) => Some(6),
            _ => None,
        }
    };
    table.entries.iter().filter_map(miss).collect()
}
