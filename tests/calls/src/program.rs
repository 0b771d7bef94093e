//! Calls on tables by the proved code: the program `table_calls` makes them, for a table is too large to lend field by field. What is
//! written to it and read from it is told at the head of crates/table_calls/src/main.rt.

use proved::Told;
use second::frame::Receiver;
use second::table::{Entry, Pairing, Table, Triple};
use std::io::{BufWriter, Read, Write};
use std::process::{Child, ChildStdin, ChildStdout, Command, Stdio};
use std::sync::{LazyLock, Mutex};

const PROGRAM: &str = concat!(env!("CARGO_MANIFEST_DIR"), "/../../target/bin/table_calls");

struct Program {
    _child: Child,
    requests: BufWriter<ChildStdin>,
    answers: ChildStdout,
}

static RUNNING: LazyLock<Mutex<Program>> = LazyLock::new(|| {
    let mut child = Command::new(PROGRAM).stdin(Stdio::piped()).stdout(Stdio::piped()).spawn().expect("target/bin/table_calls: tools/program table_calls makes it");
    let requests = BufWriter::new(child.stdin.take().expect("piped"));
    let answers = child.stdout.take().expect("piped");
    Mutex::new(Program { _child: child, requests, answers })
});

/// What a call is asked for beside its frame: sealing has the key ID alone, removing the triple.
#[derive(Default)]
struct Asked {
    own: [u8; 6],
    peer: [u8; 6],
    key_id: u8,
    key: [u8; 16],
    may_send: bool,
    may_receive: bool,
    size: u8,
}

fn put_table(t: &Table, octets: &mut Vec<u8>) {
    for entry in &t.entries {
        let receiver = &entry.receiver;
        octets.extend([entry.used, entry.may_send, entry.may_receive].map(u8::from));
        octets.extend(entry.own);
        octets.push(receiver.key_id);
        octets.extend(receiver.peer);
        octets.extend(receiver.key);
        octets.extend(entry.last_number.to_le_bytes());
        octets.extend(receiver.windows.iter().flat_map(|window| window.greatest.to_le_bytes()));
        octets.extend(receiver.counts().iter().flat_map(|count| count.to_le_bytes()));
        octets.push(receiver.window_size);
        octets.extend(receiver.windows.iter().flat_map(|window| proved::bits(window).to_le_bytes()));
    }
    octets.extend(t.format_errors.to_le_bytes());
}

/// Reads what the program wrote, in order.
struct Octets<'a>(&'a [u8]);

impl Octets<'_> {
    fn take<const N: usize>(&mut self) -> [u8; N] {
        let (front, rest) = self.0.split_first_chunk().expect("a whole answer");
        self.0 = rest;
        *front
    }

    fn flag(&mut self) -> bool {
        self.take::<1>() != [0]
    }

    fn number(&mut self) -> u64 {
        u64::from_le_bytes(self.take())
    }

    fn count(&mut self) -> u32 {
        u32::from_le_bytes(self.take())
    }

    fn entry(&mut self) -> Entry {
        let [used, may_send, may_receive] = std::array::from_fn(|_| self.flag());
        let own = self.take();
        let [key_id] = self.take();
        let (peer, key) = (self.take(), self.take());
        let last_number = self.number();
        let greatest: [u64; 16] = std::array::from_fn(|_| self.number());
        let [format_errors, replays, decrypt_errors, opened] = std::array::from_fn(|_| self.count());
        let [window_size] = self.take();
        let windows = greatest.map(|greatest| proved::window(greatest, u16::from_le_bytes(self.take())));
        let receiver = Receiver { key, key_id, peer, window_size, windows, format_errors, replays, decrypt_errors, opened };
        Entry { used, may_send, may_receive, own, last_number, receiver }
    }
}

/// The octets of an answer before the room: four numbers and a table.
const ANSWER: usize = 32 + 16 * 217 + 4;

fn call(letter: u8, t: &mut Table, asked: Asked, frame: &[u8], room: &mut [u8]) -> Told {
    let Asked { own, peer, key_id, key, may_send, may_receive, size } = asked;
    let mut request = Vec::new();
    put_table(t, &mut request);
    request.push(letter);
    request.extend(own);
    request.extend(peer);
    request.push(key_id);
    request.extend(key);
    request.extend([may_send, may_receive].map(u8::from));
    request.push(size);
    request.extend((frame.len() as u32).to_le_bytes());
    request.extend((room.len() as u32).to_le_bytes());
    request.extend(frame);
    request.extend_from_slice(room);

    let mut program = RUNNING.lock().expect("one call at a time");
    program.requests.write_all(&request).and_then(|()| program.requests.flush()).expect("table_calls takes the request");
    let mut answer = [0; ANSWER];
    program.answers.read_exact(&mut answer).and_then(|()| program.answers.read_exact(room)).expect("table_calls answers");
    let mut octets = Octets(&answer);
    let told = std::array::from_fn(|_| octets.number());
    t.entries = std::array::from_fn(|_| octets.entry());
    t.format_errors = octets.count();
    told
}

/// Makes a fresh table of whatever is in `t`.
pub fn new_table(t: &mut Table) -> Told {
    call(b'n', t, Asked::default(), &[], &mut [])
}

pub fn table_add(t: &mut Table, pairing: &Pairing) -> Told {
    let &Pairing { triple: Triple { own, peer, key_id }, key, may_send, may_receive, size } = pairing;
    call(b'a', t, Asked { own, peer, key_id, key, may_send, may_receive, size }, &[], &mut [])
}

pub fn table_remove(t: &mut Table, triple: &Triple) -> Told {
    let &Triple { own, peer, key_id } = triple;
    call(b'r', t, Asked { own, peer, key_id, ..Asked::default() }, &[], &mut [])
}

pub fn table_seal(t: &mut Table, key_id: u8, frame: &[u8], out: &mut [u8]) -> Told {
    call(b's', t, Asked { key_id, ..Asked::default() }, frame, out)
}

pub fn table_open(t: &mut Table, frame: &[u8], out: &mut [u8]) -> Told {
    call(b'o', t, Asked::default(), frame, out)
}
