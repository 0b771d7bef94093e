//! The most stack that one seal, open, split and join take, as it shows: each runs on a stack filled with a pattern, which is then looked
//! through for the lowest octet that changed. Every header shape and body length is tried; opening at both sizes, also a late frame, with a
//! right and a wrong code, splitting into as many fragments as may be, and joining of a first fragment, a next one, the last one and one that
//! is dropped. That of the calls of a C host, sealing and opening alike. And that of bench's functions on a table with one camera, which hold three
//! tables of their own beside what the two calls that they make take.

use proved::exported::{bench_ccmp_open, bench_ccmp_seal, bench_join, bench_split, bench_table_add, bench_table_open, bench_table_seal};
use proved::host::exported::{kondrivai_fresh_receiver, kondrivai_fresh_sender, kondrivai_open, kondrivai_seal};
use proved::{host, Record, Told};
use second::fragment::{Joiner, MAX_FRAGMENTS, MAX_MESSAGE, MAX_SIZE, MIN_SIZE, MORE_FRAG};
use second::frame::{header_length, Receiver, Sender, ADDED, MAX_BODY};
use second::sample::CONTROLS;
use second::window::SIZES;
use std::arch::asm;

const STACK: usize = 1 << 16;
/// The arguments that go in registers.
const IN_REGISTERS: usize = 6;

#[repr(align(16))]
struct Stack([u8; STACK]);

/// Calls a function of C by the x86-64 convention on this stack. Gives the octets between its arguments and the lowest octet that
/// differs from the filling.
fn octets_used(stack: &mut Stack, filling: u8, function: usize, arguments: &[usize]) -> usize {
    stack.0.fill(filling);
    let (registers, above) = arguments.split_at(IN_REGISTERS);
    let top = STACK - above.len().next_multiple_of(2) * 8;
    for (place, argument) in stack.0[top..].chunks_exact_mut(8).zip(above) {
        place.copy_from_slice(&argument.to_ne_bytes());
    }
    // The function keeps r12 and every register that the compiler counts on; it writes below `top` and to what the arguments lend.
    unsafe {
        asm!(
            "mov r12, rsp", "mov rsp, {top}", "call {function}", "mov rsp, r12",
            top = in(reg) stack.0.as_mut_ptr().add(top), function = in(reg) function, out("r12") _,
            in("rdi") registers[0], in("rsi") registers[1], in("rdx") registers[2],
            in("rcx") registers[3], in("r8") registers[4], in("r9") registers[5],
            clobber_abi("C"),
        );
    }
    top - stack.0.iter().position(|&octet| octet != filling).unwrap_or(top)
}

fn address_of<T: ?Sized>(value: &mut T) -> usize {
    value as *mut T as *mut u8 as usize
}

fn sealing(stack: &mut Stack, filling: u8, mut s: Sender, frame: &mut [u8], out: &mut [u8]) -> usize {
    let mut told = [0; 4];
    let record = [address_of(&mut s.key), address_of(&mut s.key_id), address_of(&mut s.address), address_of(&mut s.last_number)];
    let lent = [address_of::<Told>(&mut told), address_of(frame), frame.len(), address_of(out), out.len()];
    octets_used(stack, filling, bench_ccmp_seal as *const () as usize, &[&record[..], &lent].concat())
}

fn opening(stack: &mut Stack, filling: u8, mut r: Record, frame: &mut [u8], out: &mut [u8], answer: u64) -> usize {
    let mut told = [0; 4];
    let made = [address_of(&mut r.key), address_of(&mut r.key_id), address_of(&mut r.peer), address_of(&mut r.size)];
    let moved = [address_of(&mut r.replay), address_of(&mut r.seen), address_of(&mut r.counts)];
    let lent = [address_of::<Told>(&mut told), address_of(frame), frame.len(), address_of(out), out.len()];
    let octets = octets_used(stack, filling, bench_ccmp_open as *const () as usize, &[&made[..], &moved, &lent].concat());
    assert_eq!(told[0], answer);
    octets
}

fn splitting(stack: &mut Stack, filling: u8, mut s: Sender, size: usize, frame: &mut [u8], out: &mut [u8]) -> usize {
    let mut told = [0; 4];
    let record = [address_of(&mut s.key), address_of(&mut s.key_id), address_of(&mut s.address), address_of(&mut s.last_number)];
    let lent = [address_of::<Told>(&mut told), size, address_of(frame), frame.len(), address_of(out), out.len()];
    let octets = octets_used(stack, filling, bench_split as *const () as usize, &[&record[..], &lent].concat());
    assert_eq!(told[0], 0);
    octets
}

fn joining(stack: &mut Stack, filling: u8, mut j: Joiner, frame: &mut [u8], out: &mut [u8], answer: u64) -> usize {
    let (mut told, number) = ([0; 4], j.number as usize + 1);
    let held = [address_of(&mut j.held), address_of(&mut j.length), address_of(&mut j.address), address_of(&mut j.priority)];
    let last = [address_of(&mut j.sequence), address_of(&mut j.fragment), address_of(&mut j.number)];
    let lent = [address_of::<Told>(&mut told), address_of(frame), frame.len(), number, address_of(out), out.len()];
    let octets = octets_used(stack, filling, bench_join as *const () as usize, &[&held[..], &last, &lent].concat());
    assert_eq!(told[0], answer);
    octets
}

/// With the entry of these addresses, key ID 0 and a key; `frames` is empty, or a frame and the room for what is made of it.
fn with_table(stack: &mut Stack, filling: u8, function: usize, own: [u8; 6], peer: [u8; 6], frames: &[usize], answer: u64) -> usize {
    let (mut own, mut peer, mut key, mut told) = (own, peer, [7u8; 16], [0; 4]);
    let entry = [address_of(&mut own), address_of(&mut peer), 0, address_of(&mut key), address_of::<Told>(&mut told)];
    let mut arguments = [&entry[..], frames].concat();
    arguments.resize(arguments.len().max(IN_REGISTERS), 0);
    let octets = octets_used(stack, filling, function, &arguments);
    assert_eq!(told[0], answer);
    octets
}

/// A call of a C host on a record in a buffer.
fn hosted(stack: &mut Stack, filling: u8, function: usize, buffer: &[u8], frame: &mut [u8], out: &mut [u8]) -> usize {
    let mut buffer = buffer.to_vec();
    let lent = [address_of(&mut buffer[..]), buffer.len(), address_of(frame), frame.len(), address_of(out), out.len()];
    octets_used(stack, filling, function, &lent)
}

/// One that makes such a record.
fn made(stack: &mut Stack, filling: u8, function: usize, octets: usize) -> usize {
    let (mut buffer, mut key, mut address) = (vec![0u8; octets], [7u8; 16], ADDRESS);
    let asked = [address_of(&mut buffer[..]), octets, address_of(&mut key), key.len(), 0, address_of(&mut address), 16];
    let used = octets_used(stack, filling, function, &asked);
    assert_ne!(buffer[0], 0);
    used
}

const ADDRESS: [u8; 6] = [2, 0, 0, 0, 0, 1];

fn plain(control: [u8; 2], length: usize) -> Vec<u8> {
    let mut frame = vec![0x11; header_length(&control) + length];
    frame[..2].copy_from_slice(&control);
    frame[10..16].copy_from_slice(&ADDRESS);
    frame
}

/// Of sealing and opening.
fn most_for_frames(stack: &mut Stack, filling: u8, control: [u8; 2]) -> [usize; 2] {
    let (_, sender) = Sender::fresh([7; 16], 0, ADDRESS);
    let fresh = SIZES.map(|size| Record::from(&Receiver::fresh([7; 16], 0, ADDRESS, size).1));
    // Of size 16, and the frame's number is late by 15.
    let late = Record { replay: [16; 16], seen: [1; 16], ..fresh[1].clone() };
    let (mut sealed, mut opened) = (0, 0);
    for length in 1..=MAX_BODY {
        let mut plain = plain(control, length);
        let (mut text, mut out) = (vec![0; plain.len() + ADDED], vec![0; plain.len()]);
        sealed = sealed.max(sealing(stack, filling, sender.clone(), &mut plain, &mut text));
        for record in fresh.iter().chain([&late]) {
            opened = opened.max(opening(stack, filling, record.clone(), &mut text, &mut out, 0));
            assert_eq!(plain, out);
            text[header_length(&control) + 8] ^= 1;
            opened = opened.max(opening(stack, filling, record.clone(), &mut text, &mut out, 11));
            text[header_length(&control) + 8] ^= 1;
        }
    }
    [sealed, opened]
}

/// Of the calls of a C host.
fn most_for_hosts(stack: &mut Stack, filling: u8, control: [u8; 2]) -> [usize; 4] {
    let [seal, open] = [kondrivai_seal as *const () as usize, kondrivai_open as *const () as usize];
    let [fresh_sender, fresh_receiver] = [kondrivai_fresh_sender as *const () as usize, kondrivai_fresh_receiver as *const () as usize];
    let sender = host::sender_buffer(&Sender::fresh([7; 16], 0, ADDRESS).1).expect("a sender that fits");
    let receivers = SIZES.map(|size| host::receiver_buffer(&Record::from(&Receiver::fresh([7; 16], 0, ADDRESS, size).1)).expect("a receiver that fits"));
    let (mut sealed, mut opened) = (0, 0);
    for length in 1..=MAX_BODY {
        let mut plain = plain(control, length);
        let (mut text, mut out) = (vec![0; plain.len() + ADDED], vec![0; plain.len()]);
        sealed = sealed.max(hosted(stack, filling, seal, &sender, &mut plain, &mut text));
        for receiver in &receivers {
            opened = opened.max(hosted(stack, filling, open, receiver, &mut text, &mut out));
            assert_eq!(plain, out);
            text[header_length(&control) + 8] ^= 1;
            opened = opened.max(hosted(stack, filling, open, receiver, &mut text, &mut out));
            text[header_length(&control) + 8] ^= 1;
        }
    }
    let made = [made(stack, filling, fresh_sender, host::SENDER_OCTETS), made(stack, filling, fresh_receiver, host::RECEIVER_OCTETS)];
    [made[0], made[1], sealed, opened]
}

/// Of splitting and joining.
fn most_for_fragments(stack: &mut Stack, filling: u8, control: [u8; 2]) -> [usize; 2] {
    let (_, sender) = Sender::fresh([7; 16], 0, ADDRESS);
    let (mut split, mut joined) = (0, 0);
    let mut out = vec![0; MAX_MESSAGE + MAX_FRAGMENTS * (header_length(&control) + ADDED)];
    for length in 1..=MAX_MESSAGE {
        let size = length.div_ceil(MAX_FRAGMENTS).next_multiple_of(2).max(MIN_SIZE);
        split = split.max(splitting(stack, filling, sender.clone(), size, &mut plain(control, length), &mut out));
    }
    for length in 1..=MAX_SIZE {
        let mut frame = plain([control[0], control[1] | MORE_FRAG], length);
        let mut joiner = Joiner::default();
        frame[22] = 0x10;
        assert!(joiner.join(&frame, 1, &mut []).is_ok());
        joiner.length = MAX_MESSAGE - length;
        for (fragment, more, answer) in [(0, MORE_FRAG, 0), (1, MORE_FRAG, 0), (1, 0, 0), (2, 0, 14)] {
            (frame[1], frame[22]) = (control[1] | more, 0x10 | fragment);
            joined = joined.max(joining(stack, filling, joiner.clone(), &mut frame, &mut out, answer));
        }
    }
    [split, joined]
}

/// Of adding, sealing and opening through a table. The second call of each is told: adding the same key again is refused, the frame sealed
/// again is done, and the frame opened again is a replay; one with a wrong code is tried too.
fn most_for_tables(stack: &mut Stack, filling: u8, control: [u8; 2]) -> [usize; 3] {
    let [add, seal, open] = [bench_table_add as *const () as usize, bench_table_seal as *const () as usize, bench_table_open as *const () as usize];
    let a1 = [0x11; 6];
    let (mut sealed, mut opened) = (0, 0);
    for length in 1..=MAX_BODY {
        let mut plain = plain(control, length);
        let (mut text, mut out) = (vec![0u8; plain.len() + ADDED], vec![0u8; plain.len()]);
        let frames = [address_of(&mut plain[..]), plain.len(), address_of(&mut text[..]), text.len()];
        sealed = sealed.max(with_table(stack, filling, seal, ADDRESS, a1, &frames, 0));
        let frames = [address_of(&mut text[..]), text.len(), address_of(&mut out[..]), out.len()];
        opened = opened.max(with_table(stack, filling, open, a1, ADDRESS, &frames, 10));
        assert_eq!(plain, out);
        text[header_length(&control) + 8] ^= 1;
        opened = opened.max(with_table(stack, filling, open, a1, ADDRESS, &frames, 11));
    }
    [with_table(stack, filling, add, ADDRESS, a1, &[], 17), sealed, opened]
}

fn main() {
    let mut stack = Box::new(Stack([0; STACK]));
    let mut most = [0; 11];
    // Two fillings: what a call writes in the lowest octet may be one of them.
    for (filling, control) in [0xa5, 0x5a].into_iter().flat_map(|filling| CONTROLS.map(|control| (filling, control))) {
        let [sealed, opened] = most_for_frames(&mut stack, filling, control);
        let [split, joined] = most_for_fragments(&mut stack, filling, control);
        let [table_add, table_seal, table_open] = most_for_tables(&mut stack, filling, control);
        let on_records = [sealed, opened, split, joined, table_add, table_seal, table_open];
        let these = [&on_records[..], &most_for_hosts(&mut stack, filling, control)].concat();
        most = std::array::from_fn(|which| most[which].max(these[which]));
    }
    let on_records = ["bench_ccmp_seal", "bench_ccmp_open", "bench_split", "bench_join", "bench_table_add", "bench_table_seal", "bench_table_open"];
    let on_buffers = ["kondrivai_fresh_sender", "kondrivai_fresh_receiver", "kondrivai_seal", "kondrivai_open"];
    for (name, octets) in on_records.into_iter().chain(on_buffers).zip(most) {
        println!("{name}: {octets} octets");
    }
}
