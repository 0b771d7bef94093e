//! Times the calls that a C host makes, on a record in a buffer: beside the call beneath, whose record is lent by its fields, the same call compiled
//! with it, and the call in libkondrivai.a, which is compiled by itself. The least of many runs, all in turn. Fails where the second takes over
//! 60 ns more than the first on 64 octets or where it is refused; on longer frames so little is lost in the noise.

use proved::{host, Record};
use second::frame::{Receiver, Sender, ADDED};
use second::window::SIZES;
use std::hint::black_box;
use std::time::Instant;

const RUNS: usize = 401;
/// Calls in a run, from one record.
const ROW: usize = 64;
/// Nanoseconds that a call may take more.
const MOST: f64 = 60.0;

const KEY: [u8; 16] = [7; 16];
const ADDRESS: [u8; 6] = [2, 0, 0, 0, 0, 1];
const HEADER: usize = 26;
/// So many octets of a frame are refused with 2.
const SHORT: usize = 20;

type Call = fn(&mut [u8], &[u8], &mut [u8]) -> u32;

/// The least time of each work, in nanoseconds for each call of its row.
fn least(mut works: [&mut dyn FnMut(); 3]) -> [f64; 3] {
    let mut least = [f64::MAX; 3];
    for _ in 0..RUNS {
        for (work, least) in works.iter_mut().zip(&mut least) {
            let start = Instant::now();
            work();
            *least = least.min(start.elapsed().as_nanos() as f64 / ROW as f64);
        }
    }
    least
}

/// Gives what the buffer takes more.
fn report(name: &str, [beneath, beside, linked]: [f64; 3]) -> f64 {
    println!("{name:<36} {beneath:>9.1} ns {beside:>9.1} ns {:>7.1} ns {linked:>9.1} ns", beside - beneath);
    beside - beneath
}

fn plain(length: usize) -> Vec<u8> {
    let mut plain: Vec<u8> = (0..HEADER + length).map(|i| (i * 7) as u8).collect();
    plain[..2].copy_from_slice(&[0x88, 0x01]);
    plain[10..16].copy_from_slice(&ADDRESS);
    plain
}

/// A row of calls on a buffer.
fn row(call: Call, buffer: &[u8], frames: &[Vec<u8>], out: &mut [u8], answer: u32) {
    let mut buffer = black_box(buffer).to_vec();
    frames.iter().for_each(|frame| assert_eq!(call(&mut buffer, frame, out), answer));
}

fn sealing(name: &str, frame: Vec<u8>, answer: u32) -> f64 {
    let sender = Sender::fresh(KEY, 2, ADDRESS).1;
    let buffer = host::sender_buffer(&sender).expect("a sender that fits");
    let [mut fields, mut beside, mut linked] = [(); 3].map(|()| vec![0; frame.len() + ADDED]);
    let frames = vec![frame; ROW];
    let times = least([
        &mut || {
            let mut sender = black_box(&sender).clone();
            frames.iter().for_each(|frame| assert_eq!(proved::seal(&mut sender, frame, &mut fields)[0], answer.into()));
        },
        &mut || row(host::seal_beside, &buffer, &frames, &mut beside, answer),
        &mut || row(host::seal, &buffer, &frames, &mut linked, answer),
    ]);
    assert_eq!([&beside, &linked], [&fields; 2]);
    report(name, times)
}

/// These frames in order.
fn opening(name: &str, size: u8, frames: &[Vec<u8>], answer: u32) -> f64 {
    let record = Record::from(&Receiver::fresh(KEY, 2, ADDRESS, size).1);
    let buffer = host::receiver_buffer(&record).expect("a receiver that fits");
    let [mut fields, mut beside, mut linked] = [(); 3].map(|()| vec![0; frames[0].len()]);
    let times = least([
        &mut || {
            let mut record = black_box(&record).clone();
            frames.iter().for_each(|frame| assert_eq!(proved::open(&mut record, frame, &mut fields)[0], answer.into()));
        },
        &mut || row(host::open_beside, &buffer, frames, &mut beside, answer),
        &mut || row(host::open, &buffer, frames, &mut linked, answer),
    ]);
    assert_eq!([&beside, &linked], [&fields; 2]);
    report(name, times)
}

fn main() {
    println!("{:<36} {:>12} {:>12} {:>10} {:>12}", "work", "beneath", "buffer", "more", "libkondrivai");
    let mut more = Vec::new();
    for length in [64, 1_500, 2_296] {
        let (plain, mut sender) = (plain(length), Sender::fresh(KEY, 2, ADDRESS).1);
        let mut sealed = vec![vec![0; plain.len() + ADDED]; ROW];
        sealed.iter_mut().for_each(|room| assert!(sender.seal(&plain, room).is_ok()));
        let seals = sealing(&format!("{length} octets sealed"), plain, 0);
        let opens = SIZES.map(|size| opening(&format!("{length} octets opened, size {size}"), size, &sealed, 0));
        if length == 64 {
            more.extend([seals, opens[0], opens[1]]);
        }
    }
    let short = plain(0)[..SHORT].to_vec();
    more.push(sealing("refused with 2, to be sealed", short.clone(), 2));
    more.extend(SIZES.map(|size| opening(&format!("refused with 2, to be opened, size {size}"), size, &vec![short.clone(); ROW], 2)));
    if more.into_iter().any(|more| more > MOST) {
        eprintln!("a call through a buffer takes over {MOST} ns more");
        std::process::exit(1);
    }
}
