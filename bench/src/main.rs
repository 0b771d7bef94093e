//! Times the proved code against `second` on the same work in one run. Each figure is the least of many runs, taken in turn. Given a number, it
//! times frames alone, so many in each run, opened with windows of size 1.

use second::aes::Aes128;
use second::ccm::Ccm;
use second::fragment::{Joiner, MAX_FRAGMENTS, MAX_MESSAGE};
use second::frame::{Receiver, Sender, ADDED, MAX_BODY};
use second::window::{Window, SIZES};
use std::hint::black_box;
use std::time::Instant;

const RUNS: usize = 21;

/// The records and frames that sealing, opening and the fragments are timed on.
const KEY_ID: u8 = 2;
const ADDRESS: [u8; 6] = [2, 0, 0, 0, 0, 1];
const LAST: u64 = 0x0102_0304_0506;
const HEADER: usize = 26;

/// Frames sealed or opened in a run where no number is given, and how many of them are opened one after another, by a record as it was before the
/// first.
const FRAMES: usize = 2_000;
const ROW: usize = 50;

/// Messages split and joined in a run, the size of their fragments, and the length of a sealed one.
const PICTURES: usize = 1_000;
const SIZE: usize = MAX_MESSAGE / MAX_FRAGMENTS;
const SEALED: usize = HEADER + SIZE + ADDED;

/// The least time of each work, in nanoseconds.
fn least<const N: usize>(mut works: [&mut dyn FnMut(); N]) -> [f64; N] {
    let mut least = [f64::MAX; N];
    for _ in 0..RUNS {
        for (work, least) in works.iter_mut().zip(&mut least) {
            let start = Instant::now();
            work();
            *least = least.min(start.elapsed().as_nanos() as f64);
        }
    }
    least
}

/// The least time of each of the two.
fn compare(mut ours: impl FnMut(), mut theirs: impl FnMut()) -> [f64; 2] {
    least([&mut ours, &mut theirs])
}

fn report(name: &str, pieces: usize, [ours, theirs]: [f64; 2]) {
    let pieces = pieces as f64;
    println!("{name:<36} {:>9.1} ns {:>9.1} ns {:>6.2}", ours / pieces, theirs / pieces, ours / theirs);
}

fn aes() {
    const BLOCKS: usize = 100_000;
    let key: [u8; 16] = std::array::from_fn(|i| i as u8);
    let table = proved::table();
    let schedule = proved::expand(&table, &key);
    let cipher = Aes128::new(&key);
    assert_eq!(schedule, cipher.expanded());

    let (mut ours, mut theirs) = ([0u8; 16], [0u8; 16]);
    let times = compare(
        || (0..BLOCKS).for_each(|_| ours = proved::encrypt(&table, &schedule, &ours)),
        || (0..BLOCKS).for_each(|_| theirs = cipher.encrypt(&theirs)),
    );
    assert_eq!(ours, theirs);
    report("aes: a chained block", BLOCKS, times);

    let times = compare(
        || (0..BLOCKS as u128).for_each(|i| _ = black_box(proved::encrypt(&table, &schedule, &i.to_be_bytes()))),
        || (0..BLOCKS as u128).for_each(|i| _ = black_box(cipher.encrypt(&i.to_be_bytes()))),
    );
    report("aes: a block by itself", BLOCKS, times);

    let times = compare(
        || (0..BLOCKS as u128).for_each(|i| _ = black_box(proved::expand(&table, &i.to_be_bytes()))),
        || (0..BLOCKS as u128).for_each(|i| _ = black_box(Aes128::new(&i.to_be_bytes()))),
    );
    report("aes: a key schedule", BLOCKS, times);

    let [filling] = least([&mut || (0..BLOCKS).for_each(|_| _ = black_box(proved::table()))]);
    println!("{:<36} {:>9.1} ns", "aes: a table of products", filling / BLOCKS as f64);
}

/// Whole messages with 22 octets of authenticated data, the key expanded for each.
fn ccm(length: usize) {
    const MESSAGES: usize = 2_000;
    let key: [u8; 16] = std::array::from_fn(|i| i as u8);
    let nonce: [u8; 13] = std::array::from_fn(|i| 0x10 + i as u8);
    let aad: [u8; 22] = std::array::from_fn(|i| 0x80 + i as u8);
    let body: Vec<u8> = (0..length).map(|i| (i * 7) as u8).collect();
    let (mut ours, mut theirs) = (vec![0; length + 8], vec![0; length + 8]);

    let times = compare(
        || (0..MESSAGES).for_each(|_| _ = black_box(proved::ccm_seal(black_box(&key), &nonce, &aad, &body, &mut ours))),
        || (0..MESSAGES).for_each(|_| _ = black_box(Ccm::new(black_box(&key)).seal(&nonce, &aad, &body, &mut theirs))),
    );
    assert_eq!(ours, theirs);
    report(&format!("ccm: {length} octets sealed"), MESSAGES, times);

    let text = ours.clone();
    let times = compare(
        || (0..MESSAGES).for_each(|_| _ = black_box(proved::ccm_open(black_box(&key), &nonce, &aad, &text, &mut ours))),
        || (0..MESSAGES).for_each(|_| _ = black_box(Ccm::new(black_box(&key)).open(&nonce, &aad, &text, &mut theirs))),
    );
    assert_eq!(ours[..length], body);
    assert_eq!(theirs[..length], body);
    report(&format!("ccm: {length} octets opened"), MESSAGES, times);
}

/// A sender and a receiver as they are before each call, or each row of them.
fn records(size: u8) -> (Sender, Receiver) {
    let key: [u8; 16] = std::array::from_fn(|i| i as u8);
    let sender = Sender { key, key_id: KEY_ID, address: ADDRESS, last_number: LAST };
    (sender, Receiver { windows: std::array::from_fn(|_| Window::at(LAST)), ..Receiver::fresh(key, KEY_ID, ADDRESS, size).1 })
}

/// A QoS data frame with so many octets after its header.
fn plain(length: usize) -> Vec<u8> {
    let mut plain: Vec<u8> = (0..HEADER + length).map(|i| (i * 7) as u8).collect();
    plain[..2].copy_from_slice(&[0x88, 0x01]);
    plain[10..16].copy_from_slice(&ADDRESS);
    plain
}

/// Frames with a body of this length, the key expanded for each.
fn frame(length: usize, frames: usize, sizes: &[u8]) {
    let (sender, _) = records(1);
    let plain = plain(length);
    let (mut ours, mut theirs) = (vec![0; plain.len() + ADDED], vec![0; plain.len() + ADDED]);

    let times = compare(
        || (0..frames).for_each(|_| assert_eq!(proved::seal(&mut black_box(&sender).clone(), &plain, &mut ours)[0], 0)),
        || (0..frames).for_each(|_| assert!(black_box(&sender).clone().seal(&plain, &mut theirs).is_ok())),
    );
    assert_eq!(ours, theirs);
    report(&format!("frame: {length} octets sealed"), frames, times);
    sizes.iter().for_each(|&size| opening(&plain, size, frames / ROW));
}

/// A row of these frames, in order, again and again.
fn opening(plain: &[u8], size: u8, rows: usize) {
    let (mut sender, receiver) = records(size);
    let record = proved::Record::from(&receiver);
    let mut row = vec![vec![0; plain.len() + ADDED]; ROW];
    row.iter_mut().for_each(|sealed| assert!(sender.seal(plain, sealed).is_ok()));
    let (mut ours, mut theirs) = (vec![0; plain.len()], vec![0; plain.len()]);

    let times = compare(
        || {
            for mut record in (0..rows).map(|_| black_box(&record).clone()) {
                row.iter().for_each(|sealed| assert_eq!(proved::open(&mut record, sealed, &mut ours)[0], 0));
            }
        },
        || {
            for mut receiver in (0..rows).map(|_| black_box(&receiver).clone()) {
                row.iter().for_each(|sealed| assert!(receiver.open(sealed, &mut theirs).is_ok()));
            }
        },
    );
    assert_eq!([&ours, &theirs], [plain; 2]);
    report(&format!("frame: {} octets opened, size {size}", plain.len() - HEADER), rows * ROW, times);
}

/// The greatest message as 16 fragments: cut and sealed in one call, and its plain fragments sealed one by one.
fn splitting(message: &[u8], fragments: &[(Vec<u8>, u64)]) {
    let (sender, _) = records(1);
    let [mut ours, mut theirs, mut our_frames, mut their_frames] = [(); 4].map(|()| vec![0; MAX_FRAGMENTS * SEALED]);
    let [split, their_split, sealed, their_sealed] = least([
        &mut || (0..PICTURES).for_each(|_| assert_eq!(proved::split(&mut black_box(&sender).clone(), message, SIZE, &mut ours)[0], 0)),
        &mut || (0..PICTURES).for_each(|_| assert!(black_box(&sender).clone().split(message, SIZE, &mut theirs).is_ok())),
        &mut || {
            for mut sender in (0..PICTURES).map(|_| black_box(&sender).clone()) {
                let rooms = our_frames.chunks_mut(SEALED);
                fragments.iter().zip(rooms).for_each(|((plain, _), room)| assert_eq!(proved::seal(&mut sender, plain, room)[0], 0));
            }
        },
        &mut || {
            for mut sender in (0..PICTURES).map(|_| black_box(&sender).clone()) {
                let rooms = their_frames.chunks_mut(SEALED);
                fragments.iter().zip(rooms).for_each(|((plain, _), room)| assert!(sender.seal(plain, room).is_ok()));
            }
        },
    ]);
    assert_eq!([&theirs, &our_frames, &their_frames], [&ours; 3]);
    report("fragments: 2304 octets split into 16", PICTURES, [split, their_split]);
    report("frame: 144 octets sealed, 16 of them", PICTURES, [sealed, their_sealed]);
    println!("{:<36} {:>25} {:>6.2}", "fragments: split over sealed, proved", "", split / sealed);
}

/// The fragments, opened before, put together.
fn joining(message: &[u8], fragments: &[(Vec<u8>, u64)]) {
    let (mut our_joiner, mut their_joiner) = (Joiner::default(), Joiner::default());
    let (mut ours, mut theirs) = (vec![0; MAX_MESSAGE], vec![0; MAX_MESSAGE]);
    let calls = || (0..PICTURES).flat_map(|_| black_box(fragments));
    let times = compare(
        || calls().for_each(|(frame, number)| assert_eq!(proved::join(&mut our_joiner, frame, *number, &mut ours)[0], 0)),
        || calls().for_each(|(frame, number)| assert!(their_joiner.join(frame, *number, &mut theirs).is_ok())),
    );
    assert_eq!([&ours, &theirs], [&message[HEADER..]; 2]);
    report("fragments: 16 joined", PICTURES, times);
}

fn fragments() {
    let ((mut sender, mut receiver), message) = (records(1), plain(MAX_MESSAGE));
    let mut sealed = vec![0; MAX_FRAGMENTS * SEALED];
    assert!(sender.split(&message, SIZE, &mut sealed).is_ok());
    let opened = sealed.chunks(SEALED).map(|fragment| {
        let mut plain = vec![0; SEALED - ADDED];
        let number = receiver.open(fragment, &mut plain).expect("a fragment that opens").number;
        (plain, number)
    });
    let fragments: Vec<(Vec<u8>, u64)> = opened.collect();
    splitting(&message, &fragments);
    joining(&message, &fragments);
}

fn main() {
    let given = std::env::args().nth(1).map(|words| words.parse().expect("a number of frames"));
    let frames: usize = given.unwrap_or(FRAMES);
    let sizes = if given.is_none() { &SIZES[..] } else { &[1] };
    assert_eq!(frames % ROW, 0, "frames are opened in rows of {ROW}");
    println!("{:<36} {:>12} {:>12} {:>6}", "work", "proved", "second", "ratio");
    if given.is_none() {
        aes();
        [64, 1_500, MAX_BODY].into_iter().for_each(ccm);
    }
    [64, 1_500, MAX_BODY].into_iter().for_each(|length| frame(length, frames, sizes));
    if given.is_none() {
        fragments();
    }
}
