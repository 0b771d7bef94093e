//! Compares the proved code with `second` call by call, on any record, frame and room: the answer with its parts, the record handed back and
//! every octet of the room.
//!
//!   calls [CALLS [SEED]]        784,000 calls and seed 1 where none is given; a seed gives 250 calls on frames, 80 on fragments and 160 on
//!                               tables; each on frames is made on a record in a buffer too, as a C host makes it

mod air;
mod any;
mod call;
mod fragments;
mod generate;
mod host;
mod program;
mod seen;
mod tables;

use call::Calls;
use fragments::Fragments;
use generate::List;
use seen::{Seen, DUE};
use tables::Tables;

const ON_FRAMES: usize = 250;
const ON_FRAGMENTS: usize = 80;
const ON_TABLES: usize = 160;
const UP_TO_TABLES: usize = ON_FRAMES + ON_FRAGMENTS;
const LIST: usize = UP_TO_TABLES + ON_TABLES;
/// A run of so many calls has to show all that is due often enough.
const WHOLE_RUN: usize = 1_600 * LIST;
const OFTEN: usize = 200;
/// And so many calls on tables with no entry in use, one, all but one or all.
const AT_LIMITS: usize = 50_000;
/// And so many on records in buffers.
const HOSTED: usize = 300_000;

fn stop(words: String) -> ! {
    eprintln!("{words}");
    std::process::exit(1);
}

fn main() {
    let numbers: Vec<u64> = std::env::args().skip(1).map(|argument| argument.parse().unwrap_or_else(|_| stop("calls [CALLS [SEED]]".into()))).collect();
    let calls = numbers.first().map_or(WHOLE_RUN, |&calls| calls as usize);
    let first_seed = numbers.get(1).copied().unwrap_or(1);
    let lists = calls.div_ceil(LIST);
    let mut seen = Seen::default();
    let mut hosted = 0;
    for seed in first_seed..first_seed + lists as u64 {
        let (mut on_frames, mut on_fragments, mut on_tables) = (List::new(seed), Fragments::new(seed), Tables::new(seed));
        for number in 0..LIST {
            let list: &mut dyn Calls = match number {
                0..ON_FRAMES => &mut on_frames,
                ON_FRAMES..UP_TO_TABLES => &mut on_fragments,
                _ => &mut on_tables,
            };
            let call = list.next_call();
            let (ours, theirs) = (call.by_proved(), call.by_second());
            if ours != theirs {
                stop(format!("seed {seed}, call {number}: {call}\nproved: {ours}\nsecond: {theirs}"));
            }
            match host::same(&call, &ours) {
                Ok(made) => hosted += usize::from(made),
                Err(words) => stop(format!("seed {seed}, call {number}: {call}\n{words}")),
            }
            seen.call(&call, &ours);
            list.took(&call, &ours);
        }
    }
    let calls = lists * LIST;
    for (what, numbers) in DUE {
        println!("{what} (times): {}", numbers.iter().map(|&number| format!("{number} ({})", seen.times(what, number))).collect::<Vec<_>>().join(", "));
        if let Some(number) = numbers.iter().find(|&&number| calls >= WHOLE_RUN && seen.times(what, number) < OFTEN) {
            stop(format!("{what} {number} was seen fewer than {OFTEN} times"));
        }
    }
    let at_limits = seen.at_limits();
    println!("calls on tables with 0, 1, 15 or 16 entries in use: {at_limits}");
    if calls >= WHOLE_RUN && at_limits < AT_LIMITS {
        stop(format!("these are fewer than {AT_LIMITS}"));
    }
    println!("calls through a buffer: {hosted}");
    if calls >= WHOLE_RUN && hosted < HOSTED {
        stop(format!("these are fewer than {HOSTED}"));
    }
    println!("calls on buffers with another length or octet: {}", host::buffers(first_seed));
    println!("{calls} calls from seed {first_seed} on: all alike");
}
