//! Times calls of the Rust crate `jsonptr`, a case a line: a name, a call and its arguments in, with tabs
//! between them; the name, and the least time of one call in picoseconds out. The cases are those of
//! tools/bench/cases.py. With words `resolve POINTER` it is a program of one run, to be timed as a whole.

mod changes;
mod works;

use jsonptr::Pointer;
use std::hint::black_box;
use std::io::{self, Read};
use std::time::{Duration, Instant};

const SAMPLES: usize = 11;
const SAMPLE: Duration = Duration::from_millis(4);
/// How many batches a sample has at most.
const BATCHES: u64 = 100;

fn main() {
    let words: Vec<String> = std::env::args().skip(1).collect();
    if let [command, pointer] = words.as_slice() {
        assert_eq!(command, "resolve");
        return resolve(pointer);
    }
    for line in io::stdin().lines() {
        let line = line.expect("a line");
        let words: Vec<&str> = line.split('\t').collect();
        let least = works::least_of(&words[1..]).or_else(|| changes::least_of(&words[1..]));
        println!("{}\t{}", words[0], least.expect("a case"));
    }
}

/// The whole program: a document read, a value found, a line written.
fn resolve(pointer: &str) {
    let pointer = Pointer::parse(pointer).expect("a pointer");
    let mut bytes = Vec::new();
    io::stdin().read_to_end(&mut bytes).expect("input");
    let document: serde_json::Value = serde_json::from_slice(&bytes).expect("JSON");
    println!("{}", pointer.resolve(&document).expect("a value"));
}

fn picoseconds(spent: Duration, turns: u64, operations: u64) -> u64 {
    (spent.as_nanos() * 1000 / u128::from(turns * operations)) as u64
}

/// The least time of one of a turn's operations.
pub fn least_of_turns<R>(operations: u64, mut turn: impl FnMut() -> R) -> u64 {
    let mut turns = 1;
    let mut sample = |turns: u64| {
        let start = Instant::now();
        for _ in 0..turns {
            black_box(turn());
        }
        start.elapsed()
    };
    while sample(turns) < SAMPLE {
        turns *= 2;
    }
    (0..SAMPLES).map(|_| picoseconds(sample(turns), turns, operations)).min().unwrap()
}

/// The same, where each turn uses up what `make` makes outside the time.
pub fn least_of_batches<S>(
    operations: u64,
    mut make: impl FnMut() -> S,
    mut turn: impl FnMut(&mut S),
) -> u64 {
    let mut sample = || {
        let (mut spent, mut turns) = (Duration::ZERO, 0);
        while spent < SAMPLE && turns < BATCHES {
            let mut state = make();
            let start = Instant::now();
            turn(black_box(&mut state));
            spent += start.elapsed();
            black_box(state);
            turns += 1;
        }
        picoseconds(spent, turns, operations)
    };
    sample();
    (0..SAMPLES).map(|_| sample()).min().unwrap()
}
