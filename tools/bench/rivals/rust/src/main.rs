//! `serde_json` and `toml_edit`, for `rivals.py`.
//!
//!     rust_rivals serde_json JOB FILE ROUNDS WORD..
//!     rust_rivals serde_json cases - ROUNDS < CASES
//!     rust_rivals toml_edit change FILE ROUNDS POINTER VALUE
//!
//! A job is `read`, `find POINTER`, `change POINTER VALUE` or `lines POINTER`.

use serde_json::Value;
use std::hint::black_box;
use std::time::{Duration, Instant};
use std::{env, fs, io};

const SAMPLES: usize = 11;
const SAMPLE: Duration = Duration::from_millis(4);
const BATCHES: u32 = 100;

fn main() {
    let words: Vec<String> = env::args().skip(1).collect();
    let rounds: u32 = words[3].parse().expect("a number");
    if words[1] == "cases" {
        return io::stdin().lines().for_each(|line| run_case(&line.expect("a line"), rounds != 0));
    }
    let text = fs::read(&words[2]).expect("a file");
    let rest: Vec<&str> = words[4..].iter().map(String::as_str).collect();
    match (words[0].as_str(), words[1].as_str()) {
        ("serde_json", "read") => run(rounds, || read(&text).is_null().to_string()),
        ("serde_json", "find") => run(rounds, || find(&text, rest[0])),
        ("serde_json", "change") => run(rounds, || change(&text, rest[0], rest[1])),
        ("serde_json", "lines") => run(rounds, || lines(&text, rest[0])),
        ("toml_edit", "change") => run(rounds, || change_toml(&text, rest[0], rest[1])),
        _ => panic!("no such job"),
    }
}

/// With no rounds, does a job once, and writes its result. Else writes the least nanoseconds of all rounds. There is none
/// after a second.
fn run(rounds: u32, job: impl Fn() -> String) {
    if rounds == 0 {
        return print!("{}", job());
    }
    keep_memory();
    let (first, mut least) = (processor_time(), u64::MAX);
    for round in 0..rounds {
        let start = processor_time();
        if round > 0 && start - first > 1_000_000_000 {
            break;
        }
        black_box(job());
        least = least.min(processor_time() - start);
    }
    println!("{least}");
}

/// Makes memory that is freed stay with the process, as the programs in C++ do.
fn keep_memory() {
    extern "C" {
        fn mallopt(parameter: i32, value: i32) -> i32;
    }
    const TRIM_THRESHOLD: i32 = -1;
    const MMAP_THRESHOLD: i32 = -3;
    // glibc, whose `malloc` Rust calls.
    assert!(unsafe { mallopt(TRIM_THRESHOLD, 1 << 30) == 1 && mallopt(MMAP_THRESHOLD, 1 << 25) == 1 });
}

/// Returns the processor time of this process in nanoseconds.
fn processor_time() -> u64 {
    #[repr(C)]
    struct Time {
        seconds: i64,
        nanoseconds: i64,
    }
    extern "C" {
        fn clock_gettime(clock: i32, time: *mut Time) -> i32;
    }
    const PROCESS: i32 = 2;
    let mut time = Time { seconds: 0, nanoseconds: 0 };
    // Linux on 64 bits: the clock of the process.
    assert_eq!(unsafe { clock_gettime(PROCESS, &mut time) }, 0);
    time.seconds as u64 * 1_000_000_000 + time.nanoseconds as u64
}

fn read(text: &[u8]) -> Value {
    serde_json::from_slice(text).expect("JSON")
}

fn find(text: &[u8], pointer: &str) -> String {
    read(text).pointer(pointer).expect("a value").to_string()
}

fn change(text: &[u8], pointer: &str, value: &str) -> String {
    let mut document = read(text);
    *document.pointer_mut(pointer).expect("a value") = read(value.as_bytes());
    document.to_string()
}

fn lines(text: &[u8], pointer: &str) -> String {
    let mut out = String::new();
    for line in text.split(|byte| *byte == b'\n').filter(|line| !line.is_empty()) {
        out += &find(line, pointer);
        out.push('\n');
    }
    out
}

fn change_toml(text: &[u8], pointer: &str, value: &str) -> String {
    let text = std::str::from_utf8(text).expect("UTF-8");
    let mut document: toml_edit::Document = text.parse().expect("TOML");
    let mut item = document.as_item_mut();
    for token in pointer.split('/').skip(1) {
        item = match token.parse::<usize>() {
            Ok(index) => &mut item[index],
            Err(_) => &mut item[token],
        };
    }
    // The spaces and the comment after the old value stay.
    let decor = item.as_value().expect("a value").decor().clone();
    let mut new: toml_edit::Value = value.parse().expect("a value");
    *new.decor_mut() = decor;
    *item = toml_edit::value(new);
    document.to_string()
}

/// Runs or times a case of `cases.py`.
fn run_case(line: &str, is_timed: bool) {
    let words: Vec<&str> = line.split('\t').collect();
    let [name, call, _, text, pointer, value, copies] = words[..] else { panic!("a case") };
    let (mut document, value) = (read(text.as_bytes()), read(value.as_bytes()));
    if call == "delete" {
        return;
    }
    let Some(there) = document.pointer_mut(pointer) else { return };
    if !is_timed {
        if call == "resolve" {
            return println!("{name}\t{there}");
        }
        *there = value;
        return println!("{name}\t{document}");
    }
    let least = if call == "resolve" {
        least_of_turns(|| black_box(&document).pointer(black_box(pointer)).is_some())
    } else {
        let copies = copies.parse().expect("a number");
        least_of_batches(copies, || vec![(document.clone(), Some(value.clone())); copies as usize], |states| {
            for (document, value) in states {
                if let Some(there) = black_box(document).pointer_mut(pointer) {
                    *there = value.take().expect("a value");
                }
            }
        })
    };
    println!("{name}\t{least}");
}

fn picoseconds(spent: Duration, turns: u64) -> u64 {
    (spent.as_nanos() * 1000 / u128::from(turns)) as u64
}

fn least_of_turns<R>(mut turn: impl FnMut() -> R) -> u64 {
    let mut sample = |turns: u64| {
        let start = Instant::now();
        for _ in 0..turns {
            black_box(turn());
        }
        start.elapsed()
    };
    let mut turns = 1;
    while sample(turns) < SAMPLE {
        turns *= 2;
    }
    (0..SAMPLES).map(|_| picoseconds(sample(turns), turns)).min().expect("a sample")
}

/// The same for one of some operations, where each turn uses up what `make` makes outside the time.
fn least_of_batches<S>(operations: u64, mut make: impl FnMut() -> S, mut turn: impl FnMut(&mut S)) -> u64 {
    let mut sample = || {
        let (mut spent, mut turns) = (Duration::ZERO, 0);
        while spent < SAMPLE && turns < BATCHES {
            let mut state = make();
            let start = Instant::now();
            turn(black_box(&mut state));
            spent += start.elapsed();
            black_box(state);
            turns += 1;
        }
        picoseconds(spent, u64::from(turns) * operations)
    };
    sample();
    (0..SAMPLES).map(|_| sample()).min().expect("a sample")
}
