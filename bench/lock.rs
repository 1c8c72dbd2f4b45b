//! The turns of crates/bench_parts at Rust's own mutex. It prints a line for each number of threads:
//! `mutex THREADS TURNS NANOSECONDS`.
use std::sync::Mutex;
use std::thread;
use std::time::Instant;

/// The turns of all threads together.
const TIMED: u32 = 8_000_000;

fn turn(lock: &Mutex<(u64, u64)>, turns: u32) {
    for _ in 0..turns {
        let mut counts = lock.lock().unwrap();
        counts.0 = counts.0.wrapping_add(1);
        counts.1 = counts.1.wrapping_add(1);
    }
}

fn count(threads: u32, turns: u32) -> u64 {
    let lock = Mutex::new((0, 0));
    if threads == 1 {
        turn(&lock, turns);
    } else {
        thread::scope(|scope| {
            for _ in 0..threads {
                scope.spawn(|| turn(&lock, turns));
            }
        });
    }
    lock.into_inner().unwrap().0
}

fn main() {
    for threads in [1, 2, 4] {
        let start = Instant::now();
        let turns = count(threads, TIMED / threads);
        let nanos = start.elapsed().as_nanos();
        println!("mutex {threads} {turns} {nanos}");
    }
}
