//! The rounds of crates/bench_parts in plain Rust: with a lock word by hand (a load, a compare_exchange and a fetch_sub), and with Rust's
//! own mutex, each thread with one of its own. It prints a line for each and each number of threads: `hand|mutex THREADS ROUNDS NANOSECONDS`.
use std::hint::black_box;
use std::sync::Mutex;
use std::sync::atomic::{AtomicU64, Ordering::SeqCst};
use std::thread;
use std::time::Instant;

/// The rounds of all threads together.
const TIMED: u32 = 40_000_000;

const EXCL: u64 = 9_223_372_036_854_775_808;

/// What one thread alone works on, in cache lines of its own.
#[repr(align(256))]
struct Own<T>(T);

fn by_hand(word: &AtomicU64, rounds: u32) -> u64 {
    let mut granted = 0;
    for _ in 0..rounds {
        let seen = word.load(SeqCst);
        if seen == 0 && word.compare_exchange(seen, EXCL, SeqCst, SeqCst).is_ok() {
            word.fetch_sub(EXCL, SeqCst);
            granted += 1;
        }
    }
    granted
}

fn by_mutex(lock: &Mutex<u64>, rounds: u32) -> u64 {
    for _ in 0..rounds {
        *lock.lock().unwrap() += 1;
    }
    u64::from(rounds)
}

fn timed<T: Sync>(name: &str, threads: u32, new: impl Fn() -> T, run: impl Fn(&T, u32) -> u64 + Sync) {
    let owns: Vec<Own<T>> = (0..threads).map(|_| Own(new())).collect();
    let start = Instant::now();
    let rounds: u64 = thread::scope(|scope| {
        let run = &run;
        let others: Vec<_> = owns[1..]
            .iter()
            .map(|own| scope.spawn(move || run(&own.0, TIMED / threads)))
            .collect();
        let mine = run(&owns[0].0, TIMED / threads);
        mine + others.into_iter().map(|other| other.join().unwrap()).sum::<u64>()
    });
    println!("{name} {threads} {} {}", black_box(rounds), start.elapsed().as_nanos());
}

fn main() {
    for threads in [1, 2, 4] {
        timed("hand", threads, || AtomicU64::new(0), by_hand);
        timed("mutex", threads, || Mutex::new(0), by_mutex);
    }
}
