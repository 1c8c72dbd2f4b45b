//! The tests of crates/bench_parts in plain Rust, alone and while another thread stores. The row `plain` does the same work as
//! `vec_words`: the same threads, table and words with a bit and a stamp, and a pass that keeps the greatest stamp. The row `load`
//! only loads the word. It prints a line for each: `plain|load alone|beside TESTS NANOSECONDS SET KNOWN`.
use std::sync::atomic::{AtomicU64, Ordering::SeqCst};
use std::thread;
use std::time::Instant;

/// The tests, where they are timed.
const TIMED_TESTS: u32 = 100_000_000;

/// The words of all vectors, with the number that was committed last.
struct Vectors {
    span: usize,
    table: Box<[AtomicU64]>,
}

/// What a tester knows.
struct Pass {
    owner: u8,
    known: u32,
}

impl Vectors {
    fn start(conns: u8, len: u32) -> Vectors {
        let span = (len as usize).div_ceil(32);
        let table = (0..1 + usize::from(conns) * span)
            .map(|_| AtomicU64::new(0))
            .collect();
        Vectors { span, table }
    }

    fn word(&self, conn: u8, word: u32) -> &AtomicU64 {
        &self.table[1 + usize::from(conn - 1) * self.span + word as usize]
    }

    // The bit, and the number that it is of.
    fn test(&self, pass: &mut Pass, index: u32) -> (bool, u32) {
        let found = self.word(pass.owner, index / 32).load(SeqCst);
        let stamp = (found >> 32) as u32;
        if pass.known < stamp {
            pass.known = stamp;
        }
        ((found >> (index % 32)) & 1 == 1, pass.known)
    }

    fn store_word(&self, number: u32, conn: u8, word: u32, bits: u32) {
        let content = u64::from(number) << 32 | u64::from(bits);
        self.word(conn, word).store(content, SeqCst);
    }

    fn commit(&self, number: u32) {
        self.table[0].store(u64::from(number), SeqCst);
    }
}

// Tests indices 0 to 63 in turn.
#[inline(never)]
fn count_set(vectors: &Vectors, pass: &mut Pass, tests: u32) -> u32 {
    let mut set = 0u32;
    for k in 0..tests {
        if vectors.test(pass, k % 64).0 {
            set = set.wrapping_add(1);
        }
    }
    set
}

// The same by the word alone.
#[inline(never)]
fn count_loaded(vectors: &Vectors, _pass: &mut Pass, tests: u32) -> u32 {
    let mut set = 0u32;
    for k in 0..tests {
        let index = k % 64;
        if (vectors.table[1 + index as usize / 32].load(SeqCst) >> (index % 32)) & 1 == 1 {
            set = set.wrapping_add(1);
        }
    }
    set
}

// Calls that store word 0, until the tests are done.
fn make_calls(vectors: &Vectors, race: &Race) {
    race.begun.store(1, SeqCst);
    for made in 0..u32::MAX {
        if race.done.load(SeqCst) > 0 {
            return;
        }
        vectors.store_word(made + 1, 1, 0, made);
        vectors.commit(made + 1);
    }
}

/// Whether the calls have begun, and whether the tests are done.
struct Race {
    begun: AtomicU64,
    done: AtomicU64,
}

fn time_tests(
    vectors: &Vectors,
    race: &Race,
    count: fn(&Vectors, &mut Pass, u32) -> u32,
    beside: bool,
) -> (u32, u32, u128) {
    let mut pass = Pass { owner: 1, known: 0 };
    while beside && race.begun.load(SeqCst) == 0 {}
    let start = Instant::now();
    let set = count(vectors, &mut pass, TIMED_TESTS);
    let nanos = start.elapsed().as_nanos();
    race.done.store(1, SeqCst);
    (set, pass.known, nanos)
}

fn main() {
    let rows: [(&str, fn(&Vectors, &mut Pass, u32) -> u32); 2] =
        [("plain", count_set), ("load", count_loaded)];
    for (name, count) in rows {
        for (case, beside) in [("alone", false), ("beside", true)] {
            let vectors = Vectors::start(1, 64);
            let race = Race {
                begun: AtomicU64::new(0),
                done: AtomicU64::new(0),
            };
            let (set, known, nanos) = thread::scope(|scope| {
                let tests = scope.spawn(|| time_tests(&vectors, &race, count, beside));
                if beside {
                    make_calls(&vectors, &race);
                }
                tests.join().unwrap()
            });
            println!("{name} {case} {TIMED_TESTS} {nanos} {set} {known}");
        }
    }
}
