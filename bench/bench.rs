//! Times single calls of the port beside the crate clru: the same commands for each, all in one run. A time is processor time, so that a
//! busy machine disturbs it little.

use clru::CLruCache;
use std::hash::{BuildHasher, BuildHasherDefault, Hash, Hasher, RandomState};
use std::hint::black_box;
use std::num::NonZeroUsize;
use weavestall::{ClaimsCache, Put};

const SIZES: [u64; 5] = [16, 64, 256, 1024, 4096];
const ROUNDS: usize = 7;

/// Nanoseconds that this process has had a processor for: other programs on the machine do not count.
fn cpu_time() -> u64 {
    #[repr(C)]
    struct Timespec {
        seconds: i64,
        nanoseconds: i64,
    }
    unsafe extern "C" {
        fn clock_gettime(clock: i32, time: *mut Timespec) -> i32;
    }
    const CLOCK_PROCESS_CPUTIME_ID: i32 = 2;
    let mut time = Timespec {
        seconds: 0,
        nanoseconds: 0,
    };
    // SAFETY: it writes the one struct that it is given.
    let outcome = unsafe { clock_gettime(CLOCK_PROCESS_CPUTIME_ID, &mut time) };
    assert!(outcome == 0, "Linux has this clock");
    time.seconds as u64 * 1_000_000_000 + time.nanoseconds as u64
}

/// SplitMix64.
struct Random(u64);

impl Random {
    fn next(&mut self) -> u64 {
        self.0 = self.0.wrapping_add(0x9E37_79B9_7F4A_7C15);
        let mut z = self.0;
        z = (z ^ (z >> 30)).wrapping_mul(0xBF58_476D_1CE4_E5B9);
        z = (z ^ (z >> 27)).wrapping_mul(0x94D0_49BB_1331_11EB);
        z ^ (z >> 31)
    }
}

/// A cheap hasher: one multiplication.
#[derive(Default)]
struct Cheap(u64);

impl Hasher for Cheap {
    fn finish(&self) -> u64 {
        self.0
    }

    fn write(&mut self, bytes: &[u8]) {
        for byte in bytes {
            self.write_u64(u64::from(*byte));
        }
    }

    fn write_u64(&mut self, number: u64) {
        self.0 = (self.0.rotate_left(5) ^ number).wrapping_mul(0x517C_C1B7_2722_0A95);
    }
}

/// The code is the key; the stamp rides along.
struct Key {
    code: u64,
    #[allow(dead_code)]
    stamp: u32,
}

impl PartialEq for Key {
    fn eq(&self, other: &Self) -> bool {
        self.code == other.code
    }
}

impl Eq for Key {}

impl Hash for Key {
    fn hash<H: Hasher>(&self, state: &mut H) {
        self.code.hash(state);
    }
}

impl std::borrow::Borrow<u64> for Key {
    fn borrow(&self) -> &u64 {
        &self.code
    }
}

#[derive(Clone, Copy)]
enum Call {
    Put(u64, u32, u64),
    Get(u64),
}

/// Puts and gets, one of each two, over a quarter more codes than there are slots.
fn commands(n: u64, count: usize, seed: u64) -> Vec<Call> {
    let mut random = Random(seed);
    let codes = n + n / 4;
    (0..count)
        .map(|_| {
            let code = random.next() % codes;
            if random.next() % 2 == 0 {
                Call::Put(code, (code % 10) as u32, random.next() % 1000)
            } else {
                Call::Get(code)
            }
        })
        .collect()
}

trait Cache {
    fn put(&mut self, code: u64, stamp: u32, value: u64) -> u64;
    fn get(&mut self, code: u64) -> u64;

    /// A number that all who answer alike come to.
    fn run(&mut self, calls: &[Call]) -> u64 {
        let mut sum = 0_u64;
        for call in calls {
            let answer = match *call {
                Call::Put(code, stamp, value) => self.put(code, stamp, value),
                Call::Get(code) => self.get(code),
            };
            sum = sum.wrapping_mul(31).wrapping_add(answer);
        }
        sum
    }
}

impl<S: BuildHasher> Cache for CLruCache<Key, u64, S> {
    fn put(&mut self, code: u64, stamp: u32, value: u64) -> u64 {
        CLruCache::put(self, Key { code, stamp }, value).map_or(0, |old| old + 1)
    }

    fn get(&mut self, code: u64) -> u64 {
        CLruCache::get(self, &code).map_or(0, |value| value + 1)
    }
}

impl Cache for ClaimsCache {
    fn put(&mut self, code: u64, stamp: u32, value: u64) -> u64 {
        match ClaimsCache::put(self, code, stamp, value).expect("no put is refused here") {
            Put::New { evicted } => {
                black_box(evicted.into_rows());
                0
            }
            Put::Was { value, evicted } => {
                black_box(evicted.into_rows());
                value + 1
            }
        }
    }

    fn get(&mut self, code: u64) -> u64 {
        ClaimsCache::get(self, code).map_or(0, |value| value + 1)
    }
}

fn least(times: Vec<f64>) -> f64 {
    times.into_iter().fold(f64::INFINITY, f64::min)
}

/// Nanoseconds a call, after a first run that fills the cache.
fn timed(cache: &mut impl Cache, fill: &[Call], calls: &[Call]) -> (f64, u64) {
    black_box(cache.run(fill));
    let start = cpu_time();
    let sum = black_box(cache.run(calls));
    ((cpu_time() - start) as f64 / calls.len() as f64, sum)
}

fn mixed(n: u64) {
    let count = (8_000_000 / n).clamp(4_000, 200_000) as usize;
    let capacity = NonZeroUsize::new(n as usize).expect("not 0");
    let fill: Vec<Call> = (0..2 * n)
        .map(|code| Call::Put(code % (n + n / 4), 0, 0))
        .collect();
    let (mut default, mut cheap, mut ours) = (Vec::new(), Vec::new(), Vec::new());
    for round in 0..ROUNDS {
        let calls = commands(n, count, round as u64);
        let mut cache =
            CLruCache::<Key, u64, RandomState>::with_hasher(capacity, RandomState::new());
        let (time, expected) = timed(&mut cache, &fill, &calls);
        default.push(time);
        let mut cache =
            CLruCache::<Key, u64, _>::with_hasher(capacity, BuildHasherDefault::<Cheap>::default());
        let (time, sum) = timed(&mut cache, &fill, &calls);
        assert_eq!(sum, expected, "the answers differ");
        cheap.push(time);
        // Its lists are zeroed as they are made, and emptied by opening.
        let mut cache = ClaimsCache::plain(n, n as u32).expect("it opens");
        let (time, sum) = timed(&mut cache, &fill, &calls);
        assert_eq!(sum, expected, "the answers differ");
        ours.push(time);
    }
    let (default, cheap, ours) = (least(default), least(cheap), least(ours));
    println!(
        "| {n} | {default:.0} | {cheap:.0} | {ours:.0} | {:.0} | {:.0} |",
        ours / default,
        ours / cheap
    );
}

fn per_call(cache: &mut ClaimsCache, count: usize, call: impl Fn(&mut ClaimsCache, u64)) -> f64 {
    let mut times = Vec::new();
    for round in 0..ROUNDS {
        let start = cpu_time();
        for at in 0..count {
            call(cache, (round * count + at) as u64);
        }
        times.push((cpu_time() - start) as f64 / count as f64);
    }
    least(times)
}

/// One kind of call at a time, on a cache with every slot live.
fn parts(n: u64) {
    let count = (2_000_000 / n).clamp(1_000, 50_000) as usize;
    let mut cache = ClaimsCache::plain(n, n as u32).expect("it opens");
    let mut random = Random(n);
    for code in 0..n {
        let put = cache.put(code, 0, 0).expect("it is taken");
        assert!(put.evicted().is_empty());
    }
    // The recency list in random order, so that the inspection's walk jumps about in memory.
    let mut order: Vec<u64> = (0..n).collect();
    for at in (1..order.len()).rev() {
        order.swap(at, (random.next() % (at as u64 + 1)) as usize);
    }
    for code in order {
        black_box(cache.get(code));
    }
    let present = |at: u64| at.wrapping_mul(0x9E37_79B1) % n;
    let len = per_call(&mut cache, count, |cache, _| {
        black_box(cache.len());
    });
    let peek = per_call(&mut cache, count, |cache, at| {
        black_box(cache.peek(present(at)));
    });
    let absent = per_call(&mut cache, count, |cache, at| {
        black_box(cache.peek(n + at));
    });
    let get = per_call(&mut cache, count, |cache, at| {
        black_box(cache.get(present(at)));
    });
    let set = per_call(&mut cache, count, |cache, at| {
        let _ = black_box(cache.put(present(at), 0, at));
    });
    let new = per_call(&mut cache, count, |cache, at| {
        let _ = black_box(cache.put(n + at, 0, at));
    });
    println!(
        "| {n} | {len:.0} | {:.1} | {peek:.0} | {absent:.0} | {get:.0} | {set:.0} | {new:.0} |",
        len / n as f64
    );
}

fn main() {
    println!("Mixed puts and gets, nanoseconds a call (least of {ROUNDS} rounds):\n");
    println!(
        "| N | clru, default hasher | clru, cheap hasher | ours | ours / default | ours / cheap |"
    );
    println!("|---|---|---|---|---|---|");
    for n in SIZES {
        mixed(n);
    }
    println!(
        "\nOne kind of call at a time, every slot live, nanoseconds a call (least of {ROUNDS} rounds):\n"
    );
    println!(
        "| N | `len` (inspection) | a slot | `peek`, present | `peek`, absent | `get` | `put`, present | `put`, new, one pushed out |"
    );
    println!("|---|---|---|---|---|---|---|---|");
    for n in SIZES {
        parts(n);
    }
}
