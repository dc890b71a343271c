//! The figures of `kw_bench` on a map of many rows, for the standard library's ordered map: alone,
//! behind a `Mutex` and behind a `RwLock`.
//!
//! One file, which stands on Rust's standard library alone; no gate runs it. `tools/measure.sh`
//! builds it, and runs it in turn with `kw_bench N`.
//!
//!     rustc -O --edition 2021 -o /tmp/std_maps tools/std_maps.rs
//!     std_maps calls N
//!         N calls of each kind, and a tenth as many sums; the keys, their orders and the columns
//!         are those of `kw_bench N`
//!     std_maps input PERCENT > FILE
//!         16 MiB of lines over 65,536 keys: so many in 100 sums of 1,000 keys, the others puts
//!         and gets

use std::collections::BTreeMap;
use std::hint::black_box;
use std::io::{self, Write as _};
use std::sync::atomic::{AtomicBool, Ordering};
use std::sync::{Mutex, RwLock};
use std::time::Instant;
use std::{env, thread};

const KEYS: u32 = 65_536;
const SUMMED: u32 = 1_000;
/// With how many keys rising ones fill each row of a map of rows.
const BUILT: u32 = 64;
/// A sum takes as long as many puts, so one is made where so many puts are.
const PUTS_A_SUM: u32 = 10;
const INPUT_BYTES: usize = 16 << 20;

type Plain = BTreeMap<u32, u64>;

/// What a map is asked. A lock implements it by reference, so that threads share it.
trait Map {
    fn put(&mut self, key: u32, value: u64);
    fn get(&mut self, key: u32) -> Option<u64>;
    fn sum(&mut self, from: u32, to: u32) -> u128;
}

fn sum_of(map: &Plain, from: u32, to: u32) -> u128 {
    map.range(from..=to).map(|(_, &value)| u128::from(value)).sum()
}

impl Map for Plain {
    fn put(&mut self, key: u32, value: u64) {
        self.insert(key, value);
    }
    fn get(&mut self, key: u32) -> Option<u64> {
        Plain::get(self, &key).copied()
    }
    fn sum(&mut self, from: u32, to: u32) -> u128 {
        sum_of(self, from, to)
    }
}

macro_rules! shared_map {
    ($lock:ident, $write:ident, $read:ident) => {
        impl Map for &$lock<Plain> {
            fn put(&mut self, key: u32, value: u64) {
                self.$write().unwrap().insert(key, value);
            }
            fn get(&mut self, key: u32) -> Option<u64> {
                self.$read().unwrap().get(&key).copied()
            }
            fn sum(&mut self, from: u32, to: u32) -> u128 {
                sum_of(&self.$read().unwrap(), from, to)
            }
        }
    };
}

shared_map!(Mutex, lock, lock);
shared_map!(RwLock, write, read);

// The keys and orders of `kw_bench`.
fn scattered(number: u32) -> u32 {
    let low = number.wrapping_mul(40_503) % KEYS;
    (low ^ (low >> 8)).wrapping_mul(25_717) % KEYS
}

fn mixed(number: u32) -> u32 {
    let a = (number ^ (number >> 16)).wrapping_mul(2_246_822_507);
    let b = (a ^ (a >> 13)).wrapping_mul(3_266_489_909);
    b ^ (b >> 16)
}

/// Nanoseconds that this took.
fn timed(work: impl FnOnce()) -> u128 {
    let start = Instant::now();
    work();
    start.elapsed().as_nanos()
}

/// The kinds of calls: whether one is a put, by its number and its round of all keys.
const KINDS: [(&str, fn(u32) -> bool); 3] = [("put", |_| true), ("get", |_| false), ("mixed", |number| (number ^ (number / KEYS)) % 2 == 0)];

fn call_from<M: Map>(map: &mut M, is_put: fn(u32) -> bool, first: u32, calls: u32) {
    for number in first..first + calls {
        if is_put(number) {
            map.put(scattered(number), u64::from(number));
        } else {
            black_box(map.get(scattered(number)));
        }
    }
}

/// What all calls take that so many threads share.
fn shared<M: Map + Copy + Send>(mut map: M, is_put: fn(u32) -> bool, threads: u32, calls: u32) -> u128 {
    let part = calls / threads;
    timed(|| {
        thread::scope(|scope| {
            for thread in 0..threads {
                scope.spawn(move || call_from(&mut map, is_put, thread * part, part));
            }
        });
    })
}

fn print_shared<M: Map + Copy + Send>(name: &str, map: M, calls: u32) {
    for (word, is_put) in KINDS {
        let [one, two, four] = [1, 2, 4].map(|threads| shared(map, is_put, threads, calls));
        let all = u128::from(calls);
        print!("{name:<7}{word:<7} {:>6} {:>6} {:>6}", one / all, two * 2 / all, four * 4 / all);
        println!(" {:>7} {:>7}", one * 100 / two, one * 100 / four);
    }
}

fn sum_keys<M: Map>(map: &mut M, calls: u32) {
    for call in 0..calls {
        let from = scattered(call) % (KEYS - SUMMED + 1);
        black_box(map.sum(from, from + (SUMMED - 1)));
    }
}

fn put_until<M: Map>(mut map: M, first: u32, over: &AtomicBool) -> u64 {
    let numbers = (0..).take_while(|_| !over.load(Ordering::SeqCst));
    numbers.inspect(|&put| map.put(scattered(first.wrapping_add(put as u32)), put)).count() as u64
}

fn print_sums<M: Map + Copy + Send>(name: &str, mut map: M, calls: u32) {
    let alone = timed(|| sum_keys(&mut map, calls));
    let over = &AtomicBool::new(false);
    let mut puts = 0;
    let beside = timed(|| {
        puts = thread::scope(|scope| {
            let putting = [0, 1, 2].map(|thread| scope.spawn(move || put_until(map, thread * (KEYS / 3), over)));
            sum_keys(&mut map, calls);
            over.store(true, Ordering::SeqCst);
            putting.map(|thread| thread.join().unwrap()).iter().sum::<u64>()
        });
    });
    let (alone, each) = (alone / u128::from(calls), beside * 3 / u128::from(puts.max(1)));
    let beside = beside / u128::from(calls);
    print!("{name:<7}sum of {SUMMED} keys: {alone} ns alone, {beside} ns while 3 other threads put; ");
    println!("they made {puts} puts, {each} ns each");
}

fn print_fill<M: Map>(name: &str, word: &str, mut map: M, key: fn(u32) -> u32, calls: u32) {
    print!("{name:<7}{word:<8}");
    let mut put = |from: u32, to: u32| timed(|| (from..to.min(calls)).for_each(|number| map.put(key(number), 1)));
    let (mut begun, mut took) = (0, 0);
    for keys in [1_024, 4_096, 16_384].map(|rows| rows * BUILT) {
        let start = keys - keys / 4;
        took += put(begun, start);
        let last = put(start, keys);
        (begun, took) = (keys, took + last);
        let ns = last.checked_div(u128::from(calls.min(keys).saturating_sub(start)));
        print!(" {:>6}", ns.map_or("-".to_string(), |ns| ns.to_string()));
    }
    took += put(begun, calls);
    println!(" {:>6} {calls:>8}", took / u128::from(calls));
}

fn calls(calls: u32) {
    println!("{:<7}{:<7} {:>6} {:>6} {:>6} {:>7} {:>7}", "map", "call", "one", "two", "four", "by two", "by four");
    let mut alone: Plain = (0..KEYS).map(|number| (scattered(number), u64::from(number))).collect();
    for (word, is_put) in KINDS {
        let one = timed(|| call_from(&mut alone, is_put, 0, calls));
        println!("{:<7}{word:<7} {:>6}", "alone", one / u128::from(calls));
    }
    let sums = (calls / PUTS_A_SUM).max(1);
    let (mutex, rwlock) = (&Mutex::new(alone.clone()), &RwLock::new(alone.clone()));
    print_shared("Mutex", mutex, calls);
    print_shared("RwLock", rwlock, calls);
    println!("alone  sum of {SUMMED} keys: {} ns alone", timed(|| sum_keys(&mut alone, sums)) / u128::from(sums));
    print_sums("Mutex", mutex, sums);
    print_sums("RwLock", rwlock, sums);
    println!("{:<7}{:<8} {:>6} {:>6} {:>6} {:>6} {:>8}", "map", "keys", "1024", "4096", "16384", "all", "pairs");
    for (word, key) in [("rising", (|number| number) as fn(u32) -> u32), ("falling", |number| u32::MAX - number), ("random", mixed)] {
        print_fill("alone", word, Plain::new(), key, calls);
        print_fill("Mutex", word, &Mutex::new(Plain::new()), key, calls);
        print_fill("RwLock", word, &RwLock::new(Plain::new()), key, calls);
    }
}

fn input(percent: u32) -> io::Result<()> {
    let mut text = String::with_capacity(INPUT_BYTES);
    for number in 0.. {
        let (key, draw) = (mixed(number) % KEYS, mixed(!number));
        let line = match draw % 100 {
            share if share < percent => format!("sum {} {}\n", key.min(KEYS - SUMMED), key.min(KEYS - SUMMED) + SUMMED - 1),
            _ if draw / 100 % 2 == 0 => format!("put {key} {}\n", draw % 1_000_000),
            _ => format!("get {key}\n"),
        };
        if text.len() + line.len() > INPUT_BYTES {
            break;
        }
        text += &line;
    }
    io::stdout().write_all(text.as_bytes())
}

fn main() -> io::Result<()> {
    let words: Vec<String> = env::args().skip(1).collect();
    let number = words.get(1).and_then(|word| word.parse().ok());
    match (words.first().map(String::as_str), number) {
        (Some("calls"), Some(number)) if number > 0 => Ok(calls(number)),
        (Some("input"), Some(percent)) => input(percent),
        _ => Err(io::Error::other("std_maps calls N | input PERCENT")),
    }
}
