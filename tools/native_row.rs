//! The figures of `kw_bench` on one row, for native code over the same words: what the machine
//! itself takes for the loads, stores and exchanges that the events of the map's calls make, with
//! nothing kept of what was met, nothing checked and nothing helped. A walk along a row that was
//! built begins where the map's does: a search in the built cells finds the place.
//!
//! One file, which stands on Rust's standard library alone; no gate runs it. `tools/measure.sh`
//! builds it, and runs it in turn with `kw_bench N`: the calls, the keys, their orders and the
//! columns are the same.
//!
//!     rustc -O --edition 2021 -o /tmp/native_row tools/native_row.rs
//!     /tmp/native_row N

use std::array;
use std::env;
use std::hint::black_box;
use std::sync::atomic::{AtomicU64, Ordering::SeqCst};
use std::sync::Barrier;
use std::thread;
use std::time::{Duration, Instant};

const SEATS: usize = 16;
const CELLS: usize = 128;
/// How many cells of a row are filled when it is built.
const BUILT: usize = 64;
/// What the number of built cells is multiplied by in the word of a least key.
const BUILT_UNIT: u64 = 1 << 32;

/// Whose the keys of a row's cells are, and whether the row was built: one that is half built has
/// cells of even keys, and others of the odd keys between them.
#[derive(Clone, Copy)]
enum Keys {
    Different,
    One,
    HalfBuilt,
}

impl Keys {
    fn of_cell(self, number: usize) -> u64 {
        match self {
            Keys::Different => number as u64,
            Keys::One => 0,
            Keys::HalfBuilt if number < BUILT => 2 * number as u64,
            Keys::HalfBuilt => gap_key(number - BUILT),
        }
    }

    /// With how many cells a row is built.
    fn built(self) -> usize {
        match self {
            Keys::Different | Keys::One => 0,
            Keys::HalfBuilt => BUILT,
        }
    }

    /// A key that none of the row is above, where it has so many cells.
    fn greatest(self, cells: usize) -> u64 {
        match self {
            Keys::Different | Keys::One => cells as u64,
            Keys::HalfBuilt => 2 * BUILT as u64 - 1,
        }
    }

    fn words(self) -> &'static str {
        match self {
            Keys::Different => "different keys",
            Keys::One => "one key",
            Keys::HalfBuilt => "half built",
        }
    }
}

/// The odd key with this number: first one in every second gap between even keys, then one in each
/// other gap.
fn gap_key(number: usize) -> u64 {
    let gap = 2 * number % BUILT + 2 * number / BUILT;
    2 * gap as u64 + 1
}

/// A put's words in its row. A link is 0 at the end of the list, and else a cell's place and one.
#[derive(Default)]
struct Cell {
    key: AtomicU64,
    value: AtomicU64,
    version: AtomicU64,
    next: AtomicU64,
}

/// The words of a row: its state, how many cells it gave, its least key with how many cells it was
/// built with, the links to the next row and to the first cell of its list by key and falling
/// version, an entry for each seat, and the cells.
struct Row {
    state: AtomicU64,
    count: AtomicU64,
    least: AtomicU64,
    next: AtomicU64,
    first: AtomicU64,
    entries: [AtomicU64; SEATS],
    cells: [Cell; CELLS],
}

/// A word on cache lines of its own.
#[derive(Default)]
#[repr(align(128))]
struct Alone(AtomicU64);

/// The words of no row: the clock, the epoch, and for each seat the epoch that it announces and its
/// scan.
struct Rowless {
    clock: Alone,
    epoch: Alone,
    passes: [Alone; SEATS],
    scans: [Alone; SEATS],
}

impl Rowless {
    fn new() -> Rowless {
        Rowless {
            clock: Alone(AtomicU64::new(1)),
            epoch: Alone(AtomicU64::new(1)),
            passes: array::from_fn(|_| Alone::default()),
            scans: array::from_fn(|_| Alone::default()),
        }
    }

    fn enter(&self, seat: usize) {
        self.passes[seat].0.store(self.epoch.0.load(SeqCst), SeqCst);
    }

    fn leave(&self, seat: usize) {
        self.passes[seat].0.store(0, SeqCst);
    }

    /// The version of a scan: it waits, draws and settles.
    fn draw(&self, seat: usize) -> u64 {
        let waits = 1 + 2 * self.clock.0.load(SeqCst);
        self.scans[seat].0.store(waits, SeqCst);
        let version = self.clock.0.fetch_add(1, SeqCst);
        let _ = self.scans[seat].0.compare_exchange(waits, 2 * version, SeqCst, SeqCst);
        version
    }
}

/// The words of a map: those of the row that is asked, and of the one behind it, to which only the
/// link of a built row leads.
struct Map {
    rowless: Rowless,
    row: Row,
    behind: Row,
}

impl Map {
    fn new(keys: Keys) -> Box<Map> {
        Box::new(Map {
            rowless: Rowless::new(),
            row: Row::new(keys),
            behind: Row::new(Keys::Different),
        })
    }

    /// The walk to the row, where it was guessed: with how many cells it was built.
    fn find(&self) -> usize {
        black_box(self.row.state.load(SeqCst));
        let least = self.row.least.load(SeqCst);
        if self.row.next.load(SeqCst) != 0 {
            black_box(self.behind.least.load(SeqCst));
        }
        (least / BUILT_UNIT) as usize
    }

    fn get(&self, seat: usize, key: u64) -> Option<u64> {
        self.rowless.enter(seat);
        let built = self.find();
        let found = self.row.get(built, key);
        self.rowless.leave(seat);
        found
    }

    fn scan(&self, seat: usize, from: u64, to: u64, pairs: &mut Vec<(u64, u64)>) {
        self.rowless.enter(seat);
        let version = self.rowless.draw(seat);
        let built = self.find();
        self.row.scan(built, from, to, version, pairs);
        self.rowless.scans[seat].0.store(0, SeqCst);
        self.rowless.leave(seat);
    }

    fn put(&self, seat: usize, key: u64, value: u64) {
        self.rowless.enter(seat);
        let built = self.find();
        self.row.put(seat, built, &self.rowless.clock.0, key, value);
        self.rowless.leave(seat);
    }
}

impl Row {
    /// A row with the cells that it is built with, linked one behind the other.
    fn new(keys: Keys) -> Row {
        let built = keys.built();
        let link = |number: usize| AtomicU64::new(if number < built { number as u64 + 1 } else { 0 });
        let cell = |number: usize| Cell {
            key: AtomicU64::new(keys.of_cell(number)),
            value: AtomicU64::new(1),
            version: AtomicU64::new(1),
            next: link(number + 1),
        };
        Row {
            state: AtomicU64::new(2),
            count: AtomicU64::new(built as u64),
            least: AtomicU64::new(built as u64 * BUILT_UNIT),
            next: AtomicU64::new(u64::from(built > 0)),
            first: link(0),
            entries: array::from_fn(|_| AtomicU64::new(0)),
            cells: array::from_fn(|number| if number < built { cell(number) } else { Cell::default() }),
        }
    }

    /// The link at which a walk to a key begins: behind the last built cell whose key is below it,
    /// which a search finds; or the first one. The key of that cell is loaded again, as by the map,
    /// which checks what its search has told.
    fn begin(&self, built: usize, key: u64) -> &AtomicU64 {
        let (mut low, mut high) = (0, built);
        while low < high {
            let middle = low + (high - low) / 2;
            if self.cells[middle].key.load(SeqCst) < key {
                low = middle + 1;
            } else {
                high = middle;
            }
        }
        match low.checked_sub(1).map(|number| &self.cells[number]) {
            Some(cell) if cell.key.load(SeqCst) < key => &cell.next,
            _ => &self.first,
        }
    }

    fn is_quiet(&self) -> bool {
        self.entries.iter().fold(0, |bits, entry| bits | entry.load(SeqCst)) == 0
    }

    /// The value of the newest cell of a key, where no put is under way.
    fn get(&self, built: usize, key: u64) -> Option<u64> {
        if !self.is_quiet() {
            return None;
        }
        let (mut newest, mut found) = (0, None);
        let mut link = self.begin(built, key);
        loop {
            let Some(place) = link.load(SeqCst).checked_sub(1) else {
                return found;
            };
            let cell = &self.cells[place as usize];
            let its_key = cell.key.load(SeqCst);
            if its_key > key {
                return found;
            }
            if its_key == key {
                let version = cell.version.load(SeqCst);
                let value = cell.value.load(SeqCst);
                if version > newest {
                    (newest, found) = (version, Some(value));
                }
            }
            link = &cell.next;
        }
    }

    /// Adds the newest pair of each key of a range, of those up to the version.
    fn scan(&self, built: usize, from: u64, to: u64, upto: u64, pairs: &mut Vec<(u64, u64)>) {
        if !self.is_quiet() {
            return;
        }
        let mut last = None;
        let mut link = self.begin(built, from);
        while let Some(place) = link.load(SeqCst).checked_sub(1) {
            let cell = &self.cells[place as usize];
            let key = cell.key.load(SeqCst);
            if key > to {
                return;
            }
            link = &cell.next;
            if key < from {
                continue;
            }
            let version = cell.version.load(SeqCst);
            let value = cell.value.load(SeqCst);
            if version <= upto && last != Some(key) {
                last = Some(key);
                pairs.push((key, value));
            }
        }
    }

    /// The link at which a cell of this key and version goes in, and where that link leads.
    fn place_for(&self, built: usize, key: u64, version: u64) -> (&AtomicU64, u64) {
        let mut link = self.begin(built, key);
        loop {
            let held = link.load(SeqCst);
            let Some(place) = held.checked_sub(1) else {
                return (link, held);
            };
            let cell = &self.cells[place as usize];
            let its_key = cell.key.load(SeqCst);
            if its_key > key || (its_key == key && cell.version.load(SeqCst) <= version) {
                return (link, held);
            }
            link = &cell.next;
        }
    }

    fn put(&self, seat: usize, built: usize, clock: &AtomicU64, key: u64, value: u64) {
        black_box(self.count.load(SeqCst));
        let place = self.count.fetch_add(1, SeqCst);
        let cell = &self.cells[place as usize];
        cell.key.store(key, SeqCst);
        cell.value.store(value, SeqCst);
        let entry = &self.entries[seat];
        let pending = 1 + 4 * place;
        let _ = entry.compare_exchange(0, pending, SeqCst, SeqCst);
        let version = clock.load(SeqCst);
        let stamped = pending + 1 + (version << 15);
        let _ = entry.compare_exchange(pending, stamped, SeqCst, SeqCst);
        cell.version.store(version, SeqCst);
        let (link, held) = self.place_for(built, key, version);
        cell.next.store(held, SeqCst);
        let _ = link.compare_exchange(held, place + 1, SeqCst, SeqCst);
        entry.store(0, SeqCst);
    }
}

/// A map whose row has this load.
fn filled(cells: usize, keys: Keys) -> Box<Map> {
    let map = Map::new(keys);
    for number in keys.built()..cells {
        map.put(0, keys.of_cell(number), number as u64 + 1);
    }
    map
}

/// How long so many threads take, each for the calls: from when the first one begins to when the
/// last one ends.
fn time_threads(count: usize, calls: impl Fn(usize) + Sync) -> Duration {
    let barrier = Barrier::new(count);
    let spans: Vec<(Instant, Instant)> = thread::scope(|scope| {
        let threads: Vec<_> = (0..count)
            .map(|seat| {
                let (barrier, calls) = (&barrier, &calls);
                scope.spawn(move || {
                    barrier.wait();
                    let start = Instant::now();
                    calls(seat);
                    (start, Instant::now())
                })
            })
            .collect();
        threads.into_iter().map(|thread| thread.join().unwrap()).collect()
    });
    let first = spans.iter().map(|span| span.0).min().unwrap();
    let last = spans.iter().map(|span| span.1).max().unwrap();
    last - first
}

fn print_reads(name: &str, cells: usize, keys: Keys, calls: usize, ask: impl Fn(usize) + Sync) {
    let [one, two, four] = [1, 2, 4].map(|count| time_threads(count, &ask).as_nanos().max(1));
    let calls = calls.max(1) as u128;
    println!(
        "{name:<5}{cells:>6}  {:<15} {:>5} {:>5} {:>5} {:>7} {:>7}",
        keys.words(),
        one / calls,
        two / calls,
        four / calls,
        200 * one / two,
        400 * one / four
    );
}

fn print_load(cells: usize, keys: Keys, calls: usize) {
    let map = filled(cells, keys);
    print_reads("get", cells, keys, calls, |seat| {
        for call in 0..calls {
            black_box(map.get(seat, keys.of_cell(call % cells)));
        }
    });
    print_reads("scan", cells, keys, calls, |seat| {
        let mut pairs = Vec::with_capacity(CELLS);
        for _ in 0..calls {
            pairs.clear();
            map.scan(seat, 0, keys.greatest(cells), &mut pairs);
            black_box(&pairs);
        }
    });
    print_puts(cells, keys, calls);
}

/// What a put takes into a row that fills, if any cells are left with which it was not built.
fn print_puts(cells: usize, keys: Keys, calls: usize) {
    let puts = cells - keys.built();
    if puts == 0 {
        return;
    }
    let maps = calls / puts;
    let mut took = Duration::ZERO;
    for _ in 0..maps {
        let map = Map::new(keys);
        let start = Instant::now();
        for number in keys.built()..cells {
            map.put(0, keys.of_cell(number), number as u64);
        }
        took += start.elapsed();
        black_box(&map);
    }
    println!(
        "{:<5}{cells:>6}  {:<15} {:>5}",
        "put",
        keys.words(),
        took.as_nanos() / (maps * puts).max(1) as u128
    );
}

fn main() {
    let Some(calls) = env::args().nth(1).and_then(|word| word.parse().ok()) else {
        println!("native_row N: makes N calls of each kind on one row, and prints what each took, as kw_bench does");
        return;
    };
    println!("nanoseconds a call, by one thread and by each of two and of four; and how many calls two and four make where one makes 100");
    println!("{:<5}{:>6}  {:<15} {:>5} {:>5} {:>5} {:>7} {:>7}", "call", "cells", "keys", "one", "two", "four", "by two", "by four");
    for quarters in 1..=4 {
        let cells = CELLS / 4 * quarters;
        print_load(cells, Keys::Different, calls);
        print_load(cells, Keys::One, calls);
        if cells >= BUILT {
            print_load(cells, Keys::HalfBuilt, calls);
        }
    }
}
