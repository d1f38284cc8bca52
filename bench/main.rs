//! Times the maps beside Rust's `BTreeMap`: the same keys, the same records, the same work, turn about in one run.
//! Each figure is the median of several timings; both sides must come to the same checksums.

use std::collections::btree_map::Entry;
use std::collections::BTreeMap;
use std::hint::black_box;
use std::ops::Bound::{Excluded, Unbounded};

extern "C" {
    fn bench_put(keys: *const u32, len: usize, size: usize, rounds: u32) -> u32;
    fn bench_join(keys: *const u32, len: usize, told: *const u32, told_len: usize, rounds: u32) -> u32;
    fn bench_look(keys: *const u32, len: usize, sought: *const u32, sought_len: usize, rounds: u32) -> u32;
    fn bench_next(keys: *const u32, len: usize, rounds: u32) -> u32;
    fn bench_put_and_remove(keys: *const u32, len: usize, size: usize, rounds: u32) -> u32;
    fn bench_node_size() -> usize;
    fn bench_book_size() -> usize;
    fn clock_gettime(clock: i32, time: *mut Time) -> i32;
}

/// The clock of the time that this thread ran, on Linux: while another program has the processor it stands still.
const THREAD_CLOCK: i32 = 3;

#[repr(C)]
struct Time {
    seconds: i64,
    nanoseconds: i64,
}

fn now() -> f64 {
    let mut time = Time { seconds: 0, nanoseconds: 0 };
    assert_eq!(unsafe { clock_gettime(THREAD_CLOCK, &mut time) }, 0, "no clock of the thread");
    time.seconds as f64 * 1e9 + time.nanoseconds as f64
}

/// How often each figure is taken; the median counts.
const REPETITIONS: usize = 15;

/// How many numbers a list has: so many that the processor does not learn the way of each.
const LIST: usize = 32_768;

/// How often a timing goes over its list.
const ROUNDS: u32 = 12;

const SIZES: [usize; 3] = [16, 256, 2048];

#[derive(Clone, Copy)]
struct Setting {
    stamp: u32,
    source: u16,
    word: u16,
}

#[derive(Clone, Copy)]
struct Lamp {
    hours: u32,
    tags: u16,
    setting: Setting,
}

impl Lamp {
    fn of(number: u32) -> Lamp {
        let low = (number % 65536) as u16;
        let high = (number / 65536) as u16;
        let setting = Setting { stamp: number, source: high, word: low };
        Lamp { hours: number, tags: low, setting }
    }

    fn join(self, other: Lamp) -> Lamp {
        Lamp {
            hours: self.hours.max(other.hours),
            tags: self.tags | other.tags,
            setting: if self.setting.is_before(other.setting) { other.setting } else { self.setting },
        }
    }

    fn add_to(self, sum: u32) -> u32 {
        sum.wrapping_mul(31)
            .wrapping_add(self.hours)
            .wrapping_add(self.tags as u32)
            .wrapping_add(self.setting.stamp)
            .wrapping_add(self.setting.source as u32)
            .wrapping_add(self.setting.word as u32)
    }
}

impl Setting {
    fn is_before(self, other: Setting) -> bool {
        (self.stamp, self.source, self.word) < (other.stamp, other.source, other.word)
    }
}

type Map = BTreeMap<u32, Lamp>;

fn put_all(map: &mut Map, keys: &[u32]) -> u32 {
    let mut done: u32 = 0;
    for &key in keys {
        let told = Lamp::of(key);
        match map.entry(key) {
            Entry::Occupied(mut held) => {
                let joined = held.get().join(told);
                held.insert(joined);
            }
            Entry::Vacant(place) => {
                place.insert(told);
            }
        }
        done = done.wrapping_add(1);
    }
    done
}

/// The map of the keys, and the checksum after building it.
fn built(keys: &[u32]) -> (Map, u32) {
    let mut map = Map::new();
    let sum = put_all(&mut map, keys);
    (map, sum)
}

fn tree_put(keys: &[u32], size: usize, rounds: u32) -> u32 {
    let mut sum: u32 = 0;
    for _ in 0..rounds {
        for own in keys.chunks(size) {
            let (map, done) = built(own);
            black_box(&map);
            sum = sum.wrapping_add(done);
        }
    }
    sum
}

fn tree_join(keys: &[u32], told: &[u32], rounds: u32) -> u32 {
    let (mut map, mut sum) = built(keys);
    for _ in 0..rounds {
        sum = sum.wrapping_add(put_all(&mut map, told));
        black_box(&map);
    }
    sum
}

fn tree_look(keys: &[u32], sought: &[u32], rounds: u32) -> u32 {
    let (map, mut sum) = built(keys);
    for _ in 0..rounds {
        for key in sought {
            if let Some(lamp) = black_box(&map).get(key) {
                sum = lamp.add_to(sum);
            }
        }
    }
    sum
}

fn tree_next(keys: &[u32], rounds: u32) -> u32 {
    let (map, mut sum) = built(keys);
    for _ in 0..rounds {
        let mut entry = black_box(&map).iter().next();
        while let Some((&key, lamp)) = entry {
            sum = lamp.add_to(sum);
            entry = map.range((Excluded(key), Unbounded)).next();
        }
    }
    sum
}

fn tree_put_and_remove(keys: &[u32], size: usize, rounds: u32) -> u32 {
    let mut sum: u32 = 0;
    for _ in 0..rounds {
        for own in keys.chunks(size) {
            let (mut map, done) = built(own);
            sum = sum.wrapping_add(done);
            for key in own {
                if let Some(lamp) = map.remove(key) {
                    sum = lamp.add_to(sum);
                }
            }
        }
    }
    sum
}

/// Distinct numbers in no order, the same in every run: steps of a full-period generator.
fn numbers(count: usize) -> Vec<u32> {
    let mut state: u32 = 2_463_534_242;
    (0..count)
        .map(|_| {
            state ^= state << 13;
            state ^= state >> 17;
            state ^= state << 5;
            state
        })
        .collect()
}

/// Work that answers a checksum.
type Work<'a> = &'a dyn Fn() -> u32;

/// One kind of work, done by our map and by `BTreeMap`.
#[derive(Clone, Copy)]
struct Pair<'a> {
    ours: Work<'a>,
    tree: Work<'a>,
}

/// Nanoseconds of our map and of `BTreeMap` for one operation.
#[derive(Clone, Copy)]
struct Figures {
    ours: f64,
    tree: f64,
}

/// The time that some work takes, and its checksum.
fn timed(work: Work) -> (f64, u32) {
    let start = now();
    let sum = black_box(work());
    (now() - start, sum)
}

impl Pair<'_> {
    /// Both times, one after the other; a difference of checksums ends the run.
    fn run(self) -> Figures {
        let (ours, sum) = timed(self.ours);
        let (tree, tree_sum) = timed(self.tree);
        assert_eq!(sum, tree_sum, "the checksums differ");
        Figures { ours, tree }
    }
}

fn median(mut figures: Vec<f64>) -> f64 {
    figures.sort_by(f64::total_cmp);
    figures[figures.len() / 2]
}

/// The medians for each operation of what `take` answers.
fn medians(operations: usize, take: impl Fn() -> Figures) -> Figures {
    let taken: Vec<Figures> = (0..REPETITIONS).map(|_| take()).collect();
    let each = |of: fn(&Figures) -> f64| median(taken.iter().map(of).collect()) / operations as f64;
    Figures { ours: each(|f| f.ours), tree: each(|f| f.tree) }
}

fn show(name: &str, size: usize, Figures { ours, tree }: Figures) {
    println!("{name:<12} {size:>5} {ours:>8.1} {tree:>9.1} {:>6.2}", ours / tree);
}

fn measure(size: usize) {
    let all = numbers(2 * LIST);
    let (list, absent) = all.split_at(LIST);
    let keys = &list[..size];
    // one key after another of the map, in no order
    let there: Vec<u32> = absent.iter().map(|number| keys[*number as usize % size]).collect();
    let (at, len) = (keys.as_ptr(), keys.len());
    let operations = ROUNDS as usize * LIST;
    let report = |name: &str, work: Pair| show(name, size, medians(operations, || work.run()));

    let put = Pair {
        ours: &|| unsafe { bench_put(list.as_ptr(), list.len(), size, ROUNDS) },
        tree: &|| tree_put(list, size, ROUNDS),
    };
    report("put, new", put);
    let joined = Pair {
        ours: &|| unsafe { bench_join(at, len, there.as_ptr(), there.len(), ROUNDS) },
        tree: &|| tree_join(keys, &there, ROUNDS),
    };
    report("put, joined", joined);
    for (name, sought) in [("look, there", &there[..]), ("look, absent", absent)] {
        let ours = || unsafe { bench_look(at, len, sought.as_ptr(), sought.len(), ROUNDS) };
        report(name, Pair { ours: &ours, tree: &|| tree_look(keys, sought, ROUNDS) });
    }
    let walks = ROUNDS * (LIST / size) as u32;
    report("next", Pair { ours: &|| unsafe { bench_next(at, len, walks) }, tree: &|| tree_next(keys, walks) });
    // a round has to build what it takes out: the time to build, taken just before, is taken off
    let put_and_remove = Pair {
        ours: &|| unsafe { bench_put_and_remove(list.as_ptr(), list.len(), size, ROUNDS) },
        tree: &|| tree_put_and_remove(list, size, ROUNDS),
    };
    let remove = medians(operations, || {
        let (built, both) = (put.run(), put_and_remove.run());
        Figures { ours: both.ours - built.ours, tree: both.tree - built.tree }
    });
    show("remove", size, remove);
}

fn main() {
    println!("a node of words and lamps: {} bytes; a book: {} bytes", unsafe { bench_node_size() }, unsafe {
        bench_book_size()
    });
    println!("nanoseconds for each operation, ours and BTreeMap's, and their ratio");
    println!("{:<12} {:>5} {:>8} {:>9} {:>6}", "operation", "keys", "ours", "BTreeMap", "ratio");
    for size in SIZES {
        measure(size);
    }
}
