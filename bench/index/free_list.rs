//! `UniqueIndexSet` beside a plain free list, in one run.
use std::hint::black_box;
use std::time::Instant;

unsafe extern "C" {
    fn index_rounds(capacity: usize, rounds: u64) -> u64;
    fn index_pairs(capacity: usize, rounds: u64) -> u64;
    fn index_bursts(capacity: usize, together: usize, rounds: u64) -> u64;
}

#[path = "../host.rs"]
mod host;

/// A list of free indices, as one writes it by hand: a stack, and nothing that tells which indices are held.
struct FreeList {
    free: Vec<usize>,
}

impl FreeList {
    fn new(capacity: usize) -> Self {
        FreeList { free: (0..capacity).rev().collect() }
    }

    /// A list that has handed out the first `held` indices.
    fn with_held(capacity: usize, held: usize) -> Self {
        let mut list = FreeList::new(capacity);
        for _ in 0..held {
            list.acquire();
        }
        list
    }

    fn acquire(&mut self) -> Option<usize> {
        self.free.pop()
    }

    fn release(&mut self, index: usize) {
        self.free.push(index);
    }
}

#[inline(never)]
fn list_rounds(capacity: usize, rounds: u64) -> u64 {
    let half = capacity / 2;
    let mut list = FreeList::with_held(black_box(capacity), half);
    let (mut sum, mut index) = (0u64, 0);
    for _ in 0..black_box(rounds) {
        list.release(index);
        if let Some(given) = list.acquire() {
            sum = sum.wrapping_add(given as u64);
        }
        index = if index + 1 < half { index + 1 } else { 0 };
    }
    sum
}

#[inline(never)]
fn list_pairs(capacity: usize, rounds: u64) -> u64 {
    let half = capacity / 2;
    let mut list = FreeList::with_held(black_box(capacity), half);
    let (mut sum, mut index) = (0u64, 0);
    for _ in 0..black_box(rounds) {
        let next = if index + 1 < half { index + 1 } else { 0 };
        list.release(index);
        list.release(next);
        if let Some(given) = list.acquire() {
            sum = sum.wrapping_add(given as u64);
        }
        if let Some(given) = list.acquire() {
            sum = (sum ^ 1).wrapping_add(given as u64);
        }
        index = next;
    }
    sum
}

#[inline(never)]
fn list_bursts(capacity: usize, together: usize, rounds: u64) -> u64 {
    let (half, together) = (capacity / 2, black_box(together));
    let mut list = FreeList::with_held(black_box(capacity), half);
    let (mut sum, mut index) = (0u64, 0);
    for _ in 0..black_box(rounds) {
        for _ in 0..together {
            list.release(index);
            index = if index + 1 < half { index + 1 } else { 0 };
        }
        for i in 0..together {
            if let Some(given) = list.acquire() {
                sum = sum.wrapping_add((given ^ i) as u64);
            }
        }
    }
    sum
}

/// Nanoseconds a round, and what came out.
fn nanoseconds(run: impl Fn(u64) -> u64, rounds: u64) -> (f64, u64) {
    let start = Instant::now();
    let sum = run(rounds);
    (start.elapsed().as_nanos() as f64 / rounds as f64, sum)
}

/// What is run on both sides, and the best time of each so far.
struct Row {
    name: &'static str,
    capacity: usize,
    set: fn(usize, u64) -> u64,
    list: fn(usize, u64) -> u64,
    ours: f64,
    plain: f64,
}

impl Row {
    fn turn(&mut self) {
        let rounds = 2_000_000;
        let (time, one) = nanoseconds(|n| (self.list)(self.capacity, n), rounds);
        self.plain = self.plain.min(time);
        let (time, other) = nanoseconds(|n| (self.set)(self.capacity, n), rounds);
        self.ours = self.ours.min(time);
        assert_eq!(one, other, "both give the same indices");
    }
}

fn main() {
    type Side = fn(usize, u64) -> u64;
    // The times of the eights are of one release and one acquire as well.
    let kinds: [(&'static str, Side, Side); 3] = [
        ("release and acquire", |c, n| unsafe { index_rounds(c, n) }, list_rounds),
        ("two and two", |c, n| unsafe { index_pairs(c, n) }, list_pairs),
        ("eight and eight, each", |c, n| unsafe { index_bursts(c, 8, n / 8) }, |c, n| list_bursts(c, 8, n / 8)),
    ];
    let counted = |(name, set, list): (&str, Side, Side)| {
        [host::row(format!("{name}: index set"), move |n| set(256, n)), host::row(format!("{name}: free list"), move |n| list(256, n))]
    };
    if host::is_counted(kinds.into_iter().flat_map(counted)) {
        return;
    }
    let mut rows = Vec::new();
    for (name, set, list) in kinds {
        for capacity in [16, 256, 4_096, 65_536] {
            rows.push(Row { name, capacity, set, list, ours: f64::MAX, plain: f64::MAX });
        }
    }
    // The two in turn, and the rows too, so that other load on the machine meets all; the best of 31 short runs counts.
    for _ in 0..31 {
        for row in &mut rows {
            row.turn();
        }
    }
    for Row { name, capacity, ours, plain, .. } in rows {
        let quotient = ours / plain;
        println!("{name}, capacity {capacity}: index set {ours:.2} ns, free list {plain:.2} ns, quotient {quotient:.2}");
    }
}
