//! `SlotMap` beside a plain slab, in one run.
use std::time::Instant;

unsafe extern "C" {
    fn slot_map_rounds(capacity: usize, rounds: u64) -> u64;
    fn slot_map_pairs(capacity: usize, rounds: u64) -> u64;
}

#[path = "../host.rs"]
mod host;

enum Entry {
    Vacant(usize),
    Occupied(u64),
}

/// A slab of fixed capacity with a list of free entries, as one writes it by hand.
struct Slab {
    entries: Vec<Entry>,
    next: usize,
}

impl Slab {
    fn new(capacity: usize) -> Self {
        Slab { entries: (1..=capacity).map(Entry::Vacant).collect(), next: 0 }
    }

    fn insert(&mut self, value: u64) -> Option<usize> {
        let key = self.next;
        let entry = self.entries.get_mut(key)?;
        if let Entry::Vacant(next) = *entry {
            self.next = next;
        }
        *entry = Entry::Occupied(value);
        Some(key)
    }

    fn remove(&mut self, key: usize) -> bool {
        let Some(entry) = self.entries.get_mut(key) else {
            return false;
        };
        if let Entry::Vacant(_) = entry {
            return false;
        }
        *entry = Entry::Vacant(self.next);
        self.next = key;
        true
    }
}

#[inline(never)]
fn slab_rounds(capacity: usize, rounds: u64) -> u64 {
    let mut slab = Slab::new(std::hint::black_box(capacity));
    let half = capacity / 2;
    for i in 0..half {
        slab.insert(i as u64);
    }
    let (mut sum, mut key) = (0u64, 0);
    for i in 0..rounds {
        slab.remove(key);
        if let Some(given) = slab.insert(i ^ sum) {
            sum = sum.wrapping_add(given as u64);
        }
        key = if key + 1 < half { key + 1 } else { 0 };
    }
    sum
}

#[inline(never)]
fn slab_pairs(capacity: usize, rounds: u64) -> u64 {
    let mut slab = Slab::new(std::hint::black_box(capacity));
    let half = capacity / 2;
    for i in 0..half {
        slab.insert(i as u64);
    }
    let (mut sum, mut key) = (0u64, 0);
    for i in 0..rounds {
        let next = if key + 1 < half { key + 1 } else { 0 };
        slab.remove(key);
        slab.remove(next);
        if let Some(given) = slab.insert(i) {
            sum = sum.wrapping_add(given as u64);
        }
        if let Some(given) = slab.insert(sum) {
            sum = sum.wrapping_add(given as u64);
        }
        key = next;
    }
    sum
}

/// Nanoseconds a round, and what came out.
fn nanoseconds(run: impl Fn(u64) -> u64, rounds: u64) -> (f64, u64) {
    let start = Instant::now();
    let sum = run(rounds);
    (start.elapsed().as_nanos() as f64 / rounds as f64, sum)
}

/// The two in turn, so that other load on the machine meets both; the best of 31 short runs counts.
fn row(name: &str, capacity: usize, map: Side, slab: Side) {
    let rounds = 2_000_000;
    let (mut ours, mut plain) = (f64::MAX, f64::MAX);
    for _ in 0..31 {
        let (time, one) = nanoseconds(|n| slab(capacity, n), rounds);
        plain = plain.min(time);
        let (time, other) = nanoseconds(|n| map(capacity, n), rounds);
        ours = ours.min(time);
        assert_eq!(one, other, "both give the same keys");
    }
    println!("{name}, capacity {capacity}: slot map {ours:.2} ns, slab {plain:.2} ns, quotient {:.2}", ours / plain);
}

type Side = fn(usize, u64) -> u64;

fn main() {
    let kinds: [(&str, Side, Side); 2] = [
        ("remove and insert", |c, n| unsafe { slot_map_rounds(c, n) }, slab_rounds),
        ("two and two", |c, n| unsafe { slot_map_pairs(c, n) }, slab_pairs),
    ];
    let counted = |(name, map, slab): (&str, Side, Side)| {
        [host::row(format!("{name}: slot map"), move |n| map(256, n)), host::row(format!("{name}: slab"), move |n| slab(256, n))]
    };
    if host::is_counted(kinds.into_iter().flat_map(counted)) {
        return;
    }
    for (name, map, slab) in kinds {
        for capacity in [16, 256, 4_096, 65_536] {
            row(name, capacity, map, slab);
        }
    }
}
