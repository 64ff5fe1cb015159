//! `FixedSizeQueue` beside a plain ring of the same capacity, in one run.
use std::time::Instant;

unsafe extern "C" {
    fn queue_rounds(rounds: u64) -> u64;
    fn queue_overflows(rounds: u64) -> u64;
}

#[path = "../host.rs"]
mod host;

struct Ring {
    places: Box<[u64]>,
    head: usize,
    len: usize,
}

impl Ring {
    fn new(capacity: usize) -> Self {
        Ring { places: vec![0; capacity].into_boxed_slice(), head: 0, len: 0 }
    }

    fn push(&mut self, item: u64) -> bool {
        if self.len == self.places.len() {
            return false;
        }
        let mut at = self.head + self.len;
        if at >= self.places.len() {
            at -= self.places.len();
        }
        self.places[at] = item;
        self.len += 1;
        true
    }

    fn pop(&mut self) -> Option<u64> {
        if self.len == 0 {
            return None;
        }
        let item = self.places[self.head];
        self.head += 1;
        if self.head == self.places.len() {
            self.head = 0;
        }
        self.len -= 1;
        Some(item)
    }

    fn push_with_overflow(&mut self, item: u64) -> Option<u64> {
        let oldest = if self.len == self.places.len() { self.pop() } else { None };
        self.push(item);
        oldest
    }
}

#[inline(never)]
fn ring_rounds(rounds: u64) -> u64 {
    let mut ring = Ring::new(std::hint::black_box(64));
    for i in 0..32 {
        ring.push(i);
    }
    let mut sum = 0u64;
    for i in 0..rounds {
        if let Some(item) = ring.pop() {
            sum = sum.wrapping_add(item);
        }
        ring.push(i ^ sum);
    }
    sum
}

#[inline(never)]
fn ring_overflows(rounds: u64) -> u64 {
    let mut ring = Ring::new(std::hint::black_box(64));
    let mut sum = 0u64;
    for i in 0..rounds {
        if let Some(item) = ring.push_with_overflow(i ^ sum) {
            sum = sum.wrapping_add(item);
        }
    }
    sum
}

/// Nanoseconds a round, and what came out.
fn nanoseconds(run: impl Fn(u64) -> u64, rounds: u64) -> (f64, u64) {
    let start = Instant::now();
    let sum = run(rounds);
    (start.elapsed().as_nanos() as f64 / rounds as f64, sum)
}

/// The two in turn, so that other load on the machine meets both; the best of 31 short runs counts.
fn row(name: &str, queue: Side, ring: Side) {
    let rounds = 2_000_000;
    let (mut ours, mut plain) = (f64::MAX, f64::MAX);
    for _ in 0..31 {
        let (time, one) = nanoseconds(ring, rounds);
        plain = plain.min(time);
        let (time, other) = nanoseconds(queue, rounds);
        ours = ours.min(time);
        assert_eq!(one, other, "both give the same items");
    }
    println!("{name}: queue {ours:.2} ns, ring {plain:.2} ns, quotient {:.2}", ours / plain);
}

type Side = fn(u64) -> u64;

fn main() {
    let rows: [(&str, Side, Side); 2] = [
        ("pop and push", |n| unsafe { queue_rounds(n) }, ring_rounds),
        ("push with overflow", |n| unsafe { queue_overflows(n) }, ring_overflows),
    ];
    let sides = |(name, queue, ring)| [host::row(format!("{name}: queue"), queue), host::row(format!("{name}: ring"), ring)];
    if host::is_counted(rows.into_iter().flat_map(sides)) {
        return;
    }
    for (name, queue, ring) in rows {
        row(name, queue, ring);
    }
}
