//! Rings in Rust, beside which the queues of `iox_queues` are counted: `queues count ROW ROUNDS` makes so many rounds of a row, and prints
//! its name and the sum of what came out. `queues PATH` times numbers one way between two threads, taking turns with the program `PATH`,
//! which is `threads_bench`.
use std::hint::{black_box, spin_loop};
use std::process::Command;
use std::sync::Arc;
use std::time::Instant;

#[path = "../counted.rs"]
mod counted;
#[path = "../ring.rs"]
mod ring;

use ring::{AcquireRelease, Order, SequentiallyConsistent, SharedRing};

/// A ring in a `Vec`, for one thread.
struct Ring {
    places: Vec<u64>,
    head: usize,
    len: usize,
}

impl Ring {
    fn new(capacity: usize) -> Self {
        Ring { places: vec![0; capacity], head: 0, len: 0 }
    }

    fn push(&mut self, item: u64) -> bool {
        if self.len == self.places.len() {
            return false;
        }
        let mut at = self.head + self.len;
        if at >= self.places.len() {
            at -= self.places.len();
        }
        self.places[at] = item;
        self.len += 1;
        true
    }

    fn pop(&mut self) -> Option<u64> {
        if self.len == 0 {
            return None;
        }
        let item = self.places[self.head];
        self.head += 1;
        if self.head == self.places.len() {
            self.head = 0;
        }
        self.len -= 1;
        Some(item)
    }

    fn push_over(&mut self, item: u64) -> Option<u64> {
        let oldest = if self.len == self.places.len() { self.pop() } else { None };
        self.push(item);
        oldest
    }
}

#[inline(never)]
fn ring_rounds(rounds: u64) -> u64 {
    let mut ring = Ring::new(64);
    for i in 0..32 {
        ring.push(i);
    }
    let mut sum = 0u64;
    for i in 0..rounds {
        if let Some(number) = ring.pop() {
            sum = sum.wrapping_add(number);
        }
        ring.push(i ^ sum);
    }
    sum
}

#[inline(never)]
fn ring_overflows(rounds: u64) -> u64 {
    let mut ring = Ring::new(64);
    let mut sum = 0u64;
    for i in 0..rounds {
        if let Some(number) = ring.push_over(i ^ sum) {
            sum = sum.wrapping_add(number);
        }
    }
    sum
}

#[inline(never)]
fn shared_ring_rounds<O: Order>(rounds: u64) -> u64 {
    let ring = Arc::new(SharedRing::<O>::new(64, 64));
    black_box(&ring);
    for i in 0..32 {
        ring.push(i);
    }
    let mut sum = 0u64;
    for i in 0..rounds {
        if let Some(number) = ring.pop() {
            sum = sum.wrapping_add(number);
        }
        ring.push(i ^ sum);
    }
    sum
}

#[inline(never)]
fn shared_ring_over_rounds<O: Order>(rounds: u64) -> u64 {
    let ring = Arc::new(SharedRing::<O>::new(65, 64));
    black_box(&ring);
    for i in 0..32 {
        ring.push_over(i);
    }
    let mut sum = 0u64;
    for i in 0..rounds {
        if let Some(number) = ring.pop_over() {
            sum = sum.wrapping_add(number);
        }
        ring.push_over(i ^ sum);
    }
    sum
}

#[inline(never)]
fn shared_ring_overflows<O: Order>(rounds: u64) -> u64 {
    let ring = Arc::new(SharedRing::<O>::new(65, 64));
    black_box(&ring);
    let mut sum = 0u64;
    for i in 0..rounds {
        if let Some(number) = ring.push_over(i ^ sum) {
            sum = sum.wrapping_add(number);
        }
    }
    sum
}

const COUNT: u64 = 5_000_000;
const TURNS: usize = 31;

/// Numbers one way between two threads of this program.
fn two_threads<O: Order + 'static>() -> (u64, f64) {
    let ring = Arc::new(SharedRing::<O>::new(64, 64));
    let theirs = Arc::clone(&ring);
    let start = Instant::now();
    let producer = std::thread::spawn(move || {
        let mut next = 0u64;
        while next != COUNT {
            if theirs.push(next) {
                next += 1;
            } else {
                spin_loop();
            }
        }
    });
    let (mut sum, mut got) = (0u64, 0u64);
    while got != COUNT {
        match ring.pop() {
            Some(number) => {
                sum = sum.wrapping_add(number);
                got += 1;
            }
            None => spin_loop(),
        }
    }
    producer.join().unwrap();
    (sum, start.elapsed().as_nanos() as f64 / COUNT as f64)
}

fn rattle_threads(path: &str) -> (u64, f64) {
    let output = Command::new(path).arg(COUNT.to_string()).output().unwrap();
    let text = String::from_utf8(output.stdout).unwrap();
    let mut words = text.split_whitespace();
    assert_eq!(words.next(), Some("true"));
    let sum = words.next().unwrap().parse().unwrap();
    let nanoseconds: f64 = words.next().unwrap().parse().unwrap();
    (sum, nanoseconds / COUNT as f64)
}

fn median(times: &mut [f64]) -> f64 {
    times.sort_by(f64::total_cmp);
    times[times.len() / 2]
}

const ROWS: [(&str, fn(u64) -> u64); 8] = [
    ("plain: pop and push: ring in a Vec", ring_rounds),
    ("plain: push into a full queue: ring in a Vec", ring_overflows),
    ("shared: pop and push: ring, sequentially consistent", shared_ring_rounds::<SequentiallyConsistent>),
    ("shared: pop and push: ring, acquire and release", shared_ring_rounds::<AcquireRelease>),
    ("shared, overflowing: pop and push: ring, sequentially consistent", shared_ring_over_rounds::<SequentiallyConsistent>),
    ("shared, overflowing: pop and push: ring, acquire and release", shared_ring_over_rounds::<AcquireRelease>),
    ("shared, overflowing: push into a full queue: ring, sequentially consistent", shared_ring_overflows::<SequentiallyConsistent>),
    ("shared, overflowing: push into a full queue: ring, acquire and release", shared_ring_overflows::<AcquireRelease>),
];

/// Prints the quotients of numbers between two threads: of the best of all turns, and of the middle ones.
fn time(path: &str) {
    let rings: [(&str, fn() -> (u64, f64)); 2] = [
        ("ring, sequentially consistent", two_threads::<SequentiallyConsistent>),
        ("ring, acquire and release", two_threads::<AcquireRelease>),
    ];
    let (mut ours, mut theirs) = (Vec::new(), [Vec::new(), Vec::new()]);
    for _ in 0..TURNS {
        let (our_sum, our_time) = rattle_threads(path);
        ours.push(our_time);
        for (times, (_, ring)) in theirs.iter_mut().zip(rings) {
            let (their_sum, their_time) = ring();
            assert_eq!(our_sum, their_sum);
            times.push(their_time);
        }
    }
    let middle_ours = median(&mut ours);
    for (mut times, (ring, _)) in theirs.into_iter().zip(rings) {
        let middle = median(&mut times);
        println!("two threads, one way, beside {ring}, best: {:.0} ns over {:.0} ns: {:.2}", ours[0], times[0], ours[0] / times[0]);
        println!("two threads, one way, beside {ring}, middle: {middle_ours:.0} ns over {middle:.0} ns: {:.2}", middle_ours / middle);
    }
}

fn main() {
    if counted::row(ROWS.len(), |row, rounds| (ROWS[row].0.to_string(), ROWS[row].1(rounds))) {
        return;
    }
    time(&std::env::args().nth(1).expect("the path of threads_bench"));
}
