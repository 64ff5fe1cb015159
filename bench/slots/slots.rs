//! The slots of a publisher beside plain ones, in one run.
use std::collections::VecDeque;
use std::hint::black_box;
use std::time::Instant;

unsafe extern "C" {
    fn slots_cycle(slots: usize, connections: usize, rounds: u64) -> u64;
    fn loans_cycle(loans: usize, rounds: u64) -> u64;
}

#[path = "../host.rs"]
mod host;

/// A connection as one writes it by hand: a ring of what waits, a list of what is borrowed, a ring of what came back.
struct Connection {
    waiting: VecDeque<u64>,
    borrowed: Vec<u64>,
    returned: VecDeque<u64>,
}

/// Slots with a free list and reference counts.
struct Publisher {
    free: Vec<usize>,
    references: Vec<u64>,
    loans: Vec<usize>,
    connections: Vec<Connection>,
}

impl Publisher {
    fn new(slots: usize, connections: usize) -> Self {
        Publisher {
            free: (0..slots).rev().collect(),
            references: vec![0; slots],
            loans: Vec::with_capacity(2),
            connections: (0..connections)
                .map(|_| Connection {
                    waiting: VecDeque::with_capacity(2),
                    borrowed: Vec::with_capacity(2),
                    returned: VecDeque::with_capacity(5),
                })
                .collect(),
        }
    }

    fn let_go(&mut self, slot: usize) {
        self.references[slot] -= 1;
        if self.references[slot] == 0 {
            self.free.push(slot);
        }
    }

    fn loan(&mut self) -> Option<usize> {
        for index in 0..self.connections.len() {
            while let Some(slot) = self.connections[index].returned.pop_front() {
                self.let_go(slot as usize);
            }
        }
        let slot = self.free.pop()?;
        self.references[slot] = 1;
        self.loans.push(slot);
        Some(slot)
    }

    fn begin(&mut self, slot: usize) {
        let at = self.loans.iter().position(|it| *it == slot).unwrap();
        self.loans.remove(at);
    }

    fn offer(&mut self, index: usize, slot: usize) {
        self.references[slot] += 1;
        let connection = &mut self.connections[index];
        connection.waiting.push_back(slot as u64);
        if connection.waiting.len() > 2 {
            if let Some(oldest) = connection.waiting.pop_front() {
                self.let_go(oldest as usize);
            }
        }
    }

    fn consume(&mut self, index: usize) -> u64 {
        let connection = &mut self.connections[index];
        let Some(slot) = connection.waiting.pop_front() else {
            return 0;
        };
        connection.borrowed.push(slot);
        let at = connection.borrowed.iter().position(|it| *it == slot).unwrap();
        let slot = connection.borrowed.remove(at);
        connection.returned.push_back(slot);
        slot
    }
}

#[inline(never)]
fn plain_cycle(slots: usize, connections: usize, rounds: u64) -> u64 {
    let mut publisher = Publisher::new(black_box(slots), black_box(connections));
    let mut sum = 0u64;
    for _ in 0..black_box(rounds) {
        let Some(slot) = publisher.loan() else {
            return 0;
        };
        publisher.begin(slot);
        for index in 0..connections {
            publisher.offer(index, slot);
        }
        publisher.let_go(slot);
        for index in 0..connections {
            sum = sum.wrapping_add(publisher.consume(index)).wrapping_add(1);
        }
    }
    sum
}

fn best(runs: usize, rounds: u64, cycle: impl Fn() -> u64) -> (f64, u64) {
    let mut best = (f64::MAX, 0);
    for _ in 0..runs {
        let start = Instant::now();
        let sum = cycle();
        let time = start.elapsed().as_nanos() as f64 / rounds as f64;
        if time < best.0 {
            best = (time, sum);
        }
    }
    best
}

fn main() {
    let cases = [(8, 1), (8_192, 1), (12, 4), (8_192, 4)];
    let counted = |(slots, connections)| {
        let name = format!("{slots} slots, {connections} connections");
        [
            host::row(format!("{name}: ours"), move |n| unsafe { slots_cycle(slots, connections, n) }),
            host::row(format!("{name}: plain"), move |n| plain_cycle(slots, connections, n)),
        ]
    };
    if host::is_counted(cases.into_iter().flat_map(counted)) {
        return;
    }
    println!("slots connections   ours ns  plain ns  quotient");
    for (slots, connections) in cases {
        let rounds = 1_000_000;
        let ours = best(9, rounds, || unsafe { slots_cycle(slots, connections, rounds) });
        let plain = best(9, rounds, || plain_cycle(slots, connections, rounds));
        assert_eq!(ours.1, plain.1, "other slots came");
        println!("{slots:5} {connections:11} {:9.2} {:9.2} {:9.2}", ours.0, plain.0, ours.0 / plain.0);
    }
    let sends = 5_000_000;
    let alone = best(3, sends, || unsafe { loans_cycle(0, sends) });
    println!("loans out   a send ns   over none");
    for loans in [1_000, 10_000, 100_000] {
        let among = best(3, sends, || unsafe { loans_cycle(loans, sends) });
        assert_eq!((alone.1, among.1), (sends, sends), "a send didn't go through");
        println!("{loans:9} loans out {:9.2} {:9.2}", among.0, among.0 / alone.0);
    }
    let (few, many) = (10_000, 10_000_000);
    let short = best(9, few, || unsafe { slots_cycle(8, 1, few) }).0;
    let long = best(1, many, || unsafe { slots_cycle(8, 1, many) }).0;
    println!("a cycle of 10^4: {short:.2} ns, of 10^7: {long:.2} ns");
}
