//! Messages from a publisher to its subscribers, in forms of plain Rust that differ by what a payload is and by how accesses are ordered.
//! `threads count ROW ROUNDS` makes so many rounds of a row in this thread alone, and prints its name and the sum of what was read.
//! `threads PATH` times them in threads, taking turns with the program `PATH`, which is `lane_threads_bench`.
use std::cell::UnsafeCell;
use std::hint::black_box;
use std::process::Command;
use std::sync::atomic::AtomicU64;
use std::thread;
use std::time::Instant;

#[path = "../counted.rs"]
mod counted;
#[path = "../ring.rs"]
mod ring;

use ring::{AcquireRelease, Order, SequentiallyConsistent, SharedRing};
use std::marker::PhantomData;

#[derive(Clone, Copy)]
struct Asked {
    each: bool,
    subscribers: usize,
    words: usize,
}

impl Asked {
    fn slots(self) -> usize {
        9 * self.subscribers + 2
    }

    fn name(self) -> String {
        let Asked { each, subscribers, words } = self;
        if each { format!("one way, {} bytes", 8 * words) } else { format!("stream, {subscribers} subscribers, {} bytes", 8 * words) }
    }
}

/// The payloads of the slots, from a word on. A slot is written only while no connection has it.
trait Payloads: Sync {
    /// Whether each message has the accesses of a lane: three words of a header, stored by a send and loaded by a read, and what came back
    /// taken back by a send, too.
    const IS_LANE: bool = false;

    fn new(words: usize) -> Self;
    fn write(&self, at: usize, payload: &[u64]);
    fn read(&self, at: usize, payload: &mut [u64]);
}

struct Plain(Vec<UnsafeCell<u64>>);

unsafe impl Sync for Plain {}

impl Payloads for Plain {
    fn new(words: usize) -> Self {
        Plain((0..words).map(|_| UnsafeCell::new(0)).collect())
    }

    fn write(&self, at: usize, payload: &[u64]) {
        let words = self.0[at..][..payload.len()].as_ptr().cast::<u64>().cast_mut();
        unsafe { std::ptr::copy_nonoverlapping(payload.as_ptr(), words, payload.len()) };
    }

    fn read(&self, at: usize, payload: &mut [u64]) {
        let words = self.0[at..][..payload.len()].as_ptr().cast::<u64>();
        unsafe { std::ptr::copy_nonoverlapping(words, payload.as_mut_ptr(), payload.len()) };
    }
}

struct Atomics<O>(Vec<AtomicU64>, PhantomData<O>);

impl<O: Order> Payloads for Atomics<O> {
    fn new(words: usize) -> Self {
        Atomics((0..words).map(|_| AtomicU64::new(0)).collect(), PhantomData)
    }

    fn write(&self, at: usize, payload: &[u64]) {
        self.0[at..].iter().zip(payload).for_each(|(word, value)| word.store(*value, O::STORE));
    }

    fn read(&self, at: usize, payload: &mut [u64]) {
        self.0[at..].iter().zip(payload).for_each(|(word, value)| *value = word.load(O::LOAD));
    }
}

/// The words of a header.
const HEADER: [u64; 3] = [1, 2, 1];

/// Words with three words of a header before each payload.
struct Lane(Atomics<SequentiallyConsistent>);

impl Payloads for Lane {
    const IS_LANE: bool = true;

    fn new(words: usize) -> Self {
        Lane(Atomics::new(words))
    }

    fn write(&self, at: usize, payload: &[u64]) {
        self.0.write(at, payload);
    }

    fn read(&self, at: usize, payload: &mut [u64]) {
        self.0.read(at, payload);
    }
}

/// What the threads share: for each connection the ring of messages and that of what was given back.
struct Service<O, P> {
    asked: Asked,
    payloads: P,
    connections: Vec<(SharedRing<O>, SharedRing<O>)>,
}

impl<O: Order, P: Payloads> Service<O, P> {
    fn new(asked: Asked) -> Self {
        let cells = if asked.each { 8 } else { 9 };
        let connections = (0..asked.subscribers).map(|_| (SharedRing::new(cells, 8), SharedRing::new(10, 10))).collect();
        Service { asked, payloads: P::new(asked.slots() * Self::width(asked)), connections }
    }

    /// How many words a slot has.
    fn width(asked: Asked) -> usize {
        asked.words + if P::IS_LANE { HEADER.len() } else { 0 }
    }

    /// Reads the next message, whose slot is given back; whether there was one.
    fn receive(&self, place: usize, payload: &mut [u64]) -> bool {
        let (messages, returned) = &self.connections[place];
        let Some(slot) = (if self.asked.each { messages.pop() } else { messages.pop_over() }) else {
            return false;
        };
        let at = slot as usize * Self::width(self.asked);
        if P::IS_LANE {
            let mut header = HEADER;
            self.payloads.read(at, &mut header);
            black_box(header);
            self.payloads.read(at + HEADER.len(), payload);
        } else {
            self.payloads.read(at, payload);
        }
        returned.push(slot);
        true
    }

    /// Receives until the last number comes: the sum of all that was read.
    fn receive_all(&self, place: usize, last: u64) -> u64 {
        let (mut payload, mut sum) = (vec![0u64; self.asked.words], 0u64);
        while payload[0] != last {
            if self.receive(place, &mut payload) {
                sum = payload.iter().fold(sum, |sum, it| sum.wrapping_add(*it));
            } else {
                thread::yield_now();
            }
        }
        sum
    }
}

/// A publisher: its free slots, and how many uses each has.
struct Publisher<'a, O, P> {
    service: &'a Service<O, P>,
    free: Vec<u64>,
    uses: Vec<u64>,
}

impl<'a, O: Order, P: Payloads> Publisher<'a, O, P> {
    fn new(service: &'a Service<O, P>) -> Self {
        let slots = service.asked.slots();
        Publisher { service, free: (0..slots as u64).rev().collect(), uses: vec![0; slots] }
    }

    fn let_go(&mut self, slot: u64) {
        self.uses[slot as usize] -= 1;
        if self.uses[slot as usize] == 0 {
            self.free.push(slot);
        }
    }

    fn take_back(&mut self) {
        for (_, returned) in &self.service.connections {
            while let Some(slot) = returned.pop() {
                self.let_go(slot);
            }
        }
    }

    fn loan(&mut self) -> u64 {
        self.take_back();
        let slot = self.free.pop().unwrap();
        self.uses[slot as usize] = 1;
        slot
    }

    /// Whether each took it.
    fn send(&mut self, payload: &[u64]) -> bool {
        let (service, slot, mut refused) = (self.service, self.loan(), 0);
        let at = slot as usize * Service::<O, P>::width(service.asked);
        if P::IS_LANE {
            service.payloads.write(at + HEADER.len(), payload);
            service.payloads.write(at, &HEADER);
            self.take_back();
        } else {
            service.payloads.write(at, payload);
        }
        for (messages, _) in &service.connections {
            self.uses[slot as usize] += 1;
            if service.asked.each {
                if !messages.push(slot) {
                    self.let_go(slot);
                    refused += 1;
                }
            } else if let Some(oldest) = messages.push_over(slot) {
                self.let_go(oldest);
            }
        }
        self.let_go(slot);
        refused == 0
    }

    fn send_all(&mut self, count: u64) {
        let mut payload = vec![0u64; self.service.asked.words];
        for number in 1..=count {
            payload[0] = number;
            while !self.send(&payload) {
                thread::yield_now();
            }
        }
    }
}

/// The sum of all that was read of so many messages, each in its turn.
fn in_turn<O: Order, P: Payloads>(asked: Asked, count: u64) -> u64 {
    let service = Service::<O, P>::new(asked);
    let (mut publisher, mut sum) = (Publisher::new(&service), 0u64);
    let (mut payload, mut read) = (vec![0u64; asked.words], vec![0u64; asked.words]);
    for number in 1..=count {
        payload[0] = number;
        assert!(publisher.send(&payload), "a message was refused");
        for place in 0..asked.subscribers {
            assert!(service.receive(place, &mut read), "a message didn't come");
            sum = read.iter().fold(sum, |sum, it| sum.wrapping_add(*it));
        }
    }
    sum
}

/// The sum of all that was read in threads, and the nanoseconds of a message.
fn in_threads<O: Order, P: Payloads>(asked: Asked, count: u64) -> (u64, f64) {
    let service = &Service::<O, P>::new(asked);
    let start = Instant::now();
    let sum = thread::scope(|scope| {
        scope.spawn(|| Publisher::new(service).send_all(count));
        let receivers: Vec<_> = (0..asked.subscribers).map(|place| scope.spawn(move || service.receive_all(place, count))).collect();
        receivers.into_iter().fold(0u64, |sum, it| sum.wrapping_add(it.join().unwrap()))
    });
    (sum, start.elapsed().as_nanos() as f64 / count as f64)
}

fn ours(path: &str, asked: Asked, count: u64) -> (u64, f64) {
    let numbers = [u64::from(asked.each), asked.subscribers as u64, asked.words as u64, count];
    let output = Command::new(path).args(numbers.map(|it| it.to_string())).output().unwrap();
    let text = String::from_utf8(output.stdout).unwrap();
    let mut words = text.split_whitespace();
    assert_eq!(words.next(), Some("true"));
    let sum = words.next().unwrap().parse().unwrap();
    let nanoseconds: f64 = words.next().unwrap().parse().unwrap();
    (sum, nanoseconds / count as f64)
}

type InTurn = fn(Asked, u64) -> u64;
type InThreads = fn(Asked, u64) -> (u64, f64);
type Words<O> = Atomics<O>;

/// A form: its name, and its rounds in one thread and in threads.
const fn form<O: Order, P: Payloads>(name: &'static str) -> (&'static str, InTurn, InThreads) {
    (name, in_turn::<O, P>, in_threads::<O, P>)
}

const FORMS: [(&str, InTurn, InThreads); 7] = [
    form::<SequentiallyConsistent, Plain>("plain bytes, rings sequentially consistent"),
    form::<SequentiallyConsistent, Words<SequentiallyConsistent>>("words and rings sequentially consistent"),
    form::<SequentiallyConsistent, Lane>("all accesses of a lane, sequentially consistent"),
    form::<SequentiallyConsistent, Words<AcquireRelease>>("words acquire and release, rings sequentially consistent"),
    form::<AcquireRelease, Plain>("plain bytes, rings acquire and release"),
    form::<AcquireRelease, Words<SequentiallyConsistent>>("words sequentially consistent, rings acquire and release"),
    form::<AcquireRelease, Words<AcquireRelease>>("words and rings acquire and release"),
];
const CASES: [(Asked, u64); 4] = [
    (Asked { each: true, subscribers: 1, words: 1 }, 200_000),
    (Asked { each: true, subscribers: 1, words: 512 }, 10_000),
    (Asked { each: false, subscribers: 1, words: 1 }, 200_000),
    (Asked { each: false, subscribers: 4, words: 1 }, 100_000),
];
const TURNS: usize = 9;

/// Prints the quotients of a case: of the best of all turns, and of the middle ones.
fn time(path: &str, asked: Asked, count: u64) {
    let (mut our_times, mut their_times) = (Vec::new(), FORMS.map(|_| Vec::new()));
    for _ in 0..TURNS {
        let (our_sum, our_time) = ours(path, asked, count);
        our_times.push(our_time);
        for (times, (_, _, form)) in their_times.iter_mut().zip(FORMS) {
            let (their_sum, their_time) = form(asked, count);
            assert!(!asked.each || our_sum == their_sum, "other values came");
            times.push(their_time);
        }
    }
    our_times.sort_by(f64::total_cmp);
    for (mut times, (form, ..)) in their_times.into_iter().zip(FORMS) {
        times.sort_by(f64::total_cmp);
        for (which, at) in [("best", 0), ("middle", TURNS / 2)] {
            let (ours, theirs) = (our_times[at], times[at]);
            println!("{}, beside {form}, {which}: {ours:.0} ns over {theirs:.0} ns: {:.2}", asked.name(), ours / theirs);
        }
    }
}

fn main() {
    let is_counted = counted::row(CASES.len() * FORMS.len(), |row, rounds| {
        let ((asked, _), (form, in_turn, _)) = (CASES[row / FORMS.len()], FORMS[row % FORMS.len()]);
        (format!("{}: {form}", asked.name()), in_turn(asked, rounds))
    });
    if !is_counted {
        let path = std::env::args().nth(1).expect("the path of lane_threads_bench");
        CASES.into_iter().for_each(|(asked, count)| time(&path, asked, count));
    }
}
