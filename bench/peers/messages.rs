//! Messages in one thread, as people write or take them: `messages count ROW ROUNDS` makes so many rounds of a row, and prints its name and
//! the sum of what was read. A round is a loan of so many values, wholly written, a send to each subscriber, and at each a receive, a read
//! of all values and a release. With `--cfg crossbeam` the rows of its queue are there, too.
use std::hint::black_box;
use std::sync::{Arc, mpsc};

#[allow(dead_code)]
mod hub;
mod library;

#[path = "../counted.rs"]
mod counted;

use hub::{Asked, Hub, Way};
use library::Service;

type Side = fn(subscribers: usize, values: usize, rounds: u64) -> u64;

const CASES: [(usize, usize); 3] = [(1, 1), (4, 1), (1, 512)];
const SIDES: &[(&str, Side)] = &[
    ("plain library", of_library),
    ("plain hub, by number", of_hub),
    ("std's channel of Arc", of_channels),
    #[cfg(crossbeam)]
    ("crossbeam's ArrayQueue of Arc", of_crossbeam),
];

fn sum(values: &[u64]) -> u64 {
    values.iter().fold(0, |sum, it| sum.wrapping_add(*it))
}

/// Makes rounds of a form: a message's values are sent, and each subscriber sums what it reads.
fn rounds(values: usize, count: u64, mut round: impl FnMut(&[u64]) -> u64) -> u64 {
    let mut payload = vec![1; values];
    (0..count).fold(0, |sum, number| {
        payload[0] = number;
        sum.wrapping_add(round(black_box(&payload)))
    })
}

fn of_library(subscribers: usize, values: usize, count: u64) -> u64 {
    let mut service = Service::new(4 + 4 * subscribers, values, 2, 2);
    let publisher = black_box(service.publisher(2));
    let ports: Vec<usize> = (0..subscribers).map(|_| service.subscriber()).collect();
    rounds(values, count, |payload| {
        let loan = service.loan(publisher, payload.len()).unwrap();
        service.payload_mut(&loan).copy_from_slice(payload);
        service.send(publisher, loan).unwrap();
        let received = ports.iter().map(|port| {
            let sample = service.receive(*port).unwrap().unwrap();
            let read = sum(service.payload(&sample));
            service.release(sample);
            read
        });
        received.fold(0, u64::wrapping_add)
    })
}

/// Loans and samples are found by number, as a line names them.
fn of_hub(subscribers: usize, values: usize, count: u64) -> u64 {
    let mut hub = Hub::default();
    let node = hub.node();
    let factory = hub.agree(Way::Create, node, b"A", &Asked::default()).ok().unwrap();
    let publisher = hub.publisher(factory, [None, None, Some(values as u64), None, None, None, None]).ok().unwrap();
    let ports: Vec<u64> = (0..subscribers).map(|_| hub.subscriber(factory, [None; 2]).ok().unwrap()).collect();
    rounds(values, count, |payload| {
        let loan = hub.loan(publisher, payload.len() as u64, false).ok().unwrap();
        hub.fill(loan, payload).ok().unwrap();
        hub.send(loan).ok().unwrap();
        let received = ports.iter().map(|port| {
            let (sample, _) = hub.receive(*port).ok().unwrap().unwrap();
            let read = sum(hub.read(sample).ok().unwrap());
            hub.release(sample).ok().unwrap();
            read
        });
        received.fold(0, u64::wrapping_add)
    })
}

fn of_channels(subscribers: usize, values: usize, count: u64) -> u64 {
    let (to, from): (Vec<_>, Vec<_>) = (0..subscribers).map(|_| mpsc::sync_channel::<Arc<[u64]>>(2)).unzip();
    rounds(values, count, |payload| {
        let message: Arc<[u64]> = Arc::from(payload);
        to.iter().for_each(|it| it.try_send(message.clone()).unwrap());
        drop(message);
        from.iter().map(|it| sum(&it.try_recv().unwrap())).fold(0, u64::wrapping_add)
    })
}

/// `force_push` drops the oldest where the queue is full.
#[cfg(crossbeam)]
fn of_crossbeam(subscribers: usize, values: usize, count: u64) -> u64 {
    let mailboxes: Vec<_> = (0..subscribers).map(|_| crossbeam_queue::ArrayQueue::<Arc<[u64]>>::new(2)).collect();
    rounds(values, count, |payload| {
        let message: Arc<[u64]> = Arc::from(payload);
        mailboxes.iter().for_each(|it| drop(it.force_push(message.clone())));
        drop(message);
        mailboxes.iter().map(|it| sum(&it.pop().unwrap())).fold(0, u64::wrapping_add)
    })
}

fn main() {
    counted::row(CASES.len() * SIDES.len(), |row, rounds| {
        let ((subscribers, values), (side, run)) = (CASES[row / SIDES.len()], SIDES[row % SIDES.len()]);
        let sum = run(black_box(subscribers), black_box(values), rounds);
        (format!("{subscribers} subscribers, {} bytes: {side}", 8 * values), sum)
    });
}
