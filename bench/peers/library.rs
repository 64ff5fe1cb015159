//! A plain library for publish-subscribe in one thread, of one service whose ports stay: what a Rust engineer writes who needs no more.
//! Messages lie in one pool of slots with counts of uses. Ports are found by number; loans and samples are values, which are used once.
use std::collections::VecDeque;

#[derive(Debug)]
pub enum Error { NoSuchPort, ExceedsMaxLoanSize, ExceedsMaxLoans, OutOfMemory, ExceedsMaxBorrows }

pub struct Loan { slot: usize }

pub struct Sample { slot: usize, connection: usize }

struct Publisher { loans: usize, most_loans: usize, connections: Vec<usize>, seen: usize }

struct Connection { waiting: VecDeque<usize>, borrowed: usize }

#[derive(Clone, Copy, Default)]
struct Slot { uses: usize, length: usize }

pub struct Service {
    buffer: usize,
    most_borrowed: usize,
    room: usize,
    slots: Vec<Slot>,
    values: Vec<u64>,
    free: Vec<usize>,
    publishers: Vec<Publisher>,
    /// The connections of each subscriber.
    subscribers: Vec<Vec<usize>>,
    connections: Vec<Connection>,
}

impl Service {
    /// So many slots, each with room for so many values.
    pub fn new(slots: usize, room: usize, buffer: usize, most_borrowed: usize) -> Self {
        let (free, values) = ((0..slots).rev().collect(), vec![0; slots * room]);
        let (publishers, subscribers, connections) = (Vec::new(), Vec::new(), Vec::new());
        Service { buffer, most_borrowed, room, slots: vec![Slot::default(); slots], values, free, publishers, subscribers, connections }
    }

    pub fn publisher(&mut self, most_loans: usize) -> usize {
        self.publishers.push(Publisher { loans: 0, most_loans, connections: Vec::new(), seen: 0 });
        self.publishers.len() - 1
    }

    pub fn subscriber(&mut self) -> usize {
        self.subscribers.push(Vec::new());
        self.subscribers.len() - 1
    }

    fn connect(&mut self, publisher: usize) {
        let publisher = &mut self.publishers[publisher];
        for subscriber in &mut self.subscribers[publisher.seen..] {
            publisher.connections.push(self.connections.len());
            subscriber.push(self.connections.len());
            self.connections.push(Connection { waiting: VecDeque::with_capacity(self.buffer), borrowed: 0 });
        }
        publisher.seen = self.subscribers.len();
    }

    fn let_go(&mut self, slot: usize) {
        self.slots[slot].uses -= 1;
        if self.slots[slot].uses == 0 {
            self.free.push(slot);
        }
    }

    pub fn loan(&mut self, publisher: usize, length: usize) -> Result<Loan, Error> {
        let publisher = self.publishers.get_mut(publisher).ok_or(Error::NoSuchPort)?;
        if length > self.room {
            return Err(Error::ExceedsMaxLoanSize);
        }
        if publisher.loans == publisher.most_loans {
            return Err(Error::ExceedsMaxLoans);
        }
        let slot = self.free.pop().ok_or(Error::OutOfMemory)?;
        publisher.loans += 1;
        self.slots[slot] = Slot { uses: 1, length };
        Ok(Loan { slot })
    }

    pub fn payload_mut(&mut self, loan: &Loan) -> &mut [u64] {
        &mut self.values[loan.slot * self.room..][..self.slots[loan.slot].length]
    }

    /// How many mailboxes took it. A full one drops its oldest message.
    pub fn send(&mut self, publisher: usize, Loan { slot }: Loan) -> Result<usize, Error> {
        if self.publishers.get(publisher).ok_or(Error::NoSuchPort)?.seen != self.subscribers.len() {
            self.connect(publisher);
        }
        let count = self.publishers[publisher].connections.len();
        for index in 0..count {
            let connection = &mut self.connections[self.publishers[publisher].connections[index]];
            let oldest = if connection.waiting.len() == self.buffer { connection.waiting.pop_front() } else { None };
            connection.waiting.push_back(slot);
            self.slots[slot].uses += 1;
            if let Some(oldest) = oldest {
                self.let_go(oldest);
            }
        }
        self.publishers[publisher].loans -= 1;
        self.let_go(slot);
        Ok(count)
    }

    pub fn receive(&mut self, subscriber: usize) -> Result<Option<Sample>, Error> {
        let mut waits = false;
        for &connection in self.subscribers.get(subscriber).ok_or(Error::NoSuchPort)? {
            let it = &mut self.connections[connection];
            if it.borrowed < self.most_borrowed
                && let Some(slot) = it.waiting.pop_front()
            {
                it.borrowed += 1;
                return Ok(Some(Sample { slot, connection }));
            }
            waits |= !it.waiting.is_empty();
        }
        if waits { Err(Error::ExceedsMaxBorrows) } else { Ok(None) }
    }

    pub fn payload(&self, sample: &Sample) -> &[u64] {
        &self.values[sample.slot * self.room..][..self.slots[sample.slot].length]
    }

    pub fn release(&mut self, Sample { slot, connection }: Sample) {
        self.connections[connection].borrowed -= 1;
        self.let_go(slot);
    }
}
