//! A ring in plain Rust for benches, with the accesses of the rings of `iox_queues` in the same order, and cells by the remainder. All are
//! sequentially consistent, or loads acquire and stores release.
use std::marker::PhantomData;
use std::sync::atomic::{AtomicU64, Ordering};

/// How accesses to words are ordered.
pub trait Order: Send + Sync {
    const LOAD: Ordering;
    const STORE: Ordering;
    const EXCHANGE: Ordering;
}

pub struct SequentiallyConsistent;

impl Order for SequentiallyConsistent {
    const LOAD: Ordering = Ordering::SeqCst;
    const STORE: Ordering = Ordering::SeqCst;
    const EXCHANGE: Ordering = Ordering::SeqCst;
}

pub struct AcquireRelease;

impl Order for AcquireRelease {
    const LOAD: Ordering = Ordering::Acquire;
    const STORE: Ordering = Ordering::Release;
    const EXCHANGE: Ordering = Ordering::AcqRel;
}

pub struct SharedRing<O> {
    cells: Vec<AtomicU64>,
    write: AtomicU64,
    read: AtomicU64,
    limit: u64,
    order: PhantomData<O>,
}

impl<O: Order> SharedRing<O> {
    pub fn new(cells: usize, limit: u64) -> Self {
        let cells = (0..cells).map(|_| AtomicU64::new(0)).collect();
        SharedRing { cells, write: AtomicU64::new(0), read: AtomicU64::new(0), limit, order: PhantomData }
    }

    fn cell(&self, position: u64) -> &AtomicU64 {
        &self.cells[(position % self.cells.len() as u64) as usize]
    }

    /// Whether there was room.
    pub fn push(&self, value: u64) -> bool {
        let write = self.write.load(O::LOAD);
        let read = self.read.load(O::LOAD);
        if write - read >= self.limit {
            return false;
        }
        self.cell(write).store(value, O::STORE);
        self.write.store(write + 1, O::STORE);
        true
    }

    pub fn pop(&self) -> Option<u64> {
        let read = self.read.load(O::LOAD);
        let write = self.write.load(O::LOAD);
        if write == read {
            return None;
        }
        let value = self.cell(read).load(O::LOAD);
        self.read.store(read + 1, O::STORE);
        Some(value)
    }

    /// The oldest, where it had to go.
    pub fn push_over(&self, value: u64) -> Option<u64> {
        let write = self.write.load(O::LOAD);
        let read = self.read.load(O::LOAD);
        self.cell(write).store(value, O::STORE);
        self.write.store(write + 1, O::STORE);
        if write + 1 - read <= self.limit {
            return None;
        }
        let oldest = self.cell(read).load(O::LOAD);
        match self.read.compare_exchange(read, read + 1, O::EXCHANGE, O::LOAD) {
            Ok(_) => Some(oldest),
            Err(_) => None,
        }
    }

    pub fn pop_over(&self) -> Option<u64> {
        let mut read = self.read.load(O::LOAD);
        let write = self.write.load(O::LOAD);
        if write == read {
            return None;
        }
        loop {
            let value = self.cell(read).load(O::LOAD);
            match self.read.compare_exchange(read, read + 1, O::EXCHANGE, O::LOAD) {
                Ok(_) => return Some(value),
                Err(found) => read = found,
            }
        }
    }
}
