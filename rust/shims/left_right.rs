//! Rattle's `left_right`: two copies of a value, of which readers take one with no lock while the writer changes the
//! other. The way is that of Rust's crate of this name, for a number of readers that is fixed from the beginning.
//# crossbeam_utils
use crossbeam_utils::{Backoff, CachePadded};
use kit::alloc::{AllocError, Global};
use kit::sync::Arc;
use kit::vec::Vec;
use std::cell::UnsafeCell;
use std::collections::VecDeque;
use std::marker::PhantomData;
use std::sync::atomic::{AtomicU64, Ordering::SeqCst};

/// A value that takes in operations, each of which both copies absorb.
pub trait Absorb<O> {
    /// What the two copies have in common, to proofs.
    type State;
    fn absorb_first(&mut self, operation: &O, other: &Self) -> Result<(), AllocError>;
    /// The operation comes back where it could not be absorbed.
    fn absorb_second(&mut self, operation: O, other: &Self) -> Result<(), O> {
        self.absorb_first(&operation, other).map_err(|AllocError| operation)
    }
}

// What is shown: the copy 0 or 1, or nothing more.
const ENDED: u64 = 2;
// A reader's place: nobody has it, or a reader that reads nothing, or, from AT on, one that is at the copy 0 or 1.
const FREE: u64 = 0;
const IDLE: u64 = 1;
const AT: u64 = 2;

struct Board<T> {
    copies: [UnsafeCell<T>; 2],
    shown: AtomicU64,
    places: Vec<CachePadded<AtomicU64>>,
}
// SAFETY: the writer changes a copy only while no reader is at it.
unsafe impl<T: Send> Send for Board<T> {}
unsafe impl<T: Send + Sync> Sync for Board<T> {}

impl<T> Board<T> {
    // Waits until no reader is at a copy that is not shown. A reader says where it is before it looks again at what is
    // shown, and all of this is in one order: so one that is not seen here finds the other copy shown.
    fn await_readers(&self, side: usize) {
        for place in &self.places {
            let backoff = Backoff::new();
            while place.load(SeqCst) == AT + side as u64 {
                backoff.snooze();
            }
        }
    }
}

pub mod reader {
    use super::*;

    /// A reader that is not reading.
    pub struct Reader<T, V, P> {
        pub(crate) board: Arc<Board<T>>,
        pub(crate) index: usize,
        pub(crate) marker: PhantomData<fn() -> (V, P)>,
    }
    /// A reader with the value that it reads.
    pub struct Reading<T, V, P>(Reader<T, V, P>, usize);

    impl<T, V, P> Reader<T, V, P> {
        /// Takes the value that was published last. The reader comes back where the writer is gone.
        pub fn enter_as<M>(self) -> Result<Reading<T, V, P>, Reader<T, V, P>> {
            let place = &self.board.places[self.index];
            let mut side = self.board.shown.load(SeqCst);
            while side < ENDED {
                place.store(AT + side, SeqCst);
                let again = self.board.shown.load(SeqCst);
                if again == side {
                    return Ok(Reading(self, side as usize));
                }
                side = again;
            }
            place.store(IDLE, SeqCst);
            Err(self)
        }
    }
    impl<T, V, P> Reading<T, V, P> {
        pub fn get(&self) -> &T {
            // SAFETY: the writer waits until this reader leaves.
            unsafe { &*self.0.board.copies[self.1].get() }
        }
        pub fn leave(self) -> Reader<T, V, P> {
            self.0.board.places[self.0.index].store(IDLE, SeqCst);
            self.0
        }
    }
    impl<T, V, P> Drop for Reader<T, V, P> {
        fn drop(&mut self) {
            self.board.places[self.index].store(FREE, SeqCst);
        }
    }
}

pub mod writer {
    use super::reader::Reader;
    use super::*;

    /// The writer, with the operations that one of the copies lacks.
    pub struct Writer<T, O, V, P> {
        board: Arc<Board<T>>,
        shown: usize,
        log: VecDeque<O>,
        // So many operations at the front are in the copy that is shown, and not in the spare one.
        behind: usize,
        // So many after those are in the spare copy alone.
        ahead: usize,
        marker: PhantomData<fn() -> (V, P)>,
    }
    impl<T: Absorb<O>, O, V, P> Writer<T, O, V, P> {
        /// Two copies that are alike, and room for so many readers.
        pub fn new(alloc: Global, first: T, second: T, readers: usize) -> Result<Self, AllocError> {
            let mut places = Vec::with_capacity(alloc, readers)?;
            for _ in 0..readers {
                places.push_reserved(CachePadded::new(AtomicU64::new(FREE)));
            }
            let copies = [UnsafeCell::new(first), UnsafeCell::new(second)];
            let board = Arc::new(alloc, Board { copies, shown: AtomicU64::new(0), places })?;
            Ok(Writer { board, shown: 0, log: VecDeque::new(), behind: 0, ahead: 0, marker: PhantomData })
        }
        /// What makes readers.
        pub fn factory(&self) -> &Self {
            self
        }
        /// An error where each place is in use.
        pub fn reader(&self) -> Result<Reader<T, V, P>, AllocError> {
            let is_had = |place: &CachePadded<AtomicU64>| place.compare_exchange(FREE, IDLE, SeqCst, SeqCst).is_ok();
            let index = self.board.places.iter().position(is_had).ok_or(AllocError)?;
            Ok(Reader { board: Arc::try_clone(&self.board)?, index, marker: PhantomData })
        }
        /// The operation comes back where there is no memory.
        pub fn append(&mut self, operation: O) -> Result<(), O> {
            if self.log.try_reserve(1).is_err() {
                return Err(operation);
            }
            self.log.push_back(operation);
            Ok(())
        }
        /// Shows readers a copy that has each operation, after those who still read that copy. At an error an operation
        /// could not be absorbed, and readers see what they saw.
        pub fn publish_as<M, R>(mut self, _rt: &R) -> (Self, Result<(), AllocError>) {
            let done = self.bring_up();
            if done.is_ok() {
                self.shown = 1 - self.shown;
                self.board.shown.store(self.shown as u64, SeqCst);
                (self.behind, self.ahead) = (self.ahead, 0);
            }
            (self, done)
        }
        // Applies what the spare copy lacks: first what the other has, then what neither has.
        fn bring_up(&mut self) -> Result<(), AllocError> {
            self.board.await_readers(1 - self.shown);
            // SAFETY: no reader is at the spare copy, and none comes to it until it is shown.
            let spare = unsafe { &mut *self.board.copies[1 - self.shown].get() };
            let shown = unsafe { &*self.board.copies[self.shown].get() };
            while self.behind > 0 {
                let Some(operation) = self.log.pop_front() else {
                    break;
                };
                if let Err(operation) = spare.absorb_second(operation, shown) {
                    self.log.push_front(operation);
                    return Err(AllocError);
                }
                self.behind -= 1;
            }
            while self.ahead < self.log.len() {
                spare.absorb_first(&self.log[self.ahead], shown)?;
                self.ahead += 1;
            }
            // Where an operation panicked, the copy is not as it should be.
            if kit::panics::is_kept() { Err(AllocError) } else { Ok(()) }
        }
        /// Ends it: readers see nothing more, and each view that is under way is waited for.
        pub fn take<R>(self, _rt: &R) {}
    }
    impl<T, O, V, P> Drop for Writer<T, O, V, P> {
        fn drop(&mut self) {
            self.board.shown.store(ENDED, SeqCst);
            self.board.await_readers(0);
            self.board.await_readers(1);
        }
    }
}
