//! Rattle's ruled queue, for one value, as the exported crates use it. Its rules have no bytes here: what a rule
//! promises was proved of the Rattle sources, and nothing checks it here.
use kit::alloc::{AllocError, Global};
use protocol::{Join, Lesson, Outcome, Protocol, Split};
use std::cell::UnsafeCell;
use std::marker::PhantomData;
use std::sync::atomic::{AtomicU8, Ordering::SeqCst};
use std::thread::yield_now;

pub mod protocol {
    pub trait Protocol<T, V> {}
    pub trait Outcome<T, V> {}
    pub trait Lesson<T, V> {}
    pub trait Split<V> {}
    pub trait Join<V> {}
}

/// What one caller knows of a queue.
pub struct Pass<T, V>(PhantomData<fn() -> (T, V)>);

const EMPTY: u8 = 0;
const BUSY: u8 = 1;
const FULL: u8 = 2;

/// A queue with one slot, which needs no memory beside it.
pub struct RuledArrayQueue<T, V, P, A = Global> {
    state: AtomicU8,
    slot: UnsafeCell<Option<T>>,
    marker: PhantomData<fn() -> (V, P, A)>,
}
// SAFETY: the slot is touched only by the thread that made the state BUSY.
unsafe impl<T: Send, V, P, A> Send for RuledArrayQueue<T, V, P, A> {}
unsafe impl<T: Send, V, P, A> Sync for RuledArrayQueue<T, V, P, A> {}

impl<T, V, P: Protocol<T, V>> RuledArrayQueue<T, V, P> {
    /// An empty queue for one value.
    pub fn ruled(_alloc: Global, capacity: usize) -> Result<(Self, Pass<T, V>), AllocError> {
        assert!(capacity == 1, "a queue for one value");
        let (state, slot) = (AtomicU8::new(EMPTY), UnsafeCell::new(None));
        Ok((RuledArrayQueue { state, slot, marker: PhantomData }, Pass(PhantomData)))
    }

    // Changes what is in the slot, if the state is this one.
    #[inline(always)]
    fn change(&self, from: u8, to: u8, value: Option<T>) -> Result<Option<T>, Option<T>> {
        match self.state.compare_exchange(from, BUSY, SeqCst, SeqCst) {
            Ok(_) => {
                // SAFETY: the state is BUSY by this thread.
                let found = unsafe { std::mem::replace(&mut *self.slot.get(), value) };
                self.state.store(to, SeqCst);
                Ok(found)
            }
            Err(_) => Err(value),
        }
    }

    #[inline(always)]
    pub fn try_push_as<M: Outcome<T, V>>(&self, _: &mut Pass<T, V>, value: T) -> Result<(), T> {
        self.change(EMPTY, FULL, Some(value)).map(drop).map_err(|back| back.unwrap())
    }
    #[inline(always)]
    pub fn try_pop_as<M: Outcome<T, V>>(&self, _: &mut Pass<T, V>) -> Option<T> {
        self.change(FULL, EMPTY, None).unwrap_or(None)
    }
    // The same, once no other thread is at the slot.
    pub fn push_as<M: Outcome<T, V> + Lesson<T, V>, R>(
        &self,
        _: &R,
        pass: &mut Pass<T, V>,
        mut value: T,
    ) -> Result<(), T> {
        while let Err(back) = self.try_push_as::<M>(pass, value) {
            if self.state.load(SeqCst) == FULL {
                return Err(back);
            }
            value = back;
            yield_now();
        }
        Ok(())
    }
    pub fn pop_as<M: Outcome<T, V> + Lesson<T, V>, R>(&self, _: &R, pass: &mut Pass<T, V>) -> Option<T> {
        loop {
            let found = self.try_pop_as::<M>(pass);
            if found.is_some() || self.state.load(SeqCst) == EMPTY {
                return found;
            }
            yield_now();
        }
    }
    pub fn another<M: Split<V>>(&self, _: &mut Pass<T, V>) -> Pass<T, V> {
        Pass(PhantomData)
    }
    pub fn absorb<M: Join<V>>(&self, _: &mut Pass<T, V>, _: Pass<T, V>) {}
}
