//! Threads.
use crate::alloc::{AllocError, Global};
use crate::sys;
use crate::vec::Vec;
use ::std::io;
use ::std::marker::PhantomData;
pub use ::std::thread::yield_now;

rights! {
    /// Leave to start threads.
    Threads
}
/// What a thread promises of its answer, to proofs.
pub trait Promise<A> {}

/// Where threads are started that end before it does.
pub struct Scope<'s, E> {
    marker: PhantomData<(::std::cell::Cell<&'s ()>, E)>,
}
pub struct ScopeEnv;
pub fn scope_env() -> ScopeEnv {
    ScopeEnv
}
pub fn scope<'s, R, T>(_env: ScopeEnv, _rt: &R, work: impl FnOnce(&Scope<'s, ScopeEnv>) -> T) -> T {
    work(&Scope { marker: PhantomData })
}

/// A thread, whose answer is waited for; it is waited for too where it is let go.
pub struct PromisedHandle<A, P> {
    thread: sys::Thread<A>,
    marker: PhantomData<fn() -> P>,
}
impl<'s, E> Scope<'s, E> {
    pub fn spawn_with<A: Send + 's, P: Promise<A>>(
        &self,
        _promise: P,
        work: impl FnOnce() -> A + Send + 's,
    ) -> io::Result<PromisedHandle<A, P>> {
        // SAFETY: a handle waits for its thread, so it ends before what it borrows. No exported crate forgets a handle.
        let thread = unsafe { sys::start(work)? };
        Ok(PromisedHandle { thread, marker: PhantomData })
    }
}
impl<A, P> PromisedHandle<A, P> {
    pub fn join<R>(self, _rt: &R) -> A {
        self.thread.join()
    }
}

/// To who knows no other fault, a thread that does not start is want of memory.
impl From<io::Error> for AllocError {
    fn from(_: io::Error) -> AllocError {
        AllocError
    }
}

/// A thread that borrows nothing.
pub struct JoinHandle<A>(sys::Thread<A>);
impl<A> JoinHandle<A> {
    pub fn join<R>(self, _rt: &R) -> A {
        self.0.join()
    }
}
pub fn spawn<R, A: Send + 'static>(_rt: &R, work: impl FnOnce() -> A + Send + 'static) -> io::Result<JoinHandle<A>> {
    // SAFETY: it borrows nothing.
    unsafe { sys::start(work) }.map(JoinHandle)
}

/// Does both, the first in a thread of its own where one can be started.
pub fn join<R, A: Send, B>(_rt: &R, one: impl FnOnce() -> A + Send, other: impl FnOnce() -> B) -> (A, B) {
    let mut one = Some(one);
    let mut first = || one.take().expect("it is called once")();
    // SAFETY: it is joined below, or waited for where the other panics.
    match unsafe { sys::start(&mut first) } {
        Ok(thread) => {
            let done = other();
            (thread.join(), done)
        }
        Err(_) => (first(), other()),
    }
}
pub fn join_mut<R, A: Send, B>(rt: &R, one: &mut (impl FnMut() -> A + Send), other: &mut impl FnMut() -> B) -> (A, B) {
    join(rt, one, other)
}

/// Calls `f(0)` to `f(count - 1)`, each but the last in a thread of its own where one can be started, and gives the
/// answers in order.
pub fn map_indices<R, X: Send, F: Fn(usize) -> X + Sync>(
    _rt: &R,
    alloc: Global,
    count: usize,
    f: &F,
) -> Result<Vec<X>, AllocError> {
    let mut all = Vec::with_capacity(alloc, count)?;
    let mut threads = Vec::with_capacity(alloc, count)?;
    for at in 1..count {
        // SAFETY: it is joined below, or waited for where another panics.
        threads.push_reserved(unsafe { sys::start(move || f(at - 1)) }.map_err(|_| at - 1));
    }
    let last = (count > 0).then(|| f(count - 1));
    for thread in threads {
        all.push_reserved(thread.map_or_else(f, sys::Thread::join));
    }
    last.into_iter().for_each(|last| all.push_reserved(last));
    Ok(all)
}
