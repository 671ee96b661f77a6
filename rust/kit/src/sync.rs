//! Values with several owners, and leave to wait.
use crate::alloc::{AllocError, Global};
use crate::boxed::Box;
use ::std::marker::PhantomData;
use ::std::ptr::NonNull;
pub use ::std::sync::*;
use atomic::{AtomicUsize, Ordering};

/// Leave to wait.
#[doc(hidden)]
pub trait Wait {
    fn forever(&self) -> ::std::iter::Repeat<()> {
        ::std::iter::repeat(())
    }
}
impl<T: ?Sized> Wait for T {}

struct Shared<T> {
    owners: AtomicUsize,
    value: T,
}
/// A value with several owners. Rust's own cannot be made where memory may be refused.
pub struct Arc<T, A = Global> {
    at: NonNull<Shared<T>>,
    marker: PhantomData<(Shared<T>, A)>,
}
// SAFETY: as Rust's own: the owners share the value, and the last lets it go.
unsafe impl<T: Send + Sync, A> Send for Arc<T, A> {}
unsafe impl<T: Send + Sync, A> Sync for Arc<T, A> {}

impl<T> Arc<T, Global> {
    pub fn new(alloc: Global, value: T) -> Result<Self, AllocError> {
        let shared = Box::new(alloc, Shared { owners: AtomicUsize::new(1), value })?;
        // SAFETY: a box has a place.
        Ok(Arc { at: unsafe { NonNull::new_unchecked(Box::into_raw(shared)) }, marker: PhantomData })
    }
    pub fn try_clone(of: &Self) -> Result<Self, AllocError> {
        // SAFETY: an owner has it.
        let before = unsafe { of.at.as_ref() }.owners.fetch_add(1, Ordering::Relaxed);
        if before > usize::MAX / 2 {
            ::std::process::abort();
        }
        Ok(Arc { at: of.at, marker: PhantomData })
    }
}
impl<T, A> ::std::ops::Deref for Arc<T, A> {
    type Target = T;
    #[inline(always)]
    fn deref(&self) -> &T {
        // SAFETY: an owner has it.
        &unsafe { self.at.as_ref() }.value
    }
}
impl<T, A> Drop for Arc<T, A> {
    fn drop(&mut self) {
        // SAFETY: the last owner takes it back, after all that the others did.
        unsafe {
            if self.at.as_ref().owners.fetch_sub(1, Ordering::Release) == 1 {
                // A fence would do, but the thread sanitizer does not see fences.
                self.at.as_ref().owners.load(Ordering::Acquire);
                drop(::std::boxed::Box::from_raw(self.at.as_ptr()));
            }
        }
    }
}
