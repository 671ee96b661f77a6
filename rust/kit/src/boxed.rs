//! Values on the heap.
use crate::alloc::{AllocError, Global};
use crate::vec::Vec;
use ::std::boxed::Box as RustBox;
use ::std::ops::{Deref, DerefMut};

/// A value on the heap. As a list of one it can be made where memory may be refused.
#[derive(Debug, PartialEq, Eq)]
pub struct Box<T>(RustBox<[T; 1]>);
impl<T> Box<T> {
    #[inline]
    pub fn new(alloc: Global, value: T) -> Result<Self, AllocError> {
        let held: RustBox<[T]> = Vec::of(alloc, [value])?.into_std().into();
        held.try_into().map(Box).map_err(|_| AllocError)
    }
    pub(crate) fn into_raw(of: Self) -> *mut T {
        RustBox::into_raw(of.0).cast()
    }
}
impl<T> Deref for Box<T> {
    type Target = T;
    #[inline(always)]
    fn deref(&self) -> &T {
        &self.0[0]
    }
}
impl<T> DerefMut for Box<T> {
    #[inline(always)]
    fn deref_mut(&mut self) -> &mut T {
        &mut self.0[0]
    }
}
