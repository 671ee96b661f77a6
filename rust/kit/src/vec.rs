//! Lists, whose memory may be refused: what allocates is passed an allocator, and answers a `Result`.
use crate::alloc::{AllocError, AllocFailed, Global};
pub use ::std::vec::IntoIter;
use ::std::vec::Vec as RustVec;

/// A list.
#[derive(PartialEq)]
pub struct Vec<T>(RustVec<T>);

impl<T> Vec<T> {
    pub fn new(_: Global) -> Self {
        Vec(RustVec::new())
    }
    pub fn with_capacity(_: Global, count: usize) -> Result<Self, AllocError> {
        let mut list = RustVec::new();
        list.try_reserve_exact(count)?;
        Ok(Vec(list))
    }
    /// So many of a value.
    pub fn filled(alloc: Global, value: T, count: usize) -> Result<Self, AllocError>
    where
        T: Clone,
    {
        let mut list = Self::with_capacity(alloc, count)?;
        list.0.resize(count, value);
        Ok(list)
    }
    pub fn of<const N: usize>(alloc: Global, values: [T; N]) -> Result<Self, AllocError> {
        let mut list = Self::with_capacity(alloc, N)?;
        list.0.extend(values);
        Ok(list)
    }
    /// What an iterator gives.
    pub fn collected(alloc: Global, values: impl Iterator<Item = T>) -> Result<Self, AllocError> {
        let mut list = Self::with_capacity(alloc, values.size_hint().0)?;
        for value in values {
            list.push(value)?;
        }
        Ok(list)
    }
    pub fn from_slice(alloc: Global, values: &[T]) -> Result<Self, AllocError>
    where
        T: Copy,
    {
        let mut list = Self::with_capacity(alloc, values.len())?;
        list.0.extend_from_slice(values);
        Ok(list)
    }
    #[inline(always)]
    pub fn push(&mut self, value: T) -> Result<(), AllocFailed<T>> {
        if self.0.len() == self.0.capacity() && self.0.try_reserve(1).is_err() {
            return Err(AllocFailed { value });
        }
        self.0.push(value);
        Ok(())
    }
    /// Pushes where there is room.
    #[inline(always)]
    pub fn push_reserved(&mut self, value: T) {
        debug_assert!(self.0.len() < self.0.capacity());
        self.0.push(value);
    }
    pub fn reserve(&mut self, count: usize) -> Result<(), AllocError> {
        Ok(self.0.try_reserve(count)?)
    }
    pub fn reserve_exact(&mut self, count: usize) -> Result<(), AllocError> {
        Ok(self.0.try_reserve_exact(count)?)
    }
    pub fn extend_from_slice(&mut self, more: &[T]) -> Result<(), AllocError>
    where
        T: Copy,
    {
        self.reserve(more.len())?;
        self.0.extend_from_slice(more);
        Ok(())
    }
    /// Gives back what memory it can. Rust's own ends the program where the smaller place is refused.
    pub fn shrink_to_fit(&mut self) {
        let (len, capacity) = (self.0.len(), self.0.capacity());
        if len == capacity || size_of::<T>() == 0 {
            return;
        }
        if len == 0 {
            self.0 = RustVec::new();
            return;
        }
        let mut old = ::std::mem::ManuallyDrop::new(::std::mem::take(&mut self.0));
        let at = old.as_mut_ptr();
        // SAFETY: the place is a list's of so many items, and what is left of it has them all.
        self.0 = unsafe {
            let layout = ::std::alloc::Layout::array::<T>(capacity).unwrap_unchecked();
            let less = ::std::alloc::realloc(at as *mut u8, layout, len * size_of::<T>()) as *mut T;
            match less.is_null() {
                true => RustVec::from_raw_parts(at, len, capacity),
                false => RustVec::from_raw_parts(less, len, len),
            }
        };
    }
    /// Sorts by keys that are made once for each item. If memory is refused, nothing has moved.
    pub fn sort_by_cached_key<K: Ord>(&mut self, key: impl FnMut(&T) -> K) -> Result<(), AllocError> {
        let keys = self.0.iter().map(key).enumerate().map(|(at, key)| (key, at));
        let mut order = Vec::collected(Global, keys)?;
        order.sort_unstable();
        for at in 0..self.len() {
            let mut from = order[at].1;
            while from < at {
                from = order[from].1;
            }
            order[at].1 = from;
            self.0.swap(at, from);
        }
        Ok(())
    }
    pub fn allocator(&self) -> &Global {
        &Global
    }
    pub fn into_std(self) -> RustVec<T> {
        self.0
    }
}
impl<T> ::std::ops::Deref for Vec<T> {
    type Target = RustVec<T>;
    #[inline(always)]
    fn deref(&self) -> &RustVec<T> {
        &self.0
    }
}
impl<T> ::std::ops::DerefMut for Vec<T> {
    #[inline(always)]
    fn deref_mut(&mut self) -> &mut RustVec<T> {
        &mut self.0
    }
}
impl<T: ::std::fmt::Debug> ::std::fmt::Debug for Vec<T> {
    fn fmt(&self, f: &mut ::std::fmt::Formatter<'_>) -> ::std::fmt::Result {
        self.0.fmt(f)
    }
}
impl<T> IntoIterator for Vec<T> {
    type Item = T;
    type IntoIter = IntoIter<T>;
    fn into_iter(self) -> IntoIter<T> {
        self.0.into_iter()
    }
}
impl<'a, T> IntoIterator for &'a Vec<T> {
    type Item = &'a T;
    type IntoIter = ::std::slice::Iter<'a, T>;
    fn into_iter(self) -> Self::IntoIter {
        self.0.iter()
    }
}
impl<'a, T> IntoIterator for &'a mut Vec<T> {
    type Item = &'a mut T;
    type IntoIter = ::std::slice::IterMut<'a, T>;
    fn into_iter(self) -> Self::IntoIter {
        self.0.iter_mut()
    }
}
impl<T> From<RustVec<T>> for Vec<T> {
    fn from(of: RustVec<T>) -> Vec<T> {
        Vec(of)
    }
}

/// Lets go what has no item left.
pub trait DestroyEmpty: Sized {
    fn destroy_empty(self) {}
}
impl<T> DestroyEmpty for IntoIter<T> {}
impl<T> DestroyEmpty for Vec<T> {}

impl<T, const N: usize> TryFrom<Vec<T>> for [T; N] {
    type Error = AllocFailed<Vec<T>>;
    fn try_from(of: Vec<T>) -> Result<[T; N], Self::Error> {
        of.0.try_into().map_err(|of| AllocFailed { value: Vec(of) })
    }
}
