//! The allocator, and what is said where it refuses.
use ::std::fmt;

/// The allocator of the program.
#[derive(Clone, Copy, Debug, Default, PartialEq, Eq)]
pub struct Global;

/// No memory was left.
#[derive(Clone, Copy, Debug, PartialEq, Eq)]
pub struct AllocError;

impl fmt::Display for AllocError {
    fn fmt(&self, f: &mut fmt::Formatter<'_>) -> fmt::Result {
        f.write_str("memory allocation failed")
    }
}
impl ::std::error::Error for AllocError {}
impl From<::std::collections::TryReserveError> for AllocError {
    fn from(_: ::std::collections::TryReserveError) -> AllocError {
        AllocError
    }
}
impl From<AllocError> for ::std::io::Error {
    fn from(_: AllocError) -> ::std::io::Error {
        ::std::io::ErrorKind::OutOfMemory.into()
    }
}

/// No memory was left for a value, which is given back.
pub struct AllocFailed<T> {
    pub value: T,
}
impl<T> fmt::Debug for AllocFailed<T> {
    fn fmt(&self, f: &mut fmt::Formatter<'_>) -> fmt::Result {
        f.write_str("AllocFailed")
    }
}
impl<T> fmt::Display for AllocFailed<T> {
    fn fmt(&self, f: &mut fmt::Formatter<'_>) -> fmt::Result {
        AllocError.fmt(f)
    }
}
impl<T> ::std::error::Error for AllocFailed<T> {}
impl<T> From<AllocFailed<T>> for AllocError {
    fn from(_: AllocFailed<T>) -> AllocError {
        AllocError
    }
}
