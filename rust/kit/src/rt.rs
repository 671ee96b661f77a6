//! What a program may use of the system.
use crate::alloc::Global;
pub use crate::env::Env;
pub use crate::fs::Files;
use crate::io::{Stream, stream};
pub use crate::time::Clock;

/// Leave to allocate.
#[doc(hidden)]
pub trait Alloc {
    type A;
    fn alloc(&self) -> Self::A;
}
impl<T: ?Sized> Alloc for T {
    type A = Global;
    #[inline(always)]
    fn alloc(&self) -> Global {
        Global
    }
}

/// Leave to do all that a program may.
#[derive(Clone, Copy, Default)]
pub struct HostRuntime;
impl HostRuntime {
    pub fn stdin(&self) -> Stream {
        stream(0)
    }
    pub fn stderr(&self) -> Stream {
        stream(2)
    }
}
