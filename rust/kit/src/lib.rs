//! What the exported crates call `std`: Rust's library, where Rattle's has the same signatures, and
//! else what stands here.
//!
//! What allocates is passed an allocator and answers a `Result`: a refused allocation is an error.
//! What reaches the system is passed a runtime, which has no bytes. A method does what Rust's of
//! its name does. Rust's own would break what the scripts of `tests` hold: its start puts
//! `/dev/null` in the place of a closed standard stream; threads, words and paths take memory that
//! may not be refused; `Vec::shrink_to_fit` and stable sorts end the program where it is refused.
/// Rust's library itself, for macros.
#[doc(hidden)]
pub use ::std as rust;
pub use ::std::*;

// Leave to do something, which every value gives: nothing of a runtime is left. Hidden, or else each page would have it.
macro_rules! rights {
    ($($(#[$about:meta])* $right:ident)*) => {$(
        $(#[$about])*
        #[doc(hidden)]
        pub trait $right {}
        impl<T: ?Sized> $right for T {}
    )*};
}

pub mod alloc;
pub mod boxed;
pub mod env;
pub mod fs;
pub mod io;
mod macros;
pub mod panics;
pub mod process;
pub mod rt;
pub mod string;
pub mod sync;
pub mod sys;
pub mod thread;
pub mod time;
pub mod vec;
pub mod words;

/// What exported modules import beside Rust's prelude.
pub mod prelude {
    pub use crate::boxed::Box;
    pub use crate::io::{Eprint, Input, Print};
    pub use crate::marker::Drop;
    pub use crate::rt::{Alloc, HostRuntime};
    pub use crate::string::String;
    pub use crate::vec::{DestroyEmpty, Vec};
    pub use crate::words::{CollectIn, ExpectRt, ReadToString, ReadUntil, ToOwnedIn};
    pub use ::std::prelude::*;
}

/// What bounds say of types.
pub mod marker {
    pub use ::std::marker::*;
    rights! {
        /// Rattle asks for this where a value may be let go; in Rust every value may.
        Drop
    }
    /// What contracts see of a type; there is nothing of it here.
    #[doc(hidden)]
    pub trait Model {}
    /// The name that a contract gives a value; there is nothing of it here.
    pub struct Brand<const N: usize = 0>;
}

/// Moves of values.
pub mod mem {
    pub use ::std::mem::*;
    /// Replaces a value by what a function makes of it. A panic in it ends the program.
    pub fn replace_with<T, X, R>(at: &mut T, with: X, make: impl FnOnce(T, X) -> (T, R)) -> R {
        struct Ends;
        impl Drop for Ends {
            fn drop(&mut self) {
                std::process::abort()
            }
        }
        let ends = Ends;
        // SAFETY: the place has no value while the function works, and a panic there ends the program.
        unsafe {
            let (new, gives) = make(std::ptr::read(at), with);
            std::ptr::write(at, new);
            forget(ends);
            gives
        }
    }
}

/// Values that only proofs remember.
pub mod snapshot {
    /// One of these: nothing.
    pub struct Snapshot<T>(::std::marker::PhantomData<fn() -> T>);
    impl<T> Snapshot<T> {
        pub fn of(_: &T) -> Snapshot<T> {
            Snapshot(::std::marker::PhantomData)
        }
    }
}

/// Tests.
pub mod test {
    /// A test's failure, in words.
    pub struct Fail(::std::string::String);
    impl Fail {
        pub fn new(why: impl ::std::fmt::Display) -> Fail {
            Fail(why.to_string())
        }
    }
    impl ::std::fmt::Debug for Fail {
        fn fmt(&self, f: &mut ::std::fmt::Formatter<'_>) -> ::std::fmt::Result {
            f.write_str(&self.0)
        }
    }
    impl<E: ::std::fmt::Display> From<E> for Fail {
        fn from(why: E) -> Fail {
            Fail::new(why)
        }
    }
}
