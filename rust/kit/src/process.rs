//! How a program ends.
pub use ::std::process::*;

/// A status. Rust's own can't be read where Rust's beginning is passed by.
#[derive(Clone, Copy, Debug, PartialEq, Eq)]
pub struct ExitCode(u8);
impl ExitCode {
    pub const SUCCESS: ExitCode = ExitCode(0);
    pub const FAILURE: ExitCode = ExitCode(1);
}
impl From<u8> for ExitCode {
    fn from(status: u8) -> ExitCode {
        ExitCode(status)
    }
}

rights! {
    /// Leave to end the program; tests alone have it.
    Abort
}

/// What a `main` gives.
pub trait Ended {
    fn status(self) -> i32;
}
impl Ended for () {
    fn status(self) -> i32 {
        0
    }
}
impl Ended for ExitCode {
    fn status(self) -> i32 {
        i32::from(self.0)
    }
}
impl<T: Ended, E: ::std::fmt::Debug> Ended for Result<T, E> {
    fn status(self) -> i32 {
        self.map_or_else(
            |why| {
                let _ = crate::io::tell_line(&(), 2, format_args!("Error: {why:?}"));
                1
            },
            T::status,
        )
    }
}
