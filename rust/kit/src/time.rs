//! Clocks. Rust's own panics where one fails.
use ::std::io;
pub use ::std::time::Duration;

rights! {
    /// Leave to read the clocks.
    Clock
}
/// A time of the clock that only goes on.
#[derive(Clone, Copy, Debug, PartialEq, Eq, PartialOrd, Ord)]
pub struct Instant(Duration);
impl Instant {
    pub fn now<R: Clock>(_: &R) -> io::Result<Instant> {
        crate::sys::clock().map(Instant)
    }
    pub fn elapsed<R: Clock>(&self, clock: &R) -> io::Result<Duration> {
        Ok(Instant::now(clock)?.0.saturating_sub(self.0))
    }
}
