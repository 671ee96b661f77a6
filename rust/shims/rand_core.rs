//! Rust's `rand_core`, and the one step of a generator.
//# core06
pub use core06::{RngCore, SeedableRng};
pub mod utils {
    /// The one step of a generator: a word, and the next state.
    pub trait NextWord<W> {
        fn next_word(&mut self) -> W;
    }
    impl<R: core06::RngCore> NextWord<u64> for R {
        #[inline]
        fn next_word(&mut self) -> u64 {
            self.next_u64()
        }
    }
}
