//! Rust's `crossbeam-utils`, and the rule that holds always.
//# utils
pub use utils::{Backoff, CachePadded};
pub mod rule {
    pub trait Protocol<T, V> {}
    /// The rule that holds always.
    pub struct Unruled;
    impl<T, V> Protocol<T, V> for Unruled {}
}
