//! Rust's `rand_xoshiro`.
//# xoshiro
pub use xoshiro::*;
