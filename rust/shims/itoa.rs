//! Rust's `itoa`, and a number's digits put down where they belong.
//# digits
pub use digits::{Buffer, Integer};
/// Writes a number's digits so that they end at a place, and gives where they begin.
#[inline]
pub fn write_digits(number: u64, bytes: &mut [u8], end: usize) -> usize {
    let mut buffer = Buffer::new();
    let digits = buffer.format(number).as_bytes();
    let start = end - digits.len();
    bytes[start..end].copy_from_slice(digits);
    start
}
