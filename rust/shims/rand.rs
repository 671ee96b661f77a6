//! The draws of a range as Rust's `rand` 0.9 and later make them, by Canon's method: that of `rand` 0.8 gives others.
//# rand_core
use rand_core::RngCore;
pub use rand_core::SeedableRng;
use std::ops::{Bound, RangeBounds};

pub trait Drawn: Copy {
    fn between<R: RngCore>(low: Self, high: Self, rng: &mut R) -> Self;
    fn before(self) -> Option<Self>;
}
macro_rules! drawn {
    ($type:ty, $word:ty, $wide:ty, $next:ident) => {
        impl Drawn for $type {
            #[inline]
            fn between<R: RngCore>(low: $type, high: $type, rng: &mut R) -> $type {
                assert!(low <= high, "an empty range");
                let range = (high as $word).wrapping_sub(low as $word).wrapping_add(1);
                if range == 0 {
                    return rng.$next() as $type;
                }
                let wide = rng.$next() as $wide * range as $wide;
                let (mut result, low_part) = ((wide >> <$word>::BITS) as $word, wide as $word);
                if low_part > range.wrapping_neg() {
                    let more = ((rng.$next() as $wide * range as $wide) >> <$word>::BITS) as $word;
                    result += low_part.checked_add(more).is_none() as $word;
                }
                low.wrapping_add(result as $type)
            }
            fn before(self) -> Option<$type> {
                self.checked_sub(1)
            }
        }
    };
}
drawn!(u32, u32, u64, next_u32);
drawn!(u64, u64, u128, next_u64);
drawn!(i64, u64, u128, next_u64);

pub trait RngExt: RngCore + Sized {
    /// A number of a range that has both ends.
    #[inline]
    fn random_range<T: Drawn>(&mut self, range: impl RangeBounds<T>) -> T {
        let high = match range.end_bound() {
            Bound::Included(high) => Some(*high),
            Bound::Excluded(end) => end.before(),
            Bound::Unbounded => None,
        };
        match (range.start_bound(), high) {
            (Bound::Included(low), Some(high)) => T::between(*low, high, self),
            _ => panic!("an empty range"),
        }
    }
}
impl<R: RngCore> RngExt for R {}
