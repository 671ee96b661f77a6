//! Numbers from text.

/// Digits alone, without a 0 before others.
pub fn number(digits: &[u8]) -> Option<u64> {
    if digits.is_empty() || digits[0] == b'0' && digits.len() > 1 {
        return None;
    }
    digits.iter().try_fold(0u64, |sum, digit| {
        let value = digit.is_ascii_digit().then(|| u64::from(digit - b'0'))?;
        sum.checked_mul(10)?.checked_add(value)
    })
}

/// A 1 in each byte.
const EACH: u64 = 0x0101_0101_0101_0101;

/// A byte for each, which is at most 9 if it is a digit.
#[inline(always)]
fn digits_of(eight: [u8; 8]) -> u64 {
    u64::from_le_bytes(eight) ^ (EACH * u64::from(b'0'))
}

/// None if all are digits; the first of these bits is in the first byte that is none.
#[inline(always)]
fn others_of(digits: u64) -> u64 {
    (digits.wrapping_add(EACH * 0x76) | digits) & (EACH * 0x80)
}

/// The number of eight digits, a byte each, the first in the lowest byte: two, four and then eight
/// are put together at once.
#[inline(always)]
fn value_of(digits: u64) -> u64 {
    let twos = (digits.wrapping_mul((10 << 8) + 1) >> 8) & 0x00FF_00FF_00FF_00FF;
    let fours = (twos.wrapping_mul((100 << 16) + 1) >> 16) & 0x0000_FFFF_0000_FFFF;
    fours.wrapping_mul((10_000 << 32) + 1) >> 32
}

/// A number, the byte behind it, and what follows that.
pub type Number<'a> = Option<(u64, u8, &'a [u8])>;

/// A number of one digit.
#[inline(always)]
pub fn digit(text: &[u8]) -> Number<'_> {
    match text {
        [digit @ b'0'..=b'9', end, rest @ ..] if !end.is_ascii_digit() => {
            Some((u64::from(digit - b'0'), *end, rest))
        }
        _ => None,
    }
}

/// A number of 2 to 7 digits: eight bytes at once.
#[inline(always)]
pub fn short_number(text: &[u8]) -> Number<'_> {
    let eight = *text.first_chunk()?;
    let digits = digits_of(eight);
    let count = (others_of(digits).trailing_zeros() / 8) as usize;
    let begins_with_0 = digits & 0xFF == 0;
    if !(2..8).contains(&count) || begins_with_0 {
        return None;
    }
    let end = u64::from_le_bytes(eight) >> (8 * count);
    let value = value_of(digits << (64 - 8 * count));
    Some((value, end as u8, &text[count + 1..]))
}

/// Any number: its first eight digits at once, if it has as many.
#[inline(never)]
pub fn long_number(text: &[u8]) -> Number<'_> {
    let (mut value, mut count) = first_eight(text).map_or((0, 0), |value| (value, 8));
    let end = loop {
        let byte = *text.get(count)?;
        let digit = byte.wrapping_sub(b'0');
        if digit > 9 {
            break byte;
        }
        value = value.wrapping_mul(10).wrapping_add(u64::from(digit));
        count += 1;
    };
    if !(1..20).contains(&count) || count > 1 && text[0] == b'0' {
        value = number(&text[..count])?;
    }
    Some((value, end, &text[count + 1..]))
}

fn first_eight(text: &[u8]) -> Option<u64> {
    let digits = digits_of(*text.first_chunk()?);
    (others_of(digits) == 0).then(|| value_of(digits))
}
