//! Header text: finding the first byte that is not as laid out, and reading signed digits.

use crate::layout::Bounds;

/// The bytes of q and c: 32 to 126, never 34.
#[inline]
pub(crate) fn is_text(byte: u8) -> bool {
    (32..=126).contains(&byte) && byte != b'"'
}

/// How a run is looked at: its first bytes one by one, since most are short, then narrow blocks of bytes together, and
/// behind a wide block's length, which few runs have, wide ones.
const FIRST: usize = 4;
const NARROW: usize = 8;
const WIDE: usize = 64;

#[inline]
fn all_allowed(bytes: &[u8], allowed: impl Fn(u8) -> bool) -> bool {
    bytes.iter().fold(0, |bad, &byte| bad | u8::from(!allowed(byte))) == 0
}

/// How many bytes at the start stand in blocks of which all bytes are allowed.
#[inline]
fn run_of_blocks<const BLOCK: usize>(bytes: &[u8], allowed: impl Fn(u8) -> bool + Copy) -> usize {
    let (blocks, _) = bytes.as_chunks::<BLOCK>();
    blocks.iter().take_while(|block| all_allowed(*block, allowed)).count() * BLOCK
}

/// How many bytes at the start are allowed.
#[inline]
pub(crate) fn run_length(bytes: &[u8], allowed: impl Fn(u8) -> bool + Copy) -> usize {
    let first = bytes.first_chunk::<FIRST>();
    if let Some(end) = first.and_then(|first| first.iter().position(|&byte| !allowed(byte))) {
        return end;
    }
    let mut good = run_of_blocks::<NARROW>(&bytes[..bytes.len().min(WIDE)], allowed);
    if good == WIDE {
        good += run_of_blocks::<WIDE>(&bytes[good..], allowed);
        good += run_of_blocks::<NARROW>(&bytes[good..], allowed);
    }
    good + bytes[good..].iter().take_while(|&&byte| allowed(byte)).count()
}

/// The first byte of a header that differs from the fixed one. All bytes are looked at before one is searched for.
#[inline]
pub(crate) fn first_different<const SIZE: usize>(
    header: &[u8; SIZE],
    fixed: &[u8; SIZE],
) -> Option<usize> {
    let together = (0..SIZE).fold(0, |together, at| together | (header[at] ^ fixed[at]));
    if together == 0 {
        None
    } else {
        (0..SIZE).find(|&at| header[at] != fixed[at])
    }
}

/// The first byte of a header that is outside its bounds. All bytes are looked at before one is searched
/// for, so that a good header costs no branch for each byte.
#[inline]
pub(crate) fn first_outside<const SIZE: usize>(
    header: &[u8; SIZE],
    bounds: &Bounds<SIZE>,
) -> Option<usize> {
    let excess = |at: usize| {
        let above = header[at].wrapping_sub(bounds.lowest[at]);
        let left_out = if header[at] == bounds.left_out[at] { u8::MAX } else { 0 };
        above.saturating_sub(bounds.width[at]) | left_out
    };
    let together = (0..SIZE).fold(0, |together, at| together | excess(at));
    if together == 0 {
        None
    } else {
        (0..SIZE).find(|&at| excess(at) != 0)
    }
}

/// The magnitude that digits write; at most nineteen of them.
#[inline]
fn magnitude(digits: &[u8]) -> u64 {
    let (blocks, rest) = digits.as_chunks::<8>();
    let value = blocks.iter().fold(0, |value, block| value * 100_000_000 + eight_digits(*block));
    rest.iter().fold(value, |value, &digit| value * 10 + u64::from(digit - b'0'))
}

/// Eight digits at once: pairs, then fours, then all of them, each in the lanes of one word.
#[inline]
pub(crate) fn eight_digits(digits: [u8; 8]) -> u64 {
    let ones = u64::from_le_bytes(digits) & 0x0f0f_0f0f_0f0f_0f0f;
    let pairs = (ones * 10 + (ones >> 8)) & 0x00ff_00ff_00ff_00ff;
    let fours = (pairs * 100 + (pairs >> 16)) & 0x0000_ffff_0000_ffff;
    (fours * 10_000 + (fours >> 32)) & 0xffff_ffff
}

#[inline]
fn with_sign(sign: u8, magnitude: u64) -> i64 {
    if sign == b'-' {
        -(magnitude as i64)
    } else {
        magnitude as i64
    }
}

/// sN with at most ten digits, its sign standing at `start`.
#[inline]
pub(crate) fn whole(header: &[u8], start: usize, digits: usize) -> i64 {
    with_sign(header[start], magnitude(&header[start + 1..start + 1 + digits]))
}

/// sA.B in units of its last digit.
#[inline]
pub(crate) fn decimal(header: &[u8], start: usize, before: usize, after: usize) -> i64 {
    let point = start + 1 + before;
    let scale = 10u64.pow(after as u32);
    let whole = magnitude(&header[start + 1..point]);
    with_sign(header[start], whole * scale + magnitude(&header[point + 1..point + 1 + after]))
}

/// s20, or nothing where its magnitude is over 2^63 - 1.
#[inline]
pub(crate) fn long(header: &[u8], start: usize) -> Option<i64> {
    let high = magnitude(&header[start + 1..start + 11]);
    let low = magnitude(&header[start + 11..start + 21]);
    let value = high.checked_mul(10_000_000_000)?.checked_add(low)?;
    (value <= i64::MAX as u64).then(|| with_sign(header[start], value))
}

/// A q's bytes.
#[inline]
pub(crate) fn quoted<const LENGTH: usize>(header: &[u8], start: usize) -> [u8; LENGTH] {
    let mut bytes = [0; LENGTH];
    bytes.copy_from_slice(&header[start..start + LENGTH]);
    bytes
}
