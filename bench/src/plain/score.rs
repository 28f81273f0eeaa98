//! How much changed between two images, in all or under a mask.

use super::image::{self, Image, Mask};
use super::Refusal;

/// The bits of a byte in the order of a mask's positions.
const BITS: [u8; 8] = [0x80, 0x40, 0x20, 0x10, 0x08, 0x04, 0x02, 0x01];

/// Which pixels of two bytes are more than a threshold apart.
fn changed_pairs<'a>(first: &'a [u8], second: &'a [u8], threshold: u16) -> impl Iterator<Item = bool> + 'a {
    image::pairs(first).zip(image::pairs(second)).map(move |(x, y)| x.abs_diff(y) > threshold)
}

/// Which of one byte are.
fn changed_bytes<'a>(first: &'a [u8], second: &'a [u8], threshold: u8) -> impl Iterator<Item = bool> + 'a {
    first.iter().zip(second).map(move |(x, y)| x.abs_diff(*y) > threshold)
}

/// It is a sum in the place of `filter` and `count`, which the compiler does not turn into vector instructions, and one of 16 bits, which
/// hold as many pixels as an image may have.
fn how_many(changed: impl Iterator<Item = bool>) -> u16 {
    changed.map(u16::from).sum()
}

/// How many of up to eight pixels changed that a byte of a mask does not make black.
fn under_byte(changed: impl Iterator<Item = bool>, black: u8) -> u16 {
    match black {
        0xff => 0,
        0 => how_many(changed),
        _ => how_many(changed.zip(BITS).map(|(changed, bit)| changed & (black & bit == 0))),
    }
}

/// How many of a row did, where eight pixels take so many bytes.
fn under_row<'a, const EIGHT: usize, C: Iterator<Item = bool>>(
    first: &'a [u8],
    second: &'a [u8],
    mask: &[u8],
    changed: impl Fn(&'a [u8], &'a [u8]) -> C,
) -> u16 {
    let (ones, twos) = (first.chunks_exact(EIGHT), second.chunks_exact(EIGHT));
    let last = changed(ones.remainder(), twos.remainder());
    let eights = ones.zip(twos).zip(mask).map(|((one, two), &black)| under_byte(changed(one, two), black));
    eights.sum::<u16>() + under_byte(last, mask[mask.len() - 1])
}

/// How many of an image did.
fn under_mask<'a, const EIGHT: usize, C: Iterator<Item = bool>>(
    one: Image<'a>,
    two: Image<'a>,
    mask: Mask,
    changed: impl Fn(&'a [u8], &'a [u8]) -> C,
) -> u16 {
    let row = one.width * EIGHT / 8;
    let rows = one.raster.chunks_exact(row).zip(two.raster.chunks_exact(row));
    let rows = rows.zip(mask.raster.chunks_exact(one.width.div_ceil(8)));
    rows.map(|((one, two), mask)| under_row::<EIGHT, C>(one, two, mask, &changed)).sum()
}

fn images<'a>(bound: u64, first: &'a [u8], second: &'a [u8]) -> Result<[Image<'a>; 2], Refusal> {
    if !(1..=65535).contains(&bound) {
        return Err(Refusal::BoundOutOfRange);
    }
    Ok([image::header(first)?, image::header(second)?])
}

/// A difference of two images that are alike, times 255, is more than the allowance times maxval just where the difference is more than
/// this; it is at most maxval.
fn threshold(allowance: u8, one: Image, two: Image) -> Result<usize, Refusal> {
    if (one.width, one.height, one.maxval) != (two.width, two.height, two.maxval) {
        return Err(Refusal::ImagesDiffer);
    }
    Ok(usize::from(allowance) * one.maxval / 255)
}

#[inline(never)]
pub fn score(bound: u64, allowance: u8, first: &[u8], second: &[u8]) -> Result<u64, Refusal> {
    let [one, two] = images(bound, first, second)?;
    let threshold = threshold(allowance, one, two)?;
    let changed = if image::is_wide(one.maxval) {
        how_many(changed_pairs(one.raster, two.raster, threshold as u16))
    } else {
        how_many(changed_bytes(one.raster, two.raster, threshold as u8))
    };
    Ok(bound.min(changed.into()))
}

#[inline(never)]
pub fn masked(bound: u64, allowance: u8, first: &[u8], second: &[u8], mask: &[u8]) -> Result<u64, Refusal> {
    let [one, two] = images(bound, first, second)?;
    let mask = image::mask(mask)?;
    let threshold = threshold(allowance, one, two)?;
    if (mask.width, mask.height) != (one.width, one.height) {
        return Err(Refusal::ImagesDiffer);
    }
    let changed = if image::is_wide(one.maxval) {
        under_mask::<16, _>(one, two, mask, |x, y| changed_pairs(x, y, threshold as u16))
    } else {
        under_mask::<8, _>(one, two, mask, |x, y| changed_bytes(x, y, threshold as u8))
    };
    Ok(bound.min(changed.into()))
}
