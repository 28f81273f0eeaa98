//! Lit frames: one bit a frame, 1 for lit, the first frame of a byte in its top bit.

use super::Refusal;

const MOST_FRAMES: usize = 65536;

/// The bytes that the frames take.
fn bytes_of(row: &[u8], length: usize) -> Result<&[u8], Refusal> {
    if length > MOST_FRAMES {
        return Err(Refusal::BadLitCall);
    }
    row.get(..length.div_ceil(8)).ok_or(Refusal::BadLitCall)
}

/// The ones in eight bytes.
fn ones_in(chunk: &[u8]) -> usize {
    u64::from_be_bytes(chunk.try_into().expect("eight bytes")).count_ones() as usize
}

/// The place of the k-th one in a byte, k being 1 to 8: with its bits turned round, the ones before it are the lowest, and are cleared.
#[inline]
fn place_in(byte: u8, k: usize) -> u8 {
    let mut rest = byte.reverse_bits();
    for _ in 1..k {
        rest &= rest.wrapping_sub(1);
    }
    if rest == 0 { 0 } else { rest.trailing_zeros() as u8 + 1 }
}

/// The place, 1 to 8 from the top bit down, of the k-th one in a byte; 0 for none.
#[inline(never)]
pub fn in_byte(byte: u8, k: usize) -> u8 {
    if (1..=8).contains(&k) { place_in(byte, k) } else { 0 }
}

/// How many of the first `i` frames are lit.
#[inline(never)]
pub fn rank(row: &[u8], length: usize, i: usize) -> Result<usize, Refusal> {
    let row = bytes_of(row, length)?;
    if i > length {
        return Err(Refusal::BadLitCall);
    }
    let (whole, part) = (i / 8, i % 8);
    let words = row[..whole].chunks_exact(8);
    let bytes = words.remainder().iter().map(|byte| byte.count_ones() as usize).sum::<usize>();
    let words = words.map(ones_in).sum::<usize>();
    let last = if part == 0 { 0 } else { (row[whole] >> (8 - part)).count_ones() as usize };
    Ok(words + bytes + last)
}

/// The same rounded down to a multiple of the step.
#[inline(never)]
pub fn rank_coarse(row: &[u8], length: usize, step: usize, i: usize) -> Result<usize, Refusal> {
    if step == 0 {
        return Err(Refusal::BadLitCall);
    }
    let rank = rank(row, length, i)?;
    Ok(rank - rank % step)
}

/// A search along the bytes of a row: how many of them are passed, and how many ones are in those.
struct Search<'a> {
    row: &'a [u8],
    length: usize,
    at: usize,
    before: usize,
}

impl Search<'_> {
    fn new(row: &[u8], length: usize) -> Result<Search<'_>, Refusal> {
        Ok(Search { row: bytes_of(row, length)?, length, at: 0, before: 0 })
    }

    /// The place of the k-th lit frame, which lies in no byte that is passed. The search stops at its byte, and can go on from there.
    #[inline]
    fn place(&mut self, k: usize) -> Result<usize, Refusal> {
        for chunk in self.row[self.at..].chunks_exact(8) {
            let ones = ones_in(chunk);
            if k <= self.before + ones {
                break;
            }
            self.before += ones;
            self.at += 8;
        }
        for &byte in &self.row[self.at..] {
            let ones = byte.count_ones() as usize;
            if k <= self.before + ones {
                let place = self.at * 8 + usize::from(place_in(byte, k - self.before));
                return if place <= self.length { Ok(place) } else { Err(Refusal::BadLitCall) };
            }
            self.before += ones;
            self.at += 1;
        }
        Err(Refusal::BadLitCall)
    }
}

/// The place, from 1, of the k-th lit frame.
#[inline(never)]
pub fn select(row: &[u8], length: usize, k: usize) -> Result<usize, Refusal> {
    if k == 0 {
        return Err(Refusal::BadLitCall);
    }
    Search::new(row, length)?.place(k)
}

/// The place of the k-th lit frame if k is a multiple of the step; otherwise, with t the last one before it, the place behind the t-th lit
/// frame, or 1 where t is 0. That there is a k-th lit frame at all is seen by going on from the t-th.
#[inline(never)]
pub fn select_coarse(row: &[u8], length: usize, step: usize, k: usize) -> Result<usize, Refusal> {
    if step == 0 || k == 0 {
        return Err(Refusal::BadLitCall);
    }
    let mut search = Search::new(row, length)?;
    let t = k - k % step;
    if t == k {
        return search.place(k);
    }
    let before = if t == 0 { 0 } else { search.place(t)? };
    search.place(k)?;
    Ok(before + 1)
}
