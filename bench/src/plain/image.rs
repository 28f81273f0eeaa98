//! The readers of binary PGM images and of masks, which are binary PBM.

use super::Refusal;

const LIMIT: usize = 24576;

/// An image that was accepted; the raster is a part of the slice that was lent.
#[derive(Clone, Copy, Debug, PartialEq, Eq)]
pub struct Image<'a> {
    pub width: usize,
    pub height: usize,
    pub maxval: usize,
    pub used: usize,
    pub raster: &'a [u8],
}

/// A mask that was accepted: a bit for each position, rows padded to a whole byte.
#[derive(Clone, Copy, Debug, PartialEq, Eq)]
pub struct Mask<'a> {
    pub width: usize,
    pub height: usize,
    pub raster: &'a [u8],
}

/// A place in the bytes of a slice up to the limit.
struct Cursor<'a> {
    bytes: &'a [u8],
    at: usize,
}

fn is_white(byte: u8) -> bool {
    matches!(byte, b' ' | b'\t' | b'\r' | b'\n')
}

/// The place behind the CR or LF of the comment that `at` stands in, or behind all bytes where it has none.
#[cold]
#[inline(never)]
fn behind_comment(bytes: &[u8], at: usize) -> usize {
    let end = bytes[at..].iter().position(|byte| matches!(byte, b'\r' | b'\n'));
    end.map_or(bytes.len(), |end| at + end + 1)
}

impl Cursor<'_> {
    fn take(&mut self) -> Result<u8, Refusal> {
        let missing = if self.at < LIMIT { Refusal::EndsTooEarly } else { Refusal::ImageTooLarge };
        let byte = *self.bytes.get(self.at).ok_or(missing)?;
        self.at += 1;
        Ok(byte)
    }

    /// `P` and this sign, in which no comment can begin, and a white byte.
    fn kind(&mut self, sign: u8) -> Result<(), Refusal> {
        for letter in [b'P', sign] {
            if self.take()? != letter {
                return Err(Refusal::WrongByte);
            }
        }
        loop {
            match self.take()? {
                byte if is_white(byte) => return Ok(()),
                b'#' => self.at = behind_comment(self.bytes, self.at),
                _ => return Err(Refusal::WrongByte),
            }
        }
    }

    /// Any white bytes, a number and the one white byte after it.
    fn number(&mut self, most: usize) -> Result<usize, Refusal> {
        let mut value = None;
        loop {
            match self.take()? {
                // any number past the range stays past it
                byte @ b'0'..=b'9' => value = Some((value.unwrap_or(0) * 10 + usize::from(byte - b'0')).min(100_000)),
                byte if is_white(byte) => match value {
                    None => {}
                    Some(value) if (1..=most).contains(&value) => return Ok(value),
                    Some(_) => return Err(Refusal::NumberOutOfRange),
                },
                b'#' => self.at = behind_comment(self.bytes, self.at),
                _ => return Err(Refusal::WrongByte),
            }
        }
    }
}

/// Whether a pixel takes two bytes.
pub(super) fn is_wide(maxval: usize) -> bool {
    maxval > 255
}

/// The pixels of a raster in which each takes two bytes, the higher first.
pub(super) fn pairs(raster: &[u8]) -> impl Iterator<Item = u16> + '_ {
    raster.chunks_exact(2).map(|pair| u16::from_be_bytes(pair.try_into().expect("two bytes")))
}

/// A header of this sign up to its height: width, height and what stands behind them.
fn sides(bytes: &[u8], sign: u8) -> Result<(usize, usize, Cursor<'_>), Refusal> {
    let mut cursor = Cursor { bytes: &bytes[..bytes.len().min(LIMIT)], at: 0 };
    cursor.kind(sign)?;
    let width = cursor.number(1024)?;
    let height = cursor.number(1024)?;
    Ok((width, height, cursor))
}

/// So many bytes behind the header, which ends at `start`.
fn raster(bytes: &[u8], start: usize, size: usize) -> Result<&[u8], Refusal> {
    if start + size > LIMIT {
        return Err(Refusal::ImageTooLarge);
    }
    bytes.get(start..start + size).ok_or(Refusal::EndsTooEarly)
}

#[inline(never)]
pub fn header(bytes: &[u8]) -> Result<Image<'_>, Refusal> {
    let (width, height, mut cursor) = sides(bytes, b'5')?;
    let maxval = cursor.number(65535)?;
    let wide = is_wide(maxval);
    let raster = raster(bytes, cursor.at, width * height * if wide { 2 } else { 1 })?;
    let largest = if wide { pairs(raster).max() } else { raster.iter().copied().max().map(u16::from) };
    if largest.map_or(false, |pixel| usize::from(pixel) > maxval) {
        return Err(Refusal::PixelTooLarge);
    }
    Ok(Image { width, height, maxval, used: cursor.at + raster.len(), raster })
}

#[inline(never)]
pub fn mask(bytes: &[u8]) -> Result<Mask<'_>, Refusal> {
    let (width, height, cursor) = sides(bytes, b'4')?;
    let raster = raster(bytes, cursor.at, width.div_ceil(8) * height)?;
    Ok(Mask { width, height, raster })
}
