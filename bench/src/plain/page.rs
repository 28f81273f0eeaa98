//! Which of two pictures the page shows, and how old it is.

use super::book::{Book, Verdict};
use super::image;
use super::Refusal;

#[derive(Clone, Copy, Debug, PartialEq, Eq)]
pub enum Picture {
    Newest = 1,
    Older = 2,
}

/// When two pictures were taken, and the tick now.
#[derive(Clone, Copy, Debug)]
pub struct Ticks {
    pub newest: u32,
    pub older: u32,
    pub present: u32,
}

/// The picture that is shown; its raster is a part of the slice that was lent, and starts there at `offset`.
#[derive(Clone, Copy, Debug, PartialEq, Eq)]
pub struct Shown<'a> {
    pub picture: Picture,
    pub offset: usize,
    pub raster: &'a [u8],
    pub age: u32,
}

impl Book {
    /// Both images are read, whichever is shown.
    #[inline(never)]
    pub fn show<'a>(
        &self,
        ring: &[u8],
        window: u64,
        amount: u64,
        newest: &'a [u8],
        older: &'a [u8],
        ticks: Ticks,
    ) -> Result<Shown<'a>, Refusal> {
        let verdict = self.verdict(ring, window, amount)?.verdict;
        let newest = image::header(newest)?;
        let older = image::header(older)?;
        let (picture, image, own) = match verdict {
            Verdict::Live => (Picture::Newest, newest, ticks.newest),
            Verdict::Frozen | Verdict::Undecided | Verdict::Resting => (Picture::Older, older, ticks.older),
        };
        let offset = image.used - image.raster.len();
        Ok(Shown { picture, offset, raster: image.raster, age: ticks.present.wrapping_sub(own) })
    }
}
