//! The trend: how much the last items come to beside as many before them.

use super::book::Book;
use super::ring;
use super::Refusal;

impl Book {
    /// Twice the figure for `window` items less the figure for twice as many, whose slots are summed on from where the first figure's end.
    #[inline(never)]
    pub fn trend(&self, ring: &[u8], window: u64) -> Result<i64, Refusal> {
        let shape = self.check(ring)?;
        let twice = window.checked_mul(2).ok_or(Refusal::WindowTooLong)?;
        self.check_window(twice)?;
        let before = |next, j| ring::sum_newest(shape.width, shape.slots, ring, next, j);
        let head = self.head as usize;
        let (mut near, mut sum) = (0, 0);
        let half = self.figure_by(&shape, ring, window, |j| {
            (near, sum) = (j, before(head, j));
            sum
        });
        let whole = self.figure_by(&shape, ring, twice, |j| sum + before((head + shape.slots - near) % shape.slots, j - near));
        Ok(2 * half as i64 - whole as i64)
    }
}
