//! Making a book coarser: the same items with a larger tolerance, in a second ring.

use super::book::{Book, Shape};
use super::sums;
use super::Refusal;

/// The record to go on with, and how many bytes its ring takes.
#[derive(Clone, Copy, Debug, PartialEq, Eq)]
pub struct Coarser {
    pub book: Book,
    pub bytes: usize,
}

impl Book {
    /// The shapes of the book and of the one with `times` times its tolerance.
    fn check_coarser(&self, ring: &[u8], times: u64, second: &[u8]) -> Result<(Shape, Shape), Refusal> {
        let old = self.check(ring)?;
        if self.tolerance % self.bound != 0 || !(2..=16).contains(&times) {
            return Err(Refusal::CannotCoarsen);
        }
        let new = Shape::of(self.bound, self.length, times * self.tolerance)?;
        if second.len() < new.bytes() {
            return Err(Refusal::RingTooShort);
        }
        Ok((old, new))
    }

    #[inline(never)]
    pub fn coarsen(&self, ring: &[u8], times: u64, second: &mut [u8]) -> Result<Coarser, Refusal> {
        let (old, new) = self.check_coarser(ring, times, second)?;
        Ok(self.coarser(&old, &new, ring, times, second, |_, _| ()))
    }

    /// Where a group's last slot is written, the sum of all slots up to it goes into the row.
    #[inline(never)]
    pub fn coarsen_row(&self, ring: &[u8], times: u64, second: &mut [u8], row: &mut [u32]) -> Result<Coarser, Refusal> {
        let (old, new) = self.check_coarser(ring, times, second)?;
        let row = row.get_mut(..sums::entries(&new)).ok_or(Refusal::RowTooShort)?;
        row.fill(0);
        let mut sum = 0;
        Ok(self.coarser(&old, &new, ring, times, second, |slot, bit| {
            sum += u32::from(bit);
            if slot + 1 == sums::group_end(new.slots, slot) {
                row[slot / sums::GROUP] = sum;
            }
        }))
    }

    /// Slots have one bit on both sides. A new block is `times` old ones, and its bit says whether the old tolerance was passed that many
    /// times since it last said so; `wrote` is told each new slot and its bit.
    #[inline]
    fn coarser(
        &self,
        old: &Shape,
        new: &Shape,
        ring: &[u8],
        times: u64,
        second: &mut [u8],
        mut wrote: impl FnMut(usize, bool),
    ) -> Coarser {
        second[..new.bytes()].fill(0);
        let blocks = (self.kept - self.phase) / old.block;
        let mut from = (self.head as usize + old.slots - blocks as usize) % old.slots;
        let (mut passed, mut gathered, mut to) = (0, 0, 0);
        for _ in 0..blocks {
            passed += u64::from(ring[from / 8] >> (7 - from % 8) & 1);
            from = if from + 1 == old.slots { 0 } else { from + 1 };
            gathered += 1;
            if gathered == times {
                let bit = passed >= times;
                if bit {
                    second[to / 8] |= 0x80 >> (to % 8);
                    passed -= times;
                }
                wrote(to, bit);
                to += 1;
                gathered = 0;
            }
        }
        let book = Book {
            tolerance: times * self.tolerance,
            carry: self.carry + passed * self.tolerance,
            phase: self.phase + gathered * old.block,
            kept: self.phase + blocks * old.block,
            head: if to == new.slots { 0 } else { to as u64 },
            ..*self
        };
        Coarser { book, bytes: new.bytes() }
    }
}
