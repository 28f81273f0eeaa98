//! Salvage of a ring that was scrambled: what no block can have left there is put right, and what is kept is shortened accordingly.

use super::book::{Book, Shape};
use super::ring;
use super::sums;
use super::Refusal;

/// Whether a slot can hold more than the largest quotient.
fn room_above(shape: &Shape) -> bool {
    shape.largest < (1 << shape.width) - 1
}

impl Book {
    fn check_salvage(&self, ring: &[u8], numbers: &[u32]) -> Result<Shape, Refusal> {
        let shape = self.check(ring)?;
        if numbers.len() < shape.slots {
            return Err(Refusal::NumbersTooShort);
        }
        Ok(shape)
    }

    /// How many slots were altered; their numbers go into `numbers`, from slot head round to the newest.
    #[inline(never)]
    pub fn salvage(&mut self, ring: &mut [u8], numbers: &mut [u32]) -> Result<usize, Refusal> {
        let shape = self.check_salvage(ring, numbers)?;
        Ok(self.mend(&shape, ring, numbers, |_, _| ()))
    }

    /// The same; and each entry of the row that the book uses becomes the sum of all slots up to its group's end. What a group holds is added up
    /// where its slots are gone through for salvage, and by itself where they are not.
    #[inline(never)]
    pub fn salvage_row(&mut self, ring: &mut [u8], numbers: &mut [u32], row: &mut [u32]) -> Result<usize, Refusal> {
        let shape = self.check_salvage(ring, numbers)?;
        let row = row.get_mut(..sums::entries(&shape)).ok_or(Refusal::RowTooShort)?;
        row.fill(0);
        let count = self.mend(&shape, ring, numbers, |slot, value| row[slot / sums::GROUP] += value as u32);
        let walked = room_above(&shape);
        let mut sum = 0;
        for (group, entry) in row.iter_mut().enumerate() {
            if !walked {
                let from = group * sums::GROUP;
                *entry = ring::sum_between(shape.width, ring, from, sums::group_end(shape.slots, from)) as u32;
            }
            sum += *entry;
            *entry = sum;
        }
        Ok(count)
    }

    /// Goes through the slots if one of them can be too large, and clears the bits after the last one.
    #[inline]
    fn mend(&mut self, shape: &Shape, ring: &mut [u8], numbers: &mut [u32], seen: impl FnMut(usize, u64)) -> usize {
        let count = if room_above(shape) { self.cap(shape, ring, numbers, seen) } else { 0 };
        let over = shape.bytes() * 8 - shape.slots * shape.width;
        ring[shape.bytes() - 1] &= 0xff << over;
        count
    }

    /// Makes the largest quotient of each number above it, and keeps the items that are newer than the newest such slot; `seen` is told each
    /// slot and what it holds then.
    #[inline]
    fn cap(&mut self, shape: &Shape, ring: &mut [u8], numbers: &mut [u32], mut seen: impl FnMut(usize, u64)) -> usize {
        let head = self.head as usize;
        let mut count = 0;
        for slots in [head..shape.slots, 0..head] {
            for slot in slots {
                let mut value = ring::get(shape.width, ring, slot);
                if value > shape.largest {
                    value = shape.largest;
                    ring::put(shape.width, ring, slot, value);
                    numbers[count] = slot as u32;
                    count += 1;
                }
                seen(slot, value);
            }
        }
        if let Some(&newest) = numbers[..count].last() {
            let newer = (head + shape.slots - 1 - newest as usize) % shape.slots;
            self.kept = self.kept.min(self.phase + newer as u64 * shape.block);
        }
        count
    }
}
