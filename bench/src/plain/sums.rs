//! A book with a row of running sums beside its ring, so that a total reads 64 fields and three sums at the most.

use super::book::{Book, RunRefused, Shape};
use super::ring;
use super::Refusal;

/// The slots of a group; the last group may have fewer.
pub(super) const GROUP: usize = 32;

/// A figure, and how many fields of the ring and stored sums of the row it is made of.
#[derive(Clone, Copy, Debug, PartialEq, Eq)]
pub struct Summed {
    pub figure: u64,
    pub fields: u64,
    pub sums: u64,
}

/// The end of a slot's group: the first slot behind it, or the number of slots.
pub(super) fn group_end(slots: usize, slot: usize) -> usize {
    slots.min((slot / GROUP + 1) * GROUP)
}

/// How many entries the row of such a book takes.
pub(super) fn entries(shape: &Shape) -> usize {
    shape.slots.div_ceil(GROUP)
}

impl Book {
    #[inline(never)]
    pub fn open_row(bound: u64, length: u64, tolerance: u64, ring: &mut [u8], row: &mut [u32]) -> Result<Book, Refusal> {
        let shape = Shape::of(bound, length, tolerance)?;
        if ring.len() < shape.bytes() {
            return Err(Refusal::RingTooShort);
        }
        row.get_mut(..entries(&shape)).ok_or(Refusal::RowTooShort)?.fill(0);
        Book::open(bound, length, tolerance, ring)
    }

    fn check_row(&self, ring: &[u8], row: &[u32]) -> Result<Shape, Refusal> {
        let shape = self.check(ring)?;
        if row.len() < entries(&shape) {
            return Err(Refusal::RowTooShort);
        }
        Ok(shape)
    }

    #[inline(never)]
    pub fn add_row(&mut self, ring: &mut [u8], row: &mut [u32], item: u64) -> Result<(), Refusal> {
        let shape = self.check_row(ring, row)?;
        self.check_awake()?;
        self.check_item(item)?;
        self.take_row(&shape, ring, row, item);
        Ok(())
    }

    #[inline(never)]
    pub fn run_row(&mut self, ring: &mut [u8], row: &mut [u32], counts: &[u64]) -> Result<(), RunRefused> {
        let shape = self.check_row(ring, row)?;
        self.check_awake()?;
        self.check_counts(counts)?;
        for &count in counts {
            self.take_row(&shape, ring, row, count);
        }
        Ok(())
    }

    /// Takes an item within the bound; where a group's last slot is written, the sum of all slots up to it goes into the row.
    #[inline]
    fn take_row(&mut self, shape: &Shape, ring: &mut [u8], row: &mut [u32], item: u64) {
        let slot = self.head as usize;
        self.take(shape, ring, item);
        let written = self.phase == 0;
        if written && slot + 1 == group_end(shape.slots, slot) {
            row[slot / GROUP] = ring::sum_between(shape.width, ring, 0, slot + 1) as u32;
        }
    }

    #[inline(never)]
    pub fn total_row(&self, ring: &[u8], row: &[u32], window: u64) -> Result<Summed, Refusal> {
        let shape = self.check_row(ring, row)?;
        self.check_window(window)?;
        let mut reading = Reading { shape: &shape, ring, row, added: 0, taken: 0, fields: 0, sums: 0 };
        let figure = self.figure_by(&shape, ring, window, |j| reading.sum_newest(self.head as usize, j));
        Ok(Summed { figure, fields: reading.fields as u64, sums: reading.sums as u64 })
    }
}

/// What is read of ring and row for a total, and what it comes to.
struct Reading<'a> {
    shape: &'a Shape,
    ring: &'a [u8],
    row: &'a [u32],
    added: u64,
    taken: u64,
    fields: usize,
    sums: usize,
}

impl Reading<'_> {
    /// The sum of the `j` newest slots before `head`, as two runs of slots. In a row of chance more may be taken off than added.
    fn sum_newest(&mut self, head: usize, j: usize) -> u64 {
        let slots = self.shape.slots;
        let here = j.min(head);
        self.run(head - here, head);
        self.run(slots - (j - here), slots);
        // the figure takes the oldest slot by itself once more
        self.fields += 1;
        self.added.saturating_sub(self.taken)
    }

    /// The slots from `from` up to `to`: groups between two stored sums by their difference, what is left in front and behind singly.
    fn run(&mut self, from: usize, to: usize) {
        let slots = self.shape.slots;
        let first = if from == 0 { 0 } else { group_end(slots, from) };
        let last = if to == slots { slots } else { to / GROUP * GROUP };
        if first >= last {
            return self.singly(from, to);
        }
        self.singly(from, first);
        self.added += self.stored(last);
        if first > 0 {
            self.taken += self.stored(first);
        }
        self.singly(last, to);
    }

    fn singly(&mut self, from: usize, to: usize) {
        self.added += ring::sum_between(self.shape.width, self.ring, from, to);
        self.fields += to - from;
    }

    /// The sum of all slots before `end`, as it was when the one right before it was written.
    fn stored(&mut self, end: usize) -> u64 {
        self.sums += 1;
        self.row[(end - 1) / GROUP].into()
    }
}
