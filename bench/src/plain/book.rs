//! The book: block quotients in a ring, and a carry.

use super::ring;
use super::Refusal;

/// L, n, D, R, p, kept and head (docs/SCOPE.md, Record), and the resting mark: 0, or the book rests.
#[derive(Clone, Copy, Debug, Default, PartialEq, Eq)]
pub struct Book {
    pub bound: u64,
    pub length: u64,
    pub tolerance: u64,
    pub carry: u64,
    pub phase: u64,
    pub kept: u64,
    pub head: u64,
    pub resting: u64,
}

/// Why a run was refused, and with `ItemTooLarge` the place, from 1, of the first count above the bound; with any other 0.
#[derive(Clone, Copy, Debug, PartialEq, Eq)]
pub struct RunRefused {
    pub refusal: Refusal,
    pub place: u64,
}

impl From<Refusal> for RunRefused {
    fn from(refusal: Refusal) -> RunRefused {
        RunRefused { refusal, place: 0 }
    }
}

#[derive(Clone, Copy, Debug, PartialEq, Eq)]
pub enum Verdict {
    Live,
    Frozen,
    Undecided,
    Resting,
}

/// What the page is told: the window that was asked for, and the verdict with its figure.
#[derive(Clone, Copy, Debug, PartialEq, Eq)]
pub struct Notice {
    pub window: u64,
    pub verdict: Verdict,
    pub figure: u64,
}

/// What follows from L, n and D: c, s, z and b (docs/SCOPE.md, Numbers), and B by `bytes`.
#[derive(Clone, Copy, Debug)]
pub struct Shape {
    pub block: u64,
    pub slots: usize,
    pub largest: u64,
    pub width: usize,
}

impl Shape {
    #[inline(never)]
    pub fn of(bound: u64, length: u64, tolerance: u64) -> Result<Shape, Refusal> {
        check_numbers(bound, length, tolerance)?;
        Ok(Shape::new(bound, length, tolerance))
    }

    pub(super) fn new(bound: u64, length: u64, tolerance: u64) -> Shape {
        let block = (tolerance / bound).max(1);
        let largest = (block * bound).div_ceil(tolerance);
        Shape {
            block,
            slots: length.div_ceil(block) as usize,
            largest,
            width: (u64::BITS - largest.leading_zeros()) as usize,
        }
    }

    pub fn bytes(&self) -> usize {
        (self.slots * self.width).div_ceil(8)
    }
}

fn check_numbers(bound: u64, length: u64, tolerance: u64) -> Result<(), Refusal> {
    if !(1..=65535).contains(&bound) {
        return Err(Refusal::BoundOutOfRange);
    }
    if !(1..=4096).contains(&length) {
        return Err(Refusal::LengthOutOfRange);
    }
    if !(1..=length * bound).contains(&tolerance) {
        return Err(Refusal::ToleranceOutOfRange);
    }
    Ok(())
}

impl Book {
    #[inline(never)]
    pub fn open(bound: u64, length: u64, tolerance: u64, ring: &mut [u8]) -> Result<Book, Refusal> {
        check_numbers(bound, length, tolerance)?;
        let shape = Shape::new(bound, length, tolerance);
        let used = ring.get_mut(..shape.bytes()).ok_or(Refusal::RingTooShort)?;
        used.fill(0);
        Ok(Book { bound, length, tolerance, ..Book::default() })
    }

    /// Whether the record alone can be a book's; the mark has no part in that.
    pub(super) fn check_record(&self) -> Result<Shape, Refusal> {
        check_numbers(self.bound, self.length, self.tolerance).map_err(|_| Refusal::NoBook)?;
        let shape = Shape::new(self.bound, self.length, self.tolerance);
        let sound = self.kept <= self.length
            && self.phase <= self.kept
            && self.phase < shape.block
            && self.head < shape.slots as u64
            && self.carry <= self.tolerance - 1 + self.phase * self.bound;
        if !sound {
            return Err(Refusal::NoBook);
        }
        Ok(shape)
    }

    pub(super) fn check(&self, ring: &[u8]) -> Result<Shape, Refusal> {
        let shape = self.check_record()?;
        if ring.len() < shape.bytes() {
            return Err(Refusal::RingTooShort);
        }
        Ok(shape)
    }

    /// Whether items are taken, one or many.
    pub(super) fn check_awake(&self) -> Result<(), Refusal> {
        if self.resting != 0 {
            return Err(Refusal::BookRests);
        }
        Ok(())
    }

    pub(super) fn check_item(&self, item: u64) -> Result<(), Refusal> {
        if item > self.bound {
            return Err(Refusal::ItemTooLarge);
        }
        Ok(())
    }

    pub(super) fn check_counts(&self, counts: &[u64]) -> Result<(), RunRefused> {
        match counts.iter().position(|&count| count > self.bound) {
            Some(before) => Err(RunRefused { refusal: Refusal::ItemTooLarge, place: before as u64 + 1 }),
            None => Ok(()),
        }
    }

    #[inline(never)]
    pub fn add(&mut self, ring: &mut [u8], item: u64) -> Result<(), Refusal> {
        let shape = self.check(ring)?;
        self.check_awake()?;
        self.check_item(item)?;
        self.take(&shape, ring, item);
        Ok(())
    }

    /// All counts, one after the other, or none of them where one is above the bound.
    #[inline(never)]
    pub fn run(&mut self, ring: &mut [u8], counts: &[u64]) -> Result<(), RunRefused> {
        let shape = self.check(ring)?;
        self.check_awake()?;
        self.check_counts(counts)?;
        for &count in counts {
            self.take(&shape, ring, count);
        }
        Ok(())
    }

    /// Takes an item within the bound.
    #[inline]
    pub(super) fn take(&mut self, shape: &Shape, ring: &mut [u8], item: u64) {
        self.carry += item;
        self.phase += 1;
        self.kept = (self.kept + 1).min(self.length);
        if self.phase == shape.block {
            let quotient = self.carry / self.tolerance;
            ring::put(shape.width, ring, self.head as usize, quotient);
            self.carry -= quotient * self.tolerance;
            self.phase = 0;
            self.head = if self.head + 1 == shape.slots as u64 { 0 } else { self.head + 1 };
        }
    }

    /// Sets the mark: from then on nothing is taken.
    #[inline(never)]
    pub fn rest(&mut self) -> Result<(), Refusal> {
        self.check_record().map(|_| self.resting = 1)
    }

    /// Clears the mark.
    #[inline(never)]
    pub fn wake(&mut self) -> Result<(), Refusal> {
        self.check_record().map(|_| self.resting = 0)
    }

    fn figure(&self, sum: u64, e: u64, g: u64) -> u64 {
        (self.carry + self.tolerance * sum).saturating_sub(self.tolerance - 1 + e * self.bound * g)
    }

    pub(super) fn check_window(&self, window: u64) -> Result<(), Refusal> {
        if window > self.kept {
            return Err(Refusal::WindowTooLong);
        }
        Ok(())
    }

    /// The figure for a window that is kept, with the sum of so many newest slots as `sum_newest` gives it.
    #[inline]
    pub(super) fn figure_by(&self, shape: &Shape, ring: &[u8], window: u64, sum_newest: impl FnOnce(usize) -> u64) -> u64 {
        if window <= self.phase {
            return self.figure(0, self.phase - window, self.carry / self.tolerance);
        }
        let items = window - self.phase;
        let j = items.div_ceil(shape.block);
        let oldest = (self.head as usize + shape.slots - j as usize) % shape.slots;
        self.figure(sum_newest(j as usize), j * shape.block - items, ring::get(shape.width, ring, oldest))
    }

    fn total_within(&self, shape: &Shape, ring: &[u8], window: u64) -> u64 {
        self.figure_by(shape, ring, window, |j| ring::sum_newest(shape.width, shape.slots, ring, self.head as usize, j))
    }

    #[inline(never)]
    pub fn total(&self, ring: &[u8], window: u64) -> Result<u64, Refusal> {
        let shape = self.check(ring)?;
        self.check_window(window)?;
        Ok(self.total_within(&shape, ring, window))
    }

    /// The figure grows with the window, and by equal steps within a block: find the block whose end reaches the amount, then divide.
    #[inline(never)]
    pub fn far(&self, ring: &[u8], amount: u64) -> Result<u64, Refusal> {
        let shape = self.check(ring)?;
        if amount == 0 {
            return Err(Refusal::ZeroAsked);
        }
        let blocks = (self.kept - self.phase).div_ceil(shape.block);
        let mut slot = self.head as usize;
        let mut sum = 0;
        let mut g = self.carry / self.tolerance;
        let mut end = self.phase;
        let mut longest = self.phase;
        for done in 0..=blocks {
            let figure = self.figure(sum, 0, 0);
            if figure >= amount {
                let back = (longest - 1).min((figure - amount) / (self.bound * g));
                let window = end - back;
                return if window <= self.kept { Ok(window) } else { Err(Refusal::NotReached) };
            }
            if done < blocks {
                slot = if slot == 0 { shape.slots - 1 } else { slot - 1 };
                g = ring::get(shape.width, ring, slot);
                sum += g;
                end += shape.block;
                longest = shape.block;
            }
        }
        Err(Refusal::NotReached)
    }

    #[inline(never)]
    pub fn verdict(&self, ring: &[u8], window: u64, amount: u64) -> Result<Notice, Refusal> {
        let shape = self.check(ring)?;
        if amount == 0 || window == 0 {
            return Err(Refusal::ZeroAsked);
        }
        self.check_window(window)?;
        let figure = self.total_within(&shape, ring, window);
        let verdict = if self.resting != 0 {
            Verdict::Resting
        } else if figure >= amount {
            Verdict::Live
        } else if amount - figure > self.tolerance - 1 {
            Verdict::Frozen
        } else {
            Verdict::Undecided
        };
        Ok(Notice { window, verdict, figure })
    }
}
