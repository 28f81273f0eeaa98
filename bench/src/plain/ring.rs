//! Small numbers of one width packed one after another, the highest bit first.

use super::Refusal;

fn bytes_for(width: usize, slots: usize) -> usize {
    (width * slots).div_ceil(8)
}

fn check(width: usize, slots: usize, sound: bool, ring: &[u8]) -> Result<(), Refusal> {
    if !(1..=16).contains(&width) || !(1..=4096).contains(&slots) || !sound {
        return Err(Refusal::RingCall);
    }
    if ring.len() < bytes_for(width, slots) {
        return Err(Refusal::RingTooShort);
    }
    Ok(())
}

/// The number in a slot, which lies within three bytes. The caller has seen to it that the slot lies in the ring.
pub(super) fn get(width: usize, ring: &[u8], slot: usize) -> u64 {
    let from = slot * width;
    let byte = |i: usize| ring.get(from / 8 + i).map_or(0, |&byte| u32::from(byte));
    let word = byte(0) << 16 | byte(1) << 8 | byte(2);
    u64::from(word >> (24 - from % 8 - width)) & ((1 << width) - 1)
}

pub(super) fn put(width: usize, ring: &mut [u8], slot: usize, value: u64) {
    let from = slot * width;
    let to = from + width;
    let last = (to - 1) / 8;
    let after = (last + 1) * 8 - to;
    let mask = (((1u32 << width) - 1) << after).to_be_bytes();
    let bits = ((value as u32) << after).to_be_bytes();
    let part = &mut ring[from / 8..=last];
    let skip = 4 - part.len();
    for (i, byte) in part.iter_mut().enumerate() {
        *byte = *byte & !mask[skip + i] | bits[skip + i];
    }
}

/// How many of the bits from `from` up to `to` are 1: the bytes between by words, and the two ends by masks.
fn ones(ring: &[u8], from: usize, to: usize) -> u64 {
    let masked = |at: usize, mask: u8| u64::from((ring[at] & mask).count_ones());
    let (first, last) = (from / 8, to / 8);
    let start: u8 = 0xff >> (from % 8);
    let end: u8 = !(0xff >> (to % 8));
    if first == last {
        return if from < to { masked(first, start & end) } else { 0 };
    }
    let words = ring[first + 1..last].chunks_exact(8);
    let bytes = words.remainder().iter().map(|byte| u64::from(byte.count_ones())).sum::<u64>();
    let word = |chunk: &[u8]| u64::from_ne_bytes(chunk.try_into().expect("eight bytes"));
    let words = words.map(|chunk| u64::from(word(chunk).count_ones())).sum::<u64>();
    masked(first, start) + words + bytes + if end == 0 { 0 } else { masked(last, end) }
}

/// The sum of the slots from `from` up to `to`.
pub(super) fn sum_between(width: usize, ring: &[u8], from: usize, to: usize) -> u64 {
    match width {
        1 => ones(ring, from, to),
        _ => (from..to).map(|slot| get(width, ring, slot)).sum::<u64>(),
    }
}

/// The sum of the `j` newest slots before `next`, as two runs of slots: those before `next`, and the rest at the ring's end.
pub(super) fn sum_newest(width: usize, slots: usize, ring: &[u8], next: usize, j: usize) -> u64 {
    let here = j.min(next);
    sum_between(width, ring, next - here, next) + sum_between(width, ring, slots - (j - here), slots)
}

#[inline(never)]
pub fn clear(width: usize, slots: usize, ring: &mut [u8]) -> Result<(), Refusal> {
    check(width, slots, true, ring)?;
    ring[..bytes_for(width, slots)].fill(0);
    Ok(())
}

#[inline(never)]
pub fn read(width: usize, slots: usize, ring: &[u8], slot: usize) -> Result<u64, Refusal> {
    check(width, slots, slot < slots, ring)?;
    Ok(get(width, ring, slot))
}

#[inline(never)]
pub fn write(width: usize, slots: usize, ring: &mut [u8], slot: usize, value: u64) -> Result<(), Refusal> {
    let fits = value.checked_shr(width as u32).unwrap_or(0) == 0;
    check(width, slots, slot < slots && fits, ring)?;
    put(width, ring, slot, value);
    Ok(())
}

#[inline(never)]
pub fn sum(width: usize, slots: usize, ring: &[u8], next: usize, j: usize) -> Result<u64, Refusal> {
    check(width, slots, next < slots && j <= slots, ring)?;
    Ok(sum_newest(width, slots, ring, next, j))
}
