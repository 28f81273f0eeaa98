//! A book for each zone of a picture: the records in one slice, their rings one behind the other in another.

use super::book::{Book, Shape};
use super::Refusal;

const MOST: usize = 96;

/// Why nothing was added; with `NoBook`, `BookRests` and `ItemTooLarge` the lowest zone that it is said of, from 0, and with any other 0.
#[derive(Clone, Copy, Debug, PartialEq, Eq)]
pub struct ZoneRefused {
    pub refusal: Refusal,
    pub zone: u64,
}

impl From<Refusal> for ZoneRefused {
    fn from(refusal: Refusal) -> ZoneRefused {
        ZoneRefused { refusal, zone: 0 }
    }
}

impl Refusal {
    fn of_zone(self, zone: usize) -> ZoneRefused {
        ZoneRefused { refusal: self, zone: zone as u64 }
    }
}

fn check_zones(zones: &[Book], fits: bool) -> Result<(), Refusal> {
    if !(1..=MOST).contains(&zones.len()) || !fits {
        return Err(Refusal::BadZones);
    }
    Ok(())
}

/// How many bytes the rings of these zones take together; the first of them has the number `first`.
fn check_records(zones: &[Book], first: usize) -> Result<usize, ZoneRefused> {
    let mut bytes = 0;
    for (zone, book) in (first..).zip(zones) {
        bytes += book.check_record().map_err(|refusal| refusal.of_zone(zone))?.bytes();
    }
    Ok(bytes)
}

fn check_room(rings: &[u8], bytes: usize) -> Result<(), Refusal> {
    if rings.len() < bytes {
        return Err(Refusal::RingTooShort);
    }
    Ok(())
}

/// Whether the zone of this number takes the item.
fn check_taken(book: &Book, zone: usize, item: u64) -> Result<(), ZoneRefused> {
    book.check_awake().and_then(|()| book.check_item(item)).map_err(|refusal| refusal.of_zone(zone))
}

/// Adds an item, which it takes, to a zone whose ring is the first bytes of these; gives the bytes behind it.
#[inline]
fn take<'a>(book: &mut Book, rings: &'a mut [u8], item: u64) -> &'a mut [u8] {
    let shape = Shape::new(book.bound, book.length, book.tolerance);
    let (ring, behind) = rings.split_at_mut(shape.bytes());
    book.take(&shape, ring, item);
    behind
}

/// A count for each zone, or none at all where one of them cannot be added.
#[inline(never)]
pub fn add_all(zones: &mut [Book], rings: &mut [u8], counts: &[u64]) -> Result<(), ZoneRefused> {
    check_zones(zones, counts.len() == zones.len())?;
    check_room(rings, check_records(zones, 0)?)?;
    for (zone, (book, &count)) in zones.iter().zip(counts).enumerate() {
        check_taken(book, zone, count)?;
    }
    let mut rings = rings;
    for (book, &count) in zones.iter_mut().zip(counts) {
        rings = take(book, rings, count);
    }
    Ok(())
}

#[inline(never)]
pub fn add_one(zones: &mut [Book], rings: &mut [u8], zone: u64, item: u64) -> Result<(), ZoneRefused> {
    check_zones(zones, zone < zones.len() as u64)?;
    let zone = zone as usize;
    let start = check_records(&zones[..zone], 0)?;
    check_room(rings, start + check_records(&zones[zone..], zone)?)?;
    check_taken(&zones[zone], zone, item)?;
    take(&mut zones[zone], &mut rings[start..], item);
    Ok(())
}
