//! The calls in ordinary Rust, written to docs/SCOPE.md and not from the proved code.

pub mod book;
pub mod coarse;
pub mod image;
pub mod lit;
pub mod page;
pub mod program;
pub mod ring;
pub mod salvage;
pub mod score;
pub mod sums;
pub mod trend;
pub mod zones;

/// Why a call was refused; the numbers are those of docs/SCOPE.md, Refusals.
#[derive(Clone, Copy, Debug, PartialEq, Eq)]
#[repr(u8)]
pub enum Refusal {
    BoundOutOfRange = 1,
    LengthOutOfRange = 2,
    ToleranceOutOfRange = 3,
    RingTooShort = 4,
    WindowTooLong = 5,
    ZeroAsked = 6,
    ItemTooLarge = 7,
    NoBook = 8,
    NotReached = 9,
    RingCall = 10,
    WrongByte = 11,
    NumberOutOfRange = 12,
    ImageTooLarge = 13,
    EndsTooEarly = 14,
    PixelTooLarge = 15,
    ImagesDiffer = 16,
    BookRests = 17,
    RowTooShort = 18,
    CannotCoarsen = 19,
    BadZones = 20,
    NumbersTooShort = 21,
    BadLitCall = 22,
}
