//! The library, as include/uprzezar.h declares it, and its calls with slices in the place of pointers.

#[derive(Clone, Copy, Debug, Default, PartialEq, Eq)]
#[repr(C)]
pub struct Book {
    pub bound: u64,
    pub length: u64,
    pub tolerance: u64,
    pub carry: u64,
    pub phase: u64,
    pub kept: u64,
    pub head: u64,
    pub resting: u64,
}

#[derive(Clone, Copy, Debug, Default, PartialEq, Eq)]
#[repr(C)]
pub struct Shape {
    pub block: u64,
    pub slots: u64,
    pub largest: u64,
    pub width: u64,
    pub bytes: u64,
}

#[derive(Clone, Copy, Debug, PartialEq, Eq)]
#[repr(C)]
pub struct Shaped {
    pub refusal: u8,
    pub shape: Shape,
}

#[derive(Clone, Copy, Debug, PartialEq, Eq)]
#[repr(C)]
pub struct Updated {
    pub refusal: u8,
    pub book: Book,
}

#[derive(Clone, Copy, Debug, PartialEq, Eq)]
#[repr(C)]
pub struct Ran {
    pub refusal: u8,
    pub place: u64,
    pub book: Book,
}

/// A number, or a refusal with the number 0: a figure, a window, a slot's number, a sum or a score.
#[derive(Clone, Copy, Debug, PartialEq, Eq)]
#[repr(C)]
pub struct Answer {
    pub refusal: u8,
    pub value: u64,
}

/// A number of lit frames or a frame's place, or a refusal with the number 0.
#[derive(Clone, Copy, Debug, PartialEq, Eq)]
#[repr(C)]
pub struct Lit {
    pub refusal: u8,
    pub value: usize,
}

#[derive(Clone, Copy, Debug, Default, PartialEq, Eq)]
#[repr(C)]
pub struct Summed {
    pub refusal: u8,
    pub figure: u64,
    pub fields: u64,
    pub sums: u64,
}

#[derive(Clone, Copy, Debug, PartialEq, Eq)]
#[repr(C)]
pub struct Coarser {
    pub refusal: u8,
    pub bytes: u64,
    pub book: Book,
}

#[derive(Clone, Copy, Debug, PartialEq, Eq)]
#[repr(C)]
pub struct Salvaged {
    pub refusal: u8,
    pub count: u64,
    pub book: Book,
}

#[derive(Clone, Copy, Debug, PartialEq, Eq)]
#[repr(C)]
pub struct Zoned {
    pub refusal: u8,
    pub zone: u64,
}

#[derive(Clone, Copy, Debug, PartialEq, Eq)]
#[repr(C)]
pub struct Trended {
    pub refusal: u8,
    pub trend: i64,
}

#[derive(Clone, Copy, Debug, PartialEq, Eq)]
#[repr(C)]
pub struct Ruled {
    pub refusal: u8,
    pub verdict: u8,
    pub window: u64,
    pub figure: u64,
}

#[derive(Clone, Copy, Debug, Default, PartialEq, Eq)]
#[repr(C)]
pub struct Numbers {
    pub refusal: u8,
    pub width: usize,
    pub height: usize,
    pub maxval: usize,
    pub start: usize,
    pub used: usize,
}

#[derive(Clone, Copy, Debug, PartialEq, Eq)]
#[repr(C)]
pub struct RasterPlace {
    pub refusal: u8,
    pub offset: usize,
    pub length: usize,
}

/// When two pictures were taken, and the tick now.
#[derive(Clone, Copy, Debug)]
#[repr(C)]
pub struct Ticks {
    pub newest: u32,
    pub older: u32,
    pub present: u32,
}

#[derive(Clone, Copy, Debug, Default, PartialEq, Eq)]
#[repr(C)]
pub struct Shown {
    pub refusal: u8,
    pub picture: u8,
    pub offset: usize,
    pub length: usize,
    pub age: u32,
}

extern "C" {
    fn uprzezar_ring_clear(width: usize, slots: usize, ring: *mut u8, bytes: usize) -> u8;
    fn uprzezar_ring_read(width: usize, slots: usize, ring: *const u8, bytes: usize, slot: usize) -> Answer;
    fn uprzezar_ring_write(width: usize, slots: usize, ring: *mut u8, bytes: usize, slot: usize, value: u64) -> u8;
    fn uprzezar_ring_sum(width: usize, slots: usize, ring: *const u8, bytes: usize, next: usize, newest: usize) -> Answer;
    fn uprzezar_shape(bound: u64, length: u64, tolerance: u64) -> Shaped;
    fn uprzezar_open(bound: u64, length: u64, tolerance: u64, ring: *mut u8, bytes: usize) -> Updated;
    fn uprzezar_add(book: Book, ring: *mut u8, bytes: usize, item: u64) -> Updated;
    fn uprzezar_run(book: Book, ring: *mut u8, bytes: usize, counts: *const u64, how_many: usize) -> Ran;
    fn uprzezar_rest(book: Book) -> Updated;
    fn uprzezar_wake(book: Book) -> Updated;
    fn uprzezar_total(book: Book, ring: *const u8, bytes: usize, window: u64) -> Answer;
    fn uprzezar_far(book: Book, ring: *const u8, bytes: usize, amount: u64) -> Answer;
    fn uprzezar_verdict(book: Book, ring: *const u8, bytes: usize, window: u64, amount: u64) -> Ruled;
    fn uprzezar_trend(book: Book, ring: *const u8, bytes: usize, window: u64) -> Trended;
    fn uprzezar_open_row(
        bound: u64,
        length: u64,
        tolerance: u64,
        ring: *mut u8,
        bytes: usize,
        row: *mut u32,
        entries: usize,
    ) -> Updated;
    fn uprzezar_add_row(book: Book, ring: *mut u8, bytes: usize, row: *mut u32, entries: usize, item: u64) -> Updated;
    fn uprzezar_run_row(
        book: Book,
        ring: *mut u8,
        bytes: usize,
        row: *mut u32,
        entries: usize,
        counts: *const u64,
        how_many: usize,
    ) -> Ran;
    fn uprzezar_total_row(book: Book, ring: *const u8, bytes: usize, row: *const u32, entries: usize, window: u64) -> Summed;
    fn uprzezar_coarsen(book: Book, ring: *const u8, bytes: usize, times: u64, second: *mut u8, seconds: usize) -> Coarser;
    fn uprzezar_coarsen_row(
        book: Book,
        ring: *const u8,
        bytes: usize,
        times: u64,
        second: *mut u8,
        seconds: usize,
        row: *mut u32,
        entries: usize,
    ) -> Coarser;
    fn uprzezar_salvage(book: Book, ring: *mut u8, bytes: usize, numbers: *mut u32, slots: usize) -> Salvaged;
    fn uprzezar_salvage_row(
        book: Book,
        ring: *mut u8,
        bytes: usize,
        numbers: *mut u32,
        slots: usize,
        row: *mut u32,
        entries: usize,
    ) -> Salvaged;
    fn uprzezar_zones_add(
        zones: *mut Book,
        zone_count: usize,
        rings: *mut u8,
        bytes: usize,
        counts: *const u64,
        how_many: usize,
    ) -> Zoned;
    fn uprzezar_zone_add(zones: *mut Book, zone_count: usize, rings: *mut u8, bytes: usize, zone: u64, item: u64) -> Zoned;
    fn uprzezar_header(bytes: *const u8, count: usize) -> Numbers;
    fn uprzezar_raster(bytes: *const u8, count: usize) -> RasterPlace;
    fn uprzezar_score(bound: u64, allowance: u8, first: *const u8, ones: usize, second: *const u8, twos: usize) -> Answer;
    fn uprzezar_score_masked(
        bound: u64,
        allowance: u8,
        first: *const u8,
        ones: usize,
        second: *const u8,
        twos: usize,
        mask: *const u8,
        masks: usize,
    ) -> Answer;
    fn uprzezar_rank(frames: *const u8, bytes: usize, length: usize, i: usize) -> Lit;
    fn uprzezar_select(frames: *const u8, bytes: usize, length: usize, k: usize) -> Lit;
    fn uprzezar_rank_coarse(frames: *const u8, bytes: usize, length: usize, step: usize, i: usize) -> Lit;
    fn uprzezar_select_coarse(frames: *const u8, bytes: usize, length: usize, step: usize, k: usize) -> Lit;
    fn uprzezar_in_byte(byte: u8, k: usize) -> u8;
    fn uprzezar_show(
        book: Book,
        ring: *const u8,
        bytes: usize,
        window: u64,
        amount: u64,
        newest: *const u8,
        newests: usize,
        older: *const u8,
        olders: usize,
        ticks: Ticks,
    ) -> Shown;
}

// A slice is all that the header asks of its callers: a pointer that is not null, aligned, with a length, and no other writer.

pub fn ring_clear(width: usize, slots: usize, ring: &mut [u8]) -> u8 {
    unsafe { uprzezar_ring_clear(width, slots, ring.as_mut_ptr(), ring.len()) }
}

pub fn ring_read(width: usize, slots: usize, ring: &[u8], slot: usize) -> Answer {
    unsafe { uprzezar_ring_read(width, slots, ring.as_ptr(), ring.len(), slot) }
}

pub fn ring_write(width: usize, slots: usize, ring: &mut [u8], slot: usize, value: u64) -> u8 {
    unsafe { uprzezar_ring_write(width, slots, ring.as_mut_ptr(), ring.len(), slot, value) }
}

pub fn ring_sum(width: usize, slots: usize, ring: &[u8], next: usize, newest: usize) -> Answer {
    unsafe { uprzezar_ring_sum(width, slots, ring.as_ptr(), ring.len(), next, newest) }
}

pub fn shape(bound: u64, length: u64, tolerance: u64) -> Shaped {
    unsafe { uprzezar_shape(bound, length, tolerance) }
}

pub fn open(bound: u64, length: u64, tolerance: u64, ring: &mut [u8]) -> Updated {
    unsafe { uprzezar_open(bound, length, tolerance, ring.as_mut_ptr(), ring.len()) }
}

pub fn add(book: Book, ring: &mut [u8], item: u64) -> Updated {
    unsafe { uprzezar_add(book, ring.as_mut_ptr(), ring.len(), item) }
}

pub fn run(book: Book, ring: &mut [u8], counts: &[u64]) -> Ran {
    unsafe { uprzezar_run(book, ring.as_mut_ptr(), ring.len(), counts.as_ptr(), counts.len()) }
}

pub fn rest(book: Book) -> Updated {
    unsafe { uprzezar_rest(book) }
}

pub fn wake(book: Book) -> Updated {
    unsafe { uprzezar_wake(book) }
}

pub fn total(book: Book, ring: &[u8], window: u64) -> Answer {
    unsafe { uprzezar_total(book, ring.as_ptr(), ring.len(), window) }
}

pub fn far(book: Book, ring: &[u8], amount: u64) -> Answer {
    unsafe { uprzezar_far(book, ring.as_ptr(), ring.len(), amount) }
}

pub fn verdict(book: Book, ring: &[u8], window: u64, amount: u64) -> Ruled {
    unsafe { uprzezar_verdict(book, ring.as_ptr(), ring.len(), window, amount) }
}

pub fn trend(book: Book, ring: &[u8], window: u64) -> Trended {
    unsafe { uprzezar_trend(book, ring.as_ptr(), ring.len(), window) }
}

pub fn open_row(bound: u64, length: u64, tolerance: u64, ring: &mut [u8], row: &mut [u32]) -> Updated {
    unsafe { uprzezar_open_row(bound, length, tolerance, ring.as_mut_ptr(), ring.len(), row.as_mut_ptr(), row.len()) }
}

pub fn add_row(book: Book, ring: &mut [u8], row: &mut [u32], item: u64) -> Updated {
    unsafe { uprzezar_add_row(book, ring.as_mut_ptr(), ring.len(), row.as_mut_ptr(), row.len(), item) }
}

pub fn run_row(book: Book, ring: &mut [u8], row: &mut [u32], counts: &[u64]) -> Ran {
    let (bytes, entries) = (ring.len(), row.len());
    unsafe { uprzezar_run_row(book, ring.as_mut_ptr(), bytes, row.as_mut_ptr(), entries, counts.as_ptr(), counts.len()) }
}

pub fn total_row(book: Book, ring: &[u8], row: &[u32], window: u64) -> Summed {
    unsafe { uprzezar_total_row(book, ring.as_ptr(), ring.len(), row.as_ptr(), row.len(), window) }
}

pub fn coarsen(book: Book, ring: &[u8], times: u64, second: &mut [u8]) -> Coarser {
    unsafe { uprzezar_coarsen(book, ring.as_ptr(), ring.len(), times, second.as_mut_ptr(), second.len()) }
}

pub fn coarsen_row(book: Book, ring: &[u8], times: u64, second: &mut [u8], row: &mut [u32]) -> Coarser {
    let (bytes, seconds, entries) = (ring.len(), second.len(), row.len());
    unsafe {
        uprzezar_coarsen_row(book, ring.as_ptr(), bytes, times, second.as_mut_ptr(), seconds, row.as_mut_ptr(), entries)
    }
}

pub fn salvage(book: Book, ring: &mut [u8], numbers: &mut [u32]) -> Salvaged {
    unsafe { uprzezar_salvage(book, ring.as_mut_ptr(), ring.len(), numbers.as_mut_ptr(), numbers.len()) }
}

pub fn salvage_row(book: Book, ring: &mut [u8], numbers: &mut [u32], row: &mut [u32]) -> Salvaged {
    let (bytes, slots, entries) = (ring.len(), numbers.len(), row.len());
    unsafe {
        uprzezar_salvage_row(book, ring.as_mut_ptr(), bytes, numbers.as_mut_ptr(), slots, row.as_mut_ptr(), entries)
    }
}

pub fn zones_add(zones: &mut [Book], rings: &mut [u8], counts: &[u64]) -> Zoned {
    let (zone_count, bytes) = (zones.len(), rings.len());
    unsafe { uprzezar_zones_add(zones.as_mut_ptr(), zone_count, rings.as_mut_ptr(), bytes, counts.as_ptr(), counts.len()) }
}

pub fn zone_add(zones: &mut [Book], rings: &mut [u8], zone: u64, item: u64) -> Zoned {
    unsafe { uprzezar_zone_add(zones.as_mut_ptr(), zones.len(), rings.as_mut_ptr(), rings.len(), zone, item) }
}

pub fn header(bytes: &[u8]) -> Numbers {
    unsafe { uprzezar_header(bytes.as_ptr(), bytes.len()) }
}

pub fn raster(bytes: &[u8]) -> RasterPlace {
    unsafe { uprzezar_raster(bytes.as_ptr(), bytes.len()) }
}

pub fn score(bound: u64, allowance: u8, first: &[u8], second: &[u8]) -> Answer {
    unsafe { uprzezar_score(bound, allowance, first.as_ptr(), first.len(), second.as_ptr(), second.len()) }
}

pub fn masked(bound: u64, allowance: u8, first: &[u8], second: &[u8], mask: &[u8]) -> Answer {
    let [(one, ones), (two, twos), (bits, masks)] = [first, second, mask].map(|bytes| (bytes.as_ptr(), bytes.len()));
    unsafe { uprzezar_score_masked(bound, allowance, one, ones, two, twos, bits, masks) }
}

pub fn rank(frames: &[u8], length: usize, i: usize) -> Lit {
    unsafe { uprzezar_rank(frames.as_ptr(), frames.len(), length, i) }
}

pub fn select(frames: &[u8], length: usize, k: usize) -> Lit {
    unsafe { uprzezar_select(frames.as_ptr(), frames.len(), length, k) }
}

pub fn rank_coarse(frames: &[u8], length: usize, step: usize, i: usize) -> Lit {
    unsafe { uprzezar_rank_coarse(frames.as_ptr(), frames.len(), length, step, i) }
}

pub fn select_coarse(frames: &[u8], length: usize, step: usize, k: usize) -> Lit {
    unsafe { uprzezar_select_coarse(frames.as_ptr(), frames.len(), length, step, k) }
}

pub fn in_byte(byte: u8, k: usize) -> u8 {
    unsafe { uprzezar_in_byte(byte, k) }
}

pub fn show(book: Book, ring: &[u8], window: u64, amount: u64, newest: &[u8], older: &[u8], ticks: Ticks) -> Shown {
    let [(lent, bytes), (new, newests), (old, olders)] = [ring, newest, older].map(|bytes| (bytes.as_ptr(), bytes.len()));
    unsafe { uprzezar_show(book, lent, bytes, window, amount, new, newests, old, olders, ticks) }
}
