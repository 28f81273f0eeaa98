//! Millions of calls, random and adversarial, on both sides; any difference in an answer, a refusal or a lent byte ends the run.
//!
//!     differ [ROUNDS]    each round makes one call of each kind (default 1,000,000); at the end all sums of 1 to 130 slots of one bit, all ranks
//!                        and places of up to 130 frames, and all places in a byte are made once

use bench::cases::{crossed, crossed_ticks};
use bench::chance::Chance;
use bench::pictures::{pixel_bytes, put_pixel};
use bench::plain::book::{Book, Notice, Shape};
use bench::plain::coarse::Coarser;
use bench::plain::page::{Shown, Ticks};
use bench::plain::sums::Summed;
use bench::plain::zones::{self, ZoneRefused};
use bench::plain::{image, lit, ring, score, Refusal};
use bench::proved;

/// How many calls of a kind came out with which refusal; 0 for none.
struct Tally {
    name: &'static str,
    counts: [u64; 23],
}

fn alike<T: PartialEq + std::fmt::Debug>(name: &str, side: &str, other: T, proved: T, call: impl Fn() -> String) {
    if other != proved {
        println!("{name}: {side} {other:?}, proved {proved:?}\n{}", call());
        std::process::exit(1);
    }
}

fn same<T: PartialEq + std::fmt::Debug>(tally: &mut Tally, refusal: u8, plain: T, proved: T, call: impl Fn() -> String) {
    alike(tally.name, "plain", plain, proved, call);
    tally.counts[refusal as usize] += 1;
}

fn number(result: Result<u64, Refusal>) -> proved::Answer {
    match result {
        Ok(value) => proved::Answer { refusal: 0, value },
        Err(refusal) => proved::Answer { refusal: refusal as u8, value: 0 },
    }
}

fn refusal_of(result: Result<(), Refusal>) -> u8 {
    result.map_or_else(|refusal| refusal as u8, |()| 0)
}

/// A number at or beside a limit, or anywhere up to it, or anything at all.
fn near(chance: &mut Chance, limit: u64) -> u64 {
    match chance.below(16) {
        0 => 0,
        1 => 1,
        2 => limit,
        3 => limit.wrapping_add(1),
        4 => limit.wrapping_sub(1),
        5 if chance.one_in(4) => chance.next(),
        6 if chance.one_in(4) => u64::MAX,
        7 => 1 << chance.below(64).min(u64::from(64 - limit.leading_zeros())),
        8 | 9 => chance.below(limit.min(20).wrapping_add(1).max(1)),
        _ => chance.below(limit.wrapping_add(1).max(1)),
    }
}

fn slots_call(chance: &mut Chance, t: &mut [Tally]) {
    let width = near(chance, 16) as usize;
    let slots = near(chance, 4096) as usize;
    let bytes = if width <= 17 && slots <= 5000 { (width * slots).div_ceil(8) } else { 8 };
    let lent = match chance.below(4) {
        0 => bytes,
        1 => bytes.saturating_sub(1),
        2 => bytes + chance.below(9) as usize,
        _ => chance.below(64) as usize,
    };
    let bytes = chance.bytes(lent);
    let slot = near(chance, slots as u64) as usize;
    let newest = near(chance, slots as u64) as usize;
    let value = near(chance, if width < 64 { (1 << width) - 1 } else { 1 });
    let call = || format!("width {width}, slots {slots}, slot or next {slot}, newest {newest}, value {value}, ring {bytes:02x?}");

    let (mut a, mut b) = (bytes.clone(), bytes.clone());
    let (p, q) = (refusal_of(ring::clear(width, slots, &mut a)), proved::ring_clear(width, slots, &mut b));
    same(&mut t[0], p, (p, a), (q, b), call);
    let (p, q) = (number(ring::read(width, slots, &bytes, slot)), proved::ring_read(width, slots, &bytes, slot));
    same(&mut t[1], p.refusal, p, q, call);
    let (mut a, mut b) = (bytes.clone(), bytes.clone());
    let p = refusal_of(ring::write(width, slots, &mut a, slot, value));
    let q = proved::ring_write(width, slots, &mut b, slot, value);
    same(&mut t[2], p, (p, a), (q, b), call);
    let p = number(ring::sum(width, slots, &bytes, slot, newest));
    let q = proved::ring_sum(width, slots, &bytes, slot, newest);
    same(&mut t[3], p.refusal, p, q, call);
}

/// Every sum of a ring of slots of one bit.
fn every_sum(slots: usize, bytes: &[u8], t: &mut Tally) {
    for (next, newest) in (0..slots).flat_map(|next| (0..=slots).map(move |newest| (next, newest))) {
        let p = number(ring::sum(1, slots, bytes, next, newest));
        let q = proved::ring_sum(1, slots, bytes, next, newest);
        same(t, p.refusal, p, q, || format!("slots {slots} of one bit, next {next}, newest {newest}, ring {bytes:02x?}"));
    }
}

/// 1 to 130 slots of one bit, in rings all 1 and of chance, of as many bytes as they take and of more.
fn one_bit_sums(chance: &mut Chance, t: &mut Tally) {
    for slots in 1..=130_usize {
        let bytes = slots.div_ceil(8);
        for lent in [bytes, bytes + 1 + chance.below(9) as usize] {
            every_sum(slots, &vec![0xff; lent], t);
            every_sum(slots, &chance.bytes(lent), t);
        }
    }
}

/// L, n and D, good ones for the most part.
fn setting(chance: &mut Chance) -> (u64, u64, u64) {
    let bound = if chance.one_in(2) { near(chance, 65535) } else { near(chance, 40) };
    let length = if chance.one_in(2) { near(chance, 4096) } else { near(chance, 30) };
    let most = match chance.below(3) {
        0 => bound.wrapping_mul(length),
        1 => bound,
        _ => bound.wrapping_mul(1 + chance.below(8)),
    };
    (bound, length, near(chance, most))
}

/// How many bytes a ring of these numbers takes, or a few where they are out of range.
fn ring_bytes(bound: u64, length: u64, tolerance: u64) -> usize {
    if !(1..=65536).contains(&bound) || !(1..=4097).contains(&length) || tolerance == 0 {
        return 4;
    }
    let block = (tolerance / bound).max(1);
    let width = u64::BITS - (block * bound).div_ceil(tolerance).leading_zeros();
    (length.div_ceil(block) * u64::from(width)).div_ceil(8) as usize
}

fn lent(chance: &mut Chance, bytes: usize) -> Vec<u8> {
    let bytes = match chance.below(16) {
        0 => bytes.saturating_sub(1),
        1 => bytes + 3,
        2 => chance.below(bytes as u64 + 1) as usize,
        _ => bytes,
    };
    chance.bytes(bytes)
}

/// A resting mark: 0 for the most part.
fn mark(chance: &mut Chance) -> u64 {
    if !chance.one_in(6) {
        return 0;
    }
    let anything = chance.next();
    chance.pick(&[1, 1, 2, 255, 256, 1 << 32, 1 << 63, u64::MAX, anything])
}

/// A record with these three numbers, at or near the edges of refusal 8.
fn made_up(chance: &mut Chance, bound: u64, length: u64, tolerance: u64) -> Book {
    let block = tolerance.checked_div(bound).unwrap_or(1).max(1);
    let kept = near(chance, length);
    let phase = near(chance, kept.min(block - 1));
    let most = tolerance.wrapping_sub(1).wrapping_add(phase.wrapping_mul(bound));
    let head = near(chance, length.div_ceil(block).wrapping_sub(1));
    Book { bound, length, tolerance, carry: near(chance, most), phase, kept, head, resting: mark(chance) }
}

/// A record with its ring: from a good start in half of the cases, made up in the others; with any mark in both.
fn state(chance: &mut Chance) -> (Book, Vec<u8>) {
    let (bound, length, tolerance) = setting(chance);
    let mut ring = lent(chance, ring_bytes(bound, length, tolerance));
    if chance.one_in(2) {
        if let Ok(mut book) = Book::open(bound, length, tolerance, &mut ring) {
            let calm = chance.one_in(4);
            for _ in 0..chance.below(2 * length.min(50) + 1) {
                let item = if calm && !chance.one_in(8) { 0 } else { chance.below(bound + 1) };
                book.add(&mut ring, item).expect("the item is within the bound");
            }
            book.resting = mark(chance);
            return (book, ring);
        }
    }
    (made_up(chance, bound, length, tolerance), ring)
}

fn shaped(result: Result<Shape, Refusal>) -> proved::Shaped {
    match result {
        Ok(shape) => {
            let (slots, width, bytes) = (shape.slots as u64, shape.width as u64, shape.bytes() as u64);
            proved::Shaped { refusal: 0, shape: proved::Shape { block: shape.block, slots, largest: shape.largest, width, bytes } }
        }
        Err(refusal) => proved::Shaped { refusal: refusal as u8, shape: proved::Shape::default() },
    }
}

fn opened(result: Result<Book, Refusal>) -> proved::Updated {
    match result {
        Ok(book) => proved::Updated { refusal: 0, book: crossed(book) },
        Err(refusal) => proved::Updated { refusal: refusal as u8, book: proved::Book::default() },
    }
}

fn ruled(result: Result<Notice, Refusal>) -> proved::Ruled {
    match result {
        Ok(Notice { window, verdict, figure }) => proved::Ruled { refusal: 0, verdict: verdict as u8 + 1, window, figure },
        Err(refusal) => proved::Ruled { refusal: refusal as u8, verdict: 0, window: 0, figure: 0 },
    }
}

/// The record after a call that changes it, with the call's refusal.
fn updated(mut book: Book, call: impl FnOnce(&mut Book) -> Result<(), Refusal>) -> proved::Updated {
    let refusal = refusal_of(call(&mut book));
    proved::Updated { refusal, book: crossed(book) }
}

fn shape_call(chance: &mut Chance, t: &mut Tally) {
    let (bound, length, tolerance) = setting(chance);
    let (p, q) = (shaped(Shape::of(bound, length, tolerance)), proved::shape(bound, length, tolerance));
    same(t, p.refusal, p, q, || format!("{bound} {length} {tolerance}"));
}

fn open_call(chance: &mut Chance, t: &mut Tally) {
    let (bound, length, tolerance) = setting(chance);
    let bytes = lent(chance, ring_bytes(bound, length, tolerance));
    let (mut a, mut b) = (bytes.clone(), bytes.clone());
    let p = opened(Book::open(bound, length, tolerance, &mut a));
    let q = proved::open(bound, length, tolerance, &mut b);
    same(t, p.refusal, (p, a), (q, b), || format!("{bound} {length} {tolerance}, ring {bytes:02x?}"));
}

fn book_calls(chance: &mut Chance, t: &mut [Tally]) {
    let (book, bytes) = state(chance);
    let item = near(chance, book.bound);
    let window = near(chance, book.kept);
    let held = book.total(&bytes, book.kept).unwrap_or(10);
    let amount = near(chance, held);
    let record = crossed(book);
    let call = || format!("{book:?}, item {item}, window {window}, amount {amount}, ring {bytes:02x?}");

    let (mut a, mut b) = (bytes.clone(), bytes.clone());
    let p = updated(book, |next| next.add(&mut a, item));
    let q = proved::add(record, &mut b, item);
    same(&mut t[0], p.refusal, (p, a), (q, b), call);
    let (p, q) = (number(book.total(&bytes, window)), proved::total(record, &bytes, window));
    same(&mut t[1], p.refusal, p, q, call);
    let (p, q) = (number(book.far(&bytes, amount)), proved::far(record, &bytes, amount));
    same(&mut t[2], p.refusal, p, q, call);
    let (p, q) = (ruled(book.verdict(&bytes, window, amount)), proved::verdict(record, &bytes, window, amount));
    same(&mut t[3], p.refusal, p, q, call);
    let (p, q) = (updated(book, Book::rest), proved::rest(record));
    same(&mut t[4], p.refusal, p, q, call);
    let (p, q) = (updated(book, Book::wake), proved::wake(record));
    same(&mut t[5], p.refusal, p, q, call);
}

/// About half of what is kept; now and then a window whose double, cut to 64 bits, would be one that is kept.
fn half_window(chance: &mut Chance, kept: u64) -> u64 {
    if chance.one_in(16) {
        return 1 << 63 | chance.below(kept / 2 + 1);
    }
    near(chance, kept / 2)
}

/// A trend by the library's own totals.
fn by_two_totals(book: proved::Book, ring: &[u8], window: u64) -> proved::Trended {
    let longer = proved::total(book, ring, window.saturating_mul(2));
    let refusal = longer.refusal;
    if refusal != 0 {
        return proved::Trended { refusal, trend: 0 };
    }
    let shorter = proved::total(book, ring, window);
    proved::Trended { refusal, trend: 2 * shorter.value as i64 - longer.value as i64 }
}

fn trend_call(chance: &mut Chance, t: &mut Tally) {
    let (book, bytes) = state(chance);
    let window = half_window(chance, book.kept);
    let record = crossed(book);
    let call = || format!("{book:?}, window {window}, ring {bytes:02x?}");

    let (refusal, trend) = book.trend(&bytes, window).map_or_else(|refusal| (refusal as u8, 0), |trend| (0, trend));
    let q = proved::trend(record, &bytes, window);
    alike(t.name, "by two totals", by_two_totals(record, &bytes, window), q, call);
    same(t, refusal, proved::Trended { refusal, trend }, q, call);
}

/// Counts for a run, none of them at times: within the bound, but in a quarter of the runs one or two that are not.
fn counts_for(chance: &mut Chance, bound: u64) -> Vec<u64> {
    let most = if chance.one_in(200) { 10_000 } else { 60 };
    let many = near(chance, most).min(most + 1);
    let calm = chance.one_in(8);
    let mut count = || if calm && !chance.one_in(8) { 0 } else { chance.below(bound.saturating_add(1)) };
    let mut counts: Vec<u64> = (0..many).map(|_| count()).collect();
    if many > 0 && chance.one_in(4) {
        for _ in 0..1 + chance.below(2) {
            let anything = chance.next();
            let bad = chance.pick(&[bound.wrapping_add(1), 1 << 63, (1 << 63) - 1, (1 << 63) + 1, u64::MAX, anything]);
            counts[chance.below(many) as usize] = bad;
        }
    }
    counts
}

/// A run by the library's own adds, one for each count: where one is refused, nothing is taken. Whether record and ring are refused, the
/// total of no items tells, and whether the book rests, its mark.
fn one_by_one(book: proved::Book, ring: &mut Vec<u8>, counts: &[u64]) -> proved::Ran {
    let refused = |refusal, place| proved::Ran { refusal, place, book };
    let asked = proved::total(book, ring, 0);
    if asked.refusal != 0 {
        return refused(asked.refusal, 0);
    }
    if book.resting != 0 {
        return refused(Refusal::BookRests as u8, 0);
    }
    let (mut next, mut bytes) = (book, ring.clone());
    for (place, &count) in (1..).zip(counts) {
        let added = proved::add(next, &mut bytes, count);
        if added.refusal != 0 {
            return refused(added.refusal, place);
        }
        next = added.book;
    }
    *ring = bytes;
    proved::Ran { refusal: 0, place: 0, book: next }
}

fn run_call(chance: &mut Chance, t: &mut Tally) {
    let (mut book, bytes) = state(chance);
    let counts = counts_for(chance, book.bound);
    let record = crossed(book);
    let call = || format!("{record:?}, counts {counts:?}, ring {bytes:02x?}");

    let [mut a, mut b, mut c] = [bytes.clone(), bytes.clone(), bytes.clone()];
    let (refusal, place) = book.run(&mut a, &counts).map_or_else(|why| (why.refusal as u8, why.place), |()| (0, 0));
    let p = proved::Ran { refusal, place, book: crossed(book) };
    let q = proved::run(record, &mut b, &counts);
    let one = one_by_one(record, &mut c, &counts);
    alike(t.name, "one by one", (one, &c), (q, &b), call);
    same(t, refusal, (p, a), (q, b), call);
}

/// L, n and D of a book that for the most part has several groups of slots.
fn row_setting(chance: &mut Chance) -> (u64, u64, u64) {
    if chance.one_in(4) {
        return setting(chance);
    }
    let bound = 1 + if chance.one_in(2) { chance.below(65535) } else { chance.below(40) };
    let most = chance.pick(&[31, 32, 33, 64, 65, 97, 130, 200, 300, 4096]);
    let length = if chance.one_in(4) { near(chance, most) } else { most };
    let tolerance = if chance.one_in(2) { 1 + chance.below(bound) } else { bound * (1 + chance.below(3)) };
    (bound, length, tolerance)
}

/// A row as long as such a book takes, for the most part, with numbers of any size.
fn lent_row(chance: &mut Chance, bound: u64, length: u64, tolerance: u64) -> Vec<u32> {
    let block = tolerance.checked_div(bound).unwrap_or(1).max(1);
    let entries = length.min(4097).div_ceil(block).div_ceil(32);
    let entries = match chance.below(16) {
        0 => entries.saturating_sub(1),
        1 => entries + 3,
        2 => chance.below(entries + 1),
        _ => entries,
    };
    let most = chance.pick(&[1, 40, 2000, 1 << 28, 1 << 32]);
    (0..entries).map(|_| if chance.one_in(8) { u32::MAX } else { chance.below(most) as u32 }).collect()
}

/// A record with its ring and its row, and whether the three have been kept together from an opening on.
struct Rowed {
    book: Book,
    ring: Vec<u8>,
    row: Vec<u32>,
    kept: bool,
}

fn rowed(chance: &mut Chance) -> Rowed {
    let (bound, length, tolerance) = row_setting(chance);
    let mut ring = lent(chance, ring_bytes(bound, length, tolerance));
    let mut row = lent_row(chance, bound, length, tolerance);
    if chance.one_in(3) {
        return Rowed { book: made_up(chance, bound, length, tolerance), ring, row, kept: false };
    }
    let Ok(mut book) = Book::open_row(bound, length, tolerance, &mut ring, &mut row) else {
        return Rowed { book: made_up(chance, bound, length, tolerance), ring, row, kept: false };
    };
    let most = if chance.one_in(100) { 4096 } else { 150 };
    let items: Vec<u64> = (0..chance.below(3 * length.min(most))).map(|_| chance.below(bound + 1)).collect();
    book.run_row(&mut ring, &mut row, &items).expect("the items are within the bound");
    book.resting = mark(chance);
    let kept = !chance.one_in(4);
    if !kept {
        row = lent_row(chance, bound, length, tolerance);
    }
    Rowed { book, ring, row, kept }
}

fn summed(result: Result<Summed, Refusal>) -> proved::Summed {
    match result {
        Ok(Summed { figure, fields, sums }) => proved::Summed { refusal: 0, figure, fields, sums },
        Err(refusal) => proved::Summed { refusal: refusal as u8, ..Default::default() },
    }
}

fn open_row_call(chance: &mut Chance, t: &mut Tally) {
    let (bound, length, tolerance) = row_setting(chance);
    let bytes = lent(chance, ring_bytes(bound, length, tolerance));
    let numbers = lent_row(chance, bound, length, tolerance);
    let (mut ring_a, mut row_a) = (bytes.clone(), numbers.clone());
    let (mut ring_b, mut row_b) = (bytes.clone(), numbers.clone());
    let p = opened(Book::open_row(bound, length, tolerance, &mut ring_a, &mut row_a));
    let q = proved::open_row(bound, length, tolerance, &mut ring_b, &mut row_b);
    let call = || format!("{bound} {length} {tolerance}, ring {bytes:02x?}, row {numbers:?}");
    same(t, p.refusal, (p, ring_a, row_a), (q, ring_b, row_b), call);
}

/// An item and a total with a row; where it has been kept beside the ring, the figure is that of the walk too.
fn row_calls(chance: &mut Chance, t: &mut [Tally]) {
    let Rowed { book, ring, row, kept } = rowed(chance);
    let item = near(chance, book.bound);
    let window = near(chance, book.kept);
    let record = crossed(book);
    let call = || format!("{book:?}, item {item}, window {window}, ring {ring:02x?}, row {row:?}");

    let (mut ring_a, mut row_a) = (ring.clone(), row.clone());
    let (mut ring_b, mut row_b) = (ring.clone(), row.clone());
    let p = updated(book, |next| next.add_row(&mut ring_a, &mut row_a, item));
    let q = proved::add_row(record, &mut ring_b, &mut row_b, item);
    same(&mut t[0], p.refusal, (p, ring_a, row_a), (q, ring_b, row_b), call);
    let (p, q) = (summed(book.total_row(&ring, &row, window)), proved::total_row(record, &ring, &row, window));
    if kept {
        let walk = proved::total(record, &ring, window);
        alike(t[1].name, "by the walk", walk, proved::Answer { refusal: q.refusal, value: q.figure }, call);
    }
    assert!(q.fields <= 64 && q.sums <= 3, "more is read than may be");
    same(&mut t[1], p.refusal, p, q, call);
}

/// A run with a row by the library's own adds with it, one for each count, as `one_by_one` does it without.
fn one_by_one_with_row(book: proved::Book, ring: &mut Vec<u8>, row: &mut Vec<u32>, counts: &[u64]) -> proved::Ran {
    let refused = |refusal, place| proved::Ran { refusal, place, book };
    let asked = proved::total_row(book, ring, row, 0);
    if asked.refusal != 0 {
        return refused(asked.refusal, 0);
    }
    if book.resting != 0 {
        return refused(Refusal::BookRests as u8, 0);
    }
    let (mut next, mut bytes, mut numbers) = (book, ring.clone(), row.clone());
    for (place, &count) in (1..).zip(counts) {
        let added = proved::add_row(next, &mut bytes, &mut numbers, count);
        if added.refusal != 0 {
            return refused(added.refusal, place);
        }
        next = added.book;
    }
    (*ring, *row) = (bytes, numbers);
    proved::Ran { refusal: 0, place: 0, book: next }
}

fn run_row_call(chance: &mut Chance, t: &mut Tally) {
    let Rowed { mut book, ring, row, .. } = rowed(chance);
    let counts = counts_for(chance, book.bound);
    let record = crossed(book);
    let call = || format!("{record:?}, counts {counts:?}, ring {ring:02x?}, row {row:?}");

    let [mut ring_a, mut ring_b, mut ring_c] = [ring.clone(), ring.clone(), ring.clone()];
    let [mut row_a, mut row_b, mut row_c] = [row.clone(), row.clone(), row.clone()];
    let result = book.run_row(&mut ring_a, &mut row_a, &counts);
    let (refusal, place) = result.map_or_else(|why| (why.refusal as u8, why.place), |()| (0, 0));
    let p = proved::Ran { refusal, place, book: crossed(book) };
    let q = proved::run_row(record, &mut ring_b, &mut row_b, &counts);
    let one = one_by_one_with_row(record, &mut ring_c, &mut row_c, &counts);
    alike(t.name, "one by one", (one, &ring_c, &row_c), (q, &ring_b, &row_b), call);
    same(t, refusal, (p, ring_a, row_a), (q, ring_b, row_b), call);
}

/// L, n and D of a book that for the most part can be made coarser.
fn coarse_setting(chance: &mut Chance) -> (u64, u64, u64) {
    if chance.one_in(8) {
        return row_setting(chance);
    }
    let bound = 1 + if chance.one_in(2) { chance.below(65535) } else { chance.below(4) };
    let most = chance.pick(&[6, 31, 33, 64, 65, 130, 300, 4096]);
    let length = if chance.one_in(2) { 1 + chance.below(most) } else { most };
    let most = chance.pick(&[1, 2, 6, 40, length]);
    (bound, length, bound * (1 + chance.below(most)))
}

/// A record with its ring, and the items that it has taken from its opening on, each with the carry that it was added to; no items where
/// record and ring are made up.
struct Told {
    book: Book,
    ring: Vec<u8>,
    items: Vec<(u64, u64)>,
}

fn told(chance: &mut Chance) -> Told {
    let (bound, length, tolerance) = coarse_setting(chance);
    let mut ring = lent(chance, ring_bytes(bound, length, tolerance));
    let opened = if chance.one_in(3) { Err(Refusal::NoBook) } else { Book::open(bound, length, tolerance, &mut ring) };
    let Ok(mut book) = opened else {
        return Told { book: made_up(chance, bound, length, tolerance), ring, items: Vec::new() };
    };
    let most = if chance.one_in(100) { 4096 } else { 150 };
    let least = chance.pick(&[0, 0, bound / 2, bound]);
    let mut items = Vec::new();
    for _ in 0..chance.below(3 * length.min(most)) {
        let item = least + chance.below(bound - least + 1);
        items.push((book.carry, item));
        book.add(&mut ring, item).expect("the item is within the bound");
    }
    book.resting = mark(chance);
    Told { book, ring, items }
}

/// What a fresh book with `times` times the tolerance comes to that has taken the items from the oldest wholly kept block on, and began
/// with the carry that the old book had there.
fn begun_there(told: &Told, times: u64, second: &mut [u8], row: &mut [u32]) -> proved::Book {
    let Book { bound, length, tolerance, phase, kept, resting, .. } = told.book;
    let block = tolerance / bound;
    let taken = (kept - phase) / block * block + phase;
    let (_, items) = told.items.split_at(told.items.len() - taken as usize);
    let mut book = proved::open_row(bound, length, times * tolerance, second, row).book;
    book.carry = items.first().map_or(told.book.carry, |&(carry, _)| carry);
    let counts: Vec<u64> = items.iter().map(|&(_, item)| item).collect();
    let ran = proved::run_row(book, second, row, &counts);
    assert!(ran.refusal == 0, "the items are within the bound");
    proved::Book { resting, ..ran.book }
}

fn coarser(result: Result<Coarser, Refusal>, book: proved::Book) -> proved::Coarser {
    match result {
        Ok(Coarser { book, bytes }) => proved::Coarser { refusal: 0, bytes: bytes as u64, book: crossed(book) },
        Err(refusal) => proved::Coarser { refusal: refusal as u8, bytes: 0, book },
    }
}

fn coarsen_calls(chance: &mut Chance, t: &mut [Tally]) {
    let told = told(chance);
    let (book, ring) = (told.book, &told.ring);
    let times = if chance.one_in(4) { near(chance, 16) } else { 2 + chance.below(15.min((book.length / 2).max(1))) };
    let larger = times.wrapping_mul(book.tolerance);
    let second = lent(chance, ring_bytes(book.bound, book.length, larger));
    let row = lent_row(chance, book.bound, book.length, larger);
    let record = crossed(book);
    let call = || format!("{book:?}, times {times}, ring {ring:02x?}, second {second:02x?}, row {row:?}");

    let (mut a, mut b) = (second.clone(), second.clone());
    let p = coarser(book.coarsen(ring, times, &mut a), record);
    let q = proved::coarsen(record, ring, times, &mut b);
    same(&mut t[0], p.refusal, (p, a), (q, b), call);
    let [mut a, mut b, mut c] = [second.clone(), second.clone(), second.clone()];
    let [mut row_a, mut row_b, mut row_c] = [row.clone(), row.clone(), row.clone()];
    let p = coarser(book.coarsen_row(ring, times, &mut a, &mut row_a), record);
    let q = proved::coarsen_row(record, ring, times, &mut b, &mut row_b);
    if q.refusal == 0 && !told.items.is_empty() {
        let fresh = begun_there(&told, times, &mut c, &mut row_c);
        alike(t[1].name, "begun there", (fresh, &c, &row_c), (q.book, &b, &row_b), call);
    }
    same(&mut t[1], p.refusal, (p, a, row_a), (q, b, row_b), call);
}

/// A zone from a good start and awake, with its stretch.
fn zone(chance: &mut Chance) -> (Book, Vec<u8>) {
    loop {
        let (bound, length, tolerance) = setting(chance);
        let mut ring = chance.bytes(ring_bytes(bound, length, tolerance));
        if let Ok(mut book) = Book::open(bound, length, tolerance, &mut ring) {
            for _ in 0..chance.below(2 * length.min(20) + 1) {
                book.add(&mut ring, chance.below(bound + 1)).expect("the item is within the bound");
            }
            return (book, ring);
        }
    }
}

/// Zones with their rings, a count for each, and the number of one with an item.
struct Zoned {
    zones: Vec<Book>,
    rings: Vec<u8>,
    counts: Vec<u64>,
    zone: u64,
    item: u64,
}

/// Few zones for the most part, and at times about as many as there may be.
fn how_many_zones(chance: &mut Chance) -> u64 {
    match chance.below(64) {
        0 => 95 + chance.below(4),
        1 => chance.below(97),
        2 => 0,
        _ => 1 + chance.below(4),
    }
}

/// Good zones and counts within their bounds, and then one trouble or two by chance: a record at the edges of refusal 8, a resting mark, a
/// count beside the bound; a ring slice that is short, and counts that are more or fewer than the zones.
fn zoned(chance: &mut Chance) -> Zoned {
    let many = how_many_zones(chance);
    let (mut zones, stretches): (Vec<Book>, Vec<Vec<u8>>) = (0..many).map(|_| zone(chance)).unzip();
    let mut counts: Vec<u64> = zones.iter().map(|book| chance.below(book.bound + 1)).collect();
    for _ in 0..2.min(many) {
        let at = chance.below(many) as usize;
        let Book { bound, length, tolerance, .. } = zones[at];
        match chance.below(8) {
            0 => zones[at] = made_up(chance, bound, length, tolerance),
            1 if chance.one_in(2) => zones[at] = state(chance).0,
            2 => zones[at].resting = 1 + chance.below(2) * chance.below(u64::MAX),
            3 => counts[at] = near(chance, bound),
            _ => {}
        }
    }
    let bytes = zones.iter().map(|book| ring_bytes(book.bound, book.length, book.tolerance)).sum();
    let mut rings = lent(chance, bytes);
    rings.iter_mut().zip(stretches.concat()).for_each(|(byte, own)| *byte = own);
    match chance.below(32) {
        0 => counts.push(0),
        1 => drop(counts.pop()),
        2 => counts.clear(),
        _ => {}
    }
    let zone = if chance.one_in(8) { near(chance, many) } else { chance.below(many.max(1)) };
    let bound = zones.get(zone as usize).map_or(9, |book| book.bound);
    let item = if chance.one_in(4) { near(chance, bound) } else { chance.below(bound.saturating_add(1)) };
    Zoned { zones, rings, counts, zone, item }
}

fn all_crossed(zones: &[Book]) -> Vec<proved::Book> {
    zones.iter().copied().map(crossed).collect()
}

fn of_zones(result: Result<(), ZoneRefused>) -> proved::Zoned {
    match result {
        Ok(()) => proved::Zoned { refusal: 0, zone: 0 },
        Err(ZoneRefused { refusal, zone }) => proved::Zoned { refusal: refusal as u8, zone },
    }
}

/// Each zone by itself, the last one first, by the library's own book on its own stretch.
fn last_zone_first(records: &mut [proved::Book], rings: &mut [u8], counts: &[u64]) {
    let bytes = |book: &proved::Book| proved::shape(book.bound, book.length, book.tolerance).shape.bytes as usize;
    let mut end = records.iter().map(bytes).sum();
    for (book, &count) in records.iter_mut().zip(counts).rev() {
        let start = end - bytes(book);
        let added = proved::add(*book, &mut rings[start..end], count);
        assert!(added.refusal == 0, "a zone refuses what all zones took");
        (*book, end) = (added.book, start);
    }
}

fn zone_calls(chance: &mut Chance, t: &mut [Tally]) {
    let Zoned { zones, rings, counts, zone, item } = zoned(chance);
    let call = || format!("{zones:?}, counts {counts:?}, zone {zone}, item {item}, rings {rings:02x?}");

    let (mut a, mut rings_a) = (zones.clone(), rings.clone());
    let [(mut b, mut rings_b), (mut c, mut rings_c)] = [(); 2].map(|()| (all_crossed(&zones), rings.clone()));
    let p = of_zones(zones::add_all(&mut a, &mut rings_a, &counts));
    let q = proved::zones_add(&mut b, &mut rings_b, &counts);
    if q.refusal == 0 {
        last_zone_first(&mut c, &mut rings_c, &counts);
    }
    alike(t[0].name, "the last zone first", (&c, &rings_c), (&b, &rings_b), call);
    same(&mut t[0], p.refusal, (p, all_crossed(&a), rings_a), (q, b, rings_b), call);

    let (mut a, mut rings_a) = (zones.clone(), rings.clone());
    let (mut b, mut rings_b) = (all_crossed(&zones), rings.clone());
    let p = of_zones(zones::add_one(&mut a, &mut rings_a, zone, item));
    let q = proved::zone_add(&mut b, &mut rings_b, zone, item);
    same(&mut t[1], p.refusal, (p, all_crossed(&a), rings_a), (q, b, rings_b), call);
}

/// L, n and D of a book that for the most part has slots which can hold more than the largest quotient.
fn salvage_setting(chance: &mut Chance) -> (u64, u64, u64) {
    if chance.one_in(4) {
        return row_setting(chance);
    }
    let most = chance.pick(&[4, 40, 2000, 65534]);
    let bound = 2 + chance.below(most);
    let most = chance.pick(&[5, 31, 33, 64, 130, 300]);
    let length = if chance.one_in(100) { 4096 } else { 1 + chance.below(most) };
    let most = chance.pick(&[1, 3, bound]);
    (bound, length, 1 + chance.below(most))
}

/// A record with its ring, and that ring before some of its slots were made larger than a quotient can be; none where other bits were
/// scrambled too, or record and ring are made up.
struct Dipped {
    book: Book,
    ring: Vec<u8>,
    before: Option<Vec<u8>>,
}

/// Makes some slots larger than a quotient can be, where that can be, and scrambles the bits after the last one.
fn too_large(chance: &mut Chance, shape: &Shape, ring: &mut [u8]) {
    let above = (1 << shape.width) - 1 - shape.largest;
    let many = chance.pick(&[0, 1, 2, shape.slots / 16, shape.slots]);
    for _ in 0..if above == 0 { 0 } else { many } {
        let (slot, value) = (chance.below(shape.slots as u64) as usize, shape.largest + 1 + chance.below(above));
        ring::write(shape.width, shape.slots, ring, slot, value).expect("a slot of the ring");
    }
    let over = shape.bytes() * 8 - shape.slots * shape.width;
    ring[shape.bytes() - 1] |= chance.next() as u8 & !(0xff << over);
}

fn dipped(chance: &mut Chance) -> Dipped {
    let (bound, length, tolerance) = salvage_setting(chance);
    let mut ring = lent(chance, ring_bytes(bound, length, tolerance));
    let opened = if chance.one_in(4) { Err(Refusal::NoBook) } else { Book::open(bound, length, tolerance, &mut ring) };
    let Ok(mut book) = opened else {
        return Dipped { book: made_up(chance, bound, length, tolerance), ring, before: None };
    };
    let items: Vec<u64> = (0..chance.below(3 * length.min(150))).map(|_| chance.below(bound + 1)).collect();
    book.run(&mut ring, &items).expect("the items are within the bound");
    book.resting = mark(chance);
    let before = ring.clone();
    if chance.one_in(2) {
        too_large(chance, &Shape::of(bound, length, tolerance).expect("it was opened"), &mut ring);
        return Dipped { book, ring, before: Some(before) };
    }
    for _ in 0..1 + chance.below(8) {
        let at = chance.below(ring.len() as u64) as usize;
        ring[at] = chance.next() as u8;
    }
    Dipped { book, ring, before: None }
}

/// A row for the slot numbers of such a book, for the most part with an entry for each slot.
fn lent_numbers(chance: &mut Chance, book: &Book) -> Vec<u32> {
    let block = book.tolerance.checked_div(book.bound).unwrap_or(1).max(1);
    let slots = book.length.min(4097).div_ceil(block);
    let entries = match chance.below(16) {
        0 => slots.saturating_sub(1),
        1 => slots + 3,
        2 => 0,
        3 => chance.below(slots + 1),
        _ => slots,
    };
    (0..entries).map(|_| chance.next() as u32).collect()
}

/// What salvage gives, and what it leaves of ring, slot numbers and row.
type Mended = (proved::Salvaged, Vec<u8>, Vec<u32>, Vec<u32>);

fn salvaged(mut book: Book, call: impl FnOnce(&mut Book) -> Result<usize, Refusal>) -> proved::Salvaged {
    let (refusal, count) = call(&mut book).map_or_else(|refusal| (refusal as u8, 0), |count| (0, count as u64));
    proved::Salvaged { refusal, count, book: crossed(book) }
}

/// A second run changes nothing and tells 0 slots; the total of a window by the rebuilt row is that of the walk; and, where every slot that was
/// scrambled could be seen, that of the ring before.
fn mended_well(name: &str, before: Option<Vec<u8>>, window: u64, mended: &Mended, call: impl Fn() -> String + Copy) {
    let book = mended.0.book;
    let [mut again, mut same] = [(); 2].map(|()| mended.clone());
    again.0 = proved::salvage_row(book, &mut again.1, &mut again.2, &mut again.3);
    same.0.count = 0;
    alike(name, "a second run", again, same, call);
    let walk = proved::total(book, &mended.1, window);
    let by_row = proved::total_row(book, &mended.1, &mended.3, window);
    alike(name, "by the walk", walk, proved::Answer { refusal: by_row.refusal, value: by_row.figure }, call);
    if let Some(before) = before {
        alike(name, "before the dip", proved::total(book, &before, window), walk, call);
    }
}

fn salvage_calls(chance: &mut Chance, t: &mut [Tally]) {
    let Dipped { book, ring, before } = dipped(chance);
    let numbers = lent_numbers(chance, &book);
    let row = lent_row(chance, book.bound, book.length, book.tolerance);
    let record = crossed(book);
    let call = || format!("{book:?}, ring {ring:02x?}, numbers {numbers:?}, row {row:?}");

    let [(mut a, mut numbers_a), (mut b, mut numbers_b)] = [(); 2].map(|()| (ring.clone(), numbers.clone()));
    let p = salvaged(book, |next| next.salvage(&mut a, &mut numbers_a));
    let q = proved::salvage(record, &mut b, &mut numbers_b);
    same(&mut t[0], p.refusal, (p, a, numbers_a), (q, b, numbers_b), call);
    let [(mut a, mut numbers_a, mut row_a), (mut b, mut numbers_b, mut row_b)] =
        [(); 2].map(|()| (ring.clone(), numbers.clone(), row.clone()));
    let p = salvaged(book, |next| next.salvage_row(&mut a, &mut numbers_a, &mut row_a));
    let q = proved::salvage_row(record, &mut b, &mut numbers_b, &mut row_b);
    let mended = (q, b, numbers_b, row_b);
    if q.refusal == 0 {
        mended_well(t[1].name, before, near(chance, q.book.kept), &mended, call);
    }
    same(&mut t[1], p.refusal, (p, a, numbers_a, row_a), mended, call);
}

fn whites(chance: &mut Chance, into: &mut Vec<u8>) {
    for _ in 0..1 + chance.below(3) * chance.below(2) {
        into.push(chance.pick(b" \t\r\n"));
    }
}

fn numeral(chance: &mut Chance, into: &mut Vec<u8>, value: u64) {
    for _ in 0..chance.below(4) * chance.below(2) {
        into.push(b'0');
    }
    into.extend(value.to_string().bytes());
}

/// `#`, bytes by chance (half of them such as a header has) and a line end.
fn comment(chance: &mut Chance) -> Vec<u8> {
    let mut comment = b"#".to_vec();
    for _ in 0..chance.below(2) * chance.below(40) {
        let byte = if chance.one_in(2) { chance.pick(b"# \t059") } else { chance.next() as u8 };
        if !matches!(byte, b'\r' | b'\n') {
            comment.push(byte);
        }
    }
    comment.push(chance.pick(b"\r\n"));
    comment
}

/// Puts one comment or up to three into a header that ends with its last number, anywhere behind its first two bytes.
fn put_comments(chance: &mut Chance, header: &mut Vec<u8>) {
    let mut places: Vec<u64> = (0..1 + chance.below(3)).map(|_| 2 + chance.below(header.len() as u64 - 1)).collect();
    // from the last place on, so that none comes to lie within another
    places.sort_unstable();
    for &place in places.iter().rev() {
        let place = place as usize;
        header.splice(place..place, comment(chance));
    }
}

/// A header with this sign and these numbers.
fn header_with(chance: &mut Chance, sign: &[u8], numbers: &[u64]) -> Vec<u8> {
    let mut header = sign.to_vec();
    for &number in numbers {
        whites(chance, &mut header);
        numeral(chance, &mut header, number);
    }
    if chance.one_in(3) {
        put_comments(chance, &mut header);
    }
    if chance.one_in(500) {
        // a header that comes to the limit, by the zeros of its width or of a comment
        let zeros = 24576 - 16 + chance.below(20) as usize - header.len();
        header.splice(3..3, std::iter::repeat(b'0').take(zeros));
    }
    header.push(chance.pick(b" \t\r\n"));
    header
}

/// The number that bytes write, the highest first.
fn value(bytes: &[u8]) -> u64 {
    bytes.iter().fold(0, |value, &byte| value << 8 | u64::from(byte))
}

/// A pixel so far from an old one, or one less or more, if there is such a pixel up to maxval.
fn stepped(chance: &mut Chance, old: u64, apart: u64, maxval: u64) -> u64 {
    let step = (apart + chance.below(3)).saturating_sub(1);
    let there = if chance.one_in(2) { old.checked_sub(step) } else { old.checked_add(step) };
    there.filter(|&there| there <= maxval).unwrap_or(old)
}

/// An image with these numbers and, where `like` has as many pixels, with those, some of them changed, by about `apart` or at will.
fn picture(chance: &mut Chance, width: u64, height: u64, maxval: u64, like: &[u8], apart: u64) -> Vec<u8> {
    let mut image = header_with(chance, b"P5", &[width, height, maxval]);
    let bytes = pixel_bytes(maxval);
    let pixels = width.saturating_mul(height).min(26_000 / bytes as u64) as usize;
    let most = if bytes == 1 { 255 } else { 65535 };
    let above = if chance.one_in(16) { most + 1 } else { maxval.min(most) + 1 };
    let still = chance.one_in(2);
    let raster = like.len().checked_sub(pixels * bytes).map(|start| &like[start..]);
    for i in 0..pixels {
        let old = raster.map(|raster| value(&raster[i * bytes..][..bytes]));
        let pixel = match old {
            Some(old) if still || chance.one_in(2) => old,
            Some(old) if chance.one_in(2) => stepped(chance, old, apart, maxval),
            _ => chance.below(above),
        };
        put_pixel(&mut image, bytes, pixel);
    }
    image
}

/// A mask with these numbers, for the most part: white, black, mostly one of the two, or of chance, its padding too.
fn painted(chance: &mut Chance, width: u64, height: u64) -> Vec<u8> {
    let (width, height) = match chance.below(16) {
        0 => (width.wrapping_add(1), height),
        1 => (width.wrapping_sub(1), height.wrapping_add(1)),
        2 => (width, height.wrapping_add(1)),
        3 => (width.div_ceil(8).wrapping_mul(8), height),
        4 if chance.one_in(16) => (1024, 190 + chance.below(4)),
        _ => (width, height),
    };
    let mut mask = header_with(chance, b"P4", &[width, height]);
    let kind = chance.below(8);
    let most = chance.pick(&[0, 0, 0xff]);
    let bytes = width.div_ceil(8).saturating_mul(height).min(26_000);
    mask.extend((0..bytes).map(|_| match kind {
        0 => 0,
        1 => 0xff,
        2..=4 if !chance.one_in(4) => most,
        _ => chance.next() as u8,
    }));
    mask
}

fn damage(chance: &mut Chance, image: &mut Vec<u8>) {
    match chance.below(8) {
        0 => image.truncate(chance.below(image.len() as u64 + 1) as usize),
        1 => {
            let at = chance.below(20).min(image.len() as u64 - 1) as usize;
            image[at] = chance.pick(b"##P456 0\r\n\x0c\x0b\x00\xff9");
        }
        2 => image.extend(chance.bytes(5)),
        3 => {
            let at = chance.below(12).min(image.len() as u64 - 1) as usize;
            image.insert(at, chance.pick(b"## 0159\r\n"));
        }
        4 => image.truncate(chance.below(40) as usize),
        _ => {}
    }
}

/// An image's numbers and where its raster lies, by the plain version.
fn read(bytes: &[u8]) -> (proved::Numbers, proved::RasterPlace) {
    match image::header(bytes) {
        Ok(image::Image { width, height, maxval, used, raster }) => {
            let start = used - raster.len();
            let inside = raster.as_ptr() == bytes[start..].as_ptr();
            assert!(inside, "the plain raster is a part of the slice");
            let place = proved::RasterPlace { refusal: 0, offset: start, length: raster.len() };
            (proved::Numbers { refusal: 0, width, height, maxval, start, used }, place)
        }
        Err(refusal) => {
            let refusal = refusal as u8;
            let place = proved::RasterPlace { refusal, offset: 0, length: 0 };
            (proved::Numbers { refusal, ..Default::default() }, place)
        }
    }
}

/// An image's width, height and maxval.
fn image_numbers(chance: &mut Chance) -> (u64, u64, u64) {
    let large = chance.one_in(200);
    let width = if large { near(chance, 1024) } else { near(chance, 12) };
    let maxval = match chance.below(6) {
        0 => near(chance, 255),
        1 => near(chance, 65535),
        2 => chance.pick(&[256, 257, 4095, 65534, 65535]),
        3 => 4095,
        _ => 255,
    };
    let height = if large { near(chance, 24560 / pixel_bytes(maxval) as u64 / width.max(1)) } else { near(chance, 12) };
    (width, height, maxval)
}

fn image_calls(chance: &mut Chance, t: &mut [Tally]) {
    let (width, height, maxval) = image_numbers(chance);
    let allowance = chance.pick(&[0, 1, 12, 254, 255, 100]);
    let apart = u64::from(allowance) * maxval.min(65535) / 255;
    let mut first = picture(chance, width, height, maxval, &[], apart);
    let (other_width, other_maxval) = match chance.below(16) {
        0 | 1 => (width + 1, maxval),
        2 => (width, maxval.wrapping_add(1)),
        _ => (width, maxval),
    };
    let mut second = picture(chance, other_width, height, other_maxval, &first, apart);
    damage(chance, &mut first);
    damage(chance, &mut second);
    let mut mask = painted(chance, width, height);
    if chance.one_in(2) {
        damage(chance, &mut mask);
    }
    let bound = if chance.one_in(2) { near(chance, 65535) } else { near(chance, 40) };
    let call = || format!("bound {bound}, allowance {allowance}, {first:02x?}, {second:02x?}, mask {mask:02x?}");

    let (p, place) = read(&first);
    same(&mut t[0], p.refusal, p, proved::header(&first), call);
    same(&mut t[1], p.refusal, place, proved::raster(&first), call);
    let p = number(score::score(bound, allowance, &first, &second));
    same(&mut t[2], p.refusal, p, proved::score(bound, allowance, &first, &second), call);
    let p = number(score::masked(bound, allowance, &first, &second, &mask));
    same(&mut t[3], p.refusal, p, proved::masked(bound, allowance, &first, &second, &mask), call);
}

fn lit_number(result: Result<usize, Refusal>) -> proved::Lit {
    let (refusal, value) = result.map_or_else(|refusal| (refusal as u8, 0), |value| (0, value));
    proved::Lit { refusal, value }
}

/// How many frames there are said to be: few for the most part, and at times as many as there may be, or about as many, or one more.
fn frame_count(chance: &mut Chance) -> usize {
    if chance.one_in(64) {
        return if chance.one_in(2) { chance.pick(&[65535, 65536, 65537]) } else { near(chance, 65536) as usize };
    }
    let most = chance.pick(&[1, 7, 8, 9, 12, 63, 64, 65, 128, 130, 600]);
    near(chance, most) as usize
}

/// Bytes for so many frames: all dark, all lit, nearly so, or of chance; what stands behind the frames in the last byte is of chance too.
fn frames_lent(chance: &mut Chance, length: usize) -> Vec<u8> {
    let mut row = lent(chance, length.min(65537).div_ceil(8));
    let kind = chance.below(8);
    for byte in &mut row {
        *byte = match kind {
            0 => 0,
            1 => 0xff,
            2 if !chance.one_in(16) => 0,
            3 if !chance.one_in(16) => 0xff,
            _ => *byte,
        };
    }
    if let Some(last) = row.last_mut() {
        let behind: u8 = if length % 8 == 0 { 0 } else { 0xff >> (length % 8) };
        *last = *last & !behind | chance.next() as u8 & behind;
    }
    row
}

/// The four calls on a row of frames.
fn frame_calls(t: &mut [Tally], row: &[u8], length: usize, step: usize, i: usize, k: usize) {
    let call = || format!("length {length}, step {step}, i {i}, k {k}, bytes {row:02x?}");
    let (p, rank) = (lit_number(lit::rank(row, length, i)), proved::rank(row, length, i));
    same(&mut t[0], p.refusal, p, rank, call);
    let (p, place) = (lit_number(lit::select(row, length, k)), proved::select(row, length, k));
    same(&mut t[1], p.refusal, p, place, call);
    let p = lit_number(lit::rank_coarse(row, length, step, i));
    same(&mut t[2], p.refusal, p, proved::rank_coarse(row, length, step, i), call);
    let p = lit_number(lit::select_coarse(row, length, step, k));
    same(&mut t[3], p.refusal, p, proved::select_coarse(row, length, step, k), call);

    if place.refusal == 0 {
        alike(t[1].name, "the rank of the place", proved::rank(row, length, place.value), proved::Lit { refusal: 0, value: k }, call);
    }
    alike(t[2].name, "with step 1", proved::rank_coarse(row, length, 1, i), rank, call);
    alike(t[3].name, "with step 1", proved::select_coarse(row, length, 1, k), place, call);
}

fn lit_calls(chance: &mut Chance, t: &mut [Tally]) {
    let length = frame_count(chance);
    let row = frames_lent(chance, length);
    let lit = lit::rank(&row, length, length).unwrap_or(10) as u64;
    let most = if chance.one_in(2) { 8 } else { lit };
    let [step, i, k] = [most, length as u64, lit].map(|limit| near(chance, limit) as usize);
    frame_calls(t, &row, length, step, i, k);
    let (byte, k) = (chance.next() as u8, near(chance, 8) as usize);
    same(&mut t[4], 0, lit::in_byte(byte, k), proved::in_byte(byte, k), || format!("byte {byte:02x}, k {k}"));
}

/// 0 to 130 frames, all lit and of chance, in as many bytes as they take and in more: every rank and every place.
fn few_frames(chance: &mut Chance, t: &mut [Tally]) {
    for length in 0..=130_usize {
        let bytes = length.div_ceil(8);
        for lent in [bytes, bytes + 1 + chance.below(9) as usize] {
            for row in [vec![0xff; lent], chance.bytes(lent)] {
                let step = 1 + chance.below(12) as usize;
                for asked in 0..=length + 1 {
                    frame_calls(t, &row, length, step, asked, asked);
                }
            }
        }
    }
}

/// Every byte, with every k that has a place and some that have none.
fn every_byte(t: &mut Tally) {
    for byte in 0..=255 {
        for k in (0..=10).chain([255, 256, 257, 65537, (1 << 32) + 1, usize::MAX]) {
            same(t, 0, lit::in_byte(byte, k), proved::in_byte(byte, k), || format!("byte {byte:02x}, k {k}"));
        }
    }
}

/// A record with its ring: a book for the most part, since of what is none only one in eight is taken.
fn page_book(chance: &mut Chance) -> (Book, Vec<u8>) {
    loop {
        let (book, ring) = state(chance);
        if book.total(&ring, 0).is_ok() || chance.one_in(8) {
            return (book, ring);
        }
    }
}

/// An image for the page: good for the most part, and damaged in a quarter of the cases.
fn page_image(chance: &mut Chance) -> Vec<u8> {
    let (width, height, maxval) = image_numbers(chance);
    let mut image = picture(chance, width, height, maxval, &[], 0);
    if chance.one_in(4) {
        damage(chance, &mut image);
    }
    image
}

/// Three ticks: near to each other for the most part, where the counter goes on with 0 and elsewhere, in any order.
fn ticks(chance: &mut Chance) -> Ticks {
    let anywhere = chance.next() as u32;
    let middle = chance.pick(&[0, 0, 1 << 31, anywhere]);
    let [newest, older, present] = [(); 3].map(|()| {
        let (near, far) = (chance.below(40) as u32, chance.next() as u32);
        if chance.one_in(8) { far } else { middle.wrapping_add(near).wrapping_sub(20) }
    });
    Ticks { newest, older, present }
}

/// The plain version's choice as numbers.
fn shown(result: Result<Shown<'_>, Refusal>, newest: &[u8], older: &[u8]) -> proved::Shown {
    match result {
        Ok(Shown { picture, offset, raster, age }) => {
            let picture = picture as u8;
            let lent = if picture == 1 { newest } else { older };
            assert!(raster.as_ptr() == lent[offset..].as_ptr(), "the plain raster is a part of the slice");
            proved::Shown { refusal: 0, picture, offset, length: raster.len(), age }
        }
        Err(refusal) => proved::Shown { refusal: refusal as u8, ..Default::default() },
    }
}

/// A choice by the library's own verdict and rasters.
fn by_verdict(ruled: proved::Ruled, newest: &[u8], older: &[u8], ticks: Ticks) -> proved::Shown {
    let (newest, older) = (proved::raster(newest), proved::raster(older));
    let refusals = [ruled.refusal, newest.refusal, older.refusal];
    if let Some(&refusal) = refusals.iter().find(|&&refusal| refusal != 0) {
        return proved::Shown { refusal, ..Default::default() };
    }
    let (picture, place, own) = if ruled.verdict == 1 { (1, newest, ticks.newest) } else { (2, older, ticks.older) };
    let age = (u64::from(ticks.present) + (1 << 32) - u64::from(own)) % (1 << 32);
    proved::Shown { refusal: 0, picture, offset: place.offset, length: place.length, age: age as u32 }
}

fn page_call(chance: &mut Chance, t: &mut Tally) {
    let (book, bytes) = page_book(chance);
    let window = near(chance, book.kept);
    let held = book.total(&bytes, window).unwrap_or(10);
    let most = chance.pick(&[held, held.wrapping_add(book.tolerance)]);
    let amount = near(chance, most);
    let record = crossed(book);
    let (newest, older, ticks) = (page_image(chance), page_image(chance), ticks(chance));
    let call = || format!("{book:?}, window {window}, amount {amount}, ring {bytes:02x?}, {newest:02x?}, {older:02x?}, {ticks:?}");

    let p = shown(book.show(&bytes, window, amount, &newest, &older, ticks), &newest, &older);
    let q = proved::show(record, &bytes, window, amount, &newest, &older, crossed_ticks(ticks));
    let ruled = proved::verdict(record, &bytes, window, amount);
    alike(t.name, "by its verdict", by_verdict(ruled, &newest, &older, ticks), q, call);
    same(t, p.refusal, p, q, call);
}

fn main() {
    let rounds: u64 = std::env::args().nth(1).map_or(1_000_000, |n| n.parse().expect("a number of rounds"));
    let names = [
        "ring_clear", "ring_read", "ring_write", "ring_sum", "shape", "open", "add", "total", "far", "verdict", "rest", "wake", "run",
        "header", "raster", "score", "masked", "open_row", "add_row", "total_row", "run_row",
        "trend", "coarsen", "coarsen_row", "zones_add", "zone_add", "salvage", "salvage_row",
        "rank", "select", "rank_coarse", "select_coarse", "in_byte", "show",
    ];
    let mut tallies = names.map(|name| Tally { name, counts: [0; 23] });
    let mut chance = Chance::new(2026);
    for _ in 0..rounds {
        slots_call(&mut chance, &mut tallies[0..4]);
        shape_call(&mut chance, &mut tallies[4]);
        open_call(&mut chance, &mut tallies[5]);
        book_calls(&mut chance, &mut tallies[6..12]);
        run_call(&mut chance, &mut tallies[12]);
        image_calls(&mut chance, &mut tallies[13..17]);
        open_row_call(&mut chance, &mut tallies[17]);
        row_calls(&mut chance, &mut tallies[18..20]);
        run_row_call(&mut chance, &mut tallies[20]);
        trend_call(&mut chance, &mut tallies[21]);
        coarsen_calls(&mut chance, &mut tallies[22..24]);
        zone_calls(&mut chance, &mut tallies[24..26]);
        salvage_calls(&mut chance, &mut tallies[26..28]);
        lit_calls(&mut chance, &mut tallies[28..33]);
        page_call(&mut chance, &mut tallies[33]);
    }
    one_bit_sums(&mut chance, &mut tallies[3]);
    few_frames(&mut chance, &mut tallies[28..32]);
    every_byte(&mut tallies[32]);
    let calls: u64 = tallies.iter().flat_map(|tally| tally.counts).sum();
    println!("{calls} calls on both sides, no difference; how many with which refusal:");
    for tally in &tallies {
        let counts = tally.counts.iter().enumerate().filter(|(_, &n)| n > 0);
        let counts: Vec<String> = counts.map(|(refusal, n)| format!("{refusal}: {n}")).collect();
        println!("{:13}  {}", tally.name, counts.join(", "));
    }
}
