//! The calls that are measured, each on both sides with the same arguments.

use crate::chance::Chance;
use crate::pictures::{Kind, ONE_BYTE, TWO_BYTES};
use crate::plain::book::{Book, Shape};
use crate::plain::page::Ticks;
use crate::plain::{image, lit, ring, score, zones, Refusal};
use crate::proved;
use std::hint::black_box;

/// A call repeated so many times.
pub type Repeated = Box<dyn FnMut(u64)>;

pub struct Case {
    pub name: String,
    pub plain: Repeated,
    pub proved: Repeated,
}

fn repeated<T>(mut call: impl FnMut() -> T + 'static) -> Repeated {
    Box::new(move |times| {
        for _ in 0..times {
            black_box(call());
        }
    })
}

/// The settings: what they are called, and L, n and D.
const SETTINGS: [(&str, u64, u64, u64); 4] = [
    ("the box's setting", 600, 1440, 3600),
    ("n 4,096, b 1", 1, 4096, 1),
    ("n 4,096, b 8", 255, 4096, 1),
    ("n 4,096, b 16", 65535, 4096, 1),
];

/// The settings that are salvaged. In the box's no slot can be above z, and its ring is not walked through.
const SALVAGED: [(&str, u64, u64, u64); 3] = [
    SETTINGS[0],
    ("n 4,096, b 8, z 200", 200, 4096, 1),
    ("n 4,096, b 16, z 40,000", 40000, 4096, 1),
];

const RUN: u64 = 1000;

/// A book with its ring and its row, one item short of a full block.
#[derive(Clone)]
struct Filled {
    book: Book,
    ring: Vec<u8>,
    row: Vec<u32>,
}

impl Filled {
    /// It has taken as many items as it keeps, and so many blocks more.
    fn new(bound: u64, length: u64, tolerance: u64, blocks: u64) -> Filled {
        let mut chance = Chance::new(bound);
        let (mut ring, mut row) = (vec![0; 8192], vec![0; 128]);
        let mut book = Book::open_row(bound, length, tolerance, &mut ring, &mut row).expect("a good setting");
        let block = (tolerance / bound).max(1);
        for _ in 0..length + blocks * block + block - 1 {
            book.add_row(&mut ring, &mut row, chance.below(bound + 1)).expect("an item within the bound");
        }
        Filled { book, ring, row }
    }

    /// More items than it keeps, by a third.
    fn by_a_third(bound: u64, length: u64, tolerance: u64) -> Filled {
        Filled::new(bound, length, tolerance, length / 3 / (tolerance / bound).max(1))
    }

    /// One item short of writing its last slot.
    fn before_the_last_slot(bound: u64, length: u64, tolerance: u64) -> Filled {
        let begun = Filled::new(bound, length, tolerance, 0).book.head;
        let slots = Shape::of(bound, length, tolerance).expect("a good setting").slots as u64;
        Filled::new(bound, length, tolerance, slots - 1 - begun)
    }
}

/// The plain record as the library takes it.
pub fn crossed(book: Book) -> proved::Book {
    let Book { bound, length, tolerance, carry, phase, kept, head, resting } = book;
    proved::Book { bound, length, tolerance, carry, phase, kept, head, resting }
}

/// The plain ticks as the library takes them.
pub fn crossed_ticks(ticks: Ticks) -> proved::Ticks {
    let Ticks { newest, older, present } = ticks;
    proved::Ticks { newest, older, present }
}

/// The plain version with the record going in and coming back by value, as it crosses to C.
#[inline(never)]
fn add_by_value(mut book: Book, ring: &mut [u8], item: u64) -> (Result<(), Refusal>, Book) {
    (book.add(ring, item), book)
}

/// Items that are added one after the other, each to the record that the last one left, or all of them in one call.
#[derive(Clone)]
struct Run {
    book: Book,
    ring: Vec<u8>,
    items: Vec<u64>,
}

impl Run {
    fn in_place(mut self) -> Repeated {
        repeated(move || {
            let mut next = black_box(self.book);
            for &item in &self.items {
                next.add(&mut self.ring, item).expect("an item within the bound");
            }
            next
        })
    }

    fn by_value(mut self) -> Repeated {
        repeated(move || {
            let mut next = black_box(self.book);
            for &item in &self.items {
                next = add_by_value(next, &mut self.ring, item).1;
            }
            next
        })
    }

    fn proved(mut self) -> Repeated {
        repeated(move || {
            let mut next = black_box(crossed(self.book));
            for &item in &self.items {
                next = proved::add(next, &mut self.ring, item).book;
            }
            next
        })
    }

    fn in_one_call(mut self) -> Repeated {
        repeated(move || {
            let mut next = black_box(self.book);
            next.run(&mut self.ring, &self.items).expect("counts within the bound");
            next
        })
    }

    fn proved_in_one_call(mut self) -> Repeated {
        repeated(move || proved::run(black_box(crossed(self.book)), &mut self.ring, &self.items))
    }
}

fn shape_case(cases: &mut Vec<Case>, setting: &str, bound: u64, length: u64, tolerance: u64) {
    cases.push(Case {
        name: format!("shape, {setting}"),
        plain: repeated(move || {
            Shape::of(black_box(bound), black_box(length), black_box(tolerance)).map(|shape| (shape, shape.bytes()))
        }),
        proved: repeated(move || proved::shape(black_box(bound), black_box(length), black_box(tolerance))),
    });
}

fn book_cases(cases: &mut Vec<Case>, setting: &str, bound: u64, length: u64, tolerance: u64) {
    let Filled { book, ring, .. } = Filled::by_a_third(bound, length, tolerance);
    let record = crossed(book);
    let (a, b) = (ring.clone(), ring.clone());
    let (mut ring_a, mut ring_b) = (ring.clone(), ring.clone());
    let item = bound / 2 + 1;
    cases.push(Case {
        name: format!("add that closes a block, {setting}"),
        plain: repeated(move || {
            let mut next = black_box(book);
            (next.add(&mut ring_a, black_box(item)), next)
        }),
        proved: repeated(move || proved::add(black_box(record), &mut ring_b, black_box(item))),
    });
    let run = Run { book, ring: ring.clone(), items: (0..RUN).map(|i| i * 7919 % (bound + 1)).collect() };
    cases.push(Case {
        name: format!("run of 1,000 adds, {setting}"),
        plain: run.clone().in_place(),
        proved: run.clone().proved(),
    });
    cases.push(Case {
        name: format!("the same, the record by value on both sides, {setting}"),
        plain: run.clone().by_value(),
        proved: run.clone().proved(),
    });
    cases.push(Case {
        name: format!("1,000 counts in one call beside 1,000 plain adds, {setting}"),
        plain: run.clone().in_place(),
        proved: run.clone().proved_in_one_call(),
    });
    cases.push(Case {
        name: format!("1,000 counts in one call on both sides, {setting}"),
        plain: run.clone().in_one_call(),
        proved: run.proved_in_one_call(),
    });
    let (ring_a, ring_b) = (a.clone(), b.clone());
    cases.push(Case {
        name: format!("total of all that is kept, {setting}"),
        plain: repeated(move || black_box(&book).total(&ring_a, black_box(book.kept))),
        proved: repeated(move || proved::total(black_box(record), &ring_b, black_box(record.kept))),
    });
    let most = book.total(&a, book.kept).expect("the window is kept");
    cases.push(Case {
        name: format!("how far back for nearly all, {setting}"),
        plain: repeated(move || black_box(&book).far(&a, black_box(most))),
        proved: repeated(move || proved::far(black_box(record), &b, black_box(most))),
    });
}

fn add_row_case(cases: &mut Vec<Case>, what: &str, filled: Filled) {
    let item = filled.book.bound / 2 + 1;
    let (mut a, mut b) = (filled.clone(), filled);
    cases.push(Case {
        name: format!("add with a row that {what}"),
        plain: repeated(move || {
            let mut next = black_box(a.book);
            (next.add_row(&mut a.ring, &mut a.row, black_box(item)), next)
        }),
        proved: repeated(move || proved::add_row(black_box(crossed(b.book)), &mut b.ring, &mut b.row, black_box(item))),
    });
}

fn run_row_case(cases: &mut Vec<Case>, setting: &str, filled: Filled) {
    let bound = filled.book.bound;
    let counts: Vec<u64> = (0..RUN).map(|i| i * 7919 % (bound + 1)).collect();
    let (mut a, mut b) = (filled.clone(), filled);
    let counts_a = counts.clone();
    cases.push(Case {
        name: format!("1,000 counts in one call with a row on both sides, {setting}"),
        plain: repeated(move || {
            let mut next = black_box(a.book);
            next.run_row(&mut a.ring, &mut a.row, &counts_a).expect("counts within the bound");
            next
        }),
        proved: repeated(move || proved::run_row(black_box(crossed(b.book)), &mut b.ring, &mut b.row, &counts)),
    });
}

/// A total by a row beside the plain one by a row, and beside the plain walk.
fn total_row_cases(cases: &mut Vec<Case>, setting: &str, filled: Filled) {
    let by_row = |filled: Filled| {
        let record = crossed(filled.book);
        repeated(move || proved::total_row(black_box(record), &filled.ring, &filled.row, black_box(record.kept)))
    };
    let [a, b, c, d] = [filled.clone(), filled.clone(), filled.clone(), filled];
    cases.push(Case {
        name: format!("total of all that is kept by a row on both sides, {setting}"),
        plain: repeated(move || black_box(&a.book).total_row(&a.ring, &a.row, black_box(a.book.kept))),
        proved: by_row(b),
    });
    cases.push(Case {
        name: format!("total of all that is kept by a row beside a plain total without one, {setting}"),
        plain: repeated(move || black_box(&c.book).total(&c.ring, black_box(c.book.kept))),
        proved: by_row(d),
    });
}

fn row_cases(cases: &mut Vec<Case>, setting: &str, bound: u64, length: u64, tolerance: u64) {
    let filled = Filled::by_a_third(bound, length, tolerance);
    let last = Filled::before_the_last_slot(bound, length, tolerance);
    add_row_case(cases, &format!("closes a block, {setting}"), filled.clone());
    add_row_case(cases, &format!("stores the sum of all slots, {setting}"), last);
    run_row_case(cases, setting, filled.clone());
    total_row_cases(cases, setting, filled);
}

/// The trends of a short window and of the longest one that may be asked for.
fn trend_cases(cases: &mut Vec<Case>, setting: &str, bound: u64, length: u64, tolerance: u64) {
    let Filled { book, ring, .. } = Filled::by_a_third(bound, length, tolerance);
    let record = crossed(book);
    for window in [60, length / 2] {
        let (a, b) = (ring.clone(), ring.clone());
        cases.push(Case {
            name: format!("trend of {window}, {setting}"),
            plain: repeated(move || black_box(&book).trend(&a, black_box(window))),
            proved: repeated(move || proved::trend(black_box(record), &b, black_box(window))),
        });
    }
}

/// Making a book coarser, by the fewest and the most times, without a row and with one.
fn coarsen_cases(cases: &mut Vec<Case>, setting: &str, bound: u64, length: u64, tolerance: u64) {
    let Filled { mut book, mut ring, mut row } = Filled::by_a_third(bound, length, tolerance);
    // its block closes, so that every block is wholly kept
    book.add_row(&mut ring, &mut row, bound).expect("an item within the bound");
    let record = crossed(book);
    for times in [2, 16] {
        let [(a, mut second_a), (b, mut second_b)] = [(); 2].map(|()| (ring.clone(), ring.clone()));
        cases.push(Case {
            name: format!("coarser, {times} times, {setting}"),
            plain: repeated(move || black_box(&book).coarsen(&a, black_box(times), &mut second_a)),
            proved: repeated(move || proved::coarsen(black_box(record), &b, black_box(times), &mut second_b)),
        });
        let [(a, mut second_a, mut row_a), (b, mut second_b, mut row_b)] = [(); 2].map(|()| (ring.clone(), ring.clone(), row.clone()));
        cases.push(Case {
            name: format!("coarser with a row, {times} times, {setting}"),
            plain: repeated(move || black_box(&book).coarsen_row(&a, black_box(times), &mut second_a, &mut row_a)),
            proved: repeated(move || proved::coarsen_row(black_box(record), &b, black_box(times), &mut second_b, &mut row_b)),
        });
    }
}

/// A book with a row for slot numbers, and bytes that its ring begins with before each salvage, none where nothing of it is altered.
#[derive(Clone)]
struct Dipped {
    filled: Filled,
    numbers: Vec<u32>,
    begins: Vec<u8>,
}

impl Dipped {
    fn sound(filled: Filled) -> Dipped {
        Dipped { filled, numbers: vec![0; 4096], begins: Vec::new() }
    }

    /// Every 16th slot holds the largest number that its bits can write.
    fn scrambled(mut filled: Filled, shape: Shape) -> Dipped {
        for slot in (0..shape.slots).step_by(16) {
            ring::write(shape.width, shape.slots, &mut filled.ring, slot, (1 << shape.width) - 1).expect("a slot of the ring");
        }
        let begins = filled.ring[..shape.bytes()].to_vec();
        Dipped { begins, ..Dipped::sound(filled) }
    }

    /// Salvage again and again, with the same record and the same bytes of the ring.
    fn salvaged<T>(mut self, salvage: impl Fn(Book, &mut [u8], &mut [u32], &mut [u32]) -> T + 'static) -> Repeated {
        repeated(move || {
            let Filled { book, ring, row } = &mut self.filled;
            ring[..self.begins.len()].copy_from_slice(&self.begins);
            salvage(black_box(*book), ring, &mut self.numbers, row)
        })
    }
}

/// Salvage without a row and with one.
fn salvage_pair(cases: &mut Vec<Case>, what: &str, dipped: Dipped) {
    cases.push(Case {
        name: format!("salvage, {what}"),
        plain: dipped.clone().salvaged(|mut book, ring, numbers, _| (book.salvage(ring, numbers), book)),
        proved: dipped.clone().salvaged(|book, ring, numbers, _| proved::salvage(crossed(book), ring, numbers)),
    });
    cases.push(Case {
        name: format!("salvage with a row, {what}"),
        plain: dipped.clone().salvaged(|mut book, ring, numbers, row| (book.salvage_row(ring, numbers, row), book)),
        proved: dipped.salvaged(|book, ring, numbers, row| proved::salvage_row(crossed(book), ring, numbers, row)),
    });
}

/// Salvage with nothing altered, and, where a slot can be, with every 16th slot altered.
fn salvage_cases(cases: &mut Vec<Case>, setting: &str, bound: u64, length: u64, tolerance: u64) {
    let shape = Shape::of(bound, length, tolerance).expect("a good setting");
    let filled = Filled::by_a_third(bound, length, tolerance);
    salvage_pair(cases, &format!("nothing altered, {setting}"), Dipped::sound(filled.clone()));
    if shape.largest + 1 < 1 << shape.width {
        salvage_pair(cases, &format!("every 16th slot altered, {setting}"), Dipped::scrambled(filled, shape));
    }
}

/// Zones of one setting with their rings, and a count for each; the records are of either side.
#[derive(Clone)]
struct Zones<B> {
    books: Vec<B>,
    rings: Vec<u8>,
    counts: Vec<u64>,
}

impl Zones<Book> {
    /// So many, each one item short of a full block.
    fn new(many: usize, bound: u64, length: u64, tolerance: u64) -> Zones<Book> {
        let Filled { book, ring, .. } = Filled::by_a_third(bound, length, tolerance);
        let bytes = Shape::of(bound, length, tolerance).expect("a good setting").bytes();
        let counts = (0..many as u64).map(|zone| zone * 7919 % (bound + 1)).collect();
        Zones { books: vec![book; many], rings: ring[..bytes].repeat(many), counts }
    }

    /// Each zone takes so many items that it is one item further in its block than the zone before it.
    fn apart(mut self) -> Zones<Book> {
        for zone in 0..self.books.len() {
            let book = self.books[zone];
            let block = (book.tolerance / book.bound).max(1);
            for _ in 0..zone as u64 % block {
                zones::add_one(&mut self.books, &mut self.rings, zone as u64, book.bound / 2).expect("an item within the bound");
            }
        }
        self
    }

    fn crossed(&self) -> Zones<proved::Book> {
        let Zones { books, rings, counts } = self.clone();
        Zones { books: books.into_iter().map(crossed).collect(), rings, counts }
    }
}

impl<B: Copy + 'static> Zones<B> {
    /// Round after round, each with the records that the last one left.
    fn rounds<T>(mut self, add: impl Fn(&mut [B], &mut [u8], &[u64]) -> T + 'static) -> Repeated {
        repeated(move || add(&mut self.books, &mut self.rings, black_box(&self.counts)))
    }

    /// The first round again and again: the records are put back before each.
    fn first_round<T>(mut self, add: impl Fn(&mut [B], &mut [u8], &[u64]) -> T + 'static) -> Repeated {
        let first = self.books.clone();
        repeated(move || {
            self.books.copy_from_slice(&first);
            add(&mut self.books, &mut self.rings, black_box(&self.counts))
        })
    }

    /// Rounds over all zones, and one over some of them, until so many zones had a count.
    fn zone_by_zone<T>(mut self, add: impl Fn(&mut [B], &mut [u8], &[u64]) -> T + 'static) -> Repeated {
        Box::new(move |times| {
            let mut left = times as usize;
            while left > 0 {
                let now = left.min(self.books.len());
                black_box(add(&mut self.books[..now], &mut self.rings, black_box(&self.counts[..now])));
                left -= now;
            }
        })
    }
}

/// Zones that begin together close their blocks together. Those of which the cost of one is told do so by turns.
fn zone_cases(cases: &mut Vec<Case>, setting: &str, bound: u64, length: u64, tolerance: u64) {
    for (many, which) in [(1, "the only zone"), (2, "each of 2 zones"), (96, "each of 96 zones")] {
        let lent = Zones::new(many, bound, length, tolerance);
        cases.push(Case {
            name: format!("add to {which}, {setting}"),
            plain: lent.clone().rounds(zones::add_all),
            proved: lent.crossed().rounds(proved::zones_add),
        });
    }
    let lent = Zones::new(96, bound, length, tolerance);
    cases.push(Case {
        name: format!("add to each of 96 zones that closes all their blocks, {setting}"),
        plain: lent.clone().first_round(zones::add_all),
        proved: lent.crossed().first_round(proved::zones_add),
    });
    let apart = lent.clone().apart();
    cases.push(Case {
        name: format!("add to each of 96 zones, per zone, {setting}"),
        plain: apart.clone().zone_by_zone(zones::add_all),
        proved: apart.crossed().zone_by_zone(proved::zones_add),
    });
    let item = bound / 2 + 1;
    cases.push(Case {
        name: format!("add to zone 50 of 96, {setting}"),
        plain: lent.clone().rounds(move |books, rings, _| zones::add_one(books, rings, black_box(50), black_box(item))),
        proved: lent.crossed().rounds(move |books, rings, _| proved::zone_add(books, rings, black_box(50), black_box(item))),
    });
}

fn header_case(cases: &mut Vec<Case>, what: &str, image: Vec<u8>) {
    let (a, b) = (image.clone(), image);
    cases.push(Case {
        name: format!("header of {what}"),
        plain: repeated(move || image::header(black_box(&a)).map(|image| image.used)),
        proved: repeated(move || proved::header(black_box(&b))),
    });
}

fn score_case(cases: &mut Vec<Case>, what: &str, kind: Kind) {
    let (one_a, two_a) = (kind.picture(1), kind.picture(2));
    let (one_b, two_b) = (one_a.clone(), two_a.clone());
    cases.push(Case {
        name: format!("score of {what}"),
        plain: repeated(move || score::score(black_box(600), black_box(12), &one_a, &two_a)),
        proved: repeated(move || proved::score(black_box(600), black_box(12), &one_b, &two_b)),
    });
}

fn masked_case(cases: &mut Vec<Case>, what: &str, kind: Kind, mask: Vec<u8>) {
    let pair = [kind.picture(1), kind.picture(2)];
    let ([one_a, two_a], mask_a) = (pair.clone(), mask.clone());
    let [one_b, two_b] = pair;
    cases.push(Case {
        name: format!("masked score of {what}"),
        plain: repeated(move || score::masked(black_box(600), black_box(12), &one_a, &two_a, &mask_a)),
        proved: repeated(move || proved::masked(black_box(600), black_box(12), &one_b, &two_b, &mask)),
    });
}

fn picture_cases(cases: &mut Vec<Case>) {
    let darker = Kind { maxval: 200, ..ONE_BYTE };
    let commented = ONE_BYTE.picture_with("# made by a viewer\n", &mut Chance::new(1));
    header_case(cases, "160 x 120, maxval 255", ONE_BYTE.picture(1));
    header_case(cases, "160 x 120, maxval 200", darker.picture(1));
    header_case(cases, "160 x 120, maxval 255, a comment", commented);
    header_case(cases, "120 x 90, maxval 4,095", TWO_BYTES.picture(1));
    score_case(cases, "160 x 120", ONE_BYTE);
    score_case(cases, "160 x 120, maxval 200", darker);
    score_case(cases, "120 x 90, maxval 4,095", TWO_BYTES);
    masked_case(cases, "160 x 120, a painted mask", ONE_BYTE, ONE_BYTE.painted_mask());
    masked_case(cases, "160 x 120, a mask of chance", ONE_BYTE, ONE_BYTE.mask_of_chance(3));
    masked_case(cases, "160 x 120, a white mask", ONE_BYTE, ONE_BYTE.white_mask());
    masked_case(cases, "120 x 90, maxval 4,095, a painted mask", TWO_BYTES, TWO_BYTES.painted_mask());
}

/// A call on lit frames, with the same bytes on both sides.
fn lit_case(
    cases: &mut Vec<Case>,
    name: String,
    row: &[u8],
    plain: impl Fn(&[u8]) -> Result<usize, Refusal> + 'static,
    proved: impl Fn(&[u8]) -> proved::Lit + 'static,
) {
    let (a, b) = (row.to_vec(), row.to_vec());
    cases.push(Case {
        name,
        plain: repeated(move || plain(black_box(&a))),
        proved: repeated(move || proved(black_box(&b))),
    });
}

/// The places for every byte and every k from 0 to 9, added up.
fn in_every_byte(in_byte: impl Fn(u8, usize) -> u8) -> u64 {
    (0..=255).map(|byte| (0..=9).map(|k| u64::from(in_byte(byte, k))).sum::<u64>()).sum()
}

/// The most frames.
const FRAMES: usize = 65536;

/// The step of the coarse calls.
const STEP: usize = 100;

fn rank_cases(cases: &mut Vec<Case>, row: &[u8]) {
    for (which, i) in [("all 65,536 frames", FRAMES), ("65,529 of 65,536 frames", 65529)] {
        lit_case(
            cases,
            format!("rank, {which}"),
            row,
            move |row| lit::rank(row, black_box(FRAMES), black_box(i)),
            move |row| proved::rank(row, black_box(FRAMES), black_box(i)),
        );
    }
    lit_case(
        cases,
        format!("coarse rank with d {STEP}, all 65,536 frames"),
        row,
        |row| lit::rank_coarse(row, black_box(FRAMES), black_box(STEP), black_box(FRAMES)),
        |row| proved::rank_coarse(row, black_box(FRAMES), black_box(STEP), black_box(FRAMES)),
    );
}

/// The last lit frame, one in the middle, and, with a step, the last one whose number is just below a multiple of it.
fn select_cases(cases: &mut Vec<Case>, row: &[u8]) {
    let lit = lit::rank(row, FRAMES, FRAMES).expect("the bytes hold the frames");
    for (which, k) in [("the last lit frame", lit), ("the middle lit frame", lit / 2)] {
        lit_case(
            cases,
            format!("select, {which} of 65,536 frames, half of them lit"),
            row,
            move |row| lit::select(row, black_box(FRAMES), black_box(k)),
            move |row| proved::select(row, black_box(FRAMES), black_box(k)),
        );
    }
    let k = lit / STEP * STEP - 1;
    lit_case(
        cases,
        format!("coarse select with d {STEP}, near the last lit frame of 65,536 frames, half of them lit"),
        row,
        move |row| lit::select_coarse(row, black_box(FRAMES), black_box(STEP), black_box(k)),
        move |row| proved::select_coarse(row, black_box(FRAMES), black_box(STEP), black_box(k)),
    );
}

fn lit_cases(cases: &mut Vec<Case>) {
    let row = Chance::new(22).bytes(FRAMES / 8);
    rank_cases(cases, &row);
    select_cases(cases, &row);
    cases.push(Case {
        name: "in a byte, 2,560 calls: every byte, k from 0 to 9".to_string(),
        plain: repeated(|| in_every_byte(lit::in_byte)),
        proved: repeated(|| in_every_byte(proved::in_byte)),
    });
}

/// The counter has gone on with 0 since both pictures were taken.
const TICKS: Ticks = Ticks { newest: 4_294_967_290, older: 4_294_967_000, present: 3 };

/// What the page's choice is made from: a book of the box's setting, an amount for all that it keeps, and two pictures of one kind.
#[derive(Clone)]
struct Page {
    book: Book,
    ring: Vec<u8>,
    amount: u64,
    newest: Vec<u8>,
    older: Vec<u8>,
}

impl Page {
    fn new(kind: Kind, amount: u64) -> Page {
        let (_, bound, length, tolerance) = SETTINGS[0];
        let Filled { book, ring, .. } = Filled::by_a_third(bound, length, tolerance);
        Page { book, ring, amount, newest: kind.picture(1), older: kind.picture(2) }
    }

    fn plain(self) -> Repeated {
        repeated(move || {
            let book = black_box(&self.book);
            let shown = book.show(&self.ring, black_box(book.kept), black_box(self.amount), &self.newest, &self.older, black_box(TICKS));
            shown.map(|shown| (shown.offset, shown.age))
        })
    }

    fn proved(self) -> Repeated {
        let (record, ticks) = (crossed(self.book), crossed_ticks(TICKS));
        repeated(move || {
            let record = black_box(record);
            proved::show(record, &self.ring, black_box(record.kept), black_box(self.amount), &self.newest, &self.older, black_box(ticks))
        })
    }
}

fn show_case(cases: &mut Vec<Case>, what: &str, kind: Kind, amount: u64) {
    let page = Page::new(kind, amount);
    cases.push(Case { name: format!("show, {what}"), plain: page.clone().plain(), proved: page.proved() });
}

fn show_cases(cases: &mut Vec<Case>) {
    let darker = Kind { maxval: 200, ..ONE_BYTE };
    show_case(cases, "live, two images of 160 x 120, maxval 255", ONE_BYTE, 1);
    show_case(cases, "frozen, two images of 160 x 120, maxval 255", ONE_BYTE, u64::MAX);
    show_case(cases, "live, two images of 160 x 120, maxval 200", darker, 1);
    show_case(cases, "live, two images of 120 x 90, maxval 4,095", TWO_BYTES, 1);
}

pub fn all() -> Vec<Case> {
    let mut cases = Vec::new();
    for (setting, bound, length, tolerance) in SETTINGS {
        shape_case(&mut cases, setting, bound, length, tolerance);
        book_cases(&mut cases, setting, bound, length, tolerance);
        row_cases(&mut cases, setting, bound, length, tolerance);
        trend_cases(&mut cases, setting, bound, length, tolerance);
        if tolerance % bound == 0 {
            coarsen_cases(&mut cases, setting, bound, length, tolerance);
        }
    }
    for (setting, bound, length, tolerance) in SALVAGED {
        salvage_cases(&mut cases, setting, bound, length, tolerance);
    }
    let (setting, bound, length, tolerance) = SETTINGS[0];
    zone_cases(&mut cases, setting, bound, length, tolerance);
    picture_cases(&mut cases);
    lit_cases(&mut cases);
    show_cases(&mut cases);
    cases
}
