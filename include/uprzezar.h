/*
 * Uprzezar: a small book of frame counts for a camera box, and the reading and comparing of its pictures.
 *
 * C99, and C++. Link crates/uprzezar/out/libuprzezar.a, which `rt lib` writes in crates/uprzezar; it needs nothing but memset, allocates nothing
 * and keeps nothing between calls.
 *
 * What you must keep:
 *   - a pointer and the length behind it name bytes, counts of eight bytes each, a row's entries or slot numbers of four bytes each, or
 *     records of zones, that are yours to read for the whole call (and to write, where the pointer is not const); the pointer is not null,
 *     not even where the length is 0, and is aligned as its type asks;
 *   - while a call runs, nobody else writes those bytes, and bytes lent for writing overlap no others that are lent to that call.
 *
 * What you may leave to us: everything else. Any number, any record, any ring bytes, any row, any image, any mask, any frames and any
 * length get an answer, and every answer is proved to be the one that the library's definitions lay down (docs/SCOPE.md has them in words).
 * A refusal comes as a number above 0; then the other numbers of the answer are 0 (but for the place that comes with 7 of uprzezar_run and
 * uprzezar_run_row, and the zone that comes with 8, 17 and 7 of uprzezar_zones_add and uprzezar_zone_add), the record is handed back as it
 * came (opening hands back zeros), and no lent byte, and no lent record, has changed. Where several refusals apply, the first in the order
 * given at the function is the one.
 *
 * A book from a good start is one that uprzezar_open or uprzezar_open_row opened without a refusal; each call since has got the latest
 * record, and the ring as the last call left it, changed by nothing else (no call of the ring alone, no second book in it).
 * So is the book that uprzezar_coarsen or uprzezar_coarsen_row made of such a one without a refusal, with the record that it gave and the
 * second ring.
 * A book whose ring something else has changed, such as a dip in the supply, is none. Under a condition that no call can check, it is one
 * again with the record that uprzezar_salvage or uprzezar_salvage_row gave without a refusal and the ring as that call left it: "Salvage"
 * below says which.
 * A zone's record and stretch are such a book under the same conditions, uprzezar_zones_add and uprzezar_zone_add being among its calls.
 * What is said below of true totals, and of what a window truly holds, holds for such a book, over the items that uprzezar_add,
 * uprzezar_run, uprzezar_add_row, uprzezar_run_row, uprzezar_zones_add and uprzezar_zone_add accepted for it, those from before it was made
 * coarser or salvaged too.
 * Any other record, or ring, still gets the one answer that is laid down for it; only, that answer says nothing of the items.
 * A total by a row asks for more than a good start: "The book with a row" below says what.
 */
#ifndef UPRZEZAR_H
#define UPRZEZAR_H

#include <stddef.h>
#include <stdint.h>

#ifdef __cplusplus
extern "C" {
#endif

/* The refusals. */
enum {
    UPRZEZAR_NO_REFUSAL = 0,
    UPRZEZAR_BAD_BOUND = 1,          /* the bound is not 1 to 65,535 */
    UPRZEZAR_BAD_LENGTH = 2,         /* the length is not 1 to 4,096 */
    UPRZEZAR_BAD_TOLERANCE = 3,      /* the tolerance is 0, or it, or that of a coarser book, is above length times bound */
    UPRZEZAR_RING_TOO_SHORT = 4,     /* the ring, the second ring, or the rings of all zones, have too few bytes */
    UPRZEZAR_WINDOW_TOO_LONG = 5,    /* the window, or twice the window of a trend, is longer than what is kept */
    UPRZEZAR_ZERO_ASKED = 6,         /* the amount is 0, or the window of a verdict is */
    UPRZEZAR_ITEM_TOO_LARGE = 7,     /* the item, or a count of a run or of a zone, is above the bound */
    UPRZEZAR_NO_BOOK = 8,            /* the record is none that a book can have */
    UPRZEZAR_NOT_REACHED = 9,        /* no window that is kept reaches the amount */
    UPRZEZAR_RING_CALL = 10,         /* the ring's own calls: the width is not 1 to 16, the slots are not 1 to 4,096, there is no such slot,
                                        more slots are to be summed than the ring has, or a value takes more bits than the width */
    UPRZEZAR_WRONG_BYTE = 11,        /* a wrong byte in the header of an image or a mask, or a number without digits */
    UPRZEZAR_BAD_NUMBER = 12,        /* width or height is not 1 to 1,024, or maxval not 1 to 65,535 */
    UPRZEZAR_IMAGE_TOO_LARGE = 13,   /* the image or the mask takes more than 24,576 bytes */
    UPRZEZAR_ENDS_TOO_EARLY = 14,    /* the image or the mask goes on behind the bytes lent */
    UPRZEZAR_PIXEL_TOO_LARGE = 15,   /* a pixel is above maxval */
    UPRZEZAR_IMAGES_DIFFER = 16,     /* the two images differ in width, height or maxval, or the mask has another width or height */
    UPRZEZAR_BOOK_RESTS = 17,        /* the book rests, and takes no items */
    UPRZEZAR_ROW_TOO_SHORT = 18,     /* the row has fewer entries than the ring has groups of 32 slots, a last part of a group counted too */
    UPRZEZAR_CANNOT_COARSEN = 19,    /* the tolerance is no multiple of the bound, or is to be taken fewer than 2 or more than 16 times */
    UPRZEZAR_BAD_ZONES = 20,         /* there are no zones or more than 96, no zone has that number, or there are not as many counts */
    UPRZEZAR_NUMBERS_TOO_SHORT = 21, /* there are fewer entries for the numbers of altered slots than the ring has slots */
    UPRZEZAR_BAD_LIT_CALL = 22       /* the calls on lit frames: the length is above 65,536 or above the number of bits lent, i is above
                                        the length, the step is 0, or k is 0 or above the number of lit frames */
};

/* The verdicts. What they say of the window is for a book from a good start: the latest record, and a ring changed by nothing else. */
enum {
    UPRZEZAR_NO_VERDICT = 0,
    UPRZEZAR_LIVE = 1,      /* of a book from a good start: the window truly holds the amount */
    UPRZEZAR_FROZEN = 2,    /* of a book from a good start: the window truly holds less */
    UPRZEZAR_UNDECIDED = 3, /* every other case while the book is awake: nothing is claimed */
    UPRZEZAR_RESTING = 4    /* the book rests: nothing is claimed of the amount */
};

/* The pictures of the page. */
enum {
    UPRZEZAR_NO_PICTURE = 0, /* the call is refused */
    UPRZEZAR_NEWEST = 1,     /* the verdict is UPRZEZAR_LIVE */
    UPRZEZAR_OLDER = 2       /* the verdict is any other */
};

/* What follows from a book's bound, length and tolerance. */
typedef struct {
    uint64_t block;   /* items a block: max(1, tolerance / bound) */
    uint64_t slots;   /* slots of the ring: ceil(length / block) */
    uint64_t largest; /* the largest number that a slot must hold: ceil(block * bound / tolerance) */
    uint64_t width;   /* bits a slot: as many as `largest` has binary digits */
    uint64_t bytes;   /* bytes of the ring: ceil(slots * width / 8), at most UPRZEZAR_RING_MOST */
} uprzezar_shape_numbers;

typedef struct {
    uint8_t refusal;
    uprzezar_shape_numbers shape;
} uprzezar_shaped;

/* The record of a book. Start from uprzezar_open, and go on with the latest record that a call handed back. */
typedef struct {
    uint64_t bound;
    uint64_t length;
    uint64_t tolerance;
    uint64_t carry;
    uint64_t phase;
    uint64_t kept;
    uint64_t head;
    uint64_t resting; /* 0: awake; anything else: the book rests. uprzezar_open and uprzezar_wake set 0, uprzezar_rest sets 1, and
                         uprzezar_add, uprzezar_run, uprzezar_coarsen and uprzezar_salvage hand it back as it came; whatever it is, it is
                         no ground for refusal 8. Set it by these calls: a book whose record was changed by hand is not one from a good
                         start */
} uprzezar_book;

typedef struct {
    uint8_t refusal;
    uprzezar_book book;
} uprzezar_updated;

/* With refusal 7 `place` is that of the first count above the bound, from 1; otherwise it is 0. */
typedef struct {
    uint8_t refusal;
    uint64_t place;
    uprzezar_book book;
} uprzezar_ran;

/* A coarser book: the bytes that its ring takes, 0 at a refusal, and the record to go on with. */
typedef struct {
    uint8_t refusal;
    uint64_t bytes;
    uprzezar_book book;
} uprzezar_coarser;

/* A salvaged book: how many slots were altered, 0 at a refusal, and the record to go on with. */
typedef struct {
    uint8_t refusal;
    uint64_t count;
    uprzezar_book book;
} uprzezar_salvaged;

/* With refusals 8, 17 and 7 `zone` is the number, from 0, of the zone that the refusal is for; otherwise it is 0. */
typedef struct {
    uint8_t refusal;
    uint64_t zone;
} uprzezar_zoned;

typedef struct {
    uint8_t refusal;
    uint64_t figure;
} uprzezar_figure;

/* A figure by a row, and how many reads of single fields of the ring, and of stored sums of the row, its rule makes; all three are 0 at a
   refusal. */
typedef struct {
    uint8_t refusal;
    uint64_t figure;
    uint64_t fields; /* at most 64 */
    uint64_t sums;   /* at most 3 */
} uprzezar_summed;

typedef struct {
    uint8_t refusal;
    uint64_t window;
} uprzezar_window;

/* A trend: a number with a sign, 0 at a refusal. */
typedef struct {
    uint8_t refusal;
    int64_t trend;
} uprzezar_trended;

/* What the page is told: the verdict, the window that was asked for, and its figure; all three are 0 at a refusal. */
typedef struct {
    uint8_t refusal;
    uint8_t verdict;
    uint64_t window;
    uint64_t figure;
} uprzezar_ruled;

typedef struct {
    uint8_t refusal;
    uint64_t value;
} uprzezar_answer;

/* A number of lit frames, or the place of a frame, from 1; 0 at a refusal. */
typedef struct {
    uint8_t refusal;
    size_t value;
} uprzezar_lit;

/* The numbers of an image: its raster is the bytes from `start` up to `used`, and the next image may begin at `used`. */
typedef struct {
    uint8_t refusal;
    size_t width;
    size_t height;
    size_t maxval;
    size_t start;
    size_t used;
} uprzezar_numbers;

typedef struct {
    uint8_t refusal;
    size_t offset;
    size_t length;
} uprzezar_raster_place;

/* The ticks of the page's two pictures, and the tick now. */
typedef struct {
    uint32_t newest;
    uint32_t older;
    uint32_t present;
} uprzezar_ticks;

/* The picture that the page shows: which one, where its raster starts in its own bytes and how many they are, and its age in ticks; all four
   are 0 at a refusal. */
typedef struct {
    uint8_t refusal;
    uint8_t picture;
    size_t offset;
    size_t length;
    uint32_t age;
} uprzezar_shown;

/* The layouts that the archive was built with. */
#if defined(__cplusplus) && __cplusplus >= 201103L
#define UPRZEZAR_ASSERT(holds, says) static_assert(holds, says)
#elif !defined(__cplusplus) && defined(__STDC_VERSION__) && __STDC_VERSION__ >= 201112L
#define UPRZEZAR_ASSERT(holds, says) _Static_assert(holds, says)
#elif !defined(__cplusplus) && defined(__GNUC__)
#define UPRZEZAR_ASSERT(holds, says) __extension__ _Static_assert(holds, says)
#else
#define UPRZEZAR_ASSERT(holds, says) extern int uprzezar_layout[(holds) ? 1 : -1]
#endif
UPRZEZAR_ASSERT(sizeof(size_t) == 8, "64 bits");
UPRZEZAR_ASSERT(sizeof(uprzezar_shape_numbers) == 40 && offsetof(uprzezar_shape_numbers, slots) == 8, "shape numbers");
UPRZEZAR_ASSERT(offsetof(uprzezar_shape_numbers, largest) == 16 && offsetof(uprzezar_shape_numbers, width) == 24, "shape numbers");
UPRZEZAR_ASSERT(offsetof(uprzezar_shape_numbers, bytes) == 32, "shape numbers");
UPRZEZAR_ASSERT(sizeof(uprzezar_shaped) == 48 && offsetof(uprzezar_shaped, shape) == 8, "shaped");
UPRZEZAR_ASSERT(sizeof(uprzezar_book) == 64 && offsetof(uprzezar_book, resting) == 56, "book");
UPRZEZAR_ASSERT(offsetof(uprzezar_book, length) == 8 && offsetof(uprzezar_book, tolerance) == 16, "book");
UPRZEZAR_ASSERT(offsetof(uprzezar_book, carry) == 24 && offsetof(uprzezar_book, phase) == 32, "book");
UPRZEZAR_ASSERT(offsetof(uprzezar_book, kept) == 40 && offsetof(uprzezar_book, head) == 48, "book");
UPRZEZAR_ASSERT(sizeof(uprzezar_updated) == 72 && offsetof(uprzezar_updated, book) == 8, "updated");
UPRZEZAR_ASSERT(sizeof(uprzezar_ran) == 80 && offsetof(uprzezar_ran, place) == 8, "ran");
UPRZEZAR_ASSERT(offsetof(uprzezar_ran, book) == 16, "ran");
UPRZEZAR_ASSERT(sizeof(uprzezar_coarser) == 80 && offsetof(uprzezar_coarser, bytes) == 8, "coarser");
UPRZEZAR_ASSERT(offsetof(uprzezar_coarser, book) == 16, "coarser");
UPRZEZAR_ASSERT(sizeof(uprzezar_salvaged) == 80 && offsetof(uprzezar_salvaged, count) == 8, "salvaged");
UPRZEZAR_ASSERT(offsetof(uprzezar_salvaged, book) == 16, "salvaged");
UPRZEZAR_ASSERT(sizeof(uprzezar_zoned) == 16 && offsetof(uprzezar_zoned, zone) == 8, "zoned");
UPRZEZAR_ASSERT(sizeof(uprzezar_figure) == 16 && offsetof(uprzezar_figure, figure) == 8, "figure");
UPRZEZAR_ASSERT(sizeof(uprzezar_summed) == 32 && offsetof(uprzezar_summed, figure) == 8, "summed");
UPRZEZAR_ASSERT(offsetof(uprzezar_summed, fields) == 16 && offsetof(uprzezar_summed, sums) == 24, "summed");
UPRZEZAR_ASSERT(sizeof(uprzezar_window) == 16 && offsetof(uprzezar_window, window) == 8, "window");
UPRZEZAR_ASSERT(sizeof(uprzezar_trended) == 16 && offsetof(uprzezar_trended, trend) == 8, "trended");
UPRZEZAR_ASSERT(sizeof(uprzezar_ruled) == 24 && offsetof(uprzezar_ruled, verdict) == 1, "ruled");
UPRZEZAR_ASSERT(offsetof(uprzezar_ruled, window) == 8 && offsetof(uprzezar_ruled, figure) == 16, "ruled");
UPRZEZAR_ASSERT(sizeof(uprzezar_answer) == 16 && offsetof(uprzezar_answer, value) == 8, "answer");
UPRZEZAR_ASSERT(sizeof(uprzezar_lit) == 16 && offsetof(uprzezar_lit, value) == 8, "lit");
UPRZEZAR_ASSERT(sizeof(uprzezar_numbers) == 48 && offsetof(uprzezar_numbers, width) == 8, "numbers");
UPRZEZAR_ASSERT(offsetof(uprzezar_numbers, height) == 16 && offsetof(uprzezar_numbers, maxval) == 24, "numbers");
UPRZEZAR_ASSERT(offsetof(uprzezar_numbers, start) == 32 && offsetof(uprzezar_numbers, used) == 40, "numbers");
UPRZEZAR_ASSERT(sizeof(uprzezar_raster_place) == 24 && offsetof(uprzezar_raster_place, offset) == 8, "raster place");
UPRZEZAR_ASSERT(offsetof(uprzezar_raster_place, length) == 16, "raster place");
UPRZEZAR_ASSERT(sizeof(uprzezar_ticks) == 12 && offsetof(uprzezar_ticks, older) == 4, "ticks");
UPRZEZAR_ASSERT(offsetof(uprzezar_ticks, present) == 8, "ticks");
UPRZEZAR_ASSERT(sizeof(uprzezar_shown) == 32 && offsetof(uprzezar_shown, picture) == 1, "shown");
UPRZEZAR_ASSERT(offsetof(uprzezar_shown, offset) == 8 && offsetof(uprzezar_shown, length) == 16, "shown");
UPRZEZAR_ASSERT(offsetof(uprzezar_shown, age) == 24, "shown");

/* No book's ring takes more bytes. */
#define UPRZEZAR_RING_MOST 8192

/* No book has more slots. */
#define UPRZEZAR_SLOTS_MOST 4096

/* No book's row takes more entries. */
#define UPRZEZAR_ROW_MOST 128

/* The most zones. */
#define UPRZEZAR_ZONES_MOST 96

/* The most frames that are lit or dark. */
#define UPRZEZAR_FRAMES_MOST 65536

/* The book. */

/* The numbers of a book, before it is opened. (For bound 600, length 1,440 and tolerance 3,600: block 6, slots 240, largest 1, width 1,
   bytes 30.) Refusals: 1, 2, 3. */
uprzezar_shaped uprzezar_shape(uint64_t bound, uint64_t length, uint64_t tolerance);

/* Opens a book: items up to `bound`, windows up to `length`, figures that fall short of the true totals by less than `tolerance` as long
   as it stays a book from a good start. Clears the bytes that the ring takes and leaves those behind them alone; how many bytes to lend,
   uprzezar_shape tells. Refusals: 1, 2, 3, 4. */
uprzezar_updated uprzezar_open(uint64_t bound, uint64_t length, uint64_t tolerance, uint8_t *ring, size_t ring_bytes);

/* Adds one item. Refusals: 8, 4, 17, 7. */
uprzezar_updated uprzezar_add(uprzezar_book book, uint8_t *ring, size_t ring_bytes, uint64_t item);

/* Adds a run of counts, `how_many` of them: record and ring come out as by one uprzezar_add for each count in turn. No count is taken before
   every one was looked at: all are taken or none. With refusal 7 `place` is that of the first count above the bound, from 1; otherwise it is
   0. A run of no counts leaves all as it is; while the book rests it is refused with 17 like any other run. Its pointer is not null either.
   The counts and the ring do not overlap. Refusals: 8, 4, 17, 7. */
uprzezar_ran uprzezar_run(uprzezar_book book, uint8_t *ring, size_t ring_bytes, const uint64_t *counts, size_t how_many);

/* Puts a book to rest: sets `resting` to 1 and changes nothing else. Go on with the record that comes back: with it, and with the ring lent
   whole, items and runs are refused with 17 (with 18 where a row is too short), the verdict is UPRZEZAR_RESTING where it is not refused,
   and totals, how far back and the trend answer as before. The call may come twice. Refusals: 8. */
uprzezar_updated uprzezar_rest(uprzezar_book book);

/* Wakes a book: sets `resting` to 0 and changes nothing else. Go on with the record that comes back. The call may come twice. Refusals: 8. */
uprzezar_updated uprzezar_wake(uprzezar_book book);

/* The figure for the last `window` items: for a book from a good start (the latest record, a ring changed by nothing else) never above
   their true total, and short of it by less than the tolerance. A window of 0 gives 0. Refusals: 8, 4, 5. */
uprzezar_figure uprzezar_total(uprzezar_book book, const uint8_t *ring, size_t ring_bytes, uint64_t window);

/* How far back for an amount: the shortest window whose figure reaches it. For a book from a good start (the latest record, a ring changed
   by nothing else) that window truly holds the amount, and each shorter one truly holds less than amount + tolerance - 1; at refusal 9
   so does every window that is kept. Refusals: 8, 4, 6, 9. */
uprzezar_window uprzezar_far(uprzezar_book book, const uint8_t *ring, size_t ring_bytes, uint64_t amount);

/* The verdict for a window and an amount, with the window and its figure. While the book rests it is UPRZEZAR_RESTING, whatever the amount:
   the refusals still come first, and window and figure still come with it. Refusals: 8, 4, 6, 5. */
uprzezar_ruled uprzezar_verdict(uprzezar_book book, const uint8_t *ring, size_t ring_bytes, uint64_t window, uint64_t amount);

/* The trend for a window: twice the figure for the last `window` items less the figure for twice as many, which sets those items against as
   many before them. For a book from a good start (the latest record, a ring changed by nothing else) it is at most tolerance - 1 above the
   same difference of true totals, and at most 2 * (tolerance - 1) below it: a trend above tolerance - 1 says that there was truly more than
   before, and one below -2 * (tolerance - 1) that there was truly less. Between the two its sign may be the opposite of the true one. (The
   smallest book with such a trend has bound 1, length 2 and tolerance 2: after the items 0, 1, 0, 1 the trend for window 1 is -1, and the
   true difference is 1.) A window of 0 gives 0. Any window may be asked for: its double is not cut to 64 bits. Refusals: 8, 4, and 5 where
   twice the window is longer than what is kept. */
uprzezar_trended uprzezar_trend(uprzezar_book book, const uint8_t *ring, size_t ring_bytes, uint64_t window);

/* The book with a row.

   A row is numbers of 32 bits that you lend beside the ring, so that a total need not add up all its slots: one entry for each group of 32
   slots, and one for what is left behind the last whole group. When the last slot of a group is written, the group's entry becomes what
   slot 0 and all slots up to this one hold together. Lend (slots + 31) / 32 entries, with the slots that uprzezar_shape tells, or
   UPRZEZAR_ROW_MOST, which are enough for every book; entries behind those that a book uses are never touched.

   A row is KEPT beside its book if uprzezar_open_row opened the two, or uprzezar_coarsen_row made them (below), or uprzezar_salvage_row
   rebuilt the row (below); if each call with a row since was lent the row just as the call with a row before it had left it, changed by
   nothing else; if every item since was taken by uprzezar_add_row or uprzezar_run_row (where uprzezar_add, uprzezar_run or a call for zones
   took one, a sum may be missing, and nothing tells you so); and if uprzezar_salvage, which rebuilds no row, was not called since. Then, for
   a book from a good start, the figure of uprzezar_total_row is that of uprzezar_total, whatever the window, and all that is said of the one
   holds of the other. For a row that holds other numbers, a written rule (docs/SCOPE.md, Running sums) still fixes the answer; only, that
   answer says nothing of the items, and may be above their total.

   How far back, the verdict, the trend, resting and waking have no call with a row: ask with record and ring as before. A row that was kept
   stays so. */

/* Opens a book as uprzezar_open does, and clears the entries that the book uses. Refusals: 1, 2, 3, 4, 18. */
uprzezar_updated uprzezar_open_row(uint64_t bound, uint64_t length, uint64_t tolerance, uint8_t *ring, size_t ring_bytes, uint32_t *row,
                                   size_t row_entries);

/* Adds one item: record and ring come out as by uprzezar_add. Where its block closes and the last slot of a group is written with it, the
   group's entry becomes the sum of the ring's own fields up to there, whatever the row held; no other entry changes. Refusals: 8, 4, 18,
   17, 7. */
uprzezar_updated uprzezar_add_row(uprzezar_book book, uint8_t *ring, size_t ring_bytes, uint32_t *row, size_t row_entries, uint64_t item);

/* Adds a run of counts, `how_many` of them: record, ring and row come out as by one uprzezar_add_row for each count in turn. All are taken or
   none, and `place` is as with uprzezar_run; so is a run of no counts. Counts, ring and row do not overlap. Refusals: 8, 4, 18, 17, 7. */
uprzezar_ran uprzezar_run_row(uprzezar_book book, uint8_t *ring, size_t ring_bytes, uint32_t *row, size_t row_entries,
                              const uint64_t *counts, size_t how_many);

/* The figure for the last `window` items by the row: that of uprzezar_total if the book is from a good start and the row is kept beside it
   (above). Which fields of the ring and which sums of the row a written rule reads for it, the record and the window alone decide; how many
   of each is told with it (the oldest slot's field is read by itself, and counts once more where it is among the others). A window within
   the open block reads none. Refusals: 8, 4, 18, 5. */
uprzezar_summed uprzezar_total_row(uprzezar_book book, const uint8_t *ring, size_t ring_bytes, const uint32_t *row, size_t row_entries,
                                   uint64_t window);

/* A coarser book.

   Where room runs short, a book whose tolerance is a multiple of its bound can go on in a ring with fewer slots, with a tolerance that is
   `times` times as large; `times` is 2 to 16. Bound and length stay, and so does the mark: a book at rest may be made coarser too. Go on with
   the record that comes back and the second ring. How many bytes that ring takes, uprzezar_shape tells beforehand, for the same bound and
   length and `times` times the tolerance, and the answer's `bytes` tells afterwards; 256 are enough for every coarser book. They are cleared
   and written, and bytes behind them are left alone.

   The first ring is only read. The two rings are not the same bytes and do not overlap. The old record and the first ring stay usable: they
   are a book of their own still, until you need that ring for something else.

   The coarser book begins at the oldest block of the old one of which every item is kept: of what was kept, less than one block is lost. For a
   book from a good start the coarser one is a book from a good start with the larger tolerance: what is said of true totals holds with it
   for every window that is kept, then and later. */

/* Makes a book coarser. Refusals: 8, 4 for the first ring, 19, 3 where `times` times the tolerance is above length times bound, 4 for the
   second ring. */
uprzezar_coarser uprzezar_coarsen(uprzezar_book book, const uint8_t *ring, size_t ring_bytes, uint64_t times, uint8_t *second,
                                  size_t second_bytes);

/* The same with a row, which is filled for the second ring and then kept beside the coarser book, whether the old book had one or not. An old
   row is not asked for; lend another one if the old book is to go on with it. The entries are those of a book with the larger tolerance:
   (slots + 31) / 32, and 64 are enough for every coarser book. Rings and row do not overlap. Refusals: 8, 4 for the first ring, 19, 3, 4 for
   the second ring, 18. */
uprzezar_coarser uprzezar_coarsen_row(uprzezar_book book, const uint8_t *ring, size_t ring_bytes, uint64_t times, uint8_t *second,
                                      size_t second_bytes, uint32_t *row, size_t row_entries);

/* Salvage.

   A dip in the supply may scramble bytes of a ring. Salvage goes through one ring: a slot that holds more than `largest` (uprzezar_shape),
   which no block can leave there, is ALTERED and holds `largest` then; every other slot stays; the bits after the last slot, up to the end of
   the last byte that the ring takes, become 0; and bytes behind that one stay. `count` tells how many slots were altered. Their numbers stand
   in the first `count` entries of `numbers`, in order from slot `head`, the oldest, round to the newest, the one before it; the other entries
   are left alone. Lend an entry for each slot (uprzezar_shape tells `slots`), or UPRZEZAR_SLOTS_MOST, which are enough for every book.

   The record comes back with a `kept` that reaches as far as the items newer than the newest altered slot: where that slot is the u-th newest,
   the smaller of `kept` and phase + (u - 1) * block. Where no slot was altered `kept` stays. Nothing else of the record changes; the mark
   stays too, and a book at rest is salvaged like any other. Go on with the record that comes back. A second call alters nothing.

   WHAT CANNOT BE SEEN: a slot that was scrambled and holds no more than `largest` stays as it is, and nothing tells you so. Where `largest` is
   all that the bits of a slot can write, no slot is ever altered. So it is wherever the tolerance is at least the bound: `largest` is 1 then,
   and a slot has one bit. A `count` of 0 does not say that the ring is sound.

   Salvaged without a refusal, a book is a book from a good start, with the items that it had, IF all that was left is true: there is a book
   from a good start with the very record that went in, and of the ceil((kept - phase) / block) newest slots, with the `kept` of that record,
   each one that was not altered holds what it holds in that book's ring. What the altered slots and all other ones held does not matter. No
   call can check this. Where it is so, what is said of true totals holds for every window that is kept then, and later. Where the ring is that
   of a book from a good start, changed by nothing else, no slot is altered and the record comes back as it was. */

/* Salvages a ring. Ring and numbers do not overlap. Refusals: 8, 4, 21. */
uprzezar_salvaged uprzezar_salvage(uprzezar_book book, uint8_t *ring, size_t ring_bytes, uint32_t *numbers, size_t number_entries);

/* The same, and rebuilds the row: each entry that the book uses becomes the sum of the slots, as they are then, from slot 0 to the end of its
   group, whatever the row held and wherever `head` stands, also where no slot was altered; entries behind those are left alone. The row is
   KEPT beside the book from then on, whether it was before or not. Also of a book that is not from a good start, the figure of
   uprzezar_total_row is that of uprzezar_total then, and after further items that are taken one after the other with the row. Ring, numbers
   and row do not overlap. Refusals: 8, 4, 21, 18. */
uprzezar_salvaged uprzezar_salvage_row(uprzezar_book book, uint8_t *ring, size_t ring_bytes, uint32_t *numbers, size_t number_entries,
                                       uint32_t *row, size_t row_entries);

/* Zones: a book for each part of the picture.

   The records stand in an array, and are changed in place. The rings stand in one slice of bytes: that of zone 0 takes its first bytes, as
   many as its own book takes (uprzezar_shape), and that of every other zone stands directly behind that of the zone before it. Zones may
   have bounds, lengths and tolerances of their own. Open each one with uprzezar_open in its own stretch; ask it, put it to rest and wake it
   with its record and its stretch. Where a zone comes to take another number of bytes, opened anew or made coarser, every stretch behind
   its own starts elsewhere: move those bytes too. Bytes behind the last stretch are left alone. */

/* Adds to each zone the count that stands in its place, to all or to none: where it is not refused, it comes to the same as one
   uprzezar_zone_add for each zone, in any order. Records, rings and counts do not overlap. Refusals: 20 (also where `how_many` is not
   `zone_count`); 8 for the lowest zone whose record is none; 4 where the bytes are fewer than all rings take; 17 or 7 for the lowest zone
   that rests or whose count is above its bound (17 where both hold of it). */
uprzezar_zoned uprzezar_zones_add(uprzezar_book *zones, size_t zone_count, uint8_t *rings, size_t ring_bytes, const uint64_t *counts,
                                  size_t how_many);

/* Adds one item to one zone: the record and the ring of every other zone are as they were. Refusals: 20 (also where `zone` is not below
   `zone_count`); 8 and 4 as above, of all zones; 17, 7 of this zone alone. */
uprzezar_zoned uprzezar_zone_add(uprzezar_book *zones, size_t zone_count, uint8_t *rings, size_t ring_bytes, uint64_t zone, uint64_t item);

/* Images: binary PGM with maxval 1 to 65,535. Above maxval 255 each pixel is two bytes, the higher first; otherwise it is one.

   Behind `P5`, and before the single white byte behind maxval that delimits the raster, a comment is ignored, even inside a number: the
   bytes from `#` through the next CR or LF. That line end is neither white space nor the delimiter, so that `P5#c`, LF, `2` is refused with
   11. A `#` right behind the delimiter is the raster's first byte. Where nothing before it was refused, a comment that runs past the first
   24,576 bytes is refused with 13, and otherwise one that runs past the bytes lent with 14. */

/* The numbers of the image at the start of the bytes; bytes behind it are allowed. Refusals: 11 to 14 in the order of the header's bytes,
   then 13, 14, 15 for the raster. */
uprzezar_numbers uprzezar_header(const uint8_t *bytes, size_t count);

/* Where its raster lies. Refusals: those of uprzezar_header. */
uprzezar_raster_place uprzezar_raster(const uint8_t *bytes, size_t count);

/* How many pixels changed, but never above `bound`. The allowance is in parts of 255 of maxval: a pixel counts where its difference times
   255 is more than `allowance` times maxval. Refusals: 1, the first image's, the second's, 16. */
uprzezar_answer uprzezar_score(uint64_t bound, uint8_t allowance, const uint8_t *first, size_t first_bytes, const uint8_t *second,
                               size_t second_bytes);

/* Masks: binary PBM. `P4`, white space, width, white space, height, and a single white byte that delimits the raster; then row by row a bit
   for each position, the top bit of a byte first, 1 for black. Each row is padded to a whole byte; padding bits may hold anything. Width and
   height are 1 to 1,024, and header and raster take at most 24,576 bytes; bytes behind them are allowed. Behind `P4`, and before the
   delimiter, a comment is ignored as in an image. */

/* How many pixels changed at positions that are not black in the mask, but never above `bound`. Which pixels changed is as for
   uprzezar_score. Refusals: 1, the first image's, the second's, the mask's own (11 to 14 in the order of its header's bytes, then 13, 14
   for its raster), and 16 for images that differ in width, height or maxval, or a mask of another width or height. */
uprzezar_answer uprzezar_score_masked(uint64_t bound, uint8_t allowance, const uint8_t *first, size_t first_bytes, const uint8_t *second,
                                      size_t second_bytes, const uint8_t *mask, size_t mask_bytes);

/* Lit frames: one bit a frame, 1 for lit and 0 for dark, eight frames a byte, the first of them in the top bit.

   `length` tells how many frames there are, 0 to UPRZEZAR_FRAMES_MOST; the bits behind them may hold anything, and are never counted. Frames
   have their places from 1 on. The bytes are only read. Every refusal is 22. */

/* How many of the first `i` frames are lit; `i` may be 0. Refusals: 22 where the length is above UPRZEZAR_FRAMES_MOST or above the number of
   bits lent, or `i` is above the length. */
uprzezar_lit uprzezar_rank(const uint8_t *frames, size_t frame_bytes, size_t length, size_t i);

/* The place of the k-th lit frame: it is lit, and its rank is k. Refusals: 22 for the length as above, and where `k` is 0 or above the number
   of lit frames. */
uprzezar_lit uprzezar_select(const uint8_t *frames, size_t frame_bytes, size_t length, size_t k);

/* The rank of `i` rounded down to a multiple of `step`: never above the rank, and short of it by less than the step. With step 1 it is the
   rank. Refusals: 22 where uprzezar_rank is refused, and where the step is 0. */
uprzezar_lit uprzezar_rank_coarse(const uint8_t *frames, size_t frame_bytes, size_t length, size_t step, size_t i);

/* The place of the k-th lit frame where k is a multiple of `step`; otherwise, with t the largest multiple below k, the place behind the t-th
   lit frame, or 1 where t is 0. It is never behind the place of the k-th lit frame, and where k is above the step always behind the place of
   lit frame k - step. With step 1 it is that of uprzezar_select. Refusals: 22 where uprzezar_select is refused, and where the step is 0. */
uprzezar_lit uprzezar_select_coarse(const uint8_t *frames, size_t frame_bytes, size_t length, size_t step, size_t k);

/* The place, 1 to 8, of the k-th one in a byte, the top bit first; 0 where there is none, and where `k` is not 1 to 8. Never refused. */
uint8_t uprzezar_in_byte(uint8_t byte, size_t k);

/* The page: which of two pictures to show, and how old it is.

   Lend the newest image and an older one, the last that was known to move, each with the tick at which it was taken. Where the verdict of
   uprzezar_verdict for this window and amount is UPRZEZAR_LIVE, the newest is shown; where it is frozen, undecided or resting, the older one.
   So the newest is shown, of a book from a good start (the latest record, a ring changed by nothing else), only where the window truly
   holds the amount. Whether the older image ever moved, which tick comes first, and whether the images are of one size is not asked. They may
   lie in the same bytes.

   A tick is read off a counter of 32 bits that goes on with 0 after its largest value. The age is `present`, the tick now, less the tick of the
   picture that is shown, and 2^32 more where that would be below 0. It is the true age, also where the counter has gone on with 0 since, of a
   picture that is less than a full turn of the counter old, 2^32 ticks. One that is a full turn old or more seems younger, by whole turns, and
   one whose tick is still to come has an age too: two ticks cannot tell. */

/* The picture to show. BOTH images are judged, whichever is shown: a damaged one is a refusal even where the other is shown, and which of the
   two a number is for is not told. Refusals: those of uprzezar_verdict (8, 4, 6, 5), those of uprzezar_header for the newest image, those for
   the older one. */
uprzezar_shown uprzezar_show(uprzezar_book book, const uint8_t *ring, size_t ring_bytes, uint64_t window, uint64_t amount,
                             const uint8_t *newest, size_t newest_bytes, const uint8_t *older, size_t older_bytes, uprzezar_ticks ticks);

/* The ring alone: `slots` numbers of `width` bits, one after another from the top bit of byte 0. */

/* Sets the bytes that the ring takes to 0. Gives the refusal: 10, 4. */
uint8_t uprzezar_ring_clear(size_t width, size_t slots, uint8_t *ring, size_t ring_bytes);

/* The number in a slot. Refusals: 10, 4. */
uprzezar_answer uprzezar_ring_read(size_t width, size_t slots, const uint8_t *ring, size_t ring_bytes, size_t slot);

/* Puts a value into a slot. Gives the refusal: 10, 4. */
uint8_t uprzezar_ring_write(size_t width, size_t slots, uint8_t *ring, size_t ring_bytes, size_t slot, uint64_t value);

/* The sum of the `newest` slots before the slot `next`; before slot 0 stands the last one. Refusals: 10, 4. */
uprzezar_answer uprzezar_ring_sum(size_t width, size_t slots, const uint8_t *ring, size_t ring_bytes, size_t next, size_t newest);

#ifdef __cplusplus
}
#endif

#endif
