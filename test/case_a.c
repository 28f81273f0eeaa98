/* Case A of docs/SCOPE.md, through the header, item by item and as one run, its book at rest, its trends, its book with a row and made
   coarser, larger books with a row and made coarser, scrambled rings that are salvaged, its book and another as two zones, 96 zones, the small
   pictures of its program, pictures of two bytes a pixel, headers with comments, and pictures under masks; twelve frames that are lit or dark,
   and up to 65,536; the page's choice of two pictures by its book; the shapes of its book and of the box's. */
#include "../include/uprzezar.h"

#include <inttypes.h>
#include <stdio.h>
#include <string.h>

static const char *word(uint8_t verdict) {
    static const char *const words[] = {"none", "live", "frozen", "undecided", "resting"};
    return words[verdict];
}

static uprzezar_book state(uprzezar_updated answer, const uint8_t *ring) {
    uprzezar_book b = answer.book;
    printf("refusal %u: carry %" PRIu64 ", phase %" PRIu64 ", kept %" PRIu64 ", head %" PRIu64 ", resting %" PRIu64 ", ring %02x\n",
           answer.refusal, b.carry, b.phase, b.kept, b.head, b.resting, ring[0]);
    return b;
}

static void verdict(uprzezar_book b, const uint8_t *ring, uint64_t window, uint64_t amount) {
    uprzezar_ruled r = uprzezar_verdict(b, ring, 1, window, amount);
    printf("window %" PRIu64 ", amount %" PRIu64 ": refusal %u, %s, window %" PRIu64 ", figure %" PRIu64 "\n", window, amount, r.refusal,
           word(r.verdict), r.window, r.figure);
}

static void shape(uint64_t bound, uint64_t length, uint64_t tolerance) {
    uprzezar_shaped a = uprzezar_shape(bound, length, tolerance);
    printf("shape of %" PRIu64 ", %" PRIu64 ", %" PRIu64 ": refusal %u, block %" PRIu64 ", slots %" PRIu64 ", largest %" PRIu64
           ", width %" PRIu64 ", bytes %" PRIu64 "\n",
           bound, length, tolerance, a.refusal, a.shape.block, a.shape.slots, a.shape.largest, a.shape.width, a.shape.bytes);
}

static void shapes(void) {
    shape(5, 6, 10);
    shape(600, 1440, 3600);
    shape(65536, 0, 0);
    shape(5, 4097, 0);
    shape(5, 6, 31);
}

static void book(void) {
    static const uint64_t items[] = {3, 4, 5, 5, 0, 1, 5};
    static const uint64_t amounts[] = {4, 5, 14, 15};
    static const uint64_t asked[] = {9, 10, 18, 19};
    uint8_t ring[2] = {0xff, 0xff};
    uprzezar_book b = uprzezar_open(5, 6, 10, ring, 1).book;
    size_t i;
    for (i = 0; i < sizeof items / sizeof *items; i++)
        b = state(uprzezar_add(b, ring, 1, items[i]), ring);
    for (i = 0; i <= 7; i++) {
        uprzezar_figure f = uprzezar_total(b, ring, 1, i);
        printf("window %zu: refusal %u, figure %" PRIu64 "\n", i, f.refusal, f.figure);
    }
    for (i = 0; i < 4; i++) {
        uprzezar_window w = uprzezar_far(b, ring, 1, amounts[i]);
        printf("how far back for %" PRIu64 ": refusal %u, window %" PRIu64 "\n", amounts[i], w.refusal, w.window);
    }
    for (i = 0; i < 4; i++)
        verdict(b, ring, 4, asked[i]);
    state(uprzezar_add(b, ring, 1, 6), ring);
    state(uprzezar_add(b, ring, 0, 5), ring);
    state(uprzezar_add(b, ring, 1, 2), ring);
    printf("the byte behind the ring: %02x\n", ring[1]);
}

static uprzezar_book ran(uprzezar_ran answer, const uint8_t *ring) {
    uprzezar_book b = answer.book;
    printf("run: refusal %u, place %" PRIu64 ": carry %" PRIu64 ", phase %" PRIu64 ", kept %" PRIu64 ", head %" PRIu64 ", resting %" PRIu64
           ", ring %02x\n",
           answer.refusal, answer.place, b.carry, b.phase, b.kept, b.head, b.resting, ring[0]);
    return b;
}

static void runs(void) {
    static const uint64_t items[] = {3, 4, 5, 5, 0, 1, 5};
    static const uint64_t more[] = {2, 5, 6, 7};
    uint8_t ring[2] = {0xff, 0xff};
    uprzezar_book b = uprzezar_open(5, 6, 10, ring, 1).book;
    uprzezar_book none;
    b = ran(uprzezar_run(b, ring, 1, items, sizeof items / sizeof *items), ring);
    ran(uprzezar_run(b, ring, 1, more, 4), ring);
    ran(uprzezar_run(b, ring, 1, more, 0), ring);
    ran(uprzezar_run(b, ring, 0, more, 4), ring);
    none = b;
    none.phase = 2;
    ran(uprzezar_run(none, ring, 0, more, 4), ring);
    ran(uprzezar_run(b, ring, 1, more, 1), ring);
    printf("the byte behind the ring: %02x\n", ring[1]);
}

/* What a book at rest answers: the refusals before 17 and those after it, then totals, how far back and the verdict's own refusals. */
static void at_rest(uprzezar_book b, uint8_t *ring) {
    static const uint64_t counts[] = {2, 6};
    static const uint64_t windows[] = {6, 7};
    static const uint64_t amounts[] = {14, 15};
    uprzezar_book none = b;
    size_t i;
    none.phase = 2;
    state(uprzezar_add(none, ring, 0, 6), ring);
    state(uprzezar_add(b, ring, 0, 6), ring);
    state(uprzezar_add(b, ring, 1, 6), ring);
    state(uprzezar_add(b, ring, 1, 2), ring);
    ran(uprzezar_run(b, ring, 0, counts, 2), ring);
    for (i = 0; i <= 2; i++)
        ran(uprzezar_run(b, ring, 1, counts, i), ring);
    for (i = 0; i < 2; i++) {
        uprzezar_figure f = uprzezar_total(b, ring, 1, windows[i]);
        uprzezar_window w = uprzezar_far(b, ring, 1, amounts[i]);
        printf("at rest, window %" PRIu64 ": refusal %u, figure %" PRIu64 "; how far back for %" PRIu64 ": refusal %u, window %" PRIu64 "\n",
               windows[i], f.refusal, f.figure, amounts[i], w.refusal, w.window);
    }
    verdict(b, ring, 4, 9);
    verdict(b, ring, 4, 19);
    verdict(b, ring, 4, 0);
    verdict(b, ring, 7, 9);
}

static void rests(void) {
    static const uint64_t items[] = {3, 4, 5, 5, 0, 1, 5};
    uint8_t ring[1] = {0xff};
    uprzezar_book b = state(uprzezar_open(5, 6, 10, ring, 0), ring);
    uprzezar_book none;
    b = state(uprzezar_open(5, 6, 10, ring, 1), ring);
    b = ran(uprzezar_run(b, ring, 1, items, sizeof items / sizeof *items), ring);
    b = state(uprzezar_rest(b), ring);
    b = state(uprzezar_rest(b), ring);
    at_rest(b, ring);
    b.resting = UINT64_MAX;
    at_rest(b, ring);
    none = b;
    none.phase = 2;
    state(uprzezar_rest(none), ring);
    state(uprzezar_wake(none), ring);
    b = state(uprzezar_wake(b), ring);
    b = state(uprzezar_wake(b), ring);
    verdict(b, ring, 4, 9);
    state(uprzezar_add(b, ring, 1, 2), ring);
}

static void trend(uprzezar_book b, const uint8_t *ring, size_t ring_bytes, uint64_t window) {
    uprzezar_trended t = uprzezar_trend(b, ring, ring_bytes, window);
    printf("trend of window %" PRIu64 ": refusal %u, %" PRId64 "\n", window, t.refusal, t.trend);
}

/* A book whose trend is below 0 where the last item is truly more than the one before it. */
static void trend_of_other_sign(void) {
    static const uint64_t items[] = {0, 1, 0, 1};
    uint8_t ring[1];
    uprzezar_book b = uprzezar_open(1, 2, 2, ring, 1).book;
    b = ran(uprzezar_run(b, ring, 1, items, 4), ring);
    trend(b, ring, 1, 1);
}

/* Case A awake and at rest. Cut to 64 bits, the doubles of the last three windows would be 0, 2 and one less than the largest number. */
static void trends(void) {
    static const uint64_t items[] = {3, 4, 5, 5, 0, 1, 5};
    static const uint64_t windows[] = {0, 1, 2, 3, 4, (uint64_t)1 << 63, ((uint64_t)1 << 63) + 1, UINT64_MAX};
    uint8_t ring[2] = {0xff, 0xff};
    uprzezar_book b = uprzezar_open(5, 6, 10, ring, 1).book;
    uprzezar_book none;
    size_t i;
    trend_of_other_sign();
    b = ran(uprzezar_run(b, ring, 1, items, sizeof items / sizeof *items), ring);
    for (i = 0; i < sizeof windows / sizeof *windows; i++)
        trend(b, ring, 1, windows[i]);
    none = b;
    none.phase = 2;
    trend(none, ring, 0, 4);
    trend(b, ring, 0, 4);
    trend(uprzezar_rest(b).book, ring, 1, 3);
    printf("after its trends: ring %02x, the byte behind the ring: %02x\n", ring[0], ring[1]);
}

/* A book with a ring and a row, of which so many bytes and so many entries are lent. */
typedef struct {
    uprzezar_book book;
    uint8_t ring[512];
    size_t bytes;
    uint32_t row[UPRZEZAR_ROW_MOST + 1];
    size_t entries;
} rowed;

/* Opens it with a ring of ones and a row of ones, all of which is lent. */
static void open_rowed(rowed *r, uint64_t bound, uint64_t length, uint64_t tolerance) {
    r->bytes = sizeof r->ring;
    r->entries = sizeof r->row / sizeof *r->row;
    memset(r->ring, 0xff, sizeof r->ring);
    memset(r->row, 0xff, sizeof r->row);
    r->book = uprzezar_open_row(bound, length, tolerance, r->ring, r->bytes, r->row, r->entries).book;
}

/* The record, the ring's first byte and the row's first entries. */
static void print_rowed(const char *call, uint8_t refusal, uint64_t place, uprzezar_book b, const rowed *r) {
    size_t i;
    printf("%s: refusal %u, place %" PRIu64 ": carry %" PRIu64 ", phase %" PRIu64 ", kept %" PRIu64 ", head %" PRIu64 ", ring %02x, row",
           call, refusal, place, b.carry, b.phase, b.kept, b.head, r->ring[0]);
    for (i = 0; i < 4; i++)
        printf(" %" PRIu32, r->row[i]);
    printf("\n");
}

static void open_row(rowed *r, uint64_t tolerance) {
    uprzezar_updated a = uprzezar_open_row(5, 6, tolerance, r->ring, r->bytes, r->row, r->entries);
    print_rowed("open_row", a.refusal, 0, a.book, r);
    r->book = a.book;
}

static void add_row(rowed *r, uint64_t item) {
    uprzezar_updated a = uprzezar_add_row(r->book, r->ring, r->bytes, r->row, r->entries, item);
    print_rowed("add_row", a.refusal, 0, a.book, r);
    r->book = a.book;
}

static void run_row(rowed *r, const uint64_t *counts, size_t how_many) {
    uprzezar_ran a = uprzezar_run_row(r->book, r->ring, r->bytes, r->row, r->entries, counts, how_many);
    print_rowed("run_row", a.refusal, a.place, a.book, r);
    r->book = a.book;
}

static void total_row(const rowed *r, uint64_t window) {
    uprzezar_summed a = uprzezar_total_row(r->book, r->ring, r->bytes, r->row, r->entries, window);
    uprzezar_figure own = uprzezar_total(r->book, r->ring, r->bytes, window);
    printf("window %" PRIu64 " by the row: refusal %u, figure %" PRIu64 ", fields %" PRIu64 ", sums %" PRIu64
           "; without it: refusal %u, figure %" PRIu64 "\n",
           window, a.refusal, a.figure, a.fields, a.sums, own.refusal, own.figure);
}

/* Case A, whose three slots are one group; of the row one entry is used. */
static void row_of_case_a(void) {
    static const uint64_t items[] = {3, 4, 5, 5, 0, 1, 5};
    static const uint64_t more[] = {2, 5, 6, 7};
    rowed r;
    size_t i;
    open_rowed(&r, 5, 6, 10);
    r.entries = 1;
    for (i = 0; i < sizeof items / sizeof *items; i++)
        add_row(&r, items[i]);
    for (i = 0; i <= 7; i++)
        total_row(&r, i);
    open_row(&r, 10);
    run_row(&r, items, sizeof items / sizeof *items);
    run_row(&r, more, 4);
    run_row(&r, more, 0);
    add_row(&r, 6);
    add_row(&r, 2);
    total_row(&r, 6);
}

/* Each call on one record, ring and row. */
static void each_with_row(rowed *r) {
    static const uint64_t counts[] = {2, 6};
    add_row(r, 6);
    run_row(r, counts, 2);
    total_row(r, 7);
}

/* The order of the refusals: all of them hold at first, and then one less each time. */
static void rows_refused(void) {
    static const uint64_t items[] = {3, 4, 5, 5, 0, 1, 5};
    rowed r;
    uprzezar_book good;
    open_rowed(&r, 5, 6, 10);
    run_row(&r, items, sizeof items / sizeof *items);
    good = uprzezar_rest(r.book).book;
    r.book = good;
    r.book.phase = 2;
    r.bytes = 0;
    r.entries = 0;
    each_with_row(&r);
    r.book = good;
    each_with_row(&r);
    r.bytes = 1;
    each_with_row(&r);
    r.entries = 1;
    each_with_row(&r);
    r.book = uprzezar_wake(good).book;
    each_with_row(&r);
    r.bytes = 0;
    r.entries = 0;
    open_row(&r, 31);
    open_row(&r, 10);
    r.bytes = 1;
    open_row(&r, 10);
}

/* The row's entry is of the lap before: at window 2 it must not be read. */
static void lap_before(void) {
    static const uint64_t items[] = {1, 1, 0};
    rowed r;
    open_rowed(&r, 1, 2, 1);
    run_row(&r, items, 3);
    total_row(&r, 2);
}

/* Items up to the bound, without a short period. */
static uint64_t item_at(uint64_t i, uint64_t bound) {
    return i * i % 1009 % (bound + 1);
}

/* So many items with a row; then, over all windows, the largest answers, and how many figures are other than uprzezar_total's. */
static void all_windows(uint64_t bound, uint64_t length, uint64_t tolerance, uint64_t items) {
    uprzezar_summed most = {0, 0, 0, 0};
    uint64_t i;
    uint64_t others = 0;
    rowed r;
    open_rowed(&r, bound, length, tolerance);
    for (i = 0; i < items; i++)
        r.book = uprzezar_add_row(r.book, r.ring, r.bytes, r.row, r.entries, item_at(i, bound)).book;
    print_rowed("after them", 0, 0, r.book, &r);
    for (i = 0; i <= r.book.kept; i++) {
        uprzezar_summed a = uprzezar_total_row(r.book, r.ring, r.bytes, r.row, r.entries, i);
        most.figure = a.figure > most.figure ? a.figure : most.figure;
        most.fields = a.fields > most.fields ? a.fields : most.fields;
        most.sums = a.sums > most.sums ? a.sums : most.sums;
        others += a.figure != uprzezar_total(r.book, r.ring, r.bytes, i).figure;
    }
    printf("bound %" PRIu64 ", length %" PRIu64 ", tolerance %" PRIu64 ", %" PRIu64 " items: at most figure %" PRIu64 ", fields %" PRIu64
           ", sums %" PRIu64 "; other figures: %" PRIu64 "; the entry behind all: %" PRIu32 "\n",
           bound, length, tolerance, items, most.figure, most.fields, most.sums, others, r.row[UPRZEZAR_ROW_MOST]);
}

/* Two windows with these numbers in the row, whatever its ring holds. */
static void other_numbers(rowed *r, uint32_t first, uint32_t second, uint32_t third) {
    r->row[0] = first;
    r->row[1] = second;
    r->row[2] = third;
    total_row(r, 129);
    total_row(r, 130);
}

/* 65 slots of two items: two whole groups and one of a single slot. */
static void three_groups(void) {
    static const uint64_t windows[] = {1, 2, 64, 73, 74, 75, 76, 129, 130};
    uint64_t counts[205];
    rowed r;
    size_t i;
    open_rowed(&r, 1, 130, 2);
    for (i = 0; i < 205; i++)
        counts[i] = item_at(i, 1);
    r.entries = 2;
    run_row(&r, counts, 205);
    r.entries = 3;
    run_row(&r, counts, 205);
    for (i = 0; i < sizeof windows / sizeof *windows; i++)
        total_row(&r, windows[i]);
    /* the sum of the slots comes out below 0, which counts as 0 and leaves the carry; then above all that the ring could hold */
    other_numbers(&r, 5, UINT32_MAX, 7);
    other_numbers(&r, UINT32_MAX, 0, UINT32_MAX);
    r.entries = 2;
    total_row(&r, 130);
    add_row(&r, 1);
}

static void rows(void) {
    row_of_case_a();
    rows_refused();
    lap_before();
    three_groups();
    all_windows(1, 65, 1, 100);
    all_windows(255, 200, 1, 297);
    all_windows(1, 4096, 1, 4096);
    all_windows(1, 4096, 1, 5983);
}

/* The record of a coarser book, the second ring's first bytes and the row's first entries. */
static void print_coarser(const char *call, uprzezar_coarser a, const rowed *second) {
    uprzezar_book b = a.book;
    printf("%s: refusal %u, bytes %" PRIu64 ": tolerance %" PRIu64 ", carry %" PRIu64 ", phase %" PRIu64 ", kept %" PRIu64 ", head %" PRIu64
           ", resting %" PRIu64 ", second ring %02x %02x, row %" PRIu32 " %" PRIu32 "\n",
           call, a.refusal, a.bytes, b.tolerance, b.carry, b.phase, b.kept, b.head, b.resting, second->ring[0], second->ring[1],
           second->row[0], second->row[1]);
}

/* Makes a book coarser twice over, without a row and with one, each time in a second ring of ones; what comes back goes on with the row. */
static void coarsen(uprzezar_book b, const uint8_t *ring, size_t ring_bytes, uint64_t times, rowed *second) {
    uprzezar_coarser a;
    memset(second->ring, 0xff, sizeof second->ring);
    memset(second->row, 0xff, sizeof second->row);
    a = uprzezar_coarsen(b, ring, ring_bytes, times, second->ring, second->bytes);
    print_coarser("coarsen", a, second);
    memset(second->ring, 0xff, sizeof second->ring);
    a = uprzezar_coarsen_row(b, ring, ring_bytes, times, second->ring, second->bytes, second->row, second->entries);
    print_coarser("coarsen_row", a, second);
    second->book = a.book;
}

/* Case A, by 2 and by 3; the mark is carried over; and the old book goes on in its own ring as if nothing had been. */
static void coarser_case_a(void) {
    static const uint64_t items[] = {3, 4, 5, 5, 0, 1, 5};
    static const uint64_t more[] = {2, 5, 5, 4, 6};
    uint8_t ring[2] = {0xff, 0xff};
    uprzezar_book b = uprzezar_open(5, 6, 10, ring, 1).book;
    rowed r;
    size_t i;
    b = ran(uprzezar_run(b, ring, 1, items, sizeof items / sizeof *items), ring);
    r.bytes = 1;
    r.entries = 1;
    coarsen(b, ring, 1, 2, &r);
    for (i = 0; i <= 6; i++)
        total_row(&r, i);
    for (i = 0; i < sizeof more / sizeof *more; i++)
        add_row(&r, more[i]);
    for (i = 0; i <= 7; i++)
        total_row(&r, i);
    coarsen(b, ring, 1, 3, &r);
    run_row(&r, more, 4);
    total_row(&r, 6);
    coarsen(uprzezar_rest(b).book, ring, 1, 2, &r);
    add_row(&r, 2);
    r.book = uprzezar_wake(r.book).book;
    add_row(&r, 2);
    b.resting = UINT64_MAX;
    coarsen(b, ring, 1, 2, &r);
    b.resting = 0;
    state(uprzezar_add(b, ring, 1, 2), ring);
    printf("the byte behind the ring: %02x\n", ring[1]);
}

/* The order of the refusals: all of them hold at first, and then one less each time. Then a tolerance that is no multiple of the bound. */
static void coarsen_refused(void) {
    static const uint64_t items[] = {3, 4, 5, 5, 0, 1, 5};
    uint8_t ring[1];
    uprzezar_book b = uprzezar_open(5, 6, 10, ring, 1).book;
    uprzezar_book none;
    rowed r;
    b = ran(uprzezar_run(b, ring, 1, items, sizeof items / sizeof *items), ring);
    none = b;
    none.phase = 2;
    r.bytes = 0;
    r.entries = 0;
    coarsen(none, ring, 0, 17, &r);
    coarsen(b, ring, 0, 17, &r);
    coarsen(b, ring, 1, 17, &r);
    coarsen(b, ring, 1, 4, &r);
    coarsen(b, ring, 1, 3, &r);
    r.bytes = 1;
    coarsen(b, ring, 1, 3, &r);
    r.entries = 1;
    coarsen(b, ring, 1, 3, &r);
    coarsen(b, ring, 1, 0, &r);
    coarsen(b, ring, 1, 1, &r);
    coarsen(b, ring, 1, UINT64_MAX, &r);
    b = uprzezar_open(5, 6, 11, ring, 1).book;
    coarsen(b, ring, 1, 2, &r);
}

/* So many items, so many times the tolerance, and some items more; then, over all windows that are kept, by how much a figure is short of the
   true total at most, how many are above it, and how many are others by the row. The first ring is as it was. */
static void coarser_windows(uint64_t bound, uint64_t length, uint64_t tolerance, uint64_t items, uint64_t times, uint64_t more) {
    uint64_t i;
    uint64_t held = 0;
    uint64_t most = 0;
    uint64_t above = 0;
    uint64_t others = 0;
    uint8_t before_it[512];
    rowed old;
    rowed r;
    open_rowed(&old, bound, length, tolerance);
    for (i = 0; i < items; i++)
        old.book = uprzezar_add_row(old.book, old.ring, old.bytes, old.row, old.entries, item_at(i, bound)).book;
    memcpy(before_it, old.ring, sizeof before_it);
    r.bytes = uprzezar_shape(bound, length, times * tolerance).shape.bytes;
    r.entries = UPRZEZAR_ROW_MOST;
    coarsen(old.book, old.ring, old.bytes, times, &r);
    for (i = items; i < items + more; i++)
        r.book = uprzezar_add_row(r.book, r.ring, r.bytes, r.row, r.entries, item_at(i, bound)).book;
    for (i = 0; i <= r.book.kept; i++) {
        uint64_t total = uprzezar_total(r.book, r.ring, r.bytes, i).figure;
        held += i == 0 ? 0 : item_at(items + more - i, bound);
        above += total > held;
        most = total <= held && held - total > most ? held - total : most;
        others += total != uprzezar_total_row(r.book, r.ring, r.bytes, r.row, r.entries, i).figure;
    }
    printf("bound %" PRIu64 ", length %" PRIu64 ", tolerance %" PRIu64 ", %" PRIu64 " items, %" PRIu64 " times, %" PRIu64
           " items more: kept %" PRIu64 ", short by at most %" PRIu64 "; above: %" PRIu64 ", other figures: %" PRIu64
           "; the byte behind the second ring: %02x, the entry behind all: %" PRIu32 "; the first ring is %s\n",
           bound, length, tolerance, items, times, more, r.book.kept, most, above, others, r.ring[r.bytes], r.row[UPRZEZAR_ROW_MOST],
           memcmp(before_it, old.ring, sizeof before_it) == 0 ? "as it was" : "another");
}

static void coarser(void) {
    coarser_case_a();
    coarsen_refused();
    coarser_windows(600, 1440, 3600, 1000, 2, 0);
    coarser_windows(600, 1440, 3600, 2000, 2, 100);
    coarser_windows(600, 1440, 3600, 2000, 16, 100);
    coarser_windows(1, 4096, 1, 5983, 2, 0);
    coarser_windows(1, 4096, 1, 5983, 16, 3000);
}

/* A book with a ring, a row and entries for slot numbers, of which so many are lent. */
typedef struct {
    rowed lent;
    uint32_t numbers[301];
    size_t number_entries;
} dipped;

/* Sets every entry to 9, and how many are lent. */
static void nines(dipped *d, size_t number_entries) {
    size_t i;
    for (i = 0; i < sizeof d->numbers / sizeof *d->numbers; i++)
        d->numbers[i] = 9;
    d->number_entries = number_entries;
}

/* The record, the ring's first bytes, the first slot numbers and the row's first entries. */
static void print_salvaged(const char *call, uprzezar_salvaged a, const dipped *d) {
    uprzezar_book b = a.book;
    size_t i;
    printf("%s: refusal %u, count %" PRIu64 ": carry %" PRIu64 ", phase %" PRIu64 ", kept %" PRIu64 ", head %" PRIu64 ", resting %" PRIu64
           ", ring %02x %02x %02x, numbers",
           call, a.refusal, a.count, b.carry, b.phase, b.kept, b.head, b.resting, d->lent.ring[0], d->lent.ring[1], d->lent.ring[2]);
    for (i = 0; i < 6; i++)
        printf(" %" PRIu32, d->numbers[i]);
    printf(", row %" PRIu32 " %" PRIu32 "\n", d->lent.row[0], d->lent.row[1]);
}

/* Salvages a copy without its row, and then the ring with its row, both as they were scrambled; what comes back goes on with the row. */
static void salvage(dipped *d) {
    rowed *r = &d->lent;
    dipped own = *d;
    uprzezar_salvaged a = uprzezar_salvage(r->book, own.lent.ring, r->bytes, own.numbers, d->number_entries);
    print_salvaged("salvage", a, &own);
    a = uprzezar_salvage_row(r->book, r->ring, r->bytes, d->numbers, d->number_entries, r->row, r->entries);
    print_salvaged("salvage_row", a, d);
    r->book = a.book;
}

/* The book of "A ring put right" in docs/SCOPE.md after its items, its ring scrambled, with all that it takes lent. */
static void scramble(dipped *d) {
    static const uint64_t items[] = {9, 4, 0, 7, 3, 8};
    rowed *r = &d->lent;
    open_rowed(r, 9, 5, 2);
    r->bytes = 2;
    r->entries = 1;
    run_row(r, items, sizeof items / sizeof *items);
    r->ring[0] = 0x98;
    r->ring[1] = 0x73;
    nines(d, 6);
}

/* It is put right, put right again, and goes on; then with just so many entries as slots, and at rest. */
static void ring_put_right(void) {
    static const uint64_t more[] = {0, 9, 1, 8};
    dipped d;
    size_t i;
    scramble(&d);
    salvage(&d);
    for (i = 0; i <= 3; i++)
        total_row(&d.lent, i);
    salvage(&d);
    add_row(&d.lent, 6);
    total_row(&d.lent, 3);
    for (i = 0; i < sizeof more / sizeof *more; i++)
        add_row(&d.lent, more[i]);
    for (i = 0; i <= 5; i++)
        total_row(&d.lent, i);
    scramble(&d);
    d.number_entries = 5;
    d.lent.book.resting = UINT64_MAX;
    salvage(&d);
}

/* The same book after two items, with a scrambled slot that no block was written into yet: what is kept stays. */
static void kept_stays(void) {
    dipped d;
    open_rowed(&d.lent, 9, 5, 2);
    d.lent.bytes = 2;
    d.lent.entries = 1;
    add_row(&d.lent, 9);
    add_row(&d.lent, 4);
    uprzezar_ring_write(3, 5, d.lent.ring, 2, 3, 7);
    nines(&d, 5);
    salvage(&d);
    total_row(&d.lent, 2);
}

/* The order of the refusals: all of them hold at first, and then one less each time. */
static void salvage_refused(void) {
    dipped d;
    uprzezar_book good;
    scramble(&d);
    good = d.lent.book;
    d.lent.book.phase = 1;
    d.lent.bytes = 1;
    d.lent.entries = 0;
    d.number_entries = 4;
    salvage(&d);
    d.lent.book = good;
    salvage(&d);
    d.lent.bytes = 2;
    salvage(&d);
    d.number_entries = 5;
    salvage(&d);
    d.lent.entries = 1;
    salvage(&d);
}

/* Case A, whose tolerance is at least its bound, with a ring of ones: no slot can be seen to be scrambled, and the figures say nothing. */
static void nothing_seen(void) {
    static const uint64_t items[] = {3, 4, 5, 5, 0, 1, 5};
    dipped d;
    open_rowed(&d.lent, 5, 6, 10);
    d.lent.bytes = 1;
    d.lent.entries = 1;
    run_row(&d.lent, items, sizeof items / sizeof *items);
    d.lent.ring[0] = 0xff;
    nines(&d, 3);
    salvage(&d);
    total_row(&d.lent, 6);
}

/* 300 slots of 7 bits, of which one in so many is scrambled to 127 after 450 items; then some items more. Prints how many slot numbers are
   in another place than they should be, and then, over all windows that are kept, by how much a figure is short of the true total at most, how
   many are above it, and how many are others by the row. */
static void salvaged_windows(uint64_t every, uint64_t more) {
    uint64_t slot;
    uint64_t i;
    uint64_t at = 0;
    uint64_t held = 0;
    uint64_t most = 0;
    uint64_t above = 0;
    uint64_t others = 0;
    uint64_t misplaced = 0;
    dipped d;
    rowed *r = &d.lent;
    open_rowed(r, 200, 300, 3);
    for (i = 0; i < 450; i++)
        r->book = uprzezar_add_row(r->book, r->ring, r->bytes, r->row, r->entries, item_at(i, 200)).book;
    for (slot = 0; slot < 300; slot += every)
        uprzezar_ring_write(7, 300, r->ring, r->bytes, slot, 127);
    nines(&d, 301);
    salvage(&d);
    for (i = 0; i < 300; i++) {
        slot = (r->book.head + i) % 300;
        if (slot % every == 0)
            misplaced += d.numbers[at++] != slot;
    }
    for (i = 450; i < 450 + more; i++)
        r->book = uprzezar_add_row(r->book, r->ring, r->bytes, r->row, r->entries, item_at(i, 200)).book;
    for (i = 0; i <= r->book.kept; i++) {
        uint64_t total = uprzezar_total(r->book, r->ring, r->bytes, i).figure;
        held += i == 0 ? 0 : item_at(450 + more - i, 200);
        above += total > held;
        most = total <= held && held - total > most ? held - total : most;
        others += total != uprzezar_total_row(r->book, r->ring, r->bytes, r->row, r->entries, i).figure;
    }
    printf("one slot in %" PRIu64 " scrambled, %" PRIu64 " items more: kept %" PRIu64 ", misplaced %" PRIu64 ", short by at most %" PRIu64
           "; above: %" PRIu64 ", other figures: %" PRIu64 "; the byte behind the ring: %02x, the number behind all: %" PRIu32
           ", the entry behind all: %" PRIu32 "\n",
           every, more, r->book.kept, misplaced, most, above, others, r->ring[263], d.numbers[300], r->row[10]);
}

static void salvages(void) {
    ring_put_right();
    kept_stays();
    salvage_refused();
    nothing_seen();
    salvaged_windows(1, 0);
    salvaged_windows(1, 100);
    salvaged_windows(70, 0);
    salvaged_windows(70, 300);
    salvaged_windows(300, 20);
}

/* Two zones and one byte behind their stretches, of which so many bytes are lent. */
typedef struct {
    uprzezar_book zones[2];
    uint8_t rings[3];
    size_t bytes;
} pair;

/* Zone 0 is case A; zone 1 is opened in the byte behind it. */
static void open_pair(pair *z) {
    static const uint64_t items[] = {3, 4, 5, 5, 0, 1, 5};
    z->bytes = 2;
    memset(z->rings, 0xff, sizeof z->rings);
    z->zones[0] = uprzezar_open(5, 6, 10, z->rings, 1).book;
    z->zones[0] = uprzezar_run(z->zones[0], z->rings, 1, items, sizeof items / sizeof *items).book;
    z->zones[1] = uprzezar_open(3, 4, 2, z->rings + 1, 1).book;
}

static void print_pair(const char *call, uprzezar_zoned a, const pair *z) {
    size_t i;
    printf("%s: refusal %u, zone %" PRIu64 ":", call, a.refusal, a.zone);
    for (i = 0; i < 2; i++) {
        uprzezar_book b = z->zones[i];
        printf(" %" PRIu64 " %" PRIu64 " %" PRIu64 ", carry %" PRIu64 ", phase %" PRIu64 ", kept %" PRIu64 ", head %" PRIu64
               ", resting %" PRIu64 ";",
               b.bound, b.length, b.tolerance, b.carry, b.phase, b.kept, b.head, b.resting);
    }
    printf(" rings %02x %02x %02x\n", z->rings[0], z->rings[1], z->rings[2]);
}

/* Adds two counts, or the first one alone, to the two zones. */
static void add_to_pair(pair *z, uint64_t first, uint64_t second, size_t how_many) {
    uint64_t counts[2];
    counts[0] = first;
    counts[1] = second;
    print_pair("zones_add", uprzezar_zones_add(z->zones, 2, z->rings, z->bytes, counts, how_many), z);
}

static void add_to_zone(pair *z, uint64_t zone, uint64_t item) {
    print_pair("zone_add", uprzezar_zone_add(z->zones, 2, z->rings, z->bytes, zone, item), z);
}

/* Both at once; what is refused takes nothing. Then the order of the refusals: all of them hold at first, and then one less each time. */
static void all_of_two_zones(void) {
    pair z;
    open_pair(&z);
    add_to_pair(&z, 2, 3, 2);
    open_pair(&z);
    add_to_pair(&z, 6, 4, 2);
    add_to_pair(&z, 2, 4, 2);
    z.zones[0] = uprzezar_rest(z.zones[0]).book;
    z.zones[1].phase = 1;
    z.bytes = 1;
    add_to_pair(&z, 2, 4, 1);
    add_to_pair(&z, 2, 4, 2);
    z.zones[1].phase = 0;
    add_to_pair(&z, 2, 4, 2);
    z.bytes = 2;
    add_to_pair(&z, 2, 4, 2);
    z.zones[0] = uprzezar_wake(z.zones[0]).book;
    add_to_pair(&z, 2, 4, 2);
    z.zones[1] = uprzezar_rest(z.zones[1]).book;
    add_to_pair(&z, 6, 4, 2);
    add_to_pair(&z, 2, 4, 2);
    z.zones[1] = uprzezar_wake(z.zones[1]).book;
    z.bytes = 3;
    add_to_pair(&z, 2, 3, 2);
}

/* One after the other, the second one first: all bytes are lent, and the one behind the stretches is left alone. Then the refusals, one less
   each time: 8 and 4 are asked of both zones, 17 and 7 of the one alone. */
static void each_of_two_zones(void) {
    pair z;
    open_pair(&z);
    z.bytes = 3;
    add_to_zone(&z, 1, 3);
    add_to_zone(&z, 0, 2);
    open_pair(&z);
    z.zones[0] = uprzezar_rest(z.zones[0]).book;
    z.zones[1].resting = UINT64_MAX;
    z.zones[0].phase = 2;
    z.bytes = 1;
    add_to_zone(&z, 2, 4);
    add_to_zone(&z, UINT64_MAX, 4);
    add_to_zone(&z, 1, 4);
    z.zones[0].phase = 1;
    add_to_zone(&z, 1, 4);
    z.bytes = 2;
    add_to_zone(&z, 1, 4);
    z.zones[1] = uprzezar_wake(z.zones[1]).book;
    add_to_zone(&z, 1, 4);
    add_to_zone(&z, 1, 3);
    add_to_zone(&z, 0, 2);
}

/* As many zones as there may be, with one record and one count more; beside each of them a single book in a ring of its own. */
typedef struct {
    uprzezar_book zones[UPRZEZAR_ZONES_MOST + 1];
    uint8_t rings[UPRZEZAR_ZONES_MOST * 32];
    size_t bytes;
    uint64_t counts[UPRZEZAR_ZONES_MOST + 1];
    uprzezar_book single[UPRZEZAR_ZONES_MOST];
    uint8_t ring[UPRZEZAR_ZONES_MOST][32];
} many;

/* Bounds are 1 to 96, lengths 5 to 34, blocks of 1 to 4 items, slots of 1 to 5 bits; the last record is that of zone 0 once more. */
static void open_many(many *m) {
    size_t i;
    m->bytes = 0;
    memset(m->rings, 0xff, sizeof m->rings);
    memset(m->ring, 0xff, sizeof m->ring);
    for (i = 0; i < UPRZEZAR_ZONES_MOST; i++) {
        uint64_t bound = i + 1;
        uint64_t length = 5 + i % 30;
        uint64_t tolerance = 1 + item_at(i, 5 * bound - 1);
        m->zones[i] = uprzezar_open(bound, length, tolerance, m->rings + m->bytes, 32).book;
        m->single[i] = uprzezar_open(bound, length, tolerance, m->ring[i], 32).book;
        m->bytes += uprzezar_shape(bound, length, tolerance).shape.bytes;
    }
    m->zones[UPRZEZAR_ZONES_MOST] = m->zones[0];
}

/* How many records are others than those of the single books, and how many bytes. */
static void print_many(const char *what, uprzezar_zoned a, const many *m) {
    uint64_t records = 0;
    uint64_t bytes = 0;
    size_t at = 0;
    size_t i;
    for (i = 0; i < UPRZEZAR_ZONES_MOST; i++) {
        uprzezar_book b = m->zones[i];
        size_t own = uprzezar_shape(b.bound, b.length, b.tolerance).shape.bytes;
        size_t j;
        records += memcmp(&b, &m->single[i], sizeof b) != 0;
        for (j = 0; j < own; j++)
            bytes += m->rings[at + j] != m->ring[i][j];
        at += own;
    }
    printf("%s: refusal %u, zone %" PRIu64 "; in %zu bytes; other records: %" PRIu64 ", other bytes: %" PRIu64
           "; the byte behind the stretches: %02x\n",
           what, a.refusal, a.zone, at, records, bytes, m->rings[at]);
}

/* The counts of a round; the last is above every bound. */
static void count_many(many *m, uint64_t round) {
    size_t i;
    for (i = 0; i < UPRZEZAR_ZONES_MOST; i++)
        m->counts[i] = item_at(round * UPRZEZAR_ZONES_MOST + i, i + 1);
    m->counts[UPRZEZAR_ZONES_MOST] = UINT64_MAX;
}

/* So many rounds; in every fifth each zone is added to by itself, the last one first. */
static void many_rounds(many *m, uint64_t rounds) {
    uprzezar_zoned a = {0, 0};
    uint64_t refused = 0;
    uint64_t round;
    size_t i;
    for (round = 0; round < rounds; round++) {
        count_many(m, round);
        if (round % 5 < 4) {
            a = uprzezar_zones_add(m->zones, UPRZEZAR_ZONES_MOST, m->rings, m->bytes + 1, m->counts, UPRZEZAR_ZONES_MOST);
            refused += a.refusal != 0;
        }
        for (i = UPRZEZAR_ZONES_MOST; i-- > 0;) {
            if (round % 5 == 4) {
                a = uprzezar_zone_add(m->zones, UPRZEZAR_ZONES_MOST, m->rings, m->bytes, i, m->counts[i]);
                refused += a.refusal != 0;
            }
            m->single[i] = uprzezar_add(m->single[i], m->ring[i], 32, m->counts[i]).book;
        }
    }
    printf("96 zones, %" PRIu64 " rounds: %" PRIu64 " calls refused\n", rounds, refused);
    print_many("after them", a, m);
}

static void many_zones(void) {
    many m;
    uprzezar_zoned a;
    open_many(&m);
    count_many(&m, 0);
    print_many("no zones", uprzezar_zones_add(m.zones, 0, m.rings, m.bytes, m.counts, 0), &m);
    many_rounds(&m, 200);
    a = uprzezar_zones_add(m.zones, UPRZEZAR_ZONES_MOST + 1, m.rings, sizeof m.rings, m.counts, UPRZEZAR_ZONES_MOST + 1);
    print_many("97 zones", a, &m);
    a = uprzezar_zone_add(m.zones, UPRZEZAR_ZONES_MOST + 1, m.rings, sizeof m.rings, 0, 1);
    print_many("one of 97 zones", a, &m);
    a = uprzezar_zones_add(m.zones, UPRZEZAR_ZONES_MOST, m.rings, m.bytes, m.counts, UPRZEZAR_ZONES_MOST + 1);
    print_many("97 counts", a, &m);
    m.counts[UPRZEZAR_ZONES_MOST - 1] = UPRZEZAR_ZONES_MOST + 1;
    a = uprzezar_zones_add(m.zones, UPRZEZAR_ZONES_MOST, m.rings, m.bytes - 1, m.counts, UPRZEZAR_ZONES_MOST);
    print_many("a byte too few", a, &m);
    a = uprzezar_zones_add(m.zones, UPRZEZAR_ZONES_MOST, m.rings, m.bytes, m.counts, UPRZEZAR_ZONES_MOST);
    print_many("the last count above its bound", a, &m);
}

static void zones(void) {
    all_of_two_zones();
    each_of_two_zones();
    many_zones();
}

static void image(const uint8_t *bytes, size_t count) {
    uprzezar_numbers n = uprzezar_header(bytes, count);
    printf("image: refusal %u, %zu x %zu, maxval %zu, raster from %zu, used %zu\n", n.refusal, n.width, n.height, n.maxval, n.start,
           n.used);
}

/* The bytes of a text without the 0 behind it. */
#define IMAGE(text) image((const uint8_t *)(text), sizeof(text) - 1)

static void comments(void) {
    IMAGE("P5\n# c\n2 2\n255\n....");
    IMAGE("P5\n1#c\n2 1 255 #...........");
    IMAGE("P5\n2 2\n255#c\r\n....");
    IMAGE("P5#c\n2 2 255\n....");
    IMAGE("P5\n2 2\n255# c");
}

/* With maxval 4,095 and the allowance 12 a difference of 193 counts and one of 192 does not. */
static void two_bytes(void) {
    static const uint8_t one[] = "P5 3 1 4095 \0\0\0\0\017\377";
    static const uint8_t two[] = "P5 3 1 4095 \0\300\0\301\017\77";
    static const uint8_t black[] = "P4 3 1 \100";
    static const uint8_t white[] = "P4 3 1 \277";
    uprzezar_raster_place p = uprzezar_raster(two, sizeof two);
    uprzezar_answer s = uprzezar_score(600, 12, one, sizeof one, two, sizeof two);
    uprzezar_answer without = uprzezar_score_masked(600, 12, one, sizeof one, two, sizeof two, black, sizeof black);
    uprzezar_answer alone = uprzezar_score_masked(600, 12, one, sizeof one, two, sizeof two, white, sizeof white);
    image(one, sizeof one);
    printf("raster: refusal %u, %zu bytes from %zu\n", p.refusal, p.length, p.offset);
    printf("score: refusal %u, %" PRIu64 "; with its pixel black: refusal %u, %" PRIu64 "; with all others black: refusal %u, %" PRIu64 "\n",
           s.refusal, s.value, without.refusal, without.value, alone.refusal, alone.value);
    IMAGE("P5 1 1 256 \1\0");
    IMAGE("P5 1 1 256 \1\1");
    IMAGE("P5 1 1 65535 \377\377");
    IMAGE("P5 2 1 65535 \377\377\377");
    IMAGE("P5 1 1 65536 \377\377");
}

static void pictures(void) {
    static const uint8_t one[] = "P5\n2 2\n255\n\0\0\0";
    static const uint8_t two[] = "P5 2 2 255 \024\014\015";
    uprzezar_raster_place p = uprzezar_raster(two, sizeof two);
    uprzezar_answer s = uprzezar_score(600, 12, one, sizeof one, two, sizeof two);
    uprzezar_answer cut = uprzezar_score(600, 12, one, sizeof one - 1, two, sizeof two);
    image(one, sizeof one);
    printf("raster: refusal %u, %zu bytes from %zu\n", p.refusal, p.length, p.offset);
    printf("score: refusal %u, %" PRIu64 "; of an image cut short: refusal %u, %" PRIu64 "\n", s.refusal, s.value, cut.refusal, cut.value);
}

/* Ten columns and two rows. All pixels change, but column 8 of the first row and column 9 of the second by no more than the allowance. The
   second image comes as it should be, with another maxval, and with a pixel above its own. */
static const uint8_t before[32] = "P5 10 2 255 ";
static const uint8_t after[3][33] = {"P5 10 2 255 aaaaaaaa\014aaaaaaaaaa\014", "P5 10 2 254 ", "P5 10 2 9 \377"};

/* A mask; where its text is shorter than the bytes that are lent, the others are 0. */
typedef struct {
    uint8_t bytes[24];
    size_t count;
} mask;

static uprzezar_answer under(const mask *m, uint64_t bound, const uint8_t second[33]) {
    return uprzezar_score_masked(bound, 12, before, sizeof before, second, 33, m->bytes, m->count);
}

static void masks(void) {
    static const mask tried[] = {
        {"P4 10 2\n", 12},                      /* all white */
        {"P4 10 2\n\377\377\377\377", 12},      /* all black */
        {"P4 10 2\n\0\77\0\77", 12},            /* all white, with padding of ones */
        {"P4 10 2\n\200\177\1\200", 14},        /* black in columns 0 and 9 of the first row, 7 and 8 of the second; two bytes behind */
        {"P4\n# trees\n10#\r 2\n\377\300", 22}, /* with comments; the first row is black */
        {"P4 10 2\n", 11},                      /* cut short */
        {"P4 16 2\n", 12},                      /* of another width that takes as many bytes */
        {"P4 10 1\n", 12},                      /* of another height */
        {"P5 10 2 255 ", 24},                   /* an image in the place of a mask */
        {"P4 10 1025\n", 24},                   /* too high */
        {"P4 1024 1024\n", 24},                 /* too large, and cut short */
    };
    uprzezar_answer s = uprzezar_score(600, 12, before, sizeof before, after[0], sizeof after[0]);
    size_t i;
    printf("without a mask: refusal %u, %" PRIu64 "\n", s.refusal, s.value);
    for (i = 0; i < sizeof tried / sizeof *tried; i++) {
        s = under(&tried[i], 600, after[0]);
        printf("mask %zu: refusal %u, %" PRIu64 "; with bound 9: %" PRIu64, i + 1, s.refusal, s.value, under(&tried[i], 9, after[0]).value);
        printf("; refusals of images that differ: %u, of a bad one: %u, with bound 0: %u\n", under(&tried[i], 600, after[1]).refusal,
               under(&tried[i], 600, after[2]).refusal, under(&tried[i], 0, after[2]).refusal);
    }
}

/* Frames that are lit or dark: so many bytes are lent, and there are said to be so many frames. */
typedef struct {
    const uint8_t *bytes;
    size_t lent;
    size_t length;
} frames;

/* Each rank and each place is asked for with these steps too. */
static const size_t steps[] = {0, 1, 2, 3, SIZE_MAX};

static void print_lit(const char *what, size_t which, uprzezar_lit a) {
    printf("%s %zu: refusal %u, %zu", what, which, a.refusal, a.value);
}

static void rank(const frames *f, size_t i) {
    size_t s;
    printf("%zu frames, ", f->length);
    print_lit("rank of", i, uprzezar_rank(f->bytes, f->lent, f->length, i));
    for (s = 0; s < sizeof steps / sizeof *steps; s++)
        print_lit("; with step", steps[s], uprzezar_rank_coarse(f->bytes, f->lent, f->length, steps[s], i));
    printf("\n");
}

static void place(const frames *f, size_t k) {
    size_t s;
    printf("%zu frames, ", f->length);
    print_lit("place of lit frame", k, uprzezar_select(f->bytes, f->lent, f->length, k));
    for (s = 0; s < sizeof steps / sizeof *steps; s++)
        print_lit("; with step", steps[s], uprzezar_select_coarse(f->bytes, f->lent, f->length, steps[s], k));
    printf("\n");
}

/* The tables of "Twelve frames" in docs/SCOPE.md; then with the four bits behind them, and with one frame more than there are bits. */
static void twelve_frames(void) {
    static const uint8_t bytes[] = {0x2c, 0x9f};
    static const size_t numbers[] = {0, 2, 3, 4, 8, 9, 11, 12, 13, SIZE_MAX};
    frames f;
    size_t i;
    f.bytes = bytes;
    f.lent = sizeof bytes;
    f.length = 12;
    for (i = 0; i < sizeof numbers / sizeof *numbers; i++)
        rank(&f, numbers[i]);
    for (i = 0; i <= 6; i++)
        place(&f, i);
    place(&f, SIZE_MAX);
    f.length = 16;
    rank(&f, 16);
    place(&f, 6);
    f.length = 17;
    rank(&f, 0);
    place(&f, 1);
    f.lent = 1;
    f.length = 8;
    rank(&f, 8);
    place(&f, 4);
    f.lent = 0;
    rank(&f, 0);
    f.length = 0;
    rank(&f, 0);
    place(&f, 1);
}

/* As many frames as there may be, in each byte the 3rd, 5th and 6th lit; then one more, though it is lent, and the largest number. */
static void most_frames(void) {
    static uint8_t bytes[UPRZEZAR_FRAMES_MOST / 8 + 1];
    frames f;
    memset(bytes, 0x2c, sizeof bytes);
    f.bytes = bytes;
    f.lent = sizeof bytes;
    f.length = UPRZEZAR_FRAMES_MOST;
    rank(&f, 65533);
    rank(&f, 65536);
    place(&f, 24575);
    place(&f, 24576);
    place(&f, 24577);
    f.length = UPRZEZAR_FRAMES_MOST + 1;
    rank(&f, 1);
    place(&f, 1);
    f.length = SIZE_MAX;
    rank(&f, 1);
    place(&f, 1);
}

/* So many frames, and a step: how many ranks and places are others than those of a count, frame by frame, and how many with the step lie
   outside of what the header says of them. */
static void every_frame(size_t length, size_t step) {
    static uint8_t bytes[UPRZEZAR_FRAMES_MOST / 8];
    static size_t places[UPRZEZAR_FRAMES_MOST + 1];
    size_t lit = 0;
    size_t ranks = 0;
    size_t others = 0;
    size_t outside = 0;
    size_t i;
    for (i = 0; i < sizeof bytes; i++)
        bytes[i] = (uint8_t)item_at(i, 255);
    for (i = 0; i <= length; i++) {
        size_t coarse;
        if (i > 0 && (bytes[(i - 1) / 8] >> (7 - (i - 1) % 8) & 1) != 0) {
            places[++lit] = i;
            others += uprzezar_select(bytes, sizeof bytes, length, lit).value != i;
            coarse = uprzezar_select_coarse(bytes, sizeof bytes, length, step, lit).value;
            outside += coarse > i || coarse <= (lit > step ? places[lit - step] : 0);
        }
        ranks += uprzezar_rank(bytes, sizeof bytes, length, i).value != lit;
        coarse = uprzezar_rank_coarse(bytes, sizeof bytes, length, step, i).value;
        outside += coarse > lit || lit - coarse >= step;
    }
    printf("%zu frames, step %zu: %zu lit; other ranks: %zu, other places: %zu, outside of the step: %zu; refusals behind the last: %u, %u\n",
           length, step, lit, ranks, others, outside, uprzezar_rank(bytes, sizeof bytes, length, length + 1).refusal,
           uprzezar_select(bytes, sizeof bytes, length, lit + 1).refusal);
}

/* The places for k from 0 to 9, and for some that would be 1 if they were cut to fewer bits. */
static void in_byte(uint8_t byte) {
    size_t k;
    printf("in the byte %02x:", byte);
    for (k = 0; k <= 9; k++)
        printf(" %u", uprzezar_in_byte(byte, k));
    printf("; for larger k: %u %u %u %u\n", uprzezar_in_byte(byte, 257), uprzezar_in_byte(byte, 65537),
           uprzezar_in_byte(byte, ((size_t)1 << 32) + 1), uprzezar_in_byte(byte, SIZE_MAX));
}

static void lit_frames(void) {
    twelve_frames();
    most_frames();
    every_frame(1, 1);
    every_frame(63, 2);
    every_frame(64, 3);
    every_frame(65, 64);
    every_frame(1000, 7);
    every_frame(65535, 100);
    every_frame(65536, 10000);
    in_byte(0x2c);
    in_byte(0x00);
    in_byte(0x01);
    in_byte(0x80);
    in_byte(0xff);
}

/* The page's two images and its three ticks. */
typedef struct {
    const uint8_t *newest;
    size_t newest_bytes;
    const uint8_t *older;
    size_t older_bytes;
    uprzezar_ticks ticks;
} two_pictures;

/* The picture that is shown, and the bytes of its raster. */
static void show(uprzezar_book b, size_t ring_bytes, uint64_t window, uint64_t amount, const two_pictures *p) {
    static const char *const words[] = {"none", "newest", "older"};
    static const uint8_t ring[] = {0x40};
    uprzezar_shown s = uprzezar_show(b, ring, ring_bytes, window, amount, p->newest, p->newest_bytes, p->older, p->older_bytes, p->ticks);
    const uint8_t *bytes = s.picture == UPRZEZAR_OLDER ? p->older : p->newest;
    size_t i;
    printf("show with window %" PRIu64 ", amount %" PRIu64 ", tick %" PRIu32 ": refusal %u, %s, %zu bytes from %zu, age %" PRIu32 ", raster",
           window, amount, p->ticks.present, s.refusal, words[s.picture], s.length, s.offset, s.age);
    for (i = 0; i < s.length; i++)
        printf(" %02x", bytes[s.offset + i]);
    printf("\n");
}

/* The first table of the example in "Page", docs/SCOPE.md; at last the older picture, at the tick of the line before. */
static void shown(uprzezar_book b, two_pictures p) {
    show(b, 1, 4, 9, &p);
    show(b, 1, 4, 10, &p);
    show(b, 1, 4, 19, &p);
    show(uprzezar_rest(b).book, 1, 4, 9, &p);
    p.ticks.present = p.ticks.newest;
    show(b, 1, 4, 9, &p);
    p.ticks.present -= 1;
    show(b, 1, 4, 9, &p);
    show(b, 1, 4, 10, &p);
}

/* The second table, each fault with an amount for the newest picture and with one for the older; before all others the refusals 8 and 4. */
static void not_shown(uprzezar_book b, const two_pictures *good) {
    static const uint8_t too_large[] = "P5 3 1 15 \020\0\007";
    uprzezar_book none = b;
    two_pictures cut = *good;
    two_pictures bad = *good;
    two_pictures both;
    none.phase = 2;
    cut.newest_bytes -= 1;
    bad.older = too_large;
    both = bad;
    both.newest_bytes -= 1;
    show(b, 1, 4, 0, good);
    show(b, 1, 7, 9, good);
    show(b, 1, 4, 9, &cut);
    show(b, 1, 4, 19, &cut);
    show(b, 1, 4, 9, &bad);
    show(b, 1, 4, 19, &bad);
    show(b, 1, 4, 9, &both);
    show(b, 1, 7, 9, &both);
    show(b, 1, 7, 0, &both);
    show(b, 0, 7, 0, &both);
    show(none, 0, 7, 0, &both);
}

static void page(void) {
    static const uint8_t newest[] = "P5 2 2 255 \1\2\3\4";
    static const uint8_t older[] = "P5 3 1 15 \017\0\007";
    static const uprzezar_book b = {5, 6, 10, 13, 1, 6, 0, 0};
    two_pictures p;
    p.newest = newest;
    p.newest_bytes = sizeof newest - 1;
    p.older = older;
    p.older_bytes = sizeof older - 1;
    p.ticks.newest = 4294967290;
    p.ticks.older = 4294967000;
    p.ticks.present = 3;
    shown(b, p);
    not_shown(b, &p);
}

static void slots(void) {
    uint8_t ring[3] = {0xff, 0xff, 0xff};
    uint8_t cleared = uprzezar_ring_clear(5, 3, ring, sizeof ring);
    uint8_t wrote = uprzezar_ring_write(5, 3, ring, sizeof ring, 2, 19);
    uint8_t refused = uprzezar_ring_write(5, 3, ring, sizeof ring, 2, 32);
    uprzezar_answer read = uprzezar_ring_read(5, 3, ring, sizeof ring, 2);
    uprzezar_answer sum = uprzezar_ring_sum(5, 3, ring, sizeof ring, 0, 3);
    printf("ring: %u, %u, %u; %02x %02x %02x; slot 2 holds %" PRIu64 ", all three %" PRIu64 "\n", cleared, wrote, refused, ring[0],
           ring[1], ring[2], read.value, sum.value);
}

int main(void) {
    shapes();
    book();
    runs();
    rests();
    trends();
    rows();
    coarser();
    salvages();
    zones();
    pictures();
    two_bytes();
    comments();
    masks();
    lit_frames();
    page();
    slots();
    return 0;
}
