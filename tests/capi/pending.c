/* The table of requests as a C program sees it: each report, each number, and slots that stay as found. */
#include "chomkadieu.h"
#include "see.h"

#include <string.h>

enum { GUARD = 2, MOST = CK_MOST_PENDING + 1 };

#define TOP (UINT64_C(1) << 63)

/* Slots with guards before and behind them. */
static ck_slot room[GUARD + MOST + GUARD];
static ck_slot kept[MOST];
static ck_slot *const table = room + GUARD;

static ck_slot slot(uint64_t route, uint32_t domain, uint8_t seq, uint8_t write, uint32_t rank) {
    ck_slot s;
    memset(&s, 0, sizeof s);
    s.four.route = route, s.four.domain = domain, s.four.seq = seq, s.four.write = write, s.rank = rank;
    return s;
}

/* By the fields: what lies between them is nobody's. */
static int same(ck_slot a, ck_slot b) {
    return a.four.route == b.four.route && a.four.domain == b.four.domain && a.four.seq == b.four.seq && a.four.write == b.four.write &&
           a.rank == b.rank;
}

static int is(size_t at, uint64_t route, uint32_t domain, uint8_t seq, uint8_t write, uint32_t rank) {
    return same(table[at], slot(route, domain, seq, write, rank));
}

/* Are the guards as they were, and all slots but the first n? */
static int guarded(size_t n) {
    const ck_slot mark = slot(0x5c5c5c5c5c5c5c5c, 0x5c5c5c5c, 0x5c, 0x5c, 0x5c5c5c5c);
    for (size_t i = 0; i < sizeof room / sizeof *room; i++)
        if ((i < GUARD || i >= GUARD + n) && !same(room[i], mark)) return 0;
    return 1;
}

/* An empty table; no other slot is touched. */
static void clear(size_t n) {
    memset(room, 0x5c, sizeof room);
    ck_pending_clear(table, n);
}

static void keep(void) { memcpy(kept, table, sizeof kept); }

static int as_kept(void) {
    for (size_t i = 0; i < MOST; i++)
        if (!same(table[i], kept[i])) return 0;
    return 1;
}

static ck_entry entry(uint8_t kind, uint64_t route, uint32_t domain, uint32_t seq) {
    ck_entry e;
    memset(&e, 0, sizeof e);
    e.kind = kind, e.route = route, e.domain = domain, e.seq = seq;
    e.offset = e.code = e.len = e.port = e.config = e.unplug = CK_NONE;
    return e;
}

/* One step over the first n slots, and what it must report. */
static int steps(ck_entry e, size_t n, uint8_t report, size_t place) {
    ck_step_answer a = ck_pending_step(e, table, n);
    return a.number == CK_OK && a.report == report && a.place == place;
}

/* Does every call refuse the first n slots with a number, and leave them as they are? */
static int refused(size_t n, uint8_t number) {
    ck_entry entries[] = {entry(0, 1, 2, 3), entry(1, 1, 2, 3), entry(2, 1, 2, 3), entry(4, 1, 2, CK_NONE), entry(3, 1, 2, 3)};
    entries[4].dropped = 1;
    keep();
    for (size_t i = 0; i < sizeof entries / sizeof *entries; i++) {
        ck_step_answer a = ck_pending_step(entries[i], table, n);
        if (a.number != number || a.report || a.place || !as_kept()) return 0;
    }
    ck_count_answer w = ck_pending_waiting(table, n);
    ck_place_answer o = ck_pending_oldest(table, n, 1);
    return w.number == number && !w.count && o.number == number && !o.present && !o.place && as_kept();
}

/* Is the count so, and does each rank lie where the slots say? */
static int waits(size_t n, uint32_t count) {
    ck_count_answer w = ck_pending_waiting(table, n);
    if (w.number != CK_OK || w.count != count) return 0;
    for (uint32_t k = 1; k <= count; k++) {
        ck_place_answer o = ck_pending_oldest(table, n, k);
        if (o.number != CK_OK || o.present != 1 || o.place >= n || table[o.place].rank != k) return 0;
    }
    const uint32_t none[] = {0, count + 1, 65, 129, 257, 65537, UINT32_C(0x80000001), UINT32_MAX};
    for (size_t i = 0; i < sizeof none / sizeof *none; i++) {
        ck_place_answer o = ck_pending_oldest(table, n, none[i]);
        if (o.number != CK_OK || o.present || o.place) return 0;
    }
    return 1;
}

static void story(void) {
    clear(3);
    see(is(0, 0, 0, 0, 0, 0) && is(2, 0, 0, 0, 0, 0) && guarded(3) && waits(3, 0), "a table that is cleared");
    see(steps(entry(1, 0x301, 7, 9), 3, CK_PENDING_TAKEN, 0) && is(0, 0x301, 7, 9, 0, 1), "a read request is taken");
    see(steps(entry(3, 0x301, 7, 9), 3, CK_PENDING_TAKEN, 1) && is(1, 0x301, 7, 9, 1, 2), "a write request");
    see(steps(entry(1, 0x301, 7, 9), 3, CK_PENDING_TAKEN, 2) && is(2, 0x301, 7, 9, 0, 3) && waits(3, 3), "the first one again");
    keep();
    see(steps(entry(1, 0x301, 7, 10), 3, CK_PENDING_TURNED_AWAY, 0) && as_kept(), "a request that is turned away changes nothing");
    see(steps(entry(2, 0x301, 7, 10), 3, CK_PENDING_STRAY, 0) && as_kept(), "nor does a stray response");
    see(steps(entry(2, TOP | 0x301, 7, 9), 3, CK_PENDING_ANSWERED, 0), "the oldest read is answered");
    see(is(0, 0x301, 7, 9, 0, 0) && is(1, 0x301, 7, 9, 1, 1) && is(2, 0x301, 7, 9, 0, 2) && waits(3, 2), "it changes ranks alone");
    see(steps(entry(2, 0x301, 7, 9), 3, CK_PENDING_ANSWERED, 2) && waits(3, 1), "then the other read");
    see(steps(entry(2, 0x301, 7, 9), 3, CK_PENDING_STRAY, 0) && waits(3, 1), "a third response is stray");
    see(steps(entry(3, TOP | 0x502, 8, 10), 3, CK_PENDING_TAKEN, 0) && is(0, 0x502, 8, 10, 1, 2), "the first free slot is used again");
    see(steps(entry(4, 0x301, 7, 9), 3, CK_PENDING_ANSWERED, 1) && is(0, 0x502, 8, 10, 1, 1) && waits(3, 1), "the write is answered");
    see(guarded(3), "no slot else was touched");
}

/* Each of the four tells two requests apart. */
static void fours(void) {
    clear(2);
    ck_pending_step(entry(1, 1, 2, 3), table, 2);
    keep();
    see(steps(entry(2, 0, 2, 3), 2, CK_PENDING_STRAY, 0) && as_kept(), "another route");
    see(steps(entry(2, 1, 3, 3), 2, CK_PENDING_STRAY, 0) && as_kept(), "another domain");
    see(steps(entry(2, 1, 2, 4), 2, CK_PENDING_STRAY, 0) && as_kept(), "another seq");
    see(steps(entry(4, 1, 2, 3), 2, CK_PENDING_STRAY, 0) && as_kept(), "a write's response for a read");
    clear(1);
    see(steps(entry(3, UINT64_MAX, UINT32_MAX, 255), 1, CK_PENDING_TAKEN, 0) && is(0, TOP - 1, UINT32_MAX, 255, 1, 1), "the largest four");
    see(steps(entry(4, TOP - 1, UINT32_MAX, 255), 1, CK_PENDING_ANSWERED, 0), "is answered");
}

/* Entries that ask nothing of the table. */
static void others(void) {
    clear(2);
    ck_pending_step(entry(1, 1, 2, 3), table, 2);
    keep();
    const uint8_t kinds[] = {0, 5, 8, 12, 13, 200, 255};
    int all = 1;
    for (size_t i = 0; i < sizeof kinds; i++) all &= steps(entry(kinds[i], 1, 2, 3), 2, CK_PENDING_OTHER, 0) && as_kept();
    see(all, "kinds that are not 1 to 4");
    see(steps(entry(0, 1, 2, CK_NONE), 2, CK_PENDING_OTHER, 0), "other comes before no seq");
    const uint32_t wide[] = {CK_NONE, CK_NONE - 1, 256, 259};
    for (size_t i = 0; i < sizeof wide / sizeof *wide; i++)
        for (uint8_t kind = 1; kind < 5; kind++) all &= steps(entry(kind, 1, 2, wide[i]), 2, CK_PENDING_NO_SEQ, 0) && as_kept();
    see(all, "seq absent, or past its width");
    for (int kind = 0; kind < 256; kind++) {
        ck_entry e = entry((uint8_t)kind, 1, 2, kind % 3 ? 3 : CK_NONE);
        e.dropped = 1;
        all &= steps(e, 2, CK_PENDING_DROPPED, 0) && as_kept();
    }
    see(all, "a dropped packet of each kind, a response among them");
    ck_entry e = entry(2, 1, 2, 3);
    e.dropped = 2;
    see(steps(e, 2, CK_PENDING_ANSWERED, 0), "dropped counts if it is 1");
}

static void sizes(void) {
    int filled = 1, emptied = 1;
    for (size_t n = 1; n <= CK_MOST_PENDING; n++) {
        clear(n);
        for (size_t i = 0; i < n; i++) filled &= steps(entry(1, i, 0, 1), n, CK_PENDING_TAKEN, i);
        filled &= steps(entry(1, n, 0, 1), n, CK_PENDING_TURNED_AWAY, 0) && waits(n, (uint32_t)n) && guarded(n);
        for (size_t i = 0; i < n; i++) emptied &= steps(entry(2, i ^ 1, 0, 1), n, (i ^ 1) < n ? CK_PENDING_ANSWERED : CK_PENDING_STRAY, (i ^ 1) % n);
        emptied &= waits(n, (uint32_t)(n % 2)) && guarded(n);
    }
    see(filled, "each size: a table is full when no slot is free");
    see(emptied, "each size: slots are freed in another order");
    clear(MOST);
    see(refused(MOST, CK_TABLE_SIZE) && guarded(MOST), "65 slots");
    see(refused(0, CK_TABLE_SIZE), "no slot");
    table[3].rank = 9;
    see(refused(MOST, CK_TABLE_SIZE) && refused(CK_MOST_PENDING, CK_BROKEN_TABLE), "50 comes before 51");
    memset(room, 0x5c, sizeof room);
    ck_pending_clear(table, 0);
    see(guarded(0), "no slot is cleared");
    ck_pending_clear(table, MOST);
    see(is(64, 0, 0, 0, 0, 0) && guarded(MOST), "65 slots are cleared");
}

/* Tables that are none, and free slots that may hold anything. */
static void broken(void) {
    static const struct { uint64_t route; uint8_t write; uint32_t ranks[3]; uint8_t number; const char *what; } cases[] = {
        {1, 0, {1, 2, 3}, CK_OK, "three that wait"}, {1, 1, {3, 0, 2}, CK_BROKEN_TABLE, "no rank 1"}, {1, 1, {2, 0, 1}, CK_OK, "two that wait"},
        {1, 0, {0, 2, 0}, CK_BROKEN_TABLE, "rank 2 alone"}, {1, 0, {1, 1, 0}, CK_BROKEN_TABLE, "rank 1 twice"},
        {1, 0, {1, 2, 2}, CK_BROKEN_TABLE, "rank 2 twice"}, {1, 0, {1, 3, 0}, CK_BROKEN_TABLE, "a gap"},
        {1, 0, {1, 2, 4}, CK_BROKEN_TABLE, "rank 4 of 3"}, {1, 0, {64, 0, 0}, CK_BROKEN_TABLE, "rank 64"}, {1, 0, {65, 0, 0}, CK_BROKEN_TABLE, "rank 65"},
        {1, 0, {1, UINT32_MAX, 2}, CK_BROKEN_TABLE, "the largest rank"}, {1, 0, {257, 0, 0}, CK_BROKEN_TABLE, "rank 257"},
        {TOP, 0, {2, 1, 3}, CK_BROKEN_TABLE, "a top bit that waits"}, {TOP, 0, {0, 2, 1}, CK_OK, "a top bit in a free slot"},
        {UINT64_MAX, 0, {1, 0, 0}, CK_BROKEN_TABLE, "all bits of a route"}, {TOP - 1, 1, {1, 0, 0}, CK_OK, "all but the top bit"},
        {1, 2, {1, 0, 0}, CK_BROKEN_TABLE, "a way that is none"}, {1, 255, {0, 1, 0}, CK_OK, "such a way in a free slot"}};
    for (size_t i = 0; i < sizeof cases / sizeof *cases; i++) {
        clear(3);
        for (size_t k = 0; k < 3; k++) table[k] = slot(k ? 1 : cases[i].route, 2, 3, k ? 1 : cases[i].write, cases[i].ranks[k]);
        uint32_t count = 0;
        for (size_t k = 0; k < 3; k++) count += cases[i].ranks[k] != 0;
        see(cases[i].number == CK_OK ? waits(3, count) : refused(3, cases[i].number), cases[i].what);
        see(guarded(3), "guards of a table");
    }
}

/* Any bits are an input: the answer has its form, a refusal changes no slot, and a good table stays good. */
static void any_bits(void) {
    uint64_t state = 2;
    int formed = 1, good = 0, bad = 0;
    for (int round = 0; round < 20000; round++) {
        ck_entry e;
        memset(room, 0x5c, sizeof room);
        uint8_t bits[sizeof e + 5 * sizeof(ck_slot)];
        for (size_t i = 0; i < sizeof bits; i++) state = state * UINT64_C(6364136223846793005) + 1, bits[i] = (uint8_t)(state >> 56);
        memcpy(&e, bits, sizeof e);
        memcpy(table, bits + sizeof e, 5 * sizeof(ck_slot));
        if (round % 2)
            for (size_t i = 0; i < 5; i++) table[i].rank %= 3, table[i].four.route >>= 1, table[i].four.write %= 2;
        if (round % 4 > 1) e.kind %= 6, e.seq %= 512, e.dropped %= 4;
        size_t n = (size_t)(round % 6);
        keep();
        ck_step_answer a = ck_pending_step(e, table, n);
        formed &= guarded(5) && a.report <= CK_PENDING_STRAY && (a.report == 0) == (a.number != 0) && (n == 0) == (a.number == CK_TABLE_SIZE);
        formed &= a.number == CK_OK || a.number == CK_TABLE_SIZE || a.number == CK_BROKEN_TABLE;
        formed &= a.place == 0 || ((a.report == CK_PENDING_TAKEN || a.report == CK_PENDING_ANSWERED) && a.place < n);
        formed &= a.report == CK_PENDING_TAKEN || a.report == CK_PENDING_ANSWERED || as_kept();
        formed &= ck_pending_waiting(table, n).number == a.number;
        good += a.number == CK_OK, bad += a.number == CK_BROKEN_TABLE;
    }
    see(formed && good > 1000 && bad > 1000, "any bits have an answer");
}

void every_request(void) {
    story();
    fours();
    others();
    sizes();
    broken();
    any_bits();
}
