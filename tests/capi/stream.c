/* The stream as a C program sees it: the same answers however it is cut, each number, each sort of kept state, and memory that stays as found. The units
 * of a stream and what is kept of them are found here a second time, by a plain reading of the whole; the answer of a unit that is read is held to ck_read. */
#include "chomkadieu.h"
#include "see.h"

#include <stdio.h>
#include <string.h>

enum { GUARD = 16, SLOTS = CK_MOST_DWORDS, MOST_LINE = 4096, A1 = 0xa1, ALL = GUARD + SLOTS + GUARD };
#define MARK UINT32_C(0xdeadbeef)
#define HEAD "a-1 [002] 1.2: tb_tx: type=TB_CFG_PKG_READ size=3 domain=0 route=0 "
#define LINE HEAD "data=[1, 2]\n"

/* The stream. */
static uint8_t text[1 << 17];
static size_t length;

/* Rest buffer and slots with guards before and behind them, and the same as found by a call. */
static uint8_t room[GUARD + CK_REST + 1 + GUARD], found[sizeof room];
static uint8_t *const rest = room + GUARD;
static uint32_t all[ALL];
static uint32_t *const slots = all + GUARD;

typedef ck_stream_answer feeder(ck_stream, const uint8_t *, size_t, uint8_t *, size_t, uint32_t *, size_t);
typedef ck_stream_answer finisher(ck_stream, const uint8_t *, size_t, uint32_t *, size_t);
typedef ck_entry_answer reader(const uint8_t *, size_t, uint32_t *, size_t);

enum { STRICT = 0, LENIENT = 1, CHOICES = 2 };
static feeder *const feeds[CHOICES] = {ck_stream_feed, ck_stream_feed_lenient};
static finisher *const finishes[CHOICES] = {ck_stream_finish, ck_stream_finish_lenient};
static reader *const reads[CHOICES] = {ck_read, ck_read_lenient};

static void fresh(uint32_t *marked) {
    for (size_t i = 0; i < ALL; i++) marked[i] = MARK;
}

/* Are all but the first n slots as they were? */
static int untouched(size_t n) {
    for (size_t i = 0; i < ALL; i++)
        if ((i < GUARD || i >= GUARD + n) && all[i] != MARK) return 0;
    return 1;
}

static void find(void) {
    memcpy(found, room, sizeof room);
    fresh(all);
}

static int same_entry(ck_entry a, ck_entry b) {
    return a.task_at == b.task_at && a.task_len == b.task_len && a.pid == b.pid && a.cpu == b.cpu && a.seconds == b.seconds &&
           a.microseconds == b.microseconds && a.function_at == b.function_at && a.function_len == b.function_len && a.kind == b.kind &&
           a.size == b.size && a.dropped == b.dropped && a.domain == b.domain && a.route == b.route && a.offset == b.offset && a.code == b.code &&
           a.len == b.len && a.port == b.port && a.config == b.config && a.seq == b.seq && a.unplug == b.unplug && a.dwords == b.dwords;
}

static const ck_entry BLANK = {
    .offset = CK_NONE, .code = CK_NONE, .len = CK_NONE, .port = CK_NONE, .config = CK_NONE, .seq = CK_NONE, .unplug = CK_NONE};

/* Does the answer say so of number and end, with a blank entry and all slots as found? */
static int blank(ck_stream_answer a, uint8_t number, uint8_t ended) {
    return a.number == number && a.ended == ended && same_entry(a.entry, BLANK) && untouched(0);
}

/* ---- the plain reading */

static size_t least(size_t a, size_t b) { return a < b ? a : b; }
static size_t stated(const uint8_t *unit) { return 3u + unit[1] + 256u * unit[2]; }
static int is_long(const uint8_t *unit, size_t n) { return n >= 3 && unit[0] == A1 && stated(unit) > CK_MOST_BYTES; }

/* How many bytes of a unit's first n are kept. */
static size_t kept(const uint8_t *unit, size_t n) {
    if (n == 0 || unit[0] != A1) return least(n, MOST_LINE + 1);
    return is_long(unit, n) ? 3 : n;
}

/* Has the unit ended with the last of its n bytes? */
static int whole(const uint8_t *unit, size_t n) {
    if (n == 0) return 0;
    return unit[0] == A1 ? n >= 3 && n == stated(unit) : unit[n - 1] == '\n';
}

/* The answer of a unit: 55, 54, or what a reading of its kept bytes says. */
static int answered(ck_stream_answer a, const uint8_t *unit, size_t n, size_t lent, int choice) {
    static uint32_t marked[ALL];
    if (is_long(unit, n)) return blank(a, CK_LONG_RECORD, 1);
    if (unit[0] == A1 && !whole(unit, n)) return blank(a, CK_CUT_RECORD, 1);
    fresh(marked);
    ck_entry_answer read = reads[choice](unit, kept(unit, n), marked + GUARD, lent);
    return a.number == read.number && a.ended == 1 && same_entry(a.entry, read.entry) && !memcmp(all, marked, sizeof all);
}

/* Does the buffer hold the unit's kept bytes, and is all behind them as found? */
static int stands(const uint8_t *unit, size_t n) {
    size_t held = kept(unit, n);
    return !memcmp(rest, unit, held) && !memcmp(room, found, GUARD) && !memcmp(rest + held, found + GUARD + held, sizeof room - GUARD - held);
}

static int state_is(ck_stream s, size_t held, size_t passed) { return s.held == held && s.passed == passed; }

/* ---- feeding */

/* A stream on its way: where it stands, where its open unit started, its numbers in a row, and whether every call was right. */
typedef struct walk {
    ck_stream state;
    size_t at, start, lent;
    int choice, good;
    char numbers[256];
} walk;

static void told(walk *w, uint8_t number) {
    size_t used = strlen(w->numbers);
    snprintf(w->numbers + used, sizeof w->numbers - used, used ? " %u" : "%u", number);
}

/* Feeds the next bytes, one part of so many. */
static void feed(walk *w, size_t part) {
    size_t end = w->at + part;
    do {
        find();
        ck_stream_answer a = feeds[w->choice](w->state, text + w->at, end - w->at, rest, CK_REST, slots, w->lent);
        const uint8_t *unit = text + w->start;
        if (a.at > end - w->at) {
            w->good = 0;
            return;
        }
        w->at += a.at, w->state = a.state;
        size_t n = w->at - w->start, held = kept(unit, n), passed = is_long(unit, n) ? n - 3 : 0;
        w->good &= stands(unit, n) && a.ended == whole(unit, n);
        if (a.ended) {
            w->good &= answered(a, unit, n, w->lent, w->choice) && state_is(a.state, 0, 0);
            told(w, a.number);
            w->start = w->at;
        } else
            w->good &= blank(a, CK_OK, 0) && w->at == end && state_is(a.state, held, passed);
    } while (w->at < end && w->good);
}

/* The end, which leaves the buffer as it is. */
static void finish(walk *w) {
    find();
    ck_stream_answer a = finishes[w->choice](w->state, rest, CK_REST, slots, w->lent);
    size_t n = w->at - w->start;
    w->good &= w->at == length && a.at == 0 && state_is(a.state, 0, 0) && !memcmp(room, found, sizeof room);
    w->good &= n ? answered(a, text + w->start, n, w->lent, w->choice) : blank(a, CK_OK, 0);
    if (a.ended) told(w, a.number);
}

static walk begun(size_t lent, int choice) {
    memset(room, 0x5c, sizeof room);
    walk w = {{0, 0}, 0, 0, lent, choice, 1, ""};
    return w;
}

/* Are these the numbers, if the first part is of so many bytes and the others of at most so many, each behind so many empty ones? */
static int gives(const char *numbers, size_t lent, int choice, size_t first, size_t each, int empty) {
    walk w = begun(lent, choice);
    for (size_t part = first; w.good; part = each) {
        for (int i = 0; i < empty; i++) feed(&w, 0);
        feed(&w, least(part, length - w.at));
        if (w.at == length) break;
    }
    finish(&w);
    return w.good && !strcmp(w.numbers, numbers);
}

static uint64_t seed = 1;

static size_t below(size_t n) {
    seed = seed * UINT64_C(6364136223846793005) + 1;
    return (size_t)(seed >> 33) % n;
}

/* The same in parts of random sizes. */
static int gives_at_random(const char *numbers, size_t lent, int choice, size_t most) {
    walk w = begun(lent, choice);
    while (w.at < length && w.good) feed(&w, least(below(most + 1), length - w.at));
    finish(&w);
    return w.good && !strcmp(w.numbers, numbers);
}

/* ---- streams */

static void add(const void *bytes, size_t n) {
    memcpy(text + length, bytes, n);
    length += n;
}

static void fill(uint8_t byte, size_t n) {
    memset(text + length, byte, n);
    length += n;
}

/* The line's record. */
static void add_record(void) {
    static const char line[] = LINE;
    uint32_t dwords[2];
    ck_entry e = ck_parse((const uint8_t *)line, sizeof line - 1, dwords, 2).entry;
    length += ck_record_write((const uint8_t *)line, sizeof line - 1, e, dwords, 2, text + length, sizeof text - length).bytes;
}

/* The longest record there is: names of 4,096 bytes, each field, 256 dwords. */
static size_t add_longest(void) {
    static uint8_t names[MOST_LINE];
    static uint32_t dwords[SLOTS];
    memset(names, 'a', sizeof names);
    ck_entry e = {.task_len = MOST_LINE - 9, .function_at = MOST_LINE - 9, .function_len = 9, .offset = 1, .len = 10, .port = 10, .dwords = SLOTS};
    ck_write_answer w = ck_record_write(names, sizeof names, e, dwords, SLOTS, text + length, sizeof text - length);
    length += w.bytes;
    return w.bytes;
}

/* Short streams by letters: l and r are the line and its record, b a line with a bad piece, o the same without its newline; all else is a byte. */
static void make(const char *bytes, size_t n) {
    length = 0;
    for (size_t i = 0; i < n; i++)
        if (bytes[i] == 'l') add(LINE, sizeof LINE - 1);
        else if (bytes[i] == 'r') add_record();
        else if (bytes[i] == 'b' || bytes[i] == 'o') add(HEAD "data=[1, zz]\n", sizeof HEAD + 11 + (bytes[i] == 'b'));
        else add(bytes + i, 1);
}

#define SHORT(bytes, numbers) {bytes, sizeof bytes - 1, SLOTS, {numbers, numbers}}
static const struct { const char *bytes; size_t n, lent; const char *numbers[CHOICES]; } STREAMS[] = {
    SHORT("", ""), SHORT("l", "0"), SHORT("r", "0"), SHORT("lrl", "0 0 0"), SHORT("rr", "0 0"), SHORT("x", "4"), SHORT("x\n", "4"),
    /* a newline ends a line and no record, and behind a record it is a line */
    SHORT("\n", "1"), SHORT("\n\n", "1 1"), SHORT("r\n", "0 1"), SHORT("r\nl", "0 1 0"), SHORT("\xa1\x01\x00\nx\n", "31 4"),
    SHORT("\xa1\x0a\x00\n\n\n\n\n\n\n\n\n\n\n", "31 1"), SHORT("\xa1\n\x00xxxx\nxxxxx\n", "31 1"), SHORT("#x\nr#y", "1 0 1"),
    /* A1 inside a line starts no record */
    SHORT("x\xa1\x02\x00\n\xa1\x00\x00", "3 33"),
    /* refused records, and what follows */
    SHORT("\xa1\x00\x00l", "33 0"), SHORT("\xa1\x03\x00\x14\x00\x00r", "32 0"), SHORT("\xa1\x03\x00\x02\x00\x00l", "34 0"),
    /* the end cuts a record */
    SHORT("\xa1", "54"), SHORT("\xa1\x00", "54"), SHORT("\xa1\xff", "54"), SHORT("\xa1\x01\x00", "54"), SHORT("l\xa1\x02\x00\n", "0 54"),
    SHORT("\xa1\x68\x14\n\n", "54"), SHORT("\xa1\n", "54"),
    /* and an overlong one */
    SHORT("\xa1\xff\xff", "55"), SHORT("\xa1\x69\x14", "55"), SHORT("\xa1\x69\x14\n\n", "55"), SHORT("r\xa1\x00\xff\xa1\x00\x00", "0 55"),
    /* the choice is of lines alone, and few slots are one answer */
    {"lbrbl", 5, SLOTS, {"0 18 0 18 0", "0 0 0 0 0"}}, {"lrbl\n", 5, 1, {"17 35 18 17 1", "17 35 0 17 1"}}, {"lr", 2, 0, {"17 35", "17 35"}},
    {"lo", 2, SLOTS, {"0 18", "0 0"}}};

/* Every cut and two, bytes one by one, and empty parts. */
static void short_streams(void) {
    for (size_t i = 0; i < sizeof STREAMS / sizeof *STREAMS; i++) {
        make(STREAMS[i].bytes, STREAMS[i].n);
        int same = 1;
        for (int choice = 0; choice < CHOICES; choice++) {
            const char *numbers = STREAMS[i].numbers[choice];
            size_t lent = STREAMS[i].lent;
            for (size_t cut = 0; cut <= length; cut++)
                same &= gives(numbers, lent, choice, cut, length, 0) && gives(numbers, lent, choice, cut, 1 + cut % 7, 1);
            same &= gives(numbers, lent, choice, 1, 1, 0) && gives(numbers, lent, choice, 1, 1, 2) && gives(numbers, lent, choice, 2, 2, 1);
            for (int round = 0; round < 50; round++) same &= gives_at_random(numbers, lent, choice, 1 + below(60));
        }
        char what[64];
        snprintf(what, sizeof what, "the stream with the numbers %.30s", STREAMS[i].numbers[STRICT]);
        see(same, what);
    }
}

/* A stream with the limits in it: whole, in bytes, at random, and with each cut of some. */
static void is_everywhere(const char *numbers, const char *what) {
    int same = gives(numbers, SLOTS, STRICT, length, 1, 0) && gives(numbers, SLOTS, LENIENT, length, 1, 1) && gives(numbers, SLOTS, STRICT, 1, 1, 0);
    for (int round = 0; round < 20; round++) same &= gives_at_random(numbers, SLOTS, round % CHOICES, 1 + below(round < 10 ? 9000 : 300));
    for (int round = 0; round < 60; round++) same &= gives(numbers, SLOTS, STRICT, below(length + 1), length, 0);
    see(same, what);
}

static void lines_at_the_limit(void) {
    static const struct { uint8_t first; size_t n; int ends; const char *numbers; } cases[] = {
        {'x', 4095, 1, "4 0"}, {'x', 4096, 0, "4"}, {'x', 4096, 1, "2 0"}, {'x', 4097, 0, "2"}, {'x', 4097, 1, "2 0"}, {'x', 8191, 1, "2 0"},
        {'x', 8192, 1, "2 0"}, {'x', 8193, 0, "2"}, {'x', 30000, 1, "2 0"}, {'#', 4096, 1, "1 0"}, {'#', 4097, 0, "1"}, {'#', 30000, 1, "1 0"},
        {0x80, 4095, 1, "3 0"}, {0x80, 5000, 1, "2 0"}};
    for (size_t i = 0; i < sizeof cases / sizeof *cases; i++) {
        char what[64];
        length = 0;
        fill(cases[i].first, 1), fill('x', cases[i].n - 1);
        if (cases[i].ends) fill('\n', 1), add(LINE, sizeof LINE - 1);
        snprintf(what, sizeof what, "a line of %zu bytes, %s", cases[i].n, cases[i].ends ? "and its newline" : "which the end cuts");
        is_everywhere(cases[i].numbers, what);
    }
}

/* A record of the length that it says, its body of newlines, and a line. */
static void add_says(size_t says) {
    uint8_t head[] = {A1, (uint8_t)((says - 3) % 256), (uint8_t)((says - 3) / 256)};
    add(head, 3), fill('\n', says - 3), add(LINE, sizeof LINE - 1);
}

static void records_at_the_limit(void) {
    static const struct { size_t says; const char *numbers; } cases[] = {
        {CK_MOST_BYTES, "34 0"}, {CK_MOST_BYTES + 1, "55 0"}, {CK_REST, "55 0"}, {CK_REST + 1, "55 0"}, {65538, "55 0"}};
    for (size_t i = 0; i < sizeof cases / sizeof *cases; i++) {
        length = 0;
        add_says(cases[i].says);
        char what[64];
        snprintf(what, sizeof what, "a record that says %zu bytes", cases[i].says);
        is_everywhere(cases[i].numbers, what);
    }
    length = 0;
    see(add_longest() == CK_MOST_BYTES, "the longest record");
    is_everywhere("0", "is read");
    add(LINE, sizeof LINE - 1), add_says(6000), add_longest(), add_record(), fill('x', 6000), fill('\n', 1), add_longest(), length -= 1;
    is_everywhere("0 0 55 0 0 0 2 54", "limits one behind the other");
}

/* An entry's places lie in the rest buffer, also if its unit lay whole in the part. */
static void places(void) {
    static const char line[] = "  four-11 [012] d..1. 13.000014: tb_events: type=TB_CFG_PKG_EVENT size=3 domain=0 route=1 data=[7]\n";
    memset(room, 0x5c, sizeof room);
    for (size_t cut = 0; cut < sizeof line - 1; cut++) {
        ck_stream state = {0, 0};
        find();
        ck_stream_answer a = ck_stream_feed(state, (const uint8_t *)line, cut, rest, CK_REST, slots, SLOTS);
        ck_stream_answer b = ck_stream_feed(a.state, (const uint8_t *)line + cut, sizeof line - 1 - cut, rest, CK_REST, slots, SLOTS);
        ck_entry e = b.entry;
        if (a.ended || a.at != cut || !b.ended || b.number || e.task_at != 2 || e.task_len != 4 || memcmp(rest + e.task_at, "four", 4) ||
            e.function_len != 9 || memcmp(rest + e.function_at, "tb_events", 9) || slots[0] != 7 || !untouched(1)) {
            see(0, "a line's task and function stand in the rest buffer");
            return;
        }
        memset(room, 0x5c, sizeof room);
    }
    see(1, "a line's task and function stand in the rest buffer");
}

/* ---- kept states */

/* Does a stream leave these? */
static int is_left(ck_stream s) {
    if (s.held > CK_REST) return 0;
    if (is_long(rest, s.held)) return s.held == 3 && s.passed < stated(rest) - 3;
    if (s.passed != 0 || s.held == 0) return s.passed == 0;
    if (rest[0] == A1) return s.held < 3 || s.held < stated(rest);
    return s.held <= MOST_LINE + 1 && !memchr(rest, '\n', s.held);
}

/* Is it 53 in each call, with nothing changed? */
static int refused(ck_stream s, size_t rest_len) {
    static const uint8_t part[] = "\nx\n";
    for (int choice = 0; choice < CHOICES; choice++) {
        for (size_t n = 0; n < sizeof part; n++) {
            find();
            ck_stream_answer a = feeds[choice](s, part, n, rest, rest_len, slots, SLOTS);
            if (!blank(a, CK_NO_STREAM, 0) || a.at || !state_is(a.state, s.held, s.passed) || memcmp(room, found, sizeof room)) return 0;
        }
        find();
        ck_stream_answer a = finishes[choice](s, rest, rest_len, slots, SLOTS);
        if (!blank(a, CK_NO_STREAM, 0) || a.at || !state_is(a.state, s.held, s.passed) || memcmp(room, found, sizeof room)) return 0;
    }
    return 1;
}

/* Does an empty part leave all as it is, and is there an end? */
static int taken(ck_stream s) {
    static const uint8_t none[1];
    for (int choice = 0; choice < CHOICES; choice++) {
        find();
        ck_stream_answer a = feeds[choice](s, none, 0, rest, CK_REST, slots, SLOTS);
        if (!blank(a, CK_OK, 0) || a.at || !state_is(a.state, s.held, s.passed) || memcmp(room, found, sizeof room)) return 0;
        a = finishes[choice](s, rest, CK_REST, slots, SLOTS);
        if (a.number == CK_NO_STREAM || a.ended != (s.held != 0) || !state_is(a.state, 0, 0) || memcmp(room, found, sizeof room)) return 0;
    }
    return 1;
}

static void sizes(void) {
    static const size_t others[] = {0, 1, 3, CK_MOST_BYTES, CK_REST - 1, CK_REST + 1};
    static const ck_stream states[] = {{0, 0}, {2, 0}, {0, 1}};
    memset(room, 'x', sizeof room);
    int all_refused = 1;
    for (size_t i = 0; i < sizeof others / sizeof *others; i++)
        for (size_t k = 0; k < sizeof states / sizeof *states; k++) all_refused &= refused(states[k], others[i]);
    see(all_refused, "a rest buffer of another size");
    see(taken(states[0]) && taken(states[1]) && refused(states[2], CK_REST), "and of 8,192 bytes");
}

/* Bytes at the buffer's start, x behind them, and a state that a stream leaves there or does not. */
static const struct { const char *bytes; size_t n, held, passed; int left; } STATES[] = {
    {"", 0, 0, 0, 1}, {"\n", 1, 0, 0, 1}, {"\xa1\xff\xff", 3, 0, 0, 1}, {"", 0, 0, 1, 0}, {"\xa1\xff\xff", 3, 0, 1, 0},
    /* lines */
    {"", 0, 1, 0, 1}, {"\n", 1, 1, 0, 0}, {"x\n", 2, 1, 0, 1}, {"x\n", 2, 2, 0, 0}, {"x\nx", 3, 3, 0, 0}, {"", 0, 1, 1, 0}, {"", 0, 4096, 0, 1},
    {"", 0, 4097, 0, 1}, {"", 0, 4098, 0, 0}, {"", 0, 4097, 1, 0}, {"", 0, 8192, 0, 0}, {"", 0, 8193, 0, 0}, {"", 0, SIZE_MAX, 0, 0},
    {"x\xa1\xff\xff", 4, 4, 0, 1},
    /* records */
    {"\xa1", 1, 1, 0, 1}, {"\xa1", 1, 1, 1, 0}, {"\xa1\n", 2, 2, 0, 1}, {"\xa1\xff\xff", 3, 2, 0, 1}, {"\xa1\xff\xff", 3, 2, 1, 0},
    {"\xa1\x00\x00", 3, 3, 0, 0}, {"\xa1\x01\x00", 3, 3, 0, 1}, {"\xa1\x01\x00", 3, 3, 1, 0}, {"\xa1\x01\x00", 3, 4, 0, 0},
    {"\xa1\x02\x00\n", 4, 4, 0, 1}, {"\xa1\x68\x14", 3, 5226, 0, 1}, {"\xa1\x68\x14", 3, 5227, 0, 0}, {"\xa1\x68\x14", 3, 3, 1, 0},
    /* overlong ones */
    {"\xa1\x69\x14", 3, 3, 0, 1}, {"\xa1\x69\x14", 3, 4, 0, 0}, {"\xa1\x69\x14", 3, 3, 5224, 1}, {"\xa1\x69\x14", 3, 3, 5225, 0},
    {"\xa1\x69\x14", 3, 5227, 0, 0}, {"\xa1\xff\xff", 3, 3, 65534, 1}, {"\xa1\xff\xff", 3, 3, 65535, 0}, {"\xa1\xff\xff", 3, 3, SIZE_MAX, 0},
    {"\xa1\xff\xff", 3, 3, SIZE_MAX - 2, 0}, {"\xa1\xff\xff", 3, 3, (size_t)1 << 32, 0}, {"\xa1\xff\xff", 3, (size_t)1 << 32 | 3, 1, 0}};

static void states(void) {
    for (size_t i = 0; i < sizeof STATES / sizeof *STATES; i++) {
        ck_stream s = {STATES[i].held, STATES[i].passed};
        char what[64];
        memset(room, 'x', sizeof room);
        memcpy(rest, STATES[i].bytes, STATES[i].n);
        snprintf(what, sizeof what, "state %zu: %zu held, %zu passed", i, s.held, s.passed);
        see(is_left(s) == STATES[i].left && (STATES[i].left ? taken(s) : refused(s, CK_REST)), what);
    }
}

/* Any bits of a state over any bytes: 53 exactly where no stream leaves them. */
static void any_bits(void) {
    static const uint8_t bytes[] = {A1, A1, '\n', 'x', 0, 1, 0xff, 0x14};
    int right = 1, left = 0, alien = 0;
    for (int round = 0; round < 20000; round++) {
        memset(room, 'x', sizeof room);
        for (size_t i = 0; i < 5; i++) rest[i] = bytes[below(sizeof bytes)];
        rest[below(CK_REST)] = bytes[below(sizeof bytes)];
        size_t most[] = {4, 6000, 70000, SIZE_MAX};
        ck_stream s = {below(most[round % 4]), round & 4 ? 0 : below(most[round / 8 % 4])};
        if (round % 64 > 60) s.held |= s.held << 33, s.passed |= s.passed << 31;
        if (round & 16) s.held %= 4;
        right &= is_left(s) ? taken(s) : refused(s, CK_REST);
        left += is_left(s), alien += !is_left(s);
    }
    see(right && left > 1000 && alien > 1000, "any bits of a state have an answer");
}

void every_stream(void) {
    short_streams();
    lines_at_the_limit();
    records_at_the_limit();
    places();
    sizes();
    states();
    any_bits();
}
