/* Strict and lenient: a bad piece of `data` refuses its line, or is left out, by each call that has both forms. */
#include "chomkadieu.h"
#include "see.h"

#include <stdio.h>
#include <string.h>

enum { SLOTS = CK_MOST_DWORDS, GUARD = 16, ALL = GUARD + SLOTS + GUARD };
#define MARK UINT32_C(0xdeadbeef)

/* Slots and places with guards before and behind them. */
static uint32_t slots[ALL], places[ALL];

static uint32_t *fresh(uint32_t *all) {
    for (size_t i = 0; i < ALL; i++) all[i] = MARK;
    return all + GUARD;
}

/* Are all but the first n as they were? */
static int untouched(const uint32_t *all, size_t n) {
    for (size_t i = 0; i < ALL; i++)
        if ((i < GUARD || i >= GUARD + n) && all[i] != MARK) return 0;
    return 1;
}

static int same_entry(ck_entry a, ck_entry b) {
    return a.task_at == b.task_at && a.task_len == b.task_len && a.pid == b.pid && a.cpu == b.cpu && a.seconds == b.seconds &&
           a.microseconds == b.microseconds && a.function_at == b.function_at && a.function_len == b.function_len && a.kind == b.kind &&
           a.size == b.size && a.dropped == b.dropped && a.domain == b.domain && a.route == b.route && a.offset == b.offset && a.code == b.code &&
           a.len == b.len && a.port == b.port && a.config == b.config && a.seq == b.seq && a.unplug == b.unplug && a.dwords == b.dwords;
}

static const ck_entry BLANK = {
    .offset = CK_NONE, .code = CK_NONE, .len = CK_NONE, .port = CK_NONE, .config = CK_NONE, .seq = CK_NONE, .unplug = CK_NONE};

typedef ck_entry_answer reader(const uint8_t *, size_t, uint32_t *, size_t);
typedef ck_what_answer asker(const uint8_t *, size_t);
typedef ck_text_packet packer(const uint8_t *, size_t, const uint8_t *, size_t, uint32_t *, size_t, uint32_t *, size_t);

enum { STRICT = 0, LENIENT = 1, CHOICES = 2 };
static reader *const parses[CHOICES] = {ck_parse, ck_parse_lenient}, *const reads[CHOICES] = {ck_read, ck_read_lenient};
static asker *const whats[CHOICES] = {ck_what, ck_what_lenient};
static packer *const packets[CHOICES] = {ck_read_packet, ck_read_packet_lenient};

/* A line, the slots lent, the number of each choice, and the dwords of a reading. */
typedef struct line {
    const char *text;
    size_t lent;
    uint8_t numbers[CHOICES];
    size_t count;
    uint32_t dwords[2];
} line;

#define HEAD "a-1 [002] 1.2: tb_tx: type=TB_CFG_PKG_READ size=3 domain=0 route=0 "
#define BAD(text, count, ...) {HEAD text, SLOTS, {CK_BAD_PIECE, CK_OK}, count, {__VA_ARGS__}}
#define BOTH(text, lent, number) {text, lent, {number, number}, 0, {0}}

static const line LINES[] = {
    BAD("data=[0x1, zz, 0x2]", 2, 1, 2), BAD("data=[0x1,0x2]", 0, 0), BAD("data=[0x1, ]", 1, 1), BAD("data=[, 0x1]", 1, 1), BAD("data=[zz]", 0, 0),
    BAD("data=[ ]", 0, 0), BAD("data=[0x, 1]", 1, 1), BAD("data=[1 , 2]", 1, 2), BAD("data=[0x1, 100000000]", 1, 1),
    BAD("data=[1] data=[2, 0x04zz]", 1, 2), BAD("data=[0x04zz]\n", 0, 0),
    /* no bad piece in the pair that counts */
    {HEAD "data=[0x1, 0x2]", SLOTS, {CK_OK, CK_OK}, 2, {1, 2}}, {HEAD "data=[zz] data=[ffffffff]", SLOTS, {CK_OK, CK_OK}, 1, {0xffffffff}},
    /* before 17, and alone where no slot is needed */
    {HEAD "data=[1, zz]", 0, {CK_BAD_PIECE, CK_FEW_SLOTS}, 0, {0}}, {HEAD "data=[1, zz, 2]", 1, {CK_BAD_PIECE, CK_FEW_SLOTS}, 0, {0}},
    {HEAD "data=[zz]", 0, {CK_BAD_PIECE, CK_OK}, 0, {0}}, BOTH(HEAD "data=[1]", 0, CK_FEW_SLOTS),
    /* after 1 to 15 */
    BOTH(HEAD "data=[]", SLOTS, CK_NO_DATA), BOTH(HEAD "data=[zz] data=1", SLOTS, CK_NO_DATA), BOTH("# data=[zz]", SLOTS, CK_IDLE),
    BOTH("data=[zz]", SLOTS, CK_NO_COLON), BOTH("f: data=[zz]", SLOTS, CK_NO_TASK), BOTH("a-1 [002] 1.2: f: size=3 data=[zz]", SLOTS, CK_NO_TYPE),
    BOTH("a-1 [002] 1.2: f: type=t size=3 domain=0 route=z data=[zz]", SLOTS, CK_NO_ROUTE)};

/* Does a reading give that number, with the dwords in the first slots and no slot else touched? */
static int is_read(reader *call, const line *l, uint8_t number) {
    const uint8_t *text = (const uint8_t *)l->text;
    uint32_t *lent = fresh(slots);
    ck_entry_answer a = call(text, strlen(l->text), lent, l->lent);
    if (number != CK_OK) return a.number == number && same_entry(a.entry, BLANK) && untouched(slots, 0);
    return a.number == CK_OK && a.entry.kind == 1 && a.entry.dwords == l->count && !memcmp(lent, l->dwords, 4 * l->count) && untouched(slots, l->count);
}

/* Does the packet of a text have that number, with dwords and places in the first and no others touched? */
static int is_packet(packer *call, const line *l, uint8_t number, const uint8_t *book, size_t book_len) {
    uint32_t *lent = fresh(slots), *described = fresh(places);
    ck_text_packet p = call((const uint8_t *)l->text, strlen(l->text), book, book_len, lent, l->lent, described, SLOTS);
    size_t count = number == CK_OK ? l->count : 0;
    return p.packet.number == number && p.kind == (number == CK_OK) && p.dwords == count && p.packet.start == CK_NONE && p.packet.has_uuid == 0 &&
           !memcmp(lent, l->dwords, 4 * count) && untouched(slots, count) && untouched(places, count);
}

/* What a text is does not depend on slots: what is refused for want of them is a line. */
static int is_what(asker *call, const line *l, uint8_t number) {
    ck_what_answer w = call((const uint8_t *)l->text, strlen(l->text));
    if (number == CK_OK || number == CK_FEW_SLOTS) return w.number == CK_OK && w.what == CK_IS_LINE;
    return w.number == number && w.what == CK_IS_NEITHER;
}

static void each_line(const uint8_t *book, size_t book_len) {
    static const char *const names[CHOICES] = {"strict", "lenient"};
    for (size_t i = 0; i < sizeof LINES / sizeof *LINES; i++)
        for (int choice = 0; choice < CHOICES; choice++) {
            const line *l = &LINES[i];
            uint8_t number = l->numbers[choice];
            char told[256];
            snprintf(told, sizeof told, "%s, %zu slots: %s", names[choice], l->lent, l->text);
            see(is_read(parses[choice], l, number), told);
            see(is_read(reads[choice], l, number), told);
            see(is_packet(packets[choice], l, number, book, book_len), told);
            see(is_what(whats[choice], l, number), told);
        }
}

/* A line of so many good pieces and the end given. */
static const char *many(int good, const char *end) {
    static char text[4096];
    size_t at = (size_t)sprintf(text, HEAD "data=[1");
    for (int i = 1; i < good; i++) at += (size_t)sprintf(text + at, ", 1");
    sprintf(text + at, "%s]", end);
    return text;
}

/* 18 comes before 16, and bad pieces do not count to the 256. */
static void too_many(const uint8_t *book, size_t book_len) {
    static const struct { int good; const char *end; uint8_t numbers[CHOICES]; } cases[] = {
        {257, ", z", {CK_BAD_PIECE, CK_MANY_DWORDS}}, {257, "", {CK_MANY_DWORDS, CK_MANY_DWORDS}}};
    for (size_t i = 0; i < sizeof cases / sizeof *cases; i++)
        for (int choice = 0; choice < CHOICES; choice++) {
            line l = {many(cases[i].good, cases[i].end), SLOTS, {0}, 0, {0}};
            uint8_t number = cases[i].numbers[choice];
            see(is_read(parses[choice], &l, number) && is_read(reads[choice], &l, number) && is_what(whats[choice], &l, number) &&
                    is_packet(packets[choice], &l, number, book, book_len),
                "257 dwords, with a bad piece and without");
        }
    const char *text = many(256, ", z");
    see(ck_parse((const uint8_t *)text, strlen(text), fresh(slots), SLOTS).number == CK_BAD_PIECE && untouched(slots, 0), "256 and a bad one, strict");
    ck_entry_answer a = ck_parse_lenient((const uint8_t *)text, strlen(text), fresh(slots), SLOTS);
    see(a.number == CK_OK && a.entry.dwords == 256 && untouched(slots, 256), "and lenient");
}

/* A record has no pieces: that of a line with bad ones is the same to both. */
static void a_record(const char *text, const uint8_t *book, size_t book_len) {
    static uint8_t record[CK_MOST_BYTES];
    uint32_t dwords[SLOTS], kept[ALL], kept_places[ALL];
    ck_entry_answer a = ck_parse_lenient((const uint8_t *)text, strlen(text), dwords, SLOTS);
    ck_write_answer w = ck_record_write((const uint8_t *)text, strlen(text), a.entry, dwords, SLOTS, record, sizeof record);
    ck_entry_answer strict = ck_read(record, w.bytes, fresh(slots), SLOTS);
    memcpy(kept, slots, sizeof kept);
    ck_entry_answer lenient = ck_read_lenient(record, w.bytes, fresh(slots), SLOTS);
    see(a.number == CK_OK && w.number == CK_OK && strict.number == CK_OK && strict.entry.dwords == a.entry.dwords, "a record of a lenient line");
    see(lenient.number == CK_OK && same_entry(strict.entry, lenient.entry) && !memcmp(slots, kept, sizeof kept), "reads alike");
    see(!memcmp(slots + GUARD, dwords, 4 * a.entry.dwords) && untouched(slots, a.entry.dwords), "to the line's dwords");
    ck_text_packet p = ck_read_packet(record, w.bytes, book, book_len, fresh(slots), SLOTS, fresh(places), SLOTS);
    memcpy(kept, slots, sizeof kept), memcpy(kept_places, places, sizeof places);
    ck_text_packet q = ck_read_packet_lenient(record, w.bytes, book, book_len, fresh(slots), SLOTS, fresh(places), SLOTS);
    see(p.packet.number == CK_OK && q.packet.number == CK_OK && p.kind == q.kind && p.dwords == q.dwords && p.dwords == a.entry.dwords &&
            !memcmp(slots, kept, sizeof kept) && !memcmp(places, kept_places, sizeof places),
        "and to one packet");
    ck_what_answer s = ck_what(record, w.bytes), l = ck_what_lenient(record, w.bytes);
    see(s.what == CK_IS_RECORD && l.what == CK_IS_RECORD && s.number == CK_OK && l.number == CK_OK, "and is a record");
}

/* A refused record is refused alike. */
static void refused_records(void) {
    static const struct { const char *text; size_t size; uint8_t number; } cases[] = {
        {"\xa1", 1, CK_NO_RECORD}, {"\xa1\x00\x00", 3, CK_MISSING_TAG}, {"\xa1\x01\x00\x01", 4, CK_OVERRUN}};
    for (size_t i = 0; i < sizeof cases / sizeof *cases; i++)
        for (int choice = 0; choice < CHOICES; choice++) {
            const uint8_t *text = (const uint8_t *)cases[i].text;
            ck_entry_answer a = reads[choice](text, cases[i].size, fresh(slots), SLOTS);
            ck_what_answer w = whats[choice](text, cases[i].size);
            see(a.number == cases[i].number && same_entry(a.entry, BLANK) && untouched(slots, 0) && w.number == a.number && w.what == CK_IS_NEITHER,
                "a text behind A1 that is no record");
        }
}

void every_piece(const uint8_t *book, size_t book_len) {
    each_line(book, book_len);
    too_many(book, book_len);
    a_record(HEAD "data=[0x1, zz, 0x2]", book, book_len);
    a_record(HEAD "data=[zz]", book, book_len);
    refused_records();
}
