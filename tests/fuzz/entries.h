/* The calls on texts and entries, each made twice over other memory and held to what the header says of it. */
#ifndef ENTRIES_H
#define ENTRIES_H

#include "fuzz.h"

enum { MOST_SLOTS = 300, MOST_ROOM = 5300, MOST_TEXT = 4096 };

/* Every number of an entry but the places of its texts. */
#define NUMBERS(X)                                                                                                                                   \
    X(task_len) X(pid) X(cpu) X(seconds) X(microseconds) X(function_len) X(kind) X(size) X(dropped) X(domain) X(route) X(offset) X(code) X(len)      \
    X(port) X(config) X(seq) X(unplug) X(dwords)

static inline int same_numbers(const ck_entry *a, const ck_entry *b) {
#define DIFFERS(name) if (a->name != b->name) return 0;
    NUMBERS(DIFFERS)
#undef DIFFERS
    return 1;
}

static inline int same_flat(const ck_entry *a, const ck_entry *b) {
    return same_numbers(a, b) && a->task_at == b->task_at && a->function_at == b->function_at;
}

/* An entry with the text that its parts lie in, and its dwords. */
typedef struct told {
    uint8_t number;
    ck_entry entry;
    const uint8_t *text;
    size_t len;
    uint32_t dwords[CK_MOST_DWORDS];
} told;

/* The same entry: each number, the dwords, and the texts by their bytes. */
static inline int same_entry(const told *a, const told *b) {
    return same_numbers(&a->entry, &b->entry) && !memcmp(a->dwords, b->dwords, 4 * a->entry.dwords) &&
           !memcmp(a->text + a->entry.task_at, b->text + b->entry.task_at, a->entry.task_len) &&
           !memcmp(a->text + a->entry.function_at, b->text + b->entry.function_at, a->entry.function_len);
}

/* The same answer: number, every field, every dword. */
static inline int same_answer(const told *a, const told *b) {
    return a->number == b->number && same_flat(&a->entry, &b->entry) && !memcmp(a->dwords, b->dwords, 4 * a->entry.dwords);
}

static inline int is_blank(const ck_entry *e) {
    static const ck_entry blank = {
        .offset = CK_NONE, .code = CK_NONE, .len = CK_NONE, .port = CK_NONE, .config = CK_NONE, .seq = CK_NONE, .unplug = CK_NONE};
    return same_flat(e, &blank);
}

static inline int inside(size_t at, size_t len, size_t whole) { return at <= whole && len <= whole - at; }

static inline int is_byte(uint32_t value) { return value < 256 || value == CK_NONE; }
static inline int is_word(uint32_t value) { return value < 65536 || value == CK_NONE; }

static inline int is_task(const uint8_t *at, size_t len) {
    for (size_t i = 0; i < len; i++)
        if (at[i] == 32 || at[i] >= 128) return 0;
    return len > 0;
}

static inline int is_function(const uint8_t *at, size_t len) {
    for (size_t i = 0; i < len; i++)
        if (!((at[i] | 32) >= 'a' && (at[i] | 32) <= 'z') && !(at[i] >= '0' && at[i] <= '9') && at[i] != '_') return 0;
    return len > 0;
}

/* Within a record's ranges: what the writer asks of an entry, and what each reader hands out. */
static inline int in_range(const ck_entry *e, const uint8_t *text, size_t len, size_t dwords) {
    return inside(e->task_at, e->task_len, len) && inside(e->function_at, e->function_len, len) && is_task(text + e->task_at, e->task_len) &&
           is_function(text + e->function_at, e->function_len) && e->task_len + e->function_len <= MOST_TEXT && e->cpu <= 999 &&
           e->seconds <= INT64_MAX && e->microseconds <= INT64_MAX && e->kind <= 12 && e->dropped <= 1 && is_word(e->offset) && is_byte(e->code) &&
           is_word(e->len) && is_byte(e->port) && is_byte(e->config) && is_byte(e->seq) && is_byte(e->unplug) && e->dwords <= CK_MOST_DWORDS &&
           e->dwords <= dwords;
}

typedef ck_entry_answer reader(const uint8_t *text, size_t length, uint32_t *slots, size_t count);

/* Reads a text that was lent exactly. */
static inline void read_into(told *to, reader *call, const uint8_t *text, size_t len, size_t count) {
    room rooms[WAYS];
    ck_entry_answer a[WAYS];
    for (int way = 0; way < WAYS; way++) {
        rooms[way] = lend_room(4 * count, way);
        a[way] = call(text, len, words_of(rooms[way]), count);
    }
    const ck_entry *e = &a[0].entry;
    must(a[0].number == a[1].number && same_flat(e, &a[1].entry), "an entry does not depend on what the slots held");
    if (a[0].number != CK_OK) must(is_blank(e), "a refused entry is blank");
    else must(in_range(e, text, len, count), "an entry is within the record's ranges");
    must_own(rooms, 4 * e->dwords, "an entry's dwords stand in the first slots, and all other slots are as found");
    to->number = a[0].number, to->entry = *e, to->text = text, to->len = len;
    memcpy(to->dwords, rooms[0].at, 4 * e->dwords);
    drop_rooms(rooms);
}

/* Writes an entry whose text and dwords were lent exactly; the bytes go into `to`. */
static inline ck_write_answer write_into(uint8_t to[MOST_ROOM], const uint8_t *text, size_t len, ck_entry e, const uint32_t *dwords, size_t count,
                                         size_t size) {
    room rooms[WAYS];
    ck_write_answer a[WAYS];
    for (int way = 0; way < WAYS; way++) {
        rooms[way] = lend_room(size, way);
        a[way] = ck_record_write(text, len, e, dwords, count, rooms[way].at, size);
    }
    must(a[0].number == a[1].number && a[0].bytes == a[1].bytes, "writing does not depend on what the buffer held");
    must(a[0].number == CK_OK || a[0].number == CK_SHORT_BUFFER || a[0].number == CK_BAD_ENTRY, "writing gives 0, 36 or 37");
    must(a[0].number == CK_OK ? a[0].bytes > 0 && a[0].bytes <= CK_MOST_BYTES : a[0].bytes == 0, "a record has 1 to 5,227 bytes, a refusal none");
    must_own(rooms, a[0].bytes, "a record stands in the first bytes, and all others are as found");
    memcpy(to, rooms[0].at, a[0].bytes);
    drop_rooms(rooms);
    return a[0];
}

/* ---- the record of an entry, by the words of its layout */

static inline uint8_t *put_field(uint8_t *at, uint8_t tag, const uint8_t *body, size_t len) {
    at[0] = tag, at[1] = (uint8_t)len, at[2] = (uint8_t)(len >> 8);
    memcpy(at + 3, body, len);
    return at + 3 + len;
}

static inline uint8_t *put_number(uint8_t *at, uint8_t tag, uint64_t value, size_t width) {
    uint8_t body[8];
    for (size_t i = 0; i < 8; i++) body[i] = (uint8_t)(value >> 8 * i);
    return put_field(at, tag, body, width);
}

static inline uint8_t *put_optional(uint8_t *at, uint8_t tag, uint32_t value, size_t width) {
    return value == CK_NONE ? at : put_number(at, tag, value, width);
}

/* How many bytes the record of an entry in range has, put into `to`. */
static inline size_t record_of(uint8_t to[CK_MOST_BYTES], const uint8_t *text, const ck_entry *e, const uint32_t *dwords) {
    uint8_t *at = put_field(to + 3, 1, text + e->task_at, e->task_len);
    at = put_number(put_number(at, 2, e->pid, 4), 3, e->cpu, 2);
    at = put_number(put_number(at, 4, e->seconds, 8), 5, e->microseconds, 8);
    at = put_field(at, 6, text + e->function_at, e->function_len);
    at = put_number(put_number(put_number(at, 7, e->kind, 1), 8, e->size, 2), 9, e->dropped, 1);
    at = put_number(put_number(at, 10, e->domain, 4), 11, e->route, 8);
    at = put_optional(put_optional(put_optional(at, 12, e->offset, 2), 13, e->code, 1), 14, e->len, 2);
    at = put_optional(put_optional(put_optional(put_optional(at, 15, e->port, 1), 16, e->config, 1), 17, e->seq, 1), 18, e->unplug, 1);
    at = put_field(at, 19, (const uint8_t *)dwords, 4 * e->dwords);
    size_t rest = (size_t)(at - to) - 3;
    to[0] = 0xa1, to[1] = (uint8_t)rest, to[2] = (uint8_t)(rest >> 8);
    return rest + 3;
}

/* An entry goes to its record, from there to the same entry, and to the same bytes; with a byte less of room it is refused. The record, lent
 * exactly. */
static inline part there_and_back(const told *e) {
    static uint8_t first[MOST_ROOM], again[MOST_ROOM], want[CK_MOST_BYTES];
    static told by_record, by_intake, by_lenient;
    const uint32_t *dwords = lend(e->dwords, 4 * e->entry.dwords);
    size_t count = e->entry.dwords, size = record_of(want, e->text, &e->entry, dwords);
    ck_write_answer w = write_into(first, e->text, e->len, e->entry, dwords, count, CK_MOST_BYTES);
    must(w.number == CK_OK && w.bytes == size && !memcmp(first, want, size), "an entry that was read is written as its record");
    must(write_into(again, e->text, e->len, e->entry, dwords, count, size).number == CK_OK, "a record fits into as many bytes as it has");
    must(write_into(again, e->text, e->len, e->entry, dwords, count, size - 1).number == CK_SHORT_BUFFER, "and into none less");
    const uint8_t *record = lend(first, size);
    read_into(&by_record, ck_record_read, record, size, CK_MOST_DWORDS);
    read_into(&by_intake, ck_read, record, size, CK_MOST_DWORDS);
    read_into(&by_lenient, ck_read_lenient, record, size, CK_MOST_DWORDS);
    must(by_record.number == CK_OK && same_entry(e, &by_record), "a record reads to its entry");
    must(by_intake.number == CK_OK && same_flat(&by_record.entry, &by_intake.entry) && same_entry(e, &by_intake), "and so it does at the intake");
    must(same_answer(&by_lenient, &by_intake), "strict or lenient");
    w = write_into(again, record, size, by_record.entry, dwords, count, CK_MOST_BYTES);
    must(w.number == CK_OK && w.bytes == size && !memcmp(again, first, size), "its entry is written to the same bytes");
    return (part){record, size};
}

#endif
