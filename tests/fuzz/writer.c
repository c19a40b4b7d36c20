/* The writer: any numbers as an entry, over any text, dwords and room. Choices: room (2 bytes), which fields are brought into range (2), then the
 * entry's numbers in the header's order. */
#include "entries.h"

const unsigned used_parts = 1 << CHOICES | 1 << DWORDS | 1 << TEXT;

/* A number of the entry, brought below a bound where its bit says so; else any. */
static uint64_t chosen(const part parts[PARTS], size_t *at, size_t width, int bit, uint64_t bound) {
    uint64_t value = choice(parts, *at, width);
    *at += width;
    return choice(parts, 2, 2) >> bit & 1 ? value % bound : value;
}

/* Optional fields: in range also means absent, for the number next behind. */
static uint32_t optional(const part parts[PARTS], size_t *at, int bit, uint32_t bound) {
    uint32_t value = (uint32_t)chosen(parts, at, 4, bit, (uint64_t)bound + 1);
    return value == bound ? CK_NONE : value;
}

static ck_entry entry_of(const part parts[PARTS], size_t len, size_t dwords) {
    size_t at = 4;
    ck_entry e;
    e.task_at = chosen(parts, &at, 8, 0, len + 1), e.task_len = chosen(parts, &at, 8, 1, len + 1);
    e.pid = (uint32_t)chosen(parts, &at, 4, 2, UINT32_MAX), e.cpu = (uint16_t)chosen(parts, &at, 2, 2, 1000);
    e.seconds = chosen(parts, &at, 8, 3, UINT64_C(1) << 63), e.microseconds = chosen(parts, &at, 8, 4, UINT64_C(1) << 63);
    e.function_at = chosen(parts, &at, 8, 5, len + 1), e.function_len = chosen(parts, &at, 8, 6, len + 1);
    e.kind = (uint8_t)chosen(parts, &at, 1, 7, 13), e.size = (uint16_t)chosen(parts, &at, 2, 7, 65536);
    e.dropped = (uint8_t)chosen(parts, &at, 1, 7, 2);
    e.domain = (uint32_t)chosen(parts, &at, 4, 7, UINT32_MAX), e.route = chosen(parts, &at, 8, 7, UINT64_MAX);
    e.offset = optional(parts, &at, 8, 65536), e.code = optional(parts, &at, 9, 256), e.len = optional(parts, &at, 10, 65536);
    e.port = optional(parts, &at, 11, 256), e.config = optional(parts, &at, 12, 256), e.seq = optional(parts, &at, 13, 256);
    e.unplug = optional(parts, &at, 14, 256), e.dwords = chosen(parts, &at, 8, 15, dwords + 1);
    return e;
}

/* What was written reads back to the entry, and is its record. */
static void read_back(const uint8_t *record, size_t size, const told *e) {
    static uint8_t want[CK_MOST_BYTES];
    static told back;
    must(size == record_of(want, e->text, &e->entry, e->dwords) && !memcmp(record, want, size), "what is written is the entry's record");
    read_into(&back, ck_record_read, lend(record, size), size, CK_MOST_DWORDS);
    must(back.number == CK_OK && same_entry(e, &back), "what is written reads back");
}

/* 37 is out of range, else 36 is too little room, else it is written. */
static uint8_t write_with(const told *e, const uint32_t *dwords, size_t count, size_t needs, size_t lent) {
    static uint8_t record[MOST_ROOM];
    ck_write_answer w = write_into(record, e->text, e->len, e->entry, dwords, count, lent);
    must(w.number == (!needs ? CK_BAD_ENTRY : needs > lent ? CK_SHORT_BUFFER : CK_OK), "37 comes before 36, and 36 before a record");
    if (w.number == CK_OK) read_back(record, w.bytes, e);
    return w.number;
}

/* The edges of an entry in range: just enough room and a byte less; a task, a function or dwords that end one past what is lent. */
static void at_edges(told e, const uint32_t *dwords, size_t count, size_t needs) {
    write_with(&e, dwords, count, needs, needs), write_with(&e, dwords, count, needs, needs - 1);
    told far = e;
    far.entry.task_len = e.len - e.entry.task_at + 1;
    write_with(&far, dwords, count, 0, CK_MOST_BYTES);
    far = e, far.entry.function_len = e.len - e.entry.function_at + 1;
    write_with(&far, dwords, count, 0, CK_MOST_BYTES);
    far = e, far.entry.dwords = count + 1;
    write_with(&far, dwords, count, 0, CK_MOST_BYTES);
}

int LLVMFuzzerTestOneInput(const uint8_t *data, size_t size) {
    static uint8_t want[CK_MOST_BYTES];
    static told given;
    part parts[PARTS], t;
    cut(data, size, parts);
    t = parts[TEXT];
    const uint8_t *text = lend(t.at, t.len);
    size_t count = parts[DWORDS].len / 4;
    const uint32_t *dwords = lend(parts[DWORDS].at, 4 * count);
    ck_entry e = entry_of(parts, t.len, count);
    size_t needs = in_range(&e, text, t.len, count) ? record_of(want, text, &e, dwords) : 0;
    given.entry = e, given.text = text, given.len = t.len;
    if (needs) memcpy(given.dwords, dwords, 4 * e.dwords);
    tally(write_with(&given, dwords, count, needs, count_of(choice(parts, 0, 2), CK_MOST_BYTES, MOST_ROOM)));
    if (needs) at_edges(given, dwords, count, needs);
    return done();
}
