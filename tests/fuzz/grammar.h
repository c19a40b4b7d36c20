/* The grammar of books, read once more in plain C, and plain searches in a book that belongs to it. */
#ifndef GRAMMAR_H
#define GRAMMAR_H

#include "fuzz.h"

enum { MOST_BOOK = 65535 };

typedef struct field {
    size_t at, from, to;
    uint8_t tag;
} field;

/* The field at a place, if one stands there and ends by `to`. */
static inline int field_at(const uint8_t *b, size_t at, size_t to, field *f) {
    if (at > to || to - at < 3) return 0;
    *f = (field){at, at + 3, at + 3 + word_at(b + at + 1), b[at]};
    return f->to <= to;
}

/* The part of an entry or range with that tag, name or type; else of no length. They stand behind two bytes, the type behind the name. */
static inline part text_of(const uint8_t *b, field f, uint8_t tag) {
    field t;
    for (size_t at = f.from + 2; at < f.to && field_at(b, at, f.to, &t) && t.tag <= tag; at = t.to)
        if (t.tag == tag) return (part){b + t.from, t.to - t.from};
    return (part){b, 0};
}

static inline int same_part(part a, part b) { return a.len == b.len && !memcmp(a.at, b.at, a.len); }

/* Do two fields of one list stand for the same: kind, UUID, offset and type, or value? */
static inline int same_key(const uint8_t *b, field f, field g) {
    static const uint8_t widths[8] = {0, 1, 16, 2, 0, 0, 0, 4};
    return f.tag == g.tag && !memcmp(b + f.from, b + g.from, widths[f.tag]) && (f.tag != 3 || same_part(text_of(b, f, 5), text_of(b, g, 5)));
}

/* Is the field a second one among those from a place on? */
static inline int is_twice(const uint8_t *b, size_t from, field f) {
    field g;
    for (size_t at = from; at < f.at && field_at(b, at, f.at, &g); at = g.to)
        if (same_key(b, f, g)) return 1;
    return 0;
}

static inline int is_name(const uint8_t *at, size_t len) {
    for (size_t i = 0; i < len; i++)
        if (at[i] >= 128) return 0;
    return len >= 1 && len <= 255;
}

static inline int range_holds(const uint8_t *b, field r) {
    field f;
    if (r.to - r.from < 2 || b[r.from] > b[r.from + 1] || b[r.from + 1] > 31) return 0;
    if (!field_at(b, r.from + 2, r.to, &f) || f.tag != 4 || !is_name(b + f.from, f.to - f.from)) return 0;
    size_t values = f.to;
    for (size_t at = values; at < r.to; at = f.to) {
        if (!field_at(b, at, r.to, &f) || f.tag != 7 || f.to - f.from < 4 || !is_name(b + f.from + 4, f.to - f.from - 4)) return 0;
        if (is_twice(b, values, f)) return 0;
    }
    return 1;
}

static inline int entry_holds(const uint8_t *b, field e) {
    field f;
    uint8_t latest = 3;
    if (e.to - e.from < 2) return 0;
    for (size_t at = e.from + 2; at < e.to; at = f.to) {
        if (!field_at(b, at, e.to, &f) || f.tag > 6 || f.tag < latest || (f.tag == latest && latest != 6)) return 0;
        if (f.tag == 6 ? !range_holds(b, f) : !is_name(b + f.from, f.to - f.from)) return 0;
        latest = f.tag;
    }
    return 1;
}

static inline int table_holds(const uint8_t *b, field t) {
    field e;
    size_t key = t.tag == 1 ? 1 : 16;
    if ((t.tag != 1 && t.tag != 2) || t.to - t.from < key || (t.tag == 1 && (b[t.from] < 1 || b[t.from] > 12))) return 0;
    for (size_t at = t.from + key; at < t.to; at = e.to)
        if (!field_at(b, at, t.to, &e) || e.tag != 3 || !entry_holds(b, e) || is_twice(b, t.from + key, e)) return 0;
    return 1;
}

static inline int book_holds(const uint8_t *b, size_t len) {
    field t;
    if (len > MOST_BOOK) return 0;
    for (size_t at = 0; at < len; at = t.to)
        if (!field_at(b, at, len, &t) || !table_holds(b, t) || is_twice(b, 0, t)) return 0;
    return 1;
}

/* ---- in a book that holds */

static inline int find_table(const uint8_t *b, size_t len, uint8_t tag, const uint8_t *key, size_t key_len, field *t) {
    for (size_t at = 0; at < len && field_at(b, at, len, t); at = t->to)
        if (t->tag == tag && !memcmp(b + t->from, key, key_len)) return 1;
    return 0;
}

static inline size_t count_fields(const uint8_t *b, size_t from, size_t to) {
    field f;
    size_t n = 0;
    for (; from < to && field_at(b, from, to, &f); from = f.to) n++;
    return n;
}

static const part untyped = {(const uint8_t *)"", 0};

/* The place of a table's first entry of an offset and a type, of any type where none is named; 0 for none. */
static inline size_t find_entry(const uint8_t *b, field table, size_t offset, const part *type) {
    field e;
    for (size_t at = table.from + (table.tag == 1 ? 1 : 16); at < table.to && field_at(b, at, table.to, &e); at = e.to)
        if (word_at(b + e.from) == offset && (!type || same_part(text_of(b, e, 5), *type))) return e.at;
    return 0;
}

static inline uint32_t bits_of(uint32_t dword, uint8_t low, uint8_t high) {
    return (uint32_t)((uint64_t)dword >> low & ((UINT64_C(2) << (high - low)) - 1));
}

static inline part text(const char *word) { return (part){(const uint8_t *)word, strlen(word)}; }

/* ---- in any bytes: what stands at a place is read as far as it goes */

/* The field at a place of the book; place 0 is none. */
static inline int stands(const uint8_t *b, size_t len, size_t place, field *f) { return place && field_at(b, place, len, f); }

/* A number whose bytes lie before `to`; those beyond are 0. */
static inline uint32_t number_in(const uint8_t *b, size_t at, size_t to, size_t width) {
    uint32_t value = 0;
    for (size_t i = 0; i < width; i++)
        if (at + i < to) value |= (uint32_t)b[at + i] << 8 * i;
    return value;
}

static inline size_t behind(const uint8_t *b, size_t at, size_t to, uint8_t tag) {
    field f;
    return field_at(b, at, to, &f) && f.tag == tag ? f.to : at;
}

/* Where the fields inside a field start: behind kind or UUID, behind name and type, behind the name. */
static inline size_t inside_of(const uint8_t *b, field f) {
    if (f.tag == 1 || f.tag == 2) return f.from + (f.tag == 1 ? 1 : 16);
    if (f.tag == 3) return behind(b, behind(b, f.from + 2, f.to, 4), f.to, 5);
    return f.tag == 6 ? behind(b, f.from + 2, f.to, 4) : f.to;
}

/* The name of the entry, range or value at a place, of no length for none. */
static inline part name_at(const uint8_t *b, size_t len, size_t place) {
    field f, name;
    if (!stands(b, len, place, &f)) return untyped;
    if (f.tag == 7) return f.to - f.from < 4 ? untyped : (part){b + f.from + 4, f.to - f.from - 4};
    return field_at(b, f.from + 2, f.to, &name) && name.tag == 4 ? (part){b + name.from, name.to - name.from} : untyped;
}

/* The field with so many before it inside the field at a place. */
static inline int nth_in(const uint8_t *b, size_t len, size_t place, size_t k, field *r) {
    field f;
    if (!stands(b, len, place, &f)) return 0;
    size_t at = inside_of(b, f);
    for (; field_at(b, at, f.to, r); at = r->to)
        if (!k--) return 1;
    return 0;
}

/* The first range of a name inside the field at a place. */
static inline int named_in(const uint8_t *b, size_t len, size_t place, part name, field *r) {
    for (size_t k = 0; nth_in(b, len, place, k, r); k++)
        if (r->tag == 6 && same_part(name_at(b, len, r->at), name)) return 1;
    return 0;
}

/* The place of the first value of a number inside the field at a place, 0 for none. */
static inline size_t value_in(const uint8_t *b, size_t len, size_t range, uint32_t number) {
    field v;
    for (size_t k = 0; nth_in(b, len, range, k, &v); k++)
        if (v.tag == 7 && number_in(b, v.from, v.to, 4) == number) return v.at;
    return 0;
}

/* What ck_range says of a range: its bits as they stand there, and the value between them, 0 if they are no bits of a dword. */
static inline ck_range_answer range_told(const uint8_t *b, size_t len, field r, uint32_t dword) {
    uint8_t low = (uint8_t)number_in(b, r.from, len, 1), high = (uint8_t)number_in(b, r.from + 1, len, 1);
    return (ck_range_answer){1, low, high, low <= high && high <= 31 ? bits_of(dword, low, high) : 0, r.at};
}

static inline int same_range(ck_range_answer a, ck_range_answer b) {
    return a.present == b.present && a.low == b.low && a.high == b.high && a.value == b.value && a.place == b.place;
}

#endif
