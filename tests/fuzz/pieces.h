/* Strict and lenient held to each other, and a plain search for a bad piece of a line's data, by document 01's words. */
#ifndef PIECES_H
#define PIECES_H

#include "entries.h"

/* How many word bytes a text starts with. */
static inline size_t word_run(part t) {
    size_t n = 0;
    while (n < t.len && is_function(t.at + n, 1)) n++;
    return n;
}

/* How many bytes the value behind `=` has: a word run, or brackets with a byte in them; 0 for none. */
static inline size_t value_len(part t) {
    if (t.len < 2 || t.at[0] != '=') return 0;
    part value = {t.at + 1, t.len - 1};
    if (value.at[0] != '[') return word_run(value);
    const uint8_t *close = memchr(value.at + 1, ']', value.len - 1);
    return close && close > value.at + 1 ? (size_t)(close - value.at) + 1 : 0;
}

/* The value of the last pair of `data`, of no length for none. */
static inline part last_data(part payload) {
    part last = {payload.at, 0};
    for (size_t at = 0; at < payload.len;) {
        part rest = {payload.at + at, payload.len - at};
        size_t key = word_run(rest), value = key ? value_len((part){rest.at + key, rest.len - key}) : 0;
        if (value && key == 4 && !memcmp(rest.at, "data", 4)) last = (part){rest.at + 5, value};
        at += value ? key + 1 + value : key ? key : 1;
    }
    return last;
}

static inline int is_hex(uint8_t b) { return (b >= '0' && b <= '9') || ((b | 32) >= 'a' && (b | 32) <= 'f'); }

/* A hex number of 32 bits: `0x` at most once, then digits, of which zeros in front do not count. */
static inline int is_dword(part t) {
    size_t at = t.len >= 2 && t.at[0] == '0' && t.at[1] == 'x' ? 2 : 0, zeros = at;
    if (at == t.len) return 0;
    for (size_t i = at; i < t.len; i++)
        if (!is_hex(t.at[i])) return 0;
    while (zeros < t.len && t.at[zeros] == '0') zeros++;
    return t.len - zeros <= 8;
}

/* Is a piece of the line's data bad? Where `data` is missing or not in brackets, none is. */
static inline int any_bad(part line) {
    size_t colon = line.len;
    while (colon && line.at[colon - 1] != ':') colon--;
    part value = last_data((part){line.at + colon, line.len - colon});
    if (!colon || !value.len || value.at[0] != '[') return 0;
    for (size_t from = 1, to = 1; to < value.len; to++) {
        int last = to == value.len - 1;
        if (!last && !(value.at[to] == ',' && value.at[to + 1] == ' ')) continue;
        if (!is_dword((part){value.at + from, to - from})) return 1;
        from = to + 2, to++;
    }
    return 0;
}

/* Both answers to one text with the same slots: 18 exactly where lenient came past 15 and a piece is bad, else the same. */
static inline void must_be_strict(const told *strict, const told *lenient, part text) {
    int is_line = !text.len || text.at[0] != 0xa1, passed = lenient->number == CK_OK || lenient->number == CK_MANY_DWORDS || lenient->number == CK_FEW_SLOTS;
    must(lenient->number != CK_BAD_PIECE, "lenient never gives 18");
    if (is_line && passed && any_bad(text)) must(strict->number == CK_BAD_PIECE, "strict refuses a bad piece, before 16 and 17");
    else must(same_answer(strict, lenient), "strict is lenient where no piece is bad or an earlier number applies");
}

#endif
