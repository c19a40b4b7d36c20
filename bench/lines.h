/* What bench/lines.c and bench/instructions.c share: lines made ready for each reader, the readers, and the hostile lines. */
#ifndef BENCH_LINES_H
#define BENCH_LINES_H

#include "chomkadieu.h"

#include <stdio.h>
#include <stdlib.h>
#include <string.h>

enum { LONGEST = 4096, HALF = LONGEST / 2 };

const void *oracle_make_lines(const uint8_t *frames, size_t length);
uint64_t oracle_run_lines(const void *lines);

/* Lines one behind the other, each behind its length of four bytes, low byte first. Nothing is given back: all stay until the program ends. */
typedef struct frames {
    uint8_t *bytes;
    size_t length;
} frames;

/* So many of them, and the same lines as the Rust has them. */
typedef struct lines {
    frames in;
    size_t count;
    const void *rust;
} lines;

static inline uint32_t frame_length(const uint8_t *p) {
    return p[0] | (uint32_t)p[1] << 8 | (uint32_t)p[2] << 16 | (uint32_t)p[3] << 24;
}

static inline void put_length(uint8_t *p, size_t length) {
    for (int i = 0; i < 4; i++) p[i] = (uint8_t)(length >> 8 * i);
}

static inline frames room_for(size_t length) {
    frames f = {malloc(length), length};
    if (!f.bytes) exit(2);
    return f;
}

static inline frames frames_of(const char *path) {
    FILE *file = fopen(path, "rb");
    if (!file) {
        perror(path);
        exit(2);
    }
    fseek(file, 0, SEEK_END);
    frames f = room_for((size_t)ftell(file));
    rewind(file);
    if (fread(f.bytes, 1, f.length, file) != f.length) exit(2);
    fclose(file);
    return f;
}

/* The first of them, at most so many. */
static inline lines first_of(frames f, size_t most) {
    lines l = {{f.bytes, 0}, 0, NULL};
    while (l.count < most && l.in.length < f.length) {
        l.in.length += 4 + frame_length(f.bytes + l.in.length);
        l.count++;
    }
    l.rust = oracle_make_lines(l.in.bytes, l.in.length);
    if (!l.rust) exit(2);
    return l;
}

enum { RUST, STRICT, LENIENT, PLAIN, READERS };

typedef ck_entry_answer call(const uint8_t *line, size_t length, uint32_t *slots, size_t count);

/* What a programmer writes in Rust by hand (bench/plain), called as ours are and with the answers of ck_parse_lenient. */
call plain_parse;

/* Those that are called a line at a time. */
static call *const calls[READERS] = {[STRICT] = ck_parse, [LENIENT] = ck_parse_lenient, [PLAIN] = plain_parse};

static uint32_t slots[CK_MOST_DWORDS];

/* The entries are counted so that nothing can be left out. */
static inline uint64_t read_by(call *one, frames f) {
    uint64_t entries = 0;
    for (size_t at = 0; at < f.length;) {
        uint32_t n = frame_length(f.bytes + at);
        entries += one(f.bytes + at + 4, n, slots, CK_MOST_DWORDS).number == CK_OK;
        at += 4 + n;
    }
    return entries;
}

/* Every line once. */
static inline uint64_t read_all(int reader, const lines *l) {
    return reader == RUST ? oracle_run_lines(l->rust) : read_by(calls[reader], l->in);
}

#define HEAD "fwd-7 [002] d..1. 12.000345: tb_tx: "
#define KEYS "type=TB_CFG_PKG_READ, size=3, domain=0, route=0, "

/* Front, piece and end of a hostile line. The first is the ordinary one that the others are held to. The last four are for a reader that keeps the last
 * pair of each key in one walk: keys of ours again and again, and one that is told from ours by its last byte alone. */
static const struct {
    const char *name, *front, *piece, *end;
} hostile[] = {
    {"an entry with some 220 dwords", HEAD KEYS "data=[", "0x00000004002001, ", "0x1]"},
    {"the same, and a bad piece at the end", HEAD KEYS "data=[", "0x00000004002001, ", "0x04zz]"},
    {"the same, and a bad piece at the start", HEAD KEYS "data=[0x04zz, ", "0x00000004002001, ", "0x1]"},
    {"bad pieces `0x04zz, `", HEAD KEYS "data=[", "0x04zz, ", "0x1]"},
    {"empty pieces", HEAD KEYS "data=[", ", ", "0x1]"},
    {"an entry behind pairs `k=1, `", HEAD, "k=1, ", KEYS "data=[0x0]"},
    {"an entry behind a word run", HEAD, "a", " " KEYS "data=[0x0]"},
    {"an entry behind a run of dashes in the task", "", "-", "7 [002] 12.000345: tb_tx: " KEYS "data=[0x0]"},
    {"a word run as payload", HEAD, "a", ""},
    {"`a=[` repeated with no `]`", HEAD, "a=[", ""},
    {"a digit run in the header", "fwd-7 [002] d..1. ", "1", ": tb_tx: " KEYS "data=[0x0]"},
    {"an entry behind pairs `size=1, `", HEAD, "size=1, ", KEYS "data=[0x0]"},
    {"an entry behind pairs `offsex=1, `", HEAD, "offsex=1, ", KEYS "data=[0x0]"},
    {"an entry behind pairs `data=[0x1], `", HEAD, "data=[0x1], ", KEYS "data=[0x0]"},
    {"`data=[` repeated with no `]`", HEAD KEYS, "data=[", ""},
};
enum { HOSTILE = sizeof hostile / sizeof *hostile };

/* Hostile line i of so many bytes: blanks, front, then the piece as often as it fits, then the end. */
static inline lines hostile_line(size_t i, size_t size) {
    const char *front = hostile[i].front, *piece = hostile[i].piece, *end = hostile[i].end;
    size_t first = strlen(front), each = strlen(piece), last = strlen(end), at = (size - first - last) % each;
    frames f = room_for(4 + size);
    uint8_t *line = f.bytes + 4;
    put_length(f.bytes, size);
    memset(line, ' ', at);
    memcpy(line + at, front, first);
    for (at += first; at + each + last <= size; at += each) memcpy(line + at, piece, each);
    memcpy(line + at, end, last);
    return first_of(f, 1);
}

#endif
