/* What the targets share: the parts of an input, memory that is lent, and the end of a run that found something. */
#ifndef FUZZ_H
#define FUZZ_H

#include "chomkadieu.h"

#include <stdio.h>
#include <stdlib.h>
#include <string.h>

/* ---- an input: five lengths of two bytes, low byte first, then the parts; the book is what is left */

enum { CHOICES, NAME, DWORDS, PLACES, TEXT, BOOK, PARTS, HEAD = 2 * (PARTS - 1) };

typedef struct part {
    const uint8_t *at;
    size_t len;
} part;

/* Which parts a target reads, as bits; each target says it, and shape.c changes no others. IS_STREAM says that the text is a stream of units. */
enum { IS_STREAM = 1 << PARTS };
extern const unsigned used_parts;

static inline size_t word_at(const uint8_t *at) { return at[0] + 256u * at[1]; }

/* Any input has all parts: a part that goes past the end is cut there. */
static inline void cut(const uint8_t *data, size_t size, part parts[PARTS]) {
    size_t at = size < HEAD ? size : HEAD;
    for (int i = 0; i < PARTS; i++) {
        size_t len = i == BOOK ? size - at : size < HEAD ? 0 : word_at(data + 2 * i);
        if (len > size - at) len = size - at;
        parts[i] = (part){data + at, len};
        at += len;
    }
}

/* The choices are numbers at fixed places; what is not there is 0. */
static inline uint64_t choice(const part parts[PARTS], size_t at, size_t width) {
    uint64_t value = 0;
    for (size_t i = 0; i < width; i++)
        if (at + i < parts[CHOICES].len) value |= (uint64_t)parts[CHOICES].at[at + i] << 8 * i;
    return value;
}

/* How much is lent: for 0 the usual, and near it or near nothing for small numbers. */
static inline size_t count_of(uint64_t chosen, size_t usual, size_t most) { return (size_t)((usual + chosen) % (most + 1)); }

/* ---- what is found ends the run */

static inline void wrong(const char *what, const char *file, int line) {
    fprintf(stderr, "%s:%d: wrong: %s\n", file, line, what);
    abort();
}

#define must(holds, what) ((holds) ? (void)0 : wrong(what, __FILE__, __LINE__))

/* How often each number was answered, so that a target that is only ever refused is seen. */
static uint64_t answered[256];

static inline void tally(uint8_t number) { answered[number]++; }

/* The library's counters, which the fuzzer clears before each input, and those that were ever above 0. */
extern const uint8_t __start___sancov_cntrs[], __stop___sancov_cntrs[];
static uint8_t reached[65536];

static inline size_t counters(void) {
    size_t n = (size_t)(__stop___sancov_cntrs - __start___sancov_cntrs);
    return n < sizeof reached ? n : sizeof reached;
}

/* At the end of the run: the numbers, and into the file that REACHED names a byte for each counter, so that runs can be laid over each other. */
static inline void tell(void) {
    const char *path = getenv("REACHED");
    FILE *file = path ? fopen(path, "wb") : NULL;
    if (file) fwrite(reached, 1, counters(), file), fclose(file);
    fprintf(stderr, "numbers:");
    for (int i = 0; i < 256; i++)
        if (answered[i]) fprintf(stderr, " %d:%llu", i, (unsigned long long)answered[i]);
    fprintf(stderr, "\n");
}

/* ---- memory that is lent for reading: blocks of exactly the size, so that AddressSanitizer sees a byte read beyond them */

enum { MOST_BLOCKS = 64 };

static struct block {
    uint8_t *base, *at, *copy;
    size_t size;
} blocks[MOST_BLOCKS];
static size_t block_count;

/* A copy that ends where its block ends. For nothing it is the end of a block, since a block of no bytes has one all the same. */
static inline const void *lend(const void *from, size_t size) {
    must(block_count < MOST_BLOCKS, "too many blocks in one run");
    struct block b = {malloc(size ? size : 8), NULL, malloc(size + 1), size};
    must(b.base != NULL && b.copy != NULL, "no memory");
    b.at = size ? b.base : b.base + 8;
    if (size) memcpy(b.at, from, size), memcpy(b.copy, from, size);
    blocks[block_count++] = b;
    return b.at;
}

/* Drops all blocks but the first so many. No call changes what is lent for reading. */
static inline void drop_blocks_to(size_t kept) {
    for (; block_count > kept; block_count--) {
        struct block b = blocks[block_count - 1];
        must(!memcmp(b.at, b.copy, b.size), "what is lent for reading stays as it was");
        free(b.base), free(b.copy);
    }
}

/* The end of each input. */
static inline int done(void) {
    static int started;
    if (!started) atexit(tell);
    started = 1;
    drop_blocks_to(0);
    for (size_t i = 0; i < counters(); i++) reached[i] |= __start___sancov_cntrs[i] != 0;
    return 0;
}

/* ---- memory that is lent for writing: filled with marks, once in a block of exactly the size, once between guards with other marks */

enum { GUARD = 64, MOST_LENT = CK_REST + GUARD, EXACT = 0, GUARDED = 1, WAYS = 2 };

typedef struct room {
    uint8_t *base, *at;
    size_t size;
    int way;
} room;

/* No two neighbours alike, and the two ways differ at each byte. */
static inline const uint8_t *marks(int way) {
    static uint8_t made[WAYS][GUARD + MOST_LENT + GUARD];
    if (!made[1][0])
        for (size_t i = 0; i < sizeof made[0]; i++) {
            made[0][i] = (uint8_t)(i * 157 + (i >> 8) * 53 + 11);
            made[1][i] = (uint8_t)~made[0][i];
        }
    return made[way];
}

static inline room lend_room(size_t size, int way) {
    size_t guard = way == GUARDED ? GUARD : 0;
    must(size <= MOST_LENT, "more lent than there are marks");
    uint8_t *base = malloc(guard + size + guard + (size + guard ? 0 : 8));
    must(base != NULL, "no memory");
    memcpy(base, marks(way), guard + size + guard);
    return (room){base, size + guard ? base + guard : base + 8, size, way};
}

static inline uint32_t *words_of(room r) { return (uint32_t *)(void *)r.at; }

/* Is all but the first `owned` bytes as it was, guards included? */
static inline int as_found(room r, size_t owned) {
    size_t guard = r.way == GUARDED ? GUARD : 0;
    const uint8_t *was = marks(r.way);
    return owned <= r.size && !memcmp(r.base, was, guard) && !memcmp(r.at + owned, was + guard + owned, r.size - owned + guard);
}

static inline void drop_rooms(room rooms[WAYS]) {
    for (int way = 0; way < WAYS; way++) free(rooms[way].base);
}

/* What both ways must leave behind: the same first bytes, and all others as they were. */
static inline void must_own(room rooms[WAYS], size_t owned, const char *what) {
    for (int way = 0; way < WAYS; way++) must(as_found(rooms[way], owned), what);
    must(!memcmp(rooms[0].at, rooms[1].at, owned), what);
}

#endif
