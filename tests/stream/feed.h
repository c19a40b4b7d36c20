/* What the parts of this test share: chance, what is lent, and one stream with what the reading says of it. */
#ifndef FEED_H
#define FEED_H

#include "chomkadieu.h"

/* ---- chance: splitmix64, as in oracle/generate/seed.py */

extern uint64_t chance;
uint64_t next(void);
static inline uint64_t below(uint64_t limit) { return next() % limit; }

/* ---- what is lent, and beside it what must stand there: memory that is lent for writing lies between guards */

enum { GUARD = 64, MOST_REST = 2 * CK_REST, MOST_LENT_SLOTS = 300 };

typedef struct lent {
    _Alignas(8) uint8_t is[GUARD + MOST_REST + GUARD];
    uint8_t must[GUARD + MOST_REST + GUARD];
    size_t size;           /* how many bytes of it are used by any case, guards not counted */
} lent;

extern lent rest, slots;

/* Other marks everywhere. */
void mark(lent *memory);

/* Are both as they must be? */
int as_they_must(void);

/* ---- a stream, and what the reading says of it */

typedef struct unit {
    size_t start, end;     /* where it lies in the stream */
    size_t keep;           /* how many of its bytes are kept at most */
    uint8_t counts;        /* 1 if those that are not kept are counted */
    uint8_t ended;         /* 1 if it ends with its last byte, 0 if the stream's end ends it */
    ck_stream_answer says; /* its answer, but for `at` */
    const uint8_t *dwords; /* four bytes each */
} unit;

typedef struct stream {
    const char *name;      /* its class */
    const uint8_t *bytes;
    size_t size;
    uint8_t strict;
    size_t slots;          /* how many are lent */
    unit *units;
    size_t count;
} stream;

/* Counts, told at the end. */
typedef struct counts {
    uint64_t streams, feedings, parts, calls, units, entries_of_lines, entries_of_records, states, numbers[256], differences;
} counts;

extern counts counted;

/* fed.c: feeds a stream in parts that end at these places, from a place on, and holds every call to what must come. */
void feed_stream(const stream *s, const size_t *ends, size_t parts, size_t from, const char *way);

/* fed.c: a state with the buffer in the rest memory. Where no stream leaves it, each call says 53 and changes nothing; else an empty part does not. */
void hold_state(const char *name, int left, ck_stream state, size_t rest_len, const uint8_t *part, size_t part_len, size_t count);

#endif
