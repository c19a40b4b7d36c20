/* A stream that is fed in parts: each answer, each state, each lent byte and slot beside what must come. */
#include "feed.h"

#include <stdio.h>
#include <stdlib.h>
#include <string.h>

enum { TOLD = 12, SHOWN_BYTES = 1200, MOST_PART = 1 << 18 };

uint64_t chance;
lent rest, slots;
counts counted;

uint64_t next(void) {
    uint64_t mixed = chance += UINT64_C(0x9E3779B97F4A7C15);
    mixed = (mixed ^ mixed >> 30) * UINT64_C(0xBF58476D1CE4E5B9);
    mixed = (mixed ^ mixed >> 27) * UINT64_C(0x94D049BB133111EB);
    return mixed ^ mixed >> 31;
}

/* ---- memory */

static size_t with_guards(const lent *memory) { return GUARD + memory->size + GUARD; }

void mark(lent *memory) {
    for (size_t i = 0; i < with_guards(memory); i += 8) {
        uint64_t marks = next();
        memcpy(memory->is + i, &marks, 8);
    }
    memcpy(memory->must, memory->is, with_guards(memory));
}

int as_they_must(void) { return !memcmp(rest.is, rest.must, with_guards(&rest)) && !memcmp(slots.is, slots.must, with_guards(&slots)); }

/* The part that is lent, with other bytes around it than the stream has, so that who reads past its end answers something else. */
static uint8_t lent_part[GUARD + MOST_PART + GUARD];

static const uint8_t *lend_part(const uint8_t *from, size_t size) {
    static const uint8_t around[4] = {'\n', 0xa1, 'x', 0};
    uint8_t *at = lent_part + GUARD;
    if (size > MOST_PART) abort();
    memset(at - GUARD, around[below(4)], GUARD);
    memset(at + size, around[below(4)], GUARD);
    if (size) memcpy(at, from, size);
    return at;
}

/* ---- what is found */

static struct {
    const char *name, *way;
    const stream *s;
    size_t place;
} now;

static size_t smallest = SIZE_MAX;

/* A difference is told if few were, or if it is of a smaller stream than all before. */
static void tell(const char *what, uint64_t is, uint64_t must) {
    size_t size = now.s ? now.s->size : 0;
    if (counted.differences++ >= TOLD && size >= smallest) return;
    if (size < smallest) smallest = size;
    printf("difference in %s, %s, at place %zu of %zu: %s: is %llu, must be %llu\n", now.name, now.way, now.place, size, what, (unsigned long long)is,
           (unsigned long long)must);
    if (!now.s) return;
    printf("  %s, %zu slots, stream ", now.s->strict ? "strict" : "lenient", now.s->slots);
    for (size_t i = 0; i < size && i < SHOWN_BYTES; i++) printf("%02x", now.s->bytes[i]);
    printf("%s\n", size > SHOWN_BYTES ? " .." : "");
}

/* Every field of an answer. */
#define FIELDS(X)                                                                                                                                    \
    X(number) X(ended) X(at) X(state.held) X(state.passed) X(entry.task_at) X(entry.task_len) X(entry.pid) X(entry.cpu) X(entry.seconds)            \
    X(entry.microseconds) X(entry.function_at) X(entry.function_len) X(entry.kind) X(entry.size) X(entry.dropped) X(entry.domain) X(entry.route)    \
    X(entry.offset) X(entry.code) X(entry.len) X(entry.port) X(entry.config) X(entry.seq) X(entry.unplug) X(entry.dwords)

/* Is the answer as it must be, and all that is lent? */
static int holds(const ck_stream_answer *is, const ck_stream_answer *must) {
    counted.calls++;
#define SAME(field) if (is->field != must->field) { tell(#field, is->field, must->field); return 0; }
    FIELDS(SAME)
#undef SAME
    if (as_they_must()) return 1;
    int of_rest = memcmp(rest.is, rest.must, with_guards(&rest)) != 0;
    const lent *memory = of_rest ? &rest : &slots;
    size_t at = 0;
    while (memory->is[at] == memory->must[at]) at++;
    printf("  the byte %td of the %s\n", (ptrdiff_t)at - GUARD, of_rest ? "rest buffer" : "slots");
    tell("a lent byte", memory->is[at], memory->must[at]);
    memcpy(rest.is, rest.must, with_guards(&rest)), memcpy(slots.is, slots.must, with_guards(&slots));
    return 0;
}

/* ---- the four calls */

typedef ck_stream_answer feeder(ck_stream, const uint8_t *, size_t, uint8_t *, size_t, uint32_t *, size_t);
typedef ck_stream_answer finisher(ck_stream, const uint8_t *, size_t, uint32_t *, size_t);
static feeder *const feeders[2] = {ck_stream_feed_lenient, ck_stream_feed};
static finisher *const finishers[2] = {ck_stream_finish_lenient, ck_stream_finish};

static uint32_t *lent_slots(void) { return (uint32_t *)(void *)(slots.is + GUARD); }

static const ck_stream_answer nothing = {
    .entry = {.offset = CK_NONE, .code = CK_NONE, .len = CK_NONE, .port = CK_NONE, .config = CK_NONE, .seq = CK_NONE, .unplug = CK_NONE}};

static const size_t some_slots[6] = {0, 1, 5, 255, 256, 300};

/* ---- one stream */

/* Where a feeding stands: the place, the state, and the next unit. */
typedef struct fed {
    const stream *s;
    size_t place, unit;
    ck_stream state;
} fed;

static const unit *unit_of(const fed *f) { return f->unit < f->s->count ? f->s->units + f->unit : NULL; }

static ck_stream state_at(const unit *u, size_t place) {
    size_t read = place - u->start, held = read < u->keep ? read : u->keep;
    return (ck_stream){held, u->counts ? read - held : 0};
}

/* The rest buffer gets the bytes that are kept of a unit up to a place; those before stand there. */
static void keep_up_to(fed *f, size_t place) {
    const unit *u = unit_of(f);
    ck_stream state = state_at(u, place);
    memcpy(rest.must + GUARD + f->state.held, f->s->bytes + u->start + f->state.held, state.held - f->state.held);
    f->state = state, f->place = place;
}

/* The unit is answered: its dwords stand in the first slots, and nothing is open. */
static ck_stream_answer end_unit(fed *f) {
    const unit *u = unit_of(f);
    memcpy(slots.must + GUARD, u->dwords, 4 * u->says.entry.dwords);
    f->state = (ck_stream){0, 0}, f->unit++;
    counted.units++, counted.numbers[u->says.number]++;
    if (!u->says.number) *(f->s->bytes[u->start] == 0xa1 ? &counted.entries_of_records : &counted.entries_of_lines) += 1;
    return u->says;
}

/* With a buffer of another size every call is refused and nothing changes. */
static int probe_size(const fed *f, const uint8_t *part, size_t size) {
    static const size_t sizes[7] = {0, 1, 4097, 5227, CK_REST - 1, CK_REST + 1, CK_REST + GUARD};
    size_t rest_len = sizes[below(7)], count = some_slots[below(6)];
    ck_stream_answer must = nothing, is;
    must.number = CK_NO_STREAM, must.state = f->state;
    counted.numbers[CK_NO_STREAM]++;
    if (below(2)) is = feeders[below(2)](f->state, part, size, rest.is + GUARD, rest_len, lent_slots(), count);
    else is = finishers[below(2)](f->state, rest.is + GUARD, rest_len, lent_slots(), count);
    return holds(&is, &must);
}

/* One call: up to the end of the unit, if the part goes so far. A call that ends no unit may have another choice and other slots than the one that
 * does. */
static int feed_once(fed *f, const uint8_t *part, size_t to) {
    const unit *u = unit_of(f);
    int ends = u && u->ended && u->end <= to;
    size_t from = f->place, size = to - from, count = ends ? f->s->slots : some_slots[below(6)];
    ck_stream before = f->state;
    if (!below(64) && !probe_size(f, part, size)) return 0;
    ck_stream_answer is = feeders[ends ? f->s->strict : below(2)](before, part, size, rest.is + GUARD, CK_REST, lent_slots(), count);
    if (u) keep_up_to(f, ends ? u->end : to);
    ck_stream_answer must = ends ? end_unit(f) : nothing;
    must.at = f->place - from, must.state = f->state;
    return holds(&is, &must);
}

/* A part is fed until all of it is taken, an empty one once. */
static int feed_part(fed *f, size_t to) {
    size_t from = f->place;
    const uint8_t *part = lend_part(f->s->bytes + from, to - from);
    counted.parts++;
    do {
        now.place = f->place;
        if (!feed_once(f, part + (f->place - from), to)) return 0;
    } while (f->place < to);
    if (!memcmp(part, f->s->bytes + from, to - from)) return 1;
    tell("the part itself changed", 1, 0);
    return 0;
}

/* The end answers the unit that is open, if one is; a second end has nothing to answer. */
static int finish(fed *f) {
    now.place = f->place;
    for (int again = 0; again < 2; again++) {
        int open = unit_of(f) != NULL;
        size_t count = open ? f->s->slots : some_slots[below(6)];
        if (!below(4) && !probe_size(f, lend_part(f->s->bytes, 0), 0)) return 0;
        ck_stream_answer is = finishers[open ? f->s->strict : below(2)](f->state, rest.is + GUARD, CK_REST, lent_slots(), count);
        ck_stream_answer must = open ? end_unit(f) : nothing;
        if (!holds(&is, &must)) return 0;
    }
    return 1;
}

void feed_stream(const stream *s, const size_t *ends, size_t parts, size_t from, const char *way) {
    fed f = {s, 0, 0, {0, 0}};
    now.name = s->name, now.way = way, now.s = s, now.place = from;
    if (!below(4)) mark(&rest), mark(&slots);
    memcpy(slots.is, slots.must, with_guards(&slots));
    counted.feedings++;
    while (f.unit < s->count && s->units[f.unit].ended && s->units[f.unit].end <= from) f.place = s->units[f.unit++].end;
    /* To go on from a place, its state is put there, as if it had been kept elsewhere. */
    if (unit_of(&f)) keep_up_to(&f, from);
    memcpy(rest.is, rest.must, with_guards(&rest));
    for (size_t i = 0; i < parts; i++)
        if (!feed_part(&f, ends[i])) return;
    finish(&f);
}

/* ---- states */

void hold_state(const char *name, int left, ck_stream state, size_t rest_len, const uint8_t *part, size_t part_len, size_t count) {
    ck_stream_answer must = nothing;
    must.number = left ? CK_OK : CK_NO_STREAM, must.state = state;
    now.name = name, now.way = left ? "a state that is left" : "a state that no stream leaves", now.s = NULL, now.place = state.held;
    counted.states++;
    /* Two feeds of nothing; then, where the state is refused, two of a part and two ends. */
    for (int call = 0; call < (left ? 2 : 6); call++) {
        size_t size = call == 2 || call == 3 ? part_len : 0;
        const uint8_t *at = lend_part(part, size);
        ck_stream_answer is = call < 4 ? feeders[call % 2](state, at, size, rest.is + GUARD, rest_len, lent_slots(), count)
                                       : finishers[call % 2](state, rest.is + GUARD, rest_len, lent_slots(), count);
        counted.numbers[must.number]++;
        if (!holds(&is, &must)) return;
    }
}
