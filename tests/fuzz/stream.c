/* Streams: any bytes, cut into parts, to ck_stream_feed, ck_stream_finish and their lenient forms. Choices: slots lent (2 bytes), strict or lenient
 * (1), the size of another buffer (2), a state (8 and 8), then the sizes of the parts, a byte each and round again. */
#include "entries.h"

const unsigned used_parts = 1 << CHOICES | 1 << TEXT | IS_STREAM;

enum { LINE_KEPT = MOST_TEXT + 1, SIZES_AT = 21, MOST_FED = 600 };

/* ---- a stream by its words */

typedef struct unit {
    size_t start, end;     /* where it lies in the stream */
    size_t keep;           /* how many of its bytes are kept at most */
    int ended, overlong;   /* has it its last byte; does it say more than a record may have? */
} unit;

static unit unit_at(part s, size_t start) {
    unit u = {start, s.len, LINE_KEPT, 0, 0};
    size_t left = s.len - start;
    if (!left) return u;
    if (s.at[start] != 0xa1) {
        const uint8_t *newline = memchr(s.at + start, '\n', left);
        u.ended = newline != NULL;
        if (newline) u.end = (size_t)(newline - s.at) + 1;
        return u;
    }
    size_t says = left < 3 ? SIZE_MAX : 3 + word_at(s.at + start + 1);
    u.overlong = left >= 3 && says > CK_MOST_BYTES, u.ended = says <= left;
    u.keep = u.overlong ? 3 : CK_MOST_BYTES;
    if (u.ended) u.end = start + says;
    return u;
}

static ck_stream state_in(unit u, size_t place) {
    size_t read = place - u.start, held = read < u.keep ? read : u.keep;
    return (ck_stream){held, u.overlong ? read - held : 0};
}

/* Is the state one of those that are kept: the bytes that are held are the start of a unit that has no last byte yet, and as many as would be? */
static int is_left(ck_stream state, const uint8_t *rest) {
    if (state.held > LINE_KEPT && rest[0] != 0xa1) return 0;
    if (state.held > CK_MOST_BYTES || state.passed > 65535) return 0;
    unit u = unit_at((part){rest, state.held}, 0);
    if (!state.held || !u.overlong) return !u.ended && u.end == state.held && !state.passed;
    return state.held == 3 && 3 + state.passed < 3 + word_at(rest + 1);
}

/* What a unit must answer: its own number, or what the readers of texts say of it alone. */
static void expect(told *to, unit u, part s, int strict, size_t count) {
    static const ck_entry blank = {
        .offset = CK_NONE, .code = CK_NONE, .len = CK_NONE, .port = CK_NONE, .config = CK_NONE, .seq = CK_NONE, .unplug = CK_NONE};
    size_t len = u.end - u.start, kept = block_count;
    const uint8_t *at = s.at + u.start;
    uint8_t number = *at != 0xa1 ? (len <= MOST_TEXT ? 0 : *at == '#' ? CK_IDLE : CK_LONG_LINE) : u.overlong ? CK_LONG_RECORD : u.ended ? 0 : CK_CUT_RECORD;
    if (number) {
        to->number = number, to->entry = blank;
        return;
    }
    read_into(to, strict ? ck_read : ck_read_lenient, lend(at, len), len, count);
    drop_blocks_to(kept);
}

/* ---- memory that is lent from call to call, and what must stand in it */

typedef struct held {
    room is;
    uint8_t must[GUARD + MOST_LENT + GUARD];
} held;

static size_t guard_of(const held *h) { return h->is.way == GUARDED ? GUARD : 0; }
static uint8_t *must_at(held *h) { return h->must + guard_of(h); }

static void hold(held *h, size_t size, int way) {
    h->is = lend_room(size, way);
    memcpy(h->must, h->is.base, guard_of(h) + size + guard_of(h));
}

static int as_it_must(const held *h) { return !memcmp(h->is.base, h->must, guard_of(h) + h->is.size + guard_of(h)); }

/* ---- one feeding, over both ways of memory at once */

typedef struct fed {
    part s;
    int strict;
    size_t count, place;
    unit u;                /* the unit that the place is in */
    ck_stream state;
    held rests[WAYS], slots[WAYS];
} fed;

typedef ck_stream_answer feeder(ck_stream, const uint8_t *, size_t, uint8_t *, size_t, uint32_t *, size_t);
typedef ck_stream_answer finisher(ck_stream, const uint8_t *, size_t, uint32_t *, size_t);
static feeder *const feeds[2] = {ck_stream_feed_lenient, ck_stream_feed};
static finisher *const finishes[2] = {ck_stream_finish_lenient, ck_stream_finish};

static void begin(fed *f, part s, int strict, size_t count) {
    f->s = s, f->strict = strict, f->count = count, f->place = 0, f->u = unit_at(s, 0), f->state = (ck_stream){0, 0};
    for (int way = 0; way < WAYS; way++) hold(f->rests + way, CK_REST, way), hold(f->slots + way, 4 * count, way);
}

static void leave(fed *f) {
    for (int way = 0; way < WAYS; way++) free(f->rests[way].is.base), free(f->slots[way].is.base);
}

static int same_state(ck_stream a, ck_stream b) { return a.held == b.held && a.passed == b.passed; }

/* Both answers, but for their entries, and all that was lent. */
static void must_say(fed *f, const ck_stream_answer is[WAYS], uint8_t number, uint8_t ended, size_t at, ck_stream state) {
    for (int way = 0; way < WAYS; way++) {
        must(is[way].number == number && is[way].ended == ended, "a unit is answered with its last byte, by its entry or its number");
        must(is[way].at == at, "as much is taken as belongs to the unit");
        must(same_state(is[way].state, state), "what is kept follows from the place in the stream alone");
        must(as_it_must(f->rests + way), "the rest buffer has what is kept of the unit, and behind it what it had");
        must(as_it_must(f->slots + way), "the slots have the dwords of an entry, and behind them what they had");
    }
}

static void must_be_blank(const ck_stream_answer is[WAYS]) {
    for (int way = 0; way < WAYS; way++) must(is_blank(&is[way].entry), "without an entry the entry is blank");
}

/* What is kept up to a place stands in the buffers. */
static void keep_up_to(fed *f, size_t place) {
    f->state = state_in(f->u, place), f->place = place;
    for (int way = 0; way < WAYS; way++) memcpy(must_at(f->rests + way), f->s.at + f->u.start, f->state.held);
}

/* The unit's answer, whose parts lie in the buffer. */
static void must_answer(fed *f, const ck_stream_answer is[WAYS], size_t at) {
    static told e;
    expect(&e, f->u, f->s, f->strict, f->count);
    tally(e.number);
    for (int way = 0; way < WAYS; way++) {
        memcpy(must_at(f->slots + way), e.dwords, 4 * e.entry.dwords);
        must(same_flat(&is[way].entry, &e.entry), "a unit gives what it gives alone");
    }
    f->u = unit_at(f->s, f->u.end), f->state = (ck_stream){0, 0};
    must_say(f, is, e.number, 1, at, f->state);
}

/* One call. */
static void feed_once(fed *f, const uint8_t *lent, size_t to) {
    size_t from = f->place;
    int ends = f->u.ended && f->u.end <= to;
    ck_stream_answer is[WAYS];
    for (int way = 0; way < WAYS; way++)
        is[way] = feeds[f->strict](f->state, lent, to - from, f->rests[way].is.at, CK_REST, words_of(f->slots[way].is), f->count);
    keep_up_to(f, ends ? f->u.end : to);
    if (ends) must_answer(f, is, f->place - from);
    else must_say(f, is, 0, 0, to - from, f->state), must_be_blank(is);
}

/* Until all of the part is taken, an empty one once. Its end is the end of a block. */
static void feed_part(fed *f, size_t to) {
    size_t from = f->place, kept = block_count;
    const uint8_t *lent = lend(f->s.at + from, to - from);
    do feed_once(f, lent + (f->place - from), to);
    while (f->place < to);
    drop_blocks_to(kept);
}

/* In parts of the sizes that were chosen: small ones as they are, the others in steps up to some thousand. Behind so many parts, what is left goes
 * at once. */
static void feed_all(fed *f, part sizes) {
    for (size_t i = 0; sizes.len && i < MOST_FED && f->place < f->s.len; i++) {
        size_t b = sizes.at[i % sizes.len], wanted = b < 200 ? b : (b - 199) * 97, left = f->s.len - f->place;
        feed_part(f, f->place + (wanted < left ? wanted : left));
    }
    feed_part(f, f->s.len);
}

/* The end, and a second end behind it. */
static void finish(fed *f) {
    for (int again = 0; again < 2; again++) {
        int open = f->u.start < f->s.len;
        ck_stream_answer is[WAYS];
        for (int way = 0; way < WAYS; way++)
            is[way] = finishes[f->strict](f->state, f->rests[way].is.at, CK_REST, words_of(f->slots[way].is), f->count);
        if (open) must_answer(f, is, 0);
        else must_say(f, is, 0, 0, 0, (ck_stream){0, 0}), must_be_blank(is);
    }
}

/* ---- 53 */

/* Each call over a buffer of a size and a state, which it must refuse or not; if it must, nothing changes. */
static void try_state(part first, ck_stream state, size_t size, int strict, size_t count) {
    static fed f;
    begin(&f, first, strict, count);
    for (int way = 0; way < WAYS; way++) {
        free(f.rests[way].is.base);
        hold(f.rests + way, size, way);
        size_t len = first.len < size ? first.len : size;
        memcpy(f.rests[way].is.at, first.at, len), memcpy(must_at(f.rests + way), first.at, len);
    }
    int left[WAYS];
    ck_stream_answer fed_nothing[WAYS], ended[WAYS];
    for (int way = 0; way < WAYS; way++) {
        held *rest = f.rests + way, *slots = f.slots + way;
        left[way] = size == CK_REST && is_left(state, rest->is.at);
        fed_nothing[way] = feeds[strict](state, lend(first.at, 0), 0, rest->is.at, size, words_of(slots->is), count);
        must(fed_nothing[way].number == (left[way] ? 0 : CK_NO_STREAM), "53 is another size, or a state that no stream leaves");
        must(same_state(fed_nothing[way].state, state), "nothing changes a state");
        must(!fed_nothing[way].ended && !fed_nothing[way].at && is_blank(&fed_nothing[way].entry), "and answers no unit");
        must(as_it_must(rest) && as_it_must(slots), "and changes nothing");
        ended[way] = finishes[strict](state, rest->is.at, size, words_of(slots->is), count);
        must((ended[way].number == CK_NO_STREAM) == !left[way], "the end refuses what a part refuses");
        must(as_it_must(rest) && (left[way] || as_it_must(slots)), "and changes no byte of the buffer");
    }
    tally(fed_nothing[0].number);
    leave(&f);
}

/* One stream by one cut, to its end. */
static void by_cut(part s, int strict, size_t count, part sizes) {
    static fed f;
    begin(&f, s, strict, count);
    feed_all(&f, sizes);
    finish(&f);
    leave(&f);
}

int LLVMFuzzerTestOneInput(const uint8_t *data, size_t size) {
    part parts[PARTS];
    cut(data, size, parts);
    part s = {lend(parts[TEXT].at, parts[TEXT].len), parts[TEXT].len}, sizes = {parts[CHOICES].at, 0};
    if (parts[CHOICES].len > SIZES_AT) sizes = (part){parts[CHOICES].at + SIZES_AT, parts[CHOICES].len - SIZES_AT};
    size_t count = count_of(choice(parts, 0, 2), CK_MOST_DWORDS, MOST_SLOTS), other = count_of(choice(parts, 3, 2), CK_REST, CK_REST + GUARD);
    int strict = choice(parts, 2, 1) & 1;
    by_cut(s, strict, count, (part){s.at, 0});
    by_cut(s, strict, count, sizes);
    try_state(s, (ck_stream){choice(parts, 5, 8), choice(parts, 13, 8)}, other, strict, count);
    try_state(s, (ck_stream){0, 0}, other, strict, count);
    return done();
}
