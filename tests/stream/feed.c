/* stream [MOST]: takes streams, what the reading says of them and how to cut them from standard input (oracle/judge/streams.py writes it), feeds each
 * stream to the linked library by every cut, and tells the first differences and what was counted. Ends earlier with MOST differences. */
#include "feed.h"

#include <stdio.h>
#include <stdlib.h>
#include <string.h>

/* ---- a case, as it was read */

static struct {
    uint8_t *bytes;
    size_t size, at, room;
} input;

static void stop(const char *why) {
    fprintf(stderr, "feed: %s\n", why);
    exit(2);
}

/* The next case, after its length of four bytes; 0 at the end. */
static int read_case(void) {
    uint8_t head[4];
    size_t got = fread(head, 1, 4, stdin);
    if (got == 0) return 0;
    if (got < 4) stop("a case is cut short");
    input.size = head[0] | (size_t)head[1] << 8 | (size_t)head[2] << 16 | (size_t)head[3] << 24, input.at = 0;
    if (input.size > input.room) input.bytes = realloc(input.bytes, input.room = 2 * input.size);
    if (!input.bytes || fread(input.bytes, 1, input.size, stdin) != input.size) stop("a case is cut short");
    return 1;
}

static const uint8_t *take(size_t size) {
    if (size > input.size - input.at) stop("a case is shorter than it says");
    return input.bytes + (input.at += size) - size;
}

static uint64_t number(size_t width) {
    const uint8_t *at = take(width);
    uint64_t value = 0;
    for (size_t i = 0; i < width; i++) value |= (uint64_t)at[i] << 8 * i;
    return value;
}

static const char *name(void) {
    static char text[256];
    size_t size = number(1);
    memcpy(text, take(size), size);
    text[size] = 0;
    return text;
}

/* ---- a stream */

/* An entry's fields in the header's order, each as wide as there. */
static ck_entry entry(void) {
    ck_entry e;
    e.task_at = number(8), e.task_len = number(8), e.pid = number(4), e.cpu = number(2), e.seconds = number(8), e.microseconds = number(8);
    e.function_at = number(8), e.function_len = number(8), e.kind = number(1), e.size = number(2), e.dropped = number(1);
    e.domain = number(4), e.route = number(8), e.offset = number(4), e.code = number(4), e.len = number(4), e.port = number(4);
    e.config = number(4), e.seq = number(4), e.unplug = number(4), e.dwords = number(8);
    return e;
}

static unit read_unit(size_t start) {
    unit u = {.start = start};
    u.end = number(4), u.keep = number(4), u.counts = number(1), u.ended = number(1);
    u.says.number = number(1), u.says.ended = 1;
    u.says.entry = entry();
    u.dwords = take(4 * u.says.entry.dwords);
    return u;
}

static stream read_stream(void) {
    static unit *units;
    static size_t room;
    stream s = {.name = name()};
    s.strict = number(1), s.slots = number(2), s.size = number(4), s.bytes = take(s.size), s.count = number(4);
    if (s.count > room) units = realloc(units, (room = 2 * s.count) * sizeof *units);
    if (s.count && !units) stop("no memory");
    s.units = units;
    for (size_t i = 0; i < s.count; i++) units[i] = read_unit(i ? units[i - 1].end : 0);
    if (s.count && units[s.count - 1].end != s.size) stop("the units are not the stream");
    return s;
}

/* ---- cuts: the places where parts end, an empty part being a place twice */

static size_t *ends, room_of_ends, end_count;

static void end_at(size_t place) {
    if (end_count == room_of_ends) ends = realloc(ends, (room_of_ends = 2 * room_of_ends + 64) * sizeof *ends);
    if (!ends) stop("no memory");
    ends[end_count++] = place;
}

/* The same, with an empty part now and then. */
static void part_to(size_t place) {
    end_at(place);
    while (!below(12)) end_at(place);
}

static void fed_by(const stream *s, size_t from, const char *way) {
    feed_stream(s, ends, end_count, from, way);
    end_count = 0;
}

static void in_one(const stream *s) {
    part_to(s->size);
    fed_by(s, 0, "in one part");
}

static void byte_by_byte(const stream *s) {
    if (!below(2)) end_at(0);
    for (size_t i = 1; i <= s->size; i++) part_to(i);
    fed_by(s, 0, "byte by byte");
}

/* Every two parts, the empty ones included. */
static void every_single(const stream *s) {
    for (size_t cut = 0; cut <= s->size; cut++) {
        end_at(cut), part_to(s->size);
        fed_by(s, 0, "every two parts");
    }
}

static void every_double(const stream *s) {
    for (size_t first = 0; first <= s->size; first++)
        for (size_t second = first; second <= s->size; second++) {
            end_at(first), end_at(second), end_at(s->size);
            fed_by(s, 0, "every three parts");
        }
}

/* All ways into parts that are not empty, and each of them once more with empty parts among them. */
static void every_way(const stream *s) {
    uint64_t ways = s->size ? UINT64_C(1) << (s->size - 1) : 1;
    for (uint64_t way = 0; way < 2 * ways; way++) {
        for (size_t i = 1; i <= s->size; i++)
            if (i == s->size || way / 2 >> (i - 1) & 1) way % 2 ? part_to(i) : end_at(i);
        fed_by(s, 0, "every way");
    }
}

static void by_chance(const stream *s, size_t from, size_t most, const char *way) {
    for (size_t at = from; at < s->size;) {
        size_t left = s->size - at, size = below(most + 1);
        part_to(at += size < left ? size : left);
    }
    fed_by(s, from, way);
}

static int by_value(const void *a, const void *b) {
    size_t x = *(const size_t *)a, y = *(const size_t *)b;
    return (x > y) - (x < y);
}

/* Near the ends of units, and near the bounds within them: the length of a record, of a line, of the longest record, of the buffer. */
static void around(const stream *s) {
    static const size_t bounds[6] = {0, 3, 4096, 4097, 5227, CK_REST};
    for (size_t i = 0; i < s->count; i++)
        for (size_t b = 0; b < 6; b++) {
            size_t place = s->units[i].start + bounds[b] + below(4);
            if (place >= 2 && place - 2 <= s->size && below(4)) end_at(place - 2);
        }
    end_at(s->size);
    qsort(ends, end_count, sizeof *ends, by_value);
    fed_by(s, 0, "near the ends of units");
}

/* In the order of WAYS in oracle/generate/streams.py. */
static void cut(const stream *s, uint64_t way, size_t given) {
    switch (way) {
    case 0: in_one(s); return;
    case 1: byte_by_byte(s); return;
    case 2: every_single(s); return;
    case 3: every_double(s); return;
    case 4: every_way(s); return;
    case 5: by_chance(s, 0, given, "by chance"); return;
    case 6: around(s); return;
    case 7: by_chance(s, given, s->size / 3 + 1, "going on from a state"); return;
    default: stop("there is no such cut");
    }
}

/* ---- states */

static void read_state(void) {
    const char *sort = name();
    int left = number(1) != 0;
    ck_stream state = {number(8), 0};
    state.passed = number(8);
    size_t rest_len = number(4);
    if (rest_len > MOST_REST) stop("a buffer is longer than there is memory");
    const uint8_t *held = take(rest_len);
    size_t part_len = number(4), before = rest.size;
    const uint8_t *part = take(part_len);
    rest.size = MOST_REST;
    mark(&rest);
    memcpy(rest.is + GUARD, held, rest_len), memcpy(rest.must + GUARD, held, rest_len);
    hold_state(sort, left, state, rest_len, part, part_len, number(2));
    rest.size = before;
}

static void tell_all(void) {
    printf("streams %llu\nfeedings %llu\nparts %llu\n", (unsigned long long)counted.streams, (unsigned long long)counted.feedings,
           (unsigned long long)counted.parts);
    printf("calls %llu\nunits %llu\nstates %llu\n", (unsigned long long)counted.calls, (unsigned long long)counted.units,
           (unsigned long long)counted.states);
    printf("entry_of_line %llu\nentry_of_record %llu\n", (unsigned long long)counted.entries_of_lines, (unsigned long long)counted.entries_of_records);
    for (int i = 1; i < 256; i++)
        if (counted.numbers[i]) printf("number_%d %llu\n", i, (unsigned long long)counted.numbers[i]);
    printf("differences %llu\n", (unsigned long long)counted.differences);
}

int main(int count, char **words) {
    uint64_t most = count > 1 ? strtoull(words[1], NULL, 10) : UINT64_MAX;
    rest.size = CK_REST, slots.size = 4 * MOST_LENT_SLOTS;
    mark(&rest), mark(&slots);
    while (counted.differences < most && read_case()) {
        if (number(1)) {
            read_state();
            continue;
        }
        stream s = read_stream();
        counted.streams++;
        for (uint64_t left = number(4); left; left--) {
            uint64_t way = number(1), given = number(4);
            chance = number(8);
            cut(&s, way, given);
        }
    }
    tell_all();
    return 0;
}
