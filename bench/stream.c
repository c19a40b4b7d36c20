/* A stream in parts beside the same units read whole, in one process: kernel-like lines and the records of them, by parts of several sizes down to a
 * byte, and what a call with no byte costs by how much is held. bench/stream LINES, framed as the generator writes them. Ends with 1 if the stream
 * answers other units than the calls that read them whole. */
#include "chomkadieu.h"
#include "table.h"

#include <stdio.h>
#include <stdlib.h>
#include <string.h>
#include <time.h>

enum { ROUNDS = 7, REPEATS = 200000 };

/* Units one behind the other, and where each ends. */
typedef struct units {
    uint8_t *bytes;
    size_t length, count, *ends;
} units;

static uint32_t slots[CK_MOST_DWORDS];
static uint8_t rest[CK_REST];

/* The processor time of this process, so that other work on the machine counts as little as it can. */
static double now(void) {
    struct timespec t;
    clock_gettime(CLOCK_PROCESS_CPUTIME_ID, &t);
    return (double)t.tv_sec * 1e9 + (double)t.tv_nsec;
}

/* What all answers of a run come to, in their order. */
static uint64_t mixed(uint64_t sum, uint8_t number, const ck_entry *entry) {
    return (sum ^ number ^ (entry->route << 8) ^ (uint64_t)entry->dwords << 40 ^ entry->microseconds) * UINT64_C(0x9e3779b97f4a7c15);
}

static uint64_t whole(const units *u) {
    uint64_t sum = 0;
    for (size_t i = 0, at = 0; i < u->count; at = u->ends[i++]) {
        ck_entry_answer a = ck_read(u->bytes + at, u->ends[i] - at, slots, CK_MOST_DWORDS);
        sum = mixed(sum, a.number, &a.entry);
    }
    return sum;
}

static uint64_t in_parts(const units *u, size_t part) {
    uint64_t sum = 0;
    ck_stream_answer a = {0};
    for (size_t from = 0; from < u->length; from += part) {
        size_t length = u->length - from < part ? u->length - from : part;
        for (size_t at = 0; at < length; at += a.at) {
            a = ck_stream_feed(a.state, u->bytes + from + at, length - at, rest, CK_REST, slots, CK_MOST_DWORDS);
            if (a.ended) sum = mixed(sum, a.number, &a.entry);
        }
    }
    a = ck_stream_finish(a.state, rest, CK_REST, slots, CK_MOST_DWORDS);
    return a.ended ? mixed(sum, a.number, &a.entry) : sum;
}

static double timed(const units *u, size_t part, uint64_t *sum) {
    double best = 0;
    for (int round = 0; round < ROUNDS; round++) {
        double start = now();
        *sum = part ? in_parts(u, part) : whole(u);
        double taken = (now() - start) / (double)u->count;
        if (round == 0 || taken < best) best = taken;
    }
    return best;
}

static void *room(size_t length) {
    void *p = malloc(length);
    if (!p) exit(2);
    return p;
}

/* The lines of a file, each behind its length there, and with a newline behind it here. */
static units lines_of(const char *path) {
    FILE *file = fopen(path, "rb");
    if (!file) {
        perror(path);
        exit(2);
    }
    fseek(file, 0, SEEK_END);
    size_t length = (size_t)ftell(file);
    uint8_t *frames = room(length);
    rewind(file);
    if (fread(frames, 1, length, file) != length) exit(2);
    fclose(file);
    units u = {room(length), 0, 0, room(length * sizeof(size_t) / 4)};
    for (size_t at = 0; at < length;) {
        const uint8_t *p = frames + at;
        size_t n = p[0] | (size_t)p[1] << 8 | (size_t)p[2] << 16 | (size_t)p[3] << 24;
        at += 4 + n;
        if (n && p[3 + n] == '\n') n--;
        if (memchr(p + 4, '\n', n) || (n && p[4] == 0xA1)) continue;
        memcpy(u.bytes + u.length, p + 4, n);
        u.bytes[u.length + n] = '\n';
        u.ends[u.count++] = u.length += n + 1;
    }
    free(frames);
    return u;
}

/* The records of those that are entries. */
static units records_of(const units *u) {
    units r = {room(u->count * 700), 0, 0, room(u->count * sizeof(size_t))};
    for (size_t i = 0, at = 0; i < u->count; at = u->ends[i++]) {
        ck_entry_answer a = ck_read(u->bytes + at, u->ends[i] - at, slots, CK_MOST_DWORDS);
        if (a.number || r.length + CK_MOST_BYTES > u->count * 700) continue;
        r.length += ck_record_write(u->bytes + at, u->ends[i] - at, a.entry, slots, a.entry.dwords, r.bytes + r.length, CK_MOST_BYTES).bytes;
        r.ends[r.count++] = r.length;
    }
    return r;
}

static int rows(const char *name, const units *u) {
    static const size_t parts[] = {65536, 1500, 64, 1};
    uint64_t all, sum;
    double one = timed(u, 0, &all);
    printf("| %s, %s units of %s bytes | whole, by `ck_read` | %s | |\n", name, grouped((double)u->count, 0), grouped((double)u->length / (double)u->count, 1), grouped(one, 0));
    for (size_t i = 0; i < sizeof parts / sizeof *parts; i++) {
        double taken = timed(u, parts[i], &sum);
        printf("| | parts of %s | %s | %s |\n", grouped((double)parts[i], 0), grouped(taken, 0), grouped(taken / one, 2));
        if (sum != all) return fprintf(stderr, "stream: other answers by parts of %zu\n", parts[i]), 1;
    }
    return 0;
}

/* What a call with an empty part costs, which looks at what is held and takes nothing. */
static void held(size_t bytes) {
    double best = 0;
    memset(rest, 'a', sizeof rest);
    for (int round = 0; round < ROUNDS; round++) {
        ck_stream_answer a = {.state = {bytes, 0}};
        double start = now();
        for (int i = 0; i < REPEATS; i++) a = ck_stream_feed(a.state, rest, 0, rest, CK_REST, slots, CK_MOST_DWORDS);
        double taken = (now() - start) / REPEATS;
        if (a.number || a.state.held != bytes) exit(1);
        if (round == 0 || taken < best) best = taken;
    }
    printf("| %s | %s |\n", grouped((double)bytes, 0), grouped(best, 0));
}

int main(int count, char **arguments) {
    if (count != 2) return 2;
    units lines = lines_of(arguments[1]), records = records_of(&lines);
    printf("| what | how | ns a unit | times the whole |\n|---|---|---|---|\n");
    if (rows("kernel-like lines", &lines) || rows("their records", &records)) return 1;
    printf("\n| bytes of a line held | ns a call with no byte |\n|---|---|\n");
    static const size_t sizes[] = {0, 100, 1000, 4096};
    for (size_t i = 0; i < sizeof sizes / sizeof *sizes; i++) held(sizes[i]);
    return 0;
}
