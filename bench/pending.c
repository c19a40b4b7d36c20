/* A step over a table of requests beside the reading of its line, in one process. Prints a table, and a sentence where a step costs more than the short
 * line; ends with 1 if a line or a step is not answered as it must be. */
#include "chomkadieu.h"
#include "table.h"

#include <stdio.h>
#include <string.h>
#include <time.h>

enum { ROUNDS = 15, REPEATS = 20000, SLOTS = CK_MOST_DWORDS };

static uint32_t dwords[SLOTS];
static ck_slot table[CK_MOST_PENDING];

/* The processor time of this process, so that other work on the machine counts as little as it can. */
static double now(void) {
    struct timespec t;
    clock_gettime(CLOCK_PROCESS_CPUTIME_ID, &t);
    return (double)t.tv_sec * 1e9 + (double)t.tv_nsec;
}

static ck_entry entry_of(const char *line) { return ck_parse((const uint8_t *)line, strlen(line), dwords, SLOTS).entry; }

/* Best nanoseconds of one reading of a line. */
static double reading(const char *line) {
    double best = 0;
    size_t length = strlen(line);
    for (int round = 0; round < ROUNDS; round++) {
        unsigned refused = 0;
        double start = now();
        for (int i = 0; i < REPEATS; i++) refused += ck_parse((const uint8_t *)line, length, dwords, SLOTS).number != CK_OK;
        double taken = (now() - start) / REPEATS;
        if (refused) return 0;
        if (round == 0 || taken < best) best = taken;
    }
    return best;
}

/* Best nanoseconds of one step; two entries in turn, so that the table is the same again behind them. 0 where one is reported otherwise. */
static double stepping(const ck_entry *entries, const uint8_t *reports, size_t slots) {
    double best = 0;
    for (int round = 0; round < ROUNDS; round++) {
        unsigned other = 0;
        double start = now();
        for (int i = 0; i < REPEATS; i++) other += ck_pending_step(entries[i % 2], table, slots).report != reports[i % 2];
        double taken = (now() - start) / REPEATS;
        if (other) return 0;
        if (round == 0 || taken < best) best = taken;
    }
    return best;
}

#define HEAD "fwd-7 [002] d..1. 12.000345: "
#define TAIL " offset=0x1, len=1, port=0, config=0x2, seq=1, data=[0x00000000, 0x00000301, 0x04002001]"

/* The line of a request with the keys that the kernel writes, a short one with none but those that are needed, and the response's. */
static const char REQUEST[] = HEAD "tb_tx: type=TB_CFG_PKG_READ, size=3, domain=0, route=301," TAIL;
static const char SHORT[] = "a-1 [002] 1.2: tb_tx: type=TB_CFG_PKG_READ size=3 domain=0 route=1 seq=1 data=[1]";
static const char RESPONSE[] = HEAD "tb_rx: type=TB_CFG_PKG_READ, size=3, domain=0, route=8000000000000301," TAIL;

/* Of the slots so many wait, in their order: writes, and behind them so many reads like the entry. */
static void fill(size_t slots, size_t waiting, size_t reads, ck_entry e) {
    ck_pending_clear(table, slots);
    for (size_t i = 0; i < waiting; i++) {
        e.kind = i + reads < waiting ? 3 : 1;
        ck_pending_step(e, table, slots);
    }
}

static const struct {
    const char *name;
    size_t slots, waiting, reads;
    uint8_t kinds[2], reports[2];
} cases[] = {
    {"a request is turned away, 64 wait", 64, 64, 0, {1, 1}, {CK_PENDING_TURNED_AWAY, CK_PENDING_TURNED_AWAY}},
    {"a response is stray, 64 wait", 64, 64, 0, {2, 2}, {CK_PENDING_STRAY, CK_PENDING_STRAY}},
    {"the oldest of 64 with the same four is answered, then a request taken; each", 64, 64, 64, {2, 1}, {CK_PENDING_ANSWERED, CK_PENDING_TAKEN}},
    {"the youngest of 64 is answered, then a request taken; each", 64, 64, 1, {2, 1}, {CK_PENDING_ANSWERED, CK_PENDING_TAKEN}},
    {"another kind, 64 wait", 64, 64, 0, {7, 7}, {CK_PENDING_OTHER, CK_PENDING_OTHER}},
    {"a response is stray, 64 slots and none waits", 64, 0, 0, {2, 2}, {CK_PENDING_STRAY, CK_PENDING_STRAY}},
    {"one of 64 slots waits and is answered, then a request taken; each", 64, 1, 1, {2, 1}, {CK_PENDING_ANSWERED, CK_PENDING_TAKEN}},
    {"the same with 8 slots", 8, 1, 1, {2, 1}, {CK_PENDING_ANSWERED, CK_PENDING_TAKEN}},
};

int main(void) {
    double line = reading(REQUEST), answer = reading(RESPONSE), least = reading(SHORT), worst = 0;
    printf("| what | ns | of its line | of the short line |\n|---|---|---|---|\n");
    printf("| `ck_parse`, a read request of %zu bytes | %s | 1 | |\n", sizeof REQUEST - 1, grouped(line, 0));
    printf("| `ck_parse`, its response | %s | | |\n", grouped(answer, 0));
    printf("| `ck_parse`, a request of %zu bytes with the needed keys alone | %s | | 1 |\n", sizeof SHORT - 1, grouped(least, 0));
    ck_entry request = entry_of(REQUEST);
    for (size_t i = 0; i < sizeof cases / sizeof *cases; i++) {
        ck_entry entries[2] = {request, request};
        for (int k = 0; k < 2; k++) entries[k].kind = cases[i].kinds[k];
        fill(cases[i].slots, cases[i].waiting, cases[i].reads, request);
        double taken = stepping(entries, cases[i].reports, cases[i].slots);
        if (taken == 0) return printf("%s: another report\n", cases[i].name), 2;
        if (taken > worst) worst = taken;
        printf("| %s | %s | %.3f | %.3f |\n", cases[i].name, grouped(taken, 0), taken / line, taken / least);
    }
    if (worst > least) printf("\nThe slowest step costs more than the short line.\n");
    return line == 0 || answer == 0 || least == 0;
}
