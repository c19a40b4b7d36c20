/* A stream of lines and records on standard input to its entries, as its parts come: a row for each unit as soon as it has ended.
 *
 *     cc -Iinclude -o target/stream tests/capi/examples/stream.c target/staticlib/libcapi.a && target/stream < samples/fwd.txt
 */
#include "chomkadieu.h"

#include <inttypes.h>
#include <stdio.h>
#include <unistd.h>

static uint8_t part[4096], rest[CK_REST];
static uint32_t slots[CK_MOST_DWORDS];

/* Task and function stand in the rest buffer, the dwords in the slots. */
static void entry(ck_entry e) {
    printf("%.*s-%" PRIu32 " ", (int)e.task_len, (const char *)rest + e.task_at, e.pid);
    printf("%.*s: kind %u, route %" PRIx64 ", data", (int)e.function_len, (const char *)rest + e.function_at, e.kind, e.route);
    for (size_t i = 0; i < e.dwords; i++) printf(" %08" PRIx32, slots[i]);
    puts("");
}

static void row(ck_stream_answer a) {
    if (!a.ended) return;
    if (a.number == CK_OK) entry(a.entry);
    else printf("refused %u\n", a.number);
}

int main(void) {
    ck_stream state = {0, 0};
    ssize_t got;
    while ((got = read(STDIN_FILENO, part, sizeof part)) > 0)
        for (size_t at = 0; at < (size_t)got;) {
            ck_stream_answer a = ck_stream_feed(state, part + at, (size_t)got - at, rest, CK_REST, slots, CK_MOST_DWORDS);
            /* Nobody else writes to the state and the rest, so it does not come to this. */
            if (a.number == CK_NO_STREAM) return 3;
            row(a);
            at += a.at, state = a.state;
        }
    if (got < 0) return perror("stream"), 1;
    row(ck_stream_finish(state, rest, CK_REST, slots, CK_MOST_DWORDS));
    return 0;
}
