/* How much stack a call takes: each runs on a stack of its own that is painted beforehand, and the deepest byte that changed tells. A first row
 * of a call that does nothing is what the thread itself takes; the others are told without it. memory BOOK; prints a table. */
#include "chomkadieu.h"
#include "table.h"

#include <pthread.h>
#include <stdio.h>
#include <stdlib.h>
#include <string.h>

enum { STACK = 1 << 20, PAINT = 0xa5 };

static uint8_t text[CK_MOST_BYTES], record[CK_MOST_BYTES], book[65536];
static size_t text_len, record_len, book_len;
static uint32_t slots[CK_MOST_DWORDS], places[CK_MOST_DWORDS];
static ck_entry_answer entry;
static ck_slot table[CK_MOST_PENDING];
static const uint32_t crossing[256] = {0, 1, 14, 0x0ed738b6, 0xbb40ff42, 0xe290c297, 0x07ffb2c0, 3};

static void nothing(void) {}
static void parse(void) { ck_parse(text, text_len, slots, CK_MOST_DWORDS); }
static void read_record(void) { ck_record_read(record, record_len, slots, CK_MOST_DWORDS); }
static void read_text(void) { ck_read(text, text_len, slots, CK_MOST_DWORDS); }
static void what(void) { ck_what(text, text_len); }
static void write_record(void) { ck_record_write(text, text_len, entry.entry, slots, entry.entry.dwords, record, sizeof record); }
static void check_book(void) { ck_book_check(book, book_len); }
static void packet(void) { ck_packet(8, book, book_len, crossing, 256, places, CK_MOST_DWORDS); }
static void checked_packet(void) { ck_checked_packet(8, book, book_len, crossing, 256, places, CK_MOST_DWORDS); }
static void text_packet(void) { ck_read_packet(text, text_len, book, book_len, slots, CK_MOST_DWORDS, places, CK_MOST_DWORDS); }
static void type_asked(void) { ck_packet_type(8, book, book_len, crossing, 256); }
static void step(void) {
    ck_entry request = entry.entry;
    request.kind = 1, request.seq = 1;
    ck_pending_step(request, table, CK_MOST_PENDING);
}
static void field_asked(void) { ck_described_field_by_name(8, book, book_len, crossing, 256, places, 256, (const uint8_t *)"UUID", 4); }

static const struct {
    const char *name;
    void (*call)(void);
} rows[] = {
    {"nothing", nothing},
    {"ck_parse", parse},
    {"ck_record_write", write_record},
    {"ck_record_read", read_record},
    {"ck_read", read_text},
    {"ck_what", what},
    {"ck_book_check", check_book},
    {"ck_packet", packet},
    {"ck_checked_packet", checked_packet},
    {"ck_read_packet", text_packet},
    {"ck_packet_type", type_asked},
    {"ck_described_field_by_name", field_asked},
    {"ck_pending_step", step},
};

static void *run(void *call) {
    (*(void (**)(void))call)();
    return NULL;
}

/* Bytes from the deepest that changed to the top. */
static size_t deepest(void (*call)(void)) {
    uint8_t *stack = aligned_alloc(4096, STACK);
    pthread_attr_t how;
    pthread_t thread;
    memset(stack, PAINT, STACK);
    if (pthread_attr_init(&how) || pthread_attr_setstack(&how, stack, STACK) || pthread_create(&thread, &how, run, &call)) exit(2);
    pthread_join(thread, NULL);
    size_t at = 0;
    while (at < STACK && stack[at] == PAINT) at++;
    free(stack);
    return STACK - at;
}

/* An inter-domain request with 256 dwords, whose line has four pairs. */
static void make_text(void) {
    text_len = (size_t)sprintf((char *)text, "a-1 [002] 1.2: tb_rx: type=TB_CFG_PKG_XDOMAIN_REQ size=3 domain=0 route=0 data=[");
    for (int i = 0; i < 256; i++) text_len += (size_t)sprintf((char *)text + text_len, i ? ", 0x%08x" : "0x%08x", (unsigned)crossing[i]);
    text_len += (size_t)sprintf((char *)text + text_len, "]");
    entry = ck_parse(text, text_len, slots, CK_MOST_DWORDS);
    record_len = ck_record_write(text, text_len, entry.entry, slots, entry.entry.dwords, record, sizeof record).bytes;
}

/* Each call gets as far as an answer, else its row would tell of a refusal. */
static int all_answered(void) {
    ck_text_packet p = ck_read_packet(text, text_len, book, book_len, slots, CK_MOST_DWORDS, places, CK_MOST_DWORDS);
    ck_type t = ck_packet_type(8, book, book_len, crossing, 256);
    return !entry.number && entry.entry.dwords == 256 && record_len && !ck_book_check(book, book_len) && !p.packet.number && p.packet.has_uuid && t.present;
}

int main(int count, char **words) {
    FILE *file = count > 1 ? fopen(words[1], "rb") : NULL;
    if (!file) return puts("usage: memory BOOK"), 2;
    book_len = fread(book, 1, sizeof book, file);
    fclose(file);
    make_text();
    if (!all_answered()) return puts("a call is refused"), 1;
    size_t bare = deepest(nothing);
    printf("| call | bytes of stack |\n|---|---|\n");
    for (size_t i = 1; i < sizeof rows / sizeof *rows; i++) printf("| `%s` | %s |\n", rows[i].name, grouped((double)(deepest(rows[i].call) - bare), 0));
    return 0;
}
