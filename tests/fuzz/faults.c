/* The library's calls with one fault put into them, which the environment's FAULT names, for the script `faults`: a check that cannot fail is none.
 * A call's own name as the fault makes its answer wrong; the others are lies about what is lent, and stray writes. */
#include "chomkadieu.h"

#include <stdlib.h>
#include <string.h>

static int is(const char *name) {
    static const char *fault;
    if (!fault) fault = getenv("FAULT") ? getenv("FAULT") : "";
    return !strcmp(fault, name);
}

/* Writes where AddressSanitizer does not look, so that it is the marks that show it. */
__attribute__((no_sanitize("address"))) static void poke(void *at) { *(volatile uint8_t *)at ^= 1; }

/* Calls come in pairs, the second of them between guards. */
static int second(void) {
    static int turn;
    return (turn ^= 1) == 0;
}

#define PACKET uint8_t kind, const uint8_t *book, size_t book_len, const uint32_t *dwords, size_t count
#define PACKET_ARGS kind, book, book_len, dwords, count
#define OVER const uint8_t *book, size_t book_len, const uint32_t *dwords, size_t count, const uint32_t *places, size_t places_len
#define OVER_ARGS book, book_len, dwords, count, places, places_len
#define TEXT const uint8_t *text, size_t len, const uint8_t *book, size_t book_len, uint32_t *slots, size_t count
#define TEXT_ARGS text, len, book, book_len, slots, count
#define NAMED const uint8_t *name, size_t name_len
#define ENTRY const uint8_t *book, size_t book_len, size_t entry

/* A call whose answer is changed if the fault has its name. */
#define WRAP(type, call, change, params, args)                                                                                                       \
    type __real_##call params;                                                                                                                       \
    type __wrap_##call params;                                                                                                                       \
    type __wrap_##call params {                                                                                                                      \
        type a = __real_##call args;                                                                                                                 \
        if (is(#call)) change;                                                                                                                       \
        return a;                                                                                                                                    \
    }
#define LIST(...) (__VA_ARGS__)

WRAP(ck_value, ck_packet_route, a.value ^= 1, LIST(PACKET), LIST(PACKET_ARGS))
WRAP(ck_value, ck_packet_cm, a.value ^= 1, LIST(PACKET), LIST(PACKET_ARGS))
WRAP(ck_value, ck_packet_adapter_num, a.value ^= 1, LIST(PACKET), LIST(PACKET_ARGS))
WRAP(ck_value, ck_packet_data_address, a.value ^= 1, LIST(PACKET), LIST(PACKET_ARGS))
WRAP(ck_value, ck_packet_data_size, a.value ^= 1, LIST(PACKET), LIST(PACKET_ARGS))
WRAP(ck_value, ck_packet_data_start, a.value ^= 1, LIST(PACKET), LIST(PACKET_ARGS))
WRAP(ck_value, ck_packet_is_read, a.value ^= 1, LIST(PACKET), LIST(PACKET_ARGS))
WRAP(ck_value, ck_packet_is_write, a.value ^= 1, LIST(PACKET), LIST(PACKET_ARGS))
WRAP(ck_value, ck_packet_is_xdomain, a.value ^= 1, LIST(PACKET), LIST(PACKET_ARGS))
WRAP(ck_uuid, ck_packet_uuid, a.dwords[3] ^= 1, LIST(PACKET), LIST(PACKET_ARGS))
WRAP(ck_uuid, ck_packet_uuid_by_name, a.dwords[3] ^= 1, LIST(PACKET, NAMED), LIST(PACKET_ARGS, name, name_len))
WRAP(ck_type, ck_packet_type, a.name ^= 1, LIST(PACKET), LIST(PACKET_ARGS))
WRAP(size_t, ck_packet_type_name, a++, LIST(PACKET, uint8_t *out, size_t room), LIST(PACKET_ARGS, out, room))
WRAP(ck_field_answer, ck_packet_field, a.entry ^= 1, LIST(PACKET, uint16_t offset), LIST(PACKET_ARGS, offset))
WRAP(ck_field_answer, ck_packet_field_by_name, a.source ^= 1, LIST(PACKET, NAMED), LIST(PACKET_ARGS, name, name_len))
WRAP(ck_field_answer, ck_packet_field_by_range, a.offset ^= 1, LIST(PACKET, NAMED), LIST(PACKET_ARGS, name, name_len))
WRAP(ck_value, ck_described_route, a.value ^= 1, LIST(const uint32_t *dwords, size_t count), LIST(dwords, count))
WRAP(ck_value, ck_described_cm, a.value ^= 1, LIST(const uint32_t *dwords, size_t count), LIST(dwords, count))
WRAP(ck_value, ck_described_value, a.value ^= 1, LIST(OVER, NAMED), LIST(OVER_ARGS, name, name_len))
WRAP(ck_value, ck_described_adapter_num, a.value ^= 1, LIST(OVER), LIST(OVER_ARGS))
WRAP(ck_value, ck_described_data_address, a.value ^= 1, LIST(uint8_t kind, OVER), LIST(kind, OVER_ARGS))
WRAP(ck_value, ck_described_data_size, a.value ^= 1, LIST(uint8_t kind, OVER), LIST(kind, OVER_ARGS))
WRAP(ck_uuid, ck_described_uuid_by_name, a.present ^= 1, LIST(OVER, NAMED), LIST(OVER_ARGS, name, name_len))
WRAP(ck_type, ck_described_type, a.value ^= 1, LIST(OVER), LIST(OVER_ARGS))
WRAP(ck_field_answer, ck_described_field, a.value ^= 1, LIST(uint8_t kind, OVER, uint16_t offset), LIST(kind, OVER_ARGS, offset))
WRAP(ck_field_answer, ck_described_field_by_name, a.value ^= 1, LIST(uint8_t kind, OVER, NAMED), LIST(kind, OVER_ARGS, name, name_len))
WRAP(ck_field_answer, ck_described_field_by_range, a.value ^= 1, LIST(uint8_t kind, OVER, NAMED), LIST(kind, OVER_ARGS, name, name_len))
WRAP(ck_field_answer, ck_field, a.source ^= 2,
     LIST(uint8_t kind, const uint8_t *book, size_t book_len, uint16_t offset, uint32_t dword, size_t entry),
     LIST(kind, book, book_len, offset, dword, entry))
WRAP(size_t, ck_range_count, a++, LIST(ENTRY), LIST(book, book_len, entry))
WRAP(ck_range_answer, ck_range, a.value ^= a.present, LIST(ENTRY, uint32_t dword, size_t k), LIST(book, book_len, entry, dword, k))
WRAP(ck_range_answer, ck_range_named, a.value ^= a.present, LIST(ENTRY, uint32_t dword, NAMED), LIST(book, book_len, entry, dword, name, name_len))
WRAP(size_t, ck_value_name, (a && a <= room ? poke(out) : (void)0), LIST(ENTRY, uint32_t value, uint8_t *out, size_t room),
     LIST(book, book_len, entry, value, out, room))
WRAP(ck_name_part, ck_name_at, a.at += a.len != 0, LIST(ENTRY), LIST(book, book_len, entry))
WRAP(size_t, ck_value_at, a ^= 1, LIST(ENTRY, uint32_t number), LIST(book, book_len, entry, number))
WRAP(ck_event_text, ck_event_name, a.bytes[13] ^= 1, LIST(uint8_t code), LIST(code))
WRAP(uint32_t, ck_adapter_num, a = entry.port, LIST(ck_entry entry), LIST(entry))
WRAP(uint32_t, ck_unplug, a = entry.unplug, LIST(ck_entry entry), LIST(entry))
WRAP(ck_entry_answer, ck_record_read, a.entry.pid ^= 1, LIST(const uint8_t *text, size_t len, uint32_t *slots, size_t count),
     LIST(text, len, slots, count))
WRAP(ck_what_answer, ck_what_lenient, a.what ^= 1, LIST(const uint8_t *text, size_t len), LIST(text, len))
WRAP(ck_packet_answer, ck_checked_packet, a.start ^= 1, LIST(PACKET, uint32_t *places, size_t places_len), LIST(PACKET_ARGS, places, places_len))
WRAP(ck_text_packet, ck_read_packet_lenient, a.dwords ^= 1, LIST(TEXT, uint32_t *places, size_t places_len), LIST(TEXT_ARGS, places, places_len))
WRAP(size_t, ck_packet_all, codes[0] ^= 1,
     LIST(const uint8_t *book, size_t book_len, const uint8_t *kinds, size_t kinds_len, const uint32_t *counts, size_t counts_len,
          const uint32_t *dwords, size_t count, uint32_t *places, size_t places_len, uint32_t *codes, size_t codes_len),
     LIST(book, book_len, kinds, kinds_len, counts, counts_len, dwords, count, places, places_len, codes, codes_len))

/* The strict calls, and what they would be if they let a bad piece through. */
ck_what_answer __real_ck_what(const uint8_t *, size_t);
ck_what_answer __wrap_ck_what(const uint8_t *, size_t);
ck_what_answer __wrap_ck_what(const uint8_t *text, size_t len) {
    ck_what_answer a = __real_ck_what(text, len);
    if (is("ck_what")) a.what ^= 1;
    if (is("a bad piece in what is a line") && a.number == CK_BAD_PIECE) a = __real_ck_what_lenient(text, len);
    return a;
}

ck_text_packet __real_ck_read_packet(TEXT, uint32_t *, size_t);
ck_text_packet __wrap_ck_read_packet(TEXT, uint32_t *, size_t);
ck_text_packet __wrap_ck_read_packet(TEXT, uint32_t *places, size_t places_len) {
    ck_text_packet a = __real_ck_read_packet(TEXT_ARGS, places, places_len);
    if (is("ck_read_packet")) a.dwords ^= 1;
    if (is("a bad piece in a packet") && a.packet.number == CK_BAD_PIECE) a = __real_ck_read_packet_lenient(TEXT_ARGS, places, places_len);
    return a;
}

ck_entry_answer __real_ck_parse(const uint8_t *, size_t, uint32_t *, size_t);
ck_entry_answer __real_ck_read(const uint8_t *, size_t, uint32_t *, size_t);

/* A lenient reader that refuses a bad piece, alone or with the other one. */
#define LENIENT(call, strict, fault)                                                                                                                 \
    ck_entry_answer __real_##call(const uint8_t *, size_t, uint32_t *, size_t);                                                                      \
    ck_entry_answer __wrap_##call(const uint8_t *, size_t, uint32_t *, size_t);                                                                      \
    ck_entry_answer __wrap_##call(const uint8_t *text, size_t len, uint32_t *slots, size_t count) {                                                  \
        int refuses = is("a bad piece refused by lenient") && strict(text, len, slots, 0).number == CK_BAD_PIECE;                                    \
        ck_entry_answer a = refuses ? strict(text, len, slots, count) : __real_##call(text, len, slots, count);                                      \
        if (is(#call)) fault;                                                                                                                        \
        return a;                                                                                                                                    \
    }
LENIENT(ck_parse_lenient, __real_ck_parse, a.entry.route ^= 1)
LENIENT(ck_read_lenient, __real_ck_read, a.entry.seq ^= 1)

/* The strict readers, both wrong alike about a bad piece, so that a plain reading must tell. */
static void put_18(ck_entry_answer *a, const uint8_t *text, size_t len, uint32_t *slots, size_t count) {
    static uint32_t scratch[512];
    if (is("18 for 15") && a->number == CK_NO_DATA) a->number = CK_BAD_PIECE;
    if (a->number != CK_BAD_PIECE) return;
    uint8_t lenient = __real_ck_read_lenient(text, len, scratch, count).number;
    if (is("16 before 18") && lenient == CK_MANY_DWORDS) a->number = lenient;
    if (is("17 before 18") && lenient == CK_FEW_SLOTS) a->number = lenient;
    if (is("a slot after a bad piece") && count) slots[0] ^= 1;
    if (is("a bad piece let through")) *a = __real_ck_read_lenient(text, len, slots, count);
}

ck_entry_answer __wrap_ck_read(const uint8_t *, size_t, uint32_t *, size_t);
ck_entry_answer __wrap_ck_read(const uint8_t *text, size_t len, uint32_t *slots, size_t count) {
    ck_entry_answer a = __real_ck_read(text, len, slots, count);
    if (is("ck_read")) a.entry.seq ^= 1;
    if (is("a number that no text has") && a.number) a.number = 10;
    put_18(&a, text, len, slots, count);
    if (is("a bad piece at the intake") && a.number == CK_BAD_PIECE) a = __real_ck_read_lenient(text, len, slots, count);
    if (is("a dword at the intake") && a.entry.dwords) slots[0] ^= 1;
    return a;
}

uint8_t __real_ck_book_check(const uint8_t *, size_t);
uint8_t __wrap_ck_book_check(const uint8_t *, size_t);
uint8_t __wrap_ck_book_check(const uint8_t *book, size_t book_len) {
    uint8_t a = __real_ck_book_check(book, book_len + is("book longer than lent"));
    return is("ck_book_check") ? CK_OK : a;
}

ck_packet_answer __real_ck_packet(PACKET, uint32_t *, size_t);
ck_packet_answer __wrap_ck_packet(PACKET, uint32_t *, size_t);
ck_packet_answer __wrap_ck_packet(PACKET, uint32_t *places, size_t places_len) {
    count += is("dwords more than lent");
    ck_packet_answer a = __real_ck_packet(PACKET_ARGS, places, places_len + is("places more than lent"));
    if (is("ck_packet")) a.start ^= 1;
    if (is("a place of another entry") && !a.number && count && places[0]) places[0]++;
    if (is("a place behind the dwords") && !a.number && count < places_len) places[count] ^= 1;
    if (is("a place after a refusal") && a.number && places_len) places[places_len - 1] ^= 1;
    return a;
}

size_t __real_ck_name(ENTRY, uint8_t *, size_t);
size_t __wrap_ck_name(ENTRY, uint8_t *, size_t);
size_t __wrap_ck_name(ENTRY, uint8_t *out, size_t room) {
    size_t a = __real_ck_name(book, book_len, entry, out, room + is("room for a name more than lent"));
    if (is("ck_name") && a && a <= room) out[0] ^= 1;
    if (is("a name cut short") && a > room && room) out[0] ^= 1;
    return a;
}

size_t __real_ck_packet_data(PACKET);
size_t __wrap_ck_packet_data(PACKET);
size_t __wrap_ck_packet_data(PACKET) {
    size_t a = __real_ck_packet_data(PACKET_ARGS);
    if (is("a dword that is lent for reading") && count) poke((uint32_t *)(uintptr_t)dwords);
    return a + is("ck_packet_data");
}

ck_write_answer __real_ck_record_write(const uint8_t *, size_t, ck_entry, const uint32_t *, size_t, uint8_t *, size_t);
ck_write_answer __wrap_ck_record_write(const uint8_t *, size_t, ck_entry, const uint32_t *, size_t, uint8_t *, size_t);
ck_write_answer __wrap_ck_record_write(const uint8_t *text, size_t len, ck_entry e, const uint32_t *dwords, size_t count, uint8_t *out, size_t room) {
    ck_write_answer a = __real_ck_record_write(text, len + is("text longer than lent"), e, dwords, count + is("dwords past the lent"), out,
                                               room + is("room more than lent"));
    if (is("ck_record_write") && a.bytes) out[a.bytes - 1] ^= 1;
    if (is("a byte behind the record") && a.bytes && a.bytes < room) out[a.bytes] ^= 1;
    if (is("a byte after a refusal") && a.number && room) out[room - 1] ^= 1;
    if (is("36 for 37") && a.number == CK_BAD_ENTRY) a.number = CK_SHORT_BUFFER;
    return a;
}

ck_entry_answer __wrap_ck_parse(const uint8_t *, size_t, uint32_t *, size_t);
ck_entry_answer __wrap_ck_parse(const uint8_t *line, size_t len, uint32_t *slots, size_t count) {
    ck_entry_answer a = __real_ck_parse(line, len + is("line longer than lent"), slots, count + is("slots more than lent"));
    int guarded = second();
    if (is("ck_parse")) a.entry.route ^= 1;
    put_18(&a, line, len, slots, count);
    if (is("a number that no line has") && a.number) a.number = 10;
    if (is("an entry with a refusal") && a.number) a.entry.kind = 1;
    if (is("a task outside the line") && !a.number) a.entry.task_at = len;
    if (is("what slots held") && !a.number && a.entry.dwords < count) a.entry.pid ^= slots[count - 1];
    if (is("a slot behind the dwords") && !a.number && a.entry.dwords < count) slots[a.entry.dwords] ^= 1;
    if (is("a slot after a refusal") && a.number && count) slots[count - 1] ^= 1;
    if (is("the guard before") && guarded) poke((uint8_t *)slots - 1);
    if (is("the guard behind") && guarded) poke(slots + count);
    return a;
}

/* ---- streams */

#define FEED ck_stream state, const uint8_t *part, size_t part_len, uint8_t *rest, size_t rest_len, uint32_t *slots, size_t count
#define END ck_stream state, const uint8_t *rest, size_t rest_len, uint32_t *slots, size_t count

ck_stream_answer __real_ck_stream_feed_lenient(FEED);
ck_stream_answer __wrap_ck_stream_feed_lenient(FEED);
ck_stream_answer __wrap_ck_stream_feed_lenient(FEED) {
    ck_stream_answer a = __real_ck_stream_feed_lenient(state, part, part_len, rest, rest_len, slots, count);
    if (is("ck_stream_feed_lenient")) a.entry.seq ^= 1;
    return a;
}

/* A refused unit: its answer, its slots, and what comes behind it. */
static void put_refused(ck_stream_answer *a, ck_stream state, uint32_t *slots, size_t count) {
    if (is("a slot after a refused unit") && count) slots[0] ^= 1;
    if (is("a refused unit stays open")) a->state = state;
    if (is("an entry with a refused unit")) a->entry.kind = 1;
    if (is("54 for 55") && a->number == CK_LONG_RECORD) a->number = CK_CUT_RECORD;
    if (is("30 for 54") && a->number == CK_CUT_RECORD) a->number = CK_NO_RECORD;
}

/* What memory and state a call of a part could get wrong. */
static void put_stray(ck_stream_answer *a, ck_stream before, const uint8_t *part, uint8_t *rest) {
    if (is("a byte behind what is kept") && a->state.held && a->state.held < CK_REST) rest[a->state.held] ^= 1;
    if (is("a byte that is kept") && a->state.held) rest[a->state.held - 1] ^= 1;
    if (is("the buffer is cleared behind a unit") && a->ended) rest[0] = 0;
    if (is("one byte of a line is kept too few") && a->state.held == 4097) a->state.held--;
    if (is("what passed is forgotten")) a->state.passed = 0;
    if (is("a newline behind a record is taken with it") && a->ended && rest[0] == 0xa1 && part[a->at - 1] != '\n') a->at++;
    if (is("an answer that hangs on the cut") && a->ended && before.held == 2) a->number ^= 1;
    if (is("a unit is answered one call late") && a->ended && a->at == 1) a->ended = 0;
}

ck_stream_answer __real_ck_stream_feed(FEED);
ck_stream_answer __wrap_ck_stream_feed(FEED);
ck_stream_answer __wrap_ck_stream_feed(FEED) {
    ck_stream before = state;
    size_t told = is("another size let through") ? CK_REST : rest_len;
    if (is("a state that no stream leaves let through") && state.held > CK_MOST_BYTES) state = (ck_stream){0, 0};
    ck_stream_answer a = __real_ck_stream_feed(state, part, part_len + is("part longer than lent"), rest, told, slots,
                                               count + is("slots for a stream more than lent"));
    int guarded = second();
    if (is("ck_stream_feed")) a.entry.seq ^= 1;
    if (a.number == CK_NO_STREAM) {
        if (is("a byte after 53") && rest_len) rest[rest_len - 1] ^= 1;
        if (is("a slot after 53") && count) slots[0] ^= 1;
        if (is("53 changes the state")) a.state = (ck_stream){0, 0};
        return a;
    }
    if (a.number) put_refused(&a, state, slots, count);
    put_stray(&a, before, part, rest);
    if (is("the guard before the buffer") && guarded) poke(rest - 1);
    if (is("the guard behind the buffer") && guarded) poke(rest + rest_len);
    if (is("what the buffer held") && !a.ended && a.state.held < CK_REST) a.entry.pid ^= rest[CK_REST - 1];
    return a;
}

ck_stream_answer __real_ck_stream_finish(END);
ck_stream_answer __wrap_ck_stream_finish(END);
ck_stream_answer __wrap_ck_stream_finish(END) {
    ck_stream_answer a = __real_ck_stream_finish(state, rest, rest_len, slots, count);
    if (is("ck_stream_finish")) a.entry.seq ^= 1;
    if (a.number && a.number != CK_NO_STREAM) put_refused(&a, state, slots, count);
    if (is("the end answers nothing")) a.ended = 0;
    if (is("the end changes the buffer") && state.held && rest_len) poke((uint8_t *)(uintptr_t)rest);
    return a;
}

ck_stream_answer __real_ck_stream_finish_lenient(END);
ck_stream_answer __wrap_ck_stream_finish_lenient(END);
ck_stream_answer __wrap_ck_stream_finish_lenient(END) {
    ck_stream_answer a = __real_ck_stream_finish_lenient(state, rest, rest_len, slots, count);
    if (is("ck_stream_finish_lenient")) a.entry.seq ^= 1;
    if (is("the end reads strictly")) a = __real_ck_stream_finish(state, rest, rest_len, slots, count);
    return a;
}
