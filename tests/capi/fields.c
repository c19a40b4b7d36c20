/* Every field of every struct of include/chomkadieu.h has a value of its own here, so two fields that the archive and the header lay out in another
 * order are noticed, also where they are of one type. */
#include "chomkadieu.h"
#include "see.h"

#include <string.h>

/* 21 fields with 21 values; what is optional is there. */
static const char LINE[] =
    "   four-11 [012] d..1. 13.000014: tb_events: type=TB_CFG_PKG_EVENT, size=15, dropped=1, domain=16, route=11, offset=12, error=13, len=20, "
    "port=25, config=1a, seq=27, unplug=1c, data=[1, 2, 5, 6, 7, 8]";

/* A properties response of the discovery protocol, in which data starts at 18: two dwords of it. */
static const uint32_t BLOCK[] = {0x10, 0x11, 20, 0x0ed738b6, 0xbb40ff42, 0xe290c297, 0x07ffb2c0, 4, 0, 1, 2, 3, 4, 5, 6, 7, 0x00200010, 5, 6, 7};
enum { COUNT = sizeof BLOCK / sizeof *BLOCK };

static int is_line_entry(ck_entry e) {
    return e.task_at == 3 && e.task_len == 4 && e.pid == 11 && e.cpu == 12 && e.seconds == 13 && e.microseconds == 14 && e.function_at == 34 &&
           e.function_len == 9 && e.kind == 7 && e.size == 15 && e.dropped == 1 && e.domain == 16 && e.route == 17 && e.offset == 18 &&
           e.code == 19 && e.len == 20 && e.port == 25 && e.config == 26 && e.seq == 27 && e.unplug == 28 && e.dwords == 6;
}

static int is_block(ck_packet_answer p) {
    return p.number == CK_OK && p.start == 18 && p.has_uuid == 1 && !memcmp(p.uuid, BLOCK + 3, sizeof p.uuid);
}

static void entries(void) {
    uint32_t slots[16];
    const uint8_t *line = (const uint8_t *)LINE;
    ck_entry_answer a = ck_parse(line, sizeof LINE - 1, slots, 16);
    see(a.number == CK_OK && is_line_entry(a.entry), "each field of ck_entry and ck_entry_answer");
    a = ck_parse(line, 20, slots, 16);
    see(a.number == CK_NO_COLON && a.entry.task_len == 0 && a.entry.offset == CK_NONE, "a refusal's number and blank entry");
    a = ck_parse(line, sizeof LINE - 1, slots, 16);
    uint8_t record[256];
    ck_write_answer w = ck_record_write(line, sizeof LINE - 1, a.entry, slots, 16, record, sizeof record);
    see(w.number == CK_OK && w.bytes > 3 && w.bytes == 3u + record[1] + 256u * record[2], "each field of ck_write_answer");
    ck_entry back = ck_read(record, w.bytes < sizeof record ? w.bytes : sizeof record, slots, 16).entry;
    back.task_at = a.entry.task_at, back.function_at = a.entry.function_at;
    see(is_line_entry(back), "each field of an entry that was handed over by value");
    w = ck_record_write(line, sizeof LINE - 1, a.entry, slots, 16, record, 3);
    see(w.number == CK_SHORT_BUFFER && w.bytes == 0, "and of its refusal");
    ck_what_answer is = ck_what(line, sizeof LINE - 1), neither = ck_what(line, 20);
    see(is.number == CK_OK && is.what == CK_IS_LINE && neither.number == CK_NO_COLON && neither.what == CK_IS_NEITHER, "each field of ck_what_answer");
    ck_event_text t = ck_event_name(0);
    see(t.len == 8 && !memcmp(t.bytes, "ERR_CONN\0\0\0\0\0", sizeof t.bytes), "each field of ck_event_text");
}

static void packets(const uint8_t *book, size_t book_len) {
    uint32_t slots[COUNT], places[COUNT];
    see(is_block(ck_packet(9, book, book_len, BLOCK, COUNT, places, COUNT)), "each field of ck_packet_answer");
    ck_packet_answer none = ck_packet(0, book, book_len, BLOCK, COUNT, places, COUNT);
    see(none.number == CK_NO_KIND && none.start == CK_NONE && none.has_uuid == 0 && none.uuid[0] == 0, "and of its refusal");
    static const char text[] = "a-1 [002] 1.2: tb_rx: type=TB_CFG_PKG_XDOMAIN_RESP size=3 domain=0 route=0 data=[10, 11, 14, ed738b6, bb40ff42, "
                               "e290c297, 7ffb2c0, 4, 0, 1, 2, 3, 4, 5, 6, 7, 200010, 5, 6, 7]";
    ck_text_packet p = ck_read_packet((const uint8_t *)text, sizeof text - 1, book, book_len, slots, COUNT, places, COUNT);
    see(p.kind == 9 && p.dwords == COUNT && is_block(p.packet) && !memcmp(slots, BLOCK, sizeof slots), "each field of ck_text_packet");
}

static void answers(const uint8_t *book, size_t book_len) {
    uint32_t places[COUNT];
    ck_packet(9, book, book_len, BLOCK, COUNT, places, COUNT);
    ck_value v = ck_packet_route(9, book, book_len, BLOCK, COUNT), none = ck_packet_route(9, book, book_len, BLOCK, 1);
    see(v.number == CK_OK && v.present == 1 && v.value == UINT64_C(0x1000000011), "each field of ck_value");
    see(none.number == CK_NO_PACKET_ROUTE && none.present == 0 && none.value == 0, "and of its refusal");
    ck_uuid u = ck_packet_uuid(9, book, book_len, BLOCK, COUNT), no_uuid = ck_packet_uuid(0, book, book_len, BLOCK, COUNT);
    see(u.number == CK_OK && u.present == 1 && !memcmp(u.dwords, BLOCK + 3, sizeof u.dwords), "each field of ck_uuid");
    see(no_uuid.number == CK_NO_KIND && no_uuid.present == 0 && no_uuid.dwords[0] == 0, "and of its refusal");
    ck_type t = ck_packet_type(9, book, book_len, BLOCK, COUNT);
    ck_name_part n = ck_name_at(book, book_len, t.name);
    see(t.number == CK_OK && t.present == 1 && t.value == 4 && t.name > 4, "each field of ck_type");
    see(n.at > t.name && n.len == 19 && !memcmp(book + n.at, "Properties Response", 19), "each field of ck_name_part");
    ck_field_answer f = ck_packet_field(9, book, book_len, BLOCK, COUNT, 7), no_field = ck_packet_field(0, book, book_len, BLOCK, COUNT, 7);
    see(f.number == CK_OK && f.present == 1 && f.offset == 7 && f.value == 4 && f.source == 3 && f.entry == places[7], "each field of ck_field_answer");
    see(no_field.number == CK_NO_KIND && no_field.present == 0 && no_field.offset == 0 && no_field.entry == 0, "and of its refusal");
    static const uint32_t read[] = {0, 0, 0x04002001};
    ck_packet(1, book, book_len, read, 3, places, COUNT);
    ck_range_answer r = ck_range(book, book_len, places[2], read[2], 3);
    see(r.present == 1 && r.low == 25 && r.high == 26 && r.value == 2 && r.place > places[2], "each field of ck_range_answer");
}

/* A value and a bad digit, each with fields that differ. */
static void hex_texts(void) {
    static const char text[] = "a-1 [002] 1.2: f: route=123 offset=0x0q1234";
    const uint8_t *line = (const uint8_t *)text;
    ck_hex_answer v = ck_hex_key(line, sizeof text - 1, CK_KEY_ROUTE), b = ck_hex_key(line, sizeof text - 1, CK_KEY_OFFSET);
    see(v.number == CK_OK && v.what == CK_HEX_VALUE && v.value == 0x123 && v.bad == 0 && v.at == 24 && v.len == 3, "each field of ck_hex_answer");
    see(b.number == CK_OK && b.what == CK_HEX_BAD_DIGIT && b.value == 0 && b.bad == 3 && b.at == 35 && b.len == 8, "and of a bad digit");
    ck_hex_answer none = ck_hex_key(line, 10, CK_KEY_ROUTE);
    see(none.number == CK_NO_COLON && none.what == CK_HEX_ABSENT && none.value == 0 && none.bad == 0 && none.at == 0 && none.len == 0, "and of its refusal");
}

/* A line's entry, an overlong record on its way, and a state that is none. */
static void streams(void) {
    static uint8_t rest[CK_REST];
    uint32_t slots[16];
    static const uint8_t record[] = "\xa1\xff\xff 1234567";
    ck_stream none = {0, 0}, alien = {5, 6};
    ck_stream_answer open = ck_stream_feed(none, (const uint8_t *)LINE, sizeof LINE - 1, rest, CK_REST, slots, 16);
    see(open.number == CK_OK && open.ended == 0 && open.at == sizeof LINE - 1 && open.state.held == open.at && open.state.passed == 0 &&
            open.entry.task_len == 0 && open.entry.offset == CK_NONE,
        "each field of an open line's ck_stream_answer");
    ck_stream_answer a = ck_stream_feed(open.state, (const uint8_t *)"\nx", 2, rest, CK_REST, slots, 16);
    see(a.number == CK_OK && a.ended == 1 && a.at == 1 && a.state.held == 0 && a.state.passed == 0 && is_line_entry(a.entry), "and of its entry's");
    a = ck_stream_feed(none, record, sizeof record - 1, rest, CK_REST, slots, 16);
    see(a.number == CK_OK && a.ended == 0 && a.at == 11 && a.state.held == 3 && a.state.passed == 8, "each field of ck_stream");
    a = ck_stream_finish(a.state, rest, CK_REST, slots, 16);
    see(a.number == CK_LONG_RECORD && a.ended == 1 && a.at == 0 && a.state.held == 0 && a.state.passed == 0, "and at the end");
    a = ck_stream_feed(alien, record, sizeof record - 1, rest, CK_REST, slots, 16);
    see(a.number == CK_NO_STREAM && a.ended == 0 && a.at == 0 && a.state.held == 5 && a.state.passed == 6 && a.entry.unplug == CK_NONE, "and of 53");
}

void every_field(const uint8_t *book, size_t book_len) {
    entries();
    packets(book, book_len);
    answers(book, book_len);
    streams();
    hex_texts();
}
