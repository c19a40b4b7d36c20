/* The C calls as a C program sees them: answers, refusals by their number, and lent memory that stays as found. Ends with 1 if one is wrong. */
#include "chomkadieu.h"
#include "see.h"

#include <stdio.h>
#include <string.h>

enum { SLOTS = 256, ROOM = CK_MOST_BYTES, GUARD = 16 };

static unsigned passed, failed;

void see(int holds, const char *what) {
    if (holds) {
        passed++;
        return;
    }
    failed++;
    printf("wrong: %s\n", what);
}

static const uint8_t *bytes(const char *text) { return (const uint8_t *)text; }

static const char FWD[] = " fwd-7 [002] d..1. 12.000345: tb_tx: type=TB_CFG_PKG_READ, size=3, domain=0, route=0, data=[0x0, 0x0, 0x04002001]\n";
static const char EVENT[] = "a-1 [002] 1.2: tb_event: type=TB_CFG_PKG_EVENT size=3 domain=1 route=3 error=26 port=5 unplug=1 dropped=1 offset=ffff data=[1]";

/* Slots with guards before and behind them. */
static uint32_t room[GUARD + SLOTS + GUARD];

static uint32_t *fresh_slots(void) {
    for (size_t i = 0; i < sizeof room / sizeof *room; i++) room[i] = 0xdeadbeef;
    return room + GUARD;
}

/* Are all slots but the first n as they were? */
static int untouched(size_t n) {
    for (size_t i = 0; i < sizeof room / sizeof *room; i++)
        if ((i < GUARD || i >= GUARD + n) && room[i] != 0xdeadbeef) return 0;
    return 1;
}

static int is_blank(ck_entry e) {
    return !e.task_at && !e.task_len && !e.pid && !e.cpu && !e.seconds && !e.microseconds && !e.function_at && !e.function_len && !e.kind &&
           !e.size && !e.dropped && !e.domain && !e.route && e.offset == CK_NONE && e.code == CK_NONE && e.len == CK_NONE &&
           e.port == CK_NONE && e.config == CK_NONE && e.seq == CK_NONE && e.unplug == CK_NONE && !e.dwords;
}

static void lines(void) {
    uint32_t *slots = fresh_slots();
    ck_entry_answer a = ck_parse(bytes(FWD), sizeof FWD - 1, slots, SLOTS);
    see(a.number == CK_OK, "the fwd line is an entry");
    see(a.entry.task_at == 1 && a.entry.task_len == 3, "its task is fwd");
    see(a.entry.pid == 7 && a.entry.cpu == 2 && a.entry.seconds == 12 && a.entry.microseconds == 345, "its header");
    see(a.entry.function_len == 5 && !memcmp(FWD + a.entry.function_at, "tb_tx", 5), "its function");
    see(a.entry.kind == 1 && a.entry.size == 3 && a.entry.dropped == 0 && a.entry.domain == 0 && a.entry.route == 0, "its payload");
    see(a.entry.offset == CK_NONE && a.entry.code == CK_NONE && a.entry.unplug == CK_NONE, "no optional field");
    see(a.entry.dwords == 3 && slots[0] == 0 && slots[1] == 0 && slots[2] == 0x04002001 && untouched(3), "its dwords, and no slot else");

    slots = fresh_slots();
    a = ck_parse(bytes(EVENT), sizeof EVENT - 1, slots, SLOTS);
    see(a.number == CK_OK && a.entry.kind == 7 && a.entry.dropped == 1 && a.entry.offset == 0xffff, "an event's entry");
    see(a.entry.code == 38 && a.entry.port == 5 && a.entry.unplug == 1 && untouched(1), "its optional fields");
}

/* Each number of a line that a caller can meet. */
static void refused_lines(void) {
    static const struct { const char *text; size_t slots; uint8_t number; } cases[] = {
        {"", SLOTS, CK_IDLE}, {"\n", SLOTS, CK_IDLE}, {"# tracer: nop\n", SLOTS, CK_IDLE}, {"a\x80:", SLOTS, CK_NOT_ASCII},
        {"nonsense", SLOTS, CK_NO_COLON}, {"-1 [002] 1.2: f: ", SLOTS, CK_NO_TASK}, {"a-x [002] 1.2: f: ", SLOTS, CK_NO_PID},
        {"a-1 [02] 1.2: f: ", SLOTS, CK_NO_CPU}, {"a-1 [002] f: ", SLOTS, CK_NO_TIMESTAMP}, {"a-1 [002] 1.2: f g: ", SLOTS, CK_NO_FUNCTION},
        {"a-1 [002] 1.2: f: size=3", SLOTS, CK_NO_TYPE}, {"a-1 [002] 1.2: f: type=t", SLOTS, CK_NO_SIZE},
        {"a-1 [002] 1.2: f: type=t size=3", SLOTS, CK_NO_DOMAIN}, {"a-1 [002] 1.2: f: type=t size=3 domain=0", SLOTS, CK_NO_ROUTE},
        {"a-1 [002] 1.2: f: type=t size=3 domain=0 route=0 data=[]", SLOTS, CK_NO_DATA}, {FWD, 2, CK_FEW_SLOTS},
        {"a-1 [002] 1.2: f: type=t size=3 domain=0 route=0 data=[0x04zz]", SLOTS, CK_BAD_PIECE}};
    for (size_t i = 0; i < sizeof cases / sizeof *cases; i++) {
        uint32_t *slots = fresh_slots();
        ck_entry_answer a = ck_parse(bytes(cases[i].text), strlen(cases[i].text), slots, cases[i].slots);
        see(a.number == cases[i].number && is_blank(a.entry) && untouched(0), cases[i].text);
    }
}

#define KEYS "a-1 [002] 1.2: f: type=t size=3 domain=0 route=0 "

/* A line with n dwords `1`. */
static size_t many(char *line, int n) {
    size_t at = (size_t)sprintf(line, KEYS "data=[1");
    for (int i = 1; i < n; i++) at += (size_t)sprintf(line + at, ", 1");
    line[at] = ']';
    return at + 1;
}

static void limits(void) {
    static char line[4097];
    memset(line, 'x', sizeof line);
    memcpy(line, KEYS "data=[1] k=", sizeof KEYS + 10);
    uint32_t *slots = fresh_slots();
    see(ck_parse(bytes(line), 4096, slots, SLOTS).number == CK_OK && untouched(1), "a line of 4,096 bytes");
    slots = fresh_slots();
    see(ck_parse(bytes(line), 4097, slots, SLOTS).number == CK_LONG_LINE && untouched(0), "a line of 4,097 bytes");
    ck_entry_answer a = ck_parse(bytes(line), many(line, 256), slots, SLOTS);
    see(a.number == CK_OK && a.entry.dwords == 256 && untouched(256), "256 dwords");
    slots = fresh_slots();
    see(ck_parse(bytes(line), many(line, 257), slots, SLOTS).number == CK_MANY_DWORDS && untouched(0), "257 dwords");
    see(ck_parse(bytes(line), many(line, 257), slots, 3).number == CK_MANY_DWORDS && untouched(0), "257 dwords and few slots");
}

static uint8_t made[GUARD + ROOM + GUARD];

static uint8_t *fresh_buffer(void) { return (uint8_t *)memset(made, 0x5c, sizeof made) + GUARD; }

/* Are all bytes but the first n as they were? */
static int unwritten(size_t n) {
    for (size_t i = 0; i < sizeof made; i++)
        if ((i < GUARD || i >= GUARD + n) && made[i] != 0x5c) return 0;
    return 1;
}

static void records(void) {
    uint32_t dwords[SLOTS];
    ck_entry e = ck_parse(bytes(EVENT), sizeof EVENT - 1, dwords, SLOTS).entry;
    uint8_t *out = fresh_buffer();
    ck_write_answer w = ck_record_write(bytes(EVENT), sizeof EVENT - 1, e, dwords, SLOTS, out, ROOM);
    see(w.number == CK_OK && unwritten(w.bytes) && out[0] == 0xa1 && w.bytes == (size_t)out[1] + 256u * out[2] + 3, "a record is written");
    uint32_t *slots = fresh_slots();
    ck_entry_answer back = ck_record_read(out, w.bytes, slots, SLOTS);
    see(back.number == CK_OK && untouched(1) && slots[0] == 1, "it reads back");
    see(back.entry.task_len == 1 && out[back.entry.task_at] == 'a' && back.entry.pid == 1 && back.entry.cpu == 2 && back.entry.seconds == 1 &&
            back.entry.microseconds == 2 && back.entry.function_len == 8 && !memcmp(out + back.entry.function_at, "tb_event", 8),
        "to the same header");
    see(back.entry.kind == 7 && back.entry.size == 3 && back.entry.dropped == 1 && back.entry.domain == 1 && back.entry.route == 3 &&
            back.entry.offset == 0xffff && back.entry.code == 38 && back.entry.len == CK_NONE && back.entry.port == 5 &&
            back.entry.config == CK_NONE && back.entry.seq == CK_NONE && back.entry.unplug == 1 && back.entry.dwords == 1,
        "and the same payload");
    see(ck_read(out, w.bytes, slots, SLOTS).number == CK_OK, "the intake takes the record");
    see(ck_read(bytes(FWD), sizeof FWD - 1, slots, SLOTS).number == CK_OK, "and the line");
    see(ck_parse(out, w.bytes, slots, SLOTS).number == CK_NOT_ASCII, "no record is a line");
    slots = fresh_slots();
    see(ck_record_read(out, w.bytes, slots, 0).number == CK_FEW_RECORD_SLOTS && untouched(0), "a record with too few slots");
    see(ck_record_read(out, w.bytes - 1, slots, SLOTS).number == CK_NO_RECORD && untouched(0), "a record cut short");
    see(ck_read(bytes("\xa1\x00\x00"), 3, slots, SLOTS).number == CK_MISSING_TAG && untouched(0), "a record with no field");
    see(ck_read(bytes("\xa1\x01\x00\x01"), 4, slots, SLOTS).number == CK_OVERRUN && untouched(0), "a field past the end");
    see(ck_read(bytes("\xa1\x03\x00\x14\x00\x00"), 6, slots, SLOTS).number == CK_BAD_TAG && untouched(0), "an unknown tag");
    see(ck_read(bytes("\xa1\x03\x00\x02\x00\x00"), 6, slots, SLOTS).number == CK_BAD_BODY && untouched(0), "a body of a wrong length");
}

/* What a text is, with its number. */
static int text_is(const void *text, size_t size, uint8_t what, uint8_t number) {
    ck_what_answer a = ck_what((const uint8_t *)text, size);
    return a.what == what && a.number == number;
}

/* A text that starts so and has so many bytes. */
static const uint8_t *long_text(const char *start, size_t size) {
    static uint8_t text[65540];
    return (const uint8_t *)memcpy(memset(text, 'x', size), start, strlen(start));
}

static void whats(void) {
    uint32_t dwords[SLOTS];
    ck_entry e = ck_parse(bytes(EVENT), sizeof EVENT - 1, dwords, SLOTS).entry;
    uint8_t *out = fresh_buffer();
    size_t size = ck_record_write(bytes(EVENT), sizeof EVENT - 1, e, dwords, SLOTS, out, ROOM).bytes;
    uint8_t found[ROOM];
    memcpy(found, out, size);
    see(text_is(EVENT, sizeof EVENT - 1, CK_IS_LINE, CK_OK) && text_is(FWD, sizeof FWD - 1, CK_IS_LINE, CK_OK), "a line is a line");
    see(text_is(out, size, CK_IS_RECORD, CK_OK), "its record is a record");
    see(!memcmp(out, found, size) && unwritten(size), "and what was lent is as found");
    see(text_is(out, size - 1, CK_IS_NEITHER, CK_NO_RECORD), "a record cut short is neither");
    see(text_is(out + 1, size - 1, CK_IS_NEITHER, CK_NOT_ASCII), "nor is one without its A1");
    static const struct { const char *text; size_t size; uint8_t number; } cases[] = {
        {"", 0, CK_IDLE}, {"\n", 1, CK_IDLE}, {"# tracer: nop\n", 14, CK_IDLE}, {"a\x80:", 3, CK_NOT_ASCII}, {"nonsense", 8, CK_NO_COLON},
        {"\xa1", 1, CK_NO_RECORD}, {"\xa1\x00\x00", 3, CK_MISSING_TAG}, {"\xa1\x01\x00\x01", 4, CK_OVERRUN},
        {"\xa1\x03\x00\x14\x00\x00", 6, CK_BAD_TAG}, {"\xa1\x03\x00\x02\x00\x00", 6, CK_BAD_BODY}};
    for (size_t i = 0; i < sizeof cases / sizeof *cases; i++)
        see(text_is(cases[i].text, cases[i].size, CK_IS_NEITHER, cases[i].number), "a text that is neither, by its number");
    char line[4096];
    see(text_is(line, many(line, 256), CK_IS_LINE, CK_OK), "256 dwords are a line");
    see(text_is(line, many(line, 257), CK_IS_NEITHER, CK_MANY_DWORDS), "257 are not, and not for want of slots");
    see(text_is(long_text("a", 4097), 4097, CK_IS_NEITHER, CK_LONG_LINE) && text_is(long_text("#", 65540), 65540, CK_IS_NEITHER, CK_IDLE), "long lines");
    see(text_is(long_text("\xa1\xff\xff", 65538), 65538, CK_IS_NEITHER, CK_BAD_TAG), "65,538 bytes may be framed");
    see(text_is(long_text("\xa1\xff\xff", 65539), 65539, CK_IS_NEITHER, CK_NO_RECORD), "65,539 may not");
}

static void refused_entries(void) {
    uint32_t dwords[SLOTS];
    const ck_entry good = ck_parse(bytes(EVENT), sizeof EVENT - 1, dwords, SLOTS).entry;
    uint8_t *out = fresh_buffer();
    size_t size = ck_record_write(bytes(EVENT), sizeof EVENT - 1, good, dwords, SLOTS, out, ROOM).bytes;
    out = fresh_buffer();
    ck_write_answer w = ck_record_write(bytes(EVENT), sizeof EVENT - 1, good, dwords, SLOTS, out, size - 1);
    see(w.number == CK_SHORT_BUFFER && w.bytes == 0 && unwritten(0), "a buffer one byte too short");
    w = ck_record_write(bytes(EVENT), sizeof EVENT - 1, good, dwords, SLOTS, out, size);
    see(w.number == CK_OK && w.bytes == size && unwritten(size), "a buffer that just fits");
    ck_entry bad[10];
    for (int i = 0; i < 10; i++) bad[i] = good;
    bad[0].cpu = 1000;
    bad[1].seconds = UINT64_C(1) << 63;
    bad[2].kind = 13;
    bad[3].dropped = 2;
    bad[4].offset = 65536;
    bad[5].code = 256;
    bad[6].unplug = CK_NONE - 1;
    bad[7].task_at = SIZE_MAX;
    bad[8].function_len = sizeof EVENT;
    bad[9].dwords = SLOTS + 1;
    for (int i = 0; i < 10; i++) {
        out = fresh_buffer();
        w = ck_record_write(bytes(EVENT), sizeof EVENT - 1, bad[i], dwords, SLOTS, out, i % 2 ? ROOM : 0);
        see(w.number == CK_BAD_ENTRY && w.bytes == 0 && unwritten(0), "an entry out of the record's ranges");
    }
}

static int named(uint8_t code, const char *name) {
    ck_event_text text = ck_event_name(code);
    size_t n = strlen(name);
    for (size_t i = n; i < sizeof text.bytes; i++)
        if (text.bytes[i]) return 0;
    return text.len == n && !memcmp(text.bytes, name, n);
}

/* Two codes with one name. */
static int alike(int one, int other) {
    ck_event_text a = ck_event_name((uint8_t)one), b = ck_event_name((uint8_t)other);
    return a.len == b.len && !memcmp(a.bytes, b.bytes, sizeof a.bytes);
}

static void event_names(void) {
    int pairs = 0;
    for (int other = 0; other < 256; other++)
        for (int one = 0; one < other; one++) pairs += alike(one, other);
    see(pairs == 0 && alike(38, 38), "a name tells its code: no two of the 256 have one name");
    see(named(0, "ERR_CONN") && named(37, "DPTX_DISCOVERY") && named(3, "3") && named(255, "255"), "names");
    see(named(36, "DP_CON_CHANGE") && named(38, "LINK_RECOVERY"), "38 has its own name, and 36 the one it had");
}

static void questions(void) {
    ck_entry e;
    memset(&e, 0, sizeof e);
    e.code = 38, e.port = 5, e.unplug = 2;
    see(ck_adapter_num(e) == 5 && ck_unplug(e) == 0, "the adapter of code 38, and an unplug of 2");
    e.code = 33, e.unplug = 1;
    see(ck_adapter_num(e) == CK_NONE && ck_unplug(e) == 1, "no adapter for code 33, and an unplug of 1");
    e.code = CK_NONE, e.port = CK_NONE, e.unplug = CK_NONE;
    see(ck_adapter_num(e) == CK_NONE && ck_unplug(e) == CK_NONE, "nothing known, nothing answered");
    e.code = 36 + 256, e.port = 7;
    see(ck_adapter_num(e) == 7, "a code past its width counts as absent");
}

static void books(void) {
    static uint8_t zeros[65536];
    see(ck_book_check(zeros, 0) == CK_OK, "an empty book");
    see(ck_book_check(bytes("\x01\x01\x00\x01"), 4) == CK_OK, "a table with no entry");
    see(ck_book_check(bytes("\x01\x01\x00\x01\x01\x01\x00\x01"), 8) == CK_BAD_BOOK, "a kind's table twice");
    see(ck_book_check(zeros, 65536) == CK_BAD_BOOK, "a book over 65,535 bytes");
}

/* The sample book, which the test's caller names. */
static uint8_t book[65536];
static size_t book_len;

static int load_book(const char *path) {
    FILE *file = fopen(path, "rb");
    if (!file) return 0;
    book_len = fread(book, 1, sizeof book, file);
    fclose(file);
    return book_len > 0;
}

static int is(ck_value v, uint64_t value) { return v.number == CK_OK && v.present == 1 && v.value == value; }
static int is_absent(ck_value v) { return v.number == CK_OK && v.present == 0 && v.value == 0; }
static int is_refused(ck_value v, uint8_t number) { return v.number == number && v.present == 0 && v.value == 0; }

/* Does the place have that name, with no byte changed behind it? */
static int is_named(size_t place, const char *name) {
    uint8_t *out = fresh_buffer();
    size_t n = strlen(name);
    return ck_name(book, book_len, place, out, ROOM) == n && unwritten(n) && !memcmp(out, name, n);
}

#define PACKET(kind, dwords) kind, book, book_len, dwords, sizeof dwords / sizeof *dwords
#define DESCRIBED(dwords, places) book, book_len, dwords, sizeof dwords / sizeof *dwords, places, sizeof dwords / sizeof *dwords
#define NAME(text) bytes(text), sizeof text - 1

/* The read request of document 01, described by the sample book. */
static void packets(void) {
    static const uint32_t read[] = {0, 0, 0x04002001}, reply[] = {0x80000000, 1, 0x04002001, 7, 8}, bare[] = {1};
    uint32_t *places = fresh_slots();
    ck_packet_answer p = ck_packet(PACKET(1, read), places, SLOTS);
    see(p.number == CK_OK && p.start == CK_NONE && p.has_uuid == 0 && untouched(3) && places[2] != 0, "a read request is a packet");
    see(is(ck_packet_route(PACKET(1, read)), 0) && is(ck_packet_cm(PACKET(1, read)), 0), "its route and CM");
    see(is(ck_packet_data_address(PACKET(1, read)), 1) && is(ck_packet_data_size(PACKET(1, read)), 1), "its address and size");
    see(is(ck_packet_adapter_num(PACKET(1, read)), 0) && is_absent(ck_packet_data_start(PACKET(1, read))), "its adapter, and no data");
    see(is(ck_packet_is_read(PACKET(1, read)), 1) && is(ck_packet_is_write(PACKET(1, read)), 0) && is(ck_packet_is_xdomain(PACKET(1, read)), 0),
        "it reads");
    see(is(ck_described_value(DESCRIBED(read, places), NAME("Configuration Space")), 2), "its space, by name");
    see(is_absent(ck_described_value(DESCRIBED(read, places), NAME("Nothing"))), "no range of that name");
    see(is(ck_described_data_address(1, DESCRIBED(read, places)), 1) && is(ck_described_data_size(1, DESCRIBED(read, places)), 1) &&
            is(ck_described_adapter_num(DESCRIBED(read, places)), 0) && is(ck_described_route(read, 3), 0) && is(ck_described_cm(read, 3), 0),
        "the described forms answer the same");
    see(is(ck_packet_route(PACKET(2, reply)), (UINT64_C(1) << 63) + 1) && is(ck_packet_cm(PACKET(2, reply)), 1), "a route with its top bit");
    see(is(ck_packet_data_start(PACKET(2, reply)), 3) && ck_packet_data(PACKET(2, reply)) == 2, "a read response has data");
    see(is_refused(ck_packet_route(PACKET(1, bare)), CK_NO_PACKET_ROUTE) && is_refused(ck_described_cm(bare, 1), CK_NO_PACKET_ROUTE), "one dword is no route");
    see(is_refused(ck_packet_route(PACKET(0, read)), CK_NO_KIND) && is_refused(ck_packet_cm(PACKET(12, read)), CK_NO_TABLE), "no kind, no table");
    see(is_refused(ck_packet_adapter_num(1, bytes("x"), 1, read, 3), CK_BAD_BOOK), "no book");
    see(is_refused(ck_packet_data_size(PACKET(2, bare)), CK_SHORT_PACKET) && ck_packet_data(PACKET(2, bare)) == 0, "too few dwords");
}

/* Fields, their ranges and names. */
static void fields(void) {
    static const uint32_t read[] = {0, 0, 0x04002001};
    uint32_t *places = fresh_slots();
    ck_packet(PACKET(1, read), places, SLOTS);
    ck_field_answer f = ck_packet_field_by_range(PACKET(1, read), NAME("Read Size"));
    see(f.number == CK_OK && f.present == 1 && f.offset == 2 && f.value == 0x04002001 && f.source == 1 && f.entry == places[2], "a field by its range");
    ck_field_answer same = ck_described_field(1, DESCRIBED(read, places), 2), made_up = ck_field(1, book, book_len, 2, read[2], places[2]);
    see(same.present == 1 && same.entry == f.entry && same.value == f.value && made_up.source == 1 && made_up.entry == f.entry, "by offset, and by place");
    same = ck_described_field_by_range(1, DESCRIBED(read, places), NAME("Read Size"));
    see(same.present == 1 && same.entry == f.entry, "and over the places");
    see(!ck_packet_field(PACKET(1, read), 3).present && ck_packet_field(PACKET(0, read), 0).number == CK_NO_KIND, "no dword 3, no kind 0");
    see(!ck_packet_field_by_name(PACKET(1, read), NAME("")).present && !ck_described_field_by_name(1, DESCRIBED(read, places), NAME("")).present,
        "no field has an empty name");
    static const struct { uint8_t low, high; uint32_t value; const char *name; } want[] = {
        {0, 12, 1, "Address"}, {13, 18, 1, "Read Size"}, {19, 24, 0, "Adapter Num"}, {25, 26, 2, "Configuration Space"}};
    for (size_t k = 0; k < 4; k++) {
        ck_range_answer r = ck_range(book, book_len, f.entry, f.value, k);
        see(r.present == 1 && r.low == want[k].low && r.high == want[k].high && r.value == want[k].value && is_named(r.place, want[k].name), want[k].name);
    }
    size_t count = ck_range_count(book, book_len, f.entry);
    see(count >= 4 && !ck_range(book, book_len, f.entry, f.value, count).present && ck_range_count(book, book_len, 0) == 0, "the ranges end");
    ck_range_answer space = ck_range_named(book, book_len, f.entry, f.value, NAME("Configuration Space"));
    uint8_t *out = fresh_buffer();
    size_t n = ck_value_name(book, book_len, space.place, space.value, out, ROOM);
    see(n > 0 && unwritten(n), "the space's value has a name");
    out = fresh_buffer();
    see(ck_value_name(book, book_len, space.place, space.value, out, n - 1) == n && unwritten(0), "a name that does not fit is not written");
    see(ck_value_name(book, book_len, space.place, 4, out, ROOM) == 0 && ck_name(book, book_len, 0, out, ROOM) == 0 && unwritten(0), "no name");
}

/* Where names stand, for whoever reads them in the book. */
static void names(void) {
    static const uint32_t read[] = {0, 0, 0x04002001};
    uint32_t *places = fresh_slots();
    ck_packet(PACKET(1, read), places, SLOTS);
    ck_range_answer space = ck_range_named(book, book_len, places[2], read[2], NAME("Configuration Space"));
    ck_name_part low = ck_name_at(book, book_len, places[1]), range = ck_name_at(book, book_len, space.place);
    see(low.len == 16 && !memcmp(book + low.at, "Route String Low", 16), "an entry's name in the book");
    see(range.len == 19 && !memcmp(book + range.at, "Configuration Space", 19), "a bit range's");
    ck_name_part router = ck_name_at(book, book_len, ck_value_at(book, book_len, space.place, 2));
    see(router.len == 6 && !memcmp(book + router.at, "Router", 6), "a value's");
    ck_name_part none[] = {ck_name_at(book, book_len, 0), ck_name_at(book, book_len, places[2]), ck_name_at(book, book_len, SIZE_MAX)};
    for (size_t i = 0; i < 3; i++) see(none[i].at == 0 && none[i].len == 0, "no name is at 0 with no byte");
    see(ck_value_at(book, book_len, space.place, 4) == 0 && ck_value_at(book, book_len, 0, 2) == 0, "no such value");
}

/* A book that was checked is not checked again; any other is taken too. */
static void checked(void) {
    static const uint32_t reply[] = {0x80000000, 1, 0x04002001, 7, 8};
    static const uint8_t zeros[65536];
    for (uint8_t kind = 0; kind < 14; kind++) {
        uint32_t kept[SLOTS], *places = fresh_slots();
        ck_packet_answer p = ck_packet(PACKET(kind, reply), places, SLOTS);
        memcpy(kept, places, sizeof kept);
        places = fresh_slots();
        ck_packet_answer q = ck_checked_packet(PACKET(kind, reply), places, SLOTS);
        see(p.number == q.number && p.start == q.start && p.has_uuid == q.has_uuid && !memcmp(kept, places, sizeof kept) && untouched(p.number ? 0 : 5),
            "the same with and without a check");
    }
    uint32_t *places = fresh_slots();
    see(ck_checked_packet(2, bytes("x"), 1, reply, 5, places, SLOTS).number == CK_NO_TABLE && untouched(0), "no book has no table");
    see(ck_checked_packet(2, zeros, 65536, reply, 5, places, SLOTS).number == CK_BAD_BOOK && untouched(0), "a book that is too long");
}

/* Many packets in one call. */
static void batches(void) {
    static const uint8_t kinds[] = {1, 0, 2};
    static const uint32_t counts[] = {3, 1, 5}, dwords[] = {0, 0, 0x04002001, 9, 0x80000000, 1, 0x04002001, 7, 8};
    uint32_t codes[3] = {5, 5, 5}, *places = fresh_slots();
    size_t n = ck_packet_all(book, book_len, kinds, 3, counts, 3, dwords, 9, places, 9, codes, 3);
    see(n == 3 && codes[0] == 65536 && codes[1] == 65536 + CK_NO_KIND && codes[2] == 3, "no view, no kind, and a view from 3");
    see(places[0] && places[2] && places[3] == 0xdeadbeef && places[4] && !places[8] && untouched(9), "places where the dwords stand");
    places = fresh_slots();
    n = ck_packet_all(bytes("x"), 1, kinds, 3, counts, 2, dwords, 9, places, 9, codes, 3);
    see(n == 2 && codes[0] == 65536 + CK_BAD_BOOK && codes[1] == 65536 + CK_BAD_BOOK && codes[2] == 3 && untouched(0), "no book, two packets");
}

/* A line and its record have one packet. */
static void texts(void) {
    uint32_t slots[SLOTS] = {0}, places[SLOTS], other_slots[SLOTS] = {0}, other_places[SLOTS];
    memset(places, 0xee, sizeof places);
    memset(other_places, 0xee, sizeof other_places);
    ck_entry_answer a = ck_parse(bytes(FWD), sizeof FWD - 1, slots, SLOTS);
    static uint8_t record[CK_MOST_BYTES];
    ck_write_answer w = ck_record_write(bytes(FWD), sizeof FWD - 1, a.entry, slots, a.entry.dwords, record, sizeof record);
    ck_text_packet l = ck_read_packet(bytes(FWD), sizeof FWD - 1, book, book_len, slots, SLOTS, places, SLOTS);
    ck_text_packet r = ck_read_packet(record, w.bytes, book, book_len, other_slots, SLOTS, other_places, SLOTS);
    see(l.packet.number == CK_OK && l.kind == 1 && l.dwords == 3 && slots[2] == 0x04002001 && places[2] != 0 && places[3] == 0xeeeeeeee, "a line's packet");
    see(r.packet.number == CK_OK && r.kind == l.kind && r.dwords == l.dwords && r.packet.start == l.packet.start, "its record's");
    see(!memcmp(slots, other_slots, sizeof slots) && !memcmp(places, other_places, sizeof places), "the same dwords and places");
    uint32_t *kept = fresh_slots();
    ck_text_packet none = ck_read_packet(bytes(FWD), sizeof FWD - 1, bytes("x"), 1, kept, SLOTS, other_places, SLOTS);
    see(none.packet.number == CK_BAD_BOOK && none.kind == 0 && none.dwords == 0 && untouched(0), "no book: no slot is touched");
    see(!memcmp(places, other_places, sizeof places), "and no place");
}

/* An inter-domain packet: the discovery protocol's properties request. */
static void crossing(void) {
    uint32_t request[16] = {0, 1, 14, 0x0ed738b6, 0xbb40ff42, 0xe290c297, 0x07ffb2c0, 3};
    uint32_t *places = fresh_slots();
    ck_packet_answer p = ck_packet(PACKET(8, request), places, SLOTS);
    ck_uuid u = ck_packet_uuid(PACKET(8, request)), v = ck_packet_uuid_by_name(PACKET(8, request), NAME("UUID"));
    ck_uuid w = ck_described_uuid_by_name(DESCRIBED(request, places), NAME("UUID"));
    see(p.number == CK_OK && p.has_uuid == 1 && !memcmp(p.uuid, request + 3, 16), "an inter-domain packet");
    see(u.present == 1 && !memcmp(u.dwords, request + 3, 16) && v.present == 1 && w.present == 1 && !memcmp(w.dwords, u.dwords, 16), "its UUID, three ways");
    see(!ck_packet_uuid_by_name(PACKET(8, request), NAME("Else")).present && ck_packet_uuid(PACKET(0, request)).number == CK_NO_KIND, "no UUID of that name");
    ck_type t = ck_packet_type(PACKET(8, request)), d = ck_described_type(DESCRIBED(request, places));
    uint8_t *out = fresh_buffer();
    size_t n = ck_packet_type_name(PACKET(8, request), out, ROOM);
    see(t.number == CK_OK && t.present == 1 && t.value == 3 && d.present == 1 && d.name == t.name && n > 0 && unwritten(n), "its type has a name");
    static uint8_t again[255];
    see(ck_name(book, book_len, t.name, again, sizeof again) == n && !memcmp(again, out, n), "which stands at the type's place");
    request[7] = 0xffff;
    t = ck_packet_type(PACKET(8, request));
    out = fresh_buffer();
    see(t.number == CK_UNNAMED_TYPE && !t.present && ck_packet_type_name(PACKET(8, request), out, ROOM) == 0 && unwritten(0), "a type with no name");
    static const uint32_t read[] = {0, 0, 0};
    t = ck_packet_type(PACKET(1, read));
    see(t.number == CK_OK && !t.present && t.name == 0, "a read request has no type");
}

int main(int count, char **words) {
    if (count != 3 || !load_book(words[1])) return puts("usage: capi BOOK LAYOUT"), 2;
    setvbuf(stdout, NULL, _IOLBF, 0); /* what was told is heard also if a call breaks down */
    every_offset(words[2]);
    lines();
    refused_lines();
    limits();
    records();
    whats();
    refused_entries();
    questions();
    event_names();
    books();
    packets();
    fields();
    names();
    checked();
    batches();
    texts();
    crossing();
    every_field(book, book_len);
    every_piece(book, book_len);
    every_request();
    every_stream();
    every_reason();
    printf("%u passed, %u failed\n", passed, failed);
    return failed != 0;
}
