/* Packets: any kind, book and dwords to ck_packet and the calls that answer the same. Choices: kind (1 byte), places lent (2). */
#include "entries.h"
#include "packets.h"

const unsigned used_parts = 1 << CHOICES | 1 << DWORDS | 1 << BOOK;

/* 26 comes last, and only where places are too few. */
static void with_places(const asked *q, size_t lent) {
    static uint32_t places[MOST_PLACES];
    ck_packet_answer a = packet_into(places, ck_packet, q, lent);
    if (q->answer.number == CK_OK && lent < q->count) must(a.number == CK_FEW_PLACES, "fewer places than dwords are 26");
    else must(same_packet(a, q->answer), "places matter only where they are too few");
    if (a.number == CK_OK) must(!memcmp(places, q->places, 4 * q->count), "and not to the entries");
}

/* Over a checked book the answer needs no second check. Over any other no more than the places is written, and 20 is for one that is too long. */
static void unchecked(const asked *q, size_t lent) {
    static uint32_t with_check[MOST_PLACES], without[MOST_PLACES];
    if (q->answer.number != CK_BAD_BOOK) {
        ck_packet_answer a = packet_into(with_check, ck_packet, q, lent), b = packet_into(without, ck_checked_packet, q, lent);
        must(same_packet(a, b) && (a.number || !memcmp(with_check, without, 4 * q->count)), "a checked book gives the same without a check");
        return;
    }
    room rooms[WAYS];
    ck_packet_answer a[WAYS];
    for (int way = 0; way < WAYS; way++) {
        rooms[way] = lend_room(4 * lent, way);
        a[way] = ck_checked_packet(q->kind, q->book, q->book_len, q->dwords, q->count, words_of(rooms[way]), lent);
    }
    must(same_packet(a[0], a[1]), "a packet over no book does not depend on what the places held");
    must((a[0].number == CK_BAD_BOOK) == (q->book_len > 65535), "and is refused with 20 just where the book is too long");
    must_own(rooms, a[0].number == CK_OK ? 4 * q->count : 0, "and writes its places and nothing else");
    drop_rooms(rooms);
}

/* The number that document 01 gives, from its words. */
static uint8_t expected(const asked *q, size_t entries, int has_table) {
    static const uint8_t zeros[16];
    field header;
    if (ck_book_check(q->book, q->book_len)) return CK_BAD_BOOK;
    if (!q->kind) return CK_NO_KIND;
    if (!has_table) return CK_NO_TABLE;
    if ((q->kind == 8 || q->kind == 9) && !find_table(q->book, q->book_len, 2, zeros, 16, &header)) return CK_NO_HEADER_TABLE;
    if (q->count > CK_MOST_DWORDS) return CK_LONG_PACKET;
    return (q->kind == 2 || q->kind == 3) && q->count < entries ? CK_SHORT_PACKET : CK_OK;
}

/* Step 2: the values of the fields named `UUID`; how many there are. */
static size_t gather(const asked *q, const uint32_t *places, uint32_t uuid[4]) {
    size_t n = 0;
    for (size_t i = 0; i < q->count; i++) {
        if (!same_part(name_at(q->book, q->book_len, places[i]), text("UUID"))) continue;
        if (n < 4) uuid[n] = q->dwords[i];
        n++;
    }
    return n;
}

/* Step 3: the entries of the UUID's table, and the type that latches. */
static void by_protocol(const asked *q, field table, uint32_t *places) {
    part latched = untyped;
    for (size_t i = 0; i < q->count; i++) {
        field range;
        size_t entry = find_entry(q->book, table, i, &latched);
        if (!entry) entry = find_entry(q->book, table, i, &untyped);
        if (!entry) continue;
        if (!places[i]) places[i] = (uint32_t)entry;
        if (latched.len || !named_in(q->book, q->book_len, places[i], text("Packet Type"), &range)) continue;
        uint32_t value = range_told(q->book, q->book_len, range, q->dwords[i]).value;
        latched = name_at(q->book, q->book_len, value_in(q->book, q->book_len, range.at, value));
    }
}

/* The entries of kinds 8 and 9 behind the control entries, and whether there is a UUID. */
static int cross(const asked *q, uint32_t *places, uint32_t uuid[4]) {
    static const uint8_t zeros[16];
    field header, table;
    find_table(q->book, q->book_len, 2, zeros, 16, &header);
    for (size_t i = 0; i < q->count; i++)
        if (!places[i]) places[i] = (uint32_t)find_entry(q->book, header, i, &untyped);
    if (gather(q, places, uuid) != 4) return 0;
    if (find_table(q->book, q->book_len, 2, (const uint8_t *)uuid, 16, &table)) by_protocol(q, table, places);
    return 1;
}

/* Where the view of kinds 8 and 9 starts. */
static uint32_t behind_generation(const asked *q) {
    field range;
    for (size_t i = 0; i < q->count; i++)
        if (named_in(q->book, q->book_len, q->places[i], text("Properties Block Generation"), &range)) return (uint32_t)i + 1;
    return CK_NONE;
}

/* Number, places, UUID and start, held to a plain reading of the book. */
static void by_grammar(const asked *q) {
    static uint32_t places[MOST_PLACES], uuid[4];
    field table;
    int has_table = ck_book_check(q->book, q->book_len) == CK_OK && find_table(q->book, q->book_len, 1, &q->kind, 1, &table);
    size_t entries = has_table ? count_fields(q->book, table.from + 1, table.to) : 0;
    must(q->answer.number == expected(q, entries, has_table), "the number is the first that applies");
    if (q->answer.number != CK_OK) return;
    int crosses = q->kind == 8 || q->kind == 9, has_uuid = 0;
    for (size_t i = 0; i < q->count; i++) places[i] = (uint32_t)find_entry(q->book, table, i, NULL);
    if (crosses) has_uuid = cross(q, places, uuid);
    must(!memcmp(places, q->places, 4 * q->count), "each dword takes its entry");
    must(q->answer.has_uuid == has_uuid && (!has_uuid || !memcmp(uuid, q->answer.uuid, 16)), "four fields named UUID are the UUID");
    if (q->kind == 2 || q->kind == 3) must(q->answer.start == entries, "the view of kinds 2 and 3 starts behind as many dwords as entries");
    if (crosses) must(q->answer.start == behind_generation(q), "the view of kinds 8 and 9 starts behind its range");
}

/* One packet of many gives the same. */
static void all_of_one(const asked *q) {
    room places[WAYS], codes[WAYS];
    uint32_t count = (uint32_t)q->count, code;
    const uint8_t *kinds = lend(&q->kind, 1);
    const uint32_t *counts = lend(&count, 4);
    for (int way = 0; way < WAYS; way++) {
        places[way] = lend_room(4 * q->count, way), codes[way] = lend_room(4, way);
        size_t n = ck_packet_all(q->book, q->book_len, kinds, 1, counts, 1, q->dwords, q->count, words_of(places[way]), q->count,
                                 words_of(codes[way]), 1);
        must(n == 1, "there is one packet");
    }
    must_own(codes, 4, "one code is told");
    must_own(places, q->answer.number == CK_OK ? 4 * q->count : 0, "and the places of a packet, none of a refusal");
    memcpy(&code, codes[0].at, 4);
    uint32_t start = q->answer.start == CK_NONE ? NO_VIEW : q->answer.start;
    must(code == (q->answer.number == CK_OK ? start : NO_VIEW + q->answer.number), "the code is the packet's");
    must(q->answer.number != CK_OK || !memcmp(places[0].at, q->places, 4 * q->count), "and the places are");
    drop_rooms(places), drop_rooms(codes);
}

/* A record with these dwords has the same packet. */
static void by_record(const asked *q) {
    static uint8_t bytes[CK_MOST_BYTES];
    ck_entry e = {.task_len = 1, .function_at = 1, .function_len = 1, .kind = q->kind, .dwords = q->count, .offset = CK_NONE, .code = CK_NONE,
                  .len = CK_NONE, .port = CK_NONE, .config = CK_NONE, .seq = CK_NONE, .unplug = CK_NONE};
    size_t size = record_of(bytes, (const uint8_t *)"tf", &e, q->dwords);
    const uint8_t *text = lend(bytes, size);
    room slots[WAYS], places[WAYS];
    for (int way = 0; way < WAYS; way++) {
        slots[way] = lend_room(4 * q->count, way), places[way] = lend_room(4 * q->count, way);
        ck_text_packet t = ck_read_packet(text, size, q->book, q->book_len, words_of(slots[way]), q->count,
                                          words_of(places[way]), q->count);
        must(same_packet(t.packet, q->answer), "a record's packet is that of its kind and dwords");
        must(t.kind == (t.packet.number ? 0 : q->kind) && t.dwords == (t.packet.number ? 0 : q->count), "and so are kind and number of dwords");
    }
    size_t owned = q->answer.number == CK_OK ? 4 * q->count : 0;
    must_own(slots, owned, "its dwords stand in the first slots, and none do after a refusal");
    must_own(places, owned, "its places are the first, and none after a refusal");
    must(!memcmp(slots[0].at, q->dwords, owned) && !memcmp(places[0].at, q->places, owned), "and they are those of ck_packet");
    drop_rooms(slots), drop_rooms(places);
}

/* The view, asked three ways. */
static void view(const asked *q) {
    ck_value start = ck_packet_data_start(q->kind, q->book, q->book_len, q->dwords, q->count);
    size_t len = ck_packet_data(q->kind, q->book, q->book_len, q->dwords, q->count);
    int views = q->answer.start != CK_NONE;
    must(start.number == q->answer.number && start.present == views && start.value == (views ? q->answer.start : 0), "the start is the packet's");
    must(len == (views ? q->count - q->answer.start : 0), "the view has the dwords behind its start");
}

int LLVMFuzzerTestOneInput(const uint8_t *data, size_t size) {
    static asked q;
    part parts[PARTS];
    cut(data, size, parts);
    ask_packet(&q, parts);
    tally(q.answer.number);
    by_grammar(&q);
    with_places(&q, count_of(choice(parts, 1, 2), CK_MOST_DWORDS, MOST_PLACES));
    if (q.count) with_places(&q, q.count - 1);
    unchecked(&q, count_of(choice(parts, 1, 2), CK_MOST_DWORDS, MOST_PLACES));
    all_of_one(&q);
    if (q.kind <= 12 && q.count <= CK_MOST_DWORDS) by_record(&q);
    view(&q);
    return done();
}
