/* One question of a packet, an entry or a book, named by the environment's QUESTION: its form of a kind, a book and dwords, its form of described
 * dwords over the packet's places and over any places at all, held to plain searches of the book.
 * Choices: kind (1 byte), offset (2), room for names (2), a place (8), a dword (4), then the numbers of an entry. */
#include "packets.h"

const unsigned used_parts = 1 << CHOICES | 1 << NAME | 1 << DWORDS | 1 << PLACES | 1 << BOOK;

/* ---- what is asked */

static part parts[PARTS];
static asked p;
static part name;

/* Places for each dword: the packet's own, or any number of any places. */
typedef struct list {
    const uint32_t *at;
    size_t count;
} list;

static list own, any;

#define PACKET p.kind, p.book, p.book_len, p.dwords, p.count
#define DESCRIBED(places) p.book, p.book_len, p.dwords, p.count, (places).at, (places).count
#define ASKED name.at, name.len

static uint32_t dword_at(size_t i) { return i < p.count ? p.dwords[i] : 0; }
static size_t place_at(list places, size_t i) { return i < places.count ? places.at[i] : 0; }
static size_t chosen_place(void) { return (size_t)choice(parts, 5, (size_t[]){2, 2, 4, 8}[choice(parts, 12, 1) & 3]); }
static size_t some_place(size_t i) { return i ? any.at[i - 1] : chosen_place(); }
static uint32_t chosen_dword(void) { return (uint32_t)choice(parts, 13, 4); }
static size_t chosen_room(void) { return count_of(choice(parts, 3, 2), 255, MOST_NAME); }

/* ---- by plain searches of the book: the first dword whose entry holds a range of a name, or has that name */

static size_t first_holding(list places, part word, field *range) {
    for (size_t i = 0; i < places.count; i++)
        if (named_in(p.book, p.book_len, places.at[i], word, range)) return i;
    return SIZE_MAX;
}

static int has_name(size_t place, part word) { return word.len && same_part(name_at(p.book, p.book_len, place), word); }

static size_t first_named(list places, part word) {
    for (size_t i = 0; i < places.count; i++)
        if (has_name(places.at[i], word)) return i;
    return SIZE_MAX;
}

/* ---- numbers */

static int same_value(ck_value a, ck_value b) { return a.number == b.number && a.present == b.present && a.value == b.value; }

static ck_value is_value(uint64_t value) { return (ck_value){CK_OK, 1, value}; }

/* What the packet's form says: its number if it has one, else what is said of the dwords and places. */
static void must_be(ck_value packet, ck_value wanted) {
    if (p.answer.number != CK_OK) wanted = (ck_value){p.answer.number, 0, 0};
    must(same_value(packet, wanted), "the packet's answer is its number, else that of its dwords");
    tally(packet.number);
}

/* The value of the first range of a name, cut to so many bits. */
static ck_value by_ranges(list places, part word, unsigned bits) {
    field range;
    size_t i = first_holding(places, word, &range);
    if (i == SIZE_MAX) return (ck_value){CK_OK, 0, 0};
    return is_value(range_told(p.book, p.book_len, range, dword_at(i)).value & ((UINT64_C(1) << bits) - 1));
}

static void must_agree(ck_value over_own, ck_value over_any, part word, unsigned bits) {
    must(p.answer.number != CK_OK || same_value(over_own, by_ranges(own, word, bits)), "the described answer is that of the ranges");
    must(same_value(over_any, by_ranges(any, word, bits)), "over any places too");
}

static ck_value plain_route(void) {
    return p.count < 2 ? (ck_value){CK_NO_PACKET_ROUTE, 0, 0} : is_value((uint64_t)p.dwords[0] << 32 | p.dwords[1]);
}

static void route(void) {
    must(same_value(ck_described_route(p.dwords, p.count), plain_route()), "a route is the first dword above the second");
    must_be(ck_packet_route(PACKET), plain_route());
}

static void cm(void) {
    ck_value top = plain_route();
    top.value >>= 63;
    must(same_value(ck_described_cm(p.dwords, p.count), top), "the CM is the route's top bit");
    must_be(ck_packet_cm(PACKET), top);
}

static void adapter_num(void) {
    must_agree(ck_described_adapter_num(DESCRIBED(own)), ck_described_adapter_num(DESCRIBED(any)), text("Adapter Num"), 8);
    must_be(ck_packet_adapter_num(PACKET), ck_described_adapter_num(DESCRIBED(own)));
}

static int crosses(void) { return p.kind == 8 || p.kind == 9; }

static void data_address(void) {
    must_agree(ck_described_data_address(p.kind, DESCRIBED(own)), ck_described_data_address(p.kind, DESCRIBED(any)),
               text(crosses() ? "Offset" : "Address"), 16);
    must_be(ck_packet_data_address(PACKET), ck_described_data_address(p.kind, DESCRIBED(own)));
}

static void data_size(void) {
    int reads = p.kind == 1 || p.kind == 2, writes = p.kind == 3 || p.kind == 4;
    const char *word = reads ? "Read Size" : writes ? "Write Size" : crosses() ? "Properties Block Size" : NULL;
    ck_value over_own = ck_described_data_size(p.kind, DESCRIBED(own)), over_any = ck_described_data_size(p.kind, DESCRIBED(any));
    if (word) must_agree(over_own, over_any, text(word), 16);
    else must(!over_own.present && same_value(over_own, (ck_value){0, 0, 0}) && same_value(over_any, over_own), "other kinds have no size");
    must_be(ck_packet_data_size(PACKET), over_own);
}

static void data_start(void) { must_be(ck_packet_data_start(PACKET), p.answer.start == CK_NONE ? (ck_value){0, 0, 0} : is_value(p.answer.start)); }

static void data(void) {
    must(ck_packet_data(PACKET) == (p.answer.start == CK_NONE ? 0 : p.count - p.answer.start), "the view has the dwords behind its start");
    tally(p.answer.number);
}

static void is_read(void) { must_be(ck_packet_is_read(PACKET), is_value(p.kind == 1 || p.kind == 2)); }
static void is_write(void) { must_be(ck_packet_is_write(PACKET), is_value(p.kind == 3 || p.kind == 4)); }
static void is_xdomain(void) { must_be(ck_packet_is_xdomain(PACKET), is_value(crosses())); }

static void value(void) {
    must_agree(ck_described_value(DESCRIBED(own), ASKED), ck_described_value(DESCRIBED(any), ASKED), name, 32);
    tally(p.answer.number);
}

/* ---- UUIDs */

static int same_uuid(ck_uuid a, ck_uuid b) { return a.number == b.number && a.present == b.present && !memcmp(a.dwords, b.dwords, 16); }

static void uuid(void) {
    ck_uuid u = ck_packet_uuid(PACKET), want = {p.answer.number, p.answer.has_uuid, {0}};
    memcpy(want.dwords, p.answer.uuid, 16);
    must(same_uuid(u, want), "the UUID is the packet's");
    tally(u.number);
}

/* The dwords of that name, if they are four. */
static ck_uuid by_names(list places) {
    ck_uuid u = {0};
    size_t n = 0;
    for (size_t i = 0; i < places.count && i < p.count; i++) {
        if (!has_name(places.at[i], name)) continue;
        if (n < 4) u.dwords[n] = p.dwords[i];
        n++;
    }
    return n == 4 ? (u.present = 1, u) : (ck_uuid){0};
}

static void uuid_by_name(void) {
    ck_uuid u = ck_packet_uuid_by_name(PACKET, ASKED), want = by_names(own);
    must(same_uuid(ck_described_uuid_by_name(DESCRIBED(any), ASKED), by_names(any)), "a UUID by name is four dwords of that name, over any places");
    must(p.answer.number != CK_OK || same_uuid(ck_described_uuid_by_name(DESCRIBED(own), ASKED), want), "and over the packet's");
    if (p.answer.number != CK_OK) want = (ck_uuid){p.answer.number, 0, {0}};
    must(same_uuid(u, want), "the packet's answer is the described one");
    tally(u.number);
}

/* ---- types */

static int same_type(ck_type a, ck_type b) { return a.number == b.number && a.present == b.present && a.value == b.value && a.name == b.name; }

/* The value of the first range `Packet Type`, and the place of what names it. */
static ck_type by_type(list places) {
    field range;
    size_t i = first_holding(places, text("Packet Type"), &range);
    if (i == SIZE_MAX) return (ck_type){0};
    uint32_t is = range_told(p.book, p.book_len, range, dword_at(i)).value;
    size_t named = value_in(p.book, p.book_len, range.at, is);
    return named ? (ck_type){CK_OK, 1, is, named} : (ck_type){CK_UNNAMED_TYPE, 0, 0, 0};
}

static void type(void) {
    ck_type t = ck_packet_type(PACKET), over_own = ck_described_type(DESCRIBED(own));
    must(same_type(ck_described_type(DESCRIBED(any)), by_type(any)), "a type is the value of the first `Packet Type`, over any places");
    must(same_type(over_own, by_type(own)), "and over the packet's");
    if (p.answer.number != CK_OK) over_own = (ck_type){p.answer.number, 0, 0, 0};
    must(same_type(t, over_own), "the packet's answer is the described one");
    tally(t.number);
}

static void type_name_in(size_t size, part want) {
    room rooms[WAYS];
    size_t n[WAYS];
    for (int way = 0; way < WAYS; way++) {
        rooms[way] = lend_room(size, way);
        n[way] = ck_packet_type_name(PACKET, rooms[way].at, size);
    }
    must(n[0] == want.len && n[1] == want.len, "a type's name has the length of that in the book");
    must_own(rooms, want.len <= size ? want.len : 0, "a name that fits is the first bytes, and all others are as found");
    must(want.len > size || !memcmp(rooms[0].at, want.at, want.len), "and it is that name");
    drop_rooms(rooms);
}

static void type_name(void) {
    part want = name_at(p.book, p.book_len, by_type(own).name);
    type_name_in(chosen_room(), want);
    if (want.len) type_name_in(want.len, want), type_name_in(want.len - 1, want);
    tally(p.answer.number);
}

/* ---- fields */

static int same_field(ck_field_answer a, ck_field_answer b) {
    return a.number == b.number && a.present == b.present && a.offset == b.offset && a.value == b.value && a.source == b.source && a.entry == b.entry;
}

/* The field of dword i, none for no i. */
static ck_field_answer field_of(list places, size_t i) {
    if (i == SIZE_MAX) return (ck_field_answer){0};
    ck_field_answer f = ck_field(p.kind, p.book, p.book_len, (uint16_t)i, dword_at(i), place_at(places, i));
    must(!f.number && f.present == 1 && f.offset == (uint16_t)i && f.value == dword_at(i) && f.entry == place_at(places, i), "a field is as given");
    must((f.source == 0) == (f.entry == 0) && f.source <= 3, "and has a table exactly where it has an entry");
    return f;
}

static void must_be_field(ck_field_answer packet, ck_field_answer over_own, ck_field_answer over_any, size_t of_own, size_t of_any) {
    must(same_field(over_any, field_of(any, of_any)), "a field is the first that fits, over any places");
    must(p.answer.number != CK_OK || same_field(over_own, field_of(own, of_own)), "and over the packet's");
    if (p.answer.number != CK_OK) over_own = (ck_field_answer){.number = p.answer.number};
    must(same_field(packet, over_own), "the packet's answer is the described one");
    tally(packet.number);
}

static void field_at_offset(void) {
    uint16_t offset = (uint16_t)choice(parts, 1, 2);
    size_t i = offset < p.count ? offset : SIZE_MAX;
    must_be_field(ck_packet_field(PACKET, offset), ck_described_field(p.kind, DESCRIBED(own), offset),
                  ck_described_field(p.kind, DESCRIBED(any), offset), i, i);
}

static void field_by_name(void) {
    must_be_field(ck_packet_field_by_name(PACKET, ASKED), ck_described_field_by_name(p.kind, DESCRIBED(own), ASKED),
                  ck_described_field_by_name(p.kind, DESCRIBED(any), ASKED), first_named(own, name), first_named(any, name));
}

static void field_by_range(void) {
    field range;
    must_be_field(ck_packet_field_by_range(PACKET, ASKED), ck_described_field_by_range(p.kind, DESCRIBED(own), ASKED),
                  ck_described_field_by_range(p.kind, DESCRIBED(any), ASKED), first_holding(own, name, &range), first_holding(any, name, &range));
}

/* The table that a packet's entry stands in, by a plain search. */
static uint8_t plain_source(size_t entry) {
    static const uint8_t zeros[16];
    field t;
    if (!entry) return 0;
    if (find_table(p.book, p.book_len, 1, &p.kind, 1, &t) && t.from <= entry && entry < t.to) return 1;
    return find_table(p.book, p.book_len, 2, zeros, 16, &t) && t.from <= entry && entry < t.to ? 2 : 3;
}

/* Of any place at all: in a book of the grammar the table is that which the place lies in. */
static void field_by_place(void) {
    int checked = ck_book_check(p.book, p.book_len) == CK_OK;
    for (size_t i = 0; i <= any.count && i < 32; i++) {
        size_t place = some_place(i);
        uint16_t offset = (uint16_t)choice(parts, 1, 2);
        ck_field_answer f = ck_field(p.kind, p.book, p.book_len, offset, chosen_dword(), place);
        must(!f.number && f.present == 1 && f.offset == offset && f.value == chosen_dword() && f.entry == place, "a field is as given");
        must(f.source <= 3 && (f.source == 0) == (place == 0), "and has a table exactly where it has an entry");
        must(!checked || f.source == plain_source(place), "which is the table that its place lies in");
    }
    for (size_t i = 0; i < own.count; i++) must(field_of(own, i).source == plain_source(own.at[i]), "of each dword too");
    tally(p.answer.number);
}

/* ---- ranges and names, of any place of any book: the one chosen, then the any places */

static void range_count(void) {
    for (size_t i = 0; i <= any.count && i < 16; i++) {
        field r;
        size_t n = 0;
        while (nth_in(p.book, p.book_len, some_place(i), n, &r)) n++;
        must(ck_range_count(p.book, p.book_len, some_place(i)) == n, "as many ranges are counted as there are");
    }
    tally(ck_book_check(p.book, p.book_len));
}

static void range(void) {
    static const size_t far[] = {0, 1, 2, 100, SIZE_MAX / 3, SIZE_MAX};
    for (size_t i = 0; i <= any.count && i < 32; i++) {
        field r;
        size_t k = (size_t)choice(parts, 1, 1) % 9;
        if (k == 8) k = far[i % 6];
        ck_range_answer want = {0};
        if (nth_in(p.book, p.book_len, some_place(i), k, &r)) want = range_told(p.book, p.book_len, r, chosen_dword());
        must(same_range(ck_range(p.book, p.book_len, some_place(i), chosen_dword(), k), want), "a range is that with k before it");
    }
    tally(ck_book_check(p.book, p.book_len));
}

static void range_named(void) {
    for (size_t i = 0; i <= any.count && i < 16; i++) {
        field r;
        ck_range_answer want = {0};
        if (named_in(p.book, p.book_len, some_place(i), name, &r)) want = range_told(p.book, p.book_len, r, chosen_dword());
        must(same_range(ck_range_named(p.book, p.book_len, some_place(i), chosen_dword(), ASKED), want), "a range by name is the first of that name");
    }
    tally(ck_book_check(p.book, p.book_len));
}

/* With so much room: the length is that in the book, and the bytes are there if they fit. */
static void must_name_in(size_t size, size_t place, int of_value, uint32_t is) {
    uint8_t to[MOST_NAME];
    part want = name_at(p.book, p.book_len, of_value ? value_in(p.book, p.book_len, place, is) : place);
    must(name_into(to, &p, place, of_value, is, size) == want.len, "a name has the length of that in the book");
    must(want.len > size || !memcmp(to, want.at, want.len), "and its bytes");
}

/* With the room that was chosen, with just enough, and with a byte less. */
static void must_name(size_t place, int of_value, uint32_t is) {
    size_t len = name_at(p.book, p.book_len, of_value ? value_in(p.book, p.book_len, place, is) : place).len;
    must_name_in(chosen_room(), place, of_value, is);
    if (len && len <= MOST_NAME) must_name_in(len, place, of_value, is), must_name_in(len - 1, place, of_value, is);
}

/* Where a name stands is where a plain search finds it; no name stands at 0. */
static void must_stand(size_t place) {
    part want = name_at(p.book, p.book_len, place);
    ck_name_part told = ck_name_at(p.book, p.book_len, place);
    must(told.len == want.len && told.at == (want.len ? (size_t)(want.at - p.book) : 0), "a name stands where it is in the book");
}

static void name_of_place(void) {
    for (size_t i = 0; i <= any.count && i < 16; i++) must_name(some_place(i), 0, 0), must_stand(some_place(i));
    tally(ck_book_check(p.book, p.book_len));
}

static void value_place(void) {
    for (size_t i = 0; i <= any.count && i < 16; i++) {
        uint32_t is = i % 2 ? dword_at(i) : chosen_dword() % 5;
        size_t want = value_in(p.book, p.book_len, some_place(i), is);
        must(ck_value_at(p.book, p.book_len, some_place(i), is) == want, "a value's place is that of the first of its number");
        must_stand(want);
    }
    tally(ck_book_check(p.book, p.book_len));
}

static void value_name(void) {
    for (size_t i = 0; i <= any.count && i < 16; i++) must_name(some_place(i), 1, i % 2 ? dword_at(i) : chosen_dword() % 5);
    tally(ck_book_check(p.book, p.book_len));
}

/* ---- entries */

static int is_code_named(uint8_t c) { return c < 40 && c != 3 && c != 5 && c != 6 && c != 10 && !(c >= 16 && c < 32); }

static void event_name(void) {
    uint8_t code = (uint8_t)choice(parts, 0, 1);
    char decimal[8];
    int n = snprintf(decimal, sizeof decimal, "%u", code);
    ck_event_text t = ck_event_name(code);
    must(t.len >= 1 && t.len <= sizeof t.bytes, "a name has 1 to 14 bytes");
    for (size_t i = 0; i < sizeof t.bytes; i++) must(i < t.len ? t.bytes[i] > 32 && t.bytes[i] < 127 : !t.bytes[i], "zeros stand behind it");
    must(is_code_named(code) == (t.bytes[0] > '9') && (is_code_named(code) || (t.len == (size_t)n && !memcmp(t.bytes, decimal, t.len))),
         "a code without a name is told in decimal");
    tally(code);
}

/* Any numbers at all. */
static ck_entry any_entry(void) {
    ck_entry e;
    uint8_t *bytes = (uint8_t *)&e;
    for (size_t i = 0; i < sizeof e; i++) bytes[i] = (uint8_t)(choice(parts, 17 + i % 64, 1) + i);
    int small = (int)choice(parts, 4, 1);
    e.code = (uint32_t)choice(parts, 17, small & 1 ? 1 : 4), e.port = (uint32_t)choice(parts, 21, small & 2 ? 1 : 4);
    e.unplug = (uint32_t)choice(parts, 25, small & 4 ? 1 : 4);
    if (small & 8) e.code = small & 16 ? 33 : 36;
    return e;
}

static void entry_adapter_num(void) {
    ck_entry e = any_entry();
    must(ck_adapter_num(e) == (e.port < 256 && e.code != 33 && e.code != 36 ? e.port : CK_NONE), "an adapter is the port, but not of 33 and 36");
    tally(ck_adapter_num(e) == CK_NONE);
}

static void entry_unplug(void) {
    ck_entry e = any_entry();
    must(ck_unplug(e) == (e.unplug < 256 ? e.unplug == 1 : CK_NONE), "unplug is whether the byte is 1");
    tally(ck_unplug(e) == CK_NONE);
}

/* ---- many packets: kinds from the name's bytes, counts from the places; most of them small */

enum { MOST_PACKETS = 64 };

static uint8_t kinds[MOST_PACKETS];
static uint32_t counts[MOST_PACKETS];

static size_t least(size_t a, size_t b) { return a < b ? a : b; }

static void make_packets(size_t kinds_count, size_t counts_count) {
    for (size_t i = 0; i < kinds_count; i++) kinds[i] = parts[NAME].at[i] & 128 ? parts[NAME].at[i] : parts[NAME].at[i] % 14;
    for (size_t i = 0; i < counts_count; i++) counts[i] = any.at[i] >> 31 ? any.at[i] : any.at[i] % 16;
}

/* Each packet by itself, on its part of the dwords and places. */
static void must_be_each(const uint32_t *codes, size_t n, const uint32_t *filled, size_t places_lent, const uint32_t *marked) {
    static asked one;
    static uint32_t places[MOST_PLACES];
    size_t at = 0, place = 0;
    for (size_t k = 0; k < n; k++) {
        size_t count = least(counts[k], p.count - at), lent = least(counts[k], places_lent - place);
        one = (asked){.kind = kinds[k], .book = p.book, .book_len = p.book_len, .dwords = p.dwords + at, .count = count};
        ck_packet_answer a = packet_into(places, ck_packet, &one, lent);
        must(codes[k] == (a.number ? NO_VIEW + a.number : a.start == CK_NONE ? NO_VIEW : a.start), "a code is the packet's");
        size_t owned = a.number ? 0 : count;
        must(!memcmp(filled + place, places, 4 * owned), "its places are the packet's");
        must(!memcmp(filled + place + owned, marked + place + owned, 4 * (lent - owned)), "and those behind them are as found");
        at += count, place += lent;
    }
    must(!memcmp(filled + place, marked + place, 4 * (places_lent - place)), "places of no packet are as found");
}

static void packet_all(void) {
    size_t kinds_count = least(parts[NAME].len, MOST_PACKETS), counts_count = least(any.count, MOST_PACKETS);
    size_t places_lent = count_of(choice(parts, 1, 2), p.count, MOST_PLACES), codes_lent = count_of(choice(parts, 3, 2), MOST_PACKETS, MOST_PACKETS);
    make_packets(kinds_count, counts_count);
    const uint8_t *ks = lend(kinds, kinds_count);
    const uint32_t *cs = lend(counts, 4 * counts_count);
    size_t n = least(least(kinds_count, counts_count), codes_lent);
    for (int way = 0; way < WAYS; way++) {
        room places = lend_room(4 * places_lent, way), codes = lend_room(4 * codes_lent, way);
        static uint32_t marked[MOST_PLACES];
        memcpy(marked, places.at, 4 * places_lent);
        size_t told = ck_packet_all(p.book, p.book_len, ks, kinds_count, cs, counts_count, p.dwords, p.count, words_of(places), places_lent,
                                    words_of(codes), codes_lent);
        must(told == n, "there are as many packets as the shortest list has");
        must(as_found(codes, 4 * n) && as_found(places, 4 * places_lent), "codes of no packet are as found, and so is all around");
        must_be_each(words_of(codes), n, words_of(places), places_lent, marked);
        free(places.base), free(codes.base);
    }
    tally(n ? 0 : 1);
}

/* ---- the questions by name; a new call goes here */

static const struct {
    const char *name;
    void (*ask)(void);
} questions[] = {
    {"route", route}, {"cm", cm}, {"adapter_num", adapter_num}, {"data_address", data_address}, {"data_size", data_size}, {"data_start", data_start},
    {"data", data}, {"is_read", is_read}, {"is_write", is_write}, {"is_xdomain", is_xdomain}, {"value", value}, {"uuid", uuid},
    {"uuid_by_name", uuid_by_name}, {"type", type}, {"type_name", type_name}, {"field", field_at_offset}, {"field_by_name", field_by_name},
    {"field_by_range", field_by_range}, {"field_by_place", field_by_place}, {"range_count", range_count}, {"range", range},
    {"range_named", range_named}, {"name", name_of_place}, {"value_place", value_place}, {"value_name", value_name}, {"event_name", event_name},
    {"entry_adapter_num", entry_adapter_num}, {"entry_unplug", entry_unplug}, {"packet_all", packet_all}};

enum { QUESTIONS = sizeof questions / sizeof *questions };

static void (*ask)(void);

int LLVMFuzzerInitialize(int *count, char ***words) {
    (void)count, (void)words;
    const char *asked_for = getenv("QUESTION");
    for (size_t i = 0; i < QUESTIONS; i++)
        if (asked_for && !strcmp(asked_for, questions[i].name)) ask = questions[i].ask;
    if (ask) return 0;
    for (size_t i = 0; i < QUESTIONS; i++) puts(questions[i].name);
    exit(2);
}

int LLVMFuzzerTestOneInput(const uint8_t *input, size_t size) {
    cut(input, size, parts);
    ask_packet(&p, parts);
    name.len = least(parts[NAME].len, MOST_NAME), name.at = lend(parts[NAME].at, name.len);
    own.count = p.answer.number == CK_OK ? p.count : 0, own.at = lend(p.places, 4 * own.count);
    any.count = least(parts[PLACES].len / 4, MOST_PLACES), any.at = lend(parts[PLACES].at, 4 * any.count);
    ask();
    return done();
}
