/* The calls on packets, each made twice over other memory and held to what the header says of it. */
#ifndef PACKETS_H
#define PACKETS_H

#include "fuzz.h"
#include "grammar.h"

enum { MOST_PLACES = 300, NO_VIEW = 65536, MOST_NAME = 600 };

/* A book and a packet over it, all lent exactly, and what ck_packet says with a place for each dword. */
typedef struct asked {
    uint8_t kind;
    const uint8_t *book;
    size_t book_len;
    const uint32_t *dwords;
    size_t count;
    ck_packet_answer answer;
    uint32_t places[MOST_PLACES];
} asked;

static inline int same_packet(ck_packet_answer a, ck_packet_answer b) {
    return a.number == b.number && a.start == b.start && a.has_uuid == b.has_uuid && !memcmp(a.uuid, b.uuid, sizeof a.uuid);
}

static inline int is_refused(ck_packet_answer a) {
    return a.number != CK_OK && a.start == CK_NONE && !a.has_uuid && !(a.uuid[0] | a.uuid[1] | a.uuid[2] | a.uuid[3]);
}

/* A place is none, or that of an entry for this dword: tag 3, and its two bytes of offset. */
static inline int is_place(const asked *q, size_t i, size_t place) {
    return place == 0 || (place < q->book_len && q->book_len - place >= 5 && q->book[place] == 3 && word_at(q->book + place + 3) == i);
}

/* What is said of an accepted packet. */
static inline void must_describe(const asked *q, ck_packet_answer a, const uint32_t *places) {
    for (size_t i = 0; i < q->count; i++) must(is_place(q, i, places[i]), "a place is none, or an entry of its dword");
    must(q->kind >= 1 && q->kind <= 12 && q->count <= CK_MOST_DWORDS, "a packet has a kind and at most 256 dwords");
    must(a.start == CK_NONE || a.start <= q->count, "a view starts among the dwords or behind them");
    int crosses = q->kind == 8 || q->kind == 9, views = q->kind == 2 || q->kind == 3;
    must(!views || a.start != CK_NONE, "kinds 2 and 3 have a view");
    must(views || crosses || a.start == CK_NONE, "kinds other than 2, 3, 8 and 9 have none");
    must(a.has_uuid <= 1 && (crosses || !a.has_uuid), "only kinds 8 and 9 have a UUID");
    must(a.has_uuid || !(a.uuid[0] | a.uuid[1] | a.uuid[2] | a.uuid[3]), "no UUID is all zero");
}

typedef ck_packet_answer describer(uint8_t kind, const uint8_t *book, size_t book_len, const uint32_t *dwords, size_t count, uint32_t *places,
                                   size_t places_len);

/* The packet with so many places lent; its places into `to`. */
static inline ck_packet_answer packet_into(uint32_t to[MOST_PLACES], describer *call, const asked *q, size_t lent) {
    room rooms[WAYS];
    ck_packet_answer a[WAYS];
    for (int way = 0; way < WAYS; way++) {
        rooms[way] = lend_room(4 * lent, way);
        a[way] = call(q->kind, q->book, q->book_len, q->dwords, q->count, words_of(rooms[way]), lent);
    }
    must(same_packet(a[0], a[1]), "a packet does not depend on what the places held");
    must(a[0].number == CK_OK || (a[0].number >= CK_BAD_BOOK && a[0].number <= CK_FEW_PLACES), "a packet gives 0 or 20 to 26");
    must(a[0].number == CK_OK || is_refused(a[0]), "a refused packet has no start and no UUID");
    size_t owned = a[0].number == CK_OK ? q->count : 0;
    must_own(rooms, 4 * owned, "a packet's places are the first, and all others are as found");
    memcpy(to, rooms[0].at, 4 * owned);
    if (a[0].number == CK_OK) must_describe(q, a[0], to);
    drop_rooms(rooms);
    return a[0];
}

/* The packet of an input: its kind is the first choice. */
static inline void ask_packet(asked *q, const part parts[PARTS]) {
    q->kind = (uint8_t)choice(parts, 0, 1);
    q->book = lend(parts[BOOK].at, parts[BOOK].len), q->book_len = parts[BOOK].len;
    q->count = parts[DWORDS].len / 4 < MOST_PLACES ? parts[DWORDS].len / 4 : MOST_PLACES;
    q->dwords = lend(parts[DWORDS].at, 4 * q->count);
    q->answer = packet_into(q->places, ck_packet, q, q->count);
    must(q->answer.number != CK_FEW_PLACES, "with a place for each dword there is no 26");
    must((q->answer.number == CK_BAD_BOOK) == (ck_book_check(q->book, q->book_len) == CK_BAD_BOOK), "20 is what the check says of the book");
}

/* The name of a place, or of a range's value where `of_value` says so, with so much room; its bytes into `to`, if it fits. */
static inline size_t name_into(uint8_t to[MOST_NAME], const asked *q, size_t place, int of_value, uint32_t value, size_t size) {
    room rooms[WAYS];
    size_t n[WAYS];
    for (int way = 0; way < WAYS; way++) {
        rooms[way] = lend_room(size, way);
        n[way] = of_value ? ck_value_name(q->book, q->book_len, place, value, rooms[way].at, size)
                          : ck_name(q->book, q->book_len, place, rooms[way].at, size);
    }
    must(n[0] == n[1] && n[0] <= q->book_len, "a name does not depend on the buffer, and lies in the book");
    must_own(rooms, n[0] <= size ? n[0] : 0, "a name that fits is the first bytes, and all others are as found");
    memcpy(to, rooms[0].at, n[0] <= size ? n[0] : 0);
    drop_rooms(rooms);
    return n[0];
}

#endif
