/* The intake: lines and records, with a book, to ck_read, ck_read_packet, ck_what and their lenient forms. Choices: slots lent (2 bytes), places
 * lent (2). */
#include "packets.h"
#include "pieces.h"

const unsigned used_parts = 1 << CHOICES | 1 << TEXT | 1 << BOOK;

/* The calls of one choice. */
typedef struct calls {
    reader *read;
    ck_text_packet (*packet)(const uint8_t *, size_t, const uint8_t *, size_t, uint32_t *, size_t, uint32_t *, size_t);
    ck_what_answer (*what)(const uint8_t *, size_t);
} calls;

static const calls strictly = {ck_read, ck_read_packet, ck_what}, leniently = {ck_read_lenient, ck_read_packet_lenient, ck_what_lenient};

/* The packet of a text, what it says and leaves behind. */
typedef struct taken {
    ck_text_packet is;
    uint32_t slots[MOST_SLOTS], places[MOST_PLACES];
} taken;

static void take_packet(taken *to, const calls *by, part text, part book, size_t slots_lent, size_t places_lent) {
    room slots[WAYS], places[WAYS];
    ck_text_packet t[WAYS];
    for (int way = 0; way < WAYS; way++) {
        slots[way] = lend_room(4 * slots_lent, way), places[way] = lend_room(4 * places_lent, way);
        t[way] = by->packet(text.at, text.len, book.at, book.len, words_of(slots[way]), slots_lent, words_of(places[way]), places_lent);
    }
    must(same_packet(t[0].packet, t[1].packet) && t[0].kind == t[1].kind && t[0].dwords == t[1].dwords, "a packet does not depend on what was lent");
    if (t[0].packet.number != CK_OK) must(is_refused(t[0].packet) && !t[0].kind && !t[0].dwords, "a refusal has no packet");
    must_own(slots, 4 * t[0].dwords, "a packet's dwords stand in the first slots, and all other slots are as found");
    must_own(places, 4 * t[0].dwords, "a packet's places are the first, and all others are as found");
    to->is = t[0];
    memcpy(to->slots, slots[0].at, 4 * t[0].dwords), memcpy(to->places, places[0].at, 4 * t[0].dwords);
    drop_rooms(slots), drop_rooms(places);
}

/* The packet by the two calls that it is made of: the entry's dwords, with its kind, over the book. */
static void by_steps(const taken *t, const told *e, part book, size_t places_lent) {
    static asked q;
    static uint32_t places[MOST_PLACES];
    if (e->number != CK_OK) {
        must(t->is.packet.number == e->number, "a text that is no entry is no packet, for the same reason");
        return;
    }
    q.kind = e->entry.kind, q.book = book.at, q.book_len = book.len, q.count = e->entry.dwords, q.dwords = lend(e->dwords, 4 * q.count);
    ck_packet_answer p = packet_into(places, ck_packet, &q, places_lent);
    must(same_packet(p, t->is.packet), "a text's packet is that of its entry");
    if (p.number != CK_OK) return;
    must(t->is.kind == q.kind && t->is.dwords == q.count, "and so are kind and number of dwords");
    must(!memcmp(t->slots, e->dwords, 4 * q.count) && !memcmp(t->places, places, 4 * q.count), "and dwords and places");
}

/* What the text is, told by reading it into enough slots. */
static void what_by_reading(const calls *by, part text) {
    static told e;
    read_into(&e, by->read, text.at, text.len, CK_MOST_DWORDS);
    ck_what_answer w = by->what(text.at, text.len);
    uint8_t accepted = text.len && text.at[0] == 0xa1 ? CK_IS_RECORD : CK_IS_LINE;
    must(w.number == e.number, "what is neither is refused with the number of the intake");
    must(w.what == (e.number == CK_OK ? accepted : CK_IS_NEITHER), "an accepted text is a record if it starts with A1, else a line");
}

/* Entry, grammar and packet of one choice. */
static void by_choice(const calls *by, told *e, taken *packet, part text, part book, size_t slots, size_t places) {
    read_into(e, by->read, text.at, text.len, slots);
    must(e->number <= CK_BAD_PIECE || (e->number >= CK_NO_RECORD && e->number <= CK_FEW_RECORD_SLOTS), "the intake gives 0, 1 to 18 or 30 to 35");
    must(e->number != 10, "and never 10");
    must(e->number == CK_OK || (text.len && text.at[0] == 0xa1) == (e->number >= CK_NO_RECORD), "30 and up are of texts that start with A1");
    what_by_reading(by, text);
    take_packet(packet, by, text, book, slots, places);
    by_steps(packet, e, book, places);
}

/* The record of a text gives the text's packet, by either choice. */
static void by_record(const calls *by, const taken *first, part record, part book, size_t slots, size_t places) {
    static taken again;
    take_packet(&again, by, record, book, slots, places);
    must(same_packet(again.is.packet, first->is.packet) && again.is.kind == first->is.kind && again.is.dwords == first->is.dwords,
         "a text and its record give the same packet");
    must(!memcmp(again.slots, first->slots, 4 * first->is.dwords) && !memcmp(again.places, first->places, 4 * first->is.dwords),
         "the same dwords and places");
}

int LLVMFuzzerTestOneInput(const uint8_t *data, size_t size) {
    static told strict, lenient;
    static taken strict_packet, lenient_packet;
    part parts[PARTS];
    cut(data, size, parts);
    part text = {lend(parts[TEXT].at, parts[TEXT].len), parts[TEXT].len}, book = {lend(parts[BOOK].at, parts[BOOK].len), parts[BOOK].len};
    size_t slots = count_of(choice(parts, 0, 2), CK_MOST_DWORDS, MOST_SLOTS), places = count_of(choice(parts, 2, 2), CK_MOST_DWORDS, MOST_PLACES);
    by_choice(&leniently, &lenient, &lenient_packet, text, book, slots, places);
    by_choice(&strictly, &strict, &strict_packet, text, book, slots, places);
    tally(strict_packet.is.packet.number);
    must_be_strict(&strict, &lenient, text);
    if (lenient.number == CK_OK) {
        part record = there_and_back(&lenient);
        by_record(&leniently, &lenient_packet, record, book, slots, places);
        by_record(&strictly, &lenient_packet, record, book, slots, places);
    }
    return done();
}
