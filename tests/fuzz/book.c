/* Books: any bytes to ck_book_check; one that is accepted is gone through, each entry, range and value by the calls on places. Choices: a dword
 * (4 bytes), room for names (2). */
#include "packets.h"

const unsigned used_parts = 1 << CHOICES | 1 << BOOK;

/* A plain reading compares pairs, so that it is kept to books of some size; and so is the walk. */
enum { MOST_READ = 8192, MOST_STEPS = 400 };

static uint32_t dword;
static size_t room_lent, steps;

/* The name of a place is this one. */
static void must_name(const asked *q, size_t place, int of_value, uint32_t value, part name) {
    uint8_t to[MOST_NAME];
    must(name_into(to, q, place, of_value, value, 255) == name.len && !memcmp(to, name.at, name.len), "a name is that in the book");
    must(name_into(to, q, place, of_value, value, room_lent) == name.len, "its length does not depend on the room");
    if (name.len) must(name_into(to, q, place, of_value, value, name.len - 1) == name.len, "nor does it where a byte is missing");
}

static void walk_range(const asked *q, field r) {
    field v;
    part name = text_of(q->book, r, 4);
    must_name(q, r.at, 0, 0, name);
    for (size_t at = (size_t)(name.at - q->book) + name.len; at < r.to && field_at(q->book, at, r.to, &v) && steps; at = v.to, steps--) {
        uint32_t value;
        memcpy(&value, q->book + v.from, 4);
        part text = {q->book + v.from + 4, v.to - v.from - 4};
        must_name(q, r.at, 1, value, text);
        must_name(q, v.at, 0, 0, text);
    }
}

static void walk_entry(const asked *q, field e) {
    field f, first;
    size_t k = 0, kept = block_count;
    must_name(q, e.at, 0, 0, text_of(q->book, e, 4));
    for (size_t at = e.from + 2; at < e.to && field_at(q->book, at, e.to, &f); at = f.to) {
        if (f.tag != 6) continue;
        if (!steps) return;
        ck_range_answer want = {1, q->book[f.from], q->book[f.from + 1], bits_of(dword, q->book[f.from], q->book[f.from + 1]), f.at};
        must(same_range(ck_range(q->book, q->book_len, e.at, dword, k++), want), "a range is that in the book");
        part name = text_of(q->book, f, 4);
        ck_range_answer r = ck_range_named(q->book, q->book_len, e.at, dword, lend(name.at, name.len), name.len);
        must(named_in(q->book, q->book_len, e.at, name, &first) && same_range(r, range_told(q->book, q->book_len, first, dword)),
             "of one name the first range counts");
        walk_range(q, f);
        drop_blocks_to(kept);
        steps--;
    }
    must(ck_range_count(q->book, q->book_len, e.at) == k, "an entry has as many ranges as are counted");
    must(same_range(ck_range(q->book, q->book_len, e.at, dword, k), (ck_range_answer){0}), "and none behind them");
}

static void walk_book(const asked *q) {
    field t, e;
    for (size_t at = 0; at < q->book_len && field_at(q->book, at, q->book_len, &t); at = t.to)
        for (size_t in = t.from + (t.tag == 1 ? 1 : 16); in < t.to && field_at(q->book, in, t.to, &e) && steps; in = e.to, steps--) walk_entry(q, e);
}

int LLVMFuzzerTestOneInput(const uint8_t *data, size_t size) {
    static asked q;
    part parts[PARTS];
    cut(data, size, parts);
    q.book = lend(parts[BOOK].at, parts[BOOK].len), q.book_len = parts[BOOK].len;
    uint8_t number = ck_book_check(q.book, q.book_len);
    tally(number);
    must(number == CK_OK || number == CK_BAD_BOOK, "a book is accepted or 20");
    must(number == ck_book_check(q.book, q.book_len), "twice the same");
    if (q.book_len <= MOST_READ || q.book_len > MOST_BOOK)
        must((number == CK_OK) == book_holds(q.book, q.book_len), "accepted is what the grammar has");
    dword = (uint32_t)choice(parts, 0, 4), room_lent = count_of(choice(parts, 4, 2), 255, MOST_NAME), steps = MOST_STEPS;
    if (number == CK_OK) walk_book(&q);
    return done();
}
