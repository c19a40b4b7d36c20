/* How inputs are changed: part by part, books and records field by field with the lengths around a change made right, so that many of them are
 * accepted, and streams unit by unit. */
#include "fuzz.h"

size_t LLVMFuzzerMutate(uint8_t *data, size_t size, size_t most);

enum { MOST_NODES = 8192, MOST_PART = 66000, MOST_STREAM = 12000, DEEPEST = 5, LEAF = -1, TOP = -1 };

static int is_stream(void) { return (used_parts & IS_STREAM) != 0; }

static size_t most_of(int part) {
    static const size_t most[PARTS] = {128, 300, 1040, 1040, 5300, MOST_PART};
    return part == TEXT && is_stream() ? MOST_STREAM : most[part];
}

static struct {
    uint8_t bytes[MOST_PART];
    size_t len;
} now[PARTS];

static uint8_t scratch[2 * MOST_PART];

static uint32_t state;

static uint32_t below(uint32_t bound) {
    state ^= state << 13, state ^= state >> 17, state ^= state << 5;
    return state % bound;
}

/* ---- the fields of a book or record, each with the one it stands in */

static struct node {
    size_t at, end;
    int parent, prefix;
    uint8_t tag;
} nodes[MOST_NODES];
static int node_count;

/* How many bytes stand before the fields inside a field, or LEAF. */
static int prefix_of(uint8_t tag, int part) {
    if (part == TEXT) return tag == 0xa1 ? 0 : LEAF;
    return tag == 1 ? 1 : tag == 2 ? 16 : tag == 3 || tag == 6 ? 2 : LEAF;
}

static void walk(int part, size_t from, size_t to, int parent, int depth) {
    const uint8_t *bytes = now[part].bytes;
    while (to - from >= 3 && node_count < MOST_NODES) {
        size_t body = from + 3, end = body + word_at(bytes + from + 1);
        if (end > to) return;
        int prefix = prefix_of(bytes[from], part), me = node_count++;
        nodes[me] = (struct node){from, end, parent, prefix, bytes[from]};
        if (prefix != LEAF && body + (size_t)prefix <= end && depth < DEEPEST) walk(part, body + (size_t)prefix, end, me, depth + 1);
        from = end;
    }
}

static void find_nodes(int part) {
    node_count = 0;
    walk(part, 0, now[part].len, TOP, 0);
}

/* A node of the book with one of two tags; TOP for none. */
static int pick_node(uint8_t tag, uint8_t other) {
    for (int tries = 0; node_count && tries < 20; tries++) {
        int n = (int)below((uint32_t)node_count);
        if (nodes[n].tag == tag || nodes[n].tag == other) return n;
    }
    return TOP;
}

/* Puts bytes, which lie elsewhere, in place of a stretch, and makes the lengths of all fields around it right. */
static void splice(int part, size_t from, size_t to, const uint8_t *with, size_t len, int around) {
    uint8_t *bytes = now[part].bytes;
    if (now[part].len - (to - from) + len > most_of(part)) return;
    memmove(bytes + from + len, bytes + to, now[part].len - to);
    if (len) memcpy(bytes + from, with, len);
    now[part].len += len - (to - from);
    for (; around != TOP; around = nodes[around].parent) {
        uint8_t *at = bytes + nodes[around].at + 1;
        size_t length = word_at(at) + len - (to - from);
        at[0] = (uint8_t)length, at[1] = (uint8_t)(length >> 8);
    }
}

/* ---- fields to put in */

static const char *const words[] = {
    "UUID", "Packet Type", "Adapter Num", "Address", "Offset", "Read Size", "Write Size", "Properties Block Size", "Properties Block Generation",
    "A", "B", "x"};

static size_t make_name(uint8_t *to) {
    const char *word = words[below(sizeof words / sizeof *words)];
    memcpy(to, word, strlen(word));
    return strlen(word);
}

/* The frame of a field around the body that stands there already. */
static size_t framed(uint8_t *to, uint8_t tag, size_t body) {
    to[0] = tag, to[1] = (uint8_t)body, to[2] = (uint8_t)(body >> 8);
    return 3 + body;
}

static size_t make_named(uint8_t *to, uint8_t tag) { return framed(to, tag, make_name(to + 3)); }

static size_t make_value(uint8_t *to) {
    memset(to + 3, 0, 4);
    to[3] = (uint8_t)below(5);
    return framed(to, 7, 4 + make_name(to + 7));
}

static size_t make_range(uint8_t *to) {
    uint8_t low = (uint8_t)below(32);
    to[3] = low, to[4] = (uint8_t)(low + below(32u - low));
    size_t size = 2 + make_named(to + 5, 4);
    for (uint32_t n = below(3); n; n--) size += make_value(to + 3 + size);
    return framed(to, 6, size);
}

static size_t make_entry(uint8_t *to) {
    to[3] = (uint8_t)below(below(4) ? 12 : 256), to[4] = below(16) ? 0 : (uint8_t)below(256);
    size_t size = 2;
    if (below(3)) size += make_named(to + 3 + size, 4);
    if (!below(3)) size += make_named(to + 3 + size, 5);
    for (uint32_t n = below(3); n; n--) size += make_range(to + 3 + size);
    return framed(to, 3, size);
}

static size_t make_table(uint8_t *to) {
    uint8_t tag = below(2) ? 1 : 2;
    size_t size = tag == 1 ? 1 : 16;
    for (size_t i = 0; i < size; i++) to[3 + i] = tag == 1 ? (uint8_t)(1 + below(12)) : i % 4 ? 0 : (uint8_t)below(3);
    for (uint32_t n = below(4); n; n--) size += make_entry(to + 3 + size);
    return framed(to, tag, size);
}

/* A field of a record, its body of the right width and mostly in range. */
static size_t make_field(uint8_t *to, uint8_t tag) {
    static const uint8_t widths[20] = {0, 3, 4, 2, 8, 8, 3, 1, 2, 1, 4, 8, 2, 1, 2, 1, 1, 1, 1, 8};
    for (size_t i = 0; i < widths[tag]; i++) to[3 + i] = tag == 1 || tag == 6 ? (uint8_t)('a' + below(26)) : (uint8_t)below(below(4) ? 2 : 256);
    return framed(to, tag, widths[tag]);
}

/* The frame of a record around what is there. */
static void set_frame(void) {
    if (now[TEXT].len >= 3) framed(now[TEXT].bytes, 0xa1, now[TEXT].len - 3);
}

/* ---- changes of one field */

/* The first field inside a node, or behind another in it, with a tag above the one given; where it would stand. */
static size_t place_for(int parent, uint8_t tag) {
    for (int i = parent + 1; i < node_count; i++)
        if (nodes[i].parent == parent && nodes[i].tag > tag) return nodes[i].at;
    return nodes[parent].end;
}

static void add_field(int n) {
    size_t len;
    while (n != TOP && nodes[n].prefix == LEAF) n = nodes[n].parent;
    uint8_t tag = n == TOP ? 0 : nodes[n].tag;
    if (tag == 1 || tag == 2) len = make_entry(scratch);
    else if (tag == 3) len = below(2) ? make_range(scratch) : make_named(scratch, below(2) ? 4 : 5);
    else if (tag == 6) len = make_value(scratch);
    else len = make_table(scratch);
    size_t at = n == TOP ? now[BOOK].len : place_for(n, scratch[0]);
    splice(BOOK, at, at, scratch, len, n);
}

/* A record's field, where its tag belongs, and mostly in place of the one that is there. */
static void set_field(void) {
    uint8_t tag = (uint8_t)(1 + below(19));
    size_t len = make_field(scratch, tag), at = place_for(0, tag), end = at;
    for (int i = 1; i < node_count; i++)
        if (nodes[i].tag == tag && below(8)) at = nodes[i].at, end = nodes[i].end;
    splice(TEXT, at, end, scratch, len, 0);
}

/* Brings the body of a record's field near its rule: bytes that a text may have, whole dwords, numbers in range. */
static size_t tame(uint8_t tag, uint8_t *body, size_t len) {
    for (size_t i = 0; i < len && (tag == 1 || tag == 6); i++) {
        int letter = (body[i] | 32) >= 'a' && (body[i] | 32) <= 'z';
        if (tag == 1 ? body[i] >= 128 || body[i] == 32 : !letter) body[i] = (uint8_t)('a' + body[i] % 26);
    }
    if (tag == 3 && len == 2) body[1] &= 3;
    if ((tag == 4 || tag == 5) && len == 8) body[7] &= 127;
    if (tag == 7 && len == 1) body[0] %= 13;
    if (tag == 9 && len == 1) body[0] &= 1;
    return tag == 19 ? len / 4 * 4 : len;
}

/* A body of a record: texts and dwords of any length, numbers of theirs. */
static void change_record_body(int n) {
    size_t len = nodes[n].end - nodes[n].at - 3;
    uint8_t tag = nodes[n].tag;
    int fixed = tag != 1 && tag != 6 && tag != 19 && below(8);
    memcpy(scratch, now[TEXT].bytes + nodes[n].at + 3, len);
    if (fixed && !len) return;
    size_t changed = LLVMFuzzerMutate(scratch, len, fixed ? len : 4200);
    if (!fixed) len = changed;
    if (below(8)) len = tame(tag, scratch, len);
    splice(TEXT, nodes[n].at + 3, nodes[n].end, scratch, len, n);
}

/* A name is any other; before the fields inside a field as many bytes stay as there were. */
static void change_body(int n) {
    uint8_t *body = now[BOOK].bytes + nodes[n].at + 3;
    size_t len = nodes[n].end - nodes[n].at - 3, prefix = (size_t)nodes[n].prefix;
    if (nodes[n].prefix != LEAF) {
        if (prefix && prefix <= len) LLVMFuzzerMutate(body, prefix, prefix);
        return;
    }
    if (nodes[n].tag < 6 && below(2)) {
        len = make_name(scratch);
    } else {
        memcpy(scratch, body, len);
        len = LLVMFuzzerMutate(scratch, len, len + 20);
    }
    splice(BOOK, nodes[n].at + 3, nodes[n].end, scratch, len, n);
}

/* A field and the next one beside it change places. */
static void swap(int part, int n) {
    const uint8_t *bytes = now[part].bytes;
    for (int m = n + 1; m < node_count; m++) {
        if (nodes[m].at != nodes[n].end || nodes[m].parent != nodes[n].parent) continue;
        size_t first = nodes[n].end - nodes[n].at, second = nodes[m].end - nodes[m].at;
        memcpy(scratch, bytes + nodes[m].at, second);
        memcpy(scratch + second, bytes + nodes[n].at, first);
        splice(part, nodes[n].at, nodes[m].end, scratch, first + second, nodes[n].parent);
        return;
    }
}

/* Puts a copy of a field of the book behind or in place of another of its tag. */
static void copy(int n, int whole) {
    int m = pick_node(nodes[n].tag, nodes[n].tag);
    if (m == TOP) return;
    size_t len = nodes[m].end - nodes[m].at;
    memcpy(scratch, now[BOOK].bytes + nodes[m].at, len);
    splice(BOOK, whole ? nodes[n].at : nodes[n].end, nodes[n].end, scratch, len, nodes[n].parent);
}

static void drop(int part, int n) { splice(part, nodes[n].at, nodes[n].end, NULL, 0, nodes[n].parent); }

static void change_book(void) {
    find_nodes(BOOK);
    if (!node_count) {
        add_field(TOP);
        return;
    }
    int n = (int)below((uint32_t)node_count);
    switch (below(8)) {
    case 0: drop(BOOK, n); break;
    case 1: swap(BOOK, n); break;
    case 2: copy(n, 1); break;
    case 3: copy(n, 0); break;
    case 4: add_field(below(8) ? n : TOP); break;
    default: change_body(n);
    }
}

/* What every record needs is seldom taken away. */
static void change_record(void) {
    find_nodes(TEXT);
    if (node_count < 2) {
        set_frame();
        return;
    }
    int n = 1 + (int)below((uint32_t)node_count - 1), optional = nodes[n].tag >= 12 && nodes[n].tag <= 18;
    switch (below(16)) {
    case 0: if (optional || !below(8)) drop(TEXT, n); break;
    case 1: if (!below(4)) swap(TEXT, n); break;
    case 2:
    case 3:
    case 4:
    case 5: set_field(); break;
    default: change_record_body(n);
    }
}

/* ---- changes of a stream */

/* Where the unit at a place of the stream ends. */
static size_t unit_end(size_t at) {
    const uint8_t *from = now[TEXT].bytes + at;
    size_t left = now[TEXT].len - at, size = left;
    const uint8_t *newline = memchr(from, '\n', left);
    if (*from != 0xa1 && newline) size = (size_t)(newline - from) + 1;
    if (*from == 0xa1 && left >= 3) size = 3 + word_at(from + 1);
    return at + (size < left ? size : left);
}

/* A good line, one with a bad piece, an empty one, a comment, no entry; now and then one around the longest. */
static size_t make_line(uint8_t *to) {
    static const char *const lines[] = {
        "a-1 [002] 1.2: f: type=t size=3 domain=0 route=0 data=[1]\n", "a-1 [002] 1.2: f: type=t size=3 domain=0 route=0 data=[1, z]\n", "\n", "#\n",
        "x\n"};
    const char *line = lines[below(5)];
    size_t len = strlen(line);
    memcpy(to, line, len);
    if (below(8)) return len;
    len = 4090 + below(12);
    memset(to, 'x', len);
    to[0] = below(2) ? '#' : 'x', to[len - 1] = '\n';
    return len;
}

/* A good record, or one that says a length around the bounds. */
static size_t make_record(uint8_t *to) {
    size_t len = 0;
    if (below(3)) {
        for (uint8_t tag = 1; tag <= 19; tag++)
            if (tag < 12 || tag == 19 || below(2)) len += make_field(to + 3 + len, tag);
        return framed(to, 0xa1, len);
    }
    static const uint16_t bounds[4] = {0, 5227 - 3, 8192, 65535};
    uint16_t says = (uint16_t)(bounds[below(4)] + below(5) - 2);
    len = says < 6000 ? says : below(20);
    memset(to + 3, below(2) ? '\n' : 'x', len);
    framed(to, 0xa1, says);
    return 3 + len;
}

/* Other bytes for a unit; a record mostly says its length again. */
static void change_unit(size_t from, size_t to) {
    size_t len = to - from;
    memcpy(scratch, now[TEXT].bytes + from, len);
    len = LLVMFuzzerMutate(scratch, len, len + 40);
    if (len >= 3 && scratch[0] == 0xa1 && below(8)) framed(scratch, 0xa1, len - 3);
    splice(TEXT, from, to, scratch, len, TOP);
}

static void change_stream(void) {
    size_t from = 0, to = 0, place = now[TEXT].len ? below((uint32_t)now[TEXT].len) : 0, len;
    while (to < now[TEXT].len && (to = unit_end(from)) <= place) from = to;
    switch (below(6)) {
    case 0: splice(TEXT, from, to, NULL, 0, TOP); break;
    case 1:
    case 2:
        len = below(2) ? make_line(scratch) : make_record(scratch);
        splice(TEXT, from, below(4) ? from : to, scratch, len, TOP);
        break;
    case 3:
        len = to - from;
        memcpy(scratch, now[TEXT].bytes + from, len);
        splice(TEXT, to, to, scratch, len, TOP);
        break;
    default: change_unit(from, to);
    }
}

/* ---- changes of one part */

static void change_bytes(int part) { now[part].len = LLVMFuzzerMutate(now[part].bytes, now[part].len, most_of(part)); }

/* A UUID of the book among the dwords, where its `UUID` fields may stand. */
static void put_uuid(void) {
    int n = pick_node(2, 2);
    size_t at = 4 * below(9);
    if (n == TOP || nodes[n].end - nodes[n].at < 19) return;
    for (; now[DWORDS].len < at + 16; now[DWORDS].len++) now[DWORDS].bytes[now[DWORDS].len] = 0;
    memcpy(now[DWORDS].bytes + at, now[BOOK].bytes + nodes[n].at + 3, 16);
}

/* A name of the book, or one that the library knows. */
static void put_name(void) {
    int n = pick_node(4, 7);
    size_t skip = n != TOP && nodes[n].tag == 7 ? 7 : 3;
    if (n == TOP || nodes[n].end - nodes[n].at - 3 > most_of(NAME) || nodes[n].end - nodes[n].at < skip || !below(4)) {
        now[NAME].len = make_name(now[NAME].bytes);
        return;
    }
    now[NAME].len = nodes[n].end - nodes[n].at - skip;
    memcpy(now[NAME].bytes, now[BOOK].bytes + nodes[n].at + skip, now[NAME].len);
}

/* The place of an entry, range or value as one of the places. */
static void put_place(void) {
    int n = pick_node(below(2) ? 3 : 6, 7);
    size_t at = 4 * below(12);
    if (n == TOP) return;
    for (; now[PLACES].len < at + 4; now[PLACES].len++) now[PLACES].bytes[now[PLACES].len] = 0;
    for (size_t i = 0; i < 4; i++) now[PLACES].bytes[at + i] = (uint8_t)(nodes[n].at >> 8 * i);
}

static int is_record(void) { return !is_stream() && now[TEXT].len && now[TEXT].bytes[0] == 0xa1; }

static void change(int part) {
    int by_book = (part == DWORDS || part == NAME || part == PLACES) && used_parts >> BOOK & 1 && below(2);
    if (by_book) find_nodes(BOOK);
    if (by_book && part == DWORDS) put_uuid();
    else if (by_book && part == NAME) put_name();
    else if (by_book) put_place();
    else if (part == BOOK && below(4)) change_book();
    else if (part == TEXT && is_stream() && below(4)) change_stream();
    else if (is_record() && part == TEXT && below(8)) change_record();
    else change_bytes(part);
    if (part == TEXT && is_record() && below(8)) set_frame();
}

/* ---- an input and its parts */

static void take(int which, part p) {
    now[which].len = p.len < most_of(which) ? p.len : most_of(which);
    if (p.len) memcpy(now[which].bytes, p.at, now[which].len);
}

static void take_all(const uint8_t *data, size_t size) {
    part parts[PARTS];
    cut(data, size, parts);
    for (int i = 0; i < PARTS; i++) take(i, parts[i]);
}

/* The parts as one input, the last of them cut where it would be too long. */
static size_t glue(uint8_t *data, size_t most) {
    size_t at = HEAD;
    if (most < HEAD) return 0;
    for (int i = 0; i < PARTS; i++) {
        size_t len = now[i].len < most - at ? now[i].len : most - at;
        if (i != BOOK) data[2 * i] = (uint8_t)len, data[2 * i + 1] = (uint8_t)(len >> 8);
        if (len) memcpy(data + at, now[i].bytes, len);
        at += len;
    }
    return at;
}

size_t LLVMFuzzerCustomMutator(uint8_t *data, size_t size, size_t most, unsigned seed) {
    state = seed * 2654435761u | 1;
    if (!below(16)) return LLVMFuzzerMutate(data, size, most);
    take_all(data, size);
    for (uint32_t n = 1 + below(3); n;) {
        int part = (int)below(PARTS);
        if (used_parts >> part & 1) change(part), n--;
    }
    return glue(data, most);
}

size_t LLVMFuzzerCustomCrossOver(const uint8_t *data, size_t size, const uint8_t *other, size_t other_size, uint8_t *out, size_t most,
                                 unsigned seed) {
    part parts[PARTS];
    state = seed * 2654435761u | 1;
    take_all(data, size);
    cut(other, other_size, parts);
    for (int i = 0; i < PARTS; i++)
        if (used_parts >> i & 1 && below(2)) take(i, parts[i]);
    return glue(out, most);
}
