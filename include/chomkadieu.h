/* Chomkadieu: USB4 trace lines and records as entries, entries as records, packets described by a book of fields, requests matched to their
 * responses, streams fed in parts, and why a hex number of a line was unreadable.
 *
 * Build the archive with `tools/archive` (target/staticlib/libcapi.a, x86-64 Linux) and link it; of its surroundings it asks for memcpy and
 * memset alone.
 *
 * Every call takes any input. It keeps no memory, makes none, and writes only what is lent to it for writing. A slice is a pointer and the
 * number of its elements; the pointer is valid for that many, also for none (not NULL), and what is lent for writing overlaps nothing else that
 * is lent. Slots, places, codes and bytes are written from the first on, as many as the answer says, and no others
 * (ck_packet_all says where its places stand, ck_stream_feed what is written of its buffer).
 * Within that, each call is proved to answer as said here: the contracts stand in crates/capi/src and again at the symbols, in crates/capi_c/src,
 * their definitions in crates/capi/specs and crates/c_entry/specs/Flat.antt.
 */
#ifndef CHOMKADIEU_H
#define CHOMKADIEU_H

#include <stddef.h>
#include <stdint.h>

#ifdef __cplusplus
extern "C" {
#endif

/* A number of 0 is success. All others say why there is no answer, and then all that was lent is as it was found; only a stream's rest buffer has the
 * refused unit in it (ck_stream_feed). Of several the first is told; 18 comes after 15 and before 16, 55 before 54. 10 stands for nothing: no call answers
 * it. */
enum {
    CK_OK = 0,
    CK_IDLE = 1,              /* the line is empty, a newline alone, or a comment */
    CK_LONG_LINE = 2,         /* the line has more than 4,096 bytes */
    CK_NOT_ASCII = 3,         /* the line has a byte of 128 or more */
    CK_NO_COLON = 4,          /* no colon parts header from payload */
    CK_NO_TASK = 5,           /* the header has no task */
    CK_NO_PID = 6,            /* the header has no pid, or one past 32 bits */
    CK_NO_CPU = 7,            /* the header has no CPU in brackets */
    CK_NO_TIMESTAMP = 8,      /* the header has no timestamp, or one with a part past 63 bits */
    CK_NO_FUNCTION = 9,       /* the header does not end with a function */
    CK_NO_TYPE = 11,          /* the payload has no `type` */
    CK_NO_SIZE = 12,          /* `size` is missing or no decimal of 16 bits */
    CK_NO_DOMAIN = 13,        /* `domain` is missing or no decimal of 32 bits */
    CK_NO_ROUTE = 14,         /* `route` is missing or no hex number of 64 bits */
    CK_NO_DATA = 15,          /* `data` is missing or not in brackets */
    CK_MANY_DWORDS = 16,      /* the line has more than 256 dwords */
    CK_FEW_SLOTS = 17,        /* fewer slots are lent than the line has dwords */
    CK_BAD_PIECE = 18,        /* a piece of `data` is no hex number of 32 bits */
    CK_BAD_BOOK = 20,         /* the book breaks its grammar */
    CK_NO_KIND = 21,          /* the packet is of no known kind */
    CK_NO_TABLE = 22,         /* the book has no control table for the kind */
    CK_NO_HEADER_TABLE = 23,  /* the book has no header table for kind 8 or 9 */
    CK_LONG_PACKET = 24,      /* the packet has more than 256 dwords */
    CK_SHORT_PACKET = 25,     /* a packet of kind 2 or 3 has fewer dwords than its table has entries */
    CK_FEW_PLACES = 26,       /* fewer places are lent than the packet has dwords */
    CK_NO_PACKET_ROUTE = 27,  /* a packet of fewer than two dwords has no route */
    CK_UNNAMED_TYPE = 28,     /* the value of `Packet Type` has no name */
    CK_NO_RECORD = 30,        /* no record: under 3 bytes, not A1 first, or a length that is not the rest */
    CK_OVERRUN = 31,          /* a field of the record runs past the end */
    CK_BAD_TAG = 32,          /* a tag of the record is unknown, repeated or not ascending */
    CK_MISSING_TAG = 33,      /* a required tag of the record is missing */
    CK_BAD_BODY = 34,         /* the body of a record's field breaks its rule */
    CK_FEW_RECORD_SLOTS = 35, /* fewer slots are lent than the record has dwords */
    CK_SHORT_BUFFER = 36,     /* the lent buffer is too short for the record */
    CK_BAD_ENTRY = 37,        /* the entry is out of the record's ranges, or its parts lie outside what is lent */
    CK_TABLE_SIZE = 50,       /* the table of requests has no slot, or more than 64 */
    CK_BROKEN_TABLE = 51,     /* the waiting slots do not carry the ranks 1 to their number once each, or one of them has a route with its top bit set, or neither reads nor writes */
    CK_NO_STREAM = 53,        /* the rest buffer is not of 8,192 bytes, or no stream leaves the kept state */
    CK_CUT_RECORD = 54,       /* the stream ends inside a record (one that says more than 5,227 bytes is 55) */
    CK_LONG_RECORD = 55       /* the record says that it has more than 5,227 bytes */
};

/* What an optional field says if it is absent, and a question if it has no answer. */
#define CK_NONE UINT32_C(0xffffffff)

/* No line, record or packet has more dwords, no record more bytes. With that much lent, 17, 26, 35 and 36 do not occur. */
enum { CK_MOST_DWORDS = 256, CK_MOST_BYTES = 5227 };

/* What a text is: it belongs to neither grammar, to that of lines, or to that of records. */
enum { CK_IS_NEITHER = 0, CK_IS_LINE = 1, CK_IS_RECORD = 2 };

/* An entry. Its task and function are parts of the text that it was read from, its dwords the first of the slots that were lent. */
typedef struct ck_entry {
    size_t task_at;        /* where the task starts in the text */
    size_t task_len;       /* how many bytes it has */
    uint32_t pid;          /* the process */
    uint16_t cpu;          /* the CPU, 0 to 999 */
    uint64_t seconds;      /* the timestamp's first number */
    uint64_t microseconds; /* its second, as it stands */
    size_t function_at;    /* where the kernel function's name starts in the text */
    size_t function_len;   /* how many bytes it has */
    uint8_t kind;          /* 0 unknown; 1, 2 read request, response; 3, 4 write request, response; 5 error; 6 notification acknowledged;
                              7 hot plug event; 8, 9 inter-domain request, response; 10, 11, 12 ICM event, command, response */
    uint16_t size;         /* `size` */
    uint8_t dropped;       /* 1 if the packet was dropped, else 0 */
    uint32_t domain;       /* `domain` */
    uint64_t route;        /* `route` */
    uint32_t offset;       /* `offset` of 16 bits, or CK_NONE */
    uint32_t code;         /* the notification's code (`error`) of 8 bits, or CK_NONE */
    uint32_t len;          /* `len` of 16 bits, or CK_NONE */
    uint32_t port;         /* `port` of 8 bits as read, or CK_NONE; ck_adapter_num is the question */
    uint32_t config;       /* `config`, the configuration space, of 8 bits, or CK_NONE */
    uint32_t seq;          /* `seq` of 8 bits, or CK_NONE */
    uint32_t unplug;       /* `unplug` of 8 bits as read, or CK_NONE; ck_unplug is the question */
    size_t dwords;         /* how many dwords there are */
} ck_entry;

/* Number 0 and an entry; or another number and a blank entry, all 0 and each optional field CK_NONE. */
typedef struct ck_entry_answer {
    uint8_t number;        /* 0, or the number that refuses */
    ck_entry entry;        /* the entry, or a blank one */
} ck_entry_answer;

/* What a text is, and why it is neither. */
typedef struct ck_what_answer {
    uint8_t number;        /* 0 for a line and for a record; for neither the number that refuses the text */
    uint8_t what;          /* CK_IS_NEITHER, CK_IS_LINE or CK_IS_RECORD */
} ck_what_answer;

/* Number 0 and how many bytes were written; or another number and 0. */
typedef struct ck_write_answer {
    uint8_t number;        /* 0, 36 or 37 */
    size_t bytes;          /* how many bytes the record has, 0 if there is none */
} ck_write_answer;

/* The first `len` bytes are the name, zeros stand behind it. */
typedef struct ck_event_text {
    uint8_t bytes[14];     /* the name, and zeros */
    size_t len;            /* how many bytes of it are the name */
} ck_event_text;

/* ---- texts
 *
 * The pieces of a line's `data` stand between comma-spaces; one that is no hex number of 32 bits is bad. The calls are strict: a line with a bad
 * piece is refused with 18. Those whose names end in `_lenient` leave bad pieces out, so that the dwords behind one move up. All else is the same in
 * both, and records, which have no pieces, are read alike. */

/* The entry of a line of trace, its newline lent or not. Numbers 1 to 9, 11 to 18. */
ck_entry_answer ck_parse(const uint8_t *line, size_t length, uint32_t *slots, size_t count);

/* The same, but a bad piece is left out. Numbers 1 to 9, 11 to 17. */
ck_entry_answer ck_parse_lenient(const uint8_t *line, size_t length, uint32_t *slots, size_t count);

/* The entry of a record. Numbers 30 to 35. */
ck_entry_answer ck_record_read(const uint8_t *text, size_t length, uint32_t *slots, size_t count);

/* The entry of a text that is taken as a record if its first byte is A1, else as a line. Numbers 1 to 9, 11 to 18, 30 to 35. */
ck_entry_answer ck_read(const uint8_t *text, size_t length, uint32_t *slots, size_t count);

/* The same, but a bad piece of a line is left out. Numbers 1 to 9, 11 to 17, 30 to 35. */
ck_entry_answer ck_read_lenient(const uint8_t *text, size_t length, uint32_t *slots, size_t count);

/* What a text is: CK_IS_RECORD exactly when it belongs to the record grammar, being decoded already; CK_IS_LINE exactly when it belongs to
 * the line grammar, with no bad piece; else CK_IS_NEITHER with the number that ck_read gives with CK_MOST_DWORDS slots. Numbers 1 to 9, 11 to
 * 16, 18, 30 to 34. */
ck_what_answer ck_what(const uint8_t *text, size_t length);

/* The same, but a line may have bad pieces, and the number is that of ck_read_lenient. Numbers 1 to 9, 11 to 16, 30 to 34. */
ck_what_answer ck_what_lenient(const uint8_t *text, size_t length);

/* The record of an entry whose task and function lie in the text and whose dwords are the first of those lent, into the first bytes of the
 * buffer; no others change. Numbers 36, 37. */
ck_write_answer ck_record_write(const uint8_t *text, size_t length, ck_entry entry, const uint32_t *dwords, size_t count, uint8_t *out,
                                size_t room);

/* 0 if the book belongs to the grammar, else 20. */
uint8_t ck_book_check(const uint8_t *book, size_t length);

/* The name that an event's code prints, a code without a name in decimal. No two codes print the same: 38, for which
 * tbtools prints the name of 36, prints LINK_RECOVERY. */
ck_event_text ck_event_name(uint8_t code);

/* The entry's adapter: its port, but CK_NONE for the codes 33 and 36 and where there is no port. An optional field past its width counts as
 * absent here and below. */
uint32_t ck_adapter_num(ck_entry entry);

/* 1 if the entry's `unplug` is 1, 0 if it is another byte, CK_NONE if there is none. */
uint32_t ck_unplug(ck_entry entry);

/* A packet, or why there is none. */
typedef struct ck_packet_answer {
    uint8_t number;        /* 0, or 20 to 26 */
    uint32_t start;        /* the index of the first dword of the data view, or CK_NONE */
    uint8_t has_uuid;      /* 1 if the packet's `UUID` fields are exactly four, else 0 */
    uint32_t uuid[4];      /* their values in order, zeros if there is no UUID */
} ck_packet_answer;

/* The packet of a kind over a book: for each dword the place in the book of the entry that describes it, 0 for none, into the first places. */
ck_packet_answer ck_packet(uint8_t kind, const uint8_t *book, size_t book_len, const uint32_t *dwords, size_t dwords_len, uint32_t *places,
                           size_t places_len);

/* The same over a book that ck_book_check accepted, without a second check. Any other book is taken too, and no memory
 * but the places is written; then the answer is what its fields say as far as they can be read, or 20 if it has more than 65,535 bytes. */
ck_packet_answer ck_checked_packet(uint8_t kind, const uint8_t *book, size_t book_len, const uint32_t *dwords, size_t dwords_len, uint32_t *places,
                                   size_t places_len);

/* A text's packet, or why there is none. */
typedef struct ck_text_packet {
    uint8_t kind;              /* the packet's kind, 0 if it is refused */
    size_t dwords;             /* how many dwords it has, 0 if it is refused */
    ck_packet_answer packet;   /* its number is the text's (1 to 9, 11 to 18, 30 to 35) or the packet's (20 to 26) */
} ck_text_packet;

/* The packet of a text that is a record if it starts with A1, else a line: its dwords into the first slots, the place of each one's entry into
 * the first places. A refusal of the packet leaves the slots as found too. A line and its record give the same. */
ck_text_packet ck_read_packet(const uint8_t *text, size_t text_len, const uint8_t *book, size_t book_len, uint32_t *slots, size_t slots_len,
                              uint32_t *places, size_t places_len);

/* The same, but a bad piece of a line is left out: the line never gives 18. */
ck_text_packet ck_read_packet_lenient(const uint8_t *text, size_t text_len, const uint8_t *book, size_t book_len, uint32_t *slots, size_t slots_len,
                                      uint32_t *places, size_t places_len);

/* Many packets over one book, which is checked once. Packet k has kind kinds[k] and the next counts[k] dwords, as far as they go; its places
 * stand where its dwords do. codes[k] becomes where its data view starts; 65,536 if it has none; 65,536 plus the number if it is refused, and
 * then its places are as found. The answer is how many packets there were: the least of kinds_len, counts_len and codes_len. */
size_t ck_packet_all(const uint8_t *book, size_t book_len, const uint8_t *kinds, size_t kinds_len, const uint32_t *counts, size_t counts_len,
                     const uint32_t *dwords, size_t dwords_len, uint32_t *places, size_t places_len, uint32_t *codes, size_t codes_len);

/* ---- what a packet is asked
 *
 * Number 0 and `present` 1 with the answer; 0 and 0 where there is none, which is no refusal; or the number that refuses, with `present` 0. What
 * is not there is 0. Calls with `packet` in their name take a kind, a book and dwords, and check the book each time: numbers 20 to 25 come
 * before any answer. Calls with `described` in their name take the dwords and the places that ck_packet filled, check nothing, and answer the
 * same; whoever has many questions asks those. They take as many places as dwords: a place behind them would be asked too. A name that is asked
 * for is a slice as any other, with no zero behind it. */

/* A number; yes is 1 and no is 0. */
typedef struct ck_value {
    uint8_t number;        /* 0, or the number that refuses */
    uint8_t present;       /* 1 if there is an answer, else 0 */
    uint64_t value;        /* the answer, 0 if there is none */
} ck_value;

/* Four dwords. */
typedef struct ck_uuid {
    uint8_t number;        /* as in ck_value */
    uint8_t present;
    uint32_t dwords[4];    /* the first is that of the lowest offset */
} ck_uuid;

/* A packet type. */
typedef struct ck_type {
    uint8_t number;        /* as in ck_value; 28 where the value has no name */
    uint8_t present;
    uint32_t value;        /* the value of the first `Packet Type` */
    size_t name;           /* the place in the book of the value that names it, for ck_name */
} ck_type;

/* A dword of the packet. */
typedef struct ck_field_answer {
    uint8_t number;        /* as in ck_value */
    uint8_t present;
    uint16_t offset;       /* which dword it is, from 0 */
    uint32_t value;        /* the dword */
    uint8_t source;        /* the table that describes it: 0 none, 1 control, 2 header, 3 protocol */
    size_t entry;          /* the place of its entry in the book, 0 for none: for ck_name and the ranges */
} ck_field_answer;

/* A bit range of an entry; there is one or there is none. */
typedef struct ck_range_answer {
    uint8_t present;       /* 1 if there is one, else 0, and then all else is 0 */
    uint8_t low;           /* its lowest bit */
    uint8_t high;          /* its highest bit */
    uint32_t value;        /* the value of these bits in the dword */
    size_t place;          /* its place in the book: for ck_name and ck_value_name */
} ck_range_answer;

/* A part of the book that is a name. */
typedef struct ck_name_part {
    size_t at;             /* where it starts in the book, 0 for no name */
    size_t len;            /* how many bytes it has, 0 for no name */
} ck_name_part;

/* The first dword above the second; 27 if there are fewer than two. */
ck_value ck_packet_route(uint8_t kind, const uint8_t *book, size_t book_len, const uint32_t *dwords, size_t dwords_len);

/* The top bit of the route; 27 likewise. */
ck_value ck_packet_cm(uint8_t kind, const uint8_t *book, size_t book_len, const uint32_t *dwords, size_t dwords_len);

/* The value of `Adapter Num`, cut to 8 bits. */
ck_value ck_packet_adapter_num(uint8_t kind, const uint8_t *book, size_t book_len, const uint32_t *dwords, size_t dwords_len);

/* The value of `Address`, for kinds 8 and 9 of `Offset`, cut to 16 bits. */
ck_value ck_packet_data_address(uint8_t kind, const uint8_t *book, size_t book_len, const uint32_t *dwords, size_t dwords_len);

/* The value of `Read Size` (kinds 1, 2), `Write Size` (3, 4) or `Properties Block Size` (8, 9), cut to 16 bits. */
ck_value ck_packet_data_size(uint8_t kind, const uint8_t *book, size_t book_len, const uint32_t *dwords, size_t dwords_len);

/* The index of the first dword of the data view. */
ck_value ck_packet_data_start(uint8_t kind, const uint8_t *book, size_t book_len, const uint32_t *dwords, size_t dwords_len);

/* How many dwords the data view has: they are the last of those lent. 0 also where there is no view or no packet. */
size_t ck_packet_data(uint8_t kind, const uint8_t *book, size_t book_len, const uint32_t *dwords, size_t dwords_len);

/* Whether the kind is 1 or 2. */
ck_value ck_packet_is_read(uint8_t kind, const uint8_t *book, size_t book_len, const uint32_t *dwords, size_t dwords_len);

/* Whether the kind is 3 or 4. */
ck_value ck_packet_is_write(uint8_t kind, const uint8_t *book, size_t book_len, const uint32_t *dwords, size_t dwords_len);

/* Whether the kind is 8 or 9. */
ck_value ck_packet_is_xdomain(uint8_t kind, const uint8_t *book, size_t book_len, const uint32_t *dwords, size_t dwords_len);

/* The UUID that the packet's `UUID` fields make if they are exactly four, as ck_packet answers it; it chooses the protocol table. */
ck_uuid ck_packet_uuid(uint8_t kind, const uint8_t *book, size_t book_len, const uint32_t *dwords, size_t dwords_len);

/* The values of the fields of that name, if there are exactly four. */
ck_uuid ck_packet_uuid_by_name(uint8_t kind, const uint8_t *book, size_t book_len, const uint32_t *dwords, size_t dwords_len, const uint8_t *name,
                               size_t name_len);

/* The value of the first `Packet Type`, and the place of the value that names it; 28 if none does. */
ck_type ck_packet_type(uint8_t kind, const uint8_t *book, size_t book_len, const uint32_t *dwords, size_t dwords_len);

/* The name of the packet type into the first bytes lent, if all of it fits, else none changes. The answer is its length, 0 for none. */
size_t ck_packet_type_name(uint8_t kind, const uint8_t *book, size_t book_len, const uint32_t *dwords, size_t dwords_len, uint8_t *out, size_t room);

/* The dword at an offset. */
ck_field_answer ck_packet_field(uint8_t kind, const uint8_t *book, size_t book_len, const uint32_t *dwords, size_t dwords_len, uint16_t offset);

/* The first dword whose entry has that name. */
ck_field_answer ck_packet_field_by_name(uint8_t kind, const uint8_t *book, size_t book_len, const uint32_t *dwords, size_t dwords_len,
                                        const uint8_t *name, size_t name_len);

/* The first dword whose entry has a bit range of that name. */
ck_field_answer ck_packet_field_by_range(uint8_t kind, const uint8_t *book, size_t book_len, const uint32_t *dwords, size_t dwords_len,
                                         const uint8_t *name, size_t name_len);

/* As ck_packet_route. */
ck_value ck_described_route(const uint32_t *dwords, size_t dwords_len);

/* As ck_packet_cm. */
ck_value ck_described_cm(const uint32_t *dwords, size_t dwords_len);

/* The value of the first bit range of that name, in the first dword whose entry has one. */
ck_value ck_described_value(const uint8_t *book, size_t book_len, const uint32_t *dwords, size_t dwords_len, const uint32_t *places,
                            size_t places_len, const uint8_t *name, size_t name_len);

/* As ck_packet_adapter_num. */
ck_value ck_described_adapter_num(const uint8_t *book, size_t book_len, const uint32_t *dwords, size_t dwords_len, const uint32_t *places,
                                  size_t places_len);

/* As ck_packet_data_address. */
ck_value ck_described_data_address(uint8_t kind, const uint8_t *book, size_t book_len, const uint32_t *dwords, size_t dwords_len,
                                   const uint32_t *places, size_t places_len);

/* As ck_packet_data_size. */
ck_value ck_described_data_size(uint8_t kind, const uint8_t *book, size_t book_len, const uint32_t *dwords, size_t dwords_len, const uint32_t *places,
                                size_t places_len);

/* As ck_packet_uuid_by_name. */
ck_uuid ck_described_uuid_by_name(const uint8_t *book, size_t book_len, const uint32_t *dwords, size_t dwords_len, const uint32_t *places,
                                  size_t places_len, const uint8_t *name, size_t name_len);

/* As ck_packet_type. */
ck_type ck_described_type(const uint8_t *book, size_t book_len, const uint32_t *dwords, size_t dwords_len, const uint32_t *places, size_t places_len);

/* As ck_packet_field. */
ck_field_answer ck_described_field(uint8_t kind, const uint8_t *book, size_t book_len, const uint32_t *dwords, size_t dwords_len,
                                   const uint32_t *places, size_t places_len, uint16_t offset);

/* As ck_packet_field_by_name. */
ck_field_answer ck_described_field_by_name(uint8_t kind, const uint8_t *book, size_t book_len, const uint32_t *dwords, size_t dwords_len,
                                           const uint32_t *places, size_t places_len, const uint8_t *name, size_t name_len);

/* As ck_packet_field_by_range. */
ck_field_answer ck_described_field_by_range(uint8_t kind, const uint8_t *book, size_t book_len, const uint32_t *dwords, size_t dwords_len,
                                            const uint32_t *places, size_t places_len, const uint8_t *name, size_t name_len);

/* The field of a dword at an offset whose entry has that place; always present. */
ck_field_answer ck_field(uint8_t kind, const uint8_t *book, size_t book_len, uint16_t offset, uint32_t dword, size_t entry);

/* How many bit ranges the entry at a place has. */
size_t ck_range_count(const uint8_t *book, size_t book_len, size_t entry);

/* The entry's bit range with k before it, and its value in a dword. */
ck_range_answer ck_range(const uint8_t *book, size_t book_len, size_t entry, uint32_t dword, size_t k);

/* The entry's first bit range of that name, likewise. */
ck_range_answer ck_range_named(const uint8_t *book, size_t book_len, size_t entry, uint32_t dword, const uint8_t *name, size_t name_len);

/* Where the name of the entry, bit range or value at a place stands in the book, so that it can be read there. It lies inside the book. */
ck_name_part ck_name_at(const uint8_t *book, size_t book_len, size_t place);

/* The place of the value that the bit range at a place gives to a number, 0 for none: for ck_name_at and ck_name. */
size_t ck_value_at(const uint8_t *book, size_t book_len, size_t range, uint32_t number);

/* The name of the entry, bit range or value at a place into the first bytes lent, if all of it fits, else none changes. The answer is its
 * length, 0 for none; with 255 bytes lent each name of a checked book fits. */
size_t ck_name(const uint8_t *book, size_t book_len, size_t place, uint8_t *out, size_t room);

/* The name that the bit range at a place gives to a value, likewise. */
size_t ck_value_name(const uint8_t *book, size_t book_len, size_t range, uint32_t value, uint8_t *out, size_t room);

/* ---- which requests wait for their responses
 *
 * A table is 1 to CK_MOST_PENDING slots that the caller lends and keeps. Clear it once, then step through the entries in their order; what waits
 * behind the last is unanswered. A step judges the whole table first, whatever the entry, and so do the questions: 50, then 51, and then no field
 * of a slot changes. A table of that size that was cleared is good, and so is every table that a step leaves of a good one. A slot stays where it
 * is while it waits, so an array beside the table can hold what else is known of its request. */

/* No table of requests has more slots. */
enum { CK_MOST_PENDING = 64 };

/* What a step reports of its entry, in the order in which it is asked. */
enum {
    CK_PENDING_DROPPED = 1,     /* the packet was dropped */
    CK_PENDING_OTHER = 2,       /* the kind is not 1 to 4 */
    CK_PENDING_NO_SEQ = 3,      /* there is no `seq` */
    CK_PENDING_TAKEN = 4,       /* a request (kind 1, 3): it waits in the first slot that was free */
    CK_PENDING_TURNED_AWAY = 5, /* a request, and no slot is free: nothing is kept of it */
    CK_PENDING_ANSWERED = 6,    /* a response (kind 2, 4): the oldest slot with its four is free now */
    CK_PENDING_STRAY = 7        /* a response, and no slot that waits has its four */
};

/* What a request and its response share. */
typedef struct ck_four {
    uint64_t route;        /* the route without its top bit, which responses carry */
    uint32_t domain;       /* the domain */
    uint8_t seq;           /* `seq` */
    uint8_t write;         /* 1 if it writes (kind 3, 4), 0 if it reads (1, 2); a waiting slot with another value is refused with 51 */
} ck_four;

/* A slot of a table. */
typedef struct ck_slot {
    ck_four four;          /* the request's; a slot that was freed keeps it, and of a free slot nothing but its rank is judged */
    uint32_t rank;         /* 0 for a free slot; of those that wait 1 is the oldest, 2 the next */
} ck_slot;

/* What a step reports, or why there is no report. */
typedef struct ck_step_answer {
    uint8_t number;        /* 0, 50 or 51 */
    uint8_t report;        /* CK_PENDING_.., 0 if the table is refused */
    size_t place;          /* which slot was taken or freed by an answer, from 0; else 0 */
} ck_step_answer;

/* How many requests wait. */
typedef struct ck_count_answer {
    uint8_t number;        /* 0, 50 or 51 */
    uint32_t count;        /* how many, 0 if the table is refused */
} ck_count_answer;

/* Where a slot lies. */
typedef struct ck_place_answer {
    uint8_t number;        /* 0, 50 or 51 */
    uint8_t present;       /* 1 if there is such a slot, else 0 */
    size_t place;          /* which slot it is, from 0; 0 if there is none */
} ck_place_answer;

/* Every slot all 0, so that none waits. Any number of slots. */
void ck_pending_clear(ck_slot *slots, size_t count);

/* One entry: the table changes, and the entry is reported. A request that is taken changes its slot alone. A response that is answered changes
 * ranks alone: that of its slot becomes 0 and each later one is one less. Nothing else changes a slot. `seq` past its width counts as absent, and
 * `dropped` counts if it is 1. Numbers 50, 51. */
ck_step_answer ck_pending_step(ck_entry entry, ck_slot *slots, size_t count);

/* How many requests wait. Numbers 50, 51. */
ck_count_answer ck_pending_waiting(const ck_slot *slots, size_t count);

/* Where the k-th oldest of those that wait lies, for k from 1 to their number. Numbers 50, 51. */
ck_place_answer ck_pending_oldest(const ck_slot *slots, size_t count, uint32_t k);

/* ---- a stream fed in parts
 *
 * Uploads come in parts that cut lines and records. A unit that starts with byte A1 is a record of the length that it says; any other is a line and
 * runs to its newline, which belongs to it, or to the stream's end. Feed the parts in their order. What is open between two calls is kept in a buffer
 * of CK_REST bytes, which the caller lends each time as it was left, and in a ck_stream. However the stream is cut, also into empty parts, the answers
 * are the same: those of its units, one by one. A line of more than 4,096 bytes is one answer, 1 if it starts with `#`, else 2, and a record that says more
 * than CK_MOST_BYTES bytes is one, 55; what follows is read on. Where the end cuts another record the answer is 54.
 *
 *     ck_stream_answer a = { 0 };
 *     for each part: for (size_t at = 0; at < length && a.number != CK_NO_STREAM; at += a.at) {
 *         a = ck_stream_feed(a.state, part + at, length - at, rest, CK_REST, slots, CK_MOST_DWORDS);
 *         if (a.ended) take the entry, or the number
 *     }
 *     a = ck_stream_finish(a.state, rest, CK_REST, slots, CK_MOST_DWORDS), and once more if (a.ended)
 *
 * 53 takes nothing, so a loop over a part must end with it. ck_record_write takes the rest buffer as the entry's text.
 */

/* The rest buffer has this size and no other. */
enum { CK_REST = 8192 };

/* What is kept of a stream between two calls, beside the rest buffer: zeros before the first call and after the last. Any bits are taken; 53 if no
 * stream leaves them. */
typedef struct ck_stream {
    size_t held;           /* how many bytes of the open unit stand in the rest buffer, from its first */
    size_t passed;         /* of a record that is 55, how many bytes behind its third were passed over; else 0 */
} ck_stream;

/* What a call answers. */
typedef struct ck_stream_answer {
    uint8_t number;        /* 0; or the number that refuses the unit; or 53, and nothing has changed */
    uint8_t ended;         /* 1 if a unit was answered, by its entry or its number; 0 if none has ended */
    size_t at;             /* how many bytes of the part were taken */
    ck_stream state;       /* for the next call */
    ck_entry entry;        /* the entry, its task and function in the rest buffer; or a blank one */
} ck_stream_answer;

/* Takes bytes of the part up to the end of the next unit and answers it, its dwords in the first slots; or takes them all, and no unit ended. The unit
 * stands in the rest buffer from its first byte: of a line 4,097 bytes at most, of a record that is 55 three; behind them the buffer is as found. A unit
 * that is refused leaves the slots as found. A bad piece of a line's data refuses it: 18. Numbers 1 to 9, 11 to 18, 31 to 35, 53, 55. */
ck_stream_answer ck_stream_feed(ck_stream state, const uint8_t *part, size_t part_len, uint8_t *rest, size_t rest_len, uint32_t *slots, size_t count);

/* The same, but bad pieces are left out. Numbers 1 to 9, 11 to 17, 31 to 35, 53, 55. */
ck_stream_answer ck_stream_feed_lenient(ck_stream state, const uint8_t *part, size_t part_len, uint8_t *rest, size_t rest_len, uint32_t *slots,
                                        size_t count);

/* The stream's end: answers the open unit, if there is one, and gives back a stream that has not begun. Numbers 1 to 9, 11 to 18, 53 to 55. */
ck_stream_answer ck_stream_finish(ck_stream state, const uint8_t *rest, size_t rest_len, uint32_t *slots, size_t count);

/* The same, but bad pieces are left out. Numbers 1 to 9, 11 to 17, 53 to 55. */
ck_stream_answer ck_stream_finish_lenient(ck_stream state, const uint8_t *rest, size_t rest_len, uint32_t *slots, size_t count);

/* ---- why a hex number was unreadable
 *
 * An entry says CK_NONE for an offset that is absent and for one that is no number, 14 refuses a line for either route, and 18 does not say which
 * piece of `data` is bad. These calls tell it, on every line that has a payload, accepted or not. A line without a payload answers its number,
 * 1 to 4. A text is empty if it is nothing or a bare `0x`. Its first bad digit goes before its width, however late it stands, and its place
 * counts from the text's own start, a leading `0x` counted. Zeros in front are never too wide. */

/* The keys of a line that are read as hex. */
enum {
    CK_KEY_ROUTE = 1,      /* `route`, 64 bits */
    CK_KEY_OFFSET = 2,     /* `offset`, 16 bits */
    CK_KEY_ERROR = 3,      /* `error`, 8 bits */
    CK_KEY_CONFIG = 4,     /* `config`, 8 bits */
    CK_KEY_UNPLUG = 5      /* `unplug`, 8 bits */
};

/* What a text reads as. */
enum {
    CK_HEX_ABSENT = 0,     /* there is no such text */
    CK_HEX_VALUE = 1,      /* a number */
    CK_HEX_EMPTY = 2,      /* it has no digit */
    CK_HEX_BAD_DIGIT = 3,  /* it has a byte that is no hex digit */
    CK_HEX_TOO_WIDE = 4    /* its digits are a number past the width */
};

/* What a key's value or a piece of the data reads as, and where it stands. */
typedef struct ck_hex_answer {
    uint8_t number;        /* 0, or 1 to 4: the line has no payload to ask */
    uint8_t what;          /* CK_HEX_..; CK_HEX_ABSENT where number is not 0 */
    uint64_t value;        /* the number, 0 if there is none */
    size_t bad;            /* the place of the first bad digit in the text, 0 unless CK_HEX_BAD_DIGIT */
    size_t at;             /* where the text starts in the line, 0 if there is none */
    size_t len;            /* how many bytes it has, 0 if there is none */
} ck_hex_answer;

/* The line's last pair of a key, CK_KEY_... Absent if there is none, and for a key number that is none of the five. Numbers 1 to 4. */
ck_hex_answer ck_hex_key(const uint8_t *line, size_t length, uint8_t key);

/* A piece of the line's last `data`, of 32 bits, by its number from 0: the pieces stand between comma-spaces. Absent behind the last, and if `data`
 * is missing or not in brackets, so whoever asks from 0 up to the first that is absent has them all. Numbers 1 to 4. */
ck_hex_answer ck_hex_piece(const uint8_t *line, size_t length, size_t piece);

#ifdef __cplusplus
}
#endif

#endif
