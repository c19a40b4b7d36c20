/* Why a hex number was unreadable: each reason of each key and of pieces, where the text stands, and lines without a payload. */
#include "chomkadieu.h"
#include "see.h"

#include <stdio.h>
#include <string.h>

/* Is the answer a text of the line, with that reading? The text is told by its bytes, which are the last of their kind in the line. */
static int says(ck_hex_answer a, const char *line, const char *text, uint8_t what, uint64_t value, size_t bad) {
    size_t len = strlen(text);
    return a.number == CK_OK && a.what == what && a.value == value && a.bad == bad && a.len == len && a.at + len <= strlen(line) &&
           !memcmp(line + a.at, text, len);
}

/* Is there no text, with that number? */
static int says_nothing(ck_hex_answer a, uint8_t number) {
    return a.number == number && a.what == CK_HEX_ABSENT && !a.value && !a.bad && !a.at && !a.len;
}

static ck_hex_answer ask_key(const char *line, uint8_t key) { return ck_hex_key((const uint8_t *)line, strlen(line), key); }
static ck_hex_answer ask_piece(const char *line, size_t piece) { return ck_hex_piece((const uint8_t *)line, strlen(line), piece); }

/* Each key, with its largest value and the first that is too wide. */
static const struct { const char *name; uint8_t key; const char *most; uint64_t value; const char *wide; } KEYS[] = {
    {"route", CK_KEY_ROUTE, "ffffffffffffffff", UINT64_MAX, "10000000000000000"}, {"offset", CK_KEY_OFFSET, "ffff", 0xffff, "0x1ffff"},
    {"error", CK_KEY_ERROR, "0xff", 0xff, "100"}, {"config", CK_KEY_CONFIG, "FF", 0xff, "0x100"}, {"unplug", CK_KEY_UNPLUG, "0xfF", 0xff, "1ff"}};

/* A text, and what it reads as under every key. */
static const struct { const char *text; uint8_t what; uint64_t value; size_t bad; } TEXTS[] = {
    {"0", CK_HEX_VALUE, 0, 0}, {"0x0", CK_HEX_VALUE, 0, 0}, {"7f", CK_HEX_VALUE, 0x7f, 0}, {"0xaB", CK_HEX_VALUE, 0xab, 0},
    {"00000000000000000000000001", CK_HEX_VALUE, 1, 0}, {"0x0000000000000000000000000", CK_HEX_VALUE, 0, 0}, {"0x", CK_HEX_EMPTY, 0, 0},
    {"g", CK_HEX_BAD_DIGIT, 0, 0}, {"0xg", CK_HEX_BAD_DIGIT, 0, 2}, {"1g2h", CK_HEX_BAD_DIGIT, 0, 1}, {"0x0x1", CK_HEX_BAD_DIGIT, 0, 3},
    {"0X1", CK_HEX_BAD_DIGIT, 0, 1}, {"x1", CK_HEX_BAD_DIGIT, 0, 0}, {"_", CK_HEX_BAD_DIGIT, 0, 0}, {"[1]", CK_HEX_BAD_DIGIT, 0, 0},
    {"ffffffffffffffffffffz", CK_HEX_BAD_DIGIT, 0, 20}, {"0xffffffffffffffffffff_", CK_HEX_BAD_DIGIT, 0, 22},
    {"fffffffffffffffff", CK_HEX_TOO_WIDE, 0, 0}, {"0x10000000000000000", CK_HEX_TOO_WIDE, 0, 0}};

static void keys(void) {
    for (size_t k = 0; k < sizeof KEYS / sizeof *KEYS; k++) {
        char line[256];
        for (size_t i = 0; i < sizeof TEXTS / sizeof *TEXTS; i++) {
            snprintf(line, sizeof line, "a-1 [002] 1.2: f: type=t, %s=%s, size=3\n", KEYS[k].name, TEXTS[i].text);
            see(says(ask_key(line, KEYS[k].key), line, TEXTS[i].text, TEXTS[i].what, TEXTS[i].value, TEXTS[i].bad), line);
        }
        snprintf(line, sizeof line, "f: %s=%s", KEYS[k].name, KEYS[k].most);
        see(says(ask_key(line, KEYS[k].key), line, KEYS[k].most, CK_HEX_VALUE, KEYS[k].value, 0), line);
        snprintf(line, sizeof line, "f: %s=%s", KEYS[k].name, KEYS[k].wide);
        see(says(ask_key(line, KEYS[k].key), line, KEYS[k].wide, CK_HEX_TOO_WIDE, 0, 0), line);
        snprintf(line, sizeof line, "f: %s=1 %s=z", KEYS[k].name, KEYS[k].name);
        see(says(ask_key(line, KEYS[k].key), line, "z", CK_HEX_BAD_DIGIT, 0, 0), line);
        snprintf(line, sizeof line, "f: %s=z %s=1 %s=", KEYS[k].name, KEYS[k].name, KEYS[k].name);
        see(says(ask_key(line, KEYS[k].key), line, "1", CK_HEX_VALUE, 1, 0), line);
    }
}

/* A key that is not there, and numbers that name no key. */
static void absent_keys(void) {
    static const char all[] = "f: route=1 offset=2 error=3 config=4 unplug=5 size=6 data=[7]";
    for (uint8_t key = CK_KEY_ROUTE; key <= CK_KEY_UNPLUG; key++) {
        see(says_nothing(ask_key("a-1 [002] 1.2: f: type=t size=3 x=1", key), CK_OK), "a key that is absent");
        see(says_nothing(ask_key("f: route= offset= error= config= unplug=", key), CK_OK), "a key with no value makes no pair");
        see(says_nothing(ask_key(":", key), CK_OK), "an empty payload");
        ck_hex_answer a = ask_key(all, key);
        see(a.number == CK_OK && a.what == CK_HEX_VALUE && a.value == key && a.len == 1 && all[a.at] == '0' + key, "each key its own pair");
    }
    static const uint8_t none[] = {0, 6, 7, 17, 128, 255};
    for (size_t i = 0; i < sizeof none; i++) {
        see(says_nothing(ask_key(all, none[i]), CK_OK), "a number that names no key");
        see(says_nothing(ask_key("nonsense", none[i]), CK_NO_COLON) && says_nothing(ask_key("#", none[i]), CK_IDLE), "and its line without a payload");
    }
}

static void pieces(void) {
    static const char line[] =
        "a-1 [002] 1.2: f: data=[1] data=[0x04002001, , 0x, 04zz, 0x1ffffffff, 1,2, ffffffff, 0000000000000, 0x0x1,  1, 0X1, fffffffffffg, ]";
    static const struct { const char *text; uint8_t what; uint64_t value; size_t bad; } want[] = {
        {"0x04002001", CK_HEX_VALUE, 0x04002001, 0}, {"", CK_HEX_EMPTY, 0, 0}, {"0x", CK_HEX_EMPTY, 0, 0}, {"04zz", CK_HEX_BAD_DIGIT, 0, 2},
        {"0x1ffffffff", CK_HEX_TOO_WIDE, 0, 0}, {"1,2", CK_HEX_BAD_DIGIT, 0, 1}, {"ffffffff", CK_HEX_VALUE, 0xffffffff, 0},
        {"0000000000000", CK_HEX_VALUE, 0, 0}, {"0x0x1", CK_HEX_BAD_DIGIT, 0, 3}, {" 1", CK_HEX_BAD_DIGIT, 0, 0},
        {"0X1", CK_HEX_BAD_DIGIT, 0, 1}, {"fffffffffffg", CK_HEX_BAD_DIGIT, 0, 11}, {"", CK_HEX_EMPTY, 0, 0}};
    enum { PIECES = sizeof want / sizeof *want };
    const char *place = strstr(line, "[0x04");
    size_t at = (size_t)(place - line) + 1;
    for (size_t i = 0; i < PIECES; i++) {
        ck_hex_answer a = ask_piece(line, i);
        see(says(a, line, want[i].text, want[i].what, want[i].value, want[i].bad) && a.at == at, want[i].text);
        at += strlen(want[i].text) + 2; /* the comma-space behind it */
    }
    static const size_t past[] = {PIECES, PIECES + 1, 1000, UINT32_MAX, SIZE_MAX - 1, SIZE_MAX};
    for (size_t i = 0; i < sizeof past / sizeof *past; i++) see(says_nothing(ask_piece(line, past[i]), CK_OK), "a number past the last piece");
    see(says_nothing(ask_piece("f: route=0", 0), CK_OK), "no data");
    see(says_nothing(ask_piece("f: data=1", 0), CK_OK), "data without brackets");
    see(says_nothing(ask_piece("f: data=[]", 0), CK_OK) && says_nothing(ask_piece("f: data=[1", 0), CK_OK), "brackets that make no pair");
    see(says(ask_piece("f: data=[ ]", 0), "f: data=[ ]", " ", CK_HEX_BAD_DIGIT, 0, 0), "a blank is no digit");
    see(says(ask_piece("f: data=[, ]", 1), "f: data=[, ]", "", CK_HEX_EMPTY, 0, 0) && says_nothing(ask_piece("f: data=[, ]", 2), CK_OK), "two empty pieces");
}

/* Where the line has no payload, its number; where it is refused behind that, an answer as on every other. */
static void lines_of_all_kinds(void) {
    static const struct { const char *text; uint8_t number; } bare[] = {
        {"", CK_IDLE}, {"\n", CK_IDLE}, {"# offset=1: offset=1", CK_IDLE}, {"offset=1 data=[1] \x80:", CK_NOT_ASCII}, {"\xa1: offset=1 data=[1]", CK_NOT_ASCII},
        {"x", CK_NO_COLON}, {"offset=1 data=[1]", CK_NO_COLON}};
    for (size_t i = 0; i < sizeof bare / sizeof *bare; i++) {
        for (uint8_t key = CK_KEY_ROUTE; key <= CK_KEY_UNPLUG; key++) see(says_nothing(ask_key(bare[i].text, key), bare[i].number), bare[i].text);
        see(says_nothing(ask_piece(bare[i].text, 0), bare[i].number) && says_nothing(ask_piece(bare[i].text, 9), bare[i].number), bare[i].text);
    }
    static char line[4098];
    memset(line, 'x', sizeof line - 1);
    memcpy(line, ":offset=0x data=[] ", 19);
    see(says_nothing(ask_key(line, CK_KEY_OFFSET), CK_LONG_LINE) && says_nothing(ask_piece(line, 0), CK_LONG_LINE), "a line of 4,097 bytes");
    line[4096] = 0;
    see(says(ask_key(line, CK_KEY_OFFSET), line, "0x", CK_HEX_EMPTY, 0, 0), "a line of 4,096 bytes");
    see(says(ask_key(":offset=0x", CK_KEY_OFFSET), ":offset=0x", "0x", CK_HEX_EMPTY, 0, 0), "a line that is refused with 5");
    static const char unrouted[] = "a-1 [002] 1.2: f: type=t size=3 domain=0 route=0x30z data=[zz, 1]";
    uint32_t slots[2];
    see(ck_parse((const uint8_t *)unrouted, sizeof unrouted - 1, slots, 2).number == CK_NO_ROUTE, "a line that is refused with 14");
    see(says(ask_key(unrouted, CK_KEY_ROUTE), unrouted, "0x30z", CK_HEX_BAD_DIGIT, 0, 4), "why");
    see(says(ask_piece(unrouted, 0), unrouted, "zz", CK_HEX_BAD_DIGIT, 0, 0) && says(ask_piece(unrouted, 1), unrouted, "1", CK_HEX_VALUE, 1, 0), "its pieces");
    see(says(ask_key("offset=1: offset=2", CK_KEY_OFFSET), "offset=1: offset=2", "2", CK_HEX_VALUE, 2, 0), "the last colon parts them");
    see(says_nothing(ask_key("offset=1: x", CK_KEY_OFFSET), CK_OK), "the header is not asked");
}

void every_reason(void) {
    keys();
    absent_keys();
    pieces();
    lines_of_all_kinds();
}
