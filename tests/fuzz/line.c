/* Lines: any text to ck_parse and ck_parse_lenient. Choices: slots lent (2 bytes). */
#include "pieces.h"

const unsigned used_parts = 1 << CHOICES | 1 << TEXT;

/* The first numbers, from their words alone; 0 where a later one or an entry is to come. */
static uint8_t early(part t) {
    if (t.len == 0 || t.at[0] == '#' || (t.len == 1 && t.at[0] == '\n')) return CK_IDLE;
    if (t.len > MOST_TEXT) return CK_LONG_LINE;
    for (size_t i = 0; i < t.len; i++)
        if (t.at[i] >= 128) return CK_NOT_ASCII;
    return memchr(t.at, ':', t.len) ? CK_OK : CK_NO_COLON;
}

/* The answer with other slots: as with enough, or 17. */
static void with_slots(const told *enough, reader *parse, size_t count) {
    static told few;
    read_into(&few, parse, enough->text, enough->len, count);
    int fits = enough->number != CK_OK || enough->entry.dwords <= count;
    must(few.number == (fits ? enough->number : CK_FEW_SLOTS), "slots matter only where they are too few");
    if (few.number == CK_OK) must(same_flat(&few.entry, &enough->entry) && same_entry(&few, enough), "and not to the entry");
}

/* A newline behind a line changes nothing. */
static void with_newline(const told *plain, reader *parse, part t) {
    static uint8_t longer[MOST_TEXT];
    static told ended;
    if (t.len >= MOST_TEXT || (t.len == 1 && t.at[0] == '\n')) return;
    if (t.len) memcpy(longer, t.at, t.len);
    longer[t.len] = '\n';
    read_into(&ended, parse, lend(longer, t.len + 1), t.len + 1, CK_MOST_DWORDS);
    must(same_answer(&ended, plain), "a line's newline is lent or not");
}

/* What each choice is held to by itself. */
static void by_choice(told *parsed, reader *parse, reader *read, part t, size_t count) {
    static told taken;
    read_into(parsed, parse, t.at, t.len, CK_MOST_DWORDS);
    must(early(t) ? parsed->number == early(t) : parsed->number == CK_OK || parsed->number > CK_NO_COLON, "1 to 4 come first");
    with_slots(parsed, parse, count);
    if (parsed->entry.dwords) with_slots(parsed, parse, parsed->entry.dwords), with_slots(parsed, parse, parsed->entry.dwords - 1);
    with_newline(parsed, parse, t);
    read_into(&taken, read, t.at, t.len, CK_MOST_DWORDS);
    if (t.len && t.at[0] == 0xa1) must(taken.number == CK_OK || taken.number >= CK_NO_RECORD, "what starts with A1 is no line to the intake");
    else must(same_answer(&taken, parsed), "the intake reads a line as the line's call does");
}

int LLVMFuzzerTestOneInput(const uint8_t *data, size_t size) {
    static told strict, lenient;
    part parts[PARTS];
    cut(data, size, parts);
    part t = {lend(parts[TEXT].at, parts[TEXT].len), parts[TEXT].len};
    size_t count = count_of(choice(parts, 0, 2), CK_MOST_DWORDS, MOST_SLOTS);
    by_choice(&lenient, ck_parse_lenient, ck_read_lenient, t, count);
    by_choice(&strict, ck_parse, ck_read, t, count);
    tally(strict.number);
    must(lenient.number <= CK_MANY_DWORDS && lenient.number != 10, "a lenient line gives 0 to 16, and never 10");
    must_be_strict(&strict, &lenient, t);
    if (lenient.number == CK_OK) there_and_back(&lenient);
    return done();
}
