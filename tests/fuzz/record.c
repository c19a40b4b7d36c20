/* Records: any text to ck_record_read. Choices: slots lent (2 bytes). */
#include "entries.h"

const unsigned used_parts = 1 << CHOICES | 1 << TEXT;

/* The frame: A1, and the length of the rest. */
static int framed(part t) { return t.len >= 3 && t.at[0] == 0xa1 && word_at(t.at + 1) == t.len - 3; }

/* The answer with other slots: as with enough, or 35. */
static void with_slots(const told *enough, const uint8_t *text, size_t len, size_t count) {
    static told few;
    read_into(&few, ck_record_read, text, len, count);
    int fits = enough->number != CK_OK || enough->entry.dwords <= count;
    must(few.number == (fits ? enough->number : CK_FEW_RECORD_SLOTS), "slots matter only where they are too few");
    if (few.number == CK_OK) must(same_flat(&few.entry, &enough->entry) && same_entry(&few, enough), "and not to the entry");
}

int LLVMFuzzerTestOneInput(const uint8_t *data, size_t size) {
    static told read, taken;
    part parts[PARTS], t;
    cut(data, size, parts);
    t = parts[TEXT];
    const uint8_t *text = lend(t.at, t.len);
    read_into(&read, ck_record_read, text, t.len, CK_MOST_DWORDS);
    tally(read.number);
    must(read.number == CK_OK || (read.number >= CK_NO_RECORD && read.number <= CK_BAD_BODY), "a record gives 0 or 30 to 34");
    must(framed(t) == (read.number != CK_NO_RECORD), "30 is what is not framed");
    with_slots(&read, text, t.len, count_of(choice(parts, 0, 2), CK_MOST_DWORDS, MOST_SLOTS));
    if (read.entry.dwords) with_slots(&read, text, t.len, read.entry.dwords), with_slots(&read, text, t.len, read.entry.dwords - 1);
    /* Other texts are left to the intake's target: read as lines here, they would take over the corpus. */
    if (t.len && t.at[0] == 0xa1) {
        read_into(&taken, ck_read, text, t.len, CK_MOST_DWORDS);
        must(same_answer(&taken, &read), "the intake reads a record as ck_record_read does");
    }
    if (read.number == CK_OK) {
        part again = there_and_back(&read);
        must(again.len == t.len && !memcmp(again.at, t.at, t.len), "a record is written back to its own bytes");
    }
    return done();
}
