/* Numbers as the tables of bench/ have them. */
#ifndef BENCH_TABLE_H
#define BENCH_TABLE_H

#include <stdio.h>
#include <string.h>

/* With commas between the thousands. A text is good until sixteen more are made. */
static inline const char *grouped(double number, int decimals) {
    enum { TEXTS = 16 };
    static char texts[TEXTS][32];
    static unsigned made;
    char digits[32], *text = texts[made++ % TEXTS], *to = text;
    snprintf(digits, sizeof digits, "%.*f", decimals, number);
    int left = (int)strcspn(digits, ".");
    for (const char *from = digits; *from; left--) {
        if (left > 0 && left % 3 == 0 && from != digits) *to++ = ',';
        *to++ = *from++;
    }
    *to = 0;
    return text;
}

#endif
