/* How long the check of each book takes. books NAME FILE NAME FILE..; prints a table. */
#include <stdint.h>
#include <stdio.h>
#include <stdlib.h>
#include <time.h>

#include "chomkadieu.h"
#include "table.h"

static double now(void) {
    struct timespec t;
    clock_gettime(CLOCK_PROCESS_CPUTIME_ID, &t);
    return (double)t.tv_sec * 1e9 + (double)t.tv_nsec;
}

int main(int argc, char **argv) {
    static uint8_t book[65536];
    printf("| book | bytes | time |\n|---|---|---|\n");
    for (int i = 1; i + 1 < argc; i += 2) {
        FILE *file = fopen(argv[i + 1], "rb");
        if (!file) return perror(argv[i + 1]), 2;
        size_t length = fread(book, 1, sizeof book, file);
        fclose(file);
        double best = 1e30, spent = 0;
        uint8_t number = 0;
        for (int round = 0; round < 1000 && spent < 1e9; round++) {
            double t = now();
            number = ck_book_check(book, length);
            t = now() - t;
            spent += t;
            best = t < best ? t : best;
        }
        if (number) return printf("%s: refused\n", argv[i]), 1;
        printf("| %s | %s | ", argv[i], grouped((double)length, 0));
        if (best < 1e6) printf("%.1f µs |\n", best / 1e3);
        else printf("%.0f ms |\n", best / 1e6);
    }
    return 0;
}
