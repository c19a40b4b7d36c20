/* The Rust's and our reader of packets on the same packets over one book, in one process.
 * packets NAME BOOK FRAMES: of the packets in FRAMES those that are answered count. Prints a row of bench/run's table under that name; ends with 1 if the
 * two do not give the same sum of what they answered. */
#include <stdint.h>
#include <stdio.h>
#include <stdlib.h>
#include <string.h>
#include <time.h>

#include "chomkadieu.h"
#include "table.h"

enum { ROUNDS = 7 };

uint8_t oracle_put_book(const uint8_t *book, size_t length);
const void *oracle_make_packets(const uint8_t *frames, size_t length);
uint64_t oracle_run_packets(const void *packets);

static uint8_t *read_all(const char *path, size_t *length) {
    FILE *file = fopen(path, "rb");
    if (!file) {
        perror(path);
        exit(2);
    }
    fseek(file, 0, SEEK_END);
    *length = (size_t)ftell(file);
    rewind(file);
    uint8_t *bytes = malloc(*length + 1);
    if (fread(bytes, 1, *length, file) != *length) exit(2);
    fclose(file);
    return bytes;
}

static double now(void) {
    struct timespec t;
    clock_gettime(CLOCK_PROCESS_CPUTIME_ID, &t);
    return (double)t.tv_sec * 1e9 + (double)t.tv_nsec;
}

/* All packets, one after the other. */
static uint8_t *kinds;
static uint32_t *counts, *dwords, *places, *codes;
static size_t packets, total;

/* What the oracle sums: 1 a packet, its described dwords, the dwords in its view, 1 for a UUID. */
static uint64_t sum_of(const uint8_t *book, size_t length) {
    uint64_t sum = 0;
    const uint32_t *at = dwords;
    for (size_t k = 0; k < packets; k++) {
        ck_packet_answer a = ck_packet(kinds[k], book, length, at, counts[k], places, CK_MOST_DWORDS);
        sum += 1 + a.has_uuid;
        for (uint32_t i = 0; i < counts[k]; i++) sum += places[i] != 0;
        if (a.start != CK_NONE) sum += counts[k] - a.start;
        at += counts[k];
    }
    return sum;
}

typedef ck_packet_answer call(uint8_t, const uint8_t *, size_t, const uint32_t *, size_t, uint32_t *, size_t);

/* Processor time for a call for each packet. */
static double each(call *one, const uint8_t *book, size_t length) {
    const uint32_t *at = dwords;
    double t = now();
    for (size_t k = 0; k < packets; k++) {
        one(kinds[k], book, length, at, counts[k], places, CK_MOST_DWORDS);
        at += counts[k];
    }
    return now() - t;
}

/* The frames that are answered, kept in `frames` for the oracle and laid out for us. */
static size_t keep(const uint8_t *book, size_t length, uint8_t *frames, size_t size) {
    size_t kept = 0;
    for (size_t i = 0; i < size;) {
        uint32_t rest;
        memcpy(&rest, frames + i, 4);
        uint8_t kind = frames[i + 4];
        uint32_t count = (rest - 1) / 4;
        memcpy(dwords + total, frames + i + 5, 4 * count);
        if (ck_packet(kind, book, length, dwords + total, count, places, CK_MOST_DWORDS).number == 0) {
            kinds[packets] = kind;
            counts[packets++] = count;
            total += count;
            memmove(frames + kept, frames + i, 4 + rest);
            kept += 4 + rest;
        }
        i += 4 + rest;
    }
    return kept;
}

int main(int argc, char **argv) {
    if (argc != 4) return 2;
    size_t length, size;
    uint8_t *book = read_all(argv[2], &length), *frames = read_all(argv[3], &size);
    kinds = malloc(size);
    counts = malloc(4 * size);
    codes = malloc(4 * size);
    dwords = malloc(size + 4096);
    places = malloc(size + 4096);
    size_t kept = keep(book, length, frames, size);
    oracle_put_book(book, length);
    const void *made = oracle_make_packets(frames, kept);
    uint64_t theirs = oracle_run_packets(made), ours = sum_of(book, length);
    if (theirs != ours) {
        printf("%s: our sum is %llu, the Rust's %llu\n", argv[1], (unsigned long long)ours, (unsigned long long)theirs);
        return 1;
    }
    double rust = 1e30, one = 1e30, checked = 1e30, all = 1e30;
    for (int round = 0; round < ROUNDS; round++) {
        double t = now();
        theirs += oracle_run_packets(made);
        t = now() - t;
        rust = t < rust ? t : rust;
        t = each(ck_packet, book, length);
        one = t < one ? t : one;
        t = each(ck_checked_packet, book, length);
        checked = t < checked ? t : checked;
        t = now();
        ck_packet_all(book, length, kinds, packets, counts, packets, dwords, total, places, total, codes, packets);
        t = now() - t;
        all = t < all ? t : all;
    }
    double n = (double)packets;
    printf("| %s | %s | %s, %.1f | %s ns | %s ns | %.2f | %s ns | %.2f | %s ns |\n", argv[1], grouped((double)length, 0), grouped(n, 0),
           (double)total / n, grouped(rust / n, 0), grouped(all / n, 0), all / rust, grouped(checked / n, 0), checked / rust, grouped(one / n, 0));
    return theirs == 1 || ours == 1;
}
