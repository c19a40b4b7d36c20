/* Reads lines so that callgrind can count each reader's instructions: bench/instructions KERNEL LONG REFUSED, each a file of frames. `counted` is called
 * once for each reader of each row, in the readers' order; the program's start and what is made beforehand are outside it. Prints the rows: name, bytes
 * (0 if they differ) and how many lines, with tabs between. */
#include "lines.h"

enum { KERNEL_LINES = 2000, LONG_LINES = 300, REFUSED_LINES = 2000 };

static volatile uint64_t sum;

static void counted(int reader, const lines *l) {
    sum += read_all(reader, l);
}

/* Called by an address that may change, the function keeps its name and is not compiled into its callers. */
static void (*volatile count)(int reader, const lines *l) = counted;

static void row(const char *name, size_t bytes, lines l) {
    for (int reader = 0; reader < READERS; reader++) {
        /* The Rust makes its searches ready when they are first used; that is no reading. */
        sum += read_all(reader, &l);
        count(reader, &l);
    }
    printf("%s\t%zu\t%zu\n", name, bytes, l.count);
}

int main(int argc, char **argv) {
    if (argc != 4) return 2;
    row("kernel-like", 0, first_of(frames_of(argv[1]), KERNEL_LINES));
    row("long, 60 to 250 dwords", 0, first_of(frames_of(argv[2]), LONG_LINES));
    row("short, refused", 0, first_of(frames_of(argv[3]), REFUSED_LINES));
    for (size_t i = 0; i < HOSTILE; i++) {
        row(hostile[i].name, LONGEST, hostile_line(i, LONGEST));
        row(hostile[i].name, HALF, hostile_line(i, HALF));
    }
    return 0;
}
