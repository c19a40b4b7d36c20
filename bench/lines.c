/* The Rust, our two readings of lines, strict and lenient, and the one written by hand in one process: bench/lines KERNEL LONG REFUSED HARD, each a file
 * of frames; on the last the reader by hand is held to ours and nothing is timed. Prints tables of nanoseconds a line and of how many times as fast as the
 * Rust the others are. Ends with 1 where answers differ. */
#include "lines.h"
#include "table.h"

#include <time.h>

/* Many lines are read in parts of a thousand, a hostile line twenty times between two looks at the clock. */
enum { ROUNDS = 7, AT_A_TIME = 1000, HOSTILE_ROUNDS = 70, REPEATS = 20, NUMBERS = 256 };

/* The processor time of this process, so that other work on the machine counts as little as it can. */
static double now(void) {
    struct timespec t;
    clock_gettime(CLOCK_PROCESS_CPUTIME_ID, &t);
    return (double)t.tv_sec * 1e9 + (double)t.tv_nsec;
}

/* Lines that are read between two looks at the clock, and the best that each reader did. */
typedef struct part {
    lines of;
    double best[READERS];
} part;

static part part_of(lines l) {
    part p = {l, {0}};
    for (int reader = 0; reader < READERS; reader++) p.best[reader] = 1e30;
    return p;
}

static void lap(part *p, int reader, int repeats) {
    double start = now();
    for (int i = 0; i < repeats; i++) read_all(reader, &p->of);
    double taken = (now() - start) / repeats;
    if (taken < p->best[reader]) p->best[reader] = taken;
}

/* Each part by all readers in turn: the machine's speed changes from minute to minute, and what is held to each other is to meet the same. */
static void race(part *parts, size_t count, int rounds, int repeats) {
    for (int round = 0; round < rounds; round++)
        for (size_t i = 0; i < count; i++)
            for (int reader = 0; reader < READERS; reader++) lap(&parts[i], reader, repeats);
}

/* How often each number is answered; and the sum that the Rust makes: for each entry 1, its kind, how many dwords it has, and they. */
static uint64_t answers(call *one, frames f, size_t *often) {
    uint64_t sum = 0;
    for (size_t at = 0; at < f.length; at += 4 + frame_length(f.bytes + at)) {
        ck_entry_answer a = one(f.bytes + at + 4, frame_length(f.bytes + at), slots, CK_MOST_DWORDS);
        often[a.number]++;
        if (a.number != CK_OK) continue;
        sum += 1 + a.entry.kind + a.entry.dwords;
        for (size_t i = 0; i < a.entry.dwords; i++) sum += slots[i];
    }
    return sum;
}

/* An answer and all slots, of which so many were lent. */
typedef struct outcome {
    ck_entry_answer answer;
    uint32_t slots[CK_MOST_DWORDS];
} outcome;

/* The slots hold a pattern beforehand, so that one that is written is told from one that is not. */
static outcome outcome_of(call *one, const uint8_t *line, size_t length, size_t lent) {
    outcome o;
    for (uint32_t i = 0; i < CK_MOST_DWORDS; i++) o.slots[i] = UINT32_C(0xa5000000) + i;
    o.answer = one(line, length, o.slots, lent);
    return o;
}

/* Field by field, since what lies between the fields is anything. */
static int same(const outcome *x, const outcome *y) {
    const ck_entry *a = &x->answer.entry, *b = &y->answer.entry;
    return x->answer.number == y->answer.number && a->task_at == b->task_at && a->task_len == b->task_len && a->pid == b->pid && a->cpu == b->cpu &&
           a->seconds == b->seconds && a->microseconds == b->microseconds && a->function_at == b->function_at && a->function_len == b->function_len &&
           a->kind == b->kind && a->size == b->size && a->dropped == b->dropped && a->domain == b->domain && a->route == b->route &&
           a->offset == b->offset && a->code == b->code && a->len == b->len && a->port == b->port && a->config == b->config && a->seq == b->seq &&
           a->unplug == b->unplug && a->dwords == b->dwords && !memcmp(x->slots, y->slots, sizeof x->slots);
}

/* The reader by hand is to answer each line as lenient does, with all slots lent and with so few that many lines are refused for it. */
static void compare(const char *name, frames f) {
    static const size_t lent[] = {CK_MOST_DWORDS, 5};
    for (size_t at = 0; at < f.length; at += 4 + frame_length(f.bytes + at))
        for (size_t i = 0; i < sizeof lent / sizeof *lent; i++) {
            const uint8_t *line = f.bytes + at + 4;
            size_t n = frame_length(f.bytes + at);
            outcome ours = outcome_of(ck_parse_lenient, line, n, lent[i]), plain = outcome_of(plain_parse, line, n, lent[i]);
            if (same(&ours, &plain)) continue;
            printf("%s: with %zu slots ck_parse_lenient and plain_parse (numbers %u, %u) differ on the line\n", name, lent[i], ours.answer.number,
                   plain.answer.number);
            fwrite(line, 1, n, stdout);
            printf("\n");
            exit(1);
        }
}

/* Nothing is timed unless lenient, which is to read as the Rust does, gives the Rust's sum, and the reader by hand its answers. */
static void judge(const char *name, const lines *l, size_t *strict, size_t *lenient) {
    compare(name, l->in);
    answers(ck_parse, l->in, strict);
    uint64_t ours = answers(ck_parse_lenient, l->in, lenient), theirs = oracle_run_lines(l->rust);
    if (ours == theirs) return;
    printf("%s: our sum is %llu, the Rust's %llu\n", name, (unsigned long long)ours, (unsigned long long)theirs);
    exit(1);
}

/* An entry, or the number that refuses. */
static const char *called(size_t number) {
    return number == CK_OK ? "entry" : grouped((double)number, 0);
}

/* Best nanoseconds of a line, and how many times as fast as the Rust that is. */
static void print_times(double rust, double other) {
    printf(" %s | %.2f |", grouped(other, 0), rust / other);
}

/* A set of many lines, cut into parts. */
typedef struct course {
    const char *name;
    part *parts;
    size_t count, lines, bytes;
} course;

static course course_of(const char *name, frames f) {
    course c = {name, NULL, 0, 0, 0};
    while (f.length) {
        c.parts = realloc(c.parts, (c.count + 1) * sizeof *c.parts);
        if (!c.parts) exit(2);
        lines l = first_of(f, AT_A_TIME);
        c.parts[c.count++] = part_of(l);
        c.lines += l.count, c.bytes += l.in.length - 4 * l.count;
        f.bytes += l.in.length, f.length -= l.in.length;
    }
    return c;
}

static void print_often(const char *reader, const size_t *often) {
    printf("; %s", reader);
    for (size_t i = 0; i < NUMBERS; i++)
        if (often[i]) printf(" %s: %s", called(i), grouped((double)often[i], 0));
}

static void judge_course(const course *c) {
    size_t strict[NUMBERS] = {0}, lenient[NUMBERS] = {0};
    for (size_t i = 0; i < c->count; i++) judge(c->name, &c->parts[i].of, strict, lenient);
    printf("%s", c->name);
    print_often("strict", strict);
    print_often("lenient", lenient);
    printf("\n");
}

/* What is best of each part, summed, so that other work spoils the parts that it meets and not a whole round. */
static double each_line(const course *c, int reader) {
    double sum = 0;
    for (size_t i = 0; i < c->count; i++) sum += c->parts[i].best[reader];
    return sum / (double)c->lines;
}

static void print_course(const course *c) {
    double rust = each_line(c, RUST);
    printf("| %s | %s | %s | %s |", c->name, grouped((double)c->lines, 0), grouped((double)c->bytes / (double)c->lines, 1), grouped(rust, 0));
    for (int reader = RUST + 1; reader < READERS; reader++) print_times(rust, each_line(c, reader));
    printf("\n");
}

static void many(course *courses, size_t count) {
    for (size_t i = 0; i < count; i++) judge_course(&courses[i]);
    printf("\n| lines | how many | bytes a line | `Entry::parse`, ns | `ck_parse`, ns | times as fast | `ck_parse_lenient`, ns | times as fast | "
           "by hand, ns | times as fast |\n|---|---|---|---|---|---|---|---|---|---|\n");
    for (size_t i = 0; i < count; i++) {
        race(courses[i].parts, courses[i].count, ROUNDS, 1);
        print_course(&courses[i]);
    }
}

/* The number that one line was answered. */
static size_t only(const size_t *often) {
    size_t number = 0;
    while (number + 1 < NUMBERS && !often[number]) number++;
    return number;
}

/* A hostile line at its full length and at half of it, for which a time that grows as the line does is half. */
static void one_hostile(size_t i, double *ordinary) {
    part both[] = {part_of(hostile_line(i, LONGEST)), part_of(hostile_line(i, HALF))};
    size_t strict[NUMBERS] = {0}, lenient[NUMBERS] = {0}, half[NUMBERS] = {0};
    judge(hostile[i].name, &both[0].of, strict, lenient);
    judge(hostile[i].name, &both[1].of, half, half);
    race(both, 2, HOSTILE_ROUNDS, REPEATS);
    const double *best = both[0].best, *halved = both[1].best;
    if (i == 0) *ordinary = best[STRICT];
    printf("| %s | %s, %s | %s |", hostile[i].name, called(only(strict)), called(only(lenient)), grouped(best[RUST], 0));
    print_times(best[RUST], best[STRICT]);
    printf(" %.2f | %.2f |", best[STRICT] / *ordinary, best[STRICT] / halved[STRICT]);
    print_times(best[RUST], best[LENIENT]);
    printf(" %.2f |", best[LENIENT] / halved[LENIENT]);
    print_times(best[RUST], best[PLAIN]);
    printf(" %.2f |\n", best[PLAIN] / halved[PLAIN]);
}

static void all_hostile(void) {
    double ordinary = 0;
    printf("\n| line of 4,096 bytes | strict, lenient | `Entry::parse`, ns | `ck_parse`, ns | times as fast | to the first | to 2,048 bytes | "
           "`ck_parse_lenient`, ns | times as fast | to 2,048 bytes | by hand, ns | times as fast | to 2,048 bytes |\n"
           "|---|---|---|---|---|---|---|---|---|---|---|---|---|\n");
    for (size_t i = 0; i < HOSTILE; i++) one_hostile(i, &ordinary);
}

/* The same lines with a bad piece behind the last of each one's data. */
static frames spoilt(frames f) {
    static const char bad[] = ", 0x04zz";
    enum { MORE = sizeof bad - 1 };
    frames to = room_for(2 * f.length + MORE);
    to.length = 0;
    for (size_t at = 0; at < f.length;) {
        size_t n = frame_length(f.bytes + at), before = n, size = n;
        while (before && f.bytes[at + 4 + before - 1] != ']') before--;
        uint8_t *line = to.bytes + to.length + 4;
        memcpy(line, f.bytes + at + 4, n);
        if (before && n > MORE) {
            memmove(line + before - 1 + MORE, line + before - 1, n - before + 1);
            memcpy(line + before - 1, bad, MORE);
            size += MORE;
        }
        put_length(line - 4, size);
        to.length += 4 + size, at += 4 + n;
    }
    return to;
}

int main(int argc, char **argv) {
    if (argc != 5) return 2;
    /* The lines that are timed have no number near its width, and no key twice. */
    compare("hard lines", frames_of(argv[4]));
    frames kernel = frames_of(argv[1]);
    course courses[] = {
        course_of("kernel-like", kernel),
        course_of("kernel-like, each with a bad piece", spoilt(kernel)),
        course_of("long, 60 to 250 dwords", frames_of(argv[2])),
        course_of("short, refused", frames_of(argv[3])),
    };
    setvbuf(stdout, NULL, _IOLBF, BUFSIZ);
    many(courses, sizeof courses / sizeof *courses);
    all_hostile();
    return 0;
}
