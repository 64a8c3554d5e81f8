/* The library's calls, one a step, against the same rules in plain C, in place (inplace.c). benchmark/run builds and calls it:
 *
 *   calls                 both sides leave the same answers and the same words on random steps, or it fails; then the times
 *   calls once SIDE CASE  some rounds of one side (ours, inplace, or none: the input is only made) on one case, for callgrind
 *   calls cases           the cases by name, each with how many calls these rounds have
 */
#define _POSIX_C_SOURCE 199309L
#include "inplace.h"
#include "weqhaso.h"
#include <stdio.h>
#include <stdlib.h>
#include <string.h>
#include <time.h>

enum side { OURS, IN_PLACE };

/* The words that the library is lent, and the fields that the rules in place have. */
union state {
    uint32_t words[WEQHASO_BENCH_WORDS];
    struct cabinet cabinet;
    struct bench bench;
};

typedef char same_layout_of_cabinets[sizeof(struct cabinet) == 4 * WEQHASO_CABINET_WORDS ? 1 : -1];
typedef char same_layout_of_benches[sizeof(struct bench) == 4 * WEQHASO_BENCH_WORDS ? 1 : -1];

/* A small generator of numbers (xorshift). */
static uint64_t drawn = 88172645463325252u;

static uint32_t below(uint32_t n) {
    drawn ^= drawn << 13;
    drawn ^= drawn >> 7;
    drawn ^= drawn << 17;
    return (uint32_t)(drawn % n);
}

/* ---- a step by its letter, of a bench or a cabinet alone */

static uint64_t on_bench(enum side side, union state *s, uint8_t letter, uint32_t train, float reading) {
    const size_t n = WEQHASO_BENCH_WORDS;
    switch (letter) {
    case 'T': return side == OURS ? weqhaso_bench_clock(s->words, n, reading) : bench_clock(&s->bench, reading);
    case 'O': return side == OURS ? weqhaso_bench_occupy(s->words, n, train) : bench_occupy(&s->bench, train);
    case 'L': return side == OURS ? weqhaso_bench_leave(s->words, n, train) : bench_leave(&s->bench, train);
    default: return side == OURS ? weqhaso_bench_approach(s->words, n, letter, train) : bench_approach(&s->bench, letter, train);
    }
}

static uint64_t alone(enum side side, union state *s, uint8_t letter, uint32_t train) {
    const size_t n = WEQHASO_CABINET_WORDS;
    switch (letter) {
    case 'T': return side == OURS ? weqhaso_cabinet_clock(s->words, n) : cabinet_clock(&s->cabinet);
    case 'L': return side == OURS ? weqhaso_cabinet_leave(s->words, n, train) : cabinet_leave(&s->cabinet, train);
    default: return side == OURS ? weqhaso_cabinet_approach(s->words, n, letter, train) : cabinet_approach(&s->cabinet, letter, train);
    }
}

static uint64_t step(enum side side, int bench, union state *s, uint8_t letter, uint32_t train, float reading) {
    return bench ? on_bench(side, s, letter, train, reading) : alone(side, s, letter, train);
}

static uint64_t start(enum side side, int bench, union state *s, const uint32_t *settings) {
    if (bench) return side == OURS ? weqhaso_bench_start(s->words, WEQHASO_BENCH_WORDS, settings, 13) : bench_start(&s->bench, settings);
    return side == OURS ? weqhaso_cabinet_start(s->words, WEQHASO_CABINET_WORDS, settings, 13) : cabinet_start(&s->cabinet, settings);
}

/* ---- the same answers and words on random steps */

enum { LISTS = 250, STEPS = 2000, POOL = 120 };

static const uint32_t edges[] = {0, 1, 9999, 10000, 65534, 65535, 65536, 131072, 4294967295u};
static const uint8_t kinds[] = {'A', 'B', 'E', 'F'}, no_step[] = {'D', 'U', 'S', 'C', 'G', 'a', 'b', ' ', 0, 255};

/* How often each refusal number was given, and each command. */
static unsigned long refused[19], commands;

/* Close to their limits; now and then one that is spoiled. */
static void random_settings(uint32_t *s) {
    static const uint32_t rates[] = {5760, 2880, 1921, 1919, 1440, 577}, spoiled[] = {0, 1, 5761, 60000, 60001, 4294967295u};
    uint32_t i, widest = 0, d, u;
    s[2] = rates[below(6)];
    s[3] = rates[below(6)];
    d = (5759 + s[2]) / s[2];
    u = (5759 + s[3]) / s[3];
    for (i = 0; i < 4; i++) {
        uint32_t *times = s + (i ? 5 + 2 * i : 0), wide = below(30);
        times[0] = d + 1 + below(1 + below(30));
        times[1] = times[0] + wide;
        if (wide > widest) widest = wide;
    }
    s[4] = below(6);
    s[5] = d + widest + below(3);
    s[6] = u + below(3);
    i = below(13);
    if (below(8) == 0) s[i] = below(2) ? s[i] - 1 : spoiled[below(6)];
}

/* Mostly what the movement rule allows. */
static float random_reading(const struct bench *b) {
    uint32_t p = b->cabinet.settings[2], q = b->cabinet.settings[3];
    uint32_t angle = b->cabinet.down ? (b->angle < p ? 0 : b->angle - p) : (b->angle + q > 5760 ? 5760 : b->angle + q);
    static const float odd[] = {-0.0f, 90.015625f, 0.0078125f, -1.0f, 1e30f, 1e-40f};
    switch (below(12)) {
    case 0: return odd[below(6)];
    case 1: return (float)below(5761) / 64.0f;
    case 2: return 0.0f * (1e30f * 1e30f);
    default: return (float)angle / 64.0f;
    }
}

/* A train that the table has, or one of the pool. */
static uint32_t random_train(const uint32_t *pool, uint32_t many, const struct cabinet *c) {
    uint32_t train = c->table[below(96)].train;
    return train > 0 && below(3) == 0 ? train : pool[below(many)];
}

static void fail(const char *what) {
    printf("calls: %s\n", what);
    exit(1);
}

static void same(int bench, const union state *ours, const union state *theirs, uint64_t answer, uint64_t other) {
    size_t bytes = bench ? sizeof(struct bench) : sizeof(struct cabinet);
    if (answer != other) fail("another answer");
    if (memcmp(ours, theirs, bytes) != 0) fail("other words");
    refused[WEQHASO_NUMBER(answer)]++;
    commands += WEQHASO_COMMAND(answer) != WEQHASO_NOTHING;
}

/* One list; a clock that is refused because of a late train is followed by that train's occupy. */
static void compare_list(int bench) {
    static union state ours, theirs;
    uint32_t settings[13], pool[POOL], i, many = below(2) ? POOL : 1 + below(8), busy = 2 + below(8), ticks = 4 + below(12), late = 0;
    uint64_t started;
    for (i = 0; i < POOL; i++) pool[i] = below(20) ? 1 + below(65535) : edges[below(9)];
    do {
        random_settings(settings);
        started = start(OURS, bench, &ours, settings);
        same(bench, &ours, &theirs, started, start(IN_PLACE, bench, &theirs, settings));
    } while (started != 0);
    if (below(10) == 0) ours.bench.cabinet.now = theirs.bench.cabinet.now = 9999900;
    for (i = 0; i < STEPS; i++) {
        uint32_t train = random_train(pool, many, &theirs.cabinet), roll = below(20);
        uint8_t letter = roll < ticks ? 'T' : roll < ticks + 3 && bench ? 'O' : below(10) < busy ? kinds[below(4)] : 'L';
        float reading = random_reading(&theirs.bench);
        uint64_t answer;
        if (roll == 19) letter = no_step[below(sizeof no_step)];
        if (late) {
            letter = 'O';
            train = theirs.bench.latest.train;
        }
        answer = step(OURS, bench, &ours, letter, train, reading);
        same(bench, &ours, &theirs, answer, step(IN_PLACE, bench, &theirs, letter, train, reading));
        late = WEQHASO_NUMBER(answer) == WEQHASO_TRAIN_LATE;
    }
}

static void compare(void) {
    int i;
    for (i = 0; i < LISTS; i++) {
        compare_list(0);
        compare_list(1);
    }
    printf("%d random steps of cabinets and benches, the same answers and words:\n", 2 * LISTS * STEPS);
    printf("%lu taken with %lu commands; refused", refused[0], commands);
    for (i = 1; i <= 17; i++) {
        if (refused[i] > 0) printf(" %d: %lu,", i, refused[i]);
        else if (i != 14 && i != 16) fail("a refusal that was never met");
    }
    printf(" no other\n");
}

/* ---- cases: 96 trains present, their numbers up to five digits */

/* Rounds are short, so that another process spoils few of them. */
enum { TRAINS = 96, CLOCKS = 10000, ROUNDS = 501, ROUNDS_ONCE = 20 };

/* kept from the compiler's knowledge */
static volatile uint64_t sum;

static double seconds(void) {
    struct timespec t;
    clock_gettime(CLOCK_MONOTONIC, &t);
    return (double)t.tv_sec + (double)t.tv_nsec * 1e-9;
}

/* No train is due within the clock calls of a round. */
static const uint32_t far[13] = {60000, 60000, 5760, 5760, 0, 60000, 1, 60000, 60000, 60000, 60000, 60000, 60000};
/* All trains are due; the command stays down. */
static const uint32_t near[13] = {1000, 60000, 5760, 5760, 60000, 60000, 1, 1000, 60000, 1000, 60000, 1000, 60000};

/* The trains in rising order of their numbers; they came in another one. All came at one instant, so the first is soonest. */
static uint32_t rising[TRAINS];

/* 96 trains that came at 0, and the clock at this instant. */
static void full(int bench, union state *s, const uint32_t *settings, uint32_t now) {
    uint32_t i;
    start(IN_PLACE, bench, s, settings);
    for (i = 0; i < TRAINS; i++) rising[i] = 7 + 683 * i;
    for (i = 0; i < TRAINS; i++) step(IN_PLACE, bench, s, kinds[i % 4], rising[i * 35 % TRAINS], 0);
    while (s->cabinet.now < now) step(IN_PLACE, bench, s, 'T', 0, s->cabinet.down ? 0.0f : 90.0f);
}

struct call_case {
    const char *name, *what;
    int bench;
    /* C the clock, P a leave and an approach of the same train, O an occupy */
    char calls;
    /* from which of the trains on: 0 every one is first when it goes, 1 the first stays */
    uint32_t from;
};

static const struct call_case cases[] = {
    {"cabinet-clock", "cabinet: clock", 0, 'C', 0},
    {"cabinet-soonest", "cabinet: leave and approach, the soonest leaves", 0, 'P', 0},
    {"cabinet-others", "cabinet: leave and approach, another leaves", 0, 'P', 1},
    {"bench-clock", "bench: clock", 1, 'C', 0},
    {"bench-soonest", "bench: leave and approach, the soonest leaves", 1, 'P', 0},
    {"bench-others", "bench: leave and approach, another leaves", 1, 'P', 1},
    {"bench-first", "bench: occupy, of the first at its latest", 1, 'O', 0},
    {"bench-not-first", "bench: occupy, of another", 1, 'O', 1},
};
enum { CASES = sizeof cases / sizeof cases[0] };

static union state begin, now_at;

static void prepare(const struct call_case *c) {
    uint32_t i;
    if (c->calls == 'C') {
        full(c->bench, &begin, far, 0);
        return;
    }
    full(c->bench, &begin, near, 1000);
    if (c->bench && c->calls == 'P') {
        for (i = 0; i < TRAINS; i++) bench_occupy(&begin.bench, rising[i]);
    }
}

/* The calls of a round. */
static uint32_t calls_of(const struct call_case *c) {
    return c->calls == 'C' ? CLOCKS : (TRAINS - c->from) * (c->calls == 'P' ? 2 : 1);
}

/* Clock calls: nothing but the call in the loop. */
static double clocks(enum side side, int bench) {
    uint64_t answers = 0;
    double at = seconds();
    int i;
    if (bench && side == OURS) {
        for (i = 0; i < CLOCKS; i++) answers += weqhaso_bench_clock(now_at.words, WEQHASO_BENCH_WORDS, 90.0f);
    } else if (bench) {
        for (i = 0; i < CLOCKS; i++) answers += bench_clock(&now_at.bench, 90.0f);
    } else if (side == OURS) {
        for (i = 0; i < CLOCKS; i++) answers += weqhaso_cabinet_clock(now_at.words, WEQHASO_CABINET_WORDS);
    } else {
        for (i = 0; i < CLOCKS; i++) answers += cabinet_clock(&now_at.cabinet);
    }
    at = seconds() - at;
    sum += answers;
    return at;
}

/* Each train once; with a leave it comes back at once, so the table is full again. */
static double trains(enum side side, const struct call_case *c) {
    uint64_t answers = 0;
    double at = seconds();
    uint32_t i;
    for (i = c->from; i < TRAINS; i++) {
        /* the others in no order */
        uint32_t train = rising[c->from ? 1 + (i - 1) * 37 % (TRAINS - 1) : i];
        if (c->calls == 'O') {
            answers += on_bench(side, &now_at, 'O', train, 0);
        } else {
            answers += step(side, c->bench, &now_at, 'L', train, 0);
            answers += step(side, c->bench, &now_at, 'A', train, 0);
        }
    }
    at = seconds() - at;
    if (answers != 0) fail("a step of a case is refused, or gives a command");
    return at;
}

/* The seconds of a round's calls. */
static double round_of(enum side side, const struct call_case *c) {
    now_at = begin;
    return c->calls == 'C' ? clocks(side, c->bench) : trains(side, c);
}

static int by_size(const void *a, const void *b) {
    double x = *(const double *)a, y = *(const double *)b;
    return (x > y) - (x < y);
}

static double median(double *times) {
    qsort(times, ROUNDS, sizeof *times, by_size);
    return times[ROUNDS / 2];
}

static void measure(void) {
    int i, k;
    printf("\n%-53s%10s%10s%10s\n", "nanoseconds a call, 96 trains present, median", "ours", "in place", "ratio");
    for (i = 0; i < CASES; i++) {
        double ours[ROUNDS], theirs[ROUNDS], calls = (double)calls_of(&cases[i]);
        prepare(&cases[i]);
        for (k = 0; k < ROUNDS; k++) {
            ours[k] = round_of(OURS, &cases[i]) * 1e9 / calls;
            theirs[k] = round_of(IN_PLACE, &cases[i]) * 1e9 / calls;
        }
        printf("%-53s%10.1f%10.1f%10.2f\n", cases[i].what, median(ours), median(theirs), median(ours) / median(theirs));
    }
    if (sum != 0) fail("a clock call is refused, or gives a command");
}

static void once(const char *side, const char *name) {
    int i, k;
    for (i = 0; i < CASES; i++) {
        if (strcmp(cases[i].name, name) != 0) continue;
        prepare(&cases[i]);
        for (k = 0; k < ROUNDS_ONCE && strcmp(side, "none") != 0; k++) round_of(strcmp(side, "ours") == 0 ? OURS : IN_PLACE, &cases[i]);
    }
}

int main(int argc, char **argv) {
    int i;
    if (argc == 4 && strcmp(argv[1], "once") == 0) {
        once(argv[2], argv[3]);
    } else if (argc == 2 && strcmp(argv[1], "cases") == 0) {
        for (i = 0; i < CASES; i++) printf("%s %u %s\n", cases[i].name, (unsigned)(ROUNDS_ONCE * calls_of(&cases[i])), cases[i].what);
    } else {
        compare();
        measure();
    }
    return 0;
}
