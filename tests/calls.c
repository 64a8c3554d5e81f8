/* The library's calls, one a step, from C. Stops at the first thing that is not as include/weqhaso.h says.
 *
 * Eight cabinets and eight benches, each with its own settings and steps: taken through them one after the other and then all mixed,
 * they give the same answers and the same words. A refused call leaves every word, and no call touches what lies before and behind
 * the words, also where they hold anything. Which number comes first, and the lengths. The clock up to its end. The sample run of
 * document 01 through each of the older functions, as the header declares them.
 */
#include "weqhaso.h"
#include <math.h>
#include <stdio.h>
#include <stdlib.h>
#include <string.h>

enum { YARDS = 16, STEPS = 4000, GUARD = 8, MOST = 411, TIMES = 20000 };

#define CABINET WEQHASO_CABINET_WORDS
#define BENCH WEQHASO_BENCH_WORDS

/* A cabinet or a bench between guards, with a generator of its own steps, and all its answers in one number. */
struct yard {
    uint32_t before[GUARD], words[MOST], behind[GUARD];
    int bench;
    /* how many trains it knows */
    uint32_t trains;
    uint64_t drawn, answers;
};

static const uint32_t K[14] = {3, 4, 2880, 5760, 0, 3, 1, 3, 4, 3, 4, 3, 4, 60001};

static unsigned long refused[19], commands;

static void expect(int holds, const char *what) {
    if (holds) return;
    printf("tests/calls.c: not so: %s\n", what);
    exit(1);
}

#define SO(condition) expect(condition, #condition)

/* xorshift */
static uint32_t below(uint64_t *drawn, uint32_t n) {
    *drawn ^= *drawn << 13;
    *drawn ^= *drawn >> 7;
    *drawn ^= *drawn << 17;
    return (uint32_t)(*drawn % n);
}

static size_t length_of(const struct yard *y) { return y->bench ? BENCH : CABINET; }

static void check_guards(const struct yard *y) {
    size_t i, n = length_of(y);
    for (i = 0; i < GUARD; i++) SO(y->before[i] == 0xabababab && y->behind[i] == 0xabababab);
    for (i = n; i < MOST; i++) SO(y->words[i] == 0xabababab);
}

/* Settings of its own: the fall takes one tick or several, the kinds come sooner or later. */
static void settings_of(uint32_t at, uint32_t *s) {
    uint32_t i, fall = 1 + at % 5;
    for (i = 0; i < 4; i++) {
        uint32_t *times = s + (i > 0 ? 5 + 2 * i : 0);
        times[0] = fall + 1 + (at * 3 + i * 5) % 7;
        times[1] = times[0] + at % 4;
    }
    s[2] = 5760 / fall;
    s[3] = 5760 / (1 + at % 3);
    s[4] = at % 6;
    s[5] = fall + at % 4 + 1;
    s[6] = 4;
}

static void begin(struct yard *y, uint32_t at) {
    uint32_t settings[13];
    memset(y, 0xab, sizeof *y);
    y->bench = (int)(at % 2);
    y->trains = at % 4 < 2 ? 240 : 1 + at % 16 / 4;
    y->drawn = 88172645463325252u + 1000003u * at;
    y->answers = 0;
    settings_of(at, settings);
    SO((y->bench ? weqhaso_bench_start : weqhaso_cabinet_start)(y->words, length_of(y), settings, 13) == 0);
    check_guards(y);
}

/* As fast as the arm must move, now and then faster, another way or no angle at all. */
static float reading_for(struct yard *y) {
    uint32_t angle = y->words[WEQHASO_WORD_ANGLE], fall = y->words[WEQHASO_FALL], rise = y->words[WEQHASO_RISE];
    switch (below(&y->drawn, 12)) {
    case 0: return (float)below(&y->drawn, 5761) / 64.0f;
    case 1: return (float)below(&y->drawn, 5761) / 64.0f + 1.0f / 128.0f;
    default: break;
    }
    if (y->words[WEQHASO_WORD_COMMAND] == 1) return angle < fall ? 0.0f : (float)(angle - fall) / 64.0f;
    return angle + rise > WEQHASO_ARM_UP ? 90.0f : (float)(angle + rise) / 64.0f;
}

/* A train that the table has, another, or none's number. */
static uint32_t train_for(struct yard *y) {
    uint32_t one = y->words[WEQHASO_WORD_TRAIN(below(&y->drawn, 96))];
    if (one > 0 && below(&y->drawn, 3) == 0) return one;
    return below(&y->drawn, 30) == 0 ? 65536u * below(&y->drawn, 3) : 250u * (1 + below(&y->drawn, y->trains));
}

/* One step, as the yard's generator has it; where there are many trains, they mostly come. */
static uint64_t some_step(struct yard *y) {
    static const uint8_t approaches[] = {'A', 'B', 'E', 'F', 'A', 'B', 'E', 'F', 'T', 'a'};
    size_t n = length_of(y);
    uint32_t busy = y->trains == 240 ? 8 : 4, roll = below(&y->drawn, 10), train = train_for(y);
    if (roll < 3) return y->bench ? weqhaso_bench_clock(y->words, n, reading_for(y)) : weqhaso_cabinet_clock(y->words, n);
    if (roll < 5 && y->bench) {
        if (y->words[WEQHASO_WORD_LATE] == 1) train = y->words[WEQHASO_WORD_LATE_TRAIN];
        return weqhaso_bench_occupy(y->words, n, train);
    }
    if (below(&y->drawn, 10) < busy) {
        uint8_t letter = approaches[below(&y->drawn, sizeof approaches)];
        return y->bench ? weqhaso_bench_approach(y->words, n, letter, train) : weqhaso_cabinet_approach(y->words, n, letter, train);
    }
    return y->bench ? weqhaso_bench_leave(y->words, n, train) : weqhaso_cabinet_leave(y->words, n, train);
}

static void go_on(struct yard *y) {
    static uint32_t kept[MOST];
    uint64_t answer;
    memcpy(kept, y->words, sizeof kept);
    answer = some_step(y);
    if (WEQHASO_NUMBER(answer) != WEQHASO_TAKEN) {
        SO(memcmp(kept, y->words, sizeof kept) == 0);
        SO(WEQHASO_COMMAND(answer) == 0 && WEQHASO_TRAIN(answer) == 0);
    }
    SO(WEQHASO_NUMBER(answer) <= 17);
    refused[WEQHASO_NUMBER(answer)]++;
    commands += WEQHASO_COMMAND(answer) != WEQHASO_NOTHING;
    check_guards(y);
    y->answers = y->answers * 1000003u + answer;
}

static struct yard alone[YARDS], mixed[YARDS];

static void several(void) {
    uint64_t drawn = 1234567;
    uint32_t at, i, left[YARDS], all = YARDS;
    for (at = 0; at < YARDS; at++) {
        begin(&alone[at], at);
        for (i = 0; i < STEPS; i++) go_on(&alone[at]);
    }
    for (at = 0; at < YARDS; at++) begin(&mixed[at], at);
    for (at = 0; at < YARDS; at++) left[at] = STEPS;
    while (all > 0) {
        at = below(&drawn, YARDS);
        if (left[at] == 0) continue;
        go_on(&mixed[at]);
        if (--left[at] == 0) all--;
    }
    for (at = 0; at < YARDS; at++) SO(memcmp(&alone[at], &mixed[at], sizeof alone[at]) == 0);
    /* every number that such steps can meet but that of the clock's end */
    for (i = 5; i <= 17; i++) SO(i == 10 || i == 14 || i == 16 || refused[i] > 0);
}

/* What is refused, by which number first; nothing is written, not even with one word more than there should be. */
static void lengths(void) {
    uint32_t w[MOST + 1], kept[MOST + 1], settings[13];
    const size_t lengths[] = {0, 1, CABINET - 1, CABINET, CABINET + 1, BENCH - 1, BENCH, BENCH + 1};
    float shown[2] = {7, 7};
    size_t i;
    memset(w, 0xab, sizeof w);
    memcpy(kept, w, sizeof w);
    memcpy(settings, K, sizeof settings);
    for (i = 0; i < sizeof lengths / sizeof lengths[0]; i++) {
        size_t n = lengths[i];
        settings[0] = 2;
        SO(weqhaso_cabinet_start(w, n, settings, 13) == 2 && weqhaso_bench_start(w, n, settings, 13) == 2);
        settings[0] = 3;
        SO(weqhaso_cabinet_start(w, n, settings, 12) == 1 && weqhaso_bench_start(w, n, NULL, 0) == 1);
        SO(weqhaso_cabinet_approach(w, n, 'O', 0) == 15 && weqhaso_bench_approach(w, n, 'T', 1) == 15);
        SO(weqhaso_cabinet_approach(w, n, 'A', 65536) == 5 && weqhaso_bench_approach(w, n, 'F', 0) == 5);
        SO(weqhaso_cabinet_leave(w, n, 0) == 5 && weqhaso_bench_leave(w, n, 65536) == 5 && weqhaso_bench_occupy(w, n, 0) == 5);
        if (n != CABINET) {
            SO(weqhaso_cabinet_start(w, n, settings, 13) == 14);
            SO(weqhaso_cabinet_approach(w, n, 'B', 1) == 14 && weqhaso_cabinet_leave(w, n, 1) == 14 && weqhaso_cabinet_clock(w, n) == 14);
        }
        if (n != BENCH) {
            SO(weqhaso_bench_start(w, n, settings, 13) == 14);
            SO(weqhaso_bench_approach(w, n, 'E', 1) == 14 && weqhaso_bench_leave(w, n, 1) == 14 && weqhaso_bench_occupy(w, n, 1) == 14);
            SO(weqhaso_bench_clock(w, n, 90.0f) == 14 && weqhaso_bench_clock(w, n, -1.0f) == 12 && weqhaso_bench_clock(w, n, NAN) == 12);
            SO(weqhaso_bench_pose(w, n, shown, 2) == 14 && weqhaso_bench_gate(w, n, shown, 1) == 14);
        }
    }
    SO(weqhaso_bench_pose(w, BENCH, shown, 1) == 14 && weqhaso_bench_gate(w, BENCH, NULL, 0) == 14);
    SO(weqhaso_cabinet_clock(NULL, 0) == 14 && weqhaso_bench_clock(NULL, 0, 0.0f) == 14);
    SO(memcmp(w, kept, sizeof w) == 0 && shown[0] == 7 && shown[1] == 7);
    /* a fourteenth value is not read; a gate that is up leaves the place */
    SO(weqhaso_bench_start(w, BENCH, K, 14) == 0 && w[BENCH] == 0xabababab);
    SO(weqhaso_bench_gate(w, BENCH, shown, 2) == 256 * WEQHASO_GATE_UP && shown[0] == 7);
    SO(weqhaso_bench_pose(w, BENCH, shown, 2) == 0 && shown[0] == 90.0f && shown[1] == 0.0f);
}

/* Ten million ticks less one, and no more. */
static void to_the_end(void) {
    uint32_t w[BENCH], i;
    SO(weqhaso_cabinet_start(w, CABINET, K, 13) == 0);
    for (i = 0; i < WEQHASO_LAST_INSTANT; i++) SO(weqhaso_cabinet_clock(w, CABINET) == 0);
    SO(weqhaso_cabinet_clock(w, CABINET) == 10 && w[WEQHASO_WORD_INSTANT] == WEQHASO_LAST_INSTANT);
    SO(weqhaso_bench_start(w, BENCH, K, 13) == 0);
    for (i = 0; i < WEQHASO_LAST_INSTANT; i++) SO(weqhaso_bench_clock(w, BENCH, 90.0f) == 0);
    SO(weqhaso_bench_clock(w, BENCH, 90.0f) == 10 && w[WEQHASO_WORD_INSTANT] == WEQHASO_LAST_INSTANT);
}

/* Words that no start left: large ones, and small ones that name trains, standings and kinds. */
static void any_words(void) {
    struct yard *y = &mixed[0];
    uint64_t drawn = 7654321;
    uint32_t at, i;
    float shown[2];
    for (at = 0; at < TIMES; at++) {
        begin(y, at);
        for (i = 0; i < length_of(y); i++) y->words[i] = below(&drawn, 2) ? below(&drawn, 4294967295u) : below(&drawn, 5);
        for (i = 0; i < 4; i++) go_on(y);
        if (y->bench) SO(weqhaso_bench_pose(y->words, BENCH, shown, 2) == 0 && weqhaso_bench_gate(y->words, BENCH, shown, 1) % 256 == 0);
    }
}

/* The sample: a bench's steps, and what a cabinet alone hears of them. */
static const uint8_t letters[8] = {'A', 'T', 'T', 'T', 'O', 'T', 'L', 'T'}, heard[7] = {'A', 'T', 'T', 'T', 'T', 'L', 'T'};
static const uint32_t numbers[8] = {1, 0, 0, 0, 1, 0, 1, 0}, heard_numbers[7] = {1, 0, 0, 0, 0, 1, 0};
static const float readings[8] = {0, 90, 45, 0, 0, 0, 0, 90};

static uint8_t answers[8], orders[8];
static uint32_t named[8];

static void clear(void) {
    memset(answers, 99, sizeof answers);
    memset(orders, 99, sizeof orders);
    memset(named, 99, sizeof named);
}

/* All is taken; the lower for train 1 and the raise are beside these steps, and nothing else. */
static void check_told(size_t steps, size_t lower, size_t raise) {
    size_t i;
    for (i = 0; i < steps; i++) {
        SO(answers[i] == 0 && orders[i] == (i == lower ? WEQHASO_LOWER : i == raise ? WEQHASO_RAISE : WEQHASO_NOTHING));
        SO(named[i] == (i == lower));
    }
    clear();
}

static void lists(void) {
    uint32_t state[WEQHASO_STATE_PLACES], look[2] = {7, 7}, i;
    float pose[2] = {7, 7};
    clear();
    SO(weqhaso_run(K, 13, letters, 8, numbers, 8, readings, 8, answers, 8, orders, 8, named, 8) == 0);
    check_told(8, 1, 6);
    SO(weqhaso_state(K, 13, letters, 8, numbers, 8, readings, 8, answers, 8, orders, 8, named, 8, state, WEQHASO_STATE_PLACES) == 0);
    check_told(8, 1, 6);
    SO(state[0] == 5 && state[1] == 5760);
    for (i = 2; i < WEQHASO_STATE_PLACES; i++) SO(state[i] == 0);
    SO(weqhaso_look(K, 13, letters, 8, numbers, 8, readings, 8, answers, 8, orders, 8, named, 8, pose, 2, look, 2) == 0);
    check_told(8, 1, 6);
    SO(pose[0] == 90 && pose[1] == 90 && look[0] == WEQHASO_GATE_UP && look[1] == 0);
    SO(weqhaso_cabinet(K, 13, heard, 7, heard_numbers, 7, answers, 7, orders, 7, named, 7) == 0);
    check_told(7, 1, 5);
    SO(weqhaso_cabinet(K, 13, letters, 8, numbers, 8, answers, 8, orders, 8, named, 8) == WEQHASO_NO_STEP);
    SO(weqhaso_run(K, 13, letters, 8, numbers, 7, readings, 8, answers, 8, orders, 8, named, 8) == WEQHASO_WRONG_LENGTH);
    SO(answers[0] == 99 && orders[0] == 99);
}

static void texts(void) {
    static const char expected[] = "       2       4 N\n       3       4 O\n       1       3 Z\n";
    uint8_t record[WEQHASO_RECORD_BYTES(8)], old[WEQHASO_TO_OLD_BYTES(400)], back[WEQHASO_TO_NEW_BYTES(285)];
    static uint8_t report[WEQHASO_REPORT_BYTES];
    size_t lowered[WEQHASO_CURSOR_PLACES], occupied[WEQHASO_CURSOR_PLACES];
    SO(weqhaso_record(K, 13, letters, 8, numbers, 8, readings, 8, answers, 8, orders, 8, named, 8, record, sizeof record) == 256 * 400);
    check_told(8, 1, 6);
    SO(weqhaso_read(record, 400) == 0 && WEQHASO_NUMBER(weqhaso_read(record, 399)) == WEQHASO_NO_STEP);
    SO(WEQHASO_COUNT(weqhaso_read(record, 399)) == 25);
    SO(WEQHASO_COUNT(weqhaso_report(record, 400, report, sizeof report)) == 57 && memcmp(report, expected, 57) == 0);
    SO(weqhaso_to_old(record, 400, old, sizeof old) == 256 * 285);
    SO(weqhaso_to_new(old, 285, back, sizeof back) == 256 * 400 && memcmp(record, back, 400) == 0);
    SO(weqhaso_start(lowered, WEQHASO_CURSOR_PLACES) == 0 && weqhaso_start(occupied, WEQHASO_CURSOR_PLACES) == 0 && lowered[4] == 0);
    SO(weqhaso_next_lowered(record, 400, lowered, WEQHASO_CURSOR_PLACES) == 0 && lowered[4] == 1 && lowered[5] == 2 && lowered[6] == 4);
    SO(weqhaso_next_lowered(record, 400, lowered, WEQHASO_CURSOR_PLACES) == 0 && lowered[4] == 0);
    SO(weqhaso_next_occupied(record, 400, occupied, WEQHASO_CURSOR_PLACES) == 0 && occupied[4] == 1);
    SO(occupied[5] == 3 && occupied[6] == 4);
    SO(weqhaso_next_occupied(record, 400, occupied, 6) == WEQHASO_WRONG_LENGTH && weqhaso_below(record, 400) == 3);
}

int main(void) {
    several();
    printf("tests/calls.c: %d cabinets and benches alone and mixed, %d steps each, %lu commands; ", YARDS, STEPS, commands);
    lists();
    texts();
    lengths();
    to_the_end();
    any_words();
    printf("refused calls leave every word; %d times any words; 20 million ticks\n", TIMES);
    return 0;
}
