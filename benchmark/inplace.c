/* The rules in place (inplace.h): the table is changed where it lies, D and U are worked out once, and the soonest due train and the
   coming one that is first at its latest are kept beside the table, which is read through only when that very train goes. */
#include "inplace.h"
#include <string.h>

enum { AWAY, COMING, INSIDE };
enum { UP = 5760, LAST_INSTANT = 9999999, LAST_TRAIN = 65535, PLACES = 96 };

static const struct entry FREE = {0, 1, AWAY, 0};

/* ---- settings */

/* The earliest of kinds 1 to 4 among the settings; the latest follows it. */
static uint32_t earliest_at(uint32_t kind) { return kind == 1 ? 0 : 3 + 2 * kind; }

static uint32_t ticks_for(uint32_t rate) { return (UP + rate - 1) / rate; }

static int within(uint32_t value, uint32_t least, uint32_t most) { return least <= value && value <= most; }

static uint64_t check(const uint32_t *s) {
    uint32_t kind, widest = 0, least = 60000;
    for (kind = 1; kind <= 4; kind++) {
        const uint32_t *times = s + earliest_at(kind);
        if (!within(times[0], 1, 60000) || !within(times[1], times[0], 60000)) return 1;
        if (times[0] < least) least = times[0];
        if (times[1] - times[0] > widest) widest = times[1] - times[0];
    }
    if (!within(s[2], 1, UP) || !within(s[3], 1, UP) || s[4] > 60000 || !within(s[5], 1, 60000) || !within(s[6], 1, 60000)) return 1;
    if (least <= ticks_for(s[2])) return 2;
    if (s[5] < ticks_for(s[2]) + widest) return 3;
    return s[6] < ticks_for(s[3]) ? 4 : 0;
}

/* ---- the table */

/* The place of a present train, else the first that no train has, else PLACES. */
static uint32_t place_for(const struct entry *table, uint32_t train) {
    uint32_t i, free = PLACES;
    for (i = 0; i < PLACES; i++) {
        if (table[i].standing == AWAY) {
            if (free == PLACES) free = i;
        } else if (table[i].train == train) {
            return i;
        }
    }
    return free;
}

static int is_train(uint32_t train) { return within(train, 1, LAST_TRAIN); }

static int is_before(uint32_t instant, uint32_t train, const struct first *f) {
    return !f->known || instant < f->instant || (instant == f->instant && train < f->train);
}

static void join(struct first *f, uint32_t instant, uint32_t train) {
    if (is_before(instant, train, f)) *f = (struct first){1, train, instant, 0};
}

static int reached(const struct first *f, uint32_t instant) { return f->known && f->instant <= instant; }

static int names(const struct first *f, uint32_t train) { return f->known && f->train == train; }

/* Who is due soonest of those present. */
static struct first soonest_in(const struct cabinet *c) {
    struct first f = {0, 0, 0, 0};
    uint32_t i;
    for (i = 0; i < PLACES; i++) {
        const struct entry *e = &c->table[i];
        if (e->standing != AWAY) join(&f, e->approach + c->settings[earliest_at(e->kind)], e->train);
    }
    return f;
}

/* Who is first at its latest of those coming. */
static struct first latest_in(const struct cabinet *c) {
    struct first f = {0, 0, 0, 0};
    uint32_t i;
    for (i = 0; i < PLACES; i++) {
        const struct entry *e = &c->table[i];
        if (e->standing == COMING) join(&f, e->approach + c->settings[earliest_at(e->kind) + 1], e->train);
    }
    return f;
}

/* ---- the cabinet */

static uint64_t look(struct cabinet *c) {
    uint32_t near = c->now + c->fall_ticks;
    if (!c->down) {
        if (!reached(&c->soonest, near)) return 0;
        c->down = 1;
        return 'D' << 8 | (uint64_t)c->soonest.train << 16;
    }
    if (reached(&c->soonest, near + c->rise_ticks + c->settings[4])) return 0;
    c->down = 0;
    return 'U' << 8;
}

static uint32_t kind_of(uint8_t letter) {
    switch (letter) {
    case 'A': return 1;
    case 'B': return 2;
    case 'E': return 3;
    case 'F': return 4;
    default: return 0;
    }
}

/* The entry of an approach that is taken; its refusal number otherwise. */
static uint64_t enter(struct cabinet *c, uint32_t kind, uint32_t train) {
    uint32_t place;
    if (!kind) return 15;
    if (!is_train(train)) return 5;
    place = place_for(c->table, train);
    if (place == PLACES) return 17;
    if (c->table[place].standing != AWAY) return 6;
    c->table[place] = (struct entry){train, kind, COMING, c->now};
    join(&c->soonest, c->now + c->settings[earliest_at(kind)], train);
    return 0;
}

/* A train with at least this standing goes; 9 where there is none. */
static uint64_t go(struct cabinet *c, uint32_t train, uint32_t least) {
    uint32_t place;
    if (!is_train(train)) return 5;
    place = place_for(c->table, train);
    if (place == PLACES || c->table[place].standing < least) return 9;
    c->table[place] = FREE;
    if (names(&c->soonest, train)) c->soonest = soonest_in(c);
    return look(c);
}

uint64_t cabinet_start(struct cabinet *c, const uint32_t settings[13]) {
    uint64_t number = check(settings);
    uint32_t i;
    if (number) return number;
    memset(c, 0, sizeof *c);
    memcpy(c->settings, settings, sizeof c->settings);
    c->fall_ticks = ticks_for(settings[2]);
    c->rise_ticks = ticks_for(settings[3]);
    for (i = 0; i < PLACES; i++) c->table[i] = FREE;
    return 0;
}

uint64_t cabinet_approach(struct cabinet *c, uint8_t letter, uint32_t train) {
    uint64_t number = enter(c, kind_of(letter), train);
    return number ? number : look(c);
}

uint64_t cabinet_leave(struct cabinet *c, uint32_t train) { return go(c, train, COMING); }

uint64_t cabinet_clock(struct cabinet *c) {
    if (c->now >= LAST_INSTANT) return 10;
    c->now++;
    return look(c);
}

/* ---- the bench */

uint64_t bench_start(struct bench *b, const uint32_t settings[13]) {
    uint64_t number = cabinet_start(&b->cabinet, settings);
    if (number) return number;
    b->angle = b->before = UP;
    b->latest = (struct first){0, 0, 0, 0};
    return 0;
}

uint64_t bench_approach(struct bench *b, uint8_t letter, uint32_t train) {
    struct cabinet *c = &b->cabinet;
    uint32_t kind = kind_of(letter);
    uint64_t number = enter(c, kind, train);
    if (number) return number;
    join(&b->latest, c->now + c->settings[earliest_at(kind) + 1], train);
    return look(c);
}

uint64_t bench_occupy(struct bench *b, uint32_t train) {
    struct cabinet *c = &b->cabinet;
    struct entry *e;
    uint32_t place;
    if (!is_train(train)) return 5;
    place = place_for(c->table, train);
    if (place == PLACES || c->table[place].standing != COMING) return 7;
    e = &c->table[place];
    if (c->now < e->approach + c->settings[earliest_at(e->kind)]) return 8;
    e->standing = INSIDE;
    if (names(&b->latest, train)) b->latest = latest_in(c);
    return 0;
}

uint64_t bench_leave(struct bench *b, uint32_t train) { return go(&b->cabinet, train, INSIDE); }

static int may_move(const struct bench *b, uint32_t angle) {
    uint32_t reach;
    if (b->cabinet.down) return angle <= (b->angle < b->cabinet.settings[2] ? 0 : b->angle - b->cabinet.settings[2]);
    reach = b->angle + b->cabinet.settings[3];
    return angle >= (reach > UP ? UP : reach);
}

uint64_t bench_clock(struct bench *b, float reading) {
    struct cabinet *c = &b->cabinet;
    float scaled = reading * 64.0f;
    uint32_t angle;
    if (c->now >= LAST_INSTANT) return 10;
    if (reached(&b->latest, c->now)) return 11;
    if (!(0.0f <= scaled && scaled <= 5760.0f)) return 12;
    angle = (uint32_t)scaled;
    if ((float)angle != scaled) return 12;
    if (!may_move(b, angle)) return 13;
    b->before = b->angle;
    b->angle = angle;
    c->now++;
    return look(c);
}
