/* The rules of document 01 with requests Three, Four, Six and Eight of document 02 in plain C, in place: what the library's calls, one
   a step, are measured against. The fields are those of the library's words, in their order. */
#include <stdint.h>

/* The train that is first to reach an instant of its own, of equals the lowest number. */
struct first {
    uint32_t known, train, instant, high;
};

struct entry {
    uint32_t train, kind, standing, approach;
};

struct cabinet {
    uint32_t settings[13], fall_ticks, rise_ticks, now, down;
    struct first soonest;
    struct entry table[96];
};

struct bench {
    struct cabinet cabinet;
    uint32_t angle, before;
    struct first latest;
};

uint64_t cabinet_start(struct cabinet *c, const uint32_t settings[13]);
uint64_t cabinet_approach(struct cabinet *c, uint8_t letter, uint32_t train);
uint64_t cabinet_leave(struct cabinet *c, uint32_t train);
uint64_t cabinet_clock(struct cabinet *c);
uint64_t bench_start(struct bench *b, const uint32_t settings[13]);
uint64_t bench_approach(struct bench *b, uint8_t letter, uint32_t train);
uint64_t bench_occupy(struct bench *b, uint32_t train);
uint64_t bench_leave(struct bench *b, uint32_t train);
uint64_t bench_clock(struct bench *b, float reading);
