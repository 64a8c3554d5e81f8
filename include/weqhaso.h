/* weqhaso.h: the proved crossing program as a static library, libexports.a. C99 and later, C++11 and later.
 *
 * Two ways in: one call a step, on a state that the caller keeps (a cabinet by the track, a bench in the test hall), and one call
 * for a whole list of steps or a whole text.
 *
 * Memory. The caller owns all of it. The library has no memory of its own and no global state, allocates nothing, keeps no pointer
 * after a call, and calls nothing but memcpy and memset. A call always ends, never blocks and has no condition on the numbers that it is given.
 * Its stack: WEQHASO_STEP_STACK, WEQHASO_START_STACK, WEQHASO_STACK.
 *
 * Slices. Each is passed as a pointer and a length, which counts elements. Pointers are aligned as C aligns what they point to;
 * null is allowed only with length 0. The slices of one call must not overlap. A refused call leaves every element as it was, and
 * no call changes an element that is not said to be written.
 *
 * Threads and interrupts. Calls are re-entrant. Calls on different slices may run at the same time; while one call has a state, no
 * other may touch it.
 *
 * Ticks. All times are whole ticks: instants are ticks since the start.
 */
#ifndef WEQHASO_H
#define WEQHASO_H

#include <stddef.h>
#include <stdint.h>

#ifdef __cplusplus
extern "C" {
#endif

/* ---- sizes and limits */

#define WEQHASO_CABINET_WORDS 405u        /* the state of a cabinet, 1,620 bytes */
#define WEQHASO_BENCH_WORDS 411u          /* the state of a bench, 1,644 bytes */
#define WEQHASO_SETTINGS 13u              /* values of the settings */
#define WEQHASO_TRAINS_PRESENT 96u        /* most trains present (coming or inside) at once */
#define WEQHASO_LAST_TRAIN 65535u         /* train numbers are 1 to this */
#define WEQHASO_LAST_INSTANT 9999999u     /* where the clock ends */
#define WEQHASO_ARM_UP 5760u              /* the arm at 90 degrees, in 64ths of a degree */
#define WEQHASO_POSE_PLACES 2u            /* of weqhaso_bench_pose and weqhaso_look */
#define WEQHASO_GATE_PLACES 1u            /* of weqhaso_bench_gate */
#define WEQHASO_STATE_PLACES 388u         /* of weqhaso_state */
#define WEQHASO_LOOK_PLACES 2u            /* of weqhaso_look */
#define WEQHASO_CURSOR_PLACES 7u          /* of weqhaso_start and the two that follow it */
#define WEQHASO_LINE_BYTES 16u            /* a record's line of 15 columns, with the byte 10 */
#define WEQHASO_OLD_LINE_BYTES 15u        /* a line of the older form, 14 columns */
#define WEQHASO_RECORD_LEAST 240u         /* bytes of a record without steps */
#define WEQHASO_REPORT_LONGEST 65535u     /* the longest text that is reported; a longer one gets a report that says so */
#define WEQHASO_REPORT_BYTES 156000u      /* enough for every report */

/* Bytes of stack (x86-64) that are more than enough: for a clock call, for any call of one step, pose and gate too, for the start of a
   cabinet or a bench, for any call. */
#define WEQHASO_CLOCK_STACK 128u
#define WEQHASO_STEP_STACK 640u
#define WEQHASO_START_STACK 3072u
#define WEQHASO_STACK 10240u

/* Bytes that are enough for the record of so many steps; for an older record of so many bytes in 15 columns, and back in 14. */
#define WEQHASO_RECORD_BYTES(steps) (WEQHASO_LINE_BYTES * (15u + 2u * (size_t)(steps)))
#define WEQHASO_TO_NEW_BYTES(bytes) (WEQHASO_LINE_BYTES * ((size_t)(bytes) / WEQHASO_OLD_LINE_BYTES + 6u))
#define WEQHASO_TO_OLD_BYTES(bytes) (WEQHASO_OLD_LINE_BYTES * ((size_t)(bytes) / WEQHASO_LINE_BYTES))

/* ---- settings: thirteen values in this order. Fewer are refused (1), what follows them is not read. D is 5,760 / fall and U is
   5,760 / rise, both rounded up: the ticks of a fall and of a rise. */

#define WEQHASO_EARLIEST 0u               /* kind 1, 1 to 60,000: fewest ticks from approach to being inside; above D */
#define WEQHASO_LATEST 1u                 /* kind 1, earliest to 60,000: most ticks */
#define WEQHASO_FALL 2u                   /* fall rate of the arm, 1 to 5,760, in 64ths of a degree a tick */
#define WEQHASO_RISE 3u                   /* rise rate, 1 to 5,760 */
#define WEQHASO_WORTHWHILE 4u             /* worthwhile open time, 0 to 60,000 */
#define WEQHASO_AHEAD 5u                  /* ahead margin, 1 to 60,000; at least D + the largest latest - earliest of a kind */
#define WEQHASO_BEHIND 6u                 /* behind margin, 1 to 60,000; at least U */
#define WEQHASO_EARLIEST_2 7u             /* earliest and latest of kinds 2 to 4, ranged as those of kind 1 */
#define WEQHASO_LATEST_2 8u
#define WEQHASO_EARLIEST_3 9u
#define WEQHASO_LATEST_3 10u
#define WEQHASO_EARLIEST_4 11u
#define WEQHASO_LATEST_4 12u

/* ---- letters, as a record has them */

#define WEQHASO_KIND_1 65u                /* 'A': approach of kind 1, loaded */
#define WEQHASO_KIND_2 66u                /* 'B': of kind 2, empty */
#define WEQHASO_KIND_3 69u                /* 'E': of kind 3, engine only */
#define WEQHASO_KIND_4 70u                /* 'F': of kind 4, rail car */
#define WEQHASO_OCCUPY 79u                /* 'O'; this and the next two in lists of steps only */
#define WEQHASO_LEAVE 76u                 /* 'L' */
#define WEQHASO_CLOCK 84u                 /* 'T' */

/* What the arm is to be told. */
#define WEQHASO_NOTHING 0u
#define WEQHASO_LOWER 68u                 /* 'D' */
#define WEQHASO_RAISE 85u                 /* 'U' */

/* ---- answers */

/* Of a step (uint64_t): refusal number + 256 * command + 65,536 * train. Refused, command and train are 0. */
#define WEQHASO_NUMBER(answer) ((uint32_t)((answer) & 255u))           /* WEQHASO_TAKEN or why not */
#define WEQHASO_COMMAND(answer) ((uint32_t)((answer) >> 8 & 255u))     /* WEQHASO_NOTHING, WEQHASO_LOWER or WEQHASO_RAISE */
#define WEQHASO_TRAIN(answer) ((uint32_t)((answer) >> 16))             /* the train of a lower, else 0 */

/* Of a call on a text (uint64_t): 256 * count + refusal number; the count is of bytes or is a line, counted from 1. */
#define WEQHASO_COUNT(answer) ((answer) >> 8)

/* Of weqhaso_bench_gate (uint64_t): 256 * gate, or 14. */
#define WEQHASO_GATE(answer) ((uint32_t)((answer) >> 8))
#define WEQHASO_GATE_UP 0u                /* command up, arm at 90 degrees */
#define WEQHASO_GATE_DOWN 1u              /* command down, arm at 0 */
#define WEQHASO_GATE_FALLING 2u           /* command down, arm above 0 */
#define WEQHASO_GATE_RISING 3u            /* command up, arm below 90 degrees */

/* Refusal numbers. Each call below names its own; where it meets several it gives the one that is named first. */
#define WEQHASO_TAKEN 0u
#define WEQHASO_SETTING_RANGE 1u          /* a setting is outside its range */
#define WEQHASO_EARLIEST_SMALL 2u         /* some kind's earliest is not above D */
#define WEQHASO_AHEAD_SMALL 3u            /* the ahead margin is below D + the largest latest - earliest of a kind */
#define WEQHASO_BEHIND_SMALL 4u           /* the behind margin is below U */
#define WEQHASO_NO_TRAIN 5u               /* train number 0 or above 65,535 */
#define WEQHASO_NOT_AWAY 6u               /* approach of a train that is present */
#define WEQHASO_NOT_COMING 7u             /* occupy of a train that is not coming */
#define WEQHASO_NOT_DUE 8u                /* occupy before the train's earliest after its approach */
#define WEQHASO_NOT_INSIDE 9u             /* leave of a train that is not inside (a cabinet: that is away) */
#define WEQHASO_CLOCK_END 10u             /* the clock is at 9,999,999 */
#define WEQHASO_TRAIN_LATE 11u            /* the clock: a coming train is at its latest */
#define WEQHASO_NO_READING 12u            /* the reading is not a whole number of 64ths of a degree from 0 to 90 degrees */
#define WEQHASO_ARM_MOVEMENT 13u          /* the arm moved less than its rate, or against its command */
#define WEQHASO_WRONG_LENGTH 14u          /* a state has another length than its own, or a buffer is too short */
#define WEQHASO_NO_STEP 15u               /* a letter names no step of this call; a text's line is not in the columns, missing or extra */
#define WEQHASO_NOT_RECORDED 16u          /* a line's instant, or its command, is not what the recorder would put there */
#define WEQHASO_TABLE_FULL 17u            /* approach while 96 trains are present */
#define WEQHASO_NOT_OLD 18u               /* the older form cannot hold this line */

/* ---- one call a step
 *
 * A start writes every word of a state: it may hold anything before. From then on only these calls may change it. Its words may be
 * copied, and saved and put back on the same machine. They belong to this version of the library and bear no mark of it: words that
 * another version left are not to be handed in, start afresh. Whatever words a call is given, it reads them as some cabinet or bench
 * and does no harm outside them; but what is proved holds only for words that a start left and only these calls have changed.
 *
 * A command is given once, by the step that causes it. `length` counts words: WEQHASO_CABINET_WORDS or WEQHASO_BENCH_WORDS. A clock
 * call does not look into the table of trains.
 *
 * Where things stand in the words, for displays: to be read, not written.
 */
#define WEQHASO_WORD_SETTING(i) (i)                    /* WEQHASO_EARLIEST to WEQHASO_LATEST_4 */
#define WEQHASO_WORD_FALL_TICKS 13u                    /* D */
#define WEQHASO_WORD_RISE_TICKS 14u                    /* U */
#define WEQHASO_WORD_INSTANT 15u
#define WEQHASO_WORD_COMMAND 16u                       /* 0 up, 1 down */
#define WEQHASO_WORD_SOONEST 17u                       /* 0 no train is present, 1 the soonest due one follows */
#define WEQHASO_WORD_SOONEST_TRAIN 18u
#define WEQHASO_WORD_SOONEST_DUE 19u                   /* its due instant; its high word, after a start always 0, is 20 */
#define WEQHASO_WORD_TRAIN(i) (21u + 4u * (i))         /* entry i, 0 to 95, of the table: the train's number, 0 where no train has it */
#define WEQHASO_WORD_KIND(i) (22u + 4u * (i))          /* 1 to 4 */
#define WEQHASO_WORD_STANDING(i) (23u + 4u * (i))      /* 0 away, 1 coming, 2 inside (a cabinet has no 2) */
#define WEQHASO_WORD_APPROACH(i) (24u + 4u * (i))      /* the instant of its approach */
/* a bench only */
#define WEQHASO_WORD_ANGLE 405u                        /* of the arm, in 64ths of a degree */
#define WEQHASO_WORD_ANGLE_BEFORE 406u                 /* before the last clock step */
#define WEQHASO_WORD_LATE 407u                         /* 0 no train is coming, 1 the one that is first at its latest follows */
#define WEQHASO_WORD_LATE_TRAIN 408u
#define WEQHASO_WORD_LATE_INSTANT 409u                 /* its latest instant; the high word is 410 */

/* The cabinet: it hears approach, leave and clock, and its answers tell the arm what to do. */

/* Clock 0, every train away, command up. 1, 2, 3, 4, 14. */
uint64_t weqhaso_cabinet_start(uint32_t *state, size_t length, const uint32_t *settings, size_t count);

/* A train passes the approach sensor; `letter` is WEQHASO_KIND_1 to WEQHASO_KIND_4. 15, 5, 6, 17, 14. */
uint64_t weqhaso_cabinet_approach(uint32_t *state, size_t length, uint8_t letter, uint32_t train);

/* A train has left the crossing. 5, 9, 14. */
uint64_t weqhaso_cabinet_leave(uint32_t *state, size_t length, uint32_t train);

/* One tick has passed. 10, 14. */
uint64_t weqhaso_cabinet_clock(uint32_t *state, size_t length);

/* The bench: trains, arm and the same cabinet together. */

/* Clock 0, every train away, command up, arm at 90 degrees. 1, 2, 3, 4, 14. */
uint64_t weqhaso_bench_start(uint32_t *state, size_t length, const uint32_t *settings, size_t count);

/* 15, 5, 6, 17, 14. */
uint64_t weqhaso_bench_approach(uint32_t *state, size_t length, uint8_t letter, uint32_t train);

/* A coming train goes inside; no command follows. 5, 7, 8, 14. */
uint64_t weqhaso_bench_occupy(uint32_t *state, size_t length, uint32_t train);

/* A train inside leaves. 5, 9, 14. */
uint64_t weqhaso_bench_leave(uint32_t *state, size_t length, uint32_t train);

/* One tick has passed, and the arm now stands at `reading` degrees. 10, 11, 12, 13, 14 (with another length: 12, 14). */
uint64_t weqhaso_bench_clock(uint32_t *state, size_t length, float reading);

/* Writes the angle and its change over the last clock step, in degrees, into the first two places. Answers 0, or 14 (also where there
   are fewer places). */
uint64_t weqhaso_bench_pose(const uint32_t *state, size_t length, float *pose, size_t places);

/* Answers 256 * gate, and writes the angle in degrees into the first place where it is falling or rising; 14 (also where there is no
   place). */
uint64_t weqhaso_bench_gate(const uint32_t *state, size_t length, float *angle, size_t places);

/* ---- a whole list of steps, from a fresh bench or cabinet
 *
 * The list: `letters`, beside each letter a train number (a clock step's is not read) and a reading in degrees (read for a clock step
 * only). Beside each step are written its refusal number (`answers`), command (`orders`) and train of a lower, else 0 (`named`). A
 * refused step changes nothing, and the list goes on. All of these have at least as many elements as there are letters.
 *
 * They answer the refusal number of the whole: 1 to 4 the settings, 15 a letter that names no step, 14 a slice too short.
 */

/* Letters A B E F O L T. Steps: 5 to 13, 17. */
uint8_t weqhaso_run(const uint32_t *settings, size_t settings_count,
                    const uint8_t *letters, size_t letters_count,
                    const uint32_t *numbers, size_t numbers_count,
                    const float *readings, size_t readings_count,
                    uint8_t *answers, size_t answers_count,
                    uint8_t *orders, size_t orders_count,
                    uint32_t *named, size_t named_count);

/* The same, and the bench after the list in the first WEQHASO_STATE_PLACES of `state`: instant, angle, angle before, command (0 up, 1
   down), and for each of the 96 entries of the table the train's number, kind, standing (1 coming, 2 inside) and instant of approach,
   four zeros where no train has it. These are not the words of a bench above. */
uint8_t weqhaso_state(const uint32_t *settings, size_t settings_count,
                      const uint8_t *letters, size_t letters_count,
                      const uint32_t *numbers, size_t numbers_count,
                      const float *readings, size_t readings_count,
                      uint8_t *answers, size_t answers_count,
                      uint8_t *orders, size_t orders_count,
                      uint32_t *named, size_t named_count,
                      uint32_t *state, size_t state_count);

/* As weqhaso_run, and what the bench shows after the list: in `pose` the angle and its change in degrees, in `look` the gate
   (WEQHASO_GATE_UP to WEQHASO_GATE_RISING) and how many trains are present. */
uint8_t weqhaso_look(const uint32_t *settings, size_t settings_count,
                     const uint8_t *letters, size_t letters_count,
                     const uint32_t *numbers, size_t numbers_count,
                     const float *readings, size_t readings_count,
                     uint8_t *answers, size_t answers_count,
                     uint8_t *orders, size_t orders_count,
                     uint32_t *named, size_t named_count,
                     float *pose, size_t pose_count,
                     uint32_t *look, size_t look_count);

/* A cabinet alone: letters A B E F L T. Steps: 5, 6, 9, 10, 17. */
uint8_t weqhaso_cabinet(const uint32_t *settings, size_t settings_count,
                        const uint8_t *letters, size_t letters_count,
                        const uint32_t *numbers, size_t numbers_count,
                        uint8_t *answers, size_t answers_count,
                        uint8_t *orders, size_t orders_count,
                        uint32_t *named, size_t named_count);

/* As weqhaso_run, and the record of the accepted steps in `record`, which has WEQHASO_RECORD_LEAST bytes or more. A step without space
   for its lines is refused, 14. Answers 256 * bytes of the record + the refusal number of the whole. */
uint64_t weqhaso_record(const uint32_t *settings, size_t settings_count,
                        const uint8_t *letters, size_t letters_count,
                        const uint32_t *numbers, size_t numbers_count,
                        const float *readings, size_t readings_count,
                        uint8_t *answers, size_t answers_count,
                        uint8_t *orders, size_t orders_count,
                        uint32_t *named, size_t named_count,
                        uint8_t *record, size_t record_bytes);

/* ---- texts */

/* 0 where the text is an accepted record, else 256 * line at fault + refusal number: 1 to 13, 15, 16, 17. */
uint64_t weqhaso_read(const uint8_t *text, size_t bytes);

/* A record of 14 columns turned into 15 (WEQHASO_TO_NEW_BYTES are enough), and one of 15 columns into 14 (WEQHASO_TO_OLD_BYTES): 256 *
   bytes written, or 256 * line at fault + refusal number: as weqhaso_read, then 18 (to the older form only), then 14. */
uint64_t weqhaso_to_new(const uint8_t *text, size_t bytes, uint8_t *out, size_t space);
uint64_t weqhaso_to_old(const uint8_t *text, size_t bytes, uint8_t *out, size_t space);

/* The report of a text: 256 * bytes written, or 14 where `out` is too short. A refused text has a report too, one line that says why. */
uint64_t weqhaso_report(const uint8_t *text, size_t bytes, uint8_t *out, size_t space);

/* The stretches of an accepted record, one by one. weqhaso_start writes the cursor before the first step; each call then goes on from the
   cursor in places 0 to 3, writes the one after it there, and into place 4 what was found (0 none, 1 a stretch that ended, 2 one that
   still runs at the end), into 5 and 6 its first and last instant. They answer 0, or 14 where there are fewer than
   WEQHASO_CURSOR_PLACES. Use one cursor for one of the two sorts. */
uint8_t weqhaso_start(size_t *places, size_t places_count);
/* arm below 90 degrees */
uint8_t weqhaso_next_lowered(const uint8_t *text, size_t bytes, size_t *places, size_t places_count);
/* some train inside; stretches that touch come one by one, the report joins them */
uint8_t weqhaso_next_occupied(const uint8_t *text, size_t bytes, size_t *places, size_t places_count);

/* How many instants of an accepted record have the arm below 90 degrees. */
size_t weqhaso_below(const uint8_t *text, size_t bytes);

#ifdef __cplusplus
}
#endif
#endif
