/* A cabinet driven by lines on standard input: `A 7`, `B 7`, `E 7`, `F 7` (train 7, of kind 1 to 4, approaches), `L 7` (it has left)
 * and `.` (a tick has passed). Each command is printed as it is given: instant, D or U, and the train of a lower. A refusal goes to
 * standard error.
 *
 *   cc -std=c99 -I include examples/cabinet.c target/staticlib/libexports.a -o target/cabinet
 *   target/cabinet < examples/cabinet.in
 */
#include "weqhaso.h"
#include <stdio.h>
#include <stdlib.h>
#include <string.h>

static const uint32_t settings[WEQHASO_SETTINGS] = {3, 4, 2880, 5760, 0, 3, 1, 3, 4, 3, 4, 3, 4};

static const char *in_words(uint32_t number) {
    switch (number) {
    case WEQHASO_NO_TRAIN: return "train numbers are 1 to 65535";
    case WEQHASO_NOT_AWAY: return "approach of a train that is present";
    case WEQHASO_NOT_INSIDE: return "leave of a train that is away";
    case WEQHASO_CLOCK_END: return "the clock has ended";
    case WEQHASO_NO_STEP: return "not a step of a cabinet";
    case WEQHASO_TABLE_FULL: return "96 trains are present";
    default: return "settings or state";
    }
}

/* The step that a line names; 15 where it names none. */
static uint64_t step(uint32_t *cabinet, const char *line) {
    char *end;
    unsigned long number;
    uint32_t train;
    if (strcmp(line, ".\n") == 0) return weqhaso_cabinet_clock(cabinet, WEQHASO_CABINET_WORDS);
    if (line[0] == '\0' || line[1] != ' ' || line[2] < '0' || line[2] > '9') return WEQHASO_NO_STEP;
    number = strtoul(line + 2, &end, 10);
    if (strcmp(end, "\n") != 0) return WEQHASO_NO_STEP;
    train = number > WEQHASO_LAST_TRAIN ? 0 : (uint32_t)number;
    if (line[0] == 'L') return weqhaso_cabinet_leave(cabinet, WEQHASO_CABINET_WORDS, train);
    return weqhaso_cabinet_approach(cabinet, WEQHASO_CABINET_WORDS, (uint8_t)line[0], train);
}

/* The rest of a line that did not fit is no step of its own. */
static void skip(FILE *lines) {
    int byte = 0;
    while (byte != '\n' && byte != EOF) byte = getc(lines);
}

/* A cabinet is its words: whoever has several arrays has several cabinets. */
static void drive(uint32_t *cabinet, FILE *lines) {
    char line[64];
    unsigned at;
    for (at = 1; fgets(line, sizeof line, lines) != NULL; at++) {
        uint64_t answer = step(cabinet, line);
        if (strchr(line, '\n') == NULL) skip(lines);
        if (WEQHASO_NUMBER(answer) != WEQHASO_TAKEN) {
            fprintf(stderr, "line %u: refused %u: %s\n", at, (unsigned)WEQHASO_NUMBER(answer), in_words(WEQHASO_NUMBER(answer)));
        } else if (WEQHASO_COMMAND(answer) != WEQHASO_NOTHING) {
            printf("%u %c %u\n", (unsigned)cabinet[WEQHASO_WORD_INSTANT], (char)WEQHASO_COMMAND(answer), (unsigned)WEQHASO_TRAIN(answer));
            fflush(stdout);
        }
    }
}

int main(void) {
    uint32_t cabinet[WEQHASO_CABINET_WORDS];
    uint64_t answer = weqhaso_cabinet_start(cabinet, WEQHASO_CABINET_WORDS, settings, WEQHASO_SETTINGS);
    if (WEQHASO_NUMBER(answer) != WEQHASO_TAKEN) {
        fprintf(stderr, "the settings are refused: %u\n", (unsigned)WEQHASO_NUMBER(answer));
        return 1;
    }
    drive(cabinet, stdin);
    return 0;
}
