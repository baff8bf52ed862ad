/* The tables and lists of docs/01-scope.md as bytes, for calls.c. */
#ifndef TABLES_H
#define TABLES_H

#include <stdint.h>

#define LOW_FIRST(x) (x) & 0xff, (x) >> 8 & 0xff

/* One frame of a table, and one request of a list. */
#define FRAME(task, kind, e, d, p) (task), (kind), LOW_FIRST(e), LOW_FIRST(d), LOW_FIRST(p)
#define REQUEST(task, frame, arrival) (task), (frame), 0, 0, LOW_FIRST(arrival), LOW_FIRST((arrival) >> 16)

/* A, whose first record is 00 03 01 00 02 00 03 00; then A with (1,4,12), and B, which is A with (1,2,10). */
#define A_FRAMES FRAME(0, 3, 1, 2, 3), FRAME(0, 3, 2, 2, 2), FRAME(0, 3, 5, 8, 3), FRAME(0, 3, 1, 5, 4)
static const uint8_t A[] = {A_FRAMES};
static const uint8_t A_1_4_12[] = {A_FRAMES, FRAME(1, 1, 1, 4, 12)};
static const uint8_t B[] = {A_FRAMES, FRAME(1, 1, 1, 2, 10)};

static const uint8_t F[] = {
    FRAME(0, 2, 1, 3, 3),   FRAME(1, 2, 2, 9, 9),   FRAME(2, 2, 3, 18, 18), FRAME(2, 2, 1, 18, 18),
    FRAME(3, 2, 2, 20, 20), FRAME(3, 2, 1, 20, 20), FRAME(4, 2, 6, 60, 60), FRAME(4, 2, 3, 60, 60),
};

/* The task of K7, alone and with (2,5,10). */
#define K7_FRAMES FRAME(0, 3, 2, 2, 2), FRAME(0, 3, 1, 20, 1), FRAME(0, 3, 2, 2, 10)
static const uint8_t K7[] = {K7_FRAMES};
static const uint8_t K7_2_5_10[] = {K7_FRAMES, FRAME(1, 1, 2, 5, 10)};

/* Sporadic tasks. */
static const uint8_t ONE[] = {FRAME(0, 1, 1, 1, 1)};
static const uint8_t TWO[] = {FRAME(0, 1, 1, 1, 1), FRAME(1, 1, 1, 1, 1)};
static const uint8_t LONGEST[] = {FRAME(0, 1, 65535, 65535, 65535)};
static const uint8_t LIMIT[] = {FRAME(0, 1, 32769, 65535, 1)};

/* Overloaded at 65,536 with margin -2, as LIMIT is, and undecided, as (21846,65535,1) is. A verdict on those two takes
 * seconds, for a request comes at every tick; here at most two come. */
static const uint8_t LIMIT_OF_TWO[] = {FRAME(0, 3, 32769, 65535, 1), FRAME(0, 3, 32769, 65535, 65535)};
static const uint8_t UNDECIDED[] = {FRAME(0, 1, 65535, 65535, 40000)};

/* Task 1 is late: its values are 2 and 4, and 4 passes its D of 3. Task 2 is late at once, with E above D. */
static const uint8_t LATE[] = {FRAME(0, 1, 2, 3, 3), FRAME(1, 1, 2, 3, 5), FRAME(2, 1, 5, 2, 9)};

/* K4's list, and the list of K7 with (2,5,10). */
static const uint8_t B_LIST[] = {REQUEST(0, 1, 0), REQUEST(1, 0, 0)};
static const uint8_t K7_LIST[] = {REQUEST(0, 0, 0), REQUEST(1, 0, 0), REQUEST(0, 1, 2), REQUEST(0, 2, 3)};

/* No byte: a pointer that is not NULL, and a length of 0. */
static const uint8_t NOTHING[1] = {0xee};

#endif
