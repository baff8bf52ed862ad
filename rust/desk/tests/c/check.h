/* What calls.c holds the answers to: for each answer of limpidorsa.h a function that checks every field of it. */
#ifndef CHECK_H
#define CHECK_H

#include "limpidorsa.h"

#include <stdio.h>

/* How many checks were made, and how many of them failed; calls.c has them. */
extern unsigned long checks, failed;

/* The calls of lists.c, of bench.c and of limits.c. */
void overload_lists(void);
void lists_and_replays(void);
void benches(void);
void limits(void);

/* A pointer and a length: the two arguments that a slice is. */
#define BYTES(array) array, sizeof array

/* Where a check stands, and the call that it is about. */
struct site {
    const char *file;
    int line;
    const char *call;
};

/* CHECK(kind, call, wanted..) hands the answer of a call and what its fields have to be to check_<kind>. */
#define CHECK(kind, call, ...) check_##kind((struct site){__FILE__, __LINE__, #call}, call, __VA_ARGS__)

/* One field of `found`. Every number of the header fits into 64 bits, so no two of a type become the same. */
#define FIELD(name, wanted) same(at, #name, (int64_t)found.name, (int64_t)(wanted))

static inline void same(struct site at, const char *field, int64_t found, int64_t wanted)
{
    checks++;
    if (found == wanted)
        return;
    failed++;
    printf("%s:%d: %s: %s is %lld, not %lld\n", at.file, at.line, at.call, field, (long long)found, (long long)wanted);
}

static inline struct limpidorsa_refusal refused(uint8_t number, size_t index)
{
    return (struct limpidorsa_refusal){.number = number, .index = index};
}

static inline struct limpidorsa_refusal answered(void)
{
    return refused(0, 0);
}

#define REFUSAL(wanted)                                                                      \
    FIELD(refusal.number, (wanted).number), FIELD(refusal.index, (wanted).index),            \
        same(at, "refusal.number is one of the header's",                                    \
             found.refusal.number <= LIMPIDORSA_LAST_REFUSAL, 1)

/* A number that is no answer: how many bytes differ, or how many calls were made. */
static inline void check_number(struct site at, int64_t found, int64_t wanted)
{
    same(at, "the number", found, wanted);
}

static inline void check_shape(struct site at, struct limpidorsa_shape found, struct limpidorsa_refusal no,
                               size_t tasks, size_t records)
{
    REFUSAL(no), FIELD(tasks, tasks), FIELD(records, records);
}

static inline void check_amount(struct site at, struct limpidorsa_amount found, struct limpidorsa_refusal no,
                                uint64_t amount)
{
    REFUSAL(no), FIELD(amount, amount);
}

static inline void check_margin(struct site at, struct limpidorsa_margin found, struct limpidorsa_refusal no,
                                int64_t margin)
{
    REFUSAL(no), FIELD(margin, margin);
}

static inline void check_window(struct site at, struct limpidorsa_window found, struct limpidorsa_refusal no,
                                bool closes, uint64_t window)
{
    REFUSAL(no), FIELD(closes, closes), FIELD(window, window);
}

/* Of the start frames only the first is ever above 0 here; the other fifteen have to be 0. */
static inline void check_verdict(struct site at, struct limpidorsa_verdict found, struct limpidorsa_refusal no,
                                 uint8_t verdict, uint64_t t, int64_t margin, uint64_t window,
                                 uint8_t first_start)
{
    REFUSAL(no), FIELD(verdict, verdict), FIELD(t, t), FIELD(margin, margin), FIELD(window, window);
    for (int i = 0; i < 16; i++)
        FIELD(starts[i], i == 0 ? first_start : 0);
}

static inline void check_response(struct site at, struct limpidorsa_response found, struct limpidorsa_refusal no,
                                  bool late, uint64_t value, uint64_t round)
{
    REFUSAL(no), FIELD(late, late), FIELD(value, value), FIELD(round, round);
}

static inline void check_written(struct site at, struct limpidorsa_written found, struct limpidorsa_refusal no,
                                 size_t bytes)
{
    REFUSAL(no), FIELD(bytes, bytes);
}

static inline void check_listed(struct site at, struct limpidorsa_listed found, struct limpidorsa_refusal no,
                                size_t records)
{
    REFUSAL(no), FIELD(records, records);
}

static inline void check_ending(struct site at, struct limpidorsa_ending found, struct limpidorsa_refusal no,
                                bool missed, uint32_t tick, size_t index)
{
    REFUSAL(no), FIELD(missed, missed), FIELD(tick, tick), FIELD(index, index);
}

static inline void check_state(struct site at, struct limpidorsa_state found, struct limpidorsa_state wanted)
{
    FIELD(tick, wanted.tick), FIELD(outcome, wanted.outcome), FIELD(index, wanted.index);
    for (int i = 0; i < LIMPIDORSA_MOST_REQUESTS; i++) {
        FIELD(left[i], wanted.left[i]), FIELD(due[i], wanted.due[i]);
        FIELD(arrive[i], wanted.arrive[i]), FIELD(release[i], wanted.release[i]);
        FIELD(task[i], wanted.task[i]);
    }
}

static inline void check_loaded(struct site at, struct limpidorsa_loaded found, struct limpidorsa_refusal no,
                                size_t records, struct limpidorsa_state state)
{
    REFUSAL(no), FIELD(records, records);
    check_state(at, found.state, state);
}

#endif
