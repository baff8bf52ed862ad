/* The bench of limpidorsa.h, loaded and ticked by its caller, and the tick of states that no load gives. */
#include "limpidorsa.h"

#include "check.h"
#include "tables.h"

/* K5: B's list, tick by tick, to the miss. Equal deadlines: the lower task runs first. */
static void ticked_to_a_miss(void)
{
    struct limpidorsa_state wanted = {.left = {2, 1}, .due = {2, 2}, .task = {0, 1}};
    struct limpidorsa_loaded loaded = limpidorsa_load(BYTES(B), BYTES(B_LIST));
    CHECK(loaded, loaded, answered(), 2, wanted);

    struct limpidorsa_state bench = loaded.state;
    while (wanted.left[0] > 0) {
        bench = limpidorsa_tick(bench);
        wanted.tick++;
        wanted.left[0]--;
        CHECK(state, bench, wanted);
    }
    bench = limpidorsa_tick(bench);
    wanted.outcome = LIMPIDORSA_MISSED;
    wanted.index = 1;
    CHECK(state, bench, wanted);
    CHECK(number, bench.tick, 2);
    CHECK(state, limpidorsa_tick(bench), wanted);
}

/* The same list and one request more of a table that fits: which record runs at each tick, then all met. At tick 3
 * nothing is there to run. */
static void ticked_to_all_met(void)
{
    enum { IDLE = 3 };
    static const uint8_t list[] = {REQUEST(0, 1, 0), REQUEST(1, 0, 0), REQUEST(0, 2, 4)};
    static const int runs[] = {0, 0, 1, IDLE, 2, 2, 2, 2, 2};
    struct limpidorsa_state wanted = {
        .left = {2, 1, 5}, .due = {2, 4, 12}, .arrive = {0, 0, 4}, .release = {0, 0, 4}, .task = {0, 1, 0}};
    struct limpidorsa_loaded loaded = limpidorsa_load(BYTES(A_1_4_12), BYTES(list));
    CHECK(loaded, loaded, answered(), 3, wanted);

    struct limpidorsa_state bench = loaded.state;
    for (size_t i = 0; i < sizeof runs / sizeof runs[0]; i++) {
        bench = limpidorsa_tick(bench);
        wanted.tick++;
        if (runs[i] != IDLE)
            wanted.left[runs[i]]--;
        CHECK(state, bench, wanted);
    }
    bench = limpidorsa_tick(bench);
    wanted.outcome = LIMPIDORSA_ALL_MET;
    CHECK(state, bench, wanted);
    CHECK(state, limpidorsa_tick(bench), wanted);
    CHECK(ending, limpidorsa_replay(BYTES(A_1_4_12), BYTES(list)), answered(), false, bench.tick, 0);
}

/* No run is longer than that of one request that arrives last and has its deadline last. */
static void longest_run(void)
{
    static const uint8_t list[] = {REQUEST(0, 0, 65535)};
    struct limpidorsa_state wanted = {
        .tick = 131070, .outcome = LIMPIDORSA_ALL_MET, .due = {131070}, .arrive = {65535}, .release = {65535}};
    struct limpidorsa_state bench = limpidorsa_load(BYTES(LONGEST), BYTES(list)).state;
    int64_t calls = 0;
    while (bench.outcome == LIMPIDORSA_RUNNING && calls < 200000) {
        bench = limpidorsa_tick(bench);
        calls++;
    }
    CHECK(number, calls, 131071);
    CHECK(state, bench, wanted);
    CHECK(ending, limpidorsa_replay(BYTES(LONGEST), BYTES(list)), answered(), false, 131070, 0);
}

/* The bench of an empty list and of a refused one has nothing to do: it is all met at once. */
static void ticked_with_nothing_to_do(void)
{
    struct limpidorsa_state wanted = {.outcome = LIMPIDORSA_RUNNING};
    struct limpidorsa_loaded loaded = limpidorsa_load(BYTES(A), NOTHING, 0);
    CHECK(loaded, loaded, answered(), 0, wanted);
    wanted.outcome = LIMPIDORSA_ALL_MET;
    CHECK(state, limpidorsa_tick(loaded.state), wanted);
    CHECK(state, limpidorsa_tick(limpidorsa_load(BYTES(A), NOTHING, 1).state), wanted);
}

/* A state in which every field is some number that no load gives. */
static struct limpidorsa_state foreign(void)
{
    struct limpidorsa_state state = {.tick = 131070, .outcome = 7, .index = SIZE_MAX};
    for (uint32_t i = 0; i < LIMPIDORSA_MOST_REQUESTS; i++) {
        state.left[i] = UINT32_MAX - i;
        state.due[i] = UINT32_MAX - 1000 * i;
        state.arrive[i] = 131070 - i;
        state.release[i] = 131070 - i / 2;
        state.task[i] = (uint8_t)(255 - i);
    }
    return state;
}

static void foreign_states(void)
{
    /* Any outcome but LIMPIDORSA_RUNNING is a bench that has stopped. */
    struct limpidorsa_state state = foreign();
    CHECK(state, limpidorsa_tick(state), state);
    state.outcome = UINT8_MAX;
    CHECK(state, limpidorsa_tick(state), state);

    /* One that runs is taken at tick 131,070, but not past it: here the last request has the earliest deadline. */
    state.outcome = LIMPIDORSA_RUNNING;
    state.index = 0;
    struct limpidorsa_state wanted = state;
    wanted.tick = 131071;
    wanted.left[127]--;
    CHECK(state, limpidorsa_tick(state), wanted);
    CHECK(state, limpidorsa_tick(wanted), wanted);
    wanted.tick = UINT32_MAX;
    CHECK(state, limpidorsa_tick(wanted), wanted);

    /* Past the last tick no field changes. Before that a bench that runs on has no record that missed: index is 0. */
    struct limpidorsa_state with_index = wanted;
    with_index.index = 9;
    CHECK(state, limpidorsa_tick(with_index), with_index);
    with_index = state;
    with_index.index = 9;
    CHECK(state, limpidorsa_tick(with_index), limpidorsa_tick(state));

    /* Of two that are late, the record with the lower index is named. */
    state.due[126] = 0;
    state.due[127] = 131070;
    wanted = state;
    wanted.outcome = LIMPIDORSA_MISSED;
    wanted.index = 126;
    CHECK(state, limpidorsa_tick(state), wanted);
}

void benches(void)
{
    ticked_to_a_miss();
    ticked_to_all_met();
    longest_run();
    ticked_with_nothing_to_do();
    foreign_states();
}
