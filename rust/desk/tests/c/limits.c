/* The limits of limpidorsa.h: the numbers that docs/01-scope.md says, and for each the last call that is answered and
 * the first that is refused. */
#include "limpidorsa.h"

#include "check.h"
#include "tables.h"

#include <string.h>

static void numbers_of_the_document(void)
{
    CHECK(number, LIMPIDORSA_HORIZON, 65536);
    CHECK(number, LIMPIDORSA_LAST_ARRIVAL, 65535);
    CHECK(number, LIMPIDORSA_LAST_TICK, 131070);
    CHECK(number, LIMPIDORSA_MOST_RECORDS, 64);
    CHECK(number, LIMPIDORSA_MOST_TABLE_BYTES, 512);
    CHECK(number, LIMPIDORSA_MOST_REQUESTS, 128);
    CHECK(number, LIMPIDORSA_MOST_LIST_BYTES, 1024);
}

/* (1,1,1) asks for one unit at every tick. */
static void horizon(void)
{
    CHECK(amount, limpidorsa_demand(BYTES(ONE), 0, LIMPIDORSA_HORIZON), answered(), LIMPIDORSA_HORIZON);
    CHECK(amount, limpidorsa_demand(BYTES(ONE), 0, LIMPIDORSA_HORIZON + 1), refused(7, 0), 0);
    CHECK(amount, limpidorsa_work(BYTES(ONE), 0, LIMPIDORSA_HORIZON), answered(), LIMPIDORSA_HORIZON);
    CHECK(amount, limpidorsa_work(BYTES(ONE), 0, LIMPIDORSA_HORIZON + 1), refused(7, 0), 0);
    CHECK(margin, limpidorsa_margin(BYTES(ONE), LIMPIDORSA_HORIZON), answered(), 0);
    CHECK(margin, limpidorsa_margin(BYTES(ONE), LIMPIDORSA_HORIZON + 1), refused(7, 0), 0);
}

/* Tasks of 16 frames each, and one record too many. */
static void most_records(void)
{
    static uint8_t table[LIMPIDORSA_MOST_TABLE_BYTES + 8];
    for (uint8_t i = 0; i < LIMPIDORSA_MOST_RECORDS + 1; i++)
        memcpy(table + i * 8, (const uint8_t[]){FRAME(i / 16, 3, 1, 1000, 1000)}, 8);
    CHECK(shape, limpidorsa_read(table, LIMPIDORSA_MOST_TABLE_BYTES), answered(), 4, LIMPIDORSA_MOST_RECORDS);
    CHECK(shape, limpidorsa_read(BYTES(table)), refused(1, 0), 0, 0);
}

/* (1,1,1) requested at each tick, and one record too many. */
static void most_requests(void)
{
    static uint8_t list[LIMPIDORSA_MOST_LIST_BYTES + 8];
    for (uint32_t i = 0; i < LIMPIDORSA_MOST_REQUESTS + 1; i++)
        memcpy(list + i * 8, (const uint8_t[]){REQUEST(0, 0, i)}, 8);
    CHECK(listed, limpidorsa_list(BYTES(ONE), list, LIMPIDORSA_MOST_LIST_BYTES), answered(), LIMPIDORSA_MOST_REQUESTS);
    CHECK(listed, limpidorsa_list(BYTES(ONE), BYTES(list)), refused(10, 0), 0);
    CHECK(ending, limpidorsa_replay(BYTES(ONE), list, LIMPIDORSA_MOST_LIST_BYTES), answered(), false,
          LIMPIDORSA_MOST_REQUESTS, 0);
}

/* The last arrival, and one later; the longest run, and a state past its end. */
static void last_arrival_and_last_tick(void)
{
    static const uint8_t last[] = {REQUEST(0, 0, LIMPIDORSA_LAST_ARRIVAL)};
    static const uint8_t later[] = {REQUEST(0, 0, LIMPIDORSA_LAST_ARRIVAL + 1)};
    CHECK(listed, limpidorsa_list(BYTES(LONGEST), BYTES(last)), answered(), 1);
    CHECK(listed, limpidorsa_list(BYTES(LONGEST), BYTES(later)), refused(10, 0), 0);
    CHECK(ending, limpidorsa_replay(BYTES(LONGEST), BYTES(last)), answered(), false, LIMPIDORSA_LAST_TICK, 0);

    struct limpidorsa_state bench = {.tick = LIMPIDORSA_LAST_TICK};
    struct limpidorsa_state wanted = {.tick = LIMPIDORSA_LAST_TICK, .outcome = LIMPIDORSA_ALL_MET};
    CHECK(state, limpidorsa_tick(bench), wanted);
    bench.tick = LIMPIDORSA_LAST_TICK + 1;
    CHECK(state, limpidorsa_tick(bench), bench);
}

void limits(void)
{
    numbers_of_the_document();
    horizon();
    most_records();
    most_requests();
    last_arrival_and_last_tick();
}
