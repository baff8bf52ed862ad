/* The calls of limpidorsa.h about request lists: the overload list, list, replay, and load where it refuses. */
#include "limpidorsa.h"

#include "check.h"
#include "tables.h"

#include <string.h>

enum { STAYS = 0xee, LENGTH = 20, GUARD = 8 };

/* A buffer with guard bytes before and after it, which no call may change. */
static uint8_t guarded[GUARD + LENGTH + GUARD];
static uint8_t *const buffer = guarded + GUARD;

/* Fills all of it, and asks for the overload list from the place on. */
static struct limpidorsa_written overload(const uint8_t *table, size_t table_len, size_t place)
{
    memset(guarded, STAYS, sizeof guarded);
    return limpidorsa_overload(table, table_len, buffer, LENGTH, place);
}

/* How many bytes are not as they have to be: B's list from the place on, and the rest unchanged. */
static int64_t wrong_bytes(size_t place, size_t bytes)
{
    int64_t wrong = 0;
    for (size_t i = 0; i < sizeof guarded; i++) {
        bool in_list = GUARD + place <= i && i < GUARD + place + bytes;
        wrong += guarded[i] != (in_list ? B_LIST[i - GUARD - place] : STAYS);
    }
    return wrong;
}

/* A buffer of just so many bytes is enough, and one byte less is not. */
static void size_is(const uint8_t *table, size_t table_len, size_t bytes)
{
    static uint8_t room[32];
    CHECK(written, limpidorsa_overload_size(table, table_len), answered(), bytes);
    CHECK(written, limpidorsa_overload(table, table_len, room, bytes, 0), answered(), bytes);
    CHECK(written, limpidorsa_overload(table, table_len, room, bytes - 1, 0), refused(12, 0), 0);
}

static void sizes_of_overload_lists(void)
{
    size_is(BYTES(B), 16);
    size_is(BYTES(TWO), 16);
    size_is(BYTES(K7_2_5_10), 32);
    size_is(BYTES(LIMIT_OF_TWO), 16);
    CHECK(written, limpidorsa_overload_size(BYTES(A)), refused(13, 0), 0);
    CHECK(written, limpidorsa_overload_size(BYTES(UNDECIDED)), refused(13, 0), 0);
    CHECK(written, limpidorsa_overload_size(NOTHING, 0), refused(1, 0), 0);
}

static void overload_list_of_b(void)
{
    for (size_t place = 0; place <= 4; place++) {
        CHECK(written, overload(BYTES(B), place), answered(), 16);
        CHECK(number, wrong_bytes(place, 16), 0);
    }
    static const size_t too_late[] = {5, 19, 20, 21, SIZE_MAX - 15, SIZE_MAX};
    for (size_t i = 0; i < sizeof too_late / sizeof too_late[0]; i++) {
        CHECK(written, overload(BYTES(B), too_late[i]), refused(12, 0), 0);
        CHECK(number, wrong_bytes(0, 0), 0);
    }
    /* A table that is not overloaded: 13, whatever the place. */
    CHECK(written, overload(BYTES(A), 0), refused(13, 0), 0);
    CHECK(number, wrong_bytes(0, 0), 0);
    CHECK(written, overload(BYTES(UNDECIDED), SIZE_MAX), refused(13, 0), 0);
    CHECK(number, wrong_bytes(0, 0), 0);
    /* No buffer at all is a pointer that is not NULL, and a length of 0. */
    CHECK(written, limpidorsa_overload(BYTES(B), buffer, 0, 0), refused(12, 0), 0);
    CHECK(number, wrong_bytes(0, 0), 0);
}

/* Eight tasks of eight frames (1,1023,1), the last of them (1,8,1): at 1,023 every task has 1,016 requests, one a tick,
 * and one unit too much is asked. The writer has no limit of 128 records; the bench has. */
static void long_overload_list(void)
{
    enum { RECORDS = 8 * 1016 };
    static uint8_t list[RECORDS * 8 + 1];
    uint8_t table[64 * 8];
    for (uint8_t i = 0; i < 64; i++)
        memcpy(table + i * 8, (const uint8_t[]){FRAME(i / 8, 3, 1, i % 8 == 7 ? 8 : 1023, 1)}, 8);
    CHECK(verdict, limpidorsa_verdict(BYTES(table)), answered(), LIMPIDORSA_OVERLOADED, 1023, -1, 0, 0);

    CHECK(written, limpidorsa_overload_size(BYTES(table)), answered(), RECORDS * 8);
    memset(list, STAYS, sizeof list);
    CHECK(written, limpidorsa_overload(BYTES(table), BYTES(list), 2), refused(12, 0), 0);
    CHECK(number, list[0] == STAYS && memcmp(list, list + 1, sizeof list - 1) == 0, true);
    CHECK(written, limpidorsa_overload(BYTES(table), BYTES(list), 0), answered(), RECORDS * 8);
    int64_t wrong = list[RECORDS * 8] != STAYS;
    for (uint32_t i = 0; i < RECORDS; i++) {
        uint32_t arrival = i / 8;
        wrong += memcmp(list + i * 8, (const uint8_t[]){REQUEST(i % 8, arrival % 8, arrival)}, 8) != 0;
    }
    CHECK(number, wrong, 0);
    CHECK(listed, limpidorsa_list(BYTES(table), list, RECORDS * 8), refused(10, 0), 0);
    CHECK(listed, limpidorsa_list(BYTES(table), list, 128 * 8), answered(), 128);
}

void overload_lists(void)
{
    sizes_of_overload_lists();
    overload_list_of_b();
    long_overload_list();
}

/* A list of B that is refused: with the same number and index when it is asked about, replayed and loaded. */
static void refused_list(const uint8_t *list, size_t list_len, uint8_t number, size_t index)
{
    static const struct limpidorsa_state nothing_to_do = {.outcome = LIMPIDORSA_RUNNING};
    struct limpidorsa_refusal no = refused(number, index);
    CHECK(listed, limpidorsa_list(BYTES(B), list, list_len), no, 0);
    CHECK(ending, limpidorsa_replay(BYTES(B), list, list_len), no, false, 0, 0);
    CHECK(loaded, limpidorsa_load(BYTES(B), list, list_len), no, 0, nothing_to_do);
}

#define LIST(...) ((const uint8_t[]){__VA_ARGS__}), sizeof((const uint8_t[]){__VA_ARGS__})

static void lists_that_are_refused(void)
{
    static const uint8_t zeros[129 * 8] = {0};
    refused_list(B_LIST, sizeof B_LIST - 1, 10, 0);
    refused_list(zeros, sizeof zeros, 10, 0);
    refused_list(LIST(0, 1, 1, 0, 0, 0, 0, 0), 10, 0);                               /* a pad is not zero */
    refused_list(LIST(REQUEST(0, 1, 0), 1, 0, 0, 9, 0, 0, 0, 0), 10, 1);             /* nor here */
    refused_list(LIST(REQUEST(0, 1, 0), REQUEST(2, 0, 0)), 10, 1);                   /* no such task */
    refused_list(LIST(REQUEST(0, 4, 0)), 10, 0);                                     /* no such frame */
    refused_list(LIST(REQUEST(0, 1, 0), REQUEST(1, 0, 65536)), 10, 1);               /* the arrival is too large */
    refused_list(LIST(0, 1, 0, 0, 0xff, 0xff, 0xff, 0xff), 10, 0);                   /* and the largest of all */
    refused_list(LIST(REQUEST(1, 0, 0), REQUEST(0, 1, 0)), 10, 1);                   /* the order is broken */
    refused_list(LIST(REQUEST(0, 0, 3), REQUEST(0, 0, 3)), 10, 1);                   /* one task twice at one arrival */
    refused_list(LIST(REQUEST(0, 1, 0), REQUEST(1, 0, 0), REQUEST(0, 3, 2)), 11, 2); /* the wrong frame */
    refused_list(LIST(REQUEST(0, 1, 0), REQUEST(1, 0, 0), REQUEST(0, 2, 1)), 11, 2); /* too soon */
}

void lists_and_replays(void)
{
    CHECK(listed, limpidorsa_list(BYTES(A), NOTHING, 0), answered(), 0);
    CHECK(ending, limpidorsa_replay(BYTES(A), NOTHING, 0), answered(), false, 0, 0);
    CHECK(listed, limpidorsa_list(BYTES(B), BYTES(B_LIST)), answered(), 2);
    CHECK(ending, limpidorsa_replay(BYTES(B), BYTES(B_LIST)), answered(), true, 2, 1);
    CHECK(ending, limpidorsa_replay(BYTES(A_1_4_12), BYTES(B_LIST)), answered(), false, 3, 0);
    CHECK(listed, limpidorsa_list(BYTES(K7_2_5_10), BYTES(K7_LIST)), answered(), 4);
    CHECK(ending, limpidorsa_replay(BYTES(K7_2_5_10), BYTES(K7_LIST)), answered(), true, 5, 1);
    /* Without the request that has a late deadline that list is not legal. */
    CHECK(listed, limpidorsa_list(BYTES(K7_2_5_10), LIST(REQUEST(0, 0, 0), REQUEST(1, 0, 0), REQUEST(0, 2, 3))),
          refused(11, 2), 0);
    lists_that_are_refused();
}
