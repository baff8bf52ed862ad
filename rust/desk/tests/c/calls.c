/* Every function of limpidorsa.h, called from C on the tables of docs/01-scope.md, and every field of each answer
 * checked. To build and run it by hand, at the top of the repository, after `./archive`:
 *
 *     cc -std=c11 -Wall -Wextra -I crates/desk -o target/calls rust/desk/tests/c/{calls,lists,bench,limits}.c \
 *         target/staticlib/libdesk.a
 *     target/calls
 *
 * It says each check that failed, then how many there were. lists.c has the calls about lists, bench.c those of the
 * bench, limits.c those at the limits, and this file all others; check.h has what checks an answer, and tables.h the
 * tables.
 */
#include "limpidorsa.h"

#include "check.h"
#include "tables.h"

#include <stdlib.h>
#include <string.h>

unsigned long checks, failed;

static void demand_work_and_margin(void)
{
    static const uint64_t k1[][2] = {{1, 0}, {2, 2}, {5, 3}, {8, 6}, {9, 7}, {10, 8}, {11, 9}, {14, 11}};
    for (size_t i = 0; i < sizeof k1 / sizeof k1[0]; i++) {
        CHECK(amount, limpidorsa_demand(BYTES(A), 0, k1[i][0]), answered(), k1[i][1]);
        CHECK(margin, limpidorsa_margin(BYTES(A), k1[i][0]), answered(), (int64_t)(k1[i][0] - k1[i][1]));
    }
    CHECK(amount, limpidorsa_demand(BYTES(A), 0, 0), answered(), 0);
    CHECK(amount, limpidorsa_demand(BYTES(K7), 0, 5), answered(), 4);
    CHECK(amount, limpidorsa_demand(BYTES(LIMIT), 0, 65536), answered(), 65538);

    CHECK(amount, limpidorsa_work(BYTES(A), 0, 0), answered(), 0);
    CHECK(amount, limpidorsa_work(BYTES(A), 0, 1), answered(), 5);
    CHECK(amount, limpidorsa_work(BYTES(A), 0, 8), answered(), 8);
    CHECK(amount, limpidorsa_work(BYTES(A), 0, 9), answered(), 9);
    CHECK(amount, limpidorsa_work(BYTES(LONGEST), 0, 65536), answered(), 131070);

    /* A margin is signed: more may be asked than there is time. */
    CHECK(margin, limpidorsa_margin(BYTES(A), 0), answered(), 0);
    CHECK(margin, limpidorsa_margin(BYTES(B), 2), answered(), -1);
    CHECK(margin, limpidorsa_margin(BYTES(LIMIT), 65536), answered(), -2);
}

static void windows_and_verdicts(void)
{
    CHECK(window, limpidorsa_window(BYTES(A)), answered(), true, 8);
    CHECK(window, limpidorsa_window(BYTES(A_1_4_12)), answered(), true, 10);
    CHECK(window, limpidorsa_window(BYTES(LONGEST)), answered(), true, 65535);
    CHECK(window, limpidorsa_window(BYTES(UNDECIDED)), answered(), false, 0);

    CHECK(verdict, limpidorsa_verdict(BYTES(A)), answered(), LIMPIDORSA_FITS, 2, 0, 8, 0);
    CHECK(verdict, limpidorsa_verdict(BYTES(A_1_4_12)), answered(), LIMPIDORSA_FITS, 2, 0, 10, 0);
    CHECK(verdict, limpidorsa_verdict(BYTES(ONE)), answered(), LIMPIDORSA_FITS, 1, 0, 1, 0);
    CHECK(verdict, limpidorsa_verdict(BYTES(LONGEST)), answered(), LIMPIDORSA_FITS, 65535, 0, 65535, 0);
    CHECK(verdict, limpidorsa_verdict(BYTES(B)), answered(), LIMPIDORSA_OVERLOADED, 2, -1, 0, 1);
    CHECK(verdict, limpidorsa_verdict(BYTES(TWO)), answered(), LIMPIDORSA_OVERLOADED, 1, -1, 0, 0);
    CHECK(verdict, limpidorsa_verdict(BYTES(K7_2_5_10)), answered(), LIMPIDORSA_OVERLOADED, 5, -1, 0, 0);
    CHECK(verdict, limpidorsa_verdict(BYTES(LIMIT_OF_TWO)), answered(), LIMPIDORSA_OVERLOADED, 65536, -2, 0, 0);
    CHECK(verdict, limpidorsa_verdict(BYTES(UNDECIDED)), answered(), LIMPIDORSA_UNDECIDED, 0, 0, 0, 0);
}

static void responses(void)
{
    CHECK(response, limpidorsa_response(BYTES(F), 0, 0), answered(), false, 1, 0);
    CHECK(response, limpidorsa_response(BYTES(F), 1, 0), answered(), false, 3, 1);
    CHECK(response, limpidorsa_response(BYTES(F), 2, 0), answered(), false, 8, 3);
    CHECK(response, limpidorsa_response(BYTES(F), 3, 0), answered(), false, 14, 4);
    CHECK(response, limpidorsa_response(BYTES(F), 3, 1), answered(), false, 9, 2);
    CHECK(response, limpidorsa_response(BYTES(F), 4, 0), answered(), false, 32, 6);
    CHECK(response, limpidorsa_response(BYTES(LATE), 1, 0), answered(), true, 4, 1);
    CHECK(response, limpidorsa_response(BYTES(LATE), 2, 0), answered(), true, 5, 0);
}

/* Fifteen tasks (65535,1,1), then (65535,65535,65535): answers that do not fit into 32 bits. */
static void wide_numbers(void)
{
    uint8_t table[16 * 8];
    for (uint8_t i = 0; i < 15; i++)
        memcpy(table + i * 8, (const uint8_t[]){FRAME(i, 1, 65535, 1, 1)}, 8);
    memcpy(table + 15 * 8, (const uint8_t[]){FRAME(15, 1, 65535, 65535, 65535)}, 8);
    CHECK(shape, limpidorsa_read(BYTES(table)), answered(), 16, 16);
    CHECK(amount, limpidorsa_demand(BYTES(table), 14, 65536), answered(), UINT64_C(4294901760));
    CHECK(margin, limpidorsa_margin(BYTES(table), 65536), answered(), INT64_C(-64423526399));
    CHECK(verdict, limpidorsa_verdict(BYTES(table)), answered(), LIMPIDORSA_OVERLOADED, 1, -983024, 0, 0);
    CHECK(response, limpidorsa_response(BYTES(table), 15, 0), answered(), true, UINT64_C(64422608910), 1);
}

/* Any numbers may be handed in. Of one task's demand and work, 9 comes before 7; of a response, 9 before 8. */
static void questions_that_are_refused(void)
{
    CHECK(amount, limpidorsa_demand(BYTES(A), 0, 65537), refused(7, 0), 0);
    CHECK(amount, limpidorsa_demand(BYTES(A), 0, UINT64_MAX), refused(7, 0), 0);
    CHECK(amount, limpidorsa_demand(BYTES(A), 1, 65537), refused(9, 0), 0);
    CHECK(amount, limpidorsa_demand(BYTES(A), UINT64_MAX, 5), refused(9, 0), 0);
    CHECK(amount, limpidorsa_work(BYTES(A), 0, 65537), refused(7, 0), 0);
    CHECK(amount, limpidorsa_work(BYTES(A), UINT64_C(1) << 32, UINT64_MAX), refused(9, 0), 0);
    CHECK(margin, limpidorsa_margin(BYTES(A), 65537), refused(7, 0), 0);
    CHECK(margin, limpidorsa_margin(BYTES(A), UINT64_C(1) << 32), refused(7, 0), 0);
    CHECK(response, limpidorsa_response(BYTES(A), 0, 0), refused(8, 2), false, 0, 0);
    CHECK(response, limpidorsa_response(BYTES(A), 0, 4), refused(9, 0), false, 0, 0);
    CHECK(response, limpidorsa_response(BYTES(F), 5, 0), refused(9, 0), false, 0, 0);
    CHECK(response, limpidorsa_response(BYTES(F), 3, UINT64_MAX), refused(9, 0), false, 0, 0);
    CHECK(response, limpidorsa_response(BYTES(F), UINT64_C(1) << 32, 0), refused(9, 0), false, 0, 0);
}

/* What is said of a copy of A in which one byte is another. */
static struct limpidorsa_shape read_changed(size_t place, uint8_t byte)
{
    uint8_t table[sizeof A];
    memcpy(table, A, sizeof A);
    table[place] = byte;
    return limpidorsa_read(table, sizeof table);
}

static void tables_that_are_read_or_refused(void)
{
    CHECK(shape, limpidorsa_read(BYTES(A)), answered(), 1, 4);
    CHECK(shape, limpidorsa_read(BYTES(B)), answered(), 2, 5);
    CHECK(shape, limpidorsa_read(BYTES(F)), answered(), 5, 8);
    CHECK(shape, limpidorsa_read(NOTHING, 0), refused(1, 0), 0, 0);
    CHECK(shape, limpidorsa_read(A, sizeof A - 1), refused(1, 0), 0, 0);

    CHECK(shape, read_changed(0, 1), refused(2, 0), 0, 0);      /* the first task is not 0 */
    CHECK(shape, read_changed(8 + 0, 16), refused(2, 1), 0, 0); /* above 15 */
    CHECK(shape, read_changed(8 + 1, 2), refused(3, 1), 0, 0);  /* the kind differs inside a task */
    CHECK(shape, read_changed(1, 4), refused(3, 0), 0, 0);      /* no such kind */
    CHECK(shape, read_changed(1, 1), refused(3, 1), 0, 0);      /* a second frame of kind 1 */
    CHECK(shape, read_changed(24 + 2, 0), refused(5, 3), 0, 0); /* E is 0 */
    CHECK(shape, read_changed(16 + 4, 0), refused(5, 2), 0, 0); /* D is 0 */
    CHECK(shape, read_changed(8 + 6, 0), refused(5, 1), 0, 0);  /* P is 0 */
    CHECK(shape, read_changed(1, 2), refused(6, 0), 0, 0);      /* kind 2 with D not P */

    /* Sixteen frames of a task are the most, and 64 records. */
    uint8_t many[65 * 8];
    for (uint8_t i = 0; i < 65; i++)
        memcpy(many + i * 8, (const uint8_t[]){FRAME(i / 16, 2, 1, 64, 64)}, 8);
    CHECK(shape, limpidorsa_read(many, 64 * 8), answered(), 4, 64);
    CHECK(shape, limpidorsa_read(many, 65 * 8), refused(1, 0), 0, 0);
    many[16 * 8] = 0;
    CHECK(shape, limpidorsa_read(many, 64 * 8), refused(4, 16), 0, 0);
    many[16 * 8] = 1;
    many[20 * 8 + 4] = many[20 * 8 + 6] = 65; /* kind 2, and P unlike the task's first */
    CHECK(shape, limpidorsa_read(many, 64 * 8), refused(6, 20), 0, 0);
}

/* Every question tests the table first, and refuses it with the same number, whatever else was asked. */
static void every_question_tests_the_table_first(void)
{
    static const uint8_t bad[] = {FRAME(0, 3, 1, 2, 3), FRAME(0, 3, 2, 0, 2)};
    static const struct limpidorsa_state nothing_to_do = {.outcome = LIMPIDORSA_RUNNING};
    struct limpidorsa_refusal no = refused(5, 1);
    uint8_t buffer[16] = {0};
    CHECK(shape, limpidorsa_read(BYTES(bad)), no, 0, 0);
    CHECK(amount, limpidorsa_demand(BYTES(bad), UINT64_MAX, UINT64_MAX), no, 0);
    CHECK(amount, limpidorsa_work(BYTES(bad), UINT64_MAX, UINT64_MAX), no, 0);
    CHECK(margin, limpidorsa_margin(BYTES(bad), UINT64_MAX), no, 0);
    CHECK(window, limpidorsa_window(BYTES(bad)), no, false, 0);
    CHECK(verdict, limpidorsa_verdict(BYTES(bad)), no, 0, 0, 0, 0, 0);
    CHECK(response, limpidorsa_response(BYTES(bad), UINT64_MAX, UINT64_MAX), no, false, 0, 0);
    CHECK(written, limpidorsa_overload_size(BYTES(bad)), no, 0);
    CHECK(written, limpidorsa_overload(BYTES(bad), BYTES(buffer), SIZE_MAX), no, 0);
    CHECK(listed, limpidorsa_list(BYTES(bad), NOTHING, 1), no, 0);
    CHECK(ending, limpidorsa_replay(BYTES(bad), NOTHING, 1), no, false, 0, 0);
    CHECK(loaded, limpidorsa_load(BYTES(bad), NOTHING, 1), no, 0, nothing_to_do);
}

int main(void)
{
    tables_that_are_read_or_refused();
    demand_work_and_margin();
    windows_and_verdicts();
    responses();
    wide_numbers();
    questions_that_are_refused();
    every_question_tests_the_table_first();
    overload_lists();
    lists_and_replays();
    benches();
    limits();
    printf("%lu checks, %lu failed\n", checks, failed);
    return failed == 0 ? EXIT_SUCCESS : EXIT_FAILURE;
}
