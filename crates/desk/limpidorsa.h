/* Limpidorsa's public floor: every question of the desk, for a caller in Rattle, in C or in Rust. Byte slices and
 * numbers go in, one flat struct comes out. crates/desk/src has the functions with their contracts, which the checker
 * proves; limpidorsa.h for C, with these comments, and raw.rs for Rust are written from there. Behind them stands the
 * static library libdesk.a (x86-64 Linux), which `./archive` writes from crates/desk_c to target/staticlib.
 *
 * A table is records of 8 bytes: task number, kind, then E, D and P, each 16 bits, low byte first. A list is records of
 * 8 bytes: task, frame, two zero bytes, then the arrival, 32 bits, low byte first. docs/01-scope.md has the rules.
 *
 * Any bytes may be handed in, and any numbers. Each call answers, or refuses with one number of document 01's table.
 * Every answer to a question opens with its refusal. Where the refusal's number is not 0, every other field is zero; so
 * is every field that an answer has no use for.
 *
 * Of a caller in C is asked: a slice is a pointer, which must not be NULL even where the length is 0, and as many bytes
 * as its length says; and the buffer of limpidorsa_overload must overlap nothing that this or another call is lent at
 * that time. Only that buffer is written to, and nothing is kept after a call. Compare an answer's fields, and not its
 * bytes: what lies between two fields may be anything. Functions and answers share their names; in C++ too an answer's
 * type is written with `struct` before it.
 *
 * How long an answer takes is not promised: a verdict walks t by t and frame by frame, and takes seconds where P is
 * very short and no window closes early, with many such frames minutes. An overload list and its size take as long, for
 * they begin with the verdict.
 */
#ifndef LIMPIDORSA_H
#define LIMPIDORSA_H

#include <stdbool.h>
#include <stddef.h>
#include <stdint.h>

#ifdef __cplusplus
extern "C" {
#endif

/* "t is 0 to 65,536": the greatest t, and the greatest window, that is asked about or searched. */
enum { LIMPIDORSA_HORIZON = 65536 };

/* "arrivals 0 to 65,535": the latest in a request list. */
enum { LIMPIDORSA_LAST_ARRIVAL = 65535 };

/* "All runs end by tick 131,070": a bench that was loaded stops within `LIMPIDORSA_LAST_TICK` + 1 calls of
 * limpidorsa_tick. */
enum { LIMPIDORSA_LAST_TICK = 131070 };

/* "At most 64 records": as many records, and bytes, a table may have. */
enum { LIMPIDORSA_MOST_RECORDS = 64, LIMPIDORSA_MOST_TABLE_BYTES = 512 };

/* "A list has 0 to 128 records": as many records, and bytes, a list may have that is replayed. An overload list may
 * have more. */
enum { LIMPIDORSA_MOST_REQUESTS = 128, LIMPIDORSA_MOST_LIST_BYTES = 1024 };

/* Every refusal has a number from 1 to this. */
enum { LIMPIDORSA_LAST_REFUSAL = 13 };

/* "Every refusal is a refusal number with the record index." A number of document 01's table, and the index of the
 * record that it carries; 0 and 0 where nothing was refused. In C's layout, for the desk hands it out as it is. */
struct limpidorsa_refusal {
    uint8_t number;
    size_t index;
};

/* How many tasks and records a table has. */
struct limpidorsa_shape {
    struct limpidorsa_refusal refusal;
    size_t tasks;
    size_t records;
};

/* A demand or a work. */
struct limpidorsa_amount {
    struct limpidorsa_refusal refusal;
    uint64_t amount;
};

/* Below zero where more is asked than there is time. */
struct limpidorsa_margin {
    struct limpidorsa_refusal refusal;
    int64_t margin;
};

/* The closing window; `window` is 0 where no window closes. */
struct limpidorsa_window {
    struct limpidorsa_refusal refusal;
    bool closes;
    uint64_t window;
};

/* What `verdict` is in an answer; it is 0 in a refusal. */
enum { LIMPIDORSA_OVERLOADED = 1, LIMPIDORSA_FITS = 2, LIMPIDORSA_UNDECIDED = 3 };

/* Overloaded: `t`, the least with a margin below zero, its `margin`, and the sixteen start frames, one for each task.
 * Fits: the closing `window`, the least `margin` up to it, and the first `t` that has it. */
struct limpidorsa_verdict {
    struct limpidorsa_refusal refusal;
    uint8_t verdict;
    uint64_t t;
    int64_t margin;
    uint64_t window;
    uint8_t starts[16];
};

/* On time: the value that repeats, and its round. Late: the first value that passes D, and its round. */
struct limpidorsa_response {
    struct limpidorsa_refusal refusal;
    bool late;
    uint64_t value;
    uint64_t round;
};

/* How many bytes the overload list has, or were written from the place on. */
struct limpidorsa_written {
    struct limpidorsa_refusal refusal;
    size_t bytes;
};

/* How many records a legal list has. */
struct limpidorsa_listed {
    struct limpidorsa_refusal refusal;
    size_t records;
};

/* A miss with its tick and its record, or *all met* with the tick after the last unit; then `index` is 0. */
struct limpidorsa_ending {
    struct limpidorsa_refusal refusal;
    bool missed;
    uint32_t tick;
    size_t index;
};

/* What `outcome` is in a state. Any other number is a bench that has stopped. */
enum { LIMPIDORSA_RUNNING = 0, LIMPIDORSA_MISSED = 1, LIMPIDORSA_ALL_MET = 2 };

/* The bench before a tick: what each request has left, its deadline, its arrival, its release, which is the tick from
 * which it may run (that of its arrival), and its task, in the list's order, and zero where there is no request.
 * `index` is the record that missed, and 0 in any other outcome. */
struct limpidorsa_state {
    uint32_t tick;
    uint8_t outcome;
    size_t index;
    uint32_t left[LIMPIDORSA_MOST_REQUESTS];
    uint32_t due[LIMPIDORSA_MOST_REQUESTS];
    uint32_t arrive[LIMPIDORSA_MOST_REQUESTS];
    uint32_t release[LIMPIDORSA_MOST_REQUESTS];
    uint8_t task[LIMPIDORSA_MOST_REQUESTS];
};

/* How many records the list has, and the bench that is loaded with it; of a refused list, a bench with nothing to do.
 */
struct limpidorsa_loaded {
    struct limpidorsa_refusal refusal;
    size_t records;
    struct limpidorsa_state state;
};

/* What the bytes are as a table. Refuses by the rules of a table, as every question does first. */
struct limpidorsa_shape limpidorsa_read(const uint8_t *table, size_t table_len);

/* The demand of a task at t. Refuses with 9, then 7. */
struct limpidorsa_amount limpidorsa_demand(const uint8_t *table, size_t table_len, uint64_t task, uint64_t t);

/* The work of a task in a window w. Refuses with 9, then 7. */
struct limpidorsa_amount limpidorsa_work(const uint8_t *table, size_t table_len, uint64_t task, uint64_t w);

/* The margin of the whole table at t. Refuses with 7. */
struct limpidorsa_margin limpidorsa_margin(const uint8_t *table, size_t table_len, uint64_t t);

/* The closing window of the table, also of one that is overloaded. */
struct limpidorsa_window limpidorsa_window(const uint8_t *table, size_t table_len);

/* The earliest-deadline verdict on the table. */
struct limpidorsa_verdict limpidorsa_verdict(const uint8_t *table, size_t table_len);

/* The response of a frame, task 0 having the highest priority. Refuses with 9, then 8. */
struct limpidorsa_response limpidorsa_response(const uint8_t *table, size_t table_len, uint64_t task, uint64_t frame);

/* How many bytes the overload list of the table has: as many as limpidorsa_overload needs from its place on. Refuses
 * with 13. */
struct limpidorsa_written limpidorsa_overload_size(const uint8_t *table, size_t table_len);

/* Writes the overload list of the table into the buffer, from the place on; bytes before it and after the list stay.
 * Refuses with 13, then 12. A call that is refused, with whatever number, changes no byte. limpidorsa_overload_size
 * says how many bytes the list has; it may have more records than a list that is replayed. */
struct limpidorsa_written limpidorsa_overload(const uint8_t *table, size_t table_len, uint8_t *buffer,
                                              size_t buffer_len, size_t place);

/* What the bytes are as a request list of the table. Refuses with 10 or 11. */
struct limpidorsa_listed limpidorsa_list(const uint8_t *table, size_t table_len, const uint8_t *list, size_t list_len);

/* The bench loaded with a request list, before tick 0. Refuses with 10 or 11; the bench then has nothing to do. */
struct limpidorsa_loaded limpidorsa_load(const uint8_t *table, size_t table_len, const uint8_t *list, size_t list_len);

/* The replay of a request list by the earliest-deadline bench. Refuses with 10 or 11. */
struct limpidorsa_ending limpidorsa_replay(const uint8_t *table, size_t table_len, const uint8_t *list,
                                           size_t list_len);

/* One tick of the bench, of any state. A state whose outcome is not `LIMPIDORSA_RUNNING` comes back unchanged, and so
 * does one past `LIMPIDORSA_LAST_TICK`. A bench that was loaded stops within `LIMPIDORSA_LAST_TICK` + 1 calls, and
 * holds its answer then. */
struct limpidorsa_state limpidorsa_tick(struct limpidorsa_state state);

#ifdef __cplusplus
}
#endif

#endif
