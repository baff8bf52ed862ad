/* A desk with three questions: the source that the tests of this program are made on, in the shape of crates/desk.
 *
 * Any bytes may be handed in. A slice is a pointer, which must not be NULL, and as many bytes as its length says.
 */
#ifndef LIMPIDORSA_H
#define LIMPIDORSA_H

#include <stdbool.h>
#include <stddef.h>
#include <stdint.h>

#ifdef __cplusplus
extern "C" {
#endif

/* "All runs end by tick 131,070." */
enum { LIMPIDORSA_LAST_TICK = 131070 };

/* "A list has 0 to 128 records": the most requests, and their bytes. */
enum { LIMPIDORSA_MOST_REQUESTS = 128, LIMPIDORSA_MOST_LIST_BYTES = 1024 };

/* "Every refusal is a refusal number with the record index." */
struct limpidorsa_refusal {
    uint8_t number;
    size_t index;
};

/* The closing window; `window` is 0 where no window closes. */
struct limpidorsa_window {
    struct limpidorsa_refusal refusal;
    bool closes;
    uint64_t window;
};

/* How many bytes were written from the place on. */
struct limpidorsa_written {
    struct limpidorsa_refusal refusal;
    size_t bytes;
};

/* What `outcome` is in a state. Any other number is a bench that has stopped. */
enum { LIMPIDORSA_RUNNING = 0, LIMPIDORSA_MISSED = 1, LIMPIDORSA_ALL_MET = 2 };

struct limpidorsa_state {
    uint32_t tick;
    uint8_t outcome;
    uint32_t left[LIMPIDORSA_MOST_REQUESTS];
    uint8_t task[LIMPIDORSA_MOST_REQUESTS];
    uint8_t starts[16];
};

/* The closing window of the table, also of one that is overloaded. */
struct limpidorsa_window limpidorsa_window(const uint8_t *table, size_t table_len);

/* Writes the overload list of the table into the buffer, from the place on. Refuses with 13, then 12. A call that is
 * refused, with whatever number, changes no byte; bytes before the place and after the list stay in any case. */
struct limpidorsa_written limpidorsa_overload(const uint8_t *table, size_t table_len, uint8_t *buffer,
                                              size_t buffer_len, size_t place);

/* One tick of the bench, of any state. One whose outcome is not `LIMPIDORSA_RUNNING` comes back unchanged, and so does
 * one past tick `LIMPIDORSA_LAST_TICK`. */
struct limpidorsa_state limpidorsa_tick(struct limpidorsa_state state);

#ifdef __cplusplus
}
#endif

#endif
