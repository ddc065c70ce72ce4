/* The benchmark's calls from C: a prepared list through towungbe_call, as a program in C makes them. */
#include <sqlite3.h>

#include "towungbe.h"

/* What src/foreign/sqlite.rs writes as numbers. */
_Static_assert(SQLITE_OK == 0 && SQLITE_ROW == 100 && SQLITE_DONE == 101, "results of SQLite");
_Static_assert((SQLITE_OPEN_READWRITE | SQLITE_OPEN_CREATE | SQLITE_OPEN_NOMUTEX) == 0x8006, "how SQLite opens");

typedef struct {
    towungbe_block block;
    const uint8_t *format;
    size_t format_length;
    uint8_t *record;
    size_t record_length;
} bench_step;

size_t bench_run(towungbe_state *state, size_t capacity,
                 uint8_t *store, size_t store_length,
                 towungbe_entry *queue, size_t queue_length,
                 uint8_t *images, size_t images_length,
                 bench_step *steps, size_t count);

/* Makes the calls in turn; gives how many answered 0. */
size_t bench_run(towungbe_state *state, size_t capacity,
                 uint8_t *store, size_t store_length,
                 towungbe_entry *queue, size_t queue_length,
                 uint8_t *images, size_t images_length,
                 bench_step *steps, size_t count)
{
    size_t good = 0;
    for (bench_step *step = steps; step < steps + count; step++) {
        uint32_t response = towungbe_call(state, &step->block, capacity,
                                          store, store_length, queue, queue_length, images, images_length,
                                          step->format, step->format_length, step->record, step->record_length);
        good += response == TOWUNGBE_GOOD;
    }
    return good;
}
