/*
 * The ring table is loaded in the morning, while clerks work: each household's pattern as ended transactions left it, taken
 * from where it lies, without a call and without a copy. Prints the table with three transactions open, and once more when
 * they have ended.
 *
 * examples/build makes and runs it, and compares with examples/ring_table.out.
 */
#include "towungbe.h"

#include <stdio.h>
#include <stdlib.h>
#include <string.h>

enum { CAPACITY = 16, STORE = 128, IMAGES = 256, PATTERN = 2, HOUSEHOLD = 6 };

/*
 * Files 1 and 2 are two wires, with highest ISN 4. RC is the ring pattern (L long, S short), unique on its wire; HH is the
 * household. In a record they stand in this order.
 */
static const uint8_t TABLE[] = {
    1, 1, 0, 4,
    2, 'R', 'C', PATTERN, 'A', 'U',
    2, 'H', 'H', HOUSEHOLD, 'A', ' ',
    1, 2, 0, 4,
    2, 'R', 'C', PATTERN, 'A', 'U',
    2, 'H', 'H', HOUSEHOLD, 'A', ' ',
    0,
};

/* All that there is of a nucleus. */
static towungbe_state state;
static uint8_t store[STORE];
static towungbe_entry queue[CAPACITY];
static uint8_t images[IMAGES];

static void fail(const char *what, unsigned response)
{
    fprintf(stderr, "%s answers %u\n", what, response);
    exit(EXIT_FAILURE);
}

static void set_up(void)
{
    uint32_t response = towungbe_set_up(&state, CAPACITY, TABLE, sizeof TABLE, store, STORE, queue, CAPACITY, images, IMAGES);
    if (response != TOWUNGBE_GOOD) {
        fail("set-up", (unsigned)response);
    }
}

/* A clerk's call, which must be good. */
static void call(const char *command, char option, uint8_t clerk, uint8_t wire, uint16_t isn, const char *format,
                 const char *values)
{
    towungbe_block block = {0};
    uint8_t record[PATTERN + HOUSEHOLD] = {0};
    size_t length = strlen(values);

    memcpy(block.command, command, 2);
    block.option = (uint8_t)option;
    block.user = clerk;
    block.file = wire;
    block.isn = isn;
    memcpy(record, values, length);
    towungbe_call(&state, &block, CAPACITY, store, STORE, queue, CAPACITY, images, IMAGES,
                  (const uint8_t *)format, strlen(format), record, length);
    if (block.response != TOWUNGBE_GOOD) {
        fail(command, block.response);
    }
}

/* Loads the table: each ISN of each wire is asked for its committed record, and those that have one are printed. */
static void load_ring_table(const char *when)
{
    printf("%s\n", when);
    for (size_t file = 0; file < state.count; file++) {
        uint8_t wire = state.files[file].number;
        for (uint16_t isn = 1; isn <= state.files[file].max_isn; isn++) {
            towungbe_place place = {0, 0, false};
            towungbe_committed_place(&state, CAPACITY, wire, isn, store, STORE, queue, CAPACITY, images, IMAGES, &place);
            if (place.length == 0) {
                continue;
            }
            const char *record = (const char *)towungbe_record_at(&place, store, images);
            printf("  wire %u  %.*s  %.*s  (%s)\n", (unsigned)wire, PATTERN, record, HOUSEHOLD, record + PATTERN,
                   place.imaged ? "image" : "store");
        }
    }
}

int main(void)
{
    set_up();
    /* Clerk 1 puts three households on the wires and ends. */
    call("N1", ' ', 1, 1, 0, "RC,HH.", "LSDAHLEN");
    call("N1", ' ', 1, 1, 0, "RC,HH.", "LLOPSAHL");
    call("N1", ' ', 1, 2, 0, "RC,HH.", "LSBERGEN");
    call("ET", ' ', 1, 0, 0, "", "");
    load_ring_table("Nobody is at work:");

    /* Clerk 1 gives Dahlen another pattern, clerk 2 adds a household, clerk 3 takes Bergen off. They have not ended. */
    call("A1", 'H', 1, 1, 1, "RC.", "SS");
    call("N1", ' ', 2, 1, 0, "RC,HH.", "SLNYGARD");
    call("E1", 'H', 3, 2, 1, "", "");
    load_ring_table("Three transactions are open:");

    /* Clerk 1 ends, clerk 2 backs out, clerk 3 ends. */
    call("ET", ' ', 1, 0, 0, "", "");
    call("BT", ' ', 2, 0, 0, "", "");
    call("ET", ' ', 3, 0, 0, "", "");
    load_ring_table("Two have ended, one was backed out:");
    return EXIT_SUCCESS;
}
