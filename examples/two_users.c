/*
 * Document 01's worked example by the static library: two users and one record. Prints each call with its answer, in the
 * words of `partycall`, and ends with status 1 where an answer is not document 01's.
 *
 * examples/build makes and runs it.
 */
#include "towungbe.h"

#include <stdio.h>
#include <stdlib.h>
#include <string.h>

enum { CAPACITY = 64, STORE = 64, IMAGES = 256 };

/* File 1 with highest ISN 3. RC is the ring pattern, one byte, unique; HH is the household, two bytes. */
static const uint8_t TABLE[] = {
    1, 1, 0, 3,
    2, 'R', 'C', 1, 'A', 'U',
    2, 'H', 'H', 2, 'A', ' ',
    0,
};

/* All that there is of a nucleus. Here the buffers have fixed sizes; `set_up` sees that they are large enough. */
static towungbe_state state;
static uint8_t store[STORE];
static towungbe_entry queue[CAPACITY];
static uint8_t images[IMAGES];

static void set_up(void)
{
    if (towungbe_store_size(TABLE, sizeof TABLE) > STORE || towungbe_image_size(TABLE, sizeof TABLE, CAPACITY) > IMAGES) {
        fprintf(stderr, "the buffers of this example are too small for its table\n");
        exit(EXIT_FAILURE);
    }
    uint32_t response = towungbe_set_up(&state, CAPACITY, TABLE, sizeof TABLE, store, STORE, queue, CAPACITY, images, IMAGES);
    if (response != TOWUNGBE_GOOD) {
        fprintf(stderr, "set-up answers %u\n", (unsigned)response);
        exit(EXIT_FAILURE);
    }
}

/* Makes a call on file 1 and prints its answer; says whether the answer is the expected one. */
static bool call(const char *command, char option, uint8_t user, uint16_t isn, const char *format, const char *values,
                 const char *expected)
{
    towungbe_block block = {0};
    uint8_t record[8] = {0};
    size_t length = strlen(values);
    char answer[80];

    memcpy(block.command, command, 2);
    block.option = (uint8_t)option;
    block.user = user;
    block.file = 1;
    block.isn = isn;
    memcpy(record, values, length);
    towungbe_call(&state, &block, CAPACITY, store, STORE, queue, CAPACITY, images, IMAGES,
                  (const uint8_t *)format, strlen(format), record, length);
    int end = snprintf(answer, sizeof answer, "%u %u %zu %u", (unsigned)block.response, (unsigned)block.answered_isn,
                       block.quantity, (unsigned)block.sequence);
    if (command[0] == 'L' && block.response == TOWUNGBE_GOOD) {
        snprintf(answer + end, sizeof answer - (size_t)end, " %.*s", (int)block.quantity, (const char *)record);
    }
    bool good = strcmp(answer, expected) == 0;
    printf("user %u %s %-7s -> %s%s%s\n", (unsigned)user, command, format, answer, good ? "" : ", expected ", good ? "" : expected);
    return good;
}

int main(void)
{
    bool good = true;

    set_up();
    /* User 1 adds a record, which gets ISN 1, and ends his transaction. */
    good &= call("N1", ' ', 1, 0, "RC,HH.", "2AB", "0 1 0 0");
    good &= call("ET", ' ', 1, 0, "", "", "0 0 1 1");
    /* He changes its ring pattern, with option H to hold it, and does not end. */
    good &= call("A1", 'H', 1, 1, "RC.", "3", "0 1 0 0");
    /* User 2 wants the old pattern: it is taken, for user 1 may still turn back. Nor can he hold the record. */
    good &= call("N1", ' ', 2, 0, "RC,HH.", "2CD", "198 0 0 0");
    good &= call("L4", ' ', 2, 1, "RC.", "?", "145 0 0 0");
    /* User 1 does turn back; user 2 reads what was there before. The marks are room for three bytes. */
    good &= call("BT", ' ', 1, 0, "", "", "0 0 1 0");
    good &= call("L1", ' ', 2, 1, "RC,HH.", "???", "0 1 3 0 2AB");
    return good ? EXIT_SUCCESS : EXIT_FAILURE;
}
