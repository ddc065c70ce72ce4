/*
 * Four offices want one household's record. Office 1 holds it; the others wait in line, by option 'W', instead of trying again
 * dozens of times, and each asks again when it suits it. Office 2 never does: its turn ends by the time limit. Prints each call
 * with its answer, and who holds the record and who waits then.
 *
 * examples/build makes and runs it, and compares with examples/waiting.out.
 */
#include "towungbe.h"

#include <stdio.h>
#include <stdlib.h>
#include <string.h>

enum { CAPACITY = 4, STORE = 64, IMAGES = 64, HOUSEHOLD = 6, WIRE = 1, ISN = 1 };

/* File 1 is a wire with highest ISN 4; HH is the household. */
static const uint8_t TABLE[] = {
    1, WIRE, 0, 4,
    2, 'H', 'H', HOUSEHOLD, 'A', ' ',
    0,
};

/* All that there is of a nucleus. */
static towungbe_state state;
static uint8_t store[STORE];
static towungbe_entry queue[CAPACITY];
static uint8_t images[IMAGES];

static void set_up(void)
{
    uint32_t response = towungbe_set_up(&state, CAPACITY, TABLE, sizeof TABLE, store, STORE, queue, CAPACITY, images, IMAGES);
    if (response != TOWUNGBE_GOOD) {
        fprintf(stderr, "set-up answers %u\n", (unsigned)response);
        exit(EXIT_FAILURE);
    }
}

/* Nothing but the household is ever held, so that there is one entry at most, and one line. */
static void show_holder_and_line(void)
{
    if (state.entries == 0) {
        printf("  nobody holds");
    } else {
        printf("  office %u holds", (unsigned)queue[0].user);
    }
    for (size_t i = 0; i < state.wait_queue.waiting; i++) {
        printf("%s %u", i == 0 ? ", waiting:" : "", (unsigned)towungbe_waiter_at(&state, i).user);
    }
    printf("\n");
}

/* An office's call about the household: N2 brings the record, L4 reads it, ET has no ET data. */
static void call(uint32_t clock, uint8_t office, const char *command, char option)
{
    towungbe_block block = {0};
    uint8_t record[HOUSEHOLD];
    size_t length = memcmp(command, "ET", 2) == 0 ? 0 : HOUSEHOLD;

    memcpy(record, "DAHLEN", HOUSEHOLD);
    memcpy(block.command, command, 2);
    block.option = (uint8_t)option;
    block.user = office;
    block.file = WIRE;
    block.isn = ISN;
    block.clock = clock;
    towungbe_call(&state, &block, CAPACITY, store, STORE, queue, CAPACITY, images, IMAGES,
                  (const uint8_t *)"HH.", 3, record, length);
    printf("%5u  office %u  %s %c  %2u", (unsigned)clock, (unsigned)office, command, option, (unsigned)block.response);
    show_holder_and_line();
}

int main(void)
{
    set_up();
    /* Office 1 adds the household and has not ended yet. */
    call(0, 1, "N2", ' ');
    call(1, 2, "L4", 'W');
    call(2, 3, "L4", 'W');
    call(3, 4, "L4", 'W');
    /* To ask again keeps the place. */
    call(8, 3, "L4", 'W');
    /* Office 1 ends: office 2 has the hold and a transaction, though it has not asked. */
    call(10, 1, "ET", ' ');
    call(400, 3, "L4", 'W');
    call(500, 4, "L4", 'W');
    /* More than 900 seconds later office 2 is backed out, and it is office 3's turn, which asks just then. */
    call(911, 3, "L4", 'W');
    call(920, 3, "ET", ' ');
    call(930, 4, "L4", 'W');
    /* Office 2 learns what became of its turn, and stands in line again, behind nobody. */
    call(940, 2, "L4", 'W');
    call(941, 2, "L4", 'W');
    call(950, 4, "ET", ' ');
    call(960, 2, "L4", 'W');
    call(970, 2, "ET", ' ');
    return EXIT_SUCCESS;
}
