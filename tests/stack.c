/*
 * Measures the stack that a call takes. A function with a large array paints the stack below this program's frame and returns;
 * the call is made from the same place, and what is no longer paint was used. One plan has 120 slides, so its search stood at
 * the last depth; others run in all shapes at weights up to 64; plays run lists of 10 to 100,000 moves; the record is the
 * longest there is, and is read back; the reachability test makes as many exchanges as it can.
 *
 * It prints the most bytes of each, and ends with status 1 if the 64 KiB that docs/C-INTERFACE.md promises are not enough, if a
 * play's stack grows with its list, or if what was measured is not what is meant: a plan that has not 120 slides, another plan
 * that takes more, or a list that was refused.
 */
#include "lowpengine.h"
#include <stdio.h>

enum { ROOM = 1 << 18, PAINT = 0xa5, LONG = 100000, ENOUGH = 1 << 16 };

static uint8_t list[LONG], moves[LOWPENGINE_MOVES], table[LOWPENGINE_TABLE_BYTES], out[LOWPENGINE_RECORD_BYTES];
static uint8_t plan_read[LOWPENGINE_READ_BYTES];

struct call {
    uint32_t width, height, p, q;
    uint8_t board[LOWPENGINE_CELLS];
    int32_t ceiling;
    size_t played; /* moves of the list to play; 0 for a plan */
    size_t stored; /* moves of the list to write a record of; 0 for none */
    size_t read;   /* bytes of the last record to read; 0 for none */
    int reached;   /* the reachability test alone */
};

static uint64_t answered(const struct call *c) {
    size_t n = (size_t)c->width * c->height;
    if (c->reached)
        return lowpengine_reachable(c->width, c->height, c->board, n);
    if (c->played > 0)
        return lowpengine_play(c->width, c->height, c->board, n, list, c->played, out, sizeof out);
    if (c->read > 0)
        return lowpengine_read_record(out, c->read, plan_read, sizeof plan_read);
    if (c->stored > 0)
        return lowpengine_write_record(c->width, c->height, c->board, n, c->ceiling, c->p, c->q, 1000000, list, c->stored, out,
                                       sizeof out);
    return lowpengine_plan(c->width, c->height, c->board, n, c->ceiling, 20000, c->p, c->q, moves, sizeof moves, table,
                           sizeof table);
}

static size_t lowest; /* where the paint begins, as a number: the array is gone by then */

static uint64_t painted(const struct call *c) {
    volatile uint8_t room[ROOM];
    for (size_t i = 0; i < ROOM; i++)
        room[i] = PAINT;
    lowest = (size_t)&room[0];
    return c->width;
}

/* Through pointers that the compiler can't see through, so that each call has a frame of its own. */
static uint64_t (*volatile paint)(const struct call *) = painted;
static uint64_t (*volatile make)(const struct call *) = answered;

/* The stack that a call takes. The first, unmeasured, has the loader find what it needs. */
static size_t used(const struct call *c) {
    make(c);
    paint(c);
    make(c);
    const volatile uint8_t *room = (const volatile uint8_t *)lowest;
    size_t first = 0;
    while (first < ROOM && room[first] == PAINT)
        first++;
    return ROOM - first;
}

/* The goal turned round; where that can't be brought to the goal, with two trays exchanged. */
static struct call far_board(uint32_t width, uint32_t height, uint32_t p, uint32_t q) {
    struct call c = {width, height, p, q, {0}, LOWPENGINE_MOVES, 0, 0, 0, 0};
    uint32_t n = width * height;
    for (uint32_t i = 0; i < n; i++)
        c.board[i] = (uint8_t)(n - 1 - i);
    if (lowpengine_number(answered(&c)) == LOWPENGINE_UNREACHABLE) {
        c.board[0] = (uint8_t)(n - 2);
        c.board[1] = (uint8_t)(n - 1);
    }
    return c;
}

/* Planned in 120 slides at weight 64 over 1. */
static const struct call longest = {4, 4, 64, 1, {10, 11, 0, 14, 3, 6, 5, 12, 7, 13, 2, 8, 15, 4, 9, 1}, LOWPENGINE_MOVES, 0, 0, 0, 0};

/* The most stack of plans of all shapes at some weights. */
static size_t most_of_plans(void) {
    static const uint32_t weights[][2] = {{1, 1}, {3, 2}, {2, 1}, {3, 1}, {5, 1}, {8, 1}, {16, 1}, {64, 1}};
    size_t most = 0;
    for (uint32_t width = 2; width <= 4; width++)
        for (uint32_t height = 2; height <= 4; height++)
            for (size_t w = 0; w < sizeof weights / sizeof weights[0]; w++) {
                struct call c = far_board(width, height, weights[w][0], weights[w][1]);
                size_t bytes = used(&c);
                most = bytes > most ? bytes : most;
            }
    return most;
}

int main(void) {
    size_t plan = used(&longest), others = most_of_plans(), play = 0;
    for (size_t i = 0; i < LONG; i++)
        list[i] = i % 2 == 0 ? LOWPENGINE_UP : LOWPENGINE_DOWN;
    struct call c = far_board(4, 4, 1, 1);
    int grows = 0, refused = lowpengine_length(answered(&longest)) != LOWPENGINE_MOVES;
    for (c.played = 10; c.played <= LONG; c.played *= 10) {
        size_t bytes = used(&c);
        refused |= lowpengine_number(answered(&c)) != LOWPENGINE_DONE;
        grows |= play > 0 && bytes != play;
        play = bytes > play ? bytes : play;
    }
    /* the goal, down and up again as often as a list may */
    for (size_t i = 0; i < LONG; i++)
        list[i] = i % 2 == 0 ? LOWPENGINE_DOWN : LOWPENGINE_UP;
    for (uint8_t i = 0; i < LOWPENGINE_CELLS; i++)
        c.board[i] = i;
    c.played = 0;
    c.stored = LOWPENGINE_MOVES;
    size_t record = used(&c);
    refused |= lowpengine_record_length(answered(&c)) != LOWPENGINE_RECORD_BYTES;
    c.read = LOWPENGINE_RECORD_BYTES;
    size_t reading = used(&c);
    refused |= lowpengine_read_length(answered(&c)) != LOWPENGINE_MOVES;
    /* one cycle through all cells: as many exchanges as there can be */
    for (uint8_t i = 0; i < LOWPENGINE_CELLS; i++)
        c.board[i] = (uint8_t)((i + 1) % LOWPENGINE_CELLS);
    c.reached = 1;
    size_t reach = used(&c);
    refused |= lowpengine_number(answered(&c)) != LOWPENGINE_UNREACHABLE;
    printf("stack of a plan %u bytes at the last depth, %u in others; of a play %u bytes; of a record %u bytes, and %u to read it\n",
           (unsigned)plan, (unsigned)others, (unsigned)play, (unsigned)record, (unsigned)reading);
    printf("stack of a reachability test %u bytes\n", (unsigned)reach);
    return plan > ENOUGH || play > ENOUGH || record > ENOUGH || reading > ENOUGH || reach > ENOUGH || grows || refused
           || plan < others;
}
