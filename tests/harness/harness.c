/*
 * Calls the library's entries for another program, which may be of another processor. It reads calls from standard input
 * and writes, for each, the answer and the memory that the call left behind.
 *
 * A call is fourteen 32-bit numbers, low byte first, and the memory: entry (0 plan, 1 short plan, 2 play, 3 record written, 4
 * record read, 5 reachability test), width, height, ceiling, budget (or a record's visits), p, q; where board (or the record to
 * read), moves and table (or output) start in the memory, or NONE for a null pointer; their lengths; the memory's length. An
 * answer is eight bytes, low byte first. It ends with status 0 at the end of the input and with status 1 where the input is no
 * list of calls.
 */
#include "lowpengine.h"
#include <stdio.h>

enum { NUMBERS = 14, MOST = 1 << 16 };

static const uint32_t NONE = 0xffffffffu;

static uint8_t memory[MOST];

static uint8_t *place(uint32_t at) { return at == NONE ? NULL : memory + at; }

static uint64_t call(const uint32_t *n) {
    uint8_t *board = place(n[7]), *moves = place(n[8]), *third = place(n[9]);
    int32_t ceiling = (int32_t)n[3];
    if (n[0] == 0)
        return lowpengine_plan(n[1], n[2], board, n[10], ceiling, n[4], n[5], n[6], moves, n[11], third, n[12]);
    if (n[0] == 1)
        return lowpengine_plan_short(n[1], n[2], board, n[10], ceiling, n[4], moves, n[11], third, n[12]);
    if (n[0] == 3)
        return lowpengine_write_record(n[1], n[2], board, n[10], ceiling, n[5], n[6], n[4], moves, n[11], third, n[12]);
    if (n[0] == 4)
        return lowpengine_read_record(board, n[10], third, n[12]);
    if (n[0] == 5)
        return lowpengine_reachable(n[1], n[2], board, n[10]);
    return lowpengine_play(n[1], n[2], board, n[10], moves, n[11], third, n[12]);
}

/* Whether the entry exists and each slice lies in the memory. */
static int sound(const uint32_t *n) {
    if (n[0] > 5 || n[13] > MOST)
        return 0;
    for (int i = 0; i < 3; i++) {
        uint32_t at = n[7 + i], len = n[10 + i];
        if (at == NONE ? len != 0 : at > n[13] || len > n[13] - at)
            return 0;
    }
    return 1;
}

int main(void) {
    uint8_t bytes[4 * NUMBERS];
    for (;;) {
        size_t got = fread(bytes, 1, sizeof bytes, stdin);
        if (got == 0)
            return fflush(stdout) != 0;
        uint32_t n[NUMBERS];
        for (int i = 0; i < NUMBERS; i++)
            n[i] = bytes[4 * i] | (uint32_t)bytes[4 * i + 1] << 8 | (uint32_t)bytes[4 * i + 2] << 16
                 | (uint32_t)bytes[4 * i + 3] << 24;
        if (got != sizeof bytes || !sound(n) || fread(memory, 1, n[13], stdin) != n[13])
            return 1;
        uint64_t answer = call(n);
        for (int i = 0; i < 8; i++)
            bytes[i] = (uint8_t)(answer >> 8 * i);
        if (fwrite(bytes, 1, 8, stdout) != 8 || fwrite(memory, 1, n[13], stdout) != n[13])
            return 1;
    }
}
