/*
 * Switches over the numbers of each entry, as a caller would, and makes a call for each number. Compiled with every warning as
 * an error, in C and in C++: two cases for one number, a name that the header lacks, or a number that no case names does not
 * compile. It ends with status 0 if each call comes to its own case.
 */
#include "lowpengine.h"
#include <stdio.h>

/* Of a planner entry. */
static const char *plan_case(uint64_t answer) {
    switch (lowpengine_number(answer)) {
    case LOWPENGINE_DONE: return "plan";
    case LOWPENGINE_BAD_SHAPE: return "shape";
    case LOWPENGINE_BAD_LENGTH: return "length";
    case LOWPENGINE_BAD_VALUE: return "value";
    case LOWPENGINE_REPEATED_VALUE: return "repeated";
    case LOWPENGINE_BAD_CEILING: return "ceiling";
    case LOWPENGINE_BAD_BUDGET: return "budget";
    case LOWPENGINE_BAD_WEIGHT: return "weight";
    case LOWPENGINE_SHORT_BUFFER: return "short";
    case LOWPENGINE_UNREACHABLE: return "unreachable";
    case LOWPENGINE_NO_PLAN: return "no plan";
    case LOWPENGINE_BUDGET_SPENT: return "spent";
    case LOWPENGINE_NOT_LOWEST: return "not lowest";
    default: return "no answer of a planner entry";
    }
}

/* Of the player. */
static const char *play_case(uint64_t answer) {
    switch (lowpengine_number(answer)) {
    case LOWPENGINE_DONE: return lowpengine_is_goal(answer) ? "played to the goal" : "played";
    case LOWPENGINE_BAD_SHAPE: return "shape";
    case LOWPENGINE_BAD_LENGTH: return "length";
    case LOWPENGINE_BAD_VALUE: return "value";
    case LOWPENGINE_REPEATED_VALUE: return "repeated";
    case LOWPENGINE_SHORT_BUFFER: return "short";
    case LOWPENGINE_BAD_MOVE: return "bad move";
    case LOWPENGINE_OFF_GRID: return "off the grid";
    default: return "no answer of the player";
    }
}

/* Of the record writer. */
static const char *record_case(uint64_t answer) {
    switch (lowpengine_number(answer)) {
    case LOWPENGINE_DONE: return lowpengine_record_length(answer) == LOWPENGINE_RECORD_BYTES ? "longest record" : "record";
    case LOWPENGINE_BAD_SHAPE: return "shape";
    case LOWPENGINE_BAD_LENGTH: return "length";
    case LOWPENGINE_BAD_VALUE: return "value";
    case LOWPENGINE_REPEATED_VALUE: return "repeated";
    case LOWPENGINE_BAD_CEILING: return "ceiling";
    case LOWPENGINE_BAD_BUDGET: return "visits";
    case LOWPENGINE_BAD_WEIGHT: return "weight";
    case LOWPENGINE_SHORT_BUFFER: return "short";
    case LOWPENGINE_BAD_MOVE: return lowpengine_place(answer) == 1 ? "bad move" : "bad move at another place";
    case LOWPENGINE_OFF_GRID: return lowpengine_place(answer) == 1 ? "off the grid" : "off the grid at another place";
    case LOWPENGINE_ABOVE_CEILING: return "above the ceiling";
    case LOWPENGINE_NOT_SOLVED: return "not solved";
    case LOWPENGINE_NOT_LOWEST: return "not lowest";
    default: return "no answer of the record writer";
    }
}

/* Of the record reader. A record that is read is one of the two that are made below, in every field. */
static const char *reading_case(uint64_t answer) {
    uint32_t fields = lowpengine_read_width(answer) + lowpengine_read_height(answer) + lowpengine_read_cells(answer)
                    + (uint32_t)lowpengine_read_ceiling(answer) + lowpengine_read_p(answer) + lowpengine_read_q(answer)
                    + lowpengine_read_visits(answer) + lowpengine_read_length(answer);
    if (lowpengine_number(answer) != LOWPENGINE_DONE && fields != 0)
        return "fields of a record that is refused";
    switch (lowpengine_number(answer)) {
    case LOWPENGINE_DONE:
        if (lowpengine_read_width(answer) == 2 && lowpengine_read_height(answer) == 2 && lowpengine_read_cells(answer) == 4
            && lowpengine_read_ceiling(answer) == 3 && lowpengine_read_p(answer) == 5 && lowpengine_read_q(answer) == 1
            && lowpengine_read_visits(answer) == 7 && lowpengine_read_length(answer) == 2)
            return "read";
        if (lowpengine_read_width(answer) == 4 && lowpengine_read_height(answer) == 4 && lowpengine_read_cells(answer) == 16
            && lowpengine_read_ceiling(answer) == 120 && lowpengine_read_p(answer) == 64 && lowpengine_read_q(answer) == 63
            && lowpengine_read_visits(answer) == 1000000 && lowpengine_read_length(answer) == 120)
            return "longest record read";
        return "read to other fields";
    case LOWPENGINE_BAD_SHAPE: return lowpengine_place(answer) == 1 ? "shape" : "shape at another place";
    case LOWPENGINE_BAD_VALUE: return lowpengine_place(answer) == 1 ? "value" : "value at another place";
    case LOWPENGINE_REPEATED_VALUE: return lowpengine_place(answer) == 1 ? "repeated" : "repeated at another place";
    case LOWPENGINE_BAD_CEILING: return "ceiling";
    case LOWPENGINE_BAD_BUDGET: return "visits";
    case LOWPENGINE_BAD_WEIGHT: return "weight";
    case LOWPENGINE_SHORT_BUFFER: return "short";
    case LOWPENGINE_BAD_MOVE: return lowpengine_place(answer) == 1 ? "bad move" : "bad move at another place";
    case LOWPENGINE_OFF_GRID: return lowpengine_place(answer) == 1 ? "off the grid" : "off the grid at another place";
    case LOWPENGINE_CUT_SHORT: return lowpengine_place(answer) == 16 ? "cut short" : "cut short at another place";
    case LOWPENGINE_BAD_NUMBER: return lowpengine_place(answer) == 9 ? "bad number" : "bad number at another place";
    case LOWPENGINE_WRONG_MARK: return lowpengine_place(answer) == 0 ? "wrong mark" : "wrong mark at a place";
    case LOWPENGINE_BYTES_AFTER: return lowpengine_place(answer) == 17 ? "bytes after" : "bytes after another place";
    case LOWPENGINE_ABOVE_CEILING: return lowpengine_place(answer) == 10 ? "more than a record holds" : "above the ceiling";
    case LOWPENGINE_NOT_SOLVED: return "not solved";
    case LOWPENGINE_NOT_LOWEST: return "not lowest";
    default: return "no answer of the record reader";
    }
}

/* Of the reachability test. */
static const char *reach_case(uint64_t answer) {
    switch (lowpengine_number(answer)) {
    case LOWPENGINE_DONE: return "not ruled out";
    case LOWPENGINE_BAD_SHAPE: return "shape";
    case LOWPENGINE_BAD_LENGTH: return "length";
    case LOWPENGINE_BAD_VALUE: return lowpengine_cell(answer) == 3 ? "value" : "value of another cell";
    case LOWPENGINE_REPEATED_VALUE: return lowpengine_cell(answer) == 3 ? "repeated" : "repeated at another cell";
    case LOWPENGINE_UNREACHABLE: return "unreachable";
    default: return "no answer of the reachability test";
    }
}

/* Of any entry, without a default: the compiler asks for every name that the header has. */
static int number_of(uint64_t answer) {
    switch (lowpengine_number(answer)) {
    case LOWPENGINE_DONE: return 0;
    case LOWPENGINE_BAD_SHAPE: return 1;
    case LOWPENGINE_BAD_LENGTH: return 2;
    case LOWPENGINE_BAD_VALUE: return 3;
    case LOWPENGINE_REPEATED_VALUE: return 4;
    case LOWPENGINE_BAD_CEILING: return 5;
    case LOWPENGINE_BAD_BUDGET: return 6;
    case LOWPENGINE_BAD_WEIGHT: return 7;
    case LOWPENGINE_SHORT_BUFFER: return 8;
    case LOWPENGINE_UNREACHABLE: return 9;
    case LOWPENGINE_NO_PLAN: return 10;
    case LOWPENGINE_BUDGET_SPENT: return 11;
    case LOWPENGINE_MALFORMED_TEXT: return 12;
    case LOWPENGINE_BAD_MOVE: return 13;
    case LOWPENGINE_OFF_GRID: return 14;
    case LOWPENGINE_NOT_LOWEST: return 15;
    case LOWPENGINE_CUT_SHORT: return 17;
    case LOWPENGINE_BAD_NUMBER: return 18;
    case LOWPENGINE_WRONG_MARK: return 19;
    case LOWPENGINE_BYTES_AFTER: return 20;
    case LOWPENGINE_ABOVE_CEILING: return 21;
    case LOWPENGINE_NOT_SOLVED: return 22;
    }
    return -1;
}

static int wrong = 0, cases = 0;

static void expect(const char *found, const char *wanted, int number, int wanted_number) {
    size_t i = 0;
    while (found[i] != 0 && found[i] == wanted[i])
        i++;
    cases++;
    if (found[i] != wanted[i] || number != wanted_number) {
        printf("numbers: the case '%s' with number %d, not '%s' with %d\n", found, number, wanted, wanted_number);
        wrong++;
    }
}

static void plan(uint32_t width, size_t len, uint8_t last, int32_t ceiling, uint32_t budget, uint32_t p, size_t room,
                 const char *wanted, int number) {
    uint8_t moves[LOWPENGINE_MOVES], table[LOWPENGINE_TABLE_BYTES], board[] = {3, 2, 1, 0, 0};
    board[3] = last;
    uint64_t answer = lowpengine_plan(width, 2, board, len, ceiling, budget, p, 1, moves, room, table, sizeof table);
    expect(plan_case(answer), wanted, number_of(answer), number);
}

static void play(uint32_t width, size_t len, uint8_t last, uint8_t move, size_t room, const char *wanted, int number) {
    uint8_t out[LOWPENGINE_CELLS], board[] = {1, 0, 2, 3, 0};
    board[3] = last;
    uint64_t answer = lowpengine_play(width, 2, board, len, &move, 1, out, room);
    expect(play_case(answer), wanted, number_of(answer), number);
}

/* The board 1 0 2 3 unless its last byte is another. */
static void reach(uint32_t width, size_t len, uint8_t last, const char *wanted, int number) {
    uint8_t board[] = {1, 0, 2, 3, 0};
    board[3] = last;
    uint64_t answer = lowpengine_reachable(width, 2, board, len);
    expect(reach_case(answer), wanted, number_of(answer), number);
}

/* The board 1 3 2 0 and two moves, up and left unless the second is another. A record of it has 17 bytes. */
static void record(uint32_t width, size_t len, uint8_t last, int32_t ceiling, uint32_t visits, uint32_t p, uint8_t second,
                   size_t room, const char *wanted, int number) {
    uint8_t out[LOWPENGINE_RECORD_BYTES], board[] = {1, 3, 2, 0, 0}, moves[] = {LOWPENGINE_UP, LOWPENGINE_LEFT};
    board[3] = last;
    moves[1] = second;
    uint64_t answer = lowpengine_write_record(width, 2, board, len, ceiling, p, 1, visits, moves, sizeof moves, out, room);
    expect(record_case(answer), wanted, number_of(answer), number);
}

/* The record of the board 1 3 2 0, ceiling 3, weight 5 over 1, 7 visits, and up and left, with one byte another and the mark made
 * right. Of these 17 bytes so many are read, or 0 for all of them with a wrong mark. */
static void read_back(size_t at, uint8_t byte, size_t len, size_t room, const char *wanted, int number) {
    uint8_t out[LOWPENGINE_READ_BYTES];
    uint8_t bytes[] = {2, 2, 1, 3, 2, 0, 3, 5, 1, 7, 2, LOWPENGINE_UP, LOWPENGINE_LEFT, 0, 0, 0, 0, 0};
    bytes[at] = byte;
    uint32_t mark = 2166136261u;
    for (size_t i = 0; i < 13; i++)
        mark = (mark ^ bytes[i]) * 16777619u;
    for (size_t i = 0; i < 4; i++)
        bytes[13 + i] = (uint8_t)(mark >> (24 - 8 * i));
    if (len == 0)
        bytes[16] ^= 1;
    uint64_t answer = lowpengine_read_record(bytes, len == 0 ? 17 : len, out, room);
    expect(reading_case(answer), wanted, number_of(answer), number);
}

/* Sixteen cells, as many moves as there may be, and visits of three groups; read back where it was written. */
static void longest(size_t room, const char *wanted, int number) {
    uint8_t out[LOWPENGINE_RECORD_BYTES], board[LOWPENGINE_CELLS], moves[LOWPENGINE_MOVES];
    for (uint8_t i = 0; i < LOWPENGINE_CELLS; i++)
        board[i] = i;
    for (size_t i = 0; i < LOWPENGINE_MOVES; i++)
        moves[i] = i % 2 == 0 ? LOWPENGINE_RIGHT : LOWPENGINE_LEFT;
    uint64_t answer = lowpengine_write_record(4, 4, board, sizeof board, LOWPENGINE_MOVES, 64, 63, 1000000, moves, sizeof moves,
                                              out, room);
    expect(record_case(answer), wanted, number_of(answer), number);
    if (lowpengine_number(answer) != LOWPENGINE_DONE)
        return;
    uint8_t plan[LOWPENGINE_READ_BYTES];
    answer = lowpengine_read_record(out, lowpengine_record_length(answer), plan, sizeof plan);
    expect(reading_case(answer), "longest record read", number_of(answer), 0);
    for (size_t i = 0; i < sizeof plan; i++)
        wrong += plan[i] != (i < LOWPENGINE_CELLS ? board[i] : moves[i - LOWPENGINE_CELLS]);
}

/* On this board 3 over 2 gives twelve moves, a shortest list has ten: the short call's weight is the one that the header names. */
static void short_call(void) {
    static const uint8_t board[] = {5, 2, 1, 0, 3, 4};
    uint8_t moves[LOWPENGINE_MOVES], table[LOWPENGINE_TABLE_BYTES];
    uint64_t answer = lowpengine_plan_short(2, 3, board, sizeof board, 20, 20, moves, sizeof moves, table, sizeof table);
    uint64_t named = lowpengine_plan(2, 3, board, sizeof board, 20, 20, LOWPENGINE_SHORT_P, LOWPENGINE_SHORT_Q, moves, sizeof moves,
                                     table, sizeof table);
    uint64_t shortest = lowpengine_plan(2, 3, board, sizeof board, 20, 20, 1, 1, moves, sizeof moves, table, sizeof table);
    expect(answer == named ? "at the weight named" : "at another weight", "at the weight named", number_of(answer), 0);
    expect(lowpengine_length(answer) == 12 && lowpengine_length(shortest) == 10 ? "early" : "at 1 over 1", "early",
           number_of(shortest), 0);
}

int main(void) {
    plan(2, 4, 0, 6, 7, 1, 120, "plan", 0);
    plan(5, 4, 0, 6, 7, 1, 120, "shape", 1);
    plan(2, 5, 0, 6, 7, 1, 120, "length", 2);
    plan(2, 4, 4, 6, 7, 1, 120, "value", 3);
    plan(2, 4, 2, 6, 7, 1, 120, "repeated", 4);
    plan(2, 4, 0, -1, 7, 1, 120, "ceiling", 5);
    plan(2, 4, 0, 6, 0, 1, 120, "budget", 6);
    plan(2, 4, 0, 6, 7, 65, 120, "weight", 7);
    plan(2, 4, 0, 6, 7, 1, 5, "short", 8);
    plan(2, 4, 0, 5, 11, 1, 120, "no plan", 10);
    plan(2, 4, 0, 6, 6, 1, 120, "spent", 11);

    uint8_t moves[LOWPENGINE_MOVES], table[LOWPENGINE_TABLE_BYTES];
    const uint8_t odd[] = {0, 2, 1, 3};
    uint64_t answer = lowpengine_plan_short(2, 2, odd, sizeof odd, 6, 9, moves, sizeof moves, table, sizeof table);
    expect(plan_case(answer), "unreachable", number_of(answer), 9);
    answer = lowpengine_plan(2, 2, odd, sizeof odd, 6, 9, 9, 6, moves, sizeof moves, table, sizeof table);
    expect(plan_case(answer), "not lowest", number_of(answer), 15);
    short_call();

    play(2, 4, 3, LOWPENGINE_LEFT, 4, "played to the goal", 0);
    play(2, 4, 3, LOWPENGINE_DOWN, 4, "played", 0);
    play(1, 4, 3, LOWPENGINE_LEFT, 4, "shape", 1);
    play(2, 5, 3, LOWPENGINE_LEFT, 4, "length", 2);
    play(2, 4, 4, LOWPENGINE_LEFT, 4, "value", 3);
    play(2, 4, 2, LOWPENGINE_LEFT, 4, "repeated", 4);
    play(2, 4, 3, LOWPENGINE_LEFT, 3, "short", 8);
    play(2, 4, 3, 4, 4, "bad move", 13);
    play(2, 4, 3, LOWPENGINE_UP, 4, "off the grid", 14);

    record(2, 4, 0, 2, 3, 1, LOWPENGINE_LEFT, 17, "record", 0);
    record(1, 4, 0, 2, 3, 1, LOWPENGINE_LEFT, 17, "shape", 1);
    record(2, 5, 0, 2, 3, 1, LOWPENGINE_LEFT, 17, "length", 2);
    record(2, 4, 4, 2, 3, 1, LOWPENGINE_LEFT, 17, "value", 3);
    record(2, 4, 3, 2, 3, 1, LOWPENGINE_LEFT, 17, "repeated", 4);
    record(2, 4, 0, 121, 3, 1, LOWPENGINE_LEFT, 17, "ceiling", 5);
    record(2, 4, 0, 2, 1000001, 1, LOWPENGINE_LEFT, 17, "visits", 6);
    record(2, 4, 0, 2, 3, 0, LOWPENGINE_LEFT, 17, "weight", 7);
    record(2, 4, 0, 2, 3, 1, LOWPENGINE_LEFT, 16, "short", 8);
    record(2, 4, 0, 2, 3, 1, 4, 17, "bad move", 13);
    record(2, 4, 0, 2, 3, 1, LOWPENGINE_UP, 17, "off the grid", 14);
    record(2, 4, 0, 1, 3, 1, LOWPENGINE_LEFT, 17, "above the ceiling", 21);
    record(2, 4, 0, 2, 3, 1, LOWPENGINE_DOWN, 17, "not solved", 22);
    const uint8_t board[] = {1, 3, 2, 0}, two[] = {LOWPENGINE_UP, LOWPENGINE_LEFT};
    uint8_t stored[LOWPENGINE_RECORD_BYTES];
    answer = lowpengine_write_record(2, 2, board, sizeof board, 1, 4, 2, 3, two, sizeof two, stored, sizeof stored);
    expect(record_case(answer), "not lowest", number_of(answer), 15);
    longest(LOWPENGINE_RECORD_BYTES, "longest record", 0);
    longest(LOWPENGINE_RECORD_BYTES - 1, "short", 8);

    read_back(0, 2, 17, 6, "read", 0);
    read_back(1, 5, 17, 6, "shape", 1);
    read_back(3, 4, 17, 6, "value", 3);
    read_back(3, 1, 17, 6, "repeated", 4);
    read_back(6, 121, 17, 6, "ceiling", 5);
    read_back(9, 0, 17, 6, "visits", 6);
    read_back(7, 65, 17, 6, "weight", 7);
    read_back(8, 5, 17, 6, "not lowest", 15);
    read_back(0, 2, 17, 5, "short", 8);
    read_back(12, 4, 17, 6, "bad move", 13);
    read_back(12, LOWPENGINE_UP, 17, 6, "off the grid", 14);
    read_back(0, 2, 16, 6, "cut short", 17);
    read_back(9, 128, 17, 6, "bad number", 18);
    read_back(0, 2, 0, 6, "wrong mark", 19);
    read_back(0, 2, 18, 6, "bytes after", 20);
    read_back(6, 1, 17, 6, "above the ceiling", 21);
    read_back(10, 121, 17, 6, "more than a record holds", 21);
    read_back(12, LOWPENGINE_DOWN, 17, 6, "not solved", 22);
    reach(2, 4, 3, "not ruled out", 0);
    reach(5, 4, 3, "shape", 1);
    reach(2, 5, 3, "length", 2);
    reach(2, 4, 4, "value", 3);
    reach(2, 4, 2, "repeated", 4);
    answer = lowpengine_reachable(2, 2, odd, sizeof odd);
    expect(reach_case(answer), "unreachable", number_of(answer), 9);
    printf("%d calls, each to the case of its number\n", cases - wrong);
    return wrong != 0;
}
