/*
 * lowpengine.h: planner, player, plan records and a reachability test for sliding tray cabinets of 2 by 2 to 4 by 4 cells.
 *
 * Link with liblowpengine.a. All state is in the arguments: any number of threads may call at the same time, each with buffers
 * of its own. No entry allocates, prints, keeps a pointer or fails to return. 64 KiB of stack are enough for any call.
 *
 * A cabinet of width x height has n = width * height cells, numbered row by row from the top left. A board is n bytes: byte i
 * is the tray in cell i, 0 is the empty cell, and each of 0 .. n - 1 stands once. The goal is 0, 1, 2, .. n - 1. A move is one
 * byte, the way that the empty cell goes (enum lowpengine_move).
 *
 * Every slice is a pointer and a length in bytes. The only thing asked of a caller is that these are valid: the length can be
 * read there (and written, where the pointer is not to const), and a buffer that is written to overlaps no other slice of the
 * call. A slice of length 0 may have a null pointer. All other arguments are tested; a bad one is refused by its number.
 */
#ifndef LOWPENGINE_H
#define LOWPENGINE_H

#include <stddef.h>
#include <stdint.h>

/* The version of this header and of the archive that was installed with it. docs/C-INTERFACE.md says what changes it. */
#define LOWPENGINE_VERSION "1.0.0"
#define LOWPENGINE_VERSION_MAJOR 1
#define LOWPENGINE_VERSION_MINOR 0
#define LOWPENGINE_VERSION_PATCH 0

#ifdef __cplusplus
extern "C" {
#endif

/* Buffers of these sizes serve every call. */
enum {
    LOWPENGINE_CELLS = 16,          /* bytes of the largest board */
    LOWPENGINE_MOVES = 120,         /* bytes of the longest plan, and the highest ceiling */
    LOWPENGINE_TABLE_NUMBERS = 484, /* numbers of the largest table, 4 * (120 + 1) */
    LOWPENGINE_TABLE_BYTES = 968,   /* the same in bytes, two for each number, low byte first */
    LOWPENGINE_RECORD_BYTES = 149,  /* bytes of the longest record */
    LOWPENGINE_READ_BYTES = 136     /* bytes that reading a record gives at most: the largest board and the longest plan */
};

/* The weight of the short call, p over q; a record of its plan names it. */
enum { LOWPENGINE_SHORT_P = 3, LOWPENGINE_SHORT_Q = 2 };

/* Where the empty cell goes. */
enum lowpengine_move { LOWPENGINE_UP = 0, LOWPENGINE_LEFT = 1, LOWPENGINE_RIGHT = 2, LOWPENGINE_DOWN = 3 };

/*
 * What an answer says: 0 if it was done, else why it was refused. Each number has one name, whichever entry answers it, so one
 * switch can serve all entries. The planner entries answer 0 to 11 and 15; lowpengine_play answers 0, 1 to 4, 8, 13 and 14;
 * lowpengine_write_record answers 0, 1 to 8, 13 to 15, 21 and 22; lowpengine_read_record the same but 2, and 17 to 20;
 * lowpengine_reachable answers 0, 1 to 4 and 9.
 */
enum lowpengine_result {
    LOWPENGINE_DONE = 0,            /* not refused: a plan was found; every move was played; the record was written or read; not 9 */
    LOWPENGINE_BAD_SHAPE = 1,       /* width or height is not 2, 3 or 4 */
    LOWPENGINE_BAD_LENGTH = 2,      /* the board has not n bytes */
    LOWPENGINE_BAD_VALUE = 3,       /* a byte of the board is n or more; the cell is the first such */
    LOWPENGINE_REPEATED_VALUE = 4,  /* a byte of the board stands twice; the cell is the first that repeats an earlier one */
    LOWPENGINE_BAD_CEILING = 5,     /* the ceiling is not 0 to 120 */
    LOWPENGINE_BAD_BUDGET = 6,      /* the budget, or a record's visits, is not 1 to 1,000,000 */
    LOWPENGINE_BAD_WEIGHT = 7,      /* the weight p over q has q = 0, p < q or p > 64 */
    LOWPENGINE_SHORT_BUFFER = 8,    /* a buffer is too short: moves or table of a plan, out of the other entries */
    LOWPENGINE_UNREACHABLE = 9,     /* no list of moves, however long, leads from this board to the goal */
    LOWPENGINE_NO_PLAN = 10,        /* no list of moves within the ceiling leads to the goal */
    LOWPENGINE_BUDGET_SPENT = 11,   /* the budget ran out before the search could tell */
    LOWPENGINE_MALFORMED_TEXT = 12, /* of the job program alone: its input is no job line; no entry answers this */
    LOWPENGINE_BAD_MOVE = 13,       /* a byte of the move list is above 3; the place is its index */
    LOWPENGINE_OFF_GRID = 14,       /* a move takes the empty cell off the grid; the place is its index */
    LOWPENGINE_NOT_LOWEST = 15,     /* the weight p over q is not in lowest terms: some number above 1 divides both p and q */
    LOWPENGINE_CUT_SHORT = 17,      /* a record ends too early; the place is its length */
    LOWPENGINE_BAD_NUMBER = 18,     /* a number in a record has a group too many or is over 32 bits; the place is its first byte */
    LOWPENGINE_WRONG_MARK = 19,     /* a record's mark is not that of the bytes before it */
    LOWPENGINE_BYTES_AFTER = 20,    /* bytes follow the end of a record; the place is the first of them */
    LOWPENGINE_ABOVE_CEILING = 21,  /* the move list is longer than the ceiling, or than a record can hold */
    LOWPENGINE_NOT_SOLVED = 22      /* the move list does not end at the goal */
};

/*
 * Plans a list of moves from the board to the goal.
 *
 *   ceiling  the most moves that the plan may have, 0 to 120
 *   budget   the most positions that the search may visit, 1 to 1,000,000; a position visited again counts again
 *   p, q     the weight p over q, at least 1 over 1, p at most 64, and in lowest terms. A plan of L moves has q * L <= p * D for
 *            every list of D moves to the goal: 1 over 1 gives a shortest plan, a larger weight a longer one in fewer visits as
 *            a rule
 *   moves    receives the plan; at least `ceiling` bytes
 *   table    at least 4 * (ceiling + 1) numbers of two bytes. Its length is tested (8), and after a search that many numbers
 *            are cleared; nothing is read from it, for the search keeps its numbers on the stack. An odd last byte is not
 *            counted and never touched. It need not be aligned
 *
 * The arguments are tested in the order of the numbers 1 to 7, then 15, 8 and 9, and the first that applies is the answer. Then
 * the search runs and ends in a plan, in 10 or in 11. What stood in moves and table before the call never matters.
 *
 *   afterwards         moves                        table
 *   1 to 9, and 15     as before                    as before
 *   refused, 10 or 11  as before                    4 * (ceiling + 1) numbers that are 0, then as before
 *   a plan             its L moves, then as before  4 * (ceiling + 1) numbers that are 0, then as before
 *
 * The answer is taken apart by lowpengine_number, _cell, _length and _visits. A field that does not apply is 0: the cell but in
 * 3 and 4, the length in a refusal, the visits in a refusal but 10 and 11. In 11 they are the budget.
 */
uint64_t lowpengine_plan(uint32_t width, uint32_t height, const uint8_t *board, size_t board_len, int32_t ceiling,
                         uint32_t budget, uint32_t p, uint32_t q, uint8_t *moves, size_t moves_len, uint8_t *table,
                         size_t table_len);

/*
 * The short call: lowpengine_plan with the weight LOWPENGINE_SHORT_P over LOWPENGINE_SHORT_Q, which is 3 over 2, for an early plan.
 * A plan of L moves has 2 * L <= 3 * D for every list of D moves to the goal. Who needs a shortest plan asks lowpengine_plan for
 * 1 over 1 by name.
 */
uint64_t lowpengine_plan_short(uint32_t width, uint32_t height, const uint8_t *board, size_t board_len, int32_t ceiling,
                               uint32_t budget, uint8_t *moves, size_t moves_len, uint8_t *table, size_t table_len);

/*
 * Plays a list of moves, of any length, on the board.
 *
 *   moves    the list; its bytes are not trusted
 *   out      receives the board that the list ends at; at least n bytes
 *
 * Tested in this order: 1 to 4 as above, 8 if out is shorter than n, then the moves one after the other, and the first bad one
 * is the answer: 13 or 14. When all were played the number is 0, the first n bytes of out are the board reached, and the rest
 * of out stays. A refusal leaves the whole of out as before. What stood in out never matters.
 *
 * The answer is taken apart by lowpengine_number, lowpengine_is_goal, and lowpengine_place for the cell of 3 and 4 and the
 * index of the bad move of 13 and 14. An index of 2^56 - 1 or more is given as 2^56 - 1; no list in memory is that long.
 */
uint64_t lowpengine_play(uint32_t width, uint32_t height, const uint8_t *board, size_t board_len, const uint8_t *moves,
                         size_t moves_len, uint8_t *out, size_t out_len);

/*
 * Writes a plan as a record, for storing it or for sending it to another cabinet.
 *
 *   ceiling  as the plan was asked for,
 *   p, q     and so the weight; both are tested as lowpengine_plan tests them
 *   visits   what the search took, as lowpengine_visits gives it; tested as a budget, 1 to 1,000,000
 *   moves    the plan: moves_len is its length, not the size of the buffer that it stands in
 *   out      receives the record; LOWPENGINE_RECORD_BYTES always serve
 *
 * A record is, one behind the other: width, height, the n cells, ceiling, p, q, visits and the number of moves; the moves, a
 * byte each; and a mark of four bytes, high byte first. A number is groups of seven bits, the most significant group first, with
 * the top bit set on all groups but the last and no group too many: one byte below 128, two below 16,384, three for the largest
 * visits. The mark is 32-bit FNV-1a (start 2166136261, factor 16777619) of all bytes before it.
 *
 * Tested in this order: 1 to 4 as above; 5, 6 (the visits), 7 and 15; 21 if there are more moves than the ceiling; the moves one after
 * the other, and the first bad one is the answer, 13 or 14; 22 if the list does not end at the goal; 8 if out is shorter than
 * the record. So what is written leads to the goal within the ceiling. That a search found it is not tested: any such list is
 * taken. When the number is 0, out begins with the record and the rest of out stays. A refusal leaves the whole of out as
 * before. What stood in out never matters.
 *
 * The answer is taken apart by lowpengine_number, lowpengine_record_length, and lowpengine_place for the cell of 3 and 4 and the
 * index of the bad move of 13 and 14.
 */
uint64_t lowpengine_write_record(uint32_t width, uint32_t height, const uint8_t *board, size_t board_len, int32_t ceiling,
                                 uint32_t p, uint32_t q, uint32_t visits, const uint8_t *moves, size_t moves_len, uint8_t *out,
                                 size_t out_len);

/*
 * Reads a record, as lowpengine_write_record writes it, from bytes that are not trusted.
 *
 *   record   the bytes; record_len is the record's length, not the size of the buffer that it stands in
 *   out      receives the n cells and behind them the moves; LOWPENGINE_READ_BYTES always serve
 *
 * The numbers are read one after the other, and the first fault met is the answer: 17 if the bytes end; 18 if a number begins with
 * byte 128, has the top bit set on its fifth byte or is over 32 bits; 1 if a width or height is not 2, 3 or 4, before what follows
 * it is read; 21 if there are more than 120 moves. Then 17 if the moves or the mark are cut short, 20 if bytes follow the mark, 19
 * if the mark is wrong. Then as lowpengine_write_record tests: 3 and 4, 5 to 7, 15, 21, 13 or 14, 22, and 8 if out is shorter than
 * the cells and the moves. So what is read leads to the goal within the ceiling, and lowpengine_write_record writes it as the same
 * bytes. When the number is 0, out begins with cells and moves and the rest of out stays. A refusal leaves the whole of out as
 * before. What stood in out never matters.
 *
 * The answer is taken apart by lowpengine_number, lowpengine_place and, for what was read, by the functions lowpengine_read_..
 * below. The board is out with lowpengine_read_cells bytes; the plan begins behind it and has lowpengine_read_length moves. The
 * place is a byte of the record for 1, 17, 18 and 20 and for 21 with more than 120 moves; the cell of 3 and 4; the index of the
 * bad move of 13 and 14; else 0. A place of 2^56 - 1 or more is given as 2^56 - 1.
 */
uint64_t lowpengine_read_record(const uint8_t *record, size_t record_len, uint8_t *out, size_t out_len);

/*
 * Tells whether the planner would answer 9 for the board, without planning: one pass over its cells, with at most n - 1
 * exchanges on a copy. It is meant for each key press.
 *
 * Tested in this order: 1 to 4 as above, then 9: no list of moves, however long, leads from the board to the goal. 0 promises
 * only that the planner would not answer 9, whatever else it is given: nothing of a plan within a ceiling or a budget.
 *
 * The answer is taken apart by lowpengine_number, and lowpengine_cell for the cell of 3 and 4.
 */
uint64_t lowpengine_reachable(uint32_t width, uint32_t height, const uint8_t *board, size_t board_len);

/* Of any answer: LOWPENGINE_DONE or the refusal. */
static inline enum lowpengine_result lowpengine_number(uint64_t answer) { return (enum lowpengine_result)(answer & 0xff); }

/* Of a plan answer, and of a reachability test: the cell of 3 and 4, else 0. */
static inline uint32_t lowpengine_cell(uint64_t answer) { return (uint32_t)(answer >> 8 & 0xff); }

/* Of a plan answer: the moves in the plan, 0 for a refusal. */
static inline uint32_t lowpengine_length(uint64_t answer) { return (uint32_t)(answer >> 16 & 0xffff); }

/* Of a plan answer: the visits made, 0 in a refusal but 10 and 11. */
static inline uint32_t lowpengine_visits(uint64_t answer) { return (uint32_t)(answer >> 32); }

/* Of a refused play or record: the cell of 3 and 4, the index of the bad move of 13 and 14, a byte of a record read, else 0. */
static inline uint64_t lowpengine_place(uint64_t answer) { return (answer & 0xff) == 0 ? 0 : answer >> 8; }

/* Of a play: 1 if every move was played and the board reached is the goal, else 0. */
static inline int lowpengine_is_goal(uint64_t answer) { return answer == 1u << 8; }

/* Of a record written: its bytes, 0 for a refusal. */
static inline uint32_t lowpengine_record_length(uint64_t answer) { return (answer & 0xff) == 0 ? (uint32_t)(answer >> 8) : 0; }

/* Of a record read, each 0 for a refusal: the sides, the cells (their product), ceiling, weight p over q, visits, and the moves. */
static inline uint32_t lowpengine_read_field(uint64_t answer, int bit, uint32_t most) {
    return (answer & 0xff) == 0 ? (uint32_t)(answer >> bit) & most : 0;
}
static inline uint32_t lowpengine_read_width(uint64_t answer) { return lowpengine_read_field(answer, 8, 7); }
static inline uint32_t lowpengine_read_height(uint64_t answer) { return lowpengine_read_field(answer, 11, 7); }
static inline uint32_t lowpengine_read_cells(uint64_t answer) {
    return lowpengine_read_width(answer) * lowpengine_read_height(answer);
}
static inline int32_t lowpengine_read_ceiling(uint64_t answer) { return (int32_t)lowpengine_read_field(answer, 14, 127); }
static inline uint32_t lowpengine_read_p(uint64_t answer) { return lowpengine_read_field(answer, 21, 127); }
static inline uint32_t lowpengine_read_q(uint64_t answer) { return lowpengine_read_field(answer, 28, 127); }
static inline uint32_t lowpengine_read_length(uint64_t answer) { return lowpengine_read_field(answer, 35, 127); }
static inline uint32_t lowpengine_read_visits(uint64_t answer) { return lowpengine_read_field(answer, 42, 0xfffff); }

#ifdef __cplusplus
}
#endif

#endif
