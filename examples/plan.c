/*
 * Plans some boards and shows the cabinet after each slide and the record of the plan, which it reads back and plays as the next
 * cabinet would, or says why there is no plan. Then it makes a call for each refusal and names what comes back.
 *
 *   cc -std=c11 -I PREFIX/include examples/plan.c PREFIX/lib/liblowpengine.a -o plan
 */
#include "lowpengine.h"
#include <stdio.h>

struct job {
    const char *name;
    uint32_t width, height;
    uint8_t board[LOWPENGINE_CELLS];
    int32_t ceiling;
    uint32_t budget, p, q;
};

static const struct job jobs[] = {
    {"a morning's disorder", 3, 3, {1, 4, 2, 3, 7, 5, 6, 8, 0}, 20, 1000, 1, 1},
    {"the same, in three slides at most", 3, 3, {1, 4, 2, 3, 7, 5, 6, 8, 0}, 3, 1000, 1, 1},
    {"two trays exchanged", 3, 3, {0, 2, 1, 3, 4, 5, 6, 7, 8}, 20, 1000, 1, 1},
    {"a tray entered twice", 2, 2, {0, 1, 1, 3}, 20, 1000, 1, 1},
};

/* The name of each number, and what it says to an operator. Without a default: the compiler asks for a name that is missing. */
static const char *meaning(enum lowpengine_result number) {
    switch (number) {
    case LOWPENGINE_DONE: return "DONE, not refused";
    case LOWPENGINE_BAD_SHAPE: return "BAD_SHAPE, no cabinet has this shape";
    case LOWPENGINE_BAD_LENGTH: return "BAD_LENGTH, too many or too few cells";
    case LOWPENGINE_BAD_VALUE: return "BAD_VALUE, no such tray";
    case LOWPENGINE_REPEATED_VALUE: return "REPEATED_VALUE, this tray stands in an earlier cell";
    case LOWPENGINE_BAD_CEILING: return "BAD_CEILING, the ceiling is 0 to 120";
    case LOWPENGINE_BAD_BUDGET: return "BAD_BUDGET, the budget is 1 to 1,000,000";
    case LOWPENGINE_BAD_WEIGHT: return "BAD_WEIGHT, the weight is 1 to 64 as a fraction of whole numbers";
    case LOWPENGINE_SHORT_BUFFER: return "SHORT_BUFFER, a buffer is too short";
    case LOWPENGINE_UNREACHABLE: return "UNREACHABLE, no slides lead to the goal";
    case LOWPENGINE_NO_PLAN: return "NO_PLAN, not within the ceiling";
    case LOWPENGINE_BUDGET_SPENT: return "BUDGET_SPENT, the budget ran out";
    case LOWPENGINE_MALFORMED_TEXT: return "MALFORMED_TEXT, no job line";
    case LOWPENGINE_BAD_MOVE: return "BAD_MOVE, no such move";
    case LOWPENGINE_OFF_GRID: return "OFF_GRID, a move off the grid";
    case LOWPENGINE_NOT_LOWEST: return "NOT_LOWEST, the weight is not in lowest terms";
    case LOWPENGINE_CUT_SHORT: return "CUT_SHORT, the record is cut short";
    case LOWPENGINE_BAD_NUMBER: return "BAD_NUMBER, no number of a record is written so";
    case LOWPENGINE_WRONG_MARK: return "WRONG_MARK, the record was changed on its way";
    case LOWPENGINE_BYTES_AFTER: return "BYTES_AFTER, more than a record";
    case LOWPENGINE_ABOVE_CEILING: return "ABOVE_CEILING, more slides than the ceiling";
    case LOWPENGINE_NOT_SOLVED: return "NOT_SOLVED, the slides do not lead to the goal";
    }
    return "an answer of a later version";
}

static void show(uint32_t width, uint32_t height, const uint8_t *board) {
    for (uint32_t row = 0; row < height; row++) {
        for (uint32_t column = 0; column < width; column++) {
            unsigned tray = board[row * width + column];
            if (tray == 0)
                printf("  .");
            else
                printf(" %2u", tray);
        }
        putchar('\n');
    }
}

/* The cabinet after each slide. */
static void follow(uint32_t width, uint32_t height, const uint8_t *start, const uint8_t *moves, uint32_t length) {
    static const char *const ways[] = {"up", "left", "right", "down"};
    uint8_t board[LOWPENGINE_CELLS];
    for (uint32_t slide = 1; slide <= length; slide++) {
        uint64_t played = lowpengine_play(width, height, start, (size_t)width * height, moves, slide, board, sizeof board);
        if (lowpengine_number(played) != LOWPENGINE_DONE) {
            printf("slide %u: %s\n", (unsigned)lowpengine_place(played) + 1, meaning(lowpengine_number(played)));
            return;
        }
        printf("slide %u, the empty cell goes %s%s:\n", (unsigned)slide, ways[moves[slide - 1]],
               lowpengine_is_goal(played) ? ", to the goal" : "");
        show(width, height, board);
    }
}

/* What the next cabinet does with the bytes that it was sent: it trusts none of them. */
static void receive(const uint8_t *record, size_t length) {
    uint8_t plan[LOWPENGINE_READ_BYTES], end[LOWPENGINE_CELLS];
    uint64_t read = lowpengine_read_record(record, length, plan, sizeof plan);
    if (lowpengine_number(read) != LOWPENGINE_DONE) {
        printf("%u bytes are refused at %u: %s\n", (unsigned)length, (unsigned)lowpengine_place(read),
               meaning(lowpengine_number(read)));
        return;
    }
    uint32_t n = lowpengine_read_cells(read), slides = lowpengine_read_length(read);
    uint64_t played = lowpengine_play(lowpengine_read_width(read), lowpengine_read_height(read), plan, n, plan + n, slides, end,
                                      sizeof end);
    printf("read back: %u by %u, ceiling %d, weight %u over %u, %u visits, %u slides, %s\n", (unsigned)lowpengine_read_width(read),
           (unsigned)lowpengine_read_height(read), (int)lowpengine_read_ceiling(read), (unsigned)lowpengine_read_p(read),
           (unsigned)lowpengine_read_q(read), (unsigned)lowpengine_read_visits(read), (unsigned)slides,
           lowpengine_is_goal(played) ? "played to the goal" : "not to the goal");
}

/* The plan as a record, in hex: what a controller would store or send. */
static void store(const struct job *job, uint64_t answer, const uint8_t *moves) {
    uint8_t record[LOWPENGINE_RECORD_BYTES];
    size_t n = (size_t)job->width * job->height;
    uint64_t stored = lowpengine_write_record(job->width, job->height, job->board, n, job->ceiling, job->p, job->q,
                                              lowpengine_visits(answer), moves, lowpengine_length(answer), record, sizeof record);
    if (lowpengine_number(stored) != LOWPENGINE_DONE) {
        printf("not stored: %s\n", meaning(lowpengine_number(stored)));
        return;
    }
    printf("a record of %u bytes:", (unsigned)lowpengine_record_length(stored));
    for (uint32_t i = 0; i < lowpengine_record_length(stored); i++)
        printf(" %02x", (unsigned)record[i]);
    putchar('\n');
    receive(record, lowpengine_record_length(stored));
    receive(record, lowpengine_record_length(stored) - 1);
}

static void plan(const struct job *job) {
    uint8_t moves[LOWPENGINE_MOVES], table[LOWPENGINE_TABLE_BYTES];
    size_t n = (size_t)job->width * job->height;
    uint64_t answer = lowpengine_plan(job->width, job->height, job->board, n, job->ceiling, job->budget, job->p, job->q, moves,
                                      sizeof moves, table, sizeof table);
    enum lowpengine_result number = lowpengine_number(answer);

    printf("%s:\n", job->name);
    show(job->width, job->height, job->board);
    if (number == LOWPENGINE_DONE) {
        printf("%u slides, %u visits made\n", (unsigned)lowpengine_length(answer), (unsigned)lowpengine_visits(answer));
        follow(job->width, job->height, job->board, moves, lowpengine_length(answer));
        store(job, answer, moves);
    } else if (number == LOWPENGINE_BAD_VALUE || number == LOWPENGINE_REPEATED_VALUE)
        printf("refused at cell %u: %s\n", (unsigned)lowpengine_cell(answer), meaning(number));
    else
        printf("refused: %s (visits made: %u)\n", meaning(number), (unsigned)lowpengine_visits(answer));
    putchar('\n');
}

/* A 2 by 2 cabinet, its plan of six slides, and buffers, for the calls below. */
static const uint8_t board[] = {3, 2, 1, 0};
static const uint8_t slides[] = {LOWPENGINE_UP,    LOWPENGINE_LEFT, LOWPENGINE_DOWN,
                                 LOWPENGINE_RIGHT, LOWPENGINE_UP,   LOWPENGINE_LEFT};
static uint8_t moves[LOWPENGINE_MOVES], table[LOWPENGINE_TABLE_BYTES], out[LOWPENGINE_READ_BYTES];

static uint64_t planned(uint32_t width, const uint8_t *cells, size_t n, int32_t ceiling, uint32_t budget, uint32_t p, uint32_t q,
                        size_t room) {
    return lowpengine_plan(width, 2, cells, n, ceiling, budget, p, q, moves, room, table, sizeof table);
}

static uint64_t played(uint8_t move) { return lowpengine_play(2, 2, board, 4, &move, 1, out, sizeof out); }

static uint64_t written(int32_t ceiling, size_t length, uint8_t *record) {
    return lowpengine_write_record(2, 2, board, 4, ceiling, 1, 1, 7, slides, length, record, LOWPENGINE_RECORD_BYTES);
}

/* The record of that plan, with a byte of it changed, read as so many bytes more or fewer. */
static uint64_t read_back(size_t at, uint8_t byte, int more) {
    uint8_t record[LOWPENGINE_RECORD_BYTES] = {0};
    size_t length = lowpengine_record_length(written(6, sizeof slides, record));
    record[at] = byte;
    return lowpengine_read_record(record, more < 0 ? length - 1 : length + (size_t)more, out, sizeof out);
}

static void name(const char *call, uint64_t answer) {
    printf("%-34s %2u %s\n", call, (unsigned)lowpengine_number(answer), meaning(lowpengine_number(answer)));
}

/* The short call names no weight. It plans at 3 over 2: L slides with 2 L <= 3 D for every list of D slides to the goal. */
static void short_call(void) {
    static const uint8_t cells[] = {3, 1, 5, 2, 0, 4, 6, 7, 8};
    uint64_t shortest = lowpengine_plan(3, 3, cells, sizeof cells, 20, 1000, 1, 1, moves, sizeof moves, table, sizeof table);
    uint64_t early = lowpengine_plan_short(3, 3, cells, sizeof cells, 20, 1000, moves, sizeof moves, table, sizeof table);
    printf("a plan at 1 over 1: %u slides, %u visits made\n", (unsigned)lowpengine_length(shortest),
           (unsigned)lowpengine_visits(shortest));
    printf("by the short call: %u slides, %u visits made\n\n", (unsigned)lowpengine_length(early),
           (unsigned)lowpengine_visits(early));
}

static void refusals(void) {
    static const uint8_t high[] = {3, 2, 1, 4}, twice[] = {3, 2, 1, 3}, odd[] = {0, 2, 1, 3};
    uint8_t record[LOWPENGINE_RECORD_BYTES];
    puts("each refusal, by a call that is refused so:");
    name("a plan five cells wide", planned(5, board, 4, 6, 7, 1, 1, sizeof moves));
    name("a plan of three cells", planned(2, board, 3, 6, 7, 1, 1, sizeof moves));
    name("a plan with a tray 4", planned(2, high, 4, 6, 7, 1, 1, sizeof moves));
    name("a plan with a tray twice", planned(2, twice, 4, 6, 7, 1, 1, sizeof moves));
    name("a plan with a ceiling below zero", planned(2, board, 4, -1, 7, 1, 1, sizeof moves));
    name("a plan without a budget", planned(2, board, 4, 6, 0, 1, 1, sizeof moves));
    name("a plan at weight 1 over 2", planned(2, board, 4, 6, 7, 1, 2, sizeof moves));
    name("a plan at weight 2 over 2", planned(2, board, 4, 6, 7, 2, 2, sizeof moves));
    name("a plan with room for five moves", planned(2, board, 4, 6, 7, 1, 1, 5));
    name("a plan with two trays exchanged", planned(2, odd, 4, 6, 7, 1, 1, sizeof moves));
    name("the same, asked without a plan", lowpengine_reachable(2, 2, odd, 4));
    name("a plan of five slides for six", planned(2, board, 4, 5, 7, 1, 1, sizeof moves));
    name("a plan with six visits for seven", planned(2, board, 4, 6, 6, 1, 1, sizeof moves));
    name("a job line, and no entry", LOWPENGINE_MALFORMED_TEXT);
    name("a play of the move 4", played(4));
    name("a play to the right of the grid", played(LOWPENGINE_RIGHT));
    name("a record without its last byte", read_back(0, 2, -1));
    name("a record that begins with byte 128", read_back(0, 128, 0));
    name("a record with another cell", read_back(2, 0, 0));
    name("a record and a byte", read_back(0, 2, 1));
    name("a record of six slides for five", written(5, sizeof slides, record));
    name("a record of five slides of six", written(6, 5, record));
}

int main(void) {
    for (size_t i = 0; i < sizeof jobs / sizeof jobs[0]; i++)
        plan(&jobs[i]);
    short_call();
    refusals();
    return 0;
}
