/*
 * The planner's call in plain C: the same rules, tests, search, answer and buffers, and nothing proved. The library is timed beside it,
 * so it is written to be quick. It takes what lowpengine_plan takes and answers as it does (include/lowpengine.h).
 *
 * Every shape lies on a grid four wide. A tray is named by the cell of that grid where it belongs: so a board is sixteen digits of one
 * 64-bit number, and names alone tell whether a slide brings a tray nearer.
 */
#include <stddef.h>
#include <stdint.h>
#include <string.h>

enum { INFINITE = 65535, FOUND, SPENT }; /* a visit returns a value up to INFINITE, or that the search is over */
enum { UP, LEFT, RIGHT, DOWN, START };   /* the last move, or none yet */
enum { ABSENT = INFINITE << 2 | 3 };     /* no key is above it */

/* A way on from the empty cell. */
struct way {
    uint32_t bits;   /* its number among the ways of its cell; all of ABSENT's where it leads off the grid */
    uint16_t nearer; /* a bit for each tray that it brings nearer */
    uint8_t move, from, to;
};

struct search {
    struct way ways[5][16][4]; /* by last move and empty cell, in the order of moves; taking back is none. Three but at the start */
    uint32_t p, q, ceiling, left;
    uint32_t length;
    uint8_t path[120];
};

/* A successor that is to be visited. */
struct next {
    uint64_t board;
    const struct way *ways;
    uint32_t h;
};

static inline uint32_t lesser(uint32_t a, uint32_t b) { return a < b ? a : b; }
static inline uint32_t larger(uint32_t a, uint32_t b) { return a < b ? b : a; }

static inline uint64_t tray_at(uint64_t board, uint32_t cell) { return board >> 4 * cell & 15; }

static inline int is_nearer(uint64_t board, const struct way *way) { return way->nearer >> tray_at(board, way->to) & 1; }

/* A successor's value and the number of its way as one number: the least key is the next to be visited, ties and all. */
static inline uint32_t key(uint64_t board, const struct way *way, uint32_t near, uint32_t far) {
    return (is_nearer(board, way) ? near : far) << 2 | way->bits;
}

static inline struct next after(const struct search *s, uint64_t board, uint32_t h, const struct way *way) {
    uint64_t tray = tray_at(board, way->to);
    return (struct next){board ^ tray << 4 * way->to ^ tray << 4 * way->from, s->ways[way->move][way->to],
                         is_nearer(board, way) ? h - 1 : h + 1};
}

static uint32_t work(struct search *s, uint64_t board, const struct way *ways, uint32_t g, uint32_t h, uint32_t bound, uint32_t a,
                     uint32_t b, uint32_t c);

/* Visits a position that g moves led to, 1 or more. Most visits end here, without a call: no successor is within the bound. */
static inline uint32_t visit(struct search *s, const struct next *here, uint32_t g, uint32_t stored, uint32_t bound) {
    if (s->left == 0)
        return SPENT;
    s->left--;
    uint32_t h = here->h, f = s->q * g + s->p * h, inherited = f < stored ? stored : 0;
    if (h == 0) {
        s->length = g;
        return FOUND;
    }
    /* g + h is within the ceiling, or this were no successor; so is what is one move on and one nearer */
    uint32_t near = larger(inherited, f + s->q - s->p);
    uint32_t far = g + h + 2 > s->ceiling ? INFINITE : larger(inherited, f + s->q + s->p);
    uint32_t a = key(here->board, &here->ways[0], near, far);
    uint32_t b = key(here->board, &here->ways[1], near, far);
    uint32_t c = key(here->board, &here->ways[2], near, far);
    uint32_t least = lesser(a, lesser(b, c)) >> 2;
    if (least > bound || least == INFINITE)
        return least;
    return work(s, here->board, here->ways, g, h, bound, a, b, c);
}

/*
 * Works through three successors, of which one at least is within the bound. Their keys are kept in order. A visit returns INFINITE or
 * a value above the bound that it was handed. So if the bound is below the second least value there is nothing left to visit, and
 * else the second is next.
 */
static uint32_t work(struct search *s, uint64_t board, const struct way *ways, uint32_t g, uint32_t h, uint32_t bound, uint32_t a,
                     uint32_t b, uint32_t c) {
    uint32_t t;
    if (b < a)
        t = a, a = b, b = t;
    if (c < b)
        t = b, b = c, c = t;
    if (b < a)
        t = a, a = b, b = t;
    do {
        uint32_t second = b >> 2;
        const struct way *way = &ways[a & 3];
        struct next next = after(s, board, h, way);
        uint32_t value = visit(s, &next, g + 1, a >> 2, lesser(bound, second));
        if (value > INFINITE) {
            s->path[g] = way->move;
            return value;
        }
        if (bound < second)
            return lesser(value, second);
        value = value << 2 | (a & 3);
        a = b;
        b = lesser(value, c);
        c = larger(value, c);
    } while (a >> 2 <= bound && a >> 2 != INFINITE);
    return a >> 2;
}

/* The whole search. The start has no last move, so up to four successors, and its bound is infinite. */
static uint32_t search(struct search *s, uint64_t board, uint32_t empty, uint32_t h) {
    s->left--;
    s->length = 0;
    if (h == 0)
        return FOUND;
    const struct way *ways = s->ways[START][empty];
    uint32_t near = h > s->ceiling ? INFINITE : s->p * h + s->q - s->p;
    uint32_t far = h + 2 > s->ceiling ? INFINITE : s->p * h + s->q + s->p;
    uint32_t keys[4];
    for (int i = 0; i < 4; i++)
        keys[i] = key(board, &ways[i], near, far);
    for (;;) {
        uint32_t least = ABSENT, second = ABSENT;
        for (int i = 0; i < 4; i++) {
            second = lesser(second, larger(least, keys[i]));
            least = lesser(least, keys[i]);
        }
        if (least >> 2 == INFINITE)
            return INFINITE;
        const struct way *way = &ways[least & 3];
        struct next next = after(s, board, h, way);
        uint32_t value = visit(s, &next, 1, least >> 2, second >> 2);
        if (value > INFINITE) {
            s->path[0] = way->move;
            return value;
        }
        keys[least & 3] = value << 2 | (least & 3);
    }
}

/* The way of a move: the trays that it brings nearer are those that belong beyond where they are, or not before where they come to. */
static struct way way_of(uint32_t width, uint32_t height, uint32_t row, uint32_t column, uint32_t move) {
    static const uint16_t from_column[5] = {0xffff, 0xeeee, 0xcccc, 0x8888, 0};
    uint8_t cell = (uint8_t)(4 * row + column);
    struct way off = {ABSENT, 0, (uint8_t)move, cell, cell};
    switch (move) {
    case UP: return row == 0 ? off : (struct way){0, (uint16_t)(0xffff << 4 * row), UP, cell, cell - 4};
    case LEFT: return column == 0 ? off : (struct way){0, from_column[column], LEFT, cell, cell - 1};
    case RIGHT: return column + 1 == width ? off : (struct way){0, (uint16_t)~from_column[column + 1], RIGHT, cell, cell + 1};
    default: return row + 1 == height ? off : (struct way){0, (uint16_t)~(0xffff << 4 * (row + 1)), DOWN, cell, cell + 4};
    }
}

static void fill_ways(struct search *s, uint32_t width, uint32_t height) {
    for (uint32_t row = 0; row < height; row++)
        for (uint32_t column = 0; column < width; column++) {
            struct way all[4];
            for (uint32_t move = 0; move < 4; move++)
                all[move] = way_of(width, height, row, column, move);
            for (uint32_t last = 0; last <= START; last++)
                for (uint32_t move = 0, number = 0; move < 4; move++)
                    if (move + last != 3) {
                        struct way *way = &s->ways[last][4 * row + column][number];
                        *way = all[move];
                        way->bits |= number++;
                    }
        }
}

static uint64_t refused(uint32_t number, size_t cell) { return number | (uint64_t)cell << 8; }

static uint32_t apart(uint32_t a, uint32_t b) { return a < b ? b - a : a - b; }

uint64_t plain_plan(uint32_t width, uint32_t height, const uint8_t *board, size_t board_len, int32_t ceiling, uint32_t budget,
                    uint32_t p, uint32_t q, uint8_t *moves, size_t moves_len, uint8_t *table, size_t table_len) {
    if (width < 2 || width > 4 || height < 2 || height > 4)
        return refused(1, 0);
    uint32_t n = width * height;
    if (board_len != n)
        return refused(2, 0);
    for (uint32_t i = 0; i < n; i++)
        if (board[i] >= n)
            return refused(3, i);
    uint32_t seen = 0, odd = 0;
    for (uint32_t i = 0; i < n; i++) {
        if (seen >> board[i] & 1)
            return refused(4, i);
        odd += (uint32_t)__builtin_popcount(seen >> board[i]); /* the larger ones before it: inversions */
        seen |= 1u << board[i];
    }
    if (ceiling < 0 || ceiling > 120)
        return refused(5, 0);
    if (budget < 1 || budget > 1000000)
        return refused(6, 0);
    if (q == 0 || p < q || p > 64)
        return refused(7, 0);
    for (uint32_t d = 2; d <= q; d++)
        if (p % d == 0 && q % d == 0)
            return refused(15, 0);
    size_t numbers = 4 * ((size_t)ceiling + 1);
    if (moves_len < (size_t)ceiling || table_len / 2 < numbers)
        return refused(8, 0);

    uint8_t name[16];
    for (uint32_t row = 0, i = 0; row < height; row++)
        for (uint32_t column = 0; column < width; column++)
            name[i++] = (uint8_t)(4 * row + column);
    uint64_t packed = 0;
    uint32_t empty = 0, h = 0;
    for (uint32_t i = 0; i < n; i++) {
        uint32_t tray = name[board[i]], cell = name[i];
        packed |= (uint64_t)tray << 4 * cell;
        if (tray == 0)
            empty = cell;
        else
            h += apart(tray >> 2, cell >> 2) + apart(tray & 3, cell & 3);
    }
    odd += (empty >> 2) + (empty & 3);
    if (odd & 1)
        return refused(9, 0);

    struct search s;
    s.p = p, s.q = q, s.ceiling = (uint32_t)ceiling, s.left = budget;
    fill_ways(&s, width, height);
    uint32_t end = search(&s, packed, empty, h);
    uint64_t visits = budget - s.left;
    memset(table, 0, 2 * numbers);
    if (end != FOUND)
        return (end == SPENT ? 11 : 10) | visits << 32;
    memcpy(moves, s.path, s.length);
    return (uint64_t)s.length << 16 | visits << 32;
}
