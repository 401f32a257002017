//! Random boards of all nine shapes, each in a family of calls around what the second version answers.

use crate::call::Call;
use crate::check::Checker;
use crate::random::Random;
use second::board::{Board, Shape, SHAPES};
use second::entries::SHORT;
use second::planner::Order;
use second::search::{self, End};

/// Weights that are taken.
pub const WEIGHTS: [(u32, u32); 12] =
    [(1, 1), (4, 3), (63, 62), (3, 2), (5, 3), (2, 1), (7, 2), (5, 1), (64, 63), (33, 7), (64, 3), (64, 1)];

/// Weights that are refused, the last four for a common divisor.
pub const BAD_WEIGHTS: [(u32, u32); 16] = [
    (0, 0),
    (1, 0),
    (64, 0),
    (0, 1),
    (1, 2),
    (63, 64),
    (65, 1),
    (65, 65),
    (65, 64),
    (257, 1),
    (u32::MAX, 1),
    (u32::MAX, u32::MAX),
    (2, 2),
    (9, 6),
    (62, 31),
    (64, 64),
];

pub fn order(shape: Shape, board: &[u8], ceiling: i32, budget: u32, (p, q): (u32, u32)) -> Order<'_> {
    Order { width: shape.width as u32, height: shape.height as u32, board, ceiling, budget, p, q }
}

/// Buffers that are exact or longer, with whole numbers in the table or an odd byte behind them. At the short call's weight
/// it is the short call one time in two.
pub fn plan_of(random: &Random, order: &Order) -> Call {
    let ceiling = order.ceiling.clamp(0, 120) as usize;
    let extra = if random.one_in(2) { 0 } else { random.below(9) };
    let (moves, table) = (ceiling + extra, 8 * (ceiling + 1) + random.below(extra + 1));
    if (order.p, order.q) == SHORT && random.one_in(2) {
        Call::plan_short(random, order, moves, table)
    } else {
        Call::plan(random, order, moves, table)
    }
}

/// Boards by walks from the goal, short and long.
pub fn walks(checker: &mut Checker, task: usize, families: usize) {
    let random = Random::new("walks", task as u64);
    for number in 0..families {
        let shape = SHAPES[(task + number) % SHAPES.len()];
        let steps = random.below(if random.one_in(2) { 20 } else { 150 });
        let board = random.walked(shape, steps);
        family(checker, &random, shape, board);
    }
}

/// Boards by shuffles, half of which can't be solved, and some far from the goal.
pub fn shuffles(checker: &mut Checker, task: usize, families: usize) {
    let random = Random::new("shuffles", task as u64);
    for number in 0..families {
        let shape = SHAPES[(task + number) % SHAPES.len()];
        let board = if random.one_in(6) { random.far(shape) } else { random.shuffled(shape) };
        family(checker, &random, shape, board);
    }
}

/// Searches of up to a million visits: shuffled boards and far ones, of the larger shapes, with the whole budget.
pub fn long_searches(checker: &mut Checker, task: usize, calls: usize) {
    let random = Random::new("long", task as u64);
    for number in 0..calls {
        let shape = SHAPES[4 + (task + number) % 5];
        let board = if random.one_in(4) { random.far(shape) } else { random.shuffled(shape) };
        let (ceiling, weight) = (60 + random.below(61) as i32, random.pick(&WEIGHTS));
        let call = plan_of(&random, &order(shape, &board.cells[..shape.cells()], ceiling, 1_000_000, weight));
        checker.check("long searches", call);
    }
}

/// The calls around one board: the numbers that count for it are its distance, its plan's length and its visits.
fn family(checker: &mut Checker, random: &Random, shape: Shape, board: Board) {
    let cells = &board.cells[..shape.cells()];
    let cap = random.pick(&[300, 1_000, 3_000]);
    let weight = random.pick(&WEIGHTS);
    let h = board.distance(shape) as i32;
    let ceiling = random.pick(&[120, 120, h + 12, h + 30]).min(120);
    let (end, _) = search::run(shape, board, ceiling as usize, cap, weight.0, weight.1);
    let (length, visits) = match end {
        End::Found { length, visits } => (length as i32, visits),
        End::Exhausted { visits } | End::Spent { visits } => (ceiling, visits),
    };

    let low = random.below(9) as i32;
    for ceiling in [h - 1, h, h + 1, length - 1, length, length + 1, 0, low, 119, 120, -1, 121, i32::MIN, i32::MAX] {
        let call = plan_of(random, &order(shape, cells, ceiling, cap, weight));
        checker.check("ceilings", call);
    }
    for budget in [visits - 1, visits, visits + 1, 0, 1, 2, 1_000_001, u32::MAX] {
        let call = plan_of(random, &order(shape, cells, ceiling, budget, weight));
        checker.check("budgets", call);
    }
    if !matches!(end, End::Spent { .. }) {
        let call = plan_of(random, &order(shape, cells, ceiling, 1_000_000, weight));
        checker.check("budgets", call);
    }
    for _ in 0..4 {
        let (good, bad) = (random.pick(&WEIGHTS), random.pick(&BAD_WEIGHTS));
        for weight in [good, bad, (random.bits() as u32, random.bits() as u32 >> random.below(32))] {
            let call = plan_of(random, &order(shape, cells, ceiling, cap / 2, weight));
            checker.check("weights", call);
        }
    }
    buffers(checker, random, &order(shape, cells, random.pick(&[ceiling, length, length + 1]).min(120), cap, weight));
    shapes(checker, random, &order(shape, cells, ceiling, cap / 2, weight));
}

/// Buffers too short by one, exact and longer, by numbers and by bytes.
fn buffers(checker: &mut Checker, random: &Random, order: &Order) {
    let ceiling = order.ceiling as usize;
    let (moves, table) = (ceiling, 8 * (ceiling + 1));
    let long = random.below(300);
    let sizes = [
        (moves, table),
        (moves, table + 1),
        (moves, table + 2),
        (moves + 1, table),
        (moves + long, table + long),
        (moves, table - 1),
        (moves, table - 2),
        (moves.saturating_sub(1), table),
        (0, table),
        (moves, 0),
        (moves, 1),
        (moves.saturating_sub(1), table - 1),
    ];
    for (moves, table) in sizes {
        let call = Call::plan(random, order, moves, table);
        checker.check("buffers", call);
    }
}

/// Widths and heights that no cabinet has, and boards of another length.
fn shapes(checker: &mut Checker, random: &Random, order: &Order) {
    const SIDES: [u32; 10] = [0, 1, 5, 6, 16, 256, 258, 65_538, 1 << 31, u32::MAX];
    let side = random.pick(&SIDES);
    let n = order.board.len();
    let mut longer = order.board.to_vec();
    longer.extend([n as u8, 0, 255]);
    let shorter = random.below(n);
    let others = [
        Order { width: side, ..*order },
        Order { height: side, ..*order },
        Order { width: order.height, height: order.width, ..*order },
        Order { board: &order.board[..shorter], ..*order },
        Order { board: &order.board[..n - 1], ..*order },
        Order { board: &longer[..n + 1], ..*order },
        Order { board: &longer, ..*order },
    ];
    for order in others {
        let call = plan_of(random, &order);
        checker.check("shapes and lengths", call);
    }
}
