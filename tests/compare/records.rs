//! Calls of the record writer: plans that the library has just made, lists that were never planned, bad moves and bad numbers,
//! outputs of every length.

use crate::boards::{self, BAD_WEIGHTS, WEIGHTS};
use crate::call::{Call, Entry};
use crate::check::Checker;
use crate::plays::{legal_list, way_to_goal};
use crate::random::Random;
use crate::wild;
use second::board::{Shape, SHAPES};
use second::entries::SHORT;
use second::planner::Order;
use second::records::record;

/// The bytes of the longest record.
const MOST: usize = 149;

/// Visits where a number needs a group more, and where it is refused.
const VISITS: [u32; 14] =
    [0, 1, 126, 127, 128, 129, 16_383, 16_384, 999_999, 1_000_000, 1_000_001, 2_097_152, 1 << 28, u32::MAX];

pub fn run(checker: &mut Checker, task: usize, rounds: usize) {
    let random = Random::new("records", task as u64);
    planned(checker, &random, task, rounds);
    for number in 0..rounds {
        let shape = SHAPES[(task + number) % SHAPES.len()];
        listed(checker, &random, shape);
        for _ in 0..20 {
            let call = anything(&random, shape);
            checker.check("records: all arguments at random", call);
        }
    }
}

/// Plans as the library makes them, each stored at once with what its answer says.
fn planned(checker: &mut Checker, random: &Random, task: usize, rounds: usize) {
    let mut calls = Vec::new();
    for number in 0..rounds {
        let shape = SHAPES[(task + number) % SHAPES.len()];
        let steps = random.below(40);
        let board = random.walked(shape, steps);
        let ceiling = random.pick(&[120, 119, 40 + random.below(60) as i32]);
        let order = boards::order(shape, &board.cells[..shape.cells()], ceiling, 20_000, random.pick(&WEIGHTS));
        calls.push(boards::plan_of(random, &order));
    }
    for (answer, call) in checker.ask("records: the plans", calls) {
        if answer & 0xff != 0 {
            continue;
        }
        let (length, visits) = ((answer >> 16 & 0xffff) as usize, (answer >> 32) as u32);
        let (p, q) = if call.entry == Entry::PlanShort { SHORT } else { (call.p, call.q) };
        let order = Order {
            width: call.width,
            height: call.height,
            board: call.part(0),
            ceiling: call.ceiling,
            budget: visits,
            p,
            q,
        };
        let moves = &call.part(1)[..length];
        outputs(checker, random, "records: plans just made", &order, moves);
        around(checker, random, &order, moves);
    }
}

/// Lists that lead to the goal but that no search has found, and lists that lead elsewhere.
fn listed(checker: &mut Checker, random: &Random, shape: Shape) {
    let visits = random.pick(&VISITS).clamp(1, 1_000_000);
    let (board, moves) = way_to_goal(random, shape);
    let cells = &board.cells[..shape.cells()];
    let ceiling = (moves.len() + random.pick(&[0, 1, 5])).min(120) as i32;
    let order = boards::order(shape, cells, ceiling, visits, random.pick(&WEIGHTS));
    outputs(checker, random, "records: lists to the goal", &order, &moves);

    // from the goal and back, so long as the list may be
    let goal = shape.goal();
    let round: Vec<u8> = (0..60).flat_map(|_| random.pick(&[[2, 1], [3, 0]])).collect();
    let order = boards::order(shape, &goal.cells[..shape.cells()], 120, visits, (64, 63));
    let lower = Order { ceiling: 119, ..order };
    for (order, moves) in [(order, &round[..]), (order, &round[..119]), (lower, &round[..]), (order, &[])] {
        outputs(checker, random, "records: there and back", &order, moves);
    }

    let legal = legal_list(random, shape, board.empty as usize);
    let order = boards::order(shape, cells, 40, visits, random.pick(&WEIGHTS));
    outputs(checker, random, "records: legal lists", &order, &legal);
}

/// Outputs of no bytes, of every length near the record's and the longest record's, and at times of every length up to there.
fn outputs(checker: &mut Checker, random: &Random, kind: &'static str, order: &Order, moves: &[u8]) {
    let length = record(order, moves).len().min(400);
    let near = length.saturating_sub(3)..=length + 3;
    let some = [0, 1, length / 2, MOST - 1, MOST, MOST + 1, length + random.below(300)];
    let all = if random.one_in(25) { 0..length } else { 0..0 };
    for out in near.chain(some).chain(all) {
        let call = Call::write_record(random, order, moves, out);
        checker.check(kind, call);
    }
}

/// A plan with one thing changed, or two.
fn around(checker: &mut Checker, random: &Random, order: &Order, moves: &[u8]) {
    let mut check = |kind, order: &Order, moves: &[u8]| {
        let fits = record(order, moves).len().min(MOST);
        let out = if random.one_in(4) { random.below(fits + 1) } else { fits + random.below(4) };
        checker.check(kind, Call::write_record(random, order, moves, out));
    };
    let length = moves.len() as i32;
    for ceiling in [length - 1, length, length + 1, 120, 121, 0, -1, 127, 128, i32::MIN, i32::MAX] {
        check("records: ceilings", &Order { ceiling, ..*order }, moves);
    }
    for visits in VISITS {
        check("records: visits", &Order { budget: visits, ..*order }, moves);
    }
    for (p, q) in [random.pick(&WEIGHTS), random.pick(&BAD_WEIGHTS), (order.q, order.p)] {
        check("records: weights", &Order { p, q, ..*order }, moves);
    }
    for side in [0, 1, 2, 3, 4, 5, 258, u32::MAX] {
        check("records: shapes", &Order { width: side, ..*order }, moves);
        check("records: shapes", &Order { height: side, ..*order }, moves);
    }
    for _ in 0..3 {
        let mut cells = order.board.to_vec();
        let cell = random.below(cells.len());
        cells[cell] = if random.one_in(2) { random.below(cells.len()) as u8 } else { random.bits() as u8 };
        check("records: boards", &Order { board: &cells, ..*order }, moves);
    }
    check("records: boards", &Order { board: &order.board[1..], ..*order }, moves);
    if moves.is_empty() {
        return;
    }
    let mut changed = moves.to_vec();
    let place = random.below(moves.len());
    for byte in [random.below(4) as u8, 3 - moves[place], 4, 255, random.bits() as u8] {
        changed[place] = byte;
        check("records: a move changed", order, &changed);
        check("records: a move changed", &Order { ceiling: length - random.below(2) as i32, ..*order }, &changed);
    }
    check("records: a move left out", order, &moves[1..]);
    check("records: a move left out", order, &moves[..moves.len() - 1]);
    changed = [moves, &[random.below(5) as u8]].concat();
    check("records: a move more", order, &changed);
}

/// Every argument by itself, so that the order of the tests shows.
fn anything(random: &Random, shape: Shape) -> Call {
    let walked = way_to_goal(random, shape);
    let cells = if random.one_in(3) { wild::cells(random, shape) } else { walked.0.cells[..shape.cells()].to_vec() };
    let moves = match random.below(4) {
        0 => legal_list(random, shape, cells.iter().position(|&value| value == 0).unwrap_or(0)),
        1 => (0..random.below(30)).map(|_| random.bits() as u8 % 5).collect(),
        _ => walked.1,
    };
    let ceiling = match random.below(6) {
        0 => random.pick(&[-1, 121, 256, i32::MIN, i32::MAX]),
        1 => random.below(121) as i32,
        _ => (moves.len() + random.below(4)).min(120) as i32,
    };
    let visits = if random.one_in(3) { random.pick(&VISITS) } else { 1 + random.below(30_000) as u32 };
    let (p, q) = if random.one_in(8) { random.pick(&BAD_WEIGHTS) } else { random.pick(&WEIGHTS) };
    let width = if random.one_in(12) { random.below(7) as u32 } else { shape.width as u32 };
    let order = Order { width, height: shape.height as u32, board: &cells, ceiling, budget: visits, p, q };
    let out = if random.one_in(3) { random.below(MOST + 20) } else { MOST };
    Call::write_record(random, &order, &moves, out)
}
