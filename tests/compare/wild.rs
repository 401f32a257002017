//! Calls of the planner with every argument drawn by itself, so that several refusals hold at once and their order shows.

use crate::boards::{BAD_WEIGHTS, WEIGHTS};
use crate::call::Call;
use crate::check::Checker;
use crate::random::Random;
use second::board::{Shape, SHAPES};
use second::planner::Order;

pub fn run(checker: &mut Checker, task: usize, calls: usize) {
    let random = Random::new("wild", task as u64);
    for _ in 0..calls {
        let call = wild(&random);
        checker.check("all arguments at random", call);
    }
}

fn wild(random: &Random) -> Call {
    let shape = random.pick(&SHAPES);
    let board = cells(random, shape);
    let ceiling = match random.below(8) {
        0 => random.bits() as i32,
        1 => random.pick(&[-1, 121, 122, 255, 256, i32::MIN, i32::MAX]),
        2 => random.pick(&[0, 1, 119, 120]),
        _ => random.below(40) as i32,
    };
    let budget = match random.below(8) {
        0 => random.pick(&[0, 1_000_001, 1 << 31, u32::MAX]),
        1 => random.pick(&[1, 2, 3]),
        _ => 1 + random.below(400) as u32,
    };
    let (p, q) = if random.one_in(6) { random.pick(&BAD_WEIGHTS) } else { random.pick(&WEIGHTS) };
    let order =
        Order { width: side(random, shape.width), height: side(random, shape.height), board: &board, ceiling, budget, p, q };
    let room = ceiling.clamp(0, 120) as usize;
    let moves = size(random, room);
    let table = size(random, 8 * (room + 1));
    if random.one_in(4) {
        Call::plan_short(random, &order, moves, table)
    } else {
        Call::plan(random, &order, moves, table)
    }
}

/// The side itself, as a rule.
fn side(random: &Random, side: usize) -> u32 {
    match random.below(12) {
        0 => random.pick(&[0, 1, 5, 258, u32::MAX]),
        1 => 2 + random.below(3) as u32,
        _ => side as u32,
    }
}

/// A board of the shape, as a rule; else with one to three bytes changed, or of another length.
pub fn cells(random: &Random, shape: Shape) -> Vec<u8> {
    let steps = random.below(60);
    let board = if random.one_in(2) { random.walked(shape, steps) } else { random.shuffled(shape) };
    let mut cells = board.cells[..shape.cells()].to_vec();
    if random.one_in(5) {
        for _ in 0..1 + random.below(3) {
            let cell = random.below(cells.len());
            cells[cell] = if random.one_in(3) { random.bits() as u8 } else { random.below(cells.len() + 1) as u8 };
        }
    }
    if random.one_in(10) {
        cells.resize(random.below(20), random.bits() as u8);
    }
    cells
}

/// Enough, as a rule; else a little too short, or any size.
fn size(random: &Random, enough: usize) -> usize {
    match random.below(10) {
        0 => enough.saturating_sub(1 + random.below(3)),
        1 => random.below(2 * enough + 2),
        _ => enough + random.below(4),
    }
}
