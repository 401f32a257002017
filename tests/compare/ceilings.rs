//! Ceilings just below, at and just above a board's distance, with budgets of one visit, of two and of more. Below the distance
//! the answer is 10 after one visit, at every budget: that is claimed of the library's answer too, without the second version.

use crate::boards::{order, plan_of, WEIGHTS};
use crate::check::Checker;
use crate::random::Random;
use second::board::{Board, Shape, SHAPES};

const CALLS: &str = "ceilings around the distance";
const CLAIMS: &str = "claims on ceilings below the distance";

/// Number 10 and one visit, as an answer is packed.
const TEN_AFTER_ONE: u64 = 10 | 1 << 32;

pub fn run(checker: &mut Checker, task: usize, boards: usize) {
    let random = Random::new("ceilings", task as u64);
    let mut calls = Vec::new();
    for number in 0..boards {
        let shape = SHAPES[(task + number) % SHAPES.len()];
        let board = board(&random, shape);
        let h = board.distance(shape) as i32;
        let weight = random.pick(&WEIGHTS);
        for ceiling in [0, h - 2, h - 1, h, h + 1, h + 2] {
            for budget in [1, 2, 3 + random.below(2_000) as u32] {
                calls.push(plan_of(&random, &order(shape, &board.cells[..shape.cells()], ceiling, budget, weight)));
            }
        }
    }
    for (answer, call) in checker.ask(CALLS, calls) {
        let (shape, board) = second::board::read(call.width, call.height, call.part(0)).unwrap();
        if (0..board.distance(shape) as i32).contains(&call.ceiling) {
            checker.claim(CLAIMS, answer == TEN_AFTER_ONE, || format!("{call}\n  is not 10 after one visit: {answer:#x}"));
        }
    }
}

/// A board that is not odd, so that no earlier refusal holds: near the goal, anywhere, or far from it.
fn board(random: &Random, shape: Shape) -> Board {
    match random.below(4) {
        0 => random.far(shape),
        1 => random.walked(shape, 200),
        _ => {
            let steps = random.below(40);
            random.walked(shape, steps)
        }
    }
}
