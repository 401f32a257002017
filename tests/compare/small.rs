//! Every list of small numbers as a board of 2 by 2, 2 by 3 and 3 by 2: all boards, and all that are none.

use crate::boards::{self, plan_of, WEIGHTS};
use crate::call::Call;
use crate::check::Checker;
use crate::random::Random;
use second::board::{Board, Shape};
use second::search::{self, End};

pub const SHAPES: [Shape; 3] = [Shape { width: 2, height: 2 }, Shape { width: 2, height: 3 }, Shape { width: 3, height: 2 }];

/// How many lists there are over 0 .. n, so with one value that is too high.
pub fn count(shape: Shape) -> usize {
    (shape.cells() + 1).pow(shape.cells() as u32)
}

/// The list with a given number.
pub fn list(shape: Shape, mut number: usize) -> Vec<u8> {
    let mut cells = vec![0; shape.cells()];
    for cell in cells.iter_mut() {
        *cell = (number % (shape.cells() + 1)) as u8;
        number /= shape.cells() + 1;
    }
    cells
}

/// Part `part` of `parts` of the lists, or one in `share` of them. The value that is too high is n or, at times, a higher one.
pub fn run(checker: &mut Checker, part: usize, parts: usize, share: usize) {
    let random = Random::new("small", part as u64);
    for shape in SHAPES {
        for number in (part..count(shape)).step_by(parts).filter(|_| random.one_in(share)) {
            let mut cells = list(shape, number);
            for value in cells.iter_mut().filter(|value| **value as usize == shape.cells()) {
                if random.one_in(4) {
                    *value += random.below(256 - shape.cells()) as u8;
                }
            }
            match second::board::read(shape.width as u32, shape.height as u32, &cells) {
                Ok((_, board)) => every_way(checker, &random, shape, board),
                Err(_) => {
                    let ceiling = random.below(12) as i32;
                    let order = boards::order(shape, &cells, ceiling, 50, (1, 1));
                    let call = Call::plan(&random, &order, ceiling as usize, 8 * (ceiling as usize + 1));
                    checker.check("2 by 2, 2 by 3, 3 by 2: no boards", call);
                }
            }
        }
    }
}

/// Visits beyond which a search is not followed to its end.
const CAP: u32 = 5_000;

/// A board at every weight, with ceilings around its answer and budgets around its visits.
fn every_way(checker: &mut Checker, random: &Random, shape: Shape, board: Board) {
    const KIND: &str = "2 by 2, 2 by 3, 3 by 2: boards";
    let cells = &board.cells[..shape.cells()];
    if board.is_odd(shape) {
        let call = plan_of(random, &boards::order(shape, cells, 30, 1_000, (1, 1)));
        return checker.check(KIND, call);
    }
    for weight in WEIGHTS {
        let (end, _) = search::run(shape, board, 60, 1_000_000, weight.0, weight.1);
        let End::Found { length, .. } = end else { panic!("no plan for {cells:?}") };
        for ceiling in [length.saturating_sub(1), length, 60 + random.below(61)] {
            let (end, _) = search::run(shape, board, ceiling, CAP, weight.0, weight.1);
            let (End::Found { visits, .. } | End::Exhausted { visits } | End::Spent { visits }) = end;
            let whole = if visits < CAP { 1_000_000 } else { CAP + 1 };
            for budget in [visits - 1, visits, whole] {
                let call = plan_of(random, &boards::order(shape, cells, ceiling as i32, budget, weight));
                checker.check(KIND, call);
            }
        }
    }
}
