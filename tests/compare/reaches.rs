//! Calls of the reachability test, held against counting pairs: every list of small numbers as a board of 2 by 2, 2 by 3 and
//! 3 by 2, and boards of all nine shapes at random.

use crate::call::Call;
use crate::check::Checker;
use crate::random::Random;
use crate::{small, wild};
use second::board::SHAPES;

/// Part `part` of `parts` of the lists, or one in `share` of them.
pub fn lists(checker: &mut Checker, part: usize, parts: usize, share: usize) {
    let random = Random::new("reached lists", part as u64);
    for shape in small::SHAPES {
        for number in (part..small::count(shape)).step_by(parts).filter(|_| random.one_in(share)) {
            let cells = small::list(shape, number);
            let call = Call::reachable(&random, shape.width as u32, shape.height as u32, &cells);
            checker.check("reached or not: 2 by 2, 2 by 3, 3 by 2", call);
        }
    }
}

/// Boards by walks from the goal and by shuffles; lists that are none; sides that are exchanged or bad.
pub fn run(checker: &mut Checker, task: usize, rounds: usize) {
    let random = Random::new("reaches", task as u64);
    for number in 0..rounds {
        let shape = SHAPES[(task + number) % SHAPES.len()];
        let (width, height, steps) = (shape.width as u32, shape.height as u32, random.below(150));
        for board in [random.walked(shape, steps), random.shuffled(shape), random.far(shape)] {
            let call = Call::reachable(&random, width, height, &board.cells[..shape.cells()]);
            checker.check("reached or not: boards at random", call);
        }
        let cells = wild::cells(&random, shape);
        let bad = random.pick(&[0, 1, 5, 258, u32::MAX]);
        for (width, height) in [(width, height), (height, width), (bad, height), (width, bad)] {
            let call = Call::reachable(&random, width, height, &cells);
            checker.check("reached or not: any list and any sides", call);
        }
    }
}
