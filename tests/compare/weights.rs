//! Every weight with p and q of 0 to 66: through the planner, the record writer and the record reader, each also where a later
//! refusal would hold. When 7 and 15 are the answer is claimed of the library too, without the second version: by trying every
//! number from 2 on as a divisor of both.

use crate::boards::order;
use crate::call::Call;
use crate::check::Checker;
use crate::random::Random;
use second::board::Shape;
use second::planner::Order;
use second::records::record;

const CALLS: &str = "weights of 0 to 66";
const CLAIMS: &str = "claims on weights of 0 to 66";

const MOST: u32 = 66;

/// The number that the weight is refused by, 0 where it is taken.
fn refusal(p: u32, q: u32) -> u64 {
    if q == 0 || p < q || p > 64 {
        return 7;
    }
    let shared = (2..=MOST).any(|divisor| p % divisor == 0 && q % divisor == 0);
    if shared {
        15
    } else {
        0
    }
}

/// Part `part` of `parts` of the weights.
pub fn run(checker: &mut Checker, part: usize, parts: usize) {
    let random = Random::new("weights", part as u64);
    let side = MOST as usize + 1;
    let (mut wanted, mut asked) = (Vec::new(), Vec::new());
    for number in (part..side * side).step_by(parts) {
        let (p, q) = ((number / side) as u32, (number % side) as u32);
        let refusal = refusal(p, q);
        for (taken, call) in calls(&random, p, q) {
            wanted.push(if refusal == 0 { taken } else { refusal });
            asked.push(call);
        }
    }
    for ((answer, call), wanted) in checker.ask(CALLS, asked).into_iter().zip(wanted) {
        checker.claim(CLAIMS, answer & 0xff == wanted, || format!("{call}\n  answers {answer:#x}, not number {wanted}"));
    }
}

/// Calls at a weight, and what each answers where the weight is taken: done, or the refusals that come behind 15.
fn calls(random: &Random, p: u32, q: u32) -> Vec<(u64, Call)> {
    let shape = Shape { width: 2, height: 2 };
    let (solved, odd, moves) = ([3, 2, 1, 0], [0, 2, 1, 3], [0, 1, 3, 2, 0, 1]);
    let right = order(shape, &solved, 6, 1_000, (p, q));
    let low = Order { ceiling: 5, ..right };
    vec![
        (0, Call::plan(random, &right, 6, 56)),
        (8, Call::plan(random, &right, 5, 56)),
        (8, Call::plan(random, &right, 6, 55)),
        (9, Call::plan(random, &order(shape, &odd, 6, 1_000, (p, q)), 6, 56)),
        (0, Call::write_record(random, &right, &moves, 149)),
        (21, Call::write_record(random, &low, &moves, 149)),
        (8, Call::write_record(random, &right, &moves, 0)),
        (0, Call::read_record(random, &record(&right, &moves), 136)),
        (21, Call::read_record(random, &record(&low, &moves), 136)),
        (8, Call::read_record(random, &record(&right, &moves), 9)),
    ]
}
