//! The searches of many visits: each board planned by all planners in turn, round after round.

use crate::boards::{Job, JOBS};
use crate::clock;
use crate::planners::{Buffers, Planner, LENT, LIBRARY, RUST};
use second::planner::Order;

pub const ROUNDS: usize = 15;
pub const CEILING: i32 = 120;
pub const BUDGET: u32 = 1_000_000;

/// What a planner made of a board: visits, its least seconds, and whether answer and buffers are the library's.
#[derive(Clone, Copy)]
pub struct Best {
    pub visits: u32,
    pub seconds: f64,
    pub same: bool,
}

/// One board, and what each planner made of it.
pub struct Timed {
    pub job: &'static Job,
    pub by: Vec<Best>,
}

pub fn order(job: &Job) -> Order<'_> {
    Order { width: job.width, height: job.height, board: job.board, ceiling: CEILING, budget: BUDGET, p: job.p, q: job.q }
}

/// One call: what it answers and leaves, and its seconds.
fn timed(planner: Planner, order: &Order) -> ((u64, Buffers), f64) {
    let mut buffers = LENT;
    let start = clock::seconds();
    let answer = planner.plan(order, &mut buffers);
    let seconds = clock::seconds() - start;
    ((answer, buffers), seconds)
}

/// All boards in each round; another planner goes first in the next one. Plain C and plain Rust must agree with the library.
pub fn measure(planners: &[Planner]) -> Vec<Timed> {
    let nothing = Best { visits: 0, seconds: f64::MAX, same: true };
    let mut all: Vec<Timed> = JOBS.iter().map(|job| Timed { job, by: vec![nothing; planners.len()] }).collect();
    for round in 0..ROUNDS {
        for board in &mut all {
            let mut ends: Vec<Option<(u64, Buffers)>> = vec![None; planners.len()];
            for turn in 0..planners.len() {
                let which = (round + turn) % planners.len();
                let (end, seconds) = timed(planners[which], &order(board.job));
                ends[which] = Some(end);
                board.by[which].seconds = board.by[which].seconds.min(seconds);
            }
            for (which, end) in ends.iter().enumerate() {
                let same = *end == ends[LIBRARY];
                assert!(same || which > RUST, "planner {which} differs on {:?}", board.job.board);
                board.by[which].same &= same;
                board.by[which].visits = end.map_or(0, |(answer, _)| (answer >> 32) as u32);
            }
        }
    }
    all
}
