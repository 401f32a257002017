//! Calls in which the search is short, so that the tests and what a call prepares show: all boards of the smallest shapes in a row,
//! and a single visit on the largest.

use crate::boards::JOBS;
use crate::clock;
use crate::planners::{Planner, LENT, LIBRARY, RUST};
use crate::timing::{self, BUDGET, CEILING};
use second::board::{self, Shape};
use second::planner::Order;

const ROUNDS: usize = 200;
/// A round makes so many calls at least.
const CALLS: usize = 1_000;

/// A row of calls, the seconds of one by each planner, and how many an earlier archive answers otherwise.
pub struct Row {
    pub name: String,
    pub calls: usize,
    pub visits: u64,
    pub seconds: Vec<f64>,
    pub others: usize,
}

/// All arrangements of the values that can be brought to the goal.
fn solvable(shape: Shape) -> Vec<Vec<u8>> {
    let mut boards = vec![vec![]];
    for _ in 0..shape.cells() {
        let longer = |board: Vec<u8>| {
            let free = (0..shape.cells() as u8).filter(|value| !board.contains(value)).collect::<Vec<u8>>();
            free.into_iter().map(move |value| [&board[..], &[value]].concat())
        };
        boards = boards.into_iter().flat_map(longer).collect();
    }
    let even = |cells: &Vec<u8>| {
        let read = board::read(shape.width as u32, shape.height as u32, cells);
        read.is_ok_and(|(shape, board)| !board.is_odd(shape))
    };
    boards.into_iter().filter(even).collect()
}

/// The calls of a round: the row once and again, each time in another order, so that a processor can't learn it by heart.
fn round<'a>(orders: &[Order<'a>]) -> Vec<Order<'a>> {
    let (mut calls, mut state) = (vec![], 1_u64);
    for _ in 0..CALLS.div_ceil(orders.len()) {
        let start = calls.len();
        calls.extend(orders);
        for place in (1..orders.len()).rev() {
            state = state.wrapping_mul(6_364_136_223_846_793_005).wrapping_add(1_442_695_040_888_963_407);
            calls.swap(start + place, start + (state >> 33) as usize % (place + 1));
        }
    }
    calls
}

/// Seconds of a call, one with another.
fn timed(planner: Planner, calls: &[Order]) -> f64 {
    let mut buffers = LENT;
    let start = clock::seconds();
    for order in calls {
        std::hint::black_box(planner.plan(order, &mut buffers));
    }
    (clock::seconds() - start) / calls.len() as f64
}

fn row(name: String, planners: &[Planner], orders: &[Order]) -> Row {
    let mut row = Row { name, calls: orders.len(), visits: 0, seconds: vec![f64::MAX; planners.len()], others: 0 };
    for order in orders {
        let end = |planner: &Planner| {
            let mut buffers = LENT;
            (planner.plan(order, &mut buffers), buffers)
        };
        let ends: Vec<_> = planners.iter().map(end).collect();
        row.visits += ends[LIBRARY].0 >> 32;
        for (which, end) in ends.iter().enumerate() {
            let same = *end == ends[LIBRARY];
            assert!(same || which > RUST, "planner {which} differs on {:?}", order.board);
            row.others += usize::from(!same);
        }
    }
    let calls = round(orders);
    for number in 0..ROUNDS {
        for turn in 0..planners.len() {
            let which = (number + turn) % planners.len();
            row.seconds[which] = row.seconds[which].min(timed(planners[which], &calls));
        }
    }
    row
}

/// A call on 4 by 4 that ends after one visit.
pub fn one_visit() -> Order<'static> {
    let large = JOBS.iter().find(|job| (job.width, job.height) == (4, 4)).expect("a board of 4 by 4");
    Order { budget: 1, ..timing::order(large) }
}

pub fn measure(planners: &[Planner]) -> Vec<Row> {
    let mut rows = vec![];
    for shape in [Shape { width: 2, height: 2 }, Shape { width: 2, height: 3 }] {
        let (boards, Shape { width, height }) = (solvable(shape), shape);
        let order = |board| Order {
            width: width as u32,
            height: height as u32,
            board,
            ceiling: CEILING,
            budget: BUDGET,
            p: 1,
            q: 1,
        };
        let orders: Vec<Order> = boards.iter().map(|board| order(board)).collect();
        rows.push(row(format!("all {} boards of {width} by {height}, in a row", boards.len()), planners, &orders));
    }
    rows.push(row("one visit on 4 by 4".into(), planners, &[one_visit()]));
    rows
}
