//! Boards added up: by shape, by weight, by visits, and how time grows with visits.

use crate::timing::Timed;

pub const SHAPES: [(u32, u32); 4] = [(3, 3), (4, 3), (3, 4), (4, 4)];
pub const WEIGHTS: [(u32, u32); 5] = [(1, 1), (3, 2), (2, 1), (3, 1), (5, 1)];

/// Visits and seconds of some boards together, by each planner.
pub struct Sum {
    pub name: String,
    pub boards: usize,
    pub visits: Vec<f64>,
    pub seconds: Vec<f64>,
}

impl Sum {
    /// Visits a second of a planner.
    pub fn speed(&self, planner: usize) -> f64 {
        self.visits[planner] / self.seconds[planner]
    }

    /// How many times as many visits a second one planner makes as another.
    pub fn ratio(&self, planner: usize, other: usize) -> f64 {
        self.speed(planner) / self.speed(other)
    }
}

pub fn sum(name: impl Into<String>, all: &[Timed], which: impl Fn(&Timed) -> bool) -> Sum {
    let boards: Vec<&Timed> = all.iter().filter(|board| which(board)).collect();
    let planners = 0..all[0].by.len();
    let visits = planners.clone().map(|planner| boards.iter().map(|board| board.by[planner].visits as f64).sum());
    let seconds = planners.clone().map(|planner| boards.iter().map(|board| board.by[planner].seconds).sum());
    Sum { name: name.into(), boards: boards.len(), visits: visits.collect(), seconds: seconds.collect() }
}

/// The shapes, and all together.
pub fn by_shape(all: &[Timed]) -> Vec<Sum> {
    let shape =
        |&(w, h): &(u32, u32)| sum(format!("{w} by {h}"), all, |board| (board.job.width, board.job.height) == (w, h));
    SHAPES.iter().map(shape).chain([sum("all", all, |_| true)]).collect()
}

pub fn by_weight(all: &[Timed]) -> Vec<Sum> {
    WEIGHTS.iter().map(|&(p, q)| sum(format!("{p} over {q}"), all, |board| (board.job.p, board.job.q) == (p, q))).collect()
}

/// The power of the visits that a planner's seconds grow with, by least squares on their logarithms.
pub fn power(all: &[Timed], planner: usize) -> f64 {
    let point = |board: &Timed| ((board.by[planner].visits as f64).ln(), board.by[planner].seconds.ln());
    let points: Vec<(f64, f64)> = all.iter().map(point).collect();
    let count = points.len() as f64;
    let (x, y) = (points.iter().map(|p| p.0).sum::<f64>() / count, points.iter().map(|p| p.1).sum::<f64>() / count);
    points.iter().map(|p| (p.0 - x) * (p.1 - y)).sum::<f64>() / points.iter().map(|p| (p.0 - x).powi(2)).sum::<f64>()
}
