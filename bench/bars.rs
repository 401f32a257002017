//! Visits a second by shape, a bar for each planner.

use crate::picture::{line, rectangle, text, DRAWN, LEFT, RIGHT};
use crate::planners::{C, LIBRARY};
use crate::sums;
use crate::timing::Timed;

const BAR: f64 = 30.0;

pub fn draw(all: &[Timed], top: f64, bottom: f64) -> String {
    let shapes = sums::by_shape(all);
    let speeds = shapes.iter().flat_map(|shape| DRAWN.map(|(planner, _, _)| shape.speed(planner) / 1e6));
    let most = 10.0 * (speeds.fold(0.0, f64::max) / 10.0).ceil();
    let up = |speed: f64| bottom - (bottom - top) * speed / most;
    let mut to = text(20.0, top - 14.0, "start", "million visits a second");
    for tens in 0..=(most / 10.0) as usize {
        let y = up(10.0 * tens as f64);
        to += &line((LEFT, y), (RIGHT, y), "#dddddd");
        to += &text(LEFT - 8.0, y + 4.0, "end", &format!("{}", 10 * tens));
    }
    for (place, shape) in shapes.iter().enumerate() {
        let middle = LEFT + (RIGHT - LEFT) * (place as f64 + 0.5) / shapes.len() as f64;
        for (number, (planner, _, colour)) in DRAWN.into_iter().enumerate() {
            let (x, speed) = (middle + BAR * (number as f64 - 1.5), shape.speed(planner) / 1e6);
            to += &rectangle(x + 1.0, up(speed), BAR - 2.0, bottom - up(speed), colour);
            to += &text(x + BAR / 2.0, up(speed) - 4.0, "middle", &format!("{speed:.0}"));
        }
        to += &text(middle, bottom + 20.0, "middle", &shape.name);
        to += &text(middle, bottom + 38.0, "middle", &format!("{:.2} of plain C", shape.ratio(LIBRARY, C)));
    }
    to + &line((LEFT, bottom), (RIGHT, bottom), "#333333")
}
