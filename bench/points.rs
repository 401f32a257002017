//! Milliseconds by visits, both on logarithmic scales, a point for each board and planner.

use crate::picture::{line, text, DRAWN, LEFT, RIGHT};
use crate::timing::Timed;

const VISITS: (f64, f64) = (15_000.0, 1_300_000.0);
const MARKS: [(f64, &str); 6] =
    [(2e4, "20,000"), (5e4, "50,000"), (1e5, "100,000"), (2e5, "200,000"), (5e5, "500,000"), (1e6, "1,000,000")];
const DECADES: [f64; 7] = [0.1, 1.0, 10.0, 100.0, 1_000.0, 10_000.0, 100_000.0];

/// Where a value lies between two ends, by logarithms, as a part of 1.
fn part(value: f64, (from, to): (f64, f64)) -> f64 {
    (value / from).ln() / (to / from).ln()
}

/// The least span of whole decades that holds every time.
fn span(all: &[Timed]) -> (f64, f64) {
    let times = all.iter().flat_map(|board| DRAWN.map(|(planner, _, _)| 1e3 * board.by[planner].seconds));
    let (least, most) = times.fold((f64::MAX, 0.0), |(least, most): (f64, f64), time| (least.min(time), most.max(time)));
    let from = DECADES.into_iter().rev().find(|&decade| decade <= least).unwrap_or(DECADES[0]);
    (from, DECADES.into_iter().find(|&decade| decade >= most).unwrap_or(DECADES[6]))
}

pub fn draw(all: &[Timed], top: f64, bottom: f64) -> String {
    let span = span(all);
    let across = |visits: f64| LEFT + (RIGHT - LEFT) * part(visits, VISITS);
    let up = |time: f64| bottom - (bottom - top) * part(time, span);
    let mut to = text(20.0, top - 14.0, "start", "milliseconds");
    for (visits, name) in MARKS {
        to += &line((across(visits), top), (across(visits), bottom), "#dddddd");
        to += &text(across(visits), bottom + 20.0, "middle", name);
    }
    for decade in DECADES.into_iter().filter(|&decade| span.0 <= decade && decade <= span.1) {
        to += &line((LEFT, up(decade)), (RIGHT, up(decade)), "#dddddd");
        to += &text(LEFT - 8.0, up(decade) + 4.0, "end", &format!("{decade}"));
    }
    to += &(line((LEFT, top), (LEFT, bottom), "#333333") + &line((LEFT, bottom), (RIGHT, bottom), "#333333"));
    to += &text((LEFT + RIGHT) / 2.0, bottom + 42.0, "middle", "visits");
    for (planner, _, colour) in DRAWN.into_iter().rev() {
        for board in all {
            let (x, y) = (across(board.by[planner].visits as f64), up(1e3 * board.by[planner].seconds));
            to += &format!("<circle cx=\"{x:.1}\" cy=\"{y:.1}\" r=\"3.5\" fill=\"{colour}\"/>\n");
        }
    }
    to
}
