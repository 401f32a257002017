//! The findings as one picture: above the visits a second by shape, below the milliseconds by visits.

use crate::planners::{C, LIBRARY, RUST};
use crate::timing::Timed;
use crate::{bars, points};

/// The drawing's size, and the columns between which both halves are drawn.
pub const WIDTH: f64 = 720.0;
const HEIGHT: f64 = 860.0;
pub const LEFT: f64 = 70.0;
pub const RIGHT: f64 = 700.0;

/// The planners that are drawn, with the name and the colour of each.
pub const DRAWN: [(usize, &str, &str); 3] =
    [(LIBRARY, "library", "#1f5fbf"), (C, "plain C", "#6b6b6b"), (RUST, "plain Rust", "#d98a3d")];

pub fn text(x: f64, y: f64, anchor: &str, words: &str) -> String {
    format!("<text x=\"{x:.1}\" y=\"{y:.1}\" text-anchor=\"{anchor}\">{words}</text>\n")
}

pub fn line(from: (f64, f64), to: (f64, f64), colour: &str) -> String {
    format!("<path d=\"M{:.1} {:.1}L{:.1} {:.1}\" stroke=\"{colour}\"/>\n", from.0, from.1, to.0, to.1)
}

pub fn rectangle(x: f64, y: f64, width: f64, height: f64, colour: &str) -> String {
    format!("<rect x=\"{x:.1}\" y=\"{y:.1}\" width=\"{width:.1}\" height=\"{height:.1}\" fill=\"{colour}\"/>\n")
}

/// The names beside their colours.
fn legend() -> String {
    let one = |(place, (_, name, colour)): (usize, (usize, &str, &str))| {
        let x = RIGHT - 330.0 + 110.0 * place as f64;
        rectangle(x, 17.0, 12.0, 12.0, colour) + &text(x + 18.0, 28.0, "start", name)
    };
    DRAWN.into_iter().enumerate().map(one).collect()
}

pub fn draw(all: &[Timed]) -> String {
    let head =
        format!("<svg xmlns=\"http://www.w3.org/2000/svg\" viewBox=\"0 0 {WIDTH} {HEIGHT}\" font-family=\"sans-serif\" font-size=\"13\">");
    let title = "<title>Visits a second by shape, and milliseconds by visits: library, plain C, plain Rust</title>";
    let paper = rectangle(0.0, 0.0, WIDTH, HEIGHT, "#ffffff");
    format!(
        "{head}\n{title}\n{paper}{}{}{}</svg>\n",
        legend(),
        bars::draw(all, 60.0, 370.0),
        points::draw(all, 450.0, 800.0)
    )
}
