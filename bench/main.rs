//! Times the library, plain C and plain Rust side by side on the same boards, in one run, and writes what it finds.
//!
//!   bench DOCS FACTS    writes DOCS/BENCH.md and DOCS/bench.svg; the folder FACTS holds what bench/run found out beside
//!   bench NUMBER CALLS  only makes the calls that are counted, searches or visit, by the planner of that place; prints the visits
//!
//! Each call of a planner is a whole one, with the same ceiling, budget and buffers; answers, visits, plans and what is left in the
//! buffers must agree. An earlier archive, where one is linked, is timed with them; where it answers otherwise is counted.

mod bars;
mod boards;
mod clock;
mod counting;
mod facts;
mod picture;
mod planners;
mod points;
mod report;
mod small;
mod sums;
mod threads;
mod timing;

use planners::LIBRARY;
use std::path::Path;

fn main() {
    let arguments: Vec<String> = std::env::args().skip(1).collect();
    let [first, second] = &arguments[..] else {
        eprintln!("usage: bench DOCS FACTS | bench NUMBER CALLS");
        std::process::exit(2)
    };
    let planners = planners::all();
    if let Ok(number) = first.parse::<usize>() {
        println!("{}", counting::counted(planners[number], &counting::orders(second)));
        return;
    }
    let (all, small, together) = (timing::measure(&planners), small::measure(&planners), threads::measure(planners[LIBRARY]));
    let text = report::text(&all, &small, &together, &facts::Facts::read(Path::new(second)));
    for (file, content) in [("BENCH.md", &text), ("bench.svg", &picture::draw(&all))] {
        let path = Path::new(first).join(file);
        std::fs::write(&path, content).unwrap_or_else(|error| panic!("{}: {error}", path.display()));
    }
    print!("{text}");
}
