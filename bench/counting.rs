//! Where the time goes, counted by callgrind: the boards that are planned under it, and what its file says of them.

use crate::boards::{Job, JOBS};
use crate::planners::{Planner, LENT};
use crate::{small, timing};
use second::planner::Order;
use std::collections::HashMap;

/// The first board of each shape at this weight is counted: some 25,000 visits each.
const WEIGHT: (u32, u32) = (3, 1);

pub fn boards() -> impl Iterator<Item = &'static Job> {
    let shapes = [(3, 3), (4, 3), (3, 4), (4, 4)];
    let first = |(w, h)| JOBS.iter().find(move |job| (job.width, job.height, (job.p, job.q)) == (w, h, WEIGHT));
    shapes.into_iter().filter_map(first)
}

/// Makes the calls by one planner, and answers the visits. Callgrind counts what this function does, by its name.
#[no_mangle]
#[inline(never)]
pub fn counted(planner: Planner, orders: &[Order]) -> u64 {
    orders.iter().map(|order| planner.plan(order, &mut LENT.clone()) >> 32).sum()
}

/// The calls that are counted: long searches, or one visit.
pub fn orders(what: &str) -> Vec<Order<'static>> {
    match what {
        "searches" => boards().map(timing::order).collect(),
        "visit" => vec![small::one_visit()],
        _ => panic!("no calls named {what}"),
    }
}

/// The events of a planner's calls, and the instructions of each function by itself, most first.
pub struct Counts {
    pub events: HashMap<String, f64>,
    pub functions: Vec<(String, f64)>,
}

/// Reads a file of callgrind's: `fn=(id) name` begins a function, named at its first place only; a line of numbers is a position
/// and what was counted there; the one behind `calls=` was counted in what is called. A recursive call has a name with `'2` behind.
pub fn read(text: &str) -> Option<Counts> {
    let words = |line: &str| line.split_whitespace().map(str::to_string).collect::<Vec<String>>();
    let after = |head: &str| text.lines().find_map(|line| line.strip_prefix(head)).map(words);
    let numbers = after("summary: ")?.into_iter().map(|word| word.parse::<f64>().ok()).collect::<Option<Vec<f64>>>()?;
    let events = after("events: ")?.into_iter().zip(numbers).collect();
    let (mut names, mut sums): (HashMap<&str, &str>, HashMap<&str, f64>) = Default::default();
    let (mut here, mut called) = ("", false);
    for line in text.lines() {
        if let Some(named) = line.strip_prefix("fn=").or(line.strip_prefix("cfn=")) {
            let (id, name) = named.split_once(' ').unwrap_or((named, ""));
            if !name.is_empty() {
                names.insert(id, name);
            }
            here = if line.starts_with("fn=") { id } else { here };
        } else if line.starts_with("calls=") {
            called = true;
        } else if line.starts_with(|first: char| first.is_ascii_digit() || "+-*".contains(first)) {
            if !std::mem::take(&mut called) {
                *sums.entry(here).or_default() +=
                    line.split(' ').nth(1).and_then(|word| word.parse::<f64>().ok()).unwrap_or(0.0);
            }
        }
    }
    let mut named: HashMap<&str, f64> = HashMap::new();
    for (id, sum) in sums {
        let name = names.get(id).unwrap_or(&id);
        *named.entry(name.strip_suffix("'2").unwrap_or(name)).or_default() += sum;
    }
    let mut functions: Vec<_> = named.into_iter().map(|(name, sum)| (name.to_string(), sum)).collect();
    functions.sort_by(|a, b| b.1.total_cmp(&a.1));
    Some(Counts { events, functions })
}
