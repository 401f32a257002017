//! Compares the library, through its C entries, with the second version on many calls: answers and every byte of lent memory.
//!
//!   compare VECTORS DAMAGED [SHARE]                the library linked into this program, all cases or one in SHARE
//!   compare VECTORS DAMAGED SHARE COMMAND [ARG..]  the library behind a harness, one case in SHARE
//!
//! VECTORS is the folder of stored vectors, or - for none; DAMAGED the file to write damaged job texts to. It prints what differs
//! and ends with status 1, or counts by kind and ends with status 0.

mod boards;
mod bound;
mod call;
mod ceilings;
mod check;
mod damage;
mod engine;
mod plays;
mod random;
mod reaches;
mod readings;
mod records;
mod small;
mod vectors;
mod weights;
mod wild;

use bound::Distances;
use check::{Checker, Tally};
use engine::{Engine, Harness};
use second::board::Shape;
use std::path::PathBuf;
use std::process::exit;
use std::sync::atomic::{AtomicBool, AtomicUsize, Ordering};
use std::sync::{Arc, LazyLock, Mutex};

/// Parts that a section is divided into, so that the workers share it.
const PARTS: usize = 24;

type Task = Box<dyn Fn(&mut Checker) + Sync>;

/// All that is to be compared. Each task makes its own random numbers, so nothing depends on who does it and when.
fn tasks(vectors: Option<PathBuf>, share: usize) -> Vec<Task> {
    let mut tasks: Vec<Task> = Vec::new();
    if let Some(folder) = vectors {
        tasks.push(Box::new(move |checker| vectors::run(checker, &folder)));
    }
    for part in 0..PARTS {
        tasks.push(Box::new(move |checker| boards::long_searches(checker, part, 10usize.div_ceil(share))));
        tasks.push(Box::new(move |checker| small::run(checker, part, PARTS, share)));
        tasks.push(Box::new(move |checker| boards::walks(checker, part, 126usize.div_ceil(share))));
        tasks.push(Box::new(move |checker| boards::shuffles(checker, part, 126usize.div_ceil(share))));
        tasks.push(Box::new(move |checker| ceilings::run(checker, part, 126usize.div_ceil(share))));
        tasks.push(Box::new(move |checker| wild::run(checker, part, 2_500usize.div_ceil(share))));
        tasks.push(Box::new(move |checker| plays::run(checker, part, 180usize.div_ceil(share))));
        tasks.push(Box::new(move |checker| weights::run(checker, part, PARTS)));
        tasks.push(Box::new(move |checker| records::run(checker, part, 60usize.div_ceil(share))));
        tasks.push(Box::new(move |checker| readings::run(checker, part, 6usize.div_ceil(share))));
        tasks.push(Box::new(move |checker| reaches::lists(checker, part, PARTS, share)));
        tasks.push(Box::new(move |checker| reaches::run(checker, part, 900usize.div_ceil(share))));
    }
    let small = [(2, 2, 1), (2, 3, 1), (3, 2, 1), (2, 4, 9), (4, 2, 9), (3, 3, 61)];
    let large = [(3, 4, 1), (4, 3, 1), (4, 4, 1)];
    for (width, height, step) in small.into_iter().chain(large) {
        let distances = Arc::new(LazyLock::new(move || Distances::of(Shape { width, height })));
        for part in 0..PARTS {
            let distances = distances.clone();
            tasks.push(Box::new(move |checker| distances.run(checker, part * step * share, PARTS * step * share)));
        }
    }
    tasks
}

fn engine(command: &[String]) -> Box<dyn Engine> {
    #[cfg(linked)]
    if command.is_empty() {
        return Box::new(engine::Linked);
    }
    Box::new(Harness { command: command.to_vec() })
}

/// Has every task done by as many workers as there are processors.
fn run(tasks: &[Task], command: &[String]) -> Tally {
    let (stop, next, total) = (AtomicBool::new(false), AtomicUsize::new(0), Mutex::new(Tally::default()));
    let workers = std::thread::available_parallelism().map_or(1, usize::from);
    std::thread::scope(|scope| {
        for _ in 0..workers {
            scope.spawn(|| {
                let mut checker = Checker::new(engine(command), &stop);
                while let Some(task) = tasks.get(next.fetch_add(1, Ordering::Relaxed)) {
                    if !checker.stopped() {
                        task(&mut checker);
                    }
                }
                checker.flush();
                total.lock().unwrap().add(checker.tally);
            });
        }
    });
    total.into_inner().unwrap()
}

/// The answers that each entry must have given at least once.
fn missing(tally: &Tally) -> Vec<String> {
    let numbers = (0..=11).chain([15]);
    let plans = numbers.filter(|number| !tally.plans.contains_key(number)).map(|number| format!("plan {number}"));
    let numbers = [0, 1, 2, 3, 4, 8, 13, 14].into_iter();
    let plays = numbers.filter(|number| !tally.plays.contains_key(number)).map(|number| format!("play {number}"));
    let numbers = (0..=8).chain([13, 14, 15, 21, 22]);
    let records = numbers.filter(|number| !tally.records.contains_key(number)).map(|number| format!("record {number}"));
    // a record has as many cells as its shape, so reading it is never refused by 2
    let numbers = [0, 1].into_iter().chain(3..=8).chain(13..=15).chain(17..=22);
    let readings = numbers.filter(|number| !tally.readings.contains_key(number)).map(|number| format!("reading {number}"));
    let numbers = [0, 1, 2, 3, 4, 9].into_iter();
    let reaches = numbers.filter(|number| !tally.reaches.contains_key(number)).map(|number| format!("reach {number}"));
    plans.chain(plays).chain(records).chain(readings).chain(reaches).collect()
}

fn main() {
    let arguments: Vec<String> = std::env::args().skip(1).collect();
    let (vectors, damaged, rest) = match &arguments[..] {
        [vectors, damaged, rest @ ..] if cfg!(linked) || rest.len() >= 2 => (vectors, damaged, rest),
        _ => {
            eprintln!("usage: compare VECTORS DAMAGED [SHARE [COMMAND [ARG..]]]");
            exit(2)
        }
    };
    let share = rest.first().map_or(1, |share| share.parse().expect("SHARE is a number"));
    let command = rest.get(1..).unwrap_or(&[]);

    let vectors = (vectors != "-").then(|| PathBuf::from(vectors));
    let tally = run(&tasks(vectors, share), command);
    for (kind, count) in &tally.kinds {
        println!("{count:>8}  {kind}");
    }
    println!("answers to plans: {} ({} visits)", listed(&tally.plans), tally.visits);
    println!("answers to plays: {}", listed(&tally.plays));
    println!("answers to records: {}", listed(&tally.records));
    println!("answers to readings: {}", listed(&tally.readings));
    println!("answers to reachability tests: {}", listed(&tally.reaches));
    println!("no claim on legal lists, the budget was spent: {}", tally.unclaimed);
    println!("damaged job texts written: {}", damage::write(damaged.as_ref()));
    if share > 1 {
        println!("one case in {share}");
    }
    let missing = missing(&tally);
    if tally.differences == 0 && !missing.is_empty() {
        println!("never answered: {}", missing.join(", "));
    }
    let claims = tally.kinds.values().sum::<usize>() - tally.calls;
    println!("{} calls, {claims} further claims, {} differences", tally.calls, tally.differences);
    if tally.differences > 0 || !missing.is_empty() {
        exit(1);
    }
}

fn listed(numbers: &std::collections::BTreeMap<u8, usize>) -> String {
    numbers.iter().map(|(number, count)| format!("{number}: {count}")).collect::<Vec<_>>().join(", ")
}
