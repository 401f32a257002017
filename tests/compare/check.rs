//! Makes calls in batches, holds each against the second version, and counts.

use crate::call::{Call, Entry};
use crate::engine::Engine;
use crate::readings::unpacked;
use std::collections::BTreeMap;
use std::sync::atomic::{AtomicBool, Ordering};

/// Calls that are made together.
const BATCH: usize = 2_000;

/// Differences that are printed before a worker gives up.
const MOST_PRINTED: usize = 5;

/// What was compared: calls and claims by kind, the library's visits, and the numbers that it answered to plans, to plays, to
/// records written, to records read and to reachability tests.
#[derive(Default)]
pub struct Tally {
    pub kinds: BTreeMap<&'static str, usize>,
    /// Calls of the library; what else the kinds count are claims.
    pub calls: usize,
    pub visits: u64,
    /// Calls whose budget was spent before they could tell anything to claim.
    pub unclaimed: usize,
    pub plans: BTreeMap<u8, usize>,
    pub plays: BTreeMap<u8, usize>,
    pub records: BTreeMap<u8, usize>,
    pub readings: BTreeMap<u8, usize>,
    pub reaches: BTreeMap<u8, usize>,
    pub differences: usize,
}

impl Tally {
    pub fn add(&mut self, other: Tally) {
        let merge = |to: &mut BTreeMap<u8, usize>, from: BTreeMap<u8, usize>| {
            from.into_iter().for_each(|(number, count)| *to.entry(number).or_default() += count)
        };
        other.kinds.into_iter().for_each(|(kind, count)| *self.kinds.entry(kind).or_default() += count);
        merge(&mut self.plans, other.plans);
        merge(&mut self.plays, other.plays);
        merge(&mut self.records, other.records);
        merge(&mut self.readings, other.readings);
        merge(&mut self.reaches, other.reaches);
        self.calls += other.calls;
        self.visits += other.visits;
        self.unclaimed += other.unclaimed;
        self.differences += other.differences;
    }
}

/// One worker: its way to the library, the calls that wait, and what it has counted.
pub struct Checker<'a> {
    engine: Box<dyn Engine>,
    waiting: Vec<(&'static str, Call)>,
    stop: &'a AtomicBool,
    pub tally: Tally,
}

impl<'a> Checker<'a> {
    pub fn new(engine: Box<dyn Engine>, stop: &'a AtomicBool) -> Checker<'a> {
        Checker { engine, waiting: Vec::new(), stop, tally: Tally::default() }
    }

    /// Whether some worker has found enough differences.
    pub fn stopped(&self) -> bool {
        self.stop.load(Ordering::Relaxed)
    }

    /// Compares a call, now or with later ones.
    pub fn check(&mut self, kind: &'static str, call: Call) {
        self.waiting.push((kind, call));
        if self.waiting.len() == BATCH {
            self.flush();
        }
    }

    /// Compares all that waits.
    pub fn flush(&mut self) {
        let waiting = std::mem::take(&mut self.waiting);
        self.compare(waiting);
    }

    /// Makes calls of one kind at once and compares them. Gives the library's own answers, and the calls with their memory as
    /// it left it; nothing once the workers have stopped.
    pub fn ask(&mut self, kind: &'static str, calls: Vec<Call>) -> Vec<(u64, Call)> {
        self.compare(calls.into_iter().map(|call| (kind, call)).collect())
    }

    fn compare(&mut self, calls: Vec<(&'static str, Call)>) -> Vec<(u64, Call)> {
        if calls.is_empty() || self.stopped() {
            return Vec::new();
        }
        let mut after: Vec<Call> = calls.iter().map(|(_, call)| call.clone()).collect();
        let answers = self.engine.run(&mut after);
        for (((kind, before), after), &answer) in calls.iter().zip(&after).zip(&answers) {
            self.compare_one(kind, before, answer, &after.memory);
        }
        answers.into_iter().zip(after).collect()
    }

    fn compare_one(&mut self, kind: &'static str, before: &Call, answer: u64, after: &[u8]) {
        *self.tally.kinds.entry(kind).or_default() += 1;
        self.tally.calls += 1;
        let (numbers, visits) = match before.entry {
            Entry::Plan | Entry::PlanShort => (&mut self.tally.plans, answer >> 32),
            Entry::Play => (&mut self.tally.plays, 0),
            Entry::WriteRecord => (&mut self.tally.records, 0),
            Entry::ReadRecord => (&mut self.tally.readings, 0),
            Entry::Reachable => (&mut self.tally.reaches, 0),
        };
        self.tally.visits += visits;
        *numbers.entry((answer & 0xff) as u8).or_default() += 1;
        let (expected, memory) = before.expected();
        if answer != expected {
            let (found, wanted) = (shown(before, answer), shown(before, expected));
            self.differ(kind, &format!("{before}\n  answers {found}, not {wanted}"));
        } else if let Some(at) = (0..memory.len()).find(|&at| memory[at] != after[at]) {
            let (found, wanted, was, name) = (after[at], memory[at], before.memory[at], before.name_of_byte(at));
            self.differ(kind, &format!("{before}\n  leaves {name} as {found}, not {wanted} (it was {was})"));
        }
    }

    /// Notes a check besides a call, and prints what is wrong if it fails.
    pub fn claim(&mut self, kind: &'static str, holds: bool, wrong: impl Fn() -> String) {
        *self.tally.kinds.entry(kind).or_default() += 1;
        if !holds {
            self.differ(kind, &wrong());
        }
    }

    fn differ(&mut self, kind: &str, text: &str) {
        self.tally.differences += 1;
        if self.tally.differences <= MOST_PRINTED {
            eprintln!("DIFFERENCE ({kind}): {text}");
        }
        if self.tally.differences >= MOST_PRINTED {
            self.stop.store(true, Ordering::Relaxed);
        }
    }
}

/// An answer with its fields apart.
fn shown(call: &Call, answer: u64) -> String {
    let number = answer & 0xff;
    match call.entry {
        Entry::ReadRecord if number == 0 => format!("{:?}", unpacked(answer)),
        Entry::Play | Entry::WriteRecord | Entry::ReadRecord | Entry::Reachable => format!("number {number} with {}", answer >> 8),
        _ => format!(
            "number {number}, cell {}, length {}, visits {}",
            answer >> 8 & 0xff,
            answer >> 16 & 0xffff,
            answer >> 32
        ),
    }
}
