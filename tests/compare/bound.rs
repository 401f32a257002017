//! What a plan promises about all legal lists, against breadth-first search: how long a plan is, and what 9 and 10 mean.
//!
//! D is the length of a shortest list to the goal. A plan of L moves has q * L <= p * D, so L = D at p = q; 9 is answered exactly
//! if there is no list; 10 only if none is within the ceiling, and a plan only within it. The shapes of up to nine cells are
//! searched whole; of 3 by 4, 4 by 3 and 4 by 4 all boards within DEPTH moves of the goal are met, so their D is exact too.

use crate::boards::{order, plan_of};
use crate::call::{Call, Entry};
use crate::check::Checker;
use crate::random::Random;
use second::board::{Board, Shape};
use second::entries::SHORT;
use std::collections::HashMap;

const CALLS: &str = "plans against breadth-first search";
const CLAIMS: &str = "claims on all legal lists";
const PLAYED: &str = "plans played to the goal";

const WEIGHTS: [(u32, u32); 5] = [(1, 1), (3, 2), (2, 1), (7, 2), (64, 1)];

/// How far from the goal the shapes of twelve and sixteen cells are searched.
pub const DEPTH: u32 = 12;

/// The distance D of every board of a shape that the goal can be reached from, or of those within a depth.
pub struct Distances {
    shape: Shape,
    /// Where the search was cut: a board that was not met may have the goal in reach.
    depth: Option<u32>,
    least: HashMap<Board, u32>,
    /// The same boards, in the order met.
    boards: Vec<Board>,
}

impl Distances {
    pub fn of(shape: Shape) -> Distances {
        let depth = (shape.cells() > 9).then_some(DEPTH);
        let mut least = HashMap::from([(shape.goal(), 0)]);
        let mut boards = vec![shape.goal()];
        let mut at = 0;
        while at < boards.len() {
            let board: Board = boards[at];
            let d = least[&board];
            at += 1;
            if depth == Some(d) {
                continue;
            }
            for next in (0..4).filter_map(|to| board.after(shape, to)) {
                least.entry(next).or_insert_with(|| {
                    boards.push(next);
                    d + 1
                });
            }
        }
        Distances { shape, depth, least, boards }
    }

    /// Every `step`th board from `first` on, and beside each a shuffled one that is known to be out of reach. The small shapes
    /// take all weights, the others 1 over 1 and one more.
    pub fn run(&self, checker: &mut Checker, first: usize, step: usize) {
        let random = Random::new("bound", ((first * 16 + self.shape.width) * 16 + self.shape.height) as u64);
        let mut calls = Vec::new();
        for number in (first..self.boards.len()).step_by(step) {
            let some = [(1, 1), random.pick(&WEIGHTS[1..])];
            let weights = if self.is_small() { &WEIGHTS[..] } else { &some };
            calls.extend(self.calls(&random, self.boards[number], weights));
            let shuffled = random.shuffled(self.shape);
            if self.depth.is_none() && !self.least.contains_key(&shuffled) {
                calls.extend(self.calls(&random, shuffled, &some));
            }
        }
        let mut plans = Vec::new();
        for (answer, call) in checker.ask(CALLS, calls) {
            self.claims(checker, answer, &call);
            if answer & 0xff == 0 {
                let moves = &call.part(1)[..(answer >> 16 & 0xffff) as usize];
                plans.push(Call::play(&random, call.width, call.height, call.part(0), moves, self.shape.cells()));
            }
        }
        for (answer, call) in checker.ask(PLAYED, plans) {
            checker.claim(CLAIMS, answer == 1 << 8, || format!("{call}\n  a plan does not end at the goal"));
        }
    }

    fn is_small(&self) -> bool {
        self.shape.cells() <= 6
    }

    /// Ceilings around the least length: below it, at it and above it where a search can look at so many lists, and the highest.
    fn ceilings(&self, d: u32) -> Vec<u32> {
        if self.depth.is_some() {
            let below = (1..=10).contains(&d).then(|| d - 1);
            return below.into_iter().chain([d, 120]).collect();
        }
        let most = if self.is_small() { 30 } else { 14 };
        let near = [d.saturating_sub(1), d, d + 1, d + 6];
        near.into_iter().filter(|&ceiling| ceiling <= most).chain([120]).collect()
    }

    fn calls(&self, random: &Random, board: Board, weights: &[(u32, u32)]) -> Vec<Call> {
        let cells = &board.cells[..self.shape.cells()];
        let budget = if self.is_small() { 1_000_000 } else { 100_000 };
        let ceilings = match self.least.get(&board) {
            Some(&d) => self.ceilings(d),
            None => vec![random.below(121) as u32],
        };
        let mut calls = Vec::new();
        for &weight in weights {
            for &ceiling in &ceilings {
                calls.push(plan_of(random, &order(self.shape, cells, ceiling as i32, budget, weight)));
            }
        }
        calls
    }

    fn claims(&self, checker: &mut Checker, answer: u64, call: &Call) {
        let (_, board) = second::board::read(call.width, call.height, call.part(0)).unwrap();
        let d = self.least.get(&board).copied();
        let (p, q) = if call.entry == Entry::PlanShort { SHORT } else { (call.p, call.q) };
        let (number, length) = (answer & 0xff, (answer >> 16 & 0xffff) as u32);
        // near the goal every search at p = q, and every one under a low ceiling, ends within the budget
        let may_be_spent = self.depth.is_none() || p != q && call.ceiling == 120;
        if number == 11 && d.is_some() && may_be_spent {
            checker.tally.unclaimed += 1;
            return;
        }
        let holds = match (number, d) {
            (0, Some(d)) => q * length <= p * d && (p != q || length == d) && length <= call.ceiling as u32,
            (9, d) => d.is_none(),
            (10, Some(d)) => d > call.ceiling as u32,
            _ => false,
        };
        checker.claim(CLAIMS, holds, || match d {
            Some(d) => format!("{call}\n  number {number}, length {length}, and a shortest list has {d}"),
            None => format!("{call}\n  number {number}, length {length}, and there is no list"),
        });
    }
}
