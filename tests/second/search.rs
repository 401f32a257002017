//! The search: best first, in room for one path, with stored values that bring it back to where it left off.
//!
//! A position reached by g moves has the static value f = q * g + p * h and a stored value F. A visit works through its
//! successors, the least F first, and hands each the lesser of its own bound and the second least F. A successor whose g + h is
//! above the ceiling has an infinite F at once.

use crate::board::{Board, Shape, MOST_CELLS, MOVES};

/// The value of what leads nowhere. No f comes near it.
pub const INFINITY: u32 = 65_535;

/// The highest ceiling, so the longest path.
pub const MOST_MOVES: usize = 120;

/// How a whole search ends, with the visits made.
#[derive(Clone, Copy, Debug, PartialEq, Eq)]
pub enum End {
    Found { length: usize, visits: u32 },
    Exhausted { visits: u32 },
    Spent { visits: u32 },
}

/// How one visit ends.
enum Visited {
    Found { length: usize },
    Value(u32),
    Spent,
}

/// A position on the path: its board, the move that led to it, its static and its stored value.
#[derive(Clone, Copy)]
struct Position {
    board: Board,
    last: Option<u8>,
    f: u32,
    stored: u32,
}

struct Search {
    shape: Shape,
    /// The way of a tray in a cell to its own, `way[tray][cell]`; of the empty cell, 0.
    way: [[u8; MOST_CELLS]; MOST_CELLS],
    /// Where a move takes the empty cell, `next[cell][move]`.
    next: [[Option<u8>; 4]; MOST_CELLS],
    ceiling: usize,
    budget: u32,
    p: u32,
    q: u32,
    visits: u32,
    path: [u8; MOST_MOVES],
}

/// Runs the search from a board. A path that is found stands in the first `length` bytes of the list beside the end.
pub fn run(shape: Shape, start: Board, ceiling: usize, budget: u32, p: u32, q: u32) -> (End, [u8; MOST_MOVES]) {
    let (mut way, mut next) = ([[0; MOST_CELLS]; MOST_CELLS], [[None; 4]; MOST_CELLS]);
    for cell in 0..shape.cells() {
        for tray in 1..shape.cells() {
            way[tray][cell] = shape.apart(tray, cell) as u8;
        }
        next[cell] = MOVES.map(|to| shape.neighbour(cell, to).map(|place| place as u8));
    }
    let mut search = Search { shape, way, next, ceiling, budget, p, q, visits: 0, path: [0; MOST_MOVES] };
    let f = search.value(0, search.distance(&start));
    let end = search.visit(&Position { board: start, last: None, f, stored: f }, 0, INFINITY);
    let visits = search.visits;
    let end = match end {
        Visited::Found { length } => End::Found { length, visits },
        Visited::Value(_) => End::Exhausted { visits },
        Visited::Spent => End::Spent { visits },
    };
    (end, search.path)
}

impl Search {
    fn visit(&mut self, here: &Position, depth: usize, bound: u32) -> Visited {
        if self.visits == self.budget {
            return Visited::Spent;
        }
        self.visits += 1;
        if self.is_goal(&here.board) {
            return Visited::Found { length: depth };
        }
        if depth == self.ceiling {
            return Visited::Value(INFINITY);
        }
        let mut successors = self.successors(here, depth);
        loop {
            let (to, second) = least_and_second(&successors);
            let Some(next) = &mut successors[to] else { return Visited::Value(INFINITY) };
            if next.stored > bound || next.stored == INFINITY {
                return Visited::Value(next.stored);
            }
            match self.visit(next, depth + 1, bound.min(second)) {
                Visited::Found { length } => {
                    self.path[depth] = to as u8;
                    return Visited::Found { length };
                }
                Visited::Value(value) => next.stored = value,
                Visited::Spent => return Visited::Spent,
            }
        }
    }

    /// The positions one move on, by move number, with their first values. The move that takes back the last leads to none.
    fn successors(&self, here: &Position, depth: usize) -> [Option<Position>; 4] {
        let mut successors = [None; 4];
        for to in MOVES {
            if here.last == Some(3 - to) {
                continue;
            }
            if let Some(place) = self.next[here.board.empty as usize][to as usize] {
                let board = here.board.with_empty_at(place as usize);
                let h = self.distance(&board);
                let f = self.value(depth + 1, h);
                let mut stored = if here.f < here.stored { f.max(here.stored) } else { f };
                if depth + 1 + h > self.ceiling {
                    stored = INFINITY;
                }
                successors[to as usize] = Some(Position { board, last: Some(to), f, stored });
            }
        }
        successors
    }

    fn distance(&self, board: &Board) -> usize {
        (0..self.shape.cells()).map(|cell| self.way[board.cells[cell] as usize][cell] as usize).sum()
    }

    fn value(&self, depth: usize, h: usize) -> u32 {
        self.q * depth as u32 + self.p * h as u32
    }

    fn is_goal(&self, board: &Board) -> bool {
        (0..self.shape.cells()).all(|cell| board.cells[cell] as usize == cell)
    }
}

/// The move whose successor has the least stored value, the lower move number first, and the least value among the others.
fn least_and_second(successors: &[Option<Position>; 4]) -> (usize, u32) {
    let (mut to, mut least, mut second) = (0, INFINITY, INFINITY);
    for (number, successor) in successors.iter().enumerate() {
        let Some(successor) = successor else { continue };
        if successor.stored < least {
            second = least;
            (to, least) = (number, successor.stored);
        } else if successor.stored < second {
            second = successor.stored;
        }
    }
    (to, second)
}
