//! Random numbers from a fixed seed, so that every run makes the same cases.

use second::board::{Board, Shape};
use std::cell::Cell;

/// The generator SplitMix64.
pub struct Random(Cell<u64>);

impl Random {
    /// A generator for one task of one section.
    pub fn new(section: &str, task: u64) -> Random {
        let seed = section.bytes().fold(0, |sum: u64, byte| sum.wrapping_mul(257).wrapping_add(byte.into()));
        Random(Cell::new(seed.wrapping_mul(0x2545_f491_4f6c_dd1d) ^ task))
    }

    pub fn bits(&self) -> u64 {
        let mut mixed = self.0.get().wrapping_add(0x9e37_79b9_7f4a_7c15);
        self.0.set(mixed);
        mixed = (mixed ^ mixed >> 30).wrapping_mul(0xbf58_476d_1ce4_e5b9);
        mixed = (mixed ^ mixed >> 27).wrapping_mul(0x94d0_49bb_1331_11eb);
        mixed ^ mixed >> 31
    }

    /// A number below `end`.
    pub fn below(&self, end: usize) -> usize {
        (self.bits() % end as u64) as usize
    }

    /// True one time in `times`.
    pub fn one_in(&self, times: usize) -> bool {
        self.below(times) == 0
    }

    pub fn pick<T: Copy>(&self, from: &[T]) -> T {
        from[self.below(from.len())]
    }

    pub fn fill(&self, bytes: &mut [u8]) {
        for chunk in bytes.chunks_mut(8) {
            chunk.copy_from_slice(&self.bits().to_le_bytes()[..chunk.len()]);
        }
    }

    /// A board some legal moves away from the goal.
    pub fn walked(&self, shape: Shape, moves: usize) -> Board {
        let mut board = shape.goal();
        for _ in 0..moves {
            board = board.after(shape, self.below(4) as u8).unwrap_or(board);
        }
        board
    }

    /// A board far from the goal, where values of the search are large: the goal turned round, then some legal moves.
    pub fn far(&self, shape: Shape) -> Board {
        let n = shape.cells();
        let mut board = shape.goal();
        board.cells[..n].reverse();
        board.empty = n as u8 - 1;
        if board.is_odd(shape) {
            board.cells.swap(0, 1);
        }
        for _ in 0..self.below(8) {
            board = board.after(shape, self.below(4) as u8).unwrap_or(board);
        }
        board
    }

    /// Any arrangement of the values; one in two can't be brought to the goal.
    pub fn shuffled(&self, shape: Shape) -> Board {
        let mut board = shape.goal();
        for last in (1..shape.cells()).rev() {
            board.cells.swap(last, self.below(last + 1));
        }
        board.empty = board.cells[..shape.cells()].iter().position(|&value| value == 0).unwrap() as u8;
        board
    }
}
