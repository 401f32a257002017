//! The planners that are timed: the library, plain C, plain Rust and, where one is linked, an earlier archive. All are called alike.

use second::entries;
use second::planner::Order;

/// What a caller lends, of full size.
#[derive(Clone, Copy, PartialEq, Eq)]
pub struct Buffers {
    pub moves: [u8; 120],
    pub table: [u8; 968],
}

/// What stands in them before a call: no planner may read it, and all must leave the same of it.
pub const LENT: Buffers = Buffers { moves: [0xa5; 120], table: [0x5a; 968] };

type Entry = unsafe extern "C" fn(u32, u32, *const u8, usize, i32, u32, u32, u32, *mut u8, usize, *mut u8, usize) -> u64;

#[rustfmt::skip]
extern "C" {
    fn lowpengine_plan(width: u32, height: u32, board: *const u8, board_len: usize, ceiling: i32, budget: u32,
        p: u32, q: u32, moves: *mut u8, moves_len: usize, table: *mut u8, table_len: usize) -> u64;
    fn plain_plan(width: u32, height: u32, board: *const u8, board_len: usize, ceiling: i32, budget: u32,
        p: u32, q: u32, moves: *mut u8, moves_len: usize, table: *mut u8, table_len: usize) -> u64;
    #[cfg(earlier)]
    fn earlier_lowpengine_plan(width: u32, height: u32, board: *const u8, board_len: usize, ceiling: i32, budget: u32,
        p: u32, q: u32, moves: *mut u8, moves_len: usize, table: *mut u8, table_len: usize) -> u64;
}

#[derive(Clone, Copy)]
pub enum Planner {
    Entry(Entry),
    Rust,
}

/// Their places in every list of findings. The earlier archive stands last, if at all.
pub const LIBRARY: usize = 0;
pub const C: usize = 1;
pub const RUST: usize = 2;
pub const EARLIER: usize = 3;

pub const NAMES: [&str; 4] = ["Library", "Plain C", "Plain Rust", "Earlier"];

pub fn all() -> Vec<Planner> {
    let planners = [Planner::Entry(lowpengine_plan), Planner::Entry(plain_plan), Planner::Rust];
    planners.into_iter().chain(earlier()).collect()
}

#[cfg(earlier)]
fn earlier() -> Option<Planner> {
    Some(Planner::Entry(earlier_lowpengine_plan))
}

#[cfg(not(earlier))]
fn earlier() -> Option<Planner> {
    None
}

impl Planner {
    pub fn plan(self, order: &Order, Buffers { moves, table }: &mut Buffers) -> u64 {
        let Order { width, height, board, ceiling, budget, p, q } = *order;
        match self {
            Planner::Rust => entries::plan(order, moves, table),
            // Safe: each pointer is that of a slice or an array with the length beside it, and they don't overlap.
            Planner::Entry(entry) => unsafe {
                let (moves, table) = (moves.as_mut_ptr(), table.as_mut_ptr());
                entry(width, height, board.as_ptr(), board.len(), ceiling, budget, p, q, moves, 120, table, 968)
            },
        }
    }
}
