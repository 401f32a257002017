//! The planner's call: the tests in their order, the search, and what is left in the two buffers.

use crate::board::{self, Fault};
use crate::search::{self, End};

/// What a caller asks for.
#[derive(Clone, Copy, Debug)]
pub struct Order<'a> {
    pub width: u32,
    pub height: u32,
    pub board: &'a [u8],
    pub ceiling: i32,
    pub budget: u32,
    pub p: u32,
    pub q: u32,
}

#[derive(Clone, Copy, Debug, PartialEq, Eq)]
pub enum Answer {
    Plan { length: usize, visits: u32 },
    Refused { number: u8, cell: usize, visits: u32 },
}

/// A refusal that carries nothing but its number.
fn refused(number: u8) -> Answer {
    Answer::Refused { number, cell: 0, visits: 0 }
}

/// The refusal for a fault of the board.
fn faulty(fault: Fault) -> Answer {
    Answer::Refused { number: fault.number(), cell: fault.cell(), visits: 0 }
}

/// The greatest number that divides both.
fn greatest_divisor(p: u32, q: u32) -> u32 {
    if q == 0 {
        p
    } else {
        greatest_divisor(q, p % q)
    }
}

/// The refusal for a ceiling, a budget or a weight beyond its limits, or a weight that is not in lowest terms.
pub fn beyond(order: &Order) -> Option<u8> {
    if order.ceiling < 0 || order.ceiling > 120 {
        return Some(5);
    }
    if order.budget < 1 || order.budget > 1_000_000 {
        return Some(6);
    }
    if order.q == 0 || order.p < order.q || order.p > 64 {
        return Some(7);
    }
    if greatest_divisor(order.p, order.q) > 1 {
        return Some(15);
    }
    None
}

/// Plans the order. `moves` receives the plan; the part of `table` that the ceiling asks for is left as zeros.
pub fn plan(order: &Order, moves: &mut [u8], table: &mut [u16]) -> Answer {
    let (shape, start) = match board::read(order.width, order.height, order.board) {
        Ok(read) => read,
        Err(fault) => return faulty(fault),
    };
    if let Some(number) = beyond(order) {
        return refused(number);
    }
    let ceiling = order.ceiling as usize;
    let room = 4 * (ceiling + 1);
    if moves.len() < ceiling || table.len() < room {
        return refused(8);
    }
    if start.is_odd(shape) {
        return refused(9);
    }
    let (end, path) = search::run(shape, start, ceiling, order.budget, order.p, order.q);
    table[..room].fill(0);
    match end {
        End::Found { length, visits } => {
            moves[..length].copy_from_slice(&path[..length]);
            Answer::Plan { length, visits }
        }
        End::Exhausted { visits } => Answer::Refused { number: 10, cell: 0, visits },
        End::Spent { visits } => Answer::Refused { number: 11, cell: 0, visits },
    }
}
