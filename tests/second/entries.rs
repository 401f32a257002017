//! The calls as C sees them: a table of bytes, low byte first, and answers packed into 64 bits.

use crate::board;
use crate::planner::{self, Answer, Order};
use crate::player::{self, Played};
use crate::records::{self, Fields, Written};

/// The weight of the short call, p and q.
pub const SHORT: (u32, u32) = (3, 2);

/// The highest place that an answer can hold.
const HIGHEST_PLACE: u64 = (1 << 56) - 1;

/// Plans with a table of bytes. An odd last byte is no part of the table.
pub fn plan(order: &Order, moves: &mut [u8], table: &mut [u8]) -> u64 {
    let mut numbers: Vec<u16> = table.chunks_exact(2).map(|pair| u16::from_le_bytes([pair[0], pair[1]])).collect();
    let answer = planner::plan(order, moves, &mut numbers);
    for (pair, number) in table.chunks_exact_mut(2).zip(numbers) {
        pair.copy_from_slice(&number.to_le_bytes());
    }
    packed(answer)
}

/// Plans with the weight of the short call.
pub fn plan_short(order: &Order, moves: &mut [u8], table: &mut [u8]) -> u64 {
    plan(&Order { p: SHORT.0, q: SHORT.1, ..*order }, moves, table)
}

/// Number, then the cell from bit 8, the length from bit 16 and the visits from bit 32.
pub fn packed(answer: Answer) -> u64 {
    match answer {
        Answer::Plan { length, visits } => (length as u64) << 16 | (visits as u64) << 32,
        Answer::Refused { number, cell, visits } => number as u64 | (cell as u64) << 8 | (visits as u64) << 32,
    }
}

/// Plays; the number, then from bit 8 whether it ends at the goal, or the place of the fault.
pub fn play(width: u32, height: u32, board: &[u8], moves: &[u8], out: &mut [u8]) -> u64 {
    match player::play(width, height, board, moves, out) {
        Played::End { goal } => (goal as u64) << 8,
        Played::Refused { number, place } => number as u64 | (place as u64).min(HIGHEST_PLACE) << 8,
    }
}

/// Writes a record; the number, then from bit 8 the record's length, or the place of the fault.
pub fn write_record(order: &Order, moves: &[u8], out: &mut [u8]) -> u64 {
    match records::write(order, moves, out) {
        Written::Record { length } => (length as u64) << 8,
        Written::Refused { number, place } => number as u64 | (place as u64).min(HIGHEST_PLACE) << 8,
    }
}

/// Reads a record; the number, then from bit 8 the place of the fault, or the fields: width from bit 8, height from bit 11,
/// ceiling from bit 14, p from bit 21, q from bit 28, length from bit 35 and visits from bit 42.
pub fn read_record(bytes: &[u8], out: &mut [u8]) -> u64 {
    match records::read(bytes, out) {
        Ok(Fields { width, height, ceiling, p, q, visits, length }) => {
            let places = [(width, 8), (height, 11), (ceiling, 14), (p, 21), (q, 28), (length as u32, 35), (visits, 42)];
            places.into_iter().fold(0, |answer, (field, bit)| answer | u64::from(field) << bit)
        }
        Err((number, place)) => number as u64 | (place as u64).min(HIGHEST_PLACE) << 8,
    }
}

/// Tests 1 to 4 and then 9, by counting pairs; the number, then the cell from bit 8.
pub fn reachable(width: u32, height: u32, board: &[u8]) -> u64 {
    match board::read(width, height, board) {
        Ok((shape, board)) if board.is_odd(shape) => 9,
        Ok(_) => 0,
        Err(fault) => fault.number() as u64 | (fault.cell() as u64) << 8,
    }
}
