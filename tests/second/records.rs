//! Plan records: a plan and its board as bytes to store or to send, and such bytes read back.

use crate::board;
use crate::planner::{self, Order};
use crate::player::{self, Played};

#[derive(Clone, Copy, Debug, PartialEq, Eq)]
pub enum Written {
    Record {
        length: usize,
    },
    /// `place` is a cell for a fault of the board, the move's place in the list for a bad move, else 0.
    Refused {
        number: u8,
        place: usize,
    },
}

/// A number in groups of seven bits: the most significant first, the top bit set on all but the last, and none in front that
/// is not needed.
fn groups(number: u32) -> Vec<u8> {
    let mut groups = vec![(number % 128) as u8];
    let mut rest = number / 128;
    while rest > 0 {
        groups.push(128 | (rest % 128) as u8);
        rest /= 128;
    }
    groups.reverse();
    groups
}

/// 32-bit FNV-1a.
pub fn mark(bytes: &[u8]) -> u32 {
    bytes.iter().fold(2_166_136_261, |mark: u32, &byte| (mark ^ u32::from(byte)).wrapping_mul(16_777_619))
}

/// The record of a plan that nothing is wrong with. Where an order has its budget stand the visits that were made.
pub fn record(order: &Order, moves: &[u8]) -> Vec<u8> {
    let mut bytes = [groups(order.width), groups(order.height)].concat();
    bytes.extend(order.board.iter().flat_map(|&cell| groups(cell.into())));
    for number in [order.ceiling as u32, order.p, order.q, order.budget, moves.len() as u32] {
        bytes.extend(groups(number));
    }
    bytes.extend(moves);
    let mark = mark(&bytes);
    bytes.extend(mark.to_be_bytes());
    bytes
}

/// What is wrong with a plan: number and place. Whether its record fits the output is not asked here.
fn fault(order: &Order, moves: &[u8]) -> Option<(u8, usize)> {
    if let Err(fault) = board::read(order.width, order.height, order.board) {
        return Some((fault.number(), fault.cell()));
    }
    if let Some(number) = planner::beyond(order) {
        return Some((number, 0));
    }
    if moves.len() > order.ceiling as usize {
        return Some((21, 0));
    }
    match player::play(order.width, order.height, order.board, moves, &mut [0; board::MOST_CELLS]) {
        Played::Refused { number, place } => Some((number, place)),
        Played::End { goal: false } => Some((22, 0)),
        Played::End { goal: true } => None,
    }
}

/// Writes a plan's record to the start of `out`, which a refusal leaves alone.
pub fn write(order: &Order, moves: &[u8], out: &mut [u8]) -> Written {
    if let Some((number, place)) = fault(order, moves) {
        return Written::Refused { number, place };
    }
    let bytes = record(order, moves);
    if out.len() < bytes.len() {
        return Written::Refused { number: 8, place: 0 };
    }
    out[..bytes.len()].copy_from_slice(&bytes);
    Written::Record { length: bytes.len() }
}

/// What a record says beside its cells and moves.
#[derive(Clone, Copy, Debug, PartialEq, Eq)]
pub struct Fields {
    pub width: u32,
    pub height: u32,
    pub ceiling: u32,
    pub p: u32,
    pub q: u32,
    pub visits: u32,
    pub length: usize,
}

/// A refusal: its number and its place.
pub type Refusal = (u8, usize);

/// The bytes of a record, and how many of them were read.
struct Reader<'a> {
    bytes: &'a [u8],
    next: usize,
}

impl Reader<'_> {
    fn number(&mut self) -> Result<u32, Refusal> {
        let first = self.next;
        let mut value = 0;
        while self.next < self.bytes.len() {
            let byte = self.bytes[self.next];
            self.next += 1;
            if byte == 128 && self.next == first + 1 {
                return Err((18, first));
            }
            value = 128 * value + u64::from(byte % 128);
            if byte < 128 {
                return u32::try_from(value).map_err(|_| (18, first));
            }
            if self.next == first + 5 {
                return Err((18, first));
            }
        }
        Err((17, self.bytes.len()))
    }

    /// A number that is refused, where it begins, if it is not within limits.
    fn within(&mut self, least: u32, most: u32, refusal: u8) -> Result<u32, Refusal> {
        let first = self.next;
        let number = self.number()?;
        if number < least || number > most {
            return Err((refusal, first));
        }
        Ok(number)
    }
}

/// The fields of a record, and its cells and moves one behind the other.
fn fields(bytes: &[u8]) -> Result<(Fields, Vec<u8>), Refusal> {
    let mut reader = Reader { bytes, next: 0 };
    let width = reader.within(2, 4, 1)?;
    let height = reader.within(2, 4, 1)?;
    let mut cells = Vec::new();
    for _ in 0..width * height {
        // a cell that no byte can hold is n or more as 255 is
        cells.push(reader.number()?.min(255) as u8);
    }
    let [ceiling, p, q, visits] = [reader.number()?, reader.number()?, reader.number()?, reader.number()?];
    let length = reader.within(0, 120, 21)? as usize;
    let end = reader.next + length;
    if bytes.len() < end + 4 {
        return Err((17, bytes.len()));
    }
    if bytes.len() > end + 4 {
        return Err((20, end + 4));
    }
    if bytes[end..] != mark(&bytes[..end]).to_be_bytes() {
        return Err((19, 0));
    }
    let moves = &bytes[reader.next..end];
    let order = Order { width, height, board: &cells, ceiling: ceiling.min(121) as i32, budget: visits, p, q };
    if let Some(refusal) = fault(&order, moves) {
        return Err(refusal);
    }
    Ok((Fields { width, height, ceiling, p, q, visits, length }, [&cells, moves].concat()))
}

/// Reads a record: its cells and then its moves go to the start of `out`, which a refusal leaves alone.
pub fn read(bytes: &[u8], out: &mut [u8]) -> Result<Fields, Refusal> {
    let (fields, plan) = fields(bytes)?;
    if out.len() < plan.len() {
        return Err((8, 0));
    }
    out[..plan.len()].copy_from_slice(&plan);
    Ok(fields)
}
