//! One call of the library: its numbers, the memory lent to it, and what must stand there afterwards.
//!
//! A call's slices lie in one stretch of memory that is filled with noise, with gaps around each. The whole stretch is compared
//! after the call, so a byte written outside a buffer shows like a wrong byte inside it.

use crate::random::Random;
use second::entries;
use second::planner::Order;
use std::fmt;

#[derive(Clone, Copy, Debug, PartialEq, Eq)]
pub enum Entry {
    Plan = 0,
    PlanShort = 1,
    Play = 2,
    WriteRecord = 3,
    ReadRecord = 4,
    Reachable = 5,
}

/// Where a slice lies in the memory. A null one is empty and passed as a null pointer.
#[derive(Clone, Copy, Debug)]
pub struct Part {
    pub at: usize,
    pub len: usize,
    pub null: bool,
}

/// `parts` are board, moves and table of a plan; board, moves and output of a play and of a record written, whose visits stand as
/// the budget; the bytes to read, nothing, and the output of a record read. A number that an entry lacks is 0, and a part that it
/// lacks is empty.
#[derive(Clone)]
pub struct Call {
    pub entry: Entry,
    pub width: u32,
    pub height: u32,
    pub ceiling: i32,
    pub budget: u32,
    pub p: u32,
    pub q: u32,
    pub parts: [Part; 3],
    pub memory: Vec<u8>,
}

/// Bytes of noise between the slices, at least.
const GAP: usize = 16;

impl Call {
    /// A call of the planner with buffers of the given sizes in bytes.
    pub fn plan(random: &Random, order: &Order, moves: usize, table: usize) -> Call {
        let (parts, mut memory) = lay_out(random, [order.board.len(), moves, table]);
        memory[parts[0].at..][..parts[0].len].copy_from_slice(order.board);
        Call {
            entry: Entry::Plan,
            width: order.width,
            height: order.height,
            ceiling: order.ceiling,
            budget: order.budget,
            p: order.p,
            q: order.q,
            parts,
            memory,
        }
    }

    /// The same by the entry that names no weight.
    pub fn plan_short(random: &Random, order: &Order, moves: usize, table: usize) -> Call {
        Call { entry: Entry::PlanShort, p: 0, q: 0, ..Call::plan(random, order, moves, table) }
    }

    /// A call of the player with an output of the given size.
    pub fn play(random: &Random, width: u32, height: u32, board: &[u8], moves: &[u8], out: usize) -> Call {
        let (parts, mut memory) = lay_out(random, [board.len(), moves.len(), out]);
        memory[parts[0].at..][..board.len()].copy_from_slice(board);
        memory[parts[1].at..][..moves.len()].copy_from_slice(moves);
        Call { entry: Entry::Play, width, height, ceiling: 0, budget: 0, p: 0, q: 0, parts, memory }
    }

    /// A call of the record writer with an output of the given size.
    pub fn write_record(random: &Random, order: &Order, moves: &[u8], out: usize) -> Call {
        let mut call = Call { entry: Entry::WriteRecord, ..Call::plan(random, order, moves.len(), out) };
        call.memory[call.parts[1].at..][..moves.len()].copy_from_slice(moves);
        call
    }

    /// A call of the record reader with an output of the given size.
    pub fn read_record(random: &Random, record: &[u8], out: usize) -> Call {
        Call { entry: Entry::ReadRecord, ..Call::play(random, 0, 0, record, &[], out) }
    }

    /// A call of the reachability test, to which the board alone is lent.
    pub fn reachable(random: &Random, width: u32, height: u32, board: &[u8]) -> Call {
        Call { entry: Entry::Reachable, ..Call::play(random, width, height, board, &[], 0) }
    }

    pub fn part(&self, number: usize) -> &[u8] {
        &self.memory[self.parts[number].at..][..self.parts[number].len]
    }

    /// The answer that the second version gives, and the whole memory as it leaves it.
    pub fn expected(&self) -> (u64, Vec<u8>) {
        let board = self.part(0);
        let (mut moves, mut third) = (self.part(1).to_vec(), self.part(2).to_vec());
        let Call { width, height, ceiling, budget, p, q, .. } = *self;
        let order = Order { width, height, board, ceiling, budget, p, q };
        let answer = match self.entry {
            Entry::Plan => entries::plan(&order, &mut moves, &mut third),
            Entry::PlanShort => entries::plan_short(&order, &mut moves, &mut third),
            Entry::Play => entries::play(width, height, board, &moves, &mut third),
            Entry::WriteRecord => entries::write_record(&order, &moves, &mut third),
            Entry::ReadRecord => entries::read_record(board, &mut third),
            Entry::Reachable => entries::reachable(width, height, board),
        };
        let mut memory = self.memory.clone();
        memory[self.parts[1].at..][..moves.len()].copy_from_slice(&moves);
        memory[self.parts[2].at..][..third.len()].copy_from_slice(&third);
        (answer, memory)
    }

    /// The name of the byte at a place of the memory.
    pub fn name_of_byte(&self, at: usize) -> String {
        let third = if matches!(self.entry, Entry::Plan | Entry::PlanShort) { "table" } else { "output" };
        let first = if self.entry == Entry::ReadRecord { "record" } else { "board" };
        for (part, name) in self.parts.iter().zip([first, "moves", third]) {
            if (part.at..part.at + part.len).contains(&at) {
                return format!("{name} byte {}", at - part.at);
            }
            if at < part.at {
                return format!("a byte outside, {} before {name}", part.at - at);
            }
        }
        format!("a byte outside, {} after {third}", at + 1 - self.parts[2].at - self.parts[2].len)
    }
}

/// Places for three slices, not aligned to anything, and the noise that they lie in.
fn lay_out(random: &Random, lens: [usize; 3]) -> ([Part; 3], Vec<u8>) {
    let mut end = 0;
    let parts = lens.map(|len| {
        let at = end + GAP + random.below(8);
        end = at + len;
        Part { at, len, null: len == 0 && random.one_in(2) }
    });
    let mut memory = vec![0; end + GAP];
    random.fill(&mut memory);
    (parts, memory)
}

/// Bytes in hex, two digits each.
pub fn hex(bytes: &[u8]) -> String {
    bytes.iter().map(|byte| format!("{byte:02x}")).collect()
}

impl fmt::Display for Call {
    fn fmt(&self, to: &mut fmt::Formatter) -> fmt::Result {
        let Call { entry, width, height, ceiling, budget, p, q, .. } = self;
        let [_, moves, third] = self.parts;
        if *entry != Entry::ReadRecord {
            write!(to, "{width} by {height}, board {:?}, ", self.part(0))?;
        }
        match entry {
            Entry::Plan => write!(to, "ceiling {ceiling}, budget {budget}, weight {p}/{q}, ")?,
            Entry::PlanShort => write!(to, "ceiling {ceiling}, budget {budget}, short call, ")?,
            Entry::Play => return write!(to, "moves {:?}, {} output bytes", self.part(1), third.len),
            Entry::WriteRecord => {
                write!(to, "ceiling {ceiling}, weight {p}/{q}, visits {budget}, ")?;
                return write!(to, "moves {:?}, {} output bytes of a record", self.part(1), third.len);
            }
            Entry::ReadRecord => {
                return write!(to, "record {}, {} output bytes", hex(self.part(0)), third.len);
            }
            Entry::Reachable => return write!(to, "the reachability test"),
        }
        write!(to, "{} move bytes, {} table bytes", moves.len, third.len)
    }
}
