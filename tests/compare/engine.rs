//! The two ways to the library's C entries: linked into this program, or through a harness in a process of its own.

use crate::call::Call;
use std::io::{Read, Write};
use std::process::{Command, Stdio};

/// Makes the calls in order, on their own memory, and gives their answers.
pub trait Engine {
    fn run(&mut self, calls: &mut [Call]) -> Vec<u64>;
}

/// The archive, linked into this program.
#[cfg(linked)]
pub struct Linked;

#[cfg(linked)]
#[rustfmt::skip]
mod entries {
    extern "C" {
        pub fn lowpengine_plan(width: u32, height: u32, board: *const u8, board_len: usize, ceiling: i32, budget: u32,
            p: u32, q: u32, moves: *mut u8, moves_len: usize, table: *mut u8, table_len: usize) -> u64;
        pub fn lowpengine_plan_short(width: u32, height: u32, board: *const u8, board_len: usize, ceiling: i32, budget: u32,
            moves: *mut u8, moves_len: usize, table: *mut u8, table_len: usize) -> u64;
        pub fn lowpengine_play(width: u32, height: u32, board: *const u8, board_len: usize,
            moves: *const u8, moves_len: usize, out: *mut u8, out_len: usize) -> u64;
        pub fn lowpengine_write_record(width: u32, height: u32, board: *const u8, board_len: usize, ceiling: i32, p: u32, q: u32,
            visits: u32, moves: *const u8, moves_len: usize, out: *mut u8, out_len: usize) -> u64;
        pub fn lowpengine_read_record(record: *const u8, record_len: usize, out: *mut u8, out_len: usize) -> u64;
        pub fn lowpengine_reachable(width: u32, height: u32, board: *const u8, board_len: usize) -> u64;
    }
}

#[cfg(linked)]
impl Engine for Linked {
    fn run(&mut self, calls: &mut [Call]) -> Vec<u64> {
        calls.iter_mut().map(call_linked).collect()
    }
}

#[cfg(linked)]
fn call_linked(call: &mut Call) -> u64 {
    use crate::call::Entry;
    use entries::*;
    let Call { width, height, ceiling, budget, p, q, parts, .. } = *call;
    let memory = call.memory.as_mut_ptr();
    // Safe: the parts lie in the memory and don't overlap.
    let [board, moves, third] =
        parts.map(|part| if part.null { std::ptr::null_mut() } else { unsafe { memory.add(part.at) } });
    let [b, m, t] = parts.map(|part| part.len);
    unsafe {
        match call.entry {
            Entry::Plan => lowpengine_plan(width, height, board, b, ceiling, budget, p, q, moves, m, third, t),
            Entry::PlanShort => lowpengine_plan_short(width, height, board, b, ceiling, budget, moves, m, third, t),
            Entry::Play => lowpengine_play(width, height, board, b, moves, m, third, t),
            Entry::WriteRecord => {
                lowpengine_write_record(width, height, board, b, ceiling, p, q, budget, moves, m, third, t)
            }
            Entry::ReadRecord => lowpengine_read_record(board, b, third, t),
            Entry::Reachable => lowpengine_reachable(width, height, board, b),
        }
    }
}

/// A command that reads calls from its standard input and writes answers, each with the memory left behind.
pub struct Harness {
    pub command: Vec<String>,
}

/// Stands for a null pointer where the harness is given a place in the memory.
const NULL: u32 = u32::MAX;

impl Engine for Harness {
    fn run(&mut self, calls: &mut [Call]) -> Vec<u64> {
        let request: Vec<u8> = calls.iter().flat_map(written).collect();
        let mut child = Command::new(&self.command[0])
            .args(&self.command[1..])
            .stdin(Stdio::piped())
            .stdout(Stdio::piped())
            .spawn()
            .unwrap_or_else(|error| panic!("{}: {error}", self.command[0]));
        let (mut input, mut output) = (child.stdin.take().unwrap(), child.stdout.take().unwrap());
        let mut reply = Vec::new();
        std::thread::scope(|scope| {
            // A harness that stops reading is told by its status.
            scope.spawn(move || drop(input.write_all(&request)));
            output.read_to_end(&mut reply).expect("the harness gives no answers");
        });
        let status = child.wait().expect("the harness does not end");
        assert!(status.success(), "the harness ended with {status}");

        let mut rest = &reply[..];
        let mut take = |len: usize| {
            assert!(len <= rest.len(), "the harness left out answers");
            let (taken, after) = rest.split_at(len);
            rest = after;
            taken
        };
        let mut answers = Vec::with_capacity(calls.len());
        for call in calls.iter_mut() {
            answers.push(u64::from_le_bytes(take(8).try_into().unwrap()));
            let memory = take(call.memory.len());
            call.memory.copy_from_slice(memory);
        }
        assert!(rest.is_empty(), "the harness gave more answers than calls");
        answers
    }
}

/// A call as the harness reads it: fourteen numbers of 32 bits, low byte first, then the memory.
fn written(call: &Call) -> Vec<u8> {
    let at = call.parts.map(|part| if part.null { NULL } else { part.at as u32 });
    let len = call.parts.map(|part| part.len as u32);
    let numbers = [call.entry as u32, call.width, call.height, call.ceiling as u32, call.budget, call.p, call.q];
    let numbers = numbers.into_iter().chain(at).chain(len).chain([call.memory.len() as u32]);
    numbers.flat_map(u32::to_le_bytes).chain(call.memory.iter().copied()).collect()
}
