//! The player: a list of moves on a board, to the board that it ends at.

use crate::board;

#[derive(Clone, Copy, Debug, PartialEq, Eq)]
pub enum Played {
    End {
        goal: bool,
    },
    /// `place` is a cell for a fault of the board, the move's place in the list for a bad move, else 0.
    Refused {
        number: u8,
        place: usize,
    },
}

/// Plays the moves. `out` receives the end board, and is left alone by a refusal.
pub fn play(width: u32, height: u32, bytes: &[u8], moves: &[u8], out: &mut [u8]) -> Played {
    let (shape, mut board) = match board::read(width, height, bytes) {
        Ok(read) => read,
        Err(fault) => return Played::Refused { number: fault.number(), place: fault.cell() },
    };
    let n = shape.cells();
    if out.len() < n {
        return Played::Refused { number: 8, place: 0 };
    }
    for (place, &to) in moves.iter().enumerate() {
        if to > 3 {
            return Played::Refused { number: 13, place };
        }
        board = match board.after(shape, to) {
            Some(next) => next,
            None => return Played::Refused { number: 14, place },
        };
    }
    out[..n].copy_from_slice(&board.cells[..n]);
    Played::End { goal: board == shape.goal() }
}
