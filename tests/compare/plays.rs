//! Calls of the player: lists that end at the goal or elsewhere, bad moves anywhere, outputs of every length.

use crate::call::Call;
use crate::check::Checker;
use crate::random::Random;
use crate::wild;
use second::board::{Board, Shape, SHAPES};

pub fn run(checker: &mut Checker, task: usize, rounds: usize) {
    let random = Random::new("plays", task as u64);
    for number in 0..rounds {
        let shape = SHAPES[(task + number) % SHAPES.len()];
        let n = shape.cells();
        let (width, height) = (shape.width as u32, shape.height as u32);

        let (board, mut moves) = way_to_goal(&random, shape);
        let cells = &board.cells[..n];
        for out in [n, n + 1, n - 1, n + random.below(40), 0] {
            let call = Call::play(&random, width, height, cells, &moves, out);
            checker.check("plays to the goal", call);
        }
        if !moves.is_empty() {
            let place = random.below(moves.len());
            for byte in [random.below(4) as u8, 4, 255, random.bits() as u8] {
                moves[place] = byte;
                let call = Call::play(&random, width, height, cells, &moves, n + random.below(3));
                checker.check("plays with a move changed", call);
            }
        }

        let any = wild::cells(&random, shape);
        let moves: Vec<u8> = (0..random.below(30)).map(|_| random.bits() as u8 % 5).collect();
        let legal = legal_list(&random, shape, any.iter().position(|&value| value == 0).unwrap_or(0));
        for moves in [&moves, &legal, &vec![]] {
            let sides = [(width, height), (height, width), (random.pick(&[0, 1, 5, 258, u32::MAX]), height)];
            for (width, height) in sides {
                let out = if random.one_in(3) { random.below(20) } else { n + random.below(4) };
                let call = Call::play(&random, width, height, &any, moves, out);
                checker.check("plays of any list", call);
            }
        }
    }
}

/// A board, and a list of legal moves from it to the goal.
pub fn way_to_goal(random: &Random, shape: Shape) -> (Board, Vec<u8>) {
    let (mut board, mut moves) = (shape.goal(), Vec::new());
    for _ in 0..random.below(if random.one_in(10) { 5_000 } else { 60 }) {
        let to = random.below(4) as u8;
        if let Some(next) = board.after(shape, to) {
            board = next;
            moves.push(3 - to);
        }
    }
    moves.reverse();
    (board, moves)
}

/// Moves that keep an empty cell that starts at a given place on the grid.
pub fn legal_list(random: &Random, shape: Shape, mut empty: usize) -> Vec<u8> {
    let mut moves = Vec::new();
    for _ in 0..random.below(40) {
        let to = random.below(4) as u8;
        if let Some(next) = shape.neighbour(empty, to) {
            empty = next;
            moves.push(to);
        }
    }
    moves
}
