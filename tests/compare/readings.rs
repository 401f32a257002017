//! Calls of the record reader: records that the library has just written, the same damaged in every byte, with the mark as it was
//! and made right again, numbers spelled in every way, and bytes that are no record.

use crate::boards::{self, BAD_WEIGHTS, WEIGHTS};
use crate::call::{hex, Call};
use crate::check::Checker;
use crate::plays::way_to_goal;
use crate::random::Random;
use crate::wild;
use second::board::{Shape, SHAPES};
use second::planner::Order;
use second::records::{mark, record, Fields};

/// The bytes of the longest record, and those of the largest board with the longest list.
const MOST: usize = 149;
const MOST_OUT: usize = 136;

/// Numbers at which something is decided: a side, a length, a weight, a byte, a group, a limit of visits, 32 bits and more.
#[rustfmt::skip]
const NUMBERS: [u64; 27] = [
    0, 1, 2, 3, 4, 5, 15, 16, 63, 64, 65, 120, 121, 127, 128, 255, 256, 257, 258, 16_383, 16_384, 1_000_000, 1_000_001,
    (1 << 28) - 1, (1 << 31) + 6, (1 << 32) - 1, 1 << 32,
];

/// Spellings that are no number, whatever follows, or that are one of more than 32 bits.
const BAD_SPELLINGS: [&[u8]; 9] = [
    &[0x80],
    &[0x80, 0],
    &[0x80, 0x82, 1],
    &[0x81, 0x80, 0x80, 0x80, 0x80],
    &[0x81, 0x80, 0x80, 0x80, 0x80, 2],
    &[0x90, 0x80, 0x80, 0x80, 2],
    &[0x9f, 0xff, 0xff, 0xff, 0x7f],
    &[0xff, 0xff, 0xff, 0xff, 0x7f],
    &[0xff, 0xff, 0xff, 0xff, 0xff],
];

pub fn run(checker: &mut Checker, task: usize, rounds: usize) {
    let random = Random::new("readings", task as u64);
    for number in 0..rounds {
        let shape = SHAPES[(task + number) % SHAPES.len()];
        let (cells, moves) = plan(&random, shape);
        let order = order(&random, shape, &cells, moves.len());
        written(checker, &random, &order, &moves);
        let bytes = record(&order, &moves);
        outputs(checker, &random, &bytes, cells.len() + moves.len());
        damaged(checker, &random, &bytes);
        spelled(checker, &random, &order, &moves);
        for _ in 0..150 {
            let bytes = anything(&random, shape);
            let out = if random.one_in(3) { random.below(MOST_OUT) } else { MOST_OUT };
            check(checker, &random, "readings: fields at random", &bytes, out);
        }
        for _ in 0..50 {
            let bytes = noise(&random, &bytes);
            check(checker, &random, "readings: noise", &bytes, MOST_OUT);
            check(checker, &random, "readings: noise", &mended(&bytes), MOST_OUT);
        }
    }
}

/// The fields that the bits of an answer with number 0 say.
pub fn unpacked(answer: u64) -> Fields {
    let field = |bit, bits: u32| (answer >> bit & ((1u64 << bits) - 1)) as u32;
    Fields {
        width: field(8, 3),
        height: field(11, 3),
        ceiling: field(14, 7),
        p: field(21, 7),
        q: field(28, 7),
        length: field(35, 7) as usize,
        visits: field(42, 20),
    }
}

fn check(checker: &mut Checker, random: &Random, kind: &'static str, bytes: &[u8], out: usize) {
    checker.check(kind, Call::read_record(random, bytes, out));
}

/// Cells, and moves to the goal that are not too many to be stored.
fn plan(random: &Random, shape: Shape) -> (Vec<u8>, Vec<u8>) {
    loop {
        let (board, moves) = way_to_goal(random, shape);
        if moves.len() <= 120 {
            return (board.cells[..shape.cells()].to_vec(), moves);
        }
    }
}

/// A plan of so many moves as a record may hold it.
fn order<'a>(random: &Random, shape: Shape, cells: &'a [u8], length: usize) -> Order<'a> {
    let ceiling = random.pick(&[length, (length + 1).min(120), 120]) as i32;
    let visits = random.pick(&[1, 127, 128, 16_383, 16_384, 1_000_000, 1 + random.below(1_000_000) as u32]);
    boards::order(shape, cells, ceiling, visits, random.pick(&WEIGHTS))
}

/// A record of the library's own is read back by it to what was given. That is claimed without the second version.
fn written(checker: &mut Checker, random: &Random, order: &Order, moves: &[u8]) {
    let call = Call::write_record(random, order, moves, MOST);
    for (answer, call) in checker.ask("readings: the records", vec![call]) {
        let bytes = &call.part(2)[..(answer >> 8) as usize];
        let plan = [order.board, moves].concat();
        let calls = [plan.len(), MOST_OUT].map(|out| Call::read_record(random, bytes, out));
        for (answer, read) in checker.ask("readings: records just written", calls.into()) {
            let fields = Fields {
                width: order.width,
                height: order.height,
                ceiling: order.ceiling as u32,
                p: order.p,
                q: order.q,
                visits: order.budget,
                length: moves.len(),
            };
            let same =
                answer & 0xff == 0 && answer >> 62 == 0 && unpacked(answer) == fields && read.part(2).starts_with(&plan);
            checker.claim("readings: what was written is read", same, || format!("{call}\n  {read}\n  answers {answer:#x}"));
        }
    }
}

/// Outputs of every length around that of cells and moves, and at times of every length up to there.
fn outputs(checker: &mut Checker, random: &Random, bytes: &[u8], length: usize) {
    let some = [0, 1, length / 2, MOST_OUT, MOST_OUT + 1, length + random.below(300)];
    let all = if random.one_in(9) { 0..length } else { 0..0 };
    for out in (length - 3..=length + 3).chain(some).chain(all) {
        check(checker, random, "readings: outputs", bytes, out);
    }
}

/// The same bytes with the last four as the mark of those before them.
fn mended(bytes: &[u8]) -> Vec<u8> {
    let before = &bytes[..bytes.len().saturating_sub(4)];
    [before, &mark(before).to_be_bytes()].concat()
}

/// Every byte changed, left out and put in, every cut, and bytes behind the end; each as it is and with its mark made right again.
/// What the library takes of it, its own writer writes, byte for byte.
fn damaged(checker: &mut Checker, random: &Random, bytes: &[u8]) {
    let mut found: Vec<(&'static str, Vec<u8>)> = Vec::new();
    for at in 0..bytes.len() {
        let (before, byte, after) = (&bytes[..at], bytes[at], &bytes[at + 1..]);
        let near = [byte.wrapping_add(1), byte.wrapping_sub(1), byte ^ 128, byte ^ 1 << random.below(8)];
        for other in near.into_iter().chain([0, 127, 128, 255, random.bits() as u8]) {
            found.push(("readings: a byte changed", [before, &[other], after].concat()));
        }
        for more in [0, byte, 128, 255, random.bits() as u8] {
            found.push(("readings: a byte put in", [before, &[more, byte], after].concat()));
        }
        found.push(("readings: a byte left out", [before, after].concat()));
        found.push(("readings: cut short", before.to_vec()));
    }
    for more in [1, 2, 3, 4, 5, 100] {
        let behind: Vec<u8> = (0..more).map(|_| random.bits() as u8).collect();
        found.push(("readings: bytes behind", [bytes, &behind].concat()));
        found.push(("readings: bytes behind", [bytes, &vec![0; more]].concat()));
    }
    found.push(("readings: bytes behind", [bytes, bytes].concat()));
    let mut right = Vec::new();
    for (kind, bytes) in found {
        let out = if random.one_in(8) { random.below(40) } else { MOST_OUT };
        check(checker, random, kind, &bytes, out);
        right.push(Call::read_record(random, &mended(&bytes), MOST_OUT));
    }
    let mut taken = checker.ask("readings: damaged, the mark made right", right);
    taken.retain(|(answer, _)| answer & 0xff == 0);
    rewritten(checker, random, &taken);
}

/// What records are read to is written again by the library, and the bytes are those that were read.
fn rewritten(checker: &mut Checker, random: &Random, taken: &[(u64, Call)]) {
    let again = |(answer, read): &(u64, Call)| {
        let Fields { width, height, ceiling, p, q, visits, length } = unpacked(*answer);
        let (cells, rest) = read.part(2).split_at((width * height) as usize);
        let order = Order { width, height, board: cells, ceiling: ceiling as i32, budget: visits, p, q };
        Call::write_record(random, &order, &rest[..length], MOST)
    };
    let calls = taken.iter().map(again).collect();
    for ((answer, call), (_, read)) in checker.ask("readings: what was read is written", calls).iter().zip(taken) {
        let same = *answer == (read.part(0).len() as u64) << 8 && call.part(2).starts_with(read.part(0));
        let wrong = || format!("{read}\n  {call}\n  answers {answer:#x} and {}", hex(call.part(2)));
        checker.claim("readings: the bytes are the same", same, wrong);
    }
}

/// A number in groups of seven bits, which may be more than 32.
fn groups(number: u64) -> Vec<u8> {
    let needed = (1..).find(|count| number >> (7 * count) == 0).unwrap();
    let group = |left: u32| (number >> (7 * left)) as u8 & 127 | if left == 0 { 0 } else { 128 };
    (0..needed).rev().map(group).collect()
}

/// Each number of a record in turn is another or spelled otherwise, the mark right and wrong, and the bytes cut in and behind it.
fn spelled(checker: &mut Checker, random: &Random, order: &Order, moves: &[u8]) {
    let numbers: Vec<u64> = [order.width, order.height]
        .into_iter()
        .chain(order.board.iter().map(|&cell| cell.into()))
        .chain([order.ceiling as u32, order.p, order.q, order.budget, moves.len() as u32])
        .map(u64::from)
        .collect();
    for at in 0..numbers.len() {
        let own = numbers[at];
        let long = [[&[128], &groups(own)[..]].concat(), groups((1 << 32) + own), groups((1 << 34) + own)];
        let others = NUMBERS.map(groups).into_iter().chain(BAD_SPELLINGS.map(|bytes| bytes.to_vec())).chain(long);
        for other in others {
            let mut bytes: Vec<u8> = numbers[..at].iter().copied().flat_map(groups).collect();
            bytes.extend(&other);
            let behind = bytes.len();
            bytes.extend(numbers[at + 1..].iter().copied().flat_map(groups));
            bytes.extend(moves);
            bytes.extend([0; 4]);
            check(checker, random, "readings: a number spelled", &mended(&bytes), MOST_OUT);
            if random.one_in(3) {
                check(checker, random, "readings: a number spelled, the mark wrong", &bytes, MOST_OUT);
            }
            let cut = behind - random.below(other.len() + 1);
            check(checker, random, "readings: a number spelled and cut", &bytes[..cut], MOST_OUT);
        }
    }
}

/// A record of fields that may be at fault, several at once, so that the order of the tests shows.
fn anything(random: &Random, shape: Shape) -> Vec<u8> {
    let (mut cells, mut moves) = plan(random, shape);
    let mut order = order(random, shape, &[], moves.len());
    if random.one_in(4) {
        cells = wild::cells(random, shape);
        cells.resize(shape.cells(), 1);
    }
    if !moves.is_empty() && random.one_in(2) {
        let at = random.below(moves.len());
        moves[at] = if random.one_in(3) { random.bits() as u8 } else { random.below(5) as u8 };
    }
    if random.one_in(6) {
        moves.truncate(random.below(moves.len() + 1));
    }
    if random.one_in(4) {
        order.ceiling = random.pick(&[moves.len() as i32 - 1, 121, 127, 128, i32::MAX, i32::MIN, -1]);
    }
    if random.one_in(5) {
        (order.p, order.q) = random.pick(&BAD_WEIGHTS);
    }
    if random.one_in(5) {
        order.budget = random.pick(&[0, 1_000_001, u32::MAX]);
    }
    if random.one_in(15) {
        order.width = random.pick(&[0, 1, 2, 3, 4, 5, u32::MAX]);
    }
    let mut bytes = record(&Order { board: &cells, ..order }, &moves);
    if random.one_in(6) {
        let at = bytes.len() - 1 - random.below(4);
        bytes[at] ^= 1 << random.below(8);
    }
    if random.one_in(12) {
        bytes.push(random.bits() as u8);
    }
    bytes
}

/// Bytes at random, small ones at times, behind a good beginning at times.
fn noise(random: &Random, good: &[u8]) -> Vec<u8> {
    let begin = if random.one_in(2) { random.below(good.len()) } else { 0 };
    let small = random.one_in(2);
    let rest = (0..random.below(160)).map(|_| random.bits() as u8 & if small { 7 } else { 255 });
    good[..begin].iter().copied().chain(rest).collect()
}
