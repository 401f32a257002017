//! The job program: one line of text to one line of answer.

use crate::planner::{self, Answer, Order};

/// The numbers of a job line. The cells may be of any count from 0 to 32; whether it is the right one is the planner's to say.
#[derive(Clone, Debug, PartialEq, Eq)]
pub struct Job {
    pub width: u32,
    pub height: u32,
    pub ceiling: i32,
    pub budget: u32,
    pub p: u32,
    pub q: u32,
    pub cells: Vec<u8>,
}

/// The longest input, line feed counted.
const MOST_BYTES: usize = 256;

/// The most cells that a line may list.
const MOST_LISTED: usize = 32;

/// A number of 1 to 9 digits.
fn number(field: &[u8]) -> Option<u32> {
    if field.is_empty() || field.len() > 9 || !field.iter().all(u8::is_ascii_digit) {
        return None;
    }
    Some(field.iter().fold(0, |sum, digit| 10 * sum + (digit - b'0') as u32))
}

/// The same, of at most 255.
fn small(field: &[u8]) -> Option<u8> {
    number(field)?.try_into().ok()
}

/// The same with a minus allowed in front.
fn signed(field: &[u8]) -> Option<i32> {
    match field.strip_prefix(b"-") {
        Some(digits) => number(digits).map(|value| -(value as i32)),
        None => number(field).map(|value| value as i32),
    }
}

/// The job that a whole input gives, unless the text is malformed.
pub fn read(text: &[u8]) -> Option<Job> {
    if text.len() > MOST_BYTES {
        return None;
    }
    let line = text.strip_suffix(b"\n")?;
    let fields: Vec<&[u8]> = line.split(|&byte| byte == b' ').collect();
    let [width, height, ceiling, budget, p, q, cells @ ..] = &fields[..] else { return None };
    if cells.len() > MOST_LISTED {
        return None;
    }
    Some(Job {
        width: small(width)?.into(),
        height: small(height)?.into(),
        ceiling: signed(ceiling)?,
        budget: number(budget)?,
        p: small(p)?.into(),
        q: small(q)?.into(),
        cells: cells.iter().map(|cell| small(cell)).collect::<Option<_>>()?,
    })
}

impl Job {
    pub fn order(&self) -> Order<'_> {
        Order {
            width: self.width,
            height: self.height,
            board: &self.cells,
            ceiling: self.ceiling,
            budget: self.budget,
            p: self.p,
            q: self.q,
        }
    }
}

/// The answer's line, line feed left off.
pub fn line(answer: Answer, moves: &[u8]) -> String {
    match answer {
        Answer::Plan { length: 0, visits } => format!("plan 0 {visits} -"),
        Answer::Plan { length, visits } => {
            let letters: String = moves[..length].iter().map(|&to| ['U', 'L', 'R', 'D'][to as usize]).collect();
            format!("plan {length} {visits} {letters}")
        }
        Answer::Refused { number, cell, visits } => format!("refused {number} {cell} {visits}"),
    }
}

/// What the job program writes for an input, line feed left off.
pub fn run(text: &[u8]) -> String {
    let (mut moves, mut table) = ([0; 120], [0; 484]);
    let answer = match read(text) {
        Some(job) => planner::plan(&job.order(), &mut moves, &mut table),
        None => Answer::Refused { number: 12, cell: 0, visits: 0 },
    };
    line(answer, &moves)
}
