//! Damaged job texts: good ones with one byte changed, left out or put in, each with the line that the job program must write.
//! A line of the file is the text in hex, `|`, and the answer's line, as in the vectors of texts.

use second::job;
use std::collections::BTreeSet;
use std::fmt::Write;
use std::path::Path;

/// Good texts: a plan, one with zeros in front and a minus, a plan of no moves, one with a fault in the board.
const GOOD: [&str; 4] = [
    "2 2 6 7 1 1 3 2 1 0\n",
    "3 02 -1 009 64 3 4 1 2 3 0 5\n",
    "2 2 0 1 1 1 0 1 2 3\n",
    "3 3 12 60 3 2 1 4 2 3 5 0 6 7 255\n",
];

/// Writes the file and gives the number of texts.
pub fn write(path: &Path) -> usize {
    let texts: BTreeSet<Vec<u8>> = GOOD.iter().flat_map(|text| damaged(text.as_bytes())).collect();
    let mut file = String::new();
    for text in &texts {
        text.iter().for_each(|byte| write!(file, "{byte:02x}").unwrap());
        writeln!(file, "|{}", job::run(text)).unwrap();
    }
    std::fs::write(path, file).unwrap_or_else(|error| panic!("{}: {error}", path.display()));
    texts.len()
}

/// Each text that differs from a good one in one byte, by its value, by its absence or by its presence.
fn damaged(good: &[u8]) -> Vec<Vec<u8>> {
    let mut texts = Vec::new();
    for at in 0..good.len() {
        texts.extend((0..=255).map(|byte| [&good[..at], &[byte], &good[at + 1..]].concat()));
        texts.push([&good[..at], &good[at + 1..]].concat());
    }
    for at in 0..=good.len() {
        texts.extend(b" -0159\n".iter().map(|&byte| [&good[..at], &[byte], &good[at..]].concat()));
    }
    texts
}
