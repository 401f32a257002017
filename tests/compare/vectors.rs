//! The stored vectors: answers of yet another program. Jobs, plays, records and bytes to read are put to the second version and to the library,
//! whole texts to the second version's job reader.

use crate::call::{hex, Call};
use crate::check::Checker;
use crate::random::Random;
use crate::readings;
use second::planner::{Answer, Order};
use second::records::Fields;
use second::{entries, job};
use std::fs;
use std::path::Path;

/// The lines of a file of vectors: what is put, and what must come.
fn lines(folder: &Path, file: &str) -> Vec<(String, String)> {
    let path = folder.join(file);
    let text = fs::read_to_string(&path).unwrap_or_else(|error| panic!("{}: {error}", path.display()));
    let split = |line: &str| {
        let (put, expected) = line.split_once('|').unwrap_or_else(|| panic!("{file}: no '|' in {line}"));
        (put.to_string(), expected.to_string())
    };
    let lines: Vec<_> = text.lines().map(split).collect();
    assert!(!lines.is_empty(), "{file} is empty");
    lines
}

/// The numbers in a text, by their spaces.
fn numbers<T: std::str::FromStr>(text: &str) -> Vec<T> {
    text.split_whitespace().map(|word| word.parse().unwrap_or_else(|_| panic!("not a number: {word}"))).collect()
}

/// The bytes that a text has in hex.
fn bytes(hex: &str) -> Vec<u8> {
    let byte = |at| u8::from_str_radix(&hex[at..at + 2], 16).unwrap_or_else(|_| panic!("not hex: {hex}"));
    (0..hex.len()).step_by(2).map(byte).collect()
}

pub fn run(checker: &mut Checker, folder: &Path) {
    let random = Random::new("vectors", 0);
    texts(checker, folder);
    jobs(checker, &random, folder);
    plays(checker, &random, folder);
    records(checker, &random, folder);
    readings(checker, &random, folder);
}

fn texts(checker: &mut Checker, folder: &Path) {
    for (hex, expected) in lines(folder, "texts-after-e5.txt") {
        let wrote = job::run(&bytes(&hex));
        checker.claim("vectors: texts, second version", wrote == expected, || format!("{hex}\n  {wrote}, not {expected}"));
    }
}

fn jobs(checker: &mut Checker, random: &Random, folder: &Path) {
    let (mut calls, mut wanted) = (Vec::new(), Vec::new());
    for (line, expected) in lines(folder, "jobs-after-e5.txt") {
        let text = format!("{line}\n");
        let wrote = job::run(text.as_bytes());
        checker.claim("vectors: jobs, second version", wrote == expected, || format!("{line}\n  {wrote}, not {expected}"));
        if let Some(job) = job::read(text.as_bytes()) {
            calls.push(Call::plan(random, &job.order(), 120, 968));
            wanted.push(expected);
        }
    }
    for ((answer, call), expected) in checker.ask("vectors: jobs, library and second version", calls).into_iter().zip(wanted)
    {
        let wrote = job::line(unpacked(answer), call.part(1));
        checker.claim("vectors: jobs, library", wrote == expected, || format!("{call}\n  {wrote}, not {expected}"));
    }
}

fn plays(checker: &mut Checker, random: &Random, folder: &Path) {
    let (mut calls, mut wanted) = (Vec::new(), Vec::new());
    for (line, expected) in lines(folder, "plays-base.txt") {
        let fields: Vec<&str> = line.split(':').collect();
        let [sides, cells, moves, out] = fields[..] else { panic!("not a play: {line}") };
        let (sides, cells, moves) = (numbers::<u32>(sides), numbers::<u8>(cells), numbers::<u8>(moves));
        let out = numbers::<usize>(out)[0];
        let mut end = vec![0; out];
        let answer = entries::play(sides[0], sides[1], &cells, &moves, &mut end);
        let wrote = play_line(answer, &end[..out.min(cells.len())]);
        checker.claim("vectors: plays, second version", wrote == expected, || format!("{line}\n  {wrote}, not {expected}"));
        calls.push(Call::play(random, sides[0], sides[1], &cells, &moves, out));
        wanted.push(expected);
    }
    for ((answer, call), expected) in
        checker.ask("vectors: plays, library and second version", calls).into_iter().zip(wanted)
    {
        let end = call.part(2);
        let wrote = play_line(answer, &end[..end.len().min(call.part(0).len())]);
        checker.claim("vectors: plays, library", wrote == expected, || format!("{call}\n  {wrote}, not {expected}"));
    }
}

fn records(checker: &mut Checker, random: &Random, folder: &Path) {
    let (mut calls, mut wanted) = (Vec::new(), Vec::new());
    for (line, expected) in lines(folder, "records-write-after-e5.txt") {
        let fields: Vec<&str> = line.split(':').collect();
        let [head, cells, moves] = fields[..] else { panic!("not a record: {line}") };
        let (head, cells, moves) = (numbers::<i64>(head), numbers::<u8>(cells), numbers::<u8>(moves));
        let [width, height, ceiling, p, q, visits, out] = head[..] else { panic!("not a record's numbers: {line}") };
        let word = |number: i64| u32::try_from(number).unwrap_or_else(|_| panic!("not 32 bits: {line}"));
        let order = Order {
            width: word(width),
            height: word(height),
            board: &cells,
            ceiling: i32::try_from(ceiling).unwrap_or_else(|_| panic!("not a ceiling: {line}")),
            budget: word(visits),
            p: word(p),
            q: word(q),
        };
        let mut bytes = vec![0; out as usize];
        let answer = entries::write_record(&order, &moves, &mut bytes);
        let wrote = record_line(answer, &bytes);
        let kind = "vectors: records, second version";
        checker.claim(kind, wrote == expected, || format!("{line}\n  {wrote}, not {expected}"));
        calls.push(Call::write_record(random, &order, &moves, out as usize));
        wanted.push(expected);
    }
    for ((answer, call), expected) in
        checker.ask("vectors: records, library and second version", calls).into_iter().zip(wanted)
    {
        let wrote = record_line(answer, call.part(2));
        checker.claim("vectors: records, library", wrote == expected, || format!("{call}\n  {wrote}, not {expected}"));
    }
}

fn readings(checker: &mut Checker, random: &Random, folder: &Path) {
    let (mut calls, mut wanted) = (Vec::new(), Vec::new());
    for (line, expected) in lines(folder, "records-read-after-e5.txt") {
        let fields: Vec<&str> = line.split(' ').collect();
        let [record, out] = fields[..] else { panic!("not a record and a length: {line}") };
        let record = if record == "-" { Vec::new() } else { bytes(record) };
        let mut plan = vec![0; numbers::<usize>(out)[0]];
        let answer = entries::read_record(&record, &mut plan);
        let wrote = reading_line(answer, &plan);
        let kind = "vectors: readings, second version";
        checker.claim(kind, wrote == expected, || format!("{line}\n  {wrote}, not {expected}"));
        calls.push(Call::read_record(random, &record, plan.len()));
        wanted.push(expected);
    }
    for ((answer, call), expected) in
        checker.ask("vectors: readings, library and second version", calls).into_iter().zip(wanted)
    {
        let wrote = reading_line(answer, call.part(2));
        checker.claim("vectors: readings, library", wrote == expected, || format!("{call}\n  {wrote}, not {expected}"));
    }
}

fn unpacked(answer: u64) -> Answer {
    let visits = (answer >> 32) as u32;
    match (answer & 0xff) as u8 {
        0 => Answer::Plan { length: (answer >> 16 & 0xffff) as usize, visits },
        number => Answer::Refused { number, cell: (answer >> 8 & 0xff) as usize, visits },
    }
}

fn play_line(answer: u64, end: &[u8]) -> String {
    let cells: String = end.iter().map(|value| format!(" {value}")).collect();
    match answer & 0xff {
        0 if answer >> 8 == 1 => format!("end yes{cells}"),
        0 => format!("end no{cells}"),
        number => format!("refused {number} {}", answer >> 8),
    }
}

fn record_line(answer: u64, out: &[u8]) -> String {
    match answer & 0xff {
        0 => format!("record {}", hex(&out[..(answer >> 8) as usize])),
        number => format!("refused {number} {}", answer >> 8),
    }
}

fn reading_line(answer: u64, out: &[u8]) -> String {
    if answer & 0xff != 0 {
        return format!("refused {} {}", answer & 0xff, answer >> 8);
    }
    let Fields { width, height, ceiling, p, q, visits, length } = readings::unpacked(answer);
    let plan = &out[..(width * height) as usize + length];
    format!("ok {width} {height} {ceiling} {p} {q} {visits} {length} {}", hex(plan))
}
