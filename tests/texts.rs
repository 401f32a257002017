//! Turns stored texts and their answer lines into what `job_cases` reads and what it has to write.
//!
//!   texts INPUT OUTPUT FILE..
//!
//! A line of a FILE is a text and, behind a bar, its answer line. The text is in hex, as in texts-after-e5.txt, or it is a job line with
//! its line feed left off, as in jobs-after-e5.txt: a line with a space before the bar is a job line.
use std::{env, fs};

fn text(field: &str) -> Vec<u8> {
    if field.contains(' ') {
        return format!("{field}\n").into_bytes();
    }
    let digit = |c: u8| (c as char).to_digit(16).expect("a hex digit") as u8;
    field.as_bytes().chunks(2).map(|pair| 16 * digit(pair[0]) + digit(pair[1])).collect()
}

fn main() {
    let words: Vec<String> = env::args().skip(1).collect();
    let (mut input, mut output) = (Vec::new(), String::new());
    for file in &words[2..] {
        for line in fs::read_to_string(file).expect("a file of texts").lines() {
            let (field, answer) = line.split_once('|').expect("a bar");
            let text = text(field);
            input.extend(u16::try_from(text.len()).expect("a short text").to_le_bytes());
            input.extend(&text);
            output += answer;
            output.push('\n');
        }
    }
    fs::write(&words[0], input).expect("to write the input");
    fs::write(&words[1], output).expect("to write the output");
}
