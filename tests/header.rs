//! Holds the C header against the Rattle source, both ways: every exported function has its prototype in the header, type for type,
//! and whatever the header declares is exported. Also that each number of the answers has one name.
//!
//!   header SOURCE HEADER
use std::collections::{BTreeMap, BTreeSet};
use std::{env, fs, process};

/// A declaration with every run of white space as one space, and none around punctuation.
fn folded(text: &str) -> String {
    let mut out = text.split_whitespace().collect::<Vec<_>>().join(" ");
    for mark in ["(", ")", ",", "*", ";"] {
        out = out.replace(&format!(" {mark}"), mark).replace(&format!("{mark} "), mark);
    }
    out
}

/// A parameter of the source as the header declares it: a slice is a pointer, then a length.
fn parameter(text: &str) -> String {
    let (name, kind) = text.split_once(':').expect("a name and a type");
    let (name, kind) = (name.trim(), kind.trim());
    match kind {
        "u32" => format!("uint32_t {name}"),
        "i32" => format!("int32_t {name}"),
        "&[u8]" => format!("const uint8_t *{name}, size_t {name}_len"),
        "&mut [u8]" => format!("uint8_t *{name}, size_t {name}_len"),
        _ => panic!("no C type for {kind}"),
    }
}

/// The prototypes of the functions that the source exports.
fn exported(source: &str) -> BTreeSet<String> {
    let mut prototypes = BTreeSet::new();
    for part in source.split("pub extern \"C\" fn ").skip(1) {
        let (name, rest) = part.split_once('(').expect("parameters");
        let (parameters, rest) = rest.split_once(')').expect("the end of the parameters");
        assert!(rest.trim_start().starts_with("-> u64"), "{name} answers something else than u64");
        let list: Vec<String> = parameters.split(',').filter(|p| !p.trim().is_empty()).map(parameter).collect();
        prototypes.insert(folded(&format!("uint64_t {name}({})", list.join(", "))));
    }
    prototypes
}

/// The header without comments, directives and the linkage that C++ needs.
fn plain(header: &str) -> String {
    let mut text = String::new();
    let mut rest = header;
    while let Some((before, comment)) = rest.split_once("/*") {
        text += before;
        rest = comment.split_once("*/").expect("the end of a comment").1;
    }
    text += rest;
    let linkage = "#ifdef __cplusplus\nextern \"C\" {\n#endif\n";
    assert_eq!(text.matches(linkage).count(), 1, "the header opens its linkage for C++ in another way");
    let text = text.replacen(linkage, "", 1).replacen("#ifdef __cplusplus\n}\n#endif\n", "", 1);
    text.lines().filter(|line| !line.starts_with('#')).collect::<Vec<_>>().join("\n")
}

/// What stands at the top level of the header: each declaration up to its semicolon, and each body in braces with what is before it.
fn declarations(header: &str) -> Vec<(String, Option<String>)> {
    let (mut found, mut head, mut body, mut depth) = (Vec::new(), String::new(), String::new(), 0);
    for c in header.chars() {
        match c {
            '{' if depth == 0 => depth = 1,
            '}' if depth == 1 => {
                found.push((folded(&std::mem::take(&mut head)), Some(std::mem::take(&mut body))));
                depth = 0;
            }
            ';' if depth == 0 => {
                let text = folded(&std::mem::take(&mut head));
                if !text.is_empty() {
                    found.push((text, None));
                }
            }
            _ => {
                depth += (c == '{') as i32 - (c == '}') as i32;
                if depth == 0 { &mut head } else { &mut body }.push(c);
            }
        }
    }
    assert!(depth == 0 && head.trim().is_empty(), "the header ends inside a declaration");
    found
}

fn main() {
    let words: Vec<String> = env::args().skip(1).collect();
    let exported = exported(&fs::read_to_string(&words[0]).expect("the source"));
    let (mut declared, mut numbers) = (BTreeSet::new(), BTreeMap::new());
    let mut wrong = Vec::new();
    for (head, body) in declarations(&plain(&fs::read_to_string(&words[1]).expect("the header"))) {
        match body {
            None => drop(declared.insert(head)),
            Some(names) if head == "enum lowpengine_result" => {
                for name in names.split(',') {
                    let (name, number) = name.split_once('=').expect("a name and its number");
                    if let Some(other) = numbers.insert(number.trim().to_string(), name.trim().to_string()) {
                        wrong.push(format!("{} has two names, {other} and {}", number.trim(), name.trim()));
                    }
                }
            }
            Some(_) if head.starts_with("enum") || head.starts_with("static inline ") => (),
            Some(_) => wrong.push(format!("neither an enum nor an inline function: {head}")),
        }
    }
    wrong.extend(exported.difference(&declared).map(|entry| format!("not in the header: {entry}")));
    wrong.extend(declared.difference(&exported).map(|entry| format!("in the header alone: {entry}")));
    if exported.is_empty() || numbers.is_empty() {
        wrong.push("no entries or no numbers were found".to_string());
    }
    for text in &wrong {
        eprintln!("header: {text}");
    }
    if !wrong.is_empty() {
        process::exit(1);
    }
    println!("{} entries, each as the header declares it, and {} numbers with one name each", exported.len(), numbers.len());
}
