//! What bench/run found out before the clock runs: a file for each fact, which may be missing.

use crate::counting::{self, Counts};
use crate::planners::NAMES;
use std::path::Path;

pub struct Facts {
    pub processor: String,
    /// The C compiler with its version, and its flags for plain C.
    pub compiler: String,
    pub flags: String,
    /// How the archive was compiled.
    pub archive: String,
    /// What the earlier archive is.
    pub earlier: String,
    /// What tests/stack.c printed, linked with the archive and with the earlier one.
    pub stack: Option<String>,
    pub stack_earlier: Option<String>,
    /// What callgrind counted of each planner in long searches, and their visits; and in a call of one visit. The flags of plain C for
    /// both.
    pub searches: Vec<Option<(Counts, f64)>>,
    pub visit: Vec<Option<(Counts, f64)>>,
    pub counted_flags: String,
}

impl Facts {
    pub fn read(folder: &Path) -> Facts {
        let file = |name: &str| std::fs::read_to_string(folder.join(name)).ok().map(|text| text.trim_end().to_string());
        let told = |name: &str| file(name).unwrap_or_else(|| panic!("no {name} in {}", folder.display()));
        let counted = |calls: &str, planner: usize| {
            let visits = file(&format!("{calls}-{planner}-visits"))?.parse().ok()?;
            Some((counting::read(&file(&format!("{calls}-{planner}"))?)?, visits))
        };
        Facts {
            processor: told("processor"),
            compiler: told("compiler"),
            flags: told("flags"),
            archive: told("archive"),
            earlier: told("earlier"),
            stack: file("stack"),
            stack_earlier: file("stack-earlier"),
            searches: (0..NAMES.len()).map(|planner| counted("searches", planner)).collect(),
            visit: (0..NAMES.len()).map(|planner| counted("visit", planner)).collect(),
            counted_flags: told("counted-flags"),
        }
    }
}
