//! The findings in words and tables.

use crate::counting::{self, Counts};
use crate::facts::Facts;
use crate::planners::{C, EARLIER, LIBRARY, NAMES, RUST};
use crate::small::Row;
use crate::sums::{self, Sum};
use crate::threads::Together;
use crate::timing::{Timed, ROUNDS};
use std::fmt::Write;

/// A number with its thousands apart.
fn thousands(number: f64) -> String {
    let digits = format!("{number:.0}");
    let mut text = String::new();
    for (place, digit) in digits.chars().enumerate() {
        if place > 0 && (digits.len() - place) % 3 == 0 {
            text.push(',');
        }
        text.push(digit);
    }
    text
}

/// A table: its heads, of which the first is of words and the others of numbers, and its rows.
fn table(to: &mut String, heads: &[&str], rows: impl IntoIterator<Item = Vec<String>>) {
    writeln!(to, "| {} |\n|---|{}", heads.join(" | "), "---:|".repeat(heads.len() - 1)).unwrap();
    for row in rows {
        writeln!(to, "| {} |", row.join(" | ")).unwrap();
    }
}

/// The page with its paragraphs and list items broken into lines of at most 138 characters.
fn wrapped(page: &str) -> String {
    let mut to = String::new();
    for line in page.lines() {
        let (mut column, indent) = (0, if line.starts_with("- ") { "\n  " } else { "\n" });
        for (place, word) in line.split(' ').enumerate() {
            let length = word.chars().count();
            if place > 0 && column + 1 + length > 138 && !line.starts_with(['|', ' ']) {
                to += indent;
                column = indent.len() - 1;
            } else if place > 0 {
                to.push(' ');
                column += 1;
            }
            to += word;
            column += length;
        }
        to.push('\n');
    }
    to
}

pub fn text(all: &[Timed], small: &[Row], together: &[Together], facts: &Facts) -> String {
    let mut to = String::new();
    let Facts { processor, compiler, flags, archive, .. } = facts;
    write!(
        to,
        "# Speed\n\n\
         The library beside plain C and plain Rust for the same search: the same {} boards, in one run, on {processor}. `bench/run` \
         writes this page.\n\n\
         - **Library**: `liblowpengine.a`, {archive}.\n\
         - **Plain C**: `bench/plain.c`, {compiler}, `{flags}`.\n\
         - **Plain Rust**: the second version of `tests/second/`, `rustc -C opt-level=3`. It is written to be believed: it sums the \
         distance over the whole board for every position that it makes.\n\n\
         A call is a whole one for each: tests 1 to 9 and 15, search, both buffers of full size. Each board is planned by all in turn, {ROUNDS} \
         times, and the least processor time of each counts. Ceiling 120, budget 1,000,000. In every one of these calls answer, visits, \
         plan and what is left in the buffers were the same. Compiled functions of the library and of plain C begin at multiples of 64 \
         bytes: where a linker happens to put them can change the time of a short call by a quarter.\n\n\
         ![Visits a second by shape, and milliseconds by visits](bench.svg)\n",
        all.len()
    )
    .unwrap();
    speeds(&mut to, "Shape", &sums::by_shape(all));
    speeds(&mut to, "Weight", &sums::by_weight(all));
    beside(&mut to, all, facts);
    growth(&mut to, all);
    small_calls(&mut to, small, facts);
    threads(&mut to, together);
    stack(&mut to, facts);
    counts(&mut to, facts);
    boards(&mut to, all);
    wrapped(&to)
}

fn speeds(to: &mut String, by: &str, sums: &[Sum]) {
    writeln!(to, "\n## Visits a second by {}\n", by.to_lowercase()).unwrap();
    let row = |sum: &Sum| {
        let speed = |planner| thousands(sum.speed(planner));
        let ratio = |planner| format!("{:.2}", sum.ratio(LIBRARY, planner));
        let visits = thousands(sum.visits[LIBRARY]);
        vec![sum.name.clone(), sum.boards.to_string(), visits, speed(LIBRARY), speed(C), speed(RUST), ratio(C), ratio(RUST)]
    };
    let heads = [by, "Boards", "Visits", "Library", "Plain C", "Plain Rust", "Library to C", "Library to Rust"];
    table(to, &heads, sums.iter().map(row));
}

/// The shapes once more, with an earlier archive where one was measured.
fn beside(to: &mut String, all: &[Timed], facts: &Facts) {
    let others = all.iter().filter(|board| board.by.get(EARLIER).is_some_and(|best| !best.same)).count();
    if all[0].by.len() <= EARLIER {
        return;
    }
    write!(
        to,
        "\n## Beside {}\n\n\
         Its archive in the same run, on the same boards, visits a second. Answer, visits, plan or what is left in the buffers are \
         others on {others} of the {} boards.\n\n",
        facts.earlier,
        all.len()
    )
    .unwrap();
    let row = |sum: &Sum| {
        let ratio = format!("{:.2}", sum.seconds[EARLIER] / sum.seconds[LIBRARY]);
        vec![sum.name.clone(), thousands(sum.speed(LIBRARY)), thousands(sum.speed(EARLIER)), ratio]
    };
    table(to, &["Shape", "Library", "Earlier", "Times as fast"], sums::by_shape(all).iter().map(row));
}

fn growth(to: &mut String, all: &[Timed]) {
    to.push_str("\n## How time grows with visits\n\nNanoseconds a visit:\n\n");
    let row = |(from, below): (u32, u32)| {
        let name = format!("{} to {}", thousands(from as f64), thousands((below - 1) as f64));
        let sum = sums::sum(name, all, |board| (from..below).contains(&board.by[LIBRARY].visits));
        let each = [LIBRARY, C, RUST].map(|planner| format!("{:.1}", 1e9 / sum.speed(planner)));
        [vec![sum.name.clone(), sum.boards.to_string()], each.to_vec()].concat()
    };
    let spans = [(20_000, 50_000), (50_000, 150_000), (150_000, 400_000), (400_000, 1_000_001)];
    table(to, &["Visits", "Boards", "Library", "Plain C", "Plain Rust"], spans.map(row));
    let [library, c, rust] = [LIBRARY, C, RUST].map(|planner| sums::power(all, planner));
    writeln!(
        to,
        "\nFitted over all boards, time grows as visits to the power {library:.2} for the library, {c:.2} for plain C and {rust:.2} \
         for plain Rust."
    )
    .unwrap();
}

fn small_calls(to: &mut String, small: &[Row], facts: &Facts) {
    to.push_str(
        "\n## Small boards\n\n\
         Where the search is short, the tests and what a call prepares are most of it. All boards that can be brought to the goal, at 1 \
         over 1, once and again, each time in another order; and a call whose budget is one visit. Nanoseconds a call:\n\n",
    );
    let with_earlier = small[0].seconds.len() > EARLIER;
    let row = |row: &Row| {
        let each = row.seconds.iter().map(|seconds| thousands(1e9 * seconds));
        let ratio = |planner: usize| format!("{:.2}", row.seconds[LIBRARY] / row.seconds[planner]);
        let ratios = [C, EARLIER].into_iter().filter(|&planner| planner < row.seconds.len()).map(ratio);
        [row.name.clone(), format!("{:.1}", row.visits as f64 / row.calls as f64)]
            .into_iter()
            .chain(each)
            .chain(ratios)
            .collect()
    };
    let mut heads = vec!["Calls", "Visits a call", "Library", "Plain C", "Plain Rust"];
    heads.extend(with_earlier.then_some("Earlier"));
    heads.push("Library's time to C's");
    heads.extend(with_earlier.then_some("to the earlier one's"));
    table(to, &heads, small.iter().map(row));
    if with_earlier {
        let others: usize = small.iter().map(|row| row.others).sum();
        writeln!(to, "\nThe earlier archive is that of {}. It answers {others} of these calls otherwise.", facts.earlier)
            .unwrap();
    }
}

/// Several callers at once.
fn threads(to: &mut String, together: &[Together]) {
    let processors = std::thread::available_parallelism().map_or(1, |count| count.get());
    write!(
        to,
        "\n## Threads\n\n\
         Every thread plans all the boards, with buffers of its own, at once with the others, on {processors} processors. Each gets the \
         answers, and leaves the buffers, of one thread alone. Calls a second by the clock on the wall, all threads together:\n\n"
    )
    .unwrap();
    let alone = together[0].calls;
    let row = |of: &Together| vec![of.threads.to_string(), thousands(of.calls), format!("{:.2}", of.calls / alone)];
    table(to, &["Threads", "Calls a second", "To one thread"], together.iter().map(row));
}

fn stack(to: &mut String, facts: &Facts) {
    to.push_str("\n## Stack\n\n");
    let Some(stack) = &facts.stack else {
        to.push_str("Not measured here.\n");
        return;
    };
    to.push_str("At ceiling 120; `tests/stack.c` measures it. Linked with this archive it prints:\n\n");
    writeln!(to, "    {}", stack.replace('\n', "\n    ")).unwrap();
    if let Some(earlier) = &facts.stack_earlier {
        writeln!(to, "\nand with the archive of {}:\n\n    {earlier}", facts.earlier).unwrap();
    }
    to.push_str("\nThe first archive of the library took 46,352 bytes for the plan at the last depth.\n");
}

type Counted = Option<(Counts, f64)>;

fn counts(to: &mut String, facts: &Facts) {
    to.push_str("\n## Where the time goes\n\n");
    if facts.searches.iter().all(Option::is_none) {
        to.push_str("Not counted here: there is no `valgrind`.\n");
        return;
    }
    let boards: Vec<String> = counting::boards().map(|job| format!("{} by {}", job.width, job.height)).collect();
    write!(
        to,
        "Counted by callgrind. Plain C is compiled with `{}` for this. A branch is mispredicted by callgrind's model of a processor, \
         which is simpler than a real one. First in long searches, on the first board at 3 over 1 of {}, for each visit:\n\n",
        facts.counted_flags,
        boards.join(", ")
    )
    .unwrap();
    events(to, &facts.searches, 1);
    functions(to, &facts.searches[LIBRARY]);
    to.push_str("\nThen in the call of one visit on 4 by 4:\n\n");
    events(to, &facts.visit, 0);
    functions(to, &facts.visit[LIBRARY]);
}

/// What each planner did for a visit, with so many digits behind the point.
fn events(to: &mut String, counted: &[Counted], digits: usize) {
    let row = |(name, counts): (&&str, &Counted)| {
        let (counts, visits) = counts.as_ref()?;
        let each = ["Ir", "Dr", "Dw", "Bc", "Bcm"].map(|event| counts.events.get(event).unwrap_or(&0.0) / visits);
        Some([vec![name.to_string()], each.map(|number| format!("{number:.digits$}")).to_vec()].concat())
    };
    let heads = ["Planner", "Instructions", "Reads", "Writes", "Branches", "Mispredicted"];
    table(to, &heads, NAMES.iter().zip(counted).filter_map(row));
}

/// The library's functions that make up more than one instruction in two hundred.
fn functions(to: &mut String, counted: &Counted) {
    let Some((Counts { events, functions }, _)) = counted else { return };
    let parts = functions.iter().map(|(name, sum)| (name, 100.0 * sum / events["Ir"])).filter(|&(_, part)| part > 0.5);
    let named: Vec<String> = parts.map(|(name, part)| format!("`{name}` {part:.0} %")).collect();
    writeln!(to, "\nThe library's instructions by function, with what the compiler put into it: {}.", named.join(", "))
        .unwrap();
}

fn boards(to: &mut String, all: &[Timed]) {
    to.push_str("\n## Each board\n\nMilliseconds; the ratio is that of visits a second, library to plain C.\n\n");
    let row = |board: &Timed| {
        let (job, by) = (board.job, &board.by);
        let cells: Vec<String> = job.board.iter().map(u8::to_string).collect();
        let each = [LIBRARY, C, RUST].map(|planner| format!("{:.2}", 1e3 * by[planner].seconds));
        let head = [format!("{} by {}, {}/{}: {}", job.width, job.height, job.p, job.q, cells.join(" "))];
        let ratio = format!("{:.2}", by[C].seconds / by[LIBRARY].seconds);
        [head.to_vec(), vec![thousands(by[LIBRARY].visits as f64)], each.to_vec(), vec![ratio]].concat()
    };
    table(to, &["Shape, weight and board", "Visits", "Library", "Plain C", "Plain Rust", "Ratio"], all.iter().map(row));
}
