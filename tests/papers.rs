//! What docs/PROMISES.md says of the tree: each law that it names is promised, each law that is promised is told, and so is each
//! edit. Each file of the theory has one headline. The list of refusals in docs/SPECIFICATION.md has its copies, and every list of the
//! calls has those that the library exports. docs/ARCHITECTURE.md has the crates, and names laws and functions that there are.

use crate::bench::Bench;
use crate::calls::CALLS;
use crate::whole;
use std::collections::HashSet;
use std::fs;
use std::path::{Path, PathBuf};
use std::process::Command;

const PAPER: &str = "docs/PROMISES.md";
const WIDEST: usize = 160;
const THEORIES: &[&str] = &[
    "crates/backlog/specs",
    "crates/backlog/proofs",
    "crates/patterns/specs",
    "crates/patterns/proofs",
    "crates/walks/specs",
    "crates/telling/specs",
];
const PROMISES: &str = "crates/promises/specs";
const SPECIFICATION: &str = "docs/SPECIFICATION.md";
const README: &str = "README.md";
const HEADER: &str = "include/yolizadwa.h";
const LIST: &str = "tests/calls.h";
const ARCHITECTURE: &str = "docs/ARCHITECTURE.md";
const CRATES: &str = "crates.txt";

/// Laws that the paper names and that are no promises, each with its file.
const OTHERS: &[(&str, &str)] = &[("gcd_unique", "crates/counting/specs/Divisors.antt")];

fn read(path: &str) -> String {
    fs::read_to_string(path).unwrap_or_else(|why| panic!("{path}: {why}"))
}

/// The names of what a folder holds that end so, without the ending, in order.
fn names(folder: &str, ending: &str) -> Vec<String> {
    let entries = fs::read_dir(folder).unwrap_or_else(|why| panic!("{folder}: {why}"));
    let files = entries.map(|entry| entry.expect("an entry").file_name().into_string().expect("a name"));
    let mut names: Vec<String> = files.filter_map(|name| Some(name.strip_suffix(ending)?.to_string())).collect();
    names.sort();
    names
}

/// The laws that a specification hands on: neither definitions, whose lines begin otherwise, nor the parts of a record.
fn laws(text: &str) -> Vec<&str> {
    let mut found = Vec::new();
    let mut record = None;
    for line in text.lines().filter(|line| !line.is_empty()) {
        let words = line.trim_start();
        let depth = line.len() - words.len();
        record = record.filter(|&outer| outer < depth);
        if words.starts_with("pub record ") {
            record = Some(depth);
        } else if let (None, Some((name, _))) = (record, words.strip_prefix("pub ").and_then(|rest| rest.split_once(" :"))) {
            found.extend(Some(name).filter(|name| !name.contains(' ')));
        }
    }
    found
}

/// A word in capitals.
fn loud(word: &str) -> bool {
    word.chars().filter(|letter| letter.is_uppercase()).count() > 1 && !word.chars().any(|letter| letter.is_lowercase())
}

/// The law that a file's first line names, `-- HEADLINE (`law`) ..`, with the headline in capitals.
fn headline(text: &str) -> Option<&str> {
    let (capitals, rest) = text.lines().next()?.strip_prefix("-- ")?.split_once(" (`")?;
    Some(rest.split_once("`)")?.0).filter(|_| loud(capitals))
}

/// A file of the theory has one theorem for its headline: its first line names it, and no other line begins like one.
pub fn headlines(bench: &mut Bench) {
    let files = |theory: &&'static str| names(theory, ".antt").into_iter().map(|name| (*theory, name)).collect::<Vec<_>>();
    for (theory, name) in THEORIES.iter().flat_map(files).filter(|(_, name)| name != "Lib" && name != "Instances") {
        let text = read(&format!("{theory}/{name}.antt"));
        let law = headline(&text);
        let comments = text.lines().skip(1).filter_map(|line| line.trim_start().strip_prefix("-- "));
        let others = comments.filter(|words| words.split_whitespace().take(2).any(loud)).count();
        // One of definitions alone has no theorem, and names none.
        let one = law.map_or(laws(&text).is_empty(), |law| laws(&text).contains(&law));
        let good = one && others == 0;
        bench.count(good, || format!("{theory}/{name}.antt: {law:?} is not its one headline"));
    }
    bench.end_group("headlines of the theory");
}

/// The names in backquotes that look like a law's: small letters with a low line between, and no call's, edit's, function's or
/// definition's name.
fn laws_told(text: &str) -> Vec<&str> {
    let law = |word: &&str| word.contains('_') && word.chars().all(|letter| letter.is_ascii_lowercase() || letter == '_');
    let others = others();
    let other = |word: &&str| !word.starts_with("yolizadwa_") && !others.contains(*word);
    text.split('`').skip(1).step_by(2).filter(law).filter(other).collect()
}

/// What is spelled as a law is: the functions of the code, the definitions, and the must-fail edits.
fn others() -> HashSet<String> {
    let crates = Path::new("crates");
    let mut found = HashSet::new();
    for path in files_below(crates, ".rt").iter().chain(&files_below(crates, ".antt")) {
        for line in read(&path.to_string_lossy()).lines() {
            let words: Vec<&str> = line.split([' ', '(', '<']).filter(|word| !word.is_empty()).collect();
            match words[..] {
                ["fn", name, ..] | ["pub", "fn", name, ..] => found.insert(name.to_string()),
                ["abbrev" | "unfoldable", "pub", name, ":", ..] => found.insert(name.to_string()),
                _ => false,
            };
        }
    }
    let edits = files_below(crates, ".edit");
    found.extend(edits.iter().filter_map(|path| Some(path.file_stem()?.to_string_lossy().into_owned())));
    found
}

/// The laws of the promises.
fn promised() -> Vec<String> {
    let files = names(PROMISES, ".antt").into_iter().map(|name| read(&format!("{PROMISES}/{name}.antt")));
    files.flat_map(|text| laws(&text).into_iter().map(str::to_string).collect::<Vec<_>>()).collect()
}

pub fn promises(bench: &mut Bench) {
    let (paper, promised) = (read(PAPER), promised());
    bench.count(paper.matches('`').count() % 2 == 0, || format!("{PAPER} has a backquote too many"));
    for law in laws_told(&paper) {
        let other = OTHERS.iter().any(|&(name, file)| name == law && laws(&read(file)).contains(&law));
        let known = other || promised.iter().any(|name| name == law);
        bench.count(known, || format!("{PAPER} names {law}, which is no promise"));
    }
    let others = others();
    for law in &promised {
        bench.count(!others.contains(law), || format!("{law} is promised, and the name of something else too"));
        bench.count(paper.contains(&format!("`{law}`")), || format!("{PAPER} does not tell {law}"));
    }
    bench.end_group("laws that the promises name");
}

/// The crates of the table of edits with what it tells of each, by name; its rows are `| contract | `crate` | edits |`.
fn edits_told(paper: &str) -> Vec<(String, String)> {
    let rows = paper.lines().filter_map(|line| line.strip_prefix('|')?.strip_suffix('|')?.rsplit_once(" | "));
    let row = |(start, edits): (&str, &str)| {
        Some((start.rsplit_once(" | `")?.1.strip_suffix('`')?.to_string(), edits.trim().to_string()))
    };
    let mut told: Vec<(String, String)> = rows.filter_map(row).collect();
    told.sort();
    told
}

/// The table of edits has a row for each crate that has some, and names them in order.
pub fn edits(bench: &mut Bench) {
    let told = edits_told(&read(PAPER));
    let folders = names("crates", "").into_iter().map(|name| (format!("crates/{name}/must-fail"), name));
    let with_edits = folders.filter(|(folder, _)| Path::new(folder).exists());
    let kept: Vec<(String, String)> = with_edits.map(|(folder, name)| (name, names(&folder, ".edit").join(", "))).collect();
    for row in &told {
        bench.count(kept.contains(row), || format!("{PAPER} tells of {} otherwise than it is: {}", row.0, row.1));
    }
    for row in &kept {
        bench.count(told.contains(row), || format!("{PAPER} does not tell the edits of {}: {}", row.0, row.1));
    }
    bench.count(told.len() == kept.len(), || format!("{PAPER} has {} rows of edits for {} crates", told.len(), kept.len()));
    bench.end_group("edits that the promises name");
}

/// What stands in a text between these two.
fn between<'a>(text: &'a str, from: &str, to: &str) -> &'a str {
    let (_, rest) = text.split_once(from).unwrap_or_else(|| panic!("nowhere: {from}"));
    rest.split(to).next().unwrap_or(rest)
}

/// The numbers in the first column of a table, several to a row or one.
fn numbers_told(part: &str) -> Vec<u32> {
    let cells = part.lines().filter_map(|line| Some(line.strip_prefix("| ")?.split_once(" |")?.0));
    cells.flat_map(|cell| cell.split(", ").map_while(|word| word.parse().ok()).collect::<Vec<u32>>()).collect()
}

/// The numbers of an enum's names.
fn numbers_declared(part: &str) -> Vec<u32> {
    let values = part.lines().filter_map(|line| Some(line.trim_start().strip_prefix("YOLIZADWA_")?.split_once(" = ")?.1));
    values.filter_map(|value| value.split(|letter: char| !letter.is_ascii_digit()).next()?.parse().ok()).collect()
}

fn each_among(bench: &mut Bench, these: &[u32], those: &[u32], otherwise: &str) {
    for number in these {
        bench.count(those.contains(number), || format!("{otherwise} {number}"));
    }
}

/// A list of the specification has the same numbers as a copy of it.
fn copied(bench: &mut Bench, list: &[u32], copy: &[u32], name: &str) {
    bench.count(list.len() == copy.len() && !list.is_empty(), || {
        format!("{name} lists {} numbers for {}", copy.len(), list.len())
    });
    each_among(bench, list, copy, &format!("{name} does not list"));
    each_among(bench, copy, list, &format!("{SPECIFICATION} does not list what {name} does:"));
}

/// The refusals, and what is found of a log, as the specification lists them, against README and header.
pub fn refusals(bench: &mut Bench) {
    let (paper, readme, header) = (read(SPECIFICATION), read(README), read(HEADER));
    let refusals = numbers_told(between(&paper, "### 7.1 ", "\n#"));
    let findings = numbers_told(between(&paper, "### 7.3 ", "\n#"));
    copied(bench, &refusals, &numbers_told(between(&readme, "## What is refused", "\n## ")), README);
    copied(bench, &refusals, &numbers_declared(between(&header, "enum yolizadwa_refusal {", "};")), HEADER);
    copied(bench, &findings, &numbers_declared(between(&header, "enum yolizadwa_log_answer {", "};")), HEADER);
    bench.end_group("refusals that the papers list");
}

/// The calls that these lines begin with, behind a mark; in order.
fn calls_in(part: &str, mark: &str) -> Vec<String> {
    let names = part.lines().filter_map(|line| line.strip_prefix(mark)).filter(|name| name.starts_with("yolizadwa_"));
    let mut names: Vec<String> = names.filter_map(|name| Some(name.split(['(', '`', ' ']).next()?.to_string())).collect();
    names.sort();
    names
}

/// The functions of the tests' one list, in its order.
fn calls_listed(list: &str) -> Vec<String> {
    let rows = list.lines().filter_map(|line| line.trim_start().strip_prefix("CALL(")?.split_once(')'));
    rows.filter_map(|(row, _)| Some(row.rsplit_once(", ")?.1.to_string())).collect()
}

/// calls.rs has the calls of calls.h in the same order: a request sends its place.
fn numbered_alike(bench: &mut Bench, listed: &[String]) {
    let here: Vec<String> = CALLS.iter().map(|(_, name)| format!("yolizadwa_{}", name.replace(' ', "_"))).collect();
    bench.count(here == listed, || format!("{LIST}: {listed:?}, but calls.rs: {here:?}"));
}

/// What the library exports is what the header declares and lists, and what README, the specification and the tests list.
pub fn calls(bench: &mut Bench) {
    let (paper, readme, header) = (read(SPECIFICATION), read(README), read(HEADER));
    let quoted = between(&readme, "## Link it", "\n## ").replace('`', "\n");
    let mut listed = calls_listed(&read(LIST));
    numbered_alike(bench, &listed);
    listed.sort();
    let lists = [
        ("stands in the tests' list", listed),
        ("is declared", calls_in(&header, "uint64_t ")),
        ("stands in the header's list", calls_in(between(&header, "/*", "*/"), " *   ")),
        ("stands in README", calls_in(&quoted, "")),
        ("stands in the specification", calls_in(between(&paper, "## 9. ", "\n## "), "| `")),
    ];
    let exported = whole::symbols("--defined-only");
    bench.count(!exported.is_empty(), || "nothing is exported".to_string());
    for (what, list) in lists {
        bench.count(list == exported, || format!("exported: {exported:?}, but what {what}: {list:?}"));
    }
    bench.end_group("calls that the papers list");
}

/// The crates that these lines begin with, behind a mark; in order.
fn crates_in<'a>(part: &'a str, mark: &str, end: char) -> Vec<&'a str> {
    let lines = part.lines().filter(|line| !line.starts_with('#'));
    lines.filter_map(|line| line.strip_prefix(mark)?.split_once(end)?.0.split_whitespace().next()).collect()
}

/// What docs/layers draws of a list of crates, if it does.
fn layers_of(list: &str) -> Option<String> {
    let said = Command::new("bash").args(["docs/layers", list]).output().expect("bash runs");
    said.status.success().then(|| String::from_utf8(said.stdout).expect("a text"))
}

/// A list in which the lowest crate uses the highest one.
fn upside_down(list: &str, crates: &[&str]) -> String {
    let (lowest, highest) = (crates[0], crates[crates.len() - 1]);
    list.replace(&format!("\n{lowest}:"), &format!("\n{lowest}: {highest}"))
}

/// The functions in backquotes, each behind its crate: `crate::function` or `crate::Type::function`.
fn functions_told(text: &str) -> Vec<(&str, &str)> {
    let quoted = text.split('`').skip(1).step_by(2);
    quoted.filter_map(|word| Some((word.split_once("::")?.0, word.rsplit_once("::")?.1))).collect()
}

/// The paper shows what docs/layers draws, and its table has the crates in their order.
fn layers_shown(bench: &mut Bench, paper: &str) {
    let list = read(CRATES);
    let crates = crates_in(&list, "", ':');
    let told = crates_in(between(paper, "\n## The crates\n", "\n## "), "| `", '`');
    bench.count(told == crates, || format!("{CRATES}: {crates:?}, but {ARCHITECTURE}: {told:?}"));
    let drawn = layers_of(CRATES);
    let shown = between(paper, "\n```text\n", "```\n");
    bench.count(drawn.as_deref() == Some(shown), || format!("{ARCHITECTURE} does not show what docs/layers draws"));
    let upward = "target/host/upward.txt";
    fs::write(upward, upside_down(&list, &crates)).expect("a list is written");
    bench.count(layers_of(upward).is_none(), || "docs/layers draws a crate that uses one above it".to_string());
}

/// The layers in docs/ARCHITECTURE.md, and the laws and functions that it names.
pub fn layers(bench: &mut Bench) {
    let (paper, promised) = (read(ARCHITECTURE), promised());
    layers_shown(bench, &paper);
    let words = between(&paper, "\n```\n", "\n## The crates\n");
    for law in laws_told(words) {
        bench.count(promised.iter().any(|name| name == law), || format!("{ARCHITECTURE} names {law}, which is no promise"));
    }
    for (home, function) in functions_told(words) {
        let code = files_below(Path::new(&format!("crates/{home}/src")), ".rt");
        let heads = [format!("fn {function}("), format!("fn {function}<")];
        let there = code.iter().map(|file| read(&file.to_string_lossy())).any(|text| heads.iter().any(|head| text.contains(head)));
        bench.count(there, || format!("{ARCHITECTURE} names {home}::{function}, which is not there"));
    }
    bench.end_group("layers, and what their paper names");
}

/// The files below a folder that end so, but for those that rt makes, in out/.
fn files_below(folder: &Path, ending: &str) -> Vec<PathBuf> {
    let entries = fs::read_dir(folder).unwrap_or_else(|why| panic!("{}: {why}", folder.display()));
    let all = entries.map(|entry| entry.expect("an entry").path());
    let paths = all.filter(|path| !path.ends_with("out"));
    let (folders, files): (Vec<PathBuf>, Vec<PathBuf>) = paths.partition(|path| path.is_dir());
    let here = files.into_iter().filter(|path| path.to_string_lossy().ends_with(ending));
    here.chain(folders.iter().flat_map(|inner| files_below(inner, ending))).collect()
}

/// No line of specs and proofs is longer than a screen's.
pub fn widths(bench: &mut Bench) {
    for path in files_below(Path::new("crates"), ".antt") {
        let text = read(&path.to_string_lossy());
        let long = text.lines().position(|line| line.chars().count() > WIDEST);
        bench.count(long.is_none(), || format!("{}: line {} is longer than {WIDEST}", path.display(), long.map_or(0, |at| at + 1)));
    }
    bench.end_group("widths of specs and proofs");
}
