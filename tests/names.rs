//! Names of tasks in the command: found by a reader of its own, long, odd and hostile, and shown safely.

use crate::bench::Bench;
use crate::command::{asked, said, sanitized, SANITIZED};
use crate::inputs::*;
use crate::judge::fed;
use crate::plain;
use crate::reference::{self, Task};
use std::ops::RangeInclusive;
use std::path::Path;
use std::process::Command;

const TABLES: u64 = 40;
pub const LETTERS: usize = 40;
const LABEL_LETTERS: usize = 16;
const PARTS: &[&[u8]] = &[
    b"lens",
    b" scale ",
    b"#",
    b"\t",
    b"\x1b[31m",
    b"\x1b]0;title\x07",
    b"\"",
    b"\\",
    b"<&>'",
    b"\0",
    b"\r",
    b"\x7f",
    b"\xc2\x9b",
    b"\xc3\xa4",
    b"\xe2\x80\xae",
    b"\xe2\x80\x8b",
    b"\xc2\xad",
    b"\xd8\x9c",
    b"\xe1\xa0\x8e",
    b"\xe3\x85\xa4",
    b"\xf3\xa0\x80\x81",
    b"\xef\xbf\xbf",
    b"\xef\xbb\xbf",
    b"\xf0\x9f\x93\xb7",
    b"\xff",
    b"\xc3",
    b"\xe2\x82",
    b"\xc0\xaf",
    b"\xed\xa0\x80",
    b"\xf4\x90\x80\x80",
    b"task 0 1 1 1",
];

/// Any bytes but a line feed.
pub fn some_name(rng: &mut Rng) -> Vec<u8> {
    let parts = match rng.below(10) {
        0 => 0,
        1 => 2_500,
        _ => 1 + rng.below(6),
    };
    (0..parts).flat_map(|_| rng.pick(PARTS).to_vec()).collect()
}

const HIDDEN: &[RangeInclusive<u32>] = &[
    0x115F..=0x1160,
    0x17B4..=0x17B5,
    0x180B..=0x180F,
    0x200B..=0x200F,
    0x2028..=0x202E,
    0x2060..=0x206F,
    0xFFF0..=0xFFFB,
    0x1BCA0..=0x1BCA3,
    0x1D173..=0x1D17A,
    0xE0000..=0xE0FFF,
];

fn is_hidden(letter: char) -> bool {
    let code = letter as u32;
    letter.is_control()
        || [0xAD, 0x34F, 0x61C, 0x3164, 0xFEFF, 0xFFA0, 0xFFFE, 0xFFFF].contains(&code)
        || HIDDEN.iter().any(|range| range.contains(&code))
}

/// The letter at the front and its bytes, if it is UTF-8.
pub fn letter_of(bytes: &[u8]) -> Option<(char, usize)> {
    (1..=bytes.len().min(4)).find_map(|length| {
        let text = std::str::from_utf8(&bytes[..length]).ok()?;
        text.chars().next().map(|letter| (letter, length))
    })
}

/// What a terminal is shown.
pub fn shown(mut name: &[u8]) -> String {
    let mut text = String::new();
    while !name.is_empty() {
        let (letter, length) = match letter_of(name) {
            Some(('\t', _)) => (' ', 1),
            Some((letter, length)) if !is_hidden(letter) => (letter, length),
            _ => ('?', 1),
        };
        text.push(letter);
        name = &name[length..];
    }
    text
}

pub fn cut(text: &str, letters: usize) -> String {
    if text.chars().count() <= letters {
        return text.to_string();
    }
    text.chars().take(letters - 1).chain(['\u{2026}']).collect()
}

/// The names of a text, by the rules of its lines: what stands behind the first `#` of each task's line, trimmed.
pub fn names_of(text: &[u8]) -> Vec<Vec<u8>> {
    let lines = text.split(|&byte| byte == b'\n').map(|line| line.strip_suffix(b"\r").unwrap_or(line));
    let blank = |byte: &u8| [b' ', b'\t'].contains(byte);
    let tasks = lines.filter(|line| {
        let before = line.split(|&byte| byte == b'#').next().unwrap();
        let first = before.split(blank).find(|word| !word.is_empty()).unwrap_or(&[]);
        [&b"task"[..], b"button"].contains(&first)
    });
    let name = |line: &[u8]| {
        let comment = line.iter().position(|&byte| byte == b'#').map_or(&[][..], |place| &line[place + 1..]);
        let begin = comment.iter().position(|byte| !blank(byte)).unwrap_or(comment.len());
        let end = comment.iter().rposition(|byte| !blank(byte)).map_or(begin, |place| place + 1);
        comment[begin..end].to_vec()
    };
    tasks.map(name).collect()
}

/// The table with a name behind each task's line.
pub fn named(rng: &mut Rng, budget: u64, tasks: &[Task]) -> Vec<u8> {
    let mut text = Vec::new();
    for line in plain::text_of(budget, tasks).split_inclusive(|&byte| byte == b'\n') {
        text.extend(rng.pick(&[&b""[..], b"# task 1 2 3 4 # no name\n", b"\r\n", b"  "]));
        text.extend(&line[..line.len() - 1]);
        if rng.chance(80) {
            text.extend(rng.pick(&[&b"#"[..], b" # ", b"\t#\t "]));
            text.extend(some_name(rng));
        }
        text.extend(rng.pick(&[&b"\n"[..], b" \n", b"\r\n", b" \t\r\n"]));
    }
    text
}

/// UTF-8 without a control but the line feed.
fn is_safe(bytes: &[u8]) -> bool {
    std::str::from_utf8(bytes).is_ok_and(|text| text.chars().all(|letter| letter == '\n' || !is_hidden(letter)))
}

/// The rows of a list whose heading begins with these words: the task, and what stands behind that many columns.
fn ends_of_rows(text: &str, heading: &str, columns: usize) -> Vec<(usize, String)> {
    let heads = |line: &str| line.split_whitespace().collect::<Vec<_>>().join(" ").starts_with(heading);
    let rows = text.lines().skip_while(|line| !heads(line)).skip(1);
    rows.map_while(|row| {
        let task = row.split_whitespace().next()?.parse().ok()?;
        let mut rest = row.trim_start();
        for _ in 0..columns {
            rest = rest.split_once(' ').map_or("", |(_, rest)| rest).trim_start();
        }
        Some((task, rest.to_string()))
    })
    .collect()
}

fn rows_named(bench: &mut Bench, words: &[&str], text: &[u8], names: &[String], heading: &str, columns: usize) {
    let output = asked(words, text);
    let rows = ends_of_rows(&said(&output), heading, columns);
    let good = rows.iter().all(|(task, name)| *name == cut(&names[*task], LETTERS).trim_start());
    bench.count(good && is_safe(&output.stdout), || format!("{words:?} on {}: {output:?}", String::from_utf8_lossy(text)));
}

/// The label of each row of a chart, up to the column in which the first slot stands.
fn labels_named(bench: &mut Bench, text: &[u8], names: &[String]) {
    let output = asked(&["run", "-"], text);
    let told = said(&output);
    let longest = names.iter().map(|name| cut(name, LABEL_LETTERS).chars().count()).max().unwrap_or(0);
    let width = if longest == 0 { 8 } else { 9 + longest };
    let ruler = told.lines().next().unwrap_or("").find('0');
    let rows = told.lines().skip(1).take(names.len()).enumerate();
    let good = rows.map(|(task, row)| (task, row.chars().take(width).collect::<String>())).all(|(task, label)| {
        let name = &names[task];
        let expected =
            if name.is_empty() { format!("task {task}") } else { format!("task {task:<2} {}", cut(name, LABEL_LETTERS)) };
        label.trim_end() == expected.trim_end()
    });
    bench.count(good && ruler == Some(width) && is_safe(&output.stdout), || {
        format!("run on {}: {told}", String::from_utf8_lossy(text))
    });
}

pub fn with_names(canonical: &[u8], names: &[String]) -> String {
    let lines = String::from_utf8(canonical.to_vec()).expect("a text");
    let behind = |line: &str, name: &str| if name.is_empty() { format!("{line}\n") } else { format!("{line}  # {name}\n") };
    let none = String::new();
    lines.lines().zip(std::iter::once(&none).chain(names)).map(|(line, name)| behind(line, name)).collect()
}

/// By show, of a text and of a table file with lent names; what is shown is the same table.
fn kept(bench: &mut Bench, budget: u64, tasks: &[Task], text: &[u8], names: &[String]) {
    const LENT: &str = "target/host/names.txt";
    std::fs::write(LENT, text).expect("target/host can be written");
    let expected = with_names(&plain::text_of(budget, tasks), names);
    let (own, lent) = (asked(&["show", "-"], text), asked(&["show", "-", "--names", LENT], &file_of(budget, tasks)));
    bench.count(said(&own) == expected && is_safe(&own.stdout), || format!("show of {text:?}: {own:?}"));
    bench.count(said(&lent) == expected, || format!("show with names of {text:?}: {lent:?}"));
    let again = asked(&["make", "-", "-"], &own.stdout);
    bench.count(again.stdout == file_of(budget, tasks), || format!("make of {own:?}: {again:?}"));
}

pub fn words_of(task: usize, name: &str) -> String {
    if name.is_empty() {
        format!("task {task}")
    } else {
        format!("task {task} ({})", cut(name, LETTERS))
    }
}

/// A table is an easing of itself, and each task is named twice.
fn compared(bench: &mut Bench, text: &[u8], names: &[String]) {
    const SAME: &str = "target/host/names.txt";
    let output = asked(&["eased", "-", SAME], text);
    let rows: String = names
        .iter()
        .enumerate()
        .map(|(task, name)| words_of(task, name))
        .map(|words| format!("{words} was old {words}: unchanged\n"))
        .collect();
    bench.count(said(&output).ends_with(&format!("test\n{rows}")) && is_safe(&output.stdout), || {
        format!("eased: {output:?}, not {rows}")
    });
}

fn table(bench: &mut Bench, rng: &mut Rng) {
    let tasks = near_border(rng);
    let budget = budget_about(rng, &tasks);
    let text = named(rng, budget, &tasks);
    let names: Vec<String> = names_of(&text).iter().map(|name| shown(name)).collect();
    bench.count(plain::read_text(&text).is_ok_and(|read| read == (budget, tasks.clone())), || format!("no table: {text:?}"));
    kept(bench, budget, &tasks, &text, &names);
    compared(bench, &text, &names);
    rows_named(bench, &["judge", "-"], &text, &names, "task job", 5);
    rows_named(bench, &["run", "-"], &text, &names, "task slots", 4);
    labels_named(bench, &text, &names);
    if (0..tasks.len()).all(|task| triable(budget, &tasks, task)) && reference::judge(&tasks).is_ok() {
        rows_named(bench, &["largest", "-"], &text, &names, "task cost largest", 5);
    }
}

/// Whatever the bytes behind `--names` are, they are read without a fault.
fn under_sanitizers(bench: &mut Bench, rng: &mut Rng) {
    let tasks = near_border(rng);
    let mut text = named(rng, 1_000, &tasks);
    damage(rng, &mut text);
    const LENT: &str = "target/host/names.txt";
    std::fs::write(LENT, &text).expect("target/host can be written");
    for word in ["show", "run", "judge"] {
        let mut command = Command::new(SANITIZED);
        sanitized(&mut command).args([word, "-", "--names", LENT]);
        let output = fed(command, &file_of(1_000, &tasks));
        let known = output.status.code().is_some_and(|code| code <= 4)
            && !String::from_utf8_lossy(&output.stderr).contains("anitizer");
        bench.count(known && is_safe(&output.stdout), || format!("{word} with names {text:?}: {output:?}"));
    }
}

pub fn at_random(bench: &mut Bench, rng: &mut Rng) {
    (0..TABLES).for_each(|_| table(bench, rng));
    if Path::new(SANITIZED).exists() {
        (0..TABLES / 2).for_each(|_| under_sanitizers(bench, rng));
    }
    bench.end_group("names in the command");
}
