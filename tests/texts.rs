//! Tables in plain text: the letter of the header, every small change, texts dressed and damaged at random, both ways round.

use crate::bench::Bench;
use crate::calls::Request;
use crate::document::refused_with;
use crate::inputs::*;
use crate::plain;
use crate::reference::{self, button, periodic, Task, TASKS};

const BATCH: usize = 1_000;
/// Bytes that mean something in a text, or nearly.
const TELLING: &[u8] = b"  \t\r\n\n##0123456789019budgetaskon-+.x\0\x0b\x0c\x1f\x7f\x80\xa0\xff";

fn ask(bench: &mut Bench, text: impl Into<Vec<u8>>) {
    bench.ask(Request::from_text(text.into()));
}

// The letter.

const EXAMPLE: &str =
    "# the bench, Tuesday\nbudget 1000\ntask 8 5 7 15     # offset, cost, deadline, period\ntask 0 2 2 5\n";
const B: &str = "budget 1000\ntask 8 5 7 15\ntask 0 2 2 5\n";
/// Table b in other words.
const ALSO_B: &[&str] = &[
    EXAMPLE,
    B,
    "budget 1000\ntask 8 5 7 15\ntask 0 2 2 5",
    "budget 1000\r\ntask 8 5 7 15\r\ntask 0 2 2 5\r\n",
    "budget 1000\ntask 8 5 7 15\ntask 0 2 2 5\r",
    "budget 1000#\ntask 8 5 7 15# task 1 2 3 4\ntask 0 2 2 5#\r",
    "\n\r\n \t\n#\n\t budget\t \t1000 \n\n\ttask 8  5\t7 15\t\r\n \r\ntask 0 2 2 5\n\n\n \t",
    "budget 00000000000000000000000000000001000\ntask 0008 005 0007 000000000000000000015\ntask 00 02 2 5\n",
];

/// Table b without a budget, which is then the largest.
const ENDLESS_B: &[&str] = &[
    "task 8 5 7 15\ntask 0 2 2 5\n",
    "# budget 5\n\ntask 8 5 7 15\r\n\ttask 0 2 2 5 # budget 5",
    "budget 18446744073709551615\ntask 8 5 7 15\ntask 0 2 2 5\n",
];

/// A shutter button beside two tasks, in the words of the header and in others.
const SHUTTER: &str = "budget 1000\ntask 0 2 10 10\nbutton 1 3 20\ntask 0 3 20 20\n";
const ALSO_SHUTTER: &[&str] = &[
    SHUTTER,
    "budget 1000\ntask 0 2 10 10\nbutton 1 3 20      # cost, deadline, least spacing\ntask 0 3 20 20\n",
    "\tbudget 1000\r\ntask 00 2 10 10\r\n\n \tbutton\t1  03 \t20#button\r\ntask 0 3 20 20",
];

/// Texts with number and place of their refusal.
const REFUSED: &[(&str, u64, u64)] = &[
    ("", 1, 0),
    ("\n", 1, 0),
    ("# budget 5\n\n", 1, 0),
    ("task 8 5 7 15\nbudget 1000\n", 64, 2),
    ("task 8 5 7 15\n\nbudget\n", 64, 3),
    ("task 8 5 7 15\nbudget x\n", 64, 2),
    ("task 8 5 7 0\nbudget 5\nbudget 5\n", 64, 2),
    ("\ntask x\n", 61, 2),
    ("task 60001 1 1 1\n", 6, 0),
    ("budget 5\n", 1, 0),
    ("budget 5\nbudget 5\n", 65, 2),
    ("budget 5\n\nbudget\n", 65, 3),
    ("budget 5\ntask 0 1 1 1\nbudget x\n", 65, 3),
    ("tasks 1 2 3 4\n", 60, 1),
    ("budget 5\nTask 0 1 1 1\n", 60, 2),
    ("budget 5\n5\n", 60, 2),
    ("budget5\n", 60, 1),
    ("budget 5\n\rtask 0 1 1 1\n", 60, 2),
    ("budget 5\n\r\r\n", 60, 2),
    ("budget\r5\n", 60, 1),
    ("budget 5\r\r\n", 61, 1),
    ("budget -5\n", 61, 1),
    ("budget +5\n", 61, 1),
    ("budget 5,\n", 61, 1),
    ("budget x y\n", 61, 1),
    ("budget 5 5\n", 63, 1),
    ("budget 5 x\n", 63, 1),
    ("budget\n", 63, 1),
    ("budget #5\n", 63, 1),
    ("budget 18446744073709551616\n", 62, 1),
    ("budget 18446744073709551616x\n", 61, 1),
    ("budget 18446744073709551616 x\n", 62, 1),
    ("budget 0\n", 27, 1),
    ("# none\n\tbudget 000 # slots\r\ntask x\n", 27, 2),
    ("budget 0\nbudget 0\n", 27, 1),
    ("budget 0\ntask 0 1 1 0\n", 27, 1),
    ("budget 0 0\n", 63, 1),
    ("budget 0 x\n", 63, 1),
    ("budget 0x\n", 61, 1),
    ("budget -0\n", 61, 1),
    ("task 0 1 1 1\nbudget 0\n", 64, 2),
    ("budget 5\nbudget 0\n", 65, 2),
    ("budget 1\n", 1, 0),
    ("budget 5\ntask 0 1 1\n", 63, 2),
    ("budget 5\ntask 0 1 1 1 1\n", 63, 2),
    ("budget 5\ntask 0 1 1 1 x\n", 63, 2),
    ("budget 5\ntask 0 1 x\n", 61, 2),
    ("budget 5\ntask 4294967296 x 1 1\n", 62, 2),
    ("budget 5\ntask x 4294967296 1 1\n", 61, 2),
    ("budget 5\ntask 0 1 1 4294967296 x\n", 62, 2),
    ("budget 5\ntask 0 1 1 4294967295\n", 3, 0),
    ("budget 5\ntask 0 1 1 0\ntask\n", 63, 3),
    ("budget 5\ntask 0 1 2 2\n\n\ntask 60001 1 2 2\n", 6, 1),
    ("budget 5\ntask 0 1 4093 4093\ntask 0 1 8779 8779\ntask 0 1 27830 27830\n", 7, 0),
    ("button 1 3 20\nbudget 5\n", 64, 2),
    ("\nbutton x\n", 61, 2),
    ("buttons 1 3 20\n", 60, 1),
    ("budget 5\nButton 1 3 20\n", 60, 2),
    ("budget 5\nbutto 1 3 20\n", 60, 2),
    ("budget 5\nbutton1 3 20\n", 60, 2),
    ("budget 5\nbutton\n", 63, 2),
    ("budget 5\nbutton 1 3\n", 63, 2),
    ("budget 5\nbutton 0 1 3 20\n", 63, 2),
    ("budget 5\nbutton 1 3 20 x\n", 63, 2),
    ("budget 5\nbutton 1 x\n", 61, 2),
    ("budget 5\nbutton -1 3 20\n", 61, 2),
    ("budget 5\nbutton 1 3 20x\n", 61, 2),
    ("budget 5\nbutton 4294967296 x 1\n", 62, 2),
    ("budget 5\nbutton x 4294967296 1\n", 61, 2),
    ("budget 5\nbutton 1 1 4294967296 x\n", 62, 2),
    ("budget 5\nbutton 1 3 20\nbudget 5\n", 65, 3),
    ("budget 5\nbutton 1 1 4294967295\n", 3, 0),
    ("budget 5\nbutton 1 1 0\n", 3, 0),
    ("budget 5\ntask 0 1 2 2\nbutton 1 3 60001\n", 3, 1),
    ("budget 5\ntask 0 1 2 2\nbutton 9 3 2\n", 4, 1),
    ("budget 5\ntask 0 1 2 2\nbutton 1 0 2\n", 4, 1),
    ("budget 5\ntask 0 1 2 2\nbutton 3 2 4\n", 5, 1),
    ("budget 5\nbutton 0 2 4\ntask 60001 1 2 2\n", 5, 0),
    ("budget 5\nbutton 1 2 4\ntask 60001 1 2 2\n", 6, 1),
    ("budget 5\ntask 0 1 4093 4093\nbutton 1 8779 8779\nbutton 1 27830 27830\n", 7, 0),
    ("budget 0\nbutton x\n", 27, 1),
];

pub fn by_the_letter(bench: &mut Bench) {
    let file = std::fs::read("tables/b.table").expect("tables/ is there");
    bench.ask_filled(Request::to_text(file.clone()), B.as_bytes());
    for text in ALSO_B {
        bench.ask_filled(Request::from_text(text.as_bytes().to_vec()), &file);
    }
    let endless = file_of(u64::MAX, &[periodic(8, 5, 7, 15), periodic(0, 2, 2, 5)]);
    for text in ENDLESS_B {
        bench.ask_filled(Request::from_text(text.as_bytes().to_vec()), &endless);
    }
    let shutter = file_of(1_000, &[periodic(0, 2, 10, 10), button(1, 3, 20), periodic(0, 3, 20, 20)]);
    bench.ask_filled(Request::to_text(shutter.clone()), SHUTTER.as_bytes());
    for text in ALSO_SHUTTER {
        bench.ask_filled(Request::from_text(text.as_bytes().to_vec()), &shutter);
    }
    for &(text, number, place) in REFUSED {
        let request = Request::from_text(text.as_bytes().to_vec());
        refused_with(bench, Request { buffer: Vec::new(), ..request.clone() }, number, place);
        refused_with(bench, request, number, place);
    }
    for most in [
        "task 0 1 60 60\n".repeat(TASKS),
        "button 1 60 60\n".repeat(TASKS),
        "button 1 60 60\ntask 0 1 60 60\n".repeat(TASKS / 2),
    ] {
        for more in ["task 0 1 60 60", "task x", "task", "button 1 60 60", "button x", "button"] {
            refused_with(bench, Request::from_text(format!("budget 5\n{most}{more}").into_bytes()), 66, TASKS as u64 + 2);
        }
    }
    bench.end_group("plain text by the letter");
}

// One by one.

fn every_byte(bench: &mut Bench) {
    for text in [&b"budget 7\n\ttask 0 1 2 2 # a\r\n"[..], b"budget 7\n\tbutton 1 2 2\n"] {
        for place in 0..=text.len() {
            for byte in 0..=255 {
                let (before, behind) = text.split_at(place);
                ask(bench, [before, &[byte], behind].concat());
                ask(bench, [before, &[byte], &behind[behind.len().min(1)..]].concat());
            }
        }
    }
}

fn every_cut(bench: &mut Bench, rng: &mut Rng) {
    for (tasks, buttons) in [0, 1, 2, TASKS, TASKS + 1].into_iter().flat_map(|tasks| [(tasks, false), (tasks, true)]) {
        let (budget, mut table) = (any_budget(rng), sized(rng, tasks));
        if buttons {
            make_buttons(rng, &mut table);
        }
        for text in [plain::text_of(budget, &table), dressed(rng, budget, &table)] {
            (0..=text.len()).for_each(|length| ask(bench, &text[..length]));
        }
    }
}

/// Every row of up to five words of a few sorts after a first word, where each first word is due, is not, and is too much.
fn every_line(bench: &mut Bench) {
    let sorts = ["1", "0", "x", "4294967296", "18446744073709551616"];
    let most = format!("budget 5\n{}", "task 0 1 60 60\n".repeat(TASKS));
    let mut rows = vec![String::new()];
    for _ in 0..5 {
        let longer = rows.iter().flat_map(|row| sorts.map(|word| format!("{row} {word}")));
        rows = std::iter::once(String::new()).chain(longer).collect();
    }
    for row in rows {
        for before in ["", "budget 5\n", "task 0 1 60 60\n", &most] {
            ["budget", "task", "button"].iter().for_each(|first| ask(bench, format!("{before}{first}{row}\ny")));
        }
    }
}

/// At the limits of 32 and 64 bits, and small numbers beyond them that would wrap around.
fn border_words() -> Vec<String> {
    let limits = [1_u128 << 32, 1 << 33, 1 << 63, 1 << 64, 1 << 65, 1 << 96, 10_u128.pow(19), 10_u128.pow(20)];
    let mut words: Vec<String> =
        limits.iter().flat_map(|limit| [limit - 1, *limit, limit + 1, limit + 5]).map(|n| n.to_string()).collect();
    words.extend([0, 1, 2, 59_999, 60_000, 60_001, u128::MAX].map(|number| number.to_string()));
    words.extend(
        ["340282366920938463463374607431768211461", "999999999999999999999999999999", "1x", "1:", "1/"].map(str::to_string),
    );
    words.extend([20, 70_000].map(|length| "9".repeat(length)));
    words.extend([20, 70_000].map(|length| "0".repeat(length) + "1"));
    words
}

fn every_number(bench: &mut Bench) {
    for word in border_words() {
        ask(bench, format!("budget {word}\ntask 0 1 1 1\n"));
        for place in 0..4 {
            let mut words = ["1"; 4];
            words[place] = &word;
            ask(bench, format!("budget 1\ntask {}\ntask 0 1 1 1", words.join(" ")));
            ask(bench, format!("budget 1\ntask 0 1 1 1\ntask {}", words.join(" ")));
        }
        for place in 0..3 {
            let mut words = ["1"; 3];
            words[place] = &word;
            ask(bench, format!("budget 1\nbutton {}\ntask 0 1 1 1", words.join(" ")));
            ask(bench, format!("budget 1\ntask 0 1 1 1\nbutton {}", words.join(" ")));
        }
    }
}

/// Lines at and above the largest number that can be told, and long lines.
fn long_texts(bench: &mut Bench) {
    for lines in [65_532, 65_533, 65_534, 65_535, 65_536, 70_000] {
        for empty in ["\n", "#\r\n"] {
            let empty = empty.repeat(lines);
            for end in [
                "",
                "budget",
                "budget 0",
                "budget 1\ntask 0 1 1 1",
                "budget 1\ntask",
                "task 0 1 1 1\nbudget 1",
                "task",
                "budget 1\nbutton",
                "button",
                "#",
            ] {
                ask(bench, format!("{empty}{end}"));
            }
            ask(bench, format!("budget 1\n{empty}task 0 1 1 1"));
            ask(bench, format!("budget 1\n{empty}task 0 1 1 x"));
        }
    }
    for piece in [" ", "\t", "#", "\r", "\0", "b", "budget", " task", " button", " 1", "0"] {
        let long = piece.repeat(70_000);
        ask(bench, format!("{long}budget 1\ntask 0 1 1 1"));
        ask(bench, format!("budget {long}1\ntask 0 1 1 1"));
        ask(bench, format!("budget 1\ntask 0 1 1 1{long}\ntask 0 1 1 1"));
        ask(bench, format!("budget 1\ntask 0 1 1 1\n{long}"));
    }
}

pub fn one_by_one(bench: &mut Bench, rng: &mut Rng) {
    every_byte(bench);
    every_cut(bench, rng);
    every_line(bench);
    every_number(bench);
    long_texts(bench);
    bench.end_group("plain text changed one by one");
}

/// The longest text there is, into buffers that are a byte too short, just long enough, and a byte longer.
fn longest(bench: &mut Bench) {
    let table = [periodic(60_000, 60_000, 60_000, 60_000); TASKS];
    let (file, text) = (file_of(u64::MAX, &table), plain::text_of(u64::MAX, &table));
    bench.count(text.len() == plain::LONGEST_TEXT, || format!("the longest text has {} bytes", text.len()));
    for length in plain::LONGEST_TEXT - 1..=plain::LONGEST_TEXT + 1 {
        bench.ask(Request { buffer: vec![0xE7; length], ..Request::to_text(file.clone()) });
    }
    bench.ask(Request::from_text(text));
}

pub fn buffers(bench: &mut Bench, rng: &mut Rng) {
    for tasks in [0, 1, 2, TASKS - 1, TASKS, TASKS + 1, TASKS + 1, TASKS, 2, 1] {
        let (budget, mut table) = (good_budget(rng), sized(rng, tasks));
        if rng.chance(50) {
            make_buttons(rng, &mut table);
        }
        let (file, text) = (file_of(budget, &table), plain::text_of(budget, &table));
        for length in (0..=text.len() + 5).chain([4_096, 65_535, 65_536, 70_000]) {
            let buffer: Vec<u8> = (0..length).map(|_| rng.next() as u8).collect();
            bench.ask(Request { buffer: buffer.clone(), ..Request::from_text(text.clone()) });
            bench.ask(Request { buffer, ..Request::to_text(file.clone()) });
        }
    }
    longest(bench);
    bench.end_group("plain text into buffers of every length");
}

// At random.

fn gap(rng: &mut Rng, least: usize) -> Vec<u8> {
    let length = least + rng.pick(&[0, 0, 0, 1, 3]);
    (0..length).map(|_| rng.pick(b"  \t")).collect()
}

fn comment(rng: &mut Rng) -> Vec<u8> {
    let bytes = (0..rng.below(12)).map(|_| rng.pick(TELLING)).filter(|&byte| byte != b'\n');
    std::iter::once(b'#').chain(bytes).collect()
}

fn dressed_line(rng: &mut Rng, first: &str, numbers: &[u64]) -> Vec<u8> {
    let mut line = gap(rng, 0);
    line.extend(first.bytes());
    for number in numbers {
        line.extend(gap(rng, 1));
        line.extend("0".repeat(rng.pick(&[0, 0, 0, 1, 2, 25])).bytes());
        line.extend(number.to_string().bytes());
    }
    line.extend(gap(rng, 0));
    if rng.chance(20) {
        line.extend(comment(rng));
    }
    line
}

/// A text of the table with comments, blanks and tabs, carriage returns, zeros in front, lines that say nothing.
fn dressed(rng: &mut Rng, budget: u64, tasks: &[Task]) -> Vec<u8> {
    let mut lines = vec![dressed_line(rng, "budget", &[budget])];
    for task in tasks {
        let numbers = [task.offset, task.cost, task.deadline, task.period].map(u64::from);
        let (first, numbers) = if task.button { ("button", &numbers[1..]) } else { ("task", &numbers[..]) };
        lines.push(dressed_line(rng, first, numbers));
    }
    let (mut text, returns) = (Vec::new(), rng.pick(&[0, 30, 100]));
    for line in lines {
        while rng.chance(15) {
            text.extend(if rng.chance(50) { gap(rng, 0) } else { comment(rng) });
            text.push(b'\n');
        }
        text.extend(line);
        text.extend(if rng.chance(returns) { &b"\r\n"[..] } else { b"\n" });
    }
    text.truncate(text.len() - rng.chance(30) as usize);
    text
}

fn move_lines(rng: &mut Rng, text: &mut Vec<u8>) {
    let mut lines: Vec<Vec<u8>> = text.split(|&byte| byte == b'\n').map(<[u8]>::to_vec).collect();
    let mut place = || rng.below(lines.len() as u64) as usize;
    let (one, other) = (place(), place());
    match rng.below(3) {
        0 => lines.swap(one, other),
        1 => lines.insert(other, lines[one].clone()),
        _ => drop(lines.remove(one)),
    }
    *text = lines.join(&b'\n');
}

fn damage_text(rng: &mut Rng, text: &mut Vec<u8>) {
    for _ in 0..1 + rng.below(3) {
        let place = rng.below(text.len() as u64 + 1) as usize;
        let byte = if rng.chance(80) { rng.pick(TELLING) } else { rng.next() as u8 };
        match rng.below(12) {
            0 => text.truncate(place),
            1..=4 => text.insert(place, byte),
            5..=7 if place < text.len() => text[place] = byte,
            8..=9 if place < text.len() => drop(text.remove(place)),
            _ => move_lines(rng, text),
        }
    }
}

fn any_tasks(rng: &mut Rng) -> Vec<Task> {
    let tasks = 1 + rng.below(TASKS as u64) as usize;
    sized(rng, tasks)
}

/// Of so many texts at least one is taken, or refused with each number.
const TEXTS_PER_ANSWER: u64 = 5_000;

/// A generator that no longer reaches one of the answers fails. 0: a file is written; 2 is never told of a text, 1 seldom.
fn hold_answers(bench: &mut Bench, told: &[u64]) {
    let count: u64 = told.iter().sum();
    for number in [0, 3, 4, 5, 6, 7, 27].into_iter().chain(60..=66) {
        let answers = told[number];
        bench.count(answers >= count / TEXTS_PER_ANSWER, || format!("{number} only {answers} times in {count} texts"));
    }
}

pub fn damaged(bench: &mut Bench, rng: &mut Rng, count: u64) {
    let mut told = [0; 67];
    for _ in 0..count {
        let (budget, mut tasks) = (any_budget(rng), any_tasks(rng));
        if rng.chance(5) {
            tasks.resize(TASKS + 1, tasks[0]);
        }
        if rng.chance(20) {
            spoil(rng, &mut tasks);
        }
        let mut text = if rng.chance(50) { dressed(rng, budget, &tasks) } else { plain::text_of(budget, &tasks) };
        if rng.chance(90) {
            damage_text(rng, &mut text);
        }
        let request = Request::from_text(text);
        let permitted = reference::answer(&request);
        told[permitted.0 as usize / 65_536] += 1;
        bench.ask_knowing(request, permitted);
    }
    hold_answers(bench, &told);
    bench.end_group("plain text damaged at random");
}

/// Words and marks in any order, and bytes of any sort.
pub fn junk(bench: &mut Bench, rng: &mut Rng, count: u64) {
    let pieces = [
        "budget 5\n",
        "budget",
        "task",
        "button",
        " 0 1 2 2\n",
        " 1 2 2\n",
        " 1",
        " ",
        "\t",
        "\n",
        "\r\n",
        "\r",
        "#",
        "x",
        "4294967296",
        "60001",
    ];
    for turn in 0..count {
        let length = rng.below(40);
        match turn % 4 {
            0 => ask(bench, (0..length).map(|_| rng.next() as u8).collect::<Vec<u8>>()),
            1 => ask(bench, (0..length).map(|_| rng.pick(TELLING)).collect::<Vec<u8>>()),
            2 => ask(bench, (0..length).map(|_| rng.pick(&pieces)).collect::<String>()),
            _ => ask(bench, "budget 5\n".to_string() + &(0..length).map(|_| rng.pick(&pieces)).collect::<String>()),
        }
    }
    bench.end_group("plain text of anything");
}

/// The file of a dressed text, its text, and the file of that, each from what the call before has written.
fn trip(bench: &mut Bench, rng: &mut Rng, tables: &[(u64, Vec<Task>)]) {
    let texts: Vec<Request> =
        tables.iter().map(|(budget, tasks)| Request::from_text(dressed(rng, *budget, tasks))).collect();
    let files: Vec<Request> = bench.answer(&texts).iter().map(|reply| Request::to_text(reply.written())).collect();
    let canonical = bench.answer(&files);
    for (((budget, tasks), text), (file, reply)) in tables.iter().zip(&texts).zip(files.iter().zip(canonical)) {
        let read = plain::read_text(&text.file) == Ok((*budget, tasks.clone()));
        let same = file.file == file_of(*budget, tasks) && reply.written() == plain::text_of(*budget, tasks);
        bench.count(read && same && reply.intact, || format!("{:?}", String::from_utf8_lossy(&text.file)));
        bench.ask_filled(text.clone(), &file_of(*budget, tasks));
        bench.ask_filled(Request::from_text(reply.written()), &file.file);
    }
}

pub fn round_trips(bench: &mut Bench, rng: &mut Rng, count: u64) {
    let mut left = count as usize;
    while left > 0 {
        let tables: Vec<(u64, Vec<Task>)> = (0..left.min(BATCH)).map(|_| (good_budget(rng), any_tasks(rng))).collect();
        trip(bench, rng, &tables);
        left -= tables.len();
    }
    bench.end_group("plain text read, written and read");
}
