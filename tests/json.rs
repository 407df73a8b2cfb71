//! A small reader of JSON, written from RFC 8259, and what the command prints with `--json`: whole objects, held to the reference.

use crate::bench::Bench;
use crate::command::{asked, status_of};
use crate::inputs::*;
use crate::logbook::{camera_log, whole_answer, DIFFERS, GOOD};
use crate::names::{letter_of, named, names_of, some_name};
use crate::reference::{self, Late, Task, Verdict, NONE, OVERLOAD};
use crate::remedies::{looked_for, remedies, Remedy};
use std::ffi::OsStr;
use std::os::unix::ffi::OsStrExt;
use std::process::Output;

const TABLES: u64 = 60;
const SHOWN: usize = 100;

/// Numbers are whole, of 64 bits. An object keeps the order of its members.
#[derive(Clone, PartialEq, Debug)]
pub enum Value {
    Null,
    Truth(bool),
    Number(u64),
    Text(String),
    List(Vec<Value>),
    Object(Vec<(String, Value)>),
}

use Value::*;

// The reader. What is left behind the value comes back with it; None: this is no JSON, or has a number that is no whole one.

type Read<'a, T> = Option<(T, &'a str)>;

fn expect<'a>(text: &'a str, word: &str) -> Option<&'a str> {
    text.strip_prefix(word)
}

fn number(text: &str) -> Read<'_, Value> {
    let length = text.find(|letter: char| !letter.is_ascii_digit()).unwrap_or(text.len());
    let digits = &text[..length];
    if digits.is_empty() || (digits.len() > 1 && digits.starts_with('0')) {
        return None;
    }
    Some((Number(digits.parse().ok()?), &text[length..]))
}

fn four_digits(text: &str) -> Read<'_, u32> {
    let digits = text.get(..4).filter(|digits| digits.bytes().all(|byte| byte.is_ascii_hexdigit()))?;
    Some((u32::from_str_radix(digits, 16).ok()?, &text[4..]))
}

/// The digits behind `\u`, and for a letter above U+FFFF a second escape.
fn unicode(text: &str) -> Read<'_, char> {
    let (first, rest) = four_digits(text)?;
    if !(0xD800..0xDC00).contains(&first) {
        return Some((char::from_u32(first)?, rest));
    }
    let (second, rest) = four_digits(expect(rest, "\\u")?)?;
    let low = second.checked_sub(0xDC00).filter(|&low| low < 0x400)?;
    Some((char::from_u32(0x10000 + ((first - 0xD800) << 10) + low)?, rest))
}

fn escaped(text: &str) -> Read<'_, char> {
    let mut letters = text.chars();
    let plain = match letters.next()? {
        letter @ ('"' | '\\' | '/') => letter,
        'n' => '\n',
        't' => '\t',
        'r' => '\r',
        'b' => '\u{8}',
        'f' => '\u{c}',
        'u' => return unicode(&text[1..]),
        _ => return None,
    };
    Some((plain, letters.as_str()))
}

fn string(text: &str) -> Read<'_, String> {
    let (mut rest, mut read) = (expect(text, "\"")?, String::new());
    loop {
        let letter = rest.chars().next()?;
        rest = &rest[letter.len_utf8()..];
        match letter {
            '"' => return Some((read, rest)),
            '\\' => {
                let (plain, after) = escaped(rest)?;
                read.push(plain);
                rest = after;
            }
            _ if letter < ' ' => return None,
            _ => read.push(letter),
        }
    }
}

fn member(text: &str) -> Read<'_, (String, Value)> {
    let (key, rest) = string(text)?;
    let (read, rest) = value(expect(rest, ":")?)?;
    Some(((key, read), rest))
}

/// What stands between brackets, parted by commas, and the text behind the closing one.
fn between<'a, T>(text: &'a str, close: &str, read: impl Fn(&'a str) -> Read<'a, T>) -> Read<'a, Vec<T>> {
    let mut items = Vec::new();
    if let Some(rest) = text.strip_prefix(close) {
        return Some((items, rest));
    }
    let mut rest = text;
    loop {
        let (item, after) = read(rest)?;
        items.push(item);
        match after.strip_prefix(',') {
            Some(next) => rest = next,
            None => return Some((items, expect(after, close)?)),
        }
    }
}

fn value(text: &str) -> Read<'_, Value> {
    match text.chars().next()? {
        '{' => between(&text[1..], "}", member).map(|(members, rest)| (Object(members), rest)),
        '[' => between(&text[1..], "]", value).map(|(items, rest)| (List(items), rest)),
        '"' => string(text).map(|(read, rest)| (Text(read), rest)),
        'n' => Some((Null, expect(text, "null")?)),
        't' => Some((Truth(true), expect(text, "true")?)),
        'f' => Some((Truth(false), expect(text, "false")?)),
        _ => number(text),
    }
}

/// A whole line; blanks are allowed by JSON and not printed by the command.
pub fn read_line(line: &str) -> Option<Value> {
    value(line).filter(|(_, rest)| rest.is_empty()).map(|(read, _)| read)
}

fn reader_itself(bench: &mut Bench) {
    let good = [r#"{"a":[1,2,{}],"b":"\u00e4\"\\","c":null,"d":[],"e":true}"#, "18446744073709551615", r#""""#];
    let bad = [
        "{",
        "[1,]",
        "01",
        "\"a",
        "\"\n\"",
        r#""\x""#,
        r#""\ud800""#,
        "{\"a\"}",
        "tru",
        "1 ",
        "18446744073709551616",
        "-1",
        "{,}",
    ];
    bench.count(good.iter().all(|line| read_line(line).is_some()), || "the reader of JSON refuses what is good".to_string());
    bench.count(bad.iter().all(|line| read_line(line).is_none()), || "the reader of JSON takes what is bad".to_string());
}

// What is expected.

fn text(word: &str) -> Value {
    Text(word.to_string())
}

fn object(members: &[(&str, Value)]) -> Value {
    Object(members.iter().map(|(key, value)| (key.to_string(), value.clone())).collect())
}

fn many(number: impl Into<u64>) -> Value {
    Number(number.into())
}

/// Each byte that is no UTF-8 becomes U+FFFD.
fn name_value(name: &[u8]) -> Value {
    let (mut rest, mut read) = (name, String::new());
    while !rest.is_empty() {
        let (letter, length) = letter_of(rest).unwrap_or(('\u{fffd}', 1));
        read.push(letter);
        rest = &rest[length..];
    }
    if name.is_empty() {
        Null
    } else {
        Text(read)
    }
}

/// A table with names, as it is asked for.
struct Asked {
    tasks: Vec<Task>,
    budget: u64,
    bytes: Vec<u8>,
    names: Vec<Value>,
}

impl Asked {
    fn some(rng: &mut Rng) -> Asked {
        let tasks = near_border(rng);
        let budget = budget_about(rng, &tasks);
        let bytes = named(rng, budget, &tasks);
        let names = names_of(&bytes).iter().map(|name| name_value(name)).collect();
        Asked { tasks, budget, bytes, names }
    }

    fn who(&self, task: usize) -> Vec<(&'static str, Value)> {
        vec![("task", many(task as u64)), ("name", self.names[task].clone())]
    }

    fn with(&self, task: usize, more: &[(&'static str, Value)]) -> Value {
        object(&[self.who(task), more.to_vec()].concat())
    }

    fn job(&self, job: &[u64], amount: &'static str) -> Value {
        self.with(
            job[0] as usize,
            &[("job", many(job[1])), ("release", many(job[2])), ("due", many(job[3])), (amount, many(job[4]))],
        )
    }
}

/// The one line, its object, and the members that every answer begins with.
fn begins(word: &str, status: i32) -> Vec<(&'static str, Value)> {
    vec![("word", text(word)), ("file", text("-")), ("status", many(status as u64)), ("what_if", List(Vec::new()))]
}

fn held(bench: &mut Bench, words: &[&str], bytes: &[u8], status: i32, expected: &[(&str, Value)]) {
    let output = asked(words, bytes);
    let read = one_line(&output);
    let good = read.as_ref() == Some(&object(expected)) && output.status.code() == Some(status);
    bench.count(good, || format!("{words:?} on {:?}: {output:?}, not {expected:?}", String::from_utf8_lossy(bytes)));
}

/// An object that has this member among others.
pub fn held_with(bench: &mut Bench, words: &[&str], bytes: &[u8], status: i32, key: &str, value: &Value) {
    let output = asked(words, bytes);
    let found = match one_line(&output) {
        Some(Object(members)) => members.into_iter().find(|(name, _)| name == key),
        _ => None,
    };
    let good = found.as_ref().map(|(_, found)| found) == Some(value) && output.status.code() == Some(status);
    bench.count(good, || format!("{words:?} on {:?}: {output:?}, not {key} {value:?}", String::from_utf8_lossy(bytes)));
}

fn one_line(output: &Output) -> Option<Value> {
    let line = std::str::from_utf8(&output.stdout).ok()?.strip_suffix('\n')?;
    read_line(line).filter(|_| !line.contains('\n'))
}

fn verdict_word(verdict: &Verdict) -> &'static str {
    match verdict {
        Verdict::Passes(..) => "passes",
        Verdict::Overload => "overload",
        Verdict::Late(..) => "late",
        Verdict::Undecided => "undecided",
    }
}

fn tasks_value(asked: &Asked, verdict: &Verdict) -> Value {
    let row = |(number, task): (usize, &Task)| {
        let mut more = vec![
            ("kind", text("task")),
            ("offset", many(task.offset)),
            ("cost", many(task.cost)),
            ("deadline", many(task.deadline)),
            ("period", many(task.period)),
        ];
        if let Verdict::Passes(worst, _) = verdict {
            more.push(("worst", many(worst[number])));
        }
        asked.with(number, &more)
    };
    List(asked.tasks.iter().enumerate().map(row).collect())
}

fn late_members(asked: &Asked, late: &Late) -> Vec<(&'static str, Value)> {
    let jobs = crate::command::jobs_of(&asked.tasks, late);
    let listed = jobs.iter().take(SHOWN).map(|job| asked.job(job, "cost")).collect();
    let interval = [("from", many(late.start)), ("to", many(late.end)), ("demand", many(late.demand))];
    vec![
        ("interval", object(&interval)),
        ("jobs", List(listed)),
        ("jobs_left", many(jobs.len().saturating_sub(SHOWN) as u64)),
    ]
}

fn quick_value(tasks: &[Task]) -> Value {
    text(if reference::quick(tasks) { "pass" } else { "none" })
}

fn remedies_value(asked: &Asked) -> Value {
    let row = |(task, remedy): (usize, &Remedy)| {
        let mends = remedy.mends.map_or(Null, Number);
        asked.with(task, &[("cost", many(remedy.cost)), ("asked", many(remedy.asked)), ("mends", mends)])
    };
    if looked_for(&asked.tasks) {
        List(remedies(&asked.tasks).iter().enumerate().map(row).collect())
    } else {
        Null
    }
}

fn judged(bench: &mut Bench, asked: &Asked) {
    let (tasks, round) = (&asked.tasks, reference::round(&asked.tasks).unwrap());
    let answer = reference::decide(tasks, asked.budget);
    let status = status_of(&answer.verdict);
    let load = [("asked", many(reference::asked_in_round(tasks, round))), ("round", many(round))];
    let mut expected = begins("judge", status);
    expected.extend([
        ("budget", many(asked.budget)),
        ("load", object(&load)),
        ("quick", quick_value(tasks)),
        ("horizon", many(reference::horizon(tasks, round))),
        ("verdict", text(verdict_word(&answer.verdict))),
        ("settled", many(answer.settled)),
        ("tasks", tasks_value(asked, &answer.verdict)),
    ]);
    match &answer.verdict {
        Verdict::Passes(_, idle) => expected.push(("idle", many(*idle))),
        Verdict::Late(late) => expected.extend(late_members(asked, late)),
        _ => (),
    }
    if status == 3 {
        expected.push(("remedies", remedies_value(asked)));
    }
    held(bench, &["judge", "-", "--json"], &asked.bytes, status, &expected);
}

fn in_short(bench: &mut Bench, asked: &Asked) {
    let tasks = &asked.tasks;
    let status = if reference::quick(tasks) { 0 } else { 4 };
    held(
        bench,
        &["quick", "--json", "-"],
        &asked.bytes,
        status,
        &[begins("quick", status), vec![("quick", quick_value(tasks))]].concat(),
    );
    let (word, status) = [("none", 4), ("pass", 0), ("overload", 3)][reference::by_distance(tasks) as usize];
    let more = vec![("distance", text(word)), ("buttons", many(0_u64))];
    held(bench, &["distance", "--json", "-"], &asked.bytes, status, &[begins("distance", status), more].concat());
}

fn largest(bench: &mut Bench, asked: &Asked) {
    let (tasks, budget) = (&asked.tasks, asked.budget);
    if !(0..tasks.len()).all(|task| triable(budget, tasks, task)) {
        return;
    }
    let verdict = reference::decide(tasks, budget).verdict;
    let row = |task: usize| {
        let (largest, cost) = (reference::largest(tasks, task, budget), u64::from(tasks[task].cost));
        let deadline = many(tasks[task].deadline);
        (largest < OVERLOAD).then(|| {
            asked.with(
                task,
                &[("cost", many(cost)), ("largest", many(largest)), ("more", many(largest - cost)), ("deadline", deadline)],
            )
        })
    };
    let rows = (0..tasks.len()).filter_map(row).collect();
    let more = vec![("verdict", text(verdict_word(&verdict))), ("largest", List(rows))];
    let status = status_of(&verdict);
    held(bench, &["largest", "-", "--json"], &asked.bytes, status, &[begins("largest", status), more].concat());
}

/// A run under these done reports, of which the first is about slot 0: what each task had, and the late jobs, up to the instant behind it.
fn ran(tasks: &[Task], done: &[bool]) -> (Vec<u64>, Vec<Vec<u64>>) {
    let (mut state, mut had, mut late) = (reference::start(tasks), vec![0; tasks.len() + 1], Vec::new());
    for now in 0..=done.len() {
        let next = reference::step(tasks, &state, now > 0 && done[now - 1]).expect("a state of the table");
        for (number, task) in tasks.iter().enumerate().filter(|(number, _)| next.late >> number & 1 == 1) {
            let release = now as u64 - u64::from(task.deadline);
            let job = (release - u64::from(task.offset)) / u64::from(task.period);
            late.push(vec![number as u64, job, release, now as u64, u64::from(state.left[number])]);
        }
        if now < done.len() {
            had[if next.last == NONE { tasks.len() } else { next.last as usize }] += 1;
        }
        state = next;
    }
    (had, late)
}

fn late_listed(asked: &Asked, late: &[Vec<u64>]) -> [(&'static str, Value); 2] {
    let listed = late.iter().take(SHOWN).map(|job| asked.job(job, "missing")).collect();
    [("late", List(listed)), ("late_left", many(late.len().saturating_sub(SHOWN) as u64))]
}

fn run(bench: &mut Bench, rng: &mut Rng, asked: &Asked) {
    let slots = rng.pick(&[1_u64, 20, 300]);
    let (had, late) = ran(&asked.tasks, &vec![false; slots as usize]);
    let status = if late.is_empty() { 0 } else { 3 };
    let given = (0..asked.tasks.len()).map(|task| asked.with(task, &[("slots", many(had[task]))])).collect();
    let mut expected = begins("run", status);
    expected.push(("slots", many(slots)));
    expected.extend(late_listed(asked, &late));
    expected.extend([("given", List(given)), ("empty", many(had[asked.tasks.len()]))]);
    held(bench, &["run", "-", "--json", "--slots", &slots.to_string()], &asked.bytes, status, &expected);
}

/// What the log's last answer says, and how many slots and bytes were read until then.
fn log_members(asked: &Asked, bytes: &[u8], done: &[bool]) -> (i32, Vec<(&'static str, Value)>) {
    let mut log = crate::logbook::Log::start(&asked.tasks);
    bytes.iter().for_each(|&byte| log.read(&asked.tasks, byte));
    log.finish();
    let counts = [("slots", many(log.slots)), ("bytes", many(log.bytes))];
    let (number, place) = whole_answer(&asked.tasks, bytes);
    let owner = |task: Option<u64>| task.map_or(Null, Number);
    match number {
        GOOD => {
            let late = ran(&asked.tasks, done).1;
            let status = if late.is_empty() { 0 } else { 3 };
            (status, [&[("log", text("good"))][..], &counts, &late_listed(asked, &late)].concat())
        }
        DIFFERS => {
            let next = reference::step(&asked.tasks, &log.state, log.done).expect("a state of the table");
            let (went, wanted) =
                (log.opened.then(|| u64::from(bytes[log.bytes as usize])), (next.last != NONE).then_some(next.last.into()));
            let more = [("slot", many(place)), ("went", owner(went)), ("wanted", owner(wanted))];
            (3, [&[("log", text("differs"))][..], &counts, &more].concat())
        }
        _ => (4, [&[("log", text("fault"))][..], &counts, &[("fault", many(number)), ("place", many(place))]].concat()),
    }
}

/// A camera's log, good or with a byte changed.
fn logged(bench: &mut Bench, rng: &mut Rng, asked: &Asked) {
    const LOG: &str = "target/host/json.log";
    let done: Vec<bool> = (0..rng.below(300)).map(|_| rng.chance(10)).collect();
    let mut bytes = camera_log(&asked.tasks, &done);
    bytes.push(19);
    if rng.chance(50) {
        let place = rng.below(bytes.len() as u64) as usize;
        bytes[place] = rng.pick(&[16, 17, 18, 19, 0, 1, 200]);
    }
    std::fs::write(LOG, &bytes).expect("target/host can be written");
    let good = camera_log(&asked.tasks, &done) == bytes[..bytes.len() - 1] && bytes.last() == Some(&19);
    let (status, more) =
        if good || whole_answer(&asked.tasks, &bytes).0 != GOOD { log_members(asked, &bytes, &done) } else { return };
    let mut expected = begins("log", status);
    expected.insert(3, ("log_file", text(LOG)));
    expected.extend(more);
    held(bench, &["log", "-", LOG, "--json"], &asked.bytes, status, &expected);
}

/// What a refused table has: number, place, and of a text the line.
fn refused(bench: &mut Bench, rng: &mut Rng) {
    let mut tasks = of_any_sort(rng);
    spoil(rng, &mut tasks);
    let Err(refusal) = reference::judge(&tasks) else { return };
    let bytes = named(rng, 1_000, &tasks);
    let word = rng.pick(&["judge", "quick", "distance", "largest", "run"]);
    let output = asked(&[word, "-", "--json"], &bytes);
    let Some(Object(members)) = one_line(&output) else { return bench.count(false, || format!("{output:?} is no JSON")) };
    let told = members.iter().find(|(key, _)| key == "refused").map(|(_, told)| told.clone());
    let Some(Object(told)) = told else { return bench.count(false, || format!("{output:?} has no refusal")) };
    let begins = [("file", text("-")), ("number", many(refusal.number)), ("place", many(refusal.place))];
    let good = begins.iter().zip(&told).all(|((key, value), told)| *key == told.0 && *value == told.1);
    bench.count(good && output.status.code() == Some(2), || format!("{word} on {bytes:?}: {output:?}"));
}

/// A name that a file may have, as it is named in the object.
fn odd_files(bench: &mut Bench, rng: &mut Rng) {
    let name: Vec<u8> = some_name(rng).into_iter().filter(|byte| ![0, b'/'].contains(byte)).take(100).collect();
    let path = [b"target/host/none-", &name[..]].concat();
    let mut command = crate::program(crate::command::COMMAND);
    command.arg("judge").arg("--json").arg(OsStr::from_bytes(&path));
    let output = command.output().expect("the command starts");
    let good = match one_line(&output) {
        Some(Object(members)) => members[1] == ("file".to_string(), name_value(&path)) && members[2].1 == many(1_u64),
        _ => false,
    };
    bench.count(good && output.status.code() == Some(1), || format!("a file of name {name:?}: {output:?}"));
}

pub fn at_random(bench: &mut Bench, rng: &mut Rng) {
    reader_itself(bench);
    for _ in 0..TABLES {
        let asked = Asked::some(rng);
        judged(bench, &asked);
        in_short(bench, &asked);
        largest(bench, &asked);
        run(bench, rng, &asked);
        logged(bench, rng, &asked);
        refused(bench, rng);
        odd_files(bench, rng);
    }
    bench.end_group("JSON of the command");
}
