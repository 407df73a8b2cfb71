//! The command of docs/COMMAND.md: a stored transcript, also under sanitizers, and what it says of random tables.

use crate::bench::Bench;
use crate::document::B;
use crate::easing;
use crate::inputs::*;
use crate::judge::fed;
use crate::plain;
use crate::program;
use crate::reference::{self, Late, State, Task, Verdict, NONE, OVERLOAD, UNDECIDED};
use std::path::Path;
use std::process::{Command, Output, Stdio};

pub const COMMAND: &str = "target/host/yolizadwa";
pub const SANITIZED: &str = "target/host/yolizadwa-sanitized";
const STORED: &str = "command/expected";
const TABLES: u64 = 60;
const PRESSED: u64 = 20;
const REFUSED: u64 = 60;
const JUNK: u64 = 40;
const JOBS_SHOWN: usize = 100;
/// The slots of a block in 80 columns.
const BLOCK: usize = 35;

// The transcript: its lines after `$ ` are run by a shell, and all that they say must be what stands there.

/// Leaks are not looked for: a process that ends has none, and the search takes seconds on some machines.
pub fn sanitized(command: &mut Command) -> &mut Command {
    command.env("BRIDGE", "target/host/bridge").env("ASAN_OPTIONS", "detect_leaks=0")
}

fn emulated(path: &str) -> String {
    format!("{} {path}", std::env::var("EMULATOR").unwrap_or_default())
}

fn spoken(program: &str, line: &str) -> String {
    let script = "exec 2>&1; yolizadwa() { $PROGRAM \"$@\"; }; eval \"$1\"";
    let mut shell = Command::new("sh");
    shell.args(["-c", script, "sh", line]).env_remove("COLUMNS").env("LC_ALL", "C").stdin(Stdio::null());
    let output = sanitized(&mut shell).env("PROGRAM", program).output().expect("sh starts");
    let status = output.status.code().map_or("no status".to_string(), |code| format!("status {code}"));
    format!("$ {line}\n{}{status}\n", String::from_utf8_lossy(&output.stdout))
}

/// What was said stays in a file, to be looked at or, once judged right, stored.
fn transcript(bench: &mut Bench, program: &str, written: &str) {
    let stored = std::fs::read_to_string(STORED).unwrap_or_default();
    let parts: Vec<&str> = stored.split_inclusive('\n').collect();
    let begins: Vec<usize> = (0..parts.len()).filter(|&at| parts[at].starts_with("$ ")).collect();
    let mut told = String::new();
    for (place, &begin) in begins.iter().enumerate() {
        let end = begins.get(place + 1).map_or(parts.len(), |&next| next);
        let said = spoken(program, parts[begin][2..].trim_end());
        bench.count(said == parts[begin..end].concat(), || format!("{written} is not {STORED} at {}", parts[begin]));
        told += &said;
    }
    bench.count(!begins.is_empty(), || format!("{STORED} is empty"));
    std::fs::write(written, told).expect("target/host can be written");
}

pub fn by_hand(bench: &mut Bench) {
    transcript(bench, &emulated(COMMAND), "target/host/command.written");
    bench.end_group("the command, by hand");
    if Path::new(SANITIZED).exists() {
        transcript(bench, SANITIZED, "target/host/command.sanitized");
        bench.end_group("the command, by hand, under sanitizers");
    }
}

// The launcher: from another folder, through a link (which goes again, since rt refuses links), twice at once with nothing built, and once built without the kit.

const LAUNCHED: &str = "cd tables && ln -sf ../../yolizadwa ../target/host/link && rm -f ../target/command/yolizadwa
    ../target/host/link judge b.txt >../target/host/one & ../yolizadwa judge b.table >../target/host/other
    wait && cmp ../target/host/one ../target/host/other && ../yolizadwa --version
    if [ $(uname -m) = x86_64 ]; then PATH=/usr/bin:/bin ../yolizadwa judge b.txt | cmp - ../target/host/one || exit 9; fi
    rm -f ../target/host/link
    ../yolizadwa judge c.txt; test $? -eq 3";

pub fn launched(bench: &mut Bench) {
    let output = Command::new("sh").args(["-c", LAUNCHED]).output().expect("sh starts");
    let good = output.status.success() && said(&output).starts_with("yolizadwa 0.2\nbuilt with ");
    bench.count(good, || format!("the launcher: {output:?}"));
    let report = std::fs::read_to_string("target/host/one").unwrap_or_default();
    bench.count(report == reference::report(&table_of(B), 1_000), || format!("the launcher judges b: {report}"));
    bench.end_group("the launcher");
}

// Random tables.

pub fn asked(words: &[&str], input: &[u8]) -> Output {
    let mut command = program(COMMAND);
    command.args(words).env_remove("COLUMNS");
    fed(command, input)
}

pub fn said(output: &Output) -> String {
    String::from_utf8_lossy(&output.stdout).to_string()
}

fn canonical(budget: u64, tasks: &[Task]) -> String {
    String::from_utf8(plain::text_of(budget, tasks)).expect("a text")
}

/// The same table with comments, blanks and empty lines, and without names; and on which line each task stands.
fn noisy(rng: &mut Rng, budget: u64, tasks: &[Task]) -> (String, Vec<usize>) {
    let (mut text, mut places) = (String::new(), Vec::new());
    for line in canonical(budget, tasks).lines() {
        text += rng.pick(&["", "", "\n", "# task 1 2 3\n", " \t\r\n\n"]);
        places.push(text.matches('\n').count() + 1);
        text += &line.replace(' ', rng.pick(&[" ", "\t", "   "]));
        text += rng.pick(&["\n", " # \t\n", "#\r\n", "\r\n", " \n"]);
    }
    (text, places.split_off(1))
}

/// The rows of five numbers under the heading of a list of jobs.
pub fn jobs_listed(text: &str) -> Vec<Vec<u64>> {
    let rows = text.lines().skip_while(|line| !line.starts_with("  task")).skip(1);
    let numbers = |line: &str| line.split_whitespace().map(|word| word.parse().ok()).collect::<Option<Vec<u64>>>();
    rows.map_while(numbers).filter(|row| row.len() == 5).collect()
}

/// By the definition: task, job, release, due and cost of each job of the interval.
pub fn jobs_of(tasks: &[Task], late: &Late) -> Vec<Vec<u64>> {
    let mut jobs = Vec::new();
    for (number, task) in tasks.iter().enumerate() {
        let release = |job: u64| u64::from(task.offset) + job * u64::from(task.period);
        for job in (0..).take_while(|&job| release(job) < late.end) {
            let due = release(job) + u64::from(task.deadline);
            if release(job) >= late.start && due <= late.end {
                jobs.push(vec![number as u64, job, release(job), due, u64::from(task.cost)]);
            }
        }
    }
    jobs.sort_by_key(|job| (job[2], job[0]));
    jobs
}

pub fn status_of(verdict: &Verdict) -> i32 {
    match verdict {
        Verdict::Passes(..) => 0,
        Verdict::Overload | Verdict::Late(_) => 3,
        Verdict::Undecided => 4,
    }
}

fn judged(bench: &mut Bench, tasks: &[Task], budget: u64, input: &[u8]) {
    let output = asked(&["judge", "-"], input);
    let (text, verdict) = (said(&output), reference::decide(tasks, budget).verdict);
    let mut good = text.starts_with(&reference::report(tasks, budget)) && output.status.code() == Some(status_of(&verdict));
    if let Verdict::Late(late) = verdict {
        let jobs = jobs_of(tasks, &late);
        good &= jobs.iter().map(|job| job[4]).sum::<u64>() == late.demand;
        good &= jobs_listed(&text) == jobs[..jobs.len().min(JOBS_SHOWN)];
    }
    bench.count(good, || format!("judge on {tasks:?} and budget {budget}: {text}"));
}

/// A run by the reference: of each task the instants and slots in turn, and the jobs that were late; of each task and of none the
/// slots that it had.
struct Run {
    rows: Vec<String>,
    late: Vec<Vec<u64>>,
    had: Vec<u64>,
}

fn mark(task: &Task, now: u64, late: bool) -> char {
    let on = |first: u32| (u64::from(first)..=now).step_by(task.period as usize).last() == Some(now);
    match (late, on(task.offset), on(task.offset + task.deadline)) {
        (true, ..) => '!',
        (_, true, true) => '|',
        (_, true, _) => '[',
        (_, _, true) => ']',
        _ => ' ',
    }
}

impl Run {
    fn draw(&mut self, tasks: &[Task], now: u64, before: &State, after: &State) {
        for (number, task) in tasks.iter().enumerate() {
            let late = after.late >> number & 1 == 1;
            let slot = if after.last as usize == number { '#' } else { [' ', '.'][(after.left[number] > 0) as usize] };
            self.rows[number].extend([mark(task, now, late), slot]);
            if late {
                let release = now - u64::from(task.deadline);
                let job = (release - u64::from(task.offset)) / u64::from(task.period);
                self.late.push(vec![number as u64, job, release, now, u64::from(before.left[number])]);
            }
        }
    }

    fn of(tasks: &[Task], slots: u64, early: bool) -> Run {
        let mut run = Run { rows: vec![String::new(); tasks.len()], late: Vec::new(), had: vec![0; tasks.len() + 1] };
        let (mut state, mut done) = (reference::start(tasks), false);
        for now in 0..=slots {
            let next = reference::step(tasks, &state, done).expect("a state of the table");
            run.draw(tasks, now, &state, &next);
            let last = next.last as usize;
            run.had[last.min(tasks.len())] += (now < slots) as u64;
            done = early && next.last != NONE && 2 * (tasks[last].cost - next.left[last]) >= tasks[last].cost;
            state = next;
        }
        for row in &mut run.rows {
            row.pop();
            row.truncate(row.trim_end().len());
        }
        run
    }
}

/// The blocks of a chart put together, one row for each task.
pub fn rows_of(text: &str, tasks: usize) -> Vec<String> {
    let mut rows = vec![String::new(); tasks];
    let mut blocks = 0;
    for line in text.lines().take_while(|line| !line.starts_with("# ")) {
        blocks += line.starts_with("slot ") as usize;
        if let Some(rest) = line.strip_prefix("task ") {
            let (number, cells) = rest.split_at(rest.len().min(3));
            let row = &mut rows[number.trim().parse::<usize>().expect("a task")];
            *row = format!("{row:<width$}{cells}", width = 2 * BLOCK * (blocks - 1));
        }
    }
    rows.iter().map(|row| row.trim_end().to_string()).collect()
}

/// The accounts at the end: whose, how many slots, and their share in percent, rounded to tenths.
pub fn accounts_of(had: &[u64], slots: u64) -> Vec<String> {
    let headings = [format!("who had the slots, {slots} in all:"), "task slots share".to_string()];
    let names = (0..had.len() - 1).map(|task| task.to_string()).chain(["empty".to_string()]);
    let row = |(name, had): (String, &u64)| {
        let tenths = (2_000 * had + slots) / (2 * slots);
        format!("{name} {had} {}.{} %", tenths / 10, tenths % 10)
    };
    headings.into_iter().chain(names.zip(had).map(row)).collect()
}

/// The lines from the accounts on, with one blank between words.
pub fn accounts_told(text: &str) -> Vec<String> {
    let lines = text.lines().skip_while(|line| !line.starts_with("who had "));
    lines.map(|line| line.split_whitespace().collect::<Vec<_>>().join(" ")).collect()
}

fn charted(bench: &mut Bench, rng: &mut Rng, tasks: &[Task], input: &[u8]) {
    let (slots, early) = (rng.pick(&[1_u64, 34, 35, 36, 70, 100, 211]), rng.chance(30));
    let number = slots.to_string();
    let words = ["run", "-", "--slots", &number, "--early"];
    let output = asked(&words[..4 + early as usize], input);
    let (text, run) = (said(&output), Run::of(tasks, slots, early));
    let status = if run.late.is_empty() { 0 } else { 3 };
    let good = rows_of(&text, tasks.len()) == run.rows && jobs_listed(&text) == run.late[..run.late.len().min(JOBS_SHOWN)];
    let good = good && accounts_told(&text) == accounts_of(&run.had, slots);
    bench.count(good && output.status.code() == Some(status), || format!("run of {slots} slots on {tasks:?}:\n{text}"));
}

fn quickly(bench: &mut Bench, tasks: &[Task], input: &[u8]) {
    let output = asked(&["quick", "-"], input);
    let (words, status) = if reference::quick(tasks) { ("quick pass\n", 0) } else { ("quick none\n", 4) };
    let good = said(&output).starts_with(words) && output.status.code() == Some(status);
    bench.count(good, || format!("quick on {tasks:?}: {output:?}"));
}

fn by_distance(bench: &mut Bench, tasks: &[Task], input: &[u8]) {
    let output = asked(&["distance", "-"], input);
    let (word, status) = [("none", 4), ("pass", 0), ("overload", 3)][reference::by_distance(tasks) as usize];
    let good = said(&output).starts_with(&format!("distance {word}\n")) && output.status.code() == Some(status);
    let good = good && !said(&output).contains("button");
    bench.count(good, || format!("distance on {tasks:?}: {output:?}"));
}

/// Every word for tables without buttons names the first one, of a text the line on which it stands, and the words for it.
fn has_a_button(bench: &mut Bench, tasks: &[Task], text: &str, places: &[usize], file: &[u8]) {
    let first = tasks.iter().position(|task| task.button).unwrap();
    let begins = format!("refused 11 at {first}: task {first} is a button, and ");
    let line = format!("\nstandard input:{}: ", places[first]);
    for words in [
        &["judge", "-"][..],
        &["quick", "-"],
        &["eased", "-", "tables/b.txt"],
        &["log", "-", "logs/README.md"],
    ] {
        for (input, shown) in [(text.as_bytes(), true), (file, false)] {
            let output = asked(words, input);
            let told = said(&output);
            let can = format!("\nthe test for it is: yolizadwa distance -\nand its slots are shown by: yolizadwa run - --press {first}@0\n");
            let good = told.starts_with(&begins) && told.contains(&line) == shown && told.contains(&can);
            bench.count(good && output.status.code() == Some(2), || format!("{words:?} on {tasks:?}: {output:?}"));
        }
    }
}

/// Of a table with a button: costs that are sure, by an independent distance test of every cost.
fn sure_costs(bench: &mut Bench, tasks: &[Task], input: &[u8]) {
    if !(0..tasks.len()).all(|task| room_triable(tasks, task)) {
        return;
    }
    let (begins, status) = match reference::room(tasks, 0) {
        60_001 => ("largest overload\n\noverload: ".to_string(), 3),
        60_003 => ("largest none\n\nnone: ".to_string(), 4),
        _ => (sure_rows(tasks) + "\nthe distance test passes, and still does with ", 0),
    };
    let output = asked(&["largest", "-"], input);
    let good = said(&output).starts_with(&begins) && output.status.code() == Some(status);
    bench.count(good, || format!("largest on {tasks:?}: {output:?}, not {begins}"));
}

fn sure_rows(tasks: &[Task]) -> String {
    let mut text = "  task   cost  largest   more  deadline\n".to_string();
    for (number, Task { cost, deadline, .. }) in tasks.iter().enumerate() {
        let room = reference::room(tasks, number);
        text += &format!("  {number:>4}  {cost:>5}  {room:>7}  {:>5}  {deadline:>8}\n", room - u64::from(*cost));
    }
    text
}

fn pressed(bench: &mut Bench, rng: &mut Rng) {
    let mut tasks = near_border(rng);
    make_buttons(rng, &mut tasks);
    let budget = budget_about(rng, &tasks);
    let ((text, places), file) = (noisy(rng, budget, &tasks), file_of(budget, &tasks));
    has_a_button(bench, &tasks, &text, &places, &file);
    sure_costs(bench, &tasks, &file);
    made_and_shown(bench, &tasks, budget, &text);
}

/// All that is said of an easing: what it means, and what became of each old task.
fn easing_text(old: &[Task], new: &[Task], kept: &[usize]) -> String {
    let mut text = "eased yes\n\nyes: if the old table passes, so does the new one with any budget that reaches its horizon, and needs no new test\n".to_string();
    let lowered = old.iter().zip(new).any(|(was, is)| was.cost != is.cost);
    if old.len() == new.len() && lowered && old.iter().zip(new).all(|(was, is)| was.deadline == is.deadline) {
        text += "with costs alone lowered no worst response grows\n";
    }
    for (then, was) in old.iter().enumerate() {
        let Some(now) = kept.iter().position(|&task| task == then) else {
            text += &format!("old task {then} is left out\n");
            continue;
        };
        let numbers = [("cost", was.cost, new[now].cost), ("deadline", was.deadline, new[now].deadline)];
        let changed =
            numbers.iter().filter(|(_, was, is)| was != is).map(|(name, was, is)| format!(" {name} {was} -> {is}"));
        let changes = changed.collect::<Vec<_>>().join(",");
        text += &format!("task {now} was old task {then}:{}\n", if changes.is_empty() { " unchanged" } else { &changes });
    }
    text
}

/// Whether the old task of the same number is looked at: it stands behind those of the new tasks before, and is no other for certain.
fn at_its_place(old: &[Task], new: &[Task], task: usize) -> bool {
    let from = reference::eased(old, &new[..task]).ok().and_then(|kept| kept.last().map(|last| last + 1)).unwrap_or(0);
    (from..old.len()).contains(&task) && (old.len() == new.len() || old[task].period == new[task].period)
}

/// Whether the number that is said to stand in the way is that of both tasks, and does; true where no number is told.
fn in_the_way(text: &str, old: &[Task], new: &[Task], task: usize) -> bool {
    let is = &new[task];
    let Some((who, rest)) = text.split_once("\nold task ").and_then(|(_, rest)| rest.split_once(": ")) else {
        return !at_its_place(old, new, task);
    };
    let (number, why) = who.split_once(' ').unwrap_or((who, ""));
    let own = at_its_place(old, new, task);
    if own != (why == "stands at its place") || (own && number != task.to_string()) {
        return false;
    }
    let words: Vec<&str> = rest.split([' ', ',']).collect();
    let (was, told) =
        (&old[number.parse::<usize>().unwrap()], [1, 3].map(|place: usize| words[place].parse::<u32>().unwrap()));
    match words[0] {
        "period" => told == [was.period, is.period] && was.period != is.period,
        "offset" => told == [was.offset, is.offset] && was.offset != is.offset,
        "cost" => told == [was.cost, is.cost] && was.cost < is.cost,
        _ => words[0] == "deadline" && told == [was.deadline, is.deadline] && was.deadline > is.deadline,
    }
}

/// The old table on standard input, the new one in a file.
fn compared(bench: &mut Bench, old: &[Task], new: &[Task], input: &[u8]) {
    const NEW: &str = "target/host/new.table";
    std::fs::write(NEW, file_of(1, new)).expect("target/host can be written");
    let output = asked(&["eased", "-", NEW], input);
    let (text, told) = (said(&output), reference::eased(old, new));
    let good = match &told {
        Ok(kept) => text == easing_text(old, new, kept),
        Err(task) => {
            let begins = format!(
                "eased no\n\nno: task {task} is no old task made easier, so the new table needs a test: judge tells\n"
            );
            text.starts_with(&begins) && in_the_way(&text, old, new, *task)
        }
    };
    let status = if told.is_ok() { 0 } else { 4 };
    bench.count(good && output.status.code() == Some(status), || format!("eased on {old:?} and {new:?}: {output:?}"));
}

/// All that is said where the table does not pass, and the status.
fn no_largest_text(tasks: &[Task], budget: u64, told: u64) -> (String, i32) {
    let horizon = reference::horizon(tasks, reference::round(tasks).unwrap());
    let late = "late: the table does not pass as it is, so no cost can grow; judge tells which jobs ask for too much, and\nwhich cost mends it";
    let overload =
        "overload: the table does not pass as it is: more slots are asked for than there are, so no cost can grow;\njudge tells what each task asks for and which cost mends it";
    let ended = format!("undecided: the budget, {budget}, ended before it was known whether the table passes;");
    match told {
        OVERLOAD => (format!("largest overload\n\n{overload}\n"), 3),
        UNDECIDED => (format!("largest undecided\n\n{ended} the horizon, {horizon}, is\nalways enough\n"), 4),
        _ => (format!("largest late\n\n{late}\n"), 3),
    }
}

/// All that is said of the largest costs of some tasks.
fn largest_text(tasks: &[Task], budget: u64, asked: std::ops::Range<usize>) -> (String, i32) {
    let first = reference::largest(tasks, asked.start, budget);
    if first >= OVERLOAD {
        return no_largest_text(tasks, budget, first);
    }
    let mut text = "  task   cost  largest   more  deadline\n".to_string();
    let which = if asked.len() == 1 { "this cost" } else { "any one cost" };
    let raised = format!(
        "{which} at its largest, and with no larger one up to its deadline{}",
        if asked.len() == 1 { "" } else { "; with two it may not" }
    );
    for number in asked {
        let (Task { cost, deadline, .. }, largest) = (tasks[number], reference::largest(tasks, number, budget));
        text += &format!("  {number:>4}  {cost:>5}  {largest:>7}  {:>5}  {deadline:>8}\n", largest - u64::from(cost));
    }
    (text + &format!("\nthe table passes, and still does with {raised}\n"), 0)
}

fn no_task_text(tasks: usize, asked: usize) -> String {
    let all = if tasks == 1 {
        "its one task is task 0".to_string()
    } else {
        format!("its tasks are numbered from 0 to {}", tasks - 1)
    };
    format!("refused 12 at {asked}: the table has no task {asked}; {all}\n")
}

/// Of every task, of one, or of one that the table does not have.
fn lens_taken(bench: &mut Bench, rng: &mut Rng, tasks: &[Task], budget: u64, input: &[u8]) {
    let one = if rng.chance(50) { Some(rng.below(tasks.len() as u64 + 1) as usize) } else { None };
    let rows = one.map_or(0..tasks.len(), |task| task..task + 1);
    if !rows.clone().all(|task| triable(budget, tasks, task)) {
        return;
    }
    let number = one.map_or(String::new(), |task| task.to_string());
    let output = asked(&["largest", "-", &number][..2 + one.is_some() as usize], input);
    let (text, status) = match one {
        Some(task) if task == tasks.len() => (no_task_text(tasks.len(), task), 2),
        _ => largest_text(tasks, budget, rows),
    };
    let good = said(&output) == text && output.status.code() == Some(status);
    bench.count(good, || format!("largest {number} on {tasks:?} and budget {budget}: {output:?}, not {text}"));
}

fn made_and_shown(bench: &mut Bench, tasks: &[Task], budget: u64, text: &str) {
    let made = asked(&["make", "-", "-"], text.as_bytes());
    let file = file_of(budget, tasks);
    bench.count(made.status.code() == Some(0) && made.stdout == file, || format!("make of {text}: {made:?}"));
    let shown = asked(&["show", "-"], &file);
    let good = shown.status.code() == Some(0) && said(&shown) == canonical(budget, tasks);
    bench.count(good, || format!("show of {file:?}: {shown:?}"));
}

/// The refusal's number and place, and the line on which the task stands.
fn refused(bench: &mut Bench, rng: &mut Rng) {
    let mut tasks = of_any_sort(rng);
    spoil(rng, &mut tasks);
    let (text, places) = noisy(rng, 1_000, &tasks);
    if let Err(refusal) = reference::judge(&tasks) {
        let output = asked(&["judge", "-"], text.as_bytes());
        let mut told = said(&output).starts_with(&format!("refused {} at {}: ", refusal.number, refusal.place));
        if (3..=6).contains(&refusal.number) {
            let (place, sort) = (refusal.place as usize, ["task", "button"][tasks[refusal.place as usize].button as usize]);
            told &= said(&output).contains(&format!("\nstandard input:{}: {sort} ", places[place]));
        }
        bench.count(told && output.status.code() == Some(2), || format!("judge of {text}: {output:?}"));
    }
}

pub fn at_random(bench: &mut Bench, rng: &mut Rng) {
    for _ in 0..TABLES {
        let tasks = near_border(rng);
        let budget = budget_about(rng, &tasks);
        let (text, _) = noisy(rng, budget, &tasks);
        let file = file_of(budget, &tasks);
        let (one, other) = if rng.chance(50) { (text.as_bytes(), &file[..]) } else { (&file[..], text.as_bytes()) };
        judged(bench, &tasks, budget, one);
        quickly(bench, &tasks, other);
        by_distance(bench, &tasks, one);
        charted(bench, rng, &tasks, other);
        let new = easing::changed(rng, &tasks);
        if reference::judge(&new).is_ok() {
            compared(bench, &tasks, &new, one);
        }
        lens_taken(bench, rng, &tasks, budget, other);
        made_and_shown(bench, &tasks, budget, &text);
    }
    (0..PRESSED).for_each(|_| pressed(bench, rng));
    (0..REFUSED).for_each(|_| refused(bench, rng));
    bench.end_group("the command, at random");
}

/// A text or a file with some bytes changed.
fn junk(rng: &mut Rng) -> Vec<u8> {
    let mut tasks = near_border(rng);
    if rng.chance(40) {
        make_buttons(rng, &mut tasks);
    }
    let text = noisy(rng, 1_000, &tasks).0.into_bytes();
    let mut bytes = if rng.chance(70) { text } else { file_of(1_000, &tasks) };
    damage(rng, &mut bytes);
    bytes
}

/// Under sanitizers a fault ends the command with another status than its own, and says so.
pub fn junk_under_sanitizers(bench: &mut Bench, rng: &mut Rng) {
    if !Path::new(SANITIZED).exists() {
        return;
    }
    for input in (0..JUNK).map(|_| junk(rng)).collect::<Vec<_>>().into_iter().filter(|input| affordable(input)) {
        let mut command = Command::new(SANITIZED);
        let words = rng.pick(&[
            &["judge"][..],
            &["judge", "--json"],
            &["judge", "--set=0.cost=1", "--budget=50"],
            &["show"],
            &["run"],
            &["run", "--json"],
            &["largest"],
            &["distance", "--json"],
            &["distance"],
            &["eased", "tables/b.txt"],
            &["draw"],
            &["draw", "--press=0@3,3,90,40,7"],
            &["run", "--press=0@3,3,90,40,7"],
            &["page"],
        ]);
        sanitized(&mut command).args(words).arg("-");
        let output = fed(command, &input);
        let quiet = !String::from_utf8_lossy(&output.stderr).contains("anitizer");
        let known = output.status.code().map_or(false, |code| code <= 4);
        bench.count(quiet && known, || format!("{input:?} under sanitizers: {output:?}"));
    }
    bench.end_group("the command on junk, under sanitizers");
}
