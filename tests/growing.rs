//! The command asks with budgets that grow: what it says is what one check by the file's own budget says. On a terminal it shows how far it
//! is, elsewhere nothing, and Ctrl-C ends it at once.

use crate::bench::Bench;
use crate::calls::Request;
use crate::command::{sanitized, COMMAND, SANITIZED};
use crate::inputs::*;
use crate::judge::fed;
use crate::plain;
use crate::program;
use crate::reference::{self, periodic, Task};
use std::ffi::{c_char, CStr};
use std::fs::File;
use std::io::{Read, Write};
use std::os::fd::FromRawFd;
use std::os::unix::fs::OpenOptionsExt;
use std::os::unix::process::CommandExt;
use std::path::Path;
use std::process::{Child, Command, Output, Stdio};
use std::time::{Duration, Instant};

const TABLES: u64 = 60;
const SANITIZED_TABLES: u64 = 6;
/// Slots that the plain engine walks in a moment.
const SHORT: u64 = 400_000;

fn command_of(path: &str) -> Command {
    if path == COMMAND {
        return program(path);
    }
    let mut command = Command::new(path);
    sanitized(&mut command);
    command
}

// The answers.

/// Two tasks that meet after many turns of each, where one is late if it cannot wait; or never meet; some ask for too much.
fn meeting(rng: &mut Rng) -> Vec<Task> {
    let longest = rng.pick(&[120, 400, 1_900]);
    let (apart, waits, heavy) = (rng.chance(30), rng.chance(20), rng.chance(10));
    let mut task = |turn: u32| {
        let period = 2 * rng.range(25, longest / 2) + u32::from(!apart && turn == 1);
        let cost = if heavy { period } else { 1 };
        periodic(2 * rng.range(0, 100) + turn, cost, cost.max(1 + u32::from(waits)), period)
    };
    vec![task(0), task(1)]
}

/// About the slots that the table needs, and about the smaller budgets that are tried before.
fn some_budget(rng: &mut Rng, needed: u64) -> u64 {
    let part = needed >> rng.pick(&[0, 3, 6]);
    let about = [part.saturating_sub(1), part, part + 1, u64::MAX, u64::MAX, rng.below(needed + 1)];
    rng.pick(&about).max(1)
}

/// What stands first in the report of one check, and the status that goes with it.
fn told_at_once(bench: &mut Bench, file: &[u8]) -> (String, i32) {
    let reply = &bench.answer(&[Request::check(file.to_vec())])[0];
    if reply.result >= 65_536 {
        return (format!("refused {} at {}: ", reply.result / 65_536, reply.result % 65_536), 2);
    }
    let report = String::from_utf8(reply.written()).expect("a text");
    let status = match report.split("\nverdict ").nth(1).and_then(|rest| rest.split('\n').next()) {
        Some("passes") => 0,
        Some("undecided") => 4,
        _ => 3,
    };
    (report, status)
}

fn said(output: &Output) -> String {
    String::from_utf8_lossy(&output.stdout).to_string()
}

/// The report is the same byte for byte, and of an undecided table the words name the file's own budget.
fn judged(bench: &mut Bench, path: &str, words: &[&str], budget: u64, file: &[u8]) -> i32 {
    let (begins, status) = told_at_once(bench, file);
    let mut command = command_of(path);
    command.args(words).arg("-");
    let output = fed(command, file);
    let mut good = output.status.code() == Some(status);
    if words[0] == "judge" {
        let (text, ended) = (said(&output), format!("\nundecided: the budget, {budget}, ended "));
        good &= text.starts_with(&begins) && output.stderr.is_empty();
        good &= status != 0 || text == begins;
        good &= text.contains(&ended) == (status == 4);
    }
    bench.count(good, || format!("{path} {words:?} on {file:?}: {output:?}, not {status} and {begins}"));
    status
}

/// Tells the status of judge.
fn asked_in_all_ways(bench: &mut Bench, path: &str, tasks: &[Task], budget: u64) -> i32 {
    let file = file_of(budget, tasks);
    let status = judged(bench, path, &["judge"], budget, &file);
    judged(bench, path, &["draw"], budget, &file);
    if reference::round(tasks).map_or(true, |round| reference::horizon(tasks, round).min(budget) <= SHORT) {
        judged(bench, path, &["judge", "--plainly"], budget, &file);
    }
    status
}

fn tables_of(bench: &mut Bench, rng: &mut Rng, path: &str, count: u64) -> [u64; 5] {
    let mut told = [0; 5];
    for turn in 0..count {
        let mut tasks = meeting(rng);
        let report = told_at_once(bench, &file_of(u64::MAX, &tasks)).0;
        let needed = report.split("\nsettled ").nth(1).and_then(|rest| rest.split('\n').next()?.parse().ok()).unwrap_or(0);
        let budget = some_budget(rng, needed);
        while turn % 12 == 5 && reference::judge(&tasks).is_ok() {
            spoil(rng, &mut tasks);
        }
        told[asked_in_all_ways(bench, path, &tasks, budget) as usize] += 1;
    }
    told
}

/// Long rounds, so that there are some smaller budgets to be tried first.
pub fn same_answers(bench: &mut Bench, rng: &mut Rng) {
    let [passes, _, refused, late, undecided] = tables_of(bench, rng, COMMAND, TABLES);
    println!("with growing budgets: {passes} pass, {late} are late or overloaded, {undecided} undecided, {refused} refused");
    let each = passes.min(late).min(undecided).min(refused) >= TABLES / 20;
    bench.count(each, || format!("{passes} pass, {late} late, {undecided} undecided, {refused} refused"));
    if Path::new(SANITIZED).exists() {
        tables_of(bench, rng, SANITIZED, SANITIZED_TABLES);
    }
    bench.end_group("the command's answers with growing budgets");
}

// A long check, on a terminal and elsewhere, to its end and stopped.

extern "C" {
    fn kill(process: i32, signal: i32) -> i32;
    fn signal(signal: i32, handler: usize) -> usize;
    fn posix_openpt(flags: i32) -> i32;
    fn grantpt(terminal: i32) -> i32;
    fn unlockpt(terminal: i32) -> i32;
    fn ptsname(terminal: i32) -> *const c_char;
}

const SIGINT: i32 = 2;
const TAKEN: usize = 0;
const IGNORED: usize = 1;
/// To read and to write, for this process alone, and without becoming anybody's controlling terminal.
const OPENED: i32 = 0o2_000_402;
const NOT_CONTROLLING: i32 = 0o400;
/// Longer than it takes until a terminal is told.
const WHILE: Duration = Duration::from_millis(700);
const AT_ONCE: Duration = Duration::from_millis(900);

/// Slot by slot they take seconds.
const FAR: &[(u32, u32, u32, u32)] = &[(0, 1, 31_622, 31_622), (0, 1, 31_623, 31_623)];
const FAR_HORIZON: u64 = 1_999_965_012;
const PLAINLY: &[&str] = &["judge", "--plainly", "-"];
/// The quick test alone takes most of a minute.
const HARD: &[(u32, u32, u32, u32)] = &[
    (0, 32, 1582, 1582),
    (0, 194, 1582, 1582),
    (0, 39, 1526, 1526),
    (0, 179, 1513, 1526),
    (0, 3, 70, 70),
    (0, 7, 69, 70),
    (0, 14, 985, 1022),
    (0, 132, 1022, 1022),
    (0, 12, 406, 406),
    (0, 46, 403, 406),
    (0, 5, 182, 182),
    (0, 21, 182, 182),
    (0, 21, 253, 266),
    (0, 17, 266, 266),
];

/// So many comments that they do not fit into a pipe: once they are written, the command reads, and is ready for Ctrl-C.
fn long_text(budget: u64, rows: &[(u32, u32, u32, u32)]) -> Vec<u8> {
    [plain::text_of(budget, &table_of(rows)), b"#\n".repeat(100_000)].concat()
}

/// Whoever runs the tests may have let Ctrl-C be ignored, which is handed on.
fn begun(path: &str, words: &[&str], text: &[u8], errors: Stdio, interrupts: usize) -> Child {
    let mut command = command_of(path);
    command.args(words).stdin(Stdio::piped()).stdout(Stdio::piped()).stderr(errors);
    unsafe {
        command.pre_exec(move || {
            signal(SIGINT, interrupts);
            Ok(())
        })
    };
    let mut child = command.spawn().expect("the command starts");
    let _ = child.stdin.take().unwrap().write_all(text);
    child
}

fn interrupt(child: &Child) {
    unsafe { kill(child.id() as i32, SIGINT) };
}

/// What it said, and whether it ended at once with its status and without an answer.
fn stopped(mut child: Child) -> (String, bool) {
    let begun = Instant::now();
    interrupt(&child);
    child.wait().expect("the command ends");
    let quick = begun.elapsed() < AT_ONCE;
    let output = child.wait_with_output().expect("the command ends");
    let good = quick && output.status.code() == Some(130) && output.stdout.is_empty();
    (String::from_utf8_lossy(&output.stderr).to_string(), good)
}

/// Whether the line tells a part of the far table's horizon.
fn tells_settled(line: &str) -> bool {
    let told = line.strip_prefix("yolizadwa: stopped; ").and_then(|rest| rest.strip_suffix(" were settled"));
    let numbers = told.and_then(|told| told.split_once(" slots of the horizon "));
    let settled =
        numbers.filter(|(_, horizon)| *horizon == FAR_HORIZON.to_string()).and_then(|(slots, _)| slots.parse().ok());
    settled.is_some_and(|slots: u64| slots > 0 && slots <= FAR_HORIZON / 8)
}

/// A terminal: our side of it, and the command's.
fn terminal() -> Option<(File, File)> {
    let ours = unsafe { posix_openpt(OPENED) };
    if ours < 0 || unsafe { grantpt(ours) != 0 || unlockpt(ours) != 0 } {
        return None;
    }
    let name = unsafe { CStr::from_ptr(ptsname(ours)) }.to_str().ok()?;
    let theirs = File::options().read(true).write(true).custom_flags(NOT_CONTROLLING).open(name).ok()?;
    Some((unsafe { File::from_raw_fd(ours) }, theirs))
}

/// Where none can be made, the command is not run on one.
fn begun_on_terminal(budget: u64) -> Option<(File, Child)> {
    let (ours, theirs) = terminal()?;
    Some((ours, begun(COMMAND, PLAINLY, &long_text(budget, FAR), theirs.into(), TAKEN)))
}

/// Reads until this is shown, or to the end.
fn read_until(terminal: &mut File, shown: &mut Vec<u8>, word: &str) {
    let mut piece = [0; 4_096];
    while !String::from_utf8_lossy(shown).contains(word) {
        match terminal.read(&mut piece) {
            Ok(length) if length > 0 => shown.extend(&piece[..length]),
            _ => return,
        }
    }
}

/// What stands on the terminal after all these bytes, line by line.
fn screen(bytes: &[u8]) -> Vec<String> {
    let (mut lines, mut column) = (vec![Vec::new()], 0);
    for &byte in bytes {
        match byte {
            b'\r' => column = 0,
            b'\n' => lines.push(Vec::new()),
            _ => {
                let line = lines.last_mut().unwrap();
                line.resize(line.len().max(column + 1), b' ');
                line[column] = byte;
                column += 1;
            }
        }
    }
    let texts = lines.iter().map(|line| String::from_utf8_lossy(line).trim_end().to_string());
    texts.filter(|line| !line.is_empty()).collect()
}

/// A line comes and goes; after Ctrl-C there is the one line that says so.
fn stopped_on_terminal(bench: &mut Bench, mut ours: File, child: Child) {
    let mut shown = Vec::new();
    read_until(&mut ours, &mut shown, "s more");
    let before = screen(&shown);
    let (_, good) = stopped(child);
    read_until(&mut ours, &mut shown, "no such word");
    let line =
        before.iter().all(|line| line.starts_with("judging: ") && line.contains(" % of the horizon is settled; about "));
    let after = screen(&shown);
    bench.count(line && before.len() == 1, || format!("on a terminal: {before:?}"));
    bench.count(good && after.len() == 1 && tells_settled(&after[0]), || format!("stopped on a terminal: {after:?}"));
}

/// At the end nothing of the line is left.
fn ended_on_terminal(bench: &mut Bench) {
    let budget = 250_000_000;
    let Some((mut ours, child)) = begun_on_terminal(budget) else {
        return;
    };
    let mut shown = Vec::new();
    read_until(&mut ours, &mut shown, "no such word");
    let output = child.wait_with_output().expect("the command ends");
    let settled = said(&output).contains(&format!("\nverdict undecided\nsettled {budget}\n"));
    let good = output.status.code() == Some(4) && settled && screen(&shown).is_empty();
    bench.count(good, || format!("ended on a terminal: {output:?}, {:?}", String::from_utf8_lossy(&shown)));
}

/// Who has Ctrl-C ignored is not stopped by it.
fn not_stopped(bench: &mut Bench) {
    let text = long_text(20_000_000, FAR);
    let child = begun(COMMAND, PLAINLY, &text, Stdio::piped(), IGNORED);
    interrupt(&child);
    let output = child.wait_with_output().expect("the command ends");
    let good = output.status.code() == Some(4) && said(&output).contains("\nsettled 20000000\n") && output.stderr.is_empty();
    bench.count(good, || format!("Ctrl-C ignored: {output:?}"));
}

/// They all wait together. Where nobody looks, the last line is all that is written.
pub fn by_interrupt(bench: &mut Bench) {
    let begin = |path, words: &[&str], text: &[u8]| begun(path, words, text, Stdio::piped(), TAKEN);
    let (far, hard) = (long_text(u64::MAX, FAR), long_text(u64::MAX, HARD));
    let paths = [COMMAND, SANITIZED].into_iter().filter(|path| Path::new(path).exists());
    let told: Vec<Child> = paths.map(|path| begin(path, PLAINLY, &far)).collect();
    let untold = [["quick", "-"], ["judge", "-"]].map(|words| begin(COMMAND, &words, &hard));
    let shown = begun_on_terminal(u64::MAX);
    std::thread::sleep(WHILE);
    for (said, good) in told.into_iter().map(stopped) {
        let line = said.strip_suffix('\n').is_some_and(tells_settled);
        bench.count(good && line, || format!("stopped, it says {said:?}"));
    }
    for (said, good) in untold.into_iter().map(stopped) {
        bench.count(good && said == "yolizadwa: stopped\n", || format!("stopped before an answer, it says {said:?}"));
    }
    match shown {
        Some((ours, child)) => stopped_on_terminal(bench, ours, child),
        None => println!("no terminal can be made here: the command is not run on one"),
    }
    ended_on_terminal(bench);
    not_stopped(bench);
    bench.end_group("the command on a terminal, and stopped");
}
