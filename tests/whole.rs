//! The stack and the C library's functions that the calls need, and the example host as it is shipped.

use crate::bench::Bench;
use crate::calls::Request;
use crate::inputs::{file_of, rows_of};
use crate::logbook::{camera_log, Log};
use crate::passes;
use crate::plain;
use crate::program;
use crate::reference::{self, button, periodic, Task, LONGEST_FILE, TASKS};
use std::process::Command;

const STACK_LIMIT: u64 = 16_384;
const HOST_RUNS: &[&[&str]] = &[
    &["tables/b.table", "40"],
    &["tables/g.table"],
    &["tables/c.table"],
    &["tables/i.table", "12"],
    &["tables/b37.table", "3"],
    &["--anyway", "tables/c.table"],
    &["--anyway", "tables/d.table", "9"],
    &["--anyway", "tables/f.table", "6"],
    &["--anyway", "tables/b.table", "2"],
    &["--anyway", "tables/refused_21.table"],
    &["tables/refused_21.table"],
    &["tables/refused_22_empty.table"],
    &["tables/too_long.table"],
    &["tables/shutter.table"],
    &["--anyway", "tables/buttons.table"],
    &["tables/b.table", "0"],
    &["tables/b.table", "abc"],
    &["tables/b.table", "4x"],
    &["tables/b.table", "-1"],
    &["tables/b.table", "99999999999999999999999"],
    &["tables/no.table"],
    &["--anyway"],
];

fn measure(bench: &mut Bench, name: &str, requests: &[Request]) {
    let depth = requests.iter().map(|request| bench.calls.depth(request)).max().unwrap();
    println!("stack of {name}: {depth} bytes");
    let measured = (1..=STACK_LIMIT).contains(&depth);
    bench.count(measured, || format!("{name} writes {depth} bytes deep, not 1 to {STACK_LIMIT}"));
}

fn deepest(bench: &mut Bench, name: &str, requests: &[Request]) {
    measure(bench, name, requests);
    requests.iter().cloned().for_each(|request| bench.ask(request));
}

/// As many tasks as there can be, of the longest numbers: they pass, are late, are overloaded, or are refused at the end; no task; and tasks
/// with a release in nearly every slot and at most two slots to spare, late after a look at each release; and buttons, behind one task
/// that is the last to be first, and alone.
fn hard_tables() -> [Vec<Task>; 9] {
    let passes = vec![periodic(60_000, 60_000 / TASKS as u32, 60_000, 60_000); TASKS];
    let (mut late, mut long, mut bad) = (passes.clone(), passes.clone(), passes.clone());
    late.iter_mut().for_each(|task| (task.offset, task.deadline) = (0, 59_999));
    long[TASKS - 2] = periodic(0, 1, 1, 59_957);
    long[TASKS - 1] = periodic(0, 1, 1, 59_999);
    bad[TASKS - 1].offset = 60_001;
    let whole = |period| periodic(60_000, period, period, period);
    let heavy = (0..TASKS as u32).map(|task| whole(31_622 + task % 2)).collect();
    let ruler = |k: u32| periodic((1 << (k - 1)) - 1, 1, 1, 1 << k);
    let mut looked: Vec<Task> = (1..15).map(ruler).collect();
    looked.push(periodic(0, 3, 49_151, 49_152));
    let alone = vec![button(60_000 / TASKS as u32, 60_000, 60_000); TASKS];
    let mut beside = alone.clone();
    beside[TASKS - 1] = passes[0];
    [passes, late, heavy, long, bad, Vec::new(), looked, alone, beside]
}

pub fn hard_files() -> Vec<Vec<u8>> {
    let mut files: Vec<Vec<u8>> = hard_tables().iter().map(|tasks| file_of(u64::MAX, tasks)).collect();
    files.extend([files[0][..LONGEST_FILE - 2].to_vec(), vec![3; LONGEST_FILE + 18]]);
    files
}

pub fn stack(bench: &mut Bench) {
    let files = hard_files();
    let checks: Vec<Request> = files.iter().cloned().map(Request::check).collect();
    let starts: Vec<Request> = files.iter().cloned().map(Request::start).collect();
    let steps: Vec<Request> = files.iter().cloned().flat_map(hard_steps).collect();
    let writes: Vec<Request> = hard_tables().iter().flat_map(|tasks| hard_writes(tasks)).collect();
    deepest(bench, "check", &checks);
    deepest(bench, "check plainly", &checks.into_iter().map(Request::plainly).collect::<Vec<_>>());
    deepest(bench, "answer", &files.iter().cloned().map(Request::answer).collect::<Vec<_>>());
    deepest(bench, "passes", &passes::hard_ones());
    deepest(bench, "quick", &files.iter().cloned().map(Request::quick).collect::<Vec<_>>());
    deepest(bench, "distance", &files.iter().cloned().map(Request::distance).collect::<Vec<_>>());
    deepest(bench, "eased", &hard_pairs(&files));
    deepest_largest(bench, &files);
    let rooms = files.iter().flat_map(|file| [0, u32::MAX].map(|task| Request::room(file.clone(), task)));
    measure(bench, "room", &rooms.collect::<Vec<_>>());
    deepest(bench, "start", &starts);
    deepest(bench, "step", &steps);
    deepest(bench, "press start", &files.iter().cloned().map(Request::press_start).collect::<Vec<_>>());
    deepest(bench, "press step", &steps.into_iter().map(pressed).collect::<Vec<_>>());
    deepest(bench, "log start", &files.iter().cloned().map(Request::log_start).collect::<Vec<_>>());
    deepest(bench, "log feed", &files.iter().flat_map(|file| hard_logs(file)).collect::<Vec<_>>());
    deepest(bench, "log finish", &files.iter().flat_map(|file| hard_finishes(file)).collect::<Vec<_>>());
    deepest(bench, "write", &writes);
    deepest(bench, "from text", &hard_texts());
    deepest(bench, "to text", &files.into_iter().map(Request::to_text).collect::<Vec<_>>());
    bench.end_group("stack of each call, on the hardest inputs");
}

/// The first and the last task of each hard table, and one that it does not have. The tables that pass have costs that are known, as the
/// reference would try too many: a full one, and one whose deadlines leave a slot less than there is.
fn deepest_largest(bench: &mut Bench, files: &[Vec<u8>]) {
    let light = periodic(60_000, 1, 59_999, 60_000);
    let asked = |file: &Vec<u8>| [0, TASKS as u32 - 1, u32::MAX].map(|task| Request::largest(file.clone(), task)).to_vec();
    let known = [
        (asked(&files[0]), u64::from(60_000 / TASKS as u32)),
        (asked(&file_of(u64::MAX, &[light; TASKS])), u64::from(59_999 - (TASKS as u32 - 1))),
    ];
    let others: Vec<Request> = files[1..].iter().flat_map(asked).collect();
    measure(bench, "largest", &[&known[0].0[..], &known[1].0[..], &others[..]].concat());
    for (requests, cost) in known {
        requests[..2].iter().for_each(|request| bench.ask_knowing(request.clone(), (cost, Vec::new())));
        bench.ask(requests[2].clone());
    }
    others.into_iter().for_each(|request| bench.ask(request));
}

/// Each hard file as the old one of each.
fn hard_pairs(files: &[Vec<u8>]) -> Vec<Request> {
    files.iter().flat_map(|old| files.iter().map(|new| Request::eased(old.clone(), new.clone()))).collect()
}

/// From the start, from a state with every job at its deadline, from one that is refused.
fn hard_steps(file: Vec<u8>) -> Vec<Request> {
    let tasks = reference::read_file(&file).map_or(Vec::new(), |(_, tasks)| tasks);
    let first = reference::start(&tasks);
    let (mut due, mut strange) = (first, first);
    for (number, task) in tasks.iter().enumerate() {
        due.left[number] = task.cost;
        due.wait[number] = task.period - task.deadline.min(task.period);
    }
    strange.last = 99;
    [first, due, strange].iter().map(|state| Request::step(file.clone(), state.to_bytes(), 1)).collect()
}

/// The same step with everything pressed.
fn pressed(step: Request) -> Request {
    Request::press_step(step.file, step.buffer, step.number as u32, u32::MAX)
}

/// States of logs: at the start, with every job at its deadline and a task's number to come, and one that is refused.
fn hard_states(file: &[u8]) -> Vec<Vec<u8>> {
    let tasks = reference::read_file(file).map_or(Vec::new(), |(_, tasks)| tasks);
    let first = Log::start(&tasks);
    let (mut due, mut strange) = (Log { opened: true, done: true, bytes: 1, ..first }, first);
    for (number, task) in tasks.iter().enumerate() {
        due.state.left[number] = task.cost;
        due.state.wait[number] = task.period - task.deadline.min(task.period);
    }
    strange.slots = 1;
    [first, due, strange].iter().map(|log| log.to_bytes()).collect()
}

/// Each of them with a piece that goes on for some slots.
fn hard_logs(file: &[u8]) -> Vec<Request> {
    let tasks = reference::read_file(file).map_or(Vec::new(), |(_, tasks)| tasks);
    let good = reference::judge(&tasks).is_ok();
    let piece = if good { camera_log(&tasks, &[true; 50]) } else { vec![17; 50] };
    hard_states(file).into_iter().flat_map(|log| [Request::log_feed(file, log.clone(), &piece), Request::log_feed(file, log, &[0, 19])]).collect()
}

fn hard_finishes(file: &[u8]) -> Vec<Request> {
    hard_states(file).into_iter().map(|log| Request::log_finish(file.to_vec(), log)).collect()
}

/// Whole, into a short buffer, without the last word, with a last row of another kind, and with a task more.
fn hard_writes(tasks: &[Task]) -> Vec<Request> {
    let row = [2, 0, 1, 60_000, 60_000];
    let rows = rows_of(tasks);
    let (more, strange) = ([&rows[..], &row].concat(), [&rows[..], &[3; 5]].concat());
    let mut requests =
        [&rows[..], &more[..], &more[..more.len() - 1], &strange].map(|words| Request::write(words, u64::MAX)).to_vec();
    requests.push(Request { buffer: vec![0xE7; 9], ..Request::write(&rows, u64::MAX) });
    requests
}

/// The texts of the hard tables, whole, with a task more, and with a fault at their end; and a line of many words.
fn hard_texts() -> Vec<Request> {
    let endings = ["", "task 0 1 60000 60000", "\nx", "\ntask 4294967295 0 0 18446744073709551616", "# \r"];
    let text = |tasks: &Vec<Task>, end: &str| [&plain::text_of(u64::MAX, tasks), end.as_bytes()].concat();
    let mut texts: Vec<Vec<u8>> = hard_tables().iter().flat_map(|tasks| endings.map(|end| text(tasks, end))).collect();
    texts.push(b"budget 0 ".repeat(8_000));
    texts.into_iter().map(Request::from_text).collect()
}

/// The library's global symbols of a sort, in order. gcc's binutils bring nm; on Arm it reads the archive too. None if it cannot tell.
pub fn symbols(sort: &str) -> Vec<String> {
    let output = Command::new("nm").args(["-g", sort, "target/staticlib/libyolizadwa.a"]).output().expect("nm starts");
    let told = String::from_utf8_lossy(&output.stdout);
    let names = told.lines().filter_map(|line| line.trim().rsplit_once(' ')).map(|symbol| symbol.1.to_string());
    let mut names: Vec<String> = names.filter(|_| output.status.success()).collect();
    names.sort();
    names.dedup();
    names
}

/// What nm finds undefined must be what the header says.
pub fn needs(bench: &mut Bench) {
    let words = format!("Of the C library they need {} alone.", symbols("--undefined-only").join(" and "));
    let header = std::fs::read_to_string("include/yolizadwa.h").expect("the header is there");
    bench.count(header.contains(&words), || format!("not in the header: {words}"));
    bench.end_group("what the library needs of the C library");
}

fn example_run(name: &str, words: &[&str]) -> String {
    let output = program(&format!("target/host/{name}")).args(words).output().expect("the example starts");
    let status = output.status.code().map_or("no status".to_string(), |code| format!("status {code}"));
    let line = [&[name][..], words].concat().join(" ");
    format!("$ {line}\n{}{status}\n", String::from_utf8_lossy(&output.stdout))
}

/// What it wrote stays in target/host/NAME.written, to be looked at or, once judged right, stored.
fn example(bench: &mut Bench, name: &str, runs: &[&[&str]]) {
    let written: String = runs.iter().map(|words| example_run(name, words)).collect();
    let stored = std::fs::read_to_string(format!("examples/{name}.expected")).unwrap_or_default();
    std::fs::write(format!("target/host/{name}.written"), &written).expect("target/host can be written");
    bench.count(written == stored, || format!("target/host/{name}.written is not examples/{name}.expected"));
}

pub fn example_hosts(bench: &mut Bench) {
    example(bench, "host", HOST_RUNS);
    example(bench, "shutter", &[&[]]);
    bench.end_group("the example hosts");
}
