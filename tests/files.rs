//! Damaged files and buffers of every length.

use crate::bench::Bench;
use crate::calls::{Call, Request};
use crate::document::{B, J, TOO_LONG};
use crate::inputs::*;
use crate::logbook::Log;
use crate::reference::{self, button, periodic, Task, TASKS};

/// What was read from a file, written: the same bytes, if the table is not refused.
pub fn ask_rewritten(bench: &mut Bench, file: &[u8]) {
    if let Ok((budget, tasks)) = reference::read_file(file) {
        let request = Request::write(&rows_of(&tasks), budget);
        match reference::judge(&tasks) {
            Ok(()) => bench.ask_filled(request, file),
            Err(_) => bench.ask(request),
        }
    }
}

/// Of a task that the bytes choose, about half the time one that the table does not have.
fn ask_largest(bench: &mut Bench, file: &[u8]) {
    let (budget, tasks) = reference::read_file(file).unwrap_or_default();
    let task = file.iter().map(|&byte| usize::from(byte)).sum::<usize>() % (2 * tasks.len() + 1);
    if triable(budget, &tasks, task) {
        bench.ask(Request::largest(file.to_vec(), task as u32));
    }
    if room_triable(&tasks, task) {
        bench.ask(Request::room(file.to_vec(), task as u32));
    }
}

/// All calls on one file, the step from the table's start where it has one.
pub fn ask_all(bench: &mut Bench, file: &[u8]) {
    let tasks = reference::read_file(file).map_or(Vec::new(), |(_, tasks)| tasks);
    if affordable(file) {
        ask_largest(bench, file);
        bench.ask(Request::check(file.to_vec()));
        bench.ask(Request::answer(file.to_vec()));
        bench.ask(Request::quick(file.to_vec()));
        bench.ask(Request::distance(file.to_vec()));
    }
    bench.ask(Request::start(file.to_vec()));
    bench.ask(Request::step(file.to_vec(), reference::start(&tasks).to_bytes(), 1));
    bench.ask(Request::press_start(file.to_vec()));
    bench.ask(Request::press_step(file.to_vec(), reference::start(&tasks).to_bytes(), 1, u32::MAX));
    ask_log(bench, file, &tasks);
    ask_rewritten(bench, file);
    bench.ask(Request::to_text(file.to_vec()));
}

/// A log's calls, from the table's start where it has one.
fn ask_log(bench: &mut Bench, file: &[u8], tasks: &[Task]) {
    let log = Log::start(tasks).to_bytes();
    bench.ask(Request::log_start(file.to_vec()));
    bench.ask(Request::log_feed(file, log.clone(), &[17, 18, 16, 0, 19]));
    bench.ask(Request::log_finish(file.to_vec(), log));
}

fn most(rng: &mut Rng) -> Vec<Task> {
    (0..TASKS).map(|_| periodic(rng.range(0, 40), 1, rng.range(10, 20), 20)).collect()
}

/// As many records of both sorts, in turn.
fn most_mixed(rng: &mut Rng) -> Vec<Task> {
    let mut tasks = most(rng);
    tasks.iter_mut().skip(1).step_by(2).for_each(|task| *task = button(1, task.deadline, task.period));
    tasks
}

/// Table b with a button before, between or behind its tasks, and buttons alone.
fn with_a_button() -> Vec<Vec<Task>> {
    let mut tables: Vec<Vec<Task>> = (0..3)
        .map(|place| {
            let mut tasks = table_of(B);
            tasks.insert(place, button(1, 9, 20));
            tasks
        })
        .collect();
    tables.push(vec![button(2, 4, 6), button(3, 9, 9)]);
    tables
}

fn every_cut(bench: &mut Bench, file: &[u8]) {
    for length in 0..=file.len() {
        ask_all(bench, &file[..length]);
    }
}

fn every_byte_changed(bench: &mut Bench, file: &[u8]) {
    for place in 0..file.len() {
        for change in [1, 2, 4, 8, 16, 32, 64, 128, 255] {
            let mut changed = file.to_vec();
            changed[place] ^= change;
            ask_all(bench, &changed);
        }
    }
}

fn every_kind(bench: &mut Bench, file: &[u8], tasks: &[Task]) {
    for place in record_places(tasks) {
        for kind in 0..=255 {
            let mut changed = file.to_vec();
            changed[place] = kind;
            ask_all(bench, &changed);
        }
    }
}

fn spare_records() -> [Vec<u8>; 2] {
    [task_record(&periodic(0, 1, 20, 20)), task_record(&button(1, 20, 20))]
}

/// A record, or its first bytes, put in before every other one.
fn every_insertion(bench: &mut Bench, file: &[u8], tasks: &[Task]) {
    let [task, button] = spare_records();
    let some: [&[u8]; 11] = [
        &task,
        &task[..5],
        &button,
        &button[..5],
        &button[..12],
        &budget_record(9),
        &budget_record(0),
        &[1],
        &[3],
        &[4],
        &[0],
    ];
    for place in record_places(tasks) {
        for record in some {
            ask_all(bench, &[&file[..place], record, &file[place..]].concat());
        }
    }
}

fn every_tail(bench: &mut Bench, file: &[u8]) {
    for byte in 0..=255 {
        ask_all(bench, &[file, &[byte]].concat());
        ask_all(bench, &[file, &[byte; 40]].concat());
    }
    let open = &file[..file.len() - 1];
    for record in spare_records() {
        for length in 0..=record.len() {
            ask_all(bench, &[open, &record[..length]].concat());
            ask_all(bench, &[open, &record[..length], &[3]].concat());
        }
    }
}

pub fn damaged_one_by_one(bench: &mut Bench, rng: &mut Rng) {
    let tables = [vec![table_of(B), table_of(J), most(rng), most_mixed(rng)], with_a_button()].concat();
    for tasks in tables {
        let file = file_of(1_000, &tasks);
        every_cut(bench, &file);
        every_byte_changed(bench, &file);
        every_kind(bench, &file, &tasks);
        every_insertion(bench, &file, &tasks);
        every_tail(bench, &file);
    }
    ask_all(bench, &[0; 70_000]);
    ask_all(bench, &[&file_of(1_000, &table_of(B))[..], &[3; 70_000]].concat());
    bench.end_group("files damaged one by one");
}

pub fn damaged_at_random(bench: &mut Bench, rng: &mut Rng, count: u64) {
    for _ in 0..count {
        let mut file = file_of(if rng.chance(5) { 0 } else { rng.below(1_000) }, &of_any_sort(rng));
        damage(rng, &mut file);
        ask_all(bench, &file);
    }
    bench.end_group("files damaged at random");
}

pub fn buffers(bench: &mut Bench, rng: &mut Rng) {
    let b = file_of(38, &table_of(B));
    let (none, long) = (file_of(9, &[]), file_of(9, &table_of(TOO_LONG)));
    let files = [b.clone(), b[..20].to_vec(), Vec::new(), none, long, file_of(9, &with_a_button()[1])];
    let lengths = (0..=1_100).chain([4_096, 65_534, 65_535, 65_536, 65_537, 65_680, 70_000, 131_072]);
    for length in lengths {
        for call in [Call::Check, Call::Answer, Call::Start, Call::Step, Call::PressStart, Call::PressStep, Call::LogStart, Call::LogFinish] {
            let file = rng.pick(&[0, 0, 1, 2, 3, 4, 5]);
            let buffer = (0..length).map(|_| rng.below(3) as u8).collect();
            bench.ask(Request { call, file: files[file as usize].clone(), buffer, number: 0 });
        }
    }
    bench.end_group("buffers of every length");
}
