//! Long logs: what differs, is at fault, late or done inside the blocks of 256 bytes in which a piece is read, and at their borders.

use crate::bench::Bench;
use crate::calls::Request;
use crate::document::{B, C, F, G};
use crate::inputs::*;
use crate::logbook::{camera_log, whole_answer, Log, DIFFERS, GOOD, LONGEST_LOG};
use crate::logs::damage_log;
use crate::reference::{periodic, Task, TASKS};

const BLOCK: usize = 256;
const LENGTHS: [usize; 7] = [1, 64, BLOCK - 1, BLOCK, BLOCK + 1, 4_096, usize::MAX];

/// What is kept before the first byte and behind each.
fn kept_behind_each(tasks: &[Task], log: &[u8]) -> Vec<Log> {
    let mut kept = vec![Log::start(tasks)];
    for &byte in log {
        let mut next = kept[kept.len() - 1];
        next.read(tasks, byte);
        kept.push(next);
    }
    kept
}

/// The log in pieces that end at these places and at its end: each feed must leave all that the reference keeps there.
fn ask_cut_at(bench: &mut Bench, tasks: &[Task], log: &[u8], kept: &[Log], ends: &[usize]) {
    let (file, mut from) = (file_of(1, tasks), 0);
    for &to in ends.iter().chain([&log.len()]) {
        let request = Request::log_feed(&file, kept[from].to_bytes(), &log[from..to]);
        bench.ask_knowing(request, (kept[to].told(), kept[to].to_bytes()));
        from = to;
    }
}

/// The finish, which says what the log's records say one by one.
fn ask_finish(bench: &mut Bench, tasks: &[Task], log: &[u8], kept: &[Log]) {
    let (mut last, answer) = (kept[log.len()], whole_answer(tasks, log));
    let request = Request::log_finish(file_of(1, tasks), last.to_bytes());
    last.finish();
    bench.count(last.found == answer, || format!("{tasks:?}, {log:?}: {:?}, not {answer:?}", last.found));
    bench.ask_knowing(request, (last.told(), last.to_bytes()));
}

/// Whole and in two pieces: cut where the bytes behind move to other places of their blocks, about a border, and about this place.
fn ask_about(bench: &mut Bench, tasks: &[Task], log: &[u8], place: usize) {
    let kept = kept_behind_each(tasks, log);
    ask_cut_at(bench, tasks, log, &kept, &[]);
    for cut in [1, 2, 3, BLOCK - 1, BLOCK, BLOCK + 1, place - 1, place, place + 1] {
        ask_cut_at(bench, tasks, log, &kept, &[cut.min(log.len())]);
    }
    ask_finish(bench, tasks, log, &kept);
}

/// Any kind, some tasks and what is neither, in place of a byte and before it; and the log cut short there.
fn damage_at(bench: &mut Bench, tasks: &[Task], sound: &[u8], place: usize) {
    let (front, rest) = sound.split_at(place);
    for byte in [0, 1, 2, 16, 17, 18, 19, 20, 255] {
        ask_about(bench, tasks, &[front, &[byte], &rest[1..]].concat(), place);
        ask_about(bench, tasks, &[front, &[byte], rest].concat(), place);
    }
    ask_about(bench, tasks, front, place);
}

/// Tables that pass, that are late again and again, that are late once, in the middle of a block, and one of all tasks that there can be.
fn tables_by_hand() -> Vec<Vec<Task>> {
    let mut tables: Vec<Vec<Task>> = [B, C, F, G].map(table_of).to_vec();
    tables.push(vec![periodic(0, 1, 3, 3), periodic(250, 2, 2, 60_000), periodic(250, 2, 3, 60_000)]);
    tables.push((0..TASKS as u32).map(|task| periodic(task, 1, 30 + task % 4, 33)).collect());
    tables
}

/// Reports never, always, and now and then; about the borders of the first two blocks and inside the first three.
pub fn damaged_at_borders(bench: &mut Bench) {
    let places = [100, 254, 255, 256, 257, 258, 400, 511, 512, 513, 640];
    let report = |often: usize| (0..600).map(|slot| often > 0 && slot * slot % often == 0).collect::<Vec<bool>>();
    for (tasks, often) in tables_by_hand().iter().flat_map(|tasks| [0, 1, 7].map(|often| (tasks, often))) {
        let mut sound = camera_log(tasks, &report(often));
        sound.truncate(3 * BLOCK);
        places.iter().for_each(|&place| damage_at(bench, tasks, &sound, place));
    }
    bench.end_group("logs damaged about the borders of blocks");
}

/// Full tables and others; of some the deadlines are too short for their jobs.
fn table_at_random(rng: &mut Rng) -> Vec<Task> {
    let mut tasks = if rng.chance(50) { near_border(rng) } else { full(rng) };
    if rng.chance(30) {
        tasks.iter_mut().for_each(|task| task.deadline = rng.range(task.cost, task.deadline));
    }
    tasks
}

/// A slot behind some place given to any task.
fn change_owner(rng: &mut Rng, log: &mut [u8]) {
    let place = rng.below(log.len() as u64) as usize;
    let behind = &mut log[place..];
    let kind = behind.iter().position(|&byte| byte == 16);
    if let Some(task) = kind.and_then(|kind| behind.get_mut(kind + 1)) {
        *task = rng.range(0, 32) as u8;
    }
}

/// A camera's log of some hundred to some thousand slots; some are damaged behind the first block, or have a slot of another task there.
fn long_log(rng: &mut Rng, tasks: &[Task]) -> Vec<u8> {
    let (slots, often) = (rng.pick(&[400, 1_000, 4_000, 9_000]), rng.pick(&[0, 5, 40, 90]));
    let done: Vec<bool> = (0..slots).map(|_| rng.chance(often)).collect();
    let mut log = camera_log(tasks, &done);
    if rng.chance(80) {
        log.push(19);
    }
    let mut rest = log.split_off(BLOCK);
    match rng.below(3) {
        0 => damage_log(rng, &mut rest),
        1 => change_owner(rng, &mut rest),
        _ => (),
    }
    log.extend(rest);
    log
}

/// Pieces of each length, behind a first one of a few bytes, or of none.
fn ask_lengths(bench: &mut Bench, rng: &mut Rng, tasks: &[Task], log: &[u8], kept: &[Log]) {
    let first = rng.below(4) as usize;
    for length in LENGTHS {
        let ends: Vec<usize> = (first..log.len()).step_by(length).collect();
        ask_cut_at(bench, tasks, log, kept, &ends);
    }
}

/// Differences, faults and late jobs come up, all of them behind the first block.
pub fn long_ones(bench: &mut Bench, rng: &mut Rng, count: u64) {
    let (mut good, mut differ, mut at_fault, mut late) = (0, 0, 0, 0);
    for _ in 0..count {
        let tasks = table_at_random(rng);
        let log = long_log(rng, &tasks);
        let kept = kept_behind_each(&tasks, &log);
        ask_lengths(bench, rng, &tasks, &log, &kept);
        ask_finish(bench, &tasks, &log, &kept);
        match whole_answer(&tasks, &log).0 {
            GOOD => good += 1,
            DIFFERS => differ += 1,
            _ => at_fault += 1,
        }
        late += u64::from(kept[BLOCK..].iter().any(|log| log.state.late != 0));
    }
    let told = format!("{good} good, {differ} differ, {at_fault} at fault, {late} with late jobs");
    println!("long logs: {told}");
    bench.count([good, differ, at_fault, late].iter().all(|&times| times >= count / 20), || format!("{told} of {count}"));
    bench.end_group("long logs in pieces of each length");
}

/// The longest log ends inside a block or at its border; its last byte may be the end.
pub fn longest_ends_inside(bench: &mut Bench) {
    let tasks = table_of(B);
    let (file, sound) = (file_of(1, &tasks), camera_log(&tasks, &[false; 600]));
    for room in [1, 2, 100, 254, 255, 256, 257, 258, 400, 511, 512, 513] {
        let log = Log { bytes: LONGEST_LOG - room as u64, ..Log::start(&tasks) };
        let ended = [&sound[..room - 1], &[19, 17]].concat();
        let pieces = [&sound[..], &sound[..room], &sound[..room + 1], &ended, &ended[..room]];
        pieces.into_iter().for_each(|piece| bench.ask(Request::log_feed(&file, log.to_bytes(), piece)));
    }
    bench.end_group("logs that reach 2^32 - 1 bytes inside a block");
}
