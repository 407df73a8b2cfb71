//! How far a cost may grow: against a look at every cost, and where that is too long against the check.

use crate::arrivals::mixed;
use crate::bench::Bench;
use crate::calls::{Reply, Request};
use crate::inputs::*;
use crate::reference::{self, periodic, Task, LATE, OVERLOAD, UNDECIDED};

/// Of so many inputs at least one has each answer.
const INPUTS_PER_ANSWER: u64 = 1_000;
const ANSWERS: [&str; 8] =
    ["as it is", "larger", "the deadline", "overload", "undecided", "late", "no such task", "a button"];

/// Mostly one that the table has; else at its end, past it, and where a place ends.
fn some_task(rng: &mut Rng, tasks: usize) -> u32 {
    let tasks = tasks as u32;
    match rng.below(10) {
        0 => rng.pick(&[tasks, tasks + 1, 32, 33, 65_535, 65_536, 65_537, 1 << 31, u32::MAX]).max(tasks),
        1 => tasks - 1,
        _ => rng.range(0, tasks - 1),
    }
}

/// Costs lowered so that there is room, or one at its deadline, mostly too much; with a budget about what the table needs.
fn some_table(rng: &mut Rng) -> (u64, Vec<Task>) {
    let mut tasks = near_border(rng);
    match rng.below(10) {
        0 => {
            let task = rng.below(tasks.len() as u64) as usize;
            tasks[task].cost = tasks[task].deadline;
        }
        1..=6 => tasks.iter_mut().for_each(|task| task.cost = rng.range(1, task.cost)),
        _ => (),
    }
    (budget_about(rng, &tasks), tasks)
}

/// The answer's place in the list of answers.
fn answer_of(tasks: &[Task], task: u32, told: u64) -> usize {
    match told {
        OVERLOAD => 3,
        UNDECIDED => 4,
        LATE => 5,
        65_536.. => 6 + (told / 65_536 == 11) as usize,
        cost if cost == u64::from(tasks[task as usize].cost) => 0,
        cost if cost == u64::from(tasks[task as usize].deadline) => 2,
        _ => 1,
    }
}

/// A generator that no longer reaches an answer fails.
fn each_comes_up(bench: &mut Bench, answers: [u64; 8], count: u64) {
    let told: Vec<String> = ANSWERS.iter().zip(answers).map(|(answer, often)| format!("{answer} {often}")).collect();
    println!("largest: {}", told.join(", "));
    for often in answers {
        bench.count(often >= count / INPUTS_PER_ANSWER, || format!("an answer only {often} times in {count} inputs"));
    }
}

pub fn every_cost(bench: &mut Bench, rng: &mut Rng, count: u64) {
    let (mut answers, mut asked) = ([0; 8], 0);
    while asked < count {
        let (budget, mut tasks) = some_table(rng);
        if rng.chance(2) {
            make_buttons(rng, &mut tasks);
        }
        let task = some_task(rng, tasks.len());
        if !triable(budget, &tasks, task as usize) {
            continue;
        }
        let request = Request::largest(file_of(budget, &tasks), task);
        let permitted = reference::answer(&request);
        answers[answer_of(&tasks, task, permitted.0)] += 1;
        bench.ask_knowing(request, permitted);
        asked += 1;
    }
    each_comes_up(bench, answers, count);
    bench.end_group("largest costs near the border of what passes");
}

/// The room of tables of both sorts, against a look at every cost.
pub fn rooms(bench: &mut Bench, rng: &mut Rng, count: u64) {
    let (mut answers, mut asked) = ([0; 8], 0);
    while asked < count {
        let mut tasks = mixed(rng);
        if rng.chance(60) {
            tasks.iter_mut().for_each(|task| task.cost = rng.range(1, task.cost));
        }
        let task = some_task(rng, tasks.len());
        if !room_triable(&tasks, task as usize) {
            continue;
        }
        let request = Request::room(file_of(1, &tasks), task);
        let permitted = reference::answer(&request);
        answers[answer_of(&tasks, task, permitted.0)] += 1;
        bench.ask_knowing(request, permitted);
        asked += 1;
    }
    let told = [0, 1, 2, 3, 5, 6].map(|answer| answers[answer]);
    println!("room: as it is {}, larger {}, the deadline {}, overload {}, no answer {}, no such task {}", told[0], told[1], told[2], told[3], told[4], told[5]);
    for often in told {
        bench.count(often >= count / INPUTS_PER_ANSWER, || format!("an answer only {often} times in {count} inputs"));
    }
    bench.end_group("the room of tables with buttons");
}

/// Every number so many times, as far as its range goes, so that deadlines and periods reach 60,000.
fn stretched(rng: &mut Rng) -> Vec<Task> {
    let tasks = some_table(rng).1;
    let largest = tasks.iter().map(|task| task.period.max(task.offset)).max().unwrap();
    let by = rng.pick(&[1, 7, 60_000 / largest, 60_000 / largest]).clamp(1, (60_000 / largest).max(1));
    let stretch = |task: &Task| periodic(by * task.offset, by * task.cost, by * task.deadline, by * task.period);
    tasks.iter().map(stretch).collect()
}

/// The check of the table with this one cost changed.
fn check_with(tasks: &[Task], task: u32, cost: u32) -> Request {
    let mut changed = tasks.to_vec();
    changed[task as usize].cost = cost;
    Request::check(file_of(u64::MAX, &changed))
}

/// With the cost that is told the check passes the table; with one slot more, and with a few larger costs, it does not.
fn held_to_the_check(bench: &mut Bench, rng: &mut Rng, tasks: &[Task], task: u32, told: u32) {
    let Task { cost, deadline, .. } = tasks[task as usize];
    bench.count((cost..=deadline).contains(&told), || format!("{tasks:?}, task {task}: {told}"));
    let mut checks = vec![check_with(tasks, task, told)];
    if told < deadline {
        let larger = [told + 1, rng.range(told + 1, deadline), deadline];
        checks.extend(larger.map(|cost| check_with(tasks, task, cost)));
    }
    for (place, reply) in bench.answer(&checks).iter().enumerate() {
        let report = String::from_utf8_lossy(&reply.written()).to_string();
        let passes = report.contains("\nverdict passes\n");
        bench.count(passes == (place == 0), || format!("{tasks:?}, task {task}, {told} told: check {place} says {report}"));
    }
}

/// A number exactly if the check passes the table as it is; else overload or late, as it says.
fn said_of(bench: &mut Bench, tasks: &[Task], reply: &Reply) {
    let report =
        String::from_utf8_lossy(&bench.answer(&[Request::check(file_of(u64::MAX, tasks))])[0].written()).to_string();
    let verdict = report.lines().find_map(|line| line.strip_prefix("verdict ")).unwrap_or("none").to_string();
    let good = match reply.result {
        OVERLOAD => verdict == "overload",
        LATE => verdict == "late",
        result => result < OVERLOAD && verdict == "passes",
    };
    bench.count(good && reply.intact, || format!("{tasks:?}: {} told, and check says {report}", reply.result));
}

/// Deadlines too long for a look at every cost.
pub fn long_deadlines(bench: &mut Bench, rng: &mut Rng, count: u64) {
    let tables: Vec<Vec<Task>> = (0..count).map(|_| stretched(rng)).collect();
    let mut told = 0;
    for some in tables.chunks(500) {
        let tasks: Vec<u32> = some.iter().map(|tasks| rng.below(tasks.len() as u64) as u32).collect();
        let asked = |(tasks, &task): (&Vec<Task>, &u32)| Request::largest(file_of(u64::MAX, tasks), task);
        let replies = bench.answer(&some.iter().zip(&tasks).map(asked).collect::<Vec<_>>());
        for ((reply, tasks), &task) in replies.iter().zip(some).zip(&tasks) {
            said_of(bench, tasks, reply);
            if reply.result < OVERLOAD {
                told += 1;
                held_to_the_check(bench, rng, tasks, task, reply.result as u32);
            }
        }
    }
    bench.count(told >= count / 4, || format!("only {told} largest costs of {count} tables"));
    bench.end_group("largest costs up to long deadlines");
}
