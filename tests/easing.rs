//! Pairs of tables: eased, nearly eased, and damaged; and that easings of what passes pass.

use crate::bench::Bench;
use crate::calls::Request;
use crate::document::{B, E};
use crate::inputs::*;
use crate::reference::{self, button, periodic, Task, Verdict, TASKS};

const EASED: u64 = 1;
/// Of so many pairs at least one has each answer.
const PAIRS_PER_ANSWER: u64 = 1_000;
/// The old tasks of a pair of which every choice is looked at.
const MOST_CHOSEN_FROM: usize = 9;

/// Some tasks left out, never all of them; costs lowered and deadlines made longer.
fn eased(rng: &mut Rng, tasks: &[Task]) -> Vec<Task> {
    let (keep, change) = (rng.pick(&[30, 60, 90, 100]), rng.pick(&[0, 30, 80]));
    let mut kept: Vec<Task> = tasks.iter().filter(|_| rng.chance(keep)).copied().collect();
    if kept.is_empty() {
        kept.push(rng.pick(tasks));
    }
    for task in &mut kept {
        if rng.chance(change) {
            task.cost = rng.range(1, task.cost);
        }
        if rng.chance(change) {
            task.deadline = rng.range(task.deadline, task.period);
        }
    }
    kept
}

fn lowered(rng: &mut Rng, tasks: &[Task]) -> Vec<Task> {
    tasks.iter().map(|task| Task { cost: rng.range(1, task.cost), ..*task }).collect()
}

/// One thing that easing does not allow: a number the wrong way, a task more, two tasks in each other's place.
fn meddle(rng: &mut Rng, tasks: &mut Vec<Task>) {
    let (one, other) = (rng.below(tasks.len() as u64) as usize, rng.below(tasks.len() as u64) as usize);
    let task = &mut tasks[one];
    match rng.below(8) {
        0 => task.cost = (task.cost + 1).min(task.deadline),
        1 => task.deadline = (task.deadline - 1).max(task.cost),
        2 => task.period += 1,
        3 => task.period = (task.period - 1).max(task.deadline),
        4 => task.offset += 1,
        5 => task.offset = task.offset.saturating_sub(1),
        6 => tasks.swap(one, other),
        _ if tasks.len() < TASKS => tasks.insert(other, tasks[one]),
        _ => (),
    }
}

/// Tasks that differ little, so that each may be several others.
fn alike(rng: &mut Rng) -> Vec<Task> {
    let count = 1 + rng.below(TASKS as u64) as usize;
    let kinds = rng.pick(&[1, 2, 3]);
    let mut some = || {
        let (cost, deadline) = (rng.range(1, 3), rng.range(3, 5));
        periodic(rng.range(0, kinds - 1), cost, deadline, rng.pick(&[8, 8, 8, 12]))
    };
    (0..count).map(|_| some()).collect()
}

/// An easing of a table, with some meddling now and then.
pub fn changed(rng: &mut Rng, tasks: &[Task]) -> Vec<Task> {
    let mut new = eased(rng, tasks);
    while rng.chance(35) {
        meddle(rng, &mut new);
    }
    new
}

fn pair(rng: &mut Rng) -> (Vec<Task>, Vec<Task>) {
    let old = if rng.chance(40) { alike(rng) } else { near_border(rng) };
    let new = match rng.below(10) {
        0 => near_border(rng),
        1 | 2 => alike(rng),
        _ => changed(rng, &old),
    };
    (old, new)
}

fn request(rng: &mut Rng, (old, new): &(Vec<Task>, Vec<Task>)) -> Request {
    Request::eased(file_of(any_budget(rng), old), file_of(any_budget(rng), new))
}

/// The specification's tables, and each answer once.
pub fn by_hand(bench: &mut Bench) {
    let (b, e) = (table_of(B), table_of(E));
    let file = |rows: &[(u32, u32, u32, u32)]| file_of(7, &table_of(rows));
    let mut known = |old: &[Task], new: Vec<u8>, result: u64| {
        let request = Request::eased(file_of(1_000, old), new.clone());
        bench.ask(request.clone());
        bench.ask_knowing(request, (result, new));
    };
    known(&e, file(&[(1, 1, 1, 2), (0, 1, 1, 3)]), 4);
    known(&e, file(&[(1, 1, 1, 2)]), 5);
    known(&e, file(&[(0, 1, 1, 2)]), 9);
    known(&b, file(&[(8, 4, 7, 15), (0, 2, 3, 5)]), 13);
    known(&b, file(&[(8, 4, 7, 15), (0, 2, 3, 5), (0, 2, 3, 5)]), 8);
    known(&b, file(&[(0, 2, 2, 5), (8, 5, 7, 15)]), 4);
    known(&b, file(&[(8, 6, 7, 15), (0, 2, 2, 5)]), 0);
    known(&b, file(&[]), 4 * 65_536 + 3);
    known(&[], file(&[(0, 1, 1, 1)]), 4 * 65_536 + 2);
    known(&[], vec![9], 4 * 65_536 + 2);
    known(&b, vec![9], 4 * 21 * 65_536 + 3);
    let pressed = |place: usize| {
        let mut tasks = b.clone();
        tasks.insert(place, button(1, 9, 20));
        tasks
    };
    known(&b, file_of(7, &pressed(1)), 4 * (11 * 65_536 + 1) + 3);
    known(&pressed(2), file(&[(8, 4, 7, 15)]), 4 * (11 * 65_536 + 2) + 2);
    known(&pressed(2), file_of(7, &pressed(0)), 4 * (11 * 65_536 + 2) + 2);
    known(&pressed(2), vec![9], 4 * (11 * 65_536 + 2) + 2);
    known(&b, file_of(7, &[button(3, 2, 9), periodic(0, 1, 1, 1)]), 4 * 5 * 65_536 + 3);
    bench.end_group("easings by hand");
}

/// From the ends back, and by every choice.
pub fn reference_itself(bench: &mut Bench, rng: &mut Rng) {
    let mut tried = 0;
    while tried < 5_000 {
        let (old, new) = pair(rng);
        if old.len() <= MOST_CHOSEN_FROM {
            let (plain, quick) = (reference::eased_by_definition(&old, &new), reference::eased(&old, &new));
            bench.count(plain == quick, || format!("{old:?} {new:?}: {plain:?} by every choice, {quick:?} from the ends"));
            tried += 1;
        }
    }
    bench.end_group("the reference's two ways to tell an easing");
}

/// A generator that no longer reaches an answer fails.
fn each_comes_up(bench: &mut Bench, answers: [u64; 4], count: u64) {
    println!("eased: none {}, yes {}, old refused {}, new refused {}", answers[0], answers[1], answers[2], answers[3]);
    for often in answers {
        bench.count(often >= count / PAIRS_PER_ANSWER, || format!("an answer only {often} times in {count} pairs"));
    }
}

pub fn pairs(bench: &mut Bench, rng: &mut Rng, count: u64) {
    let mut answers = [0; 4];
    for _ in 0..count {
        let mut tables = pair(rng);
        if rng.chance(3) {
            spoil(rng, &mut tables.0);
        }
        if rng.chance(3) {
            spoil(rng, &mut tables.1);
        }
        if rng.chance(3) {
            make_buttons(rng, &mut tables.0);
        }
        if rng.chance(3) {
            make_buttons(rng, &mut tables.1);
        }
        let request = request(rng, &tables);
        let permitted = reference::answer(&request);
        answers[permitted.0 as usize % 4] += 1;
        bench.ask_knowing(request, permitted);
    }
    each_comes_up(bench, answers, count);
    bench.end_group("pairs of tables, eased and nearly eased");
}

/// Every number of every task of a full table one higher and one lower, each task left out, and each one in another's place.
pub fn borders(bench: &mut Bench, rng: &mut Rng) {
    let moved: [fn(&mut Task); 8] = [
        |task| task.offset += 1,
        |task| task.offset = task.offset.saturating_sub(1),
        |task| task.cost += 1,
        |task| task.cost -= 1,
        |task| task.deadline += 1,
        |task| task.deadline -= 1,
        |task| task.period += 1,
        |task| task.period -= 1,
    ];
    let some = |task: u32| periodic(task % 3, 2, 5, 8);
    let old: Vec<Task> = (0..TASKS as u32).map(some).collect();
    for place in 0..TASKS {
        for change in moved {
            let mut new = old.clone();
            change(&mut new[place]);
            bench.ask(request(rng, &(old.clone(), new)));
        }
        let mut fewer = old.clone();
        fewer.remove(place);
        bench.ask(request(rng, &(old.clone(), fewer.clone())));
        bench.ask(request(rng, &(fewer.clone(), old.clone())));
        fewer.insert(place, old[(place + 1) % TASKS]);
        bench.ask(request(rng, &(old.clone(), fewer)));
    }
    bench.end_group("easings at their borders");
}

pub fn damaged(bench: &mut Bench, rng: &mut Rng, count: u64) {
    for _ in 0..count {
        let tables = pair(rng);
        let mut request = request(rng, &tables);
        match rng.below(3) {
            0 => damage(rng, &mut request.file),
            1 => damage(rng, &mut request.buffer),
            _ => {
                damage(rng, &mut request.file);
                damage(rng, &mut request.buffer);
            }
        }
        bench.ask(request);
    }
    bench.end_group("easings of damaged files");
}

/// The worst responses in a report, and whether it says that the table passes.
fn worsts(report: &[u8]) -> (bool, Vec<u64>) {
    let text = String::from_utf8_lossy(report).to_string();
    let worst = |line: &str| line.strip_prefix("worst ").and_then(|rest| rest.split_once(' ')?.1.parse().ok());
    (text.contains("\nverdict passes\n"), text.lines().filter_map(worst).collect())
}

/// Tables that pass, as the reference says.
fn passing(rng: &mut Rng) -> Vec<Task> {
    loop {
        let tasks = near_border(rng);
        if matches!(reference::decide(&tasks, u64::MAX).verdict, Verdict::Passes(..)) {
            return tasks;
        }
    }
}

/// A table that passes, and mostly an easing of it.
fn passing_pair(rng: &mut Rng) -> (Vec<Task>, Vec<Task>) {
    let old = passing(rng);
    let mut new = eased(rng, &old);
    if rng.chance(10) {
        meddle(rng, &mut new);
    }
    (old, new)
}

/// Where a table is told to be an easing of one that passes, the check passes it with just its horizon as budget.
pub fn eased_tables_pass(bench: &mut Bench, rng: &mut Rng, count: u64) {
    let tables: Vec<(Vec<Task>, Vec<Task>)> = (0..count).map(|_| passing_pair(rng)).collect();
    let mut told = 0;
    for some in tables.chunks(2_000) {
        let asked: Vec<Request> = some.iter().map(|tables| request(rng, tables)).collect();
        let mut checks = Vec::new();
        for (reply, (_, new)) in bench.answer(&asked).iter().zip(some) {
            if reply.result % 4 == EASED {
                let horizon = reference::horizon(new, reference::round(new).unwrap());
                checks.push(Request::check(file_of(horizon, new)));
            }
        }
        told += checks.len() as u64;
        for reply in bench.answer(&checks) {
            bench.count(worsts(&reply.written()).0, || format!("an easing that does not pass: {:?}", reply.written()));
        }
    }
    println!("easings told of tables that pass: {told}");
    bench.count(told >= count / 2, || format!("only {told} easings of {count} pairs"));
    bench.end_group("easings of tables that pass");
}

/// With costs alone lowered the table passes, and no worst response is larger.
pub fn lowered_costs(bench: &mut Bench, rng: &mut Rng, count: u64) {
    let tables: Vec<Vec<Task>> = (0..count).map(|_| passing(rng)).collect();
    for some in tables.chunks(2_000) {
        let after: Vec<Vec<Task>> = some.iter().map(|tasks| lowered(rng, tasks)).collect();
        let check = |tasks: &Vec<Task>| Request::check(file_of(u64::MAX, tasks));
        let before = bench.answer(&some.iter().map(check).collect::<Vec<_>>());
        let replies = bench.answer(&after.iter().map(check).collect::<Vec<_>>());
        for ((one, other), tasks) in before.iter().zip(&replies).zip(some) {
            let ((_, old), (passes, new)) = (worsts(&one.written()), worsts(&other.written()));
            let slower = old.len() != new.len() || new.iter().zip(&old).any(|(new, old)| new > old);
            bench.count(passes && !slower, || format!("{tasks:?} with lower costs: {new:?} for {old:?}"));
        }
    }
    bench.end_group("worst responses with costs lowered");
}
