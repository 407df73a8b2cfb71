//! Tables with buttons: what the distance test says of them against runs in which the buttons come as they like.

use crate::bench::Bench;
use crate::calls::Request;
use crate::files::ask_all;
use crate::inputs::*;
use crate::reference::{self, Job, Task};

const BATCH: usize = 2_000;
const PASS: u64 = 1;
const OVERLOAD: u64 = 2;
/// Of so many tables at least one has each answer, and one that has none misses a deadline in a run.
const TABLES_PER_ANSWER: u64 = 100;
/// The runs of a table, and the most slots of one.
const RUNS: usize = 12;
const MOST_SLOTS: u64 = 400;
/// Where an overload has to show up in a run, that run is looked at if it has no more slots.
const LONG_RUN: u64 = 20_000;

/// A table near the border of what passes with some of its tasks made buttons; often made lighter, since a button needs more room.
pub fn mixed(rng: &mut Rng) -> Vec<Task> {
    let mut tasks = near_border(rng);
    if rng.chance(60) {
        tasks.iter_mut().for_each(|task| task.cost = rng.range(1, task.cost));
    }
    if rng.chance(40) {
        tasks.iter_mut().for_each(|task| task.deadline = rng.range(task.deadline, task.period));
    }
    if rng.chance(10) {
        let full = rng.below(tasks.len() as u64) as usize;
        tasks[full].cost = tasks[full].deadline;
    }
    make_buttons(rng, &mut tasks);
    tasks
}

fn buttons_alone(rng: &mut Rng) -> Vec<Task> {
    let alone = |task: &Task| reference::button(task.cost, task.deadline, task.period);
    mixed(rng).iter().map(alone).collect()
}

// Runs.

/// How the buttons of a run come, each never sooner than its spacing allows.
enum Way {
    /// All as early as can be, from an instant on.
    From(u64),
    /// Each as early as can be, from an instant of its own on; some never.
    Each(Vec<u64>),
    /// Each at any instant with such a chance in percent.
    Now(u64),
    /// All as early as can be for a while, and then after a pause all at once again: whether they do now, and until when.
    Bursts(bool, u64),
}

impl Way {
    fn any(rng: &mut Rng, tasks: &[Task], slots: u64) -> Way {
        let first = rng.pick(tasks);
        match rng.below(10) {
            0 => Way::From(0),
            1 | 2 => Way::From(u64::from(first.offset) + rng.below(4) * u64::from(first.period)),
            3 => Way::From(rng.below(slots)),
            4 | 5 => Way::Each(
                tasks.iter().map(|task| rng.below(3 * u64::from(task.period) + 1) * rng.pick(&[1, 1, 1, slots])).collect(),
            ),
            6 | 7 => Way::Now(rng.pick(&[5, 30, 70, 95])),
            _ => Way::Bursts(rng.chance(50), 0),
        }
    }

    /// At every instant once, before the buttons are asked.
    fn turn(&mut self, rng: &mut Rng, slot: u64) {
        if let Way::Bursts(pressed, until) = self {
            if slot >= *until {
                (*pressed, *until) = (!*pressed, slot + rng.pick(&[1, 3, 10, 40, 100]));
            }
        }
    }

    fn comes(&self, rng: &mut Rng, number: usize, slot: u64) -> bool {
        match self {
            Way::From(start) => slot >= *start,
            Way::Each(starts) => slot >= starts[number],
            Way::Now(percent) => rng.chance(*percent),
            Way::Bursts(pressed, _) => *pressed,
        }
    }
}

/// A run by the earliest deadline, which keeps every deadline that any schedule keeps: the first instant at which a job is late, if it
/// comes within so many slots.
fn late_at(rng: &mut Rng, tasks: &[Task], mut way: Way, slots: u64) -> Option<u64> {
    let mut open: Vec<Job> = Vec::new();
    let mut next: Vec<u64> = tasks.iter().map(|task| u64::from(task.offset)).collect();
    for slot in 0..slots {
        way.turn(rng, slot);
        for (number, task) in tasks.iter().enumerate() {
            if slot >= next[number] && (!task.button || way.comes(rng, number, slot)) {
                next[number] = slot + u64::from(task.period);
                let (deadline, left) = (slot + u64::from(task.deadline), u64::from(task.cost));
                open.push(Job { task: number, release: slot, deadline, left });
            }
        }
        if let Some(job) = open.iter_mut().min_by_key(|job| job.deadline) {
            job.left -= 1;
        }
        open.retain(|job| job.left > 0);
        if open.iter().any(|job| job.deadline <= slot + 1) {
            return Some(slot + 1);
        }
    }
    None
}

/// Whether a deadline is missed in one of the runs of a table.
fn some_run_is_late(rng: &mut Rng, tasks: &[Task]) -> bool {
    let round = reference::round(tasks).unwrap();
    let slots = (reference::horizon(tasks, round) + round).min(MOST_SLOTS);
    (0..RUNS).any(|_| {
        let way = Way::any(rng, tasks, slots);
        late_at(rng, tasks, way, slots).is_some()
    })
}

/// With all as early as can be the work that is asked for grows by a slot or more a round, until it is more than the longest deadline.
fn overload_is_late(rng: &mut Rng, tasks: &[Task]) -> bool {
    let round = reference::round(tasks).unwrap();
    let longest = tasks.iter().map(|task| task.deadline).max().unwrap();
    let slots = reference::horizon(tasks, round) + round * u64::from(longest);
    slots > LONG_RUN || late_at(rng, tasks, Way::From(0), slots).is_some()
}

/// Buttons alone, by what they can ask for in so many slots: as many jobs as are due by then if all come at once and again and again.
fn kept_by_demand(tasks: &[Task]) -> bool {
    let asked = |slots: u64| -> u64 {
        let due = tasks.iter().filter(|task| u64::from(task.deadline) <= slots);
        due.map(|task| u64::from(task.cost) * ((slots - u64::from(task.deadline)) / u64::from(task.period) + 1)).sum()
    };
    (1..=reference::round(tasks).unwrap()).all(|slots| asked(slots) <= slots)
}

// What the library says.

/// How often each answer came, and how many tables with none have a run that is late.
#[derive(Default)]
struct Told {
    answers: [u64; 3],
    late: u64,
}

impl Told {
    /// A generator that no longer reaches an answer fails, and so do runs that never miss a deadline where one may be missed.
    fn hold(&self, bench: &mut Bench, what: &str, count: u64) {
        let [none, pass, overload] = self.answers;
        println!("{what}: none {none}, of which {} are late in a run, pass {pass}, overload {overload}", self.late);
        for often in [none, pass, overload, self.late] {
            bench.count(often >= count / TABLES_PER_ANSWER, || format!("{what}: only {often} times in {count} tables"));
        }
    }
}

/// Of a pass no run is late, and of an overload that one is in which all come as early as can be.
fn held_to_runs(bench: &mut Bench, rng: &mut Rng, tasks: &[Task], answer: u64, told: &mut Told) {
    told.answers[answer as usize] += 1;
    let late = some_run_is_late(rng, tasks);
    match answer {
        PASS => bench.count(!late, || format!("pass of {tasks:?}, and a run is late")),
        OVERLOAD => bench.count(overload_is_late(rng, tasks), || format!("overload of {tasks:?}, and no job is late")),
        _ => told.late += late as u64,
    }
}

/// With buttons alone it is exact: no answer means that the run is late in which all come at 0 and as early as can be.
fn held_exactly(bench: &mut Bench, rng: &mut Rng, tasks: &[Task], answer: u64) {
    let round = reference::round(tasks).unwrap();
    if answer != OVERLOAD {
        let late = late_at(rng, tasks, Way::From(0), round).is_some();
        bench.count((answer == PASS) != late, || format!("{answer} of {tasks:?}, and late with all at 0: {late}"));
        let kept = kept_by_demand(tasks);
        bench.count((answer == PASS) == kept, || format!("{answer} of {tasks:?}, and kept by counted demand: {kept}"));
    }
}

/// The distance test's answers, each held to the reference.
fn answers(bench: &mut Bench, tables: &[Vec<Task>]) -> Vec<u64> {
    let requests: Vec<Request> = tables.iter().map(|tasks| Request::distance(file_of(1, tasks))).collect();
    let replies = bench.answer(&requests);
    for (tasks, reply) in tables.iter().zip(&replies) {
        let permitted = reference::by_distance(tasks);
        let good = reply.intact && reply.result == permitted;
        bench.count(good, || format!("distance of {tasks:?}: {}, permitted {permitted}", reply.result));
    }
    replies.iter().map(|reply| reply.result.min(OVERLOAD)).collect()
}

fn tables(bench: &mut Bench, rng: &mut Rng, some: fn(&mut Rng) -> Vec<Task>, count: u64, what: &str) {
    let (tables, mut told): (Vec<Vec<Task>>, _) = ((0..count).map(|_| some(rng)).collect(), Told::default());
    for batch in tables.chunks(BATCH) {
        for (tasks, answer) in batch.iter().zip(answers(bench, batch)) {
            held_to_runs(bench, rng, tasks, answer, &mut told);
            if tasks.iter().all(|task| task.button) {
                held_exactly(bench, rng, tasks, answer);
            }
        }
    }
    told.hold(bench, what, count);
}

pub fn runs(bench: &mut Bench, rng: &mut Rng, count: u64) {
    tables(bench, rng, mixed, count, "tasks and buttons");
    tables(bench, rng, buttons_alone, count / 2, "buttons alone");
    bench.end_group("buttons that come as they like, run by the earliest deadline");
}

/// Every call on tables with buttons, and the texts of these.
pub fn calls(bench: &mut Bench, rng: &mut Rng, count: u64) {
    for _ in 0..count {
        let (tasks, budget) = (mixed(rng), good_budget(rng));
        let file = file_of(budget, &tasks);
        ask_all(bench, &file);
        bench.ask(Request::from_text(crate::plain::text_of(budget, &tasks)));
        let new = file_of(1, &of_any_sort(rng));
        bench.ask(Request::eased(file.clone(), new.clone()));
        bench.ask(Request::eased(new, file));
    }
    bench.end_group("every call on tables with buttons");
}

/// Without a button the answer is that of periodic tasks alone, and where it is pass the table passes.
pub fn without_buttons(bench: &mut Bench, rng: &mut Rng, count: u64) {
    let tables: Vec<Vec<Task>> = (0..count).map(|_| near_border(rng)).collect();
    for batch in tables.chunks(BATCH) {
        for (tasks, answer) in batch.iter().zip(answers(bench, batch)) {
            let known = reference::by_periodic_distance(tasks);
            bench.count(answer == known, || format!("distance of {tasks:?}: {answer}, and without buttons {known}"));
            if answer == PASS {
                bench.count(!some_run_is_late(rng, tasks), || format!("pass of {tasks:?}, and its run is late"));
            }
        }
    }
    bench.end_group("the distance test without buttons");
}
