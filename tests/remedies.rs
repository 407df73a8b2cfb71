//! What mends a table that does not pass, by the definition: every smaller cost of each task is tried.

use crate::bench::Bench;
use crate::command::{asked, said, status_of};
use crate::inputs::*;
use crate::reference::{self, Task, Verdict};

const TABLES: u64 = 60;
/// The command looks for it without being asked only up to so many jobs, in so many tests of each task.
const JOBS: u64 = 50_000_000;
const TESTS: u64 = 17;

/// Of a task: its cost, the slots that it asks for in a round, and the largest smaller cost with which the table passes.
pub struct Remedy {
    pub cost: u64,
    pub asked: u64,
    pub mends: Option<u64>,
}

fn passes(tasks: &[Task], task: usize, cost: u32) -> bool {
    let mut changed = tasks.to_vec();
    changed[task].cost = cost;
    matches!(reference::decide(&changed, u64::MAX).verdict, Verdict::Passes(..))
}

pub fn remedies(tasks: &[Task]) -> Vec<Remedy> {
    let round = reference::round(tasks).unwrap();
    let of = |(number, task): (usize, &Task)| Remedy {
        cost: task.cost.into(),
        asked: reference::asked_in_round(&[*task], round),
        mends: (1..task.cost).filter(|&cost| passes(tasks, number, cost)).max().map(u64::from),
    };
    tasks.iter().enumerate().map(of).collect()
}

/// Whether the definition and the command look for it: the round is not long.
pub fn looked_for(tasks: &[Task]) -> bool {
    let horizon = reference::horizon(tasks, reference::round(tasks).unwrap());
    let jobs: u64 = tasks.iter().map(|task| horizon / u64::from(task.period) + 1).sum();
    jobs <= JOBS / (TESTS * tasks.len() as u64)
}

pub fn percent(part: u64, whole: u64) -> String {
    let tenths = (2_000 * part + whole) / (2 * whole);
    if part > whole && tenths == 1_000 {
        return "over 100 %".to_string();
    }
    format!("{}.{} %", tenths / 10, tenths % 10)
}

fn expected_text(tasks: &[Task]) -> String {
    let (round, remedies) = (reference::round(tasks).unwrap(), remedies(tasks));
    let load = reference::asked_in_round(tasks, round);
    let wide = load.to_string().len().max(10);
    let mut text = format!("\nthe load is {load}/{round}, {}\n", percent(load, round));
    text += "what each task asks for in a round, and the largest cost of it alone with which the table passes:\n";
    text += &format!("  task   cost  {:>wide$}    share  mends\n", "in a round");
    for (number, Remedy { cost, asked, mends }) in remedies.iter().enumerate() {
        let mends = mends.map_or("none".to_string(), |cost| cost.to_string());
        text += &format!("  {number:>4}  {cost:>5}  {asked:>wide$}  {:>7}  {mends:>5}\n", percent(*asked, round));
    }
    if remedies.iter().any(|remedy| remedy.mends.is_none()) {
        text += "none: no cost of that task alone mends it\n";
    }
    text
}

fn tried(bench: &mut Bench, rng: &mut Rng, tasks: &[Task]) {
    let budget = rng.pick(&[u64::MAX, reference::horizon(tasks, reference::round(tasks).unwrap())]);
    let verdict = reference::decide(tasks, budget).verdict;
    if status_of(&verdict) != 3 || !looked_for(tasks) {
        return;
    }
    let (output, expected) = (asked(&["judge", "-"], &file_of(budget, tasks)), expected_text(tasks));
    bench.count(said(&output).ends_with(&expected), || format!("judge of {tasks:?}: {output:?}, not {expected}"));
}

pub fn at_random(bench: &mut Bench, rng: &mut Rng) {
    for _ in 0..TABLES {
        let mut tasks = near_border(rng);
        let heavier = rng.below(tasks.len() as u64) as usize;
        tasks[heavier].cost = (tasks[heavier].cost + rng.range(0, 2)).min(tasks[heavier].deadline);
        tried(bench, rng, &tasks);
    }
    bench.end_group("what mends a table");
}
