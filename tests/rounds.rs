//! The exact test at full load and with offsets far above the periods, at budgets about a round, the horizon and what lies between.

use crate::bench::Bench;
use crate::calls::Request;
use crate::inputs::*;
use crate::reference::{self, Task, Verdict};

/// The longest horizon that the reference can run at a dozen budgets.
const LONGEST: u64 = 3_000;

/// Offsets moved by whole rounds, so that what comes for ever is as it was, and what comes before is not.
fn move_by_rounds(rng: &mut Rng, tasks: &mut [Task], round: u64) {
    let most = rng.pick(&[0, 1, 3, 20]);
    for task in tasks.iter_mut() {
        let moved = u64::from(task.offset) + rng.below(most + 1) * round;
        task.offset = moved.min(60_000) as u32;
    }
}

/// About a round, a round behind the largest offset, two rounds, and the horizon.
fn budgets(tasks: &[Task]) -> Vec<u64> {
    let round = reference::round(tasks).unwrap();
    let horizon = reference::horizon(tasks, round);
    let mut budgets = [round, horizon - round, 2 * round, horizon].map(|about| [about - 1, about, about + 1]).concat();
    budgets.sort_unstable();
    budgets.dedup();
    budgets.retain(|&budget| budget > 0);
    budgets
}

/// Both engines at every budget. Some tables are late only in the last round before the horizon, which a test that ended sooner would miss.
pub fn budgets_about_rounds(bench: &mut Bench, rng: &mut Rng, count: u64) {
    let (mut asked, mut passed, mut late, mut late_last) = (0, 0, 0, 0);
    while asked < count {
        let mut tasks = full(rng);
        let round = reference::round(&tasks).unwrap();
        move_by_rounds(rng, &mut tasks, round);
        let horizon = reference::horizon(&tasks, round);
        if horizon > LONGEST {
            continue;
        }
        match reference::decide(&tasks, u64::MAX).verdict {
            Verdict::Late(found) => (late, late_last) = (late + 1, late_last + u64::from(found.end > horizon - round)),
            _ => passed += 1,
        }
        budgets(&tasks).into_iter().for_each(|budget| bench.ask(Request::check(file_of(budget, &tasks))));
        asked += 1;
    }
    println!("at full load: {passed} pass, {late} are late, {late_last} of them only in the last round");
    bench.count(passed.min(late) >= count / 50 && late_last >= count / 1_000, || {
        format!("{passed} pass, {late} late, {late_last} at last")
    });
    bench.end_group("check at full load, at budgets about rounds and horizons");
}

/// The largest offsets that there can be, behind short rounds.
pub fn largest_offsets(bench: &mut Bench, rng: &mut Rng, count: u64) {
    let mut asked = 0;
    while asked < count {
        let mut tasks = full(rng);
        if reference::round(&tasks).unwrap() > 500 {
            continue;
        }
        let task = rng.below(tasks.len() as u64) as usize;
        tasks[task].offset = 60_000 - rng.range(0, 500);
        let some = budgets(&tasks);
        some.into_iter().rev().take(6).for_each(|budget| bench.ask(Request::check(file_of(budget, &tasks))));
        asked += 1;
    }
    bench.end_group("check at full load, behind the largest offsets");
}
