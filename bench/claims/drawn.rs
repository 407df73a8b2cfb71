//! How many tables that pass the quick and the distance test know, as Pellizzoni and Lipari count in their figures 8 to 12.

use crate::calls::{report, AFTER};
use crate::claims::distance::distances_pass;
use crate::events::{again, arrays};
use crate::page::Page;
use crate::tables::{horizon, overload, round, table_file, task, Chance, Task};
use crate::walk::End;

const COMPARED: u64 = 1_000_000;
const LOADS: [f64; 5] = [0.80, 0.84, 0.88, 0.92, 0.96];

struct Setting {
    tasks: usize,
    divisor: u64,
    deadlines: (f64, f64),
}

pub fn claim(page: &mut Page) {
    let words =
        "Distances pass at least as many tables as simultaneous starts do, and with a round of at most 1,000,000 none that the exact test does not pass";
    let columns = "quick, distance, percent (all that pass) | load 0.80 | 0.84 | 0.88 | 0.92 | 0.96";
    page.claim(words, columns);
    let setting = |tasks, divisor, low, high| Setting { tasks, divisor, deadlines: (low, high) };
    let settings = [
        setting(6, 10, 0.3, 0.8),
        setting(6, 10, 0.5, 1.0),
        setting(6, 5, 0.3, 0.8),
        setting(10, 10, 0.3, 0.8),
        setting(10, 10, 0.5, 1.0),
    ];
    for setting in &settings {
        let (low, high) = setting.deadlines;
        let name = format!("{} tasks, divisor {}, deadlines {low} to {high}", setting.tasks, setting.divisor);
        let mut chance = Chance(0x9e37_79b9_7f4a_7c15);
        let points = LOADS.map(|load| point(page, &mut chance, setting, load));
        page.row([name].into_iter().chain(points).collect());
    }
}

fn point(page: &Page, chance: &mut Chance, setting: &Setting, load: f64) -> String {
    // a table with a longer round is drawn again, so that the exact test of each is short
    let (tables, longest) = if page.short { (10, 100_000) } else { (1000, 1_000_000_000) };
    let (mut all, mut quickly, mut by_distance) = (0, 0, 0);
    for _ in 0..tables {
        let tasks = drawn(chance, setting, load, longest);
        let (quick, near, passes) = answers(&tasks);
        assert!((!quick || near) && (!near || passes));
        quickly += quick as u32;
        by_distance += near as u32;
        all += passes as u32;
    }
    let part = |some: u32| 100.0 * some as f64 / all.max(1) as f64;
    format!("{:.0}, {:.0} ({all})", part(quickly), part(by_distance))
}

/// The distance test and its Rust program agree, or the run ends. On a long round the exact test is asked only where distances do not pass.
fn answers(tasks: &[Task]) -> (bool, bool, bool) {
    let file = table_file(tasks, u64::MAX);
    let (quick, near) = (AFTER.quick(&file) == 1, AFTER.distance(&file) == 1);
    assert_eq!(near, distances_pass(tasks, arrays));
    let compared = round(tasks) <= COMPARED;
    let passes = (near && !compared) || report(&file).contains("verdict passes");
    if compared {
        assert_eq!(passes, matches!(arrays(tasks, horizon(tasks), again(tasks)).end, End::Reached(_)));
    }
    (quick, near, passes)
}

// As Pellizzoni and Lipari draw them: periods of 10 to 200 with a common divisor, costs by the shares, offsets below the period. What
// no table can be, or has too long a round, is drawn again.
fn drawn(chance: &mut Chance, setting: &Setting, load: f64, longest: u64) -> Vec<Task> {
    loop {
        let tasks: Vec<Task> =
            shares(chance, setting.tasks, load).into_iter().map(|share| drawn_task(chance, setting, share)).collect();
        let good = tasks.iter().all(|k| 1 <= k.cost && k.cost <= k.deadline);
        if good && round(&tasks) <= longest && !overload(&tasks) {
            return tasks;
        }
    }
}

fn drawn_task(chance: &mut Chance, setting: &Setting, share: f64) -> Task {
    let period = setting.divisor * chance.range(10 / setting.divisor, 200 / setting.divisor);
    let (low, high) = setting.deadlines;
    let of_period = |part: f64| (period as f64 * part).round() as u32;
    let deadline = of_period(low + (high - low) * chance.fraction());
    task(chance.range(0, period - 1) as u32, of_period(share), deadline, period as u32)
}

// Shares of the load: uniform over all that add up to it.
fn shares(chance: &mut Chance, count: usize, load: f64) -> Vec<f64> {
    let (mut left, mut shares) = (load, vec![]);
    for others in (1..count).rev() {
        let next = left * chance.fraction().powf(1.0 / others as f64);
        shares.push(left - next);
        left = next;
    }
    shares.push(left);
    shares
}
