//! The distance test where the round is long, beside a Rust program that walks the same patterns, and beside the check.

use std::hint::black_box;

use crate::agreed::starts_pass;
use crate::calls::{report, AFTER};
use crate::events::{arrays, heaps, Program, PROGRAMS};
use crate::page::{count, figure, kept, timed, Page};
use crate::tables::{gcd, round, table_file, task, Task};

const TIMES: f64 = 10_000.0;

pub fn claim(page: &mut Page) {
    let words = "Where distances pass tables with a long round, the distance test takes at most a 10,000th of a check";
    let columns = "distance test, microseconds | H | proved | Rust | ratio | check, s | times as fast";
    page.claim(words, columns);
    for (name, tasks) in long_rounds() {
        let file = table_file(&tasks, u64::MAX);
        assert_eq!((AFTER.quick(&file), AFTER.distance(&file)), (0, 1), "{name}");
        assert!(PROGRAMS.iter().all(|&program| distances_pass(&tasks, program)), "{name}");
        let by = |program: Program| kept(distances_pass(black_box(&tasks), program));
        let times = page.turns(&mut [&mut || kept(AFTER.distance(black_box(&file))), &mut || by(arrays), &mut || by(heaps)]);
        let (proved, rust) = (times[0], times[1].min(times[2]));
        let check = if page.short { TIMES } else { timed(1, &mut || assert!(report(&file).contains("verdict passes"))) };
        page.bar(check >= TIMES * proved);
        let figures = [proved / 1e3, rust / 1e3, proved / rust, check / 1e9, check / proved];
        page.row([name.to_string(), count(round(&tasks))].into_iter().chain(figures.map(figure)).collect());
        page.beside(|library| library.distance as usize, &|library| kept(library.distance(black_box(&file))));
    }
}

/// In the pattern of each task it starts at 0, and every other as soon after it as the offsets ever allow.
pub fn distances_pass(tasks: &[Task], program: Program) -> bool {
    let start = |first: &Task, k: &Task| {
        let g = gcd(first.period as u64, k.period as u64) as i64;
        (k.offset as i64 - first.offset as i64).rem_euclid(g) as u32
    };
    tasks.iter().all(|first| {
        let pattern: Vec<Task> = tasks.iter().map(|k| task(start(first, k), k.cost, k.deadline, k.period)).collect();
        starts_pass(&pattern, program)
    })
}

// A task every `every` slots that takes its first ones, and others with long periods, all multiples of it, each in slots of its
// own behind: started together they miss deadlines, and as they are none.
fn in_turns(every: u32, first: u32, each: u32, periods: &[u32]) -> Vec<Task> {
    let mut tasks = vec![task(0, first, first, every)];
    tasks.extend((0..).zip(periods).map(|(i, &period)| task(first + each * i, each, each, period)));
    tasks
}

fn long_rounds() -> [(&'static str, Vec<Task>); 4] {
    let five = [60000, 57600, 54000, 58320, 55296];
    let many = |count: usize| five.iter().cycle().take(count).copied().collect::<Vec<u32>>();
    [
        ("3 tasks, tables/slow.txt", in_turns(4, 1, 1, &[60000, 59996])),
        ("4 tasks", in_turns(4, 1, 1, &[60000, 59996, 30000])),
        ("8 tasks", in_turns(48, 20, 4, &many(7))),
        ("16 tasks", in_turns(48, 16, 2, &many(15))),
    ]
}
