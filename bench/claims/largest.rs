//! The largest cost of every task of a table, beside a Rust program that halves too and tries each cost from event to event.

use std::hint::black_box;

use crate::calls::{Library, AFTER};
use crate::events::{again, arrays, heaps, Program, PROGRAMS};
use crate::page::{figure, kept, Page};
use crate::samples::{long_round, tables, tiny_tables};
use crate::tables::{horizon, overload, table_file, Task};
use crate::walk::End;

// With fewer tasks the reading and judging of the file, which the Rust program does not make, are most of a call.
const MANY_TASKS: usize = 4;
const MOST: f64 = 0.2;

pub fn claim(page: &mut Page) {
    let words = "With 4 tasks and more the largest costs of all tasks take at most 0.2 of the faster Rust program";
    let columns = "largest costs of all tasks, microseconds | proved | Rust | ratio";
    page.claim(words, columns);
    let long = [("2 tasks, H 899,940,000", long_round())];
    for (name, tasks) in tiny_tables().into_iter().skip(4).chain(tables()).chain(long) {
        let file = table_file(&tasks, horizon(&tasks));
        let found = by_library(&AFTER, &file, tasks.len());
        assert!(PROGRAMS.iter().all(|&program| found == by_halving(&tasks, program)), "{name}");
        let by = |program: Program| kept(by_halving(black_box(&tasks), program));
        let times = page.turns(&mut [
            &mut || kept(by_library(&AFTER, black_box(&file), tasks.len())),
            &mut || by(arrays),
            &mut || by(heaps),
        ]);
        let (proved, rust) = (times[0], times[1].min(times[2]));
        page.bar(tasks.len() < MANY_TASKS || proved <= MOST * rust);
        page.row(vec![name.into(), figure(proved / 1e3), figure(rust / 1e3), figure(proved / rust)]);
        page.beside(|library| library.largest as usize, &|library| kept(by_library(library, black_box(&file), tasks.len())));
    }
}

fn by_library(library: &Library, file: &[u8], tasks: usize) -> Vec<u64> {
    (0..tasks).map(|task| library.largest(file, task)).collect()
}

fn by_halving(tasks: &[Task], program: Program) -> Vec<u64> {
    let (end, again) = (horizon(tasks), again(tasks));
    let passes = |tasks: &[Task]| !overload(tasks) && matches!(program(tasks, end, again).end, End::Reached(_));
    assert!(passes(tasks));
    (0..tasks.len()).map(|i| largest(tasks, i, &passes) as u64).collect()
}

fn largest(tasks: &[Task], i: usize, passes: &dyn Fn(&[Task]) -> bool) -> u32 {
    let mut changed = tasks.to_vec();
    let (mut good, mut bad) = (tasks[i].cost, tasks[i].deadline + 1);
    while bad - good > 1 {
        changed[i].cost = good + (bad - good) / 2;
        if passes(&changed) {
            good = changed[i].cost;
        } else {
            bad = changed[i].cost;
        }
    }
    good
}
