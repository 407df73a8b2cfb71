//! The quick test beside the event-driven Rust programs from simultaneous starts to the first idle instant.

use std::hint::black_box;

use crate::agreed::starts_pass;
use crate::calls::AFTER;
use crate::events::{arrays, heaps, Program, PROGRAMS};
use crate::page::{count, figure, kept, Page};
use crate::samples::{full_load, long_full_loads, tables, tiny_tables};
use crate::tables::{round, table_file, task, Task};

const MOST: f64 = 60e9;

pub fn claim(page: &mut Page) {
    let words = "The quick test takes at most 60 s on the slowest table that was found, whatever the budget";
    let columns = "quick test, microseconds | H | answer | proved | Rust | ratio";
    page.claim(words, columns);
    for (name, tasks) in tiny_tables().into_iter().skip(3).chain(tables()).chain([full_load()]) {
        row(page, name, &tasks, AFTER.quick(&table_file(&tasks, 1)) == 1, true);
    }
    // a Rust program would walk for minutes; all of these pass, and the last two take their time over it
    for (name, tasks) in long_full_loads().into_iter().take(if page.short { 2 } else { usize::MAX }) {
        row(page, name, &tasks, true, false);
    }
}

fn row(page: &mut Page, name: &str, tasks: &[Task], passes: bool, walked: bool) {
    let file = table_file(tasks, 1);
    let together: Vec<Task> = tasks.iter().map(|k| task(0, k.cost, k.deadline, k.period)).collect();
    let ours = || assert_eq!(AFTER.quick(black_box(&file)) == 1, passes, "{name}");
    let theirs = |program: Program| assert_eq!(starts_pass(black_box(&together), program), passes, "{name}");
    if page.short {
        ours();
    }
    let times = if walked {
        PROGRAMS.into_iter().for_each(theirs);
        page.turns(&mut [&mut { ours }, &mut || theirs(arrays), &mut || theirs(heaps)])
    } else {
        page.turns(&mut [&mut { ours }])
    };
    let (proved, rust) = (times[0], times[1..].iter().copied().reduce(f64::min));
    let [rust, ratio] =
        [rust.map(|rust| rust / 1e3), rust.map(|rust| proved / rust)].map(|cell| cell.map_or(String::new(), figure));
    page.bar(proved <= MOST);
    let answer = if passes { "pass" } else { "none" };
    page.row(vec![name.into(), count(round(tasks)), answer.into(), figure(proved / 1e3), rust, ratio]);
    page.beside(|library| library.quick as usize, &|library| kept(library.quick(black_box(&file))));
}
