//! Both engines, each less a quick test, beside the faster of two Rust walks of single slots.

use std::hint::black_box;

use crate::agreed::slots_without_search;
use crate::calls::{AFTER, REPORT_BYTES};
use crate::page::{count, figure, kept, Page};
use crate::samples::{crowded_tables, long_round, tables};
use crate::tables::{table_file, Task};
use crate::walk::{one_pass, two_passes};

const MOST: f64 = 1.1;

pub fn claim(page: &mut Page) {
    let words = "The plain engine takes at most 1.1 of the time of a Rust walk of single slots";
    let columns = "walk, ns a slot | slots | plain engine | Rust walk | ratio | by leaps, microseconds | times as fast";
    page.claim(words, columns);
    let long = [("2 tasks, H 899,940,000", long_round())];
    for (name, tasks) in tables().into_iter().chain(crowded_tables()).chain(long) {
        let slots = slots_without_search(page, name, &tasks);
        row(page, name, &tasks, slots);
    }
}

fn row(page: &mut Page, name: &str, tasks: &[Task], slots: u64) {
    let file = table_file(tasks, slots);
    let (mut report, mut other) = ([0u8; REPORT_BYTES], [0u8; REPORT_BYTES]);
    let times = page.turns(&mut [
        &mut || kept(AFTER.check_plainly(black_box(&file), &mut report)),
        &mut || kept(one_pass(black_box(tasks), black_box(slots))),
        &mut || kept(two_passes(black_box(tasks), black_box(slots))),
    ]);
    let leaps = page
        .turns(&mut [&mut || kept(AFTER.check(black_box(&file), &mut other)), &mut || kept(AFTER.quick(black_box(&file)))]);
    let (plain, rust, leaps) = (times[0] - leaps[1], times[1].min(times[2]), leaps[0] - leaps[1]);
    page.bar(plain <= MOST * rust);
    let each = |time: f64| figure(time / slots as f64);
    page.row(vec![
        name.into(),
        count(slots),
        each(plain),
        each(rust),
        figure(plain / rust),
        figure(leaps / 1e3),
        figure(rust / leaps),
    ]);
}
