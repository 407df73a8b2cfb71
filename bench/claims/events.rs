//! The exact test by leaps is a check less a quick test: the Rust programs make none, and no report, which stays in our time.

use std::hint::black_box;

use crate::agreed::{agreed, slots_without_search};
use crate::calls::{AFTER, REPORT_BYTES, TASKS};
use crate::events::{again, arrays, events, heaps};
use crate::page::{count, figure, kept, Page};
use crate::samples::{crowded_tables, late_tables, long_round, tables};
use crate::tables::{table_file, Task};

/// With fewer events judging and reporting are much of a check, and there is no bar.
const MANY: u64 = 1_000;
pub const MOST: f64 = 0.6;
pub const MOST_OF_ALL_TASKS: f64 = 8.0;

pub fn claim(page: &mut Page) {
    let words = "An event takes at most 0.6 of the faster Rust program where there are more than 1,000, and at most 8 ns with 32 tasks";
    let columns = "exact test, ns an event | events | proved | Rust | ratio";
    page.claim(words, columns);
    let long = [("2 tasks, H 899,940,000", long_round())];
    for (name, tasks) in tables().into_iter().chain(late_tables()).chain(crowded_tables()).chain(long) {
        let slots = slots_without_search(page, name, &tasks);
        for budget in [1, 2, slots / 3, slots - 1, slots] {
            agreed(page, name, &tasks, budget.max(1));
        }
        let cells = row(page, name, &tasks, slots);
        page.row(cells);
    }
}

/// The times up to so many slots; a row with many events has a bar.
pub fn row(page: &mut Page, name: &str, tasks: &[Task], slots: u64) -> Vec<String> {
    let again = again(tasks);
    let (file, mut report) = (table_file(tasks, slots), [0u8; REPORT_BYTES]);
    let times = page.turns(&mut [
        &mut || kept(AFTER.check(black_box(&file), &mut report)),
        &mut || kept(AFTER.quick(black_box(&file))),
        &mut || kept(arrays(black_box(tasks), black_box(slots), again)),
        &mut || kept(heaps(black_box(tasks), black_box(slots), again)),
    ]);
    let events = events(tasks, slots, again);
    let proved = times[0] - times[1];
    let rust = times[2].min(times[3]);
    let ratio = proved / rust;
    let each = |time: f64| time / events as f64;
    page.bar(events <= MANY || (ratio <= MOST && (tasks.len() < TASKS || each(proved) <= MOST_OF_ALL_TASKS)));
    vec![name.into(), count(events), figure(each(proved)), figure(each(rust)), figure(ratio)]
}
