//! 32 tasks and an H of 963,761,198,400, 96 % of its limit: each check is made once, and its first slots are compared.

use crate::agreed::agreed;
use crate::calls::report;
use crate::claims::events;
use crate::page::{figure, timed, Page};
use crate::samples::longest_rounds;
use crate::tables::{horizon, table_file};

const FIRST: u64 = 1_000_000_000;

pub fn claim(page: &mut Page) {
    let words =
        "With 32 tasks and an H near its limit an event takes at most 8 ns, and at most 0.6 of the faster Rust program";
    let columns = "first 10^9 slots, ns an event | events | proved | Rust | ratio | verdict | check, s";
    page.claim(words, columns);
    for (name, tasks) in longest_rounds() {
        assert!(horizon(&tasks) > 1_900_000_000_000);
        let first = if page.short { page.most_slots() } else { FIRST };
        agreed(page, name, &tasks, first);
        let mut cells = events::row(page, name, &tasks, first);
        let budget = if page.short { 1 } else { u64::MAX };
        let mut text = String::new();
        let whole = timed(1, &mut || text = report(&table_file(&tasks, budget)));
        let said = |word: &str| text.lines().find_map(|line| line.strip_prefix(word)).unwrap().to_string();
        cells.extend([said("verdict "), figure(whole / 1e9)]);
        page.row(cells);
    }
}
