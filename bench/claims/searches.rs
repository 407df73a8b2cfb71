//! The search for a late table's start: a check with a budget of its late deadline less one with a slot less, which walks as far.

use std::hint::black_box;

use crate::agreed::agreed;
use crate::calls::{report, AFTER, REPORT_BYTES};
use crate::page::{count, figure, kept, Page};
use crate::samples::{late_tables, worst_to_search};
use crate::tables::{table_file, Task};
use crate::walk::End;

pub fn claim(page: &mut Page) {
    let words = "The search for a late table's interval takes at most as long as the walk that found it late";
    let columns = "late table, microseconds | releases | leaps | search | ratio | plain walk | search | ratio";
    page.claim(words, columns);
    let none_passed_over = "15 tasks, none passed over";
    for (name, tasks) in late_tables().into_iter().chain([(none_passed_over, worst_to_search())]) {
        let End::Late(at) = agreed(page, name, &tasks, u64::MAX).end else { panic!("{name} is not late") };
        let from = interval_start(&table_file(&tasks, at));
        let [leaps, search, walk, plain_search] = times(page, &tasks, at);
        // the plain engine looks at every start of this one, and has no bar there
        page.bar(search <= leaps && (plain_search <= walk || name == none_passed_over));
        let releases = (from..at).filter(|&u| tasks.iter().any(|k| released(k, u))).count();
        let figures = [leaps / 1e3, search / 1e3, search / leaps, walk / 1e3, plain_search / 1e3, plain_search / walk];
        page.row([name.to_string(), count(releases as u64)].into_iter().chain(figures.map(figure)).collect());
    }
}

fn times(page: &mut Page, tasks: &[Task], at: u64) -> [f64; 4] {
    let (late, undecided) = (table_file(tasks, at), table_file(tasks, at - 1));
    let mut reports = [[0u8; REPORT_BYTES]; 4];
    let [one, two, three, four] = &mut reports;
    let times = page.turns(&mut [
        &mut || kept(AFTER.quick(black_box(&undecided))),
        &mut || kept(AFTER.check(black_box(&undecided), one)),
        &mut || kept(AFTER.check(black_box(&late), two)),
        &mut || kept(AFTER.check_plainly(black_box(&undecided), three)),
        &mut || kept(AFTER.check_plainly(black_box(&late), four)),
    ]);
    [times[1] - times[0], times[2] - times[1], times[3] - times[0], times[4] - times[3]]
}

fn interval_start(file: &[u8]) -> u64 {
    let text = report(file);
    text.lines().last().unwrap().split(' ').nth(1).unwrap().parse().unwrap()
}

fn released(k: &Task, u: u64) -> bool {
    u >= k.offset as u64 && (u - k.offset as u64) % k.period as u64 == 0
}
