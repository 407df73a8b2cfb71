//! Whole checks: the file read, the table judged, the quick test, the exact test, the report.

use std::hint::black_box;

use crate::agreed::agreed;
use crate::calls::{AFTER, REPORT_BYTES};
use crate::page::{figure, kept, Page};
use crate::samples::{late_tables, long_round, slow_table, tables, tiny_tables};
use crate::tables::table_file;

const MOST: f64 = 250.0;

pub fn claim(page: &mut Page) {
    page.claim("A check of (0,1,1,1) takes at most 250 ns", "whole check | ns");
    let long = [("2 tasks, H 899,940,000", long_round()), ("3 tasks, tables/slow.txt", slow_table())];
    let late = late_tables().into_iter().skip(2);
    for (place, (name, tasks)) in tiny_tables().into_iter().chain(tables()).chain(late).chain(long).enumerate() {
        let budget = if page.short { page.most_slots() } else { u64::MAX };
        agreed(page, name, &tasks, budget);
        let (file, mut report) = (table_file(&tasks, budget), [0u8; REPORT_BYTES]);
        let time = page.turns(&mut [&mut || kept(AFTER.check(black_box(&file), &mut report))])[0];
        page.bar(place > 0 || time <= MOST);
        page.row(vec![name.into(), figure(time)]);
        page.beside(|library| library.check as usize, &|library| {
            kept(library.check(black_box(&file), &mut [0u8; REPORT_BYTES]));
        });
    }
}
