//! The writer: tables handed over as rows of words, and both ways round.

use crate::bench::Bench;
use crate::calls::Request;
use crate::files::ask_rewritten;
use crate::inputs::*;
use crate::reference::{self, button, has_button, Task, TASKS};

const BATCH: usize = 1_000;
/// Kinds of no row, and a task's and a button's, which a row of the other sort may be changed to.
const KINDS: [u32; 12] = [0, 1, 2, 3, 4, 5, 16, 2 + (1 << 8), 2 + (1 << 16), 4 + (1 << 8), 4 + (1 << 24), 1 << 31];

fn ask_rows(bench: &mut Bench, rng: &mut Rng, words: &[u32]) {
    bench.ask(Request::write(words, any_budget(rng)));
}

/// Rows of other kinds from a row on, over a table that is good up to its number of tasks, and over one that is bad.
fn other_kinds(bench: &mut Bench, rng: &mut Rng) {
    for rows in [1, 2, 3, TASKS, TASKS + 1, TASKS + 2, 40] {
        let mut words = rows_of(&sized(rng, rows));
        words[4] = rng.pick(&[words[4], 0]);
        for place in [0, 1, 2, TASKS - 1, TASKS, TASKS + 1, rows - 1].into_iter().filter(|&place| place < rows) {
            for kind in KINDS {
                let mut one = words.clone();
                one[5 * place] = kind;
                ask_rows(bench, rng, &one);
                one[5 * place..].fill(kind);
                ask_rows(bench, rng, &one);
            }
        }
    }
}

/// A button's row has a 0 where a task has its offset: with anything else there it is none, wherever it stands.
fn buttons_with_offsets(bench: &mut Bench, rng: &mut Rng) {
    for rows in [1, 2, TASKS, TASKS + 1] {
        let words = rows_of(&vec![button(1, 9, 20); rows]);
        ask_rows(bench, rng, &words);
        for place in [0, rows / 2, rows - 1] {
            for offset in [1, 2, 4, 60_000, 60_001, 1 << 8, 1 << 16, 1 << 31, u32::MAX] {
                let mut one = words.clone();
                one[5 * place + 1] = offset;
                ask_rows(bench, rng, &one);
            }
        }
    }
}

/// Places of refusals at and above the largest that can be told.
fn long_tables(bench: &mut Bench, rng: &mut Rng) {
    let words = rows_of(&[sized(rng, 1)[0]; 70_001]);
    for count in (65_534..=65_540).chain(327_669..=327_681).chain([350_000, 350_004]) {
        ask_rows(bench, rng, &words[..count]);
        let mut last = words[..count].to_vec();
        last[(count - 1) / 5 * 5] = 3;
        ask_rows(bench, rng, &last);
    }
}

pub fn rows(bench: &mut Bench, rng: &mut Rng) {
    for _ in 0..10 {
        let (words, any) = (rows_of(&sized(rng, TASKS + 4)), rng.next() as u32);
        for count in 0..=words.len() {
            ask_rows(bench, rng, &words[..count]);
            ask_rows(bench, rng, &vec![2; count]);
            ask_rows(bench, rng, &vec![4; count]);
            ask_rows(bench, rng, &vec![any; count]);
        }
    }
    other_kinds(bench, rng);
    buttons_with_offsets(bench, rng);
    long_tables(bench, rng);
    bench.end_group("write on rows of every number and kind");
}

pub fn buffers(bench: &mut Bench, rng: &mut Rng) {
    for tasks in [0, 1, 2, 3, TASKS - 1, TASKS, TASKS + 1, TASKS + 1, TASKS, 2, 1] {
        let mut table = sized(rng, tasks);
        if rng.chance(50) {
            make_buttons(rng, &mut table);
        }
        let (rows, needed) = (rows_of(&table), file_of(1, &table).len());
        for length in [0, needed - 1, needed] {
            bench.ask(Request { buffer: vec![0xE7; length], ..Request::write(&rows, 0) });
        }
        for length in (0..=needed + 5).chain([4_096, 65_534, 65_535, 65_536, 65_537, 70_000, 131_072]) {
            let buffer = (0..length).map(|_| rng.next() as u8).collect();
            bench.ask(Request { buffer, ..Request::write(&rows, good_budget(rng)) });
        }
    }
    bench.end_group("write into buffers of every length");
}

/// What comes back is read as the same by the reference, and by the library.
fn trip(bench: &mut Bench, tables: &[(Vec<Task>, u64)]) {
    let requests: Vec<Request> = tables.iter().map(|(tasks, budget)| Request::write(&rows_of(tasks), *budget)).collect();
    let replies = bench.answer(&requests);
    for (((tasks, budget), request), reply) in tables.iter().zip(&requests).zip(replies) {
        let file = reply.written();
        let read = reference::read_file(&file) == Ok((*budget, tasks.clone()));
        let good = reply.intact && read && (reply.result, reply.buffer) == reference::answer(request);
        bench.count(good, || format!("{tasks:?} with budget {budget} is written as {file:?}"));
        if has_button(tasks) {
            bench.ask(Request::start(file.clone()));
        } else {
            bench.ask_knowing(Request::start(file.clone()), (0, reference::start(tasks).to_bytes()));
        }
        if *budget < 100 {
            bench.ask(Request::check(file));
        }
    }
}

pub fn round_trips(bench: &mut Bench, rng: &mut Rng, count: u64) {
    let mut tables = Vec::new();
    for turn in 0..count as usize {
        let tasks = if turn % 5 == 0 { of_any_sort(rng) } else { sized(rng, 1 + turn % TASKS) };
        tables.push((tasks, good_budget(rng)));
        if tables.len() == BATCH {
            trip(bench, &std::mem::take(&mut tables));
        }
    }
    trip(bench, &tables);
    bench.end_group("tables written and read");
}

/// Good files and damaged ones that are good all the same.
pub fn rewritten(bench: &mut Bench, rng: &mut Rng, count: u64) {
    for _ in 0..count {
        let tasks = 1 + rng.below(TASKS as u64) as usize;
        let mut file = file_of(any_budget(rng), &sized(rng, tasks));
        let place = rng.below(file.len() as u64) as usize;
        file[place] ^= rng.pick(&[0, 1, 2, 128]);
        ask_rewritten(bench, &file);
    }
    bench.end_group("files read and written");
}

/// One or two numbers of a table, any word of its rows, their number, the buffer's length.
pub fn spoilt(bench: &mut Bench, rng: &mut Rng, count: u64) {
    for _ in 0..count {
        let number = 1 + rng.below(18) as usize;
        let mut tasks = sized(rng, number);
        spoil(rng, &mut tasks);
        let mut words = rows_of(&tasks);
        if rng.chance(10) {
            let place = rng.below(words.len() as u64) as usize;
            words[place] = rng.pick(&[0, 1, 2, 3, 4, 60_001, u32::MAX]);
        }
        if rng.chance(5) {
            words.truncate(rng.below(words.len() as u64) as usize);
        }
        let buffer = vec![rng.next() as u8; rng.below(400) as usize];
        bench.ask(Request { buffer, ..Request::write(&words, any_budget(rng)) });
    }
    bench.end_group("spoilt tables, written");
}
