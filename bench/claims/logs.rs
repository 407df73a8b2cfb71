//! A camera's log beside a Rust checker, which judges no table, counts no slots and keeps no state behind a difference.

use std::hint::black_box;

use crate::calls::{Library, AFTER, LOG_BYTES, TASKS};
use crate::page::{figure, kept, Page};
use crate::samples::{always_late, table_b, tables};
use crate::tables::{table_file, Task};

const SLOTS: usize = 60_000;
const GOOD: u64 = 1 << 32;
const DIFFERS: u64 = 2 << 32;

#[derive(Clone)]
struct Checker {
    wait: [u32; TASKS],
    left: [u32; TASKS],
    last: usize,
    opened: bool,
    done: bool,
    found: u64,
    slots: u64,
    bytes: u64,
}

impl Checker {
    fn new(tasks: &[Task]) -> Checker {
        let mut wait = [0; TASKS];
        for (i, k) in tasks.iter().enumerate() {
            wait[i] = k.offset;
        }
        Checker { wait, left: [0; TASKS], last: TASKS, opened: false, done: false, found: 0, slots: 0, bytes: 0 }
    }

    // The four rules in one pass, on the checker's own arrays: a slot that differs ends it, so nothing needs to be put back.
    fn step(&mut self, tasks: &[Task]) -> usize {
        if self.done && self.last < TASKS {
            self.left[self.last] = 0;
        }
        let (mut owner, mut first) = (TASKS, u64::MAX);
        for (i, k) in tasks.iter().enumerate() {
            let (mut wait, mut left) = (self.wait[i], self.left[i]);
            if left > 0 && wait == k.period - k.deadline {
                left = 0;
            }
            if wait == 0 {
                (wait, left) = (k.period, k.cost);
            }
            let key = ((wait - (k.period - k.deadline)) as u64) << 32 | k.period as u64;
            if left > 0 && key < first {
                (owner, first) = (i, key);
            }
            (self.wait[i], self.left[i]) = (wait - 1, left);
        }
        if owner < TASKS {
            self.left[owner] -= 1;
        }
        self.last = owner;
        owner
    }

    fn slot(&mut self, tasks: &[Task], said: usize) {
        if self.step(tasks) == said {
            (self.opened, self.done, self.slots, self.bytes) = (false, false, self.slots + 1, self.bytes + 1);
        } else {
            self.found = DIFFERS + self.slots;
        }
    }

    fn feed(&mut self, tasks: &[Task], piece: &[u8]) {
        for &byte in piece {
            match (self.found, byte) {
                (GOOD, _) => self.found = (42 << 32) + self.bytes,
                (0, task) if self.opened => {
                    self.slot(tasks, if (task as usize) < tasks.len() { task as usize } else { usize::MAX })
                }
                (0, 17) => self.slot(tasks, TASKS),
                (0, 18) if self.slots == 0 || self.done => self.found = (41 << 32) + self.bytes,
                (0, 16..=19) => {
                    self.bytes += 1;
                    match byte {
                        16 => self.opened = true,
                        18 => self.done = true,
                        _ => self.found = GOOD,
                    }
                }
                (0, _) => self.found = (40 << 32) + self.bytes,
                _ => return,
            }
        }
    }
}

/// A camera's log: what the checker's own rules give out, with a done report about every seventh slot.
fn camera_log(tasks: &[Task], slots: usize) -> Vec<u8> {
    let (mut camera, mut log) = (Checker::new(tasks), Vec::new());
    for slot in 0..slots {
        match camera.step(tasks) {
            TASKS => log.push(17),
            owner => log.extend([16, owner as u8]),
        }
        camera.done = slot % 7 == 0;
        if camera.done {
            log.push(18);
        }
    }
    log.push(19);
    log
}

fn proved(library: &Library, file: &[u8], log: &[u8], piece: usize) -> u64 {
    let mut state = [0u8; LOG_BYTES];
    library.log_start(file, &mut state);
    for part in log.chunks(piece) {
        library.log_feed(black_box(file), &mut state, black_box(part));
    }
    library.log_finish(file, &mut state)
}

#[inline(never)]
fn plain(tasks: &[Task], log: &[u8], piece: usize) -> u64 {
    let mut checker = Checker::new(tasks);
    for part in log.chunks(piece) {
        checker.feed(black_box(tasks), black_box(part));
    }
    checker.found
}

pub fn claim(page: &mut Page) {
    let words = "Where no job is late, a byte of a whole log takes at most as long as the Rust checker takes over it";
    let columns = "log, ns a byte | whole | Rust | ratio | in pieces of 64 | Rust | ratio";
    page.claim(words, columns);
    for (name, tasks) in [("2 tasks, table b", table_b())].into_iter().chain(tables()).chain(always_late()) {
        let slots = if page.short { SLOTS / 20 } else { SLOTS };
        let (file, log) = (table_file(&tasks, 1), camera_log(&tasks, slots));
        damaged(name, &tasks, &file, &log);
        let pieces = [log.len(), 64];
        let [whole, short] = pieces.map(|piece| times(page, name, &tasks, (&file, &log), piece));
        page.bar(name.ends_with("late all the time") || whole[0] <= whole[1]);
        let figures = [whole[0], whole[1], whole[0] / whole[1], short[0], short[1], short[0] / short[1]];
        page.row([name.to_string()].into_iter().chain(figures.map(figure)).collect());
        for piece in pieces {
            page.beside(|library| library.log_feed as usize, &|library| kept(proved(library, &file, &log, piece)));
        }
    }
}

fn times(page: &mut Page, name: &str, tasks: &[Task], (file, log): (&[u8], &[u8]), piece: usize) -> [f64; 2] {
    assert_eq!(proved(&AFTER, file, log, piece), GOOD, "{name}");
    assert_eq!(plain(tasks, log, piece), GOOD, "{name}");
    let times = page.turns(&mut [&mut || kept(proved(&AFTER, file, log, piece)), &mut || kept(plain(tasks, log, piece))]);
    [times[0] / log.len() as f64, times[1] / log.len() as f64]
}

/// The same is found of the log with one byte changed or twice, at places all over it.
fn damaged(name: &str, tasks: &[Task], file: &[u8], log: &[u8]) {
    for place in (0..log.len()).step_by(log.len() / 100 | 1) {
        let mut other = log.to_vec();
        if place % 2 == 0 {
            other[place] ^= 1;
        } else {
            other.insert(place, log[place]);
        }
        assert_eq!(proved(&AFTER, file, &other, 1000), finished(plain(tasks, &other, 1000), &other), "{name}, byte {place}");
    }
}

fn finished(found: u64, log: &[u8]) -> u64 {
    if found == 0 {
        (43 << 32) + log.len() as u64
    } else {
        found
    }
}
