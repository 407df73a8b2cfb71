//! Two Rust programs that go from one release or finish to the next, and stop where the run repeats, as the proved test does.
//! A deadline with the period behind it is one number, so that one comparison orders two jobs.

use std::cmp::Reverse;
use std::collections::BinaryHeap;

use crate::calls::TASKS;
use crate::tables::{largest_offset, round, Task};
use crate::walk::{End, Walk};

pub type Program = fn(&[Task], u64, u64) -> Walk;
pub const PROGRAMS: [Program; 2] = [arrays, heaps];

/// From here on a run without an open job repeats what it did a round before.
pub fn again(tasks: &[Task]) -> u64 {
    largest_offset(tasks) + round(tasks)
}

const PERIOD_BITS: u32 = 16;
const TASK_BITS: u32 = 5;
const NO_JOB: u64 = u64::MAX;

fn job(k: &Task, released: u64) -> u64 {
    (released + k.deadline as u64) << PERIOD_BITS | k.period as u64
}

/// With arrays: the next release and the open job of each task, and one pass over the tasks an event.
#[inline(never)]
pub fn arrays(tasks: &[Task], end: u64, again: u64) -> Walk {
    in_arrays(tasks, end, again).0
}

/// The releases and finishes up to where the programs stop.
#[inline(never)]
pub fn events(tasks: &[Task], end: u64, again: u64) -> u64 {
    in_arrays(tasks, end, again).1
}

// Inlined, so that nothing is counted where the count is not asked for.
#[inline(always)]
fn in_arrays(tasks: &[Task], end: u64, again: u64) -> (Walk, u64) {
    // said once, so that no place in an array is checked in the loop
    assert!(tasks.len() <= TASKS);
    let mut state = Arrays { next: [0; TASKS], open: [NO_JOB; TASKS], left: [0; TASKS] };
    state.next.iter_mut().zip(tasks).for_each(|(next, k)| *next = k.offset as u64);
    let mut worst = [0u32; TASKS];
    let (mut jobs, mut idle, mut at, mut events) = (0, 0, 0, 0);
    loop {
        if jobs == 0 && at >= again {
            return (Walk { end: End::Reached(end), worst, idle }, events);
        }
        let Some(seen) = state.pass(tasks, at, end) else {
            return (Walk { end: End::Late(at), worst, idle }, events);
        };
        (jobs, events) = (jobs + seen.released, events + seen.released);
        if at == end {
            return (Walk { end: End::Reached(at), worst, idle }, events);
        }
        if jobs == 0 {
            // only at 0 is an idle instant not found by now
            idle = if idle == 0 { 1 } else { idle };
            at = seen.soon;
            continue;
        }
        let i = seen.owner;
        let (done, stop) = (at + state.left[i], seen.soon.min(seen.due));
        if stop < done {
            state.left[i] = done - stop;
            at = stop;
        } else {
            state.open[i] = NO_JOB;
            worst[i] = worst[i].max(tasks[i].deadline - (seen.due - done) as u32);
            (jobs, events) = (jobs - 1, events + 1);
            at = done;
            idle = if idle == 0 && jobs == 0 { at } else { idle };
        }
    }
}

struct Arrays {
    next: [u64; TASKS],
    open: [u64; TASKS],
    left: [u64; TASKS],
}

// The open job with the earliest deadline, the next release or the end, and how many jobs were released now.
struct Seen {
    owner: usize,
    due: u64,
    soon: u64,
    released: u64,
}

impl Arrays {
    // Releases what is due now, or finds that a job is late.
    #[inline(always)]
    fn pass(&mut self, tasks: &[Task], at: u64, end: u64) -> Option<Seen> {
        let (mut owner, mut first, mut soon, mut released) = (0, NO_JOB, end, 0);
        for (i, k) in tasks.iter().enumerate() {
            if self.next[i] == at {
                // its last job is open still, and was due by now
                if self.open[i] != NO_JOB {
                    return None;
                }
                self.open[i] = job(k, at);
                self.left[i] = k.cost as u64;
                self.next[i] = at + k.period as u64;
                released += 1;
            }
            if self.open[i] < first {
                (first, owner) = (self.open[i], i);
            }
            soon = soon.min(self.next[i]);
        }
        let due = first >> PERIOD_BITS;
        (at < due).then_some(Seen { owner, due, soon, released })
    }
}

/// With two binary heaps: the next releases, and the open jobs by deadline, period and number.
#[inline(never)]
pub fn heaps(tasks: &[Task], end: u64, again: u64) -> Walk {
    let first = |(i, k): (usize, &Task)| Reverse((k.offset as u64) << TASK_BITS | i as u64);
    let mut releases: BinaryHeap<Reverse<u64>> = tasks.iter().enumerate().map(first).collect();
    let mut open = BinaryHeap::with_capacity(tasks.len());
    let mut left = [0u64; TASKS];
    let mut worst = [0u32; TASKS];
    let (mut idle, mut at) = (0, 0);
    loop {
        let due = open.peek().map_or(NO_JOB, |&Reverse(top)| deadline(top));
        if due <= at {
            return Walk { end: End::Late(at), worst, idle };
        }
        if at == end || (due == NO_JOB && at >= again) {
            return Walk { end: End::Reached(end), worst, idle };
        }
        let soon = release(tasks, at, &mut releases, &mut open, &mut left).min(end);
        let Some(&Reverse(top)) = open.peek() else {
            idle = if idle == 0 { 1 } else { idle };
            at = soon;
            continue;
        };
        let (due, owner) = (deadline(top), number(top));
        let (done, stop) = (at + left[owner], soon.min(due));
        if stop < done {
            left[owner] = done - stop;
            at = stop;
        } else {
            open.pop();
            worst[owner] = worst[owner].max(tasks[owner].deadline - (due - done) as u32);
            at = done;
            idle = if idle == 0 && open.is_empty() { at } else { idle };
        }
    }
}

fn deadline(top: u64) -> u64 {
    top >> (PERIOD_BITS + TASK_BITS)
}

fn number(top: u64) -> usize {
    (top & ((1 << TASK_BITS) - 1)) as usize
}

// Opens the jobs that are released now, and hands back the next release.
#[inline(always)]
fn release(
    tasks: &[Task],
    at: u64,
    releases: &mut BinaryHeap<Reverse<u64>>,
    open: &mut BinaryHeap<Reverse<u64>>,
    left: &mut [u64; TASKS],
) -> u64 {
    loop {
        let mut top = releases.peek_mut().unwrap();
        let (time, i) = (top.0 >> TASK_BITS, number(top.0));
        if time != at {
            return time;
        }
        // in place: one way down the heap, and not a pop and a push
        *top = Reverse((at + tasks[i].period as u64) << TASK_BITS | i as u64);
        left[i] = tasks[i].cost as u64;
        open.push(Reverse(job(&tasks[i], at) << TASK_BITS | i as u64));
    }
}
