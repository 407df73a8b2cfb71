//! A step from the bytes of its file and state, beside a Rust program that reads, judges, checks and writes the same.

use std::hint::black_box;

use crate::calls::{AFTER, STATE_BYTES, TASKS};
use crate::page::{figure, kept, Page};
use crate::samples::{always_late, growing_tables};
use crate::step;
use crate::tables::{table_file, Chance, Task};

const STEPS: u32 = 2_000;
const DAMAGED: u32 = 2_000;
const MOST_OF_ALL_TASKS: f64 = 400.0;

pub fn claim(page: &mut Page) {
    let words = "A step with 32 tasks takes at most 400 ns";
    let columns = "step, ns | proved | Rust | ratio";
    page.claim(words, columns);
    let mut chance = Chance(20_241);
    for (name, tasks) in growing_tables().into_iter().chain(always_late()) {
        let file = table_file(&tasks, 1);
        let state = same_steps(name, &file, &mut chance);
        same_of_damaged(name, &tasks, &state, &mut chance);
        let (mut ours, mut theirs) = (state, state);
        let (mut turn, mut other) = (0u32, 0u32);
        let times = page
            .turns(&mut [&mut || kept(AFTER.step(black_box(&file), &mut ours, every_seventh(&mut turn))), &mut || {
                kept(step::step(black_box(&file), &mut theirs, every_seventh(&mut other)))
            }]);
        page.bar(tasks.len() < TASKS || times[0] <= MOST_OF_ALL_TASKS);
        page.row(vec![name.into(), figure(times[0]), figure(times[1]), figure(times[0] / times[1])]);
        page.beside(|library| library.step as usize, &|library| kept(library.step(black_box(&file), &mut { state }, 0)));
    }
}

fn every_seventh(turn: &mut u32) -> u32 {
    *turn = turn.wrapping_add(1);
    (*turn % 7 == 0) as u32
}

/// Some thousand steps with done reports by chance: the same owners and the same bytes.
fn same_steps(name: &str, file: &[u8], chance: &mut Chance) -> [u8; STATE_BYTES] {
    let (mut ours, mut theirs) = ([7u8; STATE_BYTES], [9u8; STATE_BYTES]);
    assert_eq!(AFTER.start(file, &mut ours), step::start(file, &mut theirs), "{name}");
    for _ in 0..STEPS {
        let done = chance.range(0, 3) as u32 / 3;
        let owner = AFTER.step(file, &mut ours, done);
        assert!(owner <= TASKS as u64, "{name}");
        assert_eq!((owner, ours), (step::step(file, &mut theirs, done), theirs), "{name}");
    }
    ours
}

/// Of a file or a state that is damaged by chance: the same answers and refusals, and the same bytes.
fn same_of_damaged(name: &str, tasks: &[Task], state: &[u8; STATE_BYTES], chance: &mut Chance) {
    let file = table_file(tasks, 1);
    for _ in 0..DAMAGED {
        let (mut bytes, mut ours) = (file.clone(), state.to_vec());
        match chance.below(8) {
            0 => bytes.truncate(chance.below(file.len())),
            1 => bytes.extend([2; 17]),
            2 => ours.truncate(chance.below(state.len())),
            3 => bytes[chance.below(file.len())] = chance.below(256) as u8,
            4 => ours[chance.below(state.len())] = chance.below(256) as u8,
            5 => bytes.splice(9..9, file[9..26].iter().copied()).for_each(drop),
            6 => bytes.splice(9..9, [4, 1, 0, 0, 0, 2, 0, 0, 0, 3, 0, 0, 0]).for_each(drop),
            _ => at_a_border(&mut ours, tasks, chance),
        }
        let mut theirs = ours.clone();
        let answer = AFTER.step(&bytes, &mut ours, 1);
        assert_eq!((answer, ours), (step::step(&bytes, &mut theirs, 1), theirs), "{name}, {bytes:?}");
    }
}

/// A wait and the slots left of a task, at the borders of what belongs to it or beside them.
fn at_a_border(state: &mut [u8], tasks: &[Task], chance: &mut Chance) {
    let i = chance.below(tasks.len());
    let Task { offset, cost, deadline, period } = tasks[i];
    let wait = [0, offset, period, period - deadline][chance.below(4)] + chance.below(3) as u32;
    let left = [0, 1, cost, cost + 1][chance.below(4)];
    state[4 * i..4 * i + 4].copy_from_slice(&wait.saturating_sub(1).to_le_bytes());
    state[128 + 4 * i..132 + 4 * i].copy_from_slice(&left.to_le_bytes());
}
