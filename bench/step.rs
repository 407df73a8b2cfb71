//! A start and a step in Rust, from the same bytes as the proved calls and with the same refusals, by docs/SPECIFICATION.md.

use crate::calls::{STATE_BYTES, TASKS};
use crate::tables::{task, Task};

const LONGEST_PERIOD: u32 = 60_000;
const LARGEST_OFFSET: u32 = 60_000;
const LARGEST_ROUND: u64 = 1_000_000_000_000;

const WAIT: usize = 0;
const LEFT: usize = 128;
const LAST: usize = 256;
const LATE: usize = 260;
const GIVEN: usize = 272;
const EMPTY: usize = 528;

/// The answer, or 65,536 times the refusal's number plus its place.
pub fn start(file: &[u8], state: &mut [u8]) -> u64 {
    match try_start(file, state) {
        Ok(answer) | Err(answer) => answer,
    }
}

pub fn step(file: &[u8], state: &mut [u8], done: u32) -> u64 {
    match try_step(file, state, done != 0) {
        Ok(answer) | Err(answer) => answer,
    }
}

fn refused(number: u64, place: usize) -> u64 {
    number << 16 | place as u64
}

fn try_start(file: &[u8], state: &mut [u8]) -> Result<u64, u64> {
    let state = whole(state)?;
    let table = judged(file)?;
    state.fill(0);
    for (i, k) in table.tasks().iter().enumerate() {
        set_word(state, WAIT + 4 * i, k.offset);
    }
    set_word(state, LAST, TASKS as u32);
    set_word(state, LATE + 8, TASKS as u32);
    Ok(0)
}

fn try_step(file: &[u8], state: &mut [u8], done: bool) -> Result<u64, u64> {
    let state = whole(state)?;
    let table = judged(file)?;
    let tasks = table.tasks();
    belongs(tasks, state)?;
    let (owner, late) = slot(tasks, state, done);
    set_word(state, LAST, owner as u32);
    set_word(state, LATE, late);
    set_word(state, LATE + 4, late.count_ones());
    set_word(state, LATE + 8, late.trailing_zeros());
    let counted = if owner < TASKS { GIVEN + 8 * owner } else { EMPTY };
    set_count(state, counted, count(state, counted) + 1);
    Ok(owner as u64)
}

type State = [u8; STATE_BYTES];

fn whole(state: &mut [u8]) -> Result<&mut State, u64> {
    let length = state.len();
    state.try_into().map_err(|_| refused(50, length.min(65_535)))
}

fn word(state: &State, at: usize) -> u32 {
    u32::from_le_bytes(state[at..at + 4].try_into().unwrap())
}

fn set_word(state: &mut State, at: usize, number: u32) {
    state[at..at + 4].copy_from_slice(&number.to_le_bytes());
}

fn count(state: &State, at: usize) -> u64 {
    u64::from_le_bytes(state[at..at + 8].try_into().unwrap())
}

fn set_count(state: &mut State, at: usize, number: u64) {
    state[at..at + 8].copy_from_slice(&number.to_le_bytes());
}

struct Table {
    length: usize,
    tasks: [Task; TASKS],
    buttons: u32,
}

impl Table {
    fn tasks(&self) -> &[Task] {
        &self.tasks[..self.length]
    }
}

fn judged(file: &[u8]) -> Result<Table, u64> {
    let table = read(file)?;
    judge(table.tasks())?;
    if table.buttons != 0 {
        return Err(refused(11, table.buttons.trailing_zeros() as usize));
    }
    Ok(table)
}

// The budget must be there, and plays no other part.
fn read_budget(file: &[u8]) -> Result<(), u64> {
    match file.first() {
        Some(1) => {}
        None | Some(2..=4) => return Err(refused(22, 0)),
        Some(_) => return Err(refused(21, 0)),
    }
    let body = file.get(1..9).ok_or(refused(20, 0))?;
    if body == [0; 8] {
        return Err(refused(27, 0));
    }
    Ok(())
}

fn read(file: &[u8]) -> Result<Table, u64> {
    read_budget(file)?;
    let mut table = Table { length: 0, tasks: [task(0, 0, 0, 0); TASKS], buttons: 0 };
    let mut at = 9;
    loop {
        let length = match file.get(at) {
            None => return Err(refused(26, file.len())),
            Some(1) => return Err(refused(23, at)),
            Some(2) => 16,
            Some(3) => break,
            Some(4) => 12,
            Some(_) => return Err(refused(21, at)),
        };
        if table.length == TASKS {
            return Err(refused(25, at));
        }
        let body = file.get(at + 1..at + 1 + length).ok_or(refused(20, at))?;
        let number = |i: usize| u32::from_le_bytes(body[4 * i..4 * i + 4].try_into().unwrap());
        table.tasks[table.length] = if length == 16 {
            task(number(0), number(1), number(2), number(3))
        } else {
            table.buttons |= 1 << table.length;
            task(0, number(0), number(1), number(2))
        };
        table.length += 1;
        at += 1 + length;
    }
    if file.len() > at + 1 {
        return Err(refused(24, at + 1));
    }
    Ok(table)
}

// A button has no offset, and was read with 0.
fn judge(tasks: &[Task]) -> Result<(), u64> {
    if tasks.is_empty() {
        return Err(refused(1, 0));
    }
    for (i, k) in tasks.iter().enumerate() {
        let number = match *k {
            Task { period, .. } if period == 0 || period > LONGEST_PERIOD => 3,
            Task { deadline, period, .. } if deadline == 0 || deadline > period => 4,
            Task { cost, deadline, .. } if cost == 0 || cost > deadline => 5,
            Task { offset, .. } if offset > LARGEST_OFFSET => 6,
            _ => continue,
        };
        return Err(refused(number, i));
    }
    if tasks.iter().try_fold(1, round_with).is_none() {
        return Err(refused(7, 0));
    }
    Ok(())
}

// The least common multiple of the round so far and the task's period, if it is within its limit.
fn round_with(round: u64, k: &Task) -> Option<u64> {
    let common = common_divisor(k.period, (round % k.period as u64) as u32);
    Some(round * (k.period / common) as u64).filter(|&round| round <= LARGEST_ROUND)
}

fn common_divisor(mut a: u32, mut b: u32) -> u32 {
    while b != 0 {
        (a, b) = (b, a % b);
    }
    a
}

fn belongs(tasks: &[Task], state: &State) -> Result<(), u64> {
    let mut sum = Some(count(state, EMPTY));
    for (i, k) in tasks.iter().enumerate() {
        let (wait, left) = (word(state, WAIT + 4 * i), word(state, LEFT + 4 * i));
        let open = left > 0;
        if wait > k.offset.max(k.period) || left > k.cost || (open && (wait < k.period - k.deadline || wait >= k.period)) {
            return Err(refused(8, i));
        }
        sum = sum.and_then(|sum| sum.checked_add(count(state, GIVEN + 8 * i)));
    }
    let last = word(state, LAST) as usize;
    if last != TASKS && last >= tasks.len() {
        return Err(refused(8, 32));
    }
    match sum {
        None => Err(refused(8, 33)),
        Some(u64::MAX) => Err(refused(9, 0)),
        Some(_) => Ok(()),
    }
}

// The four rules in one pass; only the owner's slot is taken off behind it.
fn slot(tasks: &[Task], state: &mut State, done: bool) -> (usize, u32) {
    let closed = if done { word(state, LAST) as usize } else { TASKS };
    let (mut owner, mut first, mut late) = (TASKS, u64::MAX, 0);
    for (i, k) in tasks.iter().enumerate() {
        let slack = k.period - k.deadline;
        let (mut wait, mut left) = (word(state, WAIT + 4 * i), word(state, LEFT + 4 * i));
        if i == closed {
            left = 0;
        }
        if left > 0 && wait == slack {
            left = 0;
            late |= 1 << i;
        }
        if wait == 0 {
            (wait, left) = (k.period, k.cost);
        }
        if left > 0 {
            let key = ((wait - slack) as u64) << 32 | k.period as u64;
            if key < first {
                (first, owner) = (key, i);
            }
        }
        set_word(state, WAIT + 4 * i, wait - 1);
        set_word(state, LEFT + 4 * i, left);
    }
    if owner < TASKS {
        set_word(state, LEFT + 4 * owner, word(state, LEFT + 4 * owner) - 1);
    }
    (owner, late)
}
