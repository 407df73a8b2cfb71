//! The judge of a camera's log once more, written from section 6 of the specification alone: byte by byte from any state, and by whole
//! records from the start.

use crate::reference::{self, long, refuse, word, Refusal, State, Task, NONE, STATE_BYTES, TASKS};

pub const LOG_BYTES: usize = STATE_BYTES + 4 * 4 + 8 * 2;
pub const LONGEST_LOG: u64 = (1 << 32) - 1;
pub const GOOD: u32 = 1;
pub const DIFFERS: u32 = 2;

/// What is found of a log: a number and a place. Number 0: nothing.
pub type Found = (u32, u32);

#[derive(Clone, Copy, PartialEq, Eq, Debug)]
pub struct Log {
    pub state: State,
    pub opened: bool,
    pub done: bool,
    pub found: Found,
    pub slots: u64,
    pub bytes: u64,
}

impl Log {
    pub fn start(tasks: &[Task]) -> Log {
        Log { state: reference::start(tasks), opened: false, done: false, found: (0, 0), slots: 0, bytes: 0 }
    }

    pub fn from_bytes(bytes: &[u8]) -> Log {
        let at = |place: usize| word(bytes, (STATE_BYTES + place) / 4);
        Log {
            state: State::from_bytes(bytes),
            opened: at(0) != 0,
            done: at(4) != 0,
            found: (at(8), if at(8) < DIFFERS { 0 } else { at(12) }),
            slots: long(bytes, STATE_BYTES + 16),
            bytes: long(bytes, STATE_BYTES + 24),
        }
    }

    /// No step stands behind a log, so the words of one say that none was late.
    pub fn to_bytes(self) -> Vec<u8> {
        let state = State { late: 0, closed: 0, lowest: NONE, ..self.state };
        let words = [self.opened as u32, self.done as u32, self.found.0, self.found.1];
        let mut bytes = state.to_bytes();
        bytes.extend(words.iter().flat_map(|word| word.to_le_bytes()));
        bytes.extend([self.slots, self.bytes].iter().flat_map(|count| count.to_le_bytes()));
        bytes
    }

    pub fn belongs(&self, tasks: &[Task]) -> Result<(), Refusal> {
        reference::belongs(tasks, &self.state)?;
        if u128::from(self.slots) != self.state.counted(tasks) || self.slots > self.bytes || self.bytes > LONGEST_LOG {
            return refuse(8, TASKS + 2);
        }
        Ok(())
    }

    fn fault(&mut self, number: u32) {
        self.found = (number, self.bytes as u32);
    }

    /// The next slot went to this task, or to none: it is the dispatcher's, or nothing moves.
    fn slot(&mut self, tasks: &[Task], task: Option<u8>) {
        let next = reference::step(tasks, &self.state, self.done).expect("a log that belongs is stepped");
        let owner = if next.last == NONE { None } else { Some(next.last as u8) };
        if owner != task {
            self.found = (DIFFERS, self.slots as u32);
            return;
        }
        *self = Log { state: next, opened: false, done: false, slots: self.slots + 1, bytes: self.bytes + 1, ..*self };
    }

    pub fn read(&mut self, tasks: &[Task], byte: u8) {
        match (self.found.0, byte) {
            (0 | GOOD, _) if self.bytes == LONGEST_LOG => self.fault(44),
            (GOOD, _) => self.fault(42),
            (0, task) if self.opened => self.slot(tasks, Some(task)),
            (0, 17) => self.slot(tasks, None),
            (0, 18) if self.slots == 0 || self.done => self.fault(41),
            (0, 16 | 18 | 19) => {
                self.bytes += 1;
                match byte {
                    16 => self.opened = true,
                    18 => self.done = true,
                    _ => self.found = (GOOD, 0),
                }
            }
            (0, _) => self.fault(40),
            _ => (),
        }
    }

    pub fn finish(&mut self) {
        if self.found.0 == 0 {
            self.fault(43);
        }
    }

    pub fn told(&self) -> u64 {
        u64::from(self.found.0) << 32 | u64::from(self.found.1)
    }
}

/// The answer to a whole short log, record by record: a slot and the report about it are taken together, so that a report at any other
/// place is one too many.
pub fn whole_answer(tasks: &[Task], log: &[u8]) -> Found {
    let (mut state, mut slot, mut at, mut done) = (reference::start(tasks), 0, 0, false);
    loop {
        let place = at as u32;
        let (task, length) = match log[at..] {
            [] | [16] => return (43, log.len() as u32),
            [16, task, ..] => (u32::from(task), 2),
            [17, ..] => (u32::MAX, 1),
            [18, ..] => return (41, place),
            [19] => return (GOOD, 0),
            [19, ..] => return (42, place + 1),
            _ => return (40, place),
        };
        state = reference::step(tasks, &state, done).expect("a state of a history is stepped");
        let owner = if state.last == NONE { u32::MAX } else { state.last };
        if task != owner {
            return (DIFFERS, slot);
        }
        (slot, at) = (slot + 1, at + length);
        done = log.get(at) == Some(&18);
        at += usize::from(done);
    }
}

/// What a camera writes that runs the table and is told done so, with no end yet.
pub fn camera_log(tasks: &[Task], done: &[bool]) -> Vec<u8> {
    let (mut state, mut log) = (reference::start(tasks), Vec::new());
    let mut told = false;
    for &next in done {
        state = reference::step(tasks, &state, told).expect("a state of a history is stepped");
        match state.last {
            NONE => log.push(17),
            task => log.extend([16, task as u8]),
        }
        if next {
            log.push(18);
        }
        told = next;
    }
    log
}
