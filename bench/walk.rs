//! The Rust walk of single slots: the earliest deadline, ties to the shorter period and then to the lower number.

use crate::calls::TASKS;
use crate::tables::Task;

#[derive(Clone, Copy, Debug, PartialEq)]
pub enum End {
    Late(u64),
    Reached(u64),
}

#[derive(Debug, PartialEq)]
pub struct Walk {
    pub end: End,
    pub worst: [u32; TASKS],
    pub idle: u64,
}

/// The part of a report that a walk decides, as the walk would say it; of a late table's interval only the end.
pub fn said_by(walk: &Walk, tasks: usize, at_horizon: bool) -> Vec<String> {
    match walk.end {
        End::Late(at) => vec!["verdict late".into(), format!("settled {at}"), format!("interval .. {at}")],
        End::Reached(at) if !at_horizon => vec!["verdict undecided".into(), format!("settled {at}")],
        End::Reached(at) => {
            let mut lines = vec!["verdict passes".into(), format!("settled {at}")];
            lines.extend((0..tasks).map(|i| format!("worst {i} {}", walk.worst[i])));
            lines.push(format!("idle {}", walk.idle));
            lines
        }
    }
}

pub fn said_by_report(report: &str) -> Vec<String> {
    let line = |line: &str| match line.split(' ').collect::<Vec<_>>()[..] {
        ["interval", _, to, "demand", _] => format!("interval .. {to}"),
        _ => line.to_string(),
    };
    report.lines().skip(4).map(line).collect()
}

/// Late jobs are looked for in the pass that makes the slot, as the proved walk does it.
#[inline(never)]
pub fn one_pass(tasks: &[Task], end: u64) -> Walk {
    walk::<false>(tasks, end)
}

/// Late jobs are looked for first, and then the slot is made.
#[inline(never)]
pub fn two_passes(tasks: &[Task], end: u64) -> Walk {
    walk::<true>(tasks, end)
}

#[inline(always)]
fn walk<const APART: bool>(tasks: &[Task], end: u64) -> Walk {
    // said once, so that no place in an array is checked in the loop
    assert!(tasks.len() <= TASKS);
    let mut slots = Slots::new(tasks);
    let (mut worst, mut idle, mut at) = ([0u32; TASKS], 0, 0);
    loop {
        let late = if APART { slots.late() } else { false };
        if APART && at == end && !late {
            return Walk { end: End::Reached(at), worst, idle };
        }
        let Some(owner) = (if late { None } else { slots.pass::<APART>() }) else {
            return Walk { end: End::Late(at), worst, idle };
        };
        if !APART && at == end {
            return Walk { end: End::Reached(at), worst, idle };
        }
        if owner < TASKS {
            slots.left[owner] -= 1;
            if slots.left[owner] == 0 {
                worst[owner] = worst[owner].max(tasks[owner].period - slots.wait[owner]);
            }
        }
        at += 1;
        if idle == 0 && slots.left[..tasks.len()].iter().all(|&left| left == 0) {
            idle = at;
        }
    }
}

struct Slots<'a> {
    tasks: &'a [Task],
    wait: [u32; TASKS],
    left: [u32; TASKS],
    slack: [u32; TASKS],
}

impl Slots<'_> {
    fn new(tasks: &[Task]) -> Slots<'_> {
        let mut slots = Slots { tasks, wait: [0; TASKS], left: [0; TASKS], slack: [0; TASKS] };
        for (i, k) in tasks.iter().enumerate() {
            (slots.wait[i], slots.slack[i]) = (k.offset, k.period - k.deadline);
        }
        slots
    }

    #[inline(always)]
    fn late(&self) -> bool {
        (0..self.tasks.len()).any(|i| self.left[i] > 0 && self.wait[i] == self.slack[i])
    }

    // The slot's owner, or TASKS for none; nothing, if a job is late and that was not looked for apart.
    #[inline(always)]
    fn pass<const APART: bool>(&mut self) -> Option<usize> {
        let (mut owner, mut first) = (TASKS, u64::MAX);
        for (i, k) in self.tasks.iter().enumerate() {
            if !APART && self.left[i] > 0 && self.wait[i] == self.slack[i] {
                return None;
            }
            if self.wait[i] == 0 {
                (self.wait[i], self.left[i]) = (k.period, k.cost);
            }
            if self.left[i] > 0 {
                let key = u64::from(self.wait[i] - self.slack[i]) << 32 | u64::from(k.period);
                if key < first {
                    (first, owner) = (key, i);
                }
            }
            self.wait[i] -= 1;
        }
        Some(owner)
    }
}
