//! `log --dump`: a line for each slot of any log, whether it is the table's or not, up to what is no record.

use crate::bench::Bench;
use crate::command::{asked, said, sanitized, SANITIZED};
use crate::inputs::*;
use crate::judge::fed;
use crate::logbook::camera_log;
use crate::reference::Task;
use std::path::Path;
use std::process::Command;

const LOGS: u64 = 40;
const TABLE: &str = "target/host/dump.table";
const LONG: &str = "target/host/dump.log";
const HEADING: &str = "        slot   task  done\n";

/// The lines of the records, read one by one.
fn lines_of(mut log: &[u8]) -> String {
    let (mut lines, mut slot) = (String::new(), 0);
    loop {
        let (who, rest) = match log {
            [16, task, rest @ ..] => (task.to_string(), rest),
            [17, rest @ ..] => ("empty".to_string(), rest),
            _ => return lines,
        };
        let done = rest.first() == Some(&18);
        lines += &format!("  {slot:>10}  {who:>5}{}\n", if done { "  done" } else { "" });
        slot += 1;
        log = &rest[done as usize..];
    }
}

fn some_log(rng: &mut Rng, tasks: &[Task]) -> Vec<u8> {
    let done: Vec<bool> = (0..rng.below(100)).map(|_| rng.chance(30)).collect();
    let mut log = camera_log(tasks, &done);
    log.push(19);
    for _ in 0..rng.below(3) {
        let place = rng.below(log.len() as u64) as usize;
        log[place] = rng.pick(&[16, 17, 18, 19, 3, 77]);
    }
    log
}

/// Any bytes as a log are read without a fault.
fn under_sanitizers(bench: &mut Bench, log: &[u8]) {
    let mut command = Command::new(SANITIZED);
    sanitized(&mut command).args(["log", TABLE, "-", "--dump"]);
    let output = fed(command, log);
    let known = output.status.code().is_some_and(|code| [0, 3, 4].contains(&code)) && output.stderr.is_empty();
    bench.count(known, || format!("{log:?} under sanitizers: {output:?}"));
}

/// A log of several pieces that differs in the first one: what is said of it stays as it is while the others are printed.
fn long_one(bench: &mut Bench, rng: &mut Rng) {
    let tasks = near_border(rng);
    let log = [&[16, 200][..], &[16, 17].repeat(70_000), &[19]].concat();
    std::fs::write(TABLE, file_of(1, &tasks)).expect("target/host can be written");
    std::fs::write(LONG, &log).expect("target/host can be written");
    let (dumped, plain) = (asked(&["log", TABLE, LONG, "--dump"], b""), asked(&["log", TABLE, LONG], b""));
    let good = said(&dumped) == format!("{HEADING}{}\n{}", lines_of(&log), said(&plain)) && said(&plain).contains("slot 0 went to task 200");
    bench.count(good && plain.status.code() == Some(3), || format!("a long log of {tasks:?}: {plain:?}"));
}

/// Below it stands what is said without it, with the same status.
pub fn at_random(bench: &mut Bench, rng: &mut Rng) {
    for _ in 0..LOGS {
        let tasks = near_border(rng);
        let log = some_log(rng, &tasks);
        std::fs::write(TABLE, file_of(1, &tasks)).expect("target/host can be written");
        let (dumped, plain) = (asked(&["log", TABLE, "-", "--dump"], &log), asked(&["log", TABLE, "-"], &log));
        let expected = format!("{HEADING}{}\n{}", lines_of(&log), said(&plain));
        let good = said(&dumped) == expected && dumped.status == plain.status;
        bench.count(good, || format!("{log:?} of {tasks:?}: {dumped:?}, not {expected}"));
        if Path::new(SANITIZED).exists() {
            under_sanitizers(bench, &log);
        }
    }
    long_one(bench, rng);
    bench.end_group("dumps of logs");
}
