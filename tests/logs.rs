//! Logs that cameras bring home: every answer by the letter, every cut of short logs, long ones at random cuts, counts about 2^32, damaged
//! logs and damaged states.

use crate::bench::Bench;
use crate::calls::Request;
use crate::document::{F, G, J};
use crate::inputs::*;
use crate::logbook::{camera_log, whole_answer, Found, Log, DIFFERS, GOOD, LONGEST_LOG};
use crate::reference::{self, Task, Verdict, NONE};

type Rows = &'static [(u32, u32, u32, u32)];

/// A table, a log, and the specification's answer.
const BY_HAND: &[(Rows, &[u8], Found)] = &[
    (G, &[16, 0, 18, 16, 1, 16, 1, 17, 16, 0, 19], (GOOD, 0)),
    (G, &[19], (GOOD, 0)),
    (G, &[16, 0, 18, 19], (GOOD, 0)),
    (G, &[16, 0, 16, 0, 18, 16, 1, 19], (GOOD, 0)),
    (J, &[17, 18, 17, 17, 18, 17, 16, 0, 19], (GOOD, 0)),
    (J, &[17, 17, 17, 17, 17, 19], (DIFFERS, 4)),
    (J, &[16, 32, 19], (DIFFERS, 0)),
    (J, &[16, 255], (DIFFERS, 0)),
    (G, &[16, 2], (DIFFERS, 0)),
    (G, &[16, 1, 99, 99], (DIFFERS, 0)),
    (G, &[16, 0, 16, 1, 19, 19], (DIFFERS, 1)),
    (G, &[16, 0, 17], (DIFFERS, 1)),
    (F, &[16, 0, 17, 16, 0, 19], (GOOD, 0)),
    (G, &[0], (40, 0)),
    (G, &[16, 0, 20], (40, 2)),
    (G, &[255, 255], (40, 0)),
    (G, &[18], (41, 0)),
    (G, &[18, 16, 0], (41, 0)),
    (G, &[16, 0, 18, 18], (41, 3)),
    (G, &[16, 0, 18, 18, 99], (41, 3)),
    (J, &[17, 18, 18], (41, 2)),
    (G, &[19, 19], (42, 1)),
    (G, &[16, 0, 19, 16, 9], (42, 3)),
    (G, &[], (43, 0)),
    (G, &[16], (43, 1)),
    (G, &[16, 0, 16], (43, 3)),
    (G, &[16, 0, 18], (43, 3)),
];

/// A log in pieces from its start: each call must leave what the reference leaves, and the finish says this.
fn ask_pieces(bench: &mut Bench, tasks: &[Task], pieces: &[&[u8]], answer: Found) {
    let (file, mut log) = (file_of(1, tasks), Log::start(tasks));
    bench.ask(Request::log_start(file.clone()));
    for &piece in pieces {
        let request = Request::log_feed(&file, log.to_bytes(), piece);
        piece.iter().for_each(|&byte| log.read(tasks, byte));
        bench.ask_knowing(request, (log.told(), log.to_bytes()));
    }
    let request = Request::log_finish(file, log.to_bytes());
    log.finish();
    bench.count(log.found == answer, || format!("{tasks:?}, {pieces:?}: {:?}, not {answer:?}", log.found));
    bench.ask_knowing(request, (log.told(), log.to_bytes()));
}

/// Whole, byte by byte, and cut once at every place.
fn ask_all_cuts(bench: &mut Bench, tasks: &[Task], log: &[u8], answer: Found) {
    ask_pieces(bench, tasks, &[log], answer);
    ask_pieces(bench, tasks, &log.chunks(1).collect::<Vec<_>>(), answer);
    for cut in 0..=log.len() {
        ask_pieces(bench, tasks, &[&log[..cut], &log[cut..]], answer);
    }
}

pub fn by_hand(bench: &mut Bench) {
    for &(rows, log, answer) in BY_HAND {
        ask_all_cuts(bench, &table_of(rows), log, answer);
    }
    bench.end_group("the specification's logs");
}

/// Every log of up to four bytes of these, on two tables: first by whole records, then by the library at every cut.
pub fn short_ones(bench: &mut Bench) {
    const BYTES: [u8; 7] = [0, 1, 16, 17, 18, 19, 20];
    for rows in [G, J] {
        let tasks = table_of(rows);
        for length in 0..=4 {
            for number in 0..BYTES.len().pow(length) {
                let log: Vec<u8> = (0..length).map(|place| BYTES[number / BYTES.len().pow(place) % BYTES.len()]).collect();
                ask_all_cuts(bench, &tasks, &log, whole_answer(&tasks, &log));
            }
        }
    }
    bench.end_group("every short log, at every cut");
}

/// A camera's log on a table, in half of the cases with an end.
fn some_log(rng: &mut Rng, tasks: &[Task]) -> Vec<u8> {
    let (slots, often) = (rng.pick(&[0, 1, 5, 40, 200, 900]), rng.pick(&[0, 5, 40, 90]));
    let done: Vec<bool> = (0..slots).map(|_| rng.chance(often)).collect();
    let mut log = camera_log(tasks, &done);
    if rng.chance(70) {
        log.push(19);
    }
    log
}

/// A byte changed, put in, taken out, or put behind.
pub fn damage_log(rng: &mut Rng, log: &mut Vec<u8>) {
    let byte = rng.pick(&[0, 1, 2, 15, 16, 17, 18, 18, 19, 20, 31, 32, 33, 255]);
    let place = rng.below(log.len() as u64 + 1) as usize;
    match rng.below(4) {
        0 if place < log.len() => log[place] = byte,
        1 if place < log.len() => {
            log.remove(place);
        }
        2 => log.push(byte),
        _ => log.insert(place, byte),
    }
}

fn cut_at_random<'a>(rng: &mut Rng, log: &'a [u8]) -> Vec<&'a [u8]> {
    let (longest, mut rest, mut pieces) = (rng.pick(&[1, 3, 50, 4_000]), log, Vec::new());
    while !rest.is_empty() {
        let (piece, left) = rest.split_at((rng.below(longest + 1) as usize).min(rest.len()));
        pieces.push(piece);
        rest = left;
    }
    pieces
}

/// Long logs, sound and damaged, at random cuts; every answer comes up.
pub fn at_random(bench: &mut Bench, rng: &mut Rng, count: u64) {
    let mut often = [0u64; 45];
    for _ in 0..count {
        let tasks = near_border(rng);
        let mut log = some_log(rng, &tasks);
        for _ in 0..rng.pick(&[0, 0, 1, 1, 3]) {
            damage_log(rng, &mut log);
        }
        let answer = whole_answer(&tasks, &log);
        often[answer.0 as usize] += 1;
        ask_pieces(bench, &tasks, &cut_at_random(rng, &log), answer);
    }
    for number in [1, 2, 40, 41, 42, 43] {
        let times = often[number];
        bench.count(times >= count / 200, || format!("answer {number} only {times} times in {count} logs"));
    }
    bench.end_group("logs at random cuts");
}

/// A log whose state belongs to the table, with counts as they can be; or with one of its numbers on a border.
fn some_state(rng: &mut Rng, tasks: &[Task]) -> Log {
    let mut state = if rng.chance(70) { fitting_state(rng, tasks) } else { border_state(rng, tasks) };
    let most = rng.pick(&[0, 3, 1_000, LONGEST_LOG - 3, LONGEST_LOG]);
    if rng.chance(80) {
        state.given[..tasks.len()].fill(0);
        state.empty = most.saturating_sub(rng.below(4));
    }
    let slots = state.counted(tasks).min(u128::from(u64::MAX)) as u64;
    Log {
        state,
        opened: rng.chance(30),
        done: rng.chance(30),
        found: rng.pick(&[(0, 0), (0, 0), (0, 0), (GOOD, 0), (DIFFERS, 7), (40, 3), (43, u32::MAX), (44, u32::MAX), (3, 1), (u32::MAX, u32::MAX)]),
        slots: rng.pick(&[slots, slots, slots, slots, slots, slots.wrapping_add(1), slots.wrapping_sub(1), 0, u64::MAX]),
        bytes: rng.pick(&[slots, slots.saturating_add(2), slots.wrapping_sub(1), LONGEST_LOG - 1, LONGEST_LOG, LONGEST_LOG, LONGEST_LOG + 1, u64::MAX]),
    }
}

/// Its bytes, with words that say yes in another way, and with places where there are none.
fn state_bytes(rng: &mut Rng, log: &Log) -> Vec<u8> {
    let mut bytes = log.to_bytes();
    let word_at = |place: usize| reference::STATE_BYTES + place;
    for place in [0, 4] {
        if bytes[word_at(place)] == 1 && rng.chance(20) {
            bytes[word_at(place)..word_at(place + 4)].copy_from_slice(&rng.pick(&[2u32, 256, 1 << 31, u32::MAX]).to_le_bytes());
        }
    }
    if log.found.0 < DIFFERS && rng.chance(20) {
        bytes[word_at(12)] = 9;
    }
    bytes
}

/// Pieces and finishes on states of all sorts: counts about 2^32, whatever is found, and states that are refused by 8 at each of its places.
pub fn from_any_state(bench: &mut Bench, rng: &mut Rng, count: u64) {
    let (mut long, mut counts) = (0, 0);
    for _ in 0..count {
        let tasks = near_border(rng);
        let log = some_state(rng, &tasks);
        let buffer = state_bytes(rng, &log);
        let file = file_of(1, &tasks);
        let mut piece = some_log(rng, &tasks);
        piece.truncate(rng.pick(&[0, 1, 2, 9, 2_000]));
        if rng.chance(50) {
            damage_log(rng, &mut piece);
        }
        for request in [Request::log_feed(&file, buffer.clone(), &piece), Request::log_finish(file, buffer)] {
            let permitted = reference::answer(&request);
            long += u64::from(permitted.0 >> 32 == 44);
            counts += u64::from(permitted.0 == 8 * 65_536 + u64::from(NONE) + 2);
            bench.ask_knowing(request, permitted);
        }
    }
    bench.count(long >= count / 100 && counts >= count / 100, || format!("44 only {long} times, 8 at 34 only {counts} times in {count} logs"));
    bench.end_group("logs from any state");
}

/// A log of 2^32 - 1 bytes is judged as usual, and the byte behind it is 44, whatever it is and whatever else it would be.
pub fn at_the_limit(bench: &mut Bench) {
    let tasks = table_of(G);
    let file = file_of(1, &tasks);
    for (opened, found) in [(false, (0, 0)), (true, (0, 0)), (false, (GOOD, 0)), (false, (40, 7)), (false, (DIFFERS, 7))] {
        for bytes in LONGEST_LOG - 2..=LONGEST_LOG + 1 {
            let log = Log { opened, found, bytes, ..Log::start(&tasks) };
            for byte in 0..=255 {
                bench.ask(Request::log_feed(&file, log.to_bytes(), &[byte, 19]));
            }
            bench.ask(Request::log_feed(&file, log.to_bytes(), &[]));
            bench.ask(Request::log_finish(file.clone(), log.to_bytes()));
        }
    }
    let ended = Log { bytes: LONGEST_LOG - 1, ..Log::start(&tasks) };
    bench.ask_knowing(Request::log_feed(&file, ended.to_bytes(), &[19]), (1 << 32, Log { found: (GOOD, 0), bytes: LONGEST_LOG, ..ended }.to_bytes()));
    bench.ask_knowing(Request::log_feed(&file, ended.to_bytes(), &[16, 0]), (44 << 32 | LONGEST_LOG, Log { opened: true, found: (44, u32::MAX), bytes: LONGEST_LOG, ..ended }.to_bytes()));
    bench.end_group("logs about 2^32 - 1 bytes");
}

/// The slots of a task from one instant up to another, and whether it was said to be done behind one of them, by the log's bytes alone.
fn served(log: &[u8], task: u8, from: u64, to: u64) -> (u64, bool) {
    let (mut slot, mut at, mut had, mut said) = (0, 0, 0, false);
    while slot < to && log[at] != 19 {
        let own = log[at] == 16 && log[at + 1] == task && slot >= from;
        at += if log[at] == 16 { 2 } else { 1 };
        had += u64::from(own);
        slot += 1;
        if log[at] == 18 {
            said |= own;
            at += 1;
        }
    }
    (had, said)
}

/// What good means: on a table that passes every job whose worst response ends within the log had its cost, or was done, by then.
pub fn good_is_in_time(bench: &mut Bench, rng: &mut Rng, count: u64) {
    let mut jobs = 0;
    for _ in 0..count {
        let tasks = near_border(rng);
        let budget = u64::MAX;
        if !affordable(&file_of(budget, &tasks)) {
            continue;
        }
        let Verdict::Passes(worst, _) = reference::decide(&tasks, budget).verdict else { continue };
        let done: Vec<bool> = (0..rng.range(1, 300)).map(|_| rng.chance(20)).collect();
        let (slots, mut log) = (done.len() as u64, camera_log(&tasks, &done));
        log.push(19);
        ask_pieces(bench, &tasks, &cut_at_random(rng, &log), (GOOD, 0));
        for (number, task) in tasks.iter().enumerate() {
            let releases = (0..).map(|job| u64::from(task.offset) + job * u64::from(task.period));
            for release in releases.take_while(|release| release + worst[number] <= slots) {
                let (had, said) = served(&log, number as u8, release, release + worst[number]);
                jobs += 1;
                bench.count(had == u64::from(task.cost) || said, || format!("{tasks:?}, {log:?}: task {number} released at {release} had {had}"));
            }
        }
    }
    bench.count(jobs > count, || format!("only {jobs} jobs in {count} logs"));
    bench.end_group("jobs of good logs in time");
}
