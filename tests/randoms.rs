//! Single calls on tables and states at borders and at random.

use crate::bench::{Bench, Permitted};
use crate::calls::{Reply, Request};
use crate::files::ask_all;
use crate::inputs::*;
use crate::reference::{self, button, periodic, Task, Verdict, REPORT_BYTES, TASKS};

/// The two ways of the reference to look for a late deadline, held to each other.
pub fn reference_itself(bench: &mut Bench, rng: &mut Rng) {
    let mut tried = 0;
    while tried < 2_000 {
        let tasks = near_border(rng);
        let limit = reference::horizon(&tasks, reference::round(&tasks).unwrap());
        if limit <= 100 {
            let (plain, quick) = (reference::late_by_definition(&tasks, limit), reference::first_late(&tasks, limit));
            bench.count(plain == quick, || format!("{tasks:?}: {plain:?} by definition, {quick:?} by the tree"));
            let (run, late) = (reference::quick(&tasks), late_with_all_at_0(&tasks));
            bench.count(run != late, || format!("{tasks:?}: quick {run}, but late with all offsets 0: {late}"));
            if let Verdict::Passes(_, idle) = reference::decide(&tasks, limit).verdict {
                let counted = caught_up(&tasks);
                bench.count(idle == counted, || format!("{tasks:?}: idle {idle} by the run, {counted} by counted work"));
            }
            tried += 1;
        }
    }
    bench.end_group("the reference's two searches, its quick test and its idle instants");
    for _ in 0..2_000 {
        let mut some = || periodic(rng.range(0, 60), 1, 1, rng.range(1, 24));
        let (one, other) = (some(), some());
        let (plain, reduced) = (reference::distance_by_releases(&one, &other), reference::distance(&one, &other));
        bench.count(plain == reduced, || format!("{one:?} {other:?}: {plain} by releases, {reduced} by the difference"));
    }
    bench.end_group("the reference's two distances");
}

/// The first instant after 0 at which no work waits that came in before; who has the slots does not matter.
fn caught_up(tasks: &[Task]) -> u64 {
    let comes = |task: &&Task, slot: u64| {
        slot >= u64::from(task.offset) && (slot - u64::from(task.offset)) % u64::from(task.period) == 0
    };
    let mut waiting = 0;
    for slot in 0.. {
        waiting += tasks.iter().filter(|task| comes(task, slot)).map(|task| u64::from(task.cost)).sum::<u64>();
        waiting = waiting.saturating_sub(1);
        if waiting == 0 {
            return slot + 1;
        }
    }
    unreachable!()
}

/// Overloaded, or some interval asks too much.
fn late_with_all_at_0(tasks: &[Task]) -> bool {
    let tasks = reference::simultaneous(tasks);
    let horizon = reference::horizon(&tasks, reference::round(&tasks).unwrap());
    !matches!(reference::decide(&tasks, horizon).verdict, Verdict::Passes(..))
}

fn field_of(task: &mut Task, field: usize) -> &mut u32 {
    match field {
        0 => &mut task.offset,
        1 => &mut task.cost,
        2 => &mut task.deadline,
        _ => &mut task.period,
    }
}

/// Every field of every task at, just inside and just outside its borders; and of a button in its place.
pub fn field_borders(bench: &mut Bench) {
    let good = periodic(1, 1, 2, 60_000);
    for place in 0..TASKS {
        for field in 0..4 {
            for number in [0, 1, 2, 3, 59_999, 60_000, 60_001, 65_536, 1 << 31, u32::MAX] {
                let mut tasks = vec![good; TASKS];
                *field_of(&mut tasks[place], field) = number;
                ask_all(bench, &file_of(100, &tasks));
                let Task { cost, deadline, period, .. } = tasks[place];
                tasks[place] = button(cost, deadline, period);
                ask_all(bench, &file_of(100, &tasks));
            }
        }
    }
    bench.end_group("fields at their borders");
}

/// How many of each verdict, and how many that have none since there is a button: a generator that no longer reaches one of them fails.
#[derive(Default)]
struct Verdicts([u64; 5]);

const VERDICT_WORDS: [&str; 5] = ["passes", "overload", "late", "undecided", "refused"];
/// Of so many inputs at least one has each verdict.
const INPUTS_PER_VERDICT: u64 = 1_000;

impl Verdicts {
    fn count(&mut self, permitted: &Permitted) {
        let refused = "verdict refused\n".as_bytes();
        let report = String::from_utf8_lossy(permitted.1.get(..permitted.0 as usize).unwrap_or(refused)).to_string();
        for (word, count) in VERDICT_WORDS.iter().zip(&mut self.0) {
            *count += report.contains(&format!("verdict {word}\n")) as u64;
        }
    }

    fn hold(&self, bench: &mut Bench, inputs: u64) {
        let counts = VERDICT_WORDS.iter().zip(self.0).map(|(word, count)| format!(" {word} {count}"));
        println!("verdicts:{}", counts.collect::<Vec<_>>().join(","));
        for (word, count) in VERDICT_WORDS.iter().zip(self.0) {
            bench.count(count >= inputs / INPUTS_PER_VERDICT, || format!("{word} only {count} times in {inputs} inputs"));
        }
    }
}

pub fn checks(bench: &mut Bench, rng: &mut Rng, count: u64) {
    let mut verdicts = Verdicts::default();
    for _ in 0..count {
        let mut tasks = near_border(rng);
        if rng.chance(2) {
            make_buttons(rng, &mut tasks);
        }
        let mut request = Request::check(file_of(budget_about(rng, &tasks), &tasks));
        request.buffer = vec![rng.next() as u8; REPORT_BYTES + rng.below(3) as usize];
        let permitted = reference::answer(&request);
        verdicts.count(&permitted);
        bench.ask_knowing(request, permitted);
    }
    verdicts.hold(bench, count);
    bench.end_group("check near the border of what passes");
}

/// Of tables that pass the check, whose budget reaches the horizon, says that they pass.
fn pass_the_check(bench: &mut Bench, passed: &[Vec<u8>]) {
    let checks: Vec<Request> = passed.iter().cloned().map(Request::check).collect();
    for (file, reply) in passed.iter().zip(bench.answer(&checks)) {
        let report = String::from_utf8_lossy(&reply.written()).to_string();
        bench.count(report.contains("\nverdict passes\n"), || format!("pass of {file:?}, and then {report}"));
    }
}

/// The replies to the requests, each held to the reference.
fn held(bench: &mut Bench, requests: Vec<Request>) -> Vec<Reply> {
    let replies = bench.answer(&requests);
    for (request, reply) in requests.iter().zip(&replies) {
        let permitted = reference::answer(request).0;
        let good = reply.intact && reply.result == permitted;
        bench.count(good, || format!("{:?} of {:?}: {}, permitted {permitted}", request.call, request.file, reply.result));
    }
    replies
}

/// Each answer comes up: a generator that no longer reaches one fails.
pub fn each_comes_up(bench: &mut Bench, call: &str, times: &[u64], count: u64) {
    for (often, answer) in times.iter().zip(["none", "pass", "overload"]) {
        println!("{call} {answer}: {often}");
        bench.count(*often >= count / INPUTS_PER_VERDICT, || format!("{call} {answer} {often} times in {count} inputs"));
    }
}

/// The chain: quick pass is distance pass, and what passes by its distances passes the check.
pub fn quick_tests(bench: &mut Bench, rng: &mut Rng, count: u64) {
    let files: Vec<Vec<u8>> = (0..count).map(|_| file_of(u64::MAX, &near_border(rng))).collect();
    let (mut quick, mut distance, mut by_distance_alone) = ([0; 2], [0; 3], 0);
    for some in files.chunks(2_000) {
        let quicks = held(bench, some.iter().cloned().map(Request::quick).collect());
        let distances = held(bench, some.iter().cloned().map(Request::distance).collect());
        let mut passed = Vec::new();
        for (file, (one, other)) in some.iter().zip(quicks.iter().zip(&distances)) {
            quick[one.result as usize] += 1;
            distance[other.result as usize] += 1;
            by_distance_alone += (one.result == 0 && other.result == 1) as u64;
            bench.count(one.result != 1 || other.result == 1, || format!("quick pass and no distance pass of {file:?}"));
            if other.result == 1 {
                passed.push(file.clone());
            }
        }
        pass_the_check(bench, &passed);
    }
    each_comes_up(bench, "quick", &quick, count);
    each_comes_up(bench, "distance", &distance, count);
    let often = by_distance_alone >= count / INPUTS_PER_VERDICT;
    bench.count(often, || format!("pass by distances alone {by_distance_alone} times in {count} inputs"));
    bench.end_group("quick and distance near the border of what passes");
}

pub fn long_rounds(bench: &mut Bench, rng: &mut Rng, count: u64) {
    for _ in 0..count {
        let mut tasks = long_round(rng);
        if rng.chance(70) {
            any_fields(rng, &mut tasks);
        }
        if rng.chance(20) {
            make_buttons(rng, &mut tasks);
        }
        ask_all(bench, &file_of(rng.below(2_000), &tasks));
        bench.ask(Request::check(file_of(rng.next() | 1 << 40, &early_end(rng))));
    }
    bench.end_group("rounds near their limit");
}

pub fn spoilt_tables(bench: &mut Bench, rng: &mut Rng, count: u64) {
    for _ in 0..count {
        let mut tasks = of_any_sort(rng);
        spoil(rng, &mut tasks);
        ask_all(bench, &file_of(rng.below(1_000), &tasks));
    }
    bench.end_group("spoilt tables");
}

fn any_table(rng: &mut Rng) -> Vec<Task> {
    let mut tasks = if rng.chance(85) { near_border(rng) } else { long_round(rng) };
    if rng.chance(15) {
        any_fields(rng, &mut tasks);
    }
    if rng.chance(3) {
        make_buttons(rng, &mut tasks);
    }
    tasks
}

pub fn starts(bench: &mut Bench, rng: &mut Rng, count: u64) {
    for _ in 0..count {
        let tasks = any_table(rng);
        let mut request = Request::start(file_of(rng.next(), &tasks));
        request.buffer = wild_state(rng).to_bytes();
        bench.ask(request);
    }
    bench.end_group("start on any table");
}

pub fn steps(bench: &mut Bench, rng: &mut Rng, count: u64) {
    let mut tasks = any_table(rng);
    for turn in 0..count {
        if turn % 8 == 0 {
            tasks = any_table(rng);
        }
        let state = match rng.below(10) {
            0..=5 => fitting_state(rng, &tasks),
            6..=8 => border_state(rng, &tasks),
            _ => wild_state(rng),
        };
        bench.ask(Request::step(file_of(rng.next(), &tasks), state.to_bytes(), done_word(rng)));
    }
    bench.end_group("step on any state");
}
