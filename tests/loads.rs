//! Tables with no slot to spare, or hardly one: the quick and the distance test against the run and against counted demand, and on rounds
//! too long for both, where how the table was made tells the answer.

use crate::bench::{Bench, Permitted};
use crate::calls::Request;
use crate::inputs::*;
use crate::randoms::each_comes_up;
use crate::reference::{self, button, periodic, Task};
use std::time::{Duration, Instant};

/// A walk through the longest rounds would take minutes, and these calls take milliseconds at most; on a busy machine one may have to wait.
const SOON: Duration = Duration::from_secs(5);

fn round_of(tasks: &[Task]) -> u64 {
    reference::round(tasks).expect("a well-formed table")
}

fn jobs_in_round(tasks: &[Task]) -> u64 {
    let round = round_of(tasks);
    tasks.iter().map(|task| round / u64::from(task.period)).sum()
}

/// By the definition of demand, with all offsets 0: the first of all deadlines in a round by which more is due than there are slots. What
/// comes later asks no more, since each round brings as many slots as it asks for.
fn first_short(tasks: &[Task]) -> Option<u64> {
    let round = round_of(tasks);
    let jobs = |task: &Task| {
        let [cost, deadline, period] = [task.cost, task.deadline, task.period].map(u64::from);
        (0..round / period).map(move |job| (job * period + deadline, cost))
    };
    let mut due: Vec<(u64, u64)> = tasks.iter().flat_map(jobs).collect();
    due.sort_unstable();
    let mut asked = 0;
    due.into_iter().find_map(|(end, cost)| {
        asked += cost;
        (asked > end).then_some(end)
    })
}

/// What is due by an instant, all offsets 0.
fn due_by(tasks: &[Task], end: u64) -> u64 {
    let jobs = |task: &Task| (end + u64::from(task.period) - u64::from(task.deadline)) / u64::from(task.period);
    tasks.iter().map(|task| u64::from(task.cost) * jobs(task)).sum()
}

/// Short rounds, which the reference runs through; its quick test is held to counted demand too.
pub fn short_rounds(bench: &mut Bench, rng: &mut Rng, count: u64) {
    let (mut quick, mut distance, mut by_distance_alone) = ([0; 2], [0; 2], 0);
    for _ in 0..count {
        let mut tasks = full(rng);
        let (enough, run) = (first_short(&tasks).is_none(), reference::quick(&tasks));
        bench.count(enough == run, || format!("{tasks:?}: enough by demand {enough}, by the run {run}"));
        bench.ask_knowing(Request::quick(file_of(1, &tasks)), (u64::from(enough), Vec::new()));
        let near = reference::by_distance(&tasks);
        bench.ask_knowing(Request::distance(file_of(1, &tasks)), (near, Vec::new()));
        quick[usize::from(enough)] += 1;
        distance[near as usize] += 1;
        by_distance_alone += u64::from(!enough && near == 1);
        if rng.chance(20) {
            make_buttons(rng, &mut tasks);
            bench.ask(Request::distance(file_of(1, &tasks)));
        }
    }
    each_comes_up(bench, "quick at full load", &quick, 10 * count);
    each_comes_up(bench, "distance at full load", &distance, 10 * count);
    bench.count(by_distance_alone >= count / 100, || format!("by distances alone only {by_distance_alone} of {count}"));
    bench.end_group("quick and distance with no slot to spare, or one in a round");
}

/// For each period, which is a multiple of their number, an equal share of the slots, for one task or two: load exactly 1.
fn shared(rng: &mut Rng, periods: &[u32]) -> Vec<Task> {
    let mut tasks = Vec::new();
    for &period in periods {
        let share = period / periods.len() as u32;
        let first = rng.range(1, share);
        let costs = [first, share - first].into_iter().filter(|&cost| cost > 0);
        tasks.extend(costs.map(|cost| periodic(0, cost, period, period)));
    }
    tasks
}

/// Longer than the million slots in which a search from 0 on might be content, and with few enough jobs to count them all.
fn middle_round(rng: &mut Rng) -> Vec<Task> {
    const LARGEST_FACTOR: u32 = 40;
    loop {
        let shares = rng.range(2, 4);
        let unit = shares * rng.range(1, 60_000 / LARGEST_FACTOR / shares);
        let periods: Vec<u32> = (0..shares).map(|_| unit * rng.range(1, LARGEST_FACTOR)).collect();
        let tasks = shared(rng, &periods);
        if round_of(&tasks) > 2_000_000 && jobs_in_round(&tasks) <= 10_000 {
            return tasks;
        }
    }
}

/// Some deadlines a little shorter, and now and then a cost.
fn squeeze(rng: &mut Rng, tasks: &mut [Task]) {
    for task in tasks.iter_mut() {
        let most = rng.pick(&[0, 0, 1, 5, 100]);
        task.deadline = (task.deadline - task.deadline.min(rng.range(0, most))).max(task.cost);
    }
    if rng.chance(30) {
        let task = &mut tasks[rng.below(tasks.len() as u64) as usize];
        task.cost = (task.cost - 1).max(1);
    }
}

fn with_deadline(tasks: &[Task], task: usize, deadline: u32) -> Vec<Task> {
    let mut changed = tasks.to_vec();
    changed[task].deadline = deadline;
    changed
}

/// The shortest deadline of a task that leaves enough by counted demand; its cost if any does, one more than its period if none.
fn shortest_deadline(tasks: &[Task], task: usize) -> u32 {
    let (mut low, mut high) = (tasks[task].cost, tasks[task].period + 1);
    while low < high {
        let middle = (low + high) / 2;
        if first_short(&with_deadline(tasks, task, middle)).is_none() {
            high = middle;
        } else {
            low = middle + 1;
        }
    }
    low
}

/// Where more is due than there are slots, if anywhere. With one offset for all, each pattern of the distance test is the one with all
/// offsets 0, so it says what the quick test says.
fn ask_counted(bench: &mut Bench, tasks: &[Task]) -> Option<u64> {
    let (short, file) = (first_short(tasks), file_of(1, tasks));
    let answer = (u64::from(short.is_none()), Vec::new());
    bench.ask_knowing(Request::quick(file.clone()), answer.clone());
    bench.ask_knowing(Request::distance(file), answer);
    short
}

/// About the shortest deadline of a task that leaves enough.
pub fn middle_rounds(bench: &mut Bench, rng: &mut Rng, count: u64) {
    let mut told = Vec::new();
    for _ in 0..count {
        let mut tasks = middle_round(rng);
        squeeze(rng, &mut tasks);
        let (task, offset) = (rng.below(tasks.len() as u64) as usize, rng.pick(&[0, 0, 7, 60_000]));
        tasks.iter_mut().for_each(|task| task.offset = offset);
        let (shortest, legal) = (shortest_deadline(&tasks, task), tasks[task].cost..=tasks[task].period);
        let deadlines = (shortest - 1..=shortest + 1).filter(|deadline| legal.contains(deadline));
        told.extend(deadlines.map(|deadline| ask_counted(bench, &with_deadline(&tasks, task, deadline))));
    }
    let short: Vec<u64> = told.iter().copied().flatten().collect();
    let far = short.iter().filter(|&&end| end > 1_000_000).count() as u64;
    each_comes_up(
        bench,
        "quick in rounds of millions",
        &[short.len(), told.len() - short.len()].map(|often| often as u64),
        100 * count,
    );
    bench.count(far >= count / 10, || format!("only {far} of {count} tables are short only behind a million slots"));
    bench.end_group("quick and distance about the shortest deadline, in rounds of millions");
}

fn ask_soon(bench: &mut Bench, request: Request, permitted: Permitted) {
    let begun = Instant::now();
    let reply = &bench.answer(std::slice::from_ref(&request))[0];
    let (took, good) = (begun.elapsed(), (reply.result, &reply.buffer) == (permitted.0, &permitted.1));
    bench.count(good && reply.intact && took < SOON, || {
        format!("{:?} of {:?}: {} after {took:?}, permitted {}", request.call, request.file, reply.result, permitted.0)
    });
}

/// The quick test, and both checks with a budget of one slot: their quick line, and undecided unless a job is late by 1.
fn quick_is(bench: &mut Bench, tasks: &[Task], pass: bool) {
    let file = file_of(1, tasks);
    ask_soon(bench, Request::quick(file.clone()), (u64::from(pass), Vec::new()));
    let report = reference::report_knowing(tasks, 1, pass).into_bytes();
    for request in [Request::check(file.clone()), Request::check(file).plainly()] {
        let buffer = [&report[..], &request.buffer[report.len()..]].concat();
        ask_soon(bench, request, (report.len() as u64, buffer));
    }
}

fn distance_is(bench: &mut Bench, tasks: &[Task], answer: u64) {
    ask_soon(bench, Request::distance(file_of(1, tasks)), (answer, Vec::new()));
}

/// Deadlines as long as the periods and any offsets: load 1, with rounds of 10^9 up to the limit.
fn long_full(rng: &mut Rng) -> Vec<Task> {
    loop {
        let shares = rng.range(2, 5);
        let periods: Vec<u32> = (0..shares).map(|_| shares * rng.range(1, 60_000 / shares)).collect();
        let mut tasks = shared(rng, &periods);
        if reference::round(&tasks).map_or(false, |round| round >= 1_000_000_000) {
            tasks.iter_mut().for_each(|task| task.offset = rng.range(0, 60_000));
            return tasks;
        }
    }
}

/// Liu and Layland: a load of at most 1 suffices where each deadline is the period; with buttons too.
fn due_by_the_next_release(bench: &mut Bench, rng: &mut Rng, tasks: &[Task]) {
    quick_is(bench, tasks, true);
    distance_is(bench, tasks, 1);
    let mut other = tasks.to_vec();
    let task = &mut other[rng.below(tasks.len() as u64) as usize];
    task.cost = (task.cost - 1).max(1);
    quick_is(bench, &other, true);
    make_buttons(rng, &mut other);
    distance_is(bench, &other, 1);
}

/// One deadline s slots short: by u at most u + C x s / T is due, which is below u + 1 if C x s < T, and then it is enough.
fn hardly_short(bench: &mut Bench, rng: &mut Rng, tasks: &[Task]) {
    let task = rng.below(tasks.len() as u64) as usize;
    let Task { cost, period, .. } = tasks[task];
    let changed = with_deadline(tasks, task, period - (period - 1) / cost);
    if changed[task].deadline >= cost {
        quick_is(bench, &changed, true);
        distance_is(bench, &changed, 1);
    }
}

/// Two tasks that come at once and each want all slots up to their deadline; and all deadlines one slot short, so that by H - 1 as much is
/// due as a round asks for.
fn too_much_at_once(bench: &mut Bench, rng: &mut Rng, tasks: &[Task]) {
    let mut pair: Vec<Task> = tasks.iter().map(|task| Task { offset: 3, ..*task }).collect();
    for place in [0, pair.len() - 1] {
        pair[place].deadline = pair[place].cost;
    }
    quick_is(bench, &pair, false);
    distance_is(bench, &pair, 0);
    let beside: Vec<Task> = pair.iter().map(|task| button(task.cost, task.deadline, task.period)).collect();
    distance_is(bench, &beside, 0);
    let all: Vec<Task> = tasks.iter().map(|task| Task { deadline: task.deadline - 1, ..*task }).collect();
    if all.iter().all(|task| task.deadline >= task.cost) {
        quick_is(bench, &all, false);
    }
    bench.ask(Request::check(file_of(rng.next() | 1 << 40, &pair)));
}

/// Rows, and what quick says. The first two tables are due by the next release. In the third one deadline is 20 short, and two slots too
/// many are due by 842,962,739,980; its patterns are too long for the distance test.
const BY_HAND: [(&[(u32, u32, u32, u32)], bool); 3] = [
    (&[(0, 1, 2, 2), (0, 15_000, 60_000, 60_000), (0, 14_999, 59_996, 59_996)], true),
    (&[(0, 1, 2, 2), (0, 3_750, 30_000, 30_000), (0, 7_499, 29_996, 29_996), (0, 3_749, 29_992, 29_992)], true),
    (&[(0, 1, 2, 2), (0, 3_750, 29_980, 30_000), (0, 7_499, 29_996, 29_996), (0, 3_749, 29_992, 29_992)], false),
];

fn by_hand(bench: &mut Bench) {
    for (rows, pass) in BY_HAND {
        let tasks = table_of(rows);
        quick_is(bench, &tasks, pass);
        if pass {
            distance_is(bench, &tasks, 1);
        }
    }
    let (short, end) = (table_of(BY_HAND[2].0), 842_962_739_980);
    bench.count(due_by(&short, end) == end + 2, || format!("{} due by {end}", due_by(&short, end)));
}

/// A task to each share, the periods with no divisor in common but the number of shares; some deadlines are short by multiples of it, so
/// that all of them meet once in a round, and hardly anywhere else too much is due.
fn meeting(rng: &mut Rng) -> Vec<Task> {
    loop {
        let (shares, most) = rng.pick(&[(2, 30_000), (3, 250), (4, 35)]);
        let parts: Vec<u32> = (0..shares).map(|_| rng.range(9, most)).collect();
        let mut task = |part: u32| periodic(5, part, shares * (part - rng.below(3) as u32), shares * part);
        let tasks: Vec<Task> = parts.iter().map(|&part| task(part)).collect();
        if reference::round(&tasks) == Some(parts.iter().fold(u64::from(shares), |round, &part| round * u64::from(part))) {
            return tasks;
        }
    }
}

/// The first instant at which all tasks are due, all offsets 0.
fn where_they_meet(tasks: &[Task]) -> u64 {
    let (mut end, mut step) = (u64::from(tasks[0].deadline), u64::from(tasks[0].period));
    for (number, task) in tasks.iter().enumerate() {
        let due = |end: &u64| end % u64::from(task.period) == u64::from(task.deadline % task.period);
        end = (0..).map(|times| end + times * step).find(due).expect("they meet");
        step = round_of(&tasks[..=number]);
    }
    end
}

/// Where all tasks are due together, a load of 1 leaves enough only if no deadline is short.
pub fn common_deadlines(bench: &mut Bench, rng: &mut Rng, count: u64) {
    for _ in 0..count {
        let tasks = meeting(rng);
        let end = where_they_meet(&tasks);
        let short = tasks.iter().any(|task| task.deadline < task.period);
        bench.count((due_by(&tasks, end) > end) == short, || format!("{tasks:?}: {} due by {end}", due_by(&tasks, end)));
        quick_is(bench, &tasks, !short);
        distance_is(bench, &tasks, u64::from(!short));
    }
    bench.end_group("quick and distance where all deadlines meet once in a round");
}

pub fn long_rounds(bench: &mut Bench, rng: &mut Rng, count: u64) {
    by_hand(bench);
    for _ in 0..count {
        let tasks = long_full(rng);
        due_by_the_next_release(bench, rng, &tasks);
        hardly_short(bench, rng, &tasks);
        too_much_at_once(bench, rng, &tasks);
    }
    bench.end_group("quick and distance in rounds up to the longest, with no slot to spare");
}
