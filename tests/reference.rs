//! The specification once more, written from its text alone: lists of jobs and counted demand.

use crate::calls::{Call, Request};
use crate::inputs::file_of;
use crate::logbook::{Log, LOG_BYTES};
use crate::plain;

pub const TASKS: usize = 32;
pub const NONE: u32 = TASKS as u32;
pub const REPORT_BYTES: usize = 1_024;
/// Eight numbers of eight bytes, four of four, and a worst response of four for each task.
pub const ANSWER_BYTES: usize = 8 * 8 + 4 * 4 + 4 * TASKS;
/// Where the counts of slots begin in a state, behind the waits, the slots left and four words.
const COUNTS_AT: usize = 4 * (2 * TASKS + 4);
pub const STATE_BYTES: usize = COUNTS_AT + 8 * (TASKS + 1);
/// A budget, as many tasks as there can be, the end.
pub const LONGEST_FILE: usize = 9 + 17 * TASKS + 1;
pub const LARGEST_PLACE: usize = 65_535;
const LONGEST: u32 = 60_000;
const LARGEST_ROUND: u64 = 1_000_000_000_000;

/// A task, or a button: of that the period is the least spacing, and the offset is 0, since it has none.
#[derive(Clone, Copy, PartialEq, Eq, Debug)]
pub struct Task {
    pub button: bool,
    pub offset: u32,
    pub cost: u32,
    pub deadline: u32,
    pub period: u32,
}

pub const fn periodic(offset: u32, cost: u32, deadline: u32, period: u32) -> Task {
    Task { button: false, offset, cost, deadline, period }
}

pub const fn button(cost: u32, deadline: u32, spacing: u32) -> Task {
    Task { button: true, offset: 0, cost, deadline, period: spacing }
}

#[derive(Clone, Copy, PartialEq, Eq, Debug)]
pub struct Refusal {
    pub number: u64,
    pub place: u64,
}

impl Refusal {
    pub fn result(self) -> u64 {
        65_536 * self.number + self.place
    }
}

pub fn refuse<T>(number: u64, place: usize) -> Result<T, Refusal> {
    Err(Refusal { number, place: place as u64 })
}

// The table file.

pub fn word(bytes: &[u8], index: usize) -> u32 {
    u32::from_le_bytes(bytes[4 * index..4 * index + 4].try_into().unwrap())
}

pub fn long(bytes: &[u8], at: usize) -> u64 {
    u64::from_le_bytes(bytes[at..at + 8].try_into().unwrap())
}

fn task_from(body: &[u8]) -> Task {
    periodic(word(body, 0), word(body, 1), word(body, 2), word(body, 3))
}

fn button_from(body: &[u8]) -> Task {
    button(word(body, 0), word(body, 1), word(body, 2))
}

fn body_length(kind: u8) -> Option<usize> {
    match kind {
        1 => Some(8),
        2 => Some(16),
        3 => Some(0),
        4 => Some(12),
        _ => None,
    }
}

/// The body of the record at a place, once its kind is known, allowed there and its body whole.
fn body_at(file: &[u8], place: usize, tasks: usize) -> Result<&[u8], Refusal> {
    let length = match body_length(file[place]) {
        Some(length) => length,
        None => return refuse(21, place),
    };
    match file[place] {
        kind if place == 0 && kind != 1 => refuse(22, 0),
        1 if place > 0 => refuse(23, place),
        2 | 4 if tasks == TASKS => refuse(25, place),
        _ => file[place + 1..].get(..length).map_or(refuse(20, place), Ok),
    }
}

pub fn read_file(file: &[u8]) -> Result<(u64, Vec<Task>), Refusal> {
    let (mut place, mut budget, mut tasks) = (0, 0, Vec::new());
    while place < file.len() {
        let kind = file[place];
        let body = body_at(file, place, tasks.len())?;
        place += 1 + body.len();
        match kind {
            1 if body == [0; 8] => return refuse(27, 0),
            1 => budget = u64::from_le_bytes(body.try_into().unwrap()),
            2 => tasks.push(task_from(body)),
            4 => tasks.push(button_from(body)),
            _ if place < file.len() => return refuse(24, place),
            _ => return Ok((budget, tasks)),
        }
    }
    if place == 0 {
        refuse(22, 0)
    } else {
        refuse(26, place)
    }
}

// The table.

fn fault(task: &Task) -> Option<u64> {
    if !(1..=LONGEST).contains(&task.period) {
        Some(3)
    } else if !(1..=task.period).contains(&task.deadline) {
        Some(4)
    } else if !(1..=task.deadline).contains(&task.cost) {
        Some(5)
    } else if task.offset > LONGEST {
        Some(6)
    } else {
        None
    }
}

fn divisor(a: u64, b: u64) -> u64 {
    if b == 0 {
        a
    } else {
        divisor(b, a % b)
    }
}

/// The least common multiple of all periods, or none above the limit; adding a period never makes it smaller.
pub fn round(tasks: &[Task]) -> Option<u64> {
    let mut round = 1;
    for task in tasks {
        let period = u64::from(task.period);
        round = round / divisor(round, period) * period;
        if round > LARGEST_ROUND {
            return None;
        }
    }
    Some(round)
}

pub fn judge(tasks: &[Task]) -> Result<(), Refusal> {
    if tasks.is_empty() {
        return refuse(1, 0);
    }
    if tasks.len() > TASKS {
        return refuse(2, TASKS);
    }
    for (number, task) in tasks.iter().enumerate() {
        if let Some(fault) = fault(task) {
            return refuse(fault, number);
        }
    }
    round(tasks).map_or(refuse(7, 0), |_| Ok(()))
}

pub fn has_button(tasks: &[Task]) -> bool {
    tasks.iter().any(|task| task.button)
}

/// What the exact test, its report, the quick test, easing, the largest cost and the dispatcher take: periodic tasks alone.
pub fn judge_periodic(tasks: &[Task]) -> Result<(), Refusal> {
    judge(tasks)?;
    tasks.iter().position(|task| task.button).map_or(Ok(()), |first| refuse(11, first))
}

pub fn asked_in_round(tasks: &[Task], round: u64) -> u64 {
    tasks.iter().map(|task| u64::from(task.cost) * (round / u64::from(task.period))).sum()
}

pub fn horizon(tasks: &[Task], round: u64) -> u64 {
    u64::from(tasks.iter().map(|task| task.offset).max().unwrap()) + 2 * round
}

// Jobs and their demand.

#[derive(Clone, Copy)]
pub struct Job {
    pub task: usize,
    pub release: u64,
    pub deadline: u64,
    pub left: u64,
}

/// All jobs released before a time.
fn jobs_before(tasks: &[Task], time: u64) -> Vec<Job> {
    let mut jobs = Vec::new();
    for (number, task) in tasks.iter().enumerate() {
        let mut release = u64::from(task.offset);
        while release < time {
            let deadline = release + u64::from(task.deadline);
            jobs.push(Job { task: number, release, deadline, left: u64::from(task.cost) });
            release += u64::from(task.period);
        }
    }
    jobs
}

fn demand(jobs: &[Job], start: u64, end: u64) -> u64 {
    jobs.iter().filter(|job| job.release >= start && job.deadline <= end).map(|job| job.left).sum()
}

#[derive(Clone, Copy, PartialEq, Eq, Debug)]
pub struct Late {
    pub start: u64,
    pub end: u64,
    pub demand: u64,
}

/// The definition word by word: every end, every start. For small tables only.
pub fn late_by_definition(tasks: &[Task], limit: u64) -> Option<Late> {
    let jobs = jobs_before(tasks, limit);
    for end in 1..=limit {
        for start in (0..end).rev() {
            let demand = demand(&jobs, start, end);
            if demand > end - start {
                return Some(Late { start, end, demand });
            }
        }
    }
    None
}

/// Over all starts at which a counted job is released: start + demand from there, in a tree whose leaves are starts.
/// A start of another kind that asks too much can be moved up to such a one, so the largest is never missed.
struct Starts {
    leaves: usize,
    sum: Vec<i64>,
    best: Vec<i64>,
}

impl Starts {
    fn new(slots: u64) -> Starts {
        let leaves = (slots as usize + 1).next_power_of_two();
        Starts { leaves, sum: vec![0; 2 * leaves], best: vec![i64::MIN / 2; 2 * leaves] }
    }

    fn count(&mut self, job: &Job) {
        let mut node = self.leaves + job.release as usize;
        self.sum[node] += job.left as i64;
        self.best[node] = job.release as i64 + self.sum[node];
        while node > 1 {
            node /= 2;
            let (low, high) = (2 * node, 2 * node + 1);
            self.sum[node] = self.sum[low] + self.sum[high];
            self.best[node] = self.best[high].max(self.best[low] + self.sum[high]);
        }
    }

    fn largest_above(&self, end: u64) -> Option<u64> {
        if self.best[1] <= end as i64 {
            return None;
        }
        let (mut node, mut beyond) = (1, 0);
        while node < self.leaves {
            let high = 2 * node + 1;
            if self.best[high] + beyond > end as i64 {
                node = high;
            } else {
                beyond += self.sum[high];
                node = 2 * node;
            }
        }
        Some((node - self.leaves) as u64)
    }
}

fn late_within(tasks: &[Task], limit: u64) -> Option<Late> {
    let mut jobs = jobs_before(tasks, limit);
    jobs.retain(|job| job.deadline <= limit);
    jobs.sort_by_key(|job| job.deadline);
    let mut starts = Starts::new(limit);
    for (number, job) in jobs.iter().enumerate() {
        starts.count(job);
        let end = job.deadline;
        if jobs.get(number + 1).map_or(true, |next| next.deadline > end) {
            if let Some(start) = starts.largest_above(end) {
                return Some(Late { start, end, demand: demand(&jobs, start, end) });
            }
        }
    }
    None
}

/// The smallest late deadline up to a limit, looked for in growing stretches so that an early one is found soon.
pub fn first_late(tasks: &[Task], limit: u64) -> Option<Late> {
    let mut stretch = 1_000;
    while stretch < limit {
        if let Some(late) = late_within(tasks, stretch) {
            return Some(late);
        }
        stretch *= 10;
    }
    late_within(tasks, limit)
}

// The run.

/// What is smallest goes first: the earliest deadline, then the shorter period, then the lower number.
pub fn turn(tasks: &[Task], number: usize, deadline: u64) -> (u64, u32, usize) {
    (deadline, tasks[number].period, number)
}

fn next_job(tasks: &[Task], open: &[Job]) -> Option<usize> {
    (0..open.len()).min_by_key(|&index| turn(tasks, open[index].task, open[index].deadline))
}

/// Worst responses, over all jobs released before a time, and the first instant after 0 at which every job that was released
/// strictly before it is finished.
fn run(tasks: &[Task], until: u64) -> (Vec<u64>, u64) {
    let mut coming = jobs_before(tasks, until);
    coming.sort_by_key(|job| std::cmp::Reverse(job.release));
    let (mut open, mut worst, mut idle): (Vec<Job>, _, _) = (Vec::new(), vec![0; tasks.len()], None);
    let mut slot = 0;
    while !(coming.is_empty() && open.is_empty()) {
        while coming.last().map_or(false, |job| job.release == slot) {
            open.extend(coming.pop());
        }
        if let Some(index) = next_job(tasks, &open) {
            give(&mut open, index, slot, &mut worst);
        }
        slot += 1;
        if open.is_empty() {
            idle = idle.or(Some(slot));
        }
    }
    (worst, idle.unwrap())
}

fn give(open: &mut Vec<Job>, index: usize, slot: u64, worst: &mut [u64]) {
    open[index].left -= 1;
    if open[index].left == 0 {
        let job = open.swap_remove(index);
        let finish = slot + 1;
        assert!(finish <= job.deadline, "a table without a late deadline misses one in its run");
        worst[job.task] = worst[job.task].max(finish - job.release);
    }
}

// The quick test and the distance test.

fn overloaded(tasks: &[Task]) -> bool {
    let round = round(tasks).unwrap();
    asked_in_round(tasks, round) > round
}

pub fn simultaneous(tasks: &[Task]) -> Vec<Task> {
    tasks.iter().map(|task| Task { button: false, offset: 0, ..*task }).collect()
}

fn released_at(tasks: &[Task], slot: u64) -> Vec<Job> {
    let mut jobs = Vec::new();
    for (number, task) in tasks.iter().enumerate() {
        let (offset, period) = (u64::from(task.offset), u64::from(task.period));
        if slot < offset || (slot - offset) % period != 0 {
            continue;
        }
        jobs.push(Job {
            task: number,
            release: slot,
            deadline: slot + u64::from(task.deadline),
            left: u64::from(task.cost),
        });
    }
    jobs
}

/// The run goes on to the first instant after 0 at which every job that was released before is finished. Whether no deadline
/// is missed by then, if that is known within so many slots.
fn calm_within(tasks: &[Task], slots: u64) -> Option<bool> {
    let mut open: Vec<Job> = Vec::new();
    for slot in 0..slots {
        open.extend(released_at(tasks, slot));
        if let Some(index) = next_job(tasks, &open) {
            open[index].left -= 1;
        }
        open.retain(|job| job.left > 0);
        if open.is_empty() || open.iter().any(|job| job.deadline <= slot + 1) {
            return Some(open.is_empty());
        }
    }
    None
}

/// With all offsets 0.
pub fn quick_within(tasks: &[Task], slots: u64) -> Option<bool> {
    if overloaded(tasks) {
        return Some(false);
    }
    calm_within(&simultaneous(tasks), slots)
}

pub fn quick(tasks: &[Task]) -> bool {
    quick_within(tasks, u64::MAX).expect("the run is caught up within a round")
}

/// The offset difference, which may be negative, reduced upward into 0 to g - 1.
pub fn distance(one: &Task, other: &Task) -> u32 {
    let g = divisor(u64::from(one.period), u64::from(other.period)) as i64;
    (i64::from(other.offset) - i64::from(one.offset)).rem_euclid(g) as u32
}

/// The least time from a release of the one task to a later or simultaneous one of the other, by looking at their releases.
pub fn distance_by_releases(one: &Task, other: &Task) -> u32 {
    let releases = |task: &Task| (0..200).map(move |job| task.offset + job * task.period).collect::<Vec<u32>>();
    let after = |at: u32| releases(other).into_iter().filter(|&next| next >= at).map(|next| next - at).min();
    releases(one).into_iter().filter_map(after).min().unwrap()
}

/// Of periodic tasks alone: for each task as first, it at 0, and every other at its distance.
fn patterns(tasks: &[Task]) -> Vec<Vec<Task>> {
    let from = |first: &Task| tasks.iter().map(|task| Task { offset: distance(first, task), ..*task }).collect();
    tasks.iter().map(from).collect()
}

/// For each periodic task as first, it at 0, every other one at its distance, and every button at 0; with none, all at 0. A
/// button comes as soon as it may again, so each pattern is one of periodic tasks.
fn mixed_patterns(tasks: &[Task]) -> Vec<Vec<Task>> {
    let start = |first: &Task, task: &Task| if task.button { 0 } else { distance(first, task) };
    let from = |first: &Task| {
        let started = |task: &Task| periodic(start(first, task), task.cost, task.deadline, task.period);
        tasks.iter().map(started).collect()
    };
    let patterns: Vec<Vec<Task>> = tasks.iter().filter(|task| !task.button).map(from).collect();
    if patterns.is_empty() {
        return vec![simultaneous(tasks)];
    }
    patterns
}

/// 2 for overload, 1 for pass, 0 for no answer, if that is known within so many slots of each pattern.
fn calm_patterns_within(tasks: &[Task], patterns: &[Vec<Task>], slots: u64) -> Option<u64> {
    if overloaded(tasks) {
        return Some(2);
    }
    for pattern in patterns {
        if !calm_within(pattern, slots)? {
            return Some(0);
        }
    }
    Some(1)
}

pub fn by_distance_within(tasks: &[Task], slots: u64) -> Option<u64> {
    calm_patterns_within(tasks, &mixed_patterns(tasks), slots)
}

/// The distance test as it is without buttons.
pub fn by_periodic_distance(tasks: &[Task]) -> u64 {
    calm_patterns_within(tasks, &patterns(tasks), u64::MAX).expect("each run is caught up within a round")
}

pub fn by_distance(tasks: &[Task]) -> u64 {
    by_distance_within(tasks, u64::MAX).expect("each run is caught up within a round")
}

// What may be eased.

/// Released as before, a cost that is no higher, a deadline that is no shorter.
pub fn task_eased(old: &Task, new: &Task) -> bool {
    (new.offset, new.period) == (old.offset, old.period) && new.cost <= old.cost && new.deadline >= old.deadline
}

/// Of every part of the old tasks and the new ones, both from some task on, whether the new ones are an easing; from the ends back.
fn rest_eased(old: &[Task], new: &[Task]) -> Vec<Vec<bool>> {
    let mut eased = vec![vec![false; new.len() + 1]; old.len() + 1];
    eased.iter_mut().for_each(|row| row[new.len()] = true);
    for was in (0..old.len()).rev() {
        for is in (0..new.len()).rev() {
            eased[was][is] = eased[was + 1][is] || task_eased(&old[was], &new[is]) && eased[was + 1][is + 1];
        }
    }
    eased
}

/// The old tasks that are kept, of several choices the first in order; or the first new task that none is left for.
pub fn eased(old: &[Task], new: &[Task]) -> Result<Vec<usize>, usize> {
    if let Some(stranger) = (0..new.len()).find(|&last| !rest_eased(old, &new[..=last])[0][0]) {
        return Err(stranger);
    }
    let (rest, mut kept) = (rest_eased(old, new), Vec::new());
    for (was, task) in old.iter().enumerate() {
        let is = kept.len();
        if is < new.len() && task_eased(task, &new[is]) && rest[was + 1][is + 1] {
            kept.push(was);
        }
    }
    Ok(kept)
}

/// The same by the definition: every choice of kept tasks is looked at. For small tables only.
pub fn eased_by_definition(old: &[Task], new: &[Task]) -> Result<Vec<usize>, usize> {
    let chosen = |set: u32| (0..old.len()).filter(|task| set >> task & 1 == 1).collect::<Vec<usize>>();
    let choices: Vec<Vec<usize>> = (0..1 << old.len()).map(chosen).collect();
    let of_first = |count: usize| {
        let fits =
            |kept: &&Vec<usize>| kept.len() == count && kept.iter().zip(new).all(|(&was, is)| task_eased(&old[was], is));
        choices.iter().filter(fits).min().cloned()
    };
    match (0..new.len()).find(|&last| of_first(last + 1).is_none()) {
        Some(stranger) => Err(stranger),
        None => Ok(of_first(new.len()).unwrap()),
    }
}

/// 4 x task, 4 x set + 1, or a file's refusal: 4 x refusal + 2 of the old one, + 3 of the new one.
fn eased_files(request: &Request) -> u64 {
    let table = |file: &[u8]| read_file(file).and_then(|(_, tasks)| judge_periodic(&tasks).map(|()| tasks));
    match (table(&request.file), table(&request.buffer)) {
        (Err(refusal), _) => 4 * refusal.result() + 2,
        (_, Err(refusal)) => 4 * refusal.result() + 3,
        (Ok(old), Ok(new)) => match eased(&old, &new) {
            Ok(kept) => 4 * kept.iter().map(|task| 1 << task).sum::<u64>() + 1,
            Err(stranger) => 4 * stranger as u64,
        },
    }
}

// The verdict.

#[derive(Clone, PartialEq, Eq, Debug)]
pub enum Verdict {
    Passes(Vec<u64>, u64),
    Overload,
    Late(Late),
    Undecided,
}

pub struct Answer {
    pub verdict: Verdict,
    pub settled: u64,
}

/// One round more than the horizon is run: the worst responses are over all jobs for ever.
pub fn decide(tasks: &[Task], budget: u64) -> Answer {
    let round = round(tasks).unwrap();
    let horizon = horizon(tasks, round);
    if overloaded(tasks) {
        return Answer { verdict: Verdict::Overload, settled: 0 };
    }
    match first_late(tasks, horizon.min(budget)) {
        Some(late) => Answer { verdict: Verdict::Late(late), settled: late.end },
        None if budget < horizon => Answer { verdict: Verdict::Undecided, settled: budget },
        None => {
            let (worst, idle) = run(tasks, horizon + round);
            Answer { verdict: Verdict::Passes(worst, idle), settled: horizon }
        }
    }
}

// How much lens it can take.

pub const OVERLOAD: u64 = 60_001;
pub const UNDECIDED: u64 = 60_002;
pub const LATE: u64 = 60_003;

/// Whether the table with this one cost changed passes.
fn passes_with(tasks: &[Task], task: usize, cost: u32, budget: u64) -> bool {
    let mut changed = tasks.to_vec();
    changed[task].cost = cost;
    matches!(decide(&changed, budget).verdict, Verdict::Passes(..))
}

/// Every cost from 1 to the deadline is tried: nothing is taken from one cost for another.
pub fn largest(tasks: &[Task], task: usize, budget: u64) -> u64 {
    match decide(tasks, budget).verdict {
        Verdict::Overload => OVERLOAD,
        Verdict::Undecided => UNDECIDED,
        Verdict::Late(_) => LATE,
        Verdict::Passes(..) => {
            let passes = (1..=tasks[task].deadline).filter(|&cost| passes_with(tasks, task, cost, budget));
            u64::from(passes.max().expect("it passes with the cost that it has"))
        }
    }
}

/// The room of a table of either sort: every cost from the deadline down is tried.
pub fn room(tasks: &[Task], task: usize) -> u64 {
    let passes = |cost: &u32| {
        let mut changed = tasks.to_vec();
        changed[task].cost = *cost;
        by_distance(&changed) == 1
    };
    match by_distance(tasks) {
        1 => u64::from((1..=tasks[task].deadline).rev().find(passes).expect("it passes with the cost that it has")),
        2 => OVERLOAD,
        _ => LATE,
    }
}

/// The task that is asked for, if the table has it.
fn asked_task(request: &Request, tasks: &[Task]) -> Result<usize, Refusal> {
    let task = request.number as usize;
    if task < tasks.len() {
        Ok(task)
    } else {
        refuse(12, task.min(LARGEST_PLACE))
    }
}

// The report.

fn details(verdict: &Verdict) -> String {
    match verdict {
        Verdict::Passes(worst, idle) => {
            let lines: String = worst.iter().enumerate().map(|(task, worst)| format!("worst {task} {worst}\n")).collect();
            lines + &format!("idle {idle}\n")
        }
        Verdict::Late(late) => format!("interval {} {} demand {}\n", late.start, late.end, late.demand),
        Verdict::Overload | Verdict::Undecided => String::new(),
    }
}

fn verdict_word(verdict: &Verdict) -> &'static str {
    match verdict {
        Verdict::Passes(..) => "passes",
        Verdict::Overload => "overload",
        Verdict::Late(..) => "late",
        Verdict::Undecided => "undecided",
    }
}

pub fn report(tasks: &[Task], budget: u64) -> String {
    report_knowing(tasks, budget, quick(tasks))
}

/// Where what the quick test says is known in another way, as of a round that is too long for its run.
pub fn report_knowing(tasks: &[Task], budget: u64, quick: bool) -> String {
    let round = round(tasks).unwrap();
    let answer = decide(tasks, budget);
    format!(
        "tasks {}\nload {}/{}\nquick {}\nhorizon {}\nverdict {}\nsettled {}\n{}",
        tasks.len(),
        asked_in_round(tasks, round),
        round,
        if quick { "pass" } else { "none" },
        horizon(tasks, round),
        verdict_word(&answer.verdict),
        answer.settled,
        details(&answer.verdict)
    )
}

/// The same answer as numbers, the lowest byte first.
pub fn numbers(tasks: &[Task], budget: u64) -> Vec<u8> {
    let round = round(tasks).unwrap();
    let answer = decide(tasks, budget);
    let (code, idle, interval, worst) = match answer.verdict {
        Verdict::Overload => (1, 0, [0; 3], Vec::new()),
        Verdict::Undecided => (2, 0, [0; 3], Vec::new()),
        Verdict::Late(late) => (3, 0, [late.start, late.end, late.demand], Vec::new()),
        Verdict::Passes(worst, idle) => (4, idle, [0; 3], worst),
    };
    let measures = [round, asked_in_round(tasks, round), horizon(tasks, round), answer.settled, idle];
    let words = [tasks.len() as u64, u64::from(quick(tasks)), code, 0];
    let mut bytes: Vec<u8> = measures.iter().chain(&interval).flat_map(|number| number.to_le_bytes()).collect();
    bytes.extend(words.iter().chain(&worst).flat_map(|&word| (word as u32).to_le_bytes()));
    bytes.resize(ANSWER_BYTES, 0);
    bytes
}

/// Whether a report says that the table passes: one of its lines, which line feeds part, is `verdict passes`. Of more bytes than a report
/// has none is looked at, nor need they be there.
fn says_passes(bytes: &[u8], length: u64) -> bool {
    length <= REPORT_BYTES as u64 && bytes[..length as usize].split(|&byte| byte == 10).any(|line| line == b"verdict passes")
}

/// Whether a check finds that the table passes, by the verdict and not by the report.
pub fn passes(check: &Request) -> bool {
    let verdict = read_table(check).map(|(budget, tasks)| decide(&tasks, budget).verdict);
    matches!(verdict, Ok(Verdict::Passes(..)))
}

// The dispatcher.

#[derive(Clone, Copy, PartialEq, Eq, Debug)]
pub struct State {
    pub wait: [u32; TASKS],
    pub left: [u32; TASKS],
    pub last: u32,
    pub late: u32,
    pub closed: u32,
    pub lowest: u32,
    pub given: [u64; TASKS],
    pub empty: u64,
}

impl State {
    pub fn from_bytes(bytes: &[u8]) -> State {
        State {
            wait: std::array::from_fn(|task| word(bytes, task)),
            left: std::array::from_fn(|task| word(bytes, TASKS + task)),
            last: word(bytes, 2 * TASKS),
            late: word(bytes, 2 * TASKS + 1),
            closed: word(bytes, 2 * TASKS + 2),
            lowest: word(bytes, 2 * TASKS + 3),
            given: std::array::from_fn(|task| long(bytes, COUNTS_AT + 8 * task)),
            empty: long(bytes, COUNTS_AT + 8 * TASKS),
        }
    }

    pub fn to_bytes(self) -> Vec<u8> {
        let tail = [self.last, self.late, self.closed, self.lowest];
        let words = self.wait.iter().chain(&self.left).chain(&tail).flat_map(|word| word.to_le_bytes());
        words.chain(self.given.iter().chain(&[self.empty]).flat_map(|count| count.to_le_bytes())).collect()
    }

    /// The slots given to the table's tasks, and the empty ones.
    pub fn counted(&self, tasks: &[Task]) -> u128 {
        self.given[..tasks.len()].iter().chain(&[self.empty]).map(|&slots| u128::from(slots)).sum()
    }
}

pub fn start(tasks: &[Task]) -> State {
    let mut wait = [0; TASKS];
    for (number, task) in tasks.iter().enumerate() {
        wait[number] = task.offset;
    }
    State { wait, left: [0; TASKS], last: NONE, late: 0, closed: 0, lowest: NONE, given: [0; TASKS], empty: 0 }
}

fn strange(task: &Task, wait: u32, left: u32) -> bool {
    let open = left >= 1;
    wait > task.offset.max(task.period)
        || open && left > task.cost
        || open && (wait < task.period - task.deadline || wait > task.period - 1)
}

pub fn belongs(tasks: &[Task], state: &State) -> Result<(), Refusal> {
    for (number, task) in tasks.iter().enumerate() {
        if strange(task, state.wait[number], state.left[number]) {
            return refuse(8, number);
        }
    }
    if state.last != NONE && state.last as usize >= tasks.len() {
        return refuse(8, TASKS);
    }
    if state.counted(tasks) > u128::from(u64::MAX) {
        return refuse(8, TASKS + 1);
    }
    Ok(())
}

/// An open job was released when the wait was set to the period, and is due its deadline after that.
fn slots_to_deadline(task: &Task, wait: u32) -> u32 {
    let since_release = task.period - wait;
    task.deadline - since_release
}

fn close_late(tasks: &[Task], state: &mut State) {
    let mut closed = Vec::new();
    for (number, task) in tasks.iter().enumerate() {
        if state.left[number] >= 1 && slots_to_deadline(task, state.wait[number]) == 0 {
            state.left[number] = 0;
            closed.push(number as u32);
        }
    }
    state.late = closed.iter().map(|task| 1 << task).sum();
    state.closed = closed.len() as u32;
    state.lowest = closed.first().copied().unwrap_or(NONE);
}

fn release(tasks: &[Task], state: &mut State) {
    for (number, task) in tasks.iter().enumerate() {
        if state.wait[number] == 0 {
            state.left[number] = task.cost;
            state.wait[number] = task.period;
        }
    }
}

fn give_slot(tasks: &[Task], state: &mut State) {
    let open = (0..tasks.len()).filter(|&task| state.left[task] >= 1);
    let due_in = |task: usize| u64::from(slots_to_deadline(&tasks[task], state.wait[task]));
    let owner = open.min_by_key(|&task| turn(tasks, task, due_in(task)));
    state.last = owner.map_or(NONE, |task| task as u32);
    match owner {
        Some(task) => {
            state.left[task] -= 1;
            state.given[task] += 1;
        }
        None => state.empty += 1,
    }
    for wait in &mut state.wait[..tasks.len()] {
        *wait = wait.saturating_sub(1);
    }
}

pub fn step(tasks: &[Task], state: &State, done: bool) -> Result<State, Refusal> {
    belongs(tasks, state)?;
    if state.counted(tasks) == u128::from(u64::MAX) {
        return refuse(9, 0);
    }
    let mut next = *state;
    if done && state.last != NONE {
        next.left[state.last as usize] = 0;
    }
    close_late(tasks, &mut next);
    release(tasks, &mut next);
    give_slot(tasks, &mut next);
    Ok(next)
}

/// A step of section 5.6: the presses that were not taken, and the next state.
pub fn press_step(tasks: &[Task], state: &State, done: bool, pressed: u32) -> Result<(u32, State), Refusal> {
    belongs(tasks, state)?;
    if state.counted(tasks) == u128::from(u64::MAX) {
        return refuse(9, 0);
    }
    let mut next = *state;
    if done && state.last != NONE {
        next.left[state.last as usize] = 0;
    }
    close_late(tasks, &mut next);
    let untaken = come(tasks, &mut next, pressed);
    give_slot(tasks, &mut next);
    Ok((untaken, next))
}

/// Jobs come of periodic tasks that are due and of buttons that are pressed and may be; every other press is told.
fn come(tasks: &[Task], state: &mut State, pressed: u32) -> u32 {
    let mut untaken = pressed;
    for (number, task) in tasks.iter().enumerate() {
        let due = state.wait[number] == 0 && (!task.button || pressed >> number & 1 == 1);
        if due {
            state.left[number] = task.cost;
            state.wait[number] = task.period;
        }
        if due && task.button {
            untaken &= !(1 << number);
        }
    }
    untaken
}

// The exported calls.

fn check_buffer(request: &Request) -> Result<(), Refusal> {
    let length = request.buffer.len();
    match request.call {
        Call::Check | Call::CheckPlainly if length < REPORT_BYTES => refuse(30, length),
        Call::Answer if length < ANSWER_BYTES => refuse(30, length),
        Call::Start | Call::Step | Call::PressStart | Call::PressStep if length != STATE_BYTES => refuse(50, length.min(LARGEST_PLACE)),
        Call::LogStart | Call::LogFeed | Call::LogFinish if length != LOG_BYTES => refuse(50, length.min(LARGEST_PLACE)),
        _ => Ok(()),
    }
}

fn read_table(request: &Request) -> Result<(u64, Vec<Task>), Refusal> {
    check_buffer(request)?;
    let (budget, tasks) = read_file(file_in(request))?;
    match request.call {
        Call::ToText | Call::Distance | Call::Room | Call::PressStart | Call::PressStep => judge(&tasks)?,
        _ => judge_periodic(&tasks)?,
    }
    Ok((budget, tasks))
}

/// The table's file, without the piece of a log that may stand behind it.
fn file_in(request: &Request) -> &[u8] {
    match request.call {
        Call::LogFeed => &request.file[..request.number as usize],
        _ => &request.file,
    }
}

/// A row of words: its kind, then a task's numbers, or a 0 and a button's.
fn row_from(row: &[u8]) -> Option<Task> {
    match (word(row, 0), word(row, 1)) {
        (2, _) => Some(task_from(&row[4..])),
        (4, 0) => Some(button_from(&row[8..])),
        _ => None,
    }
}

/// The table that is handed over as rows of words.
fn table_from(rows: &[u8]) -> Result<Vec<Task>, Refusal> {
    const ROW_WORDS: usize = 5;
    let words = rows.len() / 4;
    if words % ROW_WORDS != 0 {
        return refuse(51, words.min(LARGEST_PLACE));
    }
    let mut tasks = Vec::new();
    for (number, row) in rows.chunks(4 * ROW_WORDS).enumerate() {
        match row_from(row) {
            Some(task) => tasks.push(task),
            None => return refuse(52, number.min(LARGEST_PLACE)),
        }
    }
    Ok(tasks)
}

/// What is to be written, unless the buffer is shorter.
fn fitting(request: &Request, bytes: Vec<u8>) -> Result<(u64, Vec<u8>), Refusal> {
    if request.buffer.len() < bytes.len() {
        return refuse(31, request.buffer.len());
    }
    Ok((bytes.len() as u64, bytes))
}

fn answered(request: &Request) -> Result<(u64, Vec<u8>), Refusal> {
    match request.call {
        Call::Check | Call::CheckPlainly => {
            let (budget, tasks) = read_table(request)?;
            let text = report(&tasks, budget).into_bytes();
            Ok((text.len() as u64, text))
        }
        Call::Answer => {
            let (budget, tasks) = read_table(request)?;
            Ok((0, numbers(&tasks, budget)))
        }
        Call::Start | Call::PressStart => Ok((0, start(&read_table(request)?.1).to_bytes())),
        Call::Step => {
            let (_, tasks) = read_table(request)?;
            let state = step(&tasks, &State::from_bytes(&request.buffer), request.number != 0)?;
            Ok((u64::from(state.last), state.to_bytes()))
        }
        Call::PressStep => {
            let (_, tasks) = read_table(request)?;
            let (done, pressed) = (request.number as u32 != 0, (request.number >> 32) as u32);
            let (untaken, state) = press_step(&tasks, &State::from_bytes(&request.buffer), done, pressed)?;
            Ok((u64::from(untaken) << 32 | u64::from(state.last), state.to_bytes()))
        }
        Call::Write => {
            let tasks = table_from(&request.file)?;
            judge(&tasks)?;
            if request.number == 0 {
                return refuse(27, 0);
            }
            fitting(request, file_of(request.number, &tasks))
        }
        Call::FromText => {
            let (budget, tasks) = plain::read_text(&request.file)?;
            judge(&tasks)?;
            fitting(request, file_of(budget, &tasks))
        }
        Call::ToText => {
            let (budget, tasks) = read_table(request)?;
            fitting(request, plain::text_of(budget, &tasks))
        }
        Call::Quick => Ok((u64::from(quick(&read_table(request)?.1)), Vec::new())),
        Call::Distance => Ok((by_distance(&read_table(request)?.1), Vec::new())),
        Call::Eased => Ok((eased_files(request), Vec::new())),
        Call::Largest => {
            let (budget, tasks) = read_table(request)?;
            Ok((largest(&tasks, asked_task(request, &tasks)?, budget), Vec::new()))
        }
        Call::Room => {
            let (_, tasks) = read_table(request)?;
            Ok((room(&tasks, asked_task(request, &tasks)?), Vec::new()))
        }
        Call::LogStart => Ok((0, Log::start(&read_table(request)?.1).to_bytes())),
        Call::LogFeed | Call::LogFinish => {
            let (_, tasks) = read_table(request)?;
            let mut log = Log::from_bytes(&request.buffer);
            log.belongs(&tasks)?;
            match request.call {
                Call::LogFeed => request.file[request.number as usize..].iter().for_each(|&byte| log.read(&tasks, byte)),
                _ => log.finish(),
            }
            Ok((log.told(), log.to_bytes()))
        }
        Call::Passes => Ok((u64::from(says_passes(&request.file, request.number)), Vec::new())),
    }
}

/// The one permitted result of a request, and the buffer after it.
pub fn answer(request: &Request) -> (u64, Vec<u8>) {
    match answered(request) {
        Ok((result, mut written)) => {
            written.extend(&request.buffer[written.len()..]);
            (result, written)
        }
        Err(refusal) => (refusal.result(), request.buffer.clone()),
    }
}
