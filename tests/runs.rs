//! Whole runs: started, then stepped slot by slot over the states that come back.

use crate::bench::Bench;
use crate::calls::{Reply, Request};
use crate::inputs::{file_of, near_border, Rng};
use crate::reference::{self, Job, State, Task, NONE, TASKS};

const CAMERAS: usize = 500;
/// Steps under demand 3 that a camera must bring on average.
const FEWEST_STEPS: u64 = 20;
const MOST_SLOTS: u64 = 700;

/// The dispatcher told by a clock that it does not have: open jobs with their times.
struct Clock {
    tasks: Vec<Task>,
    now: u64,
    open: Vec<Job>,
    last: Option<usize>,
    /// Who had each slot so far.
    owners: Vec<Option<usize>>,
}

impl Clock {
    fn step(&mut self, done: bool) -> State {
        if let (true, Some(last)) = (done, self.last) {
            self.open.retain(|job| job.task != last);
        }
        let now = self.now;
        let mut late: Vec<usize> = self.open.iter().filter(|job| job.deadline == now).map(|job| job.task).collect();
        late.sort_unstable();
        self.open.retain(|job| job.deadline > now);
        self.open.extend(released(&self.tasks, now));
        self.last = self.give();
        self.owners.push(self.last);
        self.now += 1;
        self.seen(&late)
    }

    fn give(&mut self) -> Option<usize> {
        let tasks = &self.tasks;
        let job = self.open.iter_mut().min_by_key(|job| reference::turn(tasks, job.task, job.deadline))?;
        job.left -= 1;
        let task = job.task;
        self.open.retain(|job| job.left > 0);
        Some(task)
    }

    fn seen(&self, late: &[usize]) -> State {
        let mut state = reference::start(&[]);
        for (number, task) in self.tasks.iter().enumerate() {
            state.wait[number] = (next_release(task, self.now) - self.now) as u32;
        }
        for job in &self.open {
            state.left[job.task] = job.left as u32;
        }
        state.last = self.last.map_or(NONE, |task| task as u32);
        state.late = late.iter().map(|task| 1 << task).sum();
        state.closed = late.len() as u32;
        state.lowest = late.first().map_or(NONE, |&task| task as u32);
        for &owner in &self.owners {
            *owner.map_or(&mut state.empty, |task| &mut state.given[task]) += 1;
        }
        state
    }
}

fn next_release(task: &Task, from: u64) -> u64 {
    (0..).map(|job| u64::from(task.offset) + job * u64::from(task.period)).find(|&release| release >= from).unwrap()
}

fn released(tasks: &[Task], now: u64) -> Vec<Job> {
    let due = |task: &Task| now >= u64::from(task.offset) && (now - u64::from(task.offset)) % u64::from(task.period) == 0;
    let job = |(number, task): (usize, &Task)| Job {
        task: number,
        release: now,
        deadline: now + u64::from(task.deadline),
        left: u64::from(task.cost),
    };
    tasks.iter().enumerate().filter(|(_, task)| due(task)).map(job).collect()
}

/// Demand 3 over what came back alone: every job against the worst response that check told.
struct Promise {
    worst: Vec<u64>,
    open: Vec<Option<Job>>,
    last: Option<usize>,
}

impl Promise {
    /// The first promise that a step breaks, if any.
    fn broken(&mut self, tasks: &[Task], now: u64, done: bool, reply: &Reply) -> Option<&'static str> {
        if let (true, Some(last)) = (done, self.last) {
            self.open[last] = None;
        }
        for job in released(tasks, now) {
            if self.open[job.task].replace(job).is_some() {
                return Some("a job was not finished before the next one");
            }
        }
        if State::from_bytes(&reply.buffer).closed != 0 {
            return Some("a job was closed late");
        }
        self.last = Some(reply.result as usize).filter(|&owner| owner < TASKS);
        self.given(now)
    }

    fn given(&mut self, now: u64) -> Option<&'static str> {
        match self.last {
            None if self.open.iter().any(Option::is_some) => return Some("an empty slot while a job waits"),
            None => {}
            Some(owner) => match self.open.get_mut(owner).and_then(Option::as_mut) {
                None => return Some("a slot for a task without a job, or above its cost"),
                Some(job) => job.left -= 1,
            },
        }
        self.close_finished();
        let over = |job: &Job| now + 1 - job.release >= self.worst[job.task];
        self.open.iter().flatten().any(over).then(|| "a job is open after its worst response")
    }

    fn close_finished(&mut self) {
        for open in &mut self.open {
            *open = open.filter(|job| job.left > 0);
        }
    }
}

struct Camera {
    file: Vec<u8>,
    tasks: Vec<Task>,
    clock: Clock,
    promise: Option<Promise>,
    state: Vec<u8>,
    slots: u64,
    done_percent: u64,
    done: u32,
}

fn worst_told(report: &str) -> Vec<u64> {
    let number = |line: &str| line.split(' ').nth(2)?.parse().ok();
    report.lines().filter(|line| line.starts_with("worst ")).filter_map(number).collect()
}

fn promise_of(report: &Reply, tasks: usize) -> Option<Promise> {
    let text = String::from_utf8_lossy(report.buffer.get(..report.result as usize)?).to_string();
    let worst = worst_told(&text);
    let passes = text.contains("verdict passes\n") && worst.len() == tasks;
    passes.then(|| Promise { worst, open: vec![None; tasks], last: None })
}

impl Camera {
    fn new(bench: &mut Bench, rng: &mut Rng, tasks: Vec<Task>) -> Camera {
        let file = file_of(u64::MAX, &tasks);
        let replies = bench.answer(&[Request::check(file.clone()), Request::start(file.clone())]);
        let round = reference::round(&tasks).unwrap();
        Camera {
            promise: promise_of(&replies[0], tasks.len()),
            state: replies[1].buffer.clone(),
            clock: Clock { tasks: tasks.clone(), now: 0, open: Vec::new(), last: None, owners: Vec::new() },
            slots: (reference::horizon(&tasks, round) + 2 * round).min(MOST_SLOTS),
            done_percent: rng.pick(&[0, 0, 5, 20, 50, 100]),
            done: 0,
            file,
            tasks,
        }
    }

    fn request(&mut self, rng: &mut Rng) -> Request {
        self.done = rng.chance(self.done_percent) as u32;
        Request::step(self.file.clone(), self.state.clone(), self.done)
    }

    fn take(&mut self, reply: Reply) -> Option<&'static str> {
        let now = self.clock.now;
        let expected = self.clock.step(self.done != 0);
        let seen = reply.intact && reply.result == u64::from(expected.last) && reply.buffer == expected.to_bytes();
        let (tasks, done) = (&self.tasks, self.done != 0);
        let broken = self.promise.as_mut().and_then(|promise| promise.broken(tasks, now, done, &reply));
        self.state = reply.buffer;
        broken.or(if seen { None } else { Some("not what the clock says") })
    }
}

/// Most of the tables pass and so have promises; the rest is whatever comes.
fn cameras(bench: &mut Bench, rng: &mut Rng) -> Vec<Camera> {
    let mut cameras: Vec<Camera> = Vec::new();
    while cameras.len() < CAMERAS {
        let tasks = near_border(rng);
        let camera = Camera::new(bench, rng, tasks);
        if camera.promise.is_some() || rng.chance(40) {
            cameras.push(camera);
        }
    }
    cameras
}

fn run_all(bench: &mut Bench, rng: &mut Rng, cameras: &mut Vec<Camera>, turns: &mut u64) {
    while !cameras.is_empty() {
        let requests: Vec<Request> = cameras.iter_mut().map(|camera| camera.request(rng)).collect();
        let replies = bench.answer(&requests);
        let mut stopped = vec![false; cameras.len()];
        for (index, reply) in replies.into_iter().enumerate() {
            let camera = &mut cameras[index];
            let wrong = camera.take(reply);
            *turns += camera.promise.is_some() as u64;
            bench.count(wrong.is_none(), || format!("{:?} at slot {}: {:?}", camera.tasks, camera.clock.now, wrong));
            stopped[index] = wrong.is_some() || camera.clock.now >= camera.slots;
        }
        let mut stops = stopped.into_iter();
        cameras.retain(|_| !stops.next().unwrap());
    }
}

pub fn runs(bench: &mut Bench, rng: &mut Rng, count: u64) {
    let (mut begun, mut promised, mut turns) = (0, 0, 0);
    while turns < count && begun as u64 * FEWEST_STEPS <= count {
        let mut cameras = cameras(bench, rng);
        begun += cameras.len();
        promised += cameras.iter().filter(|camera| camera.promise.is_some()).count();
        run_all(bench, rng, &mut cameras, &mut turns);
    }
    bench.count(turns >= count, || "too few tables pass for demand 3 to be tried".to_string());
    println!("runs: {begun} tables, of which {promised} pass, with {turns} steps under demand 3");
    bench.end_group("whole runs, by the clock and by demand 3");
}
