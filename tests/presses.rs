//! The dispatcher of tables with buttons: any state and any presses, and whole runs against a clock.

use crate::arrivals::mixed;
use crate::bench::Bench;
use crate::calls::{Reply, Request};
use crate::inputs::*;
use crate::reference::{self, button, periodic, Job, State, Task, NONE, TASKS};

const CAMERAS: usize = 300;
const MOST_SLOTS: u64 = 250;
/// Steps on tables that pass that a camera must bring on average.
const FEWEST_STEPS: u64 = 10;

fn any_table(rng: &mut Rng) -> Vec<Task> {
    let mut tasks = if rng.chance(85) { mixed(rng) } else { long_round(rng) };
    if rng.chance(15) {
        any_fields(rng, &mut tasks);
    }
    if rng.chance(50) {
        make_buttons(rng, &mut tasks);
    }
    tasks
}

fn any_presses(rng: &mut Rng) -> u32 {
    let any = rng.next() as u32;
    rng.pick(&[0, u32::MAX, any, any & 0xFF, 1 << (any % TASKS as u32), 1 << 31])
}

/// The shutter of section 10: pressed with the lamps, too early, and in time.
pub fn by_hand(bench: &mut Bench) {
    let tasks = [periodic(0, 1, 3, 6), periodic(3, 1, 2, 6), button(1, 1, 2)];
    let (file, mut state) = (file_of(1, &tasks), reference::start(&tasks).to_bytes());
    for (pressed, untaken, owner) in [(7, 3, 2), (4, 4, 0), (4, 0, 2), (0, 0, 1), (4, 0, 2), (u32::MAX, u32::MAX, 32)] {
        let reply = bench.answer(&[Request::press_step(file.clone(), state, 0, pressed)]).remove(0);
        let told = untaken as u64 * (1 << 32) + owner;
        bench.count(reply.intact && reply.result == told, || format!("pressed {pressed}: {}, not {told}", reply.result));
        state = reply.buffer;
    }
    bench.end_group("presses of the shutter");
}

pub fn starts(bench: &mut Bench, rng: &mut Rng, count: u64) {
    for _ in 0..count {
        let mut request = Request::press_start(file_of(rng.next(), &any_table(rng)));
        request.buffer = wild_state(rng).to_bytes();
        bench.ask(request);
    }
    bench.end_group("press start on any table");
}

pub fn steps(bench: &mut Bench, rng: &mut Rng, count: u64) {
    let mut tasks = any_table(rng);
    for turn in 0..count {
        if turn % 8 == 0 {
            tasks = any_table(rng);
        }
        let state = match rng.below(10) {
            0..=6 => fitting_state(rng, &tasks),
            7 | 8 => border_state(rng, &tasks),
            _ => wild_state(rng),
        };
        bench.ask(Request::press_step(file_of(rng.next(), &tasks), state.to_bytes(), done_word(rng), any_presses(rng)));
    }
    bench.end_group("press step on any state");
}

/// Without a button the calls are start and step, with every press told.
pub fn without_buttons(bench: &mut Bench, rng: &mut Rng, count: u64) {
    for _ in 0..count {
        let tasks = near_border(rng);
        let (file, done, pressed) = (file_of(1, &tasks), done_word(rng), any_presses(rng));
        let state = if rng.chance(80) { fitting_state(rng, &tasks) } else { border_state(rng, &tasks) }.to_bytes();
        let plain = Request::step(file.clone(), state.clone(), done);
        let replies = bench.answer(&[plain, Request::press_step(file, state, done, pressed)]);
        let untaken = if replies[0].result < 65_536 { u64::from(pressed) << 32 } else { 0 };
        let same = replies[1].result == replies[0].result + untaken && replies[1].buffer == replies[0].buffer;
        bench.count(same, || format!("{tasks:?}, done {done}, pressed {pressed}: another step than without presses"));
    }
    bench.end_group("press step without buttons");
}

/// The dispatcher told by a clock that it does not have: open jobs with their times, and when each button was last taken.
pub struct Clock {
    tasks: Vec<Task>,
    now: u64,
    open: Vec<Job>,
    pub taken: Vec<Option<u64>>,
    pub state: State,
}

impl Clock {
    pub fn new(tasks: &[Task]) -> Clock {
        let (open, taken) = (Vec::new(), vec![None; tasks.len()]);
        Clock { tasks: tasks.to_vec(), now: 0, open, taken, state: reference::start(&[]) }
    }

    /// What the step returns; the state says the rest.
    pub fn step(&mut self, done: bool, pressed: u32) -> u64 {
        let (now, last) = (self.now, self.state.last);
        self.open.retain(|job| !(done && job.task == last as usize));
        self.close_late();
        let untaken = (0..TASKS).filter(|&number| pressed >> number & 1 == 1 && !self.press(number));
        let untaken: u64 = untaken.collect::<Vec<_>>().into_iter().map(|number| 1 << number).sum();
        let due = |task: &Task| !task.button && now >= task.offset.into() && (now - u64::from(task.offset)) % u64::from(task.period) == 0;
        let released: Vec<usize> = (0..self.tasks.len()).filter(|&number| due(&self.tasks[number])).collect();
        released.into_iter().for_each(|number| self.arrive(number));
        self.give();
        self.now += 1;
        self.see();
        untaken << 32 | u64::from(self.state.last)
    }

    fn close_late(&mut self) {
        let mut late: Vec<usize> = self.open.iter().filter(|job| job.deadline == self.now).map(|job| job.task).collect();
        late.sort_unstable();
        self.open.retain(|job| job.deadline > self.now);
        self.state.late = late.iter().map(|task| 1 << task).sum();
        self.state.closed = late.len() as u32;
        self.state.lowest = late.first().map_or(NONE, |&task| task as u32);
    }

    /// Whether a press is taken.
    fn press(&mut self, number: usize) -> bool {
        let Some(task) = self.tasks.get(number).filter(|task| task.button) else { return false };
        let free = self.taken[number].map_or(true, |at| self.now - at >= u64::from(task.period));
        if free {
            self.taken[number] = Some(self.now);
            self.arrive(number);
        }
        free
    }

    fn arrive(&mut self, number: usize) {
        let (task, release) = (self.tasks[number], self.now);
        let (deadline, left) = (release + u64::from(task.deadline), u64::from(task.cost));
        self.open.push(Job { task: number, release, deadline, left });
    }

    fn give(&mut self) {
        let tasks = &self.tasks;
        let first = self.open.iter_mut().min_by_key(|job| reference::turn(tasks, job.task, job.deadline));
        self.state.last = first.as_ref().map_or(NONE, |job| job.task as u32);
        match first {
            Some(job) => {
                job.left -= 1;
                self.state.given[job.task] += 1;
            }
            None => self.state.empty += 1,
        }
        self.open.retain(|job| job.left > 0);
    }

    fn see(&mut self) {
        self.state.left = [0; TASKS];
        for job in &self.open {
            self.state.left[job.task] = job.left as u32;
        }
        for (number, task) in self.tasks.iter().enumerate() {
            let (first, period) = (u64::from(task.offset), u64::from(task.period));
            let jobs = self.now.saturating_sub(first).div_ceil(period);
            let next = if task.button { self.taken[number].map_or(0, |at| at + period) } else { first + jobs * period };
            self.state.wait[number] = next.saturating_sub(self.now) as u32;
        }
    }
}

struct Camera {
    file: Vec<u8>,
    clock: Clock,
    passes: bool,
    state: Vec<u8>,
    done_percent: u64,
    press_percent: u64,
    told: (u32, u32),
}

impl Camera {
    fn new(bench: &mut Bench, rng: &mut Rng) -> Camera {
        let tasks = mixed(rng);
        let file = file_of(1, &tasks);
        let replies = bench.answer(&[Request::distance(file.clone()), Request::press_start(file.clone())]);
        Camera {
            clock: Clock::new(&tasks),
            passes: replies[0].result == 1,
            state: replies[1].buffer.clone(),
            done_percent: rng.pick(&[0, 0, 5, 20, 100]),
            press_percent: rng.pick(&[0, 5, 30, 100, 100]),
            told: (0, 0),
            file,
        }
    }

    fn request(&mut self, rng: &mut Rng) -> Request {
        let pressed = (0..TASKS).filter(|_| rng.chance(self.press_percent)).map(|number| 1 << number).sum();
        self.told = (rng.chance(self.done_percent) as u32, pressed);
        Request::press_step(self.file.clone(), self.state.clone(), self.told.0, self.told.1)
    }

    /// What is wrong with a reply, if anything: of a table that passes, that a job was closed late too.
    fn take(&mut self, reply: Reply) -> Option<&'static str> {
        let told = self.clock.step(self.told.0 != 0, self.told.1);
        let seen = reply.intact && reply.result == told && reply.buffer == self.clock.state.to_bytes();
        let late = self.passes && State::from_bytes(&reply.buffer).closed != 0;
        self.state = reply.buffer;
        if late {
            return Some("late, and the table passes");
        }
        (!seen).then_some("not what the clock says")
    }
}

fn run_all(bench: &mut Bench, rng: &mut Rng, cameras: &mut [Camera]) {
    for _ in 0..MOST_SLOTS {
        let requests: Vec<Request> = cameras.iter_mut().map(|camera| camera.request(rng)).collect();
        let replies = bench.answer(&requests);
        for (camera, reply) in cameras.iter_mut().zip(replies) {
            let wrong = camera.take(reply);
            bench.count(wrong.is_none(), || format!("{:?} at slot {}: {:?}", camera.clock.tasks, camera.clock.now, wrong));
        }
    }
}

pub fn runs(bench: &mut Bench, rng: &mut Rng, count: u64) {
    let (mut begun, mut passing, mut steps) = (0, 0, 0);
    while steps < count && begun * FEWEST_STEPS <= count {
        let mut cameras: Vec<Camera> = (0..CAMERAS).map(|_| Camera::new(bench, rng)).collect();
        let passes = cameras.iter().filter(|camera| camera.passes).count() as u64;
        run_all(bench, rng, &mut cameras);
        (begun, passing, steps) = (begun + CAMERAS as u64, passing + passes, steps + passes * MOST_SLOTS);
    }
    bench.count(steps >= count, || "too few tables with buttons pass to be tried".to_string());
    println!("runs with presses: {begun} tables, of which {passing} pass, with {steps} steps on these");
    bench.end_group("whole runs with presses, by the clock");
}
