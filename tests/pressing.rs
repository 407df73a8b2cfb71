//! Tables with buttons in the command: runs with presses against a clock, and what is late for certain.

use crate::arrivals::mixed;
use crate::bench::Bench;
use crate::command::{accounts_of, accounts_told, asked, jobs_listed, jobs_of, rows_of, said};
use crate::inputs::*;
use crate::json::{held_with, Value};
use crate::plain;
use crate::presses::Clock;
use crate::reference::{self, Late, Task, Verdict, NONE, TASKS};
use std::collections::BTreeMap;

const TABLES: u64 = 60;
const SHOWN: usize = 100;

/// The presses that are told: at each slot the buttons as bits.
pub type Presses = BTreeMap<u64, u32>;

/// What a step of the clock tells: the instant before the slot, then the slot.
pub struct Seen {
    pub now: u64,
    /// No earlier job is open.
    pub idle: bool,
    pub owner: u32,
    pub left: [u32; TASKS],
    pub came: u32,
    pub due: u32,
    /// Task, job, release, due and missing slots of each job closed late.
    pub late: Vec<Vec<u64>>,
    /// Button, slot and when it may be pressed again.
    pub early: Vec<Vec<u64>>,
}

/// The releases of each task and button so far, beside the clock.
struct Watch<'a> {
    tasks: &'a [Task],
    clock: Clock,
    jobs: Vec<Vec<u64>>,
    done: bool,
}

impl Watch<'_> {
    fn step(&mut self, now: u64, pressed: u32) -> Seen {
        let before = self.clock.state;
        let open = |number: usize| before.left[number] > 0 && !(self.done && before.last as usize == number);
        let idle = now > 0 && !(0..self.tasks.len()).any(open);
        let untaken = (self.clock.step(self.done, pressed) >> 32) as u32;
        let state = self.clock.state;
        let mut seen =
            Seen { now, idle, owner: state.last, left: state.left, came: 0, due: 0, late: Vec::new(), early: Vec::new() };
        for number in 0..self.tasks.len() {
            self.look(&mut seen, number, pressed, untaken, state.late, before.left[number]);
        }
        seen
    }

    fn look(&mut self, seen: &mut Seen, number: usize, pressed: u32, untaken: u32, late: u32, missing: u32) {
        let (task, now, bit) = (self.tasks[number], seen.now, 1 << number);
        let released = now >= task.offset.into() && (now - u64::from(task.offset)) % u64::from(task.period) == 0;
        let came = if task.button { pressed & !untaken & bit != 0 } else { released };
        let last = self.jobs[number].last().copied();
        seen.due |= if last.is_some_and(|release| release + u64::from(task.deadline) == now) { bit } else { 0 };
        if late & bit != 0 {
            let job = self.jobs[number].len() as u64 - 1;
            seen.late.push(vec![number as u64, job, last.expect("a job"), now, missing.into()]);
        }
        if task.button && pressed & untaken & bit != 0 {
            let again = self.clock.taken[number].expect("a press") + u64::from(task.period);
            seen.early.push(vec![number as u64, now, again]);
        }
        if came {
            seen.came |= bit;
            self.jobs[number].push(now);
        }
    }

    fn ends_early(&mut self) {
        let (state, last) = (self.clock.state, self.clock.state.last as usize);
        self.done = state.last != NONE && 2 * (self.tasks[last].cost - state.left[last]) >= self.tasks[last].cost;
    }
}

/// The instants from 0 on up to that one.
pub fn watched(tasks: &[Task], presses: &Presses, to: u64, early: bool) -> Vec<Seen> {
    let mut watch = Watch { tasks, clock: Clock::new(tasks), jobs: vec![Vec::new(); tasks.len()], done: false };
    let mut all = Vec::new();
    for now in 0..=to {
        all.push(watch.step(now, presses.get(&now).copied().unwrap_or(0)));
        if early {
            watch.ends_early();
        }
    }
    all
}

/// Presses within so many slots, and the words that tell them, in any order and some twice.
pub fn some_presses(rng: &mut Rng, tasks: &[Task], slots: u64) -> (Presses, Vec<String>) {
    let (mut presses, mut words) = (Presses::new(), Vec::new());
    for (number, task) in tasks.iter().enumerate().filter(|(_, task)| task.button) {
        let (count, about) = (rng.below(9), rng.pick(&[slots, u64::from(task.period), 5]));
        let told: Vec<u64> = (0..count).map(|_| rng.below(slots.min(about) + 1)).collect();
        told.iter().for_each(|&slot| *presses.entry(slot).or_default() |= 1 << number);
        for part in told.chunks(rng.pick(&[1, 3, 9])) {
            let slots = part.iter().map(u64::to_string).collect::<Vec<_>>().join(",");
            words.extend(["--press".to_string(), format!("{number}@{slots}")]);
        }
    }
    (presses, words)
}

pub fn when_due(tasks: &[Task], presses: &Presses) -> u64 {
    let due = |(&slot, &set): (&u64, &u32)| {
        let pressed = tasks.iter().enumerate().filter(move |(number, _)| set >> number & 1 == 1);
        pressed.map(move |(_, task)| slot + u64::from(task.deadline)).max().unwrap_or(0)
    };
    presses.iter().map(due).max().unwrap_or(0)
}

fn count_of(presses: &Presses, slots: impl Fn(u64) -> bool) -> u64 {
    presses.iter().filter(|(&slot, _)| slots(slot)).map(|(_, set)| u64::from(set.count_ones())).sum()
}

/// The mark of an instant and of the slot behind it.
fn cells(seen: &Seen, number: usize) -> [char; 2] {
    let has = |set: u32| set >> number & 1 == 1;
    let is_of = |list: &[Vec<u64>]| list.iter().any(|one| one[0] == number as u64);
    let mark = match (is_of(&seen.late), is_of(&seen.early), has(seen.came), has(seen.due)) {
        (true, ..) => '!',
        (_, true, ..) => 'x',
        (_, _, true, true) => '|',
        (_, _, true, _) => '[',
        (_, _, _, true) => ']',
        _ => ' ',
    };
    [mark, if seen.owner as usize == number { '#' } else { [' ', '.'][(seen.left[number] > 0) as usize] }]
}

fn chart_of(all: &[Seen], tasks: usize) -> Vec<String> {
    let row = |number: usize| {
        let mut row: String = all.iter().flat_map(|seen| cells(seen, number)).collect();
        row.pop();
        row.trim_end().to_string()
    };
    (0..tasks).map(row).collect()
}

/// The line about presses, and the rows below it.
fn presses_listed(text: &str) -> (String, Vec<Vec<u64>>) {
    let mut lines = text.lines().skip_while(|line| !line.starts_with("presses taken") && !line.starts_with("no button"));
    let line = lines.next().unwrap_or_default().to_string();
    let numbers = |line: &str| line.split_whitespace().map(|word| word.parse().ok()).collect::<Option<Vec<u64>>>();
    (line, lines.skip(1).map_while(numbers).filter(|row| row.len() == 3).collect())
}

fn presses_line(taken: u64, early: u64, after: u64) -> String {
    if taken + early + after == 0 {
        return "no button was pressed: --press BUTTON@SLOT presses one".to_string();
    }
    let tail = if after > 0 { format!("; after the run: {after}") } else { String::new() };
    format!("presses taken: {taken}; too early, and not taken: {early}{tail}")
}

/// A run against the clock: its chart, late jobs, presses and accounts; and as JSON.
fn charted(bench: &mut Bench, rng: &mut Rng, tasks: &[Task], input: &[u8]) {
    let (mut slots, is_early) = (rng.pick(&[1_u64, 35, 36, 100, 211]), rng.chance(30));
    let (presses, mut words) = some_presses(rng, tasks, slots + 5);
    let usual = of_often(tasks).clamp(35, 120).max(when_due(tasks, &presses));
    if rng.chance(70) {
        words.extend(["--slots".to_string(), slots.to_string()]);
    } else {
        slots = usual;
    }
    words.extend(is_early.then(|| "--early".to_string()));
    let words: Vec<&str> = ["run", "-"].into_iter().chain(words.iter().map(String::as_str)).collect();
    let all = watched(tasks, &presses, slots, is_early);
    let late: Vec<Vec<u64>> = all.iter().flat_map(|seen| seen.late.clone()).collect();
    let early: Vec<Vec<u64>> = all.iter().flat_map(|seen| seen.early.clone()).collect();
    let (within, after) = (count_of(&presses, |slot| slot <= slots), count_of(&presses, |slot| slot > slots));
    let taken = within - early.len() as u64;
    let had = had_of(&all[..slots as usize], tasks.len());
    let status = if late.is_empty() { 0 } else { 3 };
    let output = asked(&words, input);
    let text = said(&output);
    let listed = (presses_line(taken, early.len() as u64, after), early.iter().take(SHOWN).cloned().collect());
    let good = rows_of(&text, tasks.len()) == chart_of(&all, tasks.len())
        && jobs_listed(&text) == late[..late.len().min(SHOWN)]
        && presses_listed(&text) == listed
        && accounts_told(&text) == accounts_of(&had, slots)
        && output.status.code() == Some(status);
    bench.count(good, || format!("{words:?} on {tasks:?}:\n{text}"));
    let told = [("taken", taken), ("too_early_left", early.len().saturating_sub(SHOWN) as u64), ("after", after)];
    as_json(bench, &words, input, status, &early, &told);
}

fn had_of(all: &[Seen], tasks: usize) -> Vec<u64> {
    let mut had = vec![0; tasks + 1];
    all.iter().for_each(|seen| had[(seen.owner as usize).min(tasks)] += 1);
    had
}

fn as_json(bench: &mut Bench, words: &[&str], input: &[u8], status: i32, early: &[Vec<u64>], told: &[(&str, u64); 3]) {
    let number = |(key, number): (&str, u64)| (key.to_string(), Value::Number(number));
    let press = |press: &Vec<u64>| {
        let name = ("name".to_string(), Value::Null);
        let rest = [("slot", press[1]), ("again", press[2])].map(number);
        Value::Object([vec![number(("task", press[0])), name], rest.to_vec()].concat())
    };
    let listed = ("too_early".to_string(), Value::List(early.iter().take(SHOWN).map(press).collect()));
    let members = vec![number(told[0]), listed, number(told[1]), number(told[2])];
    let words: Vec<&str> = words.iter().copied().chain(["--json"]).collect();
    held_with(bench, &words, input, status, "presses", &Value::Object(members));
}

// Late where it is certain.

/// Each button as a task: pressed at 0 and every spacing after.
pub fn often(tasks: &[Task]) -> Vec<Task> {
    tasks.iter().map(|task| Task { button: false, ..*task }).collect()
}

/// The horizon with the buttons pressed like that.
pub fn of_often(tasks: &[Task]) -> u64 {
    let tasks = often(tasks);
    reference::horizon(&tasks, reference::round(&tasks).unwrap())
}

/// The exact test of that way to press, where the distance test has no answer.
pub fn certain(tasks: &[Task], budget: u64) -> Option<Verdict> {
    (reference::has_button(tasks) && reference::by_distance(tasks) == 0).then(|| reference::decide(&often(tasks), budget).verdict)
}

pub fn late_for_certain(tasks: &[Task], budget: u64) -> Option<Late> {
    match certain(tasks, budget) {
        Some(Verdict::Late(late)) => Some(late),
        _ => None,
    }
}

/// What distance ends with, and so do draw and page of a table with buttons.
pub fn distance_status(tasks: &[Task], budget: u64) -> i32 {
    let alone = tasks.iter().all(|task| task.button);
    match reference::by_distance(tasks) {
        1 => 0,
        2 => 3,
        _ if reference::has_button(tasks) && (alone || late_for_certain(tasks, budget).is_some()) => 3,
        _ => 4,
    }
}

/// The rows of a list of jobs, which may have names behind their five numbers.
fn jobs_in(text: &str) -> Vec<Vec<u64>> {
    let rows = text.lines().skip_while(|line| !line.starts_with("  task")).skip(1);
    let numbers = |line: &str| line.split_whitespace().take(5).map(|word| word.parse().ok()).collect::<Option<Vec<u64>>>();
    rows.map_while(numbers).collect()
}

/// Says the interval and its jobs where a job is late for certain, and nothing of the sort elsewhere.
pub fn says_certainly(text: &str, tasks: &[Task], budget: u64) -> bool {
    let begins = "\nlate: with every button pressed at 0 and every spacing after, ";
    let Some(late) = late_for_certain(tasks, budget) else {
        return !text.contains(begins) && jobs_in(text).is_empty();
    };
    let (Late { start, end, demand }, jobs) = (late, jobs_of(&often(tasks), &late));
    let flat = text.replace('\n', " ");
    flat.contains(&format!("the jobs released at {start} or later and due by {end} ask for {demand} slots and have {}, so no way", end - start))
        && text.contains(begins)
        && jobs_in(text) == jobs[..jobs.len().min(SHOWN)]
}

fn often_value(tasks: &[Task], budget: u64) -> Option<&'static str> {
    certain(tasks, budget).map(|verdict| match verdict {
        Verdict::Passes(..) => "passes",
        Verdict::Late(_) => "late",
        Verdict::Undecided => "undecided",
        Verdict::Overload => "overload",
    })
}

fn by_distance(bench: &mut Bench, tasks: &[Task], budget: u64, input: &[u8]) {
    let (output, status) = (asked(&["distance", "-"], input), distance_status(tasks, budget));
    let word = ["none", "pass", "overload"][reference::by_distance(tasks) as usize];
    let good = said(&output).starts_with(&format!("distance {word}\n")) && says_certainly(&said(&output), tasks, budget);
    let good = good && said(&output).contains("button") && output.status.code() == Some(status);
    bench.count(good, || format!("distance on {tasks:?} and budget {budget}: {output:?}"));
    let object = said(&asked(&["distance", "-", "--json"], input));
    let member = often_value(tasks, budget).map(|verdict| format!("\"pressed_often\":{{\"verdict\":\"{verdict}\""));
    let good = member.as_ref().map_or(!object.contains("pressed_often"), |member| object.contains(member));
    bench.count(good && object.contains(&format!("\"status\":{status},")), || format!("distance --json on {tasks:?}: {object}"));
}

/// What is no press of a button of the table is told, and nothing is run.
fn damaged(bench: &mut Bench) {
    let table = b"task 0 1 5 5 # lens\nbutton 1 4 9 # a@b,c\nbutton 1 4 9 # twin\nbutton 1 4 9 # twin\nbutton 1 4 9 # \x1b[2J\n";
    let bad = ["", "@", "1", "1@", "@1", "1@,", "1@1,", "1@,1", "1@1,,2", "1@1000000", "1@-1", "1@+1", "1@ 1", "1@1 ", "1@1.0", "1@x"];
    let bad = bad.into_iter().chain(["0@1", "lens@1", "5@1", "-1@1", "twin@1", "nobody@1", "a@b@1", "1@99999999999999999999999999", "a@b,c"]);
    for press in bad {
        for word in ["run", "draw", "page"] {
            let output = asked(&[word, "-", "--press", press], table);
            let told = output.stderr.starts_with(b"yolizadwa: ") && output.stdout.is_empty();
            bench.count(told && output.status.code() == Some(1), || format!("{word} --press {press}: {output:?}"));
        }
    }
    for press in ["1@0", "a@b,c@0,999999", "2@000000000000000000000000000003", "\x1b[2J@3,3,3"] {
        let output = asked(&["run", "-", "--slots=20", "--press", press], table);
        let good = output.status.code() == Some(0) && said(&output).contains("\npresses taken: 1; too early, and not taken: 0");
        bench.count(good && !output.stdout.contains(&0x1b), || format!("run --press {press}: {output:?}"));
    }
    let output = asked(&["run", "-", "--log", "target/host/no_log"], table);
    bench.count(output.status.code() == Some(1) && output.stdout.is_empty(), || format!("a log with buttons: {output:?}"));
    bench.end_group("presses that are none");
}

/// Now and then with deadlines at the next job and far too much to do, so that a job is closed late where the next one comes.
fn some_table(rng: &mut Rng) -> Vec<Task> {
    let mut tasks = mixed(rng);
    if rng.chance(25) {
        tasks.iter_mut().for_each(|task| *task = Task { deadline: task.period, cost: rng.range(1, task.period), ..*task });
    }
    tasks
}

pub fn at_random(bench: &mut Bench, rng: &mut Rng) {
    for _ in 0..TABLES {
        let tasks = some_table(rng);
        let budget = budget_about(rng, &often(&tasks));
        let (text, file) = (plain::text_of(budget, &tasks), file_of(budget, &tasks));
        charted(bench, rng, &tasks, &text);
        by_distance(bench, &tasks, budget, &file);
    }
    bench.end_group("the command with presses, at random");
    damaged(bench);
}
