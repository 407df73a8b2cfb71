//! What-if in the command: what it says of a changed table is what it says of the table that is written so, with the changes before it.

use crate::bench::Bench;
use crate::command::{asked, said};
use crate::inputs::*;
use crate::names::with_names;
use crate::plain;
use crate::reference::{self, Task};
use std::process::Output;

const TABLES: u64 = 80;
const BEGINNINGS: &[&str] = &["lens", "la.mp", "x=1.cost=", "0 ", "\u{e4}\u{1f4f7}", "a.b"];

/// The number of a task or button that a field is.
fn number<'a>(task: &'a mut Task, field: &str) -> &'a mut u32 {
    match field {
        "offset" => &mut task.offset,
        "cost" => &mut task.cost,
        "deadline" => &mut task.deadline,
        _ => &mut task.period,
    }
}

fn some_value(rng: &mut Rng, now: u32) -> u32 {
    match rng.below(8) {
        0 => 0,
        1 => u32::MAX,
        2 => now,
        3 => now + 1,
        _ => now.saturating_sub(1).max(1),
    }
}

/// One setting, by number or by name, also done to the tasks.
fn some_setting(rng: &mut Rng, tasks: &mut [Task], names: &[String]) -> String {
    let which = rng.below(tasks.len() as u64) as usize;
    let fields =
        if tasks[which].button { &["cost", "deadline", "spacing"][..] } else { &["offset", "cost", "deadline", "period"] };
    let field = rng.pick(fields);
    let place = number(&mut tasks[which], field);
    *place = some_value(rng, *place);
    let who = if rng.chance(50) { which.to_string() } else { names[which].clone() };
    format!("--set{}{who}.{field}={}", rng.pick(&["=", "\0"]), *number(&mut tasks[which], field))
}

/// The lines that tell the changes, task by task, and then the budget's.
fn told(trial: &Trial) -> Vec<String> {
    let (Trial { was, is, names, budgets, .. }, mut lines) = (trial, Vec::new());
    for (place, name) in names.iter().enumerate() {
        for field in ["offset", "cost", "deadline", "period"] {
            let (old, new) = (*number(&mut was[place].clone(), field), *number(&mut is[place].clone(), field));
            let word = if is[place].button && field == "period" { "spacing" } else { field };
            if old != new {
                lines.push(format!("with {name}.{word} = {new} ({old} in the file)\n"));
            }
        }
    }
    if budgets.0 != budgets.1 {
        let was = if budgets.0 == u64::MAX { "no bound".to_string() } else { budgets.0.to_string() };
        lines.push(format!("with budget = {} ({was} in the file)\n", budgets.1));
    }
    lines
}

/// A table before and after, and the words that change it.
struct Trial {
    word: &'static str,
    names: Vec<String>,
    budgets: (u64, u64),
    was: Vec<Task>,
    is: Vec<Task>,
    options: Vec<String>,
}

fn some_trial(rng: &mut Rng) -> Trial {
    let (mut was, word) = (near_border(rng), rng.pick(&["judge", "quick", "distance", "run", "show"]));
    if rng.chance(50) && ["distance", "show"].contains(&word) {
        make_buttons(rng, &mut was);
    }
    let names: Vec<String> = (0..was.len()).map(|task| format!("{}{task}", rng.pick(BEGINNINGS))).collect();
    let (budget, mut is, mut options) = (budget_about(rng, &was), was.clone(), Vec::new());
    for _ in 0..1 + rng.below(3) {
        options.extend(some_setting(rng, &mut is, &names).split('\0').map(str::to_string));
    }
    let new_budget = if rng.chance(40) { some_value(rng, 1_000).into() } else { budget };
    if new_budget != budget {
        options.extend(["--budget".to_string(), new_budget.to_string()]);
    }
    Trial { word, names, budgets: (budget, new_budget), was, is, options }
}

/// The refusal of the changed table.
fn refused(output: &Output, number: u64, place: u64) -> bool {
    let text = [said(output), String::from_utf8_lossy(&output.stderr).to_string()].concat();
    let ends = "\nthat is the table with what --set and --budget change\n";
    output.status.code() == Some(2) && text.starts_with(&format!("refused {number} at {place}: ")) && text.ends_with(ends)
}

/// What is said of the text that has the changed numbers, behind the changes.
fn same(output: &Output, trial: &Trial) -> bool {
    let text = with_names(&plain::text_of(trial.budgets.1, &trial.is), &trial.names);
    let direct = asked(&[trial.word, "-"], text.as_bytes());
    let changes = told(trial);
    let before = match trial.word {
        "show" => changes.iter().map(|line| format!("# {line}")).collect(),
        _ => changes.concat() + if changes.is_empty() { "" } else { "\n" },
    };
    said(output) == before + &said(&direct) && output.status == direct.status
}

fn table(bench: &mut Bench, rng: &mut Rng) {
    let trial = some_trial(rng);
    let text = with_names(&plain::text_of(trial.budgets.0, &trial.was), &trial.names);
    let words: Vec<&str> = [trial.word, "-"].into_iter().chain(trial.options.iter().map(String::as_str)).collect();
    let output = asked(&words, text.as_bytes());
    let good = match reference::judge(&trial.is) {
        Err(refusal) => refused(&output, refusal.number, refusal.place),
        Ok(_) if trial.budgets.1 == 0 => refused(&output, 27, 0),
        Ok(_) => same(&output, &trial),
    };
    bench.count(good, || format!("{words:?} on {text}: {output:?}"));
}

pub fn at_random(bench: &mut Bench, rng: &mut Rng) {
    (0..TABLES).for_each(|_| table(bench, rng));
    bench.end_group("what-if in the command");
}
