//! Tables in plain text once more, written from include/yolizadwa.h and docs/DECISIONS.md alone.

use crate::reference::{button, periodic, refuse, Refusal, Task, LARGEST_PLACE, TASKS};

/// The bytes of the longest text of a table that is not refused.
pub const LONGEST_TEXT: usize = 28 + 29 * TASKS;

fn words(line: &[u8]) -> Vec<&[u8]> {
    let line = line.strip_suffix(b"\r").unwrap_or(line);
    let said = line.split(|&byte| byte == b'#').next().unwrap();
    said.split(|&byte| byte == b' ' || byte == b'\t').filter(|word| !word.is_empty()).collect()
}

/// A number below a limit, or the refusal's.
fn number(word: &[u8], limit: u128) -> Result<u64, u64> {
    if !word.iter().all(u8::is_ascii_digit) {
        return Err(61);
    }
    let digits = std::str::from_utf8(word).expect("digits");
    let value: Option<u128> = digits.parse().ok();
    value.filter(|&value| value < limit).map(|value| value as u64).ok_or(62)
}

fn numbers<const N: usize>(words: &[&[u8]], limit: u128) -> Result<[u64; N], u64> {
    let mut found = [0; N];
    for (place, found) in found.iter_mut().enumerate() {
        *found = number(words.get(place).ok_or(63_u64)?, limit)?;
    }
    if words.len() > N {
        return Err(63);
    }
    Ok(found)
}

fn take_line(words: &[&[u8]], budget: &mut Option<u64>, tasks: &mut Vec<Task>) -> Result<(), u64> {
    let Some((&first, rest)) = words.split_first() else { return Ok(()) };
    match first {
        b"budget" if budget.is_some() => return Err(65),
        b"budget" if !tasks.is_empty() => return Err(64),
        b"task" | b"button" if tasks.len() == TASKS => return Err(66),
        b"budget" => match numbers(rest, 1 << 64)? {
            [0] => return Err(27),
            [slots] => *budget = Some(slots),
        },
        b"task" => {
            let [offset, cost, deadline, period] = numbers(rest, 1 << 32)?.map(|number| number as u32);
            tasks.push(periodic(offset, cost, deadline, period));
        }
        b"button" => {
            let [cost, deadline, spacing] = numbers(rest, 1 << 32)?.map(|number| number as u32);
            tasks.push(button(cost, deadline, spacing));
        }
        _ => return Err(60),
    }
    Ok(())
}

/// What follows the last line feed is a line too, if an empty one. A text without a budget has the largest.
pub fn read_text(text: &[u8]) -> Result<(u64, Vec<Task>), Refusal> {
    let (mut budget, mut tasks) = (None, Vec::new());
    for (index, line) in text.split(|&byte| byte == b'\n').enumerate() {
        let place = (index + 1).min(LARGEST_PLACE);
        take_line(&words(line), &mut budget, &mut tasks).or_else(|fault| refuse(fault, place))?;
    }
    Ok((budget.unwrap_or(u64::MAX), tasks))
}

fn task_line(task: &Task) -> String {
    if task.button {
        format!("button {} {} {}\n", task.cost, task.deadline, task.period)
    } else {
        format!("task {} {} {} {}\n", task.offset, task.cost, task.deadline, task.period)
    }
}

pub fn text_of(budget: u64, tasks: &[Task]) -> Vec<u8> {
    let lines: String = tasks.iter().map(task_line).collect();
    format!("budget {budget}\n{lines}").into_bytes()
}
