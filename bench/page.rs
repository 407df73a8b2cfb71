//! One page of claims: under each claim a table in Markdown, how far the times moved, and whether the claim holds.

use std::hint::black_box;
use std::io::IsTerminal;

use crate::calls::{has_before, sides, Library};

// How often each thing is timed; they take turns, and the best time of each counts.
const TURNS: f64 = 25.0;

// A call is repeated until one timing takes so long, in nanoseconds.
const LEAST: f64 = 3e6;

// Turns that take longer together are fewer, in nanoseconds.
const LONGEST: f64 = 3e9;

pub struct Page {
    pub short: bool,
    rows: Vec<Vec<String>>,
    noise: f64,
    missed: usize,
    misses: bool,
    lacks: bool,
    all_hold: bool,
}

impl Page {
    pub fn new(short: bool) -> Page {
        Page { short, rows: vec![], noise: 0.0, missed: 0, misses: false, lacks: false, all_hold: true }
    }

    pub fn claim(&mut self, words: &str, columns: &str) {
        if !self.short {
            println!("\n### {words}\n");
        }
        self.rows = vec![columns.split(" | ").map(String::from).collect()];
        (self.noise, self.missed, self.lacks) = (0.0, 0, false);
    }

    /// A row that misses a bar has a star behind its name.
    pub fn row(&mut self, mut cells: Vec<String>) {
        if std::mem::take(&mut self.misses) {
            self.missed += 1;
            cells[0].push_str(" *");
        }
        self.rows.push(cells);
    }

    /// The same whole call of the older library and of the present one, in turn: three columns more for the last row.
    pub fn beside(&mut self, has: fn(&Library) -> usize, call: &dyn Fn(&Library)) {
        let libraries = sides(has);
        self.lacks |= has_before() && libraries.len() == 1;
        let mut calls: Vec<_> = libraries.iter().map(|&library| move || call(library)).collect();
        let [first, second] = &mut calls[..] else { return };
        let times = self.turns(&mut [first, second]);
        let (heading, last) = (self.rows[0].len(), self.rows.len() - 1);
        self.rows[last].extend([figure(times[1]), figure(times[0]), figure(times[0] / times[1])]);
        if heading < self.rows[last].len() {
            self.rows[0].extend(["before, ns", "after, ns", "ratio"].map(String::from));
        }
    }

    /// Of the next row.
    pub fn bar(&mut self, holds: bool) {
        self.misses |= !holds;
    }

    pub fn end(&mut self, name: &str) {
        if self.short {
            println!("bench {name}: {} compared", self.rows.len() - 1);
            return;
        }
        let widths: Vec<usize> = (0..self.rows[0].len()).map(|at| self.width(at)).collect();
        for (line, cells) in self.rows.iter().enumerate() {
            let padded: Vec<String> = widths.iter().zip(cells).map(|(&width, cell)| format!("{cell:<width$}")).collect();
            println!("| {} |", padded.join(" | "));
            if line == 0 {
                println!("|{}|", widths.iter().map(|&width| "-".repeat(width.max(1) + 2)).collect::<Vec<_>>().join("|"));
            }
        }
        self.all_hold &= self.missed == 0;
        let verdict = if self.missed == 0 { "holds".into() } else { format!("MISSED at {} *", self.missed) };
        let noise = if self.noise > 0.0 { format!(" Noise at most {:.0} %.", self.noise) } else { String::new() };
        println!("\n{name}: {verdict}.{noise}");
        if self.lacks {
            println!("The library before lacks this call.");
        }
    }

    /// How far the programs that walk single slots go where answers are compared.
    pub fn most_slots(&self) -> u64 {
        if self.short {
            100_000
        } else {
            10_000_000
        }
    }

    pub fn all_hold(&self) -> bool {
        self.all_hold
    }

    // Columns are aligned on a terminal alone: a paper has them plain.
    fn width(&self, at: usize) -> usize {
        if !std::io::stdout().is_terminal() {
            return 0;
        }
        self.rows.iter().filter_map(|cells| cells.get(at)).map(|cell| cell.len()).max().unwrap_or(0)
    }

    /// The best time of each call, in nanoseconds; in the short form none is timed.
    pub fn turns(&mut self, calls: &mut [&mut dyn FnMut()]) -> Vec<f64> {
        if self.short {
            return vec![1.0; calls.len()];
        }
        let (often, first): (Vec<u64>, Vec<f64>) = calls.iter_mut().map(|call| calls_that_last(call)).unzip();
        let once: f64 = often.iter().zip(&first).map(|(&often, time)| often as f64 * time).sum();
        let mut times: Vec<Vec<f64>> = first.into_iter().map(|time| vec![time]).collect();
        let more = (LONGEST / once).clamp(1.0, TURNS) as usize - 1;
        for turn in 0..more * calls.len() {
            let i = turn % calls.len();
            times[i].push(timed(often[i], calls[i]));
        }
        times.into_iter().map(|all| self.best(all)).collect()
    }

    // Noise is how far the middle one lies above the best, in percent.
    fn best(&mut self, mut all: Vec<f64>) -> f64 {
        all.sort_by(f64::total_cmp);
        self.noise = self.noise.max((all[all.len() / 2] / all[0] - 1.0) * 100.0);
        all[0]
    }
}

// How many calls in a row take so long, and how long each of them took.
fn calls_that_last(call: &mut dyn FnMut()) -> (u64, f64) {
    let mut calls = 1;
    loop {
        let time = timed(calls, call);
        if time * calls as f64 >= LEAST {
            return (calls, time);
        }
        calls *= 2;
    }
}

pub fn timed(calls: u64, call: &mut dyn FnMut()) -> f64 {
    let began = now();
    for _ in 0..calls {
        call();
    }
    (now() - began) as f64 / calls as f64
}

/// The time that this thread has had, in nanoseconds: what others do on the machine meanwhile is not in it.
fn now() -> i64 {
    extern "C" {
        fn clock_gettime(clock: i32, time: *mut [i64; 2]) -> i32;
    }
    const THREAD_TIME: i32 = 3;
    let mut time = [0i64; 2];
    assert_eq!(unsafe { clock_gettime(THREAD_TIME, &mut time) }, 0);
    time[0] * 1_000_000_000 + time[1]
}

/// An answer that the compiler may not leave out.
pub fn kept<T>(answer: T) {
    black_box(answer);
}

/// With commas between thousands.
pub fn count(number: u64) -> String {
    let digits = number.to_string();
    let comma = |at: usize| if at > 0 && (digits.len() - at) % 3 == 0 { "," } else { "" };
    digits.chars().enumerate().map(|(at, digit)| format!("{}{digit}", comma(at))).collect()
}

pub fn figure(number: f64) -> String {
    match number {
        _ if number < 0.0 => format!("-{}", figure(-number)),
        _ if number < 0.0995 => format!("{number:.3}"),
        _ if number < 9.995 => format!("{number:.2}"),
        _ if number < 99.95 => format!("{number:.1}"),
        _ => count(number.round() as u64),
    }
}
