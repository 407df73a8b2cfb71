//! The program judge: a process for each input, all that it says held to the reference.

use crate::bench::Bench;
use crate::document::B;
use crate::inputs::*;
use crate::program;
use crate::reference::{self, button, LONGEST_FILE, TASKS};
use crate::whole::hard_files;
use std::fs::File;
use std::io::Write;
use std::os::fd::OwnedFd;
use std::os::unix::net::UnixDatagram;
use std::process::{Child, Command, Output, Stdio};

const JUDGE: &str = "target/bin/judge";
const GOOD_FILES: u64 = 150;
const DAMAGED_FILES: u64 = 150;

/// What the judge must print.
fn permitted(input: &[u8]) -> String {
    let read = reference::read_file(input);
    match read.and_then(|(budget, tasks)| reference::judge_periodic(&tasks).map(|()| reference::report(&tasks, budget))) {
        Ok(report) => report,
        Err(refusal) => format!("refused {} at {}\n", refusal.number, refusal.place),
    }
}

fn must_print(bench: &mut Bench, output: &Output, permitted: &str, what: impl FnOnce() -> String) {
    let good = output.status.code() == Some(0) && output.stderr.is_empty() && output.stdout == permitted.as_bytes();
    bench.count(good, || format!("judge on {}: {output:?}, permitted {permitted:?}", what()));
}

fn start(mut command: Command, input: Stdio) -> Child {
    command.stdin(input).stdout(Stdio::piped()).stderr(Stdio::piped()).spawn().expect("the program starts")
}

fn output_of(child: Child) -> Output {
    child.wait_with_output().expect("the program ends")
}

fn on_stdin(input: impl Into<Stdio>) -> Output {
    output_of(start(program(JUDGE), input.into()))
}

/// That a program ends before it has read a long input is no fault, so a broken pipe is none.
pub fn fed(command: Command, input: &[u8]) -> Output {
    let mut child = start(command, Stdio::piped());
    let _ = child.stdin.take().unwrap().write_all(input);
    output_of(child)
}

fn through_pipe(input: &[u8]) -> Output {
    fed(program(JUDGE), input)
}

/// A read takes one datagram, so that every read comes short; an empty one is the end of the input.
fn in_pieces(input: &[u8], length: usize) -> Output {
    let (ours, theirs) = UnixDatagram::pair().expect("a pair of sockets");
    let child = start(program(JUDGE), OwnedFd::from(theirs).into());
    for piece in input.chunks(length).chain([&[][..]]) {
        let _ = ours.send(piece);
    }
    output_of(child)
}

fn closed() -> Output {
    let judge = program(JUDGE);
    let mut shell = Command::new("sh");
    shell.args(["-c", "exec \"$@\" <&-", "sh"]).arg(judge.get_program()).args(judge.get_args());
    output_of(start(shell, Stdio::null()))
}

/// A read that fails gives no byte, as an empty input does.
fn unreadable(bench: &mut Bench) {
    let directory = File::open("tables").expect("tables/ is there");
    let only_written = File::create("target/host/only_written").expect("target/host can be written");
    let outputs = [on_stdin(Stdio::null()), closed(), on_stdin(directory), on_stdin(only_written)];
    for (output, what) in outputs.iter().zip(["no byte", "closed input", "a directory", "a file that is only written"]) {
        must_print(bench, output, "refused 22 at 0\n", || what.to_string());
    }
}

fn table_files(bench: &mut Bench) {
    let entries = std::fs::read_dir("tables").expect("tables/ is there").map(|entry| entry.unwrap().path());
    let paths: Vec<_> = entries.filter(|path| path.extension().map_or(false, |end| end == "table")).collect();
    bench.count(!paths.is_empty(), || "no file in tables/".to_string());
    for path in paths {
        let output = on_stdin(File::open(&path).expect("a table file can be read"));
        let bytes = std::fs::read(&path).expect("a table file can be read");
        must_print(bench, &output, &permitted(&bytes), || path.display().to_string());
    }
}

/// More bytes than the judge has room for, which is one more than a legal file can have.
fn too_long(bench: &mut Bench) {
    let (b, longest) = (file_of(1_000, &table_of(B)), file_of(1_000, &[table_of(B)[1]; TASKS]));
    let room = LONGEST_FILE + 1 - b.len();
    for more in [1, 2, 17, room - 1, room, room + 1, 600, 65_536, 1_000_000] {
        for (file, place, byte) in [(&b, 44, 0), (&b, 44, 3), (&longest, LONGEST_FILE, 2), (&longest, LONGEST_FILE, 3)] {
            let output = through_pipe(&[&file[..], &vec![byte; more]].concat());
            let refusal = format!("refused 24 at {place}\n");
            must_print(bench, &output, &refusal, || format!("{more} bytes {byte} after a file of {place}"));
        }
    }
}

/// A task or a button too many, after tasks alone or buttons alone, is refused wherever it is cut, and whatever follows.
fn one_too_many(bench: &mut Bench) {
    let (task, button) = (table_of(B)[1], button(1, 9, 20));
    for (many, last) in [(task, task), (task, button), (button, task), (button, button)] {
        let full = file_of(1_000, &[many; TASKS]).len();
        let file = file_of(1_000, &[&[many; TASKS][..], &[last]].concat());
        let refusal = format!("refused 25 at {}\n", full - 1);
        for length in (full..=file.len()).chain([3_000]) {
            let mut input = file.clone();
            input.resize(length, 2);
            must_print(bench, &through_pipe(&input), &refusal, || format!("one too many cut at {length}"));
        }
    }
}

pub fn inputs_by_hand(bench: &mut Bench) {
    unreadable(bench);
    table_files(bench);
    too_long(bench);
    one_too_many(bench);
    for file in hard_files() {
        must_print(bench, &through_pipe(&file), &permitted(&file), || format!("{file:?}"));
        must_print(bench, &in_pieces(&file, 100), &permitted(&file), || format!("{file:?} in pieces"));
    }
    bench.end_group("the program judge, by hand");
}

fn any_input(bench: &mut Bench, rng: &mut Rng, file: &[u8]) {
    let length = rng.pick(&[1, 7, 17, 64, 300]);
    let output = if rng.chance(50) { through_pipe(file) } else { in_pieces(file, length) };
    must_print(bench, &output, &permitted(file), || format!("{file:?}"));
}

pub fn inputs_at_random(bench: &mut Bench, rng: &mut Rng) {
    for _ in 0..GOOD_FILES {
        let tasks = of_any_sort(rng);
        let file = file_of(budget_about(rng, &tasks), &tasks);
        any_input(bench, rng, &file);
    }
    for _ in 0..DAMAGED_FILES {
        let mut file = file_of(rng.below(1_000), &of_any_sort(rng));
        damage(rng, &mut file);
        if affordable(&file) {
            any_input(bench, rng, &file);
        }
    }
    bench.end_group("the program judge, at random");
}
