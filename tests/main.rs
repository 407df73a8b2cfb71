//! Host tests: the exported calls, the program judge and the command against an independent implementation of the specification,
//! and what the papers name against the tree.
//!
//! Run by tests/run from the repository's root, with an optional seed and count of inputs for each call.

mod arrivals;
mod bench;
mod blocks;
mod calls;
mod command;
mod document;
mod dumps;
mod easing;
mod files;
mod growing;
mod inputs;
mod judge;
mod json;
mod largest;
mod loads;
mod logbook;
mod logs;
mod markup;
mod names;
mod numbers;
mod pages;
mod papers;
mod passes;
mod pictures;
mod plain;
mod presses;
mod pressing;
mod randoms;
mod reference;
mod remedies;
mod rounds;
mod runs;
mod texts;
mod whatif;
mod whole;
mod writer;

use bench::Bench;
use inputs::Rng;
use std::process::{Command, ExitCode};

const SEED: u64 = 20_241;
const COUNT: u64 = 100_000;

/// A program for x86-64, under the emulator that EMULATOR names where there is one.
pub fn program(path: &str) -> Command {
    let words = std::env::var("EMULATOR").unwrap_or_default();
    let mut words: Vec<String> = words.split_whitespace().map(str::to_string).collect();
    words.push(path.to_string());
    let mut command = Command::new(&words[0]);
    command.args(&words[1..]);
    command
}

fn argument(place: usize, usual: u64) -> u64 {
    std::env::args().nth(place).map_or(usual, |word| word.parse().expect("a number"))
}

fn judging(bench: &mut Bench, rng: &mut Rng, count: u64) {
    document::tables(bench);
    document::steps(bench);
    document::refusals(bench);
    document::accounts(bench);
    document::late_sets(bench);
    document::largest_costs(bench);
    document::buttons(bench);
    randoms::reference_itself(bench, rng);
    randoms::field_borders(bench);
    files::damaged_one_by_one(bench, rng);
    files::buffers(bench, rng);
    randoms::checks(bench, rng, count);
    randoms::quick_tests(bench, rng, count);
    numbers::by_hand(bench);
    numbers::as_the_check_refuses(bench, rng);
    numbers::at_random(bench, rng, count / 4);
    passes::by_hand(bench);
    passes::damaged(bench);
    passes::lengths(bench);
    passes::at_random(bench, rng, count);
    arrivals::runs(bench, rng, count / 10);
    arrivals::calls(bench, rng, count / 20);
    arrivals::without_buttons(bench, rng, count / 10);
    easing::by_hand(bench);
    easing::reference_itself(bench, rng);
    easing::pairs(bench, rng, count);
    easing::borders(bench, rng);
    easing::damaged(bench, rng, count / 4);
    easing::eased_tables_pass(bench, rng, count / 2);
    easing::lowered_costs(bench, rng, count / 2);
    largest::every_cost(bench, rng, count / 10);
    largest::long_deadlines(bench, rng, count / 40);
    largest::rooms(bench, rng, count / 10);
    randoms::long_rounds(bench, rng, count / 20);
    randoms::spoilt_tables(bench, rng, count / 20);
    files::damaged_at_random(bench, rng, count / 20);
    randoms::starts(bench, rng, count);
    randoms::steps(bench, rng, count);
    runs::runs(bench, rng, count);
    presses::by_hand(bench);
    presses::starts(bench, rng, count / 10);
    presses::steps(bench, rng, count);
    presses::without_buttons(bench, rng, count / 4);
    presses::runs(bench, rng, count);
}

fn at_full_load(bench: &mut Bench, rng: &mut Rng, count: u64) {
    loads::short_rounds(bench, rng, count / 5);
    loads::middle_rounds(bench, rng, count / 100);
    loads::common_deadlines(bench, rng, count / 50);
    loads::long_rounds(bench, rng, count / 100);
    rounds::budgets_about_rounds(bench, rng, count / 15);
    rounds::largest_offsets(bench, rng, count / 5_000);
}

fn logs_judged(bench: &mut Bench, rng: &mut Rng, count: u64) {
    logs::by_hand(bench);
    logs::short_ones(bench);
    logs::at_the_limit(bench);
    logs::at_random(bench, rng, count / 20);
    logs::from_any_state(bench, rng, count / 2);
    logs::good_is_in_time(bench, rng, count / 40);
    blocks::damaged_at_borders(bench);
    blocks::longest_ends_inside(bench);
    blocks::long_ones(bench, rng, count / 400);
}

fn writing(bench: &mut Bench, rng: &mut Rng, count: u64) {
    document::written(bench);
    writer::rows(bench, rng);
    writer::buffers(bench, rng);
    writer::round_trips(bench, rng, count / 2);
    writer::rewritten(bench, rng, count / 4);
    writer::spoilt(bench, rng, count / 4);
    texts::by_the_letter(bench);
    texts::one_by_one(bench, rng);
    texts::buffers(bench, rng);
    texts::round_trips(bench, rng, count / 8);
    texts::damaged(bench, rng, count / 2);
    texts::junk(bench, rng, count / 8);
}

fn what_is_shipped(bench: &mut Bench, rng: &mut Rng) {
    whole::stack(bench);
    whole::needs(bench);
    whole::example_hosts(bench);
    papers::headlines(bench);
    papers::promises(bench);
    papers::edits(bench);
    papers::refusals(bench);
    papers::calls(bench);
    papers::layers(bench);
    papers::widths(bench);
    judge::inputs_by_hand(bench);
    judge::inputs_at_random(bench, rng);
    command::by_hand(bench);
    command::launched(bench);
    command::at_random(bench, rng);
    command::junk_under_sanitizers(bench, rng);
    names::at_random(bench, rng);
    whatif::at_random(bench, rng);
    json::at_random(bench, rng);
    remedies::at_random(bench, rng);
    dumps::at_random(bench, rng);
    pressing::at_random(bench, rng);
    pictures::of_tables(bench);
    pictures::in_docs(bench);
    pictures::at_random(bench, rng);
    pictures::at_the_edges(bench);
    pictures::of_anybody(bench);
    pages::with_names(bench, rng);
    pages::into_files(bench);
    pages::what_if(bench);
    growing::same_answers(bench, rng);
    growing::by_interrupt(bench);
}

fn main() -> ExitCode {
    let (seed, count) = (argument(1, SEED), argument(2, COUNT));
    println!("seed {seed}, {count} random inputs for each call");
    let (mut bench, mut rng) = (Bench::new(), Rng(seed));
    judging(&mut bench, &mut rng, count);
    at_full_load(&mut bench, &mut rng, count);
    writing(&mut bench, &mut rng, count);
    logs_judged(&mut bench, &mut rng, count);
    what_is_shipped(&mut bench, &mut rng);
    ExitCode::from(!bench.end() as u8)
}
