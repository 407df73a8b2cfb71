//! The answer of a check as numbers: the specification's tables by hand, tables at random, and that it refuses as the check does.

use crate::bench::Bench;
use crate::calls::Request;
use crate::document::{B, C, G, I};
use crate::inputs::*;
use crate::reference::{self, ANSWER_BYTES, REPORT_BYTES};

/// Table and budget; round, load, horizon, settled, idle, from, to and demand; tasks, quick and verdict; the worst responses.
type Known = (&'static [(u32, u32, u32, u32)], u64, [u64; 8], [u32; 3], &'static [u32]);

const KNOWN: &[Known] = &[
    (B, 1_000, [15, 11, 38, 38, 2, 0, 0, 0], [2, 0, 4], &[7, 2]),
    (B, 37, [15, 11, 38, 37, 0, 0, 0, 0], [2, 0, 2], &[]),
    (C, 1_000, [15, 12, 38, 15, 0, 8, 15, 8], [2, 0, 3], &[]),
    (C, 14, [15, 12, 38, 14, 0, 0, 0, 0], [2, 0, 2], &[]),
    (G, u64::MAX, [4, 4, 8, 8, 4, 0, 0, 0], [2, 1, 4], &[2, 4]),
    (I, 1_000, [5, 6, 12, 0, 0, 0, 0, 0], [2, 0, 1], &[]),
];

pub fn by_hand(bench: &mut Bench) {
    for &(rows, budget, longs, [tasks, quick, verdict], worst) in KNOWN {
        let mut bytes: Vec<u8> = longs.iter().flat_map(|long| long.to_le_bytes()).collect();
        bytes.extend([tasks, quick, verdict, 0].iter().chain(worst).flat_map(|word| word.to_le_bytes()));
        bytes.resize(ANSWER_BYTES, 0);
        let request = Request::answer(file_of(budget, &table_of(rows)));
        let buffer = [&bytes, &request.buffer[ANSWER_BYTES..]].concat();
        bench.ask_knowing(request, (0, buffer));
    }
    bench.end_group("answers as numbers, by hand");
}

/// Any file, damaged or not: the two calls return the same refusal, and change nothing, or neither returns one.
pub fn as_the_check_refuses(bench: &mut Bench, rng: &mut Rng) {
    let mut refused = 0;
    for _ in 0..2_000 {
        let mut file = file_of(rng.below(1_000), &near_border(rng));
        if rng.chance(70) {
            damage(rng, &mut file);
        }
        if !affordable(&file) {
            continue;
        }
        let replies = bench.answer(&[Request::check(file.clone()), Request::answer(file.clone())]);
        let (check, answer) = (&replies[0], &replies[1]);
        let alike = if check.result >= 65_536 {
            refused += 1;
            answer.result == check.result && answer.buffer == [0xE7; ANSWER_BYTES + 8]
        } else {
            answer.result == 0 && check.result <= REPORT_BYTES as u64
        };
        bench.count(alike && answer.intact, || format!("{file:?}: check {}, answer {}", check.result, answer.result));
    }
    bench.count(refused >= 200, || format!("only {refused} files refused"));
    bench.end_group("answers as numbers, refused as checks are");
}

/// Each verdict comes up, in buffers that are long enough or a little longer.
pub fn at_random(bench: &mut Bench, rng: &mut Rng, count: u64) {
    let mut verdicts = [0; 5];
    for _ in 0..count {
        let tasks = near_border(rng);
        let mut request = Request::answer(file_of(budget_about(rng, &tasks), &tasks));
        request.buffer = vec![rng.next() as u8; ANSWER_BYTES + rng.below(3) as usize];
        let permitted = reference::answer(&request);
        verdicts[reference::word(&permitted.1, 18) as usize] += 1;
        bench.ask_knowing(request, permitted);
    }
    println!("verdicts as numbers, 1 to 4: {:?}", &verdicts[1..]);
    bench.count(verdicts[1..].iter().all(|&often| often >= count / 1_000), || format!("verdicts {verdicts:?}"));
    bench.end_group("answers as numbers near the border of what passes");
}
