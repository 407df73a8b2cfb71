//! What the specification gives by the letter: tables and reports, dispatcher runs, refusals with their places.

use crate::bench::Bench;
use crate::calls::Request;
use crate::files::ask_all;
use crate::inputs::{budget_record, file_of, rows_of, table_of, task_record};
use crate::reference::{
    self, button, periodic, State, Task, LATE, LONGEST_FILE, NONE, OVERLOAD, REPORT_BYTES, STATE_BYTES, TASKS, UNDECIDED,
};

type Rows = &'static [(u32, u32, u32, u32)];

const A: Rows = &[(0, 1, 1, 1)];
pub const B: Rows = &[(8, 5, 7, 15), (0, 2, 2, 5)];
pub const C: Rows = &[(8, 6, 7, 15), (0, 2, 2, 5)];
const D: Rows = &[(0, 5, 7, 15), (0, 2, 2, 5)];
pub const E: Rows = &[(1, 1, 1, 2), (0, 1, 1, 2)];
pub const F: Rows = &[(0, 1, 1, 2), (0, 1, 1, 2)];
pub const G: Rows = &[(0, 2, 4, 4), (0, 2, 4, 4)];
const H: Rows = &[(4, 1, 1, 2), (0, 2, 3, 4)];
pub const I: Rows = &[(0, 3, 5, 5), (2, 3, 5, 5)];
pub const J: Rows = &[(4, 1, 1, 2)];
/// The lamp's, where equal deadlines go to the shorter period.
const LAMP: Rows = &[(0, 4, 6, 6), (3, 1, 3, 3)];
const LONG: Rows = &[(0, 1, 31_623, 31_623), (0, 1, 31_624, 31_624)];
const LONGER: Rows = &[(0, 1, 281, 281), (0, 1, 59_641, 59_641), (0, 1, 59_669, 59_669)];
/// Of all tables those whose round is nearest to its limit: one below it, and ten above.
const LONGEST: Rows = &[(0, 1, 7_777, 7_777), (0, 1, 9_901, 9_901), (0, 1, 12_987, 12_987)];
pub const TOO_LONG: Rows = &[(0, 1, 4_093, 4_093), (0, 1, 8_779, 8_779), (0, 1, 27_830, 27_830)];
const TOO_LONG_TOO: Rows = &[(0, 1, 279, 279), (0, 1, 59_780, 59_780), (0, 1, 59_957, 59_957)];

/// Tables with a budget and the report they give.
pub const REPORTS: &[(Rows, u64, &str)] = &[
    (A, 1_000, "tasks 1\nload 1/1\nquick pass\nhorizon 2\nverdict passes\nsettled 2\nworst 0 1\nidle 1\n"),
    (B, 1_000, "tasks 2\nload 11/15\nquick none\nhorizon 38\nverdict passes\nsettled 38\nworst 0 7\nworst 1 2\nidle 2\n"),
    (B, 38, "tasks 2\nload 11/15\nquick none\nhorizon 38\nverdict passes\nsettled 38\nworst 0 7\nworst 1 2\nidle 2\n"),
    (B, 1, "tasks 2\nload 11/15\nquick none\nhorizon 38\nverdict undecided\nsettled 1\n"),
    (B, 37, "tasks 2\nload 11/15\nquick none\nhorizon 38\nverdict undecided\nsettled 37\n"),
    (C, 1_000, "tasks 2\nload 12/15\nquick none\nhorizon 38\nverdict late\nsettled 15\ninterval 8 15 demand 8\n"),
    (C, 15, "tasks 2\nload 12/15\nquick none\nhorizon 38\nverdict late\nsettled 15\ninterval 8 15 demand 8\n"),
    (C, 14, "tasks 2\nload 12/15\nquick none\nhorizon 38\nverdict undecided\nsettled 14\n"),
    (D, 1_000, "tasks 2\nload 11/15\nquick none\nhorizon 30\nverdict late\nsettled 7\ninterval 0 7 demand 9\n"),
    (E, 1_000, "tasks 2\nload 2/2\nquick none\nhorizon 5\nverdict passes\nsettled 5\nworst 0 1\nworst 1 1\nidle 1\n"),
    (F, 1_000, "tasks 2\nload 2/2\nquick none\nhorizon 4\nverdict late\nsettled 1\ninterval 0 1 demand 2\n"),
    (G, 1_000, "tasks 2\nload 4/4\nquick pass\nhorizon 8\nverdict passes\nsettled 8\nworst 0 2\nworst 1 4\nidle 4\n"),
    (H, 1_000, "tasks 2\nload 4/4\nquick none\nhorizon 12\nverdict late\nsettled 7\ninterval 4 7 demand 4\n"),
    (I, 1_000, "tasks 2\nload 6/5\nquick none\nhorizon 12\nverdict overload\nsettled 0\n"),
    (I, 1, "tasks 2\nload 6/5\nquick none\nhorizon 12\nverdict overload\nsettled 0\n"),
    (J, 1_000, "tasks 1\nload 1/2\nquick pass\nhorizon 8\nverdict passes\nsettled 8\nworst 0 1\nidle 1\n"),
    (J, u64::MAX, "tasks 1\nload 1/2\nquick pass\nhorizon 8\nverdict passes\nsettled 8\nworst 0 1\nidle 1\n"),
    (LAMP, 15, "tasks 2\nload 6/6\nquick pass\nhorizon 15\nverdict passes\nsettled 15\nworst 0 6\nworst 1 1\nidle 5\n"),
    (LONG, 10, "tasks 2\nload 63247/1000045752\nquick pass\nhorizon 2000091504\nverdict undecided\nsettled 10\n"),
    (
        LONGEST,
        10,
        "tasks 3\nload 306584263/999999999999\nquick pass\nhorizon 1999999999998\nverdict undecided\nsettled 10\n",
    ),
    (
        LONGER,
        10,
        "tasks 3\nload 3592244939/999999990949\nquick pass\nhorizon 1999999981898\nverdict undecided\nsettled 10\n",
    ),
];

/// A published one: it passes, but not by its distances.
const NOT_BY_DISTANCE: Rows = &[(0, 1, 2, 5), (1, 1, 2, 4), (2, 1, 2, 6)];

/// It passes; of its patterns one misses a deadline, though none by what is asked for from 0 on.
const NOT_FROM_0: Rows = &[(2, 1, 1, 6), (1, 2, 4, 4), (0, 1, 1, 6)];

/// The offsets and periods of section 3.8.
const REQUESTED: Rows = &[(0, 1, 1, 3), (1, 1, 1, 4), (2, 1, 1, 6)];

/// Tables, whether the quick test passes them, and what the distance test says: 2 for overload, 1 for pass, 0 for none.
const ANSWERS: &[(Rows, u64, u64)] = &[
    (A, 1, 1),
    (B, 0, 1),
    (C, 0, 0),
    (D, 0, 0),
    (E, 0, 1),
    (F, 0, 0),
    (G, 1, 1),
    (H, 0, 0),
    (I, 0, 2),
    (J, 1, 1),
    (LAMP, 1, 1),
    (LONGEST, 1, 1),
    (REQUESTED, 0, 0),
    (NOT_FROM_0, 0, 0),
    (NOT_BY_DISTANCE, 0, 0),
];

/// Section 3.11: tables with a budget and a task, and its largest cost, or what is said where there is none.
const LARGEST_COSTS: &[(Rows, u64, u32, u64)] = &[
    (A, 1_000, 0, 1),
    (B, 1_000, 0, 5),
    (B, 1_000, 1, 2),
    (B, 38, 0, 5),
    (B, 37, 0, UNDECIDED),
    (B, 37, 1, UNDECIDED),
    (C, 1_000, 0, LATE),
    (C, 15, 1, LATE),
    (C, 14, 1, UNDECIDED),
    (D, 7, 0, LATE),
    (D, 6, 0, UNDECIDED),
    (E, 1_000, 0, 1),
    (G, 1_000, 0, 2),
    (I, 1_000, 0, OVERLOAD),
    (I, 1, 1, OVERLOAD),
    (J, 8, 0, 1),
    (J, 7, 0, UNDECIDED),
    (LAMP, 1_000, 0, 4),
    (LAMP, 1_000, 1, 1),
    (LONGEST, 10, 2, UNDECIDED),
    (&[(0, 1, 60_000, 60_000)], 120_000, 0, 60_000),
    (&[(0, 1, 60_000, 60_000)], 119_999, 0, UNDECIDED),
    (&[(0, 1, 59_999, 60_000), (0, 1, 60_000, 60_000)], 120_000, 0, 59_999),
    (&[(0, 1, 59_999, 60_000), (0, 1, 60_000, 60_000)], 120_000, 1, 59_999),
];

/// Section 3.8: tables with buttons, and what the distance test says of them, as above.
fn with_buttons() -> Vec<(Vec<Task>, u64)> {
    let (b, e, g) = (table_of(B), table_of(E), table_of(G));
    vec![
        (vec![button(1, 1, 1)], 1),
        (vec![button(1, 2, 2), button(1, 2, 2)], 1),
        (vec![button(1, 1, 2), button(1, 1, 2)], 0),
        (vec![button(2, 2, 3), button(1, 3, 3)], 1),
        (vec![button(2, 2, 3), button(2, 3, 3)], 2),
        (vec![g[0], button(2, 4, 4)], 1),
        (vec![b[0], button(2, 2, 5)], 0),
        (vec![button(5, 7, 15), b[1]], 0),
        (vec![e[0], button(1, 1, 2)], 0),
        (vec![e[0], e[1], button(1, 60, 60)], 2),
        (vec![periodic(0, 1, 1, 4), periodic(1, 1, 1, 4), button(1, 3, 4)], 1),
        (vec![periodic(0, 1, 1, 4), button(1, 2, 4), periodic(1, 1, 1, 4)], 0),
        (vec![button(1, 3, 4), periodic(60_000, 1, 1, 4), periodic(1, 1, 1, 4)], 1),
        (vec![periodic(0, 1, 31_623, 31_623), button(1, 31_624, 31_624)], 1),
    ]
}

/// Every call but the distance test and those that read and write refuses a table with a button, at the first one: after the buffer and
/// before the state, the task that is asked for, and the new file of an easing.
fn has_a_button(bench: &mut Bench, file: &[u8], place: u64) {
    for request in [Request::check(file.to_vec()), Request::quick(file.to_vec()), Request::start(file.to_vec())] {
        refused_with(bench, request, 11, place);
    }
    for state in [reference::start(&[]).to_bytes(), vec![0xFF; STATE_BYTES]] {
        refused_with(bench, Request::step(file.to_vec(), state, 1), 11, place);
    }
    for task in [0, 1, 32, u32::MAX] {
        refused_with(bench, Request::largest(file.to_vec(), task), 11, place);
    }
    for new in [file.to_vec(), vec![9], file_of(1, &table_of(B))] {
        bench.ask_knowing(Request::eased(file.to_vec(), new.clone()), (4 * (11 * 65_536 + place) + 2, new));
    }
    let eased = Request::eased(file_of(1, &table_of(B)), file.to_vec());
    bench.ask_knowing(eased, (4 * (11 * 65_536 + place) + 3, file.to_vec()));
    refused_with(bench, Request { buffer: vec![0xE7; 9], ..Request::check(file.to_vec()) }, 30, 9);
    refused_with(bench, Request { buffer: vec![0xE7; 9], ..Request::start(file.to_vec()) }, 50, 9);
}

pub fn buttons(bench: &mut Bench) {
    for (tasks, distance) in with_buttons() {
        let file = file_of(1, &tasks);
        bench.ask_knowing(Request::distance(file.clone()), (distance, Vec::new()));
        has_a_button(bench, &file, tasks.iter().position(|task| task.button).unwrap() as u64);
        ask_all(bench, &file);
    }
    for place in 0..TASKS {
        let mut tasks = [periodic(0, 1, 60, 60); TASKS];
        tasks[place..].fill(button(1, 60, 60));
        has_a_button(bench, &file_of(1, &tasks), place as u64);
        ask_all(bench, &file_of(1, &tasks));
    }
    bench.end_group("the specification's buttons");
}

/// A task that the table does not have is told behind the table's refusals and before any verdict.
fn no_such_tasks(bench: &mut Bench) {
    for rows in [B, C, I] {
        for budget in [1, 1_000] {
            let file = file_of(budget, &table_of(rows));
            for (task, place) in [(2, 2), (3, 3), (65_534, 65_534), (65_535, 65_535), (65_536, 65_535), (u32::MAX, 65_535)] {
                refused_with(bench, Request::largest(file.clone(), task), 12, place);
            }
        }
    }
    for (task, place) in [(32, 32), (33, 33), (256, 256), (1 << 16, 65_535), (1 << 31, 65_535)] {
        let most = [periodic(0, 1, 60, 60); TASKS];
        refused_with(bench, Request::largest(file_of(1, &most), task), 12, place);
    }
}

pub fn largest_costs(bench: &mut Bench) {
    for &(rows, budget, task, told) in LARGEST_COSTS {
        bench.ask_knowing(Request::largest(file_of(budget, &table_of(rows)), task), (told, Vec::new()));
    }
    no_such_tasks(bench);
    for (file, number, place) in refused_files().into_iter().chain(files_of_nothing()).chain(refused_buttons()) {
        for task in [0, 1, 40, u32::MAX] {
            refused_with(bench, Request::largest(file.clone(), task), number, place);
        }
    }
    bench.end_group("the specification's largest costs");
}

fn report_is(bench: &mut Bench, rows: Rows, budget: u64, report: &str) {
    let request = Request::check(file_of(budget, &table_of(rows)));
    bench.ask_filled(request, report.as_bytes());
}

pub fn refused_with(bench: &mut Bench, request: Request, number: u64, place: u64) {
    let buffer = request.buffer.clone();
    bench.ask_knowing(request, (65_536 * number + place, buffer));
}

pub fn tables(bench: &mut Bench) {
    for &(rows, budget, report) in REPORTS {
        report_is(bench, rows, budget, report);
        ask_all(bench, &file_of(budget, &table_of(rows)));
    }
    for rows in [NOT_FROM_0, NOT_BY_DISTANCE] {
        let reply = &bench.answer(&[Request::check(file_of(u64::MAX, &table_of(rows)))])[0];
        let report = String::from_utf8(reply.written()).unwrap();
        bench.count(report.contains("\nverdict passes\n"), || format!("{rows:?} does not pass: {report}"));
    }
    for &(rows, quick, distance) in ANSWERS {
        bench.ask_knowing(Request::quick(file_of(1, &table_of(rows))), (quick, Vec::new()));
        bench.ask_knowing(Request::distance(file_of(1, &table_of(rows))), (distance, Vec::new()));
    }
    let tasks = table_of(REQUESTED);
    for (first, second, distance) in [(0, 1, 0), (0, 2, 2), (1, 0, 0), (1, 2, 1), (2, 0, 1), (2, 1, 1)] {
        let counted = reference::distance(&tasks[first], &tasks[second]);
        bench.count(counted == distance, || format!("distance of {second} from {first}: {counted}, not {distance}"));
    }
    bench.end_group("the specification's tables");
}

/// A row of steps from the start, each with its done report and what it must give: owner; late, closed, lowest.
fn steps_are(bench: &mut Bench, rows: Rows, steps: &[(u32, u32, [u32; 3])]) {
    let file = file_of(1, &table_of(rows));
    let mut buffer = bench.answer(&[Request::start(file.clone())])[0].buffer.clone();
    let mut had = [0; TASKS + 1];
    for &(done, owner, late) in steps {
        let reply = bench.answer(&[Request::step(file.clone(), buffer, done)]).remove(0);
        let state = State::from_bytes(&reply.buffer);
        let got = (reply.result, state.last, [state.late, state.closed, state.lowest]);
        had[owner as usize] += 1;
        let counted = [&state.given[..], &[state.empty]].concat();
        let good = reply.intact && got == (u64::from(owner), owner, late) && counted == had;
        bench.count(good, || format!("{rows:?}: {got:?}, not {owner} {late:?}"));
        buffer = reply.buffer;
    }
}

pub fn steps(bench: &mut Bench) {
    let none = [0, 0, NONE];
    steps_are(bench, G, &[(0, 0, none), (1, 1, none), (0, 1, none), (0, NONE, none), (0, 0, none)]);
    steps_are(bench, F, &[(0, 0, none), (0, NONE, [2, 1, 1])]);
    steps_are(bench, LAMP, &[(0, 0, none), (0, 0, none), (0, 0, none), (0, 1, none), (0, 0, none), (0, NONE, none)]);
    bench.end_group("the specification's dispatcher");
}

/// Files that are refused, with number and place.
fn refused_files() -> Vec<(Vec<u8>, u64, u64)> {
    let b = file_of(38, &table_of(B));
    let too_many = file_of(1, &[periodic(0, 1, 60, 60); TASKS + 1]);
    let second = |row: (u32, u32, u32, u32)| file_of(9, &table_of(&[(0, 1, 2, 3), row]));
    vec![
        (file_of(9, &[]), 1, 0),
        (second((0, 1, 1, 0)), 3, 1),
        (second((0, 1, 1, 60_001)), 3, 1),
        (second((60_001, 9, 9, 0)), 3, 1),
        (second((0, 1, 0, 5)), 4, 1),
        (second((0, 1, 6, 5)), 4, 1),
        (second((60_001, 7, 6, 5)), 4, 1),
        (second((0, 0, 4, 5)), 5, 1),
        (second((0, 5, 4, 5)), 5, 1),
        (second((60_001, 5, 4, 5)), 5, 1),
        (second((60_001, 1, 4, 5)), 6, 1),
        (file_of(9, &table_of(TOO_LONG)), 7, 0),
        (file_of(9, &table_of(TOO_LONG_TOO)), 7, 0),
        (file_of(9, &[table_of(TOO_LONG), table_of(&[(0, 1, 1, 0)])].concat()), 3, TOO_LONG.len() as u64),
        (b[..8].to_vec(), 20, 0),
        (b[..25].to_vec(), 20, 9),
        ([&b[..9], &[5][..]].concat(), 21, 9),
        (vec![9], 21, 0),
        (vec![], 22, 0),
        (vec![3], 22, 0),
        (vec![2], 22, 0),
        ([&b[..26], &[1][..]].concat(), 23, 26),
        ([&b[..], &[0][..]].concat(), 24, 44),
        (too_many[..LONGEST_FILE].to_vec(), 25, LONGEST_FILE as u64 - 1),
        (too_many, 25, LONGEST_FILE as u64 - 1),
        (b[..9].to_vec(), 26, 9),
        (b[..43].to_vec(), 26, 43),
    ]
}

/// Files with buttons that are refused by every call, with number and place.
fn refused_buttons() -> Vec<(Vec<u8>, u64, u64)> {
    let (b, press) = (file_of(38, &table_of(B)), task_record(&button(1, 9, 20)));
    let beside = |cost, deadline, spacing| file_of(9, &[periodic(0, 1, 2, 3), button(cost, deadline, spacing)]);
    let (tasks, buttons) = ([periodic(0, 1, 60, 60); TASKS], [button(1, 60, 60); TASKS]);
    let (full, pressed) = (file_of(1, &tasks), file_of(1, &buttons));
    let mut files = vec![
        (press.clone(), 22, 0),
        (vec![4], 22, 0),
        (beside(9, 9, 0), 3, 1),
        (beside(1, 1, 60_001), 3, 1),
        (beside(9, 0, 5), 4, 1),
        (beside(7, 6, 5), 4, 1),
        (beside(0, 4, 5), 5, 1),
        (beside(5, 4, 5), 5, 1),
        (file_of(9, &[button(5, 4, 5), periodic(0, 1, 1, 0)]), 5, 0),
        (file_of(9, &[button(1, 4, 5), periodic(60_001, 1, 1, 1)]), 6, 1),
        (file_of(9, &[button(1, 4_093, 4_093), periodic(0, 1, 8_779, 8_779), button(1, 27_830, 27_830)]), 7, 0),
        ([&b[..26], &press, &[1]].concat(), 23, 39),
        ([&b[..43], &press, &[3, 4]].concat(), 24, 57),
        ([&full[..LONGEST_FILE - 1], &press].concat(), 25, LONGEST_FILE as u64 - 1),
        ([&full[..LONGEST_FILE - 1], &[4]].concat(), 25, LONGEST_FILE as u64 - 1),
        ([&pressed[..pressed.len() - 1], &[2]].concat(), 25, 9 + 13 * TASKS as u64),
        ([&pressed[..pressed.len() - 1], &[4]].concat(), 25, 9 + 13 * TASKS as u64),
        ([&b[..43], &press].concat(), 26, 56),
        ([&budget_record(0), &press[..]].concat(), 27, 0),
    ];
    files.extend((1..13).map(|length| ([&b[..26], &press[..length]].concat(), 20, 26)));
    files
}

/// Section 4.2: a whole budget of 0 before anything behind it, cut short, and as a second one.
fn files_of_nothing() -> Vec<(Vec<u8>, u64, u64)> {
    let (nothing, b) = (budget_record(0), file_of(38, &table_of(B)));
    let behind: [&[u8]; 7] = [&[], &[9], &[1], &[2], &[3], &[3, 3], &b[9..]];
    let mut files: Vec<_> = behind.iter().map(|rest| ([&nothing[..], rest].concat(), 27, 0)).collect();
    files.push((file_of(0, &[periodic(0, 1, 60, 60); TASKS + 1]), 27, 0));
    files.push((file_of(0, &table_of(TOO_LONG)), 27, 0));
    files.extend((1..9).map(|length| (nothing[..length].to_vec(), 20, 0)));
    files.push(([&b[..9], &nothing].concat(), 23, 9));
    files.push(([&b[..43], &nothing].concat(), 23, 43));
    files
}

/// States that are one beyond a border of rule 8 for table b, (8,5,7,15) and (0,2,2,5), with the place.
fn strange_states() -> Vec<(State, u64)> {
    let changes: [(&dyn Fn(&mut State), u64); 9] = [
        (&|state| state.wait[0] = 16, 0),
        (&|state| state.wait[1] = 6, 1),
        (&|state| (state.left[0], state.wait[0]) = (6, 10), 0),
        (&|state| (state.left[0], state.wait[0]) = (1, 7), 0),
        (&|state| (state.left[0], state.wait[0]) = (1, 15), 0),
        (&|state| (state.left[1], state.wait[1]) = (2, 2), 1),
        (&|state| state.last = 2, NONE.into()),
        (&|state| state.last = NONE + 1, NONE.into()),
        (&|state| (state.last, state.wait[1]) = (u32::MAX, 6), 1),
    ];
    let changed = |change: &dyn Fn(&mut State)| {
        let mut state = reference::start(&table_of(B));
        change(&mut state);
        state
    };
    changes.iter().map(|(change, place)| (changed(change), *place)).collect()
}

/// Section 5.2 on table b, with counts of task 0, of task 1, behind the last task, and of the empty slots: what is refused, and by which
/// number and place; else the state is stepped, and the counts behind the last task stay.
/// With as many tasks as there can be, about the last slot that can be counted, had by the last task or by none.
fn full_tables(bench: &mut Bench) {
    let tasks = [periodic(5, 1, 60, 60); TASKS];
    let file = file_of(1, &tasks);
    for (wait, had) in [(0, Some(TASKS - 1)), (5, None)] {
        let mut state = reference::start(&tasks);
        state.wait[TASKS - 1] = wait;
        state.given[..TASKS - 1].fill(1);
        for (empty, refused) in [
            (u64::MAX - TASKS as u64, None),
            (u64::MAX - TASKS as u64 + 1, Some((9, 0))),
            (u64::MAX - TASKS as u64 + 2, Some((8, 33))),
        ] {
            state.empty = empty;
            let request = Request::step(file.clone(), state.to_bytes(), 0);
            if let Some((number, place)) = refused {
                refused_with(bench, request, number, place);
                continue;
            }
            let stepped = State::from_bytes(&bench.answer(&[request.clone()])[0].buffer);
            let counted = had.map_or(stepped.empty - empty, |task| stepped.given[task]);
            bench.count(counted == 1, || format!("{counted} slots counted of {had:?}"));
            bench.ask(request);
            refused_with(bench, Request::step(file.clone(), stepped.to_bytes(), 0), 9, 0);
        }
    }
}

/// Jobs of the last tasks alone, and of all, closed late in one step.
pub fn late_sets(bench: &mut Bench) {
    let tasks = [periodic(0, 1, 1, 2); TASKS];
    let file = file_of(1, &tasks);
    for (first, late) in [(0, [u32::MAX, 32, 0]), (16, [0xFFFF_0000, 16, 16]), (31, [0x8000_0000, 1, 31])] {
        let mut state = reference::start(&tasks);
        state.wait.fill(1);
        state.left[first..].fill(1);
        let request = Request::step(file.clone(), state.to_bytes(), 0);
        let stepped = State::from_bytes(&bench.answer(&[request.clone()])[0].buffer);
        let told = [stepped.late, stepped.closed, stepped.lowest];
        bench.count(told == late, || format!("{told:?} closed late, not {late:?}"));
        bench.ask(request);
    }
    bench.end_group("late sets of up to 32 tasks");
}

pub fn accounts(bench: &mut Bench) {
    const ALL: u64 = u64::MAX;
    let b = file_of(38, &table_of(B));
    let counts = [
        ([0, 0, ALL, ALL - 1], None),
        ([ALL - 2, 1, ALL, 0], None),
        ([0, 0, 0, ALL], Some((9, 0))),
        ([ALL, 0, ALL, 0], Some((9, 0))),
        ([1, ALL - 2, 7, 1], Some((9, 0))),
        ([ALL, 1, 0, 0], Some((8, 33))),
        ([1, 1, 0, ALL], Some((8, 33))),
        ([ALL, ALL, 0, ALL], Some((8, 33))),
        ([1 << 63, 1 << 63, 0, 0], Some((8, 33))),
    ];
    for ([first, second, behind, empty], refused) in counts {
        let mut state = reference::start(&table_of(B));
        (state.given[0], state.given[1], state.given[2], state.empty) = (first, second, behind, empty);
        let request = Request::step(b.clone(), state.to_bytes(), 0);
        match refused {
            Some((number, place)) => {
                refused_with(bench, request, number, place);
                state.last = 2;
                refused_with(bench, Request::step(b.clone(), state.to_bytes(), 0), 8, 32);
                state.wait[1] = 6;
                refused_with(bench, Request::step(b.clone(), state.to_bytes(), 0), 8, 1);
            }
            None => {
                let stepped = State::from_bytes(&bench.answer(&[request.clone()])[0].buffer);
                let counted = (stepped.given[0], stepped.given[1], stepped.given[2], stepped.empty);
                bench.count(counted == (first, second + 1, behind, empty), || format!("{counted:?} after slot 0 of b"));
                bench.ask(request);
                refused_with(bench, Request::step(b.clone(), stepped.to_bytes(), 0), 9, 0);
            }
        }
    }
    full_tables(bench);
    bench.end_group("the specification's counts of slots");
}

pub fn refusals(bench: &mut Bench) {
    let b = file_of(38, &table_of(B));
    for (file, number, place) in refused_files().into_iter().chain(files_of_nothing()).chain(refused_buttons()) {
        refused_with(bench, Request::check(file.clone()), number, place);
        refused_with(bench, Request::quick(file.clone()), number, place);
        refused_with(bench, Request::distance(file.clone()), number, place);
        refused_with(bench, Request::to_text(file.clone()), number, place);
        refused_with(bench, Request::start(file.clone()), number, place);
        refused_with(bench, Request::step(file, vec![0xE7; STATE_BYTES], 0), number, place);
    }
    for (state, place) in strange_states() {
        refused_with(bench, Request::step(b.clone(), state.to_bytes(), 0), 8, place);
    }
    for length in [0, REPORT_BYTES - 1] {
        refused_with(bench, Request { buffer: vec![0xE7; length], ..Request::check(b.clone()) }, 30, length as u64);
    }
    for length in [0, STATE_BYTES - 1, STATE_BYTES + 1, 65_535, 65_536, 70_000] {
        let place = length.min(65_535) as u64;
        refused_with(bench, Request { buffer: vec![0xE7; length], ..Request::start(b.clone()) }, 50, place);
        refused_with(bench, Request::step(vec![9], vec![0xE7; length], 0), 50, place);
    }
    bench.end_group("every refusal, number and place");
}

/// Rows that are refused, with number and place: each fault beside later ones, which must not be told.
fn refused_rows() -> Vec<(Vec<u32>, u64, u64)> {
    let good = [2, 0, 1, 60, 60];
    let (bad, strange) = ([2, 60_001, 7, 6, 5], [3, 60_001, 7, 6, 5]);
    let rows = |rows: &[[u32; 5]]| rows.concat();
    vec![
        (vec![3], 51, 1),
        ([&strange[..], &[2; 4]].concat(), 51, 9),
        (vec![3; 65_536], 51, 65_535),
        (rows(&[bad, strange, strange]), 52, 1),
        (rows(&[[0; 5]; TASKS + 1]), 52, 0),
        (rows(&[&[good; 65_535][..], &[strange]].concat()), 52, 65_535),
        (rows(&[&[good; 65_536][..], &[strange]].concat()), 52, 65_535),
        (Vec::new(), 1, 0),
        (rows(&[bad; TASKS + 1]), 2, TASKS as u64),
        (rows(&[good; TASKS + 2]), 2, TASKS as u64),
        (rows(&[good, [2, 60_001, 9, 9, 0]]), 3, 1),
        (rows(&[good, bad, [2, 0, 0, 0, 0]]), 4, 1),
        (rows(&[[2, 60_001, 5, 4, 5]]), 5, 0),
        (rows(&[[2, 60_001, 1, 4, 5]]), 6, 0),
        (rows(&[good, [4, 1, 1, 60, 60]]), 52, 1),
        (rows(&[bad, [4, 60_001, 7, 6, 5], strange]), 52, 1),
        (rows(&[[4, 0, 1, 60, 60], [4, 0, 7, 6, 5]]), 4, 1),
        (rows(&[[4, 0, 9, 9, 0]]), 3, 0),
        (rows(&[[4, 0, 5, 4, 5], [2, 60_001, 1, 4, 5]]), 5, 0),
        (rows(&[[4, 0, 1, 60, 60]; TASKS + 1]), 2, TASKS as u64),
        (rows(&[&[good; TASKS][..], &[[4, 0, 1, 60, 60]]].concat()), 2, TASKS as u64),
        (rows(&[[4, 0, 1, 4_093, 4_093], [2, 0, 1, 8_779, 8_779], [4, 0, 1, 27_830, 27_830]]), 7, 0),
        (rows_of(&table_of(TOO_LONG)), 7, 0),
    ]
}

/// The specification's tables as their files lie in tables/, and what is refused, into a buffer that is too short too.
pub fn written(bench: &mut Bench) {
    for (rows, name) in [A, B, C, D, E, F, G, H, I, J].into_iter().zip('a'..='j') {
        let file = std::fs::read(format!("tables/{name}.table")).expect("tables/ is there");
        let request = Request { buffer: vec![0xE7; file.len()], ..Request::write(&rows_of(&table_of(rows)), 1_000) };
        for length in 0..file.len() {
            refused_with(bench, Request { buffer: vec![0xE7; length], ..request.clone() }, 31, length as u64);
        }
        for length in [0, file.len() - 1, file.len()] {
            let buffer = vec![0xE7; length];
            refused_with(bench, Request { buffer, ..Request::write(&rows_of(&table_of(rows)), 0) }, 27, 0);
        }
        bench.ask_filled(request, &file);
    }
    for (words, number, place) in refused_rows() {
        refused_with(bench, Request::write(&words, 0), number, place);
        refused_with(bench, Request { buffer: Vec::new(), ..Request::write(&words, 1_000) }, number, place);
    }
    bench.end_group("the specification's tables, written");
}
