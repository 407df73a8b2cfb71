//! The tables that the claims are made of.

use crate::tables::{task, Task};

pub type Named = (&'static str, Vec<Task>);

// Each task as two of half its cost.
fn halves(rows: &[(u32, u32, u32)]) -> Vec<(u32, u32, u32)> {
    rows.iter().flat_map(|&(o, c, t)| [(o, c / 2, t), (60000 - o, c - c / 2, t)]).collect()
}

pub fn tables() -> Vec<Named> {
    let long16 = [
        (700, 2000, 60000), (0, 1500, 50000), (9, 3100, 48000), (55000, 900, 40000), (1, 2200, 37500), (12, 777, 30000),
        (60000, 1900, 25000), (3, 1000, 24000), (5, 650, 20000), (8, 400, 18750), (31000, 1700, 16000), (44, 900, 15000),
        (0, 333, 12500), (2, 1100, 12000), (17, 450, 10000), (4000, 800, 9600),
    ];
    let short16 = [
        (0, 1, 18), (3, 1, 20), (1, 1, 21), (7, 1, 24), (0, 1, 28), (2, 1, 30), (9, 1, 35), (4, 2, 36), (0, 1, 40), (5, 2, 42),
        (6, 2, 45), (8, 2, 56), (1, 2, 60), (2, 2, 63), (11, 3, 70), (0, 3, 72),
    ];
    let plain = |rows: &[(u32, u32, u32)]| rows.iter().map(|&(o, c, t)| task(o, c, t, t)).collect::<Vec<_>>();
    vec![
        ("1 task, period 60,000", vec![task(60000, 23456, 50000, 60000)]),
        ("1 task, period 12", vec![task(60000, 5, 9, 12)]),
        ("4 tasks, long periods", plain(&[(0, 15000, 60000), (20, 11000, 50000), (60000, 9000, 40000), (3, 14000, 48000)])),
        ("4 tasks, short periods", plain(&[(0, 3, 11), (5, 3, 13), (2, 4, 17), (9, 4, 19)])),
        ("16 tasks, long periods", plain(&long16)),
        ("16 tasks, short periods", plain(&short16)),
        ("32 tasks, long periods", plain(&halves(&long16))),
        ("32 tasks, short periods", plain(&halves(&short16.map(|(o, c, t)| (o, 2 * c, 2 * t))))),
    ]
}

/// Late only after tens of thousands of slots or more, and the largest start that asks too much is the first release of all.
pub fn late_tables() -> Vec<Named> {
    let late16 = [
        (66, 3000, 3000), (373, 3000, 3000), (729, 9600, 9600), (550, 12500, 12500), (2155, 50000, 50000), (399, 12500, 12500),
        (807, 9375, 9375), (359, 18750, 18750), (1751, 3163, 50000), (245, 3750, 3750), (144, 5000, 5000), (112, 3750, 3750),
        (3595, 24000, 24000), (339, 50000, 50000), (1141, 9375, 9375), (464, 4000, 4000),
    ];
    let late4 = [(12281, 40000, 40000), (1538, 9375, 9375), (14404, 21316, 40000), (540, 3200, 3200)];
    let short16 = [
        (1, 42, 42), (4, 21, 21), (4, 65, 65), (2, 72, 72), (6, 40, 40), (2, 66, 66), (5, 72, 72), (7, 112, 112), (5, 120, 120),
        (6, 40, 40), (1, 110, 110), (2, 112, 112), (3, 91, 91), (3, 84, 84), (4, 99, 99), (1453, 25565, 25740),
    ];
    let at = |offset: u32, rows: &[(u32, u32, u32)]| rows.iter().map(|&(c, d, t)| task(offset, c, d, t)).collect::<Vec<_>>();
    let mut dense: Vec<Task> = (0..15).map(|i| task(i, 1, 16, 16)).collect();
    dense.push(task(0, 3750, 59759, 60000));
    vec![
        ("late, 4 tasks", at(500, &late4)),
        ("late, 16 tasks, long periods", at(500, &late16)),
        ("late, 16 tasks, short periods", at(500, &short16)),
        ("late, 16 tasks, a release a slot", dense),
    ]
}

/// Made against the search: a release in nearly every slot, and never more than two slots to spare, so that none is passed over.
pub fn worst_to_search() -> Vec<Task> {
    let mut tasks: Vec<Task> = (1..15).map(|k| task((1 << (k - 1)) - 1, 1, 1, 1 << k)).collect();
    tasks.push(task(0, 3, 49151, 49152));
    tasks
}

/// Short periods: one task in every slot, an event in every slot, a release in nearly every slot.
pub fn crowded_tables() -> Vec<Named> {
    let turns = (0..15).map(|i| task(i, 1, 16, 16)).chain([task(15, 3000, 48000, 48000)]).collect();
    vec![
        ("1 task, period 1, offset 60,000", vec![task(60000, 1, 1, 1)]),
        ("2 tasks, an event a slot", vec![task(0, 1, 2, 2), task(0, 29999, 59998, 59998)]),
        ("late, 15 tasks, a release a slot", worst_to_search()),
        ("16 tasks, a release a slot", turns),
    ]
}

/// Few tasks and an H near its limit.
pub fn long_round() -> Vec<Task> {
    vec![task(60000, 20000, 50000, 60000), task(0, 20000, 55000, 59996)]
}

/// Of the specification's tables those that pass within some slots: a, e, g, j and b.
pub fn tiny_tables() -> Vec<Named> {
    vec![
        ("(0,1,1,1)", vec![task(0, 1, 1, 1)]),
        ("(1,1,1,2),(0,1,1,2)", vec![task(1, 1, 1, 2), task(0, 1, 1, 2)]),
        ("(0,2,4,4),(0,2,4,4)", vec![task(0, 2, 4, 4), task(0, 2, 4, 4)]),
        ("(4,1,1,2)", vec![task(4, 1, 1, 2)]),
        ("(8,5,7,15),(0,2,2,5)", table_b()),
    ]
}

pub fn table_b() -> Vec<Task> {
    vec![task(8, 5, 7, 15), task(0, 2, 2, 5)]
}

/// The tasks of tables/slow.txt: a release every fourth slot, and H is 899,940,000.
pub fn slow_table() -> Vec<Task> {
    vec![task(0, 1, 1, 4), task(1, 1, 1, 60000), task(2, 1, 1, 59996)]
}

/// Tables of 1 to 32 tasks for the steps.
pub fn growing_tables() -> Vec<Named> {
    let named = |name: &str| tables().into_iter().find(|(other, _)| *other == name).unwrap().1;
    let long = named("32 tasks, long periods");
    let eight = [6, 7, 8, 9, 10, 11, 12, 13].map(|i| long[2 * i]).to_vec();
    vec![
        ("1 task, period 12", named("1 task, period 12")),
        ("2 tasks, table b", table_b()),
        ("4 tasks, short periods", named("4 tasks, short periods")),
        ("8 tasks, long periods", eight),
        ("16 tasks, short periods", named("16 tasks, short periods")),
        ("16 tasks, long periods", named("16 tasks, long periods")),
        ("32 tasks, short periods", named("32 tasks, short periods")),
        ("32 tasks, long periods", long),
    ]
}

/// Jobs are closed late without end.
pub fn always_late() -> Vec<Named> {
    let sixteen = (0..16).map(|i| task(i, 2, 12, 16)).collect();
    vec![("2 tasks, late all the time", vec![task(0, 1, 1, 2), task(0, 1, 1, 2)]), ("16 tasks, late all the time", sixteen)]
}

/// A load of 1 with a deadline of 59,000: the quick test looks at some ten thousand instants and has no answer.
pub fn full_load() -> Named {
    ("load 1, 3 tasks, one deadline shorter", three_at_full_load(59000))
}

fn three_at_full_load(deadline: u32) -> Vec<Task> {
    vec![task(0, 1, 2, 2), task(0, 15000, deadline, 60000), task(0, 14999, 59996, 59996)]
}

/// A load of 1 and a long round: all pass. In the last two the deadlines before the next release make it look at millions of instants.
pub fn long_full_loads() -> Vec<Named> {
    let four = vec![task(0, 1, 2, 2), task(0, 3750, 30000, 30000), task(0, 7499, 29996, 29996), task(0, 3749, 29992, 29992)];
    let ten = [
        (4219, 37990, 37990), (3379, 37990, 37990), (235, 1426, 1450), (55, 1450, 1450), (215, 21905, 22910), (4367, 22910, 22910),
        (1255, 36830, 36830), (6111, 36814, 36830), (792, 20394, 20590), (3326, 20590, 20590),
    ];
    let fourteen = [
        (32, 1582, 1582), (194, 1582, 1582), (39, 1526, 1526), (179, 1513, 1526), (3, 70, 70), (7, 69, 70), (14, 985, 1022), (132, 1022, 1022),
        (12, 406, 406), (46, 403, 406), (5, 182, 182), (21, 182, 182), (21, 253, 266), (17, 266, 266),
    ];
    let from_0 = |rows: &[(u32, u32, u32)]| rows.iter().map(|&(c, d, t)| task(0, c, d, t)).collect::<Vec<_>>();
    vec![
        ("load 1, 3 tasks", three_at_full_load(60000)),
        ("load 1, 4 tasks", four),
        ("load 1, 10 tasks, four deadlines shorter", from_0(&ten)),
        ("load 1, 14 tasks, five deadlines shorter", from_0(&fourteen)),
    ]
}

/// 32 tasks whose periods are divisors of 963,761,198,400, which is their least common multiple: a load of 0.92. With short deadlines the
/// last is late, after a while.
pub fn longest_rounds() -> Vec<Named> {
    let slow = [
        20160, 20748, 21216, 21840, 22176, 22572, 23023, 24640, 25300, 27300, 28152, 29925, 31920, 32604, 32725, 36432, 36960, 37050, 38038,
        38556, 39900, 40480, 40755, 45885, 46368, 46575, 50050, 51051, 52003, 52800, 55080, 55692,
    ];
    let fast = [
        4158, 4301, 4862, 4914, 5060, 5225, 5681, 5852, 6688, 7140, 8280, 8398, 8740, 9568, 10395, 10626, 11088, 11286, 13041, 13650, 13685,
        14400, 15470, 16632, 17472, 18216, 18354, 19320, 19635, 19665, 19734, 19760,
    ];
    let table = |periods: [u32; 32]| (0..).zip(periods).map(|(i, period)| task(i * 7919 % 60001, period * 3 / 104, period, period)).collect::<Vec<_>>();
    let late = table(slow).into_iter().map(|k| task(k.offset, k.cost, k.period * 44 / 100, k.period)).collect();
    vec![
        ("32 tasks, periods 20,160 to 55,692", table(slow)),
        ("32 tasks, periods 4,158 to 19,760", table(fast)),
        ("the first, deadlines 0.44 of the periods", late),
    ]
}
