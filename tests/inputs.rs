//! Seeded inputs: tables near the border of what passes, damaged files, odd states.

use crate::reference::{self, button, periodic, State, Task, Verdict, NONE, TASKS};

/// splitmix64.
pub struct Rng(pub u64);

impl Rng {
    pub fn next(&mut self) -> u64 {
        self.0 = self.0.wrapping_add(0x9E37_79B9_7F4A_7C15);
        let mut mixed = self.0;
        mixed = (mixed ^ (mixed >> 30)).wrapping_mul(0xBF58_476D_1CE4_E5B9);
        mixed = (mixed ^ (mixed >> 27)).wrapping_mul(0x94D0_49BB_1331_11EB);
        mixed ^ (mixed >> 31)
    }

    pub fn below(&mut self, bound: u64) -> u64 {
        self.next() % bound
    }

    /// From low to high, both included.
    pub fn range(&mut self, low: u32, high: u32) -> u32 {
        low + self.below(u64::from(high - low) + 1) as u32
    }

    pub fn chance(&mut self, percent: u64) -> bool {
        self.below(100) < percent
    }

    pub fn pick<T: Copy>(&mut self, from: &[T]) -> T {
        from[self.below(from.len() as u64) as usize]
    }
}

// Files.

fn numbers(task: &Task) -> [u32; 4] {
    [task.offset, task.cost, task.deadline, task.period]
}

fn kind(task: &Task) -> u8 {
    [2, 4][task.button as usize]
}

/// A button's has no offset.
pub fn task_record(task: &Task) -> Vec<u8> {
    let body = numbers(task).into_iter().skip(task.button as usize).flat_map(u32::to_le_bytes);
    std::iter::once(kind(task)).chain(body).collect()
}

pub fn budget_record(budget: u64) -> Vec<u8> {
    std::iter::once(1).chain(budget.to_le_bytes()).collect()
}

pub fn file_of(budget: u64, tasks: &[Task]) -> Vec<u8> {
    let mut file = budget_record(budget);
    file.extend(tasks.iter().flat_map(task_record));
    file.push(3);
    file
}

/// A table as the writer takes it; a button has a 0 where its offset would be.
pub fn rows_of(tasks: &[Task]) -> Vec<u32> {
    tasks.iter().flat_map(|task| std::iter::once(u32::from(kind(task))).chain(numbers(task))).collect()
}

pub fn table_of(rows: &[(u32, u32, u32, u32)]) -> Vec<Task> {
    rows.iter().map(|&(offset, cost, deadline, period)| periodic(offset, cost, deadline, period)).collect()
}

/// The places where records begin in a good file of these tasks: the budget, the tasks, the end.
pub fn record_places(tasks: &[Task]) -> Vec<usize> {
    let end = |count: usize| 9 + tasks[..count].iter().map(|task| task_record(task).len()).sum::<usize>();
    std::iter::once(0).chain((0..=tasks.len()).map(end)).collect()
}

/// Whether no test of the file needs more slots than can be waited for.
pub fn affordable(file: &[u8]) -> bool {
    const SLOTS: u64 = 300_000;
    match reference::read_file(file) {
        Ok((_, tasks)) if reference::judge(&tasks).is_ok() && reference::has_button(&tasks) => {
            reference::by_distance_within(&tasks, SLOTS).is_some()
        }
        Ok((budget, tasks)) if reference::judge(&tasks).is_ok() => {
            let round = reference::round(&tasks).unwrap();
            let walk =
                budget.min(reference::horizon(&tasks, round)) <= SLOTS || reference::asked_in_round(&tasks, round) > round;
            let quick = || reference::quick_within(&tasks, SLOTS).is_some();
            walk && quick() && reference::by_distance_within(&tasks, SLOTS).is_some()
        }
        _ => true,
    }
}

/// Whether trying every cost of a task needs no more slots than can be waited for; of a table that its budget does not decide none
/// is tried.
pub fn triable(budget: u64, tasks: &[Task], task: usize) -> bool {
    const SLOTS: u64 = 60_000;
    if task >= tasks.len() || reference::judge_periodic(tasks).is_err() {
        return true;
    }
    let horizon = reference::horizon(tasks, reference::round(tasks).unwrap());
    budget < horizon || horizon.saturating_mul(u64::from(tasks[task].deadline)) <= SLOTS
}

/// Whether trying every cost by the distance test needs no more slots than can be waited for.
pub fn room_triable(tasks: &[Task], task: usize) -> bool {
    const SLOTS: u64 = 30_000;
    if task >= tasks.len() || reference::judge(tasks).is_err() {
        return true;
    }
    let costs = u64::from(tasks[task].deadline) * tasks.len() as u64;
    reference::round(tasks).unwrap().saturating_mul(costs) <= SLOTS
}

// Tables.

fn pick_round(rng: &mut Rng) -> u32 {
    match rng.below(100) {
        0..=49 => rng.pick(&[1, 2, 3, 4, 5, 6, 8, 9, 10, 12, 14, 15, 16, 18, 20, 24]),
        50..=89 => rng.pick(&[28, 30, 36, 40, 42, 48, 60, 72, 84, 90, 96, 120]),
        90..=98 => rng.pick(&[144, 180, 210, 240, 360, 420, 720, 840]),
        _ => rng.pick(&[1260, 2520, 5040, 30_030]),
    }
}

fn pick_count(rng: &mut Rng) -> usize {
    match rng.below(10) {
        0..=5 => 1 + rng.below(4) as usize,
        6..=8 => 4 + rng.below(TASKS as u64 / 2) as usize,
        _ => TASKS,
    }
}

fn light(period: u32) -> Task {
    periodic(0, 1, period, period)
}

fn divisors(round: u32) -> Vec<u32> {
    (1..=round).filter(|divisor| round % divisor == 0).collect()
}

fn asked(tasks: &[Task], round: u32) -> u32 {
    tasks.iter().map(|task| task.cost * (round / task.period)).sum()
}

/// Tasks of cost 1 whose periods divide the round, for as long as they fit.
fn seedlings(rng: &mut Rng, round: u32) -> Vec<Task> {
    let count = pick_count(rng);
    let mut periods = divisors(round);
    periods.retain(|&period| period == round || period as usize >= count / 2);
    let mut tasks: Vec<Task> = Vec::new();
    for _ in 0..3 * count {
        let period = rng.pick(&periods);
        let fits = asked(&tasks, round) + round / period <= round;
        if tasks.len() < count && (tasks.is_empty() || fits) {
            tasks.push(light(period));
        }
    }
    tasks
}

fn raise_costs(rng: &mut Rng, tasks: &mut [Task], round: u32) {
    let allowed = if rng.chance(5) { round + round / 4 + 1 } else { round };
    for _ in 0..rng.pick(&[0, 1, 2, 4, 10, 60]) {
        let now = asked(tasks, round);
        let task = &mut tasks[rng.below(tasks.len() as u64) as usize];
        if task.cost < task.period && now + round / task.period <= allowed {
            task.cost += 1;
        }
    }
}

/// A last task that takes whatever the others leave but so many slots of a round: with none of them, load exactly 1.
fn fill_up(tasks: &mut Vec<Task>, round: u32, spare: u32) {
    let free = round.saturating_sub(asked(tasks, round) + spare);
    if free > 0 && tasks.len() < TASKS {
        tasks.push(periodic(0, free, round, round));
    }
}

fn shift(rng: &mut Rng, tasks: &mut [Task], round: u32) {
    let way = rng.below(100);
    for task in tasks {
        task.offset = match way {
            0..=14 => 0,
            15..=49 => rng.range(0, task.period - 1),
            50..=79 => rng.range(0, (3 * task.period).min(60_000)),
            80..=98 => rng.range(0, 2 * round.min(20_000)),
            _ => rng.pick(&[0, task.period, 59_999, 60_000]),
        };
    }
}

fn shorten(rng: &mut Rng, tasks: &mut [Task]) {
    let way = rng.below(4);
    for task in tasks {
        task.deadline = match way {
            0 => task.period,
            1 => rng.range(task.cost, task.period),
            2 => rng.range((task.cost + task.period) / 2, task.period),
            _ => rng.pick(&[task.cost, task.period, task.period]),
        };
    }
}

/// Deadlines moved to the worst responses of a table that passes, or one beside them.
fn tighten(rng: &mut Rng, tasks: &mut [Task]) {
    if let Verdict::Passes(worst, _) = reference::decide(tasks, u64::MAX).verdict {
        for (task, worst) in tasks.iter_mut().zip(worst) {
            let wanted = worst as u32 + rng.range(0, 5) / 2;
            task.deadline = wanted.saturating_sub(1).clamp(task.cost, task.period);
        }
    }
}

fn shuffle(rng: &mut Rng, tasks: &mut [Task]) {
    for last in (1..tasks.len()).rev() {
        tasks.swap(last, rng.below(last as u64 + 1) as usize);
    }
}

/// A well-formed table with a short round, its load mostly near 1 and its deadlines near what it can keep.
pub fn near_border(rng: &mut Rng) -> Vec<Task> {
    let round = pick_round(rng);
    let mut tasks = seedlings(rng, round);
    raise_costs(rng, &mut tasks, round);
    if rng.chance(25) {
        fill_up(&mut tasks, round, 0);
    }
    shuffle(rng, &mut tasks);
    shift(rng, &mut tasks, round);
    shorten(rng, &mut tasks);
    if rng.chance(40) {
        tighten(rng, &mut tasks);
    }
    tasks
}

/// Deadlines about what the table keeps, with its offsets or with all of them 0; some are the period again.
fn press(rng: &mut Rng, tasks: &mut [Task], round: u32) {
    let (shifted, eased) = (rng.chance(50), rng.pick(&[0, 0, 50, 80]));
    if shifted {
        shift(rng, tasks, round);
    }
    tighten(rng, tasks);
    tasks.iter_mut().filter(|_| rng.chance(eased)).for_each(|task| task.deadline = task.period);
    if !shifted {
        shift(rng, tasks, round);
    }
}

/// A well-formed table with a short round that has no slot to spare, or one in each round.
pub fn full(rng: &mut Rng) -> Vec<Task> {
    loop {
        let (round, spare) = (pick_round(rng), rng.pick(&[0, 0, 1]));
        let mut tasks = seedlings(rng, round);
        raise_costs(rng, &mut tasks, round);
        fill_up(&mut tasks, round, spare);
        if asked(&tasks, round) + spare == round {
            shuffle(rng, &mut tasks);
            press(rng, &mut tasks, round);
            return tasks;
        }
    }
}

/// Some of the tasks made buttons of the same numbers: one of them, some, or all.
pub fn make_buttons(rng: &mut Rng, tasks: &mut [Task]) {
    let (share, one) = (rng.pick(&[0, 20, 50, 100]), rng.below(tasks.len().max(1) as u64) as usize);
    for (number, task) in tasks.iter_mut().enumerate() {
        if number == one || rng.chance(share) {
            *task = button(task.cost, task.deadline, task.period);
        }
    }
}

/// As near the border, and now and then with buttons, which most calls refuse.
pub fn of_any_sort(rng: &mut Rng) -> Vec<Task> {
    let mut tasks = near_border(rng);
    if rng.chance(10) {
        make_buttons(rng, &mut tasks);
    }
    tasks
}

/// A table with long periods, its least common multiple mostly near or above its limit.
pub fn long_round(rng: &mut Rng) -> Vec<Task> {
    let periods =
        [4_093, 7_777, 8_779, 9_901, 12_987, 27_830, 31_623, 59_957, 59_999, 60_000, 50_000, 16_384, 46_656, 1_000, 1];
    let count = 1 + rng.below(6) as usize;
    let long = |rng: &mut Rng| if rng.chance(60) { rng.pick(&periods) } else { rng.range(1, 60_000) };
    (0..count).map(|_| light(long(rng))).collect()
}

/// A table of so many tasks and buttons, well-formed if there are not too many: short and long periods, numbers often at their ends.
pub fn sized(rng: &mut Rng, count: usize) -> Vec<Task> {
    let families: [&[u32]; 4] = [
        &[1, 2, 3, 4, 5, 6, 60, 1_000, 7_500, 30_000, 60_000],
        &[7, 11, 13, 16, 27, 1_001, 40_040, 55_440],
        &[1, 2, 31_622, 31_623],
        &[1, 59_999],
    ];
    let periods = rng.pick(&families);
    let mut tasks: Vec<Task> = (0..count).map(|_| light(rng.pick(periods))).collect();
    any_fields(rng, &mut tasks);
    for task in &mut tasks {
        if rng.chance(30) {
            task.offset = rng.pick(&[0, 1, 59_999, 60_000]);
            task.deadline = rng.pick(&[1, task.period]);
            task.cost = rng.pick(&[1, task.deadline]);
        }
    }
    if rng.chance(30) {
        make_buttons(rng, &mut tasks);
    }
    tasks
}

/// Costs, deadlines and offsets of any legal size for the periods that a table has.
pub fn any_fields(rng: &mut Rng, tasks: &mut [Task]) {
    for task in tasks {
        task.deadline = rng.range(1, task.period);
        task.cost = rng.range(1, task.deadline);
        task.offset = rng.range(0, 60_000);
        if rng.chance(70) {
            task.cost = rng.range(1, task.cost.min(3));
        }
    }
}

/// A table with a long round that needs no long search: two of its jobs cannot both be in time, or its load is above 1.
pub fn early_end(rng: &mut Rng) -> Vec<Task> {
    loop {
        let mut tasks = long_round(rng);
        any_fields(rng, &mut tasks);
        let offset = rng.range(0, 3_000);
        for task in tasks.iter_mut().take(2) {
            let cost = task.period.min(rng.range(1, 20));
            *task = periodic(offset, cost, cost, task.period);
        }
        if tasks.len() >= 2 && reference::judge(&tasks).is_ok() {
            return tasks;
        }
    }
}

fn odd_number(rng: &mut Rng, about: u32) -> u32 {
    match rng.below(6) {
        0 => rng.pick(&[0, 1, 2, 59_999, 60_000, 60_001]),
        1 => rng.pick(&[65_535, 65_536, 65_537, 1 << 31, u32::MAX - 1, u32::MAX]),
        2 => about.wrapping_add(1),
        3 => about.wrapping_sub(1),
        4 => rng.range(0, 70_000),
        _ => about,
    }
}

/// One or two numbers of a table moved to a border or beyond it.
pub fn spoil(rng: &mut Rng, tasks: &mut [Task]) {
    for _ in 0..1 + rng.below(2) {
        let task = &mut tasks[rng.below(tasks.len() as u64) as usize];
        match rng.below(4) {
            0 if !task.button => task.offset = odd_number(rng, 60_000),
            1 => task.cost = odd_number(rng, task.deadline),
            2 => task.deadline = odd_number(rng, task.period),
            _ => task.period = odd_number(rng, 60_000),
        }
    }
}

/// A budget around the count of slots that the table needs; one of 0 no file can have.
pub fn budget_about(rng: &mut Rng, tasks: &[Task]) -> u64 {
    let needed = reference::decide(tasks, u64::MAX).settled;
    let about = match rng.below(10) {
        0..=2 => needed,
        3 => needed.saturating_sub(1),
        4 => needed + 1,
        5 => rng.pick(&[1, 2]),
        6 => rng.below(2 * needed + 1),
        7 => rng.next() | 1 << 63,
        _ => u64::MAX,
    };
    about.max(1)
}

pub fn any_budget(rng: &mut Rng) -> u64 {
    let (small, large) = (rng.below(1_000), rng.next());
    rng.pick(&[0, 1, u64::from(u32::MAX), 1 << 32, u64::MAX, small, large, large])
}

/// One that a file can have.
pub fn good_budget(rng: &mut Rng) -> u64 {
    any_budget(rng).max(1)
}

/// Some bytes of a good file changed, taken out or put in.
pub fn damage(rng: &mut Rng, file: &mut Vec<u8>) {
    for _ in 0..1 + rng.below(3) {
        let place = rng.below(file.len() as u64 + 1) as usize;
        match rng.below(5) {
            0 => file.truncate(place),
            1 => file.insert(place, rng.below(6) as u8),
            2 if place < file.len() => file[place] = rng.next() as u8,
            3 if place < file.len() => file[place] ^= 1 << rng.below(8),
            _ => file.extend(budget_record(rng.next()).iter().take(rng.below(10) as usize)),
        }
    }
}

// States.

/// A state that belongs to the table, with anything in the words that a step does not read.
pub fn fitting_state(rng: &mut Rng, tasks: &[Task]) -> State {
    let mut state = wild_state(rng);
    for (number, task) in tasks.iter().enumerate() {
        let open = rng.chance(60);
        let due = task.period - task.deadline;
        let latest = if rng.chance(50) { task.period - 1 } else { due.max(3).min(task.period - 1) };
        state.left[number] = if open { rng.range(1, task.cost) } else { 0 };
        state.wait[number] = if open { rng.range(due, latest.max(due)) } else { idle_wait(rng, task) };
    }
    state.last = if rng.chance(20) { NONE } else { rng.below(tasks.len() as u64) as u32 };
    let most = rng.pick(&[1, 1_000, 1 << 32, u64::MAX - 1]);
    let sum = if rng.chance(20) { most } else { rng.below(most) };
    count_up(rng, tasks, &mut state, u128::from(sum));
    state
}

/// Counts of the table's tasks and of the empty slots with a sum of at most 2^64. Those behind the last task stay.
fn count_up(rng: &mut Rng, tasks: &[Task], state: &mut State, sum: u128) {
    let mut rest = sum;
    for slots in &mut state.given[..tasks.len()] {
        *slots = rng.pick(&[1, rest / 2, rest]).min(rest).min(u128::from(u64::MAX)) as u64;
        rest -= u128::from(*slots);
    }
    state.empty = u64::try_from(rest).expect("the first task had one slot or more");
}

fn idle_wait(rng: &mut Rng, task: &Task) -> u32 {
    if rng.chance(30) {
        0
    } else {
        rng.range(0, task.offset.max(task.period))
    }
}

pub fn wild_state(rng: &mut Rng) -> State {
    let size = rng.pick(&[1, 2, u64::from(NONE), u64::from(NONE) + 1, 60_000, 1 << 32]);
    let mut words = || rng.below(size) as u32;
    State {
        wait: std::array::from_fn(|_| words()),
        left: std::array::from_fn(|_| words()),
        last: words(),
        late: words(),
        closed: words(),
        lowest: words(),
        given: std::array::from_fn(|_| wild_count(rng)),
        empty: wild_count(rng),
    }
}

fn wild_count(rng: &mut Rng) -> u64 {
    let size = rng.pick(&[1, 60_000, 1 << 32, u64::MAX]);
    if rng.chance(10) {
        size
    } else {
        rng.below(size)
    }
}

/// One number of a fitting state moved onto, or one beyond, a border of rule 8.
pub fn border_state(rng: &mut Rng, tasks: &[Task]) -> State {
    let mut state = fitting_state(rng, tasks);
    let number = rng.below(tasks.len() as u64) as usize;
    let task = tasks[number];
    let due = task.period - task.deadline;
    match rng.below(9) {
        0 => state.wait[number] = task.offset.max(task.period) + rng.range(0, 1),
        1 => state.left[number] = task.cost + rng.range(0, 1),
        2 => (state.left[number], state.wait[number]) = (1, due.saturating_sub(rng.range(0, 1))),
        3 => (state.left[number], state.wait[number]) = (task.cost, task.period - rng.range(0, 1)),
        4 => state.left[number] = u32::MAX,
        5 => {
            let sum = u128::from(u64::MAX) + u128::from(rng.below(3)) - 1;
            count_up(rng, tasks, &mut state, sum);
        }
        6 => state.given[number] = u64::MAX,
        7 => state.empty = u64::MAX - rng.below(2),
        _ => state.last = rng.pick(&[0, 1, tasks.len() as u32 - 1, tasks.len() as u32, NONE - 1, NONE, NONE + 1, u32::MAX]),
    }
    state
}

pub fn done_word(rng: &mut Rng) -> u32 {
    rng.pick(&[0, 0, 1, 1, 2, 256, 65_536, 1 << 31, u32::MAX])
}
