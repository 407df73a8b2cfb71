//! Tables of tasks: their files, H, load and horizon, and numbers by chance.

#[derive(Clone, Copy)]
pub struct Task {
    pub offset: u32,
    pub cost: u32,
    pub deadline: u32,
    pub period: u32,
}

pub fn task(offset: u32, cost: u32, deadline: u32, period: u32) -> Task {
    Task { offset, cost, deadline, period }
}

pub fn table_file(tasks: &[Task], budget: u64) -> Vec<u8> {
    let mut file = vec![1];
    file.extend(budget.to_le_bytes());
    for k in tasks {
        file.push(2);
        file.extend([k.offset, k.cost, k.deadline, k.period].map(u32::to_le_bytes).concat());
    }
    file.push(3);
    file
}

pub fn gcd(a: u64, b: u64) -> u64 {
    if b == 0 {
        a
    } else {
        gcd(b, a % b)
    }
}

/// The least common multiple H of the periods.
pub fn round(tasks: &[Task]) -> u64 {
    tasks.iter().fold(1, |h, k| h / gcd(h, k.period as u64) * k.period as u64)
}

pub fn largest_offset(tasks: &[Task]) -> u64 {
    tasks.iter().map(|k| k.offset as u64).max().unwrap()
}

pub fn horizon(tasks: &[Task]) -> u64 {
    largest_offset(tasks) + 2 * round(tasks)
}

pub fn overload(tasks: &[Task]) -> bool {
    let h = round(tasks);
    tasks.iter().map(|k| h / k.period as u64 * k.cost as u64).sum::<u64>() > h
}

/// Numbers by xorshift64*, the same in every run.
pub struct Chance(pub u64);

impl Chance {
    pub fn next(&mut self) -> u64 {
        self.0 ^= self.0 >> 12;
        self.0 ^= self.0 << 25;
        self.0 ^= self.0 >> 27;
        self.0.wrapping_mul(0x2545_f491_4f6c_dd1d)
    }

    pub fn fraction(&mut self) -> f64 {
        (self.next() >> 11) as f64 / (1u64 << 53) as f64
    }

    pub fn below(&mut self, most: usize) -> usize {
        self.range(0, most as u64 - 1) as usize
    }

    pub fn range(&mut self, from: u64, to: u64) -> u64 {
        from + (self.fraction() * (to - from + 1) as f64) as u64
    }
}
