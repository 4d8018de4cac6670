//! The tables that are measured.

/// The period and the cost of the task with a number, in ticks.
fn times(number: u16) -> (u32, u32) {
    (100_000 + 1_000 * u32::from(number), 10)
}

/// A list for Linux rigs of so many tasks by rising period.
pub fn list(tasks: u16) -> Vec<u8> {
    let mut list = Vec::new();
    for i in 1..=tasks {
        let (period, cost) = times(i);
        list.extend(48u32.to_le_bytes());
        list.extend(6u32.to_le_bytes());
        list.extend([0; 16]);
        list.extend([cost, period, period].iter().flat_map(|ticks| (10 * u64::from(*ticks)).to_le_bytes()));
    }
    list
}

/// An image: the built-in figures as a board record if one is asked for, so many tasks, all in one queue by rising period, and so many semaphores,
/// numbered from 1; then erased records up to a length.
pub fn image(queue: u8, board: bool, tasks: u16, sems: u16, length: usize) -> Vec<u8> {
    let mut image = Vec::new();
    if board {
        image.extend([2, 0]);
        image.extend(baseline::BUILT_IN.iter().flat_map(|figure| figure.to_le_bytes()));
        image.resize(32, 0);
    }
    for i in 1..=tasks {
        let (period, cost) = times(i);
        let mut record = vec![1, queue];
        record.extend(i.to_le_bytes());
        record.extend(period.to_le_bytes());
        record.extend(cost.to_le_bytes());
        record.resize(32, 0);
        image.extend(record);
    }
    for k in 1..=sems {
        let mut record = vec![3, 0];
        record.extend(k.to_le_bytes());
        record.resize(32, 0);
        image.extend(record);
    }
    image.resize(length.max(image.len()), 255);
    image
}
