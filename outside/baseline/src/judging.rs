//! The tests. The search tries each multiple of each period in rising order, and the limit.

use crate::{charges::charges, State};

const SHARED_MOST: u64 = 1_000_000_000_000;

fn gcd(mut a: u64, mut b: u64) -> u64 {
    while b > 0 {
        (a, b) = (b, a % b);
    }
    a
}

/// Whether some time from 1 to the limit has a demand of at most that time.
fn some_time(limit: u64, periods: &[u64], demand: impl Fn(u64) -> u64) -> bool {
    let mut t = 0;
    loop {
        let next = periods.iter().map(|p| (t / p + 1) * p).min().unwrap_or(limit).min(limit);
        if demand(next) <= next {
            return true;
        }
        if next == limit {
            return false;
        }
        t = next;
    }
}

/// The verdict and the task that it names.
pub fn judge(state: &State) -> (u8, u16) {
    if state.n == 0 {
        return (7, 0);
    }
    let charges = charges(state);
    let tasks = state.tasks();
    let periods: Vec<u64> = tasks.iter().map(|t| u64::from(t.period)).collect();
    let loads: Vec<u64> = tasks.iter().map(|t| u64::from(t.cost) + charges[usize::from(t.queue) - 1]).collect();
    let q = tasks.iter().filter(|t| t.queue == 1).count();
    let r = tasks.iter().filter(|t| t.queue <= 2).count();
    let mut shared = 1;
    for i in 0..r {
        let step = periods[i] / gcd(shared, periods[i]);
        if shared > SHARED_MOST / step {
            return (10, tasks[i].number);
        }
        shared *= step;
    }
    let full = |end: usize| (0..end).map(|i| loads[i] * (shared / periods[i])).sum::<u64>() > shared;
    if full(q) {
        return (11, 0);
    }
    if full(r) {
        return (12, 0);
    }
    for i in q..r {
        let demand = |t: u64| {
            let dp1: u64 = (0..q).map(|j| loads[j] * t.div_ceil(periods[j])).sum();
            let star = |j: usize| {
                let count = t.div_ceil(periods[j]);
                loads[j] * if count * periods[j] <= periods[i] { count } else { count - 1 }
            };
            dp1 + (q..r).map(star).sum::<u64>()
        };
        if !some_time(periods[i], &periods[..r], demand) {
            return (13, tasks[i].number);
        }
    }
    for i in r..tasks.len() {
        let demand = |t: u64| (0..=i).map(|j| loads[j] * t.div_ceil(periods[j])).sum::<u64>();
        if !some_time(u64::from(tasks[i].span), &periods[..=i], demand) {
            return (14, tasks[i].number);
        }
    }
    (0, 0)
}
