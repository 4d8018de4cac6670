//! Charges and judging: 01, "Charges" and "The tests", with the limit that request a) gives to 14.

use crate::image::{Table, Task};
use std::collections::BTreeSet;

/// The charge of each task, in table order.
pub fn charges(table: &Table) -> Vec<u64> {
    let [dp_block, dp_unblock, dp_select, dp_per_task, fp_block, fp_per_task, fp_unblock, fp_select, per_queue] = table.figures();
    let size = |queue: u8| table.tasks.iter().filter(|t| t.queue == queue).count() as u64;
    let n = table.tasks.len() as u64;
    let q = size(1);
    let r = size(1) + size(2);
    let k = [1, 2, 3].into_iter().filter(|queue| size(*queue) > 0).count() as u64;
    let m = q.max(r - q);
    let dp_choice = |j: u64| dp_select + j * dp_per_task + k * per_queue;
    let fp_choice = fp_select + k * per_queue;
    let dp1 = dp_block + dp_choice(m) + dp_unblock + dp_choice(q);
    let dp2 = dp_block + dp_choice(r) + dp_unblock + dp_choice(m);
    let fp = fp_block + (n - r) * fp_per_task + fp_choice + fp_unblock + if r > 0 { dp_choice(m) } else { fp_choice };
    let of = |queue: u8| {
        let sum = [dp1, dp2, fp][usize::from(queue) - 1];
        (3 * sum).div_ceil(2)
    };
    table.tasks.iter().map(|t| of(t.queue)).collect()
}

/// An exact fraction.
#[derive(Clone, Copy, Debug)]
struct Fraction {
    over: u128,
    under: u128,
}

fn gcd(a: u128, b: u128) -> u128 {
    if b == 0 {
        a
    } else {
        gcd(b, a % b)
    }
}

impl Fraction {
    fn new(over: u128, under: u128) -> Self {
        let common = gcd(over, under);
        Fraction { over: over / common, under: under / common }
    }

    fn plus(self, other: Fraction) -> Self {
        Fraction::new(self.over * other.under + other.over * self.under, self.under * other.under)
    }
}

/// Whether there is a whole time from 1 to the limit at which the demand is at most that time. Every time is tried where that is feasible,
/// else every multiple of a period up to the limit, and the limit.
fn some_time(limit: u64, periods: &BTreeSet<u64>, demand: impl Fn(u64) -> u64) -> bool {
    if limit <= 20_000 {
        return (1..=limit).any(|t| demand(t) <= t);
    }
    let mut times: BTreeSet<u64> = periods.iter().flat_map(|p| (1..=limit / p).map(move |i| i * p)).collect();
    times.insert(limit);
    times.into_iter().any(|t| demand(t) <= t)
}

/// The verdict: its number, and the number of the task that it names.
pub fn judge(table: &Table) -> (u8, u16) {
    let loads: Vec<u64> = charges(table).iter().zip(&table.tasks).map(|(c, t)| c + t.cost).collect();
    let all: Vec<(&Task, u64)> = table.tasks.iter().zip(loads).collect();
    let mut shared: u128 = 1;
    for (task, _) in all.iter().filter(|(t, _)| t.queue <= 2) {
        let period = u128::from(task.period);
        shared = shared / gcd(shared, period) * period;
        if shared > 1_000_000_000_000 {
            return (10, task.number);
        }
    }
    let fills = |last: u8| {
        let parts = all.iter().filter(|(t, _)| t.queue <= last);
        let sum = parts.fold(Fraction::new(0, 1), |sum, (t, load)| {
            sum.plus(Fraction::new(u128::from(*load), u128::from(t.period)))
        });
        sum.over > sum.under
    };
    if fills(1) {
        return (11, 0);
    }
    if fills(2) {
        return (12, 0);
    }
    for (task, _) in all.iter().filter(|(t, _)| t.queue == 2) {
        let star = |t: u64, period: u64| {
            let count = t.div_ceil(period);
            if count * period <= task.period {
                count
            } else {
                count - 1
            }
        };
        let demand = |t: u64| {
            let of = |(other, load): &(&Task, u64)| match other.queue {
                1 => load * t.div_ceil(other.period),
                2 => load * star(t, other.period),
                _ => 0,
            };
            all.iter().map(of).sum()
        };
        let periods = all.iter().filter(|(t, _)| t.queue <= 2).map(|(t, _)| t.period).collect();
        if !some_time(task.period, &periods, demand) {
            return (13, task.number);
        }
    }
    for (i, (task, _)) in all.iter().enumerate().filter(|(_, (t, _))| t.queue == 3) {
        let demand = |t: u64| all[..=i].iter().map(|(other, load)| load * t.div_ceil(other.period)).sum();
        let periods = all[..=i].iter().map(|(t, _)| t.period).collect();
        if !some_time(task.span(), &periods, demand) {
            return (14, task.number);
        }
    }
    (0, 0)
}

/// What the checking program prints for an image.
pub fn report(image: &[u8]) -> String {
    let table = match crate::image::read(image) {
        Ok(table) => table,
        Err(refusal) => return format!("image {} {}\n", refusal.number, refusal.place),
    };
    let mut text = String::new();
    for (task, charge) in table.tasks.iter().zip(charges(&table)) {
        text += &format!("task {} {} {}\n", task.number, task.queue, charge);
    }
    let (number, task) = judge(&table);
    text + &format!("verdict {number} {task}\n")
}
