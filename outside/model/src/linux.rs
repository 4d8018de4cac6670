//! Linux lists: request b) of 02. The fields are wide whole numbers, each record gets every refusal that applies to it, and the tasks are put in
//! order at the end.

use crate::image::{Refusal, Table, Task};

/// How many bytes each field of a record has, in the order of sched_setattr(2): size, policy, flags, nice, priority, runtime, deadline, period.
const WIDTHS: [usize; 8] = [4, 4, 8, 4, 4, 8, 8, 8];
/// The bytes of a record.
const RECORD: usize = 48;
/// SCHED_DEADLINE.
const POLICY: u128 = 6;
/// The nanoseconds of a tick.
const TICK: u128 = 10;

/// The fields of a record. Nice counts as other fields do: whether it is zero does not hang on its sign.
fn fields(record: &[u8]) -> [u128; 8] {
    let mut left = record;
    WIDTHS.map(|width| {
        let (field, behind) = left.split_at(width);
        left = behind;
        field.iter().rev().fold(0, |sum, byte| 256 * sum + u128::from(*byte))
    })
}

/// The period and the cost of a record, rounded to ticks: the period down, the runtime up.
fn ticks(record: &[u8]) -> (u128, u128) {
    let [.., runtime, deadline, _] = fields(record);
    (deadline / TICK, runtime.div_ceil(TICK))
}

/// Every refusal that applies to the record at a place, in the order in which reading checks them.
fn applying(place: usize, record: &[u8]) -> Vec<u8> {
    let [size, policy, flags, nice, priority, _, deadline, period] = fields(record);
    let (rounded, cost) = ticks(record);
    let equal = period == 0 || period == deadline;
    let in_range = (1_000..=100_000_000).contains(&rounded) && (1..=rounded).contains(&cost);
    let all = [
        (40, size != RECORD as u128),
        (41, policy != POLICY || [flags, nice, priority] != [0; 3]),
        (42, !equal || !in_range),
        (6, place >= 64),
    ];
    all.into_iter().filter(|(_, applies)| *applies).map(|(number, _)| number).collect()
}

/// For each whole record of a list every refusal that applies to it, as if those before it were accepted.
pub fn refusals(list: &[u8]) -> Vec<Vec<u8>> {
    list.chunks_exact(RECORD).enumerate().map(|(place, record)| applying(place, record)).collect()
}

/// The task that an accepted record makes.
fn task(place: usize, record: &[u8]) -> Task {
    let (period, cost) = ticks(record);
    Task { queue: 1, number: place as u16 + 1, period: period as u64, cost: cost as u64, deadline: 0 }
}

/// Reads a list as a table.
pub fn read(list: &[u8]) -> Result<Table, Refusal> {
    if list.len() % RECORD != 0 {
        return Err(Refusal { number: 40, place: 0 });
    }
    let refusals = refusals(list);
    if let Some(place) = refusals.iter().position(|all| !all.is_empty()) {
        return Err(Refusal { number: refusals[place][0], place });
    }
    if refusals.is_empty() {
        return Err(Refusal { number: 7, place: 0 });
    }
    let mut tasks: Vec<Task> = list.chunks(RECORD).enumerate().map(|(place, record)| task(place, record)).collect();
    tasks.sort_by_key(|t| (t.period, t.number));
    Ok(Table { board: None, tasks, sems: Vec::new() })
}

/// The record of a task: the period in both times.
fn record(task: &Task) -> Vec<u8> {
    let (runtime, period) = (u128::from(task.cost) * TICK, u128::from(task.period) * TICK);
    let values = [RECORD as u128, POLICY, 0, 0, 0, runtime, period, period];
    values.iter().zip(WIDTHS).flat_map(|(value, width)| value.to_le_bytes().into_iter().take(width)).collect()
}

/// Writes a table to a buffer as a list; the buffer's bytes change only where the answer is 0.
pub fn write(table: &Table, buffer: &mut [u8]) -> u8 {
    if table.tasks.is_empty() {
        return 7;
    }
    let bytes: Vec<u8> = table.tasks.iter().flat_map(record).collect();
    if table.tasks.iter().any(|t| t.queue != 1) || buffer.len() != bytes.len() {
        return 43;
    }
    buffer.copy_from_slice(&bytes);
    0
}
