//! The image: 01, "The image" and "Numbers that come back", with the deadline of request a).

use std::collections::BTreeSet;

#[derive(Clone, Debug, PartialEq, Eq)]
pub struct Task {
    pub queue: u8,
    pub number: u16,
    pub period: u64,
    pub cost: u64,
    /// As the record has it: 0 where the period is meant.
    pub deadline: u64,
}

impl Task {
    /// How long after its release a job must be done.
    pub fn span(&self) -> u64 {
        match self.deadline {
            0 => self.period,
            own => own,
        }
    }
}

/// A table: the figures of its board record, if there is one, its tasks, and its semaphores' numbers.
#[derive(Clone, Debug, PartialEq, Eq)]
pub struct Table {
    pub board: Option<[u64; 9]>,
    pub tasks: Vec<Task>,
    pub sems: Vec<u16>,
}

pub const BUILT_IN: [u64; 9] = [160, 120, 120, 25, 100, 36, 140, 60, 55];

impl Table {
    pub fn figures(&self) -> [u64; 9] {
        self.board.unwrap_or(BUILT_IN)
    }
}

#[derive(Clone, Debug, PartialEq, Eq)]
pub struct Refusal {
    pub number: u8,
    pub place: usize,
}

#[derive(Clone, Debug, PartialEq, Eq)]
enum Used {
    Board([u64; 9]),
    Task(Task),
    Sem(u16),
}

fn little(bytes: &[u8]) -> u64 {
    bytes.iter().rev().fold(0, |sum, b| sum << 8 | u64::from(*b))
}

fn erased(record: &[u8]) -> bool {
    record.iter().all(|b| *b == 255)
}

/// The entry that a used record of a known kind holds, or nothing if a zero byte is not zero or a field is out of its range.
fn entry(record: &[u8]) -> Option<Used> {
    let zero = |from: usize| record[from..32].iter().all(|b| *b == 0);
    match record[0] {
        1 => {
            let task = Task {
                queue: record[1],
                number: little(&record[2..4]) as u16,
                period: little(&record[4..8]),
                cost: little(&record[8..12]),
                deadline: little(&record[12..16]),
            };
            let shorter = task.queue == 3 && (task.cost..task.period).contains(&task.deadline);
            let fits = (1..=3).contains(&task.queue)
                && task.number >= 1
                && (1_000..=100_000_000).contains(&task.period)
                && (1..=task.period).contains(&task.cost)
                && (task.deadline == 0 || shorter)
                && zero(16);
            fits.then_some(Used::Task(task))
        }
        2 => {
            let mut figures = [0; 9];
            for (i, figure) in figures.iter_mut().enumerate() {
                *figure = little(&record[2 + 2 * i..4 + 2 * i]);
            }
            let fits = record[1] == 0 && figures.iter().all(|f| *f <= 10_000) && zero(20);
            fits.then_some(Used::Board(figures))
        }
        _ => {
            let number = little(&record[2..4]) as u16;
            (record[1] == 0 && number >= 1 && zero(4)).then_some(Used::Sem(number))
        }
    }
}

/// Whether an entry may stand behind the ones that are there already.
fn in_order(before: &[Used], this: &Used) -> bool {
    match (before.last(), this) {
        (last, Used::Board(_)) => last.is_none(),
        (Some(Used::Task(a)), Used::Task(b)) => a.queue <= b.queue && (a.period, a.number) < (b.period, b.number),
        (Some(Used::Sem(_)), Used::Task(_)) => false,
        (_, Used::Task(_)) => true,
        (Some(Used::Sem(a)), Used::Sem(b)) => a < b,
        (_, Used::Sem(_)) => true,
    }
}

/// Every refusal that applies to a record behind entries that were all accepted.
fn applying(before: &[Used], blank_before: bool, record: &[u8]) -> BTreeSet<u8> {
    let mut all = BTreeSet::new();
    if erased(record) {
        return all;
    }
    if blank_before {
        all.insert(3);
    }
    if !(1..=3).contains(&record[0]) {
        all.insert(2);
        return all;
    }
    let Some(this) = entry(record) else {
        all.insert(4);
        return all;
    };
    if !in_order(before, &this) {
        all.insert(5);
    }
    let tasks: Vec<&Task> = before.iter().filter_map(|u| if let Used::Task(t) = u { Some(t) } else { None }).collect();
    let sems = before.iter().filter(|u| matches!(u, Used::Sem(_))).count();
    if let Used::Task(task) = &this {
        if tasks.iter().any(|t| t.number == task.number) {
            all.insert(8);
        }
        if tasks.len() == 64 {
            all.insert(6);
        }
    }
    if matches!(this, Used::Sem(_)) && sems == 16 {
        all.insert(6);
    }
    all
}

/// The refusals in the order in which loading checks them.
const ORDER: [u8; 6] = [3, 2, 4, 5, 8, 6];

/// Every refusal that applies at the record at which loading stops, in the order in which loading checks them.
pub fn refusals(image: &[u8]) -> Vec<u8> {
    let Err(Refusal { number: 2..=6 | 8, place }) = read(image) else { return Vec::new() };
    let before = image.chunks(32).take(place);
    let blank_before = before.clone().any(erased);
    let entries: Vec<Used> = before.filter(|record| !erased(record)).filter_map(entry).collect();
    let all = applying(&entries, blank_before, &image[32 * place..32 * place + 32]);
    ORDER.into_iter().filter(|n| all.contains(n)).collect()
}

pub fn read(image: &[u8]) -> Result<Table, Refusal> {
    if image.len() % 32 != 0 || image.len() > 4096 {
        return Err(Refusal { number: 1, place: 0 });
    }
    let mut entries: Vec<Used> = Vec::new();
    let mut blank_before = false;
    for (place, record) in image.chunks(32).enumerate() {
        let all = applying(&entries, blank_before, record);
        if let Some(number) = ORDER.into_iter().find(|n| all.contains(n)) {
            return Err(Refusal { number, place });
        }
        if erased(record) {
            blank_before = true;
        } else {
            entries.extend(entry(record));
        }
    }
    let mut table = Table { board: None, tasks: Vec::new(), sems: Vec::new() };
    for used in entries {
        match used {
            Used::Board(figures) => table.board = Some(figures),
            Used::Task(task) => table.tasks.push(task),
            Used::Sem(number) => table.sems.push(number),
        }
    }
    if table.tasks.is_empty() {
        return Err(Refusal { number: 7, place: image.len() / 32 });
    }
    Ok(table)
}

/// The records of a table, one behind the other.
pub fn records(table: &Table) -> Vec<u8> {
    let mut all: Vec<Vec<u8>> = Vec::new();
    if let Some(figures) = table.board {
        let mut record = vec![2, 0];
        record.extend(figures.iter().flat_map(|f| (*f as u16).to_le_bytes()));
        all.push(record);
    }
    for task in &table.tasks {
        let mut record = vec![1, task.queue];
        record.extend(task.number.to_le_bytes());
        record.extend((task.period as u32).to_le_bytes());
        record.extend((task.cost as u32).to_le_bytes());
        record.extend((task.deadline as u32).to_le_bytes());
        all.push(record);
    }
    for number in &table.sems {
        let mut record = vec![3, 0];
        record.extend(number.to_le_bytes());
        all.push(record);
    }
    for record in &mut all {
        record.resize(32, 0);
    }
    all.concat()
}

/// Writes a table to a buffer; the buffer's bytes change only where the answer is 0.
pub fn write(table: &Table, buffer: &mut [u8]) -> u8 {
    let bytes = records(table);
    if buffer.len() % 32 != 0 || buffer.len() > 4096 || buffer.len() < bytes.len() {
        return 9;
    }
    for (i, byte) in buffer.iter_mut().enumerate() {
        *byte = bytes.get(i).copied().unwrap_or(255);
    }
    0
}
