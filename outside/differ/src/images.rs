//! Images: valid ones, damaged ones, and what the three sides make of them.

use crate::expected::{judged, rewritten};
use crate::kinds::{note, note_judged, Seen};
use crate::rng::Rng;
use crate::subjects::SUBJECTS;
use model::image::{read, records, Table, Task};

const NICE: [u64; 12] = [1_000, 1_200, 1_500, 2_000, 2_400, 3_000, 4_000, 5_000, 6_000, 10_000, 12_000, 30_000];

fn period(rng: &mut Rng) -> u64 {
    match rng.below(12) {
        0..=6 => rng.pick(&NICE) * rng.pick(&[1, 1, 1, 2, 5, 10]),
        7 | 8 => rng.from_to(1_000, 30_000),
        9 => rng.from_to(999_000, 1_001_000),
        10 => rng.pick(&[1_000, 100_000_000, 99_999_999, 1_001]),
        _ => rng.pick(&NICE),
    }
}

fn board(rng: &mut Rng) -> Option<[u64; 9]> {
    match rng.below(6) {
        0 => None,
        1 | 2 => Some([0; 9]),
        3 => Some([(); 9].map(|()| rng.from_to(0, 40))),
        4 => Some([(); 9].map(|()| rng.pick(&[0, 1, 2, 3, 10_000]))),
        _ => Some([(); 9].map(|()| rng.from_to(0, 10_000))),
    }
}

/// A deadline of an FP task's own: the cost, one less than the period, or between. None where the cost leaves no room for one.
pub fn shorter(rng: &mut Rng, cost: u64, period: u64) -> u64 {
    match rng.below(4) {
        _ if cost == period => 0,
        0 => cost,
        1 => period - 1,
        2 => rng.from_to(cost, (period - 1).min(4 * cost)),
        _ => rng.from_to(cost, period - 1),
    }
}

/// A well-formed table. Few tasks as a rule, now and then as many as there can be; two in three have no deadline but the periods.
pub fn table(rng: &mut Rng) -> Table {
    let n = match rng.below(40) {
        0 => 64,
        1 => rng.from_to(20, 64) as usize,
        _ => rng.from_to(1, 9) as usize,
    };
    let m = match rng.below(20) {
        0 => 16,
        _ => rng.from_to(0, 5) as usize,
    };
    // many tasks at odd periods make a search of the slow model too long
    let plain = n > 9;
    let mut keys: Vec<(u64, u16)> = Vec::new();
    while keys.len() < n {
        let number = if rng.one_in(3) { rng.from_to(1, 65_535) } else { rng.from_to(1, 90) } as u16;
        if keys.iter().all(|key| key.1 != number) {
            let at = if plain { rng.pick(&NICE) * rng.pick(&[5, 10]) } else { period(rng) };
            keys.push((at, number));
        }
    }
    keys.sort();
    let q = rng.below(n + 1);
    let r = rng.from_to(q as u64, n as u64) as usize;
    let share = rng.pick(&[1, 2, n as u64, n as u64, 2 * n as u64, 10 * n as u64]);
    let short = rng.one_in(3);
    let tasks = keys.into_iter().enumerate().map(|(i, (period, number))| {
        let queue = if i < q { 1 } else if i < r { 2 } else { 3 };
        let most = (period / share).max(1);
        let cost = if rng.one_in(4) { most } else { rng.from_to(1, most) };
        let deadline = if queue == 3 && short && !rng.one_in(3) { shorter(rng, cost, period) } else { 0 };
        Task { queue, number, period, cost, deadline }
    });
    let tasks = tasks.collect();
    let mut sems: Vec<u16> = (0..m).map(|_| rng.from_to(1, 300) as u16).collect();
    sems.sort();
    sems.dedup();
    Table { board: board(rng), tasks, sems }
}

fn record_at(rng: &mut Rng, image: &[u8]) -> Option<usize> {
    (image.len() >= 32).then(|| 32 * rng.below(image.len() / 32))
}

/// One kind of damage to an image.
fn damage(rng: &mut Rng, image: &mut Vec<u8>) {
    let Some(at) = record_at(rng, image) else {
        image.extend([0; 32]);
        return;
    };
    let other = 32 * rng.below(image.len() / 32);
    match rng.below(21) {
        0 => image[at..at + 32].fill(255),
        1 => {
            for i in 0..32 {
                image.swap(at + i, other + i);
            }
        }
        2 => {
            let copy = image[at..at + 32].to_vec();
            let to = 32 * rng.below(image.len() / 32 + 1);
            image.splice(to..to, copy);
        }
        // the number of one task for another
        3 => image.copy_within(other + 2..other + 4, at + 2),
        4 => image.extend([255; 32].repeat(rng.from_to(1, 3) as usize)),
        5 => {
            image.extend([255; 32]);
            image.extend_from_within(at..at + 32);
        }
        6 => {
            image.splice(0..0, records(&Table { board: board(rng), tasks: Vec::new(), sems: Vec::new() }));
        }
        7 => image.truncate(rng.below(image.len() + 1)),
        8 => {
            let length = rng.pick(&[4_095, 4_096, 4_097, 4_128, 33, 31]);
            image.resize(length, 255);
        }
        9 => crowd(rng, image),
        10 => image.extend(records(&table(rng))),
        11 | 12 => unfit_deadline(rng, image, at),
        _ => damage_record(rng, &mut image[at..at + 32]),
    }
}

fn u32_at(record: &[u8], at: usize) -> u32 {
    u32::from_le_bytes(record[at..at + 4].try_into().unwrap())
}

/// Another byte or another field in a record.
fn damage_record(rng: &mut Rng, record: &mut [u8]) {
    let period = u32_at(record, 4);
    match rng.below(8) {
        0 => record[rng.below(32)] ^= 1 << rng.below(8),
        1 => record[rng.below(32)] = rng.pick(&[0, 1, 2, 3, 4, 255, 254]),
        2 => record[0] = rng.pick(&[0, 4, 5, 254, 255]),
        3 => record[1] = rng.from_to(0, 4) as u8,
        4 => record[2..4].fill(0),
        5 => record[4..8].copy_from_slice(&rng.pick(&[0u32, 999, 1_000, 100_000_000, 100_000_001, u32::MAX]).to_le_bytes()),
        6 => record[8..12].copy_from_slice(&rng.pick(&[0, 1, period, period.wrapping_add(1)]).to_le_bytes()),
        _ => record[16 + rng.below(16)] = rng.from_to(1, 255) as u8,
    }
}

/// A deadline at the ends of its range and beyond them, in FP or in whatever queue the record has; now and then also the number of the record before,
/// or a queue that falls.
fn unfit_deadline(rng: &mut Rng, image: &mut [u8], at: usize) {
    let (period, cost) = (u32_at(image, at + 4), u32_at(image, at + 8));
    let ends = [cost.wrapping_sub(1), cost, period.wrapping_sub(1), period, period.wrapping_add(1), u32::MAX];
    image[at + 12..at + 16].copy_from_slice(&rng.pick(&ends).to_le_bytes());
    match rng.below(6) {
        0 if at > 0 => image.copy_within(at - 30..at - 28, at + 2),
        1 => image[at + 1] = 1,
        2 | 3 => image[at + 1] = 3,
        _ => {}
    }
}

/// As many more tasks or semaphores as take the table past what it may have, in order as far as it was; the last task now and then with the period
/// as its deadline.
fn crowd(rng: &mut Rng, image: &mut Vec<u8>) {
    let Ok(mut table) = read(image) else { return };
    if rng.one_in(2) {
        let last = table.tasks.last().unwrap().clone();
        let far = last.period.max(90_000_000);
        for i in 0..=64 - table.tasks.len() as u64 {
            let number = if rng.one_in(60) { last.number } else { 20_000 + i as u16 };
            table.tasks.push(Task { number, period: far + i, ..last.clone() });
        }
        if let (Some(beyond), true) = (table.tasks.last_mut(), rng.one_in(4)) {
            beyond.deadline = beyond.period;
        }
    } else {
        let last = u64::from(table.sems.last().copied().unwrap_or(0));
        table.sems.extend((1..=17 - table.sems.len() as u64).map(|i| (last + i) as u16));
    }
    *image = records(&table);
}

pub fn image(rng: &mut Rng) -> Vec<u8> {
    let mut image = records(&table(rng));
    if rng.one_in(4) {
        image.extend([255; 32].repeat(rng.from_to(1, 4) as usize));
    }
    if rng.one_in(3) {
        for _ in 0..rng.from_to(1, 3) {
            damage(rng, &mut image);
        }
    }
    if rng.one_in(200) {
        image = (0..32 * rng.below(5)).map(|_| rng.pick(&[0, 1, 2, 3, 255])).collect();
    }
    image
}

pub fn hex(bytes: &[u8]) -> String {
    bytes.iter().map(|b| format!("{b:02x}")).collect()
}

pub fn differs(name: &str, what: &str, image: &[u8]) -> String {
    format!("{name}: {what} differs from the model on image {}", hex(image))
}

/// Compares the subjects with the model on one image.
pub fn compare(rng: &mut Rng, image: &[u8], seen: &mut Seen) -> Result<(), String> {
    let size = if rng.one_in(50) { rng.below(1_032) } else { rng.from_to(1_032, 1_064) as usize };
    let before: Vec<u8> = (0..size).map(|_| rng.next() as u8).collect();
    let mut wanted = before.clone();
    let number = judged(image, &mut wanted);
    if number > 0 {
        note_judged(seen, image, wanted[1]);
    }
    let length = match rng.below(6) {
        0 => rng.below(200),
        1 => rng.pick(&[0, 4_064, 4_096, 4_128, 4_100]),
        2 => image.len() + 32,
        _ => image.len(),
    };
    let held: Vec<u8> = (0..length).map(|_| rng.next() as u8).collect();
    let mut kept = held.clone();
    let written = rewritten(image, &mut kept);
    note(seen, format!("rewrite {written:2}"));
    for subject in &SUBJECTS {
        let mut out = before.clone();
        if (subject.judge)(image, &mut out) != number || out != wanted {
            return Err(differs(subject.name, "judging", image));
        }
        let mut buffer = held.clone();
        if (subject.rewrite)(image, &mut buffer) != written || buffer != kept {
            return Err(differs(subject.name, "rewriting", image));
        }
    }
    Ok(())
}

/// What a run must have seen to be worth anything.
pub const MUST_SEE: [&str; 48] = [
    "load  1", "load  2", "load  3", "load  4", "load  5", "load  6", "load  7", "load  8", "verdict  0", "verdict 10", "verdict 11",
    "verdict 12", "verdict 13", "verdict 14", "rewrite  0", "rewrite  1", "rewrite  2", "rewrite  3", "rewrite  4", "rewrite  5",
    "rewrite  6", "rewrite  7", "rewrite  8", "rewrite  9", "load 3 before 2", "load 3 before 4", "load 3 before 5", "load 3 before 8",
    "load 5 before 8", "load 5 before 6", "load 8 before 6", "table without a deadline", "deadline at the cost", "deadline between",
    "deadline at period - 1", "4 by byte 16 to 31", "4 by a deadline in DP1", "4 by a deadline in DP2", "4 by a deadline below the cost",
    "4 by a deadline at the period", "4 by a deadline above the period", "3 before 4 by a deadline", "4 by a deadline before 5",
    "4 by a deadline before 8", "4 by a deadline before 6", "verdict  0 with a deadline", "verdict 14 with a deadline",
    "verdict 14 by a deadline alone",
];

/// Runs so many cases from a seed.
pub fn run(count: u64, seed: u64) -> Result<Seen, String> {
    let mut rng = Rng::new(seed);
    let mut seen = Seen::new();
    for _ in 0..count {
        let image = image(&mut rng);
        compare(&mut rng, &image, &mut seen)?;
    }
    Ok(seen)
}
