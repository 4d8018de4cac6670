//! Linux lists: lists of every kind are read, images of every kind are written as lists, and what was written is read back.

use crate::expected::{exported, imported};
use crate::images::{self, hex};
use crate::kinds::Seen;
use crate::list_kinds::{note_again, note_back, note_export, note_import, note_list};
use crate::rng::Rng;
use crate::subjects::SUBJECTS;
use model::image::{read, records, Table};
use model::linux;

/// A record as sched_setattr(2) has it.
struct Attr {
    size: u32,
    policy: u32,
    flags: u64,
    nice: i32,
    priority: u32,
    runtime: u64,
    deadline: u64,
    period: u64,
}

impl Attr {
    fn bytes(&self) -> Vec<u8> {
        let mut record = self.size.to_le_bytes().to_vec();
        record.extend(self.policy.to_le_bytes());
        record.extend(self.flags.to_le_bytes());
        record.extend(self.nice.to_le_bytes());
        record.extend(self.priority.to_le_bytes());
        record.extend([self.runtime, self.deadline, self.period].iter().flat_map(|time| time.to_le_bytes()));
        record
    }

    /// The same in whole ticks, as it would be written.
    fn whole(self) -> Self {
        let deadline = self.deadline / 10 * 10;
        Attr { runtime: self.runtime.div_ceil(10) * 10, deadline, period: deadline, ..self }
    }
}

/// A deadline that makes a period in range, in nanoseconds: at the ends, or one of few, so that some are equal before or behind rounding, or any.
fn deadline(rng: &mut Rng) -> u64 {
    match rng.below(8) {
        0 => rng.pick(&[10_000, 10_001, 10_009, 10_010, 999_999_999, 1_000_000_000, 1_000_000_001, 1_000_000_009]),
        1..=4 => 10_000 * rng.from_to(1, 4) + rng.pick(&[0, 0, 1, 9]),
        _ => rng.from_to(10_000, 1_000_000_009),
    }
}

/// A runtime that makes a cost in range: at the ends, or any.
fn runtime(rng: &mut Rng, deadline: u64) -> u64 {
    let most = deadline / 10 * 10;
    match rng.below(6) {
        0 => rng.pick(&[1, 9, 10, 11]),
        1 => most - rng.from_to(0, 11),
        2 => 10 * rng.from_to(1, most / 10),
        _ => rng.from_to(1, most),
    }
}

/// A record that is accepted.
fn attr(rng: &mut Rng) -> Attr {
    let deadline = deadline(rng);
    let period = rng.pick(&[0, deadline, deadline]);
    Attr { size: 48, policy: 6, flags: 0, nice: 0, priority: 0, runtime: runtime(rng, deadline), deadline, period }
}

/// Times at the ends of the ranges, and at those of the numbers that hold them.
const TIMES: [u64; 28] = [
    0, 1, 9, 10, 11, 9_989, 9_990, 9_991, 9_999, 10_000, 10_001, 999_999_999, 1_000_000_000, 1_000_000_001, 1_000_000_009, 1_000_000_010,
    1_000_000_011, 10 << 32, (10 << 32) + 10, (10 << 32) + 20_000, (1 << 63) - 1, 1 << 63, (1 << 63) + 20_000, u64::MAX - 15, u64::MAX - 9,
    u64::MAX - 8, u64::MAX - 1, u64::MAX,
];

/// Another value in one field of a record, or in both of its times.
fn damage(rng: &mut Rng, attr: &mut Attr) {
    let bit = rng.below(64);
    match rng.below(11) {
        0 => attr.size = rng.pick(&[0, 47, 49, 56, 48 << 8, 48 + (1 << 8), 48 + (1 << 31), u32::MAX]),
        1 => attr.policy = rng.pick(&[0, 1, 2, 5, 7, 6 << 8, 6 + (1 << 8), 6 + (1 << 31), u32::MAX]),
        2 => attr.flags = 1 << bit,
        3 => attr.nice = rng.pick(&[1, -1, -20, 19, 1 << 8, 1 << 16, i32::MIN]),
        4 => attr.priority = 1 << (bit % 32),
        5 => attr.period = rng.pick(&TIMES),
        6 => attr.period = rng.pick(&[attr.deadline ^ 1, attr.deadline.wrapping_add(10), attr.deadline.wrapping_sub(10), attr.deadline / 10]),
        7 => attr.deadline = rng.pick(&TIMES),
        8 => {
            attr.deadline = rng.pick(&TIMES);
            attr.period = rng.pick(&[0, attr.deadline]);
        }
        9 => attr.runtime = rng.pick(&TIMES),
        _ => attr.runtime = (attr.deadline / 10 * 10).wrapping_add(rng.from_to(0, 11)),
    }
}

/// Damages one record, once or a few times; of a list that is too long mostly one about the 65th.
fn damage_some(rng: &mut Rng, attrs: &mut [Attr]) {
    if attrs.is_empty() {
        return;
    }
    let place = if attrs.len() > 64 && !rng.one_in(4) { rng.from_to(64, attrs.len() as u64 - 1) as usize } else { rng.below(attrs.len()) };
    for _ in 0..rng.pick(&[1, 1, 2, 3]) {
        damage(rng, &mut attrs[place]);
    }
}

/// A list. Few records as a rule, now and then about as many as there may be.
fn list(rng: &mut Rng) -> Vec<u8> {
    let n = match rng.below(16) {
        0 => rng.pick(&[63, 64, 64, 65, 65, 66, 66, 70]),
        1 => 0,
        _ => rng.from_to(1, 5),
    };
    let mut attrs: Vec<Attr> = (0..n).map(|_| attr(rng)).collect();
    if rng.one_in(6) {
        attrs = attrs.into_iter().map(Attr::whole).collect();
        attrs.sort_by_key(|attr| attr.deadline);
    }
    for _ in 0..rng.pick(&[0, 0, 0, 1, 1, 2]) {
        damage_some(rng, &mut attrs);
    }
    let mut list: Vec<u8> = attrs.iter().flat_map(Attr::bytes).collect();
    match rng.below(24) {
        0 => list.truncate(rng.below(list.len() + 1)),
        1 => list.resize(list.len() + rng.pick(&[1, 8, 16, 24, 32, 47]), 0),
        _ => {}
    }
    list
}

/// An image to write as a list: any, or one of a table in DP1 alone, with semaphores or without, now and then but for its last task.
fn image(rng: &mut Rng) -> Vec<u8> {
    if rng.one_in(3) {
        return images::image(rng);
    }
    let mut table = images::table(rng);
    let numbered = rng.one_in(2);
    for (i, task) in table.tasks.iter_mut().enumerate() {
        (task.queue, task.deadline) = (1, 0);
        if numbered {
            task.number = i as u16 + 1;
        }
    }
    if rng.one_in(2) {
        (table.board, table.sems) = (None, Vec::new());
    }
    if rng.one_in(8) {
        table.tasks.last_mut().unwrap().queue = rng.pick(&[2, 3]);
    }
    let mut image = records(&table);
    image.resize(image.len() + rng.pick(&[0, 0, 0, 32, 96]), 255);
    image
}

/// About as many bytes as are needed: so many, a record more or less, or one off.
fn about(rng: &mut Rng, needed: usize, record: usize) -> usize {
    match rng.below(10) {
        0 => needed + record,
        1 => needed.saturating_sub(record),
        2 => needed + 1,
        3 => needed.saturating_sub(1),
        4 => rng.pick(&[0, 2 * needed, needed + 4 * record]),
        5 if rng.one_in(4) => rng.pick(&[4_095, 4_096, 4_097, 4_128]),
        _ => needed,
    }
}

/// A buffer with noise in it.
fn noise(rng: &mut Rng, length: usize) -> Vec<u8> {
    (0..length).map(|_| rng.next() as u8).collect()
}

fn differs(name: &str, what: &str, given: &[u8], room: usize) -> String {
    format!("{name}: {what} with a buffer of {room} bytes differs from the model on {}", hex(given))
}

/// Compares the subjects with the model in reading a list.
fn compare_import(rng: &mut Rng, list: &[u8], seen: &mut Seen) -> Result<(), String> {
    let room = about(rng, list.len() / 48 * 32, 32);
    let before = noise(rng, room);
    let mut wanted = before.clone();
    let answer = imported(list, &mut wanted);
    note_list(seen, list);
    note_import(seen, list, room, answer);
    for subject in &SUBJECTS {
        let mut buffer = before.clone();
        if (subject.import)(list, &mut buffer) != answer || buffer != wanted {
            return Err(differs(subject.name, "importing", list, room));
        }
    }
    linux::read(list).map_or(Ok(()), |table| compare_again(&table, list, seen))
}

/// Writes the table of an accepted list as a list again, each subject from the image that it made itself.
fn compare_again(table: &Table, list: &[u8], seen: &mut Seen) -> Result<(), String> {
    let mut wanted = vec![170; list.len()];
    linux::write(table, &mut wanted);
    note_again(seen, wanted == list);
    for subject in &SUBJECTS {
        let (mut image, mut written) = (vec![170; list.len() / 48 * 32], vec![170; list.len()]);
        if (subject.import)(list, &mut image) != 0 || (subject.export)(&image, &mut written) != 0 || written != wanted {
            return Err(differs(subject.name, "importing and exporting", list, list.len()));
        }
    }
    Ok(())
}

/// Compares the subjects with the model in writing an image's table as a list.
fn compare_export(rng: &mut Rng, image: &[u8], seen: &mut Seen) -> Result<(), String> {
    let table = read(image);
    let room = about(rng, table.as_ref().map_or(96, |t| 48 * t.tasks.len()), 48);
    let before = noise(rng, room);
    let mut wanted = before.clone();
    let answer = exported(image, &mut wanted);
    note_export(seen, &table, room, answer);
    for subject in &SUBJECTS {
        let mut list = before.clone();
        if (subject.export)(image, &mut list) != answer || list != wanted {
            return Err(differs(subject.name, "exporting", image, room));
        }
    }
    match table {
        Ok(table) if answer == 0 => compare_back(&table, &wanted, seen),
        _ => Ok(()),
    }
}

/// Reads a written list: it gives the table back, but for its board, its semaphores, and numbers other than 1 to n in order.
fn compare_back(table: &Table, list: &[u8], seen: &mut Seen) -> Result<(), String> {
    let mut back = Table { board: None, tasks: table.tasks.clone(), sems: Vec::new() };
    for (i, task) in back.tasks.iter_mut().enumerate() {
        task.number = i as u16 + 1;
    }
    note_back(seen, back == *table);
    let wanted = records(&back);
    let sides = SUBJECTS.iter().map(|s| (s.name, s.import)).chain([("model", imported as fn(&[u8], &mut [u8]) -> u64)]);
    for (name, import) in sides {
        let mut image = vec![170; wanted.len()];
        if import(list, &mut image) != 0 || image != wanted {
            return Err(format!("{name}: reading back the list {} does not give the table", hex(list)));
        }
    }
    Ok(())
}

/// Runs so many cases from a seed, each a list to read and an image to write.
pub fn run(count: u64, seed: u64) -> Result<Seen, String> {
    let mut rng = Rng::new(seed);
    let mut seen = Seen::new();
    for _ in 0..count {
        let list = list(&mut rng);
        compare_import(&mut rng, &list, &mut seen)?;
        let image = image(&mut rng);
        compare_export(&mut rng, &image, &mut seen)?;
    }
    Ok(seen)
}
