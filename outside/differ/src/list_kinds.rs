//! What kinds of lists there were, and how often: each answer and what it came of, each pair of refusals that compete, what was rounded and put in
//! order.

use crate::kinds::{note, Seen};
use model::image::{Refusal, Table};
use model::linux::{read, refusals};

/// What a run must have seen to be worth anything.
pub const MUST_SEE: [&str; 82] = [
    "read  0", "read  6", "read  7", "read 40", "read 41", "read 42", "40 by the length", "40 by the size field", "41 by policy alone",
    "41 by flags alone", "41 by nice alone", "41 by priority alone", "42 by unequal times", "42 by times unequal within a tick",
    "42 by a deadline of zero", "42 by times of zero", "42 by a period too short", "42 by a period too long", "42 by a runtime of zero",
    "42 by a runtime above the period", "42 by a runtime near 2^64", "42 by rounding alone", "read 40 before 41", "read 40 before 42",
    "read 40 before 6", "read 41 before 42", "read 41 before 6", "read 42 before 6", "length before 40", "length before 41",
    "length before 42", "length before 6", "length before 7", "40, behind it 41", "40, behind it 42", "40, behind it 6", "41, behind it 40",
    "41, behind it 42", "41, behind it 6", "42, behind it 40", "42, behind it 41", "42, behind it 6", "6, behind it 40", "6, behind it 41",
    "6, behind it 42", "runtime rounded up", "period rounded down", "period of zero", "cost at the period", "shortest period", "longest period",
    "equal periods", "equal periods by rounding alone", "equal periods, falling in nanoseconds", "put in order", "in order already",
    "63 tasks", "64 tasks", "import 0, just the room", "import 0, more room", "import 9, too short", "import 9, odd length",
    "import 9, above 4,096", "import refused before 9", "export refuses the image", "export refuses the image at a later record",
    "43 by a queue", "43 by a queue, own deadline", "43 by a queue, in the last task alone", "43 by the buffer, too short",
    "43 by the buffer, too long", "43 by the buffer, a record more", "43 by the buffer, a record less", "43 by both", "export 0",
    "export 0, board left out", "export 0, semaphores left out", "export 0, 64 tasks", "read back: the table itself",
    "read back: other numbers or entries left out", "written again: the same list", "written again: rounded or in another order",
];

const POLICY: u32 = 6;

fn u32_at(record: &[u8], at: usize) -> u32 {
    u32::from_le_bytes(record[at..at + 4].try_into().unwrap())
}

fn u64_at(record: &[u8], at: usize) -> u64 {
    u64::from_le_bytes(record[at..at + 8].try_into().unwrap())
}

/// Runtime, deadline and period of a record, in nanoseconds.
fn times(record: &[u8]) -> (u64, u64, u64) {
    (u64_at(record, 24), u64_at(record, 32), u64_at(record, 40))
}

/// Notes each thing that is so.
fn note_each<const N: usize>(seen: &mut Seen, all: [(&str, bool); N]) {
    for (what, _) in all.into_iter().filter(|(_, so)| *so) {
        note(seen, what.to_string());
    }
}

/// Notes what reading a list answers, and why.
pub fn note_list(seen: &mut Seen, list: &[u8]) {
    match read(list) {
        Ok(table) => {
            note(seen, "read  0".to_string());
            note_records(seen, list);
            note_table(seen, list, &table);
        }
        Err(refusal) => {
            note(seen, format!("read {:2}", refusal.number));
            note_refused(seen, list, &refusal);
        }
    }
}

/// The records of an accepted list: what was rounded, and what is at the ends of its range.
fn note_records(seen: &mut Seen, list: &[u8]) {
    for (runtime, deadline, period) in list.chunks(48).map(times) {
        note_each(seen, [("runtime rounded up", runtime % 10 > 0), ("period rounded down", deadline % 10 > 0), ("period of zero", period == 0)]);
        note_each(seen, [("shortest period", deadline / 10 == 1_000), ("longest period", deadline / 10 == 100_000_000)]);
        note_each(seen, [("cost at the period", runtime.div_ceil(10) == deadline / 10)]);
    }
}

/// The table of an accepted list: how it was put in order, and whether it is full.
fn note_table(seen: &mut Seen, list: &[u8], table: &Table) {
    let rising = table.tasks.windows(2).all(|pair| pair[0].number < pair[1].number);
    note_each(seen, [("in order already", rising), ("put in order", !rising)]);
    note_each(seen, [("63 tasks", table.tasks.len() == 63), ("64 tasks", table.tasks.len() == 64)]);
    note_equal(seen, list, table);
}

/// Neighbours of equal period, and whether their deadlines were equal in nanoseconds too.
fn note_equal(seen: &mut Seen, list: &[u8], table: &Table) {
    let deadline = |number: u16| times(&list[48 * (usize::from(number) - 1)..]).1;
    for pair in table.tasks.windows(2).filter(|pair| pair[0].period == pair[1].period) {
        let (first, second) = (deadline(pair[0].number), deadline(pair[1].number));
        note_each(seen, [("equal periods", true), ("equal periods by rounding alone", first != second)]);
        note_each(seen, [("equal periods, falling in nanoseconds", first > second)]);
    }
}

/// A refused list: by its length, with what its records would give, or by a record, with what else applies there and behind it.
fn note_refused(seen: &mut Seen, list: &[u8], refusal: &Refusal) {
    let beyond = list.len() % 48;
    if beyond > 0 {
        note(seen, "40 by the length".to_string());
        if let Err(records) = read(&list[..list.len() - beyond]) {
            note(seen, format!("length before {}", records.number));
        }
    } else if refusal.number != 7 {
        note_cause(seen, refusal.number, &list[48 * refusal.place..]);
        note_others(seen, &refusals(list)[refusal.place..]);
    }
}

/// The refusals that apply to a record, and the first of each behind it.
fn note_others(seen: &mut Seen, all: &[Vec<u8>]) {
    let here = &all[0];
    for (i, first) in here.iter().enumerate() {
        for second in &here[i + 1..] {
            note(seen, format!("read {first} before {second}"));
        }
    }
    for later in all[1..].iter().filter_map(|others| others.first()) {
        note(seen, format!("{}, behind it {later}", here[0]));
    }
}

/// What in a record a refusal comes of.
fn note_cause(seen: &mut Seen, number: u8, record: &[u8]) {
    match number {
        40 => note(seen, "40 by the size field".to_string()),
        41 => note_attributes(seen, record),
        42 => note(seen, format!("42 by {}", times_cause(record))),
        _ => {}
    }
}

/// Which of policy, flags, nice and priority is not as it must be, where it is one alone.
fn note_attributes(seen: &mut Seen, record: &[u8]) {
    let all = [
        ("policy", u32_at(record, 4) != POLICY),
        ("flags", u64_at(record, 8) != 0),
        ("nice", u32_at(record, 16) != 0),
        ("priority", u32_at(record, 20) != 0),
    ];
    let wrong: Vec<&str> = all.into_iter().filter(|(_, wrong)| *wrong).map(|(name, _)| name).collect();
    if let [name] = wrong[..] {
        note(seen, format!("41 by {name} alone"));
    }
}

/// What is wrong with the times of a record that is refused with 42.
fn times_cause(record: &[u8]) -> &'static str {
    match times(record) {
        (_, 0, 0) => "times of zero",
        (_, 0, _) => "a deadline of zero",
        (_, deadline, period) if period != 0 && period != deadline && period / 10 == deadline / 10 => "times unequal within a tick",
        (_, deadline, period) if period != 0 && period != deadline => "unequal times",
        (_, ..=9_999, _) => "a period too short",
        (_, 1_000_000_010.., _) => "a period too long",
        (0, ..) => "a runtime of zero",
        (runtime, deadline, _) if runtime <= deadline => "rounding alone",
        (runtime, ..) if runtime > u64::MAX - 9 => "a runtime near 2^64",
        _ => "a runtime above the period",
    }
}

/// What came of the buffer for the image.
pub fn note_import(seen: &mut Seen, list: &[u8], room: usize, answer: u64) {
    let needed = list.len() / 48 * 32;
    let buffer = match room {
        4_097.. => "above 4,096",
        _ if room % 32 > 0 => "odd length",
        _ if room < needed => "too short",
        _ if room == needed => "just the room",
        _ => "more room",
    };
    match answer {
        0 | 9 => note(seen, format!("import {answer}, {buffer}")),
        _ if room % 32 > 0 || room > 4_096 => note(seen, "import refused before 9".to_string()),
        _ => {}
    }
}

/// What came of writing an image's table as a list.
pub fn note_export(seen: &mut Seen, loaded: &Result<Table, Refusal>, room: usize, answer: u64) {
    match loaded {
        Err(refusal) => {
            note_each(seen, [("export refuses the image", true), ("export refuses the image at a later record", refusal.place > 0)]);
        }
        Ok(table) if answer == 0 => note_exported(seen, table),
        Ok(table) => note_unfit(seen, table, room),
    }
}

fn note_exported(seen: &mut Seen, table: &Table) {
    let all = [
        ("export 0", true),
        ("export 0, board left out", table.board.is_some()),
        ("export 0, semaphores left out", !table.sems.is_empty()),
        ("export 0, 64 tasks", table.tasks.len() == 64),
    ];
    note_each(seen, all);
}

/// What a 43 comes of.
fn note_unfit(seen: &mut Seen, table: &Table, room: usize) {
    let needed = 48 * table.tasks.len();
    let outside = table.tasks.iter().filter(|t| t.queue != 1).count();
    let all = [
        ("43 by both", outside > 0 && room != needed),
        ("43 by a queue", outside > 0 && room == needed),
        ("43 by a queue, own deadline", outside > 0 && room == needed && table.tasks.iter().any(|t| t.deadline > 0)),
        ("43 by a queue, in the last task alone", outside == 1 && room == needed && table.tasks.len() > 1),
        ("43 by the buffer, too short", outside == 0 && room < needed),
        ("43 by the buffer, too long", outside == 0 && room > needed),
        ("43 by the buffer, a record more", outside == 0 && room == needed + 48),
        ("43 by the buffer, a record less", outside == 0 && room + 48 == needed),
    ];
    note_each(seen, all);
}

/// What reading a written list gives.
pub fn note_back(seen: &mut Seen, same: bool) {
    note_each(seen, [("read back: the table itself", same), ("read back: other numbers or entries left out", !same)]);
}

/// What writing a list's table as a list again gives.
pub fn note_again(seen: &mut Seen, same: bool) {
    note_each(seen, [("written again: the same list", same), ("written again: rounded or in another order", !same)]);
}
