//! What kinds of images there were, and how often: each answer, each pair of refusals that compete for a record, and what stands in the records'
//! deadlines.

use model::image::{read, refusals, Table, Task};
use model::judge::judge;
use std::collections::BTreeMap;
use std::ops::Range;

/// How often each thing was seen.
pub type Seen = BTreeMap<String, u64>;

pub fn note(seen: &mut Seen, what: String) {
    *seen.entry(what).or_insert(0) += 1;
}

/// Notes what is to be seen in an image, given the number of its verdict, if it loads.
pub fn note_judged(seen: &mut Seen, image: &[u8], verdict: u8) {
    match read(image) {
        Ok(table) => note_table(seen, &table, verdict),
        Err(refusal) => {
            note(seen, format!("load {:2}", refusal.number));
            note_refusals(seen, image, refusal.place);
        }
    }
}

fn place_in_range(task: &Task) -> &'static str {
    match task.deadline {
        own if own == task.cost => "at the cost",
        own if own == task.period - 1 => "at period - 1",
        _ => "between",
    }
}

/// A table that loads: its verdict, its deadlines, and whether 14 comes of them alone.
fn note_table(seen: &mut Seen, table: &Table, verdict: u8) {
    note(seen, format!("verdict {verdict:2}"));
    if table.tasks.iter().all(|t| t.deadline == 0) {
        return note(seen, "table without a deadline".to_string());
    }
    for task in table.tasks.iter().filter(|t| t.deadline > 0) {
        note(seen, format!("deadline {}", place_in_range(task)));
    }
    note(seen, format!("verdict {verdict:2} with a deadline"));
    let periods = table.tasks.iter().map(|t| Task { deadline: 0, ..t.clone() }).collect();
    if verdict == 14 && judge(&Table { tasks: periods, ..table.clone() }) == (0, 0) {
        note(seen, "verdict 14 by a deadline alone".to_string());
    }
}

/// A refused image: the pairs of refusals at the record where loading stops, and what its 4 comes of, if that is the deadline or the bytes behind.
fn note_refusals(seen: &mut Seen, image: &[u8], place: usize) {
    let all = refusals(image);
    for (i, first) in all.iter().enumerate() {
        for second in &all[i + 1..] {
            note(seen, format!("load {first} before {second}"));
        }
    }
    if !all.contains(&4) || image[32 * place] != 1 {
        return;
    }
    if all[0] == 4 && !with_zeros(image, place, 16..32).contains(&4) {
        note(seen, "4 by byte 16 to 31".to_string());
    }
    let left = with_zeros(image, place, 12..16);
    if !left.contains(&4) {
        note_deadline(seen, &image[32 * place..32 * place + 32], &left);
    }
}

/// The refusals that apply at a record once some of its bytes are zero; none where loading then goes on behind it.
fn with_zeros(image: &[u8], place: usize, bytes: Range<usize>) -> Vec<u8> {
    let mut other = image.to_vec();
    other[32 * place + bytes.start..32 * place + bytes.end].fill(0);
    match read(&other) {
        Err(refusal) if refusal.place == place => refusals(&other),
        _ => Vec::new(),
    }
}

/// A task record of which nothing but the deadline is out of range, and the other refusals that apply to it.
fn note_deadline(seen: &mut Seen, record: &[u8], others: &[u8]) {
    if others.contains(&3) {
        return note(seen, "3 before 4 by a deadline".to_string());
    }
    let field = |at: usize| u32::from_le_bytes(record[at..at + 4].try_into().unwrap());
    let (period, cost, deadline) = (field(4), field(8), field(12));
    let fault = match record[1] {
        1 => "in DP1",
        2 => "in DP2",
        _ if deadline < cost => "below the cost",
        _ if deadline == period => "at the period",
        _ => "above the period",
    };
    note(seen, format!("4 by a deadline {fault}"));
    for other in others {
        note(seen, format!("4 by a deadline before {other}"));
    }
}
