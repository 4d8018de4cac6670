//! Loads, writes and judges images and turns lists into images and back, each once under callgrind, with the proved library and with the baseline. `outside/bench/table` makes the table
//! of it. A run's name is SUBJECT|CASE.

use baseline::boundary as plain;

mod callgrind;
mod racks;

type Lent = fn(&[u8], &mut [u8]) -> u64;

struct Subject {
    name: &'static str,
    judge: Lent,
    rewrite: Lent,
    import: Lent,
    export: Lent,
}

const SUBJECTS: [Subject; 2] = [
    Subject { name: "proved", judge: boundary::judge, rewrite: boundary::rewrite, import: boundary::import, export: boundary::export },
    Subject { name: "plain", judge: plain::judge, rewrite: plain::rewrite, import: plain::import, export: plain::export },
];

/// 8 tasks in DP1, 8 in DP2 and 48 in FP that just pass: the image of examples/tables/near-full.txt.
const NEAR_FULL: &[u8] = include_bytes!("../../vectors/near-full.img");

fn lent(subject: &Subject, case: &str, run: Lent, image: &[u8], room: usize) {
    let mut out = vec![170; room];
    callgrind::count(&format!("{}|{case}", subject.name), || {
        run(image, &mut out);
    });
}

/// Lists of so many records, by rising and by falling period, and the image of such a table as a list.
fn lists(subject: &Subject, tasks: u16) {
    let list = racks::list(tasks);
    let falling: Vec<u8> = list.chunks(48).rev().flatten().copied().collect();
    let image = racks::image(1, false, tasks, 0, 0);
    lent(subject, &format!("import, {tasks} records in order"), subject.import, &list, image.len());
    lent(subject, &format!("import, {tasks} records in reverse order"), subject.import, &falling, image.len());
    lent(subject, &format!("export, {tasks} tasks"), subject.export, &image, list.len());
}

fn main() {
    for subject in &SUBJECTS {
        for (board, tasks, sems) in [(false, 1, 0), (false, 40, 0), (true, 64, 16)] {
            let rack = racks::image(3, board, tasks, sems, 0);
            let records = rack.len() / 32;
            lent(subject, &format!("load and write, {records} records"), subject.rewrite, &rack, rack.len());
        }
        let full = racks::image(3, true, 64, 16, 4_096);
        lent(subject, "load and write, 4,096 bytes", subject.rewrite, &full, 4_096);
        for tasks in [1, 8, 64] {
            lent(subject, &format!("judge, {tasks} tasks"), subject.judge, &racks::image(3, false, tasks, 0, 0), 1_032);
        }
        lent(subject, "judge, near-full table of 64 tasks", subject.judge, NEAR_FULL, 1_032);
        for tasks in [1, 8, 64] {
            lists(subject, tasks);
        }
    }
}
