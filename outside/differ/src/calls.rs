//! Sequences of calls. The model steers them so that most are accepted and chains of waits form; the subjects are held to its answers. What a release
//! stores as an FP task's deadline shows at no boundary, since a standing in FP has 0; there the baseline's own state is held to the model.

use crate::expected::{call_of, step};
use crate::images::{differs, hex, shorter};
use crate::kinds::{note, Seen};
use crate::rng::Rng;
use crate::subjects::SUBJECTS;
use model::dispatch::{Call, Doing, Model};
use model::image::{records, Table, Task};

/// A table for dispatch: what it costs does not matter here. Every second has deadlines of FP tasks' own.
pub fn table(rng: &mut Rng) -> Table {
    let n = if rng.one_in(50) { rng.from_to(11, 64) } else { rng.from_to(1, 8) } as usize;
    let m = if rng.one_in(20) { 16 } else { rng.from_to(0, 7) } as usize;
    let mut numbers: Vec<u16> = Vec::new();
    while numbers.len() < n {
        let number = rng.from_to(1, 99) as u16;
        if !numbers.contains(&number) {
            numbers.push(number);
        }
    }
    let mut keys: Vec<(u64, u16)> = numbers.into_iter().map(|number| (1_000 * rng.from_to(1, 4), number)).collect();
    keys.sort();
    let q = rng.below(n + 1);
    let r = rng.from_to(q as u64, n as u64) as usize;
    let short = rng.one_in(2);
    let tasks = keys.into_iter().enumerate().map(|(i, (period, number))| {
        let queue = if i < q { 1 } else if i < r { 2 } else { 3 };
        let deadline = if queue == 3 && short && rng.one_in(2) { shorter(rng, 1, period) } else { 0 };
        Task { queue, number, period, cost: 1, deadline }
    });
    let sems = (1..=m as u16).map(|i| i * 7).collect();
    Table { board: None, tasks: tasks.collect(), sems }
}

struct Sequence<'a> {
    rng: &'a mut Rng,
    model: Model,
    time: u64,
}

impl Sequence<'_> {
    fn task(&mut self) -> u16 {
        if self.rng.one_in(40) {
            return self.rng.from_to(0, 120) as u16;
        }
        let i = self.rng.below(self.model.table.tasks.len());
        self.model.table.tasks[i].number
    }

    fn sem(&mut self) -> u16 {
        if self.model.table.sems.is_empty() || self.rng.one_in(40) {
            return self.rng.from_to(0, 120) as u16;
        }
        let k = self.rng.below(self.model.table.sems.len());
        self.model.table.sems[k]
    }

    /// The number of a semaphore that the running task holds, or does not hold, or of any.
    fn sem_held(&mut self, held: bool) -> u16 {
        let runner = self.model.runner();
        let all: Vec<u16> = (0..self.model.table.sems.len())
            .filter(|k| (runner.is_some() && self.model.holder(*k) == runner) == held)
            .map(|k| self.model.table.sems[k])
            .collect();
        if all.is_empty() || self.rng.one_in(8) {
            self.sem()
        } else {
            self.rng.pick(&all)
        }
    }

    /// The number of a task that is doing what the test asks, or of any.
    fn task_doing(&mut self, test: impl Fn(Doing) -> bool) -> u16 {
        let all: Vec<u16> = (0..self.model.table.tasks.len())
            .filter(|i| test(self.model.doing(*i)))
            .map(|i| self.model.table.tasks[i].number)
            .collect();
        if all.is_empty() || self.rng.one_in(12) {
            self.task()
        } else {
            self.rng.pick(&all)
        }
    }

    /// Which call, and of what. Where nobody runs mostly one that makes a task ready; else mostly one that the running task makes.
    fn kind(&mut self) -> (u8, u16) {
        let choice = if self.model.running() == 0 && !self.rng.one_in(8) { self.rng.below(8) } else { self.rng.below(40) };
        match choice {
            0..=5 | 39 => (1, self.task_doing(|d| d == Doing::Idle)),
            6 | 7 => (2, self.task_doing(|d| d == Doing::Event)),
            8 => (3, self.task_doing(|d| matches!(d, Doing::Waits(_)))),
            9..=27 => (4, self.sem_held(false)),
            28..=31 => (5, self.sem_held(true)),
            32..=34 => (7, self.task()),
            35 | 36 => (6, self.task()),
            _ => (self.rng.from_to(0, 9) as u8, self.task()),
        }
    }

    fn record(&mut self) -> [u8; 16] {
        let mut record = [0; 16];
        let (kind, number) = self.kind();
        record[0] = kind;
        record[2..4].copy_from_slice(&number.to_le_bytes());
        record[4..6].copy_from_slice(&self.task().to_le_bytes());
        let time = match self.rng.below(30) {
            0 => self.time.saturating_sub(1),
            1 => self.rng.pick(&[0, 1_000_000_000_000_000, 1_000_000_000_000_001, u64::MAX]),
            _ => self.time + self.rng.from_to(0, 700),
        };
        record[8..16].copy_from_slice(&time.to_le_bytes());
        record
    }
}

/// What the state shows of waits: how long its longest chain is, and how many wait for one semaphore at most.
fn note_waits(model: &Model, seen: &mut Seen) {
    let n = model.table.tasks.len();
    let crowd = (0..model.table.sems.len()).map(|k| (0..n).filter(|i| model.doing(*i) == Doing::Waits(k)).count()).max();
    let chain = model.longest_chain();
    note(seen, format!("chain of {}", chain.min(4)));
    note(seen, format!("waiters {}", crowd.unwrap_or(0).min(4)));
}

/// A call and its answer, and whether a task was released that has a deadline of its own.
fn note_call(model: &Model, seen: &mut Seen, call: Call, answer: u8) {
    let name = match call {
        Call::Release { .. } => "release",
        Call::Signal { .. } => "signal",
        Call::Withdraw { .. } => "withdraw",
        Call::Acquire { .. } => "acquire",
        Call::Give { .. } => "give",
        Call::Complete => "complete",
        Call::Block => "block",
    };
    note(seen, format!("{name} {answer:2}"));
    if matches!(call, Call::Release { task, .. } if model.table.tasks.iter().any(|t| t.number == task && t.deadline > 0)) {
        note(seen, format!("release {answer:2} with a deadline"));
    }
}

/// A sequence: a table's image, a script, what the model answers to each of its records, and every task's deadline behind it.
pub struct Case {
    image: Vec<u8>,
    script: Vec<u8>,
    wanted: Vec<u8>,
    deadlines: Vec<u64>,
}

pub fn sequence(rng: &mut Rng, seen: &mut Seen) -> Case {
    let table = table(rng);
    let image = records(&table);
    let calls = rng.from_to(1, 45);
    let mut run = Sequence { rng, model: Model::new(table), time: 0 };
    let (mut script, mut wanted) = (Vec::new(), Vec::new());
    for _ in 0..calls {
        let record = run.record();
        let part = step(&mut run.model, &record);
        if record[0] == 1 && part[0] == 0 {
            run.time = u64::from_le_bytes(record[8..16].try_into().unwrap());
        }
        if let Some(call) = call_of(&record) {
            note_call(&run.model, seen, call, part[0]);
        }
        script.extend(record);
        wanted.extend(part);
    }
    note_waits(&run.model, seen);
    // every task's standing at the end: a call that there is not changes nothing
    for i in 0..run.model.table.tasks.len() {
        let mut record = [0; 16];
        record[4..6].copy_from_slice(&run.model.table.tasks[i].number.to_le_bytes());
        wanted.extend(step(&mut run.model, &record));
        script.extend(record);
    }
    let deadlines = (0..run.model.table.tasks.len()).map(|i| run.model.deadline(i)).collect();
    Case { image, script, wanted, deadlines }
}

/// The deadlines that the baseline's state holds behind a script.
fn stored(image: &[u8], script: &[u8]) -> Vec<u64> {
    let mut state = baseline::State::empty();
    baseline::image::load(image, &mut state);
    for record in script.chunks_exact(16) {
        baseline::boundary::step(&mut state, record);
    }
    state.tasks().iter().map(|task| task.deadline).collect()
}

pub const MUST_SEE: [&str; 28] = [
    "release  0", "release 20", "release 22", "release 23", "signal  0", "signal 20", "signal 24", "withdraw  0", "withdraw 20", "withdraw 25",
    "acquire  0", "acquire 21", "acquire 26", "acquire 28", "acquire 90", "give  0", "give 21", "give 26", "give 29", "complete  0",
    "complete 26", "complete 27", "block  0", "block 26", "chain of 3", "release  0 with a deadline", "release 22 with a deadline",
    "release 23 with a deadline",
];

pub fn run(count: u64, seed: u64) -> Result<Seen, String> {
    let mut rng = Rng::new(seed);
    let mut seen = Seen::new();
    for _ in 0..count {
        let Case { image, mut script, mut wanted, deadlines } = sequence(&mut rng, &mut seen);
        if stored(&image, &script) != deadlines {
            return Err(differs("baseline", "a stored deadline", &image) + " script " + &hex(&script));
        }
        let mut answer = (script.len() / 16) as u64;
        // more room than is needed is left as it was; too little, or a cut script, is refused
        let extra = rng.pick(&[0, 0, 1, 40]);
        let before: Vec<u8> = (0..wanted.len() + extra).map(|_| rng.next() as u8).collect();
        let mut out = before.clone();
        wanted.extend(&before[wanted.len()..]);
        if rng.one_in(60) {
            out.truncate(32 * answer as usize - 1);
            wanted = out.clone();
            answer = 0;
        } else if rng.one_in(60) {
            script.pop();
            wanted = before;
            answer = 0;
        }
        for subject in &SUBJECTS {
            let mut got = out.clone();
            if (subject.play)(&image, &script, &mut got) != answer || got != wanted {
                return Err(differs(subject.name, "playing", &image) + " script " + &hex(&script));
            }
        }
    }
    Ok(seen)
}
