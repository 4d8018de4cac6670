//! Load and write.

use crate::{Sem, State, Status, Task, BUILT_IN};

fn u16_at(record: &[u8], at: usize) -> u16 {
    u16::from_le_bytes([record[at], record[at + 1]])
}

pub(crate) fn u32_at(record: &[u8], at: usize) -> u32 {
    u32::from_le_bytes([record[at], record[at + 1], record[at + 2], record[at + 3]])
}

fn add_task(state: &mut State, record: &[u8]) -> Result<(), u8> {
    let (queue, number, period, cost) = (record[1], u16_at(record, 2), u32_at(record, 4), u32_at(record, 8));
    let in_range = (1..=3).contains(&queue) && number > 0 && (1_000..=100_000_000).contains(&period) && (1..=period).contains(&cost);
    if !in_range || record[16..].iter().any(|b| *b != 0) {
        return Err(4);
    }
    let deadline = u32_at(record, 12);
    if deadline != 0 && (queue != 3 || deadline < cost || deadline >= period) {
        return Err(4);
    }
    if state.m > 0 {
        return Err(5);
    }
    if let Some(last) = state.tasks().last() {
        if queue < last.queue || (period, number) <= (last.period, last.number) {
            return Err(5);
        }
    }
    if state.tasks().iter().any(|t| t.number == number) {
        return Err(8);
    }
    if state.n == 64 {
        return Err(6);
    }
    let span = if deadline == 0 { period } else { deadline };
    state.tasks[state.n] = Task { deadline: 0, period, cost, span, number, queue, status: Status::Idle };
    state.n += 1;
    Ok(())
}

fn add_board(state: &mut State, record: &[u8], place: usize) -> Result<(), u8> {
    let mut figures = [0; 9];
    for (i, figure) in figures.iter_mut().enumerate() {
        *figure = u16_at(record, 2 + 2 * i);
    }
    if record[1] != 0 || figures.iter().any(|f| *f > 10_000) || record[20..].iter().any(|b| *b != 0) {
        return Err(4);
    }
    if place > 0 {
        return Err(5);
    }
    state.board = figures;
    state.present = true;
    Ok(())
}

fn add_sem(state: &mut State, record: &[u8]) -> Result<(), u8> {
    let number = u16_at(record, 2);
    if record[1] != 0 || number == 0 || record[4..].iter().any(|b| *b != 0) {
        return Err(4);
    }
    if state.sems().last().is_some_and(|last| number <= last.number) {
        return Err(5);
    }
    if state.m == 16 {
        return Err(6);
    }
    state.sems[state.m] = Sem { number, holder: None };
    state.m += 1;
    Ok(())
}

/// Loads an image into the state. The answer is the number and the place; a refusal leaves the empty state.
pub fn load(image: &[u8], state: &mut State) -> (u8, usize) {
    *state = State::empty();
    if image.len() % 32 != 0 || image.len() > 4096 {
        return (1, 0);
    }
    state.board = BUILT_IN;
    let mut erased = false;
    for (place, record) in image.chunks_exact(32).enumerate() {
        if record.iter().all(|b| *b == 255) {
            erased = true;
            continue;
        }
        let added = match record[0] {
            _ if erased => Err(3),
            1 => add_task(state, record),
            2 => add_board(state, record, place),
            3 => add_sem(state, record),
            _ => Err(2),
        };
        if let Err(number) = added {
            *state = State::empty();
            return (number, place);
        }
    }
    if state.n == 0 {
        *state = State::empty();
        return (7, image.len() / 32);
    }
    (0, 0)
}

/// Writes the state's table to a buffer. The answer is the number.
pub fn write(state: &State, buffer: &mut [u8]) -> u8 {
    if state.n == 0 {
        return 7;
    }
    let used = 32 * (usize::from(state.present) + state.n + state.m);
    if buffer.len() % 32 != 0 || buffer.len() > 4096 || buffer.len() < used {
        return 9;
    }
    buffer[..used].fill(0);
    buffer[used..].fill(255);
    let mut records = buffer.chunks_exact_mut(32);
    if state.present {
        let record = records.next().unwrap();
        record[0] = 2;
        for (i, figure) in state.board.iter().enumerate() {
            record[2 + 2 * i..4 + 2 * i].copy_from_slice(&figure.to_le_bytes());
        }
    }
    for (task, record) in state.tasks().iter().zip(&mut records) {
        record[0] = 1;
        record[1] = task.queue;
        record[2..4].copy_from_slice(&task.number.to_le_bytes());
        record[4..8].copy_from_slice(&task.period.to_le_bytes());
        record[8..12].copy_from_slice(&task.cost.to_le_bytes());
        if task.span < task.period {
            record[12..16].copy_from_slice(&task.span.to_le_bytes());
        }
    }
    for (sem, record) in state.sems().iter().zip(&mut records) {
        record[0] = 3;
        record[2..4].copy_from_slice(&sem.number.to_le_bytes());
    }
    0
}
