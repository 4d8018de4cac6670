//! The same boundary as the proved library's, so that the two are called alike.

use crate::{charges::charges, image, judging, linux, State};

pub fn judge(bytes: &[u8], out: &mut [u8]) -> u64 {
    if out.len() < 1032 {
        return 0;
    }
    let mut state = State::empty();
    let (number, place) = image::load(bytes, &mut state);
    out[..1032].fill(0);
    out[0] = number;
    out[2..4].copy_from_slice(&(place as u16).to_le_bytes());
    if number != 0 {
        return 8;
    }
    let (verdict, task) = judging::judge(&state);
    out[1] = verdict;
    out[4..6].copy_from_slice(&task.to_le_bytes());
    out[6..8].copy_from_slice(&(state.n as u16).to_le_bytes());
    let charges = charges(&state);
    for (task, part) in state.tasks().iter().zip(out[8..].chunks_exact_mut(16)) {
        part[0..2].copy_from_slice(&task.number.to_le_bytes());
        part[2] = task.queue;
        part[8..16].copy_from_slice(&charges[usize::from(task.queue) - 1].to_le_bytes());
    }
    8 + 16 * state.n as u64
}

pub fn rewrite(bytes: &[u8], buffer: &mut [u8]) -> u64 {
    let mut state = State::empty();
    let (number, _) = image::load(bytes, &mut state);
    if number != 0 {
        return u64::from(number);
    }
    u64::from(image::write(&state, buffer))
}

/// A refusal's number and place as one.
fn refused((number, place): (u8, usize)) -> u64 {
    u64::from(number) + 256 * place as u64
}

pub fn import(list: &[u8], buffer: &mut [u8]) -> u64 {
    let mut state = State::empty();
    match linux::read(list, &mut state) {
        (0, _) => u64::from(image::write(&state, buffer)),
        refusal => refused(refusal),
    }
}

pub fn export(bytes: &[u8], list: &mut [u8]) -> u64 {
    let mut state = State::empty();
    match image::load(bytes, &mut state) {
        (0, _) => u64::from(linux::write(&state, list)),
        refusal => refused(refusal),
    }
}

/// The call that a record names; 255 where it names none.
pub fn step(state: &mut State, record: &[u8]) -> u8 {
    let number = u16::from_le_bytes([record[2], record[3]]);
    match record[0] {
        1 => state.release(number, u64::from_le_bytes(record[8..16].try_into().unwrap())),
        2 => state.signal(number),
        3 => state.withdraw(number),
        4 => state.acquire(number),
        5 => state.give(number),
        6 => state.complete(),
        7 => state.block(),
        _ => 255,
    }
}

pub fn play(bytes: &[u8], script: &[u8], out: &mut [u8]) -> u64 {
    let count = script.len() / 16;
    let mut state = State::empty();
    if script.len() % 16 != 0 || image::load(bytes, &mut state).0 != 0 || out.len() < 32 * count {
        return 0;
    }
    for (record, part) in script.chunks_exact(16).zip(out.chunks_exact_mut(32)) {
        let answer = step(&mut state, record);
        part.fill(0);
        part[0] = answer;
        part[2..4].copy_from_slice(&state.running().to_le_bytes());
        let (known, (queue, deadline, position)) = state.standing(u16::from_le_bytes([record[4], record[5]]));
        part[4] = known;
        part[5] = queue;
        part[6] = position as u8;
        part[8..16].copy_from_slice(&deadline.to_le_bytes());
    }
    count as u64
}
