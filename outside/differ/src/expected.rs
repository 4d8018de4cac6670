//! What the model says that the boundary's five functions answer, and what it leaves in the lent buffers.

use model::dispatch::{Call, Model};
use model::image::{read, write, Refusal};
use model::judge::{charges, judge};
use model::linux;

pub fn judged(image: &[u8], out: &mut [u8]) -> u64 {
    if out.len() < 1032 {
        return 0;
    }
    out[..1032].fill(0);
    let table = match read(image) {
        Ok(table) => table,
        Err(refusal) => {
            out[0] = refusal.number;
            out[2..4].copy_from_slice(&(refusal.place as u16).to_le_bytes());
            return 8;
        }
    };
    let (number, task) = judge(&table);
    out[1] = number;
    out[4..6].copy_from_slice(&task.to_le_bytes());
    out[6..8].copy_from_slice(&(table.tasks.len() as u16).to_le_bytes());
    for (i, (task, charge)) in table.tasks.iter().zip(charges(&table)).enumerate() {
        let at = 8 + 16 * i;
        out[at..at + 2].copy_from_slice(&task.number.to_le_bytes());
        out[at + 2] = task.queue;
        out[at + 8..at + 16].copy_from_slice(&charge.to_le_bytes());
    }
    8 + 16 * table.tasks.len() as u64
}

pub fn rewritten(image: &[u8], buffer: &mut [u8]) -> u64 {
    read(image).map_or_else(|refusal| refusal.number, |table| write(&table, buffer)).into()
}

/// A refusal as the boundary for lists hands it back: its number, and 256 times its place.
fn refused(refusal: Refusal) -> u64 {
    u64::from(refusal.number) + 256 * refusal.place as u64
}

pub fn imported(list: &[u8], buffer: &mut [u8]) -> u64 {
    linux::read(list).map_or_else(refused, |table| write(&table, buffer).into())
}

pub fn exported(image: &[u8], list: &mut [u8]) -> u64 {
    read(image).map_or_else(refused, |table| linux::write(&table, list).into())
}

/// The call that a script record names, if it names one.
pub fn call_of(record: &[u8]) -> Option<Call> {
    let number = u16::from_le_bytes([record[2], record[3]]);
    let time = u64::from_le_bytes(record[8..16].try_into().unwrap());
    match record[0] {
        1 => Some(Call::Release { task: number, time }),
        2 => Some(Call::Signal { task: number }),
        3 => Some(Call::Withdraw { task: number }),
        4 => Some(Call::Acquire { sem: number }),
        5 => Some(Call::Give { sem: number }),
        6 => Some(Call::Complete),
        7 => Some(Call::Block),
        _ => None,
    }
}

/// One record of a play: the answer, the running task and the standing that was asked for.
pub fn step(model: &mut Model, record: &[u8]) -> [u8; 32] {
    let mut part = [0; 32];
    part[0] = call_of(record).map_or(255, |call| model.call(call));
    part[2..4].copy_from_slice(&model.running().to_le_bytes());
    let (known, (queue, deadline, position)) = model.standing(u16::from_le_bytes([record[4], record[5]]));
    part[4] = known;
    part[5] = queue;
    part[6] = position as u8;
    part[8..16].copy_from_slice(&deadline.to_le_bytes());
    part
}
