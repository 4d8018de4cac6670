//! Dispatch: 01, "Dispatch". The model keeps nothing but the table and the history of accepted calls.

use crate::image::Table;

/// An accepted call, with what it did. Tasks and semaphores by position.
#[derive(Clone, Debug, PartialEq, Eq)]
enum Event {
    Released { task: usize, time: u64 },
    Signalled { task: usize },
    Withdrawn { task: usize },
    Took { task: usize, sem: usize },
    Waited { task: usize, sem: usize },
    Gave { task: usize, sem: usize, heir: Option<usize> },
    Completed { task: usize },
    Blocked { task: usize },
}

#[derive(Clone, Copy, Debug, PartialEq, Eq)]
pub enum Doing {
    Idle,
    Ready,
    Event,
    Waits(usize),
}

/// Queue, deadline (0 in FP), position: the smaller the better.
pub type Standing = (u8, u64, usize);

#[derive(Clone, Debug)]
pub struct Model {
    pub table: Table,
    history: Vec<Event>,
}

/// A call as the boundary numbers them.
#[derive(Clone, Copy, Debug, PartialEq, Eq)]
pub enum Call {
    Release { task: u16, time: u64 },
    Signal { task: u16 },
    Withdraw { task: u16 },
    Acquire { sem: u16 },
    Give { sem: u16 },
    Complete,
    Block,
}

impl Model {
    pub fn new(table: Table) -> Self {
        Model { table, history: Vec::new() }
    }

    /// What a task is doing: the newest event that concerns it says so.
    pub fn doing(&self, i: usize) -> Doing {
        for event in self.history.iter().rev() {
            match *event {
                Event::Released { task, .. } | Event::Signalled { task } | Event::Withdrawn { task } if task == i => return Doing::Ready,
                Event::Took { task, .. } if task == i => return Doing::Ready,
                Event::Waited { task, sem } if task == i => return Doing::Waits(sem),
                Event::Gave { task, .. } if task == i => return Doing::Ready,
                Event::Gave { heir, .. } if heir == Some(i) => return Doing::Ready,
                Event::Completed { task } if task == i => return Doing::Idle,
                Event::Blocked { task } if task == i => return Doing::Event,
                _ => {}
            }
        }
        Doing::Idle
    }

    /// Who holds a semaphore: the newest event that moved it says so.
    pub fn holder(&self, k: usize) -> Option<usize> {
        for event in self.history.iter().rev() {
            match *event {
                Event::Took { task, sem } if sem == k => return Some(task),
                Event::Gave { sem, heir, .. } if sem == k => return heir,
                _ => {}
            }
        }
        None
    }

    /// The deadline of a task's newest job, 0 before its first. That of an FP task is in no standing.
    pub fn deadline(&self, i: usize) -> u64 {
        let released = self.history.iter().rev().find_map(|event| match *event {
            Event::Released { task, time } if task == i => Some(time),
            _ => None,
        });
        released.map_or(0, |time| time + self.table.tasks[i].span())
    }

    fn last_release(&self) -> Option<u64> {
        self.history.iter().rev().find_map(|event| match *event {
            Event::Released { time, .. } => Some(time),
            _ => None,
        })
    }

    fn own(&self, i: usize) -> Standing {
        let queue = self.table.tasks[i].queue;
        (queue, if queue == 3 { 0 } else { self.deadline(i) }, i)
    }

    /// Whether each task waits, directly or through others, on each: the closure of the direct waits, by Warshall's rule.
    fn waits_on(&self) -> Vec<Vec<bool>> {
        let n = self.table.tasks.len();
        let mut on = vec![vec![false; n]; n];
        for (i, row) in on.iter_mut().enumerate() {
            if let Doing::Waits(sem) = self.doing(i) {
                if let Some(holder) = self.holder(sem) {
                    row[holder] = true;
                }
            }
        }
        for via in 0..n {
            for from in 0..n {
                if on[from][via] {
                    for to in 0..n {
                        on[from][to] |= on[via][to];
                    }
                }
            }
        }
        on
    }

    /// The length of the longest chain of waits: on how many tasks some task waits, directly or through others.
    pub fn longest_chain(&self) -> usize {
        self.waits_on().iter().map(|row| row.iter().filter(|on| **on).count()).max().unwrap_or(0)
    }

    /// The standing of every task.
    pub fn standings(&self) -> Vec<Standing> {
        let on = self.waits_on();
        let n = self.table.tasks.len();
        let own: Vec<Standing> = (0..n).map(|i| self.own(i)).collect();
        (0..n).map(|i| (0..n).filter(|j| *j == i || on[*j][i]).map(|j| own[j]).min().unwrap()).collect()
    }

    /// The position of the task that runs.
    pub fn runner(&self) -> Option<usize> {
        let standings = self.standings();
        (0..standings.len()).filter(|i| self.doing(*i) == Doing::Ready).min_by_key(|i| standings[*i])
    }

    /// The number of the task that runs, or 0.
    pub fn running(&self) -> u16 {
        self.runner().map_or(0, |i| self.table.tasks[i].number)
    }

    /// The answer to a question after a standing: the number, and the standing or zeros.
    pub fn standing(&self, number: u16) -> (u8, Standing) {
        match self.task(number) {
            Some(i) => (0, self.standings()[i]),
            None => (20, (0, 0, 0)),
        }
    }

    fn task(&self, number: u16) -> Option<usize> {
        self.table.tasks.iter().position(|t| t.number == number)
    }

    fn sem(&self, number: u16) -> Option<usize> {
        self.table.sems.iter().position(|s| *s == number)
    }

    pub fn call(&mut self, call: Call) -> u8 {
        match self.answer(call) {
            Ok((number, event)) => {
                self.history.push(event);
                number
            }
            Err(number) => number,
        }
    }

    fn answer(&self, call: Call) -> Result<(u8, Event), u8> {
        match call {
            Call::Release { task, time } => {
                let task = self.task(task).ok_or(20)?;
                if self.doing(task) != Doing::Idle {
                    return Err(23);
                }
                if time > 1_000_000_000_000_000 || self.last_release().is_some_and(|last| time < last) {
                    return Err(22);
                }
                Ok((0, Event::Released { task, time }))
            }
            Call::Signal { task } => {
                let task = self.task(task).ok_or(20)?;
                if self.doing(task) != Doing::Event {
                    return Err(24);
                }
                Ok((0, Event::Signalled { task }))
            }
            Call::Withdraw { task } => {
                let task = self.task(task).ok_or(20)?;
                if !matches!(self.doing(task), Doing::Waits(_)) {
                    return Err(25);
                }
                Ok((0, Event::Withdrawn { task }))
            }
            Call::Acquire { sem } => {
                let task = self.runner().ok_or(26)?;
                let sem = self.sem(sem).ok_or(21)?;
                match self.holder(sem) {
                    None => Ok((0, Event::Took { task, sem })),
                    Some(holder) if holder == task || self.waits_on()[holder][task] => Err(28),
                    Some(_) => Ok((90, Event::Waited { task, sem })),
                }
            }
            Call::Give { sem } => {
                let task = self.runner().ok_or(26)?;
                let sem = self.sem(sem).ok_or(21)?;
                if self.holder(sem) != Some(task) {
                    return Err(29);
                }
                let standings = self.standings();
                let waiters = (0..standings.len()).filter(|i| self.doing(*i) == Doing::Waits(sem));
                let heir = waiters.min_by_key(|i| standings[*i]);
                Ok((0, Event::Gave { task, sem, heir }))
            }
            Call::Complete => {
                let task = self.runner().ok_or(26)?;
                if (0..self.table.sems.len()).any(|k| self.holder(k) == Some(task)) {
                    return Err(27);
                }
                Ok((0, Event::Completed { task }))
            }
            Call::Block => {
                let task = self.runner().ok_or(26)?;
                Ok((0, Event::Blocked { task }))
            }
        }
    }
}
