//! Standing and the calls. A standing is worked out afresh from who waits for whom.

use crate::{State, Status, Task};

const TIME_MOST: u64 = 1_000_000_000_000_000;

/// Queue, deadline (0 in FP), position: the smaller the better.
pub type Standing = (u8, u64, usize);

fn own(task: &Task, position: usize) -> Standing {
    (task.queue, if task.queue == 3 { 0 } else { task.deadline }, position)
}

impl State {
    fn find_task(&self, number: u16) -> Option<usize> {
        self.tasks().iter().position(|t| t.number == number)
    }

    fn find_sem(&self, number: u16) -> Option<usize> {
        self.sems().iter().position(|s| s.number == number)
    }

    /// Whom a task waits on.
    fn waits_on(&self, i: usize) -> Option<usize> {
        match self.tasks[i].status {
            Status::Waits(k) => self.sems[usize::from(k)].holder.map(usize::from),
            _ => None,
        }
    }

    /// The end of a task's chain of waits.
    fn end(&self, mut i: usize) -> usize {
        while let Some(next) = self.waits_on(i) {
            i = next;
        }
        i
    }

    /// Whether a task is, or waits on through others, the other.
    fn reaches(&self, mut i: usize, other: usize) -> bool {
        loop {
            if i == other {
                return true;
            }
            match self.waits_on(i) {
                Some(next) => i = next,
                None => return false,
            }
        }
    }

    /// The position of the task that runs: the ready end of the chain of best own standing.
    fn runner(&self) -> Option<usize> {
        let mut best: Option<(Standing, usize)> = None;
        for (i, task) in self.tasks().iter().enumerate() {
            let end = self.end(i);
            let standing = own(task, i);
            if self.tasks[end].status == Status::Ready && best.is_none_or(|(b, _)| standing < b) {
                best = Some((standing, end));
            }
        }
        best.map(|(_, end)| end)
    }

    pub fn running(&self) -> u16 {
        self.runner().map_or(0, |i| self.tasks[i].number)
    }

    fn standing_at(&self, i: usize) -> Standing {
        let mut best = own(&self.tasks[i], i);
        for (j, task) in self.tasks().iter().enumerate() {
            if self.reaches(j, i) {
                best = best.min(own(task, j));
            }
        }
        best
    }

    pub fn standing(&self, number: u16) -> (u8, Standing) {
        match self.find_task(number) {
            Some(i) => (0, self.standing_at(i)),
            None => (20, (0, 0, 0)),
        }
    }

    pub fn release(&mut self, number: u16, time: u64) -> u8 {
        let Some(i) = self.find_task(number) else { return 20 };
        let task = &mut self.tasks[i];
        if task.status != Status::Idle {
            return 23;
        }
        if time < self.last || time > TIME_MOST {
            return 22;
        }
        task.status = Status::Ready;
        task.deadline = time + u64::from(task.span);
        self.last = time;
        0
    }

    pub fn signal(&mut self, number: u16) -> u8 {
        let Some(i) = self.find_task(number) else { return 20 };
        if self.tasks[i].status != Status::Event {
            return 24;
        }
        self.tasks[i].status = Status::Ready;
        0
    }

    pub fn withdraw(&mut self, number: u16) -> u8 {
        let Some(i) = self.find_task(number) else { return 20 };
        if !matches!(self.tasks[i].status, Status::Waits(_)) {
            return 25;
        }
        self.tasks[i].status = Status::Ready;
        0
    }

    pub fn acquire(&mut self, number: u16) -> u8 {
        let Some(i) = self.runner() else { return 26 };
        let Some(k) = self.find_sem(number) else { return 21 };
        let Some(holder) = self.sems[k].holder else {
            self.sems[k].holder = Some(i as u8);
            return 0;
        };
        if self.end(usize::from(holder)) == i {
            return 28;
        }
        self.tasks[i].status = Status::Waits(k as u8);
        90
    }

    /// The task on a chain of waits that waits for the semaphore itself.
    fn waiter_on_chain(&self, mut i: usize, k: usize) -> Option<usize> {
        loop {
            if self.tasks[i].status == Status::Waits(k as u8) {
                return Some(i);
            }
            i = self.waits_on(i)?;
        }
    }

    /// The waiter of best standing: the one on the chain of best own standing.
    fn heir(&self, k: usize) -> Option<usize> {
        let mut best: Option<(Standing, usize)> = None;
        for (i, task) in self.tasks().iter().enumerate() {
            let standing = own(task, i);
            if let Some(waiter) = self.waiter_on_chain(i, k) {
                if best.is_none_or(|(b, _)| standing < b) {
                    best = Some((standing, waiter));
                }
            }
        }
        best.map(|(_, heir)| heir)
    }

    pub fn give(&mut self, number: u16) -> u8 {
        let Some(i) = self.runner() else { return 26 };
        let Some(k) = self.find_sem(number) else { return 21 };
        if self.sems[k].holder != Some(i as u8) {
            return 29;
        }
        let heir = self.heir(k);
        if let Some(heir) = heir {
            self.tasks[heir].status = Status::Ready;
        }
        self.sems[k].holder = heir.map(|h| h as u8);
        0
    }

    pub fn complete(&mut self) -> u8 {
        let Some(i) = self.runner() else { return 26 };
        if self.sems().iter().any(|s| s.holder == Some(i as u8)) {
            return 27;
        }
        self.tasks[i].status = Status::Idle;
        0
    }

    pub fn block(&mut self) -> u8 {
        let Some(i) = self.runner() else { return 26 };
        self.tasks[i].status = Status::Event;
        0
    }
}
