//! The executive as a good engineer would write it without proofs: the state behind `&mut`, the natural algorithms, nothing clever and nothing
//! wasted. It is what the proved code's instruction counts are held against, and it is held against the model itself.

pub mod boundary;
pub mod charges;
pub mod dispatch;
pub mod image;
pub mod judging;
pub mod linux;

#[derive(Clone, Copy, PartialEq, Eq, Debug)]
pub enum Status {
    Idle,
    Ready,
    Event,
    Waits(u8),
}

#[derive(Clone, Copy, Debug)]
pub struct Task {
    pub deadline: u64,
    pub period: u32,
    pub cost: u32,
    /// From a release to its deadline: what the record has, which is below the period, or the period where it has 0.
    pub span: u32,
    pub number: u16,
    pub queue: u8,
    pub status: Status,
}

#[derive(Clone, Copy, Debug)]
pub struct Sem {
    pub number: u16,
    pub holder: Option<u8>,
}

/// The figures in the order of the board record.
pub type Board = [u16; 9];

pub const BUILT_IN: Board = [160, 120, 120, 25, 100, 36, 140, 60, 55];

#[derive(Clone, Debug)]
pub struct State {
    pub tasks: [Task; 64],
    pub sems: [Sem; 16],
    pub n: usize,
    pub m: usize,
    pub last: u64,
    pub board: Board,
    pub present: bool,
}

impl State {
    pub fn empty() -> Self {
        State {
            tasks: [Task { deadline: 0, period: 0, cost: 0, span: 0, number: 0, queue: 0, status: Status::Idle }; 64],
            sems: [Sem { number: 0, holder: None }; 16],
            n: 0,
            m: 0,
            last: 0,
            board: [0; 9],
            present: false,
        }
    }

    pub fn tasks(&self) -> &[Task] {
        &self.tasks[..self.n]
    }

    pub fn sems(&self) -> &[Sem] {
        &self.sems[..self.m]
    }
}
