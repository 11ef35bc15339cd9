//! The rows that are lent to a call, and a call with its numbers, ready to be put to either implementation.
//! Each row is a boxed slice of its exact length, so that a memory checker can watch both its ends.

use super::calls::{judged_energy, judged_open, judged_start, judged_step};
use super::record::{self, Record, RECORD_WORDS};
use super::refusal::Refusal;
use super::Calls;

#[derive(Clone, Copy, Debug, PartialEq, Eq)]
pub enum Row {
    Nodes,
    Versions,
    Board,
}

impl Row {
    pub const ALL: [Row; 3] = [Row::Nodes, Row::Versions, Row::Board];
}

/// One word of one row.
#[derive(Clone, Copy, Debug, PartialEq, Eq)]
pub struct Spot {
    pub row: Row,
    pub index: usize,
}

impl Spot {
    pub const USED: Spot = Spot { row: Row::Nodes, index: 0 };

    pub fn of_record(worker: u64, word: u64) -> Spot {
        Spot { row: Row::Board, index: RECORD_WORDS * worker as usize + word as usize }
    }
}

#[derive(Clone, Debug, PartialEq, Eq)]
pub struct Rows {
    pub nodes: Box<[u64]>,
    pub versions: Box<[u64]>,
    pub board: Box<[u64]>,
}

impl Rows {
    /// Rows of 0 words that are just long enough.
    pub fn for_tree(cells: u64, workers: u64, version_words: usize) -> Rows {
        Rows {
            nodes: vec![0; 2 * cells as usize].into(),
            versions: vec![0; version_words].into(),
            board: vec![0; RECORD_WORDS * workers as usize].into(),
        }
    }

    pub fn row(&self, row: Row) -> &[u64] {
        match row {
            Row::Nodes => &self.nodes,
            Row::Versions => &self.versions,
            Row::Board => &self.board,
        }
    }

    pub fn row_mut(&mut self, row: Row) -> &mut Box<[u64]> {
        match row {
            Row::Nodes => &mut self.nodes,
            Row::Versions => &mut self.versions,
            Row::Board => &mut self.board,
        }
    }

    pub fn used(&self) -> u64 {
        self.word(Spot::USED)
    }

    /// The word at a spot, or 0 beyond the row's end.
    pub fn word(&self, spot: Spot) -> u64 {
        self.row(spot.row).get(spot.index).copied().unwrap_or(0)
    }

    /// Sets a word; beyond the row's end there is none to set.
    pub fn set(&mut self, spot: Spot, value: u64) {
        if let Some(word) = self.row_mut(spot.row).get_mut(spot.index) {
            *word = value;
        }
    }

    pub fn record(&self, worker: u64) -> Option<Record> {
        let words = self.board.chunks_exact(RECORD_WORDS).nth(worker as usize)?;
        record::read(words)
    }
}

#[derive(Clone, Copy, Debug, PartialEq, Eq, PartialOrd, Ord)]
pub enum Call {
    Open,
    Start,
    Step,
    Energy,
}

impl Call {
    pub const ALL: [Call; 4] = [Call::Open, Call::Start, Call::Step, Call::Energy];
}

/// A call with its numbers; each kind of call uses those that it has.
#[derive(Clone, Debug)]
pub struct Ask {
    pub call: Call,
    pub cells: u64,
    pub workers: u64,
    pub worker: u64,
    pub operation: [u64; 3],
    pub level: u64,
}

impl Ask {
    /// The number that an implementation returns.
    pub fn put_to(&self, calls: &dyn Calls, rows: &mut Rows, answer: &mut [u64]) -> u64 {
        let (cells, workers, worker) = (self.cells, self.workers, self.worker);
        let Rows { nodes, versions, board } = rows;
        match self.call {
            Call::Open => calls.open(cells, workers, nodes, versions, board),
            Call::Start => calls.start(cells, workers, worker, self.operation, nodes, versions, board),
            Call::Step => calls.step(cells, workers, worker, nodes, versions, board, answer),
            Call::Energy => calls.energy(self.level, answer),
        }
    }

    /// The same call on the estimator written here, which also tells the clause.
    pub fn judged(&self, rows: &mut Rows, answer: &mut [u64]) -> Result<(), Refusal> {
        let numbers = [self.cells, self.workers, self.worker];
        let Rows { nodes, versions, board } = rows;
        match self.call {
            Call::Open => judged_open(self.cells, self.workers, nodes, versions, board),
            Call::Start => judged_start(numbers, self.operation, nodes, versions, board),
            Call::Step => judged_step(numbers, nodes, versions, board, answer),
            Call::Energy => judged_energy(self.level, answer),
        }
    }
}
