//! The school estimator of capelin boats, proved correct, for a boat's own program.
//! This package puts Rust's types around libkitesonnet and adds no rule of its own.
//!
//! A ping is cut into cells. Up to sixteen workers mark and clear cells in one shared tree and ask it, one small step at a time, on
//! one processor that may turn from any worker to any other between two steps. Whatever the order of the steps, all answers are
//! those of a book kept one operation at a time.
//!
//! The program lends three rows of words and owns them. Nothing is allocated, and nothing else is kept anywhere.
//!
//! ```
//! use kitesonnet::{board_words, node_words, version_words, versions_for};
//! use kitesonnet::{Answer, Energy, Estimator, Level, Operation, Progress, Refusal};
//!
//! # fn main() -> Result<(), Refusal> {
//! let (cells, workers) = (8, 2);
//! let mut nodes = vec![0; node_words(cells)];
//! let mut versions = vec![0; version_words(versions_for(cells, 100))]; // room for a hundred updates
//! let mut board = vec![0; board_words(workers)];
//! let mut ping = Estimator::open(cells, workers, &mut nodes, &mut versions, &mut board)?;
//!
//! // Worker 0 is in the midst of marking cell 2 ...
//! ping.start(0, Operation::Insert { cell: 2, level: Level(40) })?;
//! assert_eq!(ping.step(0)?, Progress::On);
//!
//! // ... while worker 1 marks cell 5 from start to end, and the mate asks how much there is down to cell 5.
//! assert_eq!(ping.run(1, Operation::Insert { cell: 5, level: Level(43) })?, Answer::Yes);
//! assert_eq!(ping.run(1, Operation::Rank { cell: 5 })?, Answer::Sums { count: 1, energy: Energy(19_952_623) });
//! # Ok(())
//! # }
//! ```

#![deny(missing_docs, unsafe_code, unsafe_op_in_unsafe_fn)]

mod answers;
mod operations;
mod quantities;
mod refusals;
#[allow(unsafe_code)]
pub mod words;

pub use answers::{Answer, Progress};
pub use operations::Operation;
pub use quantities::{energy, Energy, Level};
pub use refusals::Refusal;
pub use words::{board_words, node_words, version_words};

/// The versions that a tree of so many cells needs, so that none of so many starts of Insert and Delete is refused with
/// [`Refusal::Full`].
///
/// A tree opens with 2 * `cells` - 1 versions, and an update makes at most 1 + h, where h is the height of the tree, which has 2
/// to the power h cells. Versions are not used again, so the version table is what runs out. The library uses at most
/// [`words::MOST_VERSIONS`] of them.
///
/// ```
/// # use kitesonnet::versions_for;
/// assert_eq!(versions_for(8, 0), 15);
/// assert_eq!(versions_for(8, 100), 415);
/// ```
pub const fn versions_for(cells: u64, updates: u64) -> u64 {
    let height = cells.trailing_zeros() as u64;
    let opened = cells.saturating_mul(2).saturating_sub(1);
    updates.saturating_mul(1 + height).saturating_add(opened)
}

/// A tree of cells in rows of words that the program lends.
///
/// While it is in use nothing else can reach the rows. When it is dropped they belong to the program again, as they are, and may be
/// opened again.
#[derive(Debug)]
pub struct Estimator<'a> {
    cells: u64,
    workers: u64,
    nodes: &'a mut [u64],
    versions: &'a mut [u64],
    board: &'a mut [u64],
}

impl<'a> Estimator<'a> {
    /// Opens a tree of unmarked cells with all workers idle. What the rows hold before does not matter.
    ///
    /// The rows must be at least [`node_words`], [`version_words`] and [`board_words`] long.
    ///
    /// ```
    /// # use kitesonnet::{Estimator, Refusal};
    /// let (mut nodes, mut versions, mut board) = ([0; 16], [0; 500], [0; 24]);
    /// assert!(Estimator::open(8, 2, &mut nodes, &mut versions, &mut board).is_ok());
    /// let refused = Estimator::open(8, 3, &mut nodes, &mut versions, &mut board);
    /// assert_eq!(refused.unwrap_err(), Refusal::Workers); // the board has room for two
    /// ```
    pub fn open(
        cells: u64,
        workers: u64,
        nodes: &'a mut [u64],
        versions: &'a mut [u64],
        board: &'a mut [u64],
    ) -> Result<Estimator<'a>, Refusal> {
        Refusal::of_call(words::open(cells, workers, nodes, versions, board))?;
        Ok(Estimator { cells, workers, nodes, versions, board })
    }

    /// Gives an idle worker an operation. This only records it; the steps do it.
    ///
    /// ```
    /// # use kitesonnet::{Estimator, Level, Operation, Refusal};
    /// # fn main() -> Result<(), Refusal> {
    /// # let (mut nodes, mut versions, mut board) = ([0; 16], [0; 500], [0; 24]);
    /// # let mut ping = Estimator::open(8, 2, &mut nodes, &mut versions, &mut board)?;
    /// ping.start(0, Operation::Total)?;
    /// assert_eq!(ping.start(0, Operation::Total), Err(Refusal::Busy));
    /// assert_eq!(ping.start(1, Operation::Find { cell: 8 }), Err(Refusal::Argument)); // the cells are 0 to 7
    /// # Ok(())
    /// # }
    /// ```
    pub fn start(&mut self, worker: u64, operation: Operation) -> Result<(), Refusal> {
        Refusal::of_call(words::start(self.cells, self.workers, worker, operation.words(), self.nodes, self.versions, self.board))
    }

    /// Takes a worker's operation one step further.
    ///
    /// With h, the height of the tree, which has 2 to the power h cells, an update is done within 2 + 8h steps of its own worker
    /// and a query within 1 + h, whatever other workers do.
    ///
    /// ```
    /// # use kitesonnet::{Answer, Energy, Estimator, Operation, Progress, Refusal};
    /// # fn main() -> Result<(), Refusal> {
    /// # let (mut nodes, mut versions, mut board) = ([0; 16], [0; 500], [0; 24]);
    /// # let mut ping = Estimator::open(8, 2, &mut nodes, &mut versions, &mut board)?;
    /// ping.start(0, Operation::Total)?;
    /// assert_eq!(ping.step(0)?, Progress::Done(Answer::Sums { count: 0, energy: Energy(0) }));
    /// assert_eq!(ping.step(0), Err(Refusal::Idle));
    /// # Ok(())
    /// # }
    /// ```
    pub fn step(&mut self, worker: u64) -> Result<Progress, Refusal> {
        let mut answer = [0; words::ANSWER_WORDS];
        let number = words::step(self.cells, self.workers, worker, self.nodes, self.versions, self.board, &mut answer);
        Refusal::of_call(number)?;
        Progress::from_words(answer)
    }

    /// Starts an operation and steps its worker to the answer, while all others stand still.
    ///
    /// ```
    /// # use kitesonnet::{Answer, Estimator, Level, Operation, Refusal};
    /// # fn main() -> Result<(), Refusal> {
    /// # let (mut nodes, mut versions, mut board) = ([0; 16], [0; 500], [0; 24]);
    /// # let mut ping = Estimator::open(8, 2, &mut nodes, &mut versions, &mut board)?;
    /// assert_eq!(ping.run(0, Operation::Insert { cell: 3, level: Level(30) })?, Answer::Yes);
    /// assert_eq!(ping.run(0, Operation::Find { cell: 3 })?.to_string(), "level 30");
    /// # Ok(())
    /// # }
    /// ```
    pub fn run(&mut self, worker: u64, operation: Operation) -> Result<Answer, Refusal> {
        self.start(worker, operation)?;
        loop {
            if let Progress::Done(answer) = self.step(worker)? {
                return Ok(answer);
            }
        }
    }

    /// How many cells the tree has, numbered from 0.
    pub fn cells(&self) -> u64 {
        self.cells
    }

    /// How many workers it was opened for, numbered from 0.
    pub fn workers(&self) -> u64 {
        self.workers
    }

    /// How many versions are used. When they come near to what the version table has room for, updates are refused with
    /// [`Refusal::Full`], which tells what to do then.
    pub fn versions_used(&self) -> u64 {
        self.nodes[0]
    }

    /// The node table: how many versions are used, then the current version of each node. docs/WORDS.md tells the words of all
    /// three rows.
    pub fn nodes(&self) -> &[u64] {
        self.nodes
    }

    /// The version table.
    pub fn versions(&self) -> &[u64] {
        self.versions
    }

    /// The board.
    pub fn board(&self) -> &[u64] {
        self.board
    }
}
