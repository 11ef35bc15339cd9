//! What a worker can be given to do, and the three words in which a call is told it.
//! An argument that an operation does not have cannot be written down here, so refusal 10 does not occur.

use crate::words;
use crate::Level;

/// An operation on the cells of a ping. Cells are numbered from 0.
#[derive(Clone, Copy, Debug, PartialEq, Eq, Hash)]
pub enum Operation {
    /// Mark a cell with a level: yes if it was unmarked. The level of a marked cell is never altered.
    Insert {
        /// The cell.
        cell: u64,
        /// Its level.
        level: Level,
    },
    /// Clear a cell: yes if it was marked.
    Delete {
        /// The cell.
        cell: u64,
    },
    /// The level of a cell, or none.
    Find {
        /// The cell.
        cell: u64,
    },
    /// The nth smallest marked cell, or none.
    Select {
        /// Which one, counted from 1.
        nth: u64,
    },
    /// Count and energy of the marked cells up to a cell, itself included.
    Rank {
        /// The cell.
        cell: u64,
    },
    /// Count and energy of all marked cells.
    Total,
}

impl Operation {
    /// The kind and the two arguments, as [`words::start`] takes them.
    pub const fn words(self) -> [u64; 3] {
        match self {
            Operation::Insert { cell, level } => [words::INSERT, cell, level.0],
            Operation::Delete { cell } => [words::DELETE, cell, 0],
            Operation::Find { cell } => [words::FIND, cell, 0],
            Operation::Select { nth } => [words::SELECT, nth, 0],
            Operation::Rank { cell } => [words::RANK, cell, 0],
            Operation::Total => [words::TOTAL, 0, 0],
        }
    }
}
