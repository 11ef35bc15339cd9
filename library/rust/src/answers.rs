//! What a step gives back: that the operation goes on, or its answer.
//! Each is read out of the three words that a step writes.

use crate::words::{self, ANSWER_WORDS};
use crate::{Energy, Level, Refusal};
use std::fmt;

/// What one step has come to.
#[derive(Clone, Copy, Debug, PartialEq, Eq, Hash)]
pub enum Progress {
    /// The operation goes on: step again.
    On,
    /// The operation is done, and its worker is idle.
    Done(Answer),
}

/// The answer of an operation.
///
/// ```
/// # use kitesonnet::{Answer, Energy};
/// let answer = Answer::Sums { count: 2, energy: Energy(29_952_623) };
/// assert_eq!(answer.to_string(), "2 cells, energy 29952623");
/// ```
#[derive(Clone, Copy, Debug, PartialEq, Eq, Hash)]
pub enum Answer {
    /// The cell has been marked, or cleared.
    Yes,
    /// The cell was already marked, or already clear.
    No,
    /// The cell of a Find is unmarked, or fewer cells are marked than a Select asks for.
    None,
    /// The level of the cell of a Find.
    Level(Level),
    /// The cell of a Select.
    Cell(u64),
    /// The marked cells of a Rank or of a Total.
    Sums {
        /// How many they are.
        count: u64,
        /// The sum of their energies.
        energy: Energy,
    },
}

impl Progress {
    /// Reads the three words that an accepted step has written. A kind that a step never answers is
    /// [`Refusal::ForeignAnswer`].
    ///
    /// ```
    /// # use kitesonnet::{words, Answer, Progress, Refusal};
    /// assert_eq!(Progress::from_words([words::CELL, 3, 0]), Ok(Progress::Done(Answer::Cell(3))));
    /// assert_eq!(Progress::from_words([words::ENERGY, 1000, 0]), Err(Refusal::ForeignAnswer(7)));
    /// ```
    pub fn from_words(answer: [u64; ANSWER_WORDS]) -> Result<Progress, Refusal> {
        let [kind, first, second] = answer;
        let done = match kind {
            words::ON => return Ok(Progress::On),
            words::YES => Answer::Yes,
            words::NO => Answer::No,
            words::NONE => Answer::None,
            words::LEVEL => Answer::Level(Level(first)),
            words::CELL => Answer::Cell(first),
            words::SUMS => Answer::Sums { count: first, energy: Energy(second) },
            kind => return Err(Refusal::ForeignAnswer(kind)),
        };
        Ok(Progress::Done(done))
    }
}

impl fmt::Display for Answer {
    fn fmt(&self, out: &mut fmt::Formatter) -> fmt::Result {
        match self {
            Answer::Yes => out.write_str("yes"),
            Answer::No => out.write_str("no"),
            Answer::None => out.write_str("none"),
            Answer::Level(level) => write!(out, "level {level}"),
            Answer::Cell(cell) => write!(out, "cell {cell}"),
            Answer::Sums { count: 1, energy } => write!(out, "1 cell, energy {energy}"),
            Answer::Sums { count, energy } => write!(out, "{count} cells, energy {energy}"),
        }
    }
}
