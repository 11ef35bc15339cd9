//! The refusals with their numbers, and what each means in plain words.
//! A refused call has changed nothing, so a program can put right what the sentence says and call again.

use crate::words;
use std::error::Error;
use std::fmt;

/// Why a call was refused.
///
/// ```
/// # use kitesonnet::Refusal;
/// assert_eq!(Refusal::Busy.to_string(), "refused with number 5: the worker has an operation under way");
/// ```
#[derive(Clone, Copy, Debug, PartialEq, Eq, Hash)]
pub enum Refusal {
    /// 1: the number of cells is not a power of two from 2 to 4,096.
    Cells,
    /// 2: the number of workers is not 1 to 16, or the board is too short for them.
    Workers,
    /// 3: the node table or the version table is too short for the cells.
    Tables,
    /// 4: there is no worker of this number.
    Worker,
    /// 5: the worker has an operation under way, and must be stepped to its answer first.
    Busy,
    /// 6: the worker has no operation under way, and must be started first.
    Idle,
    /// 7: a cell that the tree does not have, a level above 60, or Select of 0.
    Argument,
    /// 8: too few versions are left for another update, besides those promised to updates under way. Queries are still
    /// accepted. Step the updates under way to their answers first: what they were promised and have not made is given back.
    /// If that is not enough, open a tree with a longer version table and mark its cells again. A table of 1,000,000 versions
    /// cannot be made longer, so open that one again.
    Full,
    /// 9: the words that were lent are not a tree. It never occurs in an [`Estimator`](crate::Estimator), which nothing else
    /// can change while it is in use.
    Damaged,
    /// 10: there is no such operation. It never occurs for an [`Operation`](crate::Operation).
    Operation,
    /// 20: the row for the answer is too short. It never occurs in an [`Estimator`](crate::Estimator), which lends its own.
    AnswerRow,
    /// A call returned this number, and `kitesonnet.h` has no such refusal. The library is proved never to do that, so another
    /// archive was linked than the one of this package's version. It is an error like the others rather than a panic, since that
    /// is found best where a program already looks at refusals.
    Foreign(u64),
    /// An accepted call answered with this kind, and `kitesonnet.h` has no such kind for that call. It stands apart from
    /// [`Foreign`](Refusal::Foreign), for a kind is no number of a refusal; otherwise the same is true of it.
    ForeignAnswer(u64),
}

impl Refusal {
    /// The refusals that the library has, in the order of their numbers.
    pub const ALL: [Refusal; 11] = [
        Refusal::Cells,
        Refusal::Workers,
        Refusal::Tables,
        Refusal::Worker,
        Refusal::Busy,
        Refusal::Idle,
        Refusal::Argument,
        Refusal::Full,
        Refusal::Damaged,
        Refusal::Operation,
        Refusal::AnswerRow,
    ];

    /// The number that a call returns for it. [`ForeignAnswer`](Refusal::ForeignAnswer) has none, as its call was accepted.
    ///
    /// ```
    /// # use kitesonnet::Refusal;
    /// assert_eq!(Refusal::Full.number(), Some(8));
    /// assert_eq!(Refusal::ForeignAnswer(8).number(), None);
    /// ```
    pub const fn number(self) -> Option<u64> {
        Some(match self {
            Refusal::Cells => words::REFUSED_CELLS,
            Refusal::Workers => words::REFUSED_WORKERS,
            Refusal::Tables => words::REFUSED_TABLES,
            Refusal::Worker => words::REFUSED_WORKER,
            Refusal::Busy => words::REFUSED_BUSY,
            Refusal::Idle => words::REFUSED_IDLE,
            Refusal::Argument => words::REFUSED_ARGUMENT,
            Refusal::Full => words::REFUSED_FULL,
            Refusal::Damaged => words::REFUSED_DAMAGED,
            Refusal::Operation => words::REFUSED_OPERATION,
            Refusal::AnswerRow => words::REFUSED_ANSWER,
            Refusal::Foreign(number) => number,
            Refusal::ForeignAnswer(_) => return None,
        })
    }

    /// The refusal of this number, if the library has one.
    ///
    /// ```
    /// # use kitesonnet::Refusal;
    /// assert_eq!(Refusal::from_number(8), Some(Refusal::Full));
    /// assert_eq!(Refusal::from_number(0), None);
    /// ```
    pub fn from_number(number: u64) -> Option<Refusal> {
        Refusal::ALL.into_iter().find(|refusal| refusal.number() == Some(number))
    }

    /// What a call's number says: nothing to tell if it was accepted, and its refusal if not.
    ///
    /// ```
    /// # use kitesonnet::{words, Refusal};
    /// let mut answer = [0; words::ANSWER_WORDS];
    /// assert_eq!(Refusal::of_call(words::energy(60, &mut answer)), Ok(()));
    /// assert_eq!(Refusal::of_call(words::energy(61, &mut answer)), Err(Refusal::Argument));
    /// ```
    pub fn of_call(number: u64) -> Result<(), Refusal> {
        match number {
            words::OK => Ok(()),
            number => Err(Refusal::from_number(number).unwrap_or(Refusal::Foreign(number))),
        }
    }

    fn meaning(self) -> &'static str {
        match self {
            Refusal::Cells => "the number of cells is not a power of two from 2 to 4096",
            Refusal::Workers => "the number of workers is not 1 to 16, or the board is too short for them",
            Refusal::Tables => "the node table or the version table is too short for the cells",
            Refusal::Worker => "there is no worker of this number",
            Refusal::Busy => "the worker has an operation under way",
            Refusal::Idle => "the worker has no operation under way",
            Refusal::Argument => "there is no such cell, the level is above 60, or the Select is of 0",
            Refusal::Full => "too few versions are left for another update",
            Refusal::Damaged => "the words that were lent are not a tree",
            Refusal::Operation => "there is no such operation",
            Refusal::AnswerRow => "the row for the answer is too short",
            Refusal::Foreign(_) => "no such number is known, so the archive is not of this package's version",
            Refusal::ForeignAnswer(_) => "the answer is of no known kind, so the archive is not of this package's version",
        }
    }
}

impl fmt::Display for Refusal {
    fn fmt(&self, out: &mut fmt::Formatter) -> fmt::Result {
        match self.number() {
            Some(number) => write!(out, "refused with number {number}: {}", self.meaning()),
            None => out.write_str(self.meaning()),
        }
    }
}

impl Error for Refusal {}
