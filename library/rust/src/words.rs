//! The four calls of libkitesonnet on rows of 64-bit words, with the names that `kitesonnet.h` has for its numbers.
//! All `unsafe` of the package stands here: what is lent are slices, and slices are all that the library asks for.
//!
//! Most programs want [`Estimator`](crate::Estimator) instead. These calls are for programs that keep the rows in a place of
//! their own, such as a file or a shared memory. Any words may be lent, a call never has to be guarded: it does what it should
//! and returns [`OK`], or it returns the number of a refusal and has changed no word.

/// The least number of cells.
pub const LEAST_CELLS: u64 = 2;
/// The most cells; their number is a power of two.
pub const MOST_CELLS: u64 = 4096;
/// The most workers.
pub const MOST_WORKERS: u64 = 16;
/// The highest level, in whole decibels over the floor.
pub const MOST_LEVEL: u64 = 60;
/// The most versions; what a longer version table holds beyond is not used.
pub const MOST_VERSIONS: u64 = 1_000_000;

/// The words of one worker's record on the board.
pub const RECORD_WORDS: usize = 12;
/// The words of an answer: its kind and two values.
pub const ANSWER_WORDS: usize = 3;

/// The words that the node table of a tree of so many cells needs.
pub const fn node_words(cells: u64) -> usize {
    words_for(cells, 2)
}

/// The words that a table for so many versions needs.
pub const fn version_words(versions: u64) -> usize {
    words_for(versions, 5)
}

/// The words that a board for so many workers needs.
pub const fn board_words(workers: u64) -> usize {
    words_for(workers, RECORD_WORDS)
}

/// A number of things that no tree has may be past all counting; it is then told as the longest row that can be named.
const fn words_for(things: u64, each: usize) -> usize {
    let words = things.saturating_mul(each as u64);
    if words < usize::MAX as u64 {
        words as usize
    } else {
        usize::MAX
    }
}

/// Mark a cell: the cell, its level.
pub const INSERT: u64 = 1;
/// Clear a cell: the cell, 0.
pub const DELETE: u64 = 2;
/// The level of a cell: the cell, 0.
pub const FIND: u64 = 3;
/// The j-th smallest marked cell: j from 1, 0.
pub const SELECT: u64 = 4;
/// Count and energy of the marked cells up to this one, itself included: the cell, 0.
pub const RANK: u64 = 5;
/// Count and energy of all marked cells: 0, 0.
pub const TOTAL: u64 = 6;

/// The operation goes on: 0, 0.
pub const ON: u64 = 0;
/// Yes: 0, 0.
pub const YES: u64 = 1;
/// No: 0, 0.
pub const NO: u64 = 2;
/// There is no such cell or level: 0, 0.
pub const NONE: u64 = 3;
/// A level: the level, 0.
pub const LEVEL: u64 = 4;
/// A cell: the cell, 0.
pub const CELL: u64 = 5;
/// Sums: count, energy.
pub const SUMS: u64 = 6;
/// An energy, which only [`energy`] answers: the energy, 0.
pub const ENERGY: u64 = 7;

/// The call was accepted.
pub const OK: u64 = 0;
/// The number of cells is not allowed.
pub const REFUSED_CELLS: u64 = 1;
/// The number of workers is not 1 to 16, or the board is too short for them.
pub const REFUSED_WORKERS: u64 = 2;
/// The node table or the version table is too short for the cells.
pub const REFUSED_TABLES: u64 = 3;
/// There is no worker of this number.
pub const REFUSED_WORKER: u64 = 4;
/// Start: the worker has an operation under way.
pub const REFUSED_BUSY: u64 = 5;
/// Step: the worker has no operation under way.
pub const REFUSED_IDLE: u64 = 6;
/// A cell that the tree does not have, a level above 60, or Select of 0.
pub const REFUSED_ARGUMENT: u64 = 7;
/// Start of an update: too few versions are left besides those promised to updates under way.
pub const REFUSED_FULL: u64 = 8;
/// What was lent is not a tree, or the board's words are no records.
pub const REFUSED_DAMAGED: u64 = 9;
/// Start: there is no such operation, or an argument that it does not have is not 0.
pub const REFUSED_OPERATION: u64 = 10;
/// The answer's row has fewer than [`ANSWER_WORDS`] words.
pub const REFUSED_ANSWER: u64 = 20;

// Held to the header's own lines by tests/header.rs.
extern "C" {
    fn kite_open(
        cells: u64,
        workers: u64,
        nodes: *mut u64,
        node_words: usize,
        versions: *mut u64,
        version_words: usize,
        board: *mut u64,
        board_words: usize,
    ) -> u64;
    fn kite_start(
        cells: u64,
        workers: u64,
        worker: u64,
        operation: u64,
        first: u64,
        second: u64,
        nodes: *const u64,
        node_words: usize,
        versions: *const u64,
        version_words: usize,
        board: *mut u64,
        board_words: usize,
    ) -> u64;
    fn kite_step(
        cells: u64,
        workers: u64,
        worker: u64,
        nodes: *mut u64,
        node_words: usize,
        versions: *mut u64,
        version_words: usize,
        board: *mut u64,
        board_words: usize,
        answer: *mut u64,
        answer_words: usize,
    ) -> u64;
    fn kite_energy(level: u64, answer: *mut u64, answer_words: usize) -> u64;
}

/// Opens a tree of unmarked cells, with workers 0 to `workers` - 1 idle. The rows may hold anything before.
///
/// Refusals, the first that fits: 1, 2, 3.
pub fn open(cells: u64, workers: u64, nodes: &mut [u64], versions: &mut [u64], board: &mut [u64]) -> u64 {
    // SAFETY: each pointer goes with the length of its own slice, and three `&mut` slices are valid for their lengths and do not
    // overlap. The library reads and writes within the lengths only, which is proved, and keeps no pointer after the call.
    unsafe {
        kite_open(
            cells,
            workers,
            nodes.as_mut_ptr(),
            nodes.len(),
            versions.as_mut_ptr(),
            versions.len(),
            board.as_mut_ptr(),
            board.len(),
        )
    }
}

/// Gives an idle worker an operation: its kind and two arguments. Only the worker's record is written.
///
/// Refusals, the first that fits: 10, 1, 2, 3, 4, 5, 7, 9, 8.
pub fn start(
    cells: u64,
    workers: u64,
    worker: u64,
    operation: [u64; 3],
    nodes: &[u64],
    versions: &[u64],
    board: &mut [u64],
) -> u64 {
    let [kind, first, second] = operation;
    // SAFETY: each pointer goes with the length of its own slice, valid for it. The tables are `const` in the header and only
    // read, so the two `&` slices may be one and the same; the `&mut` slice of the board overlaps neither. The library reads and
    // writes within the lengths only, which is proved, and keeps no pointer after the call.
    unsafe {
        kite_start(
            cells,
            workers,
            worker,
            kind,
            first,
            second,
            nodes.as_ptr(),
            nodes.len(),
            versions.as_ptr(),
            versions.len(),
            board.as_mut_ptr(),
            board.len(),
        )
    }
}

/// Takes a worker's operation one step further, and writes the three words of the answer: [`ON`] until the last step, then the
/// operation's own answer.
///
/// Refusals, the first that fits: 20, 1, 2, 3, 4, 6, 9.
pub fn step(
    cells: u64,
    workers: u64,
    worker: u64,
    nodes: &mut [u64],
    versions: &mut [u64],
    board: &mut [u64],
    answer: &mut [u64],
) -> u64 {
    // SAFETY: each pointer goes with the length of its own slice, and four `&mut` slices are valid for their lengths and do not
    // overlap. The library reads and writes within the lengths only, which is proved, and keeps no pointer after the call.
    unsafe {
        kite_step(
            cells,
            workers,
            worker,
            nodes.as_mut_ptr(),
            nodes.len(),
            versions.as_mut_ptr(),
            versions.len(),
            board.as_mut_ptr(),
            board.len(),
            answer.as_mut_ptr(),
            answer.len(),
        )
    }
}

/// Writes the energy of a level, as an answer of the kind [`ENERGY`].
///
/// Refusals, the first that fits: 20, 7.
pub fn energy(level: u64, answer: &mut [u64]) -> u64 {
    // SAFETY: the pointer goes with the length of its slice, valid for it. The library writes within that length only, which is
    // proved, and keeps no pointer after the call.
    unsafe { kite_energy(level, answer.as_mut_ptr(), answer.len()) }
}
