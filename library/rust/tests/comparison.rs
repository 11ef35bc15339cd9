//! The linked library held to an independent program: word for word in single calls on damaged tables and on the largest
//! tables, and in the order and the book of whole histories. That program was written from the rules ("the page") and from
//! docs/WORDS.md and the header, which tell the form of the words and refusals 10 and 20.
//!
//! KITE_CASES sets the number of single calls, of a million otherwise, and KITE_SEED the seed from which all is picked.

#[rustfmt::skip]
#[path = "../../../second/estimator/mod.rs"]
mod estimator;

use estimator::calls::Written;
use estimator::cases::compare_cases;
use estimator::histories::compare_histories;
use estimator::large::{self, compare_large};
use estimator::soundings::hold_to_soundings;
use estimator::Calls;
use kitesonnet::words;
use std::fmt::Display;
use std::io::Write;

const USUAL_CASES: u64 = 1_000_000;
/// Fewer cases than this may miss some clause of refusal 9 by chance.
const ENOUGH_TO_MEET_ALL: u64 = 100_000;
const HISTORIES: u64 = 60;
const CALLS_OF_A_HISTORY: u64 = 20_000;

/// The library that is linked.
struct Linked;

impl Calls for Linked {
    fn open(&self, cells: u64, workers: u64, nodes: &mut [u64], versions: &mut [u64], board: &mut [u64]) -> u64 {
        words::open(cells, workers, nodes, versions, board)
    }

    fn start(
        &self,
        cells: u64,
        workers: u64,
        worker: u64,
        operation: [u64; 3],
        nodes: &[u64],
        versions: &[u64],
        board: &mut [u64],
    ) -> u64 {
        words::start(cells, workers, worker, operation, nodes, versions, board)
    }

    fn step(
        &self,
        cells: u64,
        workers: u64,
        worker: u64,
        nodes: &mut [u64],
        versions: &mut [u64],
        board: &mut [u64],
        answer: &mut [u64],
    ) -> u64 {
        words::step(cells, workers, worker, nodes, versions, board, answer)
    }

    fn energy(&self, level: u64, answer: &mut [u64]) -> u64 {
        words::energy(level, answer)
    }
}

/// A number that the environment sets. One that cannot be read must not pass for the usual one.
fn set_by(name: &str, usual: u64) -> u64 {
    match std::env::var(name) {
        Ok(number) => number.parse().unwrap_or_else(|_| panic!("{name} is not a whole number: {number}")),
        Err(_) => usual,
    }
}

fn seed() -> u64 {
    set_by("KITE_SEED", 2011)
}

/// Written past the test runner, which would keep back what a passing test prints.
fn tell(what: &str, report: impl Display) {
    let told = format!("comparison, {what}, seed {}:\n{report}", seed());
    std::io::stdout().write_all(told.as_bytes()).expect("standard output takes the report");
}

/// To agree with the independent program says something only if that keeps to the page too.
#[test]
fn soundings_of_both() {
    hold_to_soundings(&Linked);
    hold_to_soundings(&Written);
}

#[test]
fn single_calls_on_damaged_tables() {
    let cases = set_by("KITE_CASES", USUAL_CASES);
    let report = compare_cases(&Linked, seed(), cases);
    if cases < ENOUGH_TO_MEET_ALL {
        tell("single calls on damaged tables, too few to be held to meeting all", &report);
    } else {
        tell("single calls on damaged tables", &report);
        assert_eq!(report.all_met(), Ok(()));
    }
}

#[test]
fn calls_on_the_largest_tables() {
    let report = compare_large(&Linked, seed());
    tell("calls on the largest tables", &report);
    assert_eq!(report.has_met(&large::wanted()), Ok(()));
}

#[test]
fn whole_histories() {
    let report = compare_histories(&Linked, seed(), HISTORIES, CALLS_OF_A_HISTORY);
    tell("whole histories", &report);
    assert_eq!(report.all_met(), Ok(()));
}
