//! The page's soundings, each asserted with the page's own numbers.
//! Those that play a history are watched, so that their places and own steps are checked as well.

use super::conversion::Level;
use super::played::plain_ask;
use super::record::{Operation, Query, Update};
use super::rows::{Ask, Call, Rows};
use super::tables::{Cell, Size, VERSION_WORDS};
use super::watch::Watch;
use super::Calls;

const YES: [u64; 3] = [1, 0, 0];
const NO: [u64; 3] = [2, 0, 0];
const NONE: [u64; 3] = [3, 0, 0];

fn level(level: u64) -> [u64; 3] {
    [4, level, 0]
}

fn cell(cell: u64) -> [u64; 3] {
    [5, cell, 0]
}

fn sums(count: u64, energy: u64) -> [u64; 3] {
    [6, count, energy]
}

fn insert(cell: u64, level: u64) -> Operation {
    Operation::Update(Update::Insert(Cell(cell), Level(level)))
}

fn size_of(cells: u64) -> Size {
    Size::of(cells).expect("a sounding's number of cells is allowed")
}

pub fn hold_to_soundings(other: &dyn Calls) {
    hold_to_energies(other);
    hold_to_one_worker(other);
    hold_to_failed_insert(other);
    hold_to_second_start(other);
    hold_to_failed_refreshes(other);
    hold_to_limits(other);
    hold_to_empty_tree(other);
    hold_to_no_room(other);
}

/// E1, E2, E3.
fn hold_to_energies(other: &dyn Calls) {
    let energies = [
        (0, 1_000), (1, 1_258), (3, 1_995), (10, 10_000),
        (43, 19_952_623), (44, 25_118_864), (59, 794_328_234), (60, 1_000_000_000),
    ];
    for (level, energy) in energies {
        let mut answer = [0; 3];
        assert_eq!(other.energy(level, &mut answer), 0, "energy of level {level}");
        assert_eq!(answer, [7, energy, 0], "energy of level {level}");
    }
    let mut answer = [5; 3];
    assert_eq!((other.energy(61, &mut answer), answer), (7, [5; 3]), "E3");
}

/// Steps a worker until it answers, and gives the answer with the number of these steps.
fn run(watch: &mut Watch, worker: u64) -> ([u64; 3], u64) {
    let mut steps = 0;
    while !watch.is_idle(worker) {
        let answer = watch.step(worker).expect("a busy worker's step is accepted");
        steps += 1;
        if answer[0] != 0 {
            return (answer, steps);
        }
    }
    panic!("worker {worker} has nothing to do")
}

/// Starts an operation for a worker alone and runs it to its end.
fn run_alone(watch: &mut Watch, worker: u64, operation: Operation) -> ([u64; 3], u64) {
    assert_eq!(watch.start(worker, operation), 0, "start of {operation:?}");
    run(watch, worker)
}

/// Steps workers in this order, none of which answers.
fn go_on(watch: &mut Watch, workers: &[u64]) {
    let answers = workers.iter().map(|&worker| watch.step(worker));
    answers.for_each(|answer| assert_eq!(answer, Some([0; 3]), "these steps go on"));
}

/// S1, S2, S3.
fn hold_to_one_worker(other: &dyn Calls) {
    let mut watch = Watch::open(other, size_of(4), 1, 40);
    assert_eq!(run_alone(&mut watch, 0, insert(3, 40)), (YES, 10), "S1");
    assert_eq!(*watch.rows.nodes, [10, 10, 2, 9, 4, 5, 6, 8], "S1: versions 8, 9, 10 go to nodes 7, 3, 1; used 10");
    run_alone(&mut watch, 0, insert(2, 40));
    assert_eq!(run_alone(&mut watch, 0, Operation::Query(Query::Total)), (sums(2, 20_000_000), 1), "S2");
    assert_eq!(run_alone(&mut watch, 0, Operation::Query(Query::Rank(Cell(2)))), (sums(1, 10_000_000), 3), "S3: Rank(2)");
    assert_eq!(run_alone(&mut watch, 0, Operation::Query(Query::Select(2))), (cell(3), 3), "S3: Select(2)");
    assert_eq!(run_alone(&mut watch, 0, Operation::Query(Query::Select(3))), (NONE, 1), "S3: Select(3)");
}

/// R1: a no climbs too, so a Find behind it does not miss the cell.
fn hold_to_failed_insert(other: &dyn Calls) {
    let (a, b, reader) = (0, 1, 2);
    let mut watch = Watch::open(other, size_of(4), 3, 40);
    watch.start(a, insert(3, 40));
    watch.start(b, insert(3, 30));
    go_on(&mut watch, &[a, b, a, b]);
    assert_eq!(run(&mut watch, b), (NO, 8), "R1: B answers no after 10 own steps, two of them before");
    assert_eq!(run_alone(&mut watch, reader, Operation::Query(Query::Find(Cell(3)))).0, level(40), "R1: Find(3) gives 40");
    assert_eq!(run(&mut watch, a).0, YES, "R1: A yes");
    assert_eq!(watch.rows.used(), 12, "R1: used 12");
}

/// R2.
fn hold_to_second_start(other: &dyn Calls) {
    for (versions, second_start) in [(13, 0), (12, 8)] {
        let mut watch = Watch::open(other, size_of(4), 2, versions);
        assert_eq!(watch.start(0, insert(3, 40)), 0, "R2: the first start");
        assert_eq!(watch.start(1, insert(3, 30)), second_start, "R2: V = {versions}");
    }
}

/// D1: both refreshes of A fail, and yet it is placed.
fn hold_to_failed_refreshes(other: &dyn Calls) {
    let (a, b, c) = (0, 1, 2);
    let mut watch = Watch::open(other, size_of(2), 3, 9);
    [(a, insert(0, 10)), (b, insert(1, 20)), (c, insert(1, 30))].into_iter().for_each(|(worker, operation)| {
        assert_eq!(watch.start(worker, operation), 0, "D1: start of {operation:?}");
    });
    go_on(&mut watch, &[a, a, b, b, a]);
    assert_eq!(run(&mut watch, b), (YES, 4), "D1: B yes");
    go_on(&mut watch, &[a, a, a, a]);
    assert_eq!(run(&mut watch, c), (NO, 5), "D1: C no");
    assert_eq!(run(&mut watch, a), (YES, 3), "D1: A yes after 10 own steps, seven of them before");
    assert_eq!(watch.report.failed_twice, 1, "D1: with both refreshes failed");
    assert_eq!(watch.rows.used(), 7, "D1: used 7");
    assert_eq!(watch.placed_workers(), [a, b, c], "D1: order A, B, C");
    assert_eq!(run_alone(&mut watch, a, Operation::Query(Query::Total)).0, sums(2, 110_000), "D1: Total");
}

/// What an open of fresh rows of a sufficient length returns.
fn opened(other: &dyn Calls, cells: u64, workers: u64) -> u64 {
    let mut rows = Rows::for_tree(cells, workers, VERSION_WORDS * 2 * cells as usize);
    let ask = Ask { cells, ..plain_ask(size_of(2), workers, Call::Open) };
    ask.put_to(other, &mut rows, &mut [])
}

/// L1, L2, L3.
fn hold_to_limits(other: &dyn Calls) {
    assert_eq!(opened(other, 2, 1), 0, "L1");
    assert_eq!([1, 3, 8_192].map(|cells| opened(other, cells, 1)), [1; 3], "L2");
    assert_eq!([16, 0, 17].map(|workers| opened(other, 2, workers)), [0, 2, 2], "L3");
}

/// L4.
fn hold_to_empty_tree(other: &dyn Calls) {
    let mut watch = Watch::open(other, size_of(4), 1, 7);
    assert_eq!(run_alone(&mut watch, 0, Operation::Query(Query::Find(Cell(0)))).0, NONE, "L4: Find");
    assert_eq!(run_alone(&mut watch, 0, Operation::Query(Query::Total)).0, sums(0, 0), "L4: Total");
}

/// L5.
fn hold_to_no_room(other: &dyn Calls) {
    for size in [2, 4, 16, 4_096].map(size_of) {
        let mut watch = Watch::open(other, size, 1, size.least_used());
        let delete = Operation::Update(Update::Delete(Cell(0)));
        assert_eq!([insert(0, 10), delete].map(|update| watch.start(0, update)), [8, 8], "L5: {size:?}");
    }
}
