//! The soundings of document 01, each under its own name, asked of the linked library through `Estimator`.
//! Version numbers, used counts and steps are compared where the page names them.

use kitesonnet::Operation::{Delete, Find, Insert, Rank, Select, Total};
use kitesonnet::{board_words, energy, node_words, version_words};
use kitesonnet::{Answer, Energy, Estimator, Level, Operation, Progress, Refusal};

const A: u64 = 0;
const B: u64 = 1;
const C: u64 = 2;

/// The three rows that a tree is lent, so that a test can say its numbers only.
struct Rows {
    nodes: Vec<u64>,
    versions: Vec<u64>,
    board: Vec<u64>,
}

impl Rows {
    fn new(cells: u64, workers: u64, versions: u64) -> Rows {
        Rows {
            nodes: vec![0; node_words(cells)],
            versions: vec![0; version_words(versions)],
            board: vec![0; board_words(workers)],
        }
    }

    fn open(&mut self, cells: u64, workers: u64) -> Result<Estimator<'_>, Refusal> {
        Estimator::open(cells, workers, &mut self.nodes, &mut self.versions, &mut self.board)
    }
}

fn insert(cell: u64, level: u64) -> Operation {
    Insert { cell, level: Level(level) }
}

fn sums(count: u64, energy: u64) -> Answer {
    Answer::Sums { count, energy: Energy(energy) }
}

/// The page tells refusals by their numbers.
fn number(refusal: Refusal) -> u64 {
    refusal.number().expect("a refusal of the page has a number")
}

/// Steps a worker to its answer, and tells the steps too.
fn finish(tree: &mut Estimator, worker: u64) -> (u64, Answer) {
    let mut steps = 0;
    loop {
        steps += 1;
        if let Progress::Done(answer) = tree.step(worker).unwrap() {
            return (steps, answer);
        }
    }
}

/// Starts and steps a worker to its answer, and tells the steps too.
fn run(tree: &mut Estimator, worker: u64, operation: Operation) -> (u64, Answer) {
    tree.start(worker, operation).unwrap();
    finish(tree, worker)
}

/// Steps that must all go on.
fn on(tree: &mut Estimator, turns: &[u64]) {
    turns.iter().for_each(|&worker| assert_eq!(tree.step(worker), Ok(Progress::On)));
}

/// The tree of S1, which S2 and S3 go on with.
fn after_s1(tree: &mut Estimator) {
    assert_eq!(run(tree, A, insert(3, 40)), (10, Answer::Yes));
}

fn after_s2(tree: &mut Estimator) {
    after_s1(tree);
    assert_eq!(tree.run(A, insert(2, 40)), Ok(Answer::Yes));
}

#[test]
fn e1_energies_of_low_levels() {
    let energies = [0, 1, 3, 10].map(|level| energy(Level(level)));
    assert_eq!(energies, [1000, 1258, 1995, 10_000].map(|energy| Ok(Energy(energy))));
}

#[test]
fn e2_energies_of_high_levels() {
    let energies = [43, 44, 59, 60].map(|level| energy(Level(level)));
    assert_eq!(energies, [19_952_623, 25_118_864, 794_328_234, 1_000_000_000].map(|energy| Ok(Energy(energy))));
}

#[test]
fn e3_no_energy_above_level_60() {
    assert_eq!(energy(Level(61)).map_err(number), Err(7));
}

#[test]
fn s1_one_insert() {
    let mut rows = Rows::new(4, 1, 20);
    let mut tree = rows.open(4, 1).unwrap();
    after_s1(&mut tree);
    assert_eq!([7, 3, 1].map(|node: usize| tree.nodes()[node]), [8, 9, 10]);
    assert_eq!(tree.versions_used(), 10);
}

#[test]
fn s2_two_inserts_and_the_total() {
    let mut rows = Rows::new(4, 1, 20);
    let mut tree = rows.open(4, 1).unwrap();
    after_s2(&mut tree);
    assert_eq!(tree.run(A, Total), Ok(sums(2, 20_000_000)));
}

#[test]
fn s3_rank_and_select() {
    let mut rows = Rows::new(4, 1, 20);
    let mut tree = rows.open(4, 1).unwrap();
    after_s2(&mut tree);
    assert_eq!(run(&mut tree, A, Rank { cell: 2 }), (3, sums(1, 10_000_000)));
    assert_eq!(run(&mut tree, A, Select { nth: 2 }), (3, Answer::Cell(3)));
    assert_eq!(run(&mut tree, A, Select { nth: 3 }), (1, Answer::None));
}

#[test]
fn r1_a_no_climbs_too() {
    let mut rows = Rows::new(4, 2, 20);
    let mut tree = rows.open(4, 2).unwrap();
    tree.start(A, insert(3, 40)).unwrap();
    tree.start(B, insert(3, 30)).unwrap();
    on(&mut tree, &[A, B, A, B]);
    let (further_steps, answer) = finish(&mut tree, B);
    assert_eq!((2 + further_steps, answer), (10, Answer::No));
    assert_eq!(tree.run(B, Find { cell: 3 }), Ok(Answer::Level(Level(40))));
    assert_eq!(finish(&mut tree, A).1, Answer::Yes);
    assert_eq!(tree.versions_used(), 12);
}

#[test]
fn r2_versions_are_promised() {
    let second_start = |versions| {
        let mut rows = Rows::new(4, 2, versions);
        let mut tree = rows.open(4, 2).unwrap();
        tree.start(A, insert(3, 40)).unwrap();
        tree.start(B, insert(3, 30)).map_err(number)
    };
    assert_eq!(second_start(13), Ok(()));
    assert_eq!(second_start(12), Err(8));
}

#[test]
fn d1_both_refreshes_fail() {
    let mut rows = Rows::new(2, 3, 9);
    let mut tree = rows.open(2, 3).unwrap();
    tree.start(A, insert(0, 10)).unwrap();
    tree.start(B, insert(1, 20)).unwrap();
    tree.start(C, insert(1, 30)).unwrap();
    on(&mut tree, &[A, A, B, B, A]);
    assert_eq!(finish(&mut tree, B), (4, Answer::Yes));
    on(&mut tree, &[A, A, A, A]);
    assert_eq!(finish(&mut tree, C), (5, Answer::No));
    assert_eq!(finish(&mut tree, A), (3, Answer::Yes));
    assert_eq!(tree.versions_used(), 7);
    assert_eq!(tree.run(A, Total), Ok(sums(2, 110_000)));
}

#[test]
fn l1_two_cells_open() {
    assert!(Rows::new(2, 1, 3).open(2, 1).is_ok());
}

#[test]
fn l2_cells_that_are_not_allowed() {
    let opened = |cells| Rows::new(8192, 1, 20_000).open(cells, 1).map(|_| ()).map_err(number);
    assert_eq!([1, 3, 8192].map(opened), [Err(1); 3]);
}

#[test]
fn l3_workers() {
    let opened = |workers| Rows::new(2, 17, 3).open(2, workers).map(|_| ()).map_err(number);
    assert_eq!([16, 0, 17].map(opened), [Ok(()), Err(2), Err(2)]);
}

#[test]
fn l4_an_empty_tree() {
    let mut rows = Rows::new(8, 1, 15);
    let mut tree = rows.open(8, 1).unwrap();
    let found = [0, 1, 2, 3, 4, 5, 6, 7].map(|cell| tree.run(A, Find { cell }));
    assert_eq!(found, [Ok(Answer::None); 8]);
    assert_eq!(tree.run(A, Total), Ok(sums(0, 0)));
}

#[test]
fn l5_no_room_for_an_update() {
    let mut rows = Rows::new(4, 1, 7);
    let mut tree = rows.open(4, 1).unwrap();
    let inserts = [0, 1, 2, 3].map(|cell| tree.start(A, insert(cell, 40)).map_err(number));
    let deletes = [0, 1, 2, 3].map(|cell| tree.start(A, Delete { cell }).map_err(number));
    assert_eq!((inserts, deletes), ([Err(8); 4], [Err(8); 4]));
}
