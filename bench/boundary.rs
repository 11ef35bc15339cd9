// What a call through the boundary costs: by size, by workers, and beside the independent program and a book under a lock.
// A schedule of calls is recorded once and replayed from a fresh open, so that all play the very same calls, in turns.
//
// How the mean of a step is got. A step takes about as long as reading the clock, so whole histories are timed, never one step.
// A start only writes its worker's record, so a replay can plant that record itself where the schedule has a start. The same
// walk through the schedule, with the plants and without the steps, is timed too and taken off. What is left are the steps.

use std::env;
use std::hint::black_box;
use std::process::ExitCode;
use std::sync::Mutex;
use std::time::{Duration, Instant};

use estimator::chance::Chance;
use estimator::record::{self, Answer, Record, Task};
use estimator::stepping;
use estimator::tables::{LentTables, Size, Tables};
use words::{DELETE, FIND, INSERT, NONE, ON, RANK, SELECT, TOTAL};

// Both offer more than a benchmark calls.
#[allow(dead_code)]
#[path = "../second/estimator/mod.rs"]
mod estimator;
#[allow(dead_code)]
#[path = "../library/rust/src/words.rs"]
mod words;

const USAGE: &str = "usage: boundary ROUNDS";
const SEED: u64 = 1;
/// The goal for the largest size over the smallest.
const GOAL: f64 = 1.3;

/// What a history may make besides the versions that it opens with. All tables together stay within a processor's second cache.
const FURTHER_VERSIONS: u64 = 4_096;
/// A worker has the processor for one step up to so many.
const MOST_STEPS_A_TURN: u64 = 3;

/// The places of those courses that the ratios compare.
const PLACE_OF_SMALLEST: usize = 0;
const PLACE_OF_MIDDLE: usize = 5;
const PLACE_OF_LARGEST: usize = 11;
const PLACE_OF_ONE_WORKER: usize = 12;
const PLACE_OF_SIXTEEN_WORKERS: usize = 15;
/// Cells and workers of each history: all sizes with four workers, then the other numbers of workers at one size.
const COURSES: [(u64, u64); 16] = [
    (2, 4), (4, 4), (8, 4), (16, 4), (32, 4), (64, 4), (128, 4), (256, 4), (512, 4), (1024, 4), (2048, 4), (4096, 4),
    (64, 1), (64, 2), (64, 8), (64, 16),
];

// ---------------------------------------------------------------- schedules

/// Small, so that a schedule does not push the tables out of the cache.
#[derive(Clone, Copy)]
struct Operation {
    kind: u8,
    level: u8,
    number: u16,
}

impl Operation {
    fn words(self) -> [u64; 3] {
        [self.kind.into(), self.number.into(), self.level.into()]
    }
}

/// Of every sixteen operations as many of each kind, at every size.
struct Mix {
    kinds: [u64; 16],
    left: usize,
}

impl Mix {
    fn new() -> Mix {
        let [i, d, f, r] = [INSERT, DELETE, FIND, RANK];
        Mix { kinds: [i, i, i, i, i, i, d, d, d, d, f, f, r, r, SELECT, TOTAL], left: 0 }
    }

    /// Deals the sixteen like cards, so that their order is chance and their number is not.
    fn deal(&mut self, chance: &mut Chance) -> u64 {
        self.left = if self.left == 0 { self.kinds.len() } else { self.left };
        let dealt = chance.below(self.left as u64) as usize;
        self.left -= 1;
        self.kinds.swap(dealt, self.left);
        self.kinds[self.left]
    }
}

/// One step of a worker, and whether it is given its next operation just before.
#[derive(Clone, Copy)]
struct Turn {
    worker: u8,
    starts: bool,
}

/// All calls of one history: its operations in the order of their starts, its steps, and each step's kind.
struct Schedule {
    cells: u64,
    workers: u64,
    turns: Vec<Turn>,
    operations: Vec<Operation>,
    kinds: Vec<u8>,
}

impl Schedule {
    /// Plays a history by the library until the versions run out, and lets all workers finish.
    fn record(cells: u64, workers: u64) -> Schedule {
        let mut recorder = Recorder {
            rows: Rows::new(cells, workers),
            chance: Chance::new(SEED),
            mix: Mix::new(),
            worker: 0,
            full: false,
            schedule: Schedule { cells, workers, turns: vec![], operations: vec![], kinds: vec![] },
        };
        recorder.rows.open();
        while !recorder.is_finished() {
            recorder.turn_to_another_worker();
        }
        recorder.schedule
    }
}

struct Recorder {
    rows: Rows,
    chance: Chance,
    mix: Mix,
    worker: u64,
    full: bool,
    schedule: Schedule,
}

impl Recorder {
    fn is_finished(&self) -> bool {
        self.full && (0..self.rows.workers).all(|worker| self.rows.is_idle(worker))
    }

    fn turn_to_another_worker(&mut self) {
        let others = self.rows.workers - 1;
        self.worker = (self.worker + 1 + self.chance.below(others.max(1))) % self.rows.workers;
        let steps = 1 + self.chance.below(MOST_STEPS_A_TURN);
        (0..steps).for_each(|_| self.advance());
    }

    /// One step of the worker, with a start before it if it is idle. Once the versions have run out nothing is started.
    fn advance(&mut self) {
        let starts = self.rows.is_idle(self.worker);
        if starts {
            self.start();
        }
        if !(starts && self.full) {
            self.schedule.turns.push(Turn { worker: self.worker as u8, starts });
            self.schedule.kinds.push(self.rows.next_kind(self.worker) as u8);
            self.rows.step(self.worker);
        }
    }

    fn start(&mut self) {
        let operation = self.draw();
        self.full = self.full || self.rows.started(self.worker, operation) == words::REFUSED_FULL;
        if !self.full {
            self.schedule.operations.push(operation);
        }
    }

    fn draw(&mut self) -> Operation {
        let kind = self.mix.deal(&mut self.chance);
        let number = match kind {
            TOTAL => 0,
            // Mostly a cell that there is, for a Select of more ends at once.
            SELECT => 1 + self.chance.below(self.rows.marked().max(1)),
            _ => self.chance.below(self.rows.cells),
        };
        let level = if kind == INSERT { self.chance.below(words::MOST_LEVEL + 1) } else { 0 };
        Operation { kind: kind as u8, level: level as u8, number: number as u16 }
    }
}

// ---------------------------------------------------------------- players

/// Who plays a schedule.
trait Player {
    fn open(&mut self);
    fn start(&mut self, worker: u64, operation: Operation);
    /// Writes what a start would write, without calling it.
    fn plant(&mut self, worker: u64, operation: Operation);
    fn step(&mut self, worker: u64);
    /// The step left out.
    fn pause(&mut self, worker: u64) {
        black_box(worker);
    }
    fn answer(&self) -> [u64; words::ANSWER_WORDS];
    fn record(&self, worker: u64) -> [u64; words::RECORD_WORDS];
    fn tables(&self) -> [&[u64]; 2];
}

/// The rows that are lent to the library.
struct Rows {
    cells: u64,
    workers: u64,
    nodes: Vec<u64>,
    versions: Vec<u64>,
    board: Vec<u64>,
    answer: [u64; words::ANSWER_WORDS],
}

const READ_LEAF: u64 = 1;
const CLIMB: u64 = 3;
const READ_ROOT: u64 = 4;

impl Rows {
    fn new(cells: u64, workers: u64) -> Rows {
        Rows {
            cells,
            workers,
            nodes: vec![0; words::node_words(cells)],
            versions: vec![0; words::version_words(2 * cells - 1 + FURTHER_VERSIONS)],
            board: vec![0; words::board_words(workers)],
            answer: [0; words::ANSWER_WORDS],
        }
    }

    fn started(&mut self, worker: u64, operation: Operation) -> u64 {
        words::start(self.cells, self.workers, worker, operation.words(), &self.nodes, &self.versions, &mut self.board)
    }

    fn first_word(worker: u64) -> usize {
        words::RECORD_WORDS * worker as usize
    }

    fn is_idle(&self, worker: u64) -> bool {
        self.board[Rows::first_word(worker)] == 0
    }

    /// The count of the root's version.
    fn marked(&self) -> u64 {
        let root = self.nodes[1];
        self.versions[words::version_words(root - 1) + 2]
    }

    /// Which of `KINDS` the worker's next step is: its phase, and within a climb how much the refresh has read.
    fn next_kind(&self, worker: u64) -> u64 {
        let record = &self.board[Rows::first_word(worker)..];
        match record[0] {
            before if before < CLIMB => before - READ_LEAF,
            CLIMB => CLIMB - READ_LEAF + record[8],
            after => after - READ_LEAF + 3,
        }
    }
}

impl Player for Rows {
    fn open(&mut self) {
        let refusal = words::open(self.cells, self.workers, &mut self.nodes, &mut self.versions, &mut self.board);
        assert_eq!(refusal, words::OK);
    }

    fn start(&mut self, worker: u64, operation: Operation) {
        assert_eq!(self.started(worker, operation), words::OK);
    }

    fn plant(&mut self, worker: u64, operation: Operation) {
        let [kind, first, second] = operation.words();
        let phase = if kind == INSERT || kind == DELETE { READ_LEAF } else { READ_ROOT };
        let record = &mut self.board[Rows::first_word(worker)..][..4];
        record.copy_from_slice(&black_box([phase, kind, first, second]));
    }

    #[inline]
    fn step(&mut self, worker: u64) {
        let Rows { nodes, versions, board, answer, .. } = self;
        let refusal = words::step(self.cells, self.workers, worker, nodes, versions, board, answer);
        assert_eq!(refusal, words::OK);
    }

    fn answer(&self) -> [u64; words::ANSWER_WORDS] {
        self.answer
    }

    fn record(&self, worker: u64) -> [u64; words::RECORD_WORDS] {
        let first = Rows::first_word(worker);
        self.board[first..first + words::RECORD_WORDS].try_into().expect("a record has its words")
    }

    fn tables(&self) -> [&[u64]; 2] {
        [&self.nodes, &self.versions]
    }
}

/// The independent program on records of its own type, and on tables that are lent to each of its steps.
struct Independent {
    size: Size,
    nodes: Vec<u64>,
    versions: Vec<u64>,
    board: Vec<Option<Record>>,
    answer: Answer,
}

impl Independent {
    fn new(cells: u64, workers: u64) -> Independent {
        let Rows { nodes, versions, .. } = Rows::new(cells, workers);
        let size = Size::of(cells).expect("an allowed number of cells");
        Independent { size, nodes, versions, board: vec![Some(Record::Idle); workers as usize], answer: Answer::On }
    }

    #[inline]
    fn lent<'a>(size: Size, nodes: &'a mut [u64], versions: &'a mut [u64]) -> LentTables<'a> {
        Tables::of(size, nodes, versions).expect("tables that are long enough")
    }
}

impl Player for Independent {
    fn open(&mut self) {
        Independent::lent(self.size, &mut self.nodes, &mut self.versions).fill();
        self.board.fill(Some(Record::Idle));
    }

    fn start(&mut self, worker: u64, operation: Operation) {
        let operation = record::Operation::of(operation.words()).expect("an operation");
        let tables = Independent::lent(self.size, &mut self.nodes, &mut self.versions);
        let started = stepping::start(&tables, &self.board, worker as usize, operation).expect("an accepted start");
        self.board[worker as usize] = Some(started);
    }

    fn plant(&mut self, worker: u64, operation: Operation) {
        let task = match record::Operation::of(operation.words()).expect("an operation") {
            record::Operation::Update(update) => Task::ReadLeaf(update),
            record::Operation::Query(query) => Task::ReadRoot(query),
        };
        self.board[worker as usize] = black_box(Some(Record::Busy(task)));
    }

    #[inline]
    fn step(&mut self, worker: u64) {
        let mut tables = Independent::lent(self.size, &mut self.nodes, &mut self.versions);
        let record = self.board[worker as usize].as_mut().expect("a record");
        self.answer = black_box(stepping::step(&mut tables, record).expect("an accepted step"));
    }

    fn answer(&self) -> [u64; words::ANSWER_WORDS] {
        self.answer.words()
    }

    fn record(&self, worker: u64) -> [u64; words::RECORD_WORDS] {
        let mut words = [0; words::RECORD_WORDS];
        record::write(&self.board[worker as usize].expect("a record"), &mut words);
        words
    }

    fn tables(&self) -> [&[u64]; 2] {
        [&self.nodes, &self.versions]
    }
}

// ---------------------------------------------------------------- the book under a lock

/// What one would write without the tree: the levels in an array and the total kept. Insert, Delete, Find and Total look at one
/// place; Rank and Select walk the cells. A single thread plays here, so nobody ever waits for the lock.
struct Book {
    levels: Vec<Option<u8>>,
    energies: Vec<u64>,
    count: u64,
    energy: u64,
}

impl Book {
    fn new(cells: u64) -> Book {
        let energies = (0..=words::MOST_LEVEL).map(|level| {
            let mut answer = [0; words::ANSWER_WORDS];
            assert_eq!(words::energy(level, &mut answer), words::OK);
            answer[1]
        });
        Book { levels: vec![None; cells as usize], energies: energies.collect(), count: 0, energy: 0 }
    }

    fn answer(&mut self, operation: Operation) -> [u64; words::ANSWER_WORDS] {
        let number = usize::from(operation.number);
        match operation.kind.into() {
            INSERT => truth(self.insert(number, operation.level)),
            DELETE => truth(self.delete(number)),
            FIND => self.levels[number].map_or([NONE, 0, 0], |level| [words::LEVEL, level.into(), 0]),
            SELECT => self.select(number).map_or([NONE, 0, 0], |cell| [words::CELL, cell as u64, 0]),
            RANK => self.rank(number),
            _ => [words::SUMS, self.count, self.energy],
        }
    }

    fn insert(&mut self, cell: usize, level: u8) -> bool {
        if self.levels[cell].is_some() {
            return false;
        }
        self.levels[cell] = Some(level);
        self.count += 1;
        self.energy += self.energies[usize::from(level)];
        true
    }

    fn delete(&mut self, cell: usize) -> bool {
        let Some(level) = self.levels[cell].take() else { return false };
        self.count -= 1;
        self.energy -= self.energies[usize::from(level)];
        true
    }

    fn rank(&self, cell: usize) -> [u64; words::ANSWER_WORDS] {
        let marked = self.levels[..=cell].iter().flatten();
        let sums = marked.fold((0, 0), |(count, energy), &level| (count + 1, energy + self.energies[usize::from(level)]));
        [words::SUMS, sums.0, sums.1]
    }

    fn select(&self, wanted: usize) -> Option<usize> {
        let marked = self.levels.iter().enumerate().filter(|(_, level)| level.is_some());
        marked.map(|(cell, _)| cell).nth(wanted - 1)
    }
}

fn truth(result: bool) -> [u64; words::ANSWER_WORDS] {
    [if result { words::YES } else { words::NO }, 0, 0]
}

/// One call of the book: a whole operation under the lock.
fn locked(book: &Mutex<Book>, operation: Operation) -> [u64; words::ANSWER_WORDS] {
    book.lock().expect("no holder has failed").answer(operation)
}

// ---------------------------------------------------------------- checks

/// Speed is only worth telling of programs that agree. One is given its operations by starts, the other by plants, so that this
/// also shows that a plant is what a start writes.
fn agree<One: Player, Other: Player>(schedule: &Schedule, one: &mut One, other: &mut Other) {
    one.open();
    other.open();
    let mut operations = schedule.operations.iter();
    for turn in &schedule.turns {
        let worker = turn.worker.into();
        if turn.starts {
            let operation = *operations.next().expect("an operation for each start");
            one.start(worker, operation);
            other.plant(worker, operation);
            assert_eq!(one.record(worker), other.record(worker));
        }
        one.step(worker);
        other.step(worker);
        assert_eq!(one.answer(), other.answer());
        assert_eq!(one.record(worker), other.record(worker));
    }
    assert!(one.tables() == other.tables(), "the tables differ");
}

/// With one worker no operation overlaps another, and only then must the tree answer as the book does.
fn agree_with_book(cells: u64) {
    let schedule = Schedule::record(cells, 1);
    let (mut rows, book) = (Rows::new(cells, 1), Mutex::new(Book::new(cells)));
    rows.open();
    let mut operations = schedule.operations.iter();
    let mut wanted = [ON, 0, 0];
    for turn in &schedule.turns {
        if turn.starts {
            let operation = *operations.next().expect("an operation for each start");
            rows.start(0, operation);
            wanted = locked(&book, operation);
        }
        rows.step(0);
        assert!(rows.answer[0] == ON || rows.answer == wanted, "the book answers otherwise");
    }
}

// ---------------------------------------------------------------- clocks

/// Plays a schedule from a fresh open, and tells how long all of it took but the open. Operations are begun and steps made by
/// the functions that are given, so that a replay can leave one of the two out.
fn replay<P: Player>(
    schedule: &Schedule,
    player: &mut P,
    begin: impl Fn(&mut P, u64, Operation),
    mut go: impl FnMut(&mut P, u64),
) -> Duration {
    player.open();
    let mut operations = schedule.operations.iter();
    let from = Instant::now();
    for turn in &schedule.turns {
        if turn.starts {
            begin(player, turn.worker.into(), *operations.next().expect("an operation for each start"));
        }
        go(player, turn.worker.into());
    }
    from.elapsed()
}

fn replay_by_book(schedule: &Schedule) -> Duration {
    let book = Mutex::new(Book::new(schedule.cells));
    let from = Instant::now();
    for operation in &schedule.operations {
        black_box(locked(&book, *operation));
    }
    from.elapsed()
}

/// The best and the median of all rounds, in nanoseconds, or the ratios of two such.
#[derive(Clone, Copy)]
struct Figure {
    best: f64,
    median: f64,
}

impl Figure {
    fn of(mut rounds: Vec<f64>) -> Figure {
        rounds.sort_by(f64::total_cmp);
        Figure { best: rounds[0], median: rounds[(rounds.len() - 1) / 2] }
    }

    fn of_times(times: &[Duration]) -> Figure {
        Figure::of(times.iter().map(|time| time.as_nanos() as f64).collect())
    }

    fn less(self, other: Figure) -> Figure {
        Figure { best: self.best - other.best, median: self.median - other.median }
    }

    fn per(self, count: usize) -> Figure {
        Figure { best: self.best / count as f64, median: self.median / count as f64 }
    }

    fn over(self, other: Figure) -> Figure {
        Figure { best: self.best / other.best, median: self.median / other.median }
    }
}

/// The times of one player, a round each: all calls; plants and steps; plants alone.
#[derive(Default)]
struct Times {
    calls: Vec<Duration>,
    planted: Vec<Duration>,
    walked: Vec<Duration>,
}

impl Times {
    fn add_round<P: Player>(&mut self, schedule: &Schedule, player: &mut P) {
        // The first replay finds another history's words in the cache, and is not counted.
        replay(schedule, player, P::start, P::step);
        self.calls.push(replay(schedule, player, P::start, P::step));
        self.planted.push(replay(schedule, player, P::plant, P::step));
        self.walked.push(replay(schedule, player, P::plant, P::pause));
    }

    fn step(&self, schedule: &Schedule) -> Figure {
        Figure::of_times(&self.planted).less(Figure::of_times(&self.walked)).per(schedule.turns.len())
    }

    /// What a start takes longer than a plant.
    fn start(&self, schedule: &Schedule) -> Figure {
        Figure::of_times(&self.calls).less(Figure::of_times(&self.planted)).per(schedule.operations.len())
    }

    fn operation(&self, schedule: &Schedule) -> Figure {
        Figure::of_times(&self.calls).per(schedule.operations.len())
    }
}

/// One schedule, and all that has been measured of it.
struct Course {
    schedule: Schedule,
    rows: Rows,
    independent: Independent,
    by_library: Times,
    by_independent: Times,
    by_book: Vec<Duration>,
    by_kind: KindTimes,
}

impl Course {
    fn new((cells, workers): (u64, u64)) -> Course {
        Course {
            schedule: Schedule::record(cells, workers),
            rows: Rows::new(cells, workers),
            independent: Independent::new(cells, workers),
            by_library: Times::default(),
            by_independent: Times::default(),
            by_book: vec![],
            by_kind: KindTimes::default(),
        }
    }

    fn check(&mut self) {
        agree(&self.schedule, &mut self.rows, &mut self.independent);
        agree(&self.schedule, &mut self.independent, &mut self.rows);
    }

    fn add_round(&mut self) {
        self.by_library.add_round(&self.schedule, &mut self.rows);
        self.by_independent.add_round(&self.schedule, &mut self.independent);
        self.by_book.push(replay_by_book(&self.schedule));
        self.by_kind.add_round(&self.schedule, &mut self.rows);
    }

    fn library_step(&self) -> Figure {
        self.by_library.step(&self.schedule)
    }

    fn independent_step(&self) -> Figure {
        self.by_independent.step(&self.schedule)
    }

    fn library_start(&self) -> Figure {
        self.by_library.start(&self.schedule)
    }

    fn library_operation(&self) -> Figure {
        self.by_library.operation(&self.schedule)
    }

    fn book_operation(&self) -> Figure {
        Figure::of_times(&self.by_book).per(self.schedule.operations.len())
    }
}

// ---------------------------------------------------------------- kinds of steps

const KINDS: [&str; 10] = [
    "read the leaf", "swap at the leaf", "read the node", "read the left child", "read the right child", "swap at the node",
    "read the root", "Find goes down", "Rank goes down", "Select goes down",
];

/// The mean nanoseconds of each kind of step.
type ByKind = [f64; KINDS.len()];

/// A tree of height twelve has another mix of kinds than one of height one. Only a clock around every step tells the kinds
/// apart in their own surroundings; what the clock itself takes is told by the same replay without the steps, and taken off. The
/// processor works on while it reads a clock, so these figures are to be held to one another and not to those of whole histories.
#[derive(Default)]
struct KindTimes {
    steps: Vec<ByKind>,
    pauses: Vec<ByKind>,
}

impl KindTimes {
    fn add_round(&mut self, schedule: &Schedule, rows: &mut Rows) {
        self.steps.push(clocked(schedule, rows, Rows::step));
        self.pauses.push(clocked(schedule, rows, Rows::pause));
    }

    fn figure(&self, of_round: impl Fn(&ByKind) -> f64) -> Figure {
        let [steps, pauses] = [&self.steps, &self.pauses].map(|rounds| Figure::of(rounds.iter().map(&of_round).collect()));
        steps.less(pauses)
    }

    fn of_kind(&self, kind: usize) -> Figure {
        self.figure(|round| round[kind])
    }

    /// A mean step, with as many of each kind as a schedule has.
    fn as_in(&self, schedule: &Schedule) -> Figure {
        let shares: ByKind = std::array::from_fn(|kind| share(schedule, kind));
        self.figure(|round| round.iter().zip(&shares).map(|(time, share)| time * share).sum())
    }
}

fn clocked(schedule: &Schedule, rows: &mut Rows, go: fn(&mut Rows, u64)) -> ByKind {
    let mut sums = [Duration::ZERO; KINDS.len()];
    let mut kinds = schedule.kinds.iter();
    replay(schedule, rows, Rows::plant, |rows, worker| {
        let kind = usize::from(*kinds.next().expect("a kind for each step"));
        let from = Instant::now();
        go(rows, worker);
        sums[kind] += from.elapsed();
    });
    std::array::from_fn(|kind| sums[kind].as_nanos() as f64 / steps_of_kind(schedule, kind) as f64)
}

fn steps_of_kind(schedule: &Schedule, kind: usize) -> usize {
    schedule.kinds.iter().filter(|&&other| usize::from(other) == kind).count()
}

/// The part that a kind has in all steps of a schedule.
fn share(schedule: &Schedule, kind: usize) -> f64 {
    steps_of_kind(schedule, kind) as f64 / schedule.kinds.len() as f64
}

// ---------------------------------------------------------------- report

fn print_heading(first: &str, others: &[&str]) {
    let others: String = others.iter().map(|other| format!("{other:>18}")).collect();
    println!("{first:<29}{others}");
}

fn print_courses(courses: &[Course]) {
    print_heading("nanoseconds: best, median", &["step:", "step:", "start:", "operation:", "operation:"]);
    print_heading("cells workers steps/operation", &["library", "independent", "library", "library", "locked book"]);
    for course in courses {
        let Schedule { cells, workers, turns, operations, .. } = &course.schedule;
        print!("{cells:>5} {workers:>7} {:>15.1}", turns.len() as f64 / operations.len() as f64);
        print_pair(course.library_step());
        print_pair(course.independent_step());
        print_pair(course.library_start());
        print_pair(course.library_operation());
        print_pair(course.book_operation());
        println!();
    }
}

fn print_pair(figure: Figure) {
    print!("{:>9.1} {:>8.1}", figure.best, figure.median);
}

/// Why the means of the smallest and the largest size differ.
fn print_kinds(small: &Course, large: &Course) {
    println!();
    print_heading("each step clocked by itself", &["share of steps:", "nanoseconds:", "nanoseconds:", "N = 4096"]);
    print_heading("kind of step", &["N = 2, N = 4096", "N = 2", "N = 4096", "over N = 2"]);
    for (kind, name) in KINDS.iter().enumerate() {
        let [in_small, in_large] = [small, large].map(|course| course.by_kind.of_kind(kind));
        print!("{name:<29}");
        print!("{:>8.1}% {:>7.1}%", 100.0 * share(&small.schedule, kind), 100.0 * share(&large.schedule, kind));
        print_pair(in_small);
        print_pair(in_large);
        let ratio = in_large.over(in_small);
        println!("{:>9.2} {:>8.2}", ratio.best, ratio.median);
    }
}

fn print_ratio(name: &str, ratio: Figure) {
    println!("  {name:<60} {:>6.2} {:>6.2}", ratio.best, ratio.median);
}

fn print_ratios(courses: &[Course]) {
    let [small, middle, large] = [PLACE_OF_SMALLEST, PLACE_OF_MIDDLE, PLACE_OF_LARGEST].map(|place| &courses[place]);
    println!();
    println!("ratios, of the best and of the medians");
    for course in [small, middle, large] {
        let cells = course.schedule.cells;
        let [step, operation] = [course.library_step(), course.library_operation()];
        print_ratio(&format!("a step, library over independent, N = {cells}"), step.over(course.independent_step()));
        print_ratio(&format!("an operation, library over locked book, N = {cells}"), operation.over(course.book_operation()));
    }
    let [one, sixteen] = [PLACE_OF_ONE_WORKER, PLACE_OF_SIXTEEN_WORKERS].map(|place| courses[place].library_step());
    print_ratio("a step, 16 workers over 1", sixteen.over(one));
    let [in_small, in_large] = [small, large].map(|course| course.by_kind.as_in(&middle.schedule));
    print_ratio("a step, N = 4096 over N = 2, kinds of steps as at N = 64", in_large.over(in_small));
    print_ratio("a step, N = 4096 over N = 2 (goal: at most 1.3)", large.library_step().over(small.library_step()));
}

fn measure(rounds: usize) {
    let mut courses: Vec<Course> = COURSES.into_iter().map(Course::new).collect();
    courses.iter_mut().for_each(Course::check);
    [PLACE_OF_SMALLEST, PLACE_OF_MIDDLE, PLACE_OF_LARGEST].iter().for_each(|&place| agree_with_book(COURSES[place].0));
    (0..rounds).for_each(|_| courses.iter_mut().for_each(Course::add_round));
    print_courses(&courses);
    let [small, large] = [PLACE_OF_SMALLEST, PLACE_OF_LARGEST].map(|place| &courses[place]);
    if large.library_step().over(small.library_step()).median > GOAL {
        print_kinds(small, large);
    }
    print_ratios(&courses);
}

fn main() -> ExitCode {
    let arguments: Vec<String> = env::args().skip(1).collect();
    let rounds = match arguments.as_slice() {
        [rounds] => rounds.parse().ok().filter(|&rounds| rounds > 0),
        _ => None,
    };
    let Some(rounds) = rounds else {
        eprintln!("{USAGE}");
        return ExitCode::from(2);
    };
    measure(rounds);
    ExitCode::SUCCESS
}
