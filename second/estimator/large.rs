//! The page's large sizes, which small cases do not reach: up to 4,096 cells, 16 workers and 1,000,000 versions.
//! Both implementations keep their own rows; these are driven by the same calls and stay the same.

use std::ops::Range;

use super::calls::MOST_WORKERS;
use super::cases::row_differences;
use super::chance::Chance;
use super::conversion::Level;
use super::damage::Aim;
use super::played::{plain_ask, sensible_ask};
use super::record::{Operation, Query, Record, Update};
use super::refusal::{Clause, Refusal, Side, Swapping};
use super::report::{Report, Wanted};
use super::rows::{Ask, Call, Row, Rows, Spot};
use super::tables::{versions_in, Cell, Size, MOST_VERSIONS, VERSION_WORDS};
use super::Calls;

const MOST_VERSION_WORDS: usize = VERSION_WORDS * MOST_VERSIONS as usize;

/// Exactly V = 1,000,000, a little less, and tables longer than that, for which V stays the same.
const VERSION_ROWS: [usize; 5] =
    [MOST_VERSION_WORDS, MOST_VERSION_WORDS - 1, MOST_VERSION_WORDS + 4, MOST_VERSION_WORDS + 5, MOST_VERSION_WORDS + 500_000];
const LARGE_SIZES: [u64; 3] = [4_096, 2_048, 64];
const CALLS_BY_CHANCE: u64 = 6_000;

/// After so many calls the whole version tables are compared.
const CALLS_BETWEEN_WHOLE: u64 = 2_000;

pub fn compare_large(other: &dyn Calls, seed: u64) -> Report {
    let mut chance = Chance::new(seed);
    let mut report = Report::default();
    for version_words in VERSION_ROWS {
        report = LARGE_SIZES.iter().fold(report, |report, &cells| {
            let size = Size::of(cells).expect("a power of two within the bounds");
            compare_size(other, &mut chance, size, version_words, report)
        });
    }
    report
}

/// What the large sizes are there for: refusal 8 where the last of a million versions are promised, refusal 9 for a used count
/// above V and for a swap that finds no version left, and whole operations.
pub fn wanted() -> Wanted {
    let rooms = Swapping::ALL.iter().map(|&swapping| Clause::SwapWithoutRoom(swapping));
    let above = [Clause::StartUsed(Side::Above), Clause::Used(Side::Above)];
    Wanted {
        accepted: vec![Call::Open, Call::Start, Call::Step],
        answers: (0..=6).collect(),
        refused: vec![8, 9],
        clauses: above.into_iter().chain(rooms).collect(),
    }
}

fn compare_size(other: &dyn Calls, chance: &mut Chance, size: Size, version_words: usize, report: Report) -> Report {
    let rows = Rows::for_tree(size.cells, MOST_WORKERS, version_words);
    let mut twin = Twin { other, size, written: rows.clone(), others: rows, report };
    twin.open();
    twin.play(chance, CALLS_BY_CHANCE, false);
    twin.play(chance, CALLS_BY_CHANCE, true);
    twin.open();
    twin.play(chance, CALLS_BY_CHANCE, false);
    twin.step_past_the_last();
    twin.hand_out_the_last();
    twin.play(chance, CALLS_BY_CHANCE, true);
    twin.compare_whole();
    twin.report
}

/// The same rows twice, each in the hands of one implementation.
struct Twin<'a> {
    other: &'a dyn Calls,
    size: Size,
    written: Rows,
    others: Rows,
    report: Report,
}

impl Twin<'_> {
    /// Puts a call to both sides, and compares what it returns and what a start or a step may write: the answer's row, the board,
    /// the node table, and the version after the last used one. The whole version tables are compared now and then and at the end.
    /// This suffices: a word wrongly written elsewhere stays wrong until then. For what is written on both sides is compared
    /// before: here the version after the last used one, in `open` the whole tables, in `set` the word.
    fn ask(&mut self, ask: &Ask) -> u64 {
        const UNTOUCHED: u64 = 77;
        let next = self.next_version();
        self.compare_versions(next.clone());
        let (mut answer, mut others_answer) = ([UNTOUCHED; 4], [UNTOUCHED; 4]);
        let judged = ask.judged(&mut self.written, &mut answer);
        let number = judged.map_or_else(Refusal::number, |()| 0);
        let returned = ask.put_to(self.other, &mut self.others, &mut others_answer);
        assert_eq!(returned, number, "{ask:?}, {judged:?}");
        let differences = [
            row_differences("answer", &answer, &others_answer),
            row_differences("nodes", &self.written.nodes, &self.others.nodes),
            row_differences("board", &self.written.board, &self.others.board),
        ];
        assert_eq!(differences.concat(), [""; 0], "{ask:?}, {judged:?}");
        self.compare_versions(next);
        self.report.count(ask.call, judged, &answer);
        if self.report.cases.is_multiple_of(CALLS_BETWEEN_WHOLE) {
            self.compare_whole();
        }
        number
    }

    /// The words of the version after the last used one, as far as there are any; the used count may be any word.
    fn next_version(&self) -> Range<usize> {
        let first = VERSION_WORDS * self.written.used().min(self.most_used()) as usize;
        first..self.written.versions.len().min(first + VERSION_WORDS)
    }

    fn compare_versions(&self, words: Range<usize>) {
        let differences = row_differences("versions", &self.written.versions[words.clone()], &self.others.versions[words.clone()]);
        assert_eq!(differences, [""; 0], "version tables from word {} on, after {} cases", words.start, self.report.cases);
    }

    fn compare_whole(&self) {
        self.compare_versions(0..self.written.versions.len());
    }

    fn set(&mut self, spot: Spot, value: u64) {
        assert_eq!(self.written.word(spot), self.others.word(spot), "{spot:?} before it is set, after {} cases", self.report.cases);
        self.written.set(spot, value);
        self.others.set(spot, value);
    }

    fn most_used(&self) -> u64 {
        versions_in(self.written.versions.len())
    }

    /// The page: "Open may be called again: it begins a new history."
    fn open(&mut self) {
        self.compare_whole();
        assert_eq!(self.ask(&plain_ask(self.size, MOST_WORKERS, Call::Open)), 0, "open of {:?}", self.size);
        self.compare_whole();
    }

    fn start(&mut self, worker: u64, operation: Operation) -> u64 {
        self.ask(&Ask { worker, operation: operation.words(), ..plain_ask(self.size, MOST_WORKERS, Call::Start) })
    }

    fn step(&mut self, worker: u64) -> u64 {
        self.ask(&Ask { worker, ..plain_ask(self.size, MOST_WORKERS, Call::Step) })
    }

    /// Calls by chance, with words damaged before each and, mostly, put back after it.
    fn play(&mut self, chance: &mut Chance, calls: u64, damaged: bool) {
        for _ in 0..calls {
            let ask = sensible_ask(chance, self.size, MOST_WORKERS, &self.written);
            if damaged {
                self.ask_damaged(chance, &ask);
            } else {
                self.ask(&ask);
            }
        }
    }

    /// The words that are put back are those of both sides, since `set` has compared them.
    fn ask_damaged(&mut self, chance: &mut Chance, ask: &Ask) {
        let aim = Aim { size: self.size, workers: MOST_WORKERS, worker: ask.worker, rows: &self.written };
        let damage = if ask.call == Call::Start { aim.damage_for_start(chance) } else { aim.damage_for_step(chance) };
        let before: Vec<(Spot, u64)> = damage.iter().map(|&(spot, _)| (spot, self.written.word(spot))).collect();
        damage.into_iter().for_each(|(spot, value)| self.set(spot, value));
        if self.ask(ask) != 0 {
            before.into_iter().for_each(|(spot, value)| self.set(spot, value));
        }
    }

    /// Lets every worker come to its end, so that nothing is promised.
    fn rest(&mut self) {
        for worker in 0..MOST_WORKERS {
            self.run(worker);
        }
    }

    fn run(&mut self, worker: u64) {
        while matches!(self.written.record(worker), Some(Record::Busy(_))) {
            assert_eq!(self.step(worker), 0, "a step of an undamaged history");
        }
    }

    /// An update of one cell that always succeeds: Insert where it is unmarked and Delete where it is marked.
    fn turn_over(&self, cell: Cell) -> Operation {
        let leaf = self.written.nodes[self.size.leaf(cell).0 as usize] as usize;
        let marked = self.written.versions[VERSION_WORDS * (leaf - 1) + 2] == 1;
        Operation::Update(if marked { Update::Delete(cell) } else { Update::Insert(cell, Level(40)) })
    }

    /// Swaps that would succeed with used = V, one that fails there, and used counts past V. The count is then put back.
    fn step_past_the_last(&mut self) {
        self.rest();
        let (used, most, cell) = (self.written.used(), self.most_used(), Cell(0));
        let leaf = Spot { row: Row::Nodes, index: self.size.leaf(cell).0 as usize };
        assert_eq!(self.start(0, self.turn_over(cell)), 0, "an update finds versions");
        assert_eq!(self.step(0), 0, "the leaf is read");
        self.set(Spot::USED, most);
        assert_eq!(self.step(0), 9, "a swap that would succeed finds used = V");
        [most + 1, most + 2, MOST_VERSIONS + 1, u64::MAX].into_iter().for_each(|past| {
            self.set(Spot::USED, past);
            assert_eq!(self.step(0), 9, "used is {past}, above V");
            assert_eq!(self.start(1, Operation::Query(Query::Total)), 9, "used is {past}, above V");
        });
        self.set(Spot::USED, most);
        let current = self.written.word(leaf);
        self.set(leaf, 0);
        assert_eq!(self.step(0), 0, "a swap that fails needs no version");
        self.set(leaf, current);
        self.set(Spot::USED, used);
        self.run(0);
    }

    /// Two updates take the last versions that there are; before, between and behind them refusal 8 is at its edge.
    fn hand_out_the_last(&mut self) {
        let (most, made) = (self.most_used(), self.size.most_made());
        let (first, last) = (Cell(0), Cell(self.size.cells - 1));
        self.set(Spot::USED, most - 2 * made);
        assert_eq!(self.start(0, self.turn_over(first)), 0, "one update finds versions");
        assert_eq!(self.start(1, self.turn_over(last)), 0, "another finds just enough");
        assert_eq!(self.start(2, self.turn_over(last)), 8, "the rest is promised");
        self.run(0);
        assert_eq!(self.start(0, self.turn_over(first)), 8, "the rest is still promised");
        self.run(1);
        assert_eq!(self.written.used(), most, "the last version is handed out");
        assert_eq!(self.start(0, self.turn_over(first)), 8, "no version is left");
        assert_eq!(self.start(0, Operation::Query(Query::Rank(last))), 0, "a query needs none");
        self.run(0);
        self.compare_whole();
    }
}
